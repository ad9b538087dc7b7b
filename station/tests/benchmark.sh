#!/usr/bin/env bash
# redis-benchmark, bounded: every request is answered, and the counter stands at the number of increments.
. "$(dirname "$0")/common.sh"
start_station --versions 20000 --bytes 2000000
N=${N:-2000}

# At its start it asks for CONFIG, which the registry does not know, and goes on after the error.
bench() {
    timeout 100 redis-benchmark -h 127.0.0.1 -p "$PORT" -q "$@" 2>&1 | tr '\r' '\n' | grep 'requests per second' | sed 's/:.*//' | tr '\n' ' '
}

same "single requests" "$(bench -n "$N" -c 4 -t ping,set,get,incr)" "PING_INLINE PING_MBULK SET GET INCR "
same "increments" "$(cli GET counter:__rand_int__)" "$N"
same "pipelines of 50" "$(bench -n "$N" -c 4 -P 50 -t set,get,incr)" "SET GET INCR "
same "increments twice" "$(cli GET counter:__rand_int__)" "$((2 * N))"
same "many keys, sixteen consoles" "$(bench -n "$N" -c 16 -r 100 -t set,get)" "SET GET "
same "ten pairs at once" "$(bench -n 200 -c 4 -t mset)" "MSET (10 keys) "
finish
