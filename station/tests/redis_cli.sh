#!/usr/bin/env bash
# redis-cli against the station: commands, transactions, conflict, errors, numbers.
. "$(dirname "$0")/common.sh"
start_station --versions 200 --bytes 100000

same "PING" "$(cli PING)" PONG
same "SET" "$(cli SET f 402500)" OK
same "GET" "$(cli GET f)" 402500
same "GET of an absent key" "$(cli GET none)" ""
same "INCR" "$(cli INCR n)" 1
same "INCRBY" "$(cli INCRBY n 41)" 42
same "DECR" "$(cli DECR n)" 41
same "INCR of a text" "$(cli SET t x; cli INCR t)" "$(printf 'OK\nERR value is not an integer or out of range')"
same "MSET, MGET" "$(cli MSET a 1 b 2; cli MGET a b none)" "$(printf 'OK\n1\n2\n')"
same "DEL counts a repeated key twice" "$(cli DEL a a)" 2
same "EXISTS" "$(cli EXISTS b b none)" 2
same "DBSIZE" "$(cli DBSIZE)" 4
same "KEYS" "$(cli KEYS '?')" "$(printf 'b\nf\nn\nt')"
same "ECHO" "$(cli ECHO 'two words')" "two words"
same "unknown command" "$(cli FOO)" "ERR unknown command 'FOO'"
same "wrong argument count" "$(cli GET)" "ERR wrong number of arguments for 'get' command"

same "MULTI, EXEC" "$(printf 'MULTI\nSET x 1\nINCR x\nGET x\nEXEC\n' | cli)" "$(printf 'OK\nQUEUED\nQUEUED\nQUEUED\nOK\n2\n2')"
same "MULTI, EXEC of nothing" "$(printf 'MULTI\nEXEC\n' | cli)" "$(printf 'OK\n')"
same "DISCARD" "$(printf 'MULTI\nSET x 9\nDISCARD\nGET x\n' | cli)" "$(printf 'OK\nQUEUED\nOK\n2')"
same "EXECABORT" "$(printf 'MULTI\nFOO\nSET x 9\nEXEC\nGET x\n' | cli)" \
    "$(printf "OK\nERR 'FOO' can't be used inside MULTI\n\nQUEUED\nEXECABORT Transaction discarded because of previous errors.\n\n2")"
same "EXECABORT after a wrong count" "$(printf 'MULTI\nSET x 9\nSET x\nEXEC\nGET x\n' | cli)" \
    "$(printf "OK\nQUEUED\nERR wrong number of arguments for 'set' command\n\nEXECABORT Transaction discarded because of previous errors.\n\n2")"
same "EXECABORT after SET with options" "$(printf 'MULTI\nSET x 9 EX 5\nEXEC\nGET x\n' | cli)" \
    "$(printf 'OK\nERR SET options (EX, NX, ...) are not supported\n\nEXECABORT Transaction discarded because of previous errors.\n\n2')"
same "EXEC without MULTI" "$(cli EXEC)" "ERR EXEC without MULTI"

# Two consoles: the second writes the watched key before the first carries out its queue.
mkfifo "$WORK/first"
cli < "$WORK/first" > "$WORK/first.out" &
FIRST=$!
exec 7> "$WORK/first"
printf 'SET w 1\nWATCH w\nMULTI\nSET w 2\n' >&7
for _ in $(seq 100); do [ "$(grep -c . "$WORK/first.out")" = 4 ] && break; sleep 0.05; done
same "the first console has queued" "$(cat "$WORK/first.out")" "$(printf 'OK\nOK\nOK\nQUEUED')"
same "the second console writes" "$(cli SET w 3)" OK
printf 'EXEC\nGET w\nSET w 4\n' >&7
exec 7>&-
wait "$FIRST"
same "WATCH conflict" "$(cat "$WORK/first.out")" "$(printf 'OK\nOK\nOK\nQUEUED\n\n3\nOK')"
same "without conflict" "$(printf 'WATCH w\nMULTI\nSET w 5\nEXEC\nGET w\n' | cli)" "$(printf 'OK\nOK\nQUEUED\nOK\n5')"

# A console that leaves inside MULTI with a watch: its session is clear for the next one.
same "a console leaves in the middle" "$(printf 'WATCH w\nMULTI\nSET w 6\n' | cli)" "$(printf 'OK\nOK\nQUEUED')"
same "the next one finds a clear session" "$(printf 'SET w 7\nEXEC\nMULTI\nEXEC\nGET w\n' | cli)" "$(printf 'OK\nERR EXEC without MULTI\n\nOK\n\n7')"

# Numbers close the console that met them and no other.
same "number 4" "$(printf 'MULTI\r\n%65sEXEC\r\nPING\r\n' '' | sed 's/ /PING\r\n/g' > "$WORK/queue"; python3 "$HERE/talk.py" "$PORT" < "$WORK/queue" | tail -1 | tr -d '\r')" "-ERR number 4: the queue is full"
same "number 5" "$(ask "WATCH $(seq -s ' ' 33)\r\nPING\r\n")" '-ERR number 5: the watch is full\r'
same "number 2" "$(ask '*1048576\r\n')" '-ERR number 2: the request has too many arguments\r'
same "the others stay" "$(cli GET w)" 7
for i in $(seq 200); do echo "SET fill $i"; done | cli > "$WORK/fill.out" 2>&1 || true
same "number 6" "$(grep -c '^ERR number 6: the store is full' "$WORK/fill.out" | sed 's/[1-9][0-9]*/some/')" some
same "a full store still reads" "$(cli GET w)" 7
finish
