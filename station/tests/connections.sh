#!/usr/bin/env bash
# Half requests, pipelining, the longest lines, QUIT, protocol errors, the 17th console, and the station at rest.
. "$(dirname "$0")/common.sh"
start_station --versions 4000 --bytes 1000000

python3 "$HERE/connections.py" "$PORT" > "$WORK/python.out" || { cat "$WORK/python.out"; exit 1; }
cat "$WORK/python.out"

same "a rest without its end gets no reply" "$(ask 'PING\r\nPIN')" '+PONG\r'
same "QUIT drops what stands behind it" "$(ask 'PING\r\nQuIt\r\nPING\r\n')" "$(printf '+PONG\\r\n+OK\\r')"
same "a protocol error drops what stands behind it" "$(ask '*x\r\nPING\r\n')" "-ERR Protocol error: invalid multibulk length 'x'\\r"
same "an empty request" "$(ask '\r\n*0\r\nPING\r\n')" '+PONG\r'
same "binary keys" "$(ask '*3\r\n$3\r\nSET\r\n$3\r\n\001\r\n\r\n$2\r\n\r\n\r\n*2\r\n$3\r\nGET\r\n$3\r\n\001\r\n\r\n')" "$(printf '+OK\\r\n$2\\r\n\\r\n\\r')"

# At rest the station uses less than a tenth of a processor: 100 ticks are one second.
ticks() { sed 's/.*) //' "/proc/$STATION_PID/stat" | awk '{print $12 + $13}'; }
sleep 1
BEFORE=$(ticks)
sleep 3
AFTER=$(ticks)
same "at rest" "$([ $((AFTER - BEFORE)) -lt 30 ] && echo quiet || echo "$((AFTER - BEFORE)) ticks in 3 s")" quiet
finish
