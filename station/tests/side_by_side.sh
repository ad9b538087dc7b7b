#!/usr/bin/env bash
# The same commands to the station and to redis-server, replies compared byte by byte.
. "$(dirname "$0")/common.sh"
start_station --versions 2000 --bytes 100000
REDIS_PORT=$(python3 -c 'import socket; s = socket.socket(); s.bind(("127.0.0.1", 0)); print(s.getsockname()[1])')
redis-server --bind 127.0.0.1 --port "$REDIS_PORT" --save '' --appendonly no --dir "$WORK" > "$WORK/redis.out" 2>&1 &
REDIS_PID=$!
for _ in $(seq 100); do redis-cli -p "$REDIS_PORT" PING > /dev/null 2>&1 && break; sleep 0.05; done
same "all cases" "$(timeout 60 python3 "$HERE/side_by_side.py" "$PORT" "$REDIS_PORT" > "$WORK/cases" || echo failed; tail -1 "$WORK/cases" | sed 's/[0-9][0-9]*/N/g')" \
    "side_by_side.py: N cases with equal replies, N with the differences named" || { cat "$WORK/cases"; exit 1; }
cat "$WORK/cases"
finish
