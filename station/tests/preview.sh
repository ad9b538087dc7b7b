#!/usr/bin/env bash
# PREVIEW, the server's own request: what it tells comes true, and the session stays as it is.
. "$(dirname "$0")/common.sh"
start_station --versions 12 --bytes 1000

# told WHAT SENT DUE: the bytes that come back, both texts with printf escapes.
told() {
    same "$1" "$(ask "$2")" "$(printf -- "$3" | sed 's/\r/\\r/g')"
}

WITHOUT='-ERR EXEC without MULTI\r\n'
ABORTED='-EXECABORT Transaction discarded because of previous errors.\r\n'
ACCEPTED='*2\r\n+OK\r\n:2\r\n'
told "outside MULTI" 'PREVIEW\r\nEXEC\r\n' "*3\r\n:255\r\n:0\r\n$WITHOUT$WITHOUT"
told "accepted, and EXEC gives it" 'MULTI\r\nSET x 1\r\nINCR x\r\nPREVIEW\r\nEXEC\r\nPREVIEW\r\n' \
    "+OK\r\n+QUEUED\r\n+QUEUED\r\n*3\r\n:0\r\n:1\r\n$ACCEPTED$ACCEPTED*3\r\n:255\r\n:1\r\n$WITHOUT"
told "nothing is written" 'MULTI\r\nSET x 9\r\nPREVIEW\r\nDISCARD\r\nGET x\r\n' '+OK\r\n+QUEUED\r\n*3\r\n:0\r\n:2\r\n*1\r\n+OK\r\n+OK\r\n$1\r\n2\r\n'
told "conflict" 'WATCH x\r\nSET x 3\r\nMULTI\r\nSET y 1\r\nPREVIEW\r\nEXEC\r\nGET y\r\n' '+OK\r\n+OK\r\n+OK\r\n+QUEUED\r\n*3\r\n:1\r\n:2\r\n*-1\r\n*-1\r\n$-1\r\n'
told "a failed session" 'MULTI\r\nFOO\r\nPREVIEW\r\nEXEC\r\nPREVIEW\r\n' \
    "+OK\r\n-ERR 'FOO' can't be used inside MULTI\r\n*3\r\n:255\r\n:2\r\n$ABORTED$ABORTED*3\r\n:255\r\n:2\r\n$WITHOUT"
told "it is not queued and marks nothing" 'MULTI\r\nPREVIEW\r\nPING\r\nPREVIEW\r\nEXEC\r\n' '+OK\r\n*3\r\n:0\r\n:2\r\n*0\r\n+QUEUED\r\n*3\r\n:0\r\n:2\r\n*1\r\n+PONG\r\n*1\r\n+PONG\r\n'
told "each form, between other requests" 'PING\r\nPREVIEW\r\nPING\r\npreview\nPING\r\n*1\r\n$7\r\nPreView\r\nPING\r\n' \
    "+PONG\r\n*3\r\n:255\r\n:2\r\n$WITHOUT+PONG\r\n*3\r\n:255\r\n:2\r\n$WITHOUT+PONG\r\n*3\r\n:255\r\n:2\r\n$WITHOUT+PONG\r\n"
told "behind QUIT" 'QUIT\r\nPREVIEW\r\n' '+OK\r\n'
told "not whole" 'PREVIEW' ''
told "an array that is not whole" '*1\r\n$7\r\nPREVIEW\r' ''
told "other names" 'PREVIEWS\r\nPREVIE\r\n' "-ERR unknown command 'PREVIEWS'\r\n-ERR unknown command 'PREVIE'\r\n"
told "with an argument it is the registry's" 'PREVIEW a\r\n*2\r\n$7\r\nPREVIEW\r\n$1\r\na\r\n' "-ERR unknown command 'PREVIEW'\r\n-ERR unknown command 'PREVIEW'\r\n"
told "with an argument inside MULTI" 'MULTI\r\nPREVIEW a\r\nPREVIEW\r\n' "+OK\r\n-ERR 'PREVIEW' can't be used inside MULTI\r\n*3\r\n:255\r\n:2\r\n$ABORTED"
same "redis-cli" "$(printf 'MULTI\nMGET x none\nPREVIEW\nEXEC\n' | cli --no-raw)" \
    "$(printf 'OK\nQUEUED\n1) (integer) 0\n2) (integer) 2\n3) 1) 1) "3"\n      2) (nil)\n1) 1) "3"\n   2) (nil)')"

# Two consoles: the first is told that its EXEC is accepted, and after a write of the second that it is a conflict.
mkfifo "$WORK/first"
cli < "$WORK/first" > "$WORK/first.out" &
FIRST=$!
exec 7> "$WORK/first"
printf 'WATCH x\nMULTI\nSET x 4\nPREVIEW\n' >&7
for _ in $(seq 100); do [ "$(grep -c . "$WORK/first.out")" = 6 ] && break; sleep 0.05; done
same "before the second console writes" "$(cat "$WORK/first.out")" "$(printf 'OK\nOK\nQUEUED\n0\n3\nOK')"
same "the second console is outside MULTI" "$(cli PREVIEW)" "$(printf '255\n2\nERR EXEC without MULTI')"
same "the second console writes" "$(cli SET x 5)" OK
printf 'PREVIEW\nEXEC\nGET x\n' >&7
exec 7>&-
wait "$FIRST"
same "after it" "$(cat "$WORK/first.out")" "$(printf 'OK\nOK\nQUEUED\n0\n3\nOK\n1\n3\n\n\n5')"

# A number is told and leaves the console open; EXEC closes it.
FULL='-ERR number 6: the store is full\r\n'
told "the store is filled" 'DEL a b c d e f g h i\r\n' ':0\r\n'
told "number 6" 'MULTI\r\nSET x 6\r\nPREVIEW\r\nDISCARD\r\nPING\r\n' "+OK\r\n+QUEUED\r\n*3\r\n:255\r\n:0\r\n$FULL+OK\r\n+PONG\r\n"
told "number 6 by EXEC" 'MULTI\r\nSET x 6\r\nPREVIEW\r\nEXEC\r\nPING\r\n' "+OK\r\n+QUEUED\r\n*3\r\n:255\r\n:0\r\n$FULL$FULL"
finish
