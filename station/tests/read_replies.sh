#!/usr/bin/env bash
# The program of examples/read_replies.c: on what a station answers, and on replies that come in pieces, have a fault, nest too deep or break off.
. "$(dirname "$0")/common.sh"
READ_REPLIES=${READ_REPLIES:?set READ_REPLIES to the program read_replies}
start_station --versions 200 --bytes 100000

# lines LINE..: each on a line of its own.
lines() { printf '%s\n' "$@"; }
# read_all: what the program prints of its input, and its status if it is not 0.
read_all() { "$READ_REPLIES" || echo "status $?"; }
# answered TEXT: what it prints of the station's replies to the text.
answered() { printf "$1" | python3 "$HERE/talk.py" "$PORT" | read_all; }
# pieces TEXT..: what it prints of texts that come one after another.
pieces() { for text; do printf "$text"; sleep 0.05; done | read_all; }

same "SET, GET" "$(answered 'SET f 402500\r\nGET f\r\nGET g\r\n')" "$(lines 'simple OK' 'bulk 402500' nil)"
same "an error" "$(answered 'GET\r\n')" "error ERR wrong number of arguments for 'get' command"
same "EXEC" "$(answered 'MULTI\r\nINCRBY n -7\r\nMGET f g\r\nEXEC\r\n')" \
    "$(lines 'simple OK' 'simple QUEUED' 'simple QUEUED' 'array of 2' '  integer -7' '  array of 2' '    bulk 402500' '    nil')"
same "EXEC of nothing" "$(answered 'MULTI\r\nEXEC\r\n')" "$(lines 'simple OK' 'array of 0')"
same "EXEC refused" "$(answered 'WATCH f\r\nSET f 1\r\nMULTI\r\nEXEC\r\n')" "$(lines 'simple OK' 'simple OK' 'simple OK' 'nil array')"
same "more items than the first table has places" "$(answered "MGET$(printf ' f%.0s' $(seq 40))\r\n")" "$(lines 'array of 40'; yes '  bulk 1' | head -40)"
same "pieces" "$(pieces '*3\r' '\n*0\r\n*1' '\r\n$4\r\na' '\r\n' 'b\r' '\n:1\r\n+O' 'K\r\n')" \
    "$(lines 'array of 3' '  array of 0' '  array of 1' '    bulk a\x0d\x0ab' '  integer 1' 'simple OK')"
same "eight arrays" "$(pieces "$(printf '*1\\r\\n%.0s' 1 2 3 4 5 6 7 8)" ':1\r\n:2\r\n' | tail -2)" "$(lines '                integer 1' 'integer 2')"
same "nine arrays" "$(pieces "$(printf '*1\\r\\n%.0s' 1 2 3 4 5 6 7 8 9)")" "$(lines 'arrays nest too deep' 'status 1')"
same "a fault" "$(pieces '+OK\r\n*2\r\n:1\r\n:x\r\n')" "$(lines 'simple OK' 'fault at byte 8 of a reply' 'status 1')"
same "a reply that breaks off" "$(pieces '+OK\r\n$5\r\nab')" "$(lines 'simple OK' '6 bytes of an unfinished reply' 'status 1')"
finish
