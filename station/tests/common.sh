# Shared by the scripts: a station on a free port, and comparisons that stop at the first difference.
set -eu
HERE=$(cd "$(dirname "${BASH_SOURCE[0]}")" && pwd)
STATION=${STATION:?set STATION to the program station}
WORK=$(mktemp -d)
STATION_PID=
REDIS_PID=

end() {
    [ -z "$STATION_PID" ] || kill "$STATION_PID" 2>/dev/null || true
    [ -z "$REDIS_PID" ] || kill "$REDIS_PID" 2>/dev/null || true
    rm -rf "$WORK"
}
trap end EXIT

# start_station [OPTIONS]: sets PORT.
start_station() {
    [ -z "$STATION_PID" ] || { kill "$STATION_PID"; wait "$STATION_PID" 2>/dev/null || true; }
    : > "$WORK/said"
    "$STATION" --address 127.0.0.1:0 "$@" > "$WORK/said" 2> "$WORK/station.err" &
    STATION_PID=$!
    for _ in $(seq 100); do
        PORT=$(sed -n 's/^listening on .*:\([0-9]*\)$/\1/p' "$WORK/said")
        [ -z "$PORT" ] || return 0
        sleep 0.05
    done
    echo "the station did not start"
    cat "$WORK/station.err"
    exit 1
}

COUNT=0
# same WHAT GOT DUE
same() {
    COUNT=$((COUNT + 1))
    if [ "$2" != "$3" ]; then
        printf '%s: %s\n got %q\n due %q\n' "$(basename "$0")" "$1" "$2" "$3"
        exit 1
    fi
}

# The station still runs; a panic would have ended it.
alive() {
    kill -0 "$STATION_PID" 2>/dev/null || { echo "the station has ended"; cat "$WORK/station.err"; exit 1; }
}

finish() {
    alive
    echo "$(basename "$0"): $COUNT comparisons hold"
}

# ask TEXT: sends the text (with printf escapes), closes the sending side, shows all that comes back with CR as \r.
ask() {
    printf "$1" | python3 "$HERE/talk.py" "$PORT" | sed 's/\r/\\r/g'
}

cli() {
    redis-cli -h 127.0.0.1 -p "$PORT" "$@"
}
