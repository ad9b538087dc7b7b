#!/usr/bin/env bash
# run_all.sh LIB [REFERENCE]: builds the station and its tests against the static library LIB and runs them all, each within a
# bound of seconds. LIB is crates/registry_c/out/libregistry_c.a, which `rt lib` writes in crates/registry_c; REFERENCE is the folder reference/
# of the repository. Ends with status 0 only if everything passed.
set -u
HERE=$(cd "$(dirname "$0")" && pwd)
ROOT=$(dirname "$HERE")
STATION_LIB=$(realpath "${1:?the path of libregistry_c.a}")
REFERENCE=$(realpath "${2:-$ROOT/reference}")
CALLS=${CALLS:-1000000}
STATES=${STATES:-120000}
STRINGS=${STRINGS:-100000}
export STATION_LIB
export CARGO_TARGET_DIR=${CARGO_TARGET_DIR:-$HERE/target}
BIN=$CARGO_TARGET_DIR/release
export STATION=$BIN/station
FAILED=0

# step NAME BOUND COMMAND..
step() {
    local name=$1 bound=$2 begin=$SECONDS
    shift 2
    if timeout "$bound" "$@"; then
        echo "passed: $name ($((SECONDS - begin)) s)"
    else
        echo "FAILED: $name ($((SECONDS - begin)) s, bound $bound s)"
        FAILED=$((FAILED + 1))
    fi
}

build() { cd "$HERE" && cargo build --release --offline --quiet; }
# c_program STANDARD SOURCE: builds a C source of the repository against the library, into BIN.
c_program() { cc -std="$1" -Wall -Wextra -Werror -I "$ROOT/include" "$ROOT/$2" "$STATION_LIB" -o "$BIN/$(basename "$2" .c)"; }
c_test() { c_program c11 tests/c_test.c && "$BIN/c_test"; }
fuzz_replies() { c_program c11 tests/replies_lib.c && "$REFERENCE/fuzz_replies.py" "$BIN/replies_lib" 1 "$1"; }
read_replies() { c_program c99 examples/read_replies.c && READ_REPLIES=$BIN/read_replies "$HERE/tests/read_replies.sh"; }
show_replies() { c_program c11 examples/show_replies.c && python3 "$HERE/tests/show_replies.py" "$BIN/show_replies"; }
build_reference() { [ -x "$REFERENCE/rust/frames_rust" ] || "$REFERENCE/rust/build.sh"; }
sample() { cmp <("$1" < "$REFERENCE/samples/$2.in") "$REFERENCE/samples/$2.out"; }
compare() { cd "$REFERENCE" && ./compare.py "$@"; }
export HERE ROOT BIN REFERENCE
export -f build c_program c_test fuzz_replies read_replies show_replies build_reference sample compare

step "build" 600 bash -c build
[ "$FAILED" = 0 ] || exit 1
step "C" 60 bash -c c_test
step "reference built" 600 bash -c build_reference
for name in mixed-1 mixed-2 mixed-3 mixed-4 watched limits published; do
    step "sample $name" 60 bash -c 'sample "$@"' _ "$BIN/frames_lib" "$name"
done
for name in groups group-limits previews; do
    step "sample $name" 60 bash -c 'sample "$@"' _ "$BIN/groups_lib" "$name"
done
step "damaged states and groups" 600 "$BIN/damage" 1 "$STATES" 30000
step "lock step with the Rust" 900 "$BIN/lockstep" "$REFERENCE/rust/frames_rust" 1 "$CALLS"
step "model: watches" 300 bash -c 'compare "$@"' _ model "$BIN/frames_lib" watched 1 40
step "model: limits" 300 bash -c 'compare "$@"' _ model "$BIN/frames_lib" limits
step "model: numbers" 300 bash -c 'compare "$@"' _ model "$BIN/frames_lib" numbers 1 20
step "model: long lines" 300 bash -c 'compare "$@"' _ model "$BIN/frames_lib long" long
step "model: groups with limits" 300 bash -c 'compare "$@"' _ model "$BIN/groups_lib" group-limits 1 150
step "model: previews" 300 bash -c 'compare "$@"' _ model "$BIN/groups_lib" previews 1 100
step "replies beside the reference" 300 bash -c 'fuzz_replies "$@"' _ "$STRINGS"
step "read_replies" 60 bash -c read_replies
step "show_replies" 120 bash -c show_replies
for name in redis_cli preview connections benchmark side_by_side; do
    step "$name" 180 "$HERE/tests/$name.sh"
done
echo "$FAILED failed"
[ "$FAILED" = 0 ]
