#!/bin/sh
# Plays each example, each trace of the tests, a long one, whose runs are long enough for several workers, and two that reach
# limits, with 1, 2, 3 and 64 workers: the report is the one beside the trace, byte for byte, the status is 0, and standard error is
# empty. Of a bad trace the program says what is wrong with it, and nothing else. An argument names a program other than the one that
# ./build makes. Silent where all is well.
set -eu
program=${1-}
case $program in
'' | /*) ;;
*) program=$(pwd)/$program ;;
esac
cd "$(dirname "$0")/.."
program=${program:-$(pwd)/crates/numatrace/out/numatrace}
[ -x "$program" ] || { echo "tests/traces.sh: there is no program $program: run ./build first" >&2; exit 1; }
room=$(mktemp -d)
trap 'rm -rf "$room"' EXIT
trap 'exit 130' HUP INT TERM
tests/long_run.py "$room/long_run.json" "$room/long_run.report"
tests/limits.py "$room"
for trace in examples/*.json tests/traces/*.json "$room"/*.json; do
    for workers in 1 2 3 64; do
        status=0
        "$program" --workers "$workers" < "$trace" > "$room/out" 2> "$room/err" || status=$?
        if [ "$status" != 0 ] || [ -s "$room/err" ] || ! cmp -s "$room/out" "${trace%.json}.report"; then
            echo "tests/traces.sh: $trace with $workers workers ends with $status, or its report differs from the one beside it:" >&2
            cat "$room/err" >&2
            diff "${trace%.json}.report" "$room/out" | head -n 10 >&2
            exit 1
        fi
    done
done

# What it says of a bad trace.
expect_fault() {
    status=0
    printf %s "$2" | "$program" > "$room/out" 2> "$room/err" || status=$?
    if [ "$status" = 0 ] || [ -s "$room/out" ] || ! echo "$(basename "$program"): $1" | cmp -s - "$room/err"; then
        echo "tests/traces.sh: $2 ends with $status, and not with the fault $1:" >&2
        cat "$room/err" >&2
        exit 1
    fi
}
expect_fault 'not JSON' '{"version":1'
expect_fault 'bad machine' '{"version":3}'
expect_fault 'bad step 1' '{"version":1,"machine":{"nodes":[4],"distance":[[10]]},"steps":[{"op":"vmstat"},{"op":"free"}]}'
