#!/bin/sh
# Only what starts threads, or waits for them or for a line, takes the bounds for it: nm_threads; `classify` of nm_runs, which is
# handed a runtime; the programs numatrace and numatrace_session; and tests. Prints each other file that names one, and then ends
# with status 1.
set -eu
cd "$(dirname "$0")/.."
# shellcheck disable=SC2046 # (the names of crates and files have no spaces)
found=$(find crates/*/src -name '*.rt' -exec grep -lE '\b(Threads|Wait)\b' {} + | grep -vE '^crates/(nm_threads|nm_crate_tests|nm_system_tests|numatrace|numatrace_session)/|^crates/nm_runs/src/parallel\.rt$' || :)
[ -z "$found" ] && exit 0
printf '%s: names a handle for threads\n' $found
exit 1
