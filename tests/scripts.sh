#!/bin/sh
# Tests the scripts `numatrace` and `build` with a program and a toolchain in place of the real ones: arguments, streams and status are
# passed on, crates are proved in their order, and what was proved is kept. And the version is the same wherever it is given.
set -eu
cd "$(dirname "$0")/.."
top=$(pwd)
there=$(mktemp -d)
trap 'rm -rf "$there"' EXIT
trap 'exit 130' HUP INT TERM
fail() {
    echo "tests/scripts.sh: $1" >&2
    exit 1
}

# The version is in the file VERSION, and in places that cannot read a file.
version=$(cat VERSION)
grep -qxF "const VERSION: &str = \"$version\";" crates/nm_words/src/words.rt || fail "the program's version is not $version"
for page in numatrace numatrace-session numalab; do
    grep -qi "^\.TH $page 1 [0-9-]* \"numatrace $version\" " "docs/$page.1" || fail "the version of docs/$page.1 is not $version"
done
for each in Cargo.toml Cargo.lock; do
    grep -qxF "version = \"$version\"" "bindings/rust/$each" || fail "the version in bindings/rust/$each is not $version"
done
[ "$(sed -n 's/^## \([0-9][0-9.]*\).*/\1/p' CHANGELOG.md | head -n 1)" = "$version" ] || fail "the latest version in CHANGELOG.md is not $version"

# ---- The script numatrace

clone=$there/clone
mkdir -p "$clone/crates/numatrace/out" "$clone/crates/numatrace/src" "$clone/tools" "$there/bin"
cp numatrace build "$clone/"
cp tools/prove_all.py "$clone/tools/"
printf '#!/bin/sh\n' > "$clone/tools/prove.py"
chmod +x "$clone/tools/prove.py"
: > "$clone/crates/numatrace/stdin"
printf 'numatrace: clap\n' > "$clone/crates.txt"
echo 'fn main() {}' > "$clone/crates/numatrace/src/main.rt"
cat > "$there/stand_in" << 'END'
#!/bin/sh
printf '%s;' "$@"
cat
printf 'err %s' "$GLIBC_TUNABLES" >&2
exit 4
END
chmod +x "$there/stand_in"
program=$clone/crates/numatrace/out/numatrace
cp "$there/stand_in" "$program"

# Calls the script at a path with a trace and arguments, and expects the program's own answer; other arguments set its environment.
expect_passed_on() {
    script=$1
    shift
    status=0
    printf 'in\000put' | env "$@" "$script" --one 'two words' '' > "$there/out" 2> "$there/err" || status=$?
    [ "$status" = 4 ] || fail "$script ends with $status and not with the program's status"
    printf -- '--one;two words;;in\000put' | cmp -s - "$there/out" || fail "$script does not pass on arguments or streams"
}
expect_message() {
    [ "$(cat "$there/err")" = "$1" ] || fail "$2: $(cat "$there/err")"
}

# Arguments, streams and status are passed on, also through a link, and memory comes as the script says unless the user says otherwise.
expect_passed_on "$clone/numatrace" -u GLIBC_TUNABLES
expect_message 'err glibc.malloc.hugetlb=1:glibc.malloc.mmap_threshold=33554432:glibc.malloc.trim_threshold=67108864' "standard error has more than the program's"
ln -s clone/numatrace "$there/link"
ln -s ../link "$there/bin/numatrace"
expect_passed_on "$there/link" GLIBC_TUNABLES=glibc.malloc.check=1
expect_message 'err glibc.malloc.check=1' "GLIBC_TUNABLES is not the user's"
expect_passed_on "$there/bin/numatrace" GLIBC_TUNABLES=
expect_message 'err ' "an empty GLIBC_TUNABLES is not the user's"

# At a terminal, a bad trace is followed by a line that names numalab why; elsewhere, and after other words, by nothing.
cat > "$there/bad" << 'END'
#!/bin/sh
echo 'numatrace: bad step 1' >&2
exit 2
END
chmod +x "$there/bad"
cp "$there/bad" "$program"
cat > "$there/terminal.py" << 'END'
import os
import pty
import subprocess
import sys

ours, theirs = pty.openpty()
process = subprocess.Popen(sys.argv[1:], stdin=subprocess.DEVNULL, stderr=theirs)
os.close(theirs)
told = b""
while True:
    try:
        part = os.read(ours, 4096)
    except OSError:
        break
    told += part
print(process.wait(), told.decode().replace("\r", ""), end="")
END
python3 "$there/terminal.py" "$clone/numatrace" > "$there/out"
[ "$(head -n 1 "$there/out")" = "2 numatrace: bad step 1" ] || fail "at a terminal it says $(cat "$there/out")"
grep -q '^numatrace: ./numalab why TRACE .*write NAME.nt' "$there/out" || fail "at a terminal it does not name numalab why: $(cat "$there/out")"
[ "$(python3 "$there/terminal.py" "$clone/numatrace" --version)" = "2 numatrace: bad step 1" ] || fail "other words are taken for a bad trace"
status=0
"$clone/numatrace" < /dev/null 2> "$there/err" || status=$?
[ "$status$(cat "$there/err")" = "2numatrace: bad step 1" ] || fail "a script gets more than the program's line: $(cat "$there/err")"
cp "$there/stand_in" "$program"

# Changed sources are reported by their contents: not where only their times changed, nor for a program that came from elsewhere.
changed="numatrace: the sources have changed since the program was built: ./build rebuilds it
err "
record() {
    printf '#!/bin/sh\nexit 0\n' > "$there/bin/rt"
    chmod +x "$there/bin/rt"
    (cd "$clone" && PATH="$there/bin:$PATH" ./build --first 2> "$there/told") || fail "a build with nothing to do fails: $(cat "$there/told")"
}
echo 'Handles allowed: none.' > "$clone/HANDLES"
record
touch -t 209901010000 "$clone/crates/numatrace/src/main.rt"
expect_passed_on "$clone/numatrace" GLIBC_TUNABLES=
expect_message 'err ' "a source with only a new time is reported as changed"
echo 'fn main() { }' > "$clone/crates/numatrace/src/main.rt"
touch -t 200001010000 "$clone/crates/numatrace/src/main.rt"
echo 0 > "$program.looked"
expect_passed_on "$clone/numatrace" GLIBC_TUNABLES=
expect_message "$changed" "a source that changed goes unnoticed"
cp -R "$clone" "$there/elsewhere"
echo 'fn main() {}' > "$there/elsewhere/crates/numatrace/src/main.rt"
echo 0 > "$there/elsewhere/crates/numatrace/out/numatrace.looked"
expect_passed_on "$there/elsewhere/numatrace" GLIBC_TUNABLES=
expect_message 'err ' "a copied program is reported as older than its own sources"
echo '# another' >> "$program"
echo 0 > "$program.looked"
expect_passed_on "$clone/numatrace" GLIBC_TUNABLES=
expect_message 'err ' "a program that no build made is reported as older"

# Without the kit and without a program, a line says where a release comes from.
rm "$program"
mkdir "$there/few"
for tool in sh readlink; do ln -s "$(command -v "$tool")" "$there/few/$tool"; done
status=0
PATH="$there/few" "$clone/numatrace" < /dev/null > "$there/out" 2> "$there/err" || status=$?
[ "$status $(wc -l < "$there/err")" = '1 1' ] || fail "without the kit it ends with $status and says: $(cat "$there/err")"
grep -q 'no Rattle kit .*\./release' "$there/err" || fail "without the kit it does not say where a release comes from"

# The first call shows what an unproved build reports, on standard error, and then passes on the built program's report.
printf '#!/bin/sh\necho "unproved $*"\ncat\necho noise >&2\n' > "$there/bin/rt"
printf '#!/bin/sh\n[ "$*" = --first ] && cp "%s" "%s"\n' "$there/stand_in" "$program" > "$clone/build"
status=0
printf 'input' | PATH="$there/bin:$PATH" "$clone/numatrace" --one > "$there/out" 2> "$there/err" || status=$?
[ "$status" = 4 ] || fail "the first call's status is $status and not the program's"
printf -- '--one;input' | cmp -s - "$there/out" || fail "the first call's arguments or streams differ"
grep -q 'unproved try -- --one' "$there/err" || fail "the first call shows no report of an unproved build"
grep -q '^input' "$there/err" || fail "the unproved build does not get the trace"
grep -q 'numatrace: built; ./build also makes numatrace_session' "$there/err" || fail "the first call does not say who makes the program for sessions"
! grep -q 'noise' "$there/err" || fail "the toolchain's own lines are shown"

# ---- The script build

# A toolchain that notes where it is called, needs the libraries of the crates below, and makes one; FAILS and SLOW name crates.
toolchain() {
    printf '#!/bin/sh\nexec rt "$@"\n' > "$all/tools/prove.py"
    cat > "$there/bin/rt" << 'END'
#!/bin/sh
[ "$1" != version ] || { echo "the kit"; exit; }
name=$(basename "$(pwd)")
cd ../..
echo "begins $name" >> "$NOTES"
for below in $(sed -n "s/^$name[^:]*://p" crates.txt); do
    ! grep -q "^$below[ :]" "$ALL/crates.txt" || [ -f "crates/$below/out/rlib/stamp" ] || { echo "$name lacks $below" >> "$NOTES"; exit 1; }
done
[ "$name" != "$SLOW" ] || exec sleep 60
[ "$name" != "$FAILS" ] || { echo "a goal is open"; exit 1; }
mkdir -p "crates/$name/out/rlib"
echo "$name" > "crates/$name/out/rlib/stamp"
[ "$1" = lib ] || { echo program > "crates/$name/out/$name" && chmod +x "crates/$name/out/$name"; }
[ "$name" != nm_library ] || echo library > "crates/$name/out/libnm_library.a"
echo "ends $name" >> "$NOTES"
END
    chmod +x "$there/bin/rt" "$all/tools/prove.py"
}
all=$there/all
mkdir -p "$all/tools"
cp tools/prove_all.py "$all/tools/"
toolchain
cp -R build crates.txt HANDLES "$all/"
for crate in crates/*/; do mkdir -p "$all/$crate/src"; done
mkdir "$all/packaging"
printf '#!/bin/sh\necho links >> "$NOTES"\n' > "$all/packaging/library"
chmod +x "$all/packaging/library"
for crate in numatrace numatrace_session; do : | tee "$all/crates/$crate/stdin" > "$all/crates/$crate/src/main.rt"; done
build_all() {
    : > "$there/notes"
    FAILS=$1 SLOW=$2 NOTES="$there/notes" ALL="$all" PATH="$there/bin:$PATH" "$all/build" 2> "$there/err"
}
count() {
    find "$all"/crates/*/out -name "$1" | wc -l
}

expect_kept() {
    [ "$(cat "$all/crates/nm_crew/out/kept")" = kept ] || fail "$1"
}
# Waits until the build that is under way notes this.
until_noted() {
    left=3000
    until grep -q "$1" "$there/notes"; do
        left=$((left - 1))
        [ "$left" -gt 0 ] && kill -0 "$building" 2> /dev/null || fail "a build does not come to $1: $(cat "$there/err")"
        sleep 0.1
    done
}
# Waits until no process that a stopped build had started is left: the build's lock is theirs as well.
until_free() {
    flock -w 300 "$all/crates" true || fail "processes of a build that was told to stop do not end"
}

# Each crate of the programs is proved once, after those below it, that of sessions and then the library last; no crate is proved that
# these do not need.
build_all '' '' || fail "a build fails: $(cat "$there/err" "$there/notes")"
proved=$(count stamp)
[ "$(grep -c '^begins' "$there/notes")" = "$proved" ] || fail "a crate is proved more than once"
[ ! -e "$all/crates/nm_system_tests/out" ] || fail "a build proves what the program does not depend on"
[ "$(tail -n 6 "$there/notes" | tr '\n' ' ')" = "ends numatrace begins numatrace_session ends numatrace_session begins nm_library ends nm_library links " ] ||
    fail "a build does not make the program for sessions and the library last: $(tail -n 6 "$there/notes")"
for program in numatrace numatrace_session nm_library; do
    made=$all/crates/$program/out/$program
    [ "$program" != nm_library ] || made=$all/crates/nm_library/out/libnm_library.a
    [ -f "$made" ] || fail "a build makes no $program"
    grep -q ' the kit$' "$made.sources" || fail "a build does not note sources and kit of $program"
    [ "$("$all/build" --sources "$program")" = same ] || fail "the sources that were built are not recognized"
done

# The first call's build makes no program for sessions; and where that fails, numatrace is there and known.
rm -r "$all/crates/numatrace_session/out"
: > "$there/notes"
env FAILS= SLOW= NOTES="$there/notes" ALL="$all" PATH="$there/bin:$PATH" "$all/build" --first 2> "$there/err" || fail "build --first fails"
[ ! -e "$all/crates/numatrace_session/out" ] || fail "build --first makes the program for sessions"
status=0
build_all numatrace_session '' || status=$?
[ "$status $("$all/build" --sources) $("$all/build" --sources numatrace_session)" = '1 same unknown' ] ||
    fail "a build without the program for sessions ends with $status, or forgets numatrace"
grep -q 'the program numatrace_session was not built' "$there/err" || fail "such a build says: $(cat "$there/err")"
build_all '' '' || fail "the program for sessions is not built anew"

# One that fails says which crate was not proved and where it says why, and keeps what was proved, the failed one's as well.
rm -r "$all"/crates/nm_crew/out/rlib
echo kept > "$all/crates/nm_crew/out/kept"
status=0
build_all nm_crew '' || status=$?
[ "$status" = 1 ] || fail "a build that fails ends with $status"
grep -q 'nm_crew was not proved: crates/nm_crew/out/build.log says why' "$there/err" || fail "a build that fails says: $(cat "$there/err")"
grep -q 'a goal is open' "$all/crates/nm_crew/out/build.log" || fail "the log of a crate does not say why"
expect_kept "a build that fails loses what was kept"
[ "$(count stamp)" = $((proved - 1)) ] || fail "a build that fails loses what was proved"

# One that is told to stop ends soon and keeps what it had; and two do not run at a time.
: > "$there/notes"
env FAILS= SLOW=nm_crew NOTES="$there/notes" ALL="$all" PATH="$there/bin:$PATH" "$all/build" 2> "$there/err" &
building=$!
until_noted '^begins nm_crew'
status=0
PATH="$there/bin:$PATH" "$all/build" 2> "$there/second" || status=$?
[ "$status" = 1 ] || fail "two builds run at a time"
grep -q 'another build' "$there/second" || fail "a second build says: $(cat "$there/second")"
kill "$building"
status=0
wait "$building" || status=$?
[ "$status" = 130 ] || fail "a build that is told to stop ends with $status"
until_free
expect_kept "a build that is told to stop loses what was kept"

# ---- tools/prove.py

# A kit that says which flags keep the work of a check, and which of two crates, one below the other, are locked.
cat > "$there/bin/rt" << 'END'
import types
rtlib = types.SimpleNamespace(KEPT=["--incremental", "out/incremental"], lock=lambda crates: crates)
def main(words):
    print(*words, *rtlib.KEPT, *rtlib.lock(["below", "own"]))
END
proved() {
    (cd "$all/crates/nm_crew" && PATH="$there/bin:$PATH" "$top/tools/prove.py" "$@")
}
[ "$(proved lib --jobs 2)" = "lib --jobs 2 --statements own" ] || fail "a library is not proved from nothing: $(proved lib --jobs 2)"
[ "$(proved run --jobs 1)" = "run --jobs 1 own" ] || fail "a program is not proved from nothing: $(proved run --jobs 1)"
mkdir "$all/crates/nm_crew/out/incremental"
[ "$(proved lib --jobs 2)" = "lib --jobs 2 --incremental out/incremental own" ] || fail "what a check kept is not used: $(proved lib --jobs 2)"
