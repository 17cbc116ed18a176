#!/bin/sh
# Makes a release of the built program and tries it where there is no kit: the archive is unpacked, and its install run, in a root
# that has only a shell, some tools and the C library, and the package is installed into one. Then install and the scripts in this
# clone are tried. With --twins CLONE it only compares the programs with those of another clone, and prints their checksums; with
# --twins alone it makes that clone, and builds there, which may take as long as ./build does.
set -eu
cd "$(dirname "$0")/.."
program=crates/numatrace/out/numatrace
session=crates/numatrace_session/out/numatrace_session
library=crates/nm_library/out/lib/libnumatrace.so.1
fail() {
    echo "tests/release.sh: $1" >&2
    exit 1
}
note() {
    echo "tests/release.sh: $1" >&2
}
for each in "$program" "$session" "$library"; do [ -x "$each" ] || fail "there is no $each: run ./build first"; done
there=$(mktemp -d)
trap 'rm -rf "$there"' EXIT
trap 'exit 130' HUP INT TERM

twins() {
    other=${1-}
    if [ -z "$other" ]; then
        other=$there/another/folder
        mkdir -p "$other"
        git ls-files -z | tar --null -T - -cf - | tar -C "$other" -xf -
        "$other/build" < /dev/null
    fi
    for each in "$program" "$session" "$library"; do
        cmp "$each" "$other/$each" || fail "the programs of two clones differ"
        echo "one program in two folders: sha256 $(sha256sum < "$each" | cut -c 1-64)"
    done
}
case ${1-} in
'') ;;
--twins)
    twins "${2-}"
    exit
    ;;
*) fail "it takes no argument other than --twins" ;;
esac

version=$(cat VERSION)
name=numatrace-$version-x86_64-linux
trace=$PWD/examples/three_pages.json
report=$PWD/examples/three_pages.report
root=$there/root

# The release, made twice, is the same byte for byte, the second time with another folder for temporary files.
./release > "$there/sums"
mv dist "$there/first"
mkdir "$there/tmp"
TMPDIR=$there/tmp TZ=Asia/Tokyo ./release > "$there/again"
cmp "$there/sums" "$there/again" || fail "two releases of the same program differ"
rm -r "$there/first"
package=dist/numatrace_${version}_amd64.deb

# A root with these tools and the libraries that they load, and nothing else: no kit, no Python, no mounts.
make_root() {
    mkdir -p "$root/tmp" "$root/dev" "$root/bin"
    : > "$root/dev/null"
    for tool in sh cat chmod cp dirname find grep mkdir mktemp mv readlink rm rmdir sed sort; do
        cp -L "$(command -v "$tool")" "$root/bin/$tool"
        ldd "$root/bin/$tool"
    done | grep -o '/[^ )]*\.so[^ )]*' | sort -u | while read -r library; do
        mkdir -p "$root${library%/*}"
        cp -L "$library" "$root$library"
    done
}
enter() {
    if [ "$(id -u)" = 0 ]; then chroot "$root" "$@"; else unshare -r chroot "$root" "$@"; fi
}
# Plays the example with a command, and expects its report, byte for byte.
expect_report() {
    "$@" < "$trace" > "$there/out" 2> "$there/err" || fail "$* ends with $?: $(cat "$there/err")"
    cmp -s "$there/out" "$report" || fail "$* writes a different report"
    [ ! -s "$there/err" ] || fail "$* says: $(cat "$there/err")"
}
# Plays it step by step, and expects the same lines, each step's with an empty one after them.
expect_replies() {
    sed '1s/,"steps":\[$/}/; $s/\]}$//; s/,$//' "$trace" > "$there/lines"
    "$@" < "$there/lines" > "$there/out" 2> "$there/err" || fail "$* ends with $?: $(cat "$there/err")"
    sed 's/$/\n/' "$report" | cmp -s "$there/out" - || fail "$* writes different replies"
}

make_root
! enter /bin/sh -c 'command -v rt || command -v python3' > "$there/out" || fail "the root has a kit"
tar -C "$root" -xzf "dist/$name.tar.gz"
expect_report enter "/$name/bin/numatrace"
expect_replies enter "/$name/bin/numatrace-session"
enter "/$name/install" --prefix '/opt/a prefix' > "$there/out" || fail "install of a release fails in the root"
expect_report enter '/opt/a prefix/bin/numatrace'
expect_replies enter '/opt/a prefix/bin/numatrace-session'
rm -r "${root:?}/$name"
expect_report enter '/opt/a prefix/bin/numatrace' --workers 64
tar -C "$root" -xzf "dist/$name.tar.gz"
enter "/$name/install" --uninstall --prefix '/opt/a prefix'
[ -z "$(find "$root/opt" -mindepth 1)" ] || fail "--uninstall leaves something of a release: $(find "$root/opt")"
for each in "$program" "$session" "$library"; do
    grep -q "^sha256:   $(sha256sum < "$each" | cut -c 1-64)$" "$root/$name/PROVENANCE" || fail "PROVENANCE has a different sum"
done
grep -q '^| `IsPlayed` |' "$root/$name/share/doc/numatrace/docs/DEFINITIONS_ALL.md" || fail "the list of all definitions is not that of the sources"
rm -r "${root:?}/$name"

# The package puts the command and the man page in place, and its removal takes them away.
dpkg_there() {
    PATH=$PATH:/usr/sbin:/sbin dpkg --root="$root" --force-not-root "$@" > "$there/said" 2>&1 || fail "dpkg $1 fails: $(cat "$there/said")"
}
mkdir -p "$root/var/lib/dpkg/info" "$root/var/lib/dpkg/updates"
cat > "$root/var/lib/dpkg/status" << END
Package: libc6
Status: install ok installed
Architecture: amd64
Maintainer: none
Version: $(dpkg-query -W -f '${Version}' libc6)
Description: the C library that was copied
END
dpkg_there -i "$package"
expect_report enter /usr/bin/numatrace
expect_replies enter /usr/bin/numatrace-session
if command -v man > /dev/null; then
    [ "$(MANPATH=$root/usr/share/man man -w numatrace)" = "$root/usr/share/man/man1/numatrace.1.gz" ] || fail "man does not find the page of the package"
    MANPATH=$root/usr/share/man man --warnings numatrace > "$there/out" 2> "$there/err" || fail "man cannot show the page"
    grep -q -- '--workers' "$there/out" || fail "man shows a different page"
    [ ! -s "$there/err" ] || fail "man says: $(cat "$there/err")"
    MANPATH=$root/usr/share/man man --warnings numatrace-session > "$there/out" 2> "$there/err" || fail "man cannot show the page for sessions"
    [ ! -s "$there/err" ] || fail "man says of the page for sessions: $(cat "$there/err")"
else
    note "there is no command man, so only the files of the pages are compared"
    for page in numatrace numatrace-session; do
        gzip -dc "$root/usr/share/man/man1/$page.1.gz" | cmp - "docs/$page.1" || fail "the package has no man page of $page"
    done
fi
dpkg_there -r numatrace
left=$(find "$root" -path "$root/var" -prune -o -name '*numatrace*' -print)
[ -z "$left" ] || fail "the removal of the package leaves $left"

# The wheel is what pip takes, and has the command.
if python3 -m pip --version > "$there/out" 2>&1; then
    python3 -m pip install --quiet --disable-pip-version-check --root-user-action ignore --no-index --target "$there/python" \
        "dist/numalab-$version-py3-none-any.whl" || fail "pip does not install the wheel"
    ./numalab write "${trace%.json}.nt" > "$there/written"
    (cd "$there" && PYTHONPATH=$there/python python3 -m numalab write "${trace%.json}.nt") | cmp - "$there/written" ||
        fail "numalab of the wheel writes a different trace"
else
    note "there is no pip, so the wheel is not installed"
fi

# lintian finds no error in the package.
if command -v lintian > /dev/null; then
    lintian --allow-root --fail-on error "$package" > "$there/out" 2>&1 || fail "lintian says: $(cat "$there/out")"
else
    note "there is no command lintian, so the package is not checked by it"
fi

# install from this clone, under a prefix that already has a folder: it removes what it made, and replaces nothing of others.
prefix=$there/prefix
mkdir -p "$prefix/bin"
./install --prefix "$prefix" > "$there/out"
expect_report "$prefix/bin/numatrace"
expect_replies "$prefix/bin/numatrace-session"
ln -s "$prefix/bin/numatrace" "$there/link"
expect_report "$there/link"
if command -v cc > /dev/null && command -v pkg-config > /dev/null; then
    # shellcheck disable=SC2046 # (the flags are words)
    cc -o "$there/machine" examples/library/machine.c $(PKG_CONFIG_PATH=$prefix/lib/pkgconfig pkg-config --cflags --libs numatrace) ||
        fail "a program in C cannot be linked with the installed library"
    LD_LIBRARY_PATH=$prefix/lib "$there/machine" | cmp - examples/library/expected || fail "a program in C with the installed library writes something else"
fi
./install --prefix "$prefix" > "$there/out" || fail "install over an earlier one fails"
./install --uninstall --prefix "$prefix"
[ "$(find "$prefix" -mindepth 1)" = "$prefix/bin" ] || fail "--uninstall leaves something: $(find "$prefix")"
echo mine > "$prefix/bin/numatrace"
! ./install --prefix "$prefix" > "$there/out" 2>&1 || fail "install replaces a file that is not its own"
[ "$(cat "$prefix/bin/numatrace")$(find "$prefix" -type f | wc -l)" = mine1 ] || fail "install changes something before it fails"
rm "$prefix/bin/numatrace"
! ./install --uninstall --prefix "$prefix" > "$there/out" 2>&1 || fail "--uninstall succeeds where nothing is installed"

# bash completes the arguments that the program takes, and no others.
if command -v bash > /dev/null; then
    "$program" --help 2>&1 | grep -o -- '--[a-z]*' | sort -u > "$there/words"
    bash -c '. completions/numatrace; COMP_WORDS=(numatrace --) COMP_CWORD=1; _numatrace; printf "%s\n" "${COMPREPLY[@]}"' | sort | cmp - "$there/words" ||
        fail "the completion's arguments are not the program's"
    bash -c '. completions/numalab; COMP_WORDS=(./numalab w) COMP_CWORD=1; _numalab; printf "%s " "${COMPREPLY[@]}"
        COMP_WORDS=(./numalab why --) COMP_CWORD=2; _numalab; printf "%s " "${COMPREPLY[@]}"' > "$there/words"
    [ "$(cat "$there/words")" = "write why --help --strict --no-hints --schema " ] || fail "the completion's arguments for numalab are not those of its help"
fi

# The script of this clone, also through a link.
expect_report ./numatrace
ln -s "$PWD/numatrace" "$there/clone"
expect_report "$there/clone"

# Both scripts start the program within 3 ms, as the median of many starts says: so this wants a machine with nothing beside it. (The
# program gets no trace, and so ends with 2.)
if ! command -v hyperfine > /dev/null; then
    note "there is no command hyperfine, so it is not tested that the scripts start within 3 ms"
    exit
fi
./install --prefix "$prefix" > "$there/out"
hyperfine -N -i --style none --warmup 50 --runs 500 --export-json "$there/times" \
    "$PWD/$program" "$PWD/numatrace" "$prefix/bin/numatrace" > "$there/out" 2>&1 || fail "hyperfine: $(cat "$there/out")"
python3 - "$there/times" << 'END'
import json
import sys

with open(sys.argv[1], encoding="utf-8") as file:
    times = [1000 * result["median"] for result in json.load(file)["results"]]
for name, time in zip(("./numatrace", "an installed numatrace"), times[1:]):
    if time > times[0] + 3:
        sys.exit(f"tests/release.sh: {name} takes {time:.1f} ms, and the program by itself {times[0]:.1f}")
print("started in ms: the program {:.2f}, ./numatrace {:.2f}, an installed numatrace {:.2f}".format(*times))
END
