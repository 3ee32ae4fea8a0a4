#!/bin/sh
# Builds the benchmark, runs it, and prints its tables: bench/run.sh [--quick]
#
# BEFORE         an earlier commit to compare with, or a library's file
# ROUNDS         how many rounds; 21 if not given
# VERSIONS       versions of the file, as in "1 2"; all that the library offers if not given
# PALHAVENTO_LIB the library to measure, static or shared; target/staticlib/libcapi.a if not given
# CC             the compiler; gcc if not given
#
# The tables are kept in build/bench.md, all that was measured in build/bench.json. Debian's SQLite, LMDB and valgrind are
# installed where they are missing.
set -eu

cd "$(dirname "$0")/.."
library=${PALHAVENTO_LIB:-target/staticlib/libcapi.a}
compiler=${CC:-gcc}
room=build/bench

fail() {
    echo "bench: $*" >&2
    exit 1
}

have_packages() {
    command -v valgrind >/dev/null &&
        printf '#include <sqlite3.h>\n#include <lmdb.h>\n#include <valgrind/callgrind.h>\n' |
        "$compiler" -E - >/dev/null 2>&1
}

install_packages() {
    as_root=
    if [ "$(id -u)" -ne 0 ]; then
        command -v sudo >/dev/null || return 1
        as_root=sudo
    fi
    command -v apt-get >/dev/null || return 1
    $as_root apt-get update -q && $as_root apt-get install -q -y libsqlite3-dev liblmdb-dev valgrind
}

# The two builds are measured as shared libraries, since both have the same names for their calls.
share() {
    case $1 in
    *.so) cp "$1" "$2" ;;
    *) "$compiler" -shared -Wl,--whole-archive "$1" -Wl,--no-whole-archive -o "$2" ;;
    esac
}

compile() {
    program=$1
    shift
    (cd bench && "$compiler" -std=gnu11 -D_GNU_SOURCE -O3 -Wall -Wextra -I../include "$program.c" operations.c setting.c scene.c \
        names.c library.c palhavento.c "$@" -o "../$room/$program")
}

fact() {
    printf 'fact\t%s\t%s\n' "$1" "$2"
}

commit_measured() {
    [ -z "${PALHAVENTO_LIB:-}" ] || { echo "$PALHAVENTO_LIB"; return; }
    commit=$(git rev-parse --short HEAD 2>/dev/null) || { echo 'no commit'; return; }
    [ -z "$(git status --porcelain -- crates)" ] || commit="$commit, changed since"
    echo "$commit"
}

# What cannot be seen in the figures themselves.
facts() {
    fact now "$(commit_measured)"
    [ -z "${BEFORE:-}" ] || fact before "$(git rev-parse --short --verify --quiet "$BEFORE^{commit}" || echo "$BEFORE")"
    fact machine "$(uname -m), $(nproc) processors, $(sed -n 's/^model name[^:]*: //p' /proc/cpuinfo | head -n 1)"
    fact disk "$(stat -f -c %T "$room")"
    fact load "$(cut -d ' ' -f 1 /proc/loadavg) before the first round"
}

rounds=21
microseconds=4000
case ${1:-} in
'') ;;
--quick)
    rounds=3
    microseconds=300
    ;;
*) fail "usage: bench/run.sh [--quick]" ;;
esac
[ -f "$library" ] || fail "there is no $library; build it with 'make library', or set PALHAVENTO_LIB"
command -v "$compiler" >/dev/null || fail "there is no C compiler '$compiler'; install gcc, or set CC"
if ! have_packages; then
    install_packages >&2 || fail "cannot install libsqlite3-dev, liblmdb-dev and valgrind; install them and run this again"
    have_packages || fail "the packages are installed, but $compiler does not find sqlite3.h, lmdb.h and valgrind/callgrind.h"
fi

rm -rf "$room"
mkdir -p "$room/callgrind"
compile bench stopwatch.c scratch.c sqlite.c lmdb.c array.c reading.c -lsqlite3 -llmdb
compile count
share "$library" "$room/now.so"
set -- -n "$PWD/$room/now.so"
if [ -n "${BEFORE:-}" ]; then
    before=$BEFORE
    [ -f "$before" ] || before=$(bench/before.sh "$BEFORE")
    share "$before" "$room/before.so"
    set -- "$@" -b "$PWD/$room/before.so"
fi
[ -z "${VERSIONS:-}" ] || set -- "$@" -v "$VERSIONS"

facts > "$room/lines"
echo "bench: counting instructions" >&2
(cd "$room/callgrind" && valgrind -q --tool=callgrind --toggle-collect='pal_*' --callgrind-out-file=out ../count "$@") \
    >> "$room/lines"
"$room/bench" "$@" -r "${ROUNDS:-$rounds}" -t "$microseconds" -d "$room" >> "$room/lines"
python3 bench/report.py "$room/lines" "$room/callgrind" build/bench.md build/bench.json
