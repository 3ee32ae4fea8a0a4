#!/bin/sh
# Builds the library of an earlier commit, proved like every other, and prints where it is: bench/before.sh COMMIT
#
# What was built stays in build/before under the commit's number, and is not built again. It is built outside the checkout, since `rt
# ci` refuses a second crates.txt in one. A commit that an older Rattle proved cannot be built.
set -eu

cd "$(dirname "$0")/.."
if ! commit=$(git rev-parse --verify --quiet "$1^{commit}"); then
    echo "bench: there is no commit '$1'" >&2
    exit 1
fi
kept=build/before/$commit.a
if [ ! -f "$kept" ]; then
    echo "bench: building the library of $commit; this can take minutes" >&2
    tree=$(mktemp -d)
    trap 'rm -rf "$tree"' EXIT
    git archive "$commit" | tar -x -C "$tree"
    if [ ! -d "$tree/crates/capi_c" ]; then
        echo "bench: $1 was proved by an older Rattle and cannot be built; name a library's file" >&2
        exit 1
    fi
    make --no-print-directory -C "$tree" library >&2
    mkdir -p build/before
    mv "$tree/target/staticlib/libcapi.a" "$kept"
fi
echo "$kept"
