#!/bin/sh
# Runs examples/vintages.ipynb with the real Jupyter and renders it to build/vintages.html: `make notebook`.
#
# Debian's Jupyter is installed where it is missing. Its kernel is Debian's Python, which finds the package in python/.
set -eu

cd "$(dirname "$0")/.."

fail() {
    echo "notebook: $*" >&2
    exit 1
}

have_jupyter() {
    command -v jupyter-nbconvert >/dev/null && /usr/bin/python3 -c 'import ipykernel' 2>/dev/null
}

install_jupyter() {
    as_root=
    if [ "$(id -u)" -ne 0 ]; then
        command -v sudo >/dev/null || return 1
        as_root=sudo
    fi
    command -v apt-get >/dev/null || return 1
    $as_root apt-get update -q && $as_root apt-get install -q -y --no-install-recommends jupyter-nbconvert python3-ipykernel
}

[ -f python/palhavento/libpalhavento.so ] || fail "the package has no library yet: run 'make python' first"
if ! have_jupyter; then
    install_jupyter >&2 || fail "cannot install jupyter-nbconvert and python3-ipykernel; install them and run this again"
    have_jupyter || fail "jupyter-nbconvert and python3-ipykernel are installed, but cannot be used"
fi

mkdir -p build
PYTHONPATH=$PWD/python PYDEVD_DISABLE_FILE_VALIDATION=1 jupyter-nbconvert --execute --to html --output-dir build examples/vintages.ipynb
