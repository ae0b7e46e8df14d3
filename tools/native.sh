#!/usr/bin/env bash
# Builds a proved crate for x86-64 Linux: native.sh CRATE OUT. OUT is a program where the crate has a main.rt, and else,
# where crates.txt lists it as a staticlib, a library of its exported functions: a shared one where OUT is named FILE.so or
# FILE.so.N, which is then its soname, and else a static one. Needs the Rattle kit (rt on the PATH), and cc for a shared
# library. What is not proved yet is proved first: nothing unproved is built.
set -euo pipefail
[ $# -eq 2 ] || { echo "usage: $0 CRATE OUT" >&2; exit 2; }
command -v rt >/dev/null || { echo "rt: command not found; the Rattle kit is needed" >&2; exit 127; }
[ "$(uname -m)" = x86_64 ] || { echo "$0: the Rattle kit builds for x86-64 only" >&2; exit 1; }
crate=$1
mkdir -p "$(dirname "$2")"
out=$(cd "$(dirname "$2")" && pwd -P)/$(basename "$2")
cd "$(dirname "$0")/../crates/$crate"

work=$(mktemp -d)
trap 'rm -rf "$work"' EXIT
quietly() { "$@" >"$work/log" 2>&1 || { tail -n 20 "$work/log" >&2; exit 1; }; }

if [ -f src/main.rt ]; then
    # A program that is built is also run, here on no input.
    quietly rt run </dev/null
    cp "out/$crate" "$out"
    exit
fi

quietly rt lib
case $out in
*.so | *.so.*)
    # The shared library shows the exported functions and nothing else.
    echo "{ global: ${crate}_*; local: *; };" >"$work/shown"
    quietly cc -shared -Wl,--whole-archive "out/lib$crate.a" -Wl,--no-whole-archive -Wl,-z,defs \
        -Wl,--version-script="$work/shown" -Wl,-soname,"$(basename "$out")" -o "$out"
    ;;
*) cp "out/lib$crate.a" "$out" ;;
esac
