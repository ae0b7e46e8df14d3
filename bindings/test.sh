#!/usr/bin/env bash
# Builds the library, static and shared, and tests it from C, Rust and Python: every call, the stack that the header states,
# the example in each language, and that no call is left out. Also builds the programs of tests/independent: bounds.c,
# graphs.c, index.c, interchanges.c, plots.c, rows.c and supports.c; and c/picture.c, which draws a tree.
# Needs the Rattle kit (rt on the PATH), a C compiler, cargo and Python 3; nothing is fetched. All that it makes is in
# target/bindings.
set -euo pipefail
cd "$(dirname "$0")"
made=$(cd .. && pwd -P)/target/bindings

../tools/native.sh norbelath "$made/libnorbelath.a"
../tools/native.sh norbelath "$made/libnorbelath.so"

# compile SOURCE PROGRAM: a program in C with the static library
compile() {
    "${CC:-cc}" -std=c11 -O2 -Wall -Wextra -Werror -pthread -I../include "$1" "$made/libnorbelath.a" -o "$made/$2"
}

# The neighbours example, which is the same in each language.

from() { local input=$1 && shift && "$@" <"$input"; }
unreadable() { "$@" 0>"$made/for_writing_only"; }
unwritable() { "$@" >/dev/full; }

# ends STATUS COMMAND...: how an example has to end; where the status is not 0, it prints an error alone
ends() {
    local expected=$1 status=0
    shift
    "$@" >"$made/example.txt" 2>"$made/example.err" || status=$?
    [ "$status" -eq "$expected" ] || { echo "status $status, not $expected: $*"; exit 1; }
    if [ "$status" -ne 0 ] && { [ -s "$made/example.txt" ] || [ "$(wc -l <"$made/example.err")" -ne 1 ]; }; then
        echo "not one line on standard error alone: $*"
        exit 1
    fi
}

# try_example PROGRAM...
try_example() {
    ends 0 from examples/trees.txt "$@"
    diff examples/neighbours.txt "$made/example.txt"
    ends 0 from /dev/null "$@"
    diff <(echo 'trees 0 topologies 0 pairs 0 islands 0') "$made/example.txt"
    printf '(1,2);(1,3);' >"$made/refused.txt"
    ends 1 from "$made/refused.txt" "$@"
    grep -qE '^refused 5 at 11(:|$)' "$made/example.err"
    head -c 65536 /dev/zero >"$made/refused.txt"
    ends 1 from "$made/refused.txt" "$@"
    grep -qE '^refused 8(:|$)' "$made/example.err"
    ends 2 unreadable "$@"
    ends 2 unwritable from examples/trees.txt "$@"
}

# C: the header alone, every call, the stack.
for standard in c99 c11; do
    "${CC:-cc}" -std=$standard -Wall -Wextra -Werror -pedantic -fsyntax-only -x c ../include/norbelath.h
done
if command -v "${CXX:-c++}" >/dev/null; then
    "${CXX:-c++}" -std=c++11 -Wall -Wextra -Werror -pedantic -fsyntax-only -x c++ ../include/norbelath.h
fi
compile c/test.c c-test
"$made/c-test" | tee "$made/c-test.txt"
compile c/stack.c stack
"$made/stack"
compile c/examples/neighbours.c neighbours
try_example "$made/neighbours"

for program in bounds graphs index interchanges plots rows supports; do
    compile "../tests/independent/$program.c" "$program"
done
compile c/picture.c picture

# Rust
rust-tests/check.sh "$made" | tee "$made/rust-test.txt"
try_example "$made/cargo/release/examples/neighbours"

# Python
export NORBELATH_LIBRARY=$made/libnorbelath.so PYTHONDONTWRITEBYTECODE=1
python3 python/test.py | tee "$made/python-test.txt"
PYTHONPATH=python try_example python3 python/examples/neighbours.py

python3 calls.py "$made/libnorbelath.a" "$made/c-test.txt" "$made/rust-test.txt" "$made/python-test.txt"
