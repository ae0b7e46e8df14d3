#!/usr/bin/env bash
# Makes the archive of a release: release.sh FOLDER writes FOLDER/norbelath-VERSION-MACHINE-SYSTEM.tar.gz and prints its
# path. The archive is of a commit, and of a proved one: a work tree that is not the commit, a version that is not the same
# everywhere, and crates that rt ci does not pass are refused, with a message on standard error, status 1 and no archive.
# A commit gives the same bytes each time on the same machine with the same kit.
# Needs the Rattle kit (rt on the PATH), git, cc, GNU tar and gzip.
set -euo pipefail
fail() {
    echo "release.sh: $1" >&2
    exit 1
}
[ $# -eq 1 ] || { echo "usage: $0 FOLDER" >&2; exit 2; }
command -v rt >/dev/null || fail "rt: command not found; the Rattle kit is needed"
mkdir -p "$1" || fail "$1: cannot be made"
folder=$(cd "$1" && pwd -P)
cd "$(dirname "$0")/.."
export LC_ALL=C
unset TAR_OPTIONS

# the work tree is the commit, with nothing beside it but what is ignored
is_commit() {
    local changes
    changes=$(git status --porcelain --untracked-files=all) || fail "git does not say whether anything is changed"
    [ -z "$changes" ] || fail "the work tree is not the commit; changed or untracked: $(head -n 1 <<<"$changes" | cut -c 4-)"
    [ "$(git rev-parse HEAD)" = "$commit" ] || fail "the commit is another one now"
}

# stated FILE BEFORE: the version in quotes that stands in FILE behind BEFORE, at the start of a line
stated() { sed -n "s/^$2 *\"\([^\"]*\)\".*/\1/p" "$1"; }

# agrees FILE BEFORE
agrees() { [ "$(stated "$1" "$2")" = "$version" ] || fail "$1 does not have the version $version of include/norbelath.h"; }

# the last lines of a command that fails, and nothing else, are shown
quietly() { "$@" >"$work/log" 2>&1 || { tail -n 20 "$work/log" >&2; return 1; }; }

# build CRATE FILE
build() { tools/native.sh "$1" "$top/$2" || fail "$2 was not built"; }

# take TREE TO LEFT_OUT...: what the commit has in the folder TREE, without the paths that are left out
take() {
    local tree=$1 to=$top/$2
    shift 2
    mkdir -p "$to"
    git archive "$commit:$tree" | tar -x -C "$to" --anchored "${@/#/--exclude=}"
}

commit=$(git rev-parse HEAD) || fail "there is no commit"
is_commit

version=$(stated include/norbelath.h '#define NORBELATH_VERSION')
parts=$(sed -n 's/^#define NORBELATH_VERSION_\(MAJOR\|MINOR\|PATCH\) *\([0-9]*\)$/\2/p' include/norbelath.h | paste -s -d .)
[ -n "$version" ] || fail "include/norbelath.h has no NORBELATH_VERSION"
[ "$parts" = "$version" ] || fail "include/norbelath.h has the version $version, and $parts in parts"
agrees bindings/rust/Cargo.toml 'version ='
agrees bindings/python/pyproject.toml 'version ='
agrees bindings/python/norbelath.py '__version__ ='
agrees report/pyproject.toml 'version ='
agrees report/norbelath_report/__init__.py '__version__ ='

machine=$(uname -m)-$(uname -s | tr '[:upper:]' '[:lower:]')
name=norbelath-$version-$machine
work=$(mktemp -d)
unfinished=
trap 'rm -rf "$work" "$unfinished"' EXIT
top=$work/$name
mkdir "$top"

quietly rt ci || fail "not every crate is proved"
kit=$(rt version)
shared=libnorbelath.so.${version%%.*}
build pair_lister bin/pair_lister
build islands bin/islands
build norbelath lib/libnorbelath.a
build norbelath "lib/$shared"
ln -s "$shared" "$top/lib/libnorbelath.so"
# What was built is the commit's if nothing was changed meanwhile.
is_commit

take include include
take bindings/rust rust tests
take bindings/python python test.py examples
take report report examples README.md
take docs/man share/man/man1
take bindings/examples examples
take report/examples examples
cp bindings/c/examples/neighbours.c bindings/python/examples/neighbours.py "$top/examples/"
cp tools/trees.sh "$top/bin/"
cat >"$top/bin/norbelath" <<'COMMAND'
#!/bin/sh
# The command norbelath. Needs Python 3.9 or newer with DendroPy; PYTHON names another one than python3.
here=$(cd "$(dirname "$(readlink -f "$0")")/.." && pwd -P)
PYTHONPATH=$here/report:$here/python${PYTHONPATH:+:$PYTHONPATH}
export PYTHONPATH
exec "${PYTHON:-python3}" -m norbelath_report "$@"
COMMAND
chmod +x "$top/bin/norbelath"
# The documents stand as in the repository, so that the links between them lead somewhere.
take docs doc/docs man landings
mkdir "$top/doc/bindings" "$top/doc/bench" "$top/doc/report"
cp README.md "$top/doc/"
cp bindings/README.md "$top/doc/bindings/"
cp bench/README.md "$top/doc/bench/"
cp report/README.md "$top/doc/report/"
ln -s ../include "$top/doc/include"

cat >"$top/README" <<README
Norbelath $version for $machine

The neighbour report for samples of phylogenetic trees: which of them are one
subtree move apart. Every function of the programs and of the library is proved
to meet its contract; the Rust and Python packages are tested.

commit  $commit
kit     $kit

Check that all files are those of the release:

    sha256sum -c SHA256SUMS

Run the programs; share/man/man1 has their manual pages:

    bin/pair_lister <examples/trees.txt
    bin/islands <examples/trees.txt

Make a report of samplers' files, check it and verify it. This needs Python 3.9 or
newer with DendroPy (apt install python3-dendropy, or pip install dendropy):

    bin/norbelath report examples/primates.run1.t examples/primates.run2.t -o primates --burn-in 25%
    bin/pair_lister <primates/table.txt | cmp - primates/sheet.txt
    bin/norbelath verify primates examples/primates.run1.t examples/primates.run2.t

Use the library from C, Python 3.9 or newer, or Rust 1.63 or newer. Each example
prints examples/neighbours.txt:

    cc -Iinclude examples/neighbours.c lib/libnorbelath.a -o neighbours
    ./neighbours <examples/trees.txt
    PYTHONPATH=python python3 examples/neighbours.py <examples/trees.txt
    NORBELATH_LIB_DIR=\$PWD/lib cargo run --manifest-path rust/Cargo.toml --example neighbours <examples/trees.txt

doc/README.md is the README of the repository: the programs that it builds into
target are in bin here. doc/docs/RULES.md has the rules, doc/docs/PROMISES.md
what is promised and proved, doc/bindings/README.md the calls, and
doc/report/README.md the reports.
The programs and the library need a processor of x86-64-v2 (SSE4.2, POPCNT), and
the C library of GNU, glibc 2.34 or newer.
README

(cd "$top" && find . -type f -printf '%P\n' | sort | xargs -d '\n' sha256sum) >"$work/sums"
mv "$work/sums" "$top/SHA256SUMS"

# Under its name the archive is there whole or not at all.
unfinished=$(mktemp "$folder/.$name.XXXXXX")
tar -c -C "$work" --format=ustar --sort=name --owner=0 --group=0 --numeric-owner --mode=u=rwX,go=rX \
    --mtime="@$(git log -1 --format=%ct "$commit")" "$name" | gzip -9 -n >"$unfinished"
chmod 644 "$unfinished"
mv "$unfinished" "$folder/$name.tar.gz"
echo "$folder/$name.tar.gz"
