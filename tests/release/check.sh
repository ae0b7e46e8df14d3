#!/usr/bin/env bash
# The archive of a release, and the script that makes it: check.sh ARCHIVE, as tools/release.sh made it of this commit.
# The archive is made again and has to have the same bytes. It is unpacked in an empty folder, where the sums, the programs,
# the examples in C, Python and Rust, the manual pages and the links between the documents are tried. What tools/release.sh
# has to refuse is tried in a clone, where a script that builds nothing stands for the kit.
# Needs what tools/release.sh needs, Python 3 with DendroPy and cargo; nothing is fetched. Its last line is
# 'release: N checks'.
set -euo pipefail
[ $# -eq 1 ] || { echo "usage: $0 ARCHIVE" >&2; exit 2; }
[ -f "$1" ] || { echo "$1: there is no such archive" >&2; exit 2; }
archive=$(cd "$(dirname "$1")" && pwd -P)/$(basename "$1")
repository=$(cd "$(dirname "$0")/../.." && pwd -P)
reference=$repository/tests/independent/reference.py
work=$(mktemp -d)
trap 'rm -rf "$work"' EXIT
work=$(cd "$work" && pwd -P)
name=$(basename "$archive" .tar.gz)
top=$work/unpacked/$name
unset NORBELATH_LIBRARY NORBELATH_LIB_DIR LD_LIBRARY_PATH PYTHONPATH
export LC_ALL=C PYTHONDONTWRITEBYTECODE=1 CARGO_NET_OFFLINE=true CARGO_TARGET_DIR=$work/cargo
checks=0
failed=0

# A Python with DendroPy for the command norbelath: Debian's package is for Debian's own.
for PYTHON in python3 /usr/bin/python3; do
    if "$PYTHON" -c 'import dendropy' 2>/dev/null; then break; fi
done
export PYTHON

# check WORDS COMMAND...: one check, which the command's status decides
check() {
    local words=$1
    shift
    checks=$((checks + 1))
    "$@" >"$work/said" 2>&1 || {
        failed=$((failed + 1))
        echo "release: $words: not so"
        cat "$work/said"
    }
}

# The archive as a file.

same_again() { cmp "$archive" "$("$repository/tools/release.sh" "$work/again")"; }
one_folder() { tar -tf "$archive" >"$work/members" && ! grep -v "^$name/" "$work/members"; }
of_no_user() { tar -tvf "$archive" --numeric-owner >"$work/members" && ! grep -v '^[^ ]* 0/0 ' "$work/members"; }
empty_folder() { mkdir "$1" && tar -xf "$archive" -C "$1"; }

check "made again, it has the same bytes" same_again
check "it has one folder, of its own name" one_folder
check "its files are of no user" of_no_user
empty_folder "$work/unpacked"

# What is in it.

files() { (cd "$top" && find . -type f ! -path ./SHA256SUMS -printf '%P\n' | sort); }
sums() { (cd "${1:-$top}" && sha256sum --strict --quiet -c SHA256SUMS); }
sums_name_all() { cut -c 67- "$top/SHA256SUMS" | diff - <(files); }
of_this_commit() { grep -qx "commit  $(git -C "$repository" rev-parse HEAD)" "$top/README"; }
soname_link() { [ "$(readlink "$top/lib/libnorbelath.so")" = libnorbelath.so.1 ] && [ -f "$top/lib/libnorbelath.so.1" ]; }
nothing_ignored() {
    files | git -C "$repository" check-ignore --no-index --stdin
    [ $? -eq 1 ]
}
no_path_of_here() { ! grep -rF -e "$repository" "$top"; }

check "the sums are right" sums
check "the sums name every file, sorted" sums_name_all
check "README names the commit" of_this_commit
check "the shared library has its two names" soname_link
check "nothing that the repository ignores is in it" nothing_ignored
check "no file names the folder that it was made in" no_path_of_here
for file in bin/pair_lister bin/islands bin/norbelath bin/trees.sh lib/libnorbelath.a include/norbelath.h rust/Cargo.toml \
    rust/examples/neighbours.rs python/norbelath.py python/pyproject.toml report/norbelath_report/__init__.py \
    report/pyproject.toml share/man/man1/pair_lister.1 share/man/man1/islands.1 share/man/man1/norbelath.1 \
    examples/neighbours.c examples/neighbours.py examples/trees.txt examples/neighbours.txt examples/primates.run1.t \
    examples/primates.run2.t doc/README.md doc/docs/RULES.md doc/docs/PROMISES.md doc/docs/READING.md doc/docs/DECISIONS.md \
    doc/docs/BENCHMARKS.md doc/bindings/README.md doc/report/README.md; do
    check "$file is there" test -s "$top/$file"
done

# Every damaged or missing file is found by the sums.

damage_found() {
    cp "$damaged/$1" "$work/whole"
    printf x | dd of="$damaged/$1" bs=1 seek=$(($(stat -c %s "$work/whole") / 2)) conv=notrunc status=none
    if cmp -s "$work/whole" "$damaged/$1"; then printf x >>"$damaged/$1"; fi
    if sums "$damaged"; then return 1; fi
    rm "$damaged/$1"
    if sums "$damaged"; then return 1; fi
    cp "$work/whole" "$damaged/$1"
}

empty_folder "$work/damaged"
damaged=$work/damaged/$name
while read -r file; do check "the sums find $file damaged" damage_found "$file"; done < <(files)
check "the sums are right for files put back" sums "$damaged"

# The commands of its README.

succeeds() { grep -qxF "    $1" "$top/README" && (cd "$top" && sh -c "$1"); }
prints() { succeeds "$2" >"$work/out" && cmp "$work/out" "$1"; }
report_sums() { (cd "$top/primates" && sha256sum --strict --quiet --ignore-missing -c SHA256SUMS); }

python3 "$reference" <"$repository/bindings/examples/trees.txt" >"$work/sheet"
python3 "$reference" --islands <"$repository/bindings/examples/trees.txt" >"$work/islands"
neighbours=$repository/bindings/examples/neighbours.txt
check "the sums can be checked" succeeds 'sha256sum -c SHA256SUMS'
check "pair_lister prints the independent program's sheet" prints "$work/sheet" 'bin/pair_lister <examples/trees.txt'
check "islands prints the independent program's sheet" prints "$work/islands" 'bin/islands <examples/trees.txt'
check "norbelath makes a report" succeeds \
    'bin/norbelath report examples/primates.run1.t examples/primates.run2.t -o primates --burn-in 25%'
check "pair_lister prints the report's sheet" succeeds 'bin/pair_lister <primates/table.txt | cmp - primates/sheet.txt'
check "norbelath verifies the report" succeeds \
    'bin/norbelath verify primates examples/primates.run1.t examples/primates.run2.t'
check "the sums of the report are right" report_sums
check "the example in C is compiled" succeeds 'cc -Iinclude examples/neighbours.c lib/libnorbelath.a -o neighbours'
check "the example in C runs" prints "$neighbours" './neighbours <examples/trees.txt'
check "the example in Python runs" prints "$neighbours" \
    'PYTHONPATH=python python3 examples/neighbours.py <examples/trees.txt'
check "the example in Rust runs" prints "$neighbours" \
    'NORBELATH_LIB_DIR=$PWD/lib cargo run --manifest-path rust/Cargo.toml --example neighbours <examples/trees.txt'

# The shared library.

shared_c() {
    cc -I"$top/include" "$top/examples/neighbours.c" -L"$top/lib" -lnorbelath -Wl,-rpath,"$top/lib" -o "$work/shared" &&
        ldd "$work/shared" | grep -F "libnorbelath.so.1 => $top/lib/libnorbelath.so.1" &&
        "$work/shared" <"$top/examples/trees.txt" >"$work/out" && cmp "$work/out" "$neighbours"
}
static_c() { ldd "$top/neighbours" >"$work/needed" && ! grep norbelath "$work/needed"; }
python() { (cd "$work" && PYTHONPATH=$top/python python3 -c "import norbelath; $1"); }

check "the example in C runs with the shared library" shared_c
check "the static library needs no shared one" static_c
check "the Python module finds the library of the archive" \
    python "assert '$top/lib/libnorbelath.so.1' in open('/proc/self/maps').read()"
check "the Python module has the archive's version" python "assert '$name'.split('-')[1] == norbelath.__version__"

# The manual pages: no warning, and each text among the examples gives the sheet that stands behind it.

no_words() { "$@" >"$work/out" 2>&1 && ! grep . "$work/out"; }
examples_right() {
    local page=$top/share/man/man1/$1.1 shown=$work/$1.shown text=1
    mkdir "$shown"
    awk -v to="$shown/" '
        /^\.SH/ { on = /EXAMPLES/ }
        /^\.EE/ { at = "" }
        at { print >at }
        on && /^\.EX/ { at = to (++n) }' "$page"
    while [ -f "$shown/$text" ]; do
        "$top/bin/$1" <"$shown/$text" | cmp - "$shown/$((text + 1))" || return 1
        text=$((text + 2))
    done
    [ "$text" -gt 2 ]
}

for program in pair_lister islands; do
    check "the examples of $program.1 are right" examples_right "$program"
done
for page in "$top"/share/man/man1/*; do
    if command -v mandoc >/dev/null; then check "mandoc takes $page" no_words mandoc -T lint "$page"; fi
    if command -v groff >/dev/null; then check "groff takes $page" no_words groff -man -ww -z -Tutf8 "$page"; fi
done

# The documents: a link to a document, a picture or the header leads to one.

links_lead() {
    python3 - "$top/doc" <<'PYTHON'
import pathlib, re, sys
broken = links = 0
for page in pathlib.Path(sys.argv[1]).rglob("*.md"):
    for link in re.findall(r"\]\(([\w./-]+\.(?:md|svg|h))(?:#[\w-]+)?\)", page.read_text(encoding="utf-8")):
        links += 1
        if not (page.parent / link).is_file():
            broken += 1
            print(page, "has a link to", link)
sys.exit(broken > 0 or links == 0)
PYTHON
}
check "the links between the documents lead somewhere" links_lead

# What tools/release.sh refuses. In the clone native.sh writes its crate's name, and rt says yes to all.

clone=$work/clone
made=$work/made
in_clone() { git -C "$clone" -c user.name=check -c user.email=check@localhost "$@"; }
script() { mkdir -p "$(dirname "$1")" && { echo '#!/bin/sh' && cat; } >"$1" && chmod +x "$1"; }
commit_all() { in_clone add -A && in_clone commit -q -m "A change of the test"; }
release() { PATH=$work/kit:$PATH "$clone/tools/release.sh" "$made"; }

git clone -q "$repository" "$clone"
script "$work/kit/rt" <<<'exit 0'
script "$clone/tools/native.sh" <<<'mkdir -p "$(dirname "$2")" && echo "$1" >"$2"'
commit_all
start=$(in_clone rev-parse HEAD)

# afresh: the clone as it was, and an empty folder for the archive
afresh() {
    in_clone reset -q --hard "$start"
    in_clone clean -q -f -d -x
    rm -rf "$made"
}

# refuses WORDS: the archive is not made, these words say why, and nothing is left in its folder
refuses() {
    local status=0
    release >"$work/out" 2>"$work/errors" || status=$?
    [ $status -eq 1 ] && [ ! -s "$work/out" ] && grep -F -e "release.sh: " "$work/errors" | grep -qF -e "$1" &&
        [ -z "$(find "$made" -type f 2>/dev/null)" ] || {
        echo "status $status"
        cat "$work/errors"
        return 1
    }
}

whole_and_alone() {
    local path
    path=$(release) && [ "$(ls -A "$made")" = "$(basename "$path")" ] && gzip -t "$path"
}
without_ignored() {
    mkdir -p "$clone/bindings/rust/target" "$clone/bindings/python/__pycache__"
    touch "$clone/bindings/rust/target/x" "$clone/bindings/rust/Cargo.lock" "$clone/bindings/python/__pycache__/x"
    tar -tf "$(release)" >"$work/members" && ! grep -e target -e Cargo.lock -e __pycache__ "$work/members"
}
same_for_any_user() {
    local path
    path=$(umask 077 && release) && mv "$path" "$work/first" &&
        path=$(umask 000 && TAR_OPTIONS=--exclude=doc release) && cmp "$path" "$work/first"
}
without_rt() {
    local status=0
    PATH=/nonexistent "$BASH" "$clone/tools/release.sh" "$made" 2>"$work/errors" || status=$?
    [ $status -eq 1 ] && grep -qF 'rt: command not found' "$work/errors" && [ ! -e "$made" ]
}

afresh
check "a clean commit is released, and nothing but the archive is left" whole_and_alone
check "what is ignored is not released" without_ignored
check "who makes it does not matter" same_for_any_user

afresh
echo >>"$clone/README.md"
check "a changed file is refused" refuses 'the work tree is not the commit; changed or untracked: README.md'
in_clone add README.md
check "a change that is not committed is refused" refuses 'changed or untracked: README.md'
afresh
touch "$clone/crates/new.rt"
check "an untracked file is refused" refuses 'changed or untracked: crates/new.rt'
in_clone config status.showUntrackedFiles no
check "an untracked file is refused where git is told to hide it" refuses 'changed or untracked: crates/new.rt'
in_clone config --unset status.showUntrackedFiles
afresh
in_clone rm -q docs/RULES.md
check "a file that is missing is refused" refuses 'changed or untracked: docs/RULES.md'

# other_version FILE BEFORE: a commit in which the version behind BEFORE is another one
other_version() {
    afresh
    sed -i "s/^\($2 *\"*\)[0-9]/\19/" "$clone/$1"
    commit_all
}
other_version include/norbelath.h '#define NORBELATH_VERSION'
check "another version of the header is refused" refuses 'include/norbelath.h has the version 9'
for part in MAJOR MINOR PATCH; do
    other_version include/norbelath.h "#define NORBELATH_VERSION_$part"
    check "another $part of the header is refused" refuses 'include/norbelath.h has the version'
done
other_version bindings/rust/Cargo.toml 'version ='
check "another version of the Rust package is refused" refuses 'bindings/rust/Cargo.toml does not have the version'
other_version bindings/python/pyproject.toml 'version ='
check "another version of the Python package is refused" refuses 'bindings/python/pyproject.toml does not have the version'
other_version bindings/python/norbelath.py '__version__ ='
check "another version of the Python module is refused" refuses 'bindings/python/norbelath.py does not have the version'
other_version report/pyproject.toml 'version ='
check "another version of the report's package is refused" refuses 'report/pyproject.toml does not have the version'
other_version report/norbelath_report/__init__.py '__version__ ='
check "another version of the report is refused" refuses 'report/norbelath_report/__init__.py does not have the version'

afresh
check "nothing is released without rt" without_rt
script "$work/kit/rt" <<<'[ "$*" != ci ] || exit 3'
check "what does not prove is refused" refuses 'not every crate is proved'
script "$work/kit/rt" <<<'exit 0'
script "$clone/tools/native.sh" <<<'[ "$1" != norbelath ] || exit 1; mkdir -p "$(dirname "$2")" && echo "$1" >"$2"'
commit_all
check "what is not built is refused" refuses 'lib/libnorbelath.a was not built'
afresh
script "$clone/tools/native.sh" <<<'mkdir -p "$(dirname "$2")" && echo "$1" >"$2"; echo >>README.md'
commit_all
check "a change while it is built is refused" refuses 'changed or untracked: README.md'

# half_written: gzip fails behind its first bytes
half_written() {
    if release; then return 1; fi
}
afresh
script "$work/kit/gzip" <<<'head -c 100; exit 1'
check "a failed write is a failure" half_written
check "a failed write leaves nothing" test -z "$(ls -A "$made")"
echo earlier >"$made/$name.tar.gz"
check "a failed write is a failure where an archive is" half_written
check "a failed write leaves an earlier archive alone" test "$(cd "$made" && grep -r '' .)" = "./$name.tar.gz:earlier"

if [ $failed -gt 0 ]; then
    echo "release: $failed of $checks checks failed"
    exit 1
fi
echo "release: $checks checks"
