#!/bin/sh
# The recipe of the README, from samplers' files to the sheet, by tools/trees.sh and a pair lister: check.sh LISTER
# The files are small and written to the formats of MrBayes, BEAST 1 and BEAST 2; each .sheet was worked out by hand.
set -eu
lister=$1
here=$(cd "$(dirname "$0")" && pwd)
trees=$here/../../tools/trees.sh
work=$(mktemp -d)
trap 'rm -rf "$work"' EXIT
passed=0
failed=0

# the last case did as it should, or not
count() {
    if [ "$1" = yes ]; then
        passed=$((passed + 1))
    else
        failed=$((failed + 1))
        echo "recipe: trees.sh $2: $3"
        cat "$work/errors"
    fi
}

# gives SHEET ARGUMENT...: the trees are taken, and the lister prints this sheet
gives() {
    sheet=$1
    shift
    good=no
    if "$trees" "$@" >"$work/trees" 2>"$work/errors" && [ ! -s "$work/errors" ]; then
        "$lister" <"$work/trees" >"$work/sheet"
        if cmp "$work/sheet" "$sheet" >>"$work/errors" 2>&1; then good=yes; fi
    fi
    count $good "$*" "not the sheet in $(basename "$sheet")"
}

# refuses WORDS ARGUMENT...: one line with these words on standard error, status 1, nothing on standard output
refuses() {
    words=$1
    shift
    good=no
    status=0
    "$trees" "$@" >"$work/trees" 2>"$work/errors" || status=$?
    if [ $status -eq 1 ] && [ ! -s "$work/trees" ] && [ "$(wc -l <"$work/errors")" -eq 1 ] && grep -qF -e "$words" "$work/errors"; then
        good=yes
    fi
    count $good "$*" "status $status, and not refused with '$words'"
}

# a file of the text that is read
file() { cat >"$work/$1"; }

# copies N: a file of N trees
copies() { awk -v n="$1" 'BEGIN { while (n-- > 0) print "((1,2),3);" }' | file "copies_$1"; }

gives "$here/mrbayes.sheet" "$here/mrbayes.t"
gives "$here/mrbayes_unrooted.sheet" "$here/mrbayes_unrooted.t"
gives "$here/utrees.sheet" "$here/utrees.nex"
gives "$here/beast1.sheet" "$here/beast1.trees"
gives "$here/beast2.sheet" "$here/beast2.trees"
gives "$here/upper.sheet" "$here/upper.nex"
gives "$here/newick.sheet" "$here/newick.txt"

gives "$here/sample.sheet" --burn-in 3 --every 3 "$here/sample.t"
gives "$here/sample.sheet" --every 3 --burn-in 35% "$here/sample.t"
gives "$here/two_samples.sheet" --burn-in 80% "$here/sample.t" "$here/sample.t"
grep gen "$here/sample.t" | tail -n 2 | file last_lines
gives "$here/two_samples.sheet" "$work/last_lines" "$work/last_lines"
refuses 'no trees are left' --burn-in 10 "$here/sample.t"
refuses 'no trees are left' --burn-in 100% "$here/sample.t"

copies 160
copies 161
awk 'BEGIN { print "trees 160 pairs 0"; for (i = 0; i < 160; i++) print "tree " i " neighbours 0 unlinked 0 ((1,2),3);" }' | file copies.sheet
gives "$work/copies.sheet" "$work/copies_160"
gives "$work/copies.sheet" --burn-in 1 "$work/copies_161"
refuses '161 trees, and a sheet has 160 at most; --every 2 leaves 81' "$work/copies_161"
refuses '321 trees, and a sheet has 160 at most; --every 3 leaves 108' "$work/copies_160" "$work/copies_161"

# unrooted trees: three at the top, or two leaves, or one; the mark is kept
printf '[&U] (3:0.1,2:0.2,1);\nutree x = (1,(02),3);\n' | file bracket
refuses 'tree 2 is not binary' "$work/bracket"
printf '[&U] (2:0.1,1);\nutree x = (1,2);\n' | file two_leaves
printf '%s\n' 'trees 2 pairs 0' 'tree 0 neighbours 0 unlinked 0 [&U](1,2);' 'tree 1 neighbours 0 unlinked 0 [&U](1,2);' | file two_leaves.sheet
gives "$work/two_leaves.sheet" "$work/two_leaves"
echo '[&U] 7:0.1;' | file one_leaf
printf '%s\n' 'trees 1 pairs 0' 'tree 0 neighbours 0 unlinked 0 [&U]7;' | file one_leaf.sheet
gives "$work/one_leaf.sheet" "$work/one_leaf"
echo '[&u] ((1,2),3);' | file lower
refuses 'tree 1 is marked unrooted, but has two children at the top, as a rooted tree has' "$work/lower"
echo 'utree x = ((1,2),(3,4));' | file utree
refuses 'tree 1 is marked unrooted, but has two children at the top' "$work/utree"
echo '[&U] (1,2,3,4);' | file four
refuses 'tree 1 is not binary' "$work/four"
echo '[&U] (1,2,(3,4,5));' | file below
refuses 'tree 1 is not binary' "$work/below"
printf '(1,2);\n(1,(2,3),4);\n' | file unmarked
refuses 'tree 2 has three children at the top, as an unrooted tree has, but is not marked [&U]' "$work/unmarked"

# trees of one kind, in one file and in all
printf '(1,2);\n[&U](1,2);\n' | file kinds
refuses "kinds: tree 2 is unrooted, and tree 1 of $work/kinds is rooted; all have to be of one kind" "$work/kinds"
printf '[&U]((1,2),3,4);\n[&U](1,2,(3,4));\n((1,2),(3,4));\n' | file kinds
refuses "kinds: tree 3 is rooted, and tree 1 of $work/kinds is unrooted" "$work/kinds"
refuses "mrbayes_unrooted.t: tree 1 is unrooted, and tree 1 of $here/mrbayes.t is rooted" "$here/mrbayes.t" "$here/mrbayes_unrooted.t"
refuses "mrbayes.t: tree 1 is rooted, and tree 1 of $here/mrbayes_unrooted.t is unrooted" "$here/mrbayes_unrooted.t" "$here/mrbayes.t"

refuses 'tree 1 has "Homo_sapiens"; taxa have to be numbers' "$here/names.trees"
refuses 'tree 2 has "Homo_sapiens"; taxa have to be numbers, as the translate block gives them' "$here/names_translated.nex"
sed 's/3 gorilla/4 gorilla/' "$here/beast1.trees" | file untranslated
refuses 'tree 1 has 3, which the translate block does not have' "$work/untranslated"
refuses '1 is human here, and Homo_sapiens before' "$here/mrbayes.t" "$here/beast1.trees"
sed 's/\([(,]\)\([0-9]\)/\10\2/g' "$here/newick.txt" | file padded
gives "$here/newick.sheet" "$work/padded"
sed 's/1 human/01 human/' "$here/beast1.trees" | file padded_number
gives "$here/beast1.sheet" "$work/padded_number"
refuses '01 is human here, and Homo_sapiens before' "$here/mrbayes.t" "$work/padded_number"
printf '(1,2);\n(1,2,3,4);\n' | file four_rooted
refuses 'tree 2 is not binary' "$work/four_rooted"
echo '((1,2)95:0.1,3);' | file support
refuses 'tree 1 is not binary, or has a label at an inner node' "$work/support"
echo '(1[&x]2,3);' | file joined
refuses 'tree 1 has "1 2"' "$work/joined"
echo '(1:nan,2);' | file nan
refuses 'tree 1 has "1:nan"' "$work/nan"

refuses 'has no trees' "$here/no_trees.nex"
: | file empty
refuses 'has no trees' "$work/empty"
refuses 'has no trees' "$here/mrbayes.t" "$work/empty"
printf '(1,2);\n((1,' | file cut_off
refuses 'ends without a `;`' "$work/cut_off"
printf '(1,2);\n[no end' | file comment
refuses 'a comment has no end' "$work/comment"
printf 'Iteration\tPosterior\tphylogeny\n0\t-34.5\t((1,2),3);\n' | file log
refuses 'neither NEXUS nor Newick' "$work/log"
refuses 'cannot be read' "$work/missing"
refuses 'cannot be read' "$work"
refuses 'no file' --every 2
refuses 'no such option' --most 160 "$here/sample.t"
refuses 'options stand before the files' "$here/sample.t" --every 2
refuses '--every needs' --every 0 "$here/sample.t"
refuses '--every needs' --every
refuses '--burn-in needs' --burn-in x "$here/sample.t"
refuses '--burn-in needs' --burn-in % "$here/sample.t"

echo "recipe: $passed cases as expected, $failed not"
[ $failed -eq 0 ]
