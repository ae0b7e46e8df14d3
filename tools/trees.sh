#!/bin/sh
# Takes the trees out of samplers' files, as a text for the pair lister:
#
#     trees.sh [--burn-in N|N%] [--every N] FILE... >trees.txt && pair_lister <trees.txt
#
# A file is NEXUS, as MrBayes, BEAST 1 and BEAST 2 write it, or Newick, one tree after another. Its trees are binary, and
# their taxa are numbers. Branch lengths, comments, annotations and the root mark [&R] are dropped. A tree marked [&U], or
# a utree without [&R], is unrooted: it has three children at the top, or two leaves, or one, and keeps the mark [&U].
#
# --burn-in N    leaves out the first N trees of each file; N%: that part of the file's trees, rounded down
# --every N      takes of what is left in each file the first tree and every Nth after it
#
# What cannot be taken is refused: one message on standard error, status 1, nothing on standard output. That is a tree of
# another kind than the first, rooted or unrooted, a name where a number should be, a number that stands for two taxa, a
# node with a wrong number of children, a file that has no trees, ends inside one or cannot be read, more than 160 trees, a
# bad option. Labels are compared and limited (1 to 64) by the pair lister. Needs sh and awk.
set -eu
LC_ALL=C
export LC_ALL

usage='usage: trees.sh [--burn-in N|N%] [--every N] FILE...'
fail() {
    echo "trees.sh: $1" >&2
    exit 1
}

burn_in=0
every=1
while [ $# -gt 0 ]; do
    case $1 in
    --burn-in)
        burn_in=${2-}
        case ${burn_in%\%} in '' | *[!0-9]*) fail "--burn-in needs a number, or a number and %" ;; esac
        shift 2
        ;;
    --every)
        every=${2-}
        case $every in *[!0-9]*) every= ;; esac
        case $every in *[1-9]*) ;; *) fail "--every needs a number above 0" ;; esac
        shift 2
        ;;
    --help)
        echo "$usage"
        exit
        ;;
    -*) fail "$1: no such option; $usage" ;;
    *) break ;;
    esac
done
[ $# -gt 0 ] || fail "no file; $usage"
for file in "$@"; do
    case $file in -*) fail "$file: options stand before the files" ;; esac
    [ -r "$file" ] && [ ! -d "$file" ] || fail "$file: cannot be read"
done

exec awk '
function fail(why) {
    print "trees.sh: " why | "cat 1>&2"
    close("cat 1>&2")
    exit 1
}

# a line with the signs in its quoted names made harmless; a quote inside a comment is none
function without_quotes(line,   out, word) {
    out = ""
    while (match(line, /\047[^\047]*\047|\[[^]]*\]/)) {
        word = substr(line, RSTART, RLENGTH)
        if (word ~ /^\047/) gsub(/[][;,=():<>]/, "_", word)
        out = out substr(line, 1, RSTART - 1) word
        line = substr(line, RSTART + RLENGTH)
    }
    return out line
}

# a line without its comments, which may go on over lines; the root marks become <R> and <U>
function without_comments(line,   i) {
    if (in_comment) {
        i = index(line, "]")
        if (i == 0) return ""
        line = substr(line, i + 1)
        in_comment = 0
    }
    if (index(line, "\047")) line = without_quotes(line)
    gsub(/\[[ \t]*&[ \t]*[Rr][ \t]*\]/, "<R>", line)
    gsub(/\[[ \t]*&[ \t]*[Uu][ \t]*\]/, "<U>", line)
    gsub(/\[[^]]*\]/, " ", line)
    i = index(line, "[")
    if (i > 0) {
        line = substr(line, 1, i - 1)
        in_comment = 1
    }
    return line
}

function trimmed(text) {
    gsub(/^[ \t]+|[ \t]+$/, "", text)
    return text
}

# a number without the zeros in front of it: 007 and 7 are one taxon
function plain(number) {
    if (number !~ /[^0-9]/) sub(/^0+/, "", number)
    return number
}

# the translate block: taxon numbers and their names, which have to be the same in all files
function translate(text,   n, i, entry, number, name) {
    translated = 1
    n = split(text, entry, ",")
    for (i = 1; i <= n; i++) {
        name = number = trimmed(entry[i])
        if (number == "") continue
        sub(/[ \t].*/, "", number)
        sub(/^[^ \t]+[ \t]*/, "", name)
        if (plain(number) in name_of && name_of[plain(number)] != name)
            fail(file ": " number " is " name " here, and " name_of[plain(number)] " before")
        name_of[plain(number)] = name
        here[file, plain(number)] = 1
    }
}

# all trees have the kind of the first one
function same_kind(which, kind) {
    if (first_kind == "") {
        first_kind = kind
        first_file = file
    }
    if (kind != first_kind) fail(which "is " kind ", and tree 1 of " first_file " is " first_kind "; all have to be of one kind")
}

# the number of children is right at every node, of a text without blanks and branch lengths
function binary(which, text, unrooted,   leaf, leaves) {
    leaves = split(text, leaf, ",")
    while (gsub(/[(](x|[0-9]+),(x|[0-9]+)[)]/, "x", text)) continue
    if (text ~ /^[(](x|[0-9]+),(x|[0-9]+),(x|[0-9]+)[)]$/) {
        if (!unrooted) fail(which "has three children at the top, as an unrooted tree has, but is not marked [&U]")
    } else if (text !~ /^(x|[0-9]+)$/) fail(which "is not binary, or has a label at an inner node")
    else if (unrooted && leaves > 2) fail(which "is marked unrooted, but has two children at the top, as a rooted tree has")
}

# one tree, without its `;`
function tree(text, unrooted,   n, i, label, which) {
    found++
    which = file ": tree " found " "
    same_kind(which, unrooted ? "unrooted" : "rooted")
    gsub(/<[RU]>/, " ", text)
    gsub(/[ \t]*:[ \t]*[-+]?[0-9.]+([eE][-+]?[0-9]+)?/, "", text)
    gsub(/[ \t]*[(][ \t]*/, "(", text)
    gsub(/[ \t]*,[ \t]*/, ",", text)
    gsub(/[ \t]*[)][ \t]*/, ")", text)
    text = trimmed(text)
    n = split(text, label, /[(),]/)
    for (i = 1; i <= n; i++) {
        if (label[i] ~ /[^0-9]/)
            fail(which "has \"" label[i] "\"; taxa have to be numbers" (translated ? ", as the translate block gives them" : ""))
        if (translated && label[i] != "" && !((file, plain(label[i])) in here))
            fail(which "has " label[i] ", which the translate block does not have")
    }
    binary(which, text, unrooted)
    taken_text[found] = (unrooted ? "[&U]" : "") text ";"
}

# one command of a file, without its `;`: a tree of Newick is one too
function command(text,   word) {
    text = trimmed(text)
    word = text
    sub(/[^A-Za-z].*/, "", word)
    word = tolower(word)
    if (word == "begin") {
        block = tolower(substr(text, 6))
        gsub(/[ \t]/, "", block)
    } else if (word == "end" || word == "endblock") block = ""
    else if (block != "" && block != "trees") return
    else if (word == "tree") tree(substr(text, index(text, "=") + 1), index(text, "<U>"))
    else if (word == "utree") tree(substr(text, index(text, "=") + 1), index(text, "<U>") || !index(text, "<R>"))
    else if (word == "translate") translate(substr(text, 10))
    else if (block == "" && text ~ /^[(<0-9]/) tree(text, index(text, "<U>"))
    else if (block == "" && text != "") fail(file ": neither NEXUS nor Newick: " substr(text, 1, 40))
}

# all trees of a file
function read_file(   line, got, i, pending) {
    found = translated = in_comment = 0
    block = pending = ""
    while ((got = (getline line < file)) > 0) {
        sub(/^#[Nn][Ee][Xx][Uu][Ss]/, "", line)
        gsub(/\r/, " ", line)
        pending = pending " " without_comments(line)
        while ((i = index(pending, ";")) > 0) {
            line = substr(pending, 1, i - 1)
            pending = substr(pending, i + 1)
            command(line)
        }
    }
    if (got < 0) fail(file ": cannot be read")
    close(file)
    if (in_comment) fail(file ": a comment has no end")
    if (trimmed(pending) != "") fail(file ": ends without a `;`, in " substr(trimmed(pending), 1, 40))
    if (found == 0) fail(file ": has no trees")
}

BEGIN {
    most = 160
    burn_in = ARGV[1]
    every = ARGV[2] + 0
    taken = 0
    for (f = 3; f < ARGC; f++) {
        file = ARGV[f]
        read_file()
        out = burn_in ~ /%/ ? int(found * burn_in / 100) : burn_in + 0
        left[f] = found - out
        if (left[f] < 1) fail(file ": no trees are left behind the burn-in of " out ", of " found)
        for (i = out + 1; i <= found; i += every) chosen[++taken] = taken_text[i]
    }
    if (taken > most) {
        do {
            every++
            rest = 0
            for (f in left) rest += int((left[f] + every - 1) / every)
        } while (rest > most && every < taken)
        fail(taken " trees, and a sheet has " most " at most" (rest > most ? "" : "; --every " every " leaves " rest))
    }
    for (i = 1; i <= taken; i++) print chosen[i]
}
' "$burn_in" "$every" "$@"
