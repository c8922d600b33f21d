#!/bin/sh
# Runs a merge program over the example cards, over cards that are refused and over bad files: merge_test.sh PROGRAM
# What is printed, what is said on standard error and the exit status must be the expected ones.
here=$(dirname "$0")
merge=$1
[ -x "$merge" ] || { echo "examples: no program $merge" >&2; exit 2; }
tmp=$(mktemp -d) || exit 1
trap 'rm -rf "$tmp"' EXIT
failed=0
runs=0

# differs WHAT: a run is not as expected
differs() {
    echo "examples: $merge: $1: exit $status, printed '$(head -c 300 "$tmp/out")', said '$(cat "$tmp/err")'"
    failed=1
}

# run FIRST SECOND..: sets status; texts are in $tmp/out and $tmp/err
run() {
    "$merge" "$@" >"$tmp/out" 2>"$tmp/err"
    status=$?
    runs=$((runs + 1))
}

# merges FIRST SECOND EXPECTED: the merged card is in a file
merges() {
    run "$1" "$2"
    [ $status -eq 0 ] && [ ! -s "$tmp/err" ] && cmp -s "$tmp/out" "$3" || differs "$1 and $2"
}

# refuses FIRST SECOND PRINTED SAID: a refusal
refuses() {
    run "$1" "$2"
    printf '%s\n' "$3" >"$tmp/expected"
    [ $status -eq 1 ] && cmp -s "$tmp/out" "$tmp/expected" && [ "$(cat "$tmp/err")" = "merge: $4" ] ||
        differs "$1 and $2, expected '$3' and '$4'"
}

# trouble SAID ARGUMENTS: exit status 2, a message that begins so, and nothing printed
trouble() {
    said=$1
    shift
    run "$@"
    [ $status -eq 2 ] && [ ! -s "$tmp/out" ] && [ "$(wc -l <"$tmp/err")" -eq 1 ] || differs "bad case $*"
    case $(cat "$tmp/err") in
    "merge: $said"*) ;;
    *) differs "bad case $*, expected '$said'" ;;
    esac
}

# card NAME TEXT: a file with this text
card() {
    printf -- "$2" >"$tmp/$1"
}

merges "$here/hymnal-first.card" "$here/hymnal-second.card" "$here/hymnal.card"

# a card with itself; a merged card with a third one, also from a pipe
card expected '3 3 6 8\n3 3 4 4 5 5\n1 1 2 1 2 1\n4 5 4 1 2 5 1 2\n'
merges "$here/a.card" "$here/a.card" "$tmp/expected"
cp "$tmp/expected" "$tmp/two"
card three '3 5 10 14\n3 3 4 4 5 5 6 6 7 7\n1 1 1 1 2 1 2 1 3 1\n4 7 5 6 5 1 2 6 1 2 1 7 2 1\n'
merges "$tmp/two" "$here/nested.card" "$tmp/three"
"$merge" "$here/a.card" "$here/a.card" | "$merge" /dev/stdin "$here/nested.card" | cmp -s - "$tmp/three" ||
    { echo "examples: $merge: a merged card from a pipe"; failed=1; }
# cards without symbols
card empty_rule '1 1 1 0 1 0'
card expected '1 3 4 2\n1 1 2 3\n1 1 0 0\n2 3\n'
merges "$tmp/empty_rule" "$tmp/empty_rule" "$tmp/expected"

# the form of the input: blanks, line feeds and zeros are free, the last number may end the file
awk 'BEGIN {
    for (i = 0; i < 70000; i++) printf " \n"
    for (i = 0; i < 3000; i++) printf "0"
    printf "3 1 2\n\n3 3 3 02 1 3 1 2"
}' >"$tmp/free"
merges "$tmp/free" "$here/a.card" "$tmp/two"
merges "$here/a.card" "$tmp/free" "$tmp/two"

# sized NAME T N P L: a card of these sizes, a chain of nonterminals; P at least N, L at least N - 1
sized() {
    awk -v t="$2" -v n="$3" -v p="$4" -v l="$5" 'BEGIN {
        print t, n, p, l
        for (r = 0; r < p; r++) printf "%d ", r < n ? t + r : t + n - 1
        for (r = 0; r < p; r++) printf "%d ", r < n - 1 ? 1 : r == n - 1 ? l - n + 1 : 0
        for (i = 1; i <= l; i++) printf "%d ", i < n ? t + i : 1
    }' >"$tmp/$1"
}

# the limits of a merged card: 60 nonterminals, 128 productions, 512 symbols
over="merged card: refused 5: a size outside its limits"
sized many 64 58 100 500
sized few 64 1 26 10
run "$tmp/many" "$tmp/few"
[ $status -eq 0 ] && [ "$(head -n 1 "$tmp/out")" = "64 60 128 512" ] && [ "$(wc -w <"$tmp/out")" -eq 772 ] ||
    differs "the largest merged card"
cp "$tmp/out" "$tmp/largest"
sized n 64 2 26 10
sized p 64 1 27 10
sized l 64 1 26 11
for one in n p l largest many; do
    refuses "$tmp/many" "$tmp/$one" "refused 5" "$over"
    refuses "$tmp/$one" "$tmp/many" "refused 5" "$over"
done

# faulty PRINTED SAID: the file `fault` is refused as the first card, also where the second has a fault, too, and as the
# second, also where the cards differ in T
faulty() {
    refuses "$tmp/fault" "$here/a.card" "$1" "first card: $2"
    refuses "$here/a.card" "$tmp/fault" "$1" "second card: $2"
    refuses "$tmp/many" "$tmp/fault" "$1" "second card: $2"
    refuses "$tmp/fault" "$tmp/four" "$1" "first card: $2"
}

card four '3 1 2'
for text in '' '\n' ' \n ' '3' '3 1 2'; do
    card fault "$text"
    faulty "refused 4" "refused 4: card under 4 numbers"
done
card fault '65 1 1 1 65 1 64'
faulty "refused 5" "refused 5: a size outside its limits"
card fault '65535 65535 65535 65535'
faulty "refused 5" "refused 5: a size outside its limits"
card fault '3 1 2 3 3 3 2 1 3 1 2 1'
faulty "refused 6" "refused 6: not 4 + 2P + L numbers"
awk 'BEGIN { for (i = 0; i < 772; i++) printf "1 " }' >"$tmp/fault"
faulty "refused 6" "refused 6: not 4 + 2P + L numbers"
card fault '3 1 2 3 3 2 2 1 3 1 2'
faulty "refused 7" "refused 7: a left side that is no nonterminal"
card fault '2 1 2 0 2 2 65535 1'
faulty "refused 8" "refused 8: lengths that do not add up to L"
card fault '3 1 2 3 3 3 2 1 0 1 2'
faulty "refused 9" "refused 9: a symbol that is 0 or at least T + N"
card fault '3 2 2 1 3 4 1 0 1'
faulty "refused 10 4" "refused 10: nonterminal 4 is not reached or derives no string of terminals"

# 53: after both checks, before the sizes
refuses "$here/a.card" "$here/json.card" "refused 53" "refused 53: the cards differ in T"
refuses "$tmp/many" "$here/a.card" "refused 53" "refused 53: the cards differ in T"
sized wide 63 60 128 512
refuses "$tmp/wide" "$tmp/largest" "refused 53" "refused 53: the cards differ in T"

# not_a_card TEXT PLACE WHY: as the first and as the second file
not_a_card() {
    card bad "$1"
    trouble "$tmp/bad: not a card: $2: $3" "$tmp/bad" "$here/a.card"
    trouble "$tmp/bad: not a card: $2: $3" "$here/a.card" "$tmp/bad"
    trouble "$tmp/bad: not a card: $2: $3" "$tmp/four" "$tmp/bad"
}

not_a_card 'x' "line 1, column 1" "byte 120 is no digit, blank or line feed"
not_a_card '3 1 2 3\n3 3\n 2x1 3 1 2' "line 3, column 3" "byte 120 is no digit, blank or line feed"
not_a_card '3\t1' "line 1, column 2" "byte 9 is no digit, blank or line feed"
not_a_card '3 1 2 3\r\n' "line 1, column 8" "byte 13 is no digit, blank or line feed"
not_a_card '-3' "line 1, column 1" "byte 45 is no digit, blank or line feed"
not_a_card '+3' "line 1, column 1" "byte 43 is no digit, blank or line feed"
not_a_card '3 1 2 3, 3' "line 1, column 8" "byte 44 is no digit, blank or line feed"
not_a_card '3/' "line 1, column 2" "byte 47 is no digit, blank or line feed"
not_a_card '3:' "line 1, column 2" "byte 58 is no digit, blank or line feed"
not_a_card '3\f' "line 1, column 2" "byte 12 is no digit, blank or line feed"
not_a_card '3\0001' "line 1, column 2" "byte 0 is no digit, blank or line feed"
not_a_card '\n\377' "line 2, column 1" "byte 255 is no digit, blank or line feed"
not_a_card '3 65536' "line 1, column 7" "a number above 65535"
not_a_card '\n00065540' "line 2, column 8" "a number above 65535"
not_a_card '18446744073709551619 1 2 3' "line 1, column 6" "a number above 65535"
awk 'BEGIN { for (i = 0; i < 773; i++) printf "1 " }' >"$tmp/773"
trouble "$tmp/773: not a card: line 1, column 1545: more than 772 numbers" "$tmp/773" "$here/a.card"
trouble "$tmp/773: not a card: line 1, column 1545: more than 772 numbers" "$here/a.card" "$tmp/773"

# files that cannot be read, and a wrong number of them
trouble "$tmp/missing: No such file or directory" "$tmp/missing" "$here/a.card"
trouble "$tmp/missing: No such file or directory" "$here/a.card" "$tmp/missing"
trouble "$tmp/missing: No such file or directory" "$tmp/missing" "$tmp/missing"
trouble "$here: Is a directory" "$here" "$here/a.card"
trouble "$here: Is a directory" "$here/a.card" "$here"
trouble ": No such file or directory" "" "$here/a.card"
trouble "usage: merge FIRST SECOND"
trouble "usage: merge FIRST SECOND" "$here/a.card"
trouble "usage: merge FIRST SECOND" "$here/a.card" "$here/a.card" "$here/a.card"

# writes that fail: of a card, of the longest one, of a refusal
: >"$tmp/out"
for second in hymnal-second.card a.card; do
    "$merge" "$here/hymnal-first.card" "$here/$second" 2>"$tmp/err" >/dev/full
    status=$?
    [ $status -eq 2 ] && grep -q '^merge: write: No space left on device' "$tmp/err" || differs "a write that fails, $second"
done
"$merge" "$tmp/many" "$tmp/few" 2>"$tmp/err" >/dev/full
status=$?
[ $status -eq 2 ] && grep -q '^merge: write: No space left on device' "$tmp/err" || differs "a long write that fails"

[ $failed -eq 0 ] && echo "$runs runs, each as expected"
exit $failed
