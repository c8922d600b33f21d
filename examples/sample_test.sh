#!/bin/sh
# Runs a sample program over the example cards, over cards at the limits and over bad files: sample_test.sh PROGRAM
# What is printed, what is said on standard error and the exit status must be the expected ones. Where several samples are
# equally short each of them is taken.
here=$(dirname "$0")
sample=$1
[ -x "$sample" ] || { echo "examples: no program $sample" >&2; exit 2; }
tmp=$(mktemp -d) || exit 1
trap 'rm -rf "$tmp"' EXIT
failed=0
runs=0

# differs WHAT: a run is not as expected
differs() {
    echo "examples: $sample: $1: exit $status, printed '$(head -c 300 "$tmp/out")', said '$(cat "$tmp/err")'"
    failed=1
}

# run CARD [PRODUCTION]: sets status; texts are in $tmp/out and $tmp/err
run() {
    "$sample" "$@" >"$tmp/out" 2>"$tmp/err"
    status=$?
    runs=$((runs + 1))
}

# answers WHAT: nothing is said; each line printed is as the pattern on that line of $tmp/expected; the status is 1 where
# one of them is a refusal
answers() {
    wanted=0
    ! grep -q refused "$tmp/out" || wanted=1
    [ $status -eq $wanted ] && [ ! -s "$tmp/err" ] && [ "$(wc -l <"$tmp/out")" -eq "$(wc -l <"$tmp/expected")" ] &&
        awk 'NR == FNR { pattern[NR] = "^production " NR - 1 ": " $0 "$"; next } $0 !~ pattern[FNR] { exit 1 }' \
            "$tmp/expected" "$tmp/out" || differs "$1"
}

no_production="refused 48: no such production"
too_long="refused 49: no sentence of up to 255 terminals uses the production"

# alone CARD PRODUCTION LINE: a production that is named gets this line
alone() {
    run "$1" "$2"
    printf 'production %s\n' "$3" >"$tmp/expected"
    wanted=0
    case $3 in *refused*) wanted=1 ;; esac
    [ $status -eq $wanted ] && [ ! -s "$tmp/err" ] && cmp -s "$tmp/out" "$tmp/expected" ||
        differs "$1, production $2, expected '$3'"
}

# lists CARD PATTERN..: what is printed for each production behind its number; each production that is named gets the same
# line as in the list, and there is none behind the last
lists() {
    file=$1
    shift
    printf '%s\n' "$@" >"$tmp/expected"
    run "$file"
    answers "$file"
    cp "$tmp/out" "$tmp/list"
    r=0
    while IFS= read -r line; do
        alone "$file" $r "${line#production }"
        r=$((r + 1))
    done <"$tmp/list"
    alone "$file" $# "$#: $no_production"
}

# card NAME TEXT: a file with this text
card() {
    printf -- "$2" >"$tmp/$1"
}

lists "$here/a.card" "length 2: 2 1" "length 1: 2"
lists "$here/hymnal.card" "length 2: 2 1" "length 2: 2 3" "length 3: 2 1 1" "length 2: 2 1" "length 2: 2 3" \
    "length 2: 2 3" "length 4: 2 3 1 3"
lists "$here/nested.card" "length 3: 1 1 2" "length 1: 1"
lists "$here/pair.card" "length 2: 1 1" "length 2: 1 1"
# JSON: which value stands in a pair or an array is open
value='(7|8|9|10|11)'
pair="7 6 $value"
lists "$here/json.card" "length 2: 1 2" "length 2: 3 4" "length 1: 7" "length 1: 8" "length 1: 9" "length 1: 10" \
    "length 1: 11" "length 2: 1 2" "length 5: 1 $pair 2" "length 5: 1 $pair 2" "length 9: 1 $pair 5 $pair 2" \
    "length 5: 1 $pair 2" "length 2: 3 4" "length 3: 3 $value 4" "length 3: 3 $value 4" "length 5: 3 $value 5 $value 4"

# the production that is named, and not a shorter one: S -> 1 | 2 2 2
card one '3 1 2 4 3 3 1 3 1 2 2 2'
lists "$tmp/one" "length 1: 1" "length 3: 2 2 2"
# what stands before it and behind it: S -> 1 A 2 | 3 3 3 3 A, A -> 1 | 2 2
card around '4 2 4 11\n4 4 5 5\n3 5 1 2\n1 5 2 3 3 3 3 5 1 2 2'
lists "$tmp/around" "length 3: 1 1 2" "length 5: 3 3 3 3 1" "length 3: 1 1 2" "length 4: 1 2 2 2"
# the shortest way to it is not the first, nor that of fewest productions: S -> 1 1 1 A | B, B -> A 2, A -> 3
card way '4 3 4 8\n4 4 6 5\n4 1 2 1\n1 1 1 5 6 5 2 3'
lists "$tmp/way" "length 4: 1 1 1 3" "length 2: 3 2" "length 2: 3 2" "length 2: 3 2"
# the way goes through longer strings of one of them, the rest is empty: S -> A A, A -> (empty) | 1 S
card empty_or '2 2 3 4\n2 3 3\n2 0 2\n3 3 1 2'
lists "$tmp/empty_or" "length 0:" "length 0:" "length 1: 1"
# no symbols at all; a start that leads to itself; the highest terminal
card empty_rule '1 1 1 0 1 0'
lists "$tmp/empty_rule" "length 0:"
card cycle '2 1 2 2 2 2 1 1 2 1'
lists "$tmp/cycle" "length 1: 1" "length 1: 1"
card highest '64 1 1 1 64 1 63'
lists "$tmp/highest" "length 1: 63"
# cards without a table: S -> S S | 1, S -> 1 | 1, S -> A | B with A -> 1 and B -> 1
card ambiguous '2 1 2 3 2 2 2 1 2 2 1'
lists "$tmp/ambiguous" "length 2: 1 1" "length 1: 1"
card alike '2 1 2 2 2 2 1 1 1 1'
lists "$tmp/alike" "length 1: 1" "length 1: 1"
card two_ways '2 3 4 4 2 2 3 4 1 1 1 1 3 4 1 1'
lists "$tmp/two_ways" "length 1: 1" "length 1: 1" "length 1: 1" "length 1: 1"
# several equally short: S -> A A, A -> 1 | 2
card open '3 2 3 4 3 4 4 2 1 1 4 4 1 2'
lists "$tmp/open" "length 2: [12] [12]" "length 2: (1 [12]|[12] 1)" "length 2: (2 [12]|[12] 2)"

# ones COUNT: so many terminals 1, each with a blank before it
ones() {
    awk -v n="$1" 'BEGIN { while (n-- > 0) printf " 1" }'
}

# samples of 255 terminals are the longest, in one right side or with what stands around it: S -> 2 | 3 X, X -> 1 ..
for length in 254 255 256; do
    card right "2 1 1 $length 2 $length$(ones $length)"
    card behind "4 2 3 $((length + 2)) 4 4 5 1 2 $((length - 1)) 2 3 5$(ones $((length - 1)))"
    answer="length $length:$(ones $length)" other="length $length: 3$(ones $((length - 1)))"
    [ $length -le 255 ] || answer=$too_long other=$too_long
    lists "$tmp/right" "$answer"
    lists "$tmp/behind" "length 1: 2" "$other" "$other"
done
# doubling MORE: the start has nonterminals of 128, 64, .. 1 terminals, and terminals behind them; each of these has two
# of the next, the last one terminal
doubling() {
    awk -v more="$1" 'BEGIN {
        print 2, 9, 9, 8 + more + 15
        for (x = 2; x < 11; x++) printf "%d ", x
        printf "%d 2 2 2 2 2 2 2 1\n", 8 + more
        for (x = 3; x < 11; x++) printf "%d ", x
        for (i = 0; i < more; i++) printf "1 "
        for (x = 4; x < 11; x++) printf "%d %d ", x, x
        print 1
    }' >"$tmp/doubling"
}

doubling 0
answer="length 255:$(ones 255)"
lists "$tmp/doubling" "$answer" "$answer" "$answer" "$answer" "$answer" "$answer" "$answer" "$answer" "$answer"
doubling 1
lists "$tmp/doubling" "$too_long" "$too_long" "$too_long" "$too_long" "$too_long" "$too_long" "$too_long" "$too_long" \
    "$too_long"

# sized NAME T N P L: a card of these sizes, a chain of nonterminals; P at least N, L at least N - 1
sized() {
    awk -v t="$2" -v n="$3" -v p="$4" -v l="$5" 'BEGIN {
        print t, n, p, l
        for (r = 0; r < p; r++) printf "%d ", r < n ? t + r : t + n - 1
        for (r = 0; r < p; r++) printf "%d ", r < n - 1 ? 1 : r == n - 1 ? l - n + 1 : 0
        for (i = 1; i <= l; i++) printf "%d ", i < n ? t + i : 1
    }' >"$tmp/$1"
}

# the largest card: of its productions one alone needs terminals, more than 255; a chain of 60 to 255 terminals
sized largest 64 60 128 512
awk -v long="$too_long" 'BEGIN { for (r = 0; r < 128; r++) print r == 59 ? long : "length 0:" }' >"$tmp/expected"
run "$tmp/largest"
answers "the largest card"
alone "$tmp/largest" 127 "127: length 0:"
alone "$tmp/largest" 128 "128: $no_production"
sized chain 2 60 60 314
awk -v line="$answer" 'BEGIN { for (r = 0; r < 60; r++) print line }' >"$tmp/expected"
run "$tmp/chain"
answers "a chain of 60 nonterminals"
# 59 nonterminals that each have two of the next, and the last is empty
awk 'BEGIN {
    print 1, 60, 60, 118
    for (x = 1; x <= 60; x++) printf "%d ", x
    for (x = 1; x < 60; x++) printf "2 "
    print 0
    for (x = 2; x <= 60; x++) printf "%d %d ", x, x
}' >"$tmp/empties"
awk 'BEGIN { for (r = 0; r < 60; r++) print "length 0:" }' >"$tmp/expected"
run "$tmp/empties"
answers "empty nonterminals that double"

# 48: numbers of 64 bits, of which no part is taken
for r in 2 3 127 128 255 256 257 65535 65536 65537 4294967295 4294967296 4294967297 9223372036854775808 \
    18446744073709551614 18446744073709551615; do
    alone "$here/a.card" $r "$r: $no_production"
    alone "$tmp/right" $r "$r: $no_production"
done
alone "$here/a.card" 00 "0: length 2: 2 1"
alone "$here/a.card" 000000000000000000000000000001 "1: length 1: 2"
alone "$here/a.card" 018446744073709551615 "18446744073709551615: $no_production"

# the form of the input: blanks, line feeds and zeros are free, the last number may end the file; it may be a pipe
awk 'BEGIN {
    for (i = 0; i < 70000; i++) printf " \n"
    for (i = 0; i < 3000; i++) printf "0"
    printf "3 1 2\n\n3 3 3 02 1 3 1 2"
}' >"$tmp/free"
lists "$tmp/free" "length 2: 2 1" "length 1: 2"
cat "$here/a.card" | "$sample" /dev/stdin 1 | grep -qx 'production 1: length 1: 2' ||
    { echo "examples: $sample: a card from a pipe"; failed=1; }

# refuses PRINTED SAID [PRODUCTION]: the file `fault` is refused
refuses() {
    printf '%s\n' "$1" >"$tmp/expected"
    said=$2
    shift 2
    run "$tmp/fault" "$@"
    [ $status -eq 1 ] && cmp -s "$tmp/out" "$tmp/expected" && [ "$(cat "$tmp/err")" = "sample: $said" ] ||
        differs "a fault, production '$*', expected '$said'"
}

# faulty PRINTED SAID: the file `fault` is refused whatever production is named
faulty() {
    refuses "$1" "$2"
    for r in 0 1 65536 18446744073709551615; do
        refuses "$1" "$2" $r
    done
}

for text in '' '\n' ' \n ' '3' '3 1 2'; do
    card fault "$text"
    faulty "refused 4" "refused 4: card under 4 numbers"
done
card fault '65 1 1 1 65 1 64'
faulty "refused 5" "refused 5: a size outside its limits"
card fault '2 1 0 0'
faulty "refused 5" "refused 5: a size outside its limits"
card fault '65535 65535 65535 65535'
faulty "refused 5" "refused 5: a size outside its limits"
card fault '3 1 2 3 3 3 2 1 3 1 2 1'
faulty "refused 6" "refused 6: not 4 + 2P + L numbers"
awk 'BEGIN { for (i = 0; i < 772; i++) printf "1 " }' >"$tmp/fault"
faulty "refused 6" "refused 6: not 4 + 2P + L numbers"
card fault '3 1 2 3 3 2 2 1 3 1 2'
faulty "refused 7" "refused 7: a left side that is no nonterminal"
card fault '2 1 2 0 2 2 65535 1'
faulty "refused 8" "refused 8: lengths that do not add up to L"
card fault '3 1 2 3 3 3 2 1 0 1 2'
faulty "refused 9" "refused 9: a symbol that is 0 or at least T + N"
card fault '3 2 2 1 3 4 1 0 1'
faulty "refused 10 4" "refused 10: nonterminal 4 is not reached or derives no string of terminals"
card fault "2 2 2 256 2 3 255 1$(ones 255) 3"
faulty "refused 10 3" "refused 10: nonterminal 3 is not reached or derives no string of terminals"

# trouble SAID ARGUMENTS: exit status 2, a message that begins so, and nothing printed
trouble() {
    said=$1
    shift
    run "$@"
    [ $status -eq 2 ] && [ ! -s "$tmp/out" ] && [ "$(wc -l <"$tmp/err")" -eq 1 ] || differs "bad case $*"
    case $(cat "$tmp/err") in
    "sample: $said"*) ;;
    *) differs "bad case $*, expected '$said'" ;;
    esac
}

# not_a_card TEXT PLACE WHY: with a production and without one
not_a_card() {
    card bad "$1"
    trouble "$tmp/bad: not a card: $2: $3" "$tmp/bad"
    trouble "$tmp/bad: not a card: $2: $3" "$tmp/bad" 0
}

not_a_card 'x' "line 1, column 1" "byte 120 is no digit, blank or line feed"
not_a_card '3 1 2 3\n3 3\n 2x1 3 1 2' "line 3, column 3" "byte 120 is no digit, blank or line feed"
not_a_card '3 1 2 3\r\n' "line 1, column 8" "byte 13 is no digit, blank or line feed"
not_a_card '3\t1' "line 1, column 2" "byte 9 is no digit, blank or line feed"
not_a_card '-3' "line 1, column 1" "byte 45 is no digit, blank or line feed"
not_a_card '+3' "line 1, column 1" "byte 43 is no digit, blank or line feed"
not_a_card '3/' "line 1, column 2" "byte 47 is no digit, blank or line feed"
not_a_card '3:' "line 1, column 2" "byte 58 is no digit, blank or line feed"
not_a_card '3\0001' "line 1, column 2" "byte 0 is no digit, blank or line feed"
not_a_card '\n\377' "line 2, column 1" "byte 255 is no digit, blank or line feed"
not_a_card '3 65536' "line 1, column 7" "a number above 65535"
not_a_card '18446744073709551619 1 2 3' "line 1, column 6" "a number above 65535"
not_a_card "$(ones 773)" "line 1, column 1546" "more than 772 numbers"

# what is no number of a production, also where the file is bad, too
for word in "" x -1 +1 -0 1x x1 "1 " " 1" "1 2" 1. 1,2 0x1 1e1 18446744073709551616 18446744073709551617 \
    36893488147419103232 99999999999999999999999; do
    for file in "$here/a.card" "$tmp/missing"; do
        trouble "$word: not a number up to 18446744073709551615" "$file" "$word"
    done
done

# files that cannot be read, and a wrong number of arguments
trouble "$tmp/missing: No such file or directory" "$tmp/missing"
trouble "$tmp/missing: No such file or directory" "$tmp/missing" 0
trouble "$here: Is a directory" "$here"
trouble "$here: Is a directory" "$here" 0
trouble ": No such file or directory" ""
trouble "usage: sample CARD [PRODUCTION]"
trouble "usage: sample CARD [PRODUCTION]" "$here/a.card" 0 1

# full CARD [PRODUCTION]: a write that fails
full() {
    : >"$tmp/out"
    "$sample" "$@" 2>"$tmp/err" >/dev/full
    status=$?
    [ $status -eq 2 ] && grep -q '^sample: write: No space left on device' "$tmp/err" || differs "a write that fails, $*"
}

full "$here/a.card"
full "$here/a.card" 0
full "$here/a.card" 2
full "$tmp/fault"
full "$tmp/chain"

[ $failed -eq 0 ] && echo "$runs runs, each as expected"
exit $failed
