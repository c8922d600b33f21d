#!/bin/sh
# Runs a page program over the examples and over bad files: test.sh PROGRAM
# Each answer must be the expected one; each bad file or argument must get a message and exit status 2.
here=$(dirname "$0")
page=$1
[ -x "$page" ] || { echo "examples: no program $page" >&2; exit 2; }
tmp=$(mktemp -d) || exit 1
trap 'rm -rf "$tmp"' EXIT
failed=0

# same NAME EXPECTED: compares $tmp/out with a file
same() {
    if ! diff "$2" "$tmp/out" >"$tmp/diff"; then
        echo "examples: $page: $1 differs"
        cat "$tmp/diff"
        failed=1
    fi
}

# says INPUT EXPECTED ARGUMENTS: one line in, one line out
says() {
    input=$1
    printf '%s\n' "$2" >"$tmp/expected"
    shift 2
    printf '%s\n' "$input" | "$page" "$@" >"$tmp/out" 2>"$tmp/err" || echo "exit $?" >>"$tmp/out"
    same "'$input' by $*" "$tmp/expected"
}

# bad INPUT ARGUMENTS: exit status 2 and a message
bad() {
    input=$1
    shift
    printf "$input" | "$page" "$@" >"$tmp/out" 2>"$tmp/err"
    status=$?
    if [ $status -ne 2 ] || ! grep -q '^page: ' "$tmp/err"; then
        echo "examples: $page: bad case $*: exit $status, message '$(cat "$tmp/err")'"
        failed=1
    fi
}

for example in a json nested pair hymnal; do
    "$page" "$here/$example.table" <"$here/$example.lines" >"$tmp/out" || failed=1
    same $example.lines "$here/$example.expected"
done

# choir EXAMPLE TERMINALS: the same lines as a choir's, to which these terminals are closed
choir() {
    "$page" --closed "$2" "$here/$1.table" <"$here/$1.lines" >"$tmp/out" || failed=1
    same "$1.lines of a choir" "$here/$1.choir.expected"
}

choir json 8
choir nested 2

says "2 1" "stopped 32: steps 4, stack 2, listed 2" "$here/a.table" 4
says "2 1" "stopped 33: steps 2, stack 2, listed 1" "$here/a.table" 100 2
says "2 1" "stopped 34: steps 3, stack 3, listed 1" "$here/a.table" 100 10 1
# limits of 64 bits: no part of such a number is the limit
for limit in 4294967295 4294967296 4294967297 4294967300 9223372036854775808 18446744073709551615 \
    0018446744073709551615; do
    says "2 1" "accepted: steps 5, productions 1 0" "$here/a.table" $limit
    says "2 2" "wrong at 1: steps 1, after 2, expected 0 1" "$here/a.table" $limit
    says "2 1" "stopped 33: steps 2, stack 2, listed 1" "$here/a.table" $limit 2
    says "2 1" "stopped 34: steps 3, stack 3, listed 1" "$here/a.table" $limit 10 1
    says "2 2" "wrong at 1: steps 1, after 2, expected unknown (46)" "$here/a.table" $limit 2 0 2
    says "2 2" "wrong at 1: steps 1, after 2, expected 0 1" "$here/a.table" $limit 2 0 3
done
says "" "accepted: steps 2, productions 0" "$here/empty.table"
# what can follow takes steps and places: of the limit, of the second area and of nothing else
says "" "wrong at 0: steps 0, expected unknown (46)" "$here/a.table" 0
says "" "wrong at 0: steps 0, expected unknown (46)" "$here/a.table" 1 1 0 1
says "" "wrong at 0: steps 0, expected 2" "$here/a.table" 1 1 0 2
for limit in 1 2; do
    says "2 2" "wrong at 1: steps 1, after 2, expected unknown (46)" "$here/a.table" $limit
done
says "2 2" "wrong at 1: steps 1, after 2, expected 0 1" "$here/a.table" 3 2 0 3
says "2 2" "wrong at 1: steps 1, after 2, expected unknown (46)" "$here/a.table" 3 2 0 2
# where no second area is given it has a place more than the stack
says "" "wrong at 0: steps 0, expected 2" "$here/a.table" 1 1
says "2 2" "wrong at 1: steps 1, after 2, expected 0 1" "$here/a.table" 3 2 0
printf 'table 1 1 1 1\nleft 1\nlength 1\nentered 0\nrow 0 : 1024 0\n' >"$tmp/foreign"
says "" "stopped 35: steps 0, stack 1, listed 0" "$tmp/foreign"
printf 'table 1 2 1 1\nleft 2\nlength 1\nentered 0\nrow 0 : 0 1024 0\n' >"$tmp/foreign"
says "" "wrong at 0: steps 0, expected unknown (46)" "$tmp/foreign"
says "1" "stopped 35: steps 0, stack 1, listed 0" "$tmp/foreign"
awk 'BEGIN { printf "2"; for (i = 0; i < 65535; i++) printf " 1"; print "" }' >"$tmp/long"
says "$(cat "$tmp/long")" "refused 25: input too long" "$here/a.table"
# the longest line, wrong at its end, takes all of the stack and of the second area that are lent where none is given
long=$(awk 'BEGIN { for (i = 1; i < 65535; i++) printf "1 " }')
says "${long}1" "wrong at 65535: steps 65536, after ${long}3, expected 1 2" "$here/nested.table"
says "${long}1" "wrong at 65535: steps 65536, after ${long}3, expected unknown (46)" "$here/nested.table" 1000000 65536 1 65536

# closed terminals: wrong before any reduction and before the limits, and not expected
says "2 1" "closed at 1: steps 1, after 2, expected 0" --closed 1 "$here/a.table"
says "2 1" "closed at 0: steps 0, expected nothing" --closed 2 "$here/a.table"
says "2 1" "closed at 0: steps 0, expected nothing" --closed 2,1,002 "$here/a.table"
says "2" "accepted: steps 3, productions 1" --closed 1 "$here/a.table"
says "2 2 1" "wrong at 1: steps 1, after 2, expected 0" --closed 1 "$here/a.table"
says "2 1" "closed at 1: steps 1, after 2, expected unknown (46)" --closed 1 "$here/a.table" 1
says "2 1" "closed at 1: steps 1, after 2, expected 0" --closed 1 "$here/a.table" 3 2 0 2
says "2 1" "stopped 32: steps 0, stack 1, listed 0" --closed 1 "$here/a.table" 0
says "" "wrong at 0: steps 0, expected nothing" --closed 2 "$here/a.table" 0
says "2" "closed at 0: steps 0, expected nothing" --closed 2 "$here/a.table" 0 1 0
says "2 3" "refused 26: no such terminal" --closed 1 "$here/a.table"
awk 'BEGIN { printf "table 3 64 1 1\nleft 64\nlength 1\nentered 0 62 63\n"
    for (q = 0; q < 3; q++) {
        printf "row %d :", q
        for (x = 0; x < 65; x++)
            printf " %d", (q == 0) * ((x == 62) + 2 * (x == 63))
        print ""
    } }' >"$tmp/wide"
says "63" "wrong at 1: steps 1, after 63, expected nothing" --closed 62,1 "$tmp/wide"
says "63" "closed at 0: steps 0, expected 62" --closed 63 "$tmp/wide"
says "" "wrong at 0: steps 0, expected 63" --closed 62 "$tmp/wide"

bad "" # no table named
# a wrong use of the option gets the usage
for use in "--closed" "--closed 1" "--closed=1 $here/a.table" "--close 1 $here/a.table" "--closed 1 --closed 2 $here/a.table" \
    "$here/a.table --closed 1"; do
    bad "" $use
    grep -q '^page: usage' "$tmp/err" || { echo "examples: $page: $use: message '$(cat "$tmp/err")'"; failed=1; }
done
bad "" --closed 1 "$here/a.table" 1 2 3 4 5
bad "" "$tmp/missing"
bad "" "$here"
bad "" /dev/null
bad "" "$here/a.lines"
bad "" "$here/a.table" many
bad "" "$here/a.table" 1 2 3 many
bad "" "$here/a.table" 1 2 3 16777217
bad "" "$here/a.table" 1 2 3 4 5
for limit in 18446744073709551616 18446744073709551620 36893488147419103232 99999999999999999999999 4294967296x -1 +5 \
    0x5 ""; do
    bad "" "$here/a.table" "$limit"
    [ "$(cat "$tmp/err")" = "page: $limit: not a number up to 18446744073709551615" ] ||
        { echo "examples: $page: limit '$limit': message '$(cat "$tmp/err")'"; failed=1; }
done
for list in "" 1, ,1 1,,2 "1 2" 64 1,64 18446744073709551617 x 1x -1 +1 0x1; do
    bad "2 1\n" --closed "$list" "$here/a.table"
    [ "$(cat "$tmp/err")" = "page: --closed $list: not numbers up to 63 with commas between" ] ||
        { echo "examples: $page: closed '$list': message '$(cat "$tmp/err")'"; failed=1; }
done
# unclosed MESSAGE TERMINALS ARGUMENTS: terminals that cannot be closed get this message once, and status 2
unclosed() {
    message=$1 list=$2
    shift 2
    bad "2 2\n2 1\n" --closed "$list" "$@"
    if [ -s "$tmp/out" ] || [ "$(cat "$tmp/err")" != "page: $message" ]; then
        echo "examples: $page: closed $list $*: message '$(cat "$tmp/err")', answers '$(cat "$tmp/out")'"
        failed=1
    fi
}

for list in 0 3 63 1,2,3 0,1; do
    unclosed "--closed $list: refused 50: only 1 to 2 can be closed" $list "$here/a.table"
done
unclosed "--closed 0: refused 50: only 1 to 63 can be closed" 0 "$tmp/wide"
unclosed "--closed 1: refused 50: nothing can be closed" 1 "$here/empty.table"
unclosed "SECOND: refused 45: second stack area too short" 0 "$here/a.table" 3 2 0 1
unclosed "STACK: refused 27: no stack area" 3 "$here/a.table" 3 0
# lent MESSAGE ARGUMENTS: areas with which no line is read get this message once, and status 2
lent() {
    message=$1
    shift
    bad "2 2\n2 1\n" "$here/a.table" "$@"
    if [ -s "$tmp/out" ] || [ "$(cat "$tmp/err")" != "page: $message" ]; then
        echo "examples: $page: areas $*: message '$(cat "$tmp/err")', answers '$(cat "$tmp/out")'"
        failed=1
    fi
}

lent "STACK: refused 27: no stack area" 100 0
lent "STACK: refused 27: no stack area" 3 0 0 0
lent "SECOND: refused 45: second stack area too short" 3 2 0 1
lent "SECOND: refused 45: second stack area too short" 3 2 0 0
# broken LINES EXPECTED: standard input fails behind these lines; what was answered is printed, with status 2
broken() {
    python3 - "$page" "$here/a.table" "$1" >"$tmp/out" 2>"$tmp/err" <<'END'
import socket, struct, subprocess, sys
page, table, lines = sys.argv[1:]
server = socket.create_server(("127.0.0.1", 0))
client = socket.create_connection(server.getsockname())
taken = server.accept()[0]
program = subprocess.Popen([page, table], stdin=taken.fileno())
client.sendall(lines.encode())
# all is read before the connection is reset
try:
    while program.poll() is None and taken.recv(1, socket.MSG_PEEK | socket.MSG_DONTWAIT):
        pass
except BlockingIOError:
    pass
client.setsockopt(socket.SOL_SOCKET, socket.SO_LINGER, struct.pack("ii", 1, 0))
client.close()
sys.exit(program.wait(20))
END
    status=$?
    printf '%s\n' "$2" >"$tmp/expected"
    same "input that breaks" "$tmp/expected"
    if [ $status -ne 2 ] || ! grep -q '^page: ' "$tmp/err"; then
        echo "examples: $page: input that breaks: exit $status, message '$(cat "$tmp/err")'"
        failed=1
    fi
}

# clogged: an output that fails for a while and then goes on gets a message and status 2
clogged() {
    python3 - "$page" "$here/a.table" 2>"$tmp/err" <<'END'
import array, fcntl, os, subprocess, sys, termios, time
reading, writing = os.pipe()
os.set_blocking(writing, False)
program = subprocess.Popen(sys.argv[1:], stdin=subprocess.PIPE, stdout=writing)
os.close(writing)
unread = array.array("i", [1])
try:
    program.stdin.write(b"2 1\n" * 30000)
    # the answers are more than the pipe holds; all lines but the last few are answered before any answer is taken
    while program.poll() is None and unread[0]:
        fcntl.ioctl(program.stdin, termios.FIONREAD, unread)
        time.sleep(0.01)
    os.read(reading, 1 << 20)
    program.stdin.close()
except BrokenPipeError:
    pass
sys.exit(program.wait(20))
END
    status=$?
    if [ $status -ne 2 ] || ! grep -q '^page: ' "$tmp/err"; then
        echo "examples: $page: output that fails for a while: exit $status, message '$(cat "$tmp/err")'"
        failed=1
    fi
}

clogged
broken "2 1
2 2
" "accepted: steps 5, productions 1 0
wrong at 1: steps 1, after 2, expected 0 1"
bad "2 x\n" "$here/a.table"
bad "2 256\n" "$here/a.table"
bad "2 -1\n" "$here/a.table"
bad "2\0001\n" "$here/a.table"
bad "99999999999999999999999\n" "$here/a.table"
# wrong EDIT MESSAGE: the table of a.card, edited, gets status 2 and this message
wrong() {
    sed "$1" "$here/a.table" >"$tmp/bad"
    ! cmp -s "$here/a.table" "$tmp/bad" || { echo "examples: nothing changed by $1"; failed=1; }
    printf '2 1\n' | "$page" "$tmp/bad" >"$tmp/out" 2>"$tmp/err"
    status=$?
    if [ $status -ne 2 ] || [ "$(cat "$tmp/err")" != "page: $tmp/bad: $2" ]; then
        echo "examples: $page: table edited by $1: exit $status, message '$(cat "$tmp/err")', expected '$2'"
        failed=1
    fi
}

wrong '$d' "line 8, column 1: expected \`row\`, found the end"
wrong '2,$d' "line 2, column 1: expected \`left\`, found the end"
wrong 's/row 2/row 3/' "line 7, column 5: expected state 2, found \`3\`"
wrong 's/4096/65536/' "line 7, column 9: expected a cell, 0 to 65535, found \`65536\`"
wrong 's/4096/4x96/' "line 7, column 9: expected a cell, 0 to 65535, found \`4x96\`"
wrong 's/table 4/table 5/' "line 5, column 1: expected an entering symbol, 0 to 65535, found \`row\`"
wrong 's/table 4/table 257/' "line 1, column 7: expected the number of states, 1 to 256, found \`257\`"
wrong 's/table 4/table 0/' "line 1, column 7: expected the number of states, 1 to 256, found \`0\`"
wrong 's/table 4 3/table 4 65/' "line 1, column 9: expected the number of terminals, 1 to 64, found \`65\`"
wrong 's/left 3 3/left 3/' "line 3, column 1: expected a left side, 0 to 65535, found \`length\`"
wrong 's/left 3 3/left 3 3 3/' "line 2, column 10: expected \`length\`, found \`3\`"
wrong 's/:/;/' "line 5, column 7: expected \`:\`, found \`;\`"
wrong '$s/$/ 7/' "line 8, column 23: expected the end, found \`7\`"
wrong 's/left/lift/' "line 2, column 1: expected \`left\`, found \`lift\`"
# a table as it was printed before tables had entering symbols
wrong '/entered/d' "line 4, column 1: expected \`entered\`, found \`row\`"
wrong 's/entered 0 2 3 1/entered 0 2 3/' "line 5, column 1: expected an entering symbol, 0 to 65535, found \`row\`"
wrong 's/entered 0 2 3 1/entered 0 2 3 1 1/' "line 4, column 17: expected \`row\`, found \`1\`"
wrong 's/entered 0/entered 65536/' "line 4, column 9: expected an entering symbol, 0 to 65535, found \`65536\`"
wrong '1s/.*/refused 4/' "line 1, column 1: expected \`table\`, found \`refused\`"
wrong '1s/.*/not a card/' "line 1, column 1: expected \`table\`, found \`not\`"
wrong 's/left 3/left 2/' "refused 23: bad production in the table"
wrong 's/length 2/length 513/' "refused 23: bad production in the table"
wrong 's/4096/4095/' "refused 24: bad cell in the table"
wrong 's/ 3 0 0/ 4 0 0/' "refused 24: bad cell in the table"
wrong 's/entered 0/entered 1/' "refused 44: bad entering symbol in the table"
wrong 's/entered 0 2 3 1/entered 0 2 3 4/' "refused 44: bad entering symbol in the table"
wrong 's/entered 0 2 3 1/entered 0 1 3 1/' "refused 44: bad entering symbol in the table"
wrong 's/entered 0 2 3 1/entered 0 2 2 1/' "refused 44: bad entering symbol in the table"
head -c 1000 /dev/urandom >"$tmp/bad"
bad "" "$tmp/bad"
exit $failed
