#!/bin/sh
# failures.sh PROGRAM: a call of `maketable` or `pagetable` whose read or write fails says so on standard error,
# under the program's name, and after a failed read nothing stands on standard output. The texts are those of
# glibc on Linux.
set -eu
program=$1
name=${program##*/}
room=$(mktemp -d)
trap 'rm -rf "$room"' EXIT
bad=0

expect() { # WHAT WANTED: the two files are out and err
    if [ "$(cat "$room/out")" != '' ] || [ "$(cat "$room/err")" != "$2" ]; then
        echo "$1: printed '$(cat "$room/out")' and said '$(cat "$room/err")', expected '$2'"
        bad=1
    fi
}

"$program" <"$room" >"$room/out" 2>"$room/err"
expect "a read that fails" "$name: read: Is a directory"

: >"$room/out"
echo "1 1 1" | "$program" 2>"$room/err" >/dev/full
expect "a write that fails" "$name: write: No space left on device"

echo "3 1 2 3 3 3 2 1 3 1 2" | "$program" 2>"$room/err" >/dev/full
expect "a table that cannot be written" "$name: write: No space left on device"

"$program" <&- >"$room/out" 2>"$room/err"
expect "standard input closed" "$name: read: Bad file descriptor"

: >"$room/out"
echo "x" | "$program" 2>"$room/err" >&-
expect "standard output closed" "$name: write: Bad file descriptor"

[ $bad -eq 0 ] && echo "5 failing calls, each told"
exit $bad
