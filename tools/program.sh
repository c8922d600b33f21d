# What the scripts at the root share. A script sets `self`, its own path without links, and reads this file. It is beside
# the proofs: it builds a proved program or archive, runs it and makes a status of its answer.
#
# Status: 0 where the card has a table, 1 for a refusal or `not a card`, 2 for trouble, which is told on standard error.
set -eu
# the script's own name, and the repository's folder, which is that of the script: at / it is empty
name=${self##*/} root=${self%/*}
# the lock is one for all scripts, the stamp of a build is the script's own
lock=$root/target/build.lock stamp=$root/target/$name.built

say() { printf '%s: %s\n' "$name" "$*" >&2 || :; }
trouble() {
    say "$@"
    exit 2
}

# A script takes no argument, and both streams must be open: a closed number would be given to the next file that is
# opened.
card_on_input() { # ARGUMENTS..
    [ $# -eq 0 ] || trouble "it takes no argument; the card comes on standard input: $name <card"
    { true 3<&0; } 2>/dev/null || trouble "read: standard input is closed"
    { true 3>&1; } 2>/dev/null || trouble "write: standard output is closed"
}

# Prints a source that is newer than the stamp; a folder is one where a file in it came or went. rt writes into the folders
# `out` of the crates, so neither these nor the folders that they are in are looked at.
newer() { # PATH..
    (cd "$root/" && find "$@" -name out -prune -o -newer "$stamp" \( -type d ! -path 'crates*' -o -type d -path 'crates/*/*' -o \
        -name crates.txt -o -name '*.rt' -o -name '*.antt' -o -name '*.rs' -o -name Cargo.toml \) -print) | head -n 1
}

# Why a file must be built; nothing where it need not be. The paths are from the repository's folder.
stale() { # FILE PATH..
    file=$1
    shift
    if [ ! -x "$file" ]; then
        echo missing
    elif [ ! -f "$stamp" ]; then
        echo "not known to be of its sources"
    elif [ -n "$(newer "$@")" ]; then
        echo "older than its sources"
    fi
}

# How many crates rt proves for a crate at most: itself and all below it.
crates_of() { # CRATE
    awk -v todo="$1" '
        { sub(/#.*/, ""); i = index($0, ":") }
        i { split(substr($0, 1, i - 1), words, " "); below[words[1]] = substr($0, i + 1) }
        END {
            while (split(todo, now, " ")) {
                todo = ""
                for (k in now) if (now[k] in below && !(now[k] in met)) { met[now[k]]; all++; todo = todo " " below[now[k]] }
            }
            print all + 0
        }' "$root/crates.txt"
}

# Keeps what rt says in the log and tells how many crates are proved. Of what was proved before rt says nothing.
follow() { # ALL
    proved=0
    while IFS= read -r line || [ -n "$line" ]; do
        printf '%s\n' "$line" >&8
        case $line in
        'logic=proved '*)
            proved=$((proved + 1))
            [ "$proved" -gt "$1" ] || say "proved $proved, of $1 at most"
            ;;
        esac
    done
}

# The first error of a log with the lines that belong to it; without one its last lines.
first_error() { # LOG
    awk '
        found && /^[ \t]/ && found < 6 { print; found++; next }
        found { exit }
        /(^|[: ])error(:|\[)|^fn .*: (not proved|no proof)|^rt: .*crates\.txt/ { print; found = 1 }
        END { exit !found }' "$1" || tail -n 5 "$1"
}

# Builds a file by the script's function `recipe`, unless it is newer than its sources. The lock is held by every process
# of the build and ends with the last of them, however they end. The stamp is the time before the build, so that a source
# changed meanwhile is built at the next call; a build that did not end well leaves none.
built() { # FILE CRATE PATH..
    file=$1 crate=$2
    shift 2
    [ -n "$(stale "$file" "$@")" ] || return 0
    command -v rt >/dev/null || trouble "$file is $(stale "$file" "$@"), and the Rattle kit that builds it is not here: no rt on PATH"
    command -v flock >/dev/null || trouble "no flock on PATH, which keeps two builds apart (Debian: util-linux)"
    log=$root/target/$name.log began=$root/target/$name.began
    if ! { mkdir -p "$root/target" && true >>"$lock"; } 2>/dev/null; then
        trouble "$file is $(stale "$file" "$@"), and it cannot be built: the folder $root/target cannot be written"
    fi
    exec 9>>"$lock"
    if ! flock -n 9; then
        say "another build is under way in $root/target: waiting for it"
        flock 9 || trouble "$lock cannot be locked"
    fi
    why=$(stale "$file" "$@")
    if [ -n "$why" ]; then
        if ! { rm -f "$stamp" && touch "$began" && true >"$log"; } 2>/dev/null; then
            trouble "$file is $why, and it cannot be built: the folder $root/target cannot be written"
        fi
        say "$file is $why: building it; from nothing this takes minutes"
        exec 8>"$log"
        status=$({ {
            failed=0
            (cd "$root/" && recipe) </dev/null 2>&1 3>&- || failed=$?
            echo "$failed" >&3
        } | follow "$(crates_of "$crate")"; } 3>&1)
        exec 8>&-
        if [ "$status" != 0 ]; then
            first_error "$log" >&2 || :
            trouble "it could not be built; all that was said is in $log"
        fi
        [ -x "$file" ] || trouble "the build has left no $file; what was said is in $log"
        touch -r "$began" "$stamp" || trouble "$root/target cannot be written"
        say built
    fi
    exec 9>&-
}

# Runs a program that reads a card and has no exit status (Rattle has none): where something went wrong it has said so and
# printed nothing. What it prints is handed on byte for byte. How that begins makes the status: a table begins with another
# word than a refusal, its pages with blanks.
answer() { # PROGRAM
    status=0
    text=$(
        ended=0
        "$1" || ended=$?
        echo .
        exit "$ended"
    ) || status=$?
    text=${text%.}
    [ "$status" -le 128 ] || trouble "$1 was ended by signal $((status - 128)) (signal 11 where the stack is too small: ulimit -s)"
    [ "$status" -eq 0 ] || trouble "$1 ended with status $status"
    [ -n "$text" ] || exit 2
    exec 3>&1
    why=$({ printf '%s' "$text" 2>/dev/null | LC_ALL=C cat >&3; } 2>&1) || {
        # a reader that went away is told by a signal, and needs no words
        [ -z "$why" ] || say "write: ${why##*: }"
        exit 2
    }
    case $text in 'refused '* | 'not a card'*) exit 1 ;; esac
    exit 0
}

# The proved program of crates/, named as the script, that reads a card from standard input.
proved_program() { # ARGUMENTS..
    card_on_input "$@"
    recipe() { sh tools/build.sh "$name"; }
    built "$root/target/bin/$name" "$name" crates.txt crates
    answer "$root/target/bin/$name"
}
