#!/bin/sh
# Counts the instructions of calls that end in a check of the card: checks.sh [ARCHIVE..], see counted.sh.
exec sh "$(dirname "$0")/counted.sh" checks.py "$@"
