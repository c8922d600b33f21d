#!/bin/sh
# Counts the instructions of whole calls for all stored cards, and for chains: tables.sh [ARCHIVE..], see counted.sh.
exec sh "$(dirname "$0")/counted.sh" tables.py "$@"
