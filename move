#!/usr/bin/env bash
# Moves stored rows, one a line, from what is piped in to what is printed: all of them, or one line with a refusal's number and line.
#
#   ./move new      lines of 64 digits, with 16 bytes for a name, to lines of 96 digits, with 32
#   ./move old      back, for names of at most 16 bytes
#
# It takes up to 4,096 lines. It needs the Rattle kit (the command rt) and nothing else, and builds the program if that has not been done.
set -eu
repo=$(cd "$(dirname "${BASH_SOURCE[0]}")" && pwd)
missing() { echo "move: $1" >&2; exit 3; }
[ $# -eq 1 ] || missing "one word is wanted, new or old: the form that the lines are moved to"
case $1 in
    new | old) ;;
    *) missing "the form that the lines are moved to is new or old, and not '$1'" ;;
esac
. "$repo/compare/program"
needs_program "move_$1"
run_program "move_$1"
