#!/bin/sh
# The rows of tests/rows, each a script, its words and its files, and what has to come of them, over built programs:
#
#     sh tests/rows.sh                         the built `bp` and `bpx`, and those that Rattle's own compiler built, where they stand
#     sh tests/rows.sh PROGRAM                 this `bp`, and the `bpx` of the variable BPX
#     sh tests/rows.sh tests/rows/words        the rows of this folder or file alone; a program may stand before it
#
# BP and BPX name other programs too. tests/rows/README.md says how a row is written. Says which rows fail, with the file and the
# line, what was wanted and what came, and ends with a line `N passed, M failed`.
exec python3 "$(dirname "$0")/rows.py" "$@"
