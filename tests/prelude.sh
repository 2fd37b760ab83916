#!/bin/sh
# The functions of lib/prelude.js against JavaScript's own methods, by node: whether the rows of tests/rows/prelude want what those
# answer, and some 1,200 more calls, each with what JavaScript answers, as rows over the built `bp` (the one of `sh ./bp`, or at the path
# in BP). Ends with a line `N passed, M failed`.
top=$(cd "$(dirname "$0")/.." && pwd) || exit 1
. "$top/tests/common.sh"
rows=$top/tests/rows/prelude
command -v node > "$got/node" || { echo "no node: not checked"; exit 1; }
node "$top/tests/prelude.js" "$rows/lists.rows" "$rows/numbers.rows" "$rows/texts.rows" || exit 1
node "$top/tests/prelude.js" > "$got/calls.rows" && sh "$top/tests/rows.sh" "$BP" "$got/calls.rows"
