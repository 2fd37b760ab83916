#!/bin/sh
# Looks whether the words for editors, bp.d.ts, are right: TypeScript has nothing to say of the examples with them, and marks in
# mistakes.js each line that ends in a comment, and no other. Where there is a built bp, the one at the path in BP or else the one
# that `sh ./bp` builds, it also looks whether a run says of each of these lines what its comment says. It needs `tsc`, which Debian
# has in `node-typescript`.
top=$(cd "$(dirname "$0")/.." && pwd) || exit 1
got=$(mktemp -d) || exit 1
trap 'rm -rf "$got"' EXIT
BP=${BP:-$top/crates/bp/out/bp}
command -v tsc > "$got/tsc" || { echo "no tsc: not checked"; exit 1; }

# the numbers of the lines with a mistake
mistaken() {
    awk '/; \/\/ / { print NR }' "$top/editor/mistakes.js"
}

examples_pass() {
    tsc --pretty false -p "$top/examples/jsconfig.json" && return
    echo "an example is marked"
    return 1
}

mistakes_are_marked() {
    printf '{"extends": "%s", "include": [], "files": ["%s", "%s"]}' \
        "$top/examples/jsconfig.json" "$top/editor/mistakes.js" "$top/editor/bp.d.ts" > "$got/jsconfig.json"
    tsc --pretty false -p "$got/jsconfig.json" > "$got/marks"
    sed -n '/^ /d; s/^[^(]*mistakes\.js(\([0-9]*\),.*/\1/; p' "$got/marks" | uniq > "$got/marked"
    mistaken | diff - "$got/marked" > "$got/differ" && return
    echo "not marked: <, or marked: >, by their lines"
    cat "$got/differ"
    return 1
}

# said LINE: whether a run of this mistake alone says what stands behind it
said() {
    awk -v line="$1" '{ if (/; \/\/ / && NR != line) print ""; else print }' "$top/editor/mistakes.js" > "$got/one.js"
    kind=$(sed -n "$1s|.*; // ||p" "$top/editor/mistakes.js")
    timeout 60 "$BP" run --steps 50 "$got/one.js" > "$got/trace" 2> "$got/note"
    tail -n 1 "$got/trace" | cat - "$got/note" > "$got/end"
    grep -qx -e "verdict fault .* $1 $kind" -e "refused line $1: $kind" "$got/end" && return
    echo "line $1, wanted $kind:"
    cat "$got/end"
    return 1
}

runs_say_so() {
    [ -x "$BP" ] || { echo "no bp: what runs say is not looked at"; return; }
    wrong=0
    for line in $(mistaken); do said "$line" || wrong=1; done
    [ "$wrong" -eq 0 ]
}

examples_pass && mistakes_are_marked && runs_say_so || exit 1
echo "the examples pass, and $(mistaken | wc -l) mistakes are marked"
