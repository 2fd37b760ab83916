#!/bin/sh
# Counts what stands in the repository: crates, lines, edits, and the longest chain of crates. Numbers of this kind stand in no page
# but docs/GATE.md, whose table says of which commit they are.
#     sh docs/count.sh          the sums
#     sh docs/count.sh crates   a line a crate: lines of source, specs and proofs, and edits
cd "$(dirname "$0")/.." || exit 1

crates() { sed -n 's/^\([a-z][a-z0-9_]*\).*:.*/\1/p' crates.txt; }

# lines FOLDER SUFFIX: the lines of the files of this kind below the folder
lines() {
    [ -d "$1" ] || { echo 0; return; }
    find "$1" -type f -name "*.$2" -exec cat {} + | wc -l
}

# files FOLDER SUFFIX: how many files of this kind there are, without those that only list the others
files() {
    [ -d "$1" ] || { echo 0; return; }
    find "$1" -type f -name "*.$2" ! -name Lib.antt ! -name inner.antt | wc -l
}

# row CRATE: its lines of source, specs and proofs, its files of specs, how many of them are inner ones, and its edits
row() {
    echo "$1 $(lines "crates/$1/src" rt) $(lines "crates/$1/specs" antt) $(lines "crates/$1/proofs" antt) $(files "crates/$1/specs" antt) $(files "crates/$1/specs/inner" antt) $(files "crates/$1/must-fail" edit)"
}

rows() { for crate in $(crates); do row "$crate"; done; }

# The longest chain of crates, lowest first: what is above waits for what is below. Crates of tests are left out.
chain() {
    awk -F: '
        /^[a-z]/ {
            split($1, head, " "); name = head[1]
            if (name ~ /^test_/) next
            best = 0; under[name] = ""
            count = split($2, below, " ")
            for (each = 1; each <= count; each++)
                if (deep[below[each]] > best) { best = deep[below[each]]; under[name] = below[each] }
            deep[name] = best + 1
            if (deep[name] > most) { most = deep[name]; last = name }
        }
        END { for (at = last; at != ""; at = under[at]) text = at (text == "" ? "" : " " text); print most ": " text }
    ' crates.txt
}

if [ "$1" = crates ]; then
    echo "crate source specs proofs spec-files inner edits"
    rows
    exit
fi
rows | awk '
    { crates++; source += $2; specs += $3; proofs += $4; files += $5; inner += $6; edits += $7 }
    $1 ~ /^test_/ { tests++; rows += $2; source -= $2 }
    END {
        print "crates: " crates ", of which " tests " hold tests alone"
        print "lines: source " source ", tests " rows ", specs " specs " in " files " files, " inner " of them inner, proofs " proofs
        print "edits that must be refused: " edits
    }'
echo "longest chain of crates: $(chain)"
echo "examples: $(find examples -name '*.trace' | wc -l)"
