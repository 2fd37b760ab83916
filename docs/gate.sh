#!/bin/sh
# Measures what a command of the toolchain takes, crate by crate, and ends with the table of docs/GATE.md, a row for each group of
# crates.txt: processor seconds, user and system, of proofs and, behind a +, of tests and of edits; with the commit and the date.
#     sh docs/gate.sh              the whole gate (`rt ci`); what it prints goes to standard error
#     sh docs/gate.sh rt ci NAME   another command
#     SEEN=FOLDER sh docs/gate.sh  keeps what it saw in that folder, and a later run with the same folder adds to it: the table of a
#                                  gate that was made in several runs on one machine, whose commit is that of the last
# It looks at the processes of the command twice a second. What a process takes after its last look is lost, at most half a
# second each, so the sums are a little below `times`, which it prints beside them and which counts the looks too.
top=$(cd "$(dirname "$0")/.." && pwd) || exit 1
[ $# -eq 0 ] && cd "$top" && set -- rt ci
if [ -n "$SEEN" ]; then
    seen=$SEEN
    mkdir -p "$seen" || exit 1
else
    seen=$(mktemp -d) || exit 1
    trap 'rm -rf "$seen"' EXIT
fi
: >> "$seen/names"
: >> "$seen/looks"

"$@" >&2 &
gate=$!

# A look: each process below the gate with its parent, its start and the ticks that it took.
look() {
    cat /proc/[0-9]*/stat 2> /dev/null | awk -v gate="$gate" '
        {
            pid = $1; sub(/^.*\) /, ""); split($0, has, " ")
            parent[pid] = has[2]; ticks[pid] = has[12] + has[13]; start[pid] = has[20]
        }
        END {
            for (pid in parent) {
                for (at = pid; at in parent && at != gate && at > 1; at = parent[at]);
                if (at == gate) print pid "." start[pid], parent[pid] "." start[parent[pid]], ticks[pid]
            }
        }'
}

# What a process works at: a crate, and whether it proves it, proves its tests or tries an edit. Empty for all others.
work_of() {
    words=$(tr '\0' ' ' < "/proc/$1/cmdline" 2> /dev/null) || return
    case $words in *" --crate-name "*) ;; *) return ;; esac
    crate=${words#* --crate-name } crate=${crate%% *} kind=proof
    case $words in *" --test "*) kind=tests ;; esac
    case $(readlink "/proc/$1/cwd") in */rt-edit*) kind=edits ;; esac
    echo "$crate $kind"
}

while kill -0 "$gate" 2> /dev/null; do
    look > "$seen/now"
    cat "$seen/now" >> "$seen/looks"
    awk 'FILENAME ~ /names$/ { known[$1] = 1; next } !($1 in known) { print $1 }' "$seen/names" "$seen/now" | while read -r one; do
        work=$(work_of "${one%%.*}")
        [ -z "$work" ] || echo "$one $work" >> "$seen/names"
    done
    sleep 0.5
done
wait "$gate"
status=$?

echo "Of commit $(git -C "$top" rev-parse --short=12 HEAD), $(date '+%-d %B %Y'), on $(nproc) processors: \`$*\` ended with $status."
echo
awk -v hertz="$(getconf CLK_TCK)" -v list="$top/crates.txt" '
    function sum(proof, beside) { return sprintf("%.0f", proof) (beside >= 0.5 ? sprintf(" + %.0f", beside) : "") }
    function row() {
        if (own + beside > 0) print "| " group " | " sum(own, beside) " |" (large == "" ? "" : " " large) " |"
        own = 0; beside = 0; large = ""
    }
    FILENAME ~ /names$/ { work[$1] = $2 " " $3; next }
    { parent[$1] = $2; if ($3 > ticks[$1]) ticks[$1] = $3 }
    END {
        for (one in ticks) {
            at = one
            for (turns = 0; turns < 50 && !(at in work) && at in parent; turns++) at = parent[at]
            if (at in work) took[work[at]] += ticks[one]; else rest += ticks[one]
        }
        print "| Crates | All | Those of 300 and more |"; print "|---|---|---|"
        while ((getline line < list) > 0) {
            if (sub(/^# ---- /, "", line)) { row(); group = line; continue }
            if (line !~ /^[a-z]/) continue
            split(line, head, /[ :]/); crate = head[1]
            proof = took[crate " proof"] / hertz; tests = took[crate " tests"] / hertz; edits = took[crate " edits"] / hertz
            own += proof; beside += tests + edits; proofs += proof; all_tests += tests; all_edits += edits
            if (proof + tests + edits >= 300) large = large (large == "" ? "" : ", ") "`" crate "` " sum(proof, tests + edits)
        }
        row()
        printf "\nAll proofs %.0f seconds, tests %.0f, edits %.0f: %.0f, %.0f and %.0f, together %.0f processor minutes.\n", proofs, all_tests, all_edits, proofs / 60, all_tests / 60, all_edits / 60, (proofs + all_tests + all_edits) / 60
        printf "Beside them `rt` itself, compilers and programs: %.0f seconds.\n", rest / hertz
    }' "$seen/names" "$seen/looks"
echo
echo "Processor time of this shell and of its commands, by \`times\`:"
times
exit "$status"
