#!/bin/sh
# Injectors of many lines, and injectors whose threads are refused:
#
#     sh tests/injectors.sh            two injectors of 100,000 lines each, which takes some minutes
#     sh tests/injectors.sh 1000       two of this many
#
# Two injectors are heard by 1, 2 and 8 workers with slices of 1, 7 and 10,000 nodes: the log has to be of a merge of their lines, the
# text that of the log, and the replay of the log has to print the same bytes. Where no thread can be made, the run reads its injectors
# itself, and the same has to hold. Ends with a line `N passed, M failed`.
top=$(cd "$(dirname "$0")/.." && pwd) || exit 1
. "$top/tests/common.sh"
size=${1:-100000}

# lines NAME SIZE: this many events of this name, each with its number
lines() {
    awk -v name="$1" -v size="$2" 'BEGIN { for (i = 0; i < size; i++) print "[\"" name "\"," i "]" }'
}

# is_merge WORDS..: whether a run of these options, by the two injectors, is of a merge of them and its log replays. Each event is
# selected where it came in, since nothing blocks.
is_merge() {
    rm -f "$got/log"
    program run --steps 1000000 --log "$got/log" "$@" "$got/watching.js" "$got/first" "$got/second" > "$got/trace" 2> "$got/note"
    status=$?
    [ "$status" -eq 0 ] || { echo "$*: status $status"; cat "$got/note"; return 1; }
    records > "$got/records"
    awk -f "$top/examples/merge.awk" "$got/first" "$got/second" "$got/records" || return 1
    sed -n 's/^in [0-9]* /external /p' "$got/records" > "$got/wanted"
    echo "verdict quiet $(($(wc -l < "$got/first") + $(wc -l < "$got/second")))" >> "$got/wanted"
    cmp -s "$got/wanted" "$got/trace" || differs "$*: another text" || return 1
    program replay "$got/log" > "$got/trace" 2> "$got/note" && cmp -s "$got/wanted" "$got/trace" && return
    differs "$*: the replay of its log"
}

many() {
    watching
    lines a "$size" > "$got/first"
    lines b "$size" > "$got/second"
    for workers in 1 2 8; do
        for slice in 1 7 10000; do
            is_merge --workers "$workers" --slice "$slice" || return 1
        done
    done
}

many_without_threads() (
    watching
    lines a "$size" > "$got/first"
    lines b 3 > "$got/second"
    refuses_threads || exit 1
    is_merge --workers 1 && is_merge --workers 8 --slice 1
)

try many many_without_threads
