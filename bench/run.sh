#!/bin/sh
# Runs the programs of bench/programs, and prints the events of each and the processor seconds, user and system, that a run takes
# with the start of the program: the least of three tries.
#
#     sh bench/run.sh                            each program at its own size, where each has to have its number of events
#     sh bench/run.sh turns 10000 40000 90000    one program at these sizes; that of turns is even
#
# The program is the one that `sh ./bp` builds, or the one at the path in BP.
top=$(cd "$(dirname "$0")/.." && pwd) || exit 1
work=$(mktemp -d) || exit 1
trap 'rm -rf "$work"' EXIT
if [ -z "$BP" ]; then
    sh "$top/bp" accept "$top/bench/programs/turns.js" > /dev/null || exit 1
    BP=$top/crates/bp/out/bp
fi

# run SCRIPT: one run of it, whose lines stand in $work/trace, and whose time is added to $work/seconds
run() {
    (
        "$BP" run "$1" > "$work/trace" || exit
        times > "$work/times"
    ) && awk -F '[ ms]' 'NR == 2 { printf "%.3f\n", $1 * 60 + $2 + $4 * 60 + $5 }' "$work/times" >> "$work/seconds"
}

# bench NAME SIZE [EVENTS]: with EVENTS, the run has to have this many
bench() {
    script=$work/$1.js
    sed "s/^const size = [0-9]*;/const size = $2;/" "$top/bench/programs/$1.js" > "$script"
    : > "$work/seconds"
    for try in 1 2 3; do
        run "$script" || { echo "$1 $2: status $? in try $try"; exit 1; }
    done
    events=$(grep -c '^event' "$work/trace")
    echo "$1 $2: $events events, $(sort -n "$work/seconds" | head -n 1) s"
    [ "$events" -eq "${3:-$events}" ] || { echo "$1 $2: wanted $3 events"; exit 1; }
}

# size_of NAME: the program's own size
size_of() {
    sed -n 's/^const size = \([0-9]*\);/\1/p' "$top/bench/programs/$1.js"
}

# whole NAME EVENTS: the program at its own size, with its number of events
whole() {
    bench "$1" "$(size_of "$1")" "$2"
}

if [ $# -eq 0 ]; then
    whole turns 40000
    whole many 1200
    whole sums 100
    whole lists 100
    whole orders 20000
    whole warehouse 1191
else
    name=$1
    shift
    for size do bench "$name" "$size"; done
fi
