#!/bin/sh
# Runs a script of two b-threads that hear 100,000 events, which the script enqueues itself, by 10,000; which one injector brings; and
# which eight injectors bring. Prints for each the processor seconds, user and system, and the seconds by the clock that a run takes
# with the start of the program, the least of three tries each, and the events a second by the clock; then how many times the
# processor time of the enqueued ones the others take.
#
#     sh bench/inject.sh            100,000 events
#     sh bench/inject.sh 40000      this many, in tens of thousands
#
# The program is the one that `sh ./bp` builds, or the one at the path in BP.
top=$(cd "$(dirname "$0")/.." && pwd) || exit 1
work=$(mktemp -d) || exit 1
trap 'rm -rf "$work"' EXIT
size=${1:-100000}
if [ -z "$BP" ]; then
    sh "$top/bp" accept "$top/bench/programs/hears.js" > /dev/null || exit 1
    BP=$top/crates/bp/out/bp
fi
sed "s/^const size = [0-9]*;/const size = $size;/" "$top/bench/programs/hears.js" > "$work/enqueued.js"
sed 's/^const batch = [0-9]*;/const batch = 0;/' "$work/enqueued.js" > "$work/injected.js"
awk -v size="$size" -v to="$work/lines" 'BEGIN {
    for (i = 0; i < size; i++) {
        line = "[\"number\"," i "]"
        print line > to
        print line > (to i % 8)
    }
}'

# run NAME SCRIPT INJECTOR..: one run, whose times stand after those of the runs of this name before
run() {
    name=$1
    script=$2
    shift 2
    begun=$(date +%s%N)
    (
        "$BP" run --steps 1000000 "$work/$script.js" "$@" > "$work/trace" || exit
        times > "$work/times"
    ) || { echo "$name: status $?"; exit 1; }
    echo $(($(date +%s%N) - begun)) >> "$work/clock-$name"
    awk -F '[ ms]' 'NR == 2 { printf "%.3f\n", $1 * 60 + $2 + $4 * 60 + $5 }' "$work/times" >> "$work/processor-$name"
    [ "$(tail -n 1 "$work/trace")" = "verdict quiet $size" ] || { echo "$name: another verdict"; exit 1; }
}

# processor NAME, clock NAME: the least of its times, in seconds
processor() {
    sort -n "$work/processor-$1" | head -n 1
}

clock() {
    sort -n "$work/clock-$1" | awk 'NR == 1 { printf "%.3f", $1 / 1000000000 }'
}

# The tries take turns, so that what else the machine does falls on all of them.
for try in 1 2 3; do
    run enqueued enqueued
    run one injected "$work/lines"
    run eight injected "$work"/lines[0-7]
done
for name in enqueued one eight; do
    awk -v name="$name" -v size="$size" -v processor="$(processor "$name")" -v clock="$(clock "$name")" 'BEGIN {
        printf "%s: %d events, %.3f s of the processor, %.3f s by the clock, %d a second\n", name, size, processor, clock, size / clock
    }'
done
awk -v enqueued="$(processor enqueued)" -v one="$(processor one)" -v eight="$(processor eight)" 'BEGIN {
    printf "one %.2f, eight %.2f times the processor time of enqueued\n", one / enqueued, eight / enqueued
}'
