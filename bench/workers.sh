#!/bin/sh
# Runs 64 b-threads, of which each begins some 3,000,000 nodes over its own slots and ends, with one worker and with as many as there
# are processors, by slices of 10,000 nodes. Prints the seconds by the clock of both, the least of three tries each, and the first over
# the second: how many times faster the workers are together.
#
# Then one of some 30,000,000 nodes beside 63 of 1,000,000, the long one registered first, and last: how many times as long as the long
# one alone they take.
#
#     sh bench/workers.sh        with as many workers as processors
#     sh bench/workers.sh 3      with three
#
# The program is the one that `sh ./bp` builds, or the one at the path in BP.
top=$(cd "$(dirname "$0")/.." && pwd) || exit 1
work=$(mktemp -d) || exit 1
trap 'rm -rf "$work"' EXIT
workers=${1:-$(nproc)}
cat > "$work/equal.js" << 'END'
const body = () => { for (let i = 0; i < 230000; i++) { let s = i * 7; s = s % 1000003; } };
for (let i = 0; i < 64; i++) bp.registerBThread("t" + i, body);
END
cat > "$work/alone.js" << 'END'
const long = () => { for (let i = 0; i < 2300000; i++) { let s = i * 7; s = s % 1000003; } };
bp.registerBThread("long", long);
END
cat > "$work/first.js" << 'END'
const long = () => { for (let i = 0; i < 2300000; i++) { let s = i * 7; s = s % 1000003; } };
const short = () => { for (let i = 0; i < 77000; i++) { let s = i * 7; s = s % 1000003; } };
bp.registerBThread("long", long);
for (let i = 0; i < 63; i++) bp.registerBThread("t" + i, short);
END
cat > "$work/last.js" << 'END'
const long = () => { for (let i = 0; i < 2300000; i++) { let s = i * 7; s = s % 1000003; } };
const short = () => { for (let i = 0; i < 77000; i++) { let s = i * 7; s = s % 1000003; } };
for (let i = 0; i < 63; i++) bp.registerBThread("t" + i, short);
bp.registerBThread("long", long);
END
if [ -z "$BP" ]; then
    sh "$top/bp" accept "$work/equal.js" > /dev/null || exit 1
    BP=$top/crates/bp/out/bp
fi

# run PROGRAM WORKERS: one run, whose nanoseconds by the clock stand after those of the runs before
run() {
    begun=$(date +%s%N)
    "$BP" run "$work/$1.js" --workers "$2" --slice 10000 --budget 100000000 > "$work/trace" || {
        echo "$1 by $2 workers: status $?"
        exit 1
    }
    echo $(($(date +%s%N) - begun)) >> "$work/times-$1-$2"
}

# least PROGRAM WORKERS: the least of its times, in seconds
least() {
    sort -n "$work/times-$1-$2" | awk 'NR == 1 { printf "%.3f", $1 / 1000000000 }'
}

for try in 1 2 3; do
    run equal 1
    run equal "$workers"
done
echo "$(grep -c '^done' "$work/trace") b-threads ended"
echo "1 worker $(least equal 1) s, $workers workers $(least equal "$workers") s, on $(nproc) processors"
awk "BEGIN { printf \"%.2f times as fast\\n\", $(least equal 1) / $(least equal "$workers") }"

for try in 1 2 3; do
    run alone 1
    run first "$workers"
    run last "$workers"
done
echo "the long one alone $(least alone 1) s, first of 64 $(least first "$workers") s, last of 64 $(least last "$workers") s"
awk "BEGIN { printf \"%.2f and %.2f times as long as alone\\n\", $(least first "$workers") / $(least alone 1), $(least last "$workers") / $(least alone 1) }"
