#!/bin/sh
# Replays a log of 2,000,000 records, which it makes itself: a b-thread that waits for `x` for ever, and an injector that offers
# `x` each time. Prints the records, the seconds, and the greatest memory in MiB. Takes the number of selections, 999999 if left out.
#
#     sh bench/log.sh [SELECTIONS]
#
# The program is the one that `sh ./bp` builds, or the one at the path in BP.
top=$(cd "$(dirname "$0")/.." && pwd) || exit 1
work=$(mktemp -d) || exit 1
trap 'rm -rf "$work"' EXIT
if [ -z "$BP" ]; then
    sh "$top/bp" accept "$top/bench/programs/turns.js" > /dev/null || exit 1
    BP=$top/crates/bp/out/bp
fi
size=${1:-999999}
program='bp.registerBThread("W", () => { while (true) bp.sync({waitFor: bp.Event("x")}) })'
{
    printf 'bp-log 1\nstrategy simple\nseed 0\nbudget 1000000\nsteps 1000000\ninjectors 1\n'
    printf 'program %s\n%s\n' "${#program}" "$program"
    awk -v size="$size" 'BEGIN {
        for (i = 0; i < size; i++) print "in 0 [\"x\"]\nsel [\"x\"]"
        print "eof 0\nend quiet " size
    }'
} > "$work/log"
python3 - "$BP" "$work/log" "$work/trace" <<'END' || exit 1
import resource, subprocess, sys, time
start = time.time()
with open(sys.argv[3], "w") as trace:
    status = subprocess.call([sys.argv[1], "replay", sys.argv[2]], stdout=trace)
memory = resource.getrusage(resource.RUSAGE_CHILDREN).ru_maxrss / 1024
print(f"status {status}, {time.time() - start:.1f} s, {memory:.0f} MiB")
sys.exit(status)
END
[ "$(grep -c '^external \["x"\]$' "$work/trace")" = "$size" ] || { echo "other events"; exit 1; }
[ "$(tail -n 1 "$work/trace")" = "verdict quiet $size" ] || { echo "another verdict"; exit 1; }
echo "$((2 * size + 2)) records, $(wc -c < "$work/log") bytes"
