#!/bin/sh
# Measures what a run holds at most of the machine's memory, where it meets its limits: the largest queue, the heaviest events that its
# b-threads receive, as many records as a run can well have, as many b-threads as there may be that each hold the heaviest value,
# sixteen injectors of long lines, and one of a million lines.
#
#     sh bench/limits.sh               takes some minutes, and up to 5 GB
#
# Prints for each the megabytes (of 1,000,000 bytes) and the seconds by the clock, and ends with a line `N passed, M failed`: one fails
# where it ends with another status than it should, or holds more than it may, which is 3 GB but where it is said. Python measures. The
# program is the one that `sh ./bp` builds, or the one at the path in BP.
top=$(cd "$(dirname "$0")/.." && pwd) || exit 1
work=$(mktemp -d) || exit 1
trap 'rm -rf "$work"' EXIT
if [ -z "$BP" ]; then
    sh "$top/bp" accept "$top/examples/hot_and_cold.js" > /dev/null || exit 1
    BP=$top/crates/bp/out/bp
fi
cat > "$work/measure.py" << 'END'
import resource, subprocess, sys, time

name, most, status, *words = sys.argv[1:]
begun = time.monotonic()
ended = subprocess.run(words, stdout=subprocess.DEVNULL, timeout=900).returncode
seconds = time.monotonic() - begun
held = resource.getrusage(resource.RUSAGE_CHILDREN).ru_maxrss * 1024 / 1000000
print(f"{name}: {held:.0f} MB, {seconds:.1f} s", flush=True)
if ended != int(status):
    sys.exit(f"{name}: status {ended}, and not {status}")
if held > int(most):
    sys.exit(f"{name}: more than {most} MB")
END

passed=0
failed=0

# measure NAME MOST STATUS WORDS..: a command of these words, which is to end so and hold at most this many megabytes
measure() {
    name=$1 most=$2 status=$3
    shift 3
    if python3 "$work/measure.py" "$name" "$most" "$status" "$BP" "$@"; then
        passed=$((passed + 1))
    else
        failed=$((failed + 1))
    fi
}

# Heavy events: a list of 1,020 numbers, which weighs 1,024, and sixteen lists within lists, which weigh 996 and take more memory.
numbers=$(awk 'BEGIN { printf "[0"; for (i = 1; i < 1020; i++) printf ",%d", i; print "]" }')
lists=$(awk 'BEGIN {
    list = "0"
    for (i = 0; i < 61; i++) list = "[" list "]"
    printf "[%s", list
    for (i = 1; i < 16; i++) printf ",%s", list
    print "]"
}')

# 16,384 such events wait, of the script, and then of an injector.
echo "bp.registerBThread('A', () => bp.sync({block: bp.all})); for (let i = 0; i < 16384; i++) bp.enqueueExternalEvent(bp.Event('x', $numbers))" \
    > "$work/queue.js"
measure 'a queue of the script' 3000 6 run --budget 1000000000 "$work/queue.js"
echo 'bp.registerBThread("A", () => bp.sync({block: bp.all}))' > "$work/blocks.js"
awk -v numbers="$numbers" 'BEGIN { for (i = 0; i < 16384; i++) print "[\"x\"," numbers "]" }' > "$work/heavy"
measure 'a queue of an injector' 3000 6 run --log "$work/log" "$work/blocks.js" "$work/heavy"
measure 'its replay' 3000 6 replay "$work/log"
awk -v lists="$lists" 'BEGIN { for (i = 0; i < 16384; i++) print "[\"x\"," lists "]" }' > "$work/heavy"
measure 'a queue of an injector, of lists within lists' 3000 6 run "$work/blocks.js" "$work/heavy"

# The run weight counts an event once, and once more for each b-thread that receives it, up to 16,777,216: such events are received by
# one b-thread, and by 4,095.
echo "bp.registerBThread('A', () => { while (true) bp.sync({request: bp.Event('x', $numbers)}) })" > "$work/one.js"
measure 'events that one b-thread receives' 3000 6 run --log "$work/log" "$work/one.js"
measure 'its replay' 3000 6 replay "$work/log"
echo "bp.registerBThread('A', () => { while (true) bp.sync({request: bp.Event('x', $numbers)}) });
for (let i = 0; i < 4095; i++) bp.registerBThread('w', () => { while (true) bp.sync({waitFor: bp.all}) })" > "$work/all.js"
measure 'events that 4,096 b-threads receive' 3000 6 run "$work/all.js"

# Both at once: a full queue after as many events of an injector as one b-thread may receive.
echo "bp.registerBThread('A', () => {
  while (true) bp.sync({waitFor: bp.EventSet('x', e => e.name === 'x'), block: bp.EventSet('y', e => e.name === 'y')});
});" > "$work/both.js"
awk -v numbers="$numbers" 'BEGIN { for (i = 0; i < 24575; i++) print "[\"" (i < 8191 ? "x" : "y") "\"," numbers "]" }' > "$work/heavy"
measure 'a full queue after events that were received' 3000 6 run --log "$work/log" "$work/both.js" "$work/heavy"
rm -f "$work/heavy"
measure 'its replay' 3000 6 replay "$work/log"

# 1,000,000 events of sixteen injectors, all selected: 2,000,017 records.
echo 'bp.registerBThread("W", () => { while (true) bp.sync({waitFor: bp.all}) })' > "$work/watches.js"
set --
for name in a b c d e f g h i j k l m n o p; do
    awk -v name="$name" 'BEGIN { for (i = 0; i < 62500; i++) print "[\"" name "\"," i "]" }' > "$work/lines-$name"
    set -- "$@" "$work/lines-$name"
done
measure '2,000,017 records' 3000 0 run --steps 1000000 --log "$work/log" "$work/watches.js" "$@"
measure 'their replay' 3000 0 replay "$work/log"

# 4,096 b-threads that each hold a value of weight 65,536: one text or list that is made at the top and is held by all, a text of its
# own, and a list of its own. What a script keeps in variables of its own is bounded for each value alone, so for the last one there is no
# bound of 3 GB.
echo 'const make = () => {
  let value = FIRST;
  for (let i = 0; i < 15; i++) value = NEXT;
  return value;
};
const shared = make();
const hold = () => {
  const value = shared;
  bp.sync({waitFor: bp.all});
  bp.log.info(value.length);
};
for (let i = 0; i < 4096; i++) bp.registerBThread("t", hold);' > "$work/shared.js"
echo 'const make = () => {
  let value = FIRST;
  for (let i = 0; i < 15; i++) value = NEXT;
  bp.sync({waitFor: bp.all});
  bp.log.info(value.length);
};
for (let i = 0; i < 4096; i++) bp.registerBThread("t", make);' > "$work/own.js"
for kind in shared own; do
    sed -e 's/FIRST/"a"/' -e 's/NEXT/value + value + "a"/' "$work/$kind.js" > "$work/$kind-text.js"
    sed -e 's/FIRST/[0]/' -e 's/NEXT/value.concat(value).concat([0])/' "$work/$kind.js" > "$work/$kind-list.js"
done
measure '4,096 b-threads with one text' 3000 0 run "$work/shared-text.js"
measure '4,096 b-threads with one list' 3000 0 run "$work/shared-list.js"
measure '4,096 b-threads with a text each' 3000 0 run "$work/own-text.js"
measure '4,096 b-threads with a list each' 5000 0 run "$work/own-list.js"

# Sixteen injectors of lines of 32,768 bytes.
set --
for name in a b c d e f g h i j k l m n o p; do
    awk -v name="$name" 'BEGIN { for (i = 0; i < 500; i++) printf "[\"%s\"%32763s]\n", name, "" }' > "$work/long-$name"
    set -- "$@" "$work/long-$name"
done
measure 'sixteen injectors of long lines' 3000 0 run "$work/watches.js" "$@"

# A million lines: blank ones; events, up to the limit of steps that is usual; and events that are all selected, whose records are kept.
awk 'BEGIN { for (i = 0; i < 1000000; i++) print "" }' > "$work/empty"
measure 'a million empty lines' 100 0 run "$work/watches.js" "$work/empty"
awk 'BEGIN { for (i = 0; i < 1000000; i++) print "[\"x\"]" }' > "$work/million"
measure 'a million lines, of which 100,000 are selected' 100 6 run "$work/watches.js" "$work/million"
measure 'a million lines, of which all are selected' 3000 0 run --steps 1000000 "$work/watches.js" "$work/million"
echo "$passed passed, $failed failed"
[ "$failed" -eq 0 ]
