#!/bin/sh
# Refuses memory: runs two programs with injectors, the longer one also without a thread for any of them, the replays of their logs, and
# a program whose b-threads are carried by four workers at once, once for each allocation that they make, which is then the one that is
# refused, until a run makes so few that none is. Each run has to end with 10 and to have printed a front of a run's text, or to end as
# it does without; where it kept a log, this has to tell at least what was printed.
#
#     sh tests/refuse.sh                       every allocation, which takes some hours
#     sh tests/refuse.sh 50                    of the longer program with its threads each 50th: some minutes
#     sh tests/refuse.sh 1 long 1 5000         of this case alone, from this allocation to that one
#
# A C compiler ($CC, or cc) makes what refuses: functions in the place of the C library's, which count the calls. Python begins the
# runs and judges them (refuse.py). Says how many were refused, and ends with a line `N passed, M failed`.
top=$(cd "$(dirname "$0")/.." && pwd) || exit 1
. "$top/tests/common.sh"
step=${1:-1} only=$2 first=${3:-1} last=${4:-1000000000}

for made in 'refuse.so' 'copy.so -DWITHOUT_THREADS'; do
    # shellcheck disable=SC2086
    "${CC:-cc}" -O1 -shared -fPIC -o "$got/"$made "$top/tests/refuse.c" || exit 1
done

# sweep KIND NAME STEP FILE..: each allocation of such a number is refused to a command of this kind (refuse.py)
sweep() {
    kind=$1 name=$2 each=$3
    shift 3
    BP="$BP" got="$got" python3 "$top/tests/refuse.py" "$kind" "$name" "$first" "$each" "$last" "$@"
}

# keeps NAME FILE..: keeps a log of the script with these injectors, and its text
keeps() {
    name=$1
    shift
    program run --log "$name.log" "$name.js" "$@" > "$name.text"
}

# An event that is blocked keeps its place and is overtaken.
cat > "$got/short.js" << 'END'
bp.registerBThread("B", () => { bp.sync({waitFor: bp.Event("go"), block: bp.Event("x")}) })
bp.registerBThread("C", () => { bp.sync({waitFor: bp.Event("x")}); bp.log.info("got") })
END
cat > "$got/short.awk" << 'END'
function requested() { return "" }

function blocked(event) { return event == "[\"x\"]" && !gone }

function happened(event) {
    if (event == "[\"go\"]") {
        gone = 1
        print "done \"B\""
        return
    }
    print "log \"C\" \"got\""
    print "done \"C\""
}
END
printf '["x"]\n["go"]\n' > "$got/lines"

short() {
    sweep run "$got/short" 1 "$got/lines"
}

short_replay() {
    keeps "$got/short" "$got/lines" && sweep replay "$got/short" 1
}

cp "$top/examples/busy_crossing.js" "$got/long.js"
cp "$top/examples/busy_crossing.awk" "$got/long.awk"
cars=$top/examples/busy_crossing.cars lights=$top/examples/busy_crossing.lights

long() {
    sweep run "$got/long" "$step" "$cars" "$lights"
}

long_alone() {
    sweep alone "$got/long" 1 "$cars" "$lights"
}

long_replay() {
    keeps "$got/long" "$cars" "$lights" && sweep replay "$got/long" 1
}

# Eight b-threads, of which each turns long enough for four workers to begin, and then takes memory in each of many slices.
wide() {
    cat > "$got/wide.js" << 'END'
const make = i => () => {
  for (let k = 0; k < 3000; k++) ;
  let l = [];
  for (let r = 0; r < 40; r++) l = l.concat([r]);
  bp.log.info(i + " " + l.length);
};
for (let i = 0; i < 8; i++) bp.registerBThread("t" + i, make(i));
END
    for number in 0 1 2 3 4 5 6 7; do printf '%s\n' "log \"t$number\" \"$number 40\"" "done \"t$number\""; done > "$got/wide.text"
    echo 'verdict quiet 0' >> "$got/wide.text"
    sweep workers "$got/wide" 1
}

# shellcheck disable=SC2086
try ${only:-short short_replay wide long_alone long_replay long}
