#!/bin/sh
# Runs one program with three injectors some thousand times, by 1 to 8 workers and slices of 1, 7, 100 and 10,000 nodes. The sources
# are files, or FIFOs whose writers are delayed by the words of a generator of its own.
#
#     sh tests/merges.sh               3,000 runs, which take some minutes
#     sh tests/merges.sh 200 7         this many, with another seed
#
# What the log of each run says of the injectors has to be a merge of the files, by a small program apart from `bp` (examples/merge.awk);
# its text has to be the one that the rules of the script make of these records (examples/told.awk), and the log has to replay to the
# same bytes. Says how many different merges came, of which there have to be two at least, and ends with a line `N passed, M failed`.
top=$(cd "$(dirname "$0")/.." && pwd) || exit 1
. "$top/tests/common.sh"
runs=${1:-3000}
seed=${2:-1}
most=60

# A b-thread makes the other two wait: an `a` is blocked until a `b` came, and the other way round. A `c` is never blocked, and brings an
# event of the script.
cat > "$got/three.js" << 'END'
bp.registerBThread("Turns", () => {
  while (true) {
    bp.sync({waitFor: bp.EventSet("a", e => e.name === "a"), block: bp.EventSet("b", e => e.name === "b")});
    bp.sync({waitFor: bp.EventSet("b", e => e.name === "b"), block: bp.EventSet("a", e => e.name === "a")});
  }
});
bp.registerBThread("Echo", () => {
  while (true) {
    const e = bp.sync({waitFor: bp.EventSet("c", e => e.name === "c")});
    bp.sync({request: bp.Event("heard", e.data)});
  }
});
bp.registerBThread("Count", () => {
  let n = 0;
  while (true) {
    bp.sync({waitFor: bp.all});
    n++;
    bp.log.info(n);
  }
});
END
cat > "$got/three.awk" << 'END'
function requested() { return echo }

function blocked(event) { return substr(event, 3, 1) == (is_second ? "a" : "b") }

function happened(event,    name) {
    split(event, name, "\"")
    if (name[2] == "heard") echo = ""
    if (name[2] == "a" || name[2] == "b") is_second = !is_second
    if (name[2] == "c") echo = "[\"heard\"," substr(name[3], 2)
    print "log \"Count\" \"" ++happenings "\""
}
END
for name in a b c; do
    for number in 1 2 3 4 5; do echo "[\"$name\",$number]"; done > "$got/$name"
done

# The delays of a run, in thousandths of a second, one for each line; no generator of the system is asked.
awk -v seed="$seed" -v runs="$runs" 'BEGIN {
    word = seed % 2147483647 + 1
    for (run = 0; run < runs; run++) {
        line = ""
        for (place = 0; place < 15; place++) {
            word = word * 16807 % 2147483647
            line = line " " (word % 4 ? 0 : word % 5)
        }
        print line
    }
}' > "$got/delays"

# feed FILE DELAY..: the lines of the file, each after its delay
feed() {
    file=$1
    shift
    while IFS= read -r line; do
        [ "$1" -eq 0 ] || sleep "0.00$1"
        echo "$line"
        shift
    done < "$file"
}

# one WORKERS SLICE DELAY..: one run, over FIFOs where there are delays, and over the files themselves else
one() {
    workers=$1 slice=$2
    shift 2
    rm -f "$got/log"
    if [ $# -eq 0 ]; then
        program run --workers "$workers" --slice "$slice" --log "$got/log" "$got/three.js" "$got/a" "$got/b" "$got/c" > "$got/trace" 2> "$got/note"
        status=$?
    else
        program run --workers "$workers" --slice "$slice" --log "$got/log" "$got/three.js" "$got/fifo-a" "$got/fifo-b" "$got/fifo-c" \
            > "$got/trace" 2> "$got/note" &
        run=$!
        # (each writer waits at its FIFO until the run has opened it)
        feed "$got/a" "$1" "$2" "$3" "$4" "$5" > "$got/fifo-a" &
        feed "$got/b" "$6" "$7" "$8" "$9" "${10}" > "$got/fifo-b" &
        feed "$got/c" "${11}" "${12}" "${13}" "${14}" "${15}" > "$got/fifo-c" &
        wait "$run"
        status=$?
        # (where the run ended before it opened them, this lets the writers go)
        exec 7<> "$got/fifo-a" 8<> "$got/fifo-b" 9<> "$got/fifo-c"
        wait
        exec 7>&- 8>&- 9>&-
    fi
    if [ "$status" -ne 0 ]; then
        echo "$workers workers, slice $slice: status $status"
        cat "$got/note"
        return 1
    fi
    is_told "$got/three" "$got/a" "$got/b" "$got/c" || return 1
    grep -e '^in ' -e '^eof ' "$got/records" | cksum >> "$got/merges"
    cp "$got/trace" "$got/printed"
    program replay "$got/log" > "$got/trace" 2> "$got/note" && cmp -s "$got/printed" "$got/trace" && return
    cp "$got/printed" "$got/wanted"
    differs "$workers workers, slice $slice: the replay of its log"
}

: > "$got/merges"
mkfifo "$got/fifo-a" "$got/fifo-b" "$got/fifo-c" || exit 1
passed=0
failed=0
while IFS= read -r delays; do
    number=$((passed + failed))
    workers=$((number % 8 + 1))
    case $((number / 8 % 4)) in 0) slice=1 ;; 1) slice=7 ;; 2) slice=100 ;; *) slice=10000 ;; esac
    # Every third run reads the files themselves.
    [ $((number % 3)) -ne 0 ] || delays=
    # (the delays are words)
    # shellcheck disable=SC2086
    if one "$workers" "$slice" $delays < /dev/null; then passed=$((passed + 1)); else failed=$((failed + 1)); fi
done < "$got/delays"
different=$(sort -u "$got/merges" | wc -l)
echo "$different different merges"
[ "$different" -ge 2 ] || failed=$((failed + 1))
echo "$passed passed, $failed failed"
[ "$failed" -eq 0 ]
