#!/bin/sh
# Runs the program on each example, and compares what it prints, and its status, with the files beside the example: NAME.trace,
# NAME.status where the status is not 0, and NAME.options where it needs options. The same text must come for several numbers of
# workers and slices, and from a replay of the run's log. An example with NAME.injectors, the names of its injectors, may print the
# text of any merge of their lines (injected.sh says how that is looked at). The program is the one that `sh ./bp` builds, or the one
# at the path in BP. Runs two more scripts by several workers and slices, one up to a limit of steps, measures large programs, and
# tries injectors that are files, FIFOs and standard input. Says which examples differ, and ends with a line `N passed, M failed`.
top=$(cd "$(dirname "$0")/.." && pwd) || exit 1
got=$(mktemp -d) || exit 1
trap 'rm -rf "$got"' EXIT

if [ -z "$BP" ]; then
    sh "$top/bp" accept "$top/examples/hot_and_cold.js" > /dev/null || exit 1
    BP=$top/crates/bp/out/bp
fi

# program WORDS..: the program; where it takes longer than two minutes it is ended, with 124
program() {
    timeout 120 "$BP" "$@"
}

. "$top/examples/injected.sh"

# wanted NAME: the status that the run of this example has
wanted() {
    if [ -f "$1.status" ]; then cat "$1.status"; else echo 0; fi
}

# options NAME: the options that the run of this example has
options() {
    if [ -f "$1.options" ]; then cat "$1.options"; fi
}

# agrees NAME WORDS..: whether a command of these words prints the trace of this example, and ends with its status
agrees() {
    name=$1
    shift
    program "$@" > "$got/trace" 2> "$got/note"
    status=$?
    [ "$status" -eq "$(wanted "$name")" ] && cmp -s "$name.trace" "$got/trace" && return
    echo "bp $*: status $status, wanted $(wanted "$name")"
    cat "$got/note"
    diff "$name.trace" "$got/trace"
    return 1
}

# migrates NAME: whether the log, of either version, is written in the second, and replays as before
migrates() {
    awk '
        NR == 1 && $0 == "bp-log 1" { print "bp-log 2"; first = 1; next }
        first && /^program / { print "wait yes"; first = 0 }
        { print }
    ' "$got/log" > "$got/second"
    program migrate "$got/log" > "$got/migrated" 2> "$got/note"
    status=$?
    if [ "$status" -ne 0 ] || ! cmp -s "$got/second" "$got/migrated"; then
        echo "bp migrate: status $status"
        cat "$got/note"
        diff "$got/second" "$got/migrated"
        return 1
    fi
    agrees "$1" replay "$got/migrated"
}

# check NAME: whether the runs of this example and the replay of its log are as the files beside it say
check() {
    if [ -f "$1.injectors" ]; then
        check_injected "$1"
        return
    fi
    rm -f "$got/log"
    # (the options are words)
    # shellcheck disable=SC2046
    agrees "$1" run --log "$got/log" $(options "$1") "$1.js" || return 1
    agrees "$1" replay "$got/log" && migrates "$1" || return 1
    for workers in 1 2 3 64; do
        for slice in 1 7 100000; do
            # shellcheck disable=SC2046
            agrees "$1" run --workers "$workers" --slice "$slice" $(options "$1") "$1.js" || return 1
        done
    done
}

# differs TEXT: says what came in the place of what was wanted
differs() {
    echo "$1"
    cat "$got/note"
    diff "$got/wanted" "$got/trace" | head -n 5
    return 1
}

# says TEXT WORDS..: whether a command of these words prints this line and no more, and ends well
says() {
    echo "$1" > "$got/wanted"
    shift
    program "$@" > "$got/trace" 2> "$got/note" && cmp -s "$got/wanted" "$got/trace" && return
    differs "bp $*"
}

# same NAME: whether the script prints what is wanted, whatever the workers and the slice
same() {
    for workers in 1 2 8; do
        for slice in 1 7 1000; do
            program run --workers "$workers" --slice "$slice" "$got/$1.js" > "$got/trace" 2> "$got/note"
            cmp -s "$got/wanted" "$got/trace" || differs "$1: $workers workers, slice $slice" || return 1
        done
    done
}

# b-threads that are registered while the others of their turn run
registering() {
    cat > "$got/registering.js" << 'END'
bp.registerBThread("A", function() {
  bp.sync({request: bp.Event("a")});
  bp.registerBThread("B", function() {
    bp.log.info("b");
    bp.registerBThread("D", function() { bp.log.info("d"); });
  });
  bp.registerBThread("C", function() { bp.log.info("c"); });
});
END
    cat > "$got/wanted" << 'END'
event ["a"]
done "A"
log "B" "b"
done "B"
log "C" "c"
done "C"
log "D" "d"
done "D"
verdict quiet 1
END
    same registering
}

# 40 b-threads, of which each requests an event of its own four times: 201 lines of 2,808 bytes, the same each time
forty() {
    cat > "$got/forty.js" << 'END'
const make = i => () => { for (let r = 0; r < 4; r++) bp.sync({request: bp.Event("e", i)}) }
for (let i = 0; i < 40; i++) bp.registerBThread("t" + i, make(i))
END
    program run "$got/forty.js" > "$got/wanted" 2> "$got/note"
    [ "$(wc -lc < "$got/wanted" | tr -s ' ' | sed 's/^ //')" = "201 2808" ] || { echo "40 b-threads: not 201 lines of 2808 bytes"; return 1; }
    same forty
}

# a b-thread that never ends, up to the limit
endless() {
    echo 'bp.registerBThread("A", () => { while (true) bp.sync({request: bp.Event("t")}) })' > "$got/endless.js"
    awk 'BEGIN { for (i = 0; i < 300000; i++) print "event [\"t\"]"; print "verdict limit steps 300000" }' > "$got/wanted"
    program run --workers 1 --steps 300000 "$got/endless.js" > "$got/trace" 2> "$got/note"
    status=$?
    [ "$status" -eq 6 ] && cmp -s "$got/wanted" "$got/trace" && return
    differs "300,000 steps: status $status"
}

large() {
    says 'large 2 events 8 lines 11 bytes 148' large 2 && says 'large 100 events 400 lines 501 bytes 7068' large 100
}

passed=0
failed=0
for what in registering forty endless large sixteen overtaken bad_line standard_input refused_injectors reader_leaves answered \
    sleeping unwaited killed live answered_without_threads requested_without_threads silent_without_threads \
    unwaited_without_threads; do
    if "$what"; then passed=$((passed + 1)); else failed=$((failed + 1)); fi
done
for script in "$top"/examples/*.js; do
    if check "${script%.js}"; then passed=$((passed + 1)); else failed=$((failed + 1)); fi
done
echo "$passed passed, $failed failed"
[ "$failed" -eq 0 ]
