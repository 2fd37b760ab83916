#!/bin/sh
# What a run does to files:
#
#     sh tests/files.sh
#
# No file that a run was given is lost, by whatever name its log goes, also where standard streams are closed; a log has what its own
# run wrote, whole, and no more; two runs don't share one. In each case the sums of all files before and after are compared. Runs the
# programs that `sh ./bp` and `sh ./bpx` build, or those at the paths in BP and BPX. Takes some seconds, and nothing waits for longer
# than two minutes. Ends with a line `N passed, M failed`.
top=$(cd "$(dirname "$0")/.." && pwd) || exit 1
. "$top/tests/common.sh"
most=60

if [ -z "$BPX" ]; then
    sh "$top/bpx" check "$top/examples/hot_and_cold.js" > /dev/null || exit 1
    BPX=$top/crates/bpx/out/bpx
fi

# explain WORDS..: the program that explains, within the same time
explain() {
    timeout "$most" "$BPX" "$@"
}

# give: makes a folder anew with what the runs of a test are given: two scripts, and the lines of an injector; beside it, what the first
# script prints
given=$got/given
give() {
    rm -rf "$given" && mkdir "$given" || return 1
    echo 'bp.registerBThread("A", () => { bp.sync({request: bp.Event("e")}) })' > "$given/one.js"
    printf '%s\n' 'event ["e"]' 'done "A"' 'verdict quiet 1' > "$got/printed"
    printf '["a",1]\n["a",2]\n' > "$given/lines"
    watching
    cp "$got/watching.js" "$given/"
}

# sums: what stands in each file that was given
sums() {
    (cd "$given" && cksum ./*)
}

# unchanged: whether the same files stand there as at the last `before=$(sums)`, and the same in each
unchanged() {
    [ "$(sums)" = "$before" ] && return
    echo "$what: files were changed"
    sums
    echo "and not"
    echo "$before"
    return 1
}

# replays: whether the log is whole and of the run whose text is wanted
replays() {
    program replay "$got/log" > "$got/trace" 2> "$got/note"
    status=$?
    comes 0 ''
}

# a run with a closed stream prints what it should where a stream is open, ends as it should, and its log is whole
closed_streams() {
    give
    for streams in in out error all; do
        before=$(sums)
        rm -f "$got/log"
        : > "$got/trace"
        : > "$got/note"
        case $streams in
            in) program run --log "$got/log" "$given/one.js" /dev/stdin <&- > "$got/trace" 2> "$got/note" ;;
            out) program run --log "$got/log" "$given/one.js" /dev/null >&- 2> "$got/note" ;;
            error) program run --log "$got/log" "$given/one.js" /dev/null > "$got/trace" 2>&- ;;
            all) program run --log "$got/log" "$given/one.js" /dev/stdin <&- >&- 2>&- ;;
        esac
        status=$?
        what="closed_streams, $streams"
        case $streams in
            in | error) cp "$got/printed" "$got/wanted" ;;
            out | all) : > "$got/wanted" ;;
        esac
        comes 0 '' || return 1
        cp "$got/printed" "$got/wanted"
        replays && unchanged || return 1
    done
}

# the same where there is a note: it is lost, the status is not, and no log is made
closed_error() {
    give
    echo 'let' > "$given/refused.js"
    before=$(sums)
    : > "$got/wanted"
    : > "$got/note"
    rm -f "$got/log"
    program run --log "$got/log" "$given/refused.js" > "$got/trace" 2>&-
    status=$?
    comes 2 '' || return 1
    [ ! -e "$got/log" ] || { echo "$what: a log was made"; return 1; }
    unchanged
}

# the program that explains, of a script and of a log
closed_explaining() {
    give
    program run --log "$given/log" "$given/one.js" > /dev/null 2> "$got/note" || return 1
    before=$(sums)
    for words in "check $given/one.js" "state $given/log" "why $given/log 1"; do
        # (the names have no blanks)
        # shellcheck disable=SC2086
        explain $words < /dev/null > "$got/wanted" 2> "$got/note" || { echo "bpx $words"; return 1; }
        for streams in in out error all; do
            case $streams in
                in) explain $words <&- > "$got/trace" 2> "$got/note" ;;
                out) explain $words >&- 2> "$got/note" ;;
                error) explain $words > "$got/trace" 2>&- ;;
                all) explain $words <&- >&- 2>&- ;;
            esac
            status=$?
            [ "$status" -eq 0 ] && cmp -s "$got/wanted" "$got/trace" && unchanged && continue
            differs "bpx $words, $streams closed: status $status"
            return 1
        done
    done
}

# refuses LOG WORDS..: whether a run of these words with this log ends with a write fault before it prints, and leaves every file
refuses() {
    log=$1
    shift
    before=$(sums)
    : > "$got/wanted"
    program run --log "$log" "$@" > "$got/trace" 2> "$got/note"
    status=$?
    comes 9 'write fault' && unchanged
}

# a log under another name of the script
log_over_script() {
    give
    ln -s one.js "$given/link.js"
    ln "$given/one.js" "$given/hard.js"
    for name in "$given/./one.js" "$given/link.js" "$given/hard.js"; do
        refuses "$name" "$given/one.js" && refuses "$given/one.js" "$name" || return 1
    done
    refuses "$given/link.js" "$given/hard.js" /dev/null
}

# a log under another name of an injector, which may be standard input
log_over_injector() {
    give
    ln -s lines "$given/link"
    ln "$given/lines" "$given/hard"
    for name in "$given/./lines" "$given/link" "$given/hard"; do
        refuses "$name" "$given/watching.js" "$given/lines" && refuses "$given/lines" "$given/watching.js" "$name" || return 1
        refuses "$name" "$given/watching.js" /dev/null "$given/lines" || return 1
        refuses "$name" "$given/watching.js" /dev/stdin < "$given/lines" || return 1
    done
    refuses /dev/stdin "$given/watching.js" "$given/lines" < "$given/lines"
}

# a log into the file that standard output, standard error or standard input is
log_over_stream() {
    give
    echo old > "$given/stream"
    before=$(sums)
    for name in "$given/stream" "$given/./stream" /dev/stdout; do
        program run --log "$name" "$given/one.js" >> "$given/stream" 2> "$got/note"
        status=$?
        [ "$status" -eq 9 ] && [ "$(cat "$got/note")" = 'write fault' ] && unchanged || { echo "$name: status $status"; return 1; }
    done
    refuses "$given/stream" "$given/one.js" < "$given/stream" || return 1
    program run --log "$given/stream" "$given/one.js" > "$got/trace" 2>> "$given/stream"
    status=$?
    [ "$status" -eq 9 ] && [ ! -s "$got/trace" ] && printf '%s\n' old 'write fault' | cmp -s - "$given/stream" && return
    echo "a log into standard error: status $status"
    return 1
}

# a pipe at the output takes both the text and the log
log_into_pipe() {
    give
    { program run --log /dev/stdout "$given/one.js" 2> "$got/note"; echo $? > "$got/status"; } | cat > "$got/both"
    [ "$(cat "$got/status")" -eq 0 ] && grep -q '^bp-log 2$' "$got/both" && grep -q '^event \["e"\]$' "$got/both"
}

# a log that can't be made
log_nowhere() {
    give
    refuses "$given" "$given/one.js" && refuses "$given/missing/log" "$given/one.js"
}

# an old log that is longer than the new one is gone, also where it was a link
longer_log() {
    give
    program run --log "$got/log" "$given/one.js" > "$got/trace" 2> "$got/note" || return 1
    cp "$got/log" "$got/alone"
    yes 'an old line' | head -n 10000 > "$given/old"
    ln -s old "$given/old_link"
    for name in "$given/old" "$given/old_link"; do
        yes 'an old line' | head -n 10000 > "$given/old"
        program run --log "$name" "$given/one.js" > "$got/trace" 2> "$got/note" || return 1
        cmp "$given/old" "$got/alone" || return 1
    done
}

# a log is held by one run: another is refused it, and the first goes on; afterwards it is free
held_log() (
    give
    begins watching "$got/fifo" || exit 1
    exec 5<> "$got/fifo"
    echo '["a",1]' >&5
    hears 'external ["a",1]' || exit 1
    : > "$got/wanted"
    cp "$got/log" "$got/held"
    program run --log "$got/log" "$given/one.js" > "$got/trace" 2> "$got/other_note"
    status=$?
    [ "$status" -eq 9 ] && [ "$(cat "$got/other_note")" = 'write fault' ] && [ ! -s "$got/trace" ] ||
        { echo "$what: the second run: status $status"; exit 1; }
    cmp "$got/log" "$got/held" || exit 1
    echo 'external ["a",1]' > "$got/wanted"
    program replay "$got/log" > "$got/trace" 2> "$got/other_note"
    cmp "$got/trace" "$got/wanted" || exit 1
    echo '["a",2]' >&5
    hears 'external ["a",2]' || exit 1
    exec 5>&-
    hears 'verdict quiet 2' && wait "$run" || exit 1
    printf '%s\n' 'external ["a",1]' 'external ["a",2]' 'verdict quiet 2' > "$got/wanted"
    replays || exit 1
    program run --log "$got/log" "$given/one.js" > "$got/trace" 2> "$got/note" || exit 1
    cp "$got/printed" "$got/wanted"
    replays
)

# a device is no file that could be held: two runs at once have it as their log
null_log_twice() (
    give
    rm -f "$got/text" "$got/fifo"
    mkfifo "$got/text" "$got/fifo" || exit 1
    program run --log /dev/null "$given/watching.js" "$got/fifo" > "$got/text" 2> "$got/note" &
    run=$!
    exec 4< "$got/text" 5<> "$got/fifo"
    echo '["a",1]' >&5
    hears 'external ["a",1]' || exit 1
    program run --log /dev/null "$given/one.js" > "$got/trace" 2> "$got/note" && cmp "$got/trace" "$got/printed" || exit 1
    exec 5>&-
    hears 'verdict quiet 1' && wait "$run"
)

# a FIFO with a reader takes a log
fifo_log() (
    give
    mkfifo "$got/pipe" || exit 1
    timeout "$most" cat "$got/pipe" > "$got/log" &
    reader=$!
    program run --log "$got/pipe" "$given/one.js" > "$got/trace" 2> "$got/note" && cmp "$got/trace" "$got/printed" || exit 1
    wait "$reader" || exit 1
    cp "$got/printed" "$got/wanted"
    replays
)

# grows FILE: waits until something stands in the file
grows() {
    for _ in $(seq "$most"); do
        [ -s "$1" ] && return
        sleep 1
    done
    echo "$what: nothing came into $1"
    cat "$got/note"
    return 1
}

# ends_early: ends the run that was begun last, which had not come to its end
ends_early() {
    kill "$run"
    wait "$run" 2> /dev/null
    ! grep -q '^end ' "$got/log" || { echo "$what: the run came to its end before"; return 1; }
}

# a run that is killed in its first turn leaves the head of its log, with its script
killed_at_once() (
    give
    echo 'bp.registerBThread("A", () => { while (true) {} })' > "$given/endless.js"
    rm -f "$got/log"
    timeout "$most" "$BP" run --budget 1000000000 --log "$got/log" "$given/endless.js" > "$got/trace" 2> "$got/note" &
    run=$!
    grows "$got/log" && ends_early || exit 1
    {
        printf '%s\n' 'bp-log 2' 'strategy simple' 'seed 0' 'budget 1000000000' 'steps 100000' 'injectors 0' 'wait yes' 'program 51'
        cat "$given/endless.js"
        echo
    } > "$got/wanted"
    cmp "$got/wanted" "$got/log"
)

# what a run without injectors tells is written long before it is much, and its log has it
killed_between_turns() (
    give
    echo 'bp.registerBThread("A", () => { while (true) { for (let i = 0; i < 3000; i++) ; bp.sync({request: bp.Event("t")}) } })' \
        > "$given/turning.js"
    rm -f "$got/log" "$got/text"
    timeout "$most" "$BP" run --steps 1000000 --log "$got/log" "$given/turning.js" > "$got/text" 2> "$got/note" &
    run=$!
    grows "$got/text" && ends_early || exit 1
    [ "$(($(wc -c < "$got/text")))" -lt 65536 ] || { echo "$what: $(wc -c < "$got/text") bytes were written at once"; exit 1; }
    program replay "$got/log" > "$got/trace" 2> "$got/note"
    status=$?
    [ "$status" -eq 11 ] && [ "$(cat "$got/note")" = 'bad log: cut' ] || { echo "$what: the replay: status $status"; exit 1; }
    head -c "$(($(wc -c < "$got/text")))" "$got/trace" | cmp - "$got/text"
)

# two FIFOs that the shell has open for both ways end once the shell closes them, if the program was started without them
both_ways() (
    give
    mkfifo "$got/one" "$got/two" || exit 1
    exec 3<> "$got/one" 4<> "$got/two"
    timeout 20 "$BP" run "$given/watching.js" "$got/one" "$got/two" 3>&- 4>&- > "$got/trace" 2> "$got/note" &
    run=$!
    echo '["b"]' >&4
    for _ in 1 2 3 4 5 6 7 8 9 10 11 12 13 14 15; do
        grep -q external "$got/trace" && break
        sleep 1
    done
    exec 3>&- 4>&-
    wait "$run"
    status=$?
    printf '%s\n' 'external ["b"]' 'verdict quiet 1' > "$got/wanted"
    comes 0 ''
)

try closed_streams closed_error closed_explaining log_over_script log_over_injector log_over_stream log_into_pipe log_nowhere \
    longer_log held_log null_log_twice fifo_log killed_at_once killed_between_turns both_ways
