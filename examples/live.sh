#!/bin/sh
# Feeds thermostat.js line by line while it runs, through a FIFO:
#
#     sh examples/live.sh
#
# What goes in stands behind `>`, and what the run prints below it. A line goes in only once the one before was answered, so an answer
# that came late would never come: then the run is ended after a minute, and the script ends with 1, as where an answer is another one.
# The program is the one that `sh ./bp` builds, or the one at the path in BP.
top=$(cd "$(dirname "$0")/.." && pwd) || exit 1
if [ -z "$BP" ]; then
    sh "$top/bp" accept "$top/examples/thermostat.js" > /dev/null || exit 1
    BP=$top/crates/bp/out/bp
fi
room=$(mktemp -d) || exit 1
run=
trap '[ -z "$run" ] || kill "$run" 2> /dev/null; rm -rf "$room"' EXIT
mkfifo "$room/temperatures" "$room/text" || exit 1

timeout 60 "$BP" run --log "$room/log" "$top/examples/thermostat.js" "$room/temperatures" > "$room/text" &
run=$!
# The run waits until somebody writes to its injector. The FIFO is opened for both ways, which waits for nobody, so that the script
# goes on also where the run has ended before.
exec 3<> "$room/temperatures" 4< "$room/text"

fail() {
    echo "$1" >&2
    exit 1
}

# hear LINE..: the next lines of the text, which have to be these
hear() {
    for wanted do
        IFS= read -r line <&4 || fail "no answer; wanted $wanted"
        echo "$line"
        [ "$line" = "$wanted" ] || fail "wanted $wanted"
    done
}

# give LINE ANSWER..: one line goes in, and is answered so
give() {
    echo "> $1"
    echo "$1" >&3
    shift
    hear "$@"
}

give '["temperature",20]' 'external ["temperature",20]'
give '["temperature",18]' 'external ["temperature",18]' 'event ["heat","on"]'
give '["temperature",22]' 'external ["temperature",22]'
give '["temperature",23]' 'external ["temperature",23]' 'event ["heat","off"]' 'log "Report" "on for 2 temperatures"'

# What was printed stands in the log already.
[ "$(tail -n 1 "$room/log")" = 'sel ["heat","off"]' ] || fail "the log ends with $(tail -n 1 "$room/log")"

give '["temperature",21]' 'external ["temperature",21]'

# Where the writer goes away the injector has ended, and so has the run.
echo '> (the writer goes away)'
exec 3>&-
hear 'verdict quiet 7'
wait "$run"
status=$?
run=
[ "$status" -eq 0 ] || fail "status $status"
