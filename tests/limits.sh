#!/bin/sh
# Limits that a program, an injector or a run may meet, each met and just not met, by files and the built program:
#
#     sh tests/limits.sh               takes a minute
#
# Ends with a line `N passed, M failed`. What is refused and what is printed follows from the rules and the numbers of docs/LANGUAGE.md.
top=$(cd "$(dirname "$0")/.." && pwd) || exit 1
. "$top/tests/common.sh"

# times_of TEXT NUMBER: the text this many times
times_of() {
    awk -v text="$1" -v number="$2" 'BEGIN { for (i = 0; i < number; i++) printf "%s", text }'
}

# ends STATUS NOTE WORDS..: whether a command of these words ends so, and prints what is wanted
ends() {
    wanted_status=$1 wanted_note=$2
    shift 2
    program "$@" > "$got/trace" 2> "$got/note"
    status=$?
    comes "$wanted_status" "$wanted_note"
}

# replays STATUS: whether the log of the run before replays to what it printed
replays() {
    ends "$1" '' replay "$got/log"
}

most_steps() {
    echo 'bp.registerBThread("A", () => { for (let i = 0; i < 1000000; i++) bp.sync({request: bp.Event("t")}) })' > "$got/steps.js"
    {
        times_of 'event ["t"]\n' 1000000
        printf '%s\n' 'done "A"' 'verdict quiet 1000000'
    } > "$got/wanted"
    ends 0 '' run --steps 1000000 --log "$got/log" "$got/steps.js" && replays 0 || return 1
    echo 'bp.registerBThread("A", () => { while (true) bp.sync({request: bp.Event("t")}) })' > "$got/steps.js"
    {
        times_of 'event ["t"]\n' 1000000
        echo 'verdict limit steps 1000000'
    } > "$got/wanted"
    ends 6 '' run --steps 1000000 --log "$got/log" "$got/steps.js" && replays 6
}

# empty NUMBER: this many empty lines
empty() {
    head -c "$1" /dev/zero | tr '\0' '\n'
}

lines_of_an_injector() {
    watching
    empty 16777216 > "$got/lines"
    echo 'verdict quiet 0' > "$got/wanted"
    ends 0 '' run "$got/watching.js" "$got/lines" || return 1
    { empty 16777215; printf '["x"]'; } > "$got/lines"
    printf '%s\n' 'external ["x"]' 'verdict quiet 1' > "$got/wanted"
    ends 0 '' run "$got/watching.js" "$got/lines" || return 1
    empty 16777217 > "$got/lines"
    echo 'verdict bad 0 16777217' > "$got/wanted"
    ends 7 '' run "$got/watching.js" "$got/lines" || return 1
    { empty 16777216; printf '["x"]'; } > "$got/lines"
    ends 7 '' run "$got/watching.js" "$got/lines"
}

try most_steps lines_of_an_injector
