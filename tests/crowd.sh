#!/bin/sh
# Scripts with a crowd of b-threads beside them that changes nothing, by the built program:
#
#     sh tests/crowd.sh              500 b-threads beside each script, which takes some minutes
#     sh tests/crowd.sh 100          this many
#
# The scripts are those of the examples, and of the rows of runs, verdicts and mistakes (tests/rows). Each is run under every strategy
# and two seeds, alone and with a crowd that is registered before its own b-threads or after them: b-threads that wait for events
# which never come, that block such events, or that request events which are blocked. The text and the status must be those of the
# script alone: no set of these scripts is at fault about an event of the crowd. A script that is refused counts for nothing. Ends
# with a line `N passed, M failed`.
top=$(cd "$(dirname "$0")/.." && pwd) || exit 1
. "$top/tests/common.sh"
size=${1:-500}
mkdir "$got/scripts" || exit 1

# The examples; one with injectors is given the first of them alone, since its lines come in order.
examples() {
    for script in "$top"/examples/*.js; do
        name=$(basename "$script" .js)
        cp "$script" "$got/scripts/$name.js"
        [ -f "${script%.js}.injectors" ] || continue
        read -r injector rest < "${script%.js}.injectors"
        cp "$top/examples/$injector" "$got/scripts/$name.lines"
    done
}

# rows FOLDER: the files script.js of these rows
rows() {
    cat "$top/tests/rows/$1"/*.rows | awk -v to="$got/scripts/$1" '
        /^file script\.js$/ { number++; file = to "_" number ".js"; printf "" > file; blank = 0; next }
        file && /^$/ { blank++; next }
        file && /^  / { for (; blank > 0; blank--) print "" > file; print substr($0, 3) > file; next }
        file { close(file); file = "" }
    '
}

# crowd KIND NUMBER: a line of text that registers this many b-threads of this kind
crowd() {
    case $1 in
        waiting) states='{waitFor: [bp.Event("crowd", n), bp.Event("crowd")], interrupt: bp.Event("crowd", -1)}' ;;
        blocking) states='{waitFor: bp.Event("crowd"), block: bp.Event("crowd", n)}' ;;
        requesting) states='{request: [bp.Event("crowd", n), bp.Event("crowd", {x: {y: n}})]}, 9' ;;
    esac
    printf 'for (let i = 0; i < %s; i++) { const n = i; bp.registerBThread("Crowd " + n, () => { bp.sync(%s); }); } ' "$2" "$states"
    [ "$1" = requesting ] || return
    printf 'bp.registerBThread("Crowd", () => { bp.sync({block: bp.EventSet("crowd", e => e.name === "crowd")}); }); '
}

# beside SCRIPT KIND PLACE NUMBER: writes the script with such a crowd, before its text on the same line, or after it
beside() {
    case $3 in
        before) { crowd "$2" "$4"; cat "$1"; } > "$got/crowded.js" ;;
        after) { cat "$1"; echo; crowd "$2" "$4"; } > "$got/crowded.js" ;;
    esac
}

# tells TEXT SCRIPT: writes what the script prints, and its status, under the strategy and the seed that are looked at
tells() {
    to=$1
    shift
    [ -f "$got/scripts/$name.lines" ] && set -- "$1" "$got/scripts/$name.lines"
    program run --steps 2000 --strategy "$strategy" --seed "$seed" "$@" > "$to" 2> "$got/note"
    status=$?
    echo "status $status" >> "$to"
}

# stays SCRIPT: whether no crowd changes what the script prints under this strategy and this seed
stays() {
    for kind in waiting blocking requesting; do
        for place in before after; do
            beside "$1" "$kind" "$place" "$size"
            tells "$got/trace" "$got/crowded.js"
            cmp -s "$got/wanted" "$got/trace" && continue
            differs "$name, $strategy, seed $seed: $size $kind $place"
            return 1
        done
    done
}

# unchanged SCRIPT: whether no crowd changes what the script prints; 2 where the script is refused
unchanged() {
    name=$(basename "$1" .js)
    for strategy in simple ordered priority; do
        for seed in 0 7; do
            tells "$got/wanted" "$1"
            [ "$status" -eq 2 ] && return 2
            stays "$1" || return 1
        done
    done
}

examples
for subject in runs verdicts mistakes; do rows "$subject"; done
passed=0
failed=0
for script in "$got"/scripts/*.js; do
    unchanged "$script"
    case $? in
        0) passed=$((passed + 1)) ;;
        1) failed=$((failed + 1)) ;;
    esac
done
echo "$passed passed, $failed failed"
[ "$passed" -gt 0 ] && [ "$failed" -eq 0 ]
