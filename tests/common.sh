# What the scripts of this folder begin with, most of which are run by hand: the built program, the one of `sh ./bp` or at the path in
# BP, a folder that goes at the end, and how a list of functions is tried. `top` is the top of the repository.
got=$(mktemp -d) || exit 1
trap 'rm -rf "$got"' EXIT

if [ -z "$BP" ]; then
    sh "$top/bp" accept "$top/examples/hot_and_cold.js" > /dev/null || exit 1
    BP=$top/crates/bp/out/bp
fi

# program WORDS..: the program; where it takes longer than `most` seconds it is ended, with 124
most=600
program() {
    timeout "$most" "$BP" "$@"
}

# differs TEXT: says what came in the place of what was wanted
differs() {
    echo "$1"
    cat "$got/note"
    diff "$got/wanted" "$got/trace" | head -n 5
    return 1
}

. "$top/examples/injected.sh"

# try NAME..: tries each of these functions, says which fail, and ends the script with a line `N passed, M failed`
try() {
    passed=0
    failed=0
    for what do
        if "$what"; then
            passed=$((passed + 1))
        else
            echo "$what: failed"
            failed=$((failed + 1))
        fi
    done
    echo "$passed passed, $failed failed"
    [ "$failed" -eq 0 ]
    exit
}
