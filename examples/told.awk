# Makes the text of a run of the records of its log, by the rules of the program, which stand in another file: `requested()` is the one
# event that is requested and that nobody blocks, or "", `blocked(event)` says whether an event of the queue is blocked, and
# `happened(event)` prints the lines that an event brings behind its own. Events are in compact text. Takes how many injectors there
# are as `injectors`. At the first record that the rules do not make it says what they make, and ends with 1.
function wrong(wanted) {
    print "record " NR ": wanted " wanted ", found " $0 > "/dev/stderr"
    failed = 1
    exit 1
}

# The line of the event that comes next, or "" where none can. An event of the queue stands at `taken`.
function next_line() {
    if (requested() != "") return "event " requested()
    for (taken = 1; taken <= came; taken++)
        if (taken in queue && !blocked(queue[taken])) return "external " queue[taken]
    return ""
}

/^in / {
    sub(/^in [0-9]+ /, "")
    queue[++came] = $0
}

/^eof / { ended++ }

/^sel / {
    line = next_line()
    event = line
    sub(/^[a-z]+ /, "", event)
    if (line == "") wrong("none")
    if ($0 != "sel " event) wrong("sel " event)
    if (line ~ /^external /) delete queue[taken]
    print line
    happened(event)
    selected++
}

/^end / {
    line = next_line()
    if (line != "") wrong(line)
    if (ended != injectors) wrong("the ends of all injectors before")
    if ($0 != "end quiet " selected + 0) wrong("end quiet " selected + 0)
    print "verdict quiet " selected + 0
    over = 1
}

END {
    if (failed) exit 1
    if (!over) wrong("an end")
}
