# Whether what the log of a run says of its injectors is a merge of their files: for each injector the events of its lines, in order
# and in compact text, and then its end, each once. Takes the files of the injectors, in order, and then the records of the log; no
# file is empty, no line is bad, and no text has a blank. Says what is wrong, and ends with 1.
function wrong(text) {
    print text > "/dev/stderr"
    failed = 1
    exit 1
}

BEGIN { injectors = ARGC - 2 }

FNR == 1 { file++ }

# A line of an injector. Injectors count from 0.
file <= injectors {
    gsub(/[ \t\r]/, "")
    if ($0 != "") wanted[file - 1, ++lines[file - 1]] = "in " file - 1 " " $0
    next
}

/^(in|eof|bad) / {
    place = ++found[$2]
    record = place <= lines[$2] ? wanted[$2, place] : place == lines[$2] + 1 && $2 < injectors ? "eof " $2 : "nothing"
    if ($0 != record) wrong("record " FNR ": wanted " record ", found " $0)
}

END {
    if (failed) exit 1
    for (injector = 0; injector < injectors; injector++)
        if (found[injector] != lines[injector] + 1) wrong("injector " injector " was not heard to its end")
}
