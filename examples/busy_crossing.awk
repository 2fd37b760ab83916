# The rules of busy_crossing.js, for told.awk. A car may pass while the last light of its road was green. It brings the line of its
# road's count, and a jam where there are more than three people in it.
function requested() { return jam }

function blocked(event,    word) {
    split(event, word, "\"")
    return word[2] == "car" && !is_green[word[8]]
}

function happened(event,    word, count, road) {
    split(event, word, "\"")
    if (word[2] == "jam") jam = ""
    if (word[2] == "green" || word[2] == "red") is_green[word[4]] = word[2] == "green"
    if (word[2] == "car") {
        count = substr(word[5], 2) + 0
        road = word[8]
        people[road] += count
        print "log \"count " road "\" \"" road " " people[road] "\""
        if (count > 3) jam = "[\"jam\",{\"from\":\"" road "\"}]"
    }
}
