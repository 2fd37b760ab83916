# The rules of coffee_machine.js, for told.awk. A button counts once the credit is enough for its drink, which is then sold at once;
# a coin falls while the credit is below 100.
BEGIN {
    price["coffee"] = 50
    price["tea"] = 30
}

function requested() { return sale }

function blocked(event,    word) {
    split(event, word, "\"")
    return word[2] == "coin" ? credit >= 100 : credit < price[word[4]]
}

function happened(event,    word) {
    split(event, word, "\"")
    if (word[2] == "button") {
        sale = "[\"sold\",{\"name\":\"" word[4] "\",\"price\":" price[word[4]] "}]"
        return
    }
    if (word[2] == "coin") credit += substr(word[3], 2)
    if (word[2] == "sold") {
        sale = ""
        credit -= price[word[6]]
    }
    print "log \"Display\" \"credit " credit "\""
}
