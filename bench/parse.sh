#!/bin/sh
# Times `bp accept` over texts of at most 1,048,576 bytes that are hard on the parser: long lists and chains, and nesting up
# to its limit. The figures hold the tokens' and the names' time too.
set -e
top=$(cd "$(dirname "$0")/.." && pwd)
texts=$(mktemp -d)
trap 'rm -rf "$texts"' EXIT

# fill NAME FRONT PART BACK: as many parts as fit between the front and the back
fill() {
    awk -v front="$2" -v part="$3" -v back="$4" 'BEGIN {
        left = 1048576 - length(front) - length(back)
        printf "%s", front
        for (; left >= length(part); left -= length(part)) printf "%s", part
        printf "%s", back
    }' > "$texts/$1"
}

# many TEXT TIMES
many() {
    awk -v text="$1" -v times="$2" 'BEGIN { for (i = 0; i < times; i++) printf "%s", text }'
}

fill flat_statements 'let a = 1; ' 'a=1;' ''
fill empty_statements '' ';' ''
fill chain_to_the_left '' '1+' '1'
fill chains_of_198_operators '' "$(many 1- 198)1;" ''
fill parentheses_198_deep '' "$(many '(' 198)1$(many ')' 198);" ''
fill blocks_199_deep '' "$(many '{' 199)$(many '}' 199)" ''
fill one_list_of_arguments 'let f = () => {}; f(' '1,' ')'
fill list_in_190_parentheses "$(many '(' 190)[" '1,' "]$(many ')' 190)"
fill open_parentheses '' '(' ''
fill calls_after_calls 'let f = () => {}; f' '()' ''
sh "$top/bp" accept "$texts/flat_statements" > /dev/null
for text in flat_statements empty_statements chain_to_the_left chains_of_198_operators parentheses_198_deep blocks_199_deep \
    one_list_of_arguments list_in_190_parentheses open_parentheses calls_after_calls; do
    begin=$(date +%s%N)
    answer=$(sh "$top/bp" accept "$texts/$text" 2>&1) || true
    end=$(date +%s%N)
    echo "$text: $(wc -c < "$texts/$text") bytes, $(((end - begin) / 1000000)) ms, $answer"
done
