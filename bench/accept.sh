#!/bin/sh
# Times `bp accept` over texts of about 1,000,000 bytes, and tells the greatest memory that it held: declarations in one scope,
# functions that call one another, nested blocks, nested functions, variables that are copied into functions, and `var`s in
# blocks; and then three of which the second and the third are to take at most six times the seconds of the first, and at most
# 600 MB: uses of one name, the same under 180 nested functions that copy it, and `var`s under 190 nested blocks.
#
# The program is the one that `sh ./bp` builds, or the one at the path in BP.
set -e
top=$(cd "$(dirname "$0")/.." && pwd)
texts=$(mktemp -d)
trap 'rm -rf "$texts"' EXIT
awk 'BEGIN { for (i = 0; i < 52000; i++) printf "let x%d = %d;\n", i, i }' > "$texts/declarations"
awk 'BEGIN { for (i = 0; i < 24000; i++) printf "function f%d(a) { return f%d(a) + a }\n", i, 23999 - i }' > "$texts/functions"
awk 'BEGIN { for (i = 0; i < 680; i++) { printf "()=>{"; for (k = 0; k < 190; k++) printf "{let a;"; for (k = 0; k < 190; k++) printf "}"; printf "}\n;" } }' > "$texts/blocks"
awk 'BEGIN { for (i = 0; i < 2150; i++) { for (k = 0; k < 95; k++) printf "a=>("; printf "1"; for (k = 0; k < 95; k++) printf ")"; printf "\n;" } }' > "$texts/arrows"
awk 'BEGIN { for (i = 0; i < 26000; i++) printf "(() => {let x%d = 1; () => x%d});\n", i, i }' > "$texts/captures"
awk 'BEGIN { for (i = 0; i < 22000; i++) printf "() => { { { var v%d = 1; } } v%d };\n", i, i }' > "$texts/vars"
awk 'BEGIN { printf "let x=1;["; for (i = 0; i < 499000; i++) printf "x,"; printf "x];\n" }' > "$texts/uses"
awk 'BEGIN { printf "x=>"; for (k = 0; k < 179; k++) printf "y=>"; printf "["; for (i = 0; i < 499000; i++) printf "x,"; printf "x];\n" }' > "$texts/deep_uses"
awk 'BEGIN { for (k = 0; k < 190; k++) printf "{"; for (i = 0; i < 90000; i++) printf "var v%d;", i; for (k = 0; k < 190; k++) printf "}" }' > "$texts/deep_vars"

# The processor seconds and the greatest memory of a command, and what it says.
measure() {
    python3 -c '
import resource, subprocess, sys
run = subprocess.run(sys.argv[1:], stdout=subprocess.PIPE, stderr=subprocess.STDOUT)
used = resource.getrusage(resource.RUSAGE_CHILDREN)
print("%.2f s, %d MB, %s" % (used.ru_utime + used.ru_stime, used.ru_maxrss // 1024, run.stdout.decode().strip()))
' "$@"
}

if [ -z "$BP" ]; then
    sh "$top/bp" accept "$texts/declarations" > /dev/null
    BP=$top/crates/bp/out/bp
fi
for text in declarations functions blocks arrows captures vars uses deep_uses deep_vars; do
    echo "$text: $(wc -c < "$texts/$text") bytes, $(measure "$BP" accept "$texts/$text")"
done
