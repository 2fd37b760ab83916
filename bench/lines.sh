#!/bin/sh
# Times the lines of an injector, in a copy of the crates: as many empty lines as an injector may have, one line more, and
# lines of events; and says what time and memory the whole took. lines_main.txt is the program that does it; it has no ending of
# a source, since no check of the repository reads it.
set -e
top=$(cd "$(dirname "$0")/.." && pwd)
copy=$(mktemp -d)
trap 'rm -rf "$copy"' EXIT
mkdir -p "$copy/crates/lines_bench/src"
for crate in bp_base bp_lanes bp_feeds bp_log js_data js_json; do
    cp -r "$top/crates/$crate" "$copy/crates/"
done
cp "$top/bench/lines_main.txt" "$copy/crates/lines_bench/src/main.rt"
grep -E '^(bp_base|bp_lanes|bp_feeds|bp_log|js_data|js_json)[: ]' "$top/crates.txt" > "$copy/crates.txt"
printf '%s\n' 'lines_bench: bp_base bp_lanes bp_feeds bp_log anyhow' >> "$copy/crates.txt"
cp "$top/HANDLES" "$copy/HANDLES"
cd "$copy/crates/lines_bench"
rt run
/usr/bin/time -f 'once more: %e s on the clock, %U s of the processor, %M kB at most' out/lines_bench
