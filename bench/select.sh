#!/bin/sh
# Times benches of 300 and of 3,000 live statements, in a copy of the crates: how long it takes to place the statements, and how
# long a question takes: each strategy's choice, whom an event reaches, what can be selected, and who blocks an event.
# select_main.txt is the program that does it, and select_placed.txt and select_asked.txt what holds in its loops; they have no
# endings of sources, since no check of the repository reads them.
set -e
top=$(cd "$(dirname "$0")/.." && pwd)
copy=$(mktemp -d)
trap 'rm -rf "$copy"' EXIT
cp -r "$top/crates" "$copy/"
cp "$top/HANDLES" "$copy/HANDLES"
bench=$copy/crates/select_bench
mkdir -p "$bench/src" "$bench/proofs/placed" "$bench/proofs/asked"
cp "$top/bench/select_main.txt" "$bench/src/main.rt"
for name in placed asked; do
    cp "$top/bench/select_$name.txt" "$bench/proofs/$name/Invariants.antt"
done
cp "$top/crates.txt" "$copy/crates.txt"
printf '%s\n' 'select_bench: bp_draw bp_log bp_script bp_select bp_thread js_data js_frames js_meaning js_value anyhow' >> "$copy/crates.txt"
cd "$bench"
rt run
