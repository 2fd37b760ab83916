#!/bin/sh
# Times the frame machine: nodes a second of loops over whole numbers, calls, lists, texts, fields and forEach, in a copy of
# the crates. machine_main.txt is the program that does it; it has no ending of a source, since no check of the repository
# reads it.
set -e
top=$(cd "$(dirname "$0")/.." && pwd)
copy=$(mktemp -d)
trap 'rm -rf "$copy"' EXIT
cp -r "$top/crates" "$copy/"
cp "$top/HANDLES" "$copy/HANDLES"
mkdir -p "$copy/crates/machine_bench/src"
cp "$top/bench/machine_main.txt" "$copy/crates/machine_bench/src/main.rt"
cp "$top/crates.txt" "$copy/crates.txt"
printf '%s\n' 'machine_bench: bp_script js_frames anyhow' >> "$copy/crates.txt"
cd "$copy/crates/machine_bench"
rt run
