#!/bin/sh
# Times values and operators, in a copy of the crates. values_main.txt is the program that does it; it has no ending of a
# source, since no check of the repository reads it.
set -e
top=$(cd "$(dirname "$0")/.." && pwd)
copy=$(mktemp -d)
trap 'rm -rf "$copy"' EXIT
mkdir -p "$copy/crates/values_bench/src"
for crate in bp_tables js_data js_json js_value js_ops; do
    cp -r "$top/crates/$crate" "$copy/crates/"
done
cp "$top/bench/values_main.txt" "$copy/crates/values_bench/src/main.rt"
grep -E '^(bp_tables|js_data|js_json|js_value|js_ops):' "$top/crates.txt" > "$copy/crates.txt"
printf '%s\n' 'values_bench: js_ops js_value anyhow' >> "$copy/crates.txt"
cp "$top/HANDLES" "$copy/HANDLES"
cd "$copy/crates/values_bench"
rt run
