#!/bin/sh
# Times 200,000 heads of about 200 bytes, read from memory one behind another, beside a table-driven splitter in C, in
# a scratch copy that is removed again. Wants rt and cc.
set -e
here=$(cd "$(dirname "$0")" && pwd)
top=$(cd "$here/../.." && pwd)
scratch=$(mktemp -d)
trap 'rm -rf "$scratch"' EXIT
mkdir -p "$scratch/crates/head_times/src"
grep -E '^(weed_base|http_head|http_wire):' "$top/crates.txt" > "$scratch/crates.txt"
for crate in $(cut -d: -f1 "$scratch/crates.txt"); do
    cp -r "$top/crates/$crate" "$scratch/crates/"
done
cp "$top/HANDLES" "$scratch/"
echo 'head_times: http_wire weed_base anyhow' >> "$scratch/crates.txt"
cp "$here/heads.txt" "$scratch/crates/head_times/src/main.rt"
(cd "$scratch/crates/head_times" && rt run > log 2>&1) || { tail -40 "$scratch/crates/head_times/log"; exit 1; }
cc -O2 -o "$scratch/heads" "$here/heads.c"
for turn in 1 2 3; do
    "$scratch/crates/head_times/out/head_times"
    "$scratch/heads"
done
