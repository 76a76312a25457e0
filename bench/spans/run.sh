#!/bin/sh
# Times the spans of 65,536 overlapping chunks, in a scratch copy that is removed again. Wants rt.
set -e
here=$(cd "$(dirname "$0")" && pwd)
top=$(cd "$here/../.." && pwd)
scratch=$(mktemp -d)
trap 'rm -rf "$scratch"' EXIT
mkdir -p "$scratch/crates"
for crate in weed_base proto_wire file_id entry spans; do
    cp -r "$top/crates/$crate" "$scratch/crates/"
done
cp "$top/HANDLES" "$scratch/"
grep -E '^(weed_base|proto_wire|file_id|entry|spans):' "$top/crates.txt" > "$scratch/crates.txt"
echo 'span_times: spans entry file_id anyhow' >> "$scratch/crates.txt"
mkdir -p "$scratch/crates/span_times/src"
cp "$here/program.txt" "$scratch/crates/span_times/src/main.rt"
(cd "$scratch/crates/span_times" && rt run > log 2>&1) || { tail -40 "$scratch/crates/span_times/log"; exit 1; }
"$scratch/crates/span_times/out/span_times"
