#!/bin/sh
# Times 1,000,000 texts of entries, written and read, beside a bare loop over varints of as many bytes in C, in a
# scratch copy that is removed again. Wants rt and cc.
set -e
here=$(cd "$(dirname "$0")" && pwd)
top=$(cd "$here/../.." && pwd)
scratch=$(mktemp -d)
trap 'rm -rf "$scratch"' EXIT
mkdir -p "$scratch/crates"
for crate in weed_base proto_wire file_id entry; do
    cp -r "$top/crates/$crate" "$scratch/crates/"
done
cp "$top/HANDLES" "$scratch/"
grep -E '^(weed_base|proto_wire|file_id|entry):' "$top/crates.txt" > "$scratch/crates.txt"
echo 'entry_times: entry file_id weed_base anyhow' >> "$scratch/crates.txt"
mkdir -p "$scratch/crates/entry_times/src"
cp "$here/program.txt" "$scratch/crates/entry_times/src/main.rt"
(cd "$scratch/crates/entry_times" && rt run > log 2>&1) || { tail -40 "$scratch/crates/entry_times/log"; exit 1; }
cc -O2 -o "$scratch/varints" "$here/varints.c"
for turn in 1 2 3; do
    "$scratch/crates/entry_times/out/entry_times"
done
"$scratch/varints" 112000000
