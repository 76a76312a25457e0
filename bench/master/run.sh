#!/bin/sh
# Times the calls of topology and master at 1,024 nodes, in a scratch copy that is removed again. Wants rt.
set -e
here=$(cd "$(dirname "$0")" && pwd)
top=$(cd "$here/../.." && pwd)
scratch=$(mktemp -d)
trap 'rm -rf "$scratch"' EXIT
mkdir -p "$scratch/crates"
for crate in weed_base proto_wire file_id needle topology master; do
    cp -r "$top/crates/$crate" "$scratch/crates/"
done
cp "$top/HANDLES" "$scratch/"
grep -E '^(weed_base|proto_wire|file_id|needle|topology|master):' "$top/crates.txt" > "$scratch/crates.txt"
echo 'master_times: master topology needle weed_base anyhow' >> "$scratch/crates.txt"
mkdir -p "$scratch/crates/master_times/src"
cp "$here/program.txt" "$scratch/crates/master_times/src/main.rt"
(cd "$scratch/crates/master_times" && rt run > log 2>&1) || { tail -40 "$scratch/crates/master_times/log"; exit 1; }
"$scratch/crates/master_times/out/master_times"
