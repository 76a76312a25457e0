#!/bin/sh
# Times a keeper in memory over 1,000,000 paths beside Rust's BTreeMap, in a scratch copy that is removed again.
# Wants rt and rustc. The last line is the greatest resident size in KiB where GNU time is there.
set -e
here=$(cd "$(dirname "$0")" && pwd)
top=$(cd "$here/../.." && pwd)
scratch=$(mktemp -d)
trap 'rm -rf "$scratch"' EXIT
mkdir -p "$scratch/crates"
crates="weed_base proto_wire file_id entry name_core filer_keeper mem_keeper"
for crate in $crates; do
    cp -r "$top/crates/$crate" "$scratch/crates/"
done
cp "$top/HANDLES" "$scratch/"
for crate in $crates; do
    grep -E "^$crate:" "$top/crates.txt" >> "$scratch/crates.txt"
done
echo 'keeper_times: mem_keeper filer_keeper name_core entry weed_base anyhow' >> "$scratch/crates.txt"
mkdir -p "$scratch/crates/keeper_times/src"
cp "$here/program.txt" "$scratch/crates/keeper_times/src/main.rt"
(cd "$scratch/crates/keeper_times" && rt run > log 2>&1) || { tail -40 "$scratch/crates/keeper_times/log"; exit 1; }
rustc -O -o "$scratch/btree" "$here/btree.rs"
"$scratch/crates/keeper_times/out/keeper_times"
"$scratch/btree"
if [ -x /usr/bin/time ]; then
    /usr/bin/time -f 'greatest resident size: %M KiB' "$scratch/crates/keeper_times/out/keeper_times" > /dev/null
fi
