#!/bin/sh
# Times 1,000,000 puts and gets of the index beside Rust's BTreeMap, in a scratch copy that is removed again.
# Wants rt and rustc. The last line is the greatest resident size in KiB where GNU time is there.
set -e
here=$(cd "$(dirname "$0")" && pwd)
top=$(cd "$here/../.." && pwd)
scratch=$(mktemp -d)
trap 'rm -rf "$scratch"' EXIT
mkdir -p "$scratch/crates"
for crate in weed_base needle needle_index; do
    cp -r "$top/crates/$crate" "$scratch/crates/"
done
cp "$top/HANDLES" "$scratch/"
grep -E '^(weed_base|needle|needle_index):' "$top/crates.txt" > "$scratch/crates.txt"
echo 'index_times: needle_index anyhow' >> "$scratch/crates.txt"
mkdir -p "$scratch/crates/index_times/src"
cp "$here/program.txt" "$scratch/crates/index_times/src/main.rt"
(cd "$scratch/crates/index_times" && rt run > log 2>&1) || { tail -40 "$scratch/crates/index_times/log"; exit 1; }
rustc -O -o "$scratch/btree" "$here/btree.rs"
"$scratch/crates/index_times/out/index_times"
"$scratch/btree"
if [ -x /usr/bin/time ]; then
    /usr/bin/time -f 'greatest resident size: %M KiB' "$scratch/crates/index_times/out/index_times" > /dev/null
fi
