#!/bin/sh
# Times a volume over a real directory beside a C program that makes the same system calls and checks the same
# bytes: 2,000 appends of 1 KiB and 100 of 4 MiB, each settled; 200,000 reads of 1 KiB in a mixed order; the opening
# of a volume of 1,000,000 needles of 100 bytes. In a scratch copy that is removed again. Wants rt and cc.
# Usage: bench/volumes/run.sh [DIRECTORY ON THE DISK TO MEASURE]
set -e
here=$(cd "$(dirname "$0")" && pwd)
top=$(cd "$here/../.." && pwd)
scratch=$(mktemp -d -p "${1:-${TMPDIR:-/tmp}}")
trap 'rm -rf "$scratch"' EXIT
mkdir -p "$scratch/crates/volume_times/src" "$scratch/disk"
kept='weed_base|real_forms|needle|needle_index|volume_items|volume'
grep -E "^($kept):" "$top/crates.txt" > "$scratch/crates.txt"
for crate in $(cut -d: -f1 "$scratch/crates.txt"); do
    cp -r "$top/crates/$crate" "$scratch/crates/"
done
cp "$top/HANDLES" "$scratch/"
echo 'volume_times: volume needle real_forms weed_base anyhow' >> "$scratch/crates.txt"
cp "$here/program.txt" "$scratch/crates/volume_times/src/main.rt"
(cd "$scratch/crates/volume_times" && rt run > log 2>&1) || [ -x "$scratch/crates/volume_times/out/volume_times" ] || {
    tail -40 "$scratch/crates/volume_times/log"
    exit 1
}
weed="$scratch/crates/volume_times/out/volume_times"
cc -O2 -o "$scratch/volumes" "$here/volumes.c"
for load in '2000 1024' '100 4194304'; do
    for turn in 1 2 3; do
        sync
        echo "append $load:"
        "$scratch/volumes" append "$scratch/disk" $load
        sync
        "$weed" append "$scratch/disk" $load
        rm -f "$scratch/disk"/*
    done
done
"$scratch/volumes" make "$scratch/disk" 200000 1024
for turn in 1 2 3; do
    echo 'read 200000 1024:'
    "$scratch/volumes" read "$scratch/disk" 200000 1024
    "$weed" read "$scratch/disk" 200000 1024
done
"$scratch/volumes" make "$scratch/disk" 1000000 100
for turn in 1 2 3; do
    echo 'open 1000000 100:'
    "$scratch/volumes" open "$scratch/disk" 1000000 100
    "$weed" open "$scratch/disk" 1000000 100
done
if [ -x /usr/bin/time ]; then
    /usr/bin/time -f 'greatest resident size at 1,000,000 keys: %M KiB' "$weed" open "$scratch/disk" 1000000 100
fi
