#!/usr/bin/env bash
# Times openings of logs of 100,000, 300,000 and 1,000,000 records that make a directory each: the built
# program's whole run with an empty input, best of three, and, in a scratch copy that is removed again,
# MetaLog::open and reading in pages alone. Wants rt and python3.
# Usage: bench/opening/run.sh [DIRECTORY ON THE DISK TO MEASURE]
set -eu
here=$(cd "$(dirname "${BASH_SOURCE[0]}")" && pwd)
top=$(cd "$here/../.." && pwd)
scratch=$(mktemp -d -p "${1:-.}")
scratch=$(cd "$scratch" && pwd)
trap 'rm -rf "$scratch"' EXIT

"$top/weed" --version > /dev/null
mkdir -p "$scratch/crates/opening_times/src"
for crate in weed_base real_forms proto_wire file_id entry name_core records meta_log; do
    cp -r "$top/crates/$crate" "$scratch/crates/"
done
cp "$top/HANDLES" "$scratch/"
grep -E '^(weed_base|real_forms|proto_wire|file_id|entry|name_core|records|meta_log):' "$top/crates.txt" > "$scratch/crates.txt"
echo 'opening_times: meta_log real_forms weed_base anyhow' >> "$scratch/crates.txt"
cp "$here/program.txt" "$scratch/crates/opening_times/src/main.rt"
(cd "$scratch/crates/opening_times" && rt run > log 2>&1 < /dev/null) || { tail -40 "$scratch/crates/opening_times/log"; exit 1; }

for count in 100000 300000 1000000; do
    python3 "$here/make_log.py" "$scratch/log.$count" "$count"
    echo "$count records, $(stat -c %s "$scratch/log.$count/log.00000001") bytes"
    for turn in 1 2 3; do
        TIMEFORMAT='weed filer.once: %R s'
        time "$top/crates/weed/out/weed" filer.once "-dir=$scratch/log.$count" < /dev/null
        "$scratch/crates/opening_times/out/opening_times" "$scratch/log.$count"
    done
done
if [ -x /usr/bin/time ]; then
    /usr/bin/time -f 'greatest resident size: %M KiB' "$top/crates/weed/out/weed" filer.once "-dir=$scratch/log.1000000" < /dev/null
fi
