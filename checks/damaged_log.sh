#!/usr/bin/env bash
# Shows that a damaged log is named with its file and place, with status 3, and is left as it is.
set -u
cd "$(dirname "${BASH_SOURCE[0]}")/.." || exit 1

work=$(mktemp -d) || exit 1
trap 'rm -rf "$work"' EXIT
request='POST /a/b/ HTTP/1.1\r\nHost: x\r\n\r\n'

printf "$request" | ./weed filer.once "-dir=$work/data" > "$work/sent" || exit 1
printf '\xff' | dd of="$work/data/log.00000001" bs=1 seek=1 conv=notrunc status=none
cp -r "$work/data" "$work/before"

printf "$request" | ./weed filer.once "-dir=$work/data" > "$work/sent" 2> "$work/said"
status=$?
[ "$status" -eq 3 ] || { echo "damaged_log: status $status"; exit 1; }
[ "$(cat "$work/said")" = 'weed: damaged log.00000001 at 0' ] || { cat "$work/said"; exit 1; }
[ ! -s "$work/sent" ] || { echo "damaged_log: something was sent"; exit 1; }
diff -r "$work/data" "$work/before"
