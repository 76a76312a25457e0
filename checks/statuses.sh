#!/usr/bin/env bash
# Shows the status and the line of a bad word, of a disk, an input and an output that fail, and what --help and
# --version print.
set -u
cd "$(dirname "${BASH_SOURCE[0]}")/.." || exit 1

work=$(mktemp -d) || exit 1
trap 'rm -rf "$work"' EXIT
./weed --version > /dev/null || exit 1
weed=$PWD/crates/weed/out/weed

# What the run of these words told, and its status, are the ones wanted.
ends() {
    local status=$1 line=$2
    shift 2
    "$@" > "$work/sent" 2> "$work/told"
    local got=$?
    [ "$got" -eq "$status" ] || { echo "statuses: $got in place of $status: ${*:2}"; exit 1; }
    [ "$(cat "$work/told")" = "$line" ] || { echo "statuses: told $(cat "$work/told") in place of $line"; exit 1; }
}

shuts_input() { "$weed" "$@" <&-; }
shuts_output() { printf 'POST /a/ HTTP/1.1\r\n\r\n' | "$weed" "$@" >&-; }
asks() { printf 'POST /a/ HTTP/1.1\r\n\r\n' | "$weed" "$@"; }

ends 1 'weed: bad word 0' "$weed"
ends 1 'weed: bad word 0' "$weed" filer.twice
ends 1 'weed: bad word 1' "$weed" filer.once
ends 1 'weed: bad word 1' "$weed" filer.once "-dirs=$work/a"
ends 1 'weed: bad word 2' "$weed" filer.once "-dir=$work/a" more
ends 5 'weed: read fault' shuts_input filer.once "-dir=$work/a"
ends 6 'weed: write fault' shuts_output filer.once "-dir=$work/a"
ends 0 '' asks filer.once "-dir=$work/a"
ends 2 'weed: disk fault' asks filer.once "-dir=$work/none/below"

ends 0 '' "$weed" --version
[ "$(cat "$work/sent")" = "weed 0.1.0" ] || { echo "statuses: --version"; exit 1; }
ends 0 '' "$weed" --help
grep -q 'filer.once -dir=' "$work/sent" || { echo "statuses: --help"; exit 1; }
