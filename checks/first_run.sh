#!/usr/bin/env bash
# Shows the first command of the README over two fresh directories, by its output, status and log, and run again.
set -u
cd "$(dirname "${BASH_SOURCE[0]}")/.." || exit 1
command -v python3 > /dev/null || { echo "first_run: python3 is missing"; exit 77; }

work=$(mktemp -d) || exit 1
trap 'rm -rf "$work"' EXIT

printf 'HTTP/1.1 201 Created\r\nContent-Type: application/json\r\nContent-Length: 12\r\n\r\n{"name":"b"}' > "$work/wanted"

run() {
    printf 'POST /a/b/ HTTP/1.1\r\nHost: x\r\n\r\n' | ./weed filer.once "-dir=$1" > "$work/sent"
    status=$?
    [ "$status" -eq 0 ] || { echo "first_run: status $status"; exit 1; }
    cmp "$work/sent" "$work/wanted" || exit 1
}

holds_one_record() {
    python3 - "$1" <<'PYTHON' || exit 1
import os, sys, time
sys.path.insert(0, "checks")
import read_log

place = sys.argv[1]
assert sorted(os.listdir(place)) == ["log.00000001", "log.00000001.on"], os.listdir(place)
text = open(place + "/log.00000001", "rb").read()
payloads, gate = read_log.payloads(text)
assert len(payloads) == 1 and text[gate:] == b"\0", text
moment, puts = read_log.record(payloads[0])
assert abs(moment - time.time_ns()) < 600 * 10**9, moment
second = moment // 10**9
assert puts == [("/a", True, 0o755, second, second), ("/a/b", True, 0o755, second, second)], puts
PYTHON
}

for place in one two; do
    run "$work/$place"
    holds_one_record "$work/$place"
done
run "$work/one"
holds_one_record "$work/one"
