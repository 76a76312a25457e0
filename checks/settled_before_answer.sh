#!/usr/bin/env bash
# Shows, from a trace of system calls alone, that each 201 goes out after its record, its open gate, the files of
# the log and their names, and the name of the directory were settled by syncs; in a first run, and in a second one,
# for which what is there counts as unsettled. A file that was made or cut, and a name, need fsync, not fdatasync.
# Traces without one of these syncs are shown to be refused.
set -u
cd "$(dirname "${BASH_SOURCE[0]}")/.." || exit 1
command -v strace > /dev/null || { echo "settled_before_answer: strace is missing"; exit 77; }
command -v python3 > /dev/null || { echo "settled_before_answer: python3 is missing"; exit 77; }

work=$(mktemp -d) && work=$(cd "$work" && pwd -P) || exit 1
trap 'rm -rf "$work"' EXIT
./weed --version > /dev/null || exit 1

calls=openat,open,creat,mkdir,mkdirat,rename,renameat,renameat2,link,linkat,unlink,unlinkat
calls=$calls,pwrite64,write,writev,pwritev,pwritev2,ftruncate,truncate,fallocate,copy_file_range,fsync,fdatasync

for name in a a/b c a d/e/f; do
    printf 'POST /%s/ HTTP/1.1\r\nHost: x\r\n\r\n' "$name"
done > "$work/input"

mkdir "$work/before"
for run in first second; do
    strace -f -y -xx -s 65536 -o "$work/trace" -e "trace=$calls" \
        ./crates/weed/out/weed filer.once "-dir=$work/data" < "$work/input" > "$work/sent"
    status=$?
    [ "$status" -eq 0 ] || { echo "settled_before_answer: status $status in the $run run"; exit 1; }
    python3 checks/settled_before_answer.py "$work/trace" "$work/data" "$work/before" || exit 1
    cp "$work/data/"* "$work/before" || exit 1
done
