#!/usr/bin/env bash
# Shows that a sync that the system fails, whichever of a run it is, ends the run with status 2 and no 201 behind it,
# and that the next run over that directory works and has each directory that was answered 201.
set -u
cd "$(dirname "${BASH_SOURCE[0]}")/.." || exit 1
command -v strace > /dev/null || { echo "failed_sync: strace is missing"; exit 77; }
command -v python3 > /dev/null || { echo "failed_sync: python3 is missing"; exit 77; }
./weed --version > /dev/null || exit 1
python3 checks/failed_sync.py
