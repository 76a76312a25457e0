#!/usr/bin/env bash
# Shows that each directory that was answered 201 is in the log after the program was killed at 200 random moments.
set -u
cd "$(dirname "${BASH_SOURCE[0]}")/.." || exit 1
command -v python3 > /dev/null || { echo "killed_at_random: python3 is missing"; exit 77; }
./weed --version > /dev/null || exit 1
python3 checks/killed_at_random.py 200
