"""Runs the program over one directory again and again, kills it at random moments, and looks for each
directory that it acknowledged."""
import os
import random
import subprocess
import sys
import tempfile
import threading
import time

sys.path.insert(0, "checks")
import read_log

PROGRAM = "./crates/weed/out/weed"


def run(place, first, seconds):
    """Asks for directories from a number on until the program is killed; how many were acknowledged."""
    child = subprocess.Popen([PROGRAM, "filer.once", "-dir=" + place], stdin=subprocess.PIPE, stdout=subprocess.PIPE)
    heads = b"".join(b"POST /d%d/ HTTP/1.1\r\n\r\n" % number for number in range(first, first + 2000))

    def feed():
        try:
            child.stdin.write(heads)
            child.stdin.close()
        except OSError:
            pass

    feeder = threading.Thread(target=feed)
    killer = threading.Timer(seconds, child.kill)
    feeder.start()
    killer.start()
    sent = child.stdout.read()
    child.wait()
    killer.cancel()
    feeder.join()
    assert b"HTTP/1.1 5" not in sent, sent[-300:]
    return sent.count(b"HTTP/1.1 201")


def main(times):
    random.seed(1)
    with tempfile.TemporaryDirectory() as work:
        place = os.path.join(work, "data")
        acknowledged, killed = 0, 0
        for turn in range(times):
            first = acknowledged
            count = run(place, first, random.uniform(0.001, 0.03))
            killed += count < 2000
            acknowledged = first + count
            log = os.path.join(place, "log.00000001")
            if not os.path.exists(log + ".on"):
                assert acknowledged == 0
                continue
            there = {put[0] for _, puts in read_log.records(log) for put in puts}
            missing = [number for number in range(acknowledged) if f"/d{number}" not in there]
            assert not missing, f"turn {turn}: acknowledged and lost: {missing[:5]}"
        print(f"killed_at_random: {killed} of {times} runs were killed, {acknowledged} directories acknowledged")


if __name__ == "__main__":
    main(int(sys.argv[1]))
