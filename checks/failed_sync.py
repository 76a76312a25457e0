"""Lets each sync of a run fail in turn, and looks at how the run ends and at what the next one finds."""
import os
import re
import subprocess
import sys
import tempfile

sys.path.insert(0, "checks")
import read_log

PROGRAM = "./crates/weed/out/weed"
NAMES = ["a", "b/c", "d"]
PUTS = ["/a", "/b/c", "/d"]
ANSWER = re.compile(r'write\(1<[^>]*>, "HTTP/1\.1 (\d+)')


def requests(names):
    return b"".join(f"POST /{name}/ HTTP/1.1\r\nHost: x\r\n\r\n".encode() for name in names)


def run(place, names, under=()):
    """One run, perhaps below another program."""
    return subprocess.run([*under, PROGRAM, "filer.once", "-dir=" + place], input=requests(names), capture_output=True, timeout=120)


def paths_in(place):
    log = os.path.join(place, "log.00000001")
    if not os.path.exists(log + ".on"):
        return set()
    return {put[0] for _, puts in read_log.records(log) for put in puts}


def works(place, names, wanted):
    """A run that no call fails."""
    done = run(place, names)
    assert done.returncode == 0 and not done.stderr, done
    assert done.stdout.count(b"HTTP/1.1 201") == len(names), done.stdout
    assert set(wanted) <= paths_in(place), f"acknowledged and lost: {set(wanted) - paths_in(place)}"


def fails_at(work, earlier, call, number):
    """A run whose sync of that kind and number fails, where there is one; what it acknowledged."""
    place, trace = os.path.join(work, f"{len(earlier)}.{call}.{number}"), os.path.join(work, "trace")
    if earlier:
        works(place, earlier, ["/" + name for name in earlier])
    fault = ["strace", "-f", "-y", "-s", "64", "-o", trace, "-e", "trace=write,fsync,fdatasync",
             "-e", f"inject={call}:error=EIO:when={number}"]
    done = run(place, NAMES, fault)
    lines = open(trace, errors="replace").readlines()
    failed = [at for at, line in enumerate(lines) if "(INJECTED)" in line]
    if not failed:
        assert done.returncode == 0, done
        return None
    answers = [(at, match.group(1)) for at, line in enumerate(lines) if (match := ANSWER.search(line))]
    late = [code for at, code in answers if at > failed[0] and code.startswith("2")]
    assert not late, f"{call} {number}: answered {late} after the failed sync"
    assert done.returncode == 2, f"{call} {number}: status {done.returncode}"
    assert done.stderr == b"weed: disk fault\n", f"{call} {number}: {done.stderr}"
    acknowledged = sum(code.startswith("2") for _, code in answers)
    wanted = ["/" + name for name in earlier] + PUTS[:acknowledged]
    works(place, [], wanted)
    works(place, NAMES, wanted + PUTS)
    return acknowledged


def main():
    with tempfile.TemporaryDirectory() as work:
        for earlier in ([], ["z"]):
            counts = []
            for call in ("fsync", "fdatasync"):
                number = 1
                while (acknowledged := fails_at(work, earlier, call, number)) is not None:
                    counts.append(acknowledged)
                    number += 1
                assert number > 1, f"no {call} failed"
            where = "directory that has a log" if earlier else "fresh directory"
            print(f"failed_sync: each of {len(counts)} syncs failed over a {where}, behind {min(counts)} to {max(counts)} answers")


if __name__ == "__main__":
    main()
