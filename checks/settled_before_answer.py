"""Reads a trace of system calls and follows what was made and written, what was settled, and what was answered.

What stood in the directory before the run counts as unsettled, since an earlier process may have been stopped."""
import os
import re
import sys

sys.path.insert(0, "checks")
import read_log

CALL = re.compile(r"^(?:\d+ +)?(\w+)\((.*)\)\s+= (-?\d+)")
HANDLE = re.compile(r"^\d+<((?:\\x[0-9a-f]{2})*|[^>]*)>")
TEXT = re.compile(r'"((?:\\x[0-9a-f]{2})*)"')

# The paths that each answer acknowledges, in order, as the input asks for them.
ASKED = ["/a", "/a/b", "/c", "/a", "/d/e/f"]

# Calls that change files in a way that isn't followed here.
NOT_FOLLOWED = {"write", "writev", "pwritev", "pwritev2", "truncate", "fallocate", "copy_file_range", "renameat",
                "renameat2", "link", "linkat", "unlinkat", "mkdirat"}


class Unsettled(Exception):
    """An answer went out before what it needs was settled."""


def unescape(text):
    return bytes(int(byte, 16) for byte in re.findall(r"\\x([0-9a-f]{2})", text))


def path_of(arguments):
    """The path of the file whose number comes first."""
    match = HANDLE.match(arguments)
    if not match:
        return ""
    inner = match.group(1)
    return unescape(inner).decode() if "\\x" in inner else inner


def texts_of(arguments):
    return [unescape(text) for text in TEXT.findall(arguments)]


class File:
    """What a file holds, what of it is settled, and what it awaits: nothing, `data`, or `all` where it was made
    or cut, which fdatasync doesn't settle."""

    def __init__(self, content=b""):
        self.content, self.settled, self.awaits = content, None, "all"

    def write(self, at, piece):
        self.content = self.content[:at].ljust(at, b"\0") + piece + self.content[at + len(piece):]
        self.awaits = self.awaits or "data"

    def cut(self, to):
        self.content, self.awaits = self.content[:to].ljust(to, b"\0"), "all"

    def sync(self, whole):
        if whole or self.awaits != "all":
            self.settled, self.awaits = self.content, None


class Traced:
    """The directory at `place`, as the calls of a trace leave it."""

    def __init__(self, place, before):
        self.place, self.answers = place, 0
        self.files = {os.path.join(place, name): File(content) for name, content in before.items()}
        # A name that was made or taken away, and isn't settled yet, is loose.
        self.loose = {place, *self.files}

    def follow(self, line):
        assert "<unfinished" not in line, "calls of two threads are not followed"
        match = CALL.match(line)
        if not match or int(match.group(3)) < 0:
            return
        call, arguments = match.group(1), match.group(2)
        path, texts = path_of(arguments), texts_of(arguments)
        if call == "write" and arguments.startswith("1<"):
            if texts and texts[0].startswith(b"HTTP/1.1 201"):
                self.answer()
        elif call in ("openat", "open", "creat"):
            self.open(texts[0].decode(), arguments)
        elif call in ("mkdir", "unlink", "rename"):
            self.name(call, [text.decode() for text in texts])
        elif call in ("fsync", "fdatasync"):
            self.sync(path, call == "fsync")
        elif call == "pwrite64" and path in self.files:
            self.files[path].write(int(arguments.rsplit(",", 1)[1]), texts[0][: int(match.group(3))])
        elif call == "ftruncate" and path in self.files:
            self.files[path].cut(int(arguments.rsplit(",", 1)[1]))
        elif call in NOT_FOLLOWED:
            touched = [path, *(text.decode(errors="replace") for text in texts)]
            assert not any(part.startswith(self.place) for part in touched), f"{call} is not followed"

    def open(self, path, arguments):
        if "O_CREAT" in arguments and path.startswith(self.place) and path not in self.files:
            self.files[path] = File()
            self.loose.add(path)
        elif "O_TRUNC" in arguments and path in self.files:
            self.files[path].cut(0)

    def name(self, call, paths):
        self.loose |= set(paths)
        if call == "unlink":
            self.files.pop(paths[0], None)
        elif call == "rename" and paths[0] in self.files:
            self.files[paths[1]] = self.files.pop(paths[0])

    def sync(self, path, whole):
        if path in self.files:
            self.files[path].sync(whole)
        elif whole:
            self.loose = {name for name in self.loose if os.path.dirname(name) != path}

    def need(self, holds, what):
        if not holds:
            raise Unsettled(f"answer {self.answers}: {what}")

    def answer(self):
        self.answers += 1
        log, on = self.place + "/log.00000001", self.place + "/log.00000001.on"
        self.need(not self.loose, f"names that are not settled: {sorted(self.loose)}")
        for path in (log, on):
            self.need(path in self.files and self.files[path].settled is not None, f"{path} isn't settled")
            self.need(self.files[path].awaits is None, f"{path} awaits {self.files[path].awaits}")
        payloads, _ = read_log.payloads(self.files[log].settled)
        there = {put[0] for payload in payloads for put in read_log.record(payload)[1]}
        for path in ASKED[: self.answers]:
            self.need(path in there, f"{path} isn't settled")


def answers(lines, place, before):
    traced = Traced(place, before)
    for line in lines:
        traced.follow(line)
    return traced.answers


def is_sync_of(line, path):
    match = CALL.match(line)
    return bool(match) and match.group(1) == "fsync" and path_of(match.group(2)) == path


def worse(lines, place):
    """The same trace with one kind of sync left out, or made a sync of the data alone."""
    log = place + "/log.00000001"
    for what, path in (("parent", os.path.dirname(place)), ("directory", place), ("log", log), ("marker", log + ".on")):
        yield f"{what} without fsync", [line for line in lines if not is_sync_of(line, path)]
        yield f"{what} with fdatasync", [
            line.replace("fsync(", "fdatasync(") if is_sync_of(line, path) else line for line in lines
        ]


def refuses(lines, place, before):
    try:
        answers(lines, place, before)
    except Unsettled:
        return True
    return False


def main(trace, place, kept):
    before = {name: open(os.path.join(kept, name), "rb").read() for name in os.listdir(kept)}
    lines = open(trace, errors="replace").readlines()
    try:
        count = answers(lines, place, before)
    except Unsettled as error:
        sys.exit(f"settled_before_answer: {error}")
    assert count == len(ASKED), f"{count} answers, wanted {len(ASKED)}"
    for what, others in worse(lines, place):
        assert refuses(others, place, before), f"a trace of the {what} passes"


if __name__ == "__main__":
    main(sys.argv[1], sys.argv[2], sys.argv[3])
