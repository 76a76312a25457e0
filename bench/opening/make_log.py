"""Writes a log of so many records into a directory; each makes one directory."""
import pathlib
import sys


def varint(value):
    out = bytearray()
    while value > 127:
        out.append(value & 127 | 128)
        value >>= 7
    out.append(value)
    return bytes(out)


def text(number, value):
    return varint(number * 8 + 2) + varint(len(value)) + value


def record(time, name):
    attributes = b"\x10\x05\x18\xed\x03\x30\x05"
    entry = text(1, name) + b"\x10\x01" + text(4, attributes)
    event = text(1, b"/") + text(2, text(2, entry))
    return b"\x08" + varint(time) + text(2, event)


def main():
    place, count = pathlib.Path(sys.argv[1]), int(sys.argv[2])
    place.mkdir(parents=True)
    with open(place / "log.00000001", "wb") as log:
        for time in range(1, count + 1):
            payload = record(time, b"d%07d" % time)
            log.write(b"\x01" + len(payload).to_bytes(4, "big") + payload)
        log.write(b"\x00")
    (place / "log.00000001.on").touch()


main()
