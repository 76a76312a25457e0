"""Reads a log by itself, sharing nothing with the program: the payloads of a segment, and the records in them."""
import sys


def payloads(text):
    """The payloads behind open gates, and the place of the last gate."""
    found, at = [], 0
    while text[at] == 1:
        length = int.from_bytes(text[at + 1 : at + 5], "big")
        payload = text[at + 5 : at + 5 + length]
        if len(payload) != length:
            raise ValueError(f"a payload that isn't whole at {at}")
        found.append(payload)
        at += 5 + length
    return found, at


def varint(text, at):
    value, shift = 0, 0
    while True:
        byte = text[at]
        at += 1
        value |= (byte & 127) << shift
        shift += 7
        if byte < 128:
            return value, at


def fields(text):
    """A list of (number, value): a number, or the bytes of a text or message."""
    found, at = [], 0
    while at < len(text):
        tag, at = varint(text, at)
        kind = tag & 7
        if kind == 0:
            value, at = varint(text, at)
        elif kind == 2:
            length, at = varint(text, at)
            value, at = text[at : at + length], at + length
        else:
            raise ValueError(f"wire type {kind}")
        found.append((tag >> 3, value))
    return found


def one(text, number, default=b""):
    values = [value for at, value in fields(text) if at == number]
    return values[-1] if values else default


def record(payload):
    """The time of a record, and its puts: a path and its mode, mtime and crtime each."""
    puts = []
    for number, event in fields(payload):
        if number == 2:
            entry = one(one(event, 2), 2)
            attributes = one(entry, 4)
            parent = one(event, 1).decode()
            path = parent.rstrip("/") + "/" + one(entry, 1).decode()
            directory = one(entry, 2, 0) == 1
            puts.append((path, directory, one(attributes, 3, 0), one(attributes, 2, 0), one(attributes, 6, 0)))
    return one(payload, 1, 0), puts


def records(path):
    with open(path, "rb") as file:
        return [record(payload) for payload in payloads(file.read())[0]]


if __name__ == "__main__":
    for time, puts in records(sys.argv[1]):
        print(time, *(put[0] for put in puts))
