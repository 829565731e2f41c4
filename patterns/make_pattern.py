#!/usr/bin/env python3
"""Makes a pattern file of an assembled source: make_pattern.py primes.asm primes.pat

A line of the source that starts with `.` gives a parameter, for the record PB; one that starts with a hexadecimal address has the bytes
that its instruction was assembled to. The rest is for the reader. `.locked n` locks the first n bytes of the window, and makes a file of
form 2; without it the file has form 1.
"""
import re
import sys


def record(mark, body):
    return mark + len(body).to_bytes(2, "big") + body


def main(source, target):
    parameters, window = {}, bytearray()
    for line in open(source):
        parameter = re.match(r"\.(\w+) +(\d+)", line)
        placed = re.match(r"([0-9A-F]{4})  ((?:[0-9A-F]{2} )+)", line)
        if parameter:
            parameters[parameter[1]] = int(parameter[2])
        elif placed:
            at, code = int(placed[1], 16), bytes.fromhex(placed[2])
            window += bytes(at + len(code) - len(window))
            window[at:at + len(code)] = code
    numbers = [parameters[name] for name in ("window", "input", "output", "start")]
    locked = parameters.get("locked", 0)
    form = 2 if locked else 1
    body = b"".join(n.to_bytes(2, "big") for n in numbers) + bytes([parameters["quantum"]])
    body += locked.to_bytes(2, "big") if locked else b""
    records = record(b"PV", bytes([form, 1])), record(b"PB", body), record(b"PC", bytes(window).rstrip(b"\0")), record(b"PI", b""), record(b"PE", b"")
    open(target, "wb").write(b"".join(records))


if __name__ == "__main__":
    main(*sys.argv[1:])
