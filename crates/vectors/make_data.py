#!/usr/bin/env python3
"""Makes crates/vectors/data/vectors.bin of bench runs: pattern files, what the reader must answer for each, and what its bench
run must print.

usage: make_data.py vectors.bin FILE..    (bench.txt, u4.txt and u6.txt)

bench.txt came with document 01, u4.txt and u6.txt with document 02's requests U4 and U6. They are not in this repository, and
u6.txt's scripts of calls are left out: crate scripts has them. A vector of a later file that is called `base vector, now other: NAME` takes the place of NAME: the request changed what it prints.

The text of a bench run is the one of these files. What the reader has to answer is worked out here, by a reader of pattern files
of both forms that shares nothing with the product, and held against the `refused N` lines. (The bench run refuses a file of more
than 36,897 bytes by 6 before it is read, so there the two may differ.)

An entry of vectors.bin: fourteen numbers of two bytes, high byte first; then the name, the text and the packed file.

    0   the length of the name
    2   the length of the text
    4   the length of the packed file
    6   the number of the reader's refusal, 0 for none; if there is one, the numbers behind it are 0
    8   window, input, output, start, quantum, and how many bytes are locked, 0 in form 1
    20  where the body of PC starts in the file, and its length
    24  where the body of PI starts in the file, and its length

A packed file is a list of pieces. A piece is a count of two bytes and that many bytes; or 32,768 and a count, and one byte to
repeat. A count is below 32,768.
"""
import itertools
import sys

MAX_FILE = 36897
PB_LENGTHS = {1: 9, 2: 11}  # of the body of PB, by form
REPEATED_FLAG = 32768  # added to the count in the head of a piece that repeats one byte
MIN_RUN = 6  # a run of fewer bytes costs less among its neighbours
NOW_OTHER = "base vector, now other: "


def u16s(*values):
    return b"".join(n.to_bytes(2, "big") for n in values)


def unhexed(text):
    """A file as the vectors have it: pieces of hex, XX*n for a byte n times, - for no bytes."""
    file = b""
    for piece in [] if text == "-" else text.split(","):
        byte, times, count = piece.partition("*")
        file += bytes.fromhex(byte) * (int(count) if times else 1)
    return file


def vectors(path):
    """name, file, expected lines of the bench run"""
    found = []
    for line in open(path):
        line = line.rstrip("\n")
        if line.startswith("V "):
            name, size, text = [part.strip() for part in line[2:].split("|")]
            file = unhexed(text)
            assert len(file) == int(size), name
            found.append((name, file, []))
        elif line.startswith("= "):
            found[-1][2].append(line[2:])
    return found


def with_later(found, later):
    """The vectors, those of a later file behind them; one that is now other stands where it stood. And how many of these have
    other lines: a later file may have a change of an earlier one again."""
    found, replaced = list(found), 0
    for name, file, lines in later:
        if not name.startswith(NOW_OTHER):
            found.append((name, file, lines))
            continue
        name = name[len(NOW_OTHER):]
        places = [at for at, vector in enumerate(found) if vector[:2] == (name, file)]
        assert len(places) == 1, f"{len(places)} vectors are called {name} and have its file"
        replaced += found[places[0]][2] != lines
        found[places[0]] = name, file, lines
    return found, replaced


class Refused(Exception):
    pass


def records(file):
    """The frames in order, each checked when it is asked for: place and length of its body. The form is known once PV was seen, and
    is 1 or 2 if PB is asked for."""
    at = 0
    for mark, fixed in (b"PV", 2), (b"PB", "by form"), (b"PC", None), (b"PI", None), (b"PE", 0):
        if mark == b"PB":
            fixed = PB_LENGTHS[file[4]]
        if file[at:at + 2] != mark or len(file) < at + 4:
            raise Refused(6)
        size = int.from_bytes(file[at + 2:at + 4], "big")
        if fixed is not None and size != fixed or len(file) < at + 4 + size:
            raise Refused(6)
        yield at + 4, size
        at += 4 + size
    if at != len(file):
        raise Refused(6)


def read(file):
    """window, input, output, start, quantum, locked, and place and length of both bodies"""
    walk = records(file)
    at, _ = next(walk)
    if file[at] not in PB_LENGTHS:
        raise Refused(7)
    if file[at + 1] != 1:
        raise Refused(8)
    at, size = next(walk)
    window, given, output, start = [int.from_bytes(file[at + i:at + i + 2], "big") for i in (0, 2, 4, 6)]
    quantum = file[at + 8]
    locked = int.from_bytes(file[at + 9:at + size], "big")
    if not (1 <= window <= 32768 and 1 <= given <= 4096 and 1 <= output <= 4096 and start < window and quantum > 0):
        raise Refused(9)
    if size == PB_LENGTHS[2] and not 1 <= locked <= window:
        raise Refused(9)
    code = next(walk)
    if code[1] > window or code[1] and file[sum(code) - 1] == 0:
        raise Refused(10)
    first = next(walk)
    if first[1] > given:
        raise Refused(11)
    for _ in walk:
        pass
    return [window, given, output, start, quantum, locked, *code, *first]


def answered(file):
    """The number of the refusal, 0 for none; and what `read` gives, or zeros."""
    try:
        return [0, *read(file)]
    except Refused as refusal:
        return [refusal.args[0]] + [0] * 10


def counted(run):
    """The run in parts that a count can count."""
    return [run[at:at + REPEATED_FLAG - 1] for at in range(0, len(run), REPEATED_FLAG - 1)]


def copied(run):
    return b"".join(u16s(len(part)) + part for part in counted(run))


def repeated(run):
    return b"".join(u16s(REPEATED_FLAG + len(part)) + part[:1] for part in counted(run))


def packed(file):
    pieces, plain = b"", b""
    for _, same in itertools.groupby(file):
        run = bytes(same)
        if len(run) < MIN_RUN:
            plain += run
        else:
            pieces += copied(plain) + repeated(run)
            plain = b""
    return pieces + copied(plain)


def unpacked(pieces):
    file, at = b"", 0
    while at < len(pieces):
        head = int.from_bytes(pieces[at:at + 2], "big")
        stored = head if head < REPEATED_FLAG else 1
        file += pieces[at + 2:at + 2 + stored] * (1 if head < REPEATED_FLAG else head - REPEATED_FLAG)
        at += 2 + stored
    return file


def entry(name, file, lines):
    answer = answered(file)
    said = int(lines[0].split()[1]) if lines[0].startswith("refused") else 0
    assert answer[0] == said or len(file) > MAX_FILE and said == 6, (name, answer[0], said)
    pieces = packed(file)
    assert unpacked(pieces) == file, name
    text = "".join(line + "\n" for line in lines)
    return u16s(len(name), len(text), len(pieces), *answer) + name.encode() + text.encode() + pieces


def main(target, bench, *later):
    found = vectors(bench)
    for path in later:
        found, replaced = with_later(found, vectors(path))
        print(f"{path}: {replaced} vectors are now other")
    entries = [entry(*vector) for vector in found]
    refused = sum(e[6:8] != u16s(0) for e in entries)
    out = b"".join(entries)
    open(target, "wb").write(out)
    print(f"{len(entries)} vectors, {len(entries) - refused} files accepted, {refused} refused, {len(out)} bytes")


if __name__ == "__main__":
    main(*sys.argv[1:])
