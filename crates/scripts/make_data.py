#!/usr/bin/env python3
"""Makes crates/scripts/data/scripts.bin of scripts of calls with what each call must answer.

usage: make_data.py scripts.bin FILE..    (floor_u6.txt, u1.txt, u2.txt, u4.txt, u5.txt, u6.txt and edges.txt)

The scripts of floor_u6.txt came with document 01, and have the answers that they get since document 02's request U6. Those of
u1.txt, u2.txt, u4.txt, u5.txt and u6.txt came with the requests. These six are not in this repository, and have the documents'
words; edges.txt has the glossary's. Lines of u1.txt to u6.txt that a later request changed, that must now follow one of them, or
that the product can't be asked, are taken from later_answers.txt, beside this file. A vector of a bench run (V, and = for each
line of its text) is left out, and so is a read of a long file that such a vector has: crate vectors reads it. The lines of a
script:

    S n                         a new script: table and memory all zero
    new LENGTH => n             the table handed back replaces the table, also when refused
    lend LENGTH                 how much memory is lent from now on
    poke SLOT FIELD VALUE       a field of the table set by hand (slot 8: `length`, which is the memory's, `free` or `widest`)
    unpoke                      back to the table before the last group of pokes: pokes with no other line between. Blank lines
                                and comments do not end a group
    load SLOT LOCATION HEX => n         a long file in pieces, parted by commas: XX*n is n times the byte XX
    unload SLOT => n
    feed SLOT HEX => n
    drain SLOT LENGTH => n COUNT HEX    the buffer starts all EE; HEX is all of it afterwards
    lent SLOT LENGTH => n COUNT HEX     the same over the slot itself, lent by reference
    run ROUNDS => n
    report SLOT => n [status counter psu psl, and the seven registers]
    backlog LENGTH => n FILLED HEX      the buffer starts all EE; HEX is all of it afterwards
    fit SIZE => n START         any size below 2^64; the start is 0 when refused
    read HEX => n [window input output start quantum locked CODE INPUT]     CODE and INPUT are the bodies of PC and PI
    write window input output start quantum locked IMAGE INPUT LENGTH => n FILLED HEX       the buffer starts all EE; HEX is all
                                of it afterwards
    free => FREE WIDEST         the two numbers about free bytes that the table stores; no call
    state => CRC FREE WIDEST    the CRC-32 of 65,536 bytes of memory, the same two numbers, and then a line for each loaded slot;
                                the files from before U5 do not have the two numbers
    st k: FIELDS                its fields in the order of FIELDS, in decimal; the files from before U6 do not have the last one,
                                `locked`, which is 0 there

A poke without an unpoke stays.

An entry of scripts.bin: ten two-byte numbers, high byte first (kind, line, slot, wanted refusal, a four-byte number, field or
count, length of the bytes, a flag, and one that is spare and zero), then the bytes. Of a fit the count is the start, and the
bytes are the size: eight of them, high byte first. Of a free line the number is the free total, and the bytes are the widest,
four of them. Of a state the number is the CRC, and the bytes are the free total and the widest, four bytes each, and the fields
of the eight slots, two bytes each. The flag is 1 for a poke of the same group as the poke before it, and for a state that has
the two numbers: without it they are not compared.

The bytes of a read are the 11 bytes of parameters, all EE for a file that is refused; where the bodies of PC and PI start in the
file and how long each is, in four numbers of two bytes, all zero for a file that is refused; and the file. Of a write the number is
the buffer's length, and the bytes are the 11 bytes of parameters; the CRC-32 of the buffer afterwards, four bytes; of the image and
then of the input how long it is (two bytes), the byte at its end (one) and how many of its bytes are stored (two): those before
the run of that byte; and the stored bytes of both.
"""
import os
import sys
import zlib

NEW_SCRIPT, NEW, LEND, POKE, UNPOKE, LOAD, UNLOAD, FEED, DRAIN, RUN, REPORT, STATE, DRAIN_LENT, BACKLOG, FIT, FREE, READ, WRITE = \
    range(18)
FIELDS = ("base window input output quantum status pc psu psl r0 b0 b1 b2 b3 b4 b5 "
          "ras0 ras1 ras2 ras3 ras4 ras5 ras6 ras7 filled read written locked length free widest").split()
SLOT_FIELDS = 28
# files whose states have no numbers about free bytes, and those whose slots have no lock
BEFORE_U5 = ("u1.txt", "u2.txt", "u4.txt")
BEFORE_U6 = (*BEFORE_U5, "u5.txt")
# how many bytes the programs take, and the longest file that a read has here
MOST = 655359
LONG_FILE = 4096
# how many bytes a field has where it is not two
FIELD_BYTES = {**dict.fromkeys("base length free widest".split(), 4),
               **dict.fromkeys("quantum status psu psl r0 b0 b1 b2 b3 b4 b5".split(), 1)}

# what the documents' words for calls and fields are here
WORDS = {"fresh": "new", "mount": "load", "lift": "unload", "collect": "drain", "pass": "run", "round": "backlog", "find": "fit",
         "bay": "base", "icap": "input", "ocap": "output", "stint": "quantum", "lock": "locked", "readfile": "read",
         "writefile": "write"}


def piece(text):
    byte, times, count = text.partition("*")
    return bytes.fromhex(byte) * (int(count) if times else 1)


def raw(text):
    return b"" if text == "-" else b"".join(piece(part) for part in text.split(","))


def u16s(numbers):
    return b"".join(n.to_bytes(2, "big") for n in numbers)


def u32s(numbers):
    return b"".join(n.to_bytes(4, "big") for n in numbers)


def entry(kind, line, slot=0, refusal=0, number=0, field=0, data=b"", flag=False):
    return u16s([kind, line, slot, refusal]) + u32s([number]) + u16s([field, len(data), flag, 0]) + data


def parameters(values):
    """window, input, output, start, quantum and locked, as 11 bytes"""
    window, given, output, start, quantum, locked = [int(n) for n in values]
    return u16s([window, given, output, start]) + bytes([quantum]) + u16s([locked])


def stretches(file, code, first):
    """Where the bodies of PC and PI start in the file, and their lengths: PC stands behind PV, of 6 bytes, and PB."""
    code_at = 6 + 4 + int.from_bytes(file[8:10], "big") + 4
    first_at = code_at + len(code) + 4
    assert file[code_at:code_at + len(code)] == code and file[first_at:first_at + len(first)] == first
    return u16s([code_at, len(code), first_at, len(first)])


def read_entry(line, file, refusal, wanted):
    if refusal:
        assert not wanted, f"line {line}: a refused read answers nothing else"
        return entry(READ, line, 0, refusal, 0, 0, b"\xEE" * 11 + bytes(8) + file)
    return entry(READ, line, 0, 0, 0, 0, parameters(wanted[:6]) + stretches(file, raw(wanted[6]), raw(wanted[7])) + file)


def shortened(run):
    """Length, last byte and how many bytes are stored; and these, without the run of the last byte at the end."""
    stored = run.rstrip(run[-1:]) if run else b""
    return u16s([len(run)]) + (run[-1:] or b"\0") + u16s([len(stored)]), stored


def write_entry(line, args, refusal, wanted):
    buffer = raw(wanted[1])
    assert len(buffer) == int(args[8]), f"line {line}: a buffer of {args[8]} bytes, and {len(buffer)} afterwards"
    (image, stored), (first, stored_first) = shortened(raw(args[6])), shortened(raw(args[7]))
    data = parameters(args[:6]) + u32s([zlib.crc32(buffer)]) + image + first + stored + stored_first
    return entry(WRITE, line, 0, refusal, len(buffer), int(wanted[0]), data)


def call(line, given, wanted):
    """The entry of one line with an answer: the words before the arrow and those behind it."""
    name, args = given[0], given[1:]
    refusal = int(wanted[0])
    if name == "new":
        return entry(NEW, line, 0, refusal, int(args[0]))
    if name == "run":
        return entry(RUN, line, 0, refusal, int(args[0]))
    if name == "backlog":
        return entry(BACKLOG, line, 0, refusal, int(args[0]), int(wanted[1]), raw(wanted[2]))
    if name == "fit":
        return entry(FIT, line, 0, refusal, 0, int(wanted[1]), int(args[0]).to_bytes(8, "big"))
    if name == "read":
        return read_entry(line, raw(args[0]), refusal, wanted[1:])
    if name == "write":
        return write_entry(line, args, refusal, wanted[1:])
    slot = int(args[0])
    if name == "load":
        return entry(LOAD, line, slot, refusal, int(args[1]), 0, raw(args[2]))
    if name == "unload":
        return entry(UNLOAD, line, slot, refusal)
    if name == "feed":
        return entry(FEED, line, slot, refusal, 0, 0, raw(args[1]))
    if name in ("drain", "lent"):
        return entry(DRAIN if name == "drain" else DRAIN_LENT, line, slot, refusal, int(args[1]), int(wanted[1]), raw(wanted[2]))
    assert name == "report", name
    numbers = [int(wanted[1])] + [int(n, 16) for n in wanted[2:]] if refusal == 0 else [0] * 11
    return entry(REPORT, line, slot, refusal, 0, 0, u16s(numbers))


def poke(line, slot, field, value, same_group):
    """The programs take as many bytes of the value as the field has: a larger value would be cut."""
    assert value < 256 ** FIELD_BYTES.get(field, 2), f"line {line}: {value} does not fit {field}"
    assert slot <= 8 and (slot == 8) == (field in FIELDS[SLOT_FIELDS:]), f"line {line}: slot {slot} has no {field}"
    return entry(POKE, line, slot, 0, value, FIELDS.index(field), flag=same_group)


def state_entry(path, line, wanted, slots):
    """Of the words behind the arrow and the fields of the eight slots; a file from before U5 has the first word alone."""
    numbers = [int(n) for n in wanted[1:]]
    assert len(numbers) == (0 if os.path.basename(path) in BEFORE_U5 else 2), f"{path}, line {line}: {len(numbers)} numbers"
    data = u32s(numbers or [0, 0]) + b"".join(u16s(s) for s in slots)
    return entry(STATE, line, 0, 0, int(wanted[0], 16), 0, data, flag=bool(numbers))


def slot_numbers(path, line, words):
    """The fields of a slot; a file from before U6 has no lock."""
    numbers = [int(n) for n in words] + [0] * (os.path.basename(path) in BEFORE_U6)
    assert len(numbers) == SLOT_FIELDS, f"{path}, line {line}: {len(words)} fields"
    return numbers


def later_answers():
    """Of a file and a line of it: what stands there now, and what stands behind it now."""
    changed, added = {}, {}
    for row in open(os.path.join(os.path.dirname(__file__), "later_answers.txt")):
        if row.strip() and not row.startswith("#"):
            at, text = row.strip().split(": ", 1)
            name, line, *behind = at.split()
            assert behind in ([], ["+"], ["="]), f"later_answers.txt, {at}: only + or = may follow the line's number"
            if behind == ["+"]:
                added.setdefault((name, int(line)), []).append(text)
            else:
                assert (name, int(line)) not in changed, f"later_answers.txt has {at} twice"
                changed[name, int(line)] = behind == ["="], text
    return changed, added


def asked(text):
    """What a line asks: its words before the answer."""
    return text.split(":" if text.startswith("st ") else "=>")[0]


def answered(text):
    """What a line with a call answers: nothing in the line of a poke."""
    return text.partition("=>")[2]


def is_long_read(text, vectors):
    """Whether the line reads a file that is too long for scripts.bin. A vector of a bench run has the same file."""
    words = text.split()
    if words[:1] != ["readfile"] or len(raw(words[1])) <= LONG_FILE:
        return False
    assert words[1] in vectors, f"a long file is read that no bench run has: {text[:60]}"
    return True


def lines(path, changed, added):
    """Number and text of each line, comments, vectors of bench runs and reads of their long files left out, and an empty one at the
    end. An added line has the number of the line that it stands behind."""
    vectors = {text.split("|")[-1].strip() for text in open(path) if text.startswith("V ")}
    for line, text in enumerate(open(path), 1):
        text = "" if text.startswith(("V ", "= ")) else text.split("#")[0].strip()
        text = "" if is_long_read(text, vectors) else text
        other, now = changed.pop((os.path.basename(path), line), (False, None))
        if now is not None:
            assert (asked(now) != asked(text)) == other, f"{path}, line {line}: later_answers.txt asks something else, or the same after ="
            assert (answered(now) == answered(text)) == other or text.startswith("st "), f"{path}, line {line}: the answer"
            assert now != text, f"{path}, line {line}: later_answers.txt has the same answer"
            text = now
        yield line, text
        for more in added.pop((os.path.basename(path), line), []):
            # so that it is of the group of the line before it: as a group of its own the next unpoke would take it back alone
            assert text.startswith("poke ") and more.startswith("poke "), f"{path}, line {line}: a poke is added behind a poke"
            yield line, more
    yield line + 1, ""


def entries(path, changed, added):
    """Of one file of scripts, in order."""
    out, state = [], None
    last = ""  # the name of the line before
    for line, text in lines(path, changed, added):
        if state is not None and not text.startswith("st "):
            out.append(state_entry(path, *state))
            state = None
        if not text:
            continue
        given = [WORDS.get(word, word) for word in text.split()]
        before, last = last, given[0]
        if given[0] == "S":
            out.append(entry(NEW_SCRIPT, line))
        elif given[0] == "lend":
            out.append(entry(LEND, line, 0, 0, int(given[1])))
        elif given[0] == "poke":
            out.append(poke(line, int(given[1]), given[2], int(given[3]), before == "poke"))
        elif given[0] == "unpoke":
            out.append(entry(UNPOKE, line))
        elif given[0] == "free":
            out.append(entry(FREE, line, 0, 0, int(given[2]), 0, u32s([int(given[3])])))
        elif given[0] == "state":
            state = (line, given[2:], [[0] * SLOT_FIELDS for _ in range(8)])
        elif given[0] == "st":
            state[2][int(given[1].rstrip(":"))] = slot_numbers(path, line, given[2:])
        else:
            arrow = given.index("=>")
            out.append(call(line, given[:arrow], given[arrow + 1:]))
    return out


def main(target, *paths):
    changed, added = later_answers()
    every = [one for path in paths for one in entries(path, changed, added)]
    left = [*changed, *added]
    assert not left, f"later_answers.txt names {min(left)}, which no given file has"
    out = b"".join(every)
    assert len(out) <= MOST, f"{len(out)} bytes: the programs read {MOST}"
    open(target, "wb").write(out)
    print(f"{len(every)} entries, {len(out)} bytes")


if __name__ == "__main__":
    main(*sys.argv[1:])
