#!/usr/bin/env python3
"""Document 02's R-6 written again in Python, from its text and 01's: the `sec` commands of PROTOCOL.md. make_vectors.py holds the port's vectors to it.

    sections.py tpi SECTION STREAM      writes the type stream of a section, or says the refusal's number
    sections.py walk SECTION            the lines of `secwalk`
    sections.py parse SECTION           the lines of `secparse`
    sections.py vectors                 writes the commands and, with `--answers`, their lines: what make_vectors.py adds
"""
import os
import random
import struct
import sys

sys.path.insert(0, os.path.dirname(os.path.abspath(__file__)))
import layouts

HERE = os.path.dirname(os.path.abspath(__file__))
LONGEST = 4294967294
TOP = 4294967295
FIRST = 0x1000
# "An object file numbers types and ids in one run; each item goes to the reader that takes its leaf": 01's seven id leaves, in 01's words, I an optional
# id, "none at 0 only".
IDS = {
    0x1601: "scope:I t:T name:S",
    0x1602: "parent:T t:T name:S",
    0x1605: "sub:I name:S",
    0x1606: "udt:T file:u32 line:u32",
    0x1607: "udt:T file:u32 line:u32 module:u16",
}
# 01: "0x1603 u16 count, ids. 0x1604 u32 count, T each."
COUNTED = {0x1603: 2, 0x1604: 4}


class Refused(Exception):
    """By this number."""


def start(s):
    """"16 (section or stream), 1 below four bytes, 25 signature is not 4"."""
    if len(s) > LONGEST:
        raise Refused(16)
    if len(s) < 4:
        raise Refused(1)
    if struct.unpack_from("<I", s)[0] != 4:
        raise Refused(25)


def records(s):
    """"followed by the same length-and-payload records, numbered from 0x1000". 01: "`next`: 1 if the cursor stands past the end; done if no bytes are
    left; else 1 (length), 6, 1 (payload), 7 in that order". Each record's index, place and length; then the end: None and the cursor, or the number."""
    start(s)
    at, index, found = 4, FIRST, []
    while at < len(s):
        if at + 2 > len(s):
            return found, 1, at
        n = struct.unpack_from("<H", s, at)[0]
        if n < 2:
            return found, 6, at
        if at + 2 + n > len(s):
            return found, 1, at
        found.append((index, at + 2, n))
        at += 2 + n
        index += 1
    return found, None, at


def count(s):
    found, end, _ = records(s)
    if end:
        raise Refused(end)
    return len(found)


def id_record(data):
    """The line of an id record, by 01's layouts."""
    r = layouts.Reader(data)
    try:
        leaf = r.u(2)
        if leaf in COUNTED:
            n = r.u(COUNTED[leaf])
            if len(data) - r.at < 4 * n:
                raise layouts.Refused(1)
            return " ; ".join([f"0 {leaf:04x} count={n}"] + [str(r.u(4)) for _ in range(n)] + ["end 15"])
        shown = []
        for part in IDS[leaf].split():
            name, kind = part.split(":")
            if kind == "S":
                end = data.find(b"\0", r.at)
                if end < 0:
                    raise layouts.Refused(1)
                shown.append(f"{name}={r.at}+{end - r.at}")
                r.at = end + 1
            else:
                n = r.u(2 if kind == "u16" else 4)
                shown.append(f"{name}={'-' if kind == 'I' and n == 0 else n}")
        return f"0 {leaf:04x} " + " ".join(shown)
    except layouts.Refused as e:
        return layouts.refusal(e)


def record_line(data):
    leaf = struct.unpack_from("<H", data)[0]
    return id_record(data) if leaf in IDS or leaf in COUNTED else layouts.type_record(data)[0]


def walk_lines(s, data=False):
    try:
        found, end, at = records(s)
    except Refused as e:
        return [str(e.args[0])]
    lines = []
    for index, place, n in found:
        lines.append(f"{index} {struct.unpack_from('<H', s, place)[0]:04x} {place}+{n}")
        if data:
            lines.append("  " + record_line(s[place:place + n]))
    return lines + [f"refused {end}" if end else f"done {FIRST + len(found)} {at}"]


def create_line(s, table, shift):
    """"then the iterator's own, then 13 (finder)"; R-7: "26 shift above 6, right before the first 13 at creation". "4 for header_size, 4096 for the
    minimum and 4096 plus the records for the maximum"."""
    text = " ".join(str(n) for n in table) or "-"
    try:
        n = count(s)
        if shift > 6:
            raise Refused(26)
        if n and not table:
            raise Refused(13)
    except Refused as e:
        return f"{e.args[0]} ; {text}"
    if not n:
        return f"0 {FIRST} {FIRST} held=0 shift={shift} ; {text}"
    return f"0 {FIRST} {FIRST + n} held=1 shift={shift} ; {' '.join(str(x) for x in [4] + table[1:])}"


def find_lines(s, n, asked):
    """01's finder with blocks of 8, on the section's chain from 4."""
    try:
        total = count(s)
    except Refused as e:
        return [str(e.args[0])]
    places, at = [4] if total else [], 4
    for k in range(1, min(n, total) + 1):
        at += 2 + struct.unpack_from("<H", s, at)[0]
        if k % 8 == 0 and k // 8 == len(places):
            places.append(at)
    top = min(TOP, 8 * len(places) + FIRST - 1) if places else 0
    lines = [f"places [{', '.join(str(p) for p in places)}]", f"max {top}"]
    for i in asked:
        lines.append(f"{i} {find_line(s, places, FIRST + total, top, i)}")
    return lines


def find_line(s, places, high, top, i):
    """"below the minimum, the marker; above the maximum, 8. With d = i minus the minimum: 9 if d/8 rounded down is no held place; else start at that
    place, pass d mod 8 links, and give the next one's item, or 1 if a link breaks."""
    if i < FIRST:
        return "0 marker 2 ffff links=0"
    if i > high:
        return f"8 {i}"
    d = i - FIRST
    if d // 8 >= len(places):
        return f"9 {i} {top}"
    p = places[d // 8]
    for passed in range(d % 8 + 1):
        if p + 2 > len(s):
            return f"1 {passed}"
        n = struct.unpack_from("<H", s, p)[0]
        if p + 2 + n > len(s):
            return f"1 {passed}"
        place, p = p + 2, p + 2 + n
    return f"0 {place}+{n} links={d % 8}"


def stream(s):
    """"turn it into a TPI stream with E's header, maximum and gprec_size fitted to the records": E's is "version 20040203, size 56, minimum 4096, maximum
    4098, gprec_size 22, all else zero"."""
    if len(s) + 52 > LONGEST:
        raise Refused(16)
    n = count(s)
    return struct.pack("<5I", 20040203, 56, FIRST, FIRST + n, len(s) - 4) + bytes(36) + s[4:]


def stream_line(room, s):
    """"then .. 19 (stream)"."""
    try:
        made = stream(s)
        if len(made) > room:
            raise Refused(19)
        return f"0 {made.hex()}"
    except Refused as e:
        return str(e.args[0])


COMMANDS = ("secwalk", "secparse", "seccount", "secfind", "seccreate", "sectpi")


def answer(words):
    """The lines of a command."""
    kind, n = words[0], words[1:]
    blob = lambda word: b"" if word == "-" else bytes.fromhex(word)
    if kind in ("secwalk", "secparse"):
        return walk_lines(blob(n[0]), kind == "secparse")
    if kind == "seccount":
        try:
            return [f"0 {count(blob(n[0]))}"]
        except Refused as why:
            return [str(why.args[0])]
    if kind == "secfind":
        return find_lines(blob(n[0]), int(n[1]), [int(i) for i in n[2].split(",")])
    if kind == "seccreate":
        return [create_line(blob(n[1]), [] if n[2] == "-" else [int(x) for x in n[2].split(",")], int(n[0]))]
    return [stream_line(int(n[0]), blob(n[1]))]


# ---- the commands

# The records of 01's stream E.
E = bytes.fromhex("04000000" + "08000110740000000100" + "0a000210001000000c000100")
ID_RECORDS = ["1601" "02100000" "01100000" "6600", "1602" "01100000" "02100000" "6d00", "1603" "0200" "01100000" "02100000",
              "1604" "02000000" "74000000" "01100000", "1605" "00000000" "7300", "1606" "01100000" "02100000" "07000000",
              "1607" "01100000" "05000000" "07000000" "0300"]


TYPES = [E[6:14], E[16:26], bytes.fromhex("0912ffff"), bytes.fromhex("0112020000007400000001100000"), bytes.fromhex("03120d15030074000000000061 00")]


def section(payloads):
    return struct.pack("<I", 4) + b"".join(struct.pack("<H", len(p)) + p for p in payloads)


def swapped(text):
    """A record's payload in hex whose leaf is written as one reads it."""
    return bytes.fromhex(text[2:4] + text[:2] + text[4:])


def full():
    """Sections that every command is run on: E's, ones that start wrong or hold a bad record, none and many records, every id leaf beside types."""
    yield E
    yield E[:3]
    yield struct.pack("<I", 2) + E[4:]
    yield section([])
    yield E + b"\1\0\x41"
    yield E + b"\2\0\1"
    yield section([swapped(r) for r in ID_RECORDS])
    for n in (7, 8, 17):
        yield section([TYPES[k % 2] for k in range(n)])


def others(seed=6):
    """Sections that are read: every prefix of E's, other signatures, every prefix of an id record, leaves beside the id reader's (0x1609 is a type,
    0x1600 and 0x1608 are no one's), real ones, and damaged copies of them."""
    rng = random.Random(seed)
    for k in range(len(E)):
        yield E[:k]
    for signature in (0, 1, 3, 5, 0x104, 0x10004, 0x1000004, 0x04000000, TOP):
        yield struct.pack("<I", signature) + E[4:]
    yield E + b"\0\0"
    ids = [swapped(r) for r in ID_RECORDS]
    yield section([x for pair in zip(TYPES + TYPES, ids) for x in pair])
    for r in ids:
        for k in range(2, len(r)):
            yield section([TYPES[0], r[:k]])
    for leaf in (0x1600, 0x1608, 0x1609, 0x1502, 0x150d, 0xffff, 0):
        yield section([struct.pack("<H", leaf) + bytes(20)])
    for name in ("plain-x64.debugT", "rich-x64.debugT"):
        with open(os.path.join(HERE, "..", "samples", name), "rb") as f:
            real = f.read()
        yield real
        for _ in range(2):
            damaged = bytearray(real)
            for _ in range(rng.randrange(1, 4)):
                damaged[rng.randrange(4, len(real))] = rng.randrange(256)
            yield bytes(damaged)
        yield real[:rng.randrange(4, len(real))]


def commands():
    text = lambda s: s.hex() or "-"
    for s in full():
        yield f"secwalk {text(s)}"
        yield f"secparse {text(s)}"
        yield f"seccount {text(s)}"
        for n in (0, 1, 7, 8, 65535, 65536, 65537):
            yield f"secfind {text(s)} {n} 0,4095,4096,4097,4098,4099,4103,4104,4105,4112,4113,{TOP}"
        for shift in (0, 3, 6, 7, 255):
            for table in ("-", "9", "9,8"):
                yield f"seccreate {shift} {text(s)} {table}"
        for room in sorted({0, 55, 56, len(s) + 51, len(s) + 52, len(s) + 53}):
            yield f"sectpi {room} {text(s)}"
    for s in others():
        yield f"secparse {text(s)}"
        yield f"seccount {text(s)}"
        if len(s) < 100:
            yield f"sectpi 70000 {text(s)}"
            yield f"seccreate 3 {text(s)} 9"
    with open(os.path.join(HERE, "..", "samples", "plain-x64.debugT"), "rb") as f:
        real = f.read()
    yield f"secfind {text(real)} 65536 4095,4096,4103,4104,4150,4169,4170,4171,5000"
    yield f"sectpi 70000 {text(real)}"


def main():
    words = sys.argv[1:]
    if words and words[0] == "vectors":
        for c in dict.fromkeys(commands()):
            if "--answers" in words:
                print("\n".join(answer(c.split())))
            else:
                print(c)
        return 0
    if len(words) < 2 or words[0] not in ("tpi", "walk", "parse"):
        print(__doc__)
        return 2
    with open(words[1], "rb") as f:
        s = f.read()
    if words[0] != "tpi":
        print("\n".join(walk_lines(s, words[0] == "parse")))
        return 0
    try:
        made = stream(s)
    except Refused as e:
        print(f"refused {e.args[0]}")
        return 1
    with open(words[2], "wb") as f:
        f.write(made)
    return 0


if __name__ == "__main__":
    sys.exit(main())
