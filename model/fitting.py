#!/usr/bin/env python3
"""Document 02's R-9 written again in Python, from its text alone: is a type stream fit to bind?

    fitting.py STREAM..                      prints `0 yes`, `0 no RECORD RULE` or the refusal's number for each
    fitting.py --vectors STDIN STDOUT        writes commands for the program `replay` to the one file and their answers to the other,
                                             those of dropping.py (R-13), reporting.py (R-12) and places.py (R-3 and R-10) with them
    fitting.py --damage STREAM PROGRAM..     sets each byte of STREAM to 0x00, to 0xff and to its complement, one at a time, and holds the program,
                                             `target/replay`, to what is worked out here

Records are read by layouts.py, which is 01's layouts written again: T and O there are the type references here.
The rules are numbered in the order of 02's sentence, the gap after them: 1 count, 2 decode, 3 order, 4 primitive, 5 gap.
"""
import os
import struct
import subprocess
import sys

sys.path.insert(0, os.path.dirname(os.path.abspath(__file__)))
import declaring
import layouts
import places
import reporting
import writing

COUNT, DECODE, ORDER, PRIMITIVE, GAP = 1, 2, 3, 4, 5
FIRST = 0x1000


def named(reader, leaf, layout):
    """The type references of one layout: "An optional index that reads as none is no reference.\""""
    got = reader.fields(leaf, layout)
    return [got[name] for name, kind in layouts.fields_of(layout) if kind in ("T", "O", "C") and got[name] != "-"]


def references(payload):
    """The type references of a record and of its list elements; a refusal is raised."""
    r = layouts.Reader(payload)
    leaf = r.u(2)
    if leaf == 0x1201:
        count = r.u(4)
        elements = layouts.Reader(r.take(4 * count))
        return [elements.u(4) for _ in range(count)]
    if leaf == 0x1206:
        found = []
        while r.at < len(payload):
            found += named(r, leaf, layouts.METHOD)
        return found
    if leaf == 0x1203:
        found = []
        while r.at < len(payload):
            member = r.u(2)
            if member not in layouts.MEMBERS:
                raise layouts.Refused(10, member)
            found += named(r, member, layouts.MEMBERS[member])
            if member == 0x1404:
                break
            r.padding()
        return found
    if leaf not in layouts.RECORDS:
        raise layouts.Refused(10, leaf)
    return named(r, leaf, layouts.RECORDS[leaf])


def good_primitive(i):
    try:
        declaring.primitive(i)
        return True
    except layouts.Refused:
        return False


def rule(payload, index, low):
    """The first rule of 02's list that a record breaks; None if there is none."""
    try:
        found = references(payload)
    except layouts.Refused:
        return DECODE
    if any(low <= n and not n < index for n in found):
        return ORDER
    if any(n < FIRST and not good_primitive(n) for n in found):
        return PRIMITIVE
    if any(FIRST <= n < low for n in found):
        return GAP
    return None


def verdict(s):
    """`0 yes`, `0 no RECORD RULE`, or the header's own refusal."""
    try:
        low, high, at = places.header(s)
    except places.Refused as e:
        return str(e.args[0])
    index = low
    while at < len(s):
        length = struct.unpack_from("<H", s, at)[0] if at + 2 <= len(s) else 0
        if length < 2 or at + 2 + length > len(s) or index == 4294967295:
            return f"0 no {index} {DECODE}"
        broken = rule(s[at + 2:at + 2 + length], index, low)
        if broken:
            return f"0 no {index} {broken}"
        at, index = at + 2 + length, index + 1
    return "0 yes" if index - low == high - low else f"0 no 0 {COUNT}"


# ---- streams to try ----

def stream(records, low=0x1000, high=None, size=56):
    """A stream of these payloads."""
    high = low + len(records) if high is None else high
    head = struct.pack("<5I", 20040203, size, low, high, 0).ljust(size, b"\0")
    return head + b"".join(struct.pack("<H", len(p)) + p for p in records)


# Payloads of each leaf that may hold a reference. HOLDERS: each place of a reference, as a payload with that one in it and primitives at its others.
u32 = lambda *xs: struct.pack(f"<{len(xs)}I", *xs)
modifier = lambda t: struct.pack("<HIH", 0x1001, t, 1)
pointer = lambda t, word=0x1000c: struct.pack("<HII", 0x1002, t, word)
to_member = lambda t, c: pointer(t, 0x1004c) + u32(c)
arguments = lambda *ts: struct.pack("<HI", 0x1201, len(ts)) + u32(*ts)
procedure = lambda ret, args: struct.pack("<HIHHI", 0x1008, ret, 0, 0, args)
method = lambda ret, cls, this, args: struct.pack("<HIIIHHII", 0x1009, ret, cls, this, 0, 0, args, 0)
cls = lambda leaf, f, d, v: struct.pack("<HHHIIIH", leaf, 0, 0, f, d, v, 4) + b"c\0"
struct19 = lambda f, d, v: struct.pack("<HIIIIHH", 0x1609, 0, f, d, v, 0, 4) + b"c\0"
union = lambda f: struct.pack("<HHHIH", 0x1506, 0, 0, f, 4) + b"u\0"
enum = lambda t, f: struct.pack("<HHHII", 0x1507, 0, 0, t, f) + b"e\0"
array = lambda e, i: struct.pack("<HIIH", 0x1503, e, i, 8) + b"\0"
bits = lambda t: struct.pack("<HIBB", 0x1205, t, 1, 0)
shape = struct.pack("<HHB", 0x000a, 1, 0)
fields = lambda *ms: struct.pack("<H", 0x1203) + b"".join(ms)
methods = lambda *ts: struct.pack("<H", 0x1206) + b"".join(struct.pack("<HHI", 3, 0, t) for t in ts)
member = lambda t: struct.pack("<HHIH", 0x150d, 3, t, 0) + b"m\0"
MEMBER = {
    "base": lambda t: struct.pack("<HHIH", 0x1400, 3, t, 0), "index": lambda t: struct.pack("<HHI", 0x1404, 0, t), "table": lambda t: struct.pack("<HHI", 0x1409, 0, t),
    "member": member, "static": lambda t: struct.pack("<HHI", 0x150e, 3, t) + b"s\0", "overloads": lambda t: struct.pack("<HHI", 0x150f, 2, t) + b"o\0",
    "nested": lambda t: struct.pack("<HHI", 0x1510, 0, t) + b"n\0", "method": lambda t: struct.pack("<HHI", 0x1511, 3, t) + b"f\0",
    "virtual": lambda t: struct.pack("<HHIIHH", 0x1401, 3, t, 0x74, 0, 0), "pointer of virtual": lambda t: struct.pack("<HHIIHH", 0x1402, 3, 0x74, t, 0, 0),
}
enumerator = struct.pack("<HHH", 0x1502, 3, 7) + b"v\0"
HOLDERS = [modifier, pointer, lambda t: to_member(0x74, t), arguments, lambda t: arguments(0x74, t), lambda t: procedure(t, 0x74), lambda t: procedure(0x74, t)]
HOLDERS += [lambda t, k=k: method(*(t if j == k else 0x74 for j in range(4))) for k in range(4)]
HOLDERS += [lambda t, leaf=leaf, k=k: cls(leaf, *(t if j == k else 0 for j in range(3))) for leaf in (0x1504, 0x1505, 0x1519) for k in range(3)]
HOLDERS += [lambda t, k=k: struct19(*(t if j == k else 0 for j in range(3))) for k in range(3)]
HOLDERS += [union, lambda t: enum(t, 0), lambda t: enum(0x74, t), lambda t: array(t, 0x23), lambda t: array(0x74, t), bits, methods, lambda t: methods(0x74, t)]
HOLDERS += [lambda t, m=m: fields(enumerator, b"\xf2\xf1" + m(t)) for m in MEMBER.values()]


def made_holders(leaf):
    """Those of a leaf by its layout."""
    n = sum(kind in ("T", "O") for _, kind in layouts.fields_of(layouts.RECORDS[leaf]))
    return [lambda t, k=k: writing.least(leaf, *(t if j == k else 0x74 for j in range(n))) for k in range(n)]


by_hand = {make(0x74)[:2] for make in HOLDERS}
HOLDERS += [make for leaf in layouts.RECORDS if struct.pack("<H", leaf) not in by_hand for make in made_holders(leaf)]


def tries():
    """Streams by hand: each rule, alone and before or behind another, and each edge of it."""
    yield b""
    yield stream([])
    yield stream([], high=0x1001)
    yield stream([], low=0x1005)
    yield stream([shape])
    for make in HOLDERS:
        # itself, the next, the one before, a good and a bad primitive, NoType, 0xffff, and, with a higher minimum, the gap and its ends
        for t in (0x1001, 0x1002, 0x1000, 0x74, 0x674, 0x67c, 0x04, 0x874, 0, 0xffff, 0xfff, 0xffffffff):
            yield stream([shape, make(t)])
        for t in (0x1000, 0x1fff, 0x2000, 0x2001):
            yield stream([shape, make(t)], low=0x2000)
        yield stream([shape, make(0x1000)[:-1]])
    bad = (modifier(0x1001), modifier(0x04), modifier(0x1000), b"\x01\x10\x74")
    for low in (0x1000, 0x2000):
        for a in bad:
            for b in bad:
                yield stream([a, b], low)
    # in one record: a bad last element stands before a bad first reference; order before primitive, whichever comes first; the gap last
    yield stream([fields(member(0x1000), b"\x0d\x15\x03\x00")])
    yield stream([arguments(0x04, 0x1000)])
    yield stream([arguments(0x1000, 0x04)], low=0x2000)
    yield stream([arguments(0x1000, 0x2000)], low=0x2000)
    yield stream([fields(MEMBER["index"](0x74), b"\0\0")])
    yield stream([fields(member(0x74), b"\xf8")])
    yield stream([fields(member(0x74), b"\xf3\xf2\xf1")])
    yield stream([fields()])
    yield stream([methods()])
    yield stream([arguments()])
    yield stream([fields(MEMBER["index"](0x74))[2:]])
    yield stream([struct.pack("<HIII", 0x1605, 0, 0, 0)])
    whole = stream([shape, pointer(0x1000)])
    for end in range(len(whole) + 1):
        yield whole[:end]
    yield whole + b"\0"
    yield whole + b"\0\0"
    yield stream([shape], low=0xfffffffe)
    yield stream([shape, shape], low=0xfffffffe, high=0xffffffff)
    yield stream([shape, shape], high=0x1001)
    yield stream([shape, shape], high=0x1003)
    for place, value in ((4, 55), (4, 1025), (4, 57), (8, 0xfff), (12, 0xfff)):
        yield whole[:place] + u32(value) + whole[place + 4:]


# Lines that are no good command, and their answers; the last ends without a line end.
BAD = (("fits 00\n", "? fits\n"), ("fit 0\n", "? bytes\n"), ("fit\n", "? bytes\n"), ("\n", ""), ("fit zz\n", "? bytes\n"), ("fit AB\n", "? bytes\n"), ("fit 00 00\n", "1\n"), ("fit", "? bytes\n"))


def damaged(s):
    for i, byte in enumerate(s):
        for value in sorted({0, 255, 255 - byte} - {byte}):
            yield s[:i] + bytes([value]) + s[i + 1:]


def line(s):
    return f"fit {s.hex() or '-'}\n"


def main():
    words = sys.argv[1:]
    if words[:1] == ["--vectors"] and len(words) == 3:
        import dropping  # which asks this module whether a stream is fit

        both = [(line(s), verdict(s) + "\n") for s in tries()]
        for part in (dropping, reporting, places):
            both += [(command + "\n", part.answer(command) + "\n") for command in part.vectors()]
        both += [(command + "\n", "? bytes\n") for command in reporting.BAD] + list(BAD)
        for name, said in zip(words[1:], zip(*both)):
            with open(name, "w", encoding="utf-8") as f:
                f.writelines(said)
        return 0
    if words[:1] == ["--damage"] and len(words) > 2:
        with open(words[1], "rb") as f:
            streams = list(damaged(f.read()))
        run = subprocess.run(words[2:], input="".join(map(line, streams)), capture_output=True, text=True, check=True)
        theirs, ours = run.stdout.splitlines(), [verdict(s) for s in streams]
        kinds = sorted({" ".join(a.split()[:2] + a.split()[3:]) for a in ours})
        print(f"{len(streams)} streams, {sum(a != b for a, b in zip(theirs, ours)) + abs(len(theirs) - len(ours))} differ")
        print(*(f"{sum(' '.join(a.split()[:2] + a.split()[3:]) == k for a in ours):6} {k}" for k in kinds), sep="\n")
        return int(theirs != ours)
    if not words or words[0].startswith("-"):
        print(__doc__)
        return 2
    for name in words:
        with open(name, "rb") as f:
            print(f"{os.path.basename(name)}: {verdict(f.read())}")
    return 0


if __name__ == "__main__":
    sys.exit(main())
