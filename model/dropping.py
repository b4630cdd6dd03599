#!/usr/bin/env python3
"""Document 02's R-13 written again in Python, from its text alone: a stream without the records that nobody names.

    dropping.py --vectors STDIN STDOUT       writes commands `drop` for the program `replay` to the one file and their answers to the other
    dropping.py --real STREAM..              drops from each stream with 1, 10 and 300 roots spread over it, holds what comes out to 02's sentences, one by
                                             one, and says how many records were kept
    dropping.py --port STREAM.. -- PROGRAM.. has the program, `target/replay`, answer the vectors, and the streams that fit a line (none may
                                             be named) with those roots and short rooms, and holds it to what is worked out here, line by line

    dropping.py --files STREAM.. -- PROGRAM.. the same of the C program c/fit.c, on streams of any size: each with 1, 10 and 300 roots and with all, what it
                                             writes dropped from again with the renumbered roots

Whether a stream is fit is asked of fitting.py. Where a record's references stand is worked out here a second time, by the widths of the fields before them;
that it has the same indices as fitting.py finds by reading is looked at for every record.
"""
import functools
import os
import random
import struct
import subprocess
import sys
import tempfile

sys.path.insert(0, os.path.dirname(os.path.abspath(__file__)))
import fitting
import layouts
import places
from fitting import HOLDERS, MEMBER, arguments, array, cls, enum, enumerator, fields, member, method, methods, modifier, pointer, procedure, shape, stream, struct19, to_member, union
from places import Refused

NONE = (0, 0xffff)
LONGEST = 65536                 # of a line's BYTES
PLAIN, OPTIONAL = False, True


@functools.lru_cache(maxsize=None)
def places_in(layout, at):
    """Place and optional of each field that may hold a reference, the first field at this place. All stand before the first field of no fixed width."""
    found = []
    for _, kind in layouts.fields_of(layout):
        if kind in ("T", "O", "C"):
            found.append((at, PLAIN if kind == "T" else OPTIONAL))
        if kind not in layouts.WIDTHS:
            break
        at += layouts.WIDTHS[kind]
    return found


def u32_at(s, at):
    return struct.unpack_from("<I", s, at)[0]


def member_starts(payload):
    """Where each member of a 0x1203 record starts, and its leaf."""
    r = layouts.Reader(payload, 2)
    while r.at < len(payload):
        start, leaf = r.at, r.u(2)
        yield start, leaf
        r.fields(leaf, layouts.MEMBERS[leaf])
        if leaf == 0x1404:
            return
        r.padding()


def method_starts(payload):
    r = layouts.Reader(payload, 2)
    while r.at < len(payload):
        yield r.at
        r.fields(0x1206, layouts.METHOD)


def slots(payload):
    """Place and optional of each field of a record that fits which may hold a reference."""
    leaf = struct.unpack_from("<H", payload)[0]
    if leaf == 0x1201:
        return [(6 + 4 * k, PLAIN) for k in range(u32_at(payload, 2))]
    if leaf == 0x1203:
        return [(start + at, optional) for start, m in member_starts(payload) for at, optional in places_in(layouts.MEMBERS[m], 2)]
    if leaf == 0x1206:
        return [(start + at, optional) for start in method_starts(payload) for at, optional in places_in(layouts.METHOD, 0)]
    found = places_in(layouts.RECORDS[leaf], 2)
    # a pointer's class is there in modes 2 and 3
    return found[:1] if leaf == 0x1002 and u32_at(payload, 6) // 32 % 8 not in (2, 3) else found


def references(payload):
    """Place, optional and index of each reference: "An optional index that reads as none is no reference.\""""
    found = [(at, optional, u32_at(payload, at)) for at, optional in slots(payload)]
    found = [(at, optional, n) for at, optional, n in found if not (optional and n in NONE)]
    assert [n for _, _, n in found] == fitting.references(payload), payload.hex()
    return found


@functools.lru_cache(maxsize=4)
def fit(s):
    return fitting.verdict(s) == "0 yes"


@functools.lru_cache(maxsize=4)
def records(s):
    """The payloads of a fit stream, and of each the references."""
    at, found = places.header(s)[2], []
    while at < len(s):
        n = struct.unpack_from("<H", s, at)[0]
        found.append(s[at + 2:at + 2 + n])
        at += 2 + n
    return found, [references(p) for p in found]


def drop(s, roots, table, room):
    """"write a stream with exactly the records reached from the roots through type references, in their old order, renumbered from the old minimum without
    holes, references rewritten, the header kept but for its maximum, and all other payload bytes kept. A lent table's first entries, one per record, end up
    holding old to new, 0 for dropped. .. Roots below the minimum reach nothing. Refusals: the header's, 29 R-9 says no, 8 root at or above the maximum, 13, 30 an
    optional reference would become 0xffff, 19, in that order". The refusal, or None, the new stream, or None, and the table after it."""
    try:
        low, high, size = places.header(s)
        if not fit(s):
            raise Refused(29)
        for root in roots:
            if root >= high:
                raise Refused(8, root)
        if len(table) < high - low:
            raise Refused(13)
    except Refused as e:
        return e.args, None, list(table)
    payloads, named = records(s)
    reached, ahead = set(), [root for root in roots if root >= low]
    while ahead:
        index = ahead.pop()
        if index not in reached:
            reached.add(index)
            ahead += [n for _, _, n in named[index - low] if n >= low]
    kept = sorted(reached)
    new = {old: low + k for k, old in enumerate(kept)}
    after = [new.get(index, 0) for index in range(low, high)] + list(table[high - low:])
    out = bytearray(s[:size])
    if s:
        out[12:16] = struct.pack("<I", low + len(kept))
    for index in kept:
        payload = bytearray(payloads[index - low])
        for at, optional, n in named[index - low]:
            if n >= low:
                if optional and new[n] == 0xffff:
                    return (30,), None, after
                payload[at:at + 4] = struct.pack("<I", new[n])
        out += struct.pack("<H", len(payload)) + payload
    if room < len(out):
        return (19,), None, after
    return None, bytes(out), after


# ---- as lines of PROTOCOL.md

def line(s, roots, table, room):
    comma = lambda ns: ",".join(map(str, ns)) or "-"
    return f"drop {room} {s.hex() or '-'} {comma(roots)} {comma(table)}"


def answer(command):
    """What `replay` answers to a line."""
    _, room, s, roots, table = command.split(" ")
    numbers = lambda word: [] if word == "-" else [int(n) for n in word.split(",")]
    refused, out, after = drop(bytes.fromhex(s.replace("-", "")), numbers(roots), numbers(table), int(room))
    said = " ".join(map(str, refused)) if refused else f"0 {out.hex() or '-'}"
    return f"{said} ; {' '.join(map(str, after)) or '-'}"


# ---- lines to try

ROOMY = 70000


def old(n):
    """A table's contents before the call."""
    return [7 + 3 * k for k in range(n)]


def headers():
    """Each refusal of the header, alone and beside all that comes later: a header's next ones, an unfit record, a root too high, no table, no room."""
    good = stream([shape, pointer(0x1000)])
    patched = lambda *changes: functools.reduce(lambda s, change: s[:change[0]] + struct.pack("<I", change[1]) + s[change[0] + 4:], changes, good)
    for s in (good[:1], good[:55], patched((4, 55)), patched((4, 55), (8, 4095)), patched((4, 0), (12, 0)), patched((4, 1025)), patched((4, 1025), (8, 4095)),
              patched((4, 0xffffffff), (12, 5)), patched((4, 1024)), patched((4, 1024), (8, 4095)), good[:56][:4] + struct.pack("<I", 57) + good[8:56], patched((8, 4095)),
              patched((8, 4095), (12, 4094)), patched((8, 0)), patched((12, 4095)), patched((12, 0)), patched((8, 4099))):
        yield line(s, [0x1001], old(2), ROOMY)
        yield line(s + b"\0", [0xffffffff], [], 0)


def unfit():
    """29 by each rule, where all else is good and where a root is too high, the table short and no room; in a record that no root reaches too."""
    bad = [b"\x01\x10\x74", struct.pack("<HII", 0x1605, 0, 0), struct.pack("<HH", 0x1404, 0), modifier(0x1001), modifier(0x1002), pointer(0x1003), modifier(0x04), modifier(0x874),
           modifier(0xffff), cls(0x1504, 0x1001, 0, 0), cls(0x1504, 0x67c, 0, 0), fields(member(0x74), b"\x0d\x15\x03"), fields(member(0x74), b"\xf8"), methods(0x74)[:-1],
           arguments(0x74)[:-1], pointer(0x74, 0x1000d)]
    streams = [stream([shape, p, shape]) for p in bad]
    streams += [stream([shape, shape], high=0x1001), stream([shape, shape], high=0x1003), stream([], high=0x1001), stream([shape]) + b"\0", stream([shape]) + b"\0\0", stream([shape])[:-1]]
    streams += [stream([shape, shape], low=0xfffffffe, high=0xffffffff), stream([shape, modifier(0x1000)], low=0x2000), stream([shape, modifier(0x1fff)], low=0x2000)]
    for s in streams:
        low, high, _ = places.header(s)
        yield line(s, [low], old(high - low), ROOMY)
        yield line(s, [high], [], 0)


def roots_and_tables():
    """8 with the first root in the list's order, 13, 19; roots that reach nothing, are repeated or in any order; tables that are longer."""
    low, chain = 0x2000, [shape] + [pointer(0x2000 + k) for k in range(5)]
    for size in (56, 57):
        s, high = stream(chain, low, size=size), low + 6
        for roots in ([high], [high - 1], [high + 1, high], [low, high, high + 1], [0, high + 7], [0xffffffff], [high, 0xffffffff], [high - 1, low, high, high]):
            yield line(s, roots, old(6), len(s))
            yield line(s, roots, old(5), 0)
    s = stream(chain, low)
    for table in ([], old(5), old(6), old(7), old(40)):
        for room in (0, len(s) - 1, len(s)):
            yield line(s, [low + 5], table, room)
    for roots in ([], [0], [4], [0x74, 0x874, 0xfff], [0x1000], [0x1fff], [0x1000, 0x2000], [0x2000], [0x2001, 0x2001], [0x2003, 0x2001], [0x2001, 0x2003], [0x2005] * 50, [5, 0x2002, 0x1fff, 0x2000]):
        yield line(s, roots, [0xffffffff] * 8, ROOMY)
    # the room of each number of kept records, exact and one byte short
    for k in range(6):
        length = 56 + 7 + 12 * k
        for room in (length, length - 1, length + 1):
            yield line(s, [low + k], old(7), room)


def headed():
    """The empty stream, a header alone, headers longer than 56 bytes with other bytes than zero in them."""
    for table in ([], old(2)):
        for room in (0, 1, 100):
            yield line(b"", [], table, room)
        for roots in ([0], [0x74], [0x1000, 0], [0xffffffff]):
            yield line(b"", roots, table, 0)
    for low in (0x1000, 0xffffffff):
        for size in (56, 57, 1024):
            s = stream([], low, size=size)
            s = s[:16] + bytes((3 * k + 1) % 256 for k in range(16, size))
            for room in (size, size - 1, 0):
                yield line(s, [], old(room % 2), room)
            yield line(s, [low - 1, 5], [], size)
            yield line(s, [5, low], [], 0)
    for size in (58, 1024):
        s = stream([shape, shape, modifier(0x1001)], size=size)
        s = s[:16] + bytes((5 * k + 2) % 256 for k in range(16, size)) + s[size:]
        for roots in ([], [0x1001], [0x1002], [0x1000, 0x1001, 0x1002]):
            yield line(s, roots, old(3), ROOMY)


MORE = [lambda t: to_member(t, 0x74), lambda t: to_member(t, 0), lambda t: pointer(0x74, 0x1006c) + struct.pack("<I", t),
        lambda t: fields(struct.pack("<HHIIHH", 0x1401, 3, 0x74, t, 0, 0), b"\xf0"), lambda t: fields(struct.pack("<HHIIHHI", 0x1402, 3, t, 0x74, 0, 0x8004, 70000)),
        lambda t: fields(struct.pack("<HHIH", 0x150d, 3, 0x74, 0x8000) + b"\x05m\0", member(t), enumerator)]


def holders():
    """Every place of a reference: one that moves, one that stays, primitives, none; 0xffff, which is none where it is optional; and a new index 0xffff,
    which is 30 there."""
    for make in HOLDERS + MORE:
        yield line(stream([shape, shape, make(0x1001), shape]), [0x1002], old(4), ROOMY)
        yield line(stream([shape, make(0x1000), shape, make(0x74), make(0)]), [0x1001, 0x1003, 0x1004], old(5), ROOMY)
        yield line(stream([shape, shape, make(0xffff)], low=0xfffe), [0x10000], old(3), ROOMY)
        yield line(stream([shape, shape, shape, make(0x10000)], low=0xfffe), [0xfffe, 0x10001], old(4), ROOMY)


def reads_as_none():
    """30, exactly: beside 13 and 19, of kept records alone, at 0xffff alone; an optional 0xffff stays as it is, whether its record is kept or not."""
    class_of = lambda *t: cls(0x1505, *(t + (0, 0, 0))[:3])
    s = stream([shape, shape, shape, shape, class_of(0x10000), modifier(0x10000)], low=0xfffc)
    every = [0xfffc, 0xfffd, 0xfffe, 0xffff]
    for k in range(4):
        yield line(s, every[:k] + every[k + 1:] + [0x10000], old(6), ROOMY)
        yield line(s, [0xfffc + k, 0x10000], old(6), ROOMY)
    s = stream([shape, shape, shape, shape, shape, class_of(0x10000), modifier(0x10001)], low=0xfffc)
    for k in range(4):
        roots = every[:k] + every[k + 1:]
        yield line(s, roots + [0x10001], old(7), ROOMY)
        yield line(s, roots + [0x10001], old(6), ROOMY)
        yield line(s, roots + [0x10001], old(9), 0)
        yield line(s, roots + [0x10001, 0x10003], old(7), 0)
        yield line(s, roots + [0x10000], old(7), ROOMY)
        yield line(s, roots[:2] + [0x10001], old(7), ROOMY)
    yield line(s, every + [0x10002], old(7), ROOMY)
    yield line(s, every + [0x10002], old(7), 0)
    # the second and third of a class, and the fault in a later record
    for t in ((0xfffc, 0x10000), (0xffff, 0xfffe, 0x10000), (0x10000, 0x10000, 0x10000), (0xffff,), (0, 0xffff, 0xfffd)):
        s = stream([shape, shape, shape, shape, shape, class_of(*t), class_of(0x10000), modifier(0x10001)], low=0xfffc)
        for roots in ([0x10001], [0xfffc, 0xfffd, 0xfffe, 0x10001], [0xfffc, 0xfffd, 0xfffe, 0xffff, 0x10001], [0xfffc, 0xfffd, 0xffff, 0x10003]):
            yield line(s, roots, old(8), ROOMY)
    # a record 0xffff that is named by an optional field, by a plain one, by both
    for p in (procedure(0xffff, 0x74), procedure(0x74, 0xffff), procedure(0xffff, 0xffff), procedure(0xffff, 0xfffe), method(0xffff, 0xfffe, 0xffff, 0x74), struct19(0xffff, 0xfffe, 0)):
        s = stream([shape, shape, shape, p], low=0xfffd)
        for roots in ([0x10000], [0xfffd, 0x10000], [0xfffd, 0xfffe, 0x10000], [0xffff, 0x10000]):
            yield line(s, roots, old(4), ROOMY)


def kept_bytes():
    """What no reader reads stays: bytes after the last field, pads, what stands after a continuation; a record as long as a line has room for."""
    tail = b"\xde\xad\x01\x10\x00\x00"
    pads = b"\xf3\xf2\xf1"
    payloads = [modifier(0x1001) + tail, pointer(0x1001) + tail, procedure(0x1001, 0x1001) + pads, cls(0x1505, 0x1001, 0, 0x1001) + pads, arguments(0x1001, 0x1000) + tail, arguments() + tail,
                array(0x1001, 0x23) + tail, enum(0x74, 0x1001) + b"\xf1", shape + tail, fields(member(0x1001), pads, enumerator, b"\xf1", member(0x1001), pads),
                fields(member(0x1001), b"\xf5\0\0\0\0", MEMBER["index"](0x1001), tail), fields(), methods(), fields(MEMBER["index"](0x1001)),
                struct.pack("<HHHIH", 0x1506, 0, 0x200, 0x1001, 4) + b"u\0.?AU\0" + tail, struct.pack("<HHHIIIHH", 0x1504, 2, 0x200, 0x1001, 0, 0x1001, 0x8002, 40000) + b"c\0\x01\x10\0\0\0" + tail,
                struct.pack("<H", 0x1206) + struct.pack("<HHII", 0x13, 0, 0x1001, 0x1001) + struct.pack("<HHI", 3, 9, 0x1001) + struct.pack("<HHII", 0x1b, 0xffff, 0x1001, 0x1001),
                fields(struct.pack("<HHII", 0x1511, 0x13, 0x1001, 0x1001) + b"f\0", struct.pack("<HHI", 0x1511, 3, 0x1001) + b"g\0"),
                struct.pack("<HIIIIHH", 0x1609, 0x12340000, 0x1001, 0, 0x1001, 0x1001, 4) + b"c\0" + tail, method(0x1001, 0x1001, 0x1001, 0x1001)[:-4] + struct.pack("<I", 0x1001)]
    for p in payloads:
        yield line(stream([shape, shape, p, p]), [0x1002], old(4), ROOMY)
    yield line(stream([shape, shape, arguments(*[0x1001, 0x74] * 5).ljust(0x8000, b"\x5a")]), [0x1002], old(3), ROOMY)
    yield line(stream([shape, shape, arguments(*[0x1001] * 16360)]), [0x1002], old(3), ROOMY)


def high_indices():
    """A minimum far above, up to the last index."""
    for low in (0x1001, 0x12345678, 0x80000000, 0xfffffffc):
        s = stream([shape, shape, arguments(low + 1, 0x74, low + 1)], low=low)
        for roots in ([low + 2], [low], [low, low + 1, low + 2], [low - 1], [low + 3], [low + 2, low + 3], [0xffffffff]):
            yield line(s, roots, old(4), ROOMY)


def webs():
    """Records that name some of those before them, drawn by a fixed seed, with some of them as roots; all roots of one small stream."""
    draw = random.Random(13)
    small = stream([shape, pointer(0x1000), arguments(0x1000, 0x1001), shape, procedure(0x1003, 0x1002), cls(0x1504, 0x1001, 0, 0x1003)])
    for n in range(0, 64, 2):
        yield line(small, [0x1000 + k for k in range(6) if n >> k & 1], [9] * 6, ROOMY)
    for n in range(25):
        low = draw.choice((0x1000, 0x1000, 0x1800, 0xffe0, 0xfff0))
        count = draw.randrange(1, 60)
        payloads = [shape]
        for k in range(1, count):
            t = lambda: low + draw.randrange(k) if draw.random() < 0.5 else draw.choice((0x74, 0x20, 0x603, 3))
            o = lambda: draw.choice((0, 0xffff, t()))
            payloads.append(draw.choice((lambda: modifier(t()), lambda: pointer(t()), lambda: to_member(t(), o()), lambda: arguments(*(t() for _ in range(draw.randrange(5)))),
                                         lambda: procedure(o(), t()), lambda: method(t(), t(), o(), t()), lambda: cls(0x1505, o(), o(), o()), lambda: struct19(o(), o(), o()),
                                         lambda: union(t()), lambda: enum(t(), t()), lambda: array(t(), t()), lambda: methods(t(), t()),
                                         lambda: fields(member(t()), b"\xf1", enumerator, MEMBER["virtual"](t()), MEMBER["method"](t())))))
            payloads[-1] = payloads[-1]()
        s = stream(payloads, low)
        roots = [low + draw.randrange(count) for _ in range(draw.randrange(1, 5))]
        _, out, _ = drop(s, roots, old(count), ROOMY)
        yield line(s, roots, old(count + draw.randrange(3)), len(out) - draw.randrange(2) if out else ROOMY)


def samples():
    folder = os.path.join(os.path.dirname(os.path.dirname(os.path.abspath(__file__))), "samples")
    for name in ("e.tpi", "plain-x64.tpi", "rich-x64.tpi", "hand.tpi"):
        with open(os.path.join(folder, name), "rb") as f:
            s = f.read()
        low, high, _ = places.header(s)
        for n in (1, 3):
            yield line(s, spread(low, high, n), [0] * (high - low), len(s))


def vectors():
    for part in (headers, unfit, roots_and_tables, headed, holders, reads_as_none, kept_bytes, high_indices, webs, samples):
        yield from part()


# ---- real streams

def spread(low, high, n):
    """n roots, or as many as there are records, from the last one down."""
    n = min(n, high - low)
    return [high - 1 - k * (high - low) // n for k in range(n)]


def decoded(payload, through):
    """A record by the layouts: each value, a type index taken through a map."""
    r, said = layouts.Reader(payload), []

    def noted(leaf, layout):
        got = r.fields(leaf, layout)
        for part in layout.split():
            name, kind = part.split(":")
            said.append((name, through(got[name]) if kind in ("T", "O", "C") and got[name] != "-" else got[name]))

    leaf = r.u(2)
    said.append(leaf)
    if leaf == 0x1201:
        said.extend(through(r.u(4)) for _ in range(r.u(4)))
    elif leaf == 0x1206:
        while r.at < len(payload):
            noted(leaf, layouts.METHOD)
    elif leaf == 0x1203:
        while r.at < len(payload):
            m = r.u(2)
            said.append(m)
            noted(m, layouts.MEMBERS[m])
            if m == 0x1404:
                break
            r.padding()
    else:
        noted(leaf, layouts.RECORDS[leaf])
    return said


def need(holds, what):
    if not holds:
        raise SystemExit(f"not so: {what}")


def look(s, roots):
    """Drops, and holds the answer to 02's sentences; the records kept, or the refusal."""
    low, high, size = places.header(s)
    refused, out, table = drop(s, roots, [0] * (high - low) + [5], 1 << 40)
    if refused:
        return refused
    need(fitting.verdict(out) == "0 yes", "the new stream is fit")
    need(out[:12] == s[:12] and out[16:size] == s[16:size], "the header is kept but for its maximum")
    need(table[high - low] == 5, "the table behind the records is as before")
    kept = [index for index in range(low, high) if table[index - low]]
    need([table[index - low] for index in kept] == list(range(low, low + len(kept))) and places.header(out)[1] == low + len(kept), "renumbered from the old minimum without holes")
    (olds, old_named), (news, _) = records(s), records(out)
    need(len(news) == len(kept), "as many records as were kept")
    through = lambda n: table[n - low] if n >= low else n
    for index, new in zip(kept, news):
        before = olds[index - low]
        need(decoded(before, through) == decoded(new, lambda n: n), f"{index} reads alike but for references through the table")
        moved = {at + k for at, _, n in old_named[index - low] if n >= low for k in range(4)}
        need(len(before) == len(new) and all(k in moved for k in range(len(new)) if before[k] != new[k]), f"{index} has all other bytes")
    named = {n for index in kept for _, _, n in old_named[index - low]} | set(roots)
    need(named >= set(kept) and set(kept) >= {n for n in named if n >= low}, "kept is what roots and kept records name")
    again = drop(out, [through(root) for root in roots], [0] * len(kept), len(out))
    need(again == (None, out, list(range(low, low + len(kept)))), "dropping twice changes nothing")
    need(drop(s, roots, [0] * (high - low) + [5], len(out) - 1) == ((19,), None, table), "19 with one byte less")
    return len(kept)


def real(names):
    for name in names:
        with open(name, "rb") as f:
            s = f.read()
        low, high, _ = places.header(s)
        said = [f"{os.path.basename(name)}: {high - low} records"]
        for n in (1, 10, 300):
            kept = look(s, spread(low, high, n))
            said.append(f"{n} roots: " + (f"{kept} kept" if isinstance(kept, int) else " ".join(map(str, kept))))
        print(*said, sep=", ", flush=True)


def port(names, program):
    """Lines that differ between the program and this one."""
    commands = list(vectors())
    for name in names:
        with open(name, "rb") as f:
            s = f.read()
        low, high, _ = places.header(s)
        if len(s) <= LONGEST:
            for n in (1, 10, 300):
                roots = spread(low, high, n)
                _, out, _ = drop(s, roots, [0] * (high - low), len(s))
                commands += [line(s, roots, [0] * (high - low), room) for room in ({len(out), len(out) - 1, len(s)} if out else {len(s)})]
        else:
            print(f"{os.path.basename(name)} is too long for a line")
    run = subprocess.run(program, input="".join(c + "\n" for c in commands), capture_output=True, text=True, check=True)
    theirs, ours = run.stdout.splitlines(), [answer(c) for c in commands]
    wrong = [k for k, (a, b) in enumerate(zip(theirs, ours)) if a != b]
    print(f"{len(commands)} lines, {len(wrong) + abs(len(theirs) - len(ours))} differ")
    for k in wrong[:5]:
        print(*(text[:300] for text in (commands[k], "theirs " + theirs[k], "ours   " + ours[k])), sep="\n")
    return int(theirs != ours)


def from_file(program, name, roots):
    """What the C program writes, and prints of each root; or what it says where it refuses."""
    with tempfile.TemporaryDirectory() as folder:
        into = os.path.join(folder, "new")
        run = subprocess.run([*program, name, into, *map(str, roots)], capture_output=True, text=True, check=False)
        if run.returncode:
            return run.stderr, None
        with open(into, "rb") as f:
            return [tuple(map(int, row.split())) for row in run.stdout.splitlines()], f.read()


def file_wanted(name, s, roots):
    """The same by what is worked out here."""
    low, high, _ = places.header(s)
    refused, out, table = drop(s, roots, [0] * (high - low), len(s))
    if refused:
        details = [*refused[1:], 0, 0][:2]
        return f"{name}: refused by {refused[0]}, details {details[0]} {details[1]}\n", None
    return [(root, table[root - low] if root >= low else root) for root in roots], out


def files(names, program):
    """Droppings of whole files that differ between the C program and this one."""
    tried = wrong = 0
    for name in names:
        with open(name, "rb") as f:
            s = f.read()
        low, high, _ = places.header(s)
        for n in (1, 10, 300, min(high - low, 20000)):
            roots = spread(low, high, n)
            theirs, ours = from_file(program, name, roots), file_wanted(name, s, roots)
            tried, wrong = tried + 1, wrong + (theirs != ours)
            if theirs == ours and ours[1]:
                with tempfile.NamedTemporaryFile() as new:
                    new.write(ours[1])
                    new.flush()
                    again = [b for _, b in ours[0]]
                    tried, wrong = tried + 1, wrong + (from_file(program, new.name, again) != ([(b, b) for b in again], ours[1]))
    print(f"{tried} droppings of {len(names)} files, {wrong} differ")
    return int(wrong > 0)


def main():
    words = sys.argv[1:]
    if words[:1] == ["--vectors"] and len(words) == 3:
        commands = list(vectors())
        for name, said in zip(words[1:], (commands, map(answer, commands))):
            with open(name, "w", encoding="utf-8") as f:
                f.writelines(text + "\n" for text in said)
        return 0
    if words[:1] == ["--real"] and len(words) > 1:
        real(words[1:])
        return 0
    if words[:1] == ["--port"] and "--" in words[:-1]:
        at = words.index("--")
        return port(words[1:at], words[at + 1:])
    if words[:1] == ["--files"] and "--" in words[:-1]:
        at = words.index("--")
        return files(words[1:at], words[at + 1:])
    print(__doc__)
    return 2


if __name__ == "__main__":
    sys.exit(main())
