#!/usr/bin/env python3
"""Document 02's R-5 written again in Python, from its text: a type as a C declaration. make_vectors.py holds the port's vectors to it.

    declaring.py STREAM [INDEX..]         prints `index text` or `index refused N` for the types of a stream, room 4,096 each
    declaring.py --vectors STDIN STDOUT   appends its commands to the one file and their answers to the other, those that are not there yet

Where 02 leaves room it is read as docs/DECISIONS.md says, 120 and following. Records are read by layouts.py, which is 01's layouts written again.
"""
import os
import struct
import sys

sys.path.insert(0, os.path.dirname(os.path.abspath(__file__)))
import layouts
import places
import writing
from layouts import Refused

DEEPEST = 32
THROUGH = 32
FIRST = 0x1000

# 01's low bytes of the 42 kinds (primitive.rs): the spelling and the size of each. Those of docs/SPELLINGS.md, by cvinfo.h's numbers.
KINDS = {
    0x00: ("...", 0), 0x03: ("void", 0), 0x08: ("HRESULT", 4), 0x10: ("signed char", 1), 0x20: ("unsigned char", 1), 0x68: ("int8_t", 1),
    0x69: ("uint8_t", 1), 0x70: ("char", 1), 0x71: ("wchar_t", 2), 0x7a: ("char16_t", 2), 0x7b: ("char32_t", 4), 0x11: ("short", 2),
    0x21: ("unsigned short", 2), 0x72: ("int16_t", 2), 0x73: ("uint16_t", 2), 0x12: ("long", 4), 0x22: ("unsigned long", 4), 0x74: ("int", 4),
    0x75: ("unsigned int", 4), 0x13: ("long long", 8), 0x23: ("unsigned long long", 8), 0x76: ("int64_t", 8), 0x77: ("uint64_t", 8),
    0x14: ("__int128", 16), 0x24: ("unsigned __int128", 16), 0x78: ("int128_t", 16), 0x79: ("uint128_t", 16), 0x46: ("_Float16", 2),
    0x40: ("float", 4), 0x45: ("__float32pp", 4), 0x44: ("__float48", 6), 0x41: ("double", 8), 0x42: ("long double", 10), 0x43: ("__float128", 16),
    0x50: ("float _Complex", 8), 0x51: ("double _Complex", 16), 0x52: ("long double _Complex", 20), 0x53: ("__float128 _Complex", 32),
    0x30: ("bool", 1), 0x31: ("__bool16", 2), 0x32: ("__bool32", 4), 0x33: ("__bool64", 8),
}
# The indirections 1 to 7: the spelling and the size of the pointer.
INDIRECTIONS = {1: ("__near *", 2), 2: ("__far *", 4), 3: ("__huge *", 4), 4: ("*", 4), 5: ("__far32 *", 6), 6: ("*", 8), 7: ("__ptr128 *", 16)}
MODES = {0: "*", 1: "&", 2: "::*", 3: "::*", 4: "&&"}
WORDS = ("const", "volatile", "__unaligned", "__restrict")
TAGS = (0x1504, 0x1505, 0x1519, 0x1609, 0x1506, 0x1507)
PRINTED = (0x1001, 0x1002, 0x1503, 0x1008) + TAGS


def primitive(i):
    """(kind, indirection) of an index below 0x1000; 8 if it is none."""
    if i % 256 not in KINDS or i // 256 > 7:
        raise Refused(8, i)
    return i % 256, i // 256


class Stream:
    """A stream and a fresh finder of shift 3 that a whole walk has filled, as far as it goes."""

    def __init__(self, s):
        self.s = s
        try:
            self.low, self.high, size = places.header(s)
        except places.Refused as e:
            raise Refused(*e.args)
        self.held = [size] if self.high > self.low else []
        at, index = size, self.low
        while len(s) - at >= 2:
            length = struct.unpack_from("<H", s, at)[0]
            if length < 2 or len(s) - at - 2 < length:
                break
            at, index = at + 2 + length, index + 1
            d = index - self.low
            if d % 8 == 0 and d // 8 == len(self.held):
                self.held.append(at)

    def find(self, i):
        """01's `find`: the record's bytes; None is the marker."""
        if i < self.low:
            return None
        if i > self.high:
            raise Refused(8, i)
        d = i - self.low
        if d // 8 >= len(self.held):
            raise Refused(9, i, min(8 * len(self.held) + self.low - 1, 4294967295) if self.held else 0)
        p = self.held[d // 8]
        for passed in range(d % 8 + 1):
            if p + 2 > len(self.s) or p + 2 + struct.unpack_from("<H", self.s, p)[0] > len(self.s):
                raise Refused(1, passed)
            start, p = p + 2, p + 2 + struct.unpack_from("<H", self.s, p)[0]
        return self.s[start:p]

    def record(self, i, leaves):
        """The leaf and fields of record i, if its leaf is one of these: 24 if not, a record of fewer than two bytes being 1 before that."""
        data = self.find(i)
        if data is None:
            raise Refused(24)
        if len(data) < 2:
            raise Refused(1)
        leaf = struct.unpack_from("<H", data)[0]
        if leaf not in leaves:
            raise Refused(24)
        r = layouts.Reader(data, 2)
        if leaf == 0x1201:
            count = r.u(4)
            if len(data) - r.at < 4 * count:
                raise Refused(1)
            return leaf, [r.u(4) for _ in range(count)]
        fields = r.fields(leaf, layouts.RECORDS[leaf])
        if "name" in fields:
            at, n = fields["name"].split("+")
            fields["name"] = data[int(at):int(at) + int(n)]
        return leaf, fields

    def size(self, i, steps=THROUGH):
        """The size of a type, 0 where none is known: "sizes are looked for through at most 32 modifiers and enumerations; a refused size lookup is
        no known size"."""
        try:
            if i < FIRST:
                kind, by = primitive(i)
                return INDIRECTIONS[by][1] if by else KINDS[kind][1]
            leaf, r = self.record(i, PRINTED)
        except Refused:
            return 0
        if leaf in (0x1001, 0x1507):
            return self.size(r["t"], steps - 1) if steps else 0
        if leaf == 0x1002:
            n = r["word"] >> 13 & 63
            return n or {10: 4, 11: 4, 12: 8}.get(r["word"] % 32, 0)
        return r.get("size", 0)


class Walk:
    """"The walk goes from the outside inward, arguments left to right; the first met is given, and 19 exactly if the bytes that the walk has fixed pass
    the room before another is met.\""""

    def __init__(self, stream, room):
        self.stream, self.room, self.fixed, self.lookups = stream, room, 0, 0

    def fix(self, text):
        self.fixed += len(text)
        if self.fixed > self.room:
            raise Refused(19)
        return text

    def token(self, star, pending, left):
        """A pointer's token: its spelling, its qualifiers, and the space behind them."""
        words = " ".join(w for w in WORDS if w in pending)
        return self.fix((star + words + (" " if words and left else "")).encode()) + left

    def base(self, name, pending, left, right):
        words = "".join(w + " " for w in WORDS if w in pending).encode()
        return self.fix(words + name + (b" " if left or right else b"")) + left + right

    def visit(self, i, depth, left=b"", right=b"", under=False, pending=frozenset()):
        """The text of type i inside of what stands left and right."""
        if depth == 0:
            raise Refused(23)
        if i < FIRST:
            kind, by = primitive(i)
            if by:
                left, pending = self.token(INDIRECTIONS[by][0], pending, left), frozenset()
            return self.base(KINDS[kind][0].encode(), pending, left, right)
        self.lookups += 1
        leaf, r = self.stream.record(i, PRINTED)
        if leaf == 0x1001:
            own = frozenset(w for n, w in enumerate(WORDS[:3]) if r["flags"] >> n & 1)
            return self.visit(r["t"], depth - 1, left, right, under, pending | own)
        if leaf == 0x1002:
            own = frozenset(w for bit, w in ((10, WORDS[0]), (9, WORDS[1]), (11, WORDS[2]), (12, WORDS[3])) if r["word"] >> bit & 1)
            left = self.token(MODES[r["word"] >> 5 & 7], pending | own, left)
            return self.visit(r["t"], depth - 1, left, right, True)
        if leaf in TAGS:
            return self.base(r["name"], pending, left, right)
        if under:
            self.fix(b"()")
            left, right = b"(" + left, right + b")"
        if leaf == 0x1503:
            one = self.stream.size(r["elem"])
            length = str(r["size"] // one) if one and r["size"] % one == 0 else ""
            right += self.fix(b"[" + length.encode() + b"]")
            return self.visit(r["elem"], depth - 1, left, right, False, pending)
        right += self.fix(b"(")
        if r["args"] < FIRST:
            raise Refused(24)
        self.lookups += 1
        _, arguments = self.stream.record(r["args"], (0x1201,))
        for n, argument in enumerate(arguments):
            if n:
                right += self.fix(b", ")
            right += self.visit(argument, depth - 1)
        right += self.fix((b"" if arguments else b"void") + b")" + "".join(" " + w for w in WORDS if w in pending).encode())
        return self.visit(0 if r["ret"] == "-" else r["ret"], depth - 1, left, right)


def declared(s, i, room):
    """The text of type i in a room, or a Refused."""
    if len(s) > 4294967294:
        raise Refused(16)
    return Walk(Stream(s), room).visit(i, DEEPEST)


def line(words):
    """The answer to `declare ROOM BYTES INDEX`."""
    s = b"" if words[2] == "-" else bytes.fromhex(words[2])
    try:
        return "0 " + (declared(s, int(words[3]), int(words[1])).hex() or "-")
    except Refused as e:
        return " ".join(str(n) for n in e.args)


# ---- commands ----

def record(leaf, *parts):
    data = struct.pack("<H", leaf) + b"".join(parts)
    return struct.pack("<H", len(data)) + data


def u16(n):
    return struct.pack("<H", n)


def u32(n):
    return struct.pack("<I", n)


def modifier(t, flags):
    return record(0x1001, u32(t), u16(flags))


def pointer(t, word=0x1000c, *more):
    return record(0x1002, u32(t), u32(word), *more)


def array(t, size, name=b""):
    return record(0x1503, u32(t), u32(0x23), size if isinstance(size, bytes) else u16(size), name + b"\0")


def procedure(ret, arguments, count=0):
    return record(0x1008, u32(ret), b"\0\0", u16(count), u32(arguments))


def arglist(*types):
    return record(0x1201, u32(len(types)), *[u32(t) for t in types])


def klass(leaf, name, size=8, props=0):
    return record(leaf, u16(1), u16(props), u32(0), u32(0), u32(0), u16(size), name + b"\0")


def klass19(name, size=8):
    return record(0x1609, u32(0), u32(0), u32(0), u32(0), u16(1), u16(size), name + b"\0")


def union(name, size=8):
    return record(0x1506, u16(1), u16(0), u32(0), u16(size), name + b"\0")


def enumeration(t, name):
    return record(0x1507, u16(1), u16(0), u32(t), u32(0), name + b"\0")


def stream(*records, low=FIRST, high=None):
    body = b"".join(records)
    high = low + len(records) if high is None else high
    return struct.pack("<5I2H", 20040203, 56, low, high, len(body), 0, 0).ljust(56, b"\0") + body


def fixed_at_refusal(s, i):
    """How many bytes the walk has fixed when it is refused or done, with no limit on room."""
    walk = Walk(Stream(s), 1 << 40)
    try:
        walk.visit(i, DEEPEST)
    except Refused:
        pass
    return walk.fixed


def rooms(s, i):
    """Every room around what the walk fixes: 19 before and after each other refusal, and a text exactly fitting."""
    n = fixed_at_refusal(s, i)
    return sorted({0, 1, max(n - 2, 0), max(n - 1, 0), n, n + 1, 4096})


def command(room, s, i):
    return f"declare {room} {s.hex() or '-'} {i}"


# A record of every leaf that is not printed, of some leaves that are no type's, and of none.
OTHER = {0x1009: record(0x1009, u32(0x74), u32(FIRST), u32(0), b"\0\0", u16(0), u32(FIRST), u32(0)), 0x1205: record(0x1205, u32(0x74), b"\3\0"),
         0x000a: record(0x000a, u16(2), b"\5"), 0x1203: record(0x1203), 0x1206: record(0x1206), 0x1201: arglist(0x74),
         0x1601: record(0x1601, u32(0), u32(0x74), b"f\0"), 0x150d: record(0x150d, u16(3), u32(0x74), u16(0), b"m\0"), 0xffff: record(0xffff), 0x1012: record(0x1012)}
OTHER.update((leaf, record(leaf, writing.made(leaf)[2:])) for leaf in layouts.RECORDS if leaf not in PRINTED and leaf not in OTHER)


def leaves():
    """(name, records, index of the type) of every type that can be printed, and of some that cannot."""
    yield "primitive", [], 0x74
    yield "pointed", [], 0x0670
    yield "none", [], 0x0004
    yield "modifier", [modifier(0x74, 1)], FIRST
    yield "pointer", [pointer(0x74)], FIRST
    yield "array", [array(0x74, 12)], FIRST
    yield "procedure", [arglist(0x74), procedure(3, FIRST)], FIRST + 1
    for leaf in (0x1504, 0x1505, 0x1519):
        yield f"{leaf:04x}", [klass(leaf, b"S")], FIRST
    yield "1609", [klass19(b"S19")], FIRST
    yield "union", [union(b"U")], FIRST
    yield "enumeration", [enumeration(0x74, b"E")], FIRST
    yield "unnamed", [klass(0x1505, b"")], FIRST
    for leaf, data in OTHER.items():
        yield f"{leaf:04x}", [data], FIRST


def positions(before, t):
    """A stream for each position that type t can stand in, and the index to ask: alone, and under each kind of type."""
    n = FIRST + len(before)
    yield stream(*before), t
    for outer in (modifier(t, 7), pointer(t), pointer(t, 0x1000c | 1 << 5), pointer(t, 0x1000c | 4 << 5), pointer(t, 0x1000c | 2 << 5, u32(0x74)), pointer(t, 0x11c0c), array(t, 24)):
        yield stream(*before, outer), n
        yield stream(*before, outer, pointer(n)), n + 1
        yield stream(*before, outer, array(n, 48)), n + 1
    yield stream(*before, arglist(), procedure(t, n)), n + 1
    yield stream(*before, arglist(), procedure(t, n), pointer(n + 1)), n + 2
    yield stream(*before, arglist(t), procedure(0x74, n)), n + 1
    yield stream(*before, arglist(0x70, t, t), procedure(0x74, n), pointer(n + 1)), n + 2
    yield stream(*before, procedure(0x74, t)), n


def chain(n, last, wrap):
    """n records, each around the one behind it, the innermost around `last`; the outermost is the first."""
    return [wrap(FIRST + k + 1) for k in range(n - 1)] + [wrap(last)]


def examples():
    """The examples of 02's reading, by their texts."""
    pc = [modifier(0x70, 1), pointer(FIRST)]
    yield "int", stream(), 0x74
    yield "const int", stream(modifier(0x74, 1)), FIRST
    yield "int *const", stream(pointer(0x74, 0x1040c)), FIRST
    yield "const char *", stream(*pc), FIRST + 1
    yield "int [3]", stream(array(0x74, 12)), FIRST
    yield "int (*)[3]", stream(array(0x74, 12), pointer(FIRST)), FIRST + 1
    yield "int *[3]", stream(pointer(0x74), array(FIRST, 24)), FIRST + 1
    yield "int (*)(const char *, ...)", stream(*pc, arglist(FIRST + 1, 0), procedure(0x74, FIRST + 2), pointer(FIRST + 3)), FIRST + 4
    yield "void (*(int))(void)", stream(arglist(), procedure(3, FIRST), pointer(FIRST + 1), arglist(0x74), procedure(FIRST + 2, FIRST + 3)), FIRST + 4
    yield "int *const *", stream(pointer(0x74, 0x1040c), pointer(FIRST)), FIRST + 1
    yield "const int (*)[3]", stream(modifier(0x74, 1), array(FIRST, 12), pointer(FIRST + 1)), FIRST + 2
    yield "S &", stream(klass(0x1505, b"S"), pointer(FIRST, 0x1002c)), FIRST + 1
    yield "int ::*", stream(pointer(0x74, 0x1004c, u32(0x74))), FIRST
    yield "int *const[3]", stream(pointer(0x74, 0x1040c), array(FIRST, 24)), FIRST + 1
    yield "void (void) const volatile", stream(arglist(), procedure(3, FIRST), modifier(FIRST + 1, 3)), FIRST + 2
    yield "char *const volatile __unaligned __restrict *", stream(pointer(0x70, 0x11e0c), pointer(FIRST)), FIRST + 1
    yield "int __far32 *const &", stream(modifier(0x574, 1), pointer(FIRST, 0x1002c)), FIRST + 1
    yield "... (void)", stream(arglist(), procedure(0, FIRST)), FIRST + 1
    yield " *", stream(klass(0x1505, b""), pointer(FIRST)), FIRST + 1
    yield "", stream(klass(0x1505, b"")), FIRST


def commands():
    for text, s, i in examples():
        for room in (len(text) - 1, len(text), len(text) + 1):
            if room >= 0:
                yield command(room, s, i)
    # every leaf in every position
    for name, before, t in leaves():
        for s, i in positions(before, t):
            yield command(4096, s, i)
    # the 42 kinds and seven indirections, and bytes that are none
    for kind in sorted(KINDS):
        yield command(4096, b"", kind)
        yield command(4096, stream(array(kind, 64), pointer(FIRST)), FIRST + 1)
    for by in range(1, 8):
        yield command(4096, b"", by << 8 | 0x74)
        yield command(4096, stream(modifier(by << 8 | 0x70, 7), array(FIRST, 48), pointer(FIRST + 1)), FIRST + 2)
    yield from (command(4096, stream(), i) for i in (0x04, 0x0874, 0x0f03, 0xfff, 0xffff, FIRST, FIRST + 1))
    # depths 31, 32 and 33: of pointers, modifiers, arrays, procedures by their returns and by their arguments; an absent return counts
    for n in (30, 31, 32, 33):
        for wrap in (pointer, lambda t: modifier(t, 2), lambda t: array(t, 8)):
            yield command(4096, stream(*chain(n, 0x74, wrap)), FIRST)
            yield command(n, stream(*chain(n, 0x74, wrap)), FIRST)
        none = FIRST + n
        returns = [procedure(FIRST + k + 1, none) for k in range(n - 1)]
        yield command(4096, stream(*returns, procedure(3, none), arglist()), FIRST)
        yield command(4096, stream(*returns, procedure(0, none), arglist()), FIRST)
        arguments = [procedure(3, none + k) for k in range(n)] + [arglist(FIRST + k + 1) for k in range(n - 1)] + [arglist(0x74)]
        yield command(4096, stream(*arguments), FIRST)
    deep = stream(*chain(40, 0x74, pointer))
    for i in range(FIRST, FIRST + 40):
        yield command(33, deep, i)
    # unknown lengths: no size, a size of 0, one that does not divide, what is refused; and known ones through 31, 32 and 33 modifiers
    for element in (0x03, 0x00, 0x74, 0x42, 0x52, 0x0674, 0x0374):
        for size in (0, 1, 4, 8, 10, 20, 24, b"\x0a\x80" + struct.pack("<Q", 2 ** 64 - 1), b"\x0a\x80" + struct.pack("<Q", 2 ** 64 - 16), b"\x04\x80" + u32(2 ** 32 - 4)):
            yield command(4096, stream(array(element, size)), FIRST)
    inner = [klass(0x1505, b"S", 6), union(b"U", 6), klass19(b"T", 6), enumeration(0x73, b"E"), enumeration(FIRST + 9, b"F"), array(0x73, 6), arglist(), procedure(3, FIRST + 6),
             pointer(0x74, 0xc), pointer(0x74, 0x1c00c), pointer(0x74, 3), klass(0x1504, b"Z", 0), record(0x1205, u32(0x74), b"\3\0"), record(0x1505), enumeration(FIRST + 14, b"G"), modifier(FIRST, 1)]
    for k in range(len(inner)):
        for size in (24, 25):
            s = stream(*inner, array(FIRST + k, size))
            yield from (command(room, s, FIRST + len(inner)) for room in rooms(s, FIRST + len(inner)))
    for n in (31, 32, 33):
        for mixed in (False, True):
            wraps = [enumeration(FIRST + k + 1, b"E") if mixed and k % 2 else modifier(FIRST + k + 1, 0) for k in range(n - 1)] + [modifier(0x74, 0)]
            yield command(4096, stream(*wraps, array(FIRST, 12)), FIRST + n)
    # refusals: the lookup's with their details, the reader's, each with the rooms around
    part = [pointer(0x74), array(FIRST, 16), pointer(FIRST + 1)]
    bad = {
        "above the maximum": [pointer(FIRST + 99)], "the maximum": [pointer(FIRST + 4)], "cut": [record(0x1002, u32(0x74))], "no leaf": [struct.pack("<H", 1) + b"\2"],
        "empty": [struct.pack("<H", 0)], "word": [pointer(0x74, 0xd)], "mode": [pointer(0x74, 0x100ac)], "number": [record(0x1503, u32(0x74), u32(0x23), u16(0x8005), b"\0")],
        "negative": [record(0x1503, u32(0x74), u32(0x23), b"\x00\x80\xff\0")], "name": [record(0x1505, u16(0), u16(0), u32(0), u32(0), u32(0), u16(4), b"S")],
        "second name": [klass(0x1505, b"S", 4, 0x200)], "list": [procedure(0x74, FIRST)], "low list": [procedure(0x74, 0x74)], "bad low list": [procedure(0x74, 4)],
        "cut list": [procedure(0x74, FIRST + 4), record(0x1201, u32(3), u32(0x74))], "list above": [procedure(0x74, FIRST + 77)], "leaf": [record(0x1203)],
        "argument": [procedure(0x74, FIRST + 4), arglist(0x74, 0x04, FIRST + 90)], "return": [procedure(FIRST + 90, FIRST + 4), arglist(0x74, 0x670)],
        "void return": [procedure(FIRST + 3, FIRST + 4), arglist()],
    }
    for name, records in bad.items():
        last = [pointer(FIRST + 3), modifier(FIRST + 4 + len(records) - 1, 1), array(FIRST + 3, 4), pointer(FIRST + 3 + len(records) + 2)]
        s = stream(*part, *records, *last)
        for k in range(3, 3 + len(records) + len(last)):
            i = FIRST + k
            yield from (command(room, s, i) for room in rooms(s, i))
    long = stream(*[pointer(0x74)] * 20, pointer(FIRST + 30), high=FIRST + 40)
    yield from (command(4096, long, FIRST + i) for i in (19, 20, 21, 22, 23, 24, 25, 39, 40, 41))
    stopped = stream(*[pointer(0x74)] * 9, struct.pack("<H", 1) + b"\2", *[pointer(0x74)] * 9, high=FIRST + 19)
    yield from (command(4096, stopped, FIRST + i) for i in (8, 9, 10, 15, 16, 18))
    yield from (command(4096, long[:-n], FIRST + i) for n in (1, 5, 11) for i in (19, 20))
    high = stream(pointer(0x74), pointer(0x1234), low=0x2000)
    yield from (command(4096, high, i) for i in (0x74, 0xfff, 0x1000, 0x1fff, 0x2000, 0x2001, 0x2002, 0x2003, 4294967295))
    # streams that are refused, and one without a record
    yield from (command(4096, s, i) for s in (b"", stream()[:55], stream(low=4095), stream(low=5000, high=4999)) for i in (0x74, 0, FIRST))
    # arguments from left to right: the first refused of several, and the room that is passed before it
    s = stream(arglist(0x74, FIRST + 90, 0x04), procedure(0x04, FIRST), arglist(0x74, 0x04, FIRST + 90), procedure(FIRST + 90, FIRST + 2), arglist(FIRST + 90), pointer(FIRST + 1), pointer(FIRST + 3))
    for i in (FIRST + 1, FIRST + 3, FIRST + 5, FIRST + 6):
        yield from (command(room, s, i) for room in rooms(s, i))
    # a graph whose text would be endless
    for records in ([pointer(FIRST)], [modifier(FIRST, 1)], [array(FIRST, 4)], [procedure(FIRST, FIRST + 1), arglist(FIRST, FIRST)], [procedure(3, FIRST + 1), arglist(FIRST, FIRST, FIRST)]):
        yield from (command(room, stream(*records), FIRST) for room in (0, 1, 31, 32, 33, 64, 500, 4096))


def vectors():
    return [(c, line(c.split())) for c in dict.fromkeys(commands())]


def check():
    for text, s, i in examples():
        got = declared(s, i, len(text)).decode()
        assert got == text, (got, text)


def main():
    words = sys.argv[1:]
    if not words:
        print(__doc__)
        return 2
    check()
    if words[0] == "--vectors":
        with open(words[1], encoding="ascii") as f:
            there = set(f.read().split("\n"))
        new = [(c, said) for c, said in vectors() if c not in there]
        with open(words[1], "a", encoding="ascii") as f:
            f.writelines(f"{c}\n" for c, _ in new)
        with open(words[2], "a", encoding="ascii") as f:
            f.writelines(f"{said}\n" for _, said in new)
        print(len(new), "commands")
        return 0
    with open(words[0], "rb") as f:
        s = f.read()
    try:
        stream_of = Stream(s)
    except Refused as e:
        print("refused", e.args[0])
        return 0
    for i in [int(w) for w in words[1:]] or range(stream_of.low, stream_of.high):
        try:
            print(i, Walk(stream_of, 4096).visit(i, DEEPEST).decode("latin-1"))
        except Refused as e:
            print(i, "refused", e.args[0])
    return 0


if __name__ == "__main__":
    sys.exit(main())
