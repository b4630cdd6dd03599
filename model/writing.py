#!/usr/bin/env python3
"""Document 02's R-1 written again in Python, from its text alone: records and headers as bytes from their fields, and the commands `writeheader`,
`write`, `rewrite` and `rewriteid` of PROTOCOL.md. make_vectors.py holds the port's vectors to it. The layouts are those of layouts.py, which reads;
this is apart from the Rattle sources.

    writing.py --check                 what was written reads back by layouts.py, and rewriting it changes nothing
    writing.py write 100 1001 116 1 0 0
                                       the answer to a command

Where 02 leaves room, and what is taken here:

- A value that its field cannot hold is 17, since it would not read back: a number too wide for its field, a negative one where none is read, a number of
  more than 64 bits, a string where a number is wanted and the other way round, `-` where nothing is optional, a value too many or too few, a word that
  is no value at all. A flag of 0x1001 is 0 or 1.
- So is a leaf that no reader takes at that place: a record of leaf 1400, a member of leaf 1001.
- Of a header the order is 02's: 2 to 5, then 17, then 19. 17 is only for fields that are no number of their width, and for too many or too few.
- Optional values that are absent are written as 0, whatever was read as none (0xffff): so a record that held 0xffff comes back with 0.
"""
import os
import re
import sys

sys.path.insert(0, os.path.dirname(os.path.abspath(__file__)))
import layouts
from layouts import Refused

MOST_PAYLOAD = 65535
LENT = 65536
# "Ids: 0x1601 optional id, T, S. 0x1602 T, T, S. 0x1605 optional id, S. 0x1606 T, id, u32 line. 0x1607 T, string reference, u32 line, u16 module."
# I is an optional id; an id and a string reference are plain u32.
IDS = {
    0x1601: "scope:I t:T name:S",
    0x1602: "parent:T t:T name:S",
    0x1605: "sub:I name:S",
    0x1606: "udt:T file:u32 line:u32",
    0x1607: "udt:T file:u32 line:u32 module:u16",
}
# The lists that begin with a count, and its bytes: "0x1201 u32 count, then T each. 0x1603 u16 count, ids. 0x1604 u32 count, T each."
COUNTED = {0x1201: 4, 0x1603: 2, 0x1604: 4}
TYPE_LEAVES = list(layouts.RECORDS) + list(layouts.LISTS)
ID_LEAVES = sorted([*IDS, 0x1603, 0x1604])
HEADER = "version:u32 size:u32 minimum:u32 maximum:u32 gprec:u32 s1:u16 s2:u16 key:u32 bucket:u32 o1:i32 n1:u32 o2:i32 n2:u32 o3:i32 n3:u32"


# ---- the bytes of a field

def integer(word):
    """A decimal number, or 17."""
    if not re.fullmatch("-?[0-9]+", word):
        raise Refused(17)
    return int(word)


def plain(word, size, signed=False):
    """A number of so many bytes; 17 where it is none, or too wide."""
    try:
        return integer(word).to_bytes(size, "little", signed=signed)
    except OverflowError:
        raise Refused(17)


def optional(word, none):
    """"none is written as 0"; "a present index that reads as none" is 17."""
    if word == "-":
        return bytes(4)
    if integer(word) in none:
        raise Refused(17)
    return plain(word, 4)


def numeric(value):
    """"the shortest form that carries the number, unsigned before signed at equal length": every form is tried."""
    forms = [(2, False, value.to_bytes(2, "little"))] if 0 <= value < 0x8000 else []
    for prefix, (width, signed) in layouts.NUMBERS.items():
        try:
            forms.append((2 + width, signed, prefix.to_bytes(2, "little") + value.to_bytes(width, "little", signed=signed)))
        except OverflowError:
            pass
    if not forms:
        raise Refused(17)
    return min(forms)[2]


def run(word):
    """The bytes of `=` and hex, or 17."""
    if not re.fullmatch("=([0-9a-f]{2})*", word):
        raise Refused(17)
    return bytes.fromhex(word[1:])


def string(word):
    """"a string with a zero byte" is 17."""
    if 0 in run(word):
        raise Refused(17)
    return run(word) + b"\0"


def only_if(due, word, write):
    """A part that is there exactly if the fields before it say so: "a part whose flag or mode says otherwise" is 17."""
    if due == (word == "-"):
        raise Refused(17)
    return write(word) if due else b""


def pointer_class(mode, word):
    """"a pointer's class present outside modes 2 and 3 (absent in modes 2 and 3 it is written as 0; outside them nothing is written)"."""
    if mode in (2, 3):
        return optional(word, (0, 0xffff))
    if word != "-":
        raise Refused(17)
    return b""


def field(leaf, kind, word, before):
    """The bytes of one field of layouts.py's table from its value, where `before` has the values of the fields before it."""
    if kind in ("u8", "u16", "u32"):
        if leaf == 0x1002 and kind == "u32" and (integer(word) % 32 > 12 or integer(word) // 32 % 8 > 4):
            raise Refused(17)
        return plain(word, int(kind[1:]) // 8)
    if kind == "i32":
        return plain(word, 4, True)
    if kind == "half":
        return plain(word, 2) + bytes(2)
    if kind in ("A", "F", "T"):
        return plain(word, layouts.WIDTHS[kind])
    if kind == "O":
        return optional(word, (0, 0xffff))
    if kind == "I":
        return optional(word, (0,))
    if kind == "C":
        return pointer_class(int(before["word"]) // 32 % 8, word)
    if kind in ("N", "V"):
        if kind == "N" and integer(word) < 0:
            raise Refused(17)
        return numeric(integer(word))
    if kind == "S":
        return string(word)
    if kind == "S2":
        return only_if(int(before["props"]) // 0x200 % 2 == 1, word, string)
    if kind == "M":
        return only_if(int(before["a"]) // 4 % 8 in (4, 6), word, lambda w: plain(w, 4))
    if kind == "B":
        if len(run(word)) != (int(before["count"]) + 1) // 2:
            raise Refused(17)
        return run(word)
    raise AssertionError(kind)


def fields(leaf, layout, words, form=None):
    """The bytes of all fields from exactly their values, or with this form of each numeric leaf. "Fields that 01 doesn't name .. are zero"."""
    if leaf == 0x1001 and len(words) == 4:
        if not set(words[1:]) <= {"0", "1"}:
            raise Refused(17)
        words = [words[0], str(int(words[1]) + 2 * int(words[2]) + 4 * int(words[3]))]
    elif leaf == 0x1001:
        raise Refused(17)
    parts = layouts.fields_of(layout)
    if len(words) != sum(name[0] != "_" for name, _ in parts):
        raise Refused(17)
    words, before, out = list(words), {}, b""
    for name, kind in parts:
        word = "0" if name[0] == "_" else words.pop(0)
        out += form if form and kind == "N" else field(leaf, kind, word, before)
        before[name] = word
    return out


# ---- records

def pads(length):
    """"filled to a multiple of four bytes, length field counted, with pad bytes f3 f2 f1 counting down": what fills so many bytes."""
    return bytes(0xf0 + n for n in range(-length % 4, 0, -1))


def leaf_bytes(leaf):
    return leaf.to_bytes(2, "little")


def elements(words):
    """The words of each element, from those with a `/` before each."""
    split = [[]]
    for word in words:
        if word == "/":
            split.append([])
        else:
            split[-1].append(word)
    if split[0]:
        raise Refused(17)
    return split[1:]


def member(words):
    """A member's bytes and its leaf, without its pads."""
    if not words or not re.fullmatch("[0-9a-f]{4}", words[0]) or int(words[0], 16) not in layouts.MEMBERS:
        raise Refused(17)
    leaf = int(words[0], 16)
    return leaf, leaf_bytes(leaf) + fields(leaf, layouts.MEMBERS[leaf], words[1:])


def payload(leaf, words):
    """A record's payload with its pads; 17."""
    out = [leaf_bytes(leaf)]
    if leaf in COUNTED:
        # "A count is never cut to its field": elements that it cannot count are over 65,535 bytes, which `record` refuses.
        size = COUNTED[leaf]
        out.append(min(len(words), 256 ** size - 1).to_bytes(size, "little"))
        out.extend(plain(word, 4) for word in words)
    elif leaf == 0x1206:
        out.extend(fields(leaf, layouts.METHOD, words_of) for words_of in elements(words))
    elif leaf == 0x1203:
        ended = False
        for words_of in elements(words):
            which, data = member(words_of)
            if ended:
                raise Refused(17)
            ended = which == 0x1404
            # The first member starts at 4 and each after a filled one, so that what fills a member fills the record up to it.
            out.append(data + pads(len(data)))
    elif leaf in layouts.RECORDS or leaf in IDS:
        out.append(fields(leaf, layouts.RECORDS.get(leaf) or IDS[leaf], words))
    else:
        raise Refused(17)
    whole = b"".join(out)
    return whole + pads(2 + len(whole))


def record(leaf, words, room):
    """"17 fields that would not read back .., 18 over 65,535 payload bytes, pads counted, 19 buffer too small, in that order"."""
    data = payload(leaf, words)
    if len(data) > MOST_PAYLOAD:
        raise Refused(18)
    if room < 2 + len(data):
        raise Refused(19)
    return len(data).to_bytes(2, "little") + data


def header(words, room):
    """"Refusals: 2 to 5 for a header; 17 ..; 19 buffer too small, in that order"; "header bytes past 56, are zero"."""
    parts = [part.split(":") for part in HEADER.split()]
    if len(words) != len(parts):
        raise Refused(17)
    size, low, high = (integer(word) for word in words[1:4])
    for number, wrong in ((2, size < 56), (3, size > 1024), (4, low < 4096), (5, high < low)):
        if wrong:
            raise Refused(number)
    data = b"".join(field(None, kind, word, {}) for (_, kind), word in zip(parts, words))
    if room < size:
        raise Refused(19)
    return data + bytes(size - len(data))


# ---- reading, for `rewrite`

class IdReader(layouts.Reader):
    """layouts.py's reader, with the field that only ids have: "an optional id index is none at 0 only"."""

    def fields(self, leaf, layout):
        got = {}
        for part in layout.split():
            name, kind = part.split(":")
            if kind == "I":
                got[name] = self.u(4) or "-"
            else:
                got.update(super().fields(leaf, part))
        return got


def id_record(data):
    """The line of an id record, as `id` of PROTOCOL.md gives it. "A counted list is 1 unless four bytes per element are there.\""""
    r = IdReader(data)
    try:
        leaf = r.u(2)
        if leaf in (0x1603, 0x1604):
            count = r.u(COUNTED[leaf])
            if len(data) - r.at < 4 * count:
                raise Refused(1)
            return " ; ".join([f"0 {leaf:04x} count={count}"] + [str(r.u(4)) for _ in range(count)] + ["end 15"])
        if leaf not in IDS:
            raise Refused(10, leaf)
        return f"0 {leaf:04x} {layouts.shown(leaf, r.fields(leaf, IDS[leaf]))}"
    except Refused as e:
        return layouts.refusal(e)


def values(data, ids=False):
    """The leaf and the values of a record's payload as words of `write`, taken from its line; or the reader's refusal, an element's other than 15 too."""
    line = id_record(data) if ids else layouts.type_record(data)[0]
    head, *rest = line.split(" ; ")
    if not head.startswith("0 "):
        raise Refused(*(int(n) for n in line.split()))
    if rest and rest[-1] != "end 15":
        raise Refused(*(int(n) for n in rest[-1].split()[1:]))

    def word(text):
        part = re.fullmatch(r"(\d+)\+(\d+)", text)
        return "=" + data[int(part[1]):int(part[1]) + int(part[2])].hex() if part else text

    def shown(text):
        return {name: word(value) for name, _, value in (item.partition("=") for item in text.split())}

    leaf = int(head.split()[1], 16)
    if leaf in COUNTED:
        return leaf, rest[:-1]
    if leaf in (0x1203, 0x1206):
        out = []
        for element in rest[:-1]:
            first = element.split()[:1] if leaf == 0x1203 else []
            out += ["/"] + first + list(shown(" ".join(element.split()[len(first):])).values())
        return leaf, out
    got = shown(" ".join(head.split()[2:]))
    got.pop("kind", None)
    if leaf == 0x1609:
        return leaf, [got[name] for name in "props fields derived shape count size name unique".split()]
    return leaf, list(got.values())


# ---- as lines of PROTOCOL.md

def rewritten(data, ids=False):
    """A record's payload, read and written again into 65,536 lent bytes."""
    return record(*values(data, ids), LENT)


def answer(words):
    """The line of a command."""
    kind, n = words[0], words[1:]
    try:
        if kind == "writeheader":
            return "0 " + header(n[1:], int(n[0])).hex()
        if kind == "write":
            return "0 " + record(int(n[1], 16), n[2:], int(n[0])).hex()
        if kind in ("rewrite", "rewriteid"):
            return "0 " + rewritten(b"" if n[0] == "-" else bytes.fromhex(n[0]), kind == "rewriteid").hex()
    except Refused as e:
        return layouts.refusal(e)
    return None


# ---- commands for the vectors

# Good values; of the first of each leaf every field is varied. Those of a type leaf that is not here are made, behind this. Members and methods are given
# without their `/`.
GOOD = {
    0x1001: ["116 1 0 0", "4096 0 0 0", "0 1 1 1", "4294967295 0 1 0", "65535 0 0 1"],
    0x1002: ["116 76 4098", "116 65548 -", "4096 108 65534", "4096 76 -", "4096 108 -", "0 0 -", "4097 4294967084 -", "1 1048577 -"],
    0x1008: ["3 512 1 4097", "- 0 0 0", "4294967295 65535 65535 4294967295"],
    0x1009: ["3 4098 4100 1547 1 4097 4294967288", "0 0 - 0 0 0 0"],
    0x1205: ["116 3 5", "0 0 0", "4294967295 255 255"],
    0x1503: ["116 35 40 =6e6d", "4096 34 0 =", "4096 35 55997 ="],
    0x1504: ["1 512 4097 - 4099 10 =41 =42", "0 0 - - - 0 = -", "65535 65023 4097 4098 4099 4294967296 =414243 -", "1 65535 - - - 32768 = ="],
    0x1505: ["2 0 4097 4098 - 65280 =414243 -", "1 512 4097 - 4099 10 =41 =42", "0 128 - - - 0 =53 -"],
    0x1519: ["0 128 - - - 0 =49 -", "1 512 4097 - 4099 10 =41 =42", "3 0 65534 65536 1 65535 =4a -"],
    0x1609: ["512 4118 - - 2 6 =48 =49", "0 - - - 0 0 = -", "65535 4118 4119 4120 65535 18446744073709551615 =4142 =43"],
    0x1506: ["2 512 4097 4 =55 =56", "0 0 0 0 = -", "2 128 65535 32768 =5556 -"],
    0x1507: ["2 512 116 4097 =45 =46", "0 0 0 0 = -", "65535 128 4294967295 65535 =454647 -"],
    0x000a: ["3 =5505", "0 =", "1 =00", "2 =f5", "4 =0000", "5 =555500", "7 =00010203", "20 =55555555555555555555"],
    0x1601: ["4098 4097 =6667", "- 0 =", "65535 65535 =66", "4294967295 4294967295 =666768"],
    0x1602: ["4097 4098 =6d", "0 0 =", "65535 4294967295 =6d6e6f"],
    0x1605: ["4098 =73", "- =", "65535 =7374", "- =737475", "1 =73747576"],
    0x1606: ["4097 4098 7", "0 0 0", "4294967295 4294967295 4294967295"],
    0x1607: ["4097 5 7 3", "0 0 0 0", "4294967295 4294967295 4294967295 65535"],
}
# Of each kind a middling value, the smallest and the largest, for the leaves that have none by hand.
SAMPLES = {"u8": "3 0 255", "u16": "512 0 65535", "half": "512 0 65535", "u32": "7 0 4294967295", "T": "4097 0 4294967295", "O": "4098 - 4294967295",
           "N": "32768 0 18446744073709551615", "S": "=6162 = =616263", "S2": "=42 - =434445"}


def samples(layout):
    """Good values of a layout by the kinds of its fields: the middling ones of all, the smallest, the largest."""
    return [" ".join(row) for row in zip(*(SAMPLES[kind].split() for name, kind in layouts.fields_of(layout) if name[0] != "_"))]


MADE = {leaf: samples(layout) for leaf, layout in layouts.RECORDS.items() if leaf not in GOOD}


def made(leaf, form=None):
    """The payload of a leaf's first good values, without pads, or with this form of its numeric leaves."""
    return leaf_bytes(leaf) + fields(leaf, layouts.RECORDS[leaf], {**GOOD, **MADE}[leaf][0].split(), form)


def least(leaf, *indices):
    """A payload with these indices at its references, and the least value in every other field."""
    given, least_of = iter(indices), {**layouts.WIDTHS, "C": 0, "N": 2, "S": 1, "S2": 0, "B": 0}
    kinds = [kind for _, kind in layouts.fields_of(layouts.RECORDS[leaf])]
    return leaf_bytes(leaf) + b"".join(next(given).to_bytes(4, "little") if kind in ("T", "O") else bytes(least_of[kind]) for kind in kinds)


GOOD_MEMBERS = {
    0x1400: ["3 4097 4294967296", "0 0 0", "65535 4294967295 32767"],
    0x1401: ["3 4097 4098 4 2048", "0 0 0 0 0", "3 4097 4098 32768 65536"],
    0x1402: ["3 4097 4098 4 12", "0 0 0 0 0", "3 4097 4098 65535 18446744073709551615"],
    0x1404: ["4098", "0", "4294967295"],
    0x1409: ["4097", "0", "4294967295"],
    0x1502: ["3 -1 =61", "3 0 =", "0 -129 =6162", "65535 -9223372036854775808 =616263"],
    0x150d: ["3 116 65536 =6d", "0 0 0 =", "3 116 4 =6d6e"],
    0x150e: ["3 116 =73", "0 0 =", "3 65535 =737475"],
    0x150f: ["2 4097 =6d", "0 0 =", "65535 4294967295 =6d6e"],
    0x1510: ["3 4097 =6e", "0 0 =", "65535 4097 =6e6f70"],
    0x1511: ["19 4097 24 =6e", "3 4097 - =6e", "27 4097 4294967295 =6e6f", "16 0 0 ="],
}
METHODS = ["3 4097 -", "19 4098 16", "27 4098 4294967295", "0 0 -", "65535 4294967295 -", "24 0 0"]
ELEMENTS = {0x1201: ["116 4097", "", "0", "65535 4294967295 0"], 0x1603: ["4097 4098", "", "0", "65535 4294967295 0"],
            0x1604: ["4097 4098", "", "0", "65535 4294967295 0"]}
BOUNDS = [b + d for e in (7, 8, 15, 16, 31, 32, 63, 64) for b in (1 << e, -(1 << e)) for d in (-1, 0)]


# For a field of each kind: values on both sides of its bounds, and values of other kinds. The first field of a kind gets all, a later one those that are
# listed behind the bar.
OTHERS = {
    "bit": "0 1 -1 =01 | 2 -",
    "u8": "0 255 -1 18446744073709551615 | 256 - =74",
    "u16": "0 65535 -1 18446744073709551615 =74 | 65536 -",
    "u32": "0 4294967295 -1 18446744073709551615 - | 4294967296 =74",
    "T": "0 65535 4294967295 -1 18446744073709551616 =74 | 4294967296 -",
    "O": "1 65534 65536 4294967295 4294967296 -1 18446744073709551616 = | - 0 65535",
    "I": "1 65534 65535 65536 4294967295 4294967296 -1 =74 | - 0",
    "N": " ".join(str(n) for n in BOUNDS if n > 0) + " 0 5 -9223372036854775809 =05 | 32768 4294967296 18446744073709551616 -1 -",
    "V": " ".join(str(n) for n in BOUNDS) + " 0 5 -9223372036854775809 - =05 |",
    "S": "=41 =414243 =41424344 =f1 =fff3f2f1 =00 =410042 0 | = =4142 =0041 =4100 - 65",
    "B": "= =55 =555555 =0000 - 5 |",
}
OTHERS.update({"half": OTHERS["u16"], "A": OTHERS["u16"], "C": OTHERS["O"], "M": OTHERS["u32"], "S2": "0 =414243 =0041 | = =4200 -"})


def varied(leaf, layout, words, met):
    """The good values with one of them replaced; one too few, at either end; one too many. `met` has the kinds of field that had all of OTHERS."""
    kinds = ["T", "bit", "bit", "bit"] if leaf == 0x1001 else [part.split(":")[1] for part in layout.split() if part[0] != "_"]
    for k, kind in enumerate(kinds):
        once, always = OTHERS[kind].split("|")
        for other in ("" if kind in met else once).split() + always.split():
            yield words[:k] + [other] + words[k + 1:]
        met.add(kind)
    yield words[:-1]
    yield words[1:]
    yield words + ["-"]


def write_line(leaf, words, room=70000):
    return " ".join(["write", str(room), f"{leaf:04x}", *words])


def good_records():
    """Leaf and values of records that are written: of every leaf, every member alone, and lists of several."""
    for leaf, all_values in {**GOOD, **ELEMENTS}.items():
        yield from ((leaf, text.split()) for text in all_values)
    yield 0x1206, []
    yield from ((0x1206, ["/", *text.split()]) for text in METHODS)
    yield 0x1206, " ".join(f"/ {text}" for text in METHODS).split()
    yield 0x1203, []
    for leaf, all_values in GOOD_MEMBERS.items():
        yield from ((0x1203, ["/", f"{leaf:04x}", *text.split()]) for text in all_values)
    # every member before and behind another, with every number of pads between
    for leaf, all_values in GOOD_MEMBERS.items():
        for name in ("=", "=61", "=6162", "=616263"):
            ahead = f"/ 150e 3 116 {name} / {leaf:04x} {all_values[0]}"
            yield 0x1203, (ahead if leaf == 0x1404 else f"{ahead} / 1510 0 4097 {name}").split()
    everything = [f"/ {leaf:04x} {text}" for leaf, all_values in GOOD_MEMBERS.items() if leaf != 0x1404 for text in all_values]
    yield 0x1203, " ".join(everything + ["/ 1404 4100"]).split()
    yield from ((leaf, text.split()) for leaf, all_values in MADE.items() for text in all_values)


def refused_records():
    """Leaf and values of records that are 17, or stand beside one that is: every case that 02 and its reading name, and values that no field holds."""
    met = set()
    for leaf, all_values in {**GOOD, **MADE}.items():
        yield from ((leaf, words) for words in varied(leaf, layouts.RECORDS.get(leaf) or IDS[leaf], all_values[0].split(), met))
    met -= {"S", "T"}
    for leaf, all_values in GOOD_MEMBERS.items():
        for words in varied(leaf, layouts.MEMBERS[leaf], all_values[0].split(), met):
            yield 0x1203, ["/", f"{leaf:04x}", *words]
    for words in varied(0x1206, layouts.METHOD, METHODS[1].split(), met):
        yield 0x1206, ["/", *words]
    # elements of the counted lists
    for leaf in COUNTED:
        for bad in ("4294967296", "-1", "-", "=74"):
            yield from ((leaf, words) for words in ([bad, "4096"], ["4096", bad]))
    # a pointer's kinds and modes, each with a class and without
    for word in [*range(32), *(32 * mode + 12 for mode in range(1, 8)), 13 + 64, 31 + 96, 32 * 5, 32 * 7 + 31, 0xffffff00 + 2 * 32]:
        for other in ("-", "4098"):
            yield 0x1002, ["116", str(word), other]
    # the offset of a method by its property, among other bits
    for mprop in range(8):
        for other in ("-", "24"):
            for rest in (3, 0xffe3):
                yield 0x1206, ["/", str(4 * mprop + rest), "4097", other]
                yield 0x1203, ["/", "1511", str(4 * mprop + rest), "4097", other, "=6e"]
    # the second string by its flag, among other bits
    for props in (0, 0x200, 0xfdff, 0xffff):
        for unique in ("-", "=", "=42"):
            for leaf in (0x1504, 0x1505, 0x1519):
                yield leaf, ["1", str(props), "4097", "-", "-", "8", "=41", unique]
            yield 0x1609, [str(props), "4097", "-", "-", "1", "8", "=41", unique]
            yield 0x1506, ["1", str(props), "4097", "8", "=41", unique]
            yield 0x1507, ["1", str(props), "116", "4097", "=41", unique]
    # slots that are not (count + 1)/2 bytes
    for count in (0, 1, 2, 3, 4, 65535):
        for n in (0, 1, 2, 3):
            yield 0x000a, [str(count), "=" + "55" * n]
    # anything after a continuation; lists that are none
    end = ["/", "1404", "4098"]
    for leaf, all_values in GOOD_MEMBERS.items():
        yield 0x1203, [*end, "/", f"{leaf:04x}", *all_values[0].split()]
        yield 0x1203, ["/", "150e", "3", "116", "=73", *end, "/", f"{leaf:04x}", *all_values[0].split(), *end]
    yield from ((0x1203, words) for words in ([*end, "/"], ["/"], ["/", "/"], ["1404", "4098"], ["150e", "3", "116", "=73", *end], ["/", *end],
                                              ["/", "150e", "3", "116", "=00", *end], [*end, "/", "150e", "3", "116", "=00"], ["-"]))
    yield from ((0x1206, words) for words in (["/"], ["3", "4097", "-"], ["/", "3", "4097", "-", "/"], ["/", "3", "4097", "-", "/", "3", "4097", "24"]))
    # 17 of the last element of some
    good = "/ 3 4097 - / 19 4098 16".split()
    yield from ((0x1206, good + bad) for bad in (["/", "19", "4098", "-"], ["/", "3", "4098", "16"], ["/", "65536", "4098", "-"]))
    # leaves that no reader takes there, and a word that is no value
    yield from ((leaf, ["0"]) for leaf in (0x1000, 0x1404, 0x1409, 0x1600, 0x1608, 0xffff))
    yield from ((0x1203, ["/", leaf, "0"]) for leaf in ("1001", "1203", "1403", "1605", "ffff"))
    yield from ((0x1605, ["-", word]) for word in ("=4", "=4g", "41", "x", "--", "/"))
    yield from ((leaf, words) for leaf in COUNTED for words in (["x"], ["7x"], ["7", "8x"], ["7", "x", "8"], ["7,8"], ["+7"]))
    yield from ((0x1606, words) for words in (["0", "0", "0x"], ["0", "x", "0"], ["0x", "0", "0"]))


def header_commands():
    """The headers: 2, 3, 4, 5, 19, and the order of every pair; sizes; the bounds of every field."""
    e = "20040203 56 4096 4098 22 0 0 0 0 0 0 0 0 0 0".split()

    def line(room, *changed):
        words = list(e)
        for at, word in changed:
            words[at] = str(word)
        return " ".join(["writeheader", str(room), *words])

    for size in (56, 57, 60, 1024):
        yield from (line(room, (1, size)) for room in (0, 55, 56, size - 1, size, size + 1, 70000))
    yield from (line(room, (1, size)) for size in (0, 55, 1025, 4294967295) for room in (0, 70000))
    # every pair: a size that is 2 or 3, a minimum that is 4, a maximum that is 5, no room
    for size in (55, 1025, 56):
        for low, high in ((4095, 4096), (4095, 4094), (4096, 4095), (4096, 4096), (4294967295, 4294967294), (4294967295, 4294967295), (0, 0)):
            yield from (line(room, (1, size), (2, low), (3, high)) for room in (0, 1025))
    yield from (f"writeheader {room} " + " ".join(["0"] * 15) for room in (0, 56))
    yield "writeheader 60 20040203 60 4096 4098 22 9 65535 4 262143 -1 4 -2147483648 8 2147483647 12"
    for at, part in enumerate(HEADER.split()):
        kind = part.split(":")[1]
        bits = int(kind[1:])
        low, high = (-(1 << bits - 1), (1 << bits - 1) - 1) if kind[0] == "i" else (0, (1 << bits) - 1)
        if at not in (1, 2):
            yield from (line(56, (at, n)) for n in (low, high))
        # too wide, where no other refusal is near
        if at not in (1, 2, 3):
            yield from (line(56, (at, n)) for n in (low - 1, high + 1, "-"))
    yield " ".join(["writeheader", "56", *e[:-1]])
    yield " ".join(["writeheader", "56", *e, "0"])


def long_commands():
    """18: payloads of 65,534, 65,535 and 65,536 bytes and more, and 17 before it and 19 after it. Lists have the shorter lines."""
    def text(n):
        return "=" + "41" * n

    # a string: 65,534 bytes, and 65,535, which would be 65,538 with their pads
    yield write_line(0x1605, ["-", text(65527)], 65536)
    yield write_line(0x1605, ["-", text(65528)])
    # 17 before 18
    yield write_line(0x1605, ["0", text(65528)])
    # four bytes an element: 16,382 are 65,534 bytes, and 65,532 with a count of two
    most, more = ["0"] * 16382, ["0"] * 16383
    yield write_line(0x1201, most, 65536)
    yield from (write_line(leaf, more) for leaf in COUNTED)
    yield write_line(0x1603, ["0"] * 65536)
    # 19 at the longest, 18 before 19, 17 before both
    yield write_line(0x1201, most, 65535)
    yield write_line(0x1201, more, 0)
    yield write_line(0x1604, more, 65535)
    yield from (write_line(0x1201, more[:-1] + [bad], room) for bad, room in (("-", 70000), ("4294967296", 0)))
    yield write_line(0x1603, ["-1"] + more[:-1], 0)
    # methods of 8 bytes; members of 8 and one of 12, to 65,534 bytes exactly and one member more
    methods = ["/", "0", "0", "-"] * 8192
    yield write_line(0x1206, methods)
    yield write_line(0x1206, methods + ["/", "16", "0", "-"], 0)
    members = ["/", "1409", "0"] * 8190
    yield write_line(0x1203, members + ["/", "1400", "0", "0", "0"], 65536)
    yield write_line(0x1203, members + ["/", "1400", "0", "0", "0", "/", "1404", "0"], 0)
    yield write_line(0x1203, ["/", "1404", "0"] + members + ["/", "1400", "0", "0", "0"])
    # read and written again: 65,535 bytes, which their pads make too long; bytes after the last field, which make no record long; members that their pads
    # make too long
    string_record = b"\x05\x16" + bytes(4)
    yield f"rewriteid {(string_record + b'A' * 65527 + bytes(1)).hex()}"
    yield f"rewriteid {(string_record + b'A' * 65528 + bytes(1)).hex()}"
    yield f"rewriteid {(string_record + b'A' + bytes(65529)).hex()}"
    yield f"rewrite {(leaf_bytes(0x1203) + (leaf_bytes(0x150e) + bytes(7)) * 5500).hex()}"


def rewrite_commands(types, ids):
    """Records that are read and written again: as given, cut, with bytes after the last field, with every longer form of their numbers, with members
    unfilled and filled otherwise, with fields that 01 does not name, and those that a reader refuses."""
    for kind, records in (("rewrite", types), ("rewriteid", ids)):
        for data in records:
            yield from (f"{kind} {(data + rest).hex()}" for rest in (b"", b"\xf3\xf2\xf1", b"\0", b"A"))
            yield f"{kind} {data[:-1].hex()}"
        # what the other reader takes, and what none does
        yield from (f"{kind} {data}" for data in ("-", "01", "0110", "0516", "001000000000", "ffff0000"))
    yield from (f"rewrite {data.hex()}" for data in ids)
    yield from (f"rewriteid {data.hex()}" for data in types[::3])
    # numbers in every form, here as the size of an array and an enumerator's number
    for value in [0, 5, -1, -128, -129, 127, 255, 0x7fff, 0x8000, 0xffff, 0x10000, (1 << 31) - 1, 1 << 31, -(1 << 31), 1 << 32, -(1 << 63), (1 << 64) - 1]:
        for prefix, (width, signed) in layouts.NUMBERS.items():
            try:
                form = (prefix.to_bytes(2, "little") + value.to_bytes(width, "little", signed=signed)).hex()
            except OverflowError:
                continue
            if value >= 0:
                yield f"rewrite 03157400000023000000{form}6100"
            yield f"rewrite 031202150300{form}6100"
    for form in ("0280 0500", "0480 05000000", "0980 0500000000000000", "0a80 0500000000000000", "0080 05", "0080 ff", "0180 ffff", "0b80 00", "0580 00000000"):
        form = form.replace(" ", "")
        yield from (f"rewrite {leaf}01000000000000000000000000000000{form}4100" for leaf in ("0415", "0515", "1915"))
        yield f"rewrite 06150100000200100000{form}41004200"
        yield f"rewrite 0916000200000000000000000000000000000100{form}41004200"
        yield f"rewrite 03120014030074100000{form}"
        yield f"rewrite 0312011403007410000075100000{form}{form}f1"
        yield f"rewrite 0312021403007410000075100000{form}{form}"
        yield f"rewrite 03120d15030074100000{form}4100f1021503000080ff6200"
        yield from (f"rewrite {made(leaf, bytes.fromhex(form)).hex()}" for leaf in MADE)
    # indices that read as none; flags, halves and words that no field is
    for none in ("00000000", "ffff0000"):
        yield f"rewrite 0210740000004c000100{none}"
        yield f"rewrite 0810{none}0002010001100000"
        yield f"rewrite 09100300000002100000{none}0b06010001100000f8ffffff"
        yield f"rewrite 041501000000{none}{none}{none}00004100"
        yield f"rewrite 091600000000{none}{none}{none}010000004100"
        yield from (f"rewriteid {leaf}{none}{rest}" for leaf, rest in (("0116", "011000006600"), ("0516", "7300")))
        yield from (f"rewrite {least(leaf, *[int.from_bytes(bytes.fromhex(none), 'little')] * 9).hex()}" for leaf in MADE)
    yield from (f"rewrite {data}" for data in (
        "0110740000000700", "011074000000ffff", "011074000000f8ff", "0210740000004c000100021000000200", "0210740000000c0001000210", "0210000000000d000000",
        "021000000000ac000000", "0916000201001610000000000000000000000200060048004900", "0916ffffffff1610000000000000000000000200060048004900",
        "061203000100011000001300020002100000", "06120300010001100000130002000210000010000000", "06120300ffff01100000", "0312041401000210", "031204140100021000000d15", "0312041401000210000003120000",
        "03120914ffff01100000", "0a00030055050000", "0a0003005505f2f1", "0112020000007400000001100000ffff", "0112ffffffff"))
    # members unfilled, filled otherwise, with pads at the end of the record or without, cut and unknown ones
    first, second = "0e15030074000000", "10150000011000006e00"
    for name in ("00", "6100", "616200", "61626300"):
        for between in ("", "f1", "f2f1", "f3f2f1", "f0", "f0f0f0", "f5f1f2f3f4", "00", "f2"):
            yield f"rewrite 0312{first}{name}{between}{second}"
        yield from (f"rewrite 0312{first}{name}{behind}" for behind in ("", "f1", "f3f2f1", "f2", "ff", "00", "0110"))
    yield "rewrite 0312f1" + first + "6100"


def write_commands(types, ids):
    """The commands of R-1, with these payloads of good type and id records to be written again."""
    good = list(good_records())
    for leaf, words in good:
        yield write_line(leaf, words)
    for leaf, words in refused_records():
        yield write_line(leaf, words)
    # each case of 17 by its name, and beside it what is written
    yield from (f"write 100 {values}" for _, bad, near in SEVENTEEN for values in (bad, near))
    # 19 for every room up to the record's length and one more
    for leaf, text in ((0x1001, GOOD[0x1001][0]), (0x1504, GOOD[0x1504][0]), (0x1605, "- =7374"), (0x1603, "4097 4098"), (0x1206, f"/ {METHODS[1]} / {METHODS[0]}"),
                       (0x1203, "/ 1502 3 -1 =61 / 150e 3 116 =7374"), (0x1203, ""), (0x000a, "3 =5505")):
        whole = len(record(leaf, text.split(), LENT))
        yield from (write_line(leaf, text.split(), room) for room in range(whole + 2))
    # the same of every leaf and member; 17 before 19: one value too few
    for leaf, words in [(leaf, all_values[0].split()) for leaf, all_values in {**GOOD, **MADE, **ELEMENTS}.items()] + \
            [(0x1203, ["/", f"{leaf:04x}", *all_values[0].split()]) for leaf, all_values in GOOD_MEMBERS.items()]:
        whole = len(record(leaf, words, LENT))
        yield from (write_line(leaf, words, room) for room in range(whole + 1))
        if leaf not in COUNTED:
            yield write_line(leaf, words[:-1], 0)
    for leaf, words in refused_records():
        if leaf in (0x000a, 0x1206) or words[:2] == ["/", "1404"]:
            yield write_line(leaf, words, 3)
    yield from header_commands()
    yield from long_commands()
    yield from rewrite_commands(types, ids)
    # what was written, read and written again
    for leaf, words in good[::2]:
        yield f"{'rewriteid' if leaf in ID_LEAVES else 'rewrite'} {record(leaf, words, LENT)[2:].hex()}"


# ---- checks of this file

# By hand, from 02's words.
EXAMPLES = [
    ("write 12 1001 116 1 0 0", "0 0a000110740000000100f2f1"), ("write 11 1001 116 1 0 0", "19"), ("write 0 1001 116 2 0 0", "17"),
    ("write 99 1002 4096 65548 -", "0 0a000210001000000c000100"), ("write 99 1002 4096 65548 4098", "17"), ("write 99 1002 4096 65549 -", "17"),
    ("write 99 1002 4096 76 -", "0 0e000210001000004c00000000000000"), ("write 99 1002 4096 76 65535", "17"),
    ("write 99 1605 - =", "0 0a000516000000" + "0000" + "f3f2f1"), ("write 99 1605 0 =", "17"), ("write 99 1605 65535 =4142", "0 0a000516ffff0000" + "414200" + "f1"),
    ("write 99 1503 116 35 32767 =", "0 0e000315" + "7400000023000000" + "ff7f" + "00" + "f1"), ("write 99 1503 116 35 -1 =", "17"),
    ("write 99 1503 116 35 32768 =", "0 12000315" + "7400000023000000" + "02800080" + "00" + "f3f2f1"),
    ("write 99 1203 / 1502 3 -1 =61 / 1502 3 65536 =62", "0 1a000312" + "021503000080ff6100f3f2f1" + "021503000480000001006200"),
    ("write 99 1203 / 1404 4097 / 1404 4097", "17"), ("write 99 1203", "0 02000312"), ("write 99 1603", "0 060003160000f2f1"),
    ("write 99 1609 0 - - - 1 4 =53 -", "0 1a00091600000000" + "00" * 12 + "0100" + "0400" + "5300" + "f2f1"),
    ("rewrite 0110740000000100", "0 0a000110740000000100f2f1"), ("rewrite 0315740000002300000002800500", "1"), ("rewriteid 0110", "10 4097"),
    ("rewrite 031574000000230000000280050000", "0 0e0003157400000023000000050000f1"), ("rewrite 03120110", "10 4097"),
]

# Each case of 17 that 02 and its reading name, and beside it the nearest values that are written.
SEVENTEEN = [
    ("a string with a zero byte", "1605 - =4100", "1605 - =41"), ("in a second string", "1506 1 512 0 0 =41 =0042", "1506 1 512 0 0 =41 =42"),
    ("in a member's", "1203 / 150e 3 116 =00", "1203 / 150e 3 116 ="), ("an optional type 0", "1008 0 0 0 0", "1008 - 0 0 0"),
    ("an optional type 0xffff", "1008 65535 0 0 0", "1008 65534 0 0 0"), ("an optional id 0", "1601 0 0 =41", "1601 65535 0 =41"),
    ("a second string without 0x0200", "1507 0 0 0 0 =41 =42", "1507 0 0 0 0 =41 -"), ("none with it", "1609 512 - - - 0 0 =41 -", "1609 512 - - - 0 0 =41 ="),
    ("a class outside modes 2 and 3", "1002 116 44 4098", "1002 116 76 4098"), ("in mode 4", "1002 116 140 4098", "1002 116 140 -"),
    ("a class that reads as none", "1002 116 76 0", "1002 116 108 -"), ("pointer kind 13", "1002 116 13 -", "1002 116 12 -"),
    ("kind 31", "1002 116 31 -", "1002 116 0 -"), ("mode 5", "1002 116 172 -", "1002 116 140 -"), ("mode 7", "1002 116 236 -", "1002 116 256 -"),
    ("an offset without property 4 or 6", "1206 / 20 0 8", "1206 / 16 0 8"), ("none with 4", "1206 / 16 0 -", "1206 / 12 0 -"),
    ("none with 6", "1203 / 1511 24 0 - =", "1203 / 1511 28 0 - ="), ("after a continuation", "1203 / 1404 0 / 1409 0", "1203 / 1409 0 / 1404 0"),
    ("a number below -2^63", "1203 / 1502 0 -9223372036854775809 =", "1203 / 1502 0 -9223372036854775808 ="),
    ("a number above 64 bits", "1203 / 1502 0 18446744073709551616 =", "1203 / 1502 0 18446744073709551615 ="),
    ("a negative size", "1504 0 0 - - - -1 = -", "1504 0 0 - - - 0 = -"), ("a negative offset", "1203 / 1400 0 0 -1", "1203 / 1400 0 0 1"),
    ("a negative second offset", "1203 / 1402 0 0 0 0 -1", "1203 / 1402 0 0 0 0 1"), ("slots too few", "000a 3 =55", "000a 3 =5505"),
    ("slots too many", "000a 2 =5505", "000a 2 =00"), ("a number too wide", "1205 0 256 0", "1205 0 255 0"),
    ("a value too many", "1606 0 0 0 0", "1606 0 0 0"), ("too few", "1606 0 0", "1606 0 0 1"), ("a string for a number", "1201 =74", "1201 74"),
    ("a flag of 2", "1001 0 2 0 0", "1001 0 0 1 0"),
]


def random_values(rng, leaf, layout):
    """Good values for a layout, the parts that a flag or mode asks for there exactly then."""
    words = {}

    def wide(size):
        return rng.choice([0, 1, 256 ** size - 1, rng.randrange(256 ** size), rng.randrange(256)])

    for part in layout.split():
        name, kind = part.split(":")
        if name[0] == "_":
            continue
        if leaf == 0x1001 and name == "flags":
            words.update((f, rng.choice("01")) for f in ("const", "volatile", "unaligned"))
            continue
        text = bytes(rng.randrange(1, 256) for _ in range(rng.randrange(9)))
        number = rng.choice([rng.randrange(1 << rng.randrange(1, 65)), rng.choice([1 << e for e in range(64)]) - rng.randrange(2)])
        if kind in ("u8", "u16", "u32", "half", "A", "T"):
            word = wide({"u8": 1, "u32": 4, "T": 4}.get(kind, 2))
            if leaf == 0x1002 and name == "word":
                word = word // 256 * 256 + 32 * rng.randrange(5) + rng.randrange(13)
        elif kind in ("O", "I", "C"):
            word = rng.choice(["-", 1, 65534, 65536, 4294967295] + ([65535] if kind == "I" else []))
            word = word if kind != "C" or int(words["word"]) // 32 % 8 in (2, 3) else "-"
        elif kind in ("N", "V"):
            word = number if kind == "N" or rng.random() < 0.5 else -(number // 2) - rng.randrange(2)
        elif kind == "S" or kind == "S2" and int(words["props"]) & 0x200:
            word = "=" + text.hex()
        elif kind == "M" and int(words["a"]) >> 2 & 7 in (4, 6):
            word = wide(4)
        elif kind == "B":
            word = "=" + bytes(rng.randrange(256) for _ in range((int(words["count"]) + 1) // 2)).hex()
        else:
            word = "-"
        words[name] = str(word)
    return list(words.values())


def random_records(rng, turns):
    """Leaf and good values of records of every leaf."""
    for _ in range(turns):
        for leaf, layout in {**layouts.RECORDS, **IDS}.items():
            yield leaf, random_values(rng, leaf, layout)
        for leaf in COUNTED:
            yield leaf, [str(rng.randrange(1 << 32)) for _ in range(rng.randrange(6))]
        yield 0x1206, [w for _ in range(rng.randrange(6)) for w in ["/", *random_values(rng, 0x1206, layouts.METHOD)]]
        words = []
        for leaf in rng.choices([m for m in layouts.MEMBERS if m != 0x1404], k=rng.randrange(9)) + rng.choice([[], [0x1404]]):
            words += ["/", f"{leaf:04x}", *random_values(rng, leaf, layouts.MEMBERS[leaf])]
        yield 0x1203, words


def fills(data, at):
    """Whether the bytes from a place on that are pads fill to four, counting down; the place behind them. A payload's place 2 is place 4 of its record."""
    due = -(at + 2) % 4
    return data[at:at + due] == b"\xf3\xf2\xf1"[3 - due:], at + due


def faults(leaf, words):
    """What is wrong with a written record, by reading it with layouts.py."""
    ids = leaf in ID_LEAVES
    whole = record(leaf, words, LENT)
    data = whole[2:]
    if int.from_bytes(whole[:2], "little") != len(data) or len(data) % 2 or len(whole) % 4:
        yield "length"
    if values(data, ids) != (leaf, words):
        yield f"reads back as {values(data, ids)}"
    if rewritten(data, ids) != whole:
        yield "written again it is other bytes"
    if not ids and re.search(r"/1( |$)", layouts.type_record(data, True)[0]):
        yield "a number has a shorter form"
    r = (IdReader if ids else layouts.Reader)(data, 2)
    good = True
    if leaf == 0x1203:
        for _ in elements(words):
            which = r.u(2)
            r.fields(which, layouts.MEMBERS[which])
            filled, r.at = fills(data, r.at)
            good = good and filled
    elif leaf == 0x1206:
        for _ in elements(words):
            r.fields(leaf, layouts.METHOD)
    elif leaf in COUNTED:
        r.take(COUNTED[leaf] + 4 * len(words))
    else:
        r.fields(leaf, layouts.RECORDS.get(leaf) or IDS[leaf])
    filled, end = fills(data, r.at)
    if not (good and filled and end == len(data)):
        yield "pads"
    for room in (0, len(whole) - 1):
        try:
            record(leaf, words, room)
            yield f"room {room}"
        except Refused as e:
            if e.args != (19,):
                yield f"room {room}: {e.args}"


def check():
    """As the first page of this file says; the number of faults."""
    import random
    import struct
    import places
    found = [f"{c}: {answer(c.split())}, not {said}" for c, said in EXAMPLES if answer(c.split()) != said]
    for case, bad, near in SEVENTEEN:
        # 17 comes before 18 and 19, and is of these values alone
        if {answer(f"write {room} {bad}".split()) for room in (0, 100)} != {"17"} or answer(f"write 0 {near}".split()) != "19":
            found.append(f"17: {case}")
    rng = random.Random(1)
    records = list(good_records()) + list(random_records(rng, 400))
    # values beside those that are 17 are written as any
    records += [(leaf, words) for leaf, words in refused_records() if answer(write_line(leaf, words).split()) != "17"]
    for leaf, words in records:
        found += [f"{leaf:04x} {' '.join(words)}: {fault}" for fault in faults(leaf, words)]
    missing = set(TYPE_LEAVES + ID_LEAVES) - {leaf for leaf, _ in records}
    found += [f"no record of {leaf:04x}" for leaf in missing]
    # a number's shortest form, and that it reads as the number
    for value in BOUNDS + [v + d for v in BOUNDS for d in (1, -1)] + [rng.randrange(-(1 << 63), 1 << 64) >> rng.randrange(64) for _ in range(5000)]:
        if -(1 << 63) <= value < 1 << 64:
            data = numeric(value)
            unsigned_first = value < 0 or data[:2] not in (b"\x00\x80", b"\x01\x80", b"\x03\x80", b"\x09\x80")
            if layouts.Reader(data).number(True) != value or len(data) != layouts.shortest(value) or not unsigned_first:
                found.append(f"number {value}")
    # a written header and written records are a stream whose chain ends at its end
    for size in (56, 57, 60, 1024):
        some = rng.sample(records, 50)
        words = [str(n) for n in (20040203, size, 4096, 4146, 0, 9, 65535, 4, 7, -1, 4, -(1 << 31), 8, (1 << 31) - 1, 12)]
        start = header(words, size)
        stream = start + b"".join(record(leaf, values_of, LENT) for leaf, values_of in some)
        if places.header(stream) != (4096, 4146, size) or list(map(str, struct.unpack_from("<5I2H2I" + "iI" * 3, start))) != words or any(start[56:]):
            found.append(f"header of {size} bytes")
        if places.links(stream, size, 50) != len(stream):
            found.append("a stream's chain")
    for line in found[:20]:
        print(line[:400])
    print(f"{len(records)} records, {len(EXAMPLES) + len(SEVENTEEN)} examples, {len(found)} faults")
    return len(found)


def main():
    words = sys.argv[1:]
    if words == ["--check"]:
        return 1 if check() else 0
    line = answer(words) if len(words) > 1 else None
    print(__doc__ if line is None else line)
    return 2 if line is None else 0


if __name__ == "__main__":
    sys.exit(main())
