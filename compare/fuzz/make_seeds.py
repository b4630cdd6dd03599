#!/usr/bin/env python3
"""Writes the seeds of targets, out of samples/ and of streams that are made here, and the dictionary.

    compare/fuzz/make_seeds.py [TARGET..]           in the root of the repository: exit status 1 if compare/fuzz/seeds/TARGET/, of every target without a word,
                                                    or compare/fuzz/leaves.dict is not what it would write
    compare/fuzz/make_seeds.py [TARGET..] --write   writes them

A seed is a target's choosing bytes and then what it reads: each target's first comment says which. One record of each leaf stands for all of its kind.
"""
import os
import shutil
import struct
import sys

sys.path.insert(0, "model")
import fitting
import layouts
import writing

TO, DICTIONARY = "compare/fuzz/seeds", "compare/fuzz/leaves.dict"
TYPES = ("e.tpi", "hand.tpi", "plain-x64.tpi", "rich-x64.tpi")
IDS = ("hand.ipi", "plain-x64.ipi", "rich-x64.ipi")
NUMERALS = {
    "plain": b"\x05\x00", "char": b"\x00\x80\xff", "short": b"\x01\x80\xff\xff", "ushort": b"\x02\x80\x00\x80", "long": b"\x03\x80\xff\xff\xff\xff",
    "ulong": b"\x04\x80\x00\x00\x01\x00", "quad": b"\x09\x80" + b"\xff" * 8, "uquad": b"\x0a\x80" + b"\xff" * 8, "strange": b"\x0b\x80",
}


def sample(name):
    with open(f"samples/{name}", "rb") as f:
        return f.read()


def records(s):
    """The payloads of a stream."""
    at = struct.unpack_from("<I", s, 4)[0]
    while at < len(s):
        length = struct.unpack_from("<H", s, at)[0]
        yield s[at + 2:at + 2 + length]
        at += 2 + length


def one_of_each(names, most=300):
    """The shortest and a middling record of each leaf, and the numeric leaves of an array."""
    by_leaf = {}
    for name in names:
        for payload in records(sample(name)):
            if len(payload) <= most:
                by_leaf.setdefault(payload[:2], set()).add(payload)
    for found in by_leaf.values():
        found = sorted(found, key=lambda p: (len(p), p))
        yield from sorted({found[0], found[len(found) // 2], found[-1]})


def made():
    """Two records of each leaf whose values are made, since no sample may have it."""
    for leaf in writing.MADE:
        yield from (writing.least(leaf, *[0x74] * 9), writing.made(leaf))


def arrays():
    for numeral in NUMERALS.values():
        yield struct.pack("<HII", 0x1503, 0x74, 0x23) + numeral + b"a\0"


def small_streams():
    """Streams that compilers do not write: empty, cut, a header of each fault, a link too short, an odd minimum, every leaf once."""
    e = sample("e.tpi")
    yield from (b"", e[:55], e[:-1], e + b"\1\0\xaa", e + b"\0\0", e + b"\2\0\1", e[:12] + e[8:12] + e[16:])
    for at, value in ((4, 55), (4, 1025), (4, 79), (4, 60), (8, 4095), (8, 4098), (8, 0xFFFFFFFE), (12, 4095), (12, 4097), (12, 4099), (12, 0xFFFFFFFF)):
        yield e[:at] + struct.pack("<I", value) + e[at + 4:]
    yield fitting.stream(list(one_of_each(TYPES, 60)) + list(made()))
    yield fitting.stream(list(arrays()))
    yield fitting.stream([fitting.modifier(0x74)] * 20, low=0xFFF0)
    yield fitting.stream([fitting.modifier(0x74), fitting.pointer(0x1000), fitting.arguments(0x74, 0x1001), fitting.procedure(0x1000, 0x1002)])
    yield fitting.stream([fitting.pointer(0x1000 + i - 1 if i else 0x74) for i in range(40)])
    three = [fitting.modifier(0x74)] * 3 + [fitting.procedure(0x10000, 0x1000)]
    yield fitting.stream(three, low=0xFFFE)


def streams(most=9000):
    yield from small_streams()
    for name in TYPES:
        if len(sample(name)) <= most:
            yield sample(name)


def both_streams(most=9000):
    yield from streams(most)
    for name in IDS:
        if len(sample(name)) <= most:
            yield sample(name)


def cells():
    for payload in list(one_of_each(TYPES)) + list(arrays()):
        yield b"\0" + payload
    for payload in one_of_each(IDS):
        yield b"\1" + payload
    yield b"\0" + struct.pack("<HIIH", 0x1201, 0, 0, 0)
    # cells: a leaf, then kinds and numbers, then text
    of_leaf = lambda leaf: b"\xff" + struct.pack("<I", leaf)
    yield b"\2" + of_leaf(0x1001) + b"\2\x20\2\x20\0" + b"text"
    yield b"\2" + of_leaf(0x1503) + b"\2\x94\2\x43\3\x25\x22\7\x20\x24\0" + b"name"
    yield b"\3" + of_leaf(0x1605) + b"\1\7\x20\x24\0" + b"name"
    yield b"\2" + of_leaf(0x1201) + b"\2\x21\7\x20\x24\0" + b"\x74\0\0\0"
    yield from (b"\0" + payload for payload in made())


def rows():
    lists = [p for name in TYPES for p in records(sample(name)) if p[:2] in (b"\x03\x12", b"\x06\x12") and len(p) < 400]
    for payload in lists:
        yield (b"\0" if payload[:2] == b"\x03\x12" else b"\1") + payload[2:]
    for numeral in NUMERALS.values():
        yield b"\0" + struct.pack("<HH", 0x1502, 3) + numeral + b"e\0\xf1"
        yield b"\0" + struct.pack("<HHI", 0x150D, 3, 0x74) + numeral + b"f\0"
        yield b"\0" + struct.pack("<HHII", 0x1401, 3, 0x1000, 0x1001) + numeral + b"\x08\0"
    yield b"\0" + struct.pack("<HHI", 0x1404, 0, 0x1000) + b"rest"
    for n in range(len(layouts.MEMBERS)):
        yield b"\2\1" + bytes([n, 6, 0x23, 0x94, 0x20, 0x24, 0x20, 0x24]) + b"name"
    yield b"\3\2" + bytes([3, 0x23, 0x94, 0x20]) + bytes([5, 0x23, 0x94, 0x20, 0x21, 0x28])


def sections():
    for name in ("plain-x64.debugT", "rich-x64.debugT"):
        yield b"\3" + sample(name)[4:]
        yield b"\xff" + sample(name)[:400]
    yield b"\0" + b"".join(struct.pack("<H", len(p)) + p for p in list(one_of_each(TYPES, 60)) + list(one_of_each(IDS, 60)) + list(made()))
    yield from (b"\xff", b"\xff\4\0\0", b"\xff\4\0\0\0", b"\xff\5\0\0\0", b"\0\1\0\xaa", b"\0\2\0\1", b"\0\2\0\1\x10")


def calls():
    """Every function, by its number in laws/calls.c, over stream E, its records and a section of them, with numbers that are answered and such that are not."""
    def seed(which, s, second=b"", *numbers):
        numbers = [len(second), *numbers, *[0] * 6][:7]
        return bytes([which]) + b"".join(b"\4" + struct.pack("<I", n) for n in numbers) + s + second

    e, place = sample("e.tpi"), struct.pack("<I", 56)
    section, file = b"\4\0\0\0" + e[56:], fitting.places.save_wide(1 << 32, 3, e, 4096, 4098, 1, [56])
    modifier, pointer, fields = e[58:66], e[68:78], struct.pack("<HHHI", 0x1203, 0x150E, 3, 0x74) + b"a\0"
    finder = (4096, 4098, 1, 3)
    yield from (seed(0, e), seed(1, e, b"", 56, 4096), seed(1, e, b"", 78, 4098), seed(2, e, place, *finder, 4097), seed(2, e, place, *finder, 4098))
    yield from (seed(3, b"", b"", n) for n in (0x74, 0x674, 0x67C))
    yield seed(4, b"", b"", *finder)
    yield from (seed(which, e, e, ids, record, index, 58, 8) for which in (5, 6, 7) for ids, record, index in ((0, 1, 4096), (1, 1, 4096), (0, 0, 0x74)))
    yield from (seed(which, s) for which in (8, 9, 10, 26, 41) for s in (modifier, pointer, fields, fitting.arguments(0x74), b"\5\x16\0\0\0\0s\0"))
    yield from (seed(11, fields, b"", 0x1203, 2, 0, 0), seed(12, fields, b"", 0x1605, 10), seed(13, b"\xf2\xf1"), seed(14, b"\2\x80\5\0"), seed(15, b"\0\x80\xff"))
    yield from (seed(which, b"", b"", 0xFFFF) for which in range(16, 23))
    yield from (seed(which, section, b"", 4096, 6, 8) for which in (23, 24, 25))
    yield seed(27, e)
    yield from (seed(which, e, b"", 3, 0, 0, 0, 0, 9) for which in (28, 29))
    yield from (seed(which, section, b"", 3, 0, 0, 0, 0, 9) for which in (30, 31))
    yield seed(32, b"", place, 4096, 4098, 0, 3, 56, 4096)
    yield from (seed(which, e, place, *finder, 4097, 999) for which in (33, 34, 35))
    yield from (seed(36, b"name", bytes([2, 0x74, 0, 2, 1, 0]), 0, 0x1001, 0, 0, 0, 99), seed(37, b"name", bytes([1, 0, 0, 7, 0, 4]), 4, 0x1605, 0, 0, 0, 99))
    yield from (seed(38, b"name", b"", 0, 0, 0, 0, 0, 99), seed(39, b"name", b"", 0, 1, 0, 0, 0, 99), seed(40, e, b"", 0, 1, 2, 0, 0, 99))
    yield from (seed(which, e, file, 0, 0, 0, 0, 0, 9) for which in (42, 43))
    yield from (seed(44, section, b"", 0, 0, 0, 0, 0, 999), seed(45, e, b"", 1, 4097, 0, 0, 0, 402), seed(46, e), seed(47, b"", b"", 0, 0x1001))


def words():
    """Each choice of crate_words, with an index, a word or a leaf, and bytes."""
    for numeral in NUMERALS.values():
        yield b"\1\0\0\0\0" + numeral
    yield from (bytes([which]) + struct.pack("<I", w) for which in (0, 3, 4, 0x80) for w in (0x74, 0x674, 0x67C, 0xFFF, 0x1000, 0xFFFF, 0x1000C, 0x4008D, 0xC0000))
    yield from (b"\2" + struct.pack("<I", leaf) + s for leaf in (0x1500, 0x1501) for s in (b"\4name", b"name\0", b"\xf3\xf2\xf1", b""))
    yield from (bytes([5]) + struct.pack("<I", index) + s for index in (0x74, 0x67C) for s in (b"", b"\1", b"\1\x10"))


def targets():
    yield "cells", cells()
    yield "rows", rows()
    yield "kept", (bytes([i % 7, 255 if i % 3 else 0, i, 0, i % 3, 1]) + s for i, s in enumerate(both_streams()))
    yield "section", sections()
    yield "declare", (bytes([i % 7, 0x1D]) + s for i, s in enumerate(streams()))
    yield "fit", streams()
    yield "drop", (b"\2\1\0\7\0" + s for s in streams())
    yield "report", (bytes([255 if i % 2 else 128, i]) + s + (s if i % 2 == 0 else b"") for i, s in enumerate(both_streams(3000)))
    yield "find", (bytes([i % 7, 255 if i % 4 else 2, i]) + s for i, s in enumerate(both_streams()))
    yield "calls", calls()
    yield "crate_type", list(one_of_each(TYPES)) + list(arrays()) + [struct.pack("<HIIH", 0x1201, 0, 0, 0)]
    yield "crate_id", one_of_each(IDS)
    yield "crate_stream", (bytes([i % 4, 255 if i % 3 else 9]) + s for i, s in enumerate(both_streams(3000)))
    yield "crate_words", words()


def dictionary():
    """The leaves, the numeric prefixes and the pads, each as its bytes."""
    words = {f"leaf_{n:04x}": struct.pack("<H", n) for n in [*writing.TYPE_LEAVES, *writing.ID_LEAVES, *layouts.MEMBERS]}
    words |= {f"numeral_{n:04x}": struct.pack("<H", n) for n in (0x8000, 0x8001, 0x8002, 0x8003, 0x8004, 0x8009, 0x800A, 0x8005)}
    words |= {f"pad_{n:x}": bytes(range(0xF0 + n, 0xF0, -1)) for n in (1, 2, 3, 15)}
    words |= {f"index_{n:x}": struct.pack("<I", n) for n in (0x74, 0x674, 0xFFF, 0x1000, 0x1001, 0x1002, 0xFFFF, 0x10000, 0x80000000, 0xFFFFFFFF)}
    words["none"] = b"\0\0\0\0"
    return "".join(f'{name}="{"".join(f"{chr(92)}x{b:02x}" for b in word)}"\n' for name, word in words.items())


def held(folder):
    """name: content of the files in a folder, or none."""
    return {name: open(f"{folder}/{name}", "rb").read() for name in os.listdir(folder)} if os.path.isdir(folder) else {}


def main():
    write, only = "--write" in sys.argv, [word for word in sys.argv[1:] if word != "--write"]
    wanted = {f"{TO}/{target}": {f"{i:03}": seed for i, seed in enumerate(seeds)} for target, seeds in targets() if target in only or not only}
    if len(wanted) < len(only):
        print(__doc__)
        return 2
    said = "# The leaves of records and members, the prefixes of numeric leaves, pads, and indices at a border. Written by compare/fuzz/make_seeds.py.\n" + dictionary()
    if write:
        for folder, seeds in wanted.items():
            shutil.rmtree(folder, ignore_errors=True)
            os.makedirs(folder)
            for name, seed in seeds.items():
                with open(f"{folder}/{name}", "wb") as f:
                    f.write(seed)
        with open(DICTIONARY, "w", encoding="ascii") as f:
            f.write(said)
    wrong = [folder for folder, seeds in wanted.items() if held(folder) != seeds]
    with open(DICTIONARY, encoding="ascii") as f:
        wrong += [DICTIONARY] if f.read() != said else []
    for path in wrong:
        print(f"make_seeds: {path} is not what is made here; --write writes it")
    if not wrong:
        print(f"make_seeds: {sum(len(seed) for seeds in wanted.values() for seed in seeds.values())} bytes of seeds, as they are made here")
    return 1 if wrong else 0


sys.exit(main())
