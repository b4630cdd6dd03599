#!/usr/bin/env python3
"""Writes commands of PROTOCOL.md, one to a line, for compare.py. The same seed gives the same lines.

    make_inputs.py [--seed N] [--scale N] [--only WORD,WORD..] [--streams] [STREAM...]
        --seed N     1 by default
        --scale N    how many random inputs of each sort, in thousands (10)
        --only ..    only these parts: words numbers strings headers chains types ids real
        --streams    also read each given stream whole, by the command's @path form
        STREAM       type streams (.tpi) and id streams (.ipi), as exported from a program database, undamaged; damaged copies of them
                     are made, of the whole stream where it is short, else of the header and a run of records

Short inputs are all there: every leaf of two bytes; every smallest record cut at every length and with every byte replaced by every value;
every attribute word of 16 bits; every primitive index; every numeric prefix. The rest is random, around the limits.
"""
import os
import random
import struct
import sys

sys.path.insert(0, os.path.join(os.path.dirname(os.path.abspath(__file__)), "..", "model"))
import layouts
import writing

TOP = 4294967295

# A smallest record of every leaf, and one or two with their optional parts. Those of a leaf that is not here are made, behind this.
TYPE_RECORDS = """
    0110 74000000 0100
    0210 74000000 0c000100
    0210 74000000 4c000100 02100000
    0210 74000000 6c000100 ffff0000 0800
    0810 03000000 0002 0100 01100000
    0910 03000000 02100000 00000000 0b06 0100 01100000 f8ffffff
    0512 74000000 03 05
    0315 74000000 23000000 2800 00
    0315 74000000 23000000 2800 6e00
    0315 74000000 23000000 2800 6e6d00
    0315 74000000 23000000 0a800000000001000000 00 f1
    0415 0100 0000 01100000 00000000 00000000 0800 4100
    0515 0200 0002 01100000 00000000 ffff0000 04800000ffff 4100 4200 f1
    1915 0000 8000 00000000 00000000 00000000 0000 4900
    0615 0200 0002 01100000 0400 5500 5600
    0715 0200 0000 74000000 01100000 4500
    0916 00020000 16100000 00000000 00000000 0200 0600 4800 4900
    0a00 0300 55 05
    0112 02000000 74000000 01100000
    0612 0300 0000 01100000 1300 0000 02100000 10000000
    0312 0d15 0300 74000000 0400 6100 f2f1 0d15 0300 75000000 0800 6200
    0312 0014 0300 01100000 0000 0114 0300 01100000 02100000 0400 0800 0214 0300 01100000 02100000 0400 0c00
    0312 0215 0300 0180ffff 6100 0215 0300 0980ffffffffffffffff 6200 0215 0300 0a80ffffffffffffffff 6300
    0312 0e15 0300 74000000 7300 0f15 0200 01100000 6d00 1015 0000 01100000 6e00
    0312 1115 0300 01100000 6d00 1115 1300 01100000 18000000 6e00 0914 0000 01100000
    0312 0014 0300 01100000 0000 0414 0000 02100000
    0312 0414 0000 02100000 0014 0300 01100000 0000
    0014 0300 01100000 0000
    1115 1300 01100000 18000000 6e00
    1215 0300 01100000 6e00
    1a15 0300 01100000 0000
    1615 74000000 23000000 04000000 2800 00
    0610 0200 0000 01100000 0400 0155
""".strip().split("\n")
ID_RECORDS = """
    0116 00000000 01100000 6600
    0116 02100000 01100000 666700 f1
    0216 01100000 02100000 6d00
    0316 0200 01100000 02100000
    0416 02000000 01100000 02100000
    0516 00000000 7300
    0516 ffff0000 737400
    0616 01100000 02100000 07000000
    0716 01100000 05000000 07000000 0300
    0916 00020000 16100000
    0112 00000000
""".strip().split("\n")
BY_HAND = {bytes.fromhex(record)[:2] for record in TYPE_RECORDS}
MADE_RECORDS = [data.hex() for leaf in layouts.RECORDS if struct.pack("<H", leaf) not in BY_HAND for data in (writing.least(leaf, *[0] * 9), writing.made(leaf))]
MEMBER_LEAVES = list(layouts.MEMBERS)
TYPE_LEAVES = [*layouts.RECORDS, *layouts.LISTS, *MEMBER_LEAVES, *layouts.NEWER, 0x151d]
NUMBER_PREFIXES = list(range(0x7ffe, 0x8020)) + [0xffff]

rng = random.Random(1)


def hexed(data):
    return data.hex() or "-"


def read_hex(line):
    return bytes.fromhex(line.replace(" ", ""))


def some(*choices):
    return rng.choice(choices)


def noise(n):
    """Bytes with many zeros, small numbers, pads and limits."""
    return bytes(some(0, 0, 0, 1, 2, 4, 0x10, 0x12, 0x14, 0x15, 0x41, 0x7f, 0x80, 0xf0, 0xf1, 0xf2, 0xf3, 0xff, rng.randrange(256)) for _ in range(n))


def damaged(data, times=None):
    """A copy with some bytes changed, cut out, put in, or its end cut."""
    out = bytearray(data)
    for _ in range(times or some(1, 1, 1, 2, 3, 6)):
        if not out:
            break
        at = rng.randrange(len(out))
        what = rng.randrange(10)
        if what < 6:
            out[at] = some(0, 1, 2, 0x0d, 0x7f, 0x80, 0xf0, 0xf1, 0xff, rng.randrange(256), out[at] ^ 1 << rng.randrange(8))
        elif what == 6:
            del out[at:at + some(1, 2, 4)]
        elif what == 7:
            out[at:at] = noise(some(1, 2, 4))
        elif what == 8:
            del out[at:]
        else:
            out[at:at + 2] = struct.pack("<H", some(0, 1, 2, 3, 0x1203, 0x1404, 0x8000, 0x8001, 0x8009, 0xffff))
    return bytes(out)


# ---- parts ----

def words_part(scale):
    yield "prim 0 4098"
    yield "prim 65535 65537"
    for name in ("props", "field", "func"):
        for at in range(0, 65536, 8192):
            yield f"word {name} {at} {at + 8192} 1"
    for at in range(0, 2 ** 20, 2 ** 14):
        yield f"word ptr {at} {at + 2 ** 14} 1"
    yield f"word ptr 0 {2 ** 32} 65521"
    # Each one and each two of the upper bits, over three low parts: none, a 64-bit pointer with every flag, a bad kind with a bad mode.
    for a in range(13, 32):
        for b in range(13, a + 1):
            for low in (0, 0x1f0c, 0x00ad):
                w = 2 ** a | 2 ** b | low
                yield f"word ptr {w} {w + 1} 1"
    for n in [0, 1, 4095, 4096, 65534, 65535, 65536, 2 ** 31, TOP]:
        yield f"opttype {n}"
        yield f"optid {n}"
    for _ in range(scale * 10):
        yield f"opttype {rng.randrange(2 ** 32)}"
    for data in [b""] + [bytes([a]) for a in range(256)]:
        yield f"kind {hexed(data)}"
    for at in range(0, 65536, 257):
        yield f"kind {hexed(struct.pack('<H', at))}"


def number_bytes(prefix, n):
    return struct.pack("<H", prefix) + noise(n)


def numbers_part(scale):
    for command in ("unsigned", "signed"):
        yield f"{command} -"
        for a in range(256):
            yield f"{command} {a:02x}"
        for prefix in range(65536):
            yield f"{command} {hexed(number_bytes(prefix, 8))}"
        for prefix in NUMBER_PREFIXES:
            for n in range(10):
                for byte in (0, 0x7f, 0x80, 0xff):
                    yield f"{command} {hexed(struct.pack('<H', prefix) + bytes([byte]) * n)}"
        for b in range(256):
            yield f"{command} 0080{b:02x}"
        for _ in range(scale * 1000):
            yield f"{command} {hexed(number_bytes(some(*NUMBER_PREFIXES), rng.randrange(10)))}"


def strings_part(scale):
    for leaf in (0, 0x1203, 0x14ff, 0x1500, 0x1501, 0x1503, 0xffff):
        yield f"string {leaf} -"
        for a in range(256):
            yield f"string {leaf} {a:02x}"
        for a in (0, 1, 2, 0x41, 0xff):
            for b in (0, 1, 0x41, 0xff):
                yield f"string {leaf} {a:02x}{b:02x}"
        for _ in range(scale * 100):
            yield f"string {leaf} {hexed(noise(rng.randrange(8)))}"
    yield "padding -"
    for a in range(256):
        yield f"padding {a:02x}"
    for a in range(0xe8, 256):
        for b in range(256):
            yield f"padding {a:02x}{b:02x}"
    for _ in range(scale * 1000):
        yield "padding " + hexed(bytes(some(0xf0, 0xf1, 0xf2, 0xf3, 0xf4, 0xff, 0xef, 0, rng.randrange(256)) for _ in range(rng.randrange(20))))


def header(minimum=4096, maximum=4098, size=56, gprec=22, version=20040203):
    return struct.pack("<5I2H2I", version, size, minimum, maximum, gprec, 0, 0, 0, 0) + bytes(24)


def headers_part(scale):
    for n in range(57):
        yield f"header {hexed(header()[:n])}"
    for size in (0, 1, 55, 56, 57, 60, 1023, 1024, 1025, 65535, 2 ** 31, TOP):
        for length in (56, 57, 60, 1023, 1024, 1025):
            for low, high in ((4095, 4096), (4096, 4096), (4096, 4095), (4096, 4097), (TOP, TOP), (0, 0), (2 ** 31, TOP)):
                yield f"header {hexed((header(low, high, size) + bytes(2000))[:length])}"
    for _ in range(scale * 300):
        yield f"header {hexed(bytes(rng.randrange(256) for _ in range(4)) + header()[4:16] + bytes(rng.randrange(256) for _ in range(40)))}"
        yield f"header {hexed(damaged(header() + noise(rng.randrange(8))))}"


def links(lengths):
    return b"".join(struct.pack("<H", n) + noise(n) for n in lengths)


def lookups(minimum, maximum, extra=()):
    wanted = {0, 1, 116, 4095, 4096, minimum - 1, minimum, minimum + 1, minimum + 7, minimum + 8, minimum + 9, minimum + 16,
              maximum - 1, maximum, maximum + 1, TOP - 1, TOP}
    wanted.update(extra)
    return ",".join(str(i) for i in sorted(i for i in wanted if 0 <= i <= TOP))


def stream_commands(stream, minimum, maximum, ids=False):
    data = hexed(stream)
    yield f"walk {data}"
    n = some(0, 1, 7, 8, 9, 15, 16, 17, 24, rng.randrange(64))
    more = [minimum + rng.randrange(max(1, min(maximum - minimum, 100))) for _ in range(4)]
    yield f"{'findids' if ids else 'find'} {data} {some('', '', '', 'u')}{n} {lookups(minimum, maximum, more)}"


def chains_part(scale):
    yield from stream_commands(b"", 0, 0)
    yield "find - 0 0,1,4096"
    sizes = (0, 1, 2, 3)
    for a in sizes:
        for b in sizes:
            for c in sizes:
                for tail in (b"", b"\x02", b"\x02\x00", b"\x02\x00\x01", b"\x00\x00", b"\xff\xff\x00"):
                    stream = header(4096, 4099) + links((a, b, c)) + tail
                    for ids in (False, True):
                        yield from stream_commands(stream, 4096, 4099, ids)
    for _ in range(scale * 300):
        count = some(0, 1, 2, 7, 8, 9, 10, 16, 17, 25, 40)
        smallest = some(2, 2, 2, 2, 0)
        body = links(rng.randrange(smallest, smallest + 6) for _ in range(count))
        low = some(4096, 4096, 4097, 5000, 65530, 2 ** 31, TOP - 20, TOP - 9, TOP - 8, TOP - 7, TOP - 1, TOP)
        high = min(TOP, low + max(0, count + some(0, 0, 0, -1, 1, 8, -8, 100)))
        size = some(56, 56, 56, 57, 64)
        if some(0, 0, 1):
            body = body[:max(0, len(body) - rng.randrange(6))]
        stream = header(low, high, size) + bytes(size - 56) + body
        yield from stream_commands(stream, low, high, some(False, True))


def around(command, lines, scale):
    """Every cut and every single byte of each smallest record, then random damage."""
    records = [read_hex(line) for line in lines]
    for record in records:
        for n in range(len(record) + 1):
            yield f"{command} {hexed(record[:n])}"
        for pad in ("00", "f1", "f2f1", "f3", "41", "f0f0", "ff"):
            yield f"{command} {hexed(record)}{pad}"
        for at in range(len(record)):
            for byte in range(256):
                if byte != record[at]:
                    yield f"{command} {hexed(record[:at] + bytes([byte]) + record[at + 1:])}"
    for _ in range(scale * 1000):
        yield f"{command} {hexed(damaged(some(*records)))}"


def random_member():
    leaf = some(*MEMBER_LEAVES, *MEMBER_LEAVES, *TYPE_LEAVES)
    body = noise(some(2, 6, 8, 10, 12, 14, 18))
    if some(0, 1):
        body += number_bytes(some(0, 4, 0x7fff, *NUMBER_PREFIXES), some(0, 1, 2, 4, 8))
    return struct.pack("<H", leaf) + body + some(b"", b"a\0", b"\0", b"\0\xf1", b"\0\xf2\xf1", b"ab\0")


def types_part(scale):
    for first in range(256):
        yield f"type {first:02x}"
    for leaf in range(65536):
        yield f"type {hexed(struct.pack('<H', leaf))}"
        yield f"type {hexed(struct.pack('<H', leaf) + bytes(40))}"
        yield f"type 0312{hexed(struct.pack('<H', leaf) + bytes(40))}"
    yield from around("type", TYPE_RECORDS + MADE_RECORDS, scale)
    for count in (0, 1, 2, 3, 255, 65535, 65536, 2 ** 20):
        for n in (0, 3, 4, 8, 12):
            yield f"type {hexed(struct.pack('<HI', 0x1201, count) + noise(n))}"
    for depth in (2, 100, 500, 1000, 10000, 32767):
        yield "type " + "0312" * depth
    for prefix in NUMBER_PREFIXES:
        for n in range(9):
            tail = struct.pack("<H", prefix) + bytes([some(0, 0x7f, 0x80, 0xff)]) * n
            yield f"type 03157400000023000000{hexed(tail)}00"
            yield f"type 061502000000{'01100000'}{hexed(tail)}5500"
            yield f"type 031200140300{'01100000'}{hexed(tail)}"
            yield f"type 031201140300{'01100000'}{'02100000'}0100{hexed(tail)}"
            yield f"type 031202150300{hexed(tail)}6100"
            yield f"type 03120d150300{'01100000'}{hexed(tail)}6100"
    for _ in range(scale * 1000):
        yield f"type {hexed(struct.pack('<H', some(*TYPE_LEAVES)) + noise(rng.randrange(40)))}"
        yield "type 0312" + "".join(random_member().hex() for _ in range(rng.randrange(5)))
        yield f"type 0612{hexed(noise(some(0, 8, 12, 16, 20, 24, rng.randrange(30))))}".replace("-", "")
    for _ in range(scale * 20):
        index = some(0, 3, 116, 0x067c, 4095, 4096, 4097, TOP, rng.randrange(8192))
        yield f"itemtype {index} {hexed(damaged(read_hex(some(*TYPE_RECORDS, *MADE_RECORDS))))}"


def ids_part(scale):
    for first in range(256):
        yield f"id {first:02x}"
    for leaf in range(65536):
        yield f"id {hexed(struct.pack('<H', leaf))}"
        yield f"id {hexed(struct.pack('<H', leaf) + bytes(24))}"
    yield from around("id", ID_RECORDS, scale)
    for leaf, form in ((0x1603, "<HH"), (0x1604, "<HI")):
        for count in (0, 1, 2, 3, 255, 65535):
            for n in (0, 3, 4, 8, 12):
                yield f"id {hexed(struct.pack(form, leaf, count) + noise(n))}"
    for _ in range(scale * 20):
        yield f"itemid {some(0, 116, 4095, 4096, TOP)} {hexed(damaged(read_hex(some(*ID_RECORDS))))}"


def pieces(stream, limit=6000):
    """The stream where it is short; else its header over a run of its records."""
    if len(stream) <= limit:
        return stream
    size = struct.unpack_from("<I", stream, 4)[0]
    places, at = [], size
    while at + 2 <= len(stream):
        places.append(at)
        at += 2 + struct.unpack_from("<H", stream, at)[0]
    first = rng.randrange(len(places))
    last = first
    while last + 1 < len(places) and places[last + 1] - places[first] < limit and last - first < 60:
        last += 1
    end = places[last + 1] if last + 1 < len(places) else len(stream)
    head = bytearray(stream[:size])
    low = struct.unpack_from("<I", stream, 8)[0]
    struct.pack_into("<I", head, 12, low + last - first + 1)
    return bytes(head) + stream[places[first]:end]


def real_part(scale, names, whole):
    for name in names:
        with open(name, "rb") as f:
            stream = f.read()
        ids = name.endswith(".ipi")
        parse = "parseids" if ids else "parse"
        find = "findids" if ids else "find"
        low, high = struct.unpack_from("<II", stream, 8)
        if whole:
            path = "@" + os.path.abspath(name)
            yield f"header {path}"
            yield f"{parse} {path}"
            yield f"{find} {path} {high - low} {lookups(low, high, range(low, high, max(1, (high - low) // 2000)))}"
            yield f"{find} {path} {(high - low) // 2} {lookups(low, high, range(low, high, max(1, (high - low) // 200)))}"
        for k in range(max(4, scale * 6)):
            part = pieces(stream)
            if len(part) > 70000:
                continue
            if k:
                part = damaged(part, some(1, 2, 4, 8, 16))
            yield f"{parse} {hexed(part)}"
            yield f"{find} {hexed(part)} {rng.randrange(70)} {lookups(low, low + 60, range(low, low + 60))}"
            yield f"header {hexed(part)}"


def main():
    words, names, whole, scale, only = sys.argv[1:], [], False, 10, None
    while words:
        w = words.pop(0)
        if w == "--seed":
            rng.seed(int(words.pop(0)))
        elif w == "--scale":
            scale = int(words.pop(0))
        elif w == "--only":
            only = words.pop(0).split(",")
        elif w == "--streams":
            whole = True
        elif w.startswith("-"):
            print(__doc__)
            return 2
        else:
            names.append(w)
    parts = {"words": words_part, "numbers": numbers_part, "strings": strings_part, "headers": headers_part, "chains": chains_part,
             "types": types_part, "ids": ids_part, "real": lambda s: real_part(s, names, whole)}
    for name, part in parts.items():
        if only is None or name in only:
            for line in part(scale):
                print(line)
    return 0


if __name__ == "__main__":
    sys.exit(main())
