#!/usr/bin/env python3
"""Document 02's R-3 and R-10 written again in Python, from their text alone: `save` and `load` of a places file, `savewide` and `loadwide`.
make_vectors.py holds the port's vectors to it.

    places.py save STREAM FILE [SHIFT]     keeps the places of a whole walk of STREAM in FILE, by blocks of 2^SHIFT records (3)
    places.py load STREAM FILE             says what FILE is loaded as for STREAM: `0 minimum maximum held=H shift=S`, or the refusal's number
    places.py savewide .., loadwide ..     the same by R-10
"""
import struct
import sys

LETTERS = b"PTIX"
TRAILER = 28
LARGEST_SHIFT = 6
MOST = 65535
# "Counts become u32 under the tag PTIY, which makes that trailer 30 bytes."
WIDE_LETTERS = b"PTIY"
WIDE_TRAILER = 30


class Refused(Exception):
    """By this number."""


def header(s):
    """01: "Checks, in order: 16; empty; 1 for fewer than 56 bytes; 2; 3; 1 for fewer than header_size bytes; 4; 5. An empty stream is accepted with
    every field zero." The minimum, the maximum and the header's size."""
    if len(s) > 4294967294:
        raise Refused(16)
    if not s:
        return 0, 0, 0
    if len(s) < 56:
        raise Refused(1)
    _, size, low, high = struct.unpack_from("<4I", s)
    for number, wrong in ((2, size < 56), (3, size > 1024), (1, len(s) < size), (4, low < 4096), (5, high < low)):
        if wrong:
            raise Refused(number)
    return low, high, size


def links(s, p, n):
    """01: "A link at place p has a u16 length L at p and a payload of L bytes; the next starts at p + 2 + L. The chain breaks where either part passes
    the end." Where n links from p lead, or None."""
    for _ in range(n):
        if p + 2 > len(s):
            return None
        p += 2 + struct.unpack_from("<H", s, p)[0]
        if p > len(s):
            return None
    return p


def file_of(places, shift, low, high, length, size):
    """"the places as u32, then a trailer of 28 bytes: count u16, block shift u8 (3), a zero byte, minimum u32, maximum u32, stream length u32, header
    size u32, and distance back from the file's end to the first place u32. The last four bytes are the letters PTIX. The distance equals the file's length.\""""
    whole = 4 * len(places) + TRAILER
    return struct.pack(f"<{len(places)}I", *places) + struct.pack("<HBB5I", len(places), shift, 0, low, high, length, size, whole) + LETTERS


def wide_file_of(places, shift, low, high, length, size):
    """R-10's, whose distance is the file's length too."""
    whole = 4 * len(places) + WIDE_TRAILER
    return struct.pack(f"<{len(places)}I", *places) + struct.pack("<IBB5I", len(places), shift, 0, low, high, length, size, whole) + WIDE_LETTERS


def save(room, shift, s, low, high, held, table):
    """"The writer gives the stream's own, 21 for a finder with other bounds, 13, then 19"; R-7: 26 "right before the first 13 at .. R-3's writer".
    13 is "when count passes 65,535 or the lent table is short"."""
    mine_low, mine_high, size = header(s)
    if (low, high) != (mine_low, mine_high):
        raise Refused(21)
    if shift > LARGEST_SHIFT:
        raise Refused(26)
    if held > len(table) or held > MOST:
        raise Refused(13)
    if room < 4 * held + TRAILER:
        raise Refused(19)
    return file_of(table[:held], shift, low, high, len(s), size)


def save_wide(room, shift, s, low, high, held, table):
    """"A table that fits the old form is still written in the old form"; "13 now stands for more than 65,535 only in the old writer; the new writer
    gives it when the distance passes 4,294,967,295.\""""
    if held <= MOST:
        return save(room, shift, s, low, high, held, table)
    mine_low, mine_high, size = header(s)
    if (low, high) != (mine_low, mine_high):
        raise Refused(21)
    if shift > LARGEST_SHIFT:
        raise Refused(26)
    if held > len(table) or 4 * held + WIDE_TRAILER > 4294967295:
        raise Refused(13)
    if room < 4 * held + WIDE_TRAILER:
        raise Refused(19)
    return wide_file_of(table[:held], shift, low, high, len(s), size)


def load(s, file, table):
    """"Loading checks that place 0 is header_size and that each later place is one block of links after its predecessor, then yields a finder .. No places
    is 20 unless the stream counts no records. Refusals: 20 trailer or length wrong, 21 made for another stream, 22 a place is not on the chain, 13 when
    .. the lent table is short; the order is the stream's own, 20, 21, 13, 22." R-7: "a file with such a shift is 20". The finder and the table after it."""
    low, high, size = header(s)
    if len(file) < TRAILER or file[-4:] != LETTERS:
        raise Refused(20)
    return loaded(s, file, table, low, high, size, TRAILER, struct.unpack("<HBB5I", file[-TRAILER:-4]))


def load_wide(s, file, table):
    """"The new loader takes both", and "PTIY with a count up to 65,535 is 20"."""
    low, high, size = header(s)
    if file[-4:] != WIDE_LETTERS:
        return load(s, file, table)
    if len(file) < WIDE_TRAILER:
        raise Refused(20)
    fields = struct.unpack("<IBB5I", file[-WIDE_TRAILER:-4])
    if fields[0] <= MOST:
        raise Refused(20)
    return loaded(s, file, table, low, high, size, WIDE_TRAILER, fields)


def loaded(s, file, table, low, high, size, trailer, fields):
    """What both do behind the letters."""
    count, shift, zero, its_low, its_high, its_length, its_size, distance = fields
    if zero or shift > LARGEST_SHIFT or distance != len(file) or len(file) != 4 * count + trailer or (count == 0 and high > low):
        raise Refused(20)
    if (its_low, its_high, its_length, its_size) != (low, high, len(s), size):
        raise Refused(21)
    if len(table) < count:
        raise Refused(13)
    places = list(struct.unpack_from(f"<{count}I", file))
    for k, place in enumerate(places):
        if place != (size if k == 0 else links(s, places[k - 1], 1 << shift)):
            raise Refused(22)
    return (low, high, count, shift), places + table[count:]


def walked(s, shift):
    """The places that a whole walk of an accepted stream holds: the chain's start of each block, the one behind the last record too."""
    low, high, size = header(s)
    places, p = [], size if high > low else None
    while p is not None:
        places.append(p)
        p = links(s, p, 1 << shift)
    return places


# ---- short words (PROTOCOL.md): what `replay` takes

def numbers(piece):
    """A number, or A/D/N: N numbers from A on by steps of D."""
    if "/" not in piece:
        return [int(piece)]
    first, by, n = (int(word) for word in piece.split("/"))
    return [(first + k * by) % 2 ** 32 for k in range(n)]


def short_bytes(word):
    """Pieces joined by +: hex, HEX*N, or A/D/N as u32 each."""
    out = b""
    for piece in [] if word == "-" else word.split("+"):
        if "/" in piece:
            values = numbers(piece)
            out += struct.pack(f"<{len(values)}I", *values)
        elif "*" in piece:
            digits, n = piece.split("*")
            out += bytes.fromhex(digits) * int(n)
        else:
            out += bytes.fromhex(piece)
    return out


def short_table(word):
    return [] if word == "-" else [n for piece in word.split(",") for n in numbers(piece)]


def answer(line):
    """What `replay` answers to a line of these four commands."""
    name, *words = line.split(" ")
    if name.startswith("save"):
        room, shift, s, low, high, held, table = words
        return save_line(int(room), int(shift), short_bytes(s), int(low), int(high), int(held), short_table(table), save_wide if name == "savewide" else save)
    s, file, table = words
    return load_line(short_bytes(s), short_bytes(file), short_table(table), load_wide if name == "loadwide" else load)


def vectors():
    """Lines for `replay`: around 65,535 places, on a stream of links without payload, which a chain passes; each refusal of the new pair; and the old
    pair on both forms."""
    def head(count):
        return struct.pack("<IIII", 20040203, 56, 4096, 4096 + count).hex() + "00" * 40

    def trailer(count, shift=0, low=4096, high=4096 + 65540, length=56 + 131080, size=56, distance=None, letters=b"PTIY", zero=0):
        wide = letters == b"PTIY"
        whole = 4 * count + (30 if wide else 28) if distance is None else distance
        return (struct.pack("<IBB5I" if wide else "<HBB5I", count, shift, zero, low, high, length, size, whole) + letters).hex()

    s = head(65540) + "+0000*65540"
    bounds = "4096 69636"
    for command in ("savewide", "save"):
        for room in (262174, 262173, 0):
            yield f"{command} {room} 0 {s} {bounds} 65536 56/2/65536" if (command, room) != ("savewide", 262174) else f"{command} {room} 0 {s} {bounds} 65536 56/2/65537"
        yield f"{command} 262167 0 {s} {bounds} 65535 56/2/65535"
        yield f"{command} 263000 7 {s} {bounds} 65536 56/2/65536"
        yield f"{command} 263000 0 {s} 4097 69636 65536 56/2/65536"
        yield f"{command} 263000 0 {s} {bounds} 65537 56/2/65536"
        yield f"{command} 263000 0 {s} {bounds} 1073741817 56/2/65536"
        yield f"{command} 263000 0 {s} {bounds} 18446744073709551615 -"
        yield f"{command} 263000 3 {head(65540)[:-2]} {bounds} 1 56"
        yield f"{command} 36 3 {s} {bounds} 2 56,72"
        yield f"{command} 28 3 - 0 0 0 -"
    good = f"56/2/65536+{trailer(65536)}"
    yield f"loadwide {s} {good} 9/0/65536"
    yield f"loadwide {s} 56/2/65535+133/0/1+{trailer(65536)} 1/0/65536"
    yield f"load {s} {good} 9,8,7"
    for command in ("loadwide", "load"):
        for file in (good, f"56/2/65535+{trailer(65535)}", f"56/2/65536+{trailer(65536, distance=262172)}", f"56/2/65536+{trailer(65536, zero=1)}", f"56/2/65536+{trailer(65536, shift=7)}",
                     f"56/2/65536+{trailer(65537)}", f"56/2/65535+133/0/1+{trailer(65536)}", f"56/2/65536+{trailer(65536, low=4097)}", f"56/2/65536+{trailer(65536, length=131135)}",
                     f"56/8/16384+{trailer(16384, shift=2, letters=b'PTIX')}", f"56/2/3+{trailer(3, letters=b'PTIX')}", trailer(0), trailer(0, letters=b"PTIX"), trailer(65536)[2:], "50544959", "-"):
            yield f"{command} {s} {file} 5,6,7"
        yield f"{command} {s} 56/2/3+{trailer(3, letters=b'PTIX')} 1/1/6"
        yield f"{command} - {trailer(0, 3, 0, 0, 0, 0, letters=b'PTIX')} 4,4"
        yield f"{command} {head(2)[:-2]} {good} -"


# ---- as lines of PROTOCOL.md

def save_line(room, shift, s, low, high, held, table, by=save):
    try:
        return "0 " + by(room, shift, s, low, high, held, table).hex()
    except Refused as e:
        return str(e.args[0])


def load_line(s, file, table, by=load):
    try:
        (low, high, held, shift), table = by(s, file, table)
        said = f"0 {low} {high} held={held} shift={shift}"
    except Refused as e:
        said = str(e.args[0])
    return f"{said} ; " + (" ".join(str(n) for n in table) or "-")


def main():
    words = sys.argv[1:]
    if len(words) not in (3, 4) or words[0] not in ("save", "load", "savewide", "loadwide"):
        print(__doc__)
        return 2
    with open(words[1], "rb") as f:
        s = f.read()
    try:
        if words[0].startswith("save"):
            shift = int(words[3]) if len(words) == 4 else 3
            low, high, _ = header(s)
            places = walked(s, shift)
            with open(words[2], "wb") as f:
                f.write((save if words[0] == "save" else save_wide)(1 << 32, shift, s, low, high, len(places), places))
        else:
            with open(words[2], "rb") as f:
                file = f.read()
                print(load_line(s, file, [0] * (len(file) // 4), load if words[0] == "load" else load_wide).split(" ; ")[0])
    except Refused as e:
        print(e.args[0])
        return 1
    return 0


if __name__ == "__main__":
    sys.exit(main())
