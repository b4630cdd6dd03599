#!/usr/bin/env python3
"""Writes tests/vectors/replay.in and replay.out: a fixed list of commands of PROTOCOL.md and the answers that ./test holds the program `replay` to. The same
seed gives the same files.

    make_vectors.py ORACLE REPLAY [--seed N]            exit status 1 if the two files are not what it would write
    make_vectors.py ORACLE REPLAY [--seed N] --write    writes them
        ORACLE   the crate, built by build.sh (its release build); or the word `kept`, where there is none: then its lines are those that the two files have,
                 and what they have not can be nothing but records of a new leaf, which the crate does not know
        REPLAY   the port's program, target/replay, built by tools/replay

Where an expected line comes from:

- A command that the crate can be asked: the crate's own line, as ORACLE prints it. The crate does not report links passed, so ` links=K` and the
  links of a 1 are worked out by lengths alone, as compare.py does. A list that the crate refuses whole ends with that refusal (PROTOCOL.md, "Lists"),
  and an array shows its size and its name, where the crate shows dimensions: both lines are layouts.py's, held to the crate's answer by same_record.
- A known difference: document 01's or 02's line, worked out by layouts.py or written out below, with the name of its line in docs/DIFFERENCES.md.
- A command that the crate cannot be asked (next, create, update, findin, maxindex, view, marker, element, idelement, and all that end in `by`): 01's
  rule, with 02's R-7 for a shift, written again below beside its sentence, in Python, apart from the Rattle sources; `save` and `load`: 02's R-3,
  written again in places.py; `writeheader`, `write`, `rewrite` and `rewriteid`: 02's R-1, written again in writing.py; the `sec` commands: 02's R-6,
  written again in sections.py; `declare`: 02's R-5, written again in declaring.py.
- A command whose BYTES are none: `? bytes`, by PROTOCOL.md's sentence, written again below.
- 01's examples and 02's words: their lines, written out below. They must be what the rules above give too.

No expected line is taken from REPLAY. It is run at the end, and must answer every line. The exit status is 1, and nothing is written, if an answer
of the crate is not explained, if an example fails, if REPLAY answers otherwise or has no call of some exported function, or if the list lacks one of:
a command of PROTOCOL.md; a number 0 to 22, 25 or 26; every shift 0 to 7; a leaf of 01; every prefix of a good record of every leaf; every leaf written, and refused
by 17 and by 19; 18; a record of the crate's tests; the largest counts; a table exactly full and one short; bytes that are none, in every way, and as many bytes as there may be.
"""
import os
import re
import struct
import sys

sys.path.insert(0, os.path.dirname(os.path.abspath(__file__)))
sys.path.insert(0, os.path.join(os.path.dirname(os.path.abspath(__file__)), "..", "model"))
import compare
import declaring
import layouts
import make_inputs
import places
import sections
import writing
from compare import TOP, blob

HERE = os.path.dirname(os.path.abspath(__file__))
STREAMS = ["plain-x64.tpi", "plain-x64.ipi", "rich-x64.tpi", "rich-x64.ipi", "hand.tpi", "hand.ipi"]
ID_LEAVES = list(range(0x1601, 0x1608))
LONGEST = 4294967294
# More records than 65,536 bytes can have: `find` walks the whole stream.
WHOLE = 65536
# the shifts 0 to 6 are taken, those above are 26.
SHIFTS = [0, 1, 2, 3, 4, 5, 6, 7, 255]


class Unexplained(Exception):
    """What keeps the vectors from being written."""


def hexed(data):
    return data.hex() or "-"


def packed(text):
    return bytes.fromhex(text.replace(" ", ""))


def header(minimum=4096, maximum=4098, size=56):
    return make_inputs.header(minimum, maximum, size)


# ---- 01's rules for what the crate cannot be asked ----

def refused_header(s):
    """"Checks, in order: 16; empty; 1 for fewer than 56 bytes; 2; 3; 1 for fewer than header_size bytes; 4; 5.\""""
    if not s:
        return None
    if len(s) < 56:
        return 1
    _, size, low, high = struct.unpack_from("<4I", s)
    return 2 if size < 56 else 3 if size > 1024 else 1 if len(s) < size else 4 if low < 4096 else 5 if high < low else None


def link(s, p):
    """"A link at place p has a u16 length L at p and a payload of L bytes. The chain breaks where either part passes the end.\""""
    if p + 2 > len(s):
        return None
    n = int.from_bytes(s[p:p + 2], "little")
    return (p + 2, n) if p + 2 + n <= len(s) else None


def next_line(s, at, index):
    """"`next`: 1 if the cursor stands past the end; done if no bytes are left; else 1 (length), 6, 1 (payload), 7 in that order; else the item
    and the advanced cursor.\""""
    if at > len(s):
        return "1"
    if at == len(s):
        return "0 done"
    if at + 2 > len(s):
        return "1"
    n = int.from_bytes(s[at:at + 2], "little")
    if n < 2:
        return "6"
    if at + 2 + n > len(s):
        return "1"
    if index == TOP:
        return "7"
    return f"0 {index} {at + 2}+{n} then {at + 2 + n} {index + 1}"


def table_text(t):
    return " ".join(str(n) for n in t) or "-"


def create_line(s, t, shift=3):
    """"Creation stores header_size in place 0 if the count is positive (13 if there is no room), else none." R-7: "26 shift above 6, right before
    the first 13 at creation, `update`, `find`."""
    number = refused_header(s) or (26 if shift > 6 else None)
    if number:
        return f"{number} ; {table_text(t)}"
    _, size, low, high = struct.unpack_from("<4I", s) if s else (0, 0, 0, 0)
    if high == low:
        return f"0 {low} {high} held=0 shift={shift} ; {table_text(t)}"
    if not t:
        return "13 ; -"
    return f"0 {low} {high} held=1 shift={shift} ; {table_text([size] + t[1:])}"


def updated(low, held, t, at, index, shift=3):
    """"With d the cursor's index minus the minimum, it stores the cursor's position as a new last place exactly if d mod 8 is 0 and d/8 equals
    the number of places held. Order: 16, 14, then 13. Otherwise it answers 0 and changes nothing. A finder that claims more places than its
    table has gets 13 from `update` and `find`, right after 16." R-7: 2^shift for 8, and 26 right before the first 13. Answers the number, the
    places held and the table."""
    number, after, block = 0, t, 1 << shift
    d = index - low
    if at > LONGEST:
        number = 16
    elif shift > 6:
        number = 26
    elif held > len(t):
        number = 13
    elif index < low:
        number = 14
    elif d % block == 0 and d // block == held:
        if held == len(t):
            number = 13
        else:
            after = t[:held] + [at] + t[held + 1:]
            held += 1
    return number, held, after


def update_line(low, held, t, at, index, shift=3):
    number, held, after = updated(low, held, t, at, index, shift)
    return f"{number} held={held} ; {table_text(after)}"


def highest(low, held, shift=3):
    """"`max_index` is 0 with no place, else 8 × places + minimum − 1, held at 4,294,967,295." R-7: 2^shift for 8, and 0 with a shift above 6."""
    return min(TOP, (held << shift) + low - 1) if held and shift <= 6 else 0


def find_line(s, low, high, held, t, i, shift=3):
    """"`find` of i: below the minimum, the marker; above the maximum, 8. With d = i minus the minimum: 9 if d/8 rounded down is no held place;
    else start at that place, pass d mod 8 links, and give the next one's item, or 1 if a link breaks. It reports links passed." R-7: 2^shift for 8,
    and 26 right before the first 13."""
    block = 1 << shift
    if shift > 6:
        return "26"
    if held > len(t):
        return "13"
    if i < low:
        return "0 marker 2 ffff links=0"
    if i > high:
        return f"8 {i}"
    d = i - low
    if d // block >= held:
        return f"9 {i} {highest(low, held, shift)}"
    p = t[d // block]
    for passed in range(d % block + 1):
        at = link(s, p)
        if at is None:
            return f"1 {passed}"
        p = sum(at)
    return f"0 {at[0]}+{at[1]} links={d % block}"


def find_by_lines(s, shift, n, asked):
    """The lines of `find` for a finder of any shift, all by the rules above: a fresh finder and a fresh iterator, the early update that a `u` asks
    for, as many records as there are up to n with an update after each, then each lookup. A refused creation is the only line."""
    room = [0] * (len(s) + 1)
    made = create_line(s, room, shift)
    if not made.startswith("0 "):
        return [made.split(" ; ")[0]]
    _, size, low, high = struct.unpack_from("<4I", s) if s else (0, 0, 0, 0)
    held = int(made.split(" held=")[1].split()[0])
    t = [size] + room[1:] if held else room
    at, index = size, low
    if n.startswith("u"):
        _, held, t = updated(low, held, t, at, index, shift)
    for _ in range(int(n.lstrip("u"))):
        line = next_line(s, at, index)
        if " then " not in line:
            break
        at, index = (int(x) for x in line.split(" then ")[1].split())
        _, held, t = updated(low, held, t, at, index, shift)
    lines = [f"places [{', '.join(str(p) for p in t[:held])}]", f"max {highest(low, held, shift)}"]
    return lines + [f"{i} {find_line(s, low, high, held, t, int(i), shift)}" for i in asked.split(",")]


def view_line(s, place, length):
    """"Its view is a part of the TPI stream or of the IPI stream. An item that passes the end of its stream is 1. `raw_kind` of fewer than two
    bytes is 1.\""""
    if place + length > len(s):
        return "1 ; kind 1"
    part = s[place:place + length]
    kind = f"0 {int.from_bytes(part[:2], 'little'):04x}" if length >= 2 else "1"
    return f"0 {hexed(part)} ; kind {kind}"


def marker_line(ids, index, primitive):
    """"The marker has length 2 and `raw_kind` 0xffff, but no bytes in either stream: its view is 8. A type item below 0x1000 is read as a
    primitive; any other type item, and every id item, by its bytes, the marker's giving 10 with 0xffff.\" The primitive's line is the crate's."""
    read = "10 65535" if ids or index >= 4096 else primitive
    return f"8 {index} ; kind ffff ; {read}"


def element_line(data, k, forms=False):
    """"Element k is read after those before it and their padding, the first refusal given, 15 if the list ends first; a leaf without a list is
    10.\" The elements are layouts.py's."""
    if len(data) < 2:
        return "1"
    leaf = int.from_bytes(data[:2], "little")
    if leaf not in layouts.LISTS:
        return f"10 {leaf}"
    line = layouts.type_record(data, forms)[0]
    if not line.startswith("0 "):
        return line
    parts = line.split(" ; ")[1:]
    return f"0 {parts[k]}" if k < len(parts) - 1 else parts[-1].removeprefix("end ")


def id_element_line(data, k):
    """"0x1603 u16 count, ids. 0x1604 u32 count, T each. A counted list is 1 unless four bytes per element are there.\""""
    if len(data) < 2:
        return "1"
    leaf = int.from_bytes(data[:2], "little")
    if leaf not in (0x1603, 0x1604):
        return f"10 {leaf}"
    start = 4 if leaf == 0x1603 else 6
    if len(data) < start:
        return "1"
    count = int.from_bytes(data[2:start], "little")
    if len(data) - start < 4 * count:
        return "1"
    return f"0 {int.from_bytes(data[start + 4 * k:start + 4 * k + 4], 'little')}" if k < count else "15"


def spelt(data, line):
    """A line that gives a name of this record as `place+length`, with the name's bytes after it."""
    part = re.fullmatch(r"0 (\d+)\+(\d+)", line)
    return line if part is None else f"{line} {hexed(data[int(part[1]):int(part[1]) + int(part[2])])}"


def table_of(word):
    return [] if word == "-" else [int(n) for n in word.split(",")]


def count_line(s):
    """"The record count is maximum minus minimum.\""""
    number = refused_header(s)
    if number is not None:
        return str(number)
    low, high = struct.unpack_from("<2I", s, 8) if s else (0, 0)
    return f"0 {high - low}" + (" empty" if high == low else "")


NAMED_TYPES = ("1504", "1505", "1519", "1609", "1506", "1507")
NAMED_MEMBERS = ("1502", "150d", "150e", "150f", "1510")


def name_in(line, leaves):
    """Of a record's line the name that the crate's `name` gives (docs/DECISIONS.md, 31)."""
    if not line.startswith("0 "):
        return line
    name = re.search(r" name=(\S+)", line) if line.split()[1] in leaves else None
    return "0 " + (name.group(1) if name else "-")


def by_rule(words, primitive):
    """The line of a command that only the port takes."""
    kind, n = words[0], words[1:]
    if kind == "next":
        return next_line(blob(n[0]), int(n[1]), int(n[2]))
    if kind == "create":
        return create_line(blob(n[0]), table_of(n[1]))
    if kind == "update":
        return update_line(int(n[0]), int(n[2]), table_of(n[3]), int(n[4]), int(n[5]))
    if kind == "findin":
        return find_line(blob(n[0]), int(n[1]), int(n[2]), int(n[3]), table_of(n[4]), int(n[5]))
    if kind == "maxindex":
        return str(highest(int(n[0]), int(n[2])))
    if kind == "createby":
        return create_line(blob(n[1]), table_of(n[2]), int(n[0]))
    if kind == "updateby":
        return update_line(int(n[1]), int(n[3]), table_of(n[4]), int(n[5]), int(n[6]), int(n[0]))
    if kind == "findinby":
        return find_line(blob(n[1]), int(n[2]), int(n[3]), int(n[4]), table_of(n[5]), int(n[6]), int(n[0]))
    if kind == "maxindexby":
        return str(highest(int(n[1]), int(n[3]), int(n[0])))
    if kind == "findby":
        return find_by_lines(blob(n[1]), int(n[0]), n[2], n[3])
    if kind == "save":
        return places.save_line(int(n[0]), int(n[1]), blob(n[2]), int(n[3]), int(n[4]), int(n[5]), table_of(n[6]))
    if kind == "load":
        return places.load_line(blob(n[0]), blob(n[1]), table_of(n[2]))
    if kind in ("writeheader", "write", "rewrite", "rewriteid"):
        return writing.answer(words)
    if kind in sections.COMMANDS:
        return sections.answer(words)
    if kind == "view":
        return view_line(blob(n[0] if n[2] == "t" else n[1]), int(n[3]), int(n[4]))
    if kind == "marker":
        return marker_line(n[0] == "i", int(n[1]), primitive)
    if kind == "element":
        return element_line(blob(n[1]), int(n[0]))
    if kind in ("idelement", "idat"):
        return id_element_line(blob(n[1]), int(n[0]))
    if kind == "membername":
        return spelt(blob(n[1]), name_in(element_line(blob(n[1]), int(n[0])), NAMED_MEMBERS))
    if kind == "declare":
        return declaring.line(words)
    if kind == "count":
        return count_line(blob(n[0]))
    if kind == "cross":
        return "ti." if int(n[0]) >= 2 ** 31 else "."
    if kind in ("wunsigned", "wsigned"):
        return layouts.number_line(blob(n[0]), kind == "wsigned", True)[0]
    if kind == "wtype":
        return layouts.type_record(blob(n[0]), True)[0]
    if kind == "welement":
        return element_line(blob(n[1]), int(n[0]), True)
    return None


PORT_ONLY = ("next", "create", "update", "findin", "maxindex", "view", "marker", "element", "idelement", "count", "cross",
             "membername", "idat", "createby", "updateby", "findinby", "maxindexby", "findby", "wunsigned", "wsigned", "wtype", "welement", "save", "load",
             "writeheader", "write", "rewrite", "rewriteid", *sections.COMMANDS, "declare")


# ---- words that should be BYTES ----

# Where a command has its BYTES, the command itself being word 0; most have them as word 1.
BYTES_AT = {**dict.fromkeys(("itemtype", "itemid", "string", "element", "idelement", "idat", "membername", "createby", "findinby", "findby", "welement",
                            "seccreate", "sectpi", "declare"), (2,)),
            "view": (1, 2), "load": (1, 2), "save": (3,),
            **dict.fromkeys(("prim", "word", "opttype", "optid", "update", "maxindex", "updateby", "maxindexby", "marker", "cross", "writeheader",
                            "write"), ())}
MOST_BYTES = 65536


def no_bytes(words):
    """"Where it is missing, or has another letter than 0 to 9 and a to f, or an odd number of digits.\""""
    given = [words[at] if at < len(words) else "" for at in BYTES_AT.get(words[0], (1,))]
    return any(w != "-" and not re.fullmatch("([0-9a-f]{2})+", w) for w in given)


# ---- the crate's lines ----

def record_line(o, data, why):
    """A type record: the crate's line where it is 01's, else 01's where a line of docs/DIFFERENCES.md says why."""
    line, reasons = layouts.type_record(data)
    if not compare.same_record(o, line):
        reasons = compare.record_reasons(o, line, reasons)
        if not reasons:
            raise Unexplained(f"type {hexed(data)}: the crate {o}, layouts.py {line}")
        why.update(reasons)
    return line


def number_line(o, data, signed, why):
    line, reasons = layouts.number_line(data, signed)
    if o != line:
        if not reasons:
            raise Unexplained(f"number {hexed(data)}: the crate {o}, layouts.py {line}")
        why.update(reasons)
    return line


def walk_lines(words, o, why):
    """Item lines are the crate's; a record's line under an item as above. The crate wraps at the last index, the port says 7 (index-used-up)."""
    stream, out, part = blob(words[1]), [], b""
    for line in o:
        item = re.fullmatch(r"(\d+) [0-9a-f]{4} (\d+)\+(\d+)", line)
        if item and int(item.group(1)) == TOP:
            why.add("index-used-up")
            return out + ["refused 7"]
        if item:
            part = stream[int(item.group(2)):int(item.group(2)) + int(item.group(3))]
        out.append("  " + record_line(line[2:], part, why) if line.startswith("  ") and words[0] == "parse" else line)
    return out


def find_lines(words, o, why):
    """The crate's lines, with the links passed by lengths alone. Near 2^32 the crate's highest index wraps (max-held): 01 holds it."""
    if not o[0].startswith("places"):
        return o
    stream = blob(words[1])
    low, _ = compare.header_of(stream)
    if low + int(words[2].lstrip("u")) > TOP and len(o) > 0 and "u" not in words[2] and int(words[2]) > 0:
        raise Unexplained(f"{' '.join(words)[:80]}: the crate's index wraps, and no rule is written for that here")
    places = [int(n) for n in re.findall(r"\d+", o[0])]
    held = highest(low, len(places))
    if o[1] != f"max {held}":
        if 8 * len(places) + low <= TOP:
            raise Unexplained(f"{' '.join(words)[:80]}: {o[1]}")
        why.add("max-held")
    out = [o[0], f"max {held}"]
    for line in o[2:]:
        found = re.fullmatch(r"(\d+) 0 (\d+\+\d+|marker 2 ffff)", line)
        cut = re.fullmatch(r"(\d+) 1", line)
        late = re.fullmatch(r"(\d+) 9 \d+ \d+", line)
        if found:
            links = 0 if "marker" in line else (int(found.group(1)) - low) % 8
            line = f"{line} links={links}"
        elif cut:
            d = int(cut.group(1)) - low
            line = f"{line} {compare.links_before_end(stream, places[d // 8], d % 8)}"
        elif late:
            line = f"{late.group(1)} 9 {late.group(1)} {held}"
        elif not re.fullmatch(r"(\d+) 8 \1", line):
            raise Unexplained(f"{' '.join(words)[:80]}: {line}")
        out.append(line)
    return out


def by_crate(words, o, why):
    """The expected lines of a command that the crate was asked."""
    kind = words[0]
    if kind == "type" or kind == "itemtype" and int(words[1]) >= 4096:
        return [record_line(o[0], blob(words[-1]), why)]
    if kind == "name":
        line, reasons = layouts.type_record(blob(words[1]))
        name = name_in(line, NAMED_TYPES)
        if o != [name] and not line.endswith(f" ; end {o[0]}"):
            if not reasons:
                raise Unexplained(f"{' '.join(words)}: the crate {o}, layouts.py {name}")
            why.update(reasons)
        return [name]
    if kind in ("unsigned", "signed"):
        return [number_line(o[0], blob(words[1]), kind == "signed", why)]
    if kind == "word":
        for line in o:
            why.update(layouts.word_line(line)[1])
        return [layouts.word_line(line)[0] for line in o]
    if kind in ("walk", "parse", "parseids"):
        return walk_lines(words, o, why)
    if kind in ("find", "findids"):
        return find_lines(words, o, why)
    if kind == "kind" and len(blob(words[1])) < 2:
        why.add("short-kind")
        return ["1"]
    if kind in ("id", "itemid") and o == ["abort"] and blob(words[-1])[:2] == b"\x04\x16":
        why.add("count-memory")
        return ["1"]
    if kind == "prim" and int(words[2]) > 4096:
        why.add("primitive-from-4096")
        return [line if int(line.split()[0]) < 4096 else f"{line.split()[0]} 8 {line.split()[0]}" for line in o]
    return o


def kept_lines(replay):
    """The lines of each command in the two files. How many each has, REPLAY says, which must answer them all as they stand."""
    given, wanted = (open(os.path.join(HERE, "..", "tests", "vectors", f"replay.{end}"), encoding="ascii").read().split("\n")[:-1] for end in ("in", "out"))
    got = compare.answers(replay, given)
    if [line for lines in got for line in lines] != wanted:
        raise SystemExit("REPLAY answers otherwise than tests/vectors/replay.out has it")
    return dict(zip(given, got))


def unknown_leaf(command):
    """The crate's line of a record that is too short for a leaf, or whose leaf it does not know: what is known of the crate without it."""
    kind, data = command.split()[0], blob(command.split()[-1])
    leaf = int.from_bytes(data[:2], "little")
    if kind not in ("type", "name") or len(data) > 1 and (leaf not in MADE or leaf in layouts.NEWER):
        raise Unexplained(f"{command[:80]}: the crate must be asked")
    return [f"10 {leaf}" if len(data) > 1 else "1"]


# ---- the commands ----

# A good record of every leaf, which is cut at every length; of a type leaf that has nothing special it is made by its layout.
GOOD_TYPES = {
    0x1001: "0110 74000000 0300", 0x1002: "0210 74000000 4c000100 02100000", 0x1008: "0810 03000000 0002 0100 01100000",
    0x1009: "0910 03000000 02100000 04100000 0b06 0100 01100000 f8ffffff", 0x1205: "0512 74000000 03 05",
    0x1503: "0315 74000000 23000000 2800 6e6d00", 0x1504: "0415 0100 0002 01100000 00000000 03100000 0280 0a00 4100 4200",
    0x1505: "0515 0200 0000 01100000 02100000 ffff0000 0480 0000ff00 41424300", 0x1519: "1915 0000 8000 00000000 00000000 00000000 0000 4900",
    0x1506: "0615 0200 0002 01100000 0400 5500 5600", 0x1507: "0715 0200 0002 74000000 01100000 4500 4600",
    0x1609: "0916 00020000 16100000 00000000 00000000 0200 0600 4800 4900", 0x000a: "0a00 0300 5505",
    0x1201: "0112 02000000 74000000 01100000", 0x1206: "0612 0300 0000 01100000 1300 0000 02100000 10000000",
    0x1203: "0312 0d15 0300 74000000 0400 6100 f2f1 0d15 0300 75000000 0800 6200",
}
MADE = {leaf: writing.made(leaf).hex() for leaf in layouts.RECORDS if leaf not in GOOD_TYPES}
GOOD_MEMBERS = {
    0x1400: "0014 0300 01100000 0a80 0000000001000000", 0x1401: "0114 0300 01100000 02100000 0400 0280 0008",
    0x1402: "0214 0300 01100000 02100000 0400 0c00",
    0x1404: "0414 0000 02100000", 0x1409: "0914 0000 01100000", 0x1502: "0215 0300 0180 ffff 6100",
    0x150d: "0d15 0300 74000000 0480 00000100 6d00",
    0x150e: "0e15 0300 74000000 7300", 0x150f: "0f15 0200 01100000 6d00", 0x1510: "1015 0300 01100000 6e00",
    0x1511: "1115 1300 01100000 18000000 6e00",
}
GOOD_IDS = {
    0x1601: "0116 02100000 01100000 666700", 0x1602: "0216 01100000 02100000 6d00", 0x1603: "0316 0200 01100000 02100000",
    0x1604: "0416 02000000 01100000 02100000", 0x1605: "0516 00000000 7300", 0x1606: "0616 01100000 02100000 07000000",
    0x1607: "0716 01100000 05000000 07000000 0300",
}

# The records of the crate's data.rs: its test, and the arrays of its comment.
CRATE_1609 = bytes([9, 22, 0, 2, 0, 0, 22, 16, 0, 0, 0, 0, 0, 0, 0, 0, 0, 0, 2, 0, 6, 0, 72, 95, 115, 105, 122, 101, 0,
                    46, 63, 65, 85, 72, 95, 115, 105, 122, 101, 64, 64, 0])
CRATE_ARRAYS = [packed(f"0315 {rest}") for rest in (
    "a0dc0b00 23000000 4000 00 f1", "a0dc0b00 23000000 5000 00 f1", "a9120000 23000000 5002 00 f1", "ac120000 23000000 6c00 00 f1",
    "14100000 23000000 8000 00 f1", "75000000 23000000 2800 00 f1", "14100000 23000000 700e 00 f1", "31140000 23000000 0402 00 f1",
    "31140000 23000000 0e03 00 f1", "77130000 23000000 0280bdda 00 f3f2f1", "b7160000 23000000 2800 00 f1", "14100000 23000000 5500 00 f1")]

# The largest counts: nothing is there for them, or four bytes.
LARGEST = ["type 011200000040", "type 01120000004074000000", "type 0112ffffffff", "type 0112ffffffff74000000", "id 0316ffff", "id 0316ffff01100000",
           "id 0416ffffffff", "id 041600000040", "type 0a00ffff", "type 0a00ffff55", "type 0a00ffff" + "55" * 32768,
           "element 0 0112ffffffff", "element 4294967295 0112ffffffff", "idelement 0 0416ffffffff", "idelement 65535 0316ffff"]

# Stream E of 01, and its examples: each command with the lines that 01 says.
E = header() + packed("0800 0110 74000000 0100 0a00 0210 00100000 0c000100")
POINTER = "member=0 ref=0 flat32=0 volatile=0 const=0 unaligned=0 restrict=0"
NO_COMMANDS = ["frobnicate", "antidisestablishmentarianism 12"]
# Words that should be bytes and are not: another letter, upper case, half a byte, a minus too many, a file, none at all, one byte too many.
NO_BYTES = [f"{kind} {word}" for kind in ("header", "kind", "type") for word in
            ("zz", "0g", "011", "0", "01z", "0B", "0110AA", "--", "-00", "00-", "@e.tpi", "01,02", "")]
NO_BYTES += ["rewrite 0", "rewrite 0G", "rewrite", "rewriteid 051", "rewriteid =00", "rewriteid", "save 99 3 0 4096 4098 1 56", "load 0 - 7", "load - zz 7", "createby 3 0 7", "findby 3 0g 0 0", "findinby 3 zz 4096 4120 0 - 4096", "find zz 0 0,1", "find 0 3 4096", "next 001 0 0", "create 0 7", "findin zz 4096 4120 0 - 4096", "view 0 01 t 0 0", "view 01 0 t 0 0",
             "view zz zz i 0 0", "view 01", "string 4611 4", "element 0 031", "itemtype 4096 0X10", "membername 0 0", "count 5"]
MOST = "padding " + "f1" * MOST_BYTES
EXAMPLES = [
    (f"walk {E.hex()}", ["4096 1001 58+8", "4097 1002 68+10", "done 4098 78"]),
    (f"parse {E.hex()}", ["4096 1001 58+8", "  0 1001 t=116 const=1 volatile=0 unaligned=0", "4097 1002 68+10", "  0 1002 t=4096 word=65548 class=-",
                          "done 4098 78"]),
    (f"find {E.hex()} 0 4096,4097,4098,4099,4095", ["places [56]", "max 4103", "4096 0 58+8 links=0", "4097 0 68+10 links=1", "4098 1 2",
                                                    "4099 8 4099", "4095 0 marker 2 ffff links=0"]),
    ("word ptr 65548 65549 1", [f"ptr 65548 kind=12 mode=0 {POINTER} size=8 mocom=0"]),
    ("word ptr 13 14 1", [f"ptr 13 kind=r12 mode=0 {POINTER} size=r12 mocom=0"]),
    ("type 0210000000000d000000", ["12"]),
    ("find - 0 0,1", ["places []", "max 0", "0 9 0 0", "1 8 1"]),
    (f"header {header()[:55].hex()}", ["1"]),
    (f"header {header(size=55).hex()}", ["2"]),
    (f"header {(header(size=1025) + bytes(1000)).hex()}", ["3"]),
    ("padding f3f2f1", ["0 3"]),
    ("padding f041", ["0 1"]),
    ("padding f2", ["1"]),
    ("prim 1652 1653", ["1652 0 prim kind=I32 ind=Near64"]),
    ("prim 2164 2165", ["2164 8 2164"]),
    ("prim 4 5", ["4 8 4"]),
    # "Slips we expect": the iterator's length rule is not `find`'s; 0x8001 is signed; a count times four is more than 32 bits.
    (f"walk {header().hex()}0100410200ffff", ["refused 6"]),
    (f"find {header().hex()}0100410200ffff 0 4096,4097,4098", ["places [56]", "max 4103", "4096 0 58+1 links=0", "4097 0 61+2 links=1", "4098 1 2"]),
    ("type 0312021503000180ffff6100", ["0 1203 ; 1502 a=3 v=-1 name=10+1 ; end 15"]),
    ("type 011200000040", ["1"]),
    (f"type {CRATE_1609.hex()}", ["0 1609 kind=Struct19 count=2 props=512 fields=4118 derived=- shape=- size=6 name=22+6 unique=29+12"]),
]

# 02's R-2: "two bits of hfa at 11 and 12, intrinsic at 13 and mocom at 14 and 15; in the pointer word ismocom is bit 19"; its size stays bits 13 to 18.
CVINFO = [(f"word props {w} {w + 1} 1", [f"props {w} 00000000000 hfa={hfa} intrinsic={intrinsic} mocom={mocom}"]) for w, hfa, intrinsic, mocom in (
    (0x0800, 1, 0, 0), (0x1000, 2, 0, 0), (0x1800, 3, 0, 0), (0x2000, 0, 1, 0), (0x3000, 2, 1, 0), (0x4000, 0, 0, 1), (0x6000, 0, 1, 1),
    (0x8000, 0, 0, 2), (0xa000, 0, 1, 2), (0xc000, 0, 0, 3), (0xf800, 3, 1, 3))]
CVINFO += [(f"word ptr {w} {w + 1} 1", [f"ptr {w} kind=10 mode=0 {POINTER} size={size} mocom={mocom}"]) for w, size, mocom in (
    (0x2000a, 16, 0), (0x4000a, 32, 0), (0x7e00a, 63, 0), (0x8000a, 4, 1), (0xc000a, 32, 1), (0x10000a, 4, 0))]
CVINFO += [(f"word ptr {w} {w + 1} 1", [f"ptr {w} kind=0 mode=0 {POINTER} size={size} mocom={mocom}"]) for w, size, mocom in (
    (0x40000, 32, 0), (0x80000, 0, 1), (0xc0000, 32, 1))]


# 02's R-4: "a size of 5 stored behind a prefix against a size of 5 stored plain"; an equally long form is no shorter one.
FORMS = [("wunsigned 0500", ["0 5/2/0 next=2"]), ("wunsigned 02800500", ["0 5/4/1 next=4"]), ("wsigned 0380000001008000", ["0 65536/6/0 next=6"]),
         ("wsigned 0080ff", ["0 -1/3/0 next=3"]), ("wsigned 0180ffff", ["0 -1/4/1 next=4"]), ("wunsigned 0180ffff", ["11"]),
         ("wtype 0315741000002300000002800500", ["1"]), ("wtype 031574100000230000000280050000", ["0 1503 elem=4212 idx=35 size=5/4/1 name=14+0"]),
         ("welement 0 03120215030000807f4100", ["0 1502 a=3 v=127/3/1 name=9+1"])]


def number_forms(value):
    """Every form that carries a number, from 01's prefixes."""
    if 0 <= value < 0x8000:
        yield value.to_bytes(2, "little")
    for prefix, (width, signed) in layouts.NUMBERS.items():
        try:
            yield prefix.to_bytes(2, "little") + value.to_bytes(width, "little", signed=signed)
        except OverflowError:
            pass


# Numbers on both sides of every bound of a form.
BOUNDS = [0, 5] + [b + d for e in (7, 8, 15, 16, 31, 32, 63, 64) for b in (1 << e, -(1 << e)) for d in (-1, 0)]


def form_commands():
    """R-4: numeric leaves in every form, alone and in every record and member that has one."""
    for value in BOUNDS:
        for form in number_forms(value):
            yield f"wunsigned {form.hex()}"
            yield f"wsigned {form.hex()}00"
            yield f"wsigned {form[:-1].hex()}"
    for prefix in (0x8005, 0x8008, 0x800b, 0x8100, 0xffff):
        yield f"wunsigned {prefix.to_bytes(2, 'little').hex()}0000000000000000"
        yield f"wsigned {prefix.to_bytes(2, 'little').hex()}0000000000000000"
    for value in (5, 0x7fff, 0x8000, 65536, 2 ** 31, 2 ** 32, 2 ** 64 - 1, -1, -129):
        for form in number_forms(value):
            n = form.hex()
            for leaf in ("0415", "0515", "1915"):
                yield f"wtype {leaf}01000000000000000000000000000000{n}4100"
            yield f"wtype 03157410000023000000{n}4100f1"
            yield f"wtype 06150100000200100000{n}410042004300"
            yield f"wtype 0916000200000000000000000000000000000100{n}41004200"
            yield from (f"wtype {writing.made(leaf, form).hex()}" for leaf in MADE)
            for member in (f"0014030074100000{n}", f"0114030074100000751000000500{n}", f"021403007410000075100000{n}{n}", f"02150300{n}4100", f"0d15030074100000{n}4100"):
                yield f"wtype 0312{member}f1"
                yield f"welement 0 0312{member}"
                yield f"welement 1 0312{member}f2f1{member}"
                yield f"welement 2 0312{member}{member}"
    # what has no numeric leaf is shown as without the w
    for command in ("type 0210001000000c000100", "type 0112020000007400000002100000", "type 0a00020055", "type 0110"):
        yield f"w{command}"
    yield "welement 0 06120300000000100000"
    yield "welement 1 0112020000007400000002100000"
    yield "welement 0 0a00020055"


def prefixes():
    """Every prefix of a good record of every leaf, a member inside a field list."""
    for record in {**GOOD_TYPES, **MADE}.values():
        yield from (("type", packed(record)[:n]) for n in range(len(packed(record)) + 1))
    for record in GOOD_MEMBERS.values():
        whole = packed("0312" + record)
        yield from (("type", whole[:n]) for n in range(2, len(whole) + 1))
    for record in GOOD_IDS.values():
        yield from (("id", packed(record)[:n]) for n in range(len(packed(record)) + 1))


def paper_inputs():
    """The inputs of docs/DIFFERENCES.md that the port takes."""
    with open(os.path.join(HERE, "..", "docs", "DIFFERENCES.md"), encoding="utf-8") as f:
        for line in f:
            for text in re.findall(r"\| `([a-z]+ [^`]*)` \|", line):
                if text.split()[0] in protocol_commands():
                    yield re.sub(r"H\((\d+),(\d+)\)", lambda m: header(int(m.group(1)), int(m.group(2))).hex(), text)


def record_commands(rng):
    for kind, data in prefixes():
        yield f"{kind} {hexed(data)}"
    for data in [CRATE_1609] + CRATE_ARRAYS:
        yield f"type {data.hex()}"
    yield from LARGEST
    yield from paper_inputs()
    more_types, more_ids = ([packed(r) for r in records] for records in (make_inputs.TYPE_RECORDS, make_inputs.ID_RECORDS))
    types = [packed(r) for r in GOOD_TYPES.values()] + [packed("0312" + r) for r in GOOD_MEMBERS.values()] + more_types
    ids = [packed(r) for r in GOOD_IDS.values()] + more_ids
    for data in more_types:
        yield f"type {data.hex()}"
    for data in more_ids:
        yield f"id {data.hex()}"
    for data in types:
        for pad in ("00", "f1", "f3", "41"):
            yield f"type {data.hex()}{pad}"
    for leaf in [0, 9, 11, 0x1000, 0x1003, 0x1202, 0x1204, 0x1403, 0x1500, 0x1501, 0x1512, 0x1602, 0x1608, 0x160a, 0xffff] + ID_LEAVES:
        yield f"type {struct.pack('<H', leaf).hex()}{'00' * 24}"
        yield f"type 0312{struct.pack('<H', leaf).hex()}{'00' * 24}"
    for leaf in [0, 10, 0x1001, 0x1201, 0x1203, 0x1600, 0x1608, 0x1609, 0xffff]:
        yield f"id {struct.pack('<H', leaf).hex()}{'00' * 24}"
    for _ in range(400):
        yield f"type {hexed(make_inputs.damaged(rng.choice(types)))}"
    for _ in range(150):
        yield f"id {hexed(make_inputs.damaged(rng.choice(ids)))}"
    for index in (0, 3, 116, 1652, 2164, 4095, 4096, 4097, TOP):
        yield f"itemtype {index} 01107400000001"
        yield f"itemtype {index} 0110740000000100"
        yield f"itemid {index} 05160000000073"
        yield f"itemid {index} 05160000000061620000"
    for data in types + [b"", b"\x03"]:
        for k in (0, 1, 2, TOP):
            yield f"element {k} {hexed(data)}"
    for data in ids + [b"", b"\x03"]:
        for k in (0, 1, 2, TOP):
            yield f"idelement {k} {hexed(data)}"


def made_commands():
    """The same of the records that are made. They are drawn last, so that a new leaf leaves the commands of the others as they are, and keep their leaf."""
    for record in map(packed, MADE.values()):
        for pad in ("00", "f1", "f3", "41"):
            yield f"type {record.hex()}{pad}"
        for _ in range(40):
            yield f"type {(record[:2] + make_inputs.damaged(record[2:])).hex()}"
        yield from (f"element {k} {record.hex()}" for k in (0, 1, TOP))
        yield f"element 0 0312{record.hex()}"


def word_commands(rng):
    yield "prim 0 128"
    for first in range(256, 4096, 256):
        yield f"prim {first + 0x10} {first + 0x14}"
        yield f"prim {first + 0x74} {first + 0x77}"
    yield "prim 255 257"
    yield "prim 4094 4098"
    for kind in ("props", "field", "func"):
        for bit in [0] + [2 ** k for k in range(16)] + [65535] + [rng.randrange(65536) for _ in range(20)]:
            yield f"word {kind} {bit} {bit + 1} 1"
    for w in list(range(32)) + [32 * mode + kind for mode in range(1, 8) for kind in (0, 12, 13)]:
        yield f"word ptr {w} {w + 1} 1"
    for w in [2 ** k + 12 for k in range(8, 32)] + [rng.randrange(2 ** 32) for _ in range(40)]:
        yield f"word ptr {w} {w + 1} 1"
    yield "word field 0 64 13"
    for n in (0, 1, 4095, 4096, 65534, 65535, 65536, TOP):
        yield f"opttype {n}"
        yield f"optid {n}"
    for data in ("-", "00", "ff", "0110", "ffff", "0312aa"):
        yield f"kind {data}"
    for name in ("unsigned", "signed"):
        for data in ("-", "00", "ff7f", "0080"):
            yield f"{name} {data}"
        for prefix in [0, 1, 0x7fff] + list(range(0x8000, 0x800c)) + [0xffff]:
            for byte in ("00", "7f", "80", "ff"):
                for n in (0, 1, 2, 3, 4, 7, 8, 9):
                    if n in (0, 8) or byte == "80":
                        yield f"{name} {struct.pack('<H', prefix).hex()}{byte * n}"
    for leaf in (0x1203, 0x14ff, 0x1500, 0x1501, 0xffff):
        for data in ("-", "00", "41", "0141", "0241", "024142", "4100", "414200ff", "0341424344"):
            yield f"string {leaf} {data}"
    for data in ["-", "00", "ef", "f0", "f1", "f2", "f3", "ff", "f000", "f1f1", "f2f1", "f2ff", "f3f2f1f0", "f0f0f0", "ff" + "00" * 14,
                 "ff" + "00" * 13, "f1f2aaf3"]:
        yield f"padding {data}"


def small_commands():
    """The functions that no other command asks."""
    for s in (b"", header(), header(4096, 4096), header(4096, TOP), header()[:55], header(size=55), header(size=1025), header(4095), header(4096, 4095)):
        yield f"count {hexed(s)}"
    for n in (0, 4096, 2 ** 31 - 1, 2 ** 31, TOP):
        yield f"cross {n}"
    for record in {**GOOD_TYPES, **MADE}.values():
        yield f"name {hexed(packed(record))}"
        yield f"name {hexed(packed(record)[:-1])}"
        for k in (0, 1, 2):
            yield f"membername {k} {hexed(packed(record))}"
    for record in GOOD_MEMBERS.values():
        yield f"membername 0 {hexed(packed('0312' + record))}"
        yield f"membername 1 {hexed(packed('0312' + record))}"
    for record in list(GOOD_IDS.values()) + ["", "01", GOOD_TYPES[0x1201]]:
        for k in (0, 1, 2, TOP):
            yield f"idat {k} {hexed(packed(record))}"


def stream_commands(rng):
    good = header() + packed("0200 0000 0300 010203")
    for n in range(57):
        yield f"header {hexed(header()[:n])}"
    for size, length in ((0, 56), (55, 56), (56, 56), (57, 56), (57, 57), (1024, 1023), (1024, 1024), (1025, 1025), (TOP, 60)):
        for low, high in ((4095, 4096), (4096, 4096), (4096, 4095), (TOP, TOP)):
            yield f"header {hexed((header(low, high, size) + bytes(2000))[:length])}"
    every = "0bca3101 38000000 00100000 02100000 16000000 0900 ffff 04000000 ffff0300 ffffffff 04000000 00000080 08000000 ffffff7f 0c000000"
    yield f"header {packed(every).hex()}"
    for lengths in ((), (2,), (2, 2), (0,), (1,), (2, 1, 2), (3, 0, 4), tuple(range(2, 12)), (2,) * 17, (4,) * 8):
        body = make_inputs.links(lengths)
        for cut in (0, 1, 2, 3):
            if cut > len(body):
                continue
            size = 60 if cut == 1 else 56
            s = header(4096, 4096 + 10, size) + bytes(size - 56) + body[:len(body) - cut]
            yield f"walk {s.hex()}"
            yield f"find {s.hex()} {rng.choice(['', 'u'])}{rng.choice([0, 1, 7, 8, 9, 20])} 0,4095,4096,4097,4103,4104,4105,4106,4107,{TOP}"
            yield f"findids {s.hex()} {rng.choice([0, 8, 20])} 0,4095,4096,4099,4104,4106,4107,{TOP}"
    for low in (TOP - 9, TOP - 8, TOP - 7, TOP - 1, TOP):
        s = header(low, TOP) + make_inputs.links((2, 2))
        yield f"walk {s.hex()}"
        yield f"find {s.hex()} 0 {low - 1},{low},{TOP}"
    yield "walk -"
    yield "parse -"
    for s in (b"", header(), header()[:40]):
        yield f"find {hexed(s)} {WHOLE} 0,4096"
    yield "find - u0 0,1"
    yield "find - 3 0,1"
    # next: any cursor.
    for at in (0, 54, 55, 56, 57, 58, 59, 60, 61, 62, 64, 65, 66, 2 ** 32, 2 ** 64 - 1):
        for index in (0, 4096, TOP - 1, TOP):
            yield f"next {good.hex()} {at} {index}"
            yield f"next {good.hex()}00 {at} {index}"
    yield "next - 0 0"
    yield "next - 1 0"
    for cut in range(1, 12):
        yield f"next {good[:-cut].hex()} 60 7"
    # create: any stream and table.
    for s in (b"", header(), header(4096, 4096), header()[:55], header(size=55), header(size=1025), header(size=57), header(4095),
              header(4096, 4095), E):
        for t in ("-", "7", "7,8,9"):
            yield f"create {hexed(s)} {t}"
    # update: any finder, table and cursor; a table exactly full and one short.
    for low in (0, 4096):
        for held, t in ((0, "-"), (0, "5"), (1, "5"), (1, "5,6"), (2, "5,6"), (2, "5"), (3, "5,6"), (2 ** 64 - 1, "5,6"), (0, "5,6,7")):
            for d in (0, 1, 7, 8, 9, 16, 24):
                yield f"update {low} {low + 30} {held} {t} 99 {low + d}"
            for at in (0, LONGEST, LONGEST + 1, 2 ** 64 - 1):
                yield f"update {low} {low + 30} {held} {t} {at} {low + 8 * (held if held < 9 else 0)}"
                yield f"update 4096 4100 {held} {t} {at} 4095"
    # findin and maxindex: any finder.
    s = header(4096, 4120) + make_inputs.links((2, 0, 1, 3, 2, 2, 2, 2, 4, 2))
    for held, t in ((0, "-"), (0, "56"), (1, "56"), (1, "57"), (1, "60,56"), (2, "56,88"), (2, "56,84"), (2, "56"), (2, f"56,{TOP}"),
                    (1, str(len(s))), (3, "56,60,0")):
        for i in (0, 4095, 4096, 4097, 4099, 4103, 4104, 4105, 4112, 4120, 4121, TOP):
            yield f"findin {s.hex()} 4096 4120 {held} {t} {i}"
    yield "findin - 0 0 1 0 0"
    yield "findin - 5 4 0 - 4"
    for low, held in ((0, 0), (4096, 0), (0, 1), (4096, 1), (4096, 2), (TOP - 8, 1), (TOP - 7, 1), (TOP - 6, 1), (TOP, 1), (4096, 2 ** 29),
                      (0, 2 ** 64 - 1)):
        yield f"maxindex {low} {TOP} {held}"
    # The finder by its shift: every shift that is taken, and some that are not; creation also where there is no room and no record.
    for shift in SHIFTS:
        for s in (b"", header(), header(4096, 4096), header()[:55], header(size=55), header(4096, 4095), E):
            for t in ("-", "7", "7,8"):
                yield f"createby {shift} {hexed(s)} {t}"
        block = 1 << min(shift, 7)
        for low in (0, 4096):
            for held, t in ((0, "-"), (0, "5"), (1, "5"), (1, "5,6"), (2, "5,6"), (3, "5,6"), (2 ** 58, "5,6"), (2 ** 64 - 1, "5,6")):
                for d in sorted({0, 1, block - 1, block, block + 1, 2 * block, 3 * block}):
                    yield f"updateby {shift} {low} {low + 300} {held} {t} 99 {low + d}"
                yield f"updateby {shift} {low} {low + 300} {held} {t} {LONGEST + 1} {low}"
                yield f"updateby {shift} 4096 4100 {held} {t} 99 4095"
        count = 2 * block + 6
        s = header(4096, 4100 + count) + make_inputs.links((2, 0, 1, 3) + (2,) * (count - 4))
        starts = [56]
        while link(s, starts[-1]) is not None:
            starts.append(sum(link(s, starts[-1])))
        places = starts[::block][:3]
        for held, t in ((0, "-"), (1, "56"), (len(places), ",".join(str(p) for p in places)), (2, "56"), (2, f"56,{TOP}")):
            for i in sorted({0, 4095, 4096, 4096 + block - 1, 4096 + block, 4096 + block + 1, 4096 + 2 * block, 4095 + count, 4096 + count,
                              4100 + count, 4101 + count, TOP}):
                yield f"findinby {shift} {s.hex()} 4096 {4100 + count} {held} {t} {i}"
        # the highest index, around its bounds
        most = TOP // block
        for low, held in ((0, 0), (0, 1), (4096, 1), (4096, 2), (0, most), (0, most + 1), (1, most), (2, most), (TOP - block, 1), (TOP - block + 1, 1),
                          (TOP - block + 2, 1), (TOP, 1), (TOP, 2 ** 32 - 1), (TOP, 2 ** 32), (0, 2 ** 58), (0, 2 ** 64 - 1)):
            if low <= TOP:
                yield f"maxindexby {shift} {low} {TOP} {held}"
        # a chain that `next` follows, so that every record is walked
        s = header(4096, 4100 + count) + make_inputs.links((2, 3, 4) + (2,) * (count - 3))
        for n in sorted({0, 1, block - 1, block, block + 1, 2 * block, count, WHOLE}):
            yield (f"findby {shift} {s.hex()} {n} 0,4095,4096,4097,{4096 + block - 1},{4096 + block},{4096 + 2 * block},{4095 + count},{4096 + count},"
                   f"{4100 + count},{4101 + count},{TOP}")
        yield f"findby {shift} {s.hex()} u{block} 4096,{4096 + block},{4096 + 2 * block}"
        yield f"findby {shift} {E.hex()} 2 4095,4096,4097,4098,4099"
        yield f"findby {shift} - 0 0,1"
        yield f"findby {shift} {header()[:40].hex()} 0 0"
        yield f"findby {shift} {header(size=1025).hex()} 5 4096"
    # as many records as 65,536 bytes can have: with a place for each, and with the fewest
    s = header(4096, 4096 + 20000) + make_inputs.links((2,) * 16370)
    for shift in (0, 6):
        yield f"findby {shift} {s.hex()} {WHOLE} 4095,4096,4097,12288,20465,20466,24096,24097"
    # view: both streams.
    for which in "ti":
        for place in (0, 1, 2, 3, 4, 5, 2 ** 63, 2 ** 64 - 1):
            for length in (0, 1, 2, 3, 4, 2 ** 64 - 1):
                yield f"view 01020304 a1a2a3 {which} {place} {length}"
        yield f"view - - {which} 0 0"
    for which in "ti":
        for index in (0, 3, 116, 1652, 2164, 4, 4095, 4096, TOP):
            yield f"marker {which} {index}"
    # Real streams: walked, parsed and looked up.
    for name in STREAMS:
        with open(os.path.join(HERE, "..", "samples", name), "rb") as f:
            s = f.read()
        ids = name.endswith(".ipi")
        low, high = struct.unpack_from("<II", s, 8)
        yield f"header {s[:56].hex()}"
        yield f"{'parseids' if ids else 'parse'} {s.hex()}"
        asked = {low - 1, low, low + 1, high - 1, high, high + 1} | set(range(low, high, max(1, (high - low) // 40)))
        asked = ",".join(str(i) for i in sorted(asked))
        yield f"{'findids' if ids else 'find'} {s.hex()} {high - low} {asked}"
        yield f"{'findids' if ids else 'find'} {s.hex()} {WHOLE} {asked}"
        if len(s) < 2000:
            yield f"{'findids' if ids else 'find'} {s.hex()} {(high - low) // 2} {low},{(low + high) // 2 + 9},{high - 1}"


# ---- places files: 02's R-3 ----

def place_streams():
    """Streams to keep the places of: E; one of 70 records, short ones and one of no byte; one whose chain breaks after 13; one that counts no record
    and has some; a header alone; the empty stream."""
    seventy = header(4096, 4166) + b"".join(struct.pack("<H", n) + bytes(n) for n in (k % 5 for k in range(70)))
    broken = header(4096, 4120) + b"".join(struct.pack("<H", 2) + bytes(2) for _ in range(13)) + b"\x09\x00\x01"
    uncounted = header(4096, 4096) + struct.pack("<H", 3) + bytes(3)
    return [E, seventy, broken, uncounted, header(4096, 4096), b""]


def place_commands():
    def load(s, file, t):
        return f"load {hexed(s)} {hexed(file)} {','.join(str(n) for n in t) or '-'}"

    def save(room, shift, s, low, high, held, t):
        return f"save {room} {shift} {hexed(s)} {low} {high} {held} {','.join(str(n) for n in t) or '-'}"

    for s in place_streams():
        low, high, size = places.header(s)
        for shift in SHIFTS:
            p = places.walked(s, min(shift, 6))
            whole = 4 * len(p) + 28
            # room exactly, one byte short, more; a table exactly as long, longer, one short; other bounds; a claim
            yield from (save(room, shift, s, low, high, len(p), p + [7]) for room in (whole, whole - 1, whole + 5, 0))
            yield save(whole, shift, s, low, high, len(p), p)
            yield from (save(70000, shift, s, low, high, held, p) for held in (len(p) + 1, 65535, 65536, 2 ** 64 - 1))
            yield from (save(0, shift, s, low + a, high + b, len(p) + 1, p) for a, b in ((1, 0), (0, 1), (1, 1)))
            yield save(whole, shift, s, low, high, 0, p)
            file = places.file_of(p, shift, low, high, len(s), size)
            yield from (load(s, file, t) for t in ([9] * len(p), [9] * (len(p) + 2), [9] * max(len(p) - 1, 0), []))
            # the first places alone, and none
            for n in range(min(len(p), 3)):
                yield load(s, places.file_of(p[:n], shift, low, high, len(s), size), [9] * 3)
            # a place of its own kind of wrong: one link on, one byte on or back, the one before it, past the end
            for k in sorted({0, 1, len(p) - 1} & set(range(len(p)))):
                for other in (places.links(s, p[k], 1), p[k] + 1, p[k] - 1, p[k - 1], len(s), 2 ** 32 - 1):
                    if other is not None:
                        yield load(s, places.file_of(p[:k] + [other] + p[k + 1:], shift, low, high, len(s), size), [9] * len(p))
            # one place more than the chain has
            yield load(s, places.file_of(p + [len(s)], shift, low, high, len(s), size), [9] * (len(p) + 1))
    # every byte of a good trailer changed; the file cut at every length, at both ends, and longer
    for s, shift in ((E, 3), (E, 0), (place_streams()[1], 4), (header(4096, 4096), 3), (b"", 3)):
        low, high, size = places.header(s)
        p = places.walked(s, shift)
        file = places.file_of(p, shift, low, high, len(s), size)
        for at in range(len(file)):
            for change in (1, 0x80, 0xff) if at >= len(file) - 28 else (1,):
                yield load(s, file[:at] + bytes([file[at] ^ change]) + file[at + 1:], [9] * len(p))
        yield from (load(s, file[:n], [9] * len(p)) for n in range(len(file)))
        yield from (load(s, file[n:], [9] * len(p)) for n in range(1, len(file)))
        yield from (load(s, other, [9] * len(p)) for other in (file + b"\x00", b"\x00" + file, file + file, bytes(4) + file))
    # the order of every pair: the stream's own, 20, 21, 13, 22
    good, low, high = place_streams()[1], 4096, 4166
    own = {"header small": header(4096, 4166, 55) + good[56:], "too few bytes": good[:40], "maximum low": header(4096, 4095) + good[56:]}
    for shift in (3, 5):
        p = places.walked(good, shift)
        wrong = {"letters": lambda f: f[:-1] + b"Y", "zero": lambda f: f[:-25] + b"\x01" + f[-24:], "shift": lambda f: f[:-26] + b"\x07" + f[-25:],
                 "distance": lambda f: f[:-8] + struct.pack("<I", len(f) - 4) + f[-4:], "count": lambda f: f[:-28] + struct.pack("<H", len(p) + 1) + f[-26:]}
        other = {"minimum": (low + 1, high, len(good), 56), "maximum": (low, high + 1, len(good), 56), "length": (low, high, len(good) + 1, 56),
                 "header size": (low, high, len(good), 60), "none": (low, high, len(good), 56)}
        for their, (a, b, n, size) in other.items():
            for off in (False, True):
                file = places.file_of(p[:1] + [q + 1 for q in p[1:]] if off else p, shift, a, b, n, size)
                for t in ([9] * len(p), [9] * (len(p) - 1)):
                    yield load(good, file, t)
                    yield from (load(good, change(file), t) for change in wrong.values())
                    yield from (load(s, file, t) for s in own.values())
                    yield from (load(s, wrong["letters"](file), t) for s in own.values())
        # and of the writer: the stream's own, 21, 26, 13, 19
        for s in [good] + list(own.values()):
            for a, b in ((low, high), (low + 1, high), (low, high - 1)):
                for by in (shift, 7):
                    for held in (len(p), len(p) + 1):
                        for room in (4 * held + 28, 4 * held + 27):
                            yield save(room, by, s, a, b, held, p)
    # places that a finder holds of a stream of the samples, saved and loaded
    for name in ("plain-x64.tpi", "rich-x64.ipi", "hand.tpi"):
        with open(os.path.join(HERE, "..", "samples", name), "rb") as f:
            s = f.read()
        low, high, size = places.header(s)
        for shift in range(7):
            p = places.walked(s, shift)
            yield save(70000, shift, s, low, high, len(p), p)
            yield load(s, places.file_of(p, shift, low, high, len(s), size), [0] * len(p))


# ---- records and headers to write: 02's R-1 ----

# The streams whose every record is read and written again.
REWRITTEN = ["plain-x64.tpi", "plain-x64.ipi", "hand.tpi", "hand.ipi"]


def write_commands():
    types = [packed(r) for r in GOOD_TYPES.values()] + [packed("0312" + r) for r in GOOD_MEMBERS.values()] + [CRATE_1609] + CRATE_ARRAYS
    types += [packed(r) for r in MADE.values()]
    yield from writing.write_commands(types, [packed(r) for r in GOOD_IDS.values()])
    for name in REWRITTEN:
        with open(os.path.join(HERE, "..", "samples", name), "rb") as f:
            s = f.read()
        at = link(s, places.header(s)[2])
        while at is not None:
            yield f"{'rewriteid' if name.endswith('.ipi') else 'rewrite'} {s[at[0]:sum(at)].hex()}"
            at = link(s, sum(at))


def unwritten(answer):
    """What the commands of R-1 should have and have not."""
    for leaf in writing.TYPE_LEAVES + writing.ID_LEAVES:
        for number in ("0", "17", "19"):
            if not any(re.match(rf"write \d+ {leaf:04x}\b", c) and lines[0].split()[0] == number for c, lines in answer.items()):
                yield f"write {leaf:04x} answered {number}"
        kind = "rewriteid" if leaf in writing.ID_LEAVES else "rewrite"
        if not any(c.startswith(f"{kind} {leaf.to_bytes(2, 'little').hex()}") and lines[0].startswith("0 ") for c, lines in answer.items()):
            yield f"{kind} {leaf:04x}"
    for leaf in layouts.MEMBERS:
        for number in ("0", "17", "19"):
            if not any(re.match(rf"write \d+ 1203 .*/ {leaf:04x}\b", c) and lines[0].split()[0] == number for c, lines in answer.items()):
                yield f"write of a member {leaf:04x} answered {number}"
    for kind, numbers in (("writeheader", "0 2 3 4 5 17 19"), ("write", "0 17 18 19"), ("rewrite", "0 1 10 11 12 18"), ("rewriteid", "0 1 10 18")):
        for number in numbers.split():
            if not any(c.startswith(f"{kind} ") and lines[0].split()[0] == number for c, lines in answer.items()):
                yield f"{kind} answered {number}"
    for command, said in writing.EXAMPLES:
        if answer.get(command) != [said]:
            yield f"an example of R-1: {command}"


# ---- what the list must have ----

def numbers_in(words, lines):
    """The numbers of 01's table that an answer shows."""
    for line in lines:
        parts = line.split()
        if words[0] in ("secwalk", "secparse"):
            if parts[0] == "refused" or len(parts) == 1:
                yield int(parts[-1])
        elif words[0] in ("walk", "parse", "parseids"):
            if parts[0] == "refused":
                yield int(parts[1])
        elif words[0] in ("find", "findids", "findby", "secfind", "prim"):
            if parts[0].isdigit() and len(parts) > 1:
                yield int(parts[1])
        elif words[0] not in ("word", "opttype", "optid", "maxindex", "maxindexby", "cross"):
            yield int(parts[0])
        yield from (int(n) for n in re.findall(r" ; end (\d+)", line))
        yield from (12 for _ in re.findall(r"=r12", line))


def protocol_commands():
    """The commands of PROTOCOL.md that the port takes, but for those over whole streams, whose vectors fitting.py writes."""
    with open(os.path.join(HERE, "PROTOCOL.md"), encoding="utf-8") as f:
        text = f.read()
    found = set()
    for title in ("## Commands that both take", "## Commands that only the port takes"):
        for line in text.split(title)[1].split("\n## ")[0].split("These are over whole streams")[0].split("\n"):
            if line.startswith("| `"):
                found.update(c.split()[0] for c in re.findall(r"`([^`]+)`", line.split(" | ")[0]))
    return found


def never_called():
    """The exported functions of c/pdb.h that the program `replay` has no call of."""
    with open(os.path.join(HERE, "..", "c", "pdb.h"), encoding="utf-8") as f:
        exported = re.findall(r"^uint\d+_t (pdb_\w+)\(", f.read(), re.M)
    folder = os.path.join(HERE, "..", "tests", "replay")
    text = ""
    for name in os.listdir(folder):
        with open(os.path.join(folder, name), encoding="utf-8") as f:
            text += f.read()
    return [f for f in exported if not re.search(rf"\b{f}\(", text)]


def lacking(vectors):
    """What the list should have and has not."""
    for name in never_called():
        yield f"a call of {name}"
    asked = {c for c, _ in vectors}
    shown = "\n".join(line for _, lines in vectors for line in lines)
    for name in protocol_commands() - {c.split()[0] for c in asked}:
        yield f"command {name}"
    for word in ("props", "field", "func", "ptr"):
        if not any(c.startswith(f"word {word} ") for c in asked):
            yield f"word {word}"
    numbers = {n for c, lines in vectors if c not in NO_COMMANDS + NO_BYTES for n in numbers_in(c.split(), lines)}
    for n in set(range(27)) - numbers:
        yield f"number {n}"
    yield from unwritten(dict(vectors))
    for kind in ("createby", "updateby", "findinby", "maxindexby", "findby"):
        for shift in SHIFTS:
            if not any(c.startswith(f"{kind} {shift} ") for c in asked):
                yield f"{kind} of shift {shift}"
    for leaf in list(layouts.RECORDS) + list(layouts.LISTS) + ID_LEAVES:
        if not re.search(rf"^(  )?0 {leaf:04x}\b", shown, re.M):
            yield f"leaf {leaf:04x}"
    for leaf in layouts.MEMBERS:
        if f" ; {leaf:04x} " not in shown:
            yield f"member {leaf:04x}"
    if {*GOOD_TYPES, *MADE} != {*layouts.RECORDS, *layouts.LISTS} or set(GOOD_MEMBERS) != set(layouts.MEMBERS) or set(GOOD_IDS) != set(ID_LEAVES):
        yield "a good record of every leaf"
    answer = dict(vectors)
    for kind, data in prefixes():
        if f"{kind} {hexed(data)}" not in asked:
            yield f"prefix {hexed(data)}"
    for leaf, record in list({**GOOD_TYPES, **MADE}.items()) + [(m, "0312" + r) for m, r in GOOD_MEMBERS.items()]:
        line = answer[f"type {hexed(packed(record))}"][0]
        if not line.startswith("0 ") or " ; end " in line and not line.endswith(" ; end 15"):
            yield f"good record {leaf:04x}"
    for leaf, record in GOOD_IDS.items():
        if not answer[f"id {hexed(packed(record))}"][0].startswith(f"0 {leaf:04x}"):
            yield f"good record {leaf:04x}"
    for command in LARGEST + [f"type {d.hex()}" for d in [CRATE_1609] + CRATE_ARRAYS] + [c for c, _ in EXAMPLES] + NO_COMMANDS + NO_BYTES + [MOST]:
        if command not in asked:
            yield command[:80]
    for command, lines in vectors:
        if (lines == ["? bytes"]) != (command in NO_BYTES):
            yield f"bytes that are none, or that are some: {command[:80]}"
    for command, line in (("update 4096 4126 2 5,6 99 4112", "13 held=2 ; 5 6"), ("update 4096 4126 1 5,6 99 4104", "0 held=2 ; 5 99"),
                          ("create " + header().hex() + " -", "13 ; -"), ("create " + header().hex() + " 7", "0 4096 4098 held=1 shift=3 ; 56"),
                          ("updateby 0 4096 4396 1 5 99 4097", "13 held=1 ; 5"), ("updateby 0 4096 4396 1 5,6 99 4097", "0 held=2 ; 5 99"),
                          ("updateby 6 4096 4396 1 5 99 4160", "13 held=1 ; 5"), ("updateby 6 4096 4396 1 5,6 99 4160", "0 held=2 ; 5 99"),
                          ("createby 6 " + header().hex() + " -", "13 ; -"), ("createby 7 " + header().hex() + " -", "26 ; -"),
                          ("createby 7 - -", "26 ; -"), ("updateby 7 4096 4396 3 5,6 99 4096", "26 held=3 ; 5 6")):
        if answer.get(command) != [line]:
            yield f"a table exactly full or one short: {command}"


def main():
    words, seed, write = [word for word in sys.argv[1:] if word != "--write"], 1, "--write" in sys.argv
    if "--seed" in words:
        at = words.index("--seed")
        seed = int(words[at + 1])
        del words[at:at + 2]
    if len(words) != 2:
        print(__doc__)
        return 2
    replay = os.path.abspath(words[1])
    kept, oracle = kept_lines(replay) if words[0] == "kept" else {}, os.path.abspath(words[0])
    make_inputs.rng.seed(seed)
    rng = make_inputs.rng
    commands = [c for c, _ in EXAMPLES] + NO_COMMANDS + NO_BYTES + [MOST] + list(small_commands()) + list(record_commands(rng)) + list(word_commands(rng)) + list(stream_commands(rng))
    commands += [c for c, _ in CVINFO] + [c for c, _ in FORMS] + list(form_commands()) + list(place_commands())
    commands += [c for c, _ in writing.EXAMPLES] + list(write_commands())
    commands += sections.commands()
    commands += list(declaring.commands()) + list(made_commands())
    commands = list(dict.fromkeys(commands))
    problems = compare.listed()
    crate = [c for c in commands if c.split()[0] not in PORT_ONLY and (c in NO_COMMANDS or not no_bytes(c.split()))]
    lines_of = dict.fromkeys(crate) if kept else dict(zip(crate, compare.answers(oracle, crate)))
    primitives = {} if kept else dict(line.split(" ", 1) for line in compare.answers(oracle, ["prim 0 4096"])[0])
    vectors, reasons = [], {}
    for c in commands:
        why = set()
        try:
            if c not in NO_COMMANDS and no_bytes(c.split()):
                lines = ["? bytes"]
            elif c in kept and (c in lines_of or c.startswith("marker")):
                lines = kept[c]
            elif c in lines_of:
                lines = by_crate(c.split(), lines_of[c] or unknown_leaf(c), why)
            else:
                lines = by_rule(c.split(), primitives.get(c.split()[2]) if c.startswith("marker") else None)
                lines = lines if isinstance(lines, list) else [lines]
        except Unexplained as e:
            problems.append(str(e))
            continue
        for line in lines:
            if line.strip().startswith(("panic", "abort", "other")) or " panic " in line or " dims=" in line:
                problems.append(f"{c[:80]}: {line}")
        for name in why:
            reasons[name] = reasons.get(name, 0) + 1
            if name not in compare.REASONS:
                problems.append(f"{c[:80]}: {name} is no line of docs/DIFFERENCES.md")
        vectors.append((c, lines))
    answer = dict(vectors)
    problems += [f"an example {c[:80]}: {answer.get(c)}" for c, said in EXAMPLES + CVINFO + FORMS if answer.get(c) != said]
    problems += [f"lacks {what}" for what in lacking(vectors)]
    got = compare.answers(replay, [c for c, _ in vectors])
    problems += [f"{c[:200]}\n  expected {said[:3]}\n  replay   {had[:3]}" for (c, said), had in zip(vectors, got) if said != had]
    if problems:
        print("\n".join(problems[:40]) + f"\n{len(problems)} problems; nothing is written")
        return 1
    made = {"replay.in": "".join(f"{c}\n" for c, _ in vectors), "replay.out": "".join(f"{line}\n" for _, lines in vectors for line in lines)}
    for name, text in made.items():
        with open(os.path.join(HERE, "..", "tests", "vectors", name), "w" if write else "r", encoding="ascii") as f:
            if write:
                f.write(text)
            elif f.read() != text:
                print(f"tests/vectors/{name} is not what is made here; --write writes it")
                return 1
    asked = sum(c in lines_of and (not kept or c in kept) for c, _ in vectors)
    count = sum(len(lines) for _, lines in vectors)
    by = "the crate's lines stood there for" if kept else "the crate was asked"
    print(f"{len(vectors)} commands, {count} lines; {by} {asked} of the commands, 01's rules {len(vectors) - asked}")
    print("by lines of docs/DIFFERENCES.md: " + ", ".join(f"{name} {n}" for name, n in sorted(reasons.items())))
    return 0


if __name__ == "__main__":
    sys.exit(main())
