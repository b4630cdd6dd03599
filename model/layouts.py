"""Type records by the layouts of document 01 and attribute words by cvinfo.h, as lines of PROTOCOL.md, with the known reasons why the crate may differ.

compare.py uses this to excuse a difference: the port's answer must be the line worked out here, and at least one reason must have been met on
the way. A reason is the name of a line of docs/DIFFERENCES.md. This is a second reading of 01, written apart from the Rattle sources and from
the Rust. It is a test tool and no definition: what is proved is proved of the definitions in specs/.
"""


class Refused(Exception):
    """A refusal: document 01's number, then its details."""


# The table. T type index, O optional one, N numeric leaf, V one that may be negative, S string, S2 second string where properties has 0x0200,
# A field attributes, M u32 where the method property is 4 or 6, F the flags of a modifier, C the class of a pointer, B (count + 1)/2 bytes; u8, u16, u32
# plain, half a u16 and two bytes more. "_" in front of a name: read and not shown.
# Whatever is said of a type leaf that has nothing special follows from its line: samples, places of references, and, by tools/type_rows, what `replay` prints.
CLASS = "count:u16 props:u16 fields:O derived:O shape:O size:N name:S unique:S2"
RECORDS = {
    0x1001: "t:T flags:F",
    0x1002: "t:T word:u32 class:C",
    0x1008: "ret:O attrs:u16 count:u16 args:T",
    0x1009: "ret:T class:T this:O attrs:u16 count:u16 args:T adjust:u32",
    0x1205: "t:T len:u8 pos:u8",
    0x1503: "elem:T idx:T size:N name:S",
    0x1504: CLASS,
    0x1505: CLASS,
    0x1519: CLASS,
    0x1609: "props:half fields:O derived:O shape:O count:u16 size:N name:S unique:S2",
    0x1506: "count:u16 props:u16 fields:T size:N name:S unique:S2",
    0x1507: "count:u16 props:u16 t:T fields:T name:S unique:S2",
    0x000a: "count:u16 bytes:B",
}
MEMBERS = {
    0x1400: "a:A t:T off:N",
    0x1401: "a:A t:T p:T off:N voff:N",
    0x1402: "a:A t:T p:T off:N voff:N",
    0x1404: "_pad:u16 t:T",
    0x1409: "_pad:u16 t:T",
    0x1502: "a:A v:V name:S",
    0x150d: "a:A t:T off:N name:S",
    0x150e: "a:A t:T name:S",
    0x150f: "count:u16 t:T name:S",
    0x1510: "a:A t:T name:S",
    0x1511: "a:A t:T voff:M name:S",
}
METHOD = "a:A _pad:u16 t:T voff:M"
LISTS = (0x1201, 0x1203, 0x1206)
# What is special of a record's line: the kind that classes begin with, an order other than that of the fields, the flags of a modifier, from bit 0 on.
KINDS = {0x1504: "Class", 0x1505: "Struct", 0x1609: "Struct19", 0x1519: "Interface"}
SHOWN = {0x1609: "count props fields derived shape size name unique".split()}
FLAGS = ("const", "volatile", "unaligned")

# The leaves of RECORDS that the crate takes too, and those that it takes and 01 does not, or takes elsewhere.
CRATE = (0x1001, 0x1002, 0x1008, 0x1009, 0x1205, 0x1503, 0x1504, 0x1505, 0x1519, 0x1609, 0x1506, 0x1507)
NEWER = (0x1512, 0x151a, 0x1516)
LENGTH_BYTE = (0x0403, 0x1003, 0x1004, 0x1005, 0x1006, 0x1007, 0x1405, 0x1406, 0x1407, 0x1408, 0x140b, 0x140d)

# The answers of attribute words in which the port follows cvinfo.h (document 02, R-2): the reason, the field of the word's line, then the unit and
# the count by which the crate's mask and shift take it out of the word, and those of cvinfo.h.
WORDS = {
    "props": (("intrinsic-bit", "intrinsic", (0x1000, 2), (0x2000, 2)), ("mocom-bits", "mocom", (0x4000, 2), (0x4000, 4))),
    "ptr": (("pointer-mocom", "mocom", (0x40000, 2), (0x80000, 2)),),
}

# The bytes of the kinds that always have as many.
WIDTHS = {"u8": 1, "u16": 2, "A": 2, "F": 2, "u32": 4, "half": 4, "T": 4, "O": 4}
NUMBERS = {0x8000: (1, True), 0x8001: (2, True), 0x8002: (2, False), 0x8003: (4, True), 0x8004: (4, False), 0x8009: (8, True), 0x800a: (8, False)}


def fields_of(layout):
    """Name and kind of each field."""
    return [tuple(part.split(":")) for part in layout.split()]


def shortest(value):
    """Document 02, R-1: "the shortest form that carries the number": its bytes, by trying every form."""
    forms = [2] if 0 <= value < 0x8000 else []
    for width, signed in NUMBERS.values():
        low, high = (-(1 << 8 * width - 1), 1 << 8 * width - 1) if signed else (0, 1 << 8 * width)
        if low <= value < high:
            forms.append(2 + width)
    return min(forms)


class Reader:
    """Bytes, a place in them, the reasons met, and whether numeric leaves are shown with their forms (R-4)."""

    def __init__(self, data, at=0, forms=False):
        self.data, self.at, self.why, self.forms = data, at, set(), forms

    def take(self, n):
        if len(self.data) - self.at < n:
            raise Refused(1)
        self.at += n
        return self.data[self.at - n:self.at]

    def u(self, n):
        return int.from_bytes(self.take(n), "little")

    def string(self):
        end = self.data.find(0, self.at)
        if end < 0:
            raise Refused(1)
        shown = f"{self.at}+{end - self.at}"
        self.at = end + 1
        return shown

    def padding(self):
        while self.at < len(self.data) and self.data[self.at] >= 0xf0:
            self.take(max(1, self.data[self.at] % 16))

    def number(self, may_be_negative):
        prefix = self.u(2)
        if prefix < 0x8000:
            return prefix
        if prefix not in NUMBERS:
            raise Refused(11)
        width, signed = NUMBERS[prefix]
        if signed and prefix != 0x8000 and not may_be_negative:
            self.why.add("signed-size")
        value = int.from_bytes(self.take(width), "little", signed=signed)
        if value < 0 and prefix == 0x8000:
            self.why.add("byte-number")
        if value < 0 and not may_be_negative:
            raise Refused(11)
        return value

    def formed(self, value, start):
        """R-4: value/width/shorter of a number whose leaf began at a place, where forms are shown."""
        width = self.at - start
        return f"{value}/{width}/{int(shortest(value) < width)}" if self.forms else value

    def fields(self, leaf, layout):
        """The named values in the order of the layout."""
        got = {}
        for name, kind in fields_of(layout):
            if kind in WIDTHS:
                got[name] = self.u(WIDTHS[kind])
                if kind == "half":
                    got[name] %= 65536
                if kind == "O" and got[name] in (0, 0xffff):
                    got[name] = "-"
                if leaf == 0x1002 and name == "word":
                    self.pointer_word(got[name])
                if leaf == 0x1510 and name == "a" and got[name] != 0:
                    self.why.add("nested-word")
            elif kind == "C":
                got[name] = "-"
                if got["word"] // 32 % 8 in (2, 3):
                    index = self.u(4)
                    if index in (0, 0xffff):
                        self.why.add("pointer-class")
                    else:
                        got[name] = index
            elif kind in ("N", "V"):
                start = self.at
                value = self.number(kind == "V")
                got[name] = self.formed(value, start)
                if leaf in (0x1400, 0x1401, 0x1402) and value >= 2 ** 32:
                    self.why.add("base-offset")
                if leaf == 0x1503:
                    self.array(value)
            elif kind == "S":
                got[name] = self.string()
            elif kind == "S2":
                got[name] = self.string() if got["props"] // 0x200 % 2 else "-"
            elif kind == "M":
                got[name] = self.u(4) if got["a"] // 4 % 8 in (4, 6) else "-"
            elif kind == "B":
                n = (got["count"] + 1) // 2
                self.take(n)
                got[name] = f"{self.at - n}+{n}"
        return got

    def pointer_word(self, word):
        bad = False
        if word % 32 > 12:
            self.why.add("pointer-kind")
            bad = True
        if word // 32 % 8 > 4:
            self.why.add("pointer-mode")
            bad = True
        if bad:
            raise Refused(12)

    def array(self, size):
        """Whether the crate's reading of an array, dimensions up to a zero byte and then padding to the end, can differ."""
        if size >= 2 ** 32:
            self.why.add("array-size")
        rest = self.data[self.at:]
        if rest[:1] not in (b"", b"\0"):
            self.why.add("array-name")
        elif rest:
            after = Reader(rest, 1)
            try:
                after.padding()
                if after.at != len(rest):
                    self.why.add("array-after")
            except Refused:
                self.why.add("array-after")


def shown(leaf, got):
    """`name=value` for each field, in the order of the protocol."""
    said = [f"kind={KINDS[leaf]}"] if leaf in KINDS else []
    for name in SHOWN.get(leaf, [n for n in got if n[0] != "_"]):
        said += [f"{flag}={got[name] >> k & 1}" for k, flag in enumerate(FLAGS)] if name == "flags" else [f"{name}={got[name]}"]
    return " ".join(said)


def foreign_leaf(r, leaf, in_list):
    """A leaf that 01 does not take here: note whether the crate does."""
    if leaf in NEWER:
        r.why.add("newer-leaf")
    elif leaf in LENGTH_BYTE:
        r.why.add("length-byte-leaf")
    elif in_list and (leaf in LISTS or leaf in CRATE):
        r.why.add("leaf-in-list")
    elif not in_list and leaf in MEMBERS and leaf != 0x1404:
        r.why.add("member-outside")
    raise Refused(10, leaf)


def members(r):
    """The elements of a 0x1203 record, then the refusal that ends it."""
    lines, first = [], True
    while True:
        try:
            if not first:
                r.padding()
            first = False
            if r.at >= len(r.data):
                raise Refused(15)
            leaf = r.u(2)
            if leaf not in MEMBERS:
                foreign_leaf(r, leaf, True)
            if leaf == 0x1404:
                r.why.add("continuation")
            lines.append(f"{leaf:04x} {shown(leaf, r.fields(leaf, MEMBERS[leaf]))}")
            if leaf == 0x1404:
                raise Refused(15)
        except Refused as end:
            return lines, end


def methods(r):
    lines = []
    while True:
        try:
            if r.at >= len(r.data):
                raise Refused(15)
            lines.append(shown(0x1206, r.fields(0x1206, METHOD)))
        except Refused as end:
            return lines, end


def refusal(e):
    return " ".join(str(n) for n in e.args)


def type_record(data, forms=False):
    """(line, reasons) of a type record's bytes, by 01; with the forms of numeric leaves, by 02's R-4."""
    r = Reader(data, forms=forms)
    try:
        leaf = r.u(2)
        if leaf == 0x1201:
            count = r.u(4)
            if len(data) - r.at < 4 * count:
                r.why.add("count-memory")
                raise Refused(1)
            return " ; ".join([f"0 1201 count={count}"] + [str(r.u(4)) for _ in range(count)] + ["end 15"]), r.why
        if leaf in (0x1203, 0x1206):
            lines, end = members(r) if leaf == 0x1203 else methods(r)
            return " ; ".join([f"0 {leaf:04x}"] + lines + [f"end {refusal(end)}"]), r.why
        if leaf not in RECORDS:
            foreign_leaf(r, leaf, False)
        if leaf not in CRATE + NEWER:
            r.why.add("vtable-shape" if leaf == 0x000a else "later-leaf")
        return f"0 {leaf:04x} {shown(leaf, r.fields(leaf, RECORDS[leaf]))}", r.why
    except Refused as e:
        return refusal(e), r.why


def number_line(data, may_be_negative, forms=False):
    """(line, reasons) of `unsigned` and `signed`; with the form of the number, by 02's R-4."""
    r = Reader(data, forms=forms)
    try:
        value = r.number(may_be_negative)
        return f"0 {r.formed(value, 0)} next={r.at}", r.why
    except Refused as e:
        return refusal(e), r.why


def word_line(line):
    """(line, reasons) of an attribute word, from the crate's line: the answers of WORDS by cvinfo.h's bits, where the crate's are the bits that
    WORDS has for it, and all else as it is."""
    parts, why = line.split(" "), set()
    for reason, field, crate, cvinfo in WORDS.get(parts[0], ()):
        theirs, ours = (f"{field}={int(parts[1]) // unit % count}" for unit, count in (crate, cvinfo))
        if theirs != ours and theirs in parts:
            parts[parts.index(theirs)] = ours
            why.add(reason)
    return " ".join(parts), why
