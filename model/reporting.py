#!/usr/bin/env python3
"""Document 02's R-12 written again in Python, from its text alone: a report over any number of streams.

    reporting.py STREAM ..      adds the files to a fresh report, going on after 27 and 28, and prints the line that `report` of `replay` prints:
                                the numbers of all additions, then the totals, then ` ; LEAF RECORDS BYTES` for each entry
    reporting.py --hex STREAM ..  prints the words of that `report` command instead, the streams as hexadecimal digits
    reporting.py --port STREAM .. -- PROGRAM ..
                                has the program, `target/replay`, answer the vectors and one `report` of these streams, those left out that
                                are too long for a word, and holds it to what is worked out here, line by line

Its vectors are among those that fitting.py writes.
"""
import os
import struct
import subprocess
import sys

sys.path.insert(0, os.path.dirname(os.path.abspath(__file__)))
import places

MOST = 2**64 - 1
LEAVES = 64


class Refused(Exception):
    """By this number."""


def header(s):
    """01: "Checks, in order: 16; empty; 1 for fewer than 56 bytes; 2; 3; 1 for fewer than header_size bytes; 4; 5." The minimum, and the header's size."""
    if len(s) > 4294967294:
        raise Refused(16)
    if not s:
        return 0, 0
    if len(s) < 56:
        raise Refused(1)
    _, size, low, high = struct.unpack_from("<4I", s)
    for number, wrong in ((2, size < 56), (3, size > 1024), (1, len(s) < size), (4, low < 4096), (5, high < low)):
        if wrong:
            raise Refused(number)
    return low, size


def records(s):
    """01's iterator to its end: index, leaf and payload length of each record; or a refusal midway (1, 6, 7)."""
    index, at = header(s)
    while at < len(s):
        if at + 2 > len(s):
            raise Refused(1)
        n = struct.unpack_from("<H", s, at)[0]
        if n < 2:
            raise Refused(6)
        if at + 2 + n > len(s):
            raise Refused(1)
        if index == 4294967295:
            raise Refused(7)
        yield index, struct.unpack_from("<H", s, at + 2)[0], n
        at += 2 + n
        index += 1


class Report:
    """"records per leaf, payload bytes per leaf, largest payload with the first stream (numbered from 0, refused ones too) and index that have it,
    streams refused"."""

    def __init__(self):
        self.taken = self.refused = self.headers = self.records = self.bytes = 0
        self.largest = (0, 0, 0)
        self.entries = []

    def copy(self):
        other = Report()
        other.__dict__.update(self.__dict__)
        other.entries = [list(e) for e in self.entries]
        return other

    def add(self, s):
        """The report after the stream; "27 a total would pass 64 bits, with the report as before that stream; 28 a leaf that the report's table of 64
        distinct leaves has no room for, likewise; 27 precedes 28"."""
        after = self.copy()
        after.taken += 1
        try:
            seen = list(records(s))
        except Refused:
            after.refused += 1
        else:
            after.headers += header(s)[1]
            rows = {}
            for e in after.entries:
                rows.setdefault(e[0], e)
            for index, leaf, n in seen:
                after.records += 1
                after.bytes += n
                if n > after.largest[0]:
                    after.largest = (n, self.taken, index)
                if leaf not in rows:
                    rows[leaf] = [leaf, 0, 0]
                    after.entries.append(rows[leaf])
                rows[leaf][1] += 1
                rows[leaf][2] += n
        numbers = [after.taken, after.refused, after.headers, after.records, after.bytes] + [x for e in after.entries for x in e[1:]]
        if max(numbers) > MOST:
            raise Refused(27)
        if len(after.entries) > LEAVES:
            raise Refused(28)
        return after

    def __str__(self):
        length, stream, index = self.largest
        totals = f"taken={self.taken} refused={self.refused} headers={self.headers} records={self.records} bytes={self.bytes} largest={length} stream={stream} index={index}"
        return " ; ".join([totals] + [f"{leaf:04x} {n} {b}" for leaf, n, b in self.entries])


def line(streams, report=None):
    """The line of `report`, or of `reportfrom` where a report to start from is given."""
    report, numbers = report or Report(), []
    for s in streams:
        try:
            report = report.add(s)
            numbers.append("0")
        except Refused as e:
            numbers.append(str(e.args[0]))
    return f"{' '.join(numbers) or '-'} ; {report}"


# ---- lines for `replay`

LONGEST = 263000                # of a STREAM of `report`


def word(s):
    """Bytes, a long run at their end written short."""
    head = s.rstrip(s[-1:])
    if len(s) - len(head) < 64 or not head:
        return s.hex() or "-"
    return f"{head.hex()}+{s[-1:].hex()}*{len(s) - len(head)}"


def report_line(*streams):
    return " ".join(["report"] + [word(s) for s in streams])


def from_line(totals, entries, *streams):
    """`reportfrom`: eight numbers, and entries as (leaf, records, bytes)."""
    said = ",".join(f"{leaf:04x}:{n}:{b}" for leaf, n, b in entries) or "-"
    return " ".join(["reportfrom"] + [str(n) for n in totals] + [said] + [word(s) for s in streams])


def answer(command):
    """What `replay` answers to a line of these two commands."""
    name, *words = command.split(" ")
    report = Report()
    if name == "reportfrom":
        report.taken, report.refused, report.headers, report.records, report.bytes = (int(n) for n in words[:5])
        report.largest = tuple(int(n) for n in words[5:8])
        entries = [] if words[8] == "-" else [e.split(":") for e in words[8].split(",")]
        report.entries = [[int(leaf, 16), int(n), int(b)] for leaf, n, b in entries[:LEAVES]]
        words = words[9:]
    return line([places.short_bytes(w) for w in words], report)


def stream(payloads, low=4096, high=None, size=56):
    high = low + len(payloads) if high is None else high
    return struct.pack("<4I", 20040203, size, low, high).ljust(size, b"\0") + b"".join(struct.pack("<H", len(p)) + p for p in payloads)


def payload(leaf, n=2):
    return struct.pack("<H", leaf).ljust(n, b"\x5a")


def vectors():
    """Lines: what is counted and what is refused, alone and between others; the largest; 27 by each number and 28, each where the other is not, both, and
    what comes after them."""
    one, two = stream([payload(0x1001, 8)]), stream([payload(0x1002, 10), payload(0x1001, 8), payload(0xffff, 2)])
    refused = [two[:-1], two + b"\0", two[:30], b"\1", stream([payload(0x1001)], size=55), stream([payload(0x1001)], size=1024)[:400], stream([payload(0x1001)], low=4095),
               stream([payload(0x1001)], high=4095), stream([b"\1"]), stream([b""]), stream([payload(1), payload(2)], low=0xfffffffe, high=0xffffffff), stream([payload(7)], size=1025)]
    good = [b"", stream([]), stream([], high=9000), one, two, stream([payload(0)]), stream([payload(3), payload(3)], high=4096), stream([payload(1, 5)], size=57), stream([payload(1)], size=1024),
            stream([payload(0xfffe)], low=0xfffffffe, high=0xffffffff), stream([payload(9, 65535)])]
    yield "report"
    for s in good + refused:
        yield report_line(s)
        yield report_line(one, s, two)
    yield report_line(*good)
    yield report_line(*refused)
    yield report_line(*(s for pair in zip(good, refused) for s in pair))
    # the largest: the first stream and in it the first index; refused streams have numbers too
    for lengths in ([[4], [4]], [[4, 4], [5, 5]], [[4], [2, 4, 6, 6]], [[6, 5], [6]], [[2], [3], [3]], [[9, 10, 9, 10, 11, 11]], [[], [], [2]]):
        streams = [stream([payload(0x1000 + k, n) for k, n in enumerate(row)], low=5000) for row in lengths]
        yield report_line(*streams)
        yield report_line(refused[0], *streams)
        yield from_line((8, 2, 0, 3, 9, 4, 7, 4099), [(0x1001, 3, 9)], *streams)
    # entries: in the order of first appearance, the first of two with one leaf counts; 63, 64 and 65 of them
    yield report_line(stream([payload(leaf, n) for leaf, n in ((5, 2), (3, 3), (5, 4), (9, 5), (3, 6), (5, 7))]), stream([payload(9), payload(2), payload(5)]))
    yield from_line((1, 0, 56, 3, 9, 2, 0, 4096), [(5, 1, 2), (5, 10, 20), (3, 4, 5)], stream([payload(5), payload(3), payload(5), payload(4)]))
    for n in (2, 62, 63, 64):
        rows = [(k, k + 1, 2 * k) for k in range(n)]
        for leaves in ([0], [n - 1], [n], [n, n], [n, n + 1], [n, 0, n + 1, n], []):
            yield from_line((5, 1, 100, 70, 1000, 900, 3, 4500), rows, stream([payload(leaf, 3) for leaf in leaves]))
    every = [stream([payload(k) for k in range(at, at + 13)]) for at in range(0, 78, 13)]
    yield report_line(*every)
    yield report_line(*every, one, b"", refused[0], every[1])
    yield from_line((0, 0, 0, 0, 0, 0, 0, 0), [(k, 1, 2) for k in range(70)], stream([payload(64)]), stream([payload(63)]))
    # 27: each number of the report at its end and one below it, by a stream that is counted and by one that is refused; the stream after it
    for k in range(5):
        grows = (1, 1, 56, 3, 20)[k]
        for value in sorted({MOST - grows, MOST - grows + 1, MOST}):
            totals = [7, 3, 100, 10, 60, 30, 2, 4097]
            totals[k] = value
            yield from_line(totals, [(0x1001, 4, 30)], two, two[:-1], b"")
    for row in ((0x1002, MOST - 1, 5), (0x1002, MOST, 5), (0x1002, 5, MOST - 10), (0x1002, 5, MOST - 9), (0x1002, MOST, MOST)):
        yield from_line((1, 0, 56, 5, 50, 10, 0, 4096), [(0x1001, 1, 1), row], two, one, two[:-1])
        yield from_line((1, 0, 56, 5, 50, 10, 0, 4096), [(0x1002, 1, 1), row], two, one)
    full = [(k, 1, 1) for k in range(64)]
    # 28 alone, 27 alone, both: 27; a refused stream is never 28
    for totals in ((1, 0, 0, 0, 0, 0, 0, 0), (MOST, 0, 0, 0, 0, 0, 0, 0), (1, 0, MOST, 0, 0, 0, 0, 0), (1, 0, 0, MOST - 2, 0, 0, 0, 0), (1, 0, 0, 0, MOST - 19, 0, 0, 0), (1, MOST, 0, 0, 0, 0, 0, 0)):
        for entries in (full, full[:63], full[:61], full[:63] + [(63, MOST, 1)]):
            yield from_line(totals, entries, two, two[:-1], stream([payload(63)]), b"")
    # a made-up report may hold anything
    yield from_line((0, 0, 0, 0, 0, 5, 9, 4294967295), [(0xffff, 0, 0)], one, two)
    yield from_line((3, 9, 1, 2, 3, MOST, MOST, 0), [], two)
    yield from_line((3, 9, 1, 2, 3, 8, 1, 1), [(0x1001, 5, 5)])
    # words written short
    yield f"report {struct.pack('<4I', 20040203, 56, 4096, 4096 + 3000).hex()}+00*40+02000110*3000 -"
    yield f"report {struct.pack('<4I', 20040203, 56, 4096, 4096).hex()}+00*40+02000110*65000 {one.hex()}"
    samples = os.path.join(os.path.dirname(os.path.dirname(os.path.abspath(__file__))), "samples")
    streams = []
    for name in ("e.tpi", "plain-x64.tpi", "plain-x64.ipi", "rich-x64.tpi", "rich-x64.ipi", "hand.tpi", "hand.ipi"):
        with open(os.path.join(samples, name), "rb") as f:
            streams.append(f.read())
    yield report_line(*streams)


# Lines with a word that is none, which get `? bytes` and nothing else.
BAD = ("report 0", "report zz", "report - - AB", "report 00 0x 00", "reportfrom", "reportfrom 0 0 0 0 0 0 0 0", "reportfrom 0 0 0 0 0 0 0 0 1001", "reportfrom 0 0 0 0 0 0 0 0 1001:1 -",
       "reportfrom 0 0 0 0 0 0 0 0 101:1:1 -", "reportfrom 0 0 0 0 0 0 0 0 1001:1:1, -", "reportfrom 0 0 0 0 0 0 0 0 - g", "reportfrom 0 0 0 0 0 0 0 0 1001:1:1;1002:1:1 -")


def port(files, program):
    commands, streams = list(vectors()), []
    for name, s in files:
        if len(s) > LONGEST:
            print(f"{os.path.basename(name)}, {len(s)} bytes, is too long for a word")
        else:
            streams.append(s)
    if streams:
        commands.append(report_line(*streams))
    run = subprocess.run(program, input="".join(c + "\n" for c in commands), capture_output=True, text=True, check=True)
    theirs, ours = run.stdout.splitlines(), [answer(c) for c in commands]
    wrong = [k for k, (a, b) in enumerate(zip(theirs, ours)) if a != b]
    print(f"{len(commands)} lines, one of them with {len(streams)} files, {len(wrong) + abs(len(theirs) - len(ours))} differ")
    for k in wrong[:5]:
        print(*(text[:300] for text in (commands[k], "theirs " + theirs[k], "ours   " + ours[k])), sep="\n")
    return int(theirs != ours)


def read(names):
    found = []
    for name in names:
        with open(name, "rb") as f:
            found.append(f.read())
    return found


def main():
    words = sys.argv[1:]
    if words[:1] == ["--port"] and "--" in words[:-1]:
        at = words.index("--")
        return port(list(zip(words[1:at], read(words[1:at]))), words[at + 1:])
    streams = read(w for w in words if w != "--hex")
    print(report_line(*streams) if "--hex" in words else line(streams))
    return 0


if __name__ == "__main__":
    sys.exit(main())
