#!/usr/bin/env python3
"""The text of a stream and the stream of a text, as docs/TEXT.md has them, by writing.py: what `compose` and `decompose` are checked against (tools/pdbtypes_cases).
Apart from the Rattle sources.

    lines.py compose < TEXT > STREAM         each bad line on the standard error
    lines.py decompose < STREAM > TEXT
"""
import os
import re
import struct
import sys

sys.path.insert(0, os.path.dirname(os.path.abspath(__file__)))
import writing
from layouts import Refused

MOST = 262144


def words_of(line):
    """The words of a line, without its comment."""
    words = line.replace("\t", " ").split(" ")
    words = [word for word in words if word]
    comment = [k for k, word in enumerate(words) if word[0] == "#"]
    return words[:comment[0]] if comment else words


def record(words, room):
    """A line's record, or its refusal."""
    if not re.fullmatch("[0-9a-f]{4}", words[0]):
        raise Refused(17)
    return writing.record(int(words[0], 16), words[1:], room)


def composed(text):
    """The stream of a text, and of each bad line its number and what it is refused by."""
    stream, bad, begun = b"", [], False
    for number, line in enumerate(text.split("\n"), 1):
        line, carriage, behind = line.partition("\r")
        words = words_of(line)
        try:
            made = b"" if not words else record(words, MOST - len(stream)) if begun else writing.header(words, MOST)
            if carriage and behind:
                raise Refused(17)
            stream += made
        except Refused as e:
            bad.append((number, e.args[0]))
        begun = begun or words != []
    return b"" if bad else stream, bad


def refused_header(s):
    """01's checks of a header, in order."""
    if len(s) < 56:
        return 1
    size, low, high = struct.unpack_from("<III", s, 4)
    return 2 if size < 56 else 3 if size > 1024 else 1 if len(s) < size else 4 if low < 4096 else 5 if high < low else 0


def record_line(data):
    leaf = int.from_bytes(data[:2], "little")
    try:
        leaf, words = writing.values(data, leaf in writing.ID_LEAVES)
        return " ".join([f"{leaf:04x}"] + words)
    except Refused as e:
        return f"refused {e.args[0]}"


def decomposed(s):
    """The text of a stream, and what it is refused by, or 0. A record with a refused element is one `refused` here; `decompose` prints the elements before
    it."""
    wrong = 0 if not s else 16 if len(s) > MOST else refused_header(s)
    if not s or wrong:
        return "", wrong
    lines, p = [" ".join(map(str, struct.unpack_from("<5I2H2I" + "iI" * 3, s)))], struct.unpack_from("<I", s, 4)[0]
    while p < len(s):
        length = int.from_bytes(s[p:p + 2], "little")
        wrong = 1 if p + 2 > len(s) else 6 if length < 2 else 1 if p + 2 + length > len(s) else 0
        if wrong:
            lines.append(f"refused {wrong}")
            break
        lines.append(record_line(s[p + 2:p + 2 + length]))
        p += 2 + length
    return "".join(line + "\n" for line in lines), wrong


def main():
    if sys.argv[1:] == ["decompose"]:
        text, wrong = decomposed(sys.stdin.buffer.read())
        sys.stdout.write(text)
        if wrong:
            print(f"refused {wrong}", file=sys.stderr)
        return 1 if wrong else 0
    if sys.argv[1:] == ["compose"]:
        stream, bad = composed(sys.stdin.buffer.read().decode("latin-1"))
        sys.stdout.buffer.write(stream)
        for number, refusal in bad:
            print(f"line {number} refused {refusal}", file=sys.stderr)
        return 1 if bad else 0
    print(__doc__)
    return 2


if __name__ == "__main__":
    sys.exit(main())
