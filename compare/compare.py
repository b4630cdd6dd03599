#!/usr/bin/env python3
"""Feeds the same commands to two programs that speak PROTOCOL.md and reports where their answers differ.

    compare.py ORACLE PORT [FILE...]      commands from the files, or from standard input
        ORACLE      the program built by build.sh
        PORT        the port's program `replay`, or the word 01: then the answers of layouts.py stand in for the port's
                    type records, numbers and words, which holds the list of known differences to the crate without a port
        --debug     PORT is oracle-debug: the known differences are those of the crate's two builds
        --examples N  how many examples to print for each group (3)
        --jobs N    how many batches at a time (the machine's processors)

A difference is excused only where (a) a rule of REASONS names it, each rule being a line of docs/DIFFERENCES.md under the same name, and
(b) the port's answer is the one that document 01 or 02 wants: for type records, numbers and words as layouts.py works it out, else as the rule
tests it.
Prints the count of equal answers, of excused ones by rule, and every other difference by group. Exit status 0 where nothing is left over.
"""
import os
import re
import subprocess
import sys
from concurrent.futures import ProcessPoolExecutor

sys.path.insert(0, os.path.dirname(os.path.abspath(__file__)))
sys.path.insert(0, os.path.join(os.path.dirname(os.path.abspath(__file__)), "..", "model"))
import layouts

TOP = 4294967295
# A command with one answer line that no other answer can be: it marks where an answer ends.
MARK, MARKED = "opttype 3735928559", "3735928559"
BATCH_COMMANDS, BATCH_BYTES = 5000, 8_000_000

# Names of lines of docs/DIFFERENCES.md.
REASONS = [
    "byte-number", "signed-size", "continuation", "array-name", "array-size", "array-after", "pointer-kind", "pointer-mode", "pointer-class",
    "base-offset", "nested-word", "vtable-shape", "later-leaf", "member-outside", "leaf-in-list", "newer-leaf", "length-byte-leaf", "count-memory", "list-depth",
    "short-kind", "primitive-from-4096", "index-used-up", "max-held", "structure-kind", "intrinsic-bit", "mocom-bits", "pointer-mocom",
]
DEBUG_REASONS = ["debug-number", "debug-kind", "debug-overflow", "debug-stack"]


def blob(word):
    """BYTES of a command."""
    if word == "-":
        return b""
    if word[0] == "@":
        with open(word[1:], "rb") as f:
            return f.read()
    return bytes.fromhex(word)


# ---- running ----

def answers(program, commands):
    """The answer lines of each command. A command that ends the program is answered ["abort"]."""
    if not commands:
        return []
    text = "".join(f"{c}\n{MARK}\n" for c in commands)
    run = subprocess.run([program], input=text.encode(), stdout=subprocess.PIPE, stderr=subprocess.DEVNULL)
    got, lines = [], []
    for line in run.stdout.decode(errors="replace").split("\n"):
        if line == MARKED:
            got.append(lines)
            lines = []
        else:
            lines.append(line)
    if run.returncode == 0:
        if len(got) != len(commands):
            raise SystemExit(f"{program}: {len(got)} of {len(commands)} answers are followed by the answer to '{MARK}'")
        return got
    if len(commands) == 1:
        return [["abort"]]
    half = len(commands) // 2
    return answers(program, commands[:half]) + answers(program, commands[half:])


# ---- comparing one line ----

def same_record(o, p):
    """Equal lines; or a list that the oracle refuses whole and the port element by element, by the same refusal; or an array that both
    read alike, the oracle showing its one dimension where the port shows size and name."""
    if o == p:
        return True
    end = re.fullmatch(r"0 (?:1203|1206)(?: ;.*)? ; end (\d+(?: \d+)*)", p)
    if end and end.group(1) != "15" and end.group(1) == o:
        return True
    a = re.fullmatch(r"0 1503 elem=(\d+) idx=(\d+) dims=(\d+)", o)
    b = re.fullmatch(r"0 1503 elem=(\d+) idx=(\d+) size=(\d+) name=\d+\+0", p)
    return bool(a and b and a.groups() == b.groups())


def record_reasons(o, line, why):
    """Why the crate's line of a type record may be other than 01's: the reasons that layouts.py met on the way; or, where the two differ in
    nothing but the kind of a 0x1609 record, that alone."""
    kind, crates = "0 1609 kind=Struct19 ", "0 1609 kind=Struct "
    return ["structure-kind"] if line.startswith(kind) and o == crates + line[len(kind):] else sorted(why)


def record(o, p, data, found):
    """Compare the lines of a type record with these bytes."""
    if not same_record(o, p):
        line, why = layouts.type_record(data)
        found.append((record_reasons(o, line, why) if p == line else [], o, p))


def debug_reason(o, p):
    """Why the crate's debug build may answer other than its release build."""
    if p == "abort":
        return ["debug-stack"]
    if o == "11" and p == "panic internal error: entered unreachable code":
        return ["debug-number"]
    if "with overflow" in p:
        return ["debug-overflow"]
    if o.startswith("panic index out of bounds") and p.startswith("panic assertion failed: self.data.len()"):
        return ["debug-kind"]
    return []


def abort_reason(words, p):
    """Why the oracle may have ended: memory for a count that the bytes do not bear out, or lists inside lists."""
    if words[0] in ("find", "findids"):
        return ["count-memory"] if p != ["abort"] else []
    data = blob(words[-1])
    if words[0] in ("id", "itemid") and data[:2] == b"\x04\x16" and p == ["1"]:
        return ["count-memory"]
    if words[0] in ("type", "itemtype") and p == [layouts.type_record(data)[0]]:
        return ["count-memory"] if data[:2] == b"\x01\x12" else ["list-depth"] if data[:4] == b"\x03\x12\x03\x12" else []
    return []


def header_of(stream):
    """(minimum, header size) of an accepted stream."""
    if not stream:
        return 0, 0
    return int.from_bytes(stream[8:12], "little"), int.from_bytes(stream[4:8], "little")


def links_before_end(stream, place, wanted):
    """How many links can be passed from this place, at most `wanted`."""
    passed = 0
    while passed < wanted:
        if place + 2 > len(stream):
            break
        place += 2 + int.from_bytes(stream[place:place + 2], "little")
        if place > len(stream):
            break
        passed += 1
    return passed


# ---- comparing one command's answer ----

def walk(words, o, p, found):
    """`walk`, `parse` and `parseids`: item lines, with the record's line under each."""
    stream = None
    place = None
    for k in range(max(len(o), len(p))):
        a = o[k] if k < len(o) else "(no line)"
        b = p[k] if k < len(p) else "(no line)"
        item = re.fullmatch(r"\d+ [0-9a-f]{4} (\d+)\+(\d+)", a)
        if item:
            place = int(item.group(1)), int(item.group(2))
        if a == b:
            continue
        if a.startswith("  ") and b.startswith("  ") and place and words[0] == "parse":
            stream = blob(words[1]) if stream is None else stream
            record(a[2:], b[2:], stream[place[0]:place[0] + place[1]], found)
            continue
        used_up = b == "refused 7" and a.startswith(f"{TOP} ")
        found.append((["index-used-up"] if used_up else [], a, b))
        return


def find(words, o, p, found):
    """`find` and `findids`: places, highest index, then a line for each lookup, where the port adds the links passed."""
    if len(o) < 2 or not o[0].startswith("places"):
        if o != p:
            found.append(([], o[0], p[0] if p else "(no line)"))
        return
    stream = blob(words[1])
    minimum, _ = header_of(stream)
    wrapped = minimum + int(words[2].lstrip("u")) > TOP
    places = [int(n) for n in re.findall(r"\d+", o[0])]
    for k in range(max(len(o), len(p))):
        a = o[k] if k < len(o) else "(no line)"
        b = p[k] if k < len(p) else "(no line)"
        if a == b:
            continue
        plain = re.sub(r" links=(\d+)$", "", b)
        links = re.search(r" links=(\d+)$", b)
        if plain == a and links:
            index = int(a.split()[0])
            due = 0 if " marker " in a else (index - minimum) % 8
            if int(links.group(1)) != due:
                found.append(([], a, f"{b} (links due: {due})"))
            continue
        cut = re.fullmatch(r"(\d+) 1 (\d+)", b)
        if cut and a == f"{cut.group(1)} 1":
            d = int(cut.group(1)) - minimum
            due = links_before_end(stream, places[d // 8], d % 8)
            if int(cut.group(2)) != due:
                found.append(([], a, f"{b} (links due: {due})"))
            continue
        held = min(TOP, 8 * len(places) + minimum - 1) if places else 0
        past_top = bool(places) and 8 * len(places) + minimum > TOP
        if past_top and (b == f"max {TOP}" or b.split()[1:2] == ["9"] and b.split()[3:] == [str(held)]):
            found.append((["max-held"], a, b))
            continue
        found.append((["index-used-up"] if wrapped else [], a, b))
        return


def differences(command, o, p, debug):
    """The differences of one answer, each (reasons, the oracle's line, the port's line)."""
    found = []
    words = command.split()
    if o == p:
        return found
    if debug:
        wraps = words[0] in ("find", "findids") and header_of(blob(words[1]))[0] + int(words[2].lstrip("u")) > TOP
        for k in range(max(len(o), len(p))):
            a = o[k] if k < len(o) else "(no line)"
            b = p[k] if k < len(p) else "(no line)"
            if a != b:
                found.append((["debug-overflow"] if wraps else debug_reason(a.strip(), b.strip()), a, b))
                if wraps or b == "abort" or b.startswith(("refused", "update")):
                    break
        return found
    kind = words[0]
    if o == ["abort"]:
        found.append((abort_reason(words, p), "abort", p[0] if p else "(no line)"))
    elif kind in ("walk", "parse", "parseids"):
        walk(words, o, p, found)
    elif kind in ("find", "findids"):
        find(words, o, p, found)
    elif kind in ("type", "itemtype"):
        a, b = (o + [""])[0], (p + [""])[0]
        if kind == "type" or int(words[1]) >= 4096:
            record(a, b, blob(words[-1]), found)
        else:
            found.append(([], a, b))
    elif kind in ("unsigned", "signed"):
        line, why = layouts.number_line(blob(words[1]), kind == "signed")
        found.append((sorted(why) if p == [line] else [], o[0], (p + [""])[0]))
    elif kind == "kind":
        short = len(blob(words[1])) < 2 and o[0].startswith("panic") and p == ["1"]
        found.append((["short-kind"] if short else [], o[0], (p + [""])[0]))
    else:
        for k in range(max(len(o), len(p))):
            a = o[k] if k < len(o) else "(no line)"
            b = p[k] if k < len(p) else "(no line)"
            if a != b and kind == "word":
                line, why = layouts.word_line(a)
                found.append((sorted(why) if b == line else [], a, b))
            elif a != b:
                i = a.split()[0]
                above = kind == "prim" and i.isdigit() and int(i) >= 4096 and " panic " in a and b == f"{i} 8 {i}"
                found.append((["primitive-from-4096"] if above else [], a, b))
    return found


def stand_in(command, o):
    """What a port that follows layouts.py would answer; everything that layouts.py does not read is taken from the oracle."""
    words = command.split()
    kind = words[0]
    if kind == "type" or kind == "itemtype" and int(words[1]) >= 4096:
        return [layouts.type_record(blob(words[-1]))[0]]
    if kind in ("unsigned", "signed"):
        return [layouts.number_line(blob(words[1]), kind == "signed")[0]]
    if kind == "word":
        return [layouts.word_line(line)[0] for line in o]
    if kind == "parse" and o != ["abort"]:
        stream, out, part = blob(words[1]), [], None
        for line in o:
            item = re.fullmatch(r"\d+ [0-9a-f]{4} (\d+)\+(\d+)", line)
            if item:
                part = stream[int(item.group(1)):int(item.group(1)) + int(item.group(2))]
            out.append("  " + layouts.type_record(part)[0] if line.startswith("  ") else line)
        return out
    return o


# ---- all of it ----

def shape(command, o, p):
    """The group of an unexplained difference: the command, the leaf where there is one, and what kind of line each side gave."""
    words = command.split()
    leaf = ""
    if words[0] in ("type", "id", "itemtype", "itemid") and len(words[-1]) >= 4:
        leaf = " " + words[-1][2:4] + words[-1][:2]

    def short(line):
        line = line.strip()
        if line.startswith(("panic", "other", "refused", "abort", "(no")):
            return " ".join(line.split()[:4])
        if line.startswith(("places", "max")) or words[0] not in ("find", "findids"):
            return line.split()[0] if line else "(empty)"
        return " ".join(line.split()[1:2])
    return f"{words[0]}{leaf}: oracle {short(o)}, port {short(p)}"


def batch(job):
    oracle, port, debug, commands = job
    left = answers(oracle, commands)
    right = [stand_in(c, o) for c, o in zip(commands, left)] if port == "01" else answers(port, commands)
    equal, excused, rest = 0, [], []
    for c, o, p in zip(commands, left, right):
        met = differences(c, o, p, debug)
        equal += not met
        for why, a, b in met:
            (excused if why else rest).append((" + ".join(why) or shape(c, a, b), c, a, b))
    return len(commands), equal, excused, rest


def batches(oracle, port, debug, lines):
    commands, size = [], 0
    for line in lines:
        line = line.strip()
        if line:
            commands.append(line)
            size += len(line)
        if len(commands) >= BATCH_COMMANDS or size >= BATCH_BYTES:
            yield oracle, port, debug, commands
            commands, size = [], 0
    if commands:
        yield oracle, port, debug, commands


def grouped(title, groups, examples):
    if groups:
        print(title)
    for name in sorted(groups):
        count, seen = groups[name]
        print(f"  {name}: {count}")
        for c, a, b in seen[:examples]:
            print(f"      {c if len(c) <= 300 else c[:300] + '..'}\n        oracle {a.strip()[:300]}\n        port   {b.strip()[:300]}")


def listed():
    """Every rule is a line of docs/DIFFERENCES.md."""
    paper = os.path.join(os.path.dirname(os.path.abspath(__file__)), "..", "docs", "DIFFERENCES.md")
    with open(paper, encoding="utf-8") as f:
        text = f.read()
    return [name for name in REASONS + DEBUG_REASONS if f"| {name} |" not in text]


def main():
    words, files, debug, examples, jobs = sys.argv[1:], [], False, 3, os.cpu_count()
    while words:
        w = words.pop(0)
        if w == "--debug":
            debug = True
        elif w == "--examples":
            examples = int(words.pop(0))
        elif w == "--jobs":
            jobs = int(words.pop(0))
        else:
            files.append(w)
    if len(files) < 2:
        print(__doc__)
        return 2
    oracle, port, files = files[0], files[1], files[2:]
    missing = listed()
    if missing:
        print("rules without a line in docs/DIFFERENCES.md: " + ", ".join(missing))
        return 2
    lines = (line for name in files for line in open(name, encoding="ascii")) if files else sys.stdin
    total = equal = 0
    excused, rest = {}, {}
    with ProcessPoolExecutor(jobs) as pool:
        for n, same, known, unknown in pool.map(batch, batches(oracle, port, debug, lines)):
            total += n
            equal += same
            for groups, met in ((excused, known), (rest, unknown)):
                for name, c, a, b in met:
                    count, seen = groups.get(name, (0, []))
                    seen = sorted(seen + [(c, a, b)], key=lambda e: len(e[0]))[:max(1, examples)]
                    groups[name] = (count + 1, seen)
    grouped("excused, by lines of docs/DIFFERENCES.md (shortest input first):", excused, 1)
    grouped("NOT explained (shortest input first):", rest, examples)
    print(f"{total} commands, {equal} answered alike, {sum(c for c, _ in excused.values())} lines excused, "
          f"{sum(c for c, _ in rest.values())} lines not explained")
    return 1 if rest else 0


if __name__ == "__main__":
    sys.exit(main())
