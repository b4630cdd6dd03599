#!/usr/bin/env python3
"""Reads every record of real streams, writes it again by 02's R-1 (writing.py), and groups those that come back with other bytes by the reason.

    rewrite_real.py STREAM..       .tpi and .ipi: raw streams; .debugT: `.debug$T` sections, whose records each go to the reader that takes their leaf
    rewrite_real.py --port STREAM..
                                   also has the port write each record again (`rewrite` and `rewriteid` of the program `replay`, which `tools/replay --build replay`
                                   has built; in the root of the repository), and ends at the first line that is not the one by writing.py: the tables
                                   are then the port's
    rewrite_real.py --check        the reasons themselves, on the records of the vectors: every reason is met there

Prints two tables: the records of each stream, how many come back as they were, with other bytes and not at all; and the reasons by leaf. A record may
have several reasons. Each is a place where the record's own bytes are other than those that the writer has for the same field: so a difference without
a reason, or a reason without a difference, ends the script.
"""
import os
import subprocess
import sys

sys.path.insert(0, os.path.join(os.path.dirname(os.path.abspath(__file__)), "..", "model"))
import layouts
import places
import writing

AFTER = "bytes after the last field that are no pads"
UNFILLED = "a record without its pads"
OTHER_PADS = "a record with other pads"
MEMBER_UNFILLED = "a member without its pads"
MEMBER_PADS = "a member with other pads"
LONGER = "a number in a longer form"
SIGNED = "a number in a signed form of equal length"
HALF = "0x1609's high half"
NONE = "an absent index as 0xffff"
UNNAMED = "a field that 01 does not name"
FLAGS = "flags of 0x1001 that 01 does not name"
ENDED = "members after a continuation"
REASONS = [AFTER, UNFILLED, OTHER_PADS, MEMBER_UNFILLED, MEMBER_PADS, LONGER, SIGNED, HALF, NONE, UNNAMED, FLAGS, ENDED]


def reader(data, at, ids):
    return (writing.IdReader if ids else layouts.Reader)(data, at)


def field_reasons(leaf, layout, data, at, ids):
    """Why the bytes of these fields, which are read from a place on, are not the writer's; their end and the writer's bytes."""
    why, out, parts, start = [], b"", layout.split(), at
    for k, part in enumerate(parts):
        r = reader(data, at, ids)
        got = r.fields(leaf, " ".join(parts[:k + 1]))
        name, kind = part.split(":")
        had, value = data[start:r.at], str(got[name])
        if kind in ("S", "S2", "B") and value != "-":
            place, length = (int(n) for n in value.split("+"))
            value = "=" + data[place:place + length].hex()
        if name[0] == "_":
            value = "0"
        if leaf == 0x1001 and name == "flags":
            value = str(got[name] % 8)
        wrote = writing.field(leaf, kind, value, got)
        if had != wrote:
            why.append(UNNAMED if name[0] == "_" else FLAGS if leaf == 0x1001 else HALF if kind == "half" else NONE if kind in ("O", "C") else
                       LONGER if len(had) > len(wrote) else SIGNED)
        out += wrote
        start = r.at
    return why, start, out


def pad_reasons(had, due, none, other):
    """Why what stands after a field up to the next is not what fills it."""
    return [] if had == due else [none] if not had else [other] if all(b >= 0xf0 for b in had) else [AFTER]


def reasons(data, ids):
    """Why an accepted record's payload comes back other, and the payload that the writer then has."""
    leaf = int.from_bytes(data[:2], "little")
    why, at, out = [], 2, data[:2]
    if leaf in writing.COUNTED:
        at += writing.COUNTED[leaf]
        at += 4 * int.from_bytes(data[2:at], "little")
        out = data[:at]
    elif leaf == 0x1206:
        while at < len(data):
            met, at, wrote = field_reasons(leaf, layouts.METHOD, data, at, ids)
            why, out = why + met, out + wrote
    elif leaf == 0x1203:
        which = 0
        while at < len(data) and which != 0x1404:
            which = int.from_bytes(data[at:at + 2], "little")
            met, end, wrote = field_reasons(which, layouts.MEMBERS[which], data, at + 2, ids)
            r = reader(data, end, ids)
            if which != 0x1404:
                r.padding()
            wrote = data[at:at + 2] + wrote
            due = writing.pads(2 + len(out) + len(wrote))
            last = r.at == len(data)
            # the last member's pads are the record's
            met += pad_reasons(data[end:r.at], due, *(UNFILLED, OTHER_PADS) if last else (MEMBER_UNFILLED, MEMBER_PADS))
            why, out, at = why + met, out + wrote + due, r.at
        if at < len(data):
            why.append(ENDED)
        return set(why), out
    else:
        met, at, wrote = field_reasons(leaf, layouts.RECORDS.get(leaf) or writing.IDS[leaf], data, at, ids)
        why, out = why + met, out + wrote
    due = writing.pads(2 + len(out))
    return set(why + pad_reasons(data[at:], due, UNFILLED, OTHER_PADS)), out + due


def payloads(name, s):
    """The payload of each record, and whether it is an id's."""
    if name.endswith(".debugT"):
        p = 4
    else:
        p = places.header(s)[2]
    while p < len(s):
        end = p + 2 + int.from_bytes(s[p:p + 2], "little")
        data = s[p + 2:end]
        yield data, name.endswith(".ipi") or name.endswith(".debugT") and int.from_bytes(data[:2], "little") in writing.ID_LEAVES
        p = end
    if p != len(s):
        raise SystemExit(f"{name}: its chain does not end at its end")


def compared(data, ids):
    """The record that a payload comes back as, and the reasons where it is another."""
    wrote = writing.rewritten(data, ids)
    why, again = reasons(data, ids)
    if bool(why) != (wrote[2:] != data) or again != wrote[2:]:
        raise SystemExit(f"{data.hex()[:400]} comes back as {wrote.hex()[:400]}, and the reasons are {why}")
    return wrote, why


def by_port(name, s):
    """Holds the port's line for each record to writing.py's; how many there are."""
    commands = [f"{'rewriteid' if ids else 'rewrite'} {data.hex() or '-'}" for data, ids in payloads(name, s)]
    run = subprocess.run(["target/replay"], input="".join(c + "\n" for c in commands).encode(), stdout=subprocess.PIPE, check=True)
    lines = run.stdout.decode().splitlines()
    if len(lines) != len(commands):
        raise SystemExit(f"{name}: {len(commands)} records, and the port has {len(lines)} lines")
    for command, line in zip(commands, lines):
        if line != writing.answer(command.split()):
            raise SystemExit(f"{name}: {command[:400]}\n  the port: {line[:400]}\n  by 02:   {writing.answer(command.split())[:400]}")
    return len(lines)


def check():
    import make_vectors
    met, count = set(), 0
    for kind, word in (c.split() for c in make_vectors.write_commands() if c.startswith("rewrite")):
        try:
            met |= compared(make_vectors.blob(word), kind == "rewriteid")[1]
            count += 1
        except layouts.Refused:
            pass
    missing = [reason for reason in REASONS if reason not in met]
    print(f"{count} records; " + (f"never met: {', '.join(missing)}" if missing else "every reason is met"))
    return 1 if missing else 0


def main():
    if len(sys.argv) < 2:
        print(__doc__)
        return 2
    if sys.argv[1:] == ["--check"]:
        return check()
    rows, by_reason, refused, held = [], {}, {}, 0
    port = sys.argv[1] == "--port"
    for path in sys.argv[1 + port:]:
        name = os.path.basename(path)
        with open(path, "rb") as f:
            s = f.read()
        if port:
            held += by_port(name, s)
        count = same = other = none = bytes_had = bytes_written = 0
        for data, ids in payloads(name, s):
            count += 1
            leaf = f"{int.from_bytes(data[:2], 'little'):04x}"
            try:
                wrote, why = compared(data, ids)
            except layouts.Refused as e:
                none += 1
                key = f"{e.args[0]}", leaf
                refused.setdefault(key, {}).setdefault(name, 0)
                refused[key][name] += 1
                continue
            bytes_had, bytes_written = bytes_had + 2 + len(data), bytes_written + len(wrote)
            same, other = same + (not why), other + bool(why)
            for reason in why:
                by_reason.setdefault((reason, leaf), {}).setdefault(name, 0)
                by_reason[reason, leaf][name] += 1
        rows.append((name, count, same, other, none, bytes_had, bytes_written))
    print("| stream | records | same bytes | other bytes | refused | bytes read | bytes written |\n|---|---|---|---|---|---|---|")
    for row in rows + [("all", *(sum(column) for column in list(zip(*rows))[1:]))]:
        print("| " + " | ".join([row[0], *(f"{n:,}" for n in row[1:])]) + " |")
    print("\n| reason | leaf | records | streams |\n|---|---|---|---|")
    for (reason, leaf), names in sorted(by_reason.items(), key=lambda e: (REASONS.index(e[0][0]), e[0][1])):
        print(f"| {reason} | {leaf} | {sum(names.values()):,} | {', '.join(f'{n} {k:,}' for n, k in names.items())} |")
    for (number, leaf), names in sorted(refused.items()):
        print(f"| refused by {number} | {leaf} | {sum(names.values()):,} | {', '.join(f'{n} {k:,}' for n, k in names.items())} |")
    if port:
        print(f"\n{held:,} records by the port, line for line as by writing.py")
    return 0


if __name__ == "__main__":
    sys.exit(main())
