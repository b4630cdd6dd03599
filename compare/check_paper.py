#!/usr/bin/env python3
"""Runs every input of docs/DIFFERENCES.md on the two builds of the crate and holds the paper's last two columns to what they print.

    check_paper.py ORACLE ORACLE-DEBUG
"""
import os
import re
import struct
import subprocess
import sys


def header(minimum, maximum):
    return (struct.pack("<5I", 20040203, 56, minimum, maximum, 22) + bytes(36)).hex()


def answer(program, command):
    run = subprocess.run([program], input=command.encode() + b"\n", stdout=subprocess.PIPE, stderr=subprocess.DEVNULL)
    return " / ".join(run.stdout.decode().strip().split("\n"))


def cells(line):
    return [c.strip() for c in line.strip().strip("|").split(" | ")]


def main():
    if len(sys.argv) != 3:
        print(__doc__)
        return 2
    paper = os.path.join(os.path.dirname(os.path.abspath(__file__)), "..", "docs", "DIFFERENCES.md")
    rows = wrong = 0
    for line in open(paper, encoding="utf-8"):
        row = cells(line) if line.startswith("|") else []
        if len(row) == 5 and line.startswith("| |"):
            row = [""] + row
        if len(row) != 6 or not re.fullmatch(r"`[^`]+`", row[2]):
            continue
        command = re.sub(r"H\((\d+),(\d+)\)", lambda m: header(int(m.group(1)), int(m.group(2))), row[2].strip("`"))
        release = row[4].strip("`")
        debug = release if row[5] == "same" else row[5].strip("`")
        rows += 1
        for program, said in ((sys.argv[1], release), (sys.argv[2], debug)):
            got = answer(program, command)
            if got != said:
                wrong += 1
                print(f"{row[2]}: {program}\n  paper {said}\n  runs  {got}")
    print(f"{rows} inputs, {wrong} answers other than the paper's")
    return 1 if wrong or not rows else 0


if __name__ == "__main__":
    sys.exit(main())
