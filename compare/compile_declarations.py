#!/usr/bin/env python3
"""Compiles the declarations of samples/plain-x64.tpi's types beside samples/src/plain.c, and has the compiler compare their sizes with those of the records.

    compile_declarations.py [COMPILER..]      takes the declarations from `./run declare`

COMPILER is `gcc` unless another is named, as `clang --target=x86_64-pc-windows-msvc`. Each line is a C type name: it is given to `typedef`,
so that it must parse, and where the record has a size, to `sizeof`, which must be that. Procedures have no size, nor has `void`; an array whose length is
unknown has none either. An array of such arrays, as `point [3][]`, is no C, and is left out. No part of the gate.
"""
import os
import subprocess
import sys
import tempfile

HERE = os.path.dirname(os.path.abspath(__file__))
ROOT = os.path.dirname(HERE)
sys.path.insert(0, os.path.join(ROOT, "model"))
import declaring

SAMPLE = os.path.join(ROOT, "samples", "plain-x64.tpi")
SOURCE = os.path.join(ROOT, "samples", "src", "plain.c")
TAGS = "typedef struct point point; typedef union both both; typedef enum colour colour; typedef struct bits bits; typedef struct node node; typedef struct empty_array empty_array;"


def known_size(stream, i):
    """The size of a type by its record, where a C compiler has one too."""
    if i < declaring.FIRST:
        return stream.size(i)
    try:
        leaf, _ = stream.record(i, declaring.PRINTED)
    except declaring.Refused:
        return 0
    return 0 if leaf == 0x1008 else stream.size(i)


def main():
    compiler = sys.argv[1:] or ["gcc"]
    with open(SAMPLE, "rb") as f:
        data = f.read()
    stream = declaring.Stream(data)
    lines = subprocess.run(["./run", "declare", SAMPLE], cwd=ROOT, capture_output=True, check=False).stdout.decode().split("\n")
    made, sized, refused, open_ended = [], 0, 0, 0
    for line in lines[:-1]:
        index, text = line.split(" ", 1)
        if text.startswith("refused "):
            refused += 1
            continue
        if "][]" in text:
            open_ended += 1
            continue
        # a type name: the compiler's own way to name a type without a declarator
        made.append(f"typedef __typeof__(({text} *)0) t{index};" if "(" not in text and "[" not in text else f"extern __typeof__({text}) t{index};")
        size = known_size(stream, int(index))
        if size and "[]" not in text:
            made.append(f'_Static_assert(sizeof({text}) == {size}, "{index}");')
            sized += 1
    with tempfile.TemporaryDirectory() as folder:
        path = os.path.join(folder, "t.c")
        with open(SOURCE, encoding="utf-8") as f, open(path, "w", encoding="utf-8") as g:
            g.write(f.read() + TAGS + "\n" + "\n".join(made) + "\n")
        done = subprocess.run(compiler + ["-std=gnu11", "-w", "-fsyntax-only", path], capture_output=True, text=True)
    if done.returncode:
        print(done.stderr)
        return 1
    print(f"{len(made) - sized} declarations compiled by {compiler[0]}, {sized} sizes as the records say, {refused} types refused, {open_ended} with an inner length that is unknown, which is no C")
    return 0


if __name__ == "__main__":
    sys.exit(main())
