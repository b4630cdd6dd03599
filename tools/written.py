"""What a tool writes into the tree: by default it is checked against what stands there, and by `--write` it is written. For every tool that writes, so that
all take the same word, and all say at which place a file is not what it should be.
"""
import itertools
import os
import re
import sys


def asked(manual):
    """Whether `--write` is asked for, the one word that such a tool takes; at any other it prints its manual and ends with 2."""
    if sys.argv[1:] not in ([], ["--write"]):
        print(manual)
        sys.exit(2)
    return bool(sys.argv[1:])


def text_of(path):
    with open(path, encoding="utf-8") as f:
        return f.read()


def between(text, begin, end, lines):
    """The text with these lines between two others of it."""
    head, rest = text.split(begin, 1)
    return head + begin + "".join(line + "\n" for line in lines) + end + rest.split(end, 1)[1]


def parts(text):
    """The words of a text of antt, and the comments, each whole. A comment that swallows the line after it is another comment."""
    comments, words = [], []
    for line in text.split("\n"):
        found = re.search(r"(^|\s)--", line)
        if found:
            comments.append(" ".join(line[found.start():].split()))
        words += (line[:found.start()] if found else line).split()
    return " ".join(words), "\n".join(comments)


def around(had, wanted, before):
    """What stands in either of two lines where they begin to differ, with so many letters before it."""
    at = len(os.path.commonprefix([had, wanted]))
    return (f"`{'..' if at > before else ''}{line[max(0, at - before):at + 60]}{'..' if len(line) > at + 60 else ''}`" for line in (had, wanted))


def number_held(path, before, after, number, write):
    """Holds a number that a paper says between two texts to what was counted, or writes it: a line, or none."""
    text = text_of(path)
    found = re.search(re.escape(before) + r"([\d,]+)" + re.escape(after), text)
    if not found:
        return [f"{path} does not say `{before}{number:,}{after}`"]
    if write:
        return held(path, text[:found.start(1)] + f"{number:,}" + text[found.end(1):], True)
    return [] if found[1] == f"{number:,}" else [f"{path} says `{found[0]}`, and there are {number:,}"]


def held(path, wanted, write, laid_out=False):
    """Writes a file, or says where it is not what is wanted, and that this tool writes it: a line, or none. Of a file that `rt fmt` lays out, which is antt, only
    words and comments count."""
    had = text_of(path) if os.path.exists(path) else ""
    if write:
        with open(path, "w", encoding="utf-8") as f:
            f.write(wanted)
    elif (parts(had) != parts(wanted)) if laid_out else had != wanted:
        pieces = zip(parts(had), parts(wanted)) if laid_out else itertools.zip_longest(had.split("\n"), wanted.split("\n"), fillvalue="(the end)")
        number, (has, should) = next((n, around(a, b, 140 if laid_out else 80)) for n, (a, b) in enumerate(pieces, 1) if a != b)
        place = path if laid_out else f"{path}:{number}"
        return [f"{place} has {has}, and should have {should}; tools/{os.path.basename(sys.argv[0])} --write writes it"]
    return []
