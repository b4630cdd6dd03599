"""Runs a program on cases: a name, what it is given on standard input, and what it has to answer; then what it has to say on standard error, which is
nothing where a case does not say it; and where the program takes them, its arguments and the files that they name. For tools/list_cases,
tools/outline_cases and tools/measure_cases. What is given is bytes, or as text the path of
what is opened, such as a directory. What has to be answered is text, or bytes.

The program is the one that `rt run` or `rt ci` has proved and built. Each case has a folder of its own.
"""
import os
import subprocess
import tempfile


def tried(program, case):
    """What is wrong with a case, or nothing."""
    name, given, wanted, *more = case
    said, words, files = (*more, *("", [], {})[len(more):])
    wanted = wanted if isinstance(wanted, bytes) else wanted.encode()
    with tempfile.TemporaryDirectory() as scratch:
        os.symlink(os.path.abspath("crates"), os.path.join(scratch, "crates"))
        for file, content in files.items():
            with open(os.path.join(scratch, file), "wb") as f:
                f.write(content)
        opened = {"stdin": os.open(given, os.O_RDONLY)} if isinstance(given, str) else {"input": given}
        run = subprocess.run([os.path.abspath("tools/program"), program, *words], cwd=scratch, stdout=subprocess.PIPE, stderr=subprocess.PIPE, timeout=600, **opened)
    if run.returncode != 0 or run.stdout != wanted or run.stderr != said.encode():
        return f"{program}_cases: {name}: wanted\n{wanted[:1000]}\n{said[:1000]}\n  and got, with status {run.returncode},\n{run.stdout[:1000]}\n{run.stderr[:1000]}"
    return ""


def main(program, cases):
    """The exit status: 0 where every case is answered as it has to be."""
    wrong = [w for w in (tried(program, case) for case in cases) if w]
    for w in wrong:
        print(w)
    if not wrong:
        print(f"{program}_cases: {len(cases)} answers as they should be")
    return 1 if wrong else 0
