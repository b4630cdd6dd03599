"""The targets of this folder: how each is built, and how it is run for some seconds. For compare/fuzz/run and tools/fuzz_cases, in the root of the repository.

A law is one file of compare/fuzz/laws beside law.c, over the static library: C alone. With clang it is a program of libFuzzer, with gcc one that runs the
files that it is given.
"""
import glob
import os
import platform
import re
import shutil
import subprocess

HERE = "compare/fuzz"
LIBRARY = "lib/x86_64-linux/libpdb_types.a"
STRICT = ["-std=c99", "-Wall", "-Wextra", "-Wpedantic", "-Wconversion", "-Wshadow", "-Werror"]
CHECKED = ["-g", "-O1", "-fno-sanitize-recover=all"]
LAWS = ("cells", "rows", "kept", "section", "declare", "fit", "drop", "report", "find", "calls")


def clang():
    """A clang that links a program of libFuzzer on this machine, or none."""
    found = shutil.which("clang") if platform.machine() == "x86_64" else None
    source = f"{HERE}/laws/law.h"
    if found:
        words = [found, "-x", "c", "-fsanitize=fuzzer,undefined", "-Ic", "-", "-o", "/dev/null"]
        text = f'#include "{source}"\nint LLVMFuzzerTestOneInput(const uint8_t *d, size_t n) {{ return d == 0 && n == 1; }}\n'
        if subprocess.run(words, input=text.encode(), capture_output=True).returncode == 0:
            return found
    return None


def plain_tools():
    """A compiler for x86-64 without libFuzzer and what runs its programs, or none."""
    if platform.machine() == "x86_64":
        return shutil.which("gcc"), []
    compiler, emulator = shutil.which("x86_64-linux-gnu-gcc"), shutil.which("qemu-x86_64")
    if not compiler or not emulator:
        return None, []
    loader = subprocess.run([compiler, "-print-file-name=libc.so.6"], capture_output=True, text=True, check=True).stdout.strip()
    return compiler, [emulator, "-L", os.path.dirname(os.path.dirname(os.path.realpath(loader)))]


def build_law(compiler, guided, target, folder, linked=None):
    """Builds a law; the program, or what the compiler said as an exception."""
    program = os.path.join(folder, f"law_{target}")
    sources = [f"{HERE}/laws/law.c", f"{HERE}/laws/{target}.c"] + ([] if guided else [f"{HERE}/laws/main.c"])
    options = CHECKED + ["-fsanitize=fuzzer,undefined"] if guided else ["-O2"]
    done = subprocess.run([compiler, *STRICT, *options, "-Ic", *sources, linked or LIBRARY, "-o", program], capture_output=True, text=True)
    if done.returncode != 0:
        raise RuntimeError(done.stderr[-3000:])
    return program


def seeds(target):
    return sorted(glob.glob(f"{HERE}/seeds/{target}/*"))


def said(text):
    """What a program says that found something: the law, or the signal."""
    lines = [line for line in text.split("\n") if re.search(r"FINDING|runtime error|ERROR: |panicked", line)]
    return " | ".join(lines[:3]) or text[-500:]


def guided(program, target, seconds, corpus, found, options=()):
    """Runs a program of libFuzzer from its seeds and a corpus that it adds to. Gives its numbers, and what was found or none."""
    os.makedirs(corpus, exist_ok=True)
    os.makedirs(found, exist_ok=True)
    words = [program, f"-max_total_time={seconds}", f"-dict={HERE}/leaves.dict", "-print_final_stats=1", "-timeout=20", "-rss_limit_mb=1024",
             f"-artifact_prefix={found}/{target}-", *options, corpus, f"{HERE}/seeds/{target}"]
    done = subprocess.run(words, stdout=subprocess.PIPE, stderr=subprocess.STDOUT)
    text = done.stdout.decode(errors="replace")
    numbers = {"executions": 0, "edges": 0, "features": 0, "last_new": 0}
    for line in text.split("\n"):
        m = re.match(r"#(\d+)\s+(\w+)\s+cov: (\d+) ft: (\d+)", line)
        if m:
            if int(m[3]) > numbers["edges"]:
                numbers["last_new"] = int(m[1])
            numbers["edges"], numbers["features"] = max(numbers["edges"], int(m[3])), max(numbers["features"], int(m[4]))
        m = re.match(r"stat::number_of_executed_units:\s+(\d+)", line)
        if m:
            numbers["executions"] = int(m[1])
    return numbers, said(text) if done.returncode != 0 else None, text
