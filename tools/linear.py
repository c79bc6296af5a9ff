#!/usr/bin/env python3
"""Counts the instructions of reading growing texts, by valgrind, and prints what a further byte costs.

    tools/linear.py

tests/c/linear.c is linked with the archive for this machine, reads one literal and asks for its value once. A linear program costs the same for each
further byte, however long the text is."""
import pathlib
import platform
import re
import subprocess
import tempfile

ROOT = pathlib.Path(__file__).resolve().parent.parent
PROGRAM = ROOT / "target/c/linear"
SIZES = (1_000, 10_000, 100_000)
# each text with the length of its value
TEXTS = {
    "empty segments": lambda n: (b"'' " * n, 0),
    "segments of one byte": lambda n: (b"'a' " * n, n),
    "doubled quotes": lambda n: (b"'" + b"''" * (n // 2 - 1) + b"'", n // 2 - 1),
    "plain bytes": lambda n: (b"'" + b"a" * (n - 2) + b"'", n - 2),
}


def build():
    archive = subprocess.run([ROOT / "tools/archive"], stdout=subprocess.PIPE, text=True, check=True).stdout.strip()
    PROGRAM.parent.mkdir(parents=True, exist_ok=True)
    subprocess.run(["cc", "-std=c99", "-O2", "-I", ROOT / "include", ROOT / "tests/c/linear.c", archive, "-o", PROGRAM], check=True)


def instructions(text, length):
    with tempfile.TemporaryFile() as file:
        file.write(text)
        file.seek(0)
        run = subprocess.run(
            ["valgrind", "--tool=callgrind", "--callgrind-out-file=/dev/null", PROGRAM],
            stdin=file, capture_output=True, check=True)
    assert int(run.stdout) == length, f"{run.stdout} for a value of {length} bytes"
    return int(re.search(rb"Collected : (\d+)", run.stderr).group(1))


def main():
    build()
    print(platform.machine())
    for name, make in TEXTS.items():
        asked = [make(n) for n in SIZES]
        counts = [instructions(*one) for one in asked]
        sizes = [len(text) for text, _ in asked]
        for size, count in zip(sizes, counts):
            print(f"{name}: {size:,} bytes, {count:,} instructions")
        for i in (1, 2):
            print(f"  a further byte: {(counts[i] - counts[i - 1]) / (sizes[i] - sizes[i - 1]):.2f}")


if __name__ == "__main__":
    main()
