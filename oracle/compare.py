#!/usr/bin/env python3
"""Runs a name_check and the second one beside this file on many lists, and tells where they differ.

usage: compare.py crates/name_check/out/name_check
"""
import itertools
import pathlib
import random
import subprocess
import sys

import reference

SAMPLE = pathlib.Path(__file__).resolve().parent.parent / "crates/name_check/stdin"
CODES = [code for code in range(256) if code != 0x0A]
MARKS = [code for code in CODES if reference.CLASS_OF[code] >= 7]
TEXT = [code for code in CODES if reference.is_text(code)]


def listed(names):
    return b"".join(bytes(name) + b"\n" for name in names)


def random_names(rng, count, longest):
    """Mostly text with many marks, so that every refusal comes up."""
    pools = [TEXT] * 10 + [MARKS] * 10 + [CODES]
    return [[rng.choice(rng.choice(pools)) for _ in range(rng.randint(0, longest))] for _ in range(count)]


def lists():
    """Each list with its columns and its level."""
    rng = random.Random(1566)
    edges = [b"", b"\n", b"\r\n", b"\r", b"\r\r\n", b"A\r\nB\rC\r\n\n", b"\xA1" * 1_048_576, b"\n" * 1_048_576]
    yield from ((data, 40, 1) for data in [SAMPLE.read_bytes(), *edges])
    pairs = listed(itertools.product(CODES, CODES))
    full = bytes([0xA1, 0xD9, 0xE8])
    for level in range(3):
        yield pairs, 40, level
        for columns in (1, 2, 39, 40, 79, 80):
            yield listed(random_names(rng, 2000, 12)), columns, level
            yield listed(random_names(rng, 100, 300)), columns, level
            yield listed([full * columns, full * columns + b"A", full * 83 + b"\xA1"]), columns, level


MISUSES = [["0"], ["81"], ["-1"], ["x"], [""], [" 40"], ["296"], ["40", "3"], ["40", "256"], ["40", "1", "1"]]


def run(program, words, data):
    return subprocess.run([program, *words], input=data, capture_output=True)


def main(program):
    faults, count = 0, 0
    for data, columns, level in lists():
        done = run(program, [str(columns), str(level)], data)
        wanted = reference.report(data, columns, level).encode()
        count += 1
        if done.returncode != 0 or done.stderr or done.stdout != wanted:
            faults += 1
            print(f"differs at {columns} columns, level {level}, on a list that begins {data[:24]!r}")
    for words, data in [(words, b"A\n") for words in MISUSES] + [([], bytes(1_048_577))]:
        done = run(program, words, data)
        count += 1
        if done.returncode != 1 or done.stdout or not done.stderr:
            faults += 1
            print(f"takes the words {words!r} with {len(data)} bytes")
    print(f"{count - faults} passed, {faults} failed")
    return 1 if faults else 0


if __name__ == "__main__":
    if len(sys.argv) != 2:
        sys.exit(__doc__)
    sys.exit(main(sys.argv[1]))
