#!/usr/bin/env python3
"""A second name_check, written apart from the first by the same rules: which lines of eight-bit Thai text a panel takes (TIS 1566).

usage: reference.py [COLUMNS [LEVEL]] < names
"""
import re
import sys

INPUT_LIMIT = 1_048_576


def codes_of(*ranges):
    return {code for low, high in ranges for code in range(low, high + 1)}


# The class of a code: its name, the verdicts on a next code of class 0 to 16, its codes.
CLASSES = [
    ("CTRL", "XAAAAAARRRRRRRRRR", codes_of((0x00, 0x1F), (0x7F, 0x9F), (0xFF, 0xFF))),
    ("NON",  "XAAASSARRRRRRRRRR", codes_of((0x20, 0x7E), (0xA0, 0xA0), (0xCF, 0xCF),
                                           (0xDB, 0xDF), (0xE6, 0xE6), (0xEF, 0xFE))),
    ("CONS", "XAAAASACCCCCCCCCC", codes_of((0xA1, 0xCE)) - {0xC4, 0xC6}),
    ("LV",   "XSASSSSRRRRRRRRRR", codes_of((0xE0, 0xE4))),
    ("FV1",  "XSAASSARRRRRRRRRR", {0xD0, 0xD2, 0xD3}),
    ("FV2",  "XAAAASARRRRRRRRRR", {0xE5}),
    ("FV3",  "XAAASASRRRRRRRRRR", {0xC4, 0xC6}),
    ("BV1",  "XAAASSARRRCCRRRRR", {0xD8}),
    ("BV2",  "XAAASSARRRCRRRRRR", {0xD9}),
    ("BD",   "XAAASSARRRRRRRRRR", {0xDA}),
    ("TONE", "XAAAAAARRRRRRRRRR", codes_of((0xE8, 0xEB))),
    ("AD1",  "XAAASSARRRRRRRRRR", {0xEC, 0xED}),
    ("AD2",  "XAAASSARRRRRRRRRR", {0xE7}),
    ("AD3",  "XAAASSARRRRRRRRRR", {0xEE}),
    ("AV1",  "XAAASSARRRCCRRRRR", {0xD4}),
    ("AV2",  "XAAASSARRRCRRRRRR", {0xD1, 0xD6}),
    ("AV3",  "XAAASSARRRCRCRRRR", {0xD5, 0xD7}),
]
CLASS_OF = {code: number for number, (_, _, codes) in enumerate(CLASSES) for code in codes}
CTRL = 0
UNUSED = {0xDB, 0xDD, 0xDE, 0xFC, 0xFD, 0xFE}
REFUSED_AT_LEVEL = ["", "R", "RS"]


def verdict(first, second):
    _, verdicts, _ = CLASSES[CLASS_OF[first]]
    return verdicts[CLASS_OF[second]]


def is_control(code):
    return CLASS_OF[code] == CTRL


def is_text(code):
    return not is_control(code) and code not in UNUSED


def cells(codes):
    """The cells of any string, each with its start."""
    begins_run = lambda place: place == 0 or verdict(codes[place - 1], codes[place]) != "C"
    starts = [place for place in range(len(codes)) if begins_run(place)]
    ends = starts[1:] + [len(codes)]
    return [(start, codes[start:end]) for start, end in zip(starts, ends) if not is_control(codes[start])]


def judge(name, columns, level):
    before = 0x00
    for place, code in enumerate(name):
        if not is_text(code):
            return f"refused 6 at {place}: {code:02X} is no text code"
        if verdict(before, code) in REFUSED_AT_LEVEL[level]:
            return f"refused 7 at {place}: level {level} does not admit {code:02X} after {before:02X}"
        before = code
    found = cells(name)
    if len(found) > columns:
        return f"refused 9 at {found[columns][0]}: {len(found)} cells, and the panel has {columns} columns"
    return f"ok {len(found)}" + "".join(f" [{cell.hex().upper()}]" for _, cell in found)


def names_in(data):
    *ended, rest = data.split(b"\n")
    names = [line[:-1] if line.endswith(b"\r") else line for line in ended]
    return names + [rest] if rest else names


def report(data, columns, level):
    answers = [judge(name, columns, level) for name in names_in(data)]
    taken = sum(answer.startswith("ok") for answer in answers)
    lines = [f"{number} {answer}" for number, answer in enumerate(answers, 1)]
    lines.append(f"{len(answers)} names, {taken} ok, {len(answers) - taken} refused")
    return "\n".join(lines) + "\n"


def number_word(word, low, high, what):
    if not re.fullmatch("[0-9]+", word) or not low <= int(word) <= high:
        sys.exit(f"{what} must be a number from {low} to {high}")
    return int(word)


if __name__ == "__main__":
    words = sys.argv[1:]
    if len(words) > 2:
        sys.exit("at most two words are taken: COLUMNS and LEVEL")
    columns = number_word(words[0], 1, 80, "COLUMNS") if words else 40
    level = number_word(words[1], 0, 2, "LEVEL") if len(words) == 2 else 1
    data = sys.stdin.buffer.read(INPUT_LIMIT + 1)
    if len(data) > INPUT_LIMIT:
        sys.exit(f"the input has more than {INPUT_LIMIT} bytes")
    sys.stdout.write(report(data, columns, level))
