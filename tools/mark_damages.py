#!/usr/bin/env python3
"""Writes the scripts damaged-marks-N of crates/board_cases/data: damages to a few good mark texts, with the answers of the rules.

usage: python3 tools/mark_damages.py      writes each script with its answers, and prints its name and its pair of zone files

Each text is a line `mark 0 TEXT`; where it is accepted, its canonical text comes next, and has to say the same mark. A space makes the
line a wrong one, and a newline makes two of it. The answers are those of tools/board_rules.py.
"""
import itertools
import os
import re
import sys

from board_rules import Board, SCRIPT_LIMIT, call, file_of
from mark_rules import NAME

DATA = os.path.join(os.path.dirname(os.path.dirname(os.path.abspath(__file__))), "crates/board_cases/data")

# pairs of zone files with good texts
GOOD = {
    "00": ["2024-01-31T09:00:00Z[UTC]", "1970-01-12T15:46:40.25+02:00[!Test/H][u-ca=hebrew]"],
    "01": ["1890-02-01T12:00:00.000001+09:49:16[Site/Two][_x-1=a-b][!u-ca=iso8601]"],
    "06": ["2011-06-30T10:20:30-04:00[Site/Two][u-ca=hebrew][u-ca=coptic]"],
}
# bytes that are put in, by turns
WRONG = "0[9Z]:=-.!+atz_/,T5 \x00\x7f\xff\n\\"


def swapped(text):
    """The text with each two of its fields in each other's place, a name being one."""
    parts = re.findall(rf"\d+|{NAME}|.", text)
    fields = [k for k, part in enumerate(parts) if part[0].isalnum()]
    for one, two in itertools.combinations(fields, 2):
        turned = list(parts)
        turned[one], turned[two] = parts[two], parts[one]
        yield "".join(turned)


def damages(text):
    """The text cut at each place, and with each byte missing, twice, changed to the next, changed by turns, or another put before it."""
    wrong = itertools.cycle(WRONG)
    for at, byte in enumerate(text):
        before, after = text[:at], text[at + 1 :]
        yield before
        yield before + after
        yield before + byte + byte + after
        yield before + chr(ord(byte) + 1) + after
        yield before + next(wrong) + after
        yield before + next(wrong) + byte + after
    yield text + next(wrong)
    yield from swapped(text)


def told(board, text):
    """The lines for a text, and their answers."""
    lines = f"mark 0 {text}".split("\n")
    answers = [answer for line in lines for answer in call(board, line)]
    if not answers[0].startswith("no "):
        lines.append(f"mark 1 {answers[0]}")
        answers += call(board, lines[-1])
        if answers[-1] != answers[0]:
            sys.exit("a canonical text says something else: " + lines[-1])
    return lines, answers


def scripts(pair, texts):
    """The scripts over a pair of zone files, as few as keep the limit."""
    board = Board(*(file_of(f"{DATA}/{pair}-{site}.tzif") for site in ("one", "two")))
    script, answers = "", ""
    for text in dict.fromkeys(text for good in texts for text in [good, *damages(good)]):
        more_lines, more_answers = ("".join(f"{line}\n" for line in part) for part in told(board, text))
        if len(script) + len(more_lines) > SCRIPT_LIMIT:
            yield script, answers
            script, answers = "", ""
        script, answers = script + more_lines, answers + more_answers
    yield script, answers


def main():
    number = itertools.count(1)
    for pair, texts in GOOD.items():
        for written in scripts(pair, texts):
            name = f"damaged-marks-{next(number)}"
            for kind, text in zip(("script", "answers"), written):
                with open(f"{DATA}/{name}.{kind}", "w", encoding="latin-1", newline="") as f:
                    f.write(text)
            print(name, pair)


if __name__ == "__main__":
    main()
