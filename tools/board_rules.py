#!/usr/bin/env python3
"""Answers a script for `board` by the rules of docs/RULES.md; it runs nothing of the library.

usage: python3 tools/board_rules.py SCRIPT ONE TWO                  prints the answers
       python3 tools/board_rules.py SCRIPT ONE TWO calls            prints each line of the script with its answer below it
       python3 tools/board_rules.py SCRIPT ONE TWO check ANSWERS    prints the lines whose answers are others, and how many there are

ONE and TWO are the files of Site/One and Site/Two; one that is missing is a bad file. Carrying, measuring and zone files are those of
tools/moves_rules.py, mark texts those of tools/mark_rules.py. The forms of lines, spans and names are a regular expression each;
whether a beginning is viable is tried, by ending it in each way that such a text can end. `list` goes by rising slots here; the
order is open, so `check` compares what a `list` tells without regard to it.
"""
import re
import sys

import mark_rules
from mark_rules import longest_viable, refuse
from moves_rules import CALENDARS, Refused, STEP_ZONES, Setting, read_span, write_span, zone_of_bytes

SCRIPT_LIMIT, LINE_LIMIT, FILE_LIMIT = 16384, 160, 65536
SLOTS = 32
DATE_LIMIT, TIME_LIMIT = 4000000, 400000000000000000

# ── forms ──

UNITS = ["year", "month", "week", "day", "hour"]
SLOT = "([0-9]{1,3})"
LINE = re.compile(
    f"(mark|span|zone|calendar) {SLOT} ([^ ]+)|(lift) {SLOT}|(carry) {SLOT} {SLOT} {SLOT}"
    + f"|(between) {SLOT} {SLOT} ({'|'.join(UNITS)}) {SLOT}|(list)"
)
# every viable beginning of a line is whole with the end of one of these after it
LINES = ["mark 0 a", "span 0 a", "zone 0 a", "calendar 0 a", "lift 0", "carry 0 0 0", "list"] + [f"between 0 0 {unit} 0" for unit in UNITS]

NUMBER = "[0-9]{1,9}"
SPAN = re.compile(
    rf"-?P(?=[0-9T])(?:{NUMBER}Y)?(?:{NUMBER}M)?(?:{NUMBER}W)?(?:{NUMBER}D)?"
    + rf"(?:T(?=[0-9])(?:{NUMBER}H)?(?:{NUMBER}M)?(?:{NUMBER}(?:\.[0-9]{{1,6}})?S)?)?"
)
SPAN_ENDINGS = ["", "P0D", "0D", "0S", *"YMWDHS"]

ZONE_NAME = re.compile("[A-Za-z_.][-A-Za-z0-9._+/]*")
CALENDAR_NAME = re.compile("[A-Za-z0-9]+(?:-[A-Za-z0-9]+)*")


def ends(texts):
    return list(dict.fromkeys(text[at:] for text in texts for at in range(len(text) + 1)))


def judge_form(form, endings, text, limit=None):
    """The match of a text of the form; another text, and one past the limit, is refused at its place."""
    match = form.fullmatch(text)
    if not match or (limit is not None and len(text) > limit):
        place = longest_viable(form, endings, text)
        refuse(3, place if limit is None else min(place, limit))
    return match


def judge_name(form, name):
    judge_form(form, ["", "a"], name)


def span_of(text):
    judge_form(SPAN, SPAN_ENDINGS, text)
    span = read_span(text)
    for part, number in enumerate(span):
        if abs(number) > (TIME_LIMIT if part == 4 else DATE_LIMIT):
            refuse(8, part)
    return span


# ── the board ──


class Board:
    """32 marks, each an instant with the names of its zone and its calendar, and 32 spans; the calls raise what they are refused by."""

    def __init__(self, one, two):
        self.zones = {**STEP_ZONES, "Site/One": zone_of_bytes(one), "Site/Two": zone_of_bytes(two)}
        self.marks = [None] * SLOTS
        self.spans = [None] * SLOTS

    def judge_slots(self, *called, read=()):
        """Refuses slots off their shelf, and then those of `read`, shelf and place in the call, that are empty."""
        for place, slot in enumerate(called):
            if slot >= SLOTS:
                refuse(1, place)
        for shelf, place in read:
            if shelf[called[place]] is None:
                refuse(2, place)

    def put_mark(self, slot, mark):
        """The text of a mark that is put; it is asked for first, since a zone that is blank at its instant refuses it."""
        text = mark_rules.canonical(self.zones.__getitem__, mark)
        self.marks[slot] = mark
        return text

    def put_span(self, slot, span):
        self.spans[slot] = span
        return write_span(*span)

    def setting(self, mark):
        return Setting(self.zones[mark[1]], CALENDARS[mark[2]])

    def mark(self, slot, text):
        self.judge_slots(slot)
        return self.put_mark(slot, mark_rules.read(self.zones.__getitem__, text))

    def lift(self, slot):
        self.judge_slots(slot, read=[(self.marks, 0)])
        self.marks[slot] = None
        return "lifted"

    def span(self, slot, text):
        self.judge_slots(slot)
        return self.put_span(slot, span_of(text))

    def between(self, a, b, unit, s):
        self.judge_slots(a, b, s, read=[(self.marks, 0), (self.marks, 1)])
        return self.put_span(s, self.setting(self.marks[a]).measure(self.marks[a][0], unit, self.marks[b][0]))

    def carry(self, a, s, c):
        self.judge_slots(a, s, c, read=[(self.marks, 0), (self.spans, 1)])
        instant, zone, calendar = self.marks[a]
        return self.put_mark(c, (self.setting(self.marks[a]).carry(instant, self.spans[s]), zone, calendar))

    def zone(self, a, name):
        self.judge_slots(a, read=[(self.marks, 0)])
        judge_name(ZONE_NAME, name)
        if name not in self.zones:
            refuse(6, 0)
        return self.put_mark(a, (self.marks[a][0], name, self.marks[a][2]))

    def calendar(self, a, name):
        self.judge_slots(a, read=[(self.marks, 0)])
        judge_name(CALENDAR_NAME, name)
        if name not in CALENDARS:
            refuse(7, 0)
        return self.put_mark(a, (*self.marks[a][:2], name))

    def list(self):
        return [f"{slot} {mark_rules.canonical(self.zones.__getitem__, mark)}" for slot, mark in enumerate(self.marks) if mark]


# ── scripts ──


def call(board, line):
    """The lines that answer a line."""
    try:
        words = [word for word in judge_form(LINE, ends(LINES), line, LINE_LIMIT).groups() if word]
        command, *words = words
        # a slot is told by its digits, but where a word has to follow it
        texts = {"mark": 1, "span": 1, "zone": 1, "calendar": 1, "between": 2}
        arguments = [word if texts.get(command) == at else int(word) for at, word in enumerate(words)]
        answer = getattr(board, command)(*arguments)
        return answer if command == "list" else [answer]
    except Refused as refusal:
        return [str(refusal)]


def lines_of(script):
    lines = script[:SCRIPT_LIMIT].decode("latin-1").split("\n")
    return lines if lines[-1] else lines[:-1]


def file_of(path):
    """The bytes of a zone file, none where it is missing; of a longer one as many as tell that it is too long."""
    try:
        with open(path, "rb") as f:
            return f.read(FILE_LIMIT + 1)
    except OSError:
        return b""


def answered(script, one, two):
    """Each line of a script with the lines that answer it."""
    board = Board(file_of(one), file_of(two))
    with open(script, "rb") as f:
        return [(line, call(board, line)) for line in lines_of(f.read())]


def escaped(line):
    """A line, with each byte that is not printable and each backslash as \\xNN."""
    return "".join(c if "\x20" <= c <= "\x7e" and c != "\\" else f"\\x{ord(c):02x}" for c in line)


def check(rows, answers):
    with open(answers, encoding="latin-1", newline="") as f:
        told = f.read().removesuffix("\n").split("\n")
    at = differ = 0
    for number, (line, answer) in enumerate(rows, 1):
        given = told[at : at + len(answer)]
        at += len(answer)
        if sorted(given) != sorted(answer):
            differ += 1
            print(f"line {number}, {line!r}: by the rules {answer} and not {given}")
    print(f"{len(rows)} lines, {at} answers, {differ} differ" + ("" if at == len(told) or not at else f"; {len(told)} answers are told"))
    return 1 if differ or (at and at != len(told)) else 0


def main(script, one, two, show=None, answers=None):
    rows = answered(script, one, two)
    if show == "check":
        return check(rows, answers)
    for line, answer in rows:
        if show == "calls":
            print("> " + escaped(line))
        for text in answer:
            print(("  " if show == "calls" else "") + text)
    return 0


if __name__ == "__main__":
    sys.exit(main(*sys.argv[1:]))
