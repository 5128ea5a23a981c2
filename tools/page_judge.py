#!/usr/bin/env python3
"""Judges a page by 01's "Page program": `tools/page_judge.py [FILE..]` prints, for each file (or standard input), the
number that refuses the page (10, 1, 2, 3), or 0 where the page makes a board.

It is written from 01, 02 and docs/DECISIONS.md alone, with regular expressions over the whole input, so that it shares
nothing with the definitions in specs/ and can be run against the page program on any bytes.
"""
import re
import sys

LONGEST = 65536
LARGEST = 2147483647
COUNT = rb"(0|[1-9][0-9]*)"
SIZE = re.compile(rb"\(size " + COUNT + rb" " + COUNT + rb"\)")
ROW = re.compile(rb"\(row ([0-9]+)\)")
CLUE = re.compile(rb"\(clue " + COUNT + rb" " + COUNT + rb" " + COUNT + rb"\)")
CALL = re.compile(rb"\((?:undo|check|decide " + COUNT + rb" [01])\)")


class Malformed(Exception):
    """The page is refused with 10."""


def counts(match):
    """The counts of a line, each at most 2147483647."""
    words = [word for word in match.groups() if word is not None]
    if any(len(word) > 10 or int(word) > LARGEST for word in words):
        raise Malformed
    return [int(word) for word in words]


def lines_of(data):
    """The lines between `(page` and `)`, each of which a newline ends."""
    if len(data) > LONGEST or not data.endswith(b"\n"):
        raise Malformed
    lines = data[:-1].split(b"\n")
    if len(lines) < 3 or lines[0] != b"(page" or lines[-1] != b")":
        raise Malformed
    return lines[1:-1]


def read(data):
    """Height, width, rows, clues and calls of a well formed page."""
    lines = lines_of(data)
    match = SIZE.fullmatch(lines[0])
    if not match:
        raise Malformed
    height, width = counts(match)
    rows, clues, calls = [], [], []
    for line in lines[1:]:
        if (match := ROW.fullmatch(line)) and not clues and not calls:
            rows.append(match.group(1))
        elif (match := CLUE.fullmatch(line)) and not calls:
            clues.append(counts(match))
        elif match := CALL.fullmatch(line):
            counts(match)
            calls.append(line)
        else:
            raise Malformed
    cells = [(y, x) for y, x, _ in clues]
    if len(set(cells)) < len(cells) or any(y >= height or x >= width for y, x in cells):
        raise Malformed
    return height, width, rows, clues, calls


def judge(data):
    """The number that refuses the page, or 0."""
    try:
        height, width, rows, _, _ = read(data)
    except Malformed:
        return 10
    if not (1 <= height <= 32 and 1 <= width <= 32):
        return 1
    if len(rows) != height or any(len(row) != width for row in rows):
        return 2
    if any(digit not in b"01" for row in rows for digit in row):
        return 3
    return 0


def main():
    if len(sys.argv) == 1:
        print(judge(sys.stdin.buffer.read()))
    for name in sys.argv[1:]:
        with open(name, "rb") as page:
            print(judge(page.read()))


if __name__ == "__main__":
    main()
