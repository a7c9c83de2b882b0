#!/usr/bin/env python3
"""Checks a trace, read from a file or from standard input, by the rules of docs/TRACES.md.

Prints 'sound', or 'refused NUMBER at PLACE': 15 at 0 for a wrong trailer, 16 at the first wrong line. It shares nothing with
the library: lines are sets of signed numbers here.
"""
import sys

SOUND = "sound"
WRONG_TRAILER = "refused 15 at 0"


def number(data):
    """Bytes as a number, most significant byte first."""
    total = 0
    for byte in data:
        total = total * 256 + byte
    return total


def atoms(word):
    """The atoms of a word: atom a is worth 2 to the power a - 1."""
    return {i + 1 for i, digit in enumerate(reversed(bin(word)[2:])) if digit == "1"}


def read_lines(data):
    """The lines before the trailer: positive atoms, negative atoms, and the numbers of the two antecedents."""
    lines = []
    for start in range(0, len(data) - 24, 24):
        part = data[start : start + 24]
        lines.append((atoms(number(part[0:8])), atoms(number(part[8:16])), number(part[16:20]), number(part[20:24])))
    return lines


def trailer_agrees(data):
    if not 48 <= len(data) <= 393264 or len(data) % 24 != 0:
        return False
    trailer = data[-24:]
    count, distance, last, given, zero = (number(trailer[i : i + 4]) for i in range(4, 24, 4))
    if trailer[:4] != b"\x42\x41\x43\x4b" or zero != 0 or not 1 <= count <= 64:
        return False
    if distance != len(data) - 24 or last * 24 != distance:
        return False
    bare = 0
    for start in range(0, distance, 24):
        if data[start + 16 : start + 24] == bytes(8):
            bare += 1
    return given == bare


def line_agrees(lines, count, k):
    """Whether line k is right, over atoms 1 to count."""
    positive, negative, first, second = lines[k - 1]
    if positive & negative or any(a > count for a in positive | negative):
        return False
    empty = not positive and not negative
    if empty != (k == len(lines)):
        return False
    if first == 0 and second == 0:
        return not empty
    if not 1 <= first < k or not 1 <= second < k:
        return False
    one, other = lines[first - 1], lines[second - 1]
    cancelled = one[0] & other[1]
    if len(cancelled) != 1:
        return False
    return positive == (one[0] | other[0]) - cancelled and negative == (one[1] | other[1]) - cancelled


def verdict(data):
    if not trailer_agrees(data):
        return WRONG_TRAILER
    lines = read_lines(data)
    count = number(data[-20:-16])
    for k in range(1, len(lines) + 1):
        if not line_agrees(lines, count, k):
            return f"refused 16 at {k}"
    return SOUND


if __name__ == "__main__":
    with open(sys.argv[1], "rb") if len(sys.argv) > 1 else sys.stdin.buffer as source:
        print(verdict(source.read()))
