#!/usr/bin/env python3
"""Writes a small sound trace over three atoms to standard output: the clauses {1,3}, {2,-3}, {-2}, {-1} refuted."""
import struct
import sys

LINES = [  # positive atoms, negative atoms, the two antecedent lines
    ([1, 3], [], 0, 0),
    ([2], [3], 0, 0),
    ([], [2], 0, 0),
    ([1, 2], [], 1, 2),
    ([1], [], 4, 3),
    ([], [1], 0, 0),
    ([], [], 5, 6),
]


def word(atoms):
    return sum(1 << (a - 1) for a in atoms)


out = b"".join(struct.pack(">QQII", word(p), word(n), first, second) for p, n, first, second in LINES)
given = sum(1 for line in LINES if line[2:] == (0, 0))
sys.stdout.buffer.write(out + bytes.fromhex("4241434B") + struct.pack(">IIIII", 3, len(out), len(LINES), given, 0))
