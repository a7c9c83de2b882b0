"""Texts, good and damaged, with the answers that the rules give them. Usage: texts.py PROGRAM

PROGRAM reads a text on standard input and prints the answer call's bytes. Every row names its expected answer, reasoned
from docs/TEXTS.md; the rows of a family compute the place of the fault from how the text was put together.
"""
import subprocess
import sys

import reference

ROWS = []


def row(text, expected):
    if isinstance(text, str):
        text = text.encode("latin-1")
    ROWS.append((text, expected.encode()))


def fault(text, number, place):
    row(text, "e %d %d\n" % (number, place))


def accepted(text):
    """A text whose verdict is not spelled out here: it must not be refused."""
    ROWS.append((text.encode("latin-1") if isinstance(text, str) else text, None))


# ---- examples with their whole answers
row("p cnf 3 3\n1 3 0\n-3 2 0\n-2 0\n", "s SATISFIABLE\nv 1 -2 -3 0\nr 3 2 3 0\n")
row("p cnf 1 0\n", "s SATISFIABLE\nv -1 0\nr 0 0 0 0\n")
row("p cnf 1 0", "s SATISFIABLE\nv -1 0\nr 0 0 0 0\n")
row("p cnf 3 0\n", "s SATISFIABLE\nv -1 -2 -3 0\nr 0 0 0 0\n")
row("p cnf 1 1\n1 0\n", "s SATISFIABLE\nv 1 0\nr 1 0 1 0\n")
row("p cnf 1 1\n-1 0\n", "s SATISFIABLE\nv -1 0\nr 1 0 0 0\n")
row("p cnf 1 2\n1 0\n-1 0\n", "s UNSATISFIABLE\nr 2 1 1 0\n")
row("p cnf 3 2\n1 2 0\n1 3 0\n", "s SATISFIABLE\nv -1 2 3 0\nr 2 0 2 0\n")
row("p cnf 3 4\n1 3 0\n-3 2 0\n-2 0\n-1 0\n", "s UNSATISFIABLE\nr 4 3 3 1\n")
row("p cnf 2 2\n2 0\n2 0\n", "s SATISFIABLE\nv -1 2 0\nr 1 0 1 0\n")
row("p cnf 3 1\n2 2 -1 0\n", "s SATISFIABLE\nv -1 -2 -3 0\nr 1 0 0 0\n")
row("p cnf 2 3\n1 2 0\n-1 2 0\n-2 0\n", "s UNSATISFIABLE\nr 3 3 3 0\n")

# ---- separators, lines, comments
SAT = "s SATISFIABLE\nv 1 0\nr 1 0 1 0\n"
for text in [
    "p cnf 1 1 1 0", "p cnf 1 1 1 0\n", "p cnf 1 1\n1\n0\n", "p\ncnf\n1\n1\n1\n0", "\tp\tcnf\t1\t1\t1\t0\t",
    "p  cnf   1 1\n\n\n1  0\n\n", "   p cnf 1 1\n1 0\n", "\n\n\np cnf 1 1\n1 0\n", " \t\n\tp cnf 1 1\n1 0\n",
    "c\np cnf 1 1\n1 0\n", "c a comment\np cnf 1 1\n1 0\n", "c p cnf 9 9\np cnf 1 1\n1 0\n", "cp cnf 9 9\np cnf 1 1\n1 0\n",
    "c one\nc two\n\n \nc three\np cnf 1 1\n1 0\n", "c\n\np cnf 1 1\n1 0\n", "c\r\np cnf 1 1\n1 0\n", "c \x00\xff\np cnf 1 1\n1 0\n",
    "ccc\n p cnf 1 1 1 0\n",
]:
    row(text, SAT)

fault("", 5, 0)
fault("\n", 5, 1)
fault("   ", 5, 3)
fault("c", 5, 1)
fault("c only\n", 5, 7)
fault("c only\nc more", 5, 13)
fault(" c not a comment\np cnf 1 1\n1 0\n", 5, 1)
fault("\tc\np cnf 1 1\n1 0\n", 5, 1)
fault("p", 5, 1)
fault("p ", 5, 2)
fault("p cnf", 5, 5)
fault("p cnf 1", 5, 7)
fault("p cnf 1 ", 5, 8)
fault("p cnf 1\nc comment\n1\n1 0\n", 5, 8)
fault("p c\n", 5, 2)
fault("pcnf 1 1\n1 0\n", 5, 0)
fault("P cnf 1 1\n1 0\n", 5, 0)
fault("p CNF 1 1\n1 0\n", 5, 2)
fault("p cnfx 1 1\n1 0\n", 5, 2)
fault("p cn 1 1\n1 0\n", 5, 2)
fault("p wcnf 1 1\n1 0\n", 5, 2)
fault("x cnf 1 1\n1 0\n", 5, 0)
fault("1 0\n", 5, 0)
fault("p cnf 1 1\r\n1 0\r\n", 5, 8)
fault("p cnf 1 1\n1 0\r\n", 5, 12)
fault("p cnf 1 1\n1 0\r", 5, 12)
fault("\rp cnf 1 1\n1 0\n", 5, 0)
fault("p cnf 1 1\x0b1 0\n", 5, 8)
fault("p cnf 1 1\x0c1 0\n", 5, 8)
fault("p cnf 1 1\n1\x000\n", 5, 10)
fault("p cnf 1 1\n1\xa00\n", 5, 10)

# ---- the heading's numbers
for n in (1, 2, 63, 64):
    row("p cnf %d 0\n" % n, "s SATISFIABLE\nv %s 0\nr 0 0 0 0\n" % " ".join("-%d" % a for a in range(1, n + 1)))
for n in ("0", "65", "66", "100", "16385", "4294967295", "4294967296", "4294967297", "18446744073709551616", "18446744073709551617", "1" + "0" * 29, "9" * 30):
    fault("p cnf %s 1\n1 0\n" % n, 6, 6)
    fault("c x\np cnf %s 1\n1 0\n" % n, 6, 10)
for n in ("00", "01", "064", "-1", "-0", "+1", "1.", "1e1", "0x1", "a", "--1", "1-", "-", "\x31\x00", "1,", "%"):
    fault("p cnf %s 1\n1 0\n" % n, 5, 6)
for m in ("16385", "16386", "99999", "4294967296", "18446744073709551616", "7" * 30):
    fault("p cnf 3 %s\n1 0\n" % m, 6, 8)
for m in ("00", "03", "-1", "-0", "+0", "1.", "x", "-"):
    fault("p cnf 3 %s\n1 0\n" % m, 5, 8)
fault("p cnf 3 16384\n1 0\n", 9, 18)
fault("p cnf 65 16385\n", 6, 6)
fault("p cnf x 16385\n", 5, 6)

# ---- clauses missing, too many
for m in range(1, 6):
    head = "p cnf 3 %d\n" % m
    for k in range(m):
        text = head + "1 2 0\n" * k
        fault(text, 9, len(text))
        fault(text + "1", 9, len(text) + 1)
        fault(text + "1 2 3 ", 9, len(text) + 6)
        fault(text.rstrip("\n"), 9, len(text) - 1) if k else None
    full = head + "1 2 0\n" * m
    accepted(full)
    for extra in ("1", "0", "x", "-0", "4", "c comment", "p"):
        fault(full + extra + "\n", 9, len(full))
fault("p cnf 1 0\n0\n", 9, 10)
fault("p cnf 1 0\n1 0\n", 9, 10)
fault("p cnf 1 0\nc\n", 9, 10)
fault("p cnf 1 0 %", 9, 10)

# ---- a fault at each word of a body: the first, the middle ones, the last
BODY = ["1", "3", "0", "-3", "2", "0", "-2", "1", "0"]


def damaged(i, word):
    """The text with its word i replaced, and the place of that word."""
    before = "c x\np cnf 3 3\n" + "".join(w + " " for w in BODY[:i])
    return before + word + "".join(" " + w for w in BODY[i + 1:]) + "\n", len(before)


for i in range(len(BODY)):
    for word in ("x", "-", "--1", "-0", "00", "01", "-01", "+1", "1x", "x1", "1-", "0x1", "1\r", "\r", "1.0", "\x80"):
        text, place = damaged(i, word)
        fault(text, 5, place)
    for word in ("4", "-4", "64", "65", "-65", "16384", "16385", "-16385", "2147483648", "-2147483648", "4294967297", "18446744073709551617", "9" * 30, "-" + "9" * 30):
        text, place = damaged(i, word)
        fault(text, 6, place)
for i, word, first in ((1, "-1", "1"), (4, "3", "-3"), (7, "2", "-2")):
    text, place = damaged(i, word)
    fault(text, 7, place)
for i in (0, 3, 6):
    text, place = damaged(i, "0")
    fault(text, 8, place)

# ---- the order of faults at one word and over words: the first faulty word decides
fault("p cnf 3 1\n1 -1 x 0\n", 7, 12)
fault("p cnf 3 1\n1 x -1 0\n", 5, 12)
fault("p cnf 3 1\n4 x 0\n", 6, 10)
fault("p cnf 3 1\n0 x\n", 8, 10)
fault("p cnf 3 2\n1 0\n0\n", 8, 14)
fault("p cnf 3 1\n1 2 3 -1 -2 -3 0\n", 7, 16)
fault("p cnf 3 1\n-2 1 -2 2 0\n", 7, 18)
fault("p cnf 3 2\n1 -2 0\n2 -2 0\n", 7, 19)
row("p cnf 3 2\n1 -2 0\n2 -1 0\n", "s SATISFIABLE\nv -1 -2 -3 0\nr 2 0 0 0\n")
fault("p cnf 64 1\n64 -64 0\n", 7, 14)
fault("p cnf 64 1\n65 0\n", 6, 11)
fault("p cnf 2 1\n3 0\n", 6, 10)
fault("p cnf 2 1\n1 0\n1 0\nx\n", 9, 14)

# ---- places: 1,024 of them, whether or not clauses repeat
fault("p cnf 1 1025\n" + "1 0\n" * 1025, 10, 0)
row("p cnf 1 1024\n" + "1 0\n" * 1024, "s SATISFIABLE\nv 1 0\nr 1 0 1 0\n")
fault("p cnf 1 16384\n" + "1 0 " * 4680 + "\n", 9, 14 + 4 * 4680 + 1)
fault("p cnf 1 1025\n" + "1 0\n" * 1024, 9, 13 + 4 * 1024)
fault("p cnf 1 1025\n" + "1 0\n" * 1024 + "1 x", 5, 13 + 4 * 1024 + 2)
for k, percent in ((5, 0), (6, 1), (15, 1), (16, 2), (128, 13), (384, 38), (512, 50), (1018, 99), (1019, 100), (1024, 100)):
    # k different clauses over ten negated atoms: nothing to set, so size is k; the fill is rounded half up
    clauses = []
    for s in range(1, 1024):
        clauses.append(" ".join("-%d" % (a + 1) for a in range(10) if s >> a & 1) + " 0\n")
    clauses.append("-11 0\n")
    if k <= 900:
        row("p cnf 11 %d\n" % k + "".join(clauses[:k]), "s SATISFIABLE\nv %s 0\nr %d 0 0 %d\n" % (" ".join("-%d" % a for a in range(1, 12)), k, percent))

# ---- length of a text: 32,768 bytes are read, 32,769 are too many, whatever they say
TAIL = "p cnf 1 1\n1 0\n"
row("c" + "x" * (32768 - len(TAIL) - 2) + "\n" + TAIL, SAT)
row("\n" * (32768 - len(TAIL)) + TAIL, SAT)
row(TAIL + " " * (32768 - len(TAIL)), SAT)
fault("c" + "x" * (32769 - len(TAIL) - 2) + "\n" + TAIL, 4, 0)
fault(TAIL + " " * (32769 - len(TAIL)), 4, 0)
fault("x" * 32768, 5, 0)
fault("x" * 32769, 4, 0)
fault("c" * 32768, 5, 32768)
fault("\n" * 32768, 5, 32768)
fault("p cnf 1 1\n" + "9" * (32768 - 10), 6, 10)
fault("x" * 100000, 4, 0)


def main():
    program = sys.argv[1]
    wrong = 0
    for i, (text, expected) in enumerate(ROWS, 1):
        model = reference.answer(text)
        if expected is None:
            expected = model
            if model.startswith(b"e"):
                print("row %d: the model refuses an accepted text" % i)
                wrong += 1
        elif model != expected:
            print("row %d: the table and the model differ: %r %r for %r" % (i, expected, model, text[:60]))
            wrong += 1
        got = subprocess.run([program], input=text, stdout=subprocess.PIPE).stdout
        if got != expected:
            print("row %d: %r instead of %r for %r" % (i, got[:60], expected[:60], text[:60]))
            wrong += 1
    print("%d texts, %d wrong" % (len(ROWS), wrong))
    return 1 if wrong else 0


if __name__ == "__main__":
    sys.exit(main())
