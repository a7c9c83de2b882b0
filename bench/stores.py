#!/usr/bin/env python3
"""How find, put and least false of the two clause stores grow with their size, beside a plain scan.

    tools/build store_bench && python3 bench/stores.py

Counts instructions with valgrind's callgrind, less those of the same run with the work left out, and measures
nanoseconds in the same program without valgrind. Prints Markdown tables. --quick leaves out the instructions.
"""

import os
import re
import subprocess
import sys
import tempfile

PROGRAM = os.path.join(os.path.dirname(os.path.abspath(__file__)), "..", "target", "bin", "store_bench")
SIZES = [256, 1024, 4096, 16384]
STORES = ["plain", "row", "skip"]
KINDS = {
    ("find", "scattered"): "find, of a held clause",
    ("miss", "scattered"): "find, of a clause that is not held",
    ("put", "scattered"): "put, of a new clause: the last eighth of the entries",
    ("least", "scattered"): "least false, under valuations spread over 11 of the 12 atoms",
    ("never", "scattered"): "least false, where no clause is false",
    ("find", "alternating"): "find, of a held clause, after arrivals low, high, low, ..",
    ("put", "alternating"): "put, of a new clause, the last eighth of arrivals low, high, low, ..",
}
TIMES = 512
ROUNDS = 21


def line(store, kind, size, times=None):
    """The line of input: how many entries are put beforehand, and how often the work is done."""
    work, arrival = kind
    built = size - size // 8 if work == "put" else size
    return f"{store} {work} {arrival} {size} {built} {times_of(kind, size) if times is None else times}"


def times_of(kind, size):
    return size // 8 if kind[0] == "put" else TIMES


def instructions(request):
    with tempfile.TemporaryDirectory() as folder:
        out = os.path.join(folder, "out")
        subprocess.run(
            ["valgrind", "--tool=callgrind", f"--callgrind-out-file={out}", PROGRAM],
            input=request + "\n", text=True, check=True, capture_output=True,
        )
        with open(out) as lines:
            return int(re.search(r"^totals: (\d+)", lines.read(), re.M).group(1))


def counted():
    """Instructions an operation, by kind, size and store."""
    result, base = {}, {}
    for kind in KINDS:
        for size in SIZES:
            for store in STORES:
                idle = line(store, (kind[0] if kind[0] == "put" else "find", kind[1]), size, 0)
                if idle not in base:
                    base[idle] = instructions(idle)
                spent = instructions(line(store, kind, size)) - base[idle]
                result[kind, size, store] = spent / times_of(kind, size)
    return result


def timed():
    """Nanoseconds an operation: the least of some rounds. All stores must give the same answers."""
    requests = {(k, n, s): line(s, k, n) for k in KINDS for n in SIZES for s in STORES}
    best, sums = {}, {}
    for _ in range(ROUNDS):
        run = subprocess.run([PROGRAM], input="\n".join(requests.values()) + "\n", text=True, check=True, capture_output=True)
        for key, text in zip(requests, run.stdout.splitlines(), strict=True):
            nanos, answers = re.fullmatch(re.escape(requests[key]) + r": (\d+) ns, sums (\d+ \d+)", text).groups()
            if sums.setdefault(key[:2], answers) != answers:
                sys.exit(f"{text}: other answers than another store")
            each = int(nanos) / times_of(key[0], key[1])
            best[key] = min(best.get(key, each), each)
    return best


def shown(x):
    return f"{x:,.0f}" if x >= 10 else f"{x:.1f}"


def table(title, results):
    print(f"{title}\n")
    for kind, words in KINDS.items():
        print(f"| {words} | " + " | ".join(f"{n:,}" for n in SIZES) + " |")
        print("|---" * (len(SIZES) + 1) + "|")
        for store in STORES:
            cells = []
            for size in SIZES:
                own, plain = results[kind, size, store], results[kind, size, "plain"]
                cells.append(shown(own) + ("" if store == "plain" else f" ({own / plain:.3g})"))
            print(f"| {store} | " + " | ".join(cells) + " |")
        print()


def main():
    if not os.path.exists(PROGRAM):
        sys.exit("no program: run tools/build store_bench first")
    if "--quick" not in sys.argv[1:]:
        table("Instructions an operation, in brackets by those of the plain scan:", counted())
    table("Nanoseconds an operation, in brackets by those of the plain scan:", timed())


main()
