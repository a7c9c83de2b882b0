"""Compares `decide` with other solvers on many instances within 64 atoms. Not part of the gate.

Usage: compare.py PROGRAM [--files DIR] [--write-corpus DIR]

With --files, the .cnf files below DIR (as the test suites in the sources of the other solvers' packages) that `decide` accepts are compared too.

Installs minisat, cadical and picosat from Debian's packages where they are missing (needs root). For each instance the verdict
of `decide` must be that of the other solvers, or `s UNKNOWN`. A satisfiable answer must make all clauses true and be the least
valuation: for each true atom p the other solver is asked whether the valuation can be the same below p with p false; it must not.
"""
import glob
import os
import shutil
import statistics
import subprocess
import sys
import tempfile
import time

import instances

SOLVERS = {"minisat": ["minisat", "-verb=0"], "cadical": ["cadical", "-q"], "picosat": ["picosat"]}


def install():
    missing = [s for s in SOLVERS if shutil.which(s) is None]
    if missing:
        subprocess.run(["apt-get", "update"], stdout=subprocess.DEVNULL, check=True)
        subprocess.run(["apt-get", "install", "-y", *missing], stdout=subprocess.DEVNULL, check=True)


def other(solver, text, path):
    with open(path, "w") as f:
        f.write(text)
    status = subprocess.run(SOLVERS[solver] + [path], stdout=subprocess.DEVNULL, stderr=subprocess.DEVNULL).returncode
    return {10: "s SATISFIABLE", 20: "s UNSATISFIABLE"}[status]


def least(atoms, clauses, values, path):
    """No valuation that agrees below a true atom and has it false makes the clauses true."""
    for p in (v for v in values if v > 0):
        units = [[v] for v in values if abs(v) < p] + [[-p]]
        if other("cadical", instances.dimacs(atoms, clauses + units), path) == "s SATISFIABLE":
            return False
    return True


def files(program, folder):
    """The files that decide accepts: how many verdicts agree, are unknown, are wrong."""
    tally = {"agree": 0, "unknown": 0, "wrong": 0}
    for path in sorted(glob.glob(os.path.join(folder, "**", "*.cnf"), recursive=True)):
        with open(path, "rb") as f:
            said = subprocess.run([program], input=f.read(), stdout=subprocess.PIPE).stdout.decode().splitlines()
        if said[0].startswith("e"):
            continue
        status = subprocess.run(SOLVERS["cadical"] + [path], stdout=subprocess.DEVNULL, stderr=subprocess.DEVNULL).returncode
        theirs = {10: "s SATISFIABLE", 20: "s UNSATISFIABLE"}.get(status)
        kind = "unknown" if said[0] == "s UNKNOWN" else "agree" if said[0] == theirs else "wrong"
        tally[kind] += 1
        if kind == "wrong":
            print("WRONG:", path, said, theirs)
    print("  files: %(agree)d agree, %(unknown)d unknown, %(wrong)d wrong" % tally)
    return tally["wrong"]


def main():
    program, write = sys.argv[1], None
    if "--write-corpus" in sys.argv:
        write = sys.argv[sys.argv.index("--write-corpus") + 1]
        os.makedirs(write, exist_ok=True)
    install()
    rows, wrong, families, verdicts, names = 0, 0, {}, [], []
    times = {"decide": [], **{s: [] for s in SOLVERS}}
    with tempfile.TemporaryDirectory() as room:
        path = os.path.join(room, "x.cnf")
        for name, (atoms, clauses) in instances.all_instances():
            text = instances.dimacs(atoms, clauses)
            start = time.perf_counter()
            said = subprocess.run([program], input=text.encode(), stdout=subprocess.PIPE).stdout.decode().splitlines()
            times["decide"].append(time.perf_counter() - start)
            theirs = set()
            for solver in SOLVERS:
                start = time.perf_counter()
                theirs.add(other(solver, text, path))
                times[solver].append(time.perf_counter() - start)
            rows += 1
            names.append(name)
            count = families.setdefault(name.split("-")[0], {"s SATISFIABLE": 0, "s UNSATISFIABLE": 0, "s UNKNOWN": 0})
            count[said[0]] = count.get(said[0], 0) + 1
            ok = len(theirs) == 1 and (said[0] in theirs or said[0] == "s UNKNOWN")
            if ok and said[0] == "s SATISFIABLE":
                values = list(map(int, said[1].split()[1:-1]))
                ok = [abs(v) for v in values] == list(range(1, atoms + 1)) and all(any(l in values for l in c) for c in clauses)
                ok = ok and least(atoms, clauses, values, path)
            if not ok:
                wrong += 1
                print("WRONG:", name, said, theirs)
            if write and said[0] != "s UNKNOWN" and times["decide"][-1] < 0.05:
                with open(os.path.join(write, name + ".cnf"), "w") as f:
                    f.write(text)
                verdicts.append("%s %s" % (name, theirs.pop()))
    if write:
        with open(os.path.join(write, "verdicts.txt"), "w") as f:
            f.write("\n".join(verdicts) + "\n")
    print("%d instances, %d wrong" % (rows, wrong))
    for family, count in families.items():
        print("  %-10s %4d satisfiable %4d unsatisfiable %4d unknown" % (family, count["s SATISFIABLE"], count["s UNSATISFIABLE"], count["s UNKNOWN"]))
    for solver in SOLVERS:
        ratios = [a / b for a, b in zip(times["decide"], times[solver])]
        print("  decide / %-8s whole process, median %.2f, worst %.1f (%s)" % (solver, statistics.median(ratios), max(ratios), names[ratios.index(max(ratios))]))
    if "--files" in sys.argv:
        wrong += files(program, sys.argv[sys.argv.index("--files") + 1])
    return 1 if wrong else 0


if __name__ == "__main__":
    sys.exit(main())
