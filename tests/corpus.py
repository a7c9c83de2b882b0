"""Runs `decide` on the corpus and compares verdicts with those that other solvers gave. Usage: corpus.py PROGRAM"""
import os
import subprocess
import sys

HERE = os.path.join(os.path.dirname(os.path.abspath(__file__)), "corpus")


def main():
    wrong = rows = 0
    with open(os.path.join(HERE, "verdicts.txt")) as f:
        for line in f:
            name, verdict = line.rstrip("\n").split(" ", 1)
            with open(os.path.join(HERE, name + ".cnf"), "rb") as text:
                said = subprocess.run([sys.argv[1]], input=text.read(), stdout=subprocess.PIPE).stdout.decode().splitlines()
            rows += 1
            if said[:1] != [verdict]:
                wrong += 1
                print("%s: %s instead of %s" % (name, said[:1], verdict))
    print("%d instances, %d wrong" % (rows, wrong))
    return 1 if wrong or not rows else 0


if __name__ == "__main__":
    sys.exit(main())
