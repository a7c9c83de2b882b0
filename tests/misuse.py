#!/usr/bin/env python3
"""Misuses of a check that must not build: taking a line after closing, and judging an open check.

Usage: misuse.py, in a repository whose crates are proved. A small crate that uses checks as it should is proved in a copy of the repository;
then each misuse is put into it, and the compiler itself must refuse it, with the error that is due and before anything is proved.
"""
import os
import shutil
import subprocess
import sys
import tempfile

ROOT = os.path.join(os.path.dirname(os.path.abspath(__file__)), "..")
NEEDED = ("clause", "lines", "rule", "trace_check")

USER = """#![tactic(auto)]

use clause::refusal::Refusal;
use trace_check::check::OpenCheck;

// Takes one line, and judges what was taken.
pub fn first_line(trace: &[u8]) -> Result<(), Refusal> {
    let mut open = OpenCheck::open(trace);
    let _ = open.take();
    let closed = open.close();
    closed.judge()
}
"""

MISUSES = (  # what is done, the text that it stands for, the text, and the error that is due
    ("taking a line after closing", "    closed.judge()\n", "    let _ = open.take();\n    closed.judge()\n", "error[borrow-e0382]: borrow of moved value: `open`"),
    ("taking a line of a closed check", "    closed.judge()\n", "    let _ = closed.take();\n    closed.judge()\n", "error[unknown-method]: the method `take` exists for `ClosedCheck`, but its bounds are not met"),
    ("judging an open check", "    let closed = open.close();\n    closed.judge()\n", "    open.judge()\n", "error[unknown-method]: no method named `judge` found for type `OpenCheck`"),
)


def prove(copy, source):
    """Checks the crate with this source: its status, and what was printed."""
    with open(os.path.join(copy, "crates", "user", "src", "lib.rt"), "w") as out:
        out.write(source)
    run = subprocess.run(["rt", "check"], cwd=os.path.join(copy, "crates", "user"), stdout=subprocess.PIPE, stderr=subprocess.STDOUT, check=False)
    return run.returncode, run.stdout.decode("utf-8", "replace")


def main():
    with tempfile.TemporaryDirectory() as copy:
        for name in NEEDED:
            shutil.copytree(os.path.join(ROOT, "crates", name), os.path.join(copy, "crates", name))
        for folder in ("src", "specs", "proofs"):
            os.makedirs(os.path.join(copy, "crates", "user", folder))
        for folder in ("specs", "proofs"):
            open(os.path.join(copy, "crates", "user", folder, "Lib.antt"), "w").close()
        if os.path.isdir(os.path.join(ROOT, "target")):
            shutil.copytree(os.path.join(ROOT, "target"), os.path.join(copy, "target"))
        with open(os.path.join(ROOT, "crates.txt")) as listed, open(os.path.join(copy, "crates.txt"), "w") as out:
            out.writelines(line for line in listed if line.split(":")[0] in NEEDED)
            out.write("user: " + " ".join(NEEDED) + "\n")
        status, said = prove(copy, USER)
        if status != 0:
            sys.exit("misuse: the crate that uses checks as it should is not proved:\n" + said[-2000:])
        wrong = 0
        for what, old, new, due in MISUSES:
            assert USER.count(old) == 1
            status, said = prove(copy, USER.replace(old, new))
            if status == 0 or due not in said or "logic=" in said:
                wrong += 1
                print(f"misuse: {what} is not refused with '{due}':\n" + said[-2000:])
        print(f"misuse: {len(MISUSES)} tried, {wrong} not refused by the compiler")
        sys.exit(1 if wrong else 0)


if __name__ == "__main__":
    main()
