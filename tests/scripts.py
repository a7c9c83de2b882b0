"""Compares the program `follow` with the model of reference.py. Usage: scripts.py PROGRAM [FOLDER]

The scripts *.txt of FOLDER must print their *.out, and so must the model; then come scripts made here, each the same at every run:
one in which derived clauses take the last of 16,384 places, and many of random requests, good and bad.
"""
import glob
import os
import random
import subprocess
import sys

import reference

DIGITS = set("0123456789")


class Session(reference.Session):
    """The model's session with its clauses in a dictionary, so that a full store is filled in good time."""

    def __init__(self, atoms, places):
        super().__init__(atoms, places)
        self.numbers = {}

    def find(self, clause):
        return self.numbers.get(clause)

    def put(self, clause, first, second):
        super().put(clause, first, second)
        self.numbers[clause] = len(self.entries)


def number(word, most):
    """Digits; what lies beyond the range is read as the largest."""
    return min(int(word), most) if word and set(word) <= DIGITS else None


def literal(word):
    minus = word.startswith("-")
    n = number(word[1:] if minus else word, 2 ** 31 if minus else 2 ** 31 - 1)
    return None if n is None else -n if minus else n


def request(words):
    """What the words of a line ask for, or nothing."""
    verb, rest = words[0], words[1:]
    if verb == "open" and len(rest) == 3 and rest[2] == "row":
        n, p = number(rest[0], 2 ** 32 - 1), number(rest[1], 2 ** 32 - 1)
        return None if n is None or p is None or p > 20000 else (verb, n, p)
    if verb == "add":
        literals = [literal(w) for w in rest]
        return None if None in literals else (verb, literals)
    if verb in ("run", "walk") and len(rest) == 1:
        n = number(rest[0], 2 ** 32 - 1)
        return None if n is None else (verb, n)
    if verb in ("show", "counts") and not rest:
        return (verb,)
    return None


def refusal(e):
    return "refused %d at %d in layer %d" % (e.number, e.place, e.layer())


def outcome(end):
    return end if isinstance(end, str) else "stopped %d" % end


def spelled(literals):
    return " ".join(map(str, sorted(literals, key=abs)))


class Follower:
    def __init__(self):
        self.session, self.due, self.items, self.said = None, None, 0, []

    def item(self, call, answer):
        self.items += 1
        self.said.append("%d. %s: %s" % (self.items, call, answer))

    def open(self, call, atoms, places):
        places = min(places, 16384)
        self.session, self.items = Session(atoms, places), 0
        self.due = reference.Refused(1) if not 1 <= atoms <= 64 else reference.Refused(2) if places == 0 else None
        self.item(call, refusal(self.due) if self.due else "opened")

    def ask(self, call, perform):
        """An item: the session's refusal at its opening, or the answer, or the refusal of the call."""
        try:
            if self.due:
                raise self.due
            answer = perform()
        except reference.Refused as e:
            answer = refusal(e)
        self.item(call, answer)

    def step(self):
        """A run with budget 1, told by its step; whether its budget ended it."""
        s = self.session
        reasons, size = dict(s.reason), len(s.entries)
        end, settings, derivations = s.run(1)
        self.spent = end == 14
        if settings:
            (atom,) = set(s.reason) - set(reasons)
            return "set %d by %d; %s" % (atom, s.reason[atom], outcome(end))
        if derivations and len(s.entries) > size:
            clause, first, second = s.entries[-1]
            return "derive %d from %d and %d: %s; %s" % (len(s.entries), first, second, spelled(clause), outcome(end))
        if derivations:
            return "derive empty from %d and %d; %s" % (*s.kept, outcome(end))
        return outcome(end)

    def line(self, place, line):
        if line.startswith(b"#"):
            return
        words = line.removesuffix(b"\r").decode(errors="replace").split(" ")
        words = [w for w in words if w]
        if not words:
            return
        asked, call = request(words), " ".join(words)
        if asked is None:
            self.said.append("line %d: not understood" % place)
        elif asked[0] == "open":
            self.open(call, *asked[1:])
        elif self.session is None:
            self.said.append("line %d: no session" % place)
        else:
            getattr(self, "ask_" + asked[0])(call, *asked[1:])

    def ask_add(self, call, literals):
        self.ask(call, lambda: "entry %d" % self.session.add(literals))

    def ask_run(self, call, budget):
        def run():
            end, settings, derivations = self.session.run(budget)
            return "%s, %d settings, %d derivations" % (outcome(end), settings, derivations)
        self.ask(call, run)

    def ask_walk(self, call, most):
        self.spent = True
        while most > 0 and self.spent:
            self.spent = False
            self.ask("run 1", self.step)
            most -= 1

    def ask_show(self, call):
        self.ask(call, lambda: " ".join(map(str, self.session.show())))

    def ask_counts(self, call):
        s = self.session
        self.said.append("%d given, %d derivations, %d settings, %d of %d places" % (s.given, s.derivations, s.settings, len(s.entries), s.places))


def followed(script):
    """What the rules say is printed of a script."""
    follower = Follower()
    for place, line in enumerate(script.split(b"\n"), 1):
        follower.line(place, line)
    return "".join(l + "\n" for l in follower.said).encode()


def last_places():
    """Clauses that stay true take all places but five; the search of three more derives the two that fill the store."""
    filler = [" ".join(["add -64"] + ["%d" % (a if k >> (a - 4) & 1 else -a) for a in range(4, 18)]) for k in range(16384)]
    filler = [filler[k * 7919 % 16384] for k in range(16379)]
    search = ["add 1 3", "add -3 2", "add -2"]
    for places in ("16384", "16383"):
        yield from ["open 64 %s row" % places, *filler, *search, "counts", "walk 100", "show", "counts", "add 5", *search, *filler[::997], filler[-1], "run 2000000", "counts"]


def word(rng):
    return rng.choice(["", "row", "skip", "x", "-", "--1", "+2", "1,2", "0x1", "-0", "00", "2000001", "4294967296", "99999999999999999999", "-2147483648", "\t1", "é", "#"])


def random_script(rng):
    atoms = rng.choice([1, 2, 3, 4, 5, 8, 64])
    lines = []
    for _ in range(rng.randint(0, 80)):
        kind = rng.random()
        literals = [rng.choice((1, -1)) * rng.randint(1, atoms) for _ in range(rng.choice([1, 1, 2, 2, 3, 4]))]
        if kind < 0.05:
            n = rng.choice([atoms] * 6 + [0, 65, 4294967295, 99999999999])
            lines.append("open %d %d row" % (n, rng.choice([0, 3, 8, 40, 40, 40, 20000, 20001])))
        elif kind < 0.10:
            lines.append(" ".join([rng.choice(["open", "add", "run", "walk", "show", "counts", "Add", ""])] + [word(rng) for _ in range(rng.randint(0, 3))]))
        elif kind < 0.15:
            lines.append("add " + " ".join(map(str, literals + [rng.choice([0, atoms + 1, -literals[0], -2147483648])])))
        elif kind < 0.65:
            lines.append("  ".join(["add"] + list(map(str, literals))) + rng.choice(["", "", " ", "\r"]))
        elif kind < 0.75:
            lines.append("run %d" % rng.choice([0, 1, 2, 5, 100, 2000000, 2000001]))
        elif kind < 0.85:
            lines.append("walk %d" % rng.choice([0, 1, 3, 10, 4294967295]))
        else:
            lines.append(rng.choice(["show", "counts", "", "# a comment", " # none"]))
    return ["open %d %d row" % (atoms, rng.choice([4, 10, 40, 200]))] * rng.randint(0, 1) + lines


def main():
    program, wrong, cases = sys.argv[1], 0, 0

    def compare(name, script, expected):
        nonlocal wrong, cases
        cases += 1
        run = subprocess.run([program], input=script, stdout=subprocess.PIPE)
        if run.returncode or run.stdout != expected:
            wrong += 1
            print("%s: status %d, not as expected" % (name, run.returncode))

    for path in sorted(glob.glob(os.path.join(sys.argv[2] if len(sys.argv) > 2 else ".", "*.txt"))):
        with open(path, "rb") as f, open(path.removesuffix(".txt") + ".out", "rb") as g:
            script, expected = f.read(), g.read()
        compare(path, script, expected)
        if followed(script) != expected:
            wrong += 1
            print("%s: the model does not print what the file says" % path)
    script = "\n".join(last_places()).encode() + b"\n"
    compare("the last places", script, followed(script))
    for seed in range(400):
        script = "\n".join(random_script(random.Random(seed))).encode() + b"\n"
        compare("random script %d" % seed, script, followed(script))
    print("%d scripts, %d wrong" % (cases, wrong))
    return 1 if wrong else 0


if __name__ == "__main__":
    sys.exit(main())
