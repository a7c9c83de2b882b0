"""An independent model of the library, written from docs/RULES.md and docs/TEXTS.md and not from its code.

Slow and plain on purpose: clauses are sets of signed numbers, the store is a list. Tests compare programs with it.
"""

import sys

sys.set_int_max_str_digits(0)

BLANKS = b" \t\n"
MOST_TEXT = 1048576
MOST_CLAUSES = 16384


class Refused(Exception):
    def __init__(self, number, place=0):
        super().__init__(number, place)
        self.number, self.place = number, place

    def layer(self):
        return 1 if self.number == 5 else 2 if 6 <= self.number <= 9 else 3


# ---- texts

def heading_place(text):
    """Where the first word outside a comment line begins, or the text's length."""
    at = 0
    while at < len(text):
        end = text.find(b"\n", at)
        end = len(text) if end < 0 else end
        if text[at:at + 1] != b"c":
            for i in range(at, end):
                if text[i] not in BLANKS:
                    return i
        at = end + 1
    return len(text)


def words(text, at):
    found, start = [], None
    for i in range(at, len(text) + 1):
        if i < len(text) and text[i] not in BLANKS:
            start = i if start is None else start
        elif start is not None:
            found.append((start, text[start:i]))
            start = None
    return found


def numeral(word):
    """The number of a word that is 0 or digits without a leading zero."""
    if not word or any(b not in b"0123456789" for b in word):
        return None
    if len(word) > 1 and word[:1] == b"0":
        return None
    return int(word)


def literal(word):
    if word[:1] == b"-":
        n = numeral(word[1:])
        return None if n is None or n == 0 else -n
    return numeral(word)


def parse(text, most_atoms):
    """The atoms N and the clauses of a text, each a frozenset of literals, or the first refusal."""
    if len(text) > MOST_TEXT:
        raise Refused(4)
    rest = words(text, heading_place(text))
    end = len(text)

    def take():
        if not rest:
            raise Refused(5, end)
        return rest.pop(0)

    for fixed in (b"p", b"cnf"):
        place, word = take()
        if word != fixed:
            raise Refused(5, place)
    counts = []
    for low, high in ((1, most_atoms), (0, MOST_CLAUSES)):
        place, word = take()
        n = numeral(word)
        if n is None:
            raise Refused(5, place)
        if not low <= n <= high:
            raise Refused(6, place)
        counts.append(n)
    atoms, left = counts
    clauses, clause = [], set()
    for place, word in rest:
        if left == 0:
            raise Refused(9, place)
        l = literal(word)
        if l is None:
            raise Refused(5, place)
        if l == 0:
            if not clause:
                raise Refused(8, place)
            clauses.append(frozenset(clause))
            clause, left = set(), left - 1
            continue
        if abs(l) > atoms:
            raise Refused(6, place)
        if -l in clause:
            raise Refused(7, place)
        clause.add(l)
    if left:
        raise Refused(9, end)
    return atoms, clauses


# ---- sessions

def treatments(clause, atoms=64):
    """How a clause treats each atom, from the highest: 0 absent, 1 positive, 2 negative. Lists compare as clauses are ordered."""
    return [1 if a in clause else 2 if -a in clause else 0 for a in range(atoms, 0, -1)]


def is_true(clause, true):
    return any((l > 0) == (abs(l) in true) for l in clause)


class Session:
    def __init__(self, atoms, places):
        self.atoms, self.places = atoms, places
        self.entries = []      # (clause, first, second)
        self.keys = []
        self.true, self.reason = set(), {}
        self.verdict, self.kept = None, None
        self.settings = self.derivations = self.given = 0

    def find(self, clause):
        for k, e in enumerate(self.entries, 1):
            if e[0] == clause:
                return k
        return None

    def put(self, clause, first, second):
        self.entries.append((clause, first, second))
        self.keys.append(treatments(clause))

    def clear_above(self, highest):
        self.true = {a for a in self.true if a <= highest}
        self.reason = {a: k for a, k in self.reason.items() if a <= highest}

    def accept(self, clause):
        k = self.find(clause)
        if k is not None:
            return k
        if len(self.entries) == self.places:
            raise Refused(10)
        self.put(clause, 0, 0)
        self.given += 1
        if self.verdict == "satisfiable":
            self.verdict = None
        if not is_true(clause, self.true):
            self.clear_above(max(map(abs, clause)))
        return len(self.entries)

    def add(self, literals):
        clause = set()
        for i, l in enumerate(literals):
            if not 1 <= abs(l) <= self.atoms:
                raise Refused(6, i)
            if -l in clause:
                raise Refused(7, i)
            clause.add(l)
        if not clause:
            raise Refused(8)
        return self.accept(frozenset(clause))

    def load(self, text):
        atoms, clauses = parse(text, self.atoms)
        if len(clauses) > self.places - len(self.entries):
            raise Refused(10)
        for clause in clauses:
            self.accept(clause)
        return len(clauses)

    def least_false(self):
        best = None
        for k, (clause, _, _) in enumerate(self.entries, 1):
            if not is_true(clause, self.true):
                if best is None or self.keys[k - 1] < self.keys[best - 1]:
                    best = k
        return best

    def run(self, budget):
        """How a run ended, its settings and derivations."""
        if budget > 2000000:
            raise Refused(4)
        settings = derivations = 0
        while True:
            if self.verdict == "unsatisfiable":
                return "unsatisfiable", settings, derivations
            k = self.least_false()
            if k is None:
                self.verdict = "satisfiable"
                return "satisfiable", settings, derivations
            if settings + derivations == budget:
                return 14, settings, derivations
            clause = self.entries[k - 1][0]
            p = max(map(abs, clause))
            if p in clause:
                self.true.add(p)
                self.reason[p] = k
                self.settings += 1
                settings += 1
                continue
            r = self.reason[p]
            derived = (self.entries[r - 1][0] - {p}) | (clause - {-p})
            if any(-l in derived for l in derived):
                return 13, settings, derivations
            if derived and len(self.entries) == self.places:
                return 10, settings, derivations
            self.derivations += 1
            derivations += 1
            if not derived:
                self.verdict, self.kept = "unsatisfiable", (r, k)
            else:
                self.put(frozenset(derived), r, k)
                self.clear_above(max(map(abs, derived)))

    def show(self):
        if self.verdict != "satisfiable":
            raise Refused(11)
        return [a if a in self.true else -a for a in range(1, self.atoms + 1)]


# ---- the answer call

def answer(text):
    """The bytes that the answer call prints for a text."""
    try:
        if len(text) > 32768:
            raise Refused(4)
        atoms, _ = parse(text, 64)
        session = Session(atoms, 1024)
        session.load(text)
    except Refused as e:
        return b"e %d %d\n" % (e.number, e.place)
    end, _, _ = session.run(2000000)
    lines = {"satisfiable": "s SATISFIABLE", "unsatisfiable": "s UNSATISFIABLE"}.get(end, "s UNKNOWN") + "\n"
    if end == "satisfiable":
        lines += "v " + " ".join(map(str, session.show())) + " 0\n"
    percent = (200 * len(session.entries) + 1024) // 2048
    lines += "r %d %d %d %d\n" % (session.given, session.derivations, session.settings, percent)
    return lines.encode()


if __name__ == "__main__":
    sys.stdout.buffer.write(answer(sys.stdin.buffer.read()))
