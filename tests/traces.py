#!/usr/bin/env python3
"""Sound traces and damaged ones: the program judge against the checker of tools/check_trace.py.

Usage: traces.py JUDGE. A small resolution prover makes sound traces. Every byte of the small ones and a sample of the bytes of the
larger ones is changed to several values, lines are damaged under a trailer that agrees, and lengths are changed. For each, judge must print
the same verdict with the same number and place, and end with status 0.
"""
import collections
import concurrent.futures
import itertools
import os
import random
import struct
import subprocess
import sys

sys.path.insert(0, os.path.join(os.path.dirname(os.path.abspath(__file__)), "..", "tools"))
from check_trace import verdict  # noqa: E402


def word(atoms):
    return sum(1 << (a - 1) for a in atoms)


def encode(lines, count):
    """The bytes of lines (sets of literals with two antecedents) and of a trailer that agrees with them."""
    body = b"".join(
        struct.pack(">QQII", word(l for l in clause if l > 0), word(-l for l in clause if l < 0), first, second) for clause, first, second in lines
    )
    return body + trailer(body, count)


def trailer(body, count):
    given = sum(1 for i in range(0, len(body), 24) if body[i + 16 : i + 24] == bytes(8))
    return b"BACK" + struct.pack(">IIIII", count, len(body), len(body) // 24, given, 0)


def refute(clauses, limit=400):
    """A derivation of the empty clause from the clauses by resolution, as lines, or None where there is none within the limit."""
    lines, seen = [], {}
    for c in clauses:
        c = frozenset(c)
        if c and c not in seen:
            lines.append((c, 0, 0))
            seen[c] = len(lines)
    done = 0
    while done < len(lines) <= limit:
        done += 1
        for other in range(1, done):
            for one, two in ((done, other), (other, done)):
                a, b = lines[one - 1][0], lines[two - 1][0]
                cancelled = [l for l in a if l > 0 and -l in b]
                if len(cancelled) != 1:
                    continue
                c = (a | b) - {cancelled[0], -cancelled[0]}
                if c in seen or any(-l in c for l in c):
                    continue
                lines.append((frozenset(c), one, two))
                seen[frozenset(c)] = len(lines)
                if not c:
                    return needed(lines)
    return None


def needed(lines):
    """The lines that the last one depends on, renumbered."""
    used, stack = set(), [len(lines)]
    while stack:
        k = stack.pop()
        if k and k not in used:
            used.add(k)
            stack += lines[k - 1][1:]
    order = {0: 0, **{k: i + 1 for i, k in enumerate(sorted(used))}}
    return [(lines[k - 1][0], order[lines[k - 1][1]], order[lines[k - 1][2]]) for k in sorted(used)]


def satisfiable(clauses, count):
    return any(all(any((l > 0) == values[abs(l) - 1] for l in c) for c in clauses) for values in itertools.product((False, True), repeat=count))


def sound_traces(rng):
    """Names and bytes of sound traces, small ones first."""
    traces = [("two units", encode(refute([[1], [-1]]), 1)), ("a chain", encode(refute([[1, 3], [-3, 2], [-2], [-1]]), 3))]
    while len(traces) < 9:
        count = rng.randint(2, 6)
        clauses = []
        for _ in range(4 * count):
            clauses.append([a * rng.choice((1, -1)) for a in rng.sample(range(1, count + 1), rng.randint(1, min(3, count)))])
        lines = refute(clauses)
        if lines and len(lines) > 4:
            assert not satisfiable([c for c, first, _ in lines if first == 0], count)
            traces.append((f"random {len(traces)}", encode(lines, count)))
    holes = [[1, 2], [3, 4], [5, 6]] + [[-a, -b] for x in (0, 1) for a, b in itertools.combinations((1 + x, 3 + x, 5 + x), 2)]
    traces.append(("pigeons", encode(refute(holes, 2000), 6)))
    steps = [[1]] + [[-a, a + 1] for a in range(1, 64)] + [[-64]]
    lines = [(frozenset(c), 0, 0) for c in steps]
    top = 1
    for a in range(1, 64):
        lines.append((frozenset([a + 1]), top, a + 1))
        top = len(lines)
    lines.append((frozenset(), top, 65))
    traces.append(("all atoms", encode(lines, 64)))
    longest = [(frozenset([64]), 0, 0)] * 16383 + [(frozenset([-64]), 0, 0), (frozenset(), 1, 16384)]
    traces.append(("the longest", encode(longest, 64)))
    return traces


def changed(data, places, rng):
    """The data with one byte changed, at each of the places to several values."""
    for i in places:
        old = data[i]
        for new in sorted({old ^ 1, old ^ 0x80, (old + 2) % 256, 0, 255, rng.randrange(256)} - {old}):
            yield data[:i] + bytes([new]) + data[i + 1 :]


def damaged_lines(data, rng, times):
    """The data with a line damaged and the trailer made to agree again."""
    count = struct.unpack(">I", data[-20:-16])[0]
    size = len(data) // 24 - 1
    for _ in range(times):
        lines = [bytearray(data[24 * i : 24 * i + 24]) for i in range(size)]
        k = rng.randrange(size)
        kind = rng.randrange(8)
        if kind == 0:
            lines[k][rng.randrange(24)] ^= 1 << rng.randrange(8)
        elif kind == 1:
            lines[k][16:24] = lines[k][20:24] + lines[k][16:20]
        elif kind == 2:
            lines[k][16:] = struct.pack(">II", rng.randint(0, size + 1), rng.randint(0, size + 1))
        elif kind == 3:
            j = rng.randrange(size)
            lines[k], lines[j] = lines[j], lines[k]
        elif kind == 4:
            lines.insert(k, bytearray(lines[k]))
        elif kind == 5 and size > 1:
            del lines[k]
        elif kind == 6:
            lines[k][0:16] = bytes(16)
        else:
            bit = 1 << rng.randrange(8)
            lines[k][rng.choice((7, 15))] ^= bit
        body = b"".join(bytes(l) for l in lines)
        yield body + trailer(body, count)


def other_lengths(data):
    for size in (0, 1, 23, 24, 25, 47, 48, 49, 72, len(data) - 24, len(data) - 1, len(data) + 1, len(data) + 24):
        yield (data + bytes(24))[:size] if size > len(data) else data[:size]
    for count in (0, 1, 2, 63, 64, 65, 256, 2**32 - 1):
        yield data[:-24] + trailer(data[:-24], count)
    yield data[:-24] + data[-48:-24] + data[-24:]
    yield data[24:]


def special():
    """Traces that only look right."""
    both = encode([(frozenset([1, 2]), 0, 0), (frozenset([-1, -2]), 0, 0), (frozenset(), 1, 2)], 2)  # two atoms cancelled at once
    ahead = encode([(frozenset([1]), 0, 0), (frozenset([-1]), 0, 0), (frozenset(), 1, 3)], 1)  # an antecedent that is the line itself
    swapped = encode([(frozenset([1]), 0, 0), (frozenset([-1]), 0, 0), (frozenset(), 2, 1)], 1)  # antecedents in the wrong order
    lonely = encode([(frozenset(), 0, 0)], 1)  # an empty clause that is given
    twice = encode([(frozenset([1]), 0, 0), (frozenset([-1]), 0, 0), (frozenset(), 1, 2), (frozenset(), 1, 2)], 1)
    clash = encode([(frozenset([1, -1]), 0, 0), (frozenset([1]), 0, 0), (frozenset(), 2, 1)], 1)
    half = encode([(frozenset([1]), 0, 0), (frozenset([-1]), 0, 1), (frozenset(), 1, 2)], 1)
    return [both, ahead, swapped, lonely, twice, clash, half, b"", bytes(48), bytes(393264), bytes(500000)]


def cases():
    rng = random.Random(14)
    seen = set()
    for name, data in sound_traces(rng):
        if verdict(data) != "sound":
            raise SystemExit(f"{name} is not sound")
        made = [data]
        if len(data) <= 300:
            made += changed(data, range(len(data)), rng)
            made += damaged_lines(data, rng, 150)
            made += other_lengths(data)
        elif len(data) < 100000:
            made += changed(data, sorted(rng.sample(range(len(data)), 40)) + list(range(len(data) - 24, len(data))), rng)
            made += damaged_lines(data, rng, 60)
            made += other_lengths(data)
        else:
            made += changed(data, rng.sample(range(len(data)), 2), rng)
            made += [data + bytes(24), data[:-24] + bytes(24) + trailer(data[:-24] + bytes(24), 64), data[24:], data + data]
        for m in made:
            if m not in seen:
                seen.add(m)
                yield name, m
    for m in special():
        yield "special", m


def main():
    judge = sys.argv[1]

    def ask(case):
        name, data = case
        run = subprocess.run([judge], input=data, capture_output=True, check=False)
        return name, data, run.returncode, run.stdout.decode("ascii", "replace").rstrip("\n")

    tally, wrong = collections.Counter(), 0
    with concurrent.futures.ThreadPoolExecutor(max_workers=4) as pool:
        for name, data, status, said in pool.map(ask, cases()):
            due = verdict(data)
            tally[" ".join(due.split()[:2])] += 1
            if status != 0 or said != due:
                wrong += 1
                print(f"{name}, {len(data)} bytes: judge says '{said}' (status {status}), the checker '{due}': {data[:240].hex()}")
    print(f"traces: {sum(tally.values())} judged, {wrong} differ; " + ", ".join(f"{n} {v}" for v, n in sorted(tally.items())))
    sys.exit(1 if wrong else 0)


if __name__ == "__main__":
    main()
