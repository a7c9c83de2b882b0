"""Instances within 64 atoms, each made from a seed: the same on every machine."""
import itertools
import random


def dimacs(atoms, clauses):
    return "p cnf %d %d\n" % (atoms, len(clauses)) + "".join(" ".join(map(str, c)) + " 0\n" for c in clauses)


def uniform(rng, variables, count, k=3):
    """Uniform k-SAT: k different variables, each sign by a fair draw."""
    return [[v if rng.random() < 0.5 else -v for v in rng.sample(variables, k)] for _ in range(count)]


def random_3sat(seed, atoms, ratio):
    rng = random.Random("3sat %d %d %s" % (seed, atoms, ratio))
    return atoms, uniform(rng, list(range(1, atoms + 1)), round(atoms * ratio))


def chain(seed, cliques, size, count):
    """Independent uniform 3-SAT cliques; a clause of two literals joins each to the next."""
    rng = random.Random("chain %d %d %d %d" % (seed, cliques, size, count))
    groups = [list(range(1 + i * size, 1 + (i + 1) * size)) for i in range(cliques)]
    clauses = []
    for i, group in enumerate(groups):
        clauses += uniform(rng, group, count)
        if i:
            clauses.append([rng.choice((1, -1)) * rng.choice(groups[i - 1]), rng.choice((1, -1)) * rng.choice(group)])
    return cliques * size, clauses


def tree(seed, k, m, cliques, count):
    """A tree of cliques of k + m variables: each new one shares k variables with an earlier one and adds m."""
    rng = random.Random("tree %d %d %d %d %d" % (seed, k, m, cliques, count))
    groups = [list(range(1, k + m + 1))]
    clauses = uniform(rng, groups[0], count)
    top = k + m
    for _ in range(cliques - 1):
        group = rng.sample(rng.choice(groups), k) + list(range(top + 1, top + m + 1))
        top += m
        groups.append(group)
        clauses += uniform(rng, group, count)
    return top, clauses


def pigeonhole(holes, pigeons=None):
    pigeons = holes + 1 if pigeons is None else pigeons
    at = lambda p, h: p * holes + h + 1
    clauses = [[at(p, h) for h in range(holes)] for p in range(pigeons)]
    clauses += [[-at(p, h), -at(q, h)] for h in range(holes) for p, q in itertools.combinations(range(pigeons), 2)]
    return pigeons * holes, clauses


def parity(seed, atoms, equations, width=3):
    """Sums of `width` variables modulo 2, with right sides drawn at random."""
    rng = random.Random("parity %d %d %d %d" % (seed, atoms, equations, width))
    clauses = []
    for _ in range(equations):
        variables, odd = rng.sample(range(1, atoms + 1), width), rng.random() < 0.5
        for signs in itertools.product((1, -1), repeat=width):
            if (sum(s < 0 for s in signs) % 2 == 1) == (not odd):
                clauses.append([s * v for s, v in zip(signs, variables)])
    return atoms, clauses


def colouring(seed, nodes, edges, colours):
    rng = random.Random("colouring %d %d %d %d" % (seed, nodes, edges, colours))
    at = lambda n, c: n * colours + c + 1
    pairs = rng.sample(list(itertools.combinations(range(nodes), 2)), edges)
    clauses = [[at(n, c) for c in range(colours)] for n in range(nodes)]
    clauses += [[-at(a, c), -at(b, c)] for a, b in pairs for c in range(colours)]
    return nodes * colours, clauses


def planner(seed, atoms, count):
    """Conditions as planners have them: implications, alternatives of two to four, a few facts."""
    rng = random.Random("planner %d %d %d" % (seed, atoms, count))
    clauses = []
    for _ in range(count):
        k = rng.choice((1, 2, 2, 2, 3, 3, 4))
        clauses.append([v if rng.random() < 0.45 else -v for v in rng.sample(range(1, atoms + 1), min(k, atoms))])
    return atoms, clauses


def all_instances():
    """Name and instance, family by family."""
    for ratio in (3.0, 4.3, 4.8):
        for atoms in (10, 15, 20, 25, 30, 35):
            for seed in range(12):
                yield "uniform-%s-%d-%d" % (ratio, atoms, seed), random_3sat(seed, atoms, ratio)
    for cliques, size in ((3, 5), (5, 6), (8, 8)):
        for count in (3 * size, 4 * size, 5 * size):
            for seed in range(6):
                yield "chain-%d-%d-%d-%d" % (cliques, size, count, seed), chain(seed, cliques, size, count)
    for k, m, cliques in ((2, 4, 5), (3, 4, 8), (2, 5, 12)):
        for count in (2 * (k + m), 3 * (k + m)):
            for seed in range(6):
                yield "tree-%d-%d-%d-%d-%d" % (k, m, cliques, count, seed), tree(seed, k, m, cliques, count)
    for holes in range(1, 7):
        yield "pigeons-%d" % holes, pigeonhole(holes)
        yield "pigeons-fit-%d" % holes, pigeonhole(holes, holes)
    for atoms, equations in ((8, 6), (12, 12), (16, 14), (20, 18)):
        for seed in range(6):
            yield "parity-%d-%d-%d" % (atoms, equations, seed), parity(seed, atoms, equations)
    for nodes, edges, colours in ((6, 10, 3), (8, 16, 3), (10, 20, 3), (12, 28, 3), (8, 22, 4), (12, 40, 4)):
        for seed in range(5):
            yield "colouring-%d-%d-%d-%d" % (nodes, edges, colours, seed), colouring(seed, nodes, edges, colours)
    for atoms, count in ((4, 8), (8, 16), (12, 30), (20, 40), (30, 60), (40, 80), (64, 120)):
        for seed in range(8):
            yield "planner-%d-%d-%d" % (atoms, count, seed), planner(seed, atoms, count)
