#!/usr/bin/env python3
"""Samples of the built program, `netflow sample`, each against `netflow run` and `netflow check` on tables that this script makes.

    python3 tests/random_samples.py --netflow crates/netflow/out/netflow --seed 1 --count 300

The tables are made here as docs/FORMATS.md describes the generator, and written as files. The summary of `sample` must be the
line with its numbers, what `run` lists on these files but for the line of the stored certificate, and `CHECK ACCEPTED`, after
which `check` must accept that certificate. With words that are no sample, the usage line must be the whole listing.
"""
import os
import random
import sys

sys.dont_write_bytecode = True
from cases import USAGE, call, go_through, random_arguments, write_files  # noqa: E402

PROGRAM = "proc netflow arcdata=arcs nodedata=nodes%s %s=k;%s"
CONSTRAINTS = " condata=cons sparsecondata"


class Draws:
    """The generator of the samples."""

    def __init__(self, seed):
        self.state = seed % 2 ** 31

    def below(self, m):
        self.state = (1103515245 * self.state + 12345) % 2 ** 31
        return self.state // 65536 % m


def nodes_of(draws, n):
    supplies = [draws.below(10) + 1 for _ in range(n // 2)]
    return supplies + [0] * (n % 2) + [-s for s in reversed(supplies)]


def arcs_of(draws, n, a):
    for i in range(1, n + 1):
        yield "n%d,n%d,x%d,100," % (i, i % n + 1, i)
    for i in range(n + 1, a + 1):
        tail, head, cost, capacity = draws.below(n), draws.below(n), draws.below(90), draws.below(20)
        yield "n%d,n%d,x%d,%d,%d" % (tail + 1, head + 1, i, cost + 1, capacity + 1)


def constraints_of(draws, a, c):
    for k in range(1, c + 1):
        coefficients = [draws.below(3) + 1 for _ in range(3)]
        ends = ["LE,%d" % draws.below(50), ",", ","]
        for t in range(3):
            yield "r%d,x%d,%d,%s" % (k, (3 * k + t) % a + 1, coefficients[t], ends[t])
        yield "r%d,z%d,-1,," % (k, k)
    for k in range(1, c + 1):
        yield "cost,z%d,1000,%s," % (k, "COST" if k == 1 else "")


def text(header, rows):
    return "".join(line + "\n" for line in [header, *rows]).encode()


def tables(seed, n, a, c):
    """The data sets of a sample, drawn in the order nodes, arcs, constraints."""
    draws = Draws(seed)
    sets = {"nodes": text("_NODE_,_SUPDEM_", ["n%d,%d" % (i + 1, s) for i, s in enumerate(nodes_of(draws, n))])}
    sets["arcs"] = text("_FROM_,_TO_,_NAME_,_COST_,_CAPAC_", arcs_of(draws, n, a))
    if c:
        sets["cons"] = text("_ROW_,_COLUMN_,_COEF_,_TYPE_,_RHS_", constraints_of(draws, a, c))
    return sets


def draw(r):
    """Seed and sizes of a sample, mostly small."""
    n = r.randint(3, r.choice([5, 12, 40]))
    return r.choice([0, r.randint(1, 99), 999999999, r.randint(0, 999999999)]), n, r.randint(n, 4 * n), r.choice([0, 0, 1, 2, 5])


def spelled(r, number):
    """The number as a word, perhaps with leading zeros."""
    return str(number).zfill(r.choice([1, 1, 1, 3, 9]))


def wrong(r, words):
    """Words that ask for no sample."""
    words = list(words)
    kind = r.randrange(4)
    if kind == 0:
        words[r.randint(1, 4)] = r.choice(["", "x", "-1", "1.0", "+5", "1234567890", "0000000001", "50001", "help", "--help"])
    elif kind == 1:
        words[2] = r.choice(["0", "2", "2001"])
    elif kind == 2:
        words = words[:r.randint(1, 4)] if r.random() < 0.5 else words + ["1"]
    else:
        words[4] = r.choice(["51", "100", "999999999"])
    return words


def faults(netflow, r, folder):
    """What is wrong with the summary of a random sample."""
    numbers = draw(r)
    words = ["sample"] + [spelled(r, x) for x in numbers]
    if r.random() < 0.2:
        words = wrong(r, words)
        got = call(netflow, words, b"", folder)
        return [] if got == (2, USAGE + "\n", "") else ["%r gives %r" % (words, got)]
    write_files(folder, tables(*numbers))
    with_constraints = CONSTRAINTS if numbers[3] else ""
    status, listed, _ = call(netflow, ["run"], (PROGRAM % (with_constraints, "certout", " run;")).encode(), folder)
    lines = listed.splitlines()
    if status != 0 or lines[0] != "OPTIMAL" or not lines[-1].startswith("SAVED CERTOUT k ROWS "):
        return ["run on the tables of %r gives %d %r" % (numbers, status, listed)]
    status, accepted, _ = call(netflow, ["check"], (PROGRAM % (with_constraints, "certdata", "")).encode(), folder)
    if (status, accepted) != (0, "ACCEPTED OPTIMAL\n%s\n" % lines[1]):
        return ["check on the tables of %r gives %d %r" % (numbers, status, accepted)]
    due = ["SAMPLE SEED %d NODES %d ARCS %d CONSTRAINTS %d" % numbers] + lines[:-1] + ["CHECK ACCEPTED"]
    got = call(netflow, words, b"", folder)
    return [] if got == (0, "".join(line + "\n" for line in due), "") else ["%r gives %r, due is %r" % (words, got, due)]


def main():
    o = random_arguments("Samples of the built program, each against run and check on its tables.").parse_args()
    netflow = [os.path.abspath(o.netflow)]
    return 1 if go_through(o, lambda number, folder: faults(netflow, random.Random("%d sample %d" % (o.seed, number)), folder)) else 0


if __name__ == "__main__":
    sys.exit(main())
