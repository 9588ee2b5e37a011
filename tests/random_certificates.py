#!/usr/bin/env python3
"""Stored certificates of random programs, with side constraints and without: as they are, and with one number changed.

    python3 tests/random_certificates.py --netflow crates/netflow/out/netflow --seed 1 --count 300

Each program of tests/plans.py is run under rules of pricing drawn at random. `run` must end by a verdict and store its
certificate; an exact check in fractions over the problem (tests/reading.py) must accept it with the number that was printed,
and so must `netflow check`. Then one number of the certificate, drawn at random, is made 1/1000 more or less, three times:
`netflow check` must answer what the exact check says of it, byte by byte: mostly the first thing that fails, and else that the
certificate is still valid.
"""
import csv
import os
import random
import sys
from collections import Counter
from fractions import Fraction

sys.dont_write_bytecode = True
from cases import call, go_through, random_arguments, table, unmet, write_files  # noqa: E402
from plans import Plan  # noqa: E402
from reading import answer_of_check, is_range_line  # noqa: E402

RULES = ["first", "best", "bland", "queue"]
VERDICTS = ["OPTIMAL", "INFEASIBLE", "UNBOUNDED"]
KINDS = ["%s %s" % (layout, verdict) for layout in ("network", "dense", "sparse") for verdict in VERDICTS] \
    + ["changed: " + answer for answer in ("ACCEPTED", "BOUND", "ROW", "REDUCED COST", "DUAL", "COLUMN", "RAY", "RAY ROW")]


def kind_of_change(listing):
    line = listing.split("\n")[0]
    words = line.replace("REFUSED ", "").split(" ")[:-1]
    return "changed: " + ("ACCEPTED" if line.startswith("ACCEPTED") else " ".join(words))


def stored(folder):
    with open(os.path.join(folder, "k.csv"), newline="", encoding="utf-8") as f:
        return list(csv.reader(f))


def as_bytes(rows):
    return [[cell.encode() for cell in row] for row in rows]


def check_faults(netflow, plan, folder):
    """What the certificate in the folder proves, or what fails first, and what is wrong with the answer of `check`."""
    got = call(netflow, ["check"], ("proc netflow %s certdata=k;" % plan.options).encode(), folder)
    status, listing, wide = answer_of_check(plan.problem, as_bytes(stored(folder)))
    if got == (status, listing, "") or (got[0] == 8 and wide and is_range_line(got[1])):
        return listing, []
    return listing, ["check answered %r, due is %d %r" % (got, status, listing)]


def run_faults(netflow, plan, folder, rules):
    """How a run ends, and what is wrong with that."""
    program = "proc netflow %s certout=k pricetype1=%s pricetype2=%s; run;" % (plan.options, *rules)
    status, text, error = call(netflow, ["run"], program.encode(), folder)
    lines = text.splitlines()
    if status != 0 or error or len(lines) != 5 or lines[0] not in VERDICTS:
        return None, ["%s: %d %r %r" % (program, status, text, error)]
    rows = stored(folder)
    listing, faults = check_faults(netflow, plan, folder)
    if listing != "ACCEPTED %s\n%s\n" % tuple(lines[:2]):
        faults.append("%r was printed, the certificate proves %r" % (lines[:2], listing))
    if lines[4] != "SAVED CERTOUT k ROWS %d" % (len(rows) - 1):
        faults.append("%d rows are stored, and told as %r" % (len(rows) - 1, lines[4]))
    return lines[0], faults


def changed(r, rows):
    """The rows with one number 1/1000 more or less."""
    n = r.randrange(2, len(rows))
    number = Fraction(rows[n][2]) + r.choice([1, -1]) * Fraction(1, 1000)
    return rows[:n] + [rows[n][:2] + [str(number)]] + rows[n + 1:]


def main():
    o = random_arguments("Stored certificates of random programs.").parse_args()
    netflow = [os.path.abspath(o.netflow)]
    seen = Counter()

    def faults_of(number, folder):
        r = random.Random("%d certificates %d" % (o.seed, number))
        plan = Plan(r)
        write_files(folder, plan.sets)
        verdict, faults = run_faults(netflow, plan, folder, r.choices(RULES, k=2))
        if verdict is None:
            return faults
        layout = "network" if "cons" not in plan.sets else "sparse" if "sparse" in plan.options else "dense"
        seen["%s %s" % (layout, verdict)] += 1
        rows = stored(folder)
        for _ in range(3 if len(rows) > 2 else 0):
            write_files(folder, {"k": table(changed(r, rows))})
            listing, wrong = check_faults(netflow, plan, folder)
            seen[kind_of_change(listing)] += 1
            faults += wrong
        return faults

    failed = go_through(o, faults_of)
    return 1 if unmet(KINDS, seen, o.count) or failed else 0


if __name__ == "__main__":
    sys.exit(main())
