#!/usr/bin/env python3
"""Runs of the built program `netflow run` on random networks, each against an independent method and `netflow check`.

    python3 tests/random_runs.py --netflow crates/netflow/out/netflow --seed 1 --count 300

The networks, and flows and duals that prove each other best, are those of tests/networks.py. `run` must print OPTIMAL with
the cost that `check` accepts for that certificate, under each rule of pricing, and the counts of pivots behind it; with
MAXIT1= one below these pivots it must halt there, and with MAXIT1= of just as many it must print OPTIMAL again. Then a
supply is raised above what the network carries: where no flow exists, `run` must print INFEASIBLE with a gap above 0, and
where the costs have no least, UNBOUNDED with a rate below 0. Behind each verdict `run` must save a certificate of so many
rows as it has, which `check` accepts with the same word and number; behind a halt it must save none.
"""
import os
import random
import sys
from fractions import Fraction

sys.dont_write_bytecode = True
from cases import call, go_through, random_arguments, table, write_files  # noqa: E402
from networks import Scenario  # noqa: E402

RULES = ["first", "best", "bland", "queue", "queue queuesize1=2"]
NOT_SAVED = "NOT SAVED CERTOUT NO VERDICT"


def program(options):
    return ("proc netflow arcdata=arcs nodedata=nodes certout=o%s; run;" % options).encode()


def number(line, word):
    return Fraction(line[len(word) + 1:]) if line.startswith(word + " ") else None


def pivots(lines):
    """The pivots of stage one, where the last lines of a RUN are right, with the line of a saved certificate."""
    if len(lines) != 5 or lines[3] != "STAGE 2 PIVOTS 0" or not lines[2].startswith("STAGE 1 PIVOTS "):
        return None
    return int(lines[2].split(" ")[3])


def saved_faults(netflow, folder, lines):
    """What is wrong with the certificate that a verdict has saved."""
    with open(os.path.join(folder, "o.csv")) as f:
        rows = f.read().splitlines()
    if lines[4] != "SAVED CERTOUT o ROWS %d" % (len(rows) - 1):
        return ["%d rows are saved, and told as %r" % (len(rows) - 1, lines[4])]
    status, text, _ = call(netflow, ["check"], b"proc netflow arcdata=arcs nodedata=nodes certdata=o;", folder)
    if (status, text) != (0, "ACCEPTED %s\n%s\n" % (lines[0], lines[1])):
        return ["the certificate of %r is not accepted: %d %r" % (lines[:2], status, text)]
    return []


def faults(netflow, scenario, folder):
    """What is wrong with the answers on this network."""
    bad = []
    status, text, _ = call(netflow, ["check"], scenario.program, folder)
    accepted = text.splitlines()
    if status != 0 or accepted[0] != "ACCEPTED OPTIMAL":
        return ["check does not accept the certificate: %d %r" % (status, text)]
    for rule in RULES:
        status, text, _ = call(netflow, ["run"], program(" pricetype1=%s" % rule), folder)
        lines = text.splitlines()
        made = pivots(lines)
        if status != 0 or lines[:2] != ["OPTIMAL", accepted[1]] or made is None:
            bad.append("%s: %d %r, where %r is accepted" % (rule, status, text, accepted[1]))
            continue
        bad += saved_faults(netflow, folder, lines)
        status, again, _ = call(netflow, ["run"], program(" pricetype1=%s maxit1=%d" % (rule, made)), folder)
        if (status, again) != (0, text):
            bad.append("%s, with as many pivots as it takes: %d %r" % (rule, status, again))
        if made > 0:
            status, less, _ = call(netflow, ["run"], program(" pricetype1=%s maxit1=%d" % (rule, made - 1)), folder)
            due = "HALTED MAXIT1 %d\nSTAGE 1 PIVOTS %d\nSTAGE 2 PIVOTS 0\n%s\n" % (made - 1, made - 1, NOT_SAVED)
            if (status, less) != (0, due):
                bad.append("%s, with one pivot less: %d %r" % (rule, status, less))
    return bad


def end_faults(netflow, folder, first, word, is_right):
    """What is wrong with a run that must end so."""
    status, text, _ = call(netflow, ["run"], program(""), folder)
    lines = text.splitlines()
    value = number(lines[1], word) if len(lines) == 5 else None
    if status != 0 or lines[0] != first or value is None or not is_right(value) or pivots(lines) is None:
        return ["%s is due: %d %r" % (first, status, text)]
    return saved_faults(netflow, folder, lines)


def spoilt(netflow, scenario, folder, r):
    """The same network with a new node that wants more than any arc brings, and with a cycle that costs less than nothing."""
    arcs, nodes = scenario.arcs, scenario.nodes
    name = nodes[1][0] if len(nodes) > 1 else arcs[1][0]
    want = r.randint(1, 999)
    write_files(folder, {"nodes": table(nodes + [["sink of all", str(-want)], ["source of all", str(want)]]),
                         "arcs": table(arcs + [["source of all", "sink of all", "1", str(r.randint(0, want - 1))]])})
    bad = end_faults(netflow, folder, "INFEASIBLE", "GAP", lambda gap: gap > 0)
    write_files(folder, {"nodes": table(nodes), "arcs": table(arcs + [[name, "way round", "-1", "INF"], ["way round", name, "0", "INF"]])})
    return bad + end_faults(netflow, folder, "UNBOUNDED", "RATE", lambda rate: rate < 0)


def main():
    o = random_arguments("Runs of the built program on random networks.").parse_args()
    netflow = [os.path.abspath(o.netflow)]

    def faults_of(number, folder):
        r = random.Random("%d runs %d" % (o.seed, number))
        scenario = Scenario(r)
        write_files(folder, {name: table(scenario.table(name)) for name in ("arcs", "nodes", "k")})
        return faults(netflow, scenario, folder) + spoilt(netflow, scenario, folder, r)

    return 1 if go_through(o, faults_of) else 0


if __name__ == "__main__":
    sys.exit(main())
