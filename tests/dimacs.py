#!/usr/bin/env python3
"""DIMACS text in and out of the built program: `netflow import` and `netflow export` on texts and tables that this script makes.

    python3 tests/dimacs.py --netflow crates/netflow/out/netflow --seed 1 --count 300

First come texts and problems with one fault each, and the line that is due. Then random networks go round: their tables are
exported, which must give the text that is computed here; the text is imported, which must store the tables that are computed
here, byte by byte; these are exported again, which must give the same text; and `run` must list the same for both pairs of
tables. Texts in free form, with comments, empty lines and lines in any order, are imported and exported in the same way.
"""
import os
import random
import sys

sys.dont_write_bytecode = True
from cases import Cases, call, go_through, random_arguments, write_files  # noqa: E402

PROGRAM = b"proc netflow arcdata=arcs nodedata=nodes;"
RUN = b"proc netflow arcdata=arcs nodedata=nodes; run;"
ARCS = "_FROM_,_TO_,_NAME_,_COST_,_CAPAC_,_LO_\n"
NODES = "_NODE_,_SUPDEM_\n"

# text, the line of its first fault, its kind
FAULTS = [
    ("", 1, "NoProblem"),
    ("c nothing\n", 2, "NoProblem"),
    ("n 1 5\n", 1, "BadLine"),
    ("p max 2 1\n", 1, "BadLine"),
    ("p min 2\n", 1, "BadLine"),
    ("p min 1 0\np min 1 0\n", 2, "BadLine"),
    ("p min 1 0\nq\n", 2, "BadLine"),
    ("p min 1 0\nn 1\n", 2, "BadLine"),
    ("p min -1 0\n", 1, "Number"),
    ("p min 1 0\n\nn 1 0.5\n", 3, "Number"),
    ("p min 1 0\nn 1 1234567890\n", 2, "Number"),
    ("p min 1 0\nn 1 +1\n", 2, "Number"),
    ("p min 20001 0\n", 1, "LimitPassed"),
    ("p min 1 200001\n", 1, "LimitPassed"),
    ("p min 2 1\nn 3 0\n", 2, "Node"),
    ("p min 2 1\na 1 0 0 1 1\n", 2, "Node"),
    ("p min 2 0\nn 1 0\nn 1 0\n", 3, "RepeatedNode"),
    ("p min 2 1\na 1 2 -2 -1 1\n", 2, "Negative"),
    ("p min 2 1\r\na 1 2 3 2 1\r\n", 2, "Crossed"),
    ("p min 2 1\n", 2, "WrongCount"),
    ("p min 2 0\na 1 2 0 1 1", 3, "WrongCount"),
    ("p min 2 1\nn 1 5\nn 2 -4\na 1 2 0 10 2\n", 5, "Unbalanced"),
]

# rows of arcs (`_FROM_,_TO_,_COST_,_CAPAC_,_LO_`) and of nodes, and the line of the first refusal
REFUSALS = [
    ("a,b,1,5,0", "a,0.5|b,-0.5", "ROW 1: Number"),
    ("a,b,0.5,5,0", "a,1|b,-1", "C1: Number"),
    ("a,b,1,5.5,0", "a,1|b,-1", "C1: Number"),
    ("a,b,1,5,0.5", "a,1|b,-1", "C1: Number"),
    ("a,b,1,5,0|b,a,1,,0", "a,1|b,-1", "C2: NoCapacity"),
    ("a,b,1,-1,-2", "a,-1|b,1", "C1: Negative"),
    # the arc to `_EXCESS_` is without a capacity
    ("a,b,1,5,0", "a,2|b,-1", "C2: NoCapacity"),
]

CONSTRAINED = [
    ("_ROW_,a_b,_RHS_\nr,1,3\n", "EXPORT REFUSED: Constraints\n"),
    ("_ROW_,z,_RHS_\n", "EXPORT REFUSED: Constraints\n"),
    ("_ROW_,a_b,_RHS_\n", "p min 2 1\nn 1 1\nn 2 -1\na 1 2 0 5 1\n"),
]


def fixed_cases(netflow):
    """How many texts and problems with one fault are not refused as is due."""
    cases = Cases(netflow)
    for text, line, kind in FAULTS:
        cases.expect("import of %r" % text, cases.run_on({}, ["import"], text.encode()), 4, "DIMACS REFUSED LINE %d: %s" % (line, kind))
    for arcs, nodes, line in REFUSALS:
        files = {
            "arcs": ("_FROM_,_TO_,_COST_,_CAPAC_,_LO_\n" + arcs.replace("|", "\n") + "\n").encode(),
            "nodes": (NODES + nodes.replace("|", "\n") + "\n").encode(),
        }
        due = "EXPORT REFUSED " + line
        cases.expect("export of %s, %s" % (arcs, nodes), cases.run_on(files, ["export"], PROGRAM), 4, due)
    files = {"arcs": b"_FROM_,_TO_,_COST_,_CAPAC_\na,b,1,5\n", "nodes": b"_NODE_,_SUPDEM_\na,1\nb,-1\n"}
    for cons, due in CONSTRAINED:
        got = cases.run_on({**files, "cons": cons.encode()}, ["export"], PROGRAM[:-1] + b" condata=cons;")
        cases.expect("export with %r" % cons, got, 0 if due.startswith("p") else 4, due)
    cases.expect("export without nodes", cases.run_on({"arcs": files["arcs"]}, ["export"], PROGRAM), 7, "ABSENT nodes")
    cases.expect("export of a run", cases.run_on(files, ["export"], RUN), 3, "PROGRAM REFUSED AT 42: StatementOrder")
    return cases.end()


class Network:
    """Flows of nodes 1 to n, and arcs as tail, head, lower bound, capacity and cost."""

    def __init__(self, flows, arcs):
        self.flows, self.arcs = flows, arcs

    def text(self):
        """The text as `export` writes it."""
        lines = ["p min %d %d" % (len(self.flows), len(self.arcs))]
        lines += ["n %d %d" % (i, f) for i, f in enumerate(self.flows, 1) if f]
        lines += ["a %d %d %d %d %d" % arc for arc in self.arcs]
        return "".join(line + "\n" for line in lines)

    def free_text(self, r):
        """The same in free form."""
        lines = ["n %d %d" % (i, f) for i, f in enumerate(self.flows, 1) if f or r.random() < 0.3]
        arcs = ["a %d %d %d %d %d" % arc for arc in self.arcs]
        places = sorted(r.randint(0, len(lines)) for _ in arcs)
        r.shuffle(lines)
        for place, arc in reversed(list(zip(places, arcs))):
            lines.insert(place, arc)
        lines.insert(0, "p min %d %d" % (len(self.flows), len(self.arcs)))
        for _ in range(r.randint(0, 3)):
            lines.insert(r.randint(0, len(lines)), r.choice(["c a comment", "", " \t", "cost"]))
        gap = r.choice([" ", "  ", "\t", " \t "])
        end = r.choice(["\n", "\r\n"])
        return end.join(r.choice(["", " "]) + line.replace(" ", gap) for line in lines) + r.choice(["", end])

    def tables(self):
        """The tables as `import` stores them."""
        arcs = ["%d,%d,x%d,%d,%d,%d" % (t, h, k, c, u, lo) for k, (t, h, lo, u, c) in enumerate(self.arcs, 1)]
        nodes = ["%d,%d" % (i, f) for i, f in enumerate(self.flows, 1)]
        return {"arcs": "".join(x + "\n" for x in [ARCS[:-1], *arcs]), "nodes": "".join(x + "\n" for x in [NODES[:-1], *nodes])}

    def renumbered(self):
        """The same network, with its nodes numbered as `export` does: in the order in which the arcs name them, and then by number."""
        order = list(dict.fromkeys([node for arc in self.arcs for node in arc[:2]] + list(range(1, len(self.flows) + 1))))
        number = {node: i for i, node in enumerate(order, 1)}
        return Network([self.flows[node - 1] for node in order], [(number[t], number[h], *rest) for t, h, *rest in self.arcs])

    def planned(self, r):
        """Tables of the same network as a planner may write them, with names."""
        names = r.sample(["plant", "depot 1", "x", "5", "-3", "North", "a_b", "R2", "Z.9", "Z"], len(self.flows))
        arcs = ["%s,%s,%d,%d,%d,way %d" % (names[t - 1], names[h - 1], u, c, lo, -k) for k, (t, h, lo, u, c) in enumerate(self.arcs)]
        nodes = ["%s,%s" % (name, f if f else r.choice(["0", "", "."])) for name, f in zip(names, self.flows)]
        named = ["from,to,most,price,least,way", *arcs]
        return {"arcs": "".join(x + "\n" for x in named), "nodes": "".join(x + "\n" for x in [NODES[:-1], *nodes])}


ROLES = b" tailnode from; headnode to; capacity most; cost price; lo least; name way;"


def draw(r):
    n = r.randint(0, 8)
    flows = [r.choice([0, 0, r.randint(-9, 9), r.randint(-99999999, 99999999)]) for _ in range(n)]
    if n:
        flows[-1] -= sum(flows)
    arcs = []
    for _ in range(r.randint(0, 2 * n)):
        low = r.choice([0, 0, 0, r.randint(-5, 5), -999999999])
        room = r.choice([r.randint(0, 9), 999999999 - max(low, 0)])
        arcs.append((r.randint(1, n), r.randint(1, n), low, min(max(low, 0) + room, 999999999), r.choice([0, r.randint(-9, 9), 999999999])))
    return Network(flows, arcs)


def stored(folder):
    found = {}
    for name in sorted(os.listdir(folder)):
        with open(os.path.join(folder, name), encoding="utf-8", newline="") as f:
            found[name[:-4]] = f.read()
    return found


def within(folder, name, files=None):
    path = os.path.join(folder, name)
    os.makedirs(path)
    write_files(path, {k: v.encode() for k, v in (files or {}).items()})
    return path


def import_faults(netflow, network, text, folder):
    """What is wrong with the import of a text of this network."""
    got = call(netflow, ["import"], text.encode(), folder)
    due = (0, "IMPORTED NODES %d ARCS %d\n" % (len(network.flows), len(network.arcs)), "")
    if got != due:
        return ["import of %r: %r" % (text, got)]
    return [] if stored(folder) == network.tables() else ["import of %r stores %r" % (text, stored(folder))]


def export_faults(netflow, program, due, folder):
    before = stored(folder)
    got = call(netflow, ["export"], program, folder)
    bad = [] if got == (0, due, "") else ["export: %r, due is %r" % (got, due)]
    return bad if stored(folder) == before else bad + ["export changes the folder"]


def faults(netflow, number, seed, folder):
    """What is wrong on the way round."""
    r = random.Random(seed * 1_000_003 + number)
    network = draw(r)
    ordered = network.renumbered()
    planned = within(folder, "planned", ordered.planned(r))
    bad = export_faults(netflow, PROGRAM + ROLES, ordered.text(), planned)
    first = within(folder, "first")
    bad += import_faults(netflow, ordered, ordered.text(), first)
    bad += export_faults(netflow, PROGRAM, ordered.text(), first)
    runs = [call(netflow, ["run"], RUN[:-5] + ROLES + b" run;", planned)[:2], call(netflow, ["run"], RUN, first)[:2]]
    if runs[0] != runs[1]:
        bad.append("run lists %r and %r" % (runs[0], runs[1]))
    turned = Network(ordered.flows, [(t, h, lo, u, -c) for t, h, lo, u, c in ordered.arcs])
    bad += export_faults(netflow, PROGRAM[:-1] + b" maximize;", turned.text(), first)
    second = within(folder, "second")
    bad += import_faults(netflow, network, network.free_text(r), second)
    return bad + export_faults(netflow, PROGRAM, ordered.text(), second)


def main():
    given = random_arguments(__doc__.splitlines()[0]).parse_args()
    netflow = [os.path.abspath(given.netflow)]
    failed = fixed_cases(given.netflow)
    failed += go_through(given, lambda number, folder: faults(netflow, number, given.seed, folder))
    return 1 if failed else 0


if __name__ == "__main__":
    sys.exit(main())
