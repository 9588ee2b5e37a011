#!/usr/bin/env python3
"""How long `netflow run` takes on planning problems with side constraints, how many pivots, and how wide its numbers get.

    python3 bench/planning.py --netflow crates/netflow/out/netflow

A works makes products month by month for regions. Making, buying in, keeping for the next month and shipping are arcs of a
network. Side constraints are, for each month and machine, hours a piece times pieces less overtime at most the hours that
there are; for each month and store the same with space and rented space; and for each material, what all pieces take of it is
what is ordered. Overtime, rented space and orders are nonarc variables. The months differ, so that in some the machines do
not suffice, and something is made early, bought or made in overtime. The same seed makes the same problems.

The coefficients are drawn from whole numbers up to 3 (small) or up to 9 (whole), from quarters up to 3.75, tenths up to 9.9 or
thousandths up to 9.999: how wide numbers get depends on that. bench/replay.py makes the same pivots in fractions without
limit. Its verdict, pivots and cost must be those that the program prints, or its first number of more than 127 bits must
stand where the program is refused. Without --netflow there is the replay alone.
"""
import argparse
import csv
import os
import random
import sys
import tempfile
from fractions import Fraction

sys.dont_write_bytecode = True
from replay import EQ, LE, Problem, Run  # noqa: E402
from solve import measured  # noqa: E402

# constraints: months, products, regions, machines, stores, materials
SIZES = {14: (6, 4, 2, 2, 0, 2), 50: (12, 6, 2, 3, 1, 2), 100: (12, 10, 2, 6, 2, 4)}
# coefficients: the most of them in units, and units in 1
GRAINS = {"small": (3, 1), "quarters": (15, 4), "whole": (9, 1), "tenths": (99, 10), "thousandths": (9999, 1000)}
ARCS, NODES, CONS = ("_FROM_,_TO_,_NAME_,_COST_,_CAPAC_", "_NODE_,_SUPDEM_", "_ROW_,_COLUMN_,_COEF_,_TYPE_,_RHS_")


def text(number):
    """The text of an amount that is not below 0."""
    whole, thousandths = divmod(round(number * 1000), 1000)
    return str(whole) if thousandths == 0 else "%d.%03d" % (whole, thousandths)


class Planning:
    """A planning problem: arcs by name, supplies by node, side constraints, and their nonarc variables by name."""

    def __init__(self, constraints, grain, seed):
        self.r = random.Random("%d %d %s" % (seed, constraints, grain))
        self.most, self.grain = GRAINS[grain]
        months, products, regions, machines, stores, materials = SIZES[constraints]
        self.arcs, self.supplies, self.rows, self.variables = {}, {"works": 0}, [], {}
        self.months, self.products, self.regions = range(months), range(products), range(regions)
        for month in self.months:
            for product in self.products:
                self.add_product(month, product)
        for machine in range(machines):
            self.add_machine(machine)
        for store in range(stores):
            self.add_store(store)
        for material in range(materials):
            self.add_material(material)

    @staticmethod
    def name(what, product, month):
        return "%s %d in %d" % (what, product, month)

    def add_product(self, month, product):
        r, node = self.r, "product %d month %d" % (product, month)
        self.arcs[self.name("make", product, month)] = ("works", node, r.randint(10, 40), None)
        self.arcs[self.name("buy", product, month)] = ("works", node, r.randint(90, 190), None)
        if month + 1 < len(self.months):
            self.arcs[self.name("keep", product, month)] = (node, "product %d month %d" % (product, month + 1), r.randint(1, 4), None)
        for region in self.regions:
            wanted = r.randint(5, 40) * (2 if month % 6 in (4, 5) else 1)
            place = "region %d product %d month %d" % (region, product, month)
            self.arcs["%s to %d" % (self.name("ship", product, month), region)] = (node, place, r.randint(1, 9), None)
            self.supplies[place] = -wanted
            self.supplies["works"] += wanted

    def add_machine(self, machine):
        """Its hours suffice for most of what is wanted in a mean month."""
        each, cost = self.coefficients(), self.r.randint(3, 9)
        for month in self.months:
            hours = {self.name("make", p, month): each[p] for p in self.products}
            self.add_limit("hours of machine %d in %d" % (machine, month), "overtime %d in %d" % (machine, month), hours, 85, cost)

    def add_store(self, store):
        """Its space month by month, and over all months."""
        each = self.coefficients()
        for month in self.months[:-1]:
            space = {self.name("keep", p, month): each[p] for p in self.products}
            self.add_limit("space of store %d in %d" % (store, month), "rented %d in %d" % (store, month), space, 20, 2)
        space = {self.name("keep", p, month): each[p] for p in self.products for month in self.months[:-1]}
        self.add_limit("space of store %d in all" % store, "rented %d in all" % store, space, 10, 1)

    def add_material(self, material):
        each, order = self.coefficients(), "order %d" % material
        taken = {self.name("make", p, month): each[p] for p in self.products for month in self.months}
        self.rows.append(("material %d" % material, EQ, Fraction(0), taken, order))
        self.variables[order] = (self.r.randint(1, 4), None)

    def node_count(self):
        return len({end for tail, head, _, _ in self.arcs.values() for end in (tail, head)})

    def coefficients(self):
        """What a piece of each product takes."""
        return [Fraction(self.r.randint(1, self.most), self.grain) for _ in self.products]

    def add_limit(self, row, variable, coefficients, share, cost):
        """At most these hundredths of what the mean demand takes, and at a cost a quarter of that more."""
        mean = Fraction(self.supplies["works"], len(self.products) * len(self.months))
        right = Fraction(int(sum(coefficients.values()) * mean * share / 100 * self.grain), self.grain)
        self.rows.append((row, LE, right, coefficients, variable))
        self.variables[variable] = (cost, Fraction(int(right * self.grain / 4), self.grain))

    def write(self, folder):
        def store(name, header, lines):
            with open(os.path.join(folder, name + ".csv"), "w", encoding="utf-8") as f:
                f.write(header + "\n" + "".join(",".join(line) + "\n" for line in lines))
        store("arcs", ARCS, ([t, h, name, text(cost), "INF" if most is None else text(most)] for name, (t, h, cost, most) in self.arcs.items()))
        store("nodes", NODES, ([node, text(s) if s >= 0 else "-" + text(-s)] for node, s in self.supplies.items()))
        lines = []
        for row, relation, right, coefficients, variable in self.rows:
            lines.append([row, variable, "-1", relation, text(right)])
            lines += [[row, name, text(value), "", ""] for name, value in coefficients.items()]
        lines += [["cost", name, text(cost), "COST", ""] for name, (cost, _) in self.variables.items()]
        lines += [["most", name, text(most), "UPPERBD", ""] for name, (_, most) in self.variables.items() if most is not None]
        store("cons", CONS, lines)

    def problem(self):
        """The same for bench/replay.py."""
        def pair(number):
            number = Fraction(number)
            return number.numerator, number.denominator

        nodes, columns, at = {}, [], {}
        for name, (tail, head, cost, most) in self.arcs.items():
            at[name] = len(columns)
            ends = [(nodes.setdefault(tail, len(nodes)), (1, 1)), (nodes.setdefault(head, len(nodes)), (-1, 1))]
            columns.append((pair(cost), (0, 1), None if most is None else pair(most), ends))
        rows = [(EQ, pair(self.supplies.get(node, 0))) for node in nodes]
        for _, relation, right, coefficients, variable in self.rows:
            cost, most = self.variables[variable]
            columns.append((pair(cost), (0, 1), None if most is None else pair(most), [(len(rows), (-1, 1))]))
            for name, value in coefficients.items():
                columns[at[name]][3].append((len(rows), pair(value)))
            rows.append((relation, pair(right)))
        return Problem(len(nodes), len(self.arcs), [(c, low, up, sorted(entries)) for c, low, up, entries in columns], rows)


def stored_bits(folder):
    """The bits of the widest number in the stored certificate."""
    with open(os.path.join(folder, "k.csv"), newline="", encoding="utf-8") as f:
        numbers = [Fraction(row[2]) for row in list(csv.reader(f))[2:]]
    return max(max(abs(x.numerator), x.denominator).bit_length() for x in numbers)


def listing_of(netflow, plan, rule):
    """The listing of a run, its seconds, and the bits of the widest number that it stored."""
    program = "proc netflow arcdata=arcs nodedata=nodes condata=cons sparsecondata certout=k pricetype1=%s pricetype2=%s; run;" % (rule, rule)
    with tempfile.TemporaryDirectory() as folder:
        plan.write(folder)
        lines, took, _ = measured(netflow, program.encode(), folder, (0, 8))
        return lines, "%.2f" % took, stored_bits(folder) if lines[0] == "OPTIMAL" else "-"


def disagreement(run, verdict, cost, lines):
    """What a listing should begin with, where it does not."""
    if run.meter.first_pass:
        due = ["RANGE PASSED STAGE %d ITERATION %d" % run.meter.first_pass]
        return None if [lines[0].split(":")[0]] == due else due
    due = [verdict, "TOTAL COST %s" % cost, "STAGE 1 PIVOTS %d" % run.pivots[0], "STAGE 2 PIVOTS %d" % run.pivots[1]]
    return None if lines[:4] == due else due


def row_of(netflow, plan, rule):
    """What is printed of one problem: nodes, columns, pivots of both stages, seconds, how the run ended, and the bits of the
    widest number that was stored, that was met, and that was met inside an operation."""
    run = Run(plan.problem(), (rule, rule))
    verdict = run.run()
    cost = Fraction(*run.total_cost())
    took = stored = "-"
    if netflow:
        lines, took, stored = listing_of(netflow, plan, rule)
        due = disagreement(run, verdict, cost, lines)
        if due:
            sys.exit("the program prints %r, due is %r" % (lines, due))
    ended = "RANGE PASSED after %d" % run.meter.first_pass[1] if run.meter.first_pass else verdict
    return [plan.node_count(), len(plan.arcs) + len(plan.variables), *run.pivots, took, ended, stored, *run.meter.bits()]


def main():
    parser = argparse.ArgumentParser(description="Time, pivots and width of numbers on planning problems.")
    parser.add_argument("--netflow", help="the built program")
    parser.add_argument("--seed", type=int, default=1)
    parser.add_argument("--seeds", type=int, default=1, help="how many seeds, from this one on")
    parser.add_argument("--sizes", type=int, nargs="+", default=sorted(SIZES))
    parser.add_argument("--grains", nargs="+", default=list(GRAINS))
    parser.add_argument("--rule", default="first")
    a = parser.parse_args()
    netflow = a.netflow and os.path.abspath(a.netflow)
    print("| Constraints | Coefficients | Nodes | Columns | Pivots of stage 1 | of stage 2 | Seconds | Ended | Bits stored | met | inside |\n|" + "---|" * 11)
    for size in a.sizes:
        for grain in a.grains:
            for seed in range(a.seed, a.seed + a.seeds):
                row = row_of(netflow, Planning(size, grain, seed), a.rule)
                print("| %s |" % " | ".join(str(x) for x in (size, grain, *row)), flush=True)
    return 0


if __name__ == "__main__":
    sys.exit(main())
