"""Random network programs with side constraints and nonarc variables: their data sets, and the problem that these stand for.

The problem of ARCDATA and NODEDATA is read from the tables by tests/reading.py; constraints and nonarc variables are added as
they were drawn, so CONDATA is written here, dense or sparse, and read by nobody but the program.
"""
from fractions import Fraction

from cases import table
from reading import read_network

RELATIONS = {"LE": ["LE", "le", "<=", "<"], "GE": ["GE", "Ge", ">=", ">"], "EQ": ["EQ", "eq", "="]}


def draw_amount(r, least, most):
    """The text of an amount: mostly whole, at times with up to three digits behind the point."""
    if r.random() < 0.75:
        return str(r.randint(least, most))
    return "%s%d.%0*d" % (("-" if least < 0 and r.random() < 0.5 else ""), r.randint(0, max(most - 1, 0)), *r.choice([(1, 5), (2, 25), (3, 333)]))


class Variable:
    """A nonarc variable: texts of its cost, least and most value, each None where CONDATA does not give it."""

    def __init__(self, r, name):
        self.name = name
        self.cost = draw_amount(r, -3, 9) if r.random() < 0.8 else None
        self.least = draw_amount(r, -4, 0) if r.random() < 0.3 else None
        self.most = r.choice(["INF", "inf", draw_amount(r, 0, 9)]) if r.random() < 0.6 else None
        if self.numbers()[2] is not None and self.numbers()[2] < self.numbers()[1]:
            self.least = None

    def data(self):
        return [(kind, text) for kind, text in (("COST", self.cost), ("LOWERBD", self.least), ("UPPERBD", self.most)) if text is not None]

    def numbers(self):
        most = None if (self.most or "INF").upper() == "INF" else Fraction(self.most)
        return Fraction(self.cost or "0"), Fraction(self.least or "0"), most


class Constraint:
    """Coefficients are texts by the name of an arc or of a nonarc variable."""

    def __init__(self, r, name, names):
        self.name, self.relation = name, r.choice(["LE", "LE", "GE", "EQ"])
        self.coefficients = {v: draw_amount(r, -4, 6) for v in r.sample(names, r.randint(1, min(len(names), 5)))}
        self.right = None


class Plan:
    """A random program; `sets` are its data sets, `options` those of PROC, `problem` what it stands for."""

    def __init__(self, r):
        self.flags = [flag for flag, often in (("maximize", 0.2), ("thrunet", 0.1)) if r.random() < often]
        self.draw_network(r)
        plain = r.random() < 0.2
        self.variables = [Variable(r, "z%d" % n) for n in range(1, 1 if plain else r.choice([1, 2, 2, 3, 4]))]
        names = list(self.arcs) + [v.name for v in self.variables]
        self.constraints = [Constraint(r, "row %d" % n, names) for n in range(1, 1 if plain else r.choice([1, 2, 3, 3, 4, 5]))]
        self.draw_right_sides(r)
        self.sets = {"arcs": table(self.arc_rows), "nodes": table(self.node_rows)}
        self.options = " ".join(["arcdata=arcs nodedata=nodes"] + self.flags)
        self.lay_out(r)
        self.make_problem()

    def draw_network(self, r):
        """Arcs with a flow within their bounds; the supplies are mostly those of that flow, and at times one is open."""
        nodes = ["n%d" % i for i in range(r.choice([2, 2, 3, 3, 4, 5]))]
        balance = dict.fromkeys(nodes, 0)
        self.arcs, self.arc_rows = {}, [["_FROM_", "_TO_", "_NAME_", "_COST_", "_LO_", "_CAPAC_"]]
        for n in range(r.randint(1, 2 * len(nodes))):
            tail, head = r.choice(nodes), r.choice(nodes)
            least = r.choice([0, 0, 0, 1, -2])
            flow = least + r.randint(0, 6)
            most = r.choice(["INF", "INF", str(flow), str(flow + r.randint(0, 5))])
            name = "a%d" % n
            self.arcs[name] = flow
            self.arc_rows.append([tail, head, name, draw_amount(r, -2, 9), str(least), most])
            balance[tail] += flow
            balance[head] -= flow
        more = r.randint(1, 9)
        for often, change in ((0.25, more), (0.2, -more)):
            if r.random() < often:
                balance[r.choice(nodes)] += change
        self.node_rows = [["_NODE_", "_SUPDEM_"]] + [[v, str(balance[v])] for v in nodes if balance[v] != 0 or r.random() < 0.5]
        if len(self.node_rows) > 1 and r.random() < 0.15:
            self.node_rows[-1][1] = r.choice([".S", ".D"])

    def draw_right_sides(self, r):
        """Mostly such that the drawn flow, with the variables at their least, meets the constraint."""
        at = {v.name: v.numbers()[1] for v in self.variables}
        at.update(self.arcs)
        for c in self.constraints:
            value = sum(Fraction(text) * at[v] for v, text in c.coefficients.items())
            room = 0 if c.relation == "EQ" or r.random() < 0.3 else r.randint(0, 3)
            right = value + (room if c.relation == "LE" else -room) if r.random() < 0.85 else Fraction(r.randint(-9, 9))
            c.right = str(right) if right.denominator == 1 else "%.3f" % float(right)

    def lay_out(self, r):
        """Writes CONDATA, and tells the order of constraints and variables, which the layout decides."""
        if not self.constraints and not self.variables:
            return
        if r.random() < 0.5:
            self.sets["cons"], self.options = self.dense(r), self.options + " condata=cons"
        else:
            self.sets["cons"], self.options = self.sparse(r), self.options + " condata=cons sparsecondata"

    def dense(self, r):
        columns = [v.name for v in self.variables] + [a for a in self.arcs if any(a in c.coefficients for c in self.constraints)]
        r.shuffle(columns)
        rows = [[r.choice(RELATIONS[c.relation]), c.right] + [c.coefficients.get(v, r.choice(["", "."])) for v in columns] for c in self.constraints]
        for kind in ("COST", "LOWERBD", "UPPERBD"):
            given = {v.name: dict(v.data()).get(kind) for v in self.variables}
            if any(given.values()):
                rows.insert(r.randint(0, len(rows)), [kind, ""] + [given.get(v) or "" for v in columns])
        self.order_variables(columns)
        return table([["_TYPE_", "_RHS_"] + columns] + rows)

    def sparse(self, r):
        lines = [[c.name, v, text, "", ""] for c in self.constraints for v, text in c.coefficients.items()]
        for kind in ("COST", "LOWERBD", "UPPERBD"):
            lines += [["data " + kind, v.name, dict(v.data())[kind], kind, ""] for v in self.variables if kind in dict(v.data())]
        lines += [["data COST", v.name, "0", "COST", ""] for v in self.variables if v.cost is None]
        r.shuffle(lines)
        # each constraint tells its type and right side on its last line, or in lines of their own
        for c in self.constraints:
            kind = r.choice(RELATIONS[c.relation])
            last = max(n for n, line in enumerate(lines) if line[0] == c.name)
            if r.random() < 0.5:
                lines[last][3:] = [kind, c.right]
            else:
                lines[last][3] = kind
                lines.insert(r.randint(0, len(lines)), [c.name, "_RHS_", c.right, "", ""])
        first = {c.name: next(n for n, line in enumerate(lines) if line[0] == c.name) for c in self.constraints}
        self.constraints.sort(key=lambda c: first[c.name])
        self.order_variables([line[1] for line in lines])
        return table([["_ROW_", "_COLUMN_", "_COEF_", "_TYPE_", "_RHS_"]] + lines)

    def order_variables(self, names):
        self.variables.sort(key=lambda v: names.index(v.name))

    def make_problem(self):
        def cells(rows):
            return [[cell.encode() for cell in row] for row in rows]
        self.problem = read_network([cells(self.arc_rows), cells(self.node_rows)], dict.fromkeys(self.flags, b""), [])
        nodes = len(self.problem.rows)
        numbers = {name: j for j, name in enumerate(self.arcs)}
        for v in self.variables:
            numbers[v.name] = len(self.problem.columns)
            cost, least, most = v.numbers()
            self.problem.add_column(self.problem.sign * cost, least, most, {})
        for i, c in enumerate(self.constraints):
            self.problem.rows.append((c.relation, Fraction(c.right)))
            for name, text in c.coefficients.items():
                self.problem.columns[numbers[name]][3][nodes + i] = Fraction(text)
