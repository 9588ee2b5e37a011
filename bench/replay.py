"""The simplex method of `netflow run` once more, step by step in fractions without limit, that tells how wide its numbers get.

It makes the same pivots as the program with the dense basis, and adds and multiplies the same numbers in the same order: like
the program it finds the duals of each phase once a stage, and changes them at each pivot. So it tells how many bits the widest number has that the program met, or would have to meet where it is refused by its 128 bits:
`widest` is the widest numerator or denominator of all that was computed (values, entries, the whole inverse, duals, reduced
costs, ratios), and `inside` the widest of these and of the products and sums inside an operation, before they are brought to
lowest terms. A number of the program has 127 bits and a sign.
"""
from math import gcd

ZERO, ONE, MINUS = (0, 1), (1, 1), (-1, 1)
MOST = 2 ** 127 - 1
LE, GE, EQ = "LE", "GE", "EQ"
GIVEN, SLACK, ARTIFICIAL = range(3)
BASIC, LOWER, UPPER = range(3)


class Meter:
    """Fractions as pairs, and the widest of them so far."""

    def __init__(self):
        self.widest = self.inside = 0
        self.first_pass = None
        self.where = (1, 0)

    def met(self, *parts):
        """Notes numbers of an operation; all of them are met inside it."""
        widest = max(map(abs, parts))
        if widest > self.inside:
            self.inside = widest
            if widest > MOST and self.first_pass is None:
                self.first_pass = self.where

    def number(self, n, d):
        """A fraction in lowest terms."""
        if not -self.widest <= n <= self.widest or d > self.widest:
            self.widest = max(abs(n), d)
            self.met(self.widest)
        return n, d

    def add(self, a, b):
        (n, d), (m, e) = a, b
        if d == 1 == e:
            return self.number(n + m, 1)
        g = gcd(d, e)
        left, right, below = n * (e // g), m * (d // g), (d // g) * e
        total = left + right
        self.met(left, right, total, below)
        h = gcd(total, g)
        return self.number(total // h, below // h)

    def subtract(self, a, b):
        return self.add(a, (-b[0], b[1]))

    def multiply(self, a, b):
        (n, d), (m, e) = a, b
        if d == 1 == e:
            return self.number(n * m, 1)
        g, h = gcd(n, e), gcd(m, d)
        return self.number((n // g) * (m // h), (d // h) * (e // g))

    def divide(self, a, b):
        n, d = b
        return self.multiply(a, (d, n) if n > 0 else (-d, -n))

    def add_product(self, total, a, b):
        if a[0] == 0 or b[0] == 0:
            return total
        return self.add(total, self.multiply(a, b))

    def rest(self, first, pairs):
        total = ZERO
        for a, b in pairs:
            total = self.add_product(total, a, b)
        return self.subtract(first, total)

    def bits(self):
        return self.widest.bit_length(), self.inside.bit_length()


def less(a, b):
    if a[1] == b[1]:
        return a[0] < b[0]
    return a[0] * b[1] < b[0] * a[1]


class Problem:
    """Columns are (cost, lower, upper or None, entries as pairs of row and value by row), rows (relation, right side, entries
    as pairs of column and value); all count from 0, the first `nodes` rows are nodes, the first `arcs` columns arcs."""

    def __init__(self, nodes, arcs, columns, rows):
        self.nodes, self.arcs, self.columns = nodes, arcs, columns
        self.rows = [(relation, right, []) for relation, right in rows]
        for j, (_, _, _, entries) in enumerate(columns):
            for i, value in entries:
                self.rows[i][2].append((j, value))


class Run:
    """A basis of one stage after another. Inverse rows are by slot, each a map from row to weight without zeros."""

    def __init__(self, problem, rules):
        self.p, self.rules, self.meter = problem, rules, Meter()
        self.stage, self.cursor, self.pivots = 1, 0, [0, 0]
        self.place = {(GIVEN, j): LOWER for j in range(problem.arcs)}
        self.sign, self.slots, self.values, self.inverse = {}, [], [], []
        self.kept = {}
        for i in range(problem.nodes):
            lacks = self.row_rest(i, lambda j: self.p.columns[j][1])
            self.set_basic((ARTIFICIAL, i), i, lacks)

    # ---- what the problem says

    def row_rest(self, i, number):
        _, right, entries = self.p.rows[i]
        return self.meter.rest(right, ((value, number(j)) for j, value in entries))

    def entries_of(self, col):
        kind, n = col
        if kind == GIVEN:
            return [(i, value) for i, value in self.p.columns[n][3] if i < self.size()]
        if kind == SLACK:
            return [(n, ONE if self.p.rows[n][0] == LE else MINUS)]
        return [(n, self.sign[n])]

    def size(self):
        return self.p.nodes if self.stage == 1 else len(self.p.rows)

    def bound(self, col, place):
        if col[0] == GIVEN:
            return self.p.columns[col[1]][1 if place == LOWER else 2]
        return ZERO if place == LOWER else None

    def cost(self, col, phase):
        if phase == 1:
            return ONE if col[0] == ARTIFICIAL else ZERO
        return self.p.columns[col[1]][0] if col[0] == GIVEN else ZERO

    def value(self, col):
        place = self.place[col]
        return self.values[self.slots.index(col)] if place == BASIC else self.bound(col, place)

    def set_basic(self, col, i, lacks):
        """The column of one entry in the last slot, for a row that lacks this."""
        if col[0] == ARTIFICIAL:
            self.sign[i] = MINUS if lacks[0] < 0 else ONE
        turned = self.entries_of(col)[0][1] if col[0] == ARTIFICIAL else (ONE if self.p.rows[i][0] == LE else MINUS)
        self.place[col] = BASIC
        self.slots.append(col)
        self.values.append(lacks if turned[0] > 0 else (-lacks[0], lacks[1]))
        self.inverse.append({i: turned})

    # ---- numbers of the basis

    def column(self, col):
        add_product, entries = self.meter.add_product, self.entries_of(col)
        out = []
        for row in self.inverse:
            total = ZERO
            for i, value in entries:
                if i in row:
                    total = add_product(total, row[i], value)
            out.append(total)
        return out

    def duals(self, phase):
        """The duals of a phase by row: found once a stage, and kept from then on."""
        if phase in self.kept:
            return self.kept[phase]
        out = self.kept[phase] = [ZERO] * self.size()
        for col, row in zip(self.slots, self.inverse):
            cost = self.cost(col, phase)
            if cost[0]:
                for i, weight in row.items():
                    out[i] = self.meter.add_product(out[i], weight, cost)
        return out

    def change_duals(self, col, slot):
        """After a pivot: to each dual comes the entering column's reduced cost times the weight of its slot."""
        for phase, duals in self.kept.items():
            change = self.reduced_cost(col, phase, duals)
            for i, weight in self.inverse[slot].items():
                duals[i] = self.meter.add_product(duals[i], weight, change)

    def reduced(self, k, phase, duals):
        return self.reduced_cost(self.priced(k), phase, duals)

    def reduced_cost(self, col, phase, duals):
        if col[0] == GIVEN:
            return self.meter.rest(self.cost(col, phase), ((duals[i], value) for i, value in self.entries_of(col)))
        n, d = duals[col[1]]
        return (-n, d) if self.p.rows[col[1]][0] == LE else (n, d)

    def priced_count(self):
        return len(self.p.columns) + len(self.p.rows) - self.p.nodes

    def priced(self, k):
        c = len(self.p.columns)
        return (GIVEN, k) if k < c else (SLACK, self.p.nodes + k - c)

    # ---- one step

    def wanted(self, k, phase, one, two):
        """The magnitude of the reduced cost of column k, where this phase wants it to enter."""
        col = self.priced(k)
        place = self.place.get(col, BASIC)
        if place == BASIC or self.bound(col, UPPER) == self.bound(col, LOWER):
            return None
        d = self.reduced(k, 1, one)
        if phase == 2:
            if d[0]:
                return None
            d = self.reduced(k, 2, two)
        return (abs(d[0]), d[1]) if (d[0] < 0 if place == LOWER else d[0] > 0) else None

    def choose(self, phase, one, two):
        count, rule = self.priced_count(), self.rules[self.stage - 1]
        if rule == "best":
            best = None
            for k in range(count):
                size = self.wanted(k, phase, one, two)
                if size is not None and (best is None or less(best[1], size)):
                    best = k, size
            return None if best is None else best[0]
        start = min(self.cursor, count) if rule == "first" else 0
        order = list(range(start, count)) + list(range(start))
        return next((k for k in order if self.wanted(k, phase, one, two) is not None), None)

    def step(self):
        """None where a step was made, and else how the state has ended."""
        one, two = self.duals(1), self.duals(2)
        total = ZERO
        for col, value in zip(self.slots, self.values):
            if col[0] == ARTIFICIAL:
                total = self.meter.add(total, value)
        k = self.choose(1, one, two)
        if k is None and total[0]:
            return "INFEASIBLE"
        k = self.choose(2, one, two) if k is None else k
        if k is None:
            return "OPTIMAL"
        col = self.priced(k)
        entries = self.column(col)
        slot = self.limit(col, entries)
        if slot is None:
            return "UNBOUNDED"
        self.move(col, slot, entries)
        self.pivots[self.stage - 1] += 1
        self.cursor = k + 1
        self.meter.where = (self.stage, self.pivots[self.stage - 1])
        return None

    def ahead(self, slot, entry, down):
        """The bound to which the basic column in a slot moves."""
        place = UPPER if (entry[0] > 0) == down else LOWER
        return place, self.bound(self.slots[slot], place)

    def limit(self, col, entries):
        """The slot whose column limits the move, the number of slots for a flip, or None."""
        down, m = self.place[col] == UPPER, len(self.slots)
        ratios = {}
        for s, entry in enumerate(entries):
            if entry[0]:
                _, bound = self.ahead(s, entry, down)
                if bound is not None:
                    ratios[s] = self.ratio(self.meter.subtract(self.values[s], bound), entry, down)
        if self.bound(col, UPPER) is not None:
            ratios[m] = self.meter.subtract(self.bound(col, UPPER), self.bound(col, LOWER))
        order = list(range(self.p.nodes, self.size())) + list(range(self.p.nodes))
        for i in [None] + order:
            if i is not None:
                ratios = {s: ZERO if s == m else self.ratio(self.inverse[s].get(i, ZERO), entries[s], down) for s in ratios}
            least = None
            for ratio in ratios.values():
                least = ratio if least is None or less(ratio, least) else least
            ratios = {s: ratio for s, ratio in ratios.items() if ratio == least}
            if len(ratios) <= 1:
                return next(iter(ratios), None)
        raise AssertionError("two ratios tie to the end")

    def ratio(self, way, entry, down):
        n, d = self.meter.divide(way, entry)
        return (-n, d) if down else (n, d)

    def move(self, col, slot, entries):
        from_place = self.place[col]
        if slot == len(self.slots):
            distance = self.meter.subtract(self.bound(col, UPPER), self.bound(col, LOWER))
            change = distance if from_place == LOWER else (-distance[0], distance[1])
            self.change_values(entries, change)
            self.place[col] = UPPER if from_place == LOWER else LOWER
            return
        to, until = self.ahead(slot, entries[slot], from_place == UPPER)
        change = self.meter.divide(self.meter.subtract(self.values[slot], until), entries[slot])
        entered = self.meter.add(self.bound(col, from_place), change)
        self.change_values(entries, change)
        self.values[slot] = entered
        self.exchange(entries, slot)
        self.change_duals(col, slot)
        self.place[self.slots[slot]] = to
        self.place[col], self.slots[slot] = BASIC, col

    def change_values(self, entries, change):
        negated = -change[0], change[1]
        for s, entry in enumerate(entries):
            self.values[s] = self.meter.add_product(self.values[s], entry, negated)

    def exchange(self, entries, slot):
        scaled = {i: self.meter.divide(weight, entries[slot]) for i, weight in self.inverse[slot].items()}
        for s, (entry, row) in enumerate(zip(entries, self.inverse)):
            if s != slot and entry[0]:
                factor = -entry[0], entry[1]
                for i, weight in scaled.items():
                    changed = self.meter.add_product(row.get(i, ZERO), weight, factor)
                    if changed[0]:
                        row[i] = changed
                    else:
                        row.pop(i, None)
        self.inverse[slot] = scaled

    # ---- stage two, and the end

    def widen(self):
        """The start of stage two."""
        self.meter.where = (2, 0)
        p, first = self.p, [dict(row) for row in self.inverse]
        at = {col: self.value(col) for col in self.place if col[0] == GIVEN}
        self.stage, self.cursor, self.kept = 2, 0, {}
        for j in range(p.arcs, len(p.columns)):
            self.place[GIVEN, j] = LOWER
            at[GIVEN, j] = p.columns[j][1]
        slot_of = {col: s for s, col in enumerate(self.slots)}
        for i in range(p.nodes, len(p.rows)):
            relation, _, entries = p.rows[i]
            lacks = self.row_rest(i, lambda j: at[GIVEN, j])
            is_slack = relation != EQ and (lacks[0] < 0) == (relation == GE)
            if relation != EQ:
                self.place[SLACK, i] = LOWER
            self.set_basic((SLACK if is_slack else ARTIFICIAL, i), i, lacks)
            own = self.inverse[-1]
            turned = own[i]
            for node in range(p.nodes):
                total = ZERO
                for j, value in entries:
                    weight = first[slot_of[GIVEN, j]].get(node, ZERO) if (GIVEN, j) in slot_of else ZERO
                    total = self.meter.add_product(total, value, weight)
                if total[0]:
                    own[node] = (-total[0] * turned[0], total[1])

    def run(self):
        """The verdict."""
        while True:
            ended = self.step()
            if ended is None:
                continue
            if self.stage == 2 or ended == "INFEASIBLE" or (len(self.p.rows), len(self.p.columns)) == (self.p.nodes, self.p.arcs):
                return ended
            self.widen()

    def total_cost(self):
        """The cost of a state that has ended optimal, with its printed duals and the check of both."""
        one, two, m = self.duals(1), self.duals(2), ZERO
        for k in range(self.priced_count()):
            if self.place.get(self.priced(k), BASIC) != BASIC:
                d = self.reduced(k, 1, one)
                if d[0]:
                    n, e = self.reduced(k, 2, two)
                    q = self.meter.divide((-n, e), d)
                    m = q if less(m, q) else m
        duals = [self.meter.add_product(y, m, x) for x, y in zip(one, two)]
        values = [self.value((GIVEN, j)) for j in range(len(self.p.columns))]
        for i in range(len(self.p.rows)):
            assert self.p.rows[i][0] != EQ or self.row_rest(i, values.__getitem__) == ZERO
        total = ZERO
        for k, (column, value) in enumerate(zip(self.p.columns, values)):
            self.reduced(k, 2, duals)
            total = self.meter.add_product(total, column[0], value)
        return total
