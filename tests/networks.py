"""Random networks with flows and duals that prove each other best, as tables.

The flows are those of successive shortest paths by Bellman and Ford in whole numbers, whose distances are the duals (Ahuja,
Magnanti and Orlin, Network Flows, 1993, chapter 9).
"""
from fractions import Fraction

LETTERS = "abcdefghijklmnopqrstuvwxyzABCXYZ0189_ .-"


class Network:
    """Arcs are lists [tail, head, cost, capacity or None]; supplies are by node, in the order of the node table."""

    def __init__(self):
        self.arcs, self.supplies = [], []

    def nodes(self):
        seen = {}
        for tail, head, _, _ in self.arcs:
            seen.setdefault(tail, len(seen))
            seen.setdefault(head, len(seen))
        for node, _ in self.supplies:
            seen.setdefault(node, len(seen))
        return seen


def distances(arcs, flow, count):
    """Bellman and Ford over the arcs that can still change, from all nodes at once: distances and last steps."""
    distance, step = [0] * count, [None] * count
    for _ in range(count):
        changed = False
        for j, (t, h, cost, capacity) in enumerate(arcs):
            if (capacity is None or flow[j] < capacity) and distance[t] + cost < distance[h]:
                distance[h], step[h], changed = distance[t] + cost, (j, 1), True
            if flow[j] > 0 and distance[h] - cost < distance[t]:
                distance[t], step[t], changed = distance[h] - cost, (j, -1), True
        if not changed:
            return distance
    raise AssertionError("a cycle of negative cost is left")


def shortest(arcs, flow, count, start):
    """Least costs from one node over the arcs that can still change, and the last step to each node."""
    far = None
    distance, step = [far] * count, [None] * count
    distance[start] = 0
    for _ in range(count):
        changed = False
        for j, (t, h, cost, capacity) in enumerate(arcs):
            if (capacity is None or flow[j] < capacity) and distance[t] is not far \
                    and (distance[h] is far or distance[t] + cost < distance[h]):
                distance[h], step[h], changed = distance[t] + cost, (j, 1), True
            if flow[j] > 0 and distance[h] is not far \
                    and (distance[t] is far or distance[h] - cost < distance[t]):
                distance[t], step[t], changed = distance[h] - cost, (j, -1), True
        if not changed:
            break
    return distance, step


def best_flow(arcs, supply):
    """Flows of least cost and duals, for arcs between node numbers. Arcs of negative cost have a capacity."""
    count = len(supply)
    flow = [capacity if cost < 0 else 0 for _, _, cost, capacity in arcs]
    left = list(supply)
    for j, (t, h, _, _) in enumerate(arcs):
        left[t] -= flow[j]
        left[h] += flow[j]
    while True:
        start = next((v for v in range(count) if left[v] > 0), None)
        if start is None:
            break
        distance, step = shortest(arcs, flow, count, start)
        end = next((v for v in range(count) if left[v] < 0 and distance[v] is not None), None)
        if end is None:
            return None
        path, at = [], end
        while at != start:
            j, sign = step[at]
            path.append((j, sign))
            at = arcs[j][0] if sign > 0 else arcs[j][1]
        rooms = [flow[j] if sign < 0 else arcs[j][3] - flow[j] for j, sign in path
                 if sign < 0 or arcs[j][3] is not None]
        amount = min(rooms + [left[start], -left[end]])
        for j, sign in path:
            flow[j] += sign * amount
        left[start] -= amount
        left[end] += amount
    return flow, [-d for d in distances(arcs, flow, count)]


def random_network(r):
    """A network with a feasible flow, so that one of least cost exists."""
    size = r.choice([2, 2, 3, 3, 4, 5, 6, 8])
    if r.random() < 0.04:
        size = r.randint(20, 40)
    most_arcs = min(size * size, r.randint(1, 3 * size) if r.random() < 0.9 else 4 * size)
    wide = r.random() < 0.1
    names = set()
    while len(names) < size:
        names.add("".join(r.choice(LETTERS) for _ in range(r.choice([1, 1, 2, 3, 8, 32] if r.random() < 0.3 else [1, 2]))).strip(" ."))
        names.discard("")
        names.discard("_EXCESS_")
    names = sorted(names)
    r.shuffle(names)
    net = Network()
    pairs = [(t, h) for t in names for h in names if t != h or r.random() < 0.2]
    r.shuffle(pairs)
    balance = dict.fromkeys(names, 0)
    for t, h in pairs[:most_arcs]:
        top = 999999999 if wide else r.choice([1, 3, 10, 100])
        capacity = r.choice([None, r.randint(0, top), r.randint(0, top)])
        cost = r.randint(0, top) if capacity is None else r.randint(-top, top) if r.random() < 0.3 else r.randint(0, top)
        some = r.randint(0, (top if capacity is None else capacity) // (size * size if wide else 1))
        balance[t] += some
        balance[h] -= some
        net.arcs.append([t, h, cost, capacity])
    listed = [v for v in names if balance[v] != 0 or r.random() < 0.6]
    r.shuffle(listed)
    net.supplies = [[v, balance[v]] for v in listed]
    return net


def turn_ties(r, arcs, flow, duals):
    """Sends a fraction round a cycle on which cost does not count, if there is one: flows that are no whole numbers."""
    steps = {}
    for j, (t, h, cost, capacity) in enumerate(arcs):
        if cost == duals[t] - duals[h] and t != h:
            if capacity is None or flow[j] < capacity:
                steps.setdefault(t, []).append((h, j, 1))
            if flow[j] > 0:
                steps.setdefault(h, []).append((t, j, -1))
    for start in steps:
        path, at = [], start
        while len(path) <= len(steps):
            ways = [w for w in steps.get(at, []) if not path or w[1] != path[-1][0]]
            if not ways:
                break
            at, j, sign = r.choice(ways)
            path.append((j, sign))
            if at == start:
                if len({j for j, _ in path}) == len(path):
                    rooms = [flow[j] if sign < 0 else arcs[j][3] - flow[j] for j, sign in path if sign < 0 or arcs[j][3] is not None]
                    amount = min(rooms + [Fraction(1)]) * Fraction(1, r.choice([2, 3, 7]))
                    for j, sign in path:
                        flow[j] += sign * amount
                return


def certified(r):
    """A network with flows and duals that prove each other best."""
    while True:
        net = random_network(r)
        number = net.nodes()
        supply = [0] * len(number)
        for node, value in net.supplies:
            supply[number[node]] = value
        arcs = [(number[t], number[h], cost, capacity) for t, h, cost, capacity in net.arcs]
        found = best_flow(arcs, supply)
        if found is None or any(abs(v) > 999999999 for _, v in net.supplies):
            continue
        flow, duals = [Fraction(x) for x in found[0]], [Fraction(y) for y in found[1]]
        if r.random() < 0.3:
            turn_ties(r, arcs, flow, duals)
        if r.random() < 0.3:
            shift = Fraction(r.randint(-9, 9), r.choice([1, 2, 3, 1000]))
            duals = [y + shift for y in duals]
        return net, flow, duals


PROGRAM = "proc netflow arcdata=arcs nodedata=nodes certdata=k;"


class Scenario:
    """Tables as lists of records of bytes, to be laid out as files; or files as they are."""

    def __init__(self, r):
        net, flow, duals = certified(r)
        self.arcs = [["_FROM_", "_TO_", "_COST_", "_CAPAC_"]] + [
            [t, h, str(cost), "INF" if capacity is None else str(capacity)] for t, h, cost, capacity in net.arcs]
        self.nodes = [["_NODE_", "_SUPDEM_"]] + [[v, str(s)] for v, s in net.supplies]
        self.k = [["_ITEM_", "_NUMBER_", "_VALUE_"], ["VERDICT", "1", "OPTIMAL"]] \
            + [["COL", str(j), str(x)] for j, x in enumerate(flow, 1)] \
            + [["ROW", str(i), str(y)] for i, y in enumerate(duals, 1)]
        self.program, self.words = PROGRAM.encode(), ["check"]
        self.files = {}
        self.what = "as it is"

    def table(self, name):
        return {"arcs": self.arcs, "nodes": self.nodes, "k": self.k}[name]

    def laid_out(self, r, plain):
        """The bytes of each file."""
        files = {}
        for name in ("arcs", "nodes", "k"):
            end = "\n" if plain else r.choice(["\n", "\n", "\r\n", "\r"])
            lines = []
            for record in self.table(name):
                cells = []
                for cell in record:
                    text = cell
                    if not plain and record is not self.table(name)[0] and r.random() < 0.1:
                        text = " " * r.randint(0, 2) + text + " " * r.randint(0, 2)
                    if any(c in text for c in ',"\r\n') or (not plain and r.random() < 0.1):
                        text = '"' + text.replace('"', '""') + '"'
                    cells.append(text)
                lines.append(",".join(cells) if cells != [""] else '""')
                if not plain and r.random() < 0.05:
                    lines.append("")
            text = end.join(lines)
            text = text if not plain and r.random() < 0.2 else text + end
            files[name] = (b"\xef\xbb\xbf" if not plain and r.random() < 0.1 else b"") + text.encode("utf-8", "surrogateescape")
        files.update(self.files)
        return files
