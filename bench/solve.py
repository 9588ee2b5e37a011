#!/usr/bin/env python3
"""How long `netflow run` takes on random networks of growing size, and how many pivots.

    python3 bench/solve.py --netflow crates/netflow/out/netflow
    python3 bench/solve.py --netflow crates/netflow/out/netflow --sizes 5000/40000 --rules first

Each network is a ring of dear arcs, so that a feasible flow exists, with random cheap arcs of small capacity across it;
the first half of the nodes supply what the second half demands. The same seed makes the same networks. Printed for each rule of pricing: nodes, arcs, pivots, seconds of one run, microseconds a pivot, and the
peak of memory.
"""
import argparse
import os
import random
import tempfile
import time


def network(nodes, arcs, r):
    supply = [0] * nodes
    for i in range(nodes // 2):
        supply[i] = r.randint(1, 10)
        supply[nodes - 1 - i] = -supply[i]
    rows, seen = [(i, (i + 1) % nodes, 100, "INF") for i in range(nodes)], {(i, (i + 1) % nodes) for i in range(nodes)}
    while len(rows) < arcs:
        t, h = r.randrange(nodes), r.randrange(nodes)
        if t != h and (t, h) not in seen:
            seen.add((t, h))
            rows.append((t, h, r.randint(1, 90), r.randint(1, 20)))
    return supply, rows


def measured(netflow, text, folder, statuses=(0,)):
    """The listing, the seconds and the peak of memory in KB of one run, in a process of its own, that ends by one of these
    statuses."""
    reader, writer = os.pipe()
    begun = time.perf_counter()
    child = os.fork()
    if child == 0:
        os.chdir(folder)
        with open("program", "wb") as f:
            f.write(text)
        os.dup2(os.open("program", os.O_RDONLY), 0)
        os.dup2(writer, 1)
        os.execv(netflow, [netflow, "run"])
    os.close(writer)
    with os.fdopen(reader, "rb") as f:
        listing = f.read().decode()
    _, status, usage = os.wait4(child, 0)
    assert os.waitstatus_to_exitcode(status) in statuses, status
    return listing.splitlines(), time.perf_counter() - begun, usage.ru_maxrss


def write(folder, supply, rows):
    with open(os.path.join(folder, "arcs.csv"), "w") as f:
        f.write("_FROM_,_TO_,_COST_,_CAPAC_\n" + "".join("n%d,n%d,%d,%s\n" % row for row in rows))
    with open(os.path.join(folder, "nodes.csv"), "w") as f:
        f.write("_NODE_,_SUPDEM_\n" + "".join("n%d,%d\n" % (i, s) for i, s in enumerate(supply)))


def main():
    parser = argparse.ArgumentParser(description="How long run takes.")
    parser.add_argument("--netflow", required=True, help="the built program")
    parser.add_argument("--seed", type=int, default=1)
    parser.add_argument("--sizes", nargs="+", default=["50/400", "100/600", "200/1600", "1000/8000"], help="nodes/arcs")
    parser.add_argument("--rules", nargs="+", default=["first", "best", "bland", "queue"])
    a = parser.parse_args()
    netflow = os.path.abspath(a.netflow)
    print("| Rule | Nodes | Arcs | Pivots | Seconds | Microseconds a pivot | MB |\n|---|---|---|---|---|---|---|")
    for size in a.sizes:
        nodes, arcs = map(int, size.split("/"))
        supply, rows = network(nodes, arcs, random.Random("%d %d" % (a.seed, nodes)))
        with tempfile.TemporaryDirectory() as folder:
            write(folder, supply, rows)
            for rule in a.rules:
                text = "proc netflow arcdata=arcs nodedata=nodes pricetype1=%s; run;" % rule
                lines, took, memory = measured(netflow, text.encode(), folder)
                assert lines[0] == "OPTIMAL", lines
                pivots = int(lines[2].split(" ")[3])
                print("| %s | %d | %d | %d | %.2f | %.0f | %.1f |" % (rule.upper(), nodes, len(rows), pivots, took, took * 1e6 / max(pivots, 1), memory / 1024), flush=True)


if __name__ == "__main__":
    main()
