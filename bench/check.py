#!/usr/bin/env python3
"""How fast `netflow check` is, and how much memory it takes, on 200,000 arcs between 1,000 nodes, and on half of them.

    python3 bench/check.py --netflow crates/netflow/out/netflow

The network is a path that carries all the flow, and random arcs beside it that carry none; the certificate is valid, so
every number of it is looked at. The best of three runs counts. Memory is the most that was resident; a figure near 15 MB is
only that of the process that starts the program. The yardsticks on the same bytes are
    count_records    a Rattle program that only counts the records of the CSV text (bench/count_records/main.rt.txt); it is
                     built here in a throwaway repository where `rt` is there, else left out
    python csv       Python's csv module, counting the rows
    wc -l            the lines, counted
"""
import argparse
import csv
import os
import random
import shutil
import subprocess
import sys
import tempfile
import time

TOP = os.path.dirname(os.path.dirname(os.path.abspath(__file__)))
PROGRAM = b"proc netflow arcdata=arcs nodedata=nodes certdata=certificate;\n"


def write(path, rows):
    with open(path, "w", newline="", encoding="utf-8") as f:
        csv.writer(f, lineterminator="\n").writerows(rows)


def make_network(folder, nodes, arcs, seed=1):
    """A path from the first node to the last with all the flow, and arcs that cost more than the prices at their ends differ."""
    r = random.Random(seed)
    pairs = {(i, i + 1): 1 for i in range(nodes - 1)}
    while len(pairs) < arcs:
        tail, head = r.randrange(nodes), r.randrange(nodes)
        pairs.setdefault((tail, head), max(0, head - tail) + r.randint(1, 999))
    order = list(pairs)
    r.shuffle(order)
    flow, place, number = 123456789, "place %04d", {}
    for tail, head in order:
        number.setdefault(tail, len(number) + 1)
        number.setdefault(head, len(number) + 1)
    at = {pair: pair[1] == pair[0] + 1 for pair in order}
    write(os.path.join(folder, "arcs.csv"), [["_FROM_", "_TO_", "_COST_", "_CAPAC_"]] + [
        [place % t, place % h, pairs[t, h], "INF" if at[t, h] else r.randint(0, 999999)] for t, h in order])
    write(os.path.join(folder, "nodes.csv"), [["_NODE_", "_SUPDEM_"], [place % 0, flow], [place % (nodes - 1), -flow]])
    write(os.path.join(folder, "certificate.csv"), [["_ITEM_", "_NUMBER_", "_VALUE_"], ["VERDICT", 1, "OPTIMAL"]]
          + [["COL", j, flow if at[pair] else 0] for j, pair in enumerate(order, 1)]
          + [["ROW", i, "%d/3" % (1 - 3 * v)] for v, i in sorted(number.items(), key=lambda item: item[1])])
    return flow * (nodes - 1)


def run(command, folder, stdin):
    """One run: seconds, the most resident memory in megabytes, status, output."""
    with open(stdin, "rb") as text, tempfile.TemporaryFile() as out:
        begin = time.perf_counter()
        child = subprocess.Popen(command, cwd=folder, stdin=text, stdout=out)
        _, status, usage = os.wait4(child.pid, 0)
        seconds = time.perf_counter() - begin
        child.returncode = os.waitstatus_to_exitcode(status)
        out.seek(0)
        return seconds, usage.ru_maxrss / 1024, child.returncode, out.read().decode()


def best(command, folder, stdin, due=None):
    """The best of three runs: seconds and megabytes."""
    runs = [run(command, folder, stdin) for _ in range(3)]
    for _, _, status, out in runs:
        if status != 0 or (due is not None and out != due):
            sys.exit("%s answered %d %r, due is 0 %r" % (command[0], status, out, due))
    return min(r[0] for r in runs), max(r[1] for r in runs)


def build_counter(rt, folder):
    """The yardstick in Rattle, built in a repository of its own."""
    crate = os.path.join(folder, "crates", "count_records")
    for part in ("src", "specs", "proofs"):
        os.makedirs(os.path.join(crate, part))
    shutil.copy(os.path.join(TOP, "bench", "count_records", "main.rt.txt"), os.path.join(crate, "src", "main.rt"))
    shutil.copy(os.path.join(TOP, "HANDLES"), folder)
    with open(os.path.join(folder, "crates.txt"), "w", encoding="utf-8") as f:
        f.write("count_records: csv\n")
    subprocess.run(["git", "init", "-q", folder], check=False)
    done = subprocess.run([rt, "run"], cwd=crate, stdin=subprocess.DEVNULL, stdout=subprocess.PIPE, stderr=subprocess.STDOUT)
    program = os.path.join(crate, "out", "count_records")
    if done.returncode != 0 or not os.path.exists(program):
        print("count_records was not built:\n" + done.stdout.decode("utf-8", "replace")[-800:])
        return None
    return program


def python_count(path):
    """The best of three of Python's csv reader, in this process."""
    times = []
    for _ in range(3):
        begin = time.perf_counter()
        with open(path, newline="", encoding="utf-8") as f:
            sum(1 for _ in csv.reader(f))
        times.append(time.perf_counter() - begin)
    return min(times)


def show(what, seconds, megabytes, size):
    memory = "%8.1f MB" % megabytes if megabytes else " " * 11
    print("  %-14s %8.3f s  %s  %8.1f million bytes a second" % (what, seconds, memory, size / seconds / 1e6))


def measure(program, counter, folder, nodes, arcs):
    # in a process of its own: what this one holds would count as memory of the programs that it starts
    made = subprocess.run([sys.executable, __file__, "--make", folder, "--nodes", str(nodes), "--arcs", str(arcs)], stdout=subprocess.PIPE, check=True)
    cost = int(made.stdout)
    text, joined = os.path.join(folder, "program.txt"), os.path.join(folder, "all.txt")
    with open(text, "wb") as f:
        f.write(PROGRAM)
    with open(joined, "wb") as f:
        for name in ("arcs", "nodes", "certificate"):
            with open(os.path.join(folder, name + ".csv"), "rb") as part:
                shutil.copyfileobj(part, f)
    size = os.path.getsize(joined)
    print("%d nodes, %d arcs, %d bytes of CSV" % (nodes, arcs, size))
    seconds, megabytes = best([program, "check"], folder, text, "ACCEPTED OPTIMAL\nTOTAL COST %d\n" % cost)
    show("netflow check", seconds, megabytes, size)
    if counter:
        show("count_records", *best([counter], folder, joined), size)
    show("python csv", python_count(joined), None, size)
    if shutil.which("wc"):
        show("wc -l", *best(["wc", "-l"], folder, joined), size)
    return seconds


def main():
    parser = argparse.ArgumentParser(description="Speed and memory of `netflow check`.")
    parser.add_argument("--netflow", help="the built program")
    parser.add_argument("--make", help="only makes the network in this folder, and prints its cost")
    parser.add_argument("--rt", default="rt", help="the kit's command, for the yardstick")
    parser.add_argument("--nodes", type=int, default=1000)
    parser.add_argument("--arcs", type=int, default=200000)
    o = parser.parse_args()
    if o.make:
        print(make_network(o.make, o.nodes, o.arcs))
        return 0
    if not o.netflow:
        parser.error("--netflow is needed")
    program = os.path.abspath(o.netflow)
    with tempfile.TemporaryDirectory() as repository, tempfile.TemporaryDirectory() as folder:
        counter = build_counter(o.rt, repository) if shutil.which(o.rt) else None
        if counter is None:
            print("no `rt` here, or the yardstick was not built: it is left out")
        half = measure(program, counter, folder, o.nodes, o.arcs // 2)
        whole = measure(program, counter, folder, o.nodes, o.arcs)
    print("twice the arcs take %.2f times as long" % (whole / half))
    return 0


if __name__ == "__main__":
    sys.exit(main())
