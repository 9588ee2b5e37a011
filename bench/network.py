#!/usr/bin/env python3
"""How the time to make a problem of ARCDATA and NODEDATA grows with their bytes.

    python3 bench/network.py --netflow crates/netflow/out/netflow [--order tails] [--pages large]

`netflow run` reads networks of 50,000, 100,000 and 200,000 arcs, the most that it takes, on a tenth as many nodes, with
names, costs, bounds and supplies, and with excess arcs. Each has more rows than a problem may have, which is told once the
problem is whole: so what is timed is the reading of the tables, the roles, every check of the data, and the making of the
problem and its labels. Beside it stands the reading of the tables alone: the same data with a cell too many in the last row
of NODEDATA, which is told before any role is looked at. Both are run in turn, eleven times, and of each the median counts,
in processor seconds. Memory is the most that was resident.

Arcs stand in no order, or by their tails, as generators of networks mostly write them. Memory comes in pages of 4 KB, or
in large ones, for which glibc asks where GLIBC_TUNABLES says so and the kernel has them.

Where there is a C compiler, bench/network.c does the same work on the same ARCDATA, with lists of nearly the same size and
without a proof: it tells what of the time is the machine's.
"""
import argparse
import os
import random
import shutil
import statistics
import subprocess
import sys
import tempfile

PROGRAM = b"proc netflow arcdata=arcs nodedata=nodes;\nid note;\nrun;\n"
DUE = "DATA REFUSED PROC ROW 0 COLUMN ROWS: LimitPassed\n"
DUE_OF_TABLES = "DATA REFUSED NODEDATA ROW %d: RowLength\n"
RUNS = 11
LARGE_PAGES = {"GLIBC_TUNABLES": "glibc.malloc.hugetlb=1"}


def make_network(folder, arcs, order, seed=1):
    """Random arcs, parallel ones under names of their own; a tenth as many nodes, each tenth one with a supply."""
    r = random.Random(seed)
    nodes = arcs // 10
    rows = ["place %05d,place %05d,way %06d,%d,%d,%d,\n" % (r.randrange(nodes), r.randrange(nodes), j, r.randint(-99, 999), r.randint(0, 9), r.randint(9, 9999)) for j in range(arcs)]
    if order == "tails":
        rows.sort(key=lambda row: row.split(",")[0])
    with open(os.path.join(folder, "arcs.csv"), "w", encoding="utf-8") as f:
        f.write("_FROM_,_TO_,_NAME_,_COST_,_LO_,_CAPAC_,note\n")
        f.writelines(rows)
    with open(os.path.join(folder, "nodes.csv"), "w", encoding="utf-8") as f:
        f.write("_NODE_,_SUPDEM_\n")
        for i in range(nodes):
            f.write("place %05d,%s\n" % (i, r.randint(1, 99) if i % 10 == 0 else "."))
    return sum(os.path.getsize(os.path.join(folder, name)) for name in ("arcs.csv", "nodes.csv"))


def spoil(folder, spoiled, nodes):
    """The same data in another folder, with a row of one cell behind its nodes."""
    for name in ("arcs.csv", "nodes.csv"):
        shutil.copy(os.path.join(folder, name), spoiled)
    with open(os.path.join(spoiled, "nodes.csv"), "a", encoding="utf-8") as f:
        f.write("one cell alone\n")
    return DUE_OF_TABLES % (nodes + 1)


def run(program, word, folder, settings):
    """One run of a program with one word, under these settings: processor seconds, megabytes, status, listing."""
    pipe, feed = os.pipe()
    os.write(feed, PROGRAM)
    os.close(feed)
    with tempfile.TemporaryFile() as out:
        child = os.fork()
        if child == 0:
            os.chdir(folder)
            os.dup2(pipe, 0)
            os.dup2(out.fileno(), 1)
            os.execve(program, [program, word], {**os.environ, **settings})
        os.close(pipe)
        _, status, usage = os.wait4(child, 0)
        out.seek(0)
        return usage.ru_utime + usage.ru_stime, usage.ru_maxrss / 1024, os.waitstatus_to_exitcode(status), out.read().decode()


def refused(program, folder, due, settings):
    """The processor seconds and the megabytes of a run that refuses the data with this line."""
    seconds, memory, status, listing = run(program, "run", folder, settings)
    if (status, listing) != (4, due):
        sys.exit("answered %d %r, due is 4 %r" % (status, listing, due))
    return seconds, memory


def compiled(folder):
    """The same work in C, compiled into a folder, or None where there is no compiler."""
    if shutil.which("cc") is None:
        return None
    plain = os.path.join(folder, "network")
    source = os.path.join(os.path.dirname(os.path.abspath(__file__)), "network.c")
    subprocess.run(["cc", "-O2", "-o", plain, source], check=True)
    return plain


def seconds_in_c(plain, word, folder, settings):
    """The processor seconds of the same work in C."""
    seconds, _, status, _ = run(plain, word, folder, settings)
    if status != 0:
        sys.exit("bench/network.c ended with another status than 0")
    return seconds


def measure(program, plain, arcs, before, order, settings):
    """Prints the figures of a network of so many arcs, and gives its seconds."""
    nodes = arcs // 10
    with tempfile.TemporaryDirectory() as folder, tempfile.TemporaryDirectory() as spoiled:
        size = make_network(folder, arcs, order)
        due = spoil(folder, spoiled, nodes)
        whole, tables, in_c, tables_in_c = [], [], [], []
        for _ in range(RUNS):
            tables.append(refused(program, spoiled, due, settings))
            whole.append(refused(program, folder, DUE, settings))
            if plain is not None:
                tables_in_c.append(seconds_in_c(plain, "tables", folder, settings))
                in_c.append(seconds_in_c(plain, "whole", folder, settings))
    seconds, alone = statistics.median(s for s, _ in whole), statistics.median(s for s, _ in tables)
    growth = "" if before is None else "   twice the bytes take %.2f times as long" % (seconds / before)
    print("%6d arcs, %5d nodes, %8d bytes: %.3f s, %5.1f MB/s, %5.0f MB; the tables alone %.3f s, so %.1f times that%s"
          % (arcs, nodes, size, seconds, size / seconds / 1e6, max(m for _, m in whole), alone, seconds / alone, growth))
    if plain is not None:
        c, c_alone = statistics.median(in_c), statistics.median(tables_in_c)
        print("       in C: %.3f s, the table alone %.3f s, so %.1f times that; here %.2f times the whole in C"
              % (c, c_alone, c / c_alone, seconds / c))
    return seconds


def main():
    parser = argparse.ArgumentParser(description="Time to make a problem of its tables, by their bytes.")
    parser.add_argument("--netflow", required=True, help="the built program")
    parser.add_argument("--order", choices=("none", "tails"), default="none", help="the order of the arcs")
    parser.add_argument("--pages", choices=("small", "large"), default="small", help="the pages that memory comes in")
    given = parser.parse_args()
    program = os.path.abspath(given.netflow)
    settings = LARGE_PAGES if given.pages == "large" else {}
    before = None
    with tempfile.TemporaryDirectory() as folder:
        plain = compiled(folder)
        for arcs in (50000, 100000, 200000):
            before = measure(program, plain, arcs, before, given.order, settings)
    return 0


if __name__ == "__main__":
    sys.exit(main())
