#!/usr/bin/env python3
"""What a long header costs: seconds, and the most memory that was resident.

    python3 bench/header.py --netflow crates/netflow/out/netflow

`netflow run` on four programs, the best of five runs each; the first line of the listing stands beside it.
    cell    ARCDATA of 64 MiB: the header has one cell that fills it, and there are no rows
    row     ARCDATA of 64 MiB: one row has that cell
    ID      130,000 names in an ID statement, and as many columns of ARCDATA
    VAR     130,000 names in a VAR statement, and as many columns of CONDATA
The first two have the same bytes but for their order, so the header should take no more memory than the row. The last two
should take time in proportion to the names: they are run with half as many as well.
"""
import argparse
import os
import subprocess
import sys
import tempfile
import time

MOST_BYTES = 67_108_864
NAMES = 130_000
RUNS = 5


def names(count):
    return ["c%06d" % number for number in range(count)]


def cases(count):
    """Each case: its name, its program and its data sets, as functions that write to a file."""
    listed = " ".join(names(count)).encode()

    def fill(front, back):
        def write(f):
            f.write(front)
            left = MOST_BYTES - len(front) - len(back)
            while left:
                left -= f.write(b"x" * min(left, 1 << 20))
            f.write(back)
        return write

    def header(front):
        return lambda f: f.write(front + ",".join(names(count)).encode() + b"\n")

    def text(content):
        return lambda f: f.write(content)

    return [
        ("cell", b"proc netflow arcdata=arcs; run;", {"arcs": fill(b"_FROM_,_TO_,", b"\n")}),
        ("row", b"proc netflow arcdata=arcs; run;", {"arcs": fill(b"_FROM_,_TO_,x\na,b,", b"\n")}),
        ("ID", b"proc netflow arcdata=arcs; id " + listed + b"; run;", {"arcs": header(b"_FROM_,_TO_,")}),
        ("VAR", b"proc netflow arcdata=arcs condata=cons; var " + listed + b"; run;",
         {"arcs": text(b"_FROM_,_TO_\n"), "cons": header(b"_ROW_,_TYPE_,_RHS_,")}),
    ]


def run(program, folder, text):
    """One run: seconds, megabytes, status, the first line of the listing."""
    with open(text, "rb") as source, tempfile.TemporaryFile() as out:
        begin = time.perf_counter()
        child = subprocess.Popen([program, "run"], cwd=folder, stdin=source, stdout=out)
        _, status, usage = os.wait4(child.pid, 0)
        seconds = time.perf_counter() - begin
        child.returncode = os.waitstatus_to_exitcode(status)
        out.seek(0)
        return seconds, usage.ru_maxrss / 1024, child.returncode, out.readline().decode().rstrip("\n")


def measure(program, what, text, sets):
    """The best of some runs in seconds, the most in megabytes, and what the first one printed."""
    with tempfile.TemporaryDirectory() as folder:
        source = os.path.join(folder, "program.txt")
        with open(source, "wb") as f:
            f.write(text)
        for name, write in sets.items():
            with open(os.path.join(folder, name + ".csv"), "wb") as f:
                write(f)
        runs = [run(program, folder, source) for _ in range(RUNS)]
    if len({(status, line) for _, _, status, line in runs}) > 1:
        sys.exit("%s: not each run answered the same" % what)
    return min(r[0] for r in runs), max(r[1] for r in runs), runs[0][2], runs[0][3]


def main():
    parser = argparse.ArgumentParser(description="Time and memory of long headers.")
    parser.add_argument("--netflow", required=True, help="the built program")
    program = os.path.abspath(parser.parse_args().netflow)
    for count in (NAMES // 2, NAMES):
        for what, text, sets in cases(count):
            if count == NAMES or what in ("ID", "VAR"):
                seconds, megabytes, status, line = measure(program, what, text, sets)
                size = "%d names" % count if what in ("ID", "VAR") else "%d bytes" % MOST_BYTES
                print("%-5s %15s %8.3f s %8.1f MB   %d %s" % (what, size, seconds, megabytes, status, line))
    return 0


if __name__ == "__main__":
    sys.exit(main())
