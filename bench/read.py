#!/usr/bin/env python3
"""How the time to read a program's text grows with its bytes.

    python3 bench/read.py --netflow crates/netflow/out/netflow

`netflow check` reads texts of 262,144, 524,288 and 1,048,576 bytes, the most that it takes. None of them reaches the data
sets: each is a program that `check` does not take, or has its one fault at the end, so what is timed is the start of the
process, the taking of the bytes, the tokens and the reading. The best of 21 runs counts, in processor seconds, less the best
of 21 on the empty text. The answers are compared with what is due.
    columns     a VAR statement with as many column names as fit
    quoted      the same with quoted names of 32 bytes
    semicolons  statements of nothing
    comments    comments between them
    fault       column names, and behind them a word that is no statement
"""
import argparse
import os
import subprocess
import sys
import tempfile

HEAD = b"proc netflow arcdata=a nodedata=n certdata=c;\nid x;\n"
RUNS = 21
FORM = "PROGRAM REFUSED AT 0: Form\n"


def filled(front, piece, back, size):
    """The front, the piece as often as it fits, the back, and spaces up to the size."""
    count = (size - len(front) - len(back)) // len(piece)
    text = front + piece * count + back
    return text + b" " * (size - len(text))


def texts(size):
    last = filled(HEAD + b"var", b" col", b";\nend;", size)
    return [
        ("columns", filled(HEAD + b"var", b" col", b";", size), FORM),
        ("quoted", filled(HEAD + b"var", b' "' + b"place of work in the north-east." + b'"', b";", size), FORM),
        ("semicolons", filled(HEAD, b";", b"", size), FORM),
        ("comments", filled(HEAD, b"/* nothing is said here */;\n", b"", size), FORM),
        ("fault", last, "PROGRAM REFUSED AT %d: UnknownWord\n" % last.index(b"end;")),
    ]


def run(program, path, folder):
    """One run: processor seconds, status, listing."""
    with open(path, "rb") as text, tempfile.TemporaryFile() as out:
        child = subprocess.Popen([program, "check"], stdin=text, stdout=out, cwd=folder)
        _, status, usage = os.wait4(child.pid, 0)
        child.returncode = os.waitstatus_to_exitcode(status)
        out.seek(0)
        return usage.ru_utime + usage.ru_stime, child.returncode, out.read().decode()


def best(program, text, due):
    """The best of some runs, in processor seconds."""
    times = []
    with tempfile.TemporaryDirectory() as folder:
        path = os.path.join(folder, "program.txt")
        with open(path, "wb") as f:
            f.write(text)
        for _ in range(RUNS):
            seconds, status, listing = run(program, path, folder)
            if (status, listing) != (3, due):
                sys.exit("answered %d %r, due is 3 %r" % (status, listing, due))
            times.append(seconds)
    return min(times)


def main():
    parser = argparse.ArgumentParser(description="Time to read a program's text, by its bytes.")
    parser.add_argument("--netflow", required=True, help="the built program")
    program = os.path.abspath(parser.parse_args().netflow)
    start = best(program, b"", "PROGRAM REFUSED AT 0: NoProc\n")
    print("start of the process and the empty text: %.1f ms" % (1000 * start))
    sizes = [262144, 524288, 1048576]
    worst = 0.0
    for kind in range(len(texts(sizes[0]))):
        times = []
        for size in sizes:
            name, text, due = texts(size)[kind]
            assert len(text) == size
            times.append(best(program, text, due) - start)
        growth = times[2] / times[1]
        worst = max(worst, growth)
        print("  %-11s %s   twice the bytes take %.2f times as long" % (name, "  ".join("%7.1f ms" % (1000 * t) for t in times), growth))
    print("at most %.2f times as long for twice the bytes" % worst)
    return 0


if __name__ == "__main__":
    sys.exit(main())
