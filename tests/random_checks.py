#!/usr/bin/env python3
"""Random checks of the built program `netflow check` against an independent reading of docs/FORMATS.md.

    python3 tests/random_checks.py --netflow crates/netflow/out/netflow --seed 1 --count 300

Each case is a small (at times a larger) random network of tests/networks.py with its certificate. Then something is changed
at random: a flow, a dual, the data, the layout of a table, the certificate's rows, the program text, the words, the files.
What the program must answer is computed from the bytes of the files by tests/reading.py. Status and listing are compared
byte by byte.

    --oracle PATH     compares with another implementation besides: it is started as `PATH/netflow --stage 7`
"""
import os
import random
import re
import sys
from collections import Counter
from fractions import Fraction

sys.dont_write_bytecode = True
from cases import DIRECTORY, call, go_through, random_arguments, unmet, write_files  # noqa: E402
from networks import PROGRAM, Scenario  # noqa: E402
from reading import MOST, expected, is_range_line  # noqa: E402

# ---------------------------------------------------------------- changes


def rows_of(s, item):
    return [row for row in s.k[1:] if row[0] == item]


def some_fraction(r, text):
    step = r.choice([Fraction(1), Fraction(-1), Fraction(1, 1000), Fraction(-1, 1000), Fraction(1, 3)])
    return str(Fraction(text) + step)


def change_flow(r, s):
    row = r.choice(rows_of(s, "COL"))
    row[2] = some_fraction(r, row[2]) if r.random() < 0.7 else str(-abs(Fraction(row[2])) - 1)


def change_dual(r, s):
    row = r.choice(rows_of(s, "ROW"))
    row[2] = some_fraction(r, row[2])


def swap_rows(r, s):
    rows = rows_of(s, r.choice(["COL", "ROW"]))
    if len(rows) > 1:
        a, b = r.sample(rows, 2)
        a[2], b[2] = b[2], a[2]


def more_round(r, s):
    """More flow out of and into one node along two arcs that meet: rows between may stay right."""
    rows = rows_of(s, "COL")
    for row in rows:
        row[2] = str(Fraction(row[2]) * 2) if r.random() < 0.5 else row[2]


def change_cost(r, s):
    row = r.choice(s.arcs[1:])
    row[2] = str(int(row[2]) + r.choice([-1, 1, 2, -3]))


def change_capacity(r, s):
    row = r.choice(s.arcs[1:])
    row[3] = "INF" if r.random() < 0.3 else str(max(0, (0 if row[3] == "INF" else int(row[3])) + r.choice([-1, 1])))


def change_supplies(r, s):
    if len(s.nodes) > 2:
        a, b = r.sample(s.nodes[1:], 2)
        a[1], b[1] = str(int(a[1]) + 1), str(int(b[1]) - 1)


def other_total(r, s):
    if len(s.nodes) > 1:
        row = r.choice(s.nodes[1:])
        row[1] = str(int(row[1]) + r.choice([-1, 1]))


def bad_arc_cell(r, s):
    row = r.choice(s.arcs[1:])
    c = r.randrange(4)
    row[c] = r.choice(["", ".", "_EXCESS_", "a,b", "x" * 33, "q\u00e9"] if c < 2 else
                      ["", ".", "1.5", "+1", "1234567890", "x", "1e3", "--1", "-", "1 2"] if c == 2 else
                      ["", ".", "-1", "INFX", "1.0", "1234567890", "INF INF"])


def good_arc_cell(r, s):
    row = r.choice(s.arcs[1:])
    if row[3] == "INF":
        row[3] = r.choice(["inf", "Inf", "iNF"])
    else:
        row[3] = row[3].zfill(r.randint(1, 9))
    row[2] = ("-" if row[2].startswith("-") else "") + row[2].lstrip("-").zfill(r.randint(1, 9))


def repeat_arc(r, s):
    row = r.choice(s.arcs[1:])
    s.arcs.insert(r.randint(1, len(s.arcs)), [row[0], row[1], "7", "INF"])


def bad_node_cell(r, s):
    if len(s.nodes) > 1:
        row = r.choice(s.nodes[1:])
        c = r.randrange(2)
        row[c] = r.choice(["", ".", "_EXCESS_", "y" * 33, "n;"]) if c == 0 else r.choice(["", ".", "1.0", "+5", ".S", "S", "x"])


def repeat_node(r, s):
    if len(s.nodes) > 1:
        s.nodes.append([r.choice(s.nodes[1:])[0], "0"])


def many_nodes(r, s):
    extra = r.choice([1000, 1001])
    for i in range(extra - len({c for row in s.arcs[1:] for c in row[:2]} | {row[0] for row in s.nodes[1:]})):
        s.nodes.append(["more%d" % i, "0"])
    count = len({c.strip(" ") for row in s.arcs[1:] for c in row[:2]} | {row[0].strip(" ") for row in s.nodes[1:]})
    for i in range(len(rows_of(s, "ROW")) + 1, count + 1):
        s.k.append(["ROW", str(i), "-999999999"])


def other_header(r, s):
    name = r.choice(["arcs", "nodes", "k"])
    head = s.table(name)[0]
    how = r.randrange(5)
    if how == 0:
        head[r.randrange(len(head))] = r.choice(["_from_", "x", " _COST_", "_NODE_ "])
    elif how == 1:
        for row in s.table(name):
            row[0], row[1] = row[1], row[0]
    elif how == 2:
        for row in s.table(name):
            row.append("")
    else:
        head[-1] = head[0].lower()


def short_row(r, s):
    name = r.choice(["arcs", "nodes", "k"])
    row = r.choice(s.table(name)[1:] or s.table(name))
    if r.random() < 0.5:
        row.append("more")
    else:
        row.pop()


def not_text(r, s):
    name = r.choice(["arcs", "nodes", "k"])
    row = r.choice(s.table(name))
    row[r.randrange(len(row))] += r.choice(["\udcff", "\udcc3", "\udc80x"])


def empty_file(r, s):
    s.files[r.choice(["arcs", "nodes", "k"])] = r.choice([b"", b"\n\n", b"\xef\xbb\xbf", b"\r\n"])


def absent_file(r, s):
    s.files[r.choice(["arcs", "nodes", "k"])] = None


def folder_for_file(r, s):
    s.files[r.choice(["arcs", "nodes", "k"])] = DIRECTORY


def cert_columns(r, s):
    how = r.randrange(4)
    if how == 0:
        s.k[0][r.randrange(3)] = r.choice(["_ITEMS_", "x", " _VALUE_"])
    elif how == 1:
        order = r.sample(range(3), 3)
        s.k[:] = [[row[c] for c in order] for row in s.k]
    elif how == 2:
        for n, row in enumerate(s.k):
            row.insert(r.randint(0, 3) if n == 0 else at, "note" if n == 0 else r.choice(["", "x", "COL"]))
            at = row.index("note") if n == 0 else at
    else:
        s.k[0] = [c.lower() for c in s.k[0]]


def cert_item(r, s):
    row = r.choice(s.k[1:])
    row[0] = r.choice(["col", "COL", "ROW", "RAY", "VERDICT", "", "COLS", "Row"])


def cert_number(r, s):
    row = r.choice(s.k[1:])
    row[1] = r.choice(["0" + row[1], "", str(int(row[1]) + 1), "0", "+" + row[1], row[1] + ".0"])


def cert_value(r, s):
    row = r.choice(s.k[2:])
    row[2] = r.choice(["2/4", "", "+1", "-0", "1/0", "3/1", "01", "1/", "/2", "1.5", "x", "-", "1/-2", str(2 ** 127), "1/" + str(2 ** 127)])


def cert_verdict(r, s):
    s.k[1][2] = r.choice(["INFEASIBLE", "UNBOUNDED", "optimal", "", "OPTIMAL.", "BEST"])


def cert_short(r, s):
    del s.k[r.choice([-1, -1, -1, 1, -2]):]


def cert_long(r, s):
    s.k.append(r.choice([["ROW", str(len(rows_of(s, "ROW")) + 1), "0"], ["COL", "1", "0"], ["", "", ""], ["RAY", "1", "0"]]))


def cert_moved(r, s):
    at = r.randrange(1, len(s.k))
    row = s.k.pop(at)
    s.k.insert(r.randint(1, len(s.k)), row)


def cert_wide(r, s):
    """Numbers so wide that the check may pass 128 bits."""
    wide = r.choice([MOST, MOST - 1, -MOST, 2 ** 126, Fraction(1, MOST), Fraction(MOST, 2 ** 100), Fraction(1, 2 ** 126 + 1)])
    for row in r.sample(s.k[2:], min(len(s.k) - 2, r.choice([1, 2, 3]))):
        row[2] = str(wide if row[0] == "ROW" or r.random() < 0.3 else abs(wide))
    if r.random() < 0.7:
        for row in s.arcs[1:]:
            row[3] = "INF"


def wide_but_feasible(r, s):
    """Balanced flows and wide duals: only the reduced costs can pass 128 bits."""
    for row in rows_of(s, "ROW"):
        row[2] = str(r.choice([MOST, -MOST, 2 ** 126, -2 ** 126, Fraction(1, 2 ** 125 + 1)]))


PROGRAMS = [
    PROGRAM + "\n", PROGRAM + "\n\n", PROGRAM + " ", PROGRAM.upper(), PROGRAM[:-1], "", "x", PROGRAM + "\r\n", " " + PROGRAM,
    PROGRAM + " run;", "proc  netflow arcdata=arcs nodedata=nodes certdata=k;",
    "proc netflow nodedata=nodes arcdata=arcs certdata=k;", "proc netflow arcdata=arcs nodedata=nodes;",
    "proc netflow arcdata=Arcs nodedata=nodes certdata=k;", "proc netflow arcdata= nodedata=nodes certdata=k;",
    "proc netflow arcdata=arcs nodedata=nodes certdata=" + "k" * 33 + ";",
    "proc netflow arcdata=arcs nodedata=nodes certdata=" + "k" * 32 + ";",
    "proc netflow arcdata=arcs nodedata=nodes certdata=_9;", "proc netflow arcdata=arcs nodedata=nodes certdata=0_9;",
    "proc netflow arcdata=arcs nodedata=arcs certdata=k;",
    "proc netflow arcdata=nodes nodedata=arcs certdata=k;", "proc netflow arcdata=arcs nodedata=nodes certdata=nodes;",
    PROGRAM + ";", PROGRAM + "\n" + " " * (1048576 - len(PROGRAM) - 1), PROGRAM + "\n" + " " * 1048576,
]

# what may stand behind `certdata=k`, and behind the PROC statement
PARTS = ["warm", "conin=a", "dualin=b", "sessiondata=c", "maxit1=5", "MAXIT2=0", "pause1=007", "future1", "nofuture1", "Future2", "pricetype1=best",
         "pricetype2=queue", "arcout=o", "certout=K", "thrunet", "max", "maximize", "defcost=1.5", "defcost=1.2345", "defcapacity=INF",
         "source=a", "source='a b'", "sink=5", "supply=3", "demand=-2", "condata=d", "sparsecondata", "defcontype=ge", "defcontype=cost",
         "foo", "foo=1", "arcdata=x", "run", "5", "'q'", "=", "endpause1=1", "maxit1=1000000000"]
STATEMENTS = ["quit;", "run;", "tail t;", "tail t u;", "from f;", "var x y;", "id 'a b' c;", "id;", "cost ;", "proc netflow;", "print arcs;",
              "save arcout=x;", "reset;", ";", "bar;", "5;", "quit", "show status", "node 'n\";", "/* c */", "/* c"]


def other_program(r, s):
    how = r.random()
    if how < 0.05:
        s.program = b"proc netflow arcdata=\xff nodedata=nodes certdata=k;"
    elif how < 0.4:
        s.program = r.choice(PROGRAMS).encode()
    elif how < 0.9:
        parts = ["arcdata=arcs", "nodedata=nodes", "certdata=k"] + r.choices(PARTS, k=r.choice([0, 1, 1, 2, 3]))
        r.shuffle(parts)
        s.program = ("proc netflow " + " ".join(parts) + "; " + " ".join(r.choices(STATEMENTS, k=r.choice([0, 0, 1, 2])))).encode()
    else:
        text = bytearray(PROGRAM.encode())
        for _ in range(r.choice([1, 1, 2])):
            at = r.randrange(len(text))
            if r.random() < 0.5:
                text[at] = r.choice(b"aZ_09.-= ;'\"/*%\n")
            else:
                del text[at]
        s.program = bytes(text)


def other_words(r, s):
    s.words = r.choice([[], ["run", "run"], ["check", "check"], ["Check"], [""], ["sample", "1", "2", "3", "0"], ["help"], ["--help"], ["check", ""]])


CHANGES = [
    (14, None), (9, change_flow), (8, change_dual), (3, swap_rows), (3, more_round), (5, change_cost), (5, change_capacity),
    (3, change_supplies), (2, other_total), (4, bad_arc_cell), (3, good_arc_cell), (2, repeat_arc), (3, bad_node_cell),
    (2, repeat_node), (1, many_nodes), (4, other_header), (4, short_row), (3, not_text), (3, empty_file), (2, absent_file),
    (2, folder_for_file), (5, cert_columns), (3, cert_item), (3, cert_number), (4, cert_value), (3, cert_verdict),
    (4, cert_short), (3, cert_long), (2, cert_moved), (4, cert_wide), (4, wide_but_feasible), (12, other_program), (2, other_words),
]


def scenario(seed, number):
    r = random.Random("%d %d" % (seed, number))
    s = Scenario(r)
    changes = [c for c in r.choices([c for _, c in CHANGES], [w for w, _ in CHANGES], k=2 if r.random() < 0.15 else 1) if c]
    done = []
    for change in changes:
        try:
            change(r, s)
            done.append(change.__name__)
        except (IndexError, ValueError, ZeroDivisionError):
            pass            # nothing there to change, or an earlier change made a cell that is no number
    s.what = ", ".join(done) or "as it is"
    return s.words, s.program, s.laid_out(r, plain=r.random() < 0.4), s.what


# ---------------------------------------------------------------- comparison

KINDS = [
    "0 ACCEPTED OPTIMAL", "2 USAGE", "3 PROGRAM REFUSED", "4 DATA REFUSED: NoHeader",
    "4 DATA REFUSED: RowLength", "4 DATA REFUSED: NotText", "4 DATA REFUSED: RepeatedColumn", "4 DATA REFUSED: MissingRole",
    "4 DATA REFUSED: BadName", "4 DATA REFUSED: Amount", "4 DATA REFUSED: RepeatedArc", "4 DATA REFUSED: RepeatedNode", "5 READ FAULT", "7 ABSENT",
    "8 RANGE PASSED", "9 NO COLUMN", "9 UNKNOWN ROW", "9 NUMBER ROW", "9 MISSING ROW", "9 BOUND", "9 ROW", "9 REDUCED COST",
]


def kind(status, listing):
    line = listing.split("\n")[0]
    if status == 4:
        return "4 DATA REFUSED: " + re.search(r": (\w+)", line)[1]
    line = line.replace("REFUSED CERTDATA ", "").replace("REFUSED ", "", 1) if status == 9 else line
    return next((k for k in KINDS if ("%d %s" % (status, line)).startswith(k)), "%d %s" % (status, line))


def agrees(got, due, wide):
    if got[0] == 8 and wide:
        return is_range_line(got[1])
    return got[:2] == due


def main():
    o = random_arguments("Random checks of `netflow check`.", oracle="a folder with another implementation").parse_args()
    program = [os.path.abspath(o.netflow)]
    other = [os.path.abspath(os.path.join(o.oracle, "netflow")), "--stage", "7"] if o.oracle else None
    seen = Counter()

    def faults_of(number, folder):
        words, text, files, what = scenario(o.seed, number)
        status, listing, wide = expected(words, text, files)
        write_files(folder, files)
        got = call(program, words, text, folder)
        faults = [] if agrees(got, (status, listing), wide) else ["%s: answered %d %r, due is %d %r" % (what, *got[:2], status, listing)]
        if other:
            theirs = call(other, words, text, folder)
            if theirs[:2] != (status, listing):
                faults.append("%s: the other implementation answered %d %r, due is %d %r" % (what, *theirs[:2], status, listing))
        seen[kind(*got[:2])] += not faults
        if faults:
            with open(os.path.join(folder, "check.txt"), "wb") as f:
                f.write(text)
        return faults

    failed = go_through(o, faults_of)
    return 1 if unmet(KINDS, seen, o.count) or failed else 0


if __name__ == "__main__":
    sys.exit(main())
