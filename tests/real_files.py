#!/usr/bin/env python3
"""The built program on real files: the shipped examples, changes that must be refused, and input with faults.

    python3 tests/real_files.py --netflow crates/netflow/out/netflow

Each case runs in a folder of its own. What is expected is typed from docs/FORMATS.md and the READMEs of examples/.
A refusal must be the whole listing, and nothing may stand on standard error.
"""
import csv
import os
import shutil
import subprocess
import sys
import tempfile
from fractions import Fraction

sys.dont_write_bytecode = True
from cases import USAGE, Cases, arguments  # noqa: E402

TOP = os.path.dirname(os.path.dirname(os.path.abspath(__file__)))
EXAMPLE = os.path.join(TOP, "examples", "distribution")
ACCEPTED = (0, "ACCEPTED OPTIMAL\nTOTAL COST 725\n")
PROGRAM = b"proc netflow arcdata=arcs nodedata=nodes certdata=certificate;"

# a folder of examples/, the file with the program, the command, the whole listing or the file that has it, and a data set
# that is stored, as the folder has it
EXAMPLES = [
    ("distribution", "run.txt", "run", "listing.txt", "plan.csv"),
    ("distribution", "check.txt", "check", "ACCEPTED OPTIMAL\nTOTAL COST 725\n", None),
    ("refinery", "run.txt", "run", "listing.txt", None),
    ("production", "run.txt", "run", "listing.txt", "plan.csv"),
    ("production", "check.txt", "check", "ACCEPTED OPTIMAL\nTOTAL COST 5960\n", None),
    ("contract", "run.txt", "run", "listing.txt", "plan.csv"),
    ("contract", "check.txt", "check", "ACCEPTED OPTIMAL\nTOTAL COST 1320\n", None),
    ("unbounded", "run.txt", "run", "listing.txt", "plan.csv"),
    ("unbounded", "check.txt", "check", "ACCEPTED UNBOUNDED\nRATE -2\n", None),
    ("misspelt", "run.txt", "run", "listing.txt", "plan.csv"),
    ("misspelt", "check.txt", "check", "ACCEPTED INFEASIBLE\nGAP 6\n", None),
    ("excess", "run.txt", "run", "listing.txt", "plan.csv"),
    ("excess", "check.txt", "check", "ACCEPTED OPTIMAL\nTOTAL COST 665\n", None),
]

# file, text that stands there once, text in its place, status, listing
ONE_CHANGE = [
    # the certificate's numbers
    ("certificate.csv", "COL,1,30,", "COL,1,29,", 9, "REFUSED ROW 1"),
    ("certificate.csv", "COL,1,30,", "COL,1,31,", 9, "REFUSED BOUND C1"),
    ("certificate.csv", "COL,7,0,", "COL,7,-1,", 9, "REFUSED BOUND C7"),
    ("certificate.csv", "COL,13,0,", "COL,13,1,", 9, "REFUSED ROW 1"),
    ("certificate.csv", "COL,12,10,", "COL,12,21/2,", 9, "REFUSED ROW 3"),
    ("certificate.csv", "ROW,4,-1,", "ROW,4,-2,", 9, "REFUSED REDUCED COST C3"),
    ("certificate.csv", "ROW,9,-15,", "ROW,9,-16,", 9, "REFUSED REDUCED COST C11"),
    # the certificate's layout
    ("certificate.csv", "_VALUE_", "VALUE", 9, "REFUSED CERTDATA NO COLUMN _VALUE_"),
    ("certificate.csv", "_ITEM_,_NUMBER_", "ITEM,NUMBER", 9, "REFUSED CERTDATA NO COLUMN _ITEM_"),
    ("certificate.csv", "_NUMBER_", "_NO_", 9, "REFUSED CERTDATA NO COLUMN _NUMBER_"),
    ("certificate.csv", "VERDICT,1,OPTIMAL,", "VERDICT,1,INFEASIBLE,", 9, "REFUSED CERTDATA UNKNOWN ROW 2"),
    ("certificate.csv", "VERDICT,1,OPTIMAL,", "VERDICT,1,UNBOUNDED,", 9, "REFUSED CERTDATA UNKNOWN ROW 15"),
    ("certificate.csv", "VERDICT,1,OPTIMAL,", "VERDICT,1,optimal,", 9, "REFUSED CERTDATA UNKNOWN ROW 1"),
    ("certificate.csv", "COL,3,15,", "col,3,15,", 9, "REFUSED CERTDATA UNKNOWN ROW 4"),
    ("certificate.csv", "COL,3,15,", "COL,03,15,", 9, "REFUSED CERTDATA UNKNOWN ROW 4"),
    ("certificate.csv", "COL,3,15,", "COL,3,30/2,", 9, "REFUSED CERTDATA NUMBER ROW 4"),
    ("certificate.csv", "COL,3,15,", "COL,3,+15,", 9, "REFUSED CERTDATA NUMBER ROW 4"),
    ("certificate.csv", "COL,3,15,", "COL,3,,", 9, "REFUSED CERTDATA NUMBER ROW 4"),
    ("certificate.csv", "COL,3,15,", "COL,3,15.0,", 9, "REFUSED CERTDATA NUMBER ROW 4"),
    ("certificate.csv", "ROW,9,-15,Foxford\n", "", 9, "REFUSED CERTDATA MISSING ROW 23"),
    ("certificate.csv", "ROW,9,-15,Foxford\n", "ROW,9,-15,Foxford\nROW,10,0,\n", 9, "REFUSED CERTDATA UNKNOWN ROW 24"),
    ("certificate.csv", "COL,13,0,Amber mill to Carlow\n", "", 9, "REFUSED CERTDATA UNKNOWN ROW 14"),
    # what the layout leaves free
    ("certificate.csv", "COL,3,15,", " COL , 3,15  ,", *ACCEPTED),
    ("certificate.csv", "_ITEM_,_NUMBER_,_VALUE_", "_item_,_Number_,_VALUE_", *ACCEPTED),
    ("arcs.csv", "Birch mill,West depot,5,INF", "Birch mill,\"West depot\", 005 ,inf", *ACCEPTED),
    ("nodes.csv", "Birch mill,35", "\r\nBirch mill , 35", *ACCEPTED),
    ("check.txt", "certificate;\n", "certificate;", *ACCEPTED),
    # the data
    ("arcs.csv", "East depot,4,30", "East depot,4,31", 9, "REFUSED REDUCED COST C1"),
    ("arcs.csv", "East depot,4,30", "East depot,4,29", 9, "REFUSED BOUND C1"),
    ("arcs.csv", "South depot,3,20", "South depot,3,INF", 9, "REFUSED REDUCED COST C4"),
    ("arcs.csv", "East depot,Carlow,5,INF", "East depot,Carlow,6,INF", 9, "REFUSED REDUCED COST C6"),
    ("arcs.csv", "East depot,Carlow,5,INF", "East depot,Carlow,5", 4, "DATA REFUSED ARCDATA ROW 6: RowLength"),
    ("arcs.csv", "East depot,Carlow,5,INF", "East depot,Carlow,5,INF,", 4, "DATA REFUSED ARCDATA ROW 6: RowLength"),
    ("arcs.csv", "East depot,Carlow,5,INF", "East depot,Carlow,x,INF", 4, "DATA REFUSED ARCDATA ROW 6 COLUMN _COST_: Amount"),
    ("arcs.csv", "East depot,Carlow,5,INF", "East depot,Carlow,5,", *ACCEPTED),
    ("arcs.csv", "East depot,Carlow,5,INF", "East depot,Carlow,5,-3", 4, "DATA REFUSED ARCDATA ROW 6 COLUMN _CAPAC_: CrossedBounds"),
    ("arcs.csv", "East depot,Carlow,5,INF", "East depot,Carlow,1234567890,INF", 4, "DATA REFUSED ARCDATA ROW 6 COLUMN _COST_: Amount"),
    ("arcs.csv", "East depot,Carlow,5,INF", "East depot,_EXCESS_,5,INF", 4, "DATA REFUSED ARCDATA ROW 6 COLUMN _TO_: ReservedName"),
    ("arcs.csv", "East depot,Carlow,5,INF", "East depot,.,5,INF", 4, "DATA REFUSED ARCDATA ROW 6 COLUMN _TO_: BadName"),
    ("arcs.csv", "East depot,Derry,7,12", "East depot,Carlow,7,12", 4, "DATA REFUSED ARCDATA ROW 7 COLUMN _NAME_: RepeatedArc"),
    ("arcs.csv", "_COST_", "_CAPAC_", 4, "DATA REFUSED ARCDATA: RepeatedColumn _CAPAC_"),
    ("arcs.csv", "_COST_", "_to_", 4, "DATA REFUSED ARCDATA: RepeatedColumn _to_"),
    ("arcs.csv", "_COST_", "COST", 9, "REFUSED REDUCED COST C2"),
    ("arcs.csv", "_COST_,_CAPAC_", "_CAPAC_,_COST_", 4, "DATA REFUSED ARCDATA ROW 3 COLUMN _COST_: Amount"),
    ("nodes.csv", "Carlow,-20", "Carlow,-21", 9, "REFUSED CERTDATA UNKNOWN ROW 15"),
    ("nodes.csv", "Carlow,-20", "Derry,-20", 4, "DATA REFUSED NODEDATA ROW 4 COLUMN _NODE_: RepeatedNode"),
    ("nodes.csv", "Carlow,-20", "Carlow,-20.0", *ACCEPTED),
    ("nodes.csv", "Carlow,-20", "Carlow", 4, "DATA REFUSED NODEDATA ROW 3: RowLength"),
    ("nodes.csv", "_SUPDEM_", "_SUPPLY_", 4, "DATA REFUSED NODEDATA: MissingRole SUPDEM"),
    # the program text
    ("check.txt", "certificate;\n", "certificate; quit;\n", *ACCEPTED),
    ("check.txt", "proc netflow", "/* the plan */ PROC  NetFlow\n", *ACCEPTED),
    ("check.txt", "certificate;\n", "certificate;\n;\n /* end */", *ACCEPTED),
    ("check.txt", "arcdata=arcs nodedata=nodes", "NODEDATA = Nodes ArcData = ARCS", *ACCEPTED),
    ("check.txt", "certificate;", "certificate maxit1=5 pricetype2=best arcout=o future1;", *ACCEPTED),
    ("check.txt", "certificate;", "certificate warm conin=a dualin=b sessiondata=c;", *ACCEPTED),
    ("check.txt", "certificate;\n", "certificate; run;\n", 3, "PROGRAM REFUSED AT 63: StatementOrder"),
    ("check.txt", "proc netflow", "proc flow", 3, "PROGRAM REFUSED AT 5: UnknownWord"),
    ("check.txt", "proc netflow", "netflow", 3, "PROGRAM REFUSED AT 0: NoProc"),
    ("check.txt", "certificate;", "certificate", 3, "PROGRAM REFUSED AT 62: MissingSemicolon"),
    ("check.txt", " certdata=certificate", "", 3, "PROGRAM REFUSED AT 40: MissingOption"),
    ("check.txt", "arcdata=arcs ", "", 3, "PROGRAM REFUSED AT 48: MissingOption"),
    ("check.txt", "nodes certdata", "nodes nodedata=n certdata", 3, "PROGRAM REFUSED AT 41: RepeatedOption"),
    ("check.txt", "arcdata=arcs", "arcdata='arcs'", 3, "PROGRAM REFUSED AT 21: WrongValue"),
    ("check.txt", "certificate;", "certificate warm maxit1=5;", 3, "PROGRAM REFUSED AT 67: OptionNotHere"),
    ("check.txt", "certificate;\n", "certificate; /* end\n", 3, "PROGRAM REFUSED AT 63: OpenComment"),
    ("check.txt", "certificate;\n", "certificate; cost 'c\n", 3, "PROGRAM REFUSED AT 68: OpenQuote"),
    ("check.txt", "nodes certdata", "nodes, certdata", 3, "PROGRAM REFUSED AT 40: BadByte"),
    ("check.txt", " nodedata=nodes", "", 9, "REFUSED ROW 1"),
    ("check.txt", "certificate;", "certificate thrunet;", *ACCEPTED),
    ("check.txt", "certificate;", "certificate defcost=1;", *ACCEPTED),
    ("check.txt", "certificate;", "certificate maximize;", 9, "REFUSED REDUCED COST C2"),
    ("check.txt", "certificate;", "certificate defcontype=ge;", *ACCEPTED),
    ("check.txt", "certificate;", "certificate condata=cons;", 7, "ABSENT cons"),
    ("check.txt", "certificate;", "certificate condata=nodes;", 4, "DATA REFUSED CONDATA ROW 1 COLUMN _NODE_: Amount"),
    ("check.txt", "certificate;", "certificate condata=nodes sparsecondata;", 4, "DATA REFUSED CONDATA: MissingRole ROW"),
    ("check.txt", "certificate;", "certificate sparsecondata;", 3, "PROGRAM REFUSED AT 75: MissingOption"),
    ("check.txt", "certificate;\n", "certificate; cost c;\n", 4, "DATA REFUSED ARCDATA: NoColumn c"),
    ("check.txt", "certificate;\n", "certificate; capac _capac_; supdem '_supdem_';\n", *ACCEPTED),
    ("check.txt", "certificate;\n", "certificate; rhs b;\n", *ACCEPTED),
    ("check.txt", "certdata=certificate", "certdata=elsewhere", 7, "ABSENT elsewhere"),
    ("check.txt", "arcdata=arcs", "arcdata=nodes", 4, "DATA REFUSED ARCDATA: MissingRole TAILNODE"),
]

# name of a file, its bytes in place of those that it has (None: there is no such file), status, listing
WHOLE_FILE = [
    ("arcs.csv", None, 7, "ABSENT arcs"),
    ("nodes.csv", None, 7, "ABSENT nodes"),
    ("certificate.csv", None, 7, "ABSENT certificate"),
    ("arcs.csv", b"", 4, "DATA REFUSED ARCDATA: NoHeader"),
    ("nodes.csv", b"\r\n\n", 4, "DATA REFUSED NODEDATA: NoHeader"),
    ("certificate.csv", b"\xef\xbb\xbf", 4, "DATA REFUSED CERTDATA: NoHeader"),
    ("certificate.csv", b"_ITEM_,_NUMBER_,_VALUE_\n", 9, "REFUSED CERTDATA MISSING ROW 1"),
    ("certificate.csv", b"_ITEM_,_NUMBER_,_VALUE_\nVERDICT,1,OPTIMAL\nCOL,1,\xff\n", 4, "DATA REFUSED CERTDATA ROW 2: NotText"),
    ("arcs.csv", b"_FROM_,_TO_,_COST_,_CAPAC_\n\xc3,b,1,1\n", 4, "DATA REFUSED ARCDATA ROW 1: NotText"),
    ("arcs.csv", b"_FROM_,_TO_,_COST_,\xff\n", 4, "DATA REFUSED ARCDATA ROW 0: NotText"),
    ("arcs.csv", b'_FROM_,_TO_,"x\nACCEPTED OPTIMAL","X\nACCEPTED OPTIMAL"\n', 4, "DATA REFUSED ARCDATA: RepeatedColumn X?ACCEPTED OPTIMAL"),
    ("arcs.csv", b'_FROM_,_FROM_,"\x1b[2J\x7f\t"\n', 4, "DATA REFUSED ARCDATA: RepeatedColumn _FROM_"),
    ("arcs.csv", b"_FROM_,_TO_,_COST_,_CAPAC_\n" + b"a,b,1,1\n" * (67108864 // 8), 4, "DATA REFUSED ARCDATA: TooLong"),
    ("check.txt", b"", 3, "PROGRAM REFUSED AT 0: NoProc"),
    ("check.txt", PROGRAM + b"\n" * (1048576 - len(PROGRAM)), *ACCEPTED),
    ("check.txt", PROGRAM + b"\n" * (1048577 - len(PROGRAM)), 3, "PROGRAM REFUSED AT 1048576: TooLong"),
    ("check.txt", b"proc netflow arcdata=\xff nodedata=nodes certdata=certificate;\n", 3, "PROGRAM REFUSED AT 21: BadByte"),
]

WORDS = [
    [], ["run", "run"], ["Run"], ["run "], ["check", "check"], ["CHECK"], ["check "], [""], ["--help"], ["-"], ["help"], ["--", "run"], ["run", "--"],
    ["sample"], ["sample", "1", "3", "3"], ["sample", "1", "3", "3", "0", "1"], ["Sample", "1", "3", "3", "0"], ["sample", "", "3", "3", "0"],
    ["sample", "1", "2", "3", "0"], ["sample", "1", "2001", "50000", "0"], ["sample", "1", "4", "3", "0"], ["sample", "1", "3", "50001", "0"],
    ["sample", "1", "3", "3", "51"], ["sample", "1000000000", "3", "3", "0"], ["sample", "-1", "3", "3", "0"], ["sample", "+1", "3", "3", "0"],
    ["sample", "1.0", "3", "3", "0"], ["sample", "0000000001", "3", "3", "0"], ["sample", "1", "3", "3", "help"],
]


def check(t, folder, words=("check",), **more):
    """The program's answer in a copy of the example."""
    return t.run(folder, words, bytes_of(folder, "check.txt"), **more)


def bytes_of(folder, name):
    with open(os.path.join(folder, name), "rb") as f:
        return f.read()


def expect_refusal(t, what, got):
    """Refused as a certificate, by one line."""
    t.count(got[0] == 9 and got[1].startswith("REFUSED ") and got[1].count("\n") == 1 and got[2] == "", what, got, "a refusal")


class Copy:
    """A fresh copy of the example."""

    def __enter__(self):
        self.folder = tempfile.mkdtemp()
        for name in ("arcs.csv", "nodes.csv", "certificate.csv", "check.txt"):
            shutil.copy(os.path.join(EXAMPLE, name), self.folder)
        return self

    def __exit__(self, *_):
        shutil.rmtree(self.folder)

    def path(self, name):
        return os.path.join(self.folder, name)

    def rows(self, name):
        with open(self.path(name), newline="", encoding="utf-8") as f:
            return list(csv.reader(f))

    def write(self, name, rows):
        with open(self.path(name), "w", newline="", encoding="utf-8") as f:
            csv.writer(f, lineterminator="\n").writerows(rows)

    def change(self, name, old, new):
        with open(self.path(name), newline="", encoding="utf-8") as f:
            text = f.read()
        assert text.count(old) == 1, "%r stands %d times in %s" % (old, text.count(old), name)
        with open(self.path(name), "w", newline="", encoding="utf-8") as f:
            f.write(text.replace(old, new))


def examples(t):
    """The examples as they are shipped, with the listings that their READMEs show."""
    for name, program, command, listing, stored in EXAMPLES:
        example = os.path.join(TOP, "examples", name)
        with tempfile.TemporaryDirectory() as folder:
            for file in os.listdir(example):
                if file != stored:
                    shutil.copy(os.path.join(example, file), folder)
            due = bytes_of(example, listing).decode() if listing.endswith(".txt") else listing
            t.expect("%s of %s" % (program, name), t.run(folder, [command], bytes_of(folder, program)), 0, due)
            if stored:
                got, want = bytes_of(folder, stored), bytes_of(example, stored)
                t.count(got == want, "%s of %s" % (stored, name), got, want)


def each_number(t):
    """Each flow and each dual, changed by 1/1000 either way."""
    with Copy() as c:
        rows = c.rows("certificate.csv")
    for n in range(2, len(rows)):
        for step in (Fraction(1, 1000), Fraction(-1, 1000)):
            with Copy() as c:
                changed = [list(row) for row in rows]
                changed[n][2] = str(Fraction(rows[n][2]) + step)
                c.write("certificate.csv", changed)
                expect_refusal(t, "%s %s made %s" % (*rows[n][:2], changed[n][2]), check(t, c.folder))


def each_binding_capacity(t):
    """Each capacity that a flow uses in full at a gain, changed by 1 either way."""
    with Copy() as c:
        arcs, flows = c.rows("arcs.csv"), c.rows("certificate.csv")[2:]
    full = [j for j in range(1, len(arcs)) if arcs[j][3] == flows[j - 1][2]]
    assert len(full) == 2
    for j in full:
        for step in (1, -1):
            with Copy() as c:
                changed = [list(row) for row in arcs]
                changed[j][3] = str(int(arcs[j][3]) + step)
                c.write("arcs.csv", changed)
                expect_refusal(t, "capacity of arc %d made %s" % (j, changed[j][3]), check(t, c.folder))


def each_two_supplies(t):
    """A unit more here and one less there: the total stays 0."""
    with Copy() as c:
        nodes = c.rows("nodes.csv")
    for a in range(1, len(nodes)):
        for b in range(1, len(nodes)):
            if a != b:
                with Copy() as c:
                    changed = [list(row) for row in nodes]
                    changed[a][1], changed[b][1] = str(int(nodes[a][1]) + 1), str(int(nodes[b][1]) - 1)
                    c.write("nodes.csv", changed)
                    expect_refusal(t, "a unit more at %s, one less at %s" % (nodes[a][0], nodes[b][0]), check(t, c.folder))


def tables(t):
    for name, old, new, status, listing in ONE_CHANGE:
        with Copy() as c:
            c.change(name, old, new)
            t.expect("%s: %r for %r" % (name, new, old), check(t, c.folder), status, listing)
    for name, content, status, listing in WHOLE_FILE:
        with Copy() as c:
            os.remove(c.path(name))
            if content is not None:
                with open(c.path(name), "wb") as f:
                    f.write(content)
            t.expect("%s with other bytes (%s)" % (name, listing), check(t, c.folder), status, listing)
    for words in WORDS:
        with Copy() as c:
            t.expect("words %r" % (words,), check(t, c.folder, words), 2, USAGE)


def forged_lines(t):
    """A header cell of CONDATA that would print a line of its own: each control byte is printed as `?`."""
    for cell, printed in (("x\nACCEPTED OPTIMAL", "x?ACCEPTED OPTIMAL"), ("x\r\n\x00\x7fOPTIMAL", "x????OPTIMAL")):
        with Copy() as c:
            c.change("check.txt", "certificate;", "certificate condata=cons;")
            with open(c.path("cons.csv"), "w", newline="", encoding="utf-8") as f:
                f.write('"%s"\n1\n' % cell)
            t.expect("a header cell %r" % cell, check(t, c.folder), 4, "DATA REFUSED CONDATA ROW 0 COLUMN %s: BadName" % printed)


def many_nodes(t):
    """With CONDATA 1,000 nodes are taken and 1,001 are not; without it both are."""
    accepted = "ACCEPTED OPTIMAL\nTOTAL COST 0\n"
    for count, constrained, status, listing in (
        (1000, False, 0, accepted),
        (1001, False, 0, accepted),
        (1000, True, 0, accepted),
        (1001, True, 4, "DATA REFUSED PROC ROW 0 COLUMN ROWS: LimitPassed"),
    ):
        with Copy() as c:
            if constrained:
                c.change("check.txt", "certificate;", "certificate condata=cons;")
                c.write("cons.csv", [["_RHS_"]])
            c.write("arcs.csv", [["_FROM_", "_TO_", "_COST_", "_CAPAC_"]])
            c.write("nodes.csv", [["_NODE_", "_SUPDEM_"]] + [["n%d" % i, "0"] for i in range(count)])
            c.write("certificate.csv", [["_ITEM_", "_NUMBER_", "_VALUE_"], ["VERDICT", "1", "OPTIMAL"]]
                    + [["ROW", str(i), "1/3"] for i in range(1, count + 1)])
            t.expect("%d nodes, CONDATA: %s" % (count, constrained), check(t, c.folder), status, listing)


# options, ARCDATA behind its header `_FROM_,_TO_,_COST_,_CAPAC_`, NODEDATA behind its header or None, the certificate's rows,
# status, listing; `/` ends a line
KINDS = [
    ("", "a,b,2,3/", "a,5/b,-5/", "VERDICT,1,INFEASIBLE/ROW,1,1/ROW,2,0/", 0, "ACCEPTED INFEASIBLE\nGAP 2"),
    ("maximize", "a,b,2,3/", "a,5/b,-5/", "VERDICT,1,INFEASIBLE/ROW,1,1/ROW,2,0/", 0, "ACCEPTED INFEASIBLE\nGAP 2"),
    ("", "a,b,2,3/", "a,5/b,-5/", "VERDICT,1,INFEASIBLE/ROW,1,0/ROW,2,0/", 9, "REFUSED GAP 0"),
    ("", "a,b,2,INF/", "a,5/b,-5/", "VERDICT,1,INFEASIBLE/ROW,1,1/ROW,2,0/", 9, "REFUSED COLUMN C1"),
    ("", "a,b,2,3/", "a,5/b,-5/", "VERDICT,1,INFEASIBLE/COL,1,3/ROW,1,0/ROW,2,0/", 9, "REFUSED CERTDATA UNKNOWN ROW 2"),
    ("", "a,b,-1,INF/b,a,0,INF/", None, "VERDICT,1,UNBOUNDED/COL,1,0/COL,2,0/RAY,1,1/RAY,2,1/", 0, "ACCEPTED UNBOUNDED\nRATE -1"),
    ("maximize", "a,b,1,INF/b,a,0,INF/", None, "VERDICT,1,UNBOUNDED/COL,1,0/COL,2,0/RAY,1,1/RAY,2,1/", 0, "ACCEPTED UNBOUNDED\nRATE 1"),
    ("maximize", "a,b,-1,INF/b,a,0,INF/", None, "VERDICT,1,UNBOUNDED/COL,1,0/COL,2,0/RAY,1,1/RAY,2,1/", 9, "REFUSED RATE -1"),
    ("", "a,b,-1,INF/b,a,0,INF/", None, "VERDICT,1,UNBOUNDED/COL,1,0/COL,2,0/RAY,1,1/RAY,2,0/", 9, "REFUSED RAY ROW 1"),
    ("", "a,b,-1,INF/b,a,0,INF/", None, "VERDICT,1,UNBOUNDED/COL,1,0/COL,2,0/RAY,1,-1/RAY,2,-1/", 9, "REFUSED RAY C1"),
    ("maximize", "a,b,2,10/", "a,5/b,-5/", "VERDICT,1,OPTIMAL/COL,1,5/ROW,1,0/ROW,2,2/", 0, "ACCEPTED OPTIMAL\nTOTAL COST 10"),
]


def all_kinds(t):
    """Certificates of the three kinds; costs and rates are told in the program's own sense."""
    for options, arcs, nodes, rows, status, listing in KINDS:
        with Copy() as c:
            for name, text in (("arcs.csv", "_FROM_,_TO_,_COST_,_CAPAC_/" + arcs), ("nodes.csv", "_NODE_,_SUPDEM_/" + (nodes or "")),
                               ("certificate.csv", "_ITEM_,_NUMBER_,_VALUE_/" + rows),
                               ("check.txt", "proc netflow arcdata=arcs %scertdata=certificate %s;" % ("nodedata=nodes " if nodes else "", options))):
                with open(c.path(name), "w", encoding="utf-8") as f:
                    f.write(text.replace("/", "\n"))
            t.expect("%s of %s" % (rows, arcs), check(t, c.folder), status, listing)


def passes_the_range(t):
    """Flows and duals of 127 bits: an answer in 128 bits cannot be had, and is not made up."""
    most = str(2 ** 127 - 1)
    with Copy() as c:
        c.write("arcs.csv", [["_FROM_", "_TO_", "_COST_", "_CAPAC_"], ["a", "b", "1", "INF"], ["b", "a", "1", "INF"]])
        c.write("nodes.csv", [["_NODE_", "_SUPDEM_"]])
        rows = [["_ITEM_", "_NUMBER_", "_VALUE_"], ["VERDICT", "1", "OPTIMAL"], ["COL", "1", "0"], ["COL", "2", "0"]]
        for what, duals in (("numbers", (most, "-" + most)), ("denominators", ("1/" + most, "1/" + str(2 ** 127 - 2)))):
            c.write("certificate.csv", [*rows, ["ROW", "1", duals[0]], ["ROW", "2", duals[1]]])
            status, listing, error = check(t, c.folder)
            begins = listing if listing.count("\n") != 1 else listing.split(":")[0]
            t.expect("%s of 127 bits" % what, (status, begins + "\n", error), 8, "RANGE PASSED CHECK")


def outside(t):
    """Files and a standard input that are folders, and an output that takes nothing."""
    for name in ("arcs.csv", "nodes.csv", "certificate.csv"):
        with Copy() as c:
            os.remove(c.path(name))
            os.mkdir(c.path(name))
            t.expect("%s is a folder" % name, check(t, c.folder), 5, "READ FAULT")
    for word in ("check", "run"):
        with Copy() as c:
            folder = os.open(c.folder, os.O_RDONLY)
            done = subprocess.run([*t.command, word], stdin=folder, capture_output=True, cwd=c.folder, timeout=60)
            os.close(folder)
            t.expect("standard input is a folder, %s" % word, (done.returncode, done.stdout.decode(), done.stderr.decode()), 5, "READ FAULT")
    if not os.path.exists("/dev/full"):
        print("there is no /dev/full here: the full device is left out")
        return
    for what, words in (("accepted", ["check"]), ("usage", ["runs"])):
        with Copy() as c, open("/dev/full", "wb") as full:
            got = check(t, c.folder, words, out=full)
            t.expect("full device, %s" % what, got, 6, "")


def main():
    t = Cases(arguments("The built program on real files.").parse_args().netflow)
    for part in (examples, each_number, each_binding_capacity, each_two_supplies, tables, forged_lines, many_nodes, all_kinds, passes_the_range, outside):
        part(t)
    return t.end()


if __name__ == "__main__":
    sys.exit(main())
