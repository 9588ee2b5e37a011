#!/usr/bin/env python3
"""The faults of data: each kind at each place where it can come, and pairs of which the first is told.

    python3 tests/data_faults.py --netflow crates/netflow/out/netflow

Each case runs in a folder of its own. The expected lines are written by hand from docs/FORMATS.md. A refusal must be the
whole listing with status 4, and nothing may stand on standard error.
"""
import sys

sys.dont_write_bytecode = True
from cases import Cases, arguments, lines  # noqa: E402

ENDS = "_FROM_,_TO_"
COSTS = "_FROM_,_TO_,_NAME_,_COST_,_LO_,_CAPAC_"
GIVEN = "_FROM_,_TO_,_SUPPLY_,_DEMAND_"
NODES = "_NODE_,_SUPDEM_"
LONG = "x" * 33
# An arc between each two of 20 nodes: 400 rows.
SQUARE = "".join("/n%d,n%d" % (i, j) for i in range(20) for j in range(20))

# The options of PROC, the role statements, ARCDATA, NODEDATA or None, and what stands behind `DATA REFUSED `. `/` ends a
# line of data.
CASES = [
    # ---- tables, in their order: ARCDATA before NODEDATA, and all tables before all roles and data
    ("", "", "", None, "ARCDATA: NoHeader"),
    ("", "", ENDS + "/a/", None, "ARCDATA ROW 1: RowLength"),
    ("", "", ENDS + "/a,b/a,b,c/", None, "ARCDATA ROW 2: RowLength"),
    ("", "", ENDS + "/a,\udcff/", None, "ARCDATA ROW 1: NotText"),
    ("", "", "_FROM_,\udcff/a,b/", None, "ARCDATA ROW 0: NotText"),
    ("", "", "_FROM_,_TO_,_from_/a,b,c/", None, "ARCDATA: RepeatedColumn _from_"),
    ("", "", ENDS + "/a,b/", "", "NODEDATA: NoHeader"),
    ("", "", ENDS + "/a,b/", NODES + "/a/", "NODEDATA ROW 1: RowLength"),
    ("", "", ENDS + "/a,b/", NODES + "/a,1/b,\udcc3/", "NODEDATA ROW 2: NotText"),
    ("", "", ENDS + "/a,b/", "_NODE_,x,X/a,1,1/", "NODEDATA: RepeatedColumn X"),
    ("", "", ENDS + "/a/", "", "ARCDATA ROW 1: RowLength"),
    ("", "cost c;", "_TO_/a/", "", "NODEDATA: NoHeader"),
    ("", "", ENDS + "/,b/", NODES + "/a/", "NODEDATA ROW 1: RowLength"),
    # ---- roles of ARCDATA
    ("", "cost c;", ENDS + "/a,b/", None, "ARCDATA: NoColumn c"),
    ("", "lo q; cost p;", ENDS + "/a,b/", None, "ARCDATA: NoColumn q"),
    ("", "cost p; lo q;", ENDS + ",p/a,b,1/", None, "ARCDATA: NoColumn q"),
    ("", "tail 'my tail';", ENDS + "/a,b/", None, "ARCDATA: NoColumn my tail"),
    ("", "id x;", ENDS + "/a,b/", None, "ARCDATA: NoColumn x"),
    ("", "id x y;", ENDS + ",X/a,b,1/", None, "ARCDATA: NoColumn y"),
    ("", "cost C;", "_TO_/a/", None, "ARCDATA: NoColumn C"),
    ("", "cost c; lo C;", ENDS + ",c/a,b,1/", None, "ARCDATA: TwoRoles c"),
    ("", "cost Q; id q;", ENDS + ",qQ,Q/a,b,1,1/", None, "ARCDATA: TwoRoles Q"),
    ("", "id q q;", ENDS + ",q/a,b,1/", None, "ARCDATA: TwoRoles q"),
    ("", "", "_FROM_,_tail_,_TO_/a,a,b/", None, "ARCDATA: TwoRoles _tail_"),
    ("", "", "_HEAD_,_FROM_,_TO_/b,a,b/", None, "ARCDATA: TwoRoles _TO_"),
    ("", "", "_HEAD_,_TO_,_FROM_,_TAIL_/b,b,a,a/", None, "ARCDATA: TwoRoles _TO_"),
    ("", "id x x; cost y; lo y;", ENDS + ",y,x/a,b,1,1/", None, "ARCDATA: TwoRoles y"),
    ("", "cost x; lo x; name y;", ENDS + ",x/a,b,1/", None, "ARCDATA: NoColumn y"),
    ("", "cost x; lo x;", "_TO_,x/a,b/", None, "ARCDATA: TwoRoles x"),
    ("", "", "_TO_,_COST_/b,1/", None, "ARCDATA: MissingRole TAILNODE"),
    ("", "", "_TAIL_,_COST_/b,1/", None, "ARCDATA: MissingRole HEADNODE"),
    ("", "", "x,y/b,1/", None, "ARCDATA: MissingRole TAILNODE"),
    ("", "", " _FROM_,_TO_/a,b/", None, "ARCDATA: MissingRole TAILNODE"),
    # ---- roles of NODEDATA, behind those of ARCDATA and before its data
    ("", "node n;", ENDS + "/a,b/", NODES + "/a,1/", "NODEDATA: NoColumn n"),
    ("", "supdem s;", ENDS + "/a,b/", NODES + "/a,1/", "NODEDATA: NoColumn s"),
    ("", "supdem n; node n;", ENDS + "/a,b/", "N/a/", "NODEDATA: TwoRoles N"),
    ("", "", ENDS + "/a,b/", "_SUPDEM_/1/", "NODEDATA: MissingRole NODE"),
    ("", "", ENDS + "/a,b/", "_NODE_,x/a,1/", "NODEDATA: MissingRole SUPDEM"),
    ("", "", "_FROM_/a/", "_NODE_/a/", "ARCDATA: MissingRole HEADNODE"),
    ("", "cost c; node n;", ENDS + "/a,b/", "_NODE_/a/", "ARCDATA: NoColumn c"),
    ("", "", ENDS + "/,b/", "_NODE_/a/", "NODEDATA: MissingRole SUPDEM"),
    # ---- ARCDATA: tail and head
    ("", "", ENDS + "/,b/", None, "ARCDATA ROW 1 COLUMN _FROM_: BadName"),
    ("", "", ENDS + "/a,b/ . ,b/", None, "ARCDATA ROW 2 COLUMN _FROM_: BadName"),
    ("", "", ENDS + "/a+b,b/", None, "ARCDATA ROW 1 COLUMN _FROM_: BadName"),
    ("", "", "_to_,_tail_/b," + LONG + "/", None, "ARCDATA ROW 1 COLUMN _tail_: BadName"),
    ("", "tail 'T 1';", "t 1,_TO_/\xe4,b/", None, "ARCDATA ROW 1 COLUMN t 1: BadName"),
    ("", "", ENDS + "/ _EXCESS_ ,b/", None, "ARCDATA ROW 1 COLUMN _FROM_: ReservedName"),
    ("", "", ENDS + "/a,/", None, "ARCDATA ROW 1 COLUMN _TO_: BadName"),
    ("", "", "_FROM_,_HEAD_/a,b/a,_EXCESS_/", None, "ARCDATA ROW 2 COLUMN _HEAD_: ReservedName"),
    ("", "head h;", "_FROM_,_TO_,H/a,b,b;/", None, "ARCDATA ROW 1 COLUMN H: BadName"),
    # ---- ARCDATA: names
    ("", "", COSTS + "/a,b," + LONG + ",,,/", None, "ARCDATA ROW 1 COLUMN _NAME_: BadName"),
    ("", "name n;", ENDS + ",N/a,b,(/", None, "ARCDATA ROW 1 COLUMN N: BadName"),
    ("", "", ENDS + "/a,b/b,a/a,b/", None, "ARCDATA ROW 3 COLUMN _NAME_: RepeatedArc"),
    ("", "", COSTS + "/a,b,p,1,,/a,b, p ,2,,/", None, "ARCDATA ROW 2 COLUMN _NAME_: RepeatedArc"),
    ("", "", COSTS + "/a,b,.,,,/a,b,a_b,,,/", None, "ARCDATA ROW 2 COLUMN _NAME_: RepeatedArc"),
    ("", "name n;", ENDS + ",_NAME_,n/a,b,p,q/a,b,r,q/", None, "ARCDATA ROW 2 COLUMN n: RepeatedArc"),
    # ---- ARCDATA: an arc that repeats another, and other faults before it and behind it
    ("", "", COSTS + "/a,b,,,,/a,b,,,,/c,d,,x,,/", None, "ARCDATA ROW 2 COLUMN _NAME_: RepeatedArc"),
    ("", "", COSTS + "/a,b,,,,/c,d,,x,,/a,b,,,,/", None, "ARCDATA ROW 2 COLUMN _COST_: Amount"),
    ("", "", COSTS + "/a,b,,,,/c,d,,,,/a,b,,x,,/c,d,,,,/", None, "ARCDATA ROW 3 COLUMN _NAME_: RepeatedArc"),
    ("", "", COSTS + "/a,b,,,,/a,b,,,2,1/", None, "ARCDATA ROW 2 COLUMN _NAME_: RepeatedArc"),
    ("", "", COSTS + "/a,b,,,,/a,b,#,,,/", None, "ARCDATA ROW 2 COLUMN _NAME_: BadName"),
    ("", "", COSTS + "/a,b,,,,/a,b,,,,/a,b,#,,,/", None, "ARCDATA ROW 2 COLUMN _NAME_: RepeatedArc"),
    ("", "", ENDS + "/a,b/a,b/,c/", None, "ARCDATA ROW 2 COLUMN _NAME_: RepeatedArc"),
    ("", "", ENDS + "/a,b/c,/a,b/", None, "ARCDATA ROW 2 COLUMN _TO_: BadName"),
    ("", "", GIVEN + "/a,b,5,/c,d,,/a,b,6,/", None, "ARCDATA ROW 3 COLUMN _NAME_: RepeatedArc"),
    ("", "", GIVEN + "/a,b,5,/a,c,6,/a,b,,/", None, "ARCDATA ROW 2 COLUMN _SUPPLY_: TwoSupplies"),
    ("", "", COSTS + "/a,b,p,,,/a,b,q,,,/b,a,p,,,/a,b,,,,/a,b,q,,,/a,b,p,,,/", None, "ARCDATA ROW 5 COLUMN _NAME_: RepeatedArc"),
    ("", "", ENDS + SQUARE + "/n3,n7/n0,n0/", None, "ARCDATA ROW 401 COLUMN _NAME_: RepeatedArc"),
    ("", "", ENDS + SQUARE + "/n3,m/n0,n0/n3,m/", None, "ARCDATA ROW 402 COLUMN _NAME_: RepeatedArc"),
    # ---- ARCDATA: cost and bounds
    ("", "", COSTS + "/a,b,,x,,/", None, "ARCDATA ROW 1 COLUMN _COST_: Amount"),
    ("", "", COSTS + "/a,b,,1.2345,,/", None, "ARCDATA ROW 1 COLUMN _COST_: Amount"),
    ("", "", COSTS + "/a,b,,1234567890,,/", None, "ARCDATA ROW 1 COLUMN _COST_: Amount"),
    ("", "", COSTS + "/a,b,,INF,,/", None, "ARCDATA ROW 1 COLUMN _COST_: Amount"),
    ("", "", COSTS + "/a,b,,5.,,/", None, "ARCDATA ROW 1 COLUMN _COST_: Amount"),
    ("", "", COSTS + "/a,b,,+5,,/", None, "ARCDATA ROW 1 COLUMN _COST_: Amount"),
    ("", "", COSTS + "/a,b,,,- 1,/", None, "ARCDATA ROW 1 COLUMN _LO_: Amount"),
    ("", "lo l;", ENDS + ",L/a,b,inf/", None, "ARCDATA ROW 1 COLUMN L: Amount"),
    ("", "", COSTS + "/a,b,,,,infinite/", None, "ARCDATA ROW 1 COLUMN _CAPAC_: Amount"),
    ("", "", COSTS + "/a,b,,,,-INF/", None, "ARCDATA ROW 1 COLUMN _CAPAC_: Amount"),
    ("", "", COSTS + "/a,b,,,3,2.999/", None, "ARCDATA ROW 1 COLUMN _CAPAC_: CrossedBounds"),
    ("", "", COSTS + "/a,b,,,,-0.001/", None, "ARCDATA ROW 1 COLUMN _CAPAC_: CrossedBounds"),
    ("defminflow=4", "capac c;", ENDS + ",C/a,b,4/a,c,3/", None, "ARCDATA ROW 2 COLUMN C: CrossedBounds"),
    ("defcapacity=1", "", ENDS + ",_LO_/a,b,1/b,c,2/", None, "ARCDATA ROW 2 COLUMN _CAPAC_: CrossedBounds"),
    ("defcapacity=1 defminflow=2", "", ENDS + ",_LO_/a,b,1/b,c,./", None, "ARCDATA ROW 2 COLUMN _CAPAC_: CrossedBounds"),
    # ---- ARCDATA: what nodes are given
    ("", "", GIVEN + "/a,b,x,/", None, "ARCDATA ROW 1 COLUMN _SUPPLY_: Amount"),
    ("", "", GIVEN + "/a,b,.D,/", None, "ARCDATA ROW 1 COLUMN _SUPPLY_: Amount"),
    ("", "", GIVEN + "/a,b,.s,/", None, "ARCDATA ROW 1 COLUMN _SUPPLY_: Amount"),
    ("", "", GIVEN + "/a,b,INF,/", None, "ARCDATA ROW 1 COLUMN _SUPPLY_: Amount"),
    ("", "", GIVEN + "/a,b,,S/", None, "ARCDATA ROW 1 COLUMN _DEMAND_: Amount"),
    ("", "demand d;", ENDS + ",D/a,b,d/", None, "ARCDATA ROW 1 COLUMN D: Amount"),
    ("", "", GIVEN + "/a,b,5,/a,c,6,/", None, "ARCDATA ROW 2 COLUMN _SUPPLY_: TwoSupplies"),
    ("", "", GIVEN + "/a,b,5,/a,c,5.0,/a,d,.S,/", None, "ARCDATA ROW 3 COLUMN _SUPPLY_: TwoSupplies"),
    ("", "", GIVEN + "/a,b,,5/b,c,5,/", None, "ARCDATA ROW 2 COLUMN _SUPPLY_: TwoSupplies"),
    ("", "", GIVEN + "/a,a,5,5/", None, "ARCDATA ROW 1 COLUMN _DEMAND_: TwoSupplies"),
    ("", "", GIVEN + "/a,b,,5/c,b,,-5/", None, "ARCDATA ROW 2 COLUMN _DEMAND_: TwoSupplies"),
    ("", "", GIVEN + "/a,b,,D/c,b,,0/", None, "ARCDATA ROW 2 COLUMN _DEMAND_: TwoSupplies"),
    ("", "supply s;", ENDS + ",S/a,b,0/a,c,1/", None, "ARCDATA ROW 2 COLUMN S: TwoSupplies"),
    # ---- NODEDATA
    ("", "", ENDS + "/a,b/", NODES + "/,1/", "NODEDATA ROW 1 COLUMN _NODE_: BadName"),
    ("", "node n;", ENDS + "/a,b/", "_SUPDEM_,N/1,a*/", "NODEDATA ROW 1 COLUMN N: BadName"),
    ("", "", ENDS + "/a,b/", NODES + "/a,/_EXCESS_,1/", "NODEDATA ROW 2 COLUMN _NODE_: ReservedName"),
    ("", "", ENDS + "/a,b/", NODES + "/a,1/c,1/ a ,1/", "NODEDATA ROW 3 COLUMN _NODE_: RepeatedNode"),
    ("", "", ENDS + "/a,b/", NODES + "/c,/c,1/", "NODEDATA ROW 2 COLUMN _NODE_: RepeatedNode"),
    ("", "", ENDS + "/a,b/", NODES + "/a,1e3/", "NODEDATA ROW 1 COLUMN _SUPDEM_: Amount"),
    ("", "", ENDS + "/a,b/", NODES + "/a,.d/", "NODEDATA ROW 1 COLUMN _SUPDEM_: Amount"),
    ("", "supdem v;", ENDS + "/a,b/", "_NODE_,V/a,INF/", "NODEDATA ROW 1 COLUMN V: Amount"),
    ("", "", GIVEN + "/a,b,5,/", NODES + "/b,0/a,-5/", "NODEDATA ROW 2 COLUMN _SUPDEM_: TwoSupplies"),
    ("", "", GIVEN + "/a,b,,5/", NODES + "/b,5/", "NODEDATA ROW 1 COLUMN _SUPDEM_: TwoSupplies"),
    ("", "", GIVEN + "/a,b,.S,/", NODES + "/a,.D/", "NODEDATA ROW 1 COLUMN _SUPDEM_: TwoSupplies"),
    # ---- options
    ("source=c", "", ENDS + "/a,b/", None, "PROC ROW 0 COLUMN SOURCE: UnknownSource"),
    ("source=A", "", ENDS + "/a,b/", NODES + "/c,/", "PROC ROW 0 COLUMN SOURCE: UnknownSource"),
    ("source=_EXCESS_", "", ENDS + "/a,b/", NODES + "/a,5/", "PROC ROW 0 COLUMN SOURCE: UnknownSource"),
    ("source=a supply=4", "", ENDS + "/a,b/", NODES + "/a,5/", "PROC ROW 0 COLUMN SOURCE: TwoSupplies"),
    ("source=a supply=4", "", ENDS + "/a,b/", NODES + "/a,.S/", "PROC ROW 0 COLUMN SOURCE: TwoSupplies"),
    ("sink='c d'", "", ENDS + "/a,b/", None, "PROC ROW 0 COLUMN SINK: UnknownSource"),
    ("sink=b demand=5", "", ENDS + "/a,b/", NODES + "/b,5/", "PROC ROW 0 COLUMN SINK: TwoSupplies"),
    ("source=a supply=1 sink=a demand=1", "", ENDS + "/a,b/", None, "PROC ROW 0 COLUMN SINK: TwoSupplies"),
    ("source=c sink=d", "", ENDS + "/a,b/", None, "PROC ROW 0 COLUMN SOURCE: UnknownSource"),
    ("source=a supply=1 sink=d", "", ENDS + "/a,b/", NODES + "/a,2/", "PROC ROW 0 COLUMN SOURCE: TwoSupplies"),
    # ---- two faults, of which the first is told: within a row by column, else by row, set and option
    ("", "", ENDS + "/,/", None, "ARCDATA ROW 1 COLUMN _FROM_: BadName"),
    ("", "", "_TO_,_FROM_/,_EXCESS_/", None, "ARCDATA ROW 1 COLUMN _FROM_: ReservedName"),
    ("", "", COSTS + "/a,,#,,,/", None, "ARCDATA ROW 1 COLUMN _TO_: BadName"),
    ("", "", COSTS + "/a,b,#,x,,/", None, "ARCDATA ROW 1 COLUMN _NAME_: BadName"),
    ("", "", COSTS + "/a,b,,,,/a,b,,x,,/", None, "ARCDATA ROW 2 COLUMN _NAME_: RepeatedArc"),
    ("", "", COSTS + "/a,b,,x,x,/", None, "ARCDATA ROW 1 COLUMN _COST_: Amount"),
    ("", "", "_CAPAC_,_LO_," + ENDS + "/x,x,a,b/", None, "ARCDATA ROW 1 COLUMN _LO_: Amount"),
    ("", "", GIVEN + ",_CAPAC_/a,b,x,,-1/", None, "ARCDATA ROW 1 COLUMN _CAPAC_: CrossedBounds"),
    ("", "", "_DEMAND_,_SUPPLY_," + ENDS + "/x,x,a,b/", None, "ARCDATA ROW 1 COLUMN _SUPPLY_: Amount"),
    ("", "", GIVEN + "/a,b,,x/,b,,/", None, "ARCDATA ROW 1 COLUMN _DEMAND_: Amount"),
    ("", "", COSTS + "/a,b,,,,-1/c,d,,x,,/", None, "ARCDATA ROW 1 COLUMN _CAPAC_: CrossedBounds"),
    ("", "", ENDS + "/a,b/a,b/", NODES + "/,x/", "ARCDATA ROW 2 COLUMN _NAME_: RepeatedArc"),
    ("source=q", "", ENDS + "/a,/", None, "ARCDATA ROW 1 COLUMN _TO_: BadName"),
    ("", "", ENDS + "/a,b/", NODES + "/,x/", "NODEDATA ROW 1 COLUMN _NODE_: BadName"),
    ("", "", ENDS + "/a,b/", NODES + "/a,1/a,x/", "NODEDATA ROW 2 COLUMN _NODE_: RepeatedNode"),
    ("", "", ENDS + "/a,b/", NODES + "/a,x/,1/", "NODEDATA ROW 1 COLUMN _SUPDEM_: Amount"),
    ("sink=q", "", ENDS + "/a,b/", NODES + "/a,x/", "NODEDATA ROW 1 COLUMN _SUPDEM_: Amount"),
]


def path(first, count):
    """ARCDATA of a path over so many nodes."""
    return ENDS + "/" + "".join("n%d,n%d/" % (i, i + 1) for i in range(first, first + count - 1))


# The limits, on data that is made: 20,000 nodes and 200,000 arcs.
LIMITS = [
    ("", "", path(1, 20000) + "n20001,n1/", None, "ARCDATA ROW 20000 COLUMN _FROM_: LimitPassed"),
    ("", "", path(1, 20001), None, "ARCDATA ROW 20000 COLUMN _TO_: LimitPassed"),
    ("", "", path(1, 20000), NODES + "/n7,0/more,x/", "NODEDATA ROW 2 COLUMN _NODE_: LimitPassed"),
    ("", "", ENDS + "/" + "".join("a%d,b%d/" % (i // 500, i % 500) for i in range(200001)), None, "ARCDATA ROW 200001 COLUMN _FROM_: LimitPassed"),
    ("", "", ENDS + "/" + "".join("a%d,b%d/" % (i // 500, i % 500) for i in range(200000)) + ",/", None, "ARCDATA ROW 200001 COLUMN _FROM_: LimitPassed"),
    ("sink=n1002", "", path(1, 1001), None, "PROC ROW 0 COLUMN SINK: UnknownSource"),
]

# without supplies and costs the first state has ended: no column wants to enter
NONE = "OPTIMAL\nTOTAL COST 0\nSTAGE 1 PIVOTS 0\nSTAGE 2 PIVOTS 0\n"

# What is no fault, with the whole listing of `run`.
ACCEPTED = [
    ("", "tail _TAIL_;", "_FROM_,_TAIL_,_TO_/,a,b/", None, NONE),
    ("", "tail _TO_;", ENDS + "/,b/", None, NONE),
    ("", "", "_from_,_Head_,x/a,b,?/", None, NONE),
    ("source=a", "", ENDS + "/a,b/", None, NONE),
    # without CONDATA there is no limit of rows: 1,001 nodes, 1,000 nodes and the excess node
    ("", "", path(1, 1001), None, NONE),
    ("", "", path(1, 1000), NODES + "/n1,1/", "OPTIMAL\nTOTAL COST 0\nSTAGE 1 PIVOTS 1\nSTAGE 2 PIVOTS 0\n"),
    ("", "", path(1, 1000), NODES + "/n1,.S/", NONE),
    ("source=a supply=5 sink=b demand=5.0", "", ENDS + ",_COST_/a,b,2/", NODES + "/a,5.000/b,-5/", "OPTIMAL\nTOTAL COST 10\nSTAGE 1 PIVOTS 1\nSTAGE 2 PIVOTS 0\n"),
]


def listing(t, command, options, roles, arcs, nodes, cert):
    """Status, listing and standard error of the built program on these data sets."""
    sets = {name: lines(data, "/") for name, data in (("arcs", arcs), ("nodes", nodes), ("k", cert)) if data is not None}
    given = "".join(" %s=%s" % (option, name) for option, name in (("nodedata", "nodes"), ("certdata", "k")) if name in sets)
    program = "proc netflow arcdata=arcs%s %s; %s %s" % (given, options, roles, "run;" if command == "run" else "")
    return t.run_on(sets, [command], program.encode())


def main():
    t = Cases(arguments("The faults of data.").parse_args().netflow)

    def expect(case, command, cert, status, wanted):
        t.expect("%s %r" % (command, [str(c)[:80] for c in case[:4]]), listing(t, command, *case[:4], cert), status, wanted)

    for case in CASES + LIMITS:
        expect(case, "run", None, 4, "DATA REFUSED " + case[4])
    # for a check the same, where CERTDATA is a table; the fault of that table comes behind those of the others, and before
    # all roles and data
    for case in CASES:
        expect(case, "check", "_ITEM_", 4, "DATA REFUSED " + case[4])
        of_table = any(word in case[4] for word in ("NoHeader", "RowLength", "NotText", "RepeatedColumn"))
        expect(case, "check", "", 4, "DATA REFUSED " + (case[4] if of_table else "CERTDATA: NoHeader"))
    for case in ACCEPTED:
        expect(case, "run", None, 0, case[4])
    return t.end()


if __name__ == "__main__":
    sys.exit(main())
