#!/usr/bin/env python3
"""The built program on CONDATA sets, dense and sparse: the first fault of each, and what a set without a fault gives.

    python3 tests/condata_faults.py --netflow crates/netflow/out/netflow

Each case runs `netflow run`, and `netflow check` where there is a fault, in a folder of its own. What is expected is typed
by hand from the order of checks in the documents; no expected value comes from the program. A refusal must be the whole
listing. Behind them, worked problems whose listings are known stand as lines of sparse CONDATA.
"""
import sys

sys.dont_write_bytecode = True
from cases import Cases, arguments, lines  # noqa: E402

DENSE = "proc netflow arcdata=arcs condata=cons;"
SPARSE = "proc netflow arcdata=arcs condata=cons sparsecondata;"
ARCS = "_FROM_,_TO_|a,b|b,a"
# two arcs of one name, and one whose name has 65 bytes
LONG = "n" * 32
SHARED = "_FROM_,_TO_|a_b,c|a,b_c|%s,%s" % (LONG, LONG)
LONG_NAME = LONG + "_" + LONG


def refused(row, column, kind):
    return (4, "DATA REFUSED CONDATA ROW %d COLUMN %s: %s" % (row, column, kind))


def many(count, text):
    return "|".join(text % {"n": n} for n in range(1, count + 1))


def path(nodes):
    """ARCDATA of a path over so many nodes."""
    return "_FROM_,_TO_|" + "|".join("n%d,n%d" % (n, n + 1) for n in range(1, nodes))


# more than 1,000 rows in all
TOO_LARGE = (4, "DATA REFUSED PROC ROW 0 COLUMN ROWS: LimitPassed")

# name, program, ARCDATA, CONDATA, status and listing; `|` ends a line of data
CASES = [
    # the header of dense data, from the left
    ("an empty header cell", DENSE, ARCS, "a_b,,_RHS_|1,1,1", refused(0, "", "BadName")),
    ("a point as a header cell", DENSE, ARCS, "a_b,.,_RHS_|1,1,1", refused(0, ".", "BadName")),
    ("a header cell that is no name", DENSE, ARCS, "a*b|1", refused(0, "a*b", "BadName")),
    ("a header cell of 33 bytes", DENSE, ARCS, "z" * 33 + "|1", refused(0, "z" * 33, "BadName")),
    ("the excess node as a variable", DENSE, ARCS, "_EXCESS_|1", refused(0, "_EXCESS_", "ReservedName")),
    ("a header cell is told as it stands", DENSE, ARCS, " _EXCESS_ |1", refused(0, " _EXCESS_ ", "ReservedName")),
    ("a name of two arcs", DENSE, SHARED, "a_b_c,_RHS_|1,1", refused(0, "a_b_c", "AmbiguousName")),
    ("two columns of one name", DENSE, ARCS, "z, z|1,1", refused(0, " z", "AmbiguousName")),
    ("two columns of one arc", DENSE, ARCS, "a_b, a_b|1,1", refused(0, " a_b", "AmbiguousName")),
    ("the first column with a fault", DENSE, ARCS, "a*,_EXCESS_|1,1", refused(0, "a*", "BadName")),
    ("the header before the rows", DENSE, ARCS, "_EXCESS_,_RHS_|x,y", refused(0, "_EXCESS_", "ReservedName")),
    ("the header is checked without rows", DENSE, ARCS, "a*,_RHS_", refused(0, "a*", "BadName")),
    ("VAR names the variables", DENSE + " var z;", ARCS, "z,a*|x,y", refused(1, "z", "Amount")),
    ("a column of a role is no variable", DENSE + " row 'a*';", ARCS, "z,a*|x,r", refused(1, "z", "Amount")),
    ("5,001 nonarc variables", DENSE, ARCS, ",".join("z%d" % n for n in range(5001)), refused(0, "z5000", "LimitPassed")),
    # dense rows: ROW
    ("a row's name that is none", DENSE, ARCS, "_ROW_,z|r*,x", refused(1, "_ROW_", "BadName")),
    ("a row's name twice", DENSE, ARCS, "_ROW_,z|r,1|r,x", refused(2, "_ROW_", "RepeatedRow")),
    ("a row's name twice, one of data", DENSE, ARCS, "_ROW_,_TYPE_,z|r,cost,1|r,,1", refused(2, "_ROW_", "RepeatedRow")),
    ("the name of a nameless row", DENSE, ARCS, "_ROW_,z|_OBS2_,1|,1", refused(2, "_ROW_", "RepeatedRow")),
    ("names are compared by case", DENSE, ARCS, "_ROW_,z|r,1|R,x", refused(2, "z", "Amount")),
    ("ROW before TYPE", DENSE, ARCS, "_ROW_,_TYPE_,z|r*,XX,x", refused(1, "_ROW_", "BadName")),
    ("ROW by its statement", DENSE + " row name;", ARCS, "name,z|r,1|r,1", refused(2, "name", "RepeatedRow")),
    # TYPE, the number of constraints, RHS
    ("an unknown type", DENSE, ARCS, "_TYPE_,z|LEQ,x", refused(1, "_TYPE_", "UnknownKind")),
    ("types in any case and spelling", DENSE, ARCS, "_TYPE_,z|le,1|<,2|>=,-1|=,x", refused(4, "z", "Amount")),
    ("TYPE before RHS", DENSE, ARCS, "_TYPE_,_RHS_,z|LEQ,x,1", refused(1, "_TYPE_", "UnknownKind")),
    ("constraint 501", DENSE, ARCS, "_RHS_,z|" + many(500, "%(n)d,1") + "|x,x", refused(501, "_ROW_", "LimitPassed")),
    ("data rows are no constraints", DENSE, ARCS, "_TYPE_,_RHS_,z|" + many(500, "LE,%(n)d,1") + "|cost,x,1", refused(501, "_RHS_", "Amount")),
    ("a right side that is no amount", DENSE, ARCS, "_RHS_,z|INF,x", refused(1, "_RHS_", "Amount")),
    ("the right side of a data row", DENSE, ARCS, "_TYPE_,_RHS_,z|cost,1e5,1", refused(1, "_RHS_", "Amount")),
    ("RHS by its statement", DENSE + " rhs limit;", ARCS, "limit,z|x,1", refused(1, "limit", "Amount")),
    # cells of variables, from the left
    ("a cell that is no amount", DENSE, ARCS, "a_b,z|1,1.2345", refused(1, "z", "Amount")),
    ("INF in a constraint", DENSE, ARCS, "z|INF", refused(1, "z", "Amount")),
    ("INF as a cost", DENSE, ARCS, "_TYPE_,z|cost,INF", refused(1, "z", "Amount")),
    ("INF as a lower bound", DENSE, ARCS, "_TYPE_,z|lowerbd,inf", refused(1, "z", "Amount")),
    ("-INF in a constraint", DENSE, ARCS, "z|-INF", refused(1, "z", "Amount")),
    ("-INF as a cost", DENSE, ARCS, "_TYPE_,z|cost,-INF", refused(1, "z", "Amount")),
    ("-INF as an upper bound", DENSE, ARCS, "_TYPE_,z|upperbd,-inf", refused(1, "z", "Amount")),
    ("-INF as a right side", DENSE, ARCS, "_TYPE_,_RHS_,z|lowerbd,-INF,x", refused(1, "_RHS_", "Amount")),
    ("-INF with a space inside", DENSE, ARCS, "_TYPE_,z|lowerbd,- INF", refused(1, "z", "Amount")),
    ("+INF as an upper bound", DENSE, ARCS, "_TYPE_,z|upperbd,+INF", refused(1, "z", "Amount")),
    ("-INF for an arc", DENSE, ARCS, "_TYPE_,a_b|lowerbd,-INF", refused(1, "a_b", "ArcHere")),
    ("-INF for an arc in another row, as an amount first", DENSE, ARCS, "_TYPE_,a_b|upperbd,-INF", refused(1, "a_b", "Amount")),
    ("-INF and then a lower bound", DENSE, ARCS, "_TYPE_,z|lo,-INF|lowerbd,1", refused(2, "z", "RepeatedCoefficient")),
    ("-INF twice", DENSE, ARCS, "_TYPE_,y,z|lo,1,-INF|lo,.,-INF", refused(2, "z", "RepeatedCoefficient")),
    ("INF for an arc, as an amount first", DENSE, ARCS, "_TYPE_,a_b|cost,INF", refused(1, "a_b", "Amount")),
    ("a cost of an arc", DENSE, ARCS, "_TYPE_,z,a_b|COST,1,1", refused(1, "a_b", "ArcHere")),
    ("a bound of an arc", DENSE, ARCS, "_TYPE_,a_b|upperbd,INF", refused(1, "a_b", "ArcHere")),
    ("a missing cell of an arc in a data row", DENSE, ARCS, "_TYPE_,a_b,z|cost,.,x", refused(1, "z", "Amount")),
    ("a cost twice", DENSE, ARCS, "_TYPE_,z|cost,1|COST,1", refused(2, "z", "RepeatedCoefficient")),
    ("a bound twice", DENSE, ARCS, "_TYPE_,z|LO,1|lowerbd,0", refused(2, "z", "RepeatedCoefficient")),
    ("a cost and a bound", DENSE, ARCS, "_TYPE_,z|cost,1|lo,1|capac,x", refused(3, "z", "Amount")),
    ("the first cell from the left", DENSE, ARCS, "z,a_b|x,y", refused(1, "z", "Amount")),
    # bounds of nonarc variables
    ("crossed bounds, at the last row that gave one", DENSE, ARCS, "_TYPE_,y,z|upperbd,1,1|lowerbd,0,2|cost,1,1", refused(2, "z", "CrossedBounds")),
    ("crossed bounds by a default", DENSE[:-1] + " defminflow=3;", ARCS, "_TYPE_,z|cost,1|upperbd,2", refused(2, "z", "CrossedBounds")),
    ("crossed bounds by defaults alone", DENSE[:-1] + " defminflow=3 defcapacity=3;", ARCS.replace("_TO_|a,b|b,a", "_TO_"), "z|1", (0, None)),
    ("crossed bounds where no row gives one", DENSE[:-1] + " defminflow=3 defcapacity=2;", "_FROM_,_TO_", "z|1", refused(0, "z", "CrossedBounds")),
    ("crossed bounds, by number", DENSE, ARCS, "_TYPE_,y,z|upperbd,-1,-1", refused(1, "y", "CrossedBounds")),
    ("crossed bounds of another variable than the one without a lower bound", DENSE, ARCS, "_TYPE_,y,z|lowerbd,-INF,2|upperbd,-7,1", refused(2, "z", "CrossedBounds")),
    # the first round of sparse data
    ("a line without ROW", SPARSE, ARCS, "_ROW_,_COLUMN_,_COEF_|,z,1", refused(1, "_ROW_", "BadName")),
    ("a line with a bad ROW", SPARSE, ARCS, "_ROW_,_COLUMN_,_COEF_|r*,z,1", refused(1, "_ROW_", "BadName")),
    ("an unknown type of a line", SPARSE, ARCS, "_ROW_,_COLUMN_,_COEF_,_TYPE_|r,a*,1,LEQ", refused(1, "_TYPE_", "UnknownKind")),
    ("two types", SPARSE, ARCS, "_ROW_,_COLUMN_,_COEF_,_TYPE_|r,z,1,LE|s,z,1,GE|r,y,1,GE", refused(3, "_TYPE_", "TwoKinds")),
    ("one type in two spellings", SPARSE, ARCS, "_ROW_,_COLUMN_,_COEF_,_TYPE_|r,z,1,LE|r,y,x,<=", refused(2, "_COEF_", "Amount")),
    ("a variable that is no name", SPARSE, ARCS, "_ROW_,_COLUMN_,_COEF_|r,z*,x", refused(1, "_COLUMN_", "BadName")),
    ("the excess node in COLUMN", SPARSE, ARCS, "_ROW_,_COLUMN_,_COEF_|r,_EXCESS_,x", refused(1, "_COLUMN_", "ReservedName")),
    ("a name of two arcs in COLUMN", SPARSE, SHARED, "_ROW_,_COLUMN_,_COEF_|r,a_b_c,x", refused(1, "_COLUMN_", "AmbiguousName")),
    ("the name of an arc with 65 bytes", SPARSE, SHARED, "_ROW_,_COLUMN_,_COEF_|r,%s,x" % LONG_NAME, refused(1, "_COEF_", "Amount")),
    ("names of variables are compared by case", SPARSE, ARCS, "_ROW_,_COLUMN_,_COEF_,_TYPE_|r,A_B,1,cost|r,a_b,1,cost", refused(2, "_COLUMN_", "ArcHere")),
    ("5,001 nonarc variables of lines", SPARSE, ARCS, "_ROW_,_COLUMN_,_COEF_|" + many(5001, "r,z%(n)d,1"), refused(5001, "_COLUMN_", "LimitPassed")),
    ("COLUMN before COEF", SPARSE, ARCS, "_ROW_,_COLUMN_,_COEF_|r,z*,x", refused(1, "_COLUMN_", "BadName")),
    ("a coefficient that is no amount", SPARSE, ARCS, "_ROW_,_COLUMN_,_COEF_|r,z,--INF", refused(1, "_COEF_", "Amount")),
    ("a coefficient without COLUMN is checked", SPARSE, ARCS, "_ROW_,_COLUMN_,_COEF_|r,,x", refused(1, "_COEF_", "Amount")),
    ("a coefficient twice", SPARSE, ARCS, "_ROW_,_COLUMN_,_COEF_|r,a_b,0|r,a_b,1", refused(2, "_COLUMN_", "RepeatedCoefficient")),
    ("a coefficient twice in data of one constraint", SPARSE, ARCS, "_ROW_,_COLUMN_,_COEF_,_TYPE_|c,z,1,cost|c,z,1,", refused(2, "_COLUMN_", "RepeatedCoefficient")),
    ("a missing coefficient is none", SPARSE, ARCS, "_ROW_,_COLUMN_,_COEF_|r,z,.|r,z,1|r,z,x", refused(3, "_COEF_", "Amount")),
    ("a right side that is no amount, of a line", SPARSE, ARCS, "_ROW_,_COLUMN_,_COEF_,_RHS_|r,z,1,x", refused(1, "_RHS_", "Amount")),
    ("two right sides", SPARSE, ARCS, "_ROW_,_COLUMN_,_COEF_,_RHS_|r,z,1,4|r,y,1,5", refused(2, "_RHS_", "TwoRightSides")),
    ("one right side twice", SPARSE, ARCS, "_ROW_,_COLUMN_,_COEF_,_RHS_|r,z,1,4|r,y,1,4.00|r,x,1,x", refused(3, "_RHS_", "Amount")),
    ("`_RHS_` in COLUMN with INF", SPARSE, ARCS, "_ROW_,_COLUMN_,_COEF_|r,_RHS_,INF", refused(1, "_COEF_", "Amount")),
    ("`_RHS_` in COLUMN with -INF", SPARSE, ARCS, "_ROW_,_COLUMN_,_COEF_|r,_RHS_,-INF", refused(1, "_COEF_", "Amount")),
    ("`_RHS_` in COLUMN with -INF, in a row of lower bounds and in the first round", SPARSE, ARCS, "_ROW_,_COLUMN_,_COEF_,_TYPE_|l,_RHS_,-inf,lowerbd|s,y*,1,", refused(1, "_COEF_", "Amount")),
    ("a right side that is -INF", SPARSE, ARCS, "_ROW_,_COLUMN_,_COEF_,_TYPE_,_RHS_|l,z,-INF,lowerbd,-INF", refused(1, "_RHS_", "Amount")),
    ("`_RHS_` in COLUMN gives another right side", SPARSE, ARCS, "_ROW_,_COLUMN_,_COEF_,_RHS_|r,z,1,4|r,_RHS_,5,4", refused(2, "_COEF_", "TwoRightSides")),
    ("`_RHS_` in COLUMN counts before RHS", SPARSE, ARCS, "_ROW_,_COLUMN_,_COEF_,_RHS_|r,_RHS_,5,4", refused(1, "_RHS_", "TwoRightSides")),
    ("`_rhs_` is a variable", SPARSE, ARCS, "_ROW_,_COLUMN_,_COEF_|r,_rhs_,1|r,_rhs_,1", refused(2, "_COLUMN_", "RepeatedCoefficient")),
    ("columns by their statements", SPARSE + " row r; column v; coef c;", ARCS, "c,v,r|x,z,k", refused(1, "c", "Amount")),
    # the second round
    ("INF in a constraint, when types are known", SPARSE, ARCS, "_ROW_,_COLUMN_,_COEF_,_TYPE_|r,z,INF,|s,y,1,cost|s,y*,1,", refused(3, "_COLUMN_", "BadName")),
    ("INF in a line of no bound", SPARSE, ARCS, "_ROW_,_COLUMN_,_COEF_,_TYPE_|r,z,INF,|r,y,1,LE", refused(1, "_COEF_", "Amount")),
    ("INF without COLUMN", SPARSE, ARCS, "_ROW_,_COLUMN_,_COEF_|r,,INF", refused(1, "_COEF_", "Amount")),
    ("INF as an upper bound that a later line tells", SPARSE, ARCS, "_ROW_,_COLUMN_,_COEF_,_TYPE_|u,z,INF,|u,a_b,1,capac", refused(2, "_COLUMN_", "ArcHere")),
    ("-INF in a constraint, when types are known", SPARSE, ARCS, "_ROW_,_COLUMN_,_COEF_,_TYPE_|r,z,-INF,|s,y,1,cost|s,y*,1,", refused(3, "_COLUMN_", "BadName")),
    ("-INF in a line of no bound", SPARSE, ARCS, "_ROW_,_COLUMN_,_COEF_,_TYPE_|r,z,-INF,|r,y,1,LE", refused(1, "_COEF_", "Amount")),
    ("-INF as a cost in a line", SPARSE, ARCS, "_ROW_,_COLUMN_,_COEF_,_TYPE_|c,z,-INF,cost", refused(1, "_COEF_", "Amount")),
    ("-INF as an upper bound that a later line tells", SPARSE, ARCS, "_ROW_,_COLUMN_,_COEF_,_TYPE_|u,z,-INF,|u,y,1,capac", refused(1, "_COEF_", "Amount")),
    ("INF as a lower bound of a line", SPARSE, ARCS, "_ROW_,_COLUMN_,_COEF_,_TYPE_|l,z,INF,lo", refused(1, "_COEF_", "Amount")),
    ("-INF without COLUMN", SPARSE, ARCS, "_ROW_,_COLUMN_,_COEF_|r,,-INF", refused(1, "_COEF_", "Amount")),
    ("-INF without COLUMN in a row of lower bounds", SPARSE, ARCS, "_ROW_,_COLUMN_,_COEF_,_TYPE_|l,,-INF,lowerbd|c,a_b,1,cost", refused(2, "_COLUMN_", "ArcHere")),
    ("INF without COLUMN in a row of lower bounds", SPARSE, ARCS, "_ROW_,_COLUMN_,_COEF_,_TYPE_|l,,INF,lowerbd", refused(1, "_COEF_", "Amount")),
    ("-INF as a lower bound that a later line tells", SPARSE, ARCS, "_ROW_,_COLUMN_,_COEF_,_TYPE_|l,z,-inf,|l,a_b,1,lo", refused(2, "_COLUMN_", "ArcHere")),
    ("-INF of an arc", SPARSE, ARCS, "_ROW_,_COLUMN_,_COEF_,_TYPE_|l,a_b,-INF,lowerbd", refused(1, "_COLUMN_", "ArcHere")),
    ("-INF twice in one constraint", SPARSE, ARCS, "_ROW_,_COLUMN_,_COEF_,_TYPE_|l,z,-INF,lowerbd|l,z,-INF,", refused(2, "_COLUMN_", "RepeatedCoefficient")),
    ("-INF in two constraints", SPARSE, ARCS, "_ROW_,_COLUMN_,_COEF_,_TYPE_|l,z,-INF,lowerbd|m,z,0,lowerbd", refused(2, "_COLUMN_", "RepeatedCoefficient")),
    ("a cost of an arc in a line", SPARSE, ARCS, "_ROW_,_COLUMN_,_COEF_,_TYPE_|c,z,1,cost|c,a_b,1,", refused(2, "_COLUMN_", "ArcHere")),
    ("a cost in two constraints", SPARSE, ARCS, "_ROW_,_COLUMN_,_COEF_,_TYPE_|c,z,1,cost|d,z,1,COST", refused(2, "_COLUMN_", "RepeatedCoefficient")),
    ("the first round before the second", SPARSE, ARCS, "_ROW_,_COLUMN_,_COEF_,_TYPE_|c,a_b,1,cost|c,z,x,", refused(2, "_COEF_", "Amount")),
    ("constraint 501 of lines", SPARSE, ARCS, "_ROW_,_COLUMN_,_COEF_|" + many(501, "r%(n)d,z,1"), refused(501, "_ROW_", "LimitPassed")),
    ("data is no constraint of lines", SPARSE, ARCS, "_ROW_,_COLUMN_,_COEF_,_TYPE_|" + many(500, "r%(n)d,z,1,") + "|c,a_b,1,cost", refused(501, "_COLUMN_", "ArcHere")),
    ("crossed bounds, at COLUMN of the last line", SPARSE, ARCS, "_ROW_,_COLUMN_,_COEF_,_TYPE_|u,z,1,upperbd|l,z,2,lowerbd|c,z,1,cost", refused(2, "_COLUMN_", "CrossedBounds")),
    ("crossed bounds, at the first line that names it", SPARSE[:-1] + " defminflow=3 defcapacity=2;", "_FROM_,_TO_", "_ROW_,_COLUMN_,_COEF_|r,y,.|r,y,1", refused(1, "_COLUMN_", "CrossedBounds")),
    # the size of a problem with CONDATA, after all data
    ("1,000 nodes and a constraint", DENSE, path(1000), "z,_RHS_|1,1", TOO_LARGE),
    ("1,001 nodes and no constraint", DENSE, path(1001), "z", TOO_LARGE),
    ("1,000 nodes and a constraint of lines", SPARSE, path(1000), "_ROW_,_COLUMN_,_COEF_,_RHS_|r,z,1,1", TOO_LARGE),
    ("data before the size", DENSE, path(1001), "z|x", refused(1, "z", "Amount")),
    # no fault
    ("999 nodes and a constraint", DENSE, path(999), "z,_RHS_|1,1", (0, None)),
    ("1,000 nodes and no constraint", DENSE, path(1000), "z", (0, None)),
    ("a missing cell is no coefficient", DENSE, ARCS, "a_b,_TYPE_,_RHS_|.,LE,7", (0, None)),
    ("reserved columns of sparse data are none of dense data", DENSE, ARCS, "z,_COEF_,_COLUMN_|1,x,y", (0, None)),
    ("no lower bound, below any upper bound", DENSE, ARCS, "_TYPE_,z|lowerbd,-INF|upperbd,-5", (0, None)),
    ("no lower bound, in any case, for the default", DENSE[:-1] + " defminflow=3;", ARCS, "_TYPE_,z|lowerbd, -Inf |upperbd,2", (0, None)),
    ("no lower bound, in lines", SPARSE[:-1] + " defminflow=3 defcapacity=2;", "_FROM_,_TO_", "_ROW_,_COLUMN_,_COEF_,_TYPE_|l,z,-iNF,|l,z,.,lowerbd", (0, None)),
    ("bounds that meet", DENSE, ARCS, "_TYPE_,z|upperbd,2|lowerbd,2", (0, None)),
    ("a table without rows", SPARSE, ARCS, "_ROW_,_COLUMN_,_COEF_", (0, None)),
]


PAIR = "_FROM_,_TO_,_NAME_,_COST_|a,b,p,1|a,b,q,3"
PAIR_NODES = "_NODE_,_SUPDEM_|a,5|b,-5|"
NODES = " nodedata=nodes;"
ROLES = " tailnode from; headnode to; cost cost; capacity capac; lo lo;"
OIL = "from,to,cost,capac,lo|middle east,refinery 1,63.5,95,20|refinery 1,gas,200,.,."
OIL_NODES = "_NODE_,_SUPDEM_|middle east,100|gas,-30|"
HEADER = "_ROW_,_COLUMN_,_COEF_,_TYPE_,_RHS_|"
# names on both sides of the most bytes that are kept without memory of their own
A24, B32, P25 = "a" * 24, "b" * 32, "p" * 25

# worked problems of the rules, line by line: name, words behind PROC, ARCDATA, NODEDATA, lines of CONDATA, cost and pivots
SOLVED = [
    ("a constraint of the default type", ";", "_FROM_,_TO_,_COST_|a,b,-1|b,a,0", None, "r,a_b,1,,4", ("-4", 1, 1)),
    ("a constraint of a line", NODES, PAIR, PAIR_NODES, "r,p,3,LE,7", ("31/3", 1, 1)),
    ("a right side in COLUMN, before its constraint has a type", NODES, PAIR, PAIR_NODES, "r,_RHS_,7,,|r,p,3,<=,", ("31/3", 1, 1)),
    ("a constraint that nothing has to meet", NODES + ROLES, OIL, OIL_NODES, "r,middle east_refinery 1,1,>=,25", ("7905", 3, 0)),
    ("names of 24, 25 and 32 bytes", NODES, "_FROM_,_TO_,_NAME_,_COST_|%s,%s,%s,1|%s,%s,q,3" % (A24, B32, P25, A24, B32), "_NODE_,_SUPDEM_|%s,5|%s,-5|" % (A24, B32), "r,%s,3,LE,7" % P25, ("31/3", 1, 1)),
    ("a nonarc variable without a lower bound", NODES, "_FROM_,_TO_,_COST_,_CAPAC_|a,b,2,10", PAIR_NODES, "r,a_b,1,EQ,8|r,z,-1,,|l,z,-INF,LOWERBD,|c,z,1,COST,", ("7", 1, 1)),
    ("a nonarc variable with a cost", NODES, PAIR, PAIR_NODES, "r,p,3,LE,7|c,z,0.1,COST,|r,z,-1,,", ("29/5", 1, 2)),
]


def main():
    t = Cases(arguments("The faults of CONDATA.").parse_args().netflow)
    for name, program, arcs, cons, (status, listing) in CASES:
        sets = {"arcs": lines(arcs + "|", "|"), "cons": lines(cons + "|", "|"), "k": b"_ITEM_\n"}
        got = t.run_on(sets, ["run"], (program + " run;").encode())
        if listing is None:
            t.count(got[0] == status and got[2] == "", name, got, "status %d" % status)
            continue
        t.expect(name, got, status, listing)
        # for a check the same, before the certificate is looked at
        t.expect("check of " + name, t.run_on(sets, ["check"], program.replace("condata=", "certdata=k condata=").encode()), status, listing)
    for name, words, arcs, nodes, cons, (cost, first, second) in SOLVED:
        sets = {"arcs": lines(arcs + "|", "|"), "nodes": lines(nodes, "|"), "cons": lines(HEADER + cons + "|", "|")}
        listing = "OPTIMAL|TOTAL COST %s|STAGE 1 PIVOTS %d|STAGE 2 PIVOTS %d|" % (cost, first, second)
        t.expect(name, t.run_on(sets, ["run"], (SPARSE[:-1] + words + " run;").encode()), 0, listing.replace("|", "\n"))
    return t.end()


if __name__ == "__main__":
    sys.exit(main())
