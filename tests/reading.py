"""What `netflow check` must answer, computed from the bytes of the files by docs/FORMATS.md: status and listing.

Nothing here is shared with the program.
"""
import re
from fractions import Fraction
from math import gcd

from cases import DIRECTORY, USAGE

MOST = 2 ** 127 - 1


class Answer(Exception):
    def __init__(self, status, line):
        self.status, self.line = status, line


def records(data):
    """The records of CSV text: a record ends with a line feed, a carriage return, both, or the text."""
    data = data[3:] if data.startswith(b"\xef\xbb\xbf") else data
    out, at, size = [], 0, len(data)
    while at < size:
        if data[at] in b"\r\n":
            at += 1
            continue
        cells, done = [], False
        while not done:
            cell = bytearray()
            if at < size and data[at] == 34:
                at += 1
                while at < size:
                    if data[at] != 34:
                        cell.append(data[at])
                    elif at + 1 < size and data[at + 1] == 34:
                        cell.append(34)
                        at += 1
                    else:
                        at += 1
                        break
                    at += 1
            while at < size and data[at] not in b",\r\n":
                cell.append(data[at])
                at += 1
            cells.append(bytes(cell))
            if at < size and data[at] == 44:
                at += 1
            else:
                done = True
                at += 1
        out.append(cells)
    return out


def is_utf8(cell):
    try:
        cell.decode("utf-8")
        return True
    except UnicodeDecodeError:
        return False


def read_table(data, name):
    if len(data) > 67108864:
        raise Answer(4, "DATA REFUSED %s: TooLong" % name)
    rows = records(data)
    if not rows:
        raise Answer(4, "DATA REFUSED %s: NoHeader" % name)
    for n, row in enumerate(rows):
        if len(row) != len(rows[0]):
            raise Answer(4, "DATA REFUSED %s ROW %d: RowLength" % (name, n))
        if not all(is_utf8(cell) for cell in row):
            raise Answer(4, "DATA REFUSED %s ROW %d: NotText" % (name, n))
        if n == 0:
            for c, cell in enumerate(row):
                if cell.lower() in [other.lower() for other in row[:c]]:
                    raise Answer(4, "DATA REFUSED %s: RepeatedColumn %s" % (name, cell.decode()))
    return rows


ARC_ROLES = {"tailnode": (b"_FROM_", b"_TAIL_"), "headnode": (b"_TO_", b"_HEAD_"), "name": (b"_NAME_",), "cost": (b"_COST_",),
             "lo": (b"_LO_",), "capacity": (b"_CAPAC_",), "supply": (b"_SUPPLY_",), "demand": (b"_DEMAND_",)}
NODE_ROLES = {"node": (b"_NODE_",), "supdem": (b"_SUPDEM_",)}


def read_roles(header, roles, needed, statements, name):
    """The column of each role, or None; the last key says how a role's column is told."""
    named = [(role, column) for role, columns in statements for column in columns if role in roles or (role == "id" and name == "ARCDATA")]
    upper = [cell.upper() for cell in header]
    for _, column in named:
        if column.upper() not in upper:
            raise Answer(4, "DATA REFUSED %s: NoColumn %s" % (name, column.decode()))
    free = [reserved for role, reserved in roles.items() if all(role != other for other, _ in named)]
    for c, cell in enumerate(upper):
        if sum(column.upper() == cell for _, column in named) > 1 or any(cell in reserved and any(x in reserved for x in upper[:c]) for reserved in free):
            raise Answer(4, "DATA REFUSED %s: TwoRoles %s" % (name, header[c].decode()))
    at, told = {}, {}
    for role, reserved in roles.items():
        wanted = [column.upper() for other, column in named if other == role] or reserved
        at[role] = next((c for c, cell in enumerate(upper) if cell in wanted), None)
        told[role] = (reserved[0] if at[role] is None else header[at[role]]).decode()
    for role in needed:
        if at[role] is None:
            raise Answer(4, "DATA REFUSED %s: MissingRole %s" % (name, role.upper()))
    return at, told


def is_name(value):
    return re.fullmatch(rb"[A-Za-z0-9_ .-]{1,32}", value)


def amount(value):
    return Fraction(value.decode()) if re.fullmatch(rb"-?[0-9]{1,9}(\.[0-9]{1,3})?", value) else None


class Problem:
    """Columns are (cost, least, most or None, entries by row), rows (relation, right side); costs are those of the minimised
    problem, and the sign turns them into those of the program's own sense."""

    def __init__(self, sign):
        self.columns, self.rows, self.sign = [], [], sign

    def add_column(self, cost, least, most, entries):
        self.columns.append((cost, least, most, dict(entries)))

    def sums(self, numbers):
        """What the rows sum to for these numbers of the columns."""
        out = [Fraction(0)] * len(self.rows)
        for (_, _, _, entries), number in zip(self.columns, numbers):
            for i, entry in entries.items():
                out[i] += entry * number
        return out

    def combined(self, duals, j):
        """What the rows, combined by these duals, have at a column."""
        return sum((duals[i] * entry for i, entry in self.columns[j][3].items()), Fraction(0))

    def cost(self, numbers):
        return sum((column[0] * number for column, number in zip(self.columns, numbers)), Fraction(0))


class Data:
    """The data of a program: rows are read one by one, and the first fault is raised."""

    def __init__(self, given):
        self.given, self.number, self.value, self.arcs, self.keys = given, {}, {}, [], set()
        self.name, self.row, self.told = "", 0, {}

    def fault(self, role, kind):
        raise Answer(4, "DATA REFUSED %s ROW %d COLUMN %s: %s" % (self.name, self.row, self.told[role], kind))

    def cells(self, row, at):
        values = {role: b"" if c is None else row[c].strip(b" ") for role, c in at.items()}
        return {role: b"" if value == b"." else value for role, value in values.items()}

    def node(self, role, name, earlier=()):
        if not is_name(name):
            self.fault(role, "BadName")
        if name == b"_EXCESS_":
            self.fault(role, "ReservedName")
        if name in earlier:
            self.fault(role, "RepeatedNode")
        self.number.setdefault(name, len(self.number))
        if len(self.number) > 20000:
            self.fault(role, "LimitPassed")

    def number_in(self, role, value, default):
        found = default if value == b"" else amount(value)
        if found is None:
            self.fault(role, "Amount")
        return found

    def give(self, role, node, value, sign, opens):
        if value == b"":
            return
        found = value.decode().strip(".") if value in opens else amount(value)
        if found is None:
            self.fault(role, "Amount")
        self.set(role, node, found if isinstance(found, str) else sign * found)

    def set(self, role, node, value):
        if self.value.setdefault(node, value) != value:
            self.fault(role, "TwoSupplies")

    def read_arcs(self, rows, at, told):
        self.name, self.told = "ARCDATA", told
        lower = self.given.get("defcapacity", b"INF")
        default = None if lower.upper() == b"INF" else amount(lower)
        for self.row, row in enumerate(rows[1:], 1):
            v = self.cells(row, at)
            if self.row > 200000:
                self.fault("tailnode", "LimitPassed")
            self.node("tailnode", v["tailnode"])
            self.node("headnode", v["headnode"])
            tail, head = v["tailnode"], v["headnode"]
            if v["name"] and not is_name(v["name"]):
                self.fault("name", "BadName")
            key = (tail, head, v["name"] or tail + b"_" + head)
            if key in self.keys:
                self.fault("name", "RepeatedArc")
            self.keys.add(key)
            cost = self.number_in("cost", v["cost"], amount(self.given.get("defcost", b"0")))
            least = self.number_in("lo", v["lo"], amount(self.given.get("defminflow", b"0")))
            most = default
            if v["capacity"]:
                most = None if v["capacity"].upper() == b"INF" else self.number_in("capacity", v["capacity"], None)
            if most is not None and most < least:
                self.fault("capacity", "CrossedBounds")
            self.give("supply", tail, v["supply"], 1, (b"S", b".S"))
            self.give("demand", head, v["demand"], -1, (b"D", b".D"))
            self.arcs.append((self.number[tail], self.number[head], -cost if "maximize" in self.given else cost, least, most))

    def read_nodes(self, rows, at, told):
        self.name, self.told, earlier = "NODEDATA", told, set()
        for self.row, row in enumerate(rows[1:], 1):
            v = self.cells(row, at)
            self.node("node", v["node"], earlier)
            earlier.add(v["node"])
            self.give("supdem", v["node"], v["supdem"], 1, (b"S", b".S", b"D", b".D"))

    def read_options(self):
        self.name, self.row, self.told = "PROC", 0, {"source": "SOURCE", "sink": "SINK", "rows": "ROWS"}
        for option, value, sign in (("source", "supply", 1), ("sink", "demand", -1)):
            if option in self.given:
                if self.given[option] not in self.number:
                    self.fault(option, "UnknownSource")
                if value in self.given:
                    self.set(option, self.given[option], sign * amount(self.given[value]))

    def problem(self):
        """The problem of the arcs, the excess arcs and the right sides of the nodes."""
        values = [self.value.get(node) for node in self.number]
        numbers = [0 if v is None or isinstance(v, str) else v for v in values]
        total, excess, thrunet = sum(numbers), len(values), "thrunet" in self.given
        more = []
        for i, v in enumerate(values):
            amount_here = None if v is None or isinstance(v, str) else v
            side = 0 if amount_here is None else amount_here if not thrunet else -amount_here
            sends = v == "D" or (total > 0 and "D" not in values and side > 0)
            gets = v == "S" or (total < 0 and "S" not in values and side < 0)
            more += [(i, excess, 0, 0, None)] * sends + [(excess, i, 0, 0, None)] * gets
        if more or total != 0:
            numbers.append(-total)
        if len(numbers) > 1000:
            self.fault("rows", "LimitPassed")
        problem = Problem(-1 if "maximize" in self.given else 1)
        for tail, head, *numbers_of_arc in self.arcs + more:
            problem.add_column(*numbers_of_arc, {} if tail == head else {tail: 1, head: -1})
        problem.rows = [("EQ", number) for number in numbers]
        return problem


def read_network(tables, given, statements):
    """The problem of ARCDATA and NODEDATA, where that is there."""
    arcs = read_roles(tables[0][0], ARC_ROLES, ("tailnode", "headnode"), statements, "ARCDATA")
    nodes = tables[1] and read_roles(tables[1][0], NODE_ROLES, ("node", "supdem"), statements, "NODEDATA")
    data = Data(given)
    data.read_arcs(tables[0], *arcs)
    if nodes:
        data.read_nodes(tables[1], *nodes)
    data.read_options()
    return data.problem()


def read_fraction(text):
    """The fraction, or None where the text is not the one that the fraction prints as."""
    found = re.fullmatch(rb"(-?)(0|[1-9][0-9]*)(?:/([1-9][0-9]*))?", text)
    if not found:
        return None
    top, bottom = int(found[2]), int(found[3] or b"1")
    if top > MOST or bottom > MOST or (found[1] and top == 0) or (found[3] and (bottom == 1 or gcd(top, bottom) != 1)):
        return None
    return Fraction(-top if found[1] else top, bottom)


def read_certificate(rows, columns, nodes):
    at = []
    for name in (b"_ITEM_", b"_NUMBER_", b"_VALUE_"):
        places = [c for c, cell in enumerate(rows[0]) if cell.upper() == name]
        if not places:
            raise Answer(9, "REFUSED CERTDATA NO COLUMN " + name.decode())
        at.append(places[0])
    verdict = rows[1][at[2]].strip(b" ") if len(rows) > 1 else b""
    parts = {b"OPTIMAL": ("COL", "ROW"), b"INFEASIBLE": ("ROW",), b"UNBOUNDED": ("COL", "RAY")}.get(verdict, ())
    due = [(b"VERDICT", 1)] + [(part.encode(), n) for part in parts for n in range(1, (nodes if part == "ROW" else columns) + 1)]
    values = {part: [] for part in ("COL", "ROW", "RAY")}
    for n in range(1, max(len(due), len(rows) - 1) + 1):
        if n >= len(rows):
            raise Answer(9, "REFUSED CERTDATA MISSING ROW %d" % n)
        item, count, value = [rows[n][c].strip(b" ") for c in at]
        if n > len(due) or item != due[n - 1][0] or count != b"%d" % due[n - 1][1] or (n == 1 and not parts):
            raise Answer(9, "REFUSED CERTDATA UNKNOWN ROW %d" % n)
        if n > 1:
            number = read_fraction(value)
            if number is None:
                raise Answer(9, "REFUSED CERTDATA NUMBER ROW %d" % n)
            values[item.decode()].append(number)
    return verdict.decode(), values


def refuse_check(what):
    raise Answer(9, "REFUSED " + what)


def holds(relation, value, right):
    return value == right if relation == "EQ" else value <= right if relation == "LE" else value >= right


def keep_sign(problem, duals, i):
    """The dual of an LE row is at most 0, that of a GE row at least 0."""
    relation = problem.rows[i][0]
    if relation != "EQ" and not holds(relation, duals[i], 0):
        refuse_check("DUAL %d" % (i + 1))


def verify_flows(problem, flows):
    for j, (_, least, most, _) in enumerate(problem.columns):
        if flows[j] < least or (most is not None and flows[j] > most):
            refuse_check("BOUND C%d" % (j + 1))
    for i, value in enumerate(problem.sums(flows)):
        if not holds(problem.rows[i][0], value, problem.rows[i][1]):
            refuse_check("ROW %d" % (i + 1))


def verify_best(problem, flows, duals):
    verify_flows(problem, flows)
    for j, (cost, least, most, _) in enumerate(problem.columns):
        reduced = cost - problem.combined(duals, j)
        if (reduced > 0 and flows[j] != least) or (reduced < 0 and (most is None or flows[j] != most)):
            refuse_check("REDUCED COST C%d" % (j + 1))
    for i, value in enumerate(problem.sums(flows)):
        keep_sign(problem, duals, i)
        if problem.rows[i][0] != "EQ" and duals[i] != 0 and value != problem.rows[i][1]:
            refuse_check("DUAL %d" % (i + 1))
    return "OPTIMAL\nTOTAL COST %s" % (problem.sign * problem.cost(flows))


def verify_none(problem, duals):
    for i in range(len(problem.rows)):
        keep_sign(problem, duals, i)
    gap = sum((y * right for y, (_, right) in zip(duals, problem.rows)), Fraction(0))
    for j, (_, least, most, _) in enumerate(problem.columns):
        weight = problem.combined(duals, j)
        if weight > 0 and most is None:
            refuse_check("COLUMN C%d" % (j + 1))
        gap -= weight * (most if weight > 0 else least)
    if gap <= 0:
        refuse_check("GAP %s" % gap)
    return "INFEASIBLE\nGAP %s" % gap


def verify_ray(problem, flows, ray):
    verify_flows(problem, flows)
    for j, (_, _, most, _) in enumerate(problem.columns):
        if ray[j] < 0 or (ray[j] > 0 and most is not None):
            refuse_check("RAY C%d" % (j + 1))
    for i, value in enumerate(problem.sums(ray)):
        if not holds(problem.rows[i][0], value, 0):
            refuse_check("RAY ROW %d" % (i + 1))
    rate = problem.cost(ray)
    if rate >= 0:
        refuse_check("RATE %s" % (problem.sign * rate))
    return "UNBOUNDED\nRATE %s" % (problem.sign * rate)


def answer_of_check(problem, rows):
    """Status and listing for a problem and the rows of its certificate's table, and whether numbers are so wide that the check
    may pass 128 bits. A fault of the table is raised."""
    verdict, values = read_certificate(rows, len(problem.columns), len(problem.rows))
    wide = any(max(abs(v.numerator), v.denominator) >= 2 ** 60 for part in values.values() for v in part)
    parts = {"OPTIMAL": (verify_best, "COL", "ROW"), "INFEASIBLE": (verify_none, "ROW"), "UNBOUNDED": (verify_ray, "COL", "RAY")}[verdict]
    try:
        return 0, "ACCEPTED %s\n" % parts[0](problem, *[values[part] for part in parts[1:]]), wide
    except Answer as answer:
        return answer.status, answer.line + "\n", wide


# the program's text: words and kinds as docs/FORMATS.md lists them

SETS = "arcdata nodedata condata certdata conin dualin sessiondata".split()
OUTPUTS = "arcout nodeout conout dualout sessionout certout".split()
FLAGS = {"sparsecondata": "sparsecondata", "thrunet": "thrunet", "maximize": "maximize", "max": "maximize", "warm": "warm"}
COUNTS = "maxit1 maxit2 pause1 pause2".split()
SWITCHES = "feasiblepause1 feasiblepause2 endpause1 future1 future2".split()
OTHERS = {"defcost": "amount", "defminflow": "amount", "defcapacity": "bound", "defcontype": "type", "source": "node", "sink": "node",
          "supply": "amount", "demand": "amount", "pricetype1": "rule", "pricetype2": "rule"}
ROLES = {}
for spellings in ("tailnode tail from", "headnode head to", "cost", "capacity capac upperbd", "lo lowerbd minflow", "name", "supply", "demand",
                  "node", "supdem", "var", "type", "rhs", "row", "column", "coef", "id"):
    for spelling in spellings.split():
        ROLES[spelling] = spellings.split()[0]
ACTS = "reset pivot print show save run".split()
TOKEN = re.compile(rb"(?P<gap>[ \t\r\n]+|/\*.*?\*/)|(?P<word>[A-Za-z_][A-Za-z0-9_]*)|(?P<number>-?[0-9][0-9.]*)"
                   rb"|(?P<quoted>'[ -&(-~]*'|\"[ !#-~]*\")|(?P<equals>=)|(?P<semicolon>;)", re.S)


def refuse(at, kind):
    raise Answer(3, "PROGRAM REFUSED AT %d: %s" % (at, kind))


def tokens_of(text):
    out, at = [], 0
    while at < len(text):
        found = TOKEN.match(text, at)
        if not found:
            if text[at:at + 2] == b"/*":
                refuse(at, "OpenComment")
            if text[at] in b"'\"":
                mark = text[at:at + 1]
                if text.find(mark, at + 1) < 0:
                    refuse(at, "OpenQuote")
                refuse(next(n for n in range(at + 1, len(text)) if not 32 <= text[n] <= 126), "BadByte")
            refuse(at, "BadByte")
        if found.lastgroup != "gap":
            out.append((found.lastgroup, found.group(), at))
        at = found.end()
    return out


def option_of(word):
    """The option's name, its value's kind (None for a flag), and whether it is one of PROC alone, of output or of the session."""
    if word in SETS:
        return word, "set", "proc"
    if word in OUTPUTS:
        return word, "set", "output"
    if word in FLAGS:
        return FLAGS[word], None, "proc"
    if word in COUNTS:
        return word, "count", "session"
    if word in SWITCHES or (word.startswith("no") and word[2:] in SWITCHES):
        return word[2:] if word.startswith("no") else word, None, "session"
    if word in OTHERS:
        return word, OTHERS[word], "session" if word.startswith("price") else "proc"
    return None


def has_kind(kind, token):
    sort, text, _ = token
    amount = sort == "number" and re.fullmatch(rb"-?[0-9]{1,9}(\.[0-9]{1,3})?", text)
    inner = text[1:-1] if sort == "quoted" else text
    return {
        "set": sort == "word" and len(text) <= 32,
        "amount": amount,
        "bound": amount or (sort == "word" and text.upper() == b"INF"),
        "type": sort == "word" and text.upper() in (b"LE", b"L", b"GE", b"G", b"EQ", b"E"),
        "rule": sort == "word" and text.upper() in (b"FIRST", b"BEST", b"BLAND"),
        "count": sort == "number" and re.fullmatch(rb"[0-9]{1,9}", text),
        "node": sort in ("word", "number", "quoted") and re.fullmatch(rb"[A-Za-z0-9_ .-]{1,32}", inner),
        "column": sort in ("word", "quoted") and 1 <= len(inner) <= 32,
    }[kind]


class Statements:
    """One pass over the tokens of a program for `check`."""

    def __init__(self, text):
        self.tokens, self.end, self.at = tokens_of(text), len(text), 0

    def next(self):
        if self.at == len(self.tokens):
            refuse(self.end, "MissingSemicolon")
        self.at += 1
        return self.tokens[self.at - 1]

    def proc(self):
        if not self.tokens or self.tokens[0][0] != "word" or self.tokens[0][1].lower() != b"proc":
            refuse(self.tokens[0][2] if self.tokens else self.end, "NoProc")
        self.next()
        token = self.next()
        if token[0] != "word":
            refuse(token[2], "WrongValue")
        if token[1].lower() != b"netflow":
            refuse(token[2], "UnknownWord")
        given = {}
        while True:
            token = self.next()
            if token[0] == "semicolon":
                break
            if token[0] != "word":
                refuse(token[2], "WrongValue")
            option = option_of(token[1].decode().lower())
            if option is None:
                refuse(token[2], "UnknownWord")
            name, kind, group = option
            if (group == "session" and "warm" in given) or (name == "warm" and any(g == "session" for g, _ in given.values())):
                refuse(token[2], "OptionNotHere")
            if name in given:
                refuse(token[2], "RepeatedOption")
            value = None
            if kind:
                for wanted in ("equals", kind):
                    value = self.next()
                    if value[0] != "equals" if wanted == "equals" else not has_kind(kind, value):
                        refuse(value[2], "WrongValue")
            given[name] = (group, value[1].decode("latin-1") if value else "")
        saved = [name in given for name in ("conin", "dualin", "sessiondata")]
        if "arcdata" not in given or "certdata" not in given or (not all(saved) if "warm" in given else any(saved)) \
                or any(a in given and b not in given for a, b in (("supply", "source"), ("demand", "sink"), ("sparsecondata", "condata"))):
            refuse(token[2], "MissingOption")
        return given

    def behind(self):
        """The role statements behind PROC, with their column names."""
        statements, roles, over = [], [], False
        while self.at < len(self.tokens):
            token = self.next()
            if token[0] == "semicolon":
                continue
            if token[0] != "word":
                refuse(token[2], "WrongValue")
            word = token[1].decode().lower()
            if word in ROLES:
                role = ROLES[word]
                if role in roles:
                    refuse(token[2], "RepeatedOption")
                if over:
                    refuse(token[2], "StatementOrder")
                roles.append(role)
                statements.append((role, self.columns(role)))
            elif word == "quit" and not over:
                over, token = True, self.next()
                if token[0] != "semicolon":
                    refuse(token[2], "UnknownWord" if token[0] == "word" else "WrongValue")
            elif word in ("proc", "quit") or word in ACTS:
                refuse(token[2], "StatementOrder")
            else:
                refuse(token[2], "UnknownWord")
        return statements

    def columns(self, role):
        names = []
        while True:
            token = self.next()
            if token[0] == "semicolon" and names:
                return names
            if not has_kind("column", token) or (names and role not in ("var", "id")):
                refuse(token[2], "WrongValue")
            names.append(token[1][1:-1] if token[0] == "quoted" else token[1])


def read_program(text):
    """The names of ARCDATA, NODEDATA and CONDATA, where they are named, and CERTDATA; the options of PROC; the role statements."""
    if len(text) > 1048576:
        refuse(1048576, "TooLong")
    statements = Statements(text)
    given, roles = statements.proc(), statements.behind()
    names = [given[name][1].lower() if name in given else None for name in ("arcdata", "nodedata", "condata", "certdata")]
    return names, {name: value.encode("latin-1").strip(b"'\"") for name, (_, value) in given.items()}, roles


def expected(words, program, files):
    """Status and listing, and whether numbers are so wide that the check may pass 128 bits."""
    try:
        if words != ["check"]:
            raise Answer(2, USAGE)
        names, given, statements = read_program(program)
        data = []
        for name in names:
            content = files.get(name) if name else None
            if name and content is None:
                raise Answer(7, "ABSENT " + name)
            if content is DIRECTORY:
                raise Answer(5, "READ FAULT")
            data.append(content)
        tables = [None if content is None else read_table(content, name) for content, name in zip(data, ("ARCDATA", "NODEDATA", "CONDATA", "CERTDATA"))]
        # no folder here has a set for CONDATA, so it is absent where it is named
        assert tables[2] is None
        return answer_of_check(read_network(tables, given, statements), tables[3])
    except Answer as answer:
        return answer.status, answer.line + "\n", False


def passes(op, left, right):
    """Whether this operation passes 128 bits."""
    if op == "-":
        return passes("+", left, -right)
    if op == "/":
        return passes("*", left, 1 / right)
    a, b, c, d = left.numerator, left.denominator, right.numerator, right.denominator
    if op == "+":
        g = gcd(b, d)
        parts = (a * (d // g), c * (b // g), a * (d // g) + c * (b // g), (b // g) * d)
    else:
        g, h = gcd(a, d), gcd(c, b)
        parts = ((a // g) * (c // h), (b // h) * (d // g))
    return any(abs(part) > MOST for part in parts)


def is_range_line(listing):
    found = re.fullmatch(r"RANGE PASSED CHECK: (\S+) ([-+*/]) (\S+)\n", listing)
    if not found:
        return False
    left, right = read_fraction(found[1].encode()), read_fraction(found[3].encode())
    return left is not None and right is not None and passes(found[2], left, right)
