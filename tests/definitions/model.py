"""A second reading of the document: each result is worked out from the whole list of accepted steps, at each step anew."""
from dataclasses import dataclass, field
from functools import lru_cache

T, F, U = "True", "False", "Undefined"
LOW, HIGH = -2**47, 2**47 - 1
UNUSED = (15, 0)

# the operands of each kind: entries of the sorts C, E and N, imports of a condition c or an event e, a variable v, a constant k
OPERANDS = ("c", "C", "EE", "C", "CC", "CC", "CC", "NN", "NN", "e", "C", "C", "EE", "EE", "EC",
            "k", "v", "NN", "NN", "", "e", "E", "EvN", "E", "C")
WIDTH = {"C": 7, "E": 7, "N": 7, "c": 6, "e": 6, "v": 5, "k": 48}


class Refused(Exception):
    """A refusal; its argument is the number."""


@dataclass
class Table:
    """A table in memory; an import is True for an event, a variable None where it starts undefined."""
    n: int = 0
    q: int = 0
    v: int = 0
    imports: list = field(default_factory=lambda: [False] * 48)
    variables: list = field(default_factory=lambda: [None] * 32)
    entries: list = field(default_factory=lambda: [UNUSED] * 128)


class Bits:
    """Fields taken from bytes, front to back."""

    def __init__(self, data, short):
        self.text = "".join(f"{b:08b}" for b in data)
        self.at = 0
        self.short = short

    def take(self, width):
        """The next field, or the refusal of a field that isn't wholly there."""
        if self.at + width > len(self.text):
            raise Refused(self.short)
        self.at += width
        return int(self.text[self.at - width:self.at], 2)

    def signed(self):
        """The next 48 bits in two's complement."""
        x = self.take(48)
        return x - 2**48 if x > HIGH else x

    def padding(self, number):
        """The bits up to a whole byte."""
        while self.at % 8:
            if self.take(1):
                raise Refused(number)


def sort_of(kind):
    """The sort of an entry of this kind."""
    return "C" if kind <= 8 else "E" if kind <= 14 else "N" if kind <= 21 else "none"


def labelled(entries):
    """The entries that have a label."""
    return [k for k, e in enumerate(entries) if e[0] in (23, 24)]


def judge_operand(letter, x, k, entries, imports, q, v):
    """Refuses one operand of entry k."""
    if letter in "CEN":
        if x >= k:
            raise Refused(7)
        if sort_of(entries[x][0]) != letter:
            raise Refused(8)
    elif letter in "ce":
        if x >= q:
            raise Refused(7)
        if imports[x] != (letter == "e"):
            raise Refused(8)
    elif letter == "v" and x >= v:
        raise Refused(7)
    elif letter == "k" and not LOW <= x <= HIGH:
        raise Refused(13)


def read_labels(data, at, count):
    """Where the texts of that many labels stand, from byte at to the end: (start, size) each."""
    places = []
    for _ in range(count):
        if at >= len(data):
            raise Refused(2)
        size = data[at]
        at += 1
        if size > 32:
            raise Refused(10)
        if at + size > len(data):
            raise Refused(2)
        if any(not 0x20 <= b <= 0x7E for b in data[at:at + size]):
            raise Refused(10)
        places.append((at, size))
        at += size
    if at != len(data):
        raise Refused(11)
    return places


def read_script(data):
    """The table of a script, and where the label of each entry that has one stands."""
    if len(data) > 4096:
        raise Refused(1)
    bits = Bits(data, 2)
    if bits.take(8) != 1:
        raise Refused(3)
    counts = []
    for width, least, most in (8, 1, 128), (6, 0, 48), (6, 0, 32), (4, 0, 0):
        counts.append(bits.take(width))
        if not least <= counts[-1] <= most:
            raise Refused(4)
    n, q, v, _ = counts
    table = Table(n, q, v)
    for i in range(q):
        table.imports[i] = bits.take(1) == 1
    for x in range(v):
        defined, number = bits.take(1), bits.signed()
        if not defined and number:
            raise Refused(5)
        table.variables[x] = number if defined else None
    for k in range(n):
        kind = bits.take(5)
        if kind > 24:
            raise Refused(6)
        operands = []
        for letter in OPERANDS[kind]:
            operands.append(bits.signed() if letter == "k" else bits.take(WIDTH[letter]))
            judge_operand(letter, operands[-1], k, table.entries, table.imports, q, v)
        table.entries[k] = (kind, *operands)
    bits.padding(9)
    marked = labelled(table.entries)
    return table, dict(zip(marked, read_labels(data, bits.at // 8, len(marked))))


def judge_table(table):
    """Refuses a table as the writer does."""
    n, q, v = table.n, table.q, table.v
    if not 1 <= n <= 128 or q > 48 or v > 32:
        raise Refused(4)
    if any(e != UNUSED for e in table.entries[n:]) or any(table.imports[q:]) or any(x is not None for x in table.variables[v:]):
        raise Refused(4)
    if any(x is not None and not LOW <= x <= HIGH for x in table.variables):
        raise Refused(13)
    for k, (kind, *operands) in enumerate(table.entries[:n]):
        for letter, x in zip(OPERANDS[kind], operands):
            judge_operand(letter, x, k, table.entries, table.imports, q, v)


def fields(table):
    """Every field of a table in a script: (number, width)."""
    out = [(1, 8), (table.n, 8), (table.q, 6), (table.v, 6), (0, 4)]
    out += [(int(event), 1) for event in table.imports[:table.q]]
    for x in table.variables[:table.v]:
        out += [(0, 1), (0, 48)] if x is None else [(1, 1), (x, 48)]
    for kind, *operands in table.entries[:table.n]:
        out += [(kind, 5)] + [(x, WIDTH[letter]) for letter, x in zip(OPERANDS[kind], operands)]
    return out


def packed(parts, pad="0"):
    """Fields as bytes."""
    text = "".join(format(x % 2**width, f"0{width}b") for x, width in parts)
    text += pad * (-len(text) % 8)
    return bytes(int(text[i:i + 8], 2) for i in range(0, len(text), 8))


def write(table, block, destination):
    """The writer: its number (0 if none), the size, and the destination after it."""
    try:
        judge_table(table)
        read_labels(block, 0, len(labelled(table.entries[:table.n])))
        data = packed(fields(table)) + block
        if len(data) > 4096:
            raise Refused(1)
        if len(data) > len(destination):
            raise Refused(12)
        return [0, len(data), *data, *destination[len(data):]]
    except Refused as r:
        return [r.args[0], 0, *destination]


def label(script, k):
    """The number (0 if none) and the part of the script where the label of entry k stands."""
    try:
        _, places = read_script(script)
        if k not in places:
            raise Refused(30)
        return [0, *places[k]]
    except Refused as r:
        return [r.args[0], 0, 0]


def leads_to(table, j):
    """The entries that a set which holds entry j must hold too."""
    kind, *operands = table.entries[j]
    found = {x for letter, x in zip(OPERANDS[kind], operands) if letter in "CEN"}
    if kind == 16:
        found |= {u for u, e in enumerate(table.entries) if e[0] == 22 and e[2] == operands[0]}
    return found


def reach(table, k):
    """The number (0 if none), the entries reached, the imports, and whether the clock is."""
    try:
        judge_table(table)
    except Refused:
        return 29, set(), set(), False
    if k >= table.n:
        return 30, set(), set(), False
    inside, more = set(), {k}
    while more != inside:
        inside = more
        more = inside.union(*(leads_to(table, j) for j in inside))
    imports = {table.entries[j][1] for j in inside if table.entries[j][0] in (0, 9, 20)}
    return 0, inside, imports, any(table.entries[j][0] in (19, 21) for j in inside)


def read_step(data, table, last):
    """(time, {import: report}); an event's report is a number or None, last is the time of the last accepted step or None."""
    bits = Bits(data, 21)
    time = bits.take(47)
    if last is not None and time <= last:
        raise Refused(22)
    reports, before = {}, -1
    for _ in range(bits.take(6)):
        i = bits.take(6)
        if i >= table.q:
            raise Refused(23)
        if i <= before:
            raise Refused(24)
        before = i
        if table.imports[i]:
            reports[i] = bits.signed() if bits.take(1) else None
        else:
            two = bits.take(2)
            if two == 3:
                raise Refused(25)
            reports[i] = (F, T, U)[two]
    bits.padding(26)
    if bits.at != 8 * len(data):
        raise Refused(27)
    return time, reports


def negate(a):
    """Not, with three values."""
    return {T: F, F: T, U: U}[a]


def either(a, b):
    """Or, with three values."""
    return T if T in (a, b) else U if U in (a, b) else F


def within(x):
    """A sum or difference, None outside the range."""
    return x if LOW <= x <= HIGH else None


def results(table, history):
    """The n results of the last step: T, F or U for a condition or property, a bool for an event, update or alarm, else a number."""
    entries = table.entries

    @lru_cache(maxsize=None)
    def at(i, k):
        """The result of entry k at step i."""
        kind, *o = entries[k]
        time, reports = history[i]
        if kind == 0:
            return next((history[j][1][o[0]] for j in range(i, -1, -1) if o[0] in history[j][1]), U)
        if kind == 9:
            return o[0] in reports
        if kind == 15:
            return o[0]
        if kind == 16:
            return read(i, o[0], k)
        if kind == 19:
            return time
        if kind == 20:
            return reports.get(o[0])
        if kind == 2:
            opened = [j for j in range(i + 1) if at(j, o[0])]
            return T if any(not any(at(m, o[1]) for m in range(j, i + 1)) for j in opened) else F
        if kind in (10, 11):
            want = T if kind == 10 else F
            before = at(i - 1, o[0]) if i > 0 else U
            return at(i, o[0]) == want and before != want
        if kind == 21:
            return next((history[j][0] for j in range(i, -1, -1) if at(j, o[0])), None)
        a = at(i, o[0])
        if kind in (22, 23, 24):
            return a
        if kind == 1:
            return F if a == U else T
        if kind == 3:
            return negate(a)
        b = at(i, o[1])
        if kind in (4, 5, 6):
            return {4: either(a, b), 5: negate(either(negate(a), negate(b))), 6: either(negate(a), b)}[kind]
        if kind in (12, 13, 14):
            return {12: a and b, 13: a or b, 14: a and b == T}[kind]
        if a is None or b is None:
            return U if kind in (7, 8) else None
        if kind in (7, 8):
            return T if (a < b if kind == 7 else a == b) else F
        return within(a + b if kind == 17 else a - b)

    def read(i, x, k):
        """What entry k reads from variable x at step i."""
        while i >= 0:
            for u in range(k - 1, -1, -1):
                if entries[u][0] == 22 and entries[u][2] == x and at(i, u):
                    return at(i, entries[u][3])
            i, k = i - 1, table.n
        return table.variables[x]

    return [at(len(history) - 1, k) for k in range(table.n)]


def steps(table, records):
    """The number of a start, and for each record the number, the last accepted time and the results."""
    try:
        judge_table(table)
    except Refused:
        return 29, [(29, None, []) for _ in records]
    history, out = [], []
    for record in records:
        last = history[-1][0] if history else None
        try:
            history.append(read_step(record, table, last))
            out.append((0, history[-1][0], results(table, history)))
        except Refused as r:
            out.append((r.args[0], last, []))
    return 0, out


def replay(data):
    """The bytes that the program prints."""
    size = int.from_bytes(data[:2], "big")
    if len(data) < 2 + size:
        return b"cut\n"
    script, at, records = data[2:2 + size], 2 + size, []
    try:
        table, places = read_script(script)
    except Refused as r:
        return b"script refused %d\n" % r.args[0]
    while at + 2 <= len(data) and at + 2 + int.from_bytes(data[at:at + 2], "big") <= len(data):
        size = int.from_bytes(data[at:at + 2], "big")
        records.append(data[at + 2:at + 2 + size])
        at += 2 + size
    out = b"script %d\n" % table.n
    replies = steps(table, records)[1]
    for number, time, row in replies:
        if number:
            out += b"refused %d\n" % number
        for k, x in enumerate(row):
            kind = table.entries[k][0]
            if kind == 23 and x or kind == 24 and x == F:
                start, size = places[k]
                out += b"%d %s %d %s\n" % (time, b"alarm" if kind == 23 else b"violated", k, script[start:start + size])
    if at < len(data):
        out += b"cut\n"
    refused = sum(number > 0 for number, _, _ in replies)
    return out + b"steps %d refused %d\n" % (len(replies) - refused, refused)


def inspect(script):
    """The bytes that the program `inspect` prints for the bytes of a script."""
    try:
        table, places = read_script(script)
    except Refused as r:
        return b"script refused %d\n" % r.args[0]
    out = b"script %d\n" % table.n
    for k, (start, size) in places.items():
        _, entries, imports, clock = reach(table, k)
        out += b"%d %s %s\n" % (k, b"alarm" if table.entries[k][0] == 23 else b"property", script[start:start + size])
        for word, numbers in (b"entries", entries), (b"imports", imports):
            out += b" ".join([b"%d" % k, word, *(b"%d" % x for x in sorted(numbers))]) + b"\n"
        out += b"%d clock %s\n" % (k, b"yes" if clock else b"no")
    return out
