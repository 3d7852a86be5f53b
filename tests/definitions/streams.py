"""Seeded questions: streams that are valid, rich in updates or damaged, calls of the writer, labels, steps, reaches, scripts to inspect, and edges."""
import random
from model import F, HIGH, LOW, OPERANDS, T, U, Table, fields, labelled, packed, sort_of

NUMBERS = [0, 0, 1, -1, 2, 3, 5, 7, HIGH, LOW, HIGH - 1, LOW + 1, 1000, 2000]
OUTSIDE = [HIGH + 1, LOW - 1, 2**63 - 1, -2**63]
WEIGHTS = [3, 2, 3, 2, 2, 2, 2, 2, 2, 3, 3, 3, 2, 2, 2, 2, 3, 2, 2, 2, 2, 2, 5, 4, 4]


def number(r):
    """A number, mostly at an end of the range or small."""
    return r.choice(NUMBERS) if r.random() < 0.8 else r.randint(LOW, HIGH)


def made(imports, variables, entries):
    """The table of these."""
    t = Table(len(entries), len(imports), len(variables))
    t.imports[:t.q], t.variables[:t.v], t.entries[:t.n] = imports, variables, entries
    return t


def any_table(r, want, most, imports=(0, 1, 2, 3, 3, 4, 4), variables=(0, 1, 1, 1, 2, 3)):
    """A sound table, with the wanted kind more often, and as many imports and variables as one of the given numbers."""
    imports = [r.random() < 0.6 for _ in range(r.choice(imports))]
    variables = [r.choice([None, number(r)]) for _ in range(r.choice(variables))]
    pool = {"C": [], "E": [], "N": [], "c": [i for i, e in enumerate(imports) if not e],
            "e": [i for i, e in enumerate(imports) if e], "v": range(len(variables))}
    n = r.randint(1 if r.random() < 0.15 else most // 2, most)
    entries = []
    for k in range(n):
        can = [kind for kind in range(25) if all(x == "k" or pool[x] for x in OPERANDS[kind])]
        if k == n - 1:
            can = [kind for kind in can if kind > 22] or can
        kind = r.choices(can, [WEIGHTS[x] * (8 if x == want else 1) for x in can])[0]
        entries.append((kind, *(number(r) if x == "k" else max(r.choices(pool[x], k=r.choice([1, 2]))) for x in OPERANDS[kind])))
        pool.setdefault(sort_of(kind), []).append(k)
    return made(imports, variables, entries)


def any_block(r, t):
    """A block of labels for a table."""
    out = b""
    for _ in labelled(t.entries[:t.n]):
        size = r.choice([0, 0, 1, 1, 2, 3])
        out += bytes([size, *r.choices(b" ~ABa0", k=size)])
    return out


def any_steps(r, t):
    """Steps of rising time for a table."""
    out, time = [], r.choice([0, 0, 1, 1000])
    for _ in range(r.randint(1, 6)):
        told = [i for i in range(t.q) if r.random() < 0.65]
        out.append((time, [(i, r.choice([None, number(r), r.choice([0, 1, 2])]) if t.imports[i] else r.choice([T, F, U, T, F])) for i in told]))
        time += r.choice([1, 1, 2, 500, 1000])
    if r.random() < 0.06:
        out[-1] = (HIGH, out[-1][1])
    return out


def step_fields(time, reports, imports, count=None):
    """Every field of a step; the report 3 stands for the bits 11."""
    out = [(time, 47), (len(reports) if count is None else count, 6)]
    for i, x in reports:
        out.append((i, 6))
        if i < len(imports) and imports[i]:
            out += [(0, 1)] if x is None else [(1, 1), (x, 48)]
        else:
            out.append(((F, T, U, 3).index(x), 2))
    return out


def joined(script, records):
    """The input of the program."""
    return b"".join(len(x).to_bytes(2, "big") + x for x in [script, *records])


def script_of(t, block=b""):
    """The bytes of a script."""
    return packed(fields(t)) + block


def records_of(t, steps):
    """The bytes of steps."""
    return [packed(step_fields(time, reports, t.imports)) for time, reports in steps]


def valid(r, want=None, most=14):
    """A table, its block and steps, all accepted."""
    t = any_table(r, want, most)
    return t, any_block(r, t), any_steps(r, t)


def rich(r):
    """As valid, with several updates of few variables; reads before, between and after them are all seen in lines."""
    v = r.choice([1, 1, 2])
    entries, events, numbers, reads = [(9, 0), (9, 1), (20, r.choice([0, 1])), (15, r.choice([0, 1, 2]))], [0, 1], [2, 3], []
    for _ in range(r.randint(6, 9)):
        k, event, x, seen = len(entries), r.choice(events), r.choice(numbers), r.choice(reads or numbers)
        what, turn = r.choice("uuurrrstdcewo"), r.choice([10, 11])
        entries += {"u": [(22, event, r.randrange(v), x)], "r": [(16, r.randrange(v))], "s": [(17, seen, x)], "d": [(18, seen, x)],
                    "t": [(21, event)], "c": [(r.choice([7, 8]), seen, x), (1, k), (24, k), (24, k + 1)],
                    "w": [(0, 2), (14, event, k), (23, k + 1)], "e": [(7, seen, x), (turn, k)],
                    "o": [(2, event, r.choice(events)), (turn, k)]}[what]
        numbers += [k] if what in "rsdt" else []
        reads += [k] if what == "r" else []
        events += [k + 1] if what in "ewo" else []
    for x in (reads or numbers)[-2:]:
        k = len(entries)
        entries += [(8, x, r.choice(numbers)), (24, k), (1, k), (24, k + 2)]
    t = made([True, True, False], [r.choice([None, 0, 1]) for _ in range(v)], entries)
    steps, time = [], 0
    for _ in range(r.randint(3, 6)):
        time += r.choice([1, 2])
        steps.append((time, [(i, r.choice([T, F, U] if i == 2 else [None, 0, 1, 2, HIGH])) for i in range(3) if r.random() < 0.5]))
    return t, any_block(r, t), steps


def changed(r, parts, most=None):
    """Fields with one of them another number."""
    i = r.randrange(most or len(parts))
    x, width = parts[i]
    return parts[:i] + [(r.choice([0, 1, x - 1, x + 1, x ^ 1, 2**width - 1, r.randrange(2**width)]), width)] + parts[i + 1:]


def flipped(r, data):
    """Bytes with up to three bits turned."""
    for _ in range(r.randint(1, 3)):
        i = r.randrange(8 * len(data))
        data = data[:i // 8] + bytes([data[i // 8] ^ 0x80 >> i % 8]) + data[i // 8 + 1:]
    return data


def cut(r, data):
    """Bytes without some of the last."""
    return data[:r.randrange(len(data))] if data else data


def extra(r):
    """One or two bytes more."""
    return bytes(r.choices([0, 0, 1, 0x41], k=r.choice([1, 2])))


def damaged_block(r, block):
    """A block with a length, a byte or its end wrong."""
    starts, at = [], 0
    while at < len(block):
        starts.append(at)
        at += 1 + block[at]
    if not starts:
        return extra(r)
    at, how = r.choice(starts), r.choice(["size", "size", "byte", "byte", "cut", "more"])
    if how == "size":
        return block[:at] + bytes([r.choice([32, 33, 255, block[at] + 1, max(0, block[at] - 1)])]) + block[at + 1:]
    if how == "byte":
        block = block[:at] + bytes([3, *r.choices(b"\0\x1f\x20\x7e\x7f\xff", k=3)]) + block[at + 1 + block[at]:]
        return block[:at + r.choice([2, 3])] if r.random() < 0.4 else block
    return cut(r, block) if how == "cut" else block + extra(r)


SCRIPT_DAMAGES = ["cut", "header", "field", "field", "field", "padding", "block", "block", "block", "more"]
STEP_DAMAGES = ["cut", "field", "padding", "more", "time", "order", "twice", "eleven", "none", "import"]
INPUT_DAMAGES = ["input-flip", "input-flip", "input-flip", "input-cut", "input-more", "input-short"]


def damaged(r, how):
    """A stream with this damage."""
    t, block, steps = valid(r, None, 10)
    script, records, parts = script_of(t, block), records_of(t, steps), fields(t)
    if how in ("script-header", "script-field"):
        script = packed(changed(r, parts, 5 if how == "script-header" else None)) + block
    elif how == "script-padding":
        script = packed(parts, "1") + (b"\x21" if r.random() < 0.3 else block)
    elif how == "script-block":
        script = script_of(t, damaged_block(r, block))
    elif how == "script-more":
        script += extra(r)
    elif how.startswith("step-"):
        j = r.randrange(len(steps))
        records[j] = damaged_step(r, how, t, steps, j)
    if how == "script-cut" or how.startswith("script-") and r.random() < 0.15:
        script = cut(r, script)
    data = joined(script, records)
    if how == "input-flip":
        return flipped(r, data)
    if how == "input-cut":
        return cut(r, data)
    if how == "input-short":
        return data[:r.choice([0, 1, 2, 3])]
    return data + bytes(r.choices([0, 0, 1], k=r.randint(1, 5))) if how == "input-more" else data


def damaged_step(r, how, t, steps, j):
    """The bytes of step j with this damage."""
    time, reports = steps[j]
    if how == "step-time" and j:
        time = steps[j - 1][0] - r.choice([0, 0, 1])
    elif how == "step-order":
        reports = reports[::-1]
    elif how == "step-twice":
        reports = sorted(reports + reports[:1], key=lambda x: x[0])
    elif how == "step-eleven":
        reports = [(i, x if t.imports[i] else 3) for i, x in reports]
    elif how == "step-import":
        reports = [*reports, (r.choice([t.q, 47, 48, 63]), F)]
    parts = step_fields(time, reports, t.imports[:t.q])
    record = packed(changed(r, parts) if how == "step-field" else parts, "1" if how == "step-padding" else "0")
    if how == "step-more" or how == "step-padding" and r.random() < 0.3:
        record += extra(r)
    return b"" if how == "step-none" else cut(r, record) if how == "step-cut" or r.random() < 0.15 else record


def faulty_table(r):
    """A table with up to two faults; operands up to what 16 bits hold."""
    t = any_table(r, None, 8)
    for _ in range(r.choice([0, 1, 1, 2])):
        what, name, most = r.choice([("count", "n", 128), ("count", "q", 48), ("count", "v", 32), ("import", "q", 48), ("variable", "v", 32),
                                     ("slot", "n", 128), *[("operand", "n", 128)] * 5])
        used = min(getattr(t, name), most)
        if what == "count":
            setattr(t, name, r.choice([0, most + 1, min(most, used + 1)]))
        elif what == "import":
            t.imports[r.choice([min(used, 47), 47])] = True
        elif what == "variable":
            t.variables[r.choice([0, min(used, 31), 31])] = r.choice(OUTSIDE + [0, HIGH, LOW])
        elif what == "slot":
            t.entries[r.choice([0, min(used, 127), 127])] = r.choice([(19,), (0, 0), *((15, x) for x in OUTSIDE + [HIGH, LOW])])
        elif used:
            k = r.randrange(used)
            kind, *operands = t.entries[k]
            if operands and kind != 15:
                operands[r.randrange(len(operands))] = r.choice([0, max(0, k - 1), k, k + 1, t.q, t.v, 127, 128, 65535])
            t.entries[k] = (kind, *operands)
    return t


def write_call(r):
    """A table, a block and a destination."""
    t = faulty_table(r) if r.random() < 0.6 else any_table(r, None, 8)
    block = any_block(r, t) if r.random() < 0.6 else damaged_block(r, any_block(r, t))
    room = r.choice([-1, 0, 0, 1, 3]) + len(script_of(t, block)) if t.n <= 128 else 9
    return t, block, bytes([170]) * room


def label_call(r):
    """A script and an entry, mostly one that has a label."""
    t, block, _ = valid(r, r.choice([23, 24]), 10)
    script = script_of(t, block if r.random() < 0.7 else damaged_block(r, block))
    return script, r.choice(labelled(t.entries) * 3 + [0, t.n - 1, t.n, 128, 65535])


def step_call(r, i):
    """A table and records for a monitor."""
    t, _, steps = rich(r) if i % 3 == 0 else valid(r, i % 25, 12)
    records = records_of(t, steps)
    if i % 3 == 1:
        j = r.randrange(len(steps))
        records[j] = damaged_step(r, "step-" + r.choice(STEP_DAMAGES), t, steps, j)
    return faulty_table(r) if i % 9 == 8 else t, records


def large(r):
    """A sound table that may fill every slot."""
    return any_table(r, r.choice([2, 9, 16, 16, 20, 21, 22, 22, 23]), 128, range(49), range(33))


def damaged_script(r):
    """The bytes of a script with some damage."""
    data = damaged(r, "script-" + r.choice(SCRIPT_DAMAGES))
    return data[2:2 + int.from_bytes(data[:2], "big")]


def inspect_call(r, i):
    """The bytes of a script; each fourth is damaged."""
    if i % 4 == 3:
        return damaged_script(r)
    t, block, _ = rich(r) if i % 4 == 1 else valid(r, i % 25, 12)
    return script_of(t, block)


def reach_call(r, i):
    """A table and an entry."""
    t = faulty_table(r) if i % 4 == 0 else rich(r)[0] if i % 4 == 1 else any_table(r, 16, 10)
    return t, r.choice([r.randrange(max(1, t.n)), max(0, t.n - 1), t.n, 128] if i % 5 == 0 else range(max(1, t.n)))


def stream_edges():
    """Limits, orders of faults and the document's examples, as (script, records)."""
    c, e = False, True
    one = made([c], [], [(0, 0), (24, 0)])
    two = made([c], [], [(0, 0), (24, 0), (24, 0)])
    mixed = made([c, e, c], [], [(0, 0), (24, 0)])
    pair = [(9, 1), (9, 2), (2, 0, 1)]

    def at(*steps, of=one):
        return records_of(of, steps)

    def run(imports, variables, entries, *steps):
        t = made(imports, variables, entries)
        return script_of(t, b"".join(b"\1%c" % (65 + i) for i, _ in enumerate(labelled(entries)))), at(*steps, of=t)

    def header(n, q, v, *more):
        return packed([(1, 8), (n, 8), (q, 6), (v, 6), *more])

    # limits
    yield run([], [], [(19,)] * 128, (0, []))
    yield run([c] * 48, [], [(0, 47), (24, 0)], (3, [(47, F)]))
    yield run([], [5] * 32, [(16, 31), (8, 0, 0), (3, 1), (24, 2)], (3, []))
    yield run([e] * 48, [], [(20, 47), (15, -47), (8, 0, 1), (24, 2)], *((j, [(i, j * i) for i in range(48)]) for j in (1, 2)))
    for script in [header(0, 0, 0), header(129, 0, 0) + bytes(90), header(1, 49, 0), header(1, 49, 0)[:3], header(1, 0, 33),
                   header(1, 0, 0, (1, 4)), header(1, 0, 0, (0, 4), (25, 5)), header(1, 0, 0, (0, 4), (31, 5)), b"\2", b"\1\0"]:
        yield script, []
    for i in range(6):
        yield bytes([1, 1, 0, 0, 0x98])[:i], []
    for size in (4096, 4097):
        yield bytes(size), []
        yield bytes([1, 1, 0, 0, 0x98]) + bytes(size - 5), []
    # labels
    for block in [b"", b"\x20" + b"~" * 32, b"\x21" + b"~" * 33, b"\x21", b"\3\1", b"\1\x1f", b"\1\x7f", b"\0"]:
        yield script_of(one, block), at((1, [(0, F)]))
    for block in [b"\1\x1f\x21", b"\1A\x21", b"\1A", b"\0\0\0"]:
        yield script_of(two, block), []
    yield packed(fields(two), "1") + b"\x21", []
    # operands: a first that is 7 or 8 and a second that is cut off, 8 before the next operand's 7
    for more in [[(4, 5), (1, 7)], [(4, 5), (0, 7)], [(17, 5), (0, 7)]]:
        yield header(2, 1, 0, (0, 5), (19, 5), *more)[:7], []
    for more in [[(4, 5), (0, 7), (9, 7)], [(17, 5), (1, 7), (0, 7)], [(17, 5), (0, 7), (1, 7)]]:
        yield header(2, 0, 0, (0, 4), (19, 5), *more), []
    for event, kind, i in [(1, 9, 1), (1, 0, 0), (0, 9, 0), (0, 20, 0)]:
        yield header(1, 1, 0, (event, 5), (kind, 5), (i, 6)), []
    yield header(3, 1, 0, (1, 5), (9, 5), (0, 6), (23, 5), (0, 7), (23, 5), (1, 7)), []
    yield header(1, 0, 0, (0, 4), (16, 5), (0, 5)), []
    yield header(1, 0, 1, (0, 4), (0, 1), (1, 48)), []
    yield header(1, 0, 1, (0, 4), (0, 1), (-1, 48))[:9], []
    yield run([], [LOW], [(16, 0), (15, LOW), (8, 0, 1), (3, 2), (24, 3)], (1, []))
    # steps
    plain = script_of(one, b"\1P")
    yield plain, []
    yield plain, at((0, []), (0, []), (1, []))
    yield plain, at((HIGH, [(0, F)]), (HIGH, []), (0, []), (5, []))
    nine, ten = at((9, []), (10, []))
    yield plain, [nine, nine[:6], nine[:5], ten[:6], ten]
    yield plain, [nine[:5], nine[:6], b"", nine]
    yield plain, [bytes(256), nine]
    yield plain, [packed(step_fields(1, [], [], 63)), packed(step_fields(2, [], [], 1)), nine]
    yield plain, at((1, [(1, T)]), (1, [(0, T), (1, T)]))
    padded = packed(step_fields(1, [], []), "1")
    yield plain, [padded, padded + b"\0", nine + b"\0", nine]
    asked = script_of(mixed, b"\1Q")
    yield asked, at((1, [(1, None), (0, T)]), (1, [(1, 5), (1, 5)]), (1, [(2, T), (0, 3)]), (1, [(2, T), (3, T)]), (1, [(63, T)]), of=mixed)
    eleven, = at((1, [(0, 3)]), of=mixed)
    yield asked, [*at((1, [(0, 3), (0, T)]), of=mixed), eleven[:7], eleven]
    valued, = at((1, [(1, -1)]), of=mixed)
    yield asked, [valued[:i] for i in range(6, len(valued))]
    yield asked, at((1, [(0, F), (1, None), (2, U)]), of=mixed)
    # the document's examples and their like
    yield run([c, c], [], [(0, 0), (0, 1), (4, 0, 1), (5, 0, 1), (6, 0, 1), *((24, k) for k in (2, 3, 4)), *((1, k) for k in (2, 3, 4)),
                           *((24, k) for k in (8, 9, 10))], *((3 * i + j, [(0, x), (1, y)]) for i, x in enumerate([U, T, F]) for j, y in enumerate([U, T, F])))
    yield run([c, e, e], [], [*pair, (24, 2)], (1, [(1, None), (2, None)]), (2, []), (3, [(1, None)]), (4, []), (5, [(1, None), (2, 4)]), (6, []))
    yield run([c], [], [(0, 0), (10, 0), (11, 0), (23, 1), (23, 2)], *((i, [(0, x)]) for i, x in enumerate([T, U, F, U, F, F, T])))
    yield run([c], [], [(0, 0), (11, 0), (23, 1)], (0, [(0, F)]))
    yield run([c, e, e], [], [*pair, (11, 2), (23, 3), (10, 2), (23, 5)], (1, []), (2, [(1, None)]), (3, [(2, None)]), (4, [(1, 1), (2, 1)]))
    yield run([c], [], [(0, 0), (1, 0), (11, 1), (23, 2), (10, 1), (23, 4)], (1, []), (2, [(0, F)]), (3, [(0, U)]))
    yield run([], [None], [(15, HIGH), (15, 1), (17, 0, 1), (16, 0), (15, 3), (7, 3, 4), (1, 5), (24, 6), (8, 2, 2), (1, 8), (24, 9)], (1, []))
    yield run([], [], [(15, 0), (15, LOW), (18, 0, 1), (8, 2, 2), (1, 3), (24, 4), (15, -1), (18, 6, 1), (15, HIGH), (8, 7, 8), (3, 9), (24, 10)], (1, []))
    told = [(1, []), (2, [(0, None)]), (3, []), (4, [(0, 9)]), (5, []), (6, [(0, None)])]
    yield run([e], [1], [(9, 0), (16, 0), (15, 2), (22, 0, 0, 2), (16, 0), (8, 1, 4), (24, 5)], *told)
    yield run([e], [1, 7], [(9, 0), (16, 0), (15, 2), (22, 0, 0, 2), (22, 0, 1, 1), (16, 1), (15, 1), (8, 5, 6), (24, 7)], *told)
    yield run([e], [1], [(9, 0), (20, 0), (22, 0, 0, 1), (16, 0), (8, 3, 3), (1, 4), (24, 5)], *told)
    yield run([e], [0], [(9, 0), (16, 0), (15, 1), (17, 1, 2), (22, 0, 0, 3), (15, 2), (8, 1, 5), (24, 6), (21, 0), (8, 8, 8), (1, 9), (24, 10)], *told)
    yield run([e, e], [0], [(9, 0), (9, 1), (15, 1), (15, 2), (22, 0, 0, 2), (22, 1, 0, 3), (16, 0), (8, 6, 2), (24, 7), (8, 6, 3), (24, 9)],
              (1, []), (2, [(0, None)]), (3, [(1, None)]), (4, [(0, None), (1, None)]), (5, [(0, 1)]))
    yield run([c], [], [(0, 0), (10, 0), (23, 1), (19,), (21, 1), (8, 3, 4), (24, 5)],
              (1, [(0, T)]), (1, [(0, F)]), (2, []), (3, [(0, 3)]), (4, [(0, F)]), (5, [(0, T)]))


def input_edges():
    """Inputs that stop or go wrong outside a script and a step."""
    plain = joined(script_of(made([], [], [(19,)])), [])
    yield from [b"", b"\0", b"\0\0", b"\0\0\0\0", b"\x10\1" + bytes(10), b"\xff\xff" + bytes(10), b"\x10\1" + bytes(4096)]
    yield from [plain + b"\0", plain + b"\0\0\0\7" + bytes(7) + b"\0\0", plain + b"\0\7" + bytes(6)]


def writer_edges():
    """Calls of the writer with one or two faults; which number comes first."""
    def table(imports={}, variables={}, entries={}, **counts):
        t = made([False, True], [1, None], [(0, 0), (9, 1), (15, 3), (23, 1), (24, 0)])
        for slots, changes in (t.imports, imports), (t.variables, variables), (t.entries, entries):
            for i, x in changes.items():
                slots[i] = x
        for name, x in counts.items():
            setattr(t, name, x)
        return t

    size = len(script_of(table(), b"\1A\0"))
    for room in (0, size - 1, size, size + 3):
        yield table(), b"\1A\0", room
    for block in [b"", b"\1A", b"\1A\2B", b"\1A\2\1", b"\x21", b"\1\x1f\x21", b"\1\x7f\0", b"\1A\0\0", b"\x20" + b" " * 32 + b"\0"]:
        yield table(), block, 60
        yield table(), block, 0
        yield table(entries={3: (23, 3)}), block, 0
    for counts in [dict(n=0), dict(n=4), dict(n=6), dict(n=129), dict(q=1), dict(q=49), dict(v=1), dict(v=33)]:
        yield table(**counts), b"\1A\0", 60
    for imports in [{2: True}, {47: True}]:
        yield table(imports), b"\1A\0", 60
        yield table(imports, {0: HIGH + 1}), b"\1A\0", 60
        yield table(imports, {}, {3: (23, 9)}), b"\1A\0", 60
    for variables in [{2: 0}, {31: 2**50}, {0: HIGH + 1}, {1: LOW - 1}, {0: HIGH}, {0: LOW}]:
        yield table({}, variables), b"\1A\0", 60
        yield table({}, variables, {3: (23, 3)}), b"\1A\0", 60
    for entries in [{127: (15, 1)}, {5: (15, HIGH + 1)}, {5: (19,)}, {5: (16, 0)}, {2: (15, HIGH)}, {2: (15, LOW)}, {2: (15, LOW - 1)},
                    {1: (9, 2), 2: (15, HIGH + 1)}, {2: (15, HIGH + 1), 3: (23, 0)}, {3: (12, 0, 9)}, {3: (12, 9, 0)}, {3: (14, 1, 1)},
                    {4: (10, 3)}, {3: (22, 0, 9, 2)}, {3: (22, 1, 2, 0)}, {3: (22, 1, 1, 0)}, {3: (22, 1, 1, 2)}, {3: (23, 129)},
                    {0: (0, 64)}, {2: (20, 0)}, {2: (15, -2**63)}]:
        yield table({}, {}, entries), b"\1A\0" if len(entries) < 2 and 3 not in entries else b"\0", 60
    full = made([True], [], [(9, 0)] + [(23, 0)] * 127)
    for room in (0, 5000):
        yield full, (b"\x20" + b"A" * 32) * 127, room


def chained(x, more):
    """Variables 0 to x in a chain, each updated from a read of the next; the updates stand in the order of `more`, and the last one's number is a value."""
    entries = [(16, 0), (9, 0)]
    for y in more:
        entries += [(16, y + 1) if y < x else (20, 1), (22, 1, y, len(entries))]
    return made([True, True], [None] * (x + 1), entries)


def reach_edges():
    """Tables and entries: updates before and after a read, chains of variables, the clock, entries that are not there."""
    mixed = made([True, False, True], [0], [(16, 0), (9, 2), (19,), (22, 1, 0, 2), (20, 0), (21, 1), (0, 1), (10, 6), (22, 7, 0, 4), (7, 0, 5), (24, 9)])
    for k in (*range(mixed.n + 1), 127, 128, 65535):
        yield mixed, k
    for more in range(6), range(5, -1, -1):
        yield chained(5, more), 0
    counting = made([True, True], [0, 0], [(9, 0), (16, 0), (15, 1), (17, 1, 2), (22, 0, 0, 3), (9, 1), (22, 5, 1, 1), (21, 5), (22, 0, 0, 7)])
    for k in range(counting.n):
        yield counting, k
    for t in made([], [], [(16, 0)]), made([], [None], [(16, 0), (15, HIGH + 1)]), made([True], [], [(0, 0)]), Table(), Table(129):
        for k in (0, 5, 128):
            yield t, k


def inspect_edges():
    """Scripts: the document's, the gate rule's, some cut short or too long, empty labels, rules without imports, a later update."""
    c, e = False, True
    yield bytes.fromhex("01 04 04 00 00 01 80 50 1B 82 04 4C 45 41 50")
    gate = script_of(made([e, e, c], [None], [(9, 1), (21, 0), (22, 0, 0, 1), (0, 2), (3, 3), (14, 0, 4), (9, 0), (10, 3), (13, 6, 7), (2, 5, 8), (16, 0),
                                              (15, 30000), (17, 10, 11), (19,), (7, 13, 12), (6, 9, 14), (24, 15)]), b"\4GATE")
    yield from [gate, gate[:-1], gate + b"\0", b"", *(gate + bytes(size - len(gate)) for size in (4096, 4097))]
    yield script_of(made([], [], [(15, 1), (8, 0, 0), (24, 1), (19,), (8, 3, 0), (24, 4)]), b"\0\0")
    yield script_of(made([e, e], [5], [(16, 0), (20, 0), (7, 0, 1), (10, 2), (23, 3), (9, 1), (20, 1), (22, 5, 0, 6)]), b"\1 ")
    yield script_of(made([e] * 12, [], [*((9, i) for i in range(12)), (13, 2, 10), (13, 1, 12), (23, 13), (23, 11)]), b"\2AB\1C")


def edges():
    """Every hand-made question."""
    for i, (script, records) in enumerate(stream_edges()):
        yield f"edge {i}", "replay", (joined(script, records),)
    for i, data in enumerate(input_edges()):
        yield f"input edge {i}", "replay", (data,)
    for i, (t, block, room) in enumerate(writer_edges()):
        yield f"writer edge {i}", "write", (t, block, bytes([170]) * room)
    for i, (t, k) in enumerate(reach_edges()):
        yield f"reach edge {i}", "reach", (t, k)
    for i, script in enumerate(inspect_edges()):
        yield f"inspect edge {i}", "inspect", (script,)


def questions(seed, count):
    """(name, function of the model, its arguments) for so many streams, and a call of the other functions for each fourth."""
    damages = [f"script-{x}" for x in SCRIPT_DAMAGES] + [f"step-{x}" for x in STEP_DAMAGES] + INPUT_DAMAGES
    for i in range(count):
        r = random.Random(f"{seed}-{i}")
        how = damages[i // 2 % len(damages)] if i % 2 else "rich" if i % 4 else "valid"
        if how in ("rich", "valid"):
            t, block, steps = rich(r) if how == "rich" else valid(r, i // 4 % 25)
            data = joined(script_of(t, block), records_of(t, steps))
        else:
            data = damaged(r, how)
        yield f"stream {i} {how}", "replay", (data,)
        if i % 4 == 0:
            yield f"writer {i}", "write", write_call(r)
            yield f"label {i}", "label", label_call(r)
            yield f"steps {i}", "steps", step_call(r, i // 4)
            yield f"reach {i}", "reach", reach_call(r, i // 4)
            yield f"inspect {i}", "inspect", (inspect_call(r, i // 4),)
