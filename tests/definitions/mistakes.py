"""Likely mistakes, planted in the model one at a time: the questions must tell each from the model as it is."""
import types

import model

# name: (what stands in model.py, what takes its place)
MISTAKES = {
    "before the first step a condition is false": ("if i > 0 else U", "if i > 0 else F"),
    "end occurs where true ends": ("return at(i, o[0]) == want and before != want",
                                   "return at(i, o[0]) == T != before if kind == 10 else at(i, o[0]) != T == before"),
    "a pair's second event closes one step late": ("for m in range(j, i + 1)", "for m in range(j, i)"),
    "a pair opens with both events in one step": ("for m in range(j, i + 1)", "for m in range(j + 1, i + 1)"),
    "an update to undefined does not count": ("== x and at(i, u):", "== x and at(i, u) and at(i, entries[u][3]) is not None:"),
    "the first update of a step wins": ("for u in range(k - 1, -1, -1)", "for u in range(k)"),
    "updates come after all conditions": ("while i >= 0:\n            for u", "i, k = i - 1, table.n\n        while i >= 0:\n            for u"),
    "a sum wraps round": ("return x if LOW <= x <= HIGH else None", "return (x + 2**47) % 2**48 - 2**47"),
    "difference turned round": ("else a - b)", "else b - a)"),
    "the value of an event is kept": ("return reports.get(o[0])", "return next((h[1][o[0]] for h in history[i::-1] if o[0] in h[1]), None)"),
    "time of an event leaves out this step": ("for j in range(i, -1, -1) if at(j, o[0])", "for j in range(i - 1, -1, -1) if at(j, o[0])"),
    "an event without a value does not occur": ("return o[0] in reports", "return reports.get(o[0]) is not None"),
    "undefined or true is undefined": ("return T if T in (a, b) else U if U in (a, b) else F", "return U if U in (a, b) else T if T in (a, b) else F"),
    "undefined implies undefined is true": ("6: either(negate(a), b)", "6: T if a == b else either(negate(a), b)"),
    "when lets undefined pass": ("14: a and b == T", "14: a and b != F"),
    "undefined equals undefined": ("return U if kind in (7, 8) else None", "return T if kind == 8 and a == b else U if kind in (7, 8) else None"),
    "not known is violated": ("kind == 24 and x == F", "kind == 24 and x != T"),
    "an equal time passes": ("time <= last", "time < last"),
    "27 before 26": ("    bits.padding(26)", "    if (bits.at + 7) // 8 != len(data):\n        raise Refused(27)\n    bits.padding(26)"),
    "a refused step's time counts": ("            out.append((r.args[0], last, []))",
                                     "            out.append((r.args[0], last, []))\n            if r.args[0] > 24:\n"
                                     "                history.append((int.from_bytes(record[:6], 'big') >> 1, {}))"),
    "8 before 7": ("        if x >= k:", "        if x < 128 and sort_of(entries[x][0]) != letter:\n            raise Refused(8)\n        if x >= k:"),
    "a long label that is cut off is 2": ("        if size > 32:", "        if at + size > len(data):\n            raise Refused(2)\n        if size > 32:"),
    "a bad byte before a text that is cut off": ("        if at + size > len(data):", "        if any(b < 0x20 for b in data[at:at + size]):\n"
                                                 "            raise Refused(10)\n        if at + size > len(data):"),
    "the header is taken whole": ("    if bits.take(8) != 1:", "    Bits(data, 2).take(32)\n    if bits.take(8) != 1:"),
    "an empty label leaves no space": ('b"%d %s %d %s\\n" %', '(b"%d %s %d %s\\n" if size else b"%d %s %d%s\\n") %'),
    "the writer looks at the block first": ("        judge_table(table)\n        read_labels(block",
                                            "        read_labels(block, 0, len(labelled(table.entries[:table.n])))\n"
                                            "        judge_table(table)\n        read_labels(block"),
    "the writer's 12 before 1": ("        if len(data) > 4096:", "        if len(data) > len(destination):\n            raise Refused(12)\n        if len(data) > 4096:"),
    "the writer's 13 before 4": ("    if any(e != UNUSED", "    if any(x is not None and not LOW <= x <= HIGH for x in table.variables):\n"
                                 "        raise Refused(13)\n    if any(e != UNUSED"),
    "reach gives 30 before 29": ("and whether the clock is.\"\"\"\n", "and whether the clock is.\"\"\"\n    if k >= table.n:\n        return 30, set(), set(), False\n"),
    "a refused reach has marks": ("return 30, set(), set(), False", "return 30, {k}, set(), False"),
    "a reach marks everything": ("    imports = {table.entries[j][1]", "    inside = set(range(table.n))\n    imports = {table.entries[j][1]"),
    "a reach leaves out its own entry": ("return 0, inside, imports", "return 0, inside - {k}, imports"),
    "a reach goes one step far": ("    while more != inside:\n        inside = more", "    for _ in range(2):\n        inside = more"),
    "an update counts as a read": ("    if kind == 16:\n        found", "    if kind == 22:\n        operands = operands[1:]\n    if kind in (16, 22):\n        found"),
    "a read leads to the updates of every variable": ("if e[0] == 22 and e[2] == operands[0]", "if e[0] == 22"),
    "reach follows earlier updates alone": ("if e[0] == 22 and e[2] == operands[0]", "if e[0] == 22 and e[2] == operands[0] and u < j"),
    "the time of an event is no clock": ("in (19, 21)", "in (19,)"),
    "the value of an event is no import": ("in (0, 9, 20)", "in (0, 9)"),
    "inspect calls every rule an alarm": ('b"alarm" if table.entries[k][0] == 23 else b"property"', 'b"alarm"'),
    "inspect drops the space of an empty label": ('b"%d %s %s\\n" %', '(b"%d %s %s\\n" if size else b"%d %s%s\\n") %'),
    "inspect leaves a space where there are no imports": ('sorted(numbers))]) + b"\\n"', 'sorted(numbers))]) + (b"\\n" if numbers else b" \\n")'),
    "inspect takes 10 before 9": ("in sorted(numbers)", "in sorted(numbers, key=str)"),
    "inspect shows a label of another rule": ("for k, (start, size) in places.items():", "for k, (start, size) in zip(places, [*places.values()][::-1]):"),
    "inspect cuts a long script": ('prints for the bytes of a script."""\n', 'prints for the bytes of a script."""\n    script = script[:4096]\n'),
}


def found(deck):
    """Whether each mistake is found; prints a line each."""
    with open(model.__file__) as file:
        source = file.read()
    right = [getattr(model, what)(*args) for _, what, args in deck]
    count = 0
    for name, (before, after) in MISTAKES.items():
        assert source.count(before) == 1, name
        wrong = types.ModuleType("wrong")
        exec(compile(source.replace(before, after), "wrong", "exec"), wrong.__dict__)
        told = [question for (question, what, args), answer in zip(deck, right) if getattr(wrong, what)(*args) != answer]
        count += bool(told)
        print(f"{name}: {f'{len(told)} tell, first {told[0]}' if told else 'NOT FOUND'}")
    print(f"{count} of {len(MISTAKES)} found")
    return count == len(MISTAKES)
