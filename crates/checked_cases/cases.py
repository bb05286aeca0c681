#!/usr/bin/env python3
"""Writes stdin and stdout of the program checked_cases beside this file: graphs and AIGER files for document 02, No. 7, the
second output `checked`, each with its answer. What is expected comes from the model below, which is written from the
documents alone; nothing is computed by the program. The values that the request's worked cases give stand here as they
are given there, and the model is held to them. Each run of a graph is counted a second time, by settings and paths.

A case in stdin is nine fields, each a line with its length and then that many bytes: name, kind, text, numbers lent,
cycles, rejected, checked, trace, trace of a second run. In stdout it is a line: name and answer, parted by a tab. A kind is
`b`, build without checked, `c`, with it, or `f`, read a file; then `n` for the numbers alone, `a` to show the file, `r` to
run it."""
import os

here = os.path.dirname(os.path.abspath(__file__))
cases = []

LANES = 64
ONES = 2**LANES - 1
MOST = 2**32 - 1
LENT = 8195
ROOM = 131072


# ---- graph text: documents 01 and 02, No. 3 and 5
class Graph:
    """An accepted text. A wire is an input or a latch: ("input", v), from 1, or ("constant", j), from 0."""

    def __init__(self, records):
        self.rule, self.names, self.vertices, self.edges = None, {}, [], []
        self.signals = self.constants = self.operators = 0
        for record in records:
            kind, *fields = record.split(" ")
            if kind == "M":
                self.rule = fields[0]
            elif kind in "SK":
                self.declare(kind, fields[0], int(fields[1]) if fields[1:] else 1)
            elif kind == "V":
                self.vertices.append(fields[0])
            else:
                start, end, mark, antecedent, consequent = fields
                places = self.vertices.index(start), self.vertices.index(end)
                self.edges.append((*places, mark == "t", self.formula(antecedent), self.formula(consequent)))
        marked = any(edge[2] for edge in self.edges)
        every = self.rule == "strong" or self.rule is None and not marked
        self.terminal = [every or edge[2] for edge in self.edges]

    def declare(self, kind, name, width):
        if kind == "S":
            self.names[name] = [("input", 2 + self.signals + i) for i in range(width)]
            self.signals += width
        else:
            self.names[name] = [("constant", self.constants + i) for i in range(width)]
            self.constants += width

    def formula(self, text):
        """A tree: a wire, a truth value, ("!", t), ("==", wires, wires), or an operator with two trees."""
        tree, rest = self.expression(text, 0)
        assert rest == "", text
        return tree

    def expression(self, text, strength):
        tree, text = self.operand(text)
        while text and text[0] in "=|^&" and "=|^&".index(text[0]) >= strength:
            operator = text[0]
            right, text = self.expression(text[1:], "=|^&".index(operator) + 1)
            self.operators += 1
            tree = (operator, tree, right)
        return tree, text

    def operand(self, text):
        if text[0] == "!":
            tree, text = self.operand(text[1:])
            return ("!", tree), text
        if text[0] == "(":
            tree, text = self.expression(text[1:], 0)
            assert text[0] == ")"
            return tree, text[1:]
        if text[0] in "01":
            return text[0] == "1", text[1:]
        wires, text = self.name(text)
        if text.startswith("=="):
            other, text = self.name(text[2:])
            assert len(wires) == len(other)
            self.operators += 4 * len(wires) - 1
            return ("==", wires, other), text
        if text.startswith("["):
            index, text = text[1:].split("]", 1)
            return wires[int(index)], text
        assert len(wires) == 1
        return wires[0], text

    def name(self, text):
        length = 0
        while length < len(text) and (text[length].isalnum() or text[length] == "_"):
            length += 1
        return self.names[text[:length]], text[length:]


# ---- building: document 01 and, after accept, the request's checked
class Netlist:
    def __init__(self, inputs, latches, outputs, gates):
        self.inputs, self.latches, self.outputs, self.gates = inputs, latches, outputs, gates

    def maximum(self):
        return self.inputs + len(self.latches) + len(self.gates)

    def numbers(self):
        header = [self.maximum(), self.inputs, len(self.latches), len(self.outputs), len(self.gates)]
        return header + [n for latch in self.latches for n in latch] + self.outputs + [n for gate in self.gates for n in gate]

    def file(self):
        """Its lines."""
        inputs, latches = self.inputs, len(self.latches)
        lines = ["aag " + " ".join(map(str, self.numbers()[:5]))]
        lines += [str(2 * v) for v in range(1, inputs + 1)]
        for j, (following, reset) in enumerate(self.latches):
            lines.append(f"{2 * (inputs + 1 + j)} {following}" + (f" {reset}" if reset else ""))
        lines += map(str, self.outputs)
        return lines + [f"{2 * (inputs + latches + 1 + k)} {r0} {r1}" for k, (r0, r1) in enumerate(self.gates)]


class Builder:
    def __init__(self, graph, checked):
        self.inputs, self.gates = 1 + graph.signals, []
        self.first_latch = self.inputs + 1
        self.first_gate = self.first_latch + graph.constants + 2 * len(graph.edges)
        happy = [2 * (self.first_latch + graph.constants + 2 * e) for e in range(len(graph.edges))]
        masked = [(self.both(h, 3), self.both(h + 2, 3)) for h in happy]
        reached = []
        for v in range(len(graph.vertices)):
            into = [e for e, edge in enumerate(graph.edges) if edge[1] == v]
            first = self.either(([2] if v == 0 else []) + [masked[e][0] for e in into])
            reached.append((first, self.either([masked[e][1] for e in into])))
        self.now = [self.edge(edge, reached) for edge in graph.edges]
        terminal = [now for now, chosen in zip(self.now, graph.terminal) if chosen]
        outputs = [self.all([condemned ^ 1 for _, condemned in terminal])]
        if checked:
            alive = [self.both(h ^ 1, c ^ 1) ^ 1 for h, c in terminal]
            outputs.append(self.either(alive))
        own = [2 * (self.first_latch + j) for j in range(graph.constants)]
        latches = [(lit, lit) for lit in own] + [(lit, 0) for now in self.now for lit in now]
        self.netlist = Netlist(self.inputs, latches, outputs, self.gates)

    def both(self, a, b):
        self.gates.append((max(a, b), min(a, b)))
        return 2 * (self.first_gate + len(self.gates) - 1)

    def all(self, terms):
        lit = terms[0] if terms else 1
        for term in terms[1:]:
            lit = self.both(lit, term)
        return lit

    def either(self, terms):
        lit = terms[0] if terms else 0
        for term in terms[1:]:
            lit = self.both(lit ^ 1, term ^ 1) ^ 1
        return lit

    def differ(self, a, b):
        first = self.both(a, b)
        return self.both(first ^ 1, self.both(a ^ 1, b ^ 1) ^ 1)

    def wire(self, kind, n):
        return 2 * n if kind == "input" else 2 * (self.first_latch + n)

    def formula(self, tree):
        if tree in (False, True):
            return int(tree)
        if tree[0] in ("input", "constant"):
            return self.wire(*tree)
        if tree[0] == "!":
            return self.formula(tree[1]) ^ 1
        if tree[0] == "==":
            return self.all([self.differ(self.wire(*a), self.wire(*b)) ^ 1 for a, b in zip(*tree[1:])])
        a = self.formula(tree[1])
        b = self.formula(tree[2])
        if tree[0] == "&":
            return self.both(a, b)
        if tree[0] == "|":
            return self.both(a ^ 1, b ^ 1) ^ 1
        return self.differ(a, b) ^ (tree[0] == "=")

    def edge(self, edge, reached):
        happy, condemned = reached[edge[0]]
        a = self.formula(edge[3])
        c = self.formula(edge[4])
        p = self.both(a, happy)
        now = self.both(p, c)
        q = self.both(p, c ^ 1)
        r = self.both(a, condemned)
        return now, self.both(q ^ 1, r ^ 1) ^ 1


def build(graph, checked):
    made = Builder(graph, checked)
    edges, terminal = len(graph.edges), sum(graph.terminal)
    into = {edge[1] for edge in graph.edges}
    formulas = sum(gates_of(tree) for edge in graph.edges for tree in edge[3:])
    formula = 7 * edges + (edges - len(into - {0})) + (edges - len(into)) + max(terminal - 1, 0) + formulas
    if checked and terminal:
        formula += 2 * terminal - 1
    assert formula == len(made.gates)
    assert formula <= (12 if checked else 10) * edges + 3 * graph.operators
    assert len(made.netlist.outputs) == (2 if checked else 1)
    return made


def gates_of(tree):
    if tree in (False, True) or tree[0] in ("input", "constant"):
        return 0
    if tree[0] == "==":
        return 4 * len(tree[1]) - 1
    return {"!": 0, "&": 1, "|": 1, "^": 3, "=": 3}[tree[0]] + sum(map(gates_of, tree[1:]))


# ---- simulation: document 01
class Run:
    """A netlist that was started, with a tally put in."""

    def __init__(self, netlist, tally):
        self.netlist, self.tally, self.latches = netlist, list(tally), []
        self.cycles, self.words = [], []
        free = 0
        for j, (_, reset) in enumerate(netlist.latches):
            if reset < 2:
                self.latches.append(ONES * reset)
            else:
                assert reset == 2 * (netlist.inputs + 1 + j)
                self.latches.append(sum((n >> free & 1) << n for n in range(LANES)))
                free += 1
        assert free <= 6

    def refusal(self, cycles):
        """Of so many new cycles: the first wrong line, then the tally."""
        for line, cycle in enumerate(cycles, 1):
            if len(cycle) != self.netlist.inputs or set(cycle) - set("01"):
                return f"refused 15 {line}"
        if any(number + len(cycles) > MOST for number in self.tally):
            return "refused 17 0"
        return None

    def cycle(self, cycle):
        """Both output words, which are kept."""
        words = [0] + [ONES * int(b) for b in cycle] + self.latches

        def word(lit):
            return words[lit // 2] ^ ONES * (lit % 2)

        for r0, r1 in self.netlist.gates:
            words.append(word(r0) & word(r1))
        self.latches = [word(following) for following, _ in self.netlist.latches]
        outputs = [word(lit) for lit in self.netlist.outputs]
        accept, checked = outputs if len(outputs) == 2 else (outputs[0], 0)
        self.tally[0] += 1
        self.tally[1] += accept != ONES
        self.tally[2] += checked != 0
        self.cycles.append(cycle)
        self.words.append((accept, checked))
        return accept, checked

    def shown(self):
        return " " + " ".join(map(str, self.tally))

    def run(self, trace):
        refused = self.refusal(trace)
        if refused:
            return " " + refused + self.shown()
        digits = "".join(str(int(self.cycle(cycle)[0] != ONES)) for cycle in trace)
        verdict = "rejected" if "1" in digits else "accepted"
        return f" [{digits}] {verdict}" + self.shown()

    def steps(self, trace):
        said = ""
        for cycle in trace:
            refused = self.refusal([cycle])
            if refused:
                return f"{said} {refused}{self.shown()}"
            said += " %016x/%016x" % self.cycle(cycle)
        return said + self.shown()


# ---- settings and paths: what demand 3 and the request count, with no latch and no gate
def holds(tree, cycle, setting):
    if tree in (False, True):
        return tree
    if tree[0] == "input":
        return cycle[tree[1] - 1] == "1"
    if tree[0] == "constant":
        return setting[tree[1]]
    if tree[0] == "==":
        return all(holds(a, cycle, setting) == holds(b, cycle, setting) for a, b in zip(*tree[1:]))
    told = [holds(part, cycle, setting) for part in tree[1:]]
    return {"!": not told[0], "&": all(told), "|": any(told), "^": told[0] != told[-1], "=": told[0] == told[-1]}[tree[0]]


def paths(graph, cycles, setting, vertex=0):
    """Each path from the vertex, an edge for each cycle, whose antecedents all hold: its last edge, and whether all its
    consequents hold."""
    for e, (start, end, _, antecedent, consequent) in enumerate(graph.edges):
        if start == vertex and holds(antecedent, cycles[0], setting):
            met = holds(consequent, cycles[0], setting)
            if cycles[1:]:
                yield from ((last, met and rest) for last, rest in paths(graph, cycles[1:], setting, end))
            else:
                yield e, met


def judged(graph, trace, setting):
    """For each cycle: whether it has a rejecting path, and whether a path to a terminal edge meets all antecedents."""
    for n in range(len(trace)):
        inits = [k for k in range(n + 1) if trace[k][0] == "1"]
        found = list(paths(graph, trace[inits[-1] : n + 1], setting)) if inits else []
        ended = [met for last, met in found if graph.terminal[last]]
        yield not all(ended), bool(ended)


def check_paths(graph, run, before, checked):
    """Holds the words of a run to the paths, lane by lane, and its tally to the cycles that have one under some setting."""
    rejected, at_stake = set(), set()
    for lane in range(2**graph.constants):
        setting = [lane >> j & 1 == 1 for j in range(graph.constants)]
        for k, (rejecting, ended) in enumerate(judged(graph, run.cycles, setting)):
            accept, second = run.words[k]
            for n in range(lane, LANES, 2**graph.constants):
                assert accept >> n & 1 == (not rejecting)
                assert second >> n & 1 == (ended and checked)
            rejected |= {k} if rejecting else set()
            at_stake |= {k} if ended and checked else set()
    counts = len(run.cycles), len(rejected), len(at_stake)
    assert run.tally == [b + n for b, n in zip(before, counts)]


# ---- cases
def lines(*records):
    """Records with blanks for tabs, one a line."""
    return b"".join(r.replace(" ", "\t").encode() + b"\n" for r in records)


def add(name, kind, text, answer, lent=LENT, tally=(0, 0, 0), trace=(), then=()):
    told = [str(n) for n in (lent, *tally)]
    runs = ["".join(cycle + "\n" for cycle in t) for t in (trace, then)]
    fields = [name.encode(), kind.encode(), text] + [f.encode() for f in (*told, *runs)]
    cases.append((fields, f"{name}\t{answer}\n"))


def said_of(netlist, kind, tally, trace, then):
    """What is said of a netlist after how it came, and what ran: by run, and by step."""
    text = "".join(line + "\n" for line in netlist.file())
    total = 0
    for b in text.encode():
        total = (total * 257 + b) % 4294967291
    said = f", {len(netlist.numbers())} numbers, sum {total}"
    if kind[1] == "a":
        said += ", " + text.replace("\n", ",")
    if kind[1] != "r":
        return said, []
    run, steps = Run(netlist, tally), Run(netlist, tally)
    said += "; start 0 0 0; run" + run.run(trace)
    if then:
        said += "; then" + run.run(then)
    return said + "; steps" + steps.steps(trace), [run, steps]


def graph(name, records, kind, tally=(0, 0, 0), trace="", then="", lent=LENT):
    """A graph, built without checked or with it: what was made, the words of the steps, and the answer, which may be a
    refusal 11 or 12."""
    read, checked = Graph(records), kind[0] == "c"
    made = build(read, checked)
    netlist, ran = made.netlist, []
    trace, then = trace.split(), then.split()
    if netlist.maximum() > 4095:
        answer = "refused 11 0"
    elif len(netlist.numbers()) > lent:
        answer = "refused 12 0"
    else:
        said, ran = said_of(netlist, kind, tally, trace, then)
        answer = f"{len(netlist.gates)} gates" + said
    for run in ran:
        check_paths(read, run, tally, checked)
    shown = "with checked" if checked else "without"
    add(f"{name}, {shown}", kind, lines(*records), answer, lent, tally, trace, then)
    return made, ran[-1].words if ran else [], answer


def both(name, records, question, **given):
    """Without checked and with it."""
    return graph(name, records, "b" + question, **given), graph(name, records, "c" + question, **given)


def refused_graph(name, records, number, line, lent=LENT):
    add(name + ", with checked", "cn", lines(*records), f"refused {number} {line}", lent)


def rows(file):
    """The lines of a file, parted here by commas."""
    return [line.strip() for line in file.split(",")]


def file(name, text, trace="", then="", tally=(0, 0, 0)):
    """A file within the subset: shown as it is written again, and run. The words of the steps, and what is said."""
    text = rows(text)
    maximum, inputs, latches, outputs, gates = map(int, text[0].split()[1:])
    numbers = [list(map(int, line.split())) for line in text[1:]]
    parts = numbers[inputs : inputs + latches], numbers[inputs + latches : inputs + latches + outputs]
    netlist = Netlist(
        inputs,
        [(n[1], n[2] if n[2:] else 0) for n in parts[0]],
        [n[0] for n in parts[1]],
        [tuple(n[1:]) for n in numbers[inputs + latches + outputs :]],
    )
    assert netlist.file() == text and netlist.maximum() == maximum and len(netlist.gates) == gates
    given = "".join(line + "\n" for line in text).encode()
    head = f"{len(netlist.numbers())} numbers read"
    add("file: " + name, "fa", given, head + said_of(netlist, "fa", tally, (), ())[0])
    trace, then = trace.split(), then.split()
    said, ran = said_of(netlist, "fr", tally, trace, then)
    add("file: " + name + ", run", "fr", given, head + said, LENT, tally, trace, then)
    return ran[-1].words, said


def refused_file(name, text, number, line, lent=LENT):
    given = "".join(line + "\n" for line in rows(text)).encode()
    add("file: " + name, "fn", given, f"refused {number} {line}", lent)


def seconds(words):
    return [checked for _, checked in words]


def last_gates(netlist, count):
    return [n for gate in netlist.gates[-count:] for n in gate]


def ends(said, part):
    """The tally at the end of a part of an answer."""
    return [int(n) for n in said.split(f"; {part}")[1].split(";")[0].split()[-3:]]


A = 0xAAAAAAAAAAAAAAAA
G = ["S p", "S q", "V a", "V b", "E a b t p q"]
G_FILE = "aag 12 3 2 1 7, 2, 4, 6, 8 18, 10 25, 24, 12 8 3, 14 10 3, 16 4 2, 18 16 6, 20 16 7, 22 4 0, 24 23 21"
G_CHECKED = (
    "aag 13 3 2 2 8, 2, 4, 6, 8 18, 10 25, 24, 27, 12 8 3, 14 10 3, 16 4 2, 18 16 6, 20 16 7, 22 4 0, 24 23 21, 26 24 19"
)
LOOP = "E a a t 1 1"

# ---- the request's worked cases
made, _, _ = graph("7.1 G", G, "ba")
assert made.netlist.file() == rows(G_FILE)

made, _, _ = graph("7.2 G", G, "ca")
assert made.netlist.file() == rows(G_CHECKED)

made, _, _ = graph("7.3 no edge", ["V a"], "ca")
assert made.netlist.file() == rows("aag 1 1 0 2 0, 2, 1, 0")

(plain, _, _), (made, _, _) = both("7.4 no terminal edge", ["M terminal", "V a", "E a a - 1 1"], "a")
assert (made.netlist.outputs, len(plain.gates), len(made.gates)) == ([1, 0], 8, 8)

(plain, _, _), (made, _, _) = both("7.5 two terminal edges", [*G, "E b b t p 1"], "a")
assert len(plain.gates) == 17
assert (len(made.gates), made.netlist.outputs[1], last_gates(made.netlist, 3)) == (20, 55, [36, 31, 46, 41, 52, 50])

(plain, _, _), (made, _, _) = both("7.6 three loops", ["V a"] + [LOOP] * 3, "n")
assert (len(plain.gates), len(made.gates), 12 * 3) == (28, 33, 36)

(plain, _, _), (made, _, _) = both("7.7 128 loops", ["V a"] + [LOOP] * 128, "n")
assert (len(made.gates), 12 * 128) == (1533, 1536)

(plain, _, _), (made, _, _) = both("7.8 the middle one not terminal", ["V a", LOOP, "E a a - 1 1", LOOP], "a")
alive = [[condemned ^ 1, happy ^ 1] for happy, condemned in (made.now[0], made.now[2])]
assert len(made.gates) - len(plain.gates) == 3
assert last_gates(made.netlist, 3)[:4] == alive[0] + alive[1]

_, words, said = graph("7.9 G on 110 111 010", G, "cr", trace="110 111 010")
assert (ends(said, "run"), seconds(words)) == ([3, 1, 2], [ONES, ONES, 0])

_, words, said = graph("7.10 G on 110 111 010", G, "br", trace="110 111 010")
assert (ends(said, "run"), seconds(words)) == ([3, 1, 0], [0, 0, 0])

_, words, said = graph("7.11 no init", G, "cr", trace="010")
assert (ends(said, "run"), seconds(words)) == ([1, 0, 0], [0])

K = ["S p", "K k", "V a", "E a a t k p"]
_, words, said = graph("7.12 a constant, accepted", K, "cr", trace="11")
assert (ends(said, "run"), seconds(words)) == ([1, 0, 1], [A])

_, words, said = graph("7.13 a constant, rejected", K, "cr", trace="10")
assert (ends(said, "run"), seconds(words)) == ([1, 1, 1], [A])

_, words, said = graph("7.14 an antecedent fails", ["S p", "V a", "E a a t p 1"], "cr", trace="10")
assert (ends(said, "run"), seconds(words)) == ([1, 0, 0], [0])

_, words, said = graph("7.15 ends on no terminal edge", ["V a", "V b", "E a b - 1 1", "E b b t 1 1"], "cr", trace="1 0")
assert (ends(said, "run"), seconds(words)) == ([2, 0, 1], [0, ONES])

_, words, said = graph("7.16 condemned is alive", ["S p", "V a", "E a a t 1 p"], "cr", trace="10 01")
assert (ends(said, "run"), seconds(words)) == ([2, 2, 2], [ONES, ONES])

_, _, said = graph("7.17 third number full", G, "br", tally=(0, 0, MOST), trace="110")
assert said.split("; steps ")[1] == "refused 17 0 0 0 4294967295"

_, _, said = graph("7.18 third number one below", G, "br", tally=(0, 0, MOST - 1), trace="110 111", then="110")
assert "; run refused 17 0 0 0 4294967294; then [1] rejected 1 1 4294967294;" in said

refused_file("7.19 second output missing", "aag 1 1 0 2 0, 2, 2", 13, 4)
refused_file("7.19 three outputs", "aag 1 1 0 3 0, 2, 2", 14, 1)
refused_file("7.19 second output 4", "aag 1 1 0 2 0, 2, 2, 4", 14, 4)
file("7.19 both outputs", "aag 1 1 0 2 0, 2, 2, 3", "0 1 1")

EQUAL, DIFFER = "=".join("p" * 9), "^".join("p" * 9)
(_, _, said), (_, _, refusal) = both("7.20 68 edges", ["S p", "V a"] + [f"E a a t {EQUAL} {DIFFER}"] * 68, "n")
assert (said.split(",")[0], refusal) == ("3942 gates", "refused 11 0")

made, _, _ = graph("7.21 three loops", ["V a"] + [LOOP] * 3, "ca")
assert (made.netlist.maximum(), made.netlist.outputs) == (40, [70, 81])
assert last_gates(made.netlist, 5) == [46, 41, 56, 51, 66, 61, 74, 72, 78, 76]

# ---- which edges are terminal: document 02, No. 5
FALSE = "E a a - 1 0"
UNMARKED = [*G[:-1], "E a b - p q"]
for rule in ("strong", "terminal"):
    both(f"M {rule}, one of two marked", [f"M {rule}", "V a", FALSE, LOOP], "r", trace="1 0 1")
    both(f"M {rule}, G unmarked", [f"M {rule}", *UNMARKED], "r", trace="110 111 100 010")
    both(f"M {rule}, no edge", [f"M {rule}", "V a"], "r", trace="1 0")
graph("M strong, one of two marked, its file", ["M strong", "V a", FALSE, LOOP], "ca")
both("one of two marked", ["V a", FALSE, LOOP], "r", trace="1 0 1")
both("no edge marked", ["V a", FALSE, FALSE], "r", trace="0 1 0")
both("G unmarked", UNMARKED, "r", trace="110 111 100 010")

# ---- names of several bits: No. 3
both("== of 3 bits", ["S a 3", "S b 3", "V v", "E v v t a==b 1"], "a")
both("constants of 2 bits", ["K k 2", "V v", "E v v t k[1] k[0]"], "a")
WIDE = ["S a 2", "K k 2", "V v", "E v v t a==k k[1]"]
_, words, said = graph("a constant of 2 bits", WIDE, "cr", trace="100 110 101 111")
assert (ends(said, "run"), seconds(words)) == ([4, 2, 4], [0x1111111111111111 << n for n in range(4)])
graph("a constant of 2 bits", WIDE, "br", trace="100 110 101 111")
# the counter must hold still where the constant says so
STILL = ["S c 4", "S p", "K k 4", "K j 2", "V v", "V w", "E v w - c==k&p 1", "E w w t !j[0]|p c==k", "E w v - 1 j[1]"]
both("a counter of 4 bits", STILL, "r", trace="110101 010111 010100 101011 001011 001110 001110")
ALL_SIX, NO_SIX = ("&".join(f"{sign}k[{n}]" for n in range(6)) for sign in ("", "!"))
both("six constants, one lane", ["K k 6", "V v", f"E v v t {ALL_SIX} k[5]"], "r", trace="1 0")
both("six constants, one lane rejected", ["K k 6", "V v", f"E v v t {NO_SIX} k[5]"], "r", trace="1 0")
HUGE = ["S x 16", "S y 16", "S z 16", "S w 15", "V v", "E v v t x==y x[0]=w[14]"]
both("64 inputs", HUGE, "r", trace=f"{'1' * 64} 0{'1' * 62}0 {'0' * 64}")

# ---- inits: a path starts at the latest one
LATE = ["S p", "S q", "V a", "V b", "V c", "E a b - p q", "E b c t 1 1"]
both("init in mid-trace", LATE, "r", trace="110 100 000")
both("init in mid-trace, a new path", LATE, "r", trace="110 110 000 000")
both("no init at first", LATE, "r", trace="010 011 110 000")
both("several inits", [*G, "E b b t p 1"], "r", trace="110 011 001 111 110 010 000 100 111 010 010")
both("init in each cycle", [*G, "E b b t p 1"], "r", trace="110 111 100 101 110")
both("never an init", [*G, "E b b t p 1"], "r", trace="010 011 001 010")
graph("a second run goes on from the first", LATE, "cr", trace="110", then="000 000")
graph("a second run with an init", [*G, "E b b t p 1"], "cr", trace="110 011", then="010 111 000 010")
graph("an empty trace", G, "cr")
graph("an empty trace, tally full", G, "cr", tally=(MOST, MOST, MOST))
# a consequent that fails on one of two paths to the same edge
FORK = ["S p", "K k", "V a", "V b", "V c", "E a b - k p", "E a c - !k 1", "E b a t 1 1", "E c a - 1 1", "E c b t p !p"]
both("paths that meet", FORK, "r", trace="10 00 01 01 10 01 11 01")

# ---- the tally: 17 guards each of its numbers, whatever the number of outputs
for place in range(3):
    full, below = [0, 0, 0], [0, 0, 0]
    full[place], below[place] = MOST, MOST - 1
    both(f"number {place + 1} full", G, "r", tally=full, trace="110")
    both(f"number {place + 1} one below", G, "r", tally=below, trace="110", then="110")
    both(f"number {place + 1} one below, two cycles", G, "r", tally=below, trace="110 110", then="010")
both("all numbers three below", G, "r", tally=[MOST - 3] * 3, trace="110 111 010", then="010")
both("a tally put in", G, "r", tally=(10, 20, 30), trace="110 111 010", then="000 110")
both("a wrong line", G, "r", tally=(1, 2, 3), trace="110 11 010")
both("a byte that is no bit", G, "r", trace="110 111 012", then="111")
both("a wrong line and a full tally", G, "r", tally=(0, 0, MOST), trace="110 1111")

# ---- buffers: G has 24 numbers without checked and 27 with it
for lent in (23, 24, 26, 27):
    both(f"G, {lent} numbers lent", G, "n", lent=lent)
both("no edge, 7 numbers lent", ["V a"], "a", lent=7)
both("no edge, 6 numbers lent", ["V a"], "n", lent=6)
both("no number lent", ["V a"], "n", lent=0)

# ---- 4,095 variables: one input, two latches for each of six loops, and 4,082 gates
def six(differs, joins):
    """Six loops with so many times `^` and `&`, of which a label holds 127 at most."""
    labels = ["1" + "^0" * min(127, max(0, differs - 127 * n)) for n in range(11)] + ["1" + "&1" * joins]
    return ["V a", *[f"E a a t {labels[k]} {labels[k + 1]}" for k in range(0, 12, 2)]]


# 42 for the edges, 6 and 5 at the vertex, 5 for accept and 11 for checked: 69
_, (made, _, said) = both("4,095 variables", six(1337, 2), "n")
assert (made.netlist.maximum(), len(made.netlist.numbers())) == (4095, 8195)
(made, _, _), (_, _, said) = both("4,096 variables", six(1337, 3), "n")
assert (made.netlist.maximum(), said) == (4085, "refused 11 0")
(made, _, said), _ = both("4,095 variables by accept alone", six(1341, 1), "n")
assert (made.netlist.maximum(), len(made.netlist.numbers())) == (4095, 8194)
graph("4,095 variables, a number short", six(1337, 2), "cn", lent=8194)
graph("4,096 variables, no number lent", six(1337, 3), "cn", lent=0)
_, words, _ = graph("4,095 variables, run", six(1337, 2), "cr", trace="0 1 0")
assert seconds(words) == [0, ONES, ONES]

# ---- refusals of a graph's text are the same with checked
refused_graph("no vertex", ["M terminal"], 10, 0, lent=0)
refused_graph("129 edges", ["V a"] + [LOOP] * 129, 4, 130)
refused_graph("a wide name", ["S a 2", "V v", "E v v t a 1"], 19, 3, lent=0)
refused_graph("an unknown vertex", ["V a", "E a b t 1 1"], 6, 2)

# ---- files of one output or two, which need not be monitors
file("G without checked", G_FILE, "110 111 010")
file("G with checked", G_CHECKED, "110 111 010")
HALF = "2, 4, {}, 6 4 2, 8 5 3, 10 9 7"
words, said = file("half adder, sum and carry", "aag 5 2 0 2 3, " + HALF.format("10, 6"), "00 01 10 11", "11 11")
assert words == [(0, 0), (ONES, 0), (ONES, 0), (0, ONES)]
assert (ends(said, "run"), ends(said, "then")) == ([4, 2, 1], [6, 4, 3])
words, said = file("half adder, carry and sum", "aag 5 2 0 2 3, " + HALF.format("6, 10"), "00 01 10 11")
assert ends(said, "run") == [4, 3, 2]
file("half adder, sum alone", "aag 5 2 0 1 3, " + HALF.format("10"), "00 01 10 11")
words, said = file("no init, second output true", "aag 1 1 0 2 0, 2, 1, 1", "0 0")
assert ends(said, "run") == [2, 0, 2]
file("both outputs the same", "aag 1 1 0 2 0, 2, 2, 2", "0 1")
file("a latch and its inverse", "aag 2 1 1 2 0, 2, 4 5, 4, 5", "0 0 1 1")
file("toggle with enable and reset", "aag 7 2 1 2 4, 2, 4, 6 14, 6, 7, 8 6 2, 10 7 3, 12 11 9, 14 12 4", "11 01 11 11 10 01")
words, said = file("two uninitialised latches", "aag 4 1 2 2 1, 2, 4 4 4, 6 6 6, 3, 8, 8 6 4", "0 1")
assert (ends(said, "run"), seconds(words)) == ([2, 1, 2], [0x8888888888888888] * 2)
file("second output full", "aag 1 1 0 2 0, 2, 1, 2", "1 0", "0 1", tally=(0, 0, MOST - 2))
refused_file("no output", "aag 1 1 0 0 0, 2", 14, 1)
refused_file("no output, one line", "aag 1 1 0 0 0, 2, 2", 14, 1)
refused_file("three outputs", "aag 1 1 0 3 0, 2, 2, 2, 2", 14, 1)
refused_file("65535 outputs", "aag 1 1 0 65535 0, 2, 2", 14, 1)
refused_file("first output 4", "aag 1 1 0 2 0, 2, 4, 2", 14, 3)
refused_file("both outputs in one line", "aag 1 1 0 2 0, 2, 2 3", 13, 3)
refused_file("one output of two", "aag 3 2 0 2 1, 2, 4, 6, 6 4 2", 13, 5)
refused_file("two outputs of one", "aag 3 2 0 1 1, 2, 4, 6, 6, 6 4 2", 13, 5)
refused_file("a third output", "aag 1 1 0 2 0, 2, 2, 3, 2", 13, 5)
refused_file("G with checked, 26 numbers lent", G_CHECKED, 12, 0, lent=26)


# ---- graphs made at random, always the same ones
class Dice:
    def __init__(self, seed):
        self.seed = seed

    def below(self, n):
        self.seed = (self.seed * 6364136223846793005 + 1442695040888963407) % 2**64
        return (self.seed >> 33) % n

    def one_of(self, things):
        return things[self.below(len(things))]

    def formula(self, bits, depth):
        if depth == 0 or self.below(3) == 0:
            return self.one_of(bits)
        if self.below(4) == 0:
            return "!" + self.formula(bits, depth - 1)
        return "(" + self.formula(bits, depth - 1) + self.one_of("&^|=") + self.formula(bits, depth - 1) + ")"

    def graph(self):
        constants, vertices, edges = self.below(3), 1 + self.below(3), 1 + self.below(5)
        bits = ["p", "q", "w[0]", "w[1]"] + [f"k{n}" for n in range(constants)] * 2
        rule = self.one_of([[], [], [], ["M strong"], ["M terminal"]])
        records = [*rule, "S p", "S w 2", "S q", *[f"K k{n}" for n in range(constants)], *[f"V v{n}" for n in range(vertices)]]
        for e in range(edges):
            start, end = self.below(vertices) if e else 0, self.below(vertices)
            antecedent, consequent = self.formula(bits + ["1"] * 6, 1), self.formula(bits, 2)
            records.append(f"E v{start} v{end} {self.one_of('t-')} {antecedent} {consequent}")
        return records

    def trace(self):
        """An init in one cycle of three, and in the first two times of three."""
        inits = [int(self.below(3) > 0)] + [int(self.below(3) == 0) for _ in range(1 + self.below(6))]
        return " ".join(str(init) + "".join(self.one_of("01") for _ in range(4)) for init in inits)


dice, counted = Dice(7), set()
for n in range(60):
    _, words, said = graph(f"made at random, {n + 1}", dice.graph(), "cr", trace=dice.trace())
    counted.add(tuple(number > 0 for number in ends(said, "run")[1:]))
assert len(counted) == 3, counted

names = [fields[0] for fields, _ in cases]
assert len(set(names)) == len(names), sorted(n for n in names if names.count(n) > 1)
with open(os.path.join(here, "stdin"), "wb") as f:
    for fields, _ in cases:
        for field in fields:
            f.write(f"{len(field)}\n".encode() + field)
    assert f.tell() < ROOM
with open(os.path.join(here, "stdout"), "w") as f:
    f.writelines(line for _, line in cases)
