#!/usr/bin/env python3
"""Writes stdin and stdout of the program examples beside this file: document 01's bench examples of graphs,
the gates of graphs by which edges are terminal (document 02, No. 5) and by widths (No. 3), and examples of AIGER files,
each with its answer. The answers are written here by hand; nothing is computed by the program.

An example in stdin is five fields, each a line with its length and then that many bytes: name, text, the text when it is
written again where that differs, trace, answer. In stdout it is a line: name, answer and `ok`, parted by tabs."""
import os

here = os.path.dirname(os.path.abspath(__file__))
examples = []


def lines(*records):
    """Records with blanks for tabs, one a line."""
    return b"".join(r.replace(" ", "\t").encode() + b"\n" for r in records)


def rows(file):
    """The lines of a file, parted here by commas."""
    return b"".join(line.strip().encode() + b"\n" for line in file.split(","))


def graph(name, text, answer):
    examples.append(("graph: " + name, text, b"", b"", answer))


def runs(name, file, trace, verdicts, again=None):
    """A file within document 01's subset. A verdict is 1, rejected, where the output is 0 under some start of the
    uninitialised latches."""
    how = "written as expected" if again else "same text"
    examples.append(("file: " + name, rows(file), rows(again) if again else b"", rows(trace), f"{how}, {verdicts}"))


def refused(name, file, number, line):
    """A file outside it."""
    examples.append(("file: " + name, rows(file), b"", b"", f"refused {number} {line}"))


# ---- document 01's bench examples of graphs
def formula(f):
    return lines("S p", "V a", f"E a a t {f} 1")


G = ["S p", "S q", "V a", "V b", "E a b t p q"]
graph("G", lines(*G), "7 gates")
graph("G with a second edge", lines(*G, "E b b t p 1"), "17 gates")
graph("16 nots", formula("!" * 16 + "p"), "8 gates")
graph("17 nots", formula("!" * 17 + "p"), "refused 8 3")
graph("a signal of 15 bytes", lines("S " + "s" * 15, "V a"), "0 gates")
graph("a signal of 16 bytes", lines("S " + "s" * 16, "V a"), "refused 2 1")
# 7 x 128 for the edges, 128 and 127 to join what comes in at the one vertex, 127 for accept
graph("128 edges", lines("V a", *["E a a t 1 1"] * 128), "1278 gates")
graph("129 edges", lines("V a", *["E a a t 1 1"] * 129), "refused 4 130")

# ---- gates by which edges are terminal: document 02, No. 5. A number after a graph is its number among the request's
# worked cases. One edge on one vertex costs 7 and 1, two cost 14, 2 and 1; accept costs 1 where both are terminal.
FALSE, TRUE = "E a a - 1 0", "E a a t 1 1"
UNMARKED = [*G[:-1], "E a b - p q"]
graph("no edge marked", lines("V a", FALSE), "8 gates")  # 1
graph("M terminal, no edge marked", lines("M terminal", "V a", FALSE), "8 gates")  # 2
graph("M strong, one of two marked", lines("M strong", "V a", FALSE, TRUE), "18 gates")  # 3
graph("one of two marked", lines("V a", FALSE, TRUE), "17 gates")  # 4
graph("M terminal, one of two marked", lines("M terminal", "V a", FALSE, TRUE), "17 gates")  # 5
graph("no edge", lines("V a"), "0 gates")  # 6
graph("M strong, no edge", lines("M strong", "V a"), "0 gates")  # 7
graph("M is a name", lines("M strong", "S M", "V M", "E M M - M M"), "8 gates")  # 27
graph("G unmarked", lines(*UNMARKED), "7 gates")  # 28
graph("M terminal, G unmarked", lines("M terminal", *UNMARKED), "7 gates")  # 28
graph("M strong, G unmarked", lines("M strong", *UNMARKED), "7 gates")  # 28
graph("two edges, none marked", lines("V a", FALSE, FALSE), "18 gates")
graph("M terminal, two edges, none marked", lines("M terminal", "V a", FALSE, FALSE), "17 gates")
graph("M alone", lines("M terminal"), "refused 10 0")  # 8
graph("M after a vertex", lines("V a", "M strong"), "refused 3 2")  # 17
# 128 edges as above
graph("128 edges, none marked", lines("V a", *["E a a - 1 1"] * 128), "1278 gates")
# six edges on one vertex: 1 input, 12 latches and 42 + 6 + 5 gates, 3 for each of 1,341 times `^`, 2 for two times `&`,
# and 5 for accept where all are terminal: 4,096 variables; 4,091 where none is
sides = ["1" + "^0" * n for n in [127] * 10 + [71]] + ["0&0&0"]
over = lines("V a", *[f"E a a - {sides[k]} {sides[k + 1]}" for k in range(0, 12, 2)])
graph("4,096 variables, no edge marked", over, "refused 11 0")
graph("M terminal, 4,091 variables", lines("M terminal") + over, "4078 gates")

# ---- gates by widths: document 02, No. 3. A number after a graph is its number among the request's worked cases. One edge
# on one vertex costs 8, and `==` 4 for each bit, less 1.
def wide(antecedent, consequent="1"):
    return lines("S a 4", "S b 4", "S c 2", "S p", "K k 4", "K j 2", "V v", f"E v v t {antecedent} {consequent}")


graph("a bit", wide("a[0]"), "8 gates")  # 1
graph("bit 0 of one", wide("p[0]", "p"), "8 gates")  # 2
graph("== of 4 bits", wide("a==b"), "23 gates")  # 3
graph("not of ==", wide("!a==b"), "23 gates")  # 4
graph("== and =", wide("a==b=p"), "26 gates")  # 5
graph("three times ==", wide("a==b&c==j", "k==a"), "46 gates")  # 6
graph("= of bits, == with itself", wide("a[3]=b[3]", "a==a"), "26 gates")  # 7
graph("16 nots of ==", wide("!" * 16 + "a==b"), "23 gates")  # 8
graph("63 bits", lines("S x 16", "S y 16", "S z 16", "S w 15", "V v"), "0 gates")  # 28
graph("== of one bit", lines("S p", "S q", "V v", "E v v t p==q 1"), "11 gates")
# 63 times `==` of 16 bits and 61 times `&` between them, one `&` more and 7 times `^`: 8 + 3,969 + 61 + 1 + 21 gates, 33
# inputs and 2 latches are 4,095 variables
left, right = ("&".join(["a==b"] * n) for n in (51, 12))


def sixteen(more):
    return lines("S a 16", "S b 16", "V v", f"E v v t {left} {right}{more}" + "^1" * 7)


graph("4,095 variables by ==", sixteen("&1"), "4060 gates")
graph("4,096 variables by ==", sixteen("&1&1"), "refused 11 0")
graph("a wide name", lines("S a 2", "V v", "E v v t a 1"), "refused 19 3")

# ---- the examples of "The AIGER And-Inverter Graph Format". Within the subset: one output or two, inputs, M = I + L + A,
# inputs and latches in order, nothing after the last gate. Gates come in any order, and are written in theirs.
refused("empty circuit: no input, no output", "aag 0 0 0 0 0", 14, 1)
refused("constant false: no input", "aag 0 0 0 1 0, 0", 14, 1)
refused("constant true: no input", "aag 0 0 0 1 0, 1", 14, 1)
runs("buffer", "aag 1 1 0 1 0, 2, 2", "0, 1", "10")
runs("inverter", "aag 1 1 0 1 0, 2, 3", "0, 1", "01")
both = "00, 01, 10, 11"
runs("and gate", "aag 3 2 0 1 1, 2, 4, 6, 6 2 4", both, "1110", again="aag 3 2 0 1 1, 2, 4, 6, 6 4 2")
runs("or gate", "aag 3 2 0 1 1, 2, 4, 7, 6 3 5", both, "1000", again="aag 3 2 0 1 1, 2, 4, 7, 6 5 3")
refused("half adder: variables left out", "aag 7 2 0 2 3, 2, 4, 6, 12, 6 13 15, 12 2 4, 14 3 5, i0 x, i1 y, o0 s, o1 c, c, half adder", 14, 1)
refused("toggle: no input", "aag 1 0 1 2 0, 2 3, 2, 3", 14, 1)
# an input enables, the other resets by 0: the latch is 0, 1 enabled, 1 not enabled, 0 enabled, 1 enabled, 0 reset
runs(
    "toggle with enable and reset",
    "aag 7 2 1 2 4, 2, 4, 6 8, 6, 7, 8 4 10, 10 13 15, 12 2 6, 14 3 7",
    "11, 01, 11, 11, 10, 01",
    "100101",
    again="aag 7 2 1 2 4, 2, 4, 6 14, 6, 7, 8 6 2, 10 7 3, 12 11 9, 14 12 4",
)

# ---- the same circuits brought into the subset: variables and operands in order, the first output only
runs("and gate in order", "aag 3 2 0 1 1, 2, 4, 6, 6 4 2", both, "1110")
runs("or gate in order", "aag 3 2 0 1 1, 2, 4, 7, 6 5 3", both, "1000")
runs("half adder in order, its sum", "aag 5 2 0 1 3, 2, 4, 10, 6 4 2, 8 5 3, 10 9 7", both, "1001")
runs("half adder in order, its carry", "aag 5 2 0 1 3, 2, 4, 6, 6 4 2, 8 5 3, 10 9 7", both, "1110")
refused("half adder in order, with symbols", "aag 5 2 0 1 3, 2, 4, 10, 6 4 2, 8 5 3, 10 9 7, i0 x", 13, 8)
runs("toggle in order, with an input", "aag 2 1 1 1 0, 2, 4 5, 4", "0, 0, 1, 1", "1010")
runs(
    "toggle with enable and reset in order",
    "aag 7 2 1 1 4, 2, 4, 6 14, 6, 8 6 2, 10 7 3, 12 11 9, 14 12 4",
    "11, 01, 11, 11, 10, 01",
    "100101",
)

# ---- what "AIGER 1.9 and Beyond" adds: resets are within the subset, further numbers in the header are not
refused("a bad state in the header", "aag 5 1 1 0 3 1, 2, 4 10 0, 4, 6 5 3, 8 4 2, 10 9 7", 13, 1)
# the latch is 0, 1, 1, 0, 0: it changes where the input is 1
runs(
    "the bad state as output",
    "aag 5 1 1 1 3, 2, 4 10 0, 4, 6 5 3, 8 4 2, 10 9 7",
    "1, 0, 1, 0, 1",
    "10011",
    again="aag 5 1 1 1 3, 2, 4 10, 4, 6 5 3, 8 4 2, 10 9 7",
)
runs("a latch that starts as 0", "aag 2 1 1 1 0, 2, 4 2 0, 4", "0, 1, 0", "110", again="aag 2 1 1 1 0, 2, 4 2, 4")
runs("a latch that starts as 1", "aag 2 1 1 1 0, 2, 4 2 1, 4", "0, 1, 0", "010")
runs("an uninitialised latch that holds", "aag 2 1 1 1 0, 2, 4 4 4, 4", "0, 1", "11")
runs("an uninitialised latch that is loaded", "aag 2 1 1 1 0, 2, 4 2 4, 4", "1, 0, 1", "101")
runs("not both an uninitialised latch and its inverse", "aag 3 1 1 1 1, 2, 4 4 4, 7, 6 5 4", "0, 1", "00")

# ---- document 01's file of graph G
runs(
    "graph G",
    "aag 12 3 2 1 7, 2, 4, 6, 8 18, 10 25, 24, 12 8 3, 14 10 3, 16 4 2, 18 16 6, 20 16 7, 22 4 0, 24 23 21",
    "110, 111, 010",
    "100",
)

written = b"".join(
    f"{len(field)}\n".encode() + field
    for name, text, again, trace, answer in examples
    for field in (name.encode(), text, again, trace, answer.encode())
)
assert len(written) <= 32768, "the program's buffer is too small"
with open(os.path.join(here, "stdin"), "wb") as f:
    f.write(written)
with open(os.path.join(here, "stdout"), "w") as f:
    for name, _, _, _, answer in examples:
        f.write(f"{name}\t{answer}\tok\n")
