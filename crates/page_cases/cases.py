#!/usr/bin/env python3
"""Writes stdin and stdout of the program page_cases beside this file: inputs of monitor, graph2aiger and graph2aig, each
with the page that document 01 asks for, with the binary format, the verdict, the widths and the terminal edges of
document 02 (No. 1, 2, 3 and 5). The pages are written here by hand or worked out from the documents, case by case;
nothing is computed by the programs.

A case in stdin is a line `LENGTH<tab>LABEL` and then that many bytes; a label starts with `m` for the monitor's page,
`a` for that of AIGER text and `p` for that of AIGER in the binary format. In stdout it is the label's line and then the
page."""
import os

here = os.path.dirname(os.path.abspath(__file__))
cases = []


def lines(*records):
    """Records with blanks for tabs, one a line."""
    return b"".join(r.replace(" ", "\t").encode("latin-1") + b"\n" for r in records)


def page(label, text, *records):
    cases.append((label, text, lines(*records)))


def monitor(label, text, *records):
    page("m " + label, text, *records)


def refused(label, text, number, line):
    """Both programs refuse a graph alike."""
    page("m " + label, text, f"refused {number} {line}")
    page("a " + label, text, f"refused {number} {line}")


def wrong(label, trace, line, graph=None):
    """A trace, after `T`, that is refused in this line."""
    monitor(label, lines(*(graph or G), "T") + trace, f"refused 15 {line}")


def aiger(label, text, file):
    """Lines of the file parted by commas."""
    cases.append(("a " + label, text, b"".join(l.strip().encode() + b"\n" for l in file.split(","))))


def packed(label, text, file, gates):
    """Lines of the file parted by commas, and the bytes of its gates."""
    start = b"".join(l.strip().encode() + b"\n" for l in file.split(","))
    cases.append(("p " + label, text, start + bytes.fromhex(gates)))


G = ["S p", "S q", "V a", "V b", "E a b t p q"]
G2 = G + ["E b b t p 1"]
UNMARKED = [*G[:-1], "E a b - p q"]
K = ["S p", "K k", "V a", "V b", "E a b t k p"]
ONE = ["V a", "E a a t 1 0"]
# a false consequent shows only a cycle later, on the terminal edge
LATE = ["S p", "S q", "V a", "V b", "V c", "E a b - p q", "E b c t 1 1"]

# ---- document 01's examples, with the verdict of document 02, No. 2
monitor("graph G", lines(*G, "T", "110", "111", "010"), "R 1", "sum 3 1 rejected")
monitor("17 gates", lines(*G2, "T", "110", "011", "001"), "R 1", "R 2", "sum 3 2 rejected")
monitor("constant, rejected", lines(*K, "T", "10"), "R 1", "sum 1 1 rejected")
monitor("constant, accepted", lines(*K, "T", "11"), "sum 1 0 accepted")
monitor("graph G without init", lines(*G, "T", "010"), "sum 1 0 accepted")
monitor("and binds tighter than or", lines("S p", "S q", "S r", "V a", "E a a t p|q&r 0", "T", "1100"), "R 1", "sum 1 1 rejected")
monitor("equals group to the left", lines("S p", "S q", "S r", "V a", "E a a t p=q=r 0", "T", "1000"), "sum 1 0 accepted")
refused("two bits are no formula", lines("V a", "E a a t 10 1"), 7, 2)

# ---- verdicts
monitor("no cycle rejected", lines(*G, "T", "111", "010"), "sum 2 0 accepted")
monitor("the one cycle rejected", lines(*G, "T", "110"), "R 1", "sum 1 1 rejected")
monitor("rejected in the middle", lines(*G, "T", "111", "110", "010"), "R 2", "sum 3 1 rejected")
monitor("rejected at the end", lines(*G, "T", "000", "110"), "R 2", "sum 2 1 rejected")
monitor("several rejected", lines(*G, "T", "110", "110", "111", "110", "100", "110"), "R 1", "R 2", "R 4", "R 6", "sum 6 4 rejected")
monitor("consequent false where the antecedent is", lines(*G, "T", "100"), "sum 1 0 accepted")
monitor("every cycle after the first init", lines(*ONE, "T", "0", "1", "0", "0"), "R 2", "R 3", "R 4", "sum 4 3 rejected")
monitor("false consequent shows on the terminal edge", lines(*LATE, "T", "110", "000"), "R 2", "sum 2 1 rejected")
monitor("no path is left after the terminal edge", lines(*LATE, "T", "110", "000", "000"), "R 2", "sum 3 1 rejected")
monitor("restart by init in mid-trace", lines(*LATE, "T", "110", "100"), "sum 2 0 accepted")
monitor("restart and a new path", lines(*LATE, "T", "110", "110", "000"), "R 3", "sum 3 1 rejected")
monitor("a later false antecedent ends a condemned path", lines(*G2, "T", "110", "001", "011"), "R 1", "sum 3 1 rejected")
monitor("no terminal edge", lines("M terminal", "V a", "E a a - 1 0", "T", "1", "0"), "sum 2 0 accepted")
monitor("no edge marked", lines("V a", "E a a - 1 0", "T", "1", "0"), "R 1", "R 2", "sum 2 2 rejected")
monitor("no edge", lines("V a", "T", "1", "0"), "sum 2 0 accepted")
monitor("no signal", lines(*ONE, "T", "1", "0"), "R 1", "R 2", "sum 2 2 rejected")
monitor("ten cycles", lines(*ONE, "T", *"1000000000"), *[f"R {n}" for n in range(1, 11)], "sum 10 10 rejected")

# ---- which edges are terminal, and the line `M`: document 02, No. 5. A number after a case is its number among the
# request's worked cases; those that are refused stand, but for some further down, in crates/graph_cases/cases.py.
FALSE, TRUE = "E a a - 1 0", "E a a t 1 1"
monitor("none marked", lines("V a", FALSE, "T", "1"), "R 1", "sum 1 1 rejected")  # 1
monitor("M terminal, none marked", lines("M terminal", "V a", FALSE, "T", "1"), "sum 1 0 accepted")  # 2
monitor("M strong, the other marked", lines("M strong", "V a", FALSE, TRUE, "T", "1"), "R 1", "sum 1 1 rejected")  # 3
monitor("the other marked", lines("V a", FALSE, TRUE, "T", "1"), "sum 1 0 accepted")  # 4
monitor("M terminal, the other marked", lines("M terminal", "V a", FALSE, TRUE, "T", "1"), "sum 1 0 accepted")  # 5
monitor("no edge, no M", lines("V a", "T", "1"), "sum 1 0 accepted")  # 6
monitor("M strong, no edge", lines("M strong", "V a", "T", "1"), "sum 1 0 accepted")  # 7
monitor("M is a name", lines("M strong", "S M", "V M", "E M M - M M", "T", "11"), "sum 1 0 accepted")  # 27
GTRACE = ["T", "110", "111", "010"]
monitor("graph G unmarked", lines(*UNMARKED, *GTRACE), "R 1", "sum 3 1 rejected")  # 28
monitor("M terminal, graph G unmarked", lines("M terminal", *UNMARKED, *GTRACE), "sum 3 0 accepted")  # 28
monitor("M strong, graph G unmarked", lines("M strong", *UNMARKED, *GTRACE), "R 1", "sum 3 1 rejected")  # 28
monitor("M terminal, graph G", lines("M terminal", *G, *GTRACE), "R 1", "sum 3 1 rejected")
monitor("the first marked, the other false", lines("V a", TRUE, FALSE, "T", "1"), "sum 1 0 accepted")
monitor("the last of two unmarked is false", lines("V a", "E a a - 1 1", FALSE, "T", "1"), "R 1", "sum 1 1 rejected")
monitor("M strong, false consequent shows at once", lines("M strong", *LATE, "T", "110", "000"), "R 1", "R 2", "sum 2 2 rejected")
monitor("M terminal, false consequent shows on the terminal edge", lines("M terminal", *LATE, "T", "110", "000"), "R 2", "sum 2 1 rejected")
monitor("M, and T without a vertex", lines("M strong", "T", "1"), "refused 10 0")  # 9
monitor("M in the trace", lines("M strong", "V a", "T", "M strong"), "refused 15 1")
monitor("trace lines count from T with M", lines("M strong", *G, "T", "110", "11"), "refused 15 2")

# ---- constants
six = [f"K k{j}" for j in range(6)]
all_six = "&".join(f"k{j}" for j in range(6))
monitor("six constants, all ones", lines(*six, "V a", f"E a a t {all_six} 0", "T", "1"), "R 1", "sum 1 1 rejected")
monitor("a setting with one and one zero", lines("K j", "K k", "V a", "E a a t k&!j 0", "T", "1"), "R 1", "sum 1 1 rejected")
monitor("no setting changes between cycles", lines("K k", "V a", "V b", "E a b - k 1", "E b b t !k 0", "T", "1", "0"), "sum 2 0 accepted")
monitor("one setting through two cycles", lines("K k", "V a", "V b", "E a b - k 1", "E b b t k 0", "T", "1", "0"), "R 2", "sum 2 1 rejected")
monitor("two settings in one cycle count once", lines("K k", "V a", "E a a t k 0", "E a a t !k 0", "T", "1"), "R 1", "sum 1 1 rejected")

# ---- the line `T`
monitor("empty trace", lines(*G, "T"), "sum 0 0 accepted")
monitor("no T", lines(*G), "sum 0 0 accepted")
monitor("T after a vertex", lines("V a", "T"), "sum 0 0 accepted")
monitor("empty input", b"", "refused 10 0")
monitor("T first", lines("T"), "refused 10 0")
monitor("T first, then a graph", lines("T", *G), "refused 10 0")
monitor("T without LF at the end", lines(*G) + b"T", "refused 2 6")
monitor("T alone, without LF", b"T", "refused 2 1")
monitor("T twice", lines(*G, "T", "T"), "refused 15 1")
monitor("T twice, after a cycle", lines(*G, "T", "110", "T", "110"), "refused 15 2")
monitor("T and CR", lines(*G) + b"T\r\n110\n", "refused 2 6")
monitor("T and a tab", lines(*G) + b"T\t\n110\n", "refused 2 6")
monitor("T and a blank", lines(*G) + b"T \n110\n", "refused 2 6")
monitor("TT", lines(*G, "TT", "T", "110"), "refused 2 6")
monitor("t", lines(*G, "t", "T", "110"), "refused 2 6")
monitor("empty line before T", lines(*G, "", "T", "110"), "refused 2 6")
monitor("a vertex T", lines("V T", "E T T t 1 0", "T", "1"), "R 1", "sum 1 1 rejected")
monitor("a signal T", lines("S T", "V a", "E a a t T 0", "T", "11"), "R 1", "sum 1 1 rejected")
refused("an edge that ends in T, unknown", lines("V a", "E a a t 1 T"), 9, 2)
monitor("line without LF that ends in T", b"V\tT", "refused 2 1")
page("a T is no record", lines(*G, "T", "110"), "refused 2 6")

# ---- the trace
wrong("last cycle without LF", b"110\n111", 2)
wrong("one cycle without LF", b"110", 1)
wrong("cycle too long", b"110\n1110\n", 2)
wrong("cycle too short", b"110\n110\n11\n", 3)
wrong("empty cycle", b"\n", 1)
wrong("empty last cycle", b"110\n\n", 2)
wrong("wrong byte", b"112\n", 1)
wrong("letter O for zero", b"110\n1O0\n110\n", 2)
wrong("CR before LF", b"110\r\n", 1)
wrong("blank in a cycle", b"1 0\n", 1)
wrong("NUL in a cycle", b"11\0\n", 1)
wrong("the first faulty cycle", b"110\n11\n1111\n", 2)
wrong("cycle of the signals alone", b"10\n", 1)
wrong("no signal, two bytes", b"1\n10\n", 2, ONE)
monitor("graph refused before the trace", lines("V a", "X", "T") + b"1", "refused 2 2")
monitor("no vertex before a wrong cycle", lines("S p", "T") + b"1", "refused 10 0")

# ---- each number of a graph
refused("2: no record's kind", lines("S p", "X q", "V a"), 2, 2)
refused("2: last line without LF", lines("V a") + b"V\tb", 2, 2)
refused("3: signal after a vertex", lines("V a", "S p"), 3, 2)
refused("4: 64 signals", lines(*[f"S s{i}" for i in range(64)]), 4, 64)
refused("4: 129 edges", lines("V a", *["E a a t 1 1"] * 129), 4, 130)
refused("5: name repeated", lines("S p", "K p", "V a"), 5, 2)
refused("6: unknown vertex", lines("V a", "E a b t 1 1"), 6, 2)
refused("7: operator without operand", lines("S p", "V a", "E a a t p& 1"), 7, 3)
refused("8: depth 17", lines("V a", "E a a t 1 " + "!" * 17 + "1"), 8, 2)
refused("9: unknown name", lines("V a", "E a a t p 1"), 9, 2)
refused("10: no vertex", lines("S p", "K k"), 10, 0)
page("a 10: empty input", b"", "refused 10 0")
refused("10: M alone", lines("M terminal"), 10, 0)  # 8
refused("2: M and another word", lines("M weak", "V a"), 2, 1)  # 10
refused("3: M after a vertex", lines("V a", "M strong"), 3, 2)  # 17
refused("3: M twice", lines("M terminal", "M terminal", "V a"), 3, 2)  # 20
refused("6: unknown vertex, after M", lines("M strong", "E a a t 1 1"), 6, 2)  # 26

# ---- 11. Six edges on one vertex, all terminal: 1 input, 12 latches and 42 + 6 + 5 + 5 gates, and those of the
# formulas: 1,341 times `^`, three each, and one `&` make M = 13 + 58 + 4,024 = 4,095. One `&` more is over.
xors = [127] * 10 + [71]
formulas = ["1" + "^0" * n for n in xors]
assert 3 * sum(xors) + 1 == 4024 and max(map(len, formulas)) <= 255


def full(last, mark="t"):
    f = formulas + [last]
    return lines("V a", *[f"E a a {mark} {f[2 * k]} {f[2 * k + 1]}" for k in range(6)])


# every antecedent is 1, and the consequents are 1 but the last, which is 0
monitor("M is 4,095", full("0&0") + lines("T", "1", "0"), "R 1", "R 2", "sum 2 2 rejected")
monitor("M is 4,095, and no false consequent", full("1&1") + lines("T", "1", "0"), "sum 2 0 accepted")
refused("11: M is 4,096", full("0&0&0"), 11, 0)
monitor("11 before a wrong cycle", full("0&0&0") + b"T\n2\n", "refused 11 0")
monitor("M is 4,095, a wrong cycle", full("0&0") + b"T\n2\n", "refused 15 1")
# no edge marked: all are terminal, and the gates are as many
monitor("M is 4,095, no edge marked", full("0&0", "-") + lines("T", "1", "0"), "R 1", "R 2", "sum 2 2 rejected")

# ---- 1. A line `M`, 62 full edges and one that fills up the graph to 32,768 bytes, with few gates: each operand is a
# name of 15 bytes after up to 16 `!`. The last edge has no mark, and an odd number of `!` makes its consequent false
# where its antecedent is true. crates/graph_cases/cases.py has such texts without `M`.
NAME = "s" * 15
FULL = "&".join(["!" * 16 + NAME] * 8)
assert len(FULL) == 255


def long_graph(nots):
    last = "&".join(["!" * 16 + NAME] * 6 + ["!" * 8 + NAME, "!" * nots + NAME])
    return lines("M strong", "S " + NAME, "V a", *[f"E a a t {FULL} {FULL}"] * 62, f"E a a - {FULL} {last}")


assert len(long_graph(1)) == 32768
monitor("graph of 32,768 bytes", long_graph(1) + lines("T", "11", "00"), "R 1", "sum 2 1 rejected")
monitor("1: graph of 32,769 bytes", long_graph(2) + lines("T", "11", "00"), "refused 1 0")
page("a 1: graph of 32,769 bytes", long_graph(2), "refused 1 0")

# ---- AIGER files
aiger("graph G", lines(*G), "aag 12 3 2 1 7, 2, 4, 6, 8 18, 10 25, 24, 12 8 3, 14 10 3, 16 4 2, 18 16 6, 20 16 7, 22 4 0, 24 23 21")
aiger(
    "17 gates",
    lines(*G2),
    "aag 24 3 4 1 17, 2, 4, 6, 8 30, 10 37, 12 40, 14 47, 48,"
    # the latches masked by init
    "16 8 3, 18 10 3, 20 12 3, 22 14 3,"
    # vertex b; a has init alone and 0
    "24 21 17, 26 23 19,"
    # the edges
    "28 4 2, 30 28 6, 32 28 7, 34 4 0, 36 35 33,"
    "38 25 4, 40 38 1, 42 38 0, 44 27 4, 46 45 43,"
    # accept
    "48 46 36",
)
aiger("a constant's latch", lines(*K), "aag 12 2 3 1 7, 2, 4, 6 6 6, 8 18, 10 25, 24, 12 8 3, 14 10 3, 16 6 2, 18 16 4, 20 16 5, 22 6 0, 24 23 21")
aiger(
    "exclusive or, and equals",
    lines("S p", "S q", "V a", "E a a t p^q p=q"),
    "aag 19 3 2 1 14, 2, 4, 6, 8 32, 10 39, 38, 12 8 3, 14 10 3, 16 13 3,"
    "18 6 4, 20 7 5, 22 21 19, 24 6 4, 26 7 5, 28 27 25,"
    "30 22 17, 32 30 29, 34 30 28, 36 22 14, 38 37 35",
)
aiger(
    "not, and, or with bits",
    lines("S p", "V a", "E a a t !p&0|1 1"),
    "aag 14 2 2 1 10, 2, 4, 6 22, 8 29, 28, 10 6 3, 12 8 3, 14 11 3, 16 5 0, 18 17 0, 20 19 15, 22 20 1, 24 20 0, 26 19 12, 28 27 25",
)
aiger("no terminal edge", lines("M terminal", *UNMARKED), "aag 12 3 2 1 7, 2, 4, 6, 8 18, 10 25, 1, 12 8 3, 14 10 3, 16 4 2, 18 16 6, 20 16 7, 22 4 0, 24 23 21")  # 28
aiger("one vertex", lines("V a"), "aag 1 1 0 1 0, 2, 1")  # 6
aiger("two vertices, a signal, a constant", lines("S p", "K k", "V a", "V b"), "aag 3 2 1 1 0, 2, 4, 6 6 6, 1")

# ---- AIGER files, by which edges are terminal; numbers as above
g = "aag 12 3 2 1 7, 2, 4, 6, 8 18, 10 25, 24, 12 8 3, 14 10 3, 16 4 2, 18 16 6, 20 16 7, 22 4 0, 24 23 21"
aiger("no edge marked", lines(*UNMARKED), g)  # 28
aiger("M strong, no edge marked", lines("M strong", *UNMARKED), g)  # 28
loop = "8 4 3, 10 6 3, 12 9 3, 14 13 1, 16 14 0, 18 14 1, 20 10 1, 22 21 19"
aiger("8 gates", lines("V a", FALSE), "aag 11 1 2 1 8, 2, 4 16, 6 23, 22," + loop)  # 1
aiger("M terminal, 8 gates", lines("M terminal", "V a", FALSE), "aag 11 1 2 1 8, 2, 4 16, 6 23, 1," + loop)  # 2
loops = (
    # the latches masked by init, and the vertex
    "12 4 3, 14 6 3, 16 8 3, 18 10 3, 20 13 3, 22 20 17, 24 19 15,"
    # the edges
    "26 23 1, 28 26 0, 30 26 1, 32 25 1, 34 33 31,"
    "36 23 1, 38 36 1, 40 36 0, 42 25 1, 44 43 41"
)
by_mark = "aag 22 1 4 1 17, 2, 4 28, 6 35, 8 38, 10 45, 44," + loops
strong = "aag 23 1 4 1 18, 2, 4 28, 6 35, 8 38, 10 45, 46," + loops + ", 46 44 34"
aiger("M strong, 18 gates", lines("M strong", "V a", FALSE, TRUE), strong)  # 3
aiger("the other marked, 17 gates", lines("V a", FALSE, TRUE), by_mark)  # 4
aiger("M terminal, the other marked, 17 gates", lines("M terminal", "V a", FALSE, TRUE), by_mark)  # 5
aiger("two unmarked, 18 gates", lines("V a", FALSE, "E a a - 1 1"), strong)
aiger("M strong, one vertex", lines("M strong", "V a"), "aag 1 1 0 1 0, 2, 1")  # 7
aiger(
    "M is a name",
    lines("M strong", "S M", "V M", "E M M - M M"),
    "aag 12 2 2 1 8, 2, 4, 6 18, 8 25, 24, 10 6 3, 12 8 3, 14 11 3, 16 15 4, 18 16 4, 20 16 5, 22 12 4, 24 23 21",
)  # 27

# ---- widths: document 02, No. 3. A number after a case is its number among the request's worked cases; those that are
# refused stand in crates/graph_cases/cases.py, the gates of 1 to 8 in crates/examples/cases.py.
H = ["S a 4", "S b 4", "S c 2", "S p", "K k 4", "K j 2", "V v"]
PAIR = ["S a 2", "S b 2", "V v"]
FOUR = ["S x 16", "S y 16", "S z 16", "S w 15", "V v"]
monitor(
    "equal to a constant",
    lines("S a 2", "K k 2", "V v", "E v v t a==k k[1]", "T", "100", "110", "101", "111"),
    "R 1", "R 2", "sum 4 2 rejected",
)  # 35
# bit 0 stands first in a cycle; `==` and `[n]` mean the same bits of a constant
monitor("bits of a cycle", lines("S a 2", "V v", "E v v t a[0] a[1]", "T", "110", "101", "111"), "R 1", "sum 3 1 rejected")
last, others = "1" + "0" * 15 + "1", "1" + "1" * 15 + "0"
monitor("bit 15", lines("S a 16", "V v", "E v v t a[15] 0", "T", last, others), "R 1", "sum 2 1 rejected")
last, others = "1" + "0" * 62 + "1", "1" * 63 + "0"
monitor("64 bytes a cycle", lines(*FOUR, "E v v t w[14] 0", "T", last, others), "R 1", "sum 2 1 rejected")
wrong("a byte for each record", b"10000\n10\n", 2, ["S a 4", "V v"])
wrong("a byte too many, 4 bits", b"10000\n100000\n", 2, ["S a 4", "V v"])
ones = "&".join(f"k[{n}]" for n in range(6))
monitor("six bits of a constant", lines("K k 6", "V v", f"E v v t {ones} 0", "T", "1"), "R 1", "sum 1 1 rejected")
monitor("a constant's bit 5", lines("S a 6", "K k 6", "V v", "E v v t a==k k[5]", "T", "1100000", "1000001"), "R 1", "sum 2 1 rejected")
monitor("one setting, two cycles", lines("K k 2", "V a", "V b", "E a b - k[1] 1", "E b b t !k[1] 0", "T", "1", "0"), "sum 2 0 accepted")
# each bit counts, and no bit is compared with another's
monitor(
    "bit by bit",
    lines("S a 4", "S b 4", "V v", "E v v t 1 a==b", "T")
    + lines("100000000", "110000000", "101000000", "100100000", "100010000", "111111111", "110101010", "110100101", "100011000"),
    "R 2", "R 3", "R 4", "R 5", "R 8", "R 9", "sum 9 6 rejected",
)
# !(a==b), and (a==b)=p
monitor("not of ==", lines(*PAIR, "E v v t 1 !a==b", "T", "10101", "10110"), "R 1", "sum 2 1 rejected")
monitor(
    "== and then =",
    lines("S a 2", "S b 2", "S p", "V v", "E v v t 1 a==b=p", "T", "100000", "100001", "110000", "110001"),
    "R 1", "R 4", "sum 4 2 rejected",
)
refused("19: wide name", lines("S a 2", "V v", "E v v t a 1"), 19, 3)
monitor("19 before a wrong cycle", lines("S a 2", "V v", "E v v t a[2] 1", "T", "2"), "refused 19 3")

# the files: after the latches masked by init and the vertex, three gates a bit, then the joins
aiger(
    "== of 3 bits, 19 gates",
    lines("S a 3", "S b 3", "V v", "E v v t a==b 1"),
    "aag 28 7 2 1 19, 2, 4, 6, 8, 10, 12, 14, 16 50, 18 57, 56, 20 16 3, 22 18 3, 24 21 3,"
    "26 10 4, 28 11 5, 30 29 27, 32 12 6, 34 13 7, 36 35 33, 38 14 8, 40 15 9, 42 41 39, 44 37 31, 46 44 43,"
    "48 46 25, 50 48 1, 52 48 0, 54 46 22, 56 55 53",
)  # 34
aiger(
    "bits of a constant",
    lines("K k 2", "V v", "E v v t k[1] k[0]"),
    "aag 13 1 4 1 8, 2, 4 4 4, 6 6 6, 8 20, 10 27, 26, 12 8 3, 14 10 3, 16 13 3, 18 17 6, 20 18 4, 22 18 5, 24 14 6, 26 25 23",
)  # 36
aiger("63 bits", lines(*FOUR), "aag 64 64 0 1 0," + ",".join(str(2 * n) for n in range(1, 65)) + ", 1")  # 28
# eleven bits of signals, six of constants; and the first gates of one edge on one vertex
inputs = "2, 4, 6, 8, 10, 12, 14, 16, 18, 20, 22, 24, 26 26 26, 28 28 28, 30 30 30, 32 32 32, 34 34 34, 36 36 36,"
first = "42 38 3, 44 40 3, 46 43 3,"
a_b = (
    "48 12 4, 50 13 5, 52 51 49, 54 14 6, 56 15 7, 58 57 55, 60 16 8, 62 17 9, 64 63 61, 66 18 10, 68 19 11, 70 69 67,"
    "72 59 53, 74 72 65, 76 74 71,"
)
aiger(
    "a bit of a signal",
    lines(*H, "E v v t a[0] 1"),
    f"aag 28 12 8 1 8, {inputs} 38 50, 40 57, 56, {first} 48 47 4, 50 48 1, 52 48 0, 54 44 4, 56 55 53",
)  # 1
aiger(
    "not of ==, 23 gates",
    lines(*H, "E v v t !a==b 1"),
    f"aag 43 12 8 1 23, {inputs} 38 80, 40 87, 86, {first} {a_b} 78 77 47, 80 78 1, 82 78 0, 84 77 44, 86 85 83",
)  # 4
aiger(
    "three times ==, 46 gates",
    lines(*H, "E v v t a==b&c==j k==a"),
    f"aag 66 12 8 1 46, {inputs} 38 126, 40 133, 132, {first} {a_b}"
    # c==j, and both of them
    "78 34 20, 80 35 21, 82 81 79, 84 36 22, 86 37 23, 88 87 85, 90 89 83, 92 90 76,"
    # k==a
    "94 26 4, 96 27 5, 98 97 95, 100 28 6, 102 29 7, 104 103 101, 106 30 8, 108 31 9, 110 109 107, 112 32 10, 114 33 11,"
    "116 115 113, 118 105 99, 120 118 111, 122 120 117,"
    "124 92 47, 126 124 122, 128 124 123, 130 92 44, 132 131 129",
)  # 6
# two names of one bit: as `=`
aiger(
    "== of one bit, 11 gates",
    lines("S p", "S q", "V v", "E v v t p==q 1"),
    "aag 16 3 2 1 11, 2, 4, 6, 8 26, 10 33, 32, 12 8 3, 14 10 3, 16 13 3, 18 6 4, 20 7 5, 22 21 19, 24 23 17, 26 24 1, 28 24 0, 30 23 14, 32 31 29",
)
# bit n of a is 4 + 2n, of b 36 + 2n; its gates are 78, 80 and 82, and 6 more for each bit before it
bits = [
    f"{78 + 6 * n} {36 + 2 * n} {4 + 2 * n}, {80 + 6 * n} {37 + 2 * n} {5 + 2 * n}, {82 + 6 * n} {81 + 6 * n} {79 + 6 * n}"
    for n in range(16)
]
joins = ["174 89 83"] + [f"{172 + 2 * n} {170 + 2 * n} {83 + 6 * n}" for n in range(2, 16)]
aiger(
    "== of 16 bits, 71 gates",
    lines("S a 16", "S b 16", "V v", "E v v t a==b 1"),
    "aag 106 33 2 1 71," + ",".join(str(2 * n) for n in range(1, 34)) + ", 68 206, 70 213, 212, 72 68 3, 74 70 3, 76 73 3,"
    + ",".join(bits + joins) + ", 204 202 77, 206 204 1, 208 204 0, 210 202 74, 212 211 209",
)

# ---- AIGER files in the binary format: document 02, No. 1
packed("graph G", lines(*G), "aig 12 3 2 1 7, 18, 25, 24", "04 05 04 07 0c 02 02 0a 04 09 12 04 01 02")
packed(
    "bits of a constant",
    lines("K k 2", "V v", "E v v t k[1] k[0]"),
    "aig 13 1 4 1 8, 4 4, 6 6, 20, 27, 26",
    "04 05 04 07 03 0a 01 0b 02 0e 04 0d 0a 08 01 02",
)
# gates 134 130 3, 136 132 3, 138 135 3, 140 139 128, 142 140 1, 144 140 0, 146 136 128, 148 147 145
packed(
    "runs of two bytes",
    lines(*FOUR, "E v v t w[14] 1"),
    "aig 74 64 2 1 8, 142, 149, 148",
    "04 7f 04 81 01 03 84 01 01 0b 02 8b 01 04 8c 01 0a 08 01 02",
)
packed("one vertex", lines("V a"), "aig 1 1 0 1 0, 1", "")
page("p 7: two bits are no formula", lines("V a", "E a a t 10 1"), "refused 7 2")
page("p 10: empty input", b"", "refused 10 0")
page("p 11: M is 4,096", full("0&0&0"), "refused 11 0")
page("p T is no record", lines(*G, "T", "110"), "refused 2 6")

# ---- 11 by `==`. In 254 bytes 51 times 16 bits: 51 x 63 gates and 50 that join them. 10 edges with it on both sides cost
# 10 x 6,526 + 98, and one more, with 6 times `==` and 1, 383 + 10: in 16 bits that would be 215. 63 such edges ask for 411,766.
SIXTEEN = ["S a 16", "S b 16", "V v"]
many = "&".join(["a==b"] * 51)
some = "&".join(["a==b"] * 6)
assert len(many) == 254 and 10 * 6526 + 98 + 383 + 10 == 65536 + 215 and 63 * 6526 + 628 == 411766
monitor("11: 65,751 gates", lines(*SIXTEEN, *[f"E v v t {many} {many}"] * 10, f"E v v t {some} 1"), "refused 11 0")
monitor("11: 411,766 gates", lines(*SIXTEEN, *[f"E v v t {many} {many}"] * 63), "refused 11 0")

with open(os.path.join(here, "stdin"), "wb") as f:
    for label, text, _ in cases:
        f.write(f"{len(text)}\t{label}\n".encode() + text)
with open(os.path.join(here, "stdout"), "wb") as f:
    for label, _, expected in cases:
        f.write(f"{label}\n".encode() + expected)
    f.write(b"m 65,536 bytes of input, every cycle rejected\n250991 bytes\n" + lines("sum 32759 32759 rejected"))
    f.write(b"m 65,537 bytes of input\n12 bytes\n" + lines("refused 1 0"))
