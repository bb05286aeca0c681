#!/usr/bin/env python3
"""Writes stdin and stdout of the program graph_cases beside this file: graph texts, each with what document 01
says of it, and document 02 of its line `M` (No. 5) and of widths (No. 3). What is expected is written here by hand, case
by case; nothing is computed from the reader.

A case in stdin is a line `LENGTH<tab>LABEL` and then that many bytes. In stdout it is a line `LABEL`, and `ok` with
the bits of signals and of constants and the numbers of vertices and edges, or `refused` with number and line, parted by
tabs."""
import os

here = os.path.dirname(os.path.abspath(__file__))
cases = []


def ok(label, text, signals, constants, vertices, edges):
    cases.append((label, text, f"ok\t{signals}\t{constants}\t{vertices}\t{edges}"))


def refused(label, text, number, line):
    cases.append((label, text, f"refused\t{number}\t{line}"))


def lines(*records):
    """Records with blanks for tabs, one a line."""
    return b"".join(r.replace(" ", "\t").encode("latin-1") + b"\n" for r in records)


def formula(f, *more):
    """A graph whose one edge, in line 5, has the antecedent f."""
    return lines("S p", "S q", "K k", "V a") + b"E\ta\ta\tt\t" + f + b"\t1\n" + lines(*more)


G = ["S p", "S q", "V a", "V b", "E a b t p q"]

# ---- accepted
ok("graph G", lines(*G), 2, 0, 2, 1)
ok("one vertex", lines("V a"), 0, 0, 1, 0)
ok("self-loops and equal edges", lines("V a", "E a a - 1 0", "E a a - 1 0"), 0, 0, 1, 2)
ok("a vertex has the name of a signal", lines("S a", "V a", "E a a t a a"), 1, 0, 1, 1)
ok("constant in a formula", formula(b"k&!p"), 2, 1, 1, 1)
ok("all operators", formula(b"p=q|p^q&!k=(0|1)"), 2, 1, 1, 1)

# ---- each number at its line
refused("1: over 32,768 bytes", b"S" * 32769, 1, 0)
refused("2: no record's kind", lines("S p", "X q", "V a"), 2, 2)
refused("3: signal after a constant", lines("K k", "S p", "V a"), 3, 2)
refused("3: signal after a vertex", lines("V a", "S p"), 3, 2)
refused("3: constant after a vertex", lines("V a", "K p"), 3, 2)
refused("3: vertex after an edge", lines("V a", "E a a t 1 1", "V b"), 3, 3)
refused("3: signal after an edge", lines("V a", "E a a t 1 1", "S b"), 3, 3)
refused("4: 64 signals", lines(*[f"S s{i}" for i in range(64)]), 4, 64)
refused("4: 7 constants", lines(*[f"K k{i}" for i in range(7)]), 4, 7)
refused("4: 65 vertices", lines(*[f"V v{i}" for i in range(65)]), 4, 65)
refused("4: 129 edges", lines("V a", *["E a a t 1 1"] * 129), 4, 130)
refused("5: signal repeated", lines("S p", "S q", "S p", "V a"), 5, 3)
refused("5: constant repeated", lines("K k", "K k", "V a"), 5, 2)
refused("5: constant with a signal's name", lines("S p", "K p", "V a"), 5, 2)
refused("5: vertex repeated", lines("V a", "V b", "V a"), 5, 3)
refused("6: from an unknown vertex", lines("V a", "E b a t 1 1"), 6, 2)
refused("6: to an unknown vertex", lines("V a", "E a b t 1 1"), 6, 2)
refused("6: an edge before any vertex", lines("E a a t 1 1", "V a"), 6, 1)
refused("7: two bits", formula(b"10"), 7, 5)
refused("7: empty antecedent", formula(b""), 7, 5)
refused("7: empty consequent", lines("V a") + b"E\ta\ta\tt\t1\t\n", 7, 2)
refused("7: operator without right operand", formula(b"p&"), 7, 5)
refused("7: operator without left operand", formula(b"&p"), 7, 5)
refused("7: two names", formula(b"p q"), 7, 5)
refused("7: bracket left open", formula(b"(p"), 7, 5)
refused("7: bracket too many", formula(b"p)"), 7, 5)
refused("7: empty brackets", formula(b"()"), 7, 5)
refused("7: a bit before a name", formula(b"0p"), 7, 5)
refused("7: a digit that is no bit", formula(b"2"), 7, 5)
refused("7: a name that starts with _", formula(b"_p"), 7, 5)
refused("7: not after an operand", formula(b"p!"), 7, 5)
refused("8: depth 17", formula(b"!" * 17 + b"p"), 8, 5)
refused("9: unknown name in the antecedent", formula(b"r"), 9, 5)
refused("9: a vertex is no name of a formula", formula(b"a"), 9, 5)
refused("9: unknown name in the consequent", lines("V a", "E a a t 1 p"), 9, 2)
refused("10: no vertex", lines("S p", "K k"), 10, 0)
refused("10: empty text", b"", 10, 0)

# ---- two faults in one line: the lower number
refused("2 before 3", lines("V a", "S 1p"), 2, 2)
refused("3 before 4", lines(*[f"S s{i}" for i in range(63)], "V a", "S t"), 3, 65)
refused("3 before 5", lines("S p", "V a", "S p"), 3, 3)
refused("4 before 5", lines(*[f"S s{i}" for i in range(63)], "S s0"), 4, 64)
refused("4 before 6", lines("V a", *["E a a t 1 1"] * 128, "E b a t 1 1"), 4, 130)
refused("6 before 7", lines("V a", "E b a t 10 1"), 6, 2)
refused("7 in the consequent before 8 in the antecedent", lines("V a", "E a a t " + "!" * 17 + "0 10"), 7, 2)
refused("7 in the consequent before 9 in the antecedent", lines("V a", "E a a t r 10"), 7, 2)
refused("8 in the consequent before 9 in the antecedent", lines("V a", "E a a t r " + "!" * 17 + "0"), 8, 2)
refused("8 before 9 in one formula", lines("V a", "E a a t " + "!" * 17 + "r 1"), 8, 2)

# ---- two faulty lines: the first decides
refused("9 in line 2, 2 in line 3", lines("V a", "E a a t r 1", "X"), 9, 2)
refused("5 in line 2, 3 in line 3", lines("K k", "K k", "S p"), 5, 2)
refused("7 in line 2, and no LF at the end", lines("V a", "E a a t 10 1") + b"V\tb", 7, 2)

# ---- depth
ok("16 nots", formula(b"!" * 16 + b"p"), 2, 1, 1, 1)
ok("8 brackets and 8 nots", formula(b"(!" * 8 + b"p" + b")" * 8), 2, 1, 1, 1)
refused("9 brackets and 8 nots", formula(b"(" + b"(!" * 8 + b"p" + b")" * 9), 8, 5)
ok("depth 16 twice, side by side", formula(b"(" * 16 + b"p" + b")" * 16 + b"&" + b"!" * 16 + b"q"), 2, 1, 1, 1)
refused("depth 17 in the right operand", formula(b"p&" + b"(" * 17 + b"q" + b")" * 17), 8, 5)
refused("127 brackets", formula(b"(" * 127 + b"p" + b")" * 127), 8, 5)
refused("127 brackets, one left open", formula(b"(" * 127 + b"p" + b")" * 126), 7, 5)

# ---- lengths of formulas and names
ok("255 bytes", formula(b"p" + b"&q" * 127), 2, 1, 1, 1)
refused("256 bytes", formula(b"!p" + b"&q" * 127), 7, 5)
ok("signal of 15 bytes", lines("S " + "s" * 15, "V a"), 1, 0, 1, 0)
refused("signal of 16 bytes", lines("S " + "s" * 16, "V a"), 2, 1)
ok("constant of 15 bytes", lines("K " + "k" * 15, "V a"), 0, 1, 1, 0)
refused("constant of 16 bytes", lines("K " + "k" * 16, "V a"), 2, 1)
ok("vertex of 15 bytes", lines("V " + "v" * 15), 0, 0, 1, 0)
refused("vertex of 16 bytes", lines("V " + "v" * 16), 2, 1)
ok("15 bytes in a formula", lines("S " + "s" * 15, "V a", "E a a t " + "s" * 15 + " 1"), 1, 0, 1, 1)
refused("16 bytes in a formula", lines("S " + "s" * 15, "V a", "E a a t " + "s" * 16 + " 1"), 7, 3)
refused("an edge's vertex of 16 bytes", lines("V a", "E " + "v" * 16 + " a t 1 1"), 2, 2)

# ---- counts
ok("63 signals", lines(*[f"S s{i}" for i in range(63)], "V a"), 63, 0, 1, 0)
ok("6 constants", lines(*[f"K k{i}" for i in range(6)], "V a"), 0, 6, 1, 0)
ok("64 vertices", lines(*[f"V v{i}" for i in range(64)]), 0, 0, 64, 0)
ok("128 edges", lines("V a", *["E a a t 1 1"] * 128), 0, 0, 1, 128)

# ---- shapes
refused("empty line", lines("V a", "", "V b"), 2, 2)
refused("only an LF", b"\n", 2, 1)
refused("last line without LF", lines("V a") + b"V\tb", 2, 2)
refused("one line without LF", b"V\ta", 2, 1)
refused("last line is one byte without LF", lines("V a") + b"E", 2, 2)
refused("CR before LF", b"V\ta\r\n", 2, 1)
refused("CR in a formula", formula(b"p\r"), 7, 5)
refused("NUL in a name", b"V\ta\0\n", 2, 1)
refused("NUL in a formula", formula(b"p\0"), 7, 5)
refused("byte 255 in a name", b"V\t\xff\n", 2, 1)
refused("byte 128 in a formula", formula(b"\x80"), 7, 5)
refused("blank for a tab", b"V a\n", 2, 1)
refused("tab doubled", b"V\t\ta\n", 2, 1)
refused("tab doubled in an edge", lines("V a") + b"E\ta\ta\tt\t\t1\t1\n", 2, 2)
refused("tab missing in an edge", lines("V a") + b"E\ta\ta\tt\t1\n", 2, 2)
refused("tab after the last field", lines("V a") + b"E\ta\ta\tt\t1\t1\t\n", 2, 2)
refused("no name", b"V\t\n", 2, 1)
refused("kind alone", b"V\n", 2, 1)
refused("kind of two bytes", lines("VV a"), 2, 1)
refused("lower case kind", lines("v a"), 2, 1)
refused("name that starts with a digit", lines("V 1a"), 2, 1)
refused("name that starts with _", lines("V _a"), 2, 1)
refused("mark of another byte", lines("V a", "E a a x 1 1"), 2, 2)
refused("mark of two bytes", lines("V a", "E a a tt 1 1"), 2, 2)
refused("empty mark", lines("V a") + b"E\ta\ta\t\t1\t1\n", 2, 2)

# ---- 32,768 bytes are taken: 128 edges, of which the last fills up
head = lines("S p", "V a")
full = b"E\ta\ta\tt\t" + b"p" + b"&p" * 61 + b"\t" + b"p" + b"&p" * 60 + b"\n"
body = head + full * 127
rest = 32768 - len(body)
last = b"E\ta\ta\tt\t"
left = rest - len(last) - 2
a = min(255, left - 1)
a -= 1 - a % 2
c = left - a
assert c >= 1 and c <= 255, (a, c)
last += b"p" + b"&p" * ((a - 1) // 2) + b"\t"
last += (b"p" + b"&p" * ((c - 1) // 2)) if c % 2 else (b"!p" + b"&p" * ((c - 2) // 2))
last += b"\n"
text = body + last
assert len(text) == 32768, len(text)
ok("32,768 bytes", text, 1, 0, 1, 128)
refused("32,769 bytes", text + b"\n", 1, 0)

# ---- document 02, No. 5: the line `M`. A number after a case is its number among the request's worked cases; 6 is
# "one vertex" above.
FALSE, TRUE = "E a a - 1 0", "E a a t 1 1"
UNMARKED = [*G[:-1], "E a b - p q"]
ok("no edge marked", lines("V a", FALSE), 0, 0, 1, 1)  # 1
ok("M terminal, no edge marked", lines("M terminal", "V a", FALSE), 0, 0, 1, 1)  # 2
ok("M strong, one edge of two marked", lines("M strong", "V a", FALSE, TRUE), 0, 0, 1, 2)  # 3
ok("one edge of two marked", lines("V a", FALSE, TRUE), 0, 0, 1, 2)  # 4
ok("M terminal, one edge of two marked", lines("M terminal", "V a", FALSE, TRUE), 0, 0, 1, 2)  # 5
ok("M strong, one vertex", lines("M strong", "V a"), 0, 0, 1, 0)  # 7
refused("10: M terminal alone", lines("M terminal"), 10, 0)  # 8
refused("10: M strong alone", lines("M strong"), 10, 0)  # 9
refused("M and another word", lines("M weak", "V a"), 2, 1)  # 10
refused("M Strong", lines("M Strong", "V a"), 2, 1)  # 11
refused("M and no word", lines("M"), 2, 1)  # 12
refused("M and an empty word", lines("M ", "V a"), 2, 1)  # 13
refused("M and a third field", lines("M terminal x", "V a"), 2, 1)  # 14
refused("M strong without LF", b"M\tstrong", 2, 1)  # 15
refused("lower case M", lines("m strong", "V a"), 2, 1)  # 16
refused("3: M after a vertex", lines("V a", "M strong"), 3, 2)  # 17
refused("3: M after a signal", lines("S p", "M terminal", "V a"), 3, 2)  # 18
refused("3: M after an edge", lines("V a", FALSE, "M terminal"), 3, 3)  # 19
refused("3: M twice", lines("M terminal", "M terminal", "V a"), 3, 2)  # 20
refused("2 before 3: another word, in a second M", lines("M terminal", "M weak", "V a"), 2, 2)  # 21
refused("2 before 3: another word, after a vertex", lines("V a", "M weak"), 2, 2)  # 22
refused("M, then a signal after a vertex", lines("M terminal", "V a", "S p"), 3, 3)  # 23
refused("M, then a signal after a constant", lines("M terminal", "K k", "S p", "V a"), 3, 3)  # 24
refused("M, then a vertex repeated", lines("M strong", "V a", "V a"), 5, 3)  # 25
refused("M, then an edge before any vertex", lines("M strong", TRUE), 6, 2)  # 26
ok("M is a name", lines("M strong", "S M", "V M", "E M M - M M"), 1, 0, 1, 1)  # 27
ok("graph G unmarked", lines(*UNMARKED), 2, 0, 2, 1)  # 28
ok("M terminal, graph G unmarked", lines("M terminal", *UNMARKED), 2, 0, 2, 1)  # 28
ok("M strong, graph G unmarked", lines("M strong", *UNMARKED), 2, 0, 2, 1)  # 28

# just these bytes
refused("M and a word cut short", lines("M stron", "V a"), 2, 1)
refused("M and a longer word", lines("M terminals", "V a"), 2, 1)
refused("M and an empty third field", lines("M strong ", "V a"), 2, 1)
refused("M, tab doubled", lines("M  strong", "V a"), 2, 1)
refused("M, blank for a tab", b"M strong\nV\ta\n", 2, 1)
refused("M, CR before LF", b"M\tstrong\r\nV\ta\n", 2, 1)
refused("M of two bytes", lines("MM strong", "V a"), 2, 1)
refused("M without LF", b"M", 2, 1)

# in line 1 alone
refused("3: M twice, another good word", lines("M strong", "M terminal", "V a"), 3, 2)
refused("3: M after a constant", lines("K k", "M strong", "V a"), 3, 2)
refused("3: M, and M after a vertex", lines("M strong", "V a", "M strong"), 3, 3)
refused("empty line before M", lines("", "M strong", "V a"), 2, 1)
refused("3 in line 2, 2 in line 3, with M", lines("V a", "M strong", "M weak"), 3, 2)
refused("2 in line 1, 3 in line 2, with M", lines("M weak", "M strong", "V a"), 2, 1)

# it uses up no record, counts as a line, and changes no other rule
ok("M, 63 signals", lines("M terminal", *[f"S s{i}" for i in range(63)], "V a"), 63, 0, 1, 0)
refused("M, 64 signals", lines("M terminal", *[f"S s{i}" for i in range(64)]), 4, 65)
ok("M, 6 constants", lines("M terminal", *[f"K k{i}" for i in range(6)], "V a"), 0, 6, 1, 0)
refused("M, 7 constants", lines("M terminal", *[f"K k{i}" for i in range(7)]), 4, 8)
ok("M, 64 vertices", lines("M strong", *[f"V v{i}" for i in range(64)]), 0, 0, 64, 0)
refused("M, 65 vertices", lines("M strong", *[f"V v{i}" for i in range(65)]), 4, 66)
ok("M, 128 edges", lines("M strong", "V a", *["E a a - 1 1"] * 128), 0, 0, 1, 128)
refused("M, 129 edges", lines("M strong", "V a", *["E a a - 1 1"] * 129), 4, 131)
ok("128 edges, none marked", lines("V a", *["E a a - 1 1"] * 128), 0, 0, 1, 128)
refused("M strong, mark of another byte", lines("M strong", "V a", "E a a x 1 1"), 2, 3)
refused("M strong, empty mark", lines("M strong", "V a") + b"E\ta\ta\t\t1\t1\n", 2, 3)
refused("M, then a last line without LF", lines("M strong", "V a") + b"V\tb", 2, 3)
refused("M, then an unknown name", lines("M terminal", "V a", "E a a - p 1"), 9, 3)

# ---- document 02, No. 3: widths. A number after a case is its number among the request's worked cases.
H = ["S a 4", "S b 4", "S c 2", "S p", "K k 4", "K j 2", "V v"]
SHORT = ["S a 4", "S p", "K k 4", "V v"]


def wide(head, left, right="1"):
    """A graph whose one edge, after the head, has these formulas."""
    return lines(*head) + f"E\tv\tv\tt\t{left}\t{right}\n".encode()


def ok_h(*formulas):
    ok(" / ".join(formulas), wide(H, *formulas), 11, 6, 1, 1)


def refused_h(number, *formulas):
    refused(f"{number}: " + " / ".join(formulas), wide(H, *formulas), number, 8)


def ok_short(*formulas):
    ok(" / ".join(formulas), wide(SHORT, *formulas), 5, 4, 1, 1)


def refused_short(number, *formulas):
    refused(f"{number}: " + " / ".join(formulas), wide(SHORT, *formulas), number, 5)


NOTS = "!" * 16
ok_h("a[0]")  # 1
ok_h("p[0]", "p")  # 2
ok_h("a==b")  # 3
ok_h("!a==b")  # 4
ok_h("a==b=p")  # 5
ok_h("a==b&c==j", "k==a")  # 6
ok_h("a[3]=b[3]", "a==a")  # 7
ok_h(NOTS + "a==b")  # 8
refused_h(7, "a[0]==b")  # 9
refused_h(7, "a==b==k")  # 10
refused_h(7, "a==1")  # 11
refused_h(7, "a[00]")  # 12
refused_h(19, "a[4]")  # 13
refused_h(19, "a[99999999999999999999]")  # 14
refused_h(19, "p[1]")  # 15
refused_h(19, "a")  # 16
refused_h(19, "a=b")  # 17
refused_h(19, "a==c")  # 18
refused_h(9, "a[4]&z")  # 19
refused_h(9, "a==c", "z")  # 20
refused_h(7, "a", "(")  # 21
refused_h(8, NOTS + "!p", "a")  # 22
refused("width 17", lines("S x 17", "V v"), 2, 1)  # 23
refused("width 0", lines("S x 0", "V v"), 2, 1)  # 23
refused("width 01", lines("S x 01", "V v"), 2, 1)  # 23
refused("empty width", lines("S x ", "V v"), 2, 1)  # 23
refused("width of a vertex", lines("V v 1"), 2, 1)  # 24
refused("4: a constant of 7 bits", lines("K x 7", "V v"), 4, 1)  # 25
refused("constant, width 17", lines("K x 17", "V v"), 2, 1)  # 26
refused("4: 7 bits of constants", lines("K x 6", "K y", "V v"), 4, 2)  # 27
THREE = ["S x 16", "S y 16", "S z 16"]
ok("63 bits of signals", lines(*THREE, "S w 15", "V v"), 63, 0, 1, 0)  # 28
refused("4: 64 bits of signals", lines(*THREE, "S w 16", "V v"), 4, 4)  # 29
refused("4 before 5, by bits", lines(*THREE, "S x 16", "V v"), 4, 4)  # 30
refused("5: repeated, up to 63 bits", lines(*THREE, "S x 15", "V v"), 5, 4)  # 31
refused("2 before 3, by width", lines("K x 2", "S y 17", "V v"), 2, 2)  # 32
refused("3: wide signal after a constant", lines("K x 2", "S y 16", "V v"), 3, 2)  # 33
ok("two signals of 3 bits", lines("S a 3", "S b 3", "V v", "E v v t a==b 1"), 6, 0, 1, 1)  # 34
ok("signal and constant of 2 bits", lines("S a 2", "K k 2", "V v", "E v v t a==k k[1]"), 2, 2, 1, 1)  # 35
ok("constant of 2 bits", lines("K k 2", "V v", "E v v t k[1] k[0]"), 0, 2, 1, 1)  # 36

# a width is 1 to 16, in just these bytes, also where a number would wrap
ok("width 1", lines("S x 1", "V v"), 1, 0, 1, 0)
ok("width 10", lines("S x 10", "V v"), 10, 0, 1, 0)
ok("width 16", lines("S x 16", "V v"), 16, 0, 1, 0)
ok("constant, width 6", lines("K x 6", "V v"), 0, 6, 1, 0)
for width in ("160", "257", "65537", "4294967297", "18446744073709551617"):
    refused(f"width {width}", lines(f"S x {width}", "V v"), 2, 1)
for width in ("00", "016", "-1", "+1", " 1", "1 ", "1a", "a", "[1]", "1\r"):
    refused(f"width {width!r}", f"S\tx\t{width}\nV\tv\n".encode(), 2, 1)
for width in ("0", "01", "", "257"):
    refused(f"constant, width {width!r}", lines(f"K x {width}", "V v"), 2, 1)
refused("a fourth field", lines("S x 4 1", "V v"), 2, 1)
refused("an empty fourth field", lines("S x 4 ", "V v"), 2, 1)
refused("constant, a fourth field", lines("K x 4 1", "V v"), 2, 1)
refused("tab doubled before a width", lines("S x  4", "V v"), 2, 1)
refused("blank before a width", b"S\tx 4\nV\tv\n", 2, 1)
refused("no name, but a width", lines("S  4", "V v"), 2, 1)
refused("width without LF", lines("V v") + b"S\tx\t4", 2, 2)
refused("empty width of a vertex", lines("V v "), 2, 1)
refused("name with a bit", lines("S x[0]", "V v"), 2, 1)
ok("15 bytes and a width", lines("S " + "s" * 15 + " 16", "V v"), 16, 0, 1, 0)
refused("16 bytes and a width", lines("S " + "s" * 16 + " 16", "V v"), 2, 1)
refused("M, then width 17", lines("M strong", "S x 17", "V v"), 2, 2)
refused("10: widths, no vertex", lines("S x 4", "K y 2"), 10, 0)

# totals are bits, of signals and of constants apart
ONES = [f"S s{i}" for i in range(15)]
ok("63 bits in 18 signals", lines(*THREE, *ONES, "V v"), 63, 0, 1, 0)
refused("4: 64 bits in 19 signals", lines(*THREE, *ONES, "S t"), 4, 19)
ok("63 and 6 bits", lines(*THREE, "S w 15", "K k 6", "V v"), 63, 6, 1, 0)
ok("6 bits in two constants", lines("K x 4", "K y 2", "V v"), 0, 6, 1, 0)
refused("4: two bits where one is left", lines("K x 5", "K y 2", "V v"), 4, 2)
refused("4: a constant of 16 bits", lines("K x 16", "V v"), 4, 1)
refused("4 before 5, constants by bits", lines("K x 3", "K x 4", "V v"), 4, 2)
refused("5: constant repeated, 6 bits", lines("K x 3", "K x 3", "V v"), 5, 2)
refused("3 before 4, by bits", lines("V v", "K x 7"), 3, 2)

# a width is no part of the name
refused("5: repeated with another width", lines("S x 2", "S x 3", "V v"), 5, 2)
refused("5: repeated without its width", lines("S x 2", "S x", "V v"), 5, 2)
refused("5: wide constant with a signal's name", lines("S x 2", "K x 2", "V v"), 5, 2)
ok("one name begins another", lines("S ab 2", "S a", "V v", "E v v t a ab[1]"), 3, 0, 1, 1)
ok("wide signal with a vertex's name", lines("S v 2", "V v", "E v v t v[1] v[0]"), 2, 0, 1, 1)

# name[n]
for f in ("a[3]", "k[3]", "p[0]=p", "a[0]&!a[1]|a[2]^k[3]", "(a[3])"):
    ok_short(f)
for f in ("a[01]", "a[]", "a[", "a[0", "a]", "[0]", "a[p]", "a[ 0]", "a [0]", "a[-1]", "a[[0]]", "a[0]]", "a\\0]"):
    refused_short(7, f)
for f in ("a[0][0]", "1[0]", "(a)[0]", "(a==k)[0]", "a[0]p", "a[0](p)", "z[00]"):
    refused_short(7, f)
refused_short(7, "1", "p[")
refused_short(7, "1", "p[0")
for n in (10, 16, 256, 65536, 2**32, 2**64, 2**128):
    refused_short(19, f"a[{n}]")
refused_short(19, "k[4]")
refused_short(19, "p[256]")
ok("bit 15", lines("S w 16", "V v", "E v v t w[15] 1"), 16, 0, 1, 1)
refused("19: bit 16", lines("S w 16", "V v", "E v v t w[16] 1"), 19, 3)
ok("bit 5 of a constant", lines("K k 6", "V v", "E v v t k[5] 1"), 0, 6, 1, 1)
refused("19: bit 6 of a constant", lines("K k 6", "V v", "E v v t 1 k[6]"), 19, 3)
ok("bits beside Z and ^", lines("S Z 2", "V v", "E v v t Z[1]^Z[0] 1"), 2, 0, 1, 1)

# left==right
for f in ("p=a==k", "p==p", "p==p=p", "p=p==p", "!(a==k)", "a==k|k==a=p"):
    ok_short(f)
ok("p==q", formula(b"p==q"), 2, 1, 1, 1)
ok("p==k", formula(b"p==k"), 2, 1, 1, 1)
for f in ("a==", "==a", "a=", "a==!k", "(a)==k", "a==(k)", "1==a", "a===k", "a==k==a", "p==p==p", "a==k[0]", "a[0]==k[0]"):
    refused_short(7, f)
for f in ("p[0]==p", "a==k=", "a= =k", "a!=k", "a==k!", "a==k(p)", "(a==k", "a[0==k]"):
    refused_short(7, f)
refused_short(7, "1", "p==")
refused_short(7, "1", "p=")
for f in ("a==p", "p==a", "a==k&p==k"):
    refused_short(19, f)
LEFT, RIGHT = "s" * 15, "t" * 15
NAMED = [f"S {LEFT} 2", f"S {RIGHT} 2", "V v"]
ok("15 bytes around ==", lines(*NAMED, f"E v v t {LEFT}=={RIGHT} {LEFT}[1]"), 4, 0, 1, 1)
refused("7: 16 bytes before ==", lines(*NAMED, f"E v v t {LEFT}s=={RIGHT} 1"), 7, 4)
refused("7: 16 bytes after ==", lines(*NAMED, f"E v v t {LEFT}=={RIGHT}t 1"), 7, 4)
refused("7: 16 bytes before [", lines(*NAMED, f"E v v t {LEFT}s[0] 1"), 7, 4)

# a wide name where one bit is due
for f in ("!a", "(a)", "a&p", "p|a", "p^k", "a=k", "a==k=a"):
    refused_short(19, f)
refused_short(19, "1", "a")

# two faults: over both formulas 6, 7, 8, 9 and then 19; and the first faulty line
refused_short(9, "a[4]", "z")
refused_short(9, "a", "z")
refused_short(9, "z", "a")
refused_short(9, "z[9]")
refused_short(9, "z==a")
refused_short(9, "a==z")
refused_short(9, "v[0]")
refused_short(8, "a", NOTS + "!z")
refused_short(8, NOTS + "!a")
refused_short(7, "a", "a[00]")
refused("6 before 19", lines(*SHORT, "E v x t a 1"), 6, 5)
refused("19 in line 5, 2 in line 6", lines(*SHORT, "E v v t a 1", "X"), 19, 5)
refused("M, then 19", lines("M strong", *SHORT, "E v v t a 1"), 19, 6)

# depth and length
ok_short("(" * 16 + "a==k" + ")" * 16)
ok_short(NOTS + "a[3]")
refused_short(8, NOTS + "!a==k")
refused_short(8, NOTS + "!a[3]")
FIFTY = "&a==k" * 50
ok("255 bytes with ==", wide(SHORT, "!a==k" + FIFTY), 5, 4, 1, 1)
refused("256 bytes with ==", wide(SHORT, "!!a==k" + FIFTY), 7, 5)
refused("255 bytes up to ==", wide(SHORT, "p&" + FIFTY[1:] + "&p=="), 7, 5)
refused("19: n of 252 digits", wide(SHORT, "a[1" + "0" * 251 + "]"), 19, 5)

with open(os.path.join(here, "stdin"), "wb") as f:
    for label, text, _ in cases:
        f.write(f"{len(text)}\t{label}\n".encode() + text)
with open(os.path.join(here, "stdout"), "w") as f:
    for label, _, expected in cases:
        f.write(f"{label}\t{expected}\n")
