#!/usr/bin/env python3
"""Writes stdin and stdout of the program packed_cases beside this file: AIGER files in either form, each with what
documents 01 and 02 (No. 1, No. 10) say of its read, and of the packed file that is written of its netlist. What is
expected comes from the answers written here by hand and, for what is written, from the model below; nothing is computed
from the crates.

A case in stdin is a line with the file's length in bytes, a blank, the room of the buffer in numbers, a tab and a label;
and then the file. In stdout it is a line as main.rt says."""
import os

here = os.path.dirname(os.path.abspath(__file__))
cases = []
expected = []
SHOWN = 48


def run(n):
    """Seven bits a byte, lowest first, top bit set when more follow."""
    out = bytearray()
    while n >= 128:
        out.append(n % 128 + 128)
        n //= 128
    out.append(n)
    return bytes(out)


def parts(net):
    _, i, l, o, a = net[:5]
    at = 5 + 2 * l + o
    latches = [(net[5 + 2 * k], net[6 + 2 * k]) for k in range(l)]
    gates = [(2 * (i + l + 1 + k), net[at + 2 * k], net[at + 2 * k + 1]) for k in range(a)]
    return latches, net[5 + 2 * l:at], gates


def packed(net, explicit=False):
    """The packed file of a netlist, with every reset written or only those that are not 0."""
    latches, outputs, gates = parts(net)
    file = ("aig " + " ".join(map(str, net[:5])) + "\n").encode()
    for next_, reset in latches:
        file += (f"{next_} {reset}\n" if reset or explicit else f"{next_}\n").encode()
    for output in outputs:
        file += f"{output}\n".encode()
    return file + b"".join(run(g - r0) + run(r0 - r1) for g, r0, r1 in gates)


def text(net, explicit=False):
    """The text form of a netlist."""
    latches, outputs, gates = parts(net)
    lines = ["aag " + " ".join(map(str, net[:5]))] + [str(2 * (k + 1)) for k in range(net[1])]
    for k, (next_, reset) in enumerate(latches):
        lines.append(f"{2 * (net[1] + 1 + k)} {next_}" + (f" {reset}" if reset or explicit else ""))
    lines += [str(output) for output in outputs] + [f"{g} {r0} {r1}" for g, r0, r1 in gates]
    return "".join(line + "\n" for line in lines).encode()


def add(label, file, room, answer):
    assert not set(label) & set("\t\n")
    cases.append(f"{len(file)} {room}\t{label}\n".encode() + file)
    expected.append(f"{label}\t{answer}\n")


def taken(label, file, net, surplus=3):
    """A file that is read as the numbers of net."""
    net = net if isinstance(net, list) else [int(n) for n in net.split()]
    due = packed(net)
    shown = " ".join(str(n) for n in net[:SHOWN])
    bytes_ = "".join(f" {b:02x}" for b in due[:SHOWN])
    add(label, file, len(net) + surplus,
        f"{len(net)}: {shown}\tkept\t{len(due)}{bytes_} kept\trefused 12 0\trefused 16 0\tsame")


def refused(label, file, why, room=40):
    """A file that is refused with this number and line, the buffer as it was."""
    add(label, file, room, f"refused {why}\tkept")


H = b"aig 2 1 0 1 1\n4\n"
G = "12 3 2 1 7 18 0 25 0 24 8 3 10 3 4 2 16 6 16 7 4 0 23 21"
G_BYTES = bytes.fromhex("04 05 04 07 0c 02 02 0a 04 09 12 04 01 02")
G_FILE = b"aig 12 3 2 1 7\n18\n25\n24\n" + G_BYTES
CHECKED = "13 3 2 2 8 18 0 25 0 24 27 8 3 10 3 4 2 16 6 16 7 4 0 23 21 24 19"
CHECKED_FILE = b"aig 13 3 2 2 8\n18\n25\n24\n27\n" + G_BYTES + b"\x02\x05"
numbers = [int(n) for n in G.split()]
assert packed(numbers) == G_FILE and len(G_FILE) == 38 and len(text(numbers)) == 89
assert packed([int(n) for n in CHECKED.split()]) == CHECKED_FILE and len(CHECKED_FILE) == 43

# ---- document 01's graph G, in both forms, with one output and with two
taken("G packed", G_FILE, G)
taken("G as text", text(numbers), G)
taken("G packed, its buffer without surplus", G_FILE, G, 0)
refused("G packed, its buffer one number short", G_FILE, "12 0", 23)
refused("G packed, no buffer", G_FILE, "12 0", 0)
taken("G with checked packed", CHECKED_FILE, CHECKED)
taken("G with checked as text", text([int(n) for n in CHECKED.split()]), CHECKED)
taken("G packed with every reset written", packed(numbers, True), G)
refused("G without its last byte", G_FILE[:-1], "18 0")
refused("G without its last gate", G_FILE[:-2], "18 0")
refused("G with another byte", G_FILE + b"\x00", "18 0")
refused("G under the text form's word", b"aag" + G_FILE[3:], "14 2")
refused("G as text under the packed form's word", b"aig" + text(numbers)[3:], "14 0")

# ---- gates in any order, in the text form alone: document 02, No. 10
def rows(file):
    """The lines of a file, parted here by commas."""
    return b"".join(line.strip().encode() + b"\n" for line in file.split(","))


*front, g0, g1, g2, g3, g4, g5, g6 = text(numbers).splitlines(True)
taken("G, its gates reversed", b"".join([*front, g6, g5, g4, g3, g2, g1, g0]), G)
taken("G, its last gate first", b"".join([*front, g6, g0, g1, g2, g3, g4, g5]), G)
refused("G, its gates reversed, the buffer one number short", b"".join([*front, g6, g5, g4, g3, g2, g1, g0]), "12 0", 23)
taken("lines out of order", rows("aag 3 1 0 1 2, 2, 6, 6 2 4, 4 2 2"), "3 1 0 1 2 6 2 2 4 2")
taken("the second gate is placed first", rows("aag 3 1 0 1 2, 2, 4, 4 6 2, 6 2 3"), "3 1 0 1 2 6 3 2 4 2")
taken("an inverted output, both signs of an operand", rows("aag 3 1 0 1 2, 2, 5, 4 6 7, 6 2 2"), "3 1 0 1 2 7 2 2 5 4")
taken("next and output renumbered", rows("aag 4 1 1 1 2, 2, 4 6 4, 8, 6 8 2, 8 4 2"), "4 1 1 1 2 8 4 6 4 2 6 2")
taken("the order 6, 10, 4, 8", rows("aag 5 1 0 1 4, 2, 4, 4 10 2, 6 2 2, 8 4 6, 10 3 2"), "5 1 0 1 4 8 2 2 3 2 6 2 8 4")
taken("two outputs renumbered", rows("aag 3 1 0 2 2, 2, 4, 7, 4 6 2, 6 2 3"), "3 1 0 2 2 6 5 3 2 4 2")
taken("smaller operand first", rows("aag 2 1 0 1 1, 2, 4, 4 2 3"), "2 1 0 1 1 4 3 2")
taken("smaller operand first, behind a latch", rows("aag 3 1 1 1 1, 2, 4 6, 6, 6 2 4"), "3 1 1 1 1 6 0 6 4 2")
refused("two gates wait on each other", rows("aag 3 1 0 1 2, 2, 4, 4 6 2, 6 4 2"), "23 0")
refused("two gates wait on each other, no buffer", rows("aag 3 1 0 1 2, 2, 4, 4 6 2, 6 4 2"), "23 0", 0)
refused("a gate waits on itself", rows("aag 2 1 0 1 1, 2, 4, 4 4 2"), "23 0")
refused("a gate waits on its inverse", rows("aag 2 1 0 1 1, 2, 4, 4 5 2"), "23 0")
refused("a gate behind one that waits on itself", rows("aag 3 1 0 1 2, 2, 4, 4 6 2, 6 6 2"), "23 0")
refused("a gate twice", rows("aag 3 1 0 1 2, 2, 4, 4 2 2, 4 2 2"), "14 5")
refused("a gate's literal inverted", rows("aag 2 1 0 1 1, 2, 4, 5 2 2"), "14 4")
refused("an input's literal for a gate", rows("aag 2 1 0 1 1, 2, 4, 2 2 2"), "14 4")
refused("a latch's literal for a gate", rows("aag 3 1 1 1 1, 2, 4 2, 6, 4 2 2"), "14 5")
refused("a gate above the largest literal", rows("aag 2 1 0 1 1, 2, 4, 6 2 2"), "14 4")
refused("an operand above the largest literal", rows("aag 2 1 0 1 1, 2, 4, 4 6 2"), "14 4")
refused("a second operand above the largest literal", rows("aag 2 1 0 1 1, 2, 4, 4 2 6"), "14 4")
refused("a gate twice behind one that waits on itself", rows("aag 3 1 0 1 2, 2, 4, 4 4 2, 4 2 2"), "14 5")
refused("a line more behind gates that wait", rows("aag 3 1 0 1 2, 2, 4, 4 4 2, 6 2 2, 6 2 2"), "13 6")
refused("a gate's line missing", rows("aag 3 1 0 1 2, 2, 4, 6 2 2"), "13 5")

# ---- runs of one, two and three bytes
taken("differences 127 and 0", b"aig 64 63 0 1 1\n128\n\x7f\x00", "64 63 0 1 1 128 1 1")
taken("differences 128 and 0", b"aig 64 63 0 1 1\n128\n\x80\x01\x00", "64 63 0 1 1 128 0 0")
taken("differences 1 and 127", b"aig 64 63 0 1 1\n128\n\x01\x7f", "64 63 0 1 1 128 127 0")


def chain(inputs, gates, operands):
    """Gates of which all but the last are of the constant 0."""
    first = inputs + 1
    return [inputs + gates, inputs, 0, 1, gates, 2 * (inputs + gates)] + [0, 0] * (gates - 1) + operands(2 * (first + gates - 1))


taken("difference 8190", packed(chain(1, 4094, lambda g: [0, 0])), chain(1, 4094, lambda g: [0, 0]))
assert packed(chain(1, 4094, lambda g: [0, 0])).endswith(b"\xfe\x3f\x00")
taken("difference 8189", packed(chain(1, 4094, lambda g: [1, 1])), chain(1, 4094, lambda g: [1, 1]))
taken("second difference 8189", packed(chain(1, 4094, lambda g: [g - 1, 0])), chain(1, 4094, lambda g: [g - 1, 0]))
refused("16384 in three bytes", H + b"\x80\x80\x01\x00", "14 0")
refused("16384 behind a good first run", H + b"\x02\x80\x80\x01", "14 0")

# ---- no gates: what follows the output's line is the byte part
taken("one input, which is the output", b"aig 1 1 0 1 0\n2\n", "1 1 0 1 0 2")
refused("an x behind it", b"aig 1 1 0 1 0\n2\nx", "18 0")
refused("a well-shaped line behind it", b"aig 1 1 0 1 0\n2\n2\n", "18 0")
refused("an LF behind it", b"aig 1 1 0 1 0\n2\n\n", "18 0")
refused("a symbol table behind it", b"aig 1 1 0 1 0\n2\ni0 p\n", "18 0")
refused("a comment behind it", b"aig 1 1 0 1 0\n2\nc\nours\n", "18 0")
refused("its last LF missing", b"aig 1 1 0 1 0\n2", "13 2")
refused("its output's line missing", b"aig 1 1 0 1 0\n", "13 2")
refused("an output above the largest literal", b"aig 1 1 0 1 0\n4\n", "14 2")
refused("an output with a blank before it", b"aig 1 1 0 1 0\n 2\n", "13 2")
refused("an output of two numbers", b"aig 1 1 0 1 0\n2 2\n", "13 2")
taken("the output 0", b"aig 1 1 0 1 0\n0\n", "1 1 0 1 0 0")
taken("the output 3", b"aig 1 1 0 1 0\n3\n", "1 1 0 1 0 3")

# ---- two outputs
taken("two outputs", b"aig 1 1 0 2 0\n2\n3\n", "1 1 0 2 0 2 3")
refused("without its second output's line", b"aig 1 1 0 2 0\n2\n", "13 3")
refused("its second output above the largest literal", b"aig 1 1 0 2 0\n2\n4\n", "14 3")
refused("three outputs", b"aig 1 1 0 3 0\n2\n3\n2\n", "14 1")
refused("no output", b"aig 1 1 0 0 0\n", "14 1")
refused("two outputs and an x", b"aig 1 1 0 2 0\n2\n3\nx", "18 0")

# ---- latches
taken("an uninitialised latch", b"aig 2 1 1 1 0\n2 4\n5\n", "2 1 1 1 0 2 4 5")
taken("a reset 0 that is written", b"aig 2 1 1 1 0\n2 0\n5\n", "2 1 1 1 0 2 0 5")
taken("a reset 0 that is not", b"aig 2 1 1 1 0\n2\n5\n", "2 1 1 1 0 2 0 5")
taken("a reset 1", b"aig 2 1 1 1 0\n2 1\n5\n", "2 1 1 1 0 2 1 5")
refused("a reset 6", b"aig 2 1 1 1 0\n2 6\n5\n", "14 2")
refused("a reset 2, the input", b"aig 2 1 1 1 0\n2 2\n5\n", "14 2")
refused("a reset 5, the latch inverted", b"aig 2 1 1 1 0\n2 5\n5\n", "14 2")
refused("the latch's own literal before next and reset", b"aig 2 1 1 1 0\n4 2 0\n5\n", "13 2")
refused("a next above the largest literal", b"aig 2 1 1 1 0\n6\n5\n", "14 2")
refused("two blanks in a latch's line", b"aig 2 1 1 1 0\n2  4\n5\n", "13 2")
refused("a blank at the end of a latch's line", b"aig 2 1 1 1 0\n2 \n5\n", "13 2")
refused("a latch's next with a leading 0", b"aig 2 1 1 1 0\n02\n5\n", "13 2")
refused("a latch's next of six digits", b"aig 2 1 1 1 0\n100000\n5\n", "13 2")
refused("a latch's next of five digits", b"aig 2 1 1 1 0\n99999\n5\n", "14 2")
refused("a latch's line with CR", b"aig 2 1 1 1 0\n2\r\n5\n", "13 2")
refused("the second latch faulty", b"aig 3 1 2 1 0\n2\n8\n5\n", "14 3")
refused("the output behind two latches", b"aig 3 1 2 1 0\n2\n6\n8\n", "14 4")
refused("the second latch missing", b"aig 3 1 2 1 0\n2\n", "13 3")
six = [7, 1, 6, 1, 0] + [n for k in range(6) for n in (2, 4 + 2 * k)] + [2]
seven = [8, 1, 7, 1, 0] + [n for k in range(7) for n in (2, 4 + 2 * k)] + [2]
taken("six uninitialised latches", packed(six), six)
refused("seven uninitialised latches", packed(seven), "14 8")

# ---- the header
refused("more variables than are defined", b"aig 2 1 0 1 2\n", "14 1")
refused("M above 4,095", b"aig 4096 1 4095 1 0\n", "14 1")
refused("65 inputs", b"aig 65 65 0 1 0\n2\n", "14 1")
taken("64 inputs", b"aig 64 64 0 1 0\n2\n", "64 64 0 1 0 2")
refused("no input", b"aig 1 0 1 1 0\n2\n2\n", "14 1")
refused("four numbers", b"aig 1 1 0 1\n2\n", "13 1")
refused("six numbers", b"aig 1 1 0 1 0 0\n2\n", "13 1")
refused("a header with CR", b"aig 1 1 0 1 0\r\n2\n", "13 1")
refused("a header with two blanks", b"aig  1 1 0 1 0\n2\n", "13 1")
refused("the word alone", b"aig ", "13 1")
refused("the word and LF", b"aig\n", "13 1")
refused("the word and a tab", b"aig\t1 1 0 1 0\n2\n", "13 1")
refused("the word in capitals", b"AIG 1 1 0 1 0\n2\n", "13 1")
refused("another word", b"aug 1 1 0 1 0\n2\n", "13 1")
refused("the word behind a blank", b" aig 1 1 0 1 0\n2\n", "13 1")
refused("an empty file", b"", "13 1")
refused("ai", b"ai", "13 1")

# ---- byte runs
refused("no byte", H, "18 0")
refused("one run", H + b"\x02", "18 0")
taken("2 and 2", H + b"\x02\x02", "2 1 0 1 1 4 2 0")
taken("2 and 0", H + b"\x02\x00", "2 1 0 1 1 4 2 2")
taken("4 and 0", H + b"\x04\x00", "2 1 0 1 1 4 0 0")
taken("1 and 3", H + b"\x01\x03", "2 1 0 1 1 4 3 0")
refused("0 and 0", H + b"\x00\x00", "14 0")
refused("5 and 0", H + b"\x05\x00", "14 0")
refused("2 and 3", H + b"\x02\x03", "14 0")
refused("a first run out of limits decides", H + b"\x05\xff\xff\xff", "14 0")
refused("0 and nothing", H + b"\x00", "14 0")
refused("0 in two bytes", H + b"\x80\x00\x00", "18 0")
refused("2 in two bytes", H + b"\x82\x00\x00", "18 0")
refused("2 in three bytes", H + b"\x82\x80\x00\x00", "18 0")
refused("the second run 2 in two bytes", H + b"\x02\x82\x00", "18 0")
refused("the largest of three bytes", H + b"\xff\xff\x7f\x00", "14 0")
refused("a third byte with its top bit set", H + b"\xff\xff\xff", "18 0")
refused("a third byte with its top bit set, and a fourth", H + b"\xff\xff\xff\x01\x00", "18 0")
refused("unfinished after one byte", H + b"\xff", "18 0")
refused("unfinished after two bytes", H + b"\xff\xff", "18 0")
refused("the second run unfinished", H + b"\x02\x82", "18 0")
refused("an LF behind the last gate", H + b"\x02\x02\n", "18 0")
refused("a 0 behind the last gate", H + b"\x02\x02\x00", "18 0")
refused("a fault in a line before one in a run", b"aig 2 1 0 1 1\n6\n\x00", "14 2")
refused("an output above the largest literal before good runs", b"aig 2 1 0 1 1\n6\n\x02\x02", "14 2")
refused("an output's line missing before the runs", b"aig 2 1 0 1 1\n\x02\x02", "13 2")
refused("the second gate's first run missing", b"aig 3 1 0 1 2\n6\n\x02\x02", "18 0")
refused("the second gate out of limits", b"aig 3 1 0 1 2\n6\n\x02\x02\x07\x00", "14 0")
refused("the second gate, then a byte", b"aig 3 1 0 1 2\n6\n\x02\x02\x06\x00\x01", "18 0")
taken("two gates", b"aig 3 1 0 1 2\n6\n\x02\x02\x06\x00", "3 1 0 1 2 6 2 0 0 0")
refused("a faulty run before a short buffer", H + b"\x02\x03", "14 0", 2)
refused("a short buffer", H + b"\x02\x02", "12 0", 7)

# ---- the longest
longest = [4095, 1, 4094, 2, 0]
for k in range(4094):
    # the last six are uninitialised, and their literals have four digits
    longest += [8190, 4 + 2 * k if k >= 4088 else 1]
longest += [8191, 8190]
assert len(packed(longest)) == 28706
taken("the longest packed file", packed(longest), longest, 2)
taken("4,094 gates", packed(chain(1, 4094, lambda g: [2, 1])), chain(1, 4094, lambda g: [2, 1]), 0)
refused("a file of 65,536 bytes", (G_FILE + b"\x00" * 65536)[:65536], "18 0")
refused("a file of 65,537 bytes", (G_FILE + b"\x00" * 65537)[:65537], "1 0")

with open(os.path.join(here, "stdin"), "wb") as f:
    f.write(b"".join(cases))
assert sum(map(len, cases)) <= 262144, "the program's buffer is too small"
with open(os.path.join(here, "stdout"), "w") as f:
    f.write("".join(expected))
