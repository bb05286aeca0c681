#!/usr/bin/env python3
"""Writes stdin and stdout of the program broken_cases beside this file: widths, traces and verdict bytes, each with what
document 02, No. 12, says of it. What is expected is written here by hand, case by case; nothing is computed from the
calls.

A case in stdin is six fields, each a byte with its length and then that many bytes: label, width (one byte), flywheel
trace, handle trace, and the verdict bytes of each. In stdout it is a line: label; `none`, or `refused` with number and
line and, for a wrong line, its trace; `at` with the trace of the part, its place and its length; and the part in
brackets; parted by tabs."""
import os

here = os.path.dirname(os.path.abspath(__file__))
cases = []
expected = []


def lists(verdicts):
    """The lists of the flywheel and of the handle, from a digit for each byte, parted by a comma."""
    return [bytes(int(d) for d in digits) for digits in verdicts.split(",")]


def fine(label, width, flywheel, handle, verdicts, found, part):
    cases.append((label, width, [flywheel, handle, *lists(verdicts)]))
    expected.append(f"{label}\tnone\tat {found}\t[{part}]\n")


def refused_bytes(label, width, flywheel, handle, verdicts, why):
    """Refused for this; the part is then the empty beginning of the flywheel trace."""
    cases.append((label, width, [flywheel, handle, *verdicts]))
    expected.append(f"{label}\trefused {why}\tat flywheel 0 0\t[]\n")


def refused(label, width, flywheel, handle, verdicts, why):
    refused_bytes(label, width, flywheel, handle, lists(verdicts), why)


def largest(label, answer):
    """A case that the program makes itself."""
    expected.append(f"{label}\t{answer}\n")


F = b"10\n11\n01\n"
H = b"00\n01\n"

# ---- what is handed back
fine("the flywheel's last cycle", 2, F, H, "001,00", "flywheel 6 2", "01")
fine("a tie at the second cycle", 2, F, H, "010,01", "flywheel 3 2", "11")
fine("the handle's second, the flywheel's third", 2, F, H, "001,01", "handle 3 2", "01")
fine("both of the handle's, none of the flywheel's", 2, F, H, "000,11", "handle 0 2", "00")
fine("nothing rejected", 2, F, H, "000,00", "flywheel 0 0", "")
fine("both traces empty", 2, b"", b"", ",", "flywheel 0 0", "")
fine("flywheel trace empty", 2, b"", H, ",01", "handle 3 2", "01")

# ---- each refusal
refused("width 0", 0, F, H, "001,00", "26 0")
refused("width 65", 65, F, H, "001,00", "26 0")
refused("lines of two bytes at width 3", 3, F, H, "001,00", "15 1 flywheel")
refused("the flywheel's last LF missing", 2, b"10\n11\n01", H, "001,00", "15 3 flywheel")
refused("x in the handle's second line", 2, F, b"00\n0x\n", "001,00", "15 2 handle")
refused("lines of one byte at width 2", 2, b"1\n", b"0\n", "0,0", "15 1 flywheel")
refused("the flywheel's list too short", 2, F, H, "00,00", "25 0")
refused("2 in the flywheel's list", 2, F, H, "002,00", "25 0")
refused("the handle's list too long", 2, F, H, "100,000", "25 0")

# ---- which cycle is the earlier
fine("a tie at the first cycle", 2, F, H, "100,10", "flywheel 0 2", "10")
fine("the handle's first, the flywheel's second", 2, F, H, "010,10", "handle 0 2", "00")
fine("the flywheel's first, the handle's second", 2, F, H, "100,01", "flywheel 0 2", "10")
fine("every cycle of both", 2, F, H, "111,11", "flywheel 0 2", "10")
fine("the same line in both, the handle's rejected", 2, b"10\n", b"10\n", "0,1", "handle 0 2", "10")
fine("past the end of the handle trace", 2, F, b"00\n", "001,0", "flywheel 6 2", "01")
fine("past the end of the flywheel trace", 2, b"10\n", H, "0,01", "handle 3 2", "01")
fine("the first of a short handle trace", 2, F, b"00\n", "001,1", "handle 0 2", "00")
fine("the last of a short flywheel trace, a tie", 2, b"10\n11\n", b"00\n01\n11\n", "01,011", "flywheel 3 2", "11")
fine("handle trace empty", 2, F, b"", "001,", "flywheel 6 2", "01")
fine("handle trace empty, nothing rejected", 2, F, b"", "000,", "flywheel 0 0", "")
fine("flywheel trace empty, nothing rejected", 2, b"", H, ",00", "flywheel 0 0", "")

# ---- widths
W0 = "0" * 64
W1 = "01" * 32
two = f"{W0}\n{W1}\n".encode()
fine("width 1", 1, b"1\n0\n1\n", b"0\n", "001,0", "flywheel 4 1", "1")
fine("width 64, the flywheel's second", 64, two, b"", "01,", "flywheel 65 64", W1)
fine("width 64, the handle's second", 64, two, two, "00,01", "handle 65 64", W1)
refused("width 64, lines of 63 bytes", 64, W0[1:].encode() + b"\n", b"", "0,", "15 1 flywheel")
refused("width 65, lines of 65 bytes", 65, b"1" * 65 + b"\n", b"", "0,", "26 0")
refused("width 65, both traces empty", 65, b"", b"", ",", "26 0")
refused("width 0, empty lines", 0, b"\n\n", b"\n", "00,0", "26 0")
refused("width 255", 255, F, H, "001,00", "26 0")

# ---- wrong lines
refused("the handle's last LF missing", 2, F, b"00\n01", "001,00", "15 2 handle")
refused("a byte after the handle's last LF", 2, F, H + b"0", "001,00", "15 3 handle")
refused("a line too long", 2, b"10\n110\n01\n", H, "001,00", "15 2 flywheel")
refused("the first of two wrong lines", 2, F, b"00\n0\n1\n", "001,000", "15 2 handle")
refused("an empty line", 2, b"10\n\n01\n", H, "001,00", "15 2 flywheel")
refused("an empty line at the handle's end", 2, F, H + b"\n", "001,000", "15 3 handle")
refused("LF alone", 2, b"\n", b"", "0,", "15 1 flywheel")
refused("CR before LF", 2, b"10\r\n11\r\n", H, "00,00", "15 1 flywheel")
refused("CR before LF, counted in the width", 3, b"10\r\n11\r\n", b"", "00,", "15 1 flywheel")
refused("CR before LF in the handle's second line", 2, F, b"00\n01\r\n", "001,00", "15 2 handle")
refused("a blank in a line", 2, b"10\n1 \n", H, "00,00", "15 2 flywheel")
refused("2 in a line", 2, b"10\n12\n", H, "00,00", "15 2 flywheel")
refused("bytes 0 and 1 in a line", 2, b"\x01\x00\n", H, "0,00", "15 1 flywheel")

# ---- wrong lists
refused_bytes("digits in the flywheel's list", 2, F, H, [b"001", b"\x00\x00"], "25 0")
refused_bytes("digits in the handle's list", 2, F, H, [b"\x00\x00\x01", b"00"], "25 0")
refused_bytes("255 in the flywheel's list", 2, F, H, [b"\x00\x00\xff", b"\x00\x00"], "25 0")
refused("2 after a rejected cycle", 2, F, H, "120,00", "25 0")
refused("2 in the handle's list", 2, F, H, "001,02", "25 0")
refused("the flywheel's list too long", 2, F, H, "0010,00", "25 0")
refused("the handle's list too short", 2, F, H, "001,0", "25 0")
refused("the flywheel's list missing", 2, F, H, ",00", "25 0")
refused("the handle's list missing", 2, F, H, "001,", "25 0")
refused("the lists exchanged", 2, F, H, "00,001", "25 0")
refused("a verdict of an empty flywheel trace", 2, b"", H, "0,00", "25 0")
refused("a verdict of an empty handle trace", 2, F, b"", "001,0", "25 0")

# ---- several causes: the first in order; 1 before 26 is among the largest
refused("26 before 15 of both", 0, b"10\n1x\n", b"x", "00,0", "26 0")
refused("26 before 25 of both", 65, F, H, "002,", "26 0")
refused("15 of the flywheel before 15 of the handle", 2, b"10\n11\n0\n", b"0\n", "000,0", "15 3 flywheel")
refused("the first wrong line of both traces", 2, b"10\n1x\n0\n", b"0x\n", "000,0", "15 2 flywheel")
refused("15 before 25 of the flywheel", 2, b"10\n1x\n", H, "2,00", "15 2 flywheel")
refused("15 of the flywheel before 25 of the handle", 2, b"10\n1x\n", H, "00,", "15 2 flywheel")
refused("15 of the handle before 25 of the flywheel", 2, F, b"00\n0x\n", "00,00", "15 2 handle")
refused("15 of the handle before 25 of both", 2, F, b"00\n0x\n", "002,000", "15 2 handle")

# ---- the largest, the other trace empty: 524,288 lines `1` at width 1, only the last rejected; a byte more, at width 0
largest("at the flywheel, bytes 1048576", "none\tat flywheel 1048574 1\t[1]")
largest("at the handle, bytes 1048576", "none\tat handle 1048574 1\t[1]")
largest("at the flywheel, bytes 1048577", "refused 1 0\tat flywheel 0 0\t[]")
largest("at the handle, bytes 1048577", "refused 1 0\tat flywheel 0 0\t[]")

with open(os.path.join(here, "stdin"), "wb") as f:
    for label, width, fields in cases:
        for field in [label.encode(), bytes([width]), *fields]:
            f.write(bytes([len(field)]) + field)
with open(os.path.join(here, "stdout"), "w") as f:
    f.write("".join(expected))
