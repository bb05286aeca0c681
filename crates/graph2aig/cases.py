#!/usr/bin/env python3
"""Writes stdin and stdout of this program beside this file: the longest graph, which is graph2aiger's, and its file in the
binary format, made here of graph2aiger's text: what both print is one circuit. The independent implementation makes it
of the graph (rust/reference/tests/fixtures.rs)."""
import pathlib

here = pathlib.Path(__file__).parent
text = here.parent / "graph2aiger"


def run(n):
    """Seven bits a byte, lowest first, top bit set when more follow."""
    return bytes([n]) if n < 128 else bytes([128 + n % 128]) + run(n // 128)


lines = [line.split() for line in (text / "stdout").read_text().splitlines()]
inputs, latches, outputs = (int(n) for n in lines[0][2:5])
file = [" ".join(["aig", *lines[0][1:]])]
file += [" ".join(latch[1:]) for latch in lines[1 + inputs:][:latches]]
file += [" ".join(output) for output in lines[1 + inputs + latches:][:outputs]]
gates = [[int(n) for n in gate] for gate in lines[1 + inputs + latches + outputs:]]
(here / "stdin").write_bytes((text / "stdin").read_bytes())
(here / "stdout").write_bytes(
    "".join(line + "\n" for line in file).encode() + b"".join(run(g - r0) + run(r0 - r1) for g, r0, r1 in gates))
