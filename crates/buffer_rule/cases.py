#!/usr/bin/env python3
"""Writes stdin and stdout of this program: the largest buffer, of 40 strokes, whose graph has the longest text, 4,287
bytes. The graph is written as document 02 says in No. 6."""
import pathlib

here = pathlib.Path(__file__).parent
STROKES = 40
lines = [f"S\t{name}" for name in ("reset", "enq", "deq", "empty", "full")]
lines += ["V\ts"] + [f"V\tn{count}" for count in range(STROKES + 1)]
lines += ["E\ts\tn0\tt\treset\t1"]
for count in range(STROKES + 1):
    if count == 0:
        flags, moves = "empty&!full", [(1, "enq"), (0, "!enq")]
    elif count == STROKES:
        flags, moves = "!empty&full", [(count - 1, "deq"), (count, "!deq")]
    else:
        flags, moves = "!empty&!full", [(count + 1, "enq&!deq"), (count - 1, "!enq&deq"), (count, "enq=deq")]
    lines += [f"E\tn{count}\tn{after}\tt\t{inputs}\t{flags}" for after, inputs in moves]
stdout = "".join(line + "\n" for line in lines)
assert (len(stdout), len(lines)) == (4287, 4 * STROKES + 9)
(here / "stdin").write_text(f"{STROKES}\n")
(here / "stdout").write_text(stdout)
