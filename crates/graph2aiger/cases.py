#!/usr/bin/env python3
"""Writes stdin of this program: a graph of 32,768 bytes, the longest there is, that is accepted: names of 15 bytes,
formulas of up to 255 bytes with every operator, self-loops and marks of both kinds. What stdout has is compared with
the independent implementation by rust/reference/tests/fixtures.rs."""
import pathlib

LIMIT, LONGEST = 32768, 255
here = pathlib.Path(__file__).parent
names = [f"{kind}{k:02d}".ljust(15, "_") for kind in ("signal", "const_") for k in range(6)]
vertices = [f"vertex{k:02d}".ljust(15, "_") for k in range(5)]
text = "".join(f"S\t{n}\n" for n in names[:6]) + "".join(f"K\t{n}\n" for n in names[6:])
text += "".join(f"V\t{v}\n" for v in vertices)


def formula(k, length):
    """Names joined by each operator in turn, with `!` in front where there is a byte for it, so long."""
    out = names[k % 12]
    while len(out) + 17 <= length:
        k += 1
        out += "&|&|^&|&|="[k % 10] + "!" * (k % 3 == 0 and len(out) + 17 < length) + names[(5 * k) % 12]
    return "!" * min(length - len(out), 16) + out


k = 0
while True:
    edge = f"E\t{vertices[k % 5]}\t{vertices[(3 * k + 1) % 5]}\t{'-t'[k % 2]}\t"
    left = LIMIT - len(text) - len(edge) - 2
    if left <= 2 * LONGEST:
        text += f"{edge}{formula(k, left // 2)}\t{formula(k + 7, left - left // 2)}\n"
        break
    # what is left for the last edge is between 200 and 510 bytes
    size = LONGEST if left - 2 * LONGEST > 300 else 150
    text += f"{edge}{formula(k, size)}\t{formula(k + 7, size)}\n"
    k += 1
assert len(text) == LIMIT, len(text)
(here / "stdin").write_text(text)
