#!/usr/bin/env python3
"""Writes stdin and stdout of this program: the longest input there is, 65,536 bytes, whose page is the longest, 250,991.
Every cycle is an init of a graph whose one edge demands 0, so every cycle is rejected."""
import pathlib

here = pathlib.Path(__file__).parent
front = "V\ta\nE\ta\ta\tt\t1\t0\nT\n"
cycles = (65536 - len(front)) // 2
stdin = front + "1\n" * cycles
stdout = "".join(f"R\t{k}\n" for k in range(1, cycles + 1)) + f"sum\t{cycles}\t{cycles}\trejected\n"
assert (len(stdin), len(stdout)) == (65536, 250991)
(here / "stdin").write_text(stdin)
(here / "stdout").write_text(stdout)
