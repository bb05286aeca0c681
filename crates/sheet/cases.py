#!/usr/bin/env python3
"""Writes stdin and stdout of this program: the longest input there is, 65,536 bytes, whose page is the longest, 265,518.
Every cycle is an init of a graph whose one edge demands 0, so every cycle is rejected. The page is laid out as document 02
says in No. 9."""
import pathlib

here = pathlib.Path(__file__).parent
name = "G"
front = name + "\nV\ta\nE\ta\ta\tt\t1\t0\nT\n"
cycles = (65536 - len(front)) // 2
stdin = front + "1\n" * cycles
rejected = range(1, cycles + 1)
whole, remainder = divmod(len(rejected) * 1_000_000, cycles)
lines = [f"{name:<24}{cycles:>10}"]
lines += ["".join(f"{k:>8}" for k in rejected[at : at + 10]) for at in range(0, cycles, 10)]
lines += [f"{len(rejected):>10}{whole:>7}{remainder:>10}"]
stdout = "".join(f"{line:<80}\n" for line in lines)
assert (len(stdin), len(stdout)) == (65536, 265518)
(here / "stdin").write_text(stdin)
(here / "stdout").write_text(stdout)
