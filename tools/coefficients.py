#!/usr/bin/env python3
"""Writes the table of small binomials into crates/subsets/src/pascal.rt, between the lines of the constant: C(m, r) at 4 m + r, for m from 0 to 512 and r
from 0 to 3, as Python's math.comb has them, one to a line: `rt fmt` in crates/subsets then lays them out, and after that nothing has changed."""
import math
import pathlib
import re

source = pathlib.Path(__file__).resolve().parent.parent / "crates/subsets/src/pascal.rt"
table = "".join(f"    {math.comb(m, r)},\n" for m in range(513) for r in range(4))
text = source.read_text()
written, places = re.subn(r"(const COEFFICIENTS: \[u32; 2052\] = \[\n)[^\]]*(\];\n)", rf"\g<1>{table}\g<2>", text)
assert places == 1, "the constant is not there once"
source.write_text(written)
