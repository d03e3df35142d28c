#!/usr/bin/env python3
"""Changes a copy of the oracle's crate where document 02 differs from the Rust and document 01:

    tests/tools/amend_oracle.py CRATE

CRATE is the output of ../shared/oracle/assemble.py. Only this file knows these differences; all tests compare with the amended copy. A change
has the request, the file, the old text and the new one."""
import sys
from pathlib import Path

CHANGES = [
    # A 16-bit element is in v0 to v15. The Rust accepts any register.
    ("S-3", "forms.rs", "r.m > 31 ||", "r.m > (if by_element(r.op) && lane_bits(r.arr) == 32 { 15 } else { 31 }) ||"),
    # A block has up to 85 records, 63 by document 01.
    ("S-9", "forms.rs", "block.len() > 63", "block.len() > 85"),
    # Every cut that the lowering makes of a cut is joined, until its operand is not an Extract. The Rust's lane functions and the oracle's reads of
    # registers make all their cuts by this constructor; a source that the tests pass is built without it.
    (
        "S-8",
        "expr.rs",
        """    pub fn extract(src: Self, hi: u16, lo: u16) -> Self {
        Self::Extract {
""",
        """    pub fn extract(src: Self, hi: u16, lo: u16) -> Self {
        if let Self::Extract { src: inner, hi: inner_hi, lo: inner_lo } = &src
            && hi + inner_lo <= *inner_hi
        {
            return Self::extract((**inner).clone(), hi + inner_lo, lo + inner_lo);
        }
        Self::Extract {
""",
    ),
]


def amend(crate):
    for request, name, old, new in CHANGES:
        path = crate / name
        text = path.read_text()
        if text.count(old) != 1:
            sys.exit(f"amend_oracle: {request}: {name} has the text to change {text.count(old)} times")
        path.write_text(text.replace(old, new))


if len(sys.argv) != 2:
    sys.exit(__doc__)
amend(Path(sys.argv[1]))
