#!/usr/bin/env python3
"""What the crate boundary_c exports: each public function of boundary under its own name, with its contract as it stands there, its body one call of it.

usage: exports.py [--check]

Writes crates/boundary_c/src/lib.rt from crates/boundary/src/lib.rt; with --check it only compares, as `make vectors` does, so that no export promises
less than the function that it calls. That it keeps its promise is proved, as of every function.
It needs nothing that is built, and takes a tenth of a second. Exits 0, 1 where the file is stale or cannot be written, 2 where it is called wrongly.
"""
import re
import sys

sys.dont_write_bytecode = True
from command import NAME, run
from held import ROOT, written

FROM, TO = (ROOT / 'crates' / name / 'src/lib.rt' for name in ('boundary', 'boundary_c'))
HEAD = """\
// The library: each function of `boundary` under its own name, by C's calling convention and with the contract that it has there. A slice crosses as a
// pointer and a 64-bit length. Written by tests/exports.py.
#![tactic(auto)]

"""
PART = re.compile(r'^// ---- .*\n', re.M)
FUNCTION = re.compile(r'^pub fn (\w+)\(([^()]*)\)( -> \w+)?\n((?:    .*\n)+)\{\n(?:(?:    .*)?\n)*?\}\n', re.M)
WIDTH = 100


def laid(opening, parts, closing):
    """A list in parentheses as the layout has it: on one line where it fits, else a part a line."""
    line = f'{opening}{", ".join(parts)}{closing}'
    return line if len(line) <= WIDTH else f'{opening}\n' + ''.join(f'    {part},\n' for part in parts) + closing


def export(found):
    name, given, answer, clauses = found.groups(default='')
    given = [' '.join(part.split()) for part in given.split(',') if part.strip()]
    head = laid(f'pub extern "C" fn {name}(', given, f'){answer}')
    return f'#[unsafe(no_mangle)]\n{head}\n{clauses}{{\n    boundary::{name}({", ".join(part.split(":")[0] for part in given)})\n}}\n'


def files():
    text = FROM.read_text(encoding='utf-8')
    uses = re.findall(r'^ghost use .*\n', text, re.M)
    found = sorted([*PART.finditer(text), *FUNCTION.finditer(text)], key=lambda part: part.start())
    if len(re.findall(r'^pub (?:extern "C" )?fn ', text, re.M)) != sum(part.re is FUNCTION for part in found):
        raise SystemExit(f'{NAME}: {FROM.relative_to(ROOT)} has a public function that is laid out as none is')
    parts = [part[0] if part.re is PART else export(part) for part in found]
    return {TO: (HEAD + '\n'.join([''.join(uses), *parts])).encode()}


if __name__ == '__main__':
    run(lambda: written(__doc__, files))
