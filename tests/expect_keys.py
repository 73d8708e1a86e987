#!/usr/bin/env python3
"""What the program keys_run reads and has to print: published keys of RFC 4253, section 7.2 (tests/vectors), and each of their beginnings where
a digest ends or begins.

usage: expect_keys.py [--check]

Writes crates/keys_run/stdin and stdout; with --check it only compares, as `make vectors` does. `rt ci keys_run` proves and runs the program,
and holds it to its stdout.
It needs nothing that is built, and takes a tenth of a second. Exits 0, 1 where a file is stale or cannot be read, 2 where it is called wrongly.
"""
import sys

sys.dont_write_bytecode = True
from command import run
from held import ROOT, written
from published import METHODS, of_records

KEYS = 134
MARK, COMPLETE = 3, 5


def complete(role, method, k, h, identifier):
    """A complete exchange as the bytes that a host lends, 228 of them: mark, stage, fail number, role, method, seven lengths, K's record, H; the
    identifier's length, how many exchanges were completed, 1 where it is H, and the identifier."""
    row = METHODS[method]
    lengths = b''.join(n.to_bytes(2, 'big') for n in (9, 9, 20, 20, 8, row.c, row.s))
    session = len(identifier).to_bytes(2, 'big') + (1 if identifier == h else 2).to_bytes(8, 'big') + identifier.ljust(64, b'\0')
    return bytes([MARK, COMPLETE, 0, role, method]) + lengths + k.ljust(71, b'\0') + h.ljust(64, b'\0') + session


def asked():
    """A key, 230 bytes: letter and length a byte each, and the exchange; and the line that is printed for it."""
    keys = list(of_records(later=True))
    if len(keys) != KEYS:
        raise SystemExit(f'expect_keys.py: {len(keys)} keys, not {KEYS}')
    for method, key in keys:
        ends = {end + by for end in range(key.kind, len(key.key), key.kind) for by in (-1, 0, 1)}
        for length in sorted({1, len(key.key)} | {end for end in ends if 0 < end < len(key.key)}):
            exchange = complete(1 + length % 2, method, key.k, key.h, key.identifier)
            yield bytes([key.letter, length]) + exchange, f'{key.key[:length].hex()}\n'


def files():
    given, wanted = zip(*asked())
    folder = ROOT / 'crates/keys_run'
    return {folder / 'stdin': b''.join(given), folder / 'stdout': ''.join(wanted).encode()}


if __name__ == '__main__':
    run(lambda: written(__doc__, files))
