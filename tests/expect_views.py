#!/usr/bin/env python3
"""What the program views_run reads and has to print: the names of every list of four payloads, by RFC 4253, section 7.1.

usage: expect_views.py [--check]

Writes crates/views_run/stdin and stdout; with --check it only compares, as `make vectors` does. The payloads: a captured one, a made one with an
empty list and bad names, the same with another message number, and the same without its last byte. `rt ci views_run` proves and runs the program, and holds it to its stdout.
It needs nothing that is built, and takes a tenth of a second. Exits 0, 1 where a file is stale or cannot be read, 2 where it is called wrongly.
"""
import re
import sys

sys.dont_write_bytecode = True
from captured import capture, string
from command import run
from held import ROOT, written

LISTS = [b"one,two,three", b"good,b\x20d,good", b"", b"d,", b"e", b",f", b"g" * 64, b"h" * 65, b"i,,i", b"last"]


def made():
    return b"\x14" + b"0123456789abcdef" + b"".join(map(string, LISTS)) + b"\x01" + bytes([0, 0, 0, 7])


def lists(payload):
    """The number, the position with 12, and the ten lists. The payloads here are cut in their reserved number or not at all."""
    if payload[0] != 20:
        return 11, 0, []
    at, out = 17, []
    for _ in range(10):
        length = int.from_bytes(payload[at : at + 4], "big")
        out.append(payload[at + 4 : at + 4 + length])
        at += 4 + length
    reserved = at + 1
    return (0, 0, out) if len(payload) == reserved + 4 else (12, reserved, [])


def line(payload, n):
    """An opening: its number, its position, the names, the number where they stop. A refused one yields only the end."""
    number, position, found = lists(payload) if 1 <= n <= 10 else (4, 0, [])
    names, stop = [], 0
    for name in found[n - 1].split(b",") if number == 0 and found[n - 1] else []:
        if not re.fullmatch(rb"[!-+\--~]{1,64}", name):
            stop = 19
            break
        names.append(name.decode() + " ")
    return f"{n}: {number} {position} {''.join(names)}{stop} equal\n"


def files():
    payloads = [capture("guess-1-dropbear-2025.89")["I_C"], made(), b"\x15" + made()[1:], made()[:-1]]
    folder = ROOT / "crates/views_run"
    return {
        folder / "stdin": b"".join(map(string, payloads)),
        folder / "stdout": "".join(line(payload, n) for payload in payloads for n in range(12)).encode(),
    }


if __name__ == "__main__":
    run(lambda: written(__doc__, files))
