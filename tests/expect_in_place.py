#!/usr/bin/env python3
"""What the program in_place_run reads and has to print: a captured exchange of method 9 in both roles, by the specification.

usage: expect_in_place.py [--check]

Writes crates/in_place_run/stdin and stdout; with --check it only compares, as `make vectors` does. `rt ci in_place_run` proves and runs the
program, and holds it to its stdout.
It needs nothing that is built, and takes a tenth of a second. Exits 0, 1 where a file is stale or cannot be read, 2 where it is called wrongly.
"""
import sys

sys.dont_write_bytecode = True
from captured import capture, string
from command import run
from held import ROOT, written

FIELDS = ("V_C", "V_S", "I_C", "I_S", "C", "X", "K_PQ", "K_S", "S", "INIT", "REPLY")
STARTED = ("V_C", "V_S", "I_C", "I_S")
HASHED = (*STARTED, "K_S", "C", "S")

f = {}
room = bytearray(b"\x55" * 14156)
lines = []


def laid(names, k=b""):
    """The room begins with these fields, and its rest stays."""
    data = b"".join(string(f[name]) for name in names) + k
    room[: len(data)] = data
    return len(data)


def checksum(data):
    h = 0
    for x in data:
        h = (h * 257 + x + 1) % 65521
    return h


def call(name, number, count=0, position=0):
    lines.append(f"{name} {number} {count} {position} {checksum(room)}\n")


def secret(number, count=0, h=b""):
    """The secret's answer has H beside it, zeros after it."""
    call("secret", number, count)
    lines.append(f"H {h.ljust(64, bytes(1)).hex()}\n")


def client():
    laid((*STARTED, "C"))
    call("INIT", 1)
    laid(HASHED)
    call("REPLY", 0)
    secret(0, laid(HASHED, f["K"]), f["H"])
    call("verdict", 0, len(f["K"]))
    lines.append(f"K {checksum(f['K'].ljust(71, bytes(1)))}\n")


def server():
    laid(STARTED)
    laid((*STARTED, "C"))
    call("INIT", 0)
    secret(0, laid(HASHED, f["K"]), f["H"])


def fault():
    """A REPLY for an INIT."""
    room[:] = bytes(len(room))
    call("INIT", 11)
    secret(1)


def cut():
    """An INIT of which only the first 40 bytes are there: its string, C, begins behind the message number."""
    room[:] = bytes(len(room))
    call("INIT", 12, position=1)
    secret(1)


def files():
    f.update(capture("client-9-openssh-10.0"))
    for play in (client, server, fault, cut):
        play()
    folder = ROOT / "crates/in_place_run"
    return {
        folder / "stdin": b"".join(string(f[name]) for name in FIELDS),
        folder / "stdout": "".join(lines).encode(),
    }


if __name__ == "__main__":
    run(lambda: written(__doc__, files))
