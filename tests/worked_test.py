#!/usr/bin/env python3
"""The whole exchanges that docs/SPECIFICATION.md works by hand (14.15), by hashlib and through the bench.

usage: worked_test.py BENCH

Each block there has a line 'name = value' for each field. A value is text in quotes, hex, or hex*N, N bytes of it repeated, joined by spaces. What
follows from the fields above it is computed here from the RFCs' words and by the library, in both roles, and both must be what stands there.
`make bench` makes BENCH, in build. It takes a second. Exits 0, 1 with a line at the first difference, 2 where it is called wrongly.
"""
import hashlib
import os
import re
import subprocess
import sys

sys.dont_write_bytecode = True
from command import asked, need, run
from held import ROOT

DIGESTS = {32: hashlib.sha256, 48: hashlib.sha384, 64: hashlib.sha512}
ROWS = {1: 32, 4: 32, 5: 48, 6: 64, 9: 32}  # method: its digest
LETTERS = "ABCDEF"


def value(words):
    out = b""
    for word in re.findall(r'"[^"]*"|\S+', words):
        if word.startswith('"'):
            out += word[1:-1].encode()
        else:
            digits, _, count = word.partition("*")
            part = bytes.fromhex(digits)
            out += (part * (int(count) // len(part) + 1))[: int(count)] if count else part
    return out


def blocks(text):
    section = text.split("**14.15**")[1].split("\n## ")[0]
    for block in re.findall(r"```\n(.*?)```", section, re.S):
        yield {name: words for name, words in re.findall(r"^(\S+) += (.*?)(?: +#.*)?$", block, re.M)}


def string(body):
    return len(body).to_bytes(4, "big") + body


def mpint(number):
    return string(number.to_bytes(number.bit_length() // 8 + 1, "big") if number else b"")


def by_hand(b):
    """What follows from the fields, by RFC 4253, sections 7.2 and 8, RFC 5656, section 4, and the hybrid draft."""
    method = int(b["method"])
    sha = DIGESTS[ROWS[method]]
    f = {name: value(b[name]) for name in ("V_C", "V_S", "I_C", "I_S", "K_S", "C", "S", "X", "signature")}
    k = string(sha(value(b["K_PQ"]) + f["X"]).digest()) if "K_PQ" in b else mpint(int.from_bytes(f["X"], "big"))
    hashed = b"".join(string(f[name]) for name in ("V_C", "V_S", "I_C", "I_S", "K_S", "C", "S")) + k
    h = sha(hashed).digest()
    found = {"K": k, "input": str(len(hashed)), "H": h, "INIT": bytes([30]) + string(f["C"]),
             "REPLY": bytes([31]) + string(f["K_S"]) + string(f["S"]) + string(f["signature"])}
    for letter in LETTERS:
        if f"key_{letter}" in b:
            key, size = sha(k + h + letter.encode() + h).digest(), len(value(b[f"key_{letter}"]))
            while len(key) < size:
                key += sha(k + h + key).digest()
            found[f"key_{letter}"] = key[:size]
    return found


def digest(data):
    """The bench's own digest of bytes, by which it tells what an output holds."""
    h = g = 0
    for x in data:
        h, g = (h * 257 + x + 1) % (2**31 - 1), (g * 65599 + x + 1) % (2**31 - 1)
    return f"{h:08x}{g:08x}"


def through(bench, b, found):
    """The same by the library, in both roles: the calls, and how each answer begins."""
    x = {name: value(b[name]).hex() for name in ("V_C", "V_S", "I_C", "I_S", "K_S", "C", "S", "X", "signature")}
    kem, k_pq = ("d", value(b["K_PQ"]).hex()) if "K_PQ" in b else ("a", "-")
    head = f"{b['method']} {x['V_C']} {x['V_S']} {x['I_C']} {x['I_S']}"
    given = f"secret G{len(x['X']) // 2} {x['X']} {kem} {k_pq}"
    secret = f"0 {found['input']} {found['H'].hex().ljust(128, '0')}"
    k_out = f"out=71:{digest(found['K'].ljust(71, bytes(1)))}"
    keys = [(f"derive {ord(name[-1])} {len(key)} 00*128", f"0 out=128:{digest(key.ljust(128, bytes(1)))}")
            for name, key in found.items() if name.startswith("key_")]
    calls = [
        ("room 00*14156", "0"), (f"start 1 {head}", "0"),
        (f"ownc {x['C']} 00*1670", f"0 {len(found['INIT'])} out=1670:{digest(found['INIT'].ljust(1670, bytes(1)))}"),
        (f"reply {found['REPLY'].hex()}", "0"), (f"{given} - -", secret), ("verdict 1 1 00*71", f"0 {len(found['K'])} {k_out}"), *keys,
        ("room 00*14156", "0"), (f"start 2 {head}", "0"), (f"init {found['INIT'].hex()}", "0"), (f"{given} {x['K_S']} {x['S']}", secret),
        (f"sign {x['signature']} 00*5774 00*71",
         f"0 {len(found['REPLY'])} {len(found['K'])} out=5774:{digest(found['REPLY'].ljust(5774, bytes(1)))} {k_out}"), *keys,
    ]
    script = "".join(call + "\n" for call, _ in calls)
    answers = subprocess.run([bench], input=script, capture_output=True, text=True, check=True).stdout.splitlines()
    for (call, wanted), answer in zip(calls, answers, strict=True):
        if not (answer + " ").startswith(wanted + " "):
            return f"{call[:60]} ..: the library answers {answer[:160]}, and not {wanted[:160]}"
    return None


def main():
    bench, = asked(__doc__, 1, 1)
    need("make bench makes it", bench)
    bench = os.path.abspath(bench)
    worked = list(blocks((ROOT / "docs/SPECIFICATION.md").read_text(encoding="utf-8")))
    for number, b in enumerate(worked, 1):
        found = by_hand(b)
        for name, result in found.items():
            stated = b.get(name)
            if stated is not None and (stated if name == "input" else value(stated)) != result:
                print(f"worked_test: block {number}: {name} is {result if name == 'input' else result.hex()}, and not {stated}", file=sys.stderr)
                return 1
        fault = through(bench, b, found)
        if fault:
            print(f"worked_test: block {number}: {fault}", file=sys.stderr)
            return 1
    if len(worked) < 2:
        print("worked_test: fewer than two whole exchanges in 14.15", file=sys.stderr)
        return 1
    print(f"worked_test: {len(worked)} whole exchanges as the specification works them, by hashlib and by the library in both roles")
    return 0


if __name__ == "__main__":
    run(main)
