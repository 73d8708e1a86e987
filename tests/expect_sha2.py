#!/usr/bin/env python3
"""What the program sha2_run reads and has to print: NIST's messages for SHA-256, SHA-384 and SHA-512 and their published digests.

usage: expect_sha2.py --check | --from DIR

--check holds crates/sha2_run/stdin and stdout to hashlib, and to how many messages there are, as `make vectors` does. --from writes both from NIST's
files SHA*ShortMsg.rsp and SHA*LongMsg.rsp in DIR, those messages that have at most 65,536 bytes. `rt ci sha2_run` proves and runs the program, and
holds it to its stdout.
It needs nothing that is built, and takes a tenth of a second. Exits 0, 1 where the files are others or cannot be read, 2 where it is called wrongly.
"""
import hashlib
import pathlib
import re
import sys

sys.dont_write_bytecode = True
from command import asked, need, run, wrong
from held import ROOT

GIVEN, WANTED = (ROOT / 'crates/sha2_run' / name for name in ('stdin', 'stdout'))
KINDS = {32: 'SHA256', 48: 'SHA384', 64: 'SHA512'}
HASHES = {32: hashlib.sha256, 48: hashlib.sha384, 64: hashlib.sha512}
MOST = 65536
# short and long messages of each kind, as NIST published them
COUNTS = {32: 65 + 64, 48: 129 + 128, 64: 129 + 128}


def published(directory):
    for kind, name in KINDS.items():
        for length in ('Short', 'Long'):
            text = (directory / f'{name}{length}Msg.rsp').read_text()
            for bits, message, digest in re.findall(r'Len = (\d+)\s+Msg = ([0-9a-f]+)\s+MD = ([0-9a-f]+)', text):
                data = bytes.fromhex(message)[:int(bits) // 8]
                if len(data) <= MOST:
                    yield kind, data, digest


def write(directory):
    given, wanted = bytearray(), []
    for kind, data, digest in published(directory):
        given += bytes([kind]) + len(data).to_bytes(8, 'big') + data
        wanted.append(f'{digest} {digest}\n')
    GIVEN.write_bytes(given)
    WANTED.write_text(''.join(wanted))


def check():
    given, wanted = GIVEN.read_bytes(), WANTED.read_text().split('\n')
    at, counts, lines = 0, {}, []
    while at < len(given):
        kind, length = given[at], int.from_bytes(given[at + 1:at + 9], 'big')
        data = given[at + 9:at + 9 + length]
        at += 9 + length
        if kind not in HASHES:
            sys.exit(f'expect_sha2.py: stdin has a message of kind {kind}')
        counts[kind] = counts.get(kind, 0) + 1
        digest = HASHES[kind](data).hexdigest()
        lines.append(f'{digest} {digest}')
    if lines + [''] != wanted:
        sys.exit('expect_sha2.py: stdout is not what hashlib makes of stdin')
    if counts != COUNTS:
        sys.exit(f'expect_sha2.py: {counts} messages, not {COUNTS}')
    print(f"sha2_run: {len(lines)} of NIST's messages, as hashlib has them")


def main():
    words = asked(__doc__, 1, 2, ['--check', '--from'])
    if words == ['--check']:
        check()
    elif words[0] == '--from' and len(words) == 2:
        need("NIST's files shabytetestvectors.zip, unpacked", words[1])
        write(pathlib.Path(words[1]))
    else:
        wrong(__doc__)


if __name__ == '__main__':
    run(main)
