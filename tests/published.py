"""The published keys of tests/vectors, and RFC 4253, section 7.2, as the scripts beside this one have them."""
if __name__ == '__main__':
    raise SystemExit('published.py: a module that the tests beside it import; by itself it runs nothing')

import collections
import hashlib
import re

from held import ROOT

COUNTS = {'sshkdf-nist.txt': 180, 'sshkdf-openssl.txt': 56}
KINDS = {'SHA256': 32, 'SHA384': 48, 'SHA512': 64}
Method = collections.namedtuple('Method', 'kind least most c s')  # its hash; K's shortest and longest body; the lengths of C and S
METHODS = {
    1: Method(32, 1, 33, 32, 32), 2: Method(32, 1, 33, 32, 32), 3: Method(64, 1, 57, 56, 56), 4: Method(32, 0, 33, 65, 65),
    5: Method(48, 0, 49, 97, 97), 6: Method(64, 0, 67, 133, 133), 7: Method(32, 32, 32, 1249, 1153), 8: Method(48, 48, 48, 1665, 1665),
    9: Method(32, 32, 32, 1216, 1120),
}
Key = collections.namedtuple('Key', 'kind k h letter identifier key')


def derived(kind, k, h, letter, identifier, length):
    """So many bytes of a letter's key: each digest behind the first is of K, H and all digests ahead of it."""
    def digest(data):
        return hashlib.new(f'sha{8 * kind}', data).digest()

    key = digest(k + h + bytes([letter]) + identifier)
    while len(key) < length:
        key += digest(k + h + key)
    return key[:length]


def published():
    """Every key of the files, held to the section's words."""
    for name, count in COUNTS.items():
        keys = []
        for paragraph in (ROOT / 'tests/vectors' / name).read_text().split('\n\n'):
            of = {field.removeprefix('Ctrl.'): value.split(':')[-1] for field, value in re.findall(r'^(\S+) = (\S+)$', paragraph, re.M)}
            if of:
                k, h, identifier, key = (bytes.fromhex(of[field]) for field in ('hexkey', 'hexxcghash', 'hexsession_id', 'Output'))
                keys.append(Key(KINDS[of['digest']], k, h, ord(of['type']), identifier, key))
        wrong = [key for key in keys if derived(*key[:5], len(key.key)) != key.key]
        if len(keys) != count or wrong:
            raise SystemExit(f'{name}: {len(keys)} keys, {len(wrong)} of them others than the section has')
        yield from keys


def of_records(later=False):
    """Those whose identifier is H, with each method that has their hash and takes their K; those of a later exchange too, whose identifier is
    another digest."""
    for key in published():
        for method, row in METHODS.items():
            kept = key.identifier == key.h or later and len(key.identifier) in KINDS.values()
            if kept and key.kind == row.kind and 4 + row.least <= len(key.k) <= 4 + row.most:
                yield method, key
