#!/usr/bin/env python3
"""The bench as a program: the specification's worked examples, payloads that break at every place, hashes, keys and the captured exchanges through it,
one by one and one behind another in a session, each answer computed here, with Python's own SHA-2; published keys; the landings' examples
(tests/examples); and what it does with lines that are none.

usage: bench_test.py BENCH      (a program, or a command of several words: what runs it, and the program)

`make bench` makes BENCH, build/bench; with the library for size and under the sanitizers it is build/host/bench_small, of `make c-host`. It takes 3
seconds, and 5 under the sanitizers. Exits 0, 1 where an answer is wrong or BENCH cannot be run, 2 where it is called wrongly or BENCH is not there.
"""
import functools
import hashlib
import subprocess
import sys

sys.dont_write_bytecode = True
from captured import captures, string
from command import asked, need, run
from held import ROOT
from kexinit_cases import METHODS as METHOD_NAMES
from kexinit_cases import cases as kexinit_cases
from published import METHODS, derived, of_records


def said(bench, script, *words):
    p = subprocess.run([*bench, *words], input=script.encode(), capture_output=True, timeout=60)
    return p.returncode, *(out.decode(errors='replace').splitlines() for out in (p.stdout, p.stderr))


@functools.cache
def digest(data):
    h = g = 0
    for x in data:
        h = (h * 257 + x + 1) % (2 ** 31 - 1)
        g = (g * 65599 + x + 1) % (2 ** 31 - 1)
    return f'{h:08x}{g:08x}'


def out(data):
    return f'out={len(data)}:{digest(data)}'


def h(b):
    return b.hex() or '-'


def sha(kind, data):
    """The digest of a kind, zeros after it, in hex."""
    return hashlib.new(f'sha{8 * kind}', data).hexdigest().ljust(128, '0')


ZEROS = '0' * 128
MOST = 2**32 - 1  # of completed exchanges


def kept(k=b'', h=b'', identifier=b'', count=0, id_len=None):
    """What the state shows of K's record, of H and of the session."""
    return (f' k={digest(k.ljust(71, bytes(1)))} h={digest(h.ljust(64, bytes(1)))} '
            f'sid={len(identifier) if id_len is None else id_len}:{digest(identifier.ljust(64, bytes(1)))} n={count}')


# ---- the specification's worked examples: line, and what its answer begins with

def server(method, c, x, s=None):
    """Lines that bring a server to its secret."""
    s = c if s is None else s
    return [
        'room 00*14156',
        f'start 2 {method} 61 62 14 14',
        f'init {h(bytes([30]) + string(c))}',
        f'secret G{len(x)} {h(x)} a - {h(b"k")} {h(s)}',
    ]


def secrets():
    """X of 32 bytes in method 4 with and without leading zeros and a high bit, and K as the sign step writes it; then the longest X, of method 6."""
    p256, p521 = b'\4' + bytes(64), b'\4' + bytes(132)
    short = [
        (bytes(31) + b'\1', '0000000101'),
        (bytes(32), '00000000'),
        (b'\x7f' + bytes(31), '00000020' + '7f' + '00' * 31),
        (b'\x80' + bytes(31), '00000021' + '0080' + '00' * 31),
        (b'\0\x7f' + bytes(30), '0000001f' + '7f' + '00' * 30),
        (b'\0\x80' + bytes(30), '00000020' + '0080' + '00' * 30),
    ]
    long = [
        (bytes(66), '00000000'),
        (b'\x7f' + b'\xee' * 65, '00000042' + '7f' + 'ee' * 65),
        (b'\x80' + b'\xee' * 65, '00000043' + '0080' + 'ee' * 65),
        (b'\0\x80' + b'\xee' * 64, '00000042' + '0080' + 'ee' * 64),
    ]
    for method, point, x, k in [(4, p256, *case) for case in short] + [(6, p521, *case) for case in long]:
        k = bytes.fromhex(k)
        lines = server(method, point, x) + ['sign 73 00*5774 00*71']
        reply = bytes([31]) + string(b'k') + string(point) + string(b's')
        hashed = b''.join(map(string, (b'a', b'b', b'\x14', b'\x14', b'k', point, point))) + k
        yield lines, ['0', '0', '0 5:', f'0 {len(hashed)} {sha(32 if method == 4 else 64, hashed)} |',
                      f'0 {len(reply)} {len(k)} {out(reply + bytes(5774 - len(reply)))} {out(k + bytes(71 - len(k)))}']
    # an all-zero X where the check is on
    yield server(1, bytes(32), bytes(32)), ['0', '0', '0', f'16 0 {ZEROS} | ex 2.1.failed.16.0,0,0,0,0,0,0']
    c9, s9 = bytes(1216), bytes(1120)
    lines = server(9, c9, bytes(32), s=s9)
    lines[3] = f'secret G32 {h(bytes(32))} d {h(bytes(32))} {h(b"k")} {h(s9)}'
    yield lines, ['0', '0', '0', f'16 0 {ZEROS} | ex 2.9.failed.16.0,0,0,0,0,0,0']


def hybrids():
    """K_PQ is of 32 bytes exactly where the KEM is done, whatever the classical outcome; K is the hash of K_PQ and then X."""
    for method, c_len, s_len, x_len, kind, nist in ((7, 1249, 1153, 32, 32, True), (8, 1665, 1665, 48, 48, True), (9, 1216, 1120, 32, 32, False)):
        kem_c, kem_s = {7: (1184, 1088), 8: (1568, 1568), 9: (1184, 1088)}[method]
        c, s = (bytes([0xc0]) * n for n in (c_len, s_len))
        if nist:
            c, s = c[:kem_c] + b'\4' + c[kem_c + 1:], s[:kem_s] + b'\4' + s[kem_s + 1:]
        x, k_pq, own = b'\0\x80' + b'\x11' * (x_len - 2), b'\x5a' * 32, f'{h(b"k")} {h(s)}'
        k = string(bytes.fromhex(sha(kind, k_pq + x)[:2 * kind]))
        hashed = b''.join(map(string, (b'a', b'b', b'\x14', b'\x14', b'k', c, s))) + k
        at = f' | ex 2.{method}.init.0.1,1,1,1,0,{c_len},0{kept()}'
        begin = server(method, c, x, s)[:3]
        given = f'secret G{x_len} {h(x)}'
        for refused in (f'{given} d - {own}', f'{given} d {h(k_pq[1:])} {own}', f'{given} d {h(k_pq + k_pq[:1])} {own}',
                        f'{given} f {h(k_pq)} {own}', f'{given} a {h(k_pq)} {own}', f'{given} a - {own}',
                        f'secret F - d - {own}', f'secret F - f {h(k_pq)} {own}'):
            yield begin + [refused], ['0', '0', '0', f'4 0 {ZEROS}{at}']
        for ends, number in ((f'secret F - d {h(k_pq)} {own}', 16), (f'secret F - f - {own}', 16), (f'{given} f - {own}', 17)):
            yield begin + [ends], ['0', '0', '0', f'{number} 0 {ZEROS} | ex 2.{method}.failed.{number}.0,0,0,0,0,0,0']
        yield begin + [f'{given} d {h(k_pq)} {own}'], [
            '0', '0', '0', f'0 {len(hashed)} {sha(kind, hashed)} | ex 2.{method}.secret.0.1,1,1,1,1,{c_len},{s_len}'
            f'{kept(k, bytes.fromhex(sha(kind, hashed)))} room={digest(hashed.ljust(14156, bytes(1)))}']
        # what somebody wrote into the room is hashed as it stands there
        poked = b'\0\0\0\1X' + hashed[5:]
        yield begin + ['poke 4 58', f'{given} d {h(k_pq)} {own}'], ['0', '0', '0', '0', f'0 {len(hashed)} {sha(kind, poked)} |']
    # in methods 1 to 6 K_PQ is empty, and a KEM that is done is 4 whatever K_PQ is
    for kem, k_pq in (('a', b'\x5a' * 32), ('d', b''), ('d', b'\x5a' * 32), ('f', b'')):
        lines = server(1, bytes(32), b'\1' * 32)
        lines[3] = f'secret G32 {h(bytes([1]) * 32)} {kem} {h(k_pq)} {h(b"k")} {h(bytes(32))}'
        yield lines, ['0', '0', '0', f'4 0 {ZEROS} |']


def hashes():
    """Every tail that there is, whole and in parts; states that do not fit; 65,535, 65,536 and 65,537 bytes in all."""
    yield 'finish', f'4 {ZEROS}'  # before anything is said it is what a refused sha hands back
    yield 'feed -', '4 0.0.0'
    message = bytes((7 * i + 3) % 256 for i in range(300))
    for kind, block in ((32, 64), (48, 128), (64, 128)):
        def state(total, of=kind, tail=None, block=block):
            return f'{of}.{total}.{total % block if tail is None else tail}'

        for n in range(0, 300, 1 if kind == 32 else 3):
            first = n * 5 // 7
            yield f'sha {kind}', f'0 {state(0)}'
            yield f'feed {h(message[:first])}', f'0 {state(first)}'
            yield f'feed {h(message[first:n])}', f'0 {state(n)}'
            yield 'finish', f'0 {sha(kind, message[:n])}'
            yield 'feed -', f'0 {state(n)}'
            yield 'finish', f'0 {sha(kind, message[:n])}'
        yield f'sha {kind}', f'0 {state(0)}'
        yield 'feed 61*65537', f'4 {state(0)}'
        yield 'feed 61*65535', f'0 {state(65535)}'
        yield 'finish', f'0 {sha(kind, b"a" * 65535)}'
        yield 'feed 6161', f'4 {state(65535)}'
        yield 'feed 61', f'0 {state(65536)}'
        yield 'feed -', f'0 {state(65536)}'
        yield 'feed 61', f'4 {state(65536)}'
        yield 'finish', f'0 {sha(kind, b"a" * 65536)}'
        for total in (65537, 65536 + block, 2**32, 2**64 - 1):
            yield f'shaset total {total}', f'0 {state(total, tail=0)}'
            yield 'finish', f'4 {ZEROS}'
            yield 'feed -', f'4 {state(total, tail=0)}'
        yield 'shaset total 65537', f'0 {state(65537, tail=0)}'
        yield 'shaset tail 1', f'0 {state(65537)}'
        yield 'finish', f'4 {ZEROS}'
        yield 'feed -', f'4 {state(65537)}'
        yield 'shaset tail 0', f'0 {state(65537, tail=0)}'
        yield 'shaset total 65536', f'0 {state(65536)}'
        for tail in (1, block - 1, block, 2**32, 2**64 - 1):
            yield f'shaset tail {tail}', f'0 {state(65536, tail=tail)}'
            yield 'feed -', f'4 {state(65536, tail=tail)}'
            yield 'finish', f'4 {ZEROS}'
        yield 'shaset tail 0', f'0 {state(65536)}'
        for other in (0, 31, 33, 255):
            yield f'shaset kind {other}', f'0 {state(65536, of=other)}'
            yield 'feed -', f'4 {state(65536, of=other)}'
            yield 'finish', f'4 {ZEROS}'
        yield f'shaset kind {kind}', f'0 {state(65536)}'
        yield 'finish', f'0 {sha(kind, b"a" * 65536)}'
    for kind in (0, 1, 31, 33, 47, 49, 63, 65, 128, 255):
        yield 'sha 32', '0 32.0.0'
        yield f'sha {kind}', '4 0.0.0'
        yield 'feed 61', '4 0.0.0'
        yield 'finish', f'4 {ZEROS}'


# RFC 4251, section 5, and longer forms of its numbers: two's complement bytes, and the body that is written
MPINTS = [
    ('-', ''), ('09a378f9b2e332a7', '09a378f9b2e332a7'), ('80', '80'), ('0080', '0080'), ('edcc', 'edcc'), ('ff21524111', 'ff21524111'),
    ('000000', ''), ('00000080', '0080'), ('ffffffedcc', 'edcc'), ('ffffff', 'ff'), ('ff80', '80'), ('ffff7f', 'ff7f'), ('ff7f', 'ff7f'),
]


def mpints():
    """Written into 16 bytes, and read again from there."""
    for number, body in MPINTS:
        body = bytes.fromhex(body)
        rest = b'\x55' * (12 - len(body))
        written = string(body) + rest
        sign = 0 if not body else -1 if body[0] & 128 else 1
        yield f'wmpint {number} 55*16', f'0 {4 + len(body)} {out(written)}'
        yield f'rmpint {h(written)}', f'0 {sign} 4:{h(body)} {4 + len(body)}:{h(rest)}'


def codecs():
    yield from mpints()
    # mpint bodies that could be shorter, and some that could not; 12 before 22
    for body in ('0001', '007f', 'ffff', 'ff80', '00'):
        yield f'rmpint {len(body) // 2:08x}{body}01', '22 0 0:- 0:-'
    for body, sign in (('0080', 1), ('ff7f', -1), ('ff', -1), ('7f', 1), ('80', -1)):
        n = len(body) // 2
        yield f'rmpint {n:08x}{body}01', f'0 {sign} 4:{body} {4 + n}:01'
    yield 'rmpint 0000000001', '0 0 4:- 4:01'
    yield 'rmpint 0000000200', '12 0 0:- 0:-'
    # strings, cut ones, and lengths that wrap where 4 is added in 32 bits
    yield from [('rstr 00000000', '0 4:- 4:-'), ('rstr 000000026162', '0 4:6162 6:-'), ('rstr 0000000261626364', '0 4:6162 6:6364')]
    lying = [f'{n:08x}616263' for n in (2**32 - 5, 2**32 - 4, 2**32 - 3, 2**32 - 2, 2**32 - 1, 2**31)]
    for s in ('-', '000000', '000000036162', '0000000261', 'fffffffd6162', *lying):
        yield f'rstr {s}', '12 0:- 0:-'
    # outputs: just long enough, longer, a byte too short
    for body, size in ((b'ab', 6), (b'ab', 8), (b'ab', 10), (b'', 4), (b'abcd', 8)):
        yield f'wstr {h(body)} 55*{size}', f'0 {4 + len(body)} {out((string(body)).ljust(size, bytes([0x55])))}'
    for body, size in ((b'ab', 5), (b'', 3)):
        yield f'wstr {h(body)} 55*{size}', f'5 0 {out(bytes([0x55]) * size)}'


def kexinits():
    """KEXINIT with ten empty lists: 61, 62 and 63 bytes, and its writer; then the cases of kexinit_cases."""
    yield 'open 14' + '00' * 60 + ' 1', '12 0:- 0 0 58'
    yield 'open 14' + '00' * 61 + ' 1', '0 1:' + '00' * 16 + ' 0 0 0'
    yield 'open 14' + '00' * 62 + ' 1', '13 0:- 0 0 62'
    yield 'wkex ' + '00' * 16 + ' - - - - - - - - - - 0 0 00*62', '0 62 ' + out(b'\x14' + bytes(61))
    yield from kexinit_cases(out)


def lists():
    """Calls that need no start, each with its whole answer."""
    for cases in (codecs(), kexinits(), hashes()):
        yield [list(words) for words in zip(*cases)]


def exchanges():
    room = 'room 00*14156'
    # room 14,155 and 14,156
    yield ['room 00*14155', 'start 1 1 61 62 14 14'], ['0', '3 | ex 0.0.failed.3.']
    yield [room, 'start 1 1 61 62 14 14'], ['0', '0 | ex 1.1.started.0.1,1,1,1,0,0,0']
    # V_C and V_S of 253 bytes, and of 254
    yield [room, 'start 1 1 61*253 62*253 14 14'], ['0', '0 | ex 1.1.started.0.253,253,1,1,0,0,0']
    yield [room, 'start 1 1 61*254 62 14 14'], ['0', '4 | ex 0.0.failed.4.']
    yield [room, 'start 1 1 61 62*254 14 14'], ['0', '4 | ex 0.0.failed.4.']
    yield [room, 'start 3 1 61 62 14 14'], ['0', '2 | ex 0.0.failed.2.']
    # every method of the table that the tests go by, and no other
    numbers = range(256)
    yield [room, *(f'start 1 {n} 61 62 14 14' for n in numbers)], [
        '0', *(f'0 | ex 1.{n}.started.0.1,1,1,1,0,0,0' if n in METHODS else '2 | ex 0.0.failed.2.' for n in numbers)]
    # C of 31 and 33 in method 1
    for n in (31, 33):
        payload = h(bytes([30]) + string(bytes(n)))
        yield [room, 'start 2 1 61 62 14 14', f'init {payload}', f'init {payload}'], [
            '0', '0', f'14 0:- 0 | ex 2.1.failed.14.0,0,0,0,0,0,0{kept()} room={digest(bytes(14156))}', '1 0:- 0 |']
    # REPLY cut in its third length
    ahead = bytes([31]) + string(b'k') + string(bytes(32))
    yield [room, 'start 1 1 61 62 14 14', f'ownc {"00" * 32} 00*1670', f'reply {h(ahead + bytes(3))}'], [
        '0', '0', '0 37', f'12 0:- 0:- 0:- {len(ahead)} | ex 1.1.failed.12.']
    # an exchange that was written to: a length that no exchange has, also one that its bytes cannot hold, is shown, refused by every step
    # and kept; it is forgotten when it is set anew, at start and at blank
    begin, init = 'start 2 1 61 62 14 14', f'init {h(bytes([30]) + string(bytes(32)))}'
    whole, zeros = '0 | ex 2.1.started.0.1,1,1,1,0,0,0', '0 | ex 0.0.failed.0.0,0,0,0,0,0,0'
    for n in (4097, 65535, 65536, 65537, 2**32 + 1, 2**64 - 1):
        forged = f' | ex 2.1.started.0.1,1,{n},1,0,0,0'
        yield [room, begin, f'set l2 {n}', 'init 1e', 'secret F - a - - -', 'set l2 1', init], [
            '0', whole, '0' + forged, '1 0:- 0' + forged, f'1 0 {ZEROS}' + forged, whole, '0 5:']
        yield [room, begin, f'set l2 {n}', init, begin, init, f'set l6 {n}', 'blank'], [
            '0', whole, '0' + forged, '1 0:- 0' + forged, whole, '0 5:', f'0 | ex 2.1.init.0.1,1,1,1,0,32,{n}', zeros]
    yield ['blank', 'set fail 9'], ['0 | ex 0.0.failed.0.', '0 | ex 0.0.failed.9.']
    # a fault behind the secret step and any start leave neither K nor H, and no key; a start leaves no session either
    none = f'{kept()} room='
    secret = server(1, bytes(32), b'\1' * 32)
    k, hashed = string(b'\1' * 32), b''.join(map(string, (b'a', b'b', b'\x14', b'\x14', b'k', bytes(32), bytes(32), b'\1' * 32)))
    exchange_hash = bytes.fromhex(sha(32, hashed)[:64])
    done = ['0', '0', '0', '0', '0 47 36', f'0 {out(derived(32, k, exchange_hash, 65, exchange_hash, 1))}']
    sign, key, no_key = 'sign 73 00*5774 00*71', 'derive 65 1 00', f'1 {out(bytes(1))} | ex '
    yield secret + ['set role 1', 'verdict 1 0 00*71', key], [
        *done[:4], '0 | ex 1.1.secret.', f'18 0 {out(bytes(71))} | ex 1.1.failed.18.0,0,0,0,0,0,0{none}{digest(bytes(14156))}', f'{no_key}1.1.failed.18.']
    yield secret + [sign, key, begin, key], [*done, f'{whole}{none}', f'{no_key}2.1.started.0.1,1,1,1,0,0,0{none}']
    yield secret + [sign, key, 'start 2 0 61 62 14 14', key], [*done, f'2 | ex 0.0.failed.2.0,0,0,0,0,0,0{none}', f'{no_key}0.0.failed.2.']


# ---- where a payload breaks

def broken(payload, message, strings):
    """Number and position of a payload that is to be a message of so many strings, as far as 10 to 13 go: SPECIFICATION 2.7, 7.3."""
    if not 1 <= len(payload) <= 32768:
        return 10, 0
    if payload[0] != message:
        return 11, 0
    at = 1
    for _ in range(strings):
        size = payload[at:at + 4]
        if len(size) < 4 or at + 4 + int.from_bytes(size, 'big') > len(payload):
            return 12, at
        at += 4 + int.from_bytes(size, 'big')
    return (13, at) if at < len(payload) else (0, 0)


def spoiled(payload, strings):
    """A message of so many strings cut everywhere, with bytes left over, with each length too long, and as another message."""
    yield from (payload[:size] for size in range(len(payload)))
    yield from (payload + bytes(more) for more in (1, 2, 300, 32768 - len(payload), 32769 - len(payload)))
    at = 1
    for _ in range(strings):
        size = int.from_bytes(payload[at:at + 4], 'big')
        left = len(payload) - at - 4  # behind the length bytes: with all of it the next string begins where the payload ends
        for length in {size + 1, size + 4, left, left + 1, size + 2**31, 2**32 - 5, 2**32 - 4, 2**32 - 1} - {size}:
            yield payload[:at] + length.to_bytes(4, 'big') + payload[at + 4:]
        at += 4 + size
    yield from (bytes([payload[0] ^ 1]) + payload[1:size] for size in (1, 3, len(payload)))


def positions():
    """INIT and REPLY that break, each in an exchange of its own; then answers that have no position: 14, 15, 3, 0 and 1."""
    for method in (1, 4, 8):
        c, s = (b'\4' * size for size in METHODS[method][3:])
        kem = 1568 if method == 8 else 0
        init, reply = bytes([30]) + string(c), bytes([31]) + string(b'host key') + string(s) + string(b'sig')
        messages = [('init', 2, init, 1, 1, f' 5:{h(c)}'), ('reply', 1, reply, 3, 13, f' 5:{h(b"host key")} 17:{h(s)} {21 + len(s)}:{h(b"sig")}')]
        for call, role, payload, strings, value, told in messages:  # value: where the length bytes of C or S are
            begin = [f'start {role} {method} 61 62 14 14', *([f'ownc {h(c)} 00*1670'] if role == 1 else [])]
            none, size = ' 0:-' * strings, int.from_bytes(payload[value:value + 4], 'big')
            lines, wants = ['room 00*14156'], ['0 |']

            def fault(wrong, number, position=0):
                lines.extend([*begin, f'{call} {h(wrong)}'])
                wants.extend(['0'] * len(begin) + [f'{number}{none} {position} | ex {role}.{method}.failed.{number}.0,0,0,0,0,0,0'])

            for wrong in spoiled(payload, strings):
                if len(wrong) <= 200 or len(payload) - len(wrong) < 20:  # of a hybrid's value not every cut
                    fault(wrong, *broken(wrong, payload[0], strings))
            fault(payload[:value] + (size + 1).to_bytes(4, 'big') + b'\4' + payload[value + 4:], 14)
            if method != 1:
                fault(payload[:value + 4 + kem] + b'\5' + payload[value + 5 + kem:], 15)
            lines += [*begin, 'room 00*14155', f'{call} {h(payload[:3])}', 'room 00*14156', f'{call} {h(payload)}', f'{call} {h(payload[:3])}']
            wants += ['0'] * len(begin) + ['0', f'3{none} 0 |', '0', f'0{told} 0 |', f'1{none} 0 |']
            yield lines, wants


HASHED = ('V_C', 'V_S', 'I_C', 'I_S', 'K_S', 'C', 'S')
STARTED, WITH_C = HASHED[:4], (*HASHED[:4], 'C')


def lent(data, size):
    """A buffer that was lent with 55 in it, and begins with data."""
    return data.ljust(size, b'\x55')


def keys(kind, k, h):
    """Keys of a complete exchange, and what is refused: line, and what its answer begins with, but for exchange and room."""
    def given(letter, length, size):
        return f'derive {letter} {length} 55*{size}', f'0 {out(lent(derived(kind, k, h, letter, h, length), size))}'

    for letter in range(65, 71):
        for length in (1, 16, kind - 1, kind, kind + 1, 2 * kind, min(2 * kind + 1, 128), 128):
            yield given(letter, length, length)
    for length in range(1, 129, 7):
        yield given(67, length, length + 9)
        yield f'derive 67 {length} 55*{length - 1}', f'5 {out(lent(b"", length - 1))}'
    for letter in (0, 64, 71, 97, 102, 255):
        yield f'derive {letter} 16 55*16', f'4 {out(lent(b"", 16))}'
    for length in (0, 129, 256, 2**32 + 16, 2**64 - 1):
        for size in (0, 16, 300):
            yield f'derive 65 {length} 55*{size}', f'4 {out(lent(b"", size))}'


def not_complete(state):
    """1, ahead of 4 and 5."""
    for line, size in (('derive 65 16 55*16', 16), ('derive 65 16 -', 0), ('derive 71 0 55*3', 3)):
        yield line, f'1 {out(lent(b"", size))}{state}'


def captured():
    """Every captured exchange in both roles: what its steps tell, H, INIT, REPLY, K and keys, and every byte of exchange and room after each."""
    for method, f in captures():
        k, k_out = f['K'], lent(f['K'].ljust(71, b'\0'), 75)
        exchange_hash = f['H'].ljust(64, b'\0').hex()
        hashed = sum(len(string(f[name])) for name in HASHED) + len(k)

        def after(role, stage, names, k=b'', h=b''):
            room = b''.join(string(f[name]) for name in HASHED if name in names) + k
            lens = ','.join(str(len(f[name]) if name in names else 0) for name in HASHED)
            session = (h, 1) if stage == 'complete' else ()
            return f' | ex {role}.{method}.{stage}.0.{lens}{kept(k, h, *session)} room={digest(lent(room, 14156))}'

        def done(role, lines, wants):
            """The steps, no key ahead of the last one, and keys behind it."""
            complete = after(role, 'complete', HASHED, k, f['H'])
            early = list(not_complete(after(role, 'secret', HASHED, k, f['H'])))
            late = [(line, want + complete) for line, want in keys(len(f['H']), k, f['H'])]
            return (lines[:-1] + [line for line, _ in early] + lines[-1:] + [line for line, _ in late],
                    wants[:-1] + [want for _, want in early] + wants[-1:] + [want for _, want in late])

        def parts(*names):
            """Fields one behind another in a payload, behind its message number."""
            at = 1
            for name in names:
                yield f' {at + 4}:{h(f[name])}'
                at += len(string(f[name]))

        def start(role):
            return ['room 55*14156', f'start {role} {method} ' + ' '.join(h(f[name]) for name in STARTED)]

        secret = f'secret G{len(f["X"])} {h(f["X"])} {"d" if f["K_PQ"] else "a"} {h(f["K_PQ"])}'
        yield done(1, start(1) + [f'ownc {h(f["C"])} 55*1670', f'reply {h(f["REPLY"])}', f'{secret} - -', 'verdict 1 1 55*75'], [
            '0', '0' + after(1, 'started', STARTED),
            f'0 {len(f["INIT"])} {out(lent(f["INIT"], 1670))}' + after(1, 'own_c', WITH_C),
            '0' + ''.join(parts('K_S', 'S', 'signature')) + ' 0' + after(1, 'reply', HASHED),
            f'0 {hashed} {exchange_hash}' + after(1, 'secret', HASHED, k, f['H']),
            f'0 {len(k)} {out(k_out)}' + after(1, 'complete', HASHED, k, f['H'])])
        yield done(2, start(2) + [f'init {h(f["INIT"])}', f'{secret} {h(f["K_S"])} {h(f["S"])}', f'sign {h(f["signature"])} 55*5774 55*75'], [
            '0', '0' + after(2, 'started', STARTED),
            '0' + ''.join(parts('C')) + ' 0' + after(2, 'init', WITH_C),
            f'0 {hashed} {exchange_hash}' + after(2, 'secret', HASHED, k, f['H']),
            f'0 {len(f["REPLY"])} {len(k)} {out(lent(f["REPLY"], 5774))} {out(k_out)}' + after(2, 'complete', HASHED, k, f['H'])])


# ---- keys of exchanges that no steps made

class Record:
    """One that is complete and fits, field by field; the kept one is made to be it by lines, whatever it was. Its identifier is H where no other is
    named."""
    def __init__(self, method, k, h, role=1, identifier=None):
        row = METHODS[method]
        identifier = h[:row.kind] if identifier is None else identifier
        self.fields = dict(zip(('role', 'method', 'stage', *(f'l{i}' for i in range(7)), 'slen', 'count'),
                               (role, method, 'complete', 9, 9, 20, 20, 8, row.c, row.s, len(identifier), 1)))
        self.k, self.h, self.identifier = k.ljust(71, b'\0'), h.ljust(64, b'\0'), identifier.ljust(64, b'\0')

    def made(self):
        for field, value in self.fields.items():
            yield f'set {field} {value}', '0 | ex '
        yield f'put k {h(self.k)}', '0 | ex '
        yield f'put h {h(self.h)}', '0 | ex '
        yield f'put sid {h(self.identifier)}', f'0{self.state()}'

    def state(self):
        role, method, stage, *lens, id_len, count = self.fields.values()
        return (f' | ex {role}.{method}.{stage}.0.{",".join(map(str, lens))}{kept(self.k, self.h, self.identifier, count, id_len)} '
                f'room={digest(b"")}')

    def given(self, letter, key):
        return f'derive {letter} {len(key)} 55*{len(key) + 2}', f'0 {out(lent(key, len(key) + 2))}{self.state()}'

    def but(self, line, **fields):
        """With other fields: what a line changes."""
        other = Record(1, self.k, self.h, identifier=self.identifier)
        other.fields = {**self.fields, **fields}
        return [(line, f'0{other.state()}')], other


def published_keys():
    for method, key in of_records(later=True):
        record = Record(method, key.k, key.h, role=1 + key.letter % 2, identifier=key.identifier)
        yield from record.made()
        yield record.given(key.letter, key.key)


def forged_keys():
    """One thing of a record that does not fit, and back."""
    for method, row in METHODS.items():
        k, digest_bytes = string(b'\x5a' * row.most), bytes(range(row.kind))
        record = Record(method, k, digest_bytes)
        key = derived(row.kind, k, digest_bytes, 66, digest_bytes, 100)
        yield from record.made()
        yield record.given(66, key)
        # every count up to the most has the same keys; an identifier of another length, others
        for count in (2, 2**16, MOST - 1, MOST):
            lines, other = record.but(f'set count {count}', count=count)
            yield from [*lines, other.given(66, key)]
        yield 'set count 1', f'0{record.state()}'
        for id_len in {32, 48, 64} - {row.kind}:
            lines, other = record.but(f'set slen {id_len}', slen=id_len)
            yield from [*lines, other.given(66, derived(row.kind, k, digest_bytes, 66, record.identifier[:id_len], 100))]
        yield f'set slen {row.kind}', f'0{record.state()}'
        wrong = [*(('slen', n) for n in (0, 1, 31, 33, 47, 49, 63, 65, 65535, 65536 + row.kind, 2**32 + row.kind, 2**64 - 1)),
                 *(('count', n) for n in (0, MOST + 1, MOST + 2, 2**63, 2**64 - 1)),
                 ('role', 0), ('role', 3), ('role', 255), ('method', 0), ('method', 10), ('method', 255), ('stage', 'secret'), ('stage', 'failed'),
                 *((f'l{i}', n) for i, most in enumerate((253, 253, 4096, 4096, 2048)) for n in (0, most + 1, 65536 + 1, 2**64 - 1)),
                 *((f'l{i}', n + by) for i, n in ((5, row.c), (6, row.s)) for by in (-1, 1))]
        for field, value in wrong:
            lines, other = record.but(f'set {field} {value}', **{field: value})
            yield from lines
            yield from not_complete(other.state())
            yield f'set {field} {record.fields[field]}', f'0{record.state()}'
        for length in (row.least - 1, row.most + 1, 72, 256 + row.most, 2**24 + row.most, 2**32 - 1):
            if length < 0:
                continue
            other = Record(method, length.to_bytes(4, 'big') + k[4:], digest_bytes)
            yield f'put k {length:08x}', f'0{other.state()}'
            yield from not_complete(other.state())
        yield f'put k {h(k[:4])}', f'0{record.state()}'
        # K's bytes behind its length and H's behind the digest are in no key; each of the others is, as it stands
        if row.most < 67:
            other = Record(method, k + b'\xee' * (71 - len(k)), digest_bytes)
            yield f'put k {h(other.k)}', f'0{other.state()}'
            yield other.given(66, key)
            yield f'put k {h(record.k)}', f'0{record.state()}'
        if row.kind < 64:
            other = Record(method, k, digest_bytes.ljust(64, b'\xee'))
            yield f'put h {h(other.h)}', f'0{other.state()}'
            yield other.given(66, key)
            yield f'put h {h(record.h)}', f'0{record.state()}'
        # so it is with the identifier's
        for at in (0, row.kind - 1, row.kind, 63):
            if at > 63:
                continue
            forged = record.identifier[:at] + b'\xee' + record.identifier[at + 1:]
            other = Record(method, k, digest_bytes, identifier=forged)
            other.fields = record.fields
            yield f'set s{at} 238', f'0{other.state()}'
            yield other.given(66, derived(row.kind, k, digest_bytes, 66, forged[:row.kind], 100))
            yield f'put sid {h(record.identifier)}', f'0{record.state()}'
        shorter = string(b'\x5a' * row.least)
        for k, digest_bytes in ((shorter, digest_bytes), (string(bytes(row.most)), digest_bytes), (k, bytes(row.kind)), (k, b'\xff' * row.kind)):
            other = Record(method, k, digest_bytes)
            yield f'put k {h(other.k)}', '0 | ex '
            yield f'put sid {h(other.identifier)}', '0 | ex '
            yield f'put h {h(other.h)}', f'0{other.state()}'
            yield other.given(70, derived(row.kind, k, digest_bytes, 70, digest_bytes, 128))


def records():
    """Cases that stand one behind another, as lists."""
    for cases in (published_keys(), forged_keys()):
        yield [list(words) for words in zip(*cases)]


# ---- exchanges of a session one behind another

# each method of the captures, with hashes that change
SESSIONS = ((1, 3, 5), (8, 2, 6), (3, 7, 9), (5, 4, 8), (6, 6, 1), (9, 8, 3))


class Session:
    """Captured exchanges one behind another in one room: lines, and what each is answered with all of its state. The V's are the first one's,
    the identifier its H."""
    def __init__(self, role, size=14156):
        self.role, self.room, self.said = role, bytearray(b'\x55' * size), [(f'room 55*{size}', '0 | ex ')]
        self.identifier, self.count, self.id_len, self.versions = b'', 0, None, None

    def say(self, line, answer):
        self.said.append((line, answer + self.state()))

    def state(self):
        lens = ','.join(str(len(self.f[name]) if name in self.names else 0) for name in HASHED)
        return (f' | ex {self.role}.{self.method}.{self.stage}.{lens}{kept(self.k, self.h, self.identifier, self.count, self.id_len)} '
                f'room={digest(bytes(self.room))}')

    def stands(self, stage, names, k=b'', h=b''):
        """A stage, and the room's beginning: the V's as they stand there, and the other fields."""
        self.stage, self.names, self.k, self.h = f'{stage}.0', names, k, h
        front = self.versions if self.versions is not None else string(self.f['V_C']) + string(self.f['V_S'])
        begin = front + b''.join(string(self.f[name]) for name in HASHED[2:] if name in names) + k
        self.room[:len(begin)] = begin

    def begin(self, method, f):
        self.method = method
        if self.versions is None:
            self.f = f
            self.stands('started', STARTED)
            self.say(f'start {self.role} {method} ' + ' '.join(h(f[name]) for name in STARTED), '0')
            self.versions = string(f['V_C']) + string(f['V_S'])
        else:
            self.f = {**f, 'V_C': self.f['V_C'], 'V_S': self.f['V_S']}
            self.stands('started', STARTED)
            self.say(f'again {method} {h(f["I_C"])} {h(f["I_S"])}', '0')

    def refused(self, line, number=1, rest=''):
        self.say(line, f'{number}{rest}')

    def poke(self, at, data):
        """Somebody writes over the V's."""
        self.versions = self.versions[:at] + data + self.versions[at + len(data):]
        self.room[at:at + len(data)] = data
        self.say(f'poke {at} {h(data)}', '0')

    def lend(self, size):
        """Another room, with the bytes of this one's beginning and no more of it."""
        self.room = bytearray(b'\x55' * size)
        self.say(f'room 55*{size}', '0')
        self.room[:len(self.versions)] = self.versions
        self.say(f'poke 0 {h(self.versions)}', '0')

    def hash_of(self):
        kind = METHODS[self.method].kind
        data = self.versions + b''.join(string(self.f[name]) for name in HASHED[2:]) + self.f['K']
        return hashlib.new(f'sha{8 * kind}', data).digest(), len(data)

    def steps(self):
        """The steps from a beginning on, each as a line, what it answers but for the state, and the state that it leads to."""
        f, (digested, hashed) = self.f, self.hash_of()
        secret = f'secret G{len(f["X"])} {h(f["X"])} {"d" if f["K_PQ"] else "a"} {h(f["K_PQ"])}'
        taken = f'0 {hashed} {digested.ljust(64, bytes(1)).hex()}', ('secret', HASHED, f['K'], digested)
        k_out, done = out(lent(f['K'].ljust(71, b'\0'), 71)), ('complete', HASHED, f['K'], digested)
        if self.role == 1:
            yield f'ownc {h(f["C"])} 55*1670', f'0 {len(f["INIT"])} {out(lent(f["INIT"], 1670))}', ('own_c', WITH_C)
            at = len(f['K_S']) + 5
            yield f'reply {h(f["REPLY"])}', (f'0 5:{h(f["K_S"])} {at + 4}:{h(f["S"])} '
                                             f'{at + len(f["S"]) + 8}:{h(f["signature"])} 0'), ('reply', HASHED)
            yield (f'{secret} - -', *taken)
            yield 'verdict 1 1 55*71', f'0 {len(f["K"])} {k_out}', done
        else:
            yield f'init {h(f["INIT"])}', f'0 5:{h(f["C"])} 0', ('init', WITH_C)
            yield (f'{secret} {h(f["K_S"])} {h(f["S"])}', *taken)
            yield f'sign {h(f["signature"])} 55*5774 55*71', f'0 {len(f["REPLY"])} {len(f["K"])} {out(lent(f["REPLY"], 5774))} {k_out}', done

    def step(self, line, answer, stage):
        self.stands(*stage)
        if stage[0] == 'complete':
            self.identifier = self.identifier if self.count else self.h
            self.count += 1
        self.say(line, answer)

    def complete(self):
        for step in self.steps():
            self.step(*step)

    def keys(self, letters=range(65, 71), length=100):
        """Keys by this exchange's K, H and hash, and the session's identifier."""
        id_len = len(self.identifier) if self.id_len is None else self.id_len
        for letter in letters:
            kind = METHODS[self.method].kind
            key = derived(kind, self.k, self.h[:kind], letter, self.identifier[:id_len], length)
            self.say(f'derive {letter} {length} 55*{length + 1}', f'0 {out(lent(key, length + 1))}')

    def no_key(self):
        for line, answer in not_complete(''):
            self.say(line, answer)

    def sets(self, id_len, count):
        """Somebody writes over the session."""
        self.id_len = id_len
        self.say(f'set slen {id_len}', '0')
        self.count = count
        self.say(f'set count {count}', '0')

    def fault(self):
        """A message of the peer's that is none, in a client's second step and in a server's first."""
        if self.role == 1:
            self.step(*next(self.steps()))
        self.room[:] = bytes(len(self.room))
        self.stage, self.names, self.k, self.h = 'failed.12', (), b'', b''
        self.say(*(('reply 1f', '12 0:- 0:- 0:- 1') if self.role == 1 else ('init 1e', '12 0:- 1')))


def rekeyed():
    """Three exchanges in each role, keys behind each, and a fault in the fourth, which leaves identifier and count."""
    of = dict(reversed(list(captures())))
    for role, methods in ((role, methods) for methods in SESSIONS for role in (1, 2)):
        s = Session(role, 14156 + role)
        for n, method in enumerate(methods, 1):
            s.begin(method, of[method])
            s.no_key()
            s.refused('again 1 14 14')
            for step in s.steps():
                s.step(*step)
                if not s.stage.startswith('complete'):
                    s.refused('again 1 14 14')
                    s.refused('again 0 - -')
            s.keys()
            for line, number in (('again 0 14 14', 2), ('again 10 14 14', 2), ('again 255 - -', 2), ('again 1 - 14', 4), ('again 1 14 -', 4),
                                 ('again 1 15 14', 4), ('again 1 14 1e', 4), ('again 1 14*4097 14', 4), ('again 1 14 14*4097', 4)):
                s.refused(line, number)
            s.keys(letters=[65 + n], length=128)
        # a room that is too short is 3, ahead of 4; one that is long enough, with the V's in it, begins the next
        beginning = len(s.room)
        s.lend(14155)
        s.refused('again 1 14 14', 3)
        s.refused('again 1 15 15', 3)
        s.refused('again 0 14 14', 2)
        s.keys(letters=[70], length=20)
        s.lend(beginning)
        # the V's are taken as they stand, with bytes that no V has, and with other length bytes
        s.poke(2, b'\xff\0\0')
        s.poke(len(s.versions) - 1, b'\r')
        s.begin(methods[0], of[methods[0]])
        s.complete()
        s.keys(length=64)
        s.begin(methods[1], of[methods[1]])
        s.fault()
        s.no_key()
        s.refused('again 1 14 14')
        s.refused('init 1e', rest=' 0:- 0')
        # and a start begins another session
        s.versions, s.identifier, s.count = None, b'', 0
        s.begin(methods[2], of[methods[2]])
        s.complete()
        s.keys(length=32)
        yield s.said


def refused_step(line):
    """What a step answers behind its number where it is refused as no peer's fault: no count, no part, no position, H of zeros, outputs as they
    were lent."""
    call, *words = line.split(' ')
    outs = ' '.join(out(lent(b'', int(word[3:]))) for word in words if word.startswith('55*'))
    return {'ownc': f' 0 {outs}', 'init': ' 0:- 0', 'reply': ' 0:- 0:- 0:- 0', 'secret': f' 0 {ZEROS}', 'sign': f' 0 0 {outs}', 'verdict': f' 0 {outs}'}[call]


def forged_sessions():
    """At every stage of both roles: lengths and counts that do not go together, counts above the most, the most while not complete and 0 while
    complete, each refused and left as it is; then those that fit, and on to the most, where an exchange begins no other."""
    of = dict(reversed(list(captures())))
    apart = [(0, 1), (0, MOST - 1), (32, 0), (64, 0), (31, 1), (33, 5), (1, 1), (65, 1), (256 + 32, 1), (65535, 1), (65536 + 32, 1), (2**32 + 48, 2),
             (2**64 - 1, 1), (32, MOST + 1), (48, MOST + 2), (64, 2**63), (32, 2**64 - 1), (0, MOST), (0, 2**64 - 1)]
    for role, method in ((1, 1), (2, 5), (1, 8), (2, 3)):
        s = Session(role)
        s.begin(method, of[method])
        for step in s.steps():
            for id_len, count in [*apart, (32, MOST), (64, MOST)]:
                s.sets(id_len, count)
                s.refused(step[0], rest=refused_step(step[0]))
                s.refused('again 1 14 14')
                s.no_key()
            s.sets(0, 0)
            s.id_len = None
            s.step(*step)
        for id_len, count in [*apart, (0, 0)]:
            s.sets(id_len, count)
            s.refused('again 1 14 14')
            s.refused('again 0 15 -')
            s.no_key()
        # at the most: keys as before, 2, 3 and 4 ahead of 23, and the exchange stays complete
        for id_len in (32, 48, 64):
            s.identifier = s.identifier.ljust(64, b'\0')
            s.sets(id_len, MOST)
            s.keys(letters=[65, 70])
            for line, number in (('again 0 14 14', 2), ('again 10 15 15', 2), ('again 1 15 14', 4), ('again 9 14 -', 4), ('again 1 14 14', 23),
                                 (f'again {method} 14*4096 14', 23)):
                s.refused(line, number)
            s.lend(14155)
            s.refused('again 1 14 14', 3)
            s.refused('again 1 15 14', 3)
            s.lend(14156)
            s.refused('again 1 14 14', 23)
            s.keys(letters=[67])
        # one below it: begun again, completed, and full then by counting
        s.sets(METHODS[method].kind, MOST - 1)
        s.begin(method, of[method])
        s.complete()
        s.keys(letters=[66])
        s.refused('again 1 14 15', 4)
        s.refused('again 1 14 14', 23)
        # a count in the middle goes on from there, with the identifier that stands there, whose bytes nobody judges
        s.identifier = bytes(range(100, 164))
        s.say(f'put sid {h(s.identifier)}', '0')
        s.sets(48, 7)
        s.begin(method, of[method])
        s.complete()
        s.keys(letters=[69])
        # blank forgets the session
        s.said.append(('blank', f'0 | ex 0.0.failed.0.0,0,0,0,0,0,0{kept()} room={digest(bytes(s.room))}'))
        yield s.said


def as_they_stand():
    """The first identifier is all 64 bytes of H as somebody left them, whatever stood in its place; a later exchange's H is not looked at."""
    of = dict(reversed(list(captures())))
    for role, methods in ((1, (5, 1)), (2, (1, 3))):
        s = Session(role)
        for n, method in enumerate(methods, 1):
            s.begin(method, of[method])
            *early, (line, answer, (stage, names, k, _)) = s.steps()
            for step in early:
                s.step(*step)
            s.h = bytes(range(n, n + 64))
            s.say(f'put h {h(s.h)}', '0')
            if n == 1:
                s.identifier, s.id_len = b'\xee' * 64, 0
                s.say(f'put sid {h(s.identifier)}', '0')
                s.id_len = METHODS[method].kind
            s.step(line, answer, (stage, names, k, s.h))
            s.keys()
        yield s.said


def sessions():
    for said in [*rekeyed(), *forged_sessions(), *as_they_stand()]:
        yield [list(words) for words in zip(*said)]


# ---- the landings' examples, as the bench answered when each was the last; what the state has gained since

LATER = {'sha2': ['h', 'sid', 'n', 'position'], 'keys': ['sid', 'n', 'position'], 'rekeying': ['position'], 'positions': []}


def as_then(line, answer, later):
    """An answer without what came later: a state's tokens by their names, and the position, which has none and is the last ahead of the state."""
    told, bar, state = answer.partition(' | ')
    if 'position' in later and line.split(' ')[0] in ('open', 'init', 'reply'):
        told = told.rpartition(' ')[0]
    return told + bar + ' '.join(word for word in state.split(' ') if word.split('=')[0] not in later)


def also(line):
    """Until rekeying came the session identifier was H: a script of that time that writes over H writes over the identifier too."""
    word, field, value = line.split(' ')
    return f'put sid {value}' if word == 'put' else f'set s{field[1:]} {value}'


def examples():
    for name, later in LATER.items():
        script, answers = ((ROOT / f'tests/examples/{name}.{end}').read_text().splitlines() for end in ('script', 'answers'))
        lines = [line for line in script if not line.startswith('#')]
        if name == 'keys':
            at = [i for i, line in enumerate(lines) if line.startswith(('set h', 'put h '))]
            for i in reversed(at):
                lines.insert(i + 1, also(lines[i]))
                answers.insert(i + 1, answers[i])

        yield lines, answers, lambda line, answer, want, later=later: as_then(line, answer, later) == want


BAD = [
    'what', 'rstr', 'rstr 0', 'rstr 0g', 'rstr AB', 'rstr  00', 'rstr 00 ', ' rstr 00', 'rstr 00 00', 'rstr -*1', 'rstr *4',
    'rstr 00*x', 'rstr 00*-1', 'wstr 00', 'open 14 x', 'open 14 18446744073709551616', 'next 1', 'wkex 00 - - 0 0 -',
    'set what 1', 'set role 256', 'set l7 1', 'set k71 1', 'set k0 256', 'set h64 1', 'set h0 256', 'set h 1', 'set stage ended', 'set fail',
    'put', 'put k', 'put k 0', 'put k 00*72', 'put h 00*65', 'put room 00', 'put h0 00', 'poke 0 00', 'start 256 1 - - - -',
    'put sid 00*65', 'put s0 00', 'put slen 00', 'set s64 1', 'set s0 256', 'set s 1', 'set s00 1', 'set sid 1', 'set slen 18446744073709551616',
    'set count 18446744073709551616', 'set count -1', 'set count', 'again', 'again 1 14', 'again 256 14 14', 'again 1 14 14 14', 'again x 14 14',
    'secret X - a - - -', 'secret G - a - - -', 'secret F - x - - -', 'sha', 'sha 256', 'feed', 'feed 0', 'finish 1',
    'shaset kind 256', 'shaset total 18446744073709551616', 'shaset held 0', 'verdict 2 1 -', 'verdict 1 1', 'derive 65 16', 'derive 256 16 -',
    'derive A 16 -', 'derive 65 18446744073709551616 -', 'derive 65 16 - -', 'rstr 00\r', 'rstr 00\0',
]


def main():
    bench = asked(__doc__, 1)
    need('make bench makes build/bench', bench[0], bench[-1])
    failed = []

    def held(what, have, want):
        if have != want:
            failed.append(f'{what}: {have!r}, not {want!r}')

    count = 0
    in_steps = [*secrets(), *hybrids(), *exchanges(), *positions(), *captured(), *records(), *sessions()]
    steps = [(lines, wants, lambda line, answer, want: answer.startswith(want)) for lines, wants in in_steps]
    whole = [(lines, wants, lambda line, answer, want: answer == want) for lines, wants in lists()]
    for lines, wants, holds in steps + whole + list(examples()):
        status, answers, errors = said(bench, '\n'.join(lines) + '\n')
        held(lines[0], (status, len(answers), errors), (0, len(wants), []))
        for line, answer, want in zip(lines, answers, wants):
            count += 1
            if not holds(line, answer, want):
                failed.append(f'{line[:80]}: {answer[:120]}, not {want[:120]}')
    for line in BAD:
        status, answers, errors = said(bench, f'# a comment\n\nrstr 00000000\n{line}\nrstr 00000000\n')
        held(repr(line), (status, answers, len(errors)), (1, ['0 4:- 4:-'], 1))
        if not ''.join(errors).startswith('bench: line 4: '):
            failed.append(f'{line!r}: the error is {errors}')
    held('names of methods', len(METHOD_NAMES), len(METHODS))
    usage = 'usage: bench < CALLS'
    for word in ('--help', '-h'):
        status, answers, errors = said(bench, '', word)
        held(word, (status, answers[:1], errors), (0, [usage], []))
    for words in (('x',), ('',), ('--help', 'x')):
        held(f'the words {words}', said(bench, '', *words), (2, [], [usage]))
    held('no newline at the end', said(bench, 'rstr 00000000')[1], ['0 4:- 4:-'])
    for line in failed:
        print('bench:', line, file=sys.stderr)
    print(f'bench: {count} answers and {len(BAD)} bad lines as they must be' if not failed else f'bench: {len(failed)} wrong')
    return 1 if failed else 0


if __name__ == '__main__':
    run(main)
