"""Hostile peers: each kind is a play of one connection, with the end that dock must come to.

A play sets `p.must` before the bytes that decide: FAULT (dock ends with DISCONNECT, reason 3, and nothing after it), another reason of
a DISCONNECT, or QUIET (no DISCONNECT: the peer went away, or the bytes are no SSH), and, where the bytes fix it, the core's number or a
part of dock's line. Behind dock's NEWKEYS its DISCONNECT must open with the keys that the peer derived. Sessions of a kind are counted,
and lists of cases are gone through in turn."""
import sys

if __name__ == "__main__":
    sys.exit("hostile.py is a part of live.py")

import os
import random
import socket
import struct
import time

from peer import (ACCEPT, BASE_U, DEBUG, DISCONNECT, IGNORE, INIT, KEXINIT, NEWKEYS, PASSED_OVER, REPLY, REQUEST, SEALS, UNIMPLEMENTED, UNKNOWN,
                  Closed, Ed25519, Peer, Unsealed, disconnect, ed25519_holds, exchange_hash, kexinit, packet, service, string, take_string, x25519)
from programs import METHODS, Failure, need, unwarned

FAULT, QUIET = "fault", "quiet"
STRICT = b",kex-strict-%s-v00@openssh.com"
OWN = b"SSH-2.0-hostile"
KEX = b"curve25519-sha256,curve25519-sha256@libssh.org,ecdh-sha2-nistp256"
SIGNER = Ed25519(bytes(range(32)))
SECRET = bytes(range(1, 33))
PUBLIC = x25519(SECRET, BASE_U)
BAD_LENGTHS = [0, 1, 4, 5, 11, 13, 14, 15, 16, 17, 34997, 35000, 35004, 65540, 2**31 - 4, 2**31 + 4, 2**32 - 4, 2**32 - 1]
PRIME = 2**255 - 19
LOW_ORDER = [n.to_bytes(32, "little") for n in (
    0, 1, PRIME - 1, PRIME, PRIME + 1,
    325606250916557431795983626356110631294008115727848805560023387167927233504,
    39382357235489614581723060781553021112529911719440698176882885853963445705823)]


class Turn(random.Random):
    """Random numbers of one session of a kind, which knows its place among them."""

    def __init__(self, seed, turn):
        super().__init__(f"{seed} {turn}")
        self.turn = turn

    def case(self, cases):
        return cases[self.turn % len(cases)]


# ---- changes of bytes

def cut(rng, payload):
    return payload[:rng.randrange(len(payload))]


def longer(rng, payload):
    return payload + rng.randbytes(rng.randint(1, 64))


def flipped(rng, payload, bits=None):
    out = bytearray(payload)
    for _ in range(bits or rng.choice([1, 1, 2, 3])):
        out[rng.randrange(len(out))] ^= 1 << rng.randrange(8)
    return bytes(out) if bytes(out) != payload else flipped(rng, payload, 1)


def renumbered(rng, payload):
    """As another message, which is not passed over."""
    return bytes([rng.choice([n for n in range(256) if n not in (*PASSED_OVER, *UNKNOWN, DISCONNECT, payload[0])])]) + payload[1:]


def with_length(rng, payload, at):
    """Another number where a string's length stands."""
    n, = struct.unpack(">I", payload[at:at + 4])
    other = rng.choice([m for m in (0, 1, n - 1, n + 1, n + 4, 2049, 2**31, 2**32 - 4, 2**32 - 1) if m != n and 0 <= m < 2**32])
    return payload[:at] + struct.pack(">I", other) + payload[at + 4:]


def words(rng):
    """A message that is passed over at any time."""
    return rng.choice([bytes([IGNORE]) + string(rng.randbytes(rng.randrange(300))), bytes([UNIMPLEMENTED]) + bytes(4),
                       bytes([DEBUG, 1]) + string(b"a\nb\x1b[31m") + string(b"")])


# ---- where a message breaks, as dock's line has it

WAYS = "client_to_server", "server_to_client"
LISTS = ["kex_algorithms", "server_host_key_algorithms",
         *(f"{what}_{way}" for what in ("encryption_algorithms", "mac_algorithms", "compression_algorithms", "languages") for way in WAYS)]
# of each message its name, how long it may be, and its fields, each with its size where it is no string
MESSAGES = {
    INIT: ("INIT", 32768, {"C": None}),
    REPLY: ("REPLY", 32768, {"K_S": None, "S": None, "the signature": None}),
    KEXINIT: ("KEXINIT", 4096, {"the cookie": 16, **dict.fromkeys(LISTS), "first_kex_packet_follows": 1, "reserved": 4}),
}
BREAKS = {"cut": "(number 12: a field of the payload passes its end)", "has": "(number 13: the payload has bytes left over)"}


def breaking(message, said):
    """dock's whole line."""
    return f"dock: {MESSAGES[message][0]} {said} {BREAKS[said.split()[0]]}\n"


def broken(payload, message):
    """The line on a payload that breaks where this message is due; None for one that does not, and for one that is not looked into so far."""
    _, most, fields = MESSAGES[message]
    if payload[:1] != bytes([message]) or len(payload) > most:
        return None
    at = 1
    for field, size in fields.items():
        left = payload[at:]
        if size is None and len(left) < 4:
            return breaking(message, f"cut at byte {at}, in {field}'s length")
        size = size or 4 + int.from_bytes(left[:4], "big")
        if len(left) < size:
            return breaking(message, f"cut at byte {at}, in {field}")
        at += size
    return breaking(message, f"has bytes left over from byte {at} on") if at < len(payload) else None


# ---- plays that serve both sides

def send_bad_length(p, rng):
    p.must = FAULT, "packet length"
    p.send(struct.pack(">I", rng.case(BAD_LENGTHS)) + rng.randbytes(rng.randrange(64)))


def send_bad_padding(p, rng):
    p.must = FAULT, "padding length"
    length, padding = rng.case([(12, 0), (12, 1), (12, 2), (12, 3), (12, 12), (12, 13), (12, 255), (52, 3), (52, 52), (52, 255)])
    p.send(struct.pack(">IB", length, padding) + bytes(length - 1))


def refused_kexinit(p, rng):
    """Each number that a choice can give, from a KEXINIT that is well-formed but for its cause."""
    ed25519 = b"ssh-ed25519"
    payload, number = rng.case([
        (b"", 10), (kexinit(KEX, ed25519, languages=b",".join([b"y" * 60] * 70)), 10), (bytes([KEXINIT + 1]), 11),
        (kexinit(KEX, ed25519)[:-1], 12), (kexinit(KEX, ed25519) + b"\0", 13), (kexinit(KEX + b",", ed25519), 19),
        (kexinit(KEX, b"a b"), 19), (kexinit(b"n" * 65, ed25519), 19), (kexinit(KEX, ed25519, languages=b","), 19),
        (kexinit(b"other," + b"n" * 64, ed25519), 20), (kexinit(b"", ed25519), 20), (kexinit(b"sntrup761x25519-sha512", ed25519), 20),
        (kexinit(KEX, b"ssh-dss"), 21), (kexinit(KEX, b""), 21), (kexinit(b"ext-info-c", b""), 20)])
    p.send(OWN + b"\r\n")
    p.must = FAULT, broken(payload, KEXINIT) or number
    p.send(packet(payload))
    p.version()
    p.read()
    p.read()


def broken_kexinit(p, rng):
    payload = kexinit(KEX, b"ssh-ed25519")
    end = len(payload)
    size, said = rng.case([
        (1, "cut at byte 1, in the cookie"), (16, "cut at byte 1, in the cookie"), (17, "cut at byte 17, in kex_algorithms's length"),
        (20, "cut at byte 17, in kex_algorithms's length"), (21, "cut at byte 17, in kex_algorithms"),
        (end - 6, f"cut at byte {end - 9}, in languages_server_to_client's length"), (end - 5, f"cut at byte {end - 5}, in first_kex_packet_follows"),
        (end - 4, f"cut at byte {end - 4}, in reserved"), (end - 1, f"cut at byte {end - 4}, in reserved"),
        (end + 1, f"has bytes left over from byte {end} on")])
    p.send(OWN + b"\r\n")
    p.must = FAULT, breaking(KEXINIT, said)
    p.send(packet((payload + b"\0")[:size]))
    p.version()
    p.read()
    p.read()


def nothing_in_common(p, rng):
    """In one list of one direction, and all else is good."""
    place, way = rng.turn // 2 % 3, rng.turn % 2
    seals, compressions = [list(names) for names in SEALS], [b"none", b"none"]
    if place == 2:
        compressions[way] = b"zlib,zlib@openssh.com"
    else:
        seals[way][place] = (b"aes192-ctr,aes256-cbc", b"hmac-sha1,umac-64@openssh.com")[place]
    p.send(OWN + b"\r\n")
    p.must = FAULT, f"no {('cipher', 'MAC', 'compression')[place]} in common"
    p.send(packet(kexinit(KEX, b"ssh-ed25519", seals=seals, compressions=compressions)))
    p.version()
    p.read()
    p.read()


def garbage_version(p, rng):
    data, said = rng.case([
        (b"SSH-1.5-old\r\n", "not 2.0"), (b"SSH-2.0\n", "not 2.0"), (b"SSH-2.0-" + b"v" * 246 + b"\n", "too long"),
        (b"SSH-2.0-" + b"v" * 247 + b"\r\n", "too long"), (b"SSH-" + b"a" * 300 + b"\r\n", "too long"),
        (b"SSH-2.0-" + b"v" * 1000, "too long"),
        (b"SSH-2.0-a\0b\r\n", "control byte"), (b"SSH-2.0-a\rb\r\n", "control byte"), (b"SSH-2.0-a\r\r\n", "control byte"),
        (b"SSH-9\x1b[2J\n", "not 2.0: SSH-9?[2J"), (b"SSH-2.0-no end", "closed"), (b"SSH", "closed"), (b"", "closed"), (b"\r\n", None),
        (b"a line\r\n" * 9000, "version line"), (b"x" * 70000, "version line"), (rng.randbytes(rng.randrange(1, 600)), None)])
    p.must = QUIET, said
    p.send(data)


def cut_disconnect(p, rng):
    """With any words, and cut at every place."""
    p.greet()
    text = [b"", b"two\nlines\r\n", b"\x1b[2J%s%n\0", rng.randbytes(2000)]
    payload = rng.case([disconnect(7, t) for t in text] + [disconnect(7, b"text")[:n] for n in range(1, 17)])
    p.must = QUIET, "reason 7" if len(payload) >= 5 else "without a reason"
    p.send(packet(payload))


# ---- a hostile server, against dock's client

class Server(Peer):
    serves, strict_name, due = True, STRICT % b"s", service(ACCEPT)

    def greet(self, own_kexinit=None, kex=KEX):
        """Versions and KEXINIT both ways, then dock's INIT."""
        self.send(OWN + b"\r\n")
        self.v_c = self.version()
        self.i_s = own_kexinit or kexinit(kex, b"ssh-ed25519")
        self.send_packets(packet(self.i_s))
        self.i_c = self.read()
        init = self.read()
        self.c = init[5:]

    def reply(self, signer=SIGNER, s=PUBLIC, blob=None, sign=None, secret=SECRET):
        """A valid REPLY, but for what is asked otherwise."""
        blob = blob or signer.blob
        x = x25519(secret, self.c)
        self.h, self.x = exchange_hash(self.v_c, OWN, self.i_c, self.i_s, blob, self.c, s, x), x
        return bytes([REPLY]) + string(blob) + string(s) + string((sign or signer.sign)(self.h))

    def answer(self):
        """All that is right, up to dock's NEWKEYS."""
        self.send_packets(packet(self.reply()))
        need(self.read() == bytes([NEWKEYS]), "no NEWKEYS")

    def asked(self):
        need(self.read() == service(REQUEST), "no SERVICE_REQUEST")


def changed_reply(change, number=None):
    def play(p, rng):
        p.greet()
        payload = change(rng, p.reply())
        p.must = FAULT, 10 if not payload else broken(payload, REPLY) or number
        p.send(packet(payload))
    return play


def broken_reply(p, rng):
    p.greet()
    size, said = rng.case([
        (1, "cut at byte 1, in K_S's length"), (4, "cut at byte 1, in K_S's length"), (5, "cut at byte 1, in K_S"), (56, "cut at byte 56, in S's length"),
        (60, "cut at byte 56, in S"), (91, "cut at byte 56, in S"), (92, "cut at byte 92, in the signature's length"),
        (95, "cut at byte 92, in the signature's length"), (96, "cut at byte 92, in the signature"), (178, "cut at byte 92, in the signature"),
        (180, "has bytes left over from byte 179 on")])
    p.must = FAULT, breaking(REPLY, said)
    p.send(packet((p.reply() + b"\0")[:size]))


def reply_lengths(p, rng):
    p.greet()
    n = len(SIGNER.blob)
    payload = with_length(rng, p.reply(), rng.choice([1, 5 + n, 41 + n]))
    p.must = FAULT, broken(payload, REPLY)
    p.send(packet(payload))


def reply_random(p, rng):
    p.greet()
    payload = bytes([REPLY]) + rng.randbytes(rng.case([0, 3, 4, 5, 100, 3000, 32767, 33000]))
    p.must = FAULT, broken(payload, REPLY)
    p.send(packet(payload))


def low_order_s(p, rng):
    p.greet()
    p.must = FAULT, 16
    p.send(packet(p.reply(s=rng.case(LOW_ORDER))))


def wrong_signature(p, rng):
    """Forms that a careless verifier would take."""
    p.greet()
    other = Ed25519(rng.randbytes(32))
    blob, good = SIGNER.blob, SIGNER.sign
    p.must = FAULT, 18
    p.send(packet(rng.case([
        lambda: p.reply(sign=other.sign),
        lambda: p.reply(sign=lambda h: good(h) + b"\0"),
        lambda: p.reply(sign=lambda h: string(b"ssh-ed25519") + string(bytes(64))),
        lambda: p.reply(sign=lambda h: string(b"ssh-ed25519") + string(b"")),
        lambda: p.reply(sign=lambda h: string(b"rsa-sha2-256") + good(h)[15:]),
        lambda: p.reply(sign=lambda h: good(h)[15:]),
        lambda: p.reply(sign=lambda h: good(h)[:-1]),
        lambda: p.reply(sign=lambda h: b"x"),
        lambda: p.reply(blob=blob + b"\0"),
        lambda: p.reply(blob=blob[:-1]),
        lambda: p.reply(blob=string(b"ssh-rsa") + blob[15:]),
        lambda: p.reply(blob=string(b"ssh-ed25519")),
        lambda: p.reply(blob=string(b"ssh-ed25519") + string(bytes(32))),
        lambda: p.reply(blob=b"y"),
    ])()))


def other_key_type(p, rng):
    """Host keys and signatures of the other types, ill-formed in ways that their readers must meet."""
    name = rng.choice([b"ecdsa-sha2-nistp256", b"ecdsa-sha2-nistp384", b"ecdsa-sha2-nistp521", b"rsa-sha2-256", b"rsa-sha2-512"])
    p.greet(kexinit(KEX, name))
    mpint = lambda: rng.choice([b"", b"\1", b"\x80", b"\0\x80", b"\0", b"\0\1", b"\xff", rng.randbytes(rng.choice([32, 66, 256, 900]))])
    if name.startswith(b"rsa"):
        modulus = rng.choice([mpint(), b"\0\xff" + rng.randbytes(255), b"\x7f" + rng.randbytes(1200)])
        blob = string(b"ssh-rsa") + string(rng.choice([b"\1\0\1", b"\3", mpint()])) + string(modulus)
        body = rng.choice([mpint(), rng.randbytes(256), bytes(256), b"\1"])
    else:
        size = {b"256": 32, b"384": 48, b"521": 66}[name[-3:]]
        base_point = bytes.fromhex("046b17d1f2e12c4247f8bce6e563a440f277037d812deb33a0f4a13945d898c296"
                                   "4fe342e2fe1a7f9b8ee7eb4a7c0f9e162bce33576b315ececbb6406837bf51f5")
        point = rng.choice([base_point, b"\4" + rng.randbytes(2 * size), b"\2" + base_point[1:33], b"\0", b"", b"\4",
                            b"\4" + bytes(2 * size)])
        blob = string(name) + string(name[-8:]) + string(point)
        body = string(mpint()) + string(mpint())
    signature = string(name) + string(body)
    if rng.random() < 0.3:
        blob = flipped(rng, blob)
    p.must = FAULT, 18
    p.send(packet(p.reply(blob=blob, sign=lambda h: signature)))


def changed_kexinit_of_server(change):
    def play(p, rng):
        payload = change(rng, kexinit(KEX, b"ssh-ed25519"))
        first = payload[0] if payload else 0
        p.must = (QUIET, None) if first == DISCONNECT else (FAULT, broken(payload, KEXINIT))
        p.send(OWN + b"\r\n" + packet(payload))
        p.v_c = p.version()
        p.i_s, p.i_c = payload, p.read()
        if first in (*PASSED_OVER, *UNKNOWN):
            p.send(packet(b"\x63"))
        p.c = p.read()[5:]
        # The change does not matter to the choice: what follows is a REPLY that does not hold, twice if the first is a wrong guess.
        p.send(packet(p.reply(sign=lambda h: SIGNER.sign(bytes(32)))) * 2)
    return play


def bad_packet_of_server(send):
    def play(p, rng):
        if rng.random() < 0.5:
            p.greet()
        else:
            p.send(OWN + b"\r\n")
            p.version()
            p.read()
        send(p, rng)
    return play


def server_closes(p, rng):
    p.must = QUIET, None
    place = rng.case(range(6))
    if place == 1:
        p.send(OWN + b"\r\n")
    if place == 2:
        p.send(OWN + b"\r\n" + cut(rng, packet(kexinit(KEX, b"ssh-ed25519"))))
    if place >= 3:
        p.greet()
    if place == 4:
        p.send(cut(rng, packet(p.reply())))
    if place == 5:
        p.send(packet(words(rng)))


def words_then_wrong(p, rng):
    p.send(OWN + b"\r\n")
    p.v_c = p.version()
    p.send(b"".join(packet(words(rng)) for _ in range(rng.randrange(20))))
    p.must = FAULT, 11
    if rng.random() < 0.5:
        p.i_s = kexinit(KEX, b"ssh-ed25519")
        p.send(packet(p.i_s))
        p.read()
        p.read()
        p.send(b"".join(packet(words(rng)) for _ in range(rng.randrange(20))))
    p.send(packet(bytes([rng.case([0, 5, 6, 21, 30, 32, 50, 82, 99, 255])]) + rng.randbytes(rng.randrange(50))))


def no_newkeys(p, rng):
    """The exchange is accepted and dock's NEWKEYS is out: its DISCONNECT is sealed, while this side's packets are not."""
    p.greet()
    p.answer()
    p.seal(False)
    data, p.must = rng.case([
        (b"", (QUIET, "closed")), (packet(b""), (FAULT, "where NEWKEYS is due")), (packet(bytes([NEWKEYS, 0])), (FAULT, "where NEWKEYS is due")),
        (packet(kexinit(KEX, b"ssh-ed25519")), (FAULT, "where NEWKEYS is due")), (packet(bytes([99])), (FAULT, "where NEWKEYS is due")),
        (packet(disconnect(2, b"no")), (QUIET, "reason 2")), (b"\xff" * 40, (FAULT, "packet length"))])
    p.send(data)


SERVERS = [
    (50, "REPLY cut", changed_reply(cut, 12)), (20, "REPLY longer", changed_reply(longer, 13)),
    (70, "REPLY flipped", changed_reply(lambda rng, b: b[:1] + flipped(rng, b[1:]))),
    (20, "REPLY renumbered", changed_reply(renumbered, 11)), (11, "REPLY broken at a place", broken_reply),
    (30, "REPLY with another length", reply_lengths), (16, "REPLY random", reply_random), (7, "S of low order", low_order_s),
    (28, "signature wrong", wrong_signature), (40, "host key of another type", other_key_type),
    (15, "KEXINIT cut", changed_kexinit_of_server(cut)), (5, "KEXINIT longer", changed_kexinit_of_server(longer)),
    (40, "KEXINIT flipped", changed_kexinit_of_server(flipped)), (10, "KEXINIT renumbered", changed_kexinit_of_server(renumbered)),
    (15, "KEXINIT refused", refused_kexinit), (10, "KEXINIT broken at a place", broken_kexinit),
    (18, "packet length", bad_packet_of_server(send_bad_length)), (10, "padding", bad_packet_of_server(send_bad_padding)),
    (18, "early close", server_closes), (22, "version line", garbage_version), (20, "words, then another message", words_then_wrong),
    (20, "DISCONNECT", cut_disconnect), (7, "no NEWKEYS", no_newkeys), (6, "nothing in common", nothing_in_common),
]


# ---- a hostile client, against dock's server

class Client(Peer):
    serves, strict_name, due = False, STRICT % b"c", service(REQUEST)

    def greet(self, own_kexinit=None, kex=KEX):
        self.send(OWN + b"\r\n")
        self.v_s = self.version()
        self.i_c = own_kexinit or kexinit(kex, b"ssh-ed25519")
        self.send_packets(packet(self.i_c))
        self.i_s = self.read()

    def take(self, reply, v_c=OWN):
        """REPLY as it came: X, H, and whether the signature holds."""
        k_s, rest = take_string(reply[1:])
        s, rest = take_string(rest)
        signature, rest = take_string(rest)
        self.x = x25519(SECRET, s)
        self.h = exchange_hash(v_c, self.v_s, self.i_c, self.i_s, k_s, PUBLIC, s, self.x)
        self.holds = rest == b"" and ed25519_holds(k_s, signature, self.h)

    def answer(self):
        """All that is right, up to dock's NEWKEYS."""
        self.send_packets(packet(init()))
        self.take(self.read())
        need(self.holds and self.read() == bytes([NEWKEYS]), "no NEWKEYS")

    def asked(self):
        pass  # nothing is: a server answers


def init(c=PUBLIC):
    return bytes([INIT]) + string(c)


def changed_init(change, number=None):
    def play(p, rng):
        p.greet()
        payload = change(rng, init())
        p.must = FAULT, 10 if not payload else broken(payload, INIT) or number
        if payload[:5] == init()[:5] and len(payload) == len(init()):
            p.must = QUIET, None  # another C, as good as the first; dock answers it, and this client goes away
        p.send(packet(payload))
        if p.must[0] == QUIET:
            p.read()
    return play


def broken_init(p, rng):
    p.greet()
    size, said = rng.case([(1, "cut at byte 1, in C's length"), (4, "cut at byte 1, in C's length"), (5, "cut at byte 1, in C"),
                           (36, "cut at byte 1, in C"), (38, "has bytes left over from byte 37 on")])
    p.must = FAULT, breaking(INIT, said)
    p.send(packet((init() + b"\0")[:size]))


def init_of(c, number, kex=KEX):
    def play(p, rng):
        p.greet(kex=kex)
        p.must = FAULT, number
        p.send(packet(init(c(rng))))
    return play


def changed_kexinit_of_client(change):
    def play(p, rng):
        payload = change(rng, kexinit(KEX, b"ssh-ed25519"))
        p.must = (QUIET, None) if payload[:1] == bytes([DISCONNECT]) else (FAULT, broken(payload, KEXINIT))
        p.send(OWN + b"\r\n" + packet(payload))
        p.version()
        p.read()
        p.send(packet(init()[:-1]) * 2)
    return play


def bad_packet_of_client(send):
    def play(p, rng):
        p.greet()
        send(p, rng)
    return play


def client_closes(p, rng):
    p.must = QUIET, None
    place = rng.case(range(5))
    if place == 1:
        p.send(OWN + b"\r\n")
    if place == 2:
        p.send(OWN + b"\r\n" + cut(rng, packet(kexinit(KEX, b"ssh-ed25519"))))
    if place >= 3:
        p.greet()
    if place == 4:
        p.send(cut(rng, packet(init())))


NISTP256 = b"ecdh-sha2-nistp256"
CLIENTS = [
    (25, "INIT cut", changed_init(cut, 12)), (10, "INIT longer", changed_init(longer, 13)),
    (30, "INIT flipped", changed_init(lambda rng, b: b[:1] + flipped(rng, b[1:]))),
    (12, "INIT renumbered", changed_init(renumbered, 11)), (5, "INIT broken at a place", broken_init),
    (12, "INIT with another length", changed_init(lambda rng, b: with_length(rng, b, 1))),
    (7, "C of another length", init_of(lambda rng: rng.randbytes(rng.case([0, 1, 31, 33, 64, 65, 2000])), 14)),
    (7, "C of low order", init_of(lambda rng: rng.case(LOW_ORDER), 16)),
    (5, "point of another length", init_of(lambda rng: b"\4" + rng.randbytes(rng.case([0, 31, 63, 65, 96])), 14, NISTP256)),
    (6, "point with another lead byte", init_of(lambda rng: bytes([rng.case([0, 2, 3, 5, 6, 7])]) + rng.randbytes(64), 15, NISTP256)),
    (6, "point off the curve", init_of(lambda rng: b"\4" + rng.case([bytes(64), rng.randbytes(64), b"\xff" * 64]), 16, NISTP256)),
    (8, "KEXINIT cut", changed_kexinit_of_client(cut)), (16, "KEXINIT flipped", changed_kexinit_of_client(flipped)),
    (15, "KEXINIT refused", refused_kexinit), (10, "KEXINIT broken at a place", broken_kexinit),
    (18, "packet length", bad_packet_of_client(send_bad_length)), (10, "padding", bad_packet_of_client(send_bad_padding)),
    (10, "early close", client_closes), (22, "version line", garbage_version), (20, "DISCONNECT", cut_disconnect), (7, "no NEWKEYS", no_newkeys),
    (6, "nothing in common", nothing_in_common),
]


# ---- one session

def judge(must, code, out, err, p):
    (what, said), err = must, unwarned(err)
    need(code == 1, f"exit {code} and not 1")
    need(len(err.splitlines()) == 1 and err.startswith("dock: ") and err.endswith("\n"), f"standard error is not one line: {err!r}")
    need(("NEWKEYS sent" in out) == p.past, f"it says that the exchange was {'not ' if p.past else ''}completed")
    need(("service" in out) == p.granted, f"it says that there was {'no' if p.granted else 'a'} service")
    sent = p.payloads()
    need(sent is not None, "what it sent is not whole packets")
    last = sent[-1] if sent else b""
    need(all(b[:1] != bytes([DISCONNECT]) for b in sent[:-1]), "something follows its DISCONNECT")
    if what == QUIET:
        need(last[:1] != bytes([DISCONNECT]), f"a DISCONNECT that nobody can read ({err.strip()})")
    else:
        reason = 3 if what == FAULT else what
        need(last[:5] == disconnect(reason)[:5], f"it does not end with DISCONNECT, reason {reason} ({err.strip()})")
        text = take_string(last[5:])[0]
        need(text and last == disconnect(reason, text), "its DISCONNECT is not well-formed:", last)
    said = f"(number {said}: " if isinstance(said, int) else said or ""
    need(said in err, f"'{said.strip()}' expected: {err.strip()}")


def connected(play, p, rng):
    p.must = QUIET, None
    try:
        play(p, rng)
    except Closed:
        pass
    except Unsealed as e:
        raise Failure(f"what it sent does not open: {e}") from None
    p.finish()


def against_client(dock, play, rng, listener, *options):
    """Any host key is taken, where no known hosts are among the options: that its own form is wrong is then the only cause against it."""
    trusting = () if "--known-hosts" in options else ("--insecure",)
    process = dock.start("client", "127.0.0.1", listener.getsockname()[1], "--timeout", 40, *trusting, *options)
    p = Server(listener.accept()[0])
    connected(play, p, rng)
    return (p, *dock.end(process))


def against_server(dock, play, rng, *options):
    process, port = dock.serve("--timeout", 40, *options)
    p = Client(socket.create_connection(("127.0.0.1", port)))
    connected(play, p, rng)
    return (p, *dock.end(process))


# ---- peers that take their time

def slow_peers(dock, host_key):
    """Neither silence nor a trickle holds dock longer than its timeout."""
    def silent(p, rng):
        p.greet()
        p.must = QUIET, "time for the connection is over"
        p._more()

    def trickling(p, rng):
        p.send(OWN + b"\r\n")
        p.must = QUIET, "time for the connection is over"
        for _ in range(100):
            p.send(packet(words(rng)))
            time.sleep(0.05)

    began = time.monotonic()
    with socket.create_server(("127.0.0.1", 0)) as listener:
        listener.settimeout(60)
        p, code, out, err = against_client(dock, silent, Turn("slow", 0), listener, "--timeout", 1)
        judge(p.must, code, out, err, p)
        p, code, out, err = against_server(dock, trickling, Turn("slow", 0), "--host-key", host_key, "--timeout", 1)
        judge(p.must, code, out, err, p)
    need(time.monotonic() - began < 8, "slow peers hold it longer than its timeout")
    return 2


# ---- between dock's client and sshd

def between(sshd_port, change):
    """Hands on what both sides say, up to sshd's REPLY, which is changed: H and signature are a real server's."""
    def play(p, rng):
        q = Peer(socket.create_connection(("127.0.0.1", sshd_port)))
        try:
            q.send(p.version() + b"\r\n")
            p.send(q.version() + b"\r\n")
            q.send(packet(p.read()))
            p.send(packet(q.read()))
            q.send(packet(p.read()))
            reply, newkeys = change(rng, q.read()), q.read()
            p.must = FAULT, broken(reply, REPLY)
            p.send(packet(reply) + packet(newkeys))
            p.read()
        finally:
            q.finish()
    return play


PAIRS = [(1, "ssh-ed25519"), (2, "ecdsa-sha2-nistp256"), (4, "ecdsa-sha2-nistp384"), (5, "ecdsa-sha2-nistp521"), (6, "rsa-sha2-256"),
         (4, "rsa-sha2-512")]


def changed_replies(dock, seed, sshd_port, times=12, pairs=PAIRS):
    """REPLY of sshd with each host key name, in each method: as it is, it must be accepted; with any other bit, refused."""
    with socket.create_server(("127.0.0.1", 0)) as listener:
        listener.settimeout(60)
        for method, host_key in pairs:
            options = "--methods", METHODS[method], "--host-keys", host_key, "--no-service"  # nothing is handed on behind NEWKEYS
            try:
                p, code, out, err = against_client(dock, between(sshd_port, lambda rng, b: b), Turn(seed, 0), listener, *options)
                need(code == 0 and "NEWKEYS sent and received" in out, "as it is, it is refused:", err.strip())
                for i in range(times):
                    change = between(sshd_port, lambda rng, b: b[:1] + flipped(rng, b[1:], 1))
                    p, code, out, err = against_client(dock, change, Turn(f"{seed} {method} {host_key}", i), listener, *options)
                    judge(p.must, code, out, err, p)
            except (Failure, OSError) as e:
                raise Failure(f"REPLY of sshd changed, method {method}, {host_key}: {e}") from None
    return len(pairs) * (times + 1)


def all_sessions(dock, seed, host_key, servers=SERVERS, clients=CLIENTS):
    """Every session of both sides; how many there were."""
    count = 0
    with socket.create_server(("127.0.0.1", 0), backlog=16) as listener:
        listener.settimeout(60)
        for side, kinds in (("server", servers), ("client", clients)):
            for times, name, play in kinds:
                for i in range(times):
                    rng = Turn(f"{seed} {side} {name}", i)
                    try:
                        if side == "server":
                            p, code, out, err = against_client(dock, play, rng, listener)
                        else:
                            p, code, out, err = against_server(dock, play, rng, "--host-key", host_key)
                        judge(p.must, code, out, err, p)
                    except (Failure, OSError) as e:
                        raise Failure(f"hostile {side}, {name}, session {i}, {os.path.basename(dock.path)}: {e}") from None
                    count += 1
    return count
