"""Peers behind NEWKEYS, and within a strict key exchange: packets that were changed, left out, sent twice or sealed with other keys, and packets
that are sealed right and are not due. All of it in both roles; ciphers, MACs and counts go round."""
import sys

if __name__ == "__main__":
    sys.exit("sealed.py is a part of live.py")

import copy

from hostile import FAULT, KEX, OWN, QUIET, words
from peer import ACCEPT, IGNORE, NEWKEYS, REQUEST, UNKNOWN, disconnect, kexinit, packet, service, string
from programs import need

CIPHERS = [b"aes256-ctr", b"aes128-ctr"]
MACS = [b"hmac-sha2-256-etm@openssh.com", b"hmac-sha2-256", b"hmac-sha2-512-etm@openssh.com", b"hmac-sha2-512"]
MAC_ERROR, PROTOCOL_ERROR, NO_SERVICE = 5, 2, 7


def keyed(p, seals, strict):
    """An exchange that is right, up to NEWKEYS of both sides and what dock's client asks for behind it."""
    p.greet(kexinit(KEX + p.strict_name * strict, b"ssh-ed25519", seals=seals))
    p.answer()
    p.send_packets(packet(bytes([NEWKEYS])))
    p.seal(True, strict, seals)
    p.strict = strict
    p.asked()


def behind(send):
    def play(p, rng):
        own = rng.choice(CIPHERS), MACS[rng.turn % len(MACS)]  # of what this side sends
        other = rng.choice(CIPHERS), rng.choice(MACS)
        keyed(p, (other, own) if p.serves else (own, other), rng.random() < 0.5)
        p.must = QUIET, None
        send(p, rng)
    return play


# ---- changed on the way

def mac_of(p):
    return MAC_ERROR, f"the MAC of packet {p.closes.sequence} does not hold"


def not_opened(p):
    """With a stream that is not the right one the length is not either, where it is encrypted."""
    return mac_of(p) if p.closes.etm else (MAC_ERROR, "packet length")


def flip(data, at, bit):
    return data[:at] + bytes([data[at] ^ 1 << bit]) + data[at + 1:]


def tag_flipped(p, rng):
    """In its last byte, or anywhere."""
    p.must = mac_of(p)
    data = p.closes.close(p.due)
    p.send(flip(data, len(data) - (1 if rng.turn < len(MACS) else rng.randint(1, p.closes.tag_len)), rng.randrange(8)))


def bytes_flipped(p, rng):
    p.must = mac_of(p)
    data = p.closes.close(p.due)
    p.send(flip(data, rng.randrange(4, len(data) - p.closes.tag_len), rng.randrange(8)))


def length_flipped(p, rng):
    """In both forms a bit on the wire is a bit of the length."""
    at, bit = rng.case([(0, 7), (0, rng.randrange(8)), (1, rng.randrange(8)), (3, rng.randrange(4)), (3, 4)])
    p.must = mac_of(p) if (at, bit) == (3, 4) else (MAC_ERROR, "packet length")
    p.send(flip(p.closes.close(p.due), at, bit) + rng.randbytes(64))


def counted_otherwise(p, rng):
    p.must = mac_of(p)
    right = p.closes.sequence
    other_way = p.sent if p.strict else 0  # strict where it is not, and the other way round
    p.closes.sequence = rng.case([other_way, right + 1, (right - 1) % 2**32, right ^ 1 << 31, right + 256])
    p.send(p.closes.close(p.due))


def sent_twice(p, rng):
    data = p.closes.close(words(rng))
    p.must = not_opened(p)
    p.send(data + data)


def left_out(p, rng):
    p.must = not_opened(p)
    p.closes.close(words(rng))
    p.send(p.closes.close(p.due))


def other_keys(p, rng):
    """Those of the other direction; or the right ones but for the MAC's, or, where the length is encrypted, but for the cipher's."""
    right, other = p.closes, copy.copy(p.opens)
    p.must = mac_of(p) if right.etm and other.etm else (MAC_ERROR, "packet length")
    if rng.turn % 3:
        other = copy.copy(right)
        if right.etm or rng.turn % 3 == 1:
            p.must, other.key = mac_of(p), rng.randbytes(right.tag_len)
        else:
            p.must, other.aes = not_opened(p), p.opens.aes
    other.sequence = right.sequence
    p.send(other.close(p.due) + rng.randbytes(64))


def in_the_clear(p, rng):
    p.must = MAC_ERROR, "packet length"
    p.send(packet(p.due))


# ---- sealed right

def served(p, seals, strict, *ahead):
    """All that is due behind both NEWKEYS, with dock's good-bye. ahead: payloads ahead of it, or what makes them."""
    p.seal(True, strict, seals)
    p.asked()
    for payload in (*ahead, p.due):
        p.send(p.closes.close(payload(p.closes) if callable(payload) else payload))
    need(p.serves or p.read() == service(ACCEPT), "no SERVICE_ACCEPT")
    need(p.read()[:5] == disconnect(11)[:5], "no DISCONNECT at the end")
    p.done = True


def largest(seal):
    """The longest packet of 35,000 bytes at most, by its length."""
    most = 35000 - seal.tag_len
    return (most - 4) // 16 * 16 if seal.etm else most // 16 * 16 - 4


def longest_word(seal):
    return bytes([IGNORE]) + string(bytes(largest(seal) - 10))


def bad_length(p, rng):
    p.must = MAC_ERROR, "packet length"
    p.send(p.closes.close(p.due, length=rng.case([0, 4, 8, 11, 17, largest(p.closes) + 16, 35000, 2**31, 2**32 - 4, 2**32 - 16, 2**32 - 1])))


def bad_padding(p, rng):
    p.must = PROTOCOL_ERROR, "padding length"
    p.send(p.closes.close(p.due, padding=rng.case([0, 1, 2, 3, 32, 33, 255])))


def not_due(p, rng):
    other = service(REQUEST if p.serves else ACCEPT)
    payloads = [b"", p.due[:1], p.due[:-1], p.due + b"\0", other, bytes([0]) + p.due[1:], bytes([NEWKEYS]), bytes([NEWKEYS, 0]),
                bytes([30]) + string(bytes(32)), bytes([49]), bytes([50]), bytes([82])]
    p.must = PROTOCOL_ERROR, "is due"
    p.send(p.closes.close(rng.case(payloads)))


def other_service(p, rng):
    p.must = NO_SERVICE, "another service"
    p.send(p.closes.close(service(p.due[0], rng.case([b"ssh-connection", b"", b"ssh-userauth\0", b"ssh-userautH", b"x" * 3000]))))


def disconnects(p, rng):
    payload, said = rng.case([(disconnect(7, b"\x1b\n"), "reason 7, ??"), (disconnect(7)[:1], "without a reason"), (disconnect(7)[:4], "without a reason"),
                              (disconnect(7)[:5], "reason 7"), (disconnect(7)[:5] + b"\xff" * 4, "reason 7"), (disconnect(7, b"text")[:11], "reason 7")])
    p.must = QUIET, said
    p.send(p.closes.close(words(rng)) + p.closes.close(payload))


def closes(p, rng):
    p.must = QUIET, "closed"
    data = p.closes.close(p.due)
    p.send(data[:rng.case([0, 3, 4, 15, 16, 20, len(data) - p.closes.tag_len, len(data) - 1])])


# ---- within a strict key exchange

def words_in_strict(p, rng):
    """Ahead of KEXINIT, of INIT or REPLY, and of NEWKEYS; and likewise a message that nobody knows, or one that is not the transport's."""
    seals, place, kind = ((b"aes128-ctr", rng.choice(MACS)),) * 2, rng.turn % 3, rng.turn // 3 % 3
    word = (words(rng), bytes([rng.choice(UNKNOWN)]), bytes([rng.choice([50, 82, 94, 255])]))[kind]
    own = kexinit(KEX + p.strict_name, b"ssh-ed25519", seals=seals)
    if place == 0:
        p.must = FAULT, 11 if kind == 2 else "not the first packet of a strict key exchange"
        p.send(OWN + b"\r\n" + packet(word) + packet(own))
        p.version()
        p.read()
        p.read()
        return
    p.greet(own)
    if place == 2:
        p.answer()
        p.seal(False, True, seals)
    p.must = FAULT, f"message {word[0]} within a strict key exchange"
    if kind == 2:
        p.must = FAULT, 11 if place == 1 else "where NEWKEYS is due"
    p.send(packet(word))


SEALED = [
    (8, "MAC flipped", behind(tag_flipped)), (5, "bytes flipped", behind(bytes_flipped)), (5, "length flipped", behind(length_flipped)),
    (5, "counted otherwise", behind(counted_otherwise)), (4, "sent twice", behind(sent_twice)), (4, "left out", behind(left_out)),
    (6, "other keys", behind(other_keys)), (4, "in the clear", behind(in_the_clear)), (11, "packet length", behind(bad_length)),
    (7, "padding", behind(bad_padding)), (12, "not due", behind(not_due)), (5, "another service", behind(other_service)),
    (6, "DISCONNECT", behind(disconnects)), (8, "early close", behind(closes)), (9, "words in a strict exchange", words_in_strict),
]
