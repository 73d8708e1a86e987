"""A small SSH peer for the tests, written from the RFCs and sharing nothing with the core: version lines, packets in the clear and sealed
behind NEWKEYS, KEXINIT, INIT and REPLY of the curve25519 methods, X25519 (RFC 7748), H, the keys, AES (FIPS 197), and host keys that sign:
Ed25519 (RFC 8032), ECDSA with P-256 (FIPS 186), RSA (RFC 8017)."""
import sys

if __name__ == "__main__":
    sys.exit("peer.py is a part of live.py")

import base64
import hashlib
import hmac
import socket
import struct

DISCONNECT, IGNORE, UNIMPLEMENTED, DEBUG, REQUEST, ACCEPT, KEXINIT, NEWKEYS, INIT, REPLY = 1, 2, 3, 4, 5, 6, 20, 21, 30, 31
PASSED_OVER = (IGNORE, UNIMPLEMENTED, DEBUG)
# numbers that mean nothing to dock (RFC 4250, 4.1): among those that an exchange may have in it, and behind them
UNKNOWN, UNKNOWN_ABOVE = (*range(7, 20), *range(22, 30)), (*range(54, 80), *range(83, 90), *range(101, 256))


# ---- wire

def string(b):
    return struct.pack(">I", len(b)) + b


def unsigned_mpint(big_endian):
    body = big_endian.lstrip(b"\0")
    return string(b"\0" + body if body and body[0] & 0x80 else body)


def number(n):
    """A number of 0 or above as an mpint."""
    return unsigned_mpint(n.to_bytes((n.bit_length() + 7) // 8, "big"))


def take_string(b):
    n, = struct.unpack(">I", b[:4])
    return b[4:4 + n], b[4 + n:]


def packet(payload, padding=None):
    if padding is None:
        padding = 8 - (5 + len(payload)) % 8
        padding += 8 if padding < 4 else 0
    return struct.pack(">IB", 1 + len(payload) + padding, padding) + payload + bytes(padding)


SEALS = (b"aes256-ctr", b"hmac-sha2-256"), (b"aes256-ctr", b"hmac-sha2-256")  # to the server, to the client: cipher and MAC


def kexinit(kex, host_keys, follows=False, languages=b"", seals=SEALS, compressions=(b"none", b"none")):
    ciphers, macs = zip(*seals)
    others = b",chacha20-poly1305@openssh.com"
    lists = [kex, host_keys, ciphers[0] + others, ciphers[1] + others, *macs, *compressions, b"", languages]
    return bytes([KEXINIT]) + b"a test's cookie!" + b"".join(map(string, lists)) + bytes([follows]) + bytes(4)


def service(message, name=b"ssh-userauth"):
    return bytes([message]) + string(name)


def disconnect(reason, text=b""):
    return bytes([DISCONNECT]) + struct.pack(">I", reason) + string(text) + string(b"")


def unimplemented(number):
    return bytes([UNIMPLEMENTED]) + struct.pack(">I", number)


class Closed(Exception):
    """The other side has closed."""


class Peer:
    """One connection. Everything that comes in is kept in `seen`, to be judged as a whole at the end."""

    def __init__(self, sock, timeout=60):
        self.sock, self.seen, self.at = sock, b"", 0
        self.sent, self.got = 0, 0  # packets
        self.opens, self.closes = None, None  # a Seal for each direction
        self.past, self.done = False, False  # both NEWKEYS have gone by; and all behind them
        self.granted = False  # the service, too
        sock.settimeout(timeout)
        sock.setsockopt(socket.IPPROTO_TCP, socket.TCP_NODELAY, 1)

    def send(self, data):
        try:
            self.sock.sendall(data)
        except (BrokenPipeError, ConnectionResetError):
            raise Closed from None

    def send_packets(self, data):
        """Packets in the clear, counted."""
        self.sent += len(payloads(b"\n" + data))
        self.send(data)

    def _more(self):
        try:
            data = self.sock.recv(65536)
        except ConnectionResetError:
            data = b""
        if not data:
            raise Closed
        self.seen += data

    def version(self):
        while b"\n" not in self.seen:
            self._more()
        self.at = self.seen.index(b"\n") + 1
        return self.seen[:self.at].rstrip(b"\r\n")

    def _take(self):
        """The next packet's payload, if all of it has come."""
        if self.opens:
            payload, size = self.opens.open(self.seen[self.at:])
            self.opened += [] if payload is None else [payload]
        else:
            head = self.seen[self.at:self.at + 4]
            size = 4 + struct.unpack(">I", head)[0] if len(head) == 4 else 4
            body = self.seen[self.at + 4:self.at + size]
            payload = body[1:len(body) - body[0]] if len(head) == 4 and len(body) == size - 4 else None
        if payload is not None:
            self.at += size
            self.got += 1
        return payload

    def read(self):
        """The next packet's payload."""
        while (payload := self._take()) is None:
            self._more()
        return payload

    def seal(self, past, strict=False, seals=SEALS):
        """dock's NEWKEYS was the last packet read, and what follows it is sealed. past: this side's went out, too."""
        self.id = self.h
        self.opens, self.closes = self.new_seals(seals)
        self.opens.sequence, self.closes.sequence = (0, 0) if strict else (self.got, self.sent)
        self.past, self.sealed_at, self.opened = past, self.at, []

    def new_seals(self, seals=SEALS):
        """What opens and what closes packets by the keys of the exchange that was made last."""
        k, h, identifier = unsigned_mpint(self.x), self.h, self.id
        ways = [Seal(*names, lambda letter, length: derived(k, h, letter, length, identifier), letters)
                for names, letters in zip(seals, (b"ACE", b"BDF"))]
        return ways if self.serves else ways[::-1]

    def payloads(self):
        """All packets that came, sealed or not; None if they are not whole or do not open."""
        if not self.opens:
            return payloads(self.seen)
        try:
            while self._take() is not None:
                pass
        except Unsealed:
            return None
        return payloads(self.seen[:self.sealed_at]) + self.opened if self.at == len(self.seen) else None

    def finish(self):
        """Ends this side and reads the rest."""
        try:
            self.sock.shutdown(socket.SHUT_WR)
        except OSError:
            pass
        try:
            while True:
                self._more()
        except (Closed, OSError):
            self.sock.close()


def payloads(seen):
    """All packets behind the version line of what one side sent; None if it is not whole packets to its end."""
    rest, found = seen[seen.index(b"\n") + 1:] if b"\n" in seen else b"", []
    while rest:
        if len(rest) < 16:
            return None
        n, padding = struct.unpack(">IB", rest[:5])
        if len(rest) < 4 + n or (4 + n) % 8 or not 4 <= padding < n:
            return None
        found.append(rest[5:4 + n - padding])
        rest = rest[4 + n:]
    return found


# ---- X25519

P = 2**255 - 19


def x25519(scalar, u):
    k = bytearray(scalar)
    k[0] &= 248
    k[31] = k[31] & 127 | 64
    k = int.from_bytes(k, "little")
    x1 = int.from_bytes(u, "little") % 2**255
    x2, z2, x3, z3, swap = 1, 0, x1, 1, 0
    for t in range(254, -1, -1):
        bit = k >> t & 1
        if swap != bit:
            x2, x3, z2, z3 = x3, x2, z3, z2
        swap = bit
        a, b, c, d = x2 + z2, x2 - z2, x3 + z3, x3 - z3
        aa, bb, da, cb = a * a % P, b * b % P, d * a % P, c * b % P
        e = aa - bb
        x3, z3 = (da + cb) ** 2 % P, x1 * (da - cb) ** 2 % P
        x2, z2 = aa * bb % P, e * (aa + 121665 * e) % P
    if swap:
        x2, z2 = x3, z3
    return (x2 * pow(z2, P - 2, P) % P).to_bytes(32, "little")


BASE_U = (9).to_bytes(32, "little")

# ---- Ed25519, points as (X, Y, Z, T)

L = 2**252 + 27742317777372353535851937790883648493
D = -121665 * pow(121666, P - 2, P) % P
BY = 4 * pow(5, P - 2, P) % P


def _x_of(y, sign):
    xx = (y * y - 1) * pow(D * y * y + 1, P - 2, P) % P
    x = pow(xx, (P + 3) // 8, P)
    if (x * x - xx) % P:
        x = x * pow(2, (P - 1) // 4, P) % P
    return P - x if x & 1 != sign else x


def _add(p, q):
    a, b = (p[1] - p[0]) * (q[1] - q[0]) % P, (p[1] + p[0]) * (q[1] + q[0]) % P
    c, d = 2 * p[3] * q[3] * D % P, 2 * p[2] * q[2] % P
    e, f, g, h = b - a, d - c, d + c, b + a
    return e * f % P, g * h % P, f * g % P, e * h % P


def _times(n, p):
    q = (0, 1, 1, 0)
    while n:
        if n & 1:
            q = _add(q, p)
        p, n = _add(p, p), n >> 1
    return q


B = (_x_of(BY, 0), BY, 1, _x_of(BY, 0) * BY % P)
POWERS = [B]
while len(POWERS) < 256:
    POWERS.append(_add(POWERS[-1], POWERS[-1]))


def _times_base(n):
    q = (0, 1, 1, 0)
    for i, p in enumerate(POWERS):
        if n >> i & 1:
            q = _add(q, p)
    return q


def _encode(p):
    inverse = pow(p[2], P - 2, P)
    x, y = p[0] * inverse % P, p[1] * inverse % P
    return (y | (x & 1) << 255).to_bytes(32, "little")


def _hash_number(*parts):
    return int.from_bytes(hashlib.sha512(b"".join(parts)).digest(), "little") % L


class Ed25519:
    def __init__(self, seed):
        h = hashlib.sha512(seed).digest()
        self.a = int.from_bytes(h[:32], "little") & (2**254 - 8) | 2**254
        self.prefix = h[32:]
        self.public = _encode(_times_base(self.a))
        self.blob = string(b"ssh-ed25519") + string(self.public)

    def sign(self, message):
        r = _hash_number(self.prefix, message)
        big_r = _encode(_times_base(r))
        s = (r + _hash_number(big_r, self.public, message) * self.a) % L
        return string(b"ssh-ed25519") + string(big_r + s.to_bytes(32, "little"))


def ed25519_holds(blob, signature, message):
    name, rest = take_string(blob)
    public, rest = take_string(rest)
    signed_by, tail = take_string(signature)
    body, tail = take_string(tail)
    if not name == signed_by == b"ssh-ed25519" or rest or tail:
        return False
    y = int.from_bytes(public, "little")
    sign, y = y >> 255, y % 2**255
    x = _x_of(y, sign)
    a = (x, y, 1, x * y % P)
    s = int.from_bytes(body[32:], "little")
    k = _hash_number(body[:32], public, message)
    return _encode(_add(_times_base(s), _times(k, (P - a[0], a[1], 1, P - a[3])))) == body[:32]


# ---- ECDSA with P-256, points as (x, y) or None

EP = 2**256 - 2**224 + 2**192 + 2**96 - 1
EN = 0xffffffff00000000ffffffffffffffffbce6faada7179e84f3b9cac2fc632551
G = (0x6b17d1f2e12c4247f8bce6e563a440f277037d812deb33a0f4a13945d898c296,
     0x4fe342e2fe1a7f9b8ee7eb4a7c0f9e162bce33576b315ececbb6406837bf51f5)


def _sum(p, q):
    if p is None or q is None:
        return p or q
    if p[0] == q[0] and (p[1] + q[1]) % EP == 0:
        return None
    slope = (3 * p[0] * p[0] - 3) * pow(2 * p[1], -1, EP) if p == q else (q[1] - p[1]) * pow(q[0] - p[0], -1, EP)
    x = (slope * slope - p[0] - q[0]) % EP
    return x, (slope * (p[0] - x) - p[1]) % EP


def _multiple(n, p):
    q = None
    while n:
        if n & 1:
            q = _sum(q, p)
        p, n = _sum(p, p), n >> 1
    return q


class Ecdsa:
    name, curve = b"ecdsa-sha2-nistp256", b"nistp256"

    def __init__(self, seed):
        self.d = int.from_bytes(hashlib.sha256(seed).digest(), "big") % EN
        x, y = _multiple(self.d, G)
        self.point = b"\4" + x.to_bytes(32, "big") + y.to_bytes(32, "big")
        self.compressed = bytes([2 + y % 2]) + x.to_bytes(32, "big")
        self.blob = string(self.name) + string(self.curve) + string(self.point)

    def numbers(self, message):
        """r and s; r has its top bit set, so that its sign matters."""
        digest, r, tries = hashlib.sha256(message).digest(), 0, 0
        while r < 2**255:
            k = int.from_bytes(hashlib.sha256(digest + bytes([tries])).digest(), "big") % EN
            r, tries = _multiple(k, G)[0] % EN, tries + 1
        return r, pow(k, -1, EN) * (int.from_bytes(digest, "big") + r * self.d) % EN

    def sign(self, message):
        r, s = self.numbers(message)
        return string(self.name) + string(number(r) + number(s))


# ---- RSA

DIGEST_INFO = {"sha1": "3021300906052b0e03021a05000414", "sha256": "3031300d060960864801650304020105000420",
               "sha512": "3051300d060960864801650304020305000440"}


# Two primes whose product has 2,049 bits: three in four of its signatures begin with a byte 0.
ODD_PRIMES = (2**1024 // 10 * 11 | 1) + 636, (2**1024 // 10 * 12 | 1) + 46


class Rsa:
    def __init__(self, p, q, e=65537):
        self.p, self.q, self.e, self.n = p, q, e, p * q
        self.d = pow(e, -1, (p - 1) * (q - 1))
        self.inverse = pow(q, -1, p)
        self.size = (self.n.bit_length() + 7) // 8
        self.blob = string(b"ssh-rsa") + number(e) + number(self.n)

    @classmethod
    def of_file(cls, path):
        """The key of a file in OpenSSH's form."""
        with open(path) as f:
            rest = base64.b64decode("".join(f.read().split("\n")[1:-2]))[len(b"openssh-key-v1\0"):]
        for _ in range(3):
            _, rest = take_string(rest)
        _, rest = take_string(rest[4:])
        rest = take_string(take_string(rest)[0][8:])[1]
        numbers = []
        for _ in range(6):  # n, e, d, inverse, p, q
            part, rest = take_string(rest)
            numbers.append(int.from_bytes(part, "big"))
        return cls(numbers[4], numbers[5], numbers[1])

    def body(self, message, digest):
        end = bytes.fromhex(DIGEST_INFO[digest]) + hashlib.new(digest, message).digest()
        m = int.from_bytes(b"\0\1" + b"\xff" * (self.size - 3 - len(end)) + b"\0" + end, "big")
        a, b = pow(m, self.d % (self.p - 1), self.p), pow(m, self.d % (self.q - 1), self.q)
        return ((a - b) * self.inverse % self.p * self.q + b).to_bytes(self.size, "big")

    def sign(self, message):
        return string(b"rsa-sha2-256") + string(self.body(message, "sha256"))


# ---- H of the curve25519 methods

def exchange_hash(v_c, v_s, i_c, i_s, k_s, c, s, x):
    return hashlib.sha256(b"".join(map(string, (v_c, v_s, i_c, i_s, k_s, c, s))) + unsigned_mpint(x)).digest()


# ---- the keys of the SHA-256 methods (RFC 4253, 7.2)

def derived(k, h, letter, length, identifier):
    """k: with its four length bytes. The session identifier is H of the first exchange."""
    out = hashlib.sha256(k + h + letter + identifier).digest()
    while len(out) < length:
        out += hashlib.sha256(k + h + out).digest()
    return out[:length]


# ---- AES, to encrypt only, which is all that its counter mode takes

def _double(b):
    return b << 1 ^ (0x11b if b & 0x80 else 0)


def _product(a, b):
    out = 0
    while b:
        out, a, b = out ^ (a if b & 1 else 0), _double(a), b >> 1
    return out


def _substitute(b):
    inverse = next((i for i in range(256) if _product(b, i) == 1), 0)
    turned = inverse * 0x101
    return inverse ^ turned >> 7 & 255 ^ turned >> 6 & 255 ^ turned >> 5 & 255 ^ turned >> 4 & 255 ^ 0x63


S = bytes(map(_substitute, range(256)))
DOUBLE = bytes(map(_double, range(256)))


class Aes:
    def __init__(self, key):
        n = len(key) // 4
        words, round_constant = [key[i:i + 4] for i in range(0, len(key), 4)], 1
        for i in range(n, 4 * (n + 7)):
            word = words[-1]
            if i % n == 0:
                word = bytes(S[b] for b in word[1:] + word[:1])
                word, round_constant = bytes([word[0] ^ round_constant]) + word[1:], _double(round_constant)
            elif n > 6 and i % n == 4:
                word = bytes(S[b] for b in word)
            words.append(bytes(a ^ b for a, b in zip(words[i - n], word)))
        self.rounds = [b"".join(words[i:i + 4]) for i in range(0, len(words), 4)]

    def block(self, block):
        state = bytes(a ^ b for a, b in zip(block, self.rounds[0]))
        for i, key in enumerate(self.rounds[1:], 2):
            state = bytes(S[state[(j + 4 * (j % 4)) % 16]] for j in range(16))
            if i < len(self.rounds):
                mixed = bytearray()
                for j in range(0, 16, 4):
                    a, b, c, d = state[j:j + 4]
                    every = a ^ b ^ c ^ d
                    mixed += bytes((a ^ every ^ DOUBLE[a ^ b], b ^ every ^ DOUBLE[b ^ c], c ^ every ^ DOUBLE[c ^ d], d ^ every ^ DOUBLE[d ^ a]))
                state = mixed
            state = bytes(a ^ b for a, b in zip(state, key))
        return state


# ---- packets behind NEWKEYS (RFC 4253, 6; RFC 4344, 4; RFC 6668; OpenSSH's PROTOCOL, 1.5)

class Unsealed(Exception):
    """What the other side sent does not open."""


class Seal:
    """One direction, as either end sees it."""

    def __init__(self, cipher, mac, derive, letters):
        iv, key, own = (letters[i:i + 1] for i in range(3))
        self.digest = "sha512" if b"sha2-512" in mac else "sha256"
        self.tag_len = hashlib.new(self.digest).digest_size
        self.etm = mac.endswith(b"-etm@openssh.com")
        self.counter = int.from_bytes(derive(iv, 16), "big")
        self.aes = Aes(derive(key, {b"aes128-ctr": 16, b"aes256-ctr": 32}[cipher]))
        self.key = derive(own, self.tag_len)
        self.sequence = 0

    def crypt(self, data):
        """From the counter as it stands, which stays."""
        out = bytearray()
        for i in range(0, len(data), 16):
            stream = self.aes.block(((self.counter + i // 16) % 2**128).to_bytes(16, "big"))
            out += bytes(a ^ b for a, b in zip(data[i:i + 16], stream))
        return bytes(out)

    def tag(self, packet):
        return hmac.digest(self.key, struct.pack(">I", self.sequence) + packet, self.digest)

    def _past(self, encrypted):
        self.counter += encrypted // 16
        self.sequence = (self.sequence + 1) % 2**32

    def close(self, payload, padding=None, length=None):
        """A sealed packet; padding and length: other numbers in place of the right ones."""
        own = 16 - ((1 if self.etm else 5) + len(payload)) % 16
        own += 16 if own < 4 else 0
        body = bytes([own if padding is None else padding]) + payload + bytes(own)
        head = struct.pack(">I", len(body) if length is None else length)
        if self.etm:
            packet = head + self.crypt(body)
            out = packet + self.tag(packet)
        else:
            out = self.crypt(head + body) + self.tag(head + body)
        self._past(len(body) if self.etm else 4 + len(body))
        return out

    def open(self, data):
        """Payload and size of the packet at the front; None while it is not whole."""
        ahead = 4 if self.etm else 16
        if len(data) < ahead:
            return None, 0
        length, = struct.unpack(">I", (data if self.etm else self.crypt(data[:16]))[:4])
        size = 4 + length + self.tag_len
        if not 12 <= length <= 35000 or (length if self.etm else 4 + length) % 16:
            raise Unsealed(f"packet length {length}")
        if len(data) < size:
            return None, 0
        packet, tag = data[:4 + length], data[4 + length:size]
        plain = packet[:4] + self.crypt(packet[4:]) if self.etm else self.crypt(packet)
        body = plain[4:]
        if tag != self.tag(packet if self.etm else plain):
            raise Unsealed(f"the MAC of packet {self.sequence}")
        if not 4 <= body[0] < length:
            raise Unsealed(f"padding {body[0]}")
        self._past(length if self.etm else 4 + length)
        return body[1:len(body) - body[0]], size
