"""KEXINIT and the choice: calls of the bench, and what it must answer, by an account of the specification and of RFC 4253, section 7.1, of its own."""
if __name__ == "__main__":
    raise SystemExit("kexinit_cases.py: a module that the tests beside it import; by itself it runs nothing")

import re

METHODS = [
    b"curve25519-sha256", b"curve25519-sha256@libssh.org", b"curve448-sha512", b"ecdh-sha2-nistp256", b"ecdh-sha2-nistp384",
    b"ecdh-sha2-nistp521", b"mlkem768nistp256-sha256", b"mlkem1024nistp384-sha384", b"mlkem768x25519-sha256",
]
COOKIE = b"ABCDEFGHIJKLMNOP"
LENT = 0x55


def hexed(b):
    return b.hex() or "-"


# ---- the specification


def good_name(name):
    return re.fullmatch(rb"[!-+\--~]{1,64}", name) is not None


def good_list(text):
    return text == b"" or all(good_name(name) for name in text.split(b","))


FIXED = {0: 16, 11: 1, 12: 4}  # of the thirteen fields those without length bytes: cookie, boolean, reserved number


def judge(payload):
    """(number, [(start, text)] of the ten lists, boolean byte, reserved number, position)"""
    if not 1 <= len(payload) <= 4096:
        return 10, [], 0, 0, 0
    if payload[0] != 20:
        return 11, [], 0, 0, 0
    at, fields = 1, []
    for n in range(13):
        start = at + (0 if n in FIXED else 4)
        end = start + (FIXED[n] if n in FIXED else int.from_bytes(payload[at:start], "big"))
        if max(start, end) > len(payload):
            return 12, [], 0, 0, at
        fields.append((start, payload[start:end]))
        at = end
    if at < len(payload):
        return 13, [], 0, 0, at
    return 0, fields[1:11], payload[at - 5], int.from_bytes(payload[at - 4:], "big"), 0


def message(lists, boolean=0, reserved=0, byte=20, cookie=COOKIE):
    """A payload with these lists, good or not; the others are empty."""
    texts = [lists.get(n, b"") for n in range(1, 11)]
    return bytes([byte]) + cookie + b"".join(len(t).to_bytes(4, "big") + t for t in texts) + bytes([boolean]) + reserved.to_bytes(4, "big")


def written(size, lists, follows, reserved, cookie):
    """(number, what is written)"""
    payload = message(lists, int(follows), reserved, cookie=cookie)
    if len(cookie) != 16 or not all(good_list(text) for text in lists.values()) or len(payload) > 4096:
        return 4, b""
    return (5, b"") if size < len(payload) else (0, payload)


def choose(client, server):
    """number, method, place and host key name, ignore the client's packet, the server's"""
    sides = []
    for payload in (client, server):
        number, lists, boolean, _, _ = judge(payload)
        if number == 0 and not all(good_list(text) for _, text in lists):
            number = 19
        if number:
            return number, 0, "0:-", 0, 0
        sides.append(([text.split(b",") if text else [] for _, text in lists[:2]], boolean != 0, lists))
    ((kex_c, host_c), bool_c, lists_c), ((kex_s, host_s), bool_s, _) = sides
    kex = [name for name in kex_c if name in METHODS and name in kex_s]
    if not kex:
        return 20, 0, "0:-", 0, 0
    hosts = [i for i, name in enumerate(host_c) if name in host_s]
    if not hosts:
        return 21, 0, "0:-", 0, 0
    start = lists_c[1][0] + sum(len(name) + 1 for name in host_c[:hosts[0]])
    wrong = kex_c[0] != kex_s[0] or host_c[0] != host_s[0]
    return 0, METHODS.index(kex[0]) + 1, f"{start}:{host_c[hosts[0]].hex()}", int(bool_c and wrong), int(bool_s and wrong)


# ---- a call, and its answer


def answer(*words):
    return " ".join(map(str, words))


def opened(payload, n):
    """The opening, every name, and twice where they stop."""
    number, lists, boolean, reserved, position = judge(payload) if 1 <= n <= 10 else (4, [], 0, 0, 0)
    good = number == 0
    yield f"open {hexed(payload)} {n}", answer(number, f"1:{payload[1:17].hex()}" if good else "0:-", int(boolean != 0), reserved, position)
    start, text = lists[n - 1] if good else (0, b"")
    for name in text.split(b",") if text else []:
        if not good_name(name):
            yield from [("next", "19 0:-")] * 2
            return
        yield "next", f"0 {start}:{name.hex()}"
        start += len(name) + 1
    yield from [("next", "0 end")] * 2


def wrote(out, size, lists, follows=False, reserved=0, cookie=COOKIE):
    """out: how the bench shows an output."""
    number, data = written(size, lists, follows, reserved, cookie)
    texts = " ".join(hexed(lists.get(n, b"")) for n in range(1, 11))
    shown = out(data + bytes([LENT]) * (size - len(data)))
    yield f"wkex {hexed(cookie)} {texts} {int(follows)} {reserved} {LENT:02x}*{size}", answer(number, len(data), shown)


def chosen(client, server):
    yield f"choose {hexed(client)} {hexed(server)}", answer(*choose(client, server))


# ---- the cases


def opening():
    empty = message({})
    for size, n in [(62, 1), (62, 2), (62, 10), (61, 1), (61, 10), (63, 1), (62, 0), (62, 11), (62, 2**64 - 1), (61, 0), (63, 11),
                    (0, 0), (0, 1), (1, 1), (17, 1), (57, 1), (58, 1)]:
        yield from opened((empty + b"\0")[:size], n)
    for size, n in [(62, 1), (61, 1), (63, 1), (1, 1), (62, 0)]:
        yield from opened((b"\x15" + empty[1:] + b"\0")[:size], n)
    for length in ("ffffffff", "fffffffd", "80000000", "0000002a", "00000029"):
        yield from opened(empty[:17] + bytes.fromhex(length) + empty[21:], 1)
    for payload, n in [(message({10: b"x"}), 10), (message({10: b"x"})[:62], 10), (message({2: b"a,", 9: b"b"}), 2), (message({2: b"a,", 9: b"b"}), 9)]:
        yield from opened(payload, n)
    for length, cases in ((4034, [(4095, 1), (4096, 1), (4096, 2), (4097, 1), (4097, 11), (65536, 1)]), (4035, [(4096, 1), (4097, 1)])):
        room = bytes([20]) + bytes(16) + length.to_bytes(4, "big") + bytes(65536 - 21)
        for size, n in cases:
            yield from opened(room[:size], n)
    for boolean, reserved in [(0, 0), (1, 0), (2, 1), (255, 0x01020304), (128, 0x80000000), (0, 0xffffffff)]:
        yield from opened(message({}, boolean, reserved), 1)
    # cut everywhere, and with bytes left over; each list in turn passes the end, by one byte and by as much as there is
    filled = message({n: b"n" * n for n in range(1, 11)}, 1, 7)
    for payload in (empty, filled):
        for size in range(len(payload) + 4):
            yield from opened((payload + b"\x55" * 3)[:size], 1 + size % 10)
    at = 17
    for n in range(1, 11):
        for length in (len(filled) - at - 4, len(filled) - at - 3, 2**32 - 1):
            yield from opened(filled[:at] + length.to_bytes(4, "big") + filled[at + 4:], n)
        at += 4 + n


def names():
    n64 = b"n" * 64
    for text in [b"", b"a", b"a,b", b"abc,d,efg", b"a,", b",a", b",", b"a,,b", b"a,b,", b",,", b"ab,cd,,ef,gh", n64, n64 + b"n",
                 b"a," + n64 + b",b", b"a," + n64 + b"n,b", b"a ", b"a!", b"a~", b"a\x7f", b" ", b"!", b"~", b"\x7f", b"a,\0",
                 b"a,\x80,b", b"a,\xff", b"a b,c"]:
        yield from opened(message({1: text}), 1)


def writing(out):
    for cookie in (COOKIE, COOKIE[:15], COOKIE + b"Q", b""):
        yield from wrote(out, 64, {}, cookie=cookie)
    for size in (62, 61, 1):
        for text in (b"", b","):
            yield from wrote(out, size, {1: text}, True, 0xffffffff)
    for text in (b"xy", b"x,"):
        for n in range(1, 11):
            yield from wrote(out, 65, {n: text})
    full = (b"a" * 64 + b",") * 63
    for size, length, n in [(4100, 4035, 1), (4100, 4029, 1), (4100, 4034, 1), (4100, 4034, 10), (4095, 4034, 1), (4095, 4035, 1), (4095, 4033, 1)]:
        lists = {n: full[:length]}
        yield from wrote(out, size, lists, True, 0x04030201)
        yield from opened(written(size, lists, True, 0x04030201, COOKIE)[1], n)


def choices():
    c25519, libssh, c448, p256, p384, p521 = METHODS[:6]
    x25519 = METHODS[8]
    for kc, hc, fc, ks, hs, fs in [
        (p256 + b"," + c25519, b"ssh-ed25519,rsa-sha2-512", 0, c25519 + b"," + p256, b"rsa-sha2-512,ssh-ed25519", 0),
        (b"x," + c25519, b"h", 1, b"x," + c25519, b"h", 1),
        (b"ext-info-c,x,y," + c448, b"h", 1, b"z,y,x," + c448 + b",ext-info-c", b"h", 0),
        (c25519, b"h", 0, libssh, b"i", 0), (c25519, b"h", 1, c25519, b"i", 1), (b"", b"h", 0, c25519, b"h", 0),
        (b"x", b"h", 0, b"x", b"h", 0), (c25519, b"", 0, c25519, b"h", 0),
        (c25519, b"rsa,rsa-sha2-256,rsa", 0, c25519, b"rsa-sha2-512,rsa-sha2-256", 0),
        (x25519 + b"," + x25519, b"h,h", 0, c25519 + b"," + x25519, b"g,h,h", 0),
        *((c25519 + b"," + p521, b"h", fc, p521 + b"," + c25519, b"h", fs) for fc in (0, 1) for fs in (0, 1)),
        *((p384, b"g,h", fc, p384, b"h,g", fs) for fc in (0, 1) for fs in (0, 1)),
        (p384 + b",x", b"h,g", 1, p384 + b",y", b"h,f", 1),
        *((name, b"h", 0, name, b"h", 0) for name in METHODS),
        *((name, b"h", 0, name, b"h", 0) for name in (c25519[:-1], c25519 + b".", c25519.upper(), b"ext-info-c")),
    ]:
        yield from chosen(message({1: kc, 2: hc}, fc), message({1: ks, 2: hs}, fs))
    empty, bad10, bad3, byte30 = message({}), message({10: b","}), message({3: b"a,,b"}), message({}, byte=30)
    both = message({1: c25519, 2: b"h"})
    for client, server in [
        (empty, empty), (empty[:61], empty), (empty, empty[:61]), (empty + b"\0", b""), (empty, b""), (bad10, b""), (bad10, empty),
        (empty, bad10), (empty, bad3), (bad3, byte30), (b"", bad10), (byte30, empty + b"\0"),
        (message({1: c25519, 2: b"h", 10: b","}), both), (both, message({1: c25519, 2: b"h", 4: b"a "})),
        (message({1: c25519, 2: b"h"}, 2), message({1: c25519 + b",x", 2: b"g,h"}, 255)),
        (message({1: c25519, 2: b"h,g"}, 2), message({1: c25519 + b",x", 2: b"g,h"}, 255)),
    ]:
        yield from chosen(client, server)


def cases(out):
    """(line, whole answer) of each call, to be made in this order."""
    yield from opening()
    yield from names()
    yield from writing(out)
    yield from choices()
