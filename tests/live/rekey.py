"""Later exchanges of one connection: with OpenSSH, asked for by either side in the middle of data; with keys of another identifier, which must
fail; with peers of our own that are exact about what may come between KEXINIT and NEWKEYS (RFC 4253, 7.1, 9 and 11), and with hostile ones."""
import sys

if __name__ == "__main__":
    sys.exit("rekey.py is a part of live.py")

import concurrent.futures
import copy
import itertools
import random
import re
import socket
import struct

from hostile import FAULT, KEX, LOW_ORDER, QUIET, SIGNER, Turn, against_client, against_server, broken, cut, init, judge, longer, words
from peer import (ACCEPT, DEBUG, IGNORE, INIT, KEXINIT, NEWKEYS, REPLY, REQUEST, SEALS, UNIMPLEMENTED, Ed25519, disconnect, ed25519_holds, kexinit,
                  packet, service, string, take_string, unimplemented)
from programs import METHODS, Failure, later_exchanges, logged, need, results, unwarned
from sealed import CIPHERS, MACS, PROTOCOL_ERROR, mac_of, not_opened

LEAST = 50  # exchanges behind the first, in one connection
ED25519 = "ssh-ed25519"
# the first method, those of the later exchanges, and more: identifiers shorter and longer than the running digest, counts that begin anew and that go on
WAYS = [(1, (6, 5, 4, 2, 1), ()), (6, (1, 5, 2, 4, 6), ("--no-strict", "--macs", "hmac-sha2-512,hmac-sha2-256"))]


def names(methods):
    return ",".join(METHODS[method] for method in methods)


# ---- with OpenSSH

def night(answer, method, turns, by=None):
    """The results of a connection that must have had its exchanges: those behind the first, and what is said of the data."""
    code, out, err = answer
    need(code == 0 and err == "", f"exit {code}: {err.strip()}")
    rest, later = later_exchanges(out)
    *first, last = rest.splitlines(keepends=True)
    need(results("".join(first))["method"] == f"{method} {METHODS[method]}", "method of the first exchange")
    need([x.method for x in later] == list(itertools.islice(itertools.cycle(turns), len(later))), "methods are not in turn")
    need(by is None or all(x.by == by for x in later), f"not all exchanges were asked for by {by}")
    said = re.fullmatch(r"data (\d+) bytes there and back, exchanges asked for (\d+) by us and (\d+) by the peer, messages between KEXINITs (\d+)\n", last)
    need(said, "no line on data:", last)
    size, own, peers, between = map(int, said.groups())
    need((own, peers) == tuple(sum(x.by == by for x in later) for by in ("us", "the peer")), "exchanges are counted otherwise:", last)
    return later, size, between


def client_run(dock, port, way, options, *asking, each=None):
    """each: is given each line of dock's as it comes."""
    method, turns, more = way
    known = "--known-hosts", dock.programs.known(port, ED25519)
    process = dock.start("client", "127.0.0.1", port, *known, "--methods", METHODS[method], "--turns", names(turns), *more, *options, *asking)
    return dock.end(process, each=each)


def server_run(programs, dock, way, size, *asking, each=None, **of_ssh):
    """dock's answer and ssh's; ssh sends a text of that size."""
    method, turns, more = way
    text = random.Random(size).randbytes((size + 1) // 2).hex()[:size]
    process, port = dock.serve("--host-key", programs.key(ED25519), "--methods", METHODS[method], "--turns", names(turns), "--echo", *more, *asking)
    of_ssh = {"KexAlgorithms": names((method, *turns)), **of_ssh}
    with concurrent.futures.ThreadPoolExecutor(1) as beside:  # dock writes while ssh runs
        ssh = beside.submit(programs.ssh, port, method, ED25519, programs.known(port, ED25519), programs.write(f"text_{port}", text), **of_ssh)
        return dock.end(process, each=each), ssh.result(), text


def as_client(dock, port, way, *arguments, by=None, **more):
    return night(client_run(dock, port, way, *arguments, **more), *way[:2], by)


def as_server(programs, dock, way, size, *arguments, by=None, **of_ssh):
    answer, (code, back, err), text = server_run(programs, dock, way, size, *arguments, **of_ssh)
    need(code == 0 and err == "", f"ssh: exit {code}: {err.strip()} ({answer[2].strip()})")
    need(back == text, f"of {len(text)} bytes {len(back)} came back, or others")
    later, moved, between = night(answer, *way[:2], by)
    need(moved == size, f"{moved} bytes of data, and not {size}")
    return later, moved, between


def with_openssh(programs, dock):
    """Four ways, each twice; and both sides asking, so that KEXINITs may cross."""
    allowed, options = programs.login(ED25519)
    ports = {limit: programs.sshd(allowed + [f"RekeyLimit {limit}"], f"sshd_{limit}") for limit in ("default", "16", "1K")}
    runs = []
    for way in WAYS:
        runs += [
            as_client(dock, ports["default"], way, options, "--rekey", LEAST, by="us"),
            as_client(dock, ports["16"], way, options, "--rekeyed", LEAST, by="the peer"),
            as_server(programs, dock, way, 30000, "--rekey", LEAST, by="us"),
            as_server(programs, dock, way, 60000, by="the peer", RekeyLimit="16"),
        ]
    for way in WAYS:
        runs += [as_client(dock, ports["1K"], way, options, "--rekey", LEAST // 2, "--rekeyed", LEAST // 2),
                 as_server(programs, dock, way, 60000, "--rekey", LEAST // 2, RekeyLimit="1K")]
    for later, size, _ in runs:
        need(len(later) >= LEAST, f"{len(later)} exchanges behind the first are fewer than {LEAST}")
        need(size >= LEAST * 256, f"{size} bytes are too few")
    counts = [len(later) for later, _, _ in runs]
    return (f"{len(runs)} connections with {min(counts)} to {max(counts)} exchanges behind the first, {sum(size for _, size, _ in runs)} bytes there and "
            f"back, {sum(between for _, _, between in runs)} messages between KEXINITs")


# ---- keys of another identifier

def wrong_identifiers(programs, dock):
    """Right up to the second NEWKEYS; the peer refuses the first packet behind it."""
    allowed, options = programs.login(ED25519)
    port, count = programs.sshd(allowed, "sshd_wrong"), 0
    here = r"dock: (the MAC of packet \d+ does not hold|packet length \d+ not allowed|the peer closed the connection|(receiving|sending): .*)\n"
    seals = ("hmac-sha2-256", "Bad packet length"), ("hmac-sha2-512-etm@openssh.com", "Corrupted MAC on input")
    pairs = (1, 6), (6, 1)
    for how, (mac, there), (first, second), serves in itertools.product(("right", "new-id", "id-length"), seals, pairs, (False, True)):
        way, wrong, since = (first, (second,), ("--macs", mac)), dock.with_env(DOCK_KEYS=how), len(programs.log("sshd_wrong"))
        try:
            if serves:
                answer, (_, _, of_ssh), _ = server_run(programs, wrong, way, 2000, "--rekey", 1)
            else:
                answer = client_run(wrong, port, way, options, "--rekey", 1)
            code, out, err = answer
            if how == "right":
                need(len(night(answer, first, (second,), "us")[0]) == 1, "not one exchange behind the first")
                continue
            need(code == 1 and re.fullmatch(here, err), f"exit {code}: {err.strip()}")
            need(len(later_exchanges(out)[1]) == 1 and "data" not in out, "it does not end behind the second NEWKEYS:", out)
            if serves:
                need(there in of_ssh, f"'{there}' expected of ssh: {of_ssh.strip()}")
            else:
                logged(programs, there, since, name="sshd_wrong")
            count += 1
        except Failure as e:
            raise Failure(f"{how}, {mac}, methods {first} and {second}, as {'server' if serves else 'client'}: {e}") from None
    return f"{count} connections that fail behind the second NEWKEYS"


# ---- exact peers

SUCCESS, BANNER, LOGIN, GLOBAL, GLOBAL_YES, GLOBAL_NO, OPEN, OPENED, ADJUST, DATA, EOF, CLOSE, ASKED, YES = (
    52, 53, 50, 80, 81, 82, 90, 91, 93, 94, 96, 97, 98, 99)
ASIDE_MOST = 8192  # as dock.h has it: bytes of messages that are set aside, with four more for each
WORDS = bytes([IGNORE]) + string(b"words"), bytes([DEBUG, 1]) + string(b"text") + string(b""), bytes([UNIMPLEMENTED]) + b"\xff" * 4


def u32(*numbers):
    return struct.pack(f">{len(numbers)}I", *numbers)


def say(p, *payloads):
    p.send(b"".join(map(p.closes.close, payloads)))


def begun(p, strict=True, seals=SEALS):
    """The first exchange, up to NEWKEYS of both sides and what dock's client asks for behind it."""
    p.greet(kexinit(KEX + p.strict_name * strict, b"ssh-ed25519", seals=seals))
    p.answer()
    p.send_packets(packet(bytes([NEWKEYS])))
    p.seal(True, strict, seals)
    p.strict, p.seals, p.by = strict, seals, []  # by: who asked for the later exchanges
    p.asked()


def their_kexinit(p):
    """dock's, which does not name strict key exchange any more."""
    theirs = p.read()
    need(theirs[:1] == bytes([KEXINIT]) and b"kex-strict" not in theirs, "no KEXINIT, or a strict one:", theirs[:80])
    return theirs


def kexinits(p, own=None, behind=(), theirs=None, by=None):
    """KEXINIT both ways; behind: what goes out at once behind this side's; theirs: dock's, where it was read before. By: who asked, if it is not the one
    whose KEXINIT was read, or sent, first."""
    p.by.append(by or ("us" if theirs else "the peer"))
    own = own or kexinit(KEX, b"ssh-ed25519", seals=p.seals)
    say(p, own, *behind)
    theirs = theirs or their_kexinit(p)
    p.i_s, p.i_c = (own, theirs) if p.serves else (theirs, own)
    if p.serves:
        p.c = p.read()[5:]


def new_keys(p):
    """Of the exchange that is complete; packets are counted on, or anew."""
    opens, closes = p.new_seals(p.seals)
    if not p.strict:
        opens.sequence, closes.sequence = p.opens.sequence, p.closes.sequence
    return opens, closes


def message(p, ahead=()):
    """This side's message of the exchange, and what dock answers, its NEWKEYS the last."""
    if p.serves:
        say(p, *ahead, p.reply())
    else:
        say(p, *ahead, init())
        p.take(p.read())
        need(p.holds, "the signature does not hold")
    need(p.read() == bytes([NEWKEYS]), "no NEWKEYS")
    p.opens = new_keys(p)[0]


def turned(p, ahead=()):
    """The rest of an exchange behind the KEXINITs."""
    message(p, ahead)
    say(p, *ahead, bytes([NEWKEYS]))
    p.closes = new_keys(p)[1]


def granted(p):
    say(p, p.due)
    need(p.serves or p.read() == service(ACCEPT), "no SERVICE_ACCEPT")
    p.granted = True


def good_bye(p):
    granted(p)
    need(p.read()[:5] == disconnect(11)[:5], "no DISCONNECT at the end")
    p.done = True


def they_ask(strict, ahead=(), times=3, seals=SEALS):
    """This side asks: with words in between, which a strict exchange takes too, once it is not the first."""
    def play(p, rng):
        begun(p, strict, seals)
        for _ in range(times):
            say(p, *ahead)
            kexinits(p, behind=ahead)
            turned(p, ahead)
        good_bye(p)
    return play


def strict_too_late(p, rng):
    """Named in the second KEXINIT alone, it is nothing: packets are counted on."""
    begun(p, False)
    kexinits(p, kexinit(KEX + p.strict_name, b"ssh-ed25519"))
    turned(p)
    good_bye(p)


def guessed(kex, guess):
    """first_kex_packet_follows in a later KEXINIT; the guess is another message than is due, and is dropped."""
    def play(p, rng):
        begun(p)
        kexinits(p, kexinit(kex, b"ssh-ed25519", True), [guess])
        turned(p)
        good_bye(p)
    return play


def guessed_right(p, rng):
    begun(p)
    own = kexinit(b"curve25519-sha256", b"ssh-ed25519", True)
    if p.serves:  # a server has nothing to say ahead of INIT: its guess is its REPLY
        kexinits(p, own)
        turned(p)
    else:
        kexinits(p, own, [init()])
        p.take(p.read())
        need(p.holds and p.read() == bytes([NEWKEYS]), "no NEWKEYS")
        p.opens = new_keys(p)[0]
        say(p, bytes([NEWKEYS]))
        p.closes = new_keys(p)[1]
    good_bye(p)


def dock_asks(p, rng):
    """Behind the service, twice; this side has words in between, and a login of its own is under way, which is passed over."""
    begun(p)
    granted(p)
    for _ in range(2):
        theirs = their_kexinit(p)
        say(p, *WORDS, bytes([SUCCESS if p.serves else LOGIN]))
        kexinits(p, theirs=theirs)
        turned(p, WORDS)
    need(p.read()[:5] == disconnect(11)[:5], "no DISCONNECT at the end")
    p.done = True


def both_ask(p, rng):
    """Each sends KEXINIT before it has seen the other's: that is one exchange."""
    begun(p)
    granted(p)
    kexinits(p, by="us")
    turned(p)
    need(p.read()[:5] == disconnect(11)[:5], "no DISCONNECT at the end")
    p.done = True


def data(channel, text):
    return bytes([DATA]) + u32(channel) + string(text)


def logged_in(p):
    """Up to the first data and dock's KEXINIT behind it; the data that are on their way to this side."""
    if p.serves:
        say(p, p.due)
        p.granted = True
        request = p.read()
        head, user = request[:1], take_string(request[1:])[0]
        rest = take_string(take_string(take_string(request[1:])[1])[1])[1][1:]
        name, rest = take_string(rest)
        blob, rest = take_string(rest)
        signature, rest = take_string(rest)
        signed = string(p.id) + request[:len(request) - len(string(signature))]
        need(head == bytes([LOGIN]) and user == b"nobody" and ed25519_holds(blob, signature, signed), "a login that does not hold")
        say(p, bytes([BANNER]) + string(b"hello") + string(b""), bytes([SUCCESS]))
        need(p.read() == bytes([OPEN]) + string(b"session") + u32(0, 4096, 1024), "no CHANNEL_OPEN")
        say(p, bytes([GLOBAL]) + string(b"hostkeys-00@openssh.com") + b"\0", bytes([OPENED]) + u32(0, 9, 1000, 300))
        need(p.read() == bytes([ASKED]) + u32(9) + string(b"exec") + b"\1" + string(b"cat"), "no command")
        say(p, bytes([YES]) + u32(0))
        sent = take_string(p.read()[5:])[0]
        need(len(sent) == 300, f"{len(sent)} bytes, and not as many as a message may have")
        return sent
    say(p, p.due)
    need(p.read() == service(ACCEPT), "no SERVICE_ACCEPT")
    p.granted = True
    say(p, bytes([LOGIN]) + string(b"anybody") + string(b"ssh-connection") + string(b"password") + b"\0" + string(b"word"))
    need(p.read() == b"\x33" + string(b"none") + b"\0", "a password is taken")
    say(p, bytes([LOGIN]) + string(b"anybody") + string(b"ssh-connection") + string(b"none"))
    need(p.read() == bytes([SUCCESS]), "no login")
    say(p, bytes([OPEN]) + string(b"session") + u32(7, 1000, 1000))
    need(p.read() == bytes([OPENED]) + u32(7, 0, 4096, 1024), "no channel")
    say(p, bytes([ASKED]) + u32(0) + string(b"env") + b"\1" + string(b"A") + string(b"B"), bytes([ASKED]) + u32(0) + string(b"exec") + b"\1" + string(b"x"))
    need((p.read(), p.read()) == (b"\x64" + u32(7), bytes([YES]) + u32(7)), "no command")
    say(p, data(0, b"first words"))
    need(p.read() == data(7, b"first words"), "the first words do not come back")
    return b""


def under_way(p, rng):
    """Data, a request and a message that nobody knows come behind dock's KEXINIT and ahead of this side's. All are taken; but for UNIMPLEMENTED
    nothing is answered before dock's NEWKEYS."""
    begun(p, rng.turn % 2 == 0)
    for _ in range(rng.turn % 3):  # ahead of the login, whose signature is over the identifier
        kexinits(p)
        turned(p)
    sent = logged_in(p)
    theirs = their_kexinit(p)
    if p.serves:
        say(p, data(0, sent[:100]), *WORDS, bytes([200]), data(0, sent[100:250]), bytes([GLOBAL]) + string(b"any") + b"\1", bytes([ADJUST]) + u32(0, 50))
    else:
        say(p, data(0, b"under "), *WORDS, bytes([200]), data(0, b"way"), bytes([GLOBAL]) + string(b"any") + b"\1", bytes([ADJUST]) + u32(0, 50))
    need(p.read() == unimplemented(p.closes.sequence - 4), "no UNIMPLEMENTED for the message that nobody knows")
    kexinits(p, theirs=theirs)
    turned(p, WORDS)
    all_back(p, sent, 250, b"under way")


def all_back(p, sent, back, text):
    """The answer to the one request, then the rest of the data and the end of the channel. back: how many of dock's bytes it has again; text: this
    side's, which dock is to send back."""
    need(p.read() == bytes([GLOBAL_NO]), "no answer to the request behind NEWKEYS")
    if p.serves:
        sent += b"" if len(sent) == 600 else take_string(p.read()[5:])[0]
        need(len(sent) == 600, "not as many data as go out at a time")
        say(p, data(0, sent[back:]))
        need(p.read() == bytes([EOF]) + u32(9), "no EOF")
        say(p, bytes([EOF]) + u32(0), bytes([ASKED]) + u32(0) + string(b"exit-status") + b"\0" + u32(0), bytes([CLOSE]) + u32(0))
        need(p.read() == bytes([CLOSE]) + u32(9), "no CLOSE")
    else:
        need(p.read() == data(7, text), "what was sent does not come back")
        say(p, bytes([EOF]) + u32(0))
        need(p.read() == bytes([EOF]) + u32(7) and p.read() == bytes([ASKED]) + u32(7) + string(b"exit-status") + b"\0" + u32(0)
             and p.read() == bytes([CLOSE]) + u32(7), "no end")
        say(p, bytes([CLOSE]) + u32(0))
    need(p.read()[:5] == disconnect(11)[:5], "no DISCONNECT at the end")
    p.done = True


def set_aside(p, rng):
    """Messages that are no exchange's come behind this side's KEXINIT: ahead of INIT or REPLY, and of a wrong guess, and ahead of NEWKEYS. They are
    taken in their order, when NEWKEYS has gone by; but a number that nobody knows is answered at once."""
    begun(p, rng.turn % 2 == 0)
    sent = logged_in(p)
    theirs = their_kexinit(p)
    parts = [sent[:100], sent[100:120], sent[120:250]] if p.serves else [b"set", b" ", b"aside"]
    first, second, third = (data(0, part) for part in parts)
    no, request = bytes([GLOBAL_NO]), bytes([GLOBAL]) + string(b"any") + b"\1"
    if rng.turn % 2:
        kexinits(p, kexinit(SECOND_FIRST, b"ssh-ed25519", True), [no, b"\x22" + bytes(50), first], theirs)
    else:
        kexinits(p, theirs=theirs, behind=[no, first])
    say(p, bytes([200]), second)
    need(p.read() == unimplemented(p.closes.sequence - 2), "no UNIMPLEMENTED for the message that nobody knows")
    message(p, [no])
    say(p, third, request, no, bytes([NEWKEYS]))
    p.closes = new_keys(p)[1]
    all_back(p, sent, 250, b"set aside")


def set_aside_most(p, rng):
    """As much as there is room for, within each of two exchanges: what was taken leaves its room to others."""
    begun(p)
    sent = logged_in(p)
    for theirs in (their_kexinit(p), None):
        kexinits(p, theirs=theirs, behind=filling())
        turned(p)
        if p.serves and theirs:
            sent += take_string(p.read()[5:])[0]
    say(p, bytes([GLOBAL]) + string(b"any") + b"\1", data(0, sent[:250] if p.serves else b"all of it"))
    all_back(p, sent, 250, b"all of it")


def filling():
    """Answers that nobody waits for, which fill the room for what is set aside."""
    first = bytes([GLOBAL_YES]) + bytes(4000)
    return [first, bytes([GLOBAL_NO]), bytes([GLOBAL_YES]) + bytes(ASIDE_MOST - len(string(first)) - 5 - 5)]


SECOND_FIRST = b"curve25519-sha256@libssh.org,curve25519-sha256"
EXACT = [
    ("words, strict", they_ask(True, WORDS)), ("words", they_ask(False, WORDS)), ("many", they_ask(True, times=5)),
    ("strict too late", strict_too_late), ("wrong guess", guessed(SECOND_FIRST, b"\x22" + bytes(50))), ("right guess", guessed_right),
    ("dock asks", dock_asks, "--rekey", 2), ("both ask", both_ask, "--rekey", 1),
    ("under way, strict", under_way, "--rekey", 1), ("under way", under_way, "--rekey", 1),
    ("set aside, strict", set_aside, "--rekey", 1), ("set aside", set_aside, "--rekey", 1),
    ("set aside, as much as may be", set_aside_most, "--rekey", 1),
]
FLOWING = under_way, set_aside, set_aside_most


def options_of(programs, flowing, serves):
    """serves: dock does."""
    key = programs.key(ED25519)
    return ["--host-key", key] + ["--echo"] * flowing if serves else ["--login", "nobody", "--key", key] * flowing


def exact_peers(programs, dock):
    with socket.create_server(("127.0.0.1", 0)) as listener:
        listener.settimeout(60)
        for i, (name, play, *more) in enumerate(EXACT):
            for serves in (False, True):
                options = *options_of(programs, play in FLOWING, serves), *more
                try:
                    if serves:
                        p, code, out, err = against_server(dock, play, Turn("exact", i), *options)
                    else:
                        p, code, out, err = against_client(dock, play, Turn("exact", i), listener, *options)
                    need(code == 0 and (err if serves else unwarned(err)) == "", f"exit {code}: {err.strip()}")
                    need(serves or err != "", "no word of a host key that was not checked")
                    need(p.done, "it ended before its good-bye")
                    rest, later = later_exchanges(out)
                    need(f"exchange 1 identifier {p.id.hex()}\n" in rest, "another identifier")
                    need([x.by for x in later] == p.by and later[-1].h == p.h.hex(), "later exchanges are others:", out)
                except Failure as e:
                    raise Failure(f"{name}, as {'server' if serves else 'client'}: {e}") from None
    return f"{len(EXACT)} as client, {len(EXACT)} as server"


# ---- hostile peers

def in_exchange(p, rng, seals=None):
    """A second exchange that this side asked for, up to KEXINIT both ways."""
    begun(p, rng.random() < 0.5, seals or SEALS)
    kexinits(p)


def not_due(p, rng):
    """Where INIT or REPLY is due, or where NEWKEYS is: a second KEXINIT, NEWKEYS ahead of time, a service, the other side's message."""
    in_exchange(p, rng)
    late, other = rng.turn % 2, bytes([INIT if p.serves else REPLY]) + string(bytes(32))
    payloads = [kexinit(KEX, b"ssh-ed25519"), bytes([NEWKEYS, 0]) if late else bytes([NEWKEYS]), p.due, service(REQUEST if p.serves else ACCEPT), other,
                bytes([49]), bytes([0])]
    if late:
        message(p)
    p.must = FAULT, "where NEWKEYS is due" if late else 11
    say(p, payloads[rng.turn // 2 % len(payloads)])


def set_aside_not_due(p, rng):
    """What is set aside is judged when NEWKEYS has gone by, where only the service is due; and there is room for so much."""
    in_exchange(p, rng)
    payload = rng.case([data(0, b"data"), bytes([GLOBAL_NO]), bytes([SUCCESS]), bytes([GLOBAL, 0]), b""])
    if payload:
        message(p, [payload])
        p.must = PROTOCOL_ERROR, f"message {payload[0]} of {len(payload)} bytes where SERVICE_{'ACCEPT' if p.serves else 'REQUEST'} is due"
        say(p, bytes([NEWKEYS]))
    else:
        p.must = FAULT, f"more than {ASIDE_MOST} bytes of other messages within a key exchange"
        say(p, *filling(), bytes([GLOBAL_NO]))


def rubbish_kexinit(p, rng):
    begun(p, rng.random() < 0.5)
    ed25519 = b"ssh-ed25519"
    payload, said = rng.case([
        (bytes([KEXINIT]), 12), (kexinit(KEX, ed25519)[:-1], 12), (kexinit(KEX, ed25519) + b"\0", 13), (kexinit(KEX + b",", ed25519), 19),
        (kexinit(KEX, ed25519, languages=b",".join([b"y" * 60] * 70)), 10), (kexinit(b"n" * 65, ed25519), 19), (kexinit(b"other", ed25519), 20),
        (kexinit(p.strict_name[1:], ed25519), 20), (kexinit(KEX, b"ssh-dss"), 21), (bytes([KEXINIT]) + rng.randbytes(400), None),
        (kexinit(KEX, ed25519, compressions=(b"none", b"zlib")), "no compression in common"),
        (kexinit(KEX, ed25519, seals=((b"aes192-ctr", b"hmac-sha2-256"), SEALS[1])), "no cipher in common")])
    p.must = FAULT, broken(payload, KEXINIT) or said
    say(p, payload)


def other_host_key(p, rng):
    """A signature that holds, of another key; or of the right key, over the first H or over H of another exchange."""
    in_exchange(p, rng)
    first, other = p.id, Ed25519(rng.randbytes(32))
    how, said = rng.case([
        (dict(signer=other), "is not that of the first exchange (number 18: "), (dict(sign=lambda h: SIGNER.sign(first)), "over H does not hold (number 18: "),
        (dict(sign=other.sign), "over H does not hold (number 18: ")])
    p.must = FAULT, said
    say(p, p.reply(**how))


def changed_message(p, rng):
    in_exchange(p, rng)
    payload = p.reply() if p.serves else init()
    low = p.reply(s=rng.choice(LOW_ORDER)) if p.serves else init(rng.choice(LOW_ORDER))
    payload, number = rng.case([(cut(rng, payload[:-1]) or payload[:1], 12), (longer(rng, payload), 13), (low, 16), (b"", 10),
                                (payload[:1] + b"\xff" + payload[2:], 12)])
    p.must = FAULT, broken(payload, REPLY if p.serves else INIT) or number
    say(p, payload)


def other_seal(p, rng):
    """Behind its NEWKEYS this side seals with the old keys, with keys of another identifier, or counts otherwise; or with the new ones ahead of it."""
    in_exchange(p, rng, ((b"aes128-ctr", MACS[rng.turn % 4]), (rng.choice(CIPHERS), MACS[rng.turn % 4])))
    message(p)
    right, case = new_keys(p)[1], rng.turn // 4
    if case == 0:  # ahead of NEWKEYS
        p.must = not_opened(p)
        right.sequence = p.closes.sequence
        p.send(right.close(bytes([NEWKEYS])) + rng.randbytes(64))
        return
    old = p.closes
    say(p, bytes([NEWKEYS]))
    right = p.closes = new_keys(p)[1]
    p.must = not_opened(p)
    if case == 1:
        wrong = copy.copy(old)
    elif case == 2:
        first, p.id = p.id, p.h
        wrong = new_keys(p)[1]
        p.id = first
    elif case == 3:
        wrong = copy.copy(right)
        p.must = mac_of(p)
    wrong.sequence = right.sequence if case < 3 else old.sequence if p.strict else 0
    p.send(wrong.close(p.due) + rng.randbytes(64))


def goes_away(p, rng):
    in_exchange(p, rng)
    place = rng.turn % 4
    if place % 2:
        message(p)
    p.must = QUIET, "closed" if place < 2 else "reason 7, ??"
    if place >= 2:
        say(p, words(rng), disconnect(7, b"\x1b\n"))


def no_kexinit(p, rng):
    """dock asks, behind the service: this side does not know KEXINIT, or says something else of the transport."""
    begun(p, rng.random() < 0.5)
    granted(p)
    at = p.opens.sequence
    their_kexinit(p)
    payload, p.must = rng.case([
        (bytes([UNIMPLEMENTED]) + u32(at), (QUIET, "no key exchange at this time")), (bytes([NEWKEYS]), (PROTOCOL_ERROR, "where KEXINIT is due")),
        (p.due, (PROTOCOL_ERROR, "where KEXINIT is due")), (init(), (PROTOCOL_ERROR, "where KEXINIT is due")),
        (b"", (PROTOCOL_ERROR, "where KEXINIT is due"))])
    say(p, payload)


def between_data(p, rng):
    """dock asks, between data: what comes ahead of this side's KEXINIT is taken and must be right, and behind it nothing is."""
    begun(p, rng.random() < 0.5)
    logged_in(p)
    their_kexinit(p)
    request, own = bytes([GLOBAL]) + string(b"any") + b"\1", kexinit(KEX, b"ssh-ed25519")
    not_due = PROTOCOL_ERROR, "is not well-formed or not due"
    payloads, p.must = rng.case([
        ([own, data(0, b"data"), own], (FAULT, 11)), ([own, bytes([ADJUST]) + u32(0, 1), service(REQUEST)], (FAULT, 11)), ([own, own], (FAULT, 11)),
        ([own, bytes([NEWKEYS])], (FAULT, 11)), ([own, request, *filling()], (FAULT, f"more than {ASIDE_MOST} bytes")),
        ([data(0, bytes(4097))], (PROTOCOL_ERROR, "4097 bytes of data where")), ([data(1, b"data")], not_due), ([bytes([DATA]) + u32(0, 5)], not_due),
        ([request] * 40, (PROTOCOL_ERROR, "more than 32 requests")), ([bytes([NEWKEYS])], not_due), ([service(REQUEST)], not_due), ([init()], not_due),
        ([bytes([OPEN]) + string(b"session") + u32(1, 1, 1)], not_due), ([bytes([ADJUST]) + u32(0, 2**32 - 1)], not_due), ([b""], not_due),
        ([bytes([EOF]) + u32(0), data(0, b"data")], not_due), ([bytes([CLOSE]) + u32(0), bytes([EOF]) + u32(0)], not_due),
        ([data(0, b"data")], (PROTOCOL_ERROR, "came back as another")) if p.serves else
        ([data(0, bytes(4000)), data(0, bytes(100))], (PROTOCOL_ERROR, "100 bytes of data where"))])
    say(p, *payloads)


def no_good_bye(p, rng):
    """All data went back and dock has closed the channel: only a DISCONNECT of this side, by its application, is a good end."""
    begun(p)
    logged_in(p)
    say(p, bytes([EOF]) + u32(0))
    need([p.read()[0] for _ in range(3)] == [EOF, ASKED, CLOSE], "no end")
    last, said = rng.case([((), "closed"), ((disconnect(2, b"no"),), "reason 2"), ((kexinit(KEX, b"ssh-ed25519"),), "closed")])
    p.must = QUIET, said
    say(p, *last)


# how often, name, play, dock's further options
HOSTILE = [
    (14, "not due", not_due), (5, "set aside, not due", set_aside_not_due), (12, "KEXINIT of rubbish", rubbish_kexinit),
    (6, "another host key", other_host_key), (5, "message changed", changed_message), (16, "another seal", other_seal), (4, "goes away", goes_away),
    (5, "no KEXINIT", no_kexinit, "--rekey", 1), (18, "between data", between_data, "--rekey", 1), (3, "no good-bye", no_good_bye),
]
ONLY = {other_host_key: False, no_good_bye: True}  # whether dock must be the server


def hostile_peers(programs, dock, seed):
    count = 0
    with socket.create_server(("127.0.0.1", 0), backlog=16) as listener:
        listener.settimeout(60)
        for (times, name, play, *more), serves in itertools.product(HOSTILE, (False, True)):
            if ONLY.get(play, serves) != serves:
                continue
            options = *options_of(programs, play in (between_data, no_good_bye), serves), *more
            for i in range(times):
                rng = Turn(f"{seed} {'client' if serves else 'server'} {name}", i)
                try:
                    if serves:
                        p, code, out, err = against_server(dock, play, rng, *options)
                    else:
                        p, code, out, err = against_client(dock, play, rng, listener, *options)
                    judge(p.must, code, out, err, p)
                except (Failure, OSError) as e:
                    raise Failure(f"hostile {'client' if serves else 'server'}, {name}, session {i}: {e}") from None
                count += 1
    return f"{count} sessions"
