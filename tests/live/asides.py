"""What may come at any time and is for nobody: IGNORE, DEBUG and UNIMPLEMENTED, well-formed and not, and messages that nobody knows, each of which is
answered with UNIMPLEMENTED of its packet's number, in their order (RFC 4253, 11). From the version lines to the end, in both roles."""
import sys

if __name__ == "__main__":
    sys.exit("asides.py is a part of live.py")

import socket

from hostile import KEX, OWN, STRICT, Turn, against_client, against_server, init
from peer import (ACCEPT, DEBUG, IGNORE, NEWKEYS, SEALS, UNIMPLEMENTED, UNKNOWN, UNKNOWN_ABOVE, disconnect, kexinit, packet, service, string,
                  unimplemented)
from programs import Failure, need, unwarned
from rekey import kexinits, message, new_keys, say

TEXT = b"two\r\nlines \x1b[31m\x07%s%n \xc3\xa9\x9b\0 and more"
SHOWN = "two??lines ?[31m?%s%n ???"  # up to the byte 0
DEBUG_WORDS = bytes([DEBUG, 1]) + string(TEXT) + string(b"")
WORDS = [bytes([IGNORE]) + string(b"words"), DEBUG_WORDS, bytes([UNIMPLEMENTED]) + bytes(4)]
# cut at every place, with another length than there are bytes, and with bytes behind them
ILL_FORMED = [word[:n] for word in (WORDS[0], bytes([DEBUG, 1]) + string(b"text") + string(b""), WORDS[2]) for n in range(1, len(word))]
ILL_FORMED += [word + b"\0" for word in WORDS]
ILL_FORMED += [bytes([DEBUG, 1]) + b"\xff" * 4 + b"text", bytes([IGNORE]) + b"\xff" * 4, bytes([DEBUG, 2]) + string(b"x" * 9000)]


def clear(p, *payloads):
    """In the clear: how often UNIMPLEMENTED is due for them, and for which packets."""
    due = [unimplemented(p.sent + i) for i, payload in enumerate(payloads) if payload[0] in UNKNOWN]
    p.send_packets(b"".join(map(packet, payloads)))
    return due


def sealed(p, *payloads):
    due = [unimplemented(p.closes.sequence + i) for i, payload in enumerate(payloads) if payload[0] in (*UNKNOWN, *UNKNOWN_ABOVE)]
    say(p, *payloads)
    return due


def answered(p, due):
    for one in due:
        found = p.read()
        need(found == one, f"{found[:8].hex()} where {one.hex()} is due")


def unknown(*numbers):
    return [bytes([number]) + bytes(number) for number in numbers]


def first_exchange(p, strict_name=b""):
    """With all that may come in between, which a strict one would not take."""
    own = kexinit(KEX + strict_name, b"ssh-ed25519")
    p.send(OWN + b"\r\n")
    v = p.version()
    due = clear(p, *WORDS, *unknown(*UNKNOWN), *ILL_FORMED, own)
    theirs = p.read()
    answered(p, due)
    if p.serves:
        p.v_c, p.i_s, p.i_c = v, own, theirs
        p.c = p.read()[5:]
    else:
        p.v_s, p.i_c, p.i_s = v, own, theirs
    answered(p, clear(p, *unknown(7, 29), *WORDS))
    if p.serves:
        clear(p, p.reply())
    else:
        clear(p, init())
        p.take(p.read())
        need(p.holds, "the signature does not hold")
    need(p.read() == bytes([NEWKEYS]), "no NEWKEYS")
    p.seal(False)
    answered(p, clear(p, *WORDS, *unknown(22), *ILL_FORMED[:9]))  # dock's answer is sealed by now
    clear(p, bytes([NEWKEYS]))
    p.closes.sequence, p.past = p.sent, True
    p.strict, p.seals, p.by = False, SEALS, []
    p.asked()


def at_any_time(p, rng):
    first_exchange(p)
    answered(p, sealed(p, *unknown(*UNKNOWN), *WORDS, *unknown(*UNKNOWN_ABOVE), *ILL_FORMED))
    kexinits(p)
    answered(p, sealed(p, *unknown(8, 200, 19), *WORDS, *unknown(60, 255), *ILL_FORMED[-5:]))
    message(p)
    answered(p, sealed(p, *unknown(83, 28), *WORDS))
    say(p, bytes([NEWKEYS]))
    p.closes = new_keys(p)[1]
    answered(p, sealed(p, *unknown(101, 7)))
    good_bye(p)


def other_side_named(p, rng):
    """The name of strict key exchange that is the other side's is none."""
    first_exchange(p, STRICT % (b"c" if p.serves else b"s"))
    answered(p, sealed(p, *unknown(9)))
    good_bye(p)


def good_bye(p):
    say(p, p.due)
    need(p.serves or p.read() == service(ACCEPT), "no SERVICE_ACCEPT")
    need(p.read()[:5] == disconnect(11)[:5], "no DISCONNECT at the end")
    p.done = True


def in_both_roles(programs, dock):
    runs = [(play, shown, serves) for play in (at_any_time, other_side_named) for shown in (False, True) for serves in (False, True)]
    with socket.create_server(("127.0.0.1", 0)) as listener:
        listener.settimeout(60)
        for play, shown, serves in runs:
            show = ["--show"] * shown
            try:
                if serves:
                    p, code, out, err = against_server(dock, play, Turn("asides", 0), "--host-key", programs.key("ssh-ed25519"), *show)
                else:
                    p, code, out, err = against_client(dock, play, Turn("asides", 0), listener, *show)
                need(code == 0 and unwarned(err) == "", f"exit {code}: {err.strip()}")
                need(p.done, "it ended before its good-bye")
                need("strict no\n" in out, "it was strict")
                need((f'   "{SHOWN}"\n' in out) == shown and ("DEBUG" in out) == shown, "words of DEBUG are shown, or not, or others:", out)
                need(all(c == "\n" or " " <= c <= "~" for c in out), "a byte that acts on a terminal:", out)
            except Failure as e:
                raise Failure(f"{play.__name__}, as {'server' if serves else 'client'}{', shown' * shown}: {e}") from None
    return f"{len(runs)} connections"
