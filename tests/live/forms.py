"""Host keys and signatures in exact forms: each REPLY is valid but for one thing, so that nothing else can be why it is refused."""
import sys

if __name__ == "__main__":
    sys.exit("forms.py is a part of live.py")

import hashlib
import os
import socket
import subprocess

from hostile import FAULT, KEX, SIGNER, Turn, against_client, judge
from peer import BASE_U, EN, NEWKEYS, ODD_PRIMES, Ecdsa, Ed25519, Rsa, kexinit, number, packet, string, x25519
from programs import Failure, need


def raw(n, size):
    return string(n.to_bytes(size, "big"))


def ed25519_forms():
    good, blob, name = SIGNER.sign, SIGNER.blob, b"ssh-ed25519"
    yield True, "as it is", dict(signer=SIGNER)
    yield False, "signature with a byte more", dict(sign=lambda h: good(h) + b"\0")
    yield False, "signature's body with a byte more", dict(sign=lambda h: string(name) + string(good(h)[19:] + b"\0"))
    yield False, "signature named otherwise", dict(sign=lambda h: string(b"ssh-ed448") + good(h)[15:])
    yield False, "signature without its name", dict(sign=lambda h: good(h)[15:])
    yield False, "blob with a byte more", dict(blob=blob + b"\0")
    yield False, "blob of another type", dict(blob=string(b"ssh-ed448") + blob[15:])
    yield False, "another signer", dict(sign=Ed25519(b"other").sign)
    yield False, "H of another exchange", dict(sign=lambda h: good(hashlib.sha256(h).digest()))


def ecdsa_forms():
    key = Ecdsa(b"seed")
    name, curve = string(key.name), string(key.curve)

    def signed(form):
        return dict(signer=key, sign=lambda h: name + string(form(*key.numbers(h))))

    yield True, "as it is", dict(signer=key)
    yield True, "s turned", signed(lambda r, s: number(r) + number(EN - s))
    yield False, "r without its sign byte", signed(lambda r, s: raw(r, 32) + number(s))
    yield False, "r with a zero too many", signed(lambda r, s: raw(r, 34) + number(s))
    yield False, "r with the order added", signed(lambda r, s: number(r + EN) + number(s))
    yield False, "r and s exchanged", signed(lambda r, s: number(s) + number(r))
    yield False, "a byte behind s", signed(lambda r, s: number(r) + number(s) + b"\0")
    yield False, "r alone", signed(lambda r, s: number(r))
    yield False, "zeros", signed(lambda r, s: number(0) + number(0))
    yield False, "signature named for another curve", dict(signer=key, sign=lambda h: string(b"ecdsa-sha2-nistp384") + key.sign(h)[23:])
    yield False, "blob of another curve's type", dict(signer=key, blob=string(b"ecdsa-sha2-nistp384") + curve + string(key.point))
    yield False, "blob with a byte more", dict(signer=key, blob=key.blob + b"\0")
    yield False, "blob with another curve", dict(signer=key, blob=name + string(b"nistp384") + string(key.point))
    yield False, "compressed point", dict(signer=key, blob=name + curve + string(key.compressed))
    yield False, "hybrid point", dict(signer=key, blob=name + curve + string(bytes([key.compressed[0] + 4]) + key.point[1:]))
    yield False, "point at infinity", dict(signer=key, blob=name + curve + string(b"\0"))


def named(key, name, digest):
    return dict(signer=key, sign=lambda h: string(name) + string(key.body(h, digest)))


def rsa_forms(key, odd, small):
    name = string(b"rsa-sha2-256")
    body = lambda h: key.body(h, "sha256")
    e, n = number(key.e), number(key.n)
    yield True, "as it is", dict(signer=key)
    yield True, "2,049 bits, signature without its leading zero", dict(
        signer=odd, leading_zero=True, sign=lambda h: name + string(odd.body(h, "sha256").lstrip(b"\0")))
    yield False, "signature with a zero too many", dict(signer=key, sign=lambda h: name + string(b"\0" + body(h)))
    yield False, "signature with the modulus added", dict(
        signer=key, sign=lambda h: name + string((int.from_bytes(body(h), "big") + key.n).to_bytes(key.size + 1, "big")))
    yield False, "signature with a byte more", dict(signer=key, sign=lambda h: key.sign(h) + b"\0")
    yield False, "rsa-sha2-512 where rsa-sha2-256 is chosen", named(key, b"rsa-sha2-512", "sha512")
    yield False, "SHA-512 under the name of SHA-256", named(key, b"rsa-sha2-256", "sha512")
    yield False, "SHA-256 under the name of SHA-512", named(key, b"rsa-sha2-512", "sha256")
    yield False, "ssh-rsa, SHA-1", named(key, b"ssh-rsa", "sha1")
    yield False, "ssh-rsa, SHA-256", named(key, b"ssh-rsa", "sha256")
    yield False, "blob with a byte more", dict(signer=key, blob=key.blob + b"\0")
    yield False, "blob named rsa-sha2-256", dict(signer=key, blob=name + e + n)
    yield False, "modulus without its sign byte", dict(signer=key, blob=string(b"ssh-rsa") + e + raw(key.n, key.size))
    yield False, "modulus with a zero too many", dict(signer=key, blob=string(b"ssh-rsa") + e + raw(key.n, key.size + 2))
    yield False, "modulus and exponent exchanged", dict(signer=key, blob=string(b"ssh-rsa") + n + e)
    yield False, "1,024 bits", dict(signer=small)


def rsa_512_forms(key):
    """Where rsa-sha2-512 is chosen, for a key of the same type."""
    yield True, "as it is", named(key, b"rsa-sha2-512", "sha512")
    yield False, "rsa-sha2-256", named(key, b"rsa-sha2-256", "sha256")
    yield False, "ssh-rsa, SHA-1", named(key, b"ssh-rsa", "sha1")
    yield False, "SHA-256 under the name of SHA-512", named(key, b"rsa-sha2-512", "sha256")
    yield False, "SHA-512 under the name of SHA-256", named(key, b"rsa-sha2-256", "sha512")
    yield False, "SHA-512 under the name ssh-rsa", named(key, b"ssh-rsa", "sha512")
    yield False, "blob named rsa-sha2-512", dict(named(key, b"rsa-sha2-512", "sha512"), blob=string(b"rsa-sha2-512") + key.blob[11:])


def other_types(keys, own):
    """Keys of the types that were not chosen, whose signatures hold."""
    for name, key in keys.items():
        if name not in own:
            yield False, f"a key and a signature of {name}", dict(signer=key)


def play(host_key, how):
    how = dict(how)
    search = how.pop("leading_zero", False)

    def session(p, rng):
        p.greet(kexinit(KEX, host_key))
        payload = p.reply(**how)
        while search and how["signer"].body(p.h, "sha256")[0] != 0:  # another S, until the signature's first byte is 0
            secret = rng.randbytes(32)
            payload = p.reply(**how, secret=secret, s=x25519(secret, BASE_U))
        p.must = FAULT, 18
        p.send(packet(payload) + packet(bytes([NEWKEYS])))
        p.read()
    return session


def all_forms(programs, dock):
    small = programs.path("small")
    if not os.path.exists(small):
        subprocess.run(["ssh-keygen", "-q", "-t", "rsa", "-b", "1024", "-N", "", "-C", "", "-f", small], check=True)
    rsa = Rsa.of_file(programs.key("rsa-sha2-256"))
    others = {"ssh-ed25519": SIGNER, "ecdsa-sha2-nistp256": Ecdsa(b"seed"), "rsa-sha2-256": rsa}
    groups = [(b"ssh-ed25519", ed25519_forms()), (b"ecdsa-sha2-nistp256", ecdsa_forms()), (b"rsa-sha2-512", rsa_512_forms(rsa)),
              (b"rsa-sha2-256", rsa_forms(rsa, Rsa(*ODD_PRIMES), Rsa.of_file(small)))]
    groups += [(name.encode(), other_types(others, own)) for name, own in (
        ("ssh-ed25519", ("ssh-ed25519",)), ("ecdsa-sha2-nistp256", ("ecdsa-sha2-nistp256",)), ("ecdsa-sha2-nistp384", ()),
        ("rsa-sha2-256", ("rsa-sha2-256",)), ("rsa-sha2-512", ("rsa-sha2-256",)))]
    count = 0
    with socket.create_server(("127.0.0.1", 0)) as listener:
        listener.settimeout(60)
        for host_key, forms in groups:
            for holds, name, how in forms:
                try:
                    p, code, out, err = against_client(dock, play(host_key, how), Turn("forms", 0), listener, "--no-service")
                    if holds:
                        need(code == 0 and f"H {p.h.hex()}\n" in out and "NEWKEYS sent and received" in out, "refused:", err.strip())
                    else:
                        judge(p.must, code, out, err, p)
                except (Failure, OSError) as e:
                    raise Failure(f"{host_key.decode()}, {name}: {e}") from None
                count += 1
    return count
