#!/usr/bin/env python3
"""dock against OpenSSH and against hostile peers, over the loopback.

usage: live.py --dock PROGRAM [--dock-asan PROGRAM] [--dock-wrong PROGRAM] [--part TEXT] [--seed TEXT]

Starts sshd and ssh itself, with keys and files in a temporary folder, all on the loopback, and needs both. Prints a line for each part, and takes a minute
on two cores. --dock-asan: a build with sanitizers, which then meets the hostile peers. --dock-wrong: a build with wrong_keys.c, whose keys must fail; without
it those parts are left out. --part: only the parts whose line has TEXT in it, 'known hosts' say. Exits 0 where all passed, 1 with one line at the first failure, 2 where it is called wrongly.
"""
import argparse
import concurrent.futures
import os
import re
import socket
import subprocess
import sys
import tempfile
import time

sys.dont_write_bytecode = True
import asides
import known
import rekey
from forms import all_forms
from hostile import FAULT, OWN, PUBLIC, STRICT, Turn, against_client, against_server, all_sessions, changed_replies, judge, slow_peers
from peer import DEBUG, IGNORE, INIT, NEWKEYS, REPLY, SEALS, UNIMPLEMENTED, kexinit, packet, string
from programs import DIGESTS, METHODS, Dock, Failure, Programs, end_on_signals, logged, need, results, unwarned
from sealed import CIPHERS, MACS, SEALED, longest_word, served

EXTRAS_C, STRICT_C = b",ext-info-c", b",ext-info-c" + STRICT % b"c"
EXTRAS_S, STRICT_S = b",ext-info-s", b",ext-info-s" + STRICT % b"s"
WORDS = bytes([IGNORE]) + string(b""), bytes([DEBUG, 0]) + string(b"text") + string(b""), bytes([UNIMPLEMENTED]) + bytes(4)
CLEAR_WORDS = b"".join(map(packet, WORDS))
OPENSSH = (1, 2, 4, 5, 6)  # the methods that this ssh and sshd have too
ED25519 = "ssh-ed25519"


def one_line(err, *parts):
    need(err.startswith("dock: ") and err.count("\n") == 1 and err.endswith("\n"), f"standard error is not one line: {err!r}")
    need(all(part in err for part in parts), f"{' and '.join(parts)} expected: {err.strip()}")


def completed(answer, method, host_key, x=False):
    """The results of an exchange that must be complete. x: something of X was asked for."""
    code, out, err = answer
    need(code == 0, f"exit {code}: {err.strip()}")
    found = results(out)
    need((unwarned(err) if found.get("known") == "NOT checked" else err) == "", "on standard error:", err.strip())
    need(("X begins" in found) == x, "something of X is printed, or not:", out)
    need(found["method"] == f"{method} {METHODS[method]}", "method", found["method"])
    need(found["host key"].split()[0] == host_key, "host key", found["host key"])
    need(len(found["H"]) == 2 * DIGESTS[method], "H", found["H"])
    return found


# ---- the command line

def header_version():
    with open(os.path.join(os.path.dirname(os.path.abspath(__file__)), "../../include/castulfrisa.h")) as f:
        return re.search(r"^#define CASTULFRISA_VERSION (\d+)$", f.read(), re.M)[1]


def command_line(programs, dock):
    texts = [dock.run(*words) for words in (["--help"], ["-h"], ["client", "-h"], ["server", "1", "--help"])]
    code, out, err = texts[0]
    need(code == 0 and out.startswith("usage: dock ") and err == "" and texts == [texts[0]] * len(texts), "--help")
    code, said, err = dock.run("--version")
    need(code == 0 and err == "" and re.fullmatch(rf"dock, castulfrisa {header_version()} \(OpenSSL \d[^()\n]*\)\n", said), "--version:", said)
    hybrids = all(METHODS[method] in out for method in (7, 8, 9))
    need(hybrids != ("no hybrids: this libcrypto has no ML-KEM" in out), "--help on hybrids:", out)
    server = "server", "0", "--host-key", programs.key(ED25519)  # all that it needs
    wrong = [(), ("neither",), ("client",), ("client", "h"), ("client", "h", "0"), ("client", "h", "65536"), ("client", "h", "1x"),
             ("server",), ("server", "0"), ("client", "h", "1", "more"), ("client", "h", "1", "--methods", "curve25519-sha256,"),
             ("client", "h", "1", "--methods", "diffie-hellman-group14-sha256"), ("client", "h", "1", "--host-keys", "ssh-dss"),
             ("client", "h", "1", "--count", "1"), ("client", "h", "1", "--timeout", "0"), ("client", "h", "1", "--timeout"),
             (*server, "--x-begins", "0"), (*server, "--x-begins", "00zz"), (*server, "--known-hosts", "f"),
             ("client", "h", "1", "--ciphers", "aes192-ctr"), ("client", "h", "1", "--ciphers", ""), (*server, "--ciphers", "aes128-ctr/"),
             ("client", "h", "1", "--rekey", "x"), ("client", "h", "1", "--turns", "curve25519-sha256,,"), ("client", "h", "1", "--echo"),
             ("client", "h", "1", "--key", programs.key("ssh-ed25519")), ("client", "h", "1", "--rekeyed", "1"), (*server, "--login", "user"),
             ("client", "h", "1", "--macs", "hmac-sha1"), ("client", "h", "1", "--macs", "hmac-sha2-256/hmac-sha2-512/hmac-sha2-512"),
             ("client", "h", "1", "--insecure", "--known-hosts", os.devnull), ("client", "h", "1", "--known-hosts", os.devnull, "--insecure"),
             ("client", "h", "1", "--listen", "127.0.0.1"), (*server, "--insecure"), (*server, "--listen", "localhost"), (*server, "--listen", ""),
             (*server, "--listen", "127.1"), (*server, "--listen", "::1%lo"),
             ("client", "h", "1", "--x-begins", "00"), ("client", "h", "1", "--known-hosts", os.devnull, "--known-hosts", os.devnull)]
    if not hybrids:
        wrong += [("client", "h", "1", "--methods", METHODS[method]) for method in (7, 8, 9)]
    for arguments in wrong:
        code, out, err = dock.run(*arguments)
        need(code == 2 and out == "", "exit", code, "of", arguments)
        one_line(err)
    nobody = programs.path("nobody")
    empty = programs.write("empty", "")
    failing = [("client", "127.0.0.1", 1), ("client", "127.0.0.1", 1, "--known-hosts", nobody), ("server", 0, "--host-key", nobody),
               ("server", 0, "--host-key", empty), ("server", 0, "--host-key", programs.key("ssh-ed25519") + ".pub"),
               ("server", 0, "--host-key", programs.key("ssh-ed25519"), "--listen", "192.0.2.1"), ("client", "h" * 300, 1, "--known-hosts", empty)]
    for arguments in failing:
        code, out, err = dock.run(*arguments)
        need(code == 1 and out == "", "exit", code, "of", arguments)
        one_line(err)
    return f"{len(wrong) + len(failing)} refused command lines"


# ---- 1: client against sshd

def shown(out):
    """The lines of --show hold together: the room's filling is the sum of what went in."""
    line = {}
    for text in out.splitlines():
        m = re.fullmatch(r"(->|<-|  ) (\w+(?: to \w+)?) +(?:(\d+) bytes)?(?: +number (\d+))?(?:  room (\d+) of 14156)?", text)
        if m:
            line[m[1].strip() + m[2]] = [None if g is None else int(g) for g in m.groups()[2:]]
    need(set(line) == {"->version", "<-version", "->KEXINIT", "<-KEXINIT", "start", "->INIT", "<-REPLY", "secret", "verdict", "keys to server",
                       "keys to client", "->NEWKEYS", "<-NEWKEYS", "->SERVICE_REQUEST", "<-SERVICE_ACCEPT", "->DISCONNECT"},
         "--show has other lines:", sorted(line))
    strings = line["->version"][0] + line["<-version"][0] - 4 + line["->KEXINIT"][0] + line["<-KEXINIT"][0] + 16
    need(line["start"][1:] == [0, strings], "--show: start", line["start"])
    need(line["->INIT"] == [37, 0, strings + 36], "--show: INIT", line["->INIT"])
    need(line["<-REPLY"][1:] == [0, strings + 36 + 55 + 36], "--show: REPLY", line["<-REPLY"])
    need(line["secret"][1] == 0 and 0 < line["secret"][2] - line["<-REPLY"][2] <= 37, "--show: secret", line["secret"])
    need(line["->SERVICE_REQUEST"] == line["<-SERVICE_ACCEPT"] == [17, None, None], "--show: service", line["<-SERVICE_ACCEPT"])


def as_client(programs, dock, port):
    trusting = "--known-hosts", programs.known(port)
    pairs = [(1, "ssh-ed25519"), (2, "ecdsa-sha2-nistp256"), (4, "ecdsa-sha2-nistp384"), (5, "ecdsa-sha2-nistp521"), (6, "rsa-sha2-256"),
             (1, "rsa-sha2-512"), (4, "ssh-ed25519")]
    for method, host_key in pairs:
        answer = dock.run("client", "127.0.0.1", port, *trusting, "--methods", METHODS[method], "--host-keys", host_key)
        found = completed(answer, method, host_key)
        need(found["host key"] == f"{host_key} {programs.fingerprint(host_key)}", "fingerprint", found["host key"])
        need(found["known"] == "yes", "known", found["known"])

    answer = dock.run("client", "127.0.0.1", port, *trusting, "--methods", METHODS[1], "--show", "--show-x")
    completed(answer, 1, "ssh-ed25519", x=True)
    shown(answer[1])
    return f"{len(pairs) + 1} exchanges"


# ---- 2 and 3: server for ssh

def serve(programs, dock, method, host_key, file, *options, **of_ssh):
    """One connection for ssh: dock's answer, and what ssh says."""
    process, port = dock.serve("--host-key", file, *options)
    err = programs.ssh(port, method, host_key, programs.known(port, host_key), **of_ssh)[2]
    return dock.end(process), err


def serve_ssh(programs, dock, method, host_key, file, *options, **of_ssh):
    answer, err = serve(programs, dock, method, host_key, file, *options, **of_ssh)
    need(answer[0] == 0, f"method {method}, {host_key}: {answer[2].strip()} (ssh: {err.strip()})")
    need(":11: the service is accepted" in err, f"ssh does not read the DISCONNECT behind SERVICE_ACCEPT: {err.strip()}")
    found = completed(answer, method, host_key, x="--x-begins" in options)
    need(found["host key"].split()[1] == programs.fingerprint(host_key), "fingerprint", found["host key"])
    return found


def as_server(programs, dock):
    cases = [(1, "ssh-ed25519", programs.key), (2, "ecdsa-sha2-nistp256", programs.pem), (4, "ecdsa-sha2-nistp384", programs.key),
             (5, "ecdsa-sha2-nistp521", programs.pem), (6, "rsa-sha2-256", programs.pem), (1, "rsa-sha2-512", programs.key),
             (4, "ssh-ed25519", programs.pem), (5, "ecdsa-sha2-nistp256", programs.key), (6, "ecdsa-sha2-nistp521", programs.key)]
    for method, host_key, file in cases:
        serve_ssh(programs, dock, method, host_key, file(host_key))

    # two connections of one server with two keys; and dock with dock, in the method that this ssh does not have
    process, port = dock.serve("--host-key", programs.key("ssh-ed25519"), "--host-key", programs.key("rsa-sha2-512"), "--count", 2)
    for method, host_key in ((3, "rsa-sha2-256"), (6, "ssh-ed25519")):
        options = "--known-hosts", programs.known(port), "--methods", METHODS[method], "--host-keys", host_key
        completed(dock.run("client", "127.0.0.1", port, *options), method, host_key)
    code, out, err = dock.end(process)
    need(code == 0 and out.count("NEWKEYS sent and received") == 2 and out.count("service") == 2, "two connections of one server:", err.strip())

    # NEWKEYS is the end where that is asked for
    process, port = dock.serve("--host-key", programs.key(ED25519), "--no-service")
    for code, out, err in (dock.run("client", "127.0.0.1", port, "--known-hosts", programs.known(port), "--no-service"), dock.end(process)):
        need(code == 0 and err == "", "--no-service:", err.strip())
        results(out, service=False)
    return f"{len(cases)} exchanges with ssh, 3 with dock"


BEGINNINGS = [(method, begins) for begins in ("0080", "007f", "80", "7f") for method in (1, 4)]


def x_begins(programs, dock, method, begins):
    options = "--methods", METHODS[method], "--x-begins", begins
    found = serve_ssh(programs, dock, method, "ssh-ed25519", programs.key("ssh-ed25519"), *options)
    need(found["X begins"].startswith(begins), f"X begins {found['X begins']} and not {begins}")


# ---- 4: hostile peers

def hostile_peers(programs, dock, seed, sshd):
    key = programs.key("ssh-ed25519")
    alone = all_sessions(dock, seed, key) + slow_peers(dock, key)
    behind = all_sessions(dock, seed, key, SEALED, SEALED)
    forms = all_forms(programs, dock)
    return (f"{alone} sessions, {behind} behind NEWKEYS or strict, {changed_replies(dock, seed, sshd)} in between sshd, "
            f"{forms} forms of host key and signature")


# ---- 5: guesses and words in between, with H and the keys computed here

def client_play(kex, host_keys, follows, guess, before=b"", version=OWN + b"\r\n", seals=SEALS, ahead=()):
    """A client that is right in the end; guess: what it sends at once behind its KEXINIT; ahead: what it says ahead of SERVICE_REQUEST."""
    def play(p, rng):
        p.i_c = kexinit(kex, host_keys, follows, seals=seals)
        p.send(version)
        p.send_packets(before + packet(p.i_c) + guess)
        p.v_s, p.i_s = p.version(), p.read()
        if guess != packet(bytes([INIT]) + string(PUBLIC)):
            p.send_packets(before + packet(bytes([INIT]) + string(PUBLIC)))
        reply = p.read()
        if reply[:1] != bytes([REPLY]):
            return
        p.take(reply, version.rstrip(b"\r\n"))
        p.send_packets(before + packet(bytes([NEWKEYS])))
        p.read()
        served(p, seals, p.strict_name in kex, *ahead)
    return play


def server_play(kex, host_keys, follows, guess, before=b"", version=OWN + b"\r\n", seals=SEALS, ahead=()):
    def play(p, rng):
        p.i_s = kexinit(kex, host_keys, follows, seals=seals)
        p.send(version)
        p.send_packets(before + packet(p.i_s) + guess + before)
        p.v_c, p.i_c = p.version(), p.read()
        p.c = p.read()[5:]
        p.send_packets(before + packet(p.reply()) + before + packet(bytes([NEWKEYS])))
        p.holds = True
        p.read()
        served(p, seals, p.strict_name in kex, *ahead)
    return play


def guesses(programs, dock):
    first, second, ed25519 = b"curve25519-sha256", b"curve25519-sha256@libssh.org", b"ssh-ed25519"
    right = packet(bytes([INIT]) + string(PUBLIC))
    wrong = packet(bytes([INIT]) + string(bytes(31) + b"\1"))
    junk = packet(b"\x22" + bytes(50))  # of another method
    etm, plain, etm_512, plain_512 = ([(cipher, mac)] * 2 for cipher, mac in zip(CIPHERS + CIPHERS[::-1], MACS))
    clients = [
        (2, client_play(second + b"," + first + STRICT_C, ed25519, True, wrong, seals=etm)),
        (2, client_play(second + b"," + first + EXTRAS_C, ed25519, True, CLEAR_WORDS + junk, before=CLEAR_WORDS, seals=plain, ahead=WORDS)),
        (1, client_play(first + STRICT_C, ed25519, True, right, seals=etm_512, ahead=WORDS)),
        (1, client_play(first + b"," + second, b"rsa-sha2-256," + ed25519, True, wrong, before=CLEAR_WORDS, seals=plain_512)),
        (1, client_play(b"sntrup761x25519-sha512@openssh.com," + first + EXTRAS_C, ed25519, False, b"", before=CLEAR_WORDS, seals=etm)),
        (1, client_play(b"ext-info-c," + first, ed25519, True, wrong, seals=etm_512, ahead=WORDS)),
        (1, client_play(first, ed25519, False, b"", version=b"SSH-1.99-" + b"v" * 244 + b"\n")),
        (1, client_play(STRICT_C[1:] + b"," + first, ed25519, False, b"", seals=plain_512, ahead=[longest_word])),
    ]
    servers = [
        (1, server_play(second + b"," + first + STRICT_S, ed25519, True, junk, seals=etm, ahead=[longest_word])),
        (1, server_play(second + b"," + first + EXTRAS_S, ed25519, True, packet(bytes([REPLY]) + bytes(40)), before=CLEAR_WORDS, seals=plain)),
        (1, server_play(first + EXTRAS_S, ed25519, True, b"", before=CLEAR_WORDS, seals=etm_512, ahead=WORDS)),
        (1, server_play(STRICT_S[1:] + b"," + first, ed25519, False, b"", seals=plain_512, ahead=WORDS)),
        (2, server_play(b"other," + second + STRICT_S, ed25519, False, b"",
                        version=b"welcome\r\n\nSSHx\n" + b"l" * 5000 + b"\n" + OWN + b"\n")),
    ]
    rng = Turn("guesses", 0)
    with socket.create_server(("127.0.0.1", 0)) as listener:
        listener.settimeout(60)
        for i, (method, play) in enumerate(clients + servers):
            try:
                if i < len(clients):
                    p, *answer = against_server(dock, play, rng, "--show-x", "--host-key", programs.key("ssh-ed25519"))
                else:
                    p, *answer = against_client(dock, play, rng, listener, "--show-x", "--host-keys", "ssh-ed25519,rsa-sha2-256")
                found = completed(answer, method, "ssh-ed25519", x=True)
                need(found["H"] == p.h.hex(), "H", found["H"], "and not", p.h.hex())
                need(found["X begins"] == p.x[:2].hex(), "X begins", found["X begins"])
                need(p.holds, "the signature does not hold")
                need(p.done, "it ended before its good-bye")
            except Failure as e:
                raise Failure(f"guess {i}: {e}") from None

        # a guess is dropped once: the next bad packet is judged; a right guess is not dropped; and a strict exchange takes no words at all
        strict = "within a strict key exchange"
        refused = [(11, client_play(second + b"," + first, ed25519, True, wrong + junk)), (11, client_play(first, ed25519, True, junk)),
                   (11, client_play(second + b"," + first, ed25519, True, packet(b"\xff"))),  # which is no guess
                   (strict, client_play(second + b"," + first + STRICT_C, ed25519, True, CLEAR_WORDS + junk)),
                   (strict, client_play(second + b"," + first + STRICT_C, ed25519, True, wrong + CLEAR_WORDS))]
        for said, play in refused:
            p, code, out, err = against_server(dock, play, rng, "--host-key", programs.key("ssh-ed25519"))
            judge((FAULT, said), code, out, err, p)
    return f"{len(clients)} as server, {len(servers)} as client, {len(refused)} refused"


# ---- 6: behind NEWKEYS, with OpenSSH

def seal_options(pair):
    """pair: cipher and MAC to the server, and to the client."""
    return "--ciphers", "/".join(cipher for cipher, _ in pair), "--macs", "/".join(mac for _, mac in pair)


def chosen(found, pair, strict):
    need((found["to server"], found["to client"]) == tuple(map(" ".join, pair)), "cipher and MAC:", found["to server"], found["to client"])
    need(found["strict"] == ("yes" if strict else "no"), "strict", found["strict"])


def sealed_packets(programs, dock, port):
    """Every method, with each cipher and each MAC in each direction, counted anew at NEWKEYS and not."""
    ciphers, macs = [name.decode() for name in CIPHERS], [name.decode() for name in MACS]
    pairs = [((ciphers[i % 2], macs[i]), (ciphers[i // 2], macs[(i + 1) % 4])) for i in range(4)]
    since, count, key = len(programs.log()), 0, programs.key(ED25519)
    run = "client", "127.0.0.1", port, "--known-hosts", programs.known(port), "--host-keys", ED25519
    for i, method in enumerate(OPENSSH):
        for j, pair in enumerate(pairs):
            strict = (i + j) % 3 != 0
            options = "--methods", METHODS[method], *seal_options(pair), *([] if strict else ["--no-strict"])
            chosen(completed(dock.run(*run, *options), method, ED25519), pair, strict)
            chosen(serve_ssh(programs, dock, method, ED25519, key, *options), pair, strict)
            count += 1

    # the client's order counts, also where it is not dock's
    ciphers, macs = ",".join(ciphers[::-1]), ",".join(macs[::-1])
    pair = (("aes128-ctr", "hmac-sha2-512"),) * 2
    chosen(completed(dock.run(*run, "--ciphers", ciphers, "--macs", macs), 1, ED25519), pair, True)
    chosen(serve_ssh(programs, dock, 1, ED25519, key, Ciphers=ciphers, MACs=macs), pair, True)
    logged(programs, ":11: the service was accepted", since, count + 1)
    return f"{count + 1} exchanges with sshd, {count + 1} with ssh"


# ---- 7: wrong keys

def wrong_keys(programs, dock, port):
    """One key of the other direction's letter; K without its length, or with a zero too many. Who is to open a packet with it fails."""
    plain, etm = [(("aes256-ctr", mac),) * 2 for mac in ("hmac-sha2-256", "hmac-sha2-512-etm@openssh.com")]
    # A cipher's key is noticed by the MAC where that is over the plaintext.
    cases = [(how, pair) for how in ("right", "E", "F", "no-length", "lead-zero") for pair in (plain, etm)] + [(how, plain) for how in "ABCD"]
    count = 0
    for how, pair in cases:
        of_stream = pair == plain and how not in "EF"  # the length is among what does not open
        here, there = ("packet length", "Bad packet length") if of_stream else ("the MAC of packet 0 does not hold", "Corrupted MAC on input")
        wrong = dock.with_env(DOCK_KEYS=how)
        for serves in (False, True):
            since = len(programs.log())
            if serves:
                (code, out, err), of_ssh = serve(programs, wrong, 1, ED25519, programs.key(ED25519), *seal_options(pair))
            else:
                code, out, err = wrong.run("client", "127.0.0.1", port, "--known-hosts", programs.known(port), "--methods", METHODS[1], "--host-keys",
                                           ED25519, *seal_options(pair))
            going, coming = how in ("BDF" if serves else "ACE"), how in ("ACE" if serves else "BDF")
            try:
                if how == "right":
                    completed((code, out, err), 1, ED25519)
                elif serves and going:  # ours is the last packet: only ssh can tell
                    need(code == 0, f"exit {code}: {err.strip()}")
                else:
                    need(code == 1 and "NEWKEYS sent" in out and "service" not in out, f"exit {code}: {out}")
                    one_line(err, here if serves or coming else "the peer closed the connection")
                peer = ":11: the service" if how == "right" else ":5: packet corrupt" if coming else there
                if serves:
                    need(peer in of_ssh, f"'{peer}' expected of ssh: {of_ssh.strip()}")
                else:
                    logged(programs, peer, since)
            except Failure as e:
                raise Failure(f"{how}, {pair[0][1]}, as {'server' if serves else 'client'}: {e}") from None
            count += how != "right"
    return f"{count} exchanges that fail"


# ---- all

DRAWN = "X that begins 0080, 007f, 80, 7f"


def part(name, work, *arguments, of="live"):
    began = time.monotonic()
    try:
        said = work(*arguments)
    except (Failure, OSError, subprocess.SubprocessError) as e:
        raise Failure(f"{name}: {e}") from None
    print(f"{of}: {name}: {said} ({time.monotonic() - began:.1f} s)", flush=True)


def main():
    options = argparse.ArgumentParser(description=__doc__, formatter_class=argparse.RawDescriptionHelpFormatter)
    options.add_argument("--dock", required=True)
    options.add_argument("--dock-asan")
    options.add_argument("--dock-wrong")
    options.add_argument("--part", default="", help="only those with this in their line")
    options.add_argument("--seed", default="live", help="of the hostile peers")
    options = options.parse_args()
    ran = []

    def run(name, work, *arguments):
        if options.part in name:
            ran.append(name)
            part(name, work, *arguments)

    began = time.monotonic()
    end_on_signals()

    with tempfile.TemporaryDirectory(prefix="live-") as folder:
        programs = Programs(folder)
        try:
            dock = Dock(programs, options.dock)
            programs.make_keys()
            sshd = programs.sshd()
            # Two bytes of X take some 65,536 draws: they are drawn while the other parts run.
            with concurrent.futures.ThreadPoolExecutor(2) as drawing:
                draws = [drawing.submit(x_begins, programs, dock, *case) for case in BEGINNINGS if options.part in DRAWN]
                try:
                    run("command line", command_line, programs, dock)
                    run("client against sshd", as_client, programs, dock, sshd)
                    run("server for ssh", as_server, programs, dock)
                    run("guessed packets", guesses, programs, dock)
                    run("where a server listens", known.listening, programs, dock)
                    run("first contact", known.first_contact, programs, dock, sshd)
                    run("preferred host keys", known.preferred, programs, dock, sshd)
                    run("sealed packets", sealed_packets, programs, dock, sshd)
                    run("later exchanges with OpenSSH", rekey.with_openssh, programs, dock)
                    if options.dock_wrong:
                        wrong = Dock(programs, options.dock_wrong)
                        run("wrong keys", wrong_keys, programs, wrong, sshd)
                        run("keys of another identifier", rekey.wrong_identifiers, programs, wrong)
                    checked, how = (Dock(programs, options.dock_asan), ", under the sanitizers") if options.dock_asan else (dock, "")
                    run(f"known hosts{how}", known.known_lines, programs, dock, checked, sshd)
                    run("known hosts at port 22", known.default_port, programs, dock)
                    run(f"words at any time{how}", asides.in_both_roles, programs, checked)
                    run(f"exact peers in later exchanges{how}", rekey.exact_peers, programs, checked)
                    run(f"hostile peers in later exchanges{how}", rekey.hostile_peers, programs, checked, options.seed)
                    run(f"hostile peers{how}", hostile_peers, programs, checked, options.seed, sshd)
                    for (method, begins), draw in zip(BEGINNINGS, draws):
                        try:
                            draw.result()
                        except (Failure, OSError, subprocess.SubprocessError) as e:
                            raise Failure(f"X begins {begins}, method {method}: {e}") from None
                    if draws:
                        ran.append(DRAWN)
                        print(f"live: {DRAWN}: {len(draws)} exchanges with ssh ({time.monotonic() - began:.1f} s)")
                    need(ran, f"no part has '{options.part}' in its line")
                except BaseException:
                    for draw in draws:
                        draw.cancel()
                    programs.stop_all()
                    raise
        except (Failure, OSError, subprocess.SubprocessError) as e:
            print(f"live: FAILED: {e}", file=sys.stderr)
            return 1
        finally:
            programs.stop_all()
    print(f"live: {f'{len(ran)} of the parts' if options.part else 'all'} passed in {time.monotonic() - began:.1f} s")
    return 0


if __name__ == "__main__":
    sys.exit(main())
