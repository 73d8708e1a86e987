#!/usr/bin/env python3
"""dock in methods 7 to 9 with programs of other hands, over the loopback: OpenSSH (9), PuTTY's plink (7 to 9, as client) and libssh (7 to 9), and with
itself.

usage: hybrids.py --dock PROGRAM --suite FOLDER --libssh FOLDER --peer PROGRAM

--suite: Debian's OpenSSH, PuTTY and the libcrypto that dock runs with; --libssh: Debian's libssh, which --peer (libssh_peer.c) runs with; both as
tests/suite.sh leaves them (`make hybrids`). Prints a line for each part. Exits 0 where all passed, 1 with one line at the first failure, 2 where it is
called wrongly.
"""
import argparse
import os
import subprocess
import sys
import tempfile

sys.dont_write_bytecode = True
import rekey
from hostile import FAULT, LOW_ORDER, PUBLIC, Turn, against_server, changed_replies, init_of, judge
from live import completed, part, serve_ssh
from peer import Ecdsa
from programs import METHODS, Dock, Failure, Programs, Unpacked, end_on_signals, free_port, later_exchanges, need

HYBRIDS = (7, 8, 9)
ED25519 = "ssh-ed25519"
TIMES = 10  # of dock with dock, in each method
LONG_KEYS = "--macs", "hmac-sha2-512/hmac-sha2-512-etm@openssh.com"  # of 64 bytes, which take a second hash in each of methods 7 to 9


LATER = 6  # exchanges behind the first, for each side to ask for
WAYS = [(9, (6, 9, 1), ()), (6, (9, 5), ("--no-strict",))]  # as rekey.WAYS
TURNS = 8, 9, 7


def again(answer, method):
    """How many later exchanges there were, behind the service, with no data."""
    code, out, err = answer
    need(code == 0 and err == "", f"exit {code}: {err.strip()}")
    rest, later = later_exchanges(out)
    completed((0, rest, ""), method, ED25519)
    need([x.method for x in later] == list(TURNS) * (LATER // len(TURNS)) and all(x.by == "us" for x in later), "later exchanges are others:", out)
    return len(later)


def command_line(programs, dock):
    code, out, err = dock.run("--help")
    need(code == 0 and err == "" and all(METHODS[method] in out for method in HYBRIDS), "--help has no hybrids:", out, err)
    return "--help has them"


def with_sshd(programs, dock, port):
    """9 with every kind of host key; and 9 where nothing is asked, because both sides prefer it."""
    run = "client", "127.0.0.1", port, "--known-hosts", programs.known(port)
    host_keys = (ED25519, "ecdsa-sha2-nistp256", "ecdsa-sha2-nistp384", "ecdsa-sha2-nistp521", "rsa-sha2-256", "rsa-sha2-512")
    for host_key in host_keys:
        answer = dock.run(*run, "--methods", METHODS[9], "--host-keys", host_key)
        need(completed(answer, 9, host_key)["known"] == "yes", "known")
    completed(dock.run(*run, "--host-keys", ED25519, *LONG_KEYS), 9, ED25519)
    changed = changed_replies(dock, "hybrids", port, times=24, pairs=[(9, ED25519)])
    allowed, options = programs.login(ED25519)
    limited = programs.sshd([*allowed, "RekeyLimit 16"], "sshd_16")
    later = [rekey.as_client(dock, limited, way, options, "--rekey", LATER, "--rekeyed", LATER)[0] for way in WAYS]
    return f"{len(host_keys) + 1} exchanges, {changed - 1} changed replies refused, {sum(map(len, later))} later exchanges in {len(later)} connections"


def with_ssh(programs, dock):
    for host_key, options in ((ED25519, LONG_KEYS), ("ecdsa-sha2-nistp256", ()), ("rsa-sha2-512", ())):
        serve_ssh(programs, dock, 9, host_key, programs.key(host_key), *options)
    later = [rekey.as_server(programs, dock, way, 10000, "--rekey", LATER, RekeyLimit="1K")[0] for way in WAYS]
    need(all(len(found) > LATER for found in later), "ssh asked for no exchange")
    return f"3 exchanges, and {sum(map(len, later))} later ones in {len(later)} connections"


def with_plink(programs, dock, suite):
    """plink takes what a server offers of its methods: the server has one. It goes no further than the first service, and says so."""
    plink = [*suite.command("usr/bin/plink"), "-ssh", "-batch", "-noagent", "-hostkey", programs.fingerprint(ED25519), "-l", "nobody"]
    env, later = dict(os.environ, HOME=programs.folder), 0
    for method in HYBRIDS:
        process, port = dock.serve("--host-key", programs.key(ED25519), "--methods", METHODS[method], *LONG_KEYS, "--rekey", LATER, "--turns",
                                   rekey.names(TURNS))
        code, out, err = programs.run([*plink, "-P", str(port), "127.0.0.1", "true"], env=env)
        answer = dock.end(process)
        need(answer[0] == 0, f"method {method}: {answer[2].strip()} (plink: {err.strip()})")
        need("the service is accepted" in err, f"method {method}: plink does not read the DISCONNECT behind SERVICE_ACCEPT: {err.strip()}")
        later += again(answer, method)
    return f"an exchange in each of methods 7 to 9, and {later} later ones"


def with_libssh(programs, dock, peer):
    for method in HYBRIDS:
        port = free_port()
        process = programs.start([*peer, "server", str(port), METHODS[method], programs.key(ED25519)], stdout=subprocess.PIPE,
                                 stderr=subprocess.PIPE)
        need(process.stdout.readline() == b"listening\n", "libssh does not listen")
        options = "--known-hosts", programs.known(port, ED25519), "--methods", METHODS[method], *LONG_KEYS
        found = completed(dock.run("client", "127.0.0.1", port, *options), method, ED25519)
        need(found["known"] == "yes", "known", found["known"])
        err = process.communicate(timeout=60)[1].decode("ascii", "replace")
        programs.finished(process)
        need(process.returncode == 0, f"method {method}, libssh as server: {err.strip()}")

        process, port = dock.serve("--host-key", programs.key(ED25519), "--methods", METHODS[method], *LONG_KEYS)
        code, out, err = programs.run([*peer, "client", str(port), METHODS[method]])
        answer = dock.end(process)
        need(answer[0] == 0 and code == 0, f"method {method}, libssh as client: {answer[2].strip()} {err.strip()}")
        completed(answer, method, ED25519)
    return "an exchange in each of methods 7 to 9, as client and as server"


def with_dock(programs, dock):
    """Both sides have the same H."""
    later = 0
    for method in HYBRIDS:
        process, port = dock.serve("--host-key", programs.key(ED25519), "--count", TIMES)
        run, own = ("client", "127.0.0.1", port, "--known-hosts", programs.known(port), "--methods", METHODS[method]), []
        for _ in range(TIMES):
            own.append(completed(dock.run(*run), method, ED25519)["H"])
        code, out, err = dock.end(process)
        need(code == 0, f"method {method}: {err.strip()}")
        theirs = [line[2:] for line in out.splitlines() if line.startswith("H ")]
        need(own == theirs and len(set(own)) == TIMES, f"method {method}: H is {own} and {theirs}")

        process, port = dock.serve("--host-key", programs.key(ED25519), "--echo")
        own = rekey.as_client(dock, port, (method, TURNS, ()), ["--login", "nobody"], "--rekey", LATER, by="us")[0]
        code, out, err = dock.end(process)
        need(code == 0 and [x.h for x in own] == [x.h for x in later_exchanges(out)[1]], f"method {method}: H of later exchanges differ: {err.strip()}")
        later += len(own)
    return f"{TIMES} exchanges in each of methods 7 to 9, and {later} later ones"


P256 = Ecdsa(b"seed").point
# the base point of P-384 (SEC 2, 2.5.1)
P384 = bytes.fromhex("04aa87ca22be8b05378eb1c71ef320ad746e1d3b628ba79b9859f741e082542a385502f25dbf55296c3a545e3872760ab7"
                     "3617de4a96262c6f5d9e98bf9292dc29f8f41dbd289a147ce9da3113b5f0b8c00a60b1ce1d7e819d7a431d7c90ea0e5f")


def hostile_clients(programs, dock):
    """Of a KEM key of ff no number is below 3,329, so that it is none (FIPS 203, 7.2); one of zeros is one. 16 comes ahead of 17, and also where the KEM
    is done."""
    cases = []
    for method, kem_len, point in ((7, 1184, P256), (8, 1568, P384), (9, 1184, PUBLIC)):
        bad, good = b"\xff" * kem_len, bytes(kem_len)
        off = LOW_ORDER[0] if method == 9 else point[:-1] + bytes([point[-1] ^ 1])
        cases += [(method, bad + point, 17), (method, bad + off, 16), (method, good + off, 16), (method, good + point + b"\0", 14),
                  (method, good, 14), (method, point, 14)]
        if method != 9:  # the point ahead of the key: its first byte does not stand where it must
            cases.append((method, point + good, 15))
    for method, c, number in cases:
        play = init_of(lambda rng: c, number, METHODS[method].encode())
        p, code, out, err = against_server(dock, play, Turn("hybrids", 0), "--host-key", programs.key(ED25519))
        try:
            need(p.must == (FAULT, number), "no INIT was due")
            judge(p.must, code, out, err, p)
        except Failure as e:
            raise Failure(f"method {method}, C {c[:8].hex()}.. of {len(c)} bytes: {e}") from None
    return f"{len(cases)} values of C refused"


def main():
    options = argparse.ArgumentParser(description=__doc__, formatter_class=argparse.RawDescriptionHelpFormatter)
    for name in ("dock", "suite", "libssh", "peer"):
        options.add_argument(f"--{name}", required=True)
    options = options.parse_args()
    end_on_signals()
    with tempfile.TemporaryDirectory(prefix="hybrids-") as folder:
        programs = None
        try:
            suite, libssh = Unpacked(options.suite), Unpacked(options.libssh)
            programs = Programs(folder, suite)
            dock = Dock(programs, options.dock, suite)
            peer = libssh.command(os.path.abspath(options.peer))
            versions = [programs.ssh_version().split(",")[0], programs.run([*suite.command("usr/bin/plink"), "-V"])[1].split("\n")[0],
                        "libssh " + programs.run([*peer, "version"])[1].strip()]
            print(f"hybrids: {', '.join(versions)}", flush=True)
            programs.make_keys()
            sshd = programs.sshd()
            for name, work, *more in (
                    ("command line", command_line), ("client against sshd, method 9", with_sshd, sshd), ("server for ssh, method 9", with_ssh),
                    ("server for plink", with_plink, suite), ("libssh", with_libssh, peer), ("dock with dock", with_dock),
                    ("hostile clients", hostile_clients)):
                part(name, work, programs, dock, *more, of="hybrids")
        except (Failure, OSError, subprocess.SubprocessError) as e:
            print(f"hybrids: FAILED: {e}", file=sys.stderr)
            return 1
        finally:
            if programs:
                programs.stop_all()
    return 0


if __name__ == "__main__":
    sys.exit(main())
