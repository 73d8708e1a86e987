#!/usr/bin/env python3
"""Many exchanges: of dock's client with one sshd, methods 1 and 4 in turn, a connection each; and in one connection with sshd and with ssh, asked for
by either side between data, five methods in turn.

usage: soak.py --dock PROGRAM [--count N] [--later N] [--workers N]

Every exchange must be completed: a K with a zero too many or too few makes another H, and the server's signature fails. Counts the
X that begin with 00, which are the ones where that is decided. In one connection the identifier must stay the first H, and all data must come
back. Starts sshd and ssh itself. Exits 0 where all passed, 1 with one line at the first failure, 2 where it is called wrongly.
"""
import argparse
import collections
import concurrent.futures
import subprocess
import sys
import tempfile
import time

sys.dont_write_bytecode = True
import rekey
from programs import METHODS, Dock, Failure, Programs, end_on_signals, need, results

SHOWN_EVERY = 250


def exchange(dock, port, known, method):
    options = "--known-hosts", known, "--methods", METHODS[method], "--host-keys", "ssh-ed25519", "--show-x"
    code, out, err = dock.run("client", "127.0.0.1", port, *options)
    need(code == 0 and err == "", f"method {method}: exit {code}: {err.strip()}")
    found = results(out)
    need(found["method"] == f"{method} {METHODS[method]}" and found["known"] == "yes" and "X begins" in found, "other results:", out)
    return method, bytes.fromhex(found["X begins"])


def soak(programs, dock, count, workers):
    programs.make_keys()
    port = programs.sshd(["LogLevel ERROR"])
    known = programs.known(port, "ssh-ed25519")
    seen, began = collections.Counter(), time.monotonic()

    def line(done):
        rate = done / (time.monotonic() - began)
        zeros = ", ".join(f"method {m}: {seen[m, '00 low']} low and {seen[m, '00 high']} high behind it" for m in (1, 4))
        return f"soak: {done} of {count} exchanges, X begins 00 in {seen['00']} ({zeros}), 80 to ff in {seen['high']}; {rate:.0f} a second"

    with concurrent.futures.ThreadPoolExecutor(workers) as pool:
        work = [pool.submit(exchange, dock, port, known, (1, 4)[i % 2]) for i in range(count)]
        try:
            for done, one in enumerate(work, 1):
                method, begins = one.result()
                seen["high"] += begins[0] >= 0x80
                if begins[0] == 0:
                    seen["00"] += 1
                    seen[method, "00 high" if begins[1] >= 0x80 else "00 low"] += 1
                if done % SHOWN_EVERY == 0 and done < count:
                    print(line(done), flush=True)
        except BaseException:
            for one in work:
                one.cancel()
            programs.stop_all()
            raise
    print(line(count))
    print("soak: no signature failed")


def later(programs, dock, count):
    """Exchanges in one connection, in four ways."""
    allowed, options = programs.login("ssh-ed25519")
    limits = {limit: programs.sshd(allowed + [f"RekeyLimit {limit}", "LogLevel ERROR"], f"sshd_{limit}") for limit in ("default", "16")}
    long, way = ("--timeout", 3600), rekey.WAYS[1]
    for name, run in (
            ("asked of sshd", lambda each: rekey.as_client(dock, limits["default"], way, options, *long, "--rekey", count, by="us", each=each)),
            ("asked by sshd", lambda each: rekey.as_client(dock, limits["16"], way, options, *long, "--rekeyed", count, by="the peer", each=each)),
            ("asked of ssh", lambda each: rekey.as_server(programs, dock, way, 400 * count, *long, "--rekey", count, by="us", each=each)),
            ("asked by ssh", lambda each: rekey.as_server(programs, dock, way, 1024 * count, *long, by="the peer", each=each, RekeyLimit="16"))):
        began = time.monotonic()

        def each(line):
            if line.startswith("exchange ") and int(line.split()[1]) % SHOWN_EVERY == 0:
                done = int(line.split()[1])
                rate = done / (time.monotonic() - began)
                print(f"soak: {done} exchanges in one connection, {name}, identifier {line.split()[3][:16]}..; {rate:.0f} a second", flush=True)

        try:
            found, size, between = run(each)
            need(len(found) >= count, f"{len(found)} exchanges behind the first are fewer than {count}")
        except Failure as e:
            raise Failure(f"{name}: {e}") from None
        print(f"soak: {len(found)} exchanges behind the first in one connection, {name}: one identifier, {size} bytes there and back, {between} messages "
              f"between KEXINITs ({time.monotonic() - began:.1f} s)", flush=True)


def main():
    options = argparse.ArgumentParser(description=__doc__, formatter_class=argparse.RawDescriptionHelpFormatter)
    options.add_argument("--dock", required=True)
    options.add_argument("--count", type=int, default=2000)
    options.add_argument("--later", type=int, default=2000, help="exchanges behind the first, in one connection")
    options.add_argument("--workers", type=int, default=2)
    options = options.parse_args()
    end_on_signals()
    with tempfile.TemporaryDirectory(prefix="soak-") as folder:
        programs = Programs(folder)
        try:
            soak(programs, Dock(programs, options.dock), options.count, options.workers)
            later(programs, Dock(programs, options.dock), options.later)
        except (Failure, OSError, subprocess.SubprocessError) as e:
            print(f"soak: FAILED: {e}", file=sys.stderr)
            return 1
        finally:
            programs.stop_all()
    return 0


if __name__ == "__main__":
    sys.exit(main())
