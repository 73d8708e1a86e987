#!/usr/bin/env python3
"""dock meets a real sshd and a real ssh over the loopback; captured exchanges go through the bench; at the end what was met, and what each shows.

usage: demo.py --dock PROGRAM --bench PROGRAM [--steps FILE] [--verbose]

Starts sshd and ssh itself, with keys and files in a temporary folder. --steps: FILE gets each message and step; --verbose: they are printed too.
`make dock bench` makes the programs. It takes some ten seconds: one X in 65,536 begins as two of the meetings want it. Exits 0, 1 with one line at
the first failure, 2 where it is called wrongly.
"""
import argparse
import base64
import concurrent.futures
import contextlib
import hashlib
import os
import pathlib
import re
import subprocess
import sys
import tempfile
import textwrap

sys.dont_write_bytecode = True
sys.path.append(str(pathlib.Path(__file__).resolve().parent.parent))
from captured import capture, string, words
from held import ROOT
from peer import ed25519_holds
from programs import METHODS, Dock, Failure, Programs, end_on_signals, later_exchanges, need

WORDS = """Each line: direction, message, its length, the library's number for the step, the room filled so far. Behind NEWKEYS packets are encrypted
and have a MAC, with keys that the library derived: their lengths are those of what was decrypted.
"""
LETTERS = """X: the curve's shared secret. K: X as a number in its shortest form; in a hybrid, a hash of the KEM's secret and X.
H: the hash of what both sides said and of K. The server signs it: the client accepts that only with the same K."""
KEY = "ssh-ed25519"
S_LEN = 32  # of method 1's public values
HYBRID = "client-9-openssh-10.0"
# how X begins; whether the zero is in K; a captured exchange of the kind
ZEROS = (("0080", True, "zeros-1-00-then-high"), ("007f", False, "zeros-1-00-then-low"))
WIDTH, LEFT = 118, 50


class Told:
    """What a part of the demo shows: rows of the summary, steps as they were printed, and how many exchanges were completed with a real program."""
    def __init__(self):
        self.rows, self.steps, self.met = [], [], 0

    def row(self, who, what, shows):
        self.rows.append((f"{who:<24}{what}", shows))

    def step(self, title, out):
        self.steps.append(f"\n{title}\n{textwrap.indent(out, '    ')}")


def known(programs, name, port, key=None):
    """A file of known hosts with the server at that port."""
    return programs.write(name, f"[127.0.0.1]:{port} {key or programs.public(KEY)}\n")


def completed(code, out, err, *lines):
    """The output of an exchange that was completed, with these lines in it; its H."""
    need(code == 0, err.strip() or f"dock ended with {code}")
    for line in ("NEWKEYS sent and received", *lines):
        need(line in out, f"no '{line}' in dock's output")
    h = re.search(r"^H ([0-9a-f]+)\nexchange 1 identifier \1$", out, re.M)
    need(h, "no H that is the session identifier in dock's output")
    return h[1]


# ---- dock and OpenSSH

def as_client(programs, dock, version, port):
    told = Told()
    shows = {1: "dock verified sshd's signature over the H that the library computed, and read sshd's first packet, sealed with derived keys",
             4: "the same on a NIST curve"}
    # where both OpenSSL and OpenSSH have ML-KEM
    if METHODS[9] in dock.run("--help")[1] and METHODS[9] in programs.run(["ssh", "-Q", "kex"])[1].split():
        shows[9] = "the same in a hybrid"
    for method in shows:
        code, out, err = dock.run("client", "127.0.0.1", port, "--known-hosts", known(programs, f"known{method}", port), "--methods", METHODS[method],
                                  "--host-keys", KEY, "--show")
        completed(code, out, err, "<- SERVICE_ACCEPT")
        told.met += 1
        told.row("dock as client of sshd", METHODS[method], shows[method])
        told.step(f"dock as client, {version} as server, {METHODS[method]}: SERVICE_ACCEPT is its first packet with our keys", out)
    return told


def served(programs, dock, name, *options):
    """dock as server of ssh in method 1, to ssh's last words, which dock sent sealed; its output, and theirs."""
    process, port = dock.serve("--host-key", programs.key(KEY), "--methods", METHODS[1], "--show", *options)
    said = programs.ssh(port, 1, KEY, known(programs, name, port))[2]
    code, out, err = dock.end(process)
    completed(code, out, err, "-> SERVICE_ACCEPT")
    need("Received disconnect" in said, "ssh did not read dock's last packet:", said.strip())
    return out, said


def as_server(programs, dock, version):
    told = Told()
    out, said = served(programs, dock, "known-server")
    told.met += 1
    told.row("dock as server of ssh", METHODS[1], "ssh verified dock's signature over the library's H, and read dock's sealed packets")
    told.step(f"dock as server, {version} as client, {METHODS[1]}: its NEWKEYS says that it accepts our signature, its last words that it reads our "
              "packets", out + said)
    return told


def k_length(programs, out):
    """How many bytes K has without its length, by how far the secret step filled the room: K_S, S and K came there, each behind four bytes."""
    filled = [re.search(rf"^.. {step} .* number 0  room (\d+) of", out, re.M) for step in ("INIT", "secret")]
    need(all(filled), "no room filled in dock's output")
    host_key = base64.b64decode(programs.public(KEY).split()[1])
    return int(filled[1][1]) - int(filled[0][1]) - len(string(host_key)) - 4 - S_LEN - 4


def zeros(programs, dock, version, begins, kept):
    """dock draws until X begins so. X has 32 bytes, the first of them zero: K has it exactly where the next byte's high bit is set."""
    told = Told()
    out, said = served(programs, dock, f"known-{begins}", "--x-begins", begins)
    need(f"\nX begins {begins}\n" in out, f"X does not begin {begins}")
    length = k_length(programs, out)
    need(length == 31 + kept, f"X begins {begins}, and K has {length} bytes")
    told.met += 1
    x, zero = f"{begins[:2]} {begins[2:]} ..", "00 " if kept else ""
    told.row("dock as server of ssh", f"X = {x}",
             f"K = {zero}{begins[2:]} .., {length} bytes (the wrong way: {32 - kept}): the zero is {'kept ahead of a high bit' if kept else 'dropped'}, "
             "and ssh made the same H of it")
    told.step(f"dock as server, {version} as client, {METHODS[1]}, keys drawn until X begins {begins}: ssh makes K for itself, and accepts our "
              "signature over H", out + said)
    return told


def night(programs, dock, version):
    told = Told()
    allowed, options = programs.login(KEY)
    port = programs.sshd([*allowed, "RekeyLimit 1K"], name="night")
    turns = [METHODS[method] for method in (6, 5, 4)]
    code, out, err = dock.run("client", "127.0.0.1", port, "--known-hosts", known(programs, "known-night", port), "--methods", METHODS[1],
                              "--host-keys", KEY, *options, "--rekey", 2, "--rekeyed", 2, "--turns", ",".join(turns))
    completed(code, out, err)
    later = later_exchanges(out)[1]
    need(len(later) >= 4, "fewer than four later exchanges")
    data = re.search(r"^data (\d+) bytes there and back", out, re.M)
    need(data and int(data[1]) > 0, "no data went there and back")
    by_us = sum(each.by == "us" for each in later)
    told.met += 1 + len(later)
    told.row("dock as client of sshd", f"{1 + len(later)} exchanges",
             f"a short night: new keys amid data, {by_us} times asked for by dock and {len(later) - by_us} by sshd, three curves in turn; {data[1]} "
             "bytes came back as they went, and the session identifier stayed the first H")
    told.step(f"dock as client, {version} as server, a short night: data go there and back, either side asks for new keys, and the identifier stays "
              "the first H", "".join(line + "\n" for line in out.splitlines() if line.split()[0] in ("method", "H", "exchange", "again", "data")))
    return told


def refused(programs, dock, version, port):
    told = Told()
    other = known(programs, "other", port, f"{KEY} AAAAC3NzaC1lZDI1NTE5AAAAI{'A' * 43}")
    code, out, err = dock.run("client", "127.0.0.1", port, "--known-hosts", other, "--host-keys", KEY, "--show")
    need(code == 1 and "number 18" in err, f"a wrong host key is not refused: {code} {err.strip()}")
    need(re.search(r"^   verdict .* number 18  room 0 of", out, re.M) and "keys to" not in out, "keys after a host key that is refused")
    told.row("dock as client of sshd", "another host key known",
             "refused with number 18: no key is derived, the room is wiped, and sshd is told DISCONNECT")
    told.step(f"dock as client, {version} as server, with another host key in its known hosts", out + err)
    return told


# ---- captured exchanges

HASHED = "V_C", "V_S", "I_C", "I_S", "K_S", "C", "S"


def through_bench(bench, name):
    """A captured exchange through the library as client and as server: its fields, K's length and H by the library, which are the same in both
    roles, and what the bench answered, ahead of each state."""
    of, f = words(ROOT / "tests/captures" / f"{name}.txt"), capture(name)
    hexed = {field: data.hex() or "-" for field, data in f.items()}
    start = " ".join([of["method"], *(hexed[field] for field in HASHED[:4])])
    secret = f"secret G{len(f['X'])} {hexed['X']} {'d' if f['K_PQ'] else 'a'} {hexed['K_PQ']}"
    scripts = [
        ["room 00*14156", f"start 1 {start}", f"ownc {hexed['C']} 00*1670", f"reply {hexed['REPLY']}", f"{secret} - -", "verdict 1 1 00*71"],
        ["room 00*14156", f"start 2 {start}", f"init {hexed['INIT']}", f"{secret} {hexed['K_S']} {hexed['S']}",
         f"sign {hexed['signature']} 00*5774 00*71"],
    ]
    found, said = set(), ""
    for lines in scripts:
        done = subprocess.run([bench], input="\n".join(lines) + "\n", capture_output=True, text=True, timeout=60)
        answers = done.stdout.splitlines()
        need(done.returncode == 0 and len(answers) == len(lines) and all(answer.split()[0] == "0" for answer in answers),
             f"{name}: the bench refuses: {(answers or [''])[-1]} {done.stderr.strip()}")
        hashed, h = answers[-2].split()[1:3]  # of the secret step
        found.add((int(hashed) - sum(len(string(f[field])) for field in HASHED) - 4, h[:len(hexed["H"])]))
        said += "".join(f"{line.split()[0]:<8} {answer.split(' |')[0][:140]}\n" for line, answer in zip(lines, answers))
    need(len(found) == 1, f"{name}: the roles have H and K of their own: {found}")
    length, h = found.pop()
    need(h == hexed["H"], f"{name}: H is {h}")
    return f, length, h, f"{of['program']}\n{said}"


def signed(f, h):
    return ed25519_holds(f["K_S"], f["signature"], h)


def wrong_way(f, kept):
    """H with K's zero dropped where it belongs, or kept where it does not."""
    k = string(f["X"][1:] if kept else f["X"])
    return hashlib.sha256(b"".join(string(f[field]) for field in HASHED) + k).digest()


def captured_zeros(bench):
    told, begin = Told(), []
    for _, kept, name in ZEROS:
        f, length, h, said = through_bench(bench, name)
        need(length == 31 + kept, f"{name}: K has {length} bytes")
        need(signed(f, bytes.fromhex(h)), f"{name}: sshd's signature over the library's H does not hold")
        need(not signed(f, wrong_way(f, kept)), f"{name}: sshd's signature holds over H the wrong way")
        begin.append(f["X"][:2].hex(" ") + " ..")
        told.step(f"tests/captures/{name}.txt through the bench, as client and as server", said)
    told.row("two captured from sshd", f"X = {', '.join(begin)}",
             "zeros: sshd's signature holds over the library's H, and fails over H with K the wrong way")
    told.row("the same kinds, live", "one X in 65,536", "keys are drawn until X begins so, which takes some ten seconds")
    return told


def captured_hybrid(bench):
    told = Told()
    f, _, h, said = through_bench(bench, HYBRID)
    need(signed(f, bytes.fromhex(h)), f"{HYBRID}: sshd's signature over the library's H does not hold")
    told.row("one captured from sshd", METHODS[9],
             f"a hybrid, through the library as client and as server: H {h[:8]}.. both times, and the signature over it of {said.splitlines()[0]} holds")
    told.step(f"tests/captures/{HYBRID}.txt through the bench, as client and as server", said)
    return told


# ---- all of it

def parts(programs, dock, bench, version, pool):
    """The parts in order. Drawing an X with zeros takes seconds: the others go beside it."""
    programs.make_keys()
    drawn = [pool.submit(zeros, programs, dock, version, begins, kept) for begins, kept, _ in ZEROS]
    port = programs.sshd()
    yield as_client(programs, dock, version, port)
    yield as_server(programs, dock, version)
    yield captured_hybrid(bench)
    yield night(programs, dock, version)
    yield refused(programs, dock, version, port)
    yield captured_zeros(bench)
    yield from (each.result() for each in drawn)


def show(rows):
    for left, right in rows:
        for n, line in enumerate(textwrap.wrap(right, WIDTH - LEFT, break_on_hyphens=False)):
            print(f"{left if n == 0 else '':<{LEFT}}{line}", flush=True)


def demo(programs, dock, bench, steps, verbose):
    version = programs.ssh_version().split(",")[0].strip()
    begin = f"The library in dock, a small host on OpenSSL, meets {version} over the loopback.\n\n{LETTERS}\n"
    steps.write(WORDS)
    print(WORDS if verbose else begin, flush=True)
    told = []
    with concurrent.futures.ThreadPoolExecutor(len(ZEROS)) as pool:
        try:
            for each in parts(programs, dock, bench, version, pool):
                told.append(each)
                steps.write("".join(each.steps))
                if verbose:
                    print("".join(each.steps), end="", flush=True)
                else:
                    show(each.rows)
        except BaseException:
            programs.stop_all()  # what the pool waits for
            raise
    if verbose:
        print(f"\n{begin}")
        show(row for each in told for row in each.rows)
    print(f"\n{sum(each.met for each in told)} exchanges with a real program, three captured ones and one refusal, all as they must be.")


def main():
    parser = argparse.ArgumentParser(description=__doc__, formatter_class=argparse.RawDescriptionHelpFormatter)
    parser.add_argument("--dock", required=True)
    parser.add_argument("--bench", required=True)
    parser.add_argument("--steps", default=os.devnull)
    parser.add_argument("--verbose", action="store_true")
    asked = parser.parse_args()
    end_on_signals()
    with tempfile.TemporaryDirectory() as folder, contextlib.ExitStack() as stack:
        programs = Programs(folder)
        stack.callback(programs.stop_all)
        try:
            need(os.access(asked.bench, os.X_OK), "no program", asked.bench)
            dock = Dock(programs, asked.dock)
            with open(asked.steps, "w") as steps:
                demo(programs, dock, os.path.abspath(asked.bench), steps, asked.verbose)
        except (Failure, OSError) as failure:
            print(f"demo: {failure}", file=sys.stderr)
            return 1
    if asked.steps != os.devnull and not asked.verbose:
        print(f"Every message and step of each: {asked.steps}, or make demo VERBOSE=1.")
    return 0


if __name__ == "__main__":
    sys.exit(main())
