"""Whom dock's client trusts: known hosts as ssh has them, first contact, and the host key names that it prefers; and where dock's server listens."""
import sys

if __name__ == "__main__":
    sys.exit("known.py is a part of live.py")

import base64
import hmac
import re
import socket
import subprocess

from hostile import FAULT, OWN, SIGNER, Ed25519, Turn, against_client, judge
from peer import packet, string, take_string
from programs import HOST_KEYS, Failure, logged, need, results, unwarned

ED25519, RSA = "ssh-ed25519", "rsa-sha2-512"
AT = "127.0.0.1"
OTHER_AT = "127.0.0.2"  # all of 127.0.0.0/8 is the loopback


def base64_of(blob):
    return base64.b64encode(blob).decode()


def hashed(name, salt=b"twenty bytes of salt"):
    return f"|1|{base64_of(salt)}|{base64_of(hmac.digest(salt, name.encode(), 'sha1'))}"


def known_of(found):
    return results(found)["known"]


# ---- which keys are known

def lines_that_know(at, port, key):
    """Each a file that has the key for the host; at: how it stands in a line."""
    other = f"ssh-ed25519 {base64_of(SIGNER.blob)}"
    plain, text = key.split()
    yield f"{at} {key}\n"
    yield f"# a comment\n\n \t\n  # another\n\t {at}\t{plain}\t \t{text} words at its end\r\n"
    yield f"a,{at},b {key}"
    yield f"{at} {other}\n{at} {key}\n"
    yield f"{at} {key}\n{at} {other}\n"
    yield f"* {key}\n"
    yield f"[127.0.0.?]:* {key}\n"
    yield f"*.example,[*]:{port} {key}\n"
    yield f"*[*1]*:*{str(port)[-2:]} {key}\n"
    yield f"!other.example,* {key}\n"
    yield f"*,!{AT} {key}\n"  # which is not how the host stands in a line
    yield f"*,!{at} {other}\n{at} {key}\n"
    yield f"{hashed(at)} {key}\n"
    yield f"{hashed('other.example')} {other}\n{hashed(at, bytes(20))} {key}\n"
    yield f"@revoked * {other}\n{at} {key}\n"
    yield f"@revoked other.example,{AT}0,[{AT}]:{port + 1} {key}\n@revoked {hashed('other.example')} {key}\n{at} {key}\n"
    yield f"@revoked *,!{AT},!{at} {key}\n{at} {key}\n"
    yield f"{at} ssh-dss {base64_of(string(b'ssh-dss') + bytes(9))}\n{at} {key}\n"  # a type that is not taken here, and good for others


def lines_that_do_not(at, port, key, rsa):
    """Each a file that has not; and what is said."""
    other = f"ssh-ed25519 {base64_of(SIGNER.blob)}"
    missing, differs, revoked = "not known", "differs from the known one", "it is revoked"
    yield "", missing
    yield f"#{at} {key}\n", missing
    yield f"#,{at} {key}\n", missing
    yield f"{AT} {key}\n", missing  # ssh would take it, where it knows nothing else: dock does not
    yield f"{AT},{AT}0,[{AT}]:{port + 1},[{AT}0]:{port},[{AT}]:0{port} {key}\n", missing
    yield f"[{AT}]:? {key}\n", missing
    yield f"[127.0.?]:{port} {key}\n", missing
    yield f"*,!{at} {key}\n", missing
    yield f"![127.*]:*,* {key}\n", missing
    yield f"!other.example {key}\n", missing
    yield f"{hashed(AT)} {key}\n", missing
    yield f"{hashed(at)[:-5]}AAAA= {key}\n", missing
    yield f"{at} {rsa}\n", missing
    yield f"@revoked {at} {other}\n", missing
    yield f"{at} {other}\n", differs
    yield f"{hashed(at)} {other}\n{AT} {key}\n", differs
    yield f"@revoked {at} {key}\n", revoked
    yield f"@revoked * {key}\n{at} {key}\n", revoked
    yield f"{at} {key}\n* {other}\n@revoked *.example,{at} {key}\n", revoked
    yield f"{at} {key}\n@revoked {hashed(at)} {key}\n", revoked
    yield f"{at} {key}\n@revoked\t[127.*]:*\t{key}\n", revoked
    yield f"{at} {key}\n@revoked {AT} {key}\n", revoked  # a name without a port: revoked at every one
    yield f"{at} {key}\n@revoked {hashed(AT)} {key}\n", revoked


def lines_not_used(at, key, rsa):
    """A line that dock has no use for, and a part of why."""
    plain, text = key.split()
    blob = base64.b64decode(text)
    n = rsa.split()[1]
    salt = base64_of(bytes(20))
    yield f"@cert-authority {at} {key}", "@cert-authority"
    yield f"@Revoked {at} {key}", "its marker is none"
    yield f"@ {at} {key}", "its marker is none"
    yield f"@revoked @revoked {at} {key}", "two markers"
    for line in (at, f"{at} {plain}", f"{at} # {text}", "@revoked", f"@revoked {at}", f"@revoked {at} {plain}"):
        yield line, "names, key type and key"
    for name in ("|1|", f"|1|{salt}", f"|1|{salt}|", f"|2|{salt}|{salt}", f"|1|{base64_of(bytes(8))}|{base64_of(bytes(20))}", f"{hashed(at)},b",
                 f"|1|{salt}|{base64_of(bytes(21))}", f"|1|{salt}|{salt[:-1]}A", f"|1|{salt[:-2]}F=|{salt}"):
        yield f"{name} {key}", "its hashed name"
    yield f"{at} 2048 65537 12345678901234567890", "its key"  # as SSH 1 had them
    for wrong in (text[:-4], text[:-1], text + "A", text + "====", text + base64_of(bytes(3)), text[:4] + "=" + text[5:], text[:4] + "*" + text[5:],
                  "AAAA", base64_of(blob[:15] + string(bytes(31))), base64_of(blob[:-1]), base64_of(string(b"ssh-ed448") + blob[15:])):
        yield f"{at} {plain} {wrong}", "its key"
    for wrong in (f"ssh-rsa {text}", f"{plain} {n}", f"ssh-rsa {n[:-8]}", f"SSH-ed25519 {text}",
                  f"ecdsa-sha2-nistp256 {base64_of(string(b'ecdsa-sha2-nistp256') + string(b'nistp384') + string(bytes([4]) + bytes(64)))}"):
        yield f"@revoked {at} {wrong}", "its key"
    yield f"{at}\0 {key}", "a byte 0"


def told(path, count, first, why):
    """The line on those that are not used."""
    return rf"dock: known hosts: lines that are not used: {count}, the first is line {first} of {re.escape(path)}: [^\n]*{re.escape(why)}[^\n]*\n"


def refused(answer, path, *parts, ahead=""):
    code, out, err = answer
    need(code == 1 and out == "", f"exit {code}: {out}")
    last = re.fullmatch(rf"{ahead}(dock: [^\n]*\n)", err)
    need(last and all(part in last[1] for part in ("(number 18: ", *parts)), f"{' and '.join(parts)} expected: {err.strip()}")


def known_lines(programs, dock, checked, port):
    """dock's client against sshd, which has a key of every type; checked: another dock, which reads all files and meets nobody."""
    at, key, rsa, print_of = f"[{AT}]:{port}", programs.public(ED25519), programs.public(RSA), programs.fingerprint(ED25519)
    since, good = len(programs.log()), list(lines_that_know(at, port, key))

    def run(text, host=AT):
        path = programs.write("known", text)
        return path, dock.run("client", host, port, "--known-hosts", path, "--host-keys", ED25519)

    def taken(text, ahead="", host=AT):
        path, (code, out, err) = run(text, host)
        need(code == 0 and known_of(out) == "yes", f"exit {code}: {err.strip()}")
        need(re.fullmatch(ahead(path) if ahead else "", err), f"on standard error: {err.strip()}")

    for text in good:
        try:
            taken(text)
        except Failure as e:
            raise Failure(f"known by {text!r}: {e}") from None
    for text in (f"[localhost]:{port} {key}\n", f"[LocalHost]:{port} {key}\n", f"{hashed(f'[localhost]:{port}')} {key}\n"):
        taken(text, host="LOCALHOST")

    # names hashed by ssh-keygen itself
    path = programs.write("known_keygen", f"other.example {rsa}\n{at} {key}\n")
    subprocess.run(["ssh-keygen", "-q", "-H", "-f", path], check=True, capture_output=True)
    with open(path) as f:
        text = f.read()
    need(AT not in text and text.count("|1|") == 2, "ssh-keygen does not hash:", text)
    taken(text)

    nobody = 1  # a port where nobody listens

    def read(text, *expected):
        path = programs.write("known", text)
        code, out, err = checked.run("client", AT, nobody, "--known-hosts", path)
        need(code == 1 and re.fullmatch(told(path, *expected) + r"dock: [^\n]*Connection refused\n", err), f"exit {code}: {err.strip()}")

    lines = list(lines_not_used(at, key, rsa))
    for line, why in lines:
        try:
            read(f"# a comment\n{line}\n{at} {key}\n", 1, 2, why)
        except Failure as e:
            raise Failure(f"not used is {line!r}: {e}") from None
    all_of_them = "".join(line + "\n" for line, _ in lines)
    taken(f"{at} {key}\n{all_of_them}", lambda path: told(path, len(lines), 2, lines[0][1]))

    wrong = list(lines_that_do_not(at, port, key, rsa))
    everything = [text.strip("\n") + "\n" for text in (*good, *(text for text, _ in wrong))]
    read("".join(everything).replace(str(port), str(nobody)) + all_of_them, len(lines), sum(text.count("\n") for text in everything) + 1, lines[0][1])
    for text, why in wrong:
        path, answer = run(text)
        try:
            refused(answer, path, print_of, why)
        except Failure as e:
            raise Failure(f"not known by {text!r}: {e}") from None
    path, answer = run(f"* ssh-ed25519\n@cert-authority * {key}\n")
    refused(answer, path, print_of, "not known", ahead=told(path, 2, 1, "names, key type and key"))

    for path in (programs.path("nobody"), programs.folder):  # none, and no file
        code, out, err = dock.run("client", AT, port, "--known-hosts", path)
        need(code == 1 and re.fullmatch(rf"dock: {re.escape(path)}: [^\n]+\n", err), f"a file that cannot be read: exit {code}: {err.strip()}")
    logged(programs, ":3: key exchange failed", since, len(wrong) + 1)
    return f"{len(good) + 4} files that know the key, {len(lines) + 1} with lines that are not used, {len(wrong) + 1} refused host keys"


# ---- port 22, where a name stands without it

def default_port(programs, dock):
    at, key = "127.0.0.22", programs.public(ED25519)
    cases = [(f"{at} {key}\n", None), (f"{hashed(at)} {key}\n", None), (f"127.0.0.* {key}\n", None), (f"[{at}]:22 {key}\n", "not known"),
             (f"*,!{at} {key}\n", "not known"), (f"@revoked {at} {key}\n{at} {key}\n", "it is revoked")]
    try:
        process, _ = dock.serve("--listen", at, "--host-key", programs.key(ED25519), "--count", len(cases), port=22)
    except Failure as e:
        return f"not to be had here ({e})"
    for text, why in cases:
        path = programs.write("known", text)
        code, out, err = dock.run("client", at, 22, "--known-hosts", path)
        if why:
            refused((code, out, err), path, why)
        else:
            need(code == 0 and err == "" and known_of(out) == "yes", f"not known by {text!r}: {err.strip()}")
    dock.end(process)
    return f"{len(cases)} files"


# ---- first contact

def first_contact(programs, dock, port):
    since = len(programs.log())
    for host_key, key_type in ((ED25519, "ssh-ed25519"), (RSA, "ssh-rsa"), ("ecdsa-sha2-nistp384", "ecdsa-sha2-nistp384")):
        said = f"host key NOT checked: {key_type} {programs.fingerprint(host_key)}"
        refused(dock.run("client", AT, port, "--host-keys", host_key), None, f"dock: {said}; ", "--known-hosts", "--insecure")
        code, out, err = dock.run("client", AT, port, "--host-keys", host_key, "--insecure")
        need(code == 0 and known_of(out) == "NOT checked" and err == f"dock: {said}\n", f"--insecure: exit {code}: {err.strip()}")
        need(unwarned(err) == "", "the line is another:", err)
    logged(programs, ":3: key exchange failed", since, 3)

    def other_signature(p, rng):
        p.greet()
        p.must = FAULT, "signature over H does not hold (number 18: "
        p.send(packet(p.reply(sign=Ed25519(b"other").sign)))

    # A signature that does not hold is that, and no word of a key that could be compared.
    with socket.create_server((AT, 0)) as listener:
        listener.settimeout(60)
        for options in ((), ("--known-hosts", programs.write("known", f"* {programs.public(ED25519)}\n"))):
            p, code, out, err = against_client(dock, other_signature, Turn("first", 0), listener, *options)
            judge(p.must, code, out, err, p)
            need(err.count("\n") == 1, "more than one line:", err)
    return "3 keys refused and taken"


# ---- which names come first

NAMES = ["ssh-ed25519", "ecdsa-sha2-nistp256", "ecdsa-sha2-nistp384", "ecdsa-sha2-nistp521", "rsa-sha2-512", "rsa-sha2-256"]


def offered(dock, listener, *options):
    """The host key names of dock's KEXINIT."""
    found = []

    def look(p, rng):
        p.send(OWN + b"\r\n")
        p.version()
        rest = take_string(p.read()[17:])[1]
        found.append(take_string(rest)[0].decode().split(","))

    err = against_client(dock, look, Turn("offered", 0), listener, *options)[3]
    need(found, "no KEXINIT:", err.strip())
    return found[0]


def preferred(programs, dock, port):
    ed25519, p384, rsa = (programs.public(name) for name in (ED25519, "ecdsa-sha2-nistp384", RSA))
    with socket.create_server((AT, 0)) as listener:
        listener.settimeout(60)
        here = listener.getsockname()[1]
        at, count = f"[{AT}]:{here}", 0
        both = [NAMES[2], *NAMES[4:], *NAMES[:2], NAMES[3]]
        rsa_first = NAMES[4:] + NAMES[:4]
        other_rsa = f"ssh-rsa {base64_of(string(b'ssh-rsa') + string(b'%c' % 3) + string(bytes([0]) + bytes([255]) * 256))}"
        for text, names in ((f"{at} {rsa}\n", rsa_first), (f"{hashed(at)} {rsa}\n", rsa_first), (f"{at} {rsa}\n{at} {p384}\n", both),
                            (f"* {ed25519}\n", NAMES), (f"* {rsa}\n* {ed25519}\n", [NAMES[0], *NAMES[4:], *NAMES[1:4]]), ("", NAMES),
                            (f"[{AT}]:{here + 1} {rsa}\n{AT} {rsa}\n*,!{at} {rsa}\n", NAMES), (f"@cert-authority * {rsa}\n", NAMES),
                            (f"@revoked * {rsa}\n", NAMES), (f"@revoked * {rsa}\n{at} {rsa}\n", NAMES),
                            (f"@revoked * {rsa}\n{at} {rsa}\n{at} {other_rsa}\n", rsa_first)):
            found = offered(dock, listener, "--known-hosts", programs.write("known", text))
            need(found == names, f"known by {text!r}, dock offers {','.join(found)}")
            count += 1
        need(offered(dock, listener) == NAMES, "without known hosts dock offers others")
        asked = "ecdsa-sha2-nistp521,ssh-ed25519"
        found = offered(dock, listener, "--known-hosts", programs.write("known", f"* {rsa}\n* {ed25519}\n"), "--host-keys", asked)
        need(found == asked.split(","), "--host-keys is not what dock offers:", found)

    # sshd has keys of all types, and the one that is known is what it is asked for
    for host_key in HOST_KEYS:
        path = programs.known(port, host_key)
        code, out, err = dock.run("client", AT, port, "--known-hosts", path)
        found = results(out) if code == 0 else {}
        need(code == 0 and found["known"] == "yes" and found["host key"].split()[1] == programs.fingerprint(host_key), f"{host_key}: {err.strip()}")
    return f"{count + 2} lists, {len(HOST_KEYS)} exchanges with sshd"


# ---- where a server listens

def reaches(address, port):
    try:
        socket.create_connection((address, port), 5).close()
        return True
    except OSError:
        return False


def listening(programs, dock):
    """At its address, and at no other of this machine."""
    key = "--host-key", programs.key(ED25519)
    places = [((), AT, [OTHER_AT]), (("--listen", AT), AT, [OTHER_AT]), (("--listen", OTHER_AT), OTHER_AT, [AT])]
    try:
        socket.create_server(("::1", 0), family=socket.AF_INET6).close()
        places += [(("--listen", "::1"), "::1", [AT]), (("--listen", "::"), "::1", [AT])]
    except OSError:
        pass  # no IPv6 here
    for asked, address, others in places:
        process = dock.start("server", 0, *key, *asked)
        line = process.stdout.readline().decode()
        said = re.fullmatch(r"listening on (\d+)" + (f" at {re.escape(asked[1])}" if asked else "") + r"\n", line)
        need(said, "another line:", line)
        port = int(said[1])
        need(not any(reaches(other, port) for other in others), f"{asked}: it listens at other addresses, too")
        known = programs.write("known", f"[{address}]:{port} {programs.public(ED25519)}\n")
        code, out, err = dock.run("client", address, port, "--known-hosts", known)
        need(code == 0 and err == "", f"{asked}: {err.strip()}")
        code, out, err = dock.end(process)
        need(code == 0 and err == "", f"{asked}: {err.strip()}")

    process, port = dock.serve(*key, "--listen", "0.0.0.0", "--count", 2)
    need(reaches(AT, port) and reaches(OTHER_AT, port), "--listen 0.0.0.0 does not listen everywhere")
    dock.end(process)
    return f"{len(places) + 1} addresses"
