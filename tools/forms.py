#!/usr/bin/env python3
"""Counts the places of older forms in the code, point by point of docs/DESIGN-PASS.md.

usage: forms.py [--list] [--at COMMIT] [POINT ...]

Reads crates/*/src of this checkout, or of a commit. --list names each place, and not only how many. A point is told by a name of the page's table:
it is found by its text alone, so a place is where to look and no verdict. Exits 0, 2 where it is called wrongly.
"""
import collections
import pathlib
import re
import subprocess
import sys

ROOT = pathlib.Path(__file__).resolve().parent.parent
WORDS = re.compile(r"[A-Za-z_][A-Za-z_0-9]*|\d[0-9a-fA-FxX_]*|[^\sA-Za-z_0-9]")
KEPT = {"fn", "let", "mut", "if", "else", "while", "loop", "for", "in", "return", "match", "as", "break", "true", "false", "self", "len", "limits", "wire"}


def sources(commit):
    if commit is None:
        for path in sorted(ROOT.glob("crates/*/src/**/*.rt")):
            yield str(path.relative_to(ROOT)), path.read_text()
        return
    listed = subprocess.run(["git", "ls-tree", "-r", "--name-only", commit, "crates"], cwd=ROOT, capture_output=True, text=True)
    if listed.returncode != 0:
        print(f"forms.py: {commit} is no commit here", file=sys.stderr)
        sys.exit(2)
    names = listed.stdout.split()
    for name in names:
        if re.fullmatch(r"crates/\w+/src/.*\.rt", name):
            yield name, subprocess.run(["git", "show", f"{commit}:{name}"], cwd=ROOT, capture_output=True, text=True, check=True).stdout


def functions(text):
    """Each function: its line, name, signature with contract, and body."""
    lines = text.split("\n")
    for i, line in enumerate(lines):
        found = re.match(r"( *)(?:pub )?(?:const )?(?:extern \"C\" )?fn (\w+)", line)
        if not found:
            continue
        indent = found[1]
        begin = i
        while begin < len(lines) and not (lines[begin] == indent + "{" or (lines[begin].endswith("{") and not re.match(r"\s*(ensures|requires)", lines[begin]))):
            begin += 1
        if any(part.endswith(";") for part in lines[i:begin]):
            continue
        end = begin
        while end < len(lines) and lines[end] != indent + "}":
            end += 1
        yield i + 1, found[2], "\n".join(lines[i:begin + 1]), "\n".join(lines[begin + 1:end])


def shape(body):
    """A body with other names and numbers: what two twins share."""
    seen = {}
    return " ".join(w if not re.match(r"\w", w) or w in KEPT else ("N" if w[0].isdigit() else seen.setdefault(w, f"v{len(seen)}")) for w in WORDS.findall(body))


def places(commit):
    out = collections.defaultdict(list)
    shapes = collections.defaultdict(list)
    wants = collections.defaultdict(list)
    for name, text in sources(commit):
        for n, line in enumerate(text.split("\n"), 1):
            where = f"{name}:{n}: {line.strip()}"
            if re.match(r"    pub (number|found): ", line):
                out["1 number or flag beside a value"].append(where)
            if re.search(r"(Part \{ start: 0, len: 0 \}|Cursor \{ at: 1, end: 0 \}|TOO_LONG\b(?!:)|=> 0,$)", line) and "boundary" not in name and not re.search(r"\b_ => 0,", line):
                out["1 a value that stands for none"].append(where)
            if re.match(r"\s*(while|loop|'\w+: loop)\b", line) and "while let" not in line:
                out["3 loops"].append(where)
            if re.match(r"\s*match [\w.]*(kind|form)\b", line):
                out["7 switches"].append(where)
            if re.match(r"    pub (len|held|name_len|len): usize", line):
                out["6 length beside a buffer"].append(where)
        for n, fn, head, body in functions(text):
            where = f"{name}:{n}: {fn}"
            if re.search(r"\) -> u(8|64)\n", head) and re.search(r"\b(return )?\d+;?$", body, re.M):
                out["1 numbers for refusals"].append(where)
            if len(re.findall(r"=> (?:true|false),", body)) > 1:
                out["1 tests of variants by hand"].append(where)
            if re.search(r"/ 256|% 256|\* 256|\* 0x100\b|16777216|\{ 1 \} else \{ 0 \}|b0: u8|\[\w+ \+ 1\]|let b1 = ", head + body):
                out["4 conversion or copy by hand"].append(where)
            if re.search(r"while i < [\w.()]+ \{\s+if \w+\[i\] != ", body):
                out["4 equality by hand"].append(where)
            if body.count("\n") >= 2 and "_run/" not in name and "boundary" not in name:
                shapes[shape(body)].append(where)
            for clause in re.findall(r"requires (?:\w+ )?\{ (.*) \}", head):
                for fact in re.findall(r"\(([^()]*(?:\([^()]*\)[^()]*)*)\)", clause) if clause.startswith("(") else [clause]:
                    wants[fact].append(where)
            names = re.findall(r"(\w+): ", head.split("requires")[0].split("ensures")[0])
            for group in (("vc", "vs", "ic", "is"), ("client", "c", "server", "s"), ("x", "kem", "k_pq", "ks", "s"), ("stage", "fail", "role", "method"), ("kex", "host_key", "cipher_in"), ("b0", "b1", "b2", "b3")):
                if "boundary" not in name and all(g in names for g in group):
                    out["5 parameters together: " + " ".join(group)].append(where)
    for same in shapes.values():
        if len(same) > 1:
            out["2 twins"].append(" = ".join(same))
    for fact, users in wants.items():
        if len(users) > 2:
            out["5 facts in three contracts or more"].append(f"{fact}: " + ", ".join(u.split(": ")[1] for u in users))
    return out


def main():
    args = sys.argv[1:]
    if any(a in ("-h", "--help") for a in args):
        print(__doc__.strip())
        return 0
    listed = "--list" in args
    args = [a for a in args if a != "--list"]
    commit = None
    if "--at" in args:
        at = args.index("--at")
        if at + 1 == len(args):
            print("forms.py: --at wants a commit", file=sys.stderr)
            return 2
        commit = args[at + 1]
        del args[at:at + 2]
    found = places(commit)
    unknown = [a for a in args if not any(k.startswith(a) for k in found)]
    if unknown:
        print(f"forms.py: no point begins with {unknown[0]}", file=sys.stderr)
        return 2
    for point in sorted(found):
        if not args or any(point.startswith(a) for a in args):
            print(f"{len(found[point]):4} {point}")
            if listed:
                print("".join(f"       {place}\n" for place in found[point]), end="")
    return 0


sys.exit(main())
