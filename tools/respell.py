#!/usr/bin/env python3
"""Brings the repository's own definitions and lemmas to the spelling of today's Rattle: snake case for words, camel case for what is a type.

usage: respell.py            at the top of the repository, once, behind the kit's port.py

It goes by text over crates/*/{src,specs,proofs}: a name is respelled where it stands as a whole word, and a record's field where a dot leads to it.
Functions of src/, exported names, strings, inputs and outputs keep theirs. It stops, and changes nothing, where two names of a file would fall together.
"""
import os
import re
import sys

# a word of antt: what no space and none of these signs ends
WORD = re.compile(r"[^\s(){}\[\],;.:|\"`]+")
HEAD = re.compile(r"^(?:(?:abbrev|unfoldable|opaque|irreducible|private)\s+)*(?:pub\s+)?(?:(?:data|record|enum)\s+)?([^\s(){}:;,]+)(?:\s.*?)?\s:\s(.*)$")
INNER = re.compile(r"^ {2,8}(?:pub\s+)?([^\s(){}:;,]+)\s:\s")
ALIAS = re.compile(r"([^\s{},]+) as ([^\s{},;]+)")
FORM = re.compile(r"^use |^ghost use ")
# a fact, so a type: upper camel case
TYPES = {"pads": "Pads"}
# variables that a clause shows: no field gives way to them
VARIABLES = {"k_pq", "k_out", "host_key", "list_good", "reply_fits", "is_c"}
# names that would take another's
# and variables that a clause shows
OTHER = {"kPq": "k_pq", "kOut": "k_out", "hostKey": "host_key", "listGood": "list_good", "replyFits": "reply_fits", "isC": "is_c", "length_most": "length_most_lem", "bytes_after": "bytes_after_lem", "inPlace": "in_place_of", "start_left": "start_left_lem", "k-size": "k_size_lem", "k-length": "k_length_lem"}


def snake(name):
    """fieldAt is field_at, ownCCause own_c_cause, K256-is K256_is."""
    parts = re.split(r"(-)", name)
    turned = []
    for w in parts:
        if re.match(r"^[a-z]", w):
            w = re.sub(r"(?<=[^_])(?=[A-Z][a-z])|(?<=[a-z0-9])(?=[A-Zℕ])", "_", w).lower() if re.search(r"[A-Zℕ]", w) else w
        turned.append(w)
    return "".join(turned).replace("-", "_")


def files():
    for folder, dirs, names in os.walk("crates"):
        dirs[:] = sorted(d for d in dirs if d != "out")
        for n in sorted(names):
            if n.endswith((".rt", ".antt")):
                yield os.path.join(folder, n)


def named(text):
    """What a file of antt declares: its names, with those of its modules and its data, and the fields of its records."""
    found, fields, block = set(), set(), ""
    for line in text.split("\n"):
        if line and not line.startswith((" ", "--")):
            block = "record" if re.match(r"^(pub |abbrev )*record ", line) else "other"
        if line.startswith(("use ", "--", "mod ", "pub mod ", "module ")):
            continue
        m = HEAD.match(line) if not line.startswith(" ") else None
        if m and "tie." not in m.group(2) and m.group(1) != "tie":
            found.add(m.group(1))
        m = INNER.match(line)
        if m:
            (fields if block == "record" else found).add(m.group(1))
    return found, fields


def wants(name):
    if name in TYPES:
        return TYPES[name]
    if name in OTHER:
        return OTHER[name]
    if name[0].isupper() and not re.match(r"^[A-Z][A-Z0-9]*-", name):
        return name
    if re.match(r"^[A-Z]", name):
        return name.replace("-", "_")
    return snake(name)


def scope(text):
    """The names that a file has: declared at its head level, and imported."""
    found, _ = named(text)
    for m in re.finditer(r"^(?:ghost )?use [^{\n]*\{([^}]*)\}", text, re.M):
        for part in m.group(1).split(","):
            part = part.strip()
            if part:
                found.add(part.split(" as ")[-1].strip())
    return found


def main():
    if len(sys.argv) > 1:
        print(__doc__)
        raise SystemExit(0 if sys.argv[1] in ("-h", "--help") else 2)
    texts = {p: open(p, encoding="utf-8").read() for p in files()}
    crates = "|".join(sorted(os.listdir("crates")))
    names, fields = dict(OTHER), {}
    for p, t in texts.items():
        if p.endswith(".antt"):
            found, inner = named(t)
            for n in found:
                if wants(n) != n:
                    names[n] = wants(n)
            for n in inner:
                if wants(n) != n:
                    fields[n] = snake(n)
        for line in t.split("\n"):
            if FORM.match(line):
                for m in ALIAS.finditer(line):
                    if re.search(r"[a-z][A-Z]", m.group(2)):
                        names[m.group(2)] = wants(m.group(2))

    # a lemma that would have its definition's name
    held = {v for k, v in names.items() if "-" not in k} | {n for p, t in texts.items() if "/specs/" in p and p.endswith(".antt") for n in named(t)[0]}
    held |= {n for p, t in texts.items() if p.endswith(".antt") for n in named(t)[0] if "-" not in n}
    held -= VARIABLES
    for k in names:
        if "-" in k and names[k] in held and k not in fields:
            names[k] += "_lem"
    # a field that would hide a definition from those behind it
    for k in fields:
        if fields[k] in held:
            fields[k] += "_is"

    def turn(text, rust):
        # what a file has of another library keeps its name there
        lent = set()
        for m in re.finditer(r"^(?:ghost )?use ([^{\s]+)\.\{([^}]*)\}", text, re.M):
            if not re.match(rf"Rattle\.({crates})\.", m.group(1)):
                lent |= {part.strip().split(" as ")[0].strip() for part in m.group(2).split(",")}
        declared = {m.start(1) for b in re.finditer(r"^(?:pub |abbrev )*record [^\n]*\n(?:(?:  .*)?\n)*", text, re.M) for m in re.compile(r"^  (?:pub\s+)?([^\s(){}:;,]+)\s:\s", re.M).finditer(text, b.start(), b.end())}

        def word(m):
            w = m.group(0)
            if w in lent:
                return w
            if rust and "-" in w:
                return w
            at = m.start()
            if at and text[at - 1] == "." and not (at > 1 and text[at - 2] == "."):
                # a path of a module, or a field
                lead = re.search(r"[^\s(){}\[\],;]*$", text[:at]).group(0)
                if lead.startswith("Rattle."):
                    return names.get(w, w)
                return fields.get(w, w)
            if at in declared:
                return fields.get(w, w)
            if w in fields and re.match(r"\s+=\s", text[m.end():]) and re.search(r"(?:[{;]\s*|\n\s+)$", text[:at]):
                return fields[w]
            return names.get(w, fields.get(w, w) if "-" in w else w)

        return WORD.sub(word, text)

    new = {p: turn(t, p.endswith(".rt")) for p, t in texts.items()}
    bad = 0
    for p, t in texts.items():
        if p.endswith(".antt"):
            before, after = scope(t), scope(new[p])
            if len(before) != len(after):
                bad += 1
                turned = {}
                for n in before:
                    turned.setdefault(names.get(n, n), []).append(n)
                print(f"{p}: fall together: {[v for v in turned.values() if len(v) > 1]}")
    if bad:
        raise SystemExit(1)
    if os.environ.get("DRY"):
        for a, b in sorted(names.items()):
            print(a, b)
        for a, b in sorted(fields.items()):
            print(".", a, b)
        return
    for p, t in new.items():
        if t != texts[p]:
            with open(p, "w", encoding="utf-8") as f:
                f.write(t)
    print(f"respelled: {len(names)} names in {sum(new[p] != texts[p] for p in texts)} files")


main()
