#!/usr/bin/env python3
"""Whether each edit of crates/*/must-fail was refused where it is wrong, and, where that is asked for, each wrong program of it by itself.

usage: refused.py [--log FILE] [CRATE ...]              by what rt said (all crates where none is named)
   or: refused.py --each [--log FILE] [--jobs N] [CRATE ...]      each program of an edit by a trial of the edit's own

FILE has what `rt ci` or `rt must-fail` said of these crates, build/ci.log where none is named, which `make test` leaves. Exits 0, 1 where an edit or a
program was not refused as it must be or was not tried, 2 where it is called wrongly or there is no FILE.

An .edit file holds one wrong program, or several of one crate that are tried at once, since each trial checks much of the crate again. A program
begins with its lines '# rules out: FUNCTION: what', may name itself by a line '# label: NAME' (else the file's name is its own), and goes on with
its file:, old: and new: lines. rt asks only that a file be refused, and says the first reason. This asks also, and takes a second,
- that the reason is a fact, and neither only a proof that names what is no longer there nor a limit of the prover alone;
- where the file changes functions, that the fact is one of theirs;
- that no two programs have one label, and that docs/PROMISES.md and docs/CHANGING.md name no program that is not there.

With --each every file of several programs is tried once more, by `rt check` over a copy of the crates among the temporary files, N checks at a time (one
a core where none is said, and 3 GB for each); so is one of a single program where rt's line has a goal that nothing proves, and the function's proof
answers goals by their names. Of each program in it that asks
- where it changes functions, that one of them is not proved, by itself and not for a callee, so that the refusal is the program's own: a callee that is
  not proved takes away what rests on it, which the checker says, and a fact of the function's own that fails stands beside that;
- that no other program of the file changes the same function;
- that what fails there is a fact that no longer holds, and not only a proof that names what is no longer there;
- that the changed contracts and definitions themselves make sense.
What a trial says stays in build/refused: as long as the crate, those below it, the file and the kit are the same, that is read again. From nothing it
takes eight minutes on four cores.
"""
import collections
import concurrent.futures
import fcntl
import glob
import hashlib
import os
import queue
import re
import shutil
import subprocess
import sys
import tempfile
import time

sys.dont_write_bytecode = True
from command import NAME, asked, need, refuse, run, wrong
from held import ROOT

# what rt says of an edit, and of one that was refused with a reason of another kind than a fact
SAID = re.compile(r"^rt: must-fail (\w+)/([\w.-]+)\.edit: (.*)$", re.M)
REFUSED = "refused, as it must be"
OTHERWISE = re.compile(r" \(only ([^,:]*)")
# where the prover's error stands, or the fact that it found no proof of
PLACE = re.compile(r"(?:note: )?(?:\./)?((?:src|specs|proofs)/[^\s:]+):(\d+):\d+: (?:error|it is not proved)\b")
# what it says of a proof that names places which the code no longer has, and of what rests on something that failed
SHAPE = re.compile(r"has no `|has no field|that can be named from here|is not in scope|Scope:|was not admitted")
GOAL, FALSE = ": it is not proved", "the facts known there allow values at which this goal is false"
FUNCTION = re.compile(r'^(?: *#\[.*\]\n)*( *)(?:pub )?(?:extern "C" )?fn (\w+)', re.M)
# what rt calls a bad edit: src/ or specs/ that cannot be read, where an edit that only makes a statement false reads well
UNREAD = "is not in scope|has no field|is no name|operand is missing|expected the end|cannot continue"
SENSELESS = re.compile(rf"(?:\./)?(?:src|specs)/[^\s:]+:\d+:\d+: error: (?:(?!`[^`]*`: )|.*(?:{UNREAD}))")
PARTS = ("src", "specs", "proofs")
# what rt check ends with where all is proved, where something is not, and where the prover could not tell
SETTLED = (0, 1, 3)


class Source:
    """A crate's functions, and where each stands."""

    def __init__(self, crate):
        self.texts, self.spans = {}, []
        for path in sorted(glob.glob(f"crates/{crate}/src/**/*.rt", recursive=True)):
            rel = os.path.relpath(path, f"crates/{crate}")
            text = self.texts[rel] = read(path)
            for m in FUNCTION.finditer(text):
                self.spans.append((rel, m.start(), text.index("\n" + m.group(1) + "}", m.end()), m.group(2)))

    def at(self, rel, place):
        return {name for r, start, end, name in self.spans if r == rel and start <= place <= end}

    def changed(self, pairs):
        """The functions that a program changes."""
        return {name for rel, old, _ in pairs if rel in self.texts for name in self.at(rel, self.texts[rel].find(old))}

    def own(self, function, rel, line):
        """Whether a place is a function's own: in its code, which a program's lines leave where it is, or in its proof."""
        if rel in self.texts:
            begins = [0, *(m.end() for m in re.finditer("\n", self.texts[rel]))]
            # where a fact of the function's end is said to be missing, the line of its last brace
            return line <= len(begins) and function in self.at(rel, begins[line - 1])
        return f"/{function}/" in rel


def read(path):
    with open(path, encoding="utf-8") as f:
        return f.read()


def name_of(crate, path):
    return f"{crate}/{os.path.basename(path)[: -len('.edit')]}"


def programs(path):
    """The wrong programs of a file: each one's label and replacements."""
    found, file = [], None
    for line in read(path).splitlines():
        if line.startswith("# rules out: ") and (not found or found[-1]["pairs"]):
            found.append({"label": os.path.basename(path)[: -len(".edit")], "pairs": []})
        elif line.startswith("# label: ") and found:
            found[-1]["label"] = line[9:]
        elif line.startswith("file: "):
            file = line[6:]
        elif line.startswith("old: ") and found:
            old = line[5:]
        elif line.startswith("new:") and found:
            found[-1]["pairs"].append((file, old, line[5:]))
    return found


# ---- the trials


def kept(crate, path):
    return f"build/refused/{name_of(crate, path)}.log"


class Layers:
    """The crates as crates.txt has them, in the folder top."""

    def __init__(self, top):
        self.top, self.lines, self.sums = top, {}, {}
        for line in read(f"{top}/crates.txt").splitlines():
            head, colon, libraries = line.partition("#")[0].partition(":")
            if colon:
                self.lines[head.split()[0]] = line, [name for name in libraries.split()]
        self.rest = [subprocess.run(["rt", "version"], capture_output=True, text=True, check=True).stdout]
        self.rest += [read(f"{top}/HANDLES")] if os.path.exists(f"{top}/HANDLES") else []

    def with_below(self, crate):
        found = [crate]
        for name in found:
            found += [it for it in self.lines[name][1] if it in self.lines and it not in found]
        return found

    def of(self, crate):
        """A sum of the crate alone, by what it was when this was asked first."""
        if crate not in self.sums:
            sum = hashlib.sha256(self.lines[crate][0].encode())
            for part in PARTS:
                for file in sorted(glob.glob(f"{self.top}/crates/{crate}/{part}/**", recursive=True)):
                    if os.path.isfile(file):
                        sum.update(repr((os.path.relpath(file, self.top), read(file))).encode())
            self.sums[crate] = sum.hexdigest()
        return self.sums[crate]

    def sum(self, crate, path):
        """A sum of all that a trial's outcome rests on."""
        return hashlib.sha256(repr((self.rest, [self.of(it) for it in self.with_below(crate)], read(path))).encode()).hexdigest()


def link(one, other):
    """A second name for a file that rt never writes into, but replaces."""
    try:
        os.link(one, other)
    except OSError:
        shutil.copy2(one, other)


def link_proved(one, other):
    (link if one.endswith(".oantt") else shutil.copy2)(one, other)


def check(folder, *words):
    how = {"cwd": folder, "stdin": subprocess.DEVNULL, "stdout": subprocess.PIPE, "stderr": subprocess.STDOUT, "text": True, "errors": "replace"}
    return subprocess.run(["rt", *words], **how)


class Rooms:
    """Copies of the crates outside the checkout, one for each check that runs at a time, and for each crate what a check of it as it stands left."""

    def __init__(self, crates, jobs):
        # of one name for each checkout, since rt notes beside the kit where a check left its work
        self.top = f"{tempfile.gettempdir()}/castulfrisa-refused-{os.geteuid()}-{hashlib.sha256(str(ROOT).encode()).hexdigest()[:12]}"
        self.rooms, self.free, self.layers = [f"{self.top}/{number}" for number in range(jobs)], queue.Queue(), Layers(".")
        self.crates = [it for it in self.layers.lines if any(it in self.layers.with_below(crate) for crate in crates)]

    def clear(self):
        shutil.rmtree(self.top, ignore_errors=True)

    def fill(self):
        self.clear()
        os.mkdir(self.top, 0o700)
        self.lay(".", self.rooms[0])
        # builds the libraries that are not as they were last proved
        ran = check(self.rooms[0], "all", "check", "--jobs", str(len(self.rooms)))
        if ran.returncode:
            raise subprocess.SubprocessError(f"the crates are not proved as they stand: {ran.stdout[-900:]}")
        for room in self.rooms[1:]:
            self.lay(self.rooms[0], room)
        # ahead of the trials, which change what lies in the rooms
        self.layers = Layers(self.rooms[0])
        for crate in self.crates:
            self.layers.of(crate)
        for room in self.rooms:
            self.free.put(room)

    def lay(self, one, room):
        for crate in self.crates:
            for part in PARTS:
                if os.path.isdir(f"{one}/crates/{crate}/{part}"):
                    shutil.copytree(f"{one}/crates/{crate}/{part}", f"{room}/crates/{crate}/{part}")
            if os.path.isdir(f"{one}/crates/{crate}/out/rlib"):
                shutil.copytree(f"{one}/crates/{crate}/out/rlib", f"{room}/crates/{crate}/out/rlib", copy_function=link)
        write(f"{room}/crates.txt", "".join(f"{line}\n" for crate, (line, _) in Layers(one).lines.items() if crate in self.crates))
        if os.path.exists(f"{one}/HANDLES"):
            shutil.copy(f"{one}/HANDLES", room)

    def seed(self, crate):
        """A check of the crate as it stands."""
        room = self.free.get()
        try:
            folder, begun = f"{room}/crates/{crate}", time.time()
            ran = check(folder, "check", "--jobs", "1")
            if ran.returncode:
                raise subprocess.SubprocessError(f"{crate} is not proved as it stands: {ran.stdout[-900:]}")
            shutil.move(f"{folder}/out/incremental", f"{self.top}/{crate}")
            return time.time() - begun
        finally:
            self.free.put(room)

    def trial(self, crate, path):
        room = self.free.get()
        try:
            folder, texts, begun = f"{room}/crates/{crate}", {}, time.time()
            for p in programs(path):
                for file, old, new in p["pairs"]:
                    texts[file] = (texts[file] if file in texts else read(f"{folder}/{file}")).replace(old, new)
            were = {file: read(f"{folder}/{file}") for file in texts}
            shutil.rmtree(f"{folder}/out/incremental", ignore_errors=True)
            shutil.copytree(f"{self.top}/{crate}", f"{folder}/out/incremental", copy_function=link_proved)
            try:
                for file, text in texts.items():
                    write(f"{folder}/{file}", text)
                ran = check(folder, "check", "--jobs", "1")
            finally:
                for file, text in were.items():
                    write(f"{folder}/{file}", text)
            os.makedirs(os.path.dirname(kept(crate, path)), exist_ok=True)
            # what was killed, say, is tried again
            sum = self.layers.sum(crate, path) if ran.returncode in SETTLED else ""
            write(kept(crate, path), f"{sum}\n{ran.stdout.rstrip()}\n{ran.returncode}\n")
            return time.time() - begun
        finally:
            self.free.put(room)


def write(path, text):
    with open(path, "w", encoding="utf-8") as f:
        f.write(text)


def at_a_time():
    """As many checks as there are cores, and 3 GB for each."""
    free = int(re.search(r"MemAvailable: *(\d+)", read("/proc/meminfo"))[1]) // 3_000_000
    return max(1, min(os.cpu_count(), free))


def is_read_whole(source, crate, path, said):
    """Whether a file's trial has to say more than rt's line."""
    found = programs(path)
    if len(found) == 1 and GOAL in said and FALSE not in said:
        return any(glob.glob(f"crates/{crate}/proofs/**/{f}/Answers.antt", recursive=True) for f in source.changed(found[0]["pairs"]))
    return len(found) > 1


def try_again(files, jobs):
    """Tries the files, each a crate and a path, of which no trial is kept."""
    os.makedirs("build/refused", exist_ok=True)
    with open("build/refused/lock", "w") as lock:
        fcntl.flock(lock, fcntl.LOCK_EX)
        layers, left = Layers("."), collections.defaultdict(list)
        for crate, path in files:
            if not os.path.exists(kept(crate, path)) or read(kept(crate, path)).split("\n", 1)[0] != layers.sum(crate, path):
                left[crate].append(path)
        if left:
            try_in(Rooms(left, jobs), left)


def try_in(rooms, left):
    jobs, begun, count = len(rooms.rooms), time.time(), sum(map(len, left.values()))
    print(f"refused: {count} edits are tried again, {jobs} at a time, in {rooms.top}", flush=True)
    spent, done, pool = collections.Counter(), collections.Counter(), concurrent.futures.ThreadPoolExecutor(jobs)
    try:
        rooms.fill()
        print(f"refused: the crates are as they stand ({time.time() - begun:.0f} s)", flush=True)
        running = {pool.submit(rooms.seed, crate): (crate, None) for crate in left}
        while running:
            for one in concurrent.futures.wait(running, return_when=concurrent.futures.FIRST_COMPLETED).done:
                crate, path = running.pop(one)
                spent[crate] += one.result()
                running.update({} if path else {pool.submit(rooms.trial, crate, it): (crate, it) for it in left[crate]})
                done[crate] += path is not None
                if done[crate] == len(left[crate]):
                    print(f"refused: {sum(done.values())} of {count}: {crate} ({spent[crate]:.0f} s)", flush=True)
    finally:
        pool.shutdown(cancel_futures=True)
        rooms.clear()
    print(f"refused: tried in {time.time() - begun:.0f} s", flush=True)


# ---- what is wrong with how a program was refused


def judge_line(source, p, said):
    """Of a file, by rt's line, which has the first fact."""
    if other := OTHERWISE.match(said[len(REFUSED) :]):
        yield f"refused by no fact, but only {other[1]}"
        return
    place = PLACE.search(said)
    if not place:
        yield f"refused by no fact: {said}"
    elif p["functions"] and not any(source.own(f, place[1], int(place[2])) for f in p["functions"]):
        yield f"{' and '.join(sorted(p['functions']))} is not what is refused first: {said[len(REFUSED) + 2 :]}"


def judge_trial(source, crate, p, others, lines):
    """Of one of several programs in a file, by all that their trial said."""
    if others and not p["functions"] or any(q["functions"] & p["functions"] for q in others):
        yield "tried with others, it changes no function or one that another changes too"
        return
    found = []
    for f in sorted(p["functions"]):
        verdict = next((m for line in lines if (m := re.match(rf"fn {crate}::(?:\w+::)*{f}: (.*)", line))), None)
        own = [line for line in lines if (at := PLACE.match(line)) and source.own(f, at[1], int(at[2]))]
        if not own or not verdict or not verdict[1].startswith(("not proved", "no proof")):
            found.append(f"{f} is not refused by itself: {verdict[1] if verdict else 'nothing is said of it'}")
        else:
            shapes = [line for line in own if SHAPE.search(line)]
            # Behind a name that is gone stands an answer that was not looked at, so a goal that nothing proves may be no more than that one's.
            facts = [line for line in own if line not in shapes and (not shapes or GOAL not in line or FALSE in line)]
            if facts:
                return
            how = "and by goals that may be open for want of the answers so named" if len(shapes) < len(own) else "alone"
            found.append(f"{f} is refused by its shape {how}: {shapes[0][:240]}")
    yield " and ".join(found)


def judge(source, crate, path, said, each):
    """What is wrong with the programs of one file."""
    found, file = programs(path), name_of(crate, path)
    for p in found:
        p["functions"] = source.changed(p["pairs"])
    if not found:
        yield f"{file}: its first line does not say what it rules out"
    elif file not in said:
        yield f"{file}: not tried (run rt ci, or rt must-fail {crate})"
    elif not said[file].startswith(REFUSED):
        yield f"{file}: {said[file]}"
    elif not each or not is_read_whole(source, crate, path, said[file]):
        together = {"functions": {f for p in found for f in p["functions"]} if all(p["functions"] for p in found) else set()}
        yield from (f"{file}: {fault}" for fault in judge_line(source, together, said[file]))
    else:
        lines = read(kept(crate, path)).splitlines()
        if int(lines[-1]) not in SETTLED[1:]:
            yield f"{file}: rt check of it ended with status {lines[-1]}: see {kept(crate, path)}, and run this again"
            return
        if senseless := [line for line in lines if SENSELESS.match(line)]:
            yield f"{file}: not refused by a proof, its own text makes no sense: {senseless[0][:240]}"
        for p in found:
            others = [q for q in found if q is not p]
            yield from (f"{crate}/{p['label']}: {fault}" for fault in judge_trial(source, crate, p, others, lines))


def main():
    words, given = asked(__doc__, options=["--log", "--jobs", "--each"]), {"--log": ROOT / "build/ci.log", "--jobs": None}
    each = "--each" in words
    words = [word for word in words if word != "--each"]
    for option in given:
        if option in words:
            at = words.index(option)
            if len(words) < at + 2:
                wrong(__doc__)
            given[option] = words[at + 1]
            del words[at : at + 2]
    if given["--jobs"] and not re.fullmatch("[1-9][0-9]*", given["--jobs"]):
        wrong(__doc__)
    log = os.path.abspath(given["--log"])
    os.chdir(ROOT)
    if strange := set(words) - set(os.listdir("crates")):
        refuse(f"{NAME}: no crate {', '.join(sorted(strange))}")
    need("rt ci leaves it, as make test calls it", log)
    with open(log, encoding="utf-8", errors="replace") as f:
        said = {f"{crate}/{label}": text for crate, label, text in SAID.findall(f.read())}
    crates = words or sorted(os.listdir("crates"))
    paths = [(crate, path) for crate in crates for path in sorted(glob.glob(f"crates/{crate}/must-fail/*.edit"))]
    sources = {crate: Source(crate) for crate in crates}
    if each:
        whole = [it for it in paths if is_read_whole(sources[it[0]], *it, said.get(name_of(*it), ""))]
        try_again(whole, int(given["--jobs"] or at_a_time()))
    faults, labels = [], collections.Counter()
    for crate, path in paths:
        labels.update(f"{crate}/{p['label']}" for p in programs(path))
        faults += judge(sources[crate], crate, path, said, each)
    faults += [f"{label}: the label stands twice" for label, count in labels.items() if count > 1]
    if not words:
        edited = {crate for crate, _ in paths}
        for page in ("docs/PROMISES.md", "docs/CHANGING.md"):
            cited = set(re.findall(r"`(\w+/\w+)`", read(page)))
            strange = [c for c in sorted(cited - set(labels)) if c.split("/")[0] in edited and not os.path.exists(f"crates/{c}")]
            faults += [f"{page} names {c}, which is not there" for c in strange]
    for fault in faults:
        print("refused:", fault)
    print(f"refused: {len(labels)} wrong programs in {len(paths)} edits, {len(faults)} faults")
    return 1 if faults else 0


if __name__ == "__main__":
    run(main)
