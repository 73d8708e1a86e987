#!/usr/bin/env python3
"""Whether what cites docs/SPECIFICATION.md cites rules that are there, whether every rule is promised, and whether what promises it is there.

usage: cited.py

- A rule has one number, and no two have the same.
- Every rule stands in docs/PROMISES.md, but for those of section 1, which are words; and every number cited there, in docs/DECISIONS.md and behind the
  word SPECIFICATION in any other file is one of a rule or of a section.
- Every rule that is marked (open) stands in section 16 and has its decision in docs/DECISIONS.md, and no other does.
- Every name that docs/PROMISES.md, docs/CHANGING.md, docs/DECISIONS.md and README.md have in `..` stands in a source.
- No file cites a numbered paper that is not in the repository.
It needs nothing built and takes a second. Exits 0, 1 with a line for each fault, 2 where it is called wrongly.
"""
import os
import re
import subprocess
import sys

sys.dont_write_bytecode = True
from command import asked, run
from held import ROOT

RULE = re.compile(r"^(?:- |\| )\*\*(\d+\.\d+(?:\.\d+)?)\*\*(.*(?:\n(?!- |\||#|\n).*)*)", re.M)
HEADING = re.compile(r"^#{2,3} (\d+(?:\.\d+)?) ", re.M)
NUMBER = r"\d+(?:\.\d+){0,2}"
SPAN = re.compile(rf"({NUMBER}) to ({NUMBER})")
# numbers behind these are of sections elsewhere
SOURCE = re.compile(r"(RFC \d+|FIPS [\d-]+|SEC 1|draft|sections?)[^|;()]*")
# a name by itself, or at the end of a path; what begins or ends with _ is a part of some
CITED = re.compile(r"`((?:\w+(?:::|\.))*[^\W_]\w*(?<!_))`")
NAMING = "docs/PROMISES.md", "docs/CHANGING.md", "docs/DECISIONS.md", "README.md"
SOURCES = re.compile(r"(crates/\w+/(src|specs|proofs|must-fail)/|include/|host/|tests/|packaging/|crates\.txt$|Makefile$)")
# papers by a number, and points of them
ELSEWHERE = re.compile(r"\b[Dd]ocuments? \d|\b[Rr]equest #\d|\bG1\d\d[a-k]\b")


def spread(text):
    """The numbers in a run such as '9.2.1 to 9.2.3, 11.1'."""
    for first, last in SPAN.findall(text):
        head, low = first.rpartition(".")[::2]
        other, high = last.rpartition(".")[::2]
        if head == other:
            yield from (f"{head}.{n}" if head else str(n) for n in range(int(low), int(high) + 1))
    yield from re.findall(NUMBER, text)


def read(path):
    with open(path, encoding="utf-8") as f:
        return f.read()


def faults():
    text = read("docs/SPECIFICATION.md")
    rules = RULE.findall(text)
    numbers = [number for number, _ in rules]
    known = set(numbers) | set(HEADING.findall(text))
    for number in sorted({n for n in numbers if numbers.count(n) > 1}):
        yield f"docs/SPECIFICATION.md: two rules have the number {number}"

    readings = text.split("\n## 16 ")[1].split("\n## 17 ")[0]
    listed = {n for row in re.findall(r"^\| (\d[^|]*) \|", readings, re.M) for n in spread(row)}
    decisions = read("docs/DECISIONS.md")
    decided = {n for run in re.findall(r"^- \*\*(\d[\d., ]*)\*\*", decisions, re.M) for n in spread(run)}
    marked = {number for number, words in rules if "**(open)**" in words}
    for number in sorted(marked ^ listed):
        yield f"docs/SPECIFICATION.md: {number} is {'not in section 16' if number in marked else 'in section 16 and not marked (open)'}"
    for number in sorted(marked ^ decided):
        yield f"docs/DECISIONS.md: {number} is {'open and has no decision' if number in marked else 'decided and not open'}"

    promised = {n for cell in re.findall(r"^\| (\d[^|:]*):", read("docs/PROMISES.md"), re.M) for n in spread(re.sub(r"\(.*?\)", "", cell))}
    for number in sorted(set(numbers) - promised):
        if not number.startswith("1."):
            yield f"docs/PROMISES.md: nothing is said of {number}"
    for number in sorted(promised - known):
        yield f"docs/PROMISES.md: there is no {number}"
    own = SOURCE.sub("", text + decisions)
    for number in sorted(set(re.findall(r"(?<![\d.])\d+\.\d+\.\d+(?![\d.]*\d)", own)) - known):
        yield f"docs: there is no {number}"

    listing = subprocess.run(["git", "ls-files", "--cached", "--others", "--exclude-standard"], capture_output=True, text=True)
    named = set()
    for path in listing.stdout.splitlines():
        if path == "tests/cited.py" or not os.path.isfile(path):
            continue
        try:
            words = read(path)
        except UnicodeDecodeError:
            continue  # what a program reads
        if SOURCES.match(path):
            named |= {*re.findall(r"\w+", words), *re.findall(r"\w+", path)}
        for run in re.findall(rf"SPECIFICATION(?:\.md,)? ({NUMBER}(?:(?:, | to | and |\n\W*){NUMBER})*)", words):
            for number in spread(run):
                if number not in known:
                    yield f"{path}: there is no {number}"
        for found in ELSEWHERE.findall(words):
            yield f"{path}: cites '{found}', which is not here"
    for page in NAMING:
        for cited in sorted(set(CITED.findall(read(page)))):
            if not {*re.findall(r"\w+", cited)} <= named:
                yield f"{page}: no source has {cited}"


def main():
    asked(__doc__, most=0)
    os.chdir(ROOT)
    found = list(faults())
    for fault in found:
        print(f"cited: {fault}")
    if not found:
        print("cited: every rule is promised, every open one decided, and every number and name that is cited is there")
    return 1 if found else 0


if __name__ == "__main__":
    run(main)
