"""The command lines of the scripts beside this one: a script's docstring is its help, and the line 'usage: ..' in it the answer to a wrong call."""
if __name__ == "__main__":
    raise SystemExit("command.py: a module that the tests beside it import; by itself it runs nothing")

import os
import shutil
import subprocess
import sys

NAME = os.path.basename(sys.argv[0])


def refuse(line):
    """Ends a call that cannot be run: one line, and 2."""
    print(line, file=sys.stderr)
    sys.exit(2)


def wrong(doc):
    refuse(next(line for line in doc.splitlines() if line.startswith("usage: ")))


def asked(doc, least=0, most=None, options=()):
    """The words of the call. -h and --help print the docstring; too few words, too many, or an option that is none of these are a wrong call."""
    words = sys.argv[1:]
    if {"-h", "--help"} & set(words):
        print(doc.strip())
        sys.exit(0)
    strange = [word for word in words if word.startswith("-") and word not in options]
    if strange or len(words) < least or most is not None and len(words) > most:
        wrong(doc)
    return words


def need(made, *names):
    """Refuses where files or programs are not there, and says what makes them."""
    if missing := [str(name) for name in dict.fromkeys(names) if not os.path.exists(name) and shutil.which(name) is None]:
        refuse(f"{NAME}: not there: {', '.join(missing)}; {made}")


def run(main):
    """Runs a script. What it cannot read or start is one line, and 1."""
    try:
        sys.exit(main())
    except (OSError, subprocess.SubprocessError) as what:
        sys.exit(f"{NAME}: {what}")
