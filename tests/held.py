"""What the scripts beside this one share: files held to what they are computed to be."""
if __name__ == "__main__":
    raise SystemExit("held.py: a module that the tests beside it import; by itself it runs nothing")

import pathlib

from command import NAME, asked, wrong

ROOT = pathlib.Path(__file__).resolve().parent.parent


def written(doc, files):
    """Writes what files() has, each path's bytes, or with --check says which are stale; the exit status."""
    check = asked(doc, most=1, options=["--check"])
    if check not in ([], ["--check"]):
        wrong(doc)
    stale = {path: data for path, data in files().items() if not path.exists() or path.read_bytes() != data}
    for path, data in stale.items():
        if check:
            print(f"{NAME}: {path.relative_to(ROOT)} is stale; run tests/{NAME}")
        else:
            path.write_bytes(data)
    return 1 if stale and check else 0
