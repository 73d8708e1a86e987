"""The captured exchanges of tests/captures, as the scripts beside this one read them."""
if __name__ == "__main__":
    raise SystemExit("captured.py: a module that the tests beside it import; by itself it runs nothing")

from held import ROOT

FIELDS = ("V_C", "V_S", "I_C", "I_S", "K_S", "C", "S", "X", "K_PQ", "K", "H", "signature", "INIT", "REPLY")


def words(path):
    return dict(line.split(" ", 1) for line in path.read_text().splitlines())


def fields(of):
    return {field: b"" if of[field] == "-" else bytes.fromhex(of[field]) for field in FIELDS}


def capture(name):
    """The bytes of a capture's fields."""
    return fields(words(ROOT / "tests/captures" / f"{name}.txt"))


def captures():
    """Every capture's method and the bytes of its fields."""
    paths = sorted((ROOT / "tests/captures").glob("*.txt"))
    if not paths:
        raise SystemExit("no captures in tests/captures")
    for path in paths:
        of = words(path)
        yield int(of["method"]), fields(of)


def string(b):
    return len(b).to_bytes(4, "big") + b
