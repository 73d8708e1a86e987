#!/usr/bin/env python3
"""Whether every test says how it is called: -h and --help print what it tests, how long it takes and how it exits, and a wrong call, or one about a file
that is not there, is answered with one line.

usage: help_test.py

`make host` makes the programs that are called, in build; the scripts of tests stand by themselves. It takes 3 seconds. Exits 0, 1 where one answers
otherwise, 2 where it is called wrongly or a program is not there.
"""
import subprocess
import sys
import tempfile

sys.dont_write_bytecode = True
from command import asked, need, run
from held import ROOT

HEADERS = [f'host/header_{name}' for name in ('c', 'cc', 'san', 'small')]
STACKS = [f'host/stack_{name}' for name in ('0', '2', 'lazy', 'small_0', 'small_2', 'small_lazy')]
RUST = [f'cargo/release/{name}' for name in ('differ', 'captures', 'script', 'timing', 'plain_bench')]
PROGRAMS = [ROOT / 'build' / name for name in ('bench', *HEADERS, *STACKS, *RUST)]
# calls about files and programs that are not there; '.' is an empty folder
NOTHING = {
    'bench_test.py': [['no/bench'], ['.']], 'worked_test.py': [['no/bench'], ['.']], 'expect_sha2.py': [['--from', 'no/folder'], ['--from', '.']], 'measure.py': [['no/timing', 'no/small']],
    'refused.py': [['no_crate'], ['--log', 'no/log']], 'targets.py': [['no/script', 'no/answers']], 'captures': [['no/folder']],
}
# and those that must have words
WORDS = {'bench_test.py', 'worked_test.py', 'expect_sha2.py', 'libcrypto.sh', 'measure.py', 'script', 'suite.sh', 'targets.py'}


def said(command, folder):
    done = subprocess.run(command, cwd=folder, stdin=subprocess.DEVNULL, capture_output=True, text=True, timeout=60)
    return done.returncode, done.stdout.splitlines(), done.stderr.splitlines()


def faults(path, folder):
    """What is wrong with one program's answers."""
    command = [*{'.py': [sys.executable], '.sh': ['sh']}.get(path.suffix, []), path]
    status, out, errors = said([*command, '--help'], folder)
    if path.suffix == '.py' and errors == [f'{path.name}: a module that the tests beside it import; by itself it runs nothing']:
        return
    usage = [line for line in out if line.startswith('usage: ')]
    if (status, errors, len(usage)) != (0, [], 1) or not all(word in ' '.join(out) for word in ('take', 'Exits 0')):
        yield f'--help: {status}, {out}, {errors}'
    if said([*command, '-h'], folder) != (status, out, errors):
        yield '-h is another answer than --help'
    wrong = [['--no-such-option'], *([[]] if path.name in WORDS else [])]
    for words in wrong:
        if (answer := said([*command, *words], folder)) != (2, [], usage):
            yield f'the words {words}: {answer}'
    for words in NOTHING.get(path.name, []):
        status, out, errors = said([*command, *words], folder)
        if status not in (1, 2) or out or len(errors) != 1:
            yield f'the words {words}: {status}, {out}, {errors}'


def main():
    asked(__doc__, most=0)
    need('make host makes them', *PROGRAMS)
    paths = [*sorted((ROOT / 'tests').glob('*.py')), *sorted((ROOT / 'tests').glob('*.sh')), *PROGRAMS]
    with tempfile.TemporaryDirectory() as folder:
        found = [f'{path.relative_to(ROOT)}: {fault}' for path in paths for fault in faults(path, folder)]
    for fault in found:
        print('help:', fault, file=sys.stderr)
    print(f'help: {len(paths)} programs say how they are called' if not found else f'help: {len(found)} answers are wrong')
    return 1 if found else 0


if __name__ == '__main__':
    run(main)
