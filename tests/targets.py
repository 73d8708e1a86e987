#!/usr/bin/env python3
"""The archives for other machines, each run under qemu and measured (`make targets`; machines.py says how a program for each is made).

Every archive: the header's test, the stack's, the bench on a script with every answer held to plain Rust's, the worked examples, published
keys and the captured exchanges through the bench, a client and a server at their largest; and it calls nothing but C's memcpy, memmove and memset.
host/example.c, a client and a server on OpenSSL's libcrypto, for the machines that Debian has a libcrypto for: not riscv64 in Debian 12.

usage: targets.py SCRIPT ANSWERS [MACHINE ...]      (a script of calls, plain Rust's answers to it; all machines but this one where none is named)

`make script` makes the first two, build/host/script and build/host/answers, `make lib TARGET=MACHINE` the archives, `make cross` installs qemu and the
cross compilers, and `make targets` does all of it and calls this. A machine takes 40 seconds of a core. Exits 0, 1 where something is wrong or cannot
be compiled or run, 2 where it is called wrongly or something is not there.
"""
import concurrent.futures
import itertools
import os
import pathlib
import subprocess
import sys

sys.dont_write_bytecode = True
from command import NAME, asked, need, refuse, run
from held import ROOT
from machines import MACHINES, ROLES, VARIANTS, Carried, table

OTHERS = {m.name: m for m in MACHINES.values() if m.emulator}
HEADER = ['tests/header_test.c', 'tests/header_steps.c', 'tests/header_32.c']
CALLED = {'memcpy', 'memmove', 'memset'}
LIBCRYPTO = {'aarch64': ('arm64', 'aarch64-linux-gnu'), 'armv7': ('armhf', 'arm-linux-gnueabihf'), 'cortex-m3': ('armhf', 'arm-linux-gnueabihf')}
FOLDER = ROOT / 'build/targets'


def libcrypto(architecture):
    """The folder of an architecture's libcrypto."""
    folder = FOLDER / architecture
    subprocess.run(['sh', ROOT / 'tests/libcrypto.sh', architecture, folder], check=True)
    return folder


class Wrong(Exception):
    pass


def said(what, command, **words):
    done = subprocess.run(command, capture_output=True, timeout=600, **words)
    if done.returncode != 0:
        raise Wrong(f'{what} ended with {done.returncode}: {(done.stdout + done.stderr).decode(errors="replace")[-2000:]}')
    return done.stdout


def tried(machine, variant, script, answers, folders):
    """Runs all there is with one archive; what ran, and what the roles carry."""
    folder = FOLDER / f'{machine.name}-{variant}'
    folder.mkdir(parents=True, exist_ok=True)
    archive = machine.archive(variant, folder)
    called = machine.calls(variant)
    if not CALLED.issuperset(called):
        raise Wrong(f'it calls {called}')
    # what runs below is a copy without these words: so that it is a microcontroller's code is held here
    if machine.bare:
        of = machine.compiled_for(variant)
        if (of.get('CPU_arch_profile'), of.get('ARM_ISA_use')) != ('Microcontroller', 'No'):
            raise Wrong(f'it is compiled for {of}')
    said('the header test', machine.program(archive, folder / 'header', HEADER))
    for level in ('-O0', '-O2'):
        said(f'the stack test {level}', machine.program(archive, folder / 'stack', ['tests/stack_test.c'], level))
    bench = machine.program(archive, folder / 'bench', ['host/bench.c'])
    with open(script) as lines:
        ours = said('the bench', bench, stdin=lines)
    if ours != answers:
        first = next(i for i, (a, b) in enumerate(itertools.zip_longest(ours.split(b'\n'), answers.split(b'\n')), 1) if a != b)
        raise Wrong(f'the bench has another answer than plain Rust, number {first}')
    said('the bench test', [sys.executable, ROOT / 'tests/bench_test.py', *bench])
    ran = f'header, stack, {len(answers.splitlines()):,} answers as plain Rust gives them, the worked examples, published keys and the captures'
    architecture, triple = LIBCRYPTO.get(machine.name, (None, None))
    if root := folders.get(architecture):
        words = [f'-I{root}/usr/include', f'-I{root}/usr/include/{triple}', f'-L{root}/usr/lib/{triple}', '-lcrypto']
        said('example.c', machine.program(archive, folder / 'example', ['host/example.c'], *words, std='c99'))
        ran += ', example.c'
    return f'{ran}; it calls {", ".join(called)}', {role: Carried(machine, variant, role) for role in ROLES}


def main():
    script, answers, *names = asked(__doc__, 2)
    built = subprocess.run(['sh', ROOT / 'host/clang.sh', 'targets'], capture_output=True, text=True, check=True).stdout.split()
    if built != list(MACHINES):
        refuse(f'{NAME}: archives are built for {", ".join(built)}, and machines.py has {", ".join(MACHINES)}')
    if strange := set(names) - OTHERS.keys():
        refuse(f'{NAME}: no machine {", ".join(strange)}; there are {", ".join(OTHERS)}')
    machines = [OTHERS[name] for name in names or OTHERS]
    need('make script makes them', script, answers)
    need('make cross installs them', *(tool for m in machines for tool in (m.emulator, m.tools + 'gcc')))
    need('make lib TARGET="aarch64 .." makes them', *(m.folder / file for m in machines for file in VARIANTS.values()))
    answers = pathlib.Path(answers).read_bytes()
    FOLDER.mkdir(parents=True, exist_ok=True)
    measured, failed = {}, False
    with concurrent.futures.ThreadPoolExecutor(os.cpu_count()) as pool:
        architectures = sorted({LIBCRYPTO[m.name][0] for m in machines if m.name in LIBCRYPTO})
        folders = dict(zip(architectures, pool.map(libcrypto, architectures)))
        jobs = {(m.name, v): pool.submit(tried, m, v, script, answers, folders) for m in machines for v in VARIANTS}
        for (machine, variant), job in jobs.items():
            try:
                ran, measured[machine, variant] = job.result()
                print(f'targets: {machine}, {variant}: {ran}', flush=True)
            except Wrong as what:
                failed = True
                print(f'targets: {machine}, {variant}: FAILED: {what}', flush=True)
    print()
    print('\n'.join(table(measured)))
    return 1 if failed else 0


if __name__ == '__main__':
    run(main)
