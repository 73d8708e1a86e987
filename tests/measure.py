#!/usr/bin/env python3
"""What the library costs: code, constants and stack of a client, of a server and of both, for each machine that it was built for; where the
bytes go; a session's memory; time, and instructions where valgrind is there to count them, against plain Rust; and the search for the first nonzero
byte of X against a loop over single bytes: time, and for each machine instructions, where qemu is there to count them.

usage: measure.py TIMING SMALL      (the program `timing` of host/differ, with the library for speed and with the one for size)

`make measure` makes both and calls it: measure.py build/cargo/release/timing build/cargo-small/release/timing. Archives of other machines count where
`make targets` left them. It takes a minute, most of it valgrind's and qemu's. Exits 0, 1 where something cannot be compiled or run, 2 where it is
called wrongly or a program is not there.
"""
import os
import pathlib
import re
import shutil
import statistics
import subprocess
import sys
import tempfile

sys.dont_write_bytecode = True
from command import asked, need, run
from held import ROOT
from machines import MACHINES, ROLES, VARIANTS, Carried, table

LARGEST = 12
WORK = {'1': ('method 1, H included', 10, 1000), '8': ('method 8, H included', 10, 1000), 'key': ('a key of 64 bytes, method 1', 10, 1000),
        'sha256': ('SHA-256 over 16 KiB', 1, 100), 'sha512': ('SHA-512 over 16 KiB', 1, 100), 'choice': ('the choice that searches longest', 1, 1)}


def said(*words):
    """What a command prints; what it complains of goes where it always goes."""
    return subprocess.run(words, stdout=subprocess.PIPE, text=True, check=True).stdout


def largest(measured):
    """The largest functions of both roles, for speed and for size side by side."""
    yield f'| x86-64, both: the {LARGEST} largest for speed | bytes | the {LARGEST} largest for size | bytes |'
    yield '|---|---|---|---|'
    columns = [sorted(measured['x86-64', variant]['both'].functions.items(), key=lambda f: -f[1])[:LARGEST] for variant in VARIANTS]
    for row in zip(*columns):
        yield '| ' + ' | '.join(f'{name} | {size:,}' for name, size in row) + ' |'


def memory(said):
    room, exchange, k, h, init, reply = map(int, re.search(r'^sizes (\d+) (\d+) (\d+) (\d+) (\d+) (\d+)$', said, re.M).groups())
    both = room + exchange + k + h
    return (f'RAM of a session: room {room:,}; exchange {exchange}; K output {k}; H {h}; output for INIT {init:,} (client) or REPLY {reply:,} (server); '
            f'in all {both + init:,} for a client and {both + reply:,} for a server, beside payloads and stack.')


def instructions(timing, side, what):
    """Of one run, by callgrind: what more runs take beyond fewer, so that the program's start does not count."""
    _, few, more = WORK[what]

    def counted(times):
        with tempfile.NamedTemporaryFile() as out:
            command = ['valgrind', '--tool=callgrind', f'--callgrind-out-file={out.name}', timing, side, what, str(times)]
            said = subprocess.run(command, capture_output=True, text=True, check=True).stderr
        return int(re.search(r'Collected : (\d+)', said)[1])

    return (counted(few + more) - counted(few)) // more


# ---- the search for the first nonzero byte of X

ZEROS = 0, 1, 32, 65, 66
PADS = range(0, 64, 4)


class Search:
    """The program of host/measure/search.c for a machine: the search out of the proved module and a loop over single bytes, compiled as an archive is."""
    def __init__(self, machine, variant, folder):
        self.machine, self.folder, self.path = machine, pathlib.Path(folder), pathlib.Path(folder) / 'search'
        self.emulator = machine.emulator or 'qemu-x86_64'
        compiled = ROOT / 'build/compiled' / f'{machine.name}-{variant}'
        need('make lib makes it', compiled / 'words')
        clang, *words = (compiled / 'words').read_text().splitlines()
        module = said(clang, '-S', '-emit-llvm', '-Xclang', '-disable-llvm-passes', '-Wno-override-module', '-x', 'ir', compiled / 'module.bc', '-o', '-')
        (self.folder / 'module.bc').write_text(module + (ROOT / 'host/measure/search.ll').read_text())
        subprocess.run(['sh', ROOT / 'host/clang.sh', clang, machine.name, variant, *words], cwd=folder, check=True)
        if machine.bare:
            subprocess.run([machine.tools + 'objcopy', '-R', '.ARM.attributes', 'module.o'], cwd=folder, check=True)
        self.link(0)

    def link(self, pad):
        self.machine.program(self.folder / 'module.o', self.path, ['host/measure/search.c'], f'-DPAD={pad}', '-static', '-no-pie')

    def times(self):
        """By the zeros in front: nanoseconds of the search and of the loop, medians of the program's turns, and of these the mean over all pads."""
        medians = []
        for pad in PADS:
            self.link(pad)
            medians.append([[float(time) for time in line.split()] for line in said(self.path, *map(str, ZEROS)).splitlines()])
        return [[statistics.mean(side) for side in zip(*pairs)] for pairs in zip(*medians, strict=True)]

    def places(self, path):
        """Each function of a file: its name, where it begins and how long it is."""
        found = re.findall(r'^(\w+) (\w+) [tT] (\S+)$', said(self.machine.tools + 'nm', '-S', path), re.M)
        return {name: (int(at, 16), int(size, 16)) for at, size, name in found}

    def instructions(self, zeros):
        """Of one search, and of the loop, which comes behind it: qemu takes them one at a time, and writes down each that is the module's."""
        own, placed, log = self.places(self.folder / 'module.o'), self.places(self.path), self.folder / 'log'
        ranges = ','.join('{:#x}+{:#x}'.format(*placed[name]) for name in own)
        # the one name up to qemu 8.0, the other from 8.1 on
        one_at_a_time = {**os.environ, 'QEMU_SINGLESTEP': '1', 'QEMU_ONE_INSN_PER_TB': '1'}
        words = [self.emulator, '-d', 'exec,nochain', '-dfilter', ranges, '-D', log, self.path, 'once', str(zeros)]
        subprocess.run(words, env=one_at_a_time, check=True)
        taken = re.findall(r'^Trace .*\] (\S+)$', log.read_text(), re.M)
        search = taken.index('by_bytes')
        if not 0 < search < len(taken) - zeros:
            raise SystemExit(f'{self.machine.name}: {self.emulator} does not take one instruction at a time')
        return search, len(taken) - search


def searches(machines):
    """Rows by machine, for how many of X's 66 bytes are zeros in front: nanoseconds here, and instructions everywhere, of the search and of the loop."""
    def row(name, pairs, form):
        return f'| {name} | ' + ' | '.join(f'{search:{form}}, {loop:{form}}: {search / loop:.2f}' for search, loop in pairs) + ' |'

    yield '| zeros in front of 66 bytes | ' + ' | '.join(map(str, ZEROS)) + ' |'
    yield '|---' * (1 + len(ZEROS)) + '|'
    counts = []
    for machine in machines:
        for variant in VARIANTS:
            with tempfile.TemporaryDirectory() as folder:
                search, name = Search(machine, variant, folder), f'{machine.name}, {variant}'
                if shutil.which(search.emulator):
                    counts.append(row(f'instructions, {name}', map(search.instructions, ZEROS), 'd'))
                else:
                    counts.append(f'| instructions, {name}: not counted, {search.emulator} is not installed |')
                if machine.emulator is None:
                    yield row(f'ns, {name}', search.times(), '.2f')
    yield from counts


def main():
    timings = dict(zip(VARIANTS, asked(__doc__, 2, 2)))
    need('make measure makes it', *timings.values(), *(MACHINES['x86-64'].folder / file for file in VARIANTS.values()))
    machines = [m for m in MACHINES.values() if m.built()]
    measured = {(m.name, v): {role: Carried(m, v, role) for role in ROLES} for m in machines for v in VARIANTS}
    print('\n'.join(table(measured)))
    if missing := [name for name in MACHINES if name not in {m.name for m in machines}]:
        print(f'\nNot built: {", ".join(missing)} (make targets).')
    print()
    print('\n'.join(largest(measured)))
    print()
    print(memory(measured['x86-64', 'speed']['both'].said))
    print()
    print('\n'.join(searches(machines)), flush=True)
    for variant, timing in timings.items():
        print(f'\nTime, {variant}:', flush=True)
        subprocess.run([timing], check=True)
    print()
    if shutil.which('valgrind') is None:
        print('Instructions: not counted, valgrind is not installed.')
        return 0
    print('| instructions | ' + ' | '.join(VARIANTS) + ' | plain Rust |')
    print('|---|---|---|---|')
    for what, (name, _, _) in WORK.items():
        counts = [instructions(timing, 'core', what) for timing in timings.values()] + [instructions(timings['speed'], 'plain', what)]
        print(f'| {name} | ' + ' | '.join(f'{n:,}' for n in counts) + ' |', flush=True)
    return 0


if __name__ == '__main__':
    run(main)
