"""The machines that the library is compiled for, as the scripts beside this one use them: C programs with it compiled and run, and what of it a
client, a server, both and a program that only hashes carry.

x86-64 runs itself. Debian's cross compilers make programs for the others, linked statically, and qemu runs them, a Linux program each.
There is no Linux for a cortex-m3, and no board here: its archive goes into a program for armv7, which has all of its instructions and calls by
the same rules where no floating point number crosses. The linker goes by the objects' attributes and would refuse: it gets a copy without.
So what runs is the archive's code, byte for byte, on a processor that it was not compiled for.
"""
if __name__ == '__main__':
    raise SystemExit('machines.py: a module that the tests beside it import; by itself it runs nothing')

import collections
import pathlib
import re
import shutil
import subprocess
import tempfile

from held import ROOT

WARN = ['-Wall', '-Wextra', '-Werror', '-pedantic', '-O2', f'-I{ROOT}/include']
ROLES = {'client': 1, 'server': 2, 'both': 3, 'a hash alone': 4}
VARIANTS = {'speed': 'libcastulfrisa.a', 'small': 'libcastulfrisa-small.a'}


class Machine:
    def __init__(self, name, folder, tools='', emulator=None, bare=False):
        self.name, self.folder, self.tools, self.emulator, self.bare = name, ROOT / folder, tools, emulator, bare

    def built(self):
        """Whether its archives are there, and what it takes to make a program with them."""
        return all((self.folder / file).exists() for file in VARIANTS.values()) and shutil.which(self.tools + 'gcc') is not None

    def runner(self):
        """The words ahead of a program's."""
        return [self.emulator] if self.emulator else []

    def archive(self, variant, folder):
        """The archive as a program links it; a copy goes into the folder."""
        archive = self.folder / VARIANTS[variant]
        if not self.bare:
            return archive
        copy = pathlib.Path(folder) / archive.name
        subprocess.run([self.tools + 'objcopy', '-R', '.ARM.attributes', archive, copy], check=True)
        return copy

    def program(self, archive, path, sources, *words, std='c11'):
        """A program of C sources and the archive."""
        link = ['-static'] if self.emulator else ['-Wl,-z,now']
        command = [self.tools + 'gcc', f'-std={std}', *WARN, *(ROOT / s for s in sources), archive, *link, *words, '-o', path]
        done = subprocess.run(command, capture_output=True, text=True)
        if done.returncode != 0:
            raise SystemExit(f'{self.name}: {" ".join(map(str, command))}\n{done.stderr}')
        return [*self.runner(), path]

    def calls(self, variant):
        """What an archive calls that it does not have."""
        said = subprocess.run([self.tools + 'nm', '-u', self.folder / VARIANTS[variant]], capture_output=True, text=True, check=True).stdout
        return sorted(set(re.findall(r'^\s+U (\S+)$', said, re.M)))

    def compiled_for(self, variant):
        """What an archive for ARM says of the processor: its profile, and whether it has the long instructions of ARM."""
        said = subprocess.run([self.tools + 'readelf', '-A', self.folder / VARIANTS[variant]], capture_output=True, text=True, check=True).stdout
        return dict(re.findall(r'^  Tag_(\w+): (.*)$', said, re.M))


MACHINES = {m.name: m for m in (
    Machine('x86-64', 'build'),
    Machine('aarch64', 'build/aarch64', 'aarch64-linux-gnu-', 'qemu-aarch64'),
    Machine('riscv64', 'build/riscv64', 'riscv64-linux-gnu-', 'qemu-riscv64'),
    Machine('armv7', 'build/armv7', 'arm-linux-gnueabihf-', 'qemu-arm'),
    Machine('cortex-m3', 'build/cortex-m3', 'arm-linux-gnueabihf-', 'qemu-arm', bare=True),
)}


def carried(linked):
    """The bytes of each section that a link took from the library, by its map."""
    taken = linked[linked.index('Linker script and memory map'):]
    found = re.findall(r'^ (\.\S+)\s+0x[0-9a-f]+\s+0x([0-9a-f]+) (\S+)$', taken, re.M)
    sizes = collections.Counter()
    for name, size, origin in found:
        if 'libcastulfrisa' in origin:
            sizes[name] += int(size, 16)
    return +sizes


class Carried:
    """What a host of a role carries of an archive: bytes of code and of constants, each function's, and how deep its stack goes."""
    def __init__(self, machine, variant, role):
        with tempfile.TemporaryDirectory() as folder:
            linked = pathlib.Path(folder) / 'map'
            program = machine.program(machine.archive(variant, folder), pathlib.Path(folder) / 'roles', ['host/measure/roles.c'],
                                      f'-DROLE={ROLES[role]}', '-ffunction-sections', '-pthread', '-Wl,--gc-sections', f'-Wl,-Map={linked}')
            sections = carried(linked.read_text())
            self.said = subprocess.run(program, capture_output=True, text=True, check=True).stdout
        if kept := [name for name in sections if name.startswith(('.data', '.bss', '.tdata', '.tbss'))]:
            raise SystemExit(f'{machine.name} {variant}: the library keeps something: {kept}')
        self.functions = {name.removeprefix('.text.'): size for name, size in sections.items() if name.startswith('.text.')}
        self.text = sum(size for name, size in sections.items() if name.startswith('.text'))
        self.rodata = sum(size for name, size in sections.items() if name.startswith('.rodata'))
        self.stack = int(re.search(r'^deepest (\d+)', self.said, re.M)[1])


def table(measured):
    """Rows of a machine and variant: code and constants, and the deepest stack, of a client, a server and both, and of what only hashes."""
    yield '| .text + .rodata, deepest stack | ' + ' | '.join(ROLES) + ' |'
    yield '|---' * (1 + len(ROLES)) + '|'
    for (machine, variant), roles in measured.items():
        yield f'| {machine}, {variant} | ' + ' | '.join(f'{c.text:,} + {c.rodata:,}, {c.stack:,}' for c in roles.values()) + ' |'
