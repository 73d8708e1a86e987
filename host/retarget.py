#!/usr/bin/env python3
"""The proved module's text for a machine other than x86-64: without x86-64's layout, name and attributes; with each field of a struct read from where
the module lays it; and with the alignment of what each of its functions is handed, without which a machine that has only aligned access copies records
byte by byte.

The module lays its memory out for pointers of 64 bits, each field by a place of its own, and reads a struct that a function hands back at once, by its
type: where pointers are narrower that would read the fields behind one from other places.

The module says how what stands on the stack is aligned, and not how a function's pointers are. A function that is not exported is called
from the module alone: a pointer of its is aligned as the least of what its calls hand in, which is found from above, call by call, until
nothing changes. What is not recognized, the host's pointers among it, counts as not aligned.

usage: retarget.py < MODULE > TEXT
"""
import math
import re
import sys
from collections import Counter

MOST = 8
NAME = r'(@"[^"]+"|@[\w.]+)'
CALL = rf'^  (?:%\w+ = )?call [^@\n]*{NAME}\((.*)\)'
FIELDS = r'\{ \w+(?:, \w+)* \}'
X86 = ' "probe-stack"="inline-asm" "stack-probe-size"="3072" "target-cpu"="x86-64"'


def parted(text):
    return text.split(', ') if text else []


def functions(module):
    """Each function's name: whether it is the module's own and only ever called, its parameters as written, and its lines."""
    named, called = Counter(re.findall(NAME, module)), Counter(name for name, _ in re.findall(CALL, module, re.M))
    defined = rf'^define (internal )?[^@\n]*{NAME}\(([^\n]*)\) [^\n]*\{{\n(.*?)^}}\n'
    return {name: (own != '' and named[name] == 1 + called[name], parted(parameters), body.split('\n'))
            for own, name, parameters, body in re.findall(defined, module, re.M | re.S)}


def calls(lines, aligned):
    """A function's calls: what is called, and how each argument is aligned, from how the function's own parameters are."""
    for line in lines:
        if m := re.match(r'  (%\w+) = alloca .*, align (\d+)$', line):
            aligned[m[1]] = min(MOST, int(m[2]))
        elif m := re.match(r'  (%\w+) = getelementptr (?:inbounds )?(?:nuw )?i8, ptr (%\w+), i64 (\d+)$', line):
            aligned[m[1]] = math.gcd(aligned.get(m[2], 1), int(m[3]))
        elif m := re.match(CALL, line):
            yield m[1], [aligned.get(argument.split()[-1], 1) for argument in parted(m[2])]


def alignments(module):
    """For each function how each of its parameters is aligned; only a pointer's is meant."""
    found = functions(module)
    now, before = {name: [MOST if own else 1] * len(parameters) for name, (own, parameters, _) in found.items()}, None
    while now != before:
        before = dict(now)
        for name, (_, parameters, lines) in found.items():
            for called, arguments in calls(lines, {p.split()[-1]: a for p, a in zip(parameters, now[name])}):
                if called in now:
                    now[called] = [min(pair) for pair in zip(now[called], arguments, strict=True)]
    return now


def size(field):
    return 8 if field == 'ptr' else (int(field[1:]) + 7) // 8


def by_field(read):
    """The reading of a struct, field by field, from where the module's machine has them."""
    whole, fields, place, align = read[1], read[2][2:-2].split(', '), read[3], int(read[4])
    lines, at, built = [], 0, 'poison'
    for i, field in enumerate(fields):
        at += -at % size(field)
        last = i == len(fields) - 1
        lines += [f'{whole}.at{i} = getelementptr i8, ptr {place}, i64 {at}',
                  f'{whole}.of{i} = load {field}, ptr {whole}.at{i}, align {math.gcd(align, at, size(field))}',
                  f'{whole if last else f"{whole}.to{i}"} = insertvalue {read[2]} {built}, {field} {whole}.of{i}, {i}']
        at, built = at + size(field), f'{whole}.to{i}'
    return '\n'.join(f'  {line}' for line in lines)


def main():
    module = sys.stdin.read()
    aligned = alignments(module)

    def marked(line):
        words = [re.sub(r'(?=%\w+$)', f'align {a} ', p) if p.startswith('ptr ') and a > 1 else p
                 for p, a in zip(parted(line[3]), aligned[line[2]], strict=True)]
        return f'{line[1]}{line[2]}({", ".join(words)}){line[4]}'

    module = re.sub(rf'^(define [^@\n]*){NAME}\((.*)\)( .*\{{)$', marked, module, flags=re.M)
    module = re.sub(r'^target (datalayout|triple).*\n', '', module, flags=re.M)
    module = re.sub(rf'^  (%\w+) = load ({FIELDS}), ptr (%\w+), align (\d+)$', by_field, module, flags=re.M)
    if found := re.search(r'(?:load|store|alloca|getelementptr[^,\n]*) (?!\[\d+ x i8\])[{[].*', module):
        sys.exit(f'retarget: a struct or an array at once, whose fields other machines lay elsewhere: {found[0]}')
    # an address as a number of 64 bits: where pointers are narrower, only this one of the two instructions widens it
    module = module.replace(' = ptrtoaddr ptr ', ' = ptrtoint ptr ')
    if X86 not in module or 'x86' in module.replace(X86, ''):
        sys.exit('retarget: the module has other words of x86-64 than are known')
    sys.stdout.write(module.replace(X86, ''))


if __name__ == '__main__':
    main()
