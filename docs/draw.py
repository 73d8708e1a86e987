#!/usr/bin/env python3
"""Draws docs/room.svg and docs/stages.svg from the tables that the code has, so that they cannot go stale.

usage: draw.py [--check | --help]

Writes both; with --check it only compares, and exits 1 with one line where one is stale. Where the tables do not fit a picture (a larger method, a
new stage, another number among the faults, an entry that is gone) it says so in one line, exits 1 and writes nothing. What it reads:
- crates/limits/src/lib.rt: the sizes; crates/methods/specs/Rows.antt: C, S, X, K's form and digest of each method;
- crates/exchange/specs: the hash input's order, what each stage has, each role's next step, where it leads, each call's causes, which are faults;
- crates/stored/specs/Stored.antt: the stages' numbers; crates/messages/specs/Payload.antt: the causes of a message;
- include/castulfrisa.h: stages, numbers, roles and their words, and which calls on an exchange there are.
"""
import collections
import functools
import math
import pathlib
import re
import sys
import xml.sax.saxutils

ROOT = pathlib.Path(__file__).resolve().parent.parent
HEADER = 'include/castulfrisa.h'
LIMITS = 'crates/limits/src/lib.rt'
ROWS = 'crates/methods/specs/Rows.antt'
PAYLOAD = 'crates/messages/specs/Payload.antt'
STORED = 'crates/stored/specs/Stored.antt'
AGAIN, BOOK, CAUSES, NUMBERS, RECORD, STEPS = (f'crates/exchange/specs/{name}.antt' for name in 'Again Book Causes Numbers Record Steps'.split())

# a string's own length bytes (RFC 4251, section 5)
PREFIX = 4
# the fields of the hash input in their order, with their colours; and the limit of those whose most is no method's
COLOURS = {'vc': '#dbe8f5', 'vs': '#dbe8f5', 'ic': '#b9d4ea', 'is': '#b9d4ea', 'ks': '#f5e3c0', 'c': '#d5ecca', 's': '#e2d8f0', 'k': '#f3c9c9'}
BOUNDS = {'vc': 'VERSION_MOST', 'vs': 'VERSION_MOST', 'ic': 'KEXINIT_MOST', 'is': 'KEXINIT_MOST', 'ks': 'BLOB_MOST'}
# the fields that not every stage has, and the definition that says which have them
HAS = {'c': 'has_c', 'ks': 'has_s', 's': 'has_s', 'k': 'has_k'}
# the stages in running text
NAMES = {
    'STARTED': 'started', 'C_SENT': 'C sent', 'INIT_READ': 'INIT read', 'REPLY_READ': 'REPLY read', 'SECRET_DONE': 'secret done',
    'COMPLETE': 'complete', 'FAILED': 'failed',
}
# the definitions' steps, by the header's entries
ENTRIES = {'own_c': 'own_c', 'init': 'read_init', 'reply': 'read_reply', 'secret': 'take_secret', 'sign': 'sign', 'verdict': 'verdict'}
# the header's calls on an exchange that are no steps, and what a picture says of each
NO_STEPS = {
    'state': 'at every stage: stage, fail, role and method',
    'session_id': 'at every stage: session identifier and count',
    'derive': 'complete: a key, by its letter',
    'init_c': "where read_init is due: its answer, C's place",
    'reply_host_key': "where read_reply is due: its answer, K_S's place",
    'reply_s': "where read_reply is due: its answer, S's place",
    'reply_signature': "where read_reply is due: its answer, the signature's",
}
# what the pictures say in words, and where a definition says it
SAID = [
    (STEPS, 'started', 'ended (start_cause', 'a refused start leaves a failed exchange'),
    (STEPS, 'started_room', '++ field is)) room', 'a refused start leaves the room'),
    (STEPS, 'room_after', 'room (zeros (length room))', 'a fault fills the room with zeros'),
    (STEPS, 'exchange_after', 'ended (number e room q) e.role e.method e.session', 'a fault leaves role, method, number and session'),
    (RECORD, 'ended', 'k = zeros k_size; h = zeros h_size; session = session', 'a fault makes K and H zeros'),
    (AGAIN, 'begun_again', 'k = zeros k_size; h = zeros h_size; session = e.session', 'again makes K and H zeros and keeps the session'),
    (AGAIN, 'again_after', '(length is)) e', 'a refused again leaves the exchange'),
]

Method = collections.namedtuple('Method', 'number name c s x form digest')
Step = collections.namedtuple('Step', 'entry stage after faults refusals')
Tables = collections.namedtuple(
    'Tables', 'room fields methods most inputs largest stages words roles paths standing faults refusals refused again kept')


def fail(line):
    raise SystemExit(f'draw.py: {line}')


def need(found, line):
    return found or fail(line)


# ---- reading

@functools.lru_cache(None)
def read(path):
    """A file's text; a definition's without its comments."""
    try:
        text = (ROOT / path).read_text(encoding='utf-8')
    except OSError:
        fail(f'{path} is not there')
    return re.sub(r'^ *--.*\n', '', text, flags=re.M) if path.endswith('.antt') else text


def equations(path, name):
    """What a definition is given, and what it is equal to, in each of its equations."""
    found = re.findall(rf'^{name}((?: [^\n=]*)?) =((?:.*\n)(?: +.*\n)*)', read(path), re.M)
    return [(given.strip(), ' '.join(words.split())) for given, words in need(found, f'{path} has no definition of {name}')]


def equal(path, name):
    """A definition of one equation."""
    return equations(path, name)[0][1]


def by_variant(path, name, variants=()):
    """A definition by the variants of what it is given: the word in parentheses, or the last."""
    found = {variant[1] or variant[2]: words for given, words in equations(path, name) if (variant := re.search(r'\((\w+)|(\w+)$', given))}
    for variant in variants:
        need(variant in found, f'{path}: {name} says nothing of {variant}')
    return found


def causes(path, name):
    """The numbers of a definition that gives the first cause, those of the causes that it cites among them."""
    words, found = equal(path, name), set()
    for cause in re.finditer(r'cause_(?:if|unless) ', words):
        at, depth = cause.end(), 0
        while depth or words[at] != ' ':
            depth += {'(': 1, ')': -1}.get(words[at], 0)
            at += 1
        found.add(int(need(re.match(r' (\d+)', words[at:]), f'{path}: {name} has a cause with no number')[1]))
    for cited in re.findall(r'\w+_cause\b', words):
        found |= causes(PAYLOAD if cited == 'message_cause' else CAUSES, cited)
    return found


def limits():
    return {name: int(number) for name, number in re.findall(r'^pub const (\w+): \w+ = (\d+);$', read(LIMITS), re.M)}


def enum(name):
    """An enum of the header: from each name to its number and its words."""
    body = need(re.search(rf'^enum castulfrisa_{name} \{{(.*?)\}};', read(HEADER), re.M | re.S), f'{HEADER} has no enum castulfrisa_{name}')
    found = re.findall(r'CASTULFRISA_(\w+) = (\d+),?(?:\s*/\* (.*?) \*/)?', body[1], re.S)
    listed_there = re.findall(r'CASTULFRISA_(\w+)', re.sub(r'/\*.*?\*/', '', body[1], flags=re.S))
    need(listed_there == [entry for entry, _, _ in found] and len({number for _, number, _ in found}) == len(found),
         f'enum castulfrisa_{name} in {HEADER} has an entry with no number, or two with the same')
    return {entry: (int(number), ' '.join(words.split())) for entry, number, words in found}


def section(heading):
    """The text of a section of the header, and the entries in it."""
    found = need(re.search(rf'^/\* ---- {heading}(.*?)^/\* ---- ', read(HEADER), re.M | re.S), f'{HEADER} has no section "{heading}"')
    return found[1], re.findall(r'^(?:\w+ )+castulfrisa_(\w+)\(', found[1], re.M)


def methods(last):
    words = equal(ROWS, 'rows')
    found = [Method(int(number), name, int(c), int(s), int(x), form, int(digest)) for number, name, c, s, x, form, digest in
             re.findall(r'\brow (\d+) "([^"]*)" (\d+) (\d+) (\d+) (\w+) (?:true|false) (\d+)', words)]
    need([method.number for method in found] == list(range(1, last + 1)) and len(found) == len(re.findall(r'\brow ', words)),
         f'{ROWS} has other rows than one for each method from 1 to METHOD_LAST, {last} in {LIMITS}')
    return found


def k_most(method):
    """The most bytes that K's body can have, by the definition's own sum."""
    forms = {given.split()[0]: words for given, words in equations(ROWS, 'most_by')}
    words = need(forms.get(method.form), f'{ROWS}: most_by does not say how long K is in the form {method.form}')
    return sum(int(term) if term.isdigit() else getattr(method, term) for term in words.split(' + '))


@functools.lru_cache(None)
def fault_range():
    found = need(re.fullmatch(r'within (\d+) (\d+) n', equal(NUMBERS, 'is_fault')), f'{NUMBERS}: is_fault is no range of numbers')
    return range(int(found[1]), int(found[2]) + 1)


def path_of(role, variants):
    """The steps of a role, from the start on, by the definitions."""
    due = by_variant(RECORD, f'{role}_next', variants)
    calls = {number: call for call, number in by_variant(STEPS, 'step_no').items()}
    fed, taken = by_variant(STEPS, 'fed_cause', calls.values()), by_variant(STEPS, 'taken', calls.values())
    stage, steps = 'Started', []
    while due[stage] != '0' and len(steps) < len(variants):
        call = calls.get(due[stage])
        need(call in ENTRIES, f'{RECORD}: a {role} has step {due[stage]} behind {stage}, {call}, and the picture has no entry for it')
        given = causes(STEPS, 'step_number') | causes(CAUSES, fed[call].split()[0])
        # the stage is named there, or in the record that is cited there
        after = re.search(rf'\b({"|".join(variants)})\b', taken[call]) or re.search(r'stage = (\w+)', equal(STEPS, taken[call].split()[0]))
        after = need(after, f'{STEPS}: taken does not say where {call} leads')[1]
        steps.append(Step(ENTRIES[call], variants[stage], variants[after], given & set(fault_range()), given - set(fault_range())))
        stage = after
    end = variants[stage]
    need(end == 'COMPLETE', f'{RECORD}: the steps of a {role} end at CASTULFRISA_{end}, and the picture at CASTULFRISA_COMPLETE')
    return steps


# ---- the tables, and whether they fit

def tables():
    limit = limits()
    for name in [*BOUNDS.values(), 'ROOM_LEAST', 'METHOD_LAST']:
        need(name in limit, f'{LIMITS} has no {name}')
    room = limit['ROOM_LEAST']
    define = need(re.search(r'^#define CASTULFRISA_ROOM (\d+)', read(HEADER), re.M), f'{HEADER} has no CASTULFRISA_ROOM')[1]
    need(int(define) == room, f'CASTULFRISA_ROOM in {HEADER} is {define}, and ROOM_LEAST in {LIMITS} is {room}')

    fields = re.findall(r'\bf\.(\w+)', equal(BOOK, 'hash_input'))
    need(fields == list(COLOURS), f'{BOOK}: the hash input has the fields {" ".join(fields)}, and the picture {" ".join(COLOURS)}')
    rows = methods(limit['METHOD_LAST'])
    most = {row.number: {**{field: limit[bound] for field, bound in BOUNDS.items()}, 'c': row.c, 's': row.s, 'k': k_most(row)} for row in rows}
    inputs = {row.number: sum(PREFIX + size for size in most[row.number].values()) for row in rows}
    largest = max(rows, key=lambda row: inputs[row.number])
    need(inputs[largest.number] == room,
         f'the largest fields that can meet, in method {largest.number}, take {inputs[largest.number]} bytes, and ROOM_LEAST in {LIMITS} is {room}')

    stages, words, variants = stage_names()
    roles = {name.lower(): number for name, (number, _) in enum('role').items()}
    need(sorted(roles) == ['client', 'server'], f'{HEADER} has the roles {" ".join(roles)}, and the picture client and server')
    paths = {role: path_of(role, variants) for role in roles}
    met = {'FAILED', *(name for path in paths.values() for step in path for name in (step.stage, step.after))}
    for name in stages:
        need(name in met, f'{RECORD}: no role comes to CASTULFRISA_{name}, and the picture has no place for it')

    steps = [step for path in paths.values() for step in path]
    faults, refusals = (set().union(*(getattr(step, kind) for step in steps)) for kind in ('faults', 'refusals'))
    refused, again = causes(CAUSES, 'start_cause'), causes(AGAIN, 'again_number')
    check_numbers(faults, refusals, refused | again)
    check_entries(paths)
    for path, name, there, what in SAID:
        need(there in equal(path, name), f'{path}: {name} has no "{there}", and the picture says that {what}')

    # what a stage has, and what beginning again keeps
    has = {field: by_variant(RECORD, name, variants) for field, name in HAS.items()}
    standing = {name: [field for field in fields if field not in has or has[field][variant] == 'true']
                for variant, name in variants.items() if name != 'FAILED'}
    kept = re.findall(r'(\w+) = l\.\1\b', equal(AGAIN, 'again_lengths'))
    need(kept and fields[:len(kept)] == kept, f'{AGAIN}: again_lengths keeps {" ".join(kept)}, which the hash input does not begin with')
    begun = standing['STARTED']
    need(fields[:len(begun)] == begun, f'{RECORD}: a started exchange has {" ".join(begun)}, which the hash input does not begin with')
    return Tables(room, fields, rows, most, inputs, largest, stages, words, roles, paths, standing, faults, refusals, refused, again, kept)


def stage_names():
    """The header's stages, with their numbers and with their words; and from the definitions' names to the header's."""
    header = enum('stage')
    stored = {variant: int(number) for variant, number in by_variant(STORED, 'stage_number').items()}
    variants = {variant: re.sub(r'(?<!^)(?=[A-Z])', '_', variant).upper() for variant in stored}
    for variant, name in variants.items():
        need(name in header, f'{HEADER} has no stage CASTULFRISA_{name}, and {STORED} has {variant}, {stored[variant]}')
        need(header[name][0] == stored[variant],
             f'CASTULFRISA_{name} is {header[name][0]} in {HEADER}, and {variant} is {stored[variant]} in {STORED}')
    for name, (number, _) in header.items():
        need(name in variants.values(), f'{HEADER} has the stage CASTULFRISA_{name}, {number}, and {STORED} has none of that name')
        need(name in NAMES, f'{HEADER} has the stage CASTULFRISA_{name}, {number}, and the pictures have no place for it')
    for name in NAMES:
        need(name in header, f'{HEADER} has no stage CASTULFRISA_{name}, and the pictures have')
    return {name: number for name, (number, _) in header.items()}, {name: words for name, (_, words) in header.items()}, variants


def check_numbers(faults, refusals, begun):
    numbers = {number: name for name, (number, _) in enum('number').items()}
    for number in sorted(faults | refusals | begun | {*fault_range()}):
        need(number in numbers, f'{HEADER} has no number {number}, which {CAUSES} gives or {NUMBERS} has among the faults')
    for number in fault_range():
        need(number in faults, f'{number}, CASTULFRISA_{numbers[number]}, is a fault in {NUMBERS}, and no step in {CAUSES} gives it')
        need(number not in begun, f'{number}, CASTULFRISA_{numbers[number]}, is a fault in {NUMBERS}, and start or again gives it')


def check_entries(paths):
    life, there = section('an exchange, in the order of its life')
    steps = {role: ['start', *(step.entry for step in path)] for role, path in paths.items()}
    same_entries({*there}, {*steps['client'], *steps['server'], 'again'}, 'the calls of an exchange')
    same_entries({*section('calls on an exchange that are no steps')[1]}, {*NO_STEPS}, 'the calls that are no steps')
    for role, entries in steps.items():
        line = need(re.search(rf'\b{role}: ([\w, ]+)\.', life), f"{HEADER} has no line of a {role}'s calls in their order")[1]
        need(line == ', '.join(entries), f'{HEADER} has "{line}" for a {role}, and the definitions have "{", ".join(entries)}"')


def same_entries(there, drawn, what):
    for entry in sorted(drawn - there):
        fail(f'{HEADER} has no castulfrisa_{entry} among {what}, and the picture has')
    for entry in sorted(there - drawn):
        fail(f'{HEADER} has castulfrisa_{entry} among {what}, and the picture has no place for it')


# ---- writing

class Picture:
    """Lines of SVG 1.1, one for each element."""

    def __init__(self, width, title, description):
        self.width, self.lines = width, []
        self.add('title', title)
        self.add('desc', ' '.join(description))

    def add(self, tag, text=None, **given):
        attributes = ''.join(f' {name.replace("_", "-")}="{value}"' for name, value in given.items())
        self.lines.append(f'<{tag}{attributes}/>' if text is None else f'<{tag}{attributes}>{xml.sax.saxutils.escape(text)}</{tag}>')

    def text(self, x, y, text, most=None, size=13, **given):
        """A line of text; `most` is how wide it may become in a wide face, at 0.6 of its size for each letter."""
        if most is not None and len(text) * size * 6 > most * 10:
            fail(f'"{text}" is too long for its place in a picture')
        self.add('text', text, x=x, y=y, **({} if size == 13 else {'font_size': size}), **given)

    def lines_of(self, x, y, lines):
        """Lines of running text; where the next would stand."""
        for n, line in enumerate(lines):
            self.text(x, y + 19 * n, line)
        return y + 19 * len(lines)

    def rule(self, y, end):
        self.add('line', x1=12, y1=y, x2=end, y2=y, stroke='#ccc')

    def box(self, x, y, width, height, fill, stroke='#555', **given):
        self.add('rect', x=x, y=y, width=width, height=height, fill=fill, stroke=stroke, **given)

    def heads(self, **colours):
        """The arrows' heads."""
        self.lines.append('<defs>')
        for name, colour in colours.items():
            self.lines.append(f'<marker id="{name}" markerWidth="10" markerHeight="8" refX="9" refY="4" orient="auto" markerUnits="userSpaceOnUse">')
            self.add('path', d='M0,0 L10,4 L0,8 z', fill=colour)
            self.lines.append('</marker>')
        self.lines.append('</defs>')

    def arrow(self, head, colour, *points):
        places = ' '.join(f'{x},{y}' for x, y in points)
        self.add('polyline', points=places, fill='none', stroke=colour, stroke_width=1.5, marker_end=f'url(#{head})')

    def bytes(self, height):
        head = (f'<svg xmlns="http://www.w3.org/2000/svg" version="1.1" width="{self.width}" height="{height}" viewBox="0 0 {self.width} {height}"'
                ' font-family="Helvetica, Arial, sans-serif" font-size="13" fill="#222">')
        # title and desc come first; then the ground, for readers whose page is dark
        ground = f'<rect x="0" y="0" width="{self.width}" height="{height}" fill="#fff"/>'
        return '\n'.join([head, *self.lines[:2], ground, *self.lines[2:], '</svg>', '']).encode()


def named(field):
    return '_'.join(field.upper())


def listed(words):
    return ' and '.join([', '.join(words[:-1]), words[-1]] if len(words) > 1 else words)


def ranged(numbers):
    """Numbers in their order, three and more that follow one another as a range."""
    runs = []
    for number in sorted(numbers):
        if runs and runs[-1][-1] == number - 1:
            runs[-1].append(number)
        else:
            runs.append([number])
    return ', '.join(f'{run[0]} to {run[-1]}' if len(run) > 2 else ', '.join(map(str, run)) for run in runs)


# ---- the room

def room(t):
    most = t.most[t.largest.number]
    begun = t.standing['STARTED']
    kept, new = [named(field) for field in t.kept], [named(field) for field in begun if field not in t.kept]

    def total(fields):
        return sum(PREFIX + most[field] for field in fields)

    # the sum: all length bytes, then fields of one limit together, and C and S
    bodies = collections.Counter()
    for field in t.fields:
        bodies[BOUNDS.get(field) or ('C and S' if field in 'cs' else field)] += most[field]
    addends = ' + '.join(f'{n:,}' for n in [PREFIX * len(t.fields), *bodies.values()])

    # stages with the same fields share a line
    blocks = {}
    for role, path in t.paths.items():
        lines = blocks[role] = []
        for stage, call in [('STARTED', 'start'), *((step.after, step.entry) for step in path)]:
            if not lines or lines[-1][2] != t.standing[stage]:
                lines.append(([], [], t.standing[stage]))
            lines[-1][0].append(NAMES[stage])
            lines[-1][1].append(call)

    # a column has what its words take, and of the other width a share by the root of its size: to scale K were a hair
    left, right, far, high, gap, base = 188, 884, 950, 30, 14, 48
    roots = [math.isqrt(100 * total([field])) for field in t.fields]
    spare = right - left - base * len(t.fields)
    ends = [left + base * n + spare * sum(roots[:n]) // sum(roots) for n in range(len(t.fields) + 1)]
    widths = {field: ends[n + 1] - ends[n] for n, field in enumerate(t.fields)}

    p = Picture(960, 'The room: the hash input as it grows', [
        f'The room is lent for the hash input and begins with its fields so far, in hashing order: {listed(list(map(named, t.fields)))}.',
        f'Each is {PREFIX} length bytes and a body. The largest that can meet are those of method {t.largest.number}, {t.largest.name}:',
        f'{", ".join(f"{named(field)} {most[field]:,}" for field in t.fields)}; in all {addends} = {t.room:,} bytes.',
        *(f'A {role}: ' + '; '.join(f'{listed(names)} ({listed(calls)}): {", ".join(map(named, fields))}, {total(fields):,} bytes'
                                    for names, calls, fields in lines) + '.' for role, lines in blocks.items()),
        'K_S goes in ahead of C, which moves up, S and K behind it. All behind the fields stays as it was.',
        f'A fault, {ranged(t.faults)}, makes every byte of the room zero.',
        f'again finds {listed(kept)}, which stay, and puts new {listed(new)} behind them: {total(begun):,} bytes.',
        f'The hash input at most, by method: {", ".join(f"{number}: {size:,}" for number, size in t.inputs.items())}.',
    ])

    def field_box(field, x, y, height, words, **given):
        p.box(x, y, widths[field], height, COLOURS[field])
        p.text(x + widths[field] // 2, y + height // 2 + 5, words, most=widths[field], text_anchor='middle', **given)

    def line(y, names, calls, boxes, amount):
        """A line of the room: its label, its boxes by field and words, how many bytes stand in it; where they end."""
        p.text(left - 12, y + 13, ', '.join(names), most=left - 18, text_anchor='end', font_weight='bold')
        p.text(left - 12, y + 28, ', '.join(calls), most=left - 18, size=12, text_anchor='end', fill='#555')
        p.text(far, y + 20, f'{amount:,}', text_anchor='end', font_weight='bold')
        at = left
        for field, words in boxes:
            field_box(field, at, y, high, words)
            at += widths[field]
        return at

    def stays(x, y, width, words, fill):
        p.box(x, y, width, high, '#f6f6f6', '#888', stroke_dasharray='4 3')
        p.text(x + width // 2, y + 20, words, most=width, size=12, text_anchor='middle', fill=fill)

    def block(y, words):
        p.rule(y - 9, far)
        p.text(12, y + 13, words, size=15, font_weight='bold', fill='#2b5c8a')

    # the columns
    p.text(left, 22, f'The largest fields that can meet, in method {t.largest.number}: {addends} = {t.room:,} bytes', font_weight='bold')
    for y, words in [(43, 'to scale'), (67, 'length bytes + body'), (97, 'bytes up to here')]:
        p.text(left - 12, y, words, text_anchor='end', fill='#555')
    p.text(far, 97, 'in all', text_anchor='end', fill='#555')
    scale = [left + (right - left) * total(t.fields[:n]) // t.room for n in range(len(t.fields) + 1)]
    for n, field in enumerate(t.fields):
        p.box(scale[n], 34, scale[n + 1] - scale[n], 10, COLOURS[field], stroke_width=0.5)
    for n, field in enumerate(t.fields):
        field_box(field, ends[n], 52, 22, f'{PREFIX} + {most[field]:,}', size=12)
        p.add('line', x1=ends[n + 1], y1=74, x2=ends[n + 1], y2=84, stroke='#555')
        p.text(ends[n + 1], 97, f'{total(t.fields[:n + 1]):,}', most=widths[field], size=12, text_anchor='end')

    # each role's stages
    y = 118
    for role, lines in blocks.items():
        block(y, role)
        before = []
        for names, calls, fields in lines:
            # a field that moves is a band from where it was to where it is
            for field in before:
                was, now = (left + sum(widths[ahead] for ahead in those[:those.index(field)]) for those in (before, fields))
                if was != now:
                    wide = widths[field]
                    p.add('polygon', points=f'{was},{y - gap} {was + wide},{y - gap} {now + wide},{y} {now},{y}', fill=COLOURS[field])
            at = line(y, names, calls, [(field, named(field)) for field in fields], total(fields))
            if at < right:
                stays(at, y, right - at, 'stays as it was' if right - at > 120 else 'stays', '#555')
            before = fields
            y += high + gap
        y += 18

    # a fault, and beginning again
    block(y, 'both')
    line(y, [NAMES['FAILED']], [f'{ranged(t.faults)} in a step'], [], 0)
    p.box(left, y, right - left, high, '#fff', '#a33')
    p.text((left + right) // 2, y + 20, "a peer's fault: every byte of the room is zero, however long it is", text_anchor='middle', fill='#a33')
    y += high + gap
    line(y, [NAMES['STARTED']], ['again'], [(field, named(field) if field in t.kept else f'new {named(field)}') for field in begun], total(begun))
    for n, field in enumerate(t.fields):
        if field not in begun:
            stays(ends[n], y, widths[field], named(field), '#888')
    y = p.lines_of(12, y + high + 22, [
        'K_S goes in ahead of C, which moves up, S and K behind it. All behind the fields stays as it was, what a longer room has too.',
        'A step that is refused without a fault leaves the room as it was, and so does a refused start or again.',
        f'Beginning again, {listed(kept)} stay where they stand, and new {listed(new)} follow. What the last exchange left behind them stays',
        f'until it is written over, K too: when an exchange is complete, the host may wipe all behind {listed(kept)}.',
    ])

    # each method's own
    p.rule(y - 6, far)
    column = (right - left) // len(t.methods)
    for name, values in [
        ('method', {method.number: method.number for method in t.methods}),
        ('C', {number: sizes['c'] for number, sizes in t.most.items()}),
        ('S', {number: sizes['s'] for number, sizes in t.most.items()}),
        ("K's body at most", {number: sizes['k'] for number, sizes in t.most.items()}),
        ('hash input at most', t.inputs),
    ]:
        y += 19
        p.text(left - 12, y - 6, name, text_anchor='end', fill='#555')
        for n, (number, value) in enumerate(values.items(), 1):
            bold = {'font_weight': 'bold'} if number == t.largest.number else {}
            p.text(left + column * n - 8, y - 6, f'{value:,}', most=column, text_anchor='end', **bold)
    return p.bytes(y + 12)


# ---- the stages

def stages(t):
    wide, high, left, gap, far = 104, 50, 92, 84, 948
    top, bottom, ends = 180, 254, 128
    middle, dark, red = (top + bottom) // 2, '#333', '#a33'
    failed = NAMES['FAILED']
    # a stage stands where the first role that has it comes to it
    columns = {}
    for path in t.paths.values():
        for n, name in enumerate(['STARTED', *(step.after for step in path)]):
            columns.setdefault(name, n)
    x = {name: left + n * (wide + gap) for name, n in columns.items()}
    for role, path in t.paths.items():
        for step in path:
            need(x[step.stage] < x[step.after] <= far - wide,
                 f'{RECORD}: a {role} goes from {NAMES[step.stage]} to {NAMES[step.after]}, and the picture has no place for it')

    p = Picture(960, 'The stages of an exchange', [
        'Each stage of an exchange, and the calls that lead from one to the next.',
        f'start leads to {NAMES["STARTED"]}; refused with {ranged(t.refused)} it leaves a {failed} exchange.',
        *(f'A {role}, role {t.roles[role]}: ' + '; '.join(
            f'{step.entry} leads from {NAMES[step.stage]} to {NAMES[step.after]}'
            + (f', and with {ranged(step.faults)} to {failed}' if step.faults else '') for step in path) + '.' for role, path in t.paths.items()),
        f'again leads from {NAMES["COMPLETE"]} back to {NAMES["STARTED"]}; refused with {ranged(t.again)} it leaves the exchange as it was.',
        f'Only another start leads out of {failed}.',
        'Stages: ' + '; '.join(f'{number} {NAMES[name]}, {t.words[name]}' for name, number in t.stages.items()) + '.',
        'Calls that are no steps: ' + '; '.join(f'{entry}, {words}' for entry, words in NO_STEPS.items()) + '.',
    ])
    p.heads(step=dark, fault=red)

    # start, and the failed
    p.box(12, middle - 17, 62, 34, '#fff', dark, rx=17, stroke_width=1.5)
    p.text(43, middle + 5, 'start', text_anchor='middle')
    p.arrow('fault', red, (74, middle), (ends, middle))
    p.text(101, middle - 7, ranged(t.refused), most=ends - 74, text_anchor='middle', fill=red)
    p.box(ends, top, x['COMPLETE'] - 20 - ends, bottom - top, '#fdf0f0', red, rx=8, stroke_width=1.5)
    for y, words, given in [
        (22, f'{failed}, stage {t.stages["FAILED"]}', {'size': 15, 'font_weight': 'bold'}),
        (43, f"{ranged(t.faults)}, a peer's fault: room, K and H are zeros; role, method, number, session identifier and count are left", {}),
        (61, f'{ranged(t.refused)}, a refused start: the room stays; role and method are 0. Only another start leads out', {}),
    ]:
        p.text((ends + x['COMPLETE'] - 20) // 2, top + y, words, text_anchor='middle', **{'size': 12, **given})

    # the first role above, the second below; way is out of the middle
    for (role, path), y, way in zip(t.paths.items(), (72, 312), (-1, 1)):
        near, outer, edge = (y + high, y, top) if way < 0 else (y, y + high, bottom)
        entry = near + 18 * way
        p.text(12, entry - 28 if way < 0 else entry + 22, role, size=16, font_weight='bold', fill='#2b5c8a')
        p.text(12, entry - 12 if way < 0 else entry + 38, f'role {t.roles[role]}', size=12, fill='#2b5c8a')
        p.arrow('step', dark, (43, middle + 17 * way), (43, entry), (left, entry))
        for name in ['STARTED', *(step.after for step in path)]:
            fill, stroke = ('#e8f6ea', '#2d7a3a') if name == 'COMPLETE' else ('#eef4fb', '#2b5c8a')
            p.box(x[name], y, wide, high, fill, stroke, rx=8, stroke_width=1.5)
            p.text(x[name] + wide // 2, y + 22, NAMES[name], most=wide, size=14, text_anchor='middle', font_weight='bold')
            p.text(x[name] + wide // 2, y + 40, f'stage {t.stages[name]}', size=12, text_anchor='middle', fill='#444')
        for step in path:
            out, to, at = x[step.stage] + wide, x[step.after], x[step.stage] + wide // 2
            p.arrow('step', dark, (out, y + high // 2), (to, y + high // 2))
            p.text((out + to) // 2 - 3, y + high // 2 - 7, step.entry, most=to - out, size=12, text_anchor='middle')
            if step.faults:
                p.arrow('fault', red, (at, near), (at, edge))
                p.text(at + 8, (near + edge) // 2 - 3, step.entry, most=wide + gap, size=12, fill=red)
                p.text(at + 8, (near + edge) // 2 + 13, ranged(step.faults), most=wide + gap, fill=red)
        back, to, beyond = x['COMPLETE'] + wide // 2, x['STARTED'] + wide // 2, outer + 32 * way
        p.arrow('step', dark, (back, outer), (back, beyond), (to, beyond), (to, outer))
        p.text((back + to) // 2, beyond - 8, 'again', text_anchor='middle')
        p.add('line', x1=back, y1=near, x2=back, y2=middle + 17 * way, stroke=dark, stroke_dasharray='3 3')
    p.box(back - 36, middle - 17, 72, 34, '#fff', dark, rx=17, stroke_dasharray='3 3')
    p.text(back, middle + 5, 'derive', text_anchor='middle')

    kept = listed([named(field) for field in t.kept])
    y = p.lines_of(12, beyond + 28, [
        f'Dark arrows are calls answered 0, red ones calls that end the exchange. A step refused with {ranged(t.refusals)} leaves exchange and room.',
        '1 is a step that is not due, and again or derive of an exchange that is not complete: all of them, once it has failed.',
        f'again keeps role, {kept}, session identifier and count; K and H are zeros. Refused with {ranged(t.again)} it leaves the exchange complete.',
    ])
    p.rule(y - 6, far)
    y += 14
    p.text(12, y, 'stages', font_weight='bold')
    p.text(520, y, 'calls that are no steps: exchange and room stay', font_weight='bold')
    for n, (name, number) in enumerate(t.stages.items(), 1):
        p.text(12, y + 19 * n, f'{number}', size=12)
        p.text(28, y + 19 * n, NAMES[name], most=90, size=12)
        p.text(118, y + 19 * n, t.words[name], most=394, size=12, fill='#444')
    for n, (entry, words) in enumerate(NO_STEPS.items(), 1):
        p.text(520, y + 19 * n, entry, most=108, size=12)
        p.text(628, y + 19 * n, words, size=12, fill='#444')
    return p.bytes(y + 19 * max(len(t.stages), len(NO_STEPS)) + 18)


def main():
    if sys.argv[1:] not in ([], ['--check']):
        print(__doc__.strip())
        return 0 if sys.argv[1:] == ['--help'] else 2
    found = tables()
    pictures = {'docs/room.svg': room(found), 'docs/stages.svg': stages(found)}
    stale = [path for path, data in pictures.items() if not (ROOT / path).exists() or (ROOT / path).read_bytes() != data]
    if stale and sys.argv[1:]:
        fail(f'{" and ".join(stale)} {"is" if len(stale) == 1 else "are"} not what the tables give; run python3 docs/draw.py')
    for path in stale:
        (ROOT / path).write_bytes(pictures[path])
    return 0


if __name__ == '__main__':
    sys.exit(main())
