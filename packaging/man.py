#!/usr/bin/env python3
"""castulfrisa(3), made from the header: what the page says of the library is what the header says, in its order and its words, but for a few lines of
notation. Where an entry has no comment, or the header has a shape that is not understood here, there is no page.

usage: man.py HEADER VERSION DATE EXAMPLE...      (a DATE of '' is none; the page goes to standard output)
"""
import pathlib
import re
import sys
import textwrap

WIDTH = 71 # of a page's 78 columns, seven of which stand ahead
DEFINED_BESIDE = {'CASTULFRISA_H', 'CASTULFRISA_MUST_USE', 'CASTULFRISA_NOINLINE'} # no sizes: the header's own guard and its attributes
COMMENT = r'/\*(?:(?!\*/).)*\*/'


class Unclear(Exception):
    pass


# ---- the header, read


class Header:
    """What the header has, in its order: opening, sections (each a title, an introduction and groups of entries), sizes, enums and structs."""

    def __init__(self, text):
        self.opening, self.version, self.sections = None, None, []
        self.sizes, self.enums, self.structs = [], [], []
        self.doc, self.last = None, None
        for kind, piece, apart in pieces(re.sub(r'(?s)#ifdef __cplusplus\n.*?#endif\n', '', text)):
            getattr(self, kind)(piece, apart)
        if self.doc is not None:
            raise Unclear(f'a comment belongs to nothing: {self.doc[0]}')
        # by another reading: a name of the library's and an opening bracket, outside comments and bodies
        bare = re.sub(f'(?s){COMMENT}', '', text)
        named = set(re.findall(r'\b(castulfrisa_\w+)\(', bare))
        if named != set(self.entries()):
            raise Unclear(f'entries that were not read: {sorted(named ^ set(self.entries()))}')

    def entries(self):
        return [entry.name for section in self.sections for group in section.groups for entry in group.entries]

    def taken(self):
        """The comment that stands ahead, which is then no other's."""
        doc, self.doc = self.doc, None
        return doc

    def comment(self, piece, apart):
        lines = comment_lines(piece)
        if self.opening is None:
            self.opening = lines
        elif lines[0].startswith('---- '):
            self.sections.append(Section(lines))
        elif self.doc is not None:
            raise Unclear(f'a comment belongs to nothing: {self.doc[0]}')
        else:
            self.doc = lines
        self.last = None

    def directive(self, piece, apart):
        word = re.match(r'# *(\w+)', piece)
        if word is None or word[1] not in ('define', 'include', 'if', 'ifdef', 'ifndef', 'elif', 'else', 'endif'):
            raise Unclear(piece)
        if word[1] != 'define':
            return # a comment ahead of it is that of what stands inside
        name = re.match(r'#define (CASTULFRISA_\w+)', piece)
        size = re.fullmatch(rf'#define (CASTULFRISA_\w+) (\d+)\s*({COMMENT})?', piece)
        if name is None or (size is None) != (name[1] in DEFINED_BESIDE):
            raise Unclear(piece)
        doc = self.taken()
        if size is None:
            return
        lines = doc if size[3] is None else comment_lines(size[3])
        if lines is None:
            raise Unclear(f'{size[1]} has no comment')
        if size[1] == 'CASTULFRISA_VERSION':
            self.version = (size[2], lines)
        else:
            self.sizes.append((size[1], size[2], ' '.join(lines)))

    def declaration(self, piece, apart):
        if piece.startswith('enum '):
            self.enums.append(Enum(piece, self.taken()))
        elif piece.startswith('typedef '):
            self.structs.append(Struct(piece, self.taken()))
        else:
            self.function(Entry(piece), apart)

    def function(self, entry, apart):
        if not self.sections:
            raise Unclear(f'{entry.name} stands in no section')
        doc = self.taken()
        if doc is not None:
            self.last = Group(doc)
            self.sections[-1].groups.append(self.last)
        elif self.last is None or apart:
            raise Unclear(f'{entry.name} has no comment')
        self.last.entries.append(entry)


def pieces(text):
    """The header's comments, directives and declarations, and whether a line stands empty ahead of each."""
    at = 0
    while True:
        ahead = re.compile(r'\s*').match(text, at)
        at = ahead.end()
        if at == len(text):
            return
        if text.startswith('/*', at):
            kind, end = 'comment', text.find('*/', at) + 2
        elif text[at] == '#':
            kind, end = 'directive', (text + '\n').index('\n', at)
        else:
            kind, end = 'declaration', declaration_end(text, at)
        if end < at or text[at:end].endswith('\\'):
            raise Unclear(text[at:at + 60])
        yield kind, text[at:end], ahead[0].count('\n') > 1
        at = end


def declaration_end(text, at):
    """Behind the semicolon of a declaration, or the bracket that closes a function."""
    function, depth = not re.compile('enum|typedef').match(text, at), 0
    for token in re.compile(rf'(?s){COMMENT}|"(?:[^"\\]|\\.)*"|[{{}};]').finditer(text, at):
        depth += (token[0] == '{') - (token[0] == '}')
        if depth == 0 and (token[0] == ';' or (token[0] == '}' and function)):
            return token.end()
    raise Unclear(text[at:at + 60])


def comment_lines(piece):
    """A comment's lines, without its marks and without the three spaces that stand ahead of each but the first."""
    first, *rest = piece[2:-2].rstrip().split('\n')
    if any(line and not line.startswith('   ') for line in rest):
        raise Unclear(f'a comment whose lines do not stand below one another: {first}')
    return [first.strip(), *(line[3:].rstrip() for line in rest)]


class Section:
    def __init__(self, lines):
        title, _, told = lines[0][5:].partition(': ')
        self.title, self.intro, self.groups = sentence(title), ([sentence(told) + '.'] if told else []) + lines[1:], []


class Group:
    """Entries with one comment."""

    def __init__(self, doc):
        self.doc, self.entries = doc, []


class Entry:
    def __init__(self, piece):
        head = re.sub(r'\b(CASTULFRISA_MUST_USE|CASTULFRISA_NOINLINE|static|inline)\b', '', piece.split('{')[0]).rstrip('; \n')
        head = ' '.join(head.split()).replace('( ', '(')
        parts = re.fullmatch(r'((?:const )?\w+ \*?)(castulfrisa_\w+)\((.*)\)', head)
        if parts is None:
            raise Unclear(head)
        self.returns, self.name = parts[1], parts[2]
        # a type, a name, and for an array its size
        self.parameters = [re.fullmatch(r'((?:const )?\w+ \*?)(\w+)(\[\w+\])?', one) for one in parts[3].split(', ') if one != 'void']
        if None in self.parameters:
            raise Unclear(head)


class Enum:
    def __init__(self, piece, doc):
        head = re.fullmatch(r'(?s)enum (castulfrisa_\w+) \{(.*)\};', piece)
        case = re.compile(rf'(?s)\s*(CASTULFRISA_\w+) = (\d+)(,|\s*$|(?=\s*/\*))\s*({COMMENT})?')
        if head is None or case.sub('', head[2]).strip():
            raise Unclear(piece)
        self.name, self.doc = head[1], doc
        self.cases = [(c[1], c[2], words(c[4])) for c in case.finditer(head[2])]


class Struct:
    def __init__(self, piece, doc):
        head = re.fullmatch(r'(?s)typedef struct \{(.*)\} (castulfrisa_\w+);', piece)
        field = re.compile(rf'(?s)\s*((?:const )?\w+) (\*?\w+(?:, \w+)*);[ \t]*({COMMENT})?')
        if head is None or field.sub('', head[1]).strip():
            raise Unclear(piece)
        self.name, self.doc = head[2], doc
        self.fields = [(f[1], f[2], words(f[3])) for f in field.finditer(head[1])]


def sentence(text):
    return text[0].upper() + text[1:]


def words(comment):
    return '' if comment is None else ' '.join(comment[2:-2].split())


# ---- a comment's blocks


def blocks(lines, names=()):
    """(kind, tag, text) of a comment's headings, bullets, parameters told one by one, and paragraphs. A line that ends a sentence ahead of its
    time ends a paragraph, and so does one ahead of the numbers."""
    out = []
    for i, line in enumerate(lines):
        before = lines[i - 1] if i else ''
        told = re.match(r'(\w+(?:, \w+)*) +', line)
        ended = before.endswith('.') and (re.match(r'\d+( to \d+)?[:;,] ', line) or len(before) + 1 + len(line.split(' ')[0]) < 115)
        if not line:
            continue
        if re.fullmatch('[A-Z][A-Z ]+', line):
            out.append(['heading', '', line.capitalize()])
        elif line.startswith('- '):
            out.append(['bullet', '', line[2:]])
        elif told and len(told[0]) == 8 and set(told[1].split(', ')) <= set(names):
            out.append(['parameter', told[1], line[8:]])
        elif line.startswith(' ' * 8 if out and out[-1][0] == 'parameter' else '  ') and out and out[-1][0] in ('bullet', 'parameter'):
            out[-1][2] += ' ' + line.strip()
        elif line.startswith(' '):
            raise Unclear(f'a line of a comment that goes on from nothing: {line}')
        elif out and out[-1][0] == 'text' and before and not ended:
            out[-1][2] += ' ' + line
        else:
            out.append(['text', '', line])
    # numbers that stand behind a sentence, on its line
    numbers = re.compile(r'(?<=\.) (?=\d+(?: to \d+)?[:;] )')
    return [[kind, tag, part] for kind, tag, text in out for part in (numbers.split(text) if kind == 'text' else [text])]


# ---- the page

# What the header's letters stand for, which are those of the RFCs.
NOTATION = [
    ('V_C, V_S', 'The version lines of client and server.'),
    ('I_C, I_S', 'The payloads of their KEXINITs.'),
    ('C, S', "Their public values, as they go over the wire: RFC 5656's Q_C and Q_S; in methods 7 to 9 the KEM's part, and the classical one "
             'behind it.'),
    ('INIT, REPLY', "The payloads of the messages 30 and 31: the client's with C, and the server's with K_S, S and the signature."),
    ('K_S', "The server's host key, as a blob. The library asks for no form of it, nor of the signature."),
    ('X, K_PQ', 'What the classical primitive gave, and what the KEM gave.'),
    ('K', 'The shared secret, as it is hashed: an mpint, in methods 7 to 9 a string.'),
    ('H', 'The exchange hash. The first `digest_len` bytes of it (castulfrisa_method_sizes()) are what is signed, and verified.'),
]


def escaped(text):
    return text.replace('\\', '\\e')


def prose(text):
    """Running text: the library's names bold, what stands in backquotes italic, a line for a sentence."""
    text = re.sub(r'(?<![\w])-(?=\d)', r'\-', escaped(text))
    text = re.sub(r'\b(castulfrisa_\w+(?:\(\))?|CASTULFRISA_\w+)', r'\\fB\1\\fP', text)
    text = re.sub(r'`([^`]+)`', r'\\fI\1\\fP', text)
    lines = []
    for run in text.split('   '): # the header's own break within a line
        lines += ['.br'] if lines else []
        for one in re.split(r'(?<=[.?!]) (?=[A-Z\\])', run):
            lines += textwrap.wrap(one, WIDTH, break_long_words=False, break_on_hyphens=False)
    return ['\\&' + line if line[0] in ".'" and line != '.br' else line for line in lines]


def quoted(text):
    return '"' + escaped(text).replace('"', '""') + '"'


def comment(lines, names=()):
    out = []
    for kind, tag, text in blocks(lines, names):
        out += {'heading': [], 'bullet': ['.IP \\(bu 2'], 'parameter': ['.TP', f'.I {quoted(tag)}'], 'text': ['.PP']}[kind]
        out += [f'.SS {quoted(text)}'] if kind == 'heading' else prose(text)
    return out


def prototype(entry):
    """The entry as C has it, its parameters italic, in lines that fit."""
    lines, column = [[('B', entry.returns + entry.name + '(')]], len(entry.returns + entry.name) + 1
    ends = [','] * (len(entry.parameters) - 1) + [');']
    for parameter, end in zip(entry.parameters, ends):
        of, name, size = parameter[1], parameter[2], parameter[3] or ''
        width = len(of + name + size + end)
        if len(lines[-1]) > 1 and lines[-1][-1][1] != '    ' and column + 1 + width > WIDTH or column + width > WIDTH:
            lines.append([('B', '    ')])
            column = 4
        elif lines[-1][-1][1].endswith(','):
            lines[-1].append(('B', ' '))
            column += 1
        lines[-1] += [('B', of), ('I', name), ('B', size + end)]
        column += width
    if not entry.parameters:
        lines[-1].append(('B', 'void);'))
    return [alternating(line) for line in lines]


def alternating(runs):
    """A line of runs, bold and italic by turns."""
    joined = []
    for font, text in runs:
        if joined and joined[-1][0] == font:
            joined[-1][1] += text
        else:
            joined.append([font, text])
    return ('.B ' if len(joined) == 1 else '.BI ') + ' '.join(quoted(text) for _, text in joined)


def entries(section):
    out = [f'.SS {quoted(section.title)}', *comment(section.intro)]
    for group in section.groups:
        names = {p[2] for entry in group.entries for p in entry.parameters}
        out += ['.PP', '.nf', *(line for entry in group.entries for line in prototype(entry)), '.fi', '.RS 4', *comment(group.doc, names)[1:], '.RE']
    return out


def cases(enum):
    return [line for name, number, text in enum.cases for line in told(f'.BR {name} " {number}"', text)]


def told(tag, text):
    """A line, and what there is to say of it."""
    return ['.TP', tag, *prose(text)] if text else ['.PP', tag]


def listed(name, doc, lines):
    return ['.PP', f'.B {quoted(name)}', *(['.br', *prose(' '.join(doc))] if doc else []), '.RS 4', '.PD 0', *lines, '.PD', '.RE']


def struct(of):
    return listed(of.name, of.doc, [line for kind, names, text in of.fields for line in told(f'.BI {quoted(kind + " ")} {quoted(names)}', text)])


def example(path):
    lines = [escaped(line).replace('-', '\\-').replace("'", '\\(aq').replace('`', '\\(ga').replace('^', '\\(ha').replace('~', '\\(ti')
             for line in path.read_text().splitlines()]
    return ['.PP', '.nf', *('\\&' + line if line[:1] in ('.', '\\') else line for line in lines), '.fi']


def page(text, version, date, examples):
    header = Header(text)
    opening = blocks(header.opening)
    # "castulfrisa: the key-exchange core of SSH, as one static library ..."
    name = re.match(r'castulfrisa: ([^,]+),', opening[0][2])
    after = [i for i, block in enumerate(opening) if block[0] == 'heading' and block[2] == 'Answers']
    given = [enum for enum in header.enums if enum.name == 'castulfrisa_number']
    of_numbers = [section for section in header.sections if section.title.startswith('Numbers given back')]
    if not (name and after and given and of_numbers and header.version):
        raise Unclear('the opening has no name or no answers, or there is no enum castulfrisa_number, no section for it, no CASTULFRISA_VERSION')
    if [case for case in given[0].cases if not case[2]]:
        raise Unclear('a number has no comment')
    n, of_version = header.version
    out = [
        r'.\" Made from include/castulfrisa.h by packaging/man.py.',
        f'.TH CASTULFRISA 3 {quoted(date)} {quoted("castulfrisa " + version)} "Library Functions Manual"',
        '.nh', '.ad l', # names are not cut
        '.SH NAME', rf'castulfrisa \- {name[1]}',
        '.SH SYNOPSIS', '.nf', '.B #include <castulfrisa.h>', '.PP',
        '.BI "cc $(pkg\\-config \\-\\-cflags castulfrisa) " host.c " $(pkg\\-config \\-\\-libs castulfrisa)"', '.fi', '.PP',
        'or', '.B castulfrisa\\-small', 'in its place, both times; from CMake,', '.B find_package(castulfrisa)',
        'and link', '.B castulfrisa::castulfrisa', 'or', '.BR castulfrisa::small .',
        '.SH DESCRIPTION', *comment([header.opening[0].replace('castulfrisa: ', 'castulfrisa is ', 1), *header.opening[1:]])[1:],
        '.SH NOTATION', *(line for letters, text in NOTATION for line in ('.TP', f'.B {quoted(letters)}', *prose(text))),
        '.SH SIZES', 'In bytes.', '.PD 0',
    ]
    for size, value, text in header.sizes:
        out += told(f'.BR {size} " {value}"', text)
    out += ['.PD', '.SH NUMBERS', 'Those that are handed in, or told; those that a call gives back stand under', '.BR "RETURN VALUE" .']
    for enum in header.enums:
        out += listed('enum ' + enum.name, enum.doc, cases(enum)) if enum is not given[0] else []
    out += ['.SH TYPES', 'What calls tell, and what', '.BR castulfrisa_join ()', 'takes.']
    for of in header.structs:
        out += struct(of)
    out += ['.SH FUNCTIONS', 'With each stand the numbers other than 0 that it gives back,', 'and what each is for.']
    for section in header.sections:
        out += entries(section) if section.groups else []
    out += ['.SH RETURN VALUE', *prose(opening[after[0] + 1][2]), *comment(of_numbers[0].intro), '.PP', '.PD 0', *cases(given[0]), '.PD']
    out += ['.SH VERSIONS', f'This page is of castulfrisa {version}, whose second number is', '.BR CASTULFRISA_VERSION .',
            *told(f'.BR CASTULFRISA_VERSION " {n}"', ' '.join(of_version))]
    if examples:
        out += ['.SH EXAMPLES']
        for path in examples:
            out += example(path)
    out += ['.SH SEE ALSO', 'Among the documents of the package,', '.I share/doc/castulfrisa\\fR:', '.I docs/HOST.md',
            'says which call comes when, what to do on each number,', 'what to keep and what to wipe;', '.I CHANGELOG.md',
            'what changed from version to version.', '.PP', 'RFC 4251, RFC 4253, RFC 5656, RFC 8731, FIPS 180\\-4.',
            '.SH COPYRIGHT', 'No licence has been chosen yet;', '.I README.md', 'among the documents says whose choice that is.']
    # the first paragraph below a heading needs no word for it
    out = [line for before, line in zip(['', *out], out) if line != '.PP' or before[:3] not in ('.SH', '.SS')]
    return '\n'.join(out) + '\n'


def link():
    """The page of an entry."""
    return '.so man3/castulfrisa.3\n'


if __name__ == '__main__':
    if len(sys.argv) < 4:
        if {'-h', '--help'} & set(sys.argv[1:]):
            print(__doc__.strip())
            sys.exit(0)
        sys.exit(__doc__)
    try:
        sys.stdout.write(page(pathlib.Path(sys.argv[1]).read_text(), sys.argv[2], sys.argv[3], [pathlib.Path(path) for path in sys.argv[4:]]))
    except Unclear as unclear:
        sys.exit(f'man: {sys.argv[1]}: {unclear}')
