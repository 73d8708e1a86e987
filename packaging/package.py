#!/usr/bin/env python3
"""Packages of what `make lib` left in build/: nothing is built here.

usage: package.py version
       package.py install [--destdir DIR] [--target TARGET] PLACES
       package.py uninstall [--destdir DIR] --docdir DIR
       package.py dist [--into DIR] TARGET...          (no TARGET: those whose archives are in build/)

PLACES are --prefix, --libdir, --includedir, --mandir, --docdir, --pkgconfigdir and --cmakedir. dist leaves castulfrisa-VERSION.tar.gz and its sum
in DIR (build/dist); its bytes go by what is packed, and by SOURCE_DATE_EPOCH or the last commit's time, alone.
"""
import argparse
import hashlib
import io
import os
import pathlib
import re
import shutil
import subprocess
import sys
import tarfile
import time

sys.dont_write_bytecode = True
import man

ROOT = pathlib.Path(__file__).resolve().parent.parent
HERE = ROOT / 'packaging'
HEADER = ROOT / 'include/castulfrisa.h'
VARIANTS = {'castulfrisa': 'speed', 'castulfrisa-small': 'size'}
EXAMPLES = [HERE / 'examples/hash.c', HERE / 'examples/exchange.c']
PLACES = ('prefix', 'libdir', 'includedir', 'mandir', 'docdir', 'pkgconfigdir', 'cmakedir')
MANIFEST = 'MANIFEST'


class Refused(Exception):
    pass


# ---- the version, and the time


def header_version():
    return re.search(r'(?m)^#define CASTULFRISA_VERSION (\d+)$', HEADER.read_text())[1]


def version():
    return f'0.{header_version()}.{(HERE / "patch").read_text().strip()}'


def source_time():
    """When the sources were made: as whoever builds says, or the last commit's time, or none."""
    if os.environ.get('SOURCE_DATE_EPOCH'):
        return int(os.environ['SOURCE_DATE_EPOCH'])
    try:
        # whoever owns the folder: root installs what others built
        said = subprocess.run(['git', '-c', 'safe.directory=*', '-C', ROOT, 'log', '-1', '--format=%ct'], capture_output=True, text=True)
    except FileNotFoundError:
        return 0
    return int(said.stdout) if said.returncode == 0 else 0


# ---- the files, by their places


def known():
    return subprocess.run(['sh', ROOT / 'host/clang.sh', 'targets'], capture_output=True, text=True, check=True).stdout.split()


def must_be_known(targets):
    strange = [target for target in targets if target not in known()]
    if strange:
        raise Refused(f'there is no target {strange[0]}; there are: {" ".join(known())}')


def archive_path(target, name):
    return ROOT / 'build' / ('' if target == 'x86-64' else target) / f'lib{name}.a'


def archive(target, name):
    """An archive as host/lib.sh left it, whose sum stands in its key."""
    path = archive_path(target, name)
    command = 'make lib' if target == 'x86-64' else f'make lib TARGET={target}'
    try:
        data, key = path.read_bytes(), pathlib.Path(f'{path}.key').read_text()
    except FileNotFoundError:
        raise Refused(f'{path.relative_to(ROOT)} is not there: run {command}') from None
    if hashlib.sha256(data).hexdigest() not in key.split():
        raise Refused(f'{path.relative_to(ROOT)} is not what {command} left: run it again')
    return data


def filled(name, **words):
    text = re.sub('@([A-Z]+)@', lambda word: words[word[1]], (HERE / name).read_text())
    return text.encode()


def below(prefix, path):
    """A path as pkg-config has it: by the prefix where it stands below."""
    relative = os.path.relpath(path, prefix)
    return path if relative.startswith('..') else '${prefix}/' + relative


def for_machine(target, places, relocatable):
    """What one machine needs: header, archives, and what finds them."""
    archives = {name: archive(target, name) for name in VARIANTS}
    # ELF's word for 32 or 64 bits, behind its magic number
    pointer = {1: '4', 2: '8'}[archives['castulfrisa'][archives['castulfrisa'].index(b'\x7fELF') + 4]]
    files = {f'{places.includedir}/castulfrisa.h': HEADER.read_bytes()}
    prefix = '${pcfiledir}/' + os.path.relpath(places.prefix, places.pkgconfigdir) if relocatable else places.prefix
    for name, data in archives.items():
        files[f'{places.libdir}/lib{name}.a'] = data
        files[f'{places.pkgconfigdir}/{name}.pc'] = filled('castulfrisa.pc.in', NAME=name, FOR=VARIANTS[name], VERSION=version(), PREFIX=prefix,
            LIBDIR=below(places.prefix, places.libdir), INCLUDEDIR=below(places.prefix, places.includedir))
    files[f'{places.cmakedir}/castulfrisa-config.cmake'] = filled('castulfrisa-config.cmake.in',
        LIB=os.path.relpath(places.libdir, places.cmakedir), INCLUDE=os.path.relpath(places.includedir, places.cmakedir))
    files[f'{places.cmakedir}/castulfrisa-config-version.cmake'] = filled('castulfrisa-config-version.cmake.in',
        VERSION=version(), N=header_version(), POINTER=pointer)
    return files


def for_all(places):
    """The man pages and the documents, which keep the places that they have to one another in the repository."""
    text, made = HEADER.read_text(), source_time()
    date = time.strftime('%Y-%m-%d', time.gmtime(made)) if made else ''
    files = {f'{places.mandir}/man3/castulfrisa.3': man.page(text, version(), date, EXAMPLES).encode()}
    for entry in man.Header(text).entries():
        files[f'{places.mandir}/man3/{entry}.3'] = man.link().encode()
    documents = [ROOT / 'README.md', ROOT / 'CHANGELOG.md', ROOT / 'host/example.c', *(ROOT / 'docs').glob('*.md'), *(ROOT / 'docs').glob('*.svg')]
    for path in documents:
        files[f'{places.docdir}/{path.relative_to(ROOT)}'] = path.read_bytes()
    for path in EXAMPLES:
        files[f'{places.docdir}/{path.relative_to(HERE)}'] = path.read_bytes()
    return files


def crate():
    """The Rust crate's sources; its tests hold it to the repository's header, and stay there."""
    folder = ROOT / 'host/castulfrisa'
    paths = [folder / 'Cargo.toml', folder / 'README.md', folder / 'build.rs', *folder.glob('src/*.rs'), *folder.glob('examples/*.rs')]
    return {f'rust/castulfrisa/{path.relative_to(folder)}': path.read_bytes() for path in paths}


# ---- installed


def checked(places):
    for name in PLACES:
        path = getattr(places, name)
        # these go into files that pkg-config and CMake read
        if not re.fullmatch(r'/[\w/.+~@,=:-]*', path):
            raise Refused(f'{name.upper()} is {path!r}: it must be an absolute path, of letters, digits and _/.+~@,=:- alone')
        setattr(places, name, os.path.normpath(path))


def manifest(path):
    """Files and folders that an install noted; none where there is no manifest."""
    try:
        lines = path.read_text().splitlines()
    except FileNotFoundError:
        return None
    return [line[2:] for line in lines if line.startswith('f ')], [line[2:] for line in lines if line.startswith('d ')]


def make_folders(destdir, paths):
    """Makes the folders that the paths stand in; those that were not there."""
    made = set()
    for path in paths:
        for folder in reversed(pathlib.PurePosixPath(path).parents):
            here = pathlib.Path(f'{destdir}{folder}')
            if not here.exists():
                here.mkdir(parents=str(folder) == '/')
                here.chmod(0o755)
                made.add(str(folder))
    return made - {'/'}


def put(path, data):
    new = path.with_name(path.name + '.new')
    new.write_bytes(data)
    new.chmod(0o644)
    new.replace(path)


def remove(destdir, files, folders):
    for path in files:
        pathlib.Path(f'{destdir}{path}').unlink(missing_ok=True)
    for folder in sorted(folders, key=len, reverse=True):
        try:
            os.rmdir(f'{destdir}{folder}')
        except OSError: # not there, or with something in it that is not ours
            pass


def install(args):
    must_be_known([args.target])
    checked(args)
    files = {**for_machine(args.target, args, False), **for_all(args)}
    noted = f'{args.docdir}/{MANIFEST}'
    before, kept = manifest(pathlib.Path(args.destdir + noted)) or ([], [])
    folders = make_folders(args.destdir, [*files, noted]) | set(kept)
    lines = [f'd {folder}' for folder in sorted(folders)] + [f'f {path}' for path in sorted([*files, noted, *before])]
    # what is to be there and what was is noted first, so that an install that breaks off can be undone
    put(pathlib.Path(args.destdir + noted), ('\n'.join(dict.fromkeys(lines)) + '\n').encode())
    for path, data in sorted(files.items()):
        put(pathlib.Path(args.destdir + path), data)
    gone = set(before) - set(files) - {noted}
    remove(args.destdir, gone, [])
    put(pathlib.Path(args.destdir + noted), ('\n'.join(line for line in dict.fromkeys(lines) if line[2:] not in gone) + '\n').encode())
    print(f'install: castulfrisa {version()} for {args.target}, {len(files) + 1} files; {noted} names them')


def uninstall(args):
    noted = f'{os.path.normpath(args.docdir)}/{MANIFEST}'
    told = manifest(pathlib.Path(args.destdir + noted))
    if told is None:
        raise Refused(f'nothing is installed there: there is no {args.destdir}{noted}')
    remove(args.destdir, *told)
    print(f'uninstall: {len(told[0])} files')


# ---- packed


class Folders(argparse.Namespace):
    """The places below a prefix, by default."""

    def __init__(self, prefix, share):
        super().__init__(prefix=prefix, libdir=f'{prefix}/lib', includedir=f'{prefix}/include', mandir=f'{share}/man',
            docdir=f'{share}/doc/castulfrisa', pkgconfigdir=f'{prefix}/lib/pkgconfig', cmakedir=f'{prefix}/lib/cmake/castulfrisa')


def built():
    return [target for target in known() if pathlib.Path(f'{archive_path(target, "castulfrisa")}.key').exists()]


def of_this_machine(data):
    """The first of this machine's folders that stands in a file: that of the repository, or of the kit."""
    kit = shutil.which('rt')
    folders = {str(ROOT), str(pathlib.Path(kit).resolve().parent.parent) if kit else '/'} - {'/', '/usr', '/usr/local'}
    for folder in sorted(folders):
        if re.search(rb'(?<![\w./-])' + re.escape(folder.encode()) + rb'(?![\w-])', data):
            return folder
    return None


def packed(targets):
    files = {'README.md': filled('README.md.in', VERSION=version(), MACHINES=', '.join(targets)), **for_all(Folders('', 'share')), **crate()}
    for target in targets:
        files.update(for_machine(target, Folders(target, 'share'), True))
    for path, data in files.items():
        folder = of_this_machine(data)
        if folder:
            raise Refused(f'{path} names a folder of this machine: {folder}')
    sums = ''.join(f'{hashlib.sha256(data).hexdigest()}  {path}\n' for path, data in sorted(files.items()))
    return {**files, 'SHA256SUMS': sums.encode()}


def tar(files, top, at):
    """A tar of the files and their folders, by their names, all of one time and owner."""
    out = io.BytesIO()
    folders = {str(folder) for path in files for folder in pathlib.PurePosixPath(path).parents}
    with tarfile.open(fileobj=out, mode='w', format=tarfile.USTAR_FORMAT) as packing:
        for path in sorted([*files, *folders]):
            entry = tarfile.TarInfo(top if path == '.' else f'{top}/{path}')
            entry.mtime = at
            if path in folders:
                entry.type, entry.mode = tarfile.DIRTYPE, 0o755
            else:
                entry.size, entry.mode = len(files[path]), 0o644
            packing.addfile(entry, io.BytesIO(files.get(path, b'')))
    return out.getvalue()


def dist(args):
    must_be_known(args.targets)
    targets = [target for target in known() if target in (args.targets or built())]
    if not targets:
        raise Refused('there are no archives in build/: run make lib')
    top, into = f'castulfrisa-{version()}', pathlib.Path(args.into)
    files = packed(targets)
    # gzip's own compression is the same everywhere; -n leaves out name and time
    data = subprocess.run(['gzip', '-n', '-9'], input=tar(files, top, source_time()), capture_output=True, check=True).stdout
    into.mkdir(parents=True, exist_ok=True)
    put(into / f'{top}.tar.gz', data)
    put(into / f'{top}.tar.gz.sha256', f'{hashlib.sha256(data).hexdigest()}  {top}.tar.gz\n'.encode())
    print(f'dist: {os.path.relpath(into / top)}.tar.gz, {len(data)} bytes, {len(files)} files, for {", ".join(targets)}')


def main():
    parser = argparse.ArgumentParser(usage=__doc__.split('usage: ')[1])
    verbs = parser.add_subparsers(dest='verb', required=True)
    verbs.add_parser('version').set_defaults(run=lambda args: print(version()))
    verb = verbs.add_parser('install')
    verb.set_defaults(run=install)
    verb.add_argument('--destdir', default='')
    verb.add_argument('--target', default='x86-64')
    for place in PLACES:
        verb.add_argument('--' + place, required=True)
    verb = verbs.add_parser('uninstall')
    verb.set_defaults(run=uninstall)
    verb.add_argument('--destdir', default='')
    verb.add_argument('--docdir', required=True)
    verb = verbs.add_parser('dist')
    verb.set_defaults(run=dist)
    verb.add_argument('--into', default=ROOT / 'build/dist')
    verb.add_argument('targets', nargs='*')
    args = parser.parse_args()
    try:
        args.run(args)
    except (Refused, man.Unclear) as refused:
        sys.exit(f'{args.verb}: {refused}')
    except PermissionError as error:
        sys.exit(f'{args.verb}: {error.filename}: no permission')


if __name__ == '__main__':
    main()
