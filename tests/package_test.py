#!/usr/bin/env python3
"""The packages as a user meets them, from the archives that are in build/: installed and removed again; found by pkg-config and CMake and linked
into C, C++ and Rust programs; the man pages; and packed, twice, from two folders.

usage: package_test.py

`make lib` makes what it packs. It takes 7 seconds of a core. Exits 0, 1 where a part fails or something that it needs is missing, 2 where it is called wrongly.
"""
import gzip
import hashlib
import io
import os
import pathlib
import re
import shutil
import subprocess
import sys
import tarfile
import tempfile
import time

sys.dont_write_bytecode = True
from command import asked

ROOT = pathlib.Path(__file__).resolve().parent.parent
EXAMPLES = ROOT / 'packaging/examples'
WARN = ['-Wall', '-Wextra', '-Werror', '-pedantic', '-O2']
IN_HEADER = {'castulfrisa_join', 'castulfrisa_text', 'castulfrisa_field', 'castulfrisa_wipe_stack'}
DIGEST = hashlib.sha256(b'abc').hexdigest()
# Debian's package of each program that not every machine with a compiler has
PACKAGES = {'pkg-config': 'pkgconf', 'cmake': 'cmake', 'groff': 'groff-base'}
# what would say something else than the test does
CLEAN = re.compile('MAKE|MFLAGS|(DEST|LIB|INCLUDE|MAN|DOC|PKGCONFIG|CMAKE)DIR$|PREFIX|TARGET|PKG_CONFIG|CMAKE|CARGO_(BUILD|TARGET)|CASTULFRISA|'
                   'SOURCE_DATE|GROFF')
ENV = {name: value for name, value in os.environ.items() if not CLEAN.match(name)}


class Wrong(Exception):
    pass


def holds(what, so):
    if not so:
        raise Wrong(what)


def run(*command, cwd=ROOT, umask=-1, **env):
    """What a command that must end well says; with `ends`, what one says that ends so."""
    ends = env.pop('ends', 0)
    done = subprocess.run([str(word) for word in command], cwd=cwd, env={**ENV, **env}, umask=umask, text=True, capture_output=True, timeout=300)
    said = done.stdout + done.stderr
    if done.returncode != ends:
        raise Wrong(f'{" ".join(map(str, command))} ended with {done.returncode}, not {ends}:\n{said[-3000:]}')
    return said if ends or command[0] == 'groff' else done.stdout


def make(*words, **more):
    return run('make', '--no-print-directory', *words, **more)


def package(*words, folder=ROOT, **more):
    return run(sys.executable, folder / 'packaging/package.py', *words, **more)


def tree(folder):
    """All below a folder: files with their bytes, and folders."""
    return {str(path.relative_to(folder)): None if path.is_dir() else path.read_bytes() for path in sorted(folder.rglob('*'))}


def entries():
    """The archive's entries, by nm, and those that stand in the header."""
    said = run('nm', '--defined-only', '--extern-only', ROOT / 'build/libcastulfrisa.a')
    return set(re.findall(r'(?m) T (\w+)$', said)) | IN_HEADER


def documents():
    paths = [ROOT / 'README.md', ROOT / 'CHANGELOG.md', ROOT / 'host/example.c', *(ROOT / 'docs').glob('*.md'), *(ROOT / 'docs').glob('*.svg')]
    return {str(path.relative_to(ROOT)): path for path in paths} | {f'examples/{name}.c': EXAMPLES / f'{name}.c' for name in ('hash', 'exchange')}


def flags(where, name='castulfrisa', **env):
    """What pkg-config says of a library below a folder, and of no other."""
    say = {'PKG_CONFIG_LIBDIR': str(where), **env}
    holds(f'{name}.pc has another version', run('pkg-config', '--modversion', name, **say).strip() == VERSION)
    return run('pkg-config', '--cflags', name, **say).split(), run('pkg-config', '--libs', name, **say).split()


def says(program):
    """What the two examples print, each in its own way."""
    said = run(program)
    if program.name.startswith('hash'):
        holds(f'hash said {said}', said == f'version {N}\n{DIGEST}\n')
    else:
        holds(f'exchange said {said}', said == '2 exchanges, method 1, an identifier of 32 bytes\n')


def compiled(scratch, cflags, libs, cc=('gcc', '-std=c99', '-x', 'c')):
    for name in ('hash', 'exchange'):
        program = scratch / name
        run(*cc, *WARN, *cflags, EXAMPLES / f'{name}.c', '-x', 'none', *libs, '-o', program)
        says(program)


# ---- the parts


def staged(scratch):
    """Below DESTDIR, with folders of a distribution's: exactly what belongs there, readable by all, and away again."""
    stage = scratch / 'stage'
    words = [f'DESTDIR={stage}', 'PREFIX=/usr', 'LIBDIR=/usr/lib/somewhere']
    (stage / 'usr/share/man/man3').mkdir(parents=True)
    (stage / 'usr/lib').mkdir(parents=True)
    (stage / 'usr/lib/other').write_text('not ours\n')
    before = tree(stage)
    make('install', *words, umask=0o077)

    lib = 'usr/lib/somewhere'
    ours = {'usr/include/castulfrisa.h': ROOT / 'include/castulfrisa.h', f'{lib}/libcastulfrisa.a': ROOT / 'build/libcastulfrisa.a',
            f'{lib}/libcastulfrisa-small.a': ROOT / 'build/libcastulfrisa-small.a'}
    ours |= {f'usr/share/doc/castulfrisa/{name}': path for name, path in documents().items()}
    made = {f'{lib}/pkgconfig/castulfrisa.pc', f'{lib}/pkgconfig/castulfrisa-small.pc', f'{lib}/cmake/castulfrisa/castulfrisa-config.cmake',
            f'{lib}/cmake/castulfrisa/castulfrisa-config-version.cmake', 'usr/share/doc/castulfrisa/MANIFEST', 'usr/share/man/man3/castulfrisa.3'}
    made |= {f'usr/share/man/man3/{entry}.3' for entry in entries()}
    after = tree(stage)
    files = {path for path, data in after.items() if data is not None and path not in before}
    holds(f'installed, or not: {sorted(files ^ made ^ set(ours))}', files == made | set(ours))
    for path, source in ours.items():
        holds(f'{path} is not as it was', after[path] == source.read_bytes())
    for path, data in after.items():
        mode = (stage / path).stat().st_mode & 0o777
        holds(f'{path} has mode {mode:o}', path in before or mode == (0o755 if data is None else 0o644))
        holds(f'{path} names the folder it was staged in', str(stage).encode() not in (data or b''))
    page = after['usr/share/man/man3/castulfrisa.3'].decode()
    holds('the man page has another version', f'"castulfrisa {VERSION}"' in page.splitlines()[1])

    # an older package's file goes with the next install
    old = stage / 'usr/share/doc/castulfrisa/docs/OLD.md'
    old.write_text('old\n')
    manifest = stage / 'usr/share/doc/castulfrisa/MANIFEST'
    manifest.write_text(manifest.read_text() + 'f /usr/share/doc/castulfrisa/docs/OLD.md\n')
    make('install', *words, umask=0o077)
    holds('a second install leaves something else', tree(stage) == after)

    make('uninstall', *words)
    holds(f'uninstalled, and left: {sorted(set(tree(stage)) ^ set(before))}', tree(stage) == before)
    said = make('uninstall', *words, ends=2)
    holds(f'uninstalling nothing said {said}', 'nothing is installed there' in said and 'Traceback' not in said)
    said = make('install', f'DESTDIR={stage}/', 'PREFIX=here', ends=2)
    holds(f'a relative prefix said {said}', 'must be an absolute path' in said and tree(stage) == before)
    said = make('install', f'DESTDIR={stage}', 'TARGET=pdp-11', ends=2)
    holds(f'another machine said {said}', 'there is no target pdp-11' in said and tree(stage) == before)


def by_pkg_config(scratch):
    """C and C++ below a prefix, and below DESTDIR as a distribution builds; both archives."""
    stage, prefix = scratch / 'stage', scratch / 'prefix'
    make('install', f'DESTDIR={stage}', 'PREFIX=/usr')
    system = {'PKG_CONFIG_SYSROOT_DIR': str(stage), 'PKG_CONFIG_ALLOW_SYSTEM_CFLAGS': '1', 'PKG_CONFIG_ALLOW_SYSTEM_LIBS': '1'}
    compiled(scratch, *flags(stage / 'usr/lib/pkgconfig', **system))
    make('install', f'PREFIX={prefix}')
    for name in ('castulfrisa', 'castulfrisa-small'):
        cflags, libs = flags(prefix / 'lib/pkgconfig', name)
        holds(f'{name} is linked by {libs}', libs == [f'-L{prefix}/lib', f'-l{name}'])
        compiled(scratch, cflags, libs)
    compiled(scratch, *flags(prefix / 'lib/pkgconfig'), cc=('g++', '-std=c++17', '-x', 'c++'))


def by_cmake(scratch):
    """find_package, from where the prefix was moved to."""
    make('install', f'PREFIX={scratch}/prefix')
    moved, user, build = scratch / 'moved', scratch / 'user', scratch / 'cmake'
    (scratch / 'prefix').rename(moved)
    user.mkdir()
    shutil.copy(EXAMPLES / 'hash.c', user)
    (user / 'CMakeLists.txt').write_text(f'''
cmake_minimum_required(VERSION 3.10)
project(user C)
foreach(other 0.{int(N) - 1} 0.{int(N) + 1} 1.{N} 0 {VERSION}.1)
  find_package(castulfrisa ${{other}} QUIET)
  if(castulfrisa_FOUND)
    message(FATAL_ERROR "{VERSION} was taken for ${{other}}")
  endif()
endforeach()
find_package(castulfrisa {VERSION} EXACT REQUIRED)
find_package(castulfrisa REQUIRED)
find_package(castulfrisa 0.{N} REQUIRED)
if(NOT castulfrisa_VERSION STREQUAL "{VERSION}")
  message(FATAL_ERROR "version ${{castulfrisa_VERSION}}")
endif()
add_executable(hash_speed hash.c)
target_link_libraries(hash_speed PRIVATE castulfrisa::castulfrisa)
add_executable(hash_small hash.c)
target_link_libraries(hash_small PRIVATE castulfrisa::small)
foreach(each speed:castulfrisa small:small)
  string(REPLACE ":" ";" each ${{each}})
  list(GET each 1 target)
  get_target_property(location castulfrisa::${{target}} IMPORTED_LOCATION)
  message(STATUS "at ${{location}}")
endforeach()
''')
    said = run('cmake', '-S', user, '-B', build, f'-DCMAKE_PREFIX_PATH={moved}', '-DCMAKE_BUILD_TYPE=Release')
    holds(f'CMake found {said}', re.findall('(?m)^-- at (.*)$', said) == [f'{moved}/lib/libcastulfrisa.a', f'{moved}/lib/libcastulfrisa-small.a'])
    run('cmake', '--build', build)
    says(build / 'hash_speed')
    says(build / 'hash_small')
    # what is for 64 bits is nothing for 32
    (user / 'asked.cmake').write_text(f'''
set(PACKAGE_FIND_VERSION 0.{N})
set(PACKAGE_FIND_VERSION_MAJOR 0)
set(PACKAGE_FIND_VERSION_MINOR {N})
foreach(CMAKE_SIZEOF_VOID_P 8 4)
  unset(PACKAGE_VERSION_UNSUITABLE)
  include({moved}/lib/cmake/castulfrisa/castulfrisa-config-version.cmake)
  message("${{CMAKE_SIZEOF_VOID_P}} ${{PACKAGE_VERSION_COMPATIBLE}} ${{PACKAGE_VERSION_UNSUITABLE}}")
endforeach()
''')
    done = subprocess.run(['cmake', '-P', user / 'asked.cmake'], env=ENV, text=True, capture_output=True, timeout=60)
    holds(f'pointers of 8 and of 4 bytes: {done.stderr}', done.stderr.splitlines() == ['8 TRUE ', '4 TRUE TRUE'])
    (moved / 'lib/libcastulfrisa-small.a').unlink()
    shutil.rmtree(build)
    said = run('cmake', '-S', user, '-B', build, f'-DCMAKE_PREFIX_PATH={moved}', ends=1)
    holds(f'an archive that is gone: {said}', 'libcastulfrisa-small.a is not there' in said)


def man_pages(scratch):
    """They are shown without a warning, and have all that the header has; a header that is not understood makes none."""
    make('install', f'PREFIX={scratch}/prefix')
    share = scratch / 'prefix/share/man'
    header = (ROOT / 'include/castulfrisa.h').read_text()
    for page in ('castulfrisa', 'castulfrisa_start'):
        said = run('groff', '-man', '-ww', '-z', f'man3/{page}.3', cwd=share)
        holds(f'groff warns: {said}', said == '')
    shown = ' '.join(run('groff', '-man', '-Tascii', '-P-cbou', 'man3/castulfrisa_start.3', cwd=share).split())
    missing = [name for name in entries() if f' {name}(' not in shown and f'*{name}(' not in shown]
    missing += [f'{name} {number}' for name, number in re.findall(r'(CASTULFRISA_\w+) (?:= )?(\d+)', header) if f'{name} {number}' not in shown]
    missing += [name for name in re.findall(r'\} (castulfrisa_\w+);', header) if f' {name} ' not in shown]
    missing += [line for path in EXAMPLES.glob('*.c') for line in path.read_text().splitlines() if ' '.join(line.split()) not in shown]
    holds(f'the page has no {missing}', not missing)
    for section in ('NAME', 'SYNOPSIS', 'DESCRIPTION', 'RETURN VALUE', 'EXAMPLES', 'SEE ALSO'):
        holds(f'the page has no {section}', section in shown)

    def refused(old, new, cause):
        (scratch / 'wrong.h').write_text(header.replace(old, new, 1))
        holds(f'the header has no {old!r}', old in header)
        said = run(sys.executable, ROOT / 'packaging/man.py', scratch / 'wrong.h', VERSION, '', ends=1)
        holds(f'a page of a header that is wrong: {said}', cause in said and 'Traceback' not in said)

    wipe = re.search(r'(?m)^/\* .*\*/\n(?=void castulfrisa_wipe\()', header)[0]
    refused(wipe, '', 'castulfrisa_wipe has no comment')
    refused('/* ---- for the host */\n', wipe, 'belongs to nothing')
    refused('228       /* the exchange, exactly */', '228', 'CASTULFRISA_EXCHANGE has no comment')
    refused(' = 23          /* 4,294,967,295 exchanges are complete: this session can begin no other */', ' = 23', 'a number has no comment')
    refused('uint64_t castulfrisa_version(void);', 'uint64_t (*castulfrisa_version)(void);', 'castulfrisa_version')
    refused('#define CASTULFRISA_COOKIE 16 ', '#define CASTULFRISA_COOKIE (8 + 8) ', 'CASTULFRISA_COOKIE')
    refused('   ANSWERS\n', '   REPLIES\n', 'no answers')


def copied(folder):
    """What is packed, in another folder, with the archives of every machine that are whole: others may be in the making. The machines."""
    for path in ('packaging', 'include', 'docs', 'host/castulfrisa'):
        shutil.copytree(ROOT / path, folder / path)
    for path in ('README.md', 'CHANGELOG.md', 'host/example.c', 'host/clang.sh'):
        shutil.copy(ROOT / path, folder / path)
    machines = []
    for machine in run('sh', 'host/clang.sh', 'targets').split():
        place = pathlib.Path('build', '' if machine == 'x86-64' else machine)
        files = {}
        for name in ('libcastulfrisa.a', 'libcastulfrisa-small.a'):
            try:
                data, key = (ROOT / place / name).read_bytes(), (ROOT / place / f'{name}.key').read_bytes()
            except FileNotFoundError:
                break
            if hashlib.sha256(data).hexdigest().encode() in key:
                files |= {name: data, f'{name}.key': key}
        if len(files) == 4:
            (folder / place).mkdir(parents=True)
            machines.append(machine)
            for name, data in files.items():
                (folder / place / name).write_bytes(data)
    return machines


def packed(scratch):
    """The same bytes from two folders, whoever builds, wherever and whenever; every file has its sum; what stands there can be used, also copied."""
    name = f'castulfrisa-{VERSION}.tar.gz'
    package('dist', '--into', scratch / 'one', 'x86-64')
    first = (scratch / 'one' / name).read_bytes()
    run('sha256sum', '-c', f'{name}.sha256', cwd=scratch / 'one')
    holds('gzip noted a name or a time', first[3:8] == bytes(5))
    with tarfile.open(fileobj=io.BytesIO(gzip.decompress(first))) as packing:
        members = packing.getmembers()
    names = [member.name for member in members]
    holds('the names are not sorted', names == sorted(names))
    holds('owners differ', {(m.uid, m.gid, m.uname, m.gname) for m in members} == {(0, 0, '', '')})
    holds('modes differ', {(m.isdir(), m.mode) for m in members} == {(False, 0o644), (True, 0o755)})
    committed = ['git', '-c', 'safe.directory=*', 'log', '-1', '--format=%ct']
    at = int(subprocess.run(committed, cwd=ROOT, env=ENV, capture_output=True, text=True).stdout or 0) if shutil.which('git') else 0
    holds('the times are not the last commit\'s', {m.mtime for m in members} == {at})

    other = scratch / 'another folder'
    machines = copied(other)
    elsewhere = {'cwd': scratch, 'umask': 0o077, 'SOURCE_DATE_EPOCH': str(at), 'TZ': 'Asia/Tokyo', 'LC_ALL': 'C'}
    package('dist', '--into', scratch / 'two', 'x86-64', folder=other, **elsewhere)
    holds('another folder gives other bytes', (scratch / 'two' / name).read_bytes() == first)
    package('dist', '--into', scratch / 'all', folder=other, cwd=scratch)
    with tarfile.open(scratch / 'all' / name) as packing:
        holds('without git there is a time', {member.mtime for member in packing.getmembers()} == {0})

    run('tar', 'xzf', f'all/{name}', cwd=scratch)
    top = scratch / f'castulfrisa-{VERSION}'
    inside = {path: data for path, data in tree(top).items() if data is not None}
    sums = ''.join(f'{hashlib.sha256(data).hexdigest()}  {path}\n' for path, data in sorted(inside.items()) if path != 'SHA256SUMS')
    holds('SHA256SUMS is not that of the files', inside['SHA256SUMS'].decode() == sums)
    for path, data in inside.items():
        holds(f'{path} names a folder of this machine', not any(str(folder).encode() in data for folder in (ROOT, scratch)))
    needed = ['README.md', 'SHA256SUMS', 'share/man/man3/castulfrisa.3', 'share/doc/castulfrisa/docs/HOST.md',
              *(f'rust/castulfrisa/{name}' for name in ('Cargo.toml', 'README.md', 'build.rs', 'src/lib.rs', 'examples/exchange.rs'))]
    for machine in machines:
        needed += [f'{machine}/{name}' for name in ('include/castulfrisa.h', 'lib/libcastulfrisa.a', 'lib/libcastulfrisa-small.a',
            'lib/pkgconfig/castulfrisa.pc', 'lib/pkgconfig/castulfrisa-small.pc', 'lib/cmake/castulfrisa/castulfrisa-config.cmake')]
        version = inside[f'{machine}/lib/cmake/castulfrisa/castulfrisa-config-version.cmake'].decode()
        holds(f'the pointers of {machine}', f'EQUAL {4 if machine in ("armv7", "cortex-m3") else 8})' in version)
    holds(f'not packed: {sorted(set(needed) - set(inside))}', set(needed) <= set(inside))
    holds('a licence is claimed', not re.search('(?im)^licen[sc]e', inside['rust/castulfrisa/Cargo.toml'].decode()))
    holds('the package does not say that no licence is chosen', 'No licence has been chosen' in inside['README.md'].decode())

    compiled(scratch, *flags(top / 'x86-64/lib/pkgconfig'))
    shutil.copytree(top / 'x86-64', scratch / 'copied')
    shutil.copytree(top / 'share', scratch / 'copied/share')
    compiled(scratch, *flags(scratch / 'copied/lib/pkgconfig'))

    (other / 'CHANGELOG.md').write_text(f'see {other}\n')
    said = package('dist', '--into', scratch / 'none', folder=other, ends=1)
    holds(f'a path of this machine: {said}', 'names a folder of this machine' in said and not (scratch / 'none').exists())
    (other / 'build/libcastulfrisa.a').write_bytes(b'!<arch>\n')
    said = package('dist', '--into', scratch / 'none', folder=other, ends=1)
    holds(f'an archive that is not what was built: {said}', 'is not what make lib left' in said)
    said = package('dist', '--into', scratch / 'none', 'pdp-11', ends=1)
    holds(f'no machine: {said}', 'there is no target pdp-11' in said)
    return f'for {", ".join(machines)}'


def in_rust(scratch):
    """The crate as it is packed, with an installed library; without one, and with one of another version, it says so."""
    package('dist', '--into', scratch, 'x86-64')
    run('tar', 'xzf', scratch / f'castulfrisa-{VERSION}.tar.gz', cwd=scratch)
    crate = scratch / f'castulfrisa-{VERSION}/rust/castulfrisa'
    make('install', f'PREFIX={scratch}/prefix', f'LIBDIR={scratch}/prefix/lib64')
    lib = str(scratch / 'prefix/lib64')
    cargo = ['cargo', '--offline', '--quiet']
    words = {'CARGO_TARGET_DIR': str(scratch / 'target'), 'RUST_BACKTRACE': '0'}
    holds('Cargo.toml has another version', re.search('(?m)^version = "(.*)"$', (crate / 'Cargo.toml').read_text())[1] == VERSION)

    advice = 'run make lib or set CASTULFRISA_LIB'
    for cause, line in [({'CASTULFRISA_LIB': f'{scratch}/nowhere'}, f'there is no {scratch}/nowhere/libcastulfrisa.a: {advice}'),
                        ({}, f'build/libcastulfrisa.a: {advice}'),
                        ({'CASTULFRISA_LIB': 'lib'}, 'it is an absolute path'),
                        ({'CASTULFRISA_LIB': lib, 'CASTULFRISA_VARIANT': 'fast'}, 'CASTULFRISA_VARIANT is "fast": it is speed or small')]:
        said = run(*cargo, 'check', cwd=crate, ends=101, **words, **cause)
        own = [one.strip() for one in said.splitlines() if one.strip().startswith('castulfrisa:')]
        holds(f'{cause} said {said}', len(own) == 1 and line in own[0] and 'panicked' not in said and 'stdout' not in said)

    for variant in ('speed', 'small'):
        said = run(*cargo, 'run', '--example', 'exchange', cwd=crate, CASTULFRISA_LIB=lib, CASTULFRISA_VARIANT=variant, **words)
        holds(f'the example said {said}', len(re.findall('(?m)^method [1-9], .*: complete, .*: complete, .* six keys$', said)) == 9)

    # an archive of another version: the real one with another number
    (scratch / 'other').mkdir()
    (scratch / 'other/version.c').write_text(f'unsigned long long castulfrisa_version(void) {{ return {int(N) + 1}; }}\n')
    run('ar', 'x', f'{lib}/libcastulfrisa.a', cwd=scratch / 'other')
    run('objcopy', '--redefine-sym', 'castulfrisa_version=its_own', 'boundary_c.o', cwd=scratch / 'other')
    run('gcc', '-c', 'version.c', cwd=scratch / 'other')
    run('ar', 'rcs', 'libcastulfrisa.a', 'boundary_c.o', 'version.o', cwd=scratch / 'other')
    user = scratch / 'user'
    (user / 'src').mkdir(parents=True)
    (user / 'Cargo.toml').write_text(f'''[package]
name = "user"
version = "0.0.0"
edition = "2021"

[dependencies]
castulfrisa = {{ version = "0.{N}", path = "{crate}" }}
''')
    (user / 'src/main.rs').write_text('''use castulfrisa::{Client, Greeting, Method, EXCHANGE, ROOM};

fn main() {
    let greeting = Greeting { vc: b"SSH-2.0-c", vs: b"SSH-2.0-s", ic: &[20], is: &[20] };
    let (mut exchange, mut room) = ([0; EXCHANGE], [0; ROOM]);
    let started = Client::start(Method::Curve25519Sha256, greeting, &mut exchange, &mut room);
    println!("started: {}", started.is_ok());
}
''')
    said = run(*cargo, 'run', cwd=user, CASTULFRISA_LIB=lib, **words)
    holds(f'a user said {said}', said == 'started: true\n')
    said = run(*cargo, 'run', cwd=user, ends=101, CASTULFRISA_LIB=str(scratch / 'other'), **words)
    holds(f'another version said {said}', 'the library is of another version than this crate' in said and 'started' not in said)
    run('gcc', f'-I{scratch}/prefix/include', EXAMPLES / 'hash.c', scratch / 'other/libcastulfrisa.a', '-o', scratch / 'hash')
    said = run(scratch / 'hash', ends=1)
    holds(f'a C host said {said}', f'version {int(N) + 1}' in said and DIGEST not in said)


def versions(scratch):
    """One number: the header's N and the package's P; the changes begin with it."""
    patch = (ROOT / 'packaging/patch').read_text().strip()
    holds(f'the version is {VERSION}', VERSION == f'0.{N}.{patch}' and patch.isdigit())
    first = re.search('(?m)^## (.*)$', (ROOT / 'CHANGELOG.md').read_text())[1]
    holds(f'CHANGELOG.md begins with {first}', first == VERSION)


PARTS = {versions: [], staged: ['make', 'nm'], by_pkg_config: ['make', 'gcc', 'g++', 'pkg-config'], by_cmake: ['make', 'gcc', 'cmake'],
         man_pages: ['make', 'nm', 'groff'], packed: ['gcc', 'pkg-config', 'gzip', 'tar'],
         in_rust: ['make', 'gcc', 'ar', 'objcopy', 'cargo', 'tar', 'gzip']}


def main():
    asked(__doc__, most=0)
    wrong, ran = [], []
    for part, programs in PARTS.items():
        missing = [program for program in programs if shutil.which(program) is None]
        if missing:
            wrong.append(f'{part.__name__} was not run, for want of {", ".join(f"{m} (package {PACKAGES.get(m, m)})" for m in missing)}')
            continue
        begun = time.monotonic()
        with tempfile.TemporaryDirectory(prefix='castulfrisa-') as scratch:
            try:
                more = part(pathlib.Path(scratch).resolve())
                ran.append(' '.join(filter(None, [part.__name__, more, f'{time.monotonic() - begun:.1f} s'])))
            except Wrong as why:
                wrong.append(f'{part.__name__}: {why}')
    for why in wrong:
        print(f'package: {why}')
    print(f'package: {VERSION}: {", ".join(ran)}')
    return 1 if wrong else 0


N = re.search(r'(?m)^#define CASTULFRISA_VERSION (\d+)$', (ROOT / 'include/castulfrisa.h').read_text())[1]
VERSION = package('version').strip()

if __name__ == '__main__':
    sys.exit(main())
