"""The packages of a release. Each function takes a folder to work in and the folder of the release, and returns the name
of the file that it made there. Modification times are SOURCE_DATE_EPOCH, owners root."""
import gzip, json, os, pathlib, re, shutil, subprocess, tarfile
from dataclasses import dataclass
from functools import partial
from .tree import BINDINGS, CRATE_VERSION, Refused, TOP, VERSION, output_of, run

# the system's, for which Debian has pip, setuptools and wheel
PYTHON = '/usr/bin/python3'
TOOLS = {'cc': 'gcc', 'ar': 'binutils', 'dpkg-deb': 'dpkg', 'node': 'nodejs', 'npm': 'npm', 'cargo': 'cargo',
         'aarch64-linux-gnu-gcc': 'gcc-aarch64-linux-gnu'}


@dataclass(frozen=True)
class Machine:
    name: str
    debian: str
    options: tuple
    library: pathlib.Path
    objdump: str

    @property
    def triplet(self):
        return f'{self.name}-linux-gnu'

    def glibc(self):
        """The oldest release of glibc, but none before 2.17, that has all that the shared library calls, as `2.17`."""
        symbols = output_of(self.objdump, '-T', self.library / 'libsourcemap.so')
        minor = max([17, *(int(version) for version in re.findall(r'GLIBC_2[.]([0-9]+)', symbols))])
        return f'2.{minor}'


X86 = Machine('x86_64', 'amd64', (), BINDINGS / 'c/out', 'objdump')
ARM = Machine('aarch64', 'arm64', ('--aarch64',), BINDINGS / 'c/out/aarch64', 'aarch64-linux-gnu-objdump')
DEBIAN = 'libfurzehearth-sourcemap-dev'
CONTROL = """\
Package: {name}
Version: {version}
Architecture: {machine}
Maintainer: Furzehearth <packages@furzehearth.invalid>
Section: libdevel
Priority: optional
Depends: libc6 (>= {glibc})
Description: JavaScript source maps, by proved code
 Header, static and shared library. The names are those of the Rust crate
 sourcemap {crate}.
"""


def require_tools():
    missing = {package for command, package in TOOLS.items() if not shutil.which(command)}
    modules = subprocess.run([PYTHON, '-c', 'import setuptools, wheel, pip'], stderr=subprocess.DEVNULL)
    if modules.returncode:
        missing.add('python3-pip python3-setuptools python3-wheel')
    if missing:
        raise Refused(f'missing: {" ".join(sorted(missing))}; bindings/install-tools release installs them')


def epoch():
    return int(os.environ['SOURCE_DATE_EPOCH'])


def install_c(machine, prefix, library='lib'):
    """Copies header, libraries and sourcemap.pc below a prefix."""
    run(BINDINGS / 'c/install', *(machine.options or ['--no-program']), prefix)
    if library != 'lib':
        moved = (prefix / 'lib').rename(prefix / 'moved')
        (prefix / library).parent.mkdir(parents=True)
        moved.rename(prefix / library)


def write_tar(folder, file, root):
    """A compressed tar of a folder, the same on each machine: sorted, with one time and one owner."""
    def plain(entry):
        entry.mtime, entry.uid, entry.gid, entry.uname, entry.gname = epoch(), 0, 0, 'root', 'root'
        entry.mode = 0o755 if entry.isdir() or entry.mode & 0o100 else 0o644
        return entry

    with open(file, 'wb') as raw, gzip.GzipFile('', 'wb', mtime=epoch(), fileobj=raw) as packed, \
            tarfile.open(fileobj=packed, mode='w', format=tarfile.PAX_FORMAT) as tar:
        for path in sorted([folder, *folder.rglob('*')]):
            tar.add(path, pathlib.Path(root, path.relative_to(folder)), recursive=False, filter=plain)


def c_library(machine, work, dist):
    run(BINDINGS / 'c/build', *machine.options)
    install_c(machine, work)
    (work / 'examples').mkdir()
    for file, folder in (('LICENSE', '.'), ('bindings/c/README.md', '.'),
                         ('bindings/c/examples/lookup.c', 'examples'), ('examples/readme.map', 'examples')):
        shutil.copy(TOP / file, work / folder)
    name = f'sourcemap-{VERSION}-{machine.name}-linux'
    write_tar(work, dist / f'{name}.tar.gz', name)
    return f'{name}.tar.gz'


def set_modes(folder):
    """Makes all below a folder readable by all: packages keep the modes of files, and a checkout has the user's mask."""
    for path in folder.rglob('*'):
        if not path.is_symlink():
            path.chmod(0o755 if path.is_dir() else 0o644)


def debian(machine, work, dist):
    library = f'lib/{machine.triplet}'
    install_c(machine, work / 'usr', library)
    pc = work / 'usr' / library / 'pkgconfig/sourcemap.pc'
    lines = pc.read_text().splitlines(True)
    pc.write_text(''.join('prefix=/usr\n' if line.startswith('prefix=') else
                          f'libdir=${{prefix}}/{library}\n' if line.startswith('libdir=') else line for line in lines))
    page = work / 'usr/share/doc' / DEBIAN / 'copyright'
    page.parent.mkdir(parents=True)
    shutil.copy(TOP / 'LICENSE', page)
    (work / 'DEBIAN').mkdir()
    (work / 'DEBIAN/control').write_text(CONTROL.format(
        name=DEBIAN, version=VERSION, machine=machine.debian, glibc=machine.glibc(), crate=CRATE_VERSION))
    (work / 'DEBIAN/triggers').write_text('activate-noawait ldconfig\n')
    set_modes(work)
    name = f'{DEBIAN}_{VERSION}_{machine.debian}.deb'
    run('dpkg-deb', '--root-owner-group', '--build', work, dist / name)
    return name


def copy_package(name, work):
    """Copies the files of a package that git tracks."""
    for file in output_of('git', 'ls-files', '-z', cwd=BINDINGS / name).split('\0')[:-1]:
        (work / file).parent.mkdir(parents=True, exist_ok=True)
        shutil.copy(BINDINGS / name / file, work / file)
    shutil.copy(TOP / 'LICENSE', work)


def edit(file, *pairs):
    """Replaces each first text of the pairs, which stands once in the file, by the second."""
    text = file.read_text()
    for old, new in pairs:
        if text.count(old) != 1:
            raise Refused(f'{file} has {old!r} {text.count(old)} times')
        text = text.replace(old, new)
    file.write_text(text)


def wheel(work, dist):
    copy_package('python', work)
    (work / 'sourcemap/lib').mkdir()
    shutil.copy(X86.library / 'libsourcemap.so', work / 'sourcemap/lib')
    run(BINDINGS / 'web/build')
    shutil.copy(BINDINGS / 'web/out/viewer.html', work / 'sourcemap')
    edit(work / 'pyproject.toml', ('["py.typed", "*.html"]', '["py.typed", "*.html", "lib/*.so"]'))
    tag = f'manylinux_{X86.glibc().replace(".", "_")}_x86_64'
    (work / 'setup.cfg').write_text(f'[bdist_wheel]\npython_tag = py3\nplat_name = {tag}\n')
    set_modes(work)
    run(PYTHON, '-m', 'pip', 'wheel', '--no-deps', '--no-build-isolation', '--no-index', '--wheel-dir', work / 'made', work)
    (made,) = (work / 'made').iterdir()
    shutil.copy(made, dist)
    return made.name


def node(work, dist):
    copy_package('node', work)
    run(BINDINGS / 'node/build', SOURCEMAP_LIBRARY_DIR=str(X86.library))
    (work / 'out').mkdir()
    shutil.copy(BINDINGS / 'node/out/sourcemap.node', work / 'out')
    set_modes(work)
    made = json.loads(run('npm', 'pack', '--json', '--offline', '--ignore-scripts', '--pack-destination', dist, cwd=work))
    return made[0]['filename']


def crate(work, dist):
    copy_package('rust', work)
    (work / 'lib').mkdir()
    shutil.copy(X86.library / 'libsourcemap.a', work / 'lib')
    edit(work / 'Cargo.toml', ('"../../LICENSE"', '"LICENSE"'))
    run('cargo', 'package', '--offline', '--no-verify', '--allow-dirty', cwd=work)
    name = f'sourcemap-{CRATE_VERSION}+{VERSION}.crate'
    shutil.copy(work / 'target/package' / name, dist)
    return name


ALL = (*(partial(make, machine) for machine in (X86, ARM) for make in (c_library, debian)), wheel, node, crate)
