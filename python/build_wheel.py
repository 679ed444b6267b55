#!/usr/bin/env python3
"""build_wheel LIBRARY FOLDER
build_wheel --metadata FOLDER

Makes the wheel of the package into a folder, with this shared library inside: `tazbrev-VERSION-py3-none-TAG.whl`. TAG
names the oldest C library with which that one runs. It is what `pip wheel` calls too, which takes the library that
`TAZBREV_LIBRARY` names. Nothing but Python is needed, and no network.

With --metadata it makes the folder alone by which Python knows of a package that is installed, without a library.
"""
import base64, hashlib, io, os, pathlib, re, sys, zipfile

HERE = pathlib.Path(__file__).resolve().parent
PACKAGE = HERE / 'tazbrev'
LIBRARY = 'libtazbrev.so.0'
# The newest C library that a manylinux tag for x86-64 asks at least.
OLDEST = 17
MOST_BYTES = 2 << 20
SHARED = b'\x7fELF\x02\x01'


def version():
    return re.search(r"^__version__ = '(.+)'$", (PACKAGE / '__init__.py').read_text(), re.M)[1]


def tag(library):
    """The platform on which a library runs. It ends where that is no x86-64 Linux."""
    data = library.read_bytes()
    if not data.startswith(SHARED) or data[18:20] != b'\x3e\x00':
        sys.exit(f'build_wheel: {library} is no shared library for x86-64')
    minors = [int(it) for it in re.findall(rb'GLIBC_2\.(\d+)', data)]
    return f'manylinux_2_{max([OLDEST, *minors])}_x86_64'


def metadata():
    return (f'Metadata-Version: 2.1\nName: tazbrev\nVersion: {version()}\n'
            "Summary: FreeBSD's GEOM as a mesh over disks of your own\nLicense: BSD-2-Clause\n"
            'Requires-Python: >=3.9\nDescription-Content-Type: text/markdown\n\n' + (HERE / 'README.md').read_text())


def described():
    """The files that tell Python of the package, by their names."""
    inside = f'tazbrev-{version()}.dist-info'
    return {f'{inside}/METADATA': metadata().encode(),
            f'{inside}/entry_points.txt': b'[pytest11]\ntazbrev = tazbrev.pytest_plugin\n'}


def contents(library, platform):
    """The files of the wheel by their names in it."""
    inside = f'tazbrev-{version()}.dist-info'
    files = {f'tazbrev/{it.name}': it.read_bytes() for it in sorted(PACKAGE.iterdir())
             if it.suffix == '.py' or it.name == 'py.typed'}
    files[f'tazbrev/{LIBRARY}'] = library.read_bytes()
    files[f'{inside}/WHEEL'] = (f'Wheel-Version: 1.0\nGenerator: build_wheel\nRoot-Is-Purelib: false\n'
                                f'Tag: py3-none-{platform}\n').encode()
    files.update(described())
    for name in ('LICENSE', 'NOTICE'):
        files[f'{inside}/{name}'] = (HERE.parent / name).read_bytes()
    rows = [f'{name},sha256={digest(data)},{len(data)}\n' for name, data in files.items()]
    record = f'{inside}/RECORD'
    return {**files, record: (''.join(rows) + f'{record},,\n').encode()}


def digest(data):
    return base64.urlsafe_b64encode(hashlib.sha256(data).digest()).rstrip(b'=').decode()


def make(library, folder):
    """Makes the wheel, and gives its name. The same files make the same bytes."""
    platform = tag(library)
    made = io.BytesIO()
    with zipfile.ZipFile(made, 'w', zipfile.ZIP_DEFLATED) as wheel:
        for name, data in contents(library, platform).items():
            entry = zipfile.ZipInfo(name, (1980, 1, 1, 0, 0, 0))
            entry.compress_type, entry.external_attr = zipfile.ZIP_DEFLATED, 0o644 << 16
            wheel.writestr(entry, data)
    if len(made.getvalue()) >= MOST_BYTES:
        sys.exit(f'build_wheel: the wheel has {len(made.getvalue())} bytes, and may have {MOST_BYTES}')
    name = f'tazbrev-{version()}-py3-none-{platform}.whl'
    (pathlib.Path(folder) / name).write_bytes(made.getvalue())
    return name


# What pip calls.

def build_wheel(wheel_directory, config_settings=None, metadata_directory=None):
    named = os.environ.get('TAZBREV_LIBRARY')
    if not named:
        sys.exit('build_wheel: TAZBREV_LIBRARY has to name the shared library')
    return make(pathlib.Path(named), wheel_directory)


def get_requires_for_build_wheel(config_settings=None):
    return []


def describe(folder):
    """Writes what tells Python of the package into a folder of packages."""
    for name, data in described().items():
        (folder / name).parent.mkdir(exist_ok=True)
        (folder / name).write_bytes(data)


def main(argv):
    if argv[:1] == ['--metadata'] and len(argv) == 2 and pathlib.Path(argv[1]).is_dir():
        describe(pathlib.Path(argv[1]))
        return 0
    if len(argv) != 2 or not pathlib.Path(argv[0]).is_file() or not pathlib.Path(argv[1]).is_dir():
        print(__doc__, file=sys.stderr)
        return 2
    print(pathlib.Path(argv[1]) / make(pathlib.Path(argv[0]), argv[1]))
    return 0


if __name__ == '__main__':
    sys.exit(main(sys.argv[1:]))
