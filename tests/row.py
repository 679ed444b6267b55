"""A row: a run of the program, and what it has to print and to leave.

`words` has the words given to the program, one a line; `stdin` is its input, or `script` names a file of the repository
that is; `stdout` is the exact output and `status` the exit status. Where the output isn't fixed, `stdout-pattern` has a
regular expression for each of its lines. `images` has the image files before the run and `images-after` those after it,
one a line: `NAME zeros LENGTH`, or `NAME` and runs `BB*N`. `then` has the words of a second run, whose input is the
output of the first; that ends with status 0, and `stdout` and `status` are those of the second. Only `words` has to be
there, and `stdout` or `stdout-pattern`: else the status is 0, nothing is read, and there are no images.
"""
import collections, itertools, pathlib, re, subprocess, tempfile


class Fault(Exception):
    """A row can't be read, for this reason."""


HERE = pathlib.Path(__file__).resolve().parent
TOP = HERE.parent

Ended = collections.namedtuple('Ended', 'status printed images')


IMAGE = re.compile(r'[\w-]{1,16} +(zeros +\d+|[0-9a-f]{2}\*\d+( +[0-9a-f]{2}\*\d+)*) *', re.ASCII)


def image(spec):
    """The bytes of an image: zeros, or runs of bytes."""
    if spec[0] == 'zeros':
        return bytes(int(spec[1]))
    runs = [word.split('*') for word in spec]
    return b''.join(bytes([int(byte, 16)]) * int(times) for byte, times in runs)


class Row:
    def __init__(self, folder):
        self.folder, self.name = folder, folder.name

    def lines(self, file, other=None):
        """The lines of a file of the row, or other ones where it isn't there; without others it has to be."""
        path = self.folder / file
        if not path.exists() and other is not None:
            return other
        return self.bytes_of(path).decode(errors='replace').splitlines()

    def bytes_of(self, path):
        try:
            return path.read_bytes()
        except OSError as error:
            raise Fault(f'{path}: {error.strerror}') from error

    def images(self, file):
        """The images that a file of the row describes, by their names; none where it isn't there."""
        lines = self.lines(file, [])
        for number, line in enumerate(lines, 1):
            if not IMAGE.fullmatch(line):
                raise Fault(f'{self.folder / file}:{number}: {line!r}, not `NAME zeros LENGTH` or `NAME BB*N ..`')
        return {words[0]: image(words[1:]) for words in map(str.split, lines)}

    def images_before(self):
        return self.images('images')

    def images_after(self):
        """The images after the run, which are those before it where the row doesn't say."""
        after = self.folder / 'images-after'
        return self.images('images-after' if after.exists() else 'images')

    def words(self):
        return self.lines('words')

    def text(self):
        """The input of the run."""
        script, given = self.lines('script', []), self.folder / 'stdin'
        if script:
            return self.bytes_of(TOP / script[0].strip())
        return self.bytes_of(given) if given.exists() else b''

    def then(self):
        """The words of the second run, or none."""
        return self.lines('then', []) or None

    def status(self):
        line = ' '.join(self.lines('status', ['0']))
        if not re.fullmatch(r'\d{1,3}', line, re.ASCII):
            raise Fault(f'{self.folder / "status"}: {line!r}, not a status')
        return int(line)

    def end(self):
        """The status that is due, and what has to be printed where that is fixed."""
        return self.status(), (self.folder / 'stdout').read_bytes()

    def difference(self, printed):
        """The first line of what was printed that isn't what is due, or none."""
        pattern = self.folder / 'stdout-pattern'
        due = self.bytes_of(pattern if pattern.exists() else self.folder / 'stdout')
        fits = re.fullmatch if pattern.exists() else bytes.__eq__
        for number, (got, wanted) in enumerate(itertools.zip_longest(printed.split(b'\n'), due.split(b'\n')), 1):
            if got is None or wanted is None or not fits(wanted, got):
                return f'line {number} of what was printed is {got!r}, not {wanted!r}'
        return None


def named(name):
    """The row of this name: a folder beside this file, or one of the caller's."""
    for folder in (HERE / name, pathlib.Path(name)):
        if folder.is_dir():
            return Row(folder)
    raise Fault(f'{name} is no folder here, nor one of {HERE}')


def all_rows():
    return [Row(folder) for folder in sorted(HERE.iterdir()) if (folder / 'words').exists()]


def run(program, row, env=None):
    """How the row's run ends: its status, what it prints, and the images that it leaves."""
    with tempfile.TemporaryDirectory() as folder:
        folder = pathlib.Path(folder)
        for name, data in row.images_before().items():
            (folder / f'{name}.img').write_bytes(data)
        def ended(words, text):
            return subprocess.run([program] + words, input=text, stdout=subprocess.PIPE, cwd=folder, env=env,
                                  timeout=60)

        done = ended(row.words(), row.text())
        if row.then() is not None and done.returncode == 0:
            done = ended(row.then(), done.stdout)
        left = {path.stem: path.read_bytes() for path in folder.glob('*.img')}
    return Ended(done.returncode, done.stdout, left)
