"""What the tests of the live mesh in other languages share: the library that they take, runs, examples, pages."""
import os, pathlib, re, shutil, subprocess, sys

TOP = pathlib.Path(__file__).resolve().parent.parent
ARCHIVE = TOP / 'release' / 'library' / 'libgeo_exports.a'
EXPECTED = TOP / 'c' / 'examples'
LONGEST = 300
# Where file systems are made, too.
PATH = f'{os.environ.get("PATH", "/usr/bin:/bin")}:/usr/sbin:/sbin'


class Checks:
    """Counts the checks, and prints those that fail."""

    def __init__(self, name):
        self.name, self.count, self.failed = name, 0, 0

    def due(self, what, got, wanted):
        self.count += 1
        if got != wanted:
            self.failed += 1
            print(f'{what}: {got!r}, not {wanted!r}', flush=True)

    def runs(self, what, done):
        """That a run ends with status 0. What it said is printed where it doesn't."""
        self.count += 1
        if done.returncode:
            self.failed += 1
            print(f'{what} ends with status {done.returncode}:\n{(done.stdout + done.stderr)[-3000:]}', flush=True)

    def end(self):
        """Prints the counts, and gives the exit status."""
        print(f'{self.name}: {self.count} checks, {self.failed} fail')
        return 1 if self.failed else 0


def library_of(argv, page, room):
    """The library that is tested; of an archive it is made, in this folder, with the plugin for nbdkit where that can
    be made. Where there is none, or no C compiler, the call ends, with status 0 if none was named."""
    if len(argv) > 1 or argv and argv[0].startswith('-'):
        print(page, file=sys.stderr)
        sys.exit(2)
    given = pathlib.Path(argv[0] if argv else ARCHIVE).resolve()
    if not given.is_file():
        print(f'{given} is not here, so nothing is tried')
        sys.exit(2 if argv else 0)
    if given.suffix != '.a':
        return given
    if shutil.which('cc') is None:
        print('there is no C compiler (cc), so no library is made')
        sys.exit(0)
    made = run('make', '-s', '-C', TOP, 'lib', f'ARCHIVE={given}', f'OUT={room}')
    if made.returncode:
        print(f'make lib: {made.stdout}{made.stderr}')
        sys.exit(1)
    run('make', '-s', '-C', TOP, 'plugin', f'ARCHIVE={given}', f'OUT={room}')
    return room / 'libtazbrev.so.0'


def run(*words, cwd=TOP, longest=LONGEST, **env):
    """A run with these variables more; its output is text. One that takes too long ends with status 124."""
    words = [str(it) for it in words]
    try:
        return subprocess.run(words, capture_output=True, text=True, errors='replace', timeout=longest, check=False,
                              cwd=cwd, env={**os.environ, 'PATH': PATH, **env})
    except subprocess.TimeoutExpired:
        return subprocess.CompletedProcess(words, 124, '', f'it takes more than {longest} seconds')


def examples(library):
    """The examples, each with the words that it takes and what it has to print."""
    plugin = library.parent / 'nbdkit-tazbrev-plugin.so'
    for it in sorted(EXPECTED.glob('*.out')):
        words = [plugin] if it.stem.endswith('-nbd') else []
        if words and not (plugin.is_file() and shutil.which('nbdkit')):
            print(f'nbdkit or {plugin} is not here, so {it.stem} is not tried')
        else:
            yield it.stem, words, it.read_text()


def blocks(page, language):
    """The blocks of code of a page, each with its line."""
    text = (TOP / page).read_text()
    for block in re.finditer(rf'^```{language}\n(.*?)^```', text, re.M | re.S):
        yield text.count('\n', 0, block.start()) + 1, block[1]


def written(pattern, path):
    """What a pattern finds in a file."""
    found = re.search(pattern, (TOP / path).read_text(), re.M)
    return found[1] if found else None
