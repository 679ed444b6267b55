"""How the tests of the C library build it, and count what they find."""
import os, pathlib, shutil, subprocess

TOP = pathlib.Path(__file__).resolve().parent.parent
ARCHIVE = TOP / 'release' / 'library' / 'libgeo_exports.a'
STRICT = ['-std=c11', '-Wall', '-Wextra', '-Werror']
SANITIZED = ['-g', '-O1', '-fsanitize=address,undefined', '-fno-sanitize-recover=all']
LAYER = [str(TOP / 'c' / f'{it}.c') for it in ('tazbrev', 'trace', 'numbers')]
# The system's own programs first, as nbdsh wants the system's Python.
PATH = f'/usr/bin:{os.environ.get("PATH", "")}:/usr/sbin:/sbin'


class Checks:
    """Counts the checks, and prints those that fail."""

    def __init__(self):
        self.count = self.failed = 0

    def due(self, what, got, wanted):
        self.count += 1
        if got != wanted:
            self.failed += 1
            print(f'{what}: {got!r}, not {wanted!r}', flush=True)

    def holds(self, what, is_so, seen=''):
        self.due(f'{what} ({seen})' if seen else what, bool(is_so), True)

    def ended(self, what):
        print(f'{what}: {self.count} checks, {self.failed} failed')
        return 1 if self.failed else 0


def run(*words, text='', **how):
    """The status of a call, what it printed, and what it said."""
    env = dict(os.environ, PATH=PATH, **how.pop('env', {}))
    done = subprocess.run([str(it) for it in words], input=text, capture_output=True, timeout=170, check=False,
                          text=True, errors='replace', env=env, **how)
    return done.returncode, done.stdout, done.stderr


def is_here(tool, what):
    """Whether a tool is there; else it is said what isn't tried."""
    if shutil.which(tool, path=PATH):
        return True
    print(f'{tool} is not here, so {what} is not tried')
    return False


def archive_of(words):
    """The archive that the call names, or the released one. None: it isn't there, and that is said."""
    archive = pathlib.Path(words[0]).resolve() if words else ARCHIVE
    if archive.is_file():
        return archive
    print(f'{archive} is not here, so the C library is not tried')
    return None


def make(archive, room, *words):
    """A target of the Makefile with that archive, in a folder of its own, where no warning is let pass."""
    return run('make', '-s', '-C', TOP, *words, f'ARCHIVE={archive}', f'OUT={room}',
               f'WARNINGS={" ".join(STRICT)}')
