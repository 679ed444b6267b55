"""Runs programs side by side, in rounds, and says what each took."""
import os, shutil, subprocess, sys, tempfile

HERE = os.path.dirname(os.path.abspath(__file__))

# Runs a program, whose output is dropped, and writes what it took with all that it started: seconds on the clock,
# processor seconds, the peak of memory in bytes, and the status. The system counts what a caller holds in the peak of
# what it calls. So this stands between, which holds some 10 MB: no peak is told as less.
CALLER = '''
import os, sys, time
begun = time.monotonic()
child = os.posix_spawnp(sys.argv[1], sys.argv[1:], os.environ,
                        file_actions=[(os.POSIX_SPAWN_OPEN, 1, os.devnull, os.O_WRONLY, 0)])
_, status, used = os.wait4(child, 0)
print(time.monotonic() - begun, used.ru_utime + used.ru_stime, used.ru_maxrss * 1024, os.waitstatus_to_exitcode(status))
'''


class Took:
    def __init__(self):
        self.wall, self.cpu, self.peak, self.status = [], [], 0, 0

    def seconds(self):
        """The least time of the rounds on the clock: what others do on the machine lengthens it least."""
        return min(self.wall)

    def busy(self):
        """The least processor time of the rounds."""
        return min(self.cpu)


def once(took, args, text, folder):
    """Runs a program to its end, and adds what it took, with all that it started."""
    with tempfile.TemporaryFile() as source:
        source.write(text.encode())
        source.seek(0)
        ran = subprocess.run([sys.executable, '-I', '-S', '-c', CALLER, *args], stdin=source, stdout=subprocess.PIPE,
                             stderr=subprocess.DEVNULL, cwd=folder, check=True)
    wall, busy, peak, status = ran.stdout.split()
    took.wall.append(float(wall))
    took.cpu.append(float(busy))
    took.peak = max(took.peak, int(peak))
    took.status = took.status or int(status)


def side_by_side(runs, rounds, folder):
    """Each run is (name, args, text). One after the other, and that so many times."""
    all_took = {name: Took() for name, _, _ in runs}
    for _ in range(rounds):
        for name, args, text in runs:
            once(all_took[name], args, text, folder)
    return all_took


def print_into(file, args, text, folder):
    """Has a program print into a file, so that what it prints doesn't pass through this process."""
    with tempfile.TemporaryFile() as source:
        source.write(text.encode())
        source.seek(0)
        subprocess.run(args, stdin=source, stdout=file, cwd=folder, check=True)
    file.seek(0)


def is_front(part, whole):
    """Whether a file is all that stands in another in front of the mesh."""
    while some := part.read(1 << 16):
        if whole.read(len(some)) != some:
            return False
    return whole.read(5) == b'geom '


def is_same(one, other):
    """Whether two files are alike."""
    while some := one.read(1 << 16):
        if other.read(len(some)) != some:
            return False
    return not other.read(1)


def plain_program(path):
    """The plain program (plain/), if it was built."""
    path = os.path.abspath(path or os.path.join(HERE, 'plain/target/release/plain'))
    return path if os.path.exists(path) else None


def build_raw(folder):
    """The raw program (raw.c), built into this folder, or None where there is no C compiler."""
    if not shutil.which('cc'):
        return None
    program = os.path.join(folder, 'raw')
    subprocess.run(['cc', '-O2', '-o', program, os.path.join(HERE, 'raw.c')], check=True)
    return program


def load():
    return os.getloadavg()[0]
