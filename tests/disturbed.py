"""Runs of a program whose threads are disturbed.

Now and then one of its threads is stopped by SIGSTOP while the others go on, and continued some milliseconds later. The
system stops a whole process by this signal, and one thread only for a tracer. So this process is the tracer.
"""
import ctypes, os, random, subprocess, tempfile, time

import programs

ATTACH, DETACH, ANY_THREAD = 16, 17, 0x40000000  # PTRACE_ATTACH, PTRACE_DETACH and __WALL of Linux
MOST_SECONDS = 600


def ptrace(request, thread):
    """Whether the system did what is asked of the thread."""
    call = ctypes.CDLL(None).ptrace
    call.restype, call.argtypes = ctypes.c_long, (ctypes.c_long,) * 4
    return call(request, thread, 0, 0) == 0


class Disturbed(programs.Program):
    """By its number each program is pinned to one processor or not, and is a batch job for the scheduler or not."""

    def __init__(self, path, number):
        super().__init__(path)
        self.draw, self.stops = random.Random(number), 0
        self.is_pinned, self.is_batch = bool(number & 1), bool(number & 2)

    def begin(self):
        if self.is_pinned:
            may_use = sorted(os.sched_getaffinity(0))
            os.sched_setaffinity(0, {may_use[self.runs % len(may_use)]})
        if self.is_batch:
            os.sched_setscheduler(0, os.SCHED_BATCH, os.sched_param(0))

    def call(self, word, data, folder):
        if word not in ('run', 'trace'):
            return super().call(word, data, folder)
        with tempfile.TemporaryFile() as asked, tempfile.TemporaryFile() as told:
            asked.write(data)
            asked.seek(0)
            child = subprocess.Popen([self.path, word], stdin=asked, stdout=told, cwd=folder, preexec_fn=self.begin)
            late = time.monotonic() + MOST_SECONDS
            while child.poll() is None:
                self.stop_one(child.pid)
                if time.monotonic() > late:
                    child.kill()
                    child.wait()
                    raise subprocess.TimeoutExpired(child.args, MOST_SECONDS)
            told.seek(0)
            return child.returncode, told.read()

    def stop_one(self, process):
        """Stops a thread for some milliseconds, if one can be stopped: not the first, whose end is the process's."""
        try:
            threads = [int(name) for name in os.listdir('/proc/%d/task' % process) if int(name) != process]
        except OSError:
            threads = []
        time.sleep(self.draw.random() * 0.002)
        if not threads or not ptrace(ATTACH, thread := self.draw.choice(threads)):
            return
        try:
            os.waitpid(thread, ANY_THREAD)
        except ChildProcessError:
            return
        time.sleep(self.draw.random() * 0.004)
        self.stops += ptrace(DETACH, thread)
