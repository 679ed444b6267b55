"""Runs of the program: how they are started, stopped while they have an image, and end."""
import os, pathlib, resource, shutil, signal, subprocess, tempfile, time

LOCKS = pathlib.Path('/proc/locks')
# Seconds after which a run is given up. On a busy machine a run in threads may take half a minute.
LATE = 300
NO_END = 'no end', b''
NOBODY = dict(user=65534, group=65534, extra_groups=[])


def run(program, words, text=b'', folder=None, command=(), **how):
    """The status of a run, and what it printed. The text is its input if there is no other. It may be the end of a
    command."""
    words = words.split() if isinstance(words, str) else words
    how = dict(dict(stdout=subprocess.PIPE) if 'stdin' in how else dict(stdout=subprocess.PIPE, input=text), **how)
    try:
        done = subprocess.run([*command, program, *words], cwd=folder, timeout=LATE, **how)
    except subprocess.TimeoutExpired:
        return NO_END
    return done.returncode, done.stdout or b''


def start(program, folder, text, word='step'):
    """A run of the text, which is under way."""
    with tempfile.TemporaryFile() as file:
        file.write(text)
        file.seek(0)
        return subprocess.Popen([program, word], stdin=file, stdout=subprocess.PIPE, cwd=folder)


def end(child, text=None):
    """The status of a run that is under way, and what it printed. This text is given to one that still reads."""
    try:
        printed = child.communicate(text, timeout=LATE)[0]
    except subprocess.TimeoutExpired:
        child.kill()
        child.communicate()
        return NO_END
    return child.returncode, printed


def has_lock(child):
    locks = [line.split() for line in LOCKS.read_text().splitlines()]
    return any(words[1] == 'FLOCK' and words[4] == str(child.pid) for words in locks)


def stop_with_lock(child):
    """Stops a run that has its image, and says whether it has."""
    late = time.monotonic() + LATE
    while child.poll() is None and not has_lock(child) and time.monotonic() < late:
        time.sleep(0.001)
    child.send_signal(signal.SIGSTOP)
    return child.poll() is None and has_lock(child)


def start_stopped(program, folder, text, word='step'):
    """A run of the text that is stopped while it has its image, or none where each of many ended too soon."""
    for _ in range(50):
        child = start(program, folder, text, word)
        if stop_with_lock(child):
            return child
        child.send_signal(signal.SIGCONT)
        end(child)
    return None


def another_user(program, room):
    """How the program is started in this folder without the rights of root, and its path; nothing where it can't be."""
    if os.geteuid() != 0:
        return {}, program
    copy = shutil.copy(program, room)
    for path in (room, copy):
        os.chmod(path, 0o755)
    try:
        run(copy, '', folder=room, **NOBODY)
    except (OSError, subprocess.SubprocessError):
        return None, copy
    return NOBODY, copy


def limit(kind, most, first=lambda: None):
    """How a run is started that the system gives no more than so many. What is called first can be said."""
    def set_limits():
        first()
        resource.setrlimit(resource.RLIMIT_CORE, (0, 0))
        resource.setrlimit(kind, (most, most))
    return dict(preexec_fn=set_limits)
