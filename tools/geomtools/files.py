"""Files that the tools read and write, and how a tool ends that can't go on."""
import os, pathlib, sys


class Stop(Exception):
    """The tool ends with this message and status: 1 where something was found, 2 where it can't be asked so."""

    def __init__(self, message, status=1):
        super().__init__(message)
        self.status = status


def program():
    """The start script: that of the repository in which the tools stand, or the one that is installed with them."""
    above = pathlib.Path(__file__).resolve().parents
    return str(next((it for it in (above[2] / 'geomrun', above[3] / 'bin' / 'geomrun') if it.is_file()), 'geomrun'))


def read_bytes(path):
    """What a file holds, or standard input for `-`."""
    if path == '-' and sys.stdin is None:
        raise Stop('standard input is closed', 2)
    try:
        return sys.stdin.buffer.read() if path == '-' else pathlib.Path(path).read_bytes()
    except OSError as error:
        raise Stop(f'{path}: {error.strerror}', 2) from error


def read_text(path):
    """The same as a text, in which a byte that isn't of one stands for itself."""
    return read_bytes(path).decode(errors='surrogateescape')


def write_text(path, text):
    """Writes a file."""
    try:
        pathlib.Path(path).write_text(text)
    except OSError as error:
        raise Stop(f'{path}: {error.strerror}', 2) from error


def drop_output():
    """What is printed from here on goes nowhere, so that nothing fails once more where the tool ends."""
    sys.stdout = open(os.devnull, 'w')


def ended(name, tool):
    """The status with which a tool of this name ends: 2 where its output can't be written."""
    if sys.stdout is None:
        print(f'{name}: standard output is closed', file=sys.stderr)
        return 2
    sys.stdout.reconfigure(errors='surrogateescape')
    try:
        status = tool()
        sys.stdout.flush()
        return status
    except Stop as stop:
        sys.stdout.flush()
        print(f'{name}: {stop}', file=sys.stderr)
        return stop.status
    except BrokenPipeError:
        drop_output()
        return 1
    except OSError as error:
        drop_output()
        print(f'{name}: {error.strerror or error}', file=sys.stderr)
        return 2
