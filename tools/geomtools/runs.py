"""Runs, the text of bytes: `BB*N` for each stretch of equal bytes."""
import itertools, re

RUN = re.compile(r'([0-9a-f]{2})\*([1-9][0-9]*)')


def runs_text(data):
    """Bytes as a script and a report have them."""
    return ' '.join('%02x*%d' % (byte, len(list(run))) for byte, run in itertools.groupby(data))


def bytes_of_runs(words):
    pairs = [word.split('*') for word in words]
    return b''.join(bytes([int(byte, 16)]) * int(times) for byte, times in pairs)
