"""The groups of `tests/misuse` that are about images: each gives what is tried, what came of it, and what is due."""
import os, pathlib, shutil, subprocess, time

import row
from children import NOBODY, another_user, run
from misused import BAD_IMAGES, RUNNING, SECTOR, SIZE, of_size, reported, script, written

HERE = pathlib.Path(__file__).resolve().parent
BLOCK = 32768

# Where root mounts something, it is in a name space of the run, and goes with it.
NAME_SPACE = ['unshare', '--mount', '--propagation', 'private', 'sh', '-c']
READ_ONLY = 'mount --bind "$1" "$1" && mount -o remount,bind,ro "$1"'
SMALL = 'mount -t tmpfs -o size=256k none "$1" && truncate -s 1M "$1/d.img"'


def image(folder, name='d'):
    path = folder / f'{name}.img'
    path.write_bytes(bytes(SIZE))
    return path


def seen(folder):
    """The mode, the size and the time of each file of the folder."""
    return {path.name: tuple(path.lstat()[it] for it in (0, 6, 8)) for path in sorted(folder.iterdir())}


def aged(folder):
    """The same, once each file looks as if it was written long ago."""
    for path in folder.iterdir():
        os.utime(path, (0, 0), follow_symlinks=False)
    return seen(folder)


def with_bad_image(folder, what, make, fault, sector=SECTOR):
    """Makes three images, of which the second can't be used, and answers a script that takes them, or none where that
    image can't be made."""
    folder.mkdir()
    for name in ('first', 'last'):
        image(folder, name)
    try:
        make(folder / 'bad.img')
    except OSError:
        return None
    return script(['first', 'bad', 'last'])[0].replace(b'disk bad 512', b'disk bad %d' % sector)


def images(program, room):
    """The second of three images can't be used."""
    user, program = another_user(program, room)
    for number, case in enumerate(BAD_IMAGES):
        what, fault, folder = case[0], case[2], room / str(number)
        text = with_bad_image(folder, *case)
        if text is None or user is None and 'mode' in what:
            continue
        for path in [folder, *folder.iterdir()] * bool(user):
            os.chown(path, NOBODY['user'], NOBODY['group'], follow_symlinks=False)
        due = (5, f'{fault} bad\n'.encode()), aged(folder)
        for word in RUNNING:
            yield f'{word}, the image is {what}', (run(program, word, text, folder, **user or {}), seen(folder)), due


def mounted(how, folder):
    """The words in front of a program that is run where this is mounted, or none where that can't be done."""
    words = [*NAME_SPACE, how + ' && cd "$1" && shift && exec "$@"', 'sh', folder]
    try:
        can = run('true', 'step', command=words, stderr=subprocess.DEVNULL) == (0, b'')
    except OSError:
        return None
    return words if can else None


def kept(program, room):
    """Images that can't be written, though their mode says so, and a disk that gets full."""
    path, text = image(room), script(['first', 'd'])[0]
    image(room, 'first')
    due, command = ((5, b'shelf fault first\n'), aged(room)), mounted(READ_ONLY, room)
    for word in RUNNING if command else ():
        yield f'{word}, a folder that is read only', (run(program, word, text, command=command), seen(room)), due
    if shutil.which('chattr') and subprocess.run(['chattr', '+a', path], stderr=subprocess.DEVNULL).returncode == 0:
        due = (5, b'shelf fault d\n'), seen(room)
        try:
            for word in RUNNING:
                yield f'{word}, an image that only grows', (run(program, word, text, room), seen(room)), due
        finally:
            subprocess.run(['chattr', '-a', path])
    command = mounted(SMALL, room)
    for word in ('step', 'run') if command else ():
        yield f'{word}, a full disk', *full_disk(program, word, command)


def full_disk(program, word, command):
    """How a run ends on a disk that gets full, with whether that is right, and what is due. Some writes have to be
    answered EIO, what the others wrote is read, and all else is answered ok."""
    blocks = [(k * BLOCK, f'{k + 1:02x}*{BLOCK}') for k in range(16)]
    lines = ['disk d 512', 'actor a', 'a open h d r1w1e0', 'a flush h', 'a sync']
    lines += [f'a write h {at} {runs}' for at, runs in blocks] + ['a sync']
    lines += [f'a read h {at} {BLOCK}' for at, _ in blocks] + ['a flush h', 'a sync', 'a close h', '']
    status, printed = run(program, word, '\n'.join(lines).encode(), command=command)
    answers = [line.partition(b' ')[2].decode() for line in printed.splitlines()]
    writes, reads, rest = answers[3:19], answers[20:36], answers[:3] + answers[19:20] + answers[36:39]
    are_read = [read == f'ok {runs}' for read, (_, runs), write in zip(reads, blocks, writes) if write == 'ok']
    is_right = status == 0 and rest == ['ok'] * 7 and set(writes) == {'ok', 'EIO'} and all(are_read)
    return (status, answers, is_right), (status, answers, True)


def odd(program, room):
    """Images that look wrong and aren't."""
    text, report = script(['d'])
    for word in RUNNING:
        folder = room / word
        (folder / 'other').mkdir(parents=True)
        path = image(folder / 'other', 'file')
        if word in ('step', 'run'):
            (folder / 'd.img').symlink_to('other/file.img')
        else:
            os.link(path, folder / 'd.img')
        got = reported(word, text, run(program, word, text, folder)), path.read_bytes()
        yield f'{word}, an image by a link', got, ((0, report), written())
    yield from sixteen(program, room)
    yield from sparse(program, room)
    yield from loop_device(program, room)
    (room / 'fifo').mkdir()
    os.mkfifo(room / 'fifo' / 'd.img')
    case = row.Row(HERE / 'verify-yes')
    for folder in ('.', 'fifo'):
        yield f'verify, images in {folder}', run(program, 'verify', case.text(), room / folder), case.end()


def sixteen(program, room):
    """As many images as there can be, by names that look like something else."""
    names = ['-x', '--help', '-', '_', '0', 'step', 'A', 'img'] + [f'{"n" * 14}{k}' for k in range(10, 18)]
    (text, report), paths = script(names), [image(room, name) for name in names]
    for word in ('step', 'trace'):
        got = reported(word, text, run(program, word, text, room)), [path.read_bytes() for path in paths]
        yield f'{word}, sixteen images', got, ((0, report), [*map(written, range(16))])


def sparse(program, room):
    """An image of 2^40 bytes, which takes the place of a few sectors."""
    path, size = room / 'd.img', 2 ** 40
    text, report = script(['d'], size)
    for word in ('step', 'run'):
        try:
            of_size(size)(path)
        except OSError:
            return
        ended, left = run(program, word, text, room), path.stat()
        path.unlink()
        yield f'{word}, 2^40 bytes', (ended, left.st_size, left.st_blocks < 2048), ((0, report), size, True)


def loop_device(program, room):
    """A disk of the machine, by a link to it. The system may have it locked for a moment, to see what stands on it."""
    file, (text, report) = image(room, 'file'), script(['d'])
    try:
        made = subprocess.run(['losetup', '--find', '--show', file], capture_output=True, text=True)
    except OSError:
        return
    if made.returncode != 0:
        return
    try:
        (room / 'd.img').symlink_to(made.stdout.strip())
        for _ in range(20):
            ended = run(program, 'step', text, room)
            if ended[0] != 5:
                break
            time.sleep(0.1)
    finally:
        subprocess.run(['losetup', '--detach', made.stdout.strip()])
    yield 'step, a loop device', (ended, file.read_bytes()), ((0, report), written())
