"""What `tests/misuse` tries, each with what is due: texts that aren't scripts, scripts that look wrong and aren't, and
images that can't be used."""
import os, socket

# The words by which scripts are run, and those by which they are read.
RUNNING = ('step', 'sweep', 'run', 'watch', 'trace')
READING = (*RUNNING, 'verify')
SIZE, SECTOR = 65536, 512
MIB = 1 << 20
HEAD = 'ram m 512 8\nactor a\n'

# At line 3, behind this disk and this actor, what no script has there, by the cause that is told.
LINES = {
    'long': ['a open h ' + 'm' * 247, 'a read write 0 ' + '9' * 241, 'a concat c' + ' m' * 123,
             'a write h 0 00*1' + ' 01*1 00*1' * 817 + ' 01*100', 'm' * 8193],
    'byte': ['a sync\r', 'a\tsync', '\ta sync', 'a sync\t', 'a sync\0', '\0', 'a sync\x7f', '\x1b[A', 'ä sync',
             'a label h ä', '\ufeffa sync', 'a\N{NO-BREAK SPACE}sync', 'a\t sync '],
    'space': [' a sync', 'a sync ', 'a  sync', ' ', ' # a comment', '  # a comment', 'a write h  0 00*512'],
    'words': ['a', 'a open h m', 'a open h m r1w0e0 now', 'a sync # a comment', 'a sync #', 'a mesh m', 'a close',
              'a read h 0', 'a write h 0', 'a concat c', 'a concat c' + ' m' * 17, 'a mark h',
              'a mark h concat v 1 0 2 9', 'ram', 'ram n 512', 'ram n 512 8 later now', 'disk d', 'actor', 'actor b c'],
    'word': ['a raed h 0 512', 'a Sync', 'a sync; now', 'a destroy gpt m', 'a destroy disk m', 'a mark h nop v',
             'ram n 512 8 late', 'disk d 512 now'],
    'actor': ['sync', 'b sync', 'A sync', 'a: sync', 'read h 0 512', 'rom n 512 8', 'step', '// a comment', '-'],
    'name': ['a open h.1 m r1w0e0', 'a open h m:0 r1w0e0', 'a open ' + 'h' * 17 + ' m r1w0e0',
             'a open h ' + 'm' * 64 + ' r1w0e0', 'a label h a.b', 'a concat c/d m', 'disk d.img 512', 'disk img/d 512',
             'disk ../d 512', 'disk . 512', 'disk ' + 'd' * 17 + ' 512', 'actor b/c', 'actor *'],
    'number': ['a read h 0x0 512', 'a read h 0 1k', 'a read h 0 007', 'a read h -1 512', 'a read h +1 512',
               'a read h 0 18446744073709551616', 'a read h 0 ' + '9' * 200, 'a read h 0 512,', 'a stripe s m m',
               'a nop m 0 512 often', 'ram n 512 1e3', 'ram n 512 1,000', 'disk d 512b'],
    'range': ['ram n 1024 8', 'ram n 0 8', 'ram n 512 0', 'ram n 512 131073', 'ram n 4096 16385',
              'ram n 512 18446744073709551615', 'disk d 1024', 'a mark h concat v 1 0 0', 'a mark h concat v 1 0 17',
              'a mark h concat v 4294967296 0 1', 'a mark h concat v 1 65536 1', 'a mark h stripe v 1 0 1 0',
              'a stripe s 0 m', 'a stripe s 4294967296 m'],
    'counts': ['a open h m rw', 'a open h m r1', 'a open h m r1w1', 'a open h m r0w0e0', 'a open h m r10w0e0',
               'a open h m R1W0E0', 'a open h m w1r1e0', 'a open h m 110'],
    'runs': ['a write h 0 AA*512', 'a write h 0 00*256 00*256', 'a write h 0 0*512', 'a write h 0 512',
             'a write h 0 00', 'a write h 0 00*0', 'a write h 0 00*0512', 'a write h 0 *512', 'a write h 0 zz*512',
             'a write h 0 00*512,', 'a write h 0 00*65537', 'a write h 0 00*65536 01*1'],
    'twice': ['ram m 512 8', 'disk m 512', 'actor a', 'actor ram', 'actor disk', 'actor actor'],
}

# What it is, the text, and what is printed.
TEXTS = [
    ('each line ends with CR LF', b'ram m 512 8\r\nactor a\r\na sync\r\n', b'line 1: byte\n'),
    ('each line ends with CR', b'ram m 512 8\ractor a\ra sync\r', b'line 1: byte\n'),
    ('a byte order mark', ('\ufeff' + HEAD).encode(), b'line 1: byte\n'),
    ('UTF-16 with a byte order mark', HEAD.encode('utf-16'), b'line 1: byte\n'),
    ('UTF-16 without one', HEAD.encode('utf-16-le'), b'line 1: byte\n'),
    ('bytes of each value', bytes(range(256)) * 16, b'line 1: byte\n'),
    ('bytes without a line feed', bytes(range(128, 256)) * 64, b'line 1: long\n'),
    ('4 MiB of zeros', bytes(4 * MIB), b'line 1: long\n'),
    ('17 disks', b''.join(b'ram m%d 512 1\n' % k for k in range(17)), b'line 17: many\n'),
    ('17 images', b''.join(b'disk d%d 512\n' % k for k in range(17)), b'line 17: many\n'),
    ('17 actors', b''.join(b'actor a%d\n' % k for k in range(17)), b'line 17: many\n'),
    ('4,097 lines', b'actor a\n' + b'a sync\n' * 4096, b'line 4097: lines\n'),
    ('a command behind 4 MiB of line feeds', b'actor a\n' + b'\n' * (4 * MIB - 15) + b'a sync\n',
     b'line %d: lines\n' % (4 * MIB - 13)),
    ('a disk behind a command', HEAD.encode() + b'a sync\nram n 512 8\n', b'line 4: header\n'),
    ('an actor behind a command', HEAD.encode() + b'a sync\nactor b\n', b'line 4: header\n'),
    ('two faults', b'ram m 513 8\nactor a.b\n', b'line 1: range\n'),
    ('a fault behind a comment and an empty line', b'# \xc3\xa4\n\n' + HEAD.encode() + b'a snyc\n', b'line 5: word\n'),
    ('a report', b'3 ok\ngeom DISK m rank 1\n', b'line 1: actor\n'),
]


def not_scripts():
    """Texts that aren't scripts: what it is, the text, and what is printed."""
    for cause, lines in LINES.items():
        for line in lines:
            yield f'{line!r:.60}', (HEAD + line + '\n').encode(), f'line 3: {cause}\n'.encode()
    yield from TEXTS


def mesh(name, size, sector=512, counts='r0w0e0'):
    return f'geom DISK {name} rank 1\n  provider {name} size {size} sector {sector} {counts}\n'


def at_limits():
    """A script that meets the limits of a header, of names, of numbers and of lines, and its report."""
    most, name, disks = 64 * MIB, 'n' * 16, [f'm{k}' for k in range(14)]
    header = [f'ram {disk} 512 1' for disk in disks]
    header += [f'ram {name} 4096 {most // 4096}', f'ram later 512 {most // 512} later', f'actor {name}', 'actor a']
    header += [f'actor a{k}' for k in range(14)]
    answers = {
        f'a open h {"p" * 63} r9w9e9': 'ENOENT', f'a open {"h" * 16} m0 r9w9e9': 'ok',
        'a read h 18446744073709551615 18446744073709551615': 'EBADF', 'a write h 0 00*65536': 'EBADF',
        'a concat c ' + ' '.join(['p' * 60] * 3 + ['p' * 61]): 'ENOENT',
        'a write h 0 00*1' + ' 01*1 00*1' * 817 + ' 01*10': 'EBADF', name + ' sync': 'ok'}
    text = '\n'.join([*header, *answers]) + '\n'
    report = ''.join(f'{number} {answer}\n' for number, answer in enumerate(answers.values(), len(header) + 1))
    report += mesh('m0', 512, counts='r9w9e9') + ''.join(mesh(disk, 512) for disk in disks[1:]) + mesh(name, most, 4096)
    return text.encode(), report.encode()


def scripts():
    """Scripts that look wrong and aren't: what it is, the text, and its report."""
    yield 'nothing', b'', b''
    yield 'comments alone', b'# one\n#\n\n#two\n', b''
    yield '4 MiB of line feeds', b'\n' * (4 * MIB), b''
    yield 'a comment of bytes that no other line may have', b'#\r\t\0\xff ' + 'ä'.encode() * 5000 + b'\n', b''
    yield 'no line feed at the end', HEAD.encode() + b'a sync', b'3 ok\n' + mesh('m', 4096).encode()
    yield ('4,096 lines, and comments behind them', b'actor a\n' + b'a sync\n' * 4095 + b'\n# a comment\n' * 5,
           b''.join(b'%d ok\n' % number for number in range(2, 4097)))
    yield 'each limit is met', *at_limits()


def script(names, size=SIZE):
    """A script that writes the first and last sector of each of these images and reads them again, and its report."""
    lines, answers = [f'disk {name} {SECTOR}' for name in names] + ['actor a', 'a settle'], ['ok']
    for k, name in enumerate(names):
        lines.append(f'a open h{k} {name} r1w1e1')
        answers.append('ok')
        for at in (0, size - SECTOR):
            runs = f'{k + 1:02x}*{SECTOR}'
            lines += [f'a write h{k} {at} {runs}', 'a sync', f'a read h{k} {at} {SECTOR}', 'a sync']
            answers += ['ok', 'ok', 'ok ' + runs, 'ok']
    report = ''.join(f'{number} {answer}\n' for number, answer in enumerate(answers, len(names) + 2))
    report += ''.join(mesh(name, size, counts='r1w1e1') for name in names)
    return ('\n'.join(lines) + '\n').encode(), report.encode()


def written(k=0):
    """What that script leaves of the image of this number."""
    return bytes([k + 1]) * SECTOR + bytes(SIZE - 2 * SECTOR) + bytes([k + 1]) * SECTOR


def reported(word, text, ended):
    """How a run of the text ended, with only the report of what it printed."""
    status, printed = ended
    if word == 'trace' and printed.startswith(text):
        printed = printed[len(text):].partition(b'% report\n')[2]
    return status, printed.partition(b'view ')[0] if word == 'watch' else printed


def of_size(size):
    return lambda path: (path.touch(), os.truncate(path, size))


def of_mode(mode):
    return lambda path: (path.write_bytes(bytes(SIZE)), path.chmod(mode))


def link_to(target):
    return lambda path: path.symlink_to(target)


def listen(path):
    with socket.socket(socket.AF_UNIX) as end:
        end.bind(str(path))


# What it is, how it is made, and what is said of it. Sectors have 512 bytes, or 4,096 where a fourth word says so.
BAD_IMAGES = (
    ('none', lambda path: None, 'no disk'),
    ('a link to nothing', link_to('nowhere'), 'no disk'),
    ('in capitals', lambda path: path.with_name('BAD.img').write_bytes(bytes(SIZE)), 'no disk'),
    ('a link to itself', link_to('bad.img'), 'shelf fault'),
    ('a folder', os.mkdir, 'shelf fault'),
    ('a link to a folder', link_to('.'), 'shelf fault'),
    ('a fifo', os.mkfifo, 'shelf fault'),
    ('a socket', listen, 'shelf fault'),
    ('of mode 000', of_mode(0o000), 'shelf fault'),
    ('of mode 222', of_mode(0o222), 'shelf fault'),
    ('of mode 444', of_mode(0o444), 'shelf fault'),
    ('empty', of_size(0), 'bad size'),
    ('of a byte', of_size(1), 'bad size'),
    ('of 700 bytes', of_size(700), 'bad size'),
    ('of 4,608 bytes', of_size(4608), 'bad size', 4096),
    ('of 2^40 + 512 bytes', of_size(2 ** 40 + 512), 'bad size'),
    ('/dev/null', link_to('/dev/null'), 'bad size'),
    ('/dev/zero', link_to('/dev/zero'), 'bad size'),
    ('/dev/full', link_to('/dev/full'), 'bad size'),
)
