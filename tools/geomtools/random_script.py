"""random SEED: a script of every kind of command, in sizes that are asked for, or the smallest that still fails."""
import random, subprocess, sys

from geomtools import drawing, files, shrinking
from geomtools.limits import MAX_ACTORS, MAX_DISKS, MAX_SCRIPT_LINES

# The statuses of the shell for what isn't a program, or isn't there.
NOT_RUN = (126, 127)


def add_words(parser):
    parser.add_argument('seed', type=int, help='the number from which it is drawn')
    parser.add_argument('--lines', type=int, default=40, metavar='N', help='lines of commands (40)')
    parser.add_argument('--actors', type=int, default=2, metavar='N', help='actors, 1 to 16 (2)')
    parser.add_argument('--disks', type=int, default=3, metavar='N', help='disks, 1 to 16 (3)')
    parser.add_argument('--shrink', metavar='COMMAND', help='print the smallest script for which this command of the '
                        'shell, given it on standard input, has a status other than 0')


def script(seed, lines=40, actors=2, disks=3):
    """The script of these sizes that is drawn from a number."""
    drawer = drawing.Drawer(random.Random(seed), disks, actors)
    head = f'# geom random {seed} --lines {lines} --actors {actors} --disks {disks}'
    return '\n'.join([head, *drawer.header(), *drawer.commands(lines), ''])


def fails(command, text):
    """Whether the command of the shell, given the text, ends with another status than 0."""
    quiet = dict(stdout=subprocess.DEVNULL, stderr=subprocess.DEVNULL)
    status = subprocess.run(command, shell=True, input=text.encode(), **quiet).returncode
    if status in NOT_RUN:
        raise files.Stop(f'the command has the status {status}, so the shell could not run it', 2)
    return status != 0


def main(given):
    for name, count, most in (('actors', given.actors, MAX_ACTORS), ('disks', given.disks, MAX_DISKS)):
        if not 1 <= count <= most:
            raise files.Stop(f'--{name} is 1 to {most}', 2)
    most = MAX_SCRIPT_LINES - 1 - given.actors - given.disks
    if not 0 <= given.lines <= most:
        raise files.Stop(f'--lines is at most {most}, since a script has {MAX_SCRIPT_LINES} lines', 2)
    text = script(given.seed, given.lines, given.actors, given.disks)
    if given.shrink:
        if not fails(given.shrink, text):
            raise files.Stop('the command has the status 0 for this script')
        tries = shrinking.Tries(lambda smaller: fails(given.shrink, smaller))
        text = shrinking.smallest(text, tries)
        print(f'geom random: {text.count(chr(10))} lines are left after {tries.count} tries', file=sys.stderr)
    print(text, end='')
    return 0
