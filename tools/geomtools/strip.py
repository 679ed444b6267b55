"""strip SCRIPT: the plain script of one that says what it expects, with the same lines."""
from geomtools import expectations, files


def add_words(parser):
    parser.add_argument('script', help='the script, or - for standard input')


def main(given):
    print(expectations.plain(files.read_text(given.script)), end='')
    return 0
