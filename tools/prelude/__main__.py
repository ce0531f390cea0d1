"""Makes and checks the prelude.

    python3 tools/prelude make > prelude.lt
    python3 tools/prelude make --from 2 --part 2 > part2.lt
    python3 tools/prelude check prelude.lt part2.lt
"""

import argparse
import sys

from check import Check
from make import PARTS, prelude
from reading import BadText


def make(given):
    sys.stdout.write(prelude(given.first, given.part, given.plain))


def check(given):
    """Prints how many commands and lines there are, or ends with what is wrong first."""
    checker = Check()
    for name in given.files:
        check_file(checker, name)
    print(' '.join('%s %d' % each for each in sorted(checker.counts.items())))


def check_file(checker, name):
    """Checks a file over what the ones before it declare and state."""
    try:
        with open(name, encoding='utf-8', newline='') as file:
            checker.check_text(file.read())
    except BadText as bad:
        sys.exit('%s:%d: %s' % (name, bad.line, bad.reason))
    except (OSError, UnicodeDecodeError) as fault:
        sys.exit('%s: %s' % (name, fault))


def words():
    parser = argparse.ArgumentParser(prog='prelude', description='Makes and checks the prelude.')
    commands = parser.add_subparsers(required=True)
    maker = commands.add_parser('make', help='writes the prelude')
    maker.add_argument('--part', type=int, choices=PARTS, default=1, help='up to this part')
    maker.add_argument('--from', type=int, choices=PARTS, default=1, dest='first',
                       help='from this part on, to be read behind the parts before it')
    maker.add_argument('--plain', action='store_true', help='as a plain theory, not registered')
    maker.set_defaults(run=make)
    reader = commands.add_parser('check', help='checks a prelude, in one file or more')
    reader.add_argument('files', nargs='+', metavar='FILE')
    reader.set_defaults(run=check)
    return parser.parse_args()


if __name__ == '__main__':
    words_given = words()
    words_given.run(words_given)
