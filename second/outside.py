"""Runs vector files made elsewhere through this program and reports differences.

python3 second/outside.py FILE_OR_DIR ...

A reading case is the three input lines of jerread, what it prints, and a line `--`. A
writing case is type table, names, value rows and pool in hexadecimal, the room for the
text in decimal, `OK text` or `NO number first second`, and a line `--`.
"""

import io
import os
import sys

from jer import calls
from jer.lines import jerread, numbers_of
from jer.refusal import Refusal

READ_QUESTION = 3
WRITE_QUESTION = 5


def cases_of(path):
    """(line number, lines) of each case."""
    with open(path, encoding='ascii', newline='\n') as file:
        lines = file.read().split('\n')
    start = 0
    for at, line in enumerate(lines):
        if line == '--':
            yield start + 1, lines[start:at]
            start = at + 1


def joined(lines):
    return ''.join(line + '\n' for line in lines)


def answer_to_read(lines):
    return jerread(io.BytesIO(joined(lines[:READ_QUESTION]).encode('ascii')))


def answer_to_write(lines):
    try:
        text = calls.write(
            numbers_of(lines[0]), bytes.fromhex(lines[1]), numbers_of(lines[2]),
            bytes.fromhex(lines[3]), int(lines[4]))
        return 'OK %s\n' % text.hex().upper()
    except Refusal as refusal:
        return 'NO %d %d %d\n' % refusal.answer()


def is_write(lines):
    return len(lines) == WRITE_QUESTION + 1 and lines[-1][:2] in ('OK', 'NO')


def run_file(path):
    cases = differences = 0
    for number, lines in cases_of(path):
        cases += 1
        if is_write(lines):
            ours, theirs = answer_to_write(lines), joined(lines[WRITE_QUESTION:])
        else:
            ours, theirs = answer_to_read(lines), joined(lines[READ_QUESTION:])
        if ours != theirs:
            differences += 1
            print('%s line %d: here %r, there %r' % (path, number, ours[:200], theirs[:200]))
    print('%s: %d cases, %d differences' % (path, cases, differences))
    return differences


def files_of(path):
    if not os.path.isdir(path):
        return [path]
    return [os.path.join(path, name) for name in sorted(os.listdir(path))
            if name.endswith('.txt')]


def main(paths):
    return 1 if sum(run_file(file) for path in paths for file in files_of(path)) else 0


if __name__ == '__main__':
    sys.exit(main(sys.argv[1:]))
