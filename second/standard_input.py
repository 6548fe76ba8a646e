"""Runs the proved programs on whole standard inputs, where no contract reaches, and reports differences.

python3 second/standard_input.py [RUNNER]

`rt run` in crates/jerread and in crates/jerwrite builds them, each into out/. RUNNER runs an x86-64 program where the machine is none
(Debian's qemu-x86_64 on Arm). Inputs are those stored for the two programs, cut short, with lines
that are too long or missing, other bytes between, and more after the last line.
"""

import io
import os
import subprocess
import sys

from gen.draw import Draw
from jer.lines import jerread, jerwrite

ROOT = os.path.join(os.path.dirname(os.path.abspath(__file__)), '..')
SEED = 7
INPUTS = 600
LONG = (16384, 16385, 16386, 16392, 40000, 200000)
DIGITS = '0123456789abcdefABCDEF\n\r gG'


def stored(program):
    path = os.path.join(ROOT, 'crates', program, 'stdin')
    with open(path, encoding='ascii', newline='\n') as file:
        return file.read().split('\n')


def long_line(draw, lines):
    at = draw.below(3)
    return lines[:at] + ['0' * draw.pick(LONG)] + lines[at + 1:]


def other_byte(draw, lines):
    at = draw.below(3)
    cut = draw.below(len(lines[at]) + 1)
    byte = draw.pick(['', 'x', '\r', '\0', '\n', '0', '00'])
    return lines[:at] + [lines[at][:cut] + byte + lines[at][cut:]] + lines[at + 1:]


def changed(draw, lines):
    """An input made from these lines in one of several ways."""
    way = draw.below(7)
    if way == 0:
        return '\n'.join(lines).rstrip('\n')
    if way == 1:
        return '\n'.join(lines) + 'more\nand more' * draw.below(3000)
    if way == 2:
        return '\n'.join(long_line(draw, lines))
    if way == 3:
        return '\n'.join(lines[:draw.below(4)])
    if way == 4:
        return ''.join(draw.pick(DIGITS) for _ in range(draw.below(60)))
    if way == 5:
        return '\n'.join(other_byte(draw, lines))
    return '\n'.join(lines).lower()


def differences(runner, program, answer):
    command = runner + [os.path.join(ROOT, 'crates', program, 'out', program)]
    draw = Draw(SEED, program)
    lines = stored(program)
    differ = 0
    for _ in range(INPUTS):
        given = changed(draw, lines).encode('ascii')
        printed = subprocess.run(command, input=given, stdout=subprocess.PIPE, check=True).stdout
        if printed.decode('ascii') != answer(io.BytesIO(given)):
            print('%s differs on %r' % (program, given[:200]))
            differ += 1
    print('%s: %d inputs, %d differences' % (program, INPUTS, differ))
    return differ


def main():
    runner = sys.argv[1:]
    found = [differences(runner, 'jerread', jerread), differences(runner, 'jerwrite', jerwrite)]
    return 1 if any(found) else 0


if __name__ == '__main__':
    sys.exit(main())
