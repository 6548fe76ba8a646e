"""jerread in Python: three lines of hexadecimal on standard input, a value table out."""

import sys

from jer.lines import jerread

if __name__ == '__main__':
    sys.stdout.write(jerread(sys.stdin.buffer))
