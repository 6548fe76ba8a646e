"""jerwrite in Python: four lines of hexadecimal on standard input, a text out."""

import sys

from jer.lines import jerwrite

if __name__ == '__main__':
    sys.stdout.write(jerwrite(sys.stdin.buffer))
