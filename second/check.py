"""Tests this program against the papers' printed answers and document 01's promises.

python3 second/check.py [--seed N] [--count M]          M drawn cases a promise
"""

import argparse
import sys

from checks import paper, properties
from gen.draw import Draw


def run_property(promise, seed, count):
    """How many counterexamples; the shortest one is printed."""
    broken = []
    for index in range(count):
        try:
            promise(Draw(seed, promise.__name__, index))
        except properties.Broken as found:
            broken.append(str(found))
    print('%-20s %6d cases, %d counterexamples' % (promise.__name__, count, len(broken)))
    if broken:
        print('    ' + min(broken, key=len))
    return len(broken)


def main():
    parser = argparse.ArgumentParser(description=__doc__.split('\n')[0])
    parser.add_argument('--seed', type=int, default=1)
    parser.add_argument('--count', type=int, default=500)
    options = parser.parse_args()
    failures = list(paper.failures())
    for failure in failures:
        print(failure)
    print('%-20s %d failures' % ('printed answers', len(failures)))
    bad = len(failures)
    for promise in properties.PROPERTIES:
        bad += run_property(promise, options.seed, options.count)
    return 1 if bad else 0


if __name__ == '__main__':
    sys.exit(main())
