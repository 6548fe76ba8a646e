"""Makes the stored cases anew, or compares them with what is stored.

python3 second/make.py                                  writes stdin and stdout of crates/cases
python3 second/make.py --check                          compares, exit 1 on a difference
python3 second/make.py --seed N --count M --out DIR     another set, for comparisons
"""

import argparse
import os
import sys

from gen import annexes, big, hand_lines, hand_read, hand_table, hand_text, hand_write
from gen import formats, random_cases

HERE = os.path.dirname(os.path.abspath(__file__))
CRATES = os.path.join(os.path.dirname(HERE), 'crates')
README = os.path.join(HERE, 'README.md')
COUNTS_START = '<!-- counts -->'
COUNTS_END = '<!-- end of counts -->'
SEED = 697
COUNT = 200

# A random case with a longer line is left out; only the size limits have longer ones.
LONGEST_LINE = 32768

# The numbers that each side can answer with; make.py fails if one of them has no case.
REACHABLE = (
    ('read', (0, 1, 2, 3, 4, 5, 6, 7, 8, 9, 10, 11, 14)),
    ('write', (0, 1, 12, 13, 14)),
    ('table', (0, 1)),
    ('text', (0, 2, 3, 4)),
    ('jerread', (0, 1, 3, 14, 15)),
    ('jerwrite', (0, 1, 12, 13, 15)),
)


def ordinary_cases(seed, count):
    """By file, an iterator of cases: those by hand first, then the random ones."""
    rc = random_cases
    yield 'table', formats.table_case, chain(hand_table.cases(), rc.table_cases(seed, count))
    yield 'text', formats.text_case, singles(hand_text.cases(), rc.text_cases(seed, count))
    yield 'read', formats.read_case, chain(
        hand_read.cases(), annexes.cases(), rc.read_cases(seed, 2 * count))
    yield 'write', formats.write_case, chain(
        hand_write.cases(), rc.write_cases(seed, count))
    yield 'jerread', formats.input_case, singles(
        hand_lines.read_inputs(), rc.jerread_cases(seed, count // 5))
    yield 'jerwrite', formats.input_case, singles(
        hand_lines.write_inputs(), rc.jerwrite_cases(seed, count // 5))


def big_cases():
    """The size limits, which stand after the ordinary cases."""
    yield 'table', formats.table_case, big.tables()
    yield 'text', formats.text_case, singles(big.texts())
    yield 'read', formats.read_case, big.reads()
    yield 'write', formats.write_case, big.writes()
    yield 'jerread', formats.input_case, singles(hand_lines.read_limits())
    yield 'jerwrite', formats.input_case, singles(hand_lines.write_limits())


def chain(*sources):
    for source in sources:
        yield from source


def singles(*sources):
    """Cases of one argument each."""
    for case in chain(*sources):
        yield (case,)


def make_files(seed, count):
    """By name: the input, the answers and the counts."""
    made = {}
    for name, line_up, cases in ordinary_cases(seed, count):
        short = (lines for lines in (line_up(*case) for case in cases)
                 if max(map(len, lines)) <= LONGEST_LINE)
        add_cases(made, name, short)
    for name, line_up, cases in big_cases():
        add_cases(made, name, (line_up(*case) for case in cases))
    return {name: (''.join(questions), ''.join(answers), counts)
            for name, (questions, answers, counts) in made.items()}


def add_cases(made, name, cases):
    _, answer_to = formats.FORMATS[name]
    questions, answers, counts = made.setdefault(name, ([], [], {}))
    for lines in cases:
        answer = answer_to(lines)
        questions += [line + '\n' for line in lines]
        answers.append(answer)
        number = formats.refusal_number(answer)
        counts[number] = counts.get(number, 0) + 1


def count_lines(made):
    """A line for each file and one for all, by success and refusal number."""
    total = {}
    for name, (_, _, counts) in made.items():
        yield count_line(name, counts)
        for number, cases in counts.items():
            total[number] = total.get(number, 0) + cases
    yield count_line('in all', total)


def count_line(name, counts):
    shown = ['%s: %d' % (number or 'ok', counts[number]) for number in sorted(counts)]
    return '%-12s %6d cases   %s' % (name, sum(counts.values()), '  '.join(shown))


def with_counts(readme, lines):
    """The README with these counts between its two marks."""
    before, rest = readme.split(COUNTS_START)
    block = COUNTS_START + '\n```\n' + '\n'.join(lines) + '\n```\n' + COUNTS_END
    return before + block + rest.split(COUNTS_END)[1]


def missing_numbers(made):
    """Prints each reachable number without a case, and tells whether there is one."""
    lacking = False
    for name, numbers in REACHABLE:
        for number in numbers:
            if number not in made[name][2]:
                print('%s: no case of %d' % (name, number))
                lacking = True
    return lacking


def files(made, folder):
    """Each file's path and text: input and answers of each name in a folder of one's own, or of all of them, one after the other, as what the
    program `cases` is run on and must write. There a line with the place of the name among them and its number of cases stands before them."""
    if folder:
        for name, (questions, answers, _) in made.items():
            yield os.path.join(folder, name + '.in'), questions
            yield os.path.join(folder, name + '.out'), answers
        return
    heads = ('%08X%08X\n' % (kind, sum(counts.values())) for kind, (_, _, counts) in enumerate(made.values()))
    crate = os.path.join(CRATES, 'cases')
    yield os.path.join(crate, 'stdin'), ''.join(head + questions for head, (questions, _, _) in zip(heads, made.values()))
    yield os.path.join(crate, 'stdout'), ''.join(answers for _, answers, _ in made.values())


def write_files(made, folder):
    for path, text in files(made, folder):
        os.makedirs(os.path.dirname(path), exist_ok=True)
        with open(path, 'w', encoding='ascii', newline='\n') as file:
            file.write(text)


def differing_files(made, folder):
    """Prints each file that is not stored as made, and tells whether there is one."""
    differ = False
    for path, text in files(made, folder):
        if not os.path.exists(path) or open(path, 'rb').read() != text.encode('ascii'):
            print('differs: %s' % path)
            differ = True
    return differ


def keep_readme(lines, check):
    """Writes the counts into the README, or tells whether they differ from it."""
    with open(README, encoding='utf-8', newline='\n') as file:
        stored = file.read()
    made = with_counts(stored, lines)
    if check:
        if made != stored:
            print('differs: the counts in README.md')
        return made != stored
    with open(README, 'w', encoding='utf-8', newline='\n') as file:
        file.write(made)
    return False


def main():
    parser = argparse.ArgumentParser(description=__doc__.split('\n')[0])
    parser.add_argument('--check', action='store_true')
    parser.add_argument('--seed', type=int, default=SEED)
    parser.add_argument('--count', type=int, default=COUNT)
    parser.add_argument('--out')
    options = parser.parse_args()
    made = make_files(options.seed, options.count)
    lines = list(count_lines(made))
    print('\n'.join(lines))
    bad = missing_numbers(made)
    if options.check:
        bad = differing_files(made, options.out) or bad
    else:
        write_files(made, options.out)
    if not options.out:
        bad = keep_readme(lines, options.check) or bad
    return 1 if bad else 0


if __name__ == '__main__':
    sys.exit(main())
