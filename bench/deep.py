"""Makes inputs that nest as deep as document 01 allows: 32 open brackets, 64 members to a type.

    python3 bench/deep.py FOLDER        FOLDER/NAME.case, as make.py makes them
"""
import pathlib
import sys

from make import make

DEPTH, MEMBERS = 32, 64

# Leaves of every kind, with texts that keep the reader longest: escapes in strings, in hexadecimal and in Base64.
ITEMS = 'ENUMERATED { ' + ''.join('item%02d, ' % i for i in range(MEMBERS)) + '... }'
LEAVES = [('UTF8String', '"\\ud83d\\ude00\\n\\u00e5%s"'), ('[BASE64] OCTET STRING', '"q\\/%sA=="'), ('OCTET STRING', '"%s\\u0030a"'),
          ('INTEGER', '-9223372036854775808'), ('BOOLEAN', 'false'), ('Item', '"\\u0069tem63"')]


def leaf(i, length):
    kind, text = LEAVES[i % len(LEAVES)]
    return text.replace('%s', 'BA' * (length // 4 * 2) + ('AAA' if 'BASE64' in kind else ''))


def members(last):
    """63 leaves and one more member or alternative, as a description."""
    return ', '.join('m%02d %s' % (i, LEAVES[i % len(LEAVES)][0]) for i in range(MEMBERS - 1)) + ', ' + last


def nested(level, inmost, depth=DEPTH):
    """The text of a level within a level, so many of them."""
    text = inmost
    for _ in range(depth - 1):
        text = level(text)
    return text.encode()


def object_of(*inner, length=0):
    leaves = ['"m%02d":%s' % (i, leaf(i, length)) for i in range(MEMBERS - 1)]
    return '{' + ','.join(leaves + ['"\\u006eext":' + each for each in inner]) + '}'


def array_of(*inner, length=0):
    return '[' + ','.join([leaf(i, length) for i in range(MEMBERS - 1)] + list(inner)) + ']'


def cases():
    """(name, description of the type, text)."""
    items = ' Item ::= ' + ITEMS
    choice = '[UNWRAPPED] CHOICE { none NULL, flag BOOLEAN, number INTEGER, word UTF8String, list SEQUENCE OF Node, node Node }'
    sequence = 'SEQUENCE { %s }' % members('next Node OPTIONAL')
    objects = nested(object_of, object_of(length=200))
    skipped = nested('{{"x":[],"y":{}}}'.format, '[]', DEPTH - 1)
    yield 'objects', 'Node ::= ' + sequence + items, objects
    yield 'arrays', 'Node ::= [ARRAY] ' + sequence + items, nested(array_of, array_of(length=200))
    yield 'lists', 'Node ::= SEQUENCE OF Node', nested('[[],[],{}]'.format, '[]')
    yield 'choices', 'Node ::= CHOICE { %s }' % members('next Node') + items, nested('{{"next":{}}}'.format, '{"m60":%s}' % leaf(60, 40000))
    yield 'unwrapped', 'Node ::= SEQUENCE { %s } Pick ::= ' % members('next Pick OPTIONAL') + choice + items, objects
    yield 'skipped', 'Node ::= ' + sequence[:-1] + ', ... }' + items, object_of().encode()[:-1] + b',"other":' + skipped + b'}'


if __name__ == '__main__':
    make(pathlib.Path(sys.argv[1]), cases())
