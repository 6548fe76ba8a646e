"""Reading cases written by hand: document 01's samples and the sentences around them."""

from gen.drafts import (
    Member, boolean, choice, enumerated, integer, null, octets, optional, sequence,
    sequence_of, utf8)
from gen.layout import plain
from gen.types_by_hand import of_itself, sample_array, sample_enumerated, sample_t

# 01, "Sample texts on both sides", and the worked example.
SAMPLES = (
    (sample_t(), (
        b'{"a":5}', b'{"b":null,"a":5}', b'{"\\u0061":5}', b'{"b":true}',
        b'{"a":1,"a":1}', b'{"a":null}', b'{"a":5.0}', b'{"a":-0}',
        b'{"b":null,"x":[],"a":5}')),
    (sample_array(), (b'[1]', b'[1,null]', b'[1,null,null]', b'[1,2]')),
    (sample_enumerated(True), (b'"blue"', b'"red"', b'"r\\u0065d"')),
    (sample_enumerated(False), (b'"blue"', b'"red"')),
    (integer(), (
        b'9223372036854775807', b'9223372036854775808', b'-9223372036854775808', b'01',
        b'')),
    (utf8(), (b'"\\uDC00"',)),
    (octets(), (b'"0aFF"', b'"0"')),
    (of_itself(), (b'[' * 32 + b']' * 32, b'[' * 33 + b']' * 33)),
)


def extensible_unwrapped():
    return choice(Member('n', integer()), Member('s', utf8()), unwrapped=True,
                  extensible=True)


def closed_unwrapped():
    return choice(Member('n', integer()), Member('s', utf8()), unwrapped=True)


def unwrapped_with_null(extensible=False):
    return choice(Member('n', integer()), Member('z', null()), unwrapped=True,
                  extensible=extensible)


NULLS = (b'{}', b'{"m":null}', b'{"m":1}', b'{"m":true}')
ELEMENTS = (b'[]', b'[null]', b'[1]', b'[true]', b'[null,null]', b'[1,null]', b'[1,2,3]',
            b'[true,null]', b'[null,true]', b'[1,true]', b'[1,true,null]',
            b'[null, true, 2, [3]]', b'[1,true,null,null,"x"]', b'{}')

# Which null means absent, a value, or a refusal: open points 14 to 17.
MEMBER_TYPES = (
    integer(), null(), extensible_unwrapped(), closed_unwrapped(), unwrapped_with_null(),
    unwrapped_with_null(True))
NULL_CASES = tuple(
    (draft, NULLS) for of_type in MEMBER_TYPES for draft in (
        sequence(optional('m', of_type)), sequence(Member('m', of_type)),
        sequence(Member('m', of_type), extensible=True, root=0),
        sequence(optional('m', of_type), extensible=True, root=0))) + tuple(
    (sequence(Member('m', of_type), optional('b', boolean()), array=True,
              extensible=extensible), ELEMENTS)
    for of_type in MEMBER_TYPES for extensible in (False, True)) + (
    (sequence(optional('m', closed_unwrapped()), Member('i', integer()), array=True), ELEMENTS),
    (sequence(Member('m', integer()), Member('i', integer()), array=True, extensible=True,
              root=0), ELEMENTS),
    (sequence(Member('m', null()), Member('i', null()), Member('j', unwrapped_with_null()),
              array=True), ELEMENTS))

# The order of refusals inside one value, and the choice's places: open points 11 to 14.
ORDER_CASES = (
    (sequence(Member('a', integer()), Member('b', boolean())), (
        b'{"b":1,"a":true,"c":0}', b'{"a":"x","a":1}', b'{"c":0,"a":1,"a":1}',
        b'{"a":1,"a":1,"c":0}', b'{"b":1}', b'{"b":1,"a":1.5}', b'[]', b' {"a":1}',
        b'{"a":1,"b":true}', b'{"b":true,"a":1.5}')),
    (sequence(Member('o', sequence(Member('i', integer()))), Member('n', integer())), (
        b'{"o":{"x":1},"z":1}', b'{"n":"","o":{"x":1}}', b'{"n":1.5,"o":{"i":1,"i":2}}',
        b'{"n":1.5,"o":{}}', b'{"n":1.5,"o":{"i":1}}', b'{"o":{"i":"","x":1},"n":1}')),
    (sequence(Member('a', integer()), Member('b', sequence_of(boolean())), array=True), (
        b'[]', b'["x"]', b'[1]', b'[1.5]', b'[1,[0],3]', b'["x",[0],3]', b'[1,[true],3,4]',
        b'[1,[true,false]]', b'[1,null]', b'[null]')),
    (sequence(optional('a', integer()), extensible=True), (
        b'{"a":null,"a":1}', b'{"a":null,"\\u0061":null}', b'{"x":1,"x":[[]],"a":2}',
        b'{"x":{"a":1,"a":1},"a":3}', b'{"A":1,"a":null}')),
    (choice(Member('a', integer()), Member('b', null())), (
        b'{}', b'{"a":1,"a":1}', b'{"a":1,"b":null}', b'{"c":1}', b'{"c":1,"d":2}', b'[]',
        b'{"b":null}', b'{"a":null}', b' { "\\u0062" : null } ', b'{"a":1.5}', b'null')),
    (choice(Member('a', integer()), extensible=True), (
        b'{}', b' {"c":1}', b'{"a":true}', b'{"a":1}', b'{"c":1,"a":1}')),
    (sequence_of(choice(Member('a', integer()), extensible=True)), (
        b'[{"a":1}, {"c":1}]', b'[{"a":1},{"a":2},3]')),
    (extensible_unwrapped(), (b'null', b'1', b'"1"', b'1.5', b'[]', b' {}', b'true')),
    (closed_unwrapped(), (b'null', b'1', b'"1"', b'1e0', b'[]', b' {}', b'false')),
    (sequence_of(unwrapped_with_null()), (b'[null,1,null]', b'[1,"x"]')),
    (choice(Member('e', enumerated('red')), Member('o', sequence()), unwrapped=True), (
        b'"red"', b'"blue"', b'{}', b'{"a":1}', b'1')),
    (boolean(), (b'true', b'false', b'null', b'0', b'"true"')),
    (null(), (b'null', b'false', b'""', b'[]')),
)

# A name is met by the characters it denotes, whatever its spelling: 8 and 9.
NAMED = sequence(optional('a"', integer()), optional('\u00e9', integer()),
                 optional('\U0001f600', integer()), optional('/', integer()))
SPELLINGS = (
    (b'"a\\""', b'"\\u0061\\u0022"', b'"a\\u0022"'),
    (b'"\xc3\xa9"', b'"\\u00e9"', b'"\\u00E9"'),
    (b'"\xf0\x9f\x98\x80"', b'"\\ud83d\\ude00"', b'"\\uD83D\\uDE00"'),
    (b'"/"', b'"\\/"', b'"\\u002f"'))
UNKNOWN = (b'""', b'"a"', b'"A\\""', b'"a\\" "', b'"e\\u0301"', b'"\\u00c9"', b'"\\\\/"',
           b'"\\u0000"')
NAME_CASES = ((NAMED, tuple(
    b'{%s:1,"/":2, %s:null}' % (first, second)
    for group in SPELLINGS[:3] for first in group for second in group) + tuple(
    b'{ %s:1.5,%s:1}' % (spelling, name)
    for name, group in zip(UNKNOWN * 2, SPELLINGS * 3) for spelling in group) + tuple(
    b'{%s:1}' % spelling for group in SPELLINGS for spelling in group)),)

# INTEGER, octets and strings, escapes undone first: open point 18.
TOKEN_CASES = (
    (integer(), (
        b'0', b'-0', b'-1', b'-0.0', b'1e0', b'-9223372036854775809', b'1' * 400,
        b'-' + b'9' * 5000, b'"1"', b' 7 ', b'18446744073709551615',
        b'0.9223372036854775807')),
    (octets(), (
        b'""', b'"00"', b'"aBcD"', b'"0\\u0041"', b'"0 "', b'"0G"', b'"000"', b'0', b'"\\n"',
        b'"\\u00410"', b'"EABC001E"')),
    (octets(True), (
        b'""', b'"AA=="', b'"AAA="', b'"AAAA"', b'"AB=="', b'"AAB="', b'"A==="', b'"===="',
        b'"AA="', b'"AA"', b'"AA==AAAA"', b'"AAAA=="', b'"\\u0041A\\u003d="', b'"/+\\/+"',
        b'"_-AA"', b'"AA A"', b'"AQIDBAX/7oiqzA=="', b'"AQIDBAX/7oiqzA"', b'"AQIDB\\nAX/"',
        b'"A=AA"', b'"A=A="', b'"AAAAA==="')),
    (utf8(), (
        b'""', b'"a"', b'"\\"\\\\\\/\\b\\f\\n\\r\\t"', b'"\\ud83d\\uDE00"', b'"\\u0000"',
        b'"\xf0\x9f\x98\x80"', b'"\xc3\xa9e\xcc\x81"', b'"\x7f"', b'"\\uFFFF\\uD7FF\\uE000"',
        b'"\xed\x9f\xbf\xee\x80\x80"', b'"\\uDBFF\\uDFFF\xf4\x8f\xbf\xbf"')),
    (enumerated('a', 'A', '\u00e9', 'e\u0301', '\x00', '"', '\U0001f600'), (
        b'"a"', b'"A"', b'"\\u00e9"', b'"e\\u0301"', b'"\\u0000"', b'"\\""',
        b'"\\uD83D\\ude00"', b'"\xc3\x89"', b'""', b'"a "')),
)


def deep_types():
    """Values that reach the 32nd bracket in each way (open point 10)."""
    boxed = sequence(optional('m', None))
    boxed.members[0].of_type = boxed
    skipping = sequence(extensible=True)
    surplus = sequence(array=True, extensible=True)
    for depth in (31, 32, 33):
        yield of_itself(), b'[' * depth + b']' * depth
        yield boxed, b'{"m":' * (depth - 1) + b'{}' + b'}' * (depth - 1)
        yield skipping, b'{"x":' + b'[' * (depth - 1) + b']' * (depth - 1) + b'}'
        yield surplus, b'[' + b'[' * (depth - 1) + b']' * (depth - 1) + b']'
    yield of_itself(), b'[' * 33
    yield of_itself(), b'[' * 32 + b'[x'
    yield of_itself(), b'[' * 32 + b']['
    yield of_itself(), b'[' * 32 + b'{'
    yield of_itself(), b'x' + b'[' * 33


def widest():
    """130 rows for one opening bracket (open point 27): an UNWRAPPED choice of an ARRAY
    of 64 UNWRAPPED nulls."""
    inner = unwrapped_with_null()
    row = sequence(*(Member('m%d' % at, inner) for at in range(64)), array=True)
    return choice(Member('r', row), unwrapped=True)


def cases():
    """(numbers, names, text) of each."""
    for draft, texts in SAMPLES + NULL_CASES + ORDER_CASES + NAME_CASES + TOKEN_CASES:
        numbers, names = plain(draft)
        for text in texts:
            yield numbers, names, text
    for draft, text in deep_types():
        yield plain(draft) + (text,)
    yield plain(widest()) + (b'[]',)
    yield plain(sequence_of(widest())) + (b'[' + b','.join([b'[]'] * 32) + b']',)
