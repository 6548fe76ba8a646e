"""The worked examples of X.697 annexes A and B that lie within the base.

Left out: REAL, BIT STRING, OBJECT IDENTIFIER, TIME, OBJECT, and what holds them. A SET
is read as a SEQUENCE and a SET OF as a SEQUENCE OF, other strings as UTF8String, and
DEFAULT as OPTIONAL. The printed texts are kept where they err, beside the corrected
ones; the README lists the errata.
"""

from gen.drafts import boolean, enumerated, integer, null, octets, sequence_of, utf8
from gen.layout import plain
from gen.types_by_hand import choice_a, choice_b, record_a, record_b, sequence_1, set_of_b

RECORD_A = b'''{
    "name" : {
        "givenName" : "John",
        "initial" : "P",
        "familyName" : "Smith"
    },
    "title" : "Director",
    "number" : 51,
    "dateOfHire" : "19710917",
    "nameOfSpouse" : {
        "givenName" : "Mary",
        "initial" : "T",
        "familyName" : "Smith"
    },
    "children" : [
        {
            "name" : {
                "givenName" : "Ralph",
                "initial" : "T",
                "familyName" : "Smith"
            },
            "dateOfBirth": "19571111"
        },
        {
            "name" : {
                "givenName" : "Susan",
                "initial" : "B",
                "familyName" : "Jones"
            },
            "dateOfBirth" : "19590717"
        }
    ]
}'''
# A.3 as printed: the second child's name lacks its quotation marks.
SECOND_CHILD = b' : {\n                "givenName" : "Susan"'
RECORD_A_PRINTED = RECORD_A.replace(b'"name"' + SECOND_CHILD, b'name' + SECOND_CHILD)

RECORD_B = b'''{
    "name" : [ "John", "P", "Smith" ],
    "title" : "Director",
    "number" : 51,
    "date of hire" : "19710917",
    "name of spouse" : [ "Mary", "T", "Smith" ],
    "category" : "#",
    "children" : [
        {
            "name" : [ "Ralph", "T", "Smith" ],
            "date of birth": "19571111"
        },
        {
            "name" : [ "Susan", "B", "Jones" ],
            "date of birth" : "19590717"
        }
    ],
    "assigned vehicle" : [ "FIAT", "500" ],
    "certificate" : "AQIDBAX/7oiqzA=="
}'''
# B.3 as printed: the same slip.
RECORD_B_PRINTED = RECORD_B.replace(b'"name" : [ "Susan"', b'name : [ "Susan"')

SET_OF = b'''[
    { "key" : "XDHASD",
        "value" : { "a" : -3716, "b" : true }},
    { "key" : "JJHAATU",
        "value" : { "a" : 916 }},
    { "key" : "EEULZWI",
        "value" : { "a" :4515, "b" : false}}
]'''
# B.4, MySetOf2 as printed: members in braces of their own, which no JSON object has.
# OBJECT lies outside the base; the text is kept since it must be 3.
SET_OF_2_PRINTED = b'''{
    { "XDHASD" : { "a" : -3716, "b" : true }},
    { "JJHAATU" : { "a" : 916 }},
    { "EEULZWI" : { "a" :4515, "b" : false}}
}'''

COLOURS = ('red', 'yellow', 'green')

EXAMPLES = (
    (record_a(), (RECORD_A, RECORD_A_PRINTED)),
    (boolean(), (b'true',)),
    (integer(), (b'14', b'51')),
    (enumerated(*COLOURS), (b'"red"', b'"green"', b'"RED"')),
    (octets(), (b'"EABC001E"',)),
    (null(), (b'null',)),
    (sequence_1('a', 'b', 'c'), (
        b'{ "a" : 123, "b" : true, "c" : "Hello" }', b'{ "b" : true, "c" : "Hello" }',
        b'{ "c" : "Hello", "b" : true }')),
    (sequence_of(integer()), (b'[1,2,3]',)),
    (sequence_of(sequence_1('a', 'b', 'c')), (
        b'[{ "b" : true, "c" : "one" }, { "a" : 99, "b" : false, "c" : "two" }]',)),
    (choice_a(), (b'{ "b" : "mouse" }',)),
    (utf8(), (b'"ABCDEabcde12345(/)"',)),
    (record_b(), (RECORD_B, RECORD_B_PRINTED)),
    (enumerated('Red', 'Yellow', 'Green'), (b'"Red"',)),
    (enumerated('RED', 'YELLOW', 'GREEN'), (b'"RED"',)),
    (octets(True), (b'"AQIDBAX/7oiqzA=="',)),
    (sequence_1('_A_', '_B_', '_C_'), (
        b'{ "_A_" : 123, "_B_" : true, "_C_" : "Hello" }',
        b'{ "_B_" : true, "_C_" : "Hello" }', b'{ "_C_" : "Hello", "_B_" : true }',
        # B.4 as printed: the other order names b by its identifier, against its NAME.
        b'{ "_C_" : "Hello", "b" : true }')),
    (set_of_b(), (SET_OF, SET_OF_2_PRINTED)),
    (choice_b(1), (b'{ "b" : "mouse" }', b'{ "a" : { "q" : false } }')),
    (choice_b(2), (b'"mouse"', b'{ "q" : true }', b'{ "b" : "mouse" }')),
    (choice_b(3), (b'14', b'null', b'true', b'"ASN.1"', b'[-13, 16]',
                   b'{ "w" : "enabled" }', b'{}')),
    (choice_b(4), (b'{ "s1" : { "a" : 77, "b" : false }}',
                   b'{ "s2" : { "a" : 154, "b" : true, "c" : false }}')),
    # B.5 as printed shows MyChoice5's first alternative alone; the second is an array.
    (choice_b(5), (b'{ "a" : 77, "b" : false }', b'[154,true,false]', b'[154,null,false]')),
)


def cases():
    """(numbers, names, text) of each."""
    for draft, texts in EXAMPLES:
        numbers, names = plain(draft)
        for text in texts:
            yield numbers, names, text
