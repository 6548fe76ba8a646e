"""Judgement of a JSON text (refusals 2, 3, 4), byte by byte, into a tree with places."""

from jer import sizes
from jer.refusal import BRACKETS, NOT_JSON, TEXT_TOO_LONG, Refusal

SPACE = b' \t\n\r'
END = -1

# RFC 3629, section 4: by first byte, the range of the second byte and how many more
# bytes from 80 to BF follow it.
UTF8_FORMS = {}
UTF8_FORMS.update({lead: (0x80, 0xBF, 0) for lead in range(0xC2, 0xE0)})
UTF8_FORMS.update({lead: (0x80, 0xBF, 1) for lead in range(0xE1, 0xF0)})
UTF8_FORMS.update({lead: (0x80, 0xBF, 2) for lead in range(0xF1, 0xF4)})
UTF8_FORMS.update({
    0xE0: (0xA0, 0xBF, 1), 0xED: (0x80, 0x9F, 1),
    0xF0: (0x90, 0xBF, 2), 0xF4: (0x80, 0x8F, 2)})

SHORT_ESCAPES = {
    ord('"'): 0x22, ord('\\'): 0x5C, ord('/'): 0x2F, ord('b'): 0x08,
    ord('f'): 0x0C, ord('n'): 0x0A, ord('r'): 0x0D, ord('t'): 0x09}

LITERALS = {ord('n'): (b'null', 'null', None),
            ord('t'): (b'true', 'boolean', 1),
            ord('f'): (b'false', 'boolean', 0)}


class Node:
    """A token with its place; content is the denoted bytes of a string, the bytes of a
    number, 0 or 1 for a boolean, the elements of an array, or (name node, value node)
    for each member of an object."""

    __slots__ = ('kind', 'place', 'content')

    def __init__(self, kind, place, content):
        self.kind = kind
        self.place = place
        self.content = content


def parse_text(text):
    """The tree of a JSON text; raises refusal 2, 3 or 4."""
    # 01, refusal 2: "text over 65,536 bytes", with 65,536 beside it.
    if len(text) > sizes.TEXT_BYTES:
        raise Refusal(TEXT_TOO_LONG, sizes.TEXT_BYTES)
    scan = Scan(text)
    node = scan.value(0)
    scan.space()
    if scan.byte() != END:
        scan.refuse()
    return node


class Scan:
    """The text and the place reached. Each byte is judged before the place moves on, so
    the place is always "first byte after which no JSON text can begin so; the length if
    it ends early" (01, refusal 3) when a byte does not fit."""

    def __init__(self, text):
        self.text = text
        self.place = 0

    def byte(self):
        return self.text[self.place] if self.place < len(self.text) else END

    def refuse(self):
        raise Refusal(NOT_JSON, self.place)

    def take(self, allowed):
        """Moves over one byte that must be among those allowed, and hands it back."""
        byte = self.byte()
        if byte == END or byte not in allowed:
            self.refuse()
        self.place += 1
        return byte

    def space(self):
        while self.byte() in SPACE_SET:
            self.place += 1

    def value(self, depth):
        """White space and a value, inside so many open brackets."""
        self.space()
        byte = self.byte()
        if byte in (ord('['), ord('{')):
            return self.bracket(depth, byte)
        if byte == ord('"'):
            return self.string()
        if byte in LITERALS:
            return self.literal(byte)
        if byte == ord('-') or byte in DIGITS:
            return self.number()
        return self.refuse()

    def bracket(self, depth, byte):
        # 01, refusal 4: "a 33rd open bracket"; the grammar allows it here, or the
        # caller would have refused by 3 ("3 where both fall on one byte").
        if depth == sizes.OPEN_BRACKETS:
            raise Refusal(BRACKETS, self.place)
        if byte == ord('['):
            return self.array(depth + 1)
        return self.object(depth + 1)

    def array(self, depth):
        node = Node('array', self.place, [])
        self.place += 1
        self.space()
        if self.byte() == ord(']'):
            self.place += 1
            return node
        while True:
            node.content.append(self.value(depth))
            self.space()
            if self.take(b',]') == ord(']'):
                return node

    def object(self, depth):
        node = Node('object', self.place, [])
        self.place += 1
        self.space()
        if self.byte() == ord('}'):
            self.place += 1
            return node
        while True:
            self.space()
            if self.byte() != ord('"'):
                self.refuse()
            name = self.string()
            self.space()
            self.take(b':')
            node.content.append((name, self.value(depth)))
            self.space()
            if self.take(b',}') == ord('}'):
                return node

    def literal(self, byte):
        word, kind, content = LITERALS[byte]
        node = Node(kind, self.place, content)
        for expected in word:
            self.take((expected,))
        return node

    def number(self):
        """ECMA-404, clause 8: no leading zero, digits around the point and after the e."""
        start = self.place
        if self.byte() == ord('-'):
            self.place += 1
        if self.take(DIGITS) != ord('0'):
            self.digits()
        if self.byte() == ord('.'):
            self.place += 1
            self.take(DIGITS)
            self.digits()
        if self.byte() in (ord('e'), ord('E')):
            self.place += 1
            if self.byte() in (ord('+'), ord('-')):
                self.place += 1
            self.take(DIGITS)
            self.digits()
        return Node('number', start, bytes(self.text[start:self.place]))

    def digits(self):
        while self.byte() in DIGITS:
            self.place += 1

    def string(self):
        node = Node('string', self.place, None)
        self.place += 1
        denoted = bytearray()
        while True:
            byte = self.byte()
            if byte == ord('"'):
                self.place += 1
                node.content = bytes(denoted)
                return node
            if byte < 0x20:
                self.refuse()
            if byte == ord('\\'):
                self.escape(denoted)
            elif byte < 0x80:
                denoted.append(byte)
                self.place += 1
            else:
                self.character(denoted)

    def character(self, denoted):
        """A character of two to four bytes, by RFC 3629."""
        lead = self.take(UTF8_FORMS)
        low, high, more = UTF8_FORMS[lead]
        denoted.append(lead)
        denoted.append(self.take(range(low, high + 1)))
        for _ in range(more):
            denoted.append(self.take(range(0x80, 0xC0)))

    def escape(self, denoted):
        self.place += 1
        letter = self.take(ESCAPE_LETTERS)
        if letter != ord('u'):
            denoted.append(SHORT_ESCAPES[letter])
            return
        code = self.four_digits()
        if code >> 10 == 0x36:
            # 01: "Lone surrogates are not JSON here": only a low one may follow.
            self.take(b'\\')
            self.take(b'u')
            low = self.hex_digit(b'dD')
            low = low << 4 | self.hex_digit(b'cdefCDEF')
            low = low << 4 | self.hex_digit(HEX_DIGITS)
            low = low << 4 | self.hex_digit(HEX_DIGITS)
            code = 0x10000 + ((code & 0x3FF) << 10) + (low & 0x3FF)
        denoted += chr(code).encode('utf-8')

    def four_digits(self):
        code = self.hex_digit(HEX_DIGITS)
        # A low surrogate that follows no high one is lone at its second digit.
        second = b'0123456789abAB' if code == 0xD else HEX_DIGITS
        code = code << 4 | self.hex_digit(second)
        code = code << 4 | self.hex_digit(HEX_DIGITS)
        return code << 4 | self.hex_digit(HEX_DIGITS)

    def hex_digit(self, allowed):
        return int(chr(self.take(allowed)), 16)


SPACE_SET = frozenset(SPACE)
DIGITS = frozenset(b'0123456789')
HEX_DIGITS = frozenset(b'0123456789abcdefABCDEF')
ESCAPE_LETTERS = frozenset(SHORT_ESCAPES) | {ord('u')}
