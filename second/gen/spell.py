"""Spellings of white space, strings and numbers: a sender's options within JSON."""

SPACES = (b' ', b'\t', b'\n', b'\r', b'\r\n', b'  ')

SHORT = {'"': b'\\"', '\\': b'\\\\', '/': b'\\/', '\b': b'\\b', '\f': b'\\f',
         '\n': b'\\n', '\r': b'\\r', '\t': b'\\t'}


class Spelling:
    """How often, in percent, a spelling departs from the shortest one."""

    def __init__(self, draw):
        self.draw = draw
        self.space_chance = draw.pick((0, 0, 10, 60))
        self.escape_chance = draw.pick((0, 0, 10, 50, 100))

    def space(self):
        if not self.draw.chance(self.space_chance):
            return b''
        return b''.join(self.draw.pick(SPACES) for _ in range(self.draw.between(1, 2)))

    def string(self, denoted):
        """A JSON string that denotes these bytes of UTF-8."""
        text = denoted.decode('utf-8')
        return b'"' + b''.join(self.character(character) for character in text) + b'"'

    def character(self, character):
        must = character < ' ' or character in '"\\'
        if not must and not self.draw.chance(self.escape_chance):
            return character.encode('utf-8')
        if character in SHORT and self.draw.chance(50):
            return SHORT[character]
        code = ord(character)
        if code < 0x10000:
            return self.four(code)
        code -= 0x10000
        return self.four(0xD800 | code >> 10) + self.four(0xDC00 | code & 0x3FF)

    def four(self, code):
        return b'\\u' + self.letter_case(b'%04x' % code)

    def letter_case(self, digits):
        """Each letter in either case."""
        return b''.join(
            digits[at:at + 1].upper() if self.draw.chance(50) else digits[at:at + 1].lower()
            for at in range(len(digits)))

    def integer(self, number):
        # 01: "-0 is 0".
        if number == 0 and self.draw.chance(40):
            return b'-0'
        return b'%d' % number

    def object(self, pairs):
        """An object of (name text, value text)."""
        inside = [self.space() + name + self.space() + b':' + self.space() + value
                  + self.space() for name, value in pairs]
        return b'{' + (b','.join(inside) if inside else self.space()) + b'}'

    def array(self, elements):
        inside = [self.space() + element + self.space() for element in elements]
        return b'[' + (b','.join(inside) if inside else self.space()) + b']'
