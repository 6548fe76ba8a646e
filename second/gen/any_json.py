"""Any JSON value, of no type: what a skipped member or a wrong token may hold."""

from gen.spell import Spelling
from gen.words import draw_text

NUMBERS = (b'0', b'-0', b'1', b'-1', b'12', b'1.5', b'-0.0', b'1e0', b'1E+2', b'2e-3',
           b'0.5e10', b'9223372036854775807', b'9223372036854775808', b'1' * 40,
           b'-9223372036854775809')
WORDS = (b'null', b'true', b'false')


def any_json(draw, brackets):
    """A value that opens at most so many brackets at one time."""
    return Any(draw).value(min(brackets, draw.pick((0, 1, 2, 4))))


def deep_json(draw, brackets):
    """A value that opens exactly so many brackets at one time."""
    text = draw.pick((b'', b'1', b'null')) if brackets else b'1'
    for at in range(brackets):
        if draw.chance(50) or (at == 0 and not text):
            text = b'[' + text + b']'
        else:
            text = b'{"":' + text + b'}'
    return text


class Any:
    def __init__(self, draw):
        self.draw = draw
        self.spelling = Spelling(draw)

    def value(self, brackets):
        draw = self.draw
        if brackets == 0 or draw.chance(40):
            return self.plain()
        count = draw.below(4)
        if draw.chance(50):
            return self.spelling.array([self.value(brackets - 1) for _ in range(count)])
        return self.spelling.object(
            [(self.name(), self.value(brackets - 1)) for _ in range(count)])

    def name(self):
        return self.spelling.string(self.draw.pick((b'', b'a', b'b', b'x', b'value')))

    def plain(self):
        draw = self.draw
        if draw.chance(40):
            return draw.pick(NUMBERS)
        if draw.chance(50):
            return draw.pick(WORDS)
        return self.spelling.string(draw_text(draw, 6).encode('utf-8'))
