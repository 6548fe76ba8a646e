"""Texts with one fault of type in them: JSON that the typed reading should refuse."""

from gen.any_json import any_json
from gen.encode import Encoder
from gen.words import draw_name
from jer.table import CHOICE, ENUMERATED, INTEGER, OCTET_STRING, SEQUENCE, SEQUENCE_OF

BAD_INTEGERS = (
    b'5.0', b'-0.0', b'1e0', b'1E5', b'0.5', b'1e-1', b'9223372036854775808',
    b'-9223372036854775809', b'18446744073709551616', b'1' + b'0' * 30, b'0e0', b'-1.0e+3')
BAD_HEXADECIMAL = (b'0', b'0g', b'0A F', b' ', b'0x', b'ABC', b'\xc3\xa9', b'0A\n', b'=')
BAD_BASE64 = (
    b'A', b'AA', b'AAA', b'AB==', b'AAB=', b'A===', b'====', b'AA=A', b'AA==AAAA', b'AA =',
    b'AAAA=', b'AAAA\n', b'AA-_', b'Zh==', b'Zm9=', b'AQ', b'\xc3\xa9\xc3\xa9')


class FaultyEncoder(Encoder):
    """Goes wrong at the so-manieth value it comes to. With moving off, no value is put
    where another type reads it, so that skipped members stay skipped."""

    def __init__(self, draw, table, fault_at, skipped=None, moving=True):
        super().__init__(draw, table, skipped)
        self.values_left = fault_at
        self.moving = moving

    def value(self, row, value, depth):
        self.values_left -= 1
        if self.values_left != 0 or self.table.unwrapped(row):
            # An UNWRAPPED choice has no token of its own: its alternative goes wrong.
            self.values_left += self.values_left == 0
            return super().value(row, value, depth)
        if self.draw.chance(12):
            return any_json(self.draw, 3)
        return self.fault(row, value, depth)

    def fault(self, row, value, depth):
        kind = self.table.kind(row)
        if kind == INTEGER:
            return self.draw.pick(BAD_INTEGERS)
        if kind == ENUMERATED:
            return self.spelling.string(self.near_miss(self.table.name(
                self.table.members(row)[value[1]])))
        if kind == OCTET_STRING:
            bad = BAD_BASE64 if self.table.instructed(row) else BAD_HEXADECIMAL
            return self.spelling.string(self.draw.pick(bad))
        if kind == CHOICE:
            return self.faulty_choice(row, value, depth)
        if kind == SEQUENCE and not self.table.array(row):
            return self.faulty_object(row, value, depth)
        if kind in (SEQUENCE, SEQUENCE_OF):
            return self.faulty_array(row, value, depth)
        return any_json(self.draw, 2)

    def near_miss(self, name):
        """Another name, close to this one."""
        text = name.decode('utf-8')
        return self.draw.pick((text + ' ', text[1:], text.swapcase() + 'x', text * 2, '',
                               text[:-1] + '\x00')).encode('utf-8')

    def faulty_object(self, row, value, depth):
        pairs = self.members(row, value[1], depth + 1)
        which = self.draw.weighted(((0, 25), (1, 35), (2, 10), (3, 30)))
        if which == 0 and pairs:
            pairs.pop(self.draw.below(len(pairs)))
        elif which == 1 and self.table.count(row):
            pairs.insert(self.draw.below(len(pairs) + 1), self.repeated(row, value[1]))
        elif which == 2 and pairs:
            at = self.draw.below(len(pairs))
            pairs[at] = (pairs[at][0], b'null')
        else:
            name = self.spelling.string(self.draw.pick((b'', b'?', draw_name(self.draw))))
            pairs.insert(self.draw.below(len(pairs) + 1), (name, any_json(self.draw, 2)))
        return self.spelling.object(pairs)

    def repeated(self, row, values):
        """A name of the table, mostly one that is present, spelt once more."""
        members = self.table.members(row)
        present = [member for member, value in zip(members, values) if value is not None]
        member = self.draw.pick(present if present and self.draw.chance(80) else members)
        return self.spelling.string(self.table.name(member)), any_json(self.draw, 1)

    def faulty_array(self, row, value, depth):
        if self.table.kind(row) == SEQUENCE:
            texts = self.elements(row, value[1], depth + 1)
        else:
            element = self.table.element(row)
            texts = [self.value(element, item, depth + 1) for item in value[1]]
        which = self.draw.below(4)
        if which == 0 and texts:
            texts.pop()
        elif which == 1 and texts:
            texts[self.draw.below(len(texts))] = b'null'
        elif which == 2 and self.moving:
            texts = self.draw.shuffled(texts)
        else:
            texts.append(self.draw.pick((b'null', b'1', b'[]', any_json(self.draw, 2))))
        return self.spelling.array(texts)

    def faulty_choice(self, row, value, depth):
        pair = self.alternative(row, value, depth + 1)
        again = (self.spelling.string(self.table.name(
            self.table.members(row)[value[1]])), b'null')
        other = (self.spelling.string(self.draw.pick((b'', b'?', b'a', b'x'))),
                 pair[1] if self.moving else b'0')
        return self.spelling.object(self.draw.pick(
            ([], [pair, again], [again, pair], [other], [other, pair], [other], [again])))
