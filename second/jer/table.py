"""The type table: kinds and marks of a row, and a view that hands out members and names."""

BOOLEAN = 0
INTEGER = 1
ENUMERATED = 2
NULL = 3
OCTET_STRING = 4
UTF8_STRING = 5
SEQUENCE = 6
SEQUENCE_OF = 7
CHOICE = 8
MEMBER = 9

# 01: "1 = BASE64 (4), ARRAY (6), UNWRAPPED (8); 2 = extensible (2, 6, 8)".
INSTRUCTION = 1
EXTENSIBLE = 2

# 01: "field 1 is 1 if OPTIONAL".
OPTIONAL = 1

FIELDS = 8


def split_rows(numbers, fields):
    """Whole rows only; numbers left over are the caller's to judge."""
    whole = len(numbers) - len(numbers) % fields
    return [tuple(numbers[at:at + fields]) for at in range(0, whole, fields)]


class Table:
    """A type table whose pointers may be followed once the judgement has let it pass."""

    def __init__(self, rows, names):
        self.rows = rows
        self.names = names
        self._positions = {}

    def kind(self, row):
        return self.rows[row][0]

    def instructed(self, row):
        return self.rows[row][1] & INSTRUCTION != 0

    def extensible(self, row):
        return self.rows[row][1] & EXTENSIBLE != 0

    def array(self, row):
        return self.kind(row) == SEQUENCE and self.instructed(row)

    def unwrapped(self, row):
        return self.kind(row) == CHOICE and self.instructed(row)

    def element(self, row):
        return self.rows[row][2]

    def members(self, row):
        """01: "Field 3: how many members, in consecutive rows"."""
        first, count = self.rows[row][2:4]
        return range(first, first + count)

    def count(self, row):
        return self.rows[row][3]

    def root(self, row):
        return self.rows[row][4]

    def optional(self, member):
        return self.rows[member][1] == OPTIONAL

    def type_of(self, member):
        return self.rows[member][2]

    def name(self, member):
        start, length = self.rows[member][3:5]
        return self.names[start:start + length]

    def position_of(self, row, name):
        """The member's position from 0, or None for a name that the type does not know."""
        if row not in self._positions:
            self._positions[row] = {
                self.name(member): position
                for position, member in enumerate(self.members(row))}
        return self._positions[row].get(name)

    def may_be_absent(self, row, position):
        """01: "an absent one, OPTIONAL or an addition"."""
        member = self.rows[row][2] + position
        return self.optional(member) or position >= self.root(row)

    def null_position(self, row):
        """The NULL alternative of an UNWRAPPED choice, root or addition; None without one."""
        for position, member in enumerate(self.members(row)):
            if self.kind(self.type_of(member)) == NULL:
                return position
        return None

    def can_be_null(self, row):
        """01: "a type that can be null (NULL, or UNWRAPPED with a NULL alternative)"."""
        if self.kind(row) == NULL:
            return True
        return self.unwrapped(row) and self.null_position(row) is not None

    def null_is_its_own(self, row):
        """01: a type that "can be null ... or is an extensible UNWRAPPED choice":
        its null cannot stand for absent (X.697 14.2, 27.3.4)."""
        return self.can_be_null(row) or (self.unwrapped(row) and self.extensible(row))

    def token_kind(self, row):
        """01: "null, boolean, number, string, array, object"; "ARRAY sequences and
        SEQUENCE OF make arrays; other sequences and wrapped choices make objects"."""
        if self.kind(row) == SEQUENCE:
            return 'array' if self.instructed(row) else 'object'
        return {
            BOOLEAN: 'boolean', INTEGER: 'number', ENUMERATED: 'string', NULL: 'null',
            OCTET_STRING: 'string', UTF8_STRING: 'string', SEQUENCE_OF: 'array',
            CHOICE: 'object'}[self.kind(row)]
