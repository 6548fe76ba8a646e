"""Drafts of types: objects that point to one another, before any rows are laid out."""

from jer.table import (
    BOOLEAN, CHOICE, ENUMERATED, EXTENSIBLE, INSTRUCTION, INTEGER, NULL, OCTET_STRING,
    SEQUENCE, SEQUENCE_OF, UTF8_STRING)


class Member:
    """A member, alternative or item; an item has no type."""

    def __init__(self, name, of_type=None, optional=False):
        self.name = name.encode('utf-8') if isinstance(name, str) else name
        self.of_type = of_type
        self.optional = optional

    def same_row(self, other):
        """Whether one member row can serve both."""
        return (self.name == other.name and self.of_type is other.of_type
                and self.optional == other.optional)


class Draft:
    def __init__(self, kind, marks=0, members=(), root=None, element=None):
        self.kind = kind
        self.marks = marks
        self.members = list(members)
        self.root = len(self.members) if root is None else root
        self.element = element

    def instructed(self):
        return self.marks & INSTRUCTION != 0

    def extensible(self):
        return self.marks & EXTENSIBLE != 0

    def array(self):
        return self.kind == SEQUENCE and self.instructed()

    def unwrapped(self):
        return self.kind == CHOICE and self.instructed()

    def may_be_absent(self, position):
        return self.members[position].optional or position >= self.root

    def null_is_its_own(self):
        """A type whose null cannot stand for absent (X.697 14.2)."""
        if not self.unwrapped():
            return self.kind == NULL
        return self.extensible() or any(m.of_type.kind == NULL for m in self.members)

    def token_kind(self):
        if self.kind == SEQUENCE_OF or self.array():
            return 'array'
        if self.kind in (SEQUENCE, CHOICE):
            return 'object'
        return {BOOLEAN: 'boolean', INTEGER: 'number', NULL: 'null'}.get(self.kind, 'string')

    def pointed_to(self):
        """The types that this one names, in order."""
        if self.kind == SEQUENCE_OF:
            return [self.element]
        return [member.of_type for member in self.members if member.of_type is not None]


def reachable(draft):
    """This type and all it leads to, each once, nearest first."""
    found = [draft]
    for known in found:
        for other in known.pointed_to():
            if not any(other is each for each in found):
                found.append(other)
    return found


# --- short forms for cases written by hand ------------------------------------------

def marks_of(instructed, extensible):
    return INSTRUCTION * instructed + EXTENSIBLE * extensible


def boolean():
    return Draft(BOOLEAN)


def integer():
    return Draft(INTEGER)


def null():
    return Draft(NULL)


def utf8():
    return Draft(UTF8_STRING)


def octets(base64=False):
    return Draft(OCTET_STRING, marks_of(base64, False))


def enumerated(*items, extensible=False, root=None):
    return Draft(ENUMERATED, marks_of(False, extensible), [Member(i) for i in items], root)


def sequence(*members, array=False, extensible=False, root=None):
    return Draft(SEQUENCE, marks_of(array, extensible), members, root)


def sequence_of(element):
    return Draft(SEQUENCE_OF, element=element)


def choice(*members, unwrapped=False, extensible=False, root=None):
    return Draft(CHOICE, marks_of(unwrapped, extensible), members, root)


def optional(name, of_type):
    return Member(name, of_type, True)
