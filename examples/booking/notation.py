"""A description in ASN.1 notation becomes a type table, within document 01's base. Python's standard library alone.

    Type   ::= [ARRAY|BASE64|UNWRAPPED]? Kind
    Kind   ::= BOOLEAN | INTEGER | NULL | UTF8String | OCTET STRING | Name | SEQUENCE OF Type
             | ENUMERATED { items } | SEQUENCE { members } | CHOICE { alternatives }
"""
import re

KINDS = ['BOOLEAN', 'INTEGER', 'ENUMERATED', 'NULL', 'OCTET STRING', 'UTF8String', 'SEQUENCE', 'SEQUENCE OF', 'CHOICE']
MEMBER = 9
INSTRUCTIONS = {'OCTET STRING': 'BASE64', 'SEQUENCE': 'ARRAY', 'CHOICE': 'UNWRAPPED'}
TOKEN = re.compile(r'--[^\n]*|\s+|::=|\.\.\.|[{}\[\],]|[A-Za-z][A-Za-z0-9-]*')


class Type:
    """A type before it has a row: its members are (name, Type or None, optional), a name stands for a named type."""

    def __init__(self, kind, instructed):
        self.kind, self.instructed = kind, instructed
        self.extensible, self.members, self.root, self.element = False, [], 0, None

    def plain(self):
        return not self.members and self.element is None and self.kind != 'SEQUENCE'


def tokens(text):
    at = 0
    while at < len(text):
        found = TOKEN.match(text, at)
        if not found:
            raise ValueError('not understood: ' + text[at:at + 20])
        at = found.end()
        if not found.group().isspace() and not found.group().startswith('--'):
            yield found.group()


class Parser:
    def __init__(self, text):
        self.left = list(tokens(text))[::-1]

    def take(self, *allowed):
        token = self.left.pop()
        if allowed and token not in allowed:
            raise ValueError('%s where one of %s belongs' % (token, ' '.join(allowed)))
        return token

    def next_is(self, token):
        if self.left and self.left[-1] == token:
            return bool(self.left.pop())
        return False

    def types(self):
        """Each named type, in the order of the text."""
        named = {}
        while self.left:
            name = self.take()
            self.take('::=')
            named[name] = self.type()
        return named

    def type(self):
        instruction = None
        if self.next_is('['):
            instruction = self.take(*INSTRUCTIONS.values())
            self.take(']')
        kind = self.take()
        if kind == 'OCTET':
            kind += ' ' + self.take('STRING')
        if kind == 'SEQUENCE' and self.next_is('OF'):
            kind = 'SEQUENCE OF'
        if instruction is not None and INSTRUCTIONS.get(kind) != instruction:
            raise ValueError('%s in front of %s' % (instruction, kind))
        if kind not in KINDS:
            return kind
        made = Type(kind, instruction is not None)
        if kind == 'SEQUENCE OF':
            made.element = self.type()
        elif kind in ('ENUMERATED', 'SEQUENCE', 'CHOICE'):
            self.members(made)
        return made

    def members(self, made):
        self.take('{')
        while not self.next_is('}'):
            if made.members or made.extensible:
                self.take(',')
            if self.next_is('...'):
                made.extensible = True
                continue
            name = self.take()
            of_type = None if made.kind == 'ENUMERATED' else self.type()
            made.members.append((name, of_type, made.kind == 'SEQUENCE' and self.next_is('OPTIONAL')))
            made.root += not made.extensible


def table(text):
    """(numbers, names) of the description's first type. Each type's row, its members behind it, then the types that
    they name, as document 01 lays out T; a named type and a type without parts have one row."""
    named = Parser(text).types()
    found = [next(iter(named.values()))]

    def known(of_type):
        of_type = named[of_type] if isinstance(of_type, str) else of_type
        for each in found:
            if each is of_type or (each.plain() and of_type.plain() and
                                   (each.kind, each.instructed) == (of_type.kind, of_type.instructed)):
                return each
        found.append(of_type)
        return of_type

    for each in found:
        each.members = [(name, of_type and known(of_type), optional) for name, of_type, optional in each.members]
        each.element = each.element and known(each.element)
    first, row = {}, 0
    for each in found:
        first[id(each)] = row
        row += 1 + len(each.members)
    return rows(found, first)


def rows(found, first):
    numbers, names = [], bytearray()
    for each in found:
        marks = each.instructed + 2 * each.extensible
        pointed = first[id(each)] + 1 if each.members else first[id(each.element)] if each.element else 0
        numbers += [KINDS.index(each.kind), marks, pointed, len(each.members), each.root, 0, 0, 0]
        for name, of_type, optional in each.members:
            numbers += [MEMBER, int(optional), first[id(of_type)] if of_type else 0, len(names), len(name), 0, 0, 0]
            names += name.encode('ascii')
    return numbers, bytes(names)


def hexadecimal(numbers, names):
    """The first two lines of jerread's input."""
    return ''.join('%08X' % number for number in numbers) + '\n' + names.hex().upper() + '\n'
