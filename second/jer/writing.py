"""Writing: the one text of a value under its type table."""

from jer.octets import write_base64, write_hexadecimal
from jer.table import (
    BOOLEAN, CHOICE, ENUMERATED, INTEGER, NULL, OCTET_STRING, SEQUENCE, SEQUENCE_OF)

# 01, Writing: "Escapes only \" \\ \b \t \n \f \r, and \u00 with two upper-case digits for
# the rest of U+0000 to U+001F."
ESCAPES = {byte: b'\\u00%02X' % byte for byte in range(0x20)}
ESCAPES.update({
    0x22: b'\\"', 0x5C: b'\\\\', 0x08: b'\\b', 0x09: b'\\t', 0x0A: b'\\n',
    0x0C: b'\\f', 0x0D: b'\\r'})


def write_string(denoted):
    return b'"' + b''.join(ESCAPES.get(byte, bytes((byte,))) for byte in denoted) + b'"'


def write_value(table, row, value):
    kind = table.kind(row)
    if kind == SEQUENCE:
        if table.array(row):
            return write_array(table, row, value[1])
        return write_object(table, row, value[1])
    if kind == SEQUENCE_OF:
        element = table.element(row)
        return b'[' + b','.join(write_value(table, element, v) for v in value[1]) + b']'
    if kind == CHOICE:
        return write_choice(table, row, value)
    return write_plain(table, row, value)


def write_plain(table, row, value):
    kind = table.kind(row)
    if kind == NULL:
        return b'null'
    if kind == BOOLEAN:
        return b'true' if value[1] else b'false'
    if kind == INTEGER:
        # 01, Writing: "zero as 0".
        return b'%d' % value[1]
    if kind == ENUMERATED:
        return write_string(table.name(table.members(row)[value[1]]))
    if kind == OCTET_STRING:
        write = write_base64 if table.instructed(row) else write_hexadecimal
        return b'"' + write(value[1]) + b'"'
    return write_string(value[1])


def write_named(table, member, value):
    text = write_value(table, table.type_of(member), value)
    return write_string(table.name(member)) + b':' + text


def write_object(table, row, members):
    # 01, Writing: "No white space, members in table order, absent members left out".
    return b'{' + b','.join(
        write_named(table, member, value)
        for member, value in zip(table.members(row), members) if value is not None) + b'}'


def write_array(table, row, members):
    # 01, Writing: "in an ARRAY, null for absent and all nulls at the end dropped."
    elements = [
        b'null' if value is None else write_value(table, table.type_of(member), value)
        for member, value in zip(table.members(row), members)]
    while elements and elements[-1] == b'null':
        elements.pop()
    return b'[' + b','.join(elements) + b']'


def write_choice(table, row, value):
    member = table.members(row)[value[1]]
    # X.697 31.2: the unwrapped encoding "shall be the encoding of the chosen alternative".
    if table.unwrapped(row):
        return write_value(table, table.type_of(member), value[2])
    return b'{' + write_named(table, member, value[2]) + b'}'
