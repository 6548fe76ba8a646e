"""The stored files: how many lines a case has, and what this program answers to them.

A case is a list of lines without their ends. Answers are computed from the lines, so
what is stored is what was run.
"""

import io

from jer import calls
from jer.lines import jerread, jerwrite, numbers_of, refusal_line, value_lines
from jer.refusal import Refusal, TABLE


# --- lines from numbers and bytes -----------------------------------------------------

def number_line(numbers):
    return ''.join('%08X' % number for number in numbers)


def byte_line(text):
    return bytes(text).hex().upper()


def table_case(numbers, names):
    return [number_line(numbers), byte_line(names)]


def text_case(text):
    return [byte_line(text)]


def read_case(numbers, names, text, room_numbers=0x4000, room_pool=0x4000):
    return table_case(numbers, names) + [
        byte_line(text), number_line([room_numbers]), number_line([room_pool])]


def write_case(numbers, names, value_numbers, pool, room_text=0x10000):
    return table_case(numbers, names) + [
        number_line(value_numbers), byte_line(pool), number_line([room_text])]


def input_case(standard_input):
    return [byte_line(standard_input)]


# --- answers ---------------------------------------------------------------------------

def verdict(refusal):
    if refusal is None:
        return 'OK\n'
    return 'NO %08X %08X\n' % refusal


def table_answer(lines):
    row = calls.check_table(numbers_of(lines[0]), bytes.fromhex(lines[1]))
    return verdict(None if row is None else (TABLE, row))


def text_answer(lines):
    return verdict(calls.check_text(bytes.fromhex(lines[0])))


def read_answer(lines):
    try:
        return value_lines(*calls.read(
            numbers_of(lines[0]), bytes.fromhex(lines[1]), bytes.fromhex(lines[2]),
            int(lines[3], 16), int(lines[4], 16)))
    except Refusal as refusal:
        return refusal_line(refusal.answer())


def write_answer(lines):
    try:
        return byte_line(calls.write(
            numbers_of(lines[0]), bytes.fromhex(lines[1]), numbers_of(lines[2]),
            bytes.fromhex(lines[3]), int(lines[4], 16))) + '\n'
    except Refusal as refusal:
        return refusal_line(refusal.answer())


def jerread_answer(lines):
    return jerread(io.BytesIO(bytes.fromhex(lines[0])))


def jerwrite_answer(lines):
    return jerwrite(io.BytesIO(bytes.fromhex(lines[0])))


# By name: the lines a case has, and the answer to them.
FORMATS = {
    'table': (2, table_answer), 'text': (1, text_answer), 'read': (5, read_answer),
    'write': (5, write_answer), 'jerread': (1, jerread_answer),
    'jerwrite': (1, jerwrite_answer)}


def refusal_number(answer):
    """The refusal number in an answer; 0 for success."""
    if answer.startswith('NO '):
        return int(answer[3:11], 16)
    if answer.startswith('FFFFFFFF') and len(answer) == 33:
        return int(answer[8:16], 16)
    return 0
