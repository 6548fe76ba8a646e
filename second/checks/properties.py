"""Promises of document 01, each tested on drawn cases. A property raises Broken."""

from checks.newer import Lacking, Newer, cut, paired, widened
from gen.draw_types import ENDLESS, least_rows
from gen.draw_values import draw_value
from gen.drafts import reachable
from gen.encode import Encoder
from gen.layout import plain, scattered
from gen.random_cases import Subject, broken_table, broken_value, draw_text
from gen.any_json import any_json
from gen.damage import damaged
from gen.draw import Draw
from gen.faults import FaultyEncoder
from jer import calls, values
from jer.refusal import Refusal
from jer.table import FIELDS, Table, split_rows
from jer.value_rules import judge_value

WIDE = 1 << 30


class Broken(Exception):
    """A counterexample, with the case that shows it."""


def hold(promise, said, *case):
    if not promise:
        raise Broken('%s: %s' % (said, ' | '.join(map(show, case))))


def show(part):
    return part.hex().upper() if isinstance(part, (bytes, bytearray)) else repr(part)


def read_answer(numbers, names, text, room_numbers=WIDE, room_pool=WIDE):
    """(True, rows, pool) or (False, number, first, second)."""
    try:
        return (True,) + calls.read(numbers, names, text, room_numbers, room_pool)
    except Refusal as refusal:
        return (False,) + refusal.answer()


def flat(rows):
    return [number for row in rows for number in row]


def written_is_read(draw):
    """What is written is read as the same rows and pool; each sender's text too, and
    writing it again is never longer."""
    subject = Subject(draw)
    rows, pool = values.lay_out(subject.value)
    case = subject.numbers, subject.names
    text = calls.write(*case, flat(rows), pool, 65536)
    hold(read_answer(*case, text) == (True, rows, pool), 'written, not read', *case, text)
    other = Encoder(draw, subject.table).text(subject.value)
    hold(read_answer(*case, other) == (True, rows, pool), 'a sender\'s text', *case, other)
    hold(len(text) <= len(other), 'written longer than the text', *case, other)


def rooms(draw):
    """Room changes nothing but 14, whose amounts are those needed; at most 130 rows a
    byte, and no more pool bytes than text."""
    subject = Subject(draw)
    text = draw_text(draw, subject.table, subject.value)
    case = subject.numbers, subject.names, text
    answer = read_answer(*case)
    small = [(0, 0), (draw.below(40), draw.below(20)), (WIDE, 0), (0, WIDE)]
    if not answer[0]:
        hold(answer[1] in (3, 4, 5, 6, 7, 8, 9, 10, 11), 'unknown refusal', *case, answer)
        for room in small:
            hold(read_answer(*case, *room) == answer, 'room changed a refusal', *case, room)
        return
    rows, pool = answer[1:]
    hold(len(rows) <= 130 * len(text), 'over 130 rows a byte', *case)
    hold(len(pool) <= len(text), 'pool longer than the text', *case)
    exact = 4 * len(rows), len(pool)
    for room in small + [exact, (exact[0] - 1, exact[1]), (exact[0], exact[1] - 1)]:
        fits = room[0] >= exact[0] and room[1] >= exact[1]
        expected = answer if fits else (False, 14, len(rows), len(pool))
        hold(read_answer(*case, *room) == expected, 'room', *case, room)
    again = calls.write(*case[:2], flat(rows), pool, 65536)
    hold(len(again) <= len(text), 'written longer than the text read', *case)


def layouts(draw):
    """The rows' order in the table is nothing to the reader."""
    subject = Subject(draw)
    text = draw_text(draw, subject.table, subject.value)
    answer = read_answer(subject.numbers, subject.names, text)
    for numbers, names in (plain(subject.draft), scattered(draw, subject.draft)):
        hold(calls.check_table(numbers, names) is None, 'valid table refused', numbers, names)
        hold(read_answer(numbers, names, text) == answer, 'layout', numbers, names, text)


def judged_value(draw):
    """A value table that is let pass holds exactly one text, which is read back."""
    subject = Subject(draw)
    rows, pool = values.lay_out(subject.value)
    numbers, pool = broken_value(draw, flat(rows), pool)
    case = subject.numbers, subject.names
    try:
        text = calls.write(*case, numbers, pool, 65536)
    except Refusal as refusal:
        number, first, _ = refusal.answer()
        hold(number == 12 and 0 <= first <= len(numbers) // 4, 'refusal', *case, numbers, pool)
        return
    expected = (True, split_rows(numbers, 4), pool)
    hold(read_answer(*case, text) == expected, 'let pass, not read back', *case, numbers, pool)


def broken_tables(draw):
    """A refused table is refused by every call, with the same row."""
    subject = Subject(draw)
    numbers, names = broken_table(draw, subject.numbers, subject.names)
    row = calls.check_table(numbers, names)
    text = draw_text(draw, subject.table, subject.value)
    answer = read_answer(numbers, names, text)
    if row is not None:
        hold(row <= max(0, len(numbers) // 8 - 1), 'row past the table', numbers, names)
        hold(answer == (False, 1, row, 0), 'refusal 1', numbers, names, text)
    else:
        hold(answer[0] or answer[1] != 1, 'refusal 1', numbers, names, text)


def older_and_newer(draw):
    """What the newer table reads, the older reads cut, or refuses by 11 exactly when the
    cut value holds what it lacks."""
    _, newer_draft, older, newer = draw_pair(draw)
    if least_rows(reachable(newer_draft))[id(newer_draft)] >= ENDLESS:
        return
    value = draw_value(draw, newer_draft, 30)
    text = draw_text(draw, newer, value)
    case = flat(older.rows), older.names, flat(newer.rows), newer.names, text
    answer = read_answer(case[2], case[3], text)
    under_older = read_answer(case[0], case[1], text)
    if not answer[0]:
        return
    value = judge_value(newer, flat(answer[1]), answer[2])
    try:
        expected = (True,) + values.lay_out(cut(older, 0, value))
        hold(under_older == expected, 'the cut value is not read', *case)
    except Lacking:
        hold(not under_older[0] and under_older[1] == 11, 'lacking, not 11', *case)


def draw_pair(draw):
    """An older and a newer table, paired."""
    subject = Subject(draw, (4, 8, 12))
    newer_draft = Newer(draw).copy(subject.draft)
    numbers, names = scattered(draw, newer_draft)
    hold(calls.check_table(numbers, names) is None, 'newer table refused', numbers, names)
    newer = Table(split_rows(numbers, FIELDS), names)
    hold(paired(subject.table, newer), 'not paired', subject.numbers, numbers)
    return subject.draft, newer_draft, subject.table, newer


def written_under_older(draw):
    """What is written under the older table is read under the newer, additions absent."""
    older_draft, _, older, newer = draw_pair(draw)
    value = draw_value(draw, older_draft, 30)
    rows, pool = values.lay_out(value)
    text = calls.write(flat(older.rows), older.names, flat(rows), pool, 65536)
    expected = (True,) + values.lay_out(widened(newer, 0, value))
    hold(read_answer(flat(newer.rows), newer.names, text) == expected,
         'the newer reads otherwise', flat(older.rows), flat(newer.rows), newer.names, text)


def skipped_values(draw):
    """01: "Two texts that differ only inside the values of skipped members, both JSON
    within the sizes, get the same rows and pool, or the same refusal number." """
    subject = Subject(draw)
    seed = draw.bits()
    fault_at = draw.pick((0, 1, draw.between(1, values.needed(subject.value)[0])))
    texts = []
    for _ in range(2):
        encoder = FaultyEncoder(
            Draw(seed), subject.table, fault_at, skipped=draw.fork(), moving=False)
        texts.append(encoder.text(subject.value))
    case = subject.numbers, subject.names
    first, second = [read_answer(*case, text) for text in texts]
    hold(first[0] or fault_at, 'a good text refused', *case, texts[0])
    # Places may differ, since the skipped values need not be of one length.
    same = first == second if first[0] else first[:2] == second[:2]
    hold(same, 'skipped values', *case, *texts)


# Bytes that bring any text begun to its end, those that close first.
CLOSING = tuple(bytes((byte,)) for byte in b'"}]:0\\uDCnulltruefalse\x80\x90\xa0')


def places(draw):
    """Before the place of 3 a JSON text can begin so: some bytes complete it."""
    text = damaged(draw, any_json(draw, 4))
    refusal = calls.check_text(text)
    if refusal is None or refusal[0] != 3:
        return
    start = text[:refusal[1]]
    for _ in range(200):
        if calls.check_text(start) is None:
            return
        for byte in CLOSING:
            if calls.check_text(start + byte) != (3, len(start)):
                start += byte
                break
        else:
            break
    hold(False, 'no JSON text begins with', text[:refusal[1]])


PROPERTIES = (
    written_is_read, rooms, layouts, judged_value, broken_tables, older_and_newer,
    written_under_older, skipped_values, places)
