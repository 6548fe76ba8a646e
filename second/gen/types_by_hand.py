"""Types that the cases written by hand use: document 01's samples and the annexes'."""

from gen.drafts import (
    Member, boolean, choice, enumerated, integer, null, octets, optional, sequence,
    sequence_of, utf8)


def sample_t():
    """01: "T is an extensible SEQUENCE of a INTEGER, b BOOLEAN OPTIONAL." """
    return sequence(Member('a', integer()), optional('b', boolean()), extensible=True)


def sample_array():
    """01: "ARRAY sequence of INTEGER and NULL, not extensible"."""
    return sequence(Member('a', integer()), Member('b', null()), array=True)


def sample_enumerated(extensible):
    """01: "ENUMERATED with the one item red"."""
    return enumerated('red', extensible=extensible)


def of_itself():
    """01: "SEQUENCE OF itself"."""
    draft = sequence_of(None)
    draft.element = draft
    return draft


def name_a():
    """Annex A.1, Name."""
    return sequence(Member('givenName', utf8()), Member('initial', utf8()),
                    Member('familyName', utf8()))


def record_a():
    """Annex A.1, PersonnelRecord: SET as SEQUENCE (X.697 29), VisibleString as
    UTF8String, children's DEFAULT as OPTIONAL."""
    name = name_a()
    child = sequence(Member('name', name), Member('dateOfBirth', utf8()))
    return sequence(
        Member('name', name), Member('title', utf8()), Member('number', integer()),
        Member('dateOfHire', utf8()), Member('nameOfSpouse', name),
        optional('children', sequence_of(child)))


def sequence_1(*names):
    """MySequence1 of annexes A.4 and B.4 by its three names."""
    return sequence(optional(names[0], integer()), Member(names[1], boolean()),
                    Member(names[2], utf8()))


def choice_a():
    """Annex A.4, MyChoice; UniversalString as UTF8String."""
    return choice(Member('a', sequence_1('a', 'b', 'c')), Member('b', utf8()))


def record_b():
    """Annex B.1, with its names already applied and [ARRAY] on each SEQUENCE; a SET
    stays an object (X.697 29)."""
    name = sequence(Member('givenName', utf8()), Member('initial', utf8()),
                    Member('familyName', utf8()), array=True)
    child = sequence(Member('name', name), Member('date of birth', utf8()))
    car = sequence(Member('make', utf8()), Member('model', utf8()), array=True)
    vehicle = choice(Member('bicycle', enumerated('road', 'mountain', 'hybrid')),
                     Member('car', car), Member('other', integer()), unwrapped=True)
    return sequence(
        Member('name', name), Member('title', utf8()), Member('number', integer()),
        Member('date of hire', utf8()), Member('name of spouse', name),
        Member('category', enumerated('#', '@')), optional('children', sequence_of(child)),
        Member('assigned vehicle', vehicle), Member('certificate', octets(True)))


def set_of_b():
    """Annex B.4, MySetOf: SET OF as SEQUENCE OF."""
    inner = sequence(Member('a', integer()), optional('b', boolean()))
    return sequence_of(sequence(Member('key', utf8()), Member('value', inner)))


def choice_b(number):
    """Annex B.5, MyChoice1 to MyChoice5; UniversalString as UTF8String."""
    s1 = sequence(Member('a', integer()), Member('b', boolean()), optional('c', boolean()))
    s2 = (Member('a', integer()), optional('b', boolean()), Member('c', boolean()))
    if number in (1, 2):
        return choice(Member('a', sequence(Member('q', boolean()))), Member('b', utf8()),
                      unwrapped=number == 2)
    if number == 3:
        return choice(
            Member('a', integer()), Member('b', null()), Member('c', boolean()),
            Member('d', utf8()), Member('e', sequence_of(integer())),
            Member('f', sequence(optional('w', enumerated('enabled')))), unwrapped=True)
    unwrapped = number == 5
    return choice(Member('s1', s1), Member('s2', sequence(*s2, array=unwrapped)),
                  unwrapped=unwrapped)
