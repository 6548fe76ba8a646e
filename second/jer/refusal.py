"""A refusal: its number and what is returned beside it."""


class Refusal(Exception):
    """01, Refusal numbers: "A refusal carries its number and, by kind of refusal,
    a place, a row or the amounts needed." An amount that is not there is 0."""

    def __init__(self, number, first=0, second=0):
        super().__init__(number, first, second)
        self.number = number
        self.first = first
        self.second = second

    def answer(self):
        return (self.number, self.first, self.second)


TABLE = 1
TEXT_TOO_LONG = 2
NOT_JSON = 3
BRACKETS = 4
TOKEN = 5
NUMBER = 6
STRING = 7
NAME = 8
REPEATED = 9
MEMBERS = 10
LACKING = 11
VALUE = 12
WRITTEN_TOO_LONG = 13
ROOM = 14
LINE = 15
