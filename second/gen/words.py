"""Characters, strings and names."""

# Both sides of every length of UTF-8, the escapes, and characters that look alike.
CHARACTERS = (
    '\x00\x01\x07\x08\t\n\x0b\x0c\r\x1f !"\'/0:AZ[\\]^a{}~\x7f\x80\u00a0\u00e9\u07ff'
    '\u0800\u2028\ud7ff\ue000\ufeff\ufffd\uffff\U00010000\U0001f600\U0010ffff')

NAME_WORDS = (
    'a', 'b', 'c', 'A', 'id', 'name', 'value', 'flag', 'x', 'xy', 'xyz', 'null', 'true',
    '1', ' ', '"', '\\', '/', '\n', '\x00', '\x1f', '\u00e9', 'e\u0301', '\u20ac',
    '\U0001f600', '\uffff', 'date of hire', '#', '@', '_A_', '\x7f', 'u0061')


def draw_text(draw, most):
    """A Unicode string, mostly short."""
    length = draw.below(most + 1)
    if draw.chance(60):
        return ''.join(chr(draw.between(0x20, 0x7E)) for _ in range(length))
    return ''.join(
        draw.pick(CHARACTERS) if draw.chance(70) else draw_character(draw)
        for _ in range(length))


def draw_character(draw):
    code = draw.below(draw.pick((0x80, 0x800, 0x10000, 0x110000)))
    return chr(code) if not 0xD800 <= code <= 0xDFFF else '?'


def draw_name(draw):
    """A name of 1 to 128 bytes."""
    if draw.chance(75):
        name = draw.pick(NAME_WORDS)
    elif draw.chance(93):
        name = draw_text(draw, 6)
    else:
        name = chr(draw.pick((0x41, 0xE9, 0x20AC, 0x10FFFF))) * 128
        return cut_to(name.encode('utf-8'), 128)
    return cut_to(name.encode('utf-8'), 128) or b'n'


def cut_to(text, length):
    """At most so many bytes, without cutting a character."""
    return text[:length].decode('utf-8', 'ignore').encode('utf-8')


def draw_names(draw, count):
    """Names that differ from one another."""
    names = []
    while len(names) < count:
        name = draw_name(draw)
        if name in names:
            name = cut_to(name, 120) + b'%d' % len(names)
        if name not in names:
            names.append(name)
    return names
