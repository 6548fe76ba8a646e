"""Octets in hexadecimal (X.697 25.3) and in Base64 (X.697 25.2, RFC 2045 section 6.8)."""

HEX_DIGITS = frozenset(b'0123456789abcdefABCDEF')
ALPHABET = b'ABCDEFGHIJKLMNOPQRSTUVWXYZabcdefghijklmnopqrstuvwxyz0123456789+/'
SIX_BITS = {character: bits for bits, character in enumerate(ALPHABET)}
PAD = ord('=')


def read_hexadecimal(text):
    """01: "hexadecimal of either letter case, even length"; None for bad octets."""
    if len(text) % 2 != 0 or not HEX_DIGITS.issuperset(text):
        return None
    return bytes.fromhex(text.decode('ascii'))


def read_base64(text):
    """01: "groups of four with padding, unused bits zero, no other character"."""
    if len(text) % 4 != 0:
        return None
    octets = bytearray()
    for at in range(0, len(text), 4):
        group = text[at:at + 4]
        # RFC 2045, 6.8: padding stands only at the very end.
        pads = count_pads(group) if at + 4 == len(text) else 0
        part = read_group(group[:4 - pads], 2 * pads)
        if part is None:
            return None
        octets += part
    return bytes(octets)


def count_pads(group):
    return 2 if group.endswith(b'==') else 1 if group.endswith(b'=') else 0


def read_group(digits, unused):
    """The octets of up to four digits, of which the last bits are unused: four of them
    before two pads, two before one."""
    bits = 0
    for digit in digits:
        if digit not in SIX_BITS:
            return None
        bits = bits << 6 | SIX_BITS[digit]
    if bits & ((1 << unused) - 1):
        return None
    return (bits >> unused).to_bytes((6 * len(digits) - unused) // 8, 'big')


def write_hexadecimal(octets):
    """01, Writing: "Hexadecimal in upper case"."""
    return octets.hex().upper().encode('ascii')


def write_base64(octets):
    """01, Writing: "Base64 in one line with padding"."""
    text = bytearray()
    for at in range(0, len(octets), 3):
        group = octets[at:at + 3]
        bits = int.from_bytes(group + bytes(3 - len(group)), 'big')
        four = [ALPHABET[bits >> shift & 63] for shift in (18, 12, 6, 0)]
        for lacking in range(3 - len(group)):
            four[3 - lacking] = PAD
        text += bytes(four)
    return bytes(text)
