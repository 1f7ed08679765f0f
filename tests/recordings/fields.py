"""The fields that recordings are made of: words and varints. docs/FORMATS.md describes them."""


def word(value):
    """The four bytes of a word, the least significant first."""
    return value.to_bytes(4, 'little')


def words(*values):
    """The bytes of words, one behind the other."""
    return b''.join(word(value) for value in values)


def varint(value):
    """The one spelling of a number: groups of seven bits, the lowest first, with bit 7 set in each but the last."""
    spelled = bytearray()
    while value >= 0x80:
        spelled.append(value % 0x80 | 0x80)
        value //= 0x80
    spelled.append(value)
    return bytes(spelled)
