"""What instructions compute, written from the RISC-V Unprivileged ISA 20191213 with no look at the program."""

ALL = 0xffffffff


def signed(value, bits=32):
    """The number that these bits are in two's complement."""
    value &= (1 << bits) - 1
    return value - (1 << bits) if value >> bits - 1 else value


def divided(a, b):
    """Quotient and remainder of two numbers, towards 0."""
    quotient = abs(a) // abs(b) * (1 if (a < 0) == (b < 0) else -1)
    return quotient, a - b * quotient


def compute(kind, a, b):
    """What a computation gives; kind is funct3, and whether it is of the other kind, as sub and sra are."""
    return {
        (0, False): lambda: a + b, (0, True): lambda: a - b, (1, False): lambda: a << b % 32,
        (2, False): lambda: int(signed(a) < signed(b)), (3, False): lambda: int(a < b), (4, False): lambda: a ^ b,
        (5, False): lambda: a >> b % 32, (5, True): lambda: signed(a) >> b % 32, (6, False): lambda: a | b,
        (7, False): lambda: a & b,
    }[kind]() & ALL


def multiply(funct3, a, b):
    """The results of the instructions of M."""
    if funct3 < 4:
        left = signed(a) if funct3 in (1, 2) else a
        right = signed(b) if funct3 == 1 else b
        return (left * right >> (32 if funct3 else 0)) & ALL
    if b == 0:
        return ALL if funct3 in (4, 5) else a
    left, right = (a, b) if funct3 in (5, 7) else (signed(a), signed(b))
    return divided(left, right)[funct3 in (6, 7)] & ALL


def is_taken(funct3, a, b):
    return {0: a == b, 1: a != b, 4: signed(a) < signed(b), 5: signed(a) >= signed(b), 6: a < b, 7: a >= b}[funct3]


def combine(funct5, old, b):
    """The new word of an atomic operation."""
    return {
        1: b, 0: (old + b) & ALL, 4: old ^ b, 12: old & b, 8: old | b, 16: min(old, b, key=signed),
        20: max(old, b, key=signed), 24: min(old, b), 28: max(old, b),
    }[funct5]
