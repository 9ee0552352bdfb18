"""Reduction to low bits, and signed reading, at any width."""


def low(value, width):
    """The low bits of a whole number at a width."""
    return value & (1 << width) - 1


def signed(word, width):
    """The signed number that a word of a width holds in two's complement."""
    return word - (1 << width) if word >> width - 1 else word


def leaves_range(value, width):
    """Whether a signed number does not fit into a width."""
    half = 1 << width - 1
    return not -half <= value < half


def extended(word, width, wider):
    """The word of a wider register that holds the same signed number."""
    return low(signed(word, width), wider)
