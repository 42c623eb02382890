"""The field of 256 elements: bytes with exclusive or as the sum, and products reduced by 0x11D."""
POLYNOMIAL = 0x11D


def _row(a):
    """The products of a by all bytes, in their order."""
    doubled, shifts = a, []
    for _ in range(8):
        shifts.append(doubled)
        doubled <<= 1
        if doubled & 256:
            doubled ^= POLYNOMIAL
    row = [0] * 256
    for b in range(1, 256):
        low = b & -b
        row[b] = row[b ^ low] ^ shifts[low.bit_length() - 1]
    return bytes(row)


PRODUCTS = [_row(a) for a in range(256)]
INVERSES = [0] + [row.index(1) for row in PRODUCTS[1:]]


def times(a, b):
    return PRODUCTS[a][b]


def power(a, e):
    """a multiplied e times; a to the 0 is 1, also for a = 0."""
    product = 1
    for _ in range(e):
        product = PRODUCTS[product][a]
    return product


def scaled(a, chunk):
    """Each byte of the chunk multiplied by a."""
    return chunk.translate(PRODUCTS[a])


def added(one, other):
    """The bytes of two chunks of one length, added."""
    total = int.from_bytes(one, 'little') ^ int.from_bytes(other, 'little')
    return total.to_bytes(len(one), 'little')


def kernel(columns):
    """What a square matrix, given as its columns, sends to zero; None where it has an inverse.

    The list is zero behind the first column that depends on those before it, and its first entry
    that isn't zero is 1.
    """
    reduced = []
    for place, column in enumerate(columns):
        column, made_of = list(column), [int(i == place) for i in range(len(columns))]
        for pivot, other, other_of in reduced:
            factor = times(column[pivot], INVERSES[other[pivot]])
            column = [x ^ times(factor, y) for x, y in zip(column, other)]
            made_of = [x ^ times(factor, y) for x, y in zip(made_of, other_of)]
        if not any(column):
            first = next(x for x in made_of if x)
            return [times(x, INVERSES[first]) for x in made_of]
        reduced.append((next(i for i, x in enumerate(column) if x), column, made_of))
    return None
