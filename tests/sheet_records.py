"""The bytes of a sheet's records, and back."""

WIDTHS = {1: (1,), 2: (1, 2, 4, 4), 3: (1, 4, 4), 4: (1, 4, 4), 5: (4,), 6: (2, 4), 7: (1, 2, 4, 4, 4), 8: (1,), 9: (1, 4), 10: (1, 4)}
BILLION = 1_000_000_000
# the greatest number of four bytes
ONES = 2**32 - 1
MEGABYTE = 1 << 20


def record(kind, *numbers):
    out = bytes([kind])
    for number, width in zip(numbers, WIDTHS[kind]):
        out += number.to_bytes(width, "big")
    return out


def sheet(records):
    return b"".join(record(*r) for r in records)


def records_of(data):
    """A sound sheet cut into its records."""
    out = []
    at = 0
    while at < len(data):
        end = at + 1 + sum(WIDTHS[data[at]])
        out.append(data[at:end])
        at = end
    return out


def numbers_of(data):
    """The numbers of a record."""
    at, numbers = 1, []
    for width in WIDTHS[data[0]]:
        numbers.append(int.from_bytes(data[at : at + width], "big"))
        at += width
    return numbers
