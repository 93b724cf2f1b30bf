"""QR codes of addresses: of texts of up to 106 bytes, as squares of 0 and 1."""
from __future__ import annotations

import functools
import itertools
from typing import Any, Callable

# How many bytes of data and of the check after them each size from 1 on has; at the least level of correction, L, they are one block.
SIZES = [(19, 7), (34, 10), (55, 15), (80, 20), (108, 26)]
MASKS: list[Callable[[int, int], int]] = [
         lambda x, y: (x + y) % 2, lambda x, y: y % 2, lambda x, y: x % 3, lambda x, y: (x + y) % 3, lambda x, y: (x // 3 + y // 2) % 2,
         lambda x, y: x * y % 2 + x * y % 3, lambda x, y: (x * y % 2 + x * y % 3) % 2, lambda x, y: ((x + y) % 2 + x * y % 3) % 2]
FORMAT, FORMAT_MASK, LEVEL = 0x537, 0x5412, 1


def times(x: int, y: int) -> int:
    """The product in the field of 256 elements whose polynomial is 0x11d."""
    product = 0
    for bit in range(8):
        if y >> bit & 1:
            product ^= x << bit
    for bit in range(14, 7, -1):
        if product >> bit & 1:
            product ^= 0x11d << bit - 8
    return product


def check_bytes(data: list[int], count: int) -> list[int]:
    """The remainder of the data, by which errors are corrected."""
    divisor, root = [1], 1
    for _ in range(count):
        divisor = [one ^ times(other, root) for one, other in zip([*divisor, 0], [0, *divisor])]
        root = times(root, 2)
    rest = [*data, *[0] * count]
    for i in range(len(data)):
        factor = rest[i]
        for j, part in enumerate(divisor):
            rest[i + j] ^= times(part, factor)
    return rest[-count:]


def words(text: bytes, size: int) -> list[int]:
    """The bytes of a code of a size: the mode, the length, the text, what fills it up, and the check."""
    most, checked = SIZES[size - 1]
    bits = "0100" + format(len(text), "08b") + "".join(format(byte, "08b") for byte in text) + "0000"
    data = [int(bits[i:i + 8], 2) for i in range(0, len(bits), 8)]
    data += itertools.islice(itertools.cycle([0xec, 0x11]), most - len(data))
    return data + check_bytes(data, checked)


def fixed(size: int) -> Any:
    """The dots that every code of a size has, by their places (x, y), and 0 at those of the format."""
    wide, dots = 17 + 4 * size, {}
    for i in range(wide):
        dots[i, 6] = dots[6, i] = 1 - i % 2
    for left, top in (0, 0), (wide - 7, 0), (0, wide - 7):
        for x, y in itertools.product(range(-1, 8), repeat=2):
            if 0 <= left + x < wide and 0 <= top + y < wide:
                far = max(abs(x - 3), abs(y - 3))
                dots[left + x, top + y] = int(far not in (2, 4))
    if size > 1:
        for x, y in itertools.product(range(-2, 3), repeat=2):
            dots[4 * size + 10 + x, 4 * size + 10 + y] = int(max(abs(x), abs(y)) != 1)
    for places in format_places(wide):
        dots.update(dict.fromkeys(places, 0))
    dots[8, wide - 8] = 1
    return dots


def format_places(wide: int) -> Any:
    """Where the bits of the format stand, twice, from the lowest on."""
    ends = [0, 1, 2, 3, 4, 5, 7, 8]
    yield [(8, y) for y in ends] + [(x, 8) for x in reversed(ends[:-1])]
    yield [(wide - 1 - i, 8) for i in range(8)] + [(8, wide - 7 + i) for i in range(7)]


def format_bits(mask: int) -> Any:
    """The bits of the format, with their check."""
    rest = data = LEVEL << 3 | mask
    for _ in range(10):
        rest = rest << 1 ^ (rest >> 9) * FORMAT
    return (data << 10 | rest) ^ FORMAT_MASK


def free_places(wide: int, taken: Any) -> Any:
    """The places of the bits, in their order: up and down in columns of two."""
    up = True
    for right in [*range(wide - 1, 6, -2), *range(5, 0, -2)]:
        for y in reversed(range(wide)) if up else range(wide):
            yield from ((x, y) for x in (right, right - 1) if (x, y) not in taken)
        up = not up


def penalty(rows: Any) -> int:
    """How hard a code is to read: runs and squares of one colour, what looks like a corner, and how far black is from the half."""
    lines, found = [*rows, *map("".join, zip(*rows))], 0
    for line in lines:
        found += sum(long - 2 for long in (len(list(run)) for _, run in itertools.groupby(line)) if long >= 5)
        found += 40 * sum(line.startswith(corner, i) for corner in ("00001011101", "10111010000") for i in range(len(line)))
    for row, other in zip(rows, rows[1:]):
        found += 3 * sum(len({*row[x:x + 2], *other[x:x + 2]}) == 1 for x in range(len(row) - 1))
    black = sum(row.count("1") for row in rows) / len(rows) ** 2
    return found + 10 * int(abs(black - 0.5) * 20)


@functools.lru_cache(maxsize=None)
def code(text: str, mask: int | None = None) -> list[str] | None:
    """The code of a text, as rows of 0 and 1, or None if the text is too long."""
    data = text.encode()
    size = next((number for number, (most, _) in enumerate(SIZES, 1) if len(data) + 2 <= most), None)
    if size is None:
        return None
    wide, dots = 17 + 4 * size, fixed(size)
    bits = "".join(format(byte, "08b") for byte in words(data, size))
    free: list[Any] = list(itertools.zip_longest(free_places(wide, dots), map(int, bits), fillvalue=0))

    def rows_of(number: int) -> list[str]:
        made = {**dots, **{(x, y): bit ^ (MASKS[number](x, y) == 0) for (x, y), bit in free}}
        for places in format_places(wide):
            made.update({place: format_bits(number) >> i & 1 for i, place in enumerate(places)})
        made[8, wide - 8] = 1
        return ["".join(str(made[x, y]) for x in range(wide)) for y in range(wide)]

    return rows_of(mask) if mask is not None else min(map(rows_of, range(8)), key=penalty)
