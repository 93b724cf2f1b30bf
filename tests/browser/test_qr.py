"""QR codes, read by the rules of their standard: the corners, the format, the bits in their order, and the check."""
import random

from dollar.board.qr import code
from helpers import equal, tests_of

ADDRESS = "http://192.168.100.200:36269/uqav-4ak6-aiqh-4r98-n4ar-uvb3-gq/"
# Of each size: the bytes of data and those of the check.
BYTES = {21: (19, 7), 25: (34, 10), 29: (55, 15), 33: (80, 20), 37: (108, 26)}
CORNER = ["1111111", "1000001", "1011101", "1011101", "1011101", "1000001", "1111111"]
# The 15 bits of the format for level L and each mask, as the standard lists them.
FORMATS = ["111011111000100", "111001011110011", "111110110101010", "111100010011101", "110011000101111", "110001100011000",
           "110110001000001", "110100101110110"]


def is_dark(mask, i, j):
    """Whether a mask turns the bit in row i and column j."""
    return [(i + j) % 2, i % 2, j % 3, (i + j) % 3, (i // 2 + j // 3) % 2, (i * j) % 2 + (i * j) % 3,
            ((i * j) % 2 + (i * j) % 3) % 2, ((i + j) % 2 + (i * j) % 3) % 2][mask] == 0


def is_fixed(wide, i, j):
    """Whether what stands there is no bit of the text."""
    corners = (i < 9 and (j < 9 or j >= wide - 8)) or (i >= wide - 8 and j < 9)
    middle = wide - 7
    return corners or i == 6 or j == 6 or (wide > 21 and max(abs(i - middle), abs(j - middle)) < 3)


def read(rows):
    """The text of a code, after its corners, its format and its check were looked at."""
    wide = len(rows)
    for top, left in (0, 0), (0, wide - 7), (wide - 7, 0):
        equal([row[left:left + 7] for row in rows[top:top + 7]], CORNER, "a corner")
    first = rows[8][:6] + rows[8][7:9] + rows[7][8] + "".join(rows[i][8] for i in range(5, -1, -1))
    second = "".join(rows[wide - 1 - i][8] for i in range(7)) + rows[8][wide - 8:]
    equal(first, second, "the two places of the format")
    mask, bits, up, j = FORMATS.index(first), "", True, wide - 1
    while j > 0:
        j -= j == 6
        for i in reversed(range(wide)) if up else range(wide):
            for column in j, j - 1:
                if not is_fixed(wide, i, column):
                    bits += str(int(rows[i][column]) ^ is_dark(mask, i, column))
        up, j = not up, j - 2
    data, check = BYTES[wide]
    found = [int(bits[i:i + 8], 2) for i in range(0, 8 * (data + check), 8)]
    equal([value(found, power) for power in range(check)], [0] * check, "the check")
    bits = "".join(format(byte, "08b") for byte in found[:data])
    equal(bits[:4], "0100", "the mode")
    length = int(bits[4:12], 2)
    return bytes(int(bits[i:i + 8], 2) for i in range(12, 12 + 8 * length, 8)).decode()


def value(found, power):
    """The value of the polynomial of these bytes at a power of 2, by tables of logarithms."""
    powers = [1]
    for _ in range(254):
        powers.append(powers[-1] << 1 ^ (0x11d if powers[-1] > 127 else 0))
    logs, total = {each: i for i, each in enumerate(powers)}, 0
    for i, byte in enumerate(reversed(found)):
        if byte:
            total ^= powers[(logs[byte] + i * power) % 255]
    return total


def codes():
    draw = random.Random(4)
    for text in [ADDRESS, "", "\u00e4", *("".join(draw.choices("abc:/.-129", k=length)) for length in (1, 17, 18, 53, 78, 79, 106))]:
        equal(read(code(text)), text, "the text of a code")
    for mask in range(8):
        equal(read(code(ADDRESS, mask)), ADDRESS, f"the text with the mask {mask}")
    equal(code("x" * 107), None, "a text that is too long")


load_tests = tests_of(codes)
