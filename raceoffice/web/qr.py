"""QR codes of short texts (ISO/IEC 18004), so that a camera opens a link: bytes, level M, versions 1 to 10."""
from __future__ import annotations

from collections.abc import Callable

# Of each version at level M: the error correction words of a block, and how many blocks have how many
# data words.
BLOCKS: dict[int, tuple[int, list[tuple[int, int]]]] = {
    1: (10, [(1, 16)]), 2: (16, [(1, 28)]), 3: (26, [(1, 44)]), 4: (18, [(2, 32)]), 5: (24, [(2, 43)]),
    6: (16, [(4, 27)]), 7: (18, [(4, 31)]), 8: (22, [(2, 38), (2, 39)]), 9: (22, [(3, 36), (2, 37)]),
    10: (26, [(4, 43), (1, 44)])}
# Where the small squares have their middles.
ALIGNED: dict[int, list[int]] = {
    1: [], 2: [6, 18], 3: [6, 22], 4: [6, 26], 5: [6, 30], 6: [6, 34], 7: [6, 22, 38], 8: [6, 24, 42],
    9: [6, 26, 46], 10: [6, 28, 50]}
# Which places each mask turns over.
MASKS: list[Callable[[int, int], bool]] = [
    lambda row, column: (row + column) % 2 == 0,
    lambda row, column: row % 2 == 0,
    lambda row, column: column % 3 == 0,
    lambda row, column: (row + column) % 3 == 0,
    lambda row, column: (row // 2 + column // 3) % 2 == 0,
    lambda row, column: row * column % 2 + row * column % 3 == 0,
    lambda row, column: (row * column % 2 + row * column % 3) % 2 == 0,
    lambda row, column: ((row + column) % 2 + row * column % 3) % 2 == 0]
# The polynomial of the field of 256 elements, those that protect version and format, and what the format is
# masked with.
FIELD, OF_VERSION, OF_FORMAT, FORMAT_MASK = 285, 0x1F25, 0x537, 0x5412
# A place for data.
FREE = -1
Matrix = list[list[int]]


def powers() -> tuple[list[int], list[int]]:
    """The powers of 2 in the field, and their logarithms."""
    power, logarithm = [1] * 255, [0] * 256
    for at in range(1, 255):
        power[at] = power[at - 1] * 2 ^ (FIELD if power[at - 1] & 128 else 0)
        logarithm[power[at]] = at
    return power, logarithm


POWER, LOGARITHM = powers()


def product(a: int, b: int) -> int:
    """The product of two elements of the field."""
    return POWER[(LOGARITHM[a] + LOGARITHM[b]) % 255] if a and b else 0


def remainder(data: list[int], size: int) -> list[int]:
    """The error correction words of a block (Reed-Solomon)."""
    divisor = [1]
    for at in range(size):
        shifted = [*divisor, 0]
        divisor = [a ^ product(b, POWER[at]) for a, b in zip(shifted, [0, *divisor])]
    left = [*data, *[0] * size]
    for at in range(len(data)):
        factor = left[at]
        for place, part in enumerate(divisor):
            left[at + place] ^= product(part, factor)
    return left[len(data):]


def bits_after_division(value: int, width: int, divisor: int) -> int:
    """What is left of a value after division: the bits that protect it (BCH)."""
    left, length = value << width, divisor.bit_length()
    for at in range(left.bit_length(), length - 1, -1):
        if left >> (at - 1) & 1:
            left ^= divisor << (at - length)
    return left


# Data

def room_of(version: int) -> int:
    """How many data words a version has."""
    return sum(number * size for number, size in BLOCKS[version][1])


def head_of(version: int, size: int) -> str:
    """The bits before the data: that they are bytes, and how many."""
    return f"0100{size:0{8 if version < 10 else 16}b}"


def fits(data: bytes, version: int) -> bool:
    return len(data) * 8 + len(head_of(version, len(data))) <= room_of(version) * 8


def words_of(data: bytes, version: int) -> list[int]:
    """The data words of all blocks, filled up."""
    room = room_of(version)
    bits = head_of(version, len(data)) + "".join(f"{byte:08b}" for byte in data)
    bits += "0" * min(4, room * 8 - len(bits))
    bits += "0" * (-len(bits) % 8)
    words = [int(bits[at:at + 8], 2) for at in range(0, len(bits), 8)]
    return [*words, *([236, 17] * room)[:room - len(words)]]


def interleaved(words: list[int], version: int) -> list[int]:
    """The words in the order in which they are drawn, those of error correction last."""
    size, kinds = BLOCKS[version]
    blocks: list[list[int]] = []
    at = 0
    for number, length in kinds:
        for _ in range(number):
            blocks.append(words[at:at + length])
            at += length
    checks = [remainder(block, size) for block in blocks]
    longest = max(map(len, blocks))
    drawn_first = [block[place] for place in range(longest) for block in blocks if place < len(block)]
    return drawn_first + [check[place] for place in range(size) for check in checks]


# The picture

def frame(version: int) -> Matrix:
    """What doesn't depend on the text; FREE where data goes."""
    size = 17 + 4 * version
    made = [[FREE] * size for _ in range(size)]
    draw_corners(made)
    for at in range(8, size - 8):
        made[6][at] = made[at][6] = 1 - at % 2
    draw_squares(made, ALIGNED[version])
    # Room for the format.
    for at in range(9):
        for row, column in ((8, at), (at, 8), (8, size - 1 - at % 8), (size - 1 - at % 8, 8)):
            made[row][column] = max(made[row][column], 0)
    made[size - 8][8] = 1
    if version >= 7:
        draw_version(made, version)
    return made


def draw_corners(made: Matrix) -> None:
    """The squares in three corners by which a camera finds the code, with their edges."""
    size = len(made)
    for top, left in ((0, 0), (0, size - 7), (size - 7, 0)):
        for row in range(max(0, top - 1), min(size, top + 8)):
            for column in range(max(0, left - 1), min(size, left + 8)):
                ring = max(abs(row - top - 3), abs(column - left - 3))
                made[row][column] = int(ring in (0, 1, 3))


def draw_squares(made: Matrix, middles: list[int]) -> None:
    """The small squares, which aren't over the corners."""
    size = len(made)
    for row in middles:
        for column in middles:
            if (row, column) in ((6, 6), (6, size - 7), (size - 7, 6)):
                continue
            for r in range(row - 2, row + 3):
                for c in range(column - 2, column + 3):
                    made[r][c] = int(max(abs(r - row), abs(c - column)) != 1)


def draw_version(made: Matrix, version: int) -> None:
    size = len(made)
    bits = version << 12 | bits_after_division(version, 12, OF_VERSION)
    for at in range(18):
        row, column = at // 3, size - 11 + at % 3
        made[row][column] = made[column][row] = bits >> at & 1


def with_format(made: Matrix, mask: int) -> Matrix:
    """With the mask's number and the level, which is 0 for M."""
    size = len(made)
    bits = (mask << 10 | bits_after_division(mask, 10, OF_FORMAT)) ^ FORMAT_MASK
    for at in range(15):
        first = (at, 8) if at < 6 else (at + 1, 8) if at < 8 else (8, 7) if at == 8 else (8, 14 - at)
        second = (8, size - 1 - at) if at < 8 else (size - 15 + at, 8)
        for row, column in (first, second):
            made[row][column] = bits >> at & 1
    return made


def drawn(base: Matrix, words: list[int], mask: int) -> Matrix:
    """The words along their way through the free places, from the lower right."""
    size, made = len(base), [row[:] for row in base]
    bits = iter("".join(f"{word:08b}" for word in words))
    columns = [column for column in range(size - 1, 0, -1) if column > 6] + [5, 4, 3, 2, 1, 0]
    for pair in range(0, len(columns), 2):
        rows = range(size - 1, -1, -1) if pair // 2 % 2 == 0 else range(size)
        for row in rows:
            for column in columns[pair:pair + 2]:
                if base[row][column] == FREE:
                    made[row][column] = int(next(bits, "0")) ^ int(MASKS[mask](row, column))
    return with_format(made, mask)


def badness(made: Matrix) -> int:
    """How hard a code is to read: runs, blocks, patterns like a corner's, and how far from half is dark."""
    size, found = len(made), 0
    turned = [[row[at] for row in made] for at in range(size)]
    for lines in (made, turned):
        for line in lines:
            text = "".join(map(str, line))
            run = 1
            for a, b in zip(text, text[1:] + "x"):
                if a == b:
                    run += 1
                else:
                    found += run - 2 if run >= 5 else 0
                    run = 1
            found += 40 * sum(text[at:at + 11] in ("10111010000", "00001011101")
                              for at in range(size - 10))
    found += 3 * sum(made[r][c] == made[r + 1][c] == made[r][c + 1] == made[r + 1][c + 1]
                     for r in range(size - 1) for c in range(size - 1))
    dark = sum(sum(row) for row in made) * 100 / size ** 2
    return found + 10 * int(abs(dark - 50) // 5)


def code(text: str) -> Matrix:
    """The code of a text, as rows of 0 and 1; a ValueError if it is too long."""
    data = text.encode()
    version = next((number for number in BLOCKS if fits(data, number)), 0)
    if not version:
        raise ValueError("the text is too long for a code")
    words, base = interleaved(words_of(data, version), version), frame(version)
    return min((drawn(base, words, mask) for mask in range(8)), key=badness)


def for_terminal(text: str) -> str:
    """The code as text, dark on light whatever the terminal's colours are: two rows in a line."""
    made, edge = code(text), 2
    size = len(made) + 2 * edge
    rows = [[0] * size] * edge + [[0] * edge + row + [0] * edge for row in made] + [[0] * size] * (edge + 1)
    signs = {(0, 0): "\u2588", (0, 1): "\u2580", (1, 0): "\u2584", (1, 1): " "}
    return "\n".join("\x1b[97;40m" + "".join(signs[pair] for pair in zip(upper, lower)) + "\x1b[0m"
                     for upper, lower in zip(rows[0:size:2], rows[1:size + 1:2]))
