"""QR codes, read back by a reader that shares nothing with their writer, and figures of ISO/IEC 18004."""
from __future__ import annotations

import random
import string
import unittest

from raceoffice.web import qr

# From table 9 of the standard, level M: all words of a version, and its blocks as pairs of how many and how
# many data words.
WORDS = {1: (26, [(1, 16)]), 2: (44, [(1, 28)]), 3: (70, [(1, 44)]), 4: (100, [(2, 32)]), 5: (134, [(2, 43)]),
         6: (172, [(4, 27)]), 7: (196, [(4, 31)]), 8: (242, [(2, 38), (2, 39)]), 9: (292, [(3, 36), (2, 37)]),
         10: (346, [(4, 43), (1, 44)])}
MIDDLES = {1: "", 2: "6 18", 3: "6 22", 4: "6 26", 5: "6 30", 6: "6 34", 7: "6 22 38", 8: "6 24 42", 9: "6 26 46",
           10: "6 28 50"}
# Figure 25: the format of level M with each mask, and annex D: the versions 7 to 10.
FORMATS = ["101010000010010", "101000100100101", "101111001111100", "101101101001011", "100010111111001",
           "100000011001110", "100111110010111", "100101010100000"]
VERSIONS = {7: 0x07C94, 8: 0x085BC, 9: 0x09A99, 10: 0x0A4D3}


def is_turned(mask: int, i: int, j: int) -> bool:
    """Table 10: which places a mask turns over, by row and column."""
    return [(i + j) % 2, i % 2, j % 3, (i + j) % 3, (i // 2 + j // 3) % 2, (i * j) % 2 + (i * j) % 3,
            ((i * j) % 2 + (i * j) % 3) % 2, ((i + j) % 2 + (i * j) % 3) % 2][mask] == 0


def is_fixed(version: int, i: int, j: int) -> bool:
    """Whether a place is none for data."""
    size = 17 + 4 * version
    corner = i < 9 and (j < 9 or j >= size - 8) or i >= size - 8 and j < 9
    if corner or i == 6 or j == 6:
        return True
    if version >= 7 and (i < 6 and j >= size - 11 or j < 6 and i >= size - 11):
        return True
    middles = list(map(int, MIDDLES[version].split()))
    return any(abs(i - a) < 3 and abs(j - b) < 3 for a in middles for b in middles
               if not ((a < 7 or a > size - 8) and (b < 7 or b > size - 8) and (a < 7 or b < 7)))


def read(rows: list[list[int]]) -> str:
    """The text of a code; an AssertionError if it isn't one."""
    size = len(rows)
    version = (size - 17) // 4
    format = "".join(str(rows[8][j]) for j in (0, 1, 2, 3, 4, 5, 7, 8)) \
        + "".join(str(rows[i][8]) for i in (7, 5, 4, 3, 2, 1, 0))
    second = "".join(str(rows[i][8]) for i in range(size - 1, size - 8, -1)) \
        + "".join(str(rows[8][j]) for j in range(size - 8, size))
    assert format == second, (format, second)
    mask = FORMATS.index(format)
    assert rows[size - 8][8] == 1
    if version in VERSIONS:
        bits = [rows[at // 3][size - 11 + at % 3] for at in range(18)]
        assert sum(bit << at for at, bit in enumerate(bits)) == VERSIONS[version]
        assert bits == [rows[size - 11 + at % 3][at // 3] for at in range(18)]
    bits = [rows[i][j] ^ is_turned(mask, i, j) for i, j in way(size) if not is_fixed(version, i, j)]
    words = [int("".join(map(str, bits[at:at + 8])), 2) for at in range(0, WORDS[version][0] * 8, 8)]
    return text_of(version, words)


def way(size: int) -> list[tuple[int, int]]:
    """The places in the order of the data: up and down in pairs of columns, from the right."""
    found, is_up = [], True
    column = size - 1
    while column > 0:
        column -= column == 6
        for i in reversed(range(size)) if is_up else range(size):
            found += [(i, column), (i, column - 1)]
        is_up, column = not is_up, column - 2
    return found


def text_of(version: int, words: list[int]) -> str:
    lengths = [length for number, length in WORDS[version][1] for _ in range(number)]
    blocks: list[list[int]] = [[] for _ in lengths]
    at = 0
    for place in range(max(lengths)):
        for block, length in zip(blocks, lengths):
            if place < length:
                block.append(words[at])
                at += 1
    checks: list[list[int]] = [[] for _ in lengths]
    while at < len(words):
        for check in checks:
            check.append(words[at])
            at += 1
    for block, check in zip(blocks, checks):
        assert not any(value_at(block + check, power) for power in range(len(check)))
    bits = "".join(f"{word:08b}" for block in blocks for word in block)
    assert bits[:4] == "0100"
    width = 8 if version < 10 else 16
    start, size = 4 + width, int(bits[4:4 + width], 2)
    return bytes(int(bits[at:at + 8], 2) for at in range(start, start + 8 * size, 8)).decode()


def value_at(words: list[int], power: int) -> int:
    """The value of a polynomial at a power of 2 in the field of 256 elements; 0 for a block without fault."""
    point = 1
    for _ in range(power):
        point = by_two(point)
    found = 0
    for word in words:
        found = multiplied(found, point) ^ word
    return found


def by_two(number: int) -> int:
    return number << 1 ^ (0x11D if number & 128 else 0)


def multiplied(a: int, b: int) -> int:
    found = 0
    while b:
        found ^= a if b & 1 else 0
        a, b = by_two(a), b >> 1
    return found


class Codes(unittest.TestCase):
    def test_read_back(self) -> None:
        """Texts of all lengths up to the longest, those of a link among them."""
        chance = random.Random(7)
        link = "https://office.sailing-club.example:8443/office/in#scorer." + "A_-z09" * 4
        texts = ["".join(chance.choice(string.printable) for _ in range(size)) for size in range(1, 214, 6)]
        for text in [*texts, "x" * 213, link, "Kielwasser é"]:
            self.assertEqual(read(qr.code(text)), text)
        self.assertRaises(ValueError, qr.code, "x" * 214)

    def test_standard(self) -> None:
        """Annex I: the check words of its example, 01234567 in version 1, level M."""
        data = [0x10, 0x20, 0x0C, 0x56, 0x61, 0x80, *[0xEC, 0x11] * 5]
        self.assertEqual(qr.remainder(data, 10), [0xA5, 0x24, 0xD4, 0xC1, 0xED, 0x36, 0xC7, 0x87, 0x2C, 0x55])

    def test_terminal(self) -> None:
        """In a terminal two rows are a line of signs, with an edge around the code."""
        lines = qr.for_terminal("x").split("\n")
        plain = [line.removeprefix("\x1b[97;40m").removesuffix("\x1b[0m") for line in lines]
        self.assertEqual({len(line) for line in plain}, {21 + 4})
        self.assertEqual(len(plain), 13)
        dark = {"\u2588": (0, 0), "\u2580": (0, 1), "\u2584": (1, 0), " ": (1, 1)}
        rows = [[dark[sign][at] for sign in line] for line in plain for at in (0, 1)]
        self.assertEqual([row[2:-2] for row in rows[2:23]], qr.code("x"))


if __name__ == "__main__":
    unittest.main()
