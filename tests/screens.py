#!/usr/bin/env python3
"""Makes the pictures of the board in docs/ from the package as it is: screens.py PROGRAM [FOLDER]

They show the series in tests/week on a phone, on a desk and on paper.
"""
from __future__ import annotations

import collections
import os
import shutil
import struct
import subprocess
import sys
import tempfile
import zlib

import browser

HERE = os.path.dirname(os.path.abspath(__file__))
TOP = os.path.dirname(HERE)
# When the week's last entry was typed: 26 November 2026, 08:52 in Lisbon.
TYPED = 1_795_683_120
MAGIC = b"\x89PNG\r\n\x1a\n"


def chunk(kind: bytes, data: bytes) -> bytes:
    return struct.pack(">I", len(data)) + kind + data + struct.pack(">I", zlib.crc32(kind + data))


def chunks(data: bytes) -> list[tuple[bytes, bytes]]:
    """The parts of a PNG file, by their kinds."""
    found, at = [], len(MAGIC)
    while at < len(data):
        size = struct.unpack(">I", data[at:at + 4])[0]
        found.append((data[at + 4:at + 8], data[at + 8:at + 8 + size]))
        at += size + 12
    return found


def paeth(a: int, b: int, c: int) -> int:
    """The neighbour that is nearest to left + above - corner, as the PNG format has it."""
    left, above, corner = abs(b - c), abs(a - c), abs(a + b - 2 * c)
    return a if left <= above and left <= corner else b if above <= corner else c


def plain_line(kind: int, line: bytearray, above: bytes, wide: int) -> bytearray:
    """A line of a PNG file without its filter."""
    for at, value in enumerate(line):
        left = line[at - wide] if at >= wide else 0
        corner = above[at - wide] if at >= wide else 0
        added = (0, left, above[at], (left + above[at]) // 2, 0)[kind] if kind < 4 else \
            paeth(left, above[at], corner)
        line[at] = (value + added) & 255
    return line


def lines_of(data: bytes) -> tuple[int, int, int, list[bytes]]:
    """The width and height of a PNG file, the bytes of a point, and its lines."""
    parts = chunks(data)
    width, height, _, kind = struct.unpack(">IIBB", parts[0][1][:10])
    wide = {2: 3, 6: 4}[kind]
    raw = zlib.decompress(b"".join(body for name, body in parts if name == b"IDAT"))
    size, above, lines = width * wide + 1, bytes(width * wide), []
    for at in range(height):
        line = bytearray(raw[at * size + 1:(at + 1) * size])
        above = bytes(plain_line(raw[at * size], line, above, wide))
        lines.append(above)
    return width, height, wide, lines


def nearest(colour: bytes, palette: list[bytes]) -> int:
    return min(range(len(palette)),
               key=lambda at: sum((a - b) ** 2 for a, b in zip(colour, palette[at])))


def palette_of(counts: collections.Counter[bytes]) -> list[bytes]:
    """The most frequent colours that aren't nearly the same: a rare red stays red."""
    kinds: collections.Counter[tuple[int, ...]] = collections.Counter()
    first: dict[tuple[int, ...], bytes] = {}
    for colour, count in counts.most_common():
        kind = tuple(value >> 4 for value in colour)
        kinds[kind] += count
        first.setdefault(kind, colour)
    return [first[kind] for kind, _ in kinds.most_common(256)]


def smaller(data: bytes) -> bytes:
    """A PNG file with 256 colours at most, and for each other colour the nearest."""
    width, height, wide, lines = lines_of(data)
    points = [[line[at:at + 3] for at in range(0, len(line), wide)] for line in lines]
    counts = collections.Counter(point for line in points for point in line)
    palette = palette_of(counts)
    index = {colour: nearest(colour, palette) for colour in counts}
    packed = zlib.compress(b"".join(b"\0" + bytes(index[point] for point in line)
                                    for line in points), 9)
    head = struct.pack(">IIBBBBB", width, height, 8, 3, 0, 0, 0)
    return MAGIC + b"".join([chunk(b"IHDR", head), chunk(b"PLTE", b"".join(palette)),
                             chunk(b"IDAT", packed), chunk(b"IEND", b"")])


def shrink(path: str) -> None:
    with open(path, "rb") as file:
        data = file.read()
    with open(path, "wb") as file:
        file.write(smaller(data))


def page_of(program: str, here: str) -> str:
    """The address of the week's page, made by the board."""
    shutil.copytree(os.path.join(HERE, "week"), os.path.join(here, "dragon"))
    os.utime(os.path.join(here, "dragon", "journal.txt"), (TYPED, TYPED))
    os.symlink(program, os.path.join(here, "regatta"))
    with subprocess.Popen([sys.executable, "-m", "raceoffice", "board", os.path.join(here, "dragon"),
                           "--page",
                           os.path.join(here, "out")], stdout=subprocess.PIPE, text=True, cwd=TOP) as window:
        # The pages are those of a board that is there, not those that are made once.
        assert window.stdout
        while not window.stdout.readline().startswith("Pages are in"):
            pass
        window.terminate()
        window.communicate()
    return f"file://{here}/out/index.html"


def pictures(program: str, folder: str) -> list[str]:
    """Makes the three pictures; their paths."""
    names = [os.path.join(folder, f"board-{what}.png") for what in ("phone", "desktop", "print")]
    tab = browser.Browser()
    with tempfile.TemporaryDirectory() as here:
        address = page_of(program, here)
        for (width, height, scale), name in zip(((390, 844, 2), (1280, 860, 1)), names):
            tab.size(width, height, scale=scale)
            tab.open(address)
            tab.shot(name)
        tab.size(1280)
        tab.open(address)
        tab.pdf(os.path.join(here, "print.pdf"))
        subprocess.run(["pdftoppm", "-r", "110", "-f", "1", "-l", "1", "-singlefile", "-png",
                        os.path.join(here, "print.pdf"), names[2].removesuffix(".png")], check=True)
    tab.close()
    for name in names:
        shrink(name)
    return names


def main() -> int:
    if len(sys.argv) not in (2, 3) or not os.access(sys.argv[1], os.X_OK):
        sys.exit("usage: tests/screens.py PROGRAM [FOLDER], with a program that can be run")
    if not browser.program() or not shutil.which("pdftoppm"):
        print("not tried: pictures of the board: Chromium or pdftoppm isn't installed")
        return 0
    folder = sys.argv[2] if len(sys.argv) == 3 else os.path.join(TOP, "docs")
    for name in pictures(os.path.realpath(sys.argv[1]), folder):
        print(f"{name}: {os.path.getsize(name) // 1024} KB")
    return 0


if __name__ == "__main__":
    sys.exit(main())
