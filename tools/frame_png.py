"""Frames of the screen as PNG pictures, written with the standard library alone.

A picture has the 16 colours of `COLOURS` as its palette and 4 bits a pixel, so that the numbers of the colours stay in the file.
"""
import struct
import zlib

COLOURS = ("000000", "0000aa", "00aa00", "00aaaa", "aa0000", "aa00aa", "aa5500", "aaaaaa",
           "555555", "5555ff", "55ff55", "55ffff", "ff5555", "ff55ff", "ffff55", "ffffff")
NAMES = ("black", "blue", "green", "cyan", "red", "magenta", "brown", "light grey", "grey", "light blue", "light green",
         "light cyan", "light red", "light magenta", "yellow", "white")
SIGNATURE = b"\x89PNG\r\n\x1a\n"


def palette_told():
    """A line for each colour: its digit, its red, green and blue, and its name."""
    return "\n".join(f"    {digit:x}  #{colour}  {name}" for digit, (colour, name) in enumerate(zip(COLOURS, NAMES)))


def chunk(name, content):
    """A part of a PNG: its length, its name, what it holds, and the sum over both."""
    return struct.pack(">I", len(content)) + name + content + struct.pack(">I", zlib.crc32(name + content))


def packed(row, scale):
    """A row of digits as bytes of two pixels each, every pixel so many times."""
    digits = "".join(digit * scale for digit in row)
    return bytes.fromhex(digits + "0" * (len(digits) % 2))


def png_of(rows, scale):
    """A frame as a PNG: each pixel becomes a square of `scale` by `scale`."""
    lines = b"".join((b"\0" + packed(row, scale)) * scale for row in rows)
    head = struct.pack(">IIBBBBB", len(rows[0]) * scale, len(rows) * scale, 4, 3, 0, 0, 0)
    palette = bytes.fromhex("".join(COLOURS))
    return SIGNATURE + chunk(b"IHDR", head) + chunk(b"PLTE", palette) + chunk(b"IDAT", zlib.compress(lines, 9)) + chunk(b"IEND", b"")
