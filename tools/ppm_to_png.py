#!/usr/bin/env python3
"""Turns a picture of the text kind of PPM (P3) on standard input into a PNG on standard output."""
import struct
import sys
import zlib


def chunk(kind, data):
    return struct.pack(">I", len(data)) + kind + data + struct.pack(">I", zlib.crc32(kind + data))


def main():
    words = sys.stdin.read().split()
    if words[:1] != ["P3"]:
        sys.exit("ppm_to_png.py: this is no picture of the kind P3")
    width, height, most = (int(w) for w in words[1:4])
    dots = [int(w) * 255 // most for w in words[4:]]
    if len(dots) != 3 * width * height:
        sys.exit("ppm_to_png.py: the picture has too few or too many dots")
    rows = b"".join(b"\0" + bytes(dots[3 * width * y:3 * width * (y + 1)]) for y in range(height))
    header = struct.pack(">IIBBBBB", width, height, 8, 2, 0, 0, 0)
    png = b"\x89PNG\r\n\x1a\n" + chunk(b"IHDR", header) + chunk(b"IDAT", zlib.compress(rows, 9)) + chunk(b"IEND", b"")
    sys.stdout.buffer.write(png)


if __name__ == "__main__":
    main()
