#!/usr/bin/env python3
"""Makes the two cards of the shipped example, fare.card and fare_damaged.card, in the data folders of the programs that show them.

The card format is worked out here once more, on its own, so that the example does not rest on the program it shows.
Nothing of the gate runs this; it is for whoever wants to change the example. Run it in the repository's root."""
import pathlib

# Tile 2, the mark of zone 2: eight rows of eight pixels, each pixel the number of an ink (4 bits).
ZONE_2 = [
    "00022000",
    "00222200",
    "02222220",
    "22222222",
    "22222222",
    "02222220",
    "00222200",
    "00022000",
]
# Tile 1, the mark of zone 1: the same figure in ink 1.
ZONE_1 = [row.replace("2", "1") for row in ZONE_2]
BLANK = ["00000000"] * 8

# The stops of the line, one tile a stop: zone 1 in town, zone 2 from the river on.
STOPS = [1, 1, 1, 1, 2, 2, 2, 0]


def tile_bytes(rows):
    """Two pixels a byte, the left one in the low four bits."""
    return bytes(int(row[x]) | int(row[x + 1]) << 4 for row in rows for x in range(0, 8, 2))


def sealed(number, payload):
    """A block of 512 bytes: the data, the number, and the two sums over the 254 halfwords before them."""
    body = payload.ljust(504, b"\0") + number.to_bytes(4, "little")
    s1, s2 = 1, 0
    for i in range(0, 508, 2):
        s1 = (s1 + int.from_bytes(body[i:i + 2], "little")) % 65536
        s2 = (s2 + s1) % 65536
    return body + s1.to_bytes(2, "little") + s2.to_bytes(2, "little")


def write(name, card):
    for program in ("panel", "zone_strip"):
        pathlib.Path("crates", program, "data", name).write_bytes(card)


def main():
    tiles = tile_bytes(BLANK) + tile_bytes(ZONE_1) + tile_bytes(ZONE_2)
    names = b"Market Mill Church School Bridge Ferry Terminus"
    card = bytearray(sealed(0, tiles) + sealed(1, names) + sealed(2, bytes(STOPS)))
    write("fare.card", card)
    # Row 3 of the zone 2 mark, left half: ink 2 becomes ink 1, and the sums stay as they were.
    at = 2 * 32 + 3 * 4
    assert card[at:at + 2] == b"\x22\x22"
    card[at:at + 2] = b"\x11\x11"
    write("fare_damaged.card", card)


if __name__ == "__main__":
    main()
