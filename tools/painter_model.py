#!/usr/bin/env python3
"""A second painter, in Python and written from docs/drawing.md alone: what the programs and tests must give is worked
out here, so that it does not rest on the code that is tested. Nothing of the gate runs this.

    tools/painter_model.py bench     what the program bench prints with no argument (crates/bench/stdout)
    tools/painter_model.py strip     what the program zone_strip prints (crates/zone_strip/stdout)
    tools/painter_model.py table     the table of random spans (crates/painter_tests/src/table.rt)
"""
import pathlib
import random
import sys

WIDTH = {"Argb1555": 16, "P8": 8, "P4": 4, "P1": 1}


class Refused(Exception):
    """A memory's refusal: its number, what was read, the address; the painter adds the column."""

    def __init__(self, number, reading, address):
        super().__init__(number, reading, address)
        self.number, self.reading, self.address, self.column = number, reading, address, None


class Flat:
    def __init__(self, base, data):
        self.base, self.data = base & ~1, data

    def outcome(self, address):
        at = address - self.base
        if at < 0 or at + 1 >= len(self.data):
            return None, 2
        return self.data[at] | self.data[at + 1] << 8, 0

    def read(self, address, reading):
        value, number = (None, 1) if address & 1 else self.outcome(address)
        if number:
            raise Refused(number, reading, address)
        return value


class Card(Flat):
    def __init__(self, base, data):
        super().__init__(base, data)
        self.count = min(len(data) // 512, 4096)

    def sound(self, k):
        block = self.data[512 * k:512 * k + 512]
        s1, s2 = 1, 0
        for i in range(0, 508, 2):
            s1 = (s1 + block[i] + 256 * block[i + 1]) % 65536
            s2 = (s2 + s1) % 65536
        return block[504:] == k.to_bytes(4, "little") + s1.to_bytes(2, "little") + s2.to_bytes(2, "little")

    def outcome(self, address):
        k, j = divmod(address - self.base, 504)
        if address < self.base or k >= self.count:
            return None, 2
        if not self.sound(k):
            return None, 3
        return self.data[512 * k + j] | self.data[512 * k + j + 1] << 8, 0


def pixel(memory, palette, form, poff, image, k):
    bits = k * WIDTH[form]
    halfword = memory.read((image + bits // 16 * 2) % 2**32, "pixel")
    value = halfword >> bits % 16 & (1 << WIDTH[form]) - 1
    return value if form == "Argb1555" else palette[(value + 32 * poff) % 256]


def colour(memory, palette, d, u, v):
    """The colour of a drawing's surface at (u, v), before folding."""
    if d["kind"] == "fill":
        return 0x8000 | d["colour"]
    if "blit" in d["kind"]:
        side = 8 << d["size"]
        side = side // 2 if d.get("half") else side
        return pixel(memory, palette, d["format"], d["poff"], d["image"], v % side * side + u % side)
    t, side = 8 << d["s"], 128 << d["pfs"]
    u, v = u % side, v % side
    place = (d["tilemap"] + v // t * (side // t) + u // t) % 2**32
    halfword = memory.read(place & ~1, "tile index")
    index = halfword >> 8 if place & 1 else halfword & 255
    image = (d["tileset"] + index * t * t * WIDTH[d["format"]] // 8) % 2**32
    return pixel(memory, palette, d["format"], d["poff"], image, v % t * t + u % t)


def place(d, y, x):
    """The place of a column, or None outside the region."""
    if d["kind"] == "fill":
        return 0, 0
    if "blit" in d["kind"]:
        dx, dy = (x - d["x0"]) % 1024, (y - d["y0"]) % 1024
        if max(dx, dy) >= 8 << d["size"]:
            return None
    else:
        dx, dy = x - d["xscroll"], y - d["yscroll"]
    if d["kind"][0] != "a":
        return dx % 1024, dy % 1024
    a00, a01, a10, a11, b0, b1 = (d[n] for n in ("a00", "a01", "a10", "a11", "b0", "b1"))
    return (a00 * dx + a01 * dy + 4 * b0) % 2**18 // 256, (a10 * dx + a11 * dy + 4 * b1) % 2**18 // 256


def paint(line, start, end, y, d, memory, palette):
    for x in range(512):
        at = place(d, y, x)
        if not start <= x <= end or at is None:
            continue
        try:
            c = colour(memory, palette, d, *at)
        except Refused as refusal:
            refusal.column = x
            raise
        if c & 0x8000:
            line[x] = c & 0x7FFF


def digest(line):
    total = 0
    for p in line:
        total = (total * 31 + p) % 2**32
    return total


# The benchmark's sheet and palette.
def sheet(size):
    out, number = bytearray(), 1
    for _ in range(size):
        number = (number * 1664525 + 1013904223) % 2**32
        out.append(number >> 24)
    return bytes(out)


def bench_palette():
    return [i * 0x71 % 0x8000 | (0 if i % 4 == 3 else 0x8000) for i in range(256)]


def blit(size, form, **more):
    return dict(kind="blit", size=size, poff=1, y0=0, x0=0, image=0, format=form) | more


def field(s, form, **more):
    return dict(kind="tile", s=s, poff=2, yscroll=3, xscroll=5, tilemap=0xF0000, pfs=2, tileset=0, format=form) | more


TURN = dict(b1=640, b0=320, a01=-77, a00=231, a11=231, a10=77)
JOBS = [
    ("fill", dict(kind="fill", colour=0x1234), 512),
    ("blit, 16 bits", blit(6, "Argb1555"), 512),
    ("blit, 8 bits", blit(6, "P8"), 512),
    ("blit, 4 bits", blit(6, "P4"), 512),
    ("blit, 1 bit", blit(6, "P1"), 512),
    ("blit of 8 columns, 4 bits", blit(0, "P4"), 8),
    ("tile, 4 bits", field(0, "P4"), 512),
    ("ablit, 4 bits", blit(6, "P4", kind="ablit", half=True, **TURN), 512),
    ("atile, 8 bits", field(1, "P8", kind="atile", **TURN), 512),
]


def bench():
    data = sheet(2081 * 504)
    # The card has the same data, all sound: every read answers the same.
    for source in ("flat memory", "a card"):
        for name, d, lines in JOBS:
            line = [0] * 512
            for i in range(16):
                paint(line, 0, 511, i % lines, d, Flat(0, data), bench_palette())
            print(f"{name}, from {source}: 16 spans, 0 refused, digest 0x{digest(line):08X}")


# The strip of zone marks.
STRIP = dict(kind="tile", s=0, poff=0, yscroll=0, xscroll=0, tilemap=0x3F0, pfs=0, tileset=0, format="P4")
NIGHT, YELLOW, RED = 0x0006, 0x7FE0, 0x7C00


def strip():
    palette = [0] * 256
    palette[1], palette[2] = 0x8000 | YELLOW, 0x8000 | RED
    letters = {NIGHT: ".", YELLOW: "Y", RED: "R"}
    for name in ("fare.card", "fare_damaged.card"):
        data = pathlib.Path("crates/zone_strip/data", name).read_bytes()
        card = Card(0, data)
        print(f"{name}: {card.count} blocks, {sum(map(card.sound, range(card.count)))} sound")
        for y in range(8):
            line = [0] * 512
            paint(line, 0, 511, y, dict(kind="fill", colour=NIGHT), card, palette)
            try:
                paint(line, 0, 63, y, STRIP, card, palette)
                said = ""
            except Refused as r:
                said = f" refused {r.number}, reading {r.reading} 0x{r.address:08X}, column {r.column}"
            print(f"line {y}: {''.join(letters[p] for p in line[:64])}{said}")
            if y == 3:
                print("columns 24 to 39:", " ".join(f"{p:04X}" for p in line[24:40]))


# Random spans.
def random_drawing(rng, kind):
    near = lambda: rng.choice([0, 1, 3, 511, 512, 1000, 1020, 1023, rng.randrange(1024)])
    address = lambda: rng.choice([0, 4, 0x7F0, 0x9C00, 0xFFFFFFF0, 0xFFFFFFFC, 4 * rng.randrange(0x1000)])
    d = dict(kind=kind, poff=rng.randrange(8), format=rng.choice(list(WIDTH)))
    if "blit" in kind:
        d |= dict(size=rng.choice([0, 0, 1, 2, 3, 7]), y0=near(), x0=near(), image=address())
    else:
        d |= dict(s=rng.randrange(2), yscroll=near(), xscroll=near(), tilemap=address() | rng.randrange(4), pfs=rng.randrange(4), tileset=address())
    if kind == "ablit":
        d |= dict(half=d["size"] > 0 and rng.random() < 0.5)
    if kind[0] == "a":
        number = lambda: rng.choice([0, 256, -256, 128, -1, 32767, -32768, rng.randrange(-600, 600)])
        d |= dict(b1=rng.choice([0, 64, 65535]), b0=rng.choice([0, 32, 65535]), a01=number(), a00=number(), a11=number(), a10=number())
    return d


def random_row(rng, kind):
    """A drawing's fields, the span, what the line then weighs, and the refusal."""
    d, y = random_drawing(rng, kind), rng.choice([0, 1, 7, 8, 239, 1023, rng.randrange(1024)])
    if "y0" in d and rng.random() < 0.8:
        y = (d["y0"] + rng.randrange(8 << d["size"])) % 1024
    start, end = rng.choice([(0, 511), (0, 1023), (5, 4), (511, 1023), (100, 300), (0, 7)])
    line, told = [0x5555] * 512, "None"
    try:
        paint(line, start, end, y, d, Table(), table_palette())
    except Refused as r:
        told = f"Some(({r.number}, Reading::{'Pixel' if r.reading == 'pixel' else 'TileIndex'}, {r.address}, {r.column}))"
    # of the spans that paint nothing only some are kept
    if told == "None" and line == [0x5555] * 512 and rng.random() < 0.9:
        return random_row(rng, kind)
    fields = lambda names: "(" + ", ".join(str(d[n]) for n in names.split())
    row = fields("size poff y0 x0 image" if "blit" in kind else "s poff yscroll xscroll tilemap pfs tileset") + f", {d['format'].upper()})"
    if kind == "ablit":
        row += f", {str(d['half']).lower()}"
    if kind[0] == "a":
        row += f", {fields('b1 b0 a01 a00 a11 a10')})"
    return f"    ({row}, ({y}, {start}, {end}), {weight(line)}, {told}),"


def weight(line):
    return sum((x + 1) * p for x, p in enumerate(line))


def table_palette():
    return [i * 0x0155 % 0x8000 | (0 if i % 3 == 0 else 0x8000) for i in range(256)]


class Table(Flat):
    """40,000 bytes from address 0 on, and the first 16 of them at 0xFFFFFFF0."""
    data = bytes((i * i + 3 * i + 7) % 251 for i in range(40000))

    def __init__(self):
        pass

    def outcome(self, address):
        half = Flat(0xFFFFFFF0, Table.data[:16]) if address >= 0x80000000 else Flat(0, Table.data)
        return Flat.outcome(half, address)


TABLE = """\
// Random spans with what they must come to; made by tools/painter_model.py, which has a painter of its own.
use surface::{Format, Reading};

// The line number, and the start and end of the clip.
pub(crate) type Span = (u16, u16, u16);

// The refusal that must come, if one must: its number (as the documents have it), what was read, the address and the column.
pub(crate) type Told = Option<(u8, Reading, u32, u16)>;

// size, poff, y0, x0, image, format
pub(crate) type BlitFields = (u8, u8, u16, u16, u32, Format);

// s, poff, yscroll, xscroll, tilemap, pfs, tileset, format
pub(crate) type TileFields = (u8, u8, u16, u16, u32, u8, u32, Format);

// b1, b0, a01, a00, a11, a10
pub(crate) type TransformFields = (u16, u16, i16, i16, i16, i16);

const ARGB1555: Format = Format::Argb1555;
const P8: Format = Format::P8;
const P4: Format = Format::P4;
const P1: Format = Format::P1;

// In each row the number before the refusal is what the line must weigh: the sum of each pixel times its column from 1."""


def table():
    rng = random.Random(20261118)
    print(TABLE)
    for kind, name, row in (
        ("blit", "BLITS", "BlitFields, Span, u64, Told"),
        ("tile", "TILES", "TileFields, Span, u64, Told"),
        ("ablit", "ABLITS", "BlitFields, bool, TransformFields, Span, u64, Told"),
        ("atile", "ATILES", "TileFields, TransformFields, Span, u64, Told"),
    ):
        print(f"pub(crate) const {name}: [({row}); 12] = [")
        for _ in range(12):
            print(random_row(rng, kind))
        print("];\n")


if __name__ == "__main__":
    {"bench": bench, "strip": strip, "table": table}[sys.argv[1]]()
