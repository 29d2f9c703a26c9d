#!/usr/bin/env python3
"""memory.py: writes small_screen.mem beside it, the video memory that small_screen.plan shows: text, a font and four pictures.

    examples/memory.py           writes it; the same bytes each time
    examples/memory.py --help    prints this

The file holds the memory from address 0 on. examples/make.py writes it too, and looks whether it is as it would be written. To see it:

    ./desk-run planpic examples/small_screen.plan examples/small_screen.mem | examples/png > small_screen.png"""
import pathlib
import sys

# Where each part lies. The addresses, the steps and the font's number stand in small_screen.txt too.
TITLE, TICKER, NARROW, FONT, LANDSCAPE, RINGS, BLOCKS, CHART = 0x0000, 0x0400, 0x0500, 0x0800, 0x1000, 0x7400, 0x9800, 0xA800

# The characters 32 to 126, sixteen in a row: 7 pixels wide, as the one at the left is free, and 8 lines high.
GLYPHS = """\
....... ..##... .##.##. .##.##. ..##... ##...#. .###... ..##... ...##.. .##.... ....... ....... ....... ....... ....... ....##.
....... ..##... .##.##. .##.##. .#####. ##..##. ##.##.. ..##... ..##... ..##... .##.##. ..##... ....... ....... ....... ....##.
....... ..##... .##.##. ####### ##..... ...##.. ##.##.. .##.... .##.... ...##.. ..###.. ..##... ....... ....... ....... ...##..
....... ..##... ....... .##.##. .####.. ..##... .###... ....... .##.... ...##.. ####### ######. ....... ######. ....... ..##...
....... ..##... ....... ####### ....##. .##.... ##.#### ....... .##.... ...##.. ..###.. ..##... ....... ....... ....... .##....
....... ....... ....... .##.##. #####.. ##..##. ##..##. ....... ..##... ..##... .##.##. ..##... ..##... ....... ..##... ##.....
....... ..##... ....... .##.##. ..##... #...##. .###.## ....... ...##.. .##.... ....... ....... ..##... ....... ..##... ##.....
....... ....... ....... ....... ....... ....... ....... ....... ....... ....... ....... ....... .##.... ....... ....... .......

.####.. ..##... .####.. .####.. ...##.. ######. ..###.. ######. .####.. .####.. ....... ....... ...##.. ....... .##.... .####..
##..##. .###... ##..##. ##..##. ..###.. ##..... .##.... ....##. ##..##. ##..##. ..##... ..##... ..##... ....... ..##... ##..##.
##.###. ..##... ....##. ....##. .####.. #####.. ##..... ...##.. ##..##. ##..##. ..##... ..##... .##.... ######. ...##.. ....##.
######. ..##... ..###.. ..###.. ##.##.. ....##. #####.. ...##.. .####.. .#####. ....... ....... ##..... ....... ....##. ..###..
###.##. ..##... .##.... ....##. ######. ....##. ##..##. ..##... ##..##. ....##. ....... ....... .##.... ######. ...##.. ..##...
##..##. ..##... ##..... ##..##. ...##.. ##..##. ##..##. ..##... ##..##. ...##.. ..##... ..##... ..##... ....... ..##... .......
.####.. .####.. ######. .####.. ...##.. .####.. .####.. ..##... .####.. .###... ..##... ..##... ...##.. ....... .##.... ..##...
....... ....... ....... ....... ....... ....... ....... ....... ....... ....... ....... .##.... ....... ....... ....... .......

.#####. ..##... #####.. .####.. #####.. ######. ######. .####.. ##..##. .####.. ..####. ##..##. ##..... ##...## ##..##. .####..
##...## .####.. ##..##. ##..##. ##..##. ##..... ##..... ##..##. ##..##. ..##... ...##.. ##.##.. ##..... ###.### ###.##. ##..##.
##.#### ##..##. ##..##. ##..... ##..##. ##..... ##..... ##..... ##..##. ..##... ...##.. ####... ##..... ####### ###.##. ##..##.
##.#.## ##..##. #####.. ##..... ##..##. #####.. #####.. ##.###. ######. ..##... ...##.. ###.... ##..... ##.#.## ######. ##..##.
##.#### ######. ##..##. ##..... ##..##. ##..... ##..... ##..##. ##..##. ..##... ...##.. ####... ##..... ##...## ##.###. ##..##.
##..... ##..##. ##..##. ##..##. ##..##. ##..... ##..... ##..##. ##..##. ..##... ##.##.. ##.##.. ##..... ##...## ##.###. ##..##.
.###### ##..##. #####.. .####.. #####.. ######. ##..... .#####. ##..##. .####.. .###... ##..##. ######. ##...## ##..##. .####..
....... ....... ....... ....... ....... ....... ....... ....... ....... ....... ....... ....... ....... ....... ....... .......

#####.. .####.. #####.. .####.. ######. ##..##. ##..##. ##...## ##..##. ##..##. ######. .####.. ##..... .####.. ..##... .......
##..##. ##..##. ##..##. ##..##. ..##... ##..##. ##..##. ##...## ##..##. ##..##. ....##. .##.... ##..... ...##.. .####.. .......
##..##. ##..##. ##..##. ##..... ..##... ##..##. ##..##. ##...## .####.. .####.. ...##.. .##.... .##.... ...##.. ##..##. .......
#####.. ##..##. #####.. .####.. ..##... ##..##. ##..##. ##.#.## ..##... ..##... ..##... .##.... ..##... ...##.. ....... .......
##..... ######. ####... ....##. ..##... ##..##. ##..##. ####### .####.. ..##... .##.... .##.... ...##.. ...##.. ....... .......
##..... ##.##.. ##.##.. ##..##. ..##... ##..##. .####.. ###.### ##..##. ..##... ##..... .##.... ....##. ...##.. ....... .......
##..... .##.##. ##..##. .####.. ..##... .####.. ..##... ##...## ##..##. ..##... ######. .####.. ....##. .####.. ....... .......
....... ....... ....... ....... ....... ....... ....... ....... ....... ....... ....... ....... ....... ....... ....... ######.

.##.... ....... ##..... ....... ....##. ....... ..###.. ....... ##..... ..##... ...##.. ##..... .###... ....... ....... .......
..##... ....... ##..... ....... ....##. ....... .##.... ....... ##..... ....... ....... ##..... ..##... ....... ....... .......
...##.. .####.. #####.. .####.. .#####. .####.. #####.. .#####. #####.. .###... ..###.. ##..##. ..##... ###.##. #####.. .####..
....... ....##. ##..##. ##..... ##..##. ##..##. .##.... ##..##. ##..##. ..##... ...##.. ##.##.. ..##... ####### ##..##. ##..##.
....... .#####. ##..##. ##..... ##..##. ######. .##.... ##..##. ##..##. ..##... ...##.. ####... ..##... ##.#.## ##..##. ##..##.
....... ##..##. ##..##. ##..... ##..##. ##..... .##.... .#####. ##..##. ..##... ...##.. ##.##.. ..##... ##.#.## ##..##. ##..##.
....... .#####. #####.. .####.. .#####. .#####. .##.... ....##. ##..##. .####.. ...##.. ##..##. .####.. ##.#.## ##..##. .####..
....... ....... ....... ....... ....... ....... ....... .####.. ....... ....... .###... ....... ....... ....... ....... .......

....... ....... ....... ....... .##.... ....... ....... ....... ....... ....... ....... ...###. ..##... ###.... .......
....... ....... ....... ....... .##.... ....... ....... ....... ....... ....... ....... ..##... ..##... ..##... .......
#####.. .#####. ##.###. .#####. #####.. ##..##. ##..##. ##...## ##..##. ##..##. ######. ..##... ..##... ..##... .###.##
##..##. ##..##. ####... ##..... .##.... ##..##. ##..##. ##.#.## .####.. ##..##. ...##.. .##.... ..##... ...##.. ##.###.
##..##. ##..##. ##..... .####.. .##.... ##..##. ##..##. ##.#.## ..##... ##..##. ..##... ..##... ..##... ..##... .......
##..##. ##..##. ##..... ....##. .##.... ##..##. .####.. ####### .####.. .#####. .##.... ..##... ..##... ..##... .......
#####.. .#####. ##..... #####.. ..###.. .#####. ..##... .##.##. ##..##. ....##. ######. ...###. ..##... ###.... .......
##..... ....##. ....... ....... ....... ....... ....... ....... ....... .####.. ....... ....... ....... ....... ......."""

# A colour is red * 32 + green * 4 + blue: eight reds, eight greens, four blues. This is how the picture of planpic shows it; a real card has
# the colours that a program gives it. In the pixel modes colour 0 is transparent. A colour 0Fh, 1Fh .. FFh is transparent while trans15 is on.
CLEAR, BLUE, CYAN, WHITE = 0x00, 0x0F, 0x1F, 0xFF
BLOCK = 0x80  # the first of 16 characters that are made of quarters


# ---- the font ----


def glyphs():
    """the shapes of the characters, as eight rows of eight pixels"""
    shapes = {}
    for sixteen in GLYPHS.split("\n\n"):
        for column in zip(*(line.split() for line in sixteen.split("\n"))):
            shapes[chr(32 + len(shapes))] = [[pixel == "#" for pixel in "." + row] for row in column]
    return shapes


SHAPES = glyphs()


def quarters(number):
    """a block that has a quarter for each bit: 1 above left, 2 above right, 4 below left, 8 below right"""
    return [[bool(number >> (2 * (y // 4) + x // 4) & 1) for x in range(8)] for y in range(8)]


def packed(shape):
    """a character's eight bytes; bit 7 is the leftmost pixel"""
    return bytes(sum(0x80 >> x for x in range(8) if row[x]) for row in shape)


def font():
    held = bytearray(256 * 8)
    for char, shape in [(ord(c), s) for c, s in SHAPES.items()] + [(BLOCK + n, quarters(n)) for n in range(16)]:
        held[8 * char:8 * char + 8] = packed(shape)
    return held


# ---- text: a character is its number and its attribute ----


class Text:
    """rows of characters; an attribute below 80h has a transparent background"""

    def __init__(self, columns, rows):
        self.columns, self.cells = columns, [[(32, 0)] * columns for _ in range(rows)]

    def put(self, column, row, text, attribute):
        for i, char in enumerate(text):
            self.cells[row][column + i] = (char if isinstance(char, int) else ord(char), attribute)

    def big(self, column, row, text, attributes):
        """letters of 4 by 4 characters, an attribute for each row of them"""
        for i, char in enumerate(text):
            shape = SHAPES[char]
            for y, attribute in enumerate(attributes):
                quads = [sum(shape[2 * y + b // 2][2 * x + b % 2] << b for b in range(4)) for x in range(4)]
                self.put(column + 4 * i, row + y, [BLOCK + q for q in quads], attribute)

    def bytes(self):
        return bytes(byte for row in self.cells for cell in row for byte in cell)


def title():
    rows = Text(80, 5)
    rows.big(20, 0, "DESK BOARD", [0x7E, 0x5E, 0x3E, 0x1E])
    for row, (text, attribute) in enumerate([("Text mode:", 0x7C), ("80 characters", 0x5D), ("of 8 pixels", 0x5D), ("in a row", 0x5D)]):
        rows.put(2, row, text, attribute)
    # a coloured background; one that trans15 hides with its letters; letters that it hides; letters of colour 0, which are not transparent
    for row, (text, attribute) in enumerate([(" attribute C4h ", 0xC4), (" attribute 8Fh ", 0x8F), (" attribute 7Fh ", 0x7F), (" attribute 00h ", 0x00)]):
        rows.put(63, row, text, attribute)
    caption = "All five modes on one screen: off, text, SR, HR and LR; narrow, normal and wide".center(80)
    for column, char in enumerate(caption):
        rows.put(column, 4, char, [0xA0, 0xC0, 0xC4, 0xC8, 0xC8, 0xC4, 0xC0, 0xA0][column // 10])
    return rows.bytes()


def ticker():
    """one row of 81 characters: the last one is seen only where the row is scrolled"""
    rows = Text(81, 1)
    rows.put(0, 0, [BLOCK + 15], 0x7C)
    rows.put(1, 0, "Smooth scrolling: one row, shown three times, by 0, 4 and 7 pixels to the left".center(79), 0x7E)
    rows.put(80, 0, " ", 0xFC)
    return rows.bytes()


def narrow():
    rows = Text(64, 3)
    for row, text in enumerate(["This row goes out at the top", "Narrow: 64 characters a row, scrolled up by four lines", "This row comes in from below"]):
        rows.put(0, row, [BLOCK + 15], 0x5C)
        rows.put(1, row, text.center(62), [0x5C, 0x7E, 0x5C][row])
        rows.put(63, row, [BLOCK + 15], 0x5C)
    return rows.bytes()


# ---- pictures ----


class Picture:
    """a colour for each pixel"""

    def __init__(self, width, height, colour=lambda x, y: CLEAR):
        self.rows = [[colour(x, y) for x in range(width)] for y in range(height)]

    def fill(self, where, colour):
        """a colour for each pixel of which `where` is true"""
        for y, row in enumerate(self.rows):
            for x in range(len(row)):
                if where(x, y):
                    row[x] = colour

    def write(self, x, y, text, colour, high=1):
        """letters, each of their lines `high` lines high"""
        for i, char in enumerate(text):
            for line, shape in enumerate(SHAPES[char]):
                for column in range(8):
                    for down in range(high * shape[column]):
                        self.rows[y + high * line + down][x + 8 * i + column] = colour

    def bytes(self):
        return bytes(colour for row in self.rows for colour in row)

    def nibbles(self):
        """two pixels a byte, the left one above"""
        return bytes(16 * left + right for row in self.rows for left, right in zip(row[::2], row[1::2]))


def box(left, top, right, bottom):
    return lambda x, y: left <= x < right and top <= y < bottom


def round_(cx, cy, across, down):
    return lambda x, y: (down * (x - cx)) ** 2 + (across * (y - cy)) ** 2 < (across * down) ** 2


# Which of 16 neighbours is rounded up first: so that two colours, mixed, look like one between them.
ORDER = [0, 8, 2, 10, 12, 4, 14, 6, 3, 11, 1, 9, 15, 7, 13, 5]


def mixed(x, y, red, green, blue):
    """a colour near to red, green, blue of 0 to 255 each; not a transparent one, with or without trans15"""
    step = ORDER[x % 4 + 4 * (y % 4)]
    level = lambda part, top: (part * top * 16 // 255 + step) // 16
    colour = 32 * level(red, 7) + 4 * level(green, 7) + level(blue, 3)
    return colour - 4 if colour % 16 == 15 else colour or 1


def between(stops, at):
    """red, green, blue at a place between stops (place, colour)"""
    for (low, first), (high, last) in zip(stops, stops[1:]):
        if low <= at <= high:
            return [a + (b - a) * (at - low) // (high - low) for a, b in zip(first, last)]


SKY = [(0, (10, 10, 90)), (24, (90, 50, 170)), (42, (240, 110, 110)), (56, (255, 220, 120))]
SHORE = 56


def ridge(x, points):
    """the height of a ridge of straight lines through points (x, y)"""
    for (x0, y0), (x1, y1) in zip(points, points[1:]):
        if x0 <= x <= x1:
            return y0 + (y1 - y0) * (x - x0) // (x1 - x0)


FAR = [(0, 40), (34, 27), (58, 38), (92, 22), (130, 44), (170, 34), (206, 50), (250, 47), (284, 33), (319, 42)]
NEAR = [(0, 52), (40, 44), (76, 53), (118, 46), (160, 55), (230, 56), (270, 50), (319, 46)]


def land(x, y):
    """the sky, two ridges, and the lake, in which they stand upside down"""
    wave = (x * 5 + y * y * 3) % 23 // 8 - 1 if y >= SHORE else 0
    up = y if y < SHORE else 2 * SHORE - y - 1
    side = min(max(x + 2 * wave, 0), 319)
    if up >= ridge(side, NEAR):
        colour = 20, 60 + (up - 44) * 3, 50
    elif up >= ridge(side, FAR):
        colour = 95 - up, 60 + up // 2, 120
    elif round_(226, 48, 13, 26)(side, up):
        colour = 255, 250, 150
    else:
        colour = between(SKY, up)
    return mixed(x, y, *(colour if y < SHORE else [part * 2 // 3 for part in colour]))


def landscape():
    picture = Picture(320, 80, land)
    for n in range(40):
        x, y = n * 97 % 320, n * n * 7 % 19
        picture.fill(box(x, y, x + 1, y + 1), WHITE)
    # the letters in the cloud are of nearly its colour, but trans15 takes them away
    for part in [(166, 15, 40, 8), (140, 18, 30, 6), (192, 18, 28, 6), (152, 10, 18, 6), (178, 9, 20, 6)]:
        picture.fill(round_(*part), 0xDB)
    picture.write(138, 11, "TRANS15", 0xDF)
    # the board is a hole: what is written on it goes away with trans15, and nothing stays
    for colour, where in [(0x65, box(22, 36, 26, 66)), (0x65, box(78, 36, 82, 66)), (0x89, box(12, 26, 92, 52)), (CLEAR, box(14, 28, 90, 50))]:
        picture.fill(where, colour)
    picture.write(24, 30, "SR: 256", CYAN)
    picture.write(24, 40, "colours", WHITE)
    # a boat: sail, hull, and the hull's shadow
    picture.fill(lambda x, y: 44 <= y < 64 and 270 - (y - 44) // 2 <= x < 270, 0xFE)
    picture.fill(lambda x, y: 47 <= y < 64 and 271 <= x < 271 + (y - 45) // 2, 0xDA)
    picture.fill(lambda x, y: 65 <= y < 69 and 254 + y - 65 <= x < 288 - (y - 65) * 2, 0x84)
    picture.fill(lambda x, y: 69 <= y < 72 and y % 2 == 1 and 258 <= x < 282, 0x24)
    return picture.bytes()


# colours of the HR mode, from dark blue over light blue and green back to the beginning
WHEEL = [1, 2, 3, 7, 11, 15, 11, 10, 14, 13, 12, 8, 4, 5]


def rings(x, y):
    """rings around two middles that lie 400 pixels apart"""
    away = (x - 120) ** 2 + 6 * (y - 14) ** 2 if x < 320 else (x - 520) ** 2 + 6 * (y - 14) ** 2
    return WHEEL[away // 96 % len(WHEEL)]


def fine():
    picture = Picture(640, 28, rings)
    picture.fill(box(180, 0, 460, 28), CLEAR)
    picture.write(188, 1, "HR: 640 pixels a line, 16 colours", BLUE)
    # lines of 1, 2, 3 and 4 pixels, and a board of single ones
    for wide in (1, 2, 3, 4):
        left = 140 + 48 * wide
        picture.fill(lambda x, y: left <= x < left + 42 and 10 <= y < 18 and (x - left) // wide % 2 == 0, [7, 11, 14, 12][wide - 1])
    picture.fill(lambda x, y: 380 <= x < 452 and 10 <= y < 18 and (x + y) % 2 == 0, BLUE)
    picture.write(188, 19, "lines of 1, 2, 3 and 4 pixels", 14)
    return picture.nibbles()


def rainbow(at):
    """a colour of a circle of 42: red, yellow, green, cyan, blue, violet and back"""
    part, step = divmod(at % 42, 7)
    red, green, blue = [(7, step, 0), (7 - step, 7, 0), (0, 7, step), (0, 7 - step, 7), (step, 0, 7), (7, 0, 7 - step)][part]
    return 32 * red + 4 * green + blue // 2


def coarse():
    """blocks of one pixel and three lines; the letters are holes"""
    picture = Picture(160, 24, lambda x, y: rainbow(x // 2 + y // 3))
    picture.write(0, 0, "LR  160 PIXELS A ROW", CLEAR, high=3)
    return picture.bytes()


def chart():
    """all colours, between words and in a frame"""
    picture = Picture(336, 12, lambda x, y: x - 40 if 40 <= x < 296 else 0x40)
    picture.fill(lambda x, y: not box(1, 1, 335, 11)(x, y), 0xFC)
    picture.write(5, 2, "WIDE", 0xFC)
    picture.write(303, 2, "336", 0xFC)
    return picture.bytes()


def memory():
    """the whole, from address 0 on"""
    parts = {TITLE: title(), TICKER: ticker(), NARROW: narrow(), FONT: font(), LANDSCAPE: landscape(), RINGS: fine(), BLOCKS: coarse(), CHART: chart()}
    held = b""
    for address, part in sorted(parts.items()):
        assert len(held) <= address, "two parts share a byte"
        held += bytes(address - len(held)) + part
    return held


def main():
    if len(sys.argv) > 1:
        asked = sys.argv[1] in ("-h", "--help")
        print(__doc__, file=sys.stdout if asked else sys.stderr)
        return 0 if asked else 2
    pathlib.Path(__file__).resolve().with_name("small_screen.mem").write_bytes(memory())
    return 0


if __name__ == "__main__":
    sys.exit(main())
