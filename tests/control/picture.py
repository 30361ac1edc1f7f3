"""The picture of the map: what it shows and where, as PNG and as PPM, at every scale."""

import os
import re
import struct
import zlib

from desk import ACCEPTED, REFUSED, EXAMPLES, MEMORY, P1, P6, P10, holds, same, test

# The layout at scale 1, in dots, from the top: the legend, a ruler of columns, the rows in groups of pages that follow each other.
WIDTH = 800
MARGIN = 8
CELL_WIDTH, CELL_HEIGHT = 3, 9
ROW_STEP = 10
GROUP_GAP = 4
FIRST_COLUMN = 24
LEGEND_TOP, LEGEND_BOTTOM = 8, 17
LEGEND_STEP = 96
SWATCH_WIDTH = 12
WORD, WORD_WIDTH = 16, 54
RULER_TOP, RULER_BOTTOM = 25, 32
RULER_STEP = 16
DIGIT_STEP, DIGIT_WIDTH, DIGIT_HEIGHT = 6, 5, 7
NUMBER_DROP = 1
SCALES = (1, 2, 3, 4)

DIGITS = (
    ".###. ..#.. .###. ##### ...#. ##### ..##. ##### .###. .###. .###. ####. .###. ####. ##### #####",
    "#...# .##.. #...# ...#. ..##. #.... .#... ....# #...# #...# #...# #...# #...# #...# #.... #....",
    "#..## ..#.. ....# ..#.. .#.#. ####. #.... ...#. #...# #...# #...# #...# #.... #...# #.... #....",
    "#.#.# ..#.. ...#. ...#. #..#. ....# ####. ..#.. .###. .#### ##### ####. #.... #...# ####. ####.",
    "##..# ..#.. ..#.. ....# ##### ....# #...# .#... #...# ....# #...# #...# #.... #...# #.... #....",
    "#...# ..#.. .#... #...# ...#. #...# #...# .#... #...# ...#. #...# #...# #...# #...# #.... #....",
    ".###. .###. ##### .###. ...#. .###. .###. .#... .###. .##.. #...# ####. .###. ####. ##### #....",
)

UNTOUCHED, PLACED, RESERVED, ADJUSTED = MARKS = range(4)


def read_chunks(file):
    """The chunks of a PNG file, as (type, data)."""
    same(file[:8], b"\x89PNG\r\n\x1a\n", "signature")
    chunks, at = [], 8
    while at < len(file):
        (length,) = struct.unpack_from(">I", file, at)
        kind, data = file[at + 4:at + 8], file[at + 8:at + 8 + length]
        same(file[at + 8 + length:at + 12 + length], struct.pack(">I", zlib.crc32(kind + data)), f"checksum of {kind}")
        chunks.append((kind, data))
        at += 12 + length
    same([kind for kind, _ in chunks], [b"IHDR", b"PLTE", b"IDAT", b"IEND"], "chunks")
    return dict(chunks)


def inflate(data):
    """What a zlib stream holds, which has to end with its last byte."""
    stream = zlib.decompressobj()
    content = stream.decompress(data) + stream.flush()
    holds(stream.eof and not stream.unused_data, "the stream doesn't end where its chunk does")
    return content


def read_png(file):
    """The rows of dots of a PNG file, each a list of colours."""
    chunks = read_chunks(file)
    width, height, *form = struct.unpack(">IIBBBBB", chunks[b"IHDR"])
    same(form, [8, 3, 0, 0, 0], "depth, colour type, methods")
    palette = [chunks[b"PLTE"][at:at + 3] for at in range(0, len(chunks[b"PLTE"]), 3)]
    filtered = inflate(chunks[b"IDAT"])
    same(len(filtered), height * (1 + width), "bytes of all rows")
    rows, above = [], bytes(width)
    for at in range(0, len(filtered), 1 + width):
        same(filtered[at], 2, "filter")
        above = bytes((difference + dot) & 0xFF for difference, dot in zip(filtered[at + 1:at + 1 + width], above))
        rows.append([palette[dot] for dot in above])
    return rows


def read_ppm(file):
    """The rows of dots of a PPM file, each a list of colours."""
    header = re.match(rb"P6\n(\d+) (\d+)\n255\n", file)
    holds(header, f"header {file[:20]!r}")
    width, height = map(int, header.groups())
    content = file[header.end():]
    same(len(content), 3 * width * height, "length")
    dots = [content[at:at + 3] for at in range(0, len(content), 3)]
    return [dots[at:at + width] for at in range(0, len(dots), width)]


def draw(desk, program, *words, name="picture.png"):
    """The rows of dots of the picture, and the map, of a program that is accepted."""
    desk.put("f", program)
    desk.text(ACCEPTED, "sdx", "f", *words, "--picture", name, "--map", "map")
    return (read_png if name.lower().endswith(".png") else read_ppm)(desk.get(name)), desk.get("map")


def draw_all_marks(desk, *words, **more):
    """The same of a program whose map has all four marks: code at 12FF, and room behind it up to 1400."""
    return draw(desk, P6 + bytes.fromhex("FE FF 02 80 00 20 FF 00"), "--low", "0x12FF", *words, **more)


def area(rows, left, top, width, height):
    return [row[left:left + width] for row in rows[top:top + height]]


def colours_in(rows):
    return {dot for row in rows for dot in row}


def bytes_at(*addresses):
    """A program that places a byte at each of these addresses."""
    return b"".join(struct.pack("<HHHB", 0xFFFF, address, address, 0x60) for address in addresses)


def row_tops(pages):
    """Where the rows of these pages begin, and the picture's height."""
    tops, bottom = {}, RULER_BOTTOM
    for page in sorted(pages):
        bottom += 0 if page - 1 in tops else GROUP_GAP
        tops[page] = bottom
        bottom += ROW_STEP
    return tops, (bottom if tops else LEGEND_BOTTOM) + MARGIN


def pages_of(marks):
    return {address >> 8 for address, mark in enumerate(marks) if mark != UNTOUCHED}


def swatch(rows, mark):
    return area(rows, FIRST_COLUMN + mark * LEGEND_STEP, LEGEND_TOP, SWATCH_WIDTH, LEGEND_BOTTOM - LEGEND_TOP)


def legend(rows):
    """The colour of each mark by the legend."""
    found = [colours_in(swatch(rows, mark)) for mark in MARKS]
    same([len(colours) for colours in found], [1] * 4, "colours in each swatch")
    return [colours.pop() for colours in found]


def page_number(rows, top):
    return area(rows, MARGIN, top + NUMBER_DROP, DIGIT_STEP + DIGIT_WIDTH, DIGIT_HEIGHT)


def holds_the_map(rows, marks):
    """Checks that rows are there for the pages that hold something and no others, and each address as a cell of its mark's colour."""
    tops, height = row_tops(pages_of(marks))
    same((len(rows[0]), len(rows)), (WIDTH, height), "width and height")
    colours, paper = legend(rows), rows[0][0]
    for page, top in tops.items():
        wanted = [colours[mark] for mark in marks[256 * page:256 * page + 256] for _ in range(CELL_WIDTH)]
        for row in area(rows, FIRST_COLUMN, top, WIDTH - FIRST_COLUMN, CELL_HEIGHT):
            holds(row == wanted + [paper] * MARGIN, f"the row of page {page:02X} does not show its marks")
    inside = {top + y for top in tops.values() for y in range(CELL_HEIGHT)}
    for y in range(RULER_BOTTOM, height):
        holds(y in inside or colours_in([rows[y]]) == {paper}, f"line {y} is not empty")


@test
def every_address_of_a_shown_page_has_the_colour_of_its_mark(desk):
    rows, marks = draw_all_marks(desk)
    same(set(marks), set(MARKS), "marks")
    same(pages_of(marks), {0x12, 0x13, 0x14}, "pages")
    holds_the_map(rows, marks)
    holds_the_map(*draw(desk, open(os.path.join(EXAMPLES, "score.sdx"), "rb").read(), "--names", os.path.join(EXAMPLES, "names.txt")))


@test
def the_pages_shown_are_those_that_hold_something(desk):
    for addresses in ((0,), (0xFFFF,), (0, 0xFFFF), (0x7FFF, 0x8000), (0x0100, 0x02FF, 0x0400, 0xFE80, 0xFF00), range(0, 0x10000, 0x200)):
        rows, marks = draw(desk, bytes_at(*addresses))
        same(pages_of(marks), {address >> 8 for address in addresses}, "pages")
        holds_the_map(rows, marks)


@test
def the_colours_are_those_that_the_usage_names(desk):
    usage = " ".join(desk.text(ACCEPTED, "--help").split())
    holds("placed blue, reserved grey, adjusted amber" in usage, "the usage names other colours")
    rows, _ = draw_all_marks(desk)
    colours = legend(rows)
    same(len({*colours, rows[0][0]}), 5, "number of colours, paper included")
    red, green, blue = colours[PLACED]
    holds(blue > green > red, "placed is not blue")
    holds(len(set(colours[RESERVED])) == 1, "reserved is not grey")
    red, green, blue = colours[ADJUSTED]
    holds(red > green > blue, "adjusted is not amber")
    holds(max(colours[UNTOUCHED]) < min(max(colours[mark]) for mark in (PLACED, RESERVED, ADJUSTED)), "untouched is not the darkest")


@test
def the_legend_has_a_word_for_each_colour(desk):
    rows, _ = draw(desk, bytes_at(0x1000))
    words = [area(rows, FIRST_COLUMN + mark * LEGEND_STEP + WORD, LEGEND_TOP, WORD_WIDTH, LEGEND_BOTTOM - LEGEND_TOP) for mark in MARKS]
    same([len(colours_in(word)) for word in words], [2] * 4, "colours of each word, paper included")
    for mark in MARKS:
        same(words.index(words[mark]), mark, "the first mark with this word")
    holds(not set(legend(rows)) & set.union(*map(colours_in, words)), "a word has the colour of a mark")


@test
def a_refused_call_has_the_legend_alone(desk):
    desk.put("f", P10)
    desk.put("image", bytes(MEMORY))
    for command, *more in (("acx",), ("move", "--memory", "image", "--to-main", "1")):
        for ending in ("png", "ppm"):
            desk.text(REFUSED, command, "f", "--form", "device", "--picture", f"{command}.{ending}", *more)
    accepted, _ = draw_all_marks(desk)
    for command in ("acx", "move"):
        png, ppm = read_png(desk.get(f"{command}.png")), read_ppm(desk.get(f"{command}.ppm"))
        same((len(png[0]), len(png)), (WIDTH, LEGEND_BOTTOM + MARGIN), "width and height")
        holds(png == ppm, "PNG and PPM differ")
        holds(png == accepted[:len(png)], "the legend is not that of an accepted call")


@test
def a_page_has_its_own_number(desk):
    rows, marks = draw(desk, bytes_at(*range(0x80, 0x10000, 0x100)))
    tops, _ = row_tops(pages_of(marks))
    same(len(tops), 256, "pages")
    numbers = [page_number(rows, tops[page]) for page in range(256)]
    paper = rows[0][0]
    for page, number in enumerate(numbers):
        same(len(colours_in(number)), 2, "colours of a number, paper included")
        for place, digit in enumerate((page >> 4, page & 0xF)):
            shown = area(number, place * DIGIT_STEP, 0, DIGIT_WIDTH, DIGIT_HEIGHT)
            wanted = area(DIGITS, digit * DIGIT_STEP, 0, DIGIT_WIDTH, DIGIT_HEIGHT)
            same(["".join("." if dot == paper else "#" for dot in row) for row in shown], wanted, f"digit {place} of page {page:02X}")
    for column in range(0, 256, RULER_STEP):
        above = area(rows, FIRST_COLUMN + column * CELL_WIDTH, RULER_TOP, DIGIT_STEP + DIGIT_WIDTH, DIGIT_HEIGHT)
        holds(above == numbers[column], f"the ruler's number of column {column:02X}")


@test
def a_page_has_the_same_number_in_every_map(desk):
    first, first_marks = draw(desk, bytes_at(0x1F00, 0x2000, 0xA900))
    second, second_marks = draw(desk, bytes_at(0x0000, 0x20FF, 0xA980))
    (first_tops, _), (second_tops, _) = row_tops(pages_of(first_marks)), row_tops(pages_of(second_marks))
    for page in (0x20, 0xA9):
        holds(first_tops[page] != second_tops[page], f"page {page:02X} has one place in both, which shows little")
        holds(page_number(first, first_tops[page]) == page_number(second, second_tops[page]), f"page {page:02X} has two numbers")


@test
def both_formats_show_the_same(desk):
    for scale in SCALES[:2]:
        png, _ = draw_all_marks(desk, "--scale", str(scale))
        ppm, _ = draw_all_marks(desk, "--scale", str(scale), name="picture.ppm")
        holds(png == ppm, f"PNG and PPM differ at scale {scale}")


@test
def a_scale_enlarges_each_dot(desk):
    for name in ("picture.png", "picture.ppm"):
        plain, _ = draw_all_marks(desk, name=name)
        for scale in SCALES:
            enlarged, _ = draw_all_marks(desk, "--scale", str(scale), name=name)
            wanted = [[dot for dot in row for _ in range(scale)] for row in plain for _ in range(scale)]
            holds(enlarged == wanted, f"{name} at scale {scale} is not that at scale 1 enlarged")


@test
def a_scale_out_of_range_is_a_usage_error(desk):
    desk.put("f", P1)
    words = ("acx", "f", "--form", "device", "--picture", "picture.png", "--scale")
    for scale in ("0", str(SCALES[-1] + 1), "4294967295"):
        desk.trouble(*words, scale, mention=f"--scale: is {scale}; 1 to {SCALES[-1]}")
    for scale in SCALES:
        desk.text(ACCEPTED, *words, str(scale))
    desk.trouble("acx", "f", "--scale", "2", mention="--scale: needs --picture")


@test
def the_ending_of_its_name_decides_the_format(desk):
    desk.put("f", P6)
    os.mkdir(desk.path("folder.png"))
    names = {
        b"\x89PNG": ("a.png", "a.PNG", "a.Png", ".png", "a.ppm.png"),
        b"P6\n": ("a.ppm", "a", "png", "apng", "a.png.ppm", "a.pngx", "folder.png/a"),
    }
    for opening in names:
        for name in names[opening]:
            desk.text(ACCEPTED, "sdx", "f", "--picture", name)
            same(desk.get(name)[:len(opening)], opening, f"opening of {name}")


@test
def a_full_map_at_the_largest_scale_is_no_large_file(desk):
    desk.put("f", bytes.fromhex("FF FF 00 00 F9 FF") + bytes(65530))
    desk.text(ACCEPTED, "sdx", "f", "--picture", "picture.png", "--scale", str(SCALES[-1]))
    file = desk.get("picture.png")
    holds(len(file) < 500000, f"the file has {len(file)} bytes")
    chunks = read_chunks(file)
    width, height = WIDTH * SCALES[-1], row_tops(range(256))[1] * SCALES[-1]
    same(struct.unpack_from(">II", chunks[b"IHDR"]), (width, height), "width and height")
    same(len(inflate(chunks[b"IDAT"])), height * (1 + width), "bytes of all rows")
