"""What is read: files, images, names."""

import os

from desk import ACCEPTED, REFUSED, MEMORY, P1, P6, same, test


@test
def a_file_that_cannot_be_read_is_an_error(desk):
    desk.put("f", P1)
    os.mkdir(desk.path("folder"))
    os.symlink("nowhere", desk.path("link"))
    desk.put("image", bytes(MEMORY))
    # /proc/self/mem can be opened, and its first page can't be read
    for name, cause in (("missing", "No such file"), ("folder", "directory"), ("f/f", "Not a directory"), ("link", "No such file"),
                        ("", "No such file"), ("n" * 300, "too long"), ("/proc/self/mem", "can't be read")):
        for command, *more in (("sdx",), ("acx",), ("index",), ("move", "--memory", "image", "--to-main", "1")):
            desk.trouble(command, name, "--out", "new", *more, mention=cause)
        desk.trouble("move", "--index", name, "--memory", "image", "--to-main", "1", "--out", "new", mention=cause)
        desk.trouble("acx", "f", "--memory", name, "--out", "new", mention=cause)
        desk.trouble("sdx", "f", "--names", name, "--out", "new", mention=cause)


@test
def a_file_too_long_is_for_the_loader_to_refuse(desk):
    for length in (65537, 65538, 200000):
        desk.put("f", P1 + bytes(length - len(P1)))
        same(desk.answer(REFUSED, "acx", "f", "--form", "device")["number"], 3, f"{length} bytes")
    # a file without an end is read no further than it takes to see that
    same(desk.answer(REFUSED, "sdx", "/dev/zero")["number"], 3, "/dev/zero")
    desk.put("f", bytes.fromhex("FF FF 00 00 F9 FF") + bytes(65530))
    same(desk.answer(ACCEPTED, "sdx", "f")["placed"], 65530, "65536 bytes")


@test
def an_image_has_exactly_65536_bytes(desk):
    desk.put("f", P1)
    for length in (0, 1, 65535):
        desk.put("image", bytes(length))
        for command, *more in (("sdx",), ("acx",), ("move", "--to-main", "1")):
            desk.trouble(command, "f", "--memory", "image", "--out", "new", *more, mention=f"image: is no image: it has {length} bytes")
    desk.put("image", bytes(65537))
    desk.trouble("acx", "f", "--memory", "image", "--out", "new", mention="image: is no image: it has more than 65536 bytes")
    desk.trouble("acx", "f", "--memory", "/dev/zero", "--out", "new", mention="is no image")


def adjusted_by(name):
    """An SDX file with one word, which is the address of this name once it is loaded, at 0600."""
    return bytes.fromhex("FF FF 00 06 01 06 00 00 FB FF") + name + bytes.fromhex("00 00 FD 00 06 FC")


@test
def names_may_be_written_in_many_ways(desk):
    desk.put("names", b'\xEF\xBB\xBF# a comment\n\n   \t\r\n"PLAIN   " 1\n\t"TABBED  "\t \t$0203\t\n"DOS LINE" 0x405\r\n'
                      b'"\\"\\\\\\x00\\xfF\\x41# Z" 65535\n  # one more "comment" \n"RAW\xFF\x80\x01\x00 " 0\n'
                      b'"COMMENT " 8 # behind it\n"CLOSE   " $9#\r\n"NO NL   " 7')
    for name, address in ((b"PLAIN   ", 1), (b"TABBED  ", 0x203), (b"DOS LINE", 0x405), (b'"\\\x00\xFFA# Z', 65535),
                          (b"RAW\xFF\x80\x01\x00 ", 0), (b"COMMENT ", 8), (b"CLOSE   ", 9), (b"NO NL   ", 7)):
        desk.put("f", adjusted_by(name))
        desk.text(ACCEPTED, "sdx", "f", "--names", "names", "--out", "image", "--fresh")
        same(int.from_bytes(desk.get("image")[0x600:0x602], "little"), address, f"address of {name}")
    # a mark that stands alone, and one that is the first name's
    desk.put("names", b"\xEF\xBB\xBF")
    desk.text(REFUSED, "sdx", "f", "--names", "names")
    desk.put("names", b'\xEF\xBB\xBF"NO NL   " 3')
    desk.text(ACCEPTED, "sdx", "f", "--names", "names", "--out", "image", "--fresh")
    same(desk.get("image")[0x600], 3, "the word")


@test
def of_equal_names_the_last_holds(desk):
    desk.put("names", b'"TWICE   " 1\n"OTHER   " 2\n"TWICE   " 3\n')
    desk.put("f", adjusted_by(b"TWICE   "))
    desk.text(ACCEPTED, "sdx", "f", "--names", "names", "--out", "image",
              warning="names: line 3: warning: this name stands in line 1 too; the address here holds\n")
    same(desk.get("image")[0x600], 3, "the word")


BEGINNING = "should begin with a name in double quotes"
ESCAPE = "in a name, a backslash begins one of"
LENGTH = "the name has {} and should have 8 (fill up a shorter one with blanks)"
QUOTE = "the quote behind the name is missing"
BLANK = "a blank should stand between the name and its address"
ADDRESS = "the address behind the name is missing"
NUMBER = "the address is no number of at most 32 bits"
RANGE = "the address is {}; 0 to 65535"
BEHIND = "behind the address only a comment may stand"

WRONG_LINES = (
    (b"NONAMES! 1", BEGINNING), (b"'SINGLEQU' 1", BEGINNING), (b"7", BEGINNING), (b"\x00", BEGINNING), (b"\xEF\xBB", BEGINNING),
    (b'"BACK\\SLA" 1', ESCAPE), (b'"\\x1" 1', ESCAPE), (b'"\\xGG" 1', ESCAPE), (b'"\\', ESCAPE), (b'"\\x4', ESCAPE),
    (b'"" 1', LENGTH.format("0 bytes")), (b'"1" 1', LENGTH.format("1 byte")), (b'"SEVENCH" 1', LENGTH.format("7 bytes")),
    (b'"NINECHARS" 1', LENGTH.format("9 bytes")), ('"\xC4PFEL   " 1'.encode(), LENGTH.format("9 bytes")),
    (b'"UNCLOSED 1', QUOTE), (b'"', QUOTE), (b'"EIGHTCHR', QUOTE), (b'"EIGHTCH\\" 1', QUOTE),
    (b'"EIGHTCHR"1', BLANK), (b'"EIGHTCHR","OTHER" 1', BLANK),
    (b'"EIGHTCHR"', ADDRESS), (b'"EIGHTCHR" ', ADDRESS), (b'"EIGHTCHR" # 1', ADDRESS), (b'"EIGHTCHR"\r', ADDRESS),
    (b'"EIGHTCHR" x', NUMBER), (b'"EIGHTCHR" -1', NUMBER), (b'"EIGHTCHR" 1\x00', NUMBER), (b'"EIGHTCHR" 4294967296', NUMBER),
    (b'"EIGHTCHR" 65536', RANGE.format(65536)), (b'"EIGHTCHR" $FFFFFFFF', RANGE.format(4294967295)),
    (b'"EIGHTCHR" 1 2', BEHIND), (b'"EIGHTCHR" 1 "# late', BEHIND),
)


@test
def a_wrong_line_of_names_is_an_error(desk):
    desk.put("f", P6)
    good = b'"GOODNAME" 1\n# comment\n\n'
    for line, cause in WRONG_LINES:
        for number, text in ((4, good + line), (1, line + b"\n" + good)):
            desk.put("names", text)
            error = desk.trouble("sdx", "f", "--names", "names", "--out", "new", mention=f"names: line {number}: {cause}")
            same(error.count("\n"), 1, f"lines of the error of {line}")
    desk.put("names", b"#" * (1 << 20))
    desk.text(ACCEPTED, "sdx", "f", "--names", "names")
    desk.put("names", b"#" * (1 << 20) + b"\n")
    desk.trouble("sdx", "f", "--names", "names", mention="names: is longer than 1048576 bytes")


@test
def at_most_256_names_are_taken(desk):
    desk.put("f", P6)
    for count, status in ((0, ACCEPTED), (1, ACCEPTED), (256, ACCEPTED), (257, REFUSED), (300, REFUSED)):
        desk.put("names", b"".join(b'"NAME%04d" %d\n' % (i, i) for i in range(count)))
        same(desk.answer(status, "sdx", "f", "--names", "names")["number"], 0 if status == ACCEPTED else 1, f"{count} names")
    # the 256th counts
    desk.put("names", b"".join(b'"NAME%04d" %d\n' % (i, i) for i in range(256)))
    desk.put("f", adjusted_by(b"NAME0255"))
    desk.text(ACCEPTED, "sdx", "f", "--names", "names", "--out", "image", "--fresh")
    same(desk.get("image")[0x600], 255, "the word")
