"""The index of a handler: built from a file, and moved by in place of it."""

import os
import re
import threading

from desk import (ACCEPTED, REFUSED, EXAMPLES, I1, LOADED, MEANINGS, MEMORY, P1, P3, P6, P10, PATTERN, holds, same, test,
                  whose_index_does_not_fit, with_bytes)
from targets import limited

CLOCK, SIGNAL = os.path.join(EXAMPLES, "clock.acx"), os.path.join(EXAMPLES, "signal.acx")


def entry(text):
    """An entry with its length before it, high byte first."""
    content = bytes.fromhex(text)
    return len(content).to_bytes(2, "big") + content


def index_of(file):
    """The index of an ACX file in disk form, as document 02 has it (wish 5)."""
    entries, at = [], 2
    while file[at] != 0x0B:
        kind, length = file[at], file[at + 1]
        body = file[at + 2:at + 2 + length]
        if kind in (0x00, 0x01, 0x0A):
            entries.append(bytes([kind, body[1], body[0], length - 2]))
        elif kind in (0x08, 0x09):
            entries[-1] += b"".join(bytes([kind, body[i], body[i + 1]]) for i in range(0, length, 2))
        else:
            entries[-1] += b"".join(bytes([kind, place, 0]) for place in body)
        at += 2 + length
    flag, low, high = file[at + 1:]
    entries.append(bytes([0x0B, flag, high, low]))
    return b"\x01" + b"".join(len(content).to_bytes(2, "big") + content for content in entries)


@test
def an_index_is_built_and_reported(desk):
    desk.put("f", P1)
    words = ("index", "f", "--form", "device", "--main", "8192")
    report = """\
accepted
start      $2000 (8192)
placed     3 bytes
adjusted   1 field
index      16 bytes
map
  $2000-$2002  loaded     3 bytes, 2 of them adjusted
"""
    same(desk.text(ACCEPTED, *words, "--out", "x", "--map", "map"), report, "report")
    same((desk.get("x"), desk.get("map")), (I1, with_bytes(bytes(MEMORY), (0x2000, b"\x01\x03\x03"))), "the index and the map")
    same(sorted(desk.listing()), ["f", "map", "x"], "files")
    same(desk.text(ACCEPTED, *words, "--out", "x", "--quiet"), "accepted\n", "--quiet")
    same(desk.text(ACCEPTED, *words, "--out", "x", "--ranges").splitlines()[-2:],
         ["  $2000-$2000  placed     1 byte", "  $2001-$2002  adjusted   2 bytes"], "--ranges")
    desk.text(ACCEPTED, *words, "--out", "x", "--picture", "picture")
    desk.text(ACCEPTED, "acx", *words[1:], "--picture", "loaded")
    same(desk.get("picture") == desk.get("loaded"), True, "the picture is that of a load")
    # of the start's address nothing is kept where the file says that there is none
    desk.put("f", P3[:-2] + b"\x34\x12")
    desk.text(ACCEPTED, *words, "--out", "x")
    same(desk.get("x"), b"\x01" + entry("00 00 00 02 08 01 F0") + entry("0B 00 00 00"), "the index of P3's file")


@test
def an_index_is_the_same_from_all_bases(desk):
    for path in (CLOCK, SIGNAL):
        wanted = index_of(open(path, "rb").read())
        for bases in ((), ("--main", "8192"), ("--main", "$FE00", "--zero", "0"), ("--main", "$300", "--zero", "$C0")):
            desk.text(ACCEPTED, "index", path, *bases, "--out", "x")
            same(desk.get("x"), wanted, f"the index of {path} from {bases}")
    desk.put("disk", b"\xF0\xFF" + P1)
    desk.text(ACCEPTED, "index", "disk", "--out", "x")
    same(desk.get("x"), I1, "the index of P1's file in disk form")
    desk.text(ACCEPTED, "index", "-", "--form", "device", "--out", "x", input=P1)
    same(desk.get("x"), I1, "the index of P1's file from standard input")


@test
def json_has_the_length_of_an_index(desk):
    desk.put("f", P1)
    words = ("index", "f", "--form", "device", "--main", "8192", "--zero", "3", "--out", "x")
    answer, load = desk.answer(ACCEPTED, *words), desk.answer(ACCEPTED, "acx", *words[1:-2])
    same((answer["command"], answer["file"], answer["index"]), ("index", "f", None), "what was read")
    same((answer["index_length"], answer["low"]), (16, None), "its length")
    same(answer["settings"], {"form": "device", "main": 8192, "zero": 3}, "settings")
    for member in load:
        if member not in ("command", "index_length"):
            same(answer[member], load[member], f"{member}, beside a load's")
    desk.put("f", P10)
    answer = desk.answer(REFUSED, *words[:-1], "new")
    same((answer["number"], answer["offset"], answer["side"], answer["index_length"]), (13, 10, None, None), "refused")


@test
def an_index_needs_its_file_and_its_target(desk):
    desk.put("f", P1)
    desk.put("image", LOADED)
    for words in (("--form", "device"), ("--map", "map"), ("--json",)):
        desk.trouble("index", "f", *words, mention="index: needs --out, the file that the index goes to (see 'tekoweapa --help')\n")
    desk.trouble("index", "--out", "x", mention="index: FILE is missing")
    desk.trouble("index", "--index", "f", "--out", "x", mention="--index: is not an option of index")
    for words in (("--memory", "image"), ("--dump",), ("--fresh",), ("--to-main", "1")):
        desk.trouble("index", "f", "--out", "x", *words, mention=f"{words[0]}: is not an option of index")
    desk.trouble("index", "f", "--out", "f", mention="f: would replace a file that is read")
    desk.trouble("index", "f", "--out", "x", "--map", "x", mention="x: is named for two outputs")
    desk.trouble("index", "f", "--out", "-", mention="-: can't be written: it stands for standard input")


@test
def a_refusal_leaves_the_index_that_is_there(desk):
    desk.put("there", I1)
    device = ("--form", "device")
    for number, words, content in ((2, ("--main", "65536"), P1), (2, ("--zero", "256"), P1), (3, (), bytes(65537)), (4, (), P1),
                                   (5, (), b""), (13, device, P10), (10, (*device, "--main", "65534"), P1),
                                   (25, (*device, "--main", "0"), whose_index_does_not_fit())):
        desk.put("f", content)
        before = desk.listing()
        for name in ("there", "new"):
            same(desk.answer(REFUSED, "index", "f", *words, "--out", name)["number"], number, f"{number} to {name}")
            same(desk.listing(), before, f"the folder after {number} to {name}")
        # the other outputs are written, as by all commands
        desk.text(REFUSED, "index", "f", *words, "--out", "new", "--map", "map", "--picture", "picture")
        same((sorted(desk.listing()), desk.get("map")), (["f", "map", "picture", "there"], bytes(MEMORY)), f"what {number} leaves")
        os.remove(desk.path("map"))
        os.remove(desk.path("picture"))
    # a target that can't be written is an error, whatever the call would say
    os.chmod(desk.path("there"), 0o444)
    desk.trouble("index", "f", *words, "--out", "there", mention="there: can't be written: it is read-only")


@test
def a_refusal_says_that_no_index_is_written(desk):
    """And what stays: the index that is there, or an empty file. A pipe holds nothing that could."""
    desk.put("there", I1)
    desk.put("empty", b"")
    desk.put("a\nb", I1)
    os.mkfifo(desk.path("pipe"))
    stays = {"there": "; there stays as it was", "empty": "; empty stays as it was", "a\nb": '; "a\\x0Ab" stays as it was', "new": "",
             "pipe": ""}
    device = ("--form", "device")
    for number, words, content, line in (
            (13, device, P10, "  $0000  00 05 00 00 4C 03 00 06 02 01[01]0B 02 00 00     ....L.........."),
            (4, (), P1, "  $0000 [00]05 00 00 4C 03 00 06 01 01 0B 02 00 00        ....L........."),
            (2, ("--main", "65536"), P1, "--main is 65536; 0 to 65535"),
            (3, (), bytes(65537), "the file has more than 65536 bytes"),
            (25, (*device, "--main", "0"), whose_index_does_not_fit(), "the index would have more than 65536 bytes")):
        desk.put("f", content)
        for name, former in stays.items():
            said = desk.text(REFUSED, "index", "f", *words, "--out", name)
            same(said.splitlines()[-2:], [line, f"no index is written{former}"], f"{number} to {name!r}")
            same(desk.text(REFUSED, "index", "f", *words, "--out", name, "--quiet"), f"refused with {number}: {MEANINGS[number]}\n", "--quiet")
    same(said.splitlines()[1:-1], [line], "25 alone")
    # no other command says so, nor does an acceptance
    desk.put("f", P10)
    holds("no index" not in desk.text(REFUSED, "acx", "f", "--form", "device", "--out", "image"), "a load speaks of an index")
    desk.put("f", P1)
    holds("no index" not in desk.text(ACCEPTED, "index", "f", "--form", "device", "--out", "there"), "an acceptance speaks of none")


@test
def the_longest_index_fits(desk):
    """65,536 bytes are 7 for version and end, 6 for each code record and 3 for each field."""
    def handler(pieces):
        return b"".join(b"\x00" + bytes([2 + size]) + (number * 253).to_bytes(2, "little") + bytes(size)
                        + (b"\x02" + bytes([fields]) + bytes(range(fields)) if fields else b"")
                        for number, (size, fields) in enumerate(pieces)) + bytes.fromhex("0B 02 00 00")
    longest = [(253, 253)] * 85 + [(253, 164), (0, 0)]
    for pieces, number in ((longest, 0), (longest + [(0, 0)], 25), (longest[:-1] + [(2, 1)], 25)):
        desk.put("f", handler(pieces))
        answer = desk.answer(REFUSED if number else ACCEPTED, "index", "f", "--form", "device", "--main", "0", "--out", "x")
        same((answer["number"], answer["index_length"]), (number, None if number else MEMORY), f"{len(pieces)} pieces")
    desk.text(ACCEPTED, "acx", "f", "--form", "device", "--main", "0", "--out", "image")
    same(len(desk.get("x")), MEMORY, "bytes of the index")
    same(desk.answer(ACCEPTED, "move", "--index", "x", "--memory", "image", "--from-main", "0", "--to-main", "256")["adjusted"],
         85 * 253 + 164, "fields moved by it")


@test
def an_index_replaces_an_index_alone(desk):
    desk.put("f", P1)
    words = ("index", "f", "--form", "device", "--out", "there")
    end, piece = entry("0B 00 00 00"), entry("00 00 00 03 06 01 00")
    own = (I1, b"\x01" + end, b"\x01" + piece + piece + entry("0A 00 00 FD") + entry("0B 02 12 34"), index_of(open(CLOCK, "rb").read()),
           b"\x01" + piece * 7281 + end, b"")
    for content in own:
        desk.put("there", content)
        desk.text(ACCEPTED, *words)
        same(desk.get("there"), I1, f"what replaced {content[:9]}")
    marks = bytes([1]) + bytes(range(4)) * (MEMORY // 4)
    others = (PATTERN, LOADED, marks[:MEMORY], marks, P1, b"\xF0\xFF" + P1, P6, b"text", b"P6\nold", b"\x89PNG\r\n\x1A\nold", b"\0", b"\1",
              b"\1\0", b"\2" + end, b"\1" + piece, b"\1" + end + b"\0", b"\1" + end + end, I1[:-1], I1[:-6], b"\1" + bytes(2) + end,
              b"\1" + entry("02 00 00 00") + end, b"\1" + entry("00 00 00 FE") + end, b"\1" + entry("00 00 00") + end,
              b"\1" + entry("00 00 00 03 06") + end, b"\1" + entry("00 00 00 03 0A 00 00") + end,
              b"\1" + entry("00 00 00 03 01 00 00") + end, b"\1" + entry("0B 03 00 00"), b"\1" + entry("0B 00 00"), b"\1" + entry("0B"),
              b"\1" + piece * 7282 + end)
    for content in others:
        desk.put("there", content)
        desk.trouble(*words, mention="there: is there already and is no index; remove it, or give another name")
    # nor does anything else replace an index
    desk.put("there", I1)
    desk.put("image", LOADED)
    for command, *more in (("acx", "f", "--form", "device"), ("move", "f", "--memory", "image", "--to-main", "1")):
        for name, kind in (("--out", "image"), ("--map", "map"), ("--picture", "picture")):
            desk.trouble(command, *more, name, "there", mention=f"there: is there already and is no {kind}")


@test
def an_index_is_written_whole_or_not_at_all(desk):
    """Beside its map, which is longer: that no longer fits on a disk that is full by then."""
    desk.put("f", P1)
    desk.put("old", index_of(open(CLOCK, "rb").read()))
    words = ("index", "f", "--form", "device")
    for name in ("old", "new"):
        desk.trouble(*words, "--out", name, mention=f"{name}: can't be written", preexec_fn=limited(15))
        desk.trouble(*words, "--out", name, "--map", "map", mention="map: can't be written", preexec_fn=limited(16))
    os.symlink("old", desk.path("link"))
    desk.text(ACCEPTED, *words, "--out", "link")
    same((desk.get("old"), os.path.islink(desk.path("link"))), (I1, True), "the index behind a link")
    os.mkfifo(desk.path("fifo"))
    got = []
    reader = threading.Thread(daemon=True, target=lambda: got.append(desk.drain("fifo")))
    reader.start()
    desk.text(ACCEPTED, *words, "--out", "fifo")
    reader.join(20)
    same(got, [I1], "what came through the FIFO")


MOVE = ("--memory", "image", "--from-main", "8192", "--to-main", "$3000")


@test
def a_move_by_an_index_is_reported(desk):
    desk.put("x", I1)
    desk.put("image", with_bytes(LOADED, (0x2001, b"\x07\x21")))
    report = """\
accepted
moved      $2000 to $3000, zero page $80 to $80
start      $3000 (12288)
placed     3 bytes
adjusted   1 field
map
  $3000-$3002  loaded     3 bytes, 2 of them adjusted
"""
    same(desk.text(ACCEPTED, "move", "--index", "x", *MOVE, "--out", "after", "--map", "map"), report, "report")
    same(desk.get("after"), with_bytes(desk.get("image"), (0x3000, b"\x4C\x07\x31")), "the image")
    same(desk.get("map"), with_bytes(bytes(MEMORY), (0x3000, b"\x01\x03\x03")), "the map")
    lines = report.splitlines()
    same(desk.text(ACCEPTED, "move", *MOVE, "--index=x").splitlines(), lines[:2] + ["stored     nowhere: there is no --out"] + lines[2:],
         "report without --out")
    same(desk.text(ACCEPTED, "move", "--index", "x", *MOVE, "--quiet"), "accepted\n", "--quiet")
    answer = desk.answer(ACCEPTED, "move", "--index", "x", *MOVE)
    same((answer["command"], answer["file"], answer["index"], answer["index_length"]), ("move", None, "x", None), "what was read, in JSON")
    same(answer["settings"], {"from_main": 8192, "from_zero": 128, "to_main": 0x3000, "to_zero": 128}, "settings in JSON")


@test
def a_move_by_an_index_leaves_what_one_by_its_file_leaves(desk):
    """From place to place, with counters that change, and a vector; by the index and by the file, in turn."""
    places = [(0x2000, 0x80), (0x30F5, 0xA0), (0x3100, 0xA3), (0xFEEE, 0xEF), (0x0300, 0xC0)]
    for path, live in ((CLOCK, lambda main, zero: (zero, main + 0x100)), (SIGNAL, lambda main, zero: (0x200,))):
        desk.text(ACCEPTED, "index", path, "--out", "x")
        desk.put("image", PATTERN)
        desk.text(ACCEPTED, "acx", path, "--memory", "image", "--main", "8192", "--out", "image")
        for (main, zero), (to_main, to_zero) in zip(places, places[1:]):
            desk.put("image", with_bytes(desk.get("image"), *((address, bytes([main >> 8, zero])) for address in live(main, zero))))
            bases = ("--from-main", str(main), "--from-zero", str(zero), "--to-main", str(to_main), "--to-zero", str(to_zero))
            for more in (("--dump",), ("--ranges",), ("--quiet",)):
                reports = [desk.text(ACCEPTED, "move", *source, "--memory", "image", *bases, "--out", f"{name}.img", "--map", f"{name}.map",
                                     "--picture", f"{name}.png", *more) for name, source in (("file", (path,)), ("index", ("--index", "x")))]
                same(reports[1], reports[0], f"the report with {more}")
            for kind in ("img", "map", "png"):
                same(desk.get(f"index.{kind}") == desk.get(f"file.{kind}"), True, f"the {kind} after the move of {path} to {to_main}")
            os.replace(desk.path("index.img"), desk.path("image"))


@test
def an_index_stands_in_place_of_the_file(desk):
    desk.put("f", P1)
    desk.put("x", I1)
    desk.put("image", LOADED)
    desk.trouble("move", *MOVE, mention="move: FILE or --index is missing")
    for words in (("f", "--index", "x"), ("--index", "x", "f"), ("--index", "x", "--", "f"), ("--index", "x", "-")):
        desk.trouble("move", *MOVE, *words, mention="--index: cannot go with FILE")
    for form in ("disk", "device"):
        desk.trouble("move", "--index", "x", "--form", form, *MOVE, mention="--form: cannot go with --index")
    desk.trouble("move", "--index", "x", "--to-main", "1", mention="move: needs --memory")
    desk.trouble("move", "--index", "x", "--memory", "image", mention="move: needs --to-main or --to-zero")
    for command in ("sdx", "acx"):
        desk.trouble(command, "--index", "x", mention=f"--index: is not an option of {command}")
    for name in ("--out", "--map", "--picture"):
        desk.trouble("move", "--index", "x", *MOVE, name, "x", mention="x: would replace a file that is read")


@test
def an_index_may_come_from_standard_input(desk):
    desk.put("x", I1)
    desk.put("image", LOADED)
    desk.text(ACCEPTED, "move", "--index", "-", *MOVE, "--out", "after", input=I1)
    same(desk.get("after"), with_bytes(LOADED, (0x3000, b"\x4C\x03\x30")), "the image")
    same(desk.answer(ACCEPTED, "move", "--index", "-", *MOVE, input=I1)["index"], "-", "index in JSON")
    desk.trouble("move", "--index", "-", "--memory", "-", "--to-main", "1", mention="--index from standard input: cannot go with --memory",
                 input=LOADED)
    with open(desk.path("x"), "rb") as file:
        desk.trouble("move", "--index", "-", *MOVE, "--map", "x", mention="would replace", stdin=file)


@test
def a_move_by_an_index_has_no_code_to_warn_by(desk):
    """By its file there are a warning where the handler is not, a line where a copy was, and a warning where it was moved already."""
    desk.text(ACCEPTED, "index", SIGNAL, "--out", "x")
    desk.text(ACCEPTED, "acx", SIGNAL, "--main", "8192", "--out", "image")
    for bases, warning, copy in ((("--from-main", "8192", "--to-main", "$3000"), None, False),
                                 (("--from-main", "8192", "--to-main", "$3000"), "seems to have been moved already", True),
                                 (("--from-main", "$4000", "--to-main", "$6000"), "does not seem to be at $4000", False)):
        by_file = desk.text(ACCEPTED, "move", SIGNAL, "--memory", "image", "--out", "file", *bases, warning=warning)
        by_index = desk.text(ACCEPTED, "move", "--index", "x", "--memory", "image", "--out", "image", *bases)
        same("\nreplaced " in by_file, copy, f"a copy replaced, by the file, {bases}")
        same(by_index, re.sub("\nreplaced .*", "", by_file), f"the report by the index, {bases}")
        same(desk.get("image") == desk.get("file"), True, f"the image, {bases}")


PIECE, END = entry("00 00 00 03"), entry("0B 00 00 00")
REFUSED_INDEXES = (
    (5, b"", 0), (24, b"\x00", 0), (24, b"\x02" + PIECE + END, 0),
    (5, b"\x01", 1), (5, b"\x01\x00", 1), (5, b"\x01" + PIECE[:-1], 1), (5, b"\x01" + PIECE, 7), (5, b"\x01" + PIECE + END[:-1], 7),
    (9, b"\x01\x00\x00" + END, 1), (6, b"\x01" + PIECE + entry("06"), 7), (6, b"\x01" + PIECE + entry("0C 00 00 00"), 7),
    (9, b"\x01" + entry("00 00 00") + END, 1), (9, b"\x01" + PIECE + entry("01 30 00 03 06 01") + END, 7),
    (9, b"\x01" + PIECE + entry("01 30 00 FE") + END, 7), (9, b"\x01" + PIECE + entry("0B 00 00"), 7),
    (6, b"\x01" + PIECE + entry("0B 03 00 00"), 7), (10, b"\x01" + PIECE + entry("0A 00 F0 20") + END, 7),
    (17, b"\x01" + PIECE + entry("01 20 02 01") + END, 7), (18, b"\x01" + PIECE + entry("00 01 00 03 02 00 00 07 01 00") + END, 7),
    (18, b"\x01" + PIECE + entry("0A 00 00 03 0A 00 00") + END, 7), (12, b"\x01" + entry("00 00 00 03 06 02 00") + END, 1),
    (13, b"\x01" + entry("00 00 00 03 06 00 00 02 01 00") + END, 1), (20, b"\x01" + PIECE + entry("0B 02 FF 00"), 7),
    (19, b"\x01" + PIECE + END + b"\x00", 7), (19, b"\x01" + PIECE + END + END, 7),
)


@test
def a_refusal_by_an_index_shows_its_entry(desk):
    desk.put("image", PATTERN)
    for number, content, offset in REFUSED_INDEXES:
        desk.put("x", content)
        words = ("move", "--index", "x", *MOVE)
        answer = desk.answer(REFUSED, *words, "--out", "after", "--map", "map")
        same((answer["number"], answer["meaning"], answer["offset"], answer["side"]), (number, MEANINGS[number], offset, 0),
             f"answer on {content.hex()}")
        same((desk.get("after") == PATTERN, desk.get("map") == bytes(MEMORY)), (True, True), f"image and map after {content.hex()}")
        lines = desk.text(REFUSED, *words).splitlines()
        # another version, and an entry that is missing altogether, have no entry to be in
        at = "at offset" if number == 24 or offset == len(content) else "in the entry at offset"
        same(lines[:2], [f"refused with {number}: {MEANINGS[number]}",
                         f"{at} {offset} (${offset:04X}) of {len(content)} (side: old bases)"], f"report on {content.hex()}")
        marked = "[end]" if offset == len(content) else f"[{content[offset]:02X}]"
        same((lines[2].count("["), marked in lines[2], lines[2][:7]), (1, True, "  $0000"), f"the row of {content.hex()}: {lines[2]!r}")
    same(desk.text(REFUSED, "move", "--index", "x", *MOVE), """\
refused with 19: bytes after the end record
in the entry at offset 7 ($0007) of 19 (side: old bases)
  $0000  01 00 04 00 00 00 03[00]04 0B 00 00 00 00 04 0B  ................
  $0010  00 00 00                                         ...
""", "report")


@test
def a_refusal_of_a_call_by_an_index_says_what_is_wrong(desk):
    desk.put("x", I1)
    desk.put("image", LOADED)
    words = ("move", "--index", "x", "--memory", "image")
    for more, side, line in ((("--to-main", "65536"), 1, "--to-main is 65536; 0 to 65535"),
                             (("--from-main", "65536", "--to-main", "1"), 0, "--from-main is 65536; 0 to 65535"),
                             (("--to-zero", "256"), 1, "--to-zero is 256; 0 to 255")):
        same(desk.text(REFUSED, *words, *more).splitlines(), [f"refused with 2: {MEANINGS[2]}", line], f"report with {more}")
        same(desk.answer(REFUSED, *words, *more)["side"], side, f"side with {more}")
    same(desk.text(REFUSED, *words, "--to-main", "65534").splitlines()[:2],
         ["refused with 10: doesn't fit", "in the entry at offset 1 ($0001) of 16 (side: new bases)"], "the side of the new bases")
    for length in (65537, 200000):
        desk.put("x", I1 + bytes(length - len(I1)))
        same(desk.text(REFUSED, *words, "--to-main", "1").splitlines(),
             [f"refused with 3: {MEANINGS[3]}", "the index has more than 65536 bytes"], f"{length} bytes")
    desk.put("x", I1 + bytes(65536 - len(I1)))
    same(desk.answer(REFUSED, *words, "--to-main", "1")["number"], 19, "65536 bytes")


@test
def a_file_and_an_index_in_each_others_place_say_so(desk):
    desk.put("image", LOADED)
    move = ("--memory", "image", "--to-main", "1")
    is_index = "it is a fixup index: 'tekoweapa move --index' was meant?"
    many_fields = entry("00 00 00 FD" + "".join(f"02 {place:02X} 00" for place in range(253)))
    for content in (I1, index_of(open(CLOCK, "rb").read()), b"\x01" + many_fields + END):
        desk.put("f", content)
        for words in (("sdx", "f"), ("acx", "f"), ("acx", "f", "--form", "device"), ("index", "f", "--out", "x"), ("move", "f", *move),
                      ("move", "f", "--form", "device", *move)):
            same(desk.text(REFUSED, *words).splitlines()[2], is_index, f"{words} on {content[:9].hex()}")
    # a setting out of its range is no fault of the file
    same(desk.text(REFUSED, "acx", "f", "--zero", "256").splitlines()[1:], ["--zero is 256; 0 to 255"], "a setting")
    desk.put("disk", b"\xF0\xFF" + P1)
    same(desk.text(REFUSED, "move", "--index", "disk", *move).splitlines()[2],
         "it opens F0 FF, as an ACX handler does: FILE was meant, without --index?", "disk form")
    desk.put("device", P1)
    same(desk.text(REFUSED, "move", "--index", "device", *move).splitlines()[2],
         "it opens as an ACX handler in device form may: FILE was meant, with '--form device' and without --index?", "device form")
    for content in (open(os.path.join(EXAMPLES, "score.sdx"), "rb").read(), P6, b"\xFA\xFF", b"\xFF\xFF" + bytes(9)):
        desk.put("f", content)
        same(desk.text(REFUSED, "move", "--index", "f", *move).splitlines()[:3],
             ["refused with 24: another version of the index", f"at offset 0 ($0000) of {len(content)} (side: old bases)",
              "it opens as an SDX program does, and is no index"], f"an SDX program, {content[:9].hex()}")
    # no guess where there is nothing to go by
    for content in (b"\x00", b"\x00\x00", P6, b"\x02" + I1[1:], PATTERN, bytes(MEMORY), b"\xF0", I1[:-1], b""):
        desk.put("f", content)
        by_index = desk.text(REFUSED, "move", "--index", "f", *move)
        holds("was meant" not in by_index, f"a guess by --index at {content[:9].hex()}")
        holds("opens as" not in by_index or content == P6, f"an opening seen by --index in {content[:9].hex()}")
        holds("index" not in desk.text(REFUSED, "acx", "f", "--form", "device"), f"a guess at an index by {content[:9].hex()}")


@test
def every_cut_of_an_index_is_refused(desk):
    """With 5, at the entry that is cut, or at the end where one should begin."""
    index = index_of(open(CLOCK, "rb").read())
    begins, at = [], 1
    while at < len(index):
        begins.append(at)
        at += 2 + int.from_bytes(index[at:at + 2], "big")
    desk.put("before", PATTERN)
    for length in range(len(index)):
        desk.put("x", index[:length])
        answer = desk.answer(REFUSED, "move", "--index", "x", "--memory", "before", "--to-main", "9000", "--out", "after")
        at = max([begin for begin in begins if begin <= length], default=0)
        same((answer["number"], answer["offset"], desk.get("after") == PATTERN), (5, at, True), f"cut to {length}")


@test
def a_damaged_index_ends_with_an_answer(desk):
    index = index_of(open(CLOCK, "rb").read())
    desk.put("before", PATTERN)
    numbers = set()
    for at in range(len(index)):
        desk.put("x", index[:at] + bytes([index[at] ^ 0xFF]) + index[at + 1:])
        done = desk.run("move", "--index", "x", "--memory", "before", "--to-main", "9000", "--quiet")
        holds(done.returncode in (ACCEPTED, REFUSED) and done.stderr == b"", f"byte {at} damaged: {done.returncode} {done.stderr}")
        numbers.add(done.stdout.split(b":")[0])
    holds(len(numbers) >= 6, f"only {numbers}")
