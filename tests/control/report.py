"""What is printed, in words and as JSON."""

import os
import re

from desk import (ACCEPTED, REFUSED, EXAMPLES, LOADED, MEANINGS, MEMORY, P1, P3, P6, P9, P10, PATTERN, ROOT, holds, same, test,
                  whose_index_does_not_fit, with_bytes)


def row(address, content, marked=-1):
    """A row of bytes as it is printed: its address, the bytes, with brackets around a marked one or the end, and what is text."""
    bytes_shown = "".join(("[" if i == marked else "]" if i == marked + 1 > 0 else " ") + f"{byte:02X}" for i, byte in enumerate(content))
    bytes_shown += "[end]" if marked == len(content) < 16 else "]" if marked == len(content) - 1 else ""
    return f"  ${address:04X} {bytes_shown:50}" + "".join(chr(byte) if 0x20 <= byte <= 0x7E else "." for byte in content)


@test
def an_acx_load_is_reported(desk):
    desk.put("f", P1)
    same(desk.text(ACCEPTED, "acx", "f", "--form", "device", "--main", "8192", "--dump"), """\
accepted
start      $2000 (8192)
placed     3 bytes
adjusted   1 field
map
  $2000-$2002  loaded     3 bytes, 2 of them adjusted
dump
  $2000  4C 03 20                                         L.\x20
""", "report")


@test
def a_move_is_reported(desk):
    desk.put("f", P1)
    desk.put("image", LOADED)
    words = ("move", "f", "--form", "device", "--memory", "image", "--from-main", "8192", "--to-main", "$3000")
    report = """\
accepted
moved      $2000 to $3000, zero page $80 to $80
start      $3000 (12288)
placed     3 bytes
adjusted   1 field
map
  $3000-$3002  loaded     3 bytes, 2 of them adjusted
"""
    same(desk.text(ACCEPTED, *words, "--out", "image"), report, "report")
    lines = report.splitlines()
    same(desk.text(ACCEPTED, *words, "--out", "image").splitlines(),
         lines[:2] + ["replaced   a copy of the handler that was at the new bases"] + lines[2:], "report of the same move again")
    same(desk.text(ACCEPTED, *words[:-1], "$4000").splitlines()[2], "stored     nowhere: there is no --out", "third line without --out")


@test
def a_copy_at_the_new_bases_is_one_outside_the_old_places(desk):
    clock = f"{EXAMPLES}/clock.acx"
    replaced = lambda *words: "\nreplaced " in desk.text(ACCEPTED, "move", clock, "--memory", "image", "--out", "image", *words)
    for before in (bytes(MEMORY), PATTERN):
        desk.put("image", before)
        desk.text(ACCEPTED, "acx", clock, "--memory", "image", "--main", "8192", "--out", "image")
        bases = (("$2000", "$80"), ("$2010", "$80"), ("$2010", "$90"), ("$5000", "$C0"))
        for (main, zero), (to_main, to_zero) in zip(bases, bases[1:]):
            holds(not replaced("--from-main", main, "--from-zero", zero, "--to-main", to_main, "--to-zero", to_zero), f"copy at {to_main}")
        # back to where it was before: what it left there is a copy
        holds(replaced("--from-main", "$5000", "--from-zero", "$C0", "--to-main", "$2010", "--to-zero", "$90"), "no copy where it was")


@test
def a_copy_has_most_of_the_code(desk):
    desk.put("f", bytes.fromhex("00 06 00 00 11 22 33 44 0B 00 00 00"))
    for there, copy in (("11 22 33 44", True), ("11 22 33 99", True), ("11 22 99 99", False), ("99 99 99 99", False)):
        desk.put("image", with_bytes(PATTERN, (0x2000, bytes.fromhex("11 22 33 44")), (0x3000, bytes.fromhex(there))))
        text = desk.text(ACCEPTED, "move", "f", "--form", "device", "--memory", "image", "--from-main", "8192", "--to-main", "$3000")
        same("\nreplaced " in text, copy, f"a copy where {there} is")


@test
def an_absent_start_is_none(desk):
    desk.put("f", P3)
    same(desk.text(ACCEPTED, "acx", "f", "--form", "device").splitlines()[1], "start      none", "start")
    same(desk.answer(ACCEPTED, "acx", "f", "--form", "device")["start"], None, "start in JSON")
    # a start at address 0 is one
    desk.put("g", bytes.fromhex("0B 01 00 00"))
    same(desk.text(ACCEPTED, "acx", "g", "--form", "device"),
         "accepted\nstart      $0000 (0)\nplaced     0 bytes\nadjusted   0 fields\nmap\n", "report")
    same(desk.answer(ACCEPTED, "acx", "g", "--form", "device")["start"], 0, "start 0 in JSON")


@test
def an_sdx_load_is_reported(desk):
    new_name = bytes.fromhex("FC FF 01 02 10") + b'A"\\ \x00\x9B~\x7F'
    desk.put("f", P6 + bytes.fromhex("FE FF 02 80 00 20 04 00 FA FF E0 02 E1 02 34 12") + new_name)
    same(desk.text(ACCEPTED, "sdx", "f", "--dump"), """\
accepted
start      $1234 (4660)
placed     5 bytes
adjusted   1 field
new names  1
  "A\\"\\\\ \\x00\\x9B~\\x7F"  $1F02
low        $1F07 (7943)
map
  $02E0-$02E1  loaded     2 bytes
  $1F00-$1F02  loaded     3 bytes, 2 of them adjusted
  $1F03-$1F06  reserved   4 bytes
dump
  $02E0  34 12                                            4.
  $1F00  4C 00 1F                                         L..
""", "report")


@test
def a_dump_has_rows_of_sixteen_from_where_a_range_begins(desk):
    desk.put("f", bytes.fromhex("FF FF FE 1F 10 20") + bytes(range(0x41, 0x41 + 19)) + bytes.fromhex("FF FF FF FF FF FF 7A"))
    same(desk.text(ACCEPTED, "sdx", "f", "--dump").split("dump\n")[1], """\
  $1FFE  41 42 43 44 45 46 47 48 49 4A 4B 4C 4D 4E 4F 50  ABCDEFGHIJKLMNOP
  $200E  51 52 53                                         QRS
  $FFFF  7A                                               z
""", "dump")


@test
def a_new_name_can_be_lent_as_it_is_printed(desk):
    name = b'"\\\x00\xFF #\t"'
    desk.put("f", P6 + bytes.fromhex("FC FF 01 01 10") + name)
    line = desk.text(ACCEPTED, "sdx", "f").splitlines()[5]
    desk.put("names", line.encode("ascii"))
    desk.put("user", bytes.fromhex("FF FF 00 06 01 06 01 00 FB FF") + name + bytes.fromhex("00 00 FD 00 06 FC"))
    desk.text(ACCEPTED, "sdx", "user", "--names", "names", "--out", "image")
    same(desk.get("image")[0x600:0x602], bytes.fromhex("02 1F"), "the word")


@test
def a_refusal_shows_the_place(desk):
    desk.put("f", P9)
    desk.put("image", LOADED)
    same(desk.text(REFUSED, "acx", "f", "--form", "device", "--dump"), """\
refused with 12: field not loaded
at offset 9 ($0009) of 14
  $0000  00 05 00 00 4C 03 00 06 01[02]0B 02 00 00        ....L.........
""", "report")
    same(desk.text(REFUSED, "move", "f", "--form", "device", "--memory", "image", "--to-main", "1").splitlines()[1],
         "at offset 9 ($0009) of 14 (side: old bases)", "side")


@test
def the_side_of_a_refused_move_is_shown(desk):
    desk.put("f", P1)
    desk.put("image", LOADED)
    for option, other, side, number in (("--to-main", "--from-main", "new", 1), ("--from-main", "--to-main", "old", 0)):
        words = ("move", "f", "--form", "device", "--memory", "image", option, "65534", other, "8192")
        same(desk.text(REFUSED, *words).splitlines()[:2],
             ["refused with 10: doesn't fit", f"at offset 2 ($0002) of 14 (side: {side} bases)"], f"{side} side")
        same(desk.answer(REFUSED, *words)["side"], number, f"{side} side in JSON")


@test
def the_end_of_a_file_is_a_place(desk):
    desk.put("f", b"")
    same(desk.text(REFUSED, "sdx", "f"), "refused with 5: cut short\nat offset 0 ($0000) of 0\n  $0000 [end]\n", "empty")
    desk.put("f", P1[:10])
    same(desk.text(REFUSED, "acx", "f", "--form", "device").splitlines()[1:],
         ["at offset 10 ($000A) of 10", row(0, P1[:10], 10)], "end in a row")
    desk.put("f", bytes.fromhex("00 0D 00 00") + bytes(11))
    same(desk.text(REFUSED, "acx", "f", "--form", "device").splitlines()[2], row(0, desk.get("f"), 15), "end in the last place of a row")
    desk.put("f", bytes.fromhex("00 0E 00 00") + bytes(12))
    same(desk.text(REFUSED, "acx", "f", "--form", "device").splitlines()[1:],
         ["at offset 16 ($0010) of 16", row(0, desk.get("f")), "  $0010 [end]"], "end after a full row")


def refused_at(offset, after):
    """An ACX file in device form with a record of an unknown type at this offset and so many bytes after it."""
    return bytes([0x01, offset - 2, 0x00, 0x20]) + bytes(offset - 4) + b"\xEE" + bytes(after)


@test
def the_place_is_marked_in_its_row(desk):
    for offset, after, rows in ((15, 20, (0, 16)), (16, 3, (0, 16)), (40, 40, (16, 32, 48)), (40, 0, (16, 32))):
        file = refused_at(offset, after)
        desk.put("f", file)
        same(desk.text(REFUSED, "acx", "f", "--form", "device").splitlines()[1:],
             [f"at offset {offset} (${offset:04X}) of {len(file)}"] + [row(at, file[at:at + 16], offset - at) for at in rows],
             f"offset {offset} of {len(file)}")


@test
def json_has_all_members_in_order(desk):
    (version,) = re.findall(r'#define TKW_VERSION "([^"]*)"', open(f"{ROOT}/include/tekoweapa.h", encoding="utf-8").read())
    opening = f'{{"version":"{version}","command":"acx","file":"f","index":null,"settings":{{"form":"device","main":8192,"zero":128}},'
    words = ("acx", "f", "--form", "device", "--main", "8192", "--json")
    desk.put("f", P1)
    same(desk.text(ACCEPTED, *words),
         opening + '"number":0,"meaning":"accepted","offset":null,"side":null,"start":8192,"init":null,"placed":3,"adjusted":1,'
         '"new_names":[],"low":null,"index_length":null,"ranges":[{"from":8192,"to":8192,"mark":1,"meaning":"placed","length":1},'
         '{"from":8193,"to":8194,"mark":3,"meaning":"adjusted","length":2}]}\n', "acceptance")
    desk.put("f", P9)
    same(desk.text(REFUSED, *words),
         opening + '"number":12,"meaning":"field not loaded","offset":9,"side":null,"start":null,"init":null,"placed":null,"adjusted":null,'
         '"new_names":[],"low":null,"index_length":null,"ranges":[]}\n', "refusal")


@test
def json_has_command_file_and_settings(desk):
    desk.put("f", P1)
    desk.put("s", P6)
    desk.put("image", LOADED)
    answer = desk.answer(ACCEPTED, "sdx", "s", "--low", "$2000", "--high", "$3000")
    same((answer["command"], answer["file"], answer["settings"]), ("sdx", "s", {"low": 0x2000, "high": 0x3000}), "sdx")
    answer = desk.answer(ACCEPTED, "move", "f", "--form", "device", "--memory", "image", "--from-main", "8192", "--to-zero", "3")
    same((answer["command"], answer["settings"]),
         ("move", {"form": "device", "from_main": 8192, "from_zero": 128, "to_main": 8192, "to_zero": 3}), "move")
    same((answer["offset"], answer["side"], answer["low"]), (None, None, None), "absent numbers of a move")
    answer = desk.answer(REFUSED, "acx", "f", "--main", "70000")
    same((answer["settings"], answer["offset"]), ({"form": "disk", "main": 70000, "zero": 128}, 0), "acx")
    for name in ('a "quoted" \\ one', "\xE4\u20AC\U0001F600", "line\nbreak\x1F\x7F"):
        desk.put(name, P1)
        same(desk.answer(ACCEPTED, "acx", name, "--form", "device")["file"], name, "file")
    desk.put(b"\xFF\xE4x", P1)
    same(desk.answer(ACCEPTED, "acx", b"\xFF\xE4x", "--form", "device")["file"], "\xFF\xE4x", "a file whose name is no text")


@test
def json_has_the_names_of_an_sdx_load(desk):
    first, second = b'A"\\/\x00\x9B~\x7F', b"SECOND  "
    desk.put("f", P6 + bytes.fromhex("FC FF 01 00 10") + first + bytes.fromhex("FC FF 01 02 10") + second)
    answer = desk.answer(ACCEPTED, "sdx", "f", "--low", "0x2000", "--high", "0x2003")
    same(answer["new_names"], [{"name": first.decode("latin-1"), "address": 0x2000}, {"name": "SECOND  ", "address": 0x2002}], "names")
    same((answer["low"], answer["start"], answer["placed"], answer["adjusted"]), (0x2003, None, 3, 1), "numbers")
    holds("\\u009B" in desk.text(ACCEPTED, "sdx", "f", "--json"), "a byte above 7E is not escaped")


@test
def ranges_cover_the_map(desk):
    """The ranges of an example, laid out again, are its map; no two that touch have one mark."""
    for words in (("acx", os.path.join(EXAMPLES, "clock.acx")),
                  ("sdx", os.path.join(EXAMPLES, "score.sdx"), "--names", os.path.join(EXAMPLES, "names.txt"))):
        answer = desk.answer(ACCEPTED, *words, "--map", "map")
        laid, last = bytearray(MEMORY), (-2, 0)
        for piece in answer["ranges"]:
            holds(piece["length"] == piece["to"] - piece["from"] + 1 > 0, f"length of {piece}")
            holds(piece["from"] > last[0] and (piece["from"], piece["mark"]) != (last[0] + 1, last[1]), f"order of {piece}")
            same(piece["meaning"], ["untouched", "placed", "reserved", "adjusted"][piece["mark"]], "meaning")
            laid[piece["from"]:piece["to"] + 1] = bytes([piece["mark"]]) * piece["length"]
            last = (piece["to"], piece["mark"])
        same(bytes(laid), desk.get("map"), "the map")
        shown = re.findall(r"^  \$(\w+)-\$(\w+)  (\w+) +(\d+) bytes?$", desk.text(ACCEPTED, *words, "--ranges"), re.M)
        same([(int(a, 16), int(b, 16), mark, int(n)) for a, b, mark, n in shown],
             [(p["from"], p["to"], p["meaning"], p["length"]) for p in answer["ranges"]], "the ranges in words")


def files_for_every_refusal():
    """For each number, a command line before the file's name, the file's bytes, and the offset."""
    block = bytes.fromhex("FE FF 01 00 00 10 02 00 00 00")
    new_name = bytes.fromhex("FC FF 01 00 10") + b"NEWNAMES"
    device = ["--form", "device"]
    return {
        1: (["sdx", "--names", "long"], P6, 0),
        2: (["acx", "--main", "65536"], P1, 0),
        3: (["acx"], bytes(65537), 0),
        4: (["sdx"], bytes(20), 0),
        5: (["sdx"], P6[:-1], 19),
        6: (["acx", *device], b"\x0C", 0),
        7: (["sdx"], block + block, 12),
        8: (["sdx"], bytes.fromhex("FD FF 01 00 00 FC"), 2),
        9: (["acx", *device], bytes.fromhex("00 01 00"), 1),
        10: (["sdx", "--low", "8", "--high", "9"], block, 6),
        11: (["sdx"], block + bytes.fromhex("FD FF 01 00 00 00 FC"), 15),
        12: (["acx", *device], P9, 9),
        13: (["acx", *device], P10, 10),
        14: (["sdx"], block + b"\xFB\xFFUNKNOWN!\x00\x00\xFC", 12),
        15: (["sdx"], block + new_name * 33, 10 + 32 * len(new_name) + 5),
        16: (["sdx"], block + bytes.fromhex("FC FF 01 02 10") + b"NEWNAMES", 13),
        17: (["acx", *device], bytes.fromhex("01 03 00 20 00 01 03 00 20 00"), 7),
        18: (["acx", *device], bytes.fromhex("01 03 00 20 00 07 01 00"), 5),
        19: (["acx", *device], bytes.fromhex("0B 00 00 00 00"), 4),
        20: (["acx", *device], bytes.fromhex("0B 02 00 FF"), 2),
        24: (["move", "--memory", "image", "--to-main", "1", "--index"], bytes.fromhex("02 00 04 0B 00 00 00"), 0),
        25: (["index", *device, "--main", "0", "--out", "new"], whose_index_does_not_fit(), 0),
    }


@test
def every_refusal_has_its_number_and_meaning(desk):
    desk.put("long", b"".join(b'"NAME%04d" 1\n' % i for i in range(257)))
    desk.put("image", PATTERN)
    refusals = files_for_every_refusal()
    same(sorted(refusals), sorted(MEANINGS), "numbers")
    for number, (words, content, offset) in refusals.items():
        desk.put("f", content)
        side = 0 if words[0] == "move" else None
        answer = desk.answer(REFUSED, *words, "f")
        same((answer["number"], answer["meaning"], answer["offset"], answer["side"]), (number, MEANINGS[number], offset, side),
             f"refusal {number}")
        same((answer["start"], answer["init"], answer["placed"], answer["adjusted"], answer["new_names"], answer["low"],
              answer["index_length"], answer["ranges"]), (None, None, None, None, [], None, None, []), f"the rest of refusal {number}")
        lines = desk.text(REFUSED, *words, "f").splitlines()
        same(lines[0], f"refused with {number}: {MEANINGS[number]}", "first line")
        same(desk.text(REFUSED, *words, "f", "--quiet"), lines[0] + "\n", "--quiet")
        rows = "\n".join(line for line in lines if line.startswith("  $"))
        if number in (1, 2, 3, 25):
            # by the command index there is a line more, that none is written
            same((rows, len(lines)), ("", 3 if number == 25 else 2), f"rows of refusal {number}")
            continue
        same(lines[1], f"at offset {offset} (${offset:04X}) of {len(content)}" + (" (side: old bases)" if side == 0 else ""), "second line")
        marked = "end" if offset == len(content) else f"{content[offset]:02X}"
        same(len(re.findall(r"\[" + marked + r"\]", rows)), 1, f"marks of refusal {number}")


MOVE = ("move", "f", "--form", "device", "--memory", "image")
WRONG_SETTINGS = (
    (("acx", "f", "--zero", "256"), ["--zero is 256; 0 to 255"]),
    (("acx", "f", "--main", "65536"), ["--main is 65536; 0 to 65535"]),
    (("acx", "f", "--main", "4294967295", "--zero", "$FFFF"), ["--main is 4294967295; 0 to 65535", "--zero is 65535; 0 to 255"]),
    (("sdx", "s", "--high", "65536"), ["--high is 65536; 0 to 65535"]),
    (("sdx", "s", "--low", "5", "--high", "4"), ["--low is 5; 0 to 4, which is --high"]),
    (("sdx", "s", "--low", "39937"), ["--low is 39937; 0 to 39936, which is --high"]),
    (("sdx", "s", "--low", "65536"), ["--low is 65536; 0 to 65535"]),
    (("sdx", "s", "--low", "65536", "--high", "65536"), ["--low is 65536; 0 to 65535", "--high is 65536; 0 to 65535"]),
    ((*MOVE, "--from-main", "65536", "--to-main", "1"), ["--from-main is 65536; 0 to 65535"]),
    ((*MOVE, "--from-zero", "256", "--to-zero", "1"), ["--from-zero is 256; 0 to 255"]),
    # --to-main is the same, and was not given
    ((*MOVE, "--from-main", "70000", "--to-zero", "1"), ["--from-main is 70000; 0 to 65535"]),
    ((*MOVE, "--to-main", "65536"), ["--to-main is 65536; 0 to 65535"]),
    ((*MOVE, "--to-zero", "256"), ["--to-zero is 256; 0 to 255"]),
)


@test
def a_refused_call_says_which_setting_is_wrong(desk):
    desk.put("f", P1)
    desk.put("s", P6)
    desk.put("image", LOADED)
    for words, lines in WRONG_SETTINGS:
        same(desk.text(REFUSED, *words).splitlines(), [f"refused with 2: {MEANINGS[2]}"] + lines, f"report of {words}")
        answer = desk.answer(REFUSED, *words)
        side = None if words[0] != "move" else int(lines[0].startswith("--to"))
        same((answer["number"], answer["offset"], answer["side"]), (2, 0, side), f"answer of {words}")


@test
def a_refused_call_says_what_is_too_long(desk):
    desk.put("s", P6)
    desk.put("long", b"".join(b'"NAME%04d" 1\n' % i for i in range(300)))
    same(desk.text(REFUSED, "sdx", "s", "--names", "long").splitlines(),
         [f"refused with 1: {MEANINGS[1]}", "--names: long has 300 names; at most 256"], "a list too long")
    desk.put("f", bytes(65537))
    same(desk.text(REFUSED, "acx", "f").splitlines(), [f"refused with 3: {MEANINGS[3]}", "the file has more than 65536 bytes"],
         "a file too long")


@test
def an_unknown_name_is_shown_as_text(desk):
    desk.put("f", bytes.fromhex("FF FF 00 06 01 06 00 00 FB FF") + b'A"B\x00 \x9B!!' + bytes.fromhex("00 00 FD 00 06 FC"))
    desk.put("names", b'"OTHER   " 1\n')
    same(desk.text(REFUSED, "sdx", "f").splitlines()[2], 'the name is "A\\"B\\x00 \\x9B!!"; --names lends none', "without --names")
    same(desk.text(REFUSED, "sdx", "f", "--names", "names").splitlines()[2],
         'the name is "A\\"B\\x00 \\x9B!!"; it is neither in the --names list nor defined before', "with --names")


@test
def a_file_of_another_kind_says_which_command_was_meant(desk):
    desk.put("disk", b"\xF0\xFF" + P1)
    desk.put("device", P1)
    desk.put("image", LOADED)
    same(desk.text(REFUSED, "sdx", "disk").splitlines()[2], "it opens F0 FF, as an ACX handler does: 'tekoweapa acx' was meant?", "sdx")
    for command, *more in (("acx",), ("move", "--memory", "image", "--to-main", "1")):
        for word in range(0xFA, 0x100):
            desk.put("sdx", bytes([word, 0xFF]) + P6[2:])
            same(desk.text(REFUSED, command, "sdx", *more).splitlines()[2], "it opens as an SDX program does: 'tekoweapa sdx' was meant?",
                 f"{command} on {word:02X} FF")
        same(desk.text(REFUSED, command, "disk", "--form", "device", *more).splitlines()[2],
             "it opens F0 FF, as disk form does: '--form disk' was meant?", f"{command} on disk form")
        same(desk.text(REFUSED, command, "device", *more).splitlines()[2],
             "it opens as an ACX handler in device form may: '--form device' was meant?", f"{command} on device form")
    same(desk.text(REFUSED, "sdx", "device").splitlines()[2],
         "it opens as an ACX handler in device form may: 'tekoweapa acx --form device' was meant?", "sdx on device form")
    # no guess where there is nothing to go by
    for content in (b"\xF9\xFF\x00\x00", bytes(MEMORY), b"\x00", b"\xF0", b"\x02\x05\x00\x00"):
        desk.put("f", content)
        for words in (("sdx",), ("acx",), ("acx", "--form", "device")):
            holds("was meant" not in desk.text(REFUSED, words[0], "f", *words[1:]), f"a guess by {words} at {content[:4]}")


@test
def a_program_with_many_fields_has_a_short_report(desk):
    """A byte that is placed after every word that is adjusted: 10,500 of them."""
    words = 10500
    last = 0x1000 + 3 * words - 1
    body = b"\xFD\x00\x10" + b"\x03" * (words - 1) + b"\xFC"
    desk.put("f", bytes.fromhex("FF FF 00 10") + last.to_bytes(2, "little") + bytes(3 * words)
             + bytes.fromhex("FE FF 01 80 00 00 01 00 FD FF 01 00 00") + body)
    command = ("sdx", "f", "--low", "$F000", "--high", "$FFFF")
    lines = desk.text(ACCEPTED, *command).splitlines()
    same(lines[lines.index("map") + 1:],
         [f"  $1000-${last:04X}  loaded     {3 * words} bytes, {2 * words} of them adjusted", "  $F000-$F000  reserved   1 byte"], "map")
    same(len(desk.text(ACCEPTED, *command, "--ranges").splitlines()), len(lines) - 1 + 2 * words, "lines with --ranges")
    same(len(desk.answer(ACCEPTED, *command)["ranges"]), 2 * words + 1, "ranges in JSON")
    same(desk.text(ACCEPTED, *command, "--quiet"), "accepted\n", "--quiet")


@test
def an_init_address_is_shown_and_not_run(desk):
    for start, data, init in ((0x02E2, b"\x00\x2E", 0x2E00), (0x02E0, b"\x00\x06\x07\x00", 7), (0x02E2, b"\x00", None),
                              (0x02E3, b"\x2E", None), (0x02E0, b"\x00\x06", None)):
        desk.put("f", b"\xFF\xFF" + start.to_bytes(2, "little") + (start + len(data) - 1).to_bytes(2, "little") + data)
        lines = [text for text in desk.text(ACCEPTED, "sdx", "f").splitlines() if text.startswith("init")]
        same(lines, [] if init is None else [f"init       ${init:04X} (not run)"], f"init with {data} at {start:04X}")
        same(desk.answer(ACCEPTED, "sdx", "f")["init"], init, f"init in JSON with {data} at {start:04X}")
    # reserving over it takes it away; a handler has none
    desk.put("f", b"\xFF\xFF\xE2\x02\xE3\x02\x00\x2E" + bytes.fromhex("FE FF 01 80 00 00 01 00"))
    same(desk.answer(ACCEPTED, "sdx", "f", "--low", "$02E3", "--high", "$02E4")["init"], None, "init that was reserved over")
    desk.put("f", bytes.fromhex("01 04 E2 02 00 2E 0B 00 00 00"))
    same(desk.answer(ACCEPTED, "acx", "f", "--form", "device")["init"], None, "init of a handler")
