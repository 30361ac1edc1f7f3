"""What is written: images, maps, and what a move leaves and warns of."""

from desk import ACCEPTED, REFUSED, EXAMPLES, LOADED, MEMORY, P1, P3, P6, P10, PATTERN, holds, same, test, with_bytes


@test
def a_load_goes_into_the_image(desk):
    desk.put("f", P1)
    desk.put("before", PATTERN)
    words = ("acx", "f", "--form", "device", "--main", "8192")
    desk.text(ACCEPTED, *words, "--memory", "before", "--out", "after", "--map", "map")
    same(desk.get("after"), LOADED, "the image")
    same(desk.get("map"), with_bytes(bytes(MEMORY), (0x2000, b"\x01\x03\x03")), "the map")
    desk.text(ACCEPTED, *words, "--out", "new")
    same(desk.get("new"), with_bytes(bytes(MEMORY), (0x2000, b"\x4C\x03\x20")), "the image without --memory")
    desk.put("s", P6)
    desk.text(ACCEPTED, "sdx", "s", "--memory", "before", "--out", "after", "--low", "0x8000", "--high", "0x8003")
    same(desk.get("after"), with_bytes(PATTERN, (0x8000, b"\x4C\x00\x80")), "the image of an SDX load")


@test
def an_image_that_is_there_is_not_begun_anew(desk):
    clock = f"{EXAMPLES}/clock.acx"
    desk.put("heat.img", LOADED)
    desk.put("s", P6)
    sentence = "heat.img: is there already; give it with --memory to load into it, or --fresh to begin with zeros"
    for words in (("acx", clock), ("acx", clock, "--main", "100"), ("acx", clock, "--zero", "256"), ("acx", clock, "--json"), ("sdx", "s")):
        desk.trouble(*words, "--out", "heat.img", "--map", "map", mention=sentence)
    desk.text(ACCEPTED, "sdx", "s", "--out", "heat.img", "--fresh")
    same(desk.get("heat.img"), with_bytes(bytes(MEMORY), (0x1F00, b"\x4C\x00\x1F")), "the image with --fresh")
    desk.text(ACCEPTED, "sdx", "s", "--out", "other.img", "--fresh")
    same(desk.get("other.img"), desk.get("heat.img"), "a new image with --fresh")


@test
def an_output_replaces_its_own_kind_alone(desk):
    """A map has the length of an image, and would else replace one that is named for it by a slip."""
    desk.put("f", P1)
    image, marks = PATTERN[::-1], bytes(range(4)) * (MEMORY // 4)
    desk.put("before", PATTERN)
    words = ("acx", "f", "--form", "device", "--memory", "before")
    png, ppm = b"\x89PNG\r\n\x1A\nold", b"P6\nold"
    almost = marks[:-1] + b"\4"
    others = (image, almost, image[:-1], marks[:-1], marks + b"\0", b"text", b"P6", b"P5\n", png[:7])
    for name, kind, own in (("--out", "image", (image, marks, almost)), ("--map", "map", (marks,)), ("--picture", "picture", (png, ppm))):
        for content in (*own, b""):
            desk.put("there", content)
            desk.text(ACCEPTED, *words, name, "there")
            holds(desk.get("there") != content, f"{name} did not replace {content[:9]}")
        for content in others:
            if content not in own:
                desk.put("there", content)
                desk.trouble(*words, name, "there", mention=f"there: is there already and is no {kind}; remove it, or give another name")
    # a refused call, and the examples' own mistakes
    desk.put("heat.img", LOADED)
    desk.trouble("acx", "f", "--map", "heat.img", mention="is no map")
    desk.trouble("acx", "f", "--picture", "heat.img", mention="is no picture")


@test
def a_move_takes_live_bytes_along(desk):
    desk.put("f", P1)
    desk.put("before", with_bytes(PATTERN, (0x2000, b"\x4C\x07\x21")))
    desk.text(ACCEPTED, "move", "f", "--form", "device", "--memory", "before", "--from-main", "8192", "--to-main", "12416",
              "--out", "after", "--map", "map")
    same(desk.get("after"), with_bytes(PATTERN, (0x2000, b"\x4C\x07\x21"), (12416, b"\x4C\x87\x31")), "the image")
    same(desk.get("map"), with_bytes(bytes(MEMORY), (12416, b"\x01\x03\x03")), "the map")
    # P4 moved to 8192 (P5): the high byte goes by the carry of its low byte
    desk.put("f", P3)
    desk.text(ACCEPTED, "acx", "f", "--form", "device", "--main", "8208", "--out", "p4")
    same(desk.get("p4")[8208:8210], b"\xA2\x21", "P4")
    desk.text(ACCEPTED, "move", "f", "--form", "device", "--memory", "p4", "--from-main", "8208", "--to-main", "8192", "--out", "p5")
    same(desk.get("p5")[8192:8194], b"\xA2\x20", "P5")


@test
def all_four_bases_of_a_move_count(desk):
    desk.put("f", bytes.fromhex("0A 03 02 00 55 00 03 00 00 66 0B 00 00 00"))
    before = with_bytes(PATTERN, (0x12, b"\x55"), (0x1000, b"\x66"))
    desk.put("before", before)
    desk.text(ACCEPTED, "move", "f", "--form", "device", "--memory", "before", "--from-main", "$1000", "--from-zero", "$10",
              "--to-main", "$3000", "--to-zero", "$30", "--out", "after")
    same(desk.get("after"), with_bytes(before, (0x32, b"\x55"), (0x3000, b"\x66")), "the image")


@test
def a_move_from_wrong_bases_is_made_with_a_warning(desk):
    clock = f"{EXAMPLES}/clock.acx"
    words = ("move", clock, "--memory", "image", "--to-main", "$6000", "--out", "after")
    right = (*words, "--from-main", "8192")
    main = f"{clock}: warning: the handler does not seem to be at $4000: "
    zero = f"{clock}: warning: the handler's zero-page part does not seem to be at $C0: "
    for before in (bytes(MEMORY), PATTERN):
        desk.put("image", before)
        desk.text(ACCEPTED, "acx", clock, "--memory", "image", "--main", "8192", "--out", "image")
        report = desk.text(ACCEPTED, *right)
        wrong = desk.text(ACCEPTED, *words, "--from-main", "$4000", warning=main)
        same(wrong.replace("$4000 to", "$2000 to"), report, "the report of the move from wrong bases")
        desk.text(ACCEPTED, *right, "--from-zero", "$C0", warning=zero)
        desk.text(ACCEPTED, *right, "--from-zero", "$C0", "--to-zero", "$80", warning=zero)
        desk.answer(ACCEPTED, *words, "--from-main", "$4000", warning=main)
        desk.text(ACCEPTED, *words, "--from-main", "$4000", "--quiet", warning=main)
        both = desk.run(*words, "--from-main", "$4000", "--from-zero", "$C0")
        same((both.returncode, both.stderr.count(b": warning: ")), (ACCEPTED, 2), "exit status and warnings")
        # counters and scores that have changed are no cause for a warning
        desk.put("image", with_bytes(desk.get("image"), (0x80, bytes(range(1, 5))), (0x2100, bytes(range(1, 19)))))
        desk.text(ACCEPTED, *right)
    # a refused move says nothing of it
    desk.put("image", PATTERN)
    desk.text(REFUSED, "move", clock, "--memory", "image", "--to-main", "65500", "--from-main", "$4000")


@test
def the_warning_goes_by_most_of_the_code(desk):
    """Four bytes outside fields that count, one that is zero, a field; the same in zero page."""
    piece = "09 00 00 11 22 33 44 00 03 00"
    desk.put("main", bytes.fromhex(f"00 {piece} 06 01 05 0B 00 00 00"))
    desk.put("zero", bytes.fromhex(f"0A {piece} 07 01 05 0B 00 00 00"))
    for file, address, subject in (("main", 0x2000, "the handler does"), ("zero", 0x80, "the handler's zero-page part does")):
        words = ("move", file, "--form", "device", "--memory", "image", "--from-main", "8192", "--to-main", "$3000")
        for code, count in (("11 22 33 44 00", 0), ("11 22 33 99 99", 0), ("11 22 99 99 99", 0), ("11 99 99 99 00", 3),
                            ("99 99 99 99 99", 4)):
            desk.put("image", with_bytes(PATTERN, (address, bytes.fromhex(code))))
            desk.text(ACCEPTED, *words, warning=f"{subject} not seem to be at ${address:0{4 if address > 255 else 2}X}: "
                      f"{count} of 4 code bytes differ there\n" if count else None)
    # a handler without such bytes gives no cause
    desk.put("f", bytes.fromhex("00 05 00 00 00 03 00 06 01 01 0B 00 00 00"))
    desk.text(ACCEPTED, "move", "f", *words[2:])


@test
def a_move_given_twice_warns_where_a_vector_tells(desk):
    """The copy that is left at the old bases looks like a handler, but its vector has gone on."""
    desk.put("f", bytes.fromhex("00 03 00 00 60 01 04 00 02 00 00 06 01 00 0B 00 00 00"))
    move = ("move", "f", "--form", "device", "--memory", "image", "--out", "image", "--from-main")
    twice = "f: warning: the handler seems to have been moved already (address bytes as at the new bases: %d; as at the old: 0)\n"
    # moved by a page; by more, the vector as loaded; and the vector turned to the byte after, so that its high byte alone tells
    for to_main, live, first, told, second in (("8448", "00 20", "00 21", 1, "00 22"), ("$30F5", "00 20", "F5 30", 2, "EA 41"),
                                               ("$30F5", "01 20", "F6 30", 1, "EB 41")):
        desk.text(ACCEPTED, "acx", "f", "--form", "device", "--main", "8192", "--fresh", "--out", "image")
        desk.put("image", with_bytes(desk.get("image"), (0x200, bytes.fromhex(live))))
        desk.text(ACCEPTED, *move, "8192", "--to-main", to_main)
        same(desk.get("image")[0x200:0x202], bytes.fromhex(first), "the vector after a move")
        desk.text(ACCEPTED, *move, "8192", "--to-main", to_main, warning=twice % told)
        same(desk.get("image")[0x200:0x202], bytes.fromhex(second), "the vector after the same move again, as the rules say")
    # a vector that was turned is no cause, though it be to where a load at the new bases would have it; nor is a move to where the handler is
    for live, to_main in (("34 12", "$3000"), ("00 30", "$3000"), ("34 12", "8192"), ("00 20", "8192")):
        desk.text(ACCEPTED, "acx", "f", "--form", "device", "--main", "8192", "--fresh", "--out", "image")
        desk.put("image", with_bytes(desk.get("image"), (0x200, bytes.fromhex(live))))
        desk.text(ACCEPTED, *move, "8192", "--to-main", to_main)
    # nor is one that goes on, or back to where a copy was left, with a vector whose low byte was turned to that of the copy
    for from_main, to_main in ((8192, 0x30F5), (0x30F5, 0x30F6), (0x30F6, 8192), (8192, 0x30F5), (0x30F5, 0x4000)):
        desk.text(ACCEPTED, *move, str(from_main), "--to-main", str(to_main))
        desk.put("image", with_bytes(desk.get("image"), (0x200, b"\x00"), (0x201, bytes([to_main >> 8]))))


@test
def a_move_given_twice_warns_where_its_places_overlap(desk):
    """The clock has no vector, but moved by 32 bytes it has address fields where others were; and most of its code is no longer at the old bases."""
    clock = f"{EXAMPLES}/clock.acx"
    desk.text(ACCEPTED, "acx", clock, "--main", "$2000", "--out", "image")
    move = ("move", clock, "--memory", "image", "--out", "image", "--from-main", "$2000", "--to-main", "$2020")
    desk.text(ACCEPTED, *move)
    again = desk.run(*move)
    same((again.returncode, again.stderr.count(b": warning: ")), (ACCEPTED, 2), "exit status and warnings")
    for warning in (b"does not seem to be at $2000: 47 of 71 code bytes differ there\n",
                    b"seems to have been moved already (address bytes as at the new bases: 7; as at the old: 0)\n"):
        holds(warning in again.stderr, f"{warning} is not among {again.stderr}")


@test
def a_refusal_writes_the_image_as_it_was(desk):
    desk.put("f", P10)
    desk.put("before", PATTERN)
    for command, *more in (("acx",), ("move", "--to-main", "$3000")):
        desk.text(REFUSED, command, "f", "--form", "device", "--memory", "before", "--out", "after", "--map", "map", *more)
        same(desk.get("after"), PATTERN, "the image")
        same(desk.get("map"), bytes(MEMORY), "the map")
        desk.put("after", b"")
        desk.put("map", b"")
