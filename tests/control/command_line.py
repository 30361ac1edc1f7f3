"""The command line: words, options, numbers."""

import os
import re

from desk import (ACCEPTED, REFUSED, TROUBLE, COMMANDS, EXAMPLES, LOADED, MEMORY, OPTIONS, P1, P6, PATTERN, ROOT, holds, same, test,
                  with_bytes)


@test
def no_arguments_print_the_usage_as_an_error(desk):
    done = desk.run()
    same((done.returncode, done.stdout), (TROUBLE, b""), "exit status and output")
    holds(b"tekoweapa sdx FILE" in done.stderr, "no usage on standard error")


@test
def help_prints_the_usage(desk):
    usage = desk.text(ACCEPTED, "--help")
    same(desk.text(ACCEPTED, "-h"), usage, "-h")
    for name in OPTIONS:
        holds(name in usage, f"{name} is not in the usage")
    for command in COMMANDS:
        holds(f"tekoweapa {command} FILE" in usage, f"{command} is not in the usage")
        same(desk.text(ACCEPTED, command, "--help"), usage, f"{command} --help")
        same(desk.text(ACCEPTED, command, "missing", "-h"), usage, f"{command} FILE -h")
    holds(max(map(len, usage.splitlines())) <= 84, "a line of the usage is too long")
    for line in ("and moves handlers while they live, by file or by index. It runs nothing.",
                 "  tekoweapa move FILE [options]   move an ACX handler in the --memory image",
                 "                                  (or: move --index FILE [options])",
                 "  --out FILE                      the image after the call, also after a refusal;"):
        same(usage.splitlines().count(line), 1, f"lines {line!r} in the usage")


@test
def the_help_has_the_defaults_of_the_library(desk):
    header = open(f"{ROOT}/include/tekoweapa.h", encoding="utf-8").read()
    low, high, main, zero = (re.search(rf"TKW_DEFAULT_{name} = (\d+)", header)[1] for name in ("LOW", "HIGH", "MAIN_BASE", "ZERO_BASE"))
    usage = desk.text(ACCEPTED, "--help")
    same((usage.count(f"({low}, {high})"), usage.count(f"({main}, {zero})")), (1, 2), "defaults in the usage")


@test
def settings_that_are_not_named_are_those_of_the_short_calls(desk):
    desk.put("f", P1)
    desk.put("s", P6)
    same(desk.answer(ACCEPTED, "sdx", "s")["settings"], {"low": 7936, "high": 39936}, "sdx")
    desk.text(ACCEPTED, "acx", "f", "--form", "device", "--out", "image")
    same(desk.get("image"), with_bytes(bytes(MEMORY), (9216, b"\x4C\x03\x24")), "the image")
    words = ("move", "f", "--form", "device", "--to-zero", "3", "--memory")
    same(desk.answer(ACCEPTED, *words, "image")["settings"],
         {"form": "device", "from_main": 9216, "from_zero": 128, "to_main": 9216, "to_zero": 3}, "move")
    # a handler that an earlier version has put where the default was
    desk.put("earlier", LOADED)
    desk.text(ACCEPTED, *words, "earlier", warning="the handler does not seem to be at $2400: 1 of 1 code bytes differ there")


@test
def the_version_stands_in_one_place(desk):
    (version,) = re.findall(r'#define TKW_VERSION "([^"]*)"', open(f"{ROOT}/include/tekoweapa.h", encoding="utf-8").read())
    same(desk.text(ACCEPTED, "--version"), f"tekoweapa {version}\n", "--version")
    same(desk.text(ACCEPTED, "move", "--version"), f"tekoweapa {version}\n", "move --version")
    desk.put("f", P1)
    same(desk.answer(ACCEPTED, "acx", "f", "--form", "device")["version"], version, "version in JSON")


@test
def unknown_words_are_usage_errors(desk):
    desk.put("f", P1)
    desk.trouble("load", "f", mention="load: unknown command (see 'tekoweapa --help')\n")
    desk.trouble("", "f", mention="unknown command")
    for word in ("--json", "-x", "--", "--version=1"):
        desk.trouble(word, "acx", "f", mention=f"{word}: the command comes first: sdx, acx, index or move")
    desk.trouble("--help", "acx", mention="acx: nothing goes with --help")
    desk.trouble("--version", "acx", mention="acx: nothing goes with --version")
    for word in ("--bogus", "-x", "-hh", "--jso", "--mainly=1", "--=1", "-1"):
        desk.trouble("acx", "f", word, mention=f"{word}: unknown option")


@test
def a_value_may_stand_behind_an_equals_sign(desk):
    desk.put("f", P1)
    same(desk.answer(ACCEPTED, "acx", "f", "--form=device", "--main=$3000")["start"], 0x3000, "start")
    desk.text(ACCEPTED, "acx", "f", "--form=device", "--out=--odd=name")
    holds("--odd=name" in desk.listing(), "the value is not all that stands behind the first '='")
    desk.trouble("acx", "f", "--form=", mention="--form: is disk or device")
    desk.trouble("acx", "f", "--main=", mention="--main: needs a number")
    desk.trouble("acx", "f", "--json=1", mention="--json: takes no value")
    desk.trouble("acx", "f", "-h=", mention="-h: takes no value")
    desk.trouble("acx", "f", "--main=1", "--main", "1", mention="--main: is given twice")


@test
def two_dashes_end_the_options(desk):
    desk.put("--quiet", P1)
    same(desk.text(ACCEPTED, "acx", "--form", "device", "--quiet", "--", "--quiet"), "accepted\n", "a file with the name of an option")
    desk.trouble("acx", "--", mention="FILE is missing")
    desk.trouble("acx", "--", "--", mention="--: can't be read")
    desk.trouble("acx", "--", "f", "--quiet", mention="--quiet: is a second FILE")


@test
def a_dash_is_standard_input(desk):
    desk.put("-", b"not this one")
    desk.put("image", LOADED)
    desk.put("f", P1)
    same(desk.answer(ACCEPTED, "acx", "-", "--form", "device", input=P1)["file"], "-", "FILE")
    desk.text(ACCEPTED, "move", "f", "--form", "device", "--memory", "-", "--from-main", "8192", "--to-main", "$3000", "--out", "after",
              input=LOADED)
    same(desk.get("after"), with_bytes(LOADED, (0x3000, b"\x4C\x03\x30")), "the image")
    names = open(f"{EXAMPLES}/names.txt", "rb").read()
    desk.text(ACCEPTED, "sdx", f"{EXAMPLES}/score.sdx", "--names", "-", input=names)
    for words in (("acx", "-", "--memory", "-"), ("sdx", "-", "--names", "-"), ("sdx", "f", "--memory", "-", "--names", "-")):
        desk.trouble(*words, mention="from standard input: cannot go with --", input=LOADED)
    desk.trouble("sdx", "f", "--names", "-", mention="standard input: line 1: ", input=b"x")
    desk.trouble("acx", "f", "--memory", "-", mention="standard input: is no image: it has 1 bytes", input=b"x")
    for name in ("--out", "--map", "--picture"):
        desk.trouble("acx", "f", name, "-", mention="-: can't be written: it stands for standard input")
    with open(desk.path("f"), "rb") as file:
        desk.trouble("acx", "-", "--map", "f", mention="would replace", stdin=file)


@test
def every_command_has_its_options_and_no_others(desk):
    desk.put("f", P1)
    desk.put("image", bytes(MEMORY))
    needed = {"sdx": {}, "acx": {}, "index": {"--out": "built"}, "move": {"--memory": "image", "--to-main": "1"}}
    for command in COMMANDS:
        for name, (commands, value) in OPTIONS.items():
            # an index stands in FILE's place
            words = [command] + ([] if (command, name) == ("move", "--index") else ["f"]) + [name] + ([] if value is None else [value])
            words += [word for pair in needed[command].items() if pair[0] != name for word in pair]
            words += ["--picture", "picture"] if name == "--scale" else []
            if command in commands:
                holds(desk.run(*words).returncode in (ACCEPTED, REFUSED), f"{words} is an error")
                if os.path.exists(desk.path("target")):
                    os.remove(desk.path("target"))
            else:
                desk.trouble(*words, mention=f"{name}: is not an option of {command}")


@test
def an_option_given_twice_is_a_usage_error(desk):
    desk.put("f", P1)
    for name, (commands, value) in OPTIONS.items():
        words = [name] if value is None else [name, value]
        desk.trouble(sorted(commands)[0], "f", *words, *words, mention=f"{name}: is given twice")


@test
def an_option_without_its_value_is_a_usage_error(desk):
    desk.put("f", P1)
    for name, (commands, value) in OPTIONS.items():
        if value is not None:
            desk.trouble(sorted(commands)[0], "f", name, mention=f"{name}: needs a value")
            desk.trouble(sorted(commands)[0], "f", name, "--json", mention=f"{name}: needs a value")


@test
def one_file_is_needed(desk):
    desk.put("f", P1)
    for command in COMMANDS:
        missing = "FILE or --index is missing" if command == "move" else "FILE is missing"
        desk.trouble(command, mention=f"{command}: {missing} (see 'tekoweapa --help')\n")
        desk.trouble(command, "--json", mention=missing)
        desk.trouble(command, "f", "f", mention="second FILE")


@test
def a_move_needs_its_image_and_a_new_base(desk):
    desk.put("f", P1)
    desk.put("live", LOADED)
    words = ("move", "f", "--form", "device")
    desk.trouble(*words, "--to-main", "$3000", "--out", "live", mention="move: needs --memory")
    desk.trouble(*words, "--to-main", "$3000", mention="move: needs --memory")
    desk.trouble(*words, "--memory", "live", "--out", "live", mention="move: needs --to-main or --to-zero")
    desk.trouble(*words, "--memory", "live", "--from-main", "$3000", mention="move: needs --to-main or --to-zero")
    desk.trouble(*words, "--memory", "live", "--to-main", "$3000", "--fresh", mention="--fresh: is not an option of move")


@test
def a_base_that_a_move_does_not_name_stays(desk):
    desk.put("f", bytes.fromhex("0A 03 00 00 55 00 03 00 00 66 0B 00 00 00"))
    before = with_bytes(PATTERN, (0x10, b"\x55"), (0x4000, b"\x66"))
    desk.put("before", before)
    words = ("move", "f", "--form", "device", "--memory", "before", "--from-main", "$4000", "--from-zero", "$10")
    desk.text(ACCEPTED, *words, "--to-zero", "$20", "--out", "zero")
    same(desk.get("zero"), with_bytes(before, (0x20, b"\x55")), "only the zero-page part moved")
    desk.text(ACCEPTED, *words, "--to-main", "$5000", "--out", "main")
    same(desk.get("main"), with_bytes(before, (0x5000, b"\x66")), "only the main part moved")


@test
def a_number_that_does_not_parse_is_a_usage_error(desk):
    desk.put("f", P1)
    wrong = ("", " ", "-1", "+1", " 1", "1 ", "0x", "$", "12a", "0xG1", "$G", "1.5", "1,000", "0x$1", "$0x1", "4294967296", "0x100000000",
             "$100000000", "99999999999999999999", "18446744073709551616")
    for name, (commands, value) in OPTIONS.items():
        if value == "1":
            for number in wrong if name == "--main" else wrong[:3]:
                desk.trouble(sorted(commands)[0], "f", name, number, "--out", "new", mention=f"{name}: needs a number")


@test
def numbers_are_decimal_or_hex(desk):
    desk.put("f", P1)
    for number, address in (("12416", 12416), ("0x3080", 12416), ("0X3080", 12416), ("$3080", 12416), ("$AbC", 2748), ("0xaBc", 2748),
                            ("010", 10), ("0", 0), ("$0000000000abc", 2748), ("65533", 65533)):
        same(desk.answer(ACCEPTED, "acx", "f", "--form", "device", "--main", number)["start"], address, number)


@test
def the_form_is_disk_or_device(desk):
    desk.put("disk", b"\xF0\xFF" + P1)
    desk.put("device", P1)
    desk.put("image", LOADED)
    for form in ("", "Disk", "0", "devices"):
        desk.trouble("acx", "disk", "--form", form, mention="--form: is disk or device")
    for command, *more in (("acx",), ("move", "--memory", "image", "--from-main", "8192", "--to-main", "$3000")):
        desk.text(ACCEPTED, command, "disk", *more)
        desk.text(ACCEPTED, command, "disk", "--form", "disk", *more)
        desk.text(ACCEPTED, command, "device", "--form", "device", *more)
        same(desk.answer(REFUSED, command, "device", *more)["number"], 4, "device file in disk form")
        same(desk.answer(REFUSED, command, "disk", "--form", "device", *more)["number"], 6, "disk file in device form")


@test
def some_options_exclude_each_other(desk):
    desk.put("f", P1)
    desk.put("image", PATTERN)
    for one, other in (("--dump", "--json"), ("--ranges", "--json"), ("--quiet", "--json"), ("--dump", "--quiet"), ("--ranges", "--quiet")):
        for words in ((one, other), (other, one)):
            desk.trouble("acx", "f", *words, "--out", "new", mention=f"{one}: cannot go with {other}")
    desk.trouble("acx", "f", "--fresh", "--memory", "image", "--out", "new", mention="--fresh: cannot go with --memory")


@test
def a_name_that_cannot_be_shown_stands_in_quotes(desk):
    desk.put("f", P1)
    desk.put("\xE4 \u20AC \U0001F600", P1[:3])
    for name, shown in (("", '""'), ("a\nb", '"a\\x0Ab"'), ("\x1B[2J", '"\\x1B[2J"'), ("tab\t\x7F", '"tab\\x09\\x7F"'),
                        ('\n"\\', '"\\x0A\\"\\\\"'),
                        ("\xE4 \u20AC \U0001F601", "\xE4 \u20AC \U0001F601"), ("\x85", '"\\xC2\\x85"'), ("a b", "a b"),
                        (b"\xFF\xE4", '"\\xFF\\xE4"'), (b"\xC0\x80", '"\\xC0\\x80"'), (b"\xED\xA0\x80", '"\\xED\\xA0\\x80"'),
                        (b"\xE0\x80\x80", '"\\xE0\\x80\\x80"'), (b"\xF0\x80\x80\x80", '"\\xF0\\x80\\x80\\x80"'),
                        (b"\xF5\x80\x80\x80", '"\\xF5\\x80\\x80\\x80"'), (b"\xE2\x82\xC0", '"\\xE2\\x82\\xC0"'),
                        (b"\xF4\x90\x80\x80", '"\\xF4\\x90\\x80\\x80"'), (b"\xE2\x82", '"\\xE2\\x82"')):
        desk.trouble("acx", name, "--form", "device", mention=f"tekoweapa: {shown}: can't be read: ")
        desk.trouble("acx", "f", "--memory", name, mention=f"tekoweapa: {shown}: can't be read: ")
        if name:
            same(desk.trouble(name, mention=f"tekoweapa: {shown}: unknown command").count("\n"), 1, "lines")
    error = desk.trouble("acx", "f", "--out", "", mention='tekoweapa: "": can\'t be written: names no file')
    same(error.count("\n"), 1, "lines")
