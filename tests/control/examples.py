"""The examples and their demo."""

import json
import os
import subprocess
import sys

from desk import ACCEPTED, REFUSED, EXAMPLES, P1, P10, PATTERN, PROGRAM, holds, same, test, with_bytes


@test
def the_examples_are_what_the_script_makes(desk):
    script = os.path.join(EXAMPLES, "make_examples.py")
    subprocess.run([sys.executable, "-B", script, desk.folder], check=True, timeout=60)
    made = desk.listing()
    same(sorted(made), ["clock.acx", "jump.acx", "names.txt", "score.sdx", "signal.acx", "twice.acx"], "files")
    for name, content in made.items():
        same(open(os.path.join(EXAMPLES, name), "rb").read(), content, name)
    same(made["jump.acx"], P1, "jump.acx is P1")
    same(made["twice.acx"], P10, "twice.acx is P10")


def acx_types(file):
    """The types of the records of an ACX file in disk form."""
    types, at = [], 2
    while file[at] != 0x0B:
        types.append(file[at])
        at += 2 + file[at + 1]
    return types


@test
def the_clock_has_every_kind_of_record(desk):
    path = os.path.join(EXAMPLES, "clock.acx")
    same(set(acx_types(open(path, "rb").read())), set(range(0x0B)), "types")
    answer = desk.answer(ACCEPTED, "acx", path)
    holds(answer["adjusted"] >= 8, "fields adjusted")
    same(len({piece["from"] >> 8 for piece in answer["ranges"]}), 4, "pages touched")


@test
def a_moved_clock_is_a_fresh_one_with_its_counters(desk):
    path = os.path.join(EXAMPLES, "clock.acx")
    desk.text(ACCEPTED, "acx", path, "--main", "8192", "--out", "image")
    live = ((0x80, b"\x09\x01"), (0x2100, b"\x25\x04"))
    desk.put("image", with_bytes(desk.get("image"), *live))
    # the second move overlaps the place that it leaves
    places = [(0x2000, 0x80), (0x30F5, 0xA0), (0x3100, 0xA3), (0xFEEE, 0xEF), (0, 0xC0)]
    for (main, zero), (to_main, to_zero) in zip(places, places[1:]):
        desk.text(ACCEPTED, "move", path, "--memory", "image", "--out", "moved", "--from-main", str(main), "--from-zero", str(zero),
                  "--to-main", str(to_main), "--to-zero", str(to_zero), "--map", "map")
        desk.text(ACCEPTED, "acx", path, "--memory", "image", "--out", "fresh", "--main", str(to_main), "--zero", str(to_zero))
        fresh = with_bytes(desk.get("fresh"), (to_zero, b"\x09\x01"), (to_main + 0x100, b"\x25\x04"))
        same(desk.get("moved") == fresh, True, f"the image after the move to {to_main}")
        os.replace(desk.path("moved"), desk.path("image"))


@test
def a_vector_follows_its_handler(desk):
    """From red to green while the signal lives, and then from place to place, in either direction, with a refused move in between."""
    path = os.path.join(EXAMPLES, "signal.acx")
    same(acx_types(open(path, "rb").read()), [0x00, 0x02, 0x08, 0x01, 0x06], "types")
    desk.text(ACCEPTED, "acx", path, "--main", "8192", "--out", "image")
    same(desk.get("image")[0x200:0x202], b"\x00\x20", "the vector as loaded")
    desk.put("image", with_bytes(desk.get("image"), (0x200, b"\x08\x20")))
    places = [0x2000, 0x30F5, 0x30FF, 0xFF00, 0x0300]
    for main, to_main in zip(places, places[1:]):
        words = ("move", path, "--memory", "image", "--from-main", str(main), "--out", "moved")
        # onto its own vector
        desk.text(REFUSED, *words, "--to-main", str(0x1E0))
        same(desk.get("moved") == desk.get("image"), True, "the image after a refused move")
        desk.text(ACCEPTED, *words, "--to-main", str(to_main))
        desk.text(ACCEPTED, "acx", path, "--memory", "image", "--out", "fresh", "--main", str(to_main))
        fresh = with_bytes(desk.get("fresh"), (0x200, (to_main + 8).to_bytes(2, "little")))
        same(desk.get("moved") == fresh, True, f"the image after the move to {to_main}")
        os.replace(desk.path("moved"), desk.path("image"))


@test
def the_score_program_uses_what_sdx_has(desk):
    path, names = os.path.join(EXAMPLES, "score.sdx"), os.path.join(EXAMPLES, "names.txt")
    same(desk.answer(REFUSED, "sdx", path)["number"], 14, "without its names")
    answer = desk.answer(ACCEPTED, "sdx", path, "--names", names)
    same({piece["mark"] for piece in answer["ranges"]}, {1, 2, 3}, "marks")
    same([name["name"] for name in answer["new_names"]], ["SCOREADD"], "new names")
    same(answer["start"], 7936, "start")
    same(desk.answer(ACCEPTED, "sdx", path, "--names", names, "--low", "8000")["start"], 8000, "start elsewhere")
    file = open(path, "rb").read()
    body = file[file.index(b"\xFD\xFF\x01") + 5:]
    body = body[:body.index(0xFC)]
    for item in (0xFD, 0xFE, 0xFF):
        holds(item in body, f"item {item:02X} is not in the first update body")


@test
def every_cut_of_an_example_is_refused(desk):
    for command, name, more in (("acx", "clock.acx", ()), ("acx", "signal.acx", ()), ("move", "clock.acx", ("--to-main", "9000")),
                                ("sdx", "score.sdx", ("--names", os.path.join(EXAMPLES, "names.txt")))):
        file = open(os.path.join(EXAMPLES, name), "rb").read()
        desk.put("before", PATTERN)
        for length in range(0, len(file), 1 if command == "acx" else 9):
            desk.put("f", file[:length])
            done = desk.run(command, "f", *more, "--json", "--memory", "before", "--out", "after")
            # an SDX file has no end record: cut between two blocks it is whole
            status, cut = done.returncode, f"{name} cut to {length}"
            holds(status == REFUSED or (command == "sdx" and status == ACCEPTED), f"{cut}: {status}")
            answer = json.loads(done.stdout)
            if status == REFUSED:
                same((answer["number"], answer["offset"], desk.get("after") == PATTERN), (5, length, True), cut)


@test
def damaged_examples_end_with_an_answer(desk):
    file = open(os.path.join(EXAMPLES, "clock.acx"), "rb").read()
    numbers = set()
    for at in range(len(file)):
        desk.put("f", file[:at] + bytes([file[at] ^ 0xFF]) + file[at + 1:])
        done = desk.run("acx", "f", "--json")
        holds(done.returncode in (ACCEPTED, REFUSED) and done.stderr == b"", f"byte {at} damaged: {done.returncode} {done.stderr}")
        numbers.add(json.loads(done.stdout)["number"])
    holds(len(numbers) >= 5, f"only the numbers {numbers}")


@test
def the_demo_passes(desk):
    demo = os.path.join(EXAMPLES, "demo")
    more = dict(os.environ, TMPDIR=desk.folder)
    done = subprocess.run([demo, PROGRAM], capture_output=True, timeout=60, env=more)
    same((done.returncode, done.stderr), (0, b""), "exit status and errors")
    for text in (b"accepted", b"fd30", b"refused with 13", b"06 02 01[01]0B", b"SCOREADD", b"the same image and the same map",
                 b"index      103 bytes\nAn index names no base: built at the default $2400, it moves the clock from $2000.\n"):
        holds(text in done.stdout, f"{text} is not shown")
    same(desk.listing(), {}, "files left by the demo")


@test
def the_demo_fails_with_a_wrong_program(desk):
    """One that does nothing, one that loads where it should move, one that leaves the vector as it was, one that accepts what it should refuse, and
    two that move by an index otherwise than by the file: each is found by what it did."""
    demo = os.path.join(EXAMPLES, "demo")
    wrong = {
        "nothing": ("exit 0", "the lap counter is '', should be '0000'"),
        "reload": ('[ "$1" = move ] || exec "$program" "$@"\n'
                   'words=${*:2}; words=${words/--from-main 0x2000/}\nwords=${words/--to-main/--main}; words=${words/--to-zero/--zero}\n'
                   'exec "$program" acx $words', "the lap counter after the move is '0000', should be '0900'"),
        "leave": ('"$program" "$@" || exit $?\n[ "$1 $2" != "move signal.acx" ] || '
                  'dd if=lights.img of=followed.img bs=1 skip=512 seek=512 count=2 conv=notrunc status=none',
                  "the vector after the move is '0820', should be 'fd30'"),
        "accept": ('"$program" "$@" || exit 0', "exit status 0, should be 1"),
        "image": ('"$program" "$@" || exit $?\n[ "$1 $2" != "move --index" ] || '
                  'dd if=heat.img of=by-index.img bs=1 skip=8192 seek=12533 count=99 conv=notrunc status=none', "by-index.img is not by-file.img"),
        "map": ('"$program" "$@" || exit $?\n[ "$1 $2" != "move --index" ] || dd if=/dev/zero of=by-index.map bs=65536 count=1 status=none',
                "by-index.map is not by-file.map"),
    }
    for name, (body, said) in wrong.items():
        desk.put(name, f"#!/bin/bash\nprogram='{PROGRAM}'\n{body}\n".encode())
        os.chmod(desk.path(name), 0o755)
        done = subprocess.run([demo, desk.path(name)], capture_output=True, timeout=60)
        same((done.returncode, done.stderr.decode().splitlines()[-1]), (1, f"demo: {said}"), name)
