"""What the documents show, held to what is there."""

import os
import re
import shlex
import subprocess

from desk import ACCEPTED, REFUSED, BUILD, EXAMPLES, PROGRAM, ROOT, holds, same, test


def readme_blocks(language):
    """The texts of README.md's fenced blocks in a language, and of its indented ones where that is ''."""
    text = open(os.path.join(ROOT, "README.md"), encoding="utf-8").read()
    if language:
        return re.findall(rf"```{language}\n(.*?)```", text, re.S)
    return ["".join(line[4:] + "\n" for line in block.splitlines()) for block in re.findall(r"\n\n((?:    [^\n]*\n)+)", text)]


@test
def the_example_in_the_readme_compiles_and_prints_what_it_says(desk):
    """Alone, and with the lines that move the handler by its index."""
    program, by_index = readme_blocks("c")
    (command,) = [block for block in readme_blocks("") if block.startswith("gcc ")]
    command, printed = re.fullmatch(r"(.*?) *# (.*)\n", command).groups()
    folders = {"include": os.path.join(ROOT, "include"), "build": BUILD}
    command = re.sub(r"(?<=-I)include\b|\bbuild(?=/)", lambda name: shlex.quote(folders[name[0]]), command)
    command = command.replace("gcc", "gcc -Wall -Wextra -Werror", 1)
    moved = by_index + '    printf("%zu used, %02X %02X %02X\\n", used, memory[12416], memory[12417], memory[12418]);\n'
    together = re.sub(r"(?=    return )", lambda _: moved, program)
    for source, prints in (program, printed + "\n"), (together, printed + "\n16 used, 4C 83 30\n"):
        desk.put("example.c", source.encode())
        done = subprocess.run(["sh", "-c", command], cwd=desk.folder, capture_output=True, timeout=60)
        same((done.returncode, done.stdout.decode(), done.stderr), (0, prints, b""), command)


@test
def the_refusal_in_the_readme_is_printed(desk):
    (shown,) = [block for block in readme_blocks("") if block.startswith("$ build/tekoweapa")]
    command, printed = shown.split("\n", 1)
    words = [word.replace("examples", EXAMPLES) for word in command.split()[2:]]
    same(desk.text(REFUSED, *words), printed, command)


@test
def the_commands_on_the_page_of_the_examples_are_accepted(desk):
    """One after the other, in one folder."""
    lines = [line.split() for line in open(os.path.join(EXAMPLES, "README.md"), encoding="utf-8") if line.startswith("    build/tekoweapa ")]
    same([words[1] for words in lines], ["acx", "acx", "sdx", "index", "acx", "move"], "the commands")
    for _, *words in lines:
        desk.text(ACCEPTED, *(word.replace("examples/", EXAMPLES + "/") for word in words))
    desk.text(ACCEPTED, "acx", os.path.join(EXAMPLES, "clock.acx"), "--main", "0x3000", "--memory", "heat.img", "--out", "fresh.img")
    same(desk.get("moved.img") == desk.get("fresh.img"), True, "the clock moved by its index is one loaded at $3000")


@test
def the_picture_in_the_documents_is_that_of_the_example(desk):
    # make would read a path with a blank as two names, and build anew a program that it has a rule for
    program = desk.path("program")
    os.symlink(PROGRAM, program)
    subprocess.run(["make", "-s", "-C", ROOT, f"PICTURE={desk.path('map.png')}", f"PROGRAM={program}", "picture"], check=True, timeout=60,
                   stdout=subprocess.DEVNULL)
    kept = open(os.path.join(ROOT, "docs", "map.png"), "rb").read()
    holds(kept == desk.get("map.png"), "docs/map.png is not what 'make picture' draws")
