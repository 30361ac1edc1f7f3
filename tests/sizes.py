#!/usr/bin/env python3
"""Print the table of sizes that README.md has: python3 tests/sizes.py [--check | --write]

--check compares that table, and the columns `minutes` and `lines` of docs/READING.md, with the repository; it shows the rows that differ, and
its exit status is then 1. --write puts both pages right.

A function is what `fn` declares outside a comment. A line counts unless it is blank or a comment (it begins with // or --). docs/READING.md
counts comments too, since they are read, but no `use`.
"""
import difflib
import pathlib
import re
import sys

ROOT = pathlib.Path(__file__).resolve().parent.parent
README = ROOT / "README.md"
READING = ROOT / "docs" / "READING.md"

FUNCTION = re.compile(r"\bfn\s+\w+\s*(<[^>]*>)?\s*\(")
# a file of definitions as a page names it; one without a folder stands beside the one named before it
NAMED = re.compile(r"(crates/\w+/specs/)?(\w+\.antt)")
# lines that a first reader takes in a minute, and what minutes are rounded to
PACE = 15
STEP = 5
# what the last row of docs/READING.md reads
TOTAL = "all of these"


def crates():
    """The names of the crates, in the order of crates.txt."""
    listed = (line.split("#")[0] for line in (ROOT / "crates.txt").read_text().splitlines())
    # 'NAME staticlib' is the crate NAME
    return [line.split(":")[0].split()[0] for line in listed if line.strip()]


def texts(folder, suffix):
    """The files of a folder; none where a crate has no such folder."""
    return [path.read_text(encoding="utf-8") for path in folder.rglob("*" + suffix)]


def counted(text, leave_out):
    """How many lines a text has, without blank ones and those that begin with `leave_out`."""
    return sum(1 for line in map(str.strip, text.splitlines()) if line and not line.startswith(leave_out))


def lines(folder, suffix, comment):
    return sum(counted(text, comment) for text in texts(folder, suffix))


def functions(folder):
    return sum(len(FUNCTION.findall(re.sub("//.*", "", text))) for text in texts(folder, ".rt"))


def sizes(crate):
    """A crate's row, without its name."""
    home = ROOT / "crates" / crate
    return (
        functions(home / "src"),
        lines(home / "src", ".rt", "//"),
        lines(home / "specs", ".antt", "--"),
        lines(home / "proofs", ".antt", "--"),
        len(list(home.glob("must-fail/*.edit"))),
    )


def row(cells):
    return "| " + " | ".join(f"{cell:,}" if isinstance(cell, int) else cell for cell in cells) + " |"


def table(head, rows):
    """A table in Markdown, as a list of lines."""
    return [row(head), "|" + "---|" * len(head), *map(row, rows)]


def size_table():
    rows = {crate: sizes(crate) for crate in crates()}
    total = [sum(column) for column in zip(*rows.values())]
    head = ("crate", "functions", "source", "definitions", "proofs", "edits")
    return table(head, [(f"`{crate}`", *numbers) for crate, numbers in rows.items()] + [("all", *total)])


def to_read(files):
    """How many lines the files have that a cell names, as a reader meets them."""
    folder, count = "", 0
    for named in NAMED.finditer(files):
        folder = named[1] or folder
        path = ROOT / folder / named[2]
        if not path.is_file():
            sys.exit(f"{READING.relative_to(ROOT)} names {folder}{named[2]}, and there is no such file")
        count += counted(path.read_text(encoding="utf-8"), "use ")
    return count


def reading_table(present):
    """The table of docs/READING.md with its numbers counted anew; what is read, and what for, stays as it is written there."""
    rows = []
    for line in present[2:]:
        files, see = (cell.strip() for cell in line.split("|")[3:5])
        if files != TOTAL:
            count = to_read(files)
            rows.append((max(STEP, STEP * round(count / PACE / STEP)), count, files, see))
    total = (sum(minutes for minutes, *_ in rows), sum(count for _, count, *_ in rows), TOTAL, "")
    return table(("minutes", "lines", "read", "to see"), rows + [total])


def between(page, name):
    """A page's lines, and where those between its markers <!-- NAME --> and <!-- end of NAME --> begin and end."""
    every = page.read_text(encoding="utf-8").splitlines()
    try:
        return every, every.index(f"<!-- {name} -->") + 1, every.index(f"<!-- end of {name} -->")
    except ValueError:
        sys.exit(f"{page.relative_to(ROOT)} has no table between <!-- {name} --> and <!-- end of {name} -->")


def put(page, name, new):
    every, begin, end = between(page, name)
    page.write_text("\n".join(every[:begin] + new + every[end:]) + "\n", encoding="utf-8")


def differs(page, present, new):
    """Whether a table is not what it should be; shows the rows, first as the page has them and then as they should be."""
    if present == new:
        return False
    print(f"{page.relative_to(ROOT)} is out of date; 'python3 tests/sizes.py --write' mends these rows:")
    for line in difflib.ndiff(present, new):
        if line[0] in "-+":
            print("  " + line)
    return True


def main(words):
    if words not in ([], ["--check"], ["--write"]):
        sys.exit("usage: python3 tests/sizes.py [--check | --write]")
    if not words:
        print("\n".join(size_table()))
        return 0
    wrong = 0
    for page, name, made in ((README, "sizes", lambda _: size_table()), (READING, "reading", reading_table)):
        every, begin, end = between(page, name)
        new = made(every[begin:end])
        if words == ["--write"]:
            put(page, name, new)
        else:
            wrong += differs(page, every[begin:end], new)
    return 1 if wrong else 0


if __name__ == "__main__":
    sys.exit(main(sys.argv[1:]))
