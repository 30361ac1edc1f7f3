#!/usr/bin/env python3
"""Writes the repository's own names of specs/ and proofs/ in snake case, as today's Rattle spells them: tools/snake_names.py [ROOT]

    allZero, big-value-word, well-placed  ->  all_zero, big_value_word, well_placed

What begins with a capital letter stays. Names of the library stay, and so do functions, strings, inputs and outputs. A lemma that would get a
definition's name ends in `_lem`. It was run once, after /opt/rattle/port/port.py; a second run changes nothing.
"""
import pathlib
import re
import sys

ROOT = pathlib.Path(sys.argv[1] if len(sys.argv) > 1 else ".")
WORD = r"[^\s(){}.;,@\"«»\[\]\\`]+"
TOKEN = re.compile(r"(?<!\S)--(?: [^\n]*|-[^\n]*|$)|//[^\n]*|\"(?:[^\"\\]|\\.)*\"|" + WORD)
# a name of several parts, which does not begin like a type
PARTS = re.compile(r"^[a-zμ][\w'₀-₉]*(?:-[\w'₀-₉*≤<+]+)+$|^[a-z][a-z0-9_']*[A-Z][\w'₀-₉]*$")
DECLARED = re.compile(r"(?m)^[ ]*(?:pub |abbrev |unfoldable |ruleset |let )*(" + WORD + r") :(?= |$)")
RULESET = re.compile(r"(?m)^(?:pub )?ruleset (?:pub )?(" + WORD + ")")
BOUND = re.compile(r"\blet (" + WORD + r") [=:]|λ ([^.]*)\.|[({](" + WORD + r"(?: " + WORD + r")*) : ")
IMPORT = re.compile(r"(?m)^\s*(?:pub )?(?:ghost )?use ([^\s{;]+?)(?:\.\{([^}]*)\})?(?: as (\S+))?;?$")
CRATES = {line.split(":")[0].split()[0] for line in (ROOT / "crates.txt").read_text().splitlines() if ":" in line and not line.startswith("#")}
# Lemmas that port.py gave the name which a definition gets here, by their files.
LEMMAS = {
    "read_names": ("crates/blocks/proofs/Reading.antt", "crates/blocks/proofs/read/Proof.antt"),
    "placed_by": ("crates/effects/proofs/Ending.antt", "crates/passes/proofs/Going.antt"),
}


def is_own(module):
    part = module.split(".")
    return part[0] == "Rattle" and len(part) > 1 and part[1] in CRATES


def snake(name):
    name = re.sub(r"(?<=[a-z0-9_'])([A-Z])", lambda m: "_" + m[1].lower(), name) if name[0].islower() else name
    return name.replace("-", "_")


def files():
    for path in sorted(ROOT.glob("crates/*/*/**/*")):
        if path.suffix in (".antt", ".rt") and path.relative_to(ROOT).parts[2] in ("src", "specs", "proofs"):
            yield path


def of_library(text):
    """The names that a file takes from elsewhere than this repository."""
    out = set()
    for module, names, _ in IMPORT.findall(text):
        if not is_own(module):
            out |= {word for name in names.split(",") for word in name.split(" as ")[0].split()}
    return out


def found():
    """The names to respell, and the library's names with dashes."""
    own, library = set(), set()
    for path in files():
        text = path.read_text(encoding="utf-8")
        library |= of_library(text)
        if path.suffix == ".antt":
            plain = re.sub(r"(?m)(?<!\S)--.*$", "", text)
            own |= set(DECLARED.findall(plain)) | set(RULESET.findall(plain))
            for groups in BOUND.findall(plain):
                own |= {word for group in groups for word in group.split()}
            if path.relative_to(ROOT).parts[2] == "specs" or path.parent.name == "proofs":
                own |= {m[0] for m in TOKEN.finditer(plain) if plain[m.start() - 1] != "."} - of_library(text)
        for _, names, alias in IMPORT.findall(text):
            own |= {name.split(" as ")[1].strip() for name in names.split(",") if " as " in name}
    own = {name for name in own if PARTS.match(name)}
    defined = {snake(name) for name in own if "-" not in name}
    return {name: snake(name) + "_lem" * ("-" in name and snake(name) in defined) for name in own}, library


def respelled(text, own, skip, in_clauses, lemmas=()):
    """The text with its own names respelled; of a Rust file only what stands in clauses and `ghost use` items."""

    def name(text, m):
        word = m[0]
        dotted = m.start() and text[m.start() - 1] == "."
        if word in lemmas and not dotted:
            return word + "_lem"
        if word not in own or word in skip:
            return word
        return snake(word) if dotted else own[word]

    def one(m):
        word = m[0]
        if word.startswith(("--", "//")):
            return re.sub(r"`([^`]*)`", lambda q: "`" + re.sub(WORD, lambda n: name(q[1], n), q[1]) + "`", word)
        return word if word.startswith('"') else name(m.string, m)

    if not in_clauses:
        return TOKEN.sub(one, text)
    out = []
    for line in text.split("\n"):
        clause = re.match(r"\s*(ghost use |requires|ensures|ghost )", line) or line.lstrip().startswith("//")
        out.append(TOKEN.sub(one, line) if clause else line)
    return "\n".join(out)


def main():
    own, library = found()
    both = sorted(set(own) & library)
    for path in files():
        text = path.read_text(encoding="utf-8")
        lemmas = [lemma for lemma, where in LEMMAS.items() if str(path.relative_to(ROOT)) in where]
        new = respelled(text, own, of_library(text), path.suffix == ".rt", lemmas)
        if new != text:
            path.write_text(new, encoding="utf-8")
    for path in [ROOT / "README.md", *sorted((ROOT / "docs").glob("**/*.md"))]:
        text = path.read_text(encoding="utf-8")
        new = re.sub(r"`([^`\n]*)`", lambda q: "`" + re.sub(WORD, lambda n: own.get(n[0], n[0]) if n[0] not in library else n[0], q[1]) + "`", text)
        if new != text:
            path.write_text(new, encoding="utf-8")
    print(len(own), "names")
    print("also of the library:", *both)


if __name__ == "__main__":
    main()
