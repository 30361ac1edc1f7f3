#!/usr/bin/env python3
"""Counts in crates/*/src the forms that docs/DESIGN-PASS.md speaks of, point by point; with --list, names the places. Usage: tools/forms.py [--list] [FOLDER]"""
import collections
import glob
import re
import sys

ABSENT = "Absent Nothing Nowhere Unset Missing Unsuited"
FAULTY = "Passed Failed Faulty Broken Stopped Refused"


def sources(folder):
    for path in sorted(glob.glob(f"{folder}/crates/*/src/*.rt")):
        text = "\n".join(l for l in open(path).read().split("\n") if not l.lstrip().startswith("//"))
        yield path.split("/crates/")[1].replace("/src/lib.rt", "").replace("/src/main.rt", "").replace("/src/", "::").replace(".rt", ""), text


def functions(folder):
    """(crate::name, signature with its clauses, body) of each function"""
    for crate, text in sources(folder):
        for m in re.finditer(r"^ *(?:pub )?(?:extern \"C\" )?fn (\w+)(.*?)\n( *)\{\n(.*?)\n\3\}", text, re.S | re.M):
            yield f"{crate}::{m.group(1)}", m.group(2), m.group(4)


def own_enums(folder):
    for crate, text in sources(folder):
        for name, body in re.findall(r"enum (\w+) \{\n(.*?)\n\}", text, re.S):
            found = [v for v in (ABSENT + " " + FAULTY).split() if re.search(rf"^    {v}\b", body, re.M)]
            if found:
                yield f"{crate}::{name} ({', '.join(found)})"


def handed_on(folder):
    for name, _, body in functions(folder):
        for m in re.finditer(rf"if let \w+::(?:{FAULTY.replace(' ', '|')})\b|\w+::(?:{FAULTY.replace(' ', '|')})\([a-z, ]*\) =>|if let Err\(|\bErr\((?:failure|fault|refusal)\) =>", body):
            yield f"{name}: {' '.join(m.group(0).split())}"


def flags(folder):
    for crate, text in sources(folder):
        for name, body in re.findall(r"(?:struct|enum) (\w+)(?:<[^>]*>)? \{\n(.*?)\n\}", text, re.S):
            for field in re.findall(r"(\w+): bool,", body):
                yield f"{crate}::{name}.{field}"


def numbered(folder):
    for name, _, body in functions(folder):
        arms = re.findall(r"\w+::\w+(?:\(\w+\))? => (?:0x)?[0-9A-F]+,|\b(?:0x)?\d[0-9A-F]* => \w+::\w+", body)
        if len(arms) > 1:
            yield f"{name} ({len(arms)} arms)"


def twins(folder):
    """functions whose bodies differ only in names and numbers"""
    same = collections.defaultdict(list)
    for name, _, body in functions(folder):
        skeleton = re.sub(r"\b(?!let|mut|if|else|return|match|while|for|in|loop|as|true|false)\w+\b", "x", body)
        skeleton = re.sub(r"(x::)+x", "x", " ".join(skeleton.split()))
        if len(skeleton) > 20:
            same[skeleton].append(name)
    return [" = ".join(names) for names in same.values() if len(names) > 1]


def counted(folder):
    for name, _, body in functions(folder):
        for m in re.finditer(r"^ *while (.*) \{$", body, re.M):
            yield f"{name}: while {m.group(1)}"


def copied(folder):
    for name, _, body in functions(folder):
        for m in re.finditer(r"(\w+::\w+) \{[^{}]*\}\s*(?:= \w+\s*\{[^{}]*return |=> )\1 \{", body, re.S):
            yield f"{name}: {m.group(1)} field by field"
        if re.search(r"if \w+\[\w+\] != \w+\[\w+\]", body):
            yield f"{name}: bytes compared one by one"
        if re.search(r"^ *(?:to|bytes|addresses|memory)\[\w+\] = [^;]*;$", body, re.M) and "while" in body:
            yield f"{name}: copied or filled one by one"
        if len(re.findall(r"rt\.(?:write_all|print)\(|print\(rt", body)) > 1:
            yield f"{name}: printed part by part"


def facts(folder):
    known = collections.defaultdict(list)
    for name, head, _ in functions(folder):
        for clause in re.findall(r"requires \{ (.*) \}", head):
            for fact in clause.split(" × "):
                fact = fact.strip()
                if fact.startswith("(") and fact.endswith(")"):
                    fact = fact[1:-1]
                known[re.sub(r"\b(file|index|items|code|bytes|memory|map|scratch|marked)\.(old|now)\b", r"x.\2", fact)].append(name)
    return [f"{fact}: {len(names)} functions" for fact, names in sorted(known.items(), key=lambda kv: -len(kv[1])) if len(names) > 2]


def together(folder):
    pairs = collections.defaultdict(list)
    for name, head, _ in functions(folder):
        if name.startswith(("tkw::", "calls::")):
            continue
        parameters = [" ".join(p.split()) for p in re.findall(r"\w+: [^,()]+", re.split(r"\)\s*(?:->|\n)", head)[0])]
        for run in (3, 2):
            for i in range(len(parameters) - run + 1):
                pairs[", ".join(parameters[i:i + run])].append(name)
    return [f"{p}: {len(n)} functions" for p, n in sorted(pairs.items(), key=lambda kv: -len(kv[1])) if len(n) > 4]


def switches(folder):
    for name, _, body in functions(folder):
        if re.search(r"match format \{|if write \{|if width == 1 \{", body):
            yield name


POINTS = [
    ("1 own enums with a variant for nothing or for a fault", own_enums),
    ("1 faults handed on by hand", handed_on),
    ("1 flags in structs and enums", flags),
    ("1, 4 numbers matched to variants, arm by arm", numbered),
    ("2 functions that differ only in names and numbers", twins),
    ("3 loops that count an index by hand", counted),
    ("4 copied, compared or printed part by part", copied),
    ("5 facts in the requires of three or more functions", facts),
    ("5 parameters together in five or more functions", together),
    ("7 switches on which step to run", switches),
]

if __name__ == "__main__":
    arguments = [a for a in sys.argv[1:] if a != "--list"]
    for title, places in POINTS:
        found = list(places(arguments[0] if arguments else "."))
        print(f"{len(found):4}  {title}")
        if "--list" in sys.argv:
            for place in found:
                print(f"        {place}")
