#!/usr/bin/env python3
"""Shows that .ci/entry-points can fail: python3 tests/entry-points.py

It makes one edit at a time to a copy of the sources and of the header, and demands that the check finds that fault, names the function, and
finds nothing else. Without an edit the check must pass. A failed test prints a line; the last line is 'N passed, M failed', and the exit
status is 0 only if all have passed.
"""
import pathlib
import re
import shutil
import subprocess
import sys
import tempfile

ROOT = pathlib.Path(__file__).resolve().parent.parent
CHECK = ROOT / ".ci" / "entry-points"
TKW = "crates/tkw/src/lib.rt"
CALLS = "crates/calls/src/lib.rt"
ACX = "crates/acx/src/lib.rt"
SDX = "crates/sdx/src/lib.rt"
PAIRS = "crates/pairs/src/lib.rt"
MOVER = "crates/mover/src/lib.rt"
HEADER = "include/tekoweapa.h"

# FUNCTION stands for the name of the function at fault
SIGNATURE = r"(\bfn FUNCTION\([^()]*\) -> \w+)\n"
ENSURES = r" *(ensures \{.*\})\n"
PUBLIC = r"\bpub fn FUNCTION\b"
DECLARATION = r"^(uint32_t FUNCTION\([^()]*\);)"

HAS_REQUIRES = "its contract has a `requires`"
NO_ENSURES = "its contract has no `ensures`"
PROMISES_LESS = "it does not promise what the call of crate `calls` does"
NO_CALL = "there is no call of its name in crate `calls`"
OTHER_WORDS = "its words do not mean what those of crate `calls` do"
NOT_ALWAYS = "it does not promise one record of a call, or not always"
NOT_THERE = "there is no public function of this name"
NOT_DECLARED = f"it is exported, and not declared in {HEADER}"

# an edit: what it is, the file, the function at fault, a pattern, what is put in its place, and what is wrong then
EDITS = (
    ("a requires of an export", TKW, "tkw_acx_move", SIGNATURE, "\\1\n    requires { ⊥ }\n", HAS_REQUIRES),
    ("a requires with a name", TKW, "tkw_acx_load", SIGNATURE, "\\1\n    requires bounded { ⊥ }\n", HAS_REQUIRES),
    ("a requires behind the ensures", TKW, "tkw_acx_move", SIGNATURE + ENSURES, "\\1\n    \\2\n    requires { ⊥ }\n", HAS_REQUIRES),
    ("a requires in four lines", TKW, "tkw_acx_move", SIGNATURE, "\\1\n    requires\n    {\n        ⊥\n    }\n", HAS_REQUIRES),
    ("a requires without a line of its own", TKW, "tkw_acx_move", SIGNATURE, "\\1 requires { ⊥ }\n", HAS_REQUIRES),
    ("a starred requires", TKW, "tkw_acx_move", SIGNATURE, "\\1\n    requires* { ⊥ₛ }\n", "its contract has a `requires*`"),
    ("a starred requires behind the ensures", TKW, "tkw_acx_move", SIGNATURE + ENSURES, "\\1\n    \\2\n    requires* held { ⊥ₛ }\n", "its contract has a `requires*`"),
    ("a starred ensures", TKW, "tkw_acx_move", SIGNATURE + ENSURES, "\\1\n    \\2\n    ensures* { ⊤ₛ }\n", "its contract has a `ensures*`"),
    ("a ghost value of an empty type", TKW, "tkw_acx_move", SIGNATURE, "\\1\n    ghost n: { ⊥ }\n", "its contract has a `ghost`"),
    ("an export without its ensures", TKW, "tkw_sdx_load", SIGNATURE + ENSURES, "\\1\n", NO_ENSURES),
    ("the same in the formatter's layout", TKW, "tkw_sdx_load", SIGNATURE + ENSURES + r"\{\n", "\\1 {\n", NO_ENSURES),
    ("an ensures in a comment", TKW, "tkw_acx_move", SIGNATURE + ENSURES, "\\1\n    // \\2\n", NO_ENSURES),
    ("an export that promises nothing", TKW, "tkw_acx_move", SIGNATURE + ENSURES, "\\1\n    ensures { ⊤ }\n", PROMISES_LESS),
    ("an export that no call stands behind", CALLS, "tkw_acx_load_default", r"\bpub fn acx_load_default\b", "pub fn acx_load_short", NO_CALL),
    ("an export whose words mean something else", TKW, "tkw_index_build", r"^ghost use Rattle\.calls\.specs\.Build\b", "ghost use Rattle.tkw.specs.Build", OTHER_WORDS),
    ("a call that promises something at times", CALLS, "acx_move", SIGNATURE + r" *ensures \{ ", "\\1\n    ensures { (result ≡ 0) → ", NOT_ALWAYS),
    ("a call that promises a record or something else", CALLS, "acx_move", SIGNATURE + r" *ensures \{ (.*) \}\n", "\\1\n    ensures { \\2 ⊎ ⊤ }\n", NOT_ALWAYS),
    ("a call that promises that its record is itself", CALLS, "acx_move", SIGNATURE + r" *ensures \{ (.*) \}\n", "\\1\n    ensures { \\2 ≡ \\2 }\n", NOT_ALWAYS),
    ("a requires of a call", CALLS, "acx_load_default", SIGNATURE, "\\1\n    requires { ⊥ }\n", HAS_REQUIRES),
    ("a call without its ensures", CALLS, "sdx_load", SIGNATURE + ENSURES, "\\1\n", NO_ENSURES),
    ("a requires of a loader", SDX, "load", SIGNATURE, "\\1\n    requires { ⊥ }\n", HAS_REQUIRES),
    ("a requires of the loader by pairs", PAIRS, "load", SIGNATURE, "\\1\n    requires { ⊥ }\n", HAS_REQUIRES),
    ("the mover without its ensures", MOVER, "move_handler", SIGNATURE + ENSURES, "\\1\n", NO_ENSURES),
    ("a loader of another name", ACX, "load", PUBLIC, "pub fn load_file", NOT_THERE),
    ("a loader that is not public", ACX, "load", PUBLIC, "fn load", NOT_THERE),
    ("a declaration removed", HEADER, "tkw_acx_move", DECLARATION, "", NOT_DECLARED),
    ("a declaration in a comment", HEADER, "tkw_acx_move", DECLARATION, "/* \\1 */", NOT_DECLARED),
    ("an export removed", TKW, "tkw_acx_move", r'extern "C" (fn FUNCTION)\b', "\\1", "it is declared, and not exported"),
)

# a source without a function, and what is not there then
EMPTIED = ((TKW, 'crates: extern "C" fn: there is none'), (CALLS, "crates/calls/src: pub fn: there is none"))


def copy_to(folder):
    for source in (*ROOT.glob("crates/*/src/*.rt"), *ROOT.glob("include/*")):
        target = folder / source.relative_to(ROOT)
        target.parent.mkdir(parents=True, exist_ok=True)
        shutil.copy(source, target)


def check(folder):
    """The exit status of the check, its faults and its last line."""
    ran = subprocess.run([sys.executable, CHECK, folder], stdout=subprocess.PIPE, text=True, check=False)
    *faults, last = ran.stdout.splitlines() or [""]
    return ran.returncode, faults, last


def check_with(folder, file, text):
    """The same with another text in a file."""
    path = folder / file
    kept = path.read_text(encoding="utf-8")
    path.write_text(text, encoding="utf-8")
    result = check(folder)
    path.write_text(kept, encoding="utf-8")
    return result


def edited(folder, what, file, function, pattern, replacement, wrong):
    """Whether the check finds this fault, and no other."""
    present = (folder / file).read_text(encoding="utf-8")
    text, count = re.subn(pattern.replace("FUNCTION", function), replacement, present, flags=re.MULTILINE)
    if count != 1 or text == present:
        sys.exit(f'entry-points.py: "{what}" has {count} places in {file}')
    status, faults, last = check_with(folder, file, text)
    if status == 1 and len(faults) == 1 and faults[0].endswith(f": {function}: {wrong}") and last.endswith(" passed, 1 failed"):
        return True
    print(f"FAILED: {what}: the check says {faults + [last]}")
    return False


def emptied(folder, file, fault):
    status, faults, last = check_with(folder, file, "")
    if status == 1 and fault in faults:
        return True
    print(f"FAILED: {file} emptied: the check says {faults + [last]}")
    return False


def unedited(folder):
    status, faults, last = check(folder)
    if status == 0 and not faults and re.fullmatch(r"[1-9]\d* passed, 0 failed", last):
        return True
    print(f"FAILED: without an edit: the check says {faults + [last]}")
    return False


def main():
    with tempfile.TemporaryDirectory() as name:
        folder = pathlib.Path(name)
        copy_to(folder)
        results = [unedited(folder)]
        results += [edited(folder, *edit) for edit in EDITS]
        results += [emptied(folder, file, fault) for file, fault in EMPTIED]
    print(f"{results.count(True)} passed, {results.count(False)} failed")
    return 0 if all(results) else 1


if __name__ == "__main__":
    sys.exit(main())
