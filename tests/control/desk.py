"""What all tests stand on: the desk that each is given, its checks, and what more than one of them uses."""

import json
import os
import shutil
import signal
import stat
import subprocess
import sys

ROOT = os.path.dirname(os.path.dirname(os.path.dirname(os.path.abspath(__file__))))
EXAMPLES = os.path.join(ROOT, "examples")
BUILD = os.path.abspath(sys.argv[1] if len(sys.argv) > 1 else os.path.join(ROOT, "build"))
PROGRAM = os.path.join(BUILD, "tekoweapa")

MEMORY = 65536
NOBODY = 65534
# The signals after which the program cleans up.
ENDING = (signal.SIGINT, signal.SIGTERM, signal.SIGHUP, signal.SIGQUIT)
ACCEPTED, REFUSED, TROUBLE = 0, 1, 2
COMMANDS = ("sdx", "acx", "index", "move")

# Document 01, "Numbers a bench can show"; document 02, wish 5.
MEANINGS = {
    1: "memory, map, scratch, room for an index, new-name buffers or C answer of another length; known names not eight bytes per address, or over 256",
    2: "a setting outside its range",
    3: "file longer than 65,536",
    4: "wrong opening",
    5: "cut short",
    6: "unknown type, flag, block number or memory kind",
    7: "block number used before, or an eighth relocatable block",
    8: "block not there yet",
    9: "end below start, or a record length not allowed",
    10: "doesn't fit",
    11: "place not set, or counter too high",
    12: "field not loaded",
    13: "byte adjusted twice",
    14: "name unknown",
    15: "a 33rd new name",
    16: "new name outside its block",
    17: "two ACX pieces share an address",
    18: "fixup kind doesn't suit the code before it",
    19: "bytes after the end record",
    20: "start above 65,535",
    24: "another version of the index",
    25: "the index doesn't fit",
}

# The options with the commands that have them, and a value that suits.
LOADS = ("sdx", "acx")
WITH_MEMORY = ("sdx", "acx", "move")
OPTIONS = {
    "--form": ({"acx", "index", "move"}, "device"),
    "--main": ({"acx", "index"}, "1"),
    "--zero": ({"acx", "index"}, "1"),
    "--low": ({"sdx"}, "1"),
    "--high": ({"sdx"}, "1"),
    "--names": ({"sdx"}, os.path.join(EXAMPLES, "names.txt")),
    "--index": ({"move"}, "f"),
    "--from-main": ({"move"}, "1"),
    "--from-zero": ({"move"}, "1"),
    "--to-main": ({"move"}, "1"),
    "--to-zero": ({"move"}, "1"),
    "--memory": (set(WITH_MEMORY), "image"),
    "--fresh": (set(LOADS), None),
    "--out": (set(COMMANDS), "target"),
    "--map": (set(COMMANDS), "target"),
    "--picture": (set(COMMANDS), "target"),
    "--scale": (set(COMMANDS), "1"),
    "--dump": (set(WITH_MEMORY), None),
    "--ranges": (set(COMMANDS), None),
    "--quiet": (set(COMMANDS), None),
    "--json": (set(COMMANDS), None),
    "--version": (set(COMMANDS), None),
    "--help": (set(COMMANDS), None),
}

# The bench table.
P1 = bytes.fromhex("00 05 00 00 4C 03 00 06 01 01 0B 02 00 00")
P3 = bytes.fromhex("00 04 00 00 A2 00 08 02 01 F0 0B 00 00 00")
P6 = bytes.fromhex("FE FF 01 00 00 10 03 00 4C 00 10 FD FF 01 00 00 FE 01 01 FC")
P9 = bytes.fromhex("00 05 00 00 4C 03 00 06 01 02 0B 02 00 00")
P10 = bytes.fromhex("00 05 00 00 4C 03 00 06 02 01 01 0B 02 00 00")

# The index of P1's file.
I1 = bytes.fromhex("01 00 07 00 00 00 03 06 01 00 00 04 0B 02 00 00")


class Failure(Exception):
    pass


class Skipped(Exception):
    """A test can't run here; says why."""


def same(actual, wanted, what):
    if actual != wanted:
        raise Failure(f"{what}: {actual!r}, should be {wanted!r}")


def holds(truth, what):
    if not truth:
        raise Failure(what)


def as_nobody(desk, *groups):
    """What makes a run of the program one of a user without rights, in these groups beside his own. A copy of the program goes along, since
    such a user may not reach it where it was built. Only root can set that up."""
    become = lambda: (os.setgroups(groups), os.setgid(NOBODY), os.setuid(NOBODY))
    try:
        subprocess.run(["true"], preexec_fn=become, check=True, timeout=60)
    except subprocess.SubprocessError:
        raise Skipped("the program can't be run as somebody else")
    program = desk.path("program")
    shutil.copy(PROGRAM, program)
    os.chmod(program, 0o755)
    os.chmod(desk.folder, 0o755)
    return {"program": program, "preexec_fn": become}


def give(desk, name, owner, group):
    """Gives a file to somebody else."""
    try:
        os.chown(desk.path(name), owner, group)
    except OSError as error:
        raise Skipped(f"files can't be given away: {error.strerror}")


def make_device(desk, name, minor):
    """Makes a device of the test's own: 3 is like /dev/null, 7 like /dev/full."""
    try:
        os.mknod(desk.path(name), stat.S_IFCHR | 0o666, os.makedev(1, minor))
        open(desk.path(name), "rb").close()
    except OSError as error:
        raise Skipped(f"no device can be made: {error.strerror}")


# An image in which no byte is what it should be by chance.
PATTERN = bytes((7 * address + (address >> 8) + 1) & 0xFF for address in range(MEMORY))


def with_bytes(image, *changes):
    """The image with (address, bytes) put in."""
    changed = bytearray(image)
    for address, content in changes:
        changed[address:address + len(content)] = content
    return bytes(changed)


# The same with P1 loaded at main base 8,192.
LOADED = with_bytes(PATTERN, (0x2000, b"\x4C\x03\x20"))


def whose_index_does_not_fit():
    """An ACX file in device form, for a main base of 0, whose index would be longer than 65,536 bytes: 253 fixups for each of 86 pieces."""
    record = lambda number: b"\x00\xFF" + (number * 253).to_bytes(2, "little") + bytes(253) + b"\x02\xFD" + bytes(range(253))
    return b"".join(map(record, range(86))) + bytes.fromhex("0B 00 00 00")


class Desk:
    """A folder with files, and the program run in it."""

    def __init__(self, folder):
        self.folder = folder
        self.processes = []

    def close(self):
        """Ends what a failed test has left running."""
        for process in self.processes:
            if process.poll() is None:
                process.kill()
            process.communicate()

    def path(self, name):
        return os.path.join(self.folder, os.fsdecode(name))

    def put(self, name, content):
        with open(self.path(name), "wb") as file:
            file.write(content)
        return name

    def get(self, name):
        with open(self.path(name), "rb") as file:
            return file.read()

    def listing(self):
        """Everything in the folder, with contents, so that whatever is left or changed shows."""
        found = {}
        for folder, _, names in os.walk(self.folder):
            for name in names:
                path = os.path.join(folder, name)
                kind = os.lstat(path).st_mode
                found[os.path.relpath(path, self.folder)] = open(path, "rb").read() if stat.S_ISREG(kind) else stat.S_IFMT(kind)
        return found

    def run(self, *words, program=PROGRAM, **more):
        more.setdefault("stdout", subprocess.PIPE)
        if "input" not in more:
            more.setdefault("stdin", subprocess.DEVNULL)
        return subprocess.run([program, *words], cwd=self.folder, stderr=subprocess.PIPE, timeout=60, **more)

    def start(self, *words, **more):
        """A run that the test goes on beside. Signals do what they do at first, whatever the tests were started with."""
        before = more.pop("preexec_fn", lambda: None)
        restore = lambda: ([signal.signal(number, signal.SIG_DFL) for number in ENDING], before())
        self.processes.append(subprocess.Popen([PROGRAM, *words], cwd=self.folder, stdin=subprocess.DEVNULL, stdout=subprocess.PIPE,
                                               stderr=subprocess.PIPE, preexec_fn=restore, **more))
        return self.processes[-1]

    def drain(self, fifo):
        """What comes through a FIFO."""
        return subprocess.run(["cat", fifo], cwd=self.folder, stdout=subprocess.PIPE, timeout=20, check=True).stdout

    def text(self, status, *words, warning=None, **more):
        """Standard output of a run with this exit status, and on standard error one warning with these words, or nothing."""
        done = self.run(*words, **more)
        same(done.returncode, status, f"exit status of {words}, which says {done.stderr}")
        said = done.stderr.decode("utf-8")
        if warning is None:
            same(said, "", f"standard error of {words}")
        else:
            holds(": warning: " in said and warning in said and said.count("\n") == 1, f"warning of {words}: {said!r}")
        return done.stdout.decode("utf-8")

    def answer(self, status, *words, **more):
        """The object that --json prints."""
        text = self.text(status, *words, "--json", **more)
        holds(text.endswith("}\n") and text.count("\n") == 1, "JSON is not one line")
        return json.loads(text)

    def trouble(self, *words, mention="", **more):
        """A run with exit status 2 that says why, prints nothing else, and leaves the folder as it was."""
        before = self.listing()
        done = self.run(*words, **more)
        same(done.returncode, TROUBLE, f"exit status of {words}")
        same(done.stdout or b"", b"", f"standard output of {words}")
        error = done.stderr.decode("utf-8", "replace")
        holds(error.startswith("tekoweapa: "), f"error of {words} is {error!r}")
        holds(mention in error, f"error of {words} does not mention {mention!r}: {error!r}")
        same(self.listing(), before, f"the folder after {words}")
        return error


TESTS = []


def test(function):
    TESTS.append(function)
    return function
