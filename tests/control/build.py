"""The build: the Makefile and build-library, in folders of the tests' own, with stand-ins for rt and the compiler, which take long."""

import os
import re
import shutil
import subprocess

from desk import ROOT, holds, same, test


# The variables that a build looks at.
VARIABLES = {"CC", "CFLAGS", "GATE_FLAGS", "MAKEFLAGS", "MFLAGS", "MAKELEVEL"}


def run(folder, *words, **variables):
    """A command in a folder, with the stand-ins in its bin/ before all else; of what the build looks at, only these variables are set."""
    kept = {name: value for name, value in os.environ.items() if name not in VARIABLES}
    path = os.path.join(folder, "bin") + os.pathsep + os.environ["PATH"]
    done = subprocess.run(words, cwd=folder, env=kept | {"PATH": path} | variables, stdin=subprocess.DEVNULL, stdout=subprocess.PIPE,
                          stderr=subprocess.STDOUT, timeout=60)
    return done.returncode, done.stdout.decode()


def copy(desk, *names):
    """These files of the repository, at the same places in the desk's folder."""
    for name in names:
        os.makedirs(os.path.dirname(desk.path(name)), exist_ok=True)
        shutil.copy(os.path.join(ROOT, name), desk.path(name))


def stand_in(desk, name, body):
    os.makedirs(os.path.dirname(desk.path(name)), exist_ok=True)
    desk.put(name, f"#!/bin/bash\n{body}\n".encode())
    os.chmod(desk.path(name), 0o755)


def compile_commands(*words, **variables):
    """The commands that would build the three programs, by name."""
    status, text = run(ROOT, "make", "-n", "-B", "build/tekoweapa", "build/compare", "build/benchmark", *words, **variables)
    commands = {line.split()[-1]: line.split() for line in text.splitlines() if " -o build/" in line}
    same((status, sorted(commands)), (0, ["build/benchmark", "build/compare", "build/tekoweapa"]), "exit status and programs")
    for command in commands.values():
        holds({"-std=c11", "-Wall", "-Wextra"} <= set(command), f"{command} lacks what is always there")
    return commands.values()


@test
def the_compiler_and_its_flags_may_be_given(desk):
    for command in compile_commands():
        same((command[0], "-O2" in command), ("gcc", True), "what is run where nothing is given")
    for command in (*compile_commands("CC=xyz", "CFLAGS=-O0 -g"), *compile_commands(CC="xyz", CFLAGS="-O0 -g")):
        same((command[0], {"-O0", "-g"} <= set(command), "-O2" in command), ("xyz", True, False), "what is run")


@test
def only_the_gate_makes_warnings_errors(desk):
    for command in compile_commands():
        holds("-Werror" not in command, "-Werror outside the gate")
    gate = open(os.path.join(ROOT, ".ci", "run"), encoding="utf-8").read()
    (variable,) = re.findall(r"^export (\w+)=-Werror$", gate, re.M)
    for command in compile_commands(**{variable: "-Werror"}):
        holds("-Werror" in command, "no -Werror in the gate")


@test
def clean_leaves_what_is_proved_and_says_so(desk):
    copy(desk, "Makefile")
    for name in ("build", "crates/low/out"):
        os.makedirs(desk.path(name))
    desk.put("build/old", b"")
    desk.put("crates/low/out/proved", b"")
    status, text = run(desk.folder, "make", "clean")
    same((status, *(os.path.exists(desk.path(name)) for name in ("build", "crates/low/out/proved"))), (0, False, True), "exit status and folders")
    holds("crates/*/out stay" in text and "'rm -rf crates/*/out'" in text, f"clean says {text!r}")
    shutil.rmtree(desk.path("crates/low/out"))
    same(run(desk.folder, "make", "clean"), (0, "rm -rf build\n"), "what clean says where nothing is left")


# What rt prints in place of this, and how its call ends, is for a test to say. A call is noted with the folder that it is made in.
RT = """echo "${PWD#"$TOP"/} $*" >>"$TOP/calls"
case $1 in
lib) mkdir -p out; echo archive >out/libtkw.a; %s;;
esac"""
CALLS = ["crates/tkw lib"]


def build_library(desk, said):
    """The exit status, what is said, and the calls of rt."""
    copy(desk, "build-library")
    os.makedirs(desk.path("crates/tkw"), exist_ok=True)
    stand_in(desk, "bin/rt", RT % said)
    for name in ("calls", "build/lib.a", "crates/tkw/out/libtkw.a"):
        if os.path.exists(desk.path(name)):
            os.remove(desk.path(name))
    status, text = run(desk.folder, "bash", "build-library", "build/lib.a", TOP=desk.folder)
    heading, _, rest = text.partition("\n")
    same(heading, "proving the crates and building build/lib.a (log: build/library.log)", "first line")
    same(os.path.exists(desk.path("build/lib.a")), status == 0, "whether there is a library")
    return status, rest, desk.get("calls").decode().splitlines()


@test
def a_build_counts_the_crates_that_it_proves(desk):
    desk.put("crates.txt", b"# a line for each crate: NAME: the rest\nlow:\nother: low\n\ntkw staticlib: middle low io\nmiddle: low\n")
    proved = lambda name, checked: (f'echo "fn {name}::f: proved"; echo "library low: modules loaded=18 checked=0"; '
                                    f'echo "crate {name}: modules loaded=0 checked={checked}"; echo "logic=proved functions=1"; ')
    same(build_library(desk, proved("low", 9) + proved("middle", 33) + proved("tkw", 1)),
         (0, "1 of 3 crates proved: low\n2 of 3 crates proved: middle\n3 of 3 crates proved: tkw\n", CALLS), "a first build")
    holds(b"fn low::f: proved\n" in desk.get("build/library.log"), "the log lacks what rt said")
    same(build_library(desk, proved("middle", 3) + proved("tkw", 3)),
         (0, "2 of 3 crates proved: middle\n3 of 3 crates proved: tkw\n", CALLS), "a build after a change")
    same(build_library(desk, proved("tkw", 0)), (0, "", CALLS), "a build with nothing to prove")


@test
def a_failed_proof_fails_the_build_and_shows_the_end_of_the_log(desk):
    desk.put("crates.txt", b"low:\ntkw staticlib: low\n")
    said = "".join(f"line {number}\n" for number in range(61, 101))
    same(build_library(desk, "seq -f 'line %g' 100; exit 1"), (1, said, CALLS), "a proof fails")
    same(build_library(desk, "seq -f 'line %g' 100 >&2; exit 1"), (1, said, CALLS), "the library is not built")
    unproved = 'echo "crate low: modules loaded=0 checked=9"; echo "logic=not-proved"; '
    same(build_library(desk, unproved + "exit 1"), (1, "crate low: modules loaded=0 checked=9\nlogic=not-proved\n", CALLS), "no crate is counted")
    status, rest, _ = build_library(desk, "rm out/libtkw.a")
    holds(status == 1 and "libtkw.a" in rest, f"where rt leaves no library: exit status {status} after {rest}")


@test
def everything_is_built_once_and_one_rt_runs_at_a_time(desk):
    copy(desk, "Makefile", "build-library", "crates.txt", ".ci/parts.sh", "tests/run")
    for name in ("crates/tkw", "tests/control"):
        os.makedirs(desk.path(name))
    stand_in(desk, "bin/rt", 'mkdir "$TOP/lock" || echo overlap >>"$TOP/calls"\nsleep 0.1\n' + RT % "true" + '\nrmdir "$TOP/lock"')
    # a compiler whose program, the last word of its command, counts one test
    stand_in(desk, "bin/gcc", """program=${!#}
        echo "$program" >>calls
        printf '#!/bin/sh\\necho "1 passed, 0 failed"\\n' >"$program"
        chmod +x "$program\"""")
    stand_in(desk, "bin/valgrind", 'case "$*" in *twice*) exit 1;; esac')
    stand_in(desk, "tests/driver-catches", 'echo "1 passed, 0 failed"')
    for name in ("tests/control/__main__.py", "tests/sizes.py"):
        desk.put(name, b'print("1 passed, 0 failed")\n')
    desk.put("tests/times.py", b'import subprocess\nsubprocess.run(["rt", "ci", "--anew"], check=True)\n')
    os.makedirs(desk.path("include"))
    desk.put("include/tekoweapa.h", b"")
    status, text = run(desk.folder, "make", "-j2", "proofs", "control", "c-tests", "lib", "times", TOP=desk.folder)
    holds(status == 0 and "\n6 passed, 0 failed\n" in text, f"exit status {status} after {text}")
    top = desk.folder
    same(sorted(desk.get("calls").decode().splitlines()),
         sorted([f"{top} all check", f"{top} ci --anew", "build/benchmark", "build/compare", "build/tekoweapa", *CALLS]), "what was run")
    holds("jobserver" not in text and "warning" not in text, f"make warns: {text}")


@test
def what_rt_makes_is_no_source_of_the_library(desk):
    copy(desk, "Makefile")
    for name in ("crates/low/src/lib.rt", "crates/low/specs/Lib.antt", "crates/low/out/rlib/low.rlib/lang/src/lib.rt"):
        os.makedirs(os.path.dirname(desk.path(name)), exist_ok=True)
        desk.put(name, b"")
    status, text = run(desk.folder, "make", "-n", "-p", "clean")
    (sources,) = re.findall(r"^RATTLE := (.*)$", text, re.M)
    same((status, sorted(sources.split())), (0, ["crates/low/specs/Lib.antt", "crates/low/src/lib.rt"]), "exit status and sources")
