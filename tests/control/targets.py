"""What becomes of the files that outputs are to go to: replaced whole, or as they were."""

import os
import resource
import signal
import stat
import subprocess
import threading
import time

from desk import (ACCEPTED, ENDING, REFUSED, TROUBLE, LOADED, MEMORY, NOBODY, P1, P6, P10, PATTERN, PROGRAM, Failure, as_nobody, give,
                  holds, make_device, same, test, with_bytes)


def temporaries(desk):
    return [name for name in os.listdir(desk.folder) if name.startswith(".tekoweapa-")]


def until(condition, what):
    """Waits for it, for ten seconds at most."""
    for _ in range(1000):
        if condition():
            return
        time.sleep(0.01)
    raise Failure(f"{what} did not come")


@test
def outputs_replace_files_whole(desk):
    desk.put("f", P1)
    desk.put("out", PATTERN)
    os.chmod(desk.path("out"), 0o640)
    os.symlink("out", desk.path("link"))
    desk.text(ACCEPTED, "acx", "f", "--form", "device", "--main", "8192", "--out", "link", "--fresh")
    same(desk.get("out"), with_bytes(bytes(MEMORY), (0x2000, b"\x4C\x03\x20")), "the image")
    same(stat.S_IMODE(os.stat(desk.path("out")).st_mode), 0o640, "permissions")
    holds(os.path.islink(desk.path("link")), "the link is gone")
    desk.text(ACCEPTED, "acx", "f", "--form", "device", "--map", "new")
    mask = os.umask(0)
    os.umask(mask)
    same(stat.S_IMODE(os.stat(desk.path("new")).st_mode), 0o666 & ~mask, "permissions of a new file")
    same(sorted(desk.listing()), ["f", "link", "new", "out"], "files")


@test
def a_file_keeps_its_owner_and_group(desk):
    desk.put("f", P1)
    desk.put("map", b"")
    give(desk, "map", NOBODY, 12345)
    os.chmod(desk.path("map"), 0o664)
    desk.text(ACCEPTED, "acx", "f", "--form", "device", "--map", "map")
    kept = os.stat(desk.path("map"))
    same((kept.st_uid, kept.st_gid, stat.S_IMODE(kept.st_mode), kept.st_size), (NOBODY, 12345, 0o664, MEMORY), "owner, group, permissions")
    # nobody runs an image as somebody else; and a file that its group may write is not read-only
    os.chmod(desk.path("map"), 0o6464)
    desk.text(ACCEPTED, "acx", "f", "--form", "device", "--map", "map")
    same(stat.S_IMODE(os.stat(desk.path("map")).st_mode), 0o464, "permissions")


@test
def a_group_that_cannot_be_kept_gives_no_rights_to_another(desk):
    more = as_nobody(desk)
    desk.put("f", P1)
    os.mkdir(desk.path("own"))
    give(desk, "own", NOBODY, NOBODY)
    desk.put("own/map", b"")
    give(desk, "own/map", NOBODY, 12345)
    os.chmod(desk.path("own/map"), 0o664)
    desk.text(ACCEPTED, "acx", "f", "--form", "device", "--map", "own/map", **more)
    kept = os.stat(desk.path("own/map"))
    same((kept.st_uid, kept.st_gid, stat.S_IMODE(kept.st_mode)), (NOBODY, NOBODY, 0o604), "owner, group, permissions")


@test
def a_group_of_the_user_is_kept_though_the_owner_is_not(desk):
    more = as_nobody(desk, 12345)
    desk.put("f", P1)
    os.mkdir(desk.path("own"))
    give(desk, "own", NOBODY, NOBODY)
    desk.put("own/map", b"")
    give(desk, "own/map", 0, 12345)
    os.chmod(desk.path("own/map"), 0o664)
    desk.text(ACCEPTED, "acx", "f", "--form", "device", "--map", "own/map", **more)
    kept = os.stat(desk.path("own/map"))
    same((kept.st_uid, kept.st_gid, stat.S_IMODE(kept.st_mode)), (NOBODY, 12345, 0o664), "owner, group, permissions")


@test
def a_read_only_file_is_refused_before_anything_is_loaded(desk):
    """For root too: who takes all permissions to write from a file means it."""
    desk.put("f", P1)
    desk.put("kept", LOADED)
    for mode in (0o444, 0o555):
        os.chmod(desk.path("kept"), mode)
        for words in (("--out", "kept", "--fresh"), ("--map", "kept"), ("--picture", "kept"), ("--map", "new", "--picture", "kept")):
            # FILE is missing, and would be complained of if it was read before
            desk.trouble("acx", "missing", *words, mention="kept: can't be written: it is read-only")
        desk.trouble("acx", "f", "--memory", "kept", "--out", "kept", mention="kept: can't be written: it is read-only")
        desk.trouble("move", "f", "--memory", "kept", "--to-main", "1", "--out", "kept", mention="kept: can't be written: it is read-only")
        same(stat.S_IMODE(os.stat(desk.path("kept")).st_mode), mode, "permissions")


@test
def somebody_elses_file_is_refused_with_the_reason(desk):
    more = as_nobody(desk)
    desk.put("f", P1)
    for folder, mode in (("shut", 0o755), ("open", 0o777)):
        os.mkdir(desk.path(folder))
        os.chmod(desk.path(folder), mode)
        for name, permissions in (("theirs", 0o644), ("shared", 0o666)):
            desk.put(f"{folder}/{name}", b"")
            os.chmod(desk.path(f"{folder}/{name}"), permissions)
    desk.trouble("acx", "f", "--map", "open/theirs", mention="open/theirs: can't be written: Permission denied", **more)
    desk.trouble("acx", "f", "--map", "shut/theirs", mention="shut/theirs: can't be written: Permission denied", **more)
    # a file that may be written, in a directory where none can be put beside it
    for name in ("shared", "new"):
        desk.trouble("acx", "f", "--map", f"shut/{name}",
                     mention=f"shut/{name}: can't be written whole: its directory is not writable (Permission denied)", **more)
    # a sticky directory, where anybody may put files and replace his own
    os.chmod(desk.path("open"), 0o1777)
    desk.trouble("acx", "f", "--map", "open/shared", mention="open/shared: can't be replaced: its directory is sticky", **more)
    desk.text(REFUSED, "acx", "f", "--map", "open/new", **more)
    desk.text(REFUSED, "acx", "f", "--map", "open/new", **more)
    # root may replace all files there, and the directory's owner too
    give(desk, "open", NOBODY, NOBODY)
    desk.text(REFUSED, "acx", "f", "--map", "open/new")
    desk.text(REFUSED, "acx", "f", "--map", "open/shared", **more)
    desk.put("open/shared", b"")
    give(desk, "open/shared", 0, 0)
    give(desk, "open", 0, 0)
    os.chmod(desk.path("open"), 0o777)
    desk.text(REFUSED, "acx", "f", "--map", "open/shared", **more)
    same(len(desk.get("open/shared")), MEMORY, "a file that anybody may write")


@test
def a_file_with_other_names_is_refused(desk):
    desk.put("f", P1)
    desk.put("one", LOADED)
    os.link(desk.path("one"), desk.path("two"))
    for name in ("--out", "--map", "--picture"):
        desk.trouble("acx", "f", "--form", "device", "--memory", "one", name, "two",
                     mention="would replace" if name != "--out" else "two: can't be replaced: it has other names (hard links)")
        desk.trouble("acx", "f", "--form", "device", name, "two", *(["--fresh"] if name == "--out" else []),
                     mention="two: can't be replaced: it has other names (hard links)")
    same(os.stat(desk.path("one")).st_nlink, 2, "names of the file")


@test
def signals_leave_nothing_behind(desk):
    """Image and map are whole in their temporary files, and the picture waits for a reader, when the signal comes."""
    desk.put("f", P1)
    os.mkfifo(desk.path("fifo"))
    before = desk.listing()
    for number in ENDING:
        process = desk.start("acx", "f", "--form", "device", "--out", "new", "--map", "map", "--picture", "fifo")
        until(lambda: len(temporaries(desk)) == 2, "the temporary files")
        process.send_signal(number)
        output, errors = process.communicate(timeout=20)
        same((process.returncode, output, errors), (-number, b"", b""), f"exit status and output with {number.name}")
        same(desk.listing(), before, f"the folder after {number.name}")


@test
def a_signal_that_is_ignored_stays_ignored(desk):
    """As SIGHUP is under nohup."""
    desk.put("f", P1)
    os.mkfifo(desk.path("fifo"))
    process = desk.start("acx", "f", "--form", "device", "--map", "new", "--picture", "fifo",
                    preexec_fn=lambda: signal.signal(signal.SIGHUP, signal.SIG_IGN))
    until(lambda: temporaries(desk), "a temporary file")
    process.send_signal(signal.SIGHUP)
    desk.drain("fifo")
    output, errors = process.communicate(timeout=20)
    same((process.returncode, errors), (ACCEPTED, b""), "exit status and errors")
    same(sorted(desk.listing()), ["f", "fifo", "new"], "files")


@test
def an_image_may_be_renewed_in_place(desk):
    desk.put("f", P1)
    desk.put("image", PATTERN)
    desk.text(ACCEPTED, "acx", "f", "--form", "device", "--main", "8192", "--memory", "image", "--out", "image")
    same(desk.get("image"), with_bytes(PATTERN, (0x2000, b"\x4C\x03\x20")), "the image")
    same(sorted(desk.listing()), ["f", "image"], "files")


@test
def no_output_replaces_what_is_read(desk):
    desk.put("f", P6)
    desk.put("image", PATTERN)
    desk.put("names", b"")
    os.link(desk.path("f"), desk.path("other"))
    for name in ("--out", "--map", "--picture"):
        desk.trouble("sdx", "f", name, "./f", mention="would replace")
        desk.trouble("sdx", "f", name, "other", mention="would replace")
        desk.trouble("sdx", "f", "--names", "names", name, "names", mention="would replace")
        if name != "--out":
            desk.trouble("sdx", "f", "--memory", "image", name, "image", mention="would replace")


@test
def two_outputs_may_not_share_a_path(desk):
    desk.put("f", P1)
    desk.put("there", b"")
    os.symlink("there", desk.path("link"))
    os.mkdir(desk.path("folder"))
    os.mkfifo(desk.path("fifo"))
    os.link(desk.path("fifo"), desk.path("pipe"))
    for one, other in (("new", "new"), ("new", "./new"), ("folder/../new", "new"), ("there", "link"), (desk.path("new"), "new"),
                       ("fifo", "fifo"), ("fifo", "./fifo"), ("fifo", "pipe")):
        for first, second in (("--out", "--map"), ("--map", "--picture"), ("--out", "--picture")):
            desk.trouble("acx", "f", "--form", "device", first, one, second, other, *(["--fresh"] if first == "--out" else []),
                         mention="is named for two outputs")


@test
def two_names_of_one_device_are_one_target(desk):
    make_device(desk, "null", 3)
    make_device(desk, "other", 3)
    desk.put("f", P1)
    desk.trouble("acx", "f", "--form", "device", "--out", "null", "--map", "other", mention="is named for two outputs")
    desk.text(ACCEPTED, "acx", "f", "--form", "device", "--out", "null")
    with open(desk.path("null"), "wb") as report:
        for name in ("null", "other"):
            desk.trouble("acx", "f", "--form", "device", "--out", name, stdout=report, mention="standard output goes there")


@test
def an_output_that_cannot_be_a_file_is_an_error(desk):
    desk.put("f", P1)
    desk.put("there", b"")
    os.mkdir(desk.path("folder"))
    os.symlink("nowhere", desk.path("link"))
    for target, cause in (("folder", "is a directory"), ("folder/", "names no file"), ("", "names no file"), (".", "is a directory"),
                          ("missing/new", "No such file"), ("f/new", "Not a directory"), ("link", "leads nowhere"),
                          ("n" * 300, "too long"), ("/proc/new", "can't be written")):
        for name in ("--out", "--map", "--picture"):
            other = "--map" if name == "--out" else "--out"
            desk.trouble("acx", "f", "--form", "device", name, target, other, "there", "--fresh", mention=cause)
            desk.trouble("acx", "f", "--form", "device", name, target, other, "new", "--json", mention=target)


def limited(length):
    """For a process whose files can't grow beyond this length: a disk that fills up."""
    def limit():
        signal.signal(signal.SIGXFSZ, signal.SIG_IGN)
        resource.setrlimit(resource.RLIMIT_FSIZE, (length, length))
    return limit


@test
def a_full_disk_leaves_every_target_as_it_was(desk):
    desk.put("f", P1)
    desk.put("old", b"")
    words = ("acx", "f", "--form", "device", "--fresh")
    for length in (0, 1, 4096, 65535):
        for name in ("--out", "--map", "--picture"):
            desk.trouble(*words, name, "old", mention="old: can't be written", preexec_fn=limited(length))
            desk.trouble(*words, name, "new", mention="new: can't be written", preexec_fn=limited(length))
    # image and map are whole when the picture, which is longer, no longer fits
    desk.text(ACCEPTED, *words, "--picture", "picture")
    whole = len(desk.get("picture"))
    holds(whole > MEMORY, "the picture is not longer than the image")
    os.remove(desk.path("picture"))
    for length in (MEMORY, (MEMORY + whole) // 2, whole - 1):
        desk.trouble(*words, "--out", "old", "--map", "new", "--picture", "picture", mention="picture: can't be written",
                     preexec_fn=limited(length))
    done = desk.run(*words, "--out", "old", "--map", "new", "--picture", "picture", preexec_fn=limited(whole))
    same(done.returncode, ACCEPTED, "exit status where everything just fits")
    same(sorted(desk.listing()), ["f", "new", "old", "picture"], "files")


@test
def a_full_disk_does_not_end_the_program_by_a_signal(desk):
    desk.put("f", P1)
    limit = lambda: (signal.signal(signal.SIGXFSZ, signal.SIG_DFL), resource.setrlimit(resource.RLIMIT_FSIZE, (10, 10)))
    desk.trouble("acx", "f", "--form", "device", "--out", "new", mention="new: can't be written", preexec_fn=limit)


@test
def a_reader_that_leaves_is_an_error(desk):
    desk.put("f", P1)
    desk.put("old", PATTERN)
    words = ("acx", "f", "--form", "device")
    os.mkfifo(desk.path("fifo"))
    reader = threading.Thread(daemon=True, target=lambda: open(desk.path("fifo"), "rb", buffering=0).close())
    reader.start()
    done = desk.run(*words, "--out", "old", "--fresh", "--picture", "fifo")
    reader.join(20)
    same((done.returncode, done.stdout), (TROUBLE, b""), "exit status and output with the FIFO")
    holds(done.stderr.startswith(b"tekoweapa: fifo: can't be written"), f"error with the FIFO: {done.stderr}")
    same((sorted(desk.listing()), desk.get("old")), (["f", "fifo", "old"], PATTERN), "files")


@test
def an_error_of_a_device_is_an_error(desk):
    """A device like /dev/full, but the test's own."""
    make_device(desk, "full", 7)
    desk.put("f", P1)
    desk.put("old", b"")
    words = ("acx", "f", "--form", "device")
    for name in ("--out", "--map", "--picture"):
        other = "--map" if name == "--out" else "--out"
        for target in ("old", "new"):
            desk.trouble(*words, name, "full", other, target, "--fresh", mention="full: can't be written: No space")


@test
def what_is_no_regular_file_is_written_directly(desk):
    desk.put("f", P1)
    os.mkfifo(desk.path("fifo"))
    got = []
    reader = threading.Thread(daemon=True, target=lambda: got.append(desk.drain("fifo")))
    reader.start()
    desk.text(ACCEPTED, "acx", "f", "--form", "device", "--main", "8192", "--map", "fifo")
    reader.join(20)
    same(got, [with_bytes(bytes(MEMORY), (0x2000, b"\x01\x03\x03"))], "what came through the FIFO")
    holds(stat.S_ISFIFO(os.stat(desk.path("fifo")).st_mode), "the FIFO is gone")
    os.mknod(desk.path("socket"), stat.S_IFSOCK | 0o600)
    desk.trouble("acx", "f", "--map", "socket", mention="socket: can't be written: is neither a file nor a pipe nor a character device")


@test
def standard_output_is_no_target(desk):
    """A file or a pipe: image and report would be mixed."""
    desk.put("f", P1)
    with open(desk.path("report"), "wb") as report:
        for path in ("report", "/proc/self/fd/1"):
            desk.trouble("acx", "f", "--form", "device", "--out", path, "--fresh", stdout=report,
                         mention=f"{path}: can't be written: standard output goes there")
    for name in ("--out", "--map", "--picture"):
        desk.trouble("acx", "f", "--form", "device", name, "/proc/self/fd/1", mention="standard output goes there")


@test
def standard_error_is_no_target(desk):
    """A warning would go to a file that is no longer there."""
    desk.put("f", P1)
    desk.put("log", b"")
    with open(desk.path("log"), "wb") as log:
        done = subprocess.run([PROGRAM, "acx", "f", "--form", "device", "--map", "log"], cwd=desk.folder, stdin=subprocess.DEVNULL,
                              stdout=subprocess.PIPE, stderr=log, timeout=60)
    same((done.returncode, done.stdout), (TROUBLE, b""), "exit status and output")
    same(desk.get("log"), b"tekoweapa: log: can't be written: standard error goes there\n", "error")


@test
def an_error_on_standard_output_is_an_error(desk):
    desk.put("f", P1)
    desk.put("g", P10)
    desk.put("old", PATTERN)
    with open("/dev/full", "wb") as full:
        desk.trouble("--help", mention="standard output", stdout=full)
        for words in (["f"], ["f", "--json"], ["f", "--dump"], ["g"], ["g", "--json"]):
            desk.trouble("acx", *words, "--form", "device", "--out", "old", "--fresh", "--map", "new",
                         mention="standard output: can't be written", stdout=full)
    desk.trouble("acx", "f", "--form", "device", "--out", "old", "--fresh", "--map", "new", mention="standard output",
                 preexec_fn=lambda: os.close(1))


@test
def a_closed_pipe_is_an_error(desk):
    desk.put("f", bytes.fromhex("FF FF 00 00 F8 FF") + bytes(65529))
    desk.put("old", PATTERN)
    for words in ([], ["--dump"], ["--json"]):
        reader, writer = os.pipe()
        os.close(reader)
        desk.trouble("sdx", "f", *words, "--out", "old", "--fresh", "--map", "new", mention="standard output", stdout=writer)
        os.close(writer)


FAILURES = b"""
    #define _GNU_SOURCE
    #include <errno.h>
    #include <fcntl.h>
    #include <signal.h>
    #include <stdarg.h>
    #include <stdio.h>
    #include <stdlib.h>
    #include <string.h>
    #include <sys/stat.h>
    #include <sys/syscall.h>
    #include <unistd.h>

    static int is_asked(const char *failure)
    {
        const char *asked = getenv("FAILURE");
        return asked != NULL && strcmp(asked, failure) == 0;
    }

    static int fail(int error)
    {
        errno = error;
        return -1;
    }

    static int is_kind(int file, mode_t kind)
    {
        struct stat entry;
        return fstat(file, &entry) == 0 && (entry.st_mode & S_IFMT) == kind;
    }

    int fsync(int file)
    {
        if (is_kind(file, S_IFDIR))
            return is_asked("sync of directories") ? fail(EIO) : is_asked("sync of directories unknown") ? fail(EINVAL) : 0;
        return is_asked("sync of files") ? fail(EIO) : 0;
    }

    int rename(const char *from, const char *to)
    {
        int map = strcmp(basename(to), "map") == 0;
        if (is_asked("signal at rename") || (map && is_asked("signal at failed rename")))
            raise(SIGTERM);
        if (map && (is_asked("rename") || is_asked("rename and link") || is_asked("signal at failed rename")))
            return fail(EIO);
        return renameat(AT_FDCWD, from, AT_FDCWD, to);
    }

    int link(const char *from, const char *to)
    {
        return is_asked("rename and link") ? fail(EPERM) : linkat(AT_FDCWD, from, AT_FDCWD, to, 0);
    }

    int fchmod(int file, mode_t mode)
    {
        return is_asked("fchmod") ? fail(EPERM) : (int)syscall(SYS_fchmod, file, mode);
    }

    int open(const char *path, int flags, ...)
    {
        va_list more;
        va_start(more, flags);
        int file = (int)syscall(SYS_openat, AT_FDCWD, path, flags, (flags & O_CREAT) != 0 ? va_arg(more, int) : 0);
        va_end(more);
        if ((flags & O_CREAT) != 0 && is_asked("signal at open"))
            raise(SIGTERM);
        return file;
    }

    ssize_t write(int file, const void *bytes, size_t length)
    {
        struct stat entry;
        if (is_asked("others reading") && is_kind(file, S_IFREG) && fstat(file, &entry) == 0 && (entry.st_mode & 0077) != 0)
            return fail(EACCES);
        return syscall(SYS_write, file, bytes, is_asked("short writes") && length > 1000 ? 1000 : length);
    }

    int close(int file)
    {
        int failing = is_asked("close") && is_kind(file, S_IFREG) && (fcntl(file, F_GETFL) & O_ACCMODE) == O_WRONLY;
        int status = (int)syscall(SYS_close, file);
        return failing ? fail(EIO) : status;
    }
"""


def with_failure(desk, failure):
    """The environment of a run in which one of these system calls fails, or a signal comes with it."""
    if not os.path.exists(desk.path("failures.so")):
        desk.put("failures.c", FAILURES)
        subprocess.run([os.environ.get("CC", "gcc"), "-shared", "-fPIC", "-o", "failures.so", "failures.c"], cwd=desk.folder, check=True,
                       timeout=60)
    # a build with a sanitizer wants to come first
    return dict(os.environ, LD_PRELOAD="./failures.so", FAILURE=failure, ASAN_OPTIONS="verify_asan_link_order=0")


@test
def what_fails_while_files_are_written_leaves_them_as_they_were(desk):
    desk.put("f", P1)
    desk.put("old", PATTERN)
    os.chmod(desk.path("old"), 0o666)
    words = ("acx", "f", "--form", "device", "--fresh", "--out")
    for failure, blamed, error in (("sync of files", "{}", "Input/output error"), ("close", "{}", "Input/output error"),
                                   ("rename", "map", "Input/output error"), ("sync of directories", "{}", "Input/output error")):
        for image in ("old", "new"):
            desk.trouble(*words, image, "--map", "map", env=with_failure(desk, failure),
                         mention=f"tekoweapa: {blamed.format(image)}: can't be written: {error}\n")
    desk.trouble(*words, "old", "--map", "map", env=with_failure(desk, "fchmod"), mention="old: can't be written: Operation not permitted")
    same(stat.S_IMODE(os.stat(desk.path("old")).st_mode), 0o666, "permissions")
    # a file system that can't be asked for it is none to complain of
    desk.text(ACCEPTED, *words, "old", "--map", "map", env=with_failure(desk, "sync of directories unknown"))
    desk.text(ACCEPTED, *words, "new", "--map", "other", env=with_failure(desk, "short writes"))
    same((desk.get("new"), desk.get("other")), (desk.get("old"), desk.get("map")), "what short writes have made")


@test
def a_private_file_is_private_while_it_is_written(desk):
    """A write fails here as soon as others may read the file."""
    desk.put("f", P1)
    for mode, status in ((0o600, ACCEPTED), (0o644, TROUBLE)):
        desk.put("map", b"")
        os.chmod(desk.path("map"), mode)
        done = desk.run("acx", "f", "--form", "device", "--map", "map", env=with_failure(desk, "others reading"))
        same((done.returncode, stat.S_IMODE(os.stat(desk.path("map")).st_mode)), (status, mode), "exit status and permissions")


@test
def a_file_without_a_way_back_is_not_lost(desk):
    """Where the former image can't have a second name, and the map's rename fails, the image is the new one."""
    desk.put("f", P1)
    desk.put("old", PATTERN)
    done = desk.run("acx", "f", "--form", "device", "--main", "8192", "--memory", "old", "--out", "old", "--map", "map",
                    env=with_failure(desk, "rename and link"))
    same((done.returncode, done.stdout), (TROUBLE, b""), "exit status and output")
    same(done.stderr.decode().splitlines(),
         ["tekoweapa: map: can't be written: Input/output error", "tekoweapa: old: is written and can't be taken back"], "errors")
    same((desk.get("old"), temporaries(desk), os.path.exists(desk.path("map"))), (LOADED, [], False), "files")


@test
def a_signal_between_two_steps_leaves_all_or_nothing(desk):
    desk.put("f", P1)
    desk.put("old", PATTERN)
    default = lambda: signal.signal(signal.SIGTERM, signal.SIG_DFL)
    failed = b"tekoweapa: map: can't be written: Input/output error\n"
    for moment, image, files, said in (("signal at open", PATTERN, ["f", "old"], b""),
                                       ("signal at failed rename", PATTERN, ["f", "old"], failed),
                                       ("signal at rename", LOADED, ["f", "map", "old"], b"")):
        done = desk.run("acx", "f", "--form", "device", "--main", "8192", "--memory", "old", "--out", "old", "--map", "map",
                        env=with_failure(desk, moment), preexec_fn=default)
        same((done.returncode, done.stderr), (-signal.SIGTERM, said), f"exit status and errors with {moment}")
        found = sorted(name for name in os.listdir(desk.folder) if not name.startswith("failures."))
        same((found, desk.get("old") == image), (files, True), f"files with {moment}")


@test
def a_signal_that_is_blocked_stays_blocked(desk):
    desk.put("f", P1)
    os.mkfifo(desk.path("fifo"))
    process = desk.start("acx", "f", "--form", "device", "--map", "new", "--picture", "fifo",
                         preexec_fn=lambda: signal.pthread_sigmask(signal.SIG_BLOCK, [signal.SIGTERM]))
    until(lambda: temporaries(desk), "a temporary file")
    process.send_signal(signal.SIGTERM)
    desk.drain("fifo")
    process.communicate(timeout=20)
    same(process.returncode, ACCEPTED, "exit status")


@test
def a_target_that_has_changed_meanwhile_is_left(desk):
    """Image and map are whole in their temporary files, and the picture waits for a reader, when somebody changes a target."""
    desk.put("f", P1)
    changes = {
        "a new image": ("image", lambda: desk.put("image", LOADED)),
        "another mode": ("image", lambda: os.chmod(desk.path("image"), 0o444)),
        "another name": ("image", lambda: os.link(desk.path("image"), desk.path("second"))),
        "no image": ("image", lambda: os.remove(desk.path("image"))),
        "another image in its place": ("image", lambda: os.replace(desk.path("other"), desk.path("image"))),
        "a map": ("map", lambda: desk.put("map", b"")),
        "a directory": ("map", lambda: os.mkdir(desk.path("map"))),
    }
    for what, (target, change) in changes.items():
        desk.put("image", PATTERN)
        desk.put("other", PATTERN)
        os.mkfifo(desk.path("fifo"))
        process = desk.start("acx", "f", "--form", "device", "--memory", "image", "--out", "image", "--map", "map", "--picture", "fifo")
        until(lambda: len(temporaries(desk)) == 2, "the temporary files")
        change()
        before = desk.listing()
        desk.drain("fifo")
        output, errors = process.communicate(timeout=20)
        said = f"tekoweapa: {target}: can't be written: it has changed meanwhile\n".encode()
        same((process.returncode, output, errors), (TROUBLE, b"", said), f"exit status and output with {what}")
        same(desk.listing(), {name: before[name] for name in before if not name.startswith(".tekoweapa-")}, f"the folder with {what}")
        for name in os.listdir(desk.folder):
            if name == "map" and os.path.isdir(desk.path(name)):
                os.rmdir(desk.path(name))
            elif name != "f":
                os.remove(desk.path(name))


@test
def a_signal_while_the_report_waits_leaves_no_file_behind(desk):
    """The outputs are in their places by then; only the report is not out, since nobody reads the pipe."""
    desk.put("f", bytes.fromhex("FF FF 00 00 F8 FF") + bytes(65529))
    desk.put("map", b"")
    process = desk.start("sdx", "f", "--dump", "--map", "map")
    until(lambda: len(desk.get("map")) == MEMORY, "the map")
    process.send_signal(signal.SIGTERM)
    process.wait(20)
    process.stdout.close()
    process.stderr.close()
    same((process.returncode, sorted(os.listdir(desk.folder))), (-signal.SIGTERM, ["f", "map"]), "exit status and files")
