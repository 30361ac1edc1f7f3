#define _XOPEN_SOURCE 700

#include "outputs.h"
#include "errors.h"
#include "temporaries.h"

#include <errno.h>
#include <fcntl.h>
#include <stdio.h>
#include <stdlib.h>
#include <string.h>
#include <unistd.h>

static bool write_all(int file, const uint8_t *bytes, size_t length)
{
    while (length > 0) {
        ssize_t written = write(file, bytes, length);
        if (written < 0 && errno == EINTR)
            continue;
        if (written == 0)
            errno = EIO;
        if (written <= 0)
            return false;
        bytes += written;
        length -= (size_t)written;
    }
    return true;
}

/* Gives a temporary the owner, group and permissions of the file that it is to replace. Only root may give a file away, and others only to
 * groups of their own: where that is not allowed, the file is the writer's, and what its former group might do is not given to another. */
static bool keep_permissions(int file, const struct output *output)
{
    const struct stat *former = &output->former;
    mode_t mode = former->st_mode & 0777;
    if (!output->present)
        return true;
    if (fchown(file, former->st_uid, former->st_gid) != 0 && fchown(file, (uid_t)-1, former->st_gid) != 0)
        mode &= 0707;
    /* Some file systems let no permissions be changed, and have one set for all files. */
    struct stat now;
    return (fstat(file, &now) == 0 && (now.st_mode & 0777) == mode) || fchmod(file, mode) == 0;
}

static bool write_output(struct output *output)
{
    bool direct = output->target == NULL;
    /* Who could not read the former file shall not read the new one while it is written. */
    mode_t mode = output->present ? output->former.st_mode & 0777 : 0666;
    int file = direct ? open(output->path, O_WRONLY | O_NOCTTY) : open_temporary(output->target, mode, &output->temporary);
    int error = 0;
    if (file < 0)
        return complain(output->path, "can't be written: %s", strerror(errno));
    if (!write_all(file, output->bytes, output->length))
        error = errno;
    /* A full disk may show itself only when the bytes are sent there. */
    else if (!direct && (!keep_permissions(file, output) || fsync(file) != 0))
        error = errno;
    if (close(file) != 0 && error == 0)
        error = errno;
    return error == 0 || complain(output->path, "can't be written: %s", strerror(error));
}

bool write_outputs(struct output *outputs, size_t count)
{
    for (size_t i = 0; i < count; i++)
        if (outputs[i].path != NULL && !write_output(&outputs[i]))
            return false;
    return true;
}

/* Gives a target that is there a second name. Where that can't be done (some file systems have no links), there is no way back for it. */
static void keep_former(struct output *output)
{
    for (unsigned turn = 0; output->present && turn < TURNS_MOST; turn++) {
        char *name = name_beside(output->target, turn);
        if (name != NULL && link(output->target, name) == 0) {
            output->kept = name;
            note_temporary(name);
            return;
        }
        int error = errno;
        free(name);
        if (error != EEXIST)
            return;
    }
}

/* Whether the target is still what it was when it was looked at. Another run may have renewed it since, and would be undone. */
static bool is_unchanged(const struct output *output)
{
    struct stat now;
    const struct stat *former = &output->former;
    if (lstat(output->target, &now) != 0)
        return !output->present && errno == ENOENT;
    return output->present && now.st_dev == former->st_dev && now.st_ino == former->st_ino && now.st_mode == former->st_mode
        && now.st_nlink == former->st_nlink && now.st_size == former->st_size && now.st_mtim.tv_sec == former->st_mtim.tv_sec
        && now.st_mtim.tv_nsec == former->st_mtim.tv_nsec;
}

static bool rename_output(struct output *output)
{
    if (!is_unchanged(output))
        return complain(output->path, "can't be written: it has changed meanwhile");
    keep_former(output);
    if (rename(output->temporary, output->target) != 0)
        return complain(output->path, "can't be written: %s", strerror(errno));
    output->renamed = true;
    forget_temporary(output->temporary);
    free(output->temporary);
    output->temporary = NULL;
    return true;
}

/* Sends the new name to the disk too, where that can be asked for: the directory can be opened, and its file system knows how. */
static bool sync_directory(const struct output *output)
{
    char *directory = strndup(output->target, directory_length(output->target));
    if (directory == NULL)
        return complain(output->path, "there is not enough memory to write it");
    int file = open(directory, O_RDONLY | O_DIRECTORY);
    int error = file >= 0 && fsync(file) != 0 && errno != EINVAL ? errno : 0;
    if (file >= 0)
        close(file);
    free(directory);
    return error == 0 || complain(output->path, "can't be written: %s", strerror(error));
}

/* Takes a renamed output back: its target is as before. */
static void take_back(struct output *output)
{
    if (output->kept != NULL && rename(output->kept, output->target) != 0)
        complain(output->path, "is written and can't be taken back; what was there is %s", output->kept);
    else if (output->kept == NULL && (output->present || unlink(output->target) != 0))
        complain(output->path, "is written and can't be taken back");
    output->renamed = false;
    forget_temporary(output->kept);
    free(output->kept);
    output->kept = NULL;
}

/* Removes a file of ours, if there is one, and its name. */
static void remove_own(char **name)
{
    if (*name != NULL && unlink(*name) != 0)
        warn(*name, 0, "can't be removed: %s", strerror(errno));
    forget_temporary(*name);
    free(*name);
    *name = NULL;
}

static bool rename_all(struct output *outputs, size_t count)
{
    for (size_t i = 0; i < count; i++)
        if (outputs[i].temporary != NULL && !rename_output(&outputs[i]))
            return false;
    for (size_t i = 0; i < count; i++)
        if (outputs[i].renamed && !sync_directory(&outputs[i]))
            return false;
    return true;
}

static void take_back_all(struct output *outputs, size_t count)
{
    for (size_t i = 0; i < count; i++) {
        if (outputs[i].renamed)
            take_back(&outputs[i]);
        remove_own(&outputs[i].kept);
    }
}

bool rename_outputs(struct output *outputs, size_t count)
{
    /* A signal in between would leave some outputs of this run beside some of the last. */
    sigset_t former = hold_signals();
    bool good = rename_all(outputs, count);
    if (!good)
        take_back_all(outputs, count);
    release_signals(former);
    return good;
}

void settle_outputs(struct output *outputs, size_t count)
{
    sigset_t former = hold_signals();
    for (size_t i = 0; i < count; i++) {
        outputs[i].renamed = false;
        remove_own(&outputs[i].kept);
    }
    release_signals(former);
}

void clean_outputs(struct output *outputs, size_t count)
{
    sigset_t former = hold_signals();
    take_back_all(outputs, count);
    for (size_t i = 0; i < count; i++) {
        remove_own(&outputs[i].temporary);
        free(outputs[i].target);
    }
    release_signals(former);
}
