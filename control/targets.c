/* Where outputs go, and what stands in their way: all that can be seen before anything is done. */
#define _XOPEN_SOURCE 700

#include "errors.h"
#include "files.h"
#include "outputs.h"

#include <errno.h>
#include <fcntl.h>
#include <stdio.h>
#include <stdlib.h>
#include <string.h>
#include <unistd.h>

/* Whether two are one file, pipe or device; a device may have several names. */
static bool is_same(const struct stat *one, const struct stat *other)
{
    bool devices = S_ISCHR(one->st_mode) && S_ISCHR(other->st_mode);
    return (one->st_dev == other->st_dev && one->st_ino == other->st_ino) || (devices && one->st_rdev == other->st_rdev);
}

bool leads_to_input(const char *output, const char *input)
{
    struct stat written, read;
    if (output == NULL || input == NULL || stat(output, &written) != 0)
        return false;
    int failed = is_standard_input(input) ? fstat(STDIN_FILENO, &read) : stat(input, &read);
    return failed == 0 && is_same(&written, &read);
}

/* The path of a file's directory, without links; the file need not be there. NULL with errno set if there is no such directory. */
static char *directory_of(const char *path)
{
    const char *slash = strrchr(path, '/');
    char *given = slash == NULL ? strdup(".") : strndup(path, (size_t)(slash - path) + 1);
    char *directory = given == NULL ? NULL : realpath(given, NULL);
    int error = errno;
    free(given);
    errno = error;
    return directory;
}

/* The absolute path of a file that is not there yet: its directory's, and its name. NULL with errno set. */
static char *absolute_path(const char *path)
{
    const char *slash = strrchr(path, '/');
    const char *name = slash == NULL ? path : slash + 1;
    char *directory = directory_of(path);
    if (directory == NULL)
        return NULL;
    /* The root's path is its slash. */
    const char *between = strcmp(directory, "/") == 0 ? "" : "/";
    size_t room = strlen(directory) + strlen(name) + 2;
    char *absolute = malloc(room);
    if (absolute != NULL)
        snprintf(absolute, room, "%s%s%s", directory, between, name);
    int error = errno;
    free(directory);
    errno = error;
    return absolute;
}

/* A file that is there is replaced, so it is asked itself whether it may be written: the rename would ask its directory alone. Who has
 * taken all permissions to write from a file means it, even where root could write it. A replacement would part it from its other names. */
static bool check_replaceable(const struct output *output)
{
    if ((output->former.st_mode & 0222) == 0)
        return complain(output->path, "can't be written: it is read-only");
    if (faccessat(AT_FDCWD, output->target, W_OK, AT_EACCESS) != 0)
        return complain(output->path, "can't be written: %s", strerror(errno));
    if (output->former.st_nlink > 1)
        return complain(output->path, "can't be replaced: it has other names (hard links), which would keep the former contents");
    return true;
}

/* A sticky directory lets its files be replaced by their owners, by its own owner and by root alone. */
static bool is_bound_by_sticky(const struct output *output)
{
    uid_t user = geteuid();
    bool owner = user == 0 || user == output->directory.st_uid || user == output->former.st_uid;
    return output->present && (output->directory.st_mode & S_ISVTX) != 0 && !owner;
}

/* A file is written beside its target first, so that it appears whole; for that its directory has to be writable. */
static bool check_directory(struct output *output)
{
    char *path = directory_of(output->target);
    bool writable = path != NULL && stat(path, &output->directory) == 0 && faccessat(AT_FDCWD, path, W_OK | X_OK, AT_EACCESS) == 0;
    int error = errno;
    free(path);
    if (!writable)
        return complain(output->path, "can't be written whole: its directory is not writable (%s)", strerror(error));
    return !is_bound_by_sticky(output)
        || complain(output->path, "can't be replaced: its directory is sticky, and the file is somebody else's");
}

/* An output replaces a file of its own kind alone, or an empty one: a map is no loss, and an image that is named for one would be. */
static bool check_kind(const struct output *output)
{
    size_t length = 0;
    uint8_t *bytes = malloc(KIND_BYTES);
    if (bytes == NULL)
        return complain(output->path, "there is not enough memory to look at it");
    bool read = read_file(output->path, bytes, KIND_BYTES, &length);
    bool suits = read && (length == 0 || output->is_of_kind(bytes, length));
    free(bytes);
    return suits || (read && complain(output->path, "is there already and is no %s; remove it, or give another name", output->kind));
}

static bool goes_to(const struct output *output, int file)
{
    struct stat entry;
    return fstat(file, &entry) == 0 && is_same(&output->former, &entry);
}

/* Finds the target of an output that is there: the file itself, should the path be a link to it; none if it is a pipe or a device. */
static bool find_present(struct output *output)
{
    mode_t mode = output->former.st_mode;
    output->present = true;
    if (S_ISDIR(mode))
        return complain(output->path, "can't be written: is a directory");
    if (!S_ISREG(mode) && !S_ISFIFO(mode) && !S_ISCHR(mode))
        return complain(output->path, "can't be written: is neither a file nor a pipe nor a character device");
    if (goes_to(output, STDOUT_FILENO))
        return complain(output->path, "can't be written: standard output goes there");
    /* A terminal may well have warnings beside an output. */
    if (!S_ISCHR(mode) && goes_to(output, STDERR_FILENO))
        return complain(output->path, "can't be written: standard error goes there");
    if (!S_ISREG(mode))
        return true;
    output->target = realpath(output->path, NULL);
    if (output->target == NULL)
        return complain(output->path, "can't be written: %s", strerror(errno));
    return check_replaceable(output) && check_directory(output) && check_kind(output);
}

/* Finds where an output goes, be the file there or not. */
static bool find_target(struct output *output)
{
    size_t length = strlen(output->path);
    if (length == 0 || output->path[length - 1] == '/')
        return complain(output->path, "can't be written: names no file");
    if (is_standard_input(output->path))
        return complain(output->path, "can't be written: it stands for standard input; a file of that name is ./-");
    if (stat(output->path, &output->former) == 0)
        return find_present(output);
    if (errno != ENOENT)
        return complain(output->path, "can't be written: %s", strerror(errno));
    struct stat entry;
    if (lstat(output->path, &entry) == 0)
        return complain(output->path, "can't be written: is a link that leads nowhere");
    output->target = absolute_path(output->path);
    if (output->target == NULL)
        return complain(output->path, "can't be written: %s", strerror(errno));
    return check_directory(output);
}

/* Whether two outputs go to one place: to what is there, or to one name in one directory. */
static bool is_shared(const struct output *one, const struct output *other)
{
    if (one->path == NULL || other->path == NULL)
        return false;
    if (one->present || other->present)
        return one->present && other->present && is_same(&one->former, &other->former);
    return is_same(&one->directory, &other->directory) && strcmp(strrchr(one->target, '/'), strrchr(other->target, '/')) == 0;
}

bool find_targets(struct output *outputs, size_t count)
{
    for (size_t i = 0; i < count; i++) {
        if (outputs[i].path != NULL && !find_target(&outputs[i]))
            return false;
        for (size_t j = 0; j < i; j++)
            if (is_shared(&outputs[i], &outputs[j]))
                return misused(outputs[i].path, "is named for two outputs");
    }
    return true;
}
