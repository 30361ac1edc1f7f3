#define _XOPEN_SOURCE 700

#include "temporaries.h"

#include <errno.h>
#include <fcntl.h>
#include <stdio.h>
#include <stdlib.h>
#include <string.h>
#include <unistd.h>

/* What people, terminals and other programs end a program with. */
static const int SIGNALS[] = {SIGINT, SIGTERM, SIGHUP, SIGQUIT};

enum { SIGNAL_COUNT = sizeof SIGNALS / sizeof SIGNALS[0] };

/* The names of the files that are there. A signal's handler can be told them in no other way. Changed only while the signals are held. */
static const char *volatile names[TEMPORARIES_MOST];

static sigset_t watched_signals(void)
{
    sigset_t set;
    sigemptyset(&set);
    for (size_t i = 0; i < SIGNAL_COUNT; i++)
        sigaddset(&set, SIGNALS[i]);
    return set;
}

/* Removes the files, and lets the signal do what it would have done: by now it has its default action again. */
static void end_by_signal(int number)
{
    for (size_t i = 0; i < TEMPORARIES_MOST; i++)
        if (names[i] != NULL)
            unlink(names[i]);
    raise(number);
}

bool watch_signals(void)
{
    struct sigaction action = {.sa_handler = end_by_signal, .sa_mask = watched_signals(), .sa_flags = (int)SA_RESETHAND};
    for (size_t i = 0; i < SIGNAL_COUNT; i++) {
        struct sigaction former;
        if (sigaction(SIGNALS[i], NULL, &former) != 0)
            return false;
        if (former.sa_handler != SIG_IGN && sigaction(SIGNALS[i], &action, NULL) != 0)
            return false;
    }
    return true;
}

sigset_t hold_signals(void)
{
    sigset_t set = watched_signals(), former;
    sigprocmask(SIG_BLOCK, &set, &former);
    return former;
}

void release_signals(sigset_t former)
{
    sigprocmask(SIG_SETMASK, &former, NULL);
}

/* Puts a name in the place of another, or of none. */
static void replace_name(const char *former, const char *name)
{
    size_t i = 0;
    while (i < TEMPORARIES_MOST && names[i] != former)
        i++;
    if (i < TEMPORARIES_MOST)
        names[i] = name;
}

void note_temporary(const char *name)
{
    replace_name(NULL, name);
}

void forget_temporary(const char *name)
{
    if (name != NULL)
        replace_name(name, NULL);
}

size_t directory_length(const char *path)
{
    return (size_t)(strrchr(path, '/') - path) + 1;
}

char *name_beside(const char *target, unsigned turn)
{
    size_t directory = directory_length(target);
    size_t room = directory + 64;
    char *name = malloc(room);
    if (name != NULL)
        snprintf(name, room, "%.*s.tekoweapa-%ld-%u", (int)directory, target, (long)getpid(), turn);
    return name;
}

/* Makes the file and notes its name, both or none. */
static int open_new(const char *name, mode_t mode)
{
    sigset_t former = hold_signals();
    int file = open(name, O_WRONLY | O_CREAT | O_EXCL, mode);
    int error = errno;
    if (file >= 0)
        note_temporary(name);
    release_signals(former);
    errno = error;
    return file;
}

int open_temporary(const char *target, mode_t mode, char **name)
{
    for (unsigned turn = 0; turn < TURNS_MOST; turn++) {
        char *candidate = name_beside(target, turn);
        int file = candidate == NULL ? -1 : open_new(candidate, mode);
        if (file >= 0) {
            *name = candidate;
            return file;
        }
        int error = errno;
        free(candidate);
        errno = error;
        if (error != EEXIST)
            return -1;
    }
    return -1;
}
