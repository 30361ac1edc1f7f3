/* Temporary files, which must not be left behind: SIGINT, SIGTERM, SIGHUP and SIGQUIT remove them before they end the program. */
#ifndef TEMPORARIES_H
#define TEMPORARIES_H

#include <signal.h>
#include <stdbool.h>
#include <stddef.h>
#include <sys/types.h>

/* Takes over these signals, but for those that are ignored already, as SIGHUP is under nohup. */
bool watch_signals(void);

/* Between these two the signals wait, so that what is done in between is done whole. The first gives what the second takes. */
sigset_t hold_signals(void);
void release_signals(sigset_t former);

/* Makes a file beside the target, with a name that nobody else has, and opens it. The name is the caller's to remove or to forget, and to
 * free. -1 with errno set if that can't be done. */
int open_temporary(const char *target, mode_t mode, char **name);

/* The file of this name is temporary; or it is no longer there, or no longer temporary. Call these with the signals held. */
void note_temporary(const char *name);
void forget_temporary(const char *name);

/* The length of an absolute path's directory, with the slash behind it. */
size_t directory_length(const char *path);

/* A name beside the target; another one for each turn. NULL if there is no memory. */
char *name_beside(const char *target, unsigned turn);

/* How many can be noted. */
enum { TEMPORARIES_MOST = 16 };

/* How many names are tried where others have them. */
enum { TURNS_MOST = 1000 };

#endif
