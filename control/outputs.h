/* Output files that appear whole or not at all.
 *
 * Each is written to a temporary file beside its target; only when all are whole are they renamed, and they can be taken back as long as
 * they are not settled. A pipe or a device is written directly. A file that can't be replaced whole, or that is of another kind than the
 * output, is refused before anything is done. */
#ifndef OUTPUTS_H
#define OUTPUTS_H

#include <stdbool.h>
#include <stddef.h>
#include <stdint.h>
#include <sys/stat.h>

struct output {
    const char *path;     /* as given; NULL where this output is not asked for */
    const uint8_t *bytes; /* what is to stand there */
    size_t length;
    const char *kind; /* what it is, in a word; and whether a file is of that kind, by its first KIND_BYTES bytes */
    bool (*is_of_kind)(const uint8_t *bytes, size_t length);
    bool present;          /* something was there before */
    struct stat former;    /* and this is what it was */
    struct stat directory; /* where it is, unless written directly */
    char *target;          /* the place to rename to; NULL if written directly */
    char *temporary;       /* NULL if there is none, or no longer */
    bool renamed;          /* the target is the new file */
    char *kept;            /* a second name of the former target, for the way back */
};

/* One byte more than an image or a map has. */
enum { KIND_BYTES = 65537 };

/* Finds the targets, and refuses those that can't be written whole or that two outputs share. False after a complaint. */
bool find_targets(struct output *outputs, size_t count);

/* Writes everything: temporaries, and directly what is no regular file. False after a complaint. */
bool write_outputs(struct output *outputs, size_t count);

/* Renames all temporaries to their targets. False after a complaint; the targets are then as they were. */
bool rename_outputs(struct output *outputs, size_t count);

/* Leaves the renamed outputs where they are, for good. */
void settle_outputs(struct output *outputs, size_t count);

/* Takes back what is renamed and not settled, and removes the temporaries. Call it at the end, whatever happened. */
void clean_outputs(struct output *outputs, size_t count);

/* Whether an output's path leads to a file, pipe or device that is read, "-" being standard input. */
bool leads_to_input(const char *output, const char *input);

#endif
