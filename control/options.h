/* The command line. */
#ifndef OPTIONS_H
#define OPTIONS_H

#include "tekoweapa.h"

#include <stdbool.h>
#include <stddef.h>
#include <stdint.h>

enum command { COMMAND_SDX, COMMAND_ACX, COMMAND_INDEX, COMMAND_MOVE };

enum form { FORM_DISK = TKW_DISK, FORM_DEVICE = TKW_DEVICE };

/* A number that may be left out; it then has its default value. */
struct number {
    uint32_t value;
    bool given;
};

/* A form that may be left out; it is then disk. */
struct form_choice {
    enum form value;
    bool given;
};

/* What the command line asks for. Paths are the words of the command line themselves; NULL where none is given. */
struct options {
    enum command command;
    bool help, version;
    bool fresh;
    bool dump, ranges, quiet, json;
    const char *file;
    const char *index;
    const char *names;
    const char *memory;
    const char *out;
    const char *map;
    const char *picture;
    struct number scale;
    struct form_choice form;
    struct number low, high;
    struct number main_base, zero_base;
    struct number from_main, from_zero;
    struct number to_main, to_zero;
};

/* A number that the call takes: its option, its value, whether that was given, and the most that it may be. */
struct setting {
    const char *option;
    uint32_t value;
    bool given;
    uint32_t most;
};

/* Room for the settings of any command. */
enum { SETTINGS_MOST = 32 };

/* Reads the command line, with the default settings where none are given. False after a complaint. */
bool parse_options(int count, char **words, struct options *options);

/* What the call goes by: FILE, or the index of a move. */
const char *source_of(const struct options *options);

/* Whether the call has a form; and its number settings, whose count is returned. */
bool has_form(const struct options *options);
size_t list_settings(const struct options *options, struct setting settings[SETTINGS_MOST]);

const char *command_name(enum command command);
const char *form_name(enum form form);

#endif
