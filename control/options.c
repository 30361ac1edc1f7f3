#include "options.h"
#include "errors.h"
#include "files.h"
#include "number.h"
#include "picture.h"

#include <string.h>

enum {
    SDX = 1u << COMMAND_SDX,
    ACX = 1u << COMMAND_ACX,
    INDEX = 1u << COMMAND_INDEX,
    MOVE = 1u << COMMAND_MOVE,
    WITH_MEMORY = SDX | ACX | MOVE,
    ANY = WITH_MEMORY | INDEX
};

enum { ZERO_BASE_MOST = 255 };

enum kind { FLAG, NUMBER, FORM, PATH };

/* An option: the commands it belongs to, what follows it, and the member of struct options that it sets. A number that is a setting of the
 * call has the most that it may be, other numbers 0. */
struct option {
    const char *name;
    unsigned commands;
    enum kind kind;
    size_t member;
    uint32_t most;
};

/* What follows an option is told by the type of its member, so the two can't disagree. */
#define KIND_OF(member) \
    _Generic(((struct options *)NULL)->member, bool: FLAG, struct number: NUMBER, struct form_choice: FORM, const char *: PATH)
#define OPTION(name, commands, member) {name, commands, KIND_OF(member), offsetof(struct options, member), 0}
#define SETTING(name, commands, member, most) {name, commands, KIND_OF(member), offsetof(struct options, member), most}

static const struct option OPTIONS[] = {
    OPTION("--form", ACX | INDEX | MOVE, form),
    SETTING("--main", ACX | INDEX, main_base, ADDRESS_MOST),
    SETTING("--zero", ACX | INDEX, zero_base, ZERO_BASE_MOST),
    SETTING("--low", SDX, low, ADDRESS_MOST),
    SETTING("--high", SDX, high, ADDRESS_MOST),
    OPTION("--names", SDX, names),
    OPTION("--index", MOVE, index),
    SETTING("--from-main", MOVE, from_main, ADDRESS_MOST),
    SETTING("--from-zero", MOVE, from_zero, ZERO_BASE_MOST),
    SETTING("--to-main", MOVE, to_main, ADDRESS_MOST),
    SETTING("--to-zero", MOVE, to_zero, ZERO_BASE_MOST),
    OPTION("--memory", WITH_MEMORY, memory),
    OPTION("--fresh", SDX | ACX, fresh),
    OPTION("--out", ANY, out),
    OPTION("--map", ANY, map),
    OPTION("--picture", ANY, picture),
    OPTION("--scale", ANY, scale),
    OPTION("--dump", WITH_MEMORY, dump),
    OPTION("--ranges", ANY, ranges),
    OPTION("--quiet", ANY, quiet),
    OPTION("--json", ANY, json),
    OPTION("--version", ANY, version),
    OPTION("--help", ANY, help),
    OPTION("-h", ANY, help),
};

enum { OPTION_COUNT = sizeof OPTIONS / sizeof OPTIONS[0] };
_Static_assert(OPTION_COUNT <= 32, "an option has no bit in struct reading's `given`");
_Static_assert((int)OPTION_COUNT <= (int)SETTINGS_MOST, "a command's settings may have no room");

static const char *const COMMANDS[] = {[COMMAND_SDX] = "sdx", [COMMAND_ACX] = "acx", [COMMAND_INDEX] = "index", [COMMAND_MOVE] = "move"};

static const char *const FORMS[] = {[FORM_DISK] = "disk", [FORM_DEVICE] = "device"};

/* The words of the command line as they are read. Bit i of `given` says that option i has come. */
struct reading {
    int count;
    char **words;
    int at;
    uint32_t given;
    bool options_ended;
};

const char *command_name(enum command command)
{
    return COMMANDS[command];
}

const char *form_name(enum form form)
{
    return FORMS[form];
}

const char *source_of(const struct options *options)
{
    return options->index != NULL ? options->index : options->file;
}

bool has_form(const struct options *options)
{
    return options->command != COMMAND_SDX && options->index == NULL;
}

size_t list_settings(const struct options *options, struct setting settings[SETTINGS_MOST])
{
    size_t count = 0;
    for (size_t i = 0; i < OPTION_COUNT; i++) {
        if (OPTIONS[i].most == 0 || (OPTIONS[i].commands & (1u << options->command)) == 0)
            continue;
        const struct number *number = (const void *)((const char *)options + OPTIONS[i].member);
        settings[count++] = (struct setting){OPTIONS[i].name, number->value, number->given, OPTIONS[i].most};
    }
    return count;
}

static void take_default_settings(struct options *options)
{
    *options = (struct options){
        .form.value = FORM_DISK,
        .scale.value = 1,
        .low.value = TKW_DEFAULT_LOW,
        .high.value = TKW_DEFAULT_HIGH,
        .main_base.value = TKW_DEFAULT_MAIN_BASE,
        .zero_base.value = TKW_DEFAULT_ZERO_BASE,
        .from_main.value = TKW_DEFAULT_MAIN_BASE,
        .from_zero.value = TKW_DEFAULT_ZERO_BASE,
    };
}

/* The place of a word in a list, or the list's length. */
static size_t place_of(const char *word, const char *const *list, size_t length)
{
    size_t place = 0;
    while (place < length && strcmp(word, list[place]) != 0)
        place++;
    return place;
}

static bool take_command(const char *word, enum command *command)
{
    size_t count = sizeof COMMANDS / sizeof COMMANDS[0];
    size_t place = place_of(word, COMMANDS, count);
    *command = (enum command)place;
    if (word[0] == '-')
        return misused(word, "the command comes first: sdx, acx, index or move");
    return place < count || misused(word, "unknown command");
}

static bool take_form(const struct option *option, const char *value, struct form_choice *form)
{
    size_t count = sizeof FORMS / sizeof FORMS[0];
    size_t place = place_of(value, FORMS, count);
    *form = (struct form_choice){(enum form)place, true};
    return place < count || misused(option->name, "is disk or device");
}

static bool take_number(const struct option *option, const char *value, struct number *number)
{
    number->given = true;
    return parse_number(value, strlen(value), &number->value)
        || misused(option->name, "needs a number of at most 32 bits: decimal, 0x hex or $ hex");
}

/* Sets the option's member from its value. */
static bool take_value(const struct option *option, const char *value, struct options *options)
{
    void *member = (char *)options + option->member;
    switch (option->kind) {
    case FLAG:
        *(bool *)member = true;
        return true;
    case PATH:
        *(const char **)member = value;
        return true;
    case FORM:
        return take_form(option, value, member);
    case NUMBER:
        return take_number(option, value, member);
    }
    return false;
}

/* Finds the option that has the word's first letters, this many, for its name. False after a complaint. */
static bool find_option(const char *word, size_t length, enum command command, size_t *found)
{
    size_t i = 0;
    while (i < OPTION_COUNT && (strlen(OPTIONS[i].name) != length || strncmp(word, OPTIONS[i].name, length) != 0))
        i++;
    *found = i;
    if (i == OPTION_COUNT)
        return misused(word, "unknown option");
    return (OPTIONS[i].commands & (1u << command)) != 0 || misused(OPTIONS[i].name, "is not an option of %s", COMMANDS[command]);
}

/* Takes the option at hand, with its value where it has one: behind a '=', or the next word. */
static bool take_option(struct reading *reading, struct options *options)
{
    const char *word = reading->words[reading->at];
    const char *equals = strchr(word, '=');
    const char *value = equals == NULL ? NULL : equals + 1;
    size_t i;
    if (!find_option(word, equals == NULL ? strlen(word) : (size_t)(equals - word), options->command, &i))
        return false;
    const struct option *option = &OPTIONS[i];
    if ((reading->given >> i & 1) != 0)
        return misused(option->name, "is given twice");
    reading->given |= UINT32_C(1) << i;
    if (option->kind == FLAG && value != NULL)
        return misused(option->name, "takes no value");
    if (option->kind != FLAG && value == NULL) {
        /* A word that looks like an option is none's value: that was forgotten. A file of such a name can be given as --option=NAME. */
        if (reading->at + 1 == reading->count || strncmp(reading->words[reading->at + 1], "--", 2) == 0)
            return misused(option->name, "needs a value");
        value = reading->words[++reading->at];
    }
    return take_value(option, value, options);
}

static bool take_word(struct reading *reading, struct options *options)
{
    const char *word = reading->words[reading->at];
    if (!reading->options_ended && strcmp(word, "--") == 0) {
        reading->options_ended = true;
        return true;
    }
    if (!reading->options_ended && word[0] == '-' && word[1] != '\0')
        return take_option(reading, options);
    if (options->file != NULL)
        return misused(word, "is a second FILE");
    options->file = word;
    return true;
}

/* Options that can't go together. */
static bool check_pairs(const struct options *options)
{
    const struct {
        bool both;
        const char *one, *other;
    } pairs[] = {
        {options->json && options->dump, "--dump", "--json"},
        {options->json && options->ranges, "--ranges", "--json"},
        {options->json && options->quiet, "--quiet", "--json"},
        {options->quiet && options->dump, "--dump", "--quiet"},
        {options->quiet && options->ranges, "--ranges", "--quiet"},
        {options->fresh && options->memory != NULL, "--fresh", "--memory"},
        {options->index != NULL && options->file != NULL, "--index", "FILE"},
        {options->index != NULL && options->form.given, "--form", "--index"},
        {is_standard_input(options->index) && is_standard_input(options->memory), "--index from standard input", "--memory from there"},
        {is_standard_input(options->file) && is_standard_input(options->memory), "FILE from standard input", "--memory from there"},
        {is_standard_input(options->file) && is_standard_input(options->names), "FILE from standard input", "--names from there"},
        {is_standard_input(options->memory) && is_standard_input(options->names), "--memory from standard input", "--names from there"},
    };
    for (size_t i = 0; i < sizeof pairs / sizeof pairs[0]; i++)
        if (pairs[i].both)
            return misused(pairs[i].one, "cannot go with %s", pairs[i].other);
    return true;
}

/* What a command needs. A move without its image would be one of zeros, and one without a new base would go nowhere. */
static bool check_needs(const struct options *options)
{
    const char *command = COMMANDS[options->command];
    if (source_of(options) == NULL)
        return misused(command, options->command == COMMAND_MOVE ? "FILE or --index is missing" : "FILE is missing");
    if (options->command == COMMAND_INDEX && options->out == NULL)
        return misused(command, "needs --out, the file that the index goes to");
    if (options->command == COMMAND_MOVE && options->memory == NULL)
        return misused(command, "needs --memory, the image that the handler is in");
    if (options->command == COMMAND_MOVE && !options->to_main.given && !options->to_zero.given)
        return misused(command, "needs --to-main or --to-zero, a base that the handler goes to");
    if (options->scale.given && options->picture == NULL)
        return misused("--scale", "needs --picture");
    if (options->scale.value < 1 || options->scale.value > PICTURE_SCALE_MOST)
        return misused("--scale", "is %u; 1 to %d", options->scale.value, PICTURE_SCALE_MOST);
    return true;
}

/* A base that a move does not name stays. */
static void keep_other_base(struct options *options)
{
    if (!options->to_main.given)
        options->to_main.value = options->from_main.value;
    if (!options->to_zero.given)
        options->to_zero.value = options->from_zero.value;
}

/* The command line of a program that is only asked about itself. True if it is one. */
static bool take_question(const char *word, struct options *options)
{
    options->help = strcmp(word, "--help") == 0 || strcmp(word, "-h") == 0;
    options->version = strcmp(word, "--version") == 0;
    return options->help || options->version;
}

bool parse_options(int count, char **words, struct options *options)
{
    struct reading reading = {.count = count, .words = words, .at = 2};
    take_default_settings(options);
    if (take_question(words[1], options))
        return count == 2 || misused(words[2], "nothing goes with %s", words[1]);
    if (!take_command(words[1], &options->command))
        return false;
    for (; reading.at < count; reading.at++)
        if (!take_word(&reading, options))
            return false;
    if (options->help || options->version)
        return true;
    keep_other_base(options);
    return check_needs(options) && check_pairs(options);
}
