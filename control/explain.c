#include "explain.h"
#include "files.h"
#include "index.h"
#include "number.h"
#include "text.h"

bool has_place(uint32_t number)
{
    return number > TKW_FILE_TOO_LONG && number != TKW_INDEX_TOO_LONG;
}

/* All lengths are right here but that of the list of names. */
static void explain_buffers(FILE *stream, const struct options *options, const struct buffers *buffers)
{
    fputs("--names: ", stream);
    print_subject(stream, shown_name(options->names));
    fprintf(stream, " has %zu names; at most %d\n", buffers->known.listed, TKW_KNOWN_MOST);
}

static void explain_settings(FILE *stream, const struct options *options)
{
    struct setting settings[SETTINGS_MOST];
    size_t count = list_settings(options, settings);
    for (size_t i = 0; i < count; i++)
        if (settings[i].given && settings[i].value > settings[i].most)
            fprintf(stream, "%s is %u; 0 to %u\n", settings[i].option, settings[i].value, settings[i].most);
    /* Of commands without these two they are the defaults. */
    if (options->low.value <= ADDRESS_MOST && options->low.value > options->high.value)
        fprintf(stream, "--low is %u; 0 to %u, which is --high\n", options->low.value, options->high.value);
}

/* Whether a file may be an ACX file in device form: it begins with a code record that may have such a length. */
static bool may_be_device_form(const struct buffers *buffers)
{
    const uint8_t *file = buffers->file;
    return buffers->file_length >= 2 && (file[0] == 0x00 || file[0] == 0x01 || file[0] == 0x0A) && file[1] >= 2;
}

/* The first word, or 0 where there is none. */
static uint32_t opening_of(const struct buffers *buffers)
{
    return buffers->file_length < 2 ? 0 : read_word(buffers->file);
}

/* Whether a file begins with the marker of an SDX block. */
static bool opens_as_sdx(const struct buffers *buffers)
{
    return opening_of(buffers) >= 0xFFFA;
}

/* A file of the other kind, or of the other form, shows itself by its first bytes; only where it is refused for its opening. */
static void explain_opening(FILE *stream, const struct options *options, const struct buffers *buffers)
{
    uint32_t word = opening_of(buffers);
    bool sdx = options->command == COMMAND_SDX;
    if (word == 0xFFF0 && sdx)
        fputs("it opens F0 FF, as an ACX handler does: 'tekoweapa acx' was meant?\n", stream);
    else if (word == 0xFFF0)
        fputs("it opens F0 FF, as disk form does: '--form disk' was meant?\n", stream);
    else if (opens_as_sdx(buffers) && !sdx)
        fputs("it opens as an SDX program does: 'tekoweapa sdx' was meant?\n", stream);
    else if (may_be_device_form(buffers))
        fprintf(stream, "it opens as an ACX handler in device form may: '%s--form device' was meant?\n", sdx ? "tekoweapa acx " : "");
}

/* A file that was given as an index shows itself in the same way. */
static void explain_version(FILE *stream, const struct buffers *buffers)
{
    if (opening_of(buffers) == 0xFFF0)
        fputs("it opens F0 FF, as an ACX handler does: FILE was meant, without --index?\n", stream);
    else if (opens_as_sdx(buffers))
        fputs("it opens as an SDX program does, and is no index\n", stream);
    else if (may_be_device_form(buffers))
        fputs("it opens as an ACX handler in device form may: FILE was meant, with '--form device' and without --index?\n", stream);
}

/* The offset of this refusal is that of the name. */
static void explain_name(FILE *stream, const struct options *options, const struct buffers *buffers, size_t offset)
{
    fputs("the name is ", stream);
    print_name(stream, buffers->file + offset, HEX_ESCAPE);
    fputs(options->names == NULL ? "; --names lends none\n" : "; it is neither in the --names list nor defined before\n", stream);
}

void explain_refusal(FILE *stream, const struct options *options, const struct buffers *buffers, const struct answer *answer)
{
    if (options->index == NULL && has_place(answer->number) && is_index(buffers->file, buffers->file_length)) {
        fputs("it is a fixup index: 'tekoweapa move --index' was meant?\n", stream);
        return;
    }
    switch (answer->number) {
    case TKW_WRONG_BUFFER:
        explain_buffers(stream, options, buffers);
        break;
    case TKW_SETTING_OUT_OF_RANGE:
        explain_settings(stream, options);
        break;
    case TKW_FILE_TOO_LONG:
        fprintf(stream, "the %s has more than %d bytes\n", options->index != NULL ? "index" : "file", TKW_FILE_MOST);
        break;
    case TKW_WRONG_OPENING:
        explain_opening(stream, options, buffers);
        break;
    case TKW_NOT_KNOWN:
        if (answer->offset == 0)
            explain_opening(stream, options, buffers);
        break;
    case TKW_NAME_UNKNOWN:
        explain_name(stream, options, buffers, answer->offset);
        break;
    case TKW_WRONG_VERSION:
        explain_version(stream, buffers);
        break;
    case TKW_INDEX_TOO_LONG:
        fprintf(stream, "the index would have more than %d bytes\n", TKW_INDEX_LENGTH);
        break;
    }
}
