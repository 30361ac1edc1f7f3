#include "json.h"
#include "text.h"

/* A member that is a number, or null where it is absent, and the comma behind it. */
static void print_member(FILE *stream, const char *name, bool present, uint32_t number)
{
    if (present)
        fprintf(stream, "\"%s\":%u,", name, number);
    else
        fprintf(stream, "\"%s\":null,", name);
}

/* The path of what was read, or null, and the comma behind it. */
static void print_path_member(FILE *stream, const char *name, const char *path)
{
    fprintf(stream, "\"%s\":", name);
    if (path != NULL)
        print_path(stream, path, JSON_ESCAPE);
    else
        fputs("null", stream);
    fputc(',', stream);
}

/* The settings of the call by the names of their options, with '_' for '-'. */
static void print_settings(FILE *stream, const struct options *options)
{
    struct setting settings[SETTINGS_MOST];
    size_t count = list_settings(options, settings);
    fputs("\"settings\":{", stream);
    if (has_form(options))
        fprintf(stream, "\"form\":\"%s\",", form_name(options->form.value));
    for (size_t i = 0; i < count; i++) {
        fputs(i > 0 ? ",\"" : "\"", stream);
        for (const char *letter = settings[i].option + 2; *letter != '\0'; letter++)
            fputc(*letter == '-' ? '_' : *letter, stream);
        fprintf(stream, "\":%u", settings[i].value);
    }
    fputs("},", stream);
}

static void print_names(FILE *stream, const struct buffers *buffers, uint32_t count)
{
    fputs("\"new_names\":[", stream);
    for (uint32_t i = 0; i < count; i++) {
        fputs(i > 0 ? ",{\"name\":" : "{\"name\":", stream);
        print_name(stream, buffers->new_names + i * TKW_NAME_LENGTH, JSON_ESCAPE);
        fprintf(stream, ",\"address\":%u}", read_word(buffers->new_addresses + 2 * i));
    }
    fputs("],", stream);
}

static void print_ranges(FILE *stream, const uint8_t *map)
{
    const char *comma = "";
    fputs("\"ranges\":[", stream);
    for (size_t from = 0, last; from < TKW_MEMORY_LENGTH; from = last + 1) {
        last = run_end(map, from);
        if (map[from] == TKW_UNTOUCHED)
            continue;
        fprintf(stream, "%s{\"from\":%zu,\"to\":%zu,\"mark\":%u,\"meaning\":\"%s\",\"length\":%zu}",
                comma, from, last, map[from], mark_of(map[from]), last - from + 1);
        comma = ",";
    }
    fputs("]", stream);
}

void print_json(FILE *stream, const struct options *options, const struct buffers *buffers, const struct answer *answer)
{
    bool accepted = answer->number == TKW_ACCEPTED;
    fprintf(stream, "{\"version\":\"%s\",\"command\":\"%s\",", TKW_VERSION, command_name(options->command));
    print_path_member(stream, "file", options->file);
    print_path_member(stream, "index", options->index);
    print_settings(stream, options);
    /* The meanings have no character that JSON would want escaped. */
    fprintf(stream, "\"number\":%u,\"meaning\":\"%s\",", answer->number, tkw_number_text(answer->number));
    print_member(stream, "offset", !accepted, answer->offset);
    print_member(stream, "side", !accepted && options->command == COMMAND_MOVE, answer->side);
    print_member(stream, "start", answer->start_present != 0, answer->start);
    print_member(stream, "init", has_init(options, buffers), read_word(buffers->memory + INIT_ADDRESS));
    print_member(stream, "placed", accepted, answer->placed);
    print_member(stream, "adjusted", accepted, answer->adjusted);
    print_names(stream, buffers, answer->new_names);
    print_member(stream, "low", accepted && options->command == COMMAND_SDX, answer->low);
    print_member(stream, "index_length", accepted && options->command == COMMAND_INDEX, answer->low);
    print_ranges(stream, buffers->map);
    fputs("}\n", stream);
}
