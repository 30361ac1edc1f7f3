#include "report.h"
#include "explain.h"
#include "rows.h"
#include "text.h"

#include <stdbool.h>

/* "1 byte", "2 bytes" */
static void print_count(FILE *stream, size_t count, const char *thing)
{
    fprintf(stream, "%zu %s%s", count, thing, count == 1 ? "" : "s");
}

static void print_names(FILE *stream, const struct buffers *buffers, uint32_t count)
{
    fprintf(stream, "new names  %u\n", count);
    for (uint32_t i = 0; i < count; i++) {
        fputs("  ", stream);
        print_name(stream, buffers->new_names + i * TKW_NAME_LENGTH, HEX_ESCAPE);
        fprintf(stream, "  $%04X\n", read_word(buffers->new_addresses + 2 * i));
    }
}

/* A line for each run of one mark. */
static void print_ranges(FILE *stream, const uint8_t *map)
{
    for (size_t from = 0, last; from < TKW_MEMORY_LENGTH; from = last + 1) {
        last = run_end(map, from);
        if (map[from] == TKW_UNTOUCHED)
            continue;
        fprintf(stream, "  $%04zX-$%04zX  %-9s  ", from, last, mark_of(map[from]));
        print_count(stream, last - from + 1, "byte");
        fputc('\n', stream);
    }
}

/* The last address of the run of loaded bytes that begins at `from`, adjusted or not; and how many of them are adjusted. */
static size_t loaded_end(const uint8_t *map, size_t from, size_t *adjusted)
{
    size_t last = from;
    *adjusted = map[from] == TKW_ADJUSTED;
    while (last + 1 < TKW_MEMORY_LENGTH && is_loaded(map[last + 1])) {
        last++;
        *adjusted += map[last] == TKW_ADJUSTED;
    }
    return last;
}

/* The same with a line for each run of loaded bytes: a program of any size has few of these. */
static void print_summary(FILE *stream, const uint8_t *map)
{
    for (size_t from = 0, last; from < TKW_MEMORY_LENGTH; from = last + 1) {
        size_t adjusted = 0;
        bool loaded = is_loaded(map[from]);
        last = loaded ? loaded_end(map, from, &adjusted) : run_end(map, from);
        if (map[from] == TKW_UNTOUCHED)
            continue;
        fprintf(stream, "  $%04zX-$%04zX  %-9s  ", from, last, loaded ? "loaded" : mark_of(map[from]));
        print_count(stream, last - from + 1, "byte");
        if (adjusted > 0)
            fprintf(stream, ", %zu of them adjusted", adjusted);
        fputc('\n', stream);
    }
}

static void print_start(FILE *stream, const struct options *options, const struct buffers *buffers, const struct answer *answer)
{
    if (answer->start_present != 0)
        fprintf(stream, "start      $%04X (%u)\n", answer->start, answer->start);
    else
        fputs("start      none\n", stream);
    if (has_init(options, buffers))
        fprintf(stream, "init       $%04X (not run)\n", read_word(buffers->memory + INIT_ADDRESS));
}

/* From where to where a move went, and what people may not have meant by it: a copy overwritten, which may be the one that lives, and
 * nothing stored. */
static void print_move(FILE *stream, const struct options *options, bool copied)
{
    fprintf(stream, "moved      $%04X to $%04X, zero page $%02X to $%02X\n", options->from_main.value, options->to_main.value,
            options->from_zero.value, options->to_zero.value);
    if (copied)
        fputs("replaced   a copy of the handler that was at the new bases\n", stream);
    if (options->out == NULL)
        fputs("stored     nowhere: there is no --out\n", stream);
}

static void print_acceptance(FILE *stream, const struct options *options, const struct buffers *buffers, const struct answer *answer)
{
    print_start(stream, options, buffers, answer);
    fputs("placed     ", stream);
    print_count(stream, answer->placed, "byte");
    fputs("\nadjusted   ", stream);
    print_count(stream, answer->adjusted, "field");
    fputc('\n', stream);
    if (options->command == COMMAND_SDX) {
        print_names(stream, buffers, answer->new_names);
        fprintf(stream, "low        $%04X (%u)\n", answer->low, answer->low);
    }
    if (options->command == COMMAND_INDEX) {
        fputs("index      ", stream);
        print_count(stream, answer->low, "byte");
        fputc('\n', stream);
    }
    fputs("map\n", stream);
    if (options->ranges)
        print_ranges(stream, buffers->map);
    else
        print_summary(stream, buffers->map);
    if (options->dump) {
        fputs("dump\n", stream);
        print_loaded_rows(stream, buffers);
    }
}

/* Whether the offset is that of an entry of an index: where one is missing, it is the index's end, and another version is at its front. */
static bool is_of_entry(const struct options *options, const struct buffers *buffers, const struct answer *answer)
{
    return options->index != NULL && answer->number != TKW_WRONG_VERSION && answer->offset < buffers->file_length;
}

static void print_place(FILE *stream, const struct options *options, const struct buffers *buffers, const struct answer *answer)
{
    fprintf(stream, "%sat offset %u ($%04X) of %zu", is_of_entry(options, buffers, answer) ? "in the entry " : "", answer->offset,
            answer->offset, buffers->file_length);
    if (options->command == COMMAND_MOVE)
        fprintf(stream, " (side: %s bases)", answer->side == 0 ? "old" : "new");
    fputc('\n', stream);
}

/* That there is no index, and what is in its place if something is. */
static void print_no_index(FILE *stream, const char *out, bool former)
{
    fputs("no index is written", stream);
    if (former) {
        fputs("; ", stream);
        print_subject(stream, out);
        fputs(" stays as it was", stream);
    }
    fputc('\n', stream);
}

static void print_refusal(FILE *stream, const struct options *options, const struct buffers *buffers, const struct answer *answer)
{
    bool placed = has_place(answer->number);
    if (placed)
        print_place(stream, options, buffers, answer);
    explain_refusal(stream, options, buffers, answer);
    if (placed)
        print_file_rows(stream, buffers, answer->offset);
}

void print_report(FILE *stream, const struct options *options, const struct buffers *buffers, const struct answer *answer,
                  struct before before)
{
    bool accepted = answer->number == TKW_ACCEPTED;
    if (accepted)
        fputs("accepted\n", stream);
    else
        fprintf(stream, "refused with %u: %s\n", answer->number, tkw_number_text(answer->number));
    if (options->quiet)
        return;
    if (accepted && options->command == COMMAND_MOVE)
        print_move(stream, options, before.copy);
    if (accepted)
        print_acceptance(stream, options, buffers, answer);
    else
        print_refusal(stream, options, buffers, answer);
    if (!accepted && options->command == COMMAND_INDEX)
        print_no_index(stream, options->out, before.out);
}
