#include "buffers.h"
#include "errors.h"
#include "files.h"

#include <string.h>

bool is_image(const uint8_t *bytes, size_t length)
{
    (void)bytes;
    return length == TKW_MEMORY_LENGTH;
}

bool is_map(const uint8_t *bytes, size_t length)
{
    size_t i = 0;
    while (i < length && bytes[i] <= TKW_ADJUSTED)
        i++;
    return length == TKW_MEMORY_LENGTH && i == length;
}

/* Reads an image, which must have the length of memory exactly. */
static bool read_image(const char *path, uint8_t *memory, uint8_t *spare)
{
    size_t length = 0;
    if (!read_file(path, spare, TKW_MEMORY_LENGTH + 1, &length))
        return false;
    if (length > TKW_MEMORY_LENGTH)
        return complain(shown_name(path), "is no image: it has more than %d bytes", TKW_MEMORY_LENGTH);
    if (length < TKW_MEMORY_LENGTH)
        return complain(shown_name(path), "is no image: it has %zu bytes and should have %d", length, TKW_MEMORY_LENGTH);
    memcpy(memory, spare, TKW_MEMORY_LENGTH);
    return true;
}

bool fill_buffers(const struct options *options, struct buffers *buffers)
{
    /* The image goes through the room of the file, which has the one byte more that shows an image too long. */
    _Static_assert(sizeof buffers->file > TKW_MEMORY_LENGTH, "an image has no room where the file is read");
    if (options->memory != NULL && !read_image(options->memory, buffers->memory, buffers->file))
        return false;
    if (options->names != NULL && !read_names(options->names, &buffers->known))
        return false;
    return read_file(source_of(options), buffers->file, sizeof buffers->file, &buffers->file_length);
}

static void call_sdx(const struct options *options, struct buffers *buffers)
{
    tkw_sdx_load(buffers->file, buffers->file_length, options->low.value, options->high.value,
                 buffers->known.names, buffers->known.lent * TKW_NAME_LENGTH, buffers->known.addresses, buffers->known.lent * 2,
                 buffers->memory, sizeof buffers->memory, buffers->map, sizeof buffers->map,
                 buffers->new_names, sizeof buffers->new_names, buffers->new_addresses, sizeof buffers->new_addresses,
                 buffers->answer, sizeof buffers->answer);
}

static void call_acx(const struct options *options, struct buffers *buffers)
{
    tkw_acx_load(options->form.value, buffers->file, buffers->file_length, options->main_base.value, options->zero_base.value,
                 buffers->memory, sizeof buffers->memory, buffers->map, sizeof buffers->map,
                 buffers->answer, sizeof buffers->answer);
}

static void call_index(const struct options *options, struct buffers *buffers)
{
    tkw_index_build(options->form.value, buffers->file, buffers->file_length, options->main_base.value, options->zero_base.value,
                    buffers->map, sizeof buffers->map, buffers->index, sizeof buffers->index, buffers->answer, sizeof buffers->answer);
}

static void call_move_by_index(const struct options *options, struct buffers *buffers)
{
    tkw_index_move(buffers->file, buffers->file_length, options->from_main.value, options->from_zero.value,
                   options->to_main.value, options->to_zero.value,
                   buffers->memory, sizeof buffers->memory, buffers->map, sizeof buffers->map,
                   buffers->scratch, sizeof buffers->scratch, buffers->answer, sizeof buffers->answer);
}

static void call_move_by_file(const struct options *options, struct buffers *buffers)
{
    tkw_acx_move(options->form.value, buffers->file, buffers->file_length, options->from_main.value, options->from_zero.value,
                 options->to_main.value, options->to_zero.value,
                 buffers->memory, sizeof buffers->memory, buffers->map, sizeof buffers->map,
                 buffers->scratch, sizeof buffers->scratch, buffers->answer, sizeof buffers->answer);
}

struct answer call_loader(const struct options *options, struct buffers *buffers)
{
    /* The number that a call returns is also the first of its answer. */
    switch (options->command) {
    case COMMAND_SDX:
        call_sdx(options, buffers);
        break;
    case COMMAND_ACX:
        call_acx(options, buffers);
        break;
    case COMMAND_INDEX:
        call_index(options, buffers);
        break;
    case COMMAND_MOVE:
        if (options->index != NULL)
            call_move_by_index(options, buffers);
        else
            call_move_by_file(options, buffers);
        break;
    }
    return read_answer(buffers->answer);
}

bool has_init(const struct options *options, const struct buffers *buffers)
{
    return options->command == COMMAND_SDX && is_loaded(buffers->map[INIT_ADDRESS]) && is_loaded(buffers->map[INIT_ADDRESS + 1]);
}
