#include "presence.h"
#include "errors.h"
#include "files.h"

#include <stdlib.h>
#include <string.h>

/* A load of the handler into a copy of the image. Where it is refused the map is all zero, and nothing is compared. */
struct load {
    uint8_t memory[TKW_MEMORY_LENGTH];
    uint8_t map[TKW_MEMORY_LENGTH];
    uint8_t answer[TKW_ANSWER_LENGTH];
};

enum { OLD, NEW, LOADS };

static void load_copy(const struct options *options, const struct buffers *buffers, struct number main_base, struct number zero_base,
                      struct load *load)
{
    memcpy(load->memory, buffers->memory, sizeof load->memory);
    tkw_acx_load(options->form.value, buffers->file, buffers->file_length, main_base.value, zero_base.value,
                 load->memory, sizeof load->memory, load->map, sizeof load->map, load->answer, sizeof load->answer);
}

/* Compares a byte that is placed and counts, if there is one at the address. */
static void compare(const struct load *load, size_t address, const uint8_t *image, struct likeness *likeness)
{
    if (load->map[address] == TKW_PLACED && load->memory[address] != 0) {
        likeness->bytes++;
        likeness->differing += load->memory[address] != image[address];
    }
}

/* Compares an address byte, if there is one that tells at which of the bases the handler is. */
static void compare_field(const struct load *old, const struct load *new, size_t address, const uint8_t *image, struct presence *presence)
{
    bool both = old->map[address] == TKW_ADJUSTED && new->map[address] == TKW_ADJUSTED;
    if (both && old->memory[address] != new->memory[address]) {
        presence->fields_of_old += old->memory[address] == image[address];
        presence->fields_of_new += new->memory[address] == image[address];
    }
}

bool find_handler(const struct options *options, const struct buffers *buffers, struct presence *presence)
{
    struct load *loads = malloc(LOADS * sizeof *loads);
    if (loads == NULL)
        return complain(shown_name(options->file), "there is not enough memory to move it");
    load_copy(options, buffers, options->from_main, options->from_zero, &loads[OLD]);
    load_copy(options, buffers, options->to_main, options->to_zero, &loads[NEW]);
    *presence = (struct presence){0};
    for (size_t address = 0; address < TKW_MEMORY_LENGTH; address++) {
        compare(&loads[OLD], address, buffers->memory, address < 256 ? &presence->zero_page : &presence->main);
        if (loads[OLD].map[address] == TKW_UNTOUCHED)
            compare(&loads[NEW], address, buffers->memory, &presence->at_new);
        compare_field(&loads[OLD], &loads[NEW], address, buffers->memory, presence);
    }
    free(loads);
    return true;
}

void warn_if_absent(const struct options *options, const struct presence *presence)
{
    const struct likeness *main = &presence->main;
    const struct likeness *zero_page = &presence->zero_page;
    if (2 * main->differing > main->bytes)
        warn(shown_name(options->file), 0, "the handler does not seem to be at $%04X: %zu of %zu code bytes differ there",
             options->from_main.value, main->differing, main->bytes);
    if (2 * zero_page->differing > zero_page->bytes)
        warn(shown_name(options->file), 0, "the handler's zero-page part does not seem to be at $%02X: %zu of %zu code bytes differ there",
             options->from_zero.value, zero_page->differing, zero_page->bytes);
    if (has_copy(presence) && presence->fields_of_new > presence->fields_of_old)
        warn(shown_name(options->file), 0, "the handler seems to have been moved already (address bytes as at the new bases: %zu; as at the "
             "old: %zu)", presence->fields_of_new, presence->fields_of_old);
}

bool has_copy(const struct presence *presence)
{
    return 2 * presence->at_new.differing < presence->at_new.bytes;
}
