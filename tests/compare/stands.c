#include "stands.h"

#include <string.h>

enum { ADDRESSES = 65536, ANSWER_BYTES = 4 * ANSWER_NUMBERS };

/* What the move by file was, and what it left. */
struct by_file {
    struct contents file;
    uint32_t settings[SETTINGS];
    uint8_t memory[ADDRESSES], map[ADDRESSES];
    uint32_t answer[ANSWER_NUMBERS];
};

void take_index(struct driver *driver)
{
    struct contents *input = &driver->request.buffers[FILE_BYTES];
    input->length = answered(driver, AT_LOW);
    memcpy(input->bytes, left_in(driver, INDEX), input->length);
}

static bool move_by_file(struct driver *driver, struct by_file *by_file)
{
    memcpy(by_file->settings, driver->request.settings, sizeof by_file->settings);
    by_file->file.length = driver->request.buffers[FILE_BYTES].length;
    memcpy(by_file->file.bytes, driver->request.buffers[FILE_BYTES].bytes, by_file->file.length);
    if (!agree(driver))
        return false;
    memcpy(by_file->memory, left_in(driver, MEMORY), ADDRESSES);
    memcpy(by_file->map, left_in(driver, MAP), ADDRESSES);
    for (int at = 0; at < ANSWER_NUMBERS; at++)
        by_file->answer[at] = answered(driver, at);
    return true;
}

/* "Build it from a file at given bases, ... with its load's map, answer and refusals". Of the loads by which the move was judged, the refused
 * one is refused by the builder alike; both calls that are accepted have the map and the answer of the load at the new bases. */
static bool build_fits(const struct driver *driver, const struct by_file *by_file, uint32_t side)
{
    uint32_t number = answered(driver, AT_NUMBER), moved = by_file->answer[AT_NUMBER];
    if (moved != 0 && by_file->answer[AT_SIDE] == side)
        return number == moved && answered(driver, AT_OFFSET) == by_file->answer[AT_OFFSET];
    if (moved != 0)
        return side == 1 || number == 0 || number == 25;
    if (side == 0 || number != 0)
        return number == 0 || number == 25;
    for (int at = 0; at < AT_LOW; at++)
        if (answered(driver, at) != by_file->answer[at])
            return false;
    return memcmp(left_in(driver, MAP), by_file->map, ADDRESSES) == 0;
}

/* Builds the index at the old bases (side 0) or the new, and says whether there is one. */
static bool build(struct driver *driver, const struct by_file *by_file, uint32_t side, bool *built)
{
    struct request *request = &driver->request;
    request->call = INDEX_BUILD;
    request->settings[MAIN] = by_file->settings[side == 0 ? MAIN : NEW_MAIN];
    request->settings[ZERO] = by_file->settings[side == 0 ? ZERO : NEW_ZERO];
    if (!agree(driver))
        return false;
    *built = answered(driver, AT_NUMBER) == 0;
    if (build_fits(driver, by_file, side))
        return true;
    complain(driver, "the builder has another answer or map than a move by its file");
    return false;
}

/* The last call was refused: "refusal offsets are those of its entries", which begin with their lengths; 2 is at 0. */
static bool at_an_entry(const struct driver *driver)
{
    const struct contents *index = &driver->request.buffers[FILE_BYTES];
    size_t offset = answered(driver, AT_OFFSET), at = 1;
    if (answered(driver, AT_NUMBER) == 2)
        return offset == 0;
    while (at < offset && at < index->length)
        at += 2 + 256u * index->bytes[at] + index->bytes[at + 1];
    return at == offset && at < index->length;
}

/* "A move by a built index must give the same memory, map and answer as one by its file; ... refusal offsets are those of its entries" */
static bool move_by_index(struct driver *driver, const struct by_file *by_file)
{
    struct request *request = &driver->request;
    request->call = INDEX_MOVE;
    memcpy(request->settings, by_file->settings, sizeof by_file->settings);
    if (!agree(driver))
        return false;
    bool same = memcmp(left_in(driver, MEMORY), by_file->memory, ADDRESSES) == 0 && memcmp(left_in(driver, MAP), by_file->map, ADDRESSES) == 0;
    for (int at = 0; at < ANSWER_NUMBERS; at++)
        same = same && (at == AT_OFFSET || answered(driver, at) == by_file->answer[at]);
    if (!same)
        complain(driver, "a move by the index leaves something else than one by its file");
    else if (answered(driver, AT_NUMBER) != 0 && !at_an_entry(driver))
        complain(driver, "a move by the index is refused at an offset that no entry has");
    else
        return true;
    return false;
}

/* An index is the same from all bases at which its file is accepted; whichever there is, the move is made by it. */
static bool index_of_file_stands(struct driver *driver, struct by_file *by_file)
{
    struct request *request = &driver->request;
    bool at_old, at_new;
    if (!move_by_file(driver, by_file) || !build(driver, by_file, 0, &at_old))
        return false;
    uint32_t length = at_old ? answered(driver, AT_LOW) : 0;
    if (at_old)
        memcpy(request->buffers[INDEX].bytes, left_in(driver, INDEX), ADDRESSES);
    if (!build(driver, by_file, 1, &at_new))
        return false;
    if (!at_old && !at_new)
        return true;
    if (at_old && at_new && memcmp(left_in(driver, INDEX), request->buffers[INDEX].bytes, ADDRESSES) != 0) {
        complain(driver, "the index is another at the new bases");
        return false;
    }
    if (at_new) {
        take_index(driver);
    } else {
        request->buffers[FILE_BYTES].length = length;
        memcpy(request->buffers[FILE_BYTES].bytes, request->buffers[INDEX].bytes, length);
    }
    return move_by_index(driver, by_file);
}

bool index_stands(struct driver *driver)
{
    struct request *request = &driver->request;
    struct by_file by_file;
    if (!index_of_file_stands(driver, &by_file))
        return false;
    request->call = ACX_MOVE;
    memcpy(request->settings, by_file.settings, sizeof by_file.settings);
    request->buffers[FILE_BYTES].length = by_file.file.length;
    memcpy(request->buffers[FILE_BYTES].bytes, by_file.file.bytes, by_file.file.length);
    return true;
}
