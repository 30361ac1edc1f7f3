#include "answer.h"
#include "tekoweapa.h"

static const char *const MARKS[] = {
    [TKW_UNTOUCHED] = "untouched",
    [TKW_PLACED] = "placed",
    [TKW_RESERVED] = "reserved",
    [TKW_ADJUSTED] = "adjusted",
};

uint32_t read_word(const uint8_t *bytes)
{
    return (uint32_t)bytes[0] | (uint32_t)bytes[1] << 8;
}

struct answer read_answer(const uint8_t *bytes)
{
    return (struct answer){
        .number = tkw_answer_number(bytes, TKW_AT_NUMBER),
        .offset = tkw_answer_number(bytes, TKW_AT_OFFSET),
        .side = tkw_answer_number(bytes, TKW_AT_SIDE),
        .start_present = tkw_answer_number(bytes, TKW_AT_START_PRESENT),
        .start = tkw_answer_number(bytes, TKW_AT_START),
        .placed = tkw_answer_number(bytes, TKW_AT_PLACED),
        .adjusted = tkw_answer_number(bytes, TKW_AT_ADJUSTED),
        .new_names = tkw_answer_number(bytes, TKW_AT_NEW_NAMES),
        .low = tkw_answer_number(bytes, TKW_AT_LOW),
    };
}

const char *mark_of(uint8_t mark)
{
    return mark < sizeof MARKS / sizeof MARKS[0] ? MARKS[mark] : "a mark without a meaning";
}

bool is_loaded(uint8_t mark)
{
    return mark == TKW_PLACED || mark == TKW_ADJUSTED;
}

size_t run_end(const uint8_t *map, size_t from)
{
    size_t last = from;
    while (last + 1 < TKW_MEMORY_LENGTH && map[last + 1] == map[from])
        last++;
    return last;
}
