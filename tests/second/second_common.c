#include "second_common.h"

uint32_t second_word(const uint8_t *bytes)
{
    return bytes[0] + 256u * bytes[1];
}

void second_put_word(uint8_t *bytes, uint32_t word)
{
    bytes[0] = (uint8_t)(word % 256);
    bytes[1] = (uint8_t)(word / 256 % 256);
}

struct outcome second_refusal(uint32_t number, size_t offset)
{
    return (struct outcome){.number = number, .offset = (uint32_t)offset};
}

uint32_t second_report(const struct outcome *outcome, uint8_t *answer)
{
    const uint32_t numbers[9] = {
        outcome->number, outcome->offset, outcome->side, outcome->start_present, outcome->start,
        outcome->placed, outcome->adjusted, outcome->new_names, outcome->low,
    };
    for (int i = 0; i < 9; i++) {
        second_put_word(answer + 4 * i, numbers[i] % 65536);
        second_put_word(answer + 4 * i + 2, numbers[i] / 65536);
    }
    return outcome->number;
}
