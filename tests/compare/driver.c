#include "driver.h"

#include <stdio.h>
#include <stdlib.h>
#include <string.h>
#include <unistd.h>

/* A call that takes longer has not ended; the watching process then reports it. */
enum { CALL_SECONDS = 60 };

void prepare(struct driver *driver, struct rng *rng, enum call call)
{
    struct request *request = &driver->request;
    request->call = call;
    request->placement = (enum placement)rng_below(rng, PLACEMENTS);
    request->null_if_empty = rng_once_in(rng, 2);
    for (enum buffer buffer = 0; buffer < BUFFERS; buffer++) {
        struct contents *contents = &request->buffers[buffer];
        contents->length = room_length(buffer);
        rng_fill(rng, contents->bytes, contents->length);
        /* Former marks are as often such as a load leaves, which a loader might take for its own. */
        if (buffer == MAP && rng_once_in(rng, 2))
            for (size_t i = 0; i < contents->length; i++)
                contents->bytes[i] %= 4;
    }
}

const uint8_t *left_in(const struct driver *driver, enum buffer buffer)
{
    return driver->arenas[PRODUCT][buffer].lent;
}

uint32_t answered(const struct driver *driver, int at)
{
    const uint8_t *bytes = left_in(driver, ANSWER) + 4 * at;
    return bytes[0] | (uint32_t)bytes[1] << 8 | (uint32_t)bytes[2] << 16 | (uint32_t)bytes[3] << 24;
}

void complain(const struct driver *driver, const char *what)
{
    printf("\nFAILED: %s\n  %s, seed %llu\n", what, driver->case_name, (unsigned long long)driver->seed);
    describe(stdout, &driver->request);
}

void count(struct driver *driver, bool passed)
{
    if (passed)
        driver->passed++;
    else
        driver->failed++;
    if (!passed && driver->stop)
        exit(EXIT_FAILURE);
}

uint32_t call_with(struct driver *driver, enum maker maker, enum buffer elsewhere, uint8_t *bytes)
{
    const struct request *request = &driver->request;
    uint8_t *lent[BUFFERS] = {NULL};
    for (enum buffer buffer = 0; buffer < BUFFERS; buffer++) {
        if (!call_takes_buffer(request->call, buffer) || buffer == elsewhere)
            continue;
        const struct contents *contents = &request->buffers[buffer];
        struct loan loan = {contents->bytes, contents->length, request->placement, buffer_is_input(buffer)};
        lent[buffer] = arena_lend(&driver->arenas[maker][buffer], &loan);
        if (contents->length == 0 && request->null_if_empty)
            lent[buffer] = NULL;
    }
    if (elsewhere < BUFFERS)
        lent[elsewhere] = bytes;
    driver->calling = maker;
    alarm(CALL_SECONDS);
    uint32_t number = perform(request, maker, lent);
    alarm(0);
    return number;
}

/* True if the two runs of bytes are equal; else says where they first differ. */
static bool same(const struct driver *driver, enum buffer buffer, const uint8_t *ours, const uint8_t *theirs, const char *whose)
{
    size_t length = driver->request.buffers[buffer].length;
    if (length == 0 || memcmp(ours, theirs, length) == 0)
        return true;
    size_t at = 0;
    while (ours[at] == theirs[at])
        at++;
    char what[160];
    snprintf(what, sizeof what, "%s at %zu: the product has %02X, %s %02X", buffer_name(buffer), at, ours[at], whose, theirs[at]);
    complain(driver, what);
    return false;
}

/* The first byte is zero, and each is as the one before it. */
static bool all_zero(const uint8_t *bytes, size_t length)
{
    return length == 0 || (bytes[0] == 0 && memcmp(bytes, bytes + 1, length - 1) == 0);
}

/* "Refusal 1 changes nothing but a C answer of the right length. Every other refusal leaves memory, new-name buffers and any other room
 * lent for output as they were and the map all zero." Held against the product alone, beside the comparison. */
static bool keeps_refusal(const struct driver *driver, uint32_t number, enum buffer buffer)
{
    const struct contents *before = &driver->request.buffers[buffer];
    const uint8_t *after = left_in(driver, buffer);
    if (buffer == ANSWER && before->length == room_length(ANSWER))
        return true;
    if (number != 1 && (buffer == MAP || buffer == SCRATCH)) {
        if (all_zero(after, before->length))
            return true;
        complain(driver, buffer == MAP ? "refused, and the map is not all zero" : "refused, and the scratch is not all zero");
        return false;
    }
    return same(driver, buffer, after, before->bytes, "before the call it was");
}

static bool buffer_agrees(const struct driver *driver, uint32_t number, enum buffer buffer)
{
    const struct arena *product = &driver->arenas[PRODUCT][buffer], *second = &driver->arenas[SECOND][buffer];
    if (!same(driver, buffer, product->lent, second->lent, "the second"))
        return false;
    if (buffer_is_input(buffer) && !same(driver, buffer, product->lent, driver->request.buffers[buffer].bytes, "before the call it was"))
        return false;
    if (!arena_slack_unchanged(product) || !arena_slack_unchanged(second)) {
        complain(driver, "bytes beside a buffer were changed");
        return false;
    }
    return number == 0 || keeps_refusal(driver, number, buffer);
}

/* Takes note of the number, for the table of what was met. */
static void note(struct driver *driver, uint32_t number)
{
    uint32_t side = driver->request.buffers[ANSWER].length == room_length(ANSWER) ? answered(driver, AT_SIDE) : 0;
    if (number < NUMBERS && side < SIDES)
        driver->met[driver->request.call][side][number]++;
}

bool agree(struct driver *driver)
{
    uint32_t ours = call_with(driver, PRODUCT, BUFFERS, NULL);
    uint32_t theirs = call_with(driver, SECOND, BUFFERS, NULL);
    driver->requests++;
    if (ours != theirs) {
        char what[96];
        snprintf(what, sizeof what, "the product returned %u, the second %u", ours, theirs);
        complain(driver, what);
        return false;
    }
    for (enum buffer buffer = 0; buffer < BUFFERS; buffer++)
        if (call_takes_buffer(driver->request.call, buffer) && !buffer_agrees(driver, ours, buffer))
            return false;
    if (driver->request.buffers[ANSWER].length == room_length(ANSWER) && answered(driver, AT_NUMBER) != ours) {
        complain(driver, "the answer has another number than was returned");
        return false;
    }
    note(driver, ours);
    return true;
}
