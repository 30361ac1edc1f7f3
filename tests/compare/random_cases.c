#include "random_cases.h"
#include "make.h"
#include "stands.h"

#include <stdio.h>

const char *kind_name(int kind)
{
    return kind == CHAIN ? "chains of moves" : call_name((enum call)kind);
}

static bool is_sdx(enum call call)
{
    return call == SDX_LOAD || call == SDX_LOAD_DEFAULT;
}

/* Bytes out of the air, after a sound opening as often as not. */
static void make_noise(const struct making *making)
{
    enum call call = making->request->call;
    making->request->buffers[FILE_BYTES].length = 0;
    if (rng_once_in(making->rng, 2)) {
        put_byte(making, call == INDEX_MOVE ? 0x01 : is_sdx(call) ? 0xFA + rng_below(making->rng, 6) : 0xF0);
        put_byte(making, call == INDEX_MOVE ? 0x00 : 0xFF);
    }
    for (uint32_t i = rng_below(making->rng, 60); i > 0; i--)
        put_byte(making, rng_below(making->rng, rng_once_in(making->rng, 2) ? 13 : 256));
}

static void choose_acx_settings(const struct making *making, struct reach reach)
{
    uint32_t *settings = making->request->settings;
    choose_bases(making, reach, &settings[MAIN], &settings[ZERO]);
    choose_new_bases(making, reach);
    if (slip(making))
        settings[FORM] = 1 - settings[FORM];
}

/* What the call reads, with settings for it. */
static void make_input(const struct making *making)
{
    enum call call = making->request->call;
    if (is_sdx(call))
        make_sdx(making);
    else if (call == INDEX_MOVE)
        choose_acx_settings(making, make_index(making));
    else if (call == INDEX_BUILD && rng_once_in(making->rng, 100))
        choose_acx_settings(making, make_long(making));
    else
        choose_acx_settings(making, make_acx(making));
}

/* A sound request, one with slips, a spoilt one, or noise. */
static void make_request(struct driver *driver, struct rng *rng, enum call call, struct made *made)
{
    prepare(driver, rng, call);
    uint32_t way = rng_below(rng, 16);
    uint32_t slips_once_in = way < 6 || way > 11 ? 0 : way < 9 ? 100 : 20;
    struct making making = {.rng = rng, .request = &driver->request, .slips_once_in = slips_once_in, .made = made};
    make_input(&making);
    if (way == 15 && rng_once_in(rng, 3))
        make_noise(&making);
    else if (way > 11)
        mutate(&making);
}

/* A second call with all buffers as the first left them: nothing of them may decide the answer. */
static bool again(struct driver *driver)
{
    struct request *request = &driver->request;
    for (enum buffer buffer = MEMORY; buffer < BUFFERS; buffer++)
        if (call_takes_buffer(request->call, buffer))
            for (size_t i = 0; i < request->buffers[buffer].length; i++)
                request->buffers[buffer].bytes[i] = left_in(driver, buffer)[i];
    return agree(driver);
}

/* A move by a file, sound or with slips, and one by its index. */
static bool stands_case(struct driver *driver, struct rng *rng)
{
    struct making making = {.rng = rng, .request = &driver->request, .slips_once_in = rng_once_in(rng, 4) ? 100 : 0};
    prepare(driver, rng, ACX_MOVE);
    choose_acx_settings(&making, rng_once_in(rng, 50) ? make_long(&making) : make_acx(&making));
    return index_stands(driver);
}

/* A move by an index: one that was built, or one that was made here. */
static bool index_move_case(struct driver *driver, struct rng *rng)
{
    if (rng_once_in(rng, 4))
        return stands_case(driver, rng);
    struct made made;
    make_request(driver, rng, INDEX_MOVE, &made);
    return agree(driver);
}

static bool case_of_kind(struct driver *driver, struct rng *rng, int kind)
{
    if (kind == CHAIN)
        return chain_case(driver, rng);
    if (kind == INDEX_MOVE)
        return index_move_case(driver, rng);
    make_request(driver, rng, (enum call)kind, NULL);
    return agree(driver);
}

bool random_case(struct driver *driver, int kind, uint64_t number)
{
    snprintf(driver->case_name, sizeof driver->case_name, "random case %llu, of %s", (unsigned long long)number, kind_name(kind));
    struct rng rng = rng_start(driver->seed, number + 0x100000);
    if (!case_of_kind(driver, &rng, kind))
        return false;
    return kind == CHAIN || !rng_once_in(&rng, 16) || again(driver);
}
