/* Random SDX files. While a file is written, what it places, reserves and adjusts is followed here, so that the fields listed are mostly
 * good ones; nothing rests on that being right. */
#include "make.h"

#include <string.h>

enum { RUNS_MOST = 64, NAMES_MOST = 300, NAME = 8 };

struct made_block {
    bool there;
    uint32_t address, offset, length;
};

struct plan {
    const struct making *making;
    struct rng *rng;
    bool first;                    /* no block is written yet */
    uint32_t low, high;
    struct made_block blocks[8];
    uint32_t block_count;
    uint32_t run_address[RUNS_MOST], run_length[RUNS_MOST]; /* bytes placed, to find fields in */
    uint32_t run_count;
    uint8_t names[NAMES_MOST][NAME];                        /* known so far */
    uint32_t name_count;
    uint8_t marks[65536];
};

static bool wrong(struct plan *plan)
{
    return slip(plan->making);
}

static uint32_t pick(struct plan *plan, uint32_t limit)
{
    return rng_below(plan->rng, limit);
}

/* Mostly short, sometimes empty, seldom long. */
static uint32_t pick_length(struct plan *plan)
{
    switch (pick(plan, 12)) {
    case 0:
        return pick(plan, 3);
    case 1:
        return 200 + pick(plan, 1200);
    case 2:
        return rng_once_in(plan->rng, 10) ? pick(plan, 60000) : pick(plan, 300);
    default:
        return 2 + pick(plan, 40);
    }
}

/* Few names, so that they come again, and some that differ in one byte only. */
static void pick_name(struct plan *plan, uint8_t name[NAME])
{
    memcpy(name, "SYMBOL  ", NAME);
    name[6] = (uint8_t)('A' + pick(plan, 3));
    if (rng_once_in(plan->rng, 4))
        name[pick(plan, NAME)] = (uint8_t)pick(plan, 256);
}

static void keep_name(struct plan *plan, const uint8_t name[NAME])
{
    if (plan->name_count < NAMES_MOST)
        memcpy(plan->names[plan->name_count++], name, NAME);
}

static void put_name(struct plan *plan, const uint8_t name[NAME])
{
    for (int i = 0; i < NAME; i++)
        put_byte(plan->making, name[i]);
}

static void known_names(struct plan *plan)
{
    struct contents *names = &plan->making->request->buffers[KNOWN_NAMES];
    struct contents *addresses = &plan->making->request->buffers[KNOWN_ADDRESSES];
    uint32_t count = pick(plan, 6);
    if (rng_once_in(plan->rng, 30))
        count = 250 + pick(plan, wrong(plan) ? 10 : 7);
    names->length = count * NAME;
    addresses->length = count * 2;
    for (uint32_t i = 0; i < count; i++) {
        pick_name(plan, names->bytes + i * NAME);
        keep_name(plan, names->bytes + i * NAME);
    }
    rng_fill(plan->rng, addresses->bytes, addresses->length);
}

static void placed(struct plan *plan, uint32_t address, uint32_t length)
{
    memset(plan->marks + address, 1, length);
    uint32_t run = plan->run_count < RUNS_MOST ? plan->run_count++ : pick(plan, RUNS_MOST);
    plan->run_address[run] = address;
    plan->run_length[run] = length;
}

/* Where a plain block starts: at the start word, over bytes placed before, at the top of memory, or anywhere. */
static uint32_t pick_start(struct plan *plan)
{
    switch (pick(plan, 6)) {
    case 0:
        return 0x02DE + pick(plan, 5);
    case 1:
        return 65535 - pick(plan, 12);
    case 2:
    case 3:
        if (plan->run_count > 0) {
            uint32_t run = pick(plan, plan->run_count);
            return plan->run_address[run] + pick(plan, plan->run_length[run] + 2);
        }
        return pick(plan, 65536);
    default:
        return pick(plan, 65536);
    }
}

static void plain_block(struct plan *plan)
{
    uint32_t start = pick_start(plan) % 65536;
    uint32_t length = 1 + pick_length(plan);
    if (start + length > 65536)
        length = 65536 - start;
    uint32_t end = start + length - 1;
    if (start > 0 && wrong(plan))
        end = start - 1;
    if (plan->first || start >= 0xFFFA || rng_once_in(plan->rng, 2))
        put_word(plan->making, rng_once_in(plan->rng, 2) ? 0xFFFF : 0xFFFA);
    put_word(plan->making, start);
    put_word(plan->making, end);
    put_random(plan->making, length);
    placed(plan, start, length);
}

/* A number that no block has, or any if a slip or a lack of them says so. */
static uint32_t pick_free_number(struct plan *plan)
{
    uint32_t number = pick(plan, 8);
    for (int i = 0; i < 8 && plan->blocks[number].there && !wrong(plan); i++)
        number = (number + 1) % 8;
    return wrong(plan) ? pick(plan, 256) : number;
}

static void relocatable_block(struct plan *plan)
{
    uint32_t number = pick_free_number(plan);
    bool reserving = rng_once_in(plan->rng, 4);
    uint32_t offset = rng_once_in(plan->rng, 4) ? 65535 - pick(plan, 40) : pick(plan, 65536);
    uint32_t length = pick_length(plan);
    if (plan->low + length > plan->high && !wrong(plan))
        length = plan->low < plan->high ? plan->high - plan->low : 0;
    put_word(plan->making, 0xFFFE);
    put_byte(plan->making, number);
    put_byte(plan->making, wrong(plan) ? pick(plan, 256) : reserving ? 0x80 : 0x00);
    put_word(plan->making, offset);
    put_word(plan->making, length);
    if (!reserving)
        put_random(plan->making, length);
    if (number > 7 || plan->low + length > 65535)
        return;
    plan->blocks[number] = (struct made_block){true, plan->low, offset, length};
    plan->block_count++;
    if (reserving)
        memset(plan->marks + plan->low, 2, length);
    else
        placed(plan, plan->low, length);
    plan->low += length;
}

/* A word to adjust; false if none was found. */
static bool pick_field(struct plan *plan, uint32_t *field)
{
    if (wrong(plan)) {
        *field = rng_once_in(plan->rng, 4) ? 65535 - pick(plan, 3) : pick(plan, 65536);
        return true;
    }
    bool whatever_its_marks = wrong(plan);
    for (int i = 0; i < 8 && plan->run_count > 0; i++) {
        uint32_t run = pick(plan, plan->run_count);
        *field = plan->run_address[run] + pick(plan, plan->run_length[run]);
        if (whatever_its_marks || (*field <= 65534 && plan->marks[*field] == 1 && plan->marks[*field + 1] == 1))
            return true;
    }
    return false;
}

/* Steps from the counter to the field, with as many FF as it takes. */
static void put_steps(struct plan *plan, uint32_t counter, uint32_t field)
{
    while (field - counter > 251 || (field - counter >= 250 && rng_once_in(plan->rng, 2))) {
        put_byte(plan->making, 0xFF);
        counter += 250;
    }
    put_byte(plan->making, field - counter);
}

/* Lists the field, from the counter where it is near, else from a block or by itself. */
static void put_field(struct plan *plan, int64_t counter, uint32_t field)
{
    bool near = counter >= 0 && field >= counter && field - counter < 2500;
    if (near && !rng_once_in(plan->rng, 4)) {
        put_steps(plan, (uint32_t)counter, field);
        return;
    }
    uint32_t number = pick(plan, 8);
    const struct made_block *block = &plan->blocks[number];
    if (block->there && block->address <= field && field - block->address < 2500) {
        put_byte(plan->making, 0xFE);
        put_byte(plan->making, number);
        put_steps(plan, block->address, field);
        return;
    }
    put_byte(plan->making, 0xFD);
    put_word(plan->making, field);
}

/* An item for no field: FF, FE with a block that need not be there, or any byte. */
static void put_stray_item(struct plan *plan)
{
    switch (pick(plan, 3)) {
    case 0:
        put_byte(plan->making, 0xFF);
        break;
    case 1:
        put_byte(plan->making, 0xFE);
        put_byte(plan->making, pick(plan, 10));
        break;
    default:
        put_byte(plan->making, pick(plan, 256));
    }
}

static void put_body(struct plan *plan)
{
    int64_t counter = -1;
    uint32_t field = 0;
    for (uint32_t i = pick(plan, 6); i > 0 && pick_field(plan, &field); i--) {
        if (wrong(plan))
            put_stray_item(plan);
        put_field(plan, counter, field);
        counter = field;
        if (field <= 65534)
            memset(plan->marks + field, 3, 2);
    }
    if (rng_once_in(plan->rng, 8) && plan->block_count > 0 && counter >= 0 && counter < 60000)
        put_byte(plan->making, 0xFF);
    /* From the top of memory, by a slip, past it. */
    if (counter >= 65536 - 250 && wrong(plan))
        put_byte(plan->making, rng_once_in(plan->rng, 2) ? 0xFF : (uint32_t)(65535 - counter));
    if (!wrong(plan))
        put_byte(plan->making, 0xFC);
}

/* A block that is there, if there is one. */
static uint32_t pick_block(struct plan *plan)
{
    uint32_t number = pick(plan, 8);
    for (int i = 0; i < 8 && !plan->blocks[number].there && !wrong(plan); i++)
        number = (number + 1) % 8;
    return wrong(plan) ? pick(plan, 12) : number;
}

/* The length word is ignored, and is mostly untrue. */
static void update_block(struct plan *plan)
{
    put_word(plan->making, 0xFFFD);
    put_byte(plan->making, pick_block(plan));
    put_word(plan->making, rng_once_in(plan->rng, 3) ? pick(plan, 12) : pick(plan, 65536));
    put_body(plan);
}

static void names_block(struct plan *plan)
{
    uint8_t name[NAME];
    pick_name(plan, name);
    if (plan->name_count > 0 && !wrong(plan))
        memcpy(name, plan->names[pick(plan, plan->name_count)], NAME);
    put_word(plan->making, 0xFFFB);
    put_name(plan, name);
    put_word(plan->making, rng_once_in(plan->rng, 3) ? pick(plan, 12) : pick(plan, 65536));
    put_body(plan);
}

/* The name's offset is inside its block and below 65,536, where there is room for one. */
static void new_name_block(struct plan *plan)
{
    uint32_t number = pick_block(plan);
    const struct made_block *block = &plan->blocks[number % 8];
    uint32_t most = block->length < 65536 - block->offset ? block->length : 65536 - block->offset;
    if (most == 0 && !wrong(plan))
        return;
    uint32_t offset = block->offset + (rng_once_in(plan->rng, 3) ? most - 1 : pick(plan, most));
    if (wrong(plan))
        offset = rng_once_in(plan->rng, 2) ? block->offset - 1 : block->offset + block->length;
    uint8_t name[NAME];
    pick_name(plan, name);
    put_word(plan->making, 0xFFFC);
    put_byte(plan->making, number);
    put_word(plan->making, offset);
    put_name(plan, name);
    keep_name(plan, name);
}

static void one_block(struct plan *plan)
{
    uint32_t kind = pick(plan, 20);
    if (kind < 5)
        plain_block(plan);
    else if (kind < 10 && (plan->block_count < 7 || wrong(plan)))
        relocatable_block(plan);
    else if (kind < 15 && (plan->block_count > 0 || wrong(plan)))
        update_block(plan);
    else if (kind < 18 && (plan->name_count > 0 || wrong(plan)))
        names_block(plan);
    else if (plan->block_count > 0)
        new_name_block(plan);
    else
        relocatable_block(plan);
    plan->first = plan->making->request->buffers[FILE_BYTES].length == 0;
}

/* The settings before the file: low anywhere, high often at the top. */
static void choose_settings(struct plan *plan)
{
    plan->low = rng_once_in(plan->rng, 4) ? 0x0200 + pick(plan, 0x100) : pick(plan, 65536);
    plan->high = rng_once_in(plan->rng, 3) ? 65535 : rng_between(plan->rng, plan->low, 65535);
    if (plan->making->request->call == SDX_LOAD_DEFAULT) {
        plan->low = 7936;
        plan->high = 39936;
    }
    plan->making->request->settings[LOW] = plan->low;
    plan->making->request->settings[HIGH] = plan->high;
}

void make_sdx(const struct making *making)
{
    struct plan plan = {.making = making, .rng = making->rng, .first = true};
    making->request->buffers[FILE_BYTES].length = 0;
    choose_settings(&plan);
    known_names(&plan);
    if (wrong(&plan))
        put_word(making, pick(&plan, 65536));
    for (uint32_t i = 1 + pick(&plan, rng_once_in(plan.rng, 8) ? 40 : 10); i > 0; i--)
        one_block(&plan);
    /* Seldom, names up to the bound and past it. */
    if (rng_once_in(plan.rng, 40) && plan.block_count > 0)
        for (uint32_t i = 28 + pick(&plan, 8); i > 0; i--)
            new_name_block(&plan);
    /* Often, a high that the file just fits below, or just not. */
    if (making->request->call == SDX_LOAD && plan.low <= 65535 && rng_once_in(plan.rng, 4))
        making->request->settings[HIGH] = wrong(&plan) ? plan.low - 1 : plan.low;
}
