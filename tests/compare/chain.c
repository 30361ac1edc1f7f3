/* Chains of moves of one handler. Beside the comparison of every call, all that a chain leaves is held to document 01's formulas, which
 * are kept going from memory before it (formulas.h). A chain without live changes is held to the document's words on lists of moves as
 * well: what stands at the handler's places after it is what one move from A to Z leaves there, and what a fresh load at Z leaves if the
 * handler was as loaded at A; an address that is a place at none of the bases reached is as before. Document 02, wish 5: "an index built from a
 * file stands for that file and its loads, and a list may mix moves by either. Any other index is itself the handler, ... and only the sentence
 * on a fresh load falls away." */
#include "random_cases.h"
#include "make.h"
#include "stands.h"

#include <stdio.h>
#include <string.h>

enum { MOVES_MOST = 6 };

struct chain {
    struct driver *driver;
    struct rng *rng;
    struct making making;
    struct reach reach;
    struct made made;       /* the handler */
    struct contents file;   /* its file; none if it is an index that nobody built */
    struct contents index;  /* its index; none if it would not fit */
    struct base_pair first; /* A */
    bool as_loaded;
    bool quiet; /* live data is left alone, so that the chain can be held against one move */
    bool moved;
    uint8_t before[ADDRESSES];   /* memory before the chain */
    uint8_t after[ADDRESSES];    /* memory after its last call */
    uint8_t expected[ADDRESSES]; /* memory before the chain with the formulas applied for each accepted move, and live changes */
    uint8_t map[ADDRESSES];      /* the map and the answer of the last accepted call */
    uint8_t answer[36];
    uint8_t reached[ADDRESSES];  /* the places at the bases reached */
};

/* The next call gets memory as the last one left it. */
static void take_memory(struct chain *chain)
{
    memcpy(chain->driver->request.buffers[MEMORY].bytes, left_in(chain->driver, MEMORY), ADDRESSES);
}

/* The bases where the handler is, and those where the next move takes it. */
static struct base_pair bases_now(const struct chain *chain)
{
    const uint32_t *settings = chain->driver->request.settings;
    return (struct base_pair){settings[MAIN], settings[ZERO]};
}

static struct base_pair bases_next(const struct chain *chain)
{
    const uint32_t *settings = chain->driver->request.settings;
    return (struct base_pair){settings[NEW_MAIN], settings[NEW_ZERO]};
}

/* The last call was accepted exactly if the formulas say so. */
static bool acceptance_by_formulas(const struct chain *chain, bool accepted)
{
    if ((answered(chain->driver, AT_NUMBER) == 0) == accepted)
        return true;
    complain(chain->driver, accepted ? "refused, against document 01's formulas" : "accepted, against document 01's formulas");
    return false;
}

/* The last call was accepted; its answer and map are those of a load at the bases, but for low, which a builder has. */
static bool report_by_formulas(const struct chain *chain, struct base_pair bases, uint32_t low)
{
    const struct driver *driver = chain->driver;
    struct made_answer answer = formulas_answer(&chain->made, bases);
    const uint32_t expected[ANSWER_NUMBERS] = {[AT_START_PRESENT] = answer.start_present, [AT_START] = answer.start,
                                               [AT_PLACED] = answer.placed, [AT_ADJUSTED] = answer.adjusted, [AT_LOW] = low};
    uint8_t map[ADDRESSES];
    formulas_mark(&chain->made, bases, map);
    bool good = memcmp(left_in(driver, MAP), map, ADDRESSES) == 0;
    for (int at = 0; at < ANSWER_NUMBERS; at++)
        good = good && answered(driver, at) == expected[at];
    if (!good)
        complain(driver, "the answer or the map is another by document 01's formulas");
    return good;
}

/* Memory after the last call is what the formulas have made, since the list began, of memory before it. */
static bool memory_by_formulas(const struct chain *chain)
{
    const uint8_t *memory = left_in(chain->driver, MEMORY);
    if (memcmp(memory, chain->expected, ADDRESSES) == 0)
        return true;
    uint32_t at = 0;
    while (memory[at] == chain->expected[at])
        at++;
    char what[96];
    snprintf(what, sizeof what, "memory at %u: the product has %02X, document 01's formulas %02X", at, memory[at], chain->expected[at]);
    complain(chain->driver, what);
    return false;
}

/* The last call was a move from the bases now to the next ones. The formulas make it too, and nothing differs. */
static bool move_by_formulas(struct chain *chain)
{
    struct base_pair old = bases_now(chain), new = bases_next(chain);
    bool accepted = formulas_accept(&chain->made, old) && formulas_accept(&chain->made, new);
    if (!acceptance_by_formulas(chain, accepted))
        return false;
    if (accepted)
        formulas_move(&chain->made, old, new, chain->expected);
    return (!accepted || report_by_formulas(chain, new, 0)) && memory_by_formulas(chain);
}

/* The last call was the load at A, or at Z. A large handler may make a "file longer than 65,536". */
static bool load_by_formulas(const struct chain *chain)
{
    bool accepted = chain->driver->request.buffers[FILE_BYTES].length <= 65536 && formulas_accept(&chain->made, bases_now(chain));
    return acceptance_by_formulas(chain, accepted) && (!accepted || report_by_formulas(chain, bases_now(chain), 0));
}

/* The last call was that of the builder, of a file that is accepted: "in building, after the load's refusals, 25 at offset 0 where the index
 * wouldn't fit"; "low in the answer is how many were used" */
static bool build_by_formulas(const struct chain *chain)
{
    uint8_t index[INDEX_MOST] = {0};
    uint32_t length = formulas_index(&chain->made, index);
    bool accepted = length <= INDEX_MOST;
    if (!acceptance_by_formulas(chain, accepted))
        return false;
    if (!accepted)
        return true;
    if (memcmp(left_in(chain->driver, INDEX), index, INDEX_MOST) != 0) {
        complain(chain->driver, "the index is another by document 01's formulas");
        return false;
    }
    return report_by_formulas(chain, bases_now(chain), length);
}

static void copy_contents(struct contents *to, const struct contents *from)
{
    to->length = from->length;
    memcpy(to->bytes, from->bytes, from->length);
}

/* The handler's index, built at A; none if it would not fit. */
static bool build_index(struct chain *chain)
{
    struct driver *driver = chain->driver;
    struct contents *input = &driver->request.buffers[FILE_BYTES];
    driver->request.call = INDEX_BUILD;
    copy_contents(&chain->file, input);
    if (!agree(driver) || !build_by_formulas(chain))
        return false;
    if (answered(driver, AT_NUMBER) == 0) {
        take_index(driver);
        copy_contents(&chain->index, input);
        copy_contents(input, &chain->file);
    }
    return true;
}

/* The handler is loaded at A, and its index built; false if it is not accepted there, or if something differs. */
static bool load_first(struct chain *chain, bool *agreed)
{
    struct driver *driver = chain->driver;
    uint32_t *settings = driver->request.settings;
    prepare(driver, chain->rng, ACX_LOAD);
    chain->reach = make_acx(&chain->making);
    choose_bases(&chain->making, chain->reach, &settings[MAIN], &settings[ZERO]);
    chain->first = bases_now(chain);
    *agreed = agree(driver) && load_by_formulas(chain);
    if (!*agreed || answered(driver, AT_NUMBER) != 0)
        return false;
    take_memory(chain);
    /* A chain need not begin with a handler as loaded. */
    chain->as_loaded = !rng_once_in(chain->rng, 3);
    if (!chain->as_loaded)
        rng_fill(chain->rng, driver->request.buffers[MEMORY].bytes, ADDRESSES);
    *agreed = build_index(chain);
    return *agreed;
}

/* An index that nobody built is the handler; what memory holds at A is taken for it. False if it is not accepted there. */
static bool index_first(struct chain *chain)
{
    struct request *request = &chain->driver->request;
    prepare(chain->driver, chain->rng, INDEX_MOVE);
    chain->reach = make_index(&chain->making);
    copy_contents(&chain->index, &request->buffers[FILE_BYTES]);
    choose_bases(&chain->making, chain->reach, &request->settings[MAIN], &request->settings[ZERO]);
    chain->first = bases_now(chain);
    return chain->index.length <= INDEX_MOST && formulas_accept(&chain->made, chain->first);
}

/* The next call goes by the file or by the index, whichever there is. */
static void choose_input(struct chain *chain)
{
    struct request *request = &chain->driver->request;
    bool by_index = chain->file.length == 0 || (chain->index.length > 0 && rng_once_in(chain->rng, 2));
    request->call = by_index ? INDEX_MOVE : ACX_MOVE;
    copy_contents(&request->buffers[FILE_BYTES], by_index ? &chain->index : &chain->file);
}

/* Somebody writes another byte there between two calls. */
static void change(struct chain *chain, uint32_t address)
{
    uint8_t difference = (uint8_t)(1 + rng_below(chain->rng, 255));
    chain->driver->request.buffers[MEMORY].bytes[address] ^= difference;
    chain->expected[address] ^= difference;
}

/* Any byte of a piece of this type, if there is one. */
static void change_in_piece(struct chain *chain, uint32_t type)
{
    const struct made *made = &chain->made;
    uint32_t first = rng_below(chain->rng, made->piece_count);
    for (uint32_t i = 0; i < made->piece_count; i++) {
        const struct made_piece *piece = &made->pieces[(first + i) % made->piece_count];
        if (piece->type == type && piece->n > 0) {
            change(chain, formulas_place(piece, bases_now(chain)) + rng_below(chain->rng, piece->n));
            return;
        }
    }
}

/* A byte of an address field in a piece of this type, if there is one. */
static void change_in_field(struct chain *chain, uint32_t type)
{
    const struct made *made = &chain->made;
    uint32_t first = rng_below(chain->rng, made->field_count);
    for (uint32_t i = 0; i < made->field_count; i++) {
        const struct made_field *field = &made->fields[(first + i) % made->field_count];
        const struct made_piece *piece = &made->pieces[field->piece];
        if (piece->type == type) {
            uint32_t index = field->index + rng_below(chain->rng, formulas_width(field));
            change(chain, formulas_place(piece, bases_now(chain)) + index);
            return;
        }
    }
}

/* Live data: bytes change in every kind of piece that the handler has, in its fields too, and now and then anywhere. */
static void live(struct chain *chain)
{
    static const uint32_t types[] = {0x00, 0x0A, 0x01};
    for (size_t kind = 0; kind < sizeof types / sizeof types[0]; kind++) {
        change_in_field(chain, types[kind]);
        for (uint32_t i = 1 + rng_below(chain->rng, 5); i > 0; i--)
            change_in_piece(chain, types[kind]);
    }
    if (rng_once_in(chain->rng, 3))
        change(chain, rng_below(chain->rng, ADDRESSES));
}

/* What the call goes by gives way to another file or index, sound or with slips, to itself taken for the other, or to itself damaged. */
static void choose_stray_input(struct chain *chain)
{
    struct request *request = &chain->driver->request;
    struct made other;
    struct making making = {.rng = chain->rng, .request = request, .made = &other};
    struct reach reach = chain->reach;
    making.slips_once_in = rng_once_in(chain->rng, 2) ? 20 : 0;
    switch (rng_below(chain->rng, 6)) {
    case 0:
        request->call = ACX_MOVE;
        reach = make_acx(&making);
        break;
    case 1:
        request->call = INDEX_MOVE;
        reach = make_index(&making);
        break;
    case 2:
        request->call = request->call == ACX_MOVE ? INDEX_MOVE : ACX_MOVE;
        break;
    default:
        damage(&making);
    }
    making.slips_once_in = 0;
    choose_new_bases(&making, reach);
}

/* A refused call by such an input. One that would be accepted belongs to no list of this handler: a new base out of range makes it refused. */
static bool stray_by_input(struct chain *chain)
{
    struct driver *driver = chain->driver;
    choose_stray_input(chain);
    if (!agree(driver))
        return false;
    if (answered(driver, AT_NUMBER) == 0) {
        driver->request.settings[NEW_MAIN] = 65536;
        if (!agree(driver))
            return false;
    }
    return acceptance_by_formulas(chain, false) && memory_by_formulas(chain);
}

/* A refused call by the handler's own file or index: another form, other bases, a wrong length. */
static bool stray_by_settings(struct chain *chain)
{
    struct driver *driver = chain->driver;
    switch (rng_below(chain->rng, 4)) {
    case 0:
        driver->request.settings[FORM] = rng_below(chain->rng, 4);
        driver->request.settings[NEW_MAIN] = 65536;
        break;
    case 1:
        driver->request.settings[NEW_ZERO] = 256 + rng_below(chain->rng, 2);
        break;
    case 2:
        driver->request.settings[MAIN] = 65536 + rng_below(chain->rng, 2);
        break;
    default:
        driver->request.buffers[rng_between(chain->rng, MAP, ANSWER)].length = 35;
        driver->request.settings[NEW_MAIN] = 70000;
    }
    return agree(driver) && memory_by_formulas(chain);
}

/* A call that is refused: "the refused ones with whatever form, bases, map, scratch and C answer", and here by whatever file or index.
 * Memory stays, and so does where the handler is. */
static bool stray_call(struct chain *chain)
{
    struct request *request = &chain->driver->request;
    uint32_t settings[SETTINGS];
    memcpy(settings, request->settings, sizeof settings);
    choose_input(chain);
    bool good = rng_once_in(chain->rng, 2) ? stray_by_input(chain) : stray_by_settings(chain);
    for (enum buffer buffer = MAP; buffer <= ANSWER; buffer++)
        request->buffers[buffer].length = room_length(buffer);
    memcpy(request->settings, settings, sizeof settings);
    return good;
}

/* One move from where the handler is; if it is accepted, the handler is there. */
static bool move_on(struct chain *chain)
{
    struct driver *driver = chain->driver;
    uint32_t *settings = driver->request.settings;
    choose_new_bases(&chain->making, chain->reach);
    if (!agree(driver) || !move_by_formulas(chain))
        return false;
    take_memory(chain);
    if (answered(driver, AT_NUMBER) != 0)
        return true;
    settings[MAIN] = settings[NEW_MAIN];
    settings[ZERO] = settings[NEW_ZERO];
    chain->moved = true;
    memcpy(chain->map, left_in(driver, MAP), ADDRESSES);
    memcpy(chain->answer, left_in(driver, ANSWER), sizeof chain->answer);
    for (uint32_t address = 0; address < ADDRESSES; address++)
        chain->reached[address] |= chain->map[address] != 0;
    return true;
}

/* The last call left the same answer, map and bytes at the places at Z as the chain. */
static bool chain_equals(const struct chain *chain, const char *other)
{
    const struct driver *driver = chain->driver;
    const char *what = NULL;
    if (memcmp(left_in(driver, ANSWER), chain->answer, sizeof chain->answer) != 0)
        what = "answer";
    if (memcmp(left_in(driver, MAP), chain->map, ADDRESSES) != 0)
        what = "map";
    for (uint32_t address = 0; address < ADDRESSES; address++)
        if (chain->map[address] != 0 && chain->after[address] != left_in(driver, MEMORY)[address])
            what = "handler";
    if (what == NULL)
        return true;
    char wrong[96];
    snprintf(wrong, sizeof wrong, "%s leaves another %s than the chain", other, what);
    complain(driver, wrong);
    return false;
}

/* The one move from A to Z starts from memory before the chain. */
static bool one_move_does(struct chain *chain)
{
    struct request *request = &chain->driver->request;
    uint32_t *settings = request->settings;
    settings[NEW_MAIN] = settings[MAIN];
    settings[NEW_ZERO] = settings[ZERO];
    settings[MAIN] = chain->first.main;
    settings[ZERO] = chain->first.zero;
    choose_input(chain);
    memcpy(request->buffers[MEMORY].bytes, chain->before, ADDRESSES);
    memcpy(chain->expected, chain->before, ADDRESSES);
    return agree(chain->driver) && move_by_formulas(chain) && chain_equals(chain, "one move from A to Z");
}

/* A fresh load at Z, into any memory. */
static bool fresh_load_does(struct chain *chain)
{
    struct request *request = &chain->driver->request;
    request->call = ACX_LOAD;
    copy_contents(&request->buffers[FILE_BYTES], &chain->file);
    request->settings[MAIN] = request->settings[NEW_MAIN];
    request->settings[ZERO] = request->settings[NEW_ZERO];
    return agree(chain->driver) && load_by_formulas(chain) && chain_equals(chain, "a fresh load at Z");
}

/* What document 01 says of a list of moves while nobody else writes memory. */
static bool list_holds(struct chain *chain)
{
    memcpy(chain->after, chain->driver->request.buffers[MEMORY].bytes, ADDRESSES);
    for (uint32_t address = 0; address < ADDRESSES; address++)
        if (!chain->reached[address] && chain->after[address] != chain->before[address]) {
            complain(chain->driver, "the chain changed an address that it did not reach");
            return false;
        }
    return one_move_does(chain) && (!chain->as_loaded || fresh_load_does(chain));
}

static bool run_chain(struct chain *chain)
{
    bool agreed = true;
    if (rng_once_in(chain->rng, 4) ? !index_first(chain) : !load_first(chain, &agreed))
        return agreed;
    struct request *request = &chain->driver->request;
    memcpy(chain->before, request->buffers[MEMORY].bytes, ADDRESSES);
    memcpy(chain->expected, chain->before, ADDRESSES);
    for (uint32_t moves = 1 + rng_below(chain->rng, MOVES_MOST); moves > 0; moves--) {
        request->placement = (enum placement)rng_below(chain->rng, PLACEMENTS);
        if (!chain->quiet)
            live(chain);
        if (rng_once_in(chain->rng, 4) && !stray_call(chain))
            return false;
        choose_input(chain);
        chain->making.slips_once_in = rng_once_in(chain->rng, 4) ? 4 : 0;
        if (!move_on(chain))
            return false;
    }
    return !chain->quiet || !chain->moved || list_holds(chain);
}

bool chain_case(struct driver *driver, struct rng *rng)
{
    struct chain chain = {.driver = driver, .rng = rng};
    chain.making = (struct making){.rng = rng, .request = &driver->request, .made = &chain.made};
    chain.quiet = rng_once_in(rng, 2);
    return run_chain(&chain);
}
