/* Random ACX files: pieces of the three kinds in any order, each with fixups that suit it, and an end record. */
#include "make.h"

#include <string.h>

/* Take down what has been put into the file: a piece, a field of the last piece, the end. */
static void note_piece(const struct making *making, const struct made_piece *piece)
{
    struct made *made = making->made;
    if (made == NULL)
        return;
    made->pieces[made->piece_count] = *piece;
    made->pieces[made->piece_count++].address %= 65536;
}

static void note_field(const struct making *making, uint32_t type, uint32_t index, uint32_t lsb)
{
    struct made *made = making->made;
    if (made == NULL || made->field_count == FIELDS_MOST)
        return;
    struct made_field *field = &made->fields[made->field_count++];
    *field = (struct made_field){(uint16_t)(made->piece_count - 1), (uint8_t)type, (uint8_t)index, (uint8_t)lsb};
}

static void note_end(const struct making *making, uint32_t flag, uint32_t address)
{
    struct made *made = making->made;
    if (made == NULL)
        return;
    made->start_flag = flag;
    made->start = address % 65536;
}

static uint32_t pick(const struct making *making, uint32_t limit)
{
    return rng_below(making->rng, limit);
}

static uint32_t pick_code_length(const struct making *making, bool large)
{
    if (large)
        return 200 + pick(making, 54);
    switch (pick(making, 12)) {
    case 0:
        return pick(making, 3);
    case 1:
        return CODE_MOST - pick(making, 3);
    default:
        return 1 + pick(making, 40);
    }
}

/* The next piece, behind the ones of its kind so far. Zero page is kept small, so that it fits at many bases; a large handler is all
 * main. */
static struct made_piece next_piece(const struct making *making, struct reach *reach, bool large)
{
    struct made_piece piece = {.type = 0x00, .n = pick_code_length(making, large)};
    uint32_t kind = large ? 0 : pick(making, 10);
    uint32_t gap = rng_once_in(making->rng, 3) ? pick(making, 20) : 0;
    if (kind >= 8) {
        piece.type = 0x01;
        piece.address = rng_once_in(making->rng, 4) ? 65536 - piece.n : pick(making, 65537 - piece.n);
        piece.address %= 65536;
    } else if (kind >= 5) {
        piece.type = 0x0A;
        if (piece.n > 30 && !rng_once_in(making->rng, 6))
            piece.n = pick(making, 30);
        piece.address = reach->zero + gap;
        reach->zero = piece.address + piece.n;
    } else {
        piece.address = reach->main + gap;
        reach->main = piece.address + piece.n;
    }
    if (slip(making) && piece.address > 0)
        piece.address -= 1;
    return piece;
}

static void shuffle(const struct making *making, struct made_piece *pieces, uint32_t count)
{
    for (uint32_t i = count; i > 1; i--) {
        uint32_t j = pick(making, i);
        struct made_piece other = pieces[j];
        pieces[j] = pieces[i - 1];
        pieces[i - 1] = other;
    }
}

static void put_code(const struct making *making, const struct made_piece *piece)
{
    put_byte(making, piece->type);
    put_byte(making, slip(making) ? pick(making, 256) : piece->n + 2);
    put_word(making, piece->address);
    put_random(making, piece->n);
    note_piece(making, piece);
}

static bool is_free(const struct made_piece *piece, const bool used[CODE_MOST + 1], uint32_t index, uint32_t width)
{
    return index + width <= piece->n && !used[index] && !used[index + width - 1];
}

/* Lists one field of the piece that is still free, if there is one; by a slip, any index. */
static void put_item(const struct making *making, const struct made_piece *piece, uint32_t type, bool used[CODE_MOST + 1])
{
    uint32_t width = type == 6 || type == 7 ? 2 : 1;
    uint32_t index = pick(making, piece->n);
    for (uint32_t i = 0; i < piece->n && !is_free(piece, used, index, width); i++)
        index = (index + 1) % piece->n;
    if (slip(making))
        index = pick(making, rng_once_in(making->rng, 2) ? 256 : piece->n + 2);
    else if (!is_free(piece, used, index, width))
        return;
    put_byte(making, index);
    uint32_t lsb = type >= 8 ? pick(making, 256) : 0;
    if (type >= 8)
        put_byte(making, lsb);
    note_field(making, type, index, lsb);
    if (index < CODE_MOST)
        used[index] = used[index + width - 1] = true;
}

/* A fixup record of a kind that suits the piece; seldom one with as many items as it can have. */
static void put_fixup(const struct making *making, const struct made_piece *piece, bool used[CODE_MOST + 1])
{
    struct contents *file = &making->request->buffers[FILE_BYTES];
    uint32_t type = 2 + 2 * pick(making, 4) + (piece->type == 0x0A ? 1 : 0);
    if (slip(making))
        type = 2 + pick(making, 8);
    size_t record = file->length;
    if (record + 2 + 255 > CAPACITY)
        return;
    put_byte(making, type);
    put_byte(making, 0);
    uint32_t items = rng_once_in(making->rng, 12) ? (type >= 8 ? 127 : CODE_MOST) : pick(making, 6);
    for (uint32_t i = 0; i < items; i++)
        put_item(making, piece, type, used);
    size_t length = file->length - record - 2;
    file->bytes[record + 1] = (uint8_t)(slip(making) ? pick(making, 256) : length);
    /* A record of single indexes may not be empty. */
    if (length == 0 && type < 8 && !slip(making))
        file->length = record;
}

/* The end record; a start by the main base lies mostly within reach, so that it is right wherever the handler fits. */
static void put_end(const struct making *making, struct reach reach)
{
    uint32_t flag = slip(making) ? pick(making, 256) : pick(making, 3);
    uint32_t address = rng_once_in(making->rng, 3) ? pick(making, 65536) : pick(making, reach.main + 1);
    if (flag == 2 && address > reach.main && !rng_once_in(making->rng, 8))
        address = reach.main;
    if (slip(making))
        return;
    put_byte(making, 0x0B);
    put_byte(making, flag);
    put_word(making, address);
    note_end(making, flag, address);
    if (slip(making))
        put_random(making, 1 + pick(making, 4));
}

struct reach make_acx(const struct making *making)
{
    struct reach reach = {.main = rng_once_in(making->rng, 3) ? pick(making, 600) : 0};
    struct made_piece pieces[PIECES_MOST];
    bool large = rng_once_in(making->rng, 150);
    uint32_t count = large ? 100 + pick(making, PIECES_MOST - 100) : pick(making, 9);
    for (uint32_t i = 0; i < count; i++)
        pieces[i] = next_piece(making, &reach, large);
    if (rng_once_in(making->rng, 2))
        shuffle(making, pieces, count);

    if (making->made != NULL)
        making->made->piece_count = making->made->field_count = making->made->start_flag = making->made->start = 0;
    making->request->buffers[FILE_BYTES].length = 0;
    making->request->settings[FORM] = rng_once_in(making->rng, 2) ? 0 : 1;
    if (making->request->settings[FORM] == 0)
        put_word(making, slip(making) ? pick(making, 65536) : 0xFFF0);
    for (uint32_t i = 0; i < count; i++) {
        bool used[CODE_MOST + 1] = {false};
        put_code(making, &pieces[i]);
        for (uint32_t fixups = pick(making, 4); fixups > 0; fixups--)
            put_fixup(making, &pieces[i], used);
        if (slip(making))
            put_byte(making, pick(making, 256));
    }
    put_end(making, reach);
    return reach;
}

/* A base at which the reach ends at the limit or below; seldom one above it, or one out of range. */
static uint32_t pick_base(const struct making *making, uint32_t reach, uint32_t limit)
{
    uint32_t most = reach < limit ? limit - reach : 0;
    if (slip(making))
        return rng_once_in(making->rng, 4) ? limit + pick(making, 3) : most + 1;
    if (most == limit)
        most = limit - 1;
    return rng_once_in(making->rng, 6) ? most : rng_once_in(making->rng, 12) ? 0 : pick(making, most + 1);
}

void choose_bases(const struct making *making, struct reach reach, uint32_t *main, uint32_t *zero)
{
    *main = pick_base(making, reach.main, 65536);
    *zero = pick_base(making, reach.zero, 256);
}

/* The new bases of a move: anywhere, or so near that old and new places overlap. */
void choose_new_bases(const struct making *making, struct reach reach)
{
    uint32_t *settings = making->request->settings;
    choose_bases(making, reach, &settings[NEW_MAIN], &settings[NEW_ZERO]);
    if (rng_once_in(making->rng, 2)) {
        uint32_t step = pick(making, rng_once_in(making->rng, 2) || reach.main < 40 ? 40 : reach.main);
        uint32_t new_main = rng_once_in(making->rng, 2) ? settings[MAIN] + step : settings[MAIN] - step;
        if (new_main + reach.main <= 65536 && new_main < 65536)
            settings[NEW_MAIN] = new_main;
    }
    if (rng_once_in(making->rng, 4))
        settings[NEW_ZERO] = settings[ZERO];
}
