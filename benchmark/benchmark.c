/* Times the library beside the second implementation in C, on the same files in the same run: loads of SDX and ACX files of 1, 4, 16 and
 * 64 KiB, and moves of the ACX ones. Then the library alone, on two SDX files: one asks for the newest known name alone, the other for the
 * oldest. A time is the shortest of many calls, in rounds that go to the two in turn, so that what else the machine does counts less and
 * falls on both. Buffers are not cleared between calls: memory, map and rooms hold what the call before left there, and a handler moves to
 * and fro. */
#define _POSIX_C_SOURCE 200809L

#include "second.h"
#include "tekoweapa.h"

#include <stdio.h>
#include <stdlib.h>
#include <string.h>
#include <time.h>

enum { LOW = 4096, HIGH = 65535, MAIN_BASE = 4096, MOVED_BASE = 4112, ZERO_BASE = 128 };
enum { OLDEST = 0, NEWEST = TKW_KNOWN_MOST - 1, NAMES_BLOCKS = 5000 };
enum maker { LIBRARY, SECOND };

/* A round calls one of the two for so long, and an even number of times, so that a handler is back where it was. */
static const double ROUND_SECONDS = 0.03;
enum { ROUNDS = 10 };

/* Two that are timed in turn: the makers on one file, or two files. */
enum { PAIR = 2 };

/* All that a call is lent. */
struct buffers {
    uint8_t file[TKW_FILE_MOST];
    size_t length;
    uint8_t known_names[TKW_KNOWN_MOST * TKW_NAME_LENGTH], known_addresses[TKW_KNOWN_MOST * 2];
    uint8_t memory[TKW_MEMORY_LENGTH], map[TKW_MEMORY_LENGTH], scratch[TKW_MEMORY_LENGTH];
    uint8_t new_names[TKW_NEW_NAMES_LENGTH], new_addresses[TKW_NEW_ADDRESSES_LENGTH];
    uint8_t answer[TKW_ANSWER_LENGTH];
};

static void put(struct buffers *b, unsigned byte)
{
    b->file[b->length++] = (uint8_t)byte;
}

static void put_word(struct buffers *b, unsigned word)
{
    put(b, word % 256);
    put(b, word / 256);
}

/* Some code or data. */
static void put_bytes(struct buffers *b, unsigned count)
{
    for (unsigned i = 0; i < count; i++)
        put(b, i % 251);
}

/* SDX: a relocatable block, and an update that adjusts every word of it, one item to a word. */
static void make_words(struct buffers *b, size_t length)
{
    unsigned words = (unsigned)((length - 16) / 3);
    put_word(b, 0xFFFE);
    put_word(b, 0x0001);
    put_word(b, 0x1000);
    put_word(b, 2 * words);
    put_bytes(b, 2 * words);
    put_word(b, 0xFFFD);
    put(b, 1);
    put_word(b, 0);
    put_word(b, 0x01FE);
    put(b, 0);
    for (unsigned i = 1; i < words; i++)
        put(b, 2);
    put(b, 0xFC);
}

/* As many known names as there may be, which differ in one byte alone. */
static void know_names(struct buffers *b, unsigned differ)
{
    memset(b->known_names, 'N', sizeof b->known_names);
    for (unsigned i = 0; i < TKW_KNOWN_MOST; i++)
        b->known_names[i * TKW_NAME_LENGTH + differ] = (uint8_t)i;
}

/* SDX: a names block for a known name, its body FC alone. */
static void put_names_block(struct buffers *b, unsigned known)
{
    put_word(b, 0xFFFB);
    for (unsigned i = 0; i < TKW_NAME_LENGTH; i++)
        put(b, b->known_names[known * TKW_NAME_LENGTH + i]);
    put_word(b, 0);
    put(b, 0xFC);
}

/* SDX: blocks that each look up the oldest known name, so that all of them are searched; then data. */
static void make_names(struct buffers *b, size_t length)
{
    know_names(b, 0);
    while (length - b->length >= 13 + 7)
        put_names_block(b, OLDEST);
    unsigned rest = (unsigned)(length - b->length) - 6;
    put_word(b, 0xFFFF);
    put_word(b, LOW);
    put_word(b, LOW + rest - 1);
    put_bytes(b, rest);
}

static void put_code(struct buffers *b, unsigned address, unsigned count)
{
    put(b, 0x00);
    put(b, count + 2);
    put_word(b, address);
    put_bytes(b, count);
}

/* ACX, device form: code records of the greatest length, each with 126 of its words listed; a last one that fills the file; the end. */
static void make_handler(struct buffers *b, size_t length)
{
    unsigned address = 0;
    while (length - b->length >= 257 + 128 + 4 + 4) {
        put_code(b, address, 253);
        put_word(b, 0x7E06);
        for (unsigned i = 0; i < 126; i++)
            put(b, 2 * i);
        address += 253;
    }
    while (length - b->length > 4) {
        size_t rest = length - b->length - 4;
        unsigned count = rest > 257 ? 100 : (unsigned)rest - 4;
        put_code(b, address, count);
        address += count;
    }
    put_word(b, 0x020B);
    put_word(b, 0);
}

static uint32_t load_sdx(enum maker maker, struct buffers *b, unsigned turn)
{
    __typeof__(tkw_sdx_load) *load = maker == LIBRARY ? tkw_sdx_load : second_sdx_load;

    (void)turn;
    return load(b->file, b->length, LOW, HIGH, b->known_names, sizeof b->known_names, b->known_addresses, sizeof b->known_addresses,
                b->memory, sizeof b->memory, b->map, sizeof b->map, b->new_names, sizeof b->new_names,
                b->new_addresses, sizeof b->new_addresses, b->answer, sizeof b->answer);
}

static uint32_t load_acx(enum maker maker, struct buffers *b, unsigned turn)
{
    __typeof__(tkw_acx_load) *load = maker == LIBRARY ? tkw_acx_load : second_acx_load;

    (void)turn;
    return load(TKW_DEVICE, b->file, b->length, MAIN_BASE, ZERO_BASE, b->memory, sizeof b->memory, b->map, sizeof b->map,
                b->answer, sizeof b->answer);
}

static uint32_t move_acx(enum maker maker, struct buffers *b, unsigned turn)
{
    __typeof__(tkw_acx_move) *move = maker == LIBRARY ? tkw_acx_move : second_acx_move;
    uint32_t from = turn % 2 == 0 ? MAIN_BASE : MOVED_BASE;
    uint32_t to = turn % 2 == 0 ? MOVED_BASE : MAIN_BASE;
    return move(TKW_DEVICE, b->file, b->length, from, ZERO_BASE, to, ZERO_BASE, b->memory, sizeof b->memory, b->map, sizeof b->map,
                b->scratch, sizeof b->scratch, b->answer, sizeof b->answer);
}

typedef uint32_t timed_call(enum maker, struct buffers *, unsigned turn);

static const struct {
    const char *name;
    void (*make)(struct buffers *, size_t);
    timed_call *call;
} CASES[] = {
    {"SDX load, words adjusted", make_words, load_sdx},
    {"SDX load, names looked up", make_names, load_sdx},
    {"ACX load", make_handler, load_acx},
    {"ACX move", make_handler, move_acx},
};

/* Which byte tells the names apart: all eight are compared, or one. */
static const struct {
    const char *name;
    unsigned differ;
} SEARCHES[] = {
    {"alike in seven bytes", TKW_NAME_LENGTH - 1},
    {"unlike in the first byte", 0},
};

static double now(void)
{
    struct timespec time;
    clock_gettime(CLOCK_MONOTONIC, &time);
    return (double)time.tv_sec + (double)time.tv_nsec / 1e9;
}

/* The shortest time of a call in a round, in microseconds. */
static double shortest(const char *name, timed_call *call, enum maker maker, struct buffers *b)
{
    double begun = now(), best = 1e9;

    for (unsigned turn = 0; turn % 2 != 0 || now() - begun < ROUND_SECONDS; turn++) {
        double before = now();
        uint32_t number = call(maker, b, turn);
        double taken = now() - before;

        if (number != TKW_ACCEPTED) {
            fprintf(stderr, "benchmark: %s: refused with %u\n", name, number);
            exit(EXIT_FAILURE);
        }
        best = taken < best ? taken : best;
    }
    return best * 1e6;
}

/* The rest of a line: the times of the two, their rounds in turn, and the first's as a part of the second's. */
static void time_pair(const char *name, timed_call *call, const enum maker makers[PAIR], struct buffers *buffers)
{
    double best[PAIR] = {1e9, 1e9};

    for (int round = 0; round < ROUNDS; round++)
        for (int i = 0; i < PAIR; i++) {
            double taken = shortest(name, call, makers[i], &buffers[i]);

            best[i] = taken < best[i] ? taken : best[i];
        }
    printf(" %12.1f %12.1f %6.2f\n", best[0], best[1], best[0] / best[1]);
}

/* One line: a case at a length, the library and the second implementation. */
static void time_case(size_t i, size_t length, struct buffers *buffers)
{
    static const enum maker makers[PAIR] = {LIBRARY, SECOND};

    for (int j = 0; j < PAIR; j++) {
        buffers[j].length = 0;
        CASES[i].make(&buffers[j], length);
    }
    printf("%-26s %7zu", CASES[i].name, buffers[0].length);
    time_pair(CASES[i].name, CASES[i].call, makers, buffers);
}

/* One line: a file whose names are all the newest known, and one whose names are all the oldest. */
static void time_search(size_t i, struct buffers *buffers)
{
    static const enum maker makers[PAIR] = {LIBRARY, LIBRARY};
    static const unsigned hits[PAIR] = {NEWEST, OLDEST};

    for (int j = 0; j < PAIR; j++) {
        buffers[j].length = 0;
        know_names(&buffers[j], SEARCHES[i].differ);
        for (unsigned k = 0; k < NAMES_BLOCKS; k++)
            put_names_block(&buffers[j], hits[j]);
    }
    printf("%-26s %7zu", SEARCHES[i].name, buffers[0].length);
    time_pair(SEARCHES[i].name, load_sdx, makers, buffers);
}

int main(void)
{
    static struct buffers buffers[PAIR];
    printf("%-26s %7s %12s %12s %6s\n", "", "bytes", "library, us", "second, us", "ratio");
    for (size_t i = 0; i < sizeof CASES / sizeof CASES[0]; i++)
        for (size_t length = 1024; length <= TKW_FILE_MOST; length *= 4)
            time_case(i, length, buffers);
    printf("\n%d names blocks, %d known names\n", NAMES_BLOCKS, TKW_KNOWN_MOST);
    printf("%-26s %7s %12s %12s %6s\n", "", "bytes", "newest, us", "oldest, us", "ratio");
    for (size_t i = 0; i < sizeof SEARCHES / sizeof SEARCHES[0]; i++)
        time_search(i, buffers);
    return 0;
}
