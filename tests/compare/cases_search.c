/* The search for a name goes through the known names from the newest end and leaves at the first hit: each is found while the older ones
 * lie in a page that cannot be read. */
#define _DEFAULT_SOURCE

#include "directed.h"
#include "notation.h"

#include <stdio.h>
#include <string.h>
#include <sys/mman.h>
#include <unistd.h>

enum { KNOWN = 256, NAME = 8 };

/* A word, $1000, that grows by the address of a known name. The names are alike in seven bytes; the eighth is the address. */
static const char file[] = "FE FF 01 00 00 10 03 00 4C 00 10 FB FF 'ENTRANT' 00 00 00 FE 01 01 FC";
enum { NAME_AT = 13, WORD_AT = 0x1F01 };

static void know_names(struct request *request)
{
    struct contents *names = &request->buffers[KNOWN_NAMES], *addresses = &request->buffers[KNOWN_ADDRESSES];
    names->length = notation_bytes("('ENTRANT' 00)*256", names->bytes, CAPACITY);
    addresses->length = notation_bytes("(00 00)*256", addresses->bytes, CAPACITY);
    for (int i = 0; i < KNOWN; i++)
        names->bytes[NAME * i + NAME - 1] = addresses->bytes[2 * i] = (uint8_t)i;
}

/* Both find the known name, which begins at an open page; the names before it end at a closed one. */
static bool found(struct driver *driver, int known, uint8_t *open)
{
    struct contents *names = &driver->request.buffers[KNOWN_NAMES];
    uint8_t *lent = open - NAME * known;
    bool good = true;

    driver->request.buffers[FILE_BYTES].bytes[NAME_AT + NAME - 1] = (uint8_t)known;
    memcpy(open, names->bytes + NAME * known, (size_t)(NAME * (KNOWN - known)));
    for (enum maker maker = 0; maker < MAKERS; maker++) {
        uint32_t number = call_with(driver, maker, KNOWN_NAMES, lent);
        const uint8_t *word = driver->arenas[maker][MEMORY].lent + WORD_AT;
        good = good && number == 0 && word[0] == known && word[1] == 0x10;
    }
    return good;
}

void cases_search(struct driver *driver)
{
    struct rng rng = rng_start(driver->seed, 3000);
    snprintf(driver->case_name, sizeof driver->case_name, "each known name found without a look at an older one");
    prepare(driver, &rng, SDX_LOAD_DEFAULT);
    struct contents *contents = &driver->request.buffers[FILE_BYTES];
    contents->length = notation_bytes(file, contents->bytes, CAPACITY);
    know_names(&driver->request);

    size_t page = (size_t)sysconf(_SC_PAGESIZE);
    uint8_t *pages = mmap(NULL, 2 * page, PROT_READ | PROT_WRITE, MAP_PRIVATE | MAP_ANONYMOUS, -1, 0);
    bool good = pages != MAP_FAILED && mprotect(pages, page, PROT_NONE) == 0;
    if (!good)
        perror("compare: two pages");
    for (int known = 0; good && known < KNOWN; known++) {
        good = found(driver, known, pages + page);
        if (!good)
            complain(driver, "a known name is not found, or another one is");
    }
    count(driver, good);
    if (pages != MAP_FAILED && munmap(pages, 2 * page) != 0)
        perror("compare: munmap");
}
