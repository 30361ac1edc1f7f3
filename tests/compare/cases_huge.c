/* Lengths that differ from a right one by 4 GiB: a length cut to 32 bits would look right. The pages are mapped but never touched. */
#define _DEFAULT_SOURCE

#include "directed.h"
#include "notation.h"

#include <stdio.h>
#include <string.h>
#include <sys/mman.h>

#define BEYOND ((size_t)1 << 32)

static const char sdx_file[] = "FF FF 00 40 00 40 11";
static const char acx_file[] = "00 03 00 00 77 0B 00 00 00";
static const char acx_index[] = "01 00 04 00 00 00 01 00 04 0B 00 00 00";
static const uint32_t defaults[SETTINGS] = {
    [FORM] = 1, [LOW] = 7936, [HIGH] = 39936, [MAIN] = 9216, [ZERO] = 128, [NEW_MAIN] = 12416, [NEW_ZERO] = 128,
};

/* The call with one buffer in the huge mapping: 3 for a file or an index that is read, 1 for every other. Both must say so. */
static bool huge_refused(struct driver *driver, enum buffer huge, uint8_t *mapping)
{
    struct contents *contents = &driver->request.buffers[huge];
    size_t length = contents->length;
    bool good = true;
    for (enum maker maker = 0; maker < MAKERS; maker++) {
        memcpy(mapping, contents->bytes, length);
        contents->length = BEYOND + length;
        uint32_t number = call_with(driver, maker, huge, mapping);
        contents->length = length;
        good = good && number == (huge == FILE_BYTES ? 3 : 1) && memcmp(mapping, contents->bytes, length) == 0;
    }
    return good;
}

void cases_huge(struct driver *driver)
{
    uint8_t *mapping = mmap(NULL, BEYOND + CAPACITY, PROT_READ | PROT_WRITE, MAP_PRIVATE | MAP_ANONYMOUS | MAP_NORESERVE, -1, 0);
    if (mapping == MAP_FAILED) {
        printf("lengths past 32 bits are left out: 4 GiB cannot be mapped\n");
        return;
    }
    for (enum call call = 0; call < CALLS; call++)
        for (enum buffer buffer = 0; buffer < BUFFERS; buffer++) {
            if (!call_takes_buffer(call, buffer))
                continue;
            struct rng rng = rng_start(driver->seed, 2000 + call);
            snprintf(driver->case_name, sizeof driver->case_name, "%s of a length past 32 bits", buffer_name(buffer));
            prepare(driver, &rng, call);
            memcpy(driver->request.settings, defaults, sizeof defaults);
            struct contents *file = &driver->request.buffers[FILE_BYTES];
            const char *text = call <= SDX_LOAD_DEFAULT ? sdx_file : call == INDEX_MOVE ? acx_index : acx_file;
            file->length = notation_bytes(text, file->bytes, CAPACITY);
            bool good = huge_refused(driver, buffer, mapping);
            if (!good)
                complain(driver, "4 GiB more than the right length is taken for it");
            count(driver, good);
        }
    if (munmap(mapping, BEYOND + CAPACITY) != 0)
        perror("compare: munmap");
}
