/* Directed cases for the lengths of the lent buffers: each in turn wrong, the others right. */
#include "directed.h"
#include "notation.h"

#include <stdio.h>
#include <string.h>

static const char *const files[CALLS] = {
    [SDX_LOAD] = "FE FF 01 00 00 10 03 00 4C 00 10 FD FF 01 00 00 FE 01 01 FC",
    [SDX_LOAD_DEFAULT] = "FE FF 01 00 00 10 03 00 4C 00 10 FD FF 01 00 00 FE 01 01 FC",
    [ACX_LOAD] = "00 05 00 00 4C 03 00 06 01 01 0B 02 00 00",
    [ACX_LOAD_DEFAULT] = "00 05 00 00 4C 03 00 06 01 01 0B 02 00 00",
    [ACX_MOVE] = "00 05 00 00 4C 03 00 06 01 01 0B 02 00 00",
    [INDEX_BUILD] = "00 05 00 00 4C 03 00 06 01 01 0B 02 00 00",
    [INDEX_MOVE] = "01 00 07 00 00 00 03 06 01 00 00 04 0B 02 00 00",
};

static const uint32_t defaults[SETTINGS] = {
    [FORM] = 1, [LOW] = 7936, [HIGH] = 39936, [MAIN] = 9216, [ZERO] = 128, [NEW_MAIN] = 12416, [NEW_ZERO] = 128,
};

/* Lengths beside the right one of some buffer, or far from all. */
static const size_t tried[] = {0, 1, 2, 8, 16, 35, 36, 37, 63, 64, 65, 72, 255, 256, 257, 4096, 65535, 65536, 65537, CAPACITY};

static void set_up(struct driver *driver, enum call call, bool settings_right)
{
    struct rng rng = rng_start(driver->seed, 1000 + call);
    struct request *request = &driver->request;
    prepare(driver, &rng, call);
    memcpy(request->settings, defaults, sizeof request->settings);
    if (!settings_right)
        request->settings[HIGH] = request->settings[FORM] = request->settings[MAIN] = 70000;
    struct contents *file = &request->buffers[FILE_BYTES];
    file->length = notation_bytes(files[call], file->bytes, CAPACITY);
    for (enum buffer buffer = 0; buffer < BUFFERS; buffer++)
        if (buffer != FILE_BYTES)
            memset(request->buffers[buffer].bytes, 0x3C, CAPACITY);
}

/* The call ends with this number, for both. */
static bool gives(struct driver *driver, uint32_t number)
{
    if (!agree(driver))
        return false;
    bool answer = driver->request.buffers[ANSWER].length == room_length(ANSWER);
    if (answer && answered(driver, AT_NUMBER) != number) {
        complain(driver, "another number than the case expects");
        return false;
    }
    for (int i = 1; answer && number != 0 && i < ANSWER_NUMBERS; i++)
        if (answered(driver, i) != 0) {
            complain(driver, "a refusal over lengths has only a number");
            return false;
        }
    return true;
}

/* One room of every other length: 1, also where a setting is out of range and the file too long, for 1 comes first. */
static bool room_tried(struct driver *driver, enum call call, enum buffer buffer)
{
    enum { TRIED = sizeof tried / sizeof tried[0] };
    struct request *request = &driver->request;
    bool good = true;
    for (int way = 0; way < 2; way++) {
        set_up(driver, call, way == 0);
        if (way == 1)
            request->buffers[FILE_BYTES].length = 65537;
        for (int i = 0; good && i < TRIED * PLACEMENTS; i++) {
            request->placement = (enum placement)(i % PLACEMENTS);
            request->buffers[buffer].length = tried[i / PLACEMENTS];
            if (tried[i / PLACEMENTS] != room_length(buffer))
                good = gives(driver, 1);
        }
    }
    return good;
}

/* The known names and their addresses, of every pair of lengths tried. */
static bool known_tried(struct driver *driver, enum call call)
{
    static const size_t counts[] = {0, 1, 2, 3, 4, 7, 8, 9, 16, 24, 256, 511, 512, 513, 514, 2040, 2047, 2048, 2049, 2056, 65536};
    enum { COUNTS = sizeof counts / sizeof counts[0] };
    bool good = true;
    set_up(driver, call, true);
    for (int i = 0; good && i < COUNTS * COUNTS; i++) {
        size_t names = counts[i / COUNTS], addresses = counts[i % COUNTS];
        driver->request.buffers[KNOWN_NAMES].length = names;
        driver->request.buffers[KNOWN_ADDRESSES].length = addresses;
        driver->request.placement = (enum placement)(i % PLACEMENTS);
        bool right = addresses % 2 == 0 && names == addresses / 2 * 8 && addresses / 2 <= 256;
        good = gives(driver, right ? 0 : 1);
    }
    return good;
}

void cases_lengths(struct driver *driver)
{
    for (enum call call = 0; call < CALLS; call++) {
        for (enum buffer buffer = MEMORY; buffer < BUFFERS; buffer++)
            if (call_takes_buffer(call, buffer)) {
                snprintf(driver->case_name, sizeof driver->case_name, "%s of another length", buffer_name(buffer));
                count(driver, room_tried(driver, call, buffer));
            }
        if (call_takes_buffer(call, KNOWN_NAMES)) {
            snprintf(driver->case_name, sizeof driver->case_name, "known names and addresses of all lengths");
            count(driver, known_tried(driver, call));
        }
    }
}
