#include "directed.h"
#include "notation.h"
#include "stands.h"

#include <stdio.h>
#include <string.h>

/* Files up to this length are also tried cut at every length and with every byte changed. */
enum { SHORT_FILE = 64 };

static void set_up(struct driver *driver, struct rng *rng, const struct directed *directed, enum call call)
{
    struct request *request = &driver->request;
    prepare(driver, rng, call);
    memcpy(request->settings, directed->settings, sizeof request->settings);
    struct contents *file = &request->buffers[FILE_BYTES];
    file->length = notation_bytes(directed->file, file->bytes, CAPACITY);
    if (directed->known_names != NULL) {
        struct contents *names = &request->buffers[KNOWN_NAMES], *addresses = &request->buffers[KNOWN_ADDRESSES];
        names->length = notation_bytes(directed->known_names, names->bytes, CAPACITY);
        addresses->length = notation_bytes(directed->known_addresses, addresses->bytes, CAPACITY);
    }
    if (directed->before != NULL)
        notation_write(directed->before, request->buffers[MEMORY].bytes);
}

static bool answer_holds(const struct driver *driver, const struct directed *directed)
{
    /* The builder's answer is its load's but for low, the last of its numbers. */
    int numbers = driver->request.call == INDEX_BUILD && directed->call == ACX_LOAD ? AT_LOW : ANSWER_NUMBERS;
    for (int i = 0; i < numbers; i++)
        if (answered(driver, i) != directed->answer[i]) {
            char what[96];
            snprintf(what, sizeof what, "the answer's number %d is %u, and should be %u", i, answered(driver, i), directed->answer[i]);
            complain(driver, what);
            return false;
        }
    return true;
}

/* The room holds these bytes, and zero after them. */
static bool room_holds(const struct driver *driver, enum buffer buffer, const char *text)
{
    uint8_t expected[65536] = {0};
    size_t length = notation_bytes(text, expected, sizeof expected);
    return length <= room_length(buffer) && memcmp(left_in(driver, buffer), expected, room_length(buffer)) == 0;
}

static bool result_holds(const struct driver *driver, const struct directed *directed)
{
    if (!answer_holds(driver, directed))
        return false;
    const char *wrong = NULL;
    bool with_memory = call_takes_buffer(driver->request.call, MEMORY);
    if (directed->memory != NULL && with_memory && !notation_holds(directed->memory, left_in(driver, MEMORY)))
        wrong = "memory is not what the case expects";
    else if (directed->map != NULL && !notation_holds(directed->map, left_in(driver, MAP)))
        wrong = "the map is not what the case expects";
    else if (directed->names != NULL && !room_holds(driver, NEW_NAMES, directed->names))
        wrong = "the new names are not what the case expects";
    else if (directed->addresses != NULL && !room_holds(driver, NEW_ADDRESSES, directed->addresses))
        wrong = "the new addresses are not what the case expects";
    else if (directed->index != NULL && !room_holds(driver, INDEX, directed->index))
        wrong = "the index is not what the case expects";
    if (wrong != NULL)
        complain(driver, wrong);
    return wrong == NULL;
}

/* The calls of the case: its own, the short one where the settings are the default ones, and the builder for an ACX file. Document 02, wish 5:
 * "with its load's map, answer and refusals" */
static bool call_fits(const struct directed *directed, enum call call)
{
    const uint32_t *settings = directed->settings;
    if (call == SDX_LOAD_DEFAULT)
        return directed->call == SDX_LOAD && settings[LOW] == 7936 && settings[HIGH] == 39936;
    if (call == ACX_LOAD_DEFAULT)
        return directed->call == ACX_LOAD && settings[MAIN] == 9216 && settings[ZERO] == 128;
    if (call == INDEX_BUILD && directed->call == ACX_LOAD)
        return true;
    return call == directed->call;
}

/* The file cut at every length; only the two implementations decide what is right. */
static bool cuts_agree(struct driver *driver)
{
    size_t *length = &driver->request.buffers[FILE_BYTES].length;
    for (size_t whole = *length; *length > 0; (*length)--)
        if (*length < whole && !agree(driver))
            return false;
    return agree(driver);
}

/* Every byte of the file changed to values where a kind or a bound changes. */
static bool changes_agree(struct driver *driver)
{
    static const uint8_t values[] = {0x00, 0x01, 0x02, 0x07, 0x08, 0x0A, 0x0B, 0x0C, 0x7F, 0x80, 0xFA, 0xFB, 0xFC, 0xFD, 0xFE, 0xFF};
    struct contents *file = &driver->request.buffers[FILE_BYTES];
    for (size_t at = 0; at < file->length; at++) {
        uint8_t byte = file->bytes[at];
        for (size_t i = 0; i < sizeof values + 2; i++) {
            file->bytes[at] = i < sizeof values ? values[i] : (uint8_t)(byte + (i == sizeof values ? 1 : -1));
            if (!agree(driver))
                return false;
        }
        file->bytes[at] = byte;
    }
    return true;
}

void run_directed(struct driver *driver, const struct directed *directed)
{
    snprintf(driver->case_name, sizeof driver->case_name, "directed case \"%s\"", directed->name);
    struct rng rng = rng_start(driver->seed, driver->passed + driver->failed);
    bool good = true;
    for (enum call call = 0; good && call < CALLS; call++) {
        if (!call_fits(directed, call))
            continue;
        set_up(driver, &rng, directed, call);
        for (enum placement placement = 0; good && placement < PLACEMENTS; placement++) {
            driver->request.placement = placement;
            good = agree(driver) && result_holds(driver, directed);
        }
        size_t length = driver->request.buffers[FILE_BYTES].length;
        if (good && call == ACX_MOVE)
            good = index_stands(driver);
        if (good && directed->answer[AT_NUMBER] == 0 && length <= SHORT_FILE && !driver->sample)
            good = changes_agree(driver) && cuts_agree(driver);
    }
    count(driver, good);
}

void run_cut(struct driver *driver, const struct directed *whole, size_t length)
{
    char name[64], file[512];
    snprintf(name, sizeof name, "%s, cut to %zu bytes", whole->name, length);
    snprintf(file, sizeof file, "%.*s", 3 * (int)length, whole->file);
    struct directed cut = {.name = name, .call = whole->call, .file = file, REFUSED(5, (uint32_t)length)};
    memcpy(cut.settings, whole->settings, sizeof cut.settings);
    run_directed(driver, &cut);
}
