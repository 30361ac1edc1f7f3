#include "request.h"
#include "second.h"
#include "tekoweapa.h"

/* What a call is named, and the buffers and settings that it takes, as sets of bits. */
struct signature {
    const char *name;
    uint32_t buffers, settings;
};

#define BIT(place) (1u << (place))
#define SDX_BUFFERS                                                                                                                 \
    (BIT(FILE_BYTES) | BIT(KNOWN_NAMES) | BIT(KNOWN_ADDRESSES) | BIT(MEMORY) | BIT(MAP) | BIT(NEW_NAMES) | BIT(NEW_ADDRESSES) |     \
     BIT(ANSWER))
#define ACX_BUFFERS (BIT(FILE_BYTES) | BIT(MEMORY) | BIT(MAP) | BIT(ANSWER))

static const struct signature signatures[CALLS] = {
    [SDX_LOAD] = {"sdx_load", SDX_BUFFERS, BIT(LOW) | BIT(HIGH)},
    [SDX_LOAD_DEFAULT] = {"sdx_load_default", SDX_BUFFERS, 0},
    [ACX_LOAD] = {"acx_load", ACX_BUFFERS, BIT(FORM) | BIT(MAIN) | BIT(ZERO)},
    [ACX_LOAD_DEFAULT] = {"acx_load_default", ACX_BUFFERS, BIT(FORM)},
    [ACX_MOVE] = {"acx_move", ACX_BUFFERS | BIT(SCRATCH), BIT(FORM) | BIT(MAIN) | BIT(ZERO) | BIT(NEW_MAIN) | BIT(NEW_ZERO)},
    [INDEX_BUILD] = {"index_build", BIT(FILE_BYTES) | BIT(MAP) | BIT(INDEX) | BIT(ANSWER), BIT(FORM) | BIT(MAIN) | BIT(ZERO)},
    [INDEX_MOVE] = {"index_move", ACX_BUFFERS | BIT(SCRATCH), BIT(MAIN) | BIT(ZERO) | BIT(NEW_MAIN) | BIT(NEW_ZERO)},
};

static const char *const buffer_names[BUFFERS] = {
    "file", "known names", "known addresses", "memory", "map", "new names", "new addresses", "scratch", "index", "answer",
};

static const char *const setting_names[SETTINGS] = {
    "form", "low", "high", "main base", "zero-page base", "new main base", "new zero-page base",
};

static const char *const placement_names[PLACEMENTS] = {"tight at the lower guard", "tight at the upper guard", "at odd addresses"};

static const size_t room_lengths[BUFFERS] = {
    [MEMORY] = TKW_MEMORY_LENGTH, [MAP] = TKW_MEMORY_LENGTH, [NEW_NAMES] = TKW_NEW_NAMES_LENGTH,
    [NEW_ADDRESSES] = TKW_NEW_ADDRESSES_LENGTH, [SCRATCH] = TKW_MEMORY_LENGTH, [INDEX] = TKW_INDEX_LENGTH,
    [ANSWER] = TKW_ANSWER_LENGTH,
};

const char *call_name(enum call call)
{
    return signatures[call].name;
}

const char *buffer_name(enum buffer buffer)
{
    return buffer_names[buffer];
}

bool call_is_move(enum call call)
{
    return call == ACX_MOVE || call == INDEX_MOVE;
}

bool call_takes_buffer(enum call call, enum buffer buffer)
{
    return (signatures[call].buffers & BIT(buffer)) != 0;
}

bool call_takes_setting(enum call call, enum setting setting)
{
    return (signatures[call].settings & BIT(setting)) != 0;
}

bool buffer_is_input(enum buffer buffer)
{
    return buffer == FILE_BYTES || buffer == KNOWN_NAMES || buffer == KNOWN_ADDRESSES;
}

size_t room_length(enum buffer buffer)
{
    return room_lengths[buffer];
}

/* A buffer and its length, as the interface takes them. */
#define LENT(buffer) lent[buffer], request->buffers[buffer].length
#define SETTING(setting) request->settings[setting]

static uint32_t perform_sdx(const struct request *request, enum maker maker, uint8_t *const lent[BUFFERS])
{
    if (request->call == SDX_LOAD)
        return (maker == PRODUCT ? tkw_sdx_load : second_sdx_load)(
            LENT(FILE_BYTES), SETTING(LOW), SETTING(HIGH), LENT(KNOWN_NAMES), LENT(KNOWN_ADDRESSES), LENT(MEMORY), LENT(MAP),
            LENT(NEW_NAMES), LENT(NEW_ADDRESSES), LENT(ANSWER));
    return (maker == PRODUCT ? tkw_sdx_load_default : second_sdx_load_default)(
        LENT(FILE_BYTES), LENT(KNOWN_NAMES), LENT(KNOWN_ADDRESSES), LENT(MEMORY), LENT(MAP), LENT(NEW_NAMES), LENT(NEW_ADDRESSES),
        LENT(ANSWER));
}

static uint32_t perform_acx(const struct request *request, enum maker maker, uint8_t *const lent[BUFFERS])
{
    if (request->call == ACX_LOAD)
        return (maker == PRODUCT ? tkw_acx_load : second_acx_load)(
            SETTING(FORM), LENT(FILE_BYTES), SETTING(MAIN), SETTING(ZERO), LENT(MEMORY), LENT(MAP), LENT(ANSWER));
    if (request->call == ACX_LOAD_DEFAULT)
        return (maker == PRODUCT ? tkw_acx_load_default : second_acx_load_default)(
            SETTING(FORM), LENT(FILE_BYTES), LENT(MEMORY), LENT(MAP), LENT(ANSWER));
    return (maker == PRODUCT ? tkw_acx_move : second_acx_move)(
        SETTING(FORM), LENT(FILE_BYTES), SETTING(MAIN), SETTING(ZERO), SETTING(NEW_MAIN), SETTING(NEW_ZERO), LENT(MEMORY), LENT(MAP),
        LENT(SCRATCH), LENT(ANSWER));
}

static uint32_t perform_index(const struct request *request, enum maker maker, uint8_t *const lent[BUFFERS])
{
    if (request->call == INDEX_BUILD)
        return (maker == PRODUCT ? tkw_index_build : second_index_build)(
            SETTING(FORM), LENT(FILE_BYTES), SETTING(MAIN), SETTING(ZERO), LENT(MAP), LENT(INDEX), LENT(ANSWER));
    return (maker == PRODUCT ? tkw_index_move : second_index_move)(
        LENT(FILE_BYTES), SETTING(MAIN), SETTING(ZERO), SETTING(NEW_MAIN), SETTING(NEW_ZERO), LENT(MEMORY), LENT(MAP), LENT(SCRATCH),
        LENT(ANSWER));
}

uint32_t perform(const struct request *request, enum maker maker, uint8_t *const lent[BUFFERS])
{
    switch (request->call) {
    case SDX_LOAD:
    case SDX_LOAD_DEFAULT:
        return perform_sdx(request, maker, lent);
    case INDEX_BUILD:
    case INDEX_MOVE:
        return perform_index(request, maker, lent);
    default:
        return perform_acx(request, maker, lent);
    }
}

static void dump(FILE *out, const struct contents *contents)
{
    for (size_t i = 0; i < contents->length; i++)
        fprintf(out, "%s%02X", i % 32 == 0 ? "\n    " : " ", contents->bytes[i]);
    fprintf(out, "\n");
}

void describe(FILE *out, const struct request *request)
{
    fprintf(out, "  call tkw_%s, buffers %s\n", call_name(request->call), placement_names[request->placement]);
    for (enum setting setting = 0; setting < SETTINGS; setting++)
        if (call_takes_setting(request->call, setting))
            fprintf(out, "  %s %u\n", setting_names[setting], request->settings[setting]);
    const char *input = request->call == INDEX_MOVE ? "index" : "file";
    for (enum buffer buffer = 0; buffer < BUFFERS; buffer++)
        if (call_takes_buffer(request->call, buffer))
            fprintf(out, "  %s: %zu bytes\n", buffer == FILE_BYTES ? input : buffer_names[buffer], request->buffers[buffer].length);
    if (request->buffers[FILE_BYTES].length <= 256) {
        fprintf(out, "  the %s:", input);
        dump(out, &request->buffers[FILE_BYTES]);
    }
}
