/* tekoweapa, the bench's control program: one load or move of an image of memory, or one index, for people at the desk.
 *
 * The command line is read by options (usage has the help), files by files, names and number. buffers makes the call; presence looks where
 * a handler is that is to be moved. report prints what came of it, with explain and rows, or json does. Outputs are planned here, looked at
 * by targets, and written by outputs, with temporaries; the picture by picture, on a canvas, as png (deflate) or ppm, into bytes. index
 * knows an index when it sees one, errors says what is wrong, and text shows bytes that come from outside. */
#define _XOPEN_SOURCE 700

#include "buffers.h"
#include "errors.h"
#include "files.h"
#include "index.h"
#include "json.h"
#include "options.h"
#include "outputs.h"
#include "picture.h"
#include "presence.h"
#include "report.h"
#include "temporaries.h"
#include "usage.h"

#include <errno.h>
#include <signal.h>
#include <stdbool.h>
#include <stdio.h>
#include <stdlib.h>
#include <string.h>

enum { OUT, MAP, PICTURE, OUTPUTS };
_Static_assert(2 * OUTPUTS <= TEMPORARIES_MOST, "an output may have a temporary file and a former one that are not noted");

/* All that a run works with. */
struct work {
    struct buffers buffers;
    uint8_t *picture;
    struct output outputs[OUTPUTS];
};

/* The files that a run writes. The picture has its bytes when it is drawn, an index its length when it is built. */
static void plan_outputs(const struct options *options, struct work *work)
{
    struct buffers *buffers = &work->buffers;
    const struct output image = {
        .path = options->out, .kind = "image", .is_of_kind = is_image, .bytes = buffers->memory, .length = sizeof buffers->memory};
    const struct output index = {.path = options->out, .kind = "index", .is_of_kind = is_index, .bytes = buffers->index};
    const struct output outputs[OUTPUTS] = {
        [OUT] = options->command == COMMAND_INDEX ? index : image,
        [MAP] = {.path = options->map, .kind = "map", .is_of_kind = is_map, .bytes = buffers->map, .length = sizeof buffers->map},
        [PICTURE] = {.path = options->picture, .kind = "picture", .is_of_kind = is_picture},
    };
    memcpy(work->outputs, outputs, sizeof outputs);
}

/* Makes a closed pipe and a file that may not grow errors of writing, where they would else end the program before it cleans up. */
static bool watch_writing(void)
{
    return signal(SIGPIPE, SIG_IGN) != SIG_ERR && signal(SIGXFSZ, SIG_IGN) != SIG_ERR;
}

/* Whether all that was printed has gone out. */
static bool finish_printing(void)
{
    errno = 0;
    if (fflush(stdout) == 0 && !ferror(stdout))
        return true;
    /* Where an earlier write has failed, its cause is forgotten by now. */
    return complain("standard output", "can't be written: %s", strerror(errno != 0 ? errno : EIO));
}

/* No output may replace what is read, but for the image, which may be renewed in place. */
static bool spare_inputs(const struct options *options, const struct output *outputs)
{
    for (int i = 0; i < OUTPUTS; i++) {
        const char *path = outputs[i].path;
        bool image = i != OUT && leads_to_input(path, options->memory);
        if (image || leads_to_input(path, source_of(options)) || leads_to_input(path, options->names))
            return complain(path, "would replace a file that is read");
    }
    return true;
}

/* Whether a file was at an output's target. A pipe or a device holds none. */
static bool is_there(const struct output *output)
{
    return output->present && output->target != NULL;
}

/* An image that is there is not begun anew unless that is asked for. An index is none. */
static bool spare_image(const struct options *options, const struct output *out)
{
    bool image = is_there(out) && options->command != COMMAND_INDEX;
    return !image || options->memory != NULL || options->fresh
        || complain(out->path, "is there already; give it with --memory to load into it, or --fresh to begin with zeros");
}

/* The answer has the length of an index. A refusal has none to write, and leaves the one that is there. */
static void measure_index(const struct options *options, const struct answer *answer, struct output *out)
{
    if (options->command != COMMAND_INDEX)
        return;
    out->length = answer->low;
    if (answer->number != TKW_ACCEPTED)
        out->path = NULL;
}

static bool draw(const struct options *options, struct work *work)
{
    struct output *picture = &work->outputs[PICTURE];
    if (options->picture == NULL)
        return true;
    if (!draw_picture(work->buffers.map, picture_format_of(options->picture), options->scale.value, &work->picture, &picture->length))
        return complain(options->picture, "there is not enough memory to draw it");
    picture->bytes = work->picture;
    return true;
}

/* The run from files to files. Outputs are settled last: by then nothing else can go wrong. */
static int run(const struct options *options, struct work *work)
{
    struct presence presence = {0};
    plan_outputs(options, work);
    if (!spare_inputs(options, work->outputs) || !find_targets(work->outputs, OUTPUTS) || !spare_image(options, &work->outputs[OUT])
        || !fill_buffers(options, &work->buffers))
        return EXIT_TROUBLE;
    if (options->command == COMMAND_MOVE && options->index == NULL && !find_handler(options, &work->buffers, &presence))
        return EXIT_TROUBLE;
    struct answer answer = call_loader(options, &work->buffers);
    measure_index(options, &answer, &work->outputs[OUT]);
    if (!draw(options, work) || !write_outputs(work->outputs, OUTPUTS) || !rename_outputs(work->outputs, OUTPUTS))
        return EXIT_TROUBLE;
    if (options->json)
        print_json(stdout, options, &work->buffers, &answer);
    else
        print_report(stdout, options, &work->buffers, &answer,
                     (struct before){.copy = has_copy(&presence), .out = is_there(&work->outputs[OUT])});
    if (!finish_printing())
        return EXIT_TROUBLE;
    settle_outputs(work->outputs, OUTPUTS);
    if (answer.number != TKW_ACCEPTED)
        return EXIT_REFUSED;
    warn_if_absent(options, &presence);
    return EXIT_ACCEPTED;
}

static int run_with_room(const struct options *options)
{
    struct work *work = calloc(1, sizeof *work);
    if (work == NULL) {
        complain("memory", "there is not enough");
        return EXIT_TROUBLE;
    }
    int status = run(options, work);
    clean_outputs(work->outputs, OUTPUTS);
    free(work->picture);
    free(work);
    return status;
}

int main(int count, char **words)
{
    if (!watch_writing() || !watch_signals()) {
        complain("signals", "can't be watched: %s", strerror(errno));
        return EXIT_TROUBLE;
    }
    if (count < 2) {
        print_usage(stderr);
        return EXIT_TROUBLE;
    }
    struct options options;
    if (!parse_options(count, words, &options))
        return EXIT_TROUBLE;
    if (!options.help && !options.version)
        return run_with_room(&options);
    if (options.help)
        print_usage(stdout);
    else
        print_version(stdout);
    return finish_printing() ? EXIT_ACCEPTED : EXIT_TROUBLE;
}
