/* Runs the product beside the second implementation: directed cases, then random ones. The cases run in a process of their own; if a call
 * there touches a guard page, traps or does not end, the process that waits for it says which. */
#define _DEFAULT_SOURCE

#include "coverage.h"
#include "directed.h"
#include "random_cases.h"

#include <errno.h>
#include <stdio.h>
#include <stdlib.h>
#include <string.h>
#include <sys/mman.h>
#include <sys/wait.h>
#include <time.h>
#include <unistd.h>

/* The default run is bounded by a number of cases, so that it is the same each time. */
enum { DEFAULT_CASES = 160000, SAMPLE_CASES = 800 };

struct options {
    uint64_t seed, cases, seconds, only;
    bool seed_given, sample, stop, one;
};

static const char usage[] =
    "usage: compare [--seed N] [--cases N | --seconds S | --sample | --only CASE] [--stop]\n"
    "  --seed N     of the random cases; 1 if it is left out, or by the clock with --seconds\n"
    "  --cases N    so many random cases, after the directed ones\n"
    "  --seconds S  random cases for so long\n"
    "  --sample     a few hundred random cases, and no demand on the table\n"
    "  --only CASE  the one random case of that number\n"
    "  --stop       end at the first failure\n";

static bool read_number(const char *text, uint64_t *number)
{
    char *end;
    errno = 0;
    *number = strtoull(text, &end, 10);
    return errno == 0 && end != text && *end == '\0';
}

static bool read_options(int argc, char **argv, struct options *options)
{
    *options = (struct options){.seed = 1, .cases = DEFAULT_CASES};
    for (int i = 1; i < argc; i++) {
        if (strcmp(argv[i], "--sample") == 0) {
            options->sample = true;
            options->cases = SAMPLE_CASES;
            continue;
        }
        if (strcmp(argv[i], "--stop") == 0) {
            options->stop = true;
            continue;
        }
        uint64_t number;
        if (i + 1 == argc || !read_number(argv[i + 1], &number))
            return false;
        if (strcmp(argv[i], "--seed") == 0) {
            options->seed = number;
            options->seed_given = true;
        } else if (strcmp(argv[i], "--cases") == 0) {
            options->cases = number;
        } else if (strcmp(argv[i], "--seconds") == 0) {
            options->seconds = number;
        } else if (strcmp(argv[i], "--only") == 0) {
            options->only = number;
            options->one = true;
        } else {
            return false;
        }
        i++;
    }
    if (options->seconds > 0 && !options->seed_given)
        options->seed = (uint64_t)time(NULL);
    return true;
}

static bool open_arenas(struct driver *driver)
{
    for (int maker = 0; maker < MAKERS; maker++)
        for (int buffer = 0; buffer < BUFFERS; buffer++)
            if (!arena_open(&driver->arenas[maker][buffer], CAPACITY)) {
                perror("compare: mmap");
                return false;
            }
    return true;
}

static void close_arenas(struct driver *driver)
{
    for (int maker = 0; maker < MAKERS; maker++)
        for (int buffer = 0; buffer < BUFFERS; buffer++)
            arena_close(&driver->arenas[maker][buffer]);
}

/* Random cases, the kinds in turn. The cases of a kind are one test, and end at the first that differs. */
static void random_groups(struct driver *driver, const struct options *options)
{
    bool good[KINDS];
    uint64_t done[KINDS] = {0};
    for (int kind = 0; kind < KINDS; kind++)
        good[kind] = true;
    time_t begin = time(NULL);
    for (uint64_t number = 0; options->seconds > 0 || number < options->cases; number++) {
        if (options->seconds > 0 && number % 64 == 0 && (uint64_t)(time(NULL) - begin) >= options->seconds)
            break;
        int kind = (int)(number % KINDS);
        if (good[kind]) {
            good[kind] = random_case(driver, kind, number);
            done[kind]++;
        }
    }
    printf("\n");
    for (int kind = 0; kind < KINDS; kind++) {
        printf("%8llu random cases: %s, %s\n", (unsigned long long)done[kind], kind_name(kind), good[kind] ? "all agree" : "FAILED");
        count(driver, good[kind]);
    }
}

/* All that runs in the process of its own; gives its exit status. */
static int run(struct driver *driver, const struct options *options)
{
    if (!open_arenas(driver))
        return EXIT_FAILURE;
    if (options->one) {
        count(driver, random_case(driver, (int)(options->only % KINDS), options->only));
    } else {
        cases_sdx(driver);
        cases_acx(driver);
        cases_move(driver);
        cases_build(driver);
        cases_index(driver);
        cases_lengths(driver);
        cases_huge(driver);
        cases_search(driver);
        printf("%u directed cases\n", driver->passed + driver->failed);
        random_groups(driver, options);
        coverage(driver, !options->sample && options->seconds == 0 && options->cases >= DEFAULT_CASES);
        printf("%llu requests made of both\n", (unsigned long long)driver->requests);
    }
    close_arenas(driver);
    return driver->failed == 0 ? EXIT_SUCCESS : EXIT_FAILURE;
}

/* Waits for the process of the cases, and reports if a call ended it. */
static int watch(struct driver *driver, pid_t child)
{
    int status;
    while (waitpid(child, &status, 0) < 0)
        if (errno != EINTR) {
            perror("compare: waitpid");
            return EXIT_FAILURE;
        }
    if (WIFEXITED(status))
        return WEXITSTATUS(status);
    char what[160];
    snprintf(what, sizeof what, "%s ended in signal %d (%s)",
             driver->calling == PRODUCT ? "the product's call" : "the call of the second implementation", WTERMSIG(status),
             strsignal(WTERMSIG(status)));
    complain(driver, what);
    driver->failed++;
    return EXIT_FAILURE;
}

int main(int argc, char **argv)
{
    struct options options;
    if (!read_options(argc, argv, &options)) {
        fputs(usage, stderr);
        return 2;
    }
    /* By lines, so that nothing is lost if a call ends the process. */
    if (setvbuf(stdout, NULL, _IOLBF, BUFSIZ) != 0)
        fprintf(stderr, "compare: output is not written by lines\n");
    struct driver *driver = mmap(NULL, sizeof *driver, PROT_READ | PROT_WRITE, MAP_SHARED | MAP_ANONYMOUS, -1, 0);
    if (driver == MAP_FAILED) {
        perror("compare: mmap");
        return EXIT_FAILURE;
    }
    driver->seed = options.seed;
    driver->sample = options.sample;
    driver->stop = options.stop;
    printf("seed %llu\n", (unsigned long long)options.seed);

    pid_t child = fork();
    if (child < 0) {
        perror("compare: fork");
        return EXIT_FAILURE;
    }
    if (child == 0) {
        int status = run(driver, &options);
        munmap(driver, sizeof *driver);
        exit(status);
    }
    int status = watch(driver, child);
    printf("%u passed, %u failed\n", driver->passed, driver->failed);
    munmap(driver, sizeof *driver);
    return status;
}
