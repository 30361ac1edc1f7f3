#define _DEFAULT_SOURCE

#include "lend.h"

#include <stdio.h>
#include <stdlib.h>
#include <string.h>
#include <sys/mman.h>
#include <unistd.h>

enum { SLACK = 0xA5 };

bool arena_open(struct arena *arena, size_t capacity)
{
    long page = sysconf(_SC_PAGESIZE);
    if (page <= 0)
        return false;
    size_t pages = (capacity + (size_t)page - 1) / (size_t)page + 1;
    void *base = mmap(NULL, (pages + 2) * (size_t)page, PROT_NONE, MAP_PRIVATE | MAP_ANONYMOUS, -1, 0);
    if (base == MAP_FAILED)
        return false;
    *arena = (struct arena){.base = base, .page = (size_t)page, .pages = pages};
    return true;
}

void arena_close(struct arena *arena)
{
    if (arena->base != NULL && munmap(arena->base, (arena->pages + 2) * arena->page) != 0)
        perror("compare: munmap");
    arena->base = NULL;
}

static void protect(const struct arena *arena, size_t first, size_t count, int how)
{
    if (count > 0 && mprotect(arena->base + (1 + first) * arena->page, count * arena->page, how) != 0) {
        perror("compare: mprotect");
        abort();
    }
}

uint8_t *arena_lend(struct arena *arena, const struct loan *loan)
{
    size_t skew = loan->placement == UNALIGNED && loan->length > 0 ? 1 : 0;
    size_t need = (skew + loan->length + arena->page - 1) / arena->page;
    if (need > arena->pages) {
        fprintf(stderr, "compare: a buffer of %zu bytes is more than an arena holds\n", loan->length);
        abort();
    }
    protect(arena, 0, need, PROT_READ | PROT_WRITE);
    if (arena->open > need)
        protect(arena, need, arena->open - need, PROT_NONE);
    arena->open = need;

    uint8_t *first = arena->base + arena->page;
    size_t slack = need * arena->page - loan->length;
    size_t below = loan->placement == TIGHT_ABOVE ? slack : skew;
    arena->lent = first + below;
    arena->length = loan->length;
    if (below > 0)
        memset(first, SLACK, below);
    if (slack > below)
        memset(arena->lent + loan->length, SLACK, slack - below);
    if (loan->length > 0)
        memcpy(arena->lent, loan->bytes, loan->length);
    if (loan->read_only)
        protect(arena, 0, need, PROT_READ);
    return arena->lent;
}

/* The first byte is as it was filled, and each is as the one before it. */
static bool all_slack(const uint8_t *bytes, size_t length)
{
    return length == 0 || (bytes[0] == SLACK && memcmp(bytes, bytes + 1, length - 1) == 0);
}

bool arena_slack_unchanged(const struct arena *arena)
{
    const uint8_t *first = arena->base + arena->page;
    const uint8_t *end = first + arena->open * arena->page;
    const uint8_t *behind = arena->lent + arena->length;
    return all_slack(first, (size_t)(arena->lent - first)) && all_slack(behind, (size_t)(end - behind));
}
