#include "coverage.h"

#include <stdio.h>

/* A column for each call, and one more for each of the two movers. */
enum { MET_LEAST = 20, COLUMNS = CALLS + 2 };

struct column {
    const char *name;
    enum call call;
    int side;
    uint32_t can_be; /* the numbers that can be had, as bits */
};

#define BIT(number) (1u << (number))
#define SDX_NUMBERS (BIT(17) - 1)
#define ACX_NUMBERS                                                                                                                 \
    (BIT(0) | BIT(1) | BIT(2) | BIT(3) | BIT(4) | BIT(5) | BIT(6) | BIT(9) | BIT(10) | BIT(12) | BIT(13) | BIT(17) | BIT(18) |       \
     BIT(19) | BIT(20))
#define NEW_NUMBERS (BIT(2) | BIT(10) | BIT(17) | BIT(20))

static const struct column columns[COLUMNS] = {
    {"sdx_load", SDX_LOAD, 0, SDX_NUMBERS},
    {"sdx_load_default", SDX_LOAD_DEFAULT, 0, SDX_NUMBERS & ~BIT(2)},
    {"acx_load", ACX_LOAD, 0, ACX_NUMBERS},
    {"acx_load_default", ACX_LOAD_DEFAULT, 0, ACX_NUMBERS},
    {"acx_move old", ACX_MOVE, 0, ACX_NUMBERS},
    {"acx_move new", ACX_MOVE, 1, NEW_NUMBERS},
    {"index_build", INDEX_BUILD, 0, ACX_NUMBERS | BIT(25)},
    {"index_move old", INDEX_MOVE, 0, (ACX_NUMBERS & ~BIT(4)) | BIT(24)},
    {"index_move new", INDEX_MOVE, 1, NEW_NUMBERS},
};

/* One row of the table; false if a call met the number too seldom, or could not have met it. */
static bool row(const struct driver *driver, int number, bool demanded)
{
    bool good = true;
    printf("%6d", number);
    for (int i = 0; i < COLUMNS; i++) {
        const struct column *column = &columns[i];
        uint64_t met = driver->met[column->call][column->side][number];
        bool can_be = (column->can_be & BIT(number)) != 0;
        bool fine = can_be ? !demanded || met >= MET_LEAST : met == 0;
        if (!can_be && met == 0)
            printf("  %14s ", "-");
        else
            printf("  %14llu%c", (unsigned long long)met, fine ? ' ' : '!');
        good = good && fine;
    }
    printf("\n");
    return good;
}

void coverage(struct driver *driver, bool demanded)
{
    printf("\nnumber");
    for (int i = 0; i < COLUMNS; i++)
        printf("  %14s ", columns[i].name);
    printf("\n");
    for (int number = 0; number < NUMBERS; number++)
        count(driver, row(driver, number, demanded));
    for (int call = 0; call < CALLS; call++)
        for (int number = 0; number < NUMBERS; number++)
            if (!call_is_move((enum call)call) && driver->met[call][1][number] != 0) {
                printf("%s met side 1, which only a move has\n", call_name((enum call)call));
                count(driver, false);
            }
}
