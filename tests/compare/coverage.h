/* Which numbers each call was met with, and whether that is enough. */
#ifndef COVERAGE_H
#define COVERAGE_H

#include "driver.h"

/* Prints the table. If it is demanded, each number counts as a test: one that a call can have was met often enough by it, and one that it
 * cannot have never. */
void coverage(struct driver *driver, bool demanded);

#endif
