/* Document 02, wish 5: "an index built from a file stands for that file". */
#ifndef STANDS_H
#define STANDS_H

#include "driver.h"

/* The request is a move by file, with every buffer of its right length. Makes it by the file, builds the file's index at the old and at the
 * new bases, and moves by that; false, and reported, if anything differs that must not. The request is then as it was. */
bool index_stands(struct driver *driver);

/* The request becomes one by the index that the last call has built. */
void take_index(struct driver *driver);

#endif
