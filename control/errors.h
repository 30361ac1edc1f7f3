/* Exit statuses, and errors and warnings for the person at the desk. */
#ifndef ERRORS_H
#define ERRORS_H

#include <stdbool.h>
#include <stddef.h>

enum { EXIT_ACCEPTED = 0, EXIT_REFUSED = 1, EXIT_TROUBLE = 2 };

/* Prints `tekoweapa: SUBJECT: what is wrong` on standard error; a subject that can't be shown as it is stands in quotes. Always false, so
 * that a caller can return it. */
bool complain(const char *subject, const char *what, ...) __attribute__((format(printf, 2, 3)));

/* The same for a line of a file. */
bool complain_of_line(const char *subject, size_t line, const char *what, ...) __attribute__((format(printf, 3, 4)));

/* The same for a wrong command line, with a hint where to find the right one. */
bool misused(const char *subject, const char *what, ...) __attribute__((format(printf, 2, 3)));

/* Says that something is odd and the run goes on; of a line of a file, unless that is 0. */
void warn(const char *subject, size_t line, const char *what, ...) __attribute__((format(printf, 3, 4)));

#endif
