#include "errors.h"
#include "text.h"

#include <stdarg.h>
#include <stdio.h>

/* An error in printing an error has nowhere to go; the exit status still says it. */
static void say(const char *subject, size_t line, const char *kind, const char *what, va_list arguments, const char *ending)
{
    fputs("tekoweapa: ", stderr);
    print_subject(stderr, subject);
    if (line > 0)
        fprintf(stderr, ": line %zu", line);
    fprintf(stderr, ": %s", kind);
    vfprintf(stderr, what, arguments);
    fprintf(stderr, "%s\n", ending);
}

bool complain(const char *subject, const char *what, ...)
{
    va_list arguments;
    va_start(arguments, what);
    say(subject, 0, "", what, arguments, "");
    va_end(arguments);
    return false;
}

bool complain_of_line(const char *subject, size_t line, const char *what, ...)
{
    va_list arguments;
    va_start(arguments, what);
    say(subject, line, "", what, arguments, "");
    va_end(arguments);
    return false;
}

bool misused(const char *subject, const char *what, ...)
{
    va_list arguments;
    va_start(arguments, what);
    say(subject, 0, "", what, arguments, " (see 'tekoweapa --help')");
    va_end(arguments);
    return false;
}

void warn(const char *subject, size_t line, const char *what, ...)
{
    va_list arguments;
    va_start(arguments, what);
    say(subject, line, "warning: ", what, arguments, "");
    va_end(arguments);
}
