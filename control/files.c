#include "files.h"
#include "errors.h"

#include <errno.h>
#include <stdio.h>
#include <string.h>

bool is_standard_input(const char *path)
{
    return path != NULL && strcmp(path, "-") == 0;
}

const char *shown_name(const char *path)
{
    return is_standard_input(path) ? "standard input" : path;
}

bool read_file(const char *path, uint8_t *bytes, size_t most, size_t *length)
{
    FILE *stream = is_standard_input(path) ? stdin : fopen(path, "rb");
    int error = 0;
    if (stream == NULL)
        return complain(path, "can't be read: %s", strerror(errno));
    errno = 0;
    *length = fread(bytes, 1, most, stream);
    if (ferror(stream))
        error = errno != 0 ? errno : EIO;
    /* Nothing was written, so closing can't lose anything. */
    if (stream != stdin)
        fclose(stream);
    return error == 0 || complain(shown_name(path), "can't be read: %s", strerror(error));
}
