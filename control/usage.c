#include "usage.h"
#include "picture.h"
#include "tekoweapa.h"

static const char *const COMMANDS =
    "tekoweapa loads SpartaDOS X programs and ACX handlers into an image of memory,\n"
    "and moves handlers while they live, by file or by index. It runs nothing.\n"
    "\n"
    "  tekoweapa sdx FILE [options]    load an SDX program\n"
    "  tekoweapa acx FILE [options]    load an ACX handler\n"
    "  tekoweapa index FILE [options]  build the index of an ACX handler\n"
    "  tekoweapa move FILE [options]   move an ACX handler in the --memory image\n"
    "                                  (or: move --index FILE [options])\n"
    "\n";

static const char *const ALL =
    "sdx, acx and move\n"
    "  --memory FILE                   image of 65536 bytes before the call (zeros, but a\n"
    "                                  move needs its image)\n"
    "  --dump                          also print the loaded bytes\n"
    "all\n"
    "  --out FILE                      the image after the call, also after a refusal;\n"
    "                                  of index: the index, which must be named and\n"
    "                                  is written only if accepted\n"
    "  --map FILE                      a byte per address: 0 untouched, 1 placed,\n"
    "                                  2 reserved, 3 adjusted\n"
    "  --picture FILE                  the map as a picture, a row per page: placed blue,\n"
    "                                  reserved grey, adjusted amber; PNG if the name\n"
    "                                  ends in .png, else PPM\n";

static const char *const PRINTED =
    "  --ranges                        print each range of placed, of reserved and of\n"
    "                                  adjusted bytes by itself\n"
    "  --quiet                         print the first line alone\n"
    "  --json                          print the answer as one JSON object\n"
    "  --version, --help, -h\n"
    "\n"
    "Numbers are decimal, 0x hex or $ hex; in brackets, what holds if none is given.\n"
    "'--option value' and '--option=value' are the same; '--' ends the options; '-' as a\n"
    "file that is read is standard input.\n"
    "Exit status: 0 accepted, 1 refused, 2 usage or a file that can't be read or written;\n"
    "with 2 every file is as it was.\n";

/* The options of single commands, with the defaults that the library has. */
static void print_settings(FILE *stream)
{
    fprintf(stream,
            "sdx\n"
            "  --low N --high N                where relocatable blocks go (%d, %d)\n"
            "  --names FILE                    known names, a line each: \"EIGHTCHR\" address\n"
            "                                  (in the name: \\\" \\\\ \\xHH; # begins a comment)\n",
            TKW_DEFAULT_LOW, TKW_DEFAULT_HIGH);
    fprintf(stream,
            "acx, index and move\n"
            "  --form disk|device              form of FILE (disk)\n"
            "acx and index\n"
            "  --main N --zero N               main and zero-page base (%d, %d)\n"
            "move\n"
            "  --index FILE                    the handler's index, in place of its FILE\n"
            "  --from-main N --from-zero N     bases at which it is now (%d, %d)\n"
            "  --to-main N --to-zero N         bases to which it goes, at least one of them\n"
            "                                  (where it is now)\n"
            "sdx and acx\n"
            "  --fresh                         begin with zeros, though the --out file is there\n",
            TKW_DEFAULT_MAIN_BASE, TKW_DEFAULT_ZERO_BASE, TKW_DEFAULT_MAIN_BASE, TKW_DEFAULT_ZERO_BASE);
}

void print_usage(FILE *stream)
{
    fputs(COMMANDS, stream);
    print_settings(stream);
    fputs(ALL, stream);
    fprintf(stream, "  --scale N                       the picture's size: 1 to %d (1)\n", PICTURE_SCALE_MOST);
    fputs(PRINTED, stream);
}

void print_version(FILE *stream)
{
    fputs("tekoweapa " TKW_VERSION "\n", stream);
}
