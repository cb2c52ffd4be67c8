/*
 * Turns a sheet from standard input into the partner's form, or a partner's sheet into ours.
 *
 *     (cd crates/tugrokt && rt lib)
 *     cc -I bindings bindings/examples/convert.c crates/tugrokt/out/libtugrokt.a -o convert
 *     ./convert to-partner <SHEET
 *     ./convert from-partner <SHEET
 */
#include <signal.h>
#include <stdio.h>
#include <string.h>

#include "tugrokt.h"

/* How it ends, as the command does. */
enum { CONVERTED = 0, REFUSED = 2, FAILED = 3, USAGE = 64 };

static uint8_t text[TUGROKT_MAX_BYTES + 1], page[TUGROKT_MAX_TEXT];
static uint16_t loader[TUGROKT_MAX_UNITS], first[TUGROKT_MAX_UNITS], last[TUGROKT_MAX_UNITS];
static uint16_t from[TUGROKT_MAX_RULES], to[TUGROKT_MAX_RULES], low[TUGROKT_MAX_RULES], high[TUGROKT_MAX_RULES];

/* The status, unless not all of what was printed is out. */
static int ended(int status)
{
    if (fflush(stdout) == 0 && !ferror(stdout))
        return status;
    perror("standard output");
    return FAILED;
}

static int refuse(size_t number, size_t line)
{
    printf("(refused %zu (line %zu))\n", number, line);
    return ended(REFUSED);
}

static struct tugrokt_reading read_text(int theirs, size_t text_length)
{
    return (theirs ? tugrokt_read_partner : tugrokt_read)(
        text, text_length, loader, TUGROKT_MAX_UNITS, first, TUGROKT_MAX_UNITS, last, TUGROKT_MAX_UNITS, from, TUGROKT_MAX_RULES, to,
        TUGROKT_MAX_RULES, low, TUGROKT_MAX_RULES, high, TUGROKT_MAX_RULES);
}

static struct tugrokt_writing write_text(int theirs, struct tugrokt_reading read)
{
    size_t n = read.units, r = read.rules;

    return (theirs ? tugrokt_write_partner : tugrokt_write_sheet)(read.span, loader, n, first, n, last, n, from, r, to, r, low, r, high,
                                                                  r, page, sizeof page, 0);
}

static int convert(int from_partner, size_t text_length)
{
    struct tugrokt_reading read = read_text(from_partner, text_length);
    struct tugrokt_writing written;

    if (read.number != 0)
        return refuse(read.number, read.line);
    written = write_text(!from_partner, read);
    /* 17 names a unit by its place in the lists, and 18 a rule. */
    if (written.number != 0)
        return refuse(written.number, written.line);
    fwrite(page, 1, written.place, stdout);
    return ended(CONVERTED);
}

int main(int argc, char **argv)
{
    int from_partner = argc == 2 && strcmp(argv[1], "from-partner") == 0;
    size_t text_length;

    if (!from_partner && (argc != 2 || strcmp(argv[1], "to-partner") != 0)) {
        fputs("usage: convert to-partner|from-partner <SHEET\n", stderr);
        return USAGE;
    }
    /* Writing to a closed pipe is then a write that fails, and not the end. */
    signal(SIGPIPE, SIG_IGN);
    text_length = fread(text, 1, sizeof text, stdin);
    if (ferror(stdin)) {
        perror("standard input");
        return FAILED;
    }
    return convert(from_partner, text_length);
}
