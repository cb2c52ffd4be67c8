/*
 * Reads a sheet from standard input and prints its answer page.
 *
 *     (cd crates/tugrokt && rt lib)
 *     cc -I bindings bindings/examples/sheet.c crates/tugrokt/out/libtugrokt.a -o sheet
 *     ./sheet <SHEET
 */
#include <signal.h>
#include <stdio.h>

#include "tugrokt.h"

/* How it ends, as the command does. */
enum { PLAN = 0, NONE = 1, REFUSED = 2, FAILED = 3, USAGE = 64 };

static uint8_t text[TUGROKT_MAX_BYTES + 1], page[TUGROKT_MAX_PAGE];
static uint16_t loader[TUGROKT_MAX_UNITS], first[TUGROKT_MAX_UNITS], last[TUGROKT_MAX_UNITS];
static uint16_t from[TUGROKT_MAX_RULES], to[TUGROKT_MAX_RULES], low[TUGROKT_MAX_RULES], high[TUGROKT_MAX_RULES];
static int16_t table[TUGROKT_MAX_CELLS];
static uint16_t plan[TUGROKT_MAX_UNITS], earliest[TUGROKT_MAX_UNITS], latest[TUGROKT_MAX_UNITS];
static uint16_t ring[TUGROKT_MAX_BOUNDARIES];

/* The status, unless not all of what was printed is out. */
static int ended(int status)
{
    if (fflush(stdout) == 0 && !ferror(stdout))
        return status;
    perror("standard output");
    return FAILED;
}

static int refuse(size_t number, size_t line)
{
    printf("(refused %zu (line %zu))\n", number, line);
    return ended(REFUSED);
}

static int print_text(size_t text_length)
{
    struct tugrokt_reading read;
    struct tugrokt_printing printed;

    read = tugrokt_read(text, text_length, loader, TUGROKT_MAX_UNITS, first, TUGROKT_MAX_UNITS, last, TUGROKT_MAX_UNITS, from,
                        TUGROKT_MAX_RULES, to, TUGROKT_MAX_RULES, low, TUGROKT_MAX_RULES, high, TUGROKT_MAX_RULES);
    if (read.number != 0)
        return refuse(read.number, read.line);
    printed = tugrokt_print(read.span, loader, read.units, first, read.units, last, read.units, from, read.rules, to, read.rules,
                            low, read.rules, high, read.rules, table, TUGROKT_MAX_CELLS, plan, TUGROKT_MAX_UNITS, earliest,
                            TUGROKT_MAX_UNITS, latest, TUGROKT_MAX_UNITS, ring, TUGROKT_MAX_BOUNDARIES, page, sizeof page, 0);
    if (printed.number != 0)
        return refuse(printed.number, printed.line);
    fwrite(page, 1, printed.place, stdout);
    return ended(printed.length > 0 ? NONE : PLAN);
}

int main(int argc, char **argv)
{
    size_t text_length;

    (void)argv;
    if (argc != 1) {
        fputs("usage: sheet <SHEET\n", stderr);
        return USAGE;
    }
    /* Writing to a closed pipe is then a write that fails, and not the end. */
    signal(SIGPIPE, SIG_IGN);
    text_length = fread(text, 1, sizeof text, stdin);
    if (ferror(stdin)) {
        perror("standard input");
        return FAILED;
    }
    return print_text(text_length);
}
