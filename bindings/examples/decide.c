/*
 * Reads a sheet from standard input, decides it, and prints how few and how many deliveries each slot can hold, or the ring.
 *
 *     (cd crates/tugrokt && rt lib)
 *     cc -I bindings bindings/examples/decide.c crates/tugrokt/out/libtugrokt.a -o decide
 *     ./decide <SHEET
 */
#include <signal.h>
#include <stdio.h>

#include "tugrokt.h"

/* How it ends, as the command does. */
enum { FITS = 0, NONE = 1, REFUSED = 2, FAILED = 3, USAGE = 64 };

static uint8_t text[TUGROKT_MAX_BYTES + 1];
static uint16_t loader[TUGROKT_MAX_UNITS], first[TUGROKT_MAX_UNITS], last[TUGROKT_MAX_UNITS];
static uint16_t from[TUGROKT_MAX_RULES], to[TUGROKT_MAX_RULES], low[TUGROKT_MAX_RULES], high[TUGROKT_MAX_RULES];
static int16_t table[TUGROKT_MAX_CELLS];
static uint16_t ring[TUGROKT_MAX_BOUNDARIES];

/* The status, unless not all of what was printed is out. */
static int ended(int status)
{
    if (fflush(stdout) == 0 && !ferror(stdout))
        return status;
    perror("standard output");
    return FAILED;
}

static int refuse(size_t number, size_t line)
{
    printf("(refused %zu (line %zu))\n", number, line);
    return ended(REFUSED);
}

static int show_ring(size_t length)
{
    size_t i;

    for (i = 0; i < length; i++)
        printf("boundary %u\n", (unsigned)ring[i]);
    return ended(NONE);
}

static int show_slots(size_t span)
{
    size_t i, w = TUGROKT_BOUNDARIES(span);

    for (i = 1; i <= span; i++)
        printf("slot %zu: %d to %d\n", i, -table[i * w + (i - 1)], table[(i - 1) * w + i]);
    return ended(FITS);
}

static int decide_text(size_t text_length)
{
    struct tugrokt_reading read;
    struct tugrokt_planning decided;

    read = tugrokt_read(text, text_length, loader, TUGROKT_MAX_UNITS, first, TUGROKT_MAX_UNITS, last, TUGROKT_MAX_UNITS, from,
                        TUGROKT_MAX_RULES, to, TUGROKT_MAX_RULES, low, TUGROKT_MAX_RULES, high, TUGROKT_MAX_RULES);
    if (read.number != 0)
        return refuse(read.number, read.line);
    decided = tugrokt_decide(read.span, loader, read.units, first, read.units, last, read.units, from, read.rules, to, read.rules, low,
                             read.rules, high, read.rules, table, TUGROKT_MAX_CELLS, ring, TUGROKT_MAX_BOUNDARIES);
    if (decided.number != 0)
        return refuse(decided.number, decided.line);
    return decided.length > 0 ? show_ring(decided.length) : show_slots(read.span);
}

int main(int argc, char **argv)
{
    size_t text_length;

    (void)argv;
    if (argc != 1) {
        fputs("usage: decide <SHEET\n", stderr);
        return USAGE;
    }
    /* Writing to a closed pipe is then a write that fails, and not the end. */
    signal(SIGPIPE, SIG_IGN);
    text_length = fread(text, 1, sizeof text, stdin);
    if (ferror(stdin)) {
        perror("standard input");
        return FAILED;
    }
    return decide_text(text_length);
}
