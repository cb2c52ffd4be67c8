/*
 * Merges the sheets of two files and prints the merged sheet, or the line of one of its units as it stands in its file.
 *
 *     (cd crates/tugrokt && rt lib)
 *     cc -I bindings bindings/examples/merge.c crates/tugrokt/out/libtugrokt.a -o merge
 *     ./merge FIRST SECOND
 *     ./merge FIRST SECOND LOADER
 */
#include <signal.h>
#include <stdio.h>
#include <stdlib.h>
#include <string.h>

#include "tugrokt.h"

/* How it ends, as the command does. */
enum { SHOWN = 0, REFUSED = 2, FAILED = 3, USAGE = 64 };

static uint8_t one[TUGROKT_MAX_BYTES + 1], two[TUGROKT_MAX_BYTES + 1], page[TUGROKT_MAX_TEXT];
static uint16_t loader[TUGROKT_MAX_UNITS], first[TUGROKT_MAX_UNITS], last[TUGROKT_MAX_UNITS];
static uint16_t from[TUGROKT_MAX_RULES], to[TUGROKT_MAX_RULES], low[TUGROKT_MAX_RULES], high[TUGROKT_MAX_RULES];

/* The status, unless not all of what was printed is out. */
static int ended(int status)
{
    if (fflush(stdout) == 0 && !ferror(stdout))
        return status;
    perror("standard output");
    return FAILED;
}

static int refuse(size_t number, size_t line)
{
    printf("(refused %zu (line %zu))\n", number, line);
    return ended(REFUSED);
}

/* Reads a file into a text. One byte more than the longest text is enough to have a longer one refused. */
static size_t read_file(const char *name, uint8_t *text)
{
    FILE *file = fopen(name, "rb");
    size_t length = file == NULL ? 0 : fread(text, 1, TUGROKT_MAX_BYTES + 1, file);

    if (file == NULL || ferror(file)) {
        perror(name);
        exit(FAILED);
    }
    fclose(file);
    return length;
}

/* The line is a part of one of the texts, and is written from there. */
static int show_line(size_t one_length, size_t two_length, unsigned long wanted)
{
    /* No sheet has a loader number of 0, which stands here for all that are too large. */
    uint16_t number = wanted <= TUGROKT_MAX_LOADER ? (uint16_t)wanted : 0;
    struct tugrokt_line found = tugrokt_line_of(one, one_length, two, two_length, number);

    if (found.number != 0)
        return refuse(found.number, found.line);
    fwrite((found.sheet == 1 ? one : two) + found.start, 1, found.length, stdout);
    putchar('\n');
    return ended(SHOWN);
}

static int show_sheet(size_t one_length, size_t two_length)
{
    struct tugrokt_reading merged = tugrokt_merge(
        one, one_length, two, two_length, loader, TUGROKT_MAX_UNITS, first, TUGROKT_MAX_UNITS, last, TUGROKT_MAX_UNITS, from,
        TUGROKT_MAX_RULES, to, TUGROKT_MAX_RULES, low, TUGROKT_MAX_RULES, high, TUGROKT_MAX_RULES);
    size_t n = merged.units, r = merged.rules;
    struct tugrokt_writing written;

    if (merged.number != 0)
        return refuse(merged.number, merged.line);
    written = tugrokt_write_sheet(merged.span, loader, n, first, n, last, n, from, r, to, r, low, r, high, r, page, sizeof page, 0);
    fwrite(page, 1, written.place, stdout);
    return ended(SHOWN);
}

/* A loader number is digits. */
static int is_number(const char *word)
{
    return word[0] != '\0' && word[strspn(word, "0123456789")] == '\0';
}

int main(int argc, char **argv)
{
    size_t one_length, two_length;

    if ((argc != 3 && argc != 4) || (argc == 4 && !is_number(argv[3]))) {
        fputs("usage: merge FIRST SECOND [LOADER]\n", stderr);
        return USAGE;
    }
    /* Writing to a closed pipe is then a write that fails, and not the end. */
    signal(SIGPIPE, SIG_IGN);
    one_length = read_file(argv[1], one);
    two_length = read_file(argv[2], two);
    return argc == 4 ? show_line(one_length, two_length, strtoul(argv[3], NULL, 10)) : show_sheet(one_length, two_length);
}
