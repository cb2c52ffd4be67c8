/*
 * Reads, plans, decides, seats, prints, writes and merges, and shows each reply field by field, as C sees it.
 *
 *     replies UNITS PLACE PAGE <sheet
 *
 * The rooms for units have UNITS places, and the page has PAGE, printed on from PLACE. Then the lists are written in our form and in the
 * partner's, onto the page from PLACE on, and each text is read back into the same rooms; where it was refused, the whole input is read as
 * a partner's sheet. Then the input is merged with a sheet of its span and one unit, loader 9999, as the first text and as the second, and
 * the lines of its first unit, of 9999 and of 0 are asked for. All that is lent lies in one block with a guard on either side, and a
 * refused call must leave every byte of it, and every call what it only reads.
 */
#include <stdio.h>
#include <stdlib.h>
#include <string.h>

#include "tugrokt.h"

struct block {
    uint8_t guard_before[64];
    uint8_t text[TUGROKT_MAX_BYTES + 1], other[64];
    uint16_t loader[TUGROKT_MAX_UNITS], first[TUGROKT_MAX_UNITS], last[TUGROKT_MAX_UNITS];
    uint16_t from[TUGROKT_MAX_RULES], to[TUGROKT_MAX_RULES], low[TUGROKT_MAX_RULES], high[TUGROKT_MAX_RULES];
    int16_t table[TUGROKT_MAX_CELLS];
    uint16_t plan[TUGROKT_MAX_UNITS], earliest[TUGROKT_MAX_UNITS], latest[TUGROKT_MAX_UNITS];
    uint16_t ring[TUGROKT_MAX_BOUNDARIES];
    uint8_t page[TUGROKT_MAX_PAGE];
    uint8_t guard_after[64];
};

static struct block lent, before;

/* How a line ends: refused calls tell whether the block is as it was. */
static const char *left(size_t number)
{
    if (number == 0)
        return "";
    return memcmp(&lent, &before, sizeof lent) == 0 ? " unchanged" : " CHANGED";
}

/* The caller's own numbers on both sides of a reply, which no call may touch. */
struct kept_reading { size_t before; struct tugrokt_reading reply; size_t after; };
struct kept_planning { size_t before; struct tugrokt_planning reply; size_t after; };
struct kept_seating { size_t before; struct tugrokt_seating reply; size_t after; };
struct kept_printing { size_t before; struct tugrokt_printing reply; size_t after; };
struct kept_writing { size_t before; struct tugrokt_writing reply; size_t after; };
struct kept_line { size_t before; struct tugrokt_line reply; size_t after; };

#define MARK ((size_t)0xdeadbeef)

/* Reads a text into the block's lists. */
static struct tugrokt_reading read_lists(int partner, const uint8_t *text, size_t text_length)
{
    return (partner ? tugrokt_read_partner : tugrokt_read)(
        text, text_length, lent.loader, TUGROKT_MAX_UNITS, lent.first, TUGROKT_MAX_UNITS, lent.last, TUGROKT_MAX_UNITS, lent.from,
        TUGROKT_MAX_RULES, lent.to, TUGROKT_MAX_RULES, lent.low, TUGROKT_MAX_RULES, lent.high, TUGROKT_MAX_RULES);
}

static void show_reading(const char *name, struct tugrokt_reading reply)
{
    printf("%s %zu %zu %zu %zu %zu%s\n", name, reply.number, reply.line, reply.span, reply.units, reply.rules, left(reply.number));
}

/* Writes the lists of a sheet that was read, reads the text back, and tells whether the lists, and all else that was lent, are as they
 * were. Gives back whether the caller's numbers beside the reply are. */
static int write_and_read(int partner, struct tugrokt_reading sheet, size_t text_length, size_t page, size_t place)
{
    struct kept_writing written = { MARK, { MARK, MARK, MARK }, MARK };
    struct kept_reading again = { MARK, { MARK, MARK, MARK, MARK, MARK }, MARK };
    size_t n = sheet.units, r = sheet.rules;

    before = lent;
    written.reply = (partner ? tugrokt_write_partner : tugrokt_write_sheet)(
        sheet.span, lent.loader, n, lent.first, n, lent.last, n, lent.from, r, lent.to, r, lent.low, r, lent.high, r, lent.page, page,
        place);
    printf("%s %zu %zu %zu%s\n", partner ? "writing for the partner" : "writing", written.reply.number, written.reply.line,
           written.reply.place, left(written.reply.number));
    if (written.reply.number == 0) {
        /* What is written is the text alone, and what is read of it writes the same numbers again. */
        memcpy(before.page + place, lent.page + place, written.reply.place - place);
        again.reply = read_lists(partner, lent.page + place, written.reply.place - place);
        show_reading(memcmp(&lent, &before, sizeof lent) == 0 ? "the same lists" : "OTHER LISTS", again.reply);
    } else {
        again.reply = read_lists(1, lent.text, text_length);
        show_reading("reading for the partner", again.reply);
    }
    return written.before == MARK && written.after == MARK && again.before == MARK && again.after == MARK;
}

/* Asks where a loader's line stands in two texts. It writes nothing, so the block is as it was in any case. */
static int show_line(const uint8_t *one, size_t one_length, const uint8_t *two, size_t two_length, uint16_t loader)
{
    struct kept_line found = { MARK, { MARK, MARK, MARK, MARK, MARK }, MARK };

    before = lent;
    found.reply = tugrokt_line_of(one, one_length, two, two_length, loader);
    printf("line of %u: %zu %zu %zu %zu %zu%s\n", (unsigned)loader, found.reply.number, found.reply.line, found.reply.sheet,
           found.reply.start, found.reply.length, left(1));
    return found.before == MARK && found.after == MARK;
}

/* Merges two texts into the block's lists, and asks for three lines. */
static int merge_and_find(const uint8_t *one, size_t one_length, const uint8_t *two, size_t two_length, size_t units, uint16_t loader)
{
    struct kept_reading merged = { MARK, { MARK, MARK, MARK, MARK, MARK }, MARK };
    int kept;

    before = lent;
    merged.reply = tugrokt_merge(one, one_length, two, two_length, lent.loader, units, lent.first, units, lent.last, units, lent.from,
                                 TUGROKT_MAX_RULES, lent.to, TUGROKT_MAX_RULES, lent.low, TUGROKT_MAX_RULES, lent.high,
                                 TUGROKT_MAX_RULES);
    show_reading("merging", merged.reply);
    kept = show_line(one, one_length, two, two_length, loader);
    kept = show_line(one, one_length, two, two_length, 9999) && kept;
    kept = show_line(one, one_length, two, two_length, 0) && kept;
    return kept && merged.before == MARK && merged.after == MARK;
}

int main(int argc, char **argv)
{
    struct kept_reading read = { MARK, { MARK, MARK, MARK, MARK, MARK }, MARK };
    struct kept_planning planned = { MARK, { MARK, MARK, MARK }, MARK };
    struct kept_planning decided = { MARK, { MARK, MARK, MARK }, MARK };
    struct kept_seating seated = { MARK, { MARK, MARK, MARK, MARK }, MARK };
    struct kept_printing printed = { MARK, { MARK, MARK, MARK, MARK }, MARK };
    size_t text_length, other_length, units, place, page, n, r;
    uint16_t loader;
    int kept;

    if (argc != 4)
        return 2;
    units = strtoul(argv[1], NULL, 10);
    place = strtoul(argv[2], NULL, 10);
    page = strtoul(argv[3], NULL, 10);
    if (units > TUGROKT_MAX_UNITS || page > TUGROKT_MAX_PAGE)
        return 2;
    memset(&lent, 0xa5, sizeof lent);
    text_length = fread(lent.text, 1, sizeof lent.text, stdin);

    before = lent;
    read.reply = read_lists(0, lent.text, text_length);
    show_reading("reading", read.reply);

    n = read.reply.units;
    r = read.reply.rules;
    before = lent;
    planned.reply = tugrokt_plan(read.reply.span, lent.loader, n, lent.first, n, lent.last, n, lent.from, r, lent.to, r, lent.low, r,
                                 lent.high, r, lent.table, TUGROKT_MAX_CELLS, lent.plan, units, lent.earliest, units, lent.latest,
                                 units, lent.ring, TUGROKT_MAX_BOUNDARIES);
    printf("planning %zu %zu %zu%s\n", planned.reply.number, planned.reply.line, planned.reply.length,
           left(planned.reply.number));

    before = lent;
    decided.reply = tugrokt_decide(read.reply.span, lent.loader, n, lent.first, n, lent.last, n, lent.from, r, lent.to, r, lent.low, r,
                                   lent.high, r, lent.table, TUGROKT_MAX_CELLS, lent.ring, TUGROKT_MAX_BOUNDARIES);
    printf("deciding %zu %zu %zu%s\n", decided.reply.number, decided.reply.line, decided.reply.length,
           left(decided.reply.number));

    before = lent;
    seated.reply = tugrokt_seat(read.reply.span, lent.loader, n, lent.first, n, lent.last, n, lent.from, r, lent.to, r, lent.low, r,
                                lent.high, r, lent.table, TUGROKT_MAX_CELLS, lent.plan, units, lent.earliest, units, lent.latest,
                                units);
    printf("seating %zu %zu %zu %zu%s\n", seated.reply.number, seated.reply.line, seated.reply.planned, seated.reply.looked,
           left(seated.reply.number));

    before = lent;
    printed.reply = tugrokt_print(read.reply.span, lent.loader, n, lent.first, n, lent.last, n, lent.from, r, lent.to, r, lent.low, r,
                                  lent.high, r, lent.table, TUGROKT_MAX_CELLS, lent.plan, units, lent.earliest, units,
                                  lent.latest, units, lent.ring, TUGROKT_MAX_BOUNDARIES, lent.page, page, place);
    printf("printing %zu %zu %zu %zu%s\n", printed.reply.number, printed.reply.line, printed.reply.length, printed.reply.place,
           left(printed.reply.number));

    kept = write_and_read(0, read.reply, text_length, page, place);
    kept = write_and_read(1, read.reply, text_length, page, place) && kept;

    loader = read.reply.units > 0 ? lent.loader[0] : 1;
    other_length = (size_t)sprintf((char *)lent.other, "(sheet %zu)\n(unit 9999 (window 1 1))\n", read.reply.span);
    kept = merge_and_find(lent.text, text_length, lent.other, other_length, units, loader) && kept;
    kept = merge_and_find(lent.other, other_length, lent.text, text_length, units, loader) && kept;

    return kept && read.before == MARK && read.after == MARK && planned.before == MARK && planned.after == MARK &&
                   decided.before == MARK && decided.after == MARK && seated.before == MARK && seated.after == MARK &&
                   printed.before == MARK && printed.after == MARK
               ? 0
               : 1;
}
