/*
 * The wave planner's open entries.
 *
 * Any lists, any rooms and any numbers get an answer. The caller's one duty is that of every C function: each pointer has
 * as many places behind it as the length beside it says, and what is lent for writing overlaps nothing else.
 *
 * A call replies with a struct by value and writes nothing but the lent rooms. In every reply, number is 0, or that of the
 * question that was answered no and so refused the call, and line is the line that a refusal names, from 1, or 0 for none. What a
 * reply does not have is 0. Later versions add fields to a reply, only at its end; compile with the header of the library
 * that is linked.
 *
 * The questions in the order in which they are asked, by number (docs/RULES.md has their words); the first no decides:
 *
 *     tugrokt_read     1; then line by line 2, 11 (of notes), 3, 4, 5, 6, 7, 16, 8, 9, 10; then 5 for the whole; then 12
 *     tugrokt_plan     13, 6, 9, 10, 7 of the units, 7 of the rules, 16, 8, 12
 *     tugrokt_decide   the same; 12 of its own rooms, table and ring
 *     tugrokt_seat     the same; 12 of its own rooms, table, plan, earliest and latest
 *     tugrokt_print    what tugrokt_plan asks, then 15
 *
 *     tugrokt_read_partner    what tugrokt_read asks, of a partner's text
 *     tugrokt_write_sheet     what tugrokt_plan asks but 12, then 15
 *     tugrokt_write_partner   what tugrokt_plan asks but 12, then 17, 18 and 15
 *
 *     tugrokt_merge           what tugrokt_read asks but 12, of the first text and then of the second; then 19, 20, 9, 21, 10, 12
 *     tugrokt_line_of         what tugrokt_merge asks but 12, then 27
 *
 *     tugrokt_answer                15
 *     tugrokt_answer_fits           15
 *     tugrokt_answer_partner        15
 *     tugrokt_answer_fits_partner   15
 *
 * The last four ask of the page alone: does it hold the whole answer? A text that reading refuses has an answer too, the line of its
 * refusal, as (refused 7 (line 3)), and so number is 0.
 *
 * 16 asks of each unit: is its loader number 1 to TUGROKT_MAX_LOADER and on no earlier unit? 13 asks whether the lists of units are
 * equally long, the loader numbers among them, and so are the lists of rules. 17 asks whether no unit may be carried, and 18 whether the
 * low of every rule is 0; a refusal by one of them has for its line the place of the first unit or rule at fault in its list, from 1.
 *
 * Of two texts, 19 asks whether their spans are equal, 20 whether no loader number is in both, 9 whether there are at most
 * TUGROKT_MAX_UNITS units together, 21 whether on each stretch the largest low of all rules is at most the smallest high, and 10 whether
 * there are at most TUGROKT_MAX_RULES stretches. A refusal by one of reading's questions names a line of the text that it is of, which is
 * the second only where tugrokt_read takes the first. All others name a line of the second: 19 that of its span, 20, 9 and 10 the first
 * at fault, 21 the last rule on the first such stretch, or 0 where the second has none on it. 27 asks whether the loader number is in
 * either.
 *
 * A refused call changes nothing that it was lent. Places of a room past those that an answer needs never change.
 *
 * Link crates/tugrokt/out/libtugrokt.a, which `rt lib` makes in crates/tugrokt.
 */
#ifndef TUGROKT_H
#define TUGROKT_H

#include <stddef.h>
#include <stdint.h>

/*
 * The sheet's sizes, the greatest count of a rule, the largest loader number, the longest text that is read, the largest table, the
 * longest page, and the longest text that is written. Rooms and pages of such lengths refuse no sheet.
 */
#define TUGROKT_MAX_SLOTS 48
#define TUGROKT_MAX_UNITS 300
#define TUGROKT_MAX_RULES 60
#define TUGROKT_MAX_COUNT 300
#define TUGROKT_MAX_LOADER 9999
#define TUGROKT_MAX_BYTES 16000
#define TUGROKT_MAX_BOUNDARIES (TUGROKT_MAX_SLOTS + 2)
#define TUGROKT_MAX_CELLS (TUGROKT_MAX_BOUNDARIES * TUGROKT_MAX_BOUNDARIES)
#define TUGROKT_MAX_PAGE 13242
#define TUGROKT_MAX_TEXT 12309

/*
 * The place behind the last slot of a span. A unit whose window ends there may be carried over into the next wave, and one that has
 * it for its slot is: plan[i] == TUGROKT_CARRIED_PLACE(span).
 */
#define TUGROKT_CARRIED_PLACE(span) ((span) + 1)

/* The number of boundaries of a span, 0 to the end of the carried place: the numbers in a row of the table. */
#define TUGROKT_BOUNDARIES(span) (TUGROKT_CARRIED_PLACE(span) + 1)

#ifdef __cplusplus
extern "C" {
#endif

struct tugrokt_reading {
    size_t number;
    size_t line;
    size_t span;  /* of the sheet that was read or merged */
    size_t units; /* the length of its lists of units */
    size_t rules; /* the length of its lists of rules */
};

struct tugrokt_planning {
    size_t number;
    size_t line;
    size_t length; /* of the ring, where there is no plan; 0 for a plan, and for a sheet that fits */
};

struct tugrokt_seating {
    size_t number;
    size_t line;
    size_t planned; /* 1 for a plan; 0 for none, and where the call was refused */
    size_t looked;  /* how many units seating looked at; 0 for none, and where the call was refused */
};

struct tugrokt_printing {
    size_t number;
    size_t line;
    size_t length; /* of the ring, as in tugrokt_planning */
    size_t place;  /* just past the answer; as it was given where the call was refused */
};

struct tugrokt_writing {
    size_t number;
    size_t line;  /* for 17 the place in the lists of units, for 18 that in the lists of rules, from 1 */
    size_t place; /* just past the text or the answer; as it was given where the call was refused */
};

struct tugrokt_line {
    size_t number;
    size_t line;
    size_t sheet;  /* the text that holds the unit, 1 or 2; 0 where the call was refused */
    size_t start;  /* of the unit's line in that text */
    size_t length; /* of the line, without its line feed */
};

/*
 * Reads a sheet into seven lists, each at the front of its room: each unit's loader number, loader, and its window, first to last;
 * each rule's stretch, from to to, and its count, low to high.
 */
struct tugrokt_reading tugrokt_read(
    const uint8_t *text, size_t text_length, uint16_t *loader, size_t loader_length,
    uint16_t *first, size_t first_length, uint16_t *last, size_t last_length,
    uint16_t *from, size_t from_length, uint16_t *to, size_t to_length,
    uint16_t *low, size_t low_length, uint16_t *high, size_t high_length);

/*
 * Reads a partner's sheet into the same lists: (day N) gives the span; a job with its start and its hours a unit whose window is the
 * slots from start to start + hours - 1, all of them inside the span (7); a limit the rule on the slots from from to from + hours - 1,
 * with the count 0 to most.
 */
struct tugrokt_reading tugrokt_read_partner(
    const uint8_t *text, size_t text_length, uint16_t *loader, size_t loader_length,
    uint16_t *first, size_t first_length, uint16_t *last, size_t last_length,
    uint16_t *from, size_t from_length, uint16_t *to, size_t to_length,
    uint16_t *low, size_t low_length, uint16_t *high, size_t high_length);

/*
 * Plans from lists. A window's last slot may be the carried place, its first and a rule's last may not (7).
 * With a plan, plan has each unit's slot, earliest and latest its narrowed window, and table, with w = span + 2 numbers a row, the
 * greatest count of the slots a+1 to b at a*w + b, and minus the least at b*w + a; the carried place counts as the last slot. ring
 * is unchanged. With none, length boundaries stand at the front of ring, whose steps' limits add up to less than 0, and the w*w
 * places of table are 0; plan, earliest and latest are unchanged.
 * Rooms needed: w*w places in table, w in ring, one for each unit in the others.
 */
struct tugrokt_planning tugrokt_plan(
    size_t span, const uint16_t *loader, size_t loader_length,
    const uint16_t *first, size_t first_length, const uint16_t *last, size_t last_length,
    const uint16_t *from, size_t from_length, const uint16_t *to, size_t to_length,
    const uint16_t *low, size_t low_length, const uint16_t *high, size_t high_length,
    int16_t *table, size_t table_length, uint16_t *plan, size_t plan_length,
    uint16_t *earliest, size_t earliest_length, uint16_t *latest, size_t latest_length,
    uint16_t *ring, size_t ring_length);

/*
 * Decides from lists: is there a plan, and how few and how many deliveries can each stretch hold? It seats no unit and narrows no
 * window. A sheet fits where number and length are both 0: table is then as tugrokt_plan leaves it for a plan, and ring is unchanged.
 * With none, table and ring are as tugrokt_plan leaves them for none.
 * Rooms needed: w*w places in table, w in ring, with w = span + 2.
 */
struct tugrokt_planning tugrokt_decide(
    size_t span, const uint16_t *loader, size_t loader_length,
    const uint16_t *first, size_t first_length, const uint16_t *last, size_t last_length,
    const uint16_t *from, size_t from_length, const uint16_t *to, size_t to_length,
    const uint16_t *low, size_t low_length, const uint16_t *high, size_t high_length,
    int16_t *table, size_t table_length, uint16_t *ring, size_t ring_length);

/*
 * Seats the units of a sheet that fits and narrows their windows. The table is worked out from the lists again, whatever it held.
 * With a plan, table, plan, earliest and latest are as tugrokt_plan leaves them. With none, the w*w places of table are 0, and plan,
 * earliest and latest are unchanged; there is no ring.
 * looked comes from lists and plan alone. Order all units by last, and those with the same last as they stand in the lists: each slot in
 * which the plan seats units, the carried place among them, adds the place in that order, from 1, of the last of its units.
 * Rooms needed: w*w places in table, with w = span + 2, and one for each unit in the others.
 */
struct tugrokt_seating tugrokt_seat(
    size_t span, const uint16_t *loader, size_t loader_length,
    const uint16_t *first, size_t first_length, const uint16_t *last, size_t last_length,
    const uint16_t *from, size_t from_length, const uint16_t *to, size_t to_length,
    const uint16_t *low, size_t low_length, const uint16_t *high, size_t high_length,
    int16_t *table, size_t table_length, uint16_t *plan, size_t plan_length,
    uint16_t *earliest, size_t earliest_length, uint16_t *latest, size_t latest_length);

/*
 * Plans from lists and prints the answer on the page from the given place on, each unit with its loader number, and one that is
 * carried over with (carried) in place of its slot. The rooms are left as by tugrokt_plan, but where the page does not hold the whole
 * answer the call is refused by 15 and changes neither page nor rooms.
 */
struct tugrokt_printing tugrokt_print(
    size_t span, const uint16_t *loader, size_t loader_length,
    const uint16_t *first, size_t first_length, const uint16_t *last, size_t last_length,
    const uint16_t *from, size_t from_length, const uint16_t *to, size_t to_length,
    const uint16_t *low, size_t low_length, const uint16_t *high, size_t high_length,
    int16_t *table, size_t table_length, uint16_t *plan, size_t plan_length,
    uint16_t *earliest, size_t earliest_length, uint16_t *latest, size_t latest_length,
    uint16_t *ring, size_t ring_length, uint8_t *page, size_t page_length, size_t place);

/*
 * Writes the lists as a sheet's text on the page from the given place on: the span, the units and the rules, in the order of the lists,
 * a line each and no notes. tugrokt_read makes the same lists of it. Where the page does not hold the whole text the call is refused by
 * 15 and the page is unchanged; TUGROKT_MAX_TEXT places hold every text.
 */
struct tugrokt_writing tugrokt_write_sheet(
    size_t span, const uint16_t *loader, size_t loader_length,
    const uint16_t *first, size_t first_length, const uint16_t *last, size_t last_length,
    const uint16_t *from, size_t from_length, const uint16_t *to, size_t to_length,
    const uint16_t *low, size_t low_length, const uint16_t *high, size_t high_length,
    uint8_t *page, size_t page_length, size_t place);

/*
 * The same in the partner's form, of lists in which no unit may be carried (17) and every low is 0 (18). tugrokt_read_partner makes the
 * same lists of the text.
 */
struct tugrokt_writing tugrokt_write_partner(
    size_t span, const uint16_t *loader, size_t loader_length,
    const uint16_t *first, size_t first_length, const uint16_t *last, size_t last_length,
    const uint16_t *from, size_t from_length, const uint16_t *to, size_t to_length,
    const uint16_t *low, size_t low_length, const uint16_t *high, size_t high_length,
    uint8_t *page, size_t page_length, size_t place);

/*
 * Makes one sheet of two texts, in the lists that tugrokt_read fills: the units of the first and then those of the second; and one rule
 * for each stretch, in the order in which the stretches first appear over both, with the largest low and the smallest high of all rules
 * on it, also of those that stand in one text. What it leaves, tugrokt_plan takes, and a plan is lawful for it exactly when it keeps to
 * all windows and all rules of both. Rooms of TUGROKT_MAX_UNITS and TUGROKT_MAX_RULES places refuse no two sheets.
 */
struct tugrokt_reading tugrokt_merge(
    const uint8_t *one, size_t one_length, const uint8_t *two, size_t two_length,
    uint16_t *loader, size_t loader_length,
    uint16_t *first, size_t first_length, uint16_t *last, size_t last_length,
    uint16_t *from, size_t from_length, uint16_t *to, size_t to_length,
    uint16_t *low, size_t low_length, uint16_t *high, size_t high_length);

/*
 * Where the line of the unit with this loader number stands in the texts of two sheets that tugrokt_merge takes: in the first where sheet
 * is 1, else in the second, length bytes from start on, without its line feed. Nothing is copied.
 */
struct tugrokt_line tugrokt_line_of(
    const uint8_t *one, size_t one_length, const uint8_t *two, size_t two_length, uint16_t loader);

/*
 * Answers a sheet's text on the page from the given place on, byte for byte as the program prints it: its plan, or the bounds that no plan
 * meets together, or the line of its refusal. Where the page does not hold the whole answer the call is refused by 15 and the page is
 * unchanged; TUGROKT_MAX_PAGE places hold every answer.
 */
struct tugrokt_writing tugrokt_answer(
    const uint8_t *text, size_t text_length, uint8_t *page, size_t page_length, size_t place);

/* The same, with the least and the greatest count of each slot in place of a plan. */
struct tugrokt_writing tugrokt_answer_fits(
    const uint8_t *text, size_t text_length, uint8_t *page, size_t page_length, size_t place);

/* Both of a partner's text. */
struct tugrokt_writing tugrokt_answer_partner(
    const uint8_t *text, size_t text_length, uint8_t *page, size_t page_length, size_t place);

struct tugrokt_writing tugrokt_answer_fits_partner(
    const uint8_t *text, size_t text_length, uint8_t *page, size_t page_length, size_t place);

#ifdef __cplusplus
}
#endif

#endif
