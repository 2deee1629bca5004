/* Wezghuli: the controller above a fuel pump, as a library.
 *
 * Build the archive with `tests/archive wezghuli` (target/staticlib/libwezghuli.a) and link it; docs/INTEGRATION.md has
 * the rest.
 *
 * Every function may be called with any numbers and any contents of what it is lent: none has a condition on them. It
 * reads and writes only what it is lent and, but for wezghuli_blank, which cannot fail, returns a status:
 *
 *   0           accepted
 *   1 to 99     refused: the number of the first question that failed; not one byte of what was lent is changed
 *   100 to 103  misuse: what was lent is no state, no record, no stream or too little; not one byte of it is changed
 *   104         wezghuli_check alone: the allotment and its figures do not fit
 *
 * What the caller owes is what C itself asks: each pointer leads to as many elements as its parameter says, aligned as
 * its type asks, no two of them overlap, and nobody else writes to them during the call. A pointer to no bytes (of
 * length 0) still must not be null. Different states may be used by different threads at the same time.
 *
 * The contracts that these comments tell in words stand, proved, over each function in crates/wezghuli/src.
 */
#ifndef WEZGHULI_H
#define WEZGHULI_H

#include <stddef.h>
#include <stdint.h>

#ifdef __cplusplus
extern "C" {
#endif

/* Statuses of their own; every other is the number of a question, told at the functions that ask it. */
#define WEZGHULI_STATUS_ACCEPTED 0
/* The seven words of a head are none: the phase is above 2, or takings are held in another phase than Closed. */
#define WEZGHULI_STATUS_NO_HEAD 100
/* The first word of a record is above WEZGHULI_FORM_RESUME. */
#define WEZGHULI_STATUS_NO_FORM 101
/* The first word of a stream is above WEZGHULI_LINE_BUFFER. */
#define WEZGHULI_STATUS_NO_STREAM 102
/* The buffer for answers is shorter than WEZGHULI_REPLY_ROOM. */
#define WEZGHULI_STATUS_NO_ROOM 103
/* What was lent to wezghuli_check is no allotment with figures that fit it. */
#define WEZGHULI_STATUS_NO_FIT 104

/* The limits of a plan and its campaigns; money is in cents. */
#define WEZGHULI_MAX_DEPTH 32
#define WEZGHULI_MAX_WIDTH 16
#define WEZGHULI_MAX_POWER 4294967296 /* of width to the power depth */
#define WEZGHULI_MAX_CAMPAIGNS 64
#define WEZGHULI_MAX_VIEWS 4096
#define WEZGHULI_MAX_PRICE 1000000
#define WEZGHULI_MAX_BUDGET 2000000000
/* How many views may be handed to the search, and the entry of an allotment for a view that goes to nobody. */
#define WEZGHULI_MAX_HANDED_IN 256
#define WEZGHULI_NOBODY 64
/* The longest line that is read, without its byte 10, and the room that every written line fits, with it. */
#define WEZGHULI_MAX_LINE 200
#define WEZGHULI_LINE_ROOM 201
/* How many bytes of an unfinished line are kept, and the room for the longest answer to a line. */
#define WEZGHULI_LINE_BUFFER 201
#define WEZGHULI_REPLY_ROOM 16384

/* A line of the station's page with its byte 10, and the room that every page fits: 64 campaigns and the last line. */
#define WEZGHULI_PAGE_LINE 41
#define WEZGHULI_PAGE_ROOM 2665

/* A state, in memory of the caller. It may be copied, stored and sent as it is; its numbers are in the machine's byte
 * order. A state whose bytes were changed by somebody else is refused with 1 or 100 by every operation but
 * wezghuli_blank, unless what it then says is sound; a stream with such a state answers each call among its lines with
 * (refused 1), or is refused with 100. */
typedef struct {
    uint64_t head[7];     /* see WEZGHULI_HEAD_.. */
    uint32_t terms[128];  /* campaign i: its price at i, its budget at i + WEZGHULI_TERMS_BUDGET */
    uint16_t counts[256]; /* campaign i: its plays at i, and so on: see WEZGHULI_COUNTS_.. */
} wezghuli_day;

/* The words of a head. */
#define WEZGHULI_HEAD_PHASE 0
#define WEZGHULI_HEAD_TAKINGS 1 /* that a Closed phase holds; 0 in the other phases */
#define WEZGHULI_HEAD_DEPTH 2
#define WEZGHULI_HEAD_WIDTH 3
#define WEZGHULI_HEAD_CAMPAIGNS 4
#define WEZGHULI_HEAD_VIEWS 5  /* that were accepted */
#define WEZGHULI_HEAD_PAUSED 6 /* bit i: campaign i is paused; 0 while the phase is Filling */

/* Where the columns begin. */
#define WEZGHULI_TERMS_PRICE 0
#define WEZGHULI_TERMS_BUDGET 64
#define WEZGHULI_COUNTS_PLAYS 0
#define WEZGHULI_COUNTS_TURNS 64
#define WEZGHULI_COUNTS_AGE 128
#define WEZGHULI_COUNTS_NAMED 192

/* head[WEZGHULI_HEAD_PHASE] */
#define WEZGHULI_PHASE_FILLING 0
#define WEZGHULI_PHASE_RUNNING 1
#define WEZGHULI_PHASE_CLOSED 2

/* answer[0]; the values stand in answer[1] to answer[4], and 0 where there are fewer. A refusal writes none. */
#define WEZGHULI_ANSWER_DONE 1
#define WEZGHULI_ANSWER_PLAYED 2  /* campaign, paid */
#define WEZGHULI_ANSWER_NOBODY 3
#define WEZGHULI_ANSWER_TALLIED 4 /* plays, turns, age, named */
#define WEZGHULI_ANSWER_CLOSING 5 /* takings, total claim, full */

/* The figures of wezghuli_noon. */
#define WEZGHULI_NOON_FULL 0
#define WEZGHULI_NOON_CLAIM 1
#define WEZGHULI_NOON_FLOOR 2

/* words[0] of a record; its numbers stand in words[1] to words[5], and 0 where there are fewer. */
#define WEZGHULI_FORM_PLAN 0     /* depth, width */
#define WEZGHULI_FORM_CAMPAIGN 1 /* price, budget */
#define WEZGHULI_FORM_START 2
#define WEZGHULI_FORM_VIEW 3 /* the set: bit i stands for campaign i */
#define WEZGHULI_FORM_CLOSE 4
#define WEZGHULI_FORM_OK 5
#define WEZGHULI_FORM_PLAY 6 /* campaign, paid */
#define WEZGHULI_FORM_NOBODY 7
#define WEZGHULI_FORM_REFUSED 8 /* the question's number */
#define WEZGHULI_FORM_CLOSED 9  /* takings, total claim, full */
#define WEZGHULI_FORM_TALLY 10  /* campaign, plays, turns, age, named */
#define WEZGHULI_FORM_PAUSE 11  /* campaign */
#define WEZGHULI_FORM_RESUME 12 /* campaign */

/* A stream of lines beside a state: the first bytes of a line that has not ended. One that has none begins as
 * {{0}, {0}}; it may be copied, stored and sent as a state may. The library writes zero bytes behind those it keeps. */
typedef struct {
    uint64_t words[3];    /* see WEZGHULI_STREAM_.. */
    uint8_t pending[WEZGHULI_LINE_BUFFER]; /* the first words[WEZGHULI_STREAM_KEPT] of them are kept */
} wezghuli_stream;

/* The words of a stream. */
#define WEZGHULI_STREAM_KEPT 0    /* bytes of an unfinished line */
#define WEZGHULI_STREAM_TAKEN 1   /* of the last block */
#define WEZGHULI_STREAM_WRITTEN 2 /* bytes of the answers to it */

/* Writes the blank state, whatever was there: Closed, depth 1, width 1, no campaigns, no views, no marks, no takings. A
 * day begins with it, or with any sound state that is Closed. It cannot fail and has no status.
 * Every other function that takes a head gives WEZGHULI_STATUS_NO_HEAD, before any question, where its words are
 * none. */
void wezghuli_blank(uint64_t head[7], uint32_t terms[128], uint16_t counts[256]);

/* Opens a plan: the state becomes Filling, with no campaigns, zero counts and none paused. Answers DONE.
 * Refused: 1 the state is not sound, 2 it is not Closed, 3 depth is not 1 to 32, 4 width is not 1 to 16,
 * 5 width to the power depth is above 4,294,967,296. */
uint64_t wezghuli_open(uint64_t head[7], uint32_t terms[128], uint16_t counts[256],
    uint64_t depth, uint64_t width, uint64_t answer[5]);

/* Adds a campaign, which gets the next number from 0 on and is not paused. Answers DONE.
 * Refused: 1 the state is not sound, 6 it is not Filling, 7 there are 64 campaigns, 8 price is not 1 to 1,000,000,
 * 9 budget is not from the price to 2,000,000,000, 10 all budgets with this one are above 2,000,000,000. */
uint64_t wezghuli_add(uint64_t head[7], uint32_t terms[128], uint16_t counts[256],
    uint64_t price, uint64_t budget, uint64_t answer[5]);

/* Starts the day: the state becomes Running. Answers DONE.
 * Refused: 1 the state is not sound, 6 it is not Filling. */
uint64_t wezghuli_start(uint64_t head[7], uint32_t terms[128], uint16_t counts[256], uint64_t answer[5]);

/* Shows a view, whose bit i names campaign i; a paused one counts as named for 13 alone. Answers PLAYED with the
 * campaign that plays and what this play pays, or NOBODY.
 * Refused: 1 the state is not sound, 11 it is not Running, 12 4,096 views were accepted, 13 a named campaign is not in
 * the plan, 14 more than width campaigns that are not paused are named. */
uint64_t wezghuli_view(uint64_t head[7], uint32_t terms[128], uint16_t counts[256],
    uint64_t set, uint64_t answer[5]);

/* Answers TALLIED with the four counts of a campaign, in any phase; the state stays.
 * Refused: 1 the state is not sound, 15 there is no such campaign. */
uint64_t wezghuli_tally(uint64_t head[7], uint32_t terms[128], uint16_t counts[256],
    uint64_t campaign, uint64_t answer[5]);

/* Closes the day: the state becomes Closed and holds its takings; all else stays, the paused marks too. Answers CLOSING
 * with takings, total claim and full.
 * Refused: 1 the state is not sound, 11 it is not Running. */
uint64_t wezghuli_close(uint64_t head[7], uint32_t terms[128], uint16_t counts[256], uint64_t answer[5]);

/* Pauses a campaign: views that name it are treated as if they did not, until it is resumed or the next plan is opened.
 * Its counts stay. Answers DONE, also where it is paused already.
 * Refused: 1 the state is not sound, 11 it is not Running, 15 there is no such campaign. */
uint64_t wezghuli_pause(uint64_t head[7], uint32_t terms[128], uint16_t counts[256],
    uint64_t campaign, uint64_t answer[5]);

/* Resumes a campaign. Answers DONE, also where it is not paused.
 * Refused: as wezghuli_pause. */
uint64_t wezghuli_resume(uint64_t head[7], uint32_t terms[128], uint16_t counts[256],
    uint64_t campaign, uint64_t answer[5]);

/* The figures at noon, in any phase; the state stays. figures[WEZGHULI_NOON_FULL] is width^depth x takings,
 * figures[WEZGHULI_NOON_CLAIM] the total claim, and figures[WEZGHULI_NOON_FLOOR] is
 * (width^depth - (width - 1)^depth) x the sum, over campaigns, of price x the smaller of whole plays (budget / price)
 * and named / depth, both rounded down. Of a state that operations made from the blank one, or from any state by an
 * accepted wezghuli_open, floor <= claim <= full at every moment; of any other sound state only the figures themselves
 * are promised.
 * Refused, with the figures as they were: 1 the state is not sound. WEZGHULI_STATUS_NO_HEAD. */
uint64_t wezghuli_noon(const uint64_t head[7], const uint32_t terms[128], const uint16_t counts[256],
    uint64_t figures[3]);

/* Reads a line, handed over without its byte 10, into the words of its record: an input line or an output line.
 * Refused, with the words as they were: 16 the line has more than 200 bytes, 17 it is no form. */
uint64_t wezghuli_read_line(const uint8_t *line, size_t line_len, uint64_t words[6]);

/* Writes the line of a record with its byte 10 to the front of out, and how many bytes that is to written[0]; later
 * bytes of out keep their values. Numbers that the form does not have are not looked at.
 * Refused, with out and written as they were: 17 a number is out of its range, 18 the line does not fit out.
 * WEZGHULI_STATUS_NO_FORM where words[0] is no form. */
uint64_t wezghuli_write_line(const uint64_t words[6], uint8_t *out, size_t out_len, uint64_t written[1]);

/* Feeds a block of input to the stream. Each line that ends in it, at its byte 10, is answered as the program answers
 * it: the answers stand one behind the other at the front of out, each line of them with its byte 10, and later bytes
 * of out keep their values. What is left of the block is kept for the next one. words[WEZGHULI_STREAM_TAKEN] bytes of
 * input were taken: all of them, unless there was no longer room for the longest answer; hand the rest over again, with
 * an empty buffer. words[WEZGHULI_STREAM_WRITTEN] bytes of out are answers. Refusals are answers too, and no status.
 * WEZGHULI_STATUS_NO_HEAD, WEZGHULI_STATUS_NO_STREAM, WEZGHULI_STATUS_NO_ROOM, in this order. */
uint64_t wezghuli_feed(uint64_t head[7], uint32_t terms[128], uint16_t counts[256],
    uint8_t pending[201], uint64_t words[3], const uint8_t *input, size_t input_len, uint8_t *out, size_t out_len);

/* Ends the input: a last line without byte 10 is answered, if it has bytes, and nothing is kept any more.
 * words[WEZGHULI_STREAM_TAKEN] is 0, and words[WEZGHULI_STREAM_WRITTEN] bytes of out are the answer; later bytes of out
 * keep their values. Statuses as wezghuli_feed. */
uint64_t wezghuli_finish(uint64_t head[7], uint32_t terms[128], uint16_t counts[256],
    uint8_t pending[201], uint64_t words[3], uint8_t *out, size_t out_len);

/* Prints the station's page of a state of any phase to the front of out, and how many bytes that is to written[0]: for
 * each campaign in number order WEZGHULI_PAGE_LINE bytes, and as many for the last line. Later bytes of out keep their
 * values; the state stays. docs/MANUAL.md has the columns.
 * Refused, with out and written as they were: 1 the state is not sound, 18 the page does not fit out. */
uint64_t wezghuli_page(const uint64_t head[7], const uint32_t terms[128], const uint16_t counts[256],
    uint8_t *out, size_t out_len, uint64_t written[1]);

/* Finds an allotment of the views with the greatest takings that the plan of a state of any phase allows, and figures
 * that show it to be greatest. views are the accepted views in order, each its set of unpaused names. Written are
 * allotment[j], the campaign that view j goes to or WEZGHULI_NOBODY; surplus[i], the figure of campaign i, and
 * worth[j], that of view j, both in cents. Entries beyond the views and beyond the campaigns keep their values. The
 * greatest takings are those of allotment, which wezghuli_takings gives. Which of several greatest allotments is found
 * is free, and so are its figures: wezghuli_check accepts whatever comes out.
 * Refused, with all three as they were: 1 the state is not sound, 19 there are more than WEZGHULI_MAX_HANDED_IN views,
 * 13 one names a campaign that is not in the plan, 18 allotment or worth has fewer entries than there are views, or
 * surplus than campaigns. */
uint64_t wezghuli_search(const uint64_t head[7], const uint32_t terms[128], const uint16_t counts[256],
    const uint64_t *views, size_t views_len, uint64_t *allotment, size_t allotment_len,
    uint64_t *surplus, size_t surplus_len, uint64_t *worth, size_t worth_len);

/* Accepts an allotment with figures for which all of this holds, and rejects all else with WEZGHULI_STATUS_NO_FIT: each
 * view goes to nobody or to a campaign that it names, no campaign is given more than its whole plays, a campaign's
 * figure plus a view's is at least the price wherever that view names that campaign, and the campaign figures × whole
 * plays plus the view figures sum to the takings. No allotment takes more than one that is accepted. The figures may be
 * any numbers.
 * Refused: as wezghuli_search. */
uint64_t wezghuli_check(const uint64_t head[7], const uint32_t terms[128], const uint16_t counts[256],
    const uint64_t *views, size_t views_len, const uint64_t *allotment, size_t allotment_len,
    const uint64_t *surplus, size_t surplus_len, const uint64_t *worth, size_t worth_len);

/* Writes to takings[0] what an allotment takes under the plan of a state of any phase: the sum of the prices of the
 * campaigns that its entries name, where a number that is no campaign's, as WEZGHULI_NOBODY, brings nothing. It asks
 * for no views: lend as many entries as there were. Of the entries that wezghuli_search wrote these are the greatest
 * takings.
 * Refused, with takings as it was: 1 the state is not sound, 19 there are more than WEZGHULI_MAX_HANDED_IN entries. */
uint64_t wezghuli_takings(const uint64_t head[7], const uint32_t terms[128], const uint16_t counts[256],
    const uint64_t *allotment, size_t allotment_len, uint64_t takings[1]);

#ifdef __cplusplus
}
#endif

#endif
