/* What the header says and the source has no name for, tried: where columns begin, the figures at noon, the lengths of
 * lines and pages, misuse, refusals, paused marks, a stream in blocks of every length, and the stack that each function
 * takes, found by running it on a stack that was painted before. */
#define _XOPEN_SOURCE 700
#include <stdint.h>
#include <stdio.h>
#include <string.h>
#include <ucontext.h>

#include "wezghuli.h"

/* The stack that docs/INTEGRATION.md promises to be enough, and that of the search, whose chains are up to 64 long. */
#define STACK_LIMIT 8192
#define SEARCH_LIMIT 12288

_Static_assert(WEZGHULI_LINE_ROOM == WEZGHULI_MAX_LINE + 1, "the longest line that is read, and its byte 10");
_Static_assert(sizeof(wezghuli_day) == 1080, "a state has no gaps");
_Static_assert(WEZGHULI_PAGE_ROOM == WEZGHULI_PAGE_LINE * (WEZGHULI_MAX_CAMPAIGNS + 1), "64 campaigns and the total");
_Static_assert(sizeof ((wezghuli_stream *)0)->pending == WEZGHULI_LINE_BUFFER, "an unfinished line");

static unsigned passed, failed;

static void expect(int holds, const char *what)
{
    if (holds) {
        passed++;
    } else {
        failed++;
        printf("does not hold: %s\n", what);
    }
}

static wezghuli_day day;
static uint64_t answer[5];

/* Document 01's listing up to its third view, and one campaign more than it has. */
static void run_day(void)
{
    uint64_t refusals = 0;

    wezghuli_blank(day.head, day.terms, day.counts);
    refusals += wezghuli_open(day.head, day.terms, day.counts, 2, 2, answer);
    refusals += wezghuli_add(day.head, day.terms, day.counts, 5, 10, answer);
    refusals += wezghuli_add(day.head, day.terms, day.counts, 3, 6, answer);
    refusals += wezghuli_add(day.head, day.terms, day.counts, 7, 77, answer);
    refusals += wezghuli_start(day.head, day.terms, day.counts, answer);
    for (int i = 0; i < 3; i++)
        refusals += wezghuli_view(day.head, day.terms, day.counts, 3, answer);
    expect(refusals == 0, "a day of three views is accepted");
}

static void columns(void)
{
    run_day();
    expect(day.head[WEZGHULI_HEAD_PHASE] == WEZGHULI_PHASE_RUNNING, "the phase");
    expect(day.head[WEZGHULI_HEAD_CAMPAIGNS] == 3, "the number of campaigns");
    expect(day.head[WEZGHULI_HEAD_VIEWS] == 3, "the accepted views");
    expect(day.head[WEZGHULI_HEAD_PAUSED] == 0, "nobody is paused");
    expect(day.terms[WEZGHULI_TERMS_PRICE + 2] == 7, "a price");
    expect(day.terms[WEZGHULI_TERMS_BUDGET + 2] == 77, "a budget");
    for (uint64_t i = 0; i < 3; i++) {
        expect(wezghuli_tally(day.head, day.terms, day.counts, i, answer) == 0, "a tally");
        expect(answer[0] == WEZGHULI_ANSWER_TALLIED, "the kind of a tally");
        expect(day.counts[WEZGHULI_COUNTS_PLAYS + i] == answer[1], "plays");
        expect(day.counts[WEZGHULI_COUNTS_TURNS + i] == answer[2], "turns");
        expect(day.counts[WEZGHULI_COUNTS_AGE + i] == answer[3], "age");
        expect(day.counts[WEZGHULI_COUNTS_NAMED + i] == answer[4], "named");
    }
    expect(day.counts[WEZGHULI_COUNTS_PLAYS] == 2 && day.counts[WEZGHULI_COUNTS_AGE + 1] == 1, "the counts themselves");
    expect(wezghuli_close(day.head, day.terms, day.counts, answer) == 0, "closing");
    expect(day.head[WEZGHULI_HEAD_TAKINGS] == 13 && answer[1] == 13, "the takings");
    expect(day.head[WEZGHULI_HEAD_DEPTH] == 2 && day.head[WEZGHULI_HEAD_WIDTH] == 2, "the plan");
}

/* The figures at noon, from the state's own numbers and in 64 bits, whose products wrap nowhere within the limits. */
static uint64_t figures[3];

static uint64_t power(uint64_t base, uint64_t exponent)
{
    uint64_t result = 1;

    while (exponent--)
        result *= base;
    return result;
}

static uint64_t takings(void)
{
    uint64_t sum = 0;

    for (uint64_t i = 0; i < day.head[WEZGHULI_HEAD_CAMPAIGNS]; i++)
        sum += (uint64_t)day.terms[WEZGHULI_TERMS_PRICE + i] * day.counts[WEZGHULI_COUNTS_PLAYS + i];
    return sum;
}

static uint64_t dues(void)
{
    uint64_t sum = 0;

    for (uint64_t i = 0; i < day.head[WEZGHULI_HEAD_CAMPAIGNS]; i++) {
        uint64_t price = day.terms[WEZGHULI_TERMS_PRICE + i];
        uint64_t whole = day.terms[WEZGHULI_TERMS_BUDGET + i] / price;
        uint64_t turned = day.counts[WEZGHULI_COUNTS_NAMED + i] / day.head[WEZGHULI_HEAD_DEPTH];
        sum += price * (whole < turned ? whole : turned);
    }
    return sum;
}

static uint64_t pauses(uint64_t campaign)
{
    return wezghuli_pause(day.head, day.terms, day.counts, campaign, answer);
}

static uint64_t resumes(uint64_t campaign)
{
    return wezghuli_resume(day.head, day.terms, day.counts, campaign, answer);
}

static int noon_is(uint64_t full, uint64_t claim, uint64_t floor)
{
    wezghuli_day before = day;

    return wezghuli_noon(day.head, day.terms, day.counts, figures) == 0 && figures[WEZGHULI_NOON_FULL] == full
        && figures[WEZGHULI_NOON_CLAIM] == claim && figures[WEZGHULI_NOON_FLOOR] == floor
        && memcmp(&before, &day, sizeof day) == 0;
}

/* floor <= claim <= full, and floor and full as the header says */
static int noon_holds(void)
{
    uint64_t depth = day.head[WEZGHULI_HEAD_DEPTH], width = day.head[WEZGHULI_HEAD_WIDTH];
    uint64_t unit = power(width, depth), share = unit - power(width - 1, depth);

    if (wezghuli_noon(day.head, day.terms, day.counts, figures))
        return 0;
    return figures[WEZGHULI_NOON_FLOOR] <= figures[WEZGHULI_NOON_CLAIM]
        && figures[WEZGHULI_NOON_CLAIM] <= figures[WEZGHULI_NOON_FULL]
        && figures[WEZGHULI_NOON_FULL] == unit * takings() && figures[WEZGHULI_NOON_FLOOR] == share * dues();
}

/* Document 01's listing after each of its views, and closed. */
static void listing_at_noon(void)
{
    const uint64_t views[5][4] = {{3, 20, 18, 0}, {3, 32, 29, 24}, {3, 52, 42, 24}, {1, 52, 42, 39}, {2, 64, 48, 48}};

    wezghuli_blank(day.head, day.terms, day.counts);
    expect(noon_is(0, 0, 0), "the blank state at noon");
    wezghuli_open(day.head, day.terms, day.counts, 2, 2, answer);
    wezghuli_add(day.head, day.terms, day.counts, 5, 10, answer);
    wezghuli_add(day.head, day.terms, day.counts, 3, 6, answer);
    expect(noon_is(0, 0, 0), "a plan that is filled");
    wezghuli_start(day.head, day.terms, day.counts, answer);
    for (int i = 0; i < 5; i++) {
        wezghuli_view(day.head, day.terms, day.counts, views[i][0], answer);
        expect(noon_is(views[i][1], views[i][2], views[i][3]), "the listing at noon");
    }
    wezghuli_close(day.head, day.terms, day.counts, answer);
    expect(noon_is(answer[3], answer[2], 48), "claim and full of the closing");
}

static uint64_t seed = 1;

static uint64_t any(uint64_t below)
{
    seed = seed * 6364136223846793005u + 1442695040888963407u;
    return (seed >> 33) % below;
}

static void days_at_noon(void)
{
    int moments = 1;

    for (int n = 0; n < 200; n++) {
        uint64_t campaigns = 1 + any(8);
        wezghuli_blank(day.head, day.terms, day.counts);
        wezghuli_open(day.head, day.terms, day.counts, 1 + any(4), 1 + any(4), answer);
        for (uint64_t i = 0; i < campaigns; i++) {
            uint64_t price = 1 + any(50);
            wezghuli_add(day.head, day.terms, day.counts, price, price + any(300), answer);
        }
        wezghuli_start(day.head, day.terms, day.counts, answer);
        for (int i = 0; i < 60; i++) {
            wezghuli_view(day.head, day.terms, day.counts, any((uint64_t)1 << campaigns), answer);
            moments &= noon_holds();
            if (any(4) == 0)
                moments &= pauses(any(campaigns)) == 0 && noon_holds();
            if (any(4) == 0)
                moments &= resumes(any(campaigns)) == 0 && noon_holds();
        }
    }
    expect(moments, "every moment of 200 days");
}

static void noon(void)
{
    listing_at_noon();
    days_at_noon();

    /* a sound state that no day reaches: named by five views, played by none */
    uint64_t made_up[7] = {WEZGHULI_PHASE_RUNNING, 0, 1, 1, 1, 5, 0};
    memset(&day, 0, sizeof day);
    memcpy(day.head, made_up, sizeof made_up);
    day.terms[WEZGHULI_TERMS_PRICE] = 1;
    day.terms[WEZGHULI_TERMS_BUDGET] = 5;
    day.counts[WEZGHULI_COUNTS_NAMED] = 5;
    expect(noon_is(0, 0, 5), "the figures of a state that was made up");
    day.head[WEZGHULI_HEAD_PAUSED] = 1;
    expect(noon_is(0, 0, 5), "which a mark does not change");
    day.counts[WEZGHULI_COUNTS_NAMED] = 6;
    expect(wezghuli_noon(day.head, day.terms, day.counts, figures) == 1, "a state that is not sound");
    day.head[WEZGHULI_HEAD_PHASE] = 3;
    expect(wezghuli_noon(day.head, day.terms, day.counts, figures) == WEZGHULI_STATUS_NO_HEAD, "no head");
    expect(figures[0] == 0 && figures[1] == 0 && figures[2] == 5, "a refusal leaves the figures");
}

static void lengths(void)
{
    uint8_t line[WEZGHULI_MAX_LINE + 1];
    uint64_t words[6] = {9, 9, 9, 9, 9, 9};
    uint64_t before[6];

    memcpy(before, words, sizeof words);
    memset(line, 'x', sizeof line);
    expect(wezghuli_read_line(line, WEZGHULI_MAX_LINE, words) == 17, "the longest line is read and is no form");
    expect(wezghuli_read_line(line, WEZGHULI_MAX_LINE + 1, words) == 16, "a longer one is not read");
    expect(wezghuli_read_line(line, 0, words) == 17, "an empty line");
    expect(memcmp(before, words, sizeof words) == 0, "a refused line leaves the words");

    uint64_t longest[6] = {WEZGHULI_FORM_VIEW, UINT64_MAX, 0, 0, 0, 0};
    uint8_t out[WEZGHULI_LINE_ROOM];
    uint64_t length[1] = {7};
    expect(wezghuli_write_line(longest, out, sizeof out, length) == 0, "a view of all campaigns is written");
    expect(length[0] <= WEZGHULI_LINE_ROOM && out[length[0] - 1] == 10, "its length counts its byte 10");
    expect(wezghuli_write_line(longest, out, length[0] - 1, length) == 18, "one byte less is no room");
    expect(wezghuli_read_line(out, length[0] - 1, words) == 0, "it reads back");
    expect(memcmp(longest, words, sizeof words) == 0, "as what was written");
}

/* Each question that an operation asks, failed: the status says which and not one byte changes. */
static void refusals(void)
{
    uint64_t given[5] = {11, 12, 13, 14, 15};

    run_day();
    wezghuli_day before = day;
    memcpy(answer, given, sizeof answer);
    expect(wezghuli_open(day.head, day.terms, day.counts, 2, 2, answer) == 2, "a running day is not opened");
    expect(wezghuli_add(day.head, day.terms, day.counts, 5, 10, answer) == 6, "nor filled");
    expect(wezghuli_start(day.head, day.terms, day.counts, answer) == 6, "nor started");
    expect(wezghuli_view(day.head, day.terms, day.counts, 8, answer) == 13, "a view of no campaign");
    expect(wezghuli_tally(day.head, day.terms, day.counts, 3, answer) == 15, "a tally of none");
    expect(pauses(3) == 15 && pauses(64) == 15 && pauses(UINT64_MAX) == 15, "a pause of none");
    expect(resumes(3) == 15 && resumes(64) == 15 && resumes(UINT64_MAX) == 15, "a resume of none");
    expect(memcmp(&before, &day, sizeof day) == 0, "a refusal leaves the state");
    expect(memcmp(given, answer, sizeof answer) == 0, "and the answer");
    day.counts[WEZGHULI_COUNTS_PLAYS + 2] = 99;
    before = day;
    expect(wezghuli_close(day.head, day.terms, day.counts, answer) == 1, "a state that is not sound");
    expect(pauses(0) == 1 && resumes(3) == 1, "is not paused or resumed");
    expect(memcmp(&before, &day, sizeof day) == 0 && memcmp(given, answer, sizeof answer) == 0, "is left as it was");
}

static int done(uint64_t status)
{
    const uint64_t due[5] = {WEZGHULI_ANSWER_DONE, 0, 0, 0, 0};

    return status == 0 && memcmp(answer, due, sizeof due) == 0;
}

/* A mark is a bit of the head and nothing else; a second pause or resume changes nothing. */
static void marks(void)
{
    run_day();
    wezghuli_day before = day;
    expect(done(pauses(2)) && day.head[WEZGHULI_HEAD_PAUSED] == 4, "a pause sets a mark");
    expect(done(pauses(2)) && day.head[WEZGHULI_HEAD_PAUSED] == 4, "also twice");
    expect(done(pauses(1)) && day.head[WEZGHULI_HEAD_PAUSED] == 6, "beside another");
    expect(done(resumes(2)) && day.head[WEZGHULI_HEAD_PAUSED] == 2, "a resume clears its own");
    expect(done(resumes(2)) && day.head[WEZGHULI_HEAD_PAUSED] == 2, "also twice");
    before.head[WEZGHULI_HEAD_PAUSED] = 2;
    expect(memcmp(&before, &day, sizeof day) == 0, "and all else is as it was");
    expect(done(resumes(0)) && memcmp(&before, &day, sizeof day) == 0, "as when none was paused");
}

/* A paused name is none, but for question 13. The day has spent campaign 0, and campaign 1 has one play left. */
static void paused_names(void)
{
    run_day();
    expect(wezghuli_view(day.head, day.terms, day.counts, 7, answer) == 14, "three names in a width of two");
    expect(done(pauses(1)) && done(pauses(2)), "two of them are paused");
    wezghuli_day before = day;
    expect(wezghuli_view(day.head, day.terms, day.counts, 12, answer) == 13, "a number that the plan lacks");
    expect(wezghuli_view(day.head, day.terms, day.counts, 7, answer) == 0, "the width counts one name");
    expect(answer[0] == WEZGHULI_ANSWER_NOBODY, "which is spent");
    expect(wezghuli_view(day.head, day.terms, day.counts, 6, answer) == 0, "a view of paused ones");
    expect(answer[0] == WEZGHULI_ANSWER_NOBODY, "is nobody's");
    before.head[WEZGHULI_HEAD_VIEWS] += 2;
    before.counts[WEZGHULI_COUNTS_NAMED]++;
    expect(memcmp(&before, &day, sizeof day) == 0, "and paused ones are not named");
    expect(done(resumes(1)), "one is resumed");
    expect(wezghuli_view(day.head, day.terms, day.counts, 6, answer) == 0, "and named beside a paused one");
    expect(answer[0] == WEZGHULI_ANSWER_PLAYED && answer[1] == 1 && answer[2] == 3, "it plays");
}

/* Whether a state is sound: a tally asks nothing else of a campaign in the plan. */
static int is_sound(void)
{
    return wezghuli_tally(day.head, day.terms, day.counts, 0, answer) == 0;
}

/* Marks stay when the day is closed, and an opening clears them; where none may stand, the state is not sound. */
static void marks_by_phase(void)
{
    const uint64_t beyond[] = {8, 9, (uint64_t)1 << 63, UINT64_MAX};

    run_day();
    expect(done(pauses(1)) && done(pauses(0)), "two are paused");
    expect(wezghuli_close(day.head, day.terms, day.counts, answer) == 0, "the day is closed");
    expect(day.head[WEZGHULI_HEAD_PAUSED] == 3 && is_sound(), "with its marks");
    expect(pauses(2) == 11 && resumes(0) == 11 && pauses(64) == 11, "which stay");
    for (size_t i = 0; i < sizeof beyond / sizeof beyond[0]; i++) {
        day.head[WEZGHULI_HEAD_PAUSED] = beyond[i];
        expect(!is_sound(), "a mark past the last in a closed day");
    }
    day.head[WEZGHULI_HEAD_PAUSED] = 3;
    expect(done(wezghuli_open(day.head, day.terms, day.counts, 2, 2, answer)), "the next plan");
    expect(done(wezghuli_add(day.head, day.terms, day.counts, 5, 10, answer)), "with a campaign");
    expect(day.head[WEZGHULI_HEAD_PAUSED] == 0 && is_sound(), "has no marks");
    expect(pauses(0) == 11 && resumes(0) == 11 && day.head[WEZGHULI_HEAD_PAUSED] == 0, "and takes none");
    day.head[WEZGHULI_HEAD_PAUSED] = 1;
    expect(!is_sound(), "a mark in a plan that is filled");
    run_day();
    for (size_t i = 0; i < sizeof beyond / sizeof beyond[0]; i++) {
        day.head[WEZGHULI_HEAD_PAUSED] = beyond[i];
        expect(!is_sound() && pauses(0) == 1 && resumes(0) == 1, "a mark past the last in a running day");
    }
    day.head[WEZGHULI_HEAD_PAUSED] = 7;
    expect(is_sound(), "a mark on each");
}

/* The page of the day of three campaigns. */
static const char PAGE[] =
    "  0     2       0.05          0.10     3\n"
    "  1     1       0.03          0.03     3\n"
    "  2     0       0.07          0.00     0\n"
    "total                         0.13      \n";

/* Its bytes, the room that it asks for, and what a refusal leaves. */
static void pages(void)
{
    const size_t size = sizeof PAGE - 1;
    uint8_t out[WEZGHULI_PAGE_ROOM], was[WEZGHULI_PAGE_ROOM];
    uint64_t length[1] = {7};

    run_day();
    wezghuli_day before = day;
    memset(out, 'o', sizeof out);
    memset(was, 'o', sizeof was);
    expect(size == 4 * WEZGHULI_PAGE_LINE, "three campaigns and the last line");
    expect(wezghuli_page(day.head, day.terms, day.counts, out, size - 1, length) == 18, "one byte less is no room");
    day.terms[WEZGHULI_TERMS_PRICE + 3] = 1;
    expect(wezghuli_page(day.head, day.terms, day.counts, out, 0, length) == 1, "a state that is not sound is first");
    day = before;
    expect(length[0] == 7 && memcmp(out, was, sizeof out) == 0, "a refusal leaves out and length");
    expect(wezghuli_page(day.head, day.terms, day.counts, out, sizeof out, length) == 0, "a page is printed");
    expect(length[0] == size && memcmp(out, PAGE, size) == 0, "as it should read");
    expect(memcmp(out + size, was, sizeof out - size) == 0, "and later bytes are as they were");
    expect(wezghuli_page(day.head, day.terms, day.counts, out, size, length) == 0, "its own length is room enough");
    expect(memcmp(&before, &day, sizeof day) == 0, "the state stays");
}

/* The page tells no marks: it changes with what is named, and a paused one is not. */
static void paused_pages(void)
{
    const size_t size = sizeof PAGE - 1;
    uint8_t out[WEZGHULI_PAGE_ROOM];
    uint64_t length[1] = {7};

    run_day();
    for (uint64_t i = 0; i < 3; i++)
        pauses(i);
    expect(wezghuli_page(day.head, day.terms, day.counts, out, size, length) == 0, "all are paused");
    expect(length[0] == size && memcmp(out, PAGE, size) == 0, "and the page is as before");
    expect(wezghuli_view(day.head, day.terms, day.counts, 7, answer) == 0, "a view of paused ones");
    memset(out, 'o', sizeof out);
    expect(wezghuli_page(day.head, day.terms, day.counts, out, size, length) == 0, "is not on the page");
    expect(length[0] == size && memcmp(out, PAGE, size) == 0, "which is the same");
    length[0] = 7;
    out[0] = 'o';
    day.head[WEZGHULI_HEAD_PAUSED] = 8;
    expect(wezghuli_page(day.head, day.terms, day.counts, out, size, length) == 1, "a mark past the last");
    expect(length[0] == 7 && out[0] == 'o', "prints no page");
}

/* A stream: input in blocks of every length, each byte of what is lent afterwards, and misuse. */
static const char INPUT[] = "(plan (depth 2) (width 2))\n(campaign (price 5) (budget 10))\n(start)\n(view 0)\n"
                            "(pause 0)\n(view 0)\n(resume 0)\n\n(close)";
static const char OUTPUT[] = "(ok)\n(ok)\n(ok)\n(play 0 (paid 5))\n(ok)\n(nobody)\n(ok)\n(refused 17)\n"
                             "(closed (takings 5) (claim 15) (full 20))\n"
                             "(tally 0 (plays 1) (turns 1) (age 0) (named 1))\n";

static wezghuli_stream stream;
static uint8_t room[WEZGHULI_REPLY_ROOM + 512];
static uint8_t told[1024];
static size_t told_len;

static uint64_t feed(const void *input, size_t length, size_t out_len)
{
    return wezghuli_feed(day.head, day.terms, day.counts, stream.pending, stream.words, input, length, room, out_len);
}

static uint64_t finish(size_t out_len)
{
    return wezghuli_finish(day.head, day.terms, day.counts, stream.pending, stream.words, room, out_len);
}

/* Keeps the answers; what lies behind them in the buffer and behind the bytes kept of a line is as it should be. */
static int kept_apart(void)
{
    size_t length = stream.words[WEZGHULI_STREAM_WRITTEN];
    int clean = 1;

    memcpy(told + told_len, room, length);
    told_len += length;
    for (size_t i = length; i < sizeof room; i++)
        clean &= room[i] == 'o';
    for (size_t i = stream.words[WEZGHULI_STREAM_KEPT]; i < sizeof stream.pending; i++)
        clean &= stream.pending[i] == 0;
    memset(room, 'o', length);
    return clean;
}

static int answered(size_t block, size_t out_len)
{
    size_t at = 0, length = strlen(INPUT);
    int good = 1;

    wezghuli_blank(day.head, day.terms, day.counts);
    memset(&stream, 0, sizeof stream);
    memset(room, 'o', sizeof room);
    told_len = 0;
    while (at < length) {
        good &= feed(INPUT + at, length - at < block ? length - at : block, out_len) == 0 && kept_apart();
        at += stream.words[WEZGHULI_STREAM_TAKEN];
    }
    good &= finish(out_len) == 0 && kept_apart() && stream.words[WEZGHULI_STREAM_KEPT] == 0;
    good &= finish(out_len) == 0 && stream.words[WEZGHULI_STREAM_WRITTEN] == 0;
    return good && told_len == strlen(OUTPUT) && memcmp(told, OUTPUT, told_len) == 0;
}

static int left_alone(uint64_t status, uint64_t head, uint64_t kept, size_t out_len)
{
    wezghuli_day before;
    wezghuli_stream was;

    run_day();
    memset(&stream, 'p', sizeof stream);
    memset(room, 'o', sizeof room);
    day.head[WEZGHULI_HEAD_PHASE] = head;
    stream.words[WEZGHULI_STREAM_KEPT] = kept;
    before = day;
    was = stream;
    int good = feed("(start)\n", 8, out_len) == status && finish(out_len) == status;
    for (size_t i = 0; i < sizeof room; i++)
        good &= room[i] == 'o';
    return good && memcmp(&before, &day, sizeof day) == 0 && memcmp(&was, &stream, sizeof stream) == 0;
}

static void streams(void)
{
    for (size_t block = 1; block <= strlen(INPUT); block++) {
        expect(answered(block, WEZGHULI_REPLY_ROOM), "blocks of any length are answered alike");
        expect(answered(block, sizeof room), "with any room");
    }
    expect(left_alone(WEZGHULI_STATUS_NO_HEAD, 3, WEZGHULI_LINE_BUFFER + 1, 0), "no head is told first");
    expect(left_alone(WEZGHULI_STATUS_NO_STREAM, 1, WEZGHULI_LINE_BUFFER + 1, 0), "then no stream");
    expect(left_alone(WEZGHULI_STATUS_NO_STREAM, 1, UINT64_MAX, sizeof room), "of any count");
    expect(left_alone(WEZGHULI_STATUS_NO_ROOM, 1, WEZGHULI_LINE_BUFFER, WEZGHULI_REPLY_ROOM - 1), "then no room");

    run_day();
    memset(&stream, 'x', sizeof stream);
    stream.words[WEZGHULI_STREAM_KEPT] = WEZGHULI_LINE_BUFFER;
    expect(feed("\n(view 2)\n", 10, WEZGHULI_REPLY_ROOM) == 0, "a line that is too long");
    expect(stream.words[WEZGHULI_STREAM_TAKEN] == 1, "one answer fills the least buffer");
    expect(stream.words[WEZGHULI_STREAM_WRITTEN] == 13 && memcmp(room, "(refused 16)\n", 13) == 0, "it gets 16");
}

/* Words that are no head: the status says so and not one byte changes. */
static void misused_heads(void)
{
    const uint64_t heads[][2] = {{3, 0}, {UINT64_MAX, 0}, {0, 1}, {1, 1}, {0, UINT64_MAX}, {1, UINT64_MAX}};

    for (size_t i = 0; i < sizeof heads / sizeof heads[0]; i++) {
        uint64_t given[5] = {11, 12, 13, 14, 15}, length[1] = {7};
        uint8_t sheet[WEZGHULI_PAGE_ROOM], clean[WEZGHULI_PAGE_ROOM];
        run_day();
        memset(sheet, 'o', sizeof sheet);
        memset(clean, 'o', sizeof clean);
        memcpy(answer, given, sizeof answer);
        memcpy(day.head, heads[i], sizeof heads[i]);
        wezghuli_day before = day;
        int told = wezghuli_open(day.head, day.terms, day.counts, 2, 2, answer) == WEZGHULI_STATUS_NO_HEAD
            && wezghuli_add(day.head, day.terms, day.counts, 5, 10, answer) == WEZGHULI_STATUS_NO_HEAD
            && wezghuli_start(day.head, day.terms, day.counts, answer) == WEZGHULI_STATUS_NO_HEAD
            && wezghuli_view(day.head, day.terms, day.counts, 1, answer) == WEZGHULI_STATUS_NO_HEAD
            && wezghuli_tally(day.head, day.terms, day.counts, 0, answer) == WEZGHULI_STATUS_NO_HEAD
            && pauses(0) == WEZGHULI_STATUS_NO_HEAD && resumes(0) == WEZGHULI_STATUS_NO_HEAD
            && wezghuli_close(day.head, day.terms, day.counts, answer) == WEZGHULI_STATUS_NO_HEAD
            && wezghuli_page(day.head, day.terms, day.counts, sheet, sizeof sheet, length) == WEZGHULI_STATUS_NO_HEAD;
        expect(told, "no head is told");
        expect(memcmp(&before, &day, sizeof day) == 0, "and the state is as it was");
        expect(memcmp(given, answer, sizeof answer) == 0, "and so is the answer");
        expect(length[0] == 7 && memcmp(sheet, clean, sizeof sheet) == 0, "and so is the room for a page");
    }
}

/* Words that are no record: likewise. */
static void misused_forms(void)
{
    const uint64_t forms[] = {WEZGHULI_FORM_RESUME + 1, 100, UINT64_MAX};

    for (size_t i = 0; i < sizeof forms / sizeof forms[0]; i++) {
        uint64_t words[6] = {forms[i], 1, 1, 1, 1, 1}, length[1] = {7};
        uint8_t out[WEZGHULI_LINE_ROOM], was[WEZGHULI_LINE_ROOM];
        memset(out, 'o', sizeof out);
        memset(was, 'o', sizeof was);
        expect(wezghuli_write_line(words, out, sizeof out, length) == WEZGHULI_STATUS_NO_FORM, "no form is told");
        expect(length[0] == 7 && memcmp(out, was, sizeof out) == 0, "and nothing is written");
    }
}

/* Stacks. */
static uint8_t stack[65536];
static ucontext_t here, there;

static void empty(void) {}
static void blanks(void) { wezghuli_blank(day.head, day.terms, day.counts); }
static void opens(void) { wezghuli_open(day.head, day.terms, day.counts, 8, 16, answer); }
static void adds(void) { wezghuli_add(day.head, day.terms, day.counts, 5, 1000, answer); }
static void starts(void) { wezghuli_start(day.head, day.terms, day.counts, answer); }
static void views(void) { wezghuli_view(day.head, day.terms, day.counts, 0xffff, answer); }
static void tallies(void) { wezghuli_tally(day.head, day.terms, day.counts, 3, answer); }
static void pauses_last(void) { pauses(63); }
static void resumes_last(void) { resumes(63); }
static void noons(void) { wezghuli_noon(day.head, day.terms, day.counts, figures); }
static void closes(void) { wezghuli_close(day.head, day.terms, day.counts, answer); }

static uint8_t sheet[WEZGHULI_PAGE_ROOM];
static uint64_t printed[1];
static void prints(void) { wezghuli_page(day.head, day.terms, day.counts, sheet, sizeof sheet, printed); }

static const char *text;
static uint64_t record[6], length[1];
static uint8_t out[WEZGHULI_LINE_ROOM];
static void feeds(void) { feed(INPUT, strlen(INPUT), sizeof room); }
static void finishes(void) { finish(sizeof room); }
static void reads(void) { wezghuli_read_line((const uint8_t *)text, strlen(text), record); }
static void writes(void) { wezghuli_write_line(record, out, sizeof out, length); }

static size_t taken(void (*run)(void))
{
    memset(stack, 0xa5, sizeof stack);
    getcontext(&there);
    there.uc_stack.ss_sp = stack;
    there.uc_stack.ss_size = sizeof stack;
    there.uc_link = &here;
    makecontext(&there, run, 0);
    swapcontext(&here, &there);
    size_t clean = 0;
    while (clean < sizeof stack && stack[clean] == 0xa5)
        clean++;
    return sizeof stack - clean;
}

static size_t most;

static void measure(const char *name, void (*run)(void))
{
    size_t bytes = taken(run);

    printf("stack of %-10s %5zu bytes\n", name, bytes);
    if (bytes > most)
        most = bytes;
    expect(bytes <= STACK_LIMIT, name);
}

/* What the day could have earned: of the listing's views, with two entries more than are used. */
static uint64_t shown[257] = {3, 3, 3, 1, 2};
static uint64_t allotment[259], surplus[66], worth[259];
static size_t views_shown;

static uint64_t search_with(size_t entries, size_t campaigns, size_t figures)
{
    return wezghuli_search(day.head, day.terms, day.counts, shown, views_shown, allotment, entries, surplus, campaigns,
        worth, figures);
}

static uint64_t check_with(size_t entries, size_t campaigns, size_t figures)
{
    return wezghuli_check(day.head, day.terms, day.counts, shown, views_shown, allotment, entries, surplus, campaigns,
        worth, figures);
}

static int untouched(size_t entries, size_t campaigns)
{
    for (size_t j = entries; j < 259; j++)
        if (allotment[j] != 777 || worth[j] != 777)
            return 0;
    for (size_t i = campaigns; i < 66; i++)
        if (surplus[i] != 777)
            return 0;
    return 1;
}

static void forget(void)
{
    for (size_t j = 0; j < 259; j++)
        allotment[j] = worth[j] = 777;
    for (size_t i = 0; i < 66; i++)
        surplus[i] = 777;
}

static uint64_t allotted[1];

static uint64_t takings_with(size_t entries)
{
    return wezghuli_takings(day.head, day.terms, day.counts, allotment, entries, allotted);
}

static void searches(void)
{
    uint64_t paid = 0;

    allotted[0] = 777;

    run_day();
    views_shown = 5;
    forget();
    expect(search_with(4, 66, 259) == 18 && search_with(259, 2, 259) == 18 && search_with(259, 66, 4) == 18
        && untouched(0, 0), "18 leaves all");
    shown[4] = 8;
    expect(search_with(0, 0, 0) == 13 && check_with(0, 0, 0) == 13 && untouched(0, 0), "13 before 18");
    views_shown = WEZGHULI_MAX_HANDED_IN + 1;
    expect(search_with(0, 0, 0) == 19 && check_with(0, 0, 0) == 19 && untouched(0, 0), "19 before 13");
    expect(takings_with(WEZGHULI_MAX_HANDED_IN + 1) == 19, "19 of entries");
    expect(takings_with(WEZGHULI_MAX_HANDED_IN) == 0 && allotted[0] == 0, "and none that counts");
    allotted[0] = 777;
    day.head[WEZGHULI_HEAD_DEPTH] = 0;
    expect(search_with(0, 0, 0) == 1 && check_with(0, 0, 0) == 1 && untouched(0, 0), "1 before 19");
    expect(takings_with(257) == 1 && allotted[0] == 777, "1 leaves the takings");
    day.head[WEZGHULI_HEAD_PHASE] = 3;
    expect(search_with(0, 0, 0) == WEZGHULI_STATUS_NO_HEAD && check_with(0, 0, 0) == WEZGHULI_STATUS_NO_HEAD
        && untouched(0, 0), "no head");
    expect(takings_with(257) == WEZGHULI_STATUS_NO_HEAD && allotted[0] == 777, "no head leaves the takings");
    run_day();
    views_shown = 5;
    shown[4] = 2;
    expect(search_with(259, 66, 259) == 0 && untouched(5, 3), "found, and entries beyond as they were");
    for (size_t j = 0; j < 5; j++)
        paid += allotment[j] == WEZGHULI_NOBODY ? 0 : day.terms[allotment[j]];
    expect(paid == 16, "all that two campaigns can pay");
    expect(takings_with(5) == 0 && allotted[0] == 16, "and the takings say so");
    expect(check_with(5, 3, 5) == 0, "the check accepts it");
    surplus[0]++;
    expect(check_with(5, 3, 5) == WEZGHULI_STATUS_NO_FIT, "a figure too large");
    surplus[0] = UINT64_MAX;
    expect(check_with(5, 3, 5) == WEZGHULI_STATUS_NO_FIT, "a sum that would wrap");
    expect(search_with(5, 3, 5) == 0, "found again");
    paid = allotment[0] == WEZGHULI_NOBODY ? 0 : day.terms[allotment[0]];
    allotment[0] = 65;
    expect(check_with(5, 3, 5) == WEZGHULI_STATUS_NO_FIT, "an entry that is nobody's");
    expect(takings_with(5) == 0 && allotted[0] == 16 - paid, "which brings nothing");
    views_shown = 0;
    expect(search_with(0, 3, 0) == 0 && check_with(0, 3, 0) == 0, "no views");
}

/* The views handed over are unpaused names already: the marks of the state change nothing. */
static void paused_searches(void)
{
    uint64_t paid = 0;

    run_day();
    views_shown = 5;
    for (uint64_t i = 0; i < 3; i++)
        pauses(i);
    expect(search_with(5, 3, 5) == 0 && check_with(5, 3, 5) == 0, "found with all paused");
    for (size_t j = 0; j < 5; j++)
        paid += allotment[j] == WEZGHULI_NOBODY ? 0 : day.terms[allotment[j]];
    expect(paid == 16, "as much as with none paused");
    day.head[WEZGHULI_HEAD_PAUSED] = 8;
    expect(search_with(5, 3, 5) == 1 && check_with(5, 3, 5) == 1, "a mark past the last");
}

/* view j names j and j + 1, and the dearest are served first: the last search goes through all 64 campaigns */
static void chained(void)
{
    search_with(259, 66, 259);
}

static void checks(void) { check_with(259, 66, 259); }
static void sums(void) { takings_with(63); }

static void longest_chain(void)
{
    size_t bytes;

    wezghuli_blank(day.head, day.terms, day.counts);
    wezghuli_open(day.head, day.terms, day.counts, 1, 1, answer);
    for (uint64_t i = 0; i < 64; i++)
        wezghuli_add(day.head, day.terms, day.counts, i + 1, i + 1, answer);
    for (uint64_t j = 0; j < 63; j++)
        shown[j] = (uint64_t)3 << j;
    views_shown = 63;
    expect(search_with(259, 66, 259) == 0, "the longest chain is searched");
    bytes = taken(chained);
    printf("stack of %-10s %5zu bytes of %d\n", "search", bytes, SEARCH_LIMIT);
    expect(bytes <= SEARCH_LIMIT, "search");
    measure("check", checks);
    measure("takings", sums);
}

/* The stacks of the operations, in a day of 64 campaigns. */
static void stacks_of_calls(void)
{
    measure("blank", blanks);
    measure("open", opens);
    for (int i = 0; i < 64; i++)
        adds();
    wezghuli_blank(day.head, day.terms, day.counts);
    opens();
    for (int i = 0; i < 63; i++)
        adds();
    measure("add", adds);
    measure("start", starts);
    for (int i = 0; i < 40; i++)
        views();
    measure("view", views);
    measure("tally", tallies);
    measure("pause", pauses_last);
    expect(day.head[WEZGHULI_HEAD_PAUSED] == (uint64_t)1 << 63, "the last campaign is paused");
    measure("resume", resumes_last);
    expect(day.head[WEZGHULI_HEAD_PAUSED] == 0, "and resumed");
    measure("noon", noons);
    measure("close", closes);
    expect(answer[0] == WEZGHULI_ANSWER_CLOSING, "the measured day was accepted");
    measure("page", prints);
    expect(printed[0] == WEZGHULI_PAGE_ROOM, "a page of 64 campaigns fills the room that every page fits");
}

/* The stacks of the lines, those of the longest and of the most numbers, and of a stream. */
static void stacks_of_lines(void)
{
    text = "(tally 63 (plays 4294967295) (turns 4294967295) (age 4294967295) (named 4294967295))";
    measure("read_line", reads);
    measure("write_line", writes);
    expect(length[0] == strlen(text) + 1, "the measured line was read and written");
    text = "(view 0 1 2 3 4 5 6 7 8 9 10 11 12 13 14 15 16 17 18 19 20 21 22 23 24 25 26 27 28 29 30 31 63)";
    measure("read_line", reads);
    measure("write_line", writes);
    wezghuli_blank(day.head, day.terms, day.counts);
    memset(&stream, 0, sizeof stream);
    measure("feed", feeds);
    expect(stream.words[WEZGHULI_STREAM_KEPT] == 7, "the measured block was fed");
    measure("finish", finishes);
    expect(day.head[WEZGHULI_HEAD_PHASE] == WEZGHULI_PHASE_CLOSED, "and its last line answered");
}

static void stacks(void)
{
    printf("a function that does nothing is seen to take %zu bytes\n", taken(empty));
    stacks_of_calls();
    stacks_of_lines();
    printf("stack at most %zu bytes of %d\n", most, STACK_LIMIT);
}

int main(void)
{
    columns();
    noon();
    lengths();
    pages();
    paused_pages();
    misused_heads();
    misused_forms();
    refusals();
    marks();
    paused_names();
    marks_by_phase();
    streams();
    searches();
    paused_searches();
    longest_chain();
    stacks();
    printf("%u passed, %u failed\n", passed, failed);
    return failed != 0;
}
