/* A whole day through the library: the listing of document 01, line by line, with its answers on standard output. */
#include <stdint.h>
#include <stdio.h>
#include <string.h>

#include "wezghuli.h"

static const char *const LISTING[] = {
    "(plan (depth 2) (width 2))",
    "(campaign (price 5) (budget 10))",
    "(campaign (price 3) (budget 6))",
    "(start)",
    "(view 0 1)",
    "(view 0 1)",
    "(view 0 1)",
    "(view 0)",
    "(view 1)",
    "(view 2)",
    "(close)",
};

/* The form of an answer's line. A tally's line also names its campaign: see print_tally. */
static const uint64_t ANSWER_FORMS[] = {
    [WEZGHULI_ANSWER_DONE] = WEZGHULI_FORM_OK,
    [WEZGHULI_ANSWER_PLAYED] = WEZGHULI_FORM_PLAY,
    [WEZGHULI_ANSWER_NOBODY] = WEZGHULI_FORM_NOBODY,
    [WEZGHULI_ANSWER_CLOSING] = WEZGHULI_FORM_CLOSED,
};

static int print_record(const uint64_t words[6])
{
    uint8_t line[WEZGHULI_LINE_ROOM];
    uint64_t length[1];
    uint64_t status = wezghuli_write_line(words, line, sizeof line, length);

    if (status != WEZGHULI_STATUS_ACCEPTED) {
        fprintf(stderr, "a record was not written: status %llu\n", (unsigned long long)status);
        return 1;
    }
    return fwrite(line, 1, (size_t)length[0], stdout) != length[0];
}

static int print_answer(const uint64_t answer[5])
{
    uint64_t words[6] = {ANSWER_FORMS[answer[0]], answer[1], answer[2], answer[3], answer[4], 0};

    return print_record(words);
}

static int print_refusal(uint64_t question)
{
    uint64_t words[6] = {WEZGHULI_FORM_REFUSED, question, 0, 0, 0, 0};

    return print_record(words);
}

/* The tally of one campaign. */
static int print_tally(wezghuli_day *day, uint64_t campaign)
{
    uint64_t answer[5];
    uint64_t status = wezghuli_tally(day->head, day->terms, day->counts, campaign, answer);

    if (status != WEZGHULI_STATUS_ACCEPTED)
        return print_refusal(status);
    uint64_t words[6] = {WEZGHULI_FORM_TALLY, campaign, answer[1], answer[2], answer[3], answer[4]};
    return print_record(words);
}

/* The call that a record asks for; an output form asks for none and is refused as no input line. */
static uint64_t call(wezghuli_day *day, const uint64_t words[6], uint64_t answer[5])
{
    switch (words[0]) {
    case WEZGHULI_FORM_PLAN:
        return wezghuli_open(day->head, day->terms, day->counts, words[1], words[2], answer);
    case WEZGHULI_FORM_CAMPAIGN:
        return wezghuli_add(day->head, day->terms, day->counts, words[1], words[2], answer);
    case WEZGHULI_FORM_START:
        return wezghuli_start(day->head, day->terms, day->counts, answer);
    case WEZGHULI_FORM_VIEW:
        return wezghuli_view(day->head, day->terms, day->counts, words[1], answer);
    case WEZGHULI_FORM_PAUSE:
        return wezghuli_pause(day->head, day->terms, day->counts, words[1], answer);
    case WEZGHULI_FORM_RESUME:
        return wezghuli_resume(day->head, day->terms, day->counts, words[1], answer);
    case WEZGHULI_FORM_CLOSE:
        return wezghuli_close(day->head, day->terms, day->counts, answer);
    default:
        return 17;
    }
}

/* One line answered; after a closing come the tallies. */
static int answer_line(wezghuli_day *day, const char *line)
{
    uint64_t words[6];
    uint64_t answer[5];
    uint64_t status = wezghuli_read_line((const uint8_t *)line, strlen(line), words);

    if (status == WEZGHULI_STATUS_ACCEPTED)
        status = call(day, words, answer);
    if (status >= WEZGHULI_STATUS_NO_HEAD) {
        fprintf(stderr, "this memory holds no state: status %llu\n", (unsigned long long)status);
        return 1;
    }
    if (status != WEZGHULI_STATUS_ACCEPTED)
        return print_refusal(status);
    if (print_answer(answer))
        return 1;
    if (answer[0] == WEZGHULI_ANSWER_CLOSING)
        for (uint64_t i = 0; i < day->head[WEZGHULI_HEAD_CAMPAIGNS]; i++)
            if (print_tally(day, i))
                return 1;
    return 0;
}

int main(void)
{
    wezghuli_day day;

    wezghuli_blank(day.head, day.terms, day.counts);
    for (size_t i = 0; i < sizeof LISTING / sizeof LISTING[0]; i++)
        if (answer_line(&day, LISTING[i]))
            return 1;
    return fflush(stdout) != 0;
}
