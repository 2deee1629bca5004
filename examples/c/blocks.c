/* Input in blocks through the library: the listing of document 01 is fed to a stream in blocks of a few bytes, and
 * its answers are written to standard output. */
#include <stdint.h>
#include <stdio.h>
#include <string.h>

#include "wezghuli.h"

/* Any length will do: a line may end in another block than it began in. */
#define BLOCK 7

static const char LISTING[] =
    "(plan (depth 2) (width 2))\n"
    "(campaign (price 5) (budget 10))\n"
    "(campaign (price 3) (budget 6))\n"
    "(start)\n"
    "(view 0 1)\n"
    "(view 0 1)\n"
    "(view 0 1)\n"
    "(view 0)\n"
    "(view 1)\n"
    "(view 2)\n"
    "(close)\n";

static wezghuli_day day;
static wezghuli_stream stream;
static uint8_t out[WEZGHULI_REPLY_ROOM];

static int misused(uint64_t status)
{
    if (status != WEZGHULI_STATUS_ACCEPTED)
        fprintf(stderr, "the stream was not fed: status %llu\n", (unsigned long long)status);
    return status != WEZGHULI_STATUS_ACCEPTED;
}

static int print_answers(void)
{
    size_t length = (size_t)stream.words[WEZGHULI_STREAM_WRITTEN];

    return fwrite(out, 1, length, stdout) != length;
}

/* One block, handed over until all of it is taken: out has room for one answer, so that a line is taken at a time. */
static int feed(const uint8_t *block, size_t length)
{
    while (length > 0) {
        if (misused(wezghuli_feed(day.head, day.terms, day.counts, stream.pending, stream.words, block, length, out,
                sizeof out))
            || print_answers())
            return 1;
        block += stream.words[WEZGHULI_STREAM_TAKEN];
        length -= stream.words[WEZGHULI_STREAM_TAKEN];
    }
    return 0;
}

int main(void)
{
    size_t length = strlen(LISTING);

    wezghuli_blank(day.head, day.terms, day.counts);
    for (size_t at = 0; at < length; at += BLOCK)
        if (feed((const uint8_t *)LISTING + at, length - at < BLOCK ? length - at : BLOCK))
            return 1;
    if (misused(wezghuli_finish(day.head, day.terms, day.counts, stream.pending, stream.words, out, sizeof out))
        || print_answers())
        return 1;
    return fflush(stdout) != 0;
}
