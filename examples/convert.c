/*
 * Old cards in a new chassis: cards 0 and 1 have firmware of version 1, and the
 * console, card 2, is of version 2. What was captured from the old cards is
 * converted and taken by the console. Converted back it is as it was captured.
 * What the console itself counts goes back only where every amount is 1.
 *
 *   cc -std=c11 -Iinclude examples/convert.c -Ltarget/staticlib -lyelansub
 */
#include <inttypes.h>
#include <stdio.h>
#include <stdlib.h>
#include <string.h>

#include "yelansub.h"

enum { CARDS = 3, COUNTERS = 1, CONSOLE = 2, DROPS = 0 };

static uint64_t replica[YELANSUB_REPLICA_WORDS(CARDS, COUNTERS)];
static const size_t words = YELANSUB_REPLICA_WORDS(CARDS, COUNTERS);

/* Three messages of version 1 on counter 0. Card 1 had seen card 0's first drop when it cleared. */
static const uint8_t capture[] = {
    0, 0, 0, 1, 0, 0, 0, 1, 0, 0, 0, 0, /* version 1, increment, of card 0, */
    0, 0, 0, 0, 0, 0, 0, 1, 0, 0, 0, 0, /* its first message, counter 0, */
    0, 0, 0, 0, 0, 0, 0, 1, 0, 0, 0, 1, /* p = 1, with start */

    0, 0, 0, 1, 0, 0, 0, 2, 0, 0, 0, 1, /* version 1, clear, of card 1, */
    0, 0, 0, 0, 0, 0, 0, 1, 0, 0, 0, 0, /* its first message, counter 0, */
    0, 0, 0, 1, 0, 0, 0, 0,             /* one entry: of card 0 */
    0, 0, 0, 0, 0, 0, 0, 1,             /* all up to p = 1, */
    0, 0, 0, 0, 0, 0, 0, 1,             /* with c = 1 */

    0, 0, 0, 1, 0, 0, 0, 1, 0, 0, 0, 0, /* version 1, increment, of card 0, */
    0, 0, 0, 0, 0, 0, 0, 2, 0, 0, 0, 0, /* its second message, counter 0, */
    0, 0, 0, 0, 0, 0, 0, 2, 0, 0, 0, 0, /* p = 2, without start */
};

static void accepted(const char *what, uint64_t number)
{
    if (number != YELANSUB_OK) {
        printf("%s refused, %" PRIu64 "\n", what, number);
        exit(1);
    }
}

static void show(void)
{
    struct yelansub_reading reading = yelansub_read(replica, words, DROPS);
    accepted("read", reading.number);
    printf("card %u: %" PRIu64 " drops, holders %" PRIx64 "\n", CONSOLE, reading.value,
           reading.holders);
}

/* Takes the messages of a log one after the other. */
static void take_all(const uint8_t *log, size_t length)
{
    for (uint64_t q = 1;; q++) {
        struct yelansub_span span = yelansub_waiting(log, length, q);
        if (span.length == 0)
            return;
        const uint8_t *message = log + span.start;
        struct yelansub_message_reading read = yelansub_read_message(message, span.length);
        accepted("message", read.number);
        struct yelansub_taken taken = yelansub_take(replica, words, message, span.length);
        accepted("take", taken.number);
        printf("card %u: took message %" PRIu64 " of card %" PRIu32 "\n", CONSOLE, taken.sequence,
               read.message.sender);
        show();
    }
}

int main(void)
{
    /* Long enough for every capture of this length, and no buffer is both read and written. */
    uint8_t log[sizeof capture + sizeof capture / 9], back[sizeof capture];
    accepted("open", yelansub_open(replica, words, CARDS, COUNTERS, CONSOLE));

    struct yelansub_written up = yelansub_to_version_2(capture, sizeof capture, log, sizeof log);
    accepted("to version 2", up.number);
    printf("%zu bytes of version 1 are %zu of version 2\n", sizeof capture, up.length);
    take_all(log, up.length);

    struct yelansub_written down = yelansub_to_version_1(log, up.length, back, sizeof back);
    accepted("to version 1", down.number);
    int same = down.length == sizeof capture && memcmp(back, capture, sizeof capture) == 0;
    printf("%zu bytes of version 2 are %zu of version 1, %s\n", up.length, down.length,
           same ? "as captured" : "not as captured");

    /* A lot of 3 is no message of version 1. */
    uint8_t lot[YELANSUB_INCREMENT_BYTES], before[sizeof back];
    struct yelansub_sent sent = yelansub_count(replica, words, DROPS, 3, lot, sizeof lot);
    accepted("count", sent.number);
    printf("card %u: lot of 3, message %" PRIu64 " of %" PRIu64 " bytes\n", CONSOLE, sent.sequence,
           sent.length);
    memcpy(before, back, sizeof back);
    down = yelansub_to_version_1(lot, sent.length, back, sizeof back);
    printf("to version 1 refused, %" PRIu64 ", %s written\n", down.number,
           memcmp(before, back, sizeof back) == 0 && down.length == 0 ? "nothing" : "something");
    return 0;
}
