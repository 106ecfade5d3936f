/*
 * A chassis in one process: the cards' replicas and logs lie in one memory, and
 * the messages that a run leaves in the logs are carried by
 * yelansub_deliver_pending. A bound on the deliveries of one call keeps it
 * short; calls without one end with all cards reading alike.
 *
 *   cc -std=c11 -Iinclude examples/pump.c -Ltarget/staticlib -lyelansub
 */
#include <inttypes.h>
#include <stdio.h>
#include <stdlib.h>

#include "yelansub.h"

enum { CARDS = 3, COUNTERS = 1, DROPS = 0, LOG_BYTES = 512 };

static uint64_t replicas[CARDS][YELANSUB_REPLICA_WORDS(CARDS, COUNTERS)];
static const size_t words = YELANSUB_REPLICA_WORDS(CARDS, COUNTERS);
static uint8_t logs[CARDS][LOG_BYTES];

/* Cards 0 and 1 count drops, by the amounts at the end. Card 2 has heard of the first three when it
   clears, and nobody of the clear. */
static const struct yelansub_step steps[] = {
    {YELANSUB_STEP_COUNT, 0, DROPS, 3},
    {YELANSUB_STEP_COUNT, 0, DROPS, 250},
    {YELANSUB_STEP_COUNT, 1, DROPS, 1},
    {YELANSUB_STEP_DELIVER, 2, 0, 0},
    {YELANSUB_STEP_CLEAR, 2, DROPS, 0},
    {YELANSUB_STEP_COUNT, 1, DROPS, 40},
};
enum { STEPS = sizeof steps / sizeof *steps };

static void accepted(const char *what, uint64_t number)
{
    if (number != YELANSUB_OK) {
        printf("%s refused, %" PRIu64 "\n", what, number);
        exit(1);
    }
}

static void show(void)
{
    int agree = 1;
    struct yelansub_reading first = yelansub_read(replicas[0], words, DROPS);
    for (unsigned card = 0; card < CARDS; card++) {
        struct yelansub_reading reading = yelansub_read(replicas[card], words, DROPS);
        accepted("read", reading.number);
        printf("card %u: %" PRIu64 " drops, holders %" PRIx64 "\n", card, reading.value,
               reading.holders);
        agree = agree && reading.value == first.value && reading.holders == first.holders;
    }
    printf("%s\n", agree ? "all cards agree" : "the cards differ");
}

/* Gives how many deliveries it made. Were they fewer than most, nothing waits any more. */
static uint64_t pump(uint64_t most)
{
    struct yelansub_delivered delivered = yelansub_deliver_pending(
        CARDS, COUNTERS, LOG_BYTES, most, replicas[0], CARDS * words, logs[0], sizeof logs);
    accepted("pump", delivered.number);
    printf("%" PRIu64 " delivered\n", delivered.deliveries);
    return delivered.deliveries;
}

int main(void)
{
    uint64_t answers[STEPS * YELANSUB_ANSWER_WORDS];
    accepted("run", yelansub_run_records(CARDS, COUNTERS, LOG_BYTES, steps, STEPS, replicas[0],
                                         CARDS * words, logs[0], sizeof logs, answers,
                                         STEPS * YELANSUB_ANSWER_WORDS));
    for (size_t step = 0; step < STEPS; step++)
        accepted("step", answers[step * YELANSUB_ANSWER_WORDS]);
    show();
    pump(4);          /* to card 0 from 1 and 2, to card 1 from 0 and 2 */
    show();
    pump(UINT64_MAX); /* all that is left */
    show();
    return pump(UINT64_MAX) == 0 ? 0 : 1;
}
