/*
 * A driver in one process: line cards 0 and 1, and the console as card 2. The
 * cards count drops, a counter for each partition, in lots as the hardware
 * reports them and with one message for each lot. The console polls: it asks
 * which counters are active and reads these alone. In the evening it takes the
 * day's figure of a partition and clears, in one call: a lot that came between a
 * read and a clear would be in no day's figure. A card gives the counter's
 * register to another port when the counter is quiet there, not when its value
 * is 0.
 *
 *   cc -std=c11 -Iinclude examples/driver.c -Ltarget/staticlib -lyelansub
 */
#include <inttypes.h>
#include <stdio.h>
#include <stdlib.h>

#include "yelansub.h"

enum { CARDS = 3, COUNTERS = 4, CONSOLE = 2 };

/* The partitions in which drops happen; there are two more. */
enum { UPLINKS = 0, TENANTS = 3 };

/* The driver owns all memory: one replica for each card. */
static uint64_t replica[CARDS][YELANSUB_REPLICA_WORDS(CARDS, COUNTERS)];
static const size_t words = YELANSUB_REPLICA_WORDS(CARDS, COUNTERS);

/* A message on its way. A driver would put these bytes on the backplane. */
struct packet {
    uint8_t bytes[YELANSUB_LONGEST_MESSAGE];
    uint64_t length;
};

static void accepted(const char *what, unsigned card, uint64_t number)
{
    if (number != YELANSUB_OK) {
        printf("card %u: %s refused, %" PRIu64 "\n", card, what, number);
        exit(1);
    }
}

/* A lot of drops on a port, at most YELANSUB_MOST_AMOUNT: counted here at once, and a message for
   the others. */
static struct packet on_drops(unsigned card, unsigned counter, uint64_t lot)
{
    struct packet packet = {.length = 0};
    struct yelansub_sent sent =
        yelansub_count(replica[card], words, counter, lot, packet.bytes, sizeof packet.bytes);
    accepted("count", card, sent.number);
    packet.length = sent.length;
    printf("card %u: lot of %" PRIu64 " on counter %u, message %" PRIu64 " of %" PRIu64 " bytes\n",
           card, lot, counter, sent.sequence, sent.length);
    return packet;
}

/* The drops since the last evening, and a message that clears just these on the other cards. */
static struct packet evening(unsigned card, unsigned counter)
{
    struct packet packet = {.length = 0};
    struct yelansub_cleared day =
        yelansub_read_and_clear(replica[card], words, counter, packet.bytes, sizeof packet.bytes);
    accepted("clear", card, day.number);
    packet.length = day.length;
    printf("card %u: %" PRIu64 " drops on counter %u today, cleared, message %" PRIu64 " of %" PRIu64
           " bytes\n", card, day.value, counter, day.sequence, day.length);
    return packet;
}

/* A message has come. 8 is a repeat, to be dropped; after 9 an earlier one is still due. */
static void on_message(unsigned card, const struct packet *packet)
{
    struct yelansub_taken taken = yelansub_take(replica[card], words, packet->bytes, packet->length);
    if (taken.number == YELANSUB_OK)
        printf("card %u: took message %" PRIu64 "\n", card, taken.sequence);
    else
        printf("card %u: message refused, %" PRIu64 "\n", card, taken.number);
}

static void show(unsigned card, unsigned counter)
{
    struct yelansub_reading reading = yelansub_read(replica[card], words, counter);
    accepted("read", card, reading.number);
    printf("card %u: %" PRIu64 " drops on counter %u, holders %" PRIx64 "%s\n", card, reading.value,
           counter, reading.holders, reading.holders == 0 ? ", quiet" : "");
}

/* Bit q is one if counter q is active. All others are quiet: 0 drops, and no need to read them. */
static void poll(unsigned card)
{
    struct yelansub_active active = yelansub_active_counters(replica[card], words);
    accepted("poll", card, active.number);
    printf("card %u: active counters 0x%" PRIx64 "\n", card, active.counters);
    for (unsigned counter = 0; counter < COUNTERS; counter++)
        if (active.counters >> counter & 1)
            show(card, counter);
}

int main(void)
{
    for (unsigned card = 0; card < CARDS; card++)
        if (yelansub_open(replica[card], words, CARDS, COUNTERS, card) != YELANSUB_OK)
            return 1;

    struct packet first = on_drops(0, UPLINKS, 3), second = on_drops(0, UPLINKS, 250);
    struct packet other = on_drops(1, UPLINKS, 1), tenants = on_drops(1, TENANTS, 7);
    on_message(CONSOLE, &first);
    on_message(CONSOLE, &first);  /* repeated: 8, the lot is not counted twice */
    on_message(CONSOLE, &other);
    on_message(CONSOLE, &tenants);
    poll(CONSOLE);                /* counters 1 and 2 hold nothing: they are not read */

    struct packet clear = evening(CONSOLE, UPLINKS);
    poll(CONSOLE);                /* nor is counter 0 now */
    struct packet third = on_drops(0, UPLINKS, 2);
    on_message(CONSOLE, &third);  /* early: 9, the second has not come */
    on_message(CONSOLE, &second);
    on_message(CONSOLE, &third);
    poll(CONSOLE);                /* the drops that the clear had not seen: tomorrow's figure */

    on_message(0, &clear);
    show(0, UPLINKS);             /* the same drops on the card that counted them */

    on_message(1, &clear);
    show(1, UPLINKS);             /* 0, but a lot that it cancels is under way: not quiet */
    on_message(1, &first);
    show(1, UPLINKS);
    return 0;
}
