/*
 * A driver over bad links. Line cards 0 and 1 count drops; the console, card 2,
 * collects them. The links lose, repeat and reorder; what is not answered is sent
 * again, and no drop is lost or collected twice.
 *
 *   cc -std=c11 -Iinclude examples/resend.c -Ltarget/staticlib -lyelansub
 *
 * What a driver has to keep for that:
 *
 *   1. Nothing forged is accepted: the card that a message names as its sender
 *      has written these very bytes. yelansub_take refuses what cannot be, and
 *      cannot tell the rest. Where links damage, send a checksum along, and drop
 *      what fails it as if it were lost.
 *   2. A card is opened once, and its words survive a restart: they are stored
 *      before a message made from them leaves the card, and before an answer
 *      does. Opened again, a card would begin at message 1, and be answered 8.
 *   3. What a card has written is kept, over a restart too, until every other
 *      card has answered 0 or 8. After 9 an earlier message is missing there:
 *      both are sent again. A message gets no other answer.
 *   4. One chassis to a network: all cards are opened with the same numbers of
 *      cards and counters, and no two with the same own number.
 */
#include <inttypes.h>
#include <stdio.h>
#include <stdlib.h>

#include "yelansub.h"

enum { CARDS = 3, COUNTERS = 1, CONSOLE = 2, DROPS = 0 };
enum { KEPT = 6, WINDOW = 4, WIRE = 32 };

struct message {
    uint8_t bytes[YELANSUB_LONGEST_MESSAGE];
    uint64_t length, sequence;
};

/* What a card owns. A restart has to find all of it again. */
static struct card {
    uint64_t words[YELANSUB_REPLICA_WORDS(CARDS, COUNTERS)];
    struct message kept[KEPT]; /* message n is at n % KEPT */
    uint64_t made;             /* messages written */
    uint64_t heard[CARDS];     /* each other card has answered 0 or 8 up to this one */
} cards[CARDS];
static const size_t words = YELANSUB_REPLICA_WORDS(CARDS, COUNTERS);

static struct packet {
    unsigned from, to;
    struct message message;
} wire[WIRE]; /* what is under way */
static unsigned under_way, lost;
static uint64_t answers[YELANSUB_IMPLAUSIBLE + 1]; /* how often take gave each */

static void expect(const char *what, uint64_t is, uint64_t due)
{
    if (is != due) {
        printf("failed: %s is %" PRIu64 ", should be %" PRIu64 "\n", what, is, due);
        exit(1);
    }
}

/* The same numbers on every machine. */
static unsigned below(unsigned limit)
{
    static uint32_t state = 1;
    state = state * 1664525 + 1013904223;
    return (state >> 16) % limit;
}

/* The network: of ten packets three are lost and one comes twice; a full wire loses more. */
static void put_on_wire(const struct packet *packet)
{
    unsigned luck = below(10), copies = luck < 3 ? 0 : luck < 4 ? 2 : 1;
    lost += copies == 0 || under_way == WIRE;
    for (; copies > 0 && under_way < WIRE; copies--)
        wire[under_way++] = *packet;
}

/* Any packet under way arrives. The answer goes back, and may be lost as well: then the message
   is sent again and answered 8. Who has taken a message has taken all before it. */
static void arrive(void)
{
    unsigned at = below(under_way);
    struct packet packet = wire[at];
    wire[at] = wire[--under_way];
    struct yelansub_taken taken = yelansub_take(cards[packet.to].words, words,
                                                packet.message.bytes, packet.message.length);
    answers[taken.number]++;
    uint64_t *heard = &cards[packet.from].heard[packet.to];
    if (taken.number == YELANSUB_OK || taken.number == YELANSUB_REPEATED) {
        if (below(10) >= 3 && *heard < packet.message.sequence)
            *heard = packet.message.sequence;
    } else {
        expect("an answer that is neither 0 nor 8", taken.number, YELANSUB_EARLY);
    }
}

/* The oldest messages that the other card is not known to have. */
static void send_again(unsigned from, unsigned to)
{
    uint64_t heard = cards[from].heard[to];
    for (uint64_t n = heard + 1; n <= cards[from].made && n <= heard + WINDOW; n++)
        put_on_wire(&(struct packet){from, to, cards[from].kept[n % KEPT]});
}

/* A while goes by. */
static void go_on(void)
{
    for (unsigned from = 0; from < CARDS; from++)
        for (unsigned to = 0; to < CARDS; to++)
            if (from != to)
                send_again(from, to);
    for (unsigned turn = 0; turn < 16 && under_way > 0; turn++)
        arrive();
}

/* How many of its last messages card i has to keep. */
static uint64_t to_keep(unsigned i)
{
    uint64_t most = 0;
    for (unsigned other = 0; other < CARDS; other++)
        if (other != i && most < cards[i].made - cards[i].heard[other])
            most = cards[i].made - cards[i].heard[other];
    return most;
}

/* Until all has been heard by all. */
static void settle(void)
{
    for (unsigned turn = 0; turn < 1000 && to_keep(0) + to_keep(1) + to_keep(2) > 0; turn++)
        go_on();
    for (unsigned i = 0; i < CARDS; i++)
        expect("the number of messages kept after a thousand turns", to_keep(i), 0);
}

/* Where card i keeps its next message. With no room for one more, counting and clearing have to
   wait. */
static struct message *room(unsigned i)
{
    if (to_keep(i) == KEPT)
        settle();
    return &cards[i].kept[(cards[i].made + 1) % KEPT];
}

/* Card i has made the message that is there. */
static void made(unsigned i, struct message *message, uint64_t sequence, uint64_t length)
{
    message->length = length;
    message->sequence = cards[i].made = sequence;
}

/* A lot of drops on card i. */
static void count(unsigned i, uint64_t lot)
{
    struct message *message = room(i);
    struct yelansub_sent sent = yelansub_count(cards[i].words, words, DROPS, lot, message->bytes,
                                               sizeof message->bytes);
    expect("the answer to count", sent.number, YELANSUB_OK);
    made(i, message, sent.sequence, sent.length);
}

/* The console notes the drops that it has heard of, and clears just these. */
static uint64_t collect(void)
{
    struct message *message = room(CONSOLE);
    struct yelansub_cleared cleared = yelansub_read_and_clear(
        cards[CONSOLE].words, words, DROPS, message->bytes, sizeof message->bytes);
    expect("the answer to read and clear", cleared.number, YELANSUB_OK);
    made(CONSOLE, message, cleared.sequence, cleared.length);
    return cleared.value;
}

int main(void)
{
    for (unsigned i = 0; i < CARDS; i++)
        expect("the answer to open", yelansub_open(cards[i].words, words, CARDS, COUNTERS, i), 0);

    /* 100 lots of 3 drops on card 0, and 50 drops on card 1. Every 20 turns the console collects
       what it has heard of by then, and the rest when it has heard of all: 350, whatever was lost
       on the way. */
    uint64_t collected = 0;
    for (unsigned turn = 1; turn <= 100; turn++) {
        count(0, 3);
        if (turn % 2 == 0)
            count(1, 1);
        go_on();
        if (turn % 20 == 0)
            collected += collect();
    }
    settle();
    collected += collect();
    expect("the number of drops collected", collected, 350);

    /* Four lots of 3 on card 0 and three drops on card 1 that the last clear has not seen: they
       stay. */
    for (unsigned lot = 0; lot < 4; lot++)
        count(0, 3);
    for (unsigned drop = 0; drop < 3; drop++)
        count(1, 1);
    settle();

    /* The cards have written 104 and 53 messages, the console six: two others took each, once.
       How often the network did its worst is its luck, but it must have. */
    expect("the number of messages taken", answers[YELANSUB_OK], 2 * (104 + 53 + 6));
    expect("lost, repeated and early, each at least once",
           lost > 0 && answers[YELANSUB_REPEATED] > 0 && answers[YELANSUB_EARLY] > 0, 1);
    fprintf(stderr, "%u packets lost, %" PRIu64 " repeated, %" PRIu64 " early\n", lost,
            answers[YELANSUB_REPEATED], answers[YELANSUB_EARLY]);
    printf("collected %" PRIu64 " drops in six clears\n", collected);
    for (unsigned i = 0; i < CARDS; i++) {
        struct yelansub_reading reading = yelansub_read(cards[i].words, words, DROPS);
        printf("card %u: %" PRIu64 " drops, holders %" PRIx64 "\n", i, reading.value,
               reading.holders);
        expect("the number of drops left", reading.value, 15);
        expect("the mask of cards 0 and 1", reading.holders, 3);
    }
    printf("all cards agree\n");
    return 0;
}
