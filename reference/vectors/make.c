/*
 * Prints messages.txt: messages and their bytes as rpcgen's code for
 * include/message.x and libtirpc write them. Built and run by regenerate.sh.
 *
 * One message a line:
 *   increment VERSION SENDER SEQUENCE COUNTER P START AMOUNT HEX
 *   clear VERSION SENDER SEQUENCE COUNTER E CARD P C ... HEX
 * Every message is in range; in version 1 the amount is 0. Those of version 2 are
 * plausible for some receiver: p of an increment is at least the amount, without
 * start above it, and c of the sender's own entry does not pass the sequence.
 */
#include <stdint.h>
#include <stdio.h>
#include <stdlib.h>
#include <string.h>

#include "message.h"
#include "yelansub.h"

enum { LAST_CARD = YELANSUB_MOST_CARDS - 1, LAST_COUNTER = YELANSUB_MOST_COUNTERS - 1 };
enum { BITS = 48 }; /* of YELANSUB_MAX */

static uint64_t state = 4506;

static uint64_t next(void)
{
    state += UINT64_C(0x9e3779b97f4a7c15);
    uint64_t z = state;
    z = (z ^ (z >> 30)) * UINT64_C(0xbf58476d1ce4e5b9);
    z = (z ^ (z >> 27)) * UINT64_C(0x94d049bb133111eb);
    return z ^ (z >> 31);
}

static uint64_t between(uint64_t low, uint64_t high)
{
    return low + next() % (high - low + 1);
}

static void print_hex(yelansub_wire_message *message)
{
    char bytes[YELANSUB_LONGEST_MESSAGE];
    XDR xdr;
    xdrmem_create(&xdr, bytes, sizeof bytes, XDR_ENCODE);
    if (!xdr_yelansub_wire_message(&xdr, message)) {
        fprintf(stderr, "not written\n");
        exit(1);
    }
    printf(" ");
    for (unsigned i = 0; i < xdr_getpos(&xdr); i++)
        printf("%02x", (unsigned char)bytes[i]);
    printf("\n");
    xdr_destroy(&xdr);
}

/* The version of a message, and its body there. */
static yelansub_body_1 *body_1(yelansub_wire_message *message)
{
    message->message_version = YELANSUB_MESSAGE_VERSION_1;
    return &message->yelansub_wire_message_u.body_1;
}

static yelansub_body *body_2(yelansub_wire_message *message)
{
    message->message_version = YELANSUB_MESSAGE_VERSION;
    return &message->yelansub_wire_message_u.body;
}

static void increment_1(unsigned sender, uint64_t sequence, unsigned counter, uint64_t p, int start)
{
    yelansub_wire_message message;
    yelansub_body_1 *body = body_1(&message);
    body->kind = YELANSUB_INCREMENT;
    body->yelansub_body_1_u.increment = (yelansub_increment_1){{sender, sequence, counter}, p, start};
    printf("increment 1 %u %llu %u %llu %d 0", sender, (unsigned long long)sequence, counter,
           (unsigned long long)p, start);
    print_hex(&message);
}

static void increment(unsigned sender, uint64_t sequence, unsigned counter, uint64_t p, int start,
                      unsigned amount)
{
    yelansub_wire_message message;
    yelansub_body *body = body_2(&message);
    body->kind = YELANSUB_INCREMENT;
    body->yelansub_body_u.increment =
        (yelansub_increment){{sender, sequence, counter}, p, start, amount};
    printf("increment 2 %u %llu %u %llu %d %u", sender, (unsigned long long)sequence, counter,
           (unsigned long long)p, start, amount);
    print_hex(&message);
}

/* An amount that an increment with this p can have. */
static unsigned any_amount(uint64_t p, int start)
{
    uint64_t most = start ? p : p - 1;
    if (most > YELANSUB_MOST_AMOUNT)
        most = YELANSUB_MOST_AMOUNT;
    return (unsigned)(next() % 4 == 0 ? most : between(1, most));
}

/* In both versions. Entries for the cards of the set, with numbers up to limit. */
static void clear(unsigned sender, uint64_t sequence, unsigned counter, unsigned set, uint64_t limit)
{
    yelansub_entry entries[YELANSUB_MOST_CARDS];
    unsigned count = 0;
    for (unsigned card = 0; card <= LAST_CARD; card++) {
        uint64_t most = card == sender && sequence - 1 < limit ? sequence - 1 : limit;
        if (!(set >> card & 1) || most == 0)
            continue;
        uint64_t c = next() % 4 == 0 ? most : between(1, most);
        uint64_t p = next() % 4 == 0 ? c : between(1, c);
        entries[count++] = (yelansub_entry){card, p, c};
    }
    yelansub_clearing clearing = {{sender, sequence, counter}, {count, entries}};
    for (unsigned version = 1; version <= YELANSUB_MESSAGE_VERSION; version++) {
        yelansub_wire_message message;
        if (version == YELANSUB_MESSAGE_VERSION_1) {
            body_1(&message)->kind = YELANSUB_CLEAR;
            body_1(&message)->yelansub_body_1_u.clearing = clearing;
        } else {
            body_2(&message)->kind = YELANSUB_CLEAR;
            body_2(&message)->yelansub_body_u.clearing = clearing;
        }
        printf("clear %u %u %llu %u %u", version, sender, (unsigned long long)sequence, counter, count);
        for (unsigned i = 0; i < count; i++)
            printf(" %u %llu %llu", entries[i].card, (unsigned long long)entries[i].p,
                   (unsigned long long)entries[i].c);
        print_hex(&message);
    }
}

int main(void)
{
    increment(0, 1, 0, 1, 1, 1); /* the specification's example */
    increment_1(0, 1, 0, 1, 1);
    for (int start = 0; start < 2; start++) {
        increment(LAST_CARD, YELANSUB_MAX, LAST_COUNTER, YELANSUB_MAX, start, YELANSUB_MOST_AMOUNT);
        increment(LAST_CARD, YELANSUB_MAX, LAST_COUNTER, YELANSUB_MAX, start, 1);
        increment_1(LAST_CARD, YELANSUB_MAX, LAST_COUNTER, YELANSUB_MAX, start);
    }
    increment(0, 2, 0, 2, 0, 1);
    for (unsigned sender = 0; sender <= LAST_CARD; sender++)
        for (int start = 0; start < 2; start++) {
            uint64_t sequence = between(2, UINT64_C(1) << between(2, BITS - 1)), p = between(2, sequence);
            unsigned counter = (unsigned)between(0, LAST_COUNTER);
            increment(sender, sequence, counter, p, start, any_amount(p, start));
            increment_1(sender, sequence, counter, p, start);
        }
    for (unsigned bit = 1; bit < BITS; bit++) {
        unsigned sender = bit % YELANSUB_MOST_CARDS, counter = bit % YELANSUB_MOST_COUNTERS;
        uint64_t sequence = UINT64_C(1) << bit, p = sequence - 1 + (bit == 1);
        increment(sender, sequence, counter, p, bit % 2, any_amount(p, bit % 2));
        increment_1(sender, sequence, counter, p, bit % 2);
    }

    clear(0, 1, 0, 0, YELANSUB_MAX);
    clear(LAST_CARD, YELANSUB_MAX, LAST_COUNTER, 0, YELANSUB_MAX);
    for (unsigned count = 0; count <= YELANSUB_MOST_CARDS; count++)
        clear(count % YELANSUB_MOST_CARDS, YELANSUB_MAX - count, count % YELANSUB_MOST_COUNTERS,
              (1u << count) - 1, YELANSUB_MAX);
    for (unsigned card = 0; card <= LAST_CARD; card++)
        clear(LAST_CARD - card, between(1, YELANSUB_MAX), card % YELANSUB_MOST_COUNTERS, 1u << card, 9);
    for (unsigned i = 0; i < 100; i++)
        clear((unsigned)between(0, LAST_CARD), between(1, UINT64_C(1) << between(1, BITS - 1)),
              (unsigned)between(0, LAST_COUNTER), (unsigned)between(0, (1u << YELANSUB_MOST_CARDS) - 1),
              UINT64_C(1) << between(0, BITS - 1));
    return 0;
}
