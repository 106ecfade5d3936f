/*
 * The calls by hand in C (bench/peer/peer.c) against the library: random replicas, well-formed and
 * damaged, random lengths, counters, amounts and messages, right, damaged, cut and of version 1.
 * Every answer, word and output byte is compared, and refused calls must leave all as it was. Every
 * number that a call can answer must have been met, and no other; and so must every case of the word
 * of bits. Built by tests/peer.sh.
 *
 * peer [CALLS [SEED]]
 */
#include <stdio.h>
#include <stdlib.h>
#include <string.h>

#include "../bench/peer/peer.h"
#include "yelansub.h"

enum { LIBRARY, PEER, SIDES };

static const struct {
    uint64_t (*open)(uint64_t *, size_t, uint64_t, uint64_t, uint64_t);
    struct yelansub_reading (*read)(const uint64_t *, size_t, uint64_t);
    struct yelansub_active (*active_counters)(const uint64_t *, size_t);
    struct yelansub_sent (*count)(uint64_t *, size_t, uint64_t, uint64_t, uint8_t *, size_t);
    struct yelansub_sent (*clear)(uint64_t *, size_t, uint64_t, uint8_t *, size_t);
    struct yelansub_cleared (*read_and_clear)(uint64_t *, size_t, uint64_t, uint8_t *, size_t);
    struct yelansub_taken (*take)(uint64_t *, size_t, const uint8_t *, size_t);
} sides[SIDES] = {
    {yelansub_open, yelansub_read, yelansub_active_counters, yelansub_count, yelansub_clear, yelansub_read_and_clear,
     yelansub_take},
    {peer_open, peer_read, peer_active_counters, peer_count, peer_clear, peer_read_and_clear, peer_take},
};

/* The calls; a take by what it is handed. A full clear has an entry for each card. */
enum {
    OPEN, READ, ACTIVE_COUNTERS, COUNT, CLEAR, READ_AND_CLEAR, TAKE_INCREMENT, TAKE_CLEAR, TAKE_FULL_CLEAR, TAKE_OTHER,
    KINDS
};

/* What can be met of the word of bits, by a call that is right but for that. */
enum { BIT_K, BIT_ABOVE, NO_ENTRY, NO_BIT, OTHERS, LAST, LAST_OF_ALL, BEGINS, STAYS, ENDS, CASES };
static const char *const cases[CASES] = {
    [BIT_K] = "refused for bit k",
    [BIT_ABOVE] = "refused for a bit above bit k",
    [NO_ENTRY] = "refused for a bit without an entry",
    [NO_BIT] = "refused for an entry without its bit",
    [OTHERS] = "accepted with another row's bit wrong",
    [LAST] = "accepted with bit k - 1",
    [LAST_OF_ALL] = "accepted with bit 63",
    [BEGINS] = "made the bit one",
    [STAYS] = "removed an entry and left the bit",
    [ENDS] = "made the bit zero",
};
#define LOOKING (1u << BIT_K | 1u << BIT_ABOVE)
#define ALL_BITS (LOOKING | 1u << OTHERS | 1u << LAST | 1u << LAST_OF_ALL)
#define ITS_BIT (ALL_BITS | 1u << NO_ENTRY | 1u << NO_BIT)

/* The numbers that each of them can answer, after YELANSUB_OK; 0 ends the list. */
#define SENDING YELANSUB_BAD_REPLICA, YELANSUB_BAD_ROW, YELANSUB_BAD_COUNTER, YELANSUB_EXHAUSTED, YELANSUB_SHORT_OUTPUT
#define TAKING YELANSUB_BAD_REPLICA, YELANSUB_UNREADABLE, YELANSUB_BAD_COUNTER, YELANSUB_BAD_ROW, YELANSUB_BAD_CARD, \
               YELANSUB_REPEATED, YELANSUB_EARLY, YELANSUB_IMPLAUSIBLE
static const struct {
    const char *name;
    unsigned cases, numbers[10];
} kinds[KINDS] = {
    [OPEN] = {"open", 1u << ENDS, {YELANSUB_BAD_REPLICA}},
    [READ] = {"read", ITS_BIT, {YELANSUB_BAD_REPLICA, YELANSUB_BAD_COUNTER, YELANSUB_BAD_ROW}},
    [ACTIVE_COUNTERS] = {"active counters", ALL_BITS, {YELANSUB_BAD_REPLICA}},
    [COUNT] = {"count", ITS_BIT | 1u << BEGINS, {SENDING, YELANSUB_BAD_AMOUNT}},
    [CLEAR] = {"clear", ITS_BIT | 1u << STAYS | 1u << ENDS, {SENDING}},
    [READ_AND_CLEAR] = {"read and clear", ITS_BIT | 1u << STAYS | 1u << ENDS, {SENDING}},
    [TAKE_INCREMENT] = {"take of an increment", ITS_BIT | 1u << BEGINS | 1u << STAYS | 1u << ENDS, {TAKING}},
    [TAKE_CLEAR] = {"take of a clear", ITS_BIT | 1u << BEGINS | 1u << STAYS | 1u << ENDS, {TAKING}},
    [TAKE_FULL_CLEAR] = {"take of a full clear", ITS_BIT | 1u << BEGINS | 1u << STAYS | 1u << ENDS, {TAKING}},
    [TAKE_OTHER] = {"take of other bytes", LOOKING, {YELANSUB_BAD_REPLICA, YELANSUB_UNREADABLE}},
};
enum { NUMBERS = YELANSUB_ABOVE_ONE + 1 };
static unsigned long met[KINDS][NUMBERS], came[KINDS][CASES];

static uint64_t random_state;

static uint64_t word(void)
{
    uint64_t z = random_state += UINT64_C(0x9e3779b97f4a7c15);
    z = (z ^ (z >> 30)) * UINT64_C(0xbf58476d1ce4e5b9);
    z = (z ^ (z >> 27)) * UINT64_C(0x94d049bb133111eb);
    return z ^ (z >> 31);
}

static uint64_t below(uint64_t limit)
{
    return word() % limit;
}

static uint64_t between(uint64_t low, uint64_t high)
{
    return low + below(high - low + 1);
}

static int percent(unsigned of_hundred)
{
    return below(100) < of_hundred;
}

/* A number that a check might get wrong. */
static uint64_t odd(uint64_t near)
{
    static const uint64_t list[] = {
        0, 1, 2, YELANSUB_MOST_CARDS - 1, YELANSUB_MOST_CARDS, YELANSUB_MOST_CARDS + 1, 15, 16,
        YELANSUB_MOST_COUNTERS - 1, YELANSUB_MOST_COUNTERS, YELANSUB_MOST_COUNTERS + 1,
        YELANSUB_MOST_AMOUNT, YELANSUB_MOST_AMOUNT + 1, UINT64_C(1) << 32, (UINT64_C(1) << 32) + 1,
        YELANSUB_MAX - 1, YELANSUB_MAX, YELANSUB_MAX + 1, YELANSUB_MAX + 2, -YELANSUB_MAX, -(YELANSUB_MAX + 1),
        -(YELANSUB_MAX + 2), UINT64_C(1) << 49, (UINT64_C(1) << 63) - 1, UINT64_C(1) << 63, UINT64_MAX - 1, UINT64_MAX,
    };
    switch (below(4)) {
    case 0: return near + 1;
    case 1: return near - 1;
    case 2: return word() >> below(64);
    default: return list[below(sizeof list / sizeof *list)];
    }
}

/* The replica: its sizes as drawn, each side's words, and the words before the call. */
static uint64_t r, k, own;
static size_t len;
static uint64_t *words[SIDES], *before;

static void fail(unsigned kind, const char *what)
{
    fprintf(stderr, "peer: %s: %s (r %llu, k %llu, own card %llu, %zu words)\n", kinds[kind].name, what,
            (unsigned long long)r, (unsigned long long)k, (unsigned long long)own, len);
    exit(1);
}

static int same(const void *a, const void *b, size_t bytes)
{
    return !bytes || !memcmp(a, b, bytes);
}

/* Both sides get the same change. */
static void set(size_t at, uint64_t to)
{
    if (at < len)
        words[LIBRARY][at] = words[PEER][at] = to;
}

static uint64_t get(size_t at)
{
    return at < len ? words[LIBRARY][at] : 0;
}

enum { ACTIVE_AT = 3 };

static size_t units_at(uint64_t card)
{
    return YELANSUB_REPLICA_WORDS(0, 0) + card;
}

static size_t messages_at(uint64_t card)
{
    return units_at(r + card);
}

static size_t entry_at(uint64_t counter, uint64_t card)
{
    return YELANSUB_REPLICA_WORDS(r, counter) + 3 * card;
}

static int has_entry(const uint64_t *of, uint64_t counter, uint64_t card)
{
    const uint64_t *entry = of + entry_at(counter, card);
    return entry[0] || entry[1] || entry[2];
}

static int row_has_entry(const uint64_t *of, uint64_t counter)
{
    for (uint64_t card = 0; card < r; card++)
        if (has_entry(of, counter, card))
            return 1;
    return 0;
}

static int bit(const uint64_t *of, uint64_t counter)
{
    return of[ACTIVE_AT] >> counter & 1;
}

static void well_formed(void)
{
    set(0, r);
    set(1, k);
    set(2, own);
    /* Small numbers meet each other often; large ones meet the limits. */
    uint64_t top = percent(60) ? between(1, 9) : percent(50) ? YELANSUB_MAX : between(1, YELANSUB_MAX);
    for (uint64_t card = 0; card < r; card++) {
        uint64_t units = percent(20) ? top : percent(5) ? YELANSUB_MAX - below(70000) : below(top + 1);
        set(units_at(card), units);
        set(messages_at(card), percent(2) ? YELANSUB_MAX : percent(40) ? units : below(top + 1));
    }
    unsigned present = (unsigned)below(4) * 33 + 1;
    uint64_t active = 0;
    for (uint64_t counter = 0; counter < k; counter++) {
        for (uint64_t card = 0; card < r; card++) {
            size_t at = entry_at(counter, card);
            uint64_t units = get(units_at(card));
            uint64_t most = card == own || (units && percent(70)) ? units : top;
            uint64_t c = percent(30) ? most : between(1, most ? most : 1);
            uint64_t p = percent(30) ? c : between(1, c ? c : 1);
            int is = most && percent(present);
            if (is && counter < 64)
                active |= UINT64_C(1) << counter;
            set(at, is ? p : 0);
            set(at + 1, !is ? 0 : percent(30) ? p : percent(30) ? p - 1 : below(p + 1));
            set(at + 2, is ? c : 0);
        }
    }
    set(ACTIVE_AT, active);
}

/* A bit of a counter, that of the first that there is not, or any. */
static void damage_bit(void)
{
    uint64_t at = percent(60) ? below(k) : percent(50) ? k : below(64);
    if (at < 64)
        set(ACTIVE_AT, get(ACTIVE_AT) ^ UINT64_C(1) << at);
}

static void damage(void)
{
    if (percent(30))
        return damage_bit();
    size_t at = percent(30) ? below(YELANSUB_REPLICA_WORDS(r, 0)) : below(len ? len : 1);
    set(at, odd(get(at)));
}

static void drop_replica(void)
{
    for (int side = 0; side < SIDES; side++)
        free(words[side]);
    free(before);
}

static void new_replica(void)
{
    drop_replica();
    /* Now and then one too many, with words to match. */
    r = percent(1) ? YELANSUB_MOST_CARDS + 1 : percent(30) ? YELANSUB_MOST_CARDS : between(1, YELANSUB_MOST_CARDS);
    k = percent(1)   ? YELANSUB_MOST_COUNTERS + 1
        : percent(5) ? between(YELANSUB_MOST_COUNTERS - 1, YELANSUB_MOST_COUNTERS)
                     : between(1, 4);
    own = below(r);
    len = YELANSUB_REPLICA_WORDS(r, k);
    if (percent(3))
        len = percent(50) ? below(8) : percent(50) ? len + 1 : len - 1;
    before = len ? malloc(len * sizeof *before) : NULL;
    for (int side = 0; side < SIDES; side++)
        words[side] = len ? malloc(len * sizeof *before) : NULL;
    for (size_t at = 0; at < len; at++)
        set(at, word());
    well_formed();
    if (percent(4))
        set(below(3), odd(get(0)));
    if (percent(15))
        damage();
}

static void keep(void)
{
    if (len)
        memcpy(before, words[LIBRARY], len * sizeof *before);
}

/* Where the words before the call are a replica as drawn, but for bits and rows. */
static int as_drawn(void)
{
    return r <= YELANSUB_MOST_CARDS && k <= YELANSUB_MOST_COUNTERS && len == YELANSUB_REPLICA_WORDS(r, k)
           && before[0] == r && before[1] == k && before[2] == own;
}

/* Whether a counter's row was well-formed but for its bit. */
static int row_well_formed(uint64_t counter)
{
    for (uint64_t card = 0; card < r; card++) {
        const uint64_t *entry = before + entry_at(counter, card), p = entry[0], n = entry[1], c = entry[2];
        int present = 1 <= p && p <= c && c <= YELANSUB_MAX && n <= p;
        if (before[units_at(card)] > YELANSUB_MAX || before[messages_at(card)] > YELANSUB_MAX
            || (has_entry(before, counter, card) && !present) || (card == own && c > before[units_at(card)]))
            return 0;
    }
    return 1;
}

/* The cases of a call that looks at this counter's row, or at none. */
enum { NO_COUNTER = YELANSUB_MOST_COUNTERS };

static void note(unsigned kind, uint64_t number, uint64_t counter)
{
    const uint64_t *after = words[PEER];
    if (!as_drawn())
        return;
    if (kind == OPEN) {
        came[kind][ENDS] += number == YELANSUB_OK && before[ACTIVE_AT] && !after[ACTIVE_AT];
        return;
    }
    uint64_t above = k < 64 ? before[ACTIVE_AT] >> k : 0;
    if (above) {
        if (number != YELANSUB_BAD_REPLICA)
            fail(kind, "a bit at k or above is not refused");
        came[kind][above & 1 ? BIT_K : BIT_ABOVE]++;
        return;
    }
    if (kind != ACTIVE_COUNTERS && counter >= k)
        return;
    int of_row = kind != ACTIVE_COUNTERS, others = 0, removed = 0;
    if (of_row && bit(before, counter) != row_has_entry(before, counter)) {
        if (number == YELANSUB_OK)
            fail(kind, "a bit that disagrees is accepted");
        if (number == YELANSUB_BAD_ROW && row_well_formed(counter))
            came[kind][bit(before, counter) ? NO_ENTRY : NO_BIT]++;
    }
    if (number != YELANSUB_OK)
        return;
    for (uint64_t other = 0; other < k; other++)
        others |= !(of_row && other == counter) && bit(before, other) != row_has_entry(before, other);
    came[kind][OTHERS] += others;
    if (!of_row || counter == k - 1)
        came[kind][k == 64 ? LAST_OF_ALL : LAST] += bit(before, k - 1) || bit(after, k - 1);
    if (!of_row)
        return;
    if ((before[ACTIVE_AT] ^ after[ACTIVE_AT]) & ~(UINT64_C(1) << counter))
        fail(kind, "another counter's bit moved");
    if (bit(after, counter) != row_has_entry(after, counter))
        fail(kind, "the bit does not follow its row");
    for (uint64_t card = 0; card < r; card++)
        removed |= has_entry(before, counter, card) && !has_entry(after, counter, card);
    came[kind][BEGINS] += !bit(before, counter) && bit(after, counter);
    came[kind][STAYS] += removed && bit(after, counter);
    came[kind][ENDS] += bit(before, counter) && !bit(after, counter);
}

/* After a call that both sides have answered with this number. */
static void check(unsigned kind, uint64_t number, uint64_t counter)
{
    if (!same(words[LIBRARY], words[PEER], len * sizeof *before))
        fail(kind, "words differ");
    if (number != YELANSUB_OK && !same(words[PEER], before, len * sizeof *before))
        fail(kind, "refused, and words changed");
    if (number >= NUMBERS)
        fail(kind, "no such number");
    met[kind][number]++;
    note(kind, number, counter);
}

static void try_open(void)
{
    uint64_t cards = percent(80) ? r : odd(r), counters = percent(80) ? k : odd(k), card = percent(80) ? own : odd(r);
    uint64_t number[SIDES];
    keep();
    for (int side = 0; side < SIDES; side++)
        number[side] = sides[side].open(words[side], len, cards, counters, card);
    if (number[LIBRARY] != number[PEER])
        fail(OPEN, "answers differ");
    check(OPEN, number[PEER], NO_COUNTER);
}

static uint64_t some_counter(void)
{
    return percent(84) ? below(k) : percent(60) ? k - 1 : odd(k);
}

static void try_read(void)
{
    uint64_t counter = some_counter();
    struct yelansub_reading answer[SIDES];
    keep();
    for (int side = 0; side < SIDES; side++)
        answer[side] = sides[side].read(words[side], len, counter);
    if (!same(&answer[LIBRARY], &answer[PEER], sizeof *answer))
        fail(READ, "answers differ");
    if (!same(words[PEER], before, len * sizeof *before))
        fail(READ, "words changed");
    check(READ, answer[PEER].number, counter);
}

static void try_active_counters(void)
{
    struct yelansub_active answer[SIDES];
    keep();
    for (int side = 0; side < SIDES; side++)
        answer[side] = sides[side].active_counters(words[side], len);
    if (!same(&answer[LIBRARY], &answer[PEER], sizeof *answer))
        fail(ACTIVE_COUNTERS, "answers differ");
    if (!same(words[PEER], before, len * sizeof *before))
        fail(ACTIVE_COUNTERS, "words changed");
    check(ACTIVE_COUNTERS, answer[PEER].number, NO_COUNTER);
}

static uint64_t some_amount(uint64_t units)
{
    uint64_t left = YELANSUB_MAX - units; /* in words that are damaged any number */
    if (left <= YELANSUB_MOST_AMOUNT && percent(60))
        return left + below(2);
    return percent(50) ? between(1, 3) : percent(90) ? between(1, YELANSUB_MOST_AMOUNT) : odd(YELANSUB_MOST_AMOUNT);
}

/* Count, clear, and read and clear; one that reads no value gives 0. */
static struct yelansub_cleared send_by(int side, unsigned kind, uint64_t counter, uint64_t amount, uint8_t *out,
                                       size_t room)
{
    if (kind == READ_AND_CLEAR)
        return sides[side].read_and_clear(words[side], len, counter, out, room);
    struct yelansub_sent sent = kind == COUNT ? sides[side].count(words[side], len, counter, amount, out, room)
                                              : sides[side].clear(words[side], len, counter, out, room);
    return (struct yelansub_cleared){sent.number, 0, sent.sequence, sent.length};
}

static void try_send(unsigned kind)
{
    uint64_t counter = some_counter(), amount = some_amount(get(units_at(own)));
    size_t room = percent(60)   ? YELANSUB_LONGEST_MESSAGE
                  : percent(50) ? YELANSUB_CLEAR_BYTES(below(YELANSUB_MOST_CARDS + 1)) - below(2)
                  : percent(50) ? YELANSUB_INCREMENT_BYTES - below(2)
                                : below(YELANSUB_INCREMENT_BYTES);
    size_t shift = below(8); /* any alignment */
    uint8_t *out[SIDES + 1]; /* the last as it was */
    for (int side = 0; side <= SIDES; side++)
        out[side] = malloc(shift + room + !(shift + room));
    for (size_t at = 0; at < shift + room; at++)
        out[LIBRARY][at] = out[PEER][at] = out[SIDES][at] = (uint8_t)word();
    struct yelansub_cleared answer[SIDES];
    keep();
    for (int side = 0; side < SIDES; side++)
        answer[side] = send_by(side, kind, counter, amount, out[side] + shift, room);
    if (!same(&answer[LIBRARY], &answer[PEER], sizeof *answer))
        fail(kind, "answers differ");
    if (!same(out[LIBRARY], out[PEER], shift + room))
        fail(kind, "output differs");
    if (answer[PEER].number != YELANSUB_OK && !same(out[PEER], out[SIDES], shift + room))
        fail(kind, "refused, and output changed");
    check(kind, answer[PEER].number, counter);
    for (int side = 0; side <= SIDES; side++)
        free(out[side]);
}

static uint8_t *put_int(uint8_t *at, uint64_t number)
{
    for (int shift = 24; shift >= 0; shift -= 8)
        *at++ = (uint8_t)(number >> shift);
    return at;
}

static uint8_t *put_hyper(uint8_t *at, uint64_t number)
{
    return put_int(put_int(at, number >> 32), number);
}

static uint32_t get_int(const uint8_t *at)
{
    return (uint32_t)at[0] << 24 | (uint32_t)at[1] << 16 | (uint32_t)at[2] << 8 | at[3];
}

/* What is behind the header of an increment: mostly one that the sender can have sent next. */
static uint8_t *put_increment(uint8_t *at, uint64_t sender, int plain)
{
    uint64_t units = get(units_at(sender)), amount = some_amount(units), next = units + amount, start = percent(40);
    uint64_t p = start || percent(40) || units - 1 >= YELANSUB_MAX ? next : between(amount + 1, next);
    if (next > YELANSUB_MAX && percent(60))
        p = YELANSUB_MAX;
    if (percent(3))
        p = percent(50) ? amount : between(1, amount ? amount : 1);
    at = put_hyper(at, percent(96) ? p : odd(p));
    at = put_int(at, percent(98) ? start : odd(1));
    return plain ? at : put_int(at, percent(98) ? amount : odd(amount));
}

/* And of a clear. */
static uint8_t *put_clear(uint8_t *at, uint64_t counter, uint64_t sender)
{
    unsigned named = percent(30) ? 100 : (unsigned)below(100);
    uint64_t entries = 0, cards = percent(97) ? r : YELANSUB_MOST_CARDS + 1;
    int honest = percent(80);
    uint8_t *length = at;
    at += 4;
    for (uint64_t card = 0; card < cards; card++) {
        if (!percent(named))
            continue;
        uint64_t units = get(units_at(card)), c = units, p;
        /* Of the receiver and of the sender an honest sender knows no more. */
        int known = honest && (card == own || card == sender);
        if (!known && percent(30))
            c = percent(50) ? get(entry_at(counter, card) + 2) : c + below(3);
        if (c - 1 >= YELANSUB_MAX)
            c = between(1, 3);
        if (known && c > units)
            continue;
        p = percent(40) ? get(entry_at(counter, card)) : between(1, c);
        if (p - 1 >= c)
            p = c;
        if (percent(1))
            *(percent(50) ? &p : &c) = odd(percent(50) ? p : c);
        at = put_int(at, below(200) ? card : odd(card));
        at = put_hyper(put_hyper(at, p), c);
        entries++;
    }
    put_int(length, percent(99) ? entries : odd(entries));
    return at;
}

/* What the bytes begin as, whether they read or not. */
static unsigned kind_of(const uint8_t *bytes, size_t size)
{
    if (size < YELANSUB_CLEAR_BYTES(0) || get_int(bytes) != YELANSUB_MESSAGE_VERSION)
        return TAKE_OTHER;
    if (get_int(bytes + 4) == YELANSUB_MESSAGE_INCREMENT)
        return TAKE_INCREMENT;
    if (get_int(bytes + 4) != YELANSUB_MESSAGE_CLEAR)
        return TAKE_OTHER;
    return get_int(bytes + 24) == r ? TAKE_FULL_CLEAR : TAKE_CLEAR;
}

static void try_take(void)
{
    uint8_t bytes[2 * YELANSUB_LONGEST_MESSAGE] = {0}, *at = bytes;
    uint64_t sender = r > 1 && percent(95) ? (own + 1 + below(r - 1)) % r : below(YELANSUB_MOST_CARDS + 1);
    uint64_t counter = percent(86) ? below(k) : percent(70) ? k - 1 : below(YELANSUB_MOST_COUNTERS + 2);
    uint64_t had = get(messages_at(sender));
    uint64_t sequence = percent(88) ? had + 1 : percent(50) ? had : odd(had);
    uint64_t kind = percent(60) ? YELANSUB_MESSAGE_CLEAR : YELANSUB_MESSAGE_INCREMENT;
    int plain = percent(2);
    at = put_int(at, plain ? YELANSUB_MESSAGE_VERSION_1 : percent(99) ? YELANSUB_MESSAGE_VERSION : odd(2));
    at = put_int(at, percent(99) ? kind : odd(kind));
    at = put_int(at, percent(99) ? sender : odd(sender));
    at = put_hyper(at, percent(99) ? sequence : odd(sequence));
    at = put_int(at, percent(99) ? counter : odd(counter));
    at = kind == YELANSUB_MESSAGE_CLEAR ? put_clear(at, counter, sender) : put_increment(at, sender, plain);
    size_t size = (size_t)(at - bytes);
    if (percent(3))
        bytes[below(size)] ^= (uint8_t)(1 << below(8));
    if (percent(3))
        size = percent(50) ? below(size + 1) : size + between(1, 20);
    uint8_t *message = size ? malloc(size) : NULL;
    if (size)
        memcpy(message, bytes, size);
    unsigned taking = kind_of(bytes, size);
    struct yelansub_taken answer[SIDES];
    keep();
    for (int side = 0; side < SIDES; side++)
        answer[side] = sides[side].take(words[side], len, message, size);
    if (!same(&answer[LIBRARY], &answer[PEER], sizeof *answer))
        fail(taking, "answers differ");
    if (!same(message, bytes, size))
        fail(taking, "the message changed");
    check(taking, answer[PEER].number, taking == TAKE_OTHER ? NO_COUNTER : get_int(bytes + 20));
    free(message);
}

/* Every number that a call can answer was met, and every case; and no other. */
static void all_met(unsigned long calls)
{
    for (unsigned kind = 0; kind < KINDS; kind++) {
        unsigned can[NUMBERS] = {[YELANSUB_OK] = kind != TAKE_OTHER};
        for (const unsigned *number = kinds[kind].numbers; *number; number++)
            can[*number] = 1;
        for (unsigned number = 0; number < NUMBERS; number++) {
            if ((met[kind][number] > 0) != can[number]) {
                fprintf(stderr, "peer: %s: %u answered %lu times\n", kinds[kind].name, number, met[kind][number]);
                exit(1);
            }
        }
        if (can[YELANSUB_OK] && met[kind][YELANSUB_OK] < calls / 1000)
            fail(kind, "hardly ever accepted");
        for (unsigned one = 0; one < CASES; one++) {
            if ((came[kind][one] > 0) != (kinds[kind].cases >> one & 1)) {
                fprintf(stderr, "peer: %s: %s %lu times\n", kinds[kind].name, cases[one], came[kind][one]);
                exit(1);
            }
        }
    }
}

int main(int argc, char **argv)
{
    unsigned long calls = argc > 1 ? strtoul(argv[1], NULL, 10) : 2000000, accepted = 0;
    random_state = argc > 2 ? strtoul(argv[2], NULL, 10) : 1;
    for (unsigned long call = 0; call < calls; call++) {
        if (call % 16 == 0)
            new_replica();
        else if (percent(3))
            damage();
        switch (below(17)) {
        case 0: try_open(); break;
        case 1: case 2: try_read(); break;
        case 3: case 4: try_send(COUNT); break;
        case 5: try_send(CLEAR); break;
        case 6: try_send(READ_AND_CLEAR); break;
        case 7: try_active_counters(); break;
        default: try_take(); break;
        }
    }
    drop_replica();
    all_met(calls);
    for (unsigned kind = 0; kind < KINDS; kind++)
        accepted += met[kind][YELANSUB_OK];
    printf("peer: %lu calls answered alike, %lu of them accepted, every refusal and case of bits of every call met\n",
           calls, accepted);
    return 0;
}
