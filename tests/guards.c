/*
 * Every export with its buffers between pages that may not be touched, first up
 * against the page before, then against the page after, so that one byte read or
 * written outside stops the program; marked bytes fill the rest. Refused calls
 * must write nothing. Built with AddressSanitizer by tests/guards.sh.
 */
#define _DEFAULT_SOURCE
#include <stdio.h>
#include <stdlib.h>
#include <string.h>
#include <sys/mman.h>

#include "yelansub.h"

enum { PAGE = 4096, MARK = 0xa5 };

/* Where words of a replica stand: the head, C of each card, N of each card, then the counters' rows
   of one entry for each card. How many words each part has follows from the header's macro. */
enum { CARDS_AT, COUNTERS_AT, OWN_AT, ACTIVE_AT };
enum { P, N, C };
enum { HEAD_WORDS = YELANSUB_REPLICA_WORDS(0, 0) };
enum { ENTRY_WORDS = YELANSUB_REPLICA_WORDS(1, 1) - YELANSUB_REPLICA_WORDS(1, 0) };

static size_t increments_at(size_t card)
{
    return HEAD_WORDS + card;
}

static size_t messages_at(size_t cards, size_t card)
{
    return HEAD_WORDS + cards + card;
}

static size_t entry_at(size_t cards, size_t counter, size_t card)
{
    return YELANSUB_REPLICA_WORDS(cards, counter) + ENTRY_WORDS * card;
}

static const char *doing = "start";
static unsigned checks;

static void hold(int condition, int line)
{
    checks++;
    if (!condition) {
        fprintf(stderr, "guards.c:%d: %s\n", line, doing);
        exit(1);
    }
}
#define HOLD(condition) hold((condition), __LINE__)

/* One buffer of len bytes at the start or the end of its pages. */
struct area {
    unsigned char *pages;
    size_t size, len, offset;
    unsigned char *before; /* all of it as it was at keep() */
};

static struct area area(size_t len, int at_end)
{
    struct area a = {.len = len, .size = (len / PAGE + 1) * PAGE};
    unsigned char *all = mmap(NULL, a.size + 2 * PAGE, PROT_NONE, MAP_PRIVATE | MAP_ANONYMOUS, -1, 0);
    if (all == MAP_FAILED || mprotect(all + PAGE, a.size, PROT_READ | PROT_WRITE) != 0) {
        perror("mmap");
        exit(1);
    }
    a.pages = all + PAGE;
    a.offset = at_end ? a.size - len : 0;
    a.before = malloc(a.size);
    memset(a.pages, MARK, a.size);
    return a;
}

static void drop(struct area *a)
{
    munmap(a->pages - PAGE, a->size + 2 * PAGE);
    free(a->before);
}

static void *in(const struct area *a)
{
    return a->pages + a->offset;
}

static void keep(struct area *a)
{
    memcpy(a->before, a->pages, a->size);
}

static int unchanged(const struct area *a)
{
    return memcmp(a->before, a->pages, a->size) == 0;
}

/* Nothing outside the buffer's first `written` bytes has changed. */
static int only(const struct area *a, size_t written)
{
    return memcmp(a->before, a->pages, a->offset) == 0 &&
           memcmp(a->before + a->offset + written, a->pages + a->offset + written,
                  a->size - a->offset - written) == 0;
}

static uint64_t random_state = 1;

/* A number below that bound. No expression draws twice but in an order that C fixes, so that every compiler's program
   makes the same checks. */
static uint64_t any(uint64_t below)
{
    random_state = random_state * UINT64_C(6364136223846793005) + UINT64_C(1442695040888963407);
    return (random_state >> 33) % below;
}

static void flip_any_bit(uint8_t *bytes, uint64_t len)
{
    uint64_t at = any(len), bit = any(8);
    bytes[at] ^= (uint8_t)(1 << bit);
}

static const struct yelansub_message no_message;

/* An increment, or a clear of `entries` cards from 0 on, its fields as large as they may be. */
static struct yelansub_message message_of(unsigned version, unsigned kind, size_t entries)
{
    struct yelansub_message m = {.version = version, .kind = kind};
    m.sender = YELANSUB_MOST_CARDS - 1;
    m.sequence = YELANSUB_MAX;
    m.counter = YELANSUB_MOST_COUNTERS - 1;
    if (kind == YELANSUB_MESSAGE_INCREMENT) {
        m.p = YELANSUB_MAX;
        m.start = 1;
        m.amount = version == YELANSUB_MESSAGE_VERSION_1 ? 0 : YELANSUB_MOST_AMOUNT;
    }
    for (m.len = 0; m.len < entries; m.len++)
        m.entries[m.len] = (struct yelansub_clear_entry){(uint32_t)m.len, 1 + m.len, YELANSUB_MAX - m.len};
    return m;
}

static uint8_t *put_int(uint8_t *at, uint32_t number)
{
    for (int shift = 24; shift >= 0; shift -= 8)
        *at++ = (uint8_t)(number >> shift);
    return at;
}

static uint8_t *put_hyper(uint8_t *at, uint64_t number)
{
    return put_int(put_int(at, (uint32_t)(number >> 32)), (uint32_t)number);
}

static uint8_t *put_header(uint8_t *at, const struct yelansub_message *m)
{
    at = put_int(at, m->version);
    at = put_int(at, m->kind);
    at = put_int(at, m->sender);
    at = put_hyper(at, m->sequence);
    return put_int(at, m->counter);
}

/* The bytes of a message, its fields in range or not; gives how many. What is no increment is
   written as a clear; an entry more than there are is the first again. In version 1 there is no
   amount. */
static size_t put_message(uint8_t *out, const struct yelansub_message *m)
{
    uint8_t *at = put_header(out, m);
    if (m->kind == YELANSUB_MESSAGE_INCREMENT) {
        at = put_int(put_hyper(at, m->p), m->start);
        return (size_t)((m->version == YELANSUB_MESSAGE_VERSION_1 ? at : put_int(at, m->amount)) - out);
    }
    at = put_int(at, (uint32_t)m->len);
    for (size_t i = 0; i < m->len; i++) {
        const struct yelansub_clear_entry *entry = &m->entries[i % YELANSUB_MOST_CARDS];
        at = put_hyper(put_hyper(put_int(at, entry->card), entry->p), entry->c);
    }
    return (size_t)(at - out);
}

/* The same in every field; what lies between fields says nothing. */
static int same(const struct yelansub_message *a, const struct yelansub_message *b)
{
    int fields = a->version == b->version && a->kind == b->kind && a->sender == b->sender &&
                 a->sequence == b->sequence && a->counter == b->counter && a->p == b->p &&
                 a->start == b->start && a->amount == b->amount && a->len == b->len;
    for (size_t i = 0; i < YELANSUB_MOST_CARDS; i++)
        fields = fields && a->entries[i].card == b->entries[i].card &&
                 a->entries[i].p == b->entries[i].p && a->entries[i].c == b->entries[i].c;
    return fields;
}

/* The kinds of step that make a message. */
static const unsigned making[] = {YELANSUB_STEP_COUNT, YELANSUB_STEP_CLEAR, YELANSUB_STEP_READ_AND_CLEAR};
enum { MAKING = sizeof making / sizeof *making };

/* The call of that kind; one that reads no value gives 0, and only a count looks at the amount. */
static struct yelansub_cleared make_by(unsigned kind, uint64_t *words, size_t len, uint64_t counter, uint64_t amount,
                                       uint8_t *out, size_t room)
{
    if (kind == YELANSUB_STEP_READ_AND_CLEAR)
        return yelansub_read_and_clear(words, len, counter, out, room);
    struct yelansub_sent sent = kind == YELANSUB_STEP_COUNT ? yelansub_count(words, len, counter, amount, out, room)
                                                            : yelansub_clear(words, len, counter, out, room);
    return (struct yelansub_cleared){sent.number, 0, sent.sequence, sent.length};
}

static struct yelansub_cleared make(unsigned kind, uint64_t *words, size_t len, uint64_t counter, uint8_t *out,
                                    size_t room)
{
    return make_by(kind, words, len, counter, 1, out, room);
}

static int refused(struct yelansub_cleared made, uint64_t number)
{
    return made.number == number && !made.value && !made.sequence && !made.length;
}

static int none_delivered(struct yelansub_delivered delivered, uint64_t number)
{
    return delivered.number == number && !delivered.deliveries;
}

/* The active counters are these; refused with 1. */
static int active(const uint64_t *words, size_t len, uint64_t counters)
{
    struct yelansub_active answer = yelansub_active_counters(words, len);
    return answer.number == YELANSUB_OK && answer.counters == counters;
}

static int no_active(const uint64_t *words, size_t len)
{
    struct yelansub_active answer = yelansub_active_counters(words, len);
    return answer.number == YELANSUB_BAD_REPLICA && !answer.counters;
}

/* They are those that reads find, each of which is accepted. */
static int active_by_reads(const uint64_t *words, size_t len, uint64_t counters)
{
    uint64_t found = 0;
    for (uint64_t counter = 0; counter < counters; counter++) {
        struct yelansub_reading reading = yelansub_read(words, len, counter);
        if (reading.number != YELANSUB_OK)
            return 0;
        found |= (uint64_t)(reading.holders != 0) << counter;
    }
    return active(words, len, found);
}

/* Words as a library without the active counters stored them are refused; brought over by the lines
   that the header has at yelansub_open, they are these words. */
static void brought_over(const uint64_t *due, uint64_t r, uint64_t k, int at_end)
{
    size_t words_len = YELANSUB_REPLICA_WORDS(r, k);
    struct area old = area((words_len - 1) * sizeof *due, at_end), w = area(words_len * sizeof *due, at_end);
    uint64_t *words = in(&w);
    memcpy(in(&old), due, ACTIVE_AT * sizeof *due);
    memcpy((uint64_t *)in(&old) + ACTIVE_AT, due + HEAD_WORDS, (words_len - HEAD_WORDS) * sizeof *due);
    keep(&old);
    HOLD(no_active(in(&old), words_len - 1) && unchanged(&old));
    memcpy(words, in(&old), old.len);
    memmove(words + 4, words + 3, (words_len - 4) * sizeof *words);
    words[3] = 0;
    for (uint64_t q = 0; q < k; q++)
        for (uint64_t j = 0; j < r; j++)
            if (words[YELANSUB_REPLICA_WORDS(r, q) + 3 * j] != 0)
                words[3] |= (uint64_t)1 << q;
    HOLD(memcmp(words, due, w.len) == 0);
    drop(&old);
    drop(&w);
}

/* The calls that convert a log, and the versions from and to which. */
static const struct {
    struct yelansub_written (*call)(const uint8_t *, size_t, uint8_t *, size_t);
    unsigned from, to;
} converting[] = {
    {yelansub_to_version_2, YELANSUB_MESSAGE_VERSION_1, YELANSUB_MESSAGE_VERSION},
    {yelansub_to_version_1, YELANSUB_MESSAGE_VERSION, YELANSUB_MESSAGE_VERSION_1},
};
enum { CONVERTING = sizeof converting / sizeof *converting };

#define LAST_ANSWER YELANSUB_ABOVE_ONE /* the greatest number there is */
static unsigned converted[CONVERTING][LAST_ANSWER + 1]; /* how often each of them gave each number */

/* Null and a pointer to nothing, with length 0, for every buffer of every export. */
static void no_memory(void)
{
    struct area page = area(0, 1);
    void *nothing[2] = {NULL, in(&page)};
    uint64_t fresh[YELANSUB_REPLICA_WORDS(2, 1)];
    size_t len = sizeof fresh / sizeof *fresh;
    uint64_t both[2 * YELANSUB_REPLICA_WORDS(2, 1)];
    doing = "length 0";
    HOLD(yelansub_open(fresh, len, 2, 1, 0) == YELANSUB_OK);
    keep(&page);
    for (int i = 0; i < 2; i++) {
        void *p = nothing[i];
        HOLD(yelansub_open(p, 0, 1, 1, 0) == YELANSUB_BAD_REPLICA);
        struct yelansub_reading reading = yelansub_read(p, 0, 0);
        HOLD(reading.number == YELANSUB_BAD_REPLICA && !reading.value && !reading.holders && !reading.holder_count);
        HOLD(no_active(p, 0));
        for (size_t of = 0; of < MAKING; of++) {
            HOLD(refused(make(making[of], p, 0, 0, p, 0), YELANSUB_BAD_REPLICA));
            HOLD(refused(make(making[of], fresh, len, 0, p, 0), YELANSUB_SHORT_OUTPUT));
        }
        struct yelansub_taken taken = yelansub_take(p, 0, p, 0);
        HOLD(taken.number == YELANSUB_BAD_REPLICA && !taken.sequence);
        HOLD(yelansub_take(fresh, len, p, 0).number == YELANSUB_UNREADABLE);
        struct yelansub_message_reading read = yelansub_read_message(p, 0);
        HOLD(read.number == YELANSUB_UNREADABLE && same(&read.message, &no_message));
        struct yelansub_written written = yelansub_write_message(
            message_of(YELANSUB_MESSAGE_VERSION, YELANSUB_MESSAGE_CLEAR, 0), p, 0);
        HOLD(written.number == YELANSUB_SHORT_OUTPUT && !written.length);
        written = yelansub_write_message(no_message, p, 0);
        HOLD(written.number == YELANSUB_UNREADABLE && !written.length);
        for (size_t of = 0; of < CONVERTING; of++) {
            written = converting[of].call(p, 0, p, 0);
            HOLD(written.number == YELANSUB_OK && !written.length);
            uint8_t bytes[YELANSUB_CLEAR_BYTES(0)];
            struct yelansub_message clear = message_of(converting[of].from, YELANSUB_MESSAGE_CLEAR, 0);
            HOLD(put_message(bytes, &clear) == sizeof bytes);
            written = converting[of].call(bytes, sizeof bytes, p, 0);
            HOLD(written.number == YELANSUB_SHORT_OUTPUT && !written.length);
            written = converting[of].call(p, 0, bytes, sizeof bytes);
            HOLD(written.number == YELANSUB_OK && !written.length);
        }
        struct yelansub_span span = yelansub_waiting(p, 0, 1);
        HOLD(span.start == 0 && span.length == 0);
        span = yelansub_waiting(p, 0, 0);
        HOLD(span.start == 0 && span.length == 0);
        HOLD(yelansub_run(1, 1, 0, p, 0, p, 0, p, 0, p, 0) == YELANSUB_BAD_SIZES);
        HOLD(yelansub_run(2, 1, 0, p, 0, both, 2 * len, p, 0, p, 0) == YELANSUB_OK);
        /* Two logs of 2^63 bytes: the product wraps to 0. */
        HOLD(yelansub_run(2, 1, UINT64_C(1) << 63, p, 0, both, 2 * len, p, 0, p, 0) == YELANSUB_BAD_SIZES);
        HOLD(yelansub_run_records(2, 1, UINT64_C(1) << 63, p, 0, both, 2 * len, p, 0, p, 0) == YELANSUB_BAD_SIZES);
        HOLD(yelansub_run_records(1, 1, 0, p, 0, p, 0, p, 0, p, 0) == YELANSUB_BAD_SIZES);
        HOLD(yelansub_run_records(2, 1, 0, p, 0, both, 2 * len, p, 0, p, 0) == YELANSUB_OK);
        HOLD(none_delivered(yelansub_deliver_pending(1, 1, 0, 1, p, 0, p, 0), YELANSUB_BAD_SIZES));
        HOLD(none_delivered(yelansub_deliver_pending(2, 1, 0, 1, both, 2 * len, p, 0), YELANSUB_OK));
        HOLD(none_delivered(yelansub_deliver_pending(2, 1, UINT64_C(1) << 63, 1, both, 2 * len, p, 0),
                            YELANSUB_BAD_SIZES));
    }
    HOLD(unchanged(&page));
    drop(&page);
}

/* Words that open takes for no replica, their length fitting r and k: every call gives 1. */
static void refused_head(uint64_t cards, uint64_t counters, uint64_t own, size_t len, int at_end)
{
    struct area w = area(len * sizeof(uint64_t), at_end), o = area(YELANSUB_LONGEST_MESSAGE, at_end);
    uint64_t *words = in(&w);
    keep(&w);
    keep(&o);
    doing = "open with wrong numbers";
    HOLD(yelansub_open(words, len, cards, counters, own) == YELANSUB_BAD_REPLICA && unchanged(&w));
    memset(words, 0, w.len);
    if (len >= HEAD_WORDS) {
        words[CARDS_AT] = cards;
        words[COUNTERS_AT] = counters;
        words[OWN_AT] = own;
    }
    keep(&w);
    doing = "calls on words with a wrong head";
    struct yelansub_reading reading = yelansub_read(words, len, 0);
    HOLD(reading.number == YELANSUB_BAD_REPLICA && !reading.value && !reading.holders && !reading.holder_count);
    HOLD(no_active(words, len));
    for (size_t of = 0; of < MAKING; of++)
        HOLD(refused(make(making[of], words, len, 0, in(&o), o.len), YELANSUB_BAD_REPLICA));
    struct yelansub_taken taken = yelansub_take(words, len, in(&o), o.len);
    HOLD(taken.number == YELANSUB_BAD_REPLICA && !taken.sequence);
    HOLD(unchanged(&w) && unchanged(&o));
    drop(&w);
    drop(&o);
}

static void refused_heads(int at_end)
{
    enum { R = YELANSUB_MOST_CARDS, K = YELANSUB_MOST_COUNTERS };
    struct { uint64_t cards, counters, own; } wrong[] = {
        {0, 1, 0}, {1, 0, 0}, {0, 0, 0}, {1, 1, 1}, {2, 1, 2}, {R, K, R}, {1, 1, UINT64_MAX},
        {R + 1, 1, 0}, {1, K + 1, 0}, {R + 1, K, 0}, {R, K + 1, 0},
        /* Sums that wrap, to the head alone and to one word more. */
        {UINT64_C(1) << 63, 2, 0}, {UINT64_C(0xcccccccccccccccd), 1, 0},
    };
    for (size_t i = 0; i < sizeof wrong / sizeof *wrong; i++)
        refused_head(wrong[i].cards, wrong[i].counters, wrong[i].own,
                     YELANSUB_REPLICA_WORDS(wrong[i].cards, wrong[i].counters), at_end);
    /* A word too few, a word too many, and at most a head. */
    refused_head(2, 1, 0, YELANSUB_REPLICA_WORDS(2, 1) - 1, at_end);
    refused_head(2, 1, 0, YELANSUB_REPLICA_WORDS(2, 1) + 1, at_end);
    for (size_t len = 0; len <= HEAD_WORDS; len++)
        refused_head(1, 1, 0, len, at_end);
}

/* The active counters of a replica of these sizes and of every shorter length, and of one word more. But for its head
   it holds nothing that is a row. */
static void active_of(uint64_t cards, uint64_t counters, int at_end)
{
    size_t whole = YELANSUB_REPLICA_WORDS(cards, counters);
    uint64_t all = UINT64_MAX >> (64 - counters), first = counters < 64 ? all + 1 : 0;
    doing = "active counters";
    for (size_t len = 0; len <= whole + 1; len++) {
        struct area w = area(len * sizeof(uint64_t), at_end);
        uint64_t *words = in(&w);
        const uint64_t head[HEAD_WORDS] = {cards, counters, cards - 1, all};
        for (size_t i = 0; i < HEAD_WORDS && i < len; i++)
            words[i] = head[i];
        keep(&w);
        HOLD(len == whole ? active(words, len, all) : no_active(words, len));
        HOLD(unchanged(&w));
        drop(&w);
    }
    struct area w = area(whole * sizeof(uint64_t), at_end);
    uint64_t *words = in(&w);
    words[CARDS_AT] = cards;
    words[COUNTERS_AT] = counters;
    words[OWN_AT] = 0;
    const uint64_t right[] = {0, 1, all, all ^ 1, all ^ all >> 1};
    for (size_t i = 0; i < sizeof right / sizeof *right; i++) {
        words[ACTIVE_AT] = right[i];
        keep(&w);
        HOLD(active(words, whole, right[i]) && unchanged(&w));
    }
    for (uint64_t bit = first; bit != 0; bit <<= 1) { /* none where there are 64 counters */
        words[ACTIVE_AT] = bit | all;
        keep(&w);
        HOLD(no_active(words, whole) && unchanged(&w));
    }
    drop(&w);
}

/* Refusals of the calls on card 0 of two with one counter, one word of its fresh replica changed. */
enum { CARDS = 2, WORDS = YELANSUB_REPLICA_WORDS(CARDS, 1) };

struct change {
    size_t at;
    uint64_t to;
};
#define SET(at, to) ((struct change){(at), (to)})

static struct area opened(struct change change, int at_end)
{
    struct area w = area(WORDS * sizeof(uint64_t), at_end);
    HOLD(yelansub_open(in(&w), WORDS, CARDS, 1, 0) == YELANSUB_OK);
    ((uint64_t *)in(&w))[change.at] = change.to;
    keep(&w);
    return w;
}

static void refused_send(int at_end, struct change change, uint64_t counter, size_t room, uint64_t number)
{
    struct area w = opened(change, at_end), o = area(room, at_end);
    uint64_t *words = in(&w);
    keep(&o);
    doing = "refused count, clear and read";
    for (size_t of = 0; of < MAKING; of++) {
        /* A clear of nothing is shorter than an increment. */
        size_t bytes = making[of] == YELANSUB_STEP_COUNT ? YELANSUB_INCREMENT_BYTES : YELANSUB_CLEAR_BYTES(0);
        if (number != YELANSUB_SHORT_OUTPUT || room < bytes)
            HOLD(refused(make(making[of], words, WORDS, counter, in(&o), room), number));
    }
    int reads = number == YELANSUB_EXHAUSTED || number == YELANSUB_SHORT_OUTPUT;
    struct yelansub_reading r = yelansub_read(words, WORDS, counter);
    HOLD(r.number == (reads ? YELANSUB_OK : number) && !r.value && !r.holders && !r.holder_count);
    HOLD(number == YELANSUB_BAD_REPLICA ? no_active(words, WORDS) : active(words, WORDS, words[ACTIVE_AT]));
    HOLD(unchanged(&w) && unchanged(&o));
    drop(&w);
    drop(&o);
}

static void refused_take(int at_end, struct change change, struct yelansub_message message, uint64_t number)
{
    uint8_t bytes[YELANSUB_CLEAR_BYTES(YELANSUB_MOST_CARDS + 1)];
    struct area w = opened(change, at_end), m = area(put_message(bytes, &message), at_end);
    memcpy(in(&m), bytes, m.len);
    keep(&m);
    doing = "refused take";
    struct yelansub_taken taken = yelansub_take(in(&w), WORDS, in(&m), m.len);
    HOLD(taken.number == number && taken.sequence == 0);
    HOLD(unchanged(&w) && unchanged(&m));
    drop(&w);
    drop(&m);
}

/* Card 0 of two with one counter and an entry of this card, but not the counter's bit: every call is refused with 2.
   With the bit every call is accepted. */
static void entry_without_bit(unsigned card, int at_end)
{
    static const struct yelansub_message messages[] = {
        {.version = YELANSUB_MESSAGE_VERSION, .kind = YELANSUB_MESSAGE_INCREMENT, .sender = 1, .sequence = 1, .p = 1,
         .start = 1, .amount = 1},
        {.version = YELANSUB_MESSAGE_VERSION, .kind = YELANSUB_MESSAGE_CLEAR, .sender = 1, .sequence = 1}};
    for (uint64_t bit = 0; bit < 2; bit++)
        for (size_t call = 0; call < MAKING + 3; call++) {
            struct area w = opened(SET(ACTIVE_AT, bit), at_end), o = area(YELANSUB_LONGEST_MESSAGE, at_end);
            uint64_t *words = in(&w), number, due = bit ? YELANSUB_OK : YELANSUB_BAD_ROW;
            words[entry_at(CARDS, 0, card) + P] = words[entry_at(CARDS, 0, card) + C] = 9;
            words[increments_at(0)] = card == 0 ? 9 : 0;
            keep(&o);
            doing = "calls on an entry with and without its bit";
            if (call < MAKING) {
                keep(&w);
                number = make(making[call], words, WORDS, 0, in(&o), o.len).number;
                HOLD(number == YELANSUB_OK || unchanged(&o));
            } else if (call < MAKING + 2) {
                o.len = put_message(in(&o), &messages[call - MAKING]);
                keep(&w);
                keep(&o);
                number = yelansub_take(words, WORDS, in(&o), o.len).number;
                HOLD(unchanged(&o));
            } else {
                keep(&w);
                number = yelansub_read(words, WORDS, 0).number;
            }
            HOLD(number == due && (number == YELANSUB_OK ? only(&w, w.len) : unchanged(&w)));
            /* A clear takes away what this card has counted, and not what has still to come. */
            int gone = bit && card == 0 && 0 < call && call < MAKING;
            HOLD(active(words, WORDS, gone ? 0 : bit));
            drop(&w);
            drop(&o);
        }
}

/* Counts on card 0 of two, each by an amount that is none or that there is no room for. */
static void refused_counts(int at_end)
{
    static const uint64_t wrong[] = {0, YELANSUB_MOST_AMOUNT + 1, UINT32_MAX, UINT64_C(1) << 32,
                                     (UINT64_C(1) << 32) + 1, UINT64_MAX};
    static const uint64_t right[] = {1, 2, YELANSUB_MOST_AMOUNT};
    const struct change changes[] = {
        {CARDS_AT, CARDS}, {entry_at(CARDS, 0, 0) + P, 1}, {messages_at(CARDS, 0), YELANSUB_MAX}};
    struct area o = area(YELANSUB_INCREMENT_BYTES, at_end);
    keep(&o);
    doing = "count by a wrong amount";
    for (size_t i = 0; i < sizeof wrong / sizeof *wrong; i++)
        for (size_t of = 0; of < sizeof changes / sizeof *changes; of++) { /* before 2, 4 and 5 */
            struct area w = opened(changes[of], at_end);
            HOLD(refused(make_by(YELANSUB_STEP_COUNT, in(&w), WORDS, 0, wrong[i], in(&o), of == 0 ? 0 : o.len),
                         YELANSUB_BAD_AMOUNT));
            HOLD(refused(make_by(YELANSUB_STEP_COUNT, in(&w), WORDS, 1, wrong[i], in(&o), o.len),
                         YELANSUB_BAD_COUNTER));
            HOLD(unchanged(&w) && unchanged(&o));
            drop(&w);
        }
    doing = "count of the last units";
    for (size_t i = 0; i < sizeof right / sizeof *right; i++)
        for (uint64_t over = 0; over < 2; over++) {
            struct area w = opened(SET(increments_at(0), YELANSUB_MAX - right[i] + over), at_end);
            struct area m = area(YELANSUB_INCREMENT_BYTES, at_end);
            keep(&m);
            struct yelansub_cleared made = make_by(YELANSUB_STEP_COUNT, in(&w), WORDS, 0, right[i], in(&m), m.len);
            if (over)
                HOLD(refused(made, YELANSUB_EXHAUSTED) && unchanged(&w) && unchanged(&m));
            else
                HOLD(made.number == YELANSUB_OK && only(&w, w.len) && only(&m, m.len) &&
                     ((uint64_t *)in(&w))[increments_at(0)] == YELANSUB_MAX);
            drop(&w);
            drop(&m);
        }
    drop(&o);
}

static void refusals(int at_end)
{
    const size_t c0 = increments_at(0), c1 = increments_at(1);
    const size_t n0 = messages_at(CARDS, 0), n1 = messages_at(CARDS, 1);
    const size_t entry0 = entry_at(CARDS, 0, 0), entry1 = entry_at(CARDS, 0, 1);
    const size_t any_room = YELANSUB_LONGEST_MESSAGE;
    const struct change none = {CARDS_AT, CARDS};
    refused_send(at_end, SET(CARDS_AT, 0), 0, any_room, YELANSUB_BAD_REPLICA);
    refused_send(at_end, SET(CARDS_AT, CARDS + 1), 0, any_room, YELANSUB_BAD_REPLICA);
    refused_send(at_end, SET(COUNTERS_AT, 0), 0, any_room, YELANSUB_BAD_REPLICA);
    refused_send(at_end, SET(COUNTERS_AT, 2), 0, any_room, YELANSUB_BAD_REPLICA);
    refused_send(at_end, SET(OWN_AT, CARDS), 0, any_room, YELANSUB_BAD_REPLICA);
    refused_send(at_end, SET(ACTIVE_AT, 2), 0, any_room, YELANSUB_BAD_REPLICA); /* a counter that there is not */
    refused_send(at_end, SET(ACTIVE_AT, UINT64_C(1) << 63), 0, any_room, YELANSUB_BAD_REPLICA);
    refused_send(at_end, SET(ACTIVE_AT, UINT64_MAX), 1, 0, YELANSUB_BAD_REPLICA); /* before 3, 2 and 5 */
    refused_send(at_end, none, 1, any_room, YELANSUB_BAD_COUNTER);
    refused_send(at_end, none, UINT64_MAX, any_room, YELANSUB_BAD_COUNTER);
    refused_send(at_end, SET(c0, YELANSUB_MAX + 1), 0, any_room, YELANSUB_BAD_ROW);
    refused_send(at_end, SET(c1, YELANSUB_MAX + 1), 0, any_room, YELANSUB_BAD_ROW);
    refused_send(at_end, SET(n0, YELANSUB_MAX + 1), 0, any_room, YELANSUB_BAD_ROW);
    refused_send(at_end, SET(n1, YELANSUB_MAX + 1), 0, any_room, YELANSUB_BAD_ROW);
    refused_send(at_end, SET(entry0 + P, 1), 0, any_room, YELANSUB_BAD_ROW); /* p above c */
    refused_send(at_end, SET(entry1 + P, 1), 0, any_room, YELANSUB_BAD_ROW);
    refused_send(at_end, SET(entry1 + N, 1), 0, any_room, YELANSUB_BAD_ROW); /* n above p */
    refused_send(at_end, SET(entry1 + C, 1), 0, any_room, YELANSUB_BAD_ROW); /* no p */
    refused_send(at_end, SET(ACTIVE_AT, 1), 0, any_room, YELANSUB_BAD_ROW);  /* no entry */
    refused_send(at_end, SET(ACTIVE_AT, 1), 0, 0, YELANSUB_BAD_ROW);         /* before 5 */
    refused_send(at_end, SET(ACTIVE_AT, 1), 1, any_room, YELANSUB_BAD_COUNTER);
    refused_send(at_end, SET(n0, YELANSUB_MAX), 0, any_room, YELANSUB_EXHAUSTED);
    refused_send(at_end, none, 0, YELANSUB_INCREMENT_BYTES - 1, YELANSUB_SHORT_OUTPUT);
    refused_send(at_end, none, 0, YELANSUB_CLEAR_BYTES(0) - 1, YELANSUB_SHORT_OUTPUT);
    refused_send(at_end, none, 0, 0, YELANSUB_SHORT_OUTPUT);

    /* Card 1's first message: an increment that would be taken, and a clear with an entry. */
    struct yelansub_message next = {.version = YELANSUB_MESSAGE_VERSION, .sender = 1, .sequence = 1};
    struct yelansub_message increment = next, clear = next, m;
    increment.kind = YELANSUB_MESSAGE_INCREMENT;
    increment.p = increment.start = increment.amount = 1;
    clear.kind = YELANSUB_MESSAGE_CLEAR;
    clear.len = 1;
    clear.entries[0] = (struct yelansub_clear_entry){1, 1, 1};
#define WITH(message, field, value) (m = (message), m.field = (value), m)
    refused_take(at_end, SET(CARDS_AT, CARDS + 1), increment, YELANSUB_BAD_REPLICA);
    refused_take(at_end, SET(ACTIVE_AT, 2), increment, YELANSUB_BAD_REPLICA);
    refused_take(at_end, SET(ACTIVE_AT, 3), WITH(clear, kind, 0), YELANSUB_BAD_REPLICA); /* before 6 */
    refused_take(at_end, SET(ACTIVE_AT, 1), increment, YELANSUB_BAD_ROW);
    refused_take(at_end, SET(ACTIVE_AT, 1), WITH(clear, len, 0), YELANSUB_BAD_ROW);
    refused_take(at_end, SET(ACTIVE_AT, 1), WITH(increment, sender, 0), YELANSUB_BAD_ROW); /* before 7 */
    refused_take(at_end, SET(ACTIVE_AT, 1), WITH(increment, counter, 1), YELANSUB_BAD_COUNTER);
    refused_take(at_end, SET(ACTIVE_AT, 1), WITH(increment, amount, 0), YELANSUB_UNREADABLE);
    refused_take(at_end, none, WITH(increment, version, YELANSUB_MESSAGE_VERSION + 1), YELANSUB_UNREADABLE);
    refused_take(at_end, none, WITH(increment, version, YELANSUB_MESSAGE_VERSION_1), YELANSUB_UNREADABLE);
    refused_take(at_end, none, WITH(clear, version, YELANSUB_MESSAGE_VERSION_1), YELANSUB_UNREADABLE);
    refused_take(at_end, none, WITH(clear, kind, 0), YELANSUB_UNREADABLE);
    refused_take(at_end, none, WITH(clear, kind, YELANSUB_MESSAGE_CLEAR + 1), YELANSUB_UNREADABLE);
    refused_take(at_end, none, WITH(increment, sender, YELANSUB_MOST_CARDS), YELANSUB_UNREADABLE);
    refused_take(at_end, none, WITH(increment, sequence, 0), YELANSUB_UNREADABLE);
    refused_take(at_end, none, WITH(increment, sequence, YELANSUB_MAX + 1), YELANSUB_UNREADABLE);
    refused_take(at_end, none, WITH(increment, counter, YELANSUB_MOST_COUNTERS), YELANSUB_UNREADABLE);
    refused_take(at_end, none, WITH(increment, p, 0), YELANSUB_UNREADABLE);
    refused_take(at_end, none, WITH(increment, p, YELANSUB_MAX + 1), YELANSUB_UNREADABLE);
    refused_take(at_end, none, WITH(increment, start, 2), YELANSUB_UNREADABLE);
    refused_take(at_end, none, WITH(increment, amount, 0), YELANSUB_UNREADABLE);
    refused_take(at_end, none, WITH(increment, amount, YELANSUB_MOST_AMOUNT + 1), YELANSUB_UNREADABLE);
    refused_take(at_end, none, WITH(increment, amount, UINT32_MAX), YELANSUB_UNREADABLE);
    refused_take(at_end, none, WITH(clear, entries[0].card, YELANSUB_MOST_CARDS), YELANSUB_UNREADABLE);
    refused_take(at_end, none, WITH(clear, entries[0].p, 0), YELANSUB_UNREADABLE);
    refused_take(at_end, none, WITH(clear, entries[0].p, 2), YELANSUB_UNREADABLE);
    refused_take(at_end, none, WITH(clear, entries[0].c, YELANSUB_MAX + 1), YELANSUB_UNREADABLE);
    refused_take(at_end, none, WITH(clear, len, 2), YELANSUB_UNREADABLE); /* card 0 after card 1 */
    struct yelansub_message full = message_of(YELANSUB_MESSAGE_VERSION, YELANSUB_MESSAGE_CLEAR, YELANSUB_MOST_CARDS);
    refused_take(at_end, none, WITH(full, len, YELANSUB_MOST_CARDS + 1), YELANSUB_UNREADABLE);
    refused_take(at_end, none, WITH(increment, counter, 1), YELANSUB_BAD_COUNTER);
    refused_take(at_end, none, WITH(increment, counter, YELANSUB_MOST_COUNTERS - 1), YELANSUB_BAD_COUNTER);
    refused_take(at_end, SET(c0, YELANSUB_MAX + 1), increment, YELANSUB_BAD_ROW);
    refused_take(at_end, none, WITH(increment, sender, 0), YELANSUB_BAD_CARD); /* the own card */
    refused_take(at_end, none, WITH(increment, sender, CARDS), YELANSUB_BAD_CARD);
    refused_take(at_end, none, WITH(increment, sender, YELANSUB_MOST_CARDS - 1), YELANSUB_BAD_CARD);
    refused_take(at_end, none, WITH(clear, entries[0].card, CARDS), YELANSUB_BAD_CARD);
    refused_take(at_end, SET(n1, 1), increment, YELANSUB_REPEATED);
    refused_take(at_end, SET(n1, YELANSUB_MAX), WITH(increment, sequence, YELANSUB_MAX), YELANSUB_REPEATED);
    refused_take(at_end, none, WITH(increment, sequence, 2), YELANSUB_EARLY);
    refused_take(at_end, none, WITH(increment, sequence, YELANSUB_MAX), YELANSUB_EARLY);
    refused_take(at_end, none, WITH(increment, p, 2), YELANSUB_IMPLAUSIBLE);
    refused_take(at_end, none, WITH(increment, p, YELANSUB_MAX), YELANSUB_IMPLAUSIBLE);
    refused_take(at_end, none, WITH(increment, start, 0), YELANSUB_IMPLAUSIBLE);
    refused_take(at_end, none, WITH(increment, amount, 2), YELANSUB_IMPLAUSIBLE);
    refused_take(at_end, none, WITH(increment, amount, YELANSUB_MOST_AMOUNT), YELANSUB_IMPLAUSIBLE);
    /* Card 1 has counted all but one, and would go on by two. */
    struct yelansub_message two = increment;
    two.start = 0;
    two.amount = 2;
    two.p = 3;
    refused_take(at_end, SET(c1, YELANSUB_MAX - 1), two, YELANSUB_IMPLAUSIBLE);
    refused_take(at_end, SET(c1, 9), WITH(two, p, 2), YELANSUB_IMPLAUSIBLE); /* p up to the amount */
    refused_take(at_end, none, clear, YELANSUB_IMPLAUSIBLE); /* of an increment that its sender has not made */
    refused_take(at_end, none, WITH(clear, entries[0].card, 0), YELANSUB_IMPLAUSIBLE); /* nor this card */
#undef WITH
}

/* Every message length of a version, with one byte of output too few, none to spare, and more. */
static void exact_messages(unsigned version, int at_end)
{
    size_t increment_bytes =
        version == YELANSUB_MESSAGE_VERSION_1 ? YELANSUB_PLAIN_INCREMENT_BYTES : YELANSUB_INCREMENT_BYTES;
    for (size_t entries = 0; entries <= YELANSUB_MOST_CARDS + 1; entries++) {
        int is_clear = entries <= YELANSUB_MOST_CARDS;
        struct yelansub_message message = is_clear ? message_of(version, YELANSUB_MESSAGE_CLEAR, entries)
                                                   : message_of(version, YELANSUB_MESSAGE_INCREMENT, 0);
        size_t bytes = is_clear ? YELANSUB_CLEAR_BYTES(entries) : increment_bytes;
        uint8_t due[YELANSUB_LONGEST_MESSAGE];
        doing = "the length of a message";
        HOLD(put_message(due, &message) == bytes);
        for (size_t room = bytes - 1; room <= bytes + 2; room++) {
            struct area m = area(room, at_end);
            doing = "write a message";
            keep(&m);
            struct yelansub_written written = yelansub_write_message(message, in(&m), room);
            if (room < bytes)
                HOLD(written.number == YELANSUB_SHORT_OUTPUT && !written.length && unchanged(&m));
            else
                HOLD(written.number == YELANSUB_OK && written.length == bytes && only(&m, bytes) &&
                     memcmp(in(&m), due, bytes) == 0);
            doing = "read a message";
            keep(&m);
            struct yelansub_message_reading read = yelansub_read_message(in(&m), room);
            HOLD(read.number == (room == bytes ? YELANSUB_OK : YELANSUB_UNREADABLE) && unchanged(&m));
            HOLD(same(&read.message, room == bytes ? &message : &no_message));
            drop(&m);
        }
    }
}

/* Each field out of range, and each that the version or the kind does not use not 0. */
static void refused_messages(int at_end)
{
    enum { LAST = YELANSUB_MOST_CARDS - 1 };
    struct yelansub_message increment = message_of(YELANSUB_MESSAGE_VERSION, YELANSUB_MESSAGE_INCREMENT, 0);
    struct yelansub_message clear = message_of(YELANSUB_MESSAGE_VERSION, YELANSUB_MESSAGE_CLEAR, 3);
    struct yelansub_message plain = message_of(YELANSUB_MESSAGE_VERSION_1, YELANSUB_MESSAGE_INCREMENT, 0);
    struct yelansub_message plain_clear = message_of(YELANSUB_MESSAGE_VERSION_1, YELANSUB_MESSAGE_CLEAR, 3);
    struct yelansub_message wrong[40];
    size_t n = 0;
#define WRONG(of, field, value) (wrong[n] = (of), wrong[n++].field = (value))
    WRONG(increment, version, YELANSUB_MESSAGE_VERSION + 1);
    WRONG(increment, version, YELANSUB_MESSAGE_VERSION_1); /* with an amount */
    WRONG(plain, version, YELANSUB_MESSAGE_VERSION);       /* without one */
    WRONG(plain, amount, 1);
    WRONG(plain_clear, amount, 1);
    WRONG(increment, kind, 0);
    WRONG(increment, kind, YELANSUB_MESSAGE_CLEAR + 1);
    WRONG(increment, sender, YELANSUB_MOST_CARDS);
    WRONG(increment, sequence, 0);
    WRONG(increment, sequence, YELANSUB_MAX + 1);
    WRONG(increment, counter, YELANSUB_MOST_COUNTERS);
    WRONG(increment, p, 0);
    WRONG(increment, p, YELANSUB_MAX + 1);
    WRONG(increment, start, 2);
    WRONG(increment, amount, 0);
    WRONG(increment, amount, YELANSUB_MOST_AMOUNT + 1);
    WRONG(increment, len, 1);
    WRONG(increment, len, SIZE_MAX);
    WRONG(increment, entries[0].card, 1);
    WRONG(increment, entries[LAST].c, 1);
    WRONG(clear, version, 0);
    WRONG(clear, kind, YELANSUB_MESSAGE_INCREMENT);
    WRONG(clear, p, 1);
    WRONG(clear, start, 1);
    WRONG(clear, amount, 1);
    WRONG(clear, len, 2);
    WRONG(clear, len, 4);
    WRONG(clear, len, YELANSUB_MOST_CARDS + 1);
    WRONG(clear, len, SIZE_MAX);
    WRONG(clear, entries[2].card, YELANSUB_MOST_CARDS);
    WRONG(clear, entries[2].card, 1);
    WRONG(clear, entries[0].p, 0);
    WRONG(clear, entries[1].p, clear.entries[1].c + 1);
    WRONG(clear, entries[1].c, YELANSUB_MAX + 1);
    WRONG(clear, entries[3].p, 1);
    WRONG(clear, entries[LAST].card, LAST);
#undef WRONG
    struct area o = area(YELANSUB_LONGEST_MESSAGE, at_end);
    keep(&o);
    doing = "refused message";
    for (size_t i = 0; i < n; i++)
        for (size_t room = 0; room <= o.len; room += o.len) {
            struct yelansub_written written = yelansub_write_message(wrong[i], in(&o), room);
            HOLD(written.number == YELANSUB_UNREADABLE && !written.length && unchanged(&o));
        }
    drop(&o);
}

/* Every card counts, card i by i + 1, one clears by this kind of step, all take: outputs as long as needed, or one or
   two bytes more. */
static void exact_buffers(unsigned cards, unsigned counters, unsigned clear, int at_end)
{
    size_t len = YELANSUB_REPLICA_WORDS(cards, counters);
    struct area w[YELANSUB_MOST_CARDS];
    unsigned counter = counters - 1;
    for (unsigned i = 0; i < cards; i++) {
        doing = "open";
        w[i] = area(len * sizeof(uint64_t), at_end);
        keep(&w[i]);
        HOLD(yelansub_open(in(&w[i]), len, cards, counters, i) == YELANSUB_OK && only(&w[i], w[i].len));
    }
    for (unsigned made = 0; made <= cards; made++) {
        doing = "read of what all have counted";
        for (unsigned i = 0; i < cards; i++) {
            struct yelansub_reading reading = yelansub_read(in(&w[i]), len, counter);
            HOLD(reading.number == YELANSUB_OK && reading.value == made * (made + 1) / 2);
            HOLD(reading.holder_count == made);
            HOLD(reading.holders == (UINT64_C(1) << made) - 1);
            keep(&w[i]);
            HOLD(active(in(&w[i]), len, (uint64_t)(made > 0) << counter) && unchanged(&w[i]));
        }
        unsigned maker = made % cards;
        size_t bytes = made < cards ? YELANSUB_INCREMENT_BYTES : YELANSUB_CLEAR_BYTES(cards);
        size_t room = bytes + made % 3;
        struct area m = area(room, at_end);
        unsigned kind = made < cards ? YELANSUB_STEP_COUNT : clear;
        keep(&m);
        keep(&w[maker]);
        doing = "count and clear";
        struct yelansub_cleared sent = make_by(kind, in(&w[maker]), len, counter, maker + 1, in(&m), room);
        HOLD(sent.number == YELANSUB_OK && sent.length == bytes && only(&m, bytes) && only(&w[maker], w[maker].len));
        HOLD(sent.value == (kind == YELANSUB_STEP_READ_AND_CLEAR ? cards * (cards + 1) / 2 : 0));
        doing = "take";
        keep(&m);
        for (unsigned to = 0; to < cards; to++) {
            keep(&w[to]);
            struct yelansub_taken taken = yelansub_take(in(&w[to]), len, in(&m), bytes);
            HOLD(taken.number == (to == maker ? YELANSUB_BAD_CARD : YELANSUB_OK) && unchanged(&m));
            HOLD(to == maker ? unchanged(&w[to]) : only(&w[to], w[to].len));
        }
        drop(&m);
    }
    doing = "read";
    for (unsigned i = 0; i < cards; i++) {
        keep(&w[i]);
        struct yelansub_reading reading = yelansub_read(in(&w[i]), len, counter);
        HOLD(reading.number == YELANSUB_OK && !reading.value && !reading.holders && !reading.holder_count);
        HOLD(active(in(&w[i]), len, 0) && unchanged(&w[i]));
        drop(&w[i]);
    }
}

/* Puts a message of card 1 to the front, as a rule: of any length that fits, or of the whole length where there is
   such a message. Its entries are of cards from 2 on where there are so many, so that a fresh card 0 takes it. */
static void put_front(uint8_t *bytes, size_t length)
{
    struct yelansub_message m = {.version = any(4) ? YELANSUB_MESSAGE_VERSION : YELANSUB_MESSAGE_VERSION_1,
                                 .sender = 1, .sequence = 1, .start = 1};
    m.p = m.amount = (uint32_t)(any(2) ? 1 : 1 + any(YELANSUB_MOST_AMOUNT));
    size_t most = 0;
    while (most < YELANSUB_MOST_CARDS && YELANSUB_CLEAR_BYTES(most + 1) <= length)
        most++;
    m.len = any(2) ? most : any(most + 1);
    for (size_t i = 0; i < m.len; i++) {
        size_t card = m.len + 2 <= YELANSUB_MOST_CARDS ? i + 2 : i;
        m.entries[i] = (struct yelansub_clear_entry){(uint32_t)card, 1, 1};
    }
    m.kind = any(3) == 0 ? YELANSUB_MESSAGE_INCREMENT : YELANSUB_MESSAGE_CLEAR;
    size_t needed = m.kind == YELANSUB_MESSAGE_INCREMENT ? YELANSUB_INCREMENT_BYTES : YELANSUB_CLEAR_BYTES(m.len);
    if (needed <= length && any(8))
        put_message(bytes, &m);
}

/* A log that is every part of a message, where its card has made one. Alone that card delivers nothing. A second card
   takes an increment and an empty clear; for others the link is passed over. */
static void exact_logs(int at_end)
{
    for (size_t entries = 0; entries <= YELANSUB_MOST_CARDS + 1; entries++) {
        int is_clear = entries <= YELANSUB_MOST_CARDS;
        struct yelansub_message message =
            is_clear ? message_of(YELANSUB_MESSAGE_VERSION, YELANSUB_MESSAGE_CLEAR, entries)
                     : message_of(YELANSUB_MESSAGE_VERSION, YELANSUB_MESSAGE_INCREMENT, 0);
        uint8_t bytes[YELANSUB_LONGEST_MESSAGE];
        message.sender = message.counter = 0;
        message.sequence = 1;
        message.p = message.amount;
        size_t whole = put_message(bytes, &message);
        for (size_t log = 0; log <= whole + 2; log++)
            for (unsigned cards = 1; cards <= 2; cards++) {
                size_t each = YELANSUB_REPLICA_WORDS(cards, 1), len = cards * each;
                struct area w = area(len * sizeof(uint64_t), at_end), l = area(cards * log, at_end);
                uint64_t *words = in(&w);
                doing = "deliveries from a log of every length";
                for (unsigned i = 0; i < cards; i++)
                    HOLD(yelansub_open(words + i * each, each, cards, 1, i) == YELANSUB_OK);
                words[messages_at(cards, 0)] = 1;
                memcpy(in(&l), bytes, log < whole ? log : whole);
                keep(&w);
                keep(&l);
                struct yelansub_delivered delivered =
                    yelansub_deliver_pending(cards, 1, log, UINT64_MAX, words, len, in(&l), cards * log);
                HOLD(unchanged(&l));
                if (log >= whole && cards == 2 && (!is_clear || entries == 0))
                    HOLD(delivered.number == YELANSUB_OK && delivered.deliveries == 1 && only(&w, w.len));
                else
                    HOLD(none_delivered(delivered, log < whole ? YELANSUB_BAD_LOG : YELANSUB_OK) && unchanged(&w));
                drop(&w);
                drop(&l);
            }
    }
}

/* Converts a log into an output of this length; what it writes is the front of `due`. */
static struct yelansub_written convert(size_t of, const uint8_t *bytes, size_t len, const uint8_t *due, size_t room,
                                       int at_end)
{
    struct area l = area(len, at_end), o = area(room, at_end);
    if (len > 0)
        memcpy(in(&l), bytes, len);
    keep(&l);
    keep(&o);
    struct yelansub_written written = converting[of].call(in(&l), len, in(&o), room);
    HOLD(written.number <= LAST_ANSWER && written.length <= room && unchanged(&l));
    converted[of][written.number]++;
    if (written.number == YELANSUB_OK)
        HOLD(only(&o, written.length) && memcmp(in(&o), due, written.length) == 0);
    else
        HOLD(!written.length && unchanged(&o));
    drop(&l);
    drop(&o);
    return written;
}

/* An increment, a clear of every length and an increment, in both versions, every amount being 1: one byte of output
   too few, none to spare, and more; cut anywhere, with bytes left over, and with another amount. */
static void exact_conversions(int at_end)
{
    for (size_t entries = 0; entries <= YELANSUB_MOST_CARDS; entries++)
        for (size_t of = 0; of < CONVERTING; of++) {
            uint8_t log[2 * YELANSUB_INCREMENT_BYTES + YELANSUB_LONGEST_MESSAGE + YELANSUB_CLEAR_BYTES(0)];
            uint8_t due[sizeof log], *at = log, *to = due;
            size_t ends[3];
            for (unsigned place = 0; place < 3; place++) {
                struct yelansub_message m =
                    place == 1 ? message_of(converting[of].from, YELANSUB_MESSAGE_CLEAR, entries)
                               : message_of(converting[of].from, YELANSUB_MESSAGE_INCREMENT, 0);
                m.sequence = 1 + any(YELANSUB_MAX); /* in no order */
                m.amount = 1;                       /* put in an increment of version 2 alone */
                at += put_message(at, &m);
                ends[place] = (size_t)(at - log);
                m.version = converting[of].to;
                to += put_message(to, &m);
            }
            size_t len = ends[2], bytes = (size_t)(to - due);
            doing = "the length of a converted log";
            HOLD(converting[of].to == YELANSUB_MESSAGE_VERSION ? bytes == len + 8 : bytes + 8 == len);
            doing = "convert a log";
            for (size_t room = bytes - 1; room <= bytes + 2; room++) {
                struct yelansub_written written = convert(of, log, len, due, room, at_end);
                HOLD(written.number == (room < bytes ? YELANSUB_SHORT_OUTPUT : YELANSUB_OK));
                HOLD(written.length == (room < bytes ? 0 : bytes));
            }
            doing = "convert a log that is cut";
            HOLD(convert(of, log, 0, due, 0, at_end).number == YELANSUB_OK);
            for (size_t cut = 0; cut < len; cut++) {
                int whole = cut == 0 || cut == ends[0] || cut == ends[1];
                HOLD(convert(of, log, cut, due, sizeof due, at_end).number ==
                     (whole ? YELANSUB_OK : YELANSUB_UNREADABLE));
            }
            doing = "convert a log with bytes left over";
            memcpy(at, log, YELANSUB_CLEAR_BYTES(0) - 1);
            for (size_t more = 1; more < YELANSUB_CLEAR_BYTES(0); more++)
                HOLD(convert(of, log, len + more, due, sizeof due, at_end).number == YELANSUB_UNREADABLE);
            doing = "convert a log of the other version, or with another amount";
            HOLD(convert(1 - of, log, len, due, sizeof due, at_end).number == YELANSUB_UNREADABLE);
            if (converting[of].from == YELANSUB_MESSAGE_VERSION) {
                at[-1] = 2; /* the last byte of the last message */
                HOLD(convert(of, log, len, due, sizeof due, at_end).number == YELANSUB_ABOVE_ONE);
                HOLD(convert(of, log, len, due, 0, at_end).number == YELANSUB_ABOVE_ONE);
                HOLD(convert(of, log, len + 1, due, 0, at_end).number == YELANSUB_UNREADABLE);
            }
        }
}

/* Bytes of every length, good at the front or not, to take, read_message, waiting and the calls that convert. */
static void odd_bytes(int at_end)
{
    size_t len = YELANSUB_REPLICA_WORDS(YELANSUB_MOST_CARDS, 1);
    struct area w = area(len * sizeof(uint64_t), at_end);
    unsigned accepted = 0, refused = 0, increments = 0, clears = 0, plain = 0, unreadable = 0, waiting = 0;
    for (size_t length = 0; length < YELANSUB_LONGEST_MESSAGE + 80; length++) {
        struct area m = area(length, at_end), o = area(length, at_end);
        uint8_t *bytes = in(&m);
        for (int round = 0; round < 40; round++) {
            HOLD(yelansub_open(in(&w), len, YELANSUB_MOST_CARDS, 1, 0) == YELANSUB_OK);
            for (size_t i = 0; i < length; i++)
                bytes[i] = (uint8_t)(any(3) ? 0 : any(3));
            put_front(bytes, length);
            if (length > 0 && any(3) == 0)
                flip_any_bit(bytes, length);
            keep(&w);
            keep(&m);
            doing = "take of odd bytes";
            struct yelansub_taken taken = yelansub_take(in(&w), len, bytes, length);
            HOLD(unchanged(&m) && (taken.number == YELANSUB_OK ? only(&w, w.len) : unchanged(&w)));
            *(taken.number == YELANSUB_OK ? &accepted : &refused) += 1;
            doing = "reading odd bytes, and writing what was read";
            struct yelansub_message_reading read = yelansub_read_message(bytes, length);
            HOLD(unchanged(&m));
            int is_plain = read.message.version == YELANSUB_MESSAGE_VERSION_1;
            if (read.number == YELANSUB_OK) {
                *(is_plain ? &plain : read.message.kind == YELANSUB_MESSAGE_CLEAR ? &clears : &increments) += 1;
                HOLD(!is_plain || taken.number == YELANSUB_UNREADABLE);
            } else {
                HOLD(read.number == YELANSUB_UNREADABLE && same(&read.message, &no_message));
                HOLD(taken.number == YELANSUB_UNREADABLE);
                unreadable++;
            }
            keep(&o);
            struct yelansub_written written = yelansub_write_message(read.message, in(&o), length);
            HOLD(written.number == read.number);
            if (written.number == YELANSUB_OK)
                HOLD(written.length == length && only(&o, length) && memcmp(in(&o), bytes, length) == 0);
            else
                HOLD(!written.length && unchanged(&o));
            doing = "waiting in odd bytes";
            for (uint64_t q = 0; q < 4; q++) {
                struct yelansub_span span = yelansub_waiting(bytes, length, q);
                HOLD(span.start <= length && span.length <= length - span.start && unchanged(&m));
                waiting += span.length > 0;
                if (read.number == YELANSUB_OK)
                    HOLD(span.start == 0 && span.length == (q == 1 && !is_plain ? length : 0));
            }
            doing = "converting odd bytes";
            for (size_t of = 0; of < CONVERTING; of++) {
                keep(&o);
                written = converting[of].call(bytes, length, in(&o), length);
                HOLD(written.number <= LAST_ANSWER && written.length <= length && unchanged(&m));
                HOLD(written.number == YELANSUB_OK ? only(&o, written.length) : !written.length && unchanged(&o));
                if (read.number == YELANSUB_OK)
                    HOLD((written.number == YELANSUB_UNREADABLE) == (read.message.version != converting[of].from));
            }
        }
        drop(&m);
        drop(&o);
    }
    doing = "nothing of one kind among the odd bytes";
    HOLD(accepted && refused && increments && clears && plain && unreadable && waiting > increments + clears);
    drop(&w);
}

static unsigned answered[LAST_ANSWER + 1]; /* how often a step gave each number */

/* The last of the kinds of step, which are numbered from 1. */
enum { LAST_KIND = YELANSUB_STEP_READ_AND_CLEAR };

static unsigned values; /* how often a step read one that is not 0 */

static unsigned pumped[LAST_ANSWER + 1]; /* how often delivering what waits gave each number */
static unsigned passed_over;             /* and left something waiting below its most */
static unsigned wrong_bits[LAST_ANSWER + 1]; /* how often it gave each where a bit is all that is wrong */

/* The messages that wait on all links. */
static uint64_t total_waiting(const uint64_t *words, size_t cards, size_t each)
{
    uint64_t total = 0;
    for (size_t to = 0; to < cards; to++)
        for (size_t from = 0; from < cards; from++)
            total += words[from * each + messages_at(cards, from)] - words[to * each + messages_at(cards, from)];
    return total;
}

/* Where the counter of a message has its last byte. */
enum { COUNTER_END = 23 };

/* A bit of a card's active counters is lost or gained, of a counter that there is as a rule; and what that call makes
   of it. The bit is then as before. */
static void damaged_bit(unsigned cards, unsigned counters, uint64_t log, struct area *w, struct area *l)
{
    size_t each = YELANSUB_REPLICA_WORDS(cards, counters);
    uint64_t card = any(cards), of = any(3) ? counters : 64, bit = any(of), most = any(3);
    uint64_t *active = (uint64_t *)in(w) + card * each + ACTIVE_AT;
    *active ^= UINT64_C(1) << bit;
    keep(w);
    doing = "deliveries with a wrong bit";
    HOLD(none_delivered(yelansub_deliver_pending(cards, counters, log, most, in(w), cards * each, in(l), cards * log),
                        bit < counters ? YELANSUB_BAD_ROW : YELANSUB_BAD_REPLICA));
    HOLD(unchanged(w) && unchanged(l));
    wrong_bits[bit < counters ? YELANSUB_BAD_ROW : YELANSUB_BAD_REPLICA]++;
    *active ^= UINT64_C(1) << bit;
}

/* One word or one log byte becomes another; of a message in a log, as a rule, its counter. */
static void damage(uint64_t *words, size_t cards, size_t each, uint8_t *logs, uint64_t log)
{
    uint64_t *replica = words + any(cards) * each;
    uint8_t *bytes = logs + any(cards) * log;
    struct yelansub_span message = yelansub_waiting(bytes, log, 1 + any(4));
    uint64_t what = any(5), word = any(each), card = any(cards), number = any(3);
    switch (what) {
    case 0:
        replica[word] = number;
        break;
    case 1:
        replica[messages_at(cards, card)] += number - 1;
        break;
    case 2:
        if (log > 0)
            flip_any_bit(bytes, log);
        break;
    default:
        if (message.length > 0)
            bytes[message.start + COUNTER_END] = YELANSUB_MOST_COUNTERS - 1;
    }
}

/* Delivers what waits in what a run has left: each size one off, then with nothing damaged, then with more and more. */
static void pending(unsigned cards, unsigned counters, uint64_t log, struct area *w, struct area *l)
{
    size_t each = YELANSUB_REPLICA_WORDS(cards, counters), len = cards * each;
    uint64_t *words = in(w);
    keep(w);
    keep(l);
    doing = "refused deliveries";
    for (unsigned wrong = 0; wrong < 5; wrong++) {
        size_t lens[] = {len, cards * log};
        uint64_t numbers[] = {cards, counters, log};
        if (wrong < 2 && lens[wrong] == 0)
            continue;
        if (wrong < 2)
            lens[wrong]--;
        else
            numbers[wrong - 2]++;
        HOLD(none_delivered(yelansub_deliver_pending(numbers[0], numbers[1], numbers[2], UINT64_MAX, words, lens[0],
                                                     in(l), lens[1]), YELANSUB_BAD_SIZES));
        HOLD(unchanged(w) && unchanged(l));
        pumped[YELANSUB_BAD_SIZES]++;
    }
    damaged_bit(cards, counters, log, w, l);
    for (unsigned wounds = 0; wounds < 6; wounds++) {
        doing = "deliveries";
        if (wounds > 0)
            damage(words, cards, each, in(l), log);
        keep(w);
        keep(l);
        uint64_t before = total_waiting(words, cards, each), most = any(3) ? any(9) : UINT64_MAX;
        struct yelansub_delivered delivered =
            yelansub_deliver_pending(cards, counters, log, most, words, len, in(l), cards * log);
        HOLD(delivered.number <= LAST_ANSWER && unchanged(l));
        pumped[delivered.number]++;
        if (delivered.number != YELANSUB_OK) {
            HOLD(!delivered.deliveries && unchanged(w));
            continue;
        }
        uint64_t left = total_waiting(words, cards, each);
        HOLD(delivered.deliveries <= most && delivered.deliveries == before - left && only(w, w->len));
        HOLD(delivered.deliveries > 0 || unchanged(w));
        HOLD(wounds > 0 || delivered.deliveries == (most < before ? most : before));
        for (unsigned card = 0; card < cards; card++)
            HOLD(active_by_reads(words + card * each, each, counters));
        passed_over += delivered.deliveries < most && left > 0;
    }
}

/* Runs of odd steps in exact buffers, by bytes and by records, and each size one off. */
static void runs(unsigned cards, unsigned counters, uint64_t log, size_t steps, int at_end)
{
    size_t len = cards * YELANSUB_REPLICA_WORDS(cards, counters);
    struct area s = area(steps * YELANSUB_STEP_BYTES, at_end), w = area(len * sizeof(uint64_t), at_end);
    size_t answer_words = steps * YELANSUB_ANSWER_WORDS;
    struct area l = area(cards * log, at_end), a = area(answer_words * sizeof(uint64_t), at_end);
    struct area records = area(steps * sizeof(struct yelansub_step), at_end);
    struct yelansub_step *record = in(&records);
    uint8_t *step = in(&s);
    for (size_t i = 0; i < steps; i++) {
        uint32_t kind = (uint32_t)(1 + any(LAST_KIND + (any(9) == 0)));
        uint32_t first = (uint32_t)any(cards + (any(9) == 0));
        uint32_t second = (uint32_t)any((kind == YELANSUB_STEP_DELIVER ? cards : counters) + (any(9) == 0));
        uint32_t amount = kind == YELANSUB_STEP_COUNT ? (uint32_t)(any(2) ? 1 : 1 + any(YELANSUB_MOST_AMOUNT)) : 0;
        if (any(19) == 0)
            amount = (uint32_t)(any(2) ? any(2) : YELANSUB_MOST_AMOUNT + any(2));
        record[i] = (struct yelansub_step){kind, first, second, amount};
        step = put_int(put_int(put_int(put_int(step, kind), first), second), amount);
    }
    struct area *all[] = {&s, &w, &l, &a, &records};
    for (size_t i = 0; i < sizeof all / sizeof *all; i++)
        keep(all[i]);
    doing = "refused run";
    for (unsigned wrong = 0; wrong < 8; wrong++) {
        size_t lens[] = {s.len, len, cards * log, answer_words}, count = steps;
        uint64_t numbers[] = {cards, counters, log};
        if ((wrong < 4 && lens[wrong] == 0) || (wrong == 7 && steps == 0))
            continue;
        if (wrong == 0)
            count--;
        if (wrong < 4)
            lens[wrong]--;
        else if (wrong < 7)
            numbers[wrong - 4]++;
        else
            lens[3] = steps; /* one word for each */
        HOLD(yelansub_run(numbers[0], numbers[1], numbers[2], in(&s), lens[0], in(&w), lens[1], in(&l), lens[2],
                          in(&a), lens[3]) == YELANSUB_BAD_SIZES);
        HOLD(yelansub_run_records(numbers[0], numbers[1], numbers[2], record, count, in(&w), lens[1], in(&l),
                                  lens[2], in(&a), lens[3]) == YELANSUB_BAD_SIZES);
        for (size_t i = 0; i < sizeof all / sizeof *all; i++)
            HOLD(unchanged(all[i]));
    }
    doing = "run";
    HOLD(yelansub_run(cards, counters, log, in(&s), s.len, in(&w), len, in(&l), cards * log, in(&a), answer_words) ==
         YELANSUB_OK);
    HOLD(unchanged(&s) && only(&w, w.len) && only(&l, l.len) && only(&a, a.len));
    const uint64_t *answer = in(&a);
    for (size_t i = 0; i < steps; i++, answer += YELANSUB_ANSWER_WORDS) {
        uint64_t number = answer[0], value = answer[1];
        HOLD(number <= LAST_ANSWER);
        answered[number]++;
        HOLD(!value || (number == YELANSUB_OK && record[i].kind == YELANSUB_STEP_READ_AND_CLEAR));
        values += value > 0;
    }
    size_t each = YELANSUB_REPLICA_WORDS(cards, counters);
    keep(&w);
    for (unsigned card = 0; card < cards; card++) {
        HOLD(active_by_reads((uint64_t *)in(&w) + card * each, each, counters));
        brought_over((uint64_t *)in(&w) + card * each, cards, counters, at_end);
    }
    HOLD(unchanged(&w));
    doing = "run of records";
    struct area kept[] = {area(w.len, at_end), area(l.len, at_end), area(a.len, at_end)};
    HOLD(yelansub_run_records(cards, counters, log, record, steps, in(&kept[0]), len, in(&kept[1]),
                              cards * log, in(&kept[2]), answer_words) == YELANSUB_OK);
    HOLD(unchanged(&records));
    HOLD(memcmp(kept[0].pages, w.pages, w.size) == 0 && memcmp(kept[1].pages, l.pages, l.size) == 0);
    HOLD(memcmp(kept[2].pages, a.pages, a.size) == 0);
    for (int i = 0; i < 3; i++)
        drop(&kept[i]);
    pending(cards, counters, log, &w, &l);
    for (size_t i = 0; i < sizeof all / sizeof *all; i++)
        drop(all[i]);
}

/* Cards and counters out of range, no steps, and words that would fit. */
static void refused_sizes(uint64_t cards, uint64_t counters, int at_end)
{
    size_t len = cards * YELANSUB_REPLICA_WORDS(cards, counters);
    struct area w = area(len * sizeof(uint64_t), at_end);
    keep(&w);
    doing = "run with sizes out of range";
    HOLD(yelansub_run(cards, counters, 0, NULL, 0, in(&w), len, NULL, 0, NULL, 0) == YELANSUB_BAD_SIZES);
    HOLD(yelansub_run_records(cards, counters, 0, NULL, 0, in(&w), len, NULL, 0, NULL, 0) == YELANSUB_BAD_SIZES);
    HOLD(none_delivered(yelansub_deliver_pending(cards, counters, 0, 1, in(&w), len, NULL, 0), YELANSUB_BAD_SIZES));
    HOLD(unchanged(&w));
    drop(&w);
}

/* Each of these numbers was met, and no other. */
static void exactly(const unsigned *met, const unsigned *given, size_t len)
{
    for (unsigned number = 0; number <= LAST_ANSWER; number++) {
        int can = 0;
        for (size_t i = 0; i < len; i++)
            can |= given[i] == number;
        HOLD((met[number] > 0) == can);
    }
}

/* Every number that a step can give was given, and no other. YELANSUB_EXHAUSTED needs YELANSUB_MAX messages or units of
   one card first. The same of delivering what waits and of converting. */
static void all_answers(void)
{
    static const unsigned given[] = {YELANSUB_OK, YELANSUB_BAD_COUNTER, YELANSUB_BAD_CARD, YELANSUB_BAD_KIND,
                                     YELANSUB_NOTHING_WAITING, YELANSUB_LOG_FULL, YELANSUB_BAD_AMOUNT};
    static const unsigned to_pump[] = {YELANSUB_OK, YELANSUB_BAD_REPLICA, YELANSUB_BAD_ROW, YELANSUB_BAD_SIZES,
                                       YELANSUB_BAD_LOG};
    /* The last of them on the way to version 1 only. */
    static const unsigned to_convert[] = {YELANSUB_OK, YELANSUB_SHORT_OUTPUT, YELANSUB_UNREADABLE, YELANSUB_ABOVE_ONE};
    doing = "answers of steps";
    exactly(answered, given, sizeof given / sizeof *given);
    HOLD(values > 0);
    doing = "answers of deliveries";
    exactly(pumped, to_pump, sizeof to_pump / sizeof *to_pump);
    HOLD(passed_over > 0);
    HOLD(wrong_bits[YELANSUB_BAD_REPLICA] > 0 && wrong_bits[YELANSUB_BAD_ROW] > 0);
    doing = "answers of conversions";
    exactly(converted[0], to_convert, 3);
    exactly(converted[1], to_convert, 4);
}

int main(void)
{
    no_memory();
    for (int at_end = 0; at_end < 2; at_end++) {
        refused_heads(at_end);
        active_of(1, 1, at_end);
        active_of(2, 7, at_end);
        active_of(1, YELANSUB_MOST_COUNTERS - 1, at_end);
        active_of(2, YELANSUB_MOST_COUNTERS, at_end);
        active_of(YELANSUB_MOST_CARDS, 1, at_end);
        refusals(at_end);
        entry_without_bit(0, at_end);
        entry_without_bit(1, at_end);
        refused_counts(at_end);
        exact_messages(YELANSUB_MESSAGE_VERSION_1, at_end);
        exact_messages(YELANSUB_MESSAGE_VERSION, at_end);
        refused_messages(at_end);
        for (unsigned cards = 1; cards <= YELANSUB_MOST_CARDS; cards++)
            for (size_t of = 1; of < MAKING; of++) { /* the kinds that clear */
                exact_buffers(cards, 1, making[of], at_end);
                exact_buffers(cards, 7, making[of], at_end);
                exact_buffers(cards, YELANSUB_MOST_COUNTERS, making[of], at_end);
            }
        exact_logs(at_end);
        exact_conversions(at_end);
        odd_bytes(at_end);
        for (unsigned round = 0; round < 300; round++) {
            unsigned cards = 1 + (unsigned)any(4), counters = 1 + (unsigned)any(3);
            uint64_t log = any(3) ? 400 : any(80), steps = any(50);
            runs(cards, counters, log, steps, at_end);
        }
        runs(YELANSUB_MOST_CARDS, YELANSUB_MOST_COUNTERS, 4096, 700, at_end);
        refused_sizes(0, 1, at_end);
        refused_sizes(1, 0, at_end);
        refused_sizes(YELANSUB_MOST_CARDS + 1, 1, at_end);
        refused_sizes(1, YELANSUB_MOST_COUNTERS + 1, at_end);
    }
    all_answers();
    printf("guards: %u checks\n", checks);
    return 0;
}
