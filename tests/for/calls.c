/*
 * Every export called with arguments that differ from each other. Every field of its answer, and all of
 * what it was lent, is compared with numbers worked out by hand from docs/SPECIFICATION.md: an argument, a field or a struct that C hands over in another place than the
 * archive takes it shows.
 */
#include "program.h"
#include "yelansub.h"

enum { CARDS = 3, COUNTERS = 2, OWN = 1, WORDS = YELANSUB_REPLICA_WORDS(CARDS, COUNTERS) };
enum { RUN_CARDS = 2, RUN_COUNTERS = 3, RUN_LOG = 80, RUN_STEPS = 3 };
enum { RUN_WORDS = YELANSUB_REPLICA_WORDS(RUN_CARDS, RUN_COUNTERS) };

/* The replica of card 1: r k own, the bit of counter 1, C, N, no entry of counter 0, two entries of counter 1. */
static const uint64_t before[WORDS] = {3, 2, 1, 2, 30, 20, 40, 7, 5, 9, 0, 0, 0, 0, 0, 0, 0, 0, 0,
                                       25, 11, 28, 0, 0, 0, 33, 33, 44};
/* A count by 6 of counter 1: p = 20 + 6 with start. */
static const uint64_t counted[WORDS] = {3, 2, 1, 2, 30, 26, 40, 7, 6, 9, 0, 0, 0, 0, 0, 0, 0, 0, 0,
                                        25, 11, 28, 26, 20, 26, 33, 33, 44};
/* A count by 6 of counter 0 in place of that: its bit is one. */
static const uint64_t counted_0[WORDS] = {3, 2, 1, 3, 30, 26, 40, 7, 6, 9, 0, 0, 0, 26, 20, 26, 0, 0, 0,
                                          25, 11, 28, 0, 0, 0, 33, 33, 44};
/* A clear of counter 1: card 0's entry goes, since 28 <= C; card 2's stays, since 44 > 40, and so does the bit. */
static const uint64_t cleared[WORDS] = {3, 2, 1, 2, 30, 20, 40, 7, 6, 9, 0, 0, 0, 0, 0, 0, 0, 0, 0,
                                        0, 0, 0, 0, 0, 0, 33, 33, 44};
/* Card 2's increment by 3, p = 40 + 3 with start, in place of that. */
static const uint64_t taken[WORDS] = {3, 2, 1, 2, 30, 20, 43, 7, 5, 10, 0, 0, 0, 0, 0, 0, 0, 0, 0,
                                      25, 11, 28, 0, 0, 0, 43, 40, 44};
static const uint64_t fresh[WORDS] = {3, 2, 1};

/* Messages as 32-bit numbers, which are its bytes four at a time, the largest first. */
static const uint32_t increment_sent[] = {2, 1, 1, 0, 6, 1, 0, 26, 1, 6};
static const uint32_t clear_sent[] = {2, 2, 1, 0, 6, 1, 2, 0, 0, 25, 0, 28, 2, 0, 33, 0, 44};
static const uint32_t increment_of_2[] = {2, 1, 2, 0, 10, 1, 0, 43, 1, 3};
static const uint32_t plain_increment[] = {1, 1, 7, 0x1234, 0x56789abc, 63, 5, 6, 0};
static const uint32_t its_conversion[] = {2, 1, 7, 0x1234, 0x56789abc, 63, 5, 6, 0, 1};

/* Two cards, three counters: card 1 counts 5 of counter 2, card 0 takes it and reads and clears. */
static const uint32_t steps[RUN_STEPS][4] = {{1, 1, 2, 5}, {3, 0, 1, 0}, {4, 0, 2, 0}};
static const uint64_t answers_due[RUN_STEPS * YELANSUB_ANSWER_WORDS] = {0, 0, 0, 0, 0, 5};
static const uint64_t run_due[RUN_CARDS * RUN_WORDS] = {
    2, 3, 0, 0, 0, 5, 1, 1, 0, 0, 0, 0, 0, 0, 0, 0, 0, 0, 0, 0, 0, 0, 0, 0, 0, 0,
    2, 3, 1, 4, 0, 5, 0, 1, 0, 0, 0, 0, 0, 0, 0, 0, 0, 0, 0, 0, 0, 0, 0, 5, 0, 5};
static const uint32_t log_0[] = {2, 2, 0, 0, 1, 2, 1, 1, 0, 5, 0, 5};
static const uint32_t log_1[] = {2, 1, 1, 0, 1, 2, 0, 5, 1, 5};
/* Card 1 takes card 0's clear: its entry goes, since 5 <= C, and counter 2's bit with it. */
static const uint64_t pumped_due[RUN_CARDS * RUN_WORDS] = {
    2, 3, 0, 0, 0, 5, 1, 1, 0, 0, 0, 0, 0, 0, 0, 0, 0, 0, 0, 0, 0, 0, 0, 0, 0, 0,
    2, 3, 1, 0, 0, 5, 1, 1, 0, 0, 0, 0, 0, 0, 0, 0, 0, 0, 0, 0, 0, 0, 0, 0, 0, 0};

static uint64_t words[WORDS], replicas[RUN_CARDS * RUN_WORDS], answers[RUN_STEPS * YELANSUB_ANSWER_WORDS];
static uint8_t out[YELANSUB_LONGEST_MESSAGE + 4], bytes[YELANSUB_LONGEST_MESSAGE + 4], logs[RUN_CARDS * RUN_LOG];

static size_t put(uint8_t *to, const uint32_t *numbers, size_t count)
{
    size_t i;
    for (i = 0; i < 4 * count; i++)
        to[i] = (uint8_t)(numbers[i / 4] >> (24 - 8 * (i % 4)));
    return 4 * count;
}
#define PUT(to, numbers) put((to), (numbers), sizeof(numbers) / sizeof *(numbers))

/* What memory holds before a call that writes there. */
enum { MARK = 0xa5 };
static int marked(const void *memory, size_t len)
{
    const uint8_t *at = memory;
    for (; len > 0; len--)
        if (*at++ != MARK)
            return 0;
    return 1;
}
#define MARKED(array) marked((array), sizeof(array))

/* The numbers' bytes stand at `at`, and behind them, up to len, all is as before. */
static int holds(const uint8_t *at, size_t len, const uint32_t *numbers, size_t count)
{
    put(bytes, numbers, count);
    return memcmp(at, bytes, 4 * count) == 0 && marked(at + 4 * count, len - 4 * count);
}
#define HOLDS(at, len, numbers) holds((at), (len), (numbers), sizeof(numbers) / sizeof *(numbers))
#define LEFT(these, due) (memcmp((these), (due), sizeof(due)) == 0)

static void begin(void)
{
    memcpy(words, before, sizeof words);
    memset(out, MARK, sizeof out);
}

static void begin_run(void)
{
    memset(replicas, MARK, sizeof replicas);
    memset(answers, MARK, sizeof answers);
    memset(logs, MARK, sizeof logs);
}

static int run_refused(void)
{
    return MARKED(answers) && MARKED(replicas) && MARKED(logs);
}

static int run_left(void)
{
    return LEFT(answers, answers_due) && LEFT(replicas, run_due) && HOLDS(logs, RUN_LOG, log_0) &&
           HOLDS(logs + RUN_LOG, RUN_LOG, log_1);
}

/* All fields, those of every entry among them. */
static int same_message(const struct yelansub_message *a, const struct yelansub_message *b)
{
    size_t i;
    for (i = 0; i < YELANSUB_MOST_CARDS; i++)
        if (a->entries[i].card != b->entries[i].card || a->entries[i].p != b->entries[i].p ||
            a->entries[i].c != b->entries[i].c)
            return 0;
    return a->version == b->version && a->kind == b->kind && a->sender == b->sender &&
           a->sequence == b->sequence && a->counter == b->counter && a->p == b->p && a->start == b->start &&
           a->amount == b->amount && a->len == b->len;
}

#define HOLD(condition) \
    if (!(condition)) \
    return #condition

static const char *wrong_open(void)
{
    begin();
    HOLD(yelansub_open(words, WORDS, CARDS, COUNTERS, CARDS) == YELANSUB_BAD_REPLICA && LEFT(words, before));
    HOLD(yelansub_open(words, WORDS, CARDS, COUNTERS, OWN) == YELANSUB_OK && LEFT(words, fresh));
    return NULL;
}

static const char *wrong_read(void)
{
    struct yelansub_reading a;
    begin();
    a = yelansub_read(words, WORDS, 1);
    HOLD(a.number == YELANSUB_OK && a.value == 14 && a.holders == 5 && a.holder_count == 2);
    a = yelansub_read(words, WORDS, 2);
    HOLD(a.number == YELANSUB_BAD_COUNTER && !a.value && !a.holders && !a.holder_count);
    HOLD(LEFT(words, before));
    return NULL;
}

/* The word of bits stands behind r, k and the own card. */
static const char *wrong_active_counters(void)
{
    struct yelansub_active a;
    begin();
    a = yelansub_active_counters(words, WORDS);
    HOLD(a.number == YELANSUB_OK && a.counters == 2);
    a = yelansub_active_counters(words, WORDS - 1);
    HOLD(a.number == YELANSUB_BAD_REPLICA && !a.counters);
    HOLD(LEFT(words, before));
    words[3] = 6; /* a counter 2, which there is not */
    a = yelansub_active_counters(words, WORDS);
    HOLD(a.number == YELANSUB_BAD_REPLICA && !a.counters && words[3] == 6);
    words[3] = 1; /* disagrees with both rows */
    a = yelansub_active_counters(words, WORDS);
    HOLD(a.number == YELANSUB_OK && a.counters == 1 && words[3] == 1);
    HOLD(yelansub_read(words, WORDS, 0).number == YELANSUB_BAD_ROW);
    HOLD(yelansub_read(words, WORDS, 1).number == YELANSUB_BAD_ROW);
    words[3] = 2;
    HOLD(yelansub_count(words, WORDS, 0, 6, out, sizeof out).number == YELANSUB_OK && LEFT(words, counted_0));
    a = yelansub_active_counters(words, WORDS);
    HOLD(a.number == YELANSUB_OK && a.counters == 3 && LEFT(words, counted_0));
    return NULL;
}

static const char *wrong_count(void)
{
    struct yelansub_sent a;
    begin();
    a = yelansub_count(words, WORDS, 1, 6, out, YELANSUB_INCREMENT_BYTES - 1);
    HOLD(a.number == YELANSUB_SHORT_OUTPUT && !a.sequence && !a.length && LEFT(words, before) && MARKED(out));
    a = yelansub_count(words, WORDS, 1, 6, out, sizeof out);
    HOLD(a.number == YELANSUB_OK && a.sequence == 6 && a.length == 40);
    HOLD(LEFT(words, counted) && HOLDS(out, sizeof out, increment_sent));
    return NULL;
}

static const char *wrong_clear(void)
{
    struct yelansub_sent a;
    begin();
    a = yelansub_clear(words, WORDS, 1, out, YELANSUB_CLEAR_BYTES(2) - 1);
    HOLD(a.number == YELANSUB_SHORT_OUTPUT && !a.sequence && !a.length && LEFT(words, before) && MARKED(out));
    a = yelansub_clear(words, WORDS, 1, out, sizeof out);
    HOLD(a.number == YELANSUB_OK && a.sequence == 6 && a.length == 68);
    HOLD(LEFT(words, cleared) && HOLDS(out, sizeof out, clear_sent));
    return NULL;
}

static const char *wrong_read_and_clear(void)
{
    struct yelansub_cleared a;
    begin();
    a = yelansub_read_and_clear(words, WORDS, 1, out, YELANSUB_CLEAR_BYTES(2) - 1);
    HOLD(a.number == YELANSUB_SHORT_OUTPUT && !a.value && !a.sequence && !a.length);
    HOLD(LEFT(words, before) && MARKED(out));
    a = yelansub_read_and_clear(words, WORDS, 1, out, sizeof out);
    HOLD(a.number == YELANSUB_OK && a.value == 14 && a.sequence == 6 && a.length == 68);
    HOLD(LEFT(words, cleared) && HOLDS(out, sizeof out, clear_sent));
    return NULL;
}

static const char *wrong_take(void)
{
    struct yelansub_taken a;
    size_t len;
    begin();
    len = PUT(out, increment_of_2);
    a = yelansub_take(words, WORDS, out, len);
    HOLD(a.number == YELANSUB_OK && a.sequence == 10 && LEFT(words, taken));
    a = yelansub_take(words, WORDS, out, len);
    HOLD(a.number == YELANSUB_REPEATED && !a.sequence && LEFT(words, taken));
    HOLD(HOLDS(out, sizeof out, increment_of_2));
    return NULL;
}

static const char *wrong_read_message(void)
{
    static const struct yelansub_message clear = {
        .version = 2, .kind = 2, .sender = 1, .sequence = 6, .counter = 1, .len = 2, .entries = {{0, 25, 28}, {2, 33, 44}}};
    static const struct yelansub_message increment = {
        .version = 2, .kind = 1, .sender = 2, .sequence = 10, .counter = 1, .p = 43, .start = 1, .amount = 3};
    static const struct yelansub_message none;
    static struct yelansub_message_reading a;
    size_t len;
    begin();
    len = PUT(out, clear_sent);
    a = yelansub_read_message(out, len);
    HOLD(a.number == YELANSUB_OK && same_message(&a.message, &clear));
    a = yelansub_read_message(out, len - 1);
    HOLD(a.number == YELANSUB_UNREADABLE && same_message(&a.message, &none));
    HOLD(HOLDS(out, sizeof out, clear_sent));
    begin();
    len = PUT(out, increment_of_2);
    a = yelansub_read_message(out, len);
    HOLD(a.number == YELANSUB_OK && same_message(&a.message, &increment));
    HOLD(HOLDS(out, sizeof out, increment_of_2));
    return NULL;
}

/* A clear of as many entries as there can be, no two numbers of it the same. */
static const char *wrong_write_message(void)
{
    static struct yelansub_message whole, given;
    static uint32_t due[YELANSUB_LONGEST_MESSAGE / 4];
    struct yelansub_written a;
    uint32_t i, at = 7;
    whole.version = 2, whole.kind = 2, whole.sender = 10;
    whole.sequence = ((uint64_t)3 << 32) + 4, whole.counter = 60, whole.len = YELANSUB_MOST_CARDS;
    due[0] = 2, due[1] = 2, due[2] = 10, due[3] = 3, due[4] = 4, due[5] = 60, due[6] = YELANSUB_MOST_CARDS;
    for (i = 0; i < YELANSUB_MOST_CARDS; i++) {
        whole.entries[i].card = i;
        whole.entries[i].p = ((uint64_t)(100 + i) << 32) + 200 + i;
        whole.entries[i].c = ((uint64_t)(300 + i) << 32) + 400 + i;
        due[at++] = i, due[at++] = 100 + i, due[at++] = 200 + i, due[at++] = 300 + i, due[at++] = 400 + i;
    }
    given = whole;
    begin();
    a = yelansub_write_message(given, out, YELANSUB_LONGEST_MESSAGE - 1);
    HOLD(a.number == YELANSUB_SHORT_OUTPUT && !a.length && MARKED(out) && same_message(&given, &whole));
    a = yelansub_write_message(given, out, sizeof out);
    HOLD(a.number == YELANSUB_OK && a.length == YELANSUB_LONGEST_MESSAGE);
    HOLD(HOLDS(out, sizeof out, due) && same_message(&given, &whole));
    return NULL;
}

static const char *wrong_conversion(void)
{
    struct yelansub_written a;
    static uint8_t log[YELANSUB_INCREMENT_BYTES];
    size_t len = PUT(log, plain_increment);
    begin();
    a = yelansub_to_version_2(log, len, out, YELANSUB_INCREMENT_BYTES - 1);
    HOLD(a.number == YELANSUB_SHORT_OUTPUT && !a.length && MARKED(out));
    a = yelansub_to_version_2(log, len, out, sizeof out);
    HOLD(a.number == YELANSUB_OK && a.length == 40 && HOLDS(out, sizeof out, its_conversion));
    HOLD(HOLDS(log, len, plain_increment));
    len = PUT(log, its_conversion);
    begin();
    a = yelansub_to_version_1(log, len, out, sizeof out);
    HOLD(a.number == YELANSUB_OK && a.length == 36 && HOLDS(out, sizeof out, plain_increment));
    HOLD(HOLDS(log, len, its_conversion));
    len = PUT(log, increment_of_2);
    begin();
    a = yelansub_to_version_1(log, len, out, sizeof out);
    HOLD(a.number == YELANSUB_ABOVE_ONE && !a.length && MARKED(out) && HOLDS(log, len, increment_of_2));
    return NULL;
}

static const char *wrong_waiting(void)
{
    struct yelansub_span a;
    size_t len;
    begin();
    len = PUT(out, increment_sent);
    len += PUT(out + len, clear_sent);
    a = yelansub_waiting(out, len, 2);
    HOLD(a.start == 40 && a.length == 68);
    a = yelansub_waiting(out, len, 3);
    HOLD(!a.start && !a.length);
    HOLD(memcmp(out, bytes, PUT(bytes, increment_sent)) == 0 && HOLDS(out + 40, sizeof out - 40, clear_sent));
    return NULL;
}

static const char *wrong_run(void)
{
    static uint8_t given[RUN_STEPS * YELANSUB_STEP_BYTES];
    size_t len = put(given, steps[0], 4 * RUN_STEPS);
    begin_run();
    HOLD(yelansub_run(RUN_CARDS, RUN_COUNTERS, RUN_LOG, given, len, replicas, RUN_CARDS * RUN_WORDS, logs, sizeof logs,
                      answers, RUN_STEPS) == YELANSUB_BAD_SIZES && run_refused());
    HOLD(yelansub_run(RUN_CARDS, RUN_COUNTERS, RUN_LOG, given, len, replicas, RUN_CARDS * RUN_WORDS, logs, sizeof logs,
                      answers, RUN_STEPS * YELANSUB_ANSWER_WORDS) == YELANSUB_OK);
    HOLD(run_left() && holds(given, len, steps[0], 4 * RUN_STEPS));
    return NULL;
}

static const char *wrong_run_records(void)
{
    static struct yelansub_step given[RUN_STEPS], same[RUN_STEPS];
    size_t i;
    for (i = 0; i < RUN_STEPS; i++) {
        given[i].kind = steps[i][0], given[i].first = steps[i][1];
        given[i].second = steps[i][2], given[i].amount = steps[i][3];
    }
    memcpy(same, given, sizeof same);
    begin_run();
    HOLD(yelansub_run_records(RUN_CARDS, RUN_COUNTERS, RUN_LOG, given, RUN_STEPS, replicas, RUN_CARDS * RUN_WORDS, logs,
                              sizeof logs, answers, RUN_STEPS) == YELANSUB_BAD_SIZES && run_refused());
    HOLD(yelansub_run_records(RUN_CARDS, RUN_COUNTERS, RUN_LOG, given, RUN_STEPS, replicas, RUN_CARDS * RUN_WORDS, logs,
                              sizeof logs, answers, RUN_STEPS * YELANSUB_ANSWER_WORDS) == YELANSUB_OK);
    HOLD(run_left() && LEFT(given, same));
    return NULL;
}

static const char *wrong_deliver_pending(void)
{
    struct yelansub_delivered a;
    memcpy(replicas, run_due, sizeof replicas);
    memset(logs, MARK, sizeof logs);
    PUT(logs, log_0);
    PUT(logs + RUN_LOG, log_1);
    a = yelansub_deliver_pending(RUN_CARDS, RUN_COUNTERS, RUN_LOG + 1, 9, replicas, RUN_CARDS * RUN_WORDS, logs, sizeof logs);
    HOLD(a.number == YELANSUB_BAD_SIZES && !a.deliveries && LEFT(replicas, run_due));
    a = yelansub_deliver_pending(RUN_CARDS, RUN_COUNTERS, RUN_LOG, 0, replicas, RUN_CARDS * RUN_WORDS, logs, sizeof logs);
    HOLD(a.number == YELANSUB_OK && !a.deliveries && LEFT(replicas, run_due));
    a = yelansub_deliver_pending(RUN_CARDS, RUN_COUNTERS, RUN_LOG, 9, replicas, RUN_CARDS * RUN_WORDS, logs, sizeof logs);
    HOLD(a.number == YELANSUB_OK && a.deliveries == 1 && LEFT(replicas, pumped_due));
    HOLD(HOLDS(logs, RUN_LOG, log_0) && HOLDS(logs + RUN_LOG, RUN_LOG, log_1));
    return NULL;
}

static const struct {
    const char *name;
    const char *(*wrong)(void);
} exports[] = {
    {"open", wrong_open},
    {"read", wrong_read},
    {"active_counters", wrong_active_counters},
    {"count", wrong_count},
    {"clear", wrong_clear},
    {"read_and_clear", wrong_read_and_clear},
    {"take", wrong_take},
    {"read_message", wrong_read_message},
    {"write_message", wrong_write_message},
    {"to_version_2, to_version_1", wrong_conversion},
    {"waiting", wrong_waiting},
    {"run", wrong_run},
    {"run_records", wrong_run_records},
    {"deliver_pending", wrong_deliver_pending},
};

PROGRAM(calls)
{
    size_t i;
    for (i = 0; i < sizeof exports / sizeof *exports; i++) {
        const char *wrong = exports[i].wrong();
        if (wrong) {
            SAY("calls: %s: not %s\n", exports[i].name, wrong);
            return 1;
        }
    }
    SAY("calls: every field as it should be\n");
    return 0;
}
