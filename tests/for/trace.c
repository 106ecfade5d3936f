/*
 * A long random run of every export, and one hash of all answers, words and bytes: the same on every
 * target that does what x86-64 does. Numbers are hashed as numbers, so byte order does not show. No
 * expression draws twice but in an order that C fixes.
 */
#include "program.h"
#include "yelansub.h"

enum { ROUNDS = 20000, CARDS = 5, COUNTERS = 3, KEPT = 64, STEPS = 60, LOG = 400 };
enum { WORDS = YELANSUB_REPLICA_WORDS(CARDS, COUNTERS), ROOM = 2 * YELANSUB_LONGEST_MESSAGE };
enum { NUMBERS = YELANSUB_ABOVE_ONE + 1 };
enum { OWN_AT = 2, ACTIVE_AT = 3 }; /* where words of a replica stand */
/* What a word of active counters can be met as. */
enum { NONE_ACTIVE, SOME_ACTIVE, NOT_ITS_COUNTERS, NOT_ITS_ROW, ACTIVES };

static struct {
    uint64_t words[CARDS][WORDS];
    uint8_t kept[KEPT][ROOM]; /* messages and logs, each of some length */
    uint64_t length[KEPT];
    uint64_t replicas[2][CARDS * WORDS];
    uint8_t logs[2][CARDS * LOG];
    uint8_t steps[STEPS * YELANSUB_STEP_BYTES];
    struct yelansub_step records[STEPS];
    uint64_t answers[2][STEPS * YELANSUB_ANSWER_WORDS];
    struct yelansub_message_reading read;
    uint64_t random, hash, seen[NUMBERS]; /* how often each number was answered */
    uint64_t met[ACTIVES];
} state;

static uint32_t draw(uint64_t below)
{
    state.random = state.random * 6364136223846793005ULL + 1442695040888963407ULL;
    return (uint32_t)((state.random >> 33) % below);
}

/* 1 in so many times. */
static uint32_t rare(uint64_t times)
{
    return draw(times) == 0;
}

static void mix(uint64_t number)
{
    int i;
    for (i = 0; i < 64; i += 8)
        state.hash = (state.hash ^ (number >> i & 255)) * 1099511628211ULL;
}

static void answer(uint64_t number)
{
    mix(number);
    if (number < NUMBERS)
        state.seen[number]++;
}

static void mix_words(const uint64_t *words, size_t count)
{
    size_t i;
    for (i = 0; i < count; i++)
        mix(words[i]);
}

static void mix_bytes(const uint8_t *bytes, size_t count)
{
    size_t i;
    for (i = 0; i < count; i++)
        mix(bytes[i]);
}

static void mix_message(const struct yelansub_message *m)
{
    int i;
    mix(m->version), mix(m->kind), mix(m->sender), mix(m->sequence), mix(m->counter);
    mix(m->p), mix(m->start), mix(m->amount), mix(m->len);
    for (i = 0; i < YELANSUB_MOST_CARDS; i++)
        mix(m->entries[i].card), mix(m->entries[i].p), mix(m->entries[i].c);
}

/* Memory goes bad: a word, of the first ones as a rule, becomes one of these, or loses or gains a bit. */
static void damage(uint64_t *words, size_t count)
{
    static const uint64_t edges[] = {0, 1, YELANSUB_MAX - 1, YELANSUB_MAX, YELANSUB_MAX + 1, ~(uint64_t)0};
    uint64_t *word = words + draw(draw(3) ? YELANSUB_REPLICA_WORDS(CARDS, 0) : count);
    uint32_t edge = draw(2 * sizeof edges / sizeof *edges), bit = draw(50);
    if (edge < sizeof edges / sizeof *edges)
        *word = edges[edge];
    else
        *word ^= (uint64_t)1 << bit;
}

/* Or the bit of a counter, there or not, is lost or gained. */
static void damage_active(uint64_t *words)
{
    uint32_t of = draw(4) ? COUNTERS : 64, bit = draw(of);
    words[ACTIVE_AT] ^= (uint64_t)1 << bit;
}

static void damage_bytes(uint8_t *bytes, size_t count)
{
    uint32_t at = draw(count), bit = draw(8);
    bytes[at] ^= (uint8_t)(1u << bit);
}

static uint64_t amount(void)
{
    static const uint64_t edges[] = {0, YELANSUB_MOST_AMOUNT, YELANSUB_MOST_AMOUNT + 1, ~(uint64_t)0};
    uint32_t edge = draw(40), small = 1 + draw(2);
    return edge < sizeof edges / sizeof *edges ? edges[edge] : small;
}

static void take(uint64_t *words, uint32_t slot)
{
    struct yelansub_taken a = yelansub_take(words, WORDS, state.kept[slot], state.length[slot]);
    answer(a.number), mix(a.sequence);
}

/* A message made, its room most often enough. Most cards take it at once. */
static void make(uint64_t *words, uint64_t counter, uint32_t slot, uint32_t how)
{
    uint8_t *out = state.kept[slot];
    uint32_t card, room = draw(16) ? ROOM : draw(60);
    struct yelansub_cleared made;
    if (how == 2) {
        made = yelansub_read_and_clear(words, WORDS, counter, out, room);
    } else {
        struct yelansub_sent sent = how == 0 ? yelansub_count(words, WORDS, counter, amount(), out, room)
                                             : yelansub_clear(words, WORDS, counter, out, room);
        made.number = sent.number, made.value = 0, made.sequence = sent.sequence, made.length = sent.length;
    }
    answer(made.number), mix(made.value), mix(made.sequence), mix(made.length);
    if (made.number != YELANSUB_OK)
        return;
    state.length[slot] = made.length;
    for (card = 0; card < CARDS; card++)
        if (draw(8))
            take(state.words[card], slot);
}

/* The card's own C or N comes to its end, where its own card is a card still. */
static void spend(uint64_t *words)
{
    uint32_t of = draw(2), left = draw(2);
    if (words[OWN_AT] < CARDS)
        words[YELANSUB_REPLICA_WORDS(0, 0) + of * CARDS + words[OWN_AT]] = YELANSUB_MAX - left;
}

/* The active counters of a replica, sound or damaged, by the one word; and whether a row is read otherwise. */
static void active(const uint64_t *words)
{
    struct yelansub_active a = yelansub_active_counters(words, WORDS);
    uint32_t counter;
    answer(a.number), mix(a.counters);
    if (a.number != YELANSUB_OK) {
        state.met[NOT_ITS_COUNTERS] += words[ACTIVE_AT] >> COUNTERS != 0;
        return;
    }
    state.met[a.counters ? SOME_ACTIVE : NONE_ACTIVE]++;
    for (counter = 0; counter < COUNTERS; counter++) {
        struct yelansub_reading row = yelansub_read(words, WORDS, counter);
        answer(row.number), mix(row.holders);
        state.met[NOT_ITS_ROW] += (row.holders != 0) != (a.counters >> counter & 1);
    }
}

static void read(uint64_t *words, uint64_t counter)
{
    struct yelansub_reading a = yelansub_read(words, WORDS, counter);
    answer(a.number), mix(a.value), mix(a.holders), mix(a.holder_count);
    active(words);
    if (rare(20))
        damage(words, WORDS);
    if (rare(20))
        damage_active(words);
    if (rare(40))
        spend(words);
}

/* A message, damaged or not, is read, changed or not, and written to the next slot. */
static void read_and_write(uint32_t slot)
{
    uint32_t next = (slot + 1) % KEPT, entry = draw(YELANSUB_MOST_CARDS), by = draw(3), old = rare(4);
    struct yelansub_message *m = &state.read.message;
    struct yelansub_written a;
    if (state.length[slot] > 0 && rare(8))
        damage_bytes(state.kept[slot], state.length[slot]);
    state.read = yelansub_read_message(state.kept[slot], state.length[slot]);
    answer(state.read.number), mix_message(m);
    if (rare(6))
        m->entries[entry].p ^= by;
    if (old) {
        m->version = YELANSUB_MESSAGE_VERSION_1;
        m->amount = 0;
    }
    a = yelansub_write_message(*m, state.kept[next], YELANSUB_LONGEST_MESSAGE - (rare(9) ? 200 : 0));
    answer(a.number), mix(a.length);
    mix_message(m); /* handed over by value, it is still the caller's */
    if (a.number == YELANSUB_OK)
        state.length[next] = a.length;
}

/* What stands in a slot, once or twice in a row, is converted into the next but one. */
static void convert(uint32_t slot)
{
    uint32_t next = (slot + 2) % KEPT, up = draw(2), room = rare(9) ? draw(60) : ROOM;
    uint8_t log[ROOM];
    uint64_t length = state.length[slot];
    struct yelansub_written a;
    memcpy(log, state.kept[slot], length);
    if (2 * length <= ROOM && rare(2)) {
        memcpy(log + length, state.kept[slot], length);
        length *= 2;
    }
    a = up ? yelansub_to_version_2(log, length, state.kept[next], room)
           : yelansub_to_version_1(log, length, state.kept[next], room);
    answer(a.number), mix(a.length);
    if (a.number == YELANSUB_OK)
        state.length[next] = a.length;
}

static void waiting(uint32_t slot)
{
    uint32_t q = draw(4);
    struct yelansub_span a = yelansub_waiting(state.kept[slot], state.length[slot], q);
    mix(a.start), mix(a.length);
}

static void put(uint8_t *to, uint32_t number)
{
    int i;
    for (i = 0; i < 4; i++)
        to[i] = (uint8_t)(number >> (24 - 8 * i));
}

static void draw_step(uint32_t place)
{
    struct yelansub_step *step = &state.records[place];
    uint8_t *bytes = state.steps + YELANSUB_STEP_BYTES * place;
    uint32_t odd = draw(80), by = (uint32_t)amount();
    step->kind = 1 + draw(4) + (odd == 0 ? 4 : 0);
    step->first = draw(CARDS) + (odd == 1 ? CARDS : 0);
    step->second = draw(step->kind == YELANSUB_STEP_DELIVER ? CARDS : COUNTERS) + (odd == 2 ? CARDS : 0);
    step->amount = step->kind == YELANSUB_STEP_COUNT || odd == 3 ? by : 0;
    put(bytes, step->kind), put(bytes + 4, step->first), put(bytes + 8, step->second), put(bytes + 12, step->amount);
}

/* The same run from bytes and from records; then what waits is delivered, over sound or damaged memory. */
static void run(void)
{
    uint32_t i, odd = rare(10), most = draw(40), bad = draw(5), card = draw(CARDS);
    struct yelansub_delivered a;
    for (i = 0; i < STEPS; i++)
        draw_step(i);
    answer(yelansub_run(CARDS, COUNTERS, LOG + odd, state.steps, sizeof state.steps, state.replicas[0], CARDS * WORDS,
                        state.logs[0], sizeof state.logs[0], state.answers[0], STEPS * YELANSUB_ANSWER_WORDS));
    answer(yelansub_run_records(CARDS, COUNTERS, LOG, state.records, STEPS, state.replicas[1], CARDS * WORDS,
                                state.logs[1], sizeof state.logs[1], state.answers[1], STEPS * YELANSUB_ANSWER_WORDS));
    for (i = 0; i < STEPS; i++)
        answer(state.answers[1][i * YELANSUB_ANSWER_WORDS]);
    for (i = 0; i < 2; i++) {
        mix_words(state.answers[i], STEPS * YELANSUB_ANSWER_WORDS);
        mix_words(state.replicas[i], CARDS * WORDS);
        mix_bytes(state.logs[i], sizeof state.logs[i]);
    }
    if (bad == 0)
        damage(state.replicas[1], CARDS * WORDS);
    if (bad == 1)
        damage_bytes(state.logs[1], sizeof state.logs[1] / 4);
    if (bad == 2)
        damage_active(state.replicas[1] + card * WORDS);
    a = yelansub_deliver_pending(CARDS, COUNTERS, LOG, most, state.replicas[1], CARDS * WORDS, state.logs[1],
                                 sizeof state.logs[1]);
    answer(a.number), mix(a.deliveries);
    mix_words(state.replicas[1], CARDS * WORDS);
    for (i = 0; i < CARDS; i++)
        active(state.replicas[1] + i * WORDS);
}

static void make_trace(void)
{
    uint32_t round, card;
    memset(&state, 0, sizeof state);
    state.random = 1, state.hash = 14695981039346656037ULL;
    for (round = 0; round < ROUNDS; round++) {
        uint32_t slot = draw(KEPT), odd = rare(20), counter = draw(COUNTERS) + (odd ? COUNTERS : 0), what = draw(13);
        uint64_t *words = state.words[draw(CARDS)];
        if (round % 100 == 0)
            for (card = 0; card < CARDS; card++)
                answer(yelansub_open(state.words[card], WORDS, CARDS, COUNTERS, card));
        if (what < 3)
            make(words, counter, slot, what);
        else if (what < 8)
            take(words, slot);
        else if (what == 8)
            read(words, counter);
        else if (what == 9)
            read_and_write(slot);
        else if (what == 10)
            convert(slot);
        else if (what == 11)
            waiting(slot);
        else if (rare(8))
            run();
        mix_words(state.words[0], CARDS * WORDS);
        for (card = 0; card < 3; card++)
            mix_bytes(state.kept[(slot + card) % KEPT], ROOM);
    }
}

PROGRAM(trace)
{
    uint32_t number;
    make_trace();
    for (number = 0; number < NUMBERS; number++)
        if (state.seen[number] == 0) {
            SAY("trace: no call has answered %u\n", number);
            return 1;
        }
    for (number = 0; number < ACTIVES; number++)
        if (state.met[number] == 0) {
            SAY("trace: no active counters of kind %u\n", number);
            return 1;
        }
    SAY("trace: %016llx\n", (unsigned long long)state.hash);
    return 0;
}
