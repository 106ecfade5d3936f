/*
 * The calls by hand, for x86-64. What makes them fast:
 *
 * - The row checks (`unsound`, `scan`) take every word once. They branch on the row's bit, since
 *   without it all words of the row have to be 0, and else only where a well-formed row never goes.
 * - No message is held: count and clear write the caller's bytes straight from the words, take
 *   works on the caller's bytes.
 * - A well-formed row and a message that reads make most of the maxima and cases of SPECIFICATION 4
 *   known beforehand; each place says why.
 */
#include "peer.h"

#include <emmintrin.h>
#include <string.h>

#define MAX YELANSUB_MAX
#define CLEAR_BYTES YELANSUB_CLEAR_BYTES(0)
#define ENTRY_BYTES (YELANSUB_CLEAR_BYTES(1) - CLEAR_BYTES)
/* The first two fields of a message, as one number. */
#define INCREMENT ((uint64_t)YELANSUB_MESSAGE_VERSION << 32 | YELANSUB_MESSAGE_INCREMENT)
#define CLEAR ((uint64_t)YELANSUB_MESSAGE_VERSION << 32 | YELANSUB_MESSAGE_CLEAR)

#define LIKELY(x) __builtin_expect(!!(x), 1)
#define UNLIKELY(x) __builtin_expect(!!(x), 0)
#define INLINE static inline __attribute__((always_inline))

/* Big-endian numbers at any address. */

INLINE uint32_t get32(const uint8_t *at)
{
    uint32_t x;
    memcpy(&x, at, sizeof x);
    return __builtin_bswap32(x);
}

INLINE uint64_t get64(const uint8_t *at)
{
    uint64_t x;
    memcpy(&x, at, sizeof x);
    return __builtin_bswap64(x);
}

INLINE void put32(uint8_t *at, uint32_t x)
{
    x = __builtin_bswap32(x);
    memcpy(at, &x, sizeof x);
}

INLINE void put64(uint8_t *at, uint64_t x)
{
    x = __builtin_bswap64(x);
    memcpy(at, &x, sizeof x);
}

INLINE uint64_t max(uint64_t x, uint64_t y)
{
    return x < y ? y : x;
}

/* All ones if x < y. */
INLINE uint64_t if_less(uint64_t x, uint64_t y)
{
    return -(uint64_t)(x < y);
}

/*
 * The words: r, k, own card, a bit for each active counter, C and N of every card, then the counters'
 * rows of (p, n, c).
 */

#define HEAD YELANSUB_REPLICA_WORDS(0, 0)
#define ACTIVE 3
#define BIT(q) ((uint64_t)1 << (q))
#define AT_C(w) ((w) + HEAD)
#define AT_N(w, r) ((w) + HEAD + (r))
#define AT_ROW(w, r, q) ((w) + HEAD + (r) * (2 + 3 * (size_t)(q)))

INLINE int fits(size_t len, uint64_t cards, uint64_t counters, uint64_t own)
{
    return cards - 1 < YELANSUB_MOST_CARDS && counters - 1 < YELANSUB_MOST_COUNTERS && own < cards
           && len == HEAD + cards * (2 + 3 * counters);
}

/* No bit above the last counter's: by k - 1 a word can be shifted, by k = 64 not. */
INLINE int right(const uint64_t *w, size_t len)
{
    return len >= HEAD && fits(len, w[0], w[1], w[2]) && w[ACTIVE] >> (w[1] - 1) <= 1;
}

/* Two words. */

INLINE __m128i load(const uint64_t *at)
{
    return _mm_loadu_si128((const __m128i *)(const void *)at);
}

INLINE __m128i either(__m128i a, __m128i b)
{
    return _mm_or_si128(a, b);
}

/* The low word of a and the high word of b. */
INLINE __m128i outer(__m128i a, __m128i b)
{
    return _mm_castpd_si128(_mm_shuffle_pd(_mm_castsi128_pd(a), _mm_castsi128_pd(b), 2));
}

INLINE uint64_t low_word(__m128i x)
{
    return (uint64_t)_mm_cvtsi128_si64(x);
}

INLINE uint64_t either_word(__m128i x)
{
    return low_word(either(x, _mm_unpackhi_epi64(x, x)));
}

/* DO(j) for each of the r cards, from the last down: written out, so that nothing is counted. */
#define EACH_CARD(r, DO) \
    _Static_assert(YELANSUB_MOST_CARDS == 12, "the cards written out"); \
    switch (r) { \
    default: DO(11); __attribute__((fallthrough)); \
    case 11: DO(10); __attribute__((fallthrough)); \
    case 10: DO(9); __attribute__((fallthrough)); \
    case 9: DO(8); __attribute__((fallthrough)); \
    case 8: DO(7); __attribute__((fallthrough)); \
    case 7: DO(6); __attribute__((fallthrough)); \
    case 6: DO(5); __attribute__((fallthrough)); \
    case 5: DO(4); __attribute__((fallthrough)); \
    case 4: DO(3); __attribute__((fallthrough)); \
    case 3: DO(2); __attribute__((fallthrough)); \
    case 2: DO(1); __attribute__((fallthrough)); \
    case 1: DO(0); \
    }

INLINE int is_active(const uint64_t *w, uint64_t q)
{
    return (w[ACTIVE] & BIT(q)) != 0;
}

/*
 * Whether the row of a counter that is not active is not well-formed: cn is C of the r cards with N
 * behind it, two words for each card, e is the row, and all of the row has to be 0. All numbers allowed
 * are below 2^48, so what has to be at most MAX goes into one OR of words that is looked at once.
 */
INLINE int unsound_quiet(const uint64_t *w, size_t r, uint64_t q)
{
    const uint64_t *cn = AT_C(w), *e = AT_ROW(w, r, q);
    __m128i counts = _mm_setzero_si128(), row = counts;
    uint64_t last = 0;
#define QUIET(j) \
    do { \
        counts = either(counts, load(cn + 2 * (j))); \
        row = either(row, load(e + 3 * (j))); \
        last |= e[3 * (j) + 2]; \
    } while (0)
    EACH_CARD(r, QUIET)
    return (either_word(counts) >> 48 | either_word(row) | last) != 0;
}

/* Whether counter q's row is not well-formed. The OR of all c says whether there is an entry. */
INLINE int unsound(const uint64_t *w, size_t r, uint64_t q)
{
    const uint64_t *cn = AT_C(w), *e = AT_ROW(w, r, q);
    if (!is_active(w, q))
        return unsound_quiet(w, r, q);
    uint64_t most = e[3 * w[2] + 2];
    __m128i counts = _mm_setzero_si128();
    if (UNLIKELY(most > cn[w[2]]))
        return 1;
/* n <= p <= c, and with p = 0 no c: p - 1 is then the largest word, and adding c carries. */
#define CARD(j) \
    do { \
        uint64_t p = e[3 * (j)], n = e[3 * (j) + 1], c = e[3 * (j) + 2], sum; \
        most |= c; \
        counts = either(counts, load(cn + 2 * (j))); \
        if (UNLIKELY(p > c) || UNLIKELY(n > p) || UNLIKELY(__builtin_add_overflow(p - 1, c, &sum))) \
            return 1; \
    } while (0)
    EACH_CARD(r, CARD)
    return (most | either_word(counts)) >> 48 != 0 || UNLIKELY(most == 0);
}

/*
 * The same for a counter that is active, with the sum of all p - n and the cards that have an entry:
 * two cards at a time, and no branch: differences that must not be negative go into the OR too, since
 * p - n is there already. Just where p = 0, -p is not negative, and just there -c must not be.
 * `present` is 0 where a row that is not unsound has no entry.
 */
struct scan {
    uint64_t unsound, present, value;
    uint32_t holders;
};

INLINE struct scan scan(const uint64_t *w, size_t r, uint64_t q)
{
    const uint64_t *cn = AT_C(w), *e = AT_ROW(w, r, q);
    const __m128i zero = _mm_setzero_si128();
    __m128i some = zero, others = zero, values = zero;
    struct scan s = {0, 0, 0, 0};
    uint32_t holding;
    uint64_t left = cn[w[2]] - e[3 * w[2] + 2];
#define TWO(p, n, c) \
    do { \
        __m128i value = _mm_sub_epi64(p, n); \
        __m128i minus_p = _mm_sub_epi64(zero, p), minus_c = _mm_sub_epi64(zero, c); \
        others = either(others, either(either(n, c), value)); \
        some = either(some, either(_mm_sub_epi64(c, p), _mm_xor_si128(minus_c, minus_p))); \
        values = _mm_add_epi64(values, value); \
        holding = (uint32_t)_mm_movemask_pd(_mm_castsi128_pd(minus_p)); \
    } while (0)
/* Bits go into `holders` at the low end, since the cards are taken from the last down. */
#define TWO_AT(j) \
    do { \
        __m128i first = load(e + 3 * (j)), second = load(e + 3 * (j) + 3); \
        __m128i p = _mm_unpacklo_epi64(first, second), n = _mm_unpackhi_epi64(first, second); \
        __m128i c = outer(load(e + 3 * (j) + 2), load(e + 3 * (j) + 4)); \
        some = either(some, either(load(cn + 2 * (j)), load(cn + 2 * (j) + 2))); \
        TWO(p, n, c); \
        s.holders = 4 * s.holders + holding; \
    } while (0)
    switch (r / 2) {
    default: TWO_AT(10); /* fall through */
    case 5: TWO_AT(8); /* fall through */
    case 4: TWO_AT(6); /* fall through */
    case 3: TWO_AT(4); /* fall through */
    case 2: TWO_AT(2); /* fall through */
    case 1: TWO_AT(0); /* fall through */
    case 0:;
    }
    if (r % 2) {
        /* The last card, and beside it an absent entry. */
        __m128i last = load(e + 3 * r - 3);
        __m128i p = _mm_move_epi64(last), n = _mm_srli_si128(last, 8);
        __m128i c = _mm_loadl_epi64((const __m128i *)(const void *)(e + 3 * r - 1));
        some = either(some, load(cn + 2 * r - 2));
        TWO(p, n, c);
        s.holders |= holding << (r - 1);
    }
    s.unsound = (left | either_word(either(some, others))) >> 48;
    s.present = either_word(others);
    s.value = low_word(_mm_add_epi64(values, _mm_unpackhi_epi64(values, values)));
    return s;
}

uint64_t peer_open(uint64_t *words, size_t words_len,
                   uint64_t cards, uint64_t counters, uint64_t own)
{
    if (!fits(words_len, cards, counters, own))
        return YELANSUB_BAD_REPLICA;
    memset(words + ACTIVE, 0, (words_len - ACTIVE) * sizeof *words);
    words[0] = cards;
    words[1] = counters;
    words[2] = own;
    return YELANSUB_OK;
}

struct yelansub_reading peer_read(const uint64_t *words, size_t words_len, uint64_t counter)
{
    if (UNLIKELY(!right(words, words_len)))
        return (struct yelansub_reading){.number = YELANSUB_BAD_REPLICA};
    size_t r = words[0];
    if (UNLIKELY(counter >= words[1]))
        return (struct yelansub_reading){.number = YELANSUB_BAD_COUNTER};
    if (!is_active(words, counter)) {
        if (UNLIKELY(unsound_quiet(words, r, counter)))
            return (struct yelansub_reading){.number = YELANSUB_BAD_ROW};
        return (struct yelansub_reading){YELANSUB_OK, 0, 0, 0};
    }
    struct scan s = scan(words, r, counter);
    uint32_t holders = s.holders;
    if (UNLIKELY(s.unsound) || UNLIKELY(holders == 0))
        return (struct yelansub_reading){.number = YELANSUB_BAD_ROW};
    uint32_t ones = holders - (holders >> 1 & 0x555);
    ones = (ones & 0x333) + (ones >> 2 & 0x333);
    ones = (ones + (ones >> 4) + (ones >> 8)) & 0xf;
    return (struct yelansub_reading){YELANSUB_OK, s.value, holders, ones};
}

struct yelansub_active peer_active_counters(const uint64_t *words, size_t words_len)
{
    if (UNLIKELY(!right(words, words_len)))
        return (struct yelansub_active){.number = YELANSUB_BAD_REPLICA};
    return (struct yelansub_active){YELANSUB_OK, words[ACTIVE]};
}

/* The checks of count and clear before the output's length, and the value if `reading`. */
struct unsent {
    uint64_t number, value;
};

INLINE struct unsent unsent(const uint64_t *words, size_t words_len, uint64_t counter, int counting,
                            uint64_t amount, int reading)
{
    if (UNLIKELY(!right(words, words_len)))
        return (struct unsent){YELANSUB_BAD_REPLICA, 0};
    size_t r = words[0], own = words[2];
    if (UNLIKELY(counter >= words[1]))
        return (struct unsent){YELANSUB_BAD_COUNTER, 0};
    if (counting && UNLIKELY(amount - 1 >= YELANSUB_MOST_AMOUNT))
        return (struct unsent){YELANSUB_BAD_AMOUNT, 0};
    uint64_t value = 0;
    if (reading && is_active(words, counter)) {
        struct scan s = scan(words, r, counter);
        if (UNLIKELY(s.unsound) || UNLIKELY(s.present == 0))
            return (struct unsent){YELANSUB_BAD_ROW, 0};
        value = s.value;
    } else if (UNLIKELY(unsound(words, r, counter))) {
        return (struct unsent){YELANSUB_BAD_ROW, 0};
    }
    if (UNLIKELY(AT_N(words, r)[own] == MAX)
        || (counting && UNLIKELY(AT_C(words)[own] + amount > MAX)))
        return (struct unsent){YELANSUB_EXHAUSTED, 0};
    return (struct unsent){YELANSUB_OK, value};
}

struct yelansub_sent peer_count(uint64_t *restrict words, size_t words_len, uint64_t counter,
                                uint64_t amount, uint8_t *restrict out, size_t out_len)
{
    uint64_t number = unsent(words, words_len, counter, 1, amount, 0).number;
    if (UNLIKELY(number))
        return (struct yelansub_sent){.number = number};
    if (UNLIKELY(out_len < YELANSUB_INCREMENT_BYTES))
        return (struct yelansub_sent){.number = YELANSUB_SHORT_OUTPUT};
    size_t r = words[0], own = words[2];
    uint64_t *C = AT_C(words) + own, *N = AT_N(words, r) + own;
    uint64_t *m = AT_ROW(words, r, counter) + 3 * own;
    uint64_t known = *C, start = m[0] == 0;
    uint64_t p = (start ? known : m[0]) + amount;
    uint64_t sequence = *N + 1;
    /* The own c is at most C, so the new one is C + w; n <= p - w, so nothing is removed. */
    words[ACTIVE] |= BIT(counter);
    m[0] = p;
    m[1] = start ? known : m[1];
    m[2] = known + amount;
    *C = known + amount;
    *N = sequence;
    put64(out, INCREMENT);
    put32(out + 8, (uint32_t)own);
    put64(out + 12, sequence);
    put32(out + 20, (uint32_t)counter);
    put64(out + 24, p);
    put64(out + 32, start << 32 | amount);
    return (struct yelansub_sent){YELANSUB_OK, sequence, YELANSUB_INCREMENT_BYTES};
}

INLINE struct yelansub_cleared clear(uint64_t *restrict words, size_t words_len, uint64_t counter,
                                     uint8_t *restrict out, size_t out_len, int reading)
{
    struct unsent checked = unsent(words, words_len, counter, 0, 0, reading);
    if (UNLIKELY(checked.number))
        return (struct yelansub_cleared){.number = checked.number};
    size_t r = words[0], own = words[2];
    uint64_t *e = AT_ROW(words, r, counter);
    if (UNLIKELY(out_len < YELANSUB_CLEAR_BYTES(r))) {
        /* Too short for an entry of every card: are there so many? */
        size_t length = CLEAR_BYTES;
        for (size_t j = 0; j < r; j++)
            length += e[3 * j] ? ENTRY_BYTES : 0;
        if (out_len < length)
            return (struct yelansub_cleared){.number = YELANSUB_SHORT_OUTPUT};
    }
    uint64_t *N = AT_N(words, r) + own;
    uint64_t sequence = *N + 1;
    *N = sequence;
    put64(out, CLEAR);
    put32(out + 8, (uint32_t)own);
    put64(out + 12, sequence);
    put32(out + 20, (uint32_t)counter);
    uint8_t *at = out + CLEAR_BYTES;
    /* The bit says whether there is anything to go through. */
    if (words[ACTIVE] & BIT(counter)) {
        int ahead = 0;
#pragma GCC unroll 4
        for (size_t j = 0; j < r; j++, e += 3) {
            uint64_t p = e[0], c = e[2];
            if (p == 0)
                continue;
            put32(at, (uint32_t)j);
            put64(at + 4, p);
            put64(at + 12, c);
            at += ENTRY_BYTES;
            /* n <= p, so the maximum is (p, p, c), which goes unless c is ahead of C. */
            if (UNLIKELY(c > AT_C(words)[j])) {
                e[1] = p;
                ahead = 1;
            } else {
                memset(e, 0, 3 * sizeof *e);
            }
        }
        if (LIKELY(!ahead))
            words[ACTIVE] &= ~BIT(counter);
    }
    size_t length = (size_t)(at - out);
    put32(out + 24, (uint32_t)(length - CLEAR_BYTES) / ENTRY_BYTES);
    return (struct yelansub_cleared){YELANSUB_OK, checked.value, sequence, length};
}

struct yelansub_sent peer_clear(uint64_t *restrict words, size_t words_len, uint64_t counter,
                                uint8_t *restrict out, size_t out_len)
{
    struct yelansub_cleared made = clear(words, words_len, counter, out, out_len, 0);
    return (struct yelansub_sent){made.number, made.sequence, made.length};
}

struct yelansub_cleared peer_read_and_clear(uint64_t *restrict words, size_t words_len,
                                            uint64_t counter, uint8_t *restrict out, size_t out_len)
{
    return clear(words, words_len, counter, out, out_len, 1);
}

/* The checks of take on the counter, the row, the cards and the sequence. */
INLINE uint64_t untaken(const uint64_t *words, uint32_t counter, uint32_t sender, uint64_t sequence,
                        int known)
{
    size_t r = words[0];
    if (UNLIKELY(counter >= words[1]))
        return YELANSUB_BAD_COUNTER;
    if (UNLIKELY(unsound(words, r, counter)))
        return YELANSUB_BAD_ROW;
    if (UNLIKELY(sender >= r) || UNLIKELY(sender == words[2]) || UNLIKELY(!known))
        return YELANSUB_BAD_CARD;
    uint64_t next = AT_N(words, r)[sender] + 1;
    if (UNLIKELY(sequence != next))
        return sequence < next ? YELANSUB_REPEATED : YELANSUB_EARLY;
    return YELANSUB_OK;
}

#define REFUSED(number) ((struct yelansub_taken){number, 0})

/* Whether some card has an entry in a row that is well-formed but for its bit. */
INLINE int any_present(const uint64_t *row, size_t r)
{
    uint64_t any = 0;
#define PRESENT(j) any |= row[3 * (j)]
    EACH_CARD(r, PRESENT)
    return any != 0;
}

INLINE struct yelansub_taken take_increment(uint64_t *restrict words,
                                            const uint8_t *restrict message, size_t message_len)
{
    if (UNLIKELY(message_len != YELANSUB_INCREMENT_BYTES))
        return REFUSED(YELANSUB_UNREADABLE);
    uint32_t sender = get32(message + 8), counter = get32(message + 20);
    uint64_t sequence = get64(message + 12), p = get64(message + 24);
    uint32_t start = get32(message + 32), amount = get32(message + 36);
    if (UNLIKELY(sender >= YELANSUB_MOST_CARDS) || UNLIKELY(counter >= YELANSUB_MOST_COUNTERS)
        || UNLIKELY(start > 1) || UNLIKELY(amount - 1 >= YELANSUB_MOST_AMOUNT)
        || UNLIKELY(sequence - 1 >= MAX) || UNLIKELY(p - 1 >= MAX))
        return REFUSED(YELANSUB_UNREADABLE);
    uint64_t number = untaken(words, counter, sender, sequence, 1);
    if (UNLIKELY(number))
        return REFUSED(number);
    size_t r = words[0];
    uint64_t *C = AT_C(words) + sender, *N = AT_N(words, r) + sender;
    uint64_t *row = AT_ROW(words, r, counter), *m = row + 3 * sender;
    /* With start p = c, without it w < p <= c; so p - w is C, or 1 to C. */
    uint64_t c = *C + amount, before = p - amount;
    if (UNLIKELY(c > MAX) || UNLIKELY(start ? before != *C : before - 1 >= *C))
        return REFUSED(YELANSUB_IMPLAUSIBLE);
    uint64_t mp = m[0], mn = m[1], mc = max(m[2], c);
    if (start | (mp == 0))
        mn = max(mn, before);
    mp = max(mp, p);
    /*
     * n is at most p, and the new c at least C + w: removed where both are equal. The bit is then one,
     * since there was an entry: with none n is p - w.
     */
    if (LIKELY(mn < mp) || mc != c) {
        m[0] = mp;
        m[1] = mn;
        m[2] = mc;
        words[ACTIVE] |= BIT(counter);
    } else {
        memset(m, 0, 3 * sizeof *m);
        if (!any_present(row, r))
            words[ACTIVE] ^= BIT(counter);
    }
    *C = c;
    *N = sequence;
    return (struct yelansub_taken){YELANSUB_OK, sequence};
}

/*
 * What one entry (q, d) of a clear makes of m; not 0 if m has an entry then. An absent m needs no case
 * of its own: the maximum is (q, q, d), which goes unless d is ahead of C. p = n where n has reached p.
 */
INLINE uint64_t clear_entry(uint64_t *m, uint64_t q, uint64_t d, uint64_t C)
{
    uint64_t p = m[0], n = max(m[1], q), c = max(m[2], d);
    uint64_t keep = if_less(n, p);
    if (UNLIKELY(c > C)) {
        p = max(p, n);
        keep = UINT64_MAX;
    }
    m[0] = p & keep;
    m[1] = n & keep;
    m[2] = c & keep;
    return keep;
}

/* The kinds of clear have functions of their own, so that none saves registers for another. */
static __attribute__((noinline)) struct yelansub_taken take_clear(uint64_t *restrict words,
                                                                  const uint8_t *restrict message,
                                                                  size_t message_len)
{
    size_t entries = get32(message + 24);
    if (UNLIKELY(entries > YELANSUB_MOST_CARDS)
        || UNLIKELY(message_len != YELANSUB_CLEAR_BYTES(entries)))
        return REFUSED(YELANSUB_UNREADABLE);
    uint32_t sender = get32(message + 8), counter = get32(message + 20);
    uint64_t sequence = get64(message + 12);
    if (UNLIKELY(sender >= YELANSUB_MOST_CARDS) || UNLIKELY(counter >= YELANSUB_MOST_COUNTERS)
        || UNLIKELY(sequence - 1 >= MAX))
        return REFUSED(YELANSUB_UNREADABLE);
    size_t r = words[0], own = words[2];
    const uint8_t *first = message + CLEAR_BYTES, *end = message + message_len, *at;
    uint64_t high = 0, low = 0;
    for (at = first; at != end; at += ENTRY_BYTES) {
        uint64_t card = get32(at), p = get64(at + 4), c = get64(at + 12);
        if (UNLIKELY(card < low) || UNLIKELY(p - 1 >= c))
            return REFUSED(YELANSUB_UNREADABLE);
        high |= c;
        low = card + 1;
    }
    /* Cards that rise are below the limit, and below r, where the last is. */
    if (UNLIKELY(high > MAX) || UNLIKELY(low > YELANSUB_MOST_CARDS))
        return REFUSED(YELANSUB_UNREADABLE);
    uint64_t number = untaken(words, counter, sender, sequence, low <= r);
    if (UNLIKELY(number))
        return REFUSED(number);
    const uint64_t *C = AT_C(words);
    for (at = first; at != end; at += ENTRY_BYTES) {
        uint32_t card = get32(at);
        if (((card == own) | (card == sender)) && UNLIKELY(get64(at + 12) > C[card]))
            return REFUSED(YELANSUB_IMPLAUSIBLE);
    }
    uint64_t *row = AT_ROW(words, r, counter), kept = 0;
    for (at = first; at != end; at += ENTRY_BYTES) {
        size_t card = get32(at);
        kept |= clear_entry(row + 3 * card, get64(at + 4), get64(at + 12), C[card]);
    }
    if (kept)
        words[ACTIVE] |= BIT(counter);
    else if (entries && !any_present(row, r))
        words[ACTIVE] &= ~BIT(counter);
    AT_N(words, r)[sender] = sequence;
    return (struct yelansub_taken){YELANSUB_OK, sequence};
}

/*
 * A clear with an entry for each of the r cards, and as long: which card each is for is known
 * beforehand. If anything is amiss nothing is changed, and take_clear says what.
 */
static __attribute__((noinline)) struct yelansub_taken take_full_clear(uint64_t *restrict words,
                                                                       const uint8_t *restrict message,
                                                                       size_t message_len)
{
#define AMISS(x) \
    if (UNLIKELY(x)) \
        return take_clear(words, message, message_len)
    uint32_t sender = get32(message + 8), counter = get32(message + 20);
    uint64_t sequence = get64(message + 12);
    size_t r = words[0], own = words[2];
    AMISS(counter >= words[1]);
    AMISS(sender >= r);
    AMISS(sender == own);
    const uint64_t *C = AT_C(words);
    uint64_t *N = AT_N(words, r), *row = AT_ROW(words, r, counter), high = sequence, kept = 0;
    const uint8_t *entries = message + CLEAR_BYTES;
#define NAMED(j) get32(entries + ENTRY_BYTES * (j))
#define Q(j) get64(entries + ENTRY_BYTES * (j) + 4)
#define D(j) get64(entries + ENTRY_BYTES * (j) + 12)
    AMISS(N[sender] + 1 != sequence);
    AMISS(D(own) > C[own]);
    AMISS(D((size_t)sender) > C[sender]);
    AMISS(unsound(words, r, counter));
#define CHECK(j) \
    do { \
        uint64_t q = Q(j), d = D(j); \
        AMISS(NAMED(j) != (j)); \
        AMISS(q - 1 >= d); \
        high |= d; \
    } while (0)
    EACH_CARD(r, CHECK)
    AMISS(high > MAX);
#define APPLY(j) kept |= clear_entry(row + 3 * (j), Q(j), D(j), C[j])
    EACH_CARD(r, APPLY)
    words[ACTIVE] = (words[ACTIVE] & ~BIT(counter)) | (kept & BIT(counter));
    N[sender] = sequence;
    return (struct yelansub_taken){YELANSUB_OK, sequence};
}

struct yelansub_taken peer_take(uint64_t *words, size_t words_len,
                                const uint8_t *message, size_t message_len)
{
    if (UNLIKELY(!right(words, words_len)))
        return REFUSED(YELANSUB_BAD_REPLICA);
    if (UNLIKELY(message_len < CLEAR_BYTES))
        return REFUSED(YELANSUB_UNREADABLE);
    uint64_t kind = get64(message);
    if (kind == INCREMENT)
        return take_increment(words, message, message_len);
    if (UNLIKELY(kind != CLEAR))
        return REFUSED(YELANSUB_UNREADABLE);
    size_t entries = get32(message + 24);
    if (entries == words[0] && LIKELY(message_len == YELANSUB_CLEAR_BYTES(entries)))
        return take_full_clear(words, message, message_len);
    return take_clear(words, message, message_len);
}
