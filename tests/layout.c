/*
 * The layout of every struct of yelansub.h on x86-64, System V, which is what the archive was compiled
 * for, and on every target of scripts/build-for. reference/src/library.rs holds Rust to the same
 * numbers. Compiled, not run, by tests/layout.sh, as C and as C++; that script also sees to it that no
 * field is left out here.
 */
#include <assert.h>
#include <stdalign.h>
#include <stddef.h>
#include <stdint.h>

#include "yelansub.h"
#include "format.h" /* FORMAT_...: the constants of include/message.x, put there by layout.sh */

#define STRUCT(type, size, alignment)                                                               \
    static_assert(sizeof(struct type) == (size), "size of " #type);                                 \
    static_assert(alignof(struct type) == (alignment), "alignment of " #type)

#define FIELD(type, field, at, size)                                                                \
    static_assert(offsetof(struct type, field) == (at), "place of " #type "." #field);              \
    static_assert(sizeof(((struct type *)0)->field) == (size), "size of " #type "." #field)

STRUCT(yelansub_reading, 32, 8);
FIELD(yelansub_reading, number, 0, 8);
FIELD(yelansub_reading, value, 8, 8);
FIELD(yelansub_reading, holders, 16, 8);
FIELD(yelansub_reading, holder_count, 24, 8);

STRUCT(yelansub_active, 16, 8);
FIELD(yelansub_active, number, 0, 8);
FIELD(yelansub_active, counters, 8, 8);

STRUCT(yelansub_sent, 24, 8);
FIELD(yelansub_sent, number, 0, 8);
FIELD(yelansub_sent, sequence, 8, 8);
FIELD(yelansub_sent, length, 16, 8);

STRUCT(yelansub_cleared, 32, 8);
FIELD(yelansub_cleared, number, 0, 8);
FIELD(yelansub_cleared, value, 8, 8);
FIELD(yelansub_cleared, sequence, 16, 8);
FIELD(yelansub_cleared, length, 24, 8);

STRUCT(yelansub_taken, 16, 8);
FIELD(yelansub_taken, number, 0, 8);
FIELD(yelansub_taken, sequence, 8, 8);

STRUCT(yelansub_clear_entry, 24, 8);
FIELD(yelansub_clear_entry, card, 0, 4);
FIELD(yelansub_clear_entry, p, 8, 8);
FIELD(yelansub_clear_entry, c, 16, 8);

STRUCT(yelansub_message, 56 + 24 * YELANSUB_MOST_CARDS, 8);
FIELD(yelansub_message, version, 0, 4);
FIELD(yelansub_message, kind, 4, 4);
FIELD(yelansub_message, sender, 8, 4);
FIELD(yelansub_message, sequence, 16, 8);
FIELD(yelansub_message, counter, 24, 4);
FIELD(yelansub_message, p, 32, 8);
FIELD(yelansub_message, start, 40, 4);
FIELD(yelansub_message, amount, 44, 4);
FIELD(yelansub_message, len, 48, 8);
FIELD(yelansub_message, entries, 56, 24 * YELANSUB_MOST_CARDS);

STRUCT(yelansub_message_reading, 64 + 24 * YELANSUB_MOST_CARDS, 8);
FIELD(yelansub_message_reading, number, 0, 8);
FIELD(yelansub_message_reading, message, 8, 56 + 24 * YELANSUB_MOST_CARDS);

STRUCT(yelansub_written, 16, 8);
FIELD(yelansub_written, number, 0, 8);
FIELD(yelansub_written, length, 8, 8);

STRUCT(yelansub_span, 16, 8);
FIELD(yelansub_span, start, 0, 8);
FIELD(yelansub_span, length, 8, 8);

STRUCT(yelansub_step, 16, 4);
FIELD(yelansub_step, kind, 0, 4);
FIELD(yelansub_step, first, 4, 4);
FIELD(yelansub_step, second, 8, 4);
FIELD(yelansub_step, amount, 12, 4);

STRUCT(yelansub_delivered, 16, 8);
FIELD(yelansub_delivered, number, 0, 8);
FIELD(yelansub_delivered, deliveries, 8, 8);

/* The message format says what the header says. */
static_assert(FORMAT_MESSAGE_VERSION == YELANSUB_MESSAGE_VERSION, "version");
static_assert(FORMAT_MESSAGE_VERSION_1 == YELANSUB_MESSAGE_VERSION_1, "the version before");
static_assert(FORMAT_INCREMENT == YELANSUB_MESSAGE_INCREMENT, "kind of an increment");
static_assert(FORMAT_CLEAR == YELANSUB_MESSAGE_CLEAR, "kind of a clear");
static_assert(FORMAT_MOST_CARDS == YELANSUB_MOST_CARDS, "cards");
static_assert(FORMAT_MOST_COUNTERS == YELANSUB_MOST_COUNTERS, "counters");
static_assert(FORMAT_MOST_AMOUNT == YELANSUB_MOST_AMOUNT, "amount");
