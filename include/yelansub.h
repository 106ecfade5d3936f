/*
 * yelansub.h - replicated clearing counters for a chassis of line cards.
 *
 * Each card keeps a replica: plain words that the driver owns. Counting and
 * clearing change the own replica at once and write a message, which the driver
 * carries to every other card.
 *
 * What is proved. Open one replica on each card, then count, clear, read and
 * clear, and take in any order, with any counters, buffers and bytes, over a
 * network that may lose, repeat, reorder and damage messages. After every such
 * history a read of any counter on any card is accepted, and is what the
 * counter's ledger has for that card, fed the accepted calls; cards that have
 * received the same messages read alike; and no call moves a counter other than
 * its own. For a counter that only one card clears, always by
 * yelansub_read_and_clear, the values that it answered there plus what a read
 * on that card gives now are exactly as many as the increments of that counter
 * that the card has received, its own included, an increment by w counting as
 * w. Refused clears, and clears of other counters, do not matter for that.
 * Where a counter is quiet on a card (yelansub_read), no increment of it that
 * the card has still to receive is cancelled there already, and none that it
 * has received is still counted. yelansub_active_counters names exactly the
 * counters that are not quiet on the card.
 * yelansub_take answers a message that its sender wrote with 0 if it is the
 * next of that sender, 8 if it was taken before, 9 if an earlier one is
 * missing, 7 on the sender itself, and nothing else. What was answered 0 or 8
 * is answered 8 ever after, and all of a card's messages, sent again in order,
 * are answered 0 or 8 each time, whatever was lost. So a driver that sends
 * again until it is answered 0 or 8 is right (examples/resend.c).
 *
 * What the driver has to keep for that:
 *   - No forged message is accepted: bytes that yelansub_take answers with 0
 *     were written before by the card that they name as sender. The format has
 *     no checksum: a link that can damage bytes needs one below.
 *   - A card is opened once, and its words survive a restart: they are stored
 *     before a message made from them, or an answer, leaves the card. Opened
 *     again, or restored to an earlier state, it reuses sequence numbers, and the
 *     others answer 8 to drops that they never had.
 *   - What a card wrote is kept until every other card has answered it with 0
 *     or 8: it cannot be written again, and until it comes all later ones are
 *     9.
 *   - One chassis to a network: messages carry no chassis number.
 *
 * What counters share is a card's sequence numbers and units (4), the order of
 * its link (9) and, in a run, its log (14): one counter's messages use these up
 * for all.
 *
 * Nothing here prints, allocates, blocks or keeps state, so calls on different
 * replicas may run at the same time. Every call takes any pointer and length
 * that are valid memory, NULL with length 0 included, and answers by number.
 * Words are aligned as uint64_t. Buffers of one call must not overlap. A
 * refused call writes nothing: replica, output, logs and answers stay as they
 * were, and the other numbers of its answer are 0.
 *
 * In a module of the Linux kernel, link an archive that scripts/build-for has
 * built for a kernel, and no other: examples/kernel/README.md.
 */
#ifndef YELANSUB_H
#define YELANSUB_H

#ifdef __KERNEL__
#include <linux/types.h>
#else
#include <stddef.h>
#include <stdint.h>
#endif

#ifdef __cplusplus
extern "C" {
#endif

/* Limits: cards 0 to r - 1, counters 0 to k - 1, with r and k at least 1. */
#define YELANSUB_MOST_CARDS 12
#define YELANSUB_MOST_COUNTERS 64
/* A count is by an amount from 1 to this. */
#define YELANSUB_MOST_AMOUNT 65535
/* The largest sequence, and the most units that one card counts: 2^48 - 1. */
#define YELANSUB_MAX ((uint64_t)281474976710655)

/* Words of one replica, for r cards and k counters. */
#define YELANSUB_REPLICA_WORDS(cards, counters) \
    (4 + 2 * (size_t)(cards) + 3 * (size_t)(cards) * (size_t)(counters))

/* Bytes of a message: an increment, one of version 1, a clear of e entries, the longest. */
#define YELANSUB_INCREMENT_BYTES 40
#define YELANSUB_PLAIN_INCREMENT_BYTES 36
#define YELANSUB_CLEAR_BYTES(entries) (28 + 20 * (size_t)(entries))
#define YELANSUB_LONGEST_MESSAGE YELANSUB_CLEAR_BYTES(YELANSUB_MOST_CARDS)

/* The version of a message that every call writes and reads; the version before, without an
   amount, which only the calls for a message alone and those that convert a log know; and the
   kinds. */
#define YELANSUB_MESSAGE_VERSION 2
#define YELANSUB_MESSAGE_VERSION_1 1
#define YELANSUB_MESSAGE_INCREMENT 1
#define YELANSUB_MESSAGE_CLEAR 2

/* Bytes of one step of yelansub_run. */
#define YELANSUB_STEP_BYTES 16
/* Words of answer for each step: its number, and the value read. */
#define YELANSUB_ANSWER_WORDS 2

/* Numbers that a call answers. */
#define YELANSUB_OK 0
#define YELANSUB_BAD_REPLICA 1      /* length, r, k, own card or bits at k and above wrong */
#define YELANSUB_BAD_ROW 2          /* the counter's row is not well-formed */
#define YELANSUB_BAD_COUNTER 3      /* counter not below k */
#define YELANSUB_EXHAUSTED 4        /* the card has no message, or too few units, left */
#define YELANSUB_SHORT_OUTPUT 5     /* output shorter than the message, or than the converted log */
#define YELANSUB_UNREADABLE 6       /* bytes to read, or a struct to write, are no message or log */
#define YELANSUB_BAD_CARD 7         /* a card not below r, or the own card as sender */
#define YELANSUB_REPEATED 8         /* this message of the sender has been taken */
#define YELANSUB_EARLY 9            /* an earlier message of the sender is missing */
#define YELANSUB_IMPLAUSIBLE 10     /* no card can have sent this next */
#define YELANSUB_BAD_SIZES 11       /* sizes of a run wrong */
#define YELANSUB_BAD_KIND 12        /* no such kind of step */
#define YELANSUB_NOTHING_WAITING 13 /* nothing to deliver on this link */
#define YELANSUB_LOG_FULL 14        /* the card's log is too short for the message */
#define YELANSUB_BAD_LOG 15         /* a log does not begin with what its card has made */
#define YELANSUB_BAD_AMOUNT 16      /* amount out of range, or not 0 where nothing is counted */
#define YELANSUB_ABOVE_ONE 17       /* an amount above 1 on the way to version 1 */

/* Kinds of step. */
#define YELANSUB_STEP_COUNT 1          /* card, counter, amount */
#define YELANSUB_STEP_CLEAR 2          /* card, counter */
#define YELANSUB_STEP_DELIVER 3        /* receiver, sender */
#define YELANSUB_STEP_READ_AND_CLEAR 4 /* card, counter */

/*
 * Writes a fresh replica of card `own` for `cards` cards and `counters`
 * counters. Answers 0, or
 *   1  words_len is not YELANSUB_REPLICA_WORDS(cards, counters), cards is not 1
 *      to YELANSUB_MOST_CARDS, counters is not 1 to YELANSUB_MOST_COUNTERS, or
 *      own is not below cards.
 * The words are, in order: r, k, own card; the active counters, a bit each, bit
 * q for counter q; C[j] for each card, its units received, w for an increment by
 * w; N[j] for each card, its messages received; then, counter by counter, p, n
 * and c for each card, zeros where that card has no entry.
 *
 * Words that a library without the active counters has stored are one word
 * shorter. Before the first call on them insert that word, words_len being the
 * new length:
 *     memmove(words + 4, words + 3, (words_len - 4) * sizeof *words);
 *     words[3] = 0;
 *     for (q = 0; q < k; q++)
 *         for (j = 0; j < r; j++)
 *             if (words[YELANSUB_REPLICA_WORDS(r, q) + 3 * j] != 0)
 *                 words[3] |= (uint64_t)1 << q;
 * Go by the length that was stored: lent with it, old words are refused with 1
 * (11 by yelansub_deliver_pending), but lent one word longer no call can tell,
 * and they may be accepted, read wrongly and written over.
 */
uint64_t yelansub_open(uint64_t *words, size_t words_len,
                       uint64_t cards, uint64_t counters, uint64_t own);

struct yelansub_reading {
    uint64_t number;
    uint64_t value;        /* units received and not cleared: at most YELANSUB_MAX of each card */
    uint64_t holders;      /* bit j is one if card j has an entry */
    uint64_t holder_count; /* ones in holders */
};

/*
 * Reads one counter. Refused with, in this order,
 *   1  the words are no replica (length, r, k, own card, or a one at bit k or
 *      above in the active counters),
 *   3  counter is not below k,
 *   2  the counter's row is not well-formed, or its bit of the active counters
 *      does not agree with it: memory was damaged.
 *
 * The counter is quiet on this card when number is 0 and holders == 0. That is
 * not value == 0: a value can be 0 while counts that are cleared here are still
 * under way, and then holders is not 0. A count that is under way and not
 * cleared does not keep the counter from being quiet. A refused read has
 * holders == 0 too, and says nothing of the counter.
 */
struct yelansub_reading yelansub_read(const uint64_t *words, size_t words_len, uint64_t counter);

struct yelansub_active {
    uint64_t number;
    uint64_t counters; /* bit q is one if counter q is active */
};

/*
 * Which counters are active: a counter is active on this card while some card
 * has an entry in its row, that is while it is not quiet. The first four words
 * are looked at and no row, so this takes as long for 64 counters as for one.
 * Where the words were only written by calls of this library it is the set of
 * counters whose yelansub_read gives holders != 0: a zero bit of an accepted
 * answer says quiet, as a read would. Bits from k on are 0. Damaged rows are not
 * seen here, only by a call on their counter (2). Refused with
 *   1  as yelansub_read, and nothing else; then counters is 0 and says nothing.
 */
struct yelansub_active yelansub_active_counters(const uint64_t *words, size_t words_len);

struct yelansub_sent {
    uint64_t number;
    uint64_t sequence; /* of the message made, counting this card's from 1 */
    uint64_t length;   /* bytes of it written to out; those past it keep their values */
};

/*
 * Counts `amount` on the own card, all of it or nothing, and writes one message
 * to send, always of YELANSUB_INCREMENT_BYTES. To all that is read, cleared and
 * added up it is as many increments by one, with nothing between them. Refused
 * with, in this order,
 *   1, 3  as yelansub_read,
 *   16  amount is not 1 to YELANSUB_MOST_AMOUNT,
 *   2   as yelansub_read,
 *   4   the card has made its last message, or its C and the amount are above
 *       YELANSUB_MAX,
 *   5   out_len is below YELANSUB_INCREMENT_BYTES.
 * After a refusal neither the replica nor the output has changed: the drops are
 * not counted.
 */
struct yelansub_sent yelansub_count(uint64_t *words, size_t words_len, uint64_t counter,
                                    uint64_t amount, uint8_t *out, size_t out_len);

/*
 * Clears what this card has seen of a counter and writes the message to send,
 * YELANSUB_CLEAR_BYTES of its number of holders; YELANSUB_LONGEST_MESSAGE bytes
 * of output are enough for any. Refused with, in this order,
 *   1, 3, 2  as yelansub_read,
 *   4  the card has made its last message,
 *   5  out_len is below the length of this message.
 */
struct yelansub_sent yelansub_clear(uint64_t *words, size_t words_len, uint64_t counter,
                                    uint8_t *out, size_t out_len);

struct yelansub_cleared {
    uint64_t number;
    uint64_t value;    /* as yelansub_read gives it just before */
    uint64_t sequence; /* as yelansub_clear answers it */
    uint64_t length;
};

/*
 * Reads and clears in one call. Between a yelansub_read and the yelansub_clear
 * after it a count can slip in, and is cleared without having been read; here
 * nothing comes in between. Refusals, and all that it leaves in words and out,
 * are those of yelansub_clear. Where one card alone clears a counter, always by
 * this call, the values answered and its present value add up to the number of
 * units that it has received.
 */
struct yelansub_cleared yelansub_read_and_clear(uint64_t *words, size_t words_len, uint64_t counter,
                                                uint8_t *out, size_t out_len);

struct yelansub_taken {
    uint64_t number;
    uint64_t sequence; /* of the message taken */
};

/*
 * Takes one message of another card. Messages of one sender must come in the
 * order made; those of different senders may come in any. Refused with, in this
 * order,
 *   1   the words are no replica,
 *   6   the bytes are not exactly one message of YELANSUB_MESSAGE_VERSION, or a
 *       field is out of range,
 *   3   the message's counter is not below k,
 *   2   the counter's row is not well-formed,
 *   7   the sender or a card of the message is not below r, or the sender is
 *       this card,
 *   8   this message has been taken before: drop it,
 *   9   a message of this sender is missing before it: keep it and try again,
 *   10  no card of this chassis can have sent it next.
 */
struct yelansub_taken yelansub_take(uint64_t *words, size_t words_len,
                                    const uint8_t *message, size_t message_len);

struct yelansub_clear_entry {
    uint32_t card; /* below YELANSUB_MOST_CARDS, above the card of the entry before */
    uint64_t p, c; /* 1 <= p <= c <= YELANSUB_MAX */
};

/*
 * A message held whole. An increment uses p, start and, but in version 1, amount;
 * a clear len and the first len entries. All that its version and its kind do not
 * use is 0, the entries from len on included. So a message has one form.
 */
struct yelansub_message {
    uint32_t version;  /* YELANSUB_MESSAGE_VERSION or YELANSUB_MESSAGE_VERSION_1 */
    uint32_t kind;     /* YELANSUB_MESSAGE_INCREMENT or YELANSUB_MESSAGE_CLEAR */
    uint32_t sender;   /* below YELANSUB_MOST_CARDS */
    uint64_t sequence; /* 1 to YELANSUB_MAX, counting the sender's messages from 1 */
    uint32_t counter;  /* below YELANSUB_MOST_COUNTERS */
    uint64_t p;        /* increment: 1 to YELANSUB_MAX */
    uint32_t start;    /* increment: 0 or 1 */
    uint32_t amount;   /* increment: 1 to YELANSUB_MOST_AMOUNT, but 0 in version 1 */
    size_t len;        /* clear: how many entries, 0 to YELANSUB_MOST_CARDS */
    struct yelansub_clear_entry entries[YELANSUB_MOST_CARDS];
};

struct yelansub_message_reading {
    uint64_t number;
    struct yelansub_message message; /* all zeros after a refusal */
};

/*
 * Reads bytes as one message, of either version, and changes nothing: to trace
 * what goes over a link. Refused with
 *   6  the bytes are not exactly one message, or a field is out of range.
 * A message that reads may still be one that yelansub_take refuses: the format
 * knows no r, no k and no replica.
 */
struct yelansub_message_reading yelansub_read_message(const uint8_t *bytes, size_t bytes_len);

struct yelansub_written {
    uint64_t number;
    size_t length; /* bytes written to out; those past it keep their values */
};

/*
 * Writes a message, of either version, to the first bytes of out:
 * YELANSUB_INCREMENT_BYTES for an increment, in version 1
 * YELANSUB_PLAIN_INCREMENT_BYTES, and YELANSUB_CLEAR_BYTES(len) for a clear. What
 * it writes, yelansub_read_message reads as the same message; what that call has
 * read is written as the same bytes. Refused with, in this order,
 *   6  a field is out of range, or one that the version or the kind does not use
 *      is not 0,
 *   5  out_len is below the length of this message.
 * After a refusal no byte of out has changed.
 */
struct yelansub_written yelansub_write_message(struct yelansub_message message,
                                               uint8_t *out, size_t out_len);

/*
 * Converts a log of version 1 messages, as a card with the older firmware has
 * made it, to YELANSUB_MESSAGE_VERSION. The log holds messages end to end;
 * their senders, and whether they are numbered in order, are not looked at. An
 * increment gains the amount 1, and so 4 bytes; a clear changes its version
 * only. An empty log converts to an empty one: 0, with length 0. Refused with, in
 * this order,
 *   6  the bytes are not messages of version 1 end to end, with nothing left
 *      over,
 *   5  out_len is below the length of the converted log, which is at most
 *      log_len + log_len / 9.
 * After a refusal no byte of out has changed. log and out are different buffers.
 * What was written, yelansub_to_version_1 converts to the same bytes as before.
 * Taken in the same order, the converted messages of a run of version 1 cards
 * leave the replicas that theirs leave there.
 */
struct yelansub_written yelansub_to_version_2(const uint8_t *log, size_t log_len,
                                              uint8_t *out, size_t out_len);

/*
 * The way back: from YELANSUB_MESSAGE_VERSION to version 1, for a log in which
 * every amount is 1. An increment loses its amount, and so 4 bytes; a clear
 * changes its version only. Refused with, in this order,
 *   6   the bytes are not messages of YELANSUB_MESSAGE_VERSION end to end, with
 *       nothing left over,
 *   17  some amount is above 1,
 *   5   out_len is below the length of the converted log, which is at most
 *       log_len.
 * So in a chassis with older cards every card counts by 1: a message with a
 * larger amount cannot be handed to them, nor what its card makes after it.
 * Everything else is as in yelansub_to_version_2, which converts what was written
 * to the same bytes as before.
 */
struct yelansub_written yelansub_to_version_1(const uint8_t *log, size_t log_len,
                                              uint8_t *out, size_t out_len);

struct yelansub_span {
    uint64_t start;
    uint64_t length;
};

/*
 * Where message number q of a log stands, counting from 1. The log holds
 * messages end to end. Answers start and length in bytes, or 0 and 0 if q is 0
 * or the log does not begin with q messages of YELANSUB_MESSAGE_VERSION that
 * read.
 */
struct yelansub_span yelansub_waiting(const uint8_t *log, size_t log_len, uint64_t q);

/*
 * Runs steps on a whole chassis that begins fresh. words holds the cards'
 * replicas, card by card; logs holds log_bytes bytes for each card, where its
 * messages are put end to end; answers has YELANSUB_ANSWER_WORDS words for each
 * step. A step is four unsigned ints, big-endian: kind (YELANSUB_STEP_...), then
 * card and counter, or receiver and sender, then the amount of a count, and 0 for
 * the other kinds. Answers 0, or
 *   11  cards is not 1 to YELANSUB_MOST_CARDS, counters is not 1 to
 *       YELANSUB_MOST_COUNTERS, steps_len is no multiple of
 *       YELANSUB_STEP_BYTES, or words_len, logs_len or answers_len does not fit.
 * The first word of a step's answer is 0, or the first of
 *   12  there is no such kind,
 *   7   a card is not below cards, or a delivery names one card twice,
 *   3   the counter is not below counters (not for a delivery),
 *   16  the amount of a count is not 1 to YELANSUB_MOST_AMOUNT, or that of
 *       another kind is not 0,
 *   4   as yelansub_count and yelansub_clear (not for a delivery),
 *   14  the card's log has too little room left (not for a delivery),
 *   13  the sender has no message that the receiver has not had (delivery).
 * The second is the value that an accepted YELANSUB_STEP_READ_AND_CLEAR has
 * read, and 0 for all others.
 * A refused step changes no replica and no log; the run goes on after it. Log
 * bytes past a card's messages keep their values and never count as messages.
 */
uint64_t yelansub_run(uint64_t cards, uint64_t counters, uint64_t log_bytes,
                      const uint8_t *steps, size_t steps_len,
                      uint64_t *words, size_t words_len,
                      uint8_t *logs, size_t logs_len,
                      uint64_t *answers, size_t answers_len);

struct yelansub_step {
    uint32_t kind, first, second, amount;
};

/*
 * The same run of steps given as records; steps_len counts records. Refusals are
 * those of yelansub_run.
 */
uint64_t yelansub_run_records(uint64_t cards, uint64_t counters, uint64_t log_bytes,
                              const struct yelansub_step *steps, size_t steps_len,
                              uint64_t *words, size_t words_len,
                              uint8_t *logs, size_t logs_len,
                              uint64_t *answers, size_t answers_len);

struct yelansub_delivered {
    uint64_t number;
    uint64_t deliveries; /* how many it made, which is how far the total waiting has fallen */
};

/*
 * Delivers what waits, over the words and logs that a run has left. It makes at
 * most `most` deliveries, in rounds: receivers rising, within each the senders
 * rising, one message from each link that has one waiting. A message waits on
 * the link from one card to another while the sender's own N is above the
 * receiver's N of it. Every delivery is that of a YELANSUB_STEP_DELIVER. Each
 * call begins at receiver 0 and sender 0; most is any number. The logs are only
 * read. Refused with, in this order, each over all cards before the next,
 *   11  cards is not 1 to YELANSUB_MOST_CARDS, counters is not 1 to
 *       YELANSUB_MOST_COUNTERS, or words_len or logs_len does not fit,
 *   1   a replica's first words are not cards, counters and its place (card i
 *       is in place i), or it has a one at bit k or above,
 *   2   a row of a replica is not well-formed,
 *   15  a log does not begin with its card's messages 1 to its own N, or some
 *       card's N of it is above that. Log bytes past them are not looked at.
 * It stops only at most, or when no link that is not passed over has a message
 * waiting. A link is passed over, for the rest of the call, when yelansub_take
 * declines its message: that stays waiting and is not counted.
 *
 * After a run, and after such calls on what it left, no link is passed over. The
 * message in place q of its link is then taken within the first
 * q * cards * (cards - 1) deliveries, if most allows. With most at least the
 * total waiting, all cards afterwards agree on every counter's value and holders.
 */
struct yelansub_delivered yelansub_deliver_pending(uint64_t cards, uint64_t counters,
                                                   uint64_t log_bytes, uint64_t most,
                                                   uint64_t *words, size_t words_len,
                                                   const uint8_t *logs, size_t logs_len);

#ifdef __cplusplus
}
#endif

#endif
