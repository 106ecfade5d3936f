/*
 * Two line cards in one module. Card 0 counts drops, card 1 takes the message and clears, and before
 * card 0 takes the clear it counts again. What happens is printed when the module is loaded.
 */
#define pr_fmt(fmt) KBUILD_MODNAME ": " fmt
#include <linux/errno.h>
#include <linux/init.h>
#include <linux/module.h>
#include <linux/printk.h>

#include "yelansub.h"

enum { CARDS = 2, COUNTERS = 1, PARTITION = 0 };
enum { WORDS = YELANSUB_REPLICA_WORDS(CARDS, COUNTERS) };

/* In a driver each card has its own, and a lock that keeps the calls on it apart. */
static uint64_t replica[CARDS][WORDS];

struct packet {
	uint64_t length;
	uint8_t bytes[YELANSUB_LONGEST_MESSAGE];
};

static int refused(unsigned int card, const char *what, uint64_t number)
{
	pr_err("card %u: %s refused, %llu\n", card, what, number);
	return -EINVAL;
}

static int open(unsigned int card)
{
	uint64_t number = yelansub_open(replica[card], WORDS, CARDS, COUNTERS, card);

	return number ? refused(card, "open", number) : 0;
}

static int count(unsigned int card, uint64_t lot, struct packet *to)
{
	struct yelansub_sent sent =
		yelansub_count(replica[card], WORDS, PARTITION, lot, to->bytes, sizeof(to->bytes));

	if (sent.number)
		return refused(card, "count", sent.number);
	to->length = sent.length;
	pr_info("card %u: lot of %llu, message %llu of %llu bytes\n", card, lot, sent.sequence, sent.length);
	return 0;
}

static int read_and_clear(unsigned int card, struct packet *to)
{
	struct yelansub_cleared sent =
		yelansub_read_and_clear(replica[card], WORDS, PARTITION, to->bytes, sizeof(to->bytes));

	if (sent.number)
		return refused(card, "clear", sent.number);
	to->length = sent.length;
	pr_info("card %u: %llu drops, cleared, message %llu of %llu bytes\n", card, sent.value, sent.sequence,
		sent.length);
	return 0;
}

static int take(unsigned int card, const struct packet *from)
{
	struct yelansub_taken taken = yelansub_take(replica[card], WORDS, from->bytes, from->length);

	if (taken.number)
		return refused(card, "message", taken.number);
	pr_info("card %u: took message %llu\n", card, taken.sequence);
	return 0;
}

static int show(unsigned int card)
{
	struct yelansub_reading reading = yelansub_read(replica[card], WORDS, PARTITION);

	if (reading.number)
		return refused(card, "read", reading.number);
	pr_info("card %u: %llu drops, holders %llx\n", card, reading.value, reading.holders);
	return 0;
}

static int __init example_init(void)
{
	static struct packet first, second, cleared;

	/* The first that is refused ends it, and the module is not loaded. */
	return open(0) ?: open(1) ?:
	       count(0, 3, &first) ?: take(1, &first) ?: show(1) ?:
	       read_and_clear(1, &cleared) ?: show(1) ?:
	       count(0, 2, &second) ?: take(0, &cleared) ?: show(0) ?:
	       take(1, &second) ?: show(1);
}

static void __exit example_exit(void)
{
}

module_init(example_init);
module_exit(example_exit);
MODULE_LICENSE("GPL");
MODULE_DESCRIPTION("Replicated clearing counters of two line cards");
