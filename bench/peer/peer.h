/*
 * The calls of yelansub.h on one replica, written by hand in C for speed: the peer that the proved
 * library is measured against. Same answers, same words, same bytes, for all inputs; tests/peer.c
 * compares them. Limits, types and numbers are the header's. Buffers of one call must not overlap.
 */
#ifndef PEER_H
#define PEER_H

#include "yelansub.h"

uint64_t peer_open(uint64_t *words, size_t words_len,
                   uint64_t cards, uint64_t counters, uint64_t own);
struct yelansub_reading peer_read(const uint64_t *words, size_t words_len, uint64_t counter);
struct yelansub_active peer_active_counters(const uint64_t *words, size_t words_len);
struct yelansub_sent peer_count(uint64_t *words, size_t words_len, uint64_t counter,
                                uint64_t amount, uint8_t *out, size_t out_len);
struct yelansub_sent peer_clear(uint64_t *words, size_t words_len, uint64_t counter,
                                uint8_t *out, size_t out_len);
struct yelansub_cleared peer_read_and_clear(uint64_t *words, size_t words_len, uint64_t counter,
                                            uint8_t *out, size_t out_len);
struct yelansub_taken peer_take(uint64_t *words, size_t words_len,
                                const uint8_t *message, size_t message_len);

#endif
