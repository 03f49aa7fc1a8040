/* What the bench's archive exports, beside the three calls of the firmware's. */
#ifndef REEDSATCHEL_BENCH_CALLS_H
#define REEDSATCHEL_BENCH_CALLS_H

#include "reedsatchel.h"

/* Reads bytes from outside a frame, call k handed at most sizes[k] of those not taken yet; into is lent to every call. Answers the number
 * of frames read well. */
uint64_t reedsatchel_bench_stream(const uint8_t *bytes, size_t n, const uint32_t *sizes, size_t calls, uint8_t *into, size_t room);

/* A factory board with this identity and these readings, handed bytes in the same way; its replies are end to end at the front of out,
 * each call being lent what is left of it. Answers their length together. */
uint64_t reedsatchel_bench_board(uint16_t product, uint16_t version, const uint8_t *serial, size_t serial_len, int64_t voltage,
                                 int64_t current, int64_t fine, int64_t consumed, int64_t charge, const uint8_t *bytes, size_t n,
                                 const uint32_t *sizes, size_t calls, uint8_t *out, size_t room);

#endif
