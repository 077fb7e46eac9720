/* The billing of a power pool, as C calls it.
 *
 * A call never fails in any other way than by its answer, keeps nothing, allocates nothing and writes only where it says. Of several faults the one with
 * the smallest number is answered.
 *
 * Of each pointer and length the host says that so many bytes lie there, for the call alone; no pointer is null, also at length 0, and the bytes that a
 * call reads are not those that it writes. */
#ifndef GIBZURG_H
#define GIBZURG_H

#include <stddef.h>
#include <stdint.h>

#ifdef __cplusplus
extern "C" {
#endif

/* The bytes of a day's dump, and of the hours that are worked from it. */
#define GIBZURG_DUMP_BYTES 1536
#define GIBZURG_HOURS_BYTES 384

/* Faults of a meter's day. */
#define GIBZURG_OUTPUT_TOO_SHORT 1
#define GIBZURG_DUMP_LENGTH 15
#define GIBZURG_QUARTER 16

/* The fault of a packet. */
#define GIBZURG_MALFORMED 17

/* What a call answers: the number and the place of its fault, or 0 and 0 where there is none. */
typedef struct {
    uint32_t number;
    uint32_t place;
} gibzurg_answer;

/* Meters a day. The dump has 96 quarters of four numbers in kWh: gross delivered, gross received, net delivered and net received. The output gets 24 hours
 * of four numbers in kWh: gross energy, net energy, external auxiliaries and auxiliaries. Every number has four bytes, the highest first.
 *
 * Refused with 1 if the output has fewer than 384 bytes, with 15 if the dump has not 1,536, and with 16 at the first quarter, counted from 0, that has a
 * number above 1,000,000, gross energy below 0, or net above gross energy. A refusal leaves the output as it was; else what lies past the hours stays. */
gibzurg_answer gibzurg_meter_day(const uint8_t *dump, size_t dump_length, uint8_t *output, size_t output_length);

/* Checks the packet of an agent's statement, eleven numbers: the state, 0 for an open month and 1 for a closed one, the agent, 1 to 64, the four lines in
 * points, their sum as the balance, injected and withdrawn energy in kWh, the peak in kWh and its hour. Each has at most 64 bits and is written in groups of
 * seven bits, the lowest first, a byte each; the top bit of a byte says that another follows, and there are no more than needed. Lines and balance are signed:
 * v is written as 2 v, or below zero as -2 v - 1. docs/RULES.md has the whole format.
 *
 * Refused with 17 at the byte, counted from 0, where the first number starts that is cut off, too large, written in more groups than needed or outside its
 * limits, or a balance that is not the sum of the lines; or at the first byte that is left over. */
gibzurg_answer gibzurg_check_statement(const uint8_t *bytes, size_t length);

#ifdef __cplusplus
}
#endif

#endif
