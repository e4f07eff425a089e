/*
 * The opening test of a record, for programs in C.
 *
 * A record is a byte array: a rule and the samples of a capture (docs/RECORD.md has the format). Both functions look at
 * `length` bytes from `bytes` on and change nothing; a length of 0 is the empty record, and `bytes` may then be null.
 * Link with the archive that `rt lib` writes in crates/record_c (examples/open_record.c has the commands).
 */
#ifndef COMRIEP_H
#define COMRIEP_H

#include <stddef.h>
#include <stdint.h>

#ifdef __cplusplus
extern "C" {
#endif

/* The number of the refusal (docs/REFUSALS.md), 0 if the record opens. */
uint32_t comriep_record_number(const uint8_t *bytes, size_t length);

/* The byte place that the refusal speaks of, 0 if the record opens. Place 0 with another number than 0 is a refusal too. */
uint64_t comriep_record_place(const uint8_t *bytes, size_t length);

#ifdef __cplusplus
}
#endif

#endif
