/*
 * Tests whether a record opens. Build and run it from the top of the repository:
 *
 *     (cd crates/record_c && rt lib)
 *     mkdir -p out && cp crates/record_c/out/librecord_c.a out/librecord.a
 *     cc -std=c11 -Wall -Iinclude -o out/open_record examples/open_record.c out/librecord.a
 *     out/open_record < examples/response.record
 */
#include <inttypes.h>
#include <stdio.h>

#include "comriep.h"

/* One byte more than the longest record. */
enum { ENOUGH = 16000230 };

static uint8_t bytes[ENOUGH];

int main(void)
{
    size_t length = fread(bytes, 1, sizeof bytes, stdin);
    uint32_t number = comriep_record_number(bytes, length);
    if (number == 0) {
        puts("opens");
    } else {
        printf("refused %" PRIu32 " at %" PRIu64 "\n", number, comriep_record_place(bytes, length));
    }
    return 0;
}
