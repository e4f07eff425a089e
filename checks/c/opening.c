/* The opening test called from C, on a good record and on damaged ones. Prints a line for each case that is not as expected. */
#include <inttypes.h>
#include <stdio.h>
#include <stdlib.h>
#include <string.h>

#include "comriep.h"

static int passed, failed;

static void expect(const char *what, const uint8_t *bytes, size_t length, uint32_t number, uint64_t place)
{
    uint32_t n = comriep_record_number(bytes, length);
    uint64_t p = comriep_record_place(bytes, length);
    if (n == number && p == place) {
        passed++;
    } else {
        failed++;
        printf("%s: %" PRIu32 " at %" PRIu64 ", expected %" PRIu32 " at %" PRIu64 "\n", what, n, p, number, place);
    }
}

/* A copy of exactly so many bytes, so that a read past the end is seen by a checking allocator. */
static void expect_copy(const char *what, const uint8_t *bytes, size_t length, uint32_t number, uint64_t place)
{
    uint8_t *copy = malloc(length ? length : 1);
    memcpy(copy, bytes, length);
    expect(what, copy, length, number, place);
    free(copy);
}

int main(void)
{
    /* next[0,2] of next[0,2] of (channel 0 at least 2048), and one sample */
    uint8_t good[42] = {3, 1, 0, 0, 0, 8, 0, 0, 5, 0, 0, 0, 0, 2, 0, 5, 1, 0, 0, 0, 2, 0, 1, 0, 0, 0, 10};
    expect("null", NULL, 0, 1, 0);
    expect_copy("good", good, 42, 0, 0);
    for (size_t length = 0; length < 42; length++) {
        uint64_t place = length == 0 ? 0 : length < 22 ? 1 : length < 26 ? 22 : 26;
        expect_copy("cut", good, length, 1, place);
    }
    uint8_t longer[43] = {0};
    memcpy(longer, good, 42);
    expect_copy("surplus", longer, 43, 2, 42);
    struct damage {
        size_t at;
        uint8_t byte;
        uint32_t number;
        uint64_t place;
    } damages[] = {
        {0, 0, 3, 0},   {0, 33, 3, 0},   {0, 255, 3, 0}, {1, 9, 4, 1},    {2, 4, 4, 1},   {3, 1, 4, 1},
        {5, 16, 4, 1},  {6, 1, 4, 1},    {9, 1, 4, 8},   {10, 1, 4, 8},   {14, 16, 4, 8}, {16, 2, 4, 15},
        {14, 15, 5, 15}, {25, 255, 3, 22}, {22, 2, 1, 26}, {22, 0, 2, 26}, {30, 255, 0, 0}, {41, 255, 0, 0},
    };
    for (size_t i = 0; i < sizeof damages / sizeof damages[0]; i++) {
        uint8_t bytes[42];
        memcpy(bytes, good, 42);
        bytes[damages[i].at] = damages[i].byte;
        if (damages[i].at == 14 && damages[i].byte == 15) {
            bytes[13] = 255; /* high is 4095 */
        }
        expect_copy("damaged", bytes, 42, damages[i].number, damages[i].place);
    }
    printf("%d passed, %d failed\n", passed, failed);
    return failed != 0;
}
