/*
 * Times can_fd_wire_length beside another function that gives the same
 * answers, turn by turn, and prints the ratio of their best times. A
 * measurement, no test; but it stops where the answers differ.
 */
#include <inttypes.h>
#include <stdint.h>
#include <stdio.h>
#include <time.h>

#include "can_bench.h"

uint32_t other_wire_length(uint32_t length);

enum { LENGTHS = 4096, ROUNDS = 10000, TURNS = 9 };

static uint32_t lengths[LENGTHS];

typedef uint32_t (*rule)(uint32_t length);

/* Nanoseconds of processor time that a call takes, over all lengths. */
static double timed(rule asked)
{
    clock_t start = clock();
    volatile uint32_t sum = 0;
    for (int round = 0; round < ROUNDS; round++) {
        uint32_t more = 0;
        for (int i = 0; i < LENGTHS; i++) {
            more += asked(lengths[i]);
        }
        sum = sum + more;
    }
    double seconds = (double)(clock() - start) / CLOCKS_PER_SEC;
    return seconds * 1e9 / ((double)ROUNDS * LENGTHS);
}

static double lesser(double a, double b)
{
    return a < b ? a : b;
}

static void compare(const char *name)
{
    double driver = timed(can_fd_wire_length);
    double other = timed(other_wire_length);
    for (int turn = 1; turn < TURNS; turn++) {
        driver = lesser(driver, timed(can_fd_wire_length));
        other = lesser(other, timed(other_wire_length));
    }
    printf("%-24s driver %.2f ns a call, other %.2f ns a call, ratio %.2f\n",
           name, driver, other, driver / other);
    fflush(stdout);
}

static void all_of(uint32_t length)
{
    for (int i = 0; i < LENGTHS; i++) {
        lengths[i] = length;
    }
}

static void rising(void)
{
    for (int i = 0; i < LENGTHS; i++) {
        lengths[i] = (uint32_t)i % 65;
    }
}

/* Numbers of a fixed row that looks random, so that each run has the same. */
static void mixed(void)
{
    uint32_t state = 1;
    for (int i = 0; i < LENGTHS; i++) {
        state = state * 1664525 + 1013904223;
        lengths[i] = (state >> 16) % 65;
    }
}

static int answers_agree(void)
{
    for (uint32_t length = 0; length <= 300; length++) {
        uint32_t driver = can_fd_wire_length(length);
        uint32_t other = other_wire_length(length);
        if (driver != other) {
            printf("of %" PRIu32 " the driver says %" PRIu32
                   ", the other %" PRIu32 "\n",
                   length, driver, other);
            return 0;
        }
    }
    return 1;
}

int main(void)
{
    if (!answers_agree()) {
        return 1;
    }
    all_of(8);
    compare("8 bytes");
    all_of(9);
    compare("9 bytes");
    all_of(64);
    compare("64 bytes");
    rising();
    compare("0 to 64 bytes, rising");
    mixed();
    compare("0 to 64 bytes, mixed");
    return 0;
}
