/*
 * Calls the two functions of can_bench.h from C and compares each answer with
 * a plain loop that is written from the words of the rules.
 */
#include <inttypes.h>
#include <stddef.h>
#include <stdint.h>
#include <stdio.h>

#include "can_bench.h"

#define COUNT(array) (sizeof(array) / sizeof((array)[0]))

/* Of many wrong answers in a group only the first ones are printed. */
enum { PRINTED = 20 };

struct tally {
    unsigned long checks;
    unsigned long wrong;
};

/* What the rules say */

/* "FD lengths on the wire 0 to 8, 12, 16, 20, 24, 32, 48, 64" */
static const uint32_t wire_lengths[] = {0, 1,  2,  3,  4,  5,  6,  7,
                                        8, 12, 16, 20, 24, 32, 48, 64};

/* "goes out at the next higher wire length"; "Above 64 the first answers 255" */
static uint32_t expected_wire_length(uint32_t length)
{
    for (size_t i = 0; i < COUNT(wire_lengths); i++) {
        if (wire_lengths[i] >= length) {
            return wire_lengths[i];
        }
    }
    return 255;
}

static int bit(uint32_t word, int position)
{
    return (int)((word >> position) & 1);
}

/*
 * "bit 31 agrees with the code's, the identifier and the code agree on every
 * bit of the mask, and the payload is 64 if the frame is FD"
 */
static uint32_t expected_decision(uint32_t identifier, uint32_t code,
                                  uint32_t mask, uint32_t payload)
{
    for (int position = 0; position < 32; position++) {
        int compared = position == 31 || bit(mask, position);
        if (compared && bit(identifier, position) != bit(code, position)) {
            return 0;
        }
    }
    if (bit(identifier, 30) && payload != 64) {
        return 0;
    }
    return 1;
}

/* One check each */

static void check_length(struct tally *tally, uint32_t length,
                         uint32_t expected)
{
    uint32_t got = can_fd_wire_length(length);
    tally->checks++;
    if (got != expected && tally->wrong++ < PRINTED) {
        printf("wrong: can_fd_wire_length(%" PRIu32 ") is %" PRIu32
               ", expected %" PRIu32 "\n",
               length, got, expected);
    }
}

static void check_filter(struct tally *tally, uint32_t identifier,
                         uint32_t code, uint32_t mask, uint32_t payload,
                         uint32_t expected)
{
    uint32_t got = can_filter_accepts(identifier, code, mask, payload);
    tally->checks++;
    if (got != expected && tally->wrong++ < PRINTED) {
        printf("wrong: can_filter_accepts(0x%08" PRIX32 ", 0x%08" PRIX32
               ", 0x%08" PRIX32 ", %" PRIu32 ") is %" PRIu32
               ", expected %" PRIu32 "\n",
               identifier, code, mask, payload, got, expected);
    }
}

/* The groups */

static struct tally short_lengths(void)
{
    struct tally tally = {0, 0};
    for (uint32_t length = 0; length <= 70; length++) {
        check_length(&tally, length, expected_wire_length(length));
    }
    return tally;
}

/* Numbers that a narrower type would cut to a wire length are among these. */
static struct tally large_lengths(void)
{
    static const uint32_t bases[] = {0x100,      0x10000,    0x1000000,
                                     0x7FFFFFC0, 0x80000000, 0xFFFFFF00};
    static const uint32_t others[] = {71,  127,   128,        254,
                                      255, 65535, 0x7FFFFFFF, 0xFFFFFFFF};
    struct tally tally = {0, 0};
    for (size_t i = 0; i < COUNT(bases); i++) {
        for (uint32_t more = 0; more <= 70; more++) {
            check_length(&tally, bases[i] + more,
                         expected_wire_length(bases[i] + more));
        }
    }
    for (size_t i = 0; i < COUNT(others); i++) {
        check_length(&tally, others[i], expected_wire_length(others[i]));
    }
    return tally;
}

/* Answers that are plain from the rules, written by hand. */
static struct tally known_filters(void)
{
    struct tally tally = {0, 0};
    check_filter(&tally, 0x00000120, 0x00000120, 0x000007FF, 8, 1);
    check_filter(&tally, 0x00000120, 0x00000120, 0x000007FF, 64, 1);
    check_filter(&tally, 0x00000121, 0x00000120, 0x000007FF, 8, 0);
    check_filter(&tally, 0x00000121, 0x00000120, 0x000007FE, 8, 1);
    check_filter(&tally, 0x00000120, 0x00000121, 0x000007FF, 8, 0);
    /* The FD bit asks for a payload of 64, and is not compared by itself. */
    check_filter(&tally, 0x40000120, 0x00000120, 0x000007FF, 8, 0);
    check_filter(&tally, 0x40000120, 0x00000120, 0x000007FF, 64, 1);
    check_filter(&tally, 0x00000120, 0x40000120, 0x000007FF, 8, 1);
    check_filter(&tally, 0x40000120, 0x00000120, 0x400007FF, 64, 0);
    /* Bit 31 is compared without a mask. */
    check_filter(&tally, 0x80000120, 0x00000120, 0x000007FF, 64, 0);
    check_filter(&tally, 0x00000120, 0x80000120, 0x00000000, 64, 0);
    check_filter(&tally, 0x80000120, 0x80000000, 0x00000000, 8, 1);
    check_filter(&tally, 0x00000000, 0x1FFFFFFF, 0x00000000, 0, 1);
    return tally;
}

static const uint32_t payloads[] = {0, 8, 63, 64, 65, 0xFFFFFFFF};

static void check_payloads(struct tally *tally, uint32_t identifier,
                           uint32_t code, uint32_t mask)
{
    for (size_t i = 0; i < COUNT(payloads); i++) {
        check_filter(tally, identifier, code, mask, payloads[i],
                     expected_decision(identifier, code, mask, payloads[i]));
    }
}

/* Positions 0 to 31 are the single bits, 32 is no bit at all. */
static uint32_t single_bit(int position)
{
    return position < 32 ? UINT32_C(1) << position : 0;
}

static struct tally single_bits(void)
{
    struct tally tally = {0, 0};
    for (int i = 0; i <= 32; i++) {
        for (int c = 0; c <= 32; c++) {
            for (int m = 0; m <= 32; m++) {
                check_payloads(&tally, single_bit(i), single_bit(c),
                               single_bit(m));
            }
        }
    }
    return tally;
}

/*
 * The code differs from the identifier in one bit at most, and the mask lacks
 * one bit at most.
 */
static struct tally single_differences(void)
{
    static const uint32_t words[] = {0x00000000, 0x00000120, 0x1FFFFFFF,
                                     0x40000123, 0x9FFFFFFF, 0xFFFFFFFF};
    struct tally tally = {0, 0};
    for (size_t w = 0; w < COUNT(words); w++) {
        for (int c = 0; c <= 32; c++) {
            for (int m = 0; m <= 32; m++) {
                check_payloads(&tally, words[w], words[w] ^ single_bit(c),
                               ~single_bit(m));
            }
        }
    }
    return tally;
}

static uint32_t random_state = 0x2545F491;

/* Marsaglia's xorshift: the same numbers in every run. */
static uint32_t random_word(void)
{
    random_state ^= random_state << 13;
    random_state ^= random_state >> 17;
    random_state ^= random_state << 5;
    return random_state;
}

/*
 * The code differs from the identifier in few bits, and the payload is often
 * 64, so that both answers are frequent.
 */
static struct tally random_filters(void)
{
    struct tally tally = {0, 0};
    for (int turn = 0; turn < 20000; turn++) {
        uint32_t identifier = random_word();
        uint32_t few = random_word() & random_word() & random_word();
        uint32_t code = identifier ^ (few & random_word());
        uint32_t mask = random_word() & random_word();
        uint32_t payload = random_word() % 2 ? 64 : random_word();
        check_filter(&tally, identifier, code, mask, payload,
                     expected_decision(identifier, code, mask, payload));
    }
    return tally;
}

int main(void)
{
    static const struct {
        const char *name;
        struct tally (*run)(void);
    } groups[] = {
        {"lengths 0 to 70", short_lengths},
        {"large lengths", large_lengths},
        {"known filters", known_filters},
        {"filters of single bits", single_bits},
        {"filters of single differences", single_differences},
        {"random filters", random_filters},
    };
    struct tally all = {0, 0};
    for (size_t i = 0; i < COUNT(groups); i++) {
        struct tally tally = groups[i].run();
        printf("%s: %lu checks, %lu wrong\n", groups[i].name, tally.checks,
               tally.wrong);
        all.checks += tally.checks;
        all.wrong += tally.wrong;
    }
    printf("c test: %lu checks, %lu wrong\n", all.checks, all.wrong);
    return all.wrong == 0 ? 0 : 1;
}
