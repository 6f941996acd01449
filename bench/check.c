/* Prints the time of one check of a store, all slots held, by its number of slots, beside that of a plain loop that
   adds up its bytes, and the growth from 50 to the most. */
#define _POSIX_C_SOURCE 199309L
#include "exhash.h"

#include <stdio.h>
#include <string.h>
#include <time.h>

enum { HEADER = EXH_STORE_SIZE(0), SLOT = EXH_STORE_SIZE(1) - EXH_STORE_SIZE(0), ROUNDS = 7, CALLS = 2000 };

/* Where the parts of a slot begin. */
enum { STATE = 0, KEY_LENGTH = 1, FIELD_LENGTH = 2, VALUE_LENGTH = 3, VERSION = 4, KEY = 16, FIELD = 32, VALUE = 64 };

static uint8_t store[EXH_STORE_SIZE(EXH_SLOTS_MOST)];

static void fill(int held)
{
    memset(store, 0, sizeof store);
    for (int i = 0; i < held; i++) {
        uint8_t *slot = store + HEADER + SLOT * i;
        slot[STATE] = 1;
        slot[KEY_LENGTH] = 1;
        slot[FIELD_LENGTH] = (uint8_t)sprintf((char *)slot + FIELD, "tag%04d", i);
        slot[VALUE_LENGTH] = 1;
        slot[VERSION] = 1;
        slot[KEY] = 'm';
        slot[VALUE] = '1';
    }
}

static double seconds(void)
{
    struct timespec t;
    clock_gettime(CLOCK_MONOTONIC, &t);
    return (double)t.tv_sec + (double)t.tv_nsec * 1e-9;
}

/* Not inlined, so that each call reads the bytes anew. */
__attribute__((noinline)) static uint32_t sum(const uint8_t *bytes, size_t size)
{
    uint32_t total = 0;
    for (size_t i = 0; i < size; i++)
        total += bytes[i];
    __asm__ volatile("" ::: "memory");
    return total;
}

/* The best of some rounds, in microseconds, for one call on the first bytes of the store. What the calls answer is
   added up. */
static double measure(uint32_t (*call)(const uint8_t *, size_t), size_t size, uint32_t *answers)
{
    double best = 1e9;
    *answers = 0;
    for (int round = 0; round < ROUNDS; round++) {
        double start = seconds();
        for (int i = 0; i < CALLS; i++)
            *answers += call(store, size);
        double each = (seconds() - start) / CALLS * 1e6;
        if (each < best)
            best = each;
    }
    return best;
}

int main(void)
{
    static const int sizes[] = {10, 50, 100, 250, EXH_SLOTS_MOST};
    double at50 = 0, at_most = 0;
    for (size_t i = 0; i < sizeof sizes / sizeof *sizes; i++) {
        size_t size = EXH_STORE_SIZE(sizes[i]);
        uint32_t refused, total;
        fill(sizes[i]);
        double check = measure(exh_store_check, size, &refused), plain = measure(sum, size, &total);
        if (refused || !total)
            return 1;
        printf("%3d held slots: check %7.3f us, plain loop %7.3f us, ratio %.2f\n", sizes[i], check, plain,
               check / plain);
        if (sizes[i] == 50)
            at50 = check;
        if (sizes[i] == EXH_SLOTS_MOST)
            at_most = check;
    }
    printf("growth of the check from 50 to %d: %.1f times\n", EXH_SLOTS_MOST, at_most / at50);
    return 0;
}
