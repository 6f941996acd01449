/* The header's numbers, held to the library: sizes at their ends, the refusals and what they leave. */
#include "exhash.h"

#include <stdio.h>
#include <string.h>

static uint8_t store[EXH_STORE_SIZE(EXH_SLOTS_MOST + 1)], reply[EXH_REPLY_SIZE], noise[EXH_USED_MOST + 1];
static uint8_t late[EXH_STORE_SIZE(1)] = {9}, out[EXH_COMPARE_SIZE + 1];
static int failures;

static void expect(int holds, const char *what)
{
    if (!holds) {
        failures++;
        printf("not so: %s\n", what);
    }
}

/* A refused call uses, skips and replies nothing, and state, store and buffer are as they were. */
static void refuse(exh_feeder feeder, size_t store_len, size_t reply_len, uint32_t number, const char *what)
{
    static uint8_t store_before[sizeof store], reply_before[sizeof reply];
    memcpy(store_before, store, sizeof store);
    memcpy(reply_before, reply, sizeof reply);
    exh_fed fed = exh_feed(feeder, noise, sizeof noise, store, store_len, reply, reply_len);
    expect(fed.refusal == number, what);
    expect(!fed.used && !fed.skipped && !fed.reply_len, what);
    expect(fed.feeder.count == feeder.count && !memcmp(fed.feeder.waiting, feeder.waiting, EXH_WAITING_MOST), what);
    expect(!memcmp(store, store_before, sizeof store) && !memcmp(reply, reply_before, sizeof reply), what);
}

/* Compares two empty stores, both ways round, and asks for the newer value of a field: nothing is written or found. */
static void compare(size_t store_len, uint64_t instant, size_t out_len, uint32_t number, const char *what)
{
    static uint8_t out_before[sizeof out];
    memset(out, 7, sizeof out);
    memcpy(out_before, out, sizeof out);
    exh_compared forth = exh_compare(store, store_len, late, sizeof late, instant, out, out_len);
    exh_compared back = exh_compare(late, sizeof late, store, store_len, instant, out, out_len);
    expect(forth.refusal == number && back.refusal == number && !forth.written && !back.written, what);
    expect(!memcmp(out, out_before, sizeof out), what);
    uint32_t without_output = number == EXH_SHORT_REPLY ? EXH_OK : number;
    exh_newer_place newer = exh_newer(store, store_len, late, sizeof late, noise, 1, noise, 1, instant);
    expect(newer.refusal == without_output && !newer.which && !newer.start && !newer.size, what);
    newer = exh_newer(late, sizeof late, store, store_len, noise, 1, noise, 1, instant);
    expect(newer.refusal == without_output && !newer.which && !newer.start && !newer.size, what);
}

static void compare_all(size_t most)
{
    static const uint64_t end = 4102444800000;
    compare(sizeof store, 8, 0, EXH_BAD_STORE, "2 before 11 and 3");
    compare(sizeof store, 9, sizeof out, EXH_BAD_STORE, "a damaged store beside another");
    compare(most, 8, 0, EXH_BAD_INSTANT, "11 before 3");
    compare(most, 8, sizeof out, EXH_BAD_INSTANT, "earlier than a clock");
    compare(most, end, EXH_COMPARE_SIZE, EXH_BAD_INSTANT, "the end of time");
    compare(most, 9, EXH_COMPARE_SIZE - 1, EXH_SHORT_REPLY, "a short output");
    compare(most, 9, EXH_COMPARE_SIZE, EXH_OK, "the later clock, the least output");
    compare(most, end - 1, sizeof out, EXH_OK, "the last instant, a larger output");
}

int main(void)
{
    size_t most = EXH_STORE_SIZE(EXH_SLOTS_MOST);
    exh_feeder fresh = exh_feeder_fresh(), damaged = fresh;
    damaged.count = EXH_WAITING_MOST + 1;
    memset(reply, 7, sizeof reply);
    expect(exh_store_check(store, most) == EXH_OK, "zero bytes are a store");
    expect(exh_store_check(store, EXH_STORE_SIZE(1)) == EXH_OK, "one slot");
    expect(exh_store_check(store, EXH_STORE_SIZE(0)) == EXH_BAD_STORE, "no slot");
    expect(exh_store_check(store, sizeof store) == EXH_BAD_STORE, "a slot too many");
    refuse(damaged, sizeof store, 0, EXH_BAD_STATE, "1 before 2 and 3");
    refuse(fresh, sizeof store, 0, EXH_BAD_STORE, "2 before 3");
    refuse(fresh, most, EXH_REPLY_SIZE - 1, EXH_SHORT_REPLY, "a short buffer");
    compare_all(most);
    exh_fed fed = exh_feed(fresh, noise, sizeof noise, store, most, reply, sizeof reply);
    expect(fed.refusal == EXH_OK && fed.used == EXH_USED_MOST && fed.skipped == EXH_USED_MOST, "the most bytes used");
    return failures != 0;
}
