/* Fills the stores of two handsets, lists how they differ with the key and the field of each line, and shows the newer
   value of one field: first with equal versions, then with one more press on the second handset. */
#include "exhash.h"

#include "record.h"

enum { SLOTS = 4, INSTANT = 5000, RECORD = 256 };

/* Where key and field stand in a slot. */
enum { KEY = 16, FIELD = 32 };

static uint8_t first[EXH_STORE_SIZE(SLOTS)], second[EXH_STORE_SIZE(SLOTS)], out[EXH_COMPARE_SIZE];

/* Feeds one record with a command to a store of SLOTS slots; 0 if it was done. */
static int press(uint8_t *store, uint64_t clock, const char *command)
{
    static uint8_t record[RECORD], reply[EXH_REPLY_SIZE];
    size_t length = put_record(record, clock, command);
    exh_fed fed = exh_feed(exh_feeder_fresh(), record, length, store, sizeof first, reply, sizeof reply);
    return fed.refusal || !fed.reply_len || reply[0] == '-';
}

/* One line of the listing, with the key and the field that it is about. */
static void print_difference(const char *line)
{
    char mark;
    int key, field, slot;
    if (sscanf(line, "%c %d %d %d", &mark, &key, &field, &slot) != 4)
        return;
    const char *held = (const char *)(mark == '>' ? second : first) + EXH_STORE_SIZE(slot);
    printf("%-10.*s key %.*s, field %.*s\n", (int)strcspn(line, "\n"), line, key, held + KEY, field, held + FIELD);
}

static uint32_t print_differences(void)
{
    exh_compared compared = exh_compare(first, sizeof first, second, sizeof second, INSTANT, out, sizeof out);
    for (size_t at = 0; at < compared.written; at += strcspn((char *)out + at, "\n") + 1)
        print_difference((char *)out + at);
    return compared.refusal;
}

static uint32_t print_newer(const char *key, const char *field)
{
    static const char *const names[] = {"in neither", "in the first", "in the second"};
    exh_newer_place newer = exh_newer(first, sizeof first, second, sizeof second, (const uint8_t *)key, strlen(key),
                                      (const uint8_t *)field, strlen(field), INSTANT);
    const uint8_t *value = (newer.which == 2 ? second : first) + newer.start;
    if (!newer.refusal)
        printf("newer %s %s: \"%.*s\" %s\n", key, field, (int)newer.size, (const char *)value, names[newer.which]);
    return newer.refusal;
}

int main(void)
{
    if (press(first, 1000, "EXHSET m a 1"))
        return 1;
    if (press(second, 2000, "EXHSET m a 2") || press(second, 3000, "EXHSET m b 1"))
        return 1;
    if (print_differences() || print_newer("m", "a"))
        return 1;
    if (press(second, 4000, "EXHINCRBY m a 1 VER 1") || print_newer("m", "a") || print_newer("m", "c"))
        return 1;
    return 0;
}
