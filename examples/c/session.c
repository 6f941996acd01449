/* Feeds a short session, cut in pieces of 7 bytes, to a store of 4 slots and prints each command with its reply. */
#include "exhash.h"

#include "record.h"

enum { SLOTS = 4, CRUMB = 7, STREAM = 2048 };

static const struct {
    uint64_t clock;
    const char *command;
} session[] = {
    {1000, "EXHSET mob tag17 0 NX"},
    {2000, "EXHINCRBY mob tag17 1 VER 1"},
    {2030, "EXHINCRBY mob tag17 1 VER 1"}, /* the key bounced: its version is stale */
    {4000, "EXHINCRBY mob tag17 1 VER 2"},
    {5000, "EXHGET mob tag17"},
    {5000, "EXHVER mob tag17"},
    {6000, "EXHSET mob lock me PX 500"},
    {6100, "EXHGETALL mob"},
    {6500, "EXHMGET mob tag17 lock"}, /* the lock has expired */
};
enum { RECORDS = sizeof session / sizeof *session };

static uint8_t stream[STREAM] = "noise", store[EXH_STORE_SIZE(SLOTS)], reply[EXH_REPLY_SIZE];

/* One line: the command and its reply, a space for each line end inside. */
static void print_reply(const char *command, size_t reply_len)
{
    printf("%-28s ", command);
    for (size_t i = 0; i < reply_len; i++)
        if (reply[i] != '\r')
            putchar(reply[i] == '\n' && i + 1 < reply_len ? ' ' : reply[i]);
}

int main(void)
{
    size_t length = strlen((char *)stream), skipped = 0;
    int done = 0;
    for (int i = 0; i < RECORDS; i++)
        length += put_record(stream + length, session[i].clock, session[i].command);
    exh_feeder feeder = exh_feeder_fresh();
    for (size_t at = 0; at < length;) {
        size_t crumb = length - at < CRUMB ? length - at : CRUMB;
        exh_fed fed = exh_feed(feeder, stream + at, crumb, store, sizeof store, reply, sizeof reply);
        if (fed.refusal)
            return (int)fed.refusal;
        if (fed.reply_len)
            print_reply(session[done++].command, fed.reply_len);
        skipped += fed.skipped;
        feeder = fed.feeder;
        at += fed.used;
    }
    printf("%d of %d records done, %u bytes skipped, %u waiting, store check %u\n", done, RECORDS,
           (unsigned)skipped, (unsigned)feeder.count, (unsigned)exh_store_check(store, sizeof store));
    return 0;
}
