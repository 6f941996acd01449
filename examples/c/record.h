/* Records of the stream, as the examples write them. */
#ifndef RECORD_H
#define RECORD_H

#include <stdint.h>
#include <stdio.h>
#include <string.h>

/* The places of a record: mark, clock, length, command. */
enum { CLOCK = 2, LENGTH = 10, COMMAND = 12 };

/* Writes a record whose command is words split by single spaces, and answers its length. */
static size_t put_record(uint8_t *record, uint64_t clock, const char *command)
{
    char *const body = (char *)record + COMMAND, *end = body;
    int words = 1;
    for (const char *c = command; *c; c++)
        words += *c == ' ';
    end += sprintf(end, "*%d\r\n", words);
    for (const char *word = command; words > 0; words--) {
        int length = (int)strcspn(word, " ");
        end += sprintf(end, "$%d\r\n%.*s\r\n", length, length, word);
        word += length + 1;
    }
    memcpy(record, "\x45\x57", CLOCK);
    for (int i = 0; i < 8; i++)
        record[CLOCK + i] = (uint8_t)(clock >> (8 * i));
    record[LENGTH] = (uint8_t)((end - body) % 256);
    record[LENGTH + 1] = (uint8_t)((end - body) / 256);
    return (size_t)(end - (char *)record);
}

#endif
