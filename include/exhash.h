/*
 * exhash: a store of fields in lent bytes, fed with records from a byte stream that arrives in pieces.
 *
 * A handset lends the library three things at each call: a piece of the stream, its store and a reply buffer. The
 * library reads records out of the stream, does the command in each and writes the reply. It allocates nothing, keeps
 * nothing and knows no clock of its own: all that lasts from call to call is the store and the feeder's state, and
 * the caller holds both. Calls on different stores may run at the same time. A call takes some 12 KB of stack. The archive
 * is for x86-64 Linux, where size_t has 64 bits, and needs memcpy and memset, nothing else.
 *
 *     static uint8_t store[EXH_STORE_SIZE(100)];        zero bytes: an empty store of 100 slots
 *     static uint8_t reply[EXH_REPLY_SIZE];
 *     exh_feeder feeder = exh_feeder_fresh();
 *
 *     while (len > 0) {                                 for each piece that arrives
 *         exh_fed fed = exh_feed(feeder, piece, len, store, sizeof store, reply, sizeof reply);
 *         if (fed.refusal)
 *             return fed.refusal;                       nothing was used or changed
 *         if (fed.reply_len)
 *             send(reply, fed.reply_len);               one record was completed
 *         feeder = fed.feeder;
 *         piece += fed.used;
 *         len -= fed.used;
 *     }
 *
 * Pointers: none may be null, even with length 0. piece, store and reply must not overlap. During a call nobody else may
 * write piece, nor read or write store and reply, an interrupt or a DMA channel included. Between calls nobody else may
 * write the store: what the calls come to is said of the store as the last one left it. Each length is the number of
 * bytes that may be read, and for store, reply and exh_compare's output written. exh_compare and exh_newer only read their
 * two stores, and exh_newer its key and field: these may overlap one another, and nobody may write them meanwhile.
 * exh_compare's output must overlap neither store, and during the call nobody else may read or write it.
 */
#ifndef EXHASH_H
#define EXHASH_H

#include <stddef.h>
#include <stdint.h>

#ifdef __cplusplus
extern "C" {
#endif

/*
 * The number of the last change request that has landed. Each landing raises it, so a caller can ask for what it needs,
 * as with #if EXH_VERSION >= 101. What each brought:
 *
 *     100   the option GT
 *     101   VER 0 is not compared, so it is never stale
 *     102   two stores side by side: exh_compare, exh_newer
 *     103   nothing that a call shows: how the library searches for a field
 */
#define EXH_VERSION 103

/* The bytes of a store of n slots, n from 1 to EXH_SLOTS_MOST. A slot holds one field. */
#define EXH_STORE_SIZE(n) (16 + 128 * (size_t)(n))
#define EXH_SLOTS_MOST 500

/* The least size of a reply buffer: it holds the longest reply. A larger one is fine. */
#define EXH_REPLY_SIZE 56000

/* The least size of exh_compare's output: it holds the longest listing. A larger one is fine. */
#define EXH_COMPARE_SIZE 16000

/*
 * A record is the mark 45 57 (hexadecimal), the clock in ms (8 bytes, low first), the command's length (2 bytes, low
 * first) and 1 to 1,024 bytes of command, one RESP2 array of bulk strings. All of it but the last byte can wait.
 */
#define EXH_WAITING_MOST 1035

/* One call uses no more bytes of its piece than this. */
#define EXH_USED_MOST 65536

/* Answers of a call. Where several refusals apply, the lowest number is given; but exh_compare gives 11 before 3. */
enum {
    EXH_OK = 0,
    EXH_BAD_STATE = 1,   /* a feeder state that no feeding leaves */
    EXH_BAD_STORE = 2,   /* not the bytes of a well-formed store, or not 16+128n of them */
    EXH_SHORT_REPLY = 3, /* a reply buffer under EXH_REPLY_SIZE bytes, or an output under EXH_COMPARE_SIZE */
    EXH_BAD_INSTANT = 11 /* an instant earlier than a store's clock, or 4,102,444,800,000 or more */
};

/*
 * The feeder's state: the bytes that wait for the rest of their record, how many they are, and zero in the places
 * after them. It goes in by value and comes back by value; hand it on as it came. Where the stream starts again, as
 * after a lost link, a fresh state is right. The struct has padding before count: compare the two fields, not its bytes.
 */
typedef struct {
    uint8_t waiting[EXH_WAITING_MOST];
    size_t count;
} exh_feeder;

/* What exh_feed answers. */
typedef struct {
    uint32_t refusal;  /* 0, or 1 to 3 */
    size_t used;       /* bytes used, from the piece's start */
    size_t skipped;    /* bytes told in this call to be in no record, also those that waited: it can exceed used */
    size_t reply_len;  /* bytes of reply at the buffer's start; 0 exactly if no record was completed */
    exh_feeder feeder; /* the state for the next call */
} exh_fed;

/* A state with no byte waiting: the start of a stream. */
exh_feeder exh_feeder_fresh(void);

/*
 * Reads on in the stream until one record is completed, the piece ends or EXH_USED_MOST bytes are used, whichever comes
 * first, and does the command of that record on the store. Offer the rest of the piece, from used on, in the next call.
 * A call that is not refused uses at least one byte of a piece that is not empty.
 *
 * With a record completed, its reply stands at the start of the reply buffer and the bytes after it are as they were. A
 * command that is refused is a completed record too: refusal is 0, and the reply is its error line ("-ERR ...\r\n").
 * With no record completed, store and reply buffer are as they were. No reply is empty: reply_len is 0 exactly if no
 * record was completed.
 *
 * The three refusals are looked for first, also for an empty piece. A refused call uses and skips no byte, changes
 * neither store nor reply buffer and hands the state back as it came, so it can be made again with what was wrong put
 * right.
 */
exh_fed exh_feed(exh_feeder feeder, const uint8_t *piece, size_t piece_len, uint8_t *store, size_t store_len,
                 uint8_t *reply, size_t reply_len);

/*
 * 0 if the bytes are a well-formed store, else 2: the check that every exh_feed makes, to be made alone, as after a
 * store was read back from flash. An empty store is EXH_STORE_SIZE(n) zero bytes; that is how one is made.
 */
uint32_t exh_store_check(const uint8_t *store, size_t store_len);

/* What exh_compare answers. */
typedef struct {
    uint32_t refusal; /* 0, 2, 3 or 11 */
    size_t written;   /* bytes of listing at the output's start; 0 if no live entries differ, or on a refusal */
} exh_compared;

/*
 * Lists how two stores differ at an instant in ms, the same for both. Entries live at that instant are compared, by key
 * and field; one that is dead then counts as not there. Each difference is a line: first those of the first store's
 * slots, in their order, then those of entries only in the second, in its slot order.
 *
 *     < 3 5 17    only in the first store
 *     ~ 3 5 17    in both, with another value, version or expiry; an expiry and none differ
 *     > 3 5 17    only in the second store
 *
 * The numbers are the key's length, the field's length and the slot, in decimal and slots from 0, in the store that the
 * line is about: for ~ that is the first. One space stands between the parts, one newline after each line. The slot's
 * bytes start at EXH_STORE_SIZE(slot) of the store; its key starts 16 bytes after that, its field 32.
 *
 * Neither store changes, and the output's bytes after the listing are as they were. The refusals are looked for in the
 * order 2, 11, 3; on any, no byte of the output changes.
 */
exh_compared exh_compare(const uint8_t *first, size_t first_len, const uint8_t *second, size_t second_len,
                         uint64_t instant, uint8_t *out, size_t out_len);

/* What exh_newer answers. */
typedef struct {
    uint32_t refusal; /* 0, 2 or 11 */
    uint32_t which;   /* 0 neither, 1 the first store, 2 the second */
    size_t start;     /* where the value starts in that store; 0 if which is 0 */
    size_t size;      /* the value's bytes, 0 for an empty value too */
} exh_newer_place;

/*
 * Finds the newer value of one field at an instant in ms: that of the store where it is live with the higher version,
 * the first store's if the versions are equal. If it is live in one only, that one's; if in neither, or on a refusal,
 * which, start and size are 0. A key over 16 bytes or a field over 32 is in no store. Neither store changes. The
 * refusals are looked for in the order 2, 11.
 */
exh_newer_place exh_newer(const uint8_t *first, size_t first_len, const uint8_t *second, size_t second_len,
                          const uint8_t *key, size_t key_len, const uint8_t *field, size_t field_len,
                          uint64_t instant);

#ifdef __cplusplus
}
#endif

#endif
