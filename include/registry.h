/* The registry's calls. Everything that they work on is lent by the caller; they keep nothing between calls.
 *
 * A slice is two arguments, a pointer and a count of elements. A slice of no elements may have any pointer. No two slices of one
 * call may overlap, and nothing else may use their memory during the call. Apart from that the calls ask nothing: every content of
 * every buffer gives a defined answer.
 *
 * NUMBERS. 0 is success. With any other number nothing was used, no reply and no verdict was written, and all lent memory is as it
 * was, but for the reply buffer and the item table, which are zero, the mark of number 4, and the argument table, which is working memory:
 * 1 and 9 leave it, any other number may have changed it. Of several that apply, the first in the order 1, 9, 8, 2, 4, 5, 6, 7, 3 is returned.
 *
 *   1  session above 15
 *   2  more arguments than the argument table has places
 *   3  reply longer than its buffer
 *   4  queue would pass 64 commands, 512 arguments or 8,192 argument bytes, names counted; the session is marked failed
 *   5  watch would pass 32 distinct keys or 2,048 key bytes
 *   6  versions, or their key and value bytes, would pass the capacities fixed at opening
 *   7  last sequence plus writes above 2^64 - 1
 *   8  group above 64 members, verdict bytes fewer than members, or a part outside its buffer
 *   9  lent memory that is not a store and sixteen sessions; at opening, capacities that the buffers do not hold
 *
 * registry_preview returns 1, 9, 6, 7 and 3, in this order, as EXEC of that session would.
 *
 * registry_read_reply alone returns
 *
 *  11  the item table has no place for an item
 *  12  arrays nest deeper than 8
 *
 * STORE. `words` has 5 + 4 * versions words, `bytes` has the capacity in bytes; longer buffers are allowed, and what lies behind the
 * capacities is never touched. Written by registry_open, then by the other calls only.
 *
 * SESSIONS. `session_words` has 16 * 644 = 10,304 words, `session_bytes` 16 * 10,240 = 163,840 bytes. Words that are all zero are
 * sixteen clear sessions; the bytes may then hold anything. */
#ifndef REGISTRY_H
#define REGISTRY_H

#include <stddef.h>
#include <stdint.h>

#ifdef __cplusplus
extern "C" {
#endif

#define REGISTRY_SESSIONS 16
#define REGISTRY_SESSION_WORDS (16 * 644)
#define REGISTRY_SESSION_BYTES (16 * 10240)
/* Words of a store for so many versions. */
#define REGISTRY_STORE_WORDS(versions) (5 + 4 * (versions))
/* Words of an argument table for requests of so many arguments. */
#define REGISTRY_TABLE_WORDS(arguments) (2 * (arguments))
/* Members of a group, at most. */
#define REGISTRY_MEMBERS 64

#define REGISTRY_ACCEPTED 0
#define REGISTRY_CONFLICT 1
#define REGISTRY_NO_ROOM 6
#define REGISTRY_NO_SEQUENCE 7
#define REGISTRY_NOT_TAKEN 255
/* The verdict of a preview where EXEC would reach none. */
#define REGISTRY_NO_VERDICT 255

/* Words of an item table for replies of so many items. */
#define REGISTRY_ITEM_WORDS(items) (4 * (items))
/* How deep arrays may nest in a reply: the outermost is 1. */
#define REGISTRY_DEPTH 8

/* What the bytes of a reply are. */
#define REGISTRY_WAIT 0
#define REGISTRY_WHOLE 1
#define REGISTRY_FAULT 2
#define REGISTRY_REFUSED 3

/* The kinds of items in a reply. */
#define REGISTRY_SIMPLE 1
#define REGISTRY_ERROR 2
#define REGISTRY_INTEGER 3
#define REGISTRY_BULK 4
#define REGISTRY_NIL 5
#define REGISTRY_NIL_ARRAY 6
#define REGISTRY_ARRAY 7

/* What a request returns. */
typedef struct {
    uint64_t number; /* 0, or 1 to 7 or 9 */
    size_t used;     /* bytes of the request that were used; 0 with number 0: the request is not whole yet */
    size_t reply;    /* bytes of the reply, in front of the reply buffer; 0: no reply */
} registry_answer;

/* What a preview returns. */
typedef struct {
    uint64_t number;  /* 0, or 1, 3, 6, 7 or 9 */
    uint64_t verdict; /* 0 accepted, 1 conflict, 255: none is reached, or a number was returned */
    size_t reply;     /* bytes of the reply, in front of the reply buffer */
    uint64_t last;    /* the last sequence that EXEC would leave; 0 with a number */
} registry_previewed;

/* A member of a group. Writes and checked keys are rows of one table of parts, so they stand in different parts of it. */
typedef struct {
    uint64_t has_read;  /* 0: it has no read sequence, and `read` is not looked at; any other word: it has one */
    uint64_t read;      /* the read sequence */
    size_t first_write; /* its writes are the rows first_write up to, not including, first_write + writes; */
    size_t writes;      /* row j has the words 4 j to 4 j + 3: key start, key length, value start, value word */
    size_t first_check; /* its checked keys are the rows first_check up to, not including, first_check + checks; */
    size_t checks;      /* row j has the words 2 j and 2 j + 1: key start, key length */
} registry_member;

/* A value in the store. */
typedef struct {
    uint64_t number; /* 0 or 9 */
    uint64_t found;  /* 1 if the key has a value, else 0 and the next two are 0 */
    size_t start;    /* its first byte in the store's bytes */
    size_t size;     /* its count of bytes */
} registry_value;

/* A live key in the store. */
typedef struct {
    uint64_t number;     /* 0 or 9 */
    uint64_t found;      /* 1 if there is one, else 0 and all that follows is 0 */
    size_t next;         /* the place to go on from */
    size_t key_start;    /* its key in the store's bytes */
    size_t key_size;
    size_t value_start;  /* its value in the store's bytes */
    size_t value_size;
} registry_entry;

/* What the reader of replies returns. */
typedef struct {
    uint64_t number; /* 0, 11 or 12 */
    uint64_t state;  /* REGISTRY_WAIT, REGISTRY_WHOLE or REGISTRY_FAULT; REGISTRY_REFUSED with 11 or 12 */
    size_t used;     /* bytes of a whole reply, else 0 */
    size_t items;    /* items of a whole reply, else 0 */
    size_t offset;   /* of a fault, the offset of its item, else 0 */
} registry_reply;

/* Opens an empty store: 0, or 9 and nothing is written.
 *   words, words_count   written: the header, words 0 to 4; the others stay
 *   bytes, bytes_count   not written
 *   last                 the last sequence to begin with
 *   versions, size       the capacities in versions and in key and value bytes */
uint64_t registry_open(uint64_t *words, size_t words_count, const uint8_t *bytes, size_t bytes_count, uint64_t last, size_t versions, size_t size);

/* Answers the request at the front of `input`; one call answers one request.
 *   session                        0 to 15
 *   input, input_count             the bytes that the console has sent and that are not used yet
 *   places, places_count           argument table, two words for each argument: written; of a whole request it holds start and length
 *                                  of each argument in `input`, in order; behind them anything
 *   words .. session_bytes_count   the store and the sessions: read and written
 *   reply, reply_count             written: the reply in front, zero behind it
 * After QUIT and after a protocol error the session is clear and the caller drops what is left of the console's bytes. */
registry_answer registry_request(size_t session, const uint8_t *input, size_t input_count, uint64_t *places, size_t places_count,
                                 uint64_t *words, size_t words_count, uint8_t *bytes, size_t bytes_count,
                                 uint64_t *session_words, size_t session_words_count, uint8_t *session_bytes, size_t session_bytes_count,
                                 uint8_t *reply, size_t reply_count);

/* What EXEC of a session would give. A preview changes nothing but the reply buffer. EXEC on the same store and sessions, with a place for its
 * name in the argument table and as long a reply buffer, gives the same number and the same reply and, without a number, leaves that last sequence.
 *   session                        0 to 15
 *   words .. session_bytes_count   the store and the sessions: only read
 *   reply, reply_count             written: the reply in front, zero behind it; with a number zero throughout
 * No verdict is reached outside MULTI (`-ERR EXEC without MULTI`) and in a failed session (`-EXECABORT ..`). If accepted, the last sequence told is
 * the store's plus the distinct keys that would be written; after a conflict or without a verdict it is the store's. */
registry_previewed registry_preview(size_t session, const uint64_t *words, size_t words_count, const uint8_t *bytes, size_t bytes_count,
                                    const uint64_t *session_words, size_t session_words_count,
                                    const uint8_t *session_bytes, size_t session_bytes_count, uint8_t *reply, size_t reply_count);

/* Judges a group and commits the accepted members: 0, or 8 or 9.
 *   members, members_count     at most 64
 *   parts, parts_count         the table of parts: starts and lengths in `data`; a value word is 0 for a tombstone, else one more than
 *                              the value's length
 *   data, data_count           keys and values
 *   verdicts, verdicts_count   written: a byte for each member, 0 accepted, 1 conflict, 6, 7, or 255 not taken; those behind stay
 *   words .. bytes_count       the store: read and written */
uint64_t registry_group(const registry_member *members, size_t members_count, const uint64_t *parts, size_t parts_count,
                        const uint8_t *data, size_t data_count, uint8_t *verdicts, size_t verdicts_count,
                        uint64_t *words, size_t words_count, uint8_t *bytes, size_t bytes_count);

/* The value of a key at the last sequence. Writes nothing.
 *   words .. bytes_count   the store
 *   name, name_count       the key */
registry_value registry_read(const uint64_t *words, size_t words_count, const uint8_t *bytes, size_t bytes_count, const uint8_t *name, size_t name_count);

/* The first live key at or behind the place `from`. Writes nothing. A walk over the table, ascending by key, begins at 0 and goes on at
 * `next` until nothing is found. */
registry_entry registry_entry_from(const uint64_t *words, size_t words_count, const uint8_t *bytes, size_t bytes_count, size_t from);

/* Reads the reply at the front of `input`, as a console receives it. Needs no store.
 *   input, input_count   the bytes received and not used yet
 *   items, items_count   written: of a whole reply four words for each item, in the order of their first bytes, and zero behind them;
 *                        otherwise zero throughout
 * The words of an item: its kind; the start and the length of its bytes in `input` (simple text, error text, bulk); its number in two's
 * complement (integer) or its count of items (array). A word that an item has no use for is 0. An array takes a place, and its items
 * follow it. With 11 the call may be made again with a longer table, after
 * REGISTRY_WAIT with more bytes. */
registry_reply registry_read_reply(const uint8_t *input, size_t input_count, uint64_t *items, size_t items_count);

#ifdef __cplusplus
}
#endif

#endif
