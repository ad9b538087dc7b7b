/* Reads replies by hiredis, for reference/beside_hiredis.py. A record on stdin is as for replies_lib.c; the words of the table do not matter here.
 * For each record go to stdout: the state, 0 wait, 1 whole, 2 error; the bytes used; the count of items; 128 bytes with the text of an
 * error; and four words for each item, as registry_read_reply writes them. */
#include "registry.h"
#include <hiredis/hiredis.h>
#include <stdio.h>
#include <stdlib.h>

typedef struct {
    uint64_t kind, start, length, number;
} item;

static redisReader *reader;
static item *items;
static size_t count, room;

static void stop(const char *why) {
    fprintf(stderr, "replies_hiredis: %s\n", why);
    exit(2);
}

/* Items come in the order of their first bytes. Any pointer but NULL tells hiredis to go on. */
static void *add(uint64_t kind, uint64_t start, uint64_t length, uint64_t number) {
    if (count == room) {
        room = 2 * room + 16;
        items = realloc(items, room * sizeof *items);
        if (items == NULL) {
            stop("no memory");
        }
    }
    items[count] = (item){kind, start, length, number};
    count++;
    return &count;
}

static void *add_string(const redisReadTask *task, char *text, size_t length) {
    uint64_t kind = task->type == REDIS_REPLY_STATUS ? REGISTRY_SIMPLE : task->type == REDIS_REPLY_ERROR ? REGISTRY_ERROR : REGISTRY_BULK;
    return add(kind, (uint64_t)(text - reader->buf), length, 0);
}

static void *add_array(const redisReadTask *task, int elements) {
    (void)task;
    return add(REGISTRY_ARRAY, 0, 0, (uint64_t)elements);
}

static void *add_integer(const redisReadTask *task, long long number) {
    (void)task;
    return add(REGISTRY_INTEGER, 0, 0, (uint64_t)number);
}

static void *add_nil(const redisReadTask *task) {
    return add(task->type == REDIS_REPLY_ARRAY ? REGISTRY_NIL_ARRAY : REGISTRY_NIL, 0, 0, 0);
}

static void free_nothing(void *object) {
    (void)object;
}

static redisReplyObjectFunctions functions = {add_string, add_array, add_integer, add_nil, free_nothing};

static void put(const void *from, size_t size) {
    if (fwrite(from, 1, size, stdout) != size) {
        stop("cannot write");
    }
}

static void read_one(const char *input, size_t size) {
    void *reply = NULL;
    count = 0;
    reader = redisReaderCreateWithFunctions(&functions);
    if (reader == NULL || redisReaderFeed(reader, input, size) != REDIS_OK) {
        stop("no reader");
    }
    uint64_t answer[3] = {0, 0, 0};
    if (redisReaderGetReply(reader, &reply) != REDIS_OK) {
        answer[0] = 2;
    } else if (reply != NULL) {
        answer[0] = 1;
        answer[1] = size - (reader->len - reader->pos);
        answer[2] = count;
    }
    put(answer, sizeof answer);
    put(reader->errstr, sizeof reader->errstr);
    put(items, answer[2] * sizeof *items);
    redisReaderFree(reader);
}

int main(void) {
    uint64_t counts[2];
    while (fread(counts, sizeof counts, 1, stdin) == 1) {
        char *input = malloc(counts[1] + 1);
        if (input == NULL || fread(input, 1, counts[1], stdin) != counts[1]) {
            stop("a record is not whole");
        }
        read_one(input, counts[1]);
        free(input);
    }
    return 0;
}
