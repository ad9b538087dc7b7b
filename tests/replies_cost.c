/* replies_cost FEW MANY: reads the replies on stdin, fed in chunks of CHUNK bytes, by the library with a table of FEW and of MANY places and by hiredis
 * with and without objects, in turn, ROUNDS times. Writes a line for each of the four: replies, and the least time of a pass in nanoseconds of
 * the processor. The two readers get the same chunks; each keeps the rest of a chunk in its own buffer. */
#define _DEFAULT_SOURCE
#include "registry.h"
#include <hiredis/hiredis.h>
#include <stdio.h>
#include <stdlib.h>
#include <string.h>
#include <time.h>

#define CHUNK 16384
#define ROUNDS 41
#define MOST_INPUT ((size_t)1 << 24)
#define MOST_PLACES 1024
#define READERS 4

static uint8_t input[MOST_INPUT];
static size_t input_count;
static uint8_t buffer[MOST_INPUT];
static uint64_t table[REGISTRY_ITEM_WORDS(MOST_PLACES)];

static void must(int holds, const char *why) {
    if (!holds) {
        fprintf(stderr, "replies_cost: %s\n", why);
        exit(2);
    }
}

static size_t chunk_at(size_t at) {
    return input_count - at < CHUNK ? input_count - at : CHUNK;
}

/* The replies that the library reads with a table of so many places. */
static size_t by_library(size_t places) {
    size_t replies = 0, held = 0;
    for (size_t at = 0; at < input_count; at += CHUNK) {
        memcpy(buffer + held, input + at, chunk_at(at));
        held += chunk_at(at);
        size_t used = 0;
        for (;;) {
            registry_reply r = registry_read_reply(buffer + used, held - used, table, REGISTRY_ITEM_WORDS(places));
            if (r.state != REGISTRY_WHOLE) {
                must(r.state == REGISTRY_WAIT, "the library refuses a reply");
                break;
            }
            used += r.used;
            replies++;
        }
        held -= used;
        memmove(buffer, buffer + used, held);
    }
    must(held == 0, "the library leaves bytes");
    return replies;
}

/* The replies that hiredis reads, with its own objects or with none. */
static size_t by_hiredis(int objects) {
    size_t replies = 0;
    redisReader *reader = redisReaderCreate();
    must(reader != NULL, "no reader");
    if (!objects) {
        reader->fn = NULL;
    }
    for (size_t at = 0; at < input_count; at += CHUNK) {
        void *reply = NULL;
        must(redisReaderFeed(reader, (const char *)input + at, chunk_at(at)) == REDIS_OK, "hiredis takes no bytes");
        while (redisReaderGetReply(reader, &reply) == REDIS_OK && reply != NULL) {
            if (objects) {
                freeReplyObject(reply);
            }
            replies++;
        }
        must(reader->err == 0, "hiredis refuses a reply");
    }
    must(reader->pos == reader->len, "hiredis leaves bytes");
    redisReaderFree(reader);
    return replies;
}

static size_t read_all(size_t reader, size_t few, size_t many) {
    switch (reader) {
    case 0:
        return by_library(few);
    case 1:
        return by_library(many);
    default:
        return by_hiredis(reader == 2);
    }
}

static double now(void) {
    struct timespec t;
    must(clock_gettime(CLOCK_PROCESS_CPUTIME_ID, &t) == 0, "no clock");
    return 1e9 * (double)t.tv_sec + (double)t.tv_nsec;
}

int main(int argc, char **argv) {
    must(argc == 3, "replies_cost FEW MANY");
    size_t few = strtoul(argv[1], NULL, 10), many = strtoul(argv[2], NULL, 10);
    must(few <= MOST_PLACES && many <= MOST_PLACES, "too many places");
    input_count = fread(input, 1, MOST_INPUT, stdin);
    double least[READERS];
    size_t replies[READERS];
    for (int round = 0; round < ROUNDS; round++) {
        for (size_t i = 0; i < READERS; i++) {
            double begin = now();
            replies[i] = read_all(i, few, many);
            double took = now() - begin;
            least[i] = round == 0 || took < least[i] ? took : least[i];
        }
    }
    for (size_t i = 0; i < READERS; i++) {
        must(replies[i] == replies[0], "the readers count different replies");
        printf("%zu %.0f\n", replies[i], least[i]);
    }
    return 0;
}
