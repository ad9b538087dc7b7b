/* Reads replies by the library, for reference/fuzz_replies.py. A record on stdin is two words, how many words the table has and how many bytes the
 * input, and the input. For each record the five words of the answer and all words of the table go to stdout. Words have 64 bits, in the
 * machine's order. No word of the table is zero before a call. Input and table each end at the end of their memory: a call that reads
 * or writes behind them ends the program. */
#define _DEFAULT_SOURCE
#include "registry.h"
#include <stdio.h>
#include <stdlib.h>
#include <string.h>
#include <sys/mman.h>
#include <unistd.h>

#define MOST_INPUT ((size_t)1 << 27)
#define MOST_WORDS ((size_t)1 << 23)
#define FILLED 0xaaaaaaaaaaaaaaaau

static void stop(const char *why) {
    fprintf(stderr, "replies_lib: %s\n", why);
    exit(2);
}

/* The end of so much memory; behind it is a page that nothing may touch. The size is a multiple of a page. */
static uint8_t *end_of_memory(size_t size) {
    size_t page = (size_t)sysconf(_SC_PAGESIZE);
    uint8_t *start = mmap(NULL, size + page, PROT_READ | PROT_WRITE, MAP_PRIVATE | MAP_ANONYMOUS, -1, 0);
    if (start == MAP_FAILED || mprotect(start + size, page, PROT_NONE) != 0) {
        stop("no memory");
    }
    return start + size;
}

static void get(void *to, size_t size) {
    if (fread(to, 1, size, stdin) != size) {
        stop("a record is not whole");
    }
}

static void put(const void *from, size_t size) {
    if (fwrite(from, 1, size, stdout) != size) {
        stop("cannot write");
    }
}

static void read_one(const uint8_t *input, size_t input_count, uint64_t *table, size_t table_count) {
    for (size_t i = 0; i < table_count; i++) {
        table[i] = FILLED;
    }
    table[-1] = FILLED;
    registry_reply r = registry_read_reply(input, input_count, table, table_count);
    if (table[-1] != FILLED) {
        stop("the word in front of the table was written");
    }
    uint64_t answer[5] = {r.number, r.state, r.used, r.items, r.offset};
    put(answer, sizeof answer);
    put(table, table_count * sizeof *table);
}

int main(void) {
    uint8_t *input_end = end_of_memory(MOST_INPUT);
    uint64_t *table_end = (uint64_t *)(void *)end_of_memory(MOST_WORDS * sizeof(uint64_t));
    uint64_t counts[2];
    while (fread(counts, sizeof counts, 1, stdin) == 1) {
        if (counts[0] >= MOST_WORDS || counts[1] > MOST_INPUT) {
            stop("a record is too large");
        }
        get(input_end - counts[1], counts[1]);
        read_one(input_end - counts[1], counts[1], table_end - counts[0], counts[0]);
    }
    return 0;
}
