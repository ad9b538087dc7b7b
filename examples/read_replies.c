/* Reads replies from stdin as they arrive and prints their items, each on a line, behind the arrays that it stands in. Ends with status 1 at a fault, at
 * arrays that nest too deep, and at an end in the middle of a reply.
 *
 *   cc -std=c99 -I include examples/read_replies.c crates/registry_c/out/libregistry_c.a -o read_replies
 *   printf 'SET f 402500\r\nMGET f g\r\nQUIT\r\n' | nc 127.0.0.1 6380 | ./read_replies */
#define _POSIX_C_SOURCE 200112L
#include "registry.h"
#include <inttypes.h>
#include <stdio.h>
#include <stdlib.h>
#include <string.h>
#include <unistd.h>

#define CHUNK 4096
#define FIRST_PLACES 16
#define NO_PLACE 11
#define TOO_DEEP 12

/* Bytes that have arrived; those in front of `used` have been read. */
static uint8_t *bytes;
static size_t held, used, room;

/* The lent table. */
static uint64_t *items;
static size_t places;

static void *longer(void *memory, size_t size) {
    memory = realloc(memory, size);
    if (memory == NULL) {
        perror("read_replies");
        exit(1);
    }
    return memory;
}

static void lend_places(size_t count) {
    places = count;
    items = longer(items, REGISTRY_ITEM_WORDS(places) * sizeof *items);
}

/* Waits for more bytes; 0 at their end. */
static int receive(void) {
    if (used > 0) {
        held -= used;
        memmove(bytes, bytes + used, held);
        used = 0;
    }
    if (room - held < CHUNK) {
        room = 2 * room + CHUNK;
        bytes = longer(bytes, room);
    }
    ssize_t count = read(STDIN_FILENO, bytes + held, room - held);
    if (count <= 0) {
        return 0;
    }
    held += (size_t)count;
    return 1;
}

static void print_text(const char *kind, const uint8_t *text, size_t size) {
    printf("%s ", kind);
    for (size_t i = 0; i < size; i++) {
        if (text[i] >= ' ' && text[i] <= '~' && text[i] != '\\') {
            putchar(text[i]);
        } else {
            printf("\\x%02x", text[i]);
        }
    }
    putchar('\n');
}

/* An item has four words: kind, start, length, number or count. */
static void print_item(const uint8_t *reply, const uint64_t *item) {
    const uint8_t *text = reply + item[1];
    size_t size = (size_t)item[2];
    switch (item[0]) {
    case REGISTRY_SIMPLE:
        print_text("simple", text, size);
        break;
    case REGISTRY_ERROR:
        print_text("error", text, size);
        break;
    case REGISTRY_INTEGER:
        printf("integer %" PRId64 "\n", (int64_t)item[3]);
        break;
    case REGISTRY_BULK:
        print_text("bulk", text, size);
        break;
    case REGISTRY_NIL:
        printf("nil\n");
        break;
    case REGISTRY_NIL_ARRAY:
        printf("nil array\n");
        break;
    case REGISTRY_ARRAY:
        printf("array of %" PRIu64 "\n", item[3]);
        break;
    }
}

/* `left` counts, for each array that is open, the items that are still to come. */
static void print_reply(const uint8_t *reply, size_t count) {
    uint64_t left[REGISTRY_DEPTH];
    size_t depth = 0;
    for (size_t i = 0; i < count; i++) {
        const uint64_t *item = items + REGISTRY_ITEM_WORDS(i);
        printf("%*s", (int)(2 * depth), "");
        print_item(reply, item);
        if (item[0] == REGISTRY_ARRAY && item[3] > 0) {
            left[depth++] = item[3];
            continue;
        }
        while (depth > 0 && --left[depth - 1] == 0) {
            depth--;
        }
    }
    fflush(stdout);
}

int main(void) {
    lend_places(FIRST_PLACES);
    while (receive()) {
        registry_reply r;
        do {
            r = registry_read_reply(bytes + used, held - used, items, REGISTRY_ITEM_WORDS(places));
            if (r.state == REGISTRY_WHOLE) {
                print_reply(bytes + used, r.items);
                used += r.used;
            } else if (r.state == REGISTRY_FAULT) {
                printf("fault at byte %zu of a reply\n", r.offset);
                return 1;
            } else if (r.number == TOO_DEEP) {
                printf("arrays nest too deep\n");
                return 1;
            } else if (r.number == NO_PLACE) {
                lend_places(2 * places);
            }
        } while (r.state != REGISTRY_WAIT);
    }
    if (used < held) {
        printf("%zu bytes of an unfinished reply\n", held - used);
        return 1;
    }
    return 0;
}
