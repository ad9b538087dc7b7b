/* show_replies [--hex] [FILE]: shows each reply of a capture as `redis-cli --no-raw` (7.0) prints what a registry writes.
 * The capture is the bytes that a console received, from its first byte on; with --hex, lines as the program `frames` prints them.
 * Without FILE it is read from the standard input. Simple and error texts are shown whole; redis-cli cuts them at a zero byte.
 * Ends with status 0, or after a message with one of the following. */
#include "registry.h"
#include <inttypes.h>
#include <stdio.h>
#include <stdlib.h>
#include <string.h>

#define STATUS_FAILED 1   /* wrong arguments, no memory, or input or output that fails */
#define STATUS_FAULT 2    /* bytes that are no reply, or beyond the limits of the reader */
#define STATUS_TOO_DEEP 3 /* arrays nest deeper than the reader reads */
#define STATUS_CUT 4      /* the last bytes are no whole reply */
#define STATUS_LINE 5     /* with --hex, a line that `frames` does not print */

#define NO_PLACE 11 /* the number for an item table without a place */
#define TOO_DEEP 12 /* the number for arrays that nest too deep */
#define ITEM_WORDS REGISTRY_ITEM_WORDS(1)
#define FIRST_PLACES 64 /* items that the table has places for at first */
#define READ_SIZE 65536
#define HEAD_SIZE 3 /* two digits of session and a space, in front of a line of `frames` */

/* With --hex, the line at hand, counted from 1; else 0. Offsets are then those of its replies' bytes. */
static size_t line_number;

static void stop(int status, const char *message) {
    fflush(stdout);
    fputs("show_replies: ", stderr);
    if (line_number > 0) {
        fprintf(stderr, "line %zu: ", line_number);
    }
    fprintf(stderr, "%s\n", message);
    exit(status);
}

static void stop_at(int status, const char *message, size_t offset) {
    char text[128];
    snprintf(text, sizeof text, "offset %zu: %s", offset, message);
    stop(status, text);
}

static void *resized(void *memory, size_t count, size_t size) {
    void *got = count <= SIZE_MAX / size ? realloc(memory, count * size) : NULL;
    if (got == NULL) {
        stop(STATUS_FAILED, "no memory");
    }
    return got;
}

/* THE TEXT OF AN ITEM */

static void show_quoted_byte(uint8_t byte) {
    switch (byte) {
    case '\\': fputs("\\\\", stdout); break;
    case '"': fputs("\\\"", stdout); break;
    case '\n': fputs("\\n", stdout); break;
    case '\r': fputs("\\r", stdout); break;
    case '\t': fputs("\\t", stdout); break;
    case '\a': fputs("\\a", stdout); break;
    case '\b': fputs("\\b", stdout); break;
    default:
        if (byte >= ' ' && byte <= '~') {
            putchar(byte);
        } else {
            printf("\\x%02x", byte);
        }
    }
}

static void show_quoted(const uint8_t *text, size_t count) {
    putchar('"');
    for (size_t i = 0; i < count; i++) {
        show_quoted_byte(text[i]);
    }
    fputs("\"\n", stdout);
}

static void show_plain(const char *before, const uint8_t *text, size_t count) {
    fputs(before, stdout);
    fwrite(text, 1, count, stdout);
    putchar('\n');
}

/* The number of a word in two's complement. */
static int64_t signed_of(uint64_t word) {
    int64_t number;
    memcpy(&number, &word, sizeof number);
    return number;
}

static int digits_of(uint64_t number) {
    int digits = 1;
    while (number >= 10) {
        number /= 10;
        digits++;
    }
    return digits;
}

static const uint64_t *show_item(const uint8_t *bytes, const uint64_t *item, int indent);

/* The items of an array from `item` on; lines below the first begin with `indent` spaces. Returns what follows them. */
static const uint64_t *show_array(const uint8_t *bytes, const uint64_t *item, uint64_t count, int indent) {
    int digits = digits_of(count);
    if (count == 0) {
        fputs("(empty array)\n", stdout);
    }
    for (uint64_t i = 1; i <= count; i++) {
        printf("%*s%*" PRIu64 ") ", i == 1 ? 0 : indent, "", digits, i);
        item = show_item(bytes, item, indent + digits + 2);
    }
    return item;
}

/* One item, with those in it if it is an array. Returns what follows. */
static const uint64_t *show_item(const uint8_t *bytes, const uint64_t *item, int indent) {
    const uint8_t *text = bytes + item[1];
    const uint64_t *next = item + ITEM_WORDS;
    switch (item[0]) {
    case REGISTRY_SIMPLE: show_plain("", text, item[2]); break;
    case REGISTRY_ERROR: show_plain("(error) ", text, item[2]); break;
    case REGISTRY_INTEGER: printf("(integer) %" PRId64 "\n", signed_of(item[3])); break;
    case REGISTRY_BULK: show_quoted(text, item[2]); break;
    case REGISTRY_ARRAY: return show_array(bytes, next, item[3], indent);
    default: fputs("(nil)\n", stdout);
    }
    return next;
}

/* THE REPLIES OF A STREAM */

/* The item table, as long as the longest reply so far needed it. */
static uint64_t *table;
static size_t table_places;

/* Reads the first reply. The reader clears the whole table, so that it is lent no more of it than the reply needs. */
static registry_reply read_reply(const uint8_t *bytes, size_t count) {
    for (size_t places = FIRST_PLACES;; places *= 2) {
        if (places > table_places) {
            table = resized(table, places, ITEM_WORDS * sizeof *table);
            table_places = places;
        }
        registry_reply read = registry_read_reply(bytes, count, table, ITEM_WORDS * places);
        if (read.number != NO_PLACE) {
            return read;
        }
    }
}

static void show_replies(const uint8_t *bytes, size_t count) {
    size_t at = 0;
    while (at < count) {
        registry_reply read = read_reply(bytes + at, count - at);
        if (read.number == TOO_DEEP) {
            stop_at(STATUS_TOO_DEEP, "a reply whose arrays nest deeper than 8", at);
        }
        if (read.state == REGISTRY_FAULT) {
            stop_at(STATUS_FAULT, "an item that is no reply", at + read.offset);
        }
        if (read.state == REGISTRY_WAIT) {
            stop_at(STATUS_CUT, "the last bytes, which are no whole reply", at);
        }
        show_item(bytes + at, table, 0);
        at += read.used;
    }
}

/* LINES OF `frames`: two digits of session, a space, and the hexadecimal of the replies with a mark behind it, or `-` */

static int is_digit(uint8_t byte) {
    return byte >= '0' && byte <= '9';
}

static int hex_value(uint8_t byte) {
    if (is_digit(byte)) {
        return byte - '0';
    }
    return byte >= 'a' && byte <= 'f' ? byte - 'a' + 10 : -1;
}

/* Puts the bytes of the hexadecimal text in front of `text` in its place; returns how many. */
static size_t decode_hex(uint8_t *text, size_t count) {
    size_t n = 0;
    while (2 * n + 1 < count && hex_value(text[2 * n]) >= 0 && hex_value(text[2 * n + 1]) >= 0) {
        text[n] = (uint8_t)(16 * hex_value(text[2 * n]) + hex_value(text[2 * n + 1]));
        n++;
    }
    return n;
}

/* What stands behind the hexadecimal: nothing, or `!` alone, or `!` and a number. */
static void show_mark(const uint8_t *mark, size_t count) {
    if (count == 0) {
        return;
    }
    if (mark[0] != '!' || strspn((const char *)mark + 1, "0123456789") < count - 1) {
        stop(STATUS_LINE, "not of the form of frames");
    }
    if (count == 1) {
        puts("(rest dropped)");
    } else {
        show_plain("(number) ", mark + 1, count - 1);
    }
}

/* Shows a line of `count` bytes; a zero byte or LF stands behind it. */
static void show_line(uint8_t *line, size_t count) {
    if (count == 1 && line[0] == '?') {
        puts("(no frame)");
        return;
    }
    if (count <= HEAD_SIZE || !is_digit(line[0]) || !is_digit(line[1]) || line[2] != ' ') {
        stop(STATUS_LINE, "not of the form of frames");
    }
    printf("session %.2s\n", (const char *)line);
    uint8_t *text = line + HEAD_SIZE;
    size_t left = count - HEAD_SIZE;
    if (left == 1 && text[0] == '-') {
        puts("(no reply)");
        return;
    }
    size_t n = decode_hex(text, left);
    show_replies(text, n);
    show_mark(text + 2 * n, left - 2 * n);
}

static void show_lines(uint8_t *text, size_t count) {
    size_t at = 0;
    while (at < count) {
        uint8_t *feed = memchr(text + at, '\n', count - at);
        size_t end = feed == NULL ? count : (size_t)(feed - text);
        line_number++;
        show_line(text + at, end - at);
        at = end + 1;
    }
}

/* THE INPUT */

/* All bytes of a file, with a zero byte behind them. */
static uint8_t *read_all(FILE *file, size_t *count) {
    uint8_t *bytes = resized(NULL, READ_SIZE, 1);
    size_t size = READ_SIZE, got;
    *count = 0;
    while ((got = fread(bytes + *count, 1, size - *count - 1, file)) > 0) {
        *count += got;
        if (*count + 1 == size) {
            size *= 2;
            bytes = resized(bytes, size, 1);
        }
    }
    if (ferror(file)) {
        stop(STATUS_FAILED, "the capture cannot be read");
    }
    bytes[*count] = 0;
    return bytes;
}

int main(int argc, char **argv) {
    int hex = argc > 1 && strcmp(argv[1], "--hex") == 0;
    if (argc > 2 + hex) {
        stop(STATUS_FAILED, "show_replies [--hex] [FILE]");
    }
    FILE *file = argc == 2 + hex ? fopen(argv[1 + hex], "rb") : stdin;
    if (file == NULL) {
        stop(STATUS_FAILED, "the capture cannot be opened");
    }
    size_t count;
    uint8_t *bytes = read_all(file, &count);
    if (hex) {
        show_lines(bytes, count);
    } else {
        show_replies(bytes, count);
    }
    if (fflush(stdout) != 0 || ferror(stdout)) {
        stop(STATUS_FAILED, "the output fails");
    }
    free(table);
    free(bytes);
    fclose(file);
    return 0;
}
