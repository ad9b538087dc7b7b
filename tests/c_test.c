/* Links the library and runs open, request, preview, group, the readings and the reader of replies on buffers of its own. Ends with status 1 at
 * the first difference. */
#include "registry.h"
#include <stdio.h>
#include <stdlib.h>
#include <string.h>

#define VERSIONS 8
#define SIZE 64
#define BEHIND 3

static uint64_t words[REGISTRY_STORE_WORDS(VERSIONS) + BEHIND];
static uint8_t bytes[SIZE + BEHIND];
static uint64_t session_words[REGISTRY_SESSION_WORDS];
static uint8_t session_bytes[REGISTRY_SESSION_BYTES];
static uint64_t places[REGISTRY_TABLE_WORDS(4)];
static uint8_t reply[64];
static uint64_t items[REGISTRY_ITEM_WORDS(9) + BEHIND];
static int checks;

static void check(int holds, int line) {
    checks++;
    if (!holds) {
        printf("c_test: line %d does not hold\n", line);
        exit(1);
    }
}
#define CHECK(condition) check((condition), __LINE__)

static registry_answer send_bytes(size_t session, const char *text, size_t count) {
    memset(reply, 0xaa, sizeof reply);
    return registry_request(session, (const uint8_t *)text, count, places, sizeof places / 8, words, sizeof words / 8, bytes, sizeof bytes,
                            session_words, sizeof session_words / 8, session_bytes, sizeof session_bytes, reply, sizeof reply);
}

/* The reply is this text, with zero behind it up to the end of the buffer. */
static int replied(const char *text) {
    uint8_t due[sizeof reply] = {0};
    memcpy(due, text, strlen(text));
    return memcmp(reply, due, sizeof reply) == 0;
}

/* One whole request in `text`, answered by `answer`. */
static int answers(size_t session, const char *text, const char *answer) {
    registry_answer a = send_bytes(session, text, strlen(text));
    return a.number == 0 && a.used == strlen(text) && a.reply == strlen(answer) && replied(answer);
}

/* A number, with nothing used, the reply buffer zero and the store as it was. */
static int refuses(size_t session, const char *text, uint64_t number) {
    uint64_t words_before[sizeof words / 8];
    uint8_t bytes_before[sizeof bytes];
    memcpy(words_before, words, sizeof words);
    memcpy(bytes_before, bytes, sizeof bytes);
    registry_answer a = send_bytes(session, text, strlen(text));
    return a.number == number && a.used == 0 && a.reply == 0 && replied("") && memcmp(words, words_before, sizeof words) == 0
        && memcmp(bytes, bytes_before, sizeof bytes) == 0;
}

static int holds(const char *key, const char *value) {
    registry_value v = registry_read(words, sizeof words / 8, bytes, sizeof bytes, (const uint8_t *)key, strlen(key));
    if (value == NULL) {
        return v.number == 0 && v.found == 0 && v.start == 0 && v.size == 0;
    }
    return v.number == 0 && v.found == 1 && v.size == strlen(value) && memcmp(bytes + v.start, value, v.size) == 0;
}

static void test_open(void) {
    memset(words, 0x55, sizeof words);
    memset(bytes, 0x66, sizeof bytes);
    CHECK(registry_open(words, sizeof words / 8, bytes, sizeof bytes, 0, VERSIONS + 1, SIZE) == 9);
    CHECK(registry_open(words, sizeof words / 8, bytes, sizeof bytes, 0, (size_t)1 << 62, SIZE) == 9);
    CHECK(registry_open(words, sizeof words / 8, bytes, sizeof bytes, 0, VERSIONS, sizeof bytes + 1) == 9);
    CHECK(words[0] == 0x5555555555555555u);
    CHECK(registry_open(words, sizeof words / 8, bytes, sizeof bytes, 41, VERSIONS, SIZE) == 0);
    CHECK(words[0] == 0 && words[1] == 0 && words[2] == 41 && words[3] == VERSIONS && words[4] == SIZE);
    CHECK(words[5] == 0x5555555555555555u && bytes[0] == 0x66);
}

static void test_requests(void) {
    CHECK(answers(0, "*1\r\n$4\r\nPING\r\n", "+PONG\r\n"));
    registry_answer a = send_bytes(0, "PING\r\nPING\r\n", 12);
    CHECK(a.number == 0 && a.used == 6 && a.reply == 7 && replied("+PONG\r\n") && places[0] == 0 && places[1] == 4);
    a = send_bytes(0, "PIN", 3);
    CHECK(a.number == 0 && a.used == 0 && a.reply == 0 && replied(""));
    CHECK(answers(0, "\r\n", ""));
    CHECK(answers(0, "SET f 402500\r\n", "+OK\r\n"));
    CHECK(answers(1, "GET f\r\n", "$6\r\n402500\r\n"));
    CHECK(answers(0, "INCR n\r\n", ":1\r\n"));
    CHECK(words[0] == 2 && words[2] == 43 && words[8] == 42 && words[12] == 43);
    CHECK(holds("f", "402500") && holds("n", "1") && holds("g", NULL));
    CHECK(answers(0, "WATCH f\r\n", "+OK\r\n"));
    CHECK(session_words[2] == 1 && session_words[4] == 1 && session_words[36] == 43 && session_bytes[0] == 'f');
    CHECK(answers(0, "MULTI\r\n", "+OK\r\n"));
    CHECK(answers(0, "SET f 1\r\n", "+QUEUED\r\n"));
    CHECK(session_words[3] == 1 && session_words[68] == 3 && session_words[132] == 3 && session_words[133] == 1);
    CHECK(answers(2, "WATCH n\r\n", "+OK\r\n"));
    CHECK(answers(2, "MULTI\r\n", "+OK\r\n"));
    CHECK(answers(2, "GET f\r\n", "+QUEUED\r\n"));
    CHECK(answers(1, "SET f 2\r\n", "+OK\r\n"));
    CHECK(answers(0, "EXEC\r\n", "*-1\r\n"));
    CHECK(answers(2, "EXEC\r\n", "*1\r\n$1\r\n2\r\n"));
    CHECK(answers(0, "MULTI\r\n", "+OK\r\n"));
    CHECK(answers(0, "SET f 3\r\n", "+QUEUED\r\n"));
    CHECK(session_words[1] == 0);
    CHECK(answers(0, "SET f\r\n", "-ERR wrong number of arguments for 'set' command\r\n"));
    CHECK(session_words[1] == 1 && session_words[3] == 1);
    CHECK(answers(0, "EXEC\r\n", "-EXECABORT Transaction discarded because of previous errors.\r\n"));
    CHECK(session_words[0] == 0 && session_words[1] == 0 && session_words[3] == 0 && holds("f", "2"));
    CHECK(answers(0, "MULTI\r\n", "+OK\r\n"));
    CHECK(answers(0, "quit\r\n", "+OK\r\n"));
    CHECK(answers(0, "EXEC\r\n", "-ERR EXEC without MULTI\r\n"));
    CHECK(answers(0, "*-1\r\n", "-ERR Protocol error: invalid multibulk length '-1'\r\n"));
}

static void test_numbers(void) {
    CHECK(refuses(16, "PING\r\n", 1));
    CHECK(refuses(0, "DEL a b c d\r\n", 2));
    CHECK(refuses(0, "ECHO 0123456789012345678901234567890123456789012345678901234567890\r\n", 3));
    CHECK(refuses(0, "SET big 0123456789012345678901234567890123456789012345678901234567890\r\n", 6));
    uint64_t kept = session_words[3];
    session_words[3] = 1;
    CHECK(refuses(3, "PING\r\n", 9));
    session_words[3] = kept;
    CHECK(answers(3, "PING\r\n", "+PONG\r\n"));
    CHECK(answers(0, "MULTI\r\n", "+OK\r\n"));
    CHECK(answers(0, "SET f 3\r\n", "+QUEUED\r\n"));
    session_words[68] = 2;
    CHECK(refuses(3, "PING\r\n", 9));
    session_words[1] = 1;
    CHECK(refuses(3, "PING\r\n", 9));
    session_words[68] = 3;
    CHECK(answers(0, "DISCARD\r\n", "+OK\r\n"));
    CHECK(answers(0, "WATCH a b\r\n", "+OK\r\n"));
    session_words[37] = 45;
    CHECK(words[2] == 44 && refuses(3, "PING\r\n", 9));
    session_words[37] = 44;
    session_words[38] = 45;
    CHECK(answers(3, "PING\r\n", "+PONG\r\n"));
    CHECK(answers(0, "UNWATCH\r\n", "+OK\r\n"));
    session_words[36] = 45;
    CHECK(answers(3, "PING\r\n", "+PONG\r\n"));
}

static void test_groups(void) {
    /* Writes: a = "x", tombstone of f; checked key f. */
    const uint64_t parts[] = {0, 1, 1, 2, 2, 1, 0, 0, 2, 1};
    const uint8_t data[] = {'a', 'x', 'f'};
    const registry_member members[] = {{0, 0, 0, 2, 0, 0}, {2, 44, 0, 0, 4, 1}, {1, 46, 0, 1, 0, 0}};
    uint8_t verdicts[5] = {9, 9, 9, 9, 9};
    const uint8_t due[5] = {REGISTRY_ACCEPTED, REGISTRY_CONFLICT, REGISTRY_CONFLICT, 9, 9};
    const uint8_t none[5] = {9, 9, 9, 9, 9};
    CHECK(registry_group(members, 3, parts, 10, data, 3, verdicts, 2, words, sizeof words / 8, bytes, sizeof bytes) == 8);
    CHECK(registry_group(members, 3, parts, 9, data, 3, verdicts, 5, words, sizeof words / 8, bytes, sizeof bytes) == 8);
    CHECK(registry_group(members, 3, parts, 10, data, 2, verdicts, 5, words, sizeof words / 8, bytes, sizeof bytes) == 8);
    CHECK(memcmp(verdicts, none, 5) == 0 && words[2] == 44 && holds("f", "2"));
    CHECK(registry_group(members, 3, parts, 10, data, 3, verdicts, 5, words, sizeof words / 8, bytes, sizeof bytes) == 0);
    CHECK(memcmp(verdicts, due, 5) == 0 && words[2] == 46);
    CHECK(holds("a", "x") && holds("f", NULL) && holds("n", "1"));
    CHECK(registry_group(NULL, 0, NULL, 0, NULL, 0, NULL, 0, words, sizeof words / 8, bytes, sizeof bytes) == 0 && words[2] == 46);
}

static void test_walk(void) {
    registry_entry e = registry_entry_from(words, sizeof words / 8, bytes, sizeof bytes, 0);
    CHECK(e.number == 0 && e.found == 1 && e.key_size == 1 && bytes[e.key_start] == 'a' && e.value_size == 1 && bytes[e.value_start] == 'x');
    e = registry_entry_from(words, sizeof words / 8, bytes, sizeof bytes, e.next);
    CHECK(e.number == 0 && e.found == 1 && e.key_size == 1 && bytes[e.key_start] == 'n' && bytes[e.value_start] == '1');
    e = registry_entry_from(words, sizeof words / 8, bytes, sizeof bytes, e.next);
    CHECK(e.number == 0 && e.found == 0 && e.next == 0);
    CHECK(registry_entry_from(words, 4, bytes, sizeof bytes, 0).number == 9);
    CHECK(registry_read(words, sizeof words / 8, bytes, 1, (const uint8_t *)"a", 1).number == 9);
}

/* An empty store and clear sessions in the same buffers. */
static void reopen(uint64_t last, size_t versions) {
    memset(session_words, 0, sizeof session_words);
    CHECK(registry_open(words, sizeof words / 8, bytes, sizeof bytes, last, versions, SIZE) == 0);
}

/* One whole request of session 0, answered without a number. */
static void say(const char *text) {
    registry_answer a = send_bytes(0, text, strlen(text));
    CHECK(a.number == 0 && a.used == strlen(text));
}

/* A preview with so many reply bytes gives these, leaves store and sessions as they are, and EXEC then gives the same. */
static int previews(size_t session, size_t room, uint64_t number, uint64_t verdict, const char *answer, uint64_t last) {
    static uint64_t words_before[sizeof words / 8], session_words_before[sizeof session_words / 8];
    static uint8_t bytes_before[sizeof bytes], session_bytes_before[sizeof session_bytes];
    uint8_t due[sizeof reply];
    memcpy(words_before, words, sizeof words);
    memcpy(bytes_before, bytes, sizeof bytes);
    memcpy(session_words_before, session_words, sizeof session_words);
    memcpy(session_bytes_before, session_bytes, sizeof session_bytes);
    memset(due, 0xaa, sizeof due);
    memset(due, 0, room);
    memcpy(due, answer, strlen(answer));
    memset(reply, 0xaa, sizeof reply);
    registry_previewed p = registry_preview(session, words, sizeof words / 8, bytes, sizeof bytes, session_words, sizeof session_words / 8,
                                            session_bytes, sizeof session_bytes, reply, room);
    if (p.number != number || p.verdict != verdict || p.reply != strlen(answer) || p.last != last || memcmp(reply, due, sizeof reply) != 0) {
        return 0;
    }
    if (memcmp(words, words_before, sizeof words) != 0 || memcmp(bytes, bytes_before, sizeof bytes) != 0
        || memcmp(session_words, session_words_before, sizeof session_words) != 0
        || memcmp(session_bytes, session_bytes_before, sizeof session_bytes) != 0) {
        return 0;
    }
    memset(reply, 0xaa, sizeof reply);
    registry_answer a = registry_request(session, (const uint8_t *)"EXEC\r\n", 6, places, sizeof places / 8, words, sizeof words / 8, bytes,
                                         sizeof bytes, session_words, sizeof session_words / 8, session_bytes, sizeof session_bytes, reply, room);
    return a.number == number && a.reply == strlen(answer) && memcmp(reply, due, sizeof reply) == 0 && (number != 0 || words[2] == last);
}

static void test_previews(void) {
    const uint64_t most = UINT64_MAX;
    const char *aborted = "-EXECABORT Transaction discarded because of previous errors.\r\n";
    reopen(0, VERSIONS);
    say("SET a 1\r\n");
    CHECK(previews(0, 64, 0, REGISTRY_NO_VERDICT, "-ERR EXEC without MULTI\r\n", 1));
    reopen(0, VERSIONS);
    say("MULTI\r\n");
    say("FOO\r\n");
    CHECK(previews(0, 64, 0, REGISTRY_NO_VERDICT, aborted, 0));
    CHECK(previews(0, 64, 0, REGISTRY_NO_VERDICT, "-ERR EXEC without MULTI\r\n", 0));
    reopen(0, VERSIONS);
    say("WATCH a\r\n");
    say("SET a 1\r\n");
    say("MULTI\r\n");
    say("SET b 1\r\n");
    CHECK(previews(0, 4, 3, REGISTRY_NO_VERDICT, "", 0));
    CHECK(previews(0, 64, 0, REGISTRY_CONFLICT, "*-1\r\n", 1));
    reopen(0, VERSIONS);
    say("MULTI\r\n");
    CHECK(previews(0, 3, 3, REGISTRY_NO_VERDICT, "", 0));
    CHECK(previews(0, 0, 3, REGISTRY_NO_VERDICT, "", 0));
    CHECK(previews(0, 4, 0, REGISTRY_ACCEPTED, "*0\r\n", 0));
    reopen(0, 0);
    say("MULTI\r\n");
    say("SET a 1\r\n");
    CHECK(previews(0, 64, 6, REGISTRY_NO_VERDICT, "", 0));
    CHECK(previews(0, 3, 6, REGISTRY_NO_VERDICT, "", 0));
    reopen(most, VERSIONS);
    say("MULTI\r\n");
    say("SET a 1\r\n");
    CHECK(previews(0, 64, 7, REGISTRY_NO_VERDICT, "", 0));
    CHECK(previews(0, 3, 7, REGISTRY_NO_VERDICT, "", 0));
    reopen(5, VERSIONS);
    say("MULTI\r\n");
    say("SET a 1\r\n");
    say("SET b 2\r\n");
    say("SET a 3\r\n");
    say("GET a\r\n");
    CHECK(previews(16, 64, 1, REGISTRY_NO_VERDICT, "", 0));
    CHECK(previews(0, 64, 0, REGISTRY_ACCEPTED, "*4\r\n+OK\r\n+OK\r\n+OK\r\n$1\r\n3\r\n", 7));
    CHECK(holds("a", "3") && holds("b", "2"));
    session_words[3] = 1;
    CHECK(previews(0, 64, 9, REGISTRY_NO_VERDICT, "", 0));
    CHECK(previews(16, 64, 1, REGISTRY_NO_VERDICT, "", 0));
    session_words[3] = 0;
    CHECK(previews(0, 64, 0, REGISTRY_NO_VERDICT, "-ERR EXEC without MULTI\r\n", 7));
}

/* A reply read with a table of so many words, none of which is zero before. */
static registry_reply read_text(const char *text, size_t count) {
    memset(items, 0xaa, sizeof items);
    return registry_read_reply((const uint8_t *)text, strlen(text), items, count);
}

static int is(registry_reply r, uint64_t number, uint64_t state, size_t used, size_t items_read, size_t offset) {
    return r.number == number && r.state == state && r.used == used && r.items == items_read && r.offset == offset;
}

/* The table of `count` words is `due_count` words and zeros, and the words behind it were not touched. */
static int tabled(size_t count, const uint64_t *due, size_t due_count) {
    for (size_t i = 0; i < sizeof items / 8; i++) {
        uint64_t wanted = i >= count ? 0xaaaaaaaaaaaaaaaau : i < due_count ? due[i] : 0;
        if (items[i] != wanted) {
            return 0;
        }
    }
    return 1;
}

#define EIGHT_ARRAYS "*1\r\n*1\r\n*1\r\n*1\r\n*1\r\n*1\r\n*1\r\n*1\r\n"

static void test_replies(void) {
    const uint64_t every_kind[] = {
        REGISTRY_ARRAY, 0, 0, 7,
        REGISTRY_SIMPLE, 5, 2, 0,
        REGISTRY_ERROR, 10, 1, 0,
        REGISTRY_INTEGER, 0, 0, (uint64_t)-5,
        REGISTRY_BULK, 22, 3, 0,
        REGISTRY_NIL, 0, 0, 0,
        REGISTRY_NIL_ARRAY, 0, 0, 0,
        REGISTRY_ARRAY, 0, 0, 0,
    };
    const char *text = "*7\r\n+OK\r\n-E\r\n:-5\r\n$3\r\na\r\n\r\n$-1\r\n*-1\r\n*0\r\n:x\r\n";
    CHECK(is(read_text(text, 34), 0, REGISTRY_WHOLE, 41, 8, 0) && tabled(34, every_kind, 32));
    CHECK(is(read_text(text, 32), 0, REGISTRY_WHOLE, 41, 8, 0) && tabled(32, every_kind, 32));
    CHECK(is(read_text(text, 31), 11, REGISTRY_REFUSED, 0, 0, 0) && tabled(31, NULL, 0));
    CHECK(is(read_text(text + 41, 4), 0, REGISTRY_FAULT, 0, 0, 0) && tabled(4, NULL, 0));
    CHECK(is(read_text("*2\r\n+a\r\n$1\r\nax", 12), 0, REGISTRY_WAIT, 0, 0, 0) && tabled(12, NULL, 0));
    CHECK(is(read_text("*2\r\n+a\r\n$1\r\naxx", 12), 0, REGISTRY_FAULT, 0, 0, 8) && tabled(12, NULL, 0));
    CHECK(is(read_text("*2\r\n+a\r\n$+1\r\na\r\n", 8), 0, REGISTRY_FAULT, 0, 0, 8) && tabled(8, NULL, 0));
    CHECK(is(read_text(EIGHT_ARRAYS ":5\r\n", 36), 0, REGISTRY_WHOLE, 36, 9, 0) && items[32] == REGISTRY_INTEGER && items[35] == 5);
    CHECK(is(read_text(EIGHT_ARRAYS "*-1\r\n", 36), 0, REGISTRY_WHOLE, 37, 9, 0) && items[32] == REGISTRY_NIL_ARRAY && items[35] == 0);
    CHECK(is(read_text(EIGHT_ARRAYS "*x\r\n", 32), 0, REGISTRY_FAULT, 0, 0, 32) && tabled(32, NULL, 0));
    CHECK(is(read_text(EIGHT_ARRAYS "*0\r\n", 32), 12, REGISTRY_REFUSED, 0, 0, 0) && tabled(32, NULL, 0));
    CHECK(is(read_text(EIGHT_ARRAYS "*0\r\n", 31), 11, REGISTRY_REFUSED, 0, 0, 0) && tabled(31, NULL, 0));
    CHECK(is(registry_read_reply(NULL, 0, NULL, 0), 0, REGISTRY_WAIT, 0, 0, 0));
}

/* What lies behind the capacities was never touched. */
static void test_behind(void) {
    for (size_t i = 0; i < BEHIND; i++) {
        CHECK(words[REGISTRY_STORE_WORDS(VERSIONS) + i] == 0x5555555555555555u && bytes[SIZE + i] == 0x66);
    }
}

int main(void) {
    test_open();
    test_requests();
    test_numbers();
    test_groups();
    test_walk();
    test_previews();
    test_replies();
    test_behind();
    printf("c_test: %d checks hold\n", checks);
    return 0;
}
