/* Tests the header and the archive behind it, as C and as C++: `make test`. */
#include <pthread.h>
#include <stdio.h>
#include <string.h>
#include "gumreta.h"

static int failures;

#define EXPECT(condition) ((condition) ? (void)0 : failed(#condition, __LINE__))

static void failed(const char *condition, int line)
{
    failures++;
    fprintf(stderr, "test.c:%d: not so: %s\n", line, condition);
}

/* A file of so many records, its words in `out`, low byte first. */
static size_t put(uint8_t *out, uint16_t words[][8], size_t records)
{
    size_t i;

    for (i = 0; i < 8 * records; i++) {
        out[2 * i] = (uint8_t)(words[i / 8][i % 8] & 255);
        out[2 * i + 1] = (uint8_t)(words[i / 8][i % 8] >> 8);
    }
    return 16 * records;
}

/* A constant: X = f, which takes neither a region nor a cell. */
static size_t constant(uint8_t *out)
{
    static uint16_t words[6][8] = {{1, 3, 1, 6}, {2, 0, 2}, {3}, {4, 0, 4, 0, 5}, {5, 0, 0, 1}, {11, 0, 1, 0}};

    return put(out, words, 6);
}

static void versions(void)
{
    char text[32];

    EXPECT(gumreta_version() == GUMRETA_VERSION);
    snprintf(text, sizeof text, "%d.%d.%d", GUMRETA_VERSION / 10000, GUMRETA_VERSION / 100 % 100, GUMRETA_VERSION % 100);
    EXPECT(strcmp(text, GUMRETA_VERSION_STRING) == 0);
}

/* 0 to 17 but for 16 have a message each, no two the same; all other numbers have that of the unknown, and are neither refusal nor stop. */
static void messages(void)
{
    static const uint64_t others[] = {16, 18, 19, 99, 255, 256 + 8, 65536, (uint64_t)1 << 32, UINT64_MAX};
    const char *unknown = gumreta_message(UINT64_MAX);
    uint64_t n, m;
    size_t k;

    for (n = 0; n <= 17; n++) {
        EXPECT((strcmp(gumreta_message(n), unknown) == 0) == (n == 16));
        EXPECT(gumreta_is_stop(n) == (n >= 10 && n <= 15));
        EXPECT(gumreta_is_refusal(n) == (n >= 1 && n != 16 && !gumreta_is_stop(n)));
        for (m = 0; m < n; m++)
            EXPECT(strcmp(gumreta_message(n), gumreta_message(m)) != 0);
    }
    for (k = 0; k < sizeof others / sizeof *others; k++) {
        EXPECT(strcmp(gumreta_message(others[k]), unknown) == 0);
        EXPECT(!gumreta_is_stop(others[k]) && !gumreta_is_refusal(others[k]));
    }
}

/* NULL where a length is 0. */
static void nothing_lent(void)
{
    static uint32_t frame[GUMRETA_FRAME_WORDS];
    uint8_t file[96];
    size_t bytes = constant(file), written = 7, done = 7, printed = 7;

    EXPECT(gumreta_check(NULL, 0) == GUMRETA_HEADER);
    EXPECT(gumreta_annotate(NULL, 0, NULL, 0, &written) == GUMRETA_HEADER && written == 0);
    EXPECT(gumreta_annotate(file, bytes, NULL, 0, &written) == GUMRETA_ROOM && written == 0);
    EXPECT(gumreta_run(NULL, 0, NULL, 0, NULL, 0, NULL, 0, NULL, 0, 1, &done, &printed) == GUMRETA_HEADER && done == 0 && printed == 0);
    EXPECT(gumreta_run(file, bytes, NULL, 0, NULL, 0, NULL, 0, NULL, 0, 1, &done, &printed) == GUMRETA_FRAMES && done == 0);
    EXPECT(gumreta_run(file, bytes, NULL, 0, NULL, 0, frame, GUMRETA_FRAME_WORDS, NULL, 0, 1, &done, &printed) == GUMRETA_DONE && done == 1);
}

/* A number printed, with one place lent and with none: `out` keeps what lies behind. */
static void a_print(void)
{
    static uint16_t words[5][8] = {{1, 1, 0, 5}, {4, 0, 2, 0, 3}, {5}, {8, 4, 1, 65535}, {17, 0, 1}};
    static uint32_t frame[GUMRETA_FRAME_WORDS];
    uint32_t prints[2] = {9, 9};
    uint8_t file[80], out[100];
    size_t bytes = put(file, words, 5), written = 0, done = 0, printed = 0;

    memset(out, 7, sizeof out);
    EXPECT(gumreta_annotate(file, bytes, out, sizeof out, &written) == GUMRETA_DONE && written == bytes);
    EXPECT(memcmp(out, file, bytes) == 0 && out[bytes] == 7);
    EXPECT(gumreta_check(out, written) == GUMRETA_DONE);
    EXPECT(gumreta_run(out, written, NULL, 0, NULL, 0, frame, GUMRETA_FRAME_WORDS, prints, 2, 2, &done, &printed) == GUMRETA_DONE);
    EXPECT(done == 2 && printed == 1 && (int32_t)prints[0] == -1 && prints[1] == 9);
    EXPECT(gumreta_run(out, written, NULL, 0, NULL, 0, frame, GUMRETA_FRAME_WORDS, NULL, 0, 2, &done, &printed) == GUMRETA_PRINTS && done == 1);
}

/* An if in an if in an if .., as deep as a file has records: nothing takes more of the stack. */
static size_t nested(uint8_t *out)
{
    static uint16_t words[4096][8] = {{1, 1, 0, 4096}, {4, 0, 2, 0, 3}, {5}, {8, 4, 1, 7}};
    uint16_t i;

    for (i = 4; i < 4096; i++) {
        uint16_t *w = words[i];
        w[0] = 14, w[2] = w[3] = 1, w[4] = (uint16_t)(i < 4095 ? i + 1 : 0);
    }
    return put(out, words, 4096);
}

static void *deepest(void *unused)
{
    static uint8_t file[GUMRETA_MAX_BYTES], out[GUMRETA_MAX_BYTES];
    static uint32_t frame[GUMRETA_FRAME_WORDS];
    size_t bytes = nested(file), written = 0, done = 0, printed = 0;

    EXPECT(gumreta_annotate(file, bytes, out, sizeof out, &written) == GUMRETA_DONE && written == bytes);
    EXPECT(gumreta_check(out, written) == GUMRETA_DONE);
    EXPECT(gumreta_run(out, written, NULL, 0, NULL, 0, frame, GUMRETA_FRAME_WORDS, NULL, 0, 9, &done, &printed) == GUMRETA_DONE && done == 2);
    return unused;
}

static void in_a_small_stack(void)
{
    pthread_attr_t small;
    pthread_t thread;

    EXPECT(pthread_attr_init(&small) == 0 && pthread_attr_setstacksize(&small, GUMRETA_STACK_BYTES) == 0);
    EXPECT(pthread_create(&thread, &small, deepest, NULL) == 0 && pthread_join(thread, NULL) == 0);
}

int main(void)
{
    versions();
    messages();
    nothing_lent();
    a_print();
    in_a_small_stack();
    if (failures == 0)
        printf("header and archive: all as they should be\n");
    return failures != 0;
}
