/* Annotates a job file, checks and runs it, and prints its log and how it ended. `make` builds it, as out/c/example. */
#include <stdio.h>
#include "gumreta.h"

/* Says what an answer other than 0 means, and gives the exit status for it. */
static int failed(uint64_t number)
{
    const char *what = gumreta_is_refusal(number) ? "refused" : gumreta_is_stop(number) ? "stopped" : "unknown answer";

    fprintf(stderr, "%s %llu: %s\n", what, (unsigned long long)number, gumreta_message(number));
    return 1;
}

/* The bytes of a file, one more than a job has where it is too long; or -1. */
static long read_file(const char *path, uint8_t *bytes, size_t most)
{
    FILE *source = fopen(path, "rb");
    size_t count;
    int broken;

    if (!source) {
        perror(path);
        return -1;
    }
    count = fread(bytes, 1, most, source);
    broken = ferror(source);
    if (broken)
        perror(path);
    fclose(source);
    return broken ? -1 : (long)count;
}

static int run(const uint8_t *job, size_t bytes)
{
    static uint32_t cells[1024 * GUMRETA_CELL_WORDS], regions[1024 * GUMRETA_REGION_WORDS];
    static uint32_t frames[100 * GUMRETA_FRAME_WORDS], prints[1024 * GUMRETA_PRINT_WORDS];
    size_t done = 0, printed = 0, k;
    uint64_t number = gumreta_run(job, bytes, cells, sizeof cells / 4, regions, sizeof regions / 4, frames, sizeof frames / 4, prints,
                                  sizeof prints / 4, 1000000, &done, &printed);

    if (number != GUMRETA_DONE && !gumreta_is_stop(number))
        return failed(number);
    for (k = 0; k < printed; k++)
        printf("%ld\n", (long)(int32_t)prints[k]);
    if (number != GUMRETA_DONE)
        return failed(number);
    printf("finished after %zu steps\n", done);
    return 0;
}

int main(int count, char **words)
{
    static uint8_t file[GUMRETA_MAX_BYTES + 1], out[GUMRETA_MAX_BYTES];
    size_t written = 0;
    uint64_t number;
    long bytes;

    if (count != 2) {
        fprintf(stderr, "usage: %s FILE (a job file without creates and removes)\n", words[0]);
        return 2;
    }
    bytes = read_file(words[1], file, sizeof file);
    if (bytes < 0)
        return 2;
    number = gumreta_annotate(file, (size_t)bytes, out, sizeof out, &written);
    if (number != GUMRETA_DONE)
        return failed(number);
    printf("annotated: %zu records\n", written / 16);
    number = gumreta_check(out, written);
    if (number != GUMRETA_DONE)
        return failed(number);
    printf("accepted\n");
    return run(out, written);
}
