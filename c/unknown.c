/* An archive of a release to come, for tests: the function that the variable AT names (annotate, check or run) answers a number that no header knows
 * (ANSWER), the others 0. It writes nothing. Whoever calls it must take the number for an error. */
#include <stdlib.h>
#include <string.h>
#include "gumreta.h"

static uint64_t answer(const char *name)
{
    const char *at = getenv("AT");

    return at && strcmp(at, name) == 0 ? ANSWER : 0;
}

uint64_t gumreta_version(void)
{
    return GUMRETA_VERSION + 1;
}

uint64_t gumreta_annotate(const uint8_t *file, size_t file_bytes, uint8_t *out, size_t out_bytes, size_t *written)
{
    (void)file, (void)file_bytes, (void)out, (void)out_bytes, (void)written;
    return answer("annotate");
}

uint64_t gumreta_check(const uint8_t *file, size_t file_bytes)
{
    (void)file, (void)file_bytes;
    return answer("check");
}

uint64_t gumreta_run(const uint8_t *file, size_t file_bytes, uint32_t *cells, size_t cell_words, uint32_t *regions, size_t region_words,
                     uint32_t *frames, size_t frame_words, uint32_t *prints, size_t print_words, size_t steps, size_t *done, size_t *printed)
{
    (void)file, (void)file_bytes, (void)cells, (void)cell_words, (void)regions, (void)region_words;
    (void)frames, (void)frame_words, (void)prints, (void)print_words, (void)steps, (void)done, (void)printed;
    return answer("run");
}
