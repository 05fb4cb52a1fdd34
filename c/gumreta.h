/* Gumreta for C and C++: the annotator, the checker and the runner of job files. docs/LIBRARY.md says how to link it and what is proved.
 *
 * Each function answers 0 or one of the numbers below; 0 alone is success. It reads and writes nothing but what it is lent, allocates nothing and
 * keeps no state, so that several threads may call it at once. A pointer points to as many elements as the length beside it says (NULL where the
 * length is 0 is fine), 32-bit words lie at addresses that are multiples of 4, and no two of the lent memories overlap.
 */
#ifndef GUMRETA_H
#define GUMRETA_H

#include <stddef.h>
#include <stdint.h>

#ifdef __cplusplus
extern "C" {
#endif

/* The release of this header: 10,000 a major one, 100 a minor one, 1 a patch. gumreta_version says the archive's. */
#define GUMRETA_VERSION 40200
#define GUMRETA_VERSION_STRING "4.2.0"

/* What an answer's number means. A later release may add numbers: take one that you do not know for an error. */
enum gumreta_answer {
    GUMRETA_DONE = 0,       /* written, accepted, or run to its end */
    GUMRETA_HEADER = 1,     /* the length or the header is wrong */
    GUMRETA_FORM = 2,       /* a reference, a kind or an unused word is wrong; a call, print, if or try in a condition, a test outside one */
    GUMRETA_TYPING = 3,     /* a number out of range, a wrong type, count or order, or a region of a type of constants only */
    GUMRETA_VALUES = 4,     /* a variable read before it has a value, or given one twice */
    GUMRETA_REGIONS = 5,    /* regions that do not fit at an assign, construct, arm or call */
    GUMRETA_ANNOTATED = 6,  /* annotator: the job has creates or removes already */
    GUMRETA_CLASSES = 7,    /* a class that does not fit */
    GUMRETA_RULES = 8,      /* checker and runner: a rule of the checker is broken on some path */
    GUMRETA_ROOM = 9,       /* annotator: over 4,096 records, or longer than the memory lent */
    GUMRETA_STEPS = 10,     /* the runner stopped: the steps are spent */
    GUMRETA_CELLS = 11,     /* no free cell */
    GUMRETA_PLACES = 12,    /* no free region */
    GUMRETA_FRAMES = 13,    /* no free frame */
    GUMRETA_PRINTS = 14,    /* no place for a printed number */
    GUMRETA_SUMS = 15,      /* a sum or difference outside -2,147,483,648 to 2,147,483,647 */
    GUMRETA_UNREACHED = 17  /* a procedure that no chain of calls from the entry reaches; looked at after 5 and before 6 */
};

/* No annotated file is longer. */
#define GUMRETA_MAX_BYTES 65536

/* A call takes less of the stack: 856 KiB at most were measured (docs/LIBRARY.md). For pthread_attr_setstacksize, with what your own functions take. */
#define GUMRETA_STACK_BYTES 1572864

/* 32-bit words of memory for one of each sort; more than 65,535 of a sort count as 65,535. */
#define GUMRETA_CELL_WORDS 8
#define GUMRETA_REGION_WORDS 2
#define GUMRETA_FRAME_WORDS 136
#define GUMRETA_PRINT_WORDS 1

/* The release of the archive that is linked; GUMRETA_VERSION where the two belong together. */
uint64_t gumreta_version(void);

/* The annotator. GUMRETA_DONE: the first *written bytes of `out` are the annotated file, those behind keep their contents.
 * Else 1 to 7, 9 or 17: *written is 0, and `out` is as it was. */
uint64_t gumreta_annotate(const uint8_t *file, size_t file_bytes, uint8_t *out, size_t out_bytes, size_t *written);

/* The checker. GUMRETA_DONE: the file is accepted. Else 1 to 5, 7, 8 or 17. */
uint64_t gumreta_check(const uint8_t *file, size_t file_bytes);

/* The checker, then the runner in lent memory for at most `steps` steps. GUMRETA_DONE: the run has finished. 10 to 15: it stopped before a step that could
 * not be done. Either way *done is the steps done and the first *printed words of `prints` are the numbers printed (read them as int32_t), those behind
 * keep their contents; cells, regions and frames hold anything. 1 to 5, 7, 8 or 17: the file is refused, and all lent memory is as it was. */
uint64_t gumreta_run(const uint8_t *file, size_t file_bytes, uint32_t *cells, size_t cell_words, uint32_t *regions, size_t region_words,
                     uint32_t *frames, size_t frame_words, uint32_t *prints, size_t print_words, size_t steps, size_t *done, size_t *printed);

/* Whether a number says that a run stopped. */
static inline int gumreta_is_stop(uint64_t number)
{
    return number >= GUMRETA_STEPS && number <= GUMRETA_SUMS;
}

/* Whether a number says that a file is refused. A number that is neither this nor a stop nor 0 is none that this header knows. */
static inline int gumreta_is_refusal(uint64_t number)
{
    return (number >= GUMRETA_HEADER && number <= GUMRETA_ROOM) || number == GUMRETA_UNREACHED;
}

/* What an answer's number means, in words; of a number that this header does not know, that it does not. Never NULL, nothing to free. */
static inline const char *gumreta_message(uint64_t number)
{
    switch (number) {
    case GUMRETA_DONE: return "done";
    case GUMRETA_HEADER: return "the length or the header is wrong";
    case GUMRETA_FORM: return "a reference, a kind or an unused word is wrong; a call, print, if or try in a condition, a test outside one";
    case GUMRETA_TYPING: return "a number out of range, a wrong type, count or order, or a region of a type of constants only";
    case GUMRETA_VALUES: return "a variable read before it has a value, or given one twice";
    case GUMRETA_REGIONS: return "regions that do not fit at an assign, construct, arm or call";
    case GUMRETA_ANNOTATED: return "the job has creates or removes already";
    case GUMRETA_CLASSES: return "a class that does not fit";
    case GUMRETA_RULES: return "a rule of the checker is broken on some path";
    case GUMRETA_ROOM: return "the annotated job has over 4,096 records or is longer than the memory lent";
    case GUMRETA_STEPS: return "the steps are spent";
    case GUMRETA_CELLS: return "no free cell";
    case GUMRETA_PLACES: return "no free region";
    case GUMRETA_FRAMES: return "no free frame";
    case GUMRETA_PRINTS: return "no place for a printed number";
    case GUMRETA_SUMS: return "a sum or difference outside -2,147,483,648 to 2,147,483,647";
    case GUMRETA_UNREACHED: return "a procedure that no chain of calls from the entry reaches";
    default: return "an answer that this release does not know";
    }
}

#ifdef __cplusplus
}
#endif

#endif
