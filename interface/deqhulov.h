/* The C interface of the verified mapper of ALUs. Link libdeqhulov.a, which `tools/build deqhulov` puts into target/staticlib.
 *
 * Each call returns the number of document 01's refusal, 0 for none, and stores its place, 0 for none. The values that come with an
 * answer are put into `out`, from its first word on; if it is shorter than the values, none of it is touched.
 * All lengths count elements. A job, a mapping or lent words of any length may be handed in: what is wrong with them is refused.
 *
 * What the caller owes, since C cannot state it: no pointer is null, even with length 0; each points to as many elements as its length
 * says, aligned for their type; what is written to (lent, place, out) overlaps nothing else that is handed in.
 */
#ifndef DEQHULOV_H
#define DEQHULOV_H

#include <stddef.h>
#include <stdint.h>

#ifdef __cplusplus
extern "C" {
#endif

/* The most words of a job and of a mapping, the most values that come with an answer, the last function and the largest width. */
#define DEQHULOV_JOB_WORDS 568
#define DEQHULOV_MAPPING_WORDS 29
#define DEQHULOV_VALUES 4
#define DEQHULOV_FUNCTIONS 27
#define DEQHULOV_WIDTHS 64

/* Bit 7 of a job's header: the rules of the built-in book stand behind the job's own. */
#define DEQHULOV_ASKS_BOOK 0x80u

/* The ports: where each stands among the values of deqhulov_evaluate, and the first value of refusal 10. */
enum deqhulov_port { DEQHULOV_O0 = 0, DEQHULOV_OCOUT = 1, DEQHULOV_OVF = 2, DEQHULOV_O1 = 3 };

/* The refusals of these calls. */
enum deqhulov_refusal {
    DEQHULOV_ACCEPTED = 0,
    DEQHULOV_NO_OR_TOO_MANY_WORDS = 1, /* place 0 */
    DEQHULOV_OUT_OF_SEQUENCE = 2,      /* or ended early; place: the word, or the number of words */
    DEQHULOV_AGAINST_THE_LAYOUT = 3,   /* place: the word, or the argument */
    DEQHULOV_FUNCTION_NOT_RISING = 4,  /* place: the word */
    DEQHULOV_OUTPUT_NOT_DRIVEN = 5,    /* place: the word */
    DEQHULOV_OTHER_PORTS = 6,          /* place: the word */
    DEQHULOV_WIDTHS_DIFFER = 7,        /* place 0 */
    DEQHULOV_NOT_IN_THE_JOB = 8,       /* place: the word */
    DEQHULOV_NOT_BOUND = 9,            /* place: the function */
    DEQHULOV_WRONG_RECIPE = 10,        /* place: the function; values: port, left, right, carry */
    DEQHULOV_GLUE_DIFFERS = 11,        /* place: the word */
    DEQHULOV_UNMAPPABLE = 12,          /* place: the function */
    DEQHULOV_LENT_TOO_FEW = 23         /* place: the words needed */
};

/* Evaluates a function at a width, two operands and a carry. Values: O0, OCOUT, OVF, O1; a port that is not driven shows 0. Refusal: 3, at
 * the place of the first argument out of range (0 function, 1 width, 2 left, 3 right, 4 carry). */
uint32_t deqhulov_evaluate(uint32_t function, uint32_t width, uint64_t left, uint64_t right, uint32_t carry,
                           uint64_t *place, uint64_t *out, size_t out_length);

/* Judges a recipe word (kind 5 or 6) at a width, its target plain (mark 0) or negated (mark 1). Refusals: 2, 3, 5, 6 of the word, place 0;
 * 3 of the width, place 1, and of the mark, place 2; and 10, with four values: the port, left, right and carry at which the recipe differs
 * from its source function. */
uint32_t deqhulov_judge(uint32_t word, uint32_t width, uint32_t mark,
                        uint64_t *place, uint64_t *out, size_t out_length);

/* Maps a job into lent words. Value: how many words were written. Refusals: 1 to 6, 12, 23; then no lent word is touched. */
uint32_t deqhulov_map(const uint32_t *job, size_t job_length,
                      uint32_t *lent, size_t lent_length,
                      uint64_t *place, uint64_t *out, size_t out_length);

/* Prices a mapping under its job. Value: the glue count of its bindings. Refusals: 1 to 6, with one value, 0 if the job is meant and 1 if
 * the mapping is; 7 and 8. */
uint32_t deqhulov_price(const uint32_t *job, size_t job_length,
                        const uint32_t *mapping, size_t mapping_length,
                        uint64_t *place, uint64_t *out, size_t out_length);

/* Checks a mapping against its job. Refusals: 1 to 6, with one value as above; 7, 8, 9 and 11; and 10, with four values as above. */
uint32_t deqhulov_check(const uint32_t *job, size_t job_length,
                        const uint32_t *mapping, size_t mapping_length,
                        uint64_t *place, uint64_t *out, size_t out_length);

#ifdef __cplusplus
}
#endif

#endif
