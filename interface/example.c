/* Maps document 01's job from C, prices and checks the mapping, and tries the other calls. */
#include "deqhulov.h"
#include <stdio.h>

int main(void) {
    const uint32_t job[] = {0x10000010, 0x20010103, 0x30000001, 0x30000003, 0x30000008, 0x30000019, 0x40000001,
                            0x40000002, 0x50854960, 0x518A2960, 0x5185C960, 0x54000001, 0x5C894407, 0x5C89440C};
    const size_t job_length = sizeof job / sizeof *job;
    uint32_t mapping[DEQHULOV_MAPPING_WORDS];
    uint64_t place = 0, values[DEQHULOV_VALUES] = {0};

    uint32_t number = deqhulov_map(job, job_length, mapping, DEQHULOV_MAPPING_WORDS, &place, values, DEQHULOV_VALUES);
    if (number != DEQHULOV_ACCEPTED) {
        printf("refused %u %llu\n", number, (unsigned long long)place);
        return 1;
    }
    size_t words = (size_t)values[0];
    for (size_t i = 0; i < words; i++)
        printf("%08X%c", mapping[i], i + 1 < words ? ' ' : '\n');

    number = deqhulov_price(job, job_length, mapping, words, &place, values, DEQHULOV_VALUES);
    if (number != DEQHULOV_ACCEPTED)
        return 1;
    printf("glue %llu\n", (unsigned long long)values[0]);

    number = deqhulov_check(job, job_length, mapping, words, &place, values, DEQHULOV_VALUES);
    printf("%s\n", number == DEQHULOV_ACCEPTED ? "accepted" : "refused");

    number = deqhulov_judge(0x5C894407, 16, 0, &place, values, DEQHULOV_VALUES);
    printf("5C894407 at width 16: %u at function %llu, port %llu\n", number, (unsigned long long)place,
           (unsigned long long)values[0]);
    if (number != DEQHULOV_WRONG_RECIPE)
        return 1;

    /* ADD at width 8: 127 + 1 overflows */
    number = deqhulov_evaluate(1, 8, 127, 1, 0, &place, values, DEQHULOV_VALUES);
    if (number != DEQHULOV_ACCEPTED)
        return 1;
    printf("ADD of 127 and 1 at width 8: %llu, overflow %llu\n", (unsigned long long)values[DEQHULOV_O0],
           (unsigned long long)values[DEQHULOV_OVF]);
    return 0;
}
