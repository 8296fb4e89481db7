/* How many bytes and steps some samples take at most, for four settings, as a table in Markdown. */
#include <inttypes.h>
#include <rice.h>
#include <stdio.h>

static const struct rice_setting settings[] = {
    {.bits = 8, .block = 8, .interval = 128, .preprocess = true},
    {.bits = 10, .block = 16, .interval = 128, .preprocess = true},
    {.bits = 16, .block = 32, .interval = 128, .preprocess = true},
    {.bits = 32, .block = 64, .interval = 128, .preprocess = true},
};

int main(void) {
    printf("| bits, J | one coded data set | one sample | one block | one segment of 64 blocks | one interval of 128 blocks |\n");
    printf("|---|---|---|---|---|---|\n");
    for (size_t i = 0; i < sizeof settings / sizeof *settings; i++) {
        const struct rice_setting *s = &settings[i];
        const uint64_t counts[] = {1, s->block, 64 * s->block, 128 * s->block};
        printf("| %" PRIu32 ", %" PRIu32 " | %" PRIu32 " bytes |", s->bits, s->block, rice_set_room(s));
        for (size_t c = 0; c < sizeof counts / sizeof *counts; c++) {
            printf(" %" PRIu64 " bytes, %" PRIu64 " steps |", rice_code_room(s, counts[c]), rice_step_bound(s, counts[c]));
        }
        printf("\n");
    }
    return 0;
}
