/* Times the library from C:
 *
 *     measure_library check FILE       microseconds of a check of a set, the least of some rounds
 *     measure_library steps FILE COUNT microseconds of so many steps of thread 0 of its world, in one
 *                                      call, and how many of them were made */
#include "pafteis.h"

#include <stdio.h>
#include <stdlib.h>
#include <string.h>
#include <time.h>

static double now(void) {
    struct timespec at;
    clock_gettime(CLOCK_MONOTONIC, &at);
    return 1e6 * (double)at.tv_sec + 1e-3 * (double)at.tv_nsec;
}

static int check(const uint8_t *set, size_t length) {
    enum { ROUNDS = 20, CHECKS = 500 };
    pafteis_verdict verdict;
    double least = 0;
    for (int round = 0; round < ROUNDS; round++) {
        double begun = now();
        for (int number = 0; number < CHECKS; number++)
            if (pafteis_check(set, length, &verdict) == PAFTEIS_NO_MEMORY)
                return PAFTEIS_NO_MEMORY;
        double taken = (now() - begun) / CHECKS;
        if (round == 0 || taken < least)
            least = taken;
    }
    printf("%.2f\n", least);
    return 0;
}

static int steps(const uint8_t *set, size_t length, size_t count) {
    pafteis_world world = PAFTEIS_EMPTY_WORLD;
    pafteis_verdict verdict;
    pafteis_event issue = {.kind = PAFTEIS_ISSUE, .major = PAFTEIS_READ};
    pafteis_reply reply;
    size_t made = 0;
    uint32_t status = pafteis_world_new(set, length, 1, &world, &verdict);
    if (status != PAFTEIS_DONE)
        return (int)status;
    pafteis_world_apply(&world, &issue, &reply);
    double begun = now();
    pafteis_world_steps(&world, 0, count, &made, &reply);
    printf("%.0f %zu\n", now() - begun, made);
    pafteis_world_free(&world);
    return 0;
}

int main(int count, char **words) {
    static uint8_t set[1 << 20];
    FILE *file = count > 2 ? fopen(words[2], "rb") : NULL;
    if (file == NULL)
        return 2;
    size_t length = fread(set, 1, sizeof set, file);
    fclose(file);
    if (strcmp(words[1], "check") == 0)
        return check(set, length);
    return count > 3 ? steps(set, length, (size_t)strtoull(words[3], NULL, 10)) : 2;
}
