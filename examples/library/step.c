/* A read, event by event: the world of examples/echo.drv, or of the file that is named. */
#include "pafteis.h"

#include <stdio.h>

static const char *const NAMES[] = {"",       "started", "stepped", "finished", "topped",
                                    "waited", "idle",    "refused"};

static void apply(pafteis_world *world, pafteis_event event) {
    pafteis_reply reply;
    if (pafteis_world_apply(world, &event, &reply) != PAFTEIS_DONE)
        return;
    printf("%s", NAMES[reply.kind]);
    if (reply.kind == PAFTEIS_STARTED)
        printf(" %llu", (unsigned long long)reply.packet);
    if (reply.kind == PAFTEIS_TOPPED)
        printf(" %llu 0x%08X %llu", (unsigned long long)reply.packet, reply.status,
               (unsigned long long)reply.info);
    printf("\n");
}

int main(int count, char **words) {
    static uint8_t set[1 << 16];
    FILE *file = fopen(count > 1 ? words[1] : "examples/echo.drv", "rb");
    if (file == NULL)
        return 2;
    size_t length = fread(set, 1, sizeof set, file);
    bool is_whole = length < sizeof set && !ferror(file);
    fclose(file);
    if (!is_whole) {
        fputs("step: it reads files of up to 64 KiB\n", stderr);
        return 2;
    }
    pafteis_world world = PAFTEIS_EMPTY_WORLD;
    pafteis_verdict verdict;
    uint32_t status = pafteis_world_new(set, length, 2, &world, &verdict);
    if (status != PAFTEIS_DONE)
        return (int)status;
    apply(&world, (pafteis_event){.kind = PAFTEIS_ISSUE, .major = PAFTEIS_READ, .argument = 7});
    for (int step = 0; step < 4; step++)
        apply(&world, (pafteis_event){.kind = PAFTEIS_STEP});
    printf("freed %u, ", pafteis_world_free(&world));
    printf("again %u\n", pafteis_world_free(&world));
    return 0;
}
