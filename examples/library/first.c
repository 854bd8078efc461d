/* A read, from a driver text to its end: cc first.c $(pkg-config --cflags --libs pafteis) */
#include <pafteis.h>
#include <stdio.h>
#include <string.h>

static const char TEXT[] = "driver echo\ndispatch READ on_read\nroutine on_read dispatch\n"
                           "complete r0 SUCCESS\nret SUCCESS\nendr\nendd\ndevice disk echo 1\n";

int main(void) {
    const uint8_t *set = (const uint8_t *)TEXT;
    pafteis_world world = PAFTEIS_EMPTY_WORLD;
    pafteis_verdict verdict;
    uint32_t status = pafteis_world_new(set, strlen(TEXT), 2, &world, &verdict);
    if (status != PAFTEIS_DONE) {
        fprintf(stderr, "status %u, rule V%u\n", status, verdict.rule);
        return 1;
    }
    pafteis_event event = {.kind = PAFTEIS_ISSUE, .major = PAFTEIS_READ, .argument = 7};
    pafteis_reply reply = {.kind = PAFTEIS_STEPPED};
    while (reply.kind != PAFTEIS_FINISHED) {
        pafteis_world_apply(&world, &event, &reply);
        printf("reply %u\n", reply.kind);
        if (reply.kind == PAFTEIS_TOPPED)
            printf("packet %llu: 0x%08X\n", (unsigned long long)reply.packet, reply.status);
        event.kind = PAFTEIS_STEP;
    }
    pafteis_world_free(&world);
    return 0;
}
