/* In which order each driver of a set takes its locks, or in which cycle. Where all have an order,
 * no threads of any run wait for each other in a ring. */
#include "pafteis.h"

#include <stdio.h>
#include <string.h>

static const char TEXT[] =
    "driver one\ndispatch READ f\nroutine f dispatch\nacquire l1\nacquire l0\nrelease l0\n"
    "release l1\ncomplete r0 SUCCESS\nret SUCCESS\nendr\nendd\n"
    "driver two\ndispatch READ f\ndispatch WRITE g\n"
    "routine f dispatch\nacqc\nacquire l0\nrelease l0\nrelc\n"
    "complete r0 SUCCESS\nret SUCCESS\nendr\n"
    "routine g dispatch\nacquire l0\nacqc\nrelc\nrelease l0\n"
    "complete r0 SUCCESS\nret SUCCESS\nendr\n"
    "endd\ndevice v one 1\ndevice w two 1\n";

static const char *const NAMES[] = {"l0", "l1", "l2", "l3", "l4", "l5", "l6", "l7", "cancel"};

static void tell(const pafteis_lock_order *found) {
    if (found->kind == PAFTEIS_ORDER)
        for (int place = 0; place < 9; place++)
            printf("%s%s", NAMES[found->order[place]], place < 8 ? ", " : "\n");
    for (uint64_t at = 0; at < found->edges; at++) {
        const pafteis_lock_edge *edge = &found->cycle[at];
        printf("routine %u at %u: %s under %s\n", edge->routine, edge->position, NAMES[edge->taken],
               NAMES[edge->held]);
    }
}

int main(void) {
    const uint8_t *set = (const uint8_t *)TEXT;
    size_t length = strlen(TEXT);
    pafteis_verdict verdict;
    pafteis_lock_order found;
    uint8_t driver = 0;
    uint32_t status = pafteis_order_of_locks(set, length, driver, &found, &verdict);
    while (status == PAFTEIS_DONE) {
        printf("driver %u\n", driver++);
        tell(&found);
        status = pafteis_order_of_locks(set, length, driver, &found, &verdict);
    }
    return status == PAFTEIS_WRONG_ARGUMENT ? 0 : (int)status;
}
