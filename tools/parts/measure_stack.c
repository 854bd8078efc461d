/* Tells how many bytes of stack calls take on a set and a schedule:
 *
 *     measure_stack SET SCHEDULE
 *
 * Each call is made in a thread of its own, whose stack was filled with a pattern before; what a
 * thread that makes no call takes is left out. A line has a call's name and the bytes. */
#include "pafteis.h"

#include <pthread.h>
#include <stdio.h>
#include <stdlib.h>
#include <string.h>
#include <sys/mman.h>

enum { STACK = 64 << 20, PATTERN = 0xA5 };

typedef struct {
    uint8_t *bytes;
    size_t length;
} text;

static text set, events;

static text read_file(const char *name) {
    FILE *file = fopen(name, "rb");
    text found = {NULL, 0};
    if (file == NULL || fseek(file, 0, SEEK_END) != 0)
        exit(2);
    size_t length = (size_t)ftell(file);
    rewind(file);
    found.bytes = malloc(length + 1);
    if (found.bytes != NULL)
        found.length = fread(found.bytes, 1, length, file);
    fclose(file);
    return found;
}

static void drive(void) {
    pafteis_world world = PAFTEIS_EMPTY_WORLD;
    pafteis_verdict verdict;
    pafteis_event event = {.kind = PAFTEIS_ISSUE, .major = PAFTEIS_READ};
    pafteis_reply reply;
    size_t made;
    if (pafteis_world_new(set.bytes, set.length, 2, &world, &verdict) != PAFTEIS_DONE)
        return;
    pafteis_world_apply(&world, &event, &reply);
    pafteis_world_steps(&world, 0, 1000, &made, &reply);
    pafteis_thread thread;
    pafteis_packet packet;
    pafteis_cells cells;
    pafteis_world_thread(&world, 0, &thread);
    pafteis_world_packet(&world, 0, &packet);
    pafteis_world_cells(&world, 0, &cells);
    pafteis_world_reset(&world, 2);
    pafteis_world_free(&world);
}

static void judge(void) {
    pafteis_verdict verdict;
    pafteis_lock_order order;
    pafteis_set shape;
    pafteis_schedule_size size;
    pafteis_schedule_fault fault;
    pafteis_check(set.bytes, set.length, &verdict);
    pafteis_order_of_locks(set.bytes, set.length, 0, &order, &verdict);
    pafteis_shape(set.bytes, set.length, &shape, &verdict);
    pafteis_schedule(events.bytes, events.length, &size, &fault);
}

static void run(const char *name) {
    pafteis_hunting usual = PAFTEIS_USUAL_HUNT;
    const uint8_t *s = set.bytes, *e = events.bytes;
    size_t n = set.length, m = events.length, needed;
    usual.worlds = 20000;
    if (strcmp(name, "judge") == 0)
        judge();
    else if (strcmp(name, "world") == 0)
        drive();
    else if (strcmp(name, "report") == 0)
        pafteis_report(s, n, NULL, 0, &needed);
    else if (strcmp(name, "explain") == 0)
        pafteis_explain(s, n, PAFTEIS_EACH, NULL, 0, &needed);
    else if (strcmp(name, "trace") == 0)
        pafteis_trace(s, n, e, m, PAFTEIS_UNCHECKED, NULL, 0, &needed);
    else if (strcmp(name, "tell") == 0)
        pafteis_tell(s, n, e, m, PAFTEIS_UNCHECKED, NULL, 0, &needed);
    else if (strcmp(name, "draw") == 0)
        pafteis_draw(s, n, e, m, PAFTEIS_UNCHECKED, NULL, 0, &needed);
    else if (strcmp(name, "hunt") == 0)
        pafteis_hunt(s, n, &usual, NULL, 0, &needed);
    else if (strcmp(name, "mend") == 0)
        pafteis_mend(s, n, PAFTEIS_USUAL_TRIES, NULL, 0, &needed);
    else if (strcmp(name, "list") == 0)
        pafteis_list(s, n, NULL, 0, &needed);
    else if (strcmp(name, "rewrite") == 0)
        pafteis_rewrite(s, n, NULL, 0, &needed);
}

static void *start(void *name) {
    run(name);
    return NULL;
}

/* The bytes of its stack that a thread has written to. */
static size_t taken(const char *name, uint8_t *stack) {
    pthread_attr_t attributes;
    pthread_t thread;
    size_t untouched = 0;
    memset(stack, PATTERN, STACK);
    pthread_attr_init(&attributes);
    if (pthread_attr_setstack(&attributes, stack, STACK) != 0 ||
        pthread_create(&thread, &attributes, start, (void *)name) != 0)
        exit(3);
    pthread_join(thread, NULL);
    while (untouched < STACK && stack[untouched] == PATTERN)
        untouched++;
    return STACK - untouched;
}

int main(int count, char **words) {
    static const char *const CALLS[] = {"judge", "world", "report", "explain", "trace", "tell",
                                        "draw",  "hunt",  "mend",   "list",    "rewrite"};
    if (count != 3)
        return 2;
    set = read_file(words[1]);
    events = read_file(words[2]);
    void *stack = mmap(NULL, STACK, PROT_READ | PROT_WRITE, MAP_PRIVATE | MAP_ANONYMOUS, -1, 0);
    if (stack == MAP_FAILED)
        return 3;
    size_t none = taken("", stack);
    for (size_t call = 0; call < sizeof CALLS / sizeof CALLS[0]; call++)
        printf("%s %zu\n", CALLS[call], taken(CALLS[call], stack) - none);
    return 0;
}
