/* What a world has, what things are called, and worlds begun anew: examples/counter.drv, whose text
 * stands here. Each line that it prints is of one or two calls. */
#include "pafteis.h"

#include <stdio.h>
#include <string.h>

static const char TEXT[] =
    "driver counter\ndispatch READ on_read\nroutine on_read dispatch\nget r1 r0 ARG\n"
    "const r2 4096\njlt r2 r1 too_much\nacquire l0\nload r3 c0\nconst r4 1\nadd r3 r4\n"
    "store c0 r3\nrelease l0\nput r0 r3\ncomplete r0 SUCCESS\nret SUCCESS\n"
    "too_much: complete r0 INVALID_PARAMETER\nret INVALID_PARAMETER\nendr\nendd\n"
    "device disk counter 1\n";

static const uint8_t *const SET = (const uint8_t *)TEXT;

static void print_name(uint32_t kind, uint32_t number) {
    char name[64];
    size_t needed;
    uint8_t *into = (uint8_t *)name;
    uint32_t status =
        kind < PAFTEIS_NAME_OF_RULE
            ? pafteis_name_in(SET, strlen(TEXT), kind, 0, (uint8_t)number, into, sizeof name, &needed)
            : pafteis_name_of(kind, number, into, sizeof name, &needed);
    printf("%u %.*s\n", status, (int)needed, name);
}

static void print_names(void) {
    print_name(PAFTEIS_NAME_OF_DRIVER, 0);
    print_name(PAFTEIS_NAME_OF_DEVICE, 0);
    print_name(PAFTEIS_NAME_OF_ROUTINE, 0);
    print_name(PAFTEIS_NAME_OF_ROUTINE, 1); /* there is none */
    print_name(PAFTEIS_NAME_OF_RULE, 11);
    print_name(PAFTEIS_NAME_OF_STATUS, 0xC0000120);
    print_name(PAFTEIS_NAME_OF_BUG_CHECK, 0x44);
}

static void print_schedule(const char *text) {
    pafteis_schedule_size size = {0, 0};
    pafteis_schedule_fault fault;
    uint32_t status = pafteis_schedule((const uint8_t *)text, strlen(text), &size, &fault);
    printf("schedule %u: %u threads, %llu events; fault %u line %llu\n", status, size.threads,
           (unsigned long long)size.events, fault.kind, (unsigned long long)fault.line);
}

/* So many steps of thread 0, and what the world has then. */
static void print_inside(pafteis_world *world, size_t count) {
    pafteis_reply reply;
    pafteis_cells cells;
    pafteis_owner owner;
    pafteis_request asked = {0, 0, 0};
    size_t made;
    pafteis_world_steps(world, 0, count, &made, &reply);
    pafteis_world_cells(world, 0, &cells);
    pafteis_world_lock(world, 0, 0, &owner);
    uint32_t live = pafteis_world_request(world, 0, &asked);
    printf("%zu steps: cell %llu, lock %s, packet %u: %llu %llu %llu\n", made,
           (unsigned long long)cells.plain[0], owner.owned ? "owned" : "free", live,
           (unsigned long long)asked.major, (unsigned long long)asked.argument,
           (unsigned long long)asked.info);
}

/* What the routine on thread 0 has in r1 and r2, and which packet in r0. */
static void print_registers(const pafteis_world *world) {
    pafteis_words found = {{0}};
    uint64_t packet = 0;
    uint32_t stands = pafteis_world_words(world, 0, &found);
    uint32_t live = pafteis_world_number(world, found.words[0], &packet);
    printf("words %u: %llu %llu, packet %u: %llu\n", stands, (unsigned long long)found.words[1],
           (unsigned long long)found.words[2], live, (unsigned long long)packet);
}

int main(void) {
    pafteis_world world = PAFTEIS_EMPTY_WORLD, other = PAFTEIS_EMPTY_WORLD;
    pafteis_verdict verdict;
    print_names();
    print_schedule("threads 2\nissue 0 0 READ 7\nstep 0 13\n");
    print_schedule("threads 2\nissue 0 0 READ\n");
    if (pafteis_world_new(SET, strlen(TEXT), 2, &world, &verdict) != PAFTEIS_DONE)
        return 1;
    pafteis_event issue = {.kind = PAFTEIS_ISSUE, .major = PAFTEIS_READ, .argument = 7};
    pafteis_reply reply;
    pafteis_world_apply(&world, &issue, &reply);
    print_inside(&world, 4);
    print_registers(&world);
    print_inside(&world, 6);
    print_inside(&world, 4);
    printf("new %u, ", pafteis_world_new(SET, strlen(TEXT), 2, &world, &verdict));
    printf("another %u, ", pafteis_world_another(&world, 1, &other));
    printf("again %u\n", pafteis_world_another(&world, 1, &other));
    print_inside(&other, 1);
    printf("reset %u, with no threads %u\n", pafteis_world_reset(&world, 3),
           pafteis_world_reset(&world, 0));
    print_inside(&world, 1);
    printf("freed %u %u, ", pafteis_world_free(&world), pafteis_world_free(&other));
    printf("reset %u\n", pafteis_world_reset(&world, 3));
    return 0;
}
