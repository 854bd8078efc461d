/* Passes NULL with the length 0 wherever a call takes a length, and a pointer to something with the
 * length 0: both are to be answered alike. */
#include "pafteis.h"

#include <stdio.h>
#include <string.h>

/* What a call answered: its status, and what it wrote. */
typedef struct {
    uint32_t status;
    size_t number;
    uint8_t bytes[256];
} answer;

static const uint8_t SOME[1] = {7};
static uint8_t ROOM[1];
static const char ECHO[] = "driver echo\ndispatch READ on_read\nroutine on_read dispatch\n"
                           "complete r0 SUCCESS\nret SUCCESS\nendr\nendd\ndevice disk echo 1\n";

static void keep(answer *into, const void *bytes, size_t length) {
    memcpy(into->bytes, bytes, length);
}

/* Calls that judge a set. */
static void ask_verdict(int call, const uint8_t *set, answer *told) {
    pafteis_verdict verdict;
    pafteis_lock_order order;
    pafteis_set shape;
    pafteis_device_shape device;
    pafteis_routine_shape routine;
    pafteis_world world = PAFTEIS_EMPTY_WORLD;
    switch (call) {
    case 0: told->status = pafteis_check(set, 0, &verdict); break;
    case 1: told->status = pafteis_order_of_locks(set, 0, 0, &order, &verdict); break;
    case 2: told->status = pafteis_shape(set, 0, &shape, &verdict); break;
    case 3: told->status = pafteis_device(set, 0, 0, &device, &verdict); break;
    case 4: told->status = pafteis_routine(set, 0, 0, 0, &routine, &verdict); break;
    default: told->status = pafteis_world_new(set, 0, 1, &world, &verdict); break;
    }
    pafteis_world_free(&world);
    keep(told, &verdict, sizeof verdict);
}

/* Calls that answer in bytes, with room for all of them or with none. */
static void ask_bytes(int call, const uint8_t *set, const uint8_t *events, uint8_t *buffer,
                      size_t capacity, answer *told) {
    pafteis_hunting usual = PAFTEIS_USUAL_HUNT;
    size_t *needed = &told->number;
    switch (call) {
    case 0: told->status = pafteis_report(set, 0, buffer, capacity, needed); break;
    case 1: told->status = pafteis_explain(set, 0, PAFTEIS_EACH, buffer, capacity, needed); break;
    case 2: told->status = pafteis_list(set, 0, buffer, capacity, needed); break;
    case 3: told->status = pafteis_rewrite(set, 0, buffer, capacity, needed); break;
    case 4: told->status = pafteis_mend(set, 0, 1, buffer, capacity, needed); break;
    case 5: told->status = pafteis_hunt(set, 0, &usual, buffer, capacity, needed); break;
    case 6: told->status = pafteis_trace(set, 0, events, 0, 1, buffer, capacity, needed); break;
    case 7: told->status = pafteis_tell(set, 0, events, 0, 1, buffer, capacity, needed); break;
    case 8: told->status = pafteis_draw(set, 0, events, 0, 1, buffer, capacity, needed); break;
    case 9: told->status = pafteis_name_in(set, 0, 1, 0, 0, buffer, capacity, needed); break;
    case 10: told->status = pafteis_name_of(PAFTEIS_NAME_OF_RULE, 11, buffer, capacity, needed); break;
    case 11: told->status = pafteis_explain_rule(11, buffer, capacity, needed); break;
    default: told->status = pafteis_version(buffer, capacity, needed); break;
    }
}

/* Calls that keep an answer, and a piece of it. */
static void ask_kept(int call, const uint8_t *set, const uint8_t *events, uint8_t *buffer,
                     answer *told) {
    pafteis_hunting usual = PAFTEIS_USUAL_HUNT;
    pafteis_answer kept = PAFTEIS_EMPTY_ANSWER;
    size_t *needed = &told->number;
    switch (call) {
    case 0: told->status = pafteis_answer_explain(set, 0, PAFTEIS_EACH, &kept, needed); break;
    case 1: told->status = pafteis_answer_list(set, 0, &kept, needed); break;
    case 2: told->status = pafteis_answer_mend(set, 0, 1, &kept, needed); break;
    case 3: told->status = pafteis_answer_hunt(set, 0, &usual, &kept, needed); break;
    case 4: told->status = pafteis_answer_trace(set, 0, events, 0, 1, &kept, needed); break;
    case 5: told->status = pafteis_answer_tell(set, 0, events, 0, 1, &kept, needed); break;
    default: told->status = pafteis_answer_draw(set, 0, events, 0, 1, &kept, needed); break;
    }
    size_t count = 9;
    told->status += 100 * pafteis_answer_read(&kept, 0, buffer, 0, &count);
    told->number += 1000000 * count;
    pafteis_answer_free(&kept);
}

static void ask_schedule(const uint8_t *text, answer *told) {
    pafteis_schedule_size size = {0, 0};
    pafteis_schedule_fault fault;
    told->status = pafteis_schedule(text, 0, &size, &fault);
    told->number = (size_t)fault.line * 100 + fault.kind;
}

static void ask_events(const pafteis_event *events, pafteis_reply *replies, answer *told) {
    pafteis_world world = PAFTEIS_EMPTY_WORLD;
    pafteis_verdict verdict;
    pafteis_world_new((const uint8_t *)ECHO, strlen(ECHO), 1, &world, &verdict);
    told->status = pafteis_world_apply_all(&world, events, 0, replies, 0, &told->number);
    pafteis_world_free(&world);
}

static int differ(const char *what, int call, const answer *one, const answer *other) {
    if (memcmp(one, other, sizeof *one) == 0)
        return 0;
    printf("%s %d: NULL is answered by %u %zu, else %u %zu\n", what, call, one->status, one->number,
           other->status, other->number);
    return 1;
}

int main(void) {
    int wrong = 0, call;
    for (call = 0; call < 6; call++) {
        answer one = {0}, other = {0};
        ask_verdict(call, NULL, &one);
        ask_verdict(call, SOME, &other);
        wrong += differ("verdict", call, &one, &other);
    }
    for (call = 0; call < 26; call++) {
        answer one = {0}, other = {0};
        size_t room = call < 13 ? 0 : sizeof one.bytes;
        ask_bytes(call % 13, NULL, NULL, room ? one.bytes : NULL, room, &one);
        ask_bytes(call % 13, SOME, SOME, room ? other.bytes : ROOM, room, &other);
        wrong += differ("bytes", call, &one, &other);
    }
    for (call = 0; call < 7; call++) {
        answer one = {0}, other = {0};
        ask_kept(call, NULL, NULL, NULL, &one);
        ask_kept(call, SOME, SOME, ROOM, &other);
        wrong += differ("kept", call, &one, &other);
    }
    answer one = {0}, other = {0};
    ask_schedule(NULL, &one);
    ask_schedule(SOME, &other);
    wrong += differ("schedule", 0, &one, &other);
    pafteis_event event = {0};
    pafteis_reply reply = {0};
    ask_events(NULL, NULL, &one);
    ask_events(&event, &reply, &other);
    wrong += differ("events", 0, &one, &other);
    printf("41 calls, %d wrong\n", wrong);
    return wrong != 0;
}
