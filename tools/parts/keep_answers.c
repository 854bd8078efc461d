/* Keeps each large answer on a set and a schedule, reads it in pieces of several sizes, and
 * compares status and bytes with those of the call with a buffer:
 *
 *     keep_answers SET SCHEDULE
 *
 * It goes on with what is wrong: numbers that name nothing, places behind the end, an answer that
 * was freed. tools/try library runs it, under valgrind where that is there. */
#include "pafteis.h"

#include <stdio.h>
#include <stdlib.h>
#include <string.h>

enum { CALLS = 8, WRONG = 255 };

typedef struct {
    uint8_t *bytes;
    size_t length;
} text;

static text set, events;

static text read_file(const char *name) {
    text found = {malloc(1 << 20), 0};
    FILE *file = fopen(name, "rb");
    if (found.bytes == NULL || file == NULL)
        exit(2);
    found.length = fread(found.bytes, 1, 1 << 20, file);
    fclose(file);
    return found;
}

/* How far is hunted: a few worlds, since each call hunts more than once. */
#define NEAR_HUNT { 2, 500, 0, 0, 2, 0 }

static uint32_t put(int call, uint8_t *to, size_t room, size_t *needed) {
    pafteis_hunting near = NEAR_HUNT;
    const uint8_t *s = set.bytes, *e = events.bytes;
    switch (call) {
    case 0: return pafteis_explain(s, set.length, PAFTEIS_FIRST, to, room, needed);
    case 1: return pafteis_explain(s, set.length, PAFTEIS_EACH, to, room, needed);
    case 2: return pafteis_trace(s, set.length, e, events.length, 0, to, room, needed);
    case 3: return pafteis_tell(s, set.length, e, events.length, 0, to, room, needed);
    case 4: return pafteis_draw(s, set.length, e, events.length, 0, to, room, needed);
    case 5: return pafteis_hunt(s, set.length, &near, to, room, needed);
    case 6: return pafteis_mend(s, set.length, 100, to, room, needed);
    default: return pafteis_list(s, set.length, to, room, needed);
    }
}

static uint32_t keep(int call, uint32_t wrong, pafteis_answer *to, size_t *needed) {
    pafteis_hunting near = NEAR_HUNT;
    const uint8_t *s = set.bytes, *e = events.bytes;
    near.flags = wrong;
    switch (call) {
    case 0: return pafteis_answer_explain(s, set.length, wrong, to, needed);
    case 1: return pafteis_answer_explain(s, set.length, wrong + PAFTEIS_EACH, to, needed);
    case 2: return pafteis_answer_trace(s, set.length, e, events.length, wrong, to, needed);
    case 3: return pafteis_answer_tell(s, set.length, e, events.length, wrong, to, needed);
    case 4: return pafteis_answer_draw(s, set.length, e, events.length, wrong, to, needed);
    case 5: return pafteis_answer_hunt(s, set.length, &near, to, needed);
    case 6: return pafteis_answer_mend(s, set.length, wrong ? 0 : 100, to, needed);
    default: return pafteis_answer_list(s, set.length, to, needed);
    }
}

/* Whether an answer has these bytes, read in pieces; what lies behind a piece stays as it was. */
static bool has(const pafteis_answer *answer, text right, size_t piece) {
    uint8_t buffer[4097];
    size_t from = 0, count = 0;
    do {
        memset(buffer, 0xA5, sizeof buffer);
        if (pafteis_answer_read(answer, from, buffer, piece, &count) != PAFTEIS_DONE ||
            count > piece || count > right.length - from || buffer[count] != 0xA5 ||
            memcmp(buffer, right.bytes + from, count) != 0)
            return false;
        from += count;
    } while (count > 0);
    return from == right.length;
}

/* Whether a call that is wrong, and places that there aren't, leave an answer as it was. */
static bool stays(int call, pafteis_answer *answer, text right) {
    size_t needed = 9, count = 9;
    if (call < CALLS - 1 &&
        (keep(call, WRONG, answer, &needed) != PAFTEIS_WRONG_ARGUMENT || needed != 0))
        return false;
    for (size_t behind = 0; behind < 2; behind++) {
        size_t from = behind ? SIZE_MAX : right.length + 1;
        if (pafteis_answer_read(answer, from, NULL, 0, &count) != PAFTEIS_DONE || count != 0)
            return false;
    }
    return has(answer, right, 4096);
}

static bool is_right(int call, pafteis_answer *answer) {
    size_t needed = 0, kept = 0;
    uint32_t status = put(call, NULL, 0, &needed);
    text right = {malloc(needed + 1), needed};
    put(call, right.bytes, needed, &needed);
    bool fine = keep(call, 0, answer, &kept) == status && kept == needed && answer->live &&
                has(answer, right, 4096) && has(answer, right, 7) && has(answer, right, 1) &&
                stays(call, answer, right);
    free(right.bytes);
    return fine;
}

int main(int count, char **words) {
    if (count != 3)
        return 2;
    set = read_file(words[1]);
    events = read_file(words[2]);
    pafteis_answer answer = PAFTEIS_EMPTY_ANSWER;
    size_t wrong = 0, read = 9;
    for (int call = 0; call < CALLS; call++)
        wrong += !is_right(call, &answer);
    wrong += pafteis_answer_free(&answer) != PAFTEIS_DONE || answer.live;
    wrong += pafteis_answer_free(&answer) != PAFTEIS_NO_ANSWER;
    wrong += pafteis_answer_read(&answer, 0, NULL, 0, &read) != PAFTEIS_NO_ANSWER || read != 9;
    printf("%d answers, %zu wrong\n", CALLS, wrong);
    free(set.bytes);
    free(events.bytes);
    return wrong != 0;
}
