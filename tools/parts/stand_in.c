/* A stand-in for the library, which asks a program: for trying what is built round the library
 * where the library itself isn't proved yet. PAFTEIS_PROGRAM names the program, `drvhost` or one
 * that answers `check` and `trace` as it does. A world runs all its events again at each event, and
 * tells nothing of threads, packets, locks and devices; no order of locks, no shape and no name is
 * told. No proof says anything of it. */
#include "pafteis.h"

#include <stdio.h>
#include <stdlib.h>
#include <string.h>
#include <sys/wait.h>
#include <unistd.h>

typedef struct {
    char *set;
    size_t set_length;
    char *events;
    size_t length;
    uint8_t threads;
} inside;

static void put_file(char *name, const void *bytes, size_t length) {
    int file = mkstemp(name);
    if (file < 0 || write(file, bytes, length) != (ssize_t)length)
        exit(9);
    close(file);
}

/* What the program says to a word, a set and a schedule (or NULL), with its exit status. */
static uint32_t ask(const char *word, const char *more, const uint8_t *set, size_t length,
                    const uint8_t *events, size_t events_length, char **told, size_t *told_length) {
    char one[] = "/tmp/stand-in-set-XXXXXX", two[] = "/tmp/stand-in-events-XXXXXX", line[512];
    put_file(one, set, length);
    put_file(two, events, events_length);
    const char *program = getenv("PAFTEIS_PROGRAM");
    snprintf(line, sizeof line, "%s %s %s %s %s 2>&1", program ? program : "drvhost", word,
             set ? one : "", events ? two : "", more);
    FILE *pipe = popen(line, "r");
    size_t room = 1 << 16, got;
    *told = malloc(room);
    *told_length = 0;
    while ((got = fread(*told + *told_length, 1, room - *told_length - 1, pipe)) > 0) {
        *told_length += got;
        if (room - *told_length < 2)
            *told = realloc(*told, room *= 2);
    }
    (*told)[*told_length] = 0;
    int ended = pclose(pipe);
    unlink(one);
    unlink(two);
    return (uint32_t)WEXITSTATUS(ended);
}

static uint32_t answer(const char *word, const char *more, const uint8_t *set, size_t length,
                       const uint8_t *events, size_t events_length, uint8_t *buffer,
                       size_t capacity, size_t *needed) {
    char *told;
    uint32_t status = ask(word, more, set, length, events, events_length, &told, needed);
    if (*needed <= capacity)
        memcpy(buffer, told, *needed);
    free(told);
    return status;
}

uint32_t pafteis_check(const uint8_t *set, size_t length, pafteis_verdict *verdict) {
    char *told;
    size_t size;
    uint32_t status = ask("check", "", set, length, NULL, 0, &told, &size);
    pafteis_verdict found = {0};
    if (sscanf(told, "refused V%u %*s driver %u routine %u at %u", &found.rule, &found.driver,
               &found.routine, &found.position) != 4 &&
        sscanf(told, "text fault %u %*s line %lu", &found.text_fault, &found.line) != 2)
        sscanf(told, "image fault %u", &found.image_fault);
    free(told);
    *verdict = found;
    return status;
}

uint32_t pafteis_order_of_locks(const uint8_t *set, size_t length, uint8_t driver,
                                pafteis_lock_order *order, pafteis_verdict *verdict) {
    uint32_t status = pafteis_check(set, length, verdict);
    if (status == PAFTEIS_DONE)
        memset(order, 0, sizeof *order);
    return driver == 0 ? status : PAFTEIS_WRONG_ARGUMENT;
}

uint32_t pafteis_shape(const uint8_t *set, size_t length, pafteis_set *shape,
                       pafteis_verdict *verdict) {
    uint32_t status = pafteis_check(set, length, verdict);
    if (status == PAFTEIS_DONE)
        memset(shape, 0, sizeof *shape);
    return status;
}

uint32_t pafteis_device(const uint8_t *set, size_t length, uint8_t number,
                        pafteis_device_shape *device, pafteis_verdict *verdict) {
    (void)number, (void)device;
    uint32_t status = pafteis_check(set, length, verdict);
    return status == PAFTEIS_DONE ? PAFTEIS_WRONG_ARGUMENT : status;
}

uint32_t pafteis_routine(const uint8_t *set, size_t length, uint8_t driver, uint8_t number,
                         pafteis_routine_shape *routine, pafteis_verdict *verdict) {
    (void)driver, (void)number, (void)routine;
    uint32_t status = pafteis_check(set, length, verdict);
    return status == PAFTEIS_DONE ? PAFTEIS_WRONG_ARGUMENT : status;
}

uint32_t pafteis_report(const uint8_t *set, size_t length, uint8_t *buffer, size_t capacity,
                        size_t *needed) {
    return answer("check", "", set, length, NULL, 0, buffer, capacity, needed);
}

uint32_t pafteis_explain(const uint8_t *set, size_t length, uint32_t extent, uint8_t *buffer,
                         size_t capacity, size_t *needed) {
    if (extent > PAFTEIS_EACH)
        return *needed = 0, PAFTEIS_WRONG_ARGUMENT;
    return answer("explain", extent ? "--all" : "", set, length, NULL, 0, buffer, capacity, needed);
}

uint32_t pafteis_explain_rule(uint32_t rule, uint8_t *buffer, size_t capacity, size_t *needed) {
    char more[32];
    if (rule < 1 || rule > 20)
        return *needed = 0, PAFTEIS_WRONG_ARGUMENT;
    snprintf(more, sizeof more, "--rule V%u", rule);
    return answer("explain", more, NULL, 0, NULL, 0, buffer, capacity, needed);
}

uint32_t pafteis_trace(const uint8_t *set, size_t length, const uint8_t *schedule, size_t size,
                       uint32_t flags, uint8_t *buffer, size_t capacity, size_t *needed) {
    if (flags > PAFTEIS_UNCHECKED)
        return *needed = 0, PAFTEIS_WRONG_ARGUMENT;
    return answer("trace", flags ? "--unchecked" : "", set, length, schedule, size, buffer,
                  capacity, needed);
}

uint32_t pafteis_tell(const uint8_t *set, size_t length, const uint8_t *schedule, size_t size,
                      uint32_t flags, uint8_t *buffer, size_t capacity, size_t *needed) {
    if (flags > PAFTEIS_UNCHECKED)
        return *needed = 0, PAFTEIS_WRONG_ARGUMENT;
    return answer("tell", flags ? "--unchecked" : "", set, length, schedule, size, buffer,
                  capacity, needed);
}

uint32_t pafteis_draw(const uint8_t *set, size_t length, const uint8_t *schedule, size_t size,
                      uint32_t flags, uint8_t *buffer, size_t capacity, size_t *needed) {
    if (flags > PAFTEIS_UNCHECKED)
        return *needed = 0, PAFTEIS_WRONG_ARGUMENT;
    return answer("draw", flags ? "--unchecked" : "", set, length, schedule, size, buffer,
                  capacity, needed);
}

uint32_t pafteis_hunt(const uint8_t *set, size_t length, const pafteis_hunting *asked,
                      uint8_t *buffer, size_t capacity, size_t *needed) {
    char more[96];
    if (asked->threads < 1 || asked->threads > 64 || asked->flags > 7)
        return *needed = 0, PAFTEIS_WRONG_ARGUMENT;
    snprintf(more, sizeof more, "--threads %u --packets %lu --states %lu", asked->threads,
             asked->packets, asked->worlds);
    return answer("hunt", more, set, length, NULL, 0, buffer, capacity, needed);
}

uint32_t pafteis_mend(const uint8_t *set, size_t length, uint64_t tries, uint8_t *buffer,
                      size_t capacity, size_t *needed) {
    char more[32];
    if (tries < 1 || tries > 1000000)
        return *needed = 0, PAFTEIS_WRONG_ARGUMENT;
    snprintf(more, sizeof more, "--tries %lu", tries);
    return answer("mend", more, set, length, NULL, 0, buffer, capacity, needed);
}

uint32_t pafteis_name_in(const uint8_t *text, size_t length, uint32_t kind, uint8_t driver,
                         uint8_t number, uint8_t *buffer, size_t capacity, size_t *needed) {
    (void)text, (void)length, (void)kind, (void)driver, (void)number, (void)buffer, (void)capacity;
    return *needed = 0, PAFTEIS_WRONG_ARGUMENT;
}

uint32_t pafteis_name_of(uint32_t kind, uint32_t number, uint8_t *buffer, size_t capacity,
                         size_t *needed) {
    (void)kind, (void)number, (void)buffer, (void)capacity;
    return *needed = 0, PAFTEIS_WRONG_ARGUMENT;
}

uint32_t pafteis_schedule(const uint8_t *schedule, size_t length, pafteis_schedule_size *size,
                          pafteis_schedule_fault *fault) {
    static const char empty[] = "driver d\nendd\ndevice v d 1\n";
    char *told;
    size_t told_length;
    ask("trace", "", (const uint8_t *)empty, sizeof empty - 1, schedule, length, &told, &told_length);
    memset(fault, 0, sizeof *fault);
    if (sscanf(told, "schedule fault %u %*s line %lu", &fault->kind, &fault->line) == 2) {
        free(told);
        return PAFTEIS_FAULTY;
    }
    memset(size, 0, sizeof *size);
    for (const char *at = told; *at; at++)
        size->events += *at == '\n';
    free(told);
    return PAFTEIS_DONE;
}

uint32_t pafteis_list(const uint8_t *set, size_t length, uint8_t *buffer, size_t capacity,
                      size_t *needed) {
    return answer("list", "", set, length, NULL, 0, buffer, capacity, needed);
}

uint32_t pafteis_rewrite(const uint8_t *set, size_t length, uint8_t *buffer, size_t capacity,
                         size_t *needed) {
    return answer("rewrite", "/dev/stdout", set, length, NULL, 0, buffer, capacity, needed);
}

uint32_t pafteis_version_number(void) {
    return PAFTEIS_VERSION_NUMBER;
}

uint32_t pafteis_version(uint8_t *buffer, size_t capacity, size_t *needed) {
    static const char told[] = "pafteis 0.0.0 (a stand-in)\n";
    *needed = sizeof told - 1;
    if (*needed <= capacity)
        memcpy(buffer, told, *needed);
    return PAFTEIS_DONE;
}

uint32_t pafteis_world_new(const uint8_t *set, size_t length, uint8_t threads, pafteis_world *world,
                           pafteis_verdict *verdict) {
    memset(verdict, 0, sizeof *verdict);
    if (threads < 1 || threads > 64)
        return PAFTEIS_WRONG_ARGUMENT;
    if (world->live)
        return PAFTEIS_HAS_WORLD;
    uint32_t status = pafteis_check(set, length, verdict);
    if (status != PAFTEIS_DONE)
        return status;
    inside *made = calloc(1, sizeof *made);
    made->set = malloc(length + 1);
    memcpy(made->set, set, length);
    made->set_length = length;
    made->events = malloc(64);
    made->length = (size_t)sprintf(made->events, "threads %u\n", threads);
    made->threads = threads;
    *world = (pafteis_world){true, made};
    return PAFTEIS_DONE;
}

uint32_t pafteis_world_another(const pafteis_world *world, uint8_t threads, pafteis_world *other) {
    if (threads < 1 || threads > 64)
        return PAFTEIS_WRONG_ARGUMENT;
    if (other->live)
        return PAFTEIS_HAS_WORLD;
    if (!world->live)
        return PAFTEIS_NO_WORLD;
    inside *made = world->inside;
    pafteis_verdict verdict;
    return pafteis_world_new((uint8_t *)made->set, made->set_length, threads, other, &verdict);
}

uint32_t pafteis_world_reset(pafteis_world *world, uint8_t threads) {
    pafteis_world fresh = PAFTEIS_EMPTY_WORLD;
    uint32_t status = pafteis_world_another(world, threads, &fresh);
    if (status == PAFTEIS_DONE) {
        pafteis_world_free(world);
        *world = fresh;
    }
    return status;
}

static const char *major_word(uint8_t major) {
    return major == PAFTEIS_READ ? "READ" : major == PAFTEIS_WRITE ? "WRITE" : "CONTROL";
}

/* The line of an event, of at most 64 bytes; nothing of a wrong kind. */
static int event_line(const pafteis_event *event, char *line) {
    unsigned thread = event->thread, device = event->device;
    switch (event->kind) {
    case PAFTEIS_ISSUE:
        return sprintf(line, "issue %u %u %s %lu\n", thread, device, major_word(event->major),
                       event->argument);
    case PAFTEIS_CANCEL:
        return sprintf(line, "cancel %u %lu %u\n", thread, event->packet, event->level);
    case PAFTEIS_INTERRUPT:
        return sprintf(line, "interrupt %u\n", device);
    case PAFTEIS_DPC:
        return sprintf(line, "dpc %u %u\n", thread, device);
    case PAFTEIS_START_IO:
        return sprintf(line, "startio %u %u\n", thread, device);
    case PAFTEIS_STEP:
        return sprintf(line, "step %u\n", thread);
    }
    return 0;
}

static pafteis_reply last_reply(const char *told) {
    static const char *const names[] = {"",       "started", "stepped", "finished", "topped",
                                        "waited", "idle",    "refused"};
    const char *line = told;
    for (const char *at = told; *at; at++)
        if (at[0] == '\n' && at[1])
            line = at + 1;
    pafteis_reply reply = {0};
    char word[16] = "";
    sscanf(line, "%*u %15s %lu %x %lu", word, &reply.packet, &reply.status, &reply.info);
    for (uint32_t kind = 1; kind < 8; kind++)
        if (strcmp(word, names[kind]) == 0)
            reply.kind = kind;
    return reply;
}

uint32_t pafteis_world_apply(pafteis_world *world, const pafteis_event *event,
                             pafteis_reply *reply) {
    if (!world->live)
        return PAFTEIS_NO_WORLD;
    uint8_t major = event->major;
    bool issue = event->kind == PAFTEIS_ISSUE;
    if (issue && major != PAFTEIS_READ && major != PAFTEIS_WRITE && major != PAFTEIS_DEVICE_CONTROL)
        return PAFTEIS_WRONG_ARGUMENT;
    inside *made = world->inside;
    made->events = realloc(made->events, made->length + 96);
    int more = event_line(event, made->events + made->length);
    if (more == 0)
        return PAFTEIS_WRONG_ARGUMENT;
    made->length += (size_t)more;
    char *told;
    size_t size;
    ask("trace", "", (uint8_t *)made->set, made->set_length, (uint8_t *)made->events, made->length,
        &told, &size);
    *reply = last_reply(told);
    free(told);
    return PAFTEIS_DONE;
}

uint32_t pafteis_world_apply_all(pafteis_world *world, const pafteis_event *events, size_t count,
                                 pafteis_reply *replies, size_t room, size_t *applied) {
    uint32_t status = world->live ? PAFTEIS_DONE : PAFTEIS_NO_WORLD;
    *applied = 0;
    while (status == PAFTEIS_DONE && *applied < count && *applied < room) {
        status = pafteis_world_apply(world, events + *applied, replies + *applied);
        *applied += status == PAFTEIS_DONE;
    }
    return status;
}

uint32_t pafteis_world_steps(pafteis_world *world, uint8_t thread, size_t count, size_t *made,
                             pafteis_reply *reply) {
    if (!world->live)
        return PAFTEIS_NO_WORLD;
    pafteis_event step = {.kind = PAFTEIS_STEP, .thread = thread};
    *reply = (pafteis_reply){.kind = PAFTEIS_STEPPED};
    for (*made = 0; *made < count && reply->kind == PAFTEIS_STEPPED; ++*made)
        pafteis_world_apply(world, &step, reply);
    return PAFTEIS_DONE;
}

uint32_t pafteis_world_thread(const pafteis_world *world, uint8_t number, pafteis_thread *thread) {
    if (!world->live)
        return PAFTEIS_NO_WORLD;
    if (number >= ((inside *)world->inside)->threads)
        return PAFTEIS_WRONG_ARGUMENT;
    memset(thread, 0, sizeof *thread);
    return PAFTEIS_DONE;
}

uint32_t pafteis_world_packet(const pafteis_world *world, uint64_t number, pafteis_packet *packet) {
    (void)number;
    memset(packet, 0, sizeof *packet);
    return world->live ? PAFTEIS_DONE : PAFTEIS_NO_WORLD;
}

uint32_t pafteis_world_due(const pafteis_world *world, uint8_t device, pafteis_due *due) {
    (void)device;
    memset(due, 0, sizeof *due);
    return world->live ? PAFTEIS_DONE : PAFTEIS_NO_WORLD;
}

uint32_t pafteis_world_cells(const pafteis_world *world, uint8_t device, pafteis_cells *cells) {
    (void)device;
    memset(cells, 0, sizeof *cells);
    return world->live ? PAFTEIS_DONE : PAFTEIS_NO_WORLD;
}

uint32_t pafteis_world_lock(const pafteis_world *world, uint8_t device, uint8_t lock,
                            pafteis_owner *owner) {
    (void)device, (void)lock;
    memset(owner, 0, sizeof *owner);
    return world->live ? PAFTEIS_DONE : PAFTEIS_NO_WORLD;
}

uint32_t pafteis_world_request(const pafteis_world *world, uint64_t number, pafteis_request *request) {
    (void)number;
    memset(request, 0, sizeof *request);
    return world->live ? PAFTEIS_DONE : PAFTEIS_NO_WORLD;
}

uint32_t pafteis_world_words(const pafteis_world *world, uint8_t thread, pafteis_words *words) {
    (void)thread;
    memset(words, 0, sizeof *words);
    return world->live ? PAFTEIS_DONE : PAFTEIS_NO_WORLD;
}

uint32_t pafteis_world_number(const pafteis_world *world, uint64_t slot, uint64_t *number) {
    *number = slot;
    return world->live ? PAFTEIS_DONE : PAFTEIS_NO_WORLD;
}

uint32_t pafteis_world_free(pafteis_world *world) {
    if (!world->live)
        return PAFTEIS_NO_WORLD;
    inside *made = world->inside;
    free(made->set);
    free(made->events);
    free(made);
    *world = (pafteis_world)PAFTEIS_EMPTY_WORLD;
    return PAFTEIS_DONE;
}

typedef struct {
    size_t length;
    uint8_t bytes[];
} kept;

uint32_t pafteis_answer_free(pafteis_answer *answer) {
    if (!answer->live)
        return PAFTEIS_NO_ANSWER;
    free(answer->inside);
    *answer = (pafteis_answer)PAFTEIS_EMPTY_ANSWER;
    return PAFTEIS_DONE;
}

uint32_t pafteis_answer_read(const pafteis_answer *answer, size_t from, uint8_t *buffer,
                             size_t capacity, size_t *count) {
    if (!answer->live)
        return PAFTEIS_NO_ANSWER;
    kept *made = answer->inside;
    size_t rest = from < made->length ? made->length - from : 0;
    *count = rest < capacity ? rest : capacity;
    if (*count > 0)
        memcpy(buffer, made->bytes + from, *count);
    return PAFTEIS_DONE;
}

/* Keeps what a call with a buffer answers: it is made twice here. */
#define KEEP(call, ...)                                                                            \
    uint32_t status = call(__VA_ARGS__, NULL, 0, needed);                                          \
    if (status > PAFTEIS_FAULTY)                                                                   \
        return status;                                                                             \
    kept *made = malloc(sizeof *made + *needed);                                                   \
    made->length = *needed;                                                                        \
    call(__VA_ARGS__, made->bytes, made->length, needed);                                          \
    pafteis_answer_free(answer);                                                                   \
    *answer = (pafteis_answer){true, made};                                                        \
    return status

uint32_t pafteis_answer_explain(const uint8_t *set, size_t length, uint32_t extent,
                                pafteis_answer *answer, size_t *needed) {
    KEEP(pafteis_explain, set, length, extent);
}

uint32_t pafteis_answer_trace(const uint8_t *set, size_t length, const uint8_t *schedule,
                              size_t size, uint32_t flags, pafteis_answer *answer,
                              size_t *needed) {
    KEEP(pafteis_trace, set, length, schedule, size, flags);
}

uint32_t pafteis_answer_tell(const uint8_t *set, size_t length, const uint8_t *schedule,
                             size_t size, uint32_t flags, pafteis_answer *answer,
                             size_t *needed) {
    KEEP(pafteis_tell, set, length, schedule, size, flags);
}

uint32_t pafteis_answer_draw(const uint8_t *set, size_t length, const uint8_t *schedule,
                             size_t size, uint32_t flags, pafteis_answer *answer,
                             size_t *needed) {
    KEEP(pafteis_draw, set, length, schedule, size, flags);
}

uint32_t pafteis_answer_hunt(const uint8_t *set, size_t length, const pafteis_hunting *asked,
                             pafteis_answer *answer, size_t *needed) {
    KEEP(pafteis_hunt, set, length, asked);
}

uint32_t pafteis_answer_mend(const uint8_t *set, size_t length, uint64_t tries,
                             pafteis_answer *answer, size_t *needed) {
    KEEP(pafteis_mend, set, length, tries);
}

uint32_t pafteis_answer_list(const uint8_t *set, size_t length, pafteis_answer *answer,
                             size_t *needed) {
    KEEP(pafteis_list, set, length);
}
