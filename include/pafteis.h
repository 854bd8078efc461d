/* Pafteis, a proved host for driver routines, as a library.
 *
 * Verdicts on driver sets, their explanations, listings, images and traces, from bytes in memory to
 * bytes in memory; and the machine of accepted sets, driven event by event. docs/TEXTS.md says what
 * stands in texts, images and schedules, docs/RULES.md what each refusal and each fault means.
 *
 * Rules for every call:
 *
 * - Nothing is kept of what is passed, and nothing is written but through the pointers that are not
 *   const. No call prints, opens a file, starts a thread, takes a lock or waits.
 * - A pointer points to as many bytes, events or replies as the length behind it says. Where that is
 *   0 it may be NULL; no other pointer may. What is written to overlaps with nothing else that is
 *   passed.
 * - Bytes are bytes: nothing ends them but their length. A length is a number of bytes.
 * - Calls that say "takes memory" take it from malloc and, but for a world or a kept answer, give
 *   all of it back before they return. Where memory is refused they answer PAFTEIS_NO_MEMORY.
 * - Calls may be made in several threads at once, as long as no two of them have the same world or
 *   answer, or a buffer that one of them writes to. No call may be made from a signal handler, or in the child
 *   of a process that had several threads when it forked.
 *
 * Linux on x86-64 with the instructions of x86-64-v2; C99 and later, C++17 for pafteis.hpp. Nothing
 * is linked but the C library. docs/EMBEDDING.md has sizes, the stack that a call takes, and more.
 */
#ifndef PAFTEIS_H
#define PAFTEIS_H

#include <stdbool.h>
#include <stddef.h>
#include <stdint.h>

#ifdef __cplusplus
extern "C" {
#endif

/* What a call answers. */
enum {
    PAFTEIS_DONE = 0,           /* done; of a driver set: accepted, or run to the schedule's end */
    PAFTEIS_REFUSED = 1,        /* the set is refused, or a bug check stopped its run */
    PAFTEIS_FAULTY = 2,         /* the bytes are no text and no image of a set, or no schedule */
    PAFTEIS_NO_MEMORY = 3,      /* memory was refused; buffers and worlds are as they were */
    PAFTEIS_WRONG_ARGUMENT = 4, /* a number that names nothing; buffers and worlds likewise */
    PAFTEIS_NO_WORLD = 5,       /* no world was made, or it was freed; nothing is written */
    PAFTEIS_NO_ANSWER = 5,      /* likewise of an answer that the library keeps */
    PAFTEIS_HAS_WORLD = 6       /* a world stands where a new one was to be made; it stays */
};

/* Verdicts ---------------------------------------------------------------------------------- */

/* The rules that a driver set may break. */
enum {
    PAFTEIS_MALFORMED = 1,
    PAFTEIS_UNREACHABLE = 2,
    PAFTEIS_STATES_DIFFER = 3,
    PAFTEIS_WRONG_KIND = 4,
    PAFTEIS_DOUBLE_COMPLETION = 5,
    PAFTEIS_MARK_IRP_PENDING = 6,
    PAFTEIS_CANCEL_SPIN_LOCK = 7,
    PAFTEIS_SPIN_LOCK = 8,
    PAFTEIS_LOCK_HELD = 9,
    PAFTEIS_LEVEL = 10,
    PAFTEIS_GUARD = 11,
    PAFTEIS_CANCEL_STATE = 12,
    PAFTEIS_DROPPED = 13,
    PAFTEIS_TOKEN = 14,
    PAFTEIS_SORT = 15,
    PAFTEIS_COMPLETION = 16,
    PAFTEIS_STACK_TOO_SMALL = 17,
    PAFTEIS_NO_LOWER = 18,
    PAFTEIS_TOO_LONG = 19,
    PAFTEIS_MEMORY = 20 /* never in a verdict: PAFTEIS_NO_MEMORY is the answer then */
};

/* The faults of a text. */
enum {
    PAFTEIS_TEXT_LEX = 1,
    PAFTEIS_TEXT_UNKNOWN_WORD = 2,
    PAFTEIS_TEXT_DUPLICATE_NAME = 3,
    PAFTEIS_TEXT_UNKNOWN_NAME = 4,
    PAFTEIS_TEXT_OUT_OF_RANGE = 5,
    PAFTEIS_TEXT_UNCLOSED = 6,
    PAFTEIS_TEXT_OVER_LIMIT = 7
};

/* The faults of an image. */
enum {
    PAFTEIS_IMAGE_MAGIC = 1,
    PAFTEIS_IMAGE_TRUNCATED = 2,
    PAFTEIS_IMAGE_TRAILING = 3,
    PAFTEIS_IMAGE_BAD_OPCODE = 4,
    PAFTEIS_IMAGE_OVER_LIMIT = 5
};

/* Why a set is refused, or why there is none. What tells nothing is 0. */
typedef struct {
    uint64_t line;                      /* of a faulty text, from 1 */
    uint32_t rule;                      /* of a refused set, PAFTEIS_MALFORMED to _TOO_LONG */
    uint32_t driver, routine, position; /* where it is broken, each from 0 */
    uint32_t text_fault;                /* of a faulty text, PAFTEIS_TEXT_LEX to _OVER_LIMIT */
    uint32_t image_fault;               /* of a faulty image, PAFTEIS_IMAGE_MAGIC to _OVER_LIMIT */
} pafteis_verdict;

/* The verdict on the set that a text or an image names: PAFTEIS_DONE, _REFUSED, _FAULTY or
 * _NO_MEMORY. Takes memory. */
uint32_t pafteis_check(const uint8_t *set, size_t set_length, pafteis_verdict *verdict);

/* Orders of locks ---------------------------------------------------------------------------- */

/* The nine locks of a driver: 0 to 7 are the spin locks l0 to l7, of which each device has its own,
 * and this is the system cancel spin lock. */
#define PAFTEIS_CANCEL_LOCK 8

/* A routine acquires a lock while it holds another. */
typedef struct {
    uint32_t position; /* the instruction that acquires the lock, from 0 */
    uint8_t routine;   /* of the driver, from 0 */
    uint8_t held;      /* the lock that it holds there */
    uint8_t taken;     /* the lock that it acquires */
} pafteis_lock_edge;

enum { PAFTEIS_ORDER = 1, PAFTEIS_CYCLE = 2 };

/* What the routines of a driver make of its locks. What tells nothing is 0. */
typedef struct {
    uint64_t edges;             /* how many the cycle has, at most 9 */
    uint32_t kind;              /* PAFTEIS_ORDER or PAFTEIS_CYCLE */
    uint8_t order[9];           /* all nine: none is acquired while it or a later one is held */
    pafteis_lock_edge cycle[9]; /* each acquires the lock that is held at the next, the last the one
                                   that is held at the first */
} pafteis_lock_order;

/* The locks of a driver in an order, or a shortest cycle where they have none; of all shortest
 * cycles the one whose edges come first by routine and position. The driver is one of the set that
 * a text or an image names. With PAFTEIS_DONE `order` tells it, and `verdict` is all 0. Else `order`
 * is as it was: with _REFUSED, _FAULTY and _NO_MEMORY `verdict` is that of pafteis_check; with
 * _WRONG_ARGUMENT the set has no driver of this number, and `verdict` is all 0. Where all drivers
 * have an order, no threads of any run wait for each other's locks in a ring. Takes memory. */
uint32_t pafteis_order_of_locks(const uint8_t *set, size_t set_length, uint8_t driver,
                                pafteis_lock_order *order, pafteis_verdict *verdict);

/* What a set has -----------------------------------------------------------------------------
 *
 * Of a set that is accepted; else the status is that of pafteis_check, and `verdict` tells why,
 * which is all 0 where something is told. What is told of nothing stays as it was. Each call takes
 * memory, and judges the set anew. */

typedef struct {
    uint32_t drivers, devices; /* their numbers begin at 0, in the order of the text */
} pafteis_set;

uint32_t pafteis_shape(const uint8_t *set, size_t set_length, pafteis_set *shape,
                       pafteis_verdict *verdict);

enum { PAFTEIS_NONE = 255 };

typedef struct {
    uint8_t driver;
    uint8_t stack;               /* stack locations that a packet needs which is sent to it */
    uint8_t lower;               /* the device under it, or _NONE */
    uint8_t read, write, control; /* its dispatch routines by number; _NONE the default one */
    uint8_t startio, dpc;        /* or _NONE */
} pafteis_device_shape;

/* A device; _WRONG_ARGUMENT where there is none of this number. */
uint32_t pafteis_device(const uint8_t *set, size_t set_length, uint8_t number,
                        pafteis_device_shape *device, pafteis_verdict *verdict);

typedef struct {
    uint32_t instructions;
    uint32_t certificate; /* instructions that an activation of it executes at most */
    uint32_t sort;        /* 1 dispatch, 2 StartIo, 3 DPC, 4 propagate, 5 hold, 6 cancel */
} pafteis_routine_shape;

/* A routine of a driver; _WRONG_ARGUMENT where there is none of these numbers. */
uint32_t pafteis_routine(const uint8_t *set, size_t set_length, uint8_t driver, uint8_t number,
                         pafteis_routine_shape *routine, pafteis_verdict *verdict);

/* Answers in bytes ---------------------------------------------------------------------------
 *
 * Each writes what the program of the same name writes, on its two streams: of these one is empty,
 * and the status, which is the program's exit status, tells which. `needed` becomes the number of
 * these bytes, 0 with _NO_MEMORY and _WRONG_ARGUMENT. Where they are no more than `capacity`, they
 * are written to the front of the buffer; else nothing is, and a second call with a larger buffer
 * answers the same. Calls below keep a large answer, and make it once. All take memory. */

/* `check`: the verdict, with a line for each routine of an accepted set. */
uint32_t pafteis_report(const uint8_t *set, size_t set_length,
                        uint8_t *buffer, size_t capacity, size_t *needed);

enum { PAFTEIS_FIRST = 0, PAFTEIS_EACH = 1 };

/* `explain`: words behind the verdict, of the first fault, or of the first of each routine. */
uint32_t pafteis_explain(const uint8_t *set, size_t set_length, uint32_t extent,
                         uint8_t *buffer, size_t capacity, size_t *needed);

/* `explain --rule`: a rule in words, 1 to 20. */
uint32_t pafteis_explain_rule(uint32_t rule, uint8_t *buffer, size_t capacity, size_t *needed);

enum { PAFTEIS_CHECKED = 0, PAFTEIS_UNCHECKED = 1 };

/* `trace`: a run of a schedule of events; of a refused set only where that is asked for. */
uint32_t pafteis_trace(const uint8_t *set, size_t set_length,
                       const uint8_t *schedule, size_t schedule_length, uint32_t flags,
                       uint8_t *buffer, size_t capacity, size_t *needed);

/* `tell`: a run in words, with an audit of what it has left behind. The flags are the sum of
 * PAFTEIS_CHECKED or _UNCHECKED, of _QUIET or _EVERY where lines are told of fewer events or of
 * each, and of _STRICT where an event that was refused is answered by 1. */
enum { PAFTEIS_QUIET = 2, PAFTEIS_EVERY = 4, PAFTEIS_STRICT = 8 };

uint32_t pafteis_tell(const uint8_t *set, size_t set_length,
                      const uint8_t *schedule, size_t schedule_length, uint32_t flags,
                      uint8_t *buffer, size_t capacity, size_t *needed);

/* `draw`: a run as a picture in SVG. PAFTEIS_CHECKED or _UNCHECKED. */
uint32_t pafteis_draw(const uint8_t *set, size_t set_length,
                      const uint8_t *schedule, size_t schedule_length, uint32_t flags,
                      uint8_t *buffer, size_t capacity, size_t *needed);

/* What a hunt looks for, and how far it goes. The flags are the sum of PAFTEIS_STUCK where it looks
 * for runs too from whose end nothing comes to rest, of _BOUNDED where runs have at most so many
 * events, and of _FURTHER where requests are tried with one more argument. */
enum { PAFTEIS_STUCK = 1, PAFTEIS_BOUNDED = 2, PAFTEIS_FURTHER = 4 };

typedef struct {
    uint64_t packets;  /* that live at once, 1 to 4096 */
    uint64_t worlds;   /* that are kept, 1 to 1000000000 */
    uint64_t events;   /* of a run, with PAFTEIS_BOUNDED */
    uint64_t argument; /* with PAFTEIS_FURTHER */
    uint32_t threads;  /* 1 to 64 */
    uint32_t flags;
} pafteis_hunting;

#define PAFTEIS_USUAL_HUNT { 2, 1000000, 0, 0, 2, 0 }

/* `hunt`: a shortest run that ends amiss, as a schedule whose first line tells how, with _REFUSED;
 * or a line that none is within reach, with _DONE. It may take long, and up to some hundred bytes
 * for each world. */
uint32_t pafteis_hunt(const uint8_t *set, size_t set_length, const pafteis_hunting *asked,
                      uint8_t *buffer, size_t capacity, size_t *needed);

#define PAFTEIS_USUAL_TRIES 20000

/* `mend`: mends of a text, each as a diff, tried so often for each faulty routine, 1 to 1000000
 * times: with _DONE the set is accepted already or the whole is mended, with _REFUSED a part of it
 * or nothing. */
uint32_t pafteis_mend(const uint8_t *set, size_t set_length, uint64_t tries,
                      uint8_t *buffer, size_t capacity, size_t *needed);

/* `list`: a text that names the set. */
uint32_t pafteis_list(const uint8_t *set, size_t set_length,
                      uint8_t *buffer, size_t capacity, size_t *needed);

/* `rewrite`: the set's image, of edition 2. */
uint32_t pafteis_rewrite(const uint8_t *set, size_t set_length,
                         uint8_t *buffer, size_t capacity, size_t *needed);

/* Large answers once -------------------------------------------------------------------------
 *
 * A call above makes its answer a second time where the first buffer was too small. These make it
 * once: the library keeps the bytes until they are freed. Set the struct to PAFTEIS_EMPTY_ANSWER
 * before it is passed for the first time, and let nothing but these calls change it; it may be
 * moved, and not copied. `live` says whether an answer is kept, and that one is to be freed. */

typedef struct {
    bool live;
    void *inside;
} pafteis_answer;

#define PAFTEIS_EMPTY_ANSWER { false, NULL }

/* The status, `needed` and the bytes are those of the call above of the same name; the bytes are
 * kept, and what was kept in the struct before is freed. With _NO_MEMORY and _WRONG_ARGUMENT
 * `answer` is as it was. All take memory. */
uint32_t pafteis_answer_explain(const uint8_t *set, size_t set_length, uint32_t extent,
                                pafteis_answer *answer, size_t *needed);
uint32_t pafteis_answer_trace(const uint8_t *set, size_t set_length,
                              const uint8_t *schedule, size_t schedule_length, uint32_t flags,
                              pafteis_answer *answer, size_t *needed);
uint32_t pafteis_answer_tell(const uint8_t *set, size_t set_length,
                             const uint8_t *schedule, size_t schedule_length, uint32_t flags,
                             pafteis_answer *answer, size_t *needed);
uint32_t pafteis_answer_draw(const uint8_t *set, size_t set_length,
                             const uint8_t *schedule, size_t schedule_length, uint32_t flags,
                             pafteis_answer *answer, size_t *needed);
uint32_t pafteis_answer_hunt(const uint8_t *set, size_t set_length, const pafteis_hunting *asked,
                             pafteis_answer *answer, size_t *needed);
uint32_t pafteis_answer_mend(const uint8_t *set, size_t set_length, uint64_t tries,
                             pafteis_answer *answer, size_t *needed);
uint32_t pafteis_answer_list(const uint8_t *set, size_t set_length,
                             pafteis_answer *answer, size_t *needed);

/* Puts the bytes of an answer from byte `from` on into a buffer, as many as there are or as have
 * room: `count` becomes how many, 0 behind the last. _NO_ANSWER where none is kept, and `count` is
 * as it was. */
uint32_t pafteis_answer_read(const pafteis_answer *answer, size_t from,
                             uint8_t *buffer, size_t capacity, size_t *count);

/* Frees an answer; _NO_ANSWER where none is kept, as where it was freed before. */
uint32_t pafteis_answer_free(pafteis_answer *answer);

/* Names --------------------------------------------------------------------------------------
 *
 * Each is put into a buffer as answers in bytes are: PAFTEIS_DONE, or _WRONG_ARGUMENT where there
 * is no such name. They take no memory. */

enum {
    PAFTEIS_NAME_OF_DRIVER = 1, /* in a text, by its number from 0, as the other three */
    PAFTEIS_NAME_OF_DEVICE = 2,
    PAFTEIS_NAME_OF_ROUTINE = 3,
    PAFTEIS_NAME_OF_QUEUE = 4,
    PAFTEIS_NAME_OF_RULE = 5,     /* `V11 Guard` by 11 */
    PAFTEIS_NAME_OF_STATUS = 6,   /* `STATUS_CANCELLED` by 0xC0000120 */
    PAFTEIS_NAME_OF_BUG_CHECK = 7 /* `MULTIPLE_IRP_COMPLETE_REQUESTS` by 0x44 */
};

/* The name that a driver text gives to a driver, a device, or a routine or a queue of a driver. An
 * image has none. The text isn't judged: lines that name nothing are passed over. */
uint32_t pafteis_name_in(const uint8_t *text, size_t text_length, uint32_t kind, uint8_t driver,
                         uint8_t number, uint8_t *buffer, size_t capacity, size_t *needed);

/* The name of a rule, a status or a bug check. */
uint32_t pafteis_name_of(uint32_t kind, uint32_t number,
                         uint8_t *buffer, size_t capacity, size_t *needed);

/* Schedules ---------------------------------------------------------------------------------- */

/* The faults of a schedule's text. */
enum {
    PAFTEIS_SCHEDULE_LEX = 1,
    PAFTEIS_SCHEDULE_UNKNOWN_WORD = 2,
    PAFTEIS_SCHEDULE_OUT_OF_RANGE = 3,
    PAFTEIS_SCHEDULE_TOO_LONG = 4
};

typedef struct {
    uint64_t events;  /* at most 1000000 */
    uint32_t threads; /* 1 to 64 */
} pafteis_schedule_size;

typedef struct {
    uint64_t line; /* from 1; one past the last where no line says how many threads there are */
    uint32_t kind;
} pafteis_schedule_fault;

/* How large a schedule is, with PAFTEIS_DONE, and `fault` is all 0; or with _FAULTY its first
 * fault, and `size` is as it was. Takes memory: with _NO_MEMORY `fault` is all 0. */
uint32_t pafteis_schedule(const uint8_t *schedule, size_t schedule_length,
                          pafteis_schedule_size *size, pafteis_schedule_fault *fault);

/* The version of this header: a million for the major number, a thousand for the minor one, and
 * the patch. pafteis_version_number answers that of the library. */
#define PAFTEIS_VERSION_NUMBER 1000000

uint32_t pafteis_version_number(void);

/* `pafteis`, a space, the three numbers and a line end. Takes no memory. */
uint32_t pafteis_version(uint8_t *buffer, size_t capacity, size_t *needed);

/* Worlds ------------------------------------------------------------------------------------
 *
 * A world of an accepted set. Set the struct to PAFTEIS_EMPTY_WORLD before it is passed for the
 * first time, and let nothing but the calls below change it; it may be moved, and not copied. A
 * world that was made is to be freed. `live` says whether there is one.
 *
 * Calls that take a world as const look at it: when they return, the struct and the world are as
 * they were. They want it to themselves while they last, so a world is used by one thread at a time,
 * also by those. */

typedef struct {
    bool live;
    void *inside;
} pafteis_world;

#define PAFTEIS_EMPTY_WORLD { false, NULL }

/* Makes the world of the set that a text or an image names, before its first event, with 1 to 64
 * threads. With PAFTEIS_DONE there is one; else `world` is as it was, and `verdict` tells why, as
 * that of pafteis_check does. With _WRONG_ARGUMENT, of another number of threads, and with
 * _HAS_WORLD, where one stands there already, it is all 0. Takes memory, all that the world ever
 * needs. */
uint32_t pafteis_world_new(const uint8_t *set, size_t set_length, uint8_t threads,
                           pafteis_world *world, pafteis_verdict *verdict);

/* Begins a world anew: it is that of the same set before its first event, with so many threads.
 * Takes the memory of the new one before it frees the old: where that is refused, the old world
 * stays. */
uint32_t pafteis_world_reset(pafteis_world *world, uint8_t threads);

/* Makes another world of a world's set, before its first event, in a struct that has none. The two
 * are apart. _HAS_WORLD where `other` has one. A world isn't copied: who wants to go on from one
 * point in two ways keeps the events, and applies them to the other world too. */
uint32_t pafteis_world_another(const pafteis_world *world, uint8_t threads, pafteis_world *other);

/* Kinds of events, with the fields that each needs. The others may be anything. */
enum {
    PAFTEIS_ISSUE = 1,     /* thread, device, major, argument: a request for a device arrives */
    PAFTEIS_CANCEL = 2,    /* thread, packet, level: IoCancelIrp is called, 0 to 2 for its level */
    PAFTEIS_INTERRUPT = 3, /* device */
    PAFTEIS_DPC = 4,       /* thread, device: the queued DPC begins */
    PAFTEIS_START_IO = 5,  /* thread, device: StartIo begins */
    PAFTEIS_STEP = 6       /* thread: one step of its top frame */
};

enum { PAFTEIS_READ = 3, PAFTEIS_WRITE = 4, PAFTEIS_DEVICE_CONTROL = 14 };

typedef struct {
    uint64_t packet;   /* by the number that PAFTEIS_STARTED told */
    uint64_t argument; /* of the request; any number */
    uint32_t kind;
    uint8_t thread;    /* from 0 */
    uint8_t device;    /* from 0, in the order of the text */
    uint8_t major;
    uint8_t level;     /* IRQL of who cancels: 0 PASSIVE_LEVEL, 1 APC_LEVEL, 2 DISPATCH_LEVEL */
} pafteis_event;

/* Kinds of replies. A world never replies with a bug check or a wrong operand (8, 9). Of a thread or
 * a device that isn't there an event is not possible. */
enum {
    PAFTEIS_STARTED = 1,  /* packet: a root frame stands on the thread, for this packet */
    PAFTEIS_STEPPED = 2,
    PAFTEIS_FINISHED = 3, /* the thread has no frame left */
    PAFTEIS_TOPPED = 4,   /* packet, status, info: the packet topped out */
    PAFTEIS_WAITED = 5,   /* another thread holds the lock; nothing changed */
    PAFTEIS_IDLE = 6,     /* the thread has no frame; nothing changed */
    PAFTEIS_NOT_POSSIBLE = 7 /* the event can't be; nothing changed */
};

typedef struct {
    uint64_t packet;
    uint64_t info;   /* IoStatus.Information */
    uint32_t kind;
    uint32_t status; /* NTSTATUS */
} pafteis_reply;

/* One event, which is one atomic step. PAFTEIS_DONE, _WRONG_ARGUMENT where there is no such kind or
 * no such major function, or _NO_WORLD. `reply` is written with PAFTEIS_DONE alone. */
uint32_t pafteis_world_apply(pafteis_world *world, const pafteis_event *event,
                             pafteis_reply *reply);

/* Events one after the other, each with its reply at the place of its event: up to the last, or
 * until `room` replies are written. `applied` is how many were applied. PAFTEIS_DONE;
 * _WRONG_ARGUMENT where events[*applied] is of no such kind or no such major function, and is not
 * applied; or _NO_WORLD. */
uint32_t pafteis_world_apply_all(pafteis_world *world, const pafteis_event *events, size_t count,
                                 pafteis_reply *replies, size_t room, size_t *applied);

/* Steps of a thread, at most `count`, up to the first that replies otherwise than _STEPPED. `made`
 * becomes how many were made, that one included, and `reply` the reply to the last (_STEPPED where
 * none was made). Of a thread that isn't there the first is _NOT_POSSIBLE. */
uint32_t pafteis_world_steps(pafteis_world *world, uint8_t thread, size_t count, size_t *made,
                             pafteis_reply *reply);

/* The top frame of a thread. Routine 255 is a driver's default one, which serves what it names no
 * routine for. */
typedef struct {
    uint64_t packet;   /* of the I/O manager's frames */
    uint32_t kind;     /* 0 none, 1 a routine, 2 a packet is completed, 3 a packet is cancelled */
    uint32_t position; /* the instruction before which the routine stands, from 0 */
    uint8_t driver, routine, device;
    uint8_t next;      /* of a cancel: 1 it acquires the lock, 2 sets the flag, 3 exchanges */
} pafteis_frame;

typedef struct {
    uint64_t frames; /* at most 32 */
    uint32_t level;  /* of the lowest frame: 0 PASSIVE_LEVEL, 1 APC_LEVEL, 2 DISPATCH_LEVEL */
    pafteis_frame top;
} pafteis_thread;

/* Tells of a thread; _WRONG_ARGUMENT where the world has none of this number. */
uint32_t pafteis_world_thread(const pafteis_world *world, uint8_t number, pafteis_thread *thread);

/* Whose cancel routine is set. */
typedef struct {
    uint8_t kind; /* 0 none, 1 that of a queue, 2 that of a device queue */
    uint8_t device, queue;
} pafteis_armed;

typedef struct {
    uint32_t kind;   /* 0 none of this number was issued, 1 it is live, 2 it has topped out */
    uint8_t depth;   /* the current location; 1 is the top driver's */
    pafteis_armed armed;
    bool cancel;     /* Irp->Cancel */
    bool marks[16];  /* SL_PENDING_RETURNED of each location, that of depth 1 first */
} pafteis_packet;

/* Tells of a packet. */
uint32_t pafteis_world_packet(const pafteis_world *world, uint64_t number, pafteis_packet *packet);

typedef struct {
    bool start_io; /* its StartIo routine has to begin */
    bool dpc;      /* its DPC is queued */
} pafteis_due;

/* Tells what is due of a device: nothing where there is none of this number. */
uint32_t pafteis_world_due(const pafteis_world *world, uint8_t device, pafteis_due *due);

/* The number cells of a device. */
typedef struct {
    uint64_t plain[16], paged[16];
} pafteis_cells;

/* Tells them; _WRONG_ARGUMENT where there is no device of this number. */
uint32_t pafteis_world_cells(const pafteis_world *world, uint8_t device, pafteis_cells *cells);

typedef struct {
    bool owned;
    uint8_t thread; /* 0 where it isn't */
} pafteis_owner;

/* Tells which thread owns a lock of a device, 0 to 7, or PAFTEIS_CANCEL_LOCK, whatever the device;
 * _WRONG_ARGUMENT where there is no such lock. */
uint32_t pafteis_world_lock(const pafteis_world *world, uint8_t device, uint8_t lock,
                            pafteis_owner *owner);

/* What is asked with a live packet, at its current location. */
typedef struct {
    uint64_t argument;
    uint64_t info;  /* IoStatus.Information */
    uint64_t major; /* PAFTEIS_READ, _WRITE or _DEVICE_CONTROL; 0 where nothing is asked there */
} pafteis_request;

/* Tells it; _WRONG_ARGUMENT where no packet of this number is live. */
uint32_t pafteis_world_request(const pafteis_world *world, uint64_t number,
                               pafteis_request *request);

/* The words in the registers r0 to r15 of a routine. A word doesn't say what it is: a number stands
 * as itself, a status as its value, a packet as the slot in which it stands. Where no instruction
 * may take anything from a register, its word may be any. */
typedef struct {
    uint64_t words[16];
} pafteis_words;

/* Tells those of the routine on the top of a thread; _WRONG_ARGUMENT where none stands there. */
uint32_t pafteis_world_words(const pafteis_world *world, uint8_t thread, pafteis_words *words);

/* Tells the number of the live packet in a slot; _WRONG_ARGUMENT where none stands there. Each live
 * packet stands in one slot, and in no other. */
uint32_t pafteis_world_number(const pafteis_world *world, uint64_t slot, uint64_t *number);

/* Frees a world; _NO_WORLD where there is none, as where it was freed before. */
uint32_t pafteis_world_free(pafteis_world *world);

#ifdef __cplusplus
}
#endif

#endif
