/* Answers a command of the program from C, over files:
 *
 *     answer check FILE | explain FILE | explain-each FILE | list FILE | rewrite FILE
 *     answer hunt FILE | mend FILE
 *     answer trace FILE SCHEDULE | trace-unchecked FILE SCHEDULE
 *     answer tell FILE SCHEDULE | tell-every FILE SCHEDULE | draw FILE SCHEDULE
 *     answer rule NUMBER | version
 *
 * It writes and ends as `drvhost` does; `rewrite` writes the image to the standard output, and
 * `version` tells of the library. */
#include "pafteis.h"

#include <stdio.h>
#include <stdlib.h>
#include <string.h>

typedef struct {
    uint8_t *bytes;
    size_t length;
} text;

/* A whole file, of any size. */
static text read_file(const char *name) {
    FILE *file = fopen(name, "rb");
    text found = {NULL, 0};
    for (size_t room = 0, got = 1; file != NULL && got > 0; found.length += got) {
        if (found.length == room) {
            room = room == 0 ? 4096 : 2 * room;
            uint8_t *more = realloc(found.bytes, room);
            if (more == NULL)
                exit(PAFTEIS_NO_MEMORY);
            found.bytes = more;
        }
        got = fread(found.bytes + found.length, 1, room - found.length, file);
    }
    if (file == NULL || ferror(file)) {
        fprintf(stderr, "cannot read %s\n", name);
        exit(2);
    }
    fclose(file);
    return found;
}

/* The words that it knows, and how many stand behind each. */
static const struct {
    const char *word;
    int more;
} WORDS[] = {{"check", 1}, {"explain", 1}, {"explain-each", 1}, {"list", 1}, {"rewrite", 1},
             {"hunt", 1}, {"mend", 1}, {"trace", 2}, {"trace-unchecked", 2}, {"tell", 2},
             {"tell-every", 2}, {"draw", 2}, {"rule", 1}, {"version", 0}};

static bool is_known(int count, char **words) {
    for (size_t at = 0; at < sizeof WORDS / sizeof WORDS[0]; at++)
        if (count == WORDS[at].more + 2 && strcmp(words[1], WORDS[at].word) == 0)
            return true;
    return false;
}

/* Small answers go into a buffer: false where it isn't one of those. */
static bool is_put(const char *word, const char *rule, text set, text buffer, size_t *needed,
                   uint32_t *status) {
    uint8_t *into = buffer.bytes;
    if (strcmp(word, "version") == 0)
        *status = pafteis_version(into, buffer.length, needed);
    else if (strcmp(word, "rule") == 0)
        *status = pafteis_explain_rule((uint32_t)strtoul(rule, NULL, 10), into, buffer.length,
                                       needed);
    else if (strcmp(word, "check") == 0)
        *status = pafteis_report(set.bytes, set.length, into, buffer.length, needed);
    else if (strcmp(word, "rewrite") == 0)
        *status = pafteis_rewrite(set.bytes, set.length, into, buffer.length, needed);
    else
        return false;
    return true;
}

/* Large answers are made once, and kept. */
static uint32_t keep(const char *word, text set, text events, pafteis_answer *answer,
                     size_t *needed) {
    pafteis_hunting usual = PAFTEIS_USUAL_HUNT;
    uint32_t flags = strcmp(word, "trace-unchecked") == 0 ? PAFTEIS_UNCHECKED : PAFTEIS_CHECKED;
    if (strcmp(word, "explain") == 0)
        return pafteis_answer_explain(set.bytes, set.length, PAFTEIS_FIRST, answer, needed);
    if (strcmp(word, "explain-each") == 0)
        return pafteis_answer_explain(set.bytes, set.length, PAFTEIS_EACH, answer, needed);
    if (strcmp(word, "list") == 0)
        return pafteis_answer_list(set.bytes, set.length, answer, needed);
    if (strcmp(word, "hunt") == 0)
        return pafteis_answer_hunt(set.bytes, set.length, &usual, answer, needed);
    if (strcmp(word, "mend") == 0)
        return pafteis_answer_mend(set.bytes, set.length, PAFTEIS_USUAL_TRIES, answer, needed);
    if (strcmp(word, "draw") == 0)
        return pafteis_answer_draw(set.bytes, set.length, events.bytes, events.length, flags,
                                   answer, needed);
    if (strcmp(word, "tell-every") == 0)
        flags |= PAFTEIS_EVERY;
    if (strncmp(word, "tell", 4) == 0)
        return pafteis_answer_tell(set.bytes, set.length, events.bytes, events.length, flags,
                                   answer, needed);
    return pafteis_answer_trace(set.bytes, set.length, events.bytes, events.length, flags, answer,
                                needed);
}

static FILE *stream_of(uint32_t status) { return status >= PAFTEIS_FAULTY ? stderr : stdout; }

/* Writes an answer in pieces. */
static void write_pieces(const pafteis_answer *answer, FILE *stream) {
    uint8_t piece[4096];
    size_t from = 0, count = 0;
    while (pafteis_answer_read(answer, from, piece, sizeof piece, &count) == PAFTEIS_DONE &&
           count > 0) {
        fwrite(piece, 1, count, stream);
        from += count;
    }
}

static uint32_t answer(char **words, text set, text events) {
    pafteis_answer kept = PAFTEIS_EMPTY_ANSWER;
    text buffer = {NULL, 0};
    size_t needed = 0;
    uint32_t status;
    if (!is_put(words[1], words[2], set, buffer, &needed, &status)) {
        status = keep(words[1], set, events, &kept, &needed);
        write_pieces(&kept, stream_of(status));
        pafteis_answer_free(&kept);
        return status;
    }
    buffer.length = needed;
    buffer.bytes = malloc(needed + 1);
    if (buffer.bytes == NULL)
        return PAFTEIS_NO_MEMORY;
    is_put(words[1], words[2], set, buffer, &needed, &status);
    fwrite(buffer.bytes, 1, needed, stream_of(status));
    free(buffer.bytes);
    return status;
}

int main(int count, char **words) {
    if (count < 2 || !is_known(count, words)) {
        fputs("answer: see the head of answer.c for its words\n", stderr);
        return 2;
    }
    text set = {NULL, 0}, events = {NULL, 0};
    if (count > 2 && strcmp(words[1], "rule") != 0)
        set = read_file(words[2]);
    if (count > 3)
        events = read_file(words[3]);
    uint32_t status = answer(words, set, events);
    if (status == PAFTEIS_NO_MEMORY)
        fputs("out of memory\n", stderr);
    free(set.bytes);
    free(events.bytes);
    return (int)status;
}
