#include "calls.h"

#include <ctype.h>
#include <stdio.h>
#include <stdlib.h>
#include <string.h>

#define FAILED 99

_Noreturn void fail(const char *message) {
    fprintf(stderr, "FAILED: %s\n", message);
    exit(FAILED);
}

static unsigned char *read_file(const char *name, size_t *length) {
    FILE *file = fopen(name, "rb");
    if (file == NULL || fseek(file, 0, SEEK_END) != 0)
        fail("a file cannot be opened");
    *length = (size_t)ftell(file);
    rewind(file);
    /* Exactly the bytes of the file, so that a checker of memory sees each byte past them; one if there are none. */
    unsigned char *bytes = malloc(*length == 0 ? 1 : *length);
    if (bytes == NULL || fread(bytes, 1, *length, file) != *length)
        fail("a file cannot be read");
    fclose(file);
    return bytes;
}

struct texts read_texts(int count, char **words) {
    struct texts texts = {NULL, 0, NULL, 0, 0};
    if (count < 2)
        fail("COMMAND SOURCE [BESIDE] [NUMBER]");
    texts.source = read_file(words[1], &texts.source_length);
    for (int i = 2; i < count; i++) {
        if (isdigit((unsigned char)words[i][0]))
            texts.number = strtoull(words[i], NULL, 10);
        else
            texts.beside = read_file(words[i], &texts.beside_length);
    }
    return texts;
}

typedef unsigned char of_source(const unsigned char *, size_t, unsigned char *, size_t, unsigned char *, size_t, struct rcap_answer *);
typedef unsigned char of_both(const unsigned char *, size_t, const unsigned char *, size_t, unsigned char *, size_t, unsigned char *,
                              size_t, struct rcap_answer *);
typedef unsigned char of_seed(const unsigned char *, size_t, uint64_t, unsigned char *, size_t, unsigned char *, size_t,
                              struct rcap_answer *);

static const struct {
    const char *name;
    of_source *alone;
    of_both *together;
    of_seed *seeded;
} COMMANDS[] = {
    {"check", rcap_check, NULL, NULL},   {"show", rcap_show, NULL, NULL},       {"sends", rcap_sends, NULL, NULL},
    {"judge", NULL, rcap_judge, NULL},   {"upgrade", NULL, rcap_upgrade, NULL}, {"run", NULL, rcap_run, NULL},
    {"trace", NULL, rcap_trace, NULL},   {"schedule", NULL, NULL, rcap_schedule}, {"play", NULL, NULL, rcap_play},
    {"places", rcap_places, NULL, NULL}, {"events", NULL, rcap_events, NULL},   {"explain", rcap_explain, NULL, NULL},
};

unsigned char call(const char *command, const struct texts *t, const struct buffers *b, struct rcap_answer *answer) {
    for (size_t i = 0; i < sizeof COMMANDS / sizeof *COMMANDS; i++) {
        if (strcmp(command, COMMANDS[i].name) != 0)
            continue;
        if (COMMANDS[i].alone != NULL)
            return COMMANDS[i].alone(t->source, t->source_length, b->out, b->out_capacity, b->err, b->err_capacity, answer);
        if (COMMANDS[i].seeded != NULL)
            return COMMANDS[i].seeded(t->source, t->source_length, t->number, b->out, b->out_capacity, b->err, b->err_capacity,
                                      answer);
        return COMMANDS[i].together(t->source, t->source_length, t->beside, t->beside_length, b->out, b->out_capacity, b->err,
                                    b->err_capacity, answer);
    }
    if (strcmp(command, "swap") == 0)
        return rcap_swap(t->source, t->source_length, t->beside, t->beside_length, (uint32_t)t->number, b->out, b->out_capacity,
                         b->err, b->err_capacity, answer);
    if (strcmp(command, "outcomes") != 0)
        fail("no such command");
    return rcap_outcomes(t->source, t->source_length, (uint32_t)t->number, b->out, b->out_capacity, b->err, b->err_capacity,
                         answer);
}

int has_only(const unsigned char *bytes, size_t length, unsigned char byte) {
    for (size_t i = 0; i < length; i++)
        if (bytes[i] != byte)
            return 0;
    return 1;
}
