/* A command by its name, for the tests of the library. */
#ifndef CALLS_H
#define CALLS_H

#include "rcap.h"

/* What a command is given: the source, the text beside it, if any, and a number, if any. */
struct texts {
    unsigned char *source;
    size_t source_length;
    unsigned char *beside;
    size_t beside_length;
    uint64_t number;
};

/* Two buffers. */
struct buffers {
    unsigned char *out;
    size_t out_capacity;
    unsigned char *err;
    size_t err_capacity;
};

/* Reads the texts and the number that the words name, of which a number has digits alone: COMMAND SOURCE [BESIDE] [NUMBER]. Ends the process if it cannot. */
struct texts read_texts(int count, char **words);

/* Makes the call of the command of this name. Ends the process if there is none. */
unsigned char call(const char *command, const struct texts *texts, const struct buffers *buffers, struct rcap_answer *answer);

/* Whether a piece of memory has this byte everywhere. */
int has_only(const unsigned char *bytes, size_t length, unsigned char byte);

/* Prints a message, and ends the process. */
_Noreturn void fail(const char *message);

#endif
