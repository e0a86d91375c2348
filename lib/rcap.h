/* The commands of rcap over texts in memory. docs/library.md says how to link them, and what is proved of a call.
 *
 * Each call is given one or two texts and two buffers, and answers the status of the command. What the command writes to
 * standard output is laid into `out`, and its line on standard error into `err`, each as far as the buffer's capacity goes.
 * After a text its buffer is as it was before, and no text ends with a 0. `answer` has the whole lengths of both texts, so a
 * caller whose buffer was too small calls again with more room, and the place at which the line points. Lines call the texts
 * `source`, `derivation` and `schedule`.
 *
 * At RCAP_OUT_OF_MEMORY both buffers are as they were, and all numbers of the answer are 0.
 *
 * Nothing checks the following; a caller has to see to it:
 *
 * - No pointer is null, also if its length or capacity is 0. At each pointer there are as many bytes as the number after it
 *   says, and at most PTRDIFF_MAX.
 * - `out`, `err` and `answer` overlap neither each other nor a text, and no other thread uses them until the call returns. Nor
 *   does any write to the texts; several calls may read one text at once.
 * - There is a stack of RCAP_STACK bytes. A call that finds less ends the process by a signal.
 * - malloc, realloc and free belong together, and a block is aligned to each power of two up to 16 that divides its size.
 * - The call is not made from a signal handler, nor in a forked child of a process with threads.
 *
 * Calls keep nothing from one to the next, and any number of threads may make them at once. */
#ifndef RCAP_H
#define RCAP_H

#include <stddef.h>
#include <stdint.h>

#ifdef __cplusplus
extern "C" {
#endif

/* The stack that a call takes at most, in bytes, with a margin. Only nesting takes much: 199 nested `if` take nearly 600,000
 * bytes, and a program of a usual form 20,000. */
#define RCAP_STACK 1048576

/* The texts that are read at most, in bytes. Longer ones are answered by RCAP_PAST_A_LIMIT. */
#define RCAP_SOURCE_LIMIT 1048576
#define RCAP_DERIVATION_LIMIT 33554432
#define RCAP_SCHEDULE_LIMIT 1048576

/* What a call answers. No other number comes. */
enum rcap_status {
    RCAP_DONE = 0,
    RCAP_NO_DERIVATION = 1,       /* the source has no derivation */
    RCAP_NO_COMMAND = 2,          /* the place or the count that is given is none */
    RCAP_BAD_SYNTAX = 3,          /* the source has no tokens, or its tokens no tree */
    RCAP_BAD_NAMES = 4,           /* the names of the source */
    RCAP_NO_DERIVATION_TEXT = 5,  /* the derivation's text is not of its form */
    RCAP_NOT_VALID = 6,           /* the derivation is not one of the source */
    RCAP_NO_SCHEDULE_TEXT = 7,    /* the schedule's text is not of its form */
    RCAP_PAST_A_LIMIT = 8,        /* a limit is passed */
    RCAP_OUT_OF_MEMORY = 11,      /* memory ran out, which says nothing of the texts */
    RCAP_TEXT_TOO_LONG = 12,      /* a text grew too long in the run */
    RCAP_NO_TURNS = 15            /* the schedule has no two turns at the place */
};

/* Which text a place is in. */
enum rcap_text {
    RCAP_NOWHERE = 0,  /* in none: the line points at no byte, or there is no line */
    RCAP_SOURCE = 1,
    RCAP_SCHEDULE = 2
};

/* The byte at which the line points, and the end of the piece of the text that starts there: of what is refused in the source, or of
 * the word of the schedule. A piece may be empty, as at the end of a text. All are 0 if the line points at no byte. */
struct rcap_place {
    size_t text;        /* an rcap_text */
    size_t line;        /* one more than the number of line ends before the byte */
    size_t column;      /* one more than the number of bytes since the last of them */
    size_t offset;      /* the number of bytes before it */
    size_t end_line;    /* the same of the end: one more than the number of line ends before it */
    size_t end_column;
    size_t end_offset;  /* the number of bytes up to the end */
};

/* What a call answers beside its status and its texts. */
struct rcap_answer {
    size_t out_length;  /* of the whole text, whether or not there was room for it */
    size_t err_length;  /* of the whole line, whether or not there was room for it */
    struct rcap_place place;
};

/* Looks for a derivation of the source, and writes it. */
unsigned char rcap_check(const unsigned char *source, size_t source_length,
                         unsigned char *out, size_t out_capacity,
                         unsigned char *err, size_t err_capacity,
                         struct rcap_answer *answer);

/* Says whether a text, wherever it comes from, is a derivation of the source: writes `accepted` and a line end. */
unsigned char rcap_judge(const unsigned char *source, size_t source_length,
                         const unsigned char *derivation, size_t derivation_length,
                         unsigned char *out, size_t out_capacity,
                         unsigned char *err, size_t err_capacity,
                         struct rcap_answer *answer);

/* Judges as rcap_judge does, and writes the derivation in version 2 of its text: a line for each node, with its note. */
unsigned char rcap_upgrade(const unsigned char *source, size_t source_length,
                           const unsigned char *derivation, size_t derivation_length,
                           unsigned char *out, size_t out_capacity,
                           unsigned char *err, size_t err_capacity,
                           struct rcap_answer *answer);

/* Checks the source, and writes what it prints over the schedule, and the run's numbers. */
unsigned char rcap_run(const unsigned char *source, size_t source_length,
                       const unsigned char *schedule, size_t schedule_length,
                       unsigned char *out, size_t out_capacity,
                       unsigned char *err, size_t err_capacity,
                       struct rcap_answer *answer);

/* Prints the source in one layout. */
unsigned char rcap_show(const unsigned char *source, size_t source_length,
                        unsigned char *out, size_t out_capacity,
                        unsigned char *err, size_t err_capacity,
                        struct rcap_answer *answer);

/* Checks the source, and writes each access to a field over the schedule, with its clock. */
unsigned char rcap_trace(const unsigned char *source, size_t source_length,
                         const unsigned char *schedule, size_t schedule_length,
                         unsigned char *out, size_t out_capacity,
                         unsigned char *err, size_t err_capacity,
                         struct rcap_answer *answer);

/* Checks the source, and exchanges the turns of the schedule at a place and at the next, or says why they stay. Places are
 * counted from 1, up to 9,999,999. */
unsigned char rcap_swap(const unsigned char *source, size_t source_length,
                        const unsigned char *schedule, size_t schedule_length,
                        uint32_t place,
                        unsigned char *out, size_t out_capacity,
                        unsigned char *err, size_t err_capacity,
                        struct rcap_answer *answer);

/* Checks the source, and writes which entity may send which message in any run, and what is never sent. */
unsigned char rcap_sends(const unsigned char *source, size_t source_length,
                         unsigned char *out, size_t out_capacity,
                         unsigned char *err, size_t err_capacity,
                         struct rcap_answer *answer);

/* Checks the source, and writes the schedule that a seed chooses for it, as one line. */
unsigned char rcap_schedule(const unsigned char *source, size_t source_length,
                            uint64_t seed,
                            unsigned char *out, size_t out_capacity,
                            unsigned char *err, size_t err_capacity,
                            struct rcap_answer *answer);

/* Checks the source, and writes what it prints over the schedule that a seed chooses, and the run's numbers. */
unsigned char rcap_play(const unsigned char *source, size_t source_length,
                        uint64_t seed,
                        unsigned char *out, size_t out_capacity,
                        unsigned char *err, size_t err_capacity,
                        struct rcap_answer *answer);

/* Checks the source, and writes each different outcome of the plays of the seeds below a count once. A count is from 1 to 10,000. */
unsigned char rcap_outcomes(const unsigned char *source, size_t source_length,
                            uint32_t count,
                            unsigned char *out, size_t out_capacity,
                            unsigned char *err, size_t err_capacity,
                            struct rcap_answer *answer);

/* Writes the entities, fields, methods, slots and nodes of the source's core, with their places in it. */
unsigned char rcap_places(const unsigned char *source, size_t source_length,
                          unsigned char *out, size_t out_capacity,
                          unsigned char *err, size_t err_capacity,
                          struct rcap_answer *answer);

/* Checks the source, and writes each event of its run over the schedule, with its clock. */
unsigned char rcap_events(const unsigned char *source, size_t source_length,
                          const unsigned char *schedule, size_t schedule_length,
                          unsigned char *out, size_t out_capacity,
                          unsigned char *err, size_t err_capacity,
                          struct rcap_answer *answer);

/* Explains why the source is refused with RCAP_NO_DERIVATION or RCAP_BAD_NAMES: writes the line of the refusal, the piece of the source at
 * which it points, and the rule that refuses it. If the source is accepted, writes `accepted` and a line end. Both are RCAP_DONE, so the
 * status says nothing of the source. What rcap_check refuses otherwise is refused as there. */
unsigned char rcap_explain(const unsigned char *source, size_t source_length,
                           unsigned char *out, size_t out_capacity,
                           unsigned char *err, size_t err_capacity,
                           struct rcap_answer *answer);

#ifdef __cplusplus
}
#endif

#endif
