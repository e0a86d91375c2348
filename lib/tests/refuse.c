/* Refuses one request for memory of a call, each in turn, and the same with all requests after it. Prints the status of the call, the
 * number of requests, and at how many of them the call had its own answer all the same.
 *
 *   refuse COMMAND SOURCE [BESIDE] [NUMBER]
 *
 * It is linked with -Wl,--wrap=malloc,--wrap=realloc,--wrap=free. A refused call has to answer 11 with no text and no place, and to leave
 * its buffers as they were. If one request alone is refused, another may serve in its place: then all has to be as without a refusal.
 * Each call has to let go of all that it was given. */
#include "calls.h"

#include <stdio.h>
#include <stdlib.h>
#include <string.h>

#define MARK 0xa5
#define ROOM (1 << 15)

void *__real_malloc(size_t size);
void *__real_realloc(void *block, size_t size);
void __real_free(void *block);
void *__wrap_malloc(size_t size);
void *__wrap_realloc(void *block, size_t size);
void __wrap_free(void *block);

/* The number of the request that is refused, counted from 1, or 0; whether all after it are too; the requests so far. */
static unsigned long refused;
static int is_rest_refused;
static unsigned long requests;

/* The blocks that are held. */
static long held;

static int is_refused(void) {
    requests++;
    return refused != 0 && (requests == refused || (requests > refused && is_rest_refused));
}

void *__wrap_malloc(size_t size) {
    void *block = is_refused() ? NULL : __real_malloc(size);
    held += block != NULL;
    return block;
}

void *__wrap_realloc(void *block, size_t size) {
    void *moved = is_refused() ? NULL : __real_realloc(block, size);
    held += block == NULL && moved != NULL;
    return moved;
}

void __wrap_free(void *block) {
    held -= block != NULL;
    __real_free(block);
}

static unsigned char out[ROOM], err[ROOM];
static const struct buffers BUFFERS = {out, ROOM, err, ROOM};

/* What a call answers, and what its buffers have then. */
struct answered {
    unsigned char status;
    struct rcap_answer answer;
    unsigned char out[ROOM], err[ROOM];
};

static struct answered own, now;

/* Makes a call with the requests refused that are set above. */
static void ask(const char *command, const struct texts *texts, struct answered *answered) {
    memset(out, MARK, sizeof out);
    memset(err, MARK, sizeof err);
    memset(&answered->answer, MARK, sizeof answered->answer);
    long before = held;
    requests = 0;
    answered->status = call(command, texts, &BUFFERS, &answered->answer);
    refused = 0;
    if (held != before)
        fail("a block is held after a call");
    memcpy(answered->out, out, sizeof out);
    memcpy(answered->err, err, sizeof err);
}

static int is_own(void) {
    return now.status == own.status && memcmp(&now.answer, &own.answer, sizeof now.answer) == 0 &&
           memcmp(now.out, own.out, sizeof now.out) == 0 && memcmp(now.err, own.err, sizeof now.err) == 0;
}

static int is_out_of_memory(void) {
    static const struct rcap_answer NOTHING;
    return now.status == RCAP_OUT_OF_MEMORY && memcmp(&now.answer, &NOTHING, sizeof now.answer) == 0 &&
           has_only(now.out, sizeof now.out, MARK) && has_only(now.err, sizeof now.err, MARK);
}

int main(int count, char **words) {
    struct texts texts = read_texts(count - 1, words + 1);
    unsigned long asked, served = 0;
    ask(words[1], &texts, &own);
    asked = requests;
    for (int rest = 0; rest < 2; rest++)
        for (unsigned long number = 1; number <= asked; number++) {
            refused = number;
            is_rest_refused = rest;
            ask(words[1], &texts, &now);
            if (!rest && is_own())
                served++;
            else if (!is_out_of_memory())
                fail("a refused call answers something else");
        }
    ask(words[1], &texts, &now);
    if (!is_own())
        fail("another answer after refused calls");
    printf("%u %lu %lu\n", own.status, asked, served);
    free(texts.source);
    free(texts.beside);
    return 0;
}
