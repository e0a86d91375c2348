/* Makes one call from four threads at once, many times, each with buffers of its own and all with the same texts. All answers have to be
 * that of the first call.
 *
 *   threads COMMAND SOURCE [BESIDE] [NUMBER] */
#include "calls.h"

#include <pthread.h>
#include <stdio.h>
#include <stdlib.h>
#include <string.h>

#define THREADS 4
#define CALLS 200

static const char *command;
static struct texts texts;
static unsigned char status;
static struct rcap_answer answer;
static struct buffers first;

static struct buffers make_buffers(void) {
    struct buffers made = {malloc(answer.out_length + 1), answer.out_length, malloc(answer.err_length + 1), answer.err_length};
    if (made.out == NULL || made.err == NULL)
        fail("no buffers");
    return made;
}

static void *ask(void *nothing) {
    struct buffers own = make_buffers();
    for (int i = 0; i < CALLS; i++) {
        struct rcap_answer again;
        memset(own.out, 0, own.out_capacity);
        memset(own.err, 0, own.err_capacity);
        if (call(command, &texts, &own, &again) != status || memcmp(&again, &answer, sizeof again) != 0)
            fail("a thread is answered otherwise");
        if (memcmp(own.out, first.out, answer.out_length) != 0 || memcmp(own.err, first.err, answer.err_length) != 0)
            fail("a thread is given other texts");
    }
    free(own.out);
    free(own.err);
    return nothing;
}

int main(int count, char **words) {
    unsigned char none[1];
    struct buffers no_room = {none, 0, none, 0};
    pthread_t threads[THREADS];
    command = words[1];
    texts = read_texts(count - 1, words + 1);
    call(command, &texts, &no_room, &answer);
    first = make_buffers();
    status = call(command, &texts, &first, &answer);
    for (int i = 0; i < THREADS; i++)
        if (pthread_create(&threads[i], NULL, ask, NULL) != 0)
            fail("a thread does not start");
    for (int i = 0; i < THREADS; i++)
        pthread_join(threads[i], NULL);
    printf("%u\n", status);
    free(first.out);
    free(first.err);
    free(texts.source);
    free(texts.beside);
    return 0;
}
