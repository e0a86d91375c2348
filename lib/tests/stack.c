/* Prints how many bytes of stack a call takes: it runs on a thread whose stack was painted, and what is no longer painted is what a
 * thread that does nothing leaves painted as well.
 *
 *   stack COMMAND SOURCE [BESIDE] [NUMBER] */
#define _GNU_SOURCE
#include "calls.h"

#include <pthread.h>
#include <stdio.h>
#include <stdlib.h>
#include <string.h>
#include <sys/mman.h>

#define STACK ((size_t)8 << 20)
#define PAINT 0x5a

static const char *command;
static struct texts texts;

static void *ask(void *nothing) {
    unsigned char none[1];
    struct buffers no_room = {none, 0, none, 0};
    struct rcap_answer answer;
    call(command, &texts, &no_room, &answer);
    return nothing;
}

static void *rest(void *nothing) {
    return nothing;
}

static size_t taken_by(void *(*work)(void *)) {
    pthread_attr_t attributes;
    pthread_t thread;
    unsigned char *stack = mmap(NULL, STACK, PROT_READ | PROT_WRITE, MAP_PRIVATE | MAP_ANONYMOUS, -1, 0);
    if (stack == MAP_FAILED)
        fail("no stack");
    memset(stack, PAINT, STACK);
    pthread_attr_init(&attributes);
    if (pthread_attr_setstack(&attributes, stack, STACK) != 0 || pthread_create(&thread, &attributes, work, NULL) != 0)
        fail("a thread does not start");
    pthread_join(thread, NULL);
    size_t at = 0;
    while (at < STACK && stack[at] == PAINT)
        at++;
    munmap(stack, STACK);
    return STACK - at;
}

int main(int count, char **words) {
    command = words[1];
    texts = read_texts(count - 1, words + 1);
    size_t idle = taken_by(rest);
    printf("%zu\n", taken_by(ask) - idle);
    free(texts.source);
    free(texts.beside);
    return 0;
}
