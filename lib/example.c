/* Checks a file, and prints its derivation, or the place at which it is refused and why.
 *
 *   example FILE */
#include "rcap.h"

#include <stdio.h>
#include <stdlib.h>

/* How much room there is for the line of a refusal; the longest names a limit. */
#define LINE_ROOM 128

struct text {
    unsigned char *bytes;
    size_t length;
};

/* All bytes of a file. One more is allocated than there are, so that the pointer is not null for an empty file. */
static int read_file(const char *name, struct text *text) {
    size_t room = 4096;
    FILE *file = fopen(name, "rb");
    text->bytes = malloc(room);
    text->length = 0;
    while (file != NULL && text->bytes != NULL && !feof(file) && !ferror(file)) {
        text->length += fread(text->bytes + text->length, 1, room - text->length, file);
        if (text->length == room) {
            unsigned char *more = realloc(text->bytes, room *= 2);
            if (more == NULL)
                free(text->bytes);
            text->bytes = more;
        }
    }
    int is_read = file != NULL && text->bytes != NULL && !ferror(file);
    if (file != NULL)
        fclose(file);
    return is_read;
}

/* Prints the line of the source that has the place, and below it a mark under each byte of the piece that starts there, as far as the line
 * goes. An empty piece has one mark. */
static void print_place(const struct text *source, const struct rcap_place *place) {
    size_t start = place->offset - (place->column - 1);
    size_t end = place->offset;
    while (end < source->length && source->bytes[end] != '\n')
        end++;
    printf("%.*s\n%*s^", (int)(end - start), (const char *)source->bytes + start, (int)(place->column - 1), "");
    for (size_t at = place->offset + 1; at < place->end_offset && at < end; at++)
        putchar('^');
    putchar('\n');
}

/* A call of a source alone. */
typedef unsigned char source_call(const unsigned char *source, size_t source_length, unsigned char *out, size_t out_capacity,
                                  unsigned char *err, size_t err_capacity, struct rcap_answer *answer);

/* What a call answers. A line that is longer than the room for it is cut. */
struct reply {
    unsigned char status;
    struct text out;
    unsigned char line[LINE_ROOM];
    struct rcap_answer answer;
};

/* Makes a call with as much room as its text takes. A first call, without room, asks how much that is. */
static struct reply ask(source_call *call, const struct text *source) {
    struct reply reply;
    unsigned char none[1];
    reply.status = call(source->bytes, source->length, none, 0, reply.line, sizeof reply.line, &reply.answer);
    size_t room = reply.answer.out_length;
    reply.out.bytes = malloc(room + 1);
    if (reply.out.bytes == NULL)
        reply.status = RCAP_OUT_OF_MEMORY;
    else if (room > 0)
        reply.status = call(source->bytes, source->length, reply.out.bytes, room, reply.line, sizeof reply.line, &reply.answer);
    reply.out.length = reply.answer.out_length;
    return reply;
}

/* Prints the place at which a source is refused, and its explanation. Bad syntax and a limit have none: then the line of the refusal is
 * printed, and the line of the source that has the place. */
static void print_refusal(const char *name, const struct text *source, const struct reply *checked) {
    const struct rcap_place *place = &checked->answer.place;
    struct reply explained = ask(rcap_explain, source);
    printf("%s: status %u, line %zu, column %zu, bytes %zu to %zu\n", name, checked->status, place->line, place->column, place->offset,
           place->end_offset);
    if (explained.status == RCAP_DONE) {
        fwrite(explained.out.bytes, 1, explained.out.length, stdout);
    } else {
        size_t length = checked->answer.err_length;
        fwrite(checked->line, 1, length < LINE_ROOM ? length : LINE_ROOM, stdout);
        if (place->text == RCAP_SOURCE)
            print_place(source, place);
    }
    free(explained.out.bytes);
}

int main(int count, char **words) {
    struct text source;
    if (count != 2 || !read_file(words[1], &source)) {
        fprintf(stderr, "example FILE\n");
        return 2;
    }

    struct reply checked = ask(rcap_check, &source);
    if (checked.status == RCAP_DONE)
        fwrite(checked.out.bytes, 1, checked.out.length, stdout);
    else if (checked.status == RCAP_OUT_OF_MEMORY)
        puts("out of memory");
    else
        print_refusal(words[1], &source, &checked);
    free(checked.out.bytes);
    free(source.bytes);
    return checked.status;
}
