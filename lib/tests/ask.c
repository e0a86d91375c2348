/* Asks the library, and prints what it answers: a line with the status, both lengths and the place, and then both texts.
 *
 *   ask COMMAND SOURCE [BESIDE] [NUMBER]
 *
 * The call is made with no room, with just enough, with more than enough and with half of it. All answers have to be the same, and
 * each buffer has to be as it was after the part of the text that was laid into it. */
#include "calls.h"

#include <stdio.h>
#include <stdlib.h>
#include <string.h>

/* What buffers have before a call, and how much is looked at after their capacity. */
#define MARK 0xa5
#define MARGIN 64

static unsigned char *make_buffer(size_t capacity) {
    unsigned char *bytes = malloc(capacity + MARGIN);
    if (bytes == NULL)
        fail("no buffer");
    memset(bytes, MARK, capacity + MARGIN);
    return bytes;
}

/* Whether a buffer has as much of the text as there is room for, and nothing else was written. */
static int is_laid(const unsigned char *bytes, size_t capacity, const unsigned char *text, size_t length) {
    size_t laid = length < capacity ? length : capacity;
    return memcmp(bytes, text, laid) == 0 && has_only(bytes + laid, capacity - laid + MARGIN, MARK);
}

/* What the call is to answer, and its texts. */
struct expected {
    unsigned char status;
    struct rcap_answer answer;
    struct buffers whole;
};

static void expect_again(const char *command, const struct texts *texts, const struct expected *expected, size_t out_capacity,
                         size_t err_capacity) {
    struct buffers buffers = {make_buffer(out_capacity), out_capacity, make_buffer(err_capacity), err_capacity};
    struct rcap_answer answer;
    if (call(command, texts, &buffers, &answer) != expected->status || memcmp(&answer, &expected->answer, sizeof answer) != 0)
        fail("another answer with other room");
    if (!is_laid(buffers.out, out_capacity, expected->whole.out, answer.out_length))
        fail("out is not as it was after the text");
    if (!is_laid(buffers.err, err_capacity, expected->whole.err, answer.err_length))
        fail("err is not as it was after the line");
    free(buffers.out);
    free(buffers.err);
}

int main(int count, char **words) {
    const char *command = words[1];
    struct texts texts = read_texts(count - 1, words + 1);
    struct buffers none = {make_buffer(0), 0, make_buffer(0), 0};
    struct expected first;
    first.status = call(command, &texts, &none, &first.answer);
    if (!has_only(none.out, MARGIN, MARK) || !has_only(none.err, MARGIN, MARK))
        fail("a buffer without room was written");

    size_t out_length = first.answer.out_length, err_length = first.answer.err_length;
    struct rcap_answer answer;
    first.whole = (struct buffers){make_buffer(out_length), out_length, make_buffer(err_length), err_length};
    if (call(command, &texts, &first.whole, &answer) != first.status || memcmp(&answer, &first.answer, sizeof answer) != 0)
        fail("another answer with enough room");
    if (!has_only(first.whole.out + out_length, MARGIN, MARK) || !has_only(first.whole.err + err_length, MARGIN, MARK))
        fail("a buffer was written after its capacity");
    expect_again(command, &texts, &first, out_length + 100, err_length + 100);
    expect_again(command, &texts, &first, out_length / 2, err_length / 2);

    printf("%u %zu %zu %zu %zu %zu %zu %zu %zu %zu\n", first.status, out_length, err_length, answer.place.text, answer.place.line,
           answer.place.column, answer.place.offset, answer.place.end_line, answer.place.end_column, answer.place.end_offset);
    fwrite(first.whole.out, 1, out_length, stdout);
    fwrite(first.whole.err, 1, err_length, stdout);
    free(first.whole.out);
    free(first.whole.err);
    free(none.out);
    free(none.err);
    free(texts.source);
    free(texts.beside);
    return 0;
}
