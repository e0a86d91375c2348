/* How a compiler has its own checker confirmed: the checker writes down a derivation while it types a program, and the library judges
 * that text in the same process. Here the program and what a checker writes for it are fixed. */
#include "rcap.h"

#include <stdio.h>
#include <string.h>

/* Whether the derivation that a checker wrote down is one of the source. If it is not, the checker is wrong, or its text is; the line says
 * what is wrong first. If it is, the program is safe over every schedule, whatever the checker does. */
static int is_confirmed(const char *source, const char *derivation) {
    unsigned char accepted[16], line[128];
    struct rcap_answer answer;
    unsigned char status = rcap_judge((const unsigned char *)source, strlen(source),
                                      (const unsigned char *)derivation, strlen(derivation),
                                      accepted, sizeof accepted, line, sizeof line, &answer);
    if (status == RCAP_DONE)
        return 1;
    size_t length = answer.err_length < sizeof line ? answer.err_length : sizeof line;
    fprintf(stderr, "internal error: %.*s", (int)length, (const char *)line);
    if (answer.place.text == RCAP_SOURCE)
        fprintf(stderr, "  at byte %zu of the source\n", answer.place.offset);
    return 0;
}

static const char SOURCE[] =
    "class C\n"
    "actor Main\n"
    "  new create(env: Env) =>\n"
    "    let a: C iso = C\n";

/* The slots are `this` of the constructor that C is given, and `this`, `env` and `a` of Main's. Then each node comes after its parts. */
static const char DERIVATION[] =
    "rcap-derivation 1 4 7\n"
    "s 6 ref\n"
    "s 7 ref\n"
    "s 4 val\n"
    "s 6 iso\n"
    "n prim 0 val 1 0 1 0\n"
    "n seq 0 val 1 0 1 0\n"
    "n body - 1 0 1 0\n"
    "n new 6 iso^ 3 0 3 0\n"
    "n define - 3 0 7 0\n"
    "n seq - 3 0 3 0\n"
    "n body - 3 0 3 0\n";

/* The same of a checker that takes a new object for a `val`. */
static const char WRONG[] =
    "rcap-derivation 1 4 7\n"
    "s 6 ref\n"
    "s 7 ref\n"
    "s 4 val\n"
    "s 6 iso\n"
    "n prim 0 val 1 0 1 0\n"
    "n seq 0 val 1 0 1 0\n"
    "n body - 1 0 1 0\n"
    "n new 6 val 3 0 3 0\n"
    "n define - 3 0 7 0\n"
    "n seq - 3 0 3 0\n"
    "n body - 3 0 3 0\n";

int main(void) {
    puts(is_confirmed(SOURCE, DERIVATION) ? "confirmed" : "not confirmed");
    puts(is_confirmed(SOURCE, WRONG) ? "confirmed" : "not confirmed");
    return 0;
}
