/* Reduces the queue controller of examples/queue.txt by delayed simulation. From the repository's root:
 *
 *     tools/library.sh
 *     cc -std=c99 -O2 -Iinclude examples/reduce.c target/staticlib/libcapi.a -o target/reduce
 *
 * Then target/reduce prints examples/reduce.out.
 */
#include <inttypes.h>
#include <stdio.h>
#include <stdlib.h>

#include "lucorphane.h"

enum { STATES = 4, LETTERS = 3, START = 0, DELAYED = 2 };

static const uint8_t accept[STATES] = {1, 0, 0, 1};

/* from, letter, to; letter 0 is a write, 1 an answer, 2 anything else */
static const uint8_t moves[] = {
    0, 0, 3, 0, 1, 0, 0, 2, 0, /* 0: nothing waits */
    1, 0, 1, 1, 1, 2, 1, 2, 1, /* 1: a write waits */
    2, 0, 3, 2, 1, 0, 2, 2, 0, /* 2: a write was just answered */
    3, 0, 1, 3, 1, 2, 3, 2, 1, /* 3: a write has just come */
};

/* the automaton, as every call takes it */
#define QUEUE STATES, LETTERS, START, accept, sizeof accept, moves, sizeof moves

/* Gives an accepted answer back. For a refused one it prints what was refused, and ends the program. */
static lucorphane_answer accepted(const char *call, lucorphane_answer answer)
{
    if (answer.number != 0) {
        fprintf(stderr, "%s: refused with number %" PRIu64 ", place %" PRIu64 "\n", call, answer.number, answer.place);
        exit(EXIT_FAILURE);
    }
    return answer;
}

int main(void)
{
    lucorphane_answer size = accepted("positions", lucorphane_positions(STATES, LETTERS, DELAYED));
    size_t entries = (size_t)size.value[0];
    uint32_t *table = malloc(entries * sizeof *table);
    if (table == NULL) {
        fprintf(stderr, "no memory for %zu entries\n", entries);
        return EXIT_FAILURE;
    }
    printf("positions %zu\n", entries);

    lucorphane_answer settled = accepted("settle", lucorphane_settle(QUEUE, DELAYED, table, entries));
    printf("raised %" PRIu64 "\n", settled.value[0]);

    uint8_t related[STATES * STATES];
    lucorphane_answer ones =
        accepted("relation", lucorphane_relation(QUEUE, DELAYED, table, entries, related, sizeof related));
    printf("related %" PRIu64 "\n", ones.value[0]);
    for (int q = 0; q < STATES; q++)
        for (int r = 0; r < STATES; r++)
            if (related[q * STATES + r] == 1)
                printf("pair %d %d\n", q, r);

    uint8_t classes[STATES], marks[STATES], moves_out[sizeof moves];
    lucorphane_answer merged =
        accepted("quotient", lucorphane_quotient(QUEUE, DELAYED, table, entries, classes, sizeof classes, marks,
                                                 sizeof marks, moves_out, sizeof moves_out));
    printf("classes %" PRIu64 " moves %" PRIu64 " start %" PRIu64 "\n", merged.value[0], merged.value[1], merged.value[2]);
    for (int q = 0; q < STATES; q++)
        printf("class %d %d\n", q, classes[q]);
    for (uint64_t c = 0; c < merged.value[0]; c++)
        if (marks[c] == 1)
            printf("accept %" PRIu64 "\n", c);
    for (uint64_t i = 0; i < merged.value[1]; i++)
        printf("move %d %d %d\n", moves_out[3 * i], moves_out[3 * i + 1], moves_out[3 * i + 2]);

    free(table);
    return EXIT_SUCCESS;
}
