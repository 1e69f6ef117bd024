/* Reads messages and queries as `earlybird run` does, one a line, and prints the same. */
#include "earlybird.h"
#include <inttypes.h>
#include <stdio.h>
#include <stdlib.h>
#include <sys/types.h>

#define MOST_IDS 1000

/* A line of `earlybird run`: an answer, or a refusal. */
static void print_answer(uint64_t number, const struct eb_answer *answer, const uint64_t *ids) {
    printf("%" PRIu64 " seen %" PRIu64 ":", number, answer->seen);
    for (uint64_t at = 0; at < answer->written; at++)
        printf(" %" PRIu64, ids[at]);
    putchar('\n');
}

static void print_refusal(uint64_t number, uint32_t refusal, uint64_t column) {
    printf("%" PRIu64 " refused: %s", number, eb_name(refusal));
    if (refusal == EB_BAD_QUERY)
        printf(" at %" PRIu64, column);
    putchar('\n');
}

/* The number of an argument, or the usual one. */
static uint32_t number_of(int argc, char **argv, int at, uint32_t usual) {
    return at < argc ? (uint32_t)strtoul(argv[at], NULL, 10) : usual;
}

int main(int argc, char **argv) {
    uint32_t segments = number_of(argc, argv, 1, 12), docs = number_of(argc, argv, 2, 4096), terms = number_of(argc, argv, 3, 8192);
    size_t size = eb_words(segments, docs, terms);
    uint64_t *words = malloc(size * sizeof *words);
    struct eb_index index;
    if (size == 0 || words == NULL || eb_begin(words, size, &index, segments, docs, terms) != EB_OK) {
        fputs("live: no index of this setting\n", stderr);
        return 2;
    }

    uint64_t number = 0, queries = 0, refused = 0, ids[MOST_IDS];
    char *line = NULL;
    size_t room = 0;
    ssize_t got;
    while ((got = getline(&line, &room, stdin)) > 0) {
        number++;
        size_t len = (size_t)got;
        if (line[len - 1] == '\n')
            len--;
        if (len <= 65536 && len > 0 && line[len - 1] == '\r')
            len--;
        if (len == 0)
            continue;
        const unsigned char *text = (const unsigned char *)line;
        struct eb_answer answer = {0, 0, 0, 0};
        uint32_t done;
        if (line[0] == '?') {
            done = eb_ask_line(words, size, &index, text, len, ids, MOST_IDS, &answer);
            if (done == EB_OK) {
                queries++;
                print_answer(number, &answer, ids);
            }
        } else {
            done = eb_add_line(words, size, &index, text, len);
        }
        if (done != EB_OK) {
            refused++;
            print_refusal(number, done, answer.column);
        }
    }
    printf("end: documents %" PRIu64 ", queries %" PRIu64 ", refused %" PRIu64 "\n", eb_documents(&index), queries, refused);
    free(line);
    free(words);
    return refused > 0;
}
