/* Reads messages and queries as `earlybird run` does with its options, and prints the same. Its words are the kind of index (lent,
 * shared or feed), the names of the fields, how texts are cut (words or pieces), and the names of the members that are the id and the
 * text; an empty word is as no option. */
#include "earlybird.h"
#include <inttypes.h>
#include <stdio.h>
#include <stdlib.h>
#include <string.h>
#include <sys/types.h>

#define MOST_IDS 1000
#define SEGMENTS 2
#define DOCS 100
#define TERMS 1024

/* An index of each kind. The handle that adds is a writer's or a leader's, and the one that asks a reader's or a follower's. */
enum kind { LENT, SHARED, FEED };

static enum kind kind;
static uint64_t *words;
static size_t size;
static struct eb_index numbers;
static struct eb_handle adds, asks, converter;
static struct eb_reading how = EB_PLAIN_READING;

static uint32_t open_index(void) {
    if (kind == SHARED) {
        uint32_t done = eb_open(&adds, &converter, SEGMENTS, DOCS, TERMS);
        return done != EB_OK ? done : eb_reader(&adds, &asks);
    }
    if (kind == FEED) {
        uint32_t done = eb_stream_open(&adds, SEGMENTS, DOCS, TERMS, 2);
        return done != EB_OK ? done : eb_follower(&adds, &asks);
    }
    size = eb_words(SEGMENTS, DOCS, TERMS);
    words = malloc(size * sizeof *words);
    return words == NULL ? EB_NO_MEMORY : eb_begin(words, size, &numbers, SEGMENTS, DOCS, TERMS);
}

static uint32_t add(const unsigned char *line, size_t len) {
    if (kind == SHARED)
        return eb_writer_add_line_with(&adds, &how, line, len);
    if (kind == FEED)
        return eb_leader_add_line_with(&adds, &how, line, len);
    return eb_add_line_with(words, size, &numbers, &how, line, len);
}

static uint32_t ask(const unsigned char *line, size_t len, uint64_t *ids, struct eb_answer *answer) {
    if (kind == SHARED)
        return eb_reader_ask_line_with(&asks, &how, line, len, ids, MOST_IDS, answer);
    if (kind == FEED)
        return eb_follower_ask_line_with(&asks, &how, line, len, ids, MOST_IDS, answer);
    return eb_ask_line_with(words, size, &numbers, &how, line, len, ids, MOST_IDS, answer);
}

static void set(const unsigned char **name, size_t *len, const char *word) {
    *name = (const unsigned char *)word;
    *len = strlen(word);
}

int main(int argc, char **argv) {
    if (argc != 6) {
        fputs("reading KIND FIELDS WORDS ID TEXT\n", stderr);
        return 2;
    }
    kind = strcmp(argv[1], "feed") == 0 ? FEED : strcmp(argv[1], "shared") == 0 ? SHARED : LENT;
    set(&how.fields, &how.fields_len, argv[2]);
    how.words = strcmp(argv[3], "pieces") == 0 ? EB_PIECES : EB_WORDS;
    set(&how.id, &how.id_len, argv[4]);
    set(&how.text, &how.text_len, argv[5]);
    if (eb_check_reading(&how) != EB_OK || open_index() != EB_OK) {
        fputs("reading: no index that reads so\n", stderr);
        return 2;
    }

    uint64_t number = 0, documents = 0, queries = 0, refused = 0, ids[MOST_IDS];
    char *line = NULL;
    size_t room = 0;
    ssize_t got;
    while ((got = getline(&line, &room, stdin)) > 0) {
        number++;
        size_t len = (size_t)got;
        if (line[len - 1] == '\n')
            len--;
        if (len == 0)
            continue;
        struct eb_answer answer = {0, 0, 0, 0};
        uint32_t done;
        if (line[0] == '?') {
            done = ask((const unsigned char *)line, len, ids, &answer);
            if (done == EB_OK) {
                queries++;
                printf("%" PRIu64 " seen %" PRIu64 ":", number, answer.seen);
                for (uint64_t at = 0; at < answer.written; at++)
                    printf(" %" PRIu64, ids[at]);
                putchar('\n');
            }
        } else {
            done = add((const unsigned char *)line, len);
            documents += done == EB_OK;
        }
        if (done != EB_OK) {
            refused++;
            printf("%" PRIu64 " refused: %s", number, eb_name(done));
            if (done == EB_BAD_QUERY)
                printf(" at %" PRIu64, answer.column);
            putchar('\n');
        }
    }
    printf("end: documents %" PRIu64 ", queries %" PRIu64 ", refused %" PRIu64 "\n", documents, queries, refused);
    eb_close(&asks);
    eb_close(&adds);
    eb_close(&converter);
    free(line);
    free(words);
    return refused > 0;
}
