/* Writes an image of messages as it adds them, and loads one again:
 *
 *     image save FILE SEGMENTS DOCS TERMS < messages
 *     image load FILE < queries
 *
 * FILE is what `earlybird save` writes, and `load` prints what `earlybird load` prints. The image is written beside FILE and then
 * renamed, so that who reads it never finds half of one. The statuses are those of the program. */
#include "earlybird.h"
#include <inttypes.h>
#include <stdio.h>
#include <stdlib.h>
#include <string.h>
#include <sys/types.h>

#define MOST_IDS 1000
#define PIECE 65536 /* more than the longest part */

static const struct eb_reading plain = EB_PLAIN_READING;
static uint64_t *words;
static size_t size;
static struct eb_index numbers;
static unsigned char piece[PIECE];

static int went_wrong(const char *why) {
    fprintf(stderr, "image: %s\n", why);
    return 2;
}

static int begins(uint32_t segments, uint32_t docs, uint32_t terms) {
    size = eb_words(segments, docs, terms);
    words = malloc(size * sizeof *words);
    return size > 0 && words != NULL && eb_begin(words, size, &numbers, segments, docs, terms) == EB_OK;
}

/* The next line of the input without its end; its length is 0 where the input has ended, and where the line is empty. */
static size_t next_line(char **line, size_t *room, int *ended) {
    ssize_t got = getline(line, room, stdin);
    *ended = got <= 0;
    size_t len = *ended ? 0 : (size_t)got;
    if (len > 0 && (*line)[len - 1] == '\n')
        len--;
    return len > 0 && len <= 65536 && (*line)[len - 1] == '\r' ? len - 1 : len;
}

static int save(const char *path, uint32_t segments, uint32_t docs, uint32_t terms) {
    char *line = NULL, *beside = malloc(strlen(path) + 5);
    size_t room = 0, len;
    uint64_t part_len, refused = 0, taken;
    int ended;
    if (beside == NULL || !begins(segments, docs, terms) || eb_image_head(segments, docs, terms, piece, PIECE) != EB_OK)
        return went_wrong("no index of this setting");
    FILE *image = fopen(strcat(strcpy(beside, path), ".new"), "wb");
    if (image == NULL)
        return went_wrong("no image there");
    fwrite(piece, 1, EB_HEAD_LEN, image);
    while (len = next_line(&line, &room, &ended), !ended) {
        if (len == 0)
            continue;
        /* what is added is what the part says, so the image has exactly what the index has */
        uint32_t done = eb_part_of_line(&plain, (const unsigned char *)line, len, piece, PIECE, &part_len);
        if (done == EB_OK)
            done = eb_add_part(words, size, &numbers, piece, part_len, &taken);
        if (done == EB_OK)
            fwrite(piece, 1, part_len, image);
        else
            refused++;
    }
    fputc(0, image);
    int wrong = ferror(image);
    wrong |= fclose(image);
    if (wrong || rename(beside, path) != 0)
        return went_wrong("the image isn't written");
    free(beside);
    free(line);
    return refused > 0;
}

/* Makes an index of an image, whose bytes come in pieces. */
static uint32_t load(FILE *image) {
    size_t at = 0, len = 0;
    uint32_t segments, docs, terms, done = EB_MORE_BYTES;
    uint64_t taken;
    for (;;) {
        if (done == EB_MORE_BYTES) {
            memmove(piece, piece + at, len - at);
            len -= at, at = 0;
            size_t got = fread(piece + len, 1, PIECE - len, image);
            if (got == 0)
                return done;
            len += got;
        }
        if (words == NULL) {
            done = eb_image_setting(piece, len, &segments, &docs, &terms);
            if (done == EB_OK && !begins(segments, docs, terms))
                return EB_NO_MEMORY;
            at = done == EB_OK ? EB_HEAD_LEN : 0;
        } else {
            done = eb_add_part(words, size, &numbers, piece + at, len - at, &taken);
            at += taken;
        }
        if (done != EB_OK && done != EB_MORE_BYTES)
            return done == EB_IMAGE_END ? EB_OK : done;
    }
}

static int ask(void) {
    char *line = NULL;
    size_t room = 0, len;
    uint64_t number = 0, queries = 0, refused = 0, ids[MOST_IDS];
    struct eb_answer answer;
    int ended;
    while (len = next_line(&line, &room, &ended), !ended) {
        number++;
        if (len == 0)
            continue;
        uint32_t done = eb_ask_line(words, size, &numbers, (const unsigned char *)line, len, ids, MOST_IDS, &answer);
        if (done == EB_OK) {
            queries++;
            printf("%" PRIu64 " seen %" PRIu64 ":", number, answer.seen);
            for (uint64_t at = 0; at < answer.written; at++)
                printf(" %" PRIu64, ids[at]);
            putchar('\n');
        } else {
            refused++;
            printf("%" PRIu64 " refused: %s", number, eb_name(done));
            if (done == EB_BAD_QUERY)
                printf(" at %" PRIu64, answer.column);
            putchar('\n');
        }
    }
    printf("end: documents %" PRIu64 ", queries %" PRIu64 ", refused %" PRIu64 "\n", eb_documents(&numbers), queries, refused);
    free(line);
    return refused > 0;
}

int main(int argc, char **argv) {
    int status;
    if (argc == 6 && strcmp(argv[1], "save") == 0) {
        status = save(argv[2], (uint32_t)strtoul(argv[3], NULL, 10), (uint32_t)strtoul(argv[4], NULL, 10), (uint32_t)strtoul(argv[5], NULL, 10));
    } else if (argc == 3 && strcmp(argv[1], "load") == 0) {
        FILE *image = fopen(argv[2], "rb");
        if (image == NULL)
            return went_wrong("no image there");
        uint32_t done = load(image);
        int more = getc(image) != EOF;
        fclose(image);
        if (done != EB_OK || more)
            return fprintf(stderr, "image: %s\n", eb_name(done == EB_NO_MEMORY ? done : EB_BAD_IMAGE)), done == EB_NO_MEMORY ? 5 : 7;
        status = ask();
    } else {
        return went_wrong("image save FILE SEGMENTS DOCS TERMS, or image load FILE");
    }
    free(words);
    return status;
}
