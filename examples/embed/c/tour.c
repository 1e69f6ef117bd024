/* Fields, a watch, a count and an image: what this prints is tour.txt, as the programs of the same name in the other languages do. */
#include "earlybird.h"
#include <inttypes.h>
#include <stdio.h>
#include <stdlib.h>
#include <string.h>

static const char *const lines[] = {
    "{\"id\":100,\"text\":\"com.acme.billing failed\",\"level\":\"error\"}",
    "{\"id\":130,\"text\":\"payment went through\",\"level\":\"info\"}",
    "{\"id\":160,\"text\":\"billing failed again\",\"level\":\"error\"}",
};

static unsigned char image[4096];

static const unsigned char *bytes(const char *text) { return (const unsigned char *)text; }

int main(void) {
    size_t size = eb_words(1, 1000, 1024);
    uint64_t *words = malloc(size * sizeof *words), ids[10], buckets[2], column;
    uint32_t numbers[10];
    struct eb_index index;
    struct eb_handle watches = {NULL, 0};
    struct eb_reading how = EB_PLAIN_READING;
    how.fields = bytes("level"), how.fields_len = 5;
    how.words = EB_PIECES;
    if (words == NULL || eb_begin(words, size, &index, 1, 1000, 1024) != EB_OK || eb_watches(&watches) != EB_OK)
        return 1;

    /* an image keeps the setting, and the part of each message */
    size_t end = EB_HEAD_LEN;
    uint64_t part, taken;
    if (eb_image_head(1, 1000, 1024, image, sizeof image) != EB_OK)
        return 1;

    /* each message tells which watches it matches */
    if (eb_watch_set(&watches, &how, 7, bytes("level:error billing"), 19, &column) != EB_OK)
        return 1;
    for (size_t at = 0; at < sizeof lines / sizeof *lines; at++) {
        struct eb_told told;
        size_t len = strlen(lines[at]);
        if (eb_watches_tell_line(&watches, &how, bytes(lines[at]), len, numbers, 10, &told) != EB_OK)
            return 1;
        if (eb_part_of_line(&how, bytes(lines[at]), len, image + end, sizeof image - end, &part) != EB_OK)
            return 1;
        if (eb_add_part(words, size, &index, image + end, part, &taken) != EB_OK)
            return 1;
        end += part;
        for (uint64_t which = 0; which < told.written; which++)
            printf("message %zu matches watch %" PRIu32 "\n", at, numbers[which]);
    }

    /* a word by one of its pieces, and a field */
    struct eb_answer answer;
    if (eb_ask_text_with(words, size, &index, &how, 10, bytes("acme OR level:info"), 18, ids, 10, &answer) != EB_OK)
        return 1;
    printf("found:");
    for (uint64_t at = 0; at < answer.written; at++)
        printf(" %" PRIu64, ids[at]);
    putchar('\n');

    /* how many there are, and when: the ids are times */
    struct eb_count count;
    if (eb_count_text_with(words, size, &index, &how, bytes("level:error"), 11, 100, 60, buckets, 2, &count) != EB_OK)
        return 1;
    printf("errors: %" PRIu64 ", by the minute: %" PRIu64 " %" PRIu64 "\n", count.total, buckets[0], buckets[1]);

    /* the image, which the byte 0 ends, makes another index: here in the same memory */
    image[end++] = 0;
    uint32_t segments, docs, terms, done;
    if (eb_image_setting(image, end, &segments, &docs, &terms) != EB_OK || eb_begin(words, size, &index, segments, docs, terms) != EB_OK)
        return 1;
    size_t at = EB_HEAD_LEN;
    while ((done = eb_add_part(words, size, &index, image + at, end - at, &taken)) == EB_OK)
        at += taken;
    if (done != EB_IMAGE_END || eb_ask_text_with(words, size, &index, &how, 10, bytes("failed"), 6, ids, 10, &answer) != EB_OK)
        return 1;
    printf("from the image:");
    for (uint64_t which = 0; which < answer.written; which++)
        printf(" %" PRIu64, ids[which]);
    putchar('\n');
    eb_close(&watches);
    free(words);
    return 0;
}
