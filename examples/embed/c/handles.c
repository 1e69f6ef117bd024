/* Handles that are closed, of another kind, closed twice or made anew, in every order; lengths of 0, with null pointers too; texts
 * that aren't UTF-8; rooms for ids that are named as large as a number goes; a thousand hand-overs from reader to reader; and each
 * allocation failing in turn. To be linked with -Wl,--wrap=malloc. */
#include "expect.h"

static uint32_t add(struct eb_handle *writer, uint64_t id, const char *text) {
    return eb_writer_add_text(writer, id, bytes(text), strlen(text));
}

static struct eb_answer answer;
static uint64_t ids[10];

static uint32_t ask(struct eb_handle *reader, const char *query) {
    return eb_reader_ask_text(reader, 10, bytes(query), strlen(query), ids, 10, &answer);
}

/* Calls on a handle that leads to nothing, and to each kind. */
static void refused(void) {
    struct eb_handle none = {NULL, 0}, writer = {NULL, 0}, converter = {NULL, 0}, reader = {NULL, 0};
    uint64_t seen = 77;
    uint32_t packed = 77;
    EXPECT(add(&none, 1, "train"), EB_BAD_HANDLE);
    EXPECT(eb_writer_add_line(&none, bytes("{}"), 2), EB_BAD_HANDLE);
    EXPECT(ask(&none, "train"), EB_BAD_HANDLE);
    EXPECT(eb_reader_ask_line(&none, bytes("?1 a"), 4, ids, 10, &answer), EB_BAD_HANDLE);
    EXPECT(eb_reader(&none, &reader), EB_BAD_HANDLE);
    EXPECT(eb_reader_seen(&none, &seen), EB_BAD_HANDLE);
    EXPECT(eb_converter_convert(&none, &packed), EB_BAD_HANDLE);
    eb_close(&none);
    EXPECT(eb_open(&writer, &converter, 0, 4, 1024), EB_BAD_SETTING);
    EXPECT(eb_open(&writer, &converter, 2, 4, 1024), EB_OK);
    EXPECT(eb_open(&writer, &none, 2, 4, 1024), EB_BAD_HANDLE);
    EXPECT(eb_open(&none, &converter, 2, 4, 1024), EB_BAD_HANDLE);
    EXPECT(none.kind, 0);
    EXPECT(eb_reader(&converter, &reader), EB_BAD_HANDLE);
    EXPECT(eb_reader(&writer, &converter), EB_BAD_HANDLE);
    EXPECT(eb_reader(&writer, &reader), EB_OK);
    EXPECT(eb_reader(&writer, &reader), EB_BAD_HANDLE);
    EXPECT(add(&reader, 1, "train"), EB_BAD_HANDLE);
    EXPECT(add(&converter, 1, "train"), EB_BAD_HANDLE);
    EXPECT(ask(&writer, "train"), EB_BAD_HANDLE);
    EXPECT(ask(&converter, "train"), EB_BAD_HANDLE);
    EXPECT(eb_reader_seen(&writer, &seen), EB_BAD_HANDLE);
    EXPECT(seen, 77);
    EXPECT(eb_converter_convert(&reader, &packed), EB_BAD_HANDLE);
    EXPECT(packed, 77);
    EXPECT(answer.seen + answer.count + answer.column + answer.written, 0);
    EXPECT(add(&writer, 1, "train"), EB_OK);
    EXPECT(ask(&reader, "train"), EB_OK);
    EXPECT(answer.seen, 1);
    eb_close(&writer);
    eb_close(&writer);
    EXPECT(writer.kind, 0);
    EXPECT(add(&writer, 2, "train"), EB_BAD_HANDLE);
    EXPECT(ask(&reader, "train"), EB_OK);
    EXPECT(answer.seen, 1);
    eb_close(&converter);
    eb_close(&reader);
    eb_close(&reader);
    EXPECT(ask(&reader, "train"), EB_BAD_HANDLE);
    EXPECT(eb_open(&writer, &converter, 2, 4, 1024), EB_OK);
    EXPECT(eb_reader(&writer, &reader), EB_OK);
    EXPECT(ask(&reader, "train"), EB_OK);
    EXPECT(answer.seen, 0);
    EXPECT(eb_open(&writer, &converter, 2, 4, 1024), EB_BAD_HANDLE);
    eb_close(&reader);
    eb_close(&converter);
    eb_close(&writer);
}

/* Null pointers where nothing is named: the header asks for others, but a program that passes them is answered all the same. */
static void nothing_named(void) {
    struct eb_handle writer = {NULL, 0}, converter = {NULL, 0}, reader = {NULL, 0};
    EXPECT(eb_open(&writer, &converter, 2, 2, 1024), EB_OK);
    EXPECT(eb_writer_add_text(&writer, 1, NULL, 0), EB_OK);
    EXPECT(eb_writer_add_line(&writer, NULL, 0), EB_BAD_LINE);
    EXPECT(add(&writer, 2, "train"), EB_OK);
    EXPECT(eb_reader(&writer, &reader), EB_OK);
    EXPECT(eb_reader_ask_text(&reader, 1, bytes("train"), 5, NULL, 0, &answer), EB_OK);
    EXPECT(answer.seen * 10 + answer.count, 21);
    EXPECT(eb_reader_ask_text(&reader, 1, NULL, 0, NULL, 0, &answer), EB_BAD_QUERY);
    EXPECT(answer.column, 1);
    EXPECT(eb_reader_ask_line(&reader, NULL, 0, NULL, 0, &answer), EB_BAD_LINE);
    eb_close(&writer);
    EXPECT(eb_writer_add_text(&writer, 3, NULL, 0), EB_BAD_HANDLE);
    eb_close(&converter);
    eb_close(&reader);
}

/* Texts and rooms at their ends. */
static void at_the_ends(void) {
    struct eb_count count;
    uint64_t buckets[2];
    struct eb_handle writer = {NULL, 0}, converter = {NULL, 0}, reader = {NULL, 0};
    uint64_t seen = 0;
    EXPECT(eb_open(&writer, &converter, 2, 2, 1024), EB_OK);
    EXPECT(eb_reader(&writer, &reader), EB_OK);
    EXPECT(eb_writer_add_text(&writer, 1, bytes(""), 0), EB_OK);
    EXPECT(eb_writer_add_line(&writer, bytes(""), 0), EB_BAD_LINE);
    EXPECT(add(&writer, 2, "\xff"), EB_BAD_TEXT);
    EXPECT(eb_writer_add_line(&writer, bytes("{\"id\":2,\"text\":\"\xff\"}"), 19), EB_BAD_JSON);
    EXPECT(eb_writer_add_line(&writer, bytes("{\"id\":2}"), 8), EB_BAD_DOCUMENT);
    EXPECT(add(&writer, 2, "late train"), EB_OK);
    EXPECT(add(&writer, 3, "train"), EB_OK);
    EXPECT(add(&writer, 4, "train"), EB_OK);
    EXPECT(add(&writer, 5, "train"), EB_FULL);
    EXPECT(ask(&reader, "\xff"), EB_BAD_TEXT);
    EXPECT(ask(&reader, ""), EB_BAD_QUERY);
    EXPECT(answer.column, 1);
    EXPECT(eb_reader_ask_line(&reader, bytes(""), 0, ids, 10, &answer), EB_BAD_LINE);
    EXPECT(eb_reader_ask_line(&reader, bytes("?1 \xff"), 4, ids, 10, &answer), EB_BAD_LINE);
    EXPECT(ask(&reader, "train -"), EB_BAD_QUERY);
    EXPECT(answer.column, 8);
    EXPECT(eb_reader_ask_text(&reader, 0, bytes("train"), 5, ids, 10, &answer), EB_BAD_NUMBER);
    EXPECT(eb_reader_seen(&reader, &seen), EB_OK);
    EXPECT(seen, 0);
    EXPECT(eb_reader_ask_text(&reader, 10, bytes("train"), 5, ids, 0, &answer), EB_OK);
    EXPECT(answer.seen, 4);
    EXPECT(answer.count, 3);
    EXPECT(eb_reader_seen(&reader, &seen), EB_OK);
    EXPECT(seen, 4);
    EXPECT(eb_reader_ask_line(&reader, bytes("?2 train"), 8, ids, 10, &answer), EB_OK);
    EXPECT(answer.count, 2);
    EXPECT(ids[0] * 10 + ids[1], 43);
    EXPECT(eb_reader_ask_text(&reader, 10, bytes("train"), 5, ids, SIZE_MAX, &answer), EB_OK);
    EXPECT(answer.count, 3);
    EXPECT(ids[2], 2);
    EXPECT(eb_reader_count_text(&reader, bytes("train"), 5, 2, 2, buckets, 2, &count), EB_OK); /* the ids 2 and 3, and 4 */
    EXPECT(count.seen * 1000 + count.total * 100 + buckets[0] * 10 + buckets[1], 4321);
    EXPECT(eb_reader_count_text(&reader, bytes("train"), 5, 2, 0, buckets, 2, &count), EB_BAD_NUMBER);
    EXPECT(count.seen * 10 + count.total, 0);
    EXPECT(buckets[0] * 10 + buckets[1], 21);
    EXPECT(eb_reader_count_text(&writer, bytes("train"), 5, 2, 2, buckets, 2, &count), EB_BAD_HANDLE);
    EXPECT(eb_reader_ask_line(&reader, bytes("?1 train"), 8, ids, SIZE_MAX, &answer), EB_OK);
    EXPECT(answer.count, 1);
    eb_close(&reader);
    eb_close(&writer);
    eb_close(&converter);
}

/* Handles of one index are closed in each of the orders, and what is left goes on. */
static void closed_in_every_order(void) {
    static const int orders[6][3] = {{0, 1, 2}, {0, 2, 1}, {1, 0, 2}, {1, 2, 0}, {2, 0, 1}, {2, 1, 0}};
    for (int at = 0; at < 6; at++) {
        struct eb_handle handles[3];
        uint32_t packed = 0;
        memset(handles, 0, sizeof handles);
        EXPECT(eb_open(&handles[0], &handles[1], 3, 1, 1024), EB_OK);
        EXPECT(add(&handles[0], 1, "train"), EB_OK);
        EXPECT(eb_reader(&handles[0], &handles[2]), EB_OK);
        EXPECT(add(&handles[0], 2, "train"), EB_OK);
        for (int step = 0; step < 3; step++) {
            eb_close(&handles[orders[at][step]]);
            EXPECT(handles[orders[at][step]].kind, 0);
            if (handles[0].kind != 0)
                add(&handles[0], 3, "train");
            if (handles[1].kind != 0)
                EXPECT(eb_converter_convert(&handles[1], &packed), EB_OK);
            if (handles[2].kind != 0)
                EXPECT(ask(&handles[2], "train"), EB_OK);
        }
    }
}

/* From reader to reader a thousand times: each knows what the one before it knew. */
static void handed_over(void) {
    struct eb_handle writer = {NULL, 0}, converter = {NULL, 0}, reader = {NULL, 0};
    uint64_t last = 0;
    EXPECT(eb_open(&writer, &converter, 12, 128, 1024), EB_OK);
    EXPECT(eb_reader(&writer, &reader), EB_OK);
    for (uint64_t n = 1; n <= 1000; n++) {
        struct eb_handle next = {NULL, 0};
        uint64_t seen = 0;
        EXPECT(add(&writer, n, "train"), EB_OK);
        EXPECT(ask(&reader, "train"), EB_OK);
        EXPECT(answer.seen, n);
        EXPECT(ids[0], n);
        EXPECT(eb_reader(&reader, &next), EB_OK);
        EXPECT(eb_reader_seen(&next, &seen), EB_OK);
        EXPECT(seen, n);
        EXPECT(seen >= last, 1);
        last = seen;
        eb_close(&reader);
        reader = next;
    }
    eb_close(&writer);
    eb_close(&converter);
    eb_close(&reader);
}

static long without_memory(void) {
    struct eb_handle writer = {NULL, 0}, converter = {NULL, 0}, reader = {NULL, 0};
    long tried = 0;
    UNTIL_IT_GOES_WELL(eb_open(&writer, &converter, 2, 4, 1024), writer.kind == 0 && converter.kind == 0)
    UNTIL_IT_GOES_WELL(eb_reader(&writer, &reader), writer.kind == 1 && reader.kind == 0)
    UNTIL_IT_GOES_WELL(add(&writer, 7, "night train"), writer.kind == 1)
    UNTIL_IT_GOES_WELL(ask(&reader, "night OR train"), reader.kind == 2)
    EXPECT(answer.seen, 1);
    EXPECT(answer.count, 1);
    EXPECT(ids[0], 7);
    eb_close(&converter);
    eb_close(&writer);
    eb_close(&reader);
    return tried;
}

int main(void) {
    refused();
    nothing_named();
    at_the_ends();
    closed_in_every_order();
    handed_over();
    EXPECT(without_memory() > 4, 1);
    EXPECT(strcmp(eb_name(EB_BAD_HANDLE), "bad handle"), 0);
    if (failures == 0)
        puts("right");
    return failures != 0;
}
