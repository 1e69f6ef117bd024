/* Many documents in one call: what comes in the middle of them is refused, and the next call goes on behind it; none at all; handles
 * that are closed or of another kind, and a reading that is none; and each allocation failing in turn. To be linked with
 * -Wl,--wrap=malloc. */
#include "expect.h"

static struct eb_answer answer;
static uint64_t ids[10];
static const struct eb_reading plain = EB_PLAIN_READING;

#define TEXT(id, text) {id, (const unsigned char *)(text), sizeof(text) - 1}

static uint32_t ask(struct eb_handle *reader, const char *query) {
    return eb_reader_ask_text(reader, 10, bytes(query), strlen(query), ids, 10, &answer);
}

static void in_order(void) {
    static const struct eb_text texts[] = {TEXT(1, "night train"), TEXT(2, "day train"), TEXT(3, "\xff"), TEXT(4, "late\0train"), TEXT(5, "train")};
    struct eb_handle writer = {NULL, 0}, converter = {NULL, 0}, reader = {NULL, 0};
    uint64_t added = 77;
    EXPECT(eb_open(&writer, &converter, 1, 3, 1024), EB_OK);
    EXPECT(eb_reader(&writer, &reader), EB_OK);
    EXPECT(eb_writer_add_texts_with(&writer, &plain, texts, 0, &added), EB_OK);
    EXPECT(added, 0);
    EXPECT(eb_writer_add_texts_with(&writer, &plain, NULL, 0, &added), EB_OK);
    EXPECT(added, 0);
    EXPECT(eb_writer_add_texts_with(&writer, &plain, texts, 5, &added), EB_BAD_TEXT);
    EXPECT(added, 2);
    EXPECT(ask(&reader, "train"), EB_OK);
    EXPECT(answer.seen * 100 + ids[0] * 10 + ids[1], 221);
    EXPECT(eb_writer_add_texts_with(&writer, &plain, texts + 2, 3, &added), EB_BAD_TEXT);
    EXPECT(added, 0);
    EXPECT(eb_writer_add_texts_with(&writer, &plain, texts + 3, 2, &added), EB_FULL);
    EXPECT(added, 1);
    EXPECT(ask(&reader, "late train"), EB_OK);
    EXPECT(answer.seen * 10 + answer.count, 31);
    EXPECT(ids[0], 4);
    eb_close(&writer);
    EXPECT(eb_writer_add_texts_with(&writer, &plain, texts, 5, &added), EB_BAD_HANDLE);
    EXPECT(added, 0);
    eb_close(&converter);
    eb_close(&reader);
}

static void refused(void) {
    static const struct eb_text texts[] = {TEXT(1, "com.acme.billing"), TEXT(2, "")};
    struct eb_handle none = {NULL, 0}, writer = {NULL, 0}, converter = {NULL, 0}, reader = {NULL, 0}, leader = {NULL, 0};
    struct eb_handle *const others[] = {&none, &converter, &reader};
    struct eb_reading bad = EB_PLAIN_READING, pieces = EB_PLAIN_READING;
    uint64_t added;
    bad.words = 2;
    pieces.words = EB_PIECES;
    EXPECT(eb_open(&writer, &converter, 1, 4, 1024), EB_OK);
    EXPECT(eb_reader(&writer, &reader), EB_OK);
    EXPECT(eb_stream_open(&leader, 1, 4, 1024, 2), EB_OK);
    for (int i = 0; i < 3; i++)
        for (size_t many = 0; many <= 2; many += 2) {
            added = 77;
            EXPECT(eb_writer_add_texts_with(others[i], &plain, texts, many, &added), EB_BAD_HANDLE);
            EXPECT(added, 0);
            added = 77;
            EXPECT(eb_leader_add_texts_with(others[i], &plain, texts, many, &added), EB_BAD_HANDLE);
            EXPECT(added, 0);
        }
    EXPECT(eb_writer_add_texts_with(&leader, &plain, texts, 2, &added), EB_BAD_HANDLE);
    EXPECT(eb_leader_add_texts_with(&writer, &plain, texts, 2, &added), EB_BAD_HANDLE);
    EXPECT(eb_writer_add_texts_with(&writer, &bad, texts, 2, &added), EB_BAD_READING);
    EXPECT(added, 0);
    EXPECT(eb_leader_add_texts_with(&leader, &bad, texts, 2, &added), EB_BAD_READING);
    EXPECT(added, 0);
    EXPECT(eb_writer_add_texts_with(&writer, &pieces, texts, 2, &added), EB_OK);
    EXPECT(added, 2);
    EXPECT(ask(&reader, "billing"), EB_OK);
    EXPECT(answer.seen * 10 + answer.count, 21);
    eb_close(&leader);
    eb_close(&writer);
    eb_close(&converter);
    eb_close(&reader);
}

/* A feed goes on over its generations, whatever fails on the way. */
static long without_memory(void) {
    static const struct eb_text texts[] = {TEXT(1, "night train"), TEXT(2, "night train"), TEXT(3, "night train"),
                                           TEXT(4, "night train"), TEXT(5, "night train"), TEXT(6, "night train")};
    struct eb_handle leader = {NULL, 0}, follower = {NULL, 0};
    uint64_t added, at = 0;
    long tried = 0;
    EXPECT(eb_stream_open(&leader, 1, 2, 1024, 2), EB_OK);
    EXPECT(eb_follower(&leader, &follower), EB_OK);
    for (long goes = 0; at < 6 && goes < 1000; goes++) {
        left = goes;
        uint32_t got = eb_leader_add_texts_with(&leader, &plain, texts + at, 6 - at, &added);
        left = -1;
        at += added;
        EXPECT(got, at == 6 ? EB_OK : EB_NO_MEMORY);
        tried++;
    }
    EXPECT(at, 6);
    EXPECT(eb_follower_ask_text(&follower, 10, bytes("train"), 5, ids, 10, &answer), EB_OK);
    EXPECT(answer.seen * 10 + answer.count, 64);
    EXPECT(ids[0] * 1000 + ids[1] * 100 + ids[2] * 10 + ids[3], 6543);
    eb_close(&leader);
    eb_close(&follower);
    return tried;
}

int main(void) {
    in_order();
    refused();
    EXPECT(without_memory() > 2, 1);
    if (failures == 0)
        puts("right");
    return failures != 0;
}
