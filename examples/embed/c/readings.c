/* How lines and texts are read, said well and badly: names at the ends of what they may be, and past them; names with what no name has;
 * lengths of 0; and each allocation failing in turn. What is refused changes nothing, on lent memory and on handles. To be linked with
 * -Wl,--wrap=malloc. */
#include "expect.h"

/* 1 segment of 3 documents and 1,024 terms */
#define SIZE 78854

static uint64_t words[SIZE];
static struct eb_index numbers;
static struct eb_handle writer, reader, converter, leader, follower;
static struct eb_answer answer;
static struct eb_count count;
static uint64_t ids[4], buckets[2];

static struct eb_reading reading_of(const char *fields, uint32_t cut, const char *id, const char *text) {
    struct eb_reading how = EB_PLAIN_READING;
    how.fields = bytes(fields), how.fields_len = strlen(fields);
    how.id = bytes(id), how.id_len = strlen(id);
    how.text = bytes(text), how.text_len = strlen(text);
    how.words = cut;
    return how;
}

static const unsigned char line[] = "{\"id\":1,\"text\":\"a night-train\",\"room\":\"hall\",\"key\":\"042\",\"message\":\"late\"}";
static const size_t line_len = sizeof line - 1;

/* Each call that is given this reading is refused, and changes nothing. */
static void refused_by_all(const struct eb_reading *how) {
    static uint64_t words_then[SIZE];
    struct eb_index numbers_then = numbers;
    memcpy(words_then, words, sizeof words);
    ids[0] = buckets[0] = 77;
    EXPECT(eb_check_reading(how), EB_BAD_READING);
    EXPECT(eb_add_line_with(words, SIZE, &numbers, how, line, line_len), EB_BAD_READING);
    EXPECT(eb_add_text_with(words, SIZE, &numbers, how, 1, bytes("a"), 1), EB_BAD_READING);
    EXPECT(eb_ask_line_with(words, SIZE, &numbers, how, bytes("?1 a"), 4, ids, 4, &answer), EB_BAD_READING);
    EXPECT(answer.seen + answer.count + answer.column + answer.written, 0);
    EXPECT(eb_ask_text_with(words, SIZE, &numbers, how, 1, bytes("a"), 1, ids, 4, &answer), EB_BAD_READING);
    EXPECT(eb_count_text_with(words, SIZE, &numbers, how, bytes("a"), 1, 0, 1, buckets, 2, &count), EB_BAD_READING);
    EXPECT(count.seen + count.total + count.column, 0);
    EXPECT(memcmp(words, words_then, sizeof words) == 0 && memcmp(&numbers, &numbers_then, sizeof numbers) == 0, 1);
    EXPECT(eb_writer_add_line_with(&writer, how, line, line_len), EB_BAD_READING);
    EXPECT(eb_writer_add_text_with(&writer, how, 1, bytes("a"), 1), EB_BAD_READING);
    EXPECT(eb_reader_ask_line_with(&reader, how, bytes("?1 a"), 4, ids, 4, &answer), EB_BAD_READING);
    EXPECT(eb_reader_ask_text_with(&reader, how, 1, bytes("a"), 1, ids, 4, &answer), EB_BAD_READING);
    EXPECT(eb_reader_count_text_with(&reader, how, bytes("a"), 1, 0, 1, buckets, 2, &count), EB_BAD_READING);
    EXPECT(eb_leader_add_line_with(&leader, how, line, line_len), EB_BAD_READING);
    EXPECT(eb_leader_add_text_with(&leader, how, 1, bytes("a"), 1), EB_BAD_READING);
    EXPECT(eb_follower_ask_line_with(&follower, how, bytes("?1 a"), 4, ids, 4, &answer), EB_BAD_READING);
    EXPECT(eb_follower_ask_text_with(&follower, how, 1, bytes("a"), 1, ids, 4, &answer), EB_BAD_READING);
    EXPECT(eb_follower_count_text_with(&follower, how, bytes("a"), 1, 0, 1, buckets, 2, &count), EB_BAD_READING);
    EXPECT(ids[0] + buckets[0], 154);
}

static void refused(const char *fields, uint32_t cut, const char *id, const char *text) {
    struct eb_reading how = reading_of(fields, cut, id, text);
    refused_by_all(&how);
}

static void names(void) {
    static const char *const bad[] = {
        ",", "a,", ",a", "a,,b", "A", "a b", "a-b", "a.b", "since", "a,since", "a,a", "a,b,c,a", "a,b,c,d,e,f,g,h,i", "\xff", "\xc3\xa4", "a,\xff",
        "abcdefghijklmnopqrstuvwxyz_012345", /* 33 bytes */
    };
    static const char *const good[] = {"", "a", "_", "0", "sinc", "since_", "a,b,c,d,e,f,g,h", "abcdefghijklmnopqrstuvwxyz_01234", "id,text"};
    struct eb_reading how;
    for (size_t at = 0; at < sizeof bad / sizeof *bad; at++)
        refused(bad[at], EB_WORDS, "", "");
    how = reading_of("a", EB_WORDS, "", "");
    how.fields = bytes("a\0b"), how.fields_len = 3;
    refused_by_all(&how);
    refused("", 2, "", "");
    refused("", UINT32_MAX, "", "");
    refused("", EB_WORDS, "\xff", "");
    refused("", EB_WORDS, "", "\xed\xa0\x80");
    for (size_t at = 0; at < sizeof good / sizeof *good; at++) {
        how = reading_of(good[at], EB_PIECES, "the key: \xc3\xa4", ",");
        EXPECT(eb_check_reading(&how), EB_OK);
    }
}

/* What each reading makes of the same line. */
static void read_so(void) {
    struct eb_reading plain = EB_PLAIN_READING, room = reading_of("room", EB_PIECES, "", ""), named = reading_of("", EB_WORDS, "key", "message");
    EXPECT(eb_add_line_with(words, SIZE, &numbers, &plain, line, line_len), EB_OK);
    EXPECT(eb_add_line_with(words, SIZE, &numbers, &room, line, line_len), EB_OK);
    EXPECT(eb_add_line_with(words, SIZE, &numbers, &named, line, line_len), EB_OK);
    EXPECT(eb_ask_text_with(words, SIZE, &numbers, &room, 4, bytes("room:hall"), 9, ids, 4, &answer), EB_OK);
    EXPECT(answer.seen * 100 + answer.count * 10 + answer.written, 311);
    EXPECT(eb_ask_text_with(words, SIZE, &numbers, &room, 4, bytes("night OR room:hall"), 18, ids, 4, &answer), EB_OK);
    EXPECT(answer.count, 2);
    /* without the field these are the words of a text, of which `room:hall` is one */
    EXPECT(eb_ask_text_with(words, SIZE, &numbers, &plain, 4, bytes("room:hall"), 9, ids, 4, &answer), EB_OK);
    EXPECT(answer.count, 0);
    EXPECT(eb_ask_text(words, SIZE, &numbers, 4, bytes("late"), 4, ids, 4, &answer), EB_OK);
    EXPECT(answer.count, 1);
    EXPECT(ids[0], 42);
    EXPECT(eb_count_text_with(words, SIZE, &numbers, &room, bytes("room:hall"), 9, 0, 10, buckets, 2, &count), EB_OK);
    EXPECT(count.seen * 1000 + count.total * 100 + buckets[0] * 10 + buckets[1], 3110);
    EXPECT(eb_ask_text_with(words, SIZE, &numbers, &room, 4, bytes("room:"), 5, ids, 4, &answer), EB_BAD_QUERY);
    EXPECT(answer.column, 1);
    EXPECT(eb_ask_line_with(words, SIZE, &numbers, &room, bytes("?4 room:"), 8, ids, 4, &answer), EB_BAD_QUERY);
    EXPECT(answer.column, 4);
    EXPECT(eb_add_line_with(words, SIZE, &numbers, &room, bytes("{}"), 2), EB_BAD_DOCUMENT);
    EXPECT(eb_add_line_with(words, SIZE - 1, &numbers, &room, line, line_len), EB_NOT_BEGUN);
    EXPECT(eb_add_line_with(words, SIZE, &numbers, &room, line, line_len), EB_FULL);
}

static long without_memory(void) {
    struct eb_reading how = reading_of("room", EB_PIECES, "key", "text");
    long tried = 0;
    UNTIL_IT_GOES_WELL(eb_writer_add_line_with(&writer, &how, line, line_len), writer.kind == 1)
    UNTIL_IT_GOES_WELL(eb_reader_ask_text_with(&reader, &how, 4, bytes("room:hall night"), 15, ids, 4, &answer), reader.kind == 2)
    EXPECT(answer.seen * 10 + answer.count, 11);
    EXPECT(ids[0], 42);
    UNTIL_IT_GOES_WELL(eb_leader_add_line_with(&leader, &how, line, line_len), leader.kind == 4)
    UNTIL_IT_GOES_WELL(eb_follower_count_text_with(&follower, &how, bytes("room:hall"), 9, 42, 1, buckets, 2, &count), follower.kind == 5)
    EXPECT(count.total * 10 + buckets[0], 11);
    return tried;
}

int main(void) {
    EXPECT(eb_begin(words, SIZE, &numbers, 1, 3, 1024), EB_OK);
    EXPECT(eb_open(&writer, &converter, 1, 3, 1024), EB_OK);
    EXPECT(eb_reader(&writer, &reader), EB_OK);
    EXPECT(eb_stream_open(&leader, 1, 3, 1024, 2), EB_OK);
    EXPECT(eb_follower(&leader, &follower), EB_OK);
    names();
    read_so();
    EXPECT(without_memory() > 9, 1);
    struct eb_reading plain = EB_PLAIN_READING;
    EXPECT(eb_writer_add_line_with(&reader, &plain, line, line_len), EB_BAD_HANDLE);
    EXPECT(eb_follower_ask_text_with(&leader, &plain, 1, bytes("a"), 1, ids, 4, &answer), EB_BAD_HANDLE);
    eb_close(&writer);
    eb_close(&reader);
    eb_close(&converter);
    eb_close(&leader);
    eb_close(&follower);
    if (failures == 0)
        puts("right");
    return failures != 0;
}
