/* An index that the caller lends, misused as far as a call can test: numbers that were never begun, three numbers that are no
 * setting, too few words, lengths of 0, with null pointers too, texts that aren't UTF-8, rooms for no id and for as many as a number
 * goes, and each allocation failing in turn. After each refusal the words and the numbers are as before. To be linked with
 * -Wl,--wrap=malloc. */
#include "expect.h"

/* 1 segment of 3 documents and 1,024 terms */
#define SIZE 78854

static uint64_t *words, *words_then;
static struct eb_index numbers, numbers_then;
static struct eb_answer answer;
static uint64_t ids[4];

static void keep(void) {
    memcpy(words_then, words, SIZE * sizeof *words);
    numbers_then = numbers;
}

static int as_before(void) {
    return memcmp(words, words_then, SIZE * sizeof *words) == 0 && memcmp(&numbers, &numbers_then, sizeof numbers) == 0;
}

/* A call is refused, and changes nothing. */
#define REFUSED(call, why)                                                                                                                \
    do {                                                                                                                                  \
        keep();                                                                                                                           \
        EXPECT(call, why);                                                                                                                \
        EXPECT(as_before(), 1);                                                                                                           \
    } while (0)

static uint32_t add(size_t len, uint64_t id, const char *text) {
    return eb_add_text(words, len, &numbers, id, bytes(text), strlen(text));
}

static uint32_t ask(size_t len, uint32_t k, const char *query, size_t room) {
    answer.seen = answer.count = answer.column = answer.written = 77;
    return eb_ask_text(words, len, &numbers, k, bytes(query), strlen(query), ids, room, &answer);
}

/* An ask is refused, writes no id, and tells only this column. */
#define UNASKED(call, why, at)                                                                                                            \
    do {                                                                                                                                  \
        REFUSED(call, why);                                                                                                               \
        EXPECT(answer.seen + answer.count + answer.written, 0);                                                                           \
        EXPECT(answer.column, at);                                                                                                        \
        EXPECT(ids[0], 77);                                                                                                               \
    } while (0)

static void not_begun(void) {
    struct eb_segment last;
    memset(&numbers, 0, sizeof numbers);
    REFUSED(add(SIZE, 1, "train"), EB_NOT_BEGUN);
    REFUSED(eb_add_line(words, SIZE, &numbers, bytes("{\"id\":1,\"text\":\"train\"}"), 23), EB_NOT_BEGUN);
    UNASKED(ask(SIZE, 1, "train", 4), EB_NOT_BEGUN, 0);
    UNASKED(eb_ask_line(words, SIZE, &numbers, bytes("?1 train"), 8, ids, 4, &answer), EB_NOT_BEGUN, 0);
    EXPECT(eb_documents(&numbers) + eb_segments(&numbers), 0);
    eb_last_segment(&numbers, &last);
    EXPECT(last.documents + last.terms, 0);
    EXPECT(eb_words(1, 3, 1024), SIZE);
    EXPECT(eb_words(0, 3, 1024) + eb_words(1, 3, 1000) + eb_words(UINT32_MAX, UINT32_MAX, UINT32_MAX), 0);
    REFUSED(eb_begin(words, SIZE, &numbers, 0, 3, 1024), EB_BAD_SETTING);
    REFUSED(eb_begin(words, SIZE, &numbers, UINT32_MAX, UINT32_MAX, UINT32_MAX), EB_BAD_SETTING);
    REFUSED(eb_begin(words, 0, &numbers, 1, 3, 1024), EB_BAD_SIZE);
    REFUSED(eb_begin(words, SIZE - 1, &numbers, 1, 3, 1024), EB_BAD_SIZE);
    REFUSED(eb_begin(words, SIZE, &numbers, 1, 2, 1024), EB_BAD_SIZE);
}

static void at_the_ends(void) {
    EXPECT(eb_begin(words, SIZE, &numbers, 1, 3, 1024), EB_OK);
    REFUSED(add(0, 1, "train"), EB_NOT_BEGUN);
    REFUSED(add(SIZE - 1, 1, "train"), EB_NOT_BEGUN);
    UNASKED(ask(0, 1, "train", 4), EB_NOT_BEGUN, 0);
    EXPECT(add(SIZE, 1, ""), EB_OK);
    REFUSED(eb_add_line(words, SIZE, &numbers, bytes(""), 0), EB_BAD_LINE);
    REFUSED(add(SIZE, 2, "train \xff"), EB_BAD_TEXT);
    REFUSED(add(SIZE, 2, "\xed\xa0\x80"), EB_BAD_TEXT);
    REFUSED(eb_add_line(words, SIZE, &numbers, bytes("{\"id\":2,\"text\":\"\xff\"}"), 19), EB_BAD_JSON);
    EXPECT(add(SIZE, 2, "late train"), EB_OK);
    EXPECT(add(SIZE, UINT64_MAX, "train"), EB_OK);
    REFUSED(add(SIZE, 4, "train"), EB_FULL);
    UNASKED(ask(SIZE, 4, "\xff", 4), EB_BAD_TEXT, 0);
    UNASKED(ask(SIZE, 4, "", 4), EB_BAD_QUERY, 1);
    UNASKED(ask(SIZE, 4, "train -", 4), EB_BAD_QUERY, 8);
    UNASKED(ask(SIZE, 0, "train", 4), EB_BAD_NUMBER, 0);
    UNASKED(ask(SIZE, UINT32_MAX, "train", SIZE_MAX), EB_BAD_NUMBER, 0);
    UNASKED(eb_ask_line(words, SIZE, &numbers, bytes(""), 0, ids, 4, &answer), EB_BAD_LINE, 0);
    EXPECT(ask(SIZE, 4, "train", 0), EB_OK);
    EXPECT(answer.seen * 10 + answer.count, 32);
    EXPECT(answer.written, 0);
    EXPECT(ids[0], 77);
    EXPECT(ask(SIZE, 4, "train", 1), EB_OK);
    EXPECT(answer.count * 10 + answer.written, 21);
    EXPECT(ids[0], UINT64_MAX);
    EXPECT(ids[1], 77);
    EXPECT(eb_ask_line(words, SIZE, &numbers, bytes("?4 train"), 8, ids, SIZE_MAX, &answer), EB_OK);
    EXPECT(ids[1], 2);
    EXPECT(ids[2], 77);
    EXPECT(ask(SIZE, 1, "train", SIZE_MAX), EB_OK);
    EXPECT(answer.count * 10 + answer.written, 11);
}

/* Null pointers where nothing is named: the header asks for others, but a program that passes them is answered all the same. */
static void nothing_named(void) {
    REFUSED(eb_begin(NULL, 0, &numbers, 1, 3, 1024), EB_BAD_SIZE);
    REFUSED(eb_add_text(NULL, 0, &numbers, 1, NULL, 0), EB_NOT_BEGUN);
    EXPECT(eb_begin(words, SIZE, &numbers, 1, 3, 1024), EB_OK);
    EXPECT(eb_add_text(words, SIZE, &numbers, 1, NULL, 0), EB_OK);
    REFUSED(eb_add_line(words, SIZE, &numbers, NULL, 0), EB_BAD_LINE);
    EXPECT(add(SIZE, 2, "train"), EB_OK);
    EXPECT(eb_ask_text(words, SIZE, &numbers, 1, bytes("train"), 5, NULL, 0, &answer), EB_OK);
    EXPECT(answer.seen * 10 + answer.count, 21);
    REFUSED(eb_ask_text(words, SIZE, &numbers, 1, NULL, 0, NULL, 0, &answer), EB_BAD_QUERY);
    REFUSED(eb_ask_line(words, SIZE, &numbers, NULL, 0, NULL, 0, &answer), EB_BAD_LINE);
}

/* The calls in turn over two documents of a full index: what each answers and tells. */
static void in_turn(void) {
    const size_t len = 78853; /* 1 segment of 2 documents and 1,024 terms */
    struct eb_segment last;
    EXPECT(eb_words(1, 2, 1024), len);
    EXPECT(eb_begin(words, len, &numbers, 1, 2, 1024), EB_OK);
    EXPECT(eb_add_line(words, len, &numbers, bytes("{\"id\":101,\"text\":\"Night train\"}"), 31), EB_OK);
    REFUSED(eb_add_line(words, len, &numbers, bytes("{\"id\":\"102\",\"text\":\"\"}"), 22), EB_BAD_DOCUMENT);
    EXPECT(add(len, 102, "The train is late"), EB_OK);
    REFUSED(add(len, 103, "\xff"), EB_BAD_TEXT);
    REFUSED(add(len, 103, "train"), EB_FULL);
    ids[0] = ids[1] = ids[2] = 77;
    UNASKED(eb_ask_line(words, len, &numbers, bytes("?5 (train"), 9, ids, 3, &answer), EB_BAD_QUERY, 10);
    UNASKED(eb_ask_line(words, len, &numbers, bytes("train"), 5, ids, 3, &answer), EB_BAD_LINE, 0);
    UNASKED(ask(len, 5, "(train", 3), EB_BAD_QUERY, 7);
    UNASKED(ask(len, 1001, "train", 3), EB_BAD_NUMBER, 0);
    EXPECT(eb_ask_line(words, len, &numbers, bytes("?5 train"), 8, ids, 3, &answer), EB_OK);
    EXPECT(answer.seen * 10 + answer.count, 22);
    EXPECT(ids[0] * 1000 + ids[1], 102101);
    EXPECT(ids[2], 77);
    EXPECT(ask(len, 1, "night OR late", 3), EB_OK);
    EXPECT(answer.seen * 10 + answer.count, 21);
    EXPECT(ids[0] * 1000 + ids[1], 102101);
    eb_last_segment(&numbers, &last);
    EXPECT(eb_documents(&numbers) * 10 + eb_segments(&numbers), 21);
    EXPECT(last.documents * 10 + last.terms, 25);
    EXPECT(last.text, 10);
    EXPECT(last.pool0, 5);
}

static struct eb_count count;
static uint64_t buckets[4];

static uint32_t number_of(size_t len, const char *query, uint64_t start, uint64_t width, size_t number) {
    count.seen = count.total = count.column = 77;
    return eb_count_text(words, len, &numbers, bytes(query), strlen(query), start, width, buckets, number, &count);
}

/* A count is refused, writes no bucket, and tells only this column. */
#define UNCOUNTED(call, why, at)                                                                                                          \
    do {                                                                                                                                  \
        buckets[0] = 77;                                                                                                                  \
        REFUSED(call, why);                                                                                                               \
        EXPECT(count.seen + count.total, 0);                                                                                              \
        EXPECT(count.column, at);                                                                                                         \
        EXPECT(buckets[0], 77);                                                                                                           \
    } while (0)

/* Counts over three documents, of the ids 100, 160 and 230: in all, and in buckets. */
static void counted(void) {
    EXPECT(eb_begin(words, SIZE, &numbers, 1, 3, 1024), EB_OK);
    EXPECT(number_of(SIZE, "error", 0, 1, 2), EB_OK);
    EXPECT(count.seen + count.total + buckets[0] + buckets[1], 0);
    EXPECT(add(SIZE, 100, "error: timeout"), EB_OK);
    EXPECT(add(SIZE, 160, "timeout"), EB_OK);
    EXPECT(add(SIZE, 230, "error, error"), EB_OK);
    EXPECT(number_of(SIZE, "error", 0, 0, 0), EB_OK); /* without buckets the width isn't read */
    EXPECT(count.seen * 10 + count.total, 32);
    buckets[3] = 77;
    EXPECT(number_of(SIZE, "error OR timeout", 100, 60, 3), EB_OK); /* from 100 on, from 160 on, from 220 on */
    EXPECT(count.seen * 10 + count.total, 33);
    EXPECT(buckets[0] * 100 + buckets[1] * 10 + buckets[2], 111);
    EXPECT(buckets[3], 77);
    EXPECT(number_of(SIZE, "error OR timeout", 101, 59, 1), EB_OK); /* neither 100 nor 160 */
    EXPECT(count.total * 10 + buckets[0], 30);
    EXPECT(number_of(SIZE, "error", UINT64_MAX, UINT64_MAX, 2), EB_OK);
    EXPECT(count.total * 100 + buckets[0] * 10 + buckets[1], 200);
    UNCOUNTED(number_of(SIZE, "error", 0, 0, 1), EB_BAD_NUMBER, 0);
    UNCOUNTED(number_of(SIZE, "(error", 0, 1, 1), EB_BAD_QUERY, 7);
    UNCOUNTED(number_of(SIZE, "\xff", 0, 1, 1), EB_BAD_TEXT, 0);
    UNCOUNTED(number_of(SIZE - 1, "error", 0, 1, 1), EB_NOT_BEGUN, 0);
}

static long without_memory(void) {
    long tried = 0;
    EXPECT(eb_begin(words, SIZE, &numbers, 1, 3, 1024), EB_OK);
    UNTIL_IT_GOES_WELL((keep(), add(SIZE, 7, "night train")), as_before())
    UNTIL_IT_GOES_WELL((keep(), eb_add_line(words, SIZE, &numbers, bytes("{\"id\":8,\"text\":\"late\"}"), 22)), as_before())
    UNTIL_IT_GOES_WELL((keep(), ask(SIZE, 4, "night OR late", 4)), as_before())
    EXPECT(answer.count, 2);
    EXPECT(ids[0] * 10 + ids[1], 87);
    UNTIL_IT_GOES_WELL((keep(), number_of(SIZE, "night OR late", 7, 1, 2)), as_before())
    EXPECT(count.total * 100 + buckets[0] * 10 + buckets[1], 211);
    return tried;
}

int main(void) {
    words = calloc(SIZE, sizeof *words);
    words_then = malloc(SIZE * sizeof *words);
    if (words == NULL || words_then == NULL)
        return 2;
    for (int at = 0; at < 4; at++)
        ids[at] = 77;
    not_begun();
    at_the_ends();
    nothing_named();
    in_turn();
    counted();
    EXPECT(without_memory() > 4, 1);
    free(words);
    free(words_then);
    if (failures == 0)
        puts("right");
    return failures != 0;
}
