/* Images, misused as far as a call can test: rooms that are too short, heads of no setting, parts that are cut anywhere, that say more
 * than a document may have, or that stand where a head is wanted, a full index, handles that are closed or of another kind, and each
 * allocation failing in turn. After each refusal all is as before. To be linked with -Wl,--wrap=malloc. */
#include "expect.h"

/* 1 segment of 3 documents and 1,024 terms */
#define SIZE 78854
#define ROOM (EB_LONGEST_PART + 1)

static const struct eb_reading plain = EB_PLAIN_READING;
static uint64_t *words, *words_then;
static struct eb_index numbers, numbers_then;
static struct eb_answer answer;
static uint64_t ids[4], taken, len;
static unsigned char part[ROOM], other[ROOM];

static const unsigned char head[EB_HEAD_LEN] = {'E', 'B', 'I', 'M', 'A', 'G', 'E', '1', 0, 0, 0, 1, 0, 0, 0, 3, 0, 0, 4, 0};
static const unsigned char train[] = {1, 0, 0, 0, 0, 0, 0, 1, 7, 0, 2, 0, 4, 'l', 'a', 't', 'e', 0, 5, 't', 'r', 'a', 'i', 'n'};

static void keep(void) {
    memcpy(words_then, words, SIZE * sizeof *words);
    numbers_then = numbers;
    taken = 77;
}

static int as_before(void) {
    return memcmp(words, words_then, SIZE * sizeof *words) == 0 && memcmp(&numbers, &numbers_then, sizeof numbers) == 0 && taken == 0;
}

static uint32_t add(const unsigned char *from, size_t bytes_len) { return eb_add_part(words, SIZE, &numbers, from, bytes_len, &taken); }

/* An add of a part is refused, takes no byte, and changes nothing. */
#define REFUSED(call, why)                                                                                                                \
    do {                                                                                                                                  \
        keep();                                                                                                                           \
        EXPECT(call, why);                                                                                                                \
        EXPECT(as_before(), 1);                                                                                                           \
    } while (0)

static int all_are(const unsigned char *from, size_t number, unsigned char byte) {
    for (size_t at = 0; at < number; at++)
        if (from[at] != byte)
            return 0;
    return 1;
}

/* A part is refused, tells this length, and writes nothing. */
#define UNWRITTEN(call, why, wanted)                                                                                                      \
    do {                                                                                                                                  \
        memset(part, 77, ROOM);                                                                                                           \
        len = 77;                                                                                                                         \
        EXPECT(call, why);                                                                                                                \
        EXPECT(len, wanted);                                                                                                              \
        EXPECT(all_are(part, ROOM, 77), 1);                                                                                               \
    } while (0)

static void heads(void) {
    unsigned char bad[EB_HEAD_LEN];
    uint32_t segments = 5, docs = 6, terms = 7;
    memset(part, 77, ROOM);
    EXPECT(eb_image_head(1, 3, 1000, part, ROOM), EB_BAD_SETTING);
    EXPECT(eb_image_head(0, 3, 1024, part, 0), EB_BAD_SETTING);
    EXPECT(eb_image_head(1, 3, 1024, part, EB_HEAD_LEN - 1), EB_SHORT_ROOM);
    EXPECT(eb_image_head(1, 3, 1024, NULL, 0), EB_SHORT_ROOM);
    EXPECT(all_are(part, ROOM, 77), 1);
    EXPECT(eb_image_head(1, 3, 1024, part, EB_HEAD_LEN), EB_OK);
    EXPECT(memcmp(part, head, EB_HEAD_LEN), 0);
    EXPECT(all_are(part + EB_HEAD_LEN, ROOM - EB_HEAD_LEN, 77), 1);
    for (size_t cut = 0; cut < EB_HEAD_LEN; cut++)
        EXPECT(eb_image_setting(head, cut, &segments, &docs, &terms), EB_MORE_BYTES);
    EXPECT(eb_image_setting(NULL, 0, &segments, &docs, &terms), EB_MORE_BYTES);
    /* another mark, no segment, 65 of them and more, too many documents, and numbers of terms that are no power of two */
    static const struct { size_t at; unsigned char byte; } wrong[] = {{0, 'F'}, {7, '2'}, {11, 0}, {11, 65}, {8, 1}, {12, 2}, {18, 5}, {19, 1}};
    for (size_t i = 0; i < sizeof wrong / sizeof *wrong; i++) {
        memcpy(bad, head, EB_HEAD_LEN);
        bad[wrong[i].at] = wrong[i].byte;
        EXPECT(eb_image_setting(bad, EB_HEAD_LEN, &segments, &docs, &terms), EB_BAD_IMAGE);
    }
    EXPECT(eb_image_setting(train, sizeof train, &segments, &docs, &terms), EB_BAD_IMAGE);
    EXPECT(segments * 100 + docs * 10 + terms, 567);
    EXPECT(eb_image_setting(part, ROOM, &segments, &docs, &terms), EB_OK);
    EXPECT(segments * 100000 + docs * 10000 + terms, 131024);
}

static uint32_t part_of(uint64_t id, const char *text, size_t room) {
    return eb_part_of_text(&plain, id, bytes(text), strlen(text), part, room, &len);
}

static void parts(void) {
    struct eb_reading bad = EB_PLAIN_READING, pieces = EB_PLAIN_READING;
    static char longest[17 * 1024 + 3];
    bad.words = 2;
    pieces.words = EB_PIECES;
    UNWRITTEN(part_of(263, "Late\xff", ROOM), EB_BAD_TEXT, 0);
    UNWRITTEN(eb_part_of_text(&bad, 263, bytes("late"), 4, part, ROOM, &len), EB_BAD_READING, 0);
    UNWRITTEN(eb_part_of_line(&plain, bytes("late"), 4, part, ROOM, &len), EB_BAD_LINE, 0);
    UNWRITTEN(eb_part_of_line(&plain, bytes("{\"id\":1}"), 8, part, ROOM, &len), EB_BAD_DOCUMENT, 0);
    UNWRITTEN(part_of(263, "Late train", 0), EB_SHORT_ROOM, sizeof train);
    UNWRITTEN(part_of(263, "Late train", sizeof train - 1), EB_SHORT_ROOM, sizeof train);
    UNWRITTEN(eb_part_of_line(&plain, bytes("{\"id\":263,\"text\":\"late train\"}"), 30, part, 23, &len), EB_SHORT_ROOM, sizeof train);
    EXPECT(part_of(263, "Late train", sizeof train), EB_OK);
    EXPECT(len, sizeof train);
    EXPECT(memcmp(part, train, sizeof train), 0);
    EXPECT(all_are(part + sizeof train, ROOM - sizeof train, 77), 1);
    EXPECT(eb_part_of_line(&plain, bytes("{\"id\":263,\"text\":\"late train\"}"), 30, other, ROOM, &len), EB_OK);
    EXPECT(len, sizeof train);
    EXPECT(memcmp(other, train, sizeof train), 0);
    EXPECT(eb_part_of_text(&pieces, 263, bytes("late.train"), 10, other, ROOM, &len), EB_OK);
    EXPECT(other[10], 2); /* the two pieces */

    /* 1,024 words of 16 bytes are the most; one more, or one byte more, is too long */
    for (size_t at = 0; at < 1024; at++)
        memcpy(longest + 17 * at, "0123456789abcdef ", 17);
    UNWRITTEN(part_of(1, longest, EB_LONGEST_PART - 1), EB_SHORT_ROOM, EB_LONGEST_PART);
    memcpy(longest + 17 * 1024, "a", 2);
    UNWRITTEN(part_of(1, longest, ROOM), EB_TOO_LONG, 0);
    memcpy(longest + 17 * 1024 - 1, "g", 2);
    UNWRITTEN(part_of(1, longest, ROOM), EB_TOO_LONG, 0);
    longest[17 * 1024 - 1] = 0;
    EXPECT(part_of(1, longest, ROOM), EB_OK);
    EXPECT(part[ROOM - 1], 77);
    EXPECT(eb_begin(words, SIZE, &numbers, 1, 3, 1024), EB_OK);
    REFUSED(add(part, EB_LONGEST_PART - 1), EB_MORE_BYTES);
    EXPECT(add(part, ROOM), EB_OK);
    EXPECT(taken, EB_LONGEST_PART);
    part[9] = 4, part[10] = 1; /* it says that it has 1,025 words */
    REFUSED(add(part, ROOM), EB_BAD_IMAGE);
    part[9] = 4, part[10] = 0, part[12] = 17; /* that one of its words has a byte more, so that all have too many */
    REFUSED(add(part, ROOM), EB_BAD_IMAGE);
}

static void adds(void) {
    static const unsigned char nothing[] = {1, 0, 0, 0, 0, 0, 0, 0, 9, 0, 0}, zero[] = {0, 1, 2};
    memset(&numbers, 0, sizeof numbers);
    REFUSED(add(train, sizeof train), EB_NOT_BEGUN);
    REFUSED(eb_add_part(NULL, 0, &numbers, train, sizeof train, &taken), EB_NOT_BEGUN);
    EXPECT(eb_begin(words, SIZE, &numbers, 1, 3, 1024), EB_OK);
    REFUSED(eb_add_part(words, SIZE - 1, &numbers, train, sizeof train, &taken), EB_NOT_BEGUN);
    for (size_t cut = 0; cut < sizeof train; cut++)
        REFUSED(add(train, cut), EB_MORE_BYTES);
    REFUSED(add(NULL, 0), EB_MORE_BYTES);
    REFUSED(add(zero, 1), EB_IMAGE_END);
    REFUSED(add(zero, 3), EB_IMAGE_END);
    REFUSED(add(zero + 2, 1), EB_BAD_IMAGE);
    REFUSED(add(head, EB_HEAD_LEN), EB_BAD_IMAGE);
    memcpy(other, train, sizeof train);
    memset(other + sizeof train, 99, sizeof train);
    EXPECT(add(other, 2 * sizeof train), EB_OK);
    EXPECT(taken, sizeof train);
    REFUSED(add(other + sizeof train, sizeof train), EB_BAD_IMAGE);
    EXPECT(add(nothing, sizeof nothing), EB_OK);
    EXPECT(taken, sizeof nothing);
    EXPECT(add(train, sizeof train), EB_OK);
    EXPECT(taken, sizeof train);
    REFUSED(add(train, sizeof train), EB_FULL);
    REFUSED(add(train, sizeof train - 1), EB_MORE_BYTES);
    REFUSED(add(zero, 1), EB_IMAGE_END);
    EXPECT(eb_ask_text(words, SIZE, &numbers, 4, bytes("\"late train\""), 12, ids, 4, &answer), EB_OK);
    EXPECT(answer.seen * 10 + answer.count, 32);
    EXPECT(ids[0] * 1000 + ids[1], 263263);
}

static void handles(void) {
    struct eb_handle none = {NULL, 0}, writer = {NULL, 0}, converter = {NULL, 0}, reader = {NULL, 0}, leader = {NULL, 0};
    struct eb_handle *const others[] = {&none, &converter, &reader, &leader};
    static const unsigned char zero[] = {0};
    EXPECT(eb_open(&writer, &converter, 1, 1, 1024), EB_OK);
    EXPECT(eb_reader(&writer, &reader), EB_OK);
    EXPECT(eb_stream_open(&leader, 1, 4, 1024, 2), EB_OK);
    for (int i = 0; i < 4; i++) {
        taken = 77;
        EXPECT(eb_writer_add_part(others[i], train, sizeof train, &taken), EB_BAD_HANDLE);
        EXPECT(taken, 0);
        EXPECT(eb_writer_add_part(others[i], zero, 1, &taken), EB_BAD_HANDLE);
    }
    EXPECT(eb_writer_add_part(&writer, zero, 1, &taken), EB_IMAGE_END);
    EXPECT(eb_writer_add_part(&writer, train, 5, &taken), EB_MORE_BYTES);
    EXPECT(eb_writer_add_part(&writer, head, EB_HEAD_LEN, &taken), EB_BAD_IMAGE);
    EXPECT(eb_writer_add_part(&writer, train, sizeof train, &taken), EB_OK);
    EXPECT(taken, sizeof train);
    EXPECT(eb_writer_add_part(&writer, train, sizeof train, &taken), EB_FULL);
    EXPECT(taken, 0);
    EXPECT(eb_reader_ask_text(&reader, 4, bytes("train"), 5, ids, 4, &answer), EB_OK);
    EXPECT(answer.seen * 10 + answer.count, 11);
    EXPECT(ids[0], 263);
    eb_close(&writer);
    EXPECT(eb_writer_add_part(&writer, train, sizeof train, &taken), EB_BAD_HANDLE);
    eb_close(&converter);
    eb_close(&reader);
    eb_close(&leader);
}

static int unwritten(void) { return len == 0 && all_are(part, ROOM, 77); }

static long without_memory(void) {
    struct eb_handle writer = {NULL, 0}, converter = {NULL, 0};
    long tried = 0;
    memset(part, 77, ROOM);
    UNTIL_IT_GOES_WELL((len = 77, part_of(263, "Late train", ROOM)), unwritten())
    memset(part, 77, ROOM);
    UNTIL_IT_GOES_WELL((len = 77, eb_part_of_line(&plain, bytes("{\"id\":263,\"text\":\"late train\"}"), 30, part, ROOM, &len)), unwritten())
    EXPECT(memcmp(part, train, sizeof train), 0);
    EXPECT(eb_begin(words, SIZE, &numbers, 1, 3, 1024), EB_OK);
    UNTIL_IT_GOES_WELL((keep(), add(train, sizeof train)), as_before())
    EXPECT(taken, sizeof train);
    EXPECT(eb_documents(&numbers), 1);
    EXPECT(eb_open(&writer, &converter, 1, 3, 1024), EB_OK);
    UNTIL_IT_GOES_WELL((taken = 77, eb_writer_add_part(&writer, train, sizeof train, &taken)), taken == 0)
    EXPECT(taken, sizeof train);
    eb_close(&writer);
    eb_close(&converter);
    return tried;
}

int main(void) {
    words = calloc(SIZE, sizeof *words);
    words_then = malloc(SIZE * sizeof *words);
    if (words == NULL || words_then == NULL)
        return 2;
    heads();
    parts();
    adds();
    handles();
    EXPECT(without_memory() > 4, 1);
    free(words);
    free(words_then);
    if (failures == 0)
        puts("right");
    return failures != 0;
}
