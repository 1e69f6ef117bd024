/* Watches: handles that are closed or of another kind, rooms for no number and for fewer than match, refusals that change nothing, and each
 * allocation failing in turn. To be linked with -Wl,--wrap=malloc. */
#include "expect.h"

static struct eb_handle watches;
static struct eb_told told;
static uint32_t numbers[4];
static uint64_t column;
static const struct eb_reading plain = EB_PLAIN_READING;

static uint32_t set(struct eb_handle *to, uint32_t number, const char *query) {
    column = 77;
    return eb_watch_set(to, &plain, number, bytes(query), strlen(query), &column);
}

static uint32_t tell(struct eb_handle *to, uint64_t id, const char *text, size_t room) {
    told.count = told.written = 77;
    for (int at = 0; at < 4; at++)
        numbers[at] = 77;
    return eb_watches_tell_text(to, &plain, id, bytes(text), strlen(text), numbers, room, &told);
}

/* A call is refused, and tells nothing. */
#define UNTOLD(call, why)                                                                                                                 \
    do {                                                                                                                                  \
        EXPECT(call, why);                                                                                                                \
        EXPECT(told.count + told.written, 0);                                                                                             \
        EXPECT(numbers[0], 77);                                                                                                           \
    } while (0)

static void handles(void) {
    struct eb_handle none = {NULL, 0}, writer = {NULL, 0}, converter = {NULL, 0};
    uint64_t seen = 77;
    EXPECT(set(&none, 1, "train"), EB_BAD_HANDLE);
    EXPECT(column, 0);
    EXPECT(eb_watch_remove(&none, 1), EB_BAD_HANDLE);
    UNTOLD(tell(&none, 1, "train", 4), EB_BAD_HANDLE);
    EXPECT(eb_watches(&watches), EB_OK);
    EXPECT(watches.kind, 8);
    EXPECT(eb_watches(&watches), EB_BAD_HANDLE);
    EXPECT(eb_open(&writer, &converter, 1, 3, 1024), EB_OK);
    EXPECT(set(&writer, 1, "train"), EB_BAD_HANDLE);
    UNTOLD(tell(&writer, 1, "train", 4), EB_BAD_HANDLE);
    EXPECT(eb_watch_remove(&converter, 1), EB_BAD_HANDLE);
    EXPECT(eb_watches(&writer), EB_BAD_HANDLE);
    EXPECT(eb_writer_add_text(&watches, 1, bytes("a"), 1), EB_BAD_HANDLE);
    EXPECT(eb_reader(&watches, &none), EB_BAD_HANDLE);
    EXPECT(eb_reader_seen(&watches, &seen), EB_BAD_HANDLE);
    EXPECT(seen, 77);
    eb_close(&writer);
    eb_close(&converter);
    eb_close(&watches);
    UNTOLD(tell(&watches, 1, "train", 4), EB_BAD_HANDLE);
    EXPECT(eb_watches(&watches), EB_OK);
}

static void set_and_told(void) {
    EXPECT(tell(&watches, 1, "train", 4), EB_OK);
    EXPECT(told.count + told.written, 0);
    EXPECT(set(&watches, 9, "train"), EB_OK);
    EXPECT(column, 0);
    EXPECT(set(&watches, 4, "train -late"), EB_OK);
    EXPECT(set(&watches, UINT32_MAX, "since:5"), EB_OK);
    EXPECT(set(&watches, 9, "bus"), EB_WATCH_TAKEN);
    EXPECT(set(&watches, 8, "(bus"), EB_BAD_QUERY);
    EXPECT(column, 5);
    EXPECT(set(&watches, 8, ""), EB_BAD_QUERY);
    EXPECT(column, 1);
    EXPECT(set(&watches, 8, "\xff"), EB_BAD_TEXT);
    EXPECT(eb_watch_remove(&watches, 8), EB_NO_WATCH);
    EXPECT(tell(&watches, 6, "a train", 4), EB_OK);
    EXPECT(told.count * 10 + told.written, 33);
    EXPECT(numbers[0] * 10 + numbers[1], 49);
    EXPECT(numbers[2], UINT32_MAX);
    EXPECT(numbers[3], 77);
    EXPECT(tell(&watches, 5, "late train", 4), EB_OK);
    EXPECT(told.count * 10 + told.written, 11);
    EXPECT(numbers[0], 9);
    EXPECT(tell(&watches, 6, "a train", 0), EB_OK);
    EXPECT(told.count * 10 + told.written, 30);
    EXPECT(numbers[0], 77);
    EXPECT(tell(&watches, 6, "a train", 2), EB_OK);
    EXPECT(told.count * 10 + told.written, 32);
    EXPECT(numbers[2], 77);
    UNTOLD(tell(&watches, 6, "\xff", 4), EB_BAD_TEXT);
    UNTOLD(eb_watches_tell_line(&watches, &plain, bytes("{"), 1, numbers, 4, &told), EB_BAD_JSON);
    EXPECT(eb_watches_tell_line(&watches, &plain, bytes("{\"id\":5,\"text\":\"train\"}"), 23, numbers, 4, &told), EB_OK);
    EXPECT(told.count, 2);
    EXPECT(eb_watch_remove(&watches, 9), EB_OK);
    EXPECT(eb_watch_remove(&watches, 9), EB_NO_WATCH);
    EXPECT(tell(&watches, 5, "train", 4), EB_OK);
    EXPECT(told.count * 10 + numbers[0], 14);
}

static long without_memory(void) {
    long tried = 0;
    eb_close(&watches);
    UNTIL_IT_GOES_WELL(eb_watches(&watches), watches.kind == 0)
    UNTIL_IT_GOES_WELL(set(&watches, 1, "night train"), watches.kind == 8 && column == 0)
    UNTIL_IT_GOES_WELL(set(&watches, 2, "\"a longer phrase than most\" OR train"), tell(&watches, 1, "train", 4) == EB_OK && told.count == 0)
    UNTIL_IT_GOES_WELL(tell(&watches, 1, "night train", 4), told.count + told.written == 0 && numbers[0] == 77)
    EXPECT(told.count, 2);
    left = 0;
    EXPECT(eb_watch_remove(&watches, 1), EB_OK);
    left = -1;
    EXPECT(tell(&watches, 1, "night train", 4), EB_OK);
    EXPECT(told.count * 10 + numbers[0], 12);
    return tried;
}

int main(void) {
    handles();
    set_and_told();
    EXPECT(without_memory() > 9, 1);
    eb_close(&watches);
    if (failures == 0)
        puts("right");
    return failures != 0;
}
