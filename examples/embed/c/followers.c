/* Handles of a feed that are closed, of another kind, or made anew; what is kept and what is let go; a follower that sleeps; a feed
 * that goes on without its leader; and each allocation failing in turn. To be linked with -Wl,--wrap=malloc. */
#include "expect.h"

#define OPEN(leader) eb_stream_open(leader, 1, 2, 1024, 2)

static uint32_t add(struct eb_handle *leader, uint64_t id, const char *text) {
    return eb_leader_add_text(leader, id, bytes(text), strlen(text));
}

static struct eb_answer answer;
static uint64_t ids[10];

static uint32_t ask(struct eb_handle *follower, const char *query) {
    return eb_follower_ask_text(follower, 10, bytes(query), strlen(query), ids, 10, &answer);
}

/* Calls on a handle that leads to nothing, and to each kind. */
static void refused(void) {
    struct eb_handle none = {NULL, 0}, leader = {NULL, 0}, follower = {NULL, 0}, writer = {NULL, 0}, converter = {NULL, 0};
    uint64_t number = 77;
    uint32_t told = 77;
    EXPECT(add(&none, 1, "train"), EB_BAD_HANDLE);
    EXPECT(eb_leader_add_line(&none, bytes("{}"), 2), EB_BAD_HANDLE);
    EXPECT(eb_leader_tell(&none, &told), EB_BAD_HANDLE);
    EXPECT(eb_leader_converter(&none, &converter), EB_BAD_HANDLE);
    EXPECT(eb_leader_lend(&none, &none), EB_BAD_HANDLE);
    EXPECT(eb_leader_released(&none, &follower), EB_BAD_HANDLE);
    EXPECT(eb_follower(&none, &follower), EB_BAD_HANDLE);
    EXPECT(ask(&none, "train"), EB_BAD_HANDLE);
    EXPECT(eb_follower_ask_line(&none, bytes("?1 a"), 4, ids, 10, &answer), EB_BAD_HANDLE);
    EXPECT(eb_follower_seen(&none, &number), EB_BAD_HANDLE);
    EXPECT(eb_follower_held(&none, &number), EB_BAD_HANDLE);
    EXPECT(answer.seen + answer.count + answer.column + answer.written, 0);
    EXPECT(eb_stream_open(&leader, 0, 2, 1024, 2), EB_BAD_SETTING);
    EXPECT(eb_stream_open(&leader, 1, 2, 1024, 1), EB_BAD_SETTING);
    EXPECT(eb_stream_open(&leader, 1, 2, 1024, 65), EB_BAD_SETTING);
    EXPECT(leader.kind, 0);
    EXPECT(OPEN(&leader), EB_OK);
    EXPECT(leader.kind, 4);
    EXPECT(OPEN(&leader), EB_BAD_HANDLE);
    EXPECT(eb_follower(&leader, &follower), EB_OK);
    EXPECT(follower.kind, 5);
    EXPECT(eb_follower(&leader, &follower), EB_BAD_HANDLE);
    EXPECT(eb_follower(&follower, &none), EB_BAD_HANDLE);
    EXPECT(add(&follower, 1, "train"), EB_BAD_HANDLE);
    EXPECT(ask(&leader, "train"), EB_BAD_HANDLE);
    EXPECT(eb_leader_tell(&follower, &told), EB_BAD_HANDLE);
    EXPECT(eb_follower_seen(&leader, &number), EB_BAD_HANDLE);
    EXPECT(number, 77);
    EXPECT(told, 77);
    EXPECT(eb_open(&writer, &converter, 1, 2, 1024), EB_OK);
    EXPECT(eb_writer_add_text(&leader, 1, bytes("a"), 1), EB_BAD_HANDLE);
    EXPECT(eb_reader(&leader, &none), EB_BAD_HANDLE);
    EXPECT(eb_reader(&follower, &none), EB_BAD_HANDLE);
    EXPECT(eb_reader_ask_text(&follower, 1, bytes("a"), 1, ids, 10, &answer), EB_BAD_HANDLE);
    EXPECT(eb_converter_convert(&leader, &told), EB_BAD_HANDLE);
    EXPECT(add(&writer, 1, "train"), EB_BAD_HANDLE);
    EXPECT(eb_follower(&writer, &none), EB_BAD_HANDLE);
    EXPECT(eb_leader_converter(&leader, &converter), EB_BAD_HANDLE);
    EXPECT(none.kind, 0);
    EXPECT(eb_leader_tell(&leader, &told), EB_OK);
    EXPECT(told, 1);
    eb_close(&writer);
    eb_close(&converter);
    eb_close(&leader);
    eb_close(&leader);
    EXPECT(add(&leader, 1, "train"), EB_BAD_HANDLE);
    EXPECT(ask(&follower, "train"), EB_OK);
    EXPECT(answer.seen, 0);
    eb_close(&follower);
    EXPECT(ask(&follower, "train"), EB_BAD_HANDLE);
    EXPECT(OPEN(&leader), EB_OK);
    EXPECT(eb_follower(&leader, &follower), EB_OK);
    eb_close(&follower);
    eb_close(&leader);
}

/* Generations of two documents, of which the last two are kept: a follower that asks each time, one that sleeps, and one that is
 * made late. */
static void turns(void) {
    struct eb_handle leader = {NULL, 0}, awake = {NULL, 0}, asleep = {NULL, 0}, late = {NULL, 0};
    uint64_t number = 0;
    EXPECT(OPEN(&leader), EB_OK);
    EXPECT(eb_follower(&leader, &awake), EB_OK);
    EXPECT(eb_follower(&leader, &asleep), EB_OK);
    for (uint64_t n = 1; n <= 9; n++) {
        uint64_t first = n <= 2 ? 1 : (n - 1) / 2 * 2 - 1; /* of the last two generations */
        EXPECT(add(&leader, n, n % 2 ? "night train" : "train"), EB_OK);
        EXPECT(ask(&awake, "train"), EB_OK);
        EXPECT(answer.seen, n);
        EXPECT(answer.count, n - first + 1);
        for (uint64_t at = 0; at < answer.count; at++)
            EXPECT(ids[at], n - at);
        EXPECT(eb_follower_seen(&awake, &number), EB_OK);
        EXPECT(number, n);
        EXPECT(eb_follower_held(&awake, &number), EB_OK);
        EXPECT(number, n <= 2 ? 1 : 2);
    }
    EXPECT(eb_follower_seen(&asleep, &number), EB_OK);
    EXPECT(number, 0);
    EXPECT(eb_follower_held(&asleep, &number), EB_OK);
    EXPECT(number, 1);
    EXPECT(eb_follower(&leader, &late), EB_OK);
    EXPECT(eb_follower_seen(&late, &number), EB_OK);
    EXPECT(number, 9);
    eb_close(&leader);
    EXPECT(ask(&asleep, "night"), EB_OK);
    EXPECT(answer.seen, 9);
    EXPECT(answer.count, 2);
    EXPECT(ids[0] * 10 + ids[1], 97);
    EXPECT(eb_follower_ask_line(&late, bytes("?1 night"), 8, ids, 10, &answer), EB_OK);
    EXPECT(answer.seen, 9);
    EXPECT(answer.count, 1);
    EXPECT(ids[0], 9);
    eb_close(&awake);
    eb_close(&late);
    eb_close(&asleep);
}

/* Refusals change nothing: what the follower was told is taken in by the next ask that is answered. */
static void at_the_ends(void) {
    struct eb_handle leader = {NULL, 0}, follower = {NULL, 0};
    struct eb_count count;
    uint64_t seen = 77, buckets[2];
    EXPECT(OPEN(&leader), EB_OK);
    EXPECT(eb_follower(&leader, &follower), EB_OK);
    EXPECT(add(&leader, 1, ""), EB_OK);
    EXPECT(add(&leader, 2, "\xff"), EB_BAD_TEXT);
    EXPECT(eb_leader_add_line(&leader, bytes(""), 0), EB_BAD_LINE);
    EXPECT(eb_leader_add_line(&leader, bytes("{\"id\":2}"), 8), EB_BAD_DOCUMENT);
    EXPECT(eb_leader_add_line(&leader, bytes("{\"id\":2,\"text\":\"late train\"}"), 28), EB_OK);
    EXPECT(add(&leader, 3, "train"), EB_OK);
    EXPECT(ask(&follower, "\xff"), EB_BAD_TEXT);
    EXPECT(ask(&follower, "train -"), EB_BAD_QUERY);
    EXPECT(answer.column, 8);
    EXPECT(eb_follower_ask_text(&follower, 0, bytes("train"), 5, ids, 10, &answer), EB_BAD_NUMBER);
    EXPECT(eb_follower_ask_line(&follower, bytes("train"), 5, ids, 10, &answer), EB_BAD_LINE);
    EXPECT(eb_follower_seen(&follower, &seen), EB_OK);
    EXPECT(seen, 0);
    EXPECT(eb_follower_ask_text(&follower, 10, bytes("train"), 5, NULL, 0, &answer), EB_OK);
    EXPECT(answer.seen * 10 + answer.count, 32);
    EXPECT(eb_follower_ask_text(&follower, 10, bytes("train"), 5, ids, 1, &answer), EB_OK);
    EXPECT(answer.count, 2);
    EXPECT(ids[0], 3);
    EXPECT(add(&leader, 4, "train"), EB_OK);
    EXPECT(eb_follower_count_text(&follower, bytes("train"), 5, 3, 1, buckets, 2, &count), EB_OK);
    EXPECT(count.seen * 1000 + count.total * 100 + buckets[0] * 10 + buckets[1], 4311);
    EXPECT(eb_follower_count_text(&leader, bytes("train"), 5, 0, 0, NULL, 0, &count), EB_BAD_HANDLE);
    eb_close(&follower);
    eb_close(&leader);
}

/* The converter of each generation, which goes on without the leader. */
static void packed(void) {
    struct eb_handle leader = {NULL, 0}, follower = {NULL, 0}, first = {NULL, 0}, second = {NULL, 0}, again = {NULL, 0};
    uint32_t number = 77;
    EXPECT(eb_stream_open(&leader, 3, 1, 1024, 2), EB_OK);
    EXPECT(eb_leader_converter(&leader, &first), EB_OK);
    EXPECT(first.kind, 3);
    EXPECT(eb_leader_converter(&leader, &again), EB_OK);
    EXPECT(again.kind, 0);
    EXPECT(eb_leader_converter(&leader, &first), EB_BAD_HANDLE);
    EXPECT(eb_follower(&leader, &follower), EB_OK);
    for (uint64_t n = 1; n <= 5; n++)
        EXPECT(add(&leader, n, "train"), EB_OK);
    EXPECT(eb_leader_converter(&leader, &second), EB_OK);
    EXPECT(second.kind, 3);
    eb_close(&leader);
    for (uint32_t n = 1; n <= 3; n++) {
        EXPECT(eb_converter_convert(&first, &number), EB_OK);
        EXPECT(number, n < 2 ? n : 2);
        EXPECT(eb_converter_convert(&second, &number), EB_OK);
        EXPECT(number, 1);
    }
    EXPECT(ask(&follower, "train"), EB_OK);
    EXPECT(answer.seen * 10 + answer.count, 55);
    EXPECT(ids[0] * 10 + ids[4], 51);
    eb_close(&first);
    eb_close(&follower);
    eb_close(&second);
}

/* A spare index: who may lend it, which one comes back, and that the next generation takes it. */
static void lent(void) {
    struct eb_handle leader = {NULL, 0}, spare = {NULL, 0}, other = {NULL, 0}, follower = {NULL, 0};
    EXPECT(eb_spare_open(&spare, 0, 2, 1024), EB_BAD_SETTING);
    EXPECT(spare.kind, 0);
    EXPECT(eb_spare_open(&spare, 1, 2, 1024), EB_OK);
    EXPECT(spare.kind, 6);
    EXPECT(eb_spare_open(&spare, 1, 2, 1024), EB_BAD_HANDLE);
    EXPECT(eb_leader_lend(&leader, &spare), EB_BAD_HANDLE);
    EXPECT(eb_leader_lend(&spare, &spare), EB_BAD_HANDLE);
    EXPECT(OPEN(&leader), EB_OK);
    EXPECT(eb_leader_lend(&leader, &other), EB_BAD_HANDLE);
    EXPECT(eb_leader_lend(&spare, &leader), EB_BAD_HANDLE);
    EXPECT(add(&spare, 1, "train"), EB_BAD_HANDLE);
    EXPECT(ask(&spare, "train"), EB_BAD_HANDLE);
    EXPECT(spare.kind * 10 + leader.kind, 64);
    EXPECT(eb_spare_open(&other, 1, 3, 1024), EB_OK);
    EXPECT(eb_leader_lend(&leader, &other), EB_BAD_SETTING);
    EXPECT(other.kind, 6);
    eb_close(&other);
    EXPECT(eb_leader_lend(&leader, &spare), EB_OK);
    EXPECT(spare.kind, 0);
    EXPECT(eb_spare_open(&spare, 1, 2, 1024), EB_OK);
    EXPECT(eb_follower(&leader, &follower), EB_OK);
    for (uint64_t n = 1; n <= 2; n++) {
        EXPECT(eb_leader_lend(&leader, &spare), EB_OK);
        EXPECT(spare.kind, 6); /* the one before, which no generation took */
        EXPECT(add(&leader, n, "train"), EB_OK);
    }
    EXPECT(add(&leader, 3, "train"), EB_OK);
    EXPECT(eb_leader_lend(&leader, &spare), EB_OK);
    EXPECT(spare.kind, 0);
    EXPECT(ask(&follower, "train"), EB_OK);
    EXPECT(answer.seen * 10 + answer.count, 33);
    eb_close(&leader);
    eb_close(&follower);
}

/* What a generation let go that was begun in a spare index: which one is given out, and that a follower that sleeps has it on. */
static void let_go(void) {
    struct eb_handle leader = {NULL, 0}, asleep = {NULL, 0}, spare = {NULL, 0}, released = {NULL, 0};
    uint64_t number = 0;
    EXPECT(OPEN(&leader), EB_OK);
    EXPECT(eb_leader_released(&leader, &leader), EB_BAD_HANDLE);
    EXPECT(eb_leader_released(&released, &leader), EB_BAD_HANDLE);
    EXPECT(eb_follower(&leader, &asleep), EB_OK);
    for (uint64_t n = 1; n <= 15; n++) {
        /* the turns are those of 3, 5, 7 and so on; from that of 5 on each lets one go; those of 7 and 11 open an index themselves */
        if (n % 2 == 1 && n != 1 && n != 7 && n != 11) {
            EXPECT(eb_spare_open(&spare, 1, 2, 1024), EB_OK);
            EXPECT(eb_leader_lend(&leader, &spare), EB_OK);
            EXPECT(spare.kind, 0);
        }
        EXPECT(add(&leader, n, "train"), EB_OK);
        if (n == 9 || n == 10 || n == 13 || n == 14)
            continue; /* what they let go isn't taken, and goes with the next turn */
        EXPECT(eb_leader_released(&leader, &released), EB_OK);
        EXPECT(released.kind, n == 5 || n == 15 ? 7 : 0);
        if (released.kind == 7) {
            EXPECT(eb_leader_released(&leader, &released), EB_BAD_HANDLE);
            EXPECT(eb_leader_released(&released, &spare), EB_BAD_HANDLE);
            EXPECT(add(&released, 1, "train"), EB_BAD_HANDLE);
            EXPECT(ask(&released, "train"), EB_BAD_HANDLE);
            EXPECT(eb_leader_lend(&leader, &released), EB_BAD_HANDLE);
            EXPECT(eb_leader_released(&leader, &spare), EB_OK);
            EXPECT(spare.kind, 0);
        }
        eb_close(&released);
    }
    EXPECT(eb_follower_held(&asleep, &number), EB_OK);
    EXPECT(number, 1);
    EXPECT(ask(&asleep, "train"), EB_OK);
    EXPECT(answer.seen * 10 + answer.count, 153);
    EXPECT(ids[0] * 100 + ids[2], 1513);
    eb_close(&leader);
    eb_close(&asleep);
}

static long without_memory(void) {
    struct eb_handle leader = {NULL, 0}, follower = {NULL, 0}, converter = {NULL, 0}, spare = {NULL, 0}, released = {NULL, 0};
    long tried = 0;
    uint32_t told = 0;
    UNTIL_IT_GOES_WELL(OPEN(&leader), leader.kind == 0)
    UNTIL_IT_GOES_WELL(eb_follower(&leader, &follower), leader.kind == 4 && follower.kind == 0)
    left = 0;
    EXPECT(eb_leader_converter(&leader, &converter), EB_NO_MEMORY);
    left = -1;
    EXPECT(converter.kind, 0);
    EXPECT(eb_leader_converter(&leader, &converter), EB_OK);
    EXPECT(converter.kind, 0);
    UNTIL_IT_GOES_WELL(eb_spare_open(&spare, 1, 2, 1024), spare.kind == 0)
    EXPECT(eb_leader_lend(&leader, &spare), EB_OK);
    EXPECT(spare.kind, 0);
    EXPECT(eb_spare_open(&spare, 1, 2, 1024), EB_OK);
    left = 0; /* the one that was lent before comes back, also where there is no memory */
    EXPECT(eb_leader_lend(&leader, &spare), EB_OK);
    EXPECT(spare.kind, 6);
    EXPECT(eb_leader_lend(&leader, &spare), EB_OK);
    EXPECT(spare.kind, 6);
    left = -1;
    eb_close(&spare);
    for (uint64_t n = 1; n <= 4; n++)
        UNTIL_IT_GOES_WELL(add(&leader, n, "night train"), leader.kind == 4)
    EXPECT(eb_spare_open(&spare, 1, 2, 1024), EB_OK);
    EXPECT(eb_leader_lend(&leader, &spare), EB_OK);
    EXPECT(add(&leader, 5, "night train"), EB_OK);
    left = 0;
    EXPECT(eb_leader_released(&leader, &released), EB_NO_MEMORY);
    left = -1;
    EXPECT(eb_leader_released(&leader, &released), EB_OK);
    EXPECT(released.kind, 0);
    /* (the letter of the last add may have had no memory) */
    EXPECT(eb_leader_tell(&leader, &told), EB_OK);
    EXPECT(told, 1);
    UNTIL_IT_GOES_WELL(ask(&follower, "night OR train"), follower.kind == 5)
    EXPECT(answer.seen, 5);
    EXPECT(answer.count, 3);
    EXPECT(ids[0] * 100 + ids[1] * 10 + ids[2], 543);
    eb_close(&converter);
    eb_close(&leader);
    eb_close(&follower);
    return tried;
}

int main(void) {
    refused();
    turns();
    at_the_ends();
    packed();
    lent();
    let_go();
    EXPECT(without_memory() > 9, 1);
    if (failures == 0)
        puts("right");
    return failures != 0;
}
