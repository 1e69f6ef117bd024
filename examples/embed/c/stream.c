/* A feed: one thread adds messages over several generations, and packs those that are closed, while others search. Each answer is
 * checked as it comes. Arguments: how many messages, how many followers. Prints what was done a second. */
#include "earlybird.h"
#include <inttypes.h>
#include <pthread.h>
#include <stdatomic.h>
#include <stdio.h>
#include <stdlib.h>
#include <string.h>
#include <time.h>

#define MOST_FOLLOWERS 16
#define MOST_IDS 1000
#define WANTED 10
#define SEGMENTS 2
#define DOCS 2048
#define KEEP 3
#define GENERATION (SEGMENTS * DOCS) /* so many messages, since each segment has room for their words */

static uint64_t messages = 50000;
static _Atomic uint64_t begun; /* the adding of so many was begun */
static _Atomic uint64_t told;  /* so many were added, and each follower was told of their generations */
static atomic_int over;

static double seconds(void) {
    struct timespec now;
    clock_gettime(CLOCK_MONOTONIC, &now);
    return (double)now.tv_sec + (double)now.tv_nsec * 1e-9;
}

static void fail(const char *what, uint64_t got, uint64_t want) {
    fprintf(stderr, "stream: %s: %" PRIu64 ", not %" PRIu64 "\n", what, got, want);
    exit(1);
}

static void expect(const char *what, uint32_t got, uint32_t want) {
    if (got != want)
        fail(what, got, want);
}

/* Message n has the id n. Each has "all", each third has "third", and each has one of a thousand other words. */
static size_t text_of(uint64_t n, char *text, size_t size) {
    return (size_t)snprintf(text, size, "all w%" PRIu64 " %s message", n % 1000, n % 3 ? "other" : "third");
}

#define QUERIES 5
static const char *const queries[QUERIES] = {"third", "all", "w7", "all -third", "w7 OR w9"};

static int matches(unsigned query, uint64_t n) {
    switch (query) {
    case 0: return n % 3 == 0;
    case 1: return 1;
    case 2: return n % 1000 == 7;
    case 3: return n % 3 != 0;
    default: return n % 1000 == 7 || n % 1000 == 9;
    }
}

/* The number of a message's generation, from 0. */
static uint64_t generation_of(uint64_t n) { return n == 0 ? 0 : (n - 1) / GENERATION; }

/* Whether these are exactly the newest that match, of the messages of the last `held` generations up to the message `seen`. */
static void check(unsigned query, uint64_t seen, uint64_t held, const uint64_t *ids, uint64_t count) {
    uint64_t found = 0, all = generation_of(seen) + 1, before = (all - held) * GENERATION;
    if (held != (all < KEEP ? all : KEEP))
        fail("how many generations are held", held, all < KEEP ? all : KEEP);
    for (uint64_t n = seen; n > before && found < WANTED; n--) {
        if (!matches(query, n))
            continue;
        if (found >= count || ids[found] != n)
            fail("an id", found < count ? ids[found] : 0, n);
        found++;
    }
    if (count != found)
        fail("how many match", count, found);
}

struct leading {
    struct eb_handle leader, converter;
    uint32_t packed, packed_before; /* of the newest generation, and of those before it */
    double took;
};

/* Packs what is closed of the newest generation. */
static void pack(struct leading *leading) {
    uint32_t before;
    do {
        before = leading->packed;
        expect("a conversion", eb_converter_convert(&leading->converter, &leading->packed), EB_OK);
    } while (leading->packed != before);
}

static void turn(struct leading *leading) {
    eb_close(&leading->converter);
    leading->packed_before += leading->packed;
    leading->packed = 0;
    expect("a converter", eb_leader_converter(&leading->leader, &leading->converter), EB_OK);
    expect("its kind", leading->converter.kind, 3);
}

static void *add_all(void *argument) {
    struct leading *leading = argument;
    double start = seconds();
    for (uint64_t n = 1; n <= messages; n++) {
        char text[96];
        size_t length = text_of(n, text, sizeof text);
        uint32_t all_told;
        atomic_store(&begun, n);
        expect("an add", eb_leader_add_text(&leading->leader, n, (const unsigned char *)text, length), EB_OK);
        do
            expect("telling", eb_leader_tell(&leading->leader, &all_told), EB_OK);
        while (all_told == 0);
        atomic_store(&told, n);
        if (n % GENERATION == 1)
            turn(leading);
        else if (n % (DOCS / 2) == 1)
            pack(leading);
    }
    leading->took = seconds() - start;
    atomic_store(&over, 1);
    return NULL;
}

struct searching {
    struct eb_handle follower;
    uint64_t searches, most, missed;
    double took;
};

/* Whether a generation was begun since so many were told. The letter that tells of it replaces one that wasn't taken yet, and for that
 * moment a follower finds none. */
static int just_told(uint64_t before) { return generation_of(atomic_load(&begun)) > generation_of(before); }

static void search_once(struct searching *searching) {
    unsigned query = (unsigned)(searching->searches++ % QUERIES);
    uint64_t before = atomic_load(&told), held, ids[MOST_IDS];
    struct eb_answer answer;
    uint32_t got = eb_follower_ask_text(&searching->follower, WANTED, (const unsigned char *)queries[query], strlen(queries[query]), ids,
                                        MOST_IDS, &answer);
    expect("a search", got, EB_OK);
    expect("what is held", eb_follower_held(&searching->follower, &held), EB_OK);
    if (answer.seen < searching->most)
        fail("what was seen before is seen", answer.seen, searching->most);
    searching->most = answer.seen;
    check(query, answer.seen, held, ids, answer.count);
    if (answer.seen >= before)
        return;
    if (!just_told(before))
        fail("what was told before is seen", answer.seen, before);
    searching->missed++;
    search_once(searching);
}

static void *search_all(void *argument) {
    struct searching *searching = argument;
    double start = seconds();
    while (!atomic_load(&over))
        search_once(searching);
    searching->took = seconds() - start;
    return NULL;
}

static void start(pthread_t *thread, void *(*run)(void *), void *argument) {
    if (pthread_create(thread, NULL, run, argument) != 0)
        fail("a thread", 0, 1);
}

/* Asks once more, and sees all that was told. */
static void see_all(struct searching *searching) {
    search_once(searching);
    if (searching->most != messages)
        fail("all is seen at last", searching->most, messages);
    eb_close(&searching->follower);
}

int main(int argc, char **argv) {
    if (argc > 1)
        messages = strtoull(argv[1], NULL, 10);
    size_t followers = argc > 2 ? strtoul(argv[2], NULL, 10) : 2;
    if (followers == 0 || followers > MOST_FOLLOWERS)
        fail("followers", followers, MOST_FOLLOWERS);

    static struct leading leading;
    static struct searching searching[MOST_FOLLOWERS], sleeping;
    expect("opening", eb_stream_open(&leading.leader, SEGMENTS, DOCS, 2048, KEEP), EB_OK);
    expect("a follower that sleeps", eb_follower(&leading.leader, &sleeping.follower), EB_OK);
    for (size_t at = 0; at < followers; at++)
        expect("a follower", eb_follower(&leading.leader, &searching[at].follower), EB_OK);

    pthread_t adds, searches[MOST_FOLLOWERS];
    start(&adds, add_all, &leading);
    for (size_t at = 0; at < followers; at++)
        start(&searches[at], search_all, &searching[at]);
    pthread_join(adds, NULL);

    /* the followers go on when the leader is closed */
    eb_close(&leading.converter);
    eb_close(&leading.leader);
    uint64_t all = 0, missed = 0;
    double rate = 0;
    for (size_t at = 0; at < followers; at++) {
        pthread_join(searches[at], NULL);
        all += searching[at].searches;
        missed += searching[at].missed;
        rate += (double)searching[at].searches / searching[at].took;
        see_all(&searching[at]);
    }
    see_all(&sleeping);
    fprintf(stderr,
            "C, followers %zu: %.0f adds a second over %" PRIu64 " generations beside %.0f checked searches a second (%" PRIu64 ", %" PRIu64
            " again), %" PRIu32 " segments packed\n",
            followers, (double)messages / leading.took, generation_of(messages) + 1, rate, all, missed, leading.packed_before + leading.packed);
    puts("right");
    return 0;
}
