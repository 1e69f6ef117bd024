/* One thread adds messages, one packs closed segments, and others search at the same time. Each answer is checked as it comes.
 * Arguments: how many messages, how many readers. Prints what was done a second. */
#include "earlybird.h"
#include <inttypes.h>
#include <pthread.h>
#include <stdatomic.h>
#include <stdio.h>
#include <stdlib.h>
#include <string.h>
#include <time.h>

#define MOST_READERS 16
#define MOST_IDS 1000
#define WANTED 10

static uint64_t messages = 200000;
static _Atomic uint64_t added; /* so many adds were answered */
static atomic_int over;

static double seconds(void) {
    struct timespec now;
    clock_gettime(CLOCK_MONOTONIC, &now);
    return (double)now.tv_sec + (double)now.tv_nsec * 1e-9;
}

static void fail(const char *what, uint64_t got, uint64_t want) {
    fprintf(stderr, "share: %s: %" PRIu64 ", not %" PRIu64 "\n", what, got, want);
    exit(1);
}

static void expect(const char *what, uint32_t got, uint32_t want) {
    if (got != want)
        fail(what, got, want);
}

/* Message n has the id n. Each has "all", each third has "third", and each has one of a thousand other words. */
static size_t text_of(uint64_t n, char *text, size_t size) {
    return (size_t)snprintf(text, size, "all w%" PRIu64 " %s message", n % 1000, n % 3 ? "other" : "third");
}

#define QUERIES 5
static const char *const queries[QUERIES] = {"third", "all", "w7", "all -third", "w7 OR w9"};

static int matches(unsigned query, uint64_t n) {
    switch (query) {
    case 0: return n % 3 == 0;
    case 1: return 1;
    case 2: return n % 1000 == 7;
    case 3: return n % 3 != 0;
    default: return n % 1000 == 7 || n % 1000 == 9;
    }
}

/* Whether these are exactly the newest that match of the first `seen` messages. */
static void check(unsigned query, uint64_t seen, const uint64_t *ids, uint64_t count) {
    uint64_t found = 0;
    for (uint64_t n = seen; n > 0 && found < WANTED; n--) {
        if (!matches(query, n))
            continue;
        if (found >= count || ids[found] != n)
            fail("an id", found < count ? ids[found] : 0, n);
        found++;
    }
    if (count != found)
        fail("how many match", count, found);
}

struct adding {
    struct eb_handle writer;
    double took;
};

static void *add_all(void *argument) {
    struct adding *adding = argument;
    double begun = seconds();
    for (uint64_t n = 1; n <= messages; n++) {
        char text[96];
        size_t length = text_of(n, text, sizeof text);
        expect("an add", eb_writer_add_text(&adding->writer, n, (const unsigned char *)text, length), EB_OK);
        atomic_store(&added, n);
    }
    adding->took = seconds() - begun;
    atomic_store(&over, 1);
    return NULL;
}

struct packing {
    struct eb_handle converter;
    uint32_t packed;
};

static void *pack_all(void *argument) {
    struct packing *packing = argument;
    while (!atomic_load(&over)) {
        uint32_t before = packing->packed;
        expect("a conversion", eb_converter_convert(&packing->converter, &packing->packed), EB_OK);
        if (packing->packed == before) {
            struct timespec pause = {0, 1000000};
            nanosleep(&pause, NULL);
        }
    }
    return NULL;
}

struct searching {
    struct eb_handle reader;
    uint64_t searches, most;
    double took;
};

static void search_once(struct searching *searching) {
    unsigned query = (unsigned)(searching->searches++ % QUERIES);
    uint64_t before = atomic_load(&added), ids[MOST_IDS];
    struct eb_answer answer;
    uint32_t got = eb_reader_ask_text(&searching->reader, WANTED, (const unsigned char *)queries[query], strlen(queries[query]), ids,
                                      MOST_IDS, &answer);
    expect("a search", got, EB_OK);
    if (answer.seen < before)
        fail("what was added before is seen", answer.seen, before);
    if (answer.seen < searching->most)
        fail("what was seen before is seen", answer.seen, searching->most);
    searching->most = answer.seen;
    check(query, answer.seen, ids, answer.count);
}

static void *search_all(void *argument) {
    struct searching *searching = argument;
    double begun = seconds();
    while (!atomic_load(&over))
        search_once(searching);
    searching->took = seconds() - begun;
    return NULL;
}

static void start(pthread_t *thread, void *(*run)(void *), void *argument) {
    if (pthread_create(thread, NULL, run, argument) != 0)
        fail("a thread", 0, 1);
}

int main(int argc, char **argv) {
    if (argc > 1)
        messages = strtoull(argv[1], NULL, 10);
    size_t readers = argc > 2 ? strtoul(argv[2], NULL, 10) : 3;
    if (readers == 0 || readers > MOST_READERS)
        fail("readers", readers, MOST_READERS);

    struct adding adding = {{NULL, 0}, 0};
    struct packing packing = {{NULL, 0}, 0};
    static struct searching searching[MOST_READERS];
    expect("opening", eb_open(&adding.writer, &packing.converter, 12, 32768, 8192), EB_OK);
    expect("the first reader", eb_reader(&adding.writer, &searching[0].reader), EB_OK);
    for (size_t at = 1; at < readers; at++)
        expect("another reader", eb_reader(&searching[0].reader, &searching[at].reader), EB_OK);

    pthread_t adds, packs, searches[MOST_READERS];
    start(&adds, add_all, &adding);
    start(&packs, pack_all, &packing);
    for (size_t at = 0; at < readers; at++)
        start(&searches[at], search_all, &searching[at]);
    pthread_join(adds, NULL);
    pthread_join(packs, NULL);

    /* the readers go on when the others are closed */
    eb_close(&packing.converter);
    eb_close(&adding.writer);
    uint64_t all = 0;
    double rate = 0;
    for (size_t at = 0; at < readers; at++) {
        pthread_join(searches[at], NULL);
        all += searching[at].searches;
        rate += (double)searching[at].searches / searching[at].took;
        search_once(&searching[at]);
        if (searching[at].most != messages)
            fail("all is seen at last", searching[at].most, messages);
        eb_close(&searching[at].reader);
    }
    fprintf(stderr, "C, readers %zu: %.0f adds a second beside %.0f checked searches a second (%" PRIu64 "), %" PRIu32 " segments packed\n", readers,
            (double)messages / adding.took, rate, all, packing.packed);
    puts("right");
    return 0;
}
