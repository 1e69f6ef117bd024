/* Adds and searches a second of what threads share: one thread adds without a pause, and so many search beside it. Prints one line of
 * JSON.
 *
 *     threads shared|stream SEARCHING SECONDS    the seconds, the adds, and the searches of each thread. It goes in rounds of MESSAGES
 *                                                for so many seconds at least, each over a new index or feed
 *     threads feed SEARCHING ADDS                of one feed with so many adds also the pause of each, those that begin a generation, and the
 *                                                memory: see below
 *     threads lent SEARCHING ADDS                the same of a feed that is lent the index of each next generation, which another thread opens;
 *                                                that thread also closes the generations that are let go
 *     threads whole SEARCHING ADDS               the same of a feed whose first generation has room for all: no other is begun
 *     threads feed|lent|whole SEARCHING ADDS paced    the same at a pace: it naps after each NAPPING adds, so that opening keeps up; then
 *                                                also of each add the thread's own processor time
 *     threads check SEARCHING SECONDS            adds to a feed of small generations for so long, and compares each answer with a plain
 *                                                scan: how many there were, and how many were wrong, which is the status too
 *
 * Opening isn't measured, nor is making the texts. */
#include "earlybird.h"
#include <inttypes.h>
#include <pthread.h>
#include <stdatomic.h>
#include <stdio.h>
#include <stdlib.h>
#include <string.h>
#include <sys/resource.h>
#include <time.h>
#include <unistd.h>

#define MESSAGES 150000
#define MOST_SEARCHING 16
#define WANTED 10
#define QUERIES 5

static const char *const queries[QUERIES] = {"third", "all", "w7", "all -third", "w7 OR w9"};

static char texts[MESSAGES][48];
static size_t lengths[MESSAGES];
static int of_stream;
static pthread_barrier_t ready; /* the adding and the searching of a round begin together */
static atomic_int over;

static double seconds(void) {
    struct timespec now;
    clock_gettime(CLOCK_MONOTONIC, &now);
    return (double)now.tv_sec + (double)now.tv_nsec * 1e-9;
}

static void expect(const char *what, uint32_t got) {
    if (got == EB_OK)
        return;
    fprintf(stderr, "threads: %s: %s\n", what, eb_name(got));
    exit(1);
}

struct searching {
    struct eb_handle handle;
    uint64_t searches;
};

static void *search_all(void *argument) {
    struct searching *searching = argument;
    uint64_t ids[WANTED];
    struct eb_answer answer;
    uint32_t (*ask)(struct eb_handle *, uint32_t, const unsigned char *, size_t, uint64_t *, size_t, struct eb_answer *) =
        of_stream ? eb_follower_ask_text : eb_reader_ask_text;
    pthread_barrier_wait(&ready);
    while (!atomic_load(&over)) {
        const char *query = queries[searching->searches++ % QUERIES];
        expect("a search", ask(&searching->handle, WANTED, (const unsigned char *)query, strlen(query), ids, WANTED, &answer));
    }
    return NULL;
}

/* A round; gives its seconds. */
static double round_of(struct searching *searching, size_t number) {
    struct eb_handle adding = {NULL, 0}, converter = {NULL, 0};
    pthread_t threads[MOST_SEARCHING];
    if (of_stream)
        expect("opening", eb_stream_open(&adding, 12, 4096, 8192, 4));
    else
        expect("opening", eb_open(&adding, &converter, 12, 32768, 8192));
    atomic_store(&over, 0);
    pthread_barrier_init(&ready, NULL, (unsigned)number + 1);
    for (size_t at = 0; at < number; at++) {
        expect("making", of_stream ? eb_follower(&adding, &searching[at].handle) : eb_reader(&adding, &searching[at].handle));
        if (pthread_create(&threads[at], NULL, search_all, &searching[at]) != 0)
            exit(1);
    }
    uint32_t (*add)(struct eb_handle *, uint64_t, const unsigned char *, size_t) = of_stream ? eb_leader_add_text : eb_writer_add_text;
    pthread_barrier_wait(&ready);
    double begun = seconds();
    for (size_t n = 0; n < MESSAGES; n++)
        expect("an add", add(&adding, n, (const unsigned char *)texts[n], lengths[n]));
    double took = seconds() - begun;
    atomic_store(&over, 1);
    for (size_t at = 0; at < number; at++) {
        pthread_join(threads[at], NULL);
        eb_close(&searching[at].handle);
    }
    pthread_barrier_destroy(&ready);
    eb_close(&converter);
    eb_close(&adding);
    return took;
}

/* ---- one feed, from its first add to its last
 *
 * The pause of an add is what the clock tells before and after it; the clock's own time is in it. The processor time of an add is what the
 * clock of the thread tells so; that clock is a system call, which is in it too, and so it is read only at a pace. A pause falls into
 * the bucket of its nanoseconds: 16 for each power of two, so that what is told of a bucket, its end, is at most a sixteenth above the
 * pause. The resident memory is that of the process after opening, in the middle and at the end. A follower that asked once, before
 * the middle, sleeps through the second half: so the memory at the end is that of a feed with one that sleeps. It asks again then.
 * Where indexes are lent, the thread that adds tries it before each LENDING_th add, and takes what was let go; that is a part of its pause.
 * The other thread opens an index where one is wanted, and then closes what was let go: meanwhile the followers that search have asked
 * again, so it is the last who holds that generation, and gives its memory back.
 *
 * A turn is an add that begins a generation. Here that is the add after each GENERATION adds, since no other room of a segment runs out
 * before that for its documents; the leader is asked before and after it whether it is so. The turn opens an index where none was lent
 * since the last turn. */

#define LENDING 1024
#define NAPPING 100
#ifndef SEGMENTS
#define SEGMENTS 12
#define DOCS 4096
#define TERMS 8192
#endif
#define GENERATION ((uint64_t)SEGMENTS * DOCS)
#ifndef WHOLE
#define WHOLE 62 /* segments, where one generation has room for all */
#endif

#define FINE 16
#define BUCKETS (FINE * 61)

struct pauses {
    uint64_t buckets[BUCKETS], longest;
};

static struct pauses by_the_clock, of_the_processor;

/* How many adds were turns, how many of them opened an index, and the longest of them. */
struct turns {
    uint64_t adds, opened, longest, of_the_processor;
};

static uint64_t nanoseconds(clockid_t clock) {
    struct timespec now;
    clock_gettime(clock, &now);
    return (uint64_t)now.tv_sec * 1000000000u + (uint64_t)now.tv_nsec;
}

/* The bucket of a pause: the first FINE have a nanosecond each. */
static size_t bucket_of(uint64_t pause) {
    size_t power = 0;
    while (pause >> power >= 2 * FINE)
        power++;
    return FINE * power + (size_t)(pause >> power);
}

/* The greatest pause that falls into it. */
static uint64_t end_of(size_t bucket) {
    if (bucket < 2 * FINE)
        return bucket;
    size_t power = bucket / FINE - 1;
    return ((uint64_t)(bucket % FINE + FINE + 1) << power) - 1;
}

static void count(struct pauses *pauses, uint64_t pause) {
    pauses->buckets[bucket_of(pause)]++;
    if (pause > pauses->longest)
        pauses->longest = pause;
}

/* The pause that so many of 1,000 aren't above, as far as buckets tell. */
static uint64_t pause_of(const struct pauses *pauses, uint64_t adds, uint64_t of_thousand) {
    uint64_t wanted = adds - adds * (1000 - of_thousand) / 1000, passed = 0;
    for (size_t at = 0; at < BUCKETS; at++) {
        passed += pauses->buckets[at];
        if (passed >= wanted)
            return end_of(at);
    }
    return 0;
}

/* The resident memory of the process, in KiB; and the most that it had. */
static uint64_t resident(void) {
    uint64_t all, pages = 0;
    FILE *file = fopen("/proc/self/statm", "r");
    if (file == NULL || fscanf(file, "%" SCNu64 " %" SCNu64, &all, &pages) != 2)
        exit(1);
    fclose(file);
    return pages * (uint64_t)sysconf(_SC_PAGESIZE) / 1024;
}

static uint64_t most_resident(void) {
    struct rusage usage;
    if (getrusage(RUSAGE_SELF, &usage) != 0)
        exit(1);
    return (uint64_t)usage.ru_maxrss;
}

/* Asks once, and gives how many documents the follower knows then. */
static uint64_t asked(struct eb_handle *follower) {
    uint64_t ids[WANTED];
    struct eb_answer answer;
    expect("asking", eb_follower_ask_text(follower, WANTED, (const unsigned char *)"all", 3, ids, WANTED, &answer));
    return answer.seen;
}

/* An index that is opened ahead, and a generation that was let go: the one thread has the handle while the flag is up, and the other
 * while it is down. */
static struct eb_handle spare, released;
static atomic_int there, let_go;

static void *open_and_close(void *argument) {
    const struct timespec nap = {0, 1000000};
    for (; !atomic_load(&over); nanosleep(&nap, NULL)) {
        if (!atomic_load(&there)) {
            expect("opening ahead", eb_spare_open(&spare, SEGMENTS, DOCS, TERMS));
            atomic_store(&there, 1);
        }
        if (atomic_load(&let_go)) {
            eb_close(&released);
            atomic_store(&let_go, 0);
        }
    }
    return argument;
}

/* Whether the leader was lent an index since the last turn: only the thread that adds knows. */
static int has_lent;

/* Lends the index that is there, and takes what the leader let go. Where the leader had no index, another is wanted. */
static void lend(struct eb_handle *leader) {
    if (atomic_load(&there)) {
        expect("lending", eb_leader_lend(leader, &spare));
        if ((spare.kind != 0) != has_lent) {
            fprintf(stderr, "threads: the leader %s an index\n", has_lent ? "lost" : "opened no generation in");
            exit(1);
        }
        has_lent = 1;
        if (spare.kind == 0)
            atomic_store(&there, 0);
    }
    if (!atomic_load(&let_go)) {
        expect("taking what was let go", eb_leader_released(leader, &released));
        if (released.kind != 0)
            atomic_store(&let_go, 1);
    }
}

/* Whether the leader began a generation since it was asked last: then, and only then, it makes a converter, which isn't used. */
static int has_begun(struct eb_handle *leader) {
    struct eb_handle converter = {NULL, 0};
    expect("asking for a converter", eb_leader_converter(leader, &converter));
    int begun = converter.kind != 0;
    eb_close(&converter);
    return begun;
}

/* Ends where the leader began a generation since it was asked last, and none was to be begun; or began none, and one was. */
static void expect_begun(struct eb_handle *leader, int wanted, uint64_t adds) {
    if (has_begun(leader) == wanted)
        return;
    fprintf(stderr, "threads: after %" PRIu64 " adds a generation was begun %s\n", adds, wanted ? "too late" : "too soon");
    exit(1);
}

static void count_turn(struct turns *turns, uint64_t pause, uint64_t processor) {
    turns->adds++;
    turns->opened += !has_lent;
    has_lent = 0;
    if (pause > turns->longest)
        turns->longest = pause;
    if (processor > turns->of_the_processor)
        turns->of_the_processor = processor;
}

static void print_pauses(const char *before, const struct pauses *pauses, uint64_t adds) {
    printf("%s\"50th of 100\": %" PRIu64 ", \"99th\": %" PRIu64 ", \"99.9th\": %" PRIu64 ", \"longest\": %" PRIu64 "}", before,
           pause_of(pauses, adds, 500), pause_of(pauses, adds, 990), pause_of(pauses, adds, 999), pauses->longest);
}

static void measure_feed(struct searching *searching, size_t number, uint64_t adds, int lends, int whole, int paced) {
    const struct timespec nap = {0, 400000};
    struct eb_handle leader = {NULL, 0}, sleeper = {NULL, 0};
    pthread_t opener;
    pthread_t threads[MOST_SEARCHING];
    struct turns turns = {0};
    uint64_t memory[4] = {0}, slept = 0, woken, held, used = 0;
    if (whole)
        expect("opening", eb_stream_open(&leader, WHOLE, (uint32_t)(adds / WHOLE + 1), TERMS, 4));
    else
        expect("opening", eb_stream_open(&leader, SEGMENTS, DOCS, TERMS, 4));
    memory[0] = resident();
    expect_begun(&leader, 1, 0);
    if (lends && pthread_create(&opener, NULL, open_and_close, NULL) != 0)
        exit(1);
    pthread_barrier_init(&ready, NULL, (unsigned)number + 1);
    for (size_t at = 0; at < number; at++) {
        expect("making", eb_follower(&leader, &searching[at].handle));
        if (pthread_create(&threads[at], NULL, search_all, &searching[at]) != 0)
            exit(1);
    }
    expect("making", eb_follower(&leader, &sleeper));
    pthread_barrier_wait(&ready);
    double begun = seconds();
    for (uint64_t n = 0; n < adds; n++) {
        size_t at = n % MESSAGES;
        int turn = !whole && n > 0 && n % GENERATION == 0;
        if (turn)
            expect_begun(&leader, 0, n);
        if (n == adds / 2) {
            slept = asked(&sleeper);
            memory[1] = resident();
        }
        if (paced && n % NAPPING == 0)
            nanosleep(&nap, NULL);
        if (paced)
            used = nanoseconds(CLOCK_THREAD_CPUTIME_ID);
        uint64_t before = nanoseconds(CLOCK_MONOTONIC);
        if (lends && n % LENDING == 0)
            lend(&leader);
        expect("an add", eb_leader_add_text(&leader, n, (const unsigned char *)texts[at], lengths[at]));
        uint64_t pause = nanoseconds(CLOCK_MONOTONIC) - before, processor = 0;
        count(&by_the_clock, pause);
        if (paced) {
            processor = nanoseconds(CLOCK_THREAD_CPUTIME_ID) - used;
            count(&of_the_processor, processor);
        }
        if (turn) {
            expect_begun(&leader, 1, n + 1);
            count_turn(&turns, pause, processor);
        }
    }
    double took = seconds() - begun;
    expect_begun(&leader, 0, adds);
    atomic_store(&over, 1);
    memory[2] = resident();
    for (size_t at = 0; at < number; at++) {
        pthread_join(threads[at], NULL);
        eb_close(&searching[at].handle);
    }
    if (lends) {
        pthread_join(opener, NULL);
        eb_close(&spare);
        eb_close(&released);
    }
    for (uint32_t told = 0; told == 0;)
        expect("telling", eb_leader_tell(&leader, &told));
    woken = asked(&sleeper);
    expect("asking", eb_follower_held(&sleeper, &held));
    memory[3] = resident();
    eb_close(&sleeper);
    eb_close(&leader);
    if (woken != adds || (whole && held != 1)) {
        fprintf(stderr, "threads: woken after %" PRIu64 " adds, the follower knows %" PRIu64 ", in %" PRIu64 " generations\n", adds, woken, held);
        exit(1);
    }
    printf("{\"seconds\": %.3f, \"adds\": %" PRIu64 ", \"searches\": [", took, adds);
    for (size_t at = 0; at < number; at++)
        printf("%s%" PRIu64, at ? ", " : "", searching[at].searches);
    printf("]");
    print_pauses(", \"pauses, ns\": {", &by_the_clock, adds);
    if (paced)
        print_pauses(", \"of the processor, ns\": {", &of_the_processor, adds);
    printf(", \"turns\": {\"adds\": %" PRIu64 ", \"opened\": %" PRIu64, turns.adds, turns.opened);
    printf(", \"longest, ns\": %" PRIu64, turns.longest);
    if (paced)
        printf(", \"of the processor, ns\": %" PRIu64, turns.of_the_processor);
    printf("}");
    printf(", \"pauses below, ns\": {");
    uint64_t below = 0;
    const char *comma = "";
    for (size_t at = 0; at < BUCKETS; at++) {
        below += by_the_clock.buckets[at];
        if (below > 0 && at % FINE == FINE - 1) {
            printf("%s\"%" PRIu64 "\": %" PRIu64, comma, end_of(at) + 1, below);
            comma = ", ";
            if (below == adds)
                break;
        }
    }
    printf("}, \"resident, KiB\": {\"start\": %" PRIu64 ", \"middle\": %" PRIu64 ", \"end\": %" PRIu64 ", \"woken\": %" PRIu64 ", \"most\": %" PRIu64 "}",
           memory[0], memory[1], memory[2], memory[3], most_resident());
    printf(", \"sleeper\": {\"slept at\": %" PRIu64 ", \"woken at\": %" PRIu64 ", \"held\": %" PRIu64 "}}\n", slept, woken, held);
}

/* ---- each answer beside a plain scan */

#define CHECKED_DOCS 30
#define CHECKED_SIZE (2 * CHECKED_DOCS) /* of a generation, which has two segments */
#define CHECKED_KEEP 3

static atomic_ulong wrong;

/* Whether message n has what the query of this number asks for. */
static int matches(size_t query, uint64_t n) {
    uint64_t word = n % MESSAGES % 1000;
    int third = n % MESSAGES % 3 == 0;
    switch (query) {
    case 0: return third;
    case 1: return 1;
    case 2: return word == 7;
    case 3: return !third;
    default: return word == 7 || word == 9;
    }
}

/* Whether these are the newest matches of the generations that are held. A generation is begun with its first message. */
static int is_right(size_t query, uint64_t held, const struct eb_answer *answer, const uint64_t *ids) {
    uint64_t turns = answer->seen == 0 ? 1 : (answer->seen + CHECKED_SIZE - 1) / CHECKED_SIZE, count = 0;
    if (held == 0 || held > CHECKED_KEEP || held > turns)
        return 0;
    for (uint64_t n = answer->seen; n > (turns - held) * CHECKED_SIZE && count < WANTED; n--)
        if (matches(query, n - 1)) {
            if (count >= answer->count || ids[count] != n - 1)
                return 0;
            count++;
        }
    return count == answer->count;
}

/* Asks, and naps now and then, for longer each time, so that it falls behind. */
static void *check_all(void *argument) {
    struct searching *searching = argument;
    uint64_t ids[WANTED], seen = 0, held;
    struct eb_answer answer;
    pthread_barrier_wait(&ready);
    while (!atomic_load(&over)) {
        size_t at = searching->searches++ % QUERIES;
        expect("a search", eb_follower_ask_text(&searching->handle, WANTED, (const unsigned char *)queries[at], strlen(queries[at]), ids, WANTED, &answer));
        expect("asking", eb_follower_held(&searching->handle, &held));
        if (answer.seen < seen || !is_right(at, held, &answer, ids))
            atomic_fetch_add(&wrong, 1);
        seen = answer.seen;
        if (searching->searches % 1000 == 0) {
            struct timespec nap = {0, (long)(searching->searches / 1000 % 64) * 100000};
            nanosleep(&nap, NULL);
        }
    }
    return NULL;
}

static int check_feed(struct searching *searching, size_t number, double wanted) {
    struct eb_handle leader = {NULL, 0};
    pthread_t threads[MOST_SEARCHING];
    uint64_t adds = 0;
    expect("opening", eb_stream_open(&leader, 2, CHECKED_DOCS, 1024, CHECKED_KEEP));
    pthread_barrier_init(&ready, NULL, (unsigned)number + 1);
    for (size_t at = 0; at < number; at++) {
        expect("making", eb_follower(&leader, &searching[at].handle));
        if (pthread_create(&threads[at], NULL, check_all, &searching[at]) != 0)
            exit(1);
    }
    pthread_barrier_wait(&ready);
    double begun = seconds();
    for (; seconds() - begun < wanted; adds++)
        expect("an add", eb_leader_add_text(&leader, adds, (const unsigned char *)texts[adds % MESSAGES], lengths[adds % MESSAGES]));
    double took = seconds() - begun;
    atomic_store(&over, 1);
    printf("{\"seconds\": %.3f, \"adds\": %" PRIu64 ", \"turns\": %" PRIu64 ", \"searches\": [", took, adds, (adds + CHECKED_SIZE - 1) / CHECKED_SIZE);
    for (size_t at = 0; at < number; at++) {
        pthread_join(threads[at], NULL);
        printf("%s%" PRIu64, at ? ", " : "", searching[at].searches);
        eb_close(&searching[at].handle);
    }
    eb_close(&leader);
    printf("], \"wrong\": %lu}\n", atomic_load(&wrong));
    return atomic_load(&wrong) > 0;
}

int main(int argc, char **argv) {
    static struct searching searching[MOST_SEARCHING];
    int paced = argc == 5 && strcmp(argv[4], "paced") == 0;
    size_t number = argc == 4 || paced ? strtoul(argv[2], NULL, 10) : MOST_SEARCHING + 1;
    const char *mode = argc == 4 || paced ? argv[1] : "";
    int shared = strcmp(mode, "shared") == 0, lends = strcmp(mode, "lent") == 0, whole = strcmp(mode, "whole") == 0, check = strcmp(mode, "check") == 0;
    int feed = lends || whole || strcmp(mode, "feed") == 0;
    of_stream = feed || check || strcmp(mode, "stream") == 0;
    uint64_t of_adds = feed ? strtoull(argv[3], NULL, 10) : 1;
    if (number > MOST_SEARCHING || of_adds == 0 || !(shared || of_stream)) {
        fputs("usage: threads shared|stream|check SEARCHING SECONDS, or threads feed|lent|whole SEARCHING ADDS [paced]\n", stderr);
        return 2;
    }
    for (size_t n = 0; n < MESSAGES; n++)
        lengths[n] = (size_t)snprintf(texts[n], sizeof texts[n], "all w%zu %s message", n % 1000, n % 3 ? "other" : "third");
    if (check)
        return check_feed(searching, number, strtod(argv[3], NULL));
    if (feed) {
        measure_feed(searching, number, of_adds, lends, whole, paced);
        return 0;
    }
    double wanted = strtod(argv[3], NULL), took = 0;
    uint64_t adds = 0;
    for (; took < wanted; adds += MESSAGES)
        took += round_of(searching, number);
    printf("{\"seconds\": %.3f, \"adds\": %" PRIu64 ", \"searches\": [", took, adds);
    for (size_t at = 0; at < number; at++)
        printf("%s%" PRIu64, at ? ", " : "", searching[at].searches);
    puts("]}");
    return 0;
}
