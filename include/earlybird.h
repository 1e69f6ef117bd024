/* SPDX-License-Identifier: MIT OR Apache-2.0 */
/* Earlybird, an in-memory real-time search index, for C and what calls C. There are three kinds: an index in memory that the
 * caller lends, here; one that threads share, behind handles (below, from eb_open on); and a feed that threads share, which
 * never ends (from eb_stream_open on).
 *
 * Of an index that is lent the caller keeps all memory: its words, and a struct of numbers. eb_words says how many words a setting
 * needs, and eb_begin makes an index of them. Then eb_add_line and eb_add_text add documents, and eb_ask_line and
 * eb_ask_text find the newest that match a query. Link libearlybird.a, which `./earlybird install` brings and pkg-config
 * knows as `earlybird`: its calls take memory from malloc while a line, a text or a query is read, and give it back before
 * they return.
 *
 * What is proved of each call is stated beside it: for any documents that the words and the numbers hold, what it
 * answers and what they hold then. A call tests what it can, and answers EB_NOT_BEGUN where the numbers aren't those of
 * an index that was begun, or the number of words isn't that of its setting.
 *
 * What the caller owes, and no call can test. Where it breaks one of these, what a call does is undefined: no proof speaks of it.
 *  - each pointer, also of a struct eb_reading, leads to as many elements as are named, aligned as C aligns them, and isn't null, even
 *    for none; what a call writes overlaps nothing else that it is given;
 *  - words and numbers that pass those tests are as the last call left them, and of one index: copy, move or store them
 *    only together, between two calls;
 *  - eb_begin and an add have the index for themselves; asks, and what only reads the numbers, may go on beside one
 *    another, on any threads;
 *  - no call from a signal handler, or in the forked child of a process with threads. */
#ifndef EARLYBIRD_H
#define EARLYBIRD_H

#include <stddef.h>
#include <stdint.h>

#ifdef __cplusplus
extern "C" {
#endif

/* What a call answers: EB_OK, or why it did nothing. The first ten refusals are those of the program `earlybird`, of the
 * same names. */
enum {
    EB_OK = 0,
    EB_BAD_LINE = 1,         /* no document line (it begins with '{'), or no query line ('?', UTF-8), as the call wants one */
    EB_LONG_LINE = 2,        /* a line of more than 65,536 bytes */
    EB_BAD_JSON = 3,         /* the line isn't one JSON value */
    EB_BAD_DOCUMENT = 4,     /* no whole number below 2^64 as its "id", or no string as its "text" */
    EB_TOO_LONG = 5,         /* more than 1,024 words, or more than 16,384 bytes of them */
    EB_FULL = 6,             /* no room for the document: the last segment has none, and all segments are begun */
    EB_BAD_NUMBER = 7,       /* no number of matches from 1 to 1,000 */
    EB_BAD_QUERY = 8,        /* the query goes wrong at a column, or ends too early there */
    EB_QUERY_TOO_DEEP = 9,   /* more than 16 parentheses and minuses are open */
    EB_QUERY_TOO_LARGE = 10, /* the query has more than 64 parts */
    EB_BAD_TEXT = 11,        /* the text isn't UTF-8 */
    EB_NO_MEMORY = 12,       /* malloc gave none; it can come for any line and text */
    EB_BAD_SETTING = 13,     /* the three numbers are no setting */
    EB_BAD_SIZE = 14,        /* not as many words as the setting needs */
    EB_NOT_BEGUN = 15,       /* the numbers aren't those of an index that was begun, or the number of words isn't that of its setting */
    EB_BAD_HANDLE = 16,      /* a handle is closed or of the wrong type, or one that the call is to make isn't closed */
    EB_BAD_READING = 17,     /* how lines are to be read isn't as struct eb_reading has it */
    EB_WATCH_TAKEN = 18,     /* a watch has the number of the one that is to be set */
    EB_WATCHES_FULL = 19,    /* no watch has it, and 10,000 are set */
    EB_NO_WATCH = 20,        /* no watch has the number of the one that is to be removed */
    EB_BAD_IMAGE = 21,       /* the bytes begin no head of an image, or no part and no byte 0, as the call wants them */
    EB_MORE_BYTES = 22,      /* they begin what the call wants, and a whole one isn't there */
    EB_SHORT_ROOM = 23,      /* no room for the bytes that are to be written */
    EB_IMAGE_END = 24        /* the bytes begin with the byte 0, which ends an image */
};

/* How much of a segment is used. It has room for `docs` documents, `terms` distinct terms, 4 * terms text words (1 and the
 * bytes by eights for each term), and terms, terms / 2, terms / 16 and terms / 128 slices of the four pools, which hold the
 * postings. */
struct eb_segment {
    uint32_t documents, terms, text, pool0, pool1, pool2, pool3;
};

/* The numbers of an index. Only the calls write them. */
struct eb_index {
    uint64_t documents;
    uint32_t mark, segments, docs, terms, begun;
    struct eb_segment last;
};

/* What an ask tells beside the ids; all 0 where it is refused, but the column. */
struct eb_answer {
    uint64_t seen;   /* how many documents were accepted: the answer is over all of them */
    uint64_t count;  /* how many ids the answer has; more than ids_len where there wasn't room for all */
    uint64_t column; /* where EB_BAD_QUERY: the place of the fault, counted in bytes from 1; else 0 */
    uint64_t written; /* how many ids were written: the lesser of count and ids_len, so read no more of `ids` than this */
};

/* What a count tells beside the numbers of its buckets; all 0 where it is refused, but the column. */
struct eb_count {
    uint64_t seen;   /* how many documents were accepted: the count is over all of them */
    uint64_t total;  /* how many of them match, whether or not their ids lie in a bucket */
    uint64_t column; /* where EB_BAD_QUERY: the place of the fault, counted in bytes from 1; else 0 */
};

/* How many words of 64 bits an index of this setting has; 0 where it is none. A setting is 1 to 64 segments with room for
 * 1 to 16,777,216 documents and for 1,024 to 1,048,576 distinct terms each, a power of two, of at most 134,217,728 words in
 * all: 1 + segments * (2 + docs + 77 * terms). */
uint64_t eb_words(uint32_t segments, uint32_t docs, uint32_t terms);

/* Begins an index of this setting without a document, whatever the words and the numbers were before. `words_len` is
 * exactly eb_words(segments, docs, terms). EB_BAD_SETTING and EB_BAD_SIZE change nothing. */
uint32_t eb_begin(uint64_t *words, size_t words_len, struct eb_index *index, uint32_t segments, uint32_t docs, uint32_t terms);

/* Adds the document of a line: one JSON object with a number as "id" and a string as "text", without the end of the line.
 * EB_OK: it is accepted, after the documents before it, and the next ask finds it. EB_FULL exactly where there is no room
 * for it. EB_BAD_LINE, EB_LONG_LINE, EB_BAD_JSON, EB_BAD_DOCUMENT, EB_TOO_LONG, EB_NO_MEMORY. Where it isn't EB_OK, nothing
 * is changed. */
uint32_t eb_add_line(uint64_t *words, size_t words_len, struct eb_index *index, const unsigned char *line, size_t line_len);

/* Adds the document of an id and a text, as eb_add_line does. EB_BAD_TEXT, EB_TOO_LONG, EB_FULL, EB_NO_MEMORY. */
uint32_t eb_add_text(uint64_t *words, size_t words_len, struct eb_index *index, uint64_t id, const unsigned char *text, size_t text_len);

/* Answers a query line, as "?10 train", without the end of the line, over all accepted documents. EB_OK: `ids` has the ids of
 * the newest that match, newest first, as many as there is room for (`ids_len`; 1,000 is always enough), and `answer`
 * says how many there are. EB_BAD_LINE, EB_LONG_LINE, EB_BAD_NUMBER, EB_BAD_QUERY, EB_QUERY_TOO_DEEP,
 * EB_QUERY_TOO_LARGE, EB_NO_MEMORY. Where it isn't EB_OK, no id is written. */
uint32_t eb_ask_line(const uint64_t *words, size_t words_len, const struct eb_index *index, const unsigned char *line, size_t line_len,
                     uint64_t *ids, size_t ids_len, struct eb_answer *answer);

/* Answers a query text, as "train -late", of which the newest `k` matches are wanted, 1 to 1,000, as eb_ask_line does. The
 * column is counted in the text. EB_BAD_TEXT, and no EB_BAD_LINE or EB_LONG_LINE. */
uint32_t eb_ask_text(const uint64_t *words, size_t words_len, const struct eb_index *index, uint32_t k, const unsigned char *text, size_t text_len,
                     uint64_t *ids, size_t ids_len, struct eb_answer *answer);

/* Counts the matches of a query text, as "level error", among all accepted documents. EB_OK: `count` says how many there are, and
 * `buckets` has one number for each bucket: bucket i counts the matches whose id is at least start + i * width and less than
 * start + (i + 1) * width, so where ids are times the buckets are a histogram. `buckets_len` may be 0, for the total alone; then
 * `start` and `width` aren't read. Numbers stay at 2^64 - 1. EB_BAD_NUMBER: there are buckets, of width 0. EB_BAD_TEXT, EB_BAD_QUERY,
 * EB_QUERY_TOO_DEEP, EB_QUERY_TOO_LARGE, EB_NO_MEMORY. Where it isn't EB_OK, no bucket is written. */
uint32_t eb_count_text(const uint64_t *words, size_t words_len, const struct eb_index *index, const unsigned char *text, size_t text_len,
                       uint64_t start, uint64_t width, uint64_t *buckets, size_t buckets_len, struct eb_count *count);

/* How lines and texts are read, as the options of the program say it. Each name is any bytes of its length, without an end. Begin
 * with EB_PLAIN_READING, which reads as the calls do that are given no reading, and set what is to be otherwise:
 *
 *     struct eb_reading how = EB_PLAIN_READING;
 *     how.fields = (const unsigned char *)"user,room";
 *     how.fields_len = 9;
 */
struct eb_reading {
    const unsigned char *fields; /* as --fields: the members by whose values a query finds documents, as "room:kitchen"; one to 8 names with */
    size_t fields_len;           /* commas between, each of one to 32 of a to z, 0 to 9 and _, not `since`, none twice; none where the length is 0 */
    const unsigned char *id;     /* as --id: the name of the member that is the id, in UTF-8: a number, or a string of its digits; */
    size_t id_len;               /* where the length is 0 it is "id", a number */
    const unsigned char *text;   /* as --text: the name of the member that is the text, in UTF-8; */
    size_t text_len;             /* where the length is 0 it is "text" */
    uint32_t words;              /* how texts are cut: EB_WORDS, or EB_PIECES as --words pieces: a word's parts between its marks are words */
};

enum { EB_WORDS = 0, EB_PIECES = 1 };

#define EB_PLAIN_READING {(const unsigned char *)"", 0, (const unsigned char *)"", 0, (const unsigned char *)"", 0, EB_WORDS}

/* EB_OK where lines and texts can be read so, else EB_BAD_READING, as each call answers that is given this reading. */
uint32_t eb_check_reading(const struct eb_reading *how);

/* The calls above where lines and texts are read so. The members that are fields are those of a document line: eb_add_text_with cuts
 * its text as `words` says, and adds no field. Ask with the fields and the words with which documents were added. EB_BAD_READING, before
 * every other refusal but EB_NOT_BEGUN: `how` isn't as above. */
uint32_t eb_add_line_with(uint64_t *words, size_t words_len, struct eb_index *index, const struct eb_reading *how, const unsigned char *line,
                          size_t line_len);
uint32_t eb_add_text_with(uint64_t *words, size_t words_len, struct eb_index *index, const struct eb_reading *how, uint64_t id,
                          const unsigned char *text, size_t text_len);
uint32_t eb_ask_line_with(const uint64_t *words, size_t words_len, const struct eb_index *index, const struct eb_reading *how,
                          const unsigned char *line, size_t line_len, uint64_t *ids, size_t ids_len, struct eb_answer *answer);
uint32_t eb_ask_text_with(const uint64_t *words, size_t words_len, const struct eb_index *index, const struct eb_reading *how, uint32_t k,
                          const unsigned char *text, size_t text_len, uint64_t *ids, size_t ids_len, struct eb_answer *answer);
uint32_t eb_count_text_with(const uint64_t *words, size_t words_len, const struct eb_index *index, const struct eb_reading *how,
                            const unsigned char *text, size_t text_len, uint64_t start, uint64_t width, uint64_t *buckets,
                            size_t buckets_len, struct eb_count *count);

/* How many documents are accepted; how many segments are begun; how much of the last of them is used, all 0 where none is
 * begun. These look at the numbers alone, and take them as they are. */
uint64_t eb_documents(const struct eb_index *index);
uint32_t eb_segments(const struct eb_index *index);
void eb_last_segment(const struct eb_index *index, struct eb_segment *last);

/* ---- the index that threads share
 *
 * eb_open makes an index with its one writer and its one converter, and eb_reader makes readers, as many as there is memory
 * for. Each lies behind a handle. Calls on different handles may run at the same time, on any threads: one thread adds by the
 * writer while others search, each by a reader of its own, and another packs the segments that are closed. No call waits for
 * another. eb_open takes the memory of the index, and it is given back when the last of its handles is closed, in whatever
 * order. The other calls take memory while they read a line, a text or a query, and eb_reader takes some that its handle keeps.
 *
 * Proved of each call, whatever the others do meanwhile: what is stated beside it. A call tests what its handles lead to, and
 * answers EB_BAD_HANDLE, with nothing changed, where that isn't what it takes: where a handle is closed, of another kind, or, of
 * one that is to be made, not closed. Tested, and not proved: that a reader's next search finds what was added before it began.
 *
 * What the caller owes, and no call can test; where it breaks one of these, what a call does is undefined:
 *  - a handle is all zero before the first call, and from then on only the calls write it. It may be moved between two calls,
 *    and no copy that is left behind is used;
 *  - one call at a time on each handle, closing it too. It goes to another thread by a lock, by a thread's start or end, or by
 *    a sequentially consistent atomic;
 *  - pointers as above; malloc, realloc and free come from one allocator; no call from a signal handler, or in the forked
 *    child of a process with threads. */

/* A handle. It is closed where it is all zero. */
struct eb_handle {
    void *at;
    uint32_t kind; /* 0 closed, 1 a writer, 2 a reader, 3 a converter, 4 a leader, 5 a follower, 6 a spare index, 7 a released generation, 8 watches */
};

/* Opens an index of this setting, as eb_words has it, without a document. Both handles are closed before. EB_BAD_SETTING,
 * EB_NO_MEMORY. */
uint32_t eb_open(struct eb_handle *writer, struct eb_handle *converter, uint32_t segments, uint32_t docs, uint32_t terms);

/* Add a document after those that the writer added, as eb_add_line and eb_add_text do. Where it isn't EB_OK, the writer's
 * history is as before. */
uint32_t eb_writer_add_line(struct eb_handle *writer, const unsigned char *line, size_t line_len);
uint32_t eb_writer_add_text(struct eb_handle *writer, uint64_t id, const unsigned char *text, size_t text_len);

/* A document of many: its id, and its text, in UTF-8. */
struct eb_text {
    uint64_t id;
    const unsigned char *text;
    size_t text_len;
};

/* Adds documents one after the other, each as eb_writer_add_text_with does, until one is refused: it answers why that is. EB_OK: all are
 * added. `added` is how many were added before the refused one, and these stay; 0 where the handle is a bad one. So after a refusal,
 * go on from `texts + *added`, or from the next one. For languages where a call costs more than an add does. */
uint32_t eb_writer_add_texts_with(struct eb_handle *writer, const struct eb_reading *how, const struct eb_text *texts, size_t texts_len,
                                  uint64_t *added);

/* Makes a reader, which knows all that the writer added, or all that the other reader knows. EB_NO_MEMORY. */
uint32_t eb_reader(struct eb_handle *from, struct eb_handle *reader);

/* Answer over the first `answer->seen` documents of the writer, as eb_ask_line and eb_ask_text do. They begin with all that the
 * reader knew, and it knows them from then on: so `seen` never falls, and a reader that was made after an add sees it. */
uint32_t eb_reader_ask_line(struct eb_handle *reader, const unsigned char *line, size_t line_len, uint64_t *ids, size_t ids_len, struct eb_answer *answer);
uint32_t eb_reader_ask_text(struct eb_handle *reader, uint32_t k, const unsigned char *text, size_t text_len, uint64_t *ids, size_t ids_len,
                            struct eb_answer *answer);

/* Counts as eb_count_text does, over the documents over which an ask of this reader would answer; it knows them from then on. */
uint32_t eb_reader_count_text(struct eb_handle *reader, const unsigned char *text, size_t text_len, uint64_t start, uint64_t width,
                              uint64_t *buckets, size_t buckets_len, struct eb_count *count);

/* The same where lines and texts are read so, as of eb_add_line_with and those beside it. The reading is the call's own: readers of one
 * index may read in different ways. */
uint32_t eb_writer_add_line_with(struct eb_handle *writer, const struct eb_reading *how, const unsigned char *line, size_t line_len);
uint32_t eb_writer_add_text_with(struct eb_handle *writer, const struct eb_reading *how, uint64_t id, const unsigned char *text, size_t text_len);
uint32_t eb_reader_ask_line_with(struct eb_handle *reader, const struct eb_reading *how, const unsigned char *line, size_t line_len,
                                 uint64_t *ids, size_t ids_len, struct eb_answer *answer);
uint32_t eb_reader_ask_text_with(struct eb_handle *reader, const struct eb_reading *how, uint32_t k, const unsigned char *text,
                                 size_t text_len, uint64_t *ids, size_t ids_len, struct eb_answer *answer);
uint32_t eb_reader_count_text_with(struct eb_handle *reader, const struct eb_reading *how, const unsigned char *text, size_t text_len,
                                   uint64_t start, uint64_t width, uint64_t *buckets, size_t buckets_len, struct eb_count *count);

/* Tells how many documents a reader knows. */
uint32_t eb_reader_seen(struct eb_handle *reader, uint64_t *seen);

/* Packs the next segment that is closed, if there is one, and tells how many are packed then. No answer changes by it, and asks
 * load less. The converter is that of an index, or of a generation of a feed. */
uint32_t eb_converter_convert(struct eb_handle *converter, uint32_t *converted);

/* Closes a handle. A closed one stays closed. It may be made anew. */
void eb_close(struct eb_handle *handle);

/* ---- the feed that threads share
 *
 * A feed never ends and is never full: it is a chain of generations, each an index of the same setting. Where the newest has no
 * room for a document, its one leader begins another, and lets the oldest go of those that it keeps. eb_follower makes
 * followers, as many as there is memory for; each searches the newest generations that it knows, at most as many as the feed
 * keeps. The leader tells its followers of a generation that was begun, and a follower takes that in at its next ask. Handles
 * are as above, calls on different handles may run at the same time, and none waits for another. An add that begins a
 * generation takes the memory of an index, and is as slow as eb_open, unless the leader was lent one. The memory of a generation
 * is given back by the call after which neither the leader nor a follower nor a converter holds it, which takes some milliseconds; that
 * is an add too, unless eb_leader_released takes it out of that. So a follower that doesn't ask keeps its own generations alive, and
 * an add is never refused because of that. A feed goes on for its followers where the leader is closed.
 *
 * Proved of each call, whatever the others do meanwhile: what is stated beside it, where nothing else is said. Tested, and not
 * proved: that a follower's next ask takes in what the leader told, and that it holds as many generations as the feed keeps, or all.
 *
 * What the caller owes is as above. */

/* Opens a feed without a document, which keeps `keep` generations, 2 to 64, of an index of this setting, as eb_words has it. The
 * handle is closed before. EB_BAD_SETTING, EB_NO_MEMORY. */
uint32_t eb_stream_open(struct eb_handle *leader, uint32_t segments, uint32_t docs, uint32_t terms, uint32_t keep);

/* Add a document after those that the leader added, to the newest generation where that has room for it, else to a new one, as
 * eb_writer_add_line and eb_writer_add_text do; but EB_FULL never comes. EB_NO_MEMORY also where there is none for another
 * generation. Where it isn't EB_OK, the leader's history is as before. */
uint32_t eb_leader_add_line(struct eb_handle *leader, const unsigned char *line, size_t line_len);
uint32_t eb_leader_add_text(struct eb_handle *leader, uint64_t id, const unsigned char *text, size_t text_len);

/* Tells each follower of the generations that were begun, as an add does too: `told` is 1 where each has heard of them, and 0
 * where one couldn't, since it was just taking in earlier news, or since there was no memory. Not proved: that they hear of
 * them. So a program that waits after an add calls this first, until `told` is 1. */
uint32_t eb_leader_tell(struct eb_handle *leader, uint32_t *told);

/* Makes the converter of the newest generation, for eb_converter_convert, where it wasn't made since that was begun; else the
 * handle stays closed, and the call answers EB_OK too. It may be closed at any time, and goes on where the generation isn't the
 * newest any more. A generation whose converter isn't made stays unpacked. EB_NO_MEMORY: so does this one. Tested, and not proved:
 * that it is made where it wasn't before. */
uint32_t eb_leader_converter(struct eb_handle *leader, struct eb_handle *converter);

/* Opens a spare index of this setting, as eb_words has it, for the next generation of a feed: on any thread, beside the leader. The
 * handle is closed before. EB_BAD_SETTING, EB_NO_MEMORY. */
uint32_t eb_spare_open(struct eb_handle *spare, uint32_t segments, uint32_t docs, uint32_t terms);

/* Lends the leader a spare index of its feed's setting: the add that begins the next generation takes it, and opens none. The
 * spare's handle then leads to the one that the leader had been lent before and hasn't taken, or it is closed where there was none: so a
 * program may lend before each add, and have another one opened where the handle comes back closed. It takes no memory, so none is lost
 * for want of it. EB_BAD_SETTING: both are as before. Tested, and not proved: that the next generation takes it, and that one
 * that isn't taken comes back. */
uint32_t eb_leader_lend(struct eb_handle *leader, struct eb_handle *spare);

/* Takes the generation that the leader dropped where it began the newest one, if it began that in a spare index, and this call wasn't
 * made since; else the handle stays closed, and the call answers EB_OK too. The handle is closed before. So that add gave no memory
 * back: who closes the handle does, on any thread, unless a follower or the generation's converter holds it on; then the last of them
 * does. One that isn't taken is dropped where the leader begins another generation, so at most one is held beyond those that the feed
 * keeps. EB_NO_MEMORY: there was none for the handle, and the call let the generation go. Tested, and not proved: that there is one
 * where one was dropped. */
uint32_t eb_leader_released(struct eb_handle *leader, struct eb_handle *released);

/* Makes a follower, which knows all that the leader added. EB_NO_MEMORY. */
uint32_t eb_follower(struct eb_handle *leader, struct eb_handle *follower);

/* Answer as eb_ask_line and eb_ask_text do, over the generations that the follower holds once it took in what it had heard of, up to
 * the end of the first `answer->seen` documents of the leader. It knows them from then on. They begin with all that it knew of the
 * generations that were closed when it was asked last; and with all else that it knew, unless the generation that was its newest is
 * held no more, or fewer of its documents are known. Not proved: that fewer are known, and so `seen` falls, only where it is held no
 * more. Where it isn't EB_OK, the follower is as before. */
uint32_t eb_follower_ask_line(struct eb_handle *follower, const unsigned char *line, size_t line_len, uint64_t *ids, size_t ids_len,
                              struct eb_answer *answer);
uint32_t eb_follower_ask_text(struct eb_handle *follower, uint32_t k, const unsigned char *text, size_t text_len, uint64_t *ids, size_t ids_len,
                              struct eb_answer *answer);

/* Counts as eb_count_text does, over the documents over which an ask of this follower would answer; `count->seen` is what
 * `answer->seen` would be. Where it isn't EB_OK, the follower is as before. */
uint32_t eb_follower_count_text(struct eb_handle *follower, const unsigned char *text, size_t text_len, uint64_t start, uint64_t width,
                                uint64_t *buckets, size_t buckets_len, struct eb_count *count);

/* The same where lines and texts are read so, as of eb_add_line_with and those beside it. */
uint32_t eb_leader_add_line_with(struct eb_handle *leader, const struct eb_reading *how, const unsigned char *line, size_t line_len);
uint32_t eb_leader_add_text_with(struct eb_handle *leader, const struct eb_reading *how, uint64_t id, const unsigned char *text, size_t text_len);
uint32_t eb_leader_add_texts_with(struct eb_handle *leader, const struct eb_reading *how, const struct eb_text *texts, size_t texts_len,
                                  uint64_t *added);
uint32_t eb_follower_ask_line_with(struct eb_handle *follower, const struct eb_reading *how, const unsigned char *line, size_t line_len,
                                   uint64_t *ids, size_t ids_len, struct eb_answer *answer);
uint32_t eb_follower_ask_text_with(struct eb_handle *follower, const struct eb_reading *how, uint32_t k, const unsigned char *text,
                                   size_t text_len, uint64_t *ids, size_t ids_len, struct eb_answer *answer);
uint32_t eb_follower_count_text_with(struct eb_handle *follower, const struct eb_reading *how, const unsigned char *text, size_t text_len,
                                     uint64_t start, uint64_t width, uint64_t *buckets, size_t buckets_len, struct eb_count *count);

/* Tell how many documents of the leader a follower knows; and how many generations it holds. */
uint32_t eb_follower_seen(struct eb_handle *follower, uint64_t *seen);
uint32_t eb_follower_held(struct eb_handle *follower, uint64_t *held);

/* ---- watches
 *
 * A watch is a query with a number of its own, 0 to 4,294,967,295. A set of at most 10,000 is behind a handle, apart from every index: a
 * program asks which of them a document matches, and adds the document where it wants to. Handles are as above, and what is proved of each
 * call is stated beside it. */

/* Makes a set in which no watch is set. The handle is closed before. EB_NO_MEMORY. */
uint32_t eb_watches(struct eb_handle *watches);

/* Sets the watch of this number to a query text, as eb_ask_text has it, which is read as `how` says. EB_WATCH_TAKEN, EB_WATCHES_FULL, EB_BAD_READING,
 * EB_BAD_TEXT, EB_BAD_QUERY and its column in the text, EB_QUERY_TOO_DEEP, EB_QUERY_TOO_LARGE, EB_NO_MEMORY. Where it isn't EB_OK, the
 * watches are as before. `column` is 0 where it isn't EB_BAD_QUERY. */
uint32_t eb_watch_set(struct eb_handle *watches, const struct eb_reading *how, uint32_t number, const unsigned char *text, size_t text_len,
                      uint64_t *column);

/* Removes the watch of this number. EB_NO_WATCH. */
uint32_t eb_watch_remove(struct eb_handle *watches, uint32_t number);

/* What a call reports besides the numbers of watches; all 0 where it is refused. */
struct eb_told {
    uint64_t count;   /* how many watches match */
    uint64_t written; /* how many of their numbers were written: the lesser of count and numbers_len */
};

/* Tell which watches match the document of a line, or of an id and a text, which is read as of eb_add_line_with and eb_add_text_with. EB_OK:
 * `numbers` has their numbers, rising, as many as there is room for (10,000 is always enough). Else it is what those calls would answer,
 * but for EB_NOT_BEGUN and EB_FULL; no number is written. */
uint32_t eb_watches_tell_line(struct eb_handle *watches, const struct eb_reading *how, const unsigned char *line, size_t line_len,
                              uint32_t *numbers, size_t numbers_len, struct eb_told *told);
uint32_t eb_watches_tell_text(struct eb_handle *watches, const struct eb_reading *how, uint64_t id, const unsigned char *text, size_t text_len,
                              uint32_t *numbers, size_t numbers_len, struct eb_told *told);

/* ---- images
 *
 * An image keeps a setting and documents in bytes, those that the program `earlybird` saves and loads: a head, a part for each document
 * in order, and the byte 0 (docs/FORMATS.md). An index keeps no part, so a program writes an image as it adds: the head, and the part of
 * each document that was accepted, by eb_part_of_line or eb_part_of_text; at the end the byte 0. To load one, read the setting of
 * its head, make an index of it, and add part after part, from any pieces of the bytes, until EB_IMAGE_END:
 *
 *     while ((done = eb_add_part(words, words_len, &index, bytes + at, len - at, &taken)) == EB_OK)
 *         at += taken;
 *
 * Proved: head, part and byte 0 are those of docs/FORMATS.md; what is taken is exactly the part of the document that is added. */

/* How many bytes a head has, and a part at most. */
enum { EB_HEAD_LEN = 20, EB_LONGEST_PART = 18443 };

/* Writes the head of this setting, as eb_words has it, into the first EB_HEAD_LEN bytes of `head`. EB_BAD_SETTING, EB_SHORT_ROOM: `head`
 * has fewer. Where it isn't EB_OK, nothing is written. */
uint32_t eb_image_head(uint32_t segments, uint32_t docs, uint32_t terms, unsigned char *head, size_t head_len);

/* Reads the setting of the head with which the bytes begin. EB_MORE_BYTES: they are the first bytes of one. EB_BAD_IMAGE: they begin
 * none. Where it isn't EB_OK, the numbers are as before. */
uint32_t eb_image_setting(const unsigned char *bytes, size_t bytes_len, uint32_t *segments, uint32_t *docs, uint32_t *terms);

/* Write the part of the document of a line, or of an id and a text, which is read as of eb_add_line_with and eb_add_text_with, into the
 * first bytes of `part`. EB_OK: `len` says how many these are. EB_SHORT_ROOM: it says how many there must be; EB_LONGEST_PART are always
 * enough. Else it is what those calls would answer, but for EB_NOT_BEGUN and EB_FULL, and `len` is 0. Where it isn't EB_OK, nothing is
 * written. */
uint32_t eb_part_of_line(const struct eb_reading *how, const unsigned char *line, size_t line_len, unsigned char *part, size_t part_len,
                         uint64_t *len);
uint32_t eb_part_of_text(const struct eb_reading *how, uint64_t id, const unsigned char *text, size_t text_len, unsigned char *part,
                         size_t part_len, uint64_t *len);

/* Add the document of the part with which the bytes begin, as eb_add_text and eb_writer_add_text do. EB_OK: `taken` says how many bytes
 * the part has, and the next one begins behind them. EB_IMAGE_END: they begin with the byte 0, and the image is over with it.
 * EB_MORE_BYTES: there is none, or they are the first bytes of a part; call again with them and those behind. EB_BAD_IMAGE: they begin
 * neither. EB_FULL, EB_NO_MEMORY. Where it isn't EB_OK, nothing is changed, and `taken` is 0. */
uint32_t eb_add_part(uint64_t *words, size_t words_len, struct eb_index *index, const unsigned char *bytes, size_t bytes_len, uint64_t *taken);
uint32_t eb_writer_add_part(struct eb_handle *writer, const unsigned char *bytes, size_t bytes_len, uint64_t *taken);

/* The name of what a call answers. */
static inline const char *eb_name(uint32_t number) {
    static const char *const names[] = {
        "ok", "bad line", "long line", "bad json", "bad document", "too long", "full", "bad number", "bad query",
        "query too deep", "query too large", "bad text", "no memory", "bad setting", "bad size", "not begun", "bad handle", "bad reading",
        "watch taken", "watches full", "no watch", "bad image", "more bytes", "short room", "image end",
    };
    return number < sizeof names / sizeof *names ? names[number] : "unknown";
}

#ifdef __cplusplus
}
#endif

#endif
