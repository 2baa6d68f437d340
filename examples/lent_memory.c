/* Tries what tembuyas.h says of lent memory: sizes, NULL with length 0, any alignment, no byte beside the lent ones,
 * head and calendar that overlap, several threads.
 *
 *     lent_memory < BOOK
 *
 * BOOK is one that settles. What is lent ends before, or begins behind, a page that cannot be touched, and books and
 * values lie in pages that cannot be written. Exit status: 0 all as said, 1 something is not. */
#define _GNU_SOURCE
#include <pthread.h>
#include <stdio.h>
#include <stdlib.h>
#include <string.h>
#include <sys/mman.h>
#include <unistd.h>

#include "tembuyas.h"

_Static_assert(TEMBUYAS_WRITTEN_HEAD_BYTES == 3 + TEMBUYAS_HEAD_BYTES + 3 + TEMBUYAS_CALENDAR_BYTES, "head fields");
_Static_assert(TEMBUYAS_WRITTEN_CONSUMER_BYTES == 3 + TEMBUYAS_CONSUMER_BYTES, "consumer field");
_Static_assert(TEMBUYAS_WRITTEN_GENERATOR_BYTES == 3 + TEMBUYAS_GENERATOR_BYTES, "generator field");
_Static_assert(TEMBUYAS_WRITTEN_MIXED_FIRING_BYTES == 3 + TEMBUYAS_MIXED_FIRING_BYTES, "mixed-firing field");
_Static_assert(TEMBUYAS_CONSUMER_READING(31, 0) == TEMBUYAS_CONSUMER_BYTES, "readings of 31 days");
_Static_assert(TEMBUYAS_GENERATOR_READING(6) == TEMBUYAS_GENERATOR_BYTES, "six readings");
_Static_assert(TEMBUYAS_MIXED_FIRING_SHARE + 2 == TEMBUYAS_MIXED_FIRING_OUTSIDE, "the share is before the readings");
_Static_assert(TEMBUYAS_MIXED_FIRING_OUTSIDE_READING(6) == TEMBUYAS_MIXED_FIRING_INSIDE, "six readings outside");
_Static_assert(TEMBUYAS_MIXED_FIRING_INSIDE_READING(6) == TEMBUYAS_MIXED_FIRING_BYTES, "six readings inside");
_Static_assert(TEMBUYAS_HEAD_COUNT + 2 == TEMBUYAS_HEAD_BYTES, "the count ends the head");
_Static_assert(8 * TEMBUYAS_RESULT_WORDS == TEMBUYAS_RESULT_BYTES, "eight words");

#define FILLED 0xA5
#define MOST_BOOK (1 << 20)

static int failures;

static void check(int holds, const char *what)
{
    if (holds)
        return;
    printf("not as said: %s\n", what);
    failures++;
}

/* Pages between two that cannot be touched. */
struct pages {
    uint8_t *first;
    size_t size;
};

static struct pages new_pages(size_t bytes)
{
    size_t page = (size_t)sysconf(_SC_PAGESIZE);
    size_t size = (bytes + 15 + page - 1) / page * page;
    uint8_t *all = mmap(NULL, size + 2 * page, PROT_NONE, MAP_PRIVATE | MAP_ANONYMOUS, -1, 0);
    if (all == MAP_FAILED || mprotect(all + page, size, PROT_READ | PROT_WRITE)) {
        perror("lent_memory");
        exit(1);
    }
    return (struct pages){ all + page, size };
}

static void free_pages(struct pages pages)
{
    size_t page = (size_t)sysconf(_SC_PAGESIZE);
    munmap(pages.first - page, pages.size + 2 * page);
}

/* Bytes that can only be read, at the end of their pages or at the front. */
static const uint8_t *only_read(struct pages pages, const uint8_t *bytes, size_t length, int at_end)
{
    uint8_t *place = at_end ? pages.first + pages.size - length : pages.first;
    mprotect(pages.first, pages.size, PROT_READ | PROT_WRITE);
    if (length)
        memcpy(place, bytes, length);
    mprotect(pages.first, pages.size, PROT_READ);
    return place;
}

/* Filled bytes to write to, at the end of their pages or at the front. */
static uint8_t *to_write(struct pages pages, size_t length, int at_end)
{
    memset(pages.first, FILLED, pages.size);
    return at_end ? pages.first + pages.size - length : pages.first;
}

/* All bytes of the pages are as filled, but for some that were written. */
static int rest_is_filled(struct pages pages, const uint8_t *written, size_t length)
{
    for (uint8_t *byte = pages.first; byte < pages.first + pages.size; byte++)
        if (*byte != FILLED && (byte < written || byte >= written + length))
            return 0;
    return 1;
}

/* A book and each part of it, at both ends of its pages: no call reads beside it or writes to it. */
static void try_settling(const uint8_t *book, size_t length, const uint8_t *due)
{
    struct pages books = new_pages(length);
    struct pages results = new_pages(TEMBUYAS_RESULT_BYTES);
    for (int at_end = 0; at_end < 2; at_end++) {
        for (size_t cut = 0; cut <= length; cut++) {
            const uint8_t *part = only_read(books, book, cut, at_end);
            uint8_t *result = to_write(results, TEMBUYAS_RESULT_BYTES, at_end);
            uint32_t refusal = tembuyas_settle_book(part, cut, result, TEMBUYAS_RESULT_BYTES);
            size_t written = cut == length ? TEMBUYAS_RESULT_BYTES : 0;
            check((refusal == TEMBUYAS_ACCEPTED) == (cut == length), "a book is accepted, a part of it is not");
            check(rest_is_filled(results, result, written), "settling writes the result and nothing else");
            check(!written || !memcmp(result, due, written), "the result is the same at every place");
        }
    }
    free_pages(books);
    free_pages(results);
}

/* Every alignment of the book and of the result. */
static void try_alignment(const uint8_t *book, size_t length, const uint8_t *due)
{
    struct pages books = new_pages(length);
    struct pages results = new_pages(TEMBUYAS_RESULT_BYTES);
    for (size_t shift = 0; shift < 256; shift++) {
        memmove(books.first + shift % 16, book, length);
        uint8_t *result = results.first + shift / 16;
        tembuyas_settle_book(books.first + shift % 16, length, result, TEMBUYAS_RESULT_BYTES);
        check(!memcmp(result, due, TEMBUYAS_RESULT_BYTES), "any alignment");
    }
    free_pages(books);
    free_pages(results);
}

/* Every length of the result but 64. */
static void try_result_lengths(const uint8_t *book, size_t length)
{
    struct pages results = new_pages(200);
    for (size_t room = 0; room < 200; room++) {
        if (room == TEMBUYAS_RESULT_BYTES)
            continue;
        uint8_t *result = to_write(results, room, 1);
        uint32_t refusal = tembuyas_settle_book(book, length, result, room);
        check(refusal == TEMBUYAS_LENT_BYTES, "a result of other than 64 bytes");
        check(rest_is_filled(results, result, 0), "40 writes nothing");
    }
    free_pages(results);
}

static void try_null(const uint8_t *book, size_t length)
{
    const uint8_t *head = book + 3, *calendar = head + TEMBUYAS_HEAD_BYTES + 3;
    uint8_t generator[TEMBUYAS_GENERATOR_BYTES] = { 0 };
    uint8_t out[TEMBUYAS_RESULT_BYTES];
    memset(generator, '0', TEMBUYAS_NUMBER_BYTES);
    check(tembuyas_settle_book(NULL, 0, out, sizeof out) == TEMBUYAS_BOOK_CUT, "no book");
    check(tembuyas_settle_book(book, length, NULL, 0) == TEMBUYAS_LENT_BYTES, "no result");
    check(tembuyas_settle_book(NULL, 0, NULL, 0) == TEMBUYAS_LENT_BYTES, "no book and no result");
    check(tembuyas_write_head(NULL, 0, NULL, 0, NULL, 0) == TEMBUYAS_HEAD_LENGTH, "no head, no calendar, no room");
    check(tembuyas_write_head(head, 17, NULL, 0, out, sizeof out) == TEMBUYAS_HEAD_LENGTH, "no calendar");
    check(tembuyas_write_head(NULL, 0, calendar, 30, out, sizeof out) == TEMBUYAS_HEAD_LENGTH, "no head");
    check(tembuyas_write_head(head, 17, calendar, 30, NULL, 0) == TEMBUYAS_LENT_BYTES, "no room for a head");
    check(tembuyas_write_point(0, NULL, 0, NULL, 0) == TEMBUYAS_POINT_TAG, "no point");
    check(tembuyas_write_point(TEMBUYAS_TAG_CONSUMER, NULL, 0, NULL, 0) == TEMBUYAS_POINT_LENGTH, "no consumer");
    check(tembuyas_write_point(TEMBUYAS_TAG_GENERATOR, NULL, 0, out, 64) == TEMBUYAS_POINT_LENGTH, "no generator");
    check(tembuyas_write_point(TEMBUYAS_TAG_MIXED_FIRING, NULL, 0, out, 64) == TEMBUYAS_POINT_LENGTH, "no plant");
    check(tembuyas_write_point(TEMBUYAS_TAG_GENERATOR, generator, 50, NULL, 0) == TEMBUYAS_LENT_BYTES, "no room");
}

/* Head and calendar into rooms of every length around what they need. */
static void try_writing_head(const uint8_t *book)
{
    struct pages heads = new_pages(TEMBUYAS_HEAD_BYTES), calendars = new_pages(TEMBUYAS_CALENDAR_BYTES);
    struct pages outs = new_pages(100);
    const uint8_t *head = only_read(heads, book + 3, TEMBUYAS_HEAD_BYTES, 1);
    const uint8_t *calendar = only_read(calendars, book + 23, TEMBUYAS_CALENDAR_BYTES, 1);
    for (size_t room = 0; room < 100; room++) {
        uint8_t *out = to_write(outs, room, 1);
        uint32_t refusal = tembuyas_write_head(head, TEMBUYAS_HEAD_BYTES, calendar, TEMBUYAS_CALENDAR_BYTES, out, room);
        size_t written = room < TEMBUYAS_WRITTEN_HEAD_BYTES ? 0 : TEMBUYAS_WRITTEN_HEAD_BYTES;
        check(refusal == (written ? TEMBUYAS_ACCEPTED : TEMBUYAS_LENT_BYTES), "a head needs 53 bytes");
        check(!written || !memcmp(out, book, written), "a head is written as it stands in the book");
        check(rest_is_filled(outs, out, written), "bytes behind a head keep their values");
    }
    free_pages(heads);
    free_pages(calendars);
    free_pages(outs);
}

/* Values of every length around the right one, into rooms around what they need. */
static void try_writing_point(uint8_t tag, size_t right)
{
    struct pages values = new_pages(right + 1), outs = new_pages(right + 8);
    uint8_t *value = calloc(1, right + 1);
    if (!value)
        exit(1);
    memset(value, '0', TEMBUYAS_NUMBER_BYTES);
    if (tag == TEMBUYAS_TAG_CONSUMER)
        value[TEMBUYAS_CONSUMER_CLASS] = TEMBUYAS_CLASS_EXTRA_HIGH;
    for (size_t length = right - 1; length <= right + 1; length++) {
        const uint8_t *lent = only_read(values, value, length, 1);
        for (size_t room = right; room < right + 8; room++) {
            uint8_t *out = to_write(outs, room, 1);
            uint64_t answer = tembuyas_write_point(tag, lent, length, out, room);
            size_t written = length == right && room >= 3 + right ? 3 + right : 0;
            uint32_t due = written ? TEMBUYAS_ACCEPTED : TEMBUYAS_LENT_BYTES;
            check(answer == (length == right ? due : TEMBUYAS_POINT_LENGTH), "a point has one length, and 3 more");
            check(!written || (out[0] == tag && out[1] == right / 256 && out[2] == right % 256), "tag and length");
            check(!written || !memcmp(out + 3, value, right), "the value is written as it is");
            check(rest_is_filled(outs, out, written), "bytes behind a point keep their values");
        }
    }
    free(value);
    free_pages(values);
    free_pages(outs);
}

/* A point whose last reading is above the limit: the index is told, and nothing is written. */
static void try_large_reading(uint8_t tag, size_t right, uint64_t index)
{
    struct pages values = new_pages(right), outs = new_pages(right + 3);
    uint8_t *value = calloc(1, right);
    if (!value)
        exit(1);
    memset(value, '0', TEMBUYAS_NUMBER_BYTES);
    if (tag == TEMBUYAS_TAG_CONSUMER)
        value[TEMBUYAS_CONSUMER_CLASS] = TEMBUYAS_CLASS_LOW;
    memset(value + right - 4, 0xff, 4);
    const uint8_t *lent = only_read(values, value, right, 1);
    uint8_t *out = to_write(outs, right + 3, 1);
    uint64_t answer = tembuyas_write_point(tag, lent, right, out, right + 3);
    uint64_t due = tag == TEMBUYAS_TAG_CONSUMER ? TEMBUYAS_READING_DAYS_BACK : TEMBUYAS_READING_TEST_DAY;
    check(answer == (index << 32 | due), "the last reading is told");
    check(rest_is_filled(outs, out, 0), "a point with a large reading is not written");
    free(value);
    free_pages(values);
    free_pages(outs);
}

/* A calendar that begins within the head: no losses, contract 0, count 1, which are also marks. */
static void try_overlap(void)
{
    uint8_t bytes[5 + TEMBUYAS_CALENDAR_BYTES] = { 2024 >> 8, 2024 & 0xff, 8, 7, 26 };
    uint8_t out[TEMBUYAS_WRITTEN_HEAD_BYTES];
    bytes[TEMBUYAS_HEAD_COUNT + 1] = 1;
    check(tembuyas_write_head(bytes, TEMBUYAS_HEAD_BYTES, bytes + 5, TEMBUYAS_CALENDAR_BYTES, out, sizeof out)
              == TEMBUYAS_ACCEPTED, "head and calendar may overlap");
    check(!memcmp(out + 3, bytes, TEMBUYAS_HEAD_BYTES) && !memcmp(out + 23, bytes + 5, TEMBUYAS_CALENDAR_BYTES),
          "both are written");
}

struct work {
    const uint8_t *book;
    size_t length;
    const uint8_t *due;
    int wrong;
};

static void *settle_often(void *given)
{
    struct work *work = given;
    uint8_t result[TEMBUYAS_RESULT_BYTES];
    for (int i = 0; i < 20000; i++) {
        memset(result, FILLED, sizeof result);
        uint32_t refusal = tembuyas_settle_book(work->book, work->length, result, sizeof result);
        work->wrong += refusal != TEMBUYAS_ACCEPTED || memcmp(result, work->due, sizeof result) != 0;
    }
    return NULL;
}

static void try_threads(const uint8_t *book, size_t length, const uint8_t *due)
{
    enum { THREADS = 4 };
    pthread_t threads[THREADS];
    struct work work[THREADS];
    for (int i = 0; i < THREADS; i++) {
        work[i] = (struct work){ book, length, due, 0 };
        if (pthread_create(&threads[i], NULL, settle_often, &work[i]))
            exit(1);
    }
    for (int i = 0; i < THREADS; i++) {
        pthread_join(threads[i], NULL);
        check(work[i].wrong == 0, "threads at the same time");
    }
}

int main(void)
{
    uint8_t *book = malloc(MOST_BOOK);
    size_t length = book ? fread(book, 1, MOST_BOOK, stdin) : 0;
    uint8_t due[TEMBUYAS_RESULT_BYTES];
    if (tembuyas_settle_book(book, length, due, sizeof due) != TEMBUYAS_ACCEPTED) {
        fprintf(stderr, "lent_memory: no book that settles on standard input\n");
        return 1;
    }
    try_settling(book, length, due);
    try_alignment(book, length, due);
    try_result_lengths(book, length);
    try_null(book, length);
    try_writing_head(book);
    try_writing_point(TEMBUYAS_TAG_CONSUMER, TEMBUYAS_CONSUMER_BYTES);
    try_writing_point(TEMBUYAS_TAG_GENERATOR, TEMBUYAS_GENERATOR_BYTES);
    try_writing_point(TEMBUYAS_TAG_MIXED_FIRING, TEMBUYAS_MIXED_FIRING_BYTES);
    try_large_reading(TEMBUYAS_TAG_CONSUMER, TEMBUYAS_CONSUMER_BYTES, 1487);
    try_large_reading(TEMBUYAS_TAG_GENERATOR, TEMBUYAS_GENERATOR_BYTES, 5);
    try_large_reading(TEMBUYAS_TAG_MIXED_FIRING, TEMBUYAS_MIXED_FIRING_BYTES, 11);
    try_overlap();
    try_threads(book, length, due);
    free(book);
    if (!failures)
        printf("lent memory as said\n");
    return failures || fflush(stdout) ? 1 : 0;
}
