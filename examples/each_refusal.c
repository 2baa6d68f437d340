/* Tries the places and names of tembuyas.h: a book filled by its macros settles as examples H and M of docs/BOOK.md and
 * list 3 of docs/ROUNDING.md say, and each single fault in it gets the refusal of that name, from every function that
 * can give it.
 *
 *     each_refusal
 *
 * Exit status: 0 all as named, 1 something is not. */
#include <stdio.h>
#include <string.h>

#include "tembuyas.h"
#include "words.h"

/* A book with a head, a calendar and one point of each kind; where the five values begin. */
enum {
    HEAD = TEMBUYAS_TAG_AND_LENGTH_BYTES,
    CALENDAR = HEAD + TEMBUYAS_HEAD_BYTES + TEMBUYAS_TAG_AND_LENGTH_BYTES,
    CONSUMER = TEMBUYAS_WRITTEN_HEAD_BYTES + TEMBUYAS_TAG_AND_LENGTH_BYTES,
    GENERATOR = CONSUMER + TEMBUYAS_CONSUMER_BYTES + TEMBUYAS_TAG_AND_LENGTH_BYTES,
    MIXED_FIRING = GENERATOR + TEMBUYAS_GENERATOR_BYTES + TEMBUYAS_TAG_AND_LENGTH_BYTES,
    BOOK = MIXED_FIRING + TEMBUYAS_MIXED_FIRING_BYTES
};

static uint8_t good[BOOK + 1], book[BOOK + 1];
static int failures;

/* The answer of writing a point has no index here, so that it is the refusal. */
static void check(uint64_t found, uint32_t due, const char *what)
{
    if (found == due)
        return;
    printf("not as named: %s: %u (%s) with index %u, not %u\n", what, (unsigned)TEMBUYAS_REFUSAL(found),
           refusal_in_words(TEMBUYAS_REFUSAL(found)), (unsigned)TEMBUYAS_INDEX(found), (unsigned)due);
    failures++;
}

/* An answer about a reading: the refusal, the index and the words. */
static void check_reading(uint64_t found, uint8_t tag, uint32_t refusal, uint32_t index, const char *words)
{
    char text[READING_WORDS];
    if (TEMBUYAS_REFUSAL(found) == refusal && TEMBUYAS_INDEX(found) == index
        && !strcmp(reading_in_words(text, tag, found), words))
        return;
    printf("not as named: %u with index %u (%s), not %u with %u (%s)\n", (unsigned)TEMBUYAS_REFUSAL(found),
           (unsigned)TEMBUYAS_INDEX(found), reading_in_words(text, tag, found), (unsigned)refusal, (unsigned)index,
           words);
    failures++;
}

static void put(uint8_t *at, int n, uint32_t number)
{
    for (int i = n - 1; i >= 0; i--) {
        at[i] = number & 0xff;
        number >>= 8;
    }
}

static void fill_head(uint8_t *head)
{
    put(head + TEMBUYAS_HEAD_YEAR, 2, 2024);
    put(head + TEMBUYAS_HEAD_MONTH, 1, 8);
    put(head + TEMBUYAS_HEAD_DAY, 1, 7);
    put(head + TEMBUYAS_HEAD_SLOT, 1, 26);
    put(head + TEMBUYAS_HEAD_LOSS_LOW, 2, 700);
    put(head + TEMBUYAS_HEAD_LOSS_HIGH, 2, 400);
    put(head + TEMBUYAS_HEAD_LOSS_EXTRA_HIGH, 2, 200);
    put(head + TEMBUYAS_HEAD_CONTRACT, 4, 1000);
    put(head + TEMBUYAS_HEAD_COUNT, 2, 3);
}

/* The consumer of example H, all readings 1,200 but a use of 240, and the generator of example M. */
static void fill_points(uint8_t *consumer, uint8_t *generator)
{
    memcpy(consumer + TEMBUYAS_NUMBER, "0000000000000000000001", TEMBUYAS_NUMBER_BYTES);
    consumer[TEMBUYAS_CONSUMER_CLASS] = TEMBUYAS_CLASS_HIGH;
    for (int day = 0; day <= 30; day++)
        for (int slot = 0; slot < 48; slot++)
            put(consumer + TEMBUYAS_CONSUMER_READING(day, slot), 4, 1200);
    for (int slot = 26; slot < 32; slot++)
        put(consumer + TEMBUYAS_CONSUMER_READING(0, slot), 4, 240);
    memcpy(generator + TEMBUYAS_NUMBER, "0000000000000000000002", TEMBUYAS_NUMBER_BYTES);
    put(generator + TEMBUYAS_GENERATOR_BASELINE, 4, 0);
    for (int slot = 0; slot < 6; slot++)
        put(generator + TEMBUYAS_GENERATOR_READING(slot), 4, 550000);
}

/* Plant A of list 3: share 33.3 percent, readings that rise from slot to slot. */
static void fill_mixed_firing(uint8_t *plant)
{
    memcpy(plant + TEMBUYAS_NUMBER, "0000000000000000000003", TEMBUYAS_NUMBER_BYTES);
    put(plant + TEMBUYAS_MIXED_FIRING_SHARE, 2, 333);
    for (int slot = 0; slot < 6; slot++) {
        put(plant + TEMBUYAS_MIXED_FIRING_OUTSIDE_READING(slot), 4, 400700 + 3000 * (uint32_t)slot);
        put(plant + TEMBUYAS_MIXED_FIRING_INSIDE_READING(slot), 4, 200001 + 1000 * (uint32_t)slot);
    }
}

static void write_good_book(void)
{
    static uint8_t consumer[TEMBUYAS_CONSUMER_BYTES];
    uint8_t head[TEMBUYAS_HEAD_BYTES], calendar[TEMBUYAS_CALENDAR_BYTES] = { TEMBUYAS_MARK_NONE };
    uint8_t generator[TEMBUYAS_GENERATOR_BYTES], plant[TEMBUYAS_MIXED_FIRING_BYTES];
    fill_head(head);
    fill_points(consumer, generator);
    fill_mixed_firing(plant);
    check(tembuyas_write_head(head, sizeof head, calendar, sizeof calendar, good,
                              TEMBUYAS_WRITTEN_HEAD_BYTES), 0, "a head and a calendar");
    check(tembuyas_write_point(TEMBUYAS_TAG_CONSUMER, consumer, sizeof consumer, good + CONSUMER - 3,
                               TEMBUYAS_WRITTEN_CONSUMER_BYTES), 0, "example H's consumer");
    check(tembuyas_write_point(TEMBUYAS_TAG_GENERATOR, generator, sizeof generator, good + GENERATOR - 3,
                               TEMBUYAS_WRITTEN_GENERATOR_BYTES), 0, "example M's generator");
    check(tembuyas_write_point(TEMBUYAS_TAG_MIXED_FIRING, plant, sizeof plant, good + MIXED_FIRING - 3,
                               TEMBUYAS_WRITTEN_MIXED_FIRING_BYTES), 0, "list 3's plant A");
}

/* Settles the good book: six times 1,000 and six times 550,000 Wh, and the 2,444,022 Wh of the plant. */
static void try_good_book(void)
{
    uint8_t result[TEMBUYAS_RESULT_BYTES];
    static const int64_t due[TEMBUYAS_RESULT_WORDS] = { 5750022, 1916, 0, 1916, 1000, 916, 3, 1 };
    write_good_book();
    check(tembuyas_settle_book(good, BOOK, result, sizeof result), TEMBUYAS_ACCEPTED, "H, M and list 3's plant A");
    for (int word = 0; word < TEMBUYAS_RESULT_WORDS; word++) {
        if (result_word(result, (enum tembuyas_word)word) == due[word])
            continue;
        printf("not as named: word %d of the result\n", word);
        failures++;
    }
}

/* The answers of the three functions to the book as it is now. */
static uint32_t settled(size_t length)
{
    uint8_t result[TEMBUYAS_RESULT_BYTES];
    return tembuyas_settle_book(book, length, result, sizeof result);
}

static uint32_t head_written(void)
{
    uint8_t out[TEMBUYAS_WRITTEN_HEAD_BYTES];
    return tembuyas_write_head(book + HEAD, TEMBUYAS_HEAD_BYTES, book + CALENDAR, TEMBUYAS_CALENDAR_BYTES,
                               out, sizeof out);
}

static uint64_t points_written(void)
{
    static uint8_t out[TEMBUYAS_WRITTEN_CONSUMER_BYTES];
    uint64_t answer = tembuyas_write_point(book[CONSUMER - 3], book + CONSUMER, TEMBUYAS_CONSUMER_BYTES,
                                           out, sizeof out);
    if (!answer)
        answer = tembuyas_write_point(book[GENERATOR - 3], book + GENERATOR, TEMBUYAS_GENERATOR_BYTES,
                                      out, sizeof out);
    if (!answer)
        answer = tembuyas_write_point(book[MIXED_FIRING - 3], book + MIXED_FIRING, TEMBUYAS_MIXED_FIRING_BYTES,
                                      out, sizeof out);
    return answer;
}

/* One number of the good book changed: what settling it answers, and writing its head or its points. */
struct change {
    int place, bytes;
    uint32_t number, settling, head, points;
};

static const struct change changes[] = {
    { HEAD - 2, 2, 18, TEMBUYAS_HEAD_LENGTH, 0, 0 },
    { CALENDAR - 2, 2, 29, TEMBUYAS_HEAD_LENGTH, 0, 0 },
    { HEAD + TEMBUYAS_HEAD_YEAR, 2, 2019, TEMBUYAS_NO_SUCH_DATE, TEMBUYAS_NO_SUCH_DATE, 0 },
    { HEAD + TEMBUYAS_HEAD_MONTH, 1, 13, TEMBUYAS_NO_SUCH_DATE, TEMBUYAS_NO_SUCH_DATE, 0 },
    { HEAD + TEMBUYAS_HEAD_DAY, 1, 32, TEMBUYAS_NO_SUCH_DATE, TEMBUYAS_NO_SUCH_DATE, 0 },
    { HEAD + TEMBUYAS_HEAD_DAY, 1, 10, TEMBUYAS_WEEKEND, TEMBUYAS_WEEKEND, 0 },
    { HEAD + TEMBUYAS_HEAD_SLOT, 1, 34, 0, 0, 0 },
    { HEAD + TEMBUYAS_HEAD_SLOT, 1, 35, TEMBUYAS_WINDOW_SLOT, TEMBUYAS_WINDOW_SLOT, 0 },
    { HEAD + TEMBUYAS_HEAD_LOSS_LOW, 2, 5001, TEMBUYAS_LOSS, TEMBUYAS_LOSS, 0 },
    { HEAD + TEMBUYAS_HEAD_LOSS_HIGH, 2, 5001, TEMBUYAS_LOSS, TEMBUYAS_LOSS, 0 },
    { HEAD + TEMBUYAS_HEAD_LOSS_EXTRA_HIGH, 2, 5000, 0, 0, 0 },
    { HEAD + TEMBUYAS_HEAD_LOSS_EXTRA_HIGH, 2, 5001, TEMBUYAS_LOSS, TEMBUYAS_LOSS, 0 },
    { HEAD + TEMBUYAS_HEAD_CONTRACT, 4, 0, 0, 0, 0 },
    { HEAD + TEMBUYAS_HEAD_CONTRACT, 4, 999, TEMBUYAS_CONTRACT, TEMBUYAS_CONTRACT, 0 },
    { HEAD + TEMBUYAS_HEAD_CONTRACT, 4, 10000000, 0, 0, 0 },
    { HEAD + TEMBUYAS_HEAD_CONTRACT, 4, 10000001, TEMBUYAS_CONTRACT, TEMBUYAS_CONTRACT, 0 },
    { HEAD + TEMBUYAS_HEAD_COUNT, 2, 0, TEMBUYAS_COUNT, TEMBUYAS_COUNT, 0 },
    { HEAD + TEMBUYAS_HEAD_COUNT, 2, 10001, TEMBUYAS_COUNT, TEMBUYAS_COUNT, 0 },
    { HEAD + TEMBUYAS_HEAD_COUNT, 2, 4, TEMBUYAS_COUNT_NOT_REACHED, 0, 0 },
    { HEAD + TEMBUYAS_HEAD_COUNT, 2, 2, TEMBUYAS_BYTES_AFTER, 0, 0 },
    { CALENDAR + 29, 1, TEMBUYAS_MARK_ECONOMIC, 0, 0, 0 },
    { CALENDAR + 29, 1, TEMBUYAS_MARK_ECONOMIC + 1, TEMBUYAS_MARK, TEMBUYAS_MARK, 0 },
    { HEAD - 3, 1, TEMBUYAS_TAG_CALENDAR, TEMBUYAS_WRONG_TAG, 0, 0 },
    { CALENDAR - 3, 1, TEMBUYAS_TAG_HEAD, TEMBUYAS_WRONG_TAG, 0, 0 },
    { CONSUMER - 3, 1, TEMBUYAS_TAG_CALENDAR, TEMBUYAS_POINT_TAG, 0, TEMBUYAS_POINT_TAG },
    { MIXED_FIRING - 3, 1, 6, TEMBUYAS_POINT_TAG, 0, TEMBUYAS_POINT_TAG },
    { CONSUMER - 3, 1, TEMBUYAS_TAG_GENERATOR, TEMBUYAS_POINT_LENGTH, 0, TEMBUYAS_POINT_LENGTH },
    { GENERATOR - 3, 1, TEMBUYAS_TAG_MIXED_FIRING, TEMBUYAS_POINT_LENGTH, 0, TEMBUYAS_POINT_LENGTH },
    { MIXED_FIRING - 3, 1, TEMBUYAS_TAG_GENERATOR, TEMBUYAS_POINT_LENGTH, 0, TEMBUYAS_POINT_LENGTH },
    { CONSUMER - 2, 2, 5974, TEMBUYAS_POINT_LENGTH, 0, 0 },
    { MIXED_FIRING - 2, 2, 73, TEMBUYAS_POINT_LENGTH, 0, 0 },
    { CONSUMER + TEMBUYAS_NUMBER, 1, 'A', TEMBUYAS_POINT_NUMBER, 0, TEMBUYAS_POINT_NUMBER },
    { MIXED_FIRING + TEMBUYAS_NUMBER + 21, 1, ' ', TEMBUYAS_POINT_NUMBER, 0, TEMBUYAS_POINT_NUMBER },
    { GENERATOR + TEMBUYAS_NUMBER + 21, 1, '1', TEMBUYAS_NUMBER_NOT_ABOVE, 0, 0 },
    { MIXED_FIRING + TEMBUYAS_NUMBER + 21, 1, '2', TEMBUYAS_NUMBER_NOT_ABOVE, 0, 0 },
    { CONSUMER + TEMBUYAS_CONSUMER_CLASS, 1, 0, TEMBUYAS_CLASS_OR_BASELINE, 0, TEMBUYAS_CLASS_OR_BASELINE },
    { CONSUMER + TEMBUYAS_CONSUMER_CLASS, 1, TEMBUYAS_CLASS_EXTRA_HIGH, 0, 0, 0 },
    { CONSUMER + TEMBUYAS_CONSUMER_CLASS, 1, 4, TEMBUYAS_CLASS_OR_BASELINE, 0, TEMBUYAS_CLASS_OR_BASELINE },
    { GENERATOR + TEMBUYAS_GENERATOR_BASELINE, 4, 1000000, 0, 0, 0 },
    { GENERATOR + TEMBUYAS_GENERATOR_BASELINE, 4, 1000001, TEMBUYAS_CLASS_OR_BASELINE, 0, TEMBUYAS_CLASS_OR_BASELINE },
    /* A plant never gets 16: with share 0 its first byte behind the number is no class, with 1,000 no baseline. */
    { MIXED_FIRING + TEMBUYAS_MIXED_FIRING_SHARE, 2, 0, 0, 0, 0 },
    { MIXED_FIRING + TEMBUYAS_MIXED_FIRING_SHARE, 2, 1000, 0, 0, 0 },
    { MIXED_FIRING + TEMBUYAS_MIXED_FIRING_SHARE, 2, 1001, TEMBUYAS_SHARE, 0, TEMBUYAS_SHARE },
    { MIXED_FIRING + TEMBUYAS_MIXED_FIRING_SHARE, 2, 65535, TEMBUYAS_SHARE, 0, TEMBUYAS_SHARE },
    { CONSUMER + TEMBUYAS_CONSUMER_READING(30, 47), 4, 1000000000, 0, 0, 0 },
};

static void try_changes(void)
{
    for (size_t i = 0; i < sizeof changes / sizeof *changes; i++) {
        char what[40];
        snprintf(what, sizeof what, "row %u of changes", (unsigned)i);
        memcpy(book, good, sizeof book);
        put(book + changes[i].place, changes[i].bytes, changes[i].number);
        check(settled(BOOK), changes[i].settling, what);
        check(head_written(), changes[i].head, what);
        check(points_written(), changes[i].points, what);
    }
}

/* Each of a plant's twelve readings at its limit and above it, and above it with a share above its own: 50 is told in
 * the place of 16, behind 14 and before 51, and with no index. */
static void try_mixed_firing(void)
{
    for (int i = 0; i < 12; i++) {
        char words[READING_WORDS];
        uint8_t *plant = book + MIXED_FIRING;
        uint8_t *reading = plant + (i < 6 ? TEMBUYAS_MIXED_FIRING_OUTSIDE_READING(i)
                                          : TEMBUYAS_MIXED_FIRING_INSIDE_READING(i - 6));
        memcpy(book, good, sizeof book);
        put(reading, 4, 1000000000);
        check(settled(BOOK), TEMBUYAS_ACCEPTED, "a plant's reading at the limit");
        put(reading, 4, 1000000001);
        check(settled(BOOK), TEMBUYAS_READING_TEST_DAY, "a plant's reading above the limit");
        snprintf(words, sizeof words, "reading %d, slot %d of the window, %s the tariff", i, i % 6 + 1,
                 i < 6 ? "outside" : "inside");
        check_reading(points_written(), TEMBUYAS_TAG_MIXED_FIRING, TEMBUYAS_READING_TEST_DAY, (uint32_t)i, words);
        put(plant + TEMBUYAS_MIXED_FIRING_SHARE, 2, 1001);
        check(settled(BOOK), TEMBUYAS_SHARE, "50 before 51");
        check(points_written(), TEMBUYAS_SHARE, "50 before 51, written");
    }
    book[MIXED_FIRING + TEMBUYAS_NUMBER + 21] = '2';
    check(settled(BOOK), TEMBUYAS_NUMBER_NOT_ABOVE, "15 before 50");
    book[MIXED_FIRING + TEMBUYAS_NUMBER + 21] = ' ';
    check(points_written(), TEMBUYAS_POINT_NUMBER, "14 before 50");
}

/* The first large reading of a consumer: on the test day and on the days back, then on both, where the lower index is
 * told. Each reading is above the limit in turn, from the last one down to the first. */
static void try_consumer_readings(void)
{
    memcpy(book, good, sizeof book);
    for (int index = 48 * 31 - 1; index >= 0; index--) {
        int day = index / 48, half_hour = index % 48;
        uint32_t due = day == 0 ? TEMBUYAS_READING_TEST_DAY : TEMBUYAS_READING_DAYS_BACK;
        char words[READING_WORDS];
        char of_day[20] = "test day";
        if (day > 0)
            snprintf(of_day, sizeof of_day, "day %d back", day);
        snprintf(words, sizeof words, "reading %d, %s from %d:%s", index, of_day, half_hour / 2,
                 half_hour % 2 ? "30" : "00");
        put(book + CONSUMER + TEMBUYAS_CONSUMER_READING(day, half_hour), 4, 1000000001);
        check(settled(BOOK), due, "a consumer's readings above the limit");
        check_reading(points_written(), TEMBUYAS_TAG_CONSUMER, due, (uint32_t)index, words);
    }
    check_reading(tembuyas_write_point(3, book + CONSUMER, TEMBUYAS_CONSUMER_BYTES, NULL, 0), TEMBUYAS_TAG_CONSUMER,
                  TEMBUYAS_READING_TEST_DAY, 0, "reading 0, test day from 0:00"); /* before 40 */
    book[CONSUMER + TEMBUYAS_CONSUMER_CLASS] = 4;
    check(points_written(), TEMBUYAS_CLASS_OR_BASELINE, "16 before 51, with no index");
    book[CONSUMER + TEMBUYAS_NUMBER] = ' ';
    check(points_written(), TEMBUYAS_POINT_NUMBER, "14 before 51, with no index");
}

/* The same of a generator, whose readings have 51 alone. */
static void try_generator_readings(void)
{
    memcpy(book, good, sizeof book);
    for (int slot = 5; slot >= 0; slot--) {
        char words[READING_WORDS];
        snprintf(words, sizeof words, "reading %d, slot %d of the window", slot, slot + 1);
        put(book + GENERATOR + TEMBUYAS_GENERATOR_READING(slot), 4, 1000000001);
        check(settled(BOOK), TEMBUYAS_READING_TEST_DAY, "a generator's readings above the limit");
        check_reading(points_written(), TEMBUYAS_TAG_GENERATOR, TEMBUYAS_READING_TEST_DAY, (uint32_t)slot, words);
    }
}

/* What is not a number at a place. */
static void try_lengths(void)
{
    uint8_t out[TEMBUYAS_WRITTEN_MIXED_FIRING_BYTES];
    memcpy(book, good, sizeof book);
    check(settled(0), TEMBUYAS_BOOK_CUT, "an empty book");
    check(settled(CALENDAR - 3), TEMBUYAS_BOOK_CUT, "no calendar");
    check(settled(CONSUMER - 3), TEMBUYAS_COUNT_NOT_REACHED, "no points");
    check(settled(BOOK - 1), TEMBUYAS_BOOK_CUT, "a byte is missing");
    check(settled(BOOK + 1), TEMBUYAS_BYTES_AFTER, "a byte is left");
    check(tembuyas_settle_book(book, BOOK, out, 63), TEMBUYAS_LENT_BYTES, "63 bytes for the result");
    check(tembuyas_write_head(book + HEAD, 17, book + CALENDAR, 30, out, 52), TEMBUYAS_LENT_BYTES, "room for a head");
    check(tembuyas_write_head(book + HEAD, 17, book + CALENDAR, 29, out, 53), TEMBUYAS_HEAD_LENGTH, "29 marks");
    check(tembuyas_write_point(4, book + GENERATOR, 50, out, 52), TEMBUYAS_LENT_BYTES, "room for a generator");
    check(tembuyas_write_point(4, book + GENERATOR, 49, out, 53), TEMBUYAS_POINT_LENGTH, "49 bytes of a generator");
    check(tembuyas_write_point(5, book + MIXED_FIRING, 72, out, 74), TEMBUYAS_LENT_BYTES, "room for a plant");
    check(tembuyas_write_point(5, book + MIXED_FIRING, 71, out, 75), TEMBUYAS_POINT_LENGTH, "71 bytes of a plant");
    memset(book + CALENDAR, TEMBUYAS_MARK_HOLIDAY, TEMBUYAS_CALENDAR_BYTES);
    check(settled(BOOK), TEMBUYAS_TOO_FEW_DAYS, "thirty holidays");
    memcpy(book, good, sizeof book);
    memset(book + GENERATOR + TEMBUYAS_NUMBER, '9', TEMBUYAS_NUMBER_BYTES);
    check(settled(BOOK), TEMBUYAS_POINT_NUMBER, "twenty-two nines");
}

int main(void)
{
    try_good_book();
    try_changes();
    try_consumer_readings();
    try_generator_readings();
    try_mixed_firing();
    try_lengths();
    if (!failures)
        printf("each refusal as named\n");
    return failures || fflush(stdout) ? 1 : 0;
}
