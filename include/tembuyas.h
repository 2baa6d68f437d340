/* Tembuyas, the effectiveness test ledger, for C and C++: writes test books and settles them.
 *
 * Building and linking. `rt lib --backend rattle` in crates/tembuyas proves the library and makes out/libtembuyas.a
 * there, for x86-64 Linux. It calls no other library and needs no flags:
 *
 *     cc -Iinclude program.c crates/tembuyas/out/libtembuyas.a
 *
 * Answers. Every function answers 0 (accepted) or the number of the one refusal due to its input: where several are
 * due, the first in the order that stands at the function. tembuyas_write_point gives beside it the index of a reading
 * that is too large. A refused call changes no lent byte. An accepted call writes the bytes named at the function and
 * no others. This is proved for every input (crates/tembuyas/src/lib.rt has the contracts); the compiler's step to
 * machine code and your own program are outside the proofs.
 *
 * Memory. A pointer and the length behind it lend that many bytes for the time of the call. Nothing is kept, allocated
 * or freed. Books and values are only read.
 *   - Alignment: any.
 *   - NULL: allowed with length 0, for every pointer. With any other length the bytes must be there.
 *   - Overlap: result must not overlap book, and out must not overlap head, calendar or value. The contracts are about
 *     memory that does not; what a call does with memory that does is not said. Head and calendar may overlap.
 *   - Threads: the library has no state and no variables. Calls may run at the same time in any number of threads, if
 *     nobody writes to what a call has been lent until it returns.
 *   - Stack: tembuyas_settle_book takes about six and a half kilobytes, the two other functions a quarter of one.
 *
 * Figures. The results are those of the rules in docs/BOOK.md. They are not those of OCCTO's form 10 (docs/DESK.md).
 */
#ifndef TEMBUYAS_H
#define TEMBUYAS_H

#include <stddef.h>
#include <stdint.h>

#ifdef __cplusplus
extern "C" {
#endif

/* The version of this header: one higher with every change of a size, a place, a tag, a refusal, a word or a function.
 * The archive has no version of its own; take both from the same commit. From 2 to 3: tembuyas_write_point answers with
 * 64 bits, and TEMBUYAS_READING (17) became TEMBUYAS_READING_TEST_DAY and TEMBUYAS_READING_DAYS_BACK (51, 52). */
#define TEMBUYAS_VERSION 3

/* ---- The test book --------------------------------------------------------------------------------------------------
 *
 * A book is a head field, a calendar field, and as many point fields as the head says. A field is a tag of one byte,
 * the length of its value in two bytes, and the value. All numbers have no sign and the high byte first. The places
 * below are counted from the first byte of a value, which is 0. */
#define TEMBUYAS_TAG_HEAD 1
#define TEMBUYAS_TAG_CALENDAR 2
#define TEMBUYAS_TAG_CONSUMER 3
#define TEMBUYAS_TAG_GENERATOR 4
#define TEMBUYAS_TAG_MIXED_FIRING 5

/* The bytes of a value. */
#define TEMBUYAS_HEAD_BYTES 17
#define TEMBUYAS_CALENDAR_BYTES 30
#define TEMBUYAS_CONSUMER_BYTES 5975
#define TEMBUYAS_GENERATOR_BYTES 50
#define TEMBUYAS_MIXED_FIRING_BYTES 72

/* The bytes of a field: tag and length, and what the two writing functions write. */
#define TEMBUYAS_TAG_AND_LENGTH_BYTES 3
#define TEMBUYAS_WRITTEN_HEAD_BYTES 53       /* the head field and the calendar field */
#define TEMBUYAS_WRITTEN_CONSUMER_BYTES 5978
#define TEMBUYAS_WRITTEN_GENERATOR_BYTES 53
#define TEMBUYAS_WRITTEN_MIXED_FIRING_BYTES 75

/* Head. */
#define TEMBUYAS_HEAD_YEAR 0                 /* 2 bytes: the test day, 2020-01-01 to 2099-12-31, Monday to Friday */
#define TEMBUYAS_HEAD_MONTH 2                /* 1 byte, 1 to 12 */
#define TEMBUYAS_HEAD_DAY 3                  /* 1 byte, from 1 */
#define TEMBUYAS_HEAD_SLOT 4                 /* 1 byte: first half-hour of the window, 18 (9:00) to 34 (17:00) */
#define TEMBUYAS_HEAD_LOSS_LOW 5             /* 2 bytes each, hundredths of a percent, at most 5,000 (50.00 percent): */
#define TEMBUYAS_HEAD_LOSS_HIGH 7            /* low, high and extra-high voltage */
#define TEMBUYAS_HEAD_LOSS_EXTRA_HIGH 9
#define TEMBUYAS_HEAD_CONTRACT 11            /* 4 bytes, kW: 0, or 1,000 to 10,000,000 */
#define TEMBUYAS_HEAD_COUNT 15               /* 2 bytes: number of points, 1 to 10,000 */

/* Calendar: one mark a day, that of day k back, k from 1 to 30, at k - 1. A day with a mark above 0 is not used for a
 * baseline. Saturdays and Sundays are left out by themselves and may have any mark of these. */
#define TEMBUYAS_MARK_NONE 0
#define TEMBUYAS_MARK_HOLIDAY 1
#define TEMBUYAS_MARK_DISPATCH 2             /* earlier dispatch by the grid operator */
#define TEMBUYAS_MARK_ECONOMIC 3             /* economic dispatch, excluded on application */

/* Point numbers: 22 ASCII digits at the front of a point's value. Twenty-two nines are refused. Numbers rise strictly
 * over the whole book, points of all kinds together. */
#define TEMBUYAS_NUMBER 0
#define TEMBUYAS_NUMBER_BYTES 22

/* Consumer: 1,488 readings of 4 bytes in Wh, at most 1,000,000,000 each: the 48 half-hours of the test day, then those
 * of days 1 to 30 back. Half-hour 0 begins at midnight. */
#define TEMBUYAS_CONSUMER_CLASS 22           /* 1 byte: */
#define TEMBUYAS_CLASS_LOW 1
#define TEMBUYAS_CLASS_HIGH 2
#define TEMBUYAS_CLASS_EXTRA_HIGH 3
#define TEMBUYAS_CONSUMER_READINGS 23
#define TEMBUYAS_CONSUMER_READING(day_back, half_hour) (23 + 4 * (48 * (day_back) + (half_hour)))

/* Generator: the six readings of the window, 4 bytes in Wh, at most 1,000,000,000 each. */
#define TEMBUYAS_GENERATOR_BASELINE 22       /* 4 bytes, kW: 0, or the assessed capacity where one site bids twice */
#define TEMBUYAS_GENERATOR_READINGS 26
#define TEMBUYAS_GENERATOR_READING(window_slot) (26 + 4 * (window_slot)) /* 0 to 5 */

/* Mixed-firing biomass plant: the six readings of the window for the part outside the feed-in tariff and six for the
 * part inside it, 4 bytes in Wh, at most 1,000,000,000 each. The pair is one point and has one number. */
#define TEMBUYAS_MIXED_FIRING_SHARE 22       /* 2 bytes: biomass share in tenths of a percent, at most 1,000 */
#define TEMBUYAS_MIXED_FIRING_OUTSIDE 24
#define TEMBUYAS_MIXED_FIRING_OUTSIDE_READING(window_slot) (24 + 4 * (window_slot)) /* 0 to 5 */
#define TEMBUYAS_MIXED_FIRING_INSIDE 48
#define TEMBUYAS_MIXED_FIRING_INSIDE_READING(window_slot) (48 + 4 * (window_slot)) /* 0 to 5 */

/* ---- The result of a settled book -----------------------------------------------------------------------------------
 *
 * Eight words of eight bytes, with a sign (two's complement), high byte first: word w stands at 8 * w. The 64 bytes are
 * also a record of the half-year report: the program report reads up to 500 of them, one behind the other. */
#define TEMBUYAS_RESULT_BYTES 64
#define TEMBUYAS_RESULT_WORDS 8
enum tembuyas_word {
    TEMBUYAS_TOTAL = 0,     /* Wh, all results of all points and slots; may be below zero */
    TEMBUYAS_SETTLED = 1,   /* kW, total / 3,000 rounded down; may be below zero */
    TEMBUYAS_SHORTFALL = 2, /* kW, contract - settled, at least 0 */
    TEMBUYAS_EXPECTED = 3,  /* kW, settled, at least 0 */
    TEMBUYAS_KEPT = 4,      /* kW, the smaller of expected and contract */
    TEMBUYAS_SURPLUS = 5,   /* kW, expected - kept */
    TEMBUYAS_POINTS = 6,    /* the number of points */
    TEMBUYAS_BID = 7        /* 1 where expected is 1,000 or more, else 0 */
};

/* ---- Refusals -------------------------------------------------------------------------------------------------------
 *
 * 9, 10 and 13 of the ledger cannot come: they are about a settlement state, a count that is reached already and six
 * lent places for results, and a caller of these functions hands in none of them. */
enum tembuyas_refusal {
    TEMBUYAS_ACCEPTED = 0,
    /* head and calendar */
    TEMBUYAS_HEAD_LENGTH = 1,        /* head not 17 or calendar not 30 bytes */
    TEMBUYAS_NO_SUCH_DATE = 2,       /* no such date from 2020-01-01 to 2099-12-31 */
    TEMBUYAS_WEEKEND = 3,            /* the test day is a Saturday or Sunday */
    TEMBUYAS_WINDOW_SLOT = 4,        /* the window does not lie between 9:00 and 20:00: slot not 18 to 34 */
    TEMBUYAS_LOSS = 5,               /* a loss above 5,000 (50.00 percent) */
    TEMBUYAS_CONTRACT = 6,           /* contract neither 0 nor 1,000 to 10,000,000 kW */
    TEMBUYAS_COUNT = 7,              /* number of points not 1 to 10,000 */
    TEMBUYAS_MARK = 8,               /* a calendar mark above 3 */
    /* points */
    TEMBUYAS_POINT_TAG = 11,         /* tag of no point: not 3, 4 or 5 */
    TEMBUYAS_POINT_LENGTH = 12,      /* length of the value not that of the tag */
    TEMBUYAS_POINT_NUMBER = 14,      /* number not 22 digits, or all nines */
    TEMBUYAS_NUMBER_NOT_ABOVE = 15,  /* number not above that of the point before */
    TEMBUYAS_CLASS_OR_BASELINE = 16, /* class not 1 to 3, or baseline above 1,000,000 kW */
    TEMBUYAS_TOO_FEW_DAYS = 18,      /* a consumer, and fewer than four of the thirty days are eligible */
    /* books and lent bytes */
    TEMBUYAS_COUNT_NOT_REACHED = 20, /* the book ends where a further point is due */
    TEMBUYAS_BOOK_CUT = 31,          /* the book is empty or ends within a field, or before its calendar */
    TEMBUYAS_LENT_BYTES = 40,        /* not 64 result bytes, or too few bytes to write to */
    TEMBUYAS_WRONG_TAG = 41,         /* head (tag 1) or calendar (tag 2) not where it belongs */
    TEMBUYAS_BYTES_AFTER = 42,       /* bytes after the last point */
    /* mixed-firing plants */
    TEMBUYAS_SHARE = 50,             /* a biomass share above 1,000 (100.0 percent); told in the place of 16 */
    /* readings above 1,000,000,000 Wh, used or not, by the first of them; 17, once told of both, no longer comes */
    TEMBUYAS_READING_TEST_DAY = 51,  /* one of a consumer's test day, or any of a generator or a mixed-firing plant */
    TEMBUYAS_READING_DAYS_BACK = 52  /* one of a consumer's days back; none of its test day is above the limit */
};

/* The answer of tembuyas_write_point is two numbers in one of 64 bits: the refusal in the low 32, the index in the high
 * 32. The index is that of the first reading above the limit, counted from 0 in the order of the value; class, baseline
 * and share are not counted. It is 0 with every refusal but 51 and 52, and where the point is accepted: so an accepted
 * answer is 0, and a program that keeps 32 bits of the answer has the refusal. */
#define TEMBUYAS_REFUSAL(answer) ((uint32_t)(answer))
#define TEMBUYAS_INDEX(answer) ((uint32_t)((uint64_t)(answer) >> 32))

/* The reading of an index. Of a consumer the day back (0 is the test day) and the half-hour of that day:
 * TEMBUYAS_CONSUMER_READING of both is its place. Of the other kinds the slot of the window, 0 to 5; of a mixed-firing
 * plant the indexes 0 to 5 are outside the tariff, 6 to 11 inside it. */
#define TEMBUYAS_INDEX_DAY_BACK(index) ((index) / 48)
#define TEMBUYAS_INDEX_HALF_HOUR(index) ((index) % 48)
#define TEMBUYAS_INDEX_WINDOW_SLOT(index) ((index) % 6)

/* ---- Functions --------------------------------------------------------------------------------------------------- */

/* Settles a whole book. Accepted: all 64 bytes of result are written.
 *
 * Refusals, in this order:
 *   40               result_length is not 64
 *   31, 41, 1, 31    the head field: under three bytes left, tag, length, value cut; 31 is also that of an empty book
 *   31, 41, 1, 31    the calendar field
 *   2 to 8           what head and calendar hold
 *   then for each point
 *   20, 31, 11, 12, 31                  its field: no byte left, under three bytes left, tag, length, value cut
 *   14, 15, 16 or 50, 51 or 52, 18      its value
 *   and behind the last point
 *   42               a byte is left */
uint32_t tembuyas_settle_book(const uint8_t *book, size_t book_length, uint8_t *result, size_t result_length);

/* Writes the head field and the calendar field of a book, from their values. Accepted: the first 53 bytes of out are
 * written; bytes behind them keep their values.
 *
 * Refusals, in this order: 1 to 8; then 40, out_length under 53. */
uint32_t tembuyas_write_head(const uint8_t *head, size_t head_length, const uint8_t *calendar, size_t calendar_length,
                             uint8_t *out, size_t out_length);

/* Writes the field of one point, from its tag and value. Accepted: the first 3 + value_length bytes of out are written
 * (5,978 for a consumer, 53 for a generator, 75 for a mixed-firing plant); bytes behind them keep their values.
 *
 * Refusals, in this order: 11, 12, 14, 16 or 50 by kind, 51 or 52 by the first reading above the limit; then 40,
 * out_length too small. The order of numbers (15), the days of a consumer (18) and the number of points (20, 42) are
 * seen only when the book is settled. The index of a reading stands above the refusal (TEMBUYAS_INDEX). */
uint64_t tembuyas_write_point(uint8_t tag, const uint8_t *value, size_t value_length, uint8_t *out, size_t out_length);

#ifdef __cplusplus
}
#endif

#endif
