/* A refusal and a reading in words, and one word of a result. */
#include "words.h"

#include <stdio.h>
#include <string.h>

const char *refusal_in_words(uint32_t refusal)
{
    switch (refusal) {
    case TEMBUYAS_ACCEPTED: return "accepted";
    case TEMBUYAS_HEAD_LENGTH: return "the head has not 17 bytes or the calendar not 30";
    case TEMBUYAS_NO_SUCH_DATE: return "no such date from 2020-01-01 to 2099-12-31";
    case TEMBUYAS_WEEKEND: return "the test day is a Saturday or Sunday";
    case TEMBUYAS_WINDOW_SLOT: return "the window does not lie between 9:00 and 20:00";
    case TEMBUYAS_LOSS: return "a loss is above 50.00 percent";
    case TEMBUYAS_CONTRACT: return "the contract is neither 0 nor 1,000 to 10,000,000 kW";
    case TEMBUYAS_COUNT: return "the number of points is not 1 to 10,000";
    case TEMBUYAS_MARK: return "a calendar mark is above 3";
    case TEMBUYAS_POINT_TAG: return "a field where a point is due has another tag";
    case TEMBUYAS_POINT_LENGTH: return "a point has not the length of its tag";
    case TEMBUYAS_POINT_NUMBER: return "a point number is not 22 digits, or not issued yet";
    case TEMBUYAS_NUMBER_NOT_ABOVE: return "point numbers do not rise";
    case TEMBUYAS_CLASS_OR_BASELINE: return "a voltage class or a generator's baseline is not allowed";
    case TEMBUYAS_TOO_FEW_DAYS: return "a consumer is in the list, and fewer than four of the thirty days are eligible";
    case TEMBUYAS_COUNT_NOT_REACHED: return "the book has fewer points than its head says";
    case TEMBUYAS_BOOK_CUT: return "the book ends within a field or before its calendar";
    case TEMBUYAS_LENT_BYTES: return "not 64 bytes for the result, or too few to write to";
    case TEMBUYAS_WRONG_TAG: return "the head or the calendar is not where it belongs";
    case TEMBUYAS_BYTES_AFTER: return "bytes follow the last point";
    case TEMBUYAS_SHARE: return "a biomass share is above 100.0 percent";
    case TEMBUYAS_READING_TEST_DAY: return "a reading of the test day or a generating point is above 1,000,000,000 Wh";
    case TEMBUYAS_READING_DAYS_BACK: return "a reading of a consumer's days back is above 1,000,000,000 Wh";
    default: return "a refusal that this screen does not know";
    }
}

const char *reading_in_words(char text[READING_WORDS], uint8_t tag, uint64_t answer)
{
    uint32_t refusal = TEMBUYAS_REFUSAL(answer);
    unsigned index = TEMBUYAS_INDEX(answer);
    unsigned half_hour = TEMBUYAS_INDEX_HALF_HOUR(index);
    text[0] = 0;
    if (refusal != TEMBUYAS_READING_TEST_DAY && refusal != TEMBUYAS_READING_DAYS_BACK)
        return text;
    if (refusal == TEMBUYAS_READING_DAYS_BACK)
        snprintf(text, READING_WORDS, "reading %u, day %u back from %u:%02u", index, TEMBUYAS_INDEX_DAY_BACK(index),
                 half_hour / 2, half_hour % 2 * 30);
    else if (tag == TEMBUYAS_TAG_CONSUMER)
        snprintf(text, READING_WORDS, "reading %u, test day from %u:%02u", index, half_hour / 2, half_hour % 2 * 30);
    else /* slots are counted from 1 here, as settle_book prints them */
        snprintf(text, READING_WORDS, "reading %u, slot %u of the window%s", index,
                 TEMBUYAS_INDEX_WINDOW_SLOT(index) + 1,
                 tag == TEMBUYAS_TAG_GENERATOR ? "" : index < 6 ? ", outside the tariff" : ", inside the tariff");
    return text;
}

int64_t result_word(const uint8_t result[TEMBUYAS_RESULT_BYTES], enum tembuyas_word word)
{
    uint64_t bits = 0;
    int64_t value;
    for (int i = 0; i < 8; i++)
        bits = bits << 8 | result[8 * (int)word + i];
    memcpy(&value, &bits, sizeof value);
    return value;
}
