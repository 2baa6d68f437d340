/* Writes a test book to standard output, field by field: the one of example M, with one generator.
 *
 *     write_book > FILE
 *
 * Exit status: 0 written, 1 a value was refused, 3 the book could not be written. */
#include <inttypes.h>
#include <stdio.h>
#include <string.h>

#include "tembuyas.h"
#include "words.h"

/* A number into n bytes, the high byte first. */
static void put(uint8_t *at, int n, uint32_t number)
{
    for (int i = n - 1; i >= 0; i--) {
        at[i] = number & 0xff;
        number >>= 8;
    }
}

/* A test on 2024-08-07 from 13:00 to 16:00. */
static void fill_head(uint8_t head[TEMBUYAS_HEAD_BYTES])
{
    put(head + TEMBUYAS_HEAD_YEAR, 2, 2024);
    put(head + TEMBUYAS_HEAD_MONTH, 1, 8);
    put(head + TEMBUYAS_HEAD_DAY, 1, 7);
    put(head + TEMBUYAS_HEAD_SLOT, 1, 26);
    put(head + TEMBUYAS_HEAD_LOSS_LOW, 2, 700);
    put(head + TEMBUYAS_HEAD_LOSS_HIGH, 2, 400);
    put(head + TEMBUYAS_HEAD_LOSS_EXTRA_HIGH, 2, 200);
    put(head + TEMBUYAS_HEAD_CONTRACT, 4, 1000);
    put(head + TEMBUYAS_HEAD_COUNT, 2, 1);
}

static void fill_generator(uint8_t value[TEMBUYAS_GENERATOR_BYTES])
{
    memcpy(value + TEMBUYAS_NUMBER, "0000000000000000000001", TEMBUYAS_NUMBER_BYTES);
    put(value + TEMBUYAS_GENERATOR_BASELINE, 4, 0);
    for (int slot = 0; slot < 6; slot++)
        put(value + TEMBUYAS_GENERATOR_READING(slot), 4, 550000);
}

static int refused(const char *what, uint32_t refusal, const char *reading)
{
    fprintf(stderr, "write_book: %s: refused %" PRIu32 ": %s%s%s\n", what, refusal, refusal_in_words(refusal),
            *reading ? ": " : "", reading);
    return 1;
}

int main(void)
{
    uint8_t head[TEMBUYAS_HEAD_BYTES];
    uint8_t calendar[TEMBUYAS_CALENDAR_BYTES] = { TEMBUYAS_MARK_NONE };
    uint8_t generator[TEMBUYAS_GENERATOR_BYTES];
    uint8_t field[TEMBUYAS_WRITTEN_CONSUMER_BYTES];
    fill_head(head);
    fill_generator(generator);

    uint32_t refusal = tembuyas_write_head(head, sizeof head, calendar, sizeof calendar, field, sizeof field);
    if (refusal)
        return refused("head", refusal, "");
    fwrite(field, 1, TEMBUYAS_WRITTEN_HEAD_BYTES, stdout);

    uint64_t answer = tembuyas_write_point(TEMBUYAS_TAG_GENERATOR, generator, sizeof generator, field, sizeof field);
    if (answer) {
        char text[READING_WORDS];
        const char *reading = reading_in_words(text, TEMBUYAS_TAG_GENERATOR, answer);
        return refused("generator", TEMBUYAS_REFUSAL(answer), reading);
    }
    fwrite(field, 1, TEMBUYAS_WRITTEN_GENERATOR_BYTES, stdout);

    if (fflush(stdout) || ferror(stdout)) {
        perror("write_book: the book cannot be written");
        return 3;
    }
    return 0;
}
