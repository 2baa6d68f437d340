/* What a screen needs to show an answer of tembuyas.h: a refusal and a reading in words, and one word of a result. */
#ifndef TEMBUYAS_EXAMPLE_WORDS_H
#define TEMBUYAS_EXAMPLE_WORDS_H

#include "tembuyas.h"

#ifdef __cplusplus
extern "C" {
#endif

/* A refusal in words. */
const char *refusal_in_words(uint32_t refusal);

/* The reading that an answer of tembuyas_write_point to this tag is about, in words; none where it is about none. */
#define READING_WORDS 80
const char *reading_in_words(char text[READING_WORDS], uint8_t tag, uint64_t answer);

/* One of the eight words of a result. */
int64_t result_word(const uint8_t result[TEMBUYAS_RESULT_BYTES], enum tembuyas_word word);

#ifdef __cplusplus
}
#endif

#endif
