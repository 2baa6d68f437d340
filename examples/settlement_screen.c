/* A settlement screen: settles one test book and shows its figures.
 *
 *     settlement_screen FILE
 *
 * Exit status: 0 settled, 1 refused, 2 the file could not be read, 3 the figures could not be written. */
#include <errno.h>
#include <inttypes.h>
#include <stdio.h>
#include <stdlib.h>
#include <string.h>

#include "book_file.h"
#include "tembuyas.h"
#include "words.h"

enum { SETTLED = 0, REFUSED = 1, NOT_READ = 2, NOT_WRITTEN = 3 };

static void show_figure(const char *name, const uint8_t *result, enum tembuyas_word word, const char *unit)
{
    printf("%-20s %10" PRId64 "%s\n", name, result_word(result, word), unit);
}

static void show_result(const uint8_t *result)
{
    show_figure("points", result, TEMBUYAS_POINTS, "");
    show_figure("total", result, TEMBUYAS_TOTAL, " Wh");
    show_figure("settled capacity", result, TEMBUYAS_SETTLED, " kW");
    show_figure("shortfall", result, TEMBUYAS_SHORTFALL, " kW");
    show_figure("expected capacity", result, TEMBUYAS_EXPECTED, " kW");
    show_figure("kept", result, TEMBUYAS_KEPT, " kW");
    show_figure("surplus", result, TEMBUYAS_SURPLUS, " kW");
    printf("%-20s %10s\n", "may be bid", result_word(result, TEMBUYAS_BID) ? "yes" : "no");
}

static void show_refusal(uint32_t refusal, size_t book_length)
{
    int empty = refusal == TEMBUYAS_BOOK_CUT && book_length == 0;
    printf("refused %" PRIu32 ": %s\n", refusal, empty ? "the book is empty" : refusal_in_words(refusal));
}

int main(int argc, char **argv)
{
    if (argc != 2) {
        fprintf(stderr, "usage: settlement_screen FILE\n");
        return NOT_READ;
    }
    struct book_file book = read_book(argv[1]);
    if (!book.first) {
        fprintf(stderr, "settlement_screen: %s: %s\n", argv[1], strerror(errno));
        return NOT_READ;
    }
    uint8_t result[TEMBUYAS_RESULT_BYTES];
    uint32_t refusal = tembuyas_settle_book(book.first, book.length, result, sizeof result);
    free(book.first);
    if (refusal)
        show_refusal(refusal, book.length);
    else
        show_result(result);
    if (fflush(stdout) || ferror(stdout)) {
        fprintf(stderr, "settlement_screen: the figures cannot be written: %s\n", strerror(errno));
        return NOT_WRITTEN;
    }
    return refusal ? REFUSED : SETTLED;
}
