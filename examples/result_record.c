/* Writes the result record of a settled book to standard output: the 64 bytes that the program report reads, as many of
 * them one behind the other as there are books in a half-year.
 *
 *     result_record FILE
 *
 * Of a refused book there is no record; it is told on standard error. Exit status: 0 written, 1 refused, 2 the file
 * could not be read, 3 the record could not be written. */
#include <errno.h>
#include <inttypes.h>
#include <stdio.h>
#include <stdlib.h>
#include <string.h>

#include "book_file.h"
#include "tembuyas.h"
#include "words.h"

enum { WRITTEN = 0, REFUSED = 1, NOT_READ = 2, NOT_WRITTEN = 3 };

int main(int argc, char **argv)
{
    if (argc != 2) {
        fprintf(stderr, "usage: result_record FILE\n");
        return NOT_READ;
    }
    struct book_file book = read_book(argv[1]);
    if (!book.first) {
        fprintf(stderr, "result_record: %s: %s\n", argv[1], strerror(errno));
        return NOT_READ;
    }
    uint8_t result[TEMBUYAS_RESULT_BYTES];
    uint32_t refusal = tembuyas_settle_book(book.first, book.length, result, sizeof result);
    free(book.first);
    if (refusal) {
        fprintf(stderr, "result_record: %s: refused %" PRIu32 ": %s\n", argv[1], refusal, refusal_in_words(refusal));
        return REFUSED;
    }
    if (fwrite(result, sizeof result, 1, stdout) != 1 || fflush(stdout)) {
        fprintf(stderr, "result_record: the record cannot be written: %s\n", strerror(errno));
        return NOT_WRITTEN;
    }
    return WRITTEN;
}
