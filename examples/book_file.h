/* A book from a file, as a whole. */
#ifndef TEMBUYAS_EXAMPLE_BOOK_FILE_H
#define TEMBUYAS_EXAMPLE_BOOK_FILE_H

#include <stddef.h>
#include <stdint.h>

struct book_file {
    uint8_t *first;
    size_t length;
};

/* The bytes of a file, which the caller frees; NULL and errno where they cannot be read. */
struct book_file read_book(const char *name);

#endif
