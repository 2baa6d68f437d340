/* A book from a file, as a whole. */
#include "book_file.h"

#include <errno.h>
#include <stdio.h>
#include <stdlib.h>

/* All that is left of a file, or NULL and errno. */
static struct book_file rest_of(FILE *file)
{
    struct book_file book = { NULL, 0 };
    size_t room = 0;
    for (;;) {
        if (book.length == room) {
            room = room ? 2 * room : 1 << 16;
            uint8_t *more = realloc(book.first, room);
            if (!more)
                break;
            book.first = more;
        }
        size_t count = fread(book.first + book.length, 1, room - book.length, file);
        if (ferror(file))
            break;
        if (count == 0)
            return book;
        book.length += count;
    }
    int error = errno;
    free(book.first);
    errno = error;
    return (struct book_file){ NULL, 0 };
}

struct book_file read_book(const char *name)
{
    FILE *file = fopen(name, "rb");
    if (!file)
        return (struct book_file){ NULL, 0 };
    struct book_file book = rest_of(file);
    int error = errno;
    fclose(file);
    errno = error;
    return book;
}
