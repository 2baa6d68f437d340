/* One plain pass over the bytes of a book: the sum of its words of four bytes, high byte first. */
#include <stddef.h>
#include <stdint.h>

uint64_t plain_pass(const uint8_t *bytes, size_t length)
{
    uint64_t sum = 0;
    for (size_t i = 0; i + 4 <= length; i += 4) {
        const uint8_t *word = bytes + i;
        sum += (uint32_t)word[0] << 24 | (uint32_t)word[1] << 16 | (uint32_t)word[2] << 8 | (uint32_t)word[3];
    }
    return sum;
}
