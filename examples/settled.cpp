// The header from C++: settles the book on standard input and prints its settled capacity or its refusal.
//
//     settled < FILE
//
// Exit status: 0 settled, 1 refused, 2 the book could not be read, 3 the line could not be written.
#include <cstdio>
#include <iostream>
#include <vector>

#include "tembuyas.h"
#include "words.h"

int main()
{
    std::vector<uint8_t> book;
    std::vector<uint8_t> part(1 << 16);
    while (const std::size_t count = std::fread(part.data(), 1, part.size(), stdin))
        book.insert(book.end(), part.begin(), part.begin() + static_cast<std::ptrdiff_t>(count));
    if (std::ferror(stdin)) {
        std::cerr << "settled: the book cannot be read\n";
        return 2;
    }
    uint8_t result[TEMBUYAS_RESULT_BYTES];
    // The data of an empty vector may be NULL, and so may a book of length 0.
    const uint32_t refusal = tembuyas_settle_book(book.data(), book.size(), result, sizeof result);
    if (refusal == TEMBUYAS_ACCEPTED)
        std::cout << "settled " << result_word(result, TEMBUYAS_SETTLED) << '\n';
    else
        std::cout << "refused " << refusal << '\n';
    if (!std::cout.flush()) {
        std::cerr << "settled: the line cannot be written\n";
        return 3;
    }
    return refusal == TEMBUYAS_ACCEPTED ? 0 : 1;
}
