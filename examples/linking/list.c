/* Lists the case file on standard input by the checker's library, as the program `kelombary` does. */
#include "kelombary.h"

#include <stdio.h>

/* The library is built for machines of 64 bits, and lays its answer out so. */
_Static_assert(sizeof(size_t) == 8, "a length has 8 bytes");
_Static_assert(sizeof(struct kelombary_answer) == 16, "an answer has 16 bytes");
_Static_assert(offsetof(struct kelombary_answer, length) == 8, "the length has the last 8 of them");

/* One byte more than a case file has at most, so that a longer input is known to be too long. */
static uint8_t file[KELOMBARY_FILE_MOST + 1];
static uint8_t listing[KELOMBARY_LISTING_MOST];

int main(void)
{
    size_t length = fread(file, 1, sizeof file, stdin);
    if (ferror(stdin)) {
        perror("list: standard input");
        return 1;
    }
    struct kelombary_answer answer = kelombary_list(file, length, listing, sizeof listing);
    /* The buffer has room for every listing, so that only memory can be lacking. */
    if (answer.number != KELOMBARY_LISTED) {
        fputs("list: memory is lacking\n", stderr);
        return 1;
    }
    if (fwrite(listing, 1, answer.length, stdout) != answer.length || fflush(stdout) != 0) {
        perror("list: standard output");
        return 1;
    }
    return 0;
}
