/* One sale in C: a book is opened and bids are stored in it; the index is lost; the image alone brings the bids back. Then the book
 * is released and its region opened for another sale, and a late bid for the first is refused. */
#include <stdio.h>
#include <string.h>

#include "jaaturbal.h"

#define IMAGE_BYTES 8704
#define BIDS 20

static uint8_t image[IMAGE_BYTES];
static uint8_t book_index[BOOK_BENCH_INDEX_BYTES];

/* Ends the program's work at the first call that is refused. */
static int refused(const char *call, uint64_t answer)
{
    if (BOOK_REFUSAL(answer) == BOOK_DONE)
        return 0;
    printf("%s was refused with %u\n", call, (unsigned)BOOK_REFUSAL(answer));
    return 1;
}

int main(void)
{
    uint64_t answer;
    uint32_t region, edition, bid;
    char line[32], read_back[32];

    if (refused("lay", book_lay(BOOK_BENCH, image, sizeof image, book_index, sizeof book_index)))
        return 1;
    answer = book_open(BOOK_BENCH, image, sizeof image, book_index, sizeof book_index);
    if (refused("open", answer))
        return 1;
    region = BOOK_REGION(BOOK_VALUE(answer));
    edition = BOOK_EDITION(BOOK_VALUE(answer));
    if (refused("grow", book_grow(BOOK_BENCH, image, sizeof image, book_index, sizeof book_index, region, edition, 10)))
        return 1;
    for (bid = 0; bid < BIDS; bid++) {
        memset(line, 0, sizeof line);
        snprintf(line, sizeof line, "lot 7, bid %u: %u", (unsigned)bid, 1000 + 25 * (unsigned)bid);
        if (refused("store", book_store(BOOK_BENCH, image, sizeof image, book_index, sizeof book_index, region, edition,
                                        bid * sizeof line, (const uint8_t *)line, sizeof line)))
            return 1;
    }

    memset(book_index, 0xa5, sizeof book_index);
    if (refused("recover", book_recover(BOOK_BENCH, image, sizeof image, book_index, sizeof book_index)))
        return 1;
    for (bid = 0; bid < BIDS; bid++) {
        memset(line, 0, sizeof line);
        snprintf(line, sizeof line, "lot 7, bid %u: %u", (unsigned)bid, 1000 + 25 * (unsigned)bid);
        if (refused("load", book_load(BOOK_BENCH, image, sizeof image, book_index, sizeof book_index, region, edition,
                                      bid * sizeof line, (uint8_t *)read_back, sizeof read_back)))
            return 1;
        if (memcmp(line, read_back, sizeof line) != 0) {
            printf("bid %u was not read back\n", (unsigned)bid);
            return 1;
        }
    }
    answer = book_size(BOOK_BENCH, image, sizeof image, region, edition);
    printf("%d bids read back from region %u, edition %u, %u pages\n", BIDS, (unsigned)region, (unsigned)edition,
           (unsigned)BOOK_VALUE(answer));
    if (refused("release", book_release(BOOK_BENCH, image, sizeof image, book_index, sizeof book_index, region, edition)))
        return 1;
    answer = book_size(BOOK_BENCH, image, sizeof image, region, edition);
    printf("after release: refusal %u\n", (unsigned)BOOK_REFUSAL(answer));
    if (BOOK_REFUSAL(answer) != BOOK_REGION_NOT_USABLE)
        return 1;

    /* A region is opened again when all others were given out. */
    do {
        answer = book_open(BOOK_BENCH, image, sizeof image, book_index, sizeof book_index);
        if (refused("open", answer))
            return 1;
    } while (BOOK_REGION(BOOK_VALUE(answer)) != region);
    printf("region %u opened again: edition %u\n", (unsigned)region, (unsigned)BOOK_EDITION(BOOK_VALUE(answer)));
    answer = book_store(BOOK_BENCH, image, sizeof image, book_index, sizeof book_index, region, edition, 0,
                        (const uint8_t *)line, sizeof line);
    printf("a bid for edition %u: refusal %u\n", (unsigned)edition, (unsigned)BOOK_REFUSAL(answer));
    return BOOK_REFUSAL(answer) == BOOK_EDITION_WRONG ? 0 : 1;
}
