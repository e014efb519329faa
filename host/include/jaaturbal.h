/* Jaaturbal: books kept in one stored image. The calls are proved to answer as told here, whatever the lent bytes hold.
 *
 * An image is divided into blocks, and a block into pages. Its first block is reserved for a header and two tables; the others
 * hold the pages of books. A book is named by its region and its edition, two numbers that open gives. The index makes loads and
 * stores quick: it goes with the image, and recover writes it anew from the image alone.
 *
 * geometry                   BENCH          HOUSE
 *   bytes in a page             64         65,536
 *   bytes in a block           512      8,388,608
 *   blocks, at most             16         32,768
 *   regions that open gives  16..22      16..32,766
 *   bytes of the index          82        131,074
 *
 * An image has room for the blocks that fit in it whole, less the first. Regions 1 to 15 are no caller's: 1 holds the blocks that
 * releases gave back, and an image may come with pages in 2 to 15, which take up room and which no call reads or changes.
 *
 * Versions. In an image of version 3 a region's first book is of edition 0, and each release makes the next one's edition one
 * higher. So no two opens give the same region and edition, and a name that was released is refused for ever: while the region is
 * not open with BOOK_REGION_NOT_USABLE, and when it is open for another book with BOOK_EDITION_WRONG. A region whose edition has
 * come to 4,294,967,295 is never opened again. In an image of version 2 every edition is 0, and the next book of a region has the
 * same name as the last. Every call but lay and move takes either version, as the image's header tells it, and leaves it.
 *
 * Memory. Every slice is a pointer, which is not NULL, and the count of bytes behind it. A slice that a call may write (a pointer
 * without const) must overlap with no other slice of that call. Slices that are only read may overlap. No call keeps a pointer,
 * allocates memory, or uses anything but its arguments, so calls on different images may run at the same time.
 *
 * Answers. Each call answers refusal * 2^56 + value, the value below 2^56: take it apart by BOOK_REFUSAL and BOOK_VALUE. The
 * refusal is 0 when the call was done. A refused call answers value 0 and has changed no byte. Where more than one refusal would
 * apply, the order of checks decides: it is told at each call.
 */
#ifndef JAATURBAL_H
#define JAATURBAL_H

#include <stddef.h>
#include <stdint.h>

#ifdef __cplusplus
extern "C" {
#endif

/* Geometries. Any other number is refused with BOOK_GEOMETRY_NOT_ALLOWED. */
#define BOOK_BENCH 0u
#define BOOK_HOUSE 1u

#define BOOK_BENCH_INDEX_BYTES ((size_t)82)
#define BOOK_HOUSE_INDEX_BYTES ((size_t)131074)

#define BOOK_VALUE_BITS 56
#define BOOK_REFUSAL(answer) ((uint32_t)((uint64_t)(answer) >> BOOK_VALUE_BITS))
#define BOOK_VALUE(answer) ((uint64_t)(answer) & (((uint64_t)1 << BOOK_VALUE_BITS) - 1))

/* Open's value is region + 65,536 * edition. */
#define BOOK_REGION(value) ((uint32_t)((uint64_t)(value) & 65535))
#define BOOK_EDITION(value) ((uint32_t)((uint64_t)(value) >> 16))

enum book_refusal {
    BOOK_DONE = 0,
    BOOK_GEOMETRY_NOT_ALLOWED = 1,   /* neither BOOK_BENCH nor BOOK_HOUSE */
    BOOK_INDEX_LENGTH = 2,           /* the index has not the bytes that the geometry asks for */
    BOOK_IMAGE_TOO_SHORT = 3,        /* the image is shorter than one block */
    BOOK_HEADER_WRONG = 4,           /* marker, version, zero bytes or counts of the header */
    BOOK_TAIL_MISSING = 5,           /* the image ends before the last block that is taken */
    BOOK_TABLES_NOT_WELL_FORMED = 6, /* the tables contradict each other; load, store, size: this book has too many pages */
    BOOK_INDEX_NOT_RECOVERED = 7,    /* the index is not what recover would write; load, store: at a position they touch */
    BOOK_REGION_NOT_USABLE = 8,      /* region 1 to 15, out of range, or not open; for release also 0 */
    BOOK_BEYOND_BOOK = 9,            /* offset plus length beyond the book's bytes */
    BOOK_NO_BLOCKS_LEFT = 10,        /* too few blocks are left for the growth */
    BOOK_NO_REGION_LEFT = 11,        /* every region is open, or has come to its last edition */
    BOOK_NOT_BLANK = 12,             /* lay, and one of the image's first 16 bytes is not zero */
    BOOK_TOO_FEW_BLOCKS = 13,        /* move, and the image has no block more than the old memory, or the geometry too few */
    BOOK_NEWER_RELEASE = 16,         /* recover, and a byte between the tables and the end of the first block is not zero: an image
                                      * of a newer release */
    BOOK_EDITION_WRONG = 18          /* the region is open, and its book is of another edition: the one that was named was released,
                                      * and the region is another's by now. Drop the name; do not try other editions. In version
                                      * 2 every edition but 0 is wrong */
};

/* Writes the header and tables of an image of version 3 with no books but those that are always there, zeros in the rest of its
 * first block, and its index. Data blocks keep their bytes. Value 0. Checks 1, 2, 3, 12. */
uint64_t book_lay(uint32_t geometry, uint8_t *image, size_t image_bytes, uint8_t *index, size_t index_bytes);

/* The same of version 2, for an image that is to be read by those who know nothing newer. */
uint64_t book_lay_version_2(uint32_t geometry, uint8_t *image, size_t image_bytes, uint8_t *index, size_t index_bytes);

/* Makes an image of version 2 of an older memory, which has no header and no tables: so many pages of bytes from the image's first
 * byte on. They become the book of region 0, byte for byte. The first block is copied past the last one of the memory, and then
 * its place becomes the header and the tables; the first 16 bytes may hold anything. Bytes past those blocks stay. The image must
 * have one whole block more than the memory needs. Move a copy: a call that is cut short has not harmed the memory before the copy
 * of its first block is whole, and afterwards the memory's own first block is gone. Value 0. Checks 1, 2, 3, 13. */
uint64_t book_move(uint32_t geometry, uint8_t *image, size_t image_bytes, uint8_t *index, size_t index_bytes, uint64_t pages);

/* Opens an empty book. Its region and edition are the value: take it apart by BOOK_REGION and BOOK_EDITION. Checks 1 to 7, 11. */
uint64_t book_open(uint32_t geometry, uint8_t *image, size_t image_bytes, uint8_t *index, size_t index_bytes);

/* Appends so many pages to a book and makes them zero. The pages that it had are the value. Checks 1 to 8, 18, 10. */
uint64_t book_grow(uint32_t geometry, uint8_t *image, size_t image_bytes, uint8_t *index, size_t index_bytes,
                   uint32_t region, uint32_t edition, uint64_t pages);

/* Fills the buffer with a book's bytes from an offset on. Value 0. Checks 1 to 5, 8, 18, 6, 9, 7. */
uint64_t book_load(uint32_t geometry, const uint8_t *image, size_t image_bytes, const uint8_t *index, size_t index_bytes,
                   uint32_t region, uint32_t edition, uint64_t offset, uint8_t *buffer, size_t buffer_bytes);

/* Writes bytes into a book from an offset on: all of them or, refused, none. Value 0. Checks 1 to 5, 8, 18, 6, 9, 7. */
uint64_t book_store(uint32_t geometry, uint8_t *image, size_t image_bytes, const uint8_t *index, size_t index_bytes,
                    uint32_t region, uint32_t edition, uint64_t offset, const uint8_t *bytes, size_t bytes_bytes);

/* The value is the book's pages. Checks 1, 3, 4, 5, 8, 18, 6. */
uint64_t book_size(uint32_t geometry, const uint8_t *image, size_t image_bytes, uint32_t region, uint32_t edition);

/* Closes a book. Its blocks are given to books that grow later; their bytes stay until then. In version 3 its name is gone for
 * ever. Value 0. Checks 1 to 8, 18. */
uint64_t book_release(uint32_t geometry, uint8_t *image, size_t image_bytes, uint8_t *index, size_t index_bytes,
                      uint32_t region, uint32_t edition);

/* Writes the whole index from the image. What the index held before has no influence. Value 0. Checks 1 to 4, 16, 5,
 * 6. */
uint64_t book_recover(uint32_t geometry, const uint8_t *image, size_t image_bytes, uint8_t *index, size_t index_bytes);

#ifdef __cplusplus
}
#endif

#endif
