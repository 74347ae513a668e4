/*
 * Coinbarrow: the Exif block of a HEIF or JPEG image, a listing of the boxes of a HEIF image, and the morning sheet of the lines that the intake
 * wrote. Link libcoinbarrow.a, which is for x86-64 Linux.
 *
 * Bytes are passed as a pointer and a length. Where a length is 0 the pointer isn't used, and may be null. `out` must not overlap the input.
 * A call reads only the bytes of its input and writes only the bytes of `out`. It allocates nothing and keeps nothing for later, so calls may run on
 * several threads at once, if nobody else writes the input or uses the output meanwhile.
 */
#ifndef COINBARROW_H
#define COINBARROW_H

#include <stdbool.h>
#include <stddef.h>
#include <stdint.h>

#ifdef __cplusplus
extern "C" {
#endif

/* No block is longer than this, of HEIF or of JPEG: an output of so many bytes always has room. */
#define COINBARROW_LONGEST 65531

/*
 * The Exif block of `image`, a HEIF image, goes to the front of `out`. (For JPEG call `coinbarrow_photo`, below.) The answer has a number and a length, which `coinbarrow_number` and
 * `coinbarrow_length` take out of it.
 *
 *   0  done; the length is the block's, and `out` is unchanged behind it
 *  28  no room: `out` is shorter than the block; the length is the block's, and `out` is unchanged
 *
 * Any other number says why there is no block; then the length is 0, and `out` is unchanged.
 *
 *   1  not found                  10  iloc version               19  invalid length
 *   2  image ends too soon        11  base offset size           20  out of idat
 *   3  box too small              12  index size                 21  no idat
 *   4  invalid box size           13  offset size                22  by item offset
 *   5  large seek                 14  length size                23  unknown method
 *   6  meta before ftyp           15  external data reference    24  over 65,535 bytes
 *   7  no known brand             16  no iloc                    25  under 4 bytes
 *   8  meta version               17  no matching entry          26  header offset
 *   9  infe version               18  invalid offset
 *
 * 27 is retired: no image gives it.
 */
uint64_t coinbarrow_exif(const uint8_t *image, size_t image_len, uint8_t *out, size_t out_len);

/*
 * The same for an image that may be HEIF or JPEG. Where `coinbarrow_is_heif` says yes, the answer is that of `coinbarrow_exif`. Any other image that
 * starts FF D8 is read as JPEG: 0 and 28 are as above, and the numbers that say why there is no block are
 *
 *   1  not found: a marker DA or D9 comes before an Exif segment
 *   2  image ends too soon: before a marker, or inside a marker, a length or a body
 *  32  no FF where a marker must be
 *  33  length under 2
 *
 * What is neither gets the answer of `coinbarrow_exif`. 27 and 29 to 31 are never given.
 */
uint64_t coinbarrow_photo(const uint8_t *image, size_t image_len, uint8_t *out, size_t out_len);

/* Of either answer: the number is the upper half, the length the lower. */
static inline unsigned coinbarrow_number(uint64_t answer) {
    return (unsigned)(answer >> 32);
}

static inline size_t coinbarrow_length(uint64_t answer) {
    return (size_t)(answer & 0xffffffff);
}

/* Whether the first `ftyp` box has `mif1` or `msf1` among its compatible brands. It and the boxes before it must be whole. */
bool coinbarrow_is_heif(const uint8_t *bytes, size_t bytes_len);

/* The longest image that is listed. */
#define COINBARROW_LONGEST_LISTED 65536

/* No text is longer than this: an output of so many bytes always gets all of it. */
#define COINBARROW_LONGEST_TEXT 458771

/*
 * The boxes of `image` as text, a line a box. The text goes to the front of `out`, as much of it as there is room for. It has no zero byte at its
 * end. The answer is the length of all of it: where that is more than `out_len` the text was cut, maybe inside a line; otherwise `out` is unchanged
 * behind it.
 *
 *   depth=1 at=99 type=69646174 header=8 body=9
 *
 * says of a box how many others it is in, where it starts, its type in hex (here `idat`), and the bytes of its header and of its body. The lines of
 * the boxes inside it follow, if it is a `moov`, `trak`, `mdia`, `minf`, `dinf`, `stbl`, `iprp`, `ipco`, `meta` or `iinf`, and its depth is below 8.
 * The last line is one of
 *
 *   end=116 answer=0       the boxes fill the image, which has 116 bytes
 *   end=20 answer=3        the box at 20 can't be read, and has no line, or can't be opened, and has one: it doesn't fit into what it is in, or is
 *                          too short to be opened
 *   end=20 answer=4        the box at 20 has a size that no box has, and no line
 *   end=65536 answer=29    the image is longer than COINBARROW_LONGEST_LISTED; it is the only line
 *
 * With an `out_len` of 0 the call only tells the length. To list the front of a longer image, pass COINBARROW_LONGEST_LISTED as `image_len`: the
 * listing then ends with 3 at the box that is cut.
 */
size_t coinbarrow_list(const uint8_t *image, size_t image_len, uint8_t *out, size_t out_len);

/* The most lines that are counted. */
#define COINBARROW_MOST_LINES 100000

/* No sheet is longer than this: an output of so many bytes always gets all of it. */
#define COINBARROW_LONGEST_SHEET 2350

/*
 * The morning sheet of `lines`: how many files had which answer. It goes to the front of `out`, as much of it as there is room for. As with
 * `coinbarrow_list`, it has no zero byte at its end, and the answer is the length of all of it: where that is more than `out_len` it was cut;
 * otherwise `out` is unchanged behind it. With an `out_len` of 0 the call only tells the length.
 *
 * Each line is exactly
 *
 *   answer=0 length=4
 *
 * and a newline. The answer is at most 99, the length at most 65,535, and 0 unless the answer is 0. Both are decimal, without leading zeros. Of this
 * line the sheet is
 *
 *   answer=0 files=1
 *   total files=1 bytes=4 largest=4
 *
 * There is a line for each answer that occurred, ascending. The last line has the number of all lines, the sum of their lengths, and the largest
 * length; of no lines it is the only one, and its numbers are 0. If a line has another shape, or there are more than COINBARROW_MOST_LINES, the sheet
 * is only
 *
 *   line=3
 *
 * with the number, counted from 1, of the first line of another shape or of line 100,001, whichever comes first. Bytes behind the last newline are a
 * line of another shape.
 */
size_t coinbarrow_sheet(const uint8_t *lines, size_t lines_len, uint8_t *out, size_t out_len);

#ifdef __cplusplus
}
#endif

#endif
