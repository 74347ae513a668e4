/* Calls Coinbarrow on document 01's file H, on a small JPEG file J and on images near them, and on lines of the intake: a line a call, and the
 * listings and sheets. What it must print is in the file `stdout` beside it. */
#include <stdio.h>

#include "coinbarrow.h"

/* One box a line. */
static const uint8_t h[] =
    "\0\0\0\x14" "ftyp" "mif1" "\0\0\0\0" "mif1"
    "\0\0\0\x60" "meta" "\0\0\0\0"
    "\0\0\0\x23" "iinf" "\0\0\0\0" "\0\1"
    "\0\0\0\x15" "infe" "\2\0\0\0" "\0\1" "\0\0" "Exif" "\0"
    "\0\0\0\x20" "iloc" "\1\0\0\0" "\x44\0" "\0\1" "\0\1" "\0\1" "\0\0" "\0\1" "\0\0\0\0" "\0\0\0\0"
    "\0\0\0\x11" "idat" "\0\0\0\1" "\xaa" "\x4d\x4d\0\x2a";

/* One marker a line, and the length and the body behind it. */
static const uint8_t j[] =
    "\xff\xd8"
    "\xff\xe1" "\0\x0c" "Exif\0\0" "\x4d\x4d\0\x2a"
    "\xff\xd9";

enum {
    H_LEN = sizeof h - 1, /* without the zero that ends a C string */
    META = 20,            /* where boxes of H begin */
    IDAT = 99,
    IDAT_BODY = 107,
    EXTENT_LENGTH = 98,   /* where the last byte of a field is */
    BLOCK_OFFSET = 110,
    J_LEN = sizeof j - 1,
    SEGMENT = 2,          /* where parts of J begin */
    SEGMENT_LENGTH = 4,
    BLOCK = 12,
    SHOWN = 8
};

typedef uint64_t function(const uint8_t *, size_t, uint8_t *, size_t);

/* The output is the first `room` bytes of a buffer that holds a5 before the call. How many of all its bytes changed shows whether anything was
 * written behind the block. */
static void show(function *asked, const char *name, const uint8_t *image, size_t image_len, size_t room) {
    static uint8_t buffer[COINBARROW_LONGEST + SHOWN];
    size_t i, changed = 0;
    uint64_t answer;
    for (i = 0; i < sizeof buffer; i++) buffer[i] = 0xa5;
    answer = asked(image, image_len, room == 0 ? NULL : buffer, room);
    for (i = 0; i < sizeof buffer; i++) changed += buffer[i] != 0xa5;
    printf("%s, output of %zu: ", name, room);
    printf("number=%u length=%zu heif=%d", coinbarrow_number(answer), coinbarrow_length(answer), coinbarrow_is_heif(image, image_len));
    printf(" changed=%zu buffer=", changed);
    for (i = 0; i < SHOWN; i++) printf("%02x", buffer[i]);
    printf("\n");
}

static void call(const char *name, const uint8_t *image, size_t image_len, size_t room) {
    show(coinbarrow_exif, name, image, image_len, room);
}

static void photo(const char *name, const uint8_t *image, size_t image_len, size_t room) {
    printf("photo: ");
    show(coinbarrow_photo, name, image, image_len, room);
}

/* H with one byte changed. */
static void call_changed(const char *name, size_t at, uint8_t byte) {
    uint8_t image[H_LEN];
    size_t i;
    for (i = 0; i < H_LEN; i++) image[i] = h[i];
    image[at] = byte;
    call(name, image, H_LEN, SHOWN);
}

static void put_size(uint8_t *box, size_t size) {
    box[0] = (uint8_t)(size >> 24);
    box[1] = (uint8_t)(size >> 16);
    box[2] = (uint8_t)(size >> 8);
    box[3] = (uint8_t)size;
}

/* H with `body` zeros in `idat`. They say offset 0, so all but the first four of them are the block. */
static void call_longer(const char *name, size_t body, size_t room) {
    static uint8_t image[IDAT_BODY + 65536];
    size_t i;
    for (i = 0; i < IDAT_BODY; i++) image[i] = h[i];
    put_size(image + META, IDAT_BODY + body - META);
    put_size(image + IDAT, IDAT_BODY + body - IDAT);
    call(name, image, IDAT_BODY + body, room);
}

/* J with some bytes before its segment. */
static void photo_with(const char *name, const char *bytes, size_t length) {
    uint8_t image[J_LEN + 4];
    size_t i;
    for (i = 0; i < SEGMENT; i++) image[i] = j[i];
    for (i = 0; i < length; i++) image[SEGMENT + i] = (uint8_t)bytes[i];
    for (i = SEGMENT; i < J_LEN; i++) image[length + i] = j[i];
    photo(name, image, J_LEN + length, SHOWN);
}

/* J with the longest segment: a block of 65527 zeros. */
static void photo_longest(size_t room) {
    static uint8_t image[BLOCK + 65527];
    size_t i;
    for (i = 0; i < BLOCK; i++) image[i] = j[i];
    image[SEGMENT_LENGTH] = image[SEGMENT_LENGTH + 1] = 0xff;
    photo("J with a block of 65527 bytes", image, sizeof image, room);
}

typedef size_t text_function(const uint8_t *, size_t, uint8_t *, size_t);

/* The text, in the first `room` bytes of a buffer that holds a5 before the call, which no text has. As above, all its bytes are looked at. */
static void show_text(text_function *asked, const char *name, const char *made, const uint8_t *input, size_t input_len, size_t room) {
    static uint8_t buffer[COINBARROW_LONGEST_TEXT + SHOWN];
    size_t i, length, changed = 0;
    for (i = 0; i < sizeof buffer; i++) buffer[i] = 0xa5;
    length = asked(input, input_len, room == 0 ? NULL : buffer, room);
    for (i = 0; i < sizeof buffer; i++) changed += buffer[i] != 0xa5;
    printf("%s, %s in %zu: length=%zu changed=%zu\n", name, made, room, length, changed);
    printf("%.*s", (int)(length < room ? length : room), (const char *)buffer);
    if (length > room) printf(" (cut)\n");
}

static void list(const char *name, const uint8_t *image, size_t image_len, size_t room) {
    show_text(coinbarrow_list, name, "listed", image, image_len, room);
}

/* Zeros: one box, of type 0, that runs to the end. */
static void list_zeros(const char *name, size_t length) {
    static uint8_t zeros[COINBARROW_LONGEST_LISTED + 1];
    list(name, zeros, length, COINBARROW_LONGEST_TEXT);
}

static void sheet(const char *name, const uint8_t *lines, size_t lines_len, size_t room) {
    show_text(coinbarrow_sheet, name, "summed", lines, lines_len, room);
}

/* A string without the zero that ends it, as a pointer and a length. */
#define BYTES(string) (const uint8_t *)(string), sizeof(string) - 1

/* The longest line again and again: the sum of 100000 lengths takes more than 32 bits. */
static void sheet_of_many(const char *name, size_t count) {
    static const char line[] = "answer=0 length=65535\n";
    enum { LINE_LEN = sizeof line - 1 };
    static uint8_t lines[(COINBARROW_MOST_LINES + 1) * LINE_LEN];
    size_t i;
    for (i = 0; i < count * LINE_LEN; i++) lines[i] = (uint8_t)line[i % LINE_LEN];
    sheet(name, lines, count * LINE_LEN, COINBARROW_LONGEST_SHEET);
}

int main(void) {
    call("H", h, H_LEN, 8);
    call("H", h, H_LEN, 4);
    call("H", h, H_LEN, 3);
    call("H", h, H_LEN, 0);
    call("H cut to 115 bytes", h, 115, 8);
    call("H cut to 20 bytes", h, 20, 8);
    call("H cut to 19 bytes", h, 19, 8);
    call("no image", NULL, 0, 8);
    call_changed("H with an extent of 10 bytes, of 9 in idat", EXTENT_LENGTH, 10);
    call_changed("H with offset 5, an empty block", BLOCK_OFFSET, 5);
    call_changed("H with offset 6", BLOCK_OFFSET, 6);
    call_longer("H with 65535 bytes in idat", 65535, COINBARROW_LONGEST);
    call_longer("H with 65535 bytes in idat", 65535, COINBARROW_LONGEST - 1);
    call_longer("H with 65536 bytes in idat", 65536, COINBARROW_LONGEST);
    call("J", j, J_LEN, 8);
    photo("H", h, H_LEN, 8);
    photo("J", j, J_LEN, 8);
    photo("J", j, J_LEN, 4);
    photo("J", j, J_LEN, 3);
    photo("J", j, J_LEN, 0);
    photo("J cut to 16 bytes", j, 16, 8);
    photo("J cut to 15 bytes", j, 15, 8);
    photo("J cut to 2 bytes", j, 2, 8);
    photo_with("J with two FF before its segment", "\xff\xff", 2);
    photo_with("J with 00 before it", "\0", 1);
    photo_with("J with FF E0 00 01 before it", "\xff\xe0\0\1", 4);
    photo_with("J with FF DA before it", "\xff\xda", 2);
    photo_longest(65527);
    photo_longest(65526);
    photo("a box of size 7, so neither", (const uint8_t *)"\0\0\0\x07" "free", 8, 8);
    photo("no image", NULL, 0, 8);
    list("H", h, H_LEN, COINBARROW_LONGEST_TEXT);
    list("H", h, H_LEN, 285);
    list("H", h, H_LEN, 284);
    list("H", h, H_LEN, 50);
    list("H", h, H_LEN, 0);
    list("H cut to 115 bytes", h, 115, COINBARROW_LONGEST_TEXT);
    list("no image", NULL, 0, COINBARROW_LONGEST_TEXT);
    list_zeros("65536 zeros", COINBARROW_LONGEST_LISTED);
    list_zeros("65537 zeros", COINBARROW_LONGEST_LISTED + 1);
    sheet("one line", BYTES("answer=0 length=4\n"), COINBARROW_LONGEST_SHEET);
    sheet("one line", BYTES("answer=0 length=4\n"), 49);
    sheet("one line", BYTES("answer=0 length=4\n"), 48);
    sheet("one line", BYTES("answer=0 length=4\n"), 20);
    sheet("one line", BYTES("answer=0 length=4\n"), 0);
    sheet("no lines", NULL, 0, COINBARROW_LONGEST_SHEET);
    sheet("four lines", BYTES("answer=33 length=0\nanswer=0 length=10\nanswer=2 length=0\nanswer=0 length=7\n"), COINBARROW_LONGEST_SHEET);
    sheet("a refusal with a length, in line 2", BYTES("answer=0 length=4\nanswer=2 length=4\n"), COINBARROW_LONGEST_SHEET);
    sheet("a leading zero, in line 1", BYTES("answer=0 length=04\nanswer=0 length=4\n"), COINBARROW_LONGEST_SHEET);
    sheet("no newline behind line 2", BYTES("answer=0 length=4\nanswer=0 length=4"), COINBARROW_LONGEST_SHEET);
    sheet_of_many("100000 lines", COINBARROW_MOST_LINES);
    sheet_of_many("100001 lines", COINBARROW_MOST_LINES + 1);
    return 0;
}
