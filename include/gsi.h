/* gsi.h: what a host in C links from libhost.a. Every function is proved to do exactly what is said here, whatever it is lent.

   Each function, except the two that tell an image's length, answers number * 2^32 + told: GSI_NUMBER and GSI_TOLD take the two apart. The number is 0
   where the call was accepted; otherwise it is a refusal's, and docs/REFUSALS.md has all of them in one table. What would be told above 2^32 - 1 is told
   as 2^32 - 1. A buffer is a pointer and a length; a length of 0 lends nothing. Buffers that are lent to one call must not overlap, and a list of records
   or of edits must be aligned as its type asks. Nothing is kept between calls. The library needs memcpy and memset from the C library, and nothing else. */
#ifndef GSI_H
#define GSI_H

#include <stddef.h>
#include <stdint.h>

#ifdef __cplusplus
extern "C" {
#define GSI_ASSERT(holds, why) static_assert(holds, why)
#else
#define GSI_ASSERT(holds, why) _Static_assert(holds, why)
#endif

#define GSI_NUMBER(answer) ((unsigned)((answer) >> 32))
#define GSI_TOLD(answer) ((uint64_t)((answer) & 0xffffffffu))

/* One word of a block: its index, its information and its value or text. Signs are 0 for plus and 1 for minus. What a word doesn't use is 0, its sign
   included. The value is a sign and a size, and the size counts steps. What one step is depends on the index and on the unit, which is the last byte of
   the information, info[3]:

     Index                                          Unit   One step
     21, 22, 24 (angles)                            '2'    1/100,000 gon
                                                    '3'    1/100,000 degree
                                                    '4'    1/10 second of arc: size is degrees * 36,000 + minutes * 600 + seconds * 10 + tenths
                                                    '5'    1/10,000 mil
     31-34, 81-88 (lengths), and                    '0'    1 mm
     32, 83, 330-336, 374, 571-574 of a level       '1'    1/1000 ft
                                                    '6'    1/10 mm
                                                    '7'    1/10,000 ft
                                                    '8'    1/100 mm
     the level's alone                              '9'    1/2000 inch (0.0005 inch)
     51 (pair)                                      '.'    1 ppm in size and minus, 1 mm in mm and mm_minus
     58                                             '6'    1/10 mm
     59                                             '6'    1/10,000 ppm

   Every other index holds text, which stands from the start of text, 8 bytes or, of a wide word, 16: 11-13, 16, 18, 19, 41-49, 52, 53, 71-79 of a total
   station; 11, 41-49, 52, 57, 521 of a level.

   A minus before zero is kept: `-00000000` is minus 1 and size 0, `+00000000` minus 0 and size 0, and each is written as it was read, in both halves of
   a pair. As numbers the two are equal; as records they are not.

   A level's index of three digits, 331 say, stands in index, and info[0], which it leaves unused, is 0; info[1] to info[3] are positions 4-6. For 11 and 41
   with a block number (110006) index is 11 or 41 and info holds the four digits. */
typedef struct {
    uint16_t index;    /* the index, of two digits or, a level's, of three */
    uint8_t info[4];   /* positions 3-6 as they stand; info[0] is 0 where position 3 belongs to the index */
    uint8_t minus;     /* the value's sign */
    uint8_t mm_minus;  /* the sign of a pair's mm */
    uint64_t size;     /* the value's size */
    uint64_t mm;       /* a pair's mm */
    uint8_t text[16];
} gsi_word;

GSI_ASSERT(sizeof(gsi_word) == 40, "a record has 40 bytes and no padding");
GSI_ASSERT(offsetof(gsi_word, index) == 0 && offsetof(gsi_word, info) == 2 && offsetof(gsi_word, minus) == 6 && offsetof(gsi_word, mm_minus) == 7,
           "index, info and the signs stand at 0, 2, 6 and 7");
GSI_ASSERT(offsetof(gsi_word, size) == 8 && offsetof(gsi_word, mm) == 16 && offsetof(gsi_word, text) == 24, "size, mm and text stand at 8, 16 and 24");

/* What gsi_read tells of a block that it read. */
#define GSI_USED(answer) ((size_t)((answer) & 0xffff))         /* bytes used, the terminator included */
#define GSI_WORDS(answer) ((size_t)((answer) >> 16 & 0xff))    /* words, stored from the list's start */
#define GSI_IS_WIDE(answer) ((int)((answer) >> 24 & 1))        /* 16-wide words, after a `*` */
#define GSI_IS_CRLF(answer) ((int)((answer) >> 25 & 1))        /* the terminator is CR LF */

/* The longest block, reply and sheet, of either series and form: a TPS300's wide GET and its sheet of form 2. A TPS100's reply has at most 306 bytes. A sheet of
   form 1 has at most 352 bytes of a TPS100 and 441 of a TPS300, one of form 2 at most 1,775 and 1,864. */
enum { GSI_BLOCK_MOST = 771, GSI_REPLY_MOST = 459, GSI_SHEET_MOST = 1864 };

/* Reads the total station's block at the start of n bytes into a list that has room for `places` records.
   Read (0): tells GSI_USED, GSI_WORDS, GSI_IS_WIDE and GSI_IS_CRLF; records beyond the words are as before, bytes after the terminator aren't looked at.
   Refused: tells a byte of the input, from 0, and the whole list is as before:

      1  there are no bytes (n is 0); tells 0
      3  a CR stands before the first word; tells 0
      4  no CR follows the 32nd word; tells where a 33rd would start
      2  fewer bytes are left than a word takes (16, after a `*` 24), and the next isn't a CR; tells where that word would start
     11  the list has no place for the word that would start; tells its start
      5  the index isn't two digits; tells the first byte that is no digit
     15  the digits are no index; tells the start of the word
      6  the information is wrong, the unit included; 7 the sign; 8 the data; 9 the blank after the word; each tells the first byte that breaks the rule
     10  an angle is out of its range; tells its first data byte

   They are judged in this order: 1 and 3 once, the others from left to right wherever a word would start. Where no byte is left at such a place, 2 and
   4 tell n itself, which is no byte of the input. */
uint64_t gsi_read(const uint8_t *block, size_t n, gsi_word *list, size_t places);

/* Writes the list's records, `words` of them, as one block of a total station into the room; wide and crlf: 0 is no, any other number is yes.
   Written (0): tells the block's bytes; room beyond them is as before.
   Refused: 12 for no records or over 32 (tells 0); 13 for the first record that no word of the width gives (tells its number, from 0), for instance one
   with a minus on text, or on the mm of what is no pair; 14 for a room shorter than the block (tells the bytes needed). They are judged in this order,
   and the whole room is as before. */
uint64_t gsi_write(const gsi_word *list, size_t words, uint64_t wide, uint64_t crlf, uint8_t *block, size_t room);

/* Do the same for a digital level's block (NA2002, NA3003), with the same numbers, told at the same bytes, by the level's rules: 15 is given for digits
   that are no index of a level, three of them where position 3 is a digit; 6 for positions 3-6 (4-6 after an index of three digits); 10 is never given.
   13 is a record that no word of a level gives, for instance one whose index a level doesn't have, one of three digits with info[0] other than 0, or one
   of two digits (except 11 and 41) without the dot at info[0]. */
uint64_t gsi_read_level(const uint8_t *block, size_t n, gsi_word *list, size_t places);
uint64_t gsi_write_level(const gsi_word *list, size_t words, uint64_t wide, uint64_t crlf, uint8_t *block, size_t room);

/* An edit of gsi_mend: what was put, and before which byte of the input. */
typedef struct {
    uint32_t place; /* the byte's place in the input, from 0 */
    uint32_t kind;  /* GSI_EDIT_DOT, GSI_EDIT_BLANK or GSI_EDIT_CR */
} gsi_edit;

enum { GSI_EDIT_DOT = 1, GSI_EDIT_BLANK = 2, GSI_EDIT_CR = 3 };

GSI_ASSERT(sizeof(gsi_edit) == 8 && offsetof(gsi_edit, kind) == 4, "an edit has 8 bytes, place and kind");

/* The most edits that a block can need: a dot in each of 32 words, the last blank and a CR. */
#define GSI_EDITS_MOST 34

/* What gsi_mend tells of a block that it mended. */
#define GSI_MENDED(answer) ((size_t)((answer) & 0xffff))      /* the mended bytes, the terminator included */
#define GSI_EDITS(answer) ((size_t)((answer) >> 16 & 0xffff)) /* edits, stored from the list's start; 0 where the block read as it was */

/* Mends the total station's block at the start of n bytes, of a listing that a print program spoiled, into the room, and tells each edit in the list, which has
   room for `places` of them. Three things are put back, from left to right, and nothing else is changed: the dot before a `+` that stands right after three
   dots in a word 42 to 49; the blank before a CR or an LF in the place of a word's blank; the CR before an LF where a word would start.
   Mended (0): tells GSI_MENDED and GSI_EDITS; the mended bytes read (gsi_read, with 32 places); room and list beyond what is written are as before. A block that
   reads comes back as it is with no edits. Bytes after the terminator are neither copied nor looked at. The input's bytes, up to the terminator, with each
   edit's byte put in before its place are the mended ones.
   Refused: nothing is written, neither bytes nor edits.

      1 to 10, 15   the mended bytes don't read: as of gsi_read, with the place in the mended bytes
     14             the room is shorter than the mended bytes; tells the bytes needed
     11             the list is shorter than the edits; tells how many there are

   They are judged in this order. GSI_BLOCK_MOST bytes of room and GSI_EDITS_MOST places are always enough. */
uint64_t gsi_mend(const uint8_t *block, size_t n, uint8_t *mended, size_t room, gsi_edit *edits, size_t places);

/* Does the same for a digital level's block. */
uint64_t gsi_mend_level(const uint8_t *block, size_t n, uint8_t *mended, size_t room, gsi_edit *edits, size_t places);

/* Tell the length of an image, the bytes that a state is lent as (docs/IMAGE.md), of a TPS100 and of a TPS300/700: the number itself, not packed. An
   image says its series, and each function below goes by it. */
uint64_t gsi_image_size(void);
uint64_t gsi_image_size_300(void);

/* Lay the series' factory state down in exactly its image's length, whatever the bytes were, and tell 0. With another length they are refused by 31, tell 0
   and touch nothing. */
uint64_t gsi_factory(uint8_t *image, size_t n);
uint64_t gsi_factory_300(uint8_t *image, size_t n);

/* What gsi_line tells: the reply's bytes, and with 26 which rule of a word the PUT breaks, 6 to 10 as gsi_read numbers them, and the byte of the line,
   from 0 (the word starts at 4). With every other answer the last two are 0. */
#define GSI_REPLY(answer) ((size_t)((answer) & 0xffff))
#define GSI_WHICH(answer) ((unsigned)((answer) >> 16 & 0xff))
#define GSI_BYTE(answer) ((size_t)((answer) >> 24 & 0xff))

/* Runs one line, its CR or CR LF included, on the image, and writes its reply into the room.
   Accepted (0): tells GSI_REPLY; the image is that of the next state; room beyond the reply is as before.
   Refused by 20 to 29, 38 or 39 (docs/REFUSALS.md): the same with `@W127` for the reply, and the image as before; 26 tells GSI_WHICH and GSI_BYTE too.
   30 (the reply, `@W127` included, is longer than the room) and 31 (the bytes are no image): tells 0, and nothing is written or changed. */
uint64_t gsi_line(uint8_t *image, size_t n, const uint8_t *line, size_t m, uint8_t *reply, size_t room);

/* Write the image's sheet into the room: gsi_sheet_write in form 1, which names settings and values; gsi_sheet_write_2 in form 2, which remembers the undo
   list too: `form=2`, form 1's lines, `undo=` and the count, then for each entry, the oldest first, `u=`, what it altered, a colon and what was there before.
   Written (0): tells the sheet's bytes; room beyond them is as before.
   31 (the bytes are no image) and 30 (the sheet is longer than the room): tells 0, and nothing is written. */
uint64_t gsi_sheet_write(const uint8_t *image, size_t n, uint8_t *sheet, size_t room);
uint64_t gsi_sheet_write_2(const uint8_t *image, size_t n, uint8_t *sheet, size_t room);

/* Loads a sheet of either form: the image is then that of its settings and values, with the undo list of form 2, and with no undo entry from form 1. A list
   that was loaded counts as lines accepted since the last KEEP, so UNDO takes its entries back, the newest first. Loaded (0): tells 0.
   31 (the bytes are no image): tells 0. 40: tells the start of the first wrong, missing or surplus line; a sheet of the other series is wrong at its
   `series=` line. A count above the number of `u=` lines is told where the next should start, one below it at the first `u=` line too many. Where each line is
   right by itself but no state has that undo list (taken back, an entry names a value that is never put then), 40 tells the start of the `undo=` line.
   Refused, the image is as before. */
uint64_t gsi_sheet_load(uint8_t *image, size_t n, const uint8_t *sheet, size_t m);

/* Move a sheet, of either series, from one form to the other, into the room: gsi_sheet_move takes exactly the sheets of form 1, and adds `form=2` and `undo=0`;
   gsi_sheet_back takes exactly those of form 2, and gives form 1's bytes. Moved (0): tells the bytes written; room beyond them is as before.
   40: as of gsi_sheet_load, and a sheet of the other form is wrong at its first line. 41, of gsi_sheet_back alone: the sheet has undo entries, which form 1 can't
   hold; tells the start of the `undo=` line. 30 (what would be written is longer than the room): tells 0. They are judged in this order, and nothing is written. */
uint64_t gsi_sheet_move(const uint8_t *sheet, size_t m, uint8_t *moved, size_t room);
uint64_t gsi_sheet_back(const uint8_t *sheet, size_t m, uint8_t *moved, size_t room);

#ifdef __cplusplus
}
#endif
#endif
