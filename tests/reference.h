/* reference.h: a second implementation of document 01 and requests 101 to 106 in plain C, which the library is compared with.
   The functions, the record and the edit are those of the C interface, under the prefix ref_. */
#ifndef REFERENCE_H
#define REFERENCE_H

#include <stddef.h>
#include <stdint.h>

typedef struct {
    uint16_t index;   /* the two-digit number, or a level's three-digit one */
    uint8_t info[4];  /* positions 3-6; the first is 0 where position 3 belongs to the index */
    uint8_t minus;    /* 1 when the value (of a pair: ppm) has a minus, before 0 too */
    uint8_t mm_minus; /* 1 when a pair's mm has a minus, before 0 too */
    uint64_t size;
    uint64_t mm;
    uint8_t text[16];
} ref_word;

typedef struct {
    uint32_t place; /* of the input's byte before which something was put */
    uint32_t kind;  /* 1: a dot, 2: a blank, 3: a CR */
} ref_edit;

uint64_t ref_read(const uint8_t *block, size_t n, ref_word *list, size_t places);
uint64_t ref_write(const ref_word *list, size_t words, uint64_t wide, uint64_t crlf, uint8_t *block, size_t room);
uint64_t ref_read_level(const uint8_t *block, size_t n, ref_word *list, size_t places);
uint64_t ref_write_level(const ref_word *list, size_t words, uint64_t wide, uint64_t crlf, uint8_t *block, size_t room);
uint64_t ref_mend(const uint8_t *block, size_t n, uint8_t *mended, size_t room, ref_edit *edits, size_t places);
uint64_t ref_mend_level(const uint8_t *block, size_t n, uint8_t *mended, size_t room, ref_edit *edits, size_t places);
uint64_t ref_image_size(void);
uint64_t ref_image_size_300(void);
uint64_t ref_factory(uint8_t *image, size_t n);
uint64_t ref_factory_300(uint8_t *image, size_t n);
uint64_t ref_line(uint8_t *image, size_t n, const uint8_t *line, size_t m, uint8_t *reply, size_t room);
uint64_t ref_sheet_write(const uint8_t *image, size_t n, uint8_t *sheet, size_t room);
uint64_t ref_sheet_load(uint8_t *image, size_t n, const uint8_t *sheet, size_t m);
uint64_t ref_sheet_write_2(const uint8_t *image, size_t n, uint8_t *sheet, size_t room);
uint64_t ref_sheet_move(const uint8_t *sheet, size_t m, uint8_t *moved, size_t room);
uint64_t ref_sheet_back(const uint8_t *sheet, size_t m, uint8_t *moved, size_t room);

#endif
