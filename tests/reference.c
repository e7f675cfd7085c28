/* reference.c: a second implementation of document 01 and document 02's requests 101 to 106 in plain C: the block of
   either family and its mending, the line machine and the sheet of either series, in either form. What stands in quotes is
   the documents' own sentence; the image's bytes are those of IMAGE.md. */
#include "reference.h"

enum { CR = 13, LF = 10, MOST_WORDS = 32 };

_Static_assert(sizeof(ref_word) == 40, "a record has 40 bytes and no padding");
_Static_assert(sizeof(ref_edit) == 8, "an edit has 8 bytes and no padding");

/* Each function answers number * 2^32 + told. */
static uint64_t answer(unsigned number, uint64_t told)
{
    return (uint64_t)number << 32 | told;
}

static void copy(uint8_t *restrict to, const uint8_t *restrict from, size_t n)
{
    for (size_t i = 0; i < n; i++)
        to[i] = from[i];
}

static void clear(uint8_t *to, size_t n)
{
    for (size_t i = 0; i < n; i++)
        to[i] = 0;
}

static int all_zero(const uint8_t *p, size_t n)
{
    uint8_t any = 0;
    for (size_t i = 0; i < n; i++)
        any |= p[i];
    return any == 0;
}

/* Whether the n bytes at p are those of the string. */
static int same(const uint8_t *p, const char *string, size_t n)
{
    for (size_t i = 0; i < n; i++)
        if (p[i] != (uint8_t)string[i])
            return 0;
    return 1;
}

static size_t length_of(const char *string)
{
    size_t n = 0;
    while (string[n])
        n++;
    return n;
}

/* Writes the n bytes of the string and answers the place after them. */
static uint8_t *lay(uint8_t *restrict to, const char *restrict string, size_t n)
{
    for (size_t i = 0; i < n; i++)
        to[i] = (uint8_t)string[i];
    return to + n;
}

static int is_digit(uint8_t b)
{
    return b >= '0' && b <= '9';
}

/* "Digits are all 0-9." Answers the place of the first that isn't; or n, with their number (up to 16 digits). */
static size_t read_digits(const uint8_t *p, size_t n, uint64_t *value)
{
    uint64_t v = 0;
    for (size_t i = 0; i < n; i++) {
        if (!is_digit(p[i]))
            return i;
        v = v * 10 + (uint64_t)(p[i] - '0');
    }
    *value = v;
    return n;
}

/* "Text is bytes 33 to 126". Answers the place of the first that isn't, or n. */
static size_t read_text(const uint8_t *p, size_t n)
{
    size_t i = 0;
    while (i < n && p[i] >= 33 && p[i] <= 126)
        i++;
    return i;
}

static void write_digits(uint8_t *p, size_t n, uint64_t value)
{
    while (n > 0) {
        p[--n] = (uint8_t)('0' + value % 10);
        value /= 10;
    }
}

/* The table of indexes */

enum { NONE, NUMBERED, TEXT, ANGLE, LENGTH, CONSTANT, PAIR, LEVELLED };

/* 101: "The caller says which family a block is from; total station reading stays." */
enum { STATION, LEVEL, FAMILIES };

/* "Each index missing from the table is refused": those are NONE here. Each three-digit index of a level is above 99, so
   the number alone tells it from one of two digits. */
enum { INDEXES = 1000 };
static const uint8_t kinds[FAMILIES][INDEXES] = {
    [STATION] = {
        [11] = NUMBERED, [41] = NUMBERED,
        [12] = TEXT, [13] = TEXT, [16] = TEXT, [18] = TEXT, [19] = TEXT,
        [42] = TEXT, [43] = TEXT, [44] = TEXT, [45] = TEXT, [46] = TEXT, [47] = TEXT, [48] = TEXT, [49] = TEXT,
        [52] = TEXT, [53] = TEXT,
        [71] = TEXT, [72] = TEXT, [73] = TEXT, [74] = TEXT, [75] = TEXT, [76] = TEXT, [77] = TEXT, [78] = TEXT, [79] = TEXT,
        [21] = ANGLE, [22] = ANGLE, [24] = ANGLE,
        [31] = LENGTH, [32] = LENGTH, [33] = LENGTH, [34] = LENGTH,
        [81] = LENGTH, [82] = LENGTH, [83] = LENGTH, [84] = LENGTH, [85] = LENGTH, [86] = LENGTH, [87] = LENGTH, [88] = LENGTH,
        [58] = CONSTANT, [59] = CONSTANT,
        [51] = PAIR,
    },
    /* "330-336, 374, 521, 571-574 with a three-digit index at positions 1-3, then 32, 52, 57 and 83"; "11, 41-49 read as
       before. 52, 57 and 521 are text" */
    [LEVEL] = {
        [11] = NUMBERED, [41] = NUMBERED,
        [42] = TEXT, [43] = TEXT, [44] = TEXT, [45] = TEXT, [46] = TEXT, [47] = TEXT, [48] = TEXT, [49] = TEXT,
        [52] = TEXT, [57] = TEXT, [521] = TEXT,
        [32] = LEVELLED, [83] = LEVELLED,
        [330] = LEVELLED, [331] = LEVELLED, [332] = LEVELLED, [333] = LEVELLED, [334] = LEVELLED, [335] = LEVELLED, [336] = LEVELLED,
        [374] = LEVELLED,
        [571] = LEVELLED, [572] = LEVELLED, [573] = LEVELLED, [574] = LEVELLED,
    },
};

static unsigned kind_of(unsigned family, unsigned index)
{
    return index < INDEXES ? kinds[family][index] : NONE;
}

static int has_three_digits(unsigned index)
{
    return index >= 100;
}

/* The index that a word of two digits begins with, or INDEXES where a level's three digits are none. */
static unsigned index_at(unsigned family, const uint8_t *word)
{
    unsigned index = (unsigned)(word[0] - '0') * 10 + (unsigned)(word[1] - '0');

    if (family == STATION || !is_digit(word[2]))
        return index;
    /* "110-119 and 410-419 are index 11 or 41 with a block number" */
    if (index == 11 || index == 41)
        return index;
    /* 101: "any other index, a digit at position 3 included": `042` isn't 42. */
    index = index * 10 + (unsigned)(word[2] - '0');
    return has_three_digits(index) ? index : INDEXES;
}

static int is_text(unsigned kind)
{
    return kind == NUMBERED || kind == TEXT;
}

static int dot_or_digit(uint8_t b)
{
    return b == '.' || is_digit(b);
}

/* Whether byte i of a record's information is right: positions 3-6, as the table's third column has them. A three-digit
   index takes position 3, so that the first byte is one "its word doesn't use" and is 0. */
static int info_byte_right(unsigned kind, unsigned index, const uint8_t *info, size_t i)
{
    uint8_t b = info[i];

    /* "four digits (block number) or four dots"; 104: "the first byte chooses between digits and dots, and is itself wrong
       if it is neither" */
    if (kind == NUMBERED)
        return info[0] == '.' ? b == '.' : is_digit(b);
    /* "000 says position 3 has no significance; here it is a dot except for 11 and 41." */
    if (i == 0)
        return b == (has_three_digits(index) ? 0 : '.');
    switch (kind) {
    case TEXT: /* "dot, then three of dot or digit"; 101: "the rest of positions 4-6 dots or digits" */
        return dot_or_digit(b);
    case LEVELLED: /* 101: "position 4 is a dot or 1, 5 a dot, 0-2 or 4-7, 6 a unit: 0, 1 or 6-9" */
        if (i == 1)
            return b == '.' || b == '1';
        if (i == 2)
            return b == '.' || (b >= '0' && b <= '7' && b != '3');
        return b == '0' || b == '1' || (b >= '6' && b <= '9');
    default:
        break;
    }
    /* "dot, 0, 1 or 3" of an angle; "dot" of the others */
    if (i == 1)
        return b == '.' || (kind == ANGLE && (b == '0' || b == '1' || b == '3'));
    /* "Mode is a dot or 0-4." */
    if (i == 2)
        return b == '.' || (b >= '0' && b <= '4');
    switch (kind) {
    case ANGLE: /* "unit 2-5" */
        return b >= '2' && b <= '5';
    case LENGTH: /* "unit 0, 1, 6, 7 or 8" */
        return b == '0' || b == '1' || (b >= '6' && b <= '8');
    case CONSTANT:
        return b == '6';
    case PAIR:
        return b == '.';
    default:
        return 0;
    }
}

/* The place of the first byte of the information that "breaks its rule" (104), or 4 when it is right. */
enum { INFO = 4 };
static size_t info_wrong(unsigned kind, unsigned index, const uint8_t *info)
{
    size_t i = 0;
    while (i < INFO && info_byte_right(kind, index, info, i))
        i++;
    return i;
}

/* Angles */

/* "An angle's size is below 40,000,000 (gon), 36,000,000 (degrees) or 64,000,000 (mil); for unit 4 degrees are below
   360", which is 12,960,000 tenths of a second. */
static uint64_t angle_limit(uint8_t unit)
{
    switch (unit) {
    case '2':
        return 40000000;
    case '3':
        return 36000000;
    case '4':
        return 12960000;
    default: /* '5' */
        return 64000000;
    }
}

/* The size that the digits, read as one number, give in the unit. Answers 0 when they're out of range. */
static int angle_size(uint8_t unit, uint64_t digits, uint64_t *size)
{
    if (unit == '4') {
        /* "Unit 4 reads, from the right, one digit of tenths of a second, two of seconds, two of minutes, the rest
           degrees; its value is degrees x 36,000 + minutes x 600 + seconds x 10 + tenths." */
        uint64_t tenths = digits % 10, seconds = digits / 10 % 100, minutes = digits / 1000 % 100;
        uint64_t degrees = digits / 100000;
        /* "for unit 4 degrees are below 360, minutes and seconds below 60" */
        if (degrees >= 360 || minutes >= 60 || seconds >= 60)
            return 0;
        *size = degrees * 36000 + minutes * 600 + seconds * 10 + tenths;
        return 1;
    }
    *size = digits;
    return digits < angle_limit(unit);
}

/* The digits that give the size in the unit: the inverse of angle_size. */
static uint64_t angle_digits(uint8_t unit, uint64_t size)
{
    if (unit != '4')
        return size;
    return size / 36000 * 100000 + size / 600 % 60 * 1000 + size / 10 % 60 * 10 + size % 10;
}

/* The block's reader */

/* What a word is refused for: the number, 0 when it is right, and the byte that it tells, from the word's start. 104:
   "Refusals 5 to 10 tell the exact byte: the first that breaks the rule, and for 10 the first data byte." */
struct refusal {
    unsigned number;
    size_t byte;
};

static struct refusal refuse(unsigned number, size_t byte)
{
    struct refusal refusal = {number, byte};
    return refusal;
}

/* The bytes of a word: position p is byte p - 1. */
enum { INFO_AT = 2, SIGN_AT = 6, DATA_AT = 7 };

/* The place of the first wrong byte of a pair's data, or the width with both sizes: "A pair is 4 digits (12 when wide), a
   sign, 3 digits: ppm, then mm". */
static size_t read_pair(const uint8_t *data, size_t width, uint64_t *ppm, uint64_t *mm)
{
    size_t inner = width - 4, wrong = read_digits(data, inner, ppm);
    if (wrong < inner)
        return wrong;
    if (data[inner] != '+' && data[inner] != '-')
        return inner;
    return inner + 1 + read_digits(data + inner + 1, 3, mm);
}

/* Judges a word from its sign on, by 7 to 10; the sizes of its data where it has them. */
static struct refusal judge_rest(unsigned kind, const uint8_t *word, size_t width, uint64_t *size, uint64_t *mm)
{
    const uint8_t *data = word + DATA_AT;
    size_t wrong;

    /* 7: "sign wrong (position 7)"; text has "sign `+` only" */
    if (word[SIGN_AT] != '+' && (word[SIGN_AT] != '-' || is_text(kind)))
        return refuse(7, SIGN_AT);

    /* 8: "data characters wrong, a pair's inner sign included"; 104: "the first wrong data byte" */
    if (is_text(kind))
        wrong = read_text(data, width);
    else if (kind == PAIR)
        wrong = read_pair(data, width, size, mm);
    else
        wrong = read_digits(data, width, size);
    if (wrong < width)
        return refuse(8, DATA_AT + wrong);

    /* 9: "separator isn't a blank" */
    if (data[width] != ' ')
        return refuse(9, DATA_AT + width);

    /* #102: "10 now means angle out of range alone": a level's word has none. 104: "for 10 the first data byte" */
    if (kind == ANGLE && !angle_size(word[INFO_AT + 3], *size, size))
        return refuse(10, DATA_AT);
    return refuse(0, 0);
}

/* Judges one whole word with its blank. 104: "Order: 5, 15, 6 to 10." A right one's record is filled. */
static struct refusal read_word(unsigned family, const uint8_t *word, size_t width, ref_word *record)
{
    unsigned index, kind;
    uint8_t info[INFO];
    uint64_t size = 0, mm = 0;
    struct refusal rest;
    size_t wrong;

    /* 5: "index isn't two digits"; 104: "the first of positions 1-2 that is no digit" */
    for (size_t i = 0; i < 2; i++)
        if (!is_digit(word[i]))
            return refuse(5, i);

    /* 104: "15, no longer 5, for digits that are no listed index, right after 5, telling the start of the word" */
    index = index_at(family, word);
    kind = kind_of(family, index);
    if (kind == NONE)
        return refuse(15, 0);

    /* 6: "information wrong"; 104: "the first of positions 3-6 (4-6 after a three-digit index) that breaks its rule" */
    copy(info, word + INFO_AT, INFO);
    if (has_three_digits(index))
        info[0] = 0;
    wrong = info_wrong(kind, index, info);
    if (wrong < INFO)
        return refuse(6, INFO_AT + wrong);

    rest = judge_rest(kind, word, width, &size, &mm);
    if (rest.number != 0)
        return rest;

    /* "a value, mm or text byte its word doesn't use is 0"; #102: "keep the sign so that the bytes come back", before zero
       too. */
    record->index = (uint16_t)index;
    copy(record->info, info, INFO);
    record->minus = word[SIGN_AT] == '-';
    record->mm_minus = kind == PAIR && word[DATA_AT + width - 4] == '-';
    record->size = size;
    record->mm = mm;
    clear(record->text, 16);
    if (is_text(kind))
        copy(record->text, word + DATA_AT, width);
    return rest;
}

static uint64_t read_block(unsigned family, const uint8_t *block, size_t n, ref_word *list, size_t places)
{
    /* "After a refusal the lent list and output are untouched": the records wait here until the block is right. */
    ref_word records[MOST_WORDS];
    size_t words = 0, at = 0, width = 8, crlf = 0;

    /* 1: "no input bytes" */
    if (n == 0)
        return answer(1, 0);

    /* "With `*` the words are 16 wide, otherwise 8 wide." */
    if (block[0] == '*') {
        width = 16;
        at = 1;
    }

    /* "Words are judged left to right. Where a word would start the order is CR, 4, 2, 11, then 5 to 10 in order." */
    while (at >= n || block[at] != CR) {
        struct refusal refusal;
        /* 4: "no CR after the 32nd word" */
        if (words == MOST_WORDS)
            return answer(4, at);
        /* 2: "fewer bytes remain than a word needs, and the next isn't CR"; "A word with its blank takes 16 or 24 bytes." */
        if (n - at < width + 8)
            return answer(2, at);
        /* 11: "the lent list has no place for the word that would start" */
        if (words >= places)
            return answer(11, at);
        /* 104: "Places are bytes of the input, from 0." */
        refusal = read_word(family, block + at, width, &records[words]);
        if (refusal.number != 0)
            return answer(refusal.number, at + refusal.byte);
        words++;
        at += width + 8;
    }

    /* 3: "CR before the first word", telling 0 */
    if (words == 0)
        return answer(3, 0);

    /* "If LF follows CR it belongs to the terminator. Bytes after the terminator aren't looked at." */
    at++;
    if (at < n && block[at] == LF) {
        at++;
        crlf = 1;
    }

    /* "records beyond the count are as before" */
    for (size_t i = 0; i < words; i++)
        list[i] = records[i];
    return answer(0, at | words << 16 | (uint64_t)(width == 16) << 24 | (uint64_t)crlf << 25);
}

uint64_t ref_read(const uint8_t *block, size_t n, ref_word *list, size_t places)
{
    return read_block(STATION, block, n, list, places);
}

uint64_t ref_read_level(const uint8_t *block, size_t n, ref_word *list, size_t places)
{
    return read_block(LEVEL, block, n, list, places);
}

/* The block's writer */

/* Whether some word of the family and width gives the record (13: "a record no word of the chosen width gives"). */
static int record_right(unsigned family, const ref_word *r, size_t width)
{
    unsigned kind = kind_of(family, r->index);

    if (kind == NONE || info_wrong(kind, r->index, r->info) < INFO)
        return 0;

    if (is_text(kind)) {
        if (r->minus != 0 || r->mm_minus != 0 || r->size != 0 || r->mm != 0)
            return 0;
        return read_text(r->text, width) == width && all_zero(r->text + width, 16 - width);
    }

    /* Signs are 0 or 1. #102: "Accept minus before zero in angles, lengths, constants and both halves of a pair", so that
       either sign goes with any size. */
    if (r->minus > 1 || !all_zero(r->text, 16))
        return 0;
    /* Only a pair has an mm and its sign: elsewhere no word gives one that isn't 0. */
    if (r->mm > (kind == PAIR ? 999u : 0u) || r->mm_minus > (kind == PAIR ? 1u : 0u))
        return 0;
    switch (kind) {
    case ANGLE:
        return r->size < angle_limit(r->info[3]);
    case PAIR:
        return r->size <= (width == 16 ? 999999999999u : 9999u);
    default:
        return r->size <= (width == 16 ? 9999999999999999u : 99999999u);
    }
}

static void write_word(unsigned family, uint8_t *word, size_t width, const ref_word *r)
{
    unsigned kind = kind_of(family, r->index);
    uint8_t *data = word + DATA_AT;

    copy(word + INFO_AT, r->info, INFO);
    write_digits(word, has_three_digits(r->index) ? 3 : 2, r->index);
    word[SIGN_AT] = r->minus ? '-' : '+';
    if (is_text(kind)) {
        copy(data, r->text, width);
    } else if (kind == PAIR) {
        write_digits(data, width - 4, r->size);
        data[width - 4] = r->mm_minus ? '-' : '+';
        write_digits(data + width - 3, 3, r->mm);
    } else {
        write_digits(data, width, kind == ANGLE ? angle_digits(r->info[3], r->size) : r->size);
    }
    data[width] = ' ';
}

static uint64_t write_block(unsigned family, const ref_word *list, size_t words, uint64_t wide, uint64_t crlf, uint8_t *block,
                            size_t room)
{
    size_t width = wide ? 16 : 8, need;

    /* "Writer order: 12, 13 (first such record), 14." */
    if (words == 0 || words > MOST_WORDS)
        return answer(12, 0);
    for (size_t i = 0; i < words; i++)
        if (!record_right(family, &list[i], width))
            return answer(13, i);
    need = (wide ? 1 : 0) + words * (width + 8) + (crlf ? 2 : 1);
    if (room < need)
        return answer(14, need);

    if (wide)
        *block++ = '*';
    for (size_t i = 0; i < words; i++, block += width + 8)
        write_word(family, block, width, &list[i]);
    block[0] = CR;
    if (crlf)
        block[1] = LF;
    return answer(0, need);
}

uint64_t ref_write(const ref_word *list, size_t words, uint64_t wide, uint64_t crlf, uint8_t *block, size_t room)
{
    return write_block(STATION, list, words, wide, crlf, block, room);
}

uint64_t ref_write_level(const ref_word *list, size_t words, uint64_t wide, uint64_t crlf, uint8_t *block, size_t room)
{
    return write_block(LEVEL, list, words, wide, crlf, block, room);
}

/* The mending of a block that a print program spoiled */

enum { DOT = 1, BLANK = 2, RETURN = 3 };

/* Of what is mended no more is made than the reader looks at: 32 wide words with their `*` and CR LF. Each word may lack its
   dot, the last its blank too, and the block its CR. */
enum { MOST_MENDED = 1 + MOST_WORDS * 24 + 2, MOST_EDITS = MOST_WORDS + 2 };

/* A mending: the input and the place reached in it, what is mended so far and the edits made. */
struct mending {
    const uint8_t *block;
    size_t n, at;
    size_t bytes, edits;
    uint8_t mended[MOST_MENDED];
    ref_edit edit[MOST_EDITS];
};

/* The input's next byte, or a number that no byte is: "At the input's end mending ends." */
enum { NO_BYTE = 256 };
static unsigned next_byte(const struct mending *m)
{
    return m->at < m->n ? m->block[m->at] : NO_BYTE;
}

static void copy_byte(struct mending *m)
{
    if (m->at < m->n)
        m->mended[m->bytes++] = m->block[m->at++];
}

/* Puts a byte in before the input's next one. "An edit's place is where, in the input, the byte stands before which something
   was put." */
static void put_before(struct mending *m, uint8_t byte, uint32_t kind)
{
    m->mended[m->bytes++] = byte;
    m->edit[m->edits].place = (uint32_t)m->at;
    m->edit[m->edits].kind = kind;
    m->edits++;
}

/* #105: "a `+` right after three dots in 42-49": the five mended bytes before it are 4, 2 to 9 and the dots. */
static int lacks_dot(const uint8_t *word)
{
    return word[0] == '4' && word[1] >= '2' && word[1] <= '9' && same(word + 2, "...", 3);
}

/* "a word is copied: 15 (or 23) mended bytes, a dot that was put before a `+` at position 6 ... counted among them; then, in
   the blank's place, a CR or LF gets a blank before it, another byte is copied as it is." */
static void mend_word(struct mending *m, size_t width)
{
    const uint8_t *word = m->mended + m->bytes;

    for (size_t i = 0; i < DATA_AT + width; i++) {
        if (i == 5 && next_byte(m) == '+' && lacks_dot(word))
            put_before(m, '.', DOT);
        else
            copy_byte(m);
    }
    if (next_byte(m) == CR || next_byte(m) == LF)
        put_before(m, ' ', BLANK);
    else
        copy_byte(m);
}

/* "Nothing else is changed; a first `*` is copied and means wide." */
static void mend_all(struct mending *m)
{
    size_t width = 8;

    if (next_byte(m) == '*') {
        width = 16;
        copy_byte(m);
    }
    /* "Where a word would start: CR ends the block (with an LF that follows), LF gets a CR before it and ends it". After 32
       words the reader refuses all that isn't a CR there, so that what would come next has no part in the answer. */
    for (size_t words = 0; next_byte(m) != CR && next_byte(m) != LF; words++) {
        if (next_byte(m) == NO_BYTE || words == MOST_WORDS)
            return;
        mend_word(m, width);
    }
    if (next_byte(m) == LF)
        put_before(m, CR, RETURN);
    else
        copy_byte(m);
    if (next_byte(m) == LF)
        copy_byte(m);
}

static uint64_t mend_block(unsigned family, const uint8_t *block, size_t n, uint8_t *mended, size_t room, ref_edit *edits,
                           size_t places)
{
    struct mending m;
    ref_word records[MOST_WORDS];
    uint64_t read;

    m.block = block;
    m.n = n;
    m.at = m.bytes = m.edits = 0;

    /* "Then the mended bytes are judged by the family's reader with 32 places. Refused: its number and its place in the mended
       bytes. Then 14, telling the bytes needed; then 11, telling the number of edits." */
    mend_all(&m);
    read = read_block(family, m.mended, m.bytes, records, MOST_WORDS);
    if (read >> 32 != 0)
        return read;
    if (room < m.bytes)
        return answer(14, m.bytes);
    if (places < m.edits)
        return answer(11, m.edits);

    /* "beyond what is written room and list are as before" */
    copy(mended, m.mended, m.bytes);
    for (size_t i = 0; i < m.edits; i++)
        edits[i] = m.edit[i];
    return answer(0, m.bytes | m.edits << 16);
}

uint64_t ref_mend(const uint8_t *block, size_t n, uint8_t *mended, size_t room, ref_edit *edits, size_t places)
{
    return mend_block(STATION, block, n, mended, room, edits, places);
}

uint64_t ref_mend_level(const uint8_t *block, size_t n, uint8_t *mended, size_t room, ref_edit *edits, size_t places)
{
    return mend_block(LEVEL, block, n, mended, room, edits, places);
}

/* The series and their settings */

/* 103: "24 also covers a parameter below the lowest or between modes"; "90, 91 (0 to 100 here), 122, 160 and 170 can't be
   SET and have no undo entries". */
enum { READ_ONLY = 1 };
struct setting {
    uint16_t number;
    uint8_t lowest, highest;
    uint32_t left_out; /* bit p: the range has no mode p; modes past 31 are never left out */
    uint8_t read_only, factory;
};

/* "Settings (000, SET list of TPS100; all equipment fitted), those up to 136 only, as number:highest parameter, lowest 0
   each" and "Factory: 70 is 5, 73 is 1, 103 is 1, the rest 0". */
static const struct setting settings_of_100[] = {
    {30, 0, 1, 0, 0, 0}, {32, 0, 3, 0, 0, 0}, {34, 0, 1, 0, 0, 0}, {40, 0, 2, 0, 0, 0}, {41, 0, 1, 0, 0, 0},
    {44, 0, 2, 0, 0, 0}, {49, 0, 1, 0, 0, 0}, {50, 0, 2, 0, 0, 0}, {70, 0, 5, 0, 0, 5}, {71, 0, 2, 0, 0, 0},
    {73, 0, 1, 0, 0, 1}, {76, 0, 1, 0, 0, 0}, {80, 0, 1, 0, 0, 0}, {81, 0, 2, 0, 0, 0}, {95, 0, 1, 0, 0, 0},
    {102, 0, 1, 0, 0, 0}, {103, 0, 1, 0, 0, 1}, {135, 0, 1, 0, 0, 0}, {136, 0, 1, 0, 0, 0},
};

/* 103: "Use source document 000's CONF list from 41 to 171, with its ranges: 55 and 56 from 1 to 10, 78 from 0 to 50, 104
   and 105 from 0 to 100, and 161 only 0, 1, 5, 6, 7, 9 or 10. Leave out 138, given twice." "Factory values are each
   setting's lowest." */
static const struct setting settings_of_300[] = {
    {41, 0, 4, 0, 0, 0},           /* distance unit */
    {42, 0, 1, 0, 0, 0},           /* temperature unit */
    {43, 0, 6, 0, 0, 0},           /* pressure unit */
    {50, 0, 4, 0, 0, 0},           /* angle decimals */
    {51, 0, 4, 0, 0, 0},           /* distance decimals */
    {55, 1, 10, 0, 0, 1},          /* angle rounding */
    {56, 1, 10, 0, 0, 1},          /* distance rounding */
    {70, 0, 6, 0, 0, 0},           /* baud rate */
    {71, 0, 2, 0, 0, 0},           /* parity */
    {73, 0, 1, 0, 0, 0},           /* terminator */
    {75, 0, 1, 0, 0, 0},           /* protocol */
    {76, 0, 1, 0, 0, 0},           /* recording device */
    {78, 0, 50, 0, 0, 0},          /* timeout delay */
    {90, 0, 10, 0, READ_ONLY, 0},  /* battery level */
    {91, 0, 100, 0, READ_ONLY, 0}, /* temperature */
    {95, 0, 1, 0, 0, 0},           /* auto-off; the CONF list has no sleep mode */
    {102, 0, 1, 0, 0, 0},          /* laser plummet */
    {103, 0, 1, 0, 0, 0},          /* its availability */
    {104, 0, 100, 0, 0, 0},        /* its pulse rate */
    {105, 0, 100, 0, 0, 0},        /* its intensity */
    {106, 0, 1, 0, 0, 0},          /* display heat */
    {120, 0, 1, 0, 0, 0},          /* face definition */
    {122, 0, 1, 0, READ_ONLY, 0},  /* face status */
    {135, 0, 8, 0, 0, 0},          /* recording mask */
    {136, 0, 127, 0, 0, 0},        /* output format */
    {137, 0, 1, 0, 0, 0},          /* GSI8 or GSI16 */
    {160, 0, 1, 0, READ_ONLY, 0},  /* validity of the distance */
    {161, 0, 10, 1u << 2 | 1u << 3 | 1u << 4 | 1u << 8, 0, 0}, /* EDM mode */
    {170, 0, 1, 0, READ_ONLY, 0},  /* current face */
    {171, 0, 1, 0, 0, 0},          /* direction of the circle */
};

enum { TPS100, TPS300, SERIES };
#define ROWS(table) (sizeof(table) / sizeof *(table)), (table)
static const struct series {
    uint8_t mark; /* the image's first byte: "the series in the high four bits, the form in the low four" */
    size_t settings;
    const struct setting *setting;
    const char *first_line; /* of the sheet */
} all_series[SERIES] = {
    [TPS100] = {1, ROWS(settings_of_100), "series=TPS100\n"},
    [TPS300] = {17, ROWS(settings_of_300), "series=TPS300\n"},
};

/* The place of a setting in its series' order, or the number of settings when it isn't in the list. */
static size_t place_of_setting(const struct series *of, unsigned number)
{
    size_t place = 0;
    while (place < of->settings && of->setting[place].number != number)
        place++;
    return place;
}

static int in_range(const struct setting *setting, unsigned parameter)
{
    if (parameter < setting->lowest || parameter > setting->highest)
        return 0;
    return parameter > 31 || (setting->left_out >> parameter & 1) == 0;
}

/* The image of a state */

/* The place of a setting is one byte of an entry. */
enum { MOST_SETTINGS = 256, VALUES = 11, VALUE_BYTES = 11, MOST_ENTRIES = 64, ENTRY_BYTES = 14 };
enum { ENTRY_OF_SET = 1, ENTRY_OF_PUT = 2 };
enum { AT_SETTINGS = 1 };

static size_t at_values(const struct series *of)
{
    return AT_SETTINGS + of->settings;
}

static size_t at_value(const struct series *of, unsigned place)
{
    return at_values(of) + place * VALUE_BYTES;
}

/* The number of undo entries, high byte first. */
static size_t at_count(const struct series *of)
{
    return at_value(of, VALUES);
}

static size_t at_entry(const struct series *of, unsigned entry)
{
    return at_count(of) + 2 + entry * ENTRY_BYTES;
}

static size_t image_bytes(const struct series *of)
{
    return at_entry(of, MOST_ENTRIES);
}

/* "Values: 11, 16 text; 21, 24 angles, unit 2, 3 or 4; 34 and 83-88 lengths, unit 0 or 1." */
static const struct { uint8_t kind, unit_from, unit_to; char index[3]; } values[VALUES] = {
    {TEXT, '.', '.', "11"}, {TEXT, '.', '.', "16"}, {ANGLE, '2', '4', "21"}, {ANGLE, '2', '4', "24"},
    {LENGTH, '0', '1', "34"}, {LENGTH, '0', '1', "83"}, {LENGTH, '0', '1', "84"}, {LENGTH, '0', '1', "85"},
    {LENGTH, '0', '1', "86"}, {LENGTH, '0', '1', "87"}, {LENGTH, '0', '1', "88"},
};

/* The place of the stored value that the two characters name, or VALUES when they name none. */
static unsigned place_of_value(const uint8_t *index)
{
    unsigned place = 0;
    while (place < VALUES && !same(index, values[place].index, 2))
        place++;
    return place;
}

/* A value is 11 bytes: 1, the unit, 0 or 1 for the sign, the eight characters; or 0 throughout when never put.
   Answers whether it is "never put or as a PUT can leave it". */
static int value_right(unsigned place, const uint8_t *v)
{
    unsigned kind = values[place].kind;
    const uint8_t *data = v + 3;
    uint64_t size;

    if (v[0] == 0)
        return all_zero(v, VALUE_BYTES);
    if (v[0] != 1 || v[1] < values[place].unit_from || v[1] > values[place].unit_to || v[2] > 1)
        return 0;
    if (kind == TEXT)
        return read_text(data, 8) == 8 && v[2] == 0;
    /* #102: "Accept minus before zero ... in blocks, PUT words and sheets": the sign asks nothing of the digits. */
    if (read_digits(data, 8, &size) < 8)
        return 0;
    return kind != ANGLE || angle_size(v[1], size, &size);
}

/* "A state is settings in range, each value never put or as a PUT can leave it, and 0 to 64 entries holding the same;
   taken back newest first, none names a value then never put." Of the series that is given. */
static int is_state_of(const struct series *of, const uint8_t *image, size_t n)
{
    uint8_t put[VALUES];
    unsigned count;

    /* "Each series has its own image length", and "the image says its series". */
    if (n != image_bytes(of) || image[0] != of->mark)
        return 0;
    for (size_t i = 0; i < of->settings; i++)
        if (!in_range(&of->setting[i], image[AT_SETTINGS + i]))
            return 0;
    for (unsigned i = 0; i < VALUES; i++) {
        const uint8_t *v = image + at_value(of, i);
        if (!value_right(i, v))
            return 0;
        put[i] = v[0];
    }
    count = (unsigned)image[at_count(of)] << 8 | image[at_count(of) + 1];
    if (count > MOST_ENTRIES)
        return 0;
    /* Entries past the number are 0, so that each state has one image. */
    if (!all_zero(image + at_entry(of, count), (MOST_ENTRIES - count) * ENTRY_BYTES))
        return 0;
    while (count > 0) {
        const uint8_t *e = image + at_entry(of, --count);
        unsigned place = e[1];
        if (e[0] == ENTRY_OF_SET) {
            /* 103: "An entry of a read-only setting makes no state." */
            if (place >= of->settings || of->setting[place].read_only)
                return 0;
            if (!in_range(&of->setting[place], e[2]) || !all_zero(e + 3, VALUE_BYTES))
                return 0;
        } else if (e[0] == ENTRY_OF_PUT) {
            if (place >= VALUES || e[2] != 0 || !put[place] || !value_right(place, e + 3))
                return 0;
            put[place] = e[3];
        } else {
            return 0;
        }
    }
    return 1;
}

/* The series of the state whose image the bytes are, or null when they are no state's. */
static const struct series *series_of(const uint8_t *image, size_t n)
{
    for (unsigned i = 0; i < SERIES; i++)
        if (is_state_of(&all_series[i], image, n))
            return &all_series[i];
    return NULL;
}

uint64_t ref_image_size(void)
{
    return image_bytes(&all_series[TPS100]);
}

uint64_t ref_image_size_300(void)
{
    return image_bytes(&all_series[TPS300]);
}

/* "Laying down the factory state takes lent bytes of exactly the image's length, with any contents, and refuses 31
   otherwise." "At the factory no value has been put." */
static uint64_t lay_factory(const struct series *of, uint8_t *image, size_t n)
{
    if (n != image_bytes(of))
        return answer(31, 0);
    clear(image, n);
    image[0] = of->mark;
    for (size_t i = 0; i < of->settings; i++)
        image[AT_SETTINGS + i] = of->setting[i].factory;
    return answer(0, 0);
}

uint64_t ref_factory(uint8_t *image, size_t n)
{
    return lay_factory(&all_series[TPS100], image, n);
}

uint64_t ref_factory_300(uint8_t *image, size_t n)
{
    return lay_factory(&all_series[TPS300], image, n);
}

/* The parameter that stands for the number; 0 where the series has no such setting. */
static unsigned parameter_of(const struct series *of, const uint8_t *image, unsigned number)
{
    size_t place = place_of_setting(of, number);
    return place < of->settings ? image[AT_SETTINGS + place] : 0;
}

/* The line machine */

/* What a right line asks for. */
enum act { ACT_SET, ACT_CONF, ACT_PUT, ACT_GET, ACT_UNDO, ACT_KEEP };

struct request {
    enum act act;
    size_t place;       /* SET, CONF: of the setting; PUT: of the value */
    unsigned parameter; /* SET */
    const uint8_t *at;  /* PUT: the word; GET: the first `/WI` */
    size_t count;       /* GET: the number of indexes */
    /* Of a PUT that 26 refuses; 104: "26 tells which of 6 to 10 it was and the byte in the line, from 0". */
    struct refusal why;
};

/* "Numbers have 1 to 4 digits and no leading zero, save `0` itself." Answers the digits taken, 0 when it's no number. */
static size_t take_number(const uint8_t *p, size_t n, unsigned *number)
{
    size_t taken = 0;
    *number = 0;
    while (taken < n && is_digit(p[taken])) {
        if (taken == 4)
            return 0;
        *number = *number * 10 + (unsigned)(p[taken++] - '0');
    }
    return taken > 1 && p[0] == '0' ? 0 : taken;
}

/* Judges `SET/number/parameter` and `CONF/number` after their first slash, by 39, 23, 38, 24 and 28. */
static unsigned judge_setting(const struct series *of, const uint8_t *p, size_t n, unsigned entries, struct request *r)
{
    unsigned number;
    size_t taken = take_number(p, n, &number);

    if (taken == 0)
        return 39;
    if (r->act == ACT_SET) {
        size_t slash = taken;
        if (slash == n || p[slash] != '/')
            return 39;
        taken = take_number(p + slash + 1, n - slash - 1, &r->parameter);
        if (taken == 0)
            return 39;
        taken += slash + 1;
    }
    if (taken != n)
        return 39;

    /* 23: "setting not in the list" */
    r->place = place_of_setting(of, number);
    if (r->place == of->settings)
        return 23;
    if (r->act == ACT_SET) {
        /* 103: "38 for SET of a read-only number, after 23"; "Order: 23, 38, 24." */
        if (of->setting[r->place].read_only)
            return 38;
        /* 24: "parameter above its highest"; 103: "also covers a parameter below the lowest or between modes" */
        if (!in_range(&of->setting[r->place], r->parameter))
            return 24;
        /* 28: "SET or PUT with 64 entries standing" */
        if (entries == MOST_ENTRIES)
            return 28;
    }
    return 0;
}

/* The line's first four bytes are `PUT/`. */
enum { WORD_AT = 4 };

/* Judges a PUT's word by 6 to 10. "A PUT word has dots at 3-5 (3-6 for text) and otherwise obeys the block rules", with the
   value's units; 104: "The unit of a stored value belongs to 6." */
static struct refusal judge_put_word(unsigned place, const uint8_t *word)
{
    uint64_t size = 0, mm = 0;

    for (size_t i = INFO_AT; i < INFO_AT + 3; i++)
        if (word[i] != '.')
            return refuse(6, i);
    if (word[INFO_AT + 3] < values[place].unit_from || word[INFO_AT + 3] > values[place].unit_to)
        return refuse(6, INFO_AT + 3);
    return judge_rest(values[place].kind, word, 8, &size, &mm);
}

/* Judges the line of a PUT with its 16 characters by 25, 26 and 28. 103: "Stored values and their units stay those of
   TPS100." */
static unsigned judge_put(const uint8_t *line, unsigned entries, struct request *r)
{
    const uint8_t *word = line + WORD_AT;
    unsigned place = place_of_value(word);
    struct refusal why;

    /* 25: "PUT or GET index not a stored value" */
    if (place == VALUES)
        return 25;
    /* 26: "PUT word breaks its rules". #102: "26 and 40 follow": a minus before zero breaks no rule. */
    why = judge_put_word(place, word);
    if (why.number != 0) {
        r->why = refuse(why.number, WORD_AT + why.byte);
        return 26;
    }
    if (entries == MOST_ENTRIES)
        return 28;
    r->place = place;
    r->at = word;
    return 0;
}

/* Judges what follows `GET/I`: "one or more `/WI` with two digits". */
static unsigned judge_get(const struct series *of, const uint8_t *image, const uint8_t *p, size_t n, struct request *r)
{
    if (n == 0 || n % 5 != 0)
        return 39;
    for (size_t i = 0; i < n; i += 5)
        if (!same(p + i, "/WI", 3) || !is_digit(p[i + 3]) || !is_digit(p[i + 4]))
            return 39;
    /* "GET judges its first index by 25 then 27, then the next likewise" */
    for (size_t i = 0; i < n; i += 5) {
        unsigned place = place_of_value(p + i + 3);
        if (place == VALUES)
            return 25;
        /* 27: "GET of a value never put" */
        if (image[at_value(of, place)] == 0)
            return 27;
    }
    r->at = p;
    r->count = n / 5;
    return 0;
}

/* 104: "22 for a line that starts with no keyword (SET, CONF, PUT, GET, UNDO, KEEP)" */
static int has_keyword(const uint8_t *line, size_t n)
{
    static const char *const keywords[] = {"SET", "CONF", "PUT", "GET", "UNDO", "KEEP"};
    for (size_t i = 0; i < sizeof keywords / sizeof *keywords; i++) {
        size_t length = length_of(keywords[i]);
        if (n >= length && same(line, keywords[i], length))
            return 1;
    }
    return 0;
}

/* Judges a line by 20 to 29, in their order, 39 after 22 and 38 after 23; answers 0 with the request filled when it is right. */
static unsigned judge_line(const struct series *of, const uint8_t *image, unsigned entries, const uint8_t *line, size_t m,
                           struct request *r)
{
    size_t n = m;

    /* 20: "no CR or CR LF at the end, or a CR or LF earlier" */
    if (n > 0 && line[n - 1] == LF)
        n--;
    if (n == 0 || line[n - 1] != CR)
        return 20;
    n--;
    for (size_t i = 0; i < n; i++)
        if (line[i] == CR || line[i] == LF)
            return 20;

    /* 21: "over 100 characters" */
    if (n > 100)
        return 21;

    if (!has_keyword(line, n))
        return 22;

    /* 104: "39 for a known keyword with a wrong remainder, right after 22": what makes none of 01's shapes. */
    if (n >= 4 && same(line, "SET/", 4)) {
        r->act = ACT_SET;
        return judge_setting(of, line + 4, n - 4, entries, r);
    }
    if (n >= 5 && same(line, "CONF/", 5)) {
        r->act = ACT_CONF;
        return judge_setting(of, line + 5, n - 5, entries, r);
    }
    if (n == 20 && same(line, "PUT/", 4)) {
        /* "`PUT/` and 16 characters: a word 8 wide with its blank" */
        r->act = ACT_PUT;
        return judge_put(line, entries, r);
    }
    if (n >= 5 && same(line, "GET/I", 5)) {
        r->act = ACT_GET;
        return judge_get(of, image, line + 5, n - 5, r);
    }
    if (n == 4 && same(line, "UNDO", 4)) {
        r->act = ACT_UNDO;
        /* 29: "UNDO with none standing" */
        return entries == 0 ? 29 : 0;
    }
    if (n == 4 && same(line, "KEEP", 4)) {
        r->act = ACT_KEEP;
        return 0;
    }
    return 39;
}

/* The 15 characters of a value that was put: "GET/I answers text words with four dots, others as dot, dot, `1`, the
   unit; sign and data as put"; or the 23 of its wide word. Answers the place after them. */
static uint8_t *lay_value(uint8_t *to, unsigned place, const uint8_t *v, int wide)
{
    to = lay(to, values[place].index, 2);
    to[0] = '.';
    to[1] = '.';
    to[2] = values[place].kind == TEXT ? '.' : '1';
    to[3] = v[1];
    to[4] = v[2] ? '-' : '+';
    to += 5;
    /* 103: "7 positions as before, eight zeros, the eight characters" */
    if (wide)
        to = lay(to, "00000000", 8);
    copy(to, v + 3, 8);
    return to + 8;
}

/* 103: "When 137 is 1, GET answers a `*` and then wide words" */
static int is_wide(const struct series *of, const uint8_t *image)
{
    return parameter_of(of, image, 137) == 1;
}

/* Makes room for an entry at the end of the undo list and answers its place. */
static uint8_t *add_entry(const struct series *of, uint8_t *image, unsigned entries)
{
    image[at_count(of) + 1] = (uint8_t)(entries + 1);
    return image + at_entry(of, entries);
}

/* Does what an accepted line asks for and writes its reply, all but the end. Answers the place after it. */
static uint8_t *obey(const struct series *of, uint8_t *image, unsigned entries, const struct request *r, uint8_t *reply)
{
    uint8_t *e, *v;
    int wide;

    switch (r->act) {
    case ACT_SET:
        /* "An accepted SET or PUT adds one, even if nothing altered." */
        e = add_entry(of, image, entries);
        v = image + AT_SETTINGS + r->place;
        e[0] = ENTRY_OF_SET;
        e[1] = (uint8_t)r->place;
        e[2] = *v;
        *v = (uint8_t)r->parameter;
        break;
    case ACT_PUT:
        e = add_entry(of, image, entries);
        v = image + at_value(of, (unsigned)r->place);
        e[0] = ENTRY_OF_PUT;
        e[1] = (uint8_t)r->place;
        copy(e + 3, v, VALUE_BYTES);
        v[0] = 1;
        v[1] = r->at[INFO_AT + 3];
        v[2] = r->at[SIGN_AT] == '-';
        copy(v + 3, r->at + DATA_AT, 8);
        break;
    case ACT_UNDO:
        /* "UNDO takes the newest back, restoring "never put" too." "Freed entries are used again." */
        image[at_count(of) + 1] = (uint8_t)--entries;
        e = image + at_entry(of, entries);
        if (e[0] == ENTRY_OF_SET)
            image[AT_SETTINGS + e[1]] = e[2];
        else
            copy(image + at_value(of, e[1]), e + 3, VALUE_BYTES);
        clear(e, ENTRY_BYTES);
        break;
    case ACT_KEEP:
        /* "KEEP empties the list" */
        image[at_count(of) + 1] = 0;
        clear(image + at_entry(of, 0), entries * ENTRY_BYTES);
        break;
    case ACT_CONF:
        /* "Reply both as four digits, `0070/0005`." */
        write_digits(reply, 4, of->setting[r->place].number);
        reply[4] = '/';
        write_digits(reply + 5, 4, image[AT_SETTINGS + r->place]);
        return reply + 9;
    case ACT_GET:
        /* "Reply: the words in that order, each with its blank; an index may repeat." */
        wide = is_wide(of, image);
        if (wide)
            *reply++ = '*';
        for (size_t i = 0; i < r->count; i++) {
            unsigned place = place_of_value(r->at + i * 5 + 3);
            reply = lay_value(reply, place, image + at_value(of, place), wide);
            *reply++ = ' ';
        }
        return reply;
    }
    return lay(reply, "?", 1);
}

uint64_t ref_line(uint8_t *image, size_t n, const uint8_t *line, size_t m, uint8_t *reply, size_t room)
{
    const struct series *of = series_of(image, n);
    struct request request = {0};
    unsigned entries, number;
    size_t length, ending;

    /* "Order: 31, then 20 to 29 as numbered ..., then 30, which replaces any of them." */
    if (!of)
        return answer(31, 0);
    entries = image[at_count(of) + 1];
    number = judge_line(of, image, entries, line, m, &request);

    /* "Each reply ends as setting 73 said before the line (0 CR, 1 CR LF)." */
    ending = parameter_of(of, image, 73) ? 2 : 1;

    /* 30: "reply or sheet, `@W127` included, longer than the room: nothing written or changed" */
    if (number != 0)
        length = 5;
    else if (request.act == ACT_GET)
        length = is_wide(of, image) ? 1 + request.count * 24 : request.count * 16;
    else
        length = request.act == ACT_CONF ? 9 : 1;
    length += ending;
    if (length > room)
        return answer(30, 0);

    /* "A refused line replies `@W127`, with nothing else altered; reply room beyond the reply is untouched."; 104: "the wire
       reply stays `@W127`" */
    reply = number != 0 ? lay(reply, "@W127", 5) : obey(of, image, entries, &request, reply);
    lay(reply, "\r\n", ending);
    /* 104: "reply bytes + 2^16 * which + 2^24 * byte; for every other answer, 30 included, the two are 0" */
    return answer(number, length | (uint64_t)request.why.number << 16 | (uint64_t)request.why.byte << 24);
}

/* The state sheet */

/* How many digits the number has: "numbers have no leading zeros". */
static size_t digits_of(unsigned number)
{
    return number < 10 ? 1 : 1 + digits_of(number / 10);
}

/* Writes the number without leading zeros and answers the place after it. */
static uint8_t *lay_number(uint8_t *to, unsigned number)
{
    size_t n = digits_of(number);
    write_digits(to, n, number);
    return to + n;
}

/* 106: "A second sheet form starts `form=2`, then the first form's lines". */
enum { FORM_1 = 1, FORM_2 = 2 };
static const char form_line[] = "form=2\n", undo_key[] = "undo=";
enum { FORM_LINE = sizeof form_line - 1, UNDO_KEY = sizeof undo_key - 1 };

/* How many bytes the sheet's form 1 has. */
static size_t form_1_length(const struct series *of, const uint8_t *image)
{
    size_t length = length_of(of->first_line);
    for (size_t i = 0; i < of->settings; i++)
        length += 3 + digits_of(of->setting[i].number) + digits_of(image[AT_SETTINGS + i]);
    /* "the 15 characters GET/I gives, or nothing when never put"; 103: "the sheet keeps eight characters" */
    for (unsigned i = 0; i < VALUES; i++)
        length += image[at_value(of, i)] ? 20 : 5;
    return length;
}

/* Writes the sheet's form 1 and answers the place after it. "key=value lines ended by LF: `series=TPS100`, then `s` and each
   setting in the order above, then `v` and each index"; 103: "numbers have no leading zeros" */
static uint8_t *lay_form_1(const struct series *of, const uint8_t *image, uint8_t *sheet)
{
    sheet = lay(sheet, of->first_line, length_of(of->first_line));
    for (size_t i = 0; i < of->settings; i++) {
        *sheet++ = 's';
        sheet = lay_number(sheet, of->setting[i].number);
        *sheet++ = '=';
        sheet = lay_number(sheet, image[AT_SETTINGS + i]);
        *sheet++ = LF;
    }
    for (unsigned i = 0; i < VALUES; i++) {
        const uint8_t *v = image + at_value(of, i);
        *sheet++ = 'v';
        sheet = lay(sheet, values[i].index, 2);
        *sheet++ = '=';
        if (v[0])
            sheet = lay_value(sheet, i, v, 0);
        *sheet++ = LF;
    }
    return sheet;
}

uint64_t ref_sheet_write(const uint8_t *image, size_t n, uint8_t *sheet, size_t room)
{
    const struct series *of = series_of(image, n);
    size_t length;

    /* "for writing, 31, then 30" */
    if (!of)
        return answer(31, 0);
    length = form_1_length(of, image);
    if (length > room)
        return answer(30, 0);
    lay_form_1(of, image, sheet);
    return answer(0, length);
}

/* How many bytes an entry's `u=` line has. */
static size_t entry_length(const struct series *of, const uint8_t *e)
{
    if (e[0] == ENTRY_OF_SET)
        return 5 + digits_of(of->setting[e[1]].number) + digits_of(e[2]);
    return e[3] ? 22 : 7;
}

/* Writes an entry's line and answers the place after it. 106: "one `u=` line for each entry ...: the `s` or `v` key, a colon,
   and what was there before"; "`u=s40:2` or `u=v88:` or `u=v88:88..10+00001550`, each ended by LF" */
static uint8_t *lay_entry(const struct series *of, const uint8_t *e, uint8_t *to)
{
    to = lay(to, "u=", 2);
    if (e[0] == ENTRY_OF_SET) {
        *to++ = 's';
        to = lay_number(to, of->setting[e[1]].number);
        *to++ = ':';
        to = lay_number(to, e[2]);
    } else {
        *to++ = 'v';
        to = lay(to, values[e[1]].index, 2);
        *to++ = ':';
        if (e[3])
            to = lay_value(to, e[1], e + 3, 0);
    }
    *to++ = LF;
    return to;
}

uint64_t ref_sheet_write_2(const uint8_t *image, size_t n, uint8_t *sheet, size_t room)
{
    const struct series *of = series_of(image, n);
    unsigned entries;
    size_t length;

    if (!of)
        return answer(31, 0);
    entries = image[at_count(of) + 1];
    length = FORM_LINE + form_1_length(of, image) + UNDO_KEY + digits_of(entries) + 1;
    for (unsigned i = 0; i < entries; i++)
        length += entry_length(of, image + at_entry(of, i));
    if (length > room)
        return answer(30, 0);

    /* 106: "then `undo=` and the count, then one `u=` line for each entry, oldest first" */
    sheet = lay(sheet, form_line, FORM_LINE);
    sheet = lay_form_1(of, image, sheet);
    sheet = lay(sheet, undo_key, UNDO_KEY);
    sheet = lay_number(sheet, entries);
    *sheet++ = LF;
    for (unsigned i = 0; i < entries; i++)
        sheet = lay_entry(of, image + at_entry(of, i), sheet);
    return answer(0, length);
}

/* Takes the n bytes at p for a number and the line's end. Answers their length, 0 when wrong. */
static size_t take_number_line(const uint8_t *p, size_t n, unsigned *number)
{
    size_t taken = take_number(p, n, number);
    return taken == 0 || taken == n || p[taken] != LF ? 0 : taken + 1;
}

/* Takes the n bytes at p for a value's 15 characters, or nothing when never put, and the line's end, into its 11 bytes.
   Answers their length, 0 when wrong. */
static size_t take_value_rest(const uint8_t *p, size_t n, unsigned place, uint8_t *v)
{
    if (n > 0 && p[0] == LF) {
        clear(v, VALUE_BYTES);
        return 1;
    }
    if (n < 16 || !same(p, values[place].index, 2) || p[2] != '.' || p[3] != '.' || p[15] != LF)
        return 0;
    if (p[4] != (values[place].kind == TEXT ? '.' : '1') || (p[6] != '+' && p[6] != '-'))
        return 0;
    v[0] = 1;
    v[1] = p[5];
    v[2] = p[6] == '-';
    copy(v + 3, p + 7, 8);
    return value_right(place, v) ? 16 : 0;
}

/* Takes the n bytes at p for a line `sNN=` of the setting, into its parameter. Answers the line's length, 0 when wrong. 103:
   "a sheet may hold any of" a read-only number's values. */
static size_t take_setting_line(const uint8_t *p, size_t n, const struct setting *setting, uint8_t *to)
{
    size_t key = digits_of(setting->number), taken;
    unsigned number;

    if (n < key + 2 || p[0] != 's' || take_number(p + 1, key, &number) != key || number != setting->number || p[key + 1] != '=')
        return 0;
    key += 2;
    taken = take_number_line(p + key, n - key, &number);
    if (taken == 0 || !in_range(setting, number))
        return 0;
    *to = (uint8_t)number;
    return key + taken;
}

/* Takes the n bytes at p for a line `vNN=` of the value, into its 11 bytes. Answers the line's length, 0 when wrong. */
static size_t take_value_line(const uint8_t *p, size_t n, unsigned place, uint8_t *v)
{
    size_t taken;

    if (n < 4 || p[0] != 'v' || !same(p + 1, values[place].index, 2) || p[3] != '=')
        return 0;
    taken = take_value_rest(p + 4, n - 4, place, v);
    return taken == 0 ? 0 : 4 + taken;
}

/* Takes the n bytes at p for the line `undo=`. Answers its length, 0 when wrong. 106: "a count above the list's size is wrong
   at its line" */
static size_t take_undo_line(const uint8_t *p, size_t n, unsigned *count)
{
    size_t taken;

    if (n < UNDO_KEY || !same(p, undo_key, UNDO_KEY))
        return 0;
    taken = take_number_line(p + UNDO_KEY, n - UNDO_KEY, count);
    return taken == 0 || *count > MOST_ENTRIES ? 0 : UNDO_KEY + taken;
}

/* Takes the n bytes at p for an entry's line, into its 14 bytes. Answers the line's length, 0 when wrong. */
static size_t take_entry_line(const struct series *of, const uint8_t *p, size_t n, uint8_t *e)
{
    unsigned number;
    size_t place, key, taken;

    clear(e, ENTRY_BYTES);
    if (n < 3 || p[0] != 'u' || p[1] != '=')
        return 0;
    if (p[2] == 's') {
        taken = take_number(p + 3, n - 3, &number);
        key = 3 + taken;
        if (taken == 0 || key == n || p[key] != ':')
            return 0;
        key++;
        /* 106: "so is a `u=` line of a read-only setting" */
        place = place_of_setting(of, number);
        if (place == of->settings || of->setting[place].read_only)
            return 0;
        taken = take_number_line(p + key, n - key, &number);
        if (taken == 0 || !in_range(&of->setting[place], number))
            return 0;
        e[0] = ENTRY_OF_SET;
        e[1] = (uint8_t)place;
        e[2] = (uint8_t)number;
        return key + taken;
    }
    if (n < 6 || p[2] != 'v' || p[5] != ':')
        return 0;
    place = place_of_value(p + 3);
    if (place == VALUES)
        return 0;
    e[0] = ENTRY_OF_PUT;
    e[1] = (uint8_t)place;
    taken = take_value_rest(p + 6, n - 6, (unsigned)place, e + 3);
    return taken == 0 ? 0 : 6 + taken;
}

/* A sheet that was taken: its series, where its line `undo=` starts (its end in form 1), how many entries it has, and the
   image of what it says. It waits here since 40 "leaves the state as it was". */
struct taken {
    const struct series *of;
    size_t undo_at;
    unsigned entries;
    uint8_t image[AT_SETTINGS + MOST_SETTINGS + VALUES * VALUE_BYTES + 2 + MOST_ENTRIES * ENTRY_BYTES];
};

/* The series whose first line of form 1 stands at p, or null. */
static const struct series *series_at(const uint8_t *p, size_t n)
{
    for (unsigned i = 0; i < SERIES; i++) {
        size_t length = length_of(all_series[i].first_line);
        if (n >= length && same(p, all_series[i].first_line, length))
            return &all_series[i];
    }
    return NULL;
}

static int is_form_2(const uint8_t *sheet, size_t m)
{
    return m >= FORM_LINE && same(sheet, form_line, FORM_LINE);
}

/* Judges the m bytes as a sheet of the form, of the series or, where none is given, of the one that it names. "Loading takes
   exactly the bytes some sheet has"; "otherwise refusal 40 tells the start of the first wrong, missing or surplus line". */
static uint64_t take_sheet(unsigned form, const struct series *of, const uint8_t *sheet, size_t m, struct taken *t)
{
    size_t at = 0, taken;

    if (form == FORM_2) {
        if (!is_form_2(sheet, m))
            return answer(40, 0);
        at = FORM_LINE;
    }
    /* 103: "a sheet of the other series is 40 at that line" */
    t->of = series_at(sheet + at, m - at);
    if (!t->of || (of && t->of != of))
        return answer(40, at);
    of = t->of;
    at += length_of(of->first_line);
    clear(t->image, image_bytes(of));
    t->image[0] = of->mark;
    for (size_t i = 0; i < of->settings; i++, at += taken) {
        taken = take_setting_line(sheet + at, m - at, &of->setting[i], t->image + AT_SETTINGS + i);
        if (taken == 0)
            return answer(40, at);
    }
    for (unsigned i = 0; i < VALUES; i++, at += taken) {
        taken = take_value_line(sheet + at, m - at, i, t->image + at_value(of, i));
        if (taken == 0)
            return answer(40, at);
    }
    t->undo_at = at;
    t->entries = 0;
    if (form == FORM_2) {
        taken = take_undo_line(sheet + at, m - at, &t->entries);
        if (taken == 0)
            return answer(40, at);
        at += taken;
        t->image[at_count(of) + 1] = (uint8_t)t->entries;
        for (unsigned i = 0; i < t->entries; i++, at += taken) {
            taken = take_entry_line(of, sheet + at, m - at, t->image + at_entry(of, i));
            if (taken == 0)
                return answer(40, at);
        }
    }
    if (at != m)
        return answer(40, at);
    /* 106: "or at `undo=` where each line is right but no state has that list": "taken back newest first, none names a value
       then never put" */
    if (!is_state_of(of, t->image, image_bytes(of)))
        return answer(40, t->undo_at);
    return answer(0, 0);
}

uint64_t ref_sheet_load(uint8_t *image, size_t n, const uint8_t *sheet, size_t m)
{
    const struct series *of = series_of(image, n);
    struct taken t;
    uint64_t got;

    /* "Order: 31 (telling 0), then 40" */
    if (!of)
        return answer(31, 0);
    /* 106: "Both forms load". */
    got = take_sheet(is_form_2(sheet, m) ? FORM_2 : FORM_1, of, sheet, m, &t);
    /* "makes the settings and stored values those it names and empties the undo list", or, 106, makes it that of form 2 */
    if (got == 0)
        copy(image, t.image, n);
    return got;
}

uint64_t ref_sheet_move(const uint8_t *sheet, size_t m, uint8_t *moved, size_t room)
{
    static const char no_entry[] = "undo=0\n";
    enum { NO_ENTRY = sizeof no_entry - 1 };
    struct taken t;
    uint64_t got = take_sheet(FORM_1, NULL, sheet, m, &t);
    size_t length = FORM_LINE + m + NO_ENTRY;

    if (got != 0)
        return got;
    if (length > room)
        return answer(30, 0);
    /* 106: "Old sheets move to the new form with `undo=0`." */
    moved = lay(moved, form_line, FORM_LINE);
    copy(moved, sheet, m);
    lay(moved + m, no_entry, NO_ENTRY);
    return answer(0, length);
}

uint64_t ref_sheet_back(const uint8_t *sheet, size_t m, uint8_t *moved, size_t room)
{
    struct taken t;
    uint64_t got = take_sheet(FORM_2, NULL, sheet, m, &t);
    size_t length;

    /* 106: "40 at the first wrong line, ...; then 41 for the way back with a count above 0, then 30"; "41 tells the start of
       the `undo=` line, 30 tells 0" */
    if (got != 0)
        return got;
    if (t.entries > 0)
        return answer(41, t.undo_at);
    length = t.undo_at - FORM_LINE;
    if (length > room)
        return answer(30, 0);
    /* 106: "The way back gives the old bytes exactly when the count is 0." */
    copy(moved, sheet + FORM_LINE, length);
    return answer(0, length);
}
