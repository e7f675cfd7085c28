/* bench.c: what the library (gsi_*) costs beside the second implementation in plain C (tests/reference.c), as ratios of
   processor time. Both are held to the same answers first; then they take turns in one process, in small batches.
   Usage: bench ROUNDS, which table.awk makes tables of; or bench CASE SIDE PASSES (SIDE is library or C), which plays a case
   so often and looks at no clock, for counters and profilers. Compiled with BEFORE, an earlier build of the library
   (before_gsi_*) stands in the place of the C; where it has no level's functions, a level's blocks are left out, and mending
   and sheets of form 2 where it has none. Compiled with EVERY_LENGTH, the tables by words have each number from 1 to 32. */
#include "../tests/reference.h"

int printf(const char *, ...);
void exit(int);
int strcmp(const char *, const char *);
size_t strlen(const char *);
void *memcpy(void *, const void *, size_t);
void *memset(void *, int, size_t);
int memcmp(const void *, const void *, size_t);
int atoi(const char *);

struct timespec {
    long seconds, nanoseconds;
};
int clock_gettime(int, struct timespec *);

uint64_t gsi_read(const uint8_t *block, size_t n, ref_word *list, size_t places);
uint64_t gsi_write(const ref_word *list, size_t words, uint64_t wide, uint64_t crlf, uint8_t *block, size_t room);
uint64_t gsi_read_level(const uint8_t *block, size_t n, ref_word *list, size_t places);
uint64_t gsi_write_level(const ref_word *list, size_t words, uint64_t wide, uint64_t crlf, uint8_t *block, size_t room);
uint64_t gsi_mend(const uint8_t *block, size_t n, uint8_t *mended, size_t room, ref_edit *edits, size_t places);
uint64_t gsi_mend_level(const uint8_t *block, size_t n, uint8_t *mended, size_t room, ref_edit *edits, size_t places);
uint64_t gsi_line(uint8_t *image, size_t n, const uint8_t *line, size_t m, uint8_t *reply, size_t room);
uint64_t gsi_sheet_write(const uint8_t *image, size_t n, uint8_t *sheet, size_t room);
uint64_t gsi_sheet_write_2(const uint8_t *image, size_t n, uint8_t *sheet, size_t room);
uint64_t gsi_sheet_load(uint8_t *image, size_t n, const uint8_t *sheet, size_t m);

#ifdef BEFORE
uint64_t before_gsi_read(const uint8_t *block, size_t n, ref_word *list, size_t places);
uint64_t before_gsi_write(const ref_word *list, size_t words, uint64_t wide, uint64_t crlf, uint8_t *block, size_t room);
__attribute__((weak)) uint64_t before_gsi_read_level(const uint8_t *block, size_t n, ref_word *list, size_t places);
__attribute__((weak)) uint64_t before_gsi_write_level(const ref_word *list, size_t words, uint64_t wide, uint64_t crlf, uint8_t *block, size_t room);
__attribute__((weak)) uint64_t before_gsi_mend(const uint8_t *block, size_t n, uint8_t *mended, size_t room, ref_edit *edits, size_t places);
__attribute__((weak)) uint64_t before_gsi_mend_level(const uint8_t *block, size_t n, uint8_t *mended, size_t room, ref_edit *edits, size_t places);
uint64_t before_gsi_line(uint8_t *image, size_t n, const uint8_t *line, size_t m, uint8_t *reply, size_t room);
uint64_t before_gsi_sheet_write(const uint8_t *image, size_t n, uint8_t *sheet, size_t room);
__attribute__((weak)) uint64_t before_gsi_sheet_write_2(const uint8_t *image, size_t n, uint8_t *sheet, size_t room);
uint64_t before_gsi_sheet_load(uint8_t *image, size_t n, const uint8_t *sheet, size_t m);
#endif

enum { EDITS_MOST = 34, IMAGE = 1039, AT_VALUES = 20, VALUE_BYTES = 11, AT_COUNT = 141, BLOCK_MOST = 771, REPLY_MOST = 306, SHEET_MOST = 1775 };

#define COUNT_OF(array) (sizeof(array) / sizeof *(array))

enum { STATION, LEVEL };

enum { FORM_1, FORM_2 };

/* The two sides, called alike; reading, writing and mending by the family, a sheet's writing by its form. */
static const struct side {
    uint64_t (*read[2])(const uint8_t *, size_t, ref_word *, size_t);
    uint64_t (*write[2])(const ref_word *, size_t, uint64_t, uint64_t, uint8_t *, size_t);
    uint64_t (*mend[2])(const uint8_t *, size_t, uint8_t *, size_t, ref_edit *, size_t);
    uint64_t (*line)(uint8_t *, size_t, const uint8_t *, size_t, uint8_t *, size_t);
    uint64_t (*sheet_write[2])(const uint8_t *, size_t, uint8_t *, size_t);
    uint64_t (*sheet_load)(uint8_t *, size_t, const uint8_t *, size_t);
} sides[2] = {
    {{gsi_read, gsi_read_level}, {gsi_write, gsi_write_level}, {gsi_mend, gsi_mend_level}, gsi_line, {gsi_sheet_write, gsi_sheet_write_2}, gsi_sheet_load},
#ifdef BEFORE
    {{before_gsi_read, before_gsi_read_level}, {before_gsi_write, before_gsi_write_level}, {before_gsi_mend, before_gsi_mend_level},
     before_gsi_line, {before_gsi_sheet_write, before_gsi_sheet_write_2}, before_gsi_sheet_load},
#else
    {{ref_read, ref_read_level}, {ref_write, ref_write_level}, {ref_mend, ref_mend_level}, ref_line, {ref_sheet_write, ref_sheet_write_2}, ref_sheet_load},
#endif
};

static void stop(const char *what, unsigned at)
{
    printf("bench: the two sides differ, or what was made is wrong: %s, number %u\n", what, at);
    exit(1);
}

/* Chance by splitmix64, from a fixed seed: every run has the same cases. */
static uint64_t chance_state = 1;

static uint64_t next64(void)
{
    uint64_t z = chance_state += 0x9E3779B97F4A7C15u;
    z = (z ^ z >> 30) * 0xBF58476D1CE4E5B9u;
    z = (z ^ z >> 27) * 0x94D049BB133111EBu;
    return z ^ z >> 31;
}

static unsigned below(unsigned n)
{
    return (unsigned)((next64() >> 32) * n >> 32);
}

#define PICK(array) ((array)[below(COUNT_OF(array))])

/* Blocks */

/* What one target gives: point number, Hz, V, slope distance, ppm and mm, the point, reflector and instrument height. */
static const uint8_t measured[] = {11, 21, 22, 31, 51, 81, 82, 83, 87, 88};

/* What a line of levels gives: point number, distance to the rod, back and fore, the differences, the ground height, an intermediate sight. */
static const uint16_t levelled[] = {11, 32, 331, 332, 573, 574, 83, 333};

static ref_word make_word(unsigned index, unsigned number, int wide, int degrees)
{
    ref_word w = {.index = (uint16_t)index, .info = {'.', '.', '0', '0'}};
    unsigned width = wide ? 16 : 8;

    switch (index) {
    case 11:
        for (unsigned i = 4; i-- > 0; number /= 10)
            w.info[i] = (uint8_t)('0' + number % 10);
        memset(w.text, '0', width);
        for (unsigned i = 0; i < 4; i++)
            w.text[width - 1 - i] = (uint8_t)('0' + below(10));
        if (below(2))
            memcpy(w.text + width - 7, "PNC", 3);
        break;
    case 21:
    case 22:
        w.info[1] = '3';
        w.info[2] = '2';
        w.info[3] = degrees ? '4' : '2';
        w.size = index == 21 ? below(degrees ? 12960000 : 40000000) : degrees ? 3240000 - 200000 + below(400000) : 9000000 + below(2000000);
        break;
    case 331:
    case 332:
    case 333:
        w.info[1] = '1';
        w.info[3] = '6';
        w.size = 1 + below(40000);
        break;
    case 573:
        w.minus = (uint8_t)below(2);
        w.size = 1 + below(90000);
        break;
    case 31:
    case 32:
    case 574:
        w.size = 1000 + below(900000);
        break;
    case 51:
        w.info[2] = '1';
        w.info[3] = '.';
        w.size = below(60);
        w.mm = below(35);
        /* no minus before nought, so that a build from before request 102 can stand beside this one */
        w.minus = w.size != 0 && below(2);
        w.mm_minus = w.mm != 0 && below(2);
        break;
    case 87:
    case 88:
        w.info[2] = '1';
        w.size = 1200 + below(600);
        break;
    default:
        w.size = 1 + (wide ? next64() % 9000000000u : below(90000000));
        w.minus = (uint8_t)below(2);
    }
    if (index > 99)
        w.info[0] = 0;
    return w;
}

enum { BLOCKS_MOST = 512 };

/* A file of blocks of one family: the bytes one after the other, and the records likewise. */
struct file {
    unsigned family, blocks;
    size_t bytes, words;
    struct { uint8_t words, wide, crlf; } shape[BLOCKS_MOST];
    uint8_t text[BLOCKS_MOST * BLOCK_MOST];
    ref_word records[BLOCKS_MOST * 32];
};

static void add_block(struct file *f, unsigned words, int wide, int crlf)
{
    ref_word *list = f->records + f->words;
    uint64_t got;

    for (unsigned i = 0; i < words; i++)
        list[i] = make_word(i == 0 ? 11 : f->family == LEVEL ? levelled[1 + (i - 1) % (COUNT_OF(levelled) - 1)] : measured[1 + (i - 1) % (COUNT_OF(measured) - 1)],
                            f->blocks + 1, wide, (int)(f->blocks / 8 % 4 == 3));
    f->shape[f->blocks].words = (uint8_t)words;
    f->shape[f->blocks].wide = (uint8_t)wide;
    f->shape[f->blocks].crlf = (uint8_t)crlf;
    got = (f->family == LEVEL ? ref_write_level : ref_write)(list, words, (uint64_t)wide, (uint64_t)crlf, f->text + f->bytes, BLOCK_MOST);
    if (got >> 32 != 0)
        stop("a block made", f->blocks);
    f->blocks++;
    f->bytes += got;
    f->words += words;
}

/* The file of all lengths, and one file for each of these lengths, of each family. */
static struct file mixed[2];
#ifdef EVERY_LENGTH
static const unsigned lengths[] = {1,  2,  3,  4,  5,  6,  7,  8,  9,  10, 11, 12, 13, 14, 15, 16,
                                   17, 18, 19, 20, 21, 22, 23, 24, 25, 26, 27, 28, 29, 30, 31, 32};
#else
static const unsigned lengths[] = {1, 2, 4, 8, 16, 32};
#endif
enum { LENGTHS = COUNT_OF(lengths), ALIKE = 32 };
static struct file alike[2][LENGTHS];

static void make_files(unsigned family)
{
    mixed[family].family = family;
    /* every length equally often with either width and either terminator, in an order that jumps about */
    for (unsigned i = 0; i < BLOCKS_MOST; i++)
        add_block(&mixed[family], 1 + i / 4 * 13 % 32, (int)(i % 2), (int)(i / 2 % 2));
    for (unsigned k = 0; k < LENGTHS; k++) {
        alike[family][k].family = family;
        for (unsigned i = 0; i < ALIKE; i++)
            add_block(&alike[family][k], lengths[k], (int)(i % 2), (int)(i / 2 % 2));
    }
}

static ref_word list[32];
static uint8_t room[BLOCK_MOST];
static ref_edit edits[EDITS_MOST];
static volatile uint64_t sum;

/* Reads the file from its start to its end, as a host does: the next block starts where the last one ended. */
static void read_file(const struct side *s, const struct file *f)
{
    size_t at = 0;
    uint64_t all = 0;

    while (at < f->bytes) {
        uint64_t got = s->read[f->family](f->text + at, f->bytes - at, list, 32);
        at += got & 0xffff;
        all += got;
    }
    sum += all;
}

static void write_file(const struct side *s, const struct file *f)
{
    const ref_word *from = f->records;
    uint64_t all = 0;

    for (unsigned i = 0; i < f->blocks; i++) {
        all += s->write[f->family](from, f->shape[i].words, f->shape[i].wide, f->shape[i].crlf, room, sizeof room);
        from += f->shape[i].words;
    }
    sum += all;
}

/* Mends the file's blocks, which all read as they are: each comes back as it was. */
static void mend_file(const struct side *s, const struct file *f)
{
    size_t at = 0;
    uint64_t all = 0;

    while (at < f->bytes) {
        uint64_t got = s->mend[f->family](f->text + at, f->bytes - at, room, sizeof room, edits, EDITS_MOST);
        at += got & 0xffff;
        all += got;
    }
    sum += all;
}

/* Both sides read every block of the file into the records that it was made from, write them back, and mend each block to itself. */
static void check_file(const struct file *f)
{
    for (unsigned k = 0; k < 2; k++) {
        size_t at = 0;
        const ref_word *records = f->records;
        for (unsigned i = 0; i < f->blocks; i++) {
            unsigned words = f->shape[i].words;
            size_t used = (f->shape[i].wide ? 1 : 0) + words * (f->shape[i].wide ? 24u : 16u) + 1 + f->shape[i].crlf;
            uint64_t told = used | words << 16 | (uint64_t)f->shape[i].wide << 24 | (uint64_t)f->shape[i].crlf << 25;
            if (sides[k].read[f->family](f->text + at, f->bytes - at, list, 32) != told || memcmp(list, records, words * sizeof *list) != 0)
                stop("a block read", i);
            if (sides[k].write[f->family](records, words, f->shape[i].wide, f->shape[i].crlf, room, sizeof room) != used || memcmp(room, f->text + at, used) != 0)
                stop("a block written", i);
            if (sides[k].mend[f->family] && (sides[k].mend[f->family](f->text + at, f->bytes - at, room, sizeof room, edits, EDITS_MOST) != used || memcmp(room, f->text + at, used) != 0))
                stop("a block mended", i);
            at += used;
            records += words;
        }
        if (at != f->bytes)
            stop("the file's end", f->blocks);
    }
}

/* Lines */

static const uint8_t setting_numbers[] = {30, 32, 34, 40, 41, 44, 49, 50, 70, 71, 73, 76, 80, 81, 95, 102, 103, 135, 136};
static const uint8_t setting_highest[] = {1, 3, 1, 2, 1, 2, 1, 2, 5, 2, 1, 1, 1, 2, 1, 1, 1, 1, 1};
static const char value_indexes[][3] = {"11", "16", "21", "24", "34", "83", "84", "85", "86", "87", "88"};

struct line {
    uint8_t length, bytes[102];
};

static void add_text(struct line *l, const char *text)
{
    size_t n = strlen(text);
    memcpy(l->bytes + l->length, text, n);
    l->length = (uint8_t)(l->length + n);
}

static void add_number(struct line *l, unsigned n)
{
    char digits[5] = {0};
    unsigned at = 4;

    do
        digits[--at] = (char)('0' + n % 10);
    while ((n /= 10) != 0);
    add_text(l, digits + at);
}

/* `PUT/` and a right word for one of the values. */
static void make_put(struct line *l)
{
    unsigned place = below(COUNT_OF(value_indexes));
    char digits[10] = {0};

    add_text(l, "PUT/");
    add_text(l, value_indexes[place]);
    add_text(l, place < 2 ? "....+" : place < 4 ? "...2+" : below(4) ? "...0+" : "...0-");
    for (unsigned i = 0; i < 8; i++)
        digits[i] = (char)('0' + below(i == 0 ? 4 : 10));
    digits[7] |= 1;
    digits[8] = ' ';
    add_text(l, digits);
}

/* `GET/I` with 1 to 6 indexes of values that the image has, where it has any. */
static void make_get(struct line *l, const uint8_t *image)
{
    unsigned n = 1 + below(6), put[COUNT_OF(value_indexes)], puts = 0;

    for (unsigned i = 0; i < COUNT_OF(value_indexes); i++)
        if (image[AT_VALUES + i * VALUE_BYTES])
            put[puts++] = i;
    add_text(l, "GET/I");
    while (n-- > 0) {
        add_text(l, "/WI");
        add_text(l, value_indexes[puts ? put[below(puts)] : below(COUNT_OF(value_indexes))]);
    }
}

/* A line as a trial has it, for the image as it stands. */
static struct line make_line(const uint8_t *image)
{
    static const char *const wrong[] = {"SET/33/0", "SET/40/3", "CONF/99", "CONF/0030", "GET/I/WI12", "GET/M/WI21", "GET/I/WI8",
                                        "PUT/88...0-00000000 ", "PUT/31...0+00001550 ", "PUT/21...2+40000000 ", "set/30/1", "SET/30/1 "};
    struct line l = {0};
    unsigned kind = below(100), place;

    if (kind < 26) {
        place = below(COUNT_OF(setting_numbers));
        add_text(&l, "SET/");
        add_number(&l, setting_numbers[place]);
        add_text(&l, "/");
        add_number(&l, below(setting_highest[place] + 1u));
    } else if (kind < 40) {
        add_text(&l, "CONF/");
        add_number(&l, PICK(setting_numbers));
    } else if (kind < 60) {
        make_put(&l);
    } else if (kind < 80) {
        make_get(&l, image);
    } else if (kind < 90) {
        add_text(&l, "UNDO");
    } else if (kind < 91) {
        add_text(&l, "KEEP");
    } else {
        add_text(&l, PICK(wrong));
    }
    add_text(&l, below(2) ? "\r\n" : "\r");
    return l;
}

enum { LINES = 2048, STATES = 256 };
static struct line script[LINES];
/* Images out of the script's middle, and the sheet that each has, by its form. */
static uint8_t states[STATES][IMAGE], sheets[2][STATES][SHEET_MOST];
static unsigned sheet_bytes[2][STATES];
static uint8_t image[IMAGE], images[STATES][IMAGE], reply[REPLY_MOST], sheet[SHEET_MOST];
static unsigned accepted, standing;

static void make_script(void)
{
    ref_factory(image, IMAGE);
    for (unsigned i = 0; i < LINES; i++) {
        script[i] = make_line(image);
        standing += image[AT_COUNT + 1];
        accepted += ref_line(image, IMAGE, script[i].bytes, script[i].length, reply, sizeof reply) >> 32 == 0;
        if (i % (LINES / STATES) == 0)
            memcpy(states[i / (LINES / STATES)], image, IMAGE);
    }
    for (unsigned i = 0; i < STATES; i++) {
        sheet_bytes[FORM_1][i] = (unsigned)ref_sheet_write(states[i], IMAGE, sheets[FORM_1][i], SHEET_MOST);
        sheet_bytes[FORM_2][i] = (unsigned)ref_sheet_write_2(states[i], IMAGE, sheets[FORM_2][i], SHEET_MOST);
    }
}

/* Images of that many undo entries, SETs and PUTs in turn, all values put. */
static const unsigned depths[] = {0, 16, 32, 48, 64};
enum { DEPTHS = COUNT_OF(depths) };
static uint8_t deep[DEPTHS][IMAGE];

static void play_text(uint8_t *on, const char *text)
{
    if (ref_line(on, IMAGE, (const uint8_t *)text, strlen(text), reply, sizeof reply) >> 32 != 0)
        stop(text, 0);
}

static void make_depths(void)
{
    static const char *const puts[] = {"PUT/11....+0000A110 \r", "PUT/16....+CODE0016 \r", "PUT/21...2+17920860 \r", "PUT/24...4+27952530 \r",
                                       "PUT/34...0+00000034 \r", "PUT/83...0-00213159 \r", "PUT/84...0+00100000 \r", "PUT/85...0+00200000 \r",
                                       "PUT/86...0+00300000 \r", "PUT/87...0+00001300 \r", "PUT/88...0+00001550 \r"};
    for (unsigned k = 0; k < DEPTHS; k++) {
        ref_factory(deep[k], IMAGE);
        for (unsigned i = 0; i < COUNT_OF(puts); i++)
            play_text(deep[k], puts[i]);
        play_text(deep[k], "KEEP\r");
        for (unsigned i = 0; i < depths[k]; i++)
            play_text(deep[k], i % 2 ? "SET/30/0\r" : puts[i / 2 % COUNT_OF(puts)]);
    }
}

/* Lines that leave the image as it was, SET and UNDO as a pair (at 64 entries the UNDO comes first). */
static uint64_t play_depth(const struct side *s, unsigned depth)
{
    static const char *const below_64[] = {"CONF/70\r\n", "GET/I/WI21/WI88\r\n", "SET/40/3\r\n", "SET/30/0\r\n", "UNDO\r\n"};
    static const char *const at_64[] = {"CONF/70\r\n", "GET/I/WI21/WI88\r\n", "SET/40/3\r\n", "UNDO\r\n", "SET/30/0\r\n"};
    const char *const *lines = depths[depth] < 64 ? below_64 : at_64;
    uint64_t all = 0;

    for (unsigned i = 0; i < 5; i++)
        all = all * 3 + s->line(deep[depth], IMAGE, (const uint8_t *)lines[i], strlen(lines[i]), reply, sizeof reply);
    return all;
}

static void play_script(const struct side *s)
{
    uint64_t all = 0;
    for (unsigned i = 0; i < LINES; i++)
        all += s->line(image, IMAGE, script[i].bytes, script[i].length, reply, sizeof reply);
    sum += all;
}

static void load_sheets(const struct side *s, unsigned form)
{
    uint64_t all = 0;
    for (unsigned i = 0; i < STATES; i++)
        all += s->sheet_load(images[i], IMAGE, sheets[form][STATES - 1 - i], sheet_bytes[form][STATES - 1 - i]);
    sum += all;
}

static void write_sheets(const struct side *s, unsigned form)
{
    uint64_t all = 0;
    for (unsigned i = 0; i < STATES; i++)
        all += s->sheet_write[form](states[i], IMAGE, sheet, sizeof sheet);
    sum += all;
}

/* Both sides give the same answers, replies and images on the script, and the same sheets. */
static void check_script(void)
{
    static uint8_t theirs[IMAGE], their_reply[REPLY_MOST];

    ref_factory(image, IMAGE);
    ref_factory(theirs, IMAGE);
    for (unsigned i = 0; i < LINES; i++) {
        uint64_t a = gsi_line(image, IMAGE, script[i].bytes, script[i].length, reply, sizeof reply);
        uint64_t b = ref_line(theirs, IMAGE, script[i].bytes, script[i].length, their_reply, sizeof their_reply);
        if (a != b || memcmp(image, theirs, IMAGE) != 0 || memcmp(reply, their_reply, (size_t)(a & 0xffff)) != 0)
            stop("a line", i);
    }
    for (unsigned i = 0; i < 2 * STATES; i++) {
        unsigned form = i / STATES, at = i % STATES, other = STATES - 1 - at, bytes = sheet_bytes[form][at];
        if (sides[0].sheet_write[form](states[at], IMAGE, sheet, sizeof sheet) != bytes || memcmp(sheet, sheets[form][at], bytes) != 0)
            stop("a sheet written", i);
        bytes = sheet_bytes[form][other];
        memcpy(image, states[at], IMAGE);
        memcpy(theirs, states[at], IMAGE);
        if (gsi_sheet_load(image, IMAGE, sheets[form][other], bytes) != 0 || ref_sheet_load(theirs, IMAGE, sheets[form][other], bytes) != 0)
            stop("a sheet loaded", i);
        if (memcmp(image, theirs, IMAGE) != 0)
            stop("the image that a sheet leaves", i);
    }
    for (unsigned i = 0; i < DEPTHS; i++) {
        uint64_t answers;
        memcpy(image, deep[i], IMAGE);
        answers = play_depth(&sides[0], i);
        if (memcmp(image, deep[i], IMAGE) != 0 || play_depth(&sides[1], i) != answers || memcmp(image, deep[i], IMAGE) != 0)
            stop("the lines at so many entries", depths[i]);
    }
}

/* Cases */

enum kind { READ, WRITE, PLAY, SHEET_WRITE, SHEET_LOAD, MEND, READ_ALIKE, WRITE_ALIKE, MEND_ALIKE, PLAY_DEPTH };

struct timed {
    const char *name;
    enum kind kind;
    unsigned which, passes;
};

static const struct timed wholes[] = {
    {"blocks read", READ, 0, 1},
    {"blocks written", WRITE, 0, 1},
    {"lines played", PLAY, 0, 1},
    {"sheets written", SHEET_WRITE, 0, 1},
    {"sheets loaded", SHEET_LOAD, 0, 1},
    {"a level's read", READ, LEVEL, 1},
    {"a level's written", WRITE, LEVEL, 1},
    {"blocks mended", MEND, 0, 1},
    {"a level's mended", MEND, LEVEL, 1},
    {"form 2 written", SHEET_WRITE, FORM_2, 1},
    {"form 2 loaded", SHEET_LOAD, FORM_2, 1},
};

enum { LEVEL_WHOLES = 2, MEND_WHOLES = 2, FORM_WHOLES = 2 };

/* Before a batch, outside the time that is measured: the script starts from the factory, and sheets are loaded over the script's images. */
static void prepare(enum kind kind)
{
    if (kind == PLAY)
        ref_factory(image, IMAGE);
    if (kind == SHEET_LOAD)
        memcpy(images, states, sizeof images);
}

static void play(const struct timed *t, const struct side *s)
{
    for (unsigned i = 0; i < t->passes; i++)
        switch (t->kind) {
        case READ:
            read_file(s, &mixed[t->which]);
            break;
        case WRITE:
            write_file(s, &mixed[t->which]);
            break;
        case PLAY:
            play_script(s);
            break;
        case SHEET_WRITE:
            write_sheets(s, t->which);
            break;
        case SHEET_LOAD:
            load_sheets(s, t->which);
            break;
        case MEND:
            mend_file(s, &mixed[t->which]);
            break;
        case READ_ALIKE:
            read_file(s, &alike[t->which / LENGTHS][t->which % LENGTHS]);
            break;
        case WRITE_ALIKE:
            write_file(s, &alike[t->which / LENGTHS][t->which % LENGTHS]);
            break;
        case MEND_ALIKE:
            mend_file(s, &alike[t->which / LENGTHS][t->which % LENGTHS]);
            break;
        case PLAY_DEPTH:
            sum += play_depth(s, t->which);
            break;
        }
}

/* Time: the thread's own processor time, so that other work on the machine counts as little as may be. */

static double now(void)
{
    struct timespec t;
    clock_gettime(3 /* CLOCK_THREAD_CPUTIME_ID */, &t);
    return (double)t.seconds * 1e9 + (double)t.nanoseconds;
}

enum { ROUNDS_MOST = 999, CASES_MOST = 2 * LENGTHS };
static double times[CASES_MOST][2][ROUNDS_MOST];
static unsigned rounds;

/* The cases of a table, both sides of each in turn and in either order by turns, for that many rounds. */
static void measure(const struct timed *t, unsigned cases)
{
    for (unsigned r = 0; r < rounds + 1; r++)
        for (unsigned c = 0; c < cases; c++)
            for (unsigned k = 0; k < 2; k++) {
                unsigned side = (k + r) % 2;
                double from;
                prepare(t[c].kind);
                from = now();
                play(&t[c], &sides[side]);
                /* the first round only warms up */
                if (r > 0)
                    times[c][side][r - 1] = (now() - from) / t[c].passes;
            }
}

/* Prints a row for table.awk: table, row, column, and the quotients of two rows of times, round by round: median, least, greatest. */
static void print_row(const char *table, const char *row, unsigned column, const double *over, const double *under)
{
    static double sorted[ROUNDS_MOST];

    for (unsigned r = 0; r < rounds; r++) {
        double q = over[r] / under[r];
        unsigned at = r;
        for (; at > 0 && sorted[at - 1] > q; at--)
            sorted[at] = sorted[at - 1];
        sorted[at] = q;
    }
    printf("%s\t%s\t%u\t%.3f\t%.3f\t%.3f\n", table, row, column, sorted[rounds / 2], sorted[0], sorted[rounds - 1]);
}

/* One table of growth: a kind of case at each size. */
static void grow(const char *table, enum kind kind, const unsigned *sizes, unsigned cases)
{
    struct timed t[CASES_MOST];

    for (unsigned c = 0; c < cases; c++)
        t[c] = (struct timed){table, kind, c, kind == PLAY_DEPTH ? 100 : 32 * 4 / sizes[c]};
    measure(t, cases);
    for (unsigned c = 0; c < cases; c++) {
        print_row(table, "library / C", sizes[c], times[c][0], times[c][1]);
        print_row(table, "library / library at the first", sizes[c], times[c][0], times[0][0]);
        print_row(table, "C / C at the first", sizes[c], times[c][1], times[0][1]);
    }
}

/* A level's block beside a total station's of as many words. */
static void beside(const char *table, enum kind kind)
{
    struct timed t[CASES_MOST];

    for (unsigned c = 0; c < 2 * LENGTHS; c++)
        t[c] = (struct timed){table, kind, c, 32 * 4 / lengths[c % LENGTHS]};
    measure(t, 2 * LENGTHS);
    for (unsigned c = 0; c < LENGTHS; c++) {
        print_row(table, "library / C", lengths[c], times[LENGTHS + c][0], times[LENGTHS + c][1]);
        print_row(table, "library / library at the station's", lengths[c], times[LENGTHS + c][0], times[c][0]);
        print_row(table, "C / C at the station's", lengths[c], times[LENGTHS + c][1], times[c][1]);
    }
}

/* A block mended that reads as it is, beside the same block read. */
static void beside_reading(const char *table)
{
    struct timed t[CASES_MOST];

    for (unsigned c = 0; c < 2 * LENGTHS; c++)
        t[c] = (struct timed){table, c < LENGTHS ? READ_ALIKE : MEND_ALIKE, c % LENGTHS, 32 * 4 / lengths[c % LENGTHS]};
    measure(t, 2 * LENGTHS);
    for (unsigned c = 0; c < LENGTHS; c++) {
        print_row(table, "library / C", lengths[c], times[LENGTHS + c][0], times[LENGTHS + c][1]);
        print_row(table, "library mending / library reading", lengths[c], times[LENGTHS + c][0], times[c][0]);
        print_row(table, "C mending / C reading", lengths[c], times[LENGTHS + c][1], times[c][1]);
    }
}

int main(int words, char **word)
{
    make_files(STATION);
    make_script();
    make_depths();
    make_files(LEVEL);

    if (words == 4) {
        for (unsigned c = 0; c < COUNT_OF(wholes); c++)
            if (strcmp(word[1], wholes[c].name) == 0) {
                /* no pass at all prepares too: what one pass takes is the difference */
                prepare(wholes[c].kind);
                for (int i = 0; i < atoi(word[3]); i++) {
                    if (i > 0)
                        prepare(wholes[c].kind);
                    play(&wholes[c], &sides[word[2][0] == 'C']);
                }
            }
        return 0;
    }

    const unsigned families = sides[1].read[LEVEL] ? 2 : 1;
    const int mends = sides[1].mend[STATION] != 0;
    const unsigned whole = COUNT_OF(wholes) - (sides[1].sheet_write[FORM_2] ? 0 : FORM_WHOLES) - (mends ? 0 : MEND_WHOLES) - (families == 2 ? 0 : LEVEL_WHOLES);

    for (unsigned family = 0; family < families; family++) {
        check_file(&mixed[family]);
        for (unsigned k = 0; k < LENGTHS; k++)
            check_file(&alike[family][k]);
    }
    check_script();
    printf("Both sides gave the same answers on %u blocks of %u words of %s, %u lines (%u accepted, %u undo entries standing at the average line) and %u sheets in each form.\n",
           mixed[STATION].blocks, (unsigned)mixed[STATION].words, families == 2 ? "each family" : "a total station", LINES, accepted, standing / LINES, STATES);

    rounds = words == 2 ? (unsigned)atoi(word[1]) : 0;
    if (rounds == 0 || rounds > ROUNDS_MOST)
        rounds = 15;
    measure(wholes, whole);
    for (unsigned c = 0; c < whole; c++)
        print_row("whole", wholes[c].name, 0, times[c][0], times[c][1]);
    grow("a block read, by its words", READ_ALIKE, lengths, LENGTHS);
    grow("a block written, by its words", WRITE_ALIKE, lengths, LENGTHS);
    if (families == 2) {
        beside("a level's block read, by its words", READ_ALIKE);
        beside("a level's block written, by its words", WRITE_ALIKE);
    }
    if (mends)
        beside_reading("a block mended, by its words");
    grow("a line, by the entries in the undo list", PLAY_DEPTH, depths, DEPTHS);
    return 0;
}
