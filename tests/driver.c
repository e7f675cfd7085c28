/* driver.c: sweeps the words and records of both families, minus nought wherever it may stand, the place that each refusal
   tells, spoiled blocks and their mending, and the settings, lines, sheets of either form and images of both series, makes cases
   by seed and compares the library (gsi_*) with the second implementation (ref_*): the answer, what it tells and every lent byte.
   Usage: driver CASES SEED, the sweeps not counted. Status 0 when there is no difference and every number was seen, each byte of
   a word told, each mixture of edits made, each rule that a PUT can break, minus nought in each function that may have it, wide
   replies, each line of a sheet told, undo lists of no entry, of some and of 64 loaded, and lists that no state has refused. */
#include "reference.h"

int printf(const char *, ...);
void exit(int);
void *memcpy(void *, const void *, size_t);
void *memmove(void *, const void *, size_t);
void *memset(void *, int, size_t);
int memcmp(const void *, const void *, size_t);
size_t strlen(const char *);

uint64_t gsi_read(const uint8_t *block, size_t n, ref_word *list, size_t places);
uint64_t gsi_write(const ref_word *list, size_t words, uint64_t wide, uint64_t crlf, uint8_t *block, size_t room);
uint64_t gsi_read_level(const uint8_t *block, size_t n, ref_word *list, size_t places);
uint64_t gsi_write_level(const ref_word *list, size_t words, uint64_t wide, uint64_t crlf, uint8_t *block, size_t room);
uint64_t gsi_mend(const uint8_t *block, size_t n, uint8_t *mended, size_t room, ref_edit *edits, size_t places);
uint64_t gsi_mend_level(const uint8_t *block, size_t n, uint8_t *mended, size_t room, ref_edit *edits, size_t places);
uint64_t gsi_image_size(void);
uint64_t gsi_image_size_300(void);
uint64_t gsi_factory(uint8_t *image, size_t n);
uint64_t gsi_factory_300(uint8_t *image, size_t n);
uint64_t gsi_line(uint8_t *image, size_t n, const uint8_t *line, size_t m, uint8_t *reply, size_t room);
uint64_t gsi_sheet_write(const uint8_t *image, size_t n, uint8_t *sheet, size_t room);
uint64_t gsi_sheet_load(uint8_t *image, size_t n, const uint8_t *sheet, size_t m);
uint64_t gsi_sheet_write_2(const uint8_t *image, size_t n, uint8_t *sheet, size_t room);
uint64_t gsi_sheet_move(const uint8_t *sheet, size_t m, uint8_t *moved, size_t room);
uint64_t gsi_sheet_back(const uint8_t *sheet, size_t m, uint8_t *moved, size_t room);

enum { CR = 13, LF = 10 };
enum { VALUES = 11, VALUE = 11, ENTRIES = 64, ENTRY = 14 };

#define COUNT_OF(array) (sizeof(array) / sizeof *(array))

/* The series */

enum { TPS100, TPS300, SERIES };
enum { MOST_SETTINGS = 30, MOST_IMAGE = 1050, MOST_REPLY = 459, MOST_SHEET = 441, MOST_SHEET_2 = 1864 };
enum { MOST_LINES = 3 + MOST_SETTINGS + VALUES + ENTRIES };

/* A series' settings in their order, where its image has what, its longest reply, its least and greatest sheet in either form. */
static const struct shape {
    const char *name;
    uint8_t mark;
    unsigned settings, of_73, of_137;
    size_t image, values, count, entries, reply, least_sheet, sheet, least_sheet_2, sheet_2;
    struct setting { uint8_t number, lowest, highest, read_only; } setting[MOST_SETTINGS];
} shapes[SERIES] = {
    {"TPS100", 1, 19, 10, 19, 1039, 20, 141, 143, 306, 187, 352, 201, 1775,
     {{30, 0, 1, 0}, {32, 0, 3, 0}, {34, 0, 1, 0}, {40, 0, 2, 0}, {41, 0, 1, 0}, {44, 0, 2, 0}, {49, 0, 1, 0}, {50, 0, 2, 0},
      {70, 0, 5, 0}, {71, 0, 2, 0}, {73, 0, 1, 0}, {76, 0, 1, 0}, {80, 0, 1, 0}, {81, 0, 2, 0}, {95, 0, 1, 0}, {102, 0, 1, 0},
      {103, 0, 1, 0}, {135, 0, 1, 0}, {136, 0, 1, 0}}},
    {"TPS300", 17, 30, 9, 25, 1050, 31, 152, 154, 459, 263, 441, 277, 1864,
     {{41, 0, 4, 0}, {42, 0, 1, 0}, {43, 0, 6, 0}, {50, 0, 4, 0}, {51, 0, 4, 0}, {55, 1, 10, 0}, {56, 1, 10, 0}, {70, 0, 6, 0},
      {71, 0, 2, 0}, {73, 0, 1, 0}, {75, 0, 1, 0}, {76, 0, 1, 0}, {78, 0, 50, 0}, {90, 0, 10, 1}, {91, 0, 100, 1}, {95, 0, 1, 0},
      {102, 0, 1, 0}, {103, 0, 1, 0}, {104, 0, 100, 0}, {105, 0, 100, 0}, {106, 0, 1, 0}, {120, 0, 1, 0}, {122, 0, 1, 1},
      {135, 0, 8, 0}, {136, 0, 127, 0}, {137, 0, 1, 0}, {160, 0, 1, 1}, {161, 0, 10, 0}, {170, 0, 1, 1}, {171, 0, 1, 0}}},
};

/* The series that the case at hand is made for, and its shape. */
static unsigned series;
static const struct shape *shape = shapes;

/* Chance */

static uint64_t chance_state;

/* splitmix64 */
static uint64_t next64(void)
{
    uint64_t z = chance_state += 0x9E3779B97F4A7C15u;
    z = (z ^ z >> 30) * 0xBF58476D1CE4E5B9u;
    z = (z ^ z >> 27) * 0x94D049BB133111EBu;
    return z ^ z >> 31;
}

/* A number from 0 to n-1. */
static unsigned below(size_t n)
{
    return (unsigned)((next64() >> 32) * n >> 32);
}

static int one_in(unsigned n)
{
    return below(n) == 0;
}

static char one_of(const char *characters)
{
    return characters[below(strlen(characters))];
}

#define PICK(array) ((array)[below(COUNT_OF(array))])

/* A length about what is needed: ample, just enough, one too short, or any. */
static size_t some_length(size_t need)
{
    switch (below(8)) {
    case 0:
        return need - (need > 0);
    case 1:
        return below(need + 4);
    case 2:
    case 3:
        return need;
    default:
        return need + below(6);
    }
}

/* A byte that is likely to matter somewhere: digits, signs, and the neighbours of each range's ends. */
static uint8_t telling_byte(uint8_t old)
{
    static const uint8_t ends[] = {0, 1, 2, 9, 10, 11, 12, 13, 14, 31, 32, 33, 34, 42, 43, 44, 45, 46, 47, 48, 49, 50, 51,
                                   52, 53, 54, 55, 56, 57, 58, 59, 95, 96, 97, 125, 126, 127, 128, 129, 254, 255};
    switch (below(6)) {
    case 0:
        return (uint8_t)below(256);
    case 1:
        return (uint8_t)(old + 1);
    case 2:
        return (uint8_t)(old - 1);
    case 3:
        return (uint8_t)one_of("0123456789.+- *");
    case 4:
        return (uint8_t)(old ^ 1u << below(8));
    default:
        return PICK(ends);
    }
}

/* One of the n bytes at p changed: to a telling one, or to one of the characters. (Each draw stands in a statement of
   its own, here and below, so that a seed means the same cases with every compiler.) */
static void change(uint8_t *p, size_t n)
{
    size_t at = below(n);
    p[at] = telling_byte(p[at]);
}

static void change_to(uint8_t *p, size_t n, const char *characters)
{
    size_t at = below(n);
    p[at] = (uint8_t)one_of(characters);
}

/* Lent memory */

enum { GUARD = 48, MOST = 2560, WHOLE = GUARD + 8 + MOST + GUARD };

/* One lent memory between guards: its contents before the call, and what each side made of its own copy. */
struct lent {
    const char *name;
    int input;
    size_t start, len, total;
    _Alignas(8) uint8_t before[WHOLE];
    _Alignas(8) uint8_t theirs[WHOLE];
    _Alignas(8) uint8_t ours[WHOLE];
};

static struct lent block = {.name = "block"}, list = {.name = "list"}, mended = {.name = "mended"}, edits = {.name = "edits"},
                   line = {.name = "line"}, reply = {.name = "reply"}, sheet = {.name = "sheet"}, moved = {.name = "moved"},
                   spare = {.name = "image"};

/* A run of each series goes on between the cases; run is that of the series at hand. */
static struct lent runs[SERIES] = {{.name = "image"}, {.name = "image"}}, *run = runs;

static void turn_to(unsigned of)
{
    series = of;
    shape = &shapes[of];
    run = &runs[of];
}

static uint8_t pool[1 << 16];

enum { IN = 1, ALIGNED = 2, BY_FOUR = 4 };

/* Lends len bytes to both sides. Contents given are followed by GUARD bytes of the caller's, so that bytes just past a
   cut are the tempting ones; none given means random prior contents. */
static void lend(struct lent *l, const void *content, size_t len, int how)
{
    l->start = GUARD + (how & ALIGNED ? 0 : how & BY_FOUR ? 4 * below(2) : below(8));
    l->len = len;
    l->total = l->start + len + GUARD;
    l->input = how & IN;
    memcpy(l->before, pool + below(sizeof pool - WHOLE), l->total);
    if (content)
        memcpy(l->before + l->start, content, how & IN ? len + GUARD : len);
    if (how & IN && one_in(8)) /* a line's end just before the input tempts too */
        memcpy(l->before + l->start - 2, one_in(2) ? "\r\n" : "\r\r", 2);
    memcpy(l->theirs, l->before, l->total);
    memcpy(l->ours, l->before, l->total);
}

/* One comparison */

/* READ, WRITE and MEND have each family's function at its place, the others each series'; what is not the factory's is one function
   that goes by the image, and is told apart here by the series that its case is made for. */
enum { STATION, LEVEL, FAMILIES };
enum {
    READ, WRITE = READ + FAMILIES, MEND = WRITE + FAMILIES, FACTORY = MEND + FAMILIES, LINE = FACTORY + SERIES,
    SHEET_WRITE = LINE + SERIES, SHEET_LOAD = SHEET_WRITE + SERIES, SHEET_WRITE_2 = SHEET_LOAD + SERIES,
    SHEET_MOVE = SHEET_WRITE_2 + SERIES, SHEET_BACK = SHEET_MOVE + SERIES, FUNCTIONS = SHEET_BACK + SERIES
};
static const char *const names[FUNCTIONS] = {
    "read", "read_level", "write", "write_level", "mend", "mend_level", "factory", "factory_300", "line", "TPS300 line", "sheet_write",
    "TPS300 sheet_write", "sheet_load", "TPS300 sheet_load", "sheet_write_2", "TPS300 sheet_write_2", "sheet_move", "TPS300 sheet_move",
    "sheet_back", "TPS300 sheet_back"};

/* The numbers of answers are below this one. */
enum { ANSWERS = 42 };
static uint64_t wanted, cases, seed, seen[FUNCTIONS][ANSWERS], with_nought[FUNCTIONS], wide_replies;

/* The refusals 5 to 10 by the byte of the word that they tell, in either width; the PUTs that 26 refuses by the rule that they
   break and by the byte of the line. */
static uint64_t told_at[FAMILIES][2][24], broken_rule[SERIES][11], broken_at[SERIES][20];

/* The blocks that were mended by the mixture of edits (bits: a dot, a blank, a CR), the edits by kind, and the most at once. */
enum { DOT = 1, BLANK = 2, RETURN = 3, KINDS_OF_EDIT = 3, MIXTURES = 1 << KINDS_OF_EDIT };
static uint64_t mixtures[FAMILIES][MIXTURES], edits_made[FAMILIES][KINDS_OF_EDIT], most_edits[FAMILIES];

/* The sheets loaded by form, and of form 2 by how many entries they have; their entries by what was there before; the lines that 40
   tells, by the form that the sheet is judged by; the lists that no state has, at loading and on the way back. */
enum { FORM_1, FORM_2, FORMS };
enum { PARAMETER, NEVER_PUT, VALUE_PUT, BEFORES };
static const char *const befores[BEFORES] = {"parameters", "values never put", "values put"};
static uint64_t loaded_by_form[SERIES][FORMS], lists_loaded[SERIES][ENTRIES + 1], entries_loaded[SERIES][BEFORES];
static uint64_t told_lines[SERIES][FORMS][MOST_LINES + 1], no_lists[SERIES][2];
static const char *kind_name;
static uint64_t *kind_count;
static int sweeping;

/* The family that the case at hand is made for. */
static unsigned family;

/* The case at hand, for the report. */
static struct {
    unsigned function;
    struct lent *lent[3];
    const char *argument[3];
    uint64_t value[3];
} now;

static void hex(const char *title, const uint8_t *p, size_t n)
{
    printf("  %s ", title);
    for (size_t i = 0; i < n; i++)
        printf("%02x", p[i]);
    printf("\n");
}

static void finish(void);

static void report(uint64_t theirs, uint64_t ours)
{
    printf("difference: %s, case %llu of seed %llu, %s\n", names[now.function], (unsigned long long)cases,
           (unsigned long long)seed, kind_name);
    printf("  library %llu telling %llu (%llx)\n", (unsigned long long)(theirs >> 32),
           (unsigned long long)(theirs & 0xFFFFFFFF), (unsigned long long)theirs);
    printf("  second  %llu telling %llu (%llx)\n", (unsigned long long)(ours >> 32),
           (unsigned long long)(ours & 0xFFFFFFFF), (unsigned long long)ours);
    for (int i = 0; i < 3 && now.argument[i]; i++)
        printf("  %s = %llu\n", now.argument[i], (unsigned long long)now.value[i]);
    for (int i = 0; i < 3 && now.lent[i]; i++) {
        const struct lent *l = now.lent[i];
        printf("  %s: %llu bytes\n", l->name, (unsigned long long)l->len);
        hex("before ", l->before + l->start, l->len);
        if (memcmp(l->theirs, l->before, l->total) != 0 || memcmp(l->ours, l->before, l->total) != 0) {
            hex("library", l->theirs + l->start, l->len);
            hex("second ", l->ours + l->start, l->len);
            for (size_t at = 0; at < l->len; at++)
                if (l->theirs[l->start + at] != l->ours[l->start + at]) {
                    printf("  first unlike byte of %s: %llu\n", l->name, (unsigned long long)at);
                    break;
                }
        }
        for (int side = 0; side < 2; side++) {
            const uint8_t *p = side ? l->ours : l->theirs;
            if (memcmp(p, l->before, l->start) != 0)
                printf("  guard before it changed by the %s\n", side ? "second" : "library");
            if (memcmp(p + l->start + l->len, l->before + l->start + l->len, GUARD) != 0)
                printf("  guard after it changed by the %s\n", side ? "second" : "library");
        }
    }
    exit(1);
}

static void unasked(const char *what, uint64_t got)
{
    printf("not what is asked: %s\n", what);
    report(got, got);
}

/* An input is as before; an output is alike on both sides, with its guards as before. */
static int alike(const struct lent *l)
{
    size_t end = l->start + l->len;
    if (memcmp(l->theirs, l->ours, l->total) != 0)
        return 0;
    if (l->input)
        return memcmp(l->theirs, l->before, l->total) == 0;
    return memcmp(l->theirs, l->before, l->start) == 0 && memcmp(l->theirs + end, l->before + end, GUARD) == 0;
}

static int records_have_nought(const uint8_t *records, size_t n)
{
    for (size_t i = 0; i < n; i++) {
        const ref_word *r = (const ref_word *)(const void *)records + i;
        if ((r->minus && r->size == 0) || (r->mm_minus && r->mm == 0))
            return 1;
    }
    return 0;
}

static int bytes_have_nought(const uint8_t *p, size_t n)
{
    for (size_t i = 0; i + 9 <= n; i++)
        if (p[i] == '-' && memcmp(p + i + 1, "00000000", 8) == 0)
            return 1;
    return 0;
}

/* Whether a minus nought was accepted in the case: among the records read or written, in what was mended, in the line or its reply,
   in the sheet. */
static int has_nought(uint64_t ours)
{
    size_t told = ours & 0xFFFFFFFF; /* of a line that is accepted the reply's bytes alone */
    if (ours >> 32 != 0)
        return 0;
    switch (now.function) {
    case READ + STATION:
    case READ + LEVEL:
        return records_have_nought(list.ours + list.start, told >> 16 & 255);
    case WRITE + STATION:
    case WRITE + LEVEL:
        return records_have_nought(list.before + list.start, list.len / sizeof(ref_word));
    case MEND + STATION:
    case MEND + LEVEL:
        return bytes_have_nought(mended.ours + mended.start, told & 0xFFFF);
    case LINE + TPS100:
    case LINE + TPS300:
        return bytes_have_nought(line.before + line.start, line.len) || bytes_have_nought(reply.ours + reply.start, told);
    case SHEET_WRITE + TPS100:
    case SHEET_WRITE + TPS300:
    case SHEET_WRITE_2 + TPS100:
    case SHEET_WRITE_2 + TPS300:
        return bytes_have_nought(sheet.ours + sheet.start, told);
    case SHEET_LOAD + TPS100:
    case SHEET_LOAD + TPS300:
        return bytes_have_nought(sheet.before + sheet.start, sheet.len);
    case SHEET_MOVE + TPS100:
    case SHEET_MOVE + TPS300:
    case SHEET_BACK + TPS100:
    case SHEET_BACK + TPS300:
        return bytes_have_nought(moved.ours + moved.start, told);
    default:
        return 0;
    }
}

/* Counts where a refusal of the reader, or a PUT's, was told. */
static void count_place(uint64_t ours)
{
    unsigned number = (unsigned)(ours >> 32), rule = ours >> 16 & 255, byte = ours >> 24 & 255;
    if (now.function < READ + FAMILIES && number >= 5 && number <= 10) {
        size_t wide = block.before[block.start] == '*', at = (ours & 0xFFFFFFFF) - wide;
        told_at[now.function - READ][wide][at % (wide ? 24 : 16)]++;
    }
    if (now.function >= LINE && now.function < LINE + SERIES && number == 26 && rule < 11 && byte < 20) {
        broken_rule[now.function - LINE][rule]++;
        broken_at[now.function - LINE][byte]++;
    }
}

/* Counts the edits of a block that was mended. */
static void count_edits(uint64_t ours)
{
    const ref_edit *edit = (const ref_edit *)(void *)(edits.ours + edits.start);
    unsigned of = now.function - MEND, mixture = 0;
    size_t count = ours >> 16 & 0xFFFF;
    if (ours >> 32 != 0 || now.function < MEND || now.function >= MEND + FAMILIES)
        return;
    for (size_t i = 0; i < count; i++) {
        edits_made[of][edit[i].kind - 1]++;
        mixture |= 1u << (edit[i].kind - 1);
    }
    mixtures[of][mixture]++;
    if (count > most_edits[of])
        most_edits[of] = count;
}

/* Whether a count that a state can have, and the line's end, stand there. */
static int has_count(const uint8_t *p, const uint8_t *end)
{
    const uint8_t *first = p;
    unsigned v = 0;
    while (p < end && p - first < 3 && *p >= '0' && *p <= '9')
        v = v * 10 + (unsigned)(*p++ - '0');
    return p > first && p < end && *p == LF && v <= ENTRIES && (p - first == 1 || *first != '0');
}

/* Counts a sheet that was loaded, or the line where 40 refuses one. */
static void count_sheet(uint64_t ours)
{
    int is_load = now.function >= SHEET_LOAD && now.function < SHEET_LOAD + SERIES;
    const uint8_t *p = sheet.before + sheet.start, *end = p + sheet.len, *told;
    unsigned of = (now.function - FACTORY) % SERIES, number = (unsigned)(ours >> 32), judged, at = 0;
    if (!is_load && now.function < SHEET_MOVE)
        return;
    judged = sheet.len >= 7 && memcmp(p, "form=2\n", 7) == 0 ? FORM_2 : FORM_1;
    if (!is_load)
        judged = now.function < SHEET_BACK ? FORM_1 : FORM_2;
    if (is_load && number == 0) {
        const uint8_t *image = now.lent[0]->ours + now.lent[0]->start, *e = image + shapes[of].entries;
        unsigned entries = image[shapes[of].count + 1];
        loaded_by_form[of][judged]++;
        lists_loaded[of][entries] += judged == FORM_2;
        for (unsigned i = 0; i < entries; i++, e += ENTRY)
            entries_loaded[of][e[0] == 1 ? PARAMETER : e[3] ? VALUE_PUT : NEVER_PUT]++;
    }
    if (number != 40)
        return;
    for (told = p; told < p + (ours & 0xFFFFFFFF); told++)
        at += *told == LF;
    told_lines[of][judged][at < MOST_LINES ? at : MOST_LINES]++;
    /* A right line `undo=` is told for the list's sake alone. */
    if (judged == FORM_2 && end - told > 5 && memcmp(told, "undo=", 5) == 0)
        no_lists[of][!is_load] += (uint64_t)has_count(told + 5, end);
}

static void compare(uint64_t theirs, uint64_t ours)
{
    cases += !sweeping;
    ++*kind_count;
    if (theirs != ours)
        report(theirs, ours);
    for (int i = 0; i < 3 && now.lent[i]; i++)
        if (!alike(now.lent[i]))
            report(theirs, ours);
    if (ours >> 32 < ANSWERS)
        seen[now.function][ours >> 32] += !sweeping;
    if (!sweeping)
        with_nought[now.function] += (uint64_t)has_nought(ours);
    if (!sweeping)
        count_place(ours);
    if (!sweeping)
        count_edits(ours);
    if (!sweeping)
        count_sheet(ours);
    if (!sweeping && now.function == LINE + TPS300 && ours >> 32 == 0)
        wide_replies += reply.ours[reply.start] == '*';
    if (cases == wanted)
        finish();
}

static void begin(unsigned function, struct lent *a, struct lent *b)
{
    memset(&now, 0, sizeof now);
    now.function = function;
    now.lent[0] = a;
    now.lent[1] = b;
}

static void argue(int place, const char *name, uint64_t value)
{
    now.argument[place] = name;
    now.value[place] = value;
}

/* Where a case's input is made. */
static uint8_t src[MOST + GUARD];
static size_t len;

enum { THEIRS, OURS };
static uint64_t (*const read_by[FAMILIES][2])(const uint8_t *block, size_t n, ref_word *list, size_t places) = {
    {gsi_read, ref_read}, {gsi_read_level, ref_read_level}};
static uint64_t (*const write_by[FAMILIES][2])(const ref_word *list, size_t words, uint64_t wide, uint64_t crlf, uint8_t *block,
                                               size_t room) = {{gsi_write, ref_write}, {gsi_write_level, ref_write_level}};

/* Reads the lent block into the lent list. */
static uint64_t read_lent(unsigned of, size_t places)
{
    uint64_t theirs, ours;
    begin(READ + of, &block, &list);
    argue(0, "places", places);
    theirs = read_by[of][THEIRS](block.theirs + block.start, block.len, (ref_word *)(void *)(list.theirs + list.start), places);
    ours = read_by[of][OURS](block.ours + block.start, block.len, (ref_word *)(void *)(list.ours + list.start), places);
    compare(theirs, ours);
    return ours;
}

/* The records of the writer's cases; beyond the 34 there is memory for the guard. */
static ref_word records[36];

/* "0 is no, any other number is yes" */
static uint64_t yes_or_no(int yes)
{
    static const uint64_t yeses[] = {1, 1, 1, 2, 255, 256, UINT64_C(1) << 32, UINT64_C(1) << 63, UINT64_MAX, 65536};
    return yes ? PICK(yeses) : 0;
}

static uint64_t write_of(unsigned of, size_t words, int is_wide, int is_crlf, size_t room)
{
    uint64_t wide = yes_or_no(is_wide), crlf = yes_or_no(is_crlf), theirs, ours;
    begin(WRITE + of, &list, &block);
    argue(0, "words", words);
    argue(1, "wide", wide);
    argue(2, "crlf", crlf);
    lend(&list, records, words * sizeof(ref_word), IN | ALIGNED);
    lend(&block, 0, room, 0);
    theirs = write_by[of][THEIRS]((const ref_word *)(void *)(list.theirs + list.start), words, wide, crlf, block.theirs + block.start, room);
    ours = write_by[of][OURS]((const ref_word *)(void *)(list.ours + list.start), words, wide, crlf, block.ours + block.start, room);
    compare(theirs, ours);
    return ours;
}

/* Writes the records back that the library read from src: the same bytes. */
static void write_back(unsigned of, uint64_t read)
{
    size_t bytes = read & 0xFFFF, words = read >> 16 & 255;
    uint64_t wrote;
    memcpy(records, list.theirs + list.start, words * sizeof(ref_word));
    wrote = write_of(of, words, read >> 24 & 1, read >> 25 & 1, bytes);
    if (wrote != bytes || memcmp(block.theirs + block.start, src, bytes) != 0) {
        hex("doesn't write back", src, bytes);
        report(wrote, wrote);
    }
}

static void read_of(unsigned of, size_t n, size_t places)
{
    uint64_t read;
    lend(&block, src, n, IN);
    lend(&list, 0, places * sizeof(ref_word), ALIGNED);
    read = read_lent(of, places);
    if (read >> 32 == 0 && (sweeping || one_in(4)))
        write_back(of, read);
}

/* The family's case goes to the other family's function at times. */
static void check_read(size_t n, size_t places)
{
    read_of(family, n, places);
    if (one_in(8))
        read_of(!family, n, places);
}

static void check_write(size_t words, int wide, int crlf, size_t room)
{
    write_of(family, words, wide, crlf, room);
    if (one_in(8))
        write_of(!family, words, wide, crlf, room);
}

/* An image goes on from call to call, one on each side; what stands there is then "before". */
static void renew(struct lent *image)
{
    memcpy(image->before, image->theirs, image->total);
    image->input = 0;
}

static uint64_t (*const factory_by[SERIES][2])(uint8_t *image, size_t n) = {
    {gsi_factory, ref_factory}, {gsi_factory_300, ref_factory_300}};

static uint64_t check_factory(struct lent *image, unsigned of)
{
    uint64_t theirs, ours;
    begin(FACTORY + of, image, 0);
    renew(image);
    theirs = factory_by[of][THEIRS](image->theirs + image->start, image->len);
    ours = factory_by[of][OURS](image->ours + image->start, image->len);
    compare(theirs, ours);
    return ours;
}

/* Plays the line in src. */
static uint64_t check_line(struct lent *image, size_t m, size_t room)
{
    uint64_t theirs, ours;
    begin(LINE + series, image, &line);
    now.lent[2] = &reply;
    renew(image);
    lend(&line, src, m, IN);
    lend(&reply, 0, room, 0);
    theirs = gsi_line(image->theirs + image->start, image->len, line.theirs + line.start, m, reply.theirs + reply.start, room);
    ours = ref_line(image->ours + image->start, image->len, line.ours + line.start, m, reply.ours + reply.start, room);
    compare(theirs, ours);
    return ours;
}

/* 106: "Both forms load; the caller says which is written." */
static uint64_t (*const sheet_write_by[FORMS][2])(const uint8_t *image, size_t n, uint8_t *sheet, size_t room) = {
    {gsi_sheet_write, ref_sheet_write}, {gsi_sheet_write_2, ref_sheet_write_2}};

static uint64_t write_sheet(unsigned form, struct lent *image, size_t room)
{
    uint64_t theirs, ours;
    begin((form == FORM_2 ? SHEET_WRITE_2 : SHEET_WRITE) + series, image, &sheet);
    renew(image);
    image->input = 1;
    lend(&sheet, 0, room, 0);
    theirs = sheet_write_by[form][THEIRS](image->theirs + image->start, image->len, sheet.theirs + sheet.start, room);
    ours = sheet_write_by[form][OURS](image->ours + image->start, image->len, sheet.ours + sheet.start, room);
    compare(theirs, ours);
    return ours;
}

static uint64_t check_sheet_write(struct lent *image, size_t room)
{
    return write_sheet(FORM_1, image, room);
}

static uint64_t check_sheet_write_2(struct lent *image, size_t room)
{
    return write_sheet(FORM_2, image, room);
}

/* Loads the sheet in src. */
static uint64_t check_sheet_load(struct lent *image, size_t m)
{
    uint64_t theirs, ours;
    begin(SHEET_LOAD + series, image, &sheet);
    renew(image);
    lend(&sheet, src, m, IN);
    theirs = gsi_sheet_load(image->theirs + image->start, image->len, sheet.theirs + sheet.start, m);
    ours = ref_sheet_load(image->ours + image->start, image->len, sheet.ours + sheet.start, m);
    compare(theirs, ours);
    return ours;
}

/* By the form that a sheet is moved from. */
static uint64_t (*const sheet_move_by[FORMS][2])(const uint8_t *sheet, size_t m, uint8_t *moved, size_t room) = {
    {gsi_sheet_move, ref_sheet_move}, {gsi_sheet_back, ref_sheet_back}};

static uint64_t move_sheet(unsigned from, size_t m, size_t room)
{
    uint64_t theirs, ours;
    begin((from == FORM_2 ? SHEET_BACK : SHEET_MOVE) + series, &sheet, &moved);
    lend(&sheet, src, m, IN);
    lend(&moved, 0, room, 0);
    theirs = sheet_move_by[from][THEIRS](sheet.theirs + sheet.start, m, moved.theirs + moved.start, room);
    ours = sheet_move_by[from][OURS](sheet.ours + sheet.start, m, moved.ours + moved.start, room);
    compare(theirs, ours);
    return ours;
}

/* Moves the sheet in src to form 2, and back to form 1. */
static uint64_t check_sheet_move(size_t m, size_t room)
{
    return move_sheet(FORM_1, m, room);
}

static uint64_t check_sheet_back(size_t m, size_t room)
{
    return move_sheet(FORM_2, m, room);
}

/* Words */

/* The indexes of each family by kind; a level's numbers are m. */
struct row {
    char kind;
    uint8_t count;
    uint16_t index[24];
};
static const struct row rows[FAMILIES][7] = {
    {{'n', 2, {11, 41}},
     {'t', 24, {12, 13, 16, 18, 19, 42, 43, 44, 45, 46, 47, 48, 49, 52, 53, 71, 72, 73, 74, 75, 76, 77, 78, 79}},
     {'a', 3, {21, 22, 24}},
     {'l', 12, {31, 32, 33, 34, 81, 82, 83, 84, 85, 86, 87, 88}},
     {'c', 2, {58, 59}},
     {'p', 1, {51}},
     {0, 0, {0}}},
    {{'n', 2, {11, 41}},
     {'t', 11, {42, 43, 44, 45, 46, 47, 48, 49, 52, 57, 521}},
     {'m', 14, {32, 83, 330, 331, 332, 333, 334, 335, 336, 374, 571, 572, 573, 574}},
     {0, 0, {0}}},
};

static unsigned index_of_kind(unsigned of, char kind)
{
    const struct row *row = rows[of];
    while (row->kind != kind)
        row++;
    return row->index[below(row->count)];
}

/* An index of the family, its kinds about alike in number: n, t, a, l, c, p or m. */
static unsigned some_index(unsigned of, char *kind)
{
    *kind = one_of(of == LEVEL ? "nttmmmm" : "nttaaallcpp");
    return index_of_kind(of, *kind);
}

/* The kind of an index of the family, 0 when it has none. */
static char kind_of(unsigned of, unsigned index)
{
    for (const struct row *row = rows[of]; row->kind; row++)
        for (unsigned i = 0; i < row->count; i++)
            if (row->index[i] == index)
                return row->kind;
    return 0;
}

static void digits(uint8_t *p, size_t n, uint64_t value)
{
    for (; n > 0; value /= 10)
        p[--n] = (uint8_t)('0' + value % 10);
}

static uint64_t power_of_ten(unsigned n)
{
    uint64_t p = 1;
    while (n-- > 0)
        p *= 10;
    return p;
}

/* A size below the limit, often at one of its ends. */
static uint64_t some_size(uint64_t limit)
{
    switch (below(8)) {
    case 0:
        return 0;
    case 1:
        return 1;
    case 2:
        return limit - 1;
    case 3:
        return (limit - 1) - below(limit < 10 ? limit : 10);
    case 4: {
        uint64_t about = power_of_ten(1 + below(16));
        return next64() % about % limit;
    }
    default:
        return next64() % limit;
    }
}

/* A number of that many digits about the limit and about the places where a narrower number would wrap. */
static uint64_t edge_size(uint64_t limit, unsigned width)
{
    uint64_t all = power_of_ten(width), v, times;
    switch (below(10)) {
    case 0:
        v = 0;
        break;
    case 1:
        v = limit - 1;
        break;
    case 2:
        v = limit;
        break;
    case 3:
        v = limit + 1;
        break;
    case 4:
        v = all - 1;
        break;
    case 5:
        times = below(1000);
        v = (UINT64_C(1) << 32) * times + next64() % limit;
        break;
    case 6:
        times = power_of_ten(below(9));
        v = limit * times - below(2);
        break;
    case 7:
        times = below(4);
        v = next64() % limit + limit * times;
        break;
    case 8:
        v = power_of_ten(below(width + 1));
        v -= below(2);
        break;
    default:
        v = next64();
        break;
    }
    return v % all;
}

static void text(uint8_t *p, size_t n)
{
    for (size_t i = 0; i < n; i++)
        p[i] = one_in(4) ? (uint8_t)one_of("!~0A*.+-\"}") : (uint8_t)(33 + below(94));
}

static uint64_t angle_limit(uint8_t unit)
{
    return unit == '2' ? 40000000 : unit == '3' ? 36000000 : 64000000;
}

/* Angle digits: right ones, or at the edge of each field. */
static void angle_data(uint8_t *p, unsigned width, uint8_t unit, int edge)
{
    uint64_t v;
    if (unit != '4') {
        v = edge ? edge_size(angle_limit(unit), width) : some_size(angle_limit(unit));
    } else if (edge) {
        static const uint64_t degrees[] = {0, 1, 359, 360, 361, 999, 1000, 1359, 99999999999, 4294967296, 4294967655, 65536, 256};
        static const uint8_t sixty[] = {0, 1, 59, 60, 61, 99};
        v = PICK(degrees);
        v = v * 100 + PICK(sixty);
        v = v * 100 + PICK(sixty);
        v = v * 10 + below(10);
        v %= power_of_ten(width);
    } else {
        v = some_size(360);
        v = v * 100 + some_size(60);
        v = v * 100 + some_size(60);
        v = v * 10 + some_size(10);
    }
    digits(p, width, v);
}

static void lay_index(uint8_t *w, unsigned index)
{
    digits(w, index < 100 ? 2 : 3, index);
}

/* What may stand at positions 4, 5 and 6 of each kind of number. */
static const struct form { char kind; const char *fourth, *fifth, *units; } forms[] = {
    {'a', ".013", ".01234", "2345"},
    {'l', ".", ".01234", "01678"},
    {'c', ".", ".01234", "6"},
    {'p', ".", ".01234", "."},
    {'m', ".1", ".0124567", "016789"},
};

/* The form of the kind, 0 for text. */
static const struct form *form_of(char kind)
{
    for (size_t i = 0; i < COUNT_OF(forms); i++)
        if (forms[i].kind == kind)
            return &forms[i];
    return 0;
}

/* What is wrong first in a word. 104: "Refusals 5 to 10 tell the exact byte: the first that breaks the rule, and for 10 the first
   data byte"; 15 tells "the start of the word". The rows and forms above say it here once more, so that a place which both
   sides miss is seen too. */

static const char figures[] = "0123456789", dot_or_figure[] = ".0123456789";

static int among(const char *characters, uint8_t b)
{
    for (; *characters; characters++)
        if ((uint8_t)*characters == b)
            return 1;
    return 0;
}

static int out_of_range(uint8_t unit, const uint8_t *p, unsigned width)
{
    uint64_t v = 0;
    for (unsigned i = 0; i < width; i++)
        v = v * 10 + (uint64_t)(p[i] - '0');
    if (unit != '4')
        return v >= angle_limit(unit);
    return v / 100000 >= 360 || v / 1000 % 100 >= 60 || v / 10 % 100 >= 60;
}

/* From the sign on: 7 to 10, or 0, and the byte from the word's start. */
static unsigned blame_rest(char kind, const uint8_t *w, unsigned width, size_t *byte)
{
    int is_text = kind == 'n' || kind == 't';
    *byte = 6;
    if (!among(is_text ? "+" : "+-", w[6]))
        return 7;
    for (*byte = 7; *byte < 7 + width; ++*byte) {
        uint8_t b = w[*byte];
        if (is_text ? b < 33 || b > 126 : !among(kind == 'p' && *byte == 7 + width - 4 ? "+-" : figures, b))
            return 8;
    }
    if (w[*byte] != ' ')
        return 9;
    *byte = 7;
    return kind == 'a' && out_of_range(w[5], w + 7, width) ? 10 : 0;
}

/* The whole word of the family: 5, 15, 6 to 10, or 0. */
static unsigned blame(unsigned of, const uint8_t *w, unsigned width, size_t *byte)
{
    const struct form *form;
    unsigned index, taken = 2;
    char kind;

    for (*byte = 0; *byte < 2; ++*byte)
        if (!among(figures, w[*byte]))
            return 5;
    *byte = 0;
    index = (w[0] - '0') * 10u + (w[1] - '0');
    kind = kind_of(of, index);
    if (of == LEVEL && kind != 'n' && among(figures, w[2])) {
        index = index * 10 + (w[2] - '0');
        kind = index < 100 ? 0 : kind_of(of, index);
        taken = 3;
    }
    if (!kind)
        return 15;
    form = form_of(kind);
    for (*byte = taken; *byte < 6; ++*byte) {
        const char *may = dot_or_figure;
        if (kind == 'n')
            may = w[2] == '.' ? "." : figures;
        else if (*byte == 2)
            may = ".";
        else if (form)
            may = *byte == 3 ? form->fourth : *byte == 4 ? form->fifth : form->units;
        if (!among(may, w[*byte]))
            return 6;
    }
    return blame_rest(kind, w, width, byte);
}

/* Minus nought in the word of a number: for a pair in either half or in both. */
static void lay_nought(uint8_t *w, unsigned width, char kind)
{
    unsigned halves = kind == 'p' ? 1 + below(3) : 1;
    if (halves & 1) {
        w[6] = '-';
        memset(w + 7, '0', kind == 'p' ? width - 4 : width);
    }
    if (halves & 2)
        memcpy(w + 7 + width - 4, "-000", 4);
}

/* A word with its blank: right, or with a right form and data at the edges (some angles wrong). */
static void word_of(uint8_t *w, unsigned width, char kind, unsigned index, int edge)
{
    const struct form *form = form_of(kind);
    uint8_t *info = w + 2, *data = w + 7;

    memcpy(info, "....", 4);
    if (form) {
        info[1] = (uint8_t)one_of(form->fourth);
        info[2] = (uint8_t)one_of(form->fifth);
        info[3] = (uint8_t)one_of(form->units);
    }
    lay_index(w, index);
    w[6] = '+';
    w[7 + width] = ' ';
    switch (kind) {
    case 'n':
        if (one_in(2))
            digits(info, 4, one_in(4) ? 9999 : below(10000));
        text(data, width);
        return;
    case 't':
        for (int i = 1; i < 4; i++)
            info[i] = (uint8_t)one_of("...0123456789");
        text(data, width);
        return;
    case 'a':
        angle_data(data, width, info[3], edge);
        break;
    case 'p':
        digits(data, width - 4, edge && one_in(2) ? 0 : some_size(power_of_ten(width - 4)));
        digits(data + width - 3, 3, edge && one_in(2) ? 0 : some_size(1000));
        data[width - 4] = one_in(2) ? '-' : '+';
        break;
    default:
        digits(data, width, edge && one_in(3) ? 0 : some_size(power_of_ten(width)));
        break;
    }
    if (one_in(2))
        w[6] = '-';
    if (one_in(8))
        lay_nought(w, width, kind);
}

/* A block in src, of that many words; what follows it is tempting. */
static unsigned block_words, block_wide;

static size_t word_start(size_t word)
{
    return block_wide + word * (block_wide ? 24 : 16);
}

/* edges is 0 for right words, else one block in that many has words at the edges. */
static void make_block(unsigned words, unsigned edges)
{
    int edge = edges && one_in(edges);
    block_words = words;
    block_wide = below(2);
    if (block_wide)
        src[0] = '*';
    for (unsigned i = 0; i < words; i++) {
        char kind;
        unsigned index = some_index(family, &kind);
        word_of(src + word_start(i), block_wide ? 16 : 8, kind, index, edge && one_in(4));
    }
    len = word_start(words);
    src[len++] = CR;
    if (one_in(2))
        src[len++] = LF;
    /* Bytes after the terminator. */
    for (unsigned i = 0, more = one_in(2) ? 0 : below(20); i < more; i++)
        src[len++] = (uint8_t)(one_in(4) ? one_of("\r\n *1") : (int)below(256));
}

static unsigned some_words(void)
{
    switch (below(8)) {
    case 0:
        return 32;
    case 1:
        return 1 + below(32);
    case 2:
        return 31;
    default:
        return 1 + below(4);
    }
}

static size_t some_places(void)
{
    return one_in(6) ? below(34) : one_in(4) ? block_words : 32 + below(2);
}

/* One byte of src[from, to) substituted, deleted or inserted; len follows. */
static void damage(size_t from, size_t to)
{
    size_t at = from + below(to - from);
    switch (below(6)) {
    case 0:
        memmove(src + at, src + at + 1, len - at - 1);
        len--;
        break;
    case 1:
        memmove(src + at + 1, src + at, len - at);
        len++;
        src[at] = telling_byte(src[at]);
        break;
    default:
        src[at] = telling_byte(src[at]);
        break;
    }
}

/* Cases of the reader */

static void read_right(void)
{
    make_block(some_words(), 0);
    check_read(len, one_in(8) ? block_words : some_places());
}

static void read_one_wrong(void)
{
    make_block(some_words(), 0);
    damage(0, len);
    if (one_in(4))
        damage(0, len);
    check_read(len, some_places());
}

/* Each value of one byte of a short block. */
static void read_each_value(void)
{
    size_t at;
    make_block(1 + below(2), 4);
    at = below(word_start(block_words) + 2);
    for (unsigned b = 0; b < 256; b++) {
        src[at] = (uint8_t)b;
        check_read(len, 32);
    }
}

/* Positions 3-6 from their own alphabet, for any index. */
static void read_info(void)
{
    unsigned at, width, index;
    char kind;
    make_block(1 + below(3), 0);
    at = below(block_words);
    width = block_wide ? 16 : 8;
    at = (unsigned)word_start(at);
    switch (below(6)) {
    case 0: /* any two or three digits over right information */
        lay_index(src + at, below(one_in(2) ? 100 : 1000));
        break;
    case 1: /* another index of either family over it */
        lay_index(src + at, some_index(below(FAMILIES), &kind));
        break;
    case 2: /* a neighbour of a level's index */
        index = some_index(LEVEL, &kind);
        lay_index(src + at, index + below(3) - 1);
        break;
    case 3:
        change(src + at, 3);
        break;
    case 4:
        for (int i = 0; i < 4; i++)
            src[at + 2 + i] = (uint8_t)one_of(one_in(2) ? "." : "0123456789.");
        break;
    default:
        change_to(src + at + 2, 4, "0123456789./:-+ ");
        break;
    }
    if (one_in(8))
        src[at + 7 + width] = telling_byte(' ');
    check_read(len, 32);
}

static void read_cut(void)
{
    make_block(one_in(60) ? 33 : 1 + below(3), 4);
    for (size_t n = 0; n <= len; n++)
        check_read(n, one_in(16) ? below(34) : 33);
}

static void swap(uint8_t *a, uint8_t *b, size_t n)
{
    for (size_t i = 0; i < n; i++) {
        uint8_t t = a[i];
        a[i] = b[i];
        b[i] = t;
    }
}

/* One to three bytes of one word changed, so that the order of its refusals and their places count; at times in a later word
   too. */
static void read_wrong_places(void)
{
    size_t each, word;
    make_block(some_words(), 4);
    each = block_wide ? 24 : 16;
    word = below(block_words);
    for (unsigned i = 1 + below(3); i > 0; i--) {
        uint8_t *w = src + word_start(word);
        switch (below(4)) {
        case 0: /* the index, or position 3 */
            change(w, 3);
            break;
        case 1:
            change_to(w + 2, 4, "0123456789./:x");
            break;
        default:
            change(w + 2, each - 2);
            break;
        }
        if (one_in(8))
            word = below(block_words);
    }
    check_read(len, some_places());
}

/* Words exchanged, or one field of two words; often with a wrong word among them. */
static void read_exchanged(void)
{
    size_t a, b, width;
    make_block(2 + below(31), 0);
    width = block_wide ? 16 : 8;
    if (one_in(2))
        change(src + word_start(below(block_words)), width + 8);
    a = word_start(below(block_words));
    b = word_start(below(block_words));
    switch (below(6)) {
    case 0:
        swap(src + a, src + b, 2 + below(2));
        break;
    case 1:
        swap(src + a + 2, src + b + 2, 4);
        break;
    case 2:
        swap(src + a + 6, src + b + 6, 1);
        break;
    case 3:
        swap(src + a + 7, src + b + 7, width);
        break;
    default:
        swap(src + a, src + b, width + 8);
        break;
    }
    check_read(len, some_places());
}

static void read_33(void)
{
    make_block(32 + below(3), 0);
    if (one_in(3))
        damage(word_start(31), len);
    if (one_in(3))
        len = word_start(32) - 1 + below(4);
    check_read(len, one_in(2) ? 33 : 30 + below(5));
}

static void read_places(void)
{
    make_block(one_in(2) ? 33 : 1 + below(33), 8);
    if (one_in(4))
        damage(0, len);
    for (size_t places = 0; places <= 33; places++)
        check_read(len, places);
}

/* A word of the other family among the family's own. */
static void read_mixed(void)
{
    char kind;
    unsigned index;
    make_block(some_words(), 0);
    index = some_index(!family, &kind);
    word_of(src + word_start(below(block_words)), block_wide ? 16 : 8, kind, index, 0);
    check_read(len, some_places());
}

/* Data at the limits and just beyond, angles most often, with a wrong blank at times to see the order. */
static void read_edges(void)
{
    char kind;
    unsigned index = some_index(family, &kind);
    make_block(1 + below(3), 4);
    if (family == STATION && one_in(2)) {
        kind = 'a';
        index = index_of_kind(family, kind);
    }
    word_of(src + word_start(block_words - 1), block_wide ? 16 : 8, kind, index, 1);
    if (one_in(8))
        src[word_start(block_words) - 1] = telling_byte(' ');
    check_read(len, 32);
}

static void read_random(void)
{
    len = below(one_in(10) ? 900 : 60);
    for (size_t i = 0; i < len + GUARD; i++)
        src[i] = (uint8_t)(one_in(3) ? below(256) : (unsigned)one_of("0123456789.+- *\r\n"));
    check_read(len, below(34));
}

/* Cases of the writer */

/* Records got by reading a right block. */
static unsigned make_records(unsigned words)
{
    do {
        make_block(words > 32 ? 32 : words, 0);
    } while (read_by[family][OURS](src, len, records, 32) >> 32 != 0);
    for (unsigned i = 32; i < words; i++)
        records[i] = records[i - 32];
    return words;
}

static size_t block_length(size_t words, int wide, int crlf)
{
    return words * (wide ? 24 : 16) + (wide ? 2 : 1) + (crlf ? 1 : 0);
}

/* Writes the records with a room about the block's length. */
static void write_about(unsigned words, int wide)
{
    int crlf = one_in(2);
    size_t need = block_length(words, wide, crlf), room = need + below(6);
    if (one_in(4))
        room = need - 1 + below(2);
    else if (one_in(10))
        room = below(need + 4);
    check_write(words, wide, crlf, room);
}

static void write_right(void)
{
    unsigned words = make_records(some_words());
    write_about(words, (int)block_wide);
}

static uint64_t extreme(void)
{
    static const uint64_t sizes[] = {0, 1, 999, 1000, 9999, 10000, 12959999, 12960000, 12960001, 35999999, 36000000, 39999999,
                                     40000000, 63999999, 64000000, 99999999, 100000000, 999999999999, 1000000000000,
                                     9999999999999999, 10000000000000000, 4294967295, 4294967296, 4294967297, UINT64_MAX,
                                     UINT64_C(1) << 63, (UINT64_C(1) << 63) - 1};
    uint64_t v = PICK(sizes);
    if (one_in(4))
        v += (uint64_t)below(3) - 1;
    if (one_in(16))
        v += UINT64_C(1) << (32 + below(32));
    return v;
}

static void damage_record(ref_word *r)
{
    static const uint16_t indexes[] = {0, 1, 10, 99, 100, 101, 110, 111, 119, 121, 255, 256, 267, 329, 337, 373, 375,
                                       410, 419, 520, 522, 570, 575, 999, 1000, 65535};
    static const uint8_t firsts[] = {0, 0, '.', '.', '0', '1', '/', ':', ' ', 255};
    static const uint8_t signs[] = {0, 1, 1, 1, 2, 3, '+', '-', 128, 255};
    char kind;
    switch (below(18)) {
    case 0:
        r->index = one_in(2) ? (uint16_t)below(1000) : PICK(indexes);
        break;
    case 1:
        r->index = (uint16_t)(r->index + 100 * (1 + below(600)));
        break;
    case 10:
        r->index = (uint16_t)(r->index + 256 * (1 + below(255)));
        break;
    case 2:
        r->index = (uint16_t)some_index(below(FAMILIES), &kind);
        break;
    case 11: /* three digits for two and two for three, the first byte of the information often following */
        r->index = (uint16_t)(r->index < 100 ? r->index * 10 + below(10) : r->index / 10);
        if (one_in(2))
            r->info[0] = r->index < 100 ? '.' : 0;
        break;
    case 12:
        r->index = (uint16_t)(r->index + below(3) - 1);
        break;
    case 13:
        r->info[0] = PICK(firsts);
        break;
    case 14: /* another index of the family with the first byte that suits it */
        r->index = (uint16_t)some_index(family, &kind);
        r->info[0] = r->index < 100 ? '.' : 0;
        break;
    case 3:
        change_to(r->info, 4, "0123456789./:");
        break;
    case 4:
        change(r->info, 4);
        break;
    case 5:
        r->minus = PICK(signs);
        break;
    case 6:
        r->mm_minus = PICK(signs);
        break;
    case 7:
        r->size = extreme();
        break;
    case 8:
        r->mm = extreme();
        break;
    case 9: /* minus nought, which text can't have */
        r->minus = 1;
        r->size = 0;
        break;
    case 15: /* the same of mm, which only a pair has */
        r->mm_minus = 1;
        r->mm = 0;
        break;
    default: {
        unsigned at = below(16);
        r->text[at] = one_in(3) ? 0 : telling_byte(r->text[at]);
        break;
    }
    }
}

static void write_one_wrong(void)
{
    unsigned words = make_records(some_words());
    damage_record(&records[below(words)]);
    if (one_in(6))
        damage_record(&records[below(words)]);
    write_about(words, (int)block_wide);
}

/* Sizes at the limits for either width, each kind and unit. */
static void write_extremes(void)
{
    unsigned words = make_records(1 + below(3));
    for (unsigned i = 0; i < words; i++) {
        ref_word *r = &records[i];
        if (r->text[0] == 0) {
            r->size = one_in(8) ? 0 : extreme();
            r->minus = (uint8_t)below(2);
            if (r->index == 51) {
                r->mm = one_in(8) ? 0 : extreme();
                r->mm_minus = (uint8_t)below(2);
                if (one_in(2))
                    r->size = some_size(10000);
                else if (one_in(2))
                    r->mm = some_size(1000);
            }
        } else if (one_in(2)) {
            change(r->text, 16);
        }
    }
    write_about(words, one_in(2));
}

/* A record of the other family among the family's own. */
static void write_mixed(void)
{
    ref_word other;
    unsigned words;
    family = !family;
    make_records(1);
    other = records[0];
    family = !family;
    words = make_records(some_words());
    records[below(words)] = other;
    write_about(words, (int)block_wide);
}

static void write_other_width(void)
{
    unsigned words = make_records(1 + below(3));
    write_about(words, !block_wide);
}

static void write_counts(void)
{
    unsigned most = make_records(34);
    int wide = one_in(4) ? !block_wide : (int)block_wide;
    if (one_in(2))
        damage_record(&records[below(most)]);
    for (unsigned words = 0; words <= most; words++) {
        int crlf = one_in(2);
        check_write(words, wide, crlf, one_in(8) ? below(900) : 900);
    }
}

static void write_rooms(void)
{
    unsigned words = make_records(one_in(40) ? 32 : 1 + below(4));
    int crlf = one_in(2);
    size_t need = block_length(words, (int)block_wide, crlf);
    for (size_t room = 0; room <= need + 4; room++)
        check_write(words, (int)block_wide, crlf, room);
}

static void write_random(void)
{
    unsigned words = 1 + below(3);
    for (unsigned i = 0; i < words; i++) {
        ref_word *r = &records[i];
        char kind;
        memcpy(r, pool + below(sizeof pool - sizeof *r), sizeof *r);
        if (one_in(2))
            r->index = (uint16_t)some_index(family, &kind);
        if (one_in(2)) {
            for (int k = 0; k < 4; k++)
                r->info[k] = (uint8_t)one_of("...0126");
            if (r->index >= 100 && one_in(2))
                r->info[0] = 0;
        }
        if (one_in(2))
            memset(r->text, 0, 16);
        if (one_in(2))
            r->minus = r->mm_minus = 0;
        if (one_in(2))
            r->mm = 0;
        if (one_in(2))
            r->size = extreme();
    }
    write_about(words, one_in(2));
}

/* Sweeps: every word's beginning and every value of its bytes, the same whatever the seed but for what is lent around them. */

static uint64_t swept[FAMILIES];

/* Information that is right for the kind, wherever position 3 isn't the index's. */
static const char *info_for(char kind)
{
    switch (kind) {
    case 'n':
        return "0106";
    case 't':
    case 'm':
        return ".106";
    case 'a':
        return ".102";
    case 'p':
        return "..0.";
    default:
        return "..06";
    }
}

/* A block of one word in src that begins with the two digits and the third character, and is right if such a word can be. */
static void lay_word(unsigned two, char third)
{
    unsigned width = block_wide ? 16 : 8;
    uint8_t *w = src + block_wide;
    char kind = kind_of(family, third == '.' ? two : two * 10 + (unsigned)(third - '0'));
    if (!kind)
        kind = kind_of(family, two);
    if (block_wide)
        src[0] = '*';
    memcpy(w + 2, kind == 'n' && third == '.' ? "...." : info_for(kind), 4);
    digits(w, 2, two);
    w[2] = (uint8_t)third;
    w[6] = '+';
    digits(w + 7, width, 10198);
    if (kind == 'p')
        w[7 + width - 4] = '+';
    memcpy(w + 7 + width, " \r\n", 3);
    len = block_wide + width + 10;
}

/* Reads the block in src with the value at one place. What is lent stays from value to value, until a reading alters the list
   and it is stale. */
static uint64_t read_value(size_t at, unsigned b, int *stale)
{
    enum { PLACES = 3 };
    uint64_t read;
    src[at] = (uint8_t)b;
    if (*stale) {
        lend(&block, src, len, IN);
        lend(&list, 0, PLACES * sizeof(ref_word), ALIGNED);
    }
    block.before[block.start + at] = block.theirs[block.start + at] = block.ours[block.start + at] = (uint8_t)b;
    read = read_lent(family, PLACES);
    *stale = read >> 32 == 0;
    if (*stale)
        write_back(family, read);
    return read;
}

/* Each value of one byte of the block in src. */
static void sweep_byte(size_t at)
{
    uint8_t old = src[at];
    int stale = 1;
    for (unsigned b = 0; b < 256; b++)
        read_value(at, b, &stale);
    src[at] = old;
}

/* Each two digits with each digit or a dot after them: each byte of a right word, positions 4-6 of any other, and position 3
   once for all that differ in it alone. */
static void sweep_words(void)
{
    kind_name = "sweep of words";
    for (block_wide = 0; block_wide < 2; block_wide++)
        for (unsigned two = 0; two < 100; two++)
            for (const char *third = ".0123456789"; *third; third++) {
                int right;
                lay_word(two, *third);
                right = read_by[family][OURS](src, len, records, 1) >> 32 == 0;
                for (size_t at = right ? 0 : *third == '.' ? 2 : 3; at < (right ? len - block_wide : 6); at++)
                    sweep_byte(block_wide + at);
            }
}

/* Positions 3-6 each a dot or digit, for the first and the last index of each kind. */
static void sweep_infos(void)
{
    kind_name = "sweep of information";
    block_wide = 0;
    for (const struct row *row = rows[family]; row->kind; row++)
        for (unsigned last = 0; last < 2; last++) {
            unsigned index = row->index[last ? row->count - 1 : 0];
            lay_word(index < 100 ? index : index / 10, '.');
            for (unsigned i = 0; i < 11 * 11 * 11 * 11; i++) {
                for (unsigned at = 2, rest = i; at < 6; at++, rest /= 11)
                    src[at] = (uint8_t)".0123456789"[rest % 11];
                read_of(family, len, 1);
            }
        }
}

/* Each index with several informations, as a number and as text; of a right record each value of the information's bytes. */
static void sweep_records(void)
{
    static const char infos[][5] = {"....", "\0...", "0106", "\000106", ".106", "1106", "/106", ":106", " 106", ".102", "\000102",
                                    "..06", "\000.06", "..0.", "\000.0.", "...9", "\000..9", ".1.7"};
    kind_name = "sweep of records";
    for (unsigned how = 0; how < 4; how++) {
        int wide = how & 1, is_text = how & 2;
        ref_word *r = &records[0];
        memset(r, 0, sizeof *r);
        r->size = is_text ? 0 : 1019;
        memset(r->text, '7', is_text ? wide ? 16 : 8 : 0);
        for (unsigned index = 0; index <= 1100; index++) {
            int right = 0;
            r->index = (uint16_t)index;
            for (size_t i = 0; i < COUNT_OF(infos); i++) {
                memcpy(r->info, infos[i], 4);
                right |= write_of(family, 1, wide, 0, 26) >> 32 == 0;
            }
            if (!right)
                continue;
            for (unsigned at = 0; at < 4; at++)
                for (unsigned b = 0; b < 256; b++) {
                    memcpy(r->info, info_for(kind_of(family, index)), 4);
                    if (index >= 100)
                        r->info[0] = 0;
                    r->info[at] = (uint8_t)b;
                    write_of(family, 1, wide, 0, 26);
                }
        }
    }
}

/* States */

/* 103: "161 only 0, 1, 5, 6, 7, 9 or 10"; TPS100 has no such number. */
static const uint8_t edm_modes[] = {0, 1, 5, 6, 7, 9, 10};

static int takes(const struct setting *setting, unsigned parameter)
{
    if (setting->number != 161)
        return parameter >= setting->lowest && parameter <= setting->highest;
    for (size_t i = 0; i < COUNT_OF(edm_modes); i++)
        if (edm_modes[i] == parameter)
            return 1;
    return 0;
}

/* A parameter that the setting takes, often at an end of its range. */
static uint8_t some_parameter(unsigned place)
{
    const struct setting *setting = &shape->setting[place];
    if (setting->number == 161)
        return PICK(edm_modes);
    if (one_in(4))
        return one_in(2) ? setting->highest : setting->lowest;
    return (uint8_t)(setting->lowest + below(setting->highest - setting->lowest + 1u));
}

/* One about the ends of its range, between modes, or any. */
static uint8_t odd_parameter(unsigned place)
{
    const struct setting *setting = &shape->setting[place];
    switch (setting->number == 161 ? 1 + below(3) : below(6)) {
    case 0:
        return (uint8_t)(setting->lowest - 1);
    case 1:
        return (uint8_t)below(13);
    case 2:
        return (uint8_t)below(256);
    default:
        return (uint8_t)(setting->highest + below(3));
    }
}

/* The place of any setting, often one with a lowest above 0, with modes left out, or that can't be SET. */
static unsigned odd_setting(void)
{
    unsigned place = below(shape->settings), steps = one_in(3) ? shape->settings : 0;
    for (; steps > 0; steps--) {
        const struct setting *setting = &shape->setting[place];
        if (setting->lowest || setting->read_only || setting->number == 161)
            break;
        place = (place + 1) % shape->settings;
    }
    return place;
}

/* The place of a setting that can be SET. */
static unsigned some_setting(void)
{
    unsigned place;
    do {
        place = below(shape->settings);
    } while (shape->setting[place].read_only);
    return place;
}

static const uint8_t stored[VALUES] = {11, 16, 21, 24, 34, 83, 84, 85, 86, 87, 88};

static char stored_kind(unsigned place)
{
    return place < 2 ? 't' : place < 4 ? 'a' : 'l';
}

/* The word of a PUT: right, or with data at the edges. */
static void put_word(uint8_t *w, unsigned place, int edge)
{
    char kind = stored_kind(place);
    word_of(w, 8, kind, stored[place], edge);
    memcpy(w + 2, "....", 4);
    if (kind == 'l') {
        w[5] = (uint8_t)one_of("01");
    } else if (kind == 'a') {
        w[5] = (uint8_t)one_of("234");
        angle_data(w + 7, 8, w[5], edge);
        w[6] = one_in(2) ? '-' : '+';
        if (one_in(8))
            lay_nought(w, 8, kind);
    }
}

/* What is wrong first in the word of a PUT: 6 to 10, or 0, and the byte from the word's start. "A PUT word has dots at 3-5 (3-6
   for text) and otherwise obeys the block rules"; 104: "The unit of a stored value belongs to 6." */
static unsigned blame_put(unsigned place, const uint8_t *w, size_t *byte)
{
    static const char *const units[] = {".", "234", "01"};
    for (*byte = 2; *byte < 6; ++*byte)
        if (!among(*byte < 5 ? "." : units[place < 2 ? 0 : place < 4 ? 1 : 2], w[*byte]))
            return 6;
    return blame_rest(stored_kind(place), w, 8, byte);
}

/* The word that a PUT names, or that GET answers and the sheet has. */
static const uint8_t *value_word(unsigned place, int put, char unit, char sign, const char *data)
{
    static uint8_t w[16];
    memset(w, '.', 6);
    digits(w, 2, stored[place]);
    if (!put && place >= 2)
        w[4] = '1';
    w[5] = (uint8_t)unit;
    w[6] = (uint8_t)sign;
    memcpy(w + 7, data, 8);
    w[15] = ' ';
    return w;
}

/* The 11 bytes of a value that was put. */
static void value_of(uint8_t *v, unsigned place, int edge)
{
    uint8_t w[16];
    put_word(w, place, edge);
    v[0] = 1;
    v[1] = w[5];
    v[2] = w[6] == '-';
    memcpy(v + 3, w + 7, 8);
}

/* One change to a value's bytes, which leaves most of them wrong. */
static void spoil_value(uint8_t *v, unsigned place)
{
    switch (below(8)) {
    case 0: /* never put, but with bytes left */
        v[0] = 0;
        break;
    case 1:
        v[0] = (uint8_t)(2 + below(254));
        break;
    case 2: /* another unit */
        v[1] = (uint8_t)one_of("./0123456789:");
        break;
    case 3:
        v[2] = one_in(2) ? (uint8_t)(v[2] ^ 1) : (uint8_t)below(256);
        break;
    case 4: /* minus nought, which text can't have */
        memset(v + 3, '0', 8);
        v[2] = 1;
        break;
    case 5:
        value_of(v, place, 1);
        break;
    default:
        change(v, 11);
        break;
    }
}

/* Any state, with as many entries as wished, made backwards: newest first, none names a value then never put. */
static void make_state(uint8_t *s)
{
    uint8_t put[VALUES];
    unsigned entries, scarce = below(4);

    memset(s, 0, shape->image);
    s[0] = shape->mark;
    for (unsigned i = 0; i < shape->settings; i++)
        s[1 + i] = some_parameter(i);
    for (unsigned i = 0; i < VALUES; i++) {
        put[i] = scarce == 0 ? one_in(4) : scarce == 1 || !one_in(4);
        if (put[i])
            value_of(s + shape->values + VALUE * i, i, 0);
    }
    switch (below(8)) {
    case 0:
        entries = 0;
        break;
    case 1:
        entries = 64;
        break;
    case 2:
        entries = 62 + below(3);
        break;
    case 3:
    case 4:
        entries = below(65);
        break;
    default:
        entries = below(6);
        break;
    }
    s[shape->count + 1] = (uint8_t)entries;
    while (entries > 0) {
        uint8_t *e = s + shape->entries + ENTRY * --entries;
        unsigned place = below(VALUES);
        if (one_in(2) && put[place]) {
            e[0] = 2;
            e[1] = (uint8_t)place;
            put[place] = !one_in(4);
            if (put[place])
                value_of(e + 3, place, 0);
        } else {
            place = some_setting();
            e[0] = 1;
            e[1] = (uint8_t)place;
            e[2] = some_parameter(place);
        }
    }
}

/* A state's bytes, with room for the guard's. */
static uint8_t state[MOST_IMAGE + GUARD + 8];

/* Lends the spare image a state: the run's own (deep), or any. Answers its bytes in state. */
static void take_state(void)
{
    if (one_in(2))
        memcpy(state, run->theirs + run->start, shape->image);
    else
        make_state(state);
}

/* The state's undo list emptied. */
static void empty_undo(void)
{
    state[shape->count] = state[shape->count + 1] = 0;
    memset(state + shape->entries, 0, ENTRIES * ENTRY);
}

static struct lent *lend_state(size_t n)
{
    lend(&spare, state, n, IN); /* what was cut off stays just beyond */
    return &spare;
}

/* The image to play on: the run's, or a spare one with any state. */
static struct lent *some_image(void)
{
    if (one_in(2))
        return run;
    make_state(state);
    return lend_state(shape->image);
}

/* Lines */

static void say(const char *s)
{
    size_t n = strlen(s);
    memcpy(src + len, s, n);
    len += n;
}

static void say_byte(uint8_t b)
{
    src[len++] = b;
}

static void say_number(unsigned v)
{
    unsigned n = 1;
    while (power_of_ten(n) <= v)
        n++;
    digits(src + len, n, v);
    len += n;
}

/* A number in a form that is at times no number. */
static void say_odd_number(unsigned v)
{
    switch (below(16)) {
    case 0:
        say("0");
        say_number(v);
        break;
    case 1:
        say("000");
        say_number(v);
        break;
    case 2:
        break;
    case 3:
        say_number(v);
        say_byte(telling_byte('0'));
        break;
    case 4:
        say_byte(telling_byte('0'));
        say_number(v);
        break;
    case 5:
        say_number(9990 + below(20));
        break;
    case 6:
        say_number(10000 + below(90000));
        break;
    case 7:
        say("0");
        break;
    case 8:
        say("00");
        break;
    default:
        say_number(v);
        break;
    }
}

static void say_set_of(unsigned number, unsigned parameter)
{
    say("SET/");
    say_number(number);
    say("/");
    say_number(parameter);
}

static void say_set(unsigned place, unsigned parameter)
{
    say_set_of(shape->setting[place].number, parameter);
}

static void say_right_set(void)
{
    unsigned place = one_in(5) ? shape->of_73 : some_setting();
    if (shape->of_137 < shape->settings && one_in(6))
        place = shape->of_137;
    say_set(place, some_parameter(place));
}

static void say_put(unsigned place, int edge)
{
    say("PUT/");
    put_word(src + len, place, edge);
    len += 16;
}

static void say_conf(void)
{
    say("CONF/");
    say_number(shape->setting[below(shape->settings)].number);
}

/* A GET of that many indexes, most of them put, with repeats; one in `odds` of the lines has others among them. */
static void say_get(const uint8_t *s, unsigned count, unsigned odds)
{
    int odd = odds && one_in(odds);
    say("GET/I");
    for (unsigned i = 0; i < count; i++) {
        unsigned place = below(VALUES);
        for (int tries = 0; tries < 12 && !s[shape->values + VALUE * place]; tries++)
            place = (place + 1) % VALUES;
        if (odd && one_in(8))
            place = below(VALUES);
        say("/WI");
        digits(src + len, 2, odd && one_in(10) ? below(100) : stored[place]);
        len += 2;
    }
}

static unsigned some_count(void)
{
    return one_in(4) ? 18 + below(3) : one_in(2) ? 1 + below(19) : 1 + below(3);
}

/* A line that is likely right, without its end. */
static void say_some(const uint8_t *s)
{
    switch (below(9)) {
    case 0:
    case 1:
        say_right_set();
        break;
    case 2:
    case 3:
        say_put(below(VALUES), 0);
        break;
    case 4:
        say_conf();
        break;
    case 5:
        say_get(s, some_count(), 4);
        break;
    case 6:
    case 7:
        say("UNDO");
        break;
    default:
        say("KEEP");
        break;
    }
}

static void say_end(void)
{
    say(one_in(2) ? "\r" : "\r\n");
}

static void say_odd_end(void)
{
    static const char *const ends[] = {"", "\n", "\r\r", "\n\r", "\r\n\n", "\r\r\n", "\r\n\r", "\r\n\r\n", "\r ", "\r\nKEEP\r\n", "\rUNDO\r"};
    say(PICK(ends));
}

/* A room about the length of the reply on this state. */
static size_t near_room(const struct lent *image)
{
    static uint8_t trial[MOST_IMAGE + 1], room[MOST_REPLY];
    size_t n = image->len < MOST_IMAGE ? image->len : MOST_IMAGE, told;
    memcpy(trial, image->theirs + image->start, n);
    told = (size_t)(ref_line(trial, n, src, len, room, sizeof room) & 0xFFFF);
    told += below(3);
    return told ? told - 1 : 0;
}

/* A room for the reply: ample, or about its length. */
static size_t some_room(const struct lent *image)
{
    if (!one_in(3))
        return one_in(2) ? shape->reply : one_in(2) ? 300 + below(11) : shape->reply - 6 + below(11);
    if (one_in(3))
        return below(shape->reply + 5);
    if (one_in(4))
        return below(13);
    return near_room(image);
}

/* Cases of the run: two images in step */

static const uint8_t *standing(void)
{
    return run->theirs + run->start;
}

static unsigned standing_entries(void)
{
    return standing()[shape->count + 1];
}

static void play(size_t room)
{
    say_end();
    check_line(run, len, room);
    len = 0;
}

/* A new start for the run: at the factory, or in any state. */
static void start_run(void)
{
    if (one_in(2)) {
        lend(run, 0, shape->image, 0);
        check_factory(run, series);
    } else {
        make_state(state);
        lend(run, state, shape->image, 0);
    }
}

/* Lines between, which show the state and may be wrong. */
static void look(void)
{
    unsigned place = odd_setting(), parameter = one_in(2) ? below(7) : odd_parameter(place);
    len = 0;
    switch (below(5)) {
    case 0:
        say_conf();
        break;
    case 1:
        say_get(standing(), some_count(), 1);
        break;
    case 2:
        say_some(standing());
        damage(0, len);
        break;
    case 3:
        say_set(place, parameter);
        break;
    default:
        say_put(below(VALUES), 1);
        break;
    }
    play(one_in(4) ? below(30) : shape->reply);
}

static void run_phase(void)
{
    unsigned steps;
    len = 0;
    switch (below(8)) {
    case 0:
        if (one_in(3))
            start_run();
        /* fall through */
    case 1:
    case 2: /* up to the limit and a little beyond */
        steps = ENTRIES - standing_entries() + below(4);
        for (unsigned i = 0; i < steps; i++) {
            if (one_in(2))
                say_right_set();
            else
                say_put(below(VALUES), 0);
            play(one_in(30) ? below(3) : shape->reply);
            if (one_in(16))
                look();
        }
        break;
    case 3:
    case 4: /* all the way back and a little beyond */
        steps = standing_entries() + below(4);
        for (unsigned i = 0; i < steps; i++) {
            say("UNDO");
            play(one_in(30) ? below(7) : shape->reply);
            if (one_in(16))
                look();
        }
        break;
    case 5: /* to and fro at the limit */
        for (unsigned i = 0; i < 24; i++) {
            if (one_in(2))
                say("UNDO");
            else if (one_in(2))
                say_set(shape->of_73, below(2));
            else
                say_put(below(VALUES), 0);
            play(shape->reply);
        }
        break;
    case 6: /* setting 73 and the ends of replies */
        for (unsigned i = 0; i < 16; i++) {
            if (one_in(3))
                say_set(shape->of_73, below(2));
            else
                say_some(standing());
            check_line(run, len, one_in(3) ? below(12) : shape->reply); /* without an end */
            play(one_in(3) ? 1 + below(8) : shape->reply);
        }
        break;
    default:
        steps = 10 + below(60);
        for (unsigned i = 0; i < steps; i++) {
            do {
                len = 0;
                say_some(standing());
            } while (len == 4 && src[0] == 'K' && !one_in(6)); /* KEEP more seldom, so that the list grows */
            play(one_in(6) ? below(20) : shape->reply);
        }
        break;
    }
}

/* 137 on and off among the lines that it bears on and those that it doesn't, with rooms about either width's replies. TPS100
   has no such setting. */
static void run_wide(void)
{
    static const size_t rooms[] = {459, 458, 457, 307, 306, 305, 304, 50, 49, 27, 26, 25, 18, 17, 16, 7, 6, 5, 3, 2, 1, 0};
    unsigned steps = 16 + below(24);
    len = 0;
    for (unsigned i = 0; i < steps; i++) {
        unsigned wide = below(2), count = 1 + below(19);
        size_t room;
        switch (below(10)) {
        case 0:
        case 1:
            say_set_of(137, wide);
            break;
        case 2:
        case 3:
            say_put(below(VALUES), 0);
            break;
        case 4:
            say(one_in(6) ? "KEEP" : "UNDO");
            break;
        case 5:
            say_set(shape->of_73, below(2));
            break;
        default:
            say_get(standing(), one_in(4) ? 19 : count, 8);
            break;
        }
        say_end();
        room = one_in(3) ? near_room(run) : one_in(2) ? MOST_REPLY : PICK(rooms);
        check_line(run, len, room);
        len = 0;
    }
}

/* Cases of single lines */

static void line_right(void)
{
    struct lent *image = some_image();
    len = 0;
    say_some(image->theirs + image->start);
    say_end();
    check_line(image, len, some_room(image));
}

static void line_one_wrong(void)
{
    struct lent *image = some_image();
    len = 0;
    say_some(image->theirs + image->start);
    if (one_in(8))
        damage(0, len);
    say_end();
    damage(0, len);
    check_line(image, len, some_room(image));
}

/* Each value of one byte of a line, on the same state each time. */
static void line_each_value(void)
{
    size_t at, n;
    take_state();
    if (one_in(3)) /* so that SET and PUT are often accepted */
        empty_undo();
    len = 0;
    if (one_in(3))
        say_put(below(VALUES), 0);
    else
        say_some(state);
    say_end();
    n = len;
    at = below(n);
    for (unsigned b = 0; b < 256; b++) {
        src[at] = (uint8_t)b;
        check_line(lend_state(shape->image), n, shape->reply);
    }
}

static void line_numbers(void)
{
    struct lent *image = some_image();
    unsigned place = odd_setting(), number = shape->setting[place].number, parameter;
    static const uint16_t odd[] = {0, 1, 9, 10, 99, 100, 255, 256, 257, 999, 1000, 9999};
    len = 0;
    if (one_in(2))
        number = one_in(3) ? number - 1 + below(3) : one_in(3) ? below(10000) : one_in(3) ? number + 256 * below(39) :
                 one_in(2) ? below(180) : PICK(odd);
    parameter = one_in(2) ? odd_parameter(place) : one_in(3) ? PICK(odd) : one_in(2) ? some_parameter(place) : below(7);
    if (one_in(4))
        parameter += 256 * below(39);
    say(one_in(3) ? "CONF/" : "SET/");
    one_in(3) ? say_odd_number(number) : say_number(number);
    if (src[0] == 'S' || one_in(10)) {
        if (!one_in(20))
            say("/");
        one_in(3) ? say_odd_number(parameter) : say_number(parameter);
    }
    if (one_in(30))
        say(one_in(2) ? "/" : " ");
    say_end();
    check_line(image, len, some_room(image));
}

/* PUT of each index and unit with data at the limits, and its information and blank damaged. */
static void line_put(void)
{
    struct lent *image = some_image();
    unsigned place = below(VALUES);
    size_t w;
    len = 0;
    say_put(place, 1);
    w = len - 16;
    switch (below(9)) {
    case 0:
        change_to(src + w + 2, 4, "0123456789./:");
        break;
    case 1:
        src[w + 5] = (uint8_t)one_of("0123456789.");
        break;
    case 2: {
        char kind;
        word_of(src + w, 8, 'l', one_in(2) ? below(100) : some_index(STATION, &kind), 0);
        memcpy(src + w + 2, "...", 3);
        break;
    }
    case 3:
        src[w + 15] = telling_byte(' ');
        break;
    case 4: /* the block's word of the same index */
        word_of(src + w, 8, stored_kind(place), stored[place], one_in(2));
        break;
    case 5:
        change(src + w, 16);
        break;
    case 6:
        if (one_in(2))
            len -= 1 + below(3);
        else
            say(one_in(2) ? " " : "0 ");
        break;
    default:
        break;
    }
    say_end();
    check_line(image, len, some_room(image));
}

/* One to three bytes of a PUT's word changed, most often past the index, so that 26 tells each of its rules and bytes. */
static void line_put_places(void)
{
    struct lent *image = some_image();
    unsigned place = below(VALUES);
    len = 0;
    say_put(place, one_in(2));
    for (unsigned i = 1 + below(3); i > 0; i--)
        switch (below(6)) {
        case 0:
            change_to(src + 6, 4, "0123456789./:x");
            break;
        case 1:
            change(src + 4, 16);
            break;
        default:
            change(src + 6, 14);
            break;
        }
    say_end();
    check_line(image, len, some_room(image));
}

static void line_get(void)
{
    struct lent *image = some_image();
    len = 0;
    say_get(image->theirs + image->start, 1 + below(20), 2);
    switch (below(8)) {
    case 0:
        damage(0, len);
        break;
    case 1:
        say(one_in(2) ? "/" : "/WI");
        break;
    case 2:
        src[4] = (uint8_t)one_of("MI");
        break;
    default:
        break;
    }
    say_end();
    check_line(image, len, some_room(image));
}

/* Ends and lengths: 98 to 102 characters, CR or LF inside, two lines in one. */
static void line_ends(void)
{
    struct lent *image = some_image();
    len = 0;
    if (one_in(3)) {
        size_t n = one_in(2) ? 98 + below(5) : below(160);
        if (one_in(2))
            say_get(image->theirs + image->start, 19, 0);
        while (len < n)
            say_byte(one_in(4) ? telling_byte('0') : (uint8_t)one_of("GET/I/WI88SETPUT 0123456789"));
        len = n;
        if (!one_in(3))
            for (size_t i = 0; i < len; i++)
                if (src[i] == CR || src[i] == LF)
                    src[i] = 'A';
    } else if (one_in(8)) {
        for (unsigned i = 0, n = below(12); i < n; i++)
            say_byte(one_in(2) ? (uint8_t)one_of("\r\n") : (uint8_t)below(256));
    } else if (!one_in(6)) {
        say_some(image->theirs + image->start);
    }
    if (one_in(2))
        say_odd_end();
    else
        say_end();
    if (one_in(6) && len > 0)
        change_to(src, len, "\r\n");
    check_line(image, len, some_room(image));
}

static void line_rooms(void)
{
    take_state();
    len = 0;
    say_some(state);
    say_end();
    for (size_t room = 0; room <= shape->reply + 4; room++) {
        check_line(lend_state(shape->image), len, room);
        if (room > 20 && len < 30 && !one_in(40))
            return; /* short replies need no long sweep */
    }
}

/* Other words than the right ones. */
static void line_shapes(void)
{
    static const char *const bodies[] = {"", "SET", "SET/", "SET//", "SET/30", "SET/30/", "SET/30//1", "SET/30/1/", "/SET/30/1",
        "SET/30/1/1", "set/30/1", "SET 30 1", "SET/-1/0", "SET/+30/1", "SET/30/-0", "SET/30/ 1", "CONF", "CONF/", "CONF//",
        "CONF/70/", "CONF/70/5", "conf/70", "CONF 70", "CONFIG/70", "CON/70", "PUT", "PUT/", "PUT/88...0+00001550", "PUT/ ",
        "PUT/88...0+00001550  ", "PUT/88...0+0000155", "put/88...0+00001550 ", "GET", "GET/", "GET/I", "GET/I/", "GET/I/W",
        "GET/I/WI", "GET/I/WI8", "GET/I/WI888", "GET/I/WI88/", "GET/I/WI88/W", "GET/I/WI88/WI", "GET/I/WI88/WI8", "GET/I//WI88",
        "GET/M/WI88", "GET/M/WI21", "GET/IWI88", "GET/I/wi88", "GET/I/WI88WI88", "GET/I/WI88,WI11", "UND", "UNDO/", "UNDO ",
        " UNDO", "undo", "UNDOO", "KEE", "KEEP/", "KEEP ", " KEEP", "keep", "KEEPKEEP", "UNDOKEEP", "?", "@W127", "a", "b", "c",
        "SETOUT", "*", "GETI/WI88", "GET/J/WI88", "SET\\30\\1", "PUT/*88...0+0001550 ", "PUT/88...0+00001550 ", "GET/I/WI11",
        "SET/90/9999", "SET/90/0", "SET/090/0", "SET/91/100", "SET/122/1", "SET/160/0", "SET/170/2", "CONF/90", "SET/137/1",
        "SET/138/0", "CONF/138", "SET/161/8", "SET/161/10", "SET/55/0", "SET/56/10", "PUT/88...0+0000000000001550 "};
    struct lent *image = some_image();
    len = 0;
    say(PICK(bodies));
    if (one_in(8))
        say(PICK(bodies));
    say_end();
    check_line(image, len, some_room(image));
}

/* 104: "22 for a line that starts with no keyword (SET, CONF, PUT, GET, UNDO, KEEP); 39 for a known keyword with a wrong
   remainder, right after 22". What may follow a keyword, most of it another's. */
static const char *const keywords[] = {"SET", "CONF", "PUT", "GET", "UNDO", "KEEP"};
static const char *const remainders[] = {"", "/", "//", "/30", "/30/", "/30/1", "/30/1/", "/73/1", "/73/01", "/073/1", "/73/12345", "/73",
    "/103", "/0103", "/12345", "/103/", "/I", "/I/", "/I/WI", "/I/WI8", "/I/WI88", "/I/WI888", "/I/WI88/", "/I/WI88/WI11", "/M/WI11",
    "/M", "/88...0+00001550 ", "/88...0+00001550", "/88...0+00001550  ", "88...0+00001550 ", " ", "1", "0", "TLE", "OUT", "ER",
    "IG/70", "SET", "CONF", "PUT", "GET", "UNDO", "KEEP", "/SET/73/1", "\t", ".", "*"};

/* A keyword, at times one byte off or cut, and what may follow it. */
static void line_keywords(void)
{
    struct lent *image = some_image();
    size_t n;
    len = 0;
    say(PICK(keywords));
    n = len;
    if (one_in(4))
        change(src, n);
    else if (one_in(6))
        len -= 1 + below(2);
    else if (one_in(12))
        change_to(src, n, "SETCONFPUGDK");
    say(PICK(remainders));
    if (one_in(6))
        say_byte(telling_byte('/'));
    say_end();
    check_line(image, len, some_room(image));
}

static void line_random(void)
{
    struct lent *image = some_image();
    len = 0;
    for (unsigned i = 0, n = below(130); i < n; i++)
        say_byte(one_in(8) ? (uint8_t)below(256) : (uint8_t)one_of("SETCONFPUTGETIWIUNDOKEEP/0123456789.+- "));
    if (!one_in(8))
        say_end();
    check_line(image, len, some_room(image));
}

/* Cases of images */

/* One call of any function on an image, which may be wrong. */
static void use(struct lent *image)
{
    switch (below(8)) {
    case 0:
        if (one_in(2))
            check_sheet_write(image, one_in(4) ? below(shape->sheet + 8) : shape->sheet + 8);
        else
            check_sheet_write_2(image, one_in(4) ? below(shape->sheet_2 + 8) : shape->sheet_2 + 8);
        break;
    case 1:
        len = (size_t)(sheet_write_by[below(FORMS)][OURS](run->theirs + run->start, shape->image, src, MOST) & 0xFFFFFFFF);
        if (one_in(4))
            src[below(len)]++;
        if (one_in(8))
            len = one_in(2) ? 0 : below(len);
        check_sheet_load(image, len);
        break;
    case 2:
        if (one_in(4)) {
            check_factory(image, one_in(8) ? !series : series);
            break;
        }
        /* fall through */
    default:
        len = 0;
        say_some(state);
        if (!one_in(8))
            say_end();
        check_line(image, len, one_in(4) ? below(12) : shape->reply);
        break;
    }
}

/* Lengths about those of either series' image and its parts. */
static const size_t lengths_tried[] = {0, 1, 1024, 1037, 1038, 1039, 1040, 1048, 1049, 1050, 1051};

static void factory(void)
{
    lend(&spare, 0, one_in(2) ? shape->image : one_in(2) ? PICK(lengths_tried) : below(MOST + 1), 0);
    check_factory(&spare, series);
}

static void image_right(void)
{
    make_state(state);
    use(lend_state(shape->image));
}

static void image_random(void)
{
    if (one_in(2)) {
        memcpy(state, pool + below(sizeof pool - MOST_IMAGE), shape->image);
        state[0] = shape->mark;
    } else {
        size_t at = below(shape->image - 40), from = below(1000);
        take_state();
        memcpy(state + at, pool + from, below(40));
    }
    use(lend_state(shape->image));
}

static void image_one_wrong(void)
{
    const size_t parts[][2] = {{0, shape->values}, {shape->values, VALUES * VALUE}, {shape->count, 2}, {shape->entries, 2 * ENTRY},
                               {shape->entries, ENTRIES * ENTRY}};
    size_t at, part = below(5);
    take_state();
    at = parts[part][0] + below(parts[part][1]);
    if (one_in(3) && state[shape->count + 1]) /* in the newest entry, or just past it */
        at = shape->entries + ENTRY * (state[shape->count + 1] - 1u) + below(2 * ENTRY);
    if (at >= shape->image)
        at = shape->image - 1;
    state[at] = telling_byte(state[at]);
    use(lend_state(shape->image));
}

/* Each byte of an image in its turn. */
static void image_each_byte(void)
{
    take_state();
    for (size_t at = 0; at < shape->image; at += 1 + below(3)) {
        uint8_t old = state[at];
        state[at] = telling_byte(old);
        use(lend_state(shape->image));
        state[at] = old;
    }
}

static void image_length(void)
{
    take_state();
    if (one_in(3)) /* a state whose last bytes say nothing: only the length is wrong */
        empty_undo();
    state[shape->image] = one_in(2) ? 0 : (uint8_t)below(256);
    use(lend_state(one_in(8) ? below(shape->image + 8) : one_in(4) ? shape->entries - below(2) : PICK(lengths_tried)));
}

/* An image with the other series' first byte or length, or with both, its own bytes cut or filled up with 0. */
static void image_other(void)
{
    size_t n = shape->image;
    take_state();
    if (one_in(2))
        empty_undo();
    memset(state + shape->image, 0, MOST_IMAGE - shape->image);
    switch (below(6)) {
    case 0:
        state[0] = shapes[!series].mark;
        break;
    case 1:
        n = shapes[!series].image;
        break;
    case 2:
        state[0] = shapes[!series].mark;
        n = shapes[!series].image;
        break;
    case 3: /* the other's settings too, each in its range, and this one's values at their places */
        turn_to(!series);
        state[0] = shape->mark;
        n = shape->image;
        for (unsigned i = 0; i < shape->settings; i++)
            state[1 + i] = some_parameter(i);
        turn_to(!series);
        break;
    case 4:
        state[0] = (uint8_t)below(256);
        if (one_in(2)) /* the form of a right one, whatever the series */
            state[0] = (uint8_t)((state[0] & 0xF0) | 1);
        break;
    default: /* right for the other series: each function goes by the image */
        turn_to(!series);
        make_state(state);
        n = shape->image;
        turn_to(!series);
        break;
    }
    use(lend_state(n));
}

/* The number of entries against the entries there are. */
static void image_count(void)
{
    unsigned count;
    uint8_t *number;
    take_state();
    number = state + shape->count;
    count = number[1];
    switch (below(6)) {
    case 0:
        number[1] = (uint8_t)(count + 1);
        break;
    case 1:
        number[1] = (uint8_t)(count - 1);
        break;
    case 2:
        number[0] = (uint8_t)below(3);
        number[1] = one_in(2) ? (uint8_t)count : (uint8_t)below(256);
        break;
    case 3:
        number[1] = (uint8_t)(ENTRIES + below(3));
        break;
    case 4: /* an entry left standing past the number */
        if (count < ENTRIES) {
            uint8_t *e = state + shape->entries + ENTRY * (count + below(ENTRIES - count));
            e[0] = 1;
            e[1] = (uint8_t)below(shape->settings);
        }
        break;
    default:
        if (count < ENTRIES)
            change(state + shape->entries + ENTRY * count, ENTRY * (ENTRIES - count));
        break;
    }
    use(lend_state(shape->image));
}

/* Undo lists that name a value then never put, or hold what no entry holds. */
static void image_undo(void)
{
    unsigned count, at;
    uint8_t *e;
    take_state();
    count = state[shape->count + 1];
    if (count == 0) {
        state[shape->count + 1] = (uint8_t)(count = 1);
        memset(state + shape->entries, 0, ENTRY);
        state[shape->entries] = (uint8_t)(1 + below(2));
    }
    at = below(count);
    e = state + shape->entries + ENTRY * at;
    switch (below(11)) {
    case 0: /* the value itself never put */
        if (e[0] == 2 && e[1] < VALUES)
            memset(state + shape->values + VALUE * e[1], 0, VALUE);
        break;
    case 1: /* an entry that restores "never put" under older ones of the same value */
        memset(e, 0, ENTRY);
        e[0] = 2;
        e[1] = (uint8_t)below(VALUES);
        break;
    case 2:
        e[0] = (uint8_t)below(4);
        break;
    case 3: /* the other kind with the same bytes */
        e[0] = (uint8_t)(3 - e[0]);
        break;
    case 4:
        e[1] = e[0] == 2 ? (uint8_t)(10 + below(3)) : (uint8_t)(shape->settings - 2 + below(4));
        break;
    case 5:
        e[2] = e[0] == 2 ? (uint8_t)below(3) : e[1] < shape->settings ? odd_parameter(e[1]) : 0;
        break;
    case 6: { /* two entries exchanged */
        uint8_t *other = state + shape->entries + ENTRY * below(count);
        swap(e, other, e == other ? 0 : ENTRY);
        break;
    }
    case 7: /* the value of an entry under another index */
        if (e[0] == 2)
            e[1] = (uint8_t)below(VALUES);
        break;
    case 8:
    case 9: { /* an entry of any setting, read-only ones too */
        unsigned place = odd_setting();
        memset(e, 0, ENTRY);
        e[0] = 1;
        e[1] = (uint8_t)place;
        e[2] = one_in(2) ? some_parameter(place) : odd_parameter(place);
        break;
    }
    default:
        change(e + 3, VALUE);
        break;
    }
    use(lend_state(shape->image));
}

/* Values, standing or in an entry, at the limits of what a PUT can leave. */
static void image_values(void)
{
    unsigned place = below(VALUES), count;
    uint8_t *v;
    take_state();
    v = state + shape->values + VALUE * place;
    count = state[shape->count + 1];
    if (one_in(2) && count) {
        uint8_t *e = state + shape->entries + ENTRY * below(count);
        if (e[0] == 2 && e[1] < VALUES) {
            place = e[1];
            v = e + 3;
        }
    }
    value_of(v, place, 0);
    if (!one_in(6))
        spoil_value(v, place);
    use(lend_state(shape->image));
}

static void image_settings(void)
{
    unsigned place = odd_setting();
    take_state();
    state[1 + place] = odd_parameter(place);
    use(lend_state(shape->image));
}

/* Cases of sheets */

/* The sheet of some state, in src, its form, how many lines it has, and their starts. */
static size_t starts[MOST_LINES + 1];
static unsigned lines, form;

static void find_lines(void)
{
    lines = 0;
    starts[0] = 0;
    for (size_t i = 0; i < len && lines < MOST_LINES; i++)
        if (src[i] == LF)
            starts[++lines] = i + 1;
}

static void lay_sheet(const uint8_t *s)
{
    len = (size_t)(ref_sheet_write(s, shape->image, src, MOST) & 0xFFFFFFFF);
    form = FORM_1;
    find_lines();
}

/* 106: "the `s` or `v` key, a colon, and what was there before" */
static void say_entry(const uint8_t *e)
{
    say(e[0] == 1 ? "u=s" : "u=v");
    say_number(e[0] == 1 ? shape->setting[e[1]].number : stored[e[1]]);
    say(":");
    if (e[0] == 1) {
        say_number(e[2]);
    } else if (e[3]) {
        memcpy(src + len, value_word(e[1], 0, (char)e[4], e[5] ? '-' : '+', (const char *)e + 6), 15);
        len += 15;
    }
    say("\n");
}

/* 106: "A second sheet form starts `form=2`, then the first form's lines, then `undo=` and the count, then one `u=` line for each
   entry, oldest first". The list may be one that no state has. */
static void lay_sheet_2(const uint8_t *s)
{
    static uint8_t listless[MOST_IMAGE];
    unsigned entries = s[shape->count + 1];
    memset(listless, 0, sizeof listless);
    memcpy(listless, s, shape->count);
    len = 0;
    say("form=2\n");
    len += (size_t)(ref_sheet_write(listless, shape->image, src + len, MOST - len) & 0xFFFFFFFF);
    say("undo=");
    say_number(entries);
    say("\n");
    for (unsigned i = 0; i < entries; i++)
        say_entry(s + shape->entries + ENTRY * i);
    form = FORM_2;
    find_lines();
}

/* The run's state, or any. */
static void make_sheet_of(unsigned of)
{
    uint8_t s[MOST_IMAGE];
    if (one_in(4))
        memcpy(s, standing(), shape->image);
    else
        make_state(s);
    if (of == FORM_2)
        lay_sheet_2(s);
    else
        lay_sheet(s);
}

static void make_sheet(void)
{
    make_sheet_of(below(FORMS));
}

/* The line of the setting at a place, of the value, of the count, and of an entry. */
static unsigned setting_line(unsigned place)
{
    return form + 1 + place;
}

static unsigned value_line(unsigned place)
{
    return form + 1 + shape->settings + place;
}

static unsigned undo_line(void)
{
    return value_line(VALUES);
}

static unsigned entry_line(unsigned entry)
{
    return undo_line() + 1 + entry;
}

/* Where the line's value begins: just past its key. */
static size_t value_at(unsigned i)
{
    size_t at = starts[i];
    while (src[at] != '=')
        at++;
    return at + 1;
}

/* The image a sheet is loaded into: seldom the run's, whose undo list a load empties or exchanges. */
static struct lent *some_target(void)
{
    if (one_in(300))
        return run;
    take_state();
    return lend_state(shape->image);
}

/* Moves the sheet in src, or moves it back, with a room about what that takes, or an ample one. */
static uint64_t move_about(unsigned from)
{
    size_t need = from == FORM_1 ? len + 14 : len > 14 ? len - 14 : 0;
    return move_sheet(from, len, one_in(4) ? shape->sheet_2 : some_length(need));
}

/* Loads the sheet in src, or gives it to one of the two moves, most often its form's. */
static void offer(void)
{
    unsigned which = below(8);
    if (which < 3)
        move_about(which < 2 ? form : !form);
    else
        check_sheet_load(some_target(), len);
}

static void sheet_rooms(void)
{
    take_state();
    for (size_t room = 0; room <= shape->sheet + 3; room++)
        check_sheet_write(lend_state(shape->image), room);
}

/* Every room about the length of form 2's sheet and of its last lines, and some shorter ones. */
static void sheet_rooms_2(void)
{
    take_state();
    lay_sheet_2(state);
    for (size_t room = 0; room <= len + 3; room += room + 70 < len ? 1 + below(32) : 1)
        check_sheet_write_2(lend_state(shape->image), room);
}

static void sheet_written(void)
{
    size_t need;
    static uint8_t room[MOST_SHEET_2];
    take_state();
    need = (size_t)(ref_sheet_write(state, shape->image, room, sizeof room) & 0xFFFFFFFF);
    need += below(4);
    check_sheet_write(lend_state(shape->image), need - 1);
    need = (size_t)(ref_sheet_write_2(state, shape->image, room, sizeof room) & 0xFFFFFFFF);
    need += below(4);
    check_sheet_write_2(lend_state(shape->image), need - 1);
    need = shape->least_sheet + 15 * below(12);
    if (series == TPS300) /* as many as the parameters' second and third digits are */
        need += below(14);
    if (one_in(3))
        check_sheet_write(run, need);
    if (one_in(3))
        check_sheet_write_2(run, one_in(2) ? shape->sheet_2 : shape->least_sheet_2 + below(1600));
}

static void sheet_whole(void)
{
    make_sheet();
    offer();
}

static void sheet_cut(void)
{
    size_t whole_length;
    make_sheet();
    whole_length = len;
    for (len = 0; len <= whole_length; len++)
        offer();
}

static void sheet_one_wrong(void)
{
    make_sheet();
    damage(0, len);
    if (one_in(8))
        damage(0, len);
    offer();
}

static void sheet_each_value(void)
{
    size_t at;
    make_sheet();
    at = starts[below(lines)];
    at += below(10);
    if (at >= len)
        at = len - 1;
    for (unsigned b = 0; b < 256; b++) {
        src[at] = (uint8_t)b;
        offer();
    }
}

/* Takes n bytes at a place of src out, and puts others in. */
static void splice(size_t at, size_t gone, const void *bytes, size_t n)
{
    uint8_t kept[64];
    memcpy(kept, bytes, n);
    memmove(src + at + n, src + at + gone, len - at - gone);
    memcpy(src + at, kept, n);
    len = len - gone + n;
}

/* The line left out; the other line, as it stands, put in before it; a line and a later one exchanged. */
static void leave_out(unsigned i)
{
    splice(starts[i], starts[i + 1] - starts[i], "", 0);
}

static void put_in(unsigned i, unsigned other)
{
    splice(starts[i], 0, src + starts[other], starts[other + 1] - starts[other]);
}

static void exchange(unsigned i, unsigned later)
{
    uint8_t first[64];
    size_t a = starts[i], b = starts[later], n = starts[i + 1] - a, m = starts[later + 1] - b;
    memcpy(first, src + a, n);
    splice(a, 0, src + b, m);
    splice(b + m, m, first, n);
    splice(a + m, n, "", 0);
}

static void sheet_lines(void)
{
    unsigned i, j;
    make_sheet();
    i = below(lines);
    j = below(lines);
    switch (below(4)) {
    case 0:
        leave_out(i);
        break;
    case 1: /* doubled */
        put_in(i, i);
        break;
    case 2: /* one put in elsewhere */
        put_in(i, j);
        break;
    default:
        if (i != j)
            exchange(i < j ? i : j, i < j ? j : i);
        break;
    }
    offer();
}

/* A sheet of the other series, at times with this one's first line, and with a byte or two changed. */
static void sheet_other(void)
{
    turn_to(!series);
    make_sheet();
    if (one_in(2))
        memcpy(src + starts[form] + 7, shapes[!series].name, 6);
    if (one_in(4))
        damage(0, len);
    if (one_in(4))
        damage(starts[1], len);
    turn_to(!series);
    offer();
}

static void sheet_odd(void)
{
    unsigned i, place;
    size_t at;
    make_sheet();
    place = odd_setting();
    i = setting_line(place);
    at = value_at(i);
    switch (below(10)) {
    case 0: /* s30=01 and its like */
        if (one_in(4))
            at += below(3);
        splice(at, 0, "00", 1 + below(2));
        break;
    case 1: /* CR LF at one line, or at each */
        if (one_in(2)) {
            splice(starts[1 + below(lines)] - 1, 0, "\r", 1);
        } else {
            for (i = lines; i > 0; i--)
                splice(starts[i] - 1, 0, "\r", 1);
        }
        break;
    case 2:
        for (unsigned n = 1 + below(6); n > 0; n--)
            src[len++] = (uint8_t)(one_in(2) ? LF : (int)below(256));
        break;
    case 3: { /* another parameter, most often about the ends of its range */
        uint8_t number[4];
        unsigned parameter = odd_parameter(place), n;
        if (one_in(8))
            parameter += 256 * below(30);
        n = parameter < 10 ? 1 : parameter < 100 ? 2 : parameter < 1000 ? 3 : 4;
        digits(number, n, parameter);
        splice(at, starts[i + 1] - 1 - at, number, n);
        break;
    }
    case 4: /* no parameter */
        splice(at, starts[i + 1] - 1 - at, "", 0);
        break;
    case 5: /* the last LF gone */
        len--;
        break;
    case 6:
        i = below(lines + 1);
        splice(starts[i], 0, one_in(2) ? "\n" : " ", 1);
        break;
    default: { /* a value's 15 characters with data at the edges, and other information */
        uint8_t w[16];
        place = below(VALUES);
        put_word(w, place, 1);
        if (place >= 2)
            w[4] = '1';
        if (one_in(5))
            change_to(w + 2, 4, "0123456789.");
        if (one_in(8))
            digits(w, 2, PICK(stored));
        i = value_line(place);
        at = value_at(i);
        splice(at, starts[i + 1] - 1 - at, w, one_in(8) ? 14 + below(3) : 15);
        if (one_in(16)) /* as a wide GET would have it */
            splice(at + 7, 0, "00000000", 8);
        break;
    }
    }
    offer();
}

static void sheet_random(void)
{
    size_t most = one_in(4) ? shape->sheet_2 : shape->sheet;
    len = 0;
    form = below(FORMS);
    if (form == FORM_2 && !one_in(4))
        say("form=2\n");
    most = below(most + 50);
    while (len < most)
        say_byte((uint8_t)(one_in(3) ? below(256) : (unsigned)one_of("suv0123456789=:\n.+")));
    offer();
}

/* What stands in the place of line i is said between the two. */
static uint8_t lines_after[MOST];
static size_t bytes_after;

static void open_line(unsigned i)
{
    bytes_after = len - starts[i + 1];
    memcpy(lines_after, src + starts[i + 1], bytes_after);
    len = starts[i];
}

static void close_line(void)
{
    memcpy(src + len, lines_after, bytes_after);
    len += bytes_after;
}

/* The line `undo=` with another count, as it is or after zeros. */
static void lay_count(const char *zeros, unsigned count)
{
    open_line(undo_line());
    say("undo=");
    say(zeros);
    say_number(count);
    say("\n");
    close_line();
}

/* How many entries the sheet of form 2 has. */
static unsigned sheet_entries(void)
{
    return lines - undo_line() - 1;
}

/* The count against the entries' lines. */
static void sheet_counts(void)
{
    static const char *const odd[] = {"undo=", "undo=00", "undo=065", "undo=65", "undo=66", "undo=99", "undo=100", "undo=128",
                                      "undo=255", "undo=256", "undo=064", "undo=64 ", "undo= 1", "undo=+1", "undo=-0", "undo=1\r",
                                      "undo=0.", "undo=a", "undo=9999", "undo=00000", "undo=10000", "undo=65536", "undo=65600",
                                      "undo=4294967296", "undo=4294967360", "undo=18446744073709551616", "undo", "undo:0",
                                      "undo==0", "Undo=0", "u=0", "undos=0", " undo=0", "undo =0", "undo=0\n", "form=2", "v88=", ""};
    unsigned entries, i;
    make_sheet_of(FORM_2);
    entries = sheet_entries();
    switch (below(8)) {
    case 0:
    case 1:
        open_line(undo_line());
        say(PICK(odd));
        say("\n");
        close_line();
        break;
    case 2:
        lay_count(one_in(2) ? "0" : "00", entries);
        break;
    case 3:
        lay_count("", entries + 1);
        break;
    case 4:
        lay_count("", entries ? entries - 1 : below(70));
        break;
    case 5:
        lay_count("", one_in(2) ? below(130) : entries + 256 * (1 + below(300)));
        break;
    case 6: /* a line more, at times counted: 65 is too many though they are there */
        i = entry_line(below(entries + 1));
        if (entries)
            put_in(i, entry_line(below(entries)));
        else
            splice(starts[i], 0, "u=s73:1\n", 8);
        if (!one_in(3))
            lay_count("", entries + 1);
        break;
    default: /* a line less, at times counted */
        if (entries)
            leave_out(entry_line(below(entries)));
        if (entries && !one_in(3))
            lay_count("", entries - 1);
        break;
    }
    offer();
}

/* A value's characters with data at the edges, and at times other information, another index, another length. */
static void say_odd_value(unsigned place)
{
    uint8_t w[16];
    put_word(w, place, 1);
    if (place >= 2)
        w[4] = '1';
    if (one_in(5))
        change_to(w + 2, 4, "0123456789.");
    if (one_in(8))
        digits(w, 2, PICK(stored));
    memcpy(src + len, w, 16);
    len += one_in(8) ? 14 + below(3) : 15;
}

/* An entry's line that is wrong, most often, without its LF. */
static void say_odd_entry(void)
{
    static const char *const odd[] = {"", "u", "u=", "u=s", "u=v", "u=s73", "u=v88", "u=s73:", "u=v88::", "u=v88: ", "s73=1",
                                      "v88=", "undo=0", "u=s:0", "u=v:", "u=:", "U=s73:0", "u:s73:1", "u=s73=1", "u=v88=", "u=73:1",
                                      "u=88:", " u=v88:", "u=v88:\r", "u=s73:1\r", "u=s73:1 ", "u=s73:+1", "u=v088:", "u=v8:",
                                      "u=s073:1", "u=u=s73:1", "form=2", "series=TPS100", "u=S73:1", "u=V88:", "u=s73:1:1",
                                      "u=v88:0", "u=s73:00", "u=s73:01", "u=v73:1", "u=s88:", "u=s73;1", "u=v88:88..10+00001550 ",
                                      "u=v88:88...0+00001550", "u=v11:11....+PNC0058A"};
    unsigned place = odd_setting(), number = shape->setting[place].number, parameter = some_parameter(place), of_value = below(VALUES);
    unsigned odds = odd_parameter(place);
    switch (below(12)) {
    case 0:
        say("u=s");
        say_odd_number(number);
        say(":");
        say_number(parameter);
        break;
    case 1:
        say("u=s");
        say_number(number);
        say(":");
        say_odd_number(parameter);
        break;
    case 2: /* about the ends of the range, of read-only settings too */
    case 3:
        say("u=s");
        say_number(number);
        say(":");
        say_number(one_in(3) ? parameter : odds);
        break;
    case 4: /* of the other series, or of neither */
        turn_to(!series);
        place = below(shape->settings);
        number = one_in(2) ? shape->setting[place].number : below(200);
        parameter = some_parameter(place);
        turn_to(!series);
        say("u=s");
        say_number(number);
        say(":");
        say_number(parameter);
        break;
    case 5: /* what a byte would take for another number */
        say("u=s");
        say_number(number + 256 * below(3));
        say(":");
        say_number(parameter + 256 * below(3));
        break;
    case 6:
    case 7:
        say("u=v");
        say_number(stored[of_value]);
        say(":");
        say_odd_value(of_value);
        break;
    case 8: /* an index that may not be stored */
        number = below(100);
        say("u=v");
        digits(src + len, 2, number);
        len += 2;
        say(":");
        if (one_in(2)) {
            say_odd_value(of_value);
            if (one_in(2))
                digits(src + len - 15, 2, number);
        }
        break;
    default:
        say(PICK(odd));
        break;
    }
}

/* One of the entries' lines, or two, the later first, so that the earlier's start stands. */
static void sheet_of_odd_entry(void)
{
    unsigned times = one_in(8) ? 2 : 1, entry;
    do {
        make_sheet_of(FORM_2);
        entry = sheet_entries();
    } while (entry == 0);
    for (; times > 0 && entry > 0; times--) {
        unsigned i;
        entry = one_in(4) ? entry - 1 : below(entry);
        i = entry_line(entry);
        if (one_in(10)) {
            damage(starts[i], starts[i + 1]);
            continue;
        }
        open_line(i);
        say_odd_entry();
        if (!one_in(30))
            say("\n");
        close_line();
    }
    offer();
}

/* Takes the newest entry of the state's list back. */
static void take_back(uint8_t *s)
{
    uint8_t *e = s + shape->entries + ENTRY * --s[shape->count + 1];
    if (e[0] == 1)
        s[1 + e[1]] = e[2];
    else
        memcpy(s + shape->values + VALUE * e[1], e + 3, VALUE);
    memset(e, 0, ENTRY);
}

/* Entries of values at any place of the list, values never put, entries exchanged: most of these lists no state has. At times a
   wrong or surplus line besides. */
static void sheet_lists(void)
{
    unsigned entries, changes = below(4);
    do {
        make_state(state);
        entries = state[shape->count + 1];
    } while (entries == 0);
    while (changes-- > 0) {
        uint8_t *e = state + shape->entries + ENTRY * below(entries);
        memset(e, 0, ENTRY);
        e[0] = 2;
        e[1] = (uint8_t)below(VALUES);
        if (one_in(2))
            value_of(e + 3, e[1], 0);
    }
    if (one_in(3))
        memset(state + shape->values + VALUE * below(VALUES), 0, VALUE);
    if (one_in(3)) {
        uint8_t *e = state + shape->entries + ENTRY * below(entries), *other = state + shape->entries + ENTRY * below(entries);
        swap(e, other, e == other ? 0 : ENTRY);
    }
    lay_sheet_2(state);
    switch (below(8)) {
    case 0:
        damage(0, len);
        break;
    case 1:
        say(one_in(2) ? "\n" : "u=s73:1\n");
        break;
    case 2:
        lay_count("", entries + 1 - 2 * below(2));
        break;
    default:
        break;
    }
    offer();
}

/* The one form's sheet with the other's first or last line, and each sheet given to every function. */
static void sheet_forms(void)
{
    static const char *const firsts[] = {"form=1\n", "form=3\n", "form=\n", "form=02\n", "form=2 \n", " form=2\n", "Form=2\n",
                                         "form=2\r\n", "form:2\n", "form=2", "form=20\n", "form=22\n", "form 2\n", "\n",
                                         "form=2\n\n", "undo=0\n"};
    const char *first = PICK(firsts);
    int other = one_in(6);
    if (other)
        turn_to(!series);
    make_sheet();
    switch (below(8)) {
    case 0:
        if (form == FORM_1)
            splice(0, 0, "form=2\n", 7);
        else
            splice(0, 7, "", 0);
        break;
    case 1:
        say(one_in(2) ? "undo=0\n" : "undo=1\nu=s73:1\n");
        break;
    case 2: /* doubled, or where the second line starts */
        splice(starts[below(2)], 0, "form=2\n", 7);
        break;
    case 3: /* in the first line's place, or before it */
        splice(0, one_in(2) ? starts[form] : 0, first, strlen(first));
        break;
    case 4: /* all of form 1's lines, and those alone */
        if (form == FORM_2)
            len = starts[undo_line()];
        break;
    case 5: { /* one sheet after another */
        size_t n = len;
        uint8_t s[MOST_IMAGE];
        make_state(s);
        len += (size_t)(ref_sheet_write(s, shape->image, src + n, MOST_SHEET) & 0xFFFFFFFF);
        break;
    }
    default:
        break;
    }
    if (other)
        turn_to(!series);
    move_about(FORM_1);
    move_about(FORM_2);
    check_sheet_load(some_target(), len);
}

/* 106: "Old sheets move to the new form with `undo=0`. The way back gives the old bytes exactly when the count is 0." */
static void sheet_moved(void)
{
    static uint8_t old[MOST];
    size_t n;
    uint64_t got;
    if (one_in(8)) { /* of either series */
        turn_to(!series);
        make_sheet_of(FORM_1);
        turn_to(!series);
    } else {
        make_sheet_of(FORM_1);
    }
    if (one_in(6))
        damage(0, len);
    n = len;
    memcpy(old, src, n);
    got = move_about(FORM_1);
    if (got >> 32)
        return;
    memcpy(src, moved.theirs + moved.start, len = n + 14);
    if (got != len || memcmp(src, "form=2\n", 7) != 0 || memcmp(src + 7, old, n) != 0 || memcmp(src + 7 + n, "undo=0\n", 7) != 0)
        unasked("the sheet is moved otherwise", got);
    check_sheet_load(some_target(), len);
    got = move_about(FORM_2);
    if (got >> 32)
        return;
    if (got != n || memcmp(moved.theirs + moved.start, old, n) != 0)
        unasked("the way back gives other bytes", got);
}

/* A line on the spare image; answers its number. */
static unsigned play_spare(size_t room)
{
    unsigned number;
    say_end();
    number = (unsigned)(check_line(&spare, len, room) >> 32);
    len = 0;
    return number;
}

static void ask_spare(const uint8_t *s)
{
    if (memcmp(spare.theirs + spare.start, s, shape->image) != 0)
        unasked("the state is another", 0);
}

/* The list taken back to its start, and played again from there. 106: "A loaded list counts as lines accepted since the last KEEP,
   each a SET or PUT that stored what stands just before its entry is taken back, newest first". */
static void play_list(uint8_t *s)
{
    static uint8_t before[MOST_IMAGE], said[ENTRIES][20];
    uint8_t lengths[ENTRIES];
    unsigned entries = s[shape->count + 1];
    memcpy(before, s, shape->image);
    for (unsigned i = entries; i-- > 0;) {
        const uint8_t *e = s + shape->entries + ENTRY * i, *v = s + shape->values + VALUE * e[1];
        len = 0;
        if (e[0] == 1) {
            say_set(e[1], s[1 + e[1]]);
        } else {
            say("PUT/");
            memcpy(src + len, value_word(e[1], 1, (char)v[1], v[2] ? '-' : '+', (const char *)v + 3), 16);
            len += 16;
        }
        memcpy(said[i], src, lengths[i] = (uint8_t)len);
        len = 0;
        say("UNDO");
        if (play_spare(shape->reply) != 0)
            unasked("a loaded entry isn't taken back", i);
        take_back(s);
        ask_spare(s);
    }
    len = 0;
    say("UNDO");
    if (play_spare(shape->reply) != 29)
        unasked("an entry stands that wasn't loaded", 0);
    for (unsigned i = 0; i < entries; i++) {
        memcpy(src, said[i], len = lengths[i]);
        if (play_spare(shape->reply) != 0)
            unasked("the line of a loaded entry is refused", i);
    }
    ask_spare(before);
}

/* A sheet of form 2 is written, loaded into an image with another list, and the trial goes on from there; then it is written
   again. */
static void sheet_trial(void)
{
    static uint8_t loaded[MOST_IMAGE];
    unsigned steps = 4 + below(24);
    uint64_t wrote;
    take_state();
    memcpy(loaded, state, shape->image);
    wrote = check_sheet_write_2(lend_state(shape->image), shape->sheet_2);
    if (wrote > shape->sheet_2)
        unasked("a state's sheet isn't written", wrote);
    memcpy(src, sheet.theirs + sheet.start, len = (size_t)wrote);
    take_state();
    check_sheet_load(lend_state(shape->image), len);
    ask_spare(loaded);
    len = 0;
    if (one_in(3))
        play_list(loaded);
    for (unsigned i = 0; i < steps; i++) {
        if (one_in(3))
            say("UNDO");
        else
            say_some(spare.theirs + spare.start);
        play_spare(one_in(8) ? below(8) : shape->reply);
        if (one_in(8))
            check_sheet_write_2(&spare, shape->sheet_2);
        if (one_in(16))
            check_sheet_write(&spare, shape->sheet);
    }
    memcpy(state, spare.theirs + spare.start, shape->image);
    lay_sheet_2(state);
    if (check_sheet_write_2(&spare, len) != len || memcmp(sheet.theirs + sheet.start, src, len) != 0)
        unasked("the sheet is another", len);
    if (one_in(2))
        check_sheet_load(some_target(), len);
    else
        move_about(FORM_2);
}

/* Sweeps of minus nought. #102: "Accept minus before zero in angles, lengths, constants and both halves of a pair, in blocks,
   PUT words and sheets, and keep the sign so that the bytes come back." What a case is to give is said here as well, so that
   a sign which both sides lose is seen too. */

static uint64_t swept_noughts[FAMILIES + SERIES]; /* blocks and records by family, then lines, images and sheets by series */

/* Numbers by index and information: every one of the family, or those with dots at positions 4 and 5. */
static struct number { char kind; uint8_t first; uint16_t index; uint8_t info[4]; } numbers[1400];
static unsigned number_count;

static void list_numbers(int plain)
{
    number_count = 0;
    for (const struct row *row = rows[family]; row->kind; row++) {
        const struct form *form = form_of(row->kind);
        for (unsigned i = 0; form && i < row->count; i++)
            for (const char *fourth = form->fourth; *fourth; fourth++)
                for (const char *fifth = form->fifth; *fifth; fifth++)
                    for (const char *unit = form->units; *unit; unit++) {
                        struct number *n = &numbers[number_count];
                        if (plain && (*fourth != '.' || *fifth != '.'))
                            continue;
                        n->kind = row->kind;
                        n->first = i == 0;
                        n->index = row->index[i];
                        n->info[0] = '.';
                        n->info[1] = (uint8_t)*fourth;
                        n->info[2] = (uint8_t)*fifth;
                        n->info[3] = (uint8_t)*unit;
                        number_count++;
                    }
    }
}

/* The records that the block in src is to give. */
static ref_word asked[32];

/* Nought, one, or the leading digit alone. */
static uint64_t magnitude(unsigned which, unsigned width)
{
    return which == 2 ? power_of_ten(width - 1) : which;
}

enum { MINUS = 1, MM_MINUS = 2 };

/* Lays the number's word at a place of the block in src, and the record that it is to give. */
static void ask_number(unsigned place, const struct number *n, unsigned signs, unsigned value, unsigned mm)
{
    unsigned width = block_wide ? 16 : 8, figures = n->kind == 'p' ? width - 4 : width;
    uint8_t *w = src + word_start(place);
    ref_word *r = &asked[place];

    memset(r, 0, sizeof *r);
    memcpy(w + 2, n->info, 4);
    lay_index(w, n->index);
    w[6] = signs & MINUS ? '-' : '+';
    r->index = n->index;
    memcpy(r->info, n->info, 4);
    if (n->index >= 100)
        r->info[0] = 0;
    r->minus = signs & MINUS ? 1 : 0;
    r->size = magnitude(value, n->kind == 'a' ? 8 : figures);
    digits(w + 7, figures, r->size);
    if (n->kind == 'a' && n->info[3] == '4' && value == 2)
        r->size = 3600000; /* 100 degrees */
    if (n->kind == 'p') {
        r->mm_minus = signs & MM_MINUS ? 1 : 0;
        r->mm = magnitude(mm, 3);
        w[7 + width - 4] = r->mm_minus ? '-' : '+';
        digits(w + 7 + width - 3, 3, r->mm);
    }
    w[7 + width] = ' ';
}

/* The same with text that has a minus of its own, before noughts. */
static void ask_text(unsigned place)
{
    unsigned width = block_wide ? 16 : 8;
    uint8_t *w = src + word_start(place);
    ref_word *r = &asked[place];
    memset(r, 0, sizeof *r);
    r->index = 11;
    memset(r->info, '.', 4);
    memset(r->text, '0', width);
    r->text[0] = '-';
    memcpy(w, "11....+", 7);
    memcpy(w + 7, r->text, width);
    w[7 + width] = ' ';
}

static void end_block(unsigned words, int crlf)
{
    block_words = words;
    if (block_wide)
        src[0] = '*';
    len = word_start(words);
    src[len++] = CR;
    if (crlf)
        src[len++] = LF;
}

static uint64_t read_src(void)
{
    lend(&block, src, len, IN);
    lend(&list, 0, 32 * sizeof(ref_word), ALIGNED);
    return read_lent(family, 32);
}

/* The block in src gives the records asked, they its bytes, and these the same once more. */
static void there_and_back(void)
{
    uint64_t whole = len | block_words << 16 | block_wide << 24 | (uint64_t)(src[len - 1] == LF) << 25;
    for (int time = 0; time < 2; time++) {
        uint64_t read = read_src();
        if (read != whole)
            unasked("the block isn't read", read);
        if (memcmp(list.theirs + list.start, asked, block_words * sizeof(ref_word)) != 0) {
            hex("asked", (const uint8_t *)asked, block_words * sizeof(ref_word));
            unasked("the records are others", read);
        }
        write_back(family, read);
        memcpy(src, block.theirs + block.start, len);
    }
}

/* The block in src is refused so. */
static void ask_refusal(unsigned number, size_t told)
{
    uint64_t read = read_src();
    if (read != ((uint64_t)number << 32 | told))
        unasked("the refusal is another", read);
}

static unsigned signs_of(const struct number *n)
{
    return n->kind == 'p' ? 4 : 2;
}

/* Every index with all that its information may be, alone: each sign before nought, one and the leading digit, in each half of
   a pair. The other family's reader gets the same. */
static void sweep_noughts_alone(void)
{
    list_numbers(0);
    for (unsigned i = 0; i < number_count; i++)
        for (unsigned signs = 0; signs < signs_of(&numbers[i]); signs++)
            for (unsigned value = 0; value < 3; value++)
                for (unsigned mm = 0; mm < (numbers[i].kind == 'p' ? 3 : 1); mm++) {
                    ask_number(0, &numbers[i], signs, value, mm);
                    end_block(1, (int)(i & 1));
                    there_and_back();
                    read_of(!family, len, 32);
                }
}

/* Every index and unit first, in the midst and last, beside text and the same word with the other signs; then 32 of them. */
static void sweep_noughts_among(void)
{
    list_numbers(1);
    for (unsigned i = 0; i < number_count; i++) {
        const struct number *n = &numbers[i];
        for (unsigned signs = 0; signs < signs_of(n); signs++)
            for (unsigned value = 0; value < 2; value++)
                for (unsigned mm = 0; mm < (n->kind == 'p' ? 2 : 1); mm++)
                    for (unsigned place = 0; place < 3; place++) {
                        ask_number(place, n, signs, value, mm);
                        ask_text((place + 1) % 3);
                        ask_number((place + 2) % 3, n, signs ^ (MINUS | MM_MINUS), 0, 0);
                        end_block(3, (int)(place & 1));
                        there_and_back();
                    }
        for (unsigned place = 0; place < 32; place++)
            ask_number(place, &numbers[(i + place) % number_count], MINUS | MM_MINUS, 0, 0);
        end_block(32, (int)(i & 1));
        there_and_back();
    }
}

/* Each value of each byte from the sign to the end, for each kind and unit. */
static void sweep_noughts_bytes(void)
{
    list_numbers(1);
    for (unsigned i = 0; i < number_count; i++) {
        if (!numbers[i].first)
            continue;
        ask_number(0, &numbers[i], MINUS | MM_MINUS, 0, 0);
        end_block(1, 1);
        for (size_t at = block_wide + 6; at < len; at++)
            sweep_byte(at);
    }
}

/* What a minus is still refused for: #102: "10 now means angle out of range alone", either sign before it; and text, by 7. */
static void sweep_noughts_refused(void)
{
    static const struct { char unit; uint64_t data; } beyond[] = {
        {'2', 40000000}, {'2', 99999999}, {'3', 36000000}, {'3', 40000000}, {'4', 36000000}, {'4', 60000}, {'4', 600},
        {'4', 99999999}, {'5', 64000000}, {'5', 99999999}, {'2', 1000000000000000}, {'3', 100000000}, {'4', 100000000},
        {'4', 1000000000000000}, {'5', 1000000000000000}};
    unsigned width = block_wide ? 16 : 8;
    list_numbers(1);
    for (unsigned i = 0; i < number_count; i++)
        for (size_t k = 0; numbers[i].kind == 'a' && k < COUNT_OF(beyond); k++)
            for (unsigned signs = 0; signs < 2; signs++) {
                if (beyond[k].unit != numbers[i].info[3] || beyond[k].data >= power_of_ten(width))
                    continue;
                ask_number(0, &numbers[i], MINUS, 0, 0);
                ask_number(1, &numbers[i], signs, 0, 0);
                digits(src + word_start(1) + 7, width, beyond[k].data);
                end_block(2, 0);
                ask_refusal(10, word_start(1) + 7);
            }
    for (const struct row *row = rows[family]; row->kind; row++)
        for (unsigned i = 0; !form_of(row->kind) && i < row->count; i++)
            for (unsigned noughts = 0; noughts < 2; noughts++) {
                ask_number(0, &numbers[0], MINUS, 0, 0);
                ask_text(1);
                lay_index(src + word_start(1), row->index[i]);
                src[word_start(1) + 6] = '-';
                if (noughts)
                    src[word_start(1) + 7] = '0';
                end_block(2, 0);
                ask_refusal(7, word_start(1) + 6);
            }
}

/* Writes the record after that many of those asked: it is written and read again where a word gives it, else refused by 13. */
static void ask_record(const ref_word *r, int is_text, int is_pair, unsigned among)
{
    uint64_t wrote, read;
    int right = r->minus < 2 && r->mm_minus < 2;
    if (is_text)
        right = !r->minus && !r->size;
    if (!is_pair)
        right = right && !r->mm_minus && !r->mm;
    memcpy(records, asked, among * sizeof *r);
    records[among] = *r;
    len = block_length(among + 1, (int)block_wide, 0);
    wrote = write_of(family, among + 1, (int)block_wide, 0, len);
    if (wrote != (right ? len : UINT64_C(13) << 32 | among))
        unasked(right ? "the record isn't written" : "the record isn't refused", wrote);
    if (!right)
        return;
    memcpy(src, block.theirs + block.start, len);
    if (src[word_start(among) + 6] != (r->minus ? '-' : '+') || (is_pair && src[len - 6] != (r->mm_minus ? '-' : '+')))
        unasked("the sign is lost", wrote);
    read = read_src();
    if (read >> 32 != 0 || memcmp(list.theirs + list.start, records, (among + 1) * sizeof(ref_word)) != 0)
        unasked("the record doesn't come back", read);
}

/* A record of each index and unit with each sign before nought and before one, text of noughts too. */
static void sweep_noughts_records(void)
{
    static const uint8_t signs[] = {0, 1, 2, 255};
    list_numbers(1);
    /* What stands before it, where it isn't alone: text, and a number with minus nought. */
    ask_text(0);
    ask_number(1, &numbers[0], MINUS, 0, 0);
    for (const struct row *row = rows[family]; row->kind; row++) {
        const struct form *form = form_of(row->kind);
        for (unsigned i = 0; i < row->count; i++)
            for (const char *unit = form ? form->units : "."; *unit; unit++)
                for (unsigned k = 0; k < 2 * 2 * 2 * 4 * 4; k++) {
                    ref_word r;
                    memset(&r, 0, sizeof r);
                    r.index = row->index[i];
                    memset(r.info, '.', 4);
                    if (r.index >= 100)
                        r.info[0] = 0;
                    r.info[3] = (uint8_t)*unit;
                    memset(r.text, '0', form ? 0 : block_wide ? 16 : 8);
                    r.size = k >> 1 & 1;
                    r.mm = k >> 2 & 1;
                    r.minus = signs[k >> 3 & 3];
                    r.mm_minus = signs[k >> 5];
                    ask_record(&r, !form, row->kind == 'p', k & 1 ? 2 : 0);
                }
    }
}

static void sweep_noughts_of_blocks(void)
{
    kind_name = "sweep of minus nought";
    kind_count = &swept_noughts[family];
    for (block_wide = 0; block_wide < 2; block_wide++) {
        sweep_noughts_alone();
        sweep_noughts_among();
        sweep_noughts_bytes();
        sweep_noughts_refused();
        sweep_noughts_records();
    }
    block_wide = 0;
}

/* One byte of the image made so on both sides. */
static void poke(struct lent *image, size_t at, unsigned b)
{
    image->theirs[image->start + at] = image->ours[image->start + at] = (uint8_t)b;
}

/* Whether the sweep at hand asks for wide words. */
static int sweep_wide;

/* Lays the series' factory state down in the image, with 137 set where wide words are asked for. */
static void lay_factory(struct lent *image)
{
    lend(image, 0, shape->image, 0);
    if (check_factory(image, series) != 0)
        unasked("the factory state isn't laid down", 0);
    if (sweep_wide)
        poke(image, 1 + shape->of_137, 1);
}

/* What setting 73 and, where the series has it, setting 137 say. */
static size_t end_length(const struct lent *image)
{
    return image->theirs[image->start + 1 + shape->of_73] ? 2 : 1;
}

static int is_wide(const struct lent *image)
{
    return shape->of_137 < shape->settings && image->theirs[image->start + 1 + shape->of_137];
}

/* What 26 is to tell besides the reply's bytes. 104: "reply bytes + 2^16 * which + 2^24 * byte; for every other answer, 30
   included, the two are 0". */
static uint64_t asked_where;

static void ask_where(unsigned rule, size_t byte)
{
    asked_where = (uint64_t)rule << 16 | (uint64_t)byte << 24;
}

/* Plays the line in src, whose end it has; its number and reply are these, or 30 where the room is shorter than the reply. */
static void ask_reply(struct lent *image, unsigned number, const void *answered, size_t n, size_t room)
{
    size_t end = end_length(image), need = number == 31 ? 0 : n + end;
    uint64_t got = check_line(image, len, room);
    if (need > room) {
        if (got != UINT64_C(30) << 32)
            unasked("the room is too short", got);
        return;
    }
    if (got != ((uint64_t)number << 32 | (number == 26 ? asked_where : 0) | need))
        unasked("the line is answered otherwise", got);
    if (number != 31 && (memcmp(reply.theirs + reply.start, answered, n) != 0 || memcmp(reply.theirs + reply.start + n, "\r\n", end) != 0))
        unasked("the reply is another", got);
}

/* Plays the line in src with its end and an ample room. */
static void ask_line(struct lent *image, unsigned number, const void *answered, size_t n)
{
    say("\r\n");
    ask_reply(image, number, answered, n, shape->reply);
    len = 0;
}

/* The same where the reply is `?`, or `@W127` for a number other than 0. */
static void ask_said(struct lent *image, unsigned number)
{
    ask_line(image, number, number ? "@W127" : "?", number ? 5 : 1);
}

static void ask_plain(struct lent *image, const char *said, unsigned number)
{
    len = 0;
    say(said);
    ask_said(image, number);
}

static void ask_put(struct lent *image, unsigned number, unsigned place, char unit, char sign, const char *data)
{
    size_t byte;
    unsigned rule;
    len = 0;
    say("PUT/");
    memcpy(src + len, value_word(place, 1, unit, sign, data), 16);
    rule = blame_put(place, src + len, &byte);
    ask_where(rule, len + byte);
    len += 16;
    ask_said(image, number);
}

/* What GET answers for that many words of 16 bytes. 103: "a `*` and then wide words, with zeros added on the left of the data" */
static size_t lay_reply(uint8_t *to, const uint8_t *words, unsigned count, int wide)
{
    size_t n = 0;
    if (wide)
        to[n++] = '*';
    for (unsigned i = 0; i < count; i++, words += 16) {
        memcpy(to + n, words, 7);
        n += 7;
        memset(to + n, '0', wide ? 8 : 0);
        n += wide ? 8 : 0;
        memcpy(to + n, words + 7, 9);
        n += 9;
    }
    return n;
}

static void ask_get(struct lent *image, unsigned number, unsigned place, char unit, char sign, const char *data)
{
    uint8_t answered[32];
    size_t n = lay_reply(answered, value_word(place, 0, unit, sign, data), 1, is_wide(image));
    len = 0;
    say("GET/I/WI");
    say_number(stored[place]);
    if (number)
        ask_said(image, number);
    else
        ask_line(image, 0, answered, n);
}

/* The image's sheet is the one in src. */
static void ask_sheet(struct lent *image)
{
    uint64_t wrote = check_sheet_write(image, shape->sheet);
    if (wrote != len || memcmp(sheet.theirs + sheet.start, src, len) != 0)
        unasked("the sheet is another", wrote);
}

static void ask_load(struct lent *image, unsigned number, size_t told)
{
    uint64_t got = check_sheet_load(image, len);
    if (got != ((uint64_t)number << 32 | told))
        unasked("the sheet is loaded otherwise", got);
}

static void ask_same(const struct lent *image, const uint8_t *s, size_t n)
{
    if (memcmp(image->theirs + image->start, s, n) != 0)
        unasked("the state is another", 0);
}

/* Whether a PUT of that unit and sign is right where the data are. */
static int may_put(unsigned place, char unit, char sign)
{
    if (place < 2)
        return unit == '.' && sign == '+';
    return place < 4 ? unit >= '2' && unit <= '4' : unit == '0' || unit == '1';
}

/* The factory's state, and one with text and minus nought in every value. */
static uint8_t factory_state[MOST_IMAGE], nought_state[MOST_IMAGE];

/* One of the value's units. */
static char unit_for(unsigned place, unsigned which)
{
    return place < 2 ? '.' : place < 4 ? "234"[which % 3] : "01"[which % 2];
}

/* Every value put, all of them got, the sheet and back, and all of them undone. */
static void sweep_noughts_together(unsigned which)
{
    uint8_t words[VALUES * 16], answered[VALUES * 24 + 1];
    size_t n;
    lay_factory(run);
    memcpy(factory_state, standing(), shape->image);
    for (unsigned place = 0; place < VALUES; place++) {
        char unit = unit_for(place, which + place), sign = place < 2 ? '+' : '-';
        ask_put(run, 0, place, unit, sign, "00000000");
        memcpy(words + 16 * place, value_word(place, 0, unit, sign, "00000000"), 16);
    }
    memcpy(nought_state, standing(), shape->image);
    say("GET/I");
    for (unsigned place = 0; place < VALUES; place++) {
        say("/WI");
        say_number(stored[place]);
    }
    n = lay_reply(answered, words, VALUES, is_wide(run));
    ask_line(run, 0, answered, n);
    lay_sheet(factory_state);
    for (unsigned place = VALUES; place > 0; place--)
        splice(value_at(value_line(place - 1)), 0, words + 16 * (place - 1), 15);
    ask_sheet(run);
    lay_factory(&spare);
    ask_load(&spare, 0, 0);
    ask_same(&spare, nought_state, shape->count);
    ask_sheet(&spare);
    for (unsigned i = 0; i < VALUES; i++)
        ask_plain(run, "UNDO", 0);
    ask_plain(run, "UNDO", 29);
    ask_same(run, factory_state, shape->image);
}

/* One value with a unit, a sign and data: put, got, in the sheet and back, undone. */
static void sweep_noughts_value(unsigned place, char unit, char sign, const char *data)
{
    int right = may_put(place, unit, sign);
    char other = sign == '-' ? '+' : '-';
    uint8_t w[16];
    memcpy(w, value_word(place, 0, unit, sign, data), 16);

    /* "26 and 40 follow": the PUT and the sheet's line are right together. */
    lay_factory(run);
    ask_put(run, right ? 0 : 26, place, unit, sign, data);
    ask_get(run, right ? 0 : 27, place, unit, sign, data);
    lay_sheet(factory_state);
    if (!right)
        ask_sheet(run);
    splice(value_at(value_line(place)), 0, w, 15);
    if (right)
        ask_sheet(run);
    lay_factory(&spare);
    ask_load(&spare, right ? 0 : 40, right ? 0 : starts[value_line(place)]);
    ask_same(&spare, right ? standing() : factory_state, shape->count);
    if (right)
        ask_sheet(&spare);
    ask_get(&spare, right ? 0 : 27, place, unit, sign, data);
    ask_plain(&spare, "UNDO", 29);
    /* The line among the others' minus noughts. */
    lay_sheet(nought_state);
    splice(value_at(value_line(place)), 15, w, 15);
    lay_factory(&spare);
    ask_load(&spare, right ? 0 : 40, right ? 0 : starts[value_line(place)]);
    if (right)
        ask_sheet(&spare);
    ask_plain(run, "UNDO", right ? 0 : 29);
    ask_same(run, factory_state, shape->image);
    ask_get(run, 27, place, unit, sign, data);
    if (!right || !may_put(place, unit, other))
        return;

    /* One sign put over the other, and taken back. */
    ask_put(run, 0, place, unit, other, data);
    ask_put(run, 0, place, unit, sign, data);
    ask_get(run, 0, place, unit, sign, data);
    ask_plain(run, "UNDO", 0);
    ask_get(run, 0, place, unit, other, data);
    ask_plain(run, "UNDO", 0);
    ask_get(run, 27, place, unit, sign, data);
    ask_plain(run, "UNDO", 29);
    ask_put(run, 0, place, unit, sign, data);
    ask_plain(run, "KEEP", 0);
    ask_plain(run, "UNDO", 29);
    ask_get(run, 0, place, unit, sign, data);
}

/* 64 entries of both signs before nought, and back. */
static void sweep_noughts_undone(void)
{
    enum { NUMBERS = VALUES - 2 };
    lay_factory(run);
    for (unsigned i = 0; i < ENTRIES; i++)
        ask_put(run, 0, 2 + i % NUMBERS, unit_for(2 + i % NUMBERS, i), (i + i / NUMBERS) % 2 ? '+' : '-', "00000000");
    ask_put(run, 28, 5, '0', '-', "00000000");
    ask_put(run, 26, 5, '2', '-', "00000000");
    for (unsigned i = ENTRIES; i-- > 0;) {
        unsigned place = 2 + i % NUMBERS, before = i - NUMBERS;
        ask_plain(run, "UNDO", 0);
        if (i < NUMBERS)
            ask_get(run, 27, place, 0, 0, "        ");
        else
            ask_get(run, 0, place, unit_for(place, before), (before + before / NUMBERS) % 2 ? '+' : '-', "00000000");
    }
    ask_plain(run, "UNDO", 29);
    ask_same(run, factory_state, shape->image);
}

/* 31: "each value never put or as a PUT can leave it", standing and in an entry, whatever byte the sign is; of TPS300, whose
   values' bytes are the same, the signs and their neighbours. */
static void sweep_noughts_images(unsigned place, char unit)
{
    for (unsigned sign = 0; sign < (series == TPS100 ? 256 : 4); sign++)
        for (unsigned entry = 0; entry < 2; entry++) {
            int right = sign == 0 || (sign == 1 && place >= 2);
            uint8_t *v;
            memcpy(state, nought_state, shape->image);
            empty_undo();
            state[shape->count + 1] = (uint8_t)entry;
            v = state + shape->values + VALUE * place;
            if (entry) {
                state[shape->entries] = 2;
                state[shape->entries + 1] = (uint8_t)place;
                v = state + shape->entries + 3;
            }
            v[0] = 1;
            v[1] = (uint8_t)unit;
            v[2] = (uint8_t)sign;
            memset(v + 3, '0', 8);
            lend_state(shape->image);
            if (!right) {
                ask_plain(&spare, "KEEP", 31);
                check_sheet_write(&spare, shape->sheet);
                continue;
            }
            if (entry)
                ask_plain(&spare, "UNDO", 0);
            ask_get(&spare, 0, place, unit, sign ? '-' : '+', "00000000");
            check_sheet_write(&spare, shape->sheet);
        }
}

static void sweep_noughts_of_lines(void)
{
    kind_name = "sweep of minus nought";
    kind_count = &swept_noughts[FAMILIES + series];
    for (unsigned which = 0; which < 6; which++)
        sweep_noughts_together(which);
    for (unsigned place = 0; place < VALUES; place++)
        for (const char *unit = ".0123456789"; *unit; unit++) {
            for (unsigned k = 0; k < 4; k++)
                sweep_noughts_value(place, *unit, k & 1 ? '-' : '+', k & 2 ? "00000001" : "00000000");
            if (may_put(place, *unit, '+'))
                sweep_noughts_images(place, *unit);
        }
    sweep_noughts_undone();
    /* An angle out of range, with a minus too. */
    lay_factory(run);
    for (unsigned place = 2; place < 4; place++)
        for (unsigned minus = 0; minus < 2; minus++) {
            char sign = minus ? '-' : '+';
            ask_put(run, 26, place, '2', sign, "40000000");
            ask_put(run, 26, place, '3', sign, "36000000");
            ask_put(run, 26, place, '4', sign, "36000000");
            ask_put(run, 26, place, '4', sign, "00060000");
            ask_put(run, 26, place, '4', sign, "00000600");
        }
    ask_same(run, factory_state, shape->image);
    len = 0;
}

/* Sweeps of places: each value of each byte of a word of each kind and unit, of a PUT's word, and of a line of each shape. What is
   wrong first is asked of blame and its like too. */

static uint64_t swept_places[FAMILIES], swept_puts[SERIES], swept_lines[SERIES];

/* A right word of each kind and unit: 11 and 41 with dots and with a block number, text, the units in their order. */
static const char *const samples[FAMILIES][19] = {
    {"11....+A-~!*x.0", "410014+!~!~!~!~", "13....+ABCDEFGH", "79.9.0+00000003", "21.102+39999999", "22.323-00000000", "24.004+35959599",
     "21...5-63999999", "31..00+00265965", "82...1-00000000", "33..46+99999999", "34..17-00010198", "88..38+00010198", "58..06+00000345",
     "59...6-00000345", "51..1.+0009-034"},
    {"11....+A-~!*x.0", "110006+00003000", "419999+!~!~!~!~", "42....+10842V02", "52.999+00000003", "57.1.9+ABCDEFGH", "521...+10842V02",
     "32..00+00016380", "83.1.1-00000000", "32...6+99999999", "83..27-00016380", "32.148+00016380", "83..59+00016380", "330..0+00010198",
     "331161-00010198", "336106+99999999", "374.77-00000000", "571108+00010198", "574..9+00010198"},
};

/* Lays the word, 16 wide with noughts on the left of its data. */
static void lay_sample(uint8_t *w, const char *sample)
{
    unsigned more = block_wide ? 8 : 0;
    memcpy(w, sample, 7);
    memset(w + 7, '0', more);
    memcpy(w + 7 + more, sample + 7, 8);
    w[15 + more] = ' ';
}

/* Whether a block in src that reads but for one word is refused as that word is. A CR where it would start ends the block, and
   the block's first byte may make it wide: these are left to the comparison. */
static void ask_place(uint64_t read, size_t word)
{
    size_t byte;
    unsigned number = blame(family, src + word, block_wide ? 16 : 8, &byte);
    if (src[word] == CR || (src[0] == '*') != (int)block_wide)
        return;
    if (number ? read != ((uint64_t)number << 32 | (word + byte)) : read >> 32 != 0)
        unasked("the refusal is another", read);
}

/* What a byte is changed to where two are at once: one that is wrong everywhere, a digit and a sign. */
static const uint8_t wrong_bytes[] = {127, '9', '-'};

/* Each value of each byte of the word. */
static void sweep_word(size_t word)
{
    size_t each = block_wide ? 24 : 16;
    for (size_t at = word; at < word + each; at++) {
        uint8_t old = src[at];
        int stale = 1;
        for (unsigned b = 0; b < 256; b++)
            ask_place(read_value(at, b, &stale), word);
        src[at] = old;
    }
}

/* Any two bytes of it wrong at once, so that the order counts. */
static void sweep_two(size_t word)
{
    size_t end = word + (block_wide ? 24 : 16);
    for (size_t first = word; first < end; first++) {
        uint8_t old = src[first];
        for (size_t i = 0; i < COUNT_OF(wrong_bytes); i++) {
            src[first] = wrong_bytes[i];
            for (size_t at = first + 1; at < end; at++) {
                uint8_t other = src[at];
                int stale = 1;
                for (size_t k = 0; k < COUNT_OF(wrong_bytes); k++)
                    ask_place(read_value(at, wrong_bytes[k], &stale), word);
                src[at] = other;
            }
        }
        src[first] = old;
    }
}

/* Each sample as the first of two words and as the last of three, in either width. */
static void sweep_places(void)
{
    kind_name = "sweep of places";
    kind_count = &swept_places[family];
    for (block_wide = 0; block_wide < 2; block_wide++)
        for (unsigned i = 0; i < COUNT_OF(samples[0]) && samples[family][i]; i++)
            for (unsigned words = 2; words < 4; words++) {
                unsigned place = words == 2 ? 0 : 2;
                for (unsigned other = 0; other < words; other++)
                    lay_sample(src + word_start(other), samples[family][other == place ? i : (i + other + 5) % 15]);
                end_block(words, (int)(i & 1));
                sweep_word(word_start(place));
                if (place)
                    sweep_two(word_start(place));
            }
    block_wide = 0;
}

/* Mending */

/* 32 wide words with `*` and CR LF; a dot in each word, the last blank and the CR. */
enum { MOST_MENDED = 771, MOST_EDITS = 34 };

static uint64_t (*const mend_by[FAMILIES][2])(const uint8_t *block, size_t n, uint8_t *mended, size_t room, ref_edit *edits,
                                              size_t places) = {{gsi_mend, ref_mend}, {gsi_mend_level, ref_mend_level}};

/* The edits that the library made, and the bytes that it mended. */
static const ref_edit *their_edits(void)
{
    return (const ref_edit *)(void *)(edits.theirs + edits.start);
}

static const uint8_t *their_mended(void)
{
    return mended.theirs + mended.start;
}

/* The bytes that the edits put in, and those of the input as they stand, are what was mended, in their order. */
static int edits_tell(size_t bytes, size_t count)
{
    const uint8_t *input = block.before + block.start;
    const ref_edit *edit = their_edits();
    size_t at = 0, next = 0;
    for (size_t i = 0; i < bytes; i++) {
        uint8_t b = their_mended()[i];
        if (next < count && edit[next].place == at) {
            if (at >= block.len || edit[next].kind < DOT || edit[next].kind > RETURN || b != (uint8_t)". \r"[edit[next].kind - 1])
                return 0;
            next++;
        } else if (at >= block.len || b != input[at++]) {
            return 0;
        }
    }
    return next == count;
}

/* What holds of the library alone: "a block that reads comes back as it is with no edits; what was mended, mended again, is itself
   with no edits; the edits tell the difference"; and what was mended is read to its end. */
static void ask_of_library(unsigned of, uint64_t got)
{
    static ref_word words[32];
    static uint8_t again[MOST_MENDED];
    const uint8_t *input = block.before + block.start;
    uint64_t read = read_by[of][THEIRS](input, block.len, words, 32);
    size_t bytes = got & 0xFFFF, count = got >> 16 & 0xFFFF, used = read & 0xFFFF;

    if (read >> 32 == 0 && got != (mended.len < used ? UINT64_C(14) << 32 | used : used))
        unasked("a block that reads is mended", got);
    if (got >> 32 != 0)
        return;
    if (read >> 32 == 0 && memcmp(their_mended(), input, used) != 0)
        unasked("a block that reads comes back as another", got);
    if (bytes > mended.len || bytes > MOST_MENDED || count > edits.len / sizeof(ref_edit) || count > MOST_EDITS)
        unasked("what was mended is longer than can be", got);
    read = read_by[of][THEIRS](their_mended(), bytes, words, 32);
    if (read >> 32 != 0 || (read & 0xFFFF) != bytes)
        unasked("what was mended isn't read to its end", read);
    if (mend_by[of][THEIRS](their_mended(), bytes, again, bytes, (ref_edit *)(void *)words, 0) != bytes ||
        memcmp(again, their_mended(), bytes) != 0)
        unasked("what was mended is mended again", got);
    if (!edits_tell(bytes, count))
        unasked("the edits don't tell the difference", got);
}

/* Mends the block in src. */
static uint64_t mend_of(unsigned of, size_t n, size_t room, size_t places)
{
    uint64_t theirs, ours;
    begin(MEND + of, &block, &mended);
    now.lent[2] = &edits;
    lend(&block, src, n, IN);
    lend(&mended, 0, room, 0);
    lend(&edits, 0, places * sizeof(ref_edit), BY_FOUR);
    theirs = mend_by[of][THEIRS](block.theirs + block.start, n, mended.theirs + mended.start, room,
                                 (ref_edit *)(void *)(edits.theirs + edits.start), places);
    ours = mend_by[of][OURS](block.ours + block.start, n, mended.ours + mended.start, room,
                             (ref_edit *)(void *)(edits.ours + edits.start), places);
    compare(theirs, ours);
    ask_of_library(of, theirs);
    return ours;
}

/* The family's case goes to the other family's function at times. */
static void check_mend(size_t n, size_t room, size_t places)
{
    mend_of(family, n, room, places);
    if (one_in(8))
        mend_of(!family, n, room, places);
}

/* The words of a right block, with its `*`, from which the block in src is spoiled; and what that is to give: whether it is known here
   (or left to the comparison), the reader's refusal if there is one, what was mended and the edits. */
static uint8_t whole[MOST + GUARD];
static struct {
    int known;
    uint64_t refusal;
    size_t bytes, edits;
    uint8_t mended[MOST];
    ref_edit edit[128];
} wished;

/* A word of 42-49 with four dots, one of which a print program leaves out. */
static int has_four_dots(const uint8_t *w)
{
    return w[0] == '4' && w[1] >= '2' && w[1] <= '9' && memcmp(w + 2, "....", 4) == 0;
}

static void wish_edit(size_t place, unsigned kind)
{
    wished.edit[wished.edits].place = (uint32_t)place;
    wished.edit[wished.edits].kind = kind;
    wished.edits++;
}

static uint64_t refused_by(unsigned number, size_t told)
{
    return (uint64_t)number << 32 | told;
}

/* What the block in src is to give, whose words end at that place, the last one with its blank or not. */
static void wish(size_t end, int stripped)
{
    int cr = end < len && src[end] == CR, lf = end + cr < len && src[end + cr] == LF;

    wished.known = cr || lf || end == len || block_words > 32;
    wished.refusal = 0;
    wished.bytes = word_start(block_words);
    memcpy(wished.mended, whole, wished.bytes);
    if (block_words > 32)
        wished.refusal = refused_by(4, word_start(32));
    else if (len == 0)
        wished.refusal = refused_by(1, 0);
    else if (end == len)
        wished.refusal = refused_by(block_words == 32 && !stripped ? 4 : 2, word_start(block_words - (unsigned)stripped));
    else if (block_words == 0)
        wished.refusal = refused_by(3, 0);
    if (stripped && (cr || lf))
        wish_edit(end, BLANK);
    if (lf && !cr)
        wish_edit(end, RETURN);
    wished.mended[wished.bytes++] = CR;
    if (lf)
        wished.mended[wished.bytes++] = LF;
}

/* Where the words of the block in src start, and where the last one ends. */
static size_t spoiled_at[128];

/* How the last word ends, and what comes after. */
enum { BY_CR, BY_CRLF, BY_LF, BY_NOTHING, ENDS };
enum { THEN_NOTHING, THEN_LF, THEN_CRLF, THEN_BLOCK, THEN_JUNK, THENS };

/* Spoils the words in whole into src: the dot left out of those of 42-49 whose bit is set, the last blank stripped or not, one of
   the ends, and what follows. */
static void spoil(uint64_t dots, int strip, unsigned end, unsigned then)
{
    static const char *const ends[ENDS] = {"\r", "\r\n", "\n", ""};
    size_t each = block_wide ? 24 : 16, more = word_start(block_words);

    wished.edits = 0;
    src[0] = '*';
    len = block_wide;
    strip = strip && block_words > 0;
    for (unsigned i = 0; i < block_words; i++) {
        const uint8_t *w = whole + word_start(i);
        size_t kept = each - 6 - (strip && i + 1 == block_words);
        spoiled_at[i] = len;
        memcpy(src + len, w, 5);
        len += 5;
        if (dots >> i % 64 & 1 && has_four_dots(w))
            wish_edit(len, DOT);
        else
            src[len++] = w[5];
        memcpy(src + len, w + 6, kept);
        len += kept;
    }
    spoiled_at[block_words] = len;
    say(ends[end]);
    switch (then) {
    case THEN_LF:
        say("\n");
        break;
    case THEN_CRLF:
        say("\r\n");
        break;
    case THEN_BLOCK:
        if (more > 80)
            more = 80;
        memcpy(src + len, whole, more);
        len += more;
        say("\r\n");
        break;
    case THEN_JUNK:
        say("x\n\r 42...+\r*");
        break;
    default:
        break;
    }
    wish(spoiled_at[block_words], strip);
}

/* Mends the block in src: it is refused so, by 14, then by 11, or mended so, and what is beyond is as before. */
static void ask_mend(size_t room, size_t places)
{
    uint64_t got = mend_of(family, len, room, places), asked_answer = wished.refusal;
    size_t bytes = 0, made = 0;

    if (!wished.known)
        return;
    if (asked_answer == 0 && room < wished.bytes) {
        asked_answer = refused_by(14, wished.bytes);
    } else if (asked_answer == 0 && places < wished.edits) {
        asked_answer = refused_by(11, wished.edits);
    } else if (asked_answer == 0) {
        bytes = wished.bytes;
        made = wished.edits * sizeof(ref_edit);
        asked_answer = bytes | wished.edits << 16;
    }
    if (got != asked_answer) {
        hex("asked", (const uint8_t *)&asked_answer, sizeof asked_answer);
        unasked("the block is mended otherwise", got);
    }
    if (memcmp(their_mended(), wished.mended, bytes) != 0 ||
        memcmp(their_mended() + bytes, mended.before + mended.start + bytes, mended.len - bytes) != 0)
        unasked("what was mended is another", got);
    if (memcmp(their_edits(), wished.edit, made) != 0 ||
        memcmp(edits.theirs + edits.start + made, edits.before + edits.start + made, edits.len - made) != 0)
        unasked("the edits are others", got);
}

/* Cases of mending */

/* A right block, or with words at the edges one in that many, with more of 42-49 among its words, is spoiled into src. */
static void make_listing(unsigned words, unsigned edges)
{
    uint64_t dots = next64();
    unsigned of_text = below(5), end = below(ENDS + 4), then = one_in(2) ? THEN_NOTHING : below(THENS);
    int strip = one_in(2);

    make_block(words, edges);
    for (unsigned i = 0; i < words; i++)
        if (below(4) < of_text) {
            uint8_t *w = src + word_start(i);
            word_of(w, block_wide ? 16 : 8, 't', 42 + below(8), 0);
            if (of_text == 4 || !one_in(8))
                memset(w + 2, '.', 4);
            if (one_in(8))
                memcpy(w + 7 + below(block_wide ? 12 : 4), "...+", 4);
        }
    memcpy(whole, src, word_start(words));
    switch (below(4)) {
    case 0:
        dots = 0;
        break;
    case 1:
        dots = UINT64_MAX;
        break;
    case 2:
        dots &= next64();
        break;
    default:
        break;
    }
    spoil(dots, strip, end < ENDS ? end : BY_LF, then);
}

/* How many words a listing has: at times none, or more than 32. */
static unsigned some_listing(void)
{
    if (one_in(12))
        return one_in(2) ? 33 : 33 + below(40);
    return one_in(40) ? 0 : some_words();
}

static uint64_t needed(size_t n)
{
    static uint8_t to[MOST_MENDED];
    static ref_edit made[MOST_EDITS];
    uint64_t got = mend_by[family][OURS](src, n, to, sizeof to, made, MOST_EDITS);
    return got >> 32 ? 40 | 3 << 16 : got;
}

/* A room and a list about what the block in src needs. */
static void mend_about(size_t n)
{
    uint64_t need = needed(n);
    size_t room = some_length(need & 0xFFFF), places = some_length(need >> 16);
    check_mend(n, room, places);
}

static void mend_spoiled(void)
{
    size_t room, places;
    make_listing(some_listing(), 0);
    room = some_length(wished.bytes);
    places = some_length(wished.edits);
    ask_mend(room, places);
    if (one_in(8))
        mend_of(!family, len, room, places);
}

/* One to three bytes changed, put in or left out. */
static void mend_wrong(void)
{
    make_listing(some_listing(), 4);
    for (unsigned times = 1 + below(one_in(4) ? 3 : 1); times > 0; times--) {
        size_t at = below(len + 1);
        switch (below(4)) {
        case 0: /* one of the bytes that mending looks at, put in or in the place of another */
            if (one_in(2) && at < len)
                src[at] = (uint8_t)one_of("\r\n .+4*");
            else
                splice(at, 0, (const char[1]){one_of("\r\n .+4*")}, 1);
            break;
        case 1: /* about a word's start, or its blank */
            at = block_words ? word_start(below(block_words + 1)) : 0;
            at = at > 2 ? at - 2 : 0;
            if (at < len)
                damage(at, at + 9 < len ? at + 9 : len);
            break;
        default:
            if (len > 0)
                damage(0, len);
            break;
        }
    }
    mend_about(len);
}

/* Each value of one byte of a short block. */
static void mend_each_value(void)
{
    size_t at;
    make_listing(1 + below(2), 8);
    at = below(len);
    for (unsigned b = 0; b < 256; b++) {
        src[at] = (uint8_t)b;
        check_mend(len, 100, one_in(8) ? below(6) : MOST_EDITS);
    }
}

static void mend_cut(void)
{
    make_listing(one_in(60) ? 33 : 1 + below(3), 8);
    for (size_t n = 0; n <= len; n++)
        mend_about(n);
}

/* Every room to just beyond what is needed, then every list. */
static void mend_rooms(void)
{
    uint64_t need;
    make_listing(one_in(40) ? 32 : 1 + below(4), 0);
    need = needed(len);
    for (size_t room = 0; room <= (need & 0xFFFF) + 4; room++)
        check_mend(len, room, some_length(need >> 16));
    for (size_t places = 0; places <= (need >> 16) + 3; places++)
        check_mend(len, some_length(need & 0xFFFF), places);
}

/* A word's dot left out or put in, whatever the word; its blank left out, doubled or another byte, or an end there; words exchanged,
   or one of the other family; another index with its dots. */
static void mend_words(void)
{
    size_t each, at, blank, n;
    unsigned word, other, index;
    const char *more;
    char kind;
    make_listing(2 + below(31), 0);
    each = block_wide ? 24 : 16;
    if (one_in(3))
        spoil(0, 0, one_in(2) ? BY_LF : BY_CRLF, THEN_NOTHING);
    word = below(block_words - 1);
    other = below(block_words);
    at = spoiled_at[word];
    blank = spoiled_at[word + 1] - 1;
    switch (below(7)) {
    case 0:
        splice(at + 2 + below(4), 1, "", 0);
        break;
    case 1:
        more = one_in(4) ? "+" : ".";
        splice(at + 2 + below(5), 0, more, 1);
        break;
    case 2:
        more = one_in(2) ? "\r\n" : "\n\r";
        n = below(3);
        splice(blank, 1, more, n);
        break;
    case 3:
        more = one_in(2) ? "\r\n" : "\n ";
        n = 1 + below(2);
        splice(blank, 0, more, n);
        break;
    case 4:
        swap(src + at, src + spoiled_at[other], one_in(2) ? each : 6);
        break;
    case 5:
        index = some_index(!family, &kind);
        word_of(src + at, (unsigned)each - 8, kind, index, 0);
        break;
    default:
        lay_index(src + at, 39 + below(13));
        memcpy(src + at + 2, one_in(2) ? "...+" : "....", 4);
        break;
    }
    mend_about(len);
}

/* Any bytes, or pieces of what mending looks at. */
static void mend_random(void)
{
    static const char *const pieces[] = {"42...+", "49...+", "41...+", "42....+", "00007142", "0000000000007142", " ", "\r", "\n", "\r\n",
                                         "+", ".", "*"};
    size_t most = one_in(10) ? 1600 : 60;
    len = 0;
    for (size_t i = 0; i < sizeof src; i++)
        src[i] = (uint8_t)(one_in(3) ? below(256) : (unsigned)one_of("0123456789.+- *\r\n"));
    if (one_in(2))
        len = below(most);
    else
        while (len < most && !one_in(12))
            say(PICK(pieces));
    mend_about(len);
}

/* Sweeps of mending: right blocks spoiled in each way and all mixtures of them, with rooms and lists from too short to larger; each
   value of each byte, each byte left out and others put in, each cut; and long inputs. */

static uint64_t swept_mends[FAMILIES];

/* Words of 42-49 with four dots, their data like what mending looks at. */
static const char *const four_dots[8] = {"42....+00007142", "43....+00005.27", "44....+...+0000", "45....++.......",
                                         "46....+42...+00", "47....+!~!~!~!~", "48....+........", "49....+++++++++"};

/* Right words that have dots and get none, besides the samples. */
static const char *const other_dots[FAMILIES][12] = {
    {"41....+00000020", "42...7+00007142", "43.1..+00007142", "44..9.+...+...+", "49.999+00000001", "12....+...+0000", "16....+00000003",
     "52....+00007142", "53....+00007142", "71....+42...+00", "19....+++++++++", "79....+........"},
    {"41....+00000020", "42...7+00007142", "43.1..+00007142", "44..9.+...+...+", "49.999+00000001", "52....+...+0000", "57....+42...+00"},
};

static unsigned count_words(const char *const *words, unsigned most)
{
    unsigned n = 0;
    while (n < most && words[n])
        n++;
    return n;
}

/* Lays right words in whole from the first one on: every one with four dots, or every other, and any kind of word between. */
static void lay_words(unsigned words, unsigned first, int all)
{
    unsigned of_samples = count_words(samples[family], COUNT_OF(samples[0]));
    unsigned of_dots = count_words(other_dots[family], COUNT_OF(other_dots[0]));
    block_words = words;
    whole[0] = '*';
    for (unsigned i = 0; i < words; i++) {
        unsigned k = first + i, other = k / 2 % (of_samples + of_dots);
        const char *word = all ? four_dots[k % 8] : four_dots[k / 2 % 8];
        if (!all && k % 2)
            word = other < of_samples ? samples[family][other] : other_dots[family][other - of_samples];
        lay_sample(whole + word_start(i), word);
    }
}

/* The words in whole that have four dots. */
static uint64_t words_with_dots(void)
{
    uint64_t set = 0;
    for (unsigned i = 0; i < block_words; i++)
        if (has_four_dots(whole + word_start(i)))
            set |= UINT64_C(1) << i;
    return set;
}

/* The spoiled block with rooms and lists from too short to larger: each with each, or with just enough of both and one pair more. */
static void ask_mends(int each)
{
    static unsigned turn;
    size_t bytes = wished.bytes, count = wished.edits;
    const size_t rooms[] = {bytes, bytes - 1, bytes + 1, bytes + 40, 0}, lists[] = {count, count - (count > 0), count + 1, count + 6, 0};
    for (unsigned i = 0; i < COUNT_OF(rooms); i++)
        for (unsigned k = 0; k < COUNT_OF(lists); k++)
            if (each || i + k == 0 || turn % 25 == i * 5 + k)
                ask_mend(rooms[i], lists[k]);
    turn++;
}

/* The words in whole, the dots left out of that set of them: with the last blank and without, each end, and all that may follow; or
   one of these in its turn. */
static void ask_spoiled(uint64_t dots, int all)
{
    static unsigned turn;
    for (unsigned how = 0; how < 2 * ENDS * THENS; how++)
        if (all || (how + turn) % 8 == 0) {
            spoil(dots, how & 1, how / 2 % ENDS, how / 2 / ENDS);
            ask_mends(block_words <= 2);
        }
    turn++;
}

/* Of few words every set, of many: none, all, every other, each alone and all but each. */
static void ask_sets(void)
{
    uint64_t set = words_with_dots(), every_other = set & UINT64_C(0x3333333333333333);
    if (block_words <= 5) {
        uint64_t dots = 0;
        do {
            ask_spoiled(dots, 1);
            dots = (dots - set) & set;
        } while (dots != 0);
        return;
    }
    ask_spoiled(0, 1);
    ask_spoiled(set, 1);
    ask_spoiled(every_other, 1);
    for (unsigned i = 0; i < block_words; i++)
        if (set >> i & 1) {
            ask_spoiled(UINT64_C(1) << i, 0);
            ask_spoiled(set & ~(UINT64_C(1) << i), 0);
        }
}

static void sweep_spoiled(void)
{
    static const unsigned counts[] = {1, 2, 5, 31, 32, 33};
    for (int all = 0; all < 2; all++)
        for (size_t i = 0; i < COUNT_OF(counts); i++) {
            unsigned firsts = counts[i] > 5 ? 2 : all ? 8 : 62, step = counts[i] == 5 && !all ? 5 : 1;
            for (unsigned first = 0; first < firsts; first += step) {
                lay_words(counts[i], first, all);
                ask_sets();
            }
        }
    /* No words: nothing, `*`, and either with an end. */
    lay_words(0, 0, 1);
    ask_spoiled(0, 1);
}

/* Blocks of one, two and three words, spoiled or not: each value of each byte, each byte left out, others put in, and each cut. */
static void sweep_changed(void)
{
    static uint8_t spoiled[MOST];
    size_t n;
    for (unsigned words = 1; words <= 3; words++)
        for (unsigned how = 0; how < 4; how++) {
            lay_words(words, how * 3 + words, how > 1);
            spoil(how & 1 ? UINT64_MAX : 0, how & 1, how == 3 ? BY_LF : how ? BY_CRLF : BY_CR, how == 2 ? THEN_BLOCK : THEN_NOTHING);
            memcpy(spoiled, src, n = len);
            for (size_t at = 0; at < n; at++) {
                for (unsigned b = 0; words < 3 && b < 256; b++) {
                    src[at] = (uint8_t)b;
                    mend_of(family, n, 130, MOST_EDITS);
                }
                memcpy(src, spoiled, len = n);
                splice(at, 1, "", 0);
                mend_of(family, len, 130, MOST_EDITS);
                for (const char *more = "\r\n .+-*04\t"; *more; more++) {
                    memcpy(src, spoiled, len = n);
                    splice(at, 0, more, 1);
                    mend_of(family, len, 130, MOST_EDITS);
                }
                memcpy(src, spoiled, len = n);
                mend_of(family, at, 130, MOST_EDITS);
            }
        }
    lay_words(33, 0, 1);
    spoil(UINT64_MAX, 1, BY_LF, THEN_NOTHING);
    for (n = 0; n <= len; n++)
        mend_of(family, n, MOST_MENDED, MOST_EDITS);
}

/* Each two digits, and each of a dot, a plus, a minus and a digit at positions 3-6 of a word that lacks a byte before its data: only 42-49
   with three dots and a plus are mended. Of any other the blank, if it is there, is the last data byte and the end gets one; if it isn't,
   the end is that byte and the word stays too short. */
static void sweep_prefixes(void)
{
    for (unsigned two = 0; two < 100; two++)
        for (unsigned i = 0; i < 4 * 4 * 4 * 4; i++) {
            unsigned width = block_wide ? 16 : 8, how = (two + i) % 3, number = 2;
            uint8_t *w = src + block_wide, word[24];
            size_t byte = 0;
            lay_words(1, 0, 1);
            spoil(1, how == 2, how ? BY_LF : BY_CR, THEN_NOTHING);
            digits(w, 2, two);
            for (unsigned at = 2, rest = i; at < 6; at++, rest /= 4)
                w[at] = (uint8_t)".+-0"[rest % 4];
            if (two >= 42 && two <= 49 && memcmp(w + 2, "...+", 4) == 0) {
                digits(wished.mended + block_wide, 2, two);
                ask_mend(wished.bytes, 3);
                continue;
            }
            if (how != 2) {
                memcpy(word, w, 7 + width);
                word[7 + width] = ' ';
                number = blame(family, word, width, &byte);
            }
            wished.refusal = refused_by(number, block_wide + byte);
            ask_mend(wished.bytes, 3);
        }
}

/* An input of any length is mended by its first block alone. */
static void sweep_long(void)
{
    enum { LONG = 1 << 18 };
    static uint8_t input[LONG];
    static uint8_t to[2][MOST_MENDED];
    static ref_edit made[2][MOST_EDITS];
    static const char *const fills[] = {"42...+00007142 ", "42....+00007142 ", "31..00+00000001 ", "*", "\r", "\n", "+", "4", ".", " ",
                                        "42...+"};
    for (size_t i = 0; i < COUNT_OF(fills); i++)
        for (unsigned how = 0; how < 6; how++) {
            uint64_t got[2];
            size_t n = strlen(fills[i]);
            lay_words(how < 2 ? 0 : how < 4 ? 1 : 32, 0, 1);
            spoil(UINT64_MAX, how & 1, how == 2 ? BY_NOTHING : BY_LF, THEN_NOTHING);
            if (how == 0)
                len = 0;
            memcpy(input, src, len);
            for (size_t at = len; at < LONG; at++)
                input[at] = (uint8_t)fills[i][(at - len) % n];
            memset(to, 7, sizeof to);
            memset(made, 7, sizeof made);
            begin(MEND + family, 0, 0);
            for (int by = THEIRS; by <= OURS; by++)
                got[by] = mend_by[family][by](input, LONG - i, to[by], MOST_MENDED, made[by], MOST_EDITS);
            compare(got[THEIRS], got[OURS]);
            if (memcmp(to[THEIRS], to[OURS], MOST_MENDED) != 0 || memcmp(made[THEIRS], made[OURS], sizeof made[0]) != 0)
                unasked("a long input is mended to another", got[THEIRS]);
            if (how != 0 && how != 2 && got[THEIRS] != (wished.refusal ? wished.refusal : wished.bytes | wished.edits << 16))
                unasked("a long input is mended otherwise", got[THEIRS]);
        }
}

static void sweep_mends(void)
{
    kind_name = "sweep of mending";
    kind_count = &swept_mends[family];
    for (block_wide = 0; block_wide < 2; block_wide++) {
        sweep_spoiled();
        sweep_changed();
        sweep_prefixes();
        sweep_long();
    }
    block_wide = 0;
}

/* Whether the n bytes have the pattern: `#` is a number ("1 to 4 digits and no leading zero, save `0` itself"), `%` a digit, `?` any
   byte, another its own. */
static int has_pattern(const char *pattern, const uint8_t *p, size_t n)
{
    for (; *pattern; pattern++) {
        size_t taken = 1;
        if (*pattern == '#') {
            for (taken = 0; taken < n && among(figures, p[taken]);)
                taken++;
            if (taken == 0 || taken > 4 || (taken > 1 && p[0] == '0'))
                return 0;
        } else if (n == 0 || (*pattern == '%' ? !among(figures, *p) : *pattern != '?' && (uint8_t)*pattern != *p)) {
            return 0;
        }
        p += taken;
        n -= taken;
    }
    return n == 0;
}

/* What is wrong with a line, short of what it asks for: 20, 21, 22 or 39, or 0 where it has one of the shapes. */
static unsigned blame_line(const uint8_t *p, size_t n)
{
    char get[120] = "GET/I";
    int known = 0;
    if (n > 0 && p[n - 1] == LF)
        n--;
    if (n == 0 || p[--n] != CR)
        return 20;
    for (size_t i = 0; i < n; i++)
        if (p[i] == CR || p[i] == LF)
            return 20;
    if (n > 100)
        return 21;
    for (size_t i = 0; i < COUNT_OF(keywords); i++)
        known |= n >= strlen(keywords[i]) && memcmp(p, keywords[i], strlen(keywords[i])) == 0;
    if (!known)
        return 22;
    for (size_t i = 5; i + 5 <= n || i == 5; i += 5) /* as many indexes as the line has place for */
        memcpy(get + i, "/WI%%", 6);
    if (has_pattern("SET/#/#", p, n) || has_pattern("CONF/#", p, n) || has_pattern("PUT/????????????????", p, n) ||
        has_pattern(get, p, n) || has_pattern("UNDO", p, n) || has_pattern("KEEP", p, n))
        return 0;
    return 39;
}

/* Plays the line in src, its end included, on the state at hand, and sees that it is refused as blame_line says; a PUT by 25, or by
   26 and where. 28 and 29 don't come: the state has an entry, and room for more. */
static void ask_line_place(void)
{
    static const char stored_names[] = "1116212434838485868788";
    unsigned number = blame_line(src, len), place = 0;
    uint64_t got, where = 0;
    size_t byte;
    if (number == 0 && src[0] == 'P') {
        while (place < VALUES && memcmp(src + 4, stored_names + 2 * place, 2) != 0)
            place++;
        number = place == VALUES ? 25 : 0;
        if (number == 0) {
            unsigned rule = blame_put(place, src + 4, &byte);
            number = rule ? 26 : 0;
            where = rule ? (uint64_t)rule << 16 | (uint64_t)(4 + byte) << 24 : 0;
        }
    }
    got = check_line(&spare, len, shape->reply);
    if (number && got != ((uint64_t)number << 32 | where | (5 + end_length(&spare))))
        unasked("the refusal is another", got);
    if (!number && (got >> 32 == 20 || got >> 32 == 21 || got >> 32 == 22 || got >> 32 == 39 || (got >> 32 != 0 && src[0] == 'P')))
        unasked("the line is refused", got);
    if (got >> 32 == 0)
        lend_state(shape->image);
}

/* The state with minus nought in every value, which the sweep of these left, with one entry standing, and CR LF for an end, or
   CR. */
static void lend_for_lines(int crlf)
{
    memset(state, 0, sizeof state);
    memcpy(state, nought_state, shape->image);
    empty_undo();
    state[1 + shape->of_73] = (uint8_t)crlf;
    state[shape->count + 1] = 1;
    state[shape->entries] = 1;
    state[shape->entries + 1] = (uint8_t)shape->of_73;
    lend_state(shape->image);
}

/* A PUT of each stored value with each of its units: each value of each of the word's 16 positions, and any two of them wrong
   at once. */
static void sweep_puts(void)
{
    static const char *const data[] = {"PNC0058A", "!~!~!~!~", "35959599", "00000000", "00001550", "99999999"};
    kind_name = "sweep of PUT places";
    kind_count = &swept_puts[series];
    for (unsigned place = 0; place < VALUES; place++)
        for (unsigned which = 0; which < (place < 2 ? 1u : place < 4 ? 3u : 2u); which++) {
            unsigned n = place < 2 ? place : place < 4 ? 2 + which % 2 : 4 + which;
            lend_for_lines((int)which & 1);
            len = 0;
            say("PUT/");
            memcpy(src + len, value_word(place, 1, unit_for(place, which), place > 2 && which % 2 ? '-' : '+', data[n]), 16);
            len += 16;
            say(which & 1 ? "\r\n" : "\r");
            for (size_t at = 4; at < 20; at++) {
                uint8_t old = src[at];
                for (unsigned b = 0; b < 256; b++) {
                    src[at] = (uint8_t)b;
                    ask_line_place();
                }
                for (size_t i = 0; i < COUNT_OF(wrong_bytes); i++) {
                    src[at] = wrong_bytes[i];
                    for (size_t later = at + 1; later < 20; later++) {
                        uint8_t other = src[later];
                        for (size_t k = 0; k < COUNT_OF(wrong_bytes); k++) {
                            src[later] = wrong_bytes[k];
                            ask_line_place();
                        }
                        src[later] = other;
                    }
                }
                src[at] = old;
            }
        }
    /* 30 in the place of 26 tells nothing, whatever the rule; with just the room, all of it. */
    for (size_t at = 6; at < 20; at++) {
        len = 0;
        say("PUT/21...2+39999999 \r");
        src[at] = at == 11 ? '4' : 'x';
        ask_where(at < 10 ? 6 : at == 10 ? 7 : at == 11 ? 10 : at < 19 ? 8 : 9, at);
        for (size_t room = 0; room < 10; room++)
            ask_reply(&spare, 26, "@W127", 5, room);
    }
    /* With 64 entries 26 comes before 28. */
    for (unsigned i = 0; i < ENTRIES; i++) {
        state[shape->entries + ENTRY * i] = 1;
        state[shape->entries + ENTRY * i + 1] = (uint8_t)shape->of_73;
    }
    state[shape->count + 1] = ENTRIES;
    lend_state(shape->image);
    ask_put(&spare, 28, 5, '0', '+', "00000000");
    ask_put(&spare, 26, 5, '2', '+', "00000000");
    ask_put(&spare, 26, 5, '0', '*', "00000000");
    ask_put(&spare, 26, 5, '0', '+', "000A5320");
    ask_put(&spare, 26, 2, '4', '+', "00060000");
    len = 0;
}

/* Lines of each shape, some of which ask for what isn't there: each beginning, each value of each byte, each byte left out, others
   put in before it; every keyword with remainders one after another, and with any byte and two after it. */
static void sweep_lines(void)
{
    static const char *const shaped[] = {"SET/73/1", "SET/33/1", "SET/90/9", "CONF/103", "CONF/1", "PUT/88...0+00001550 ", "GET/I/WI88",
                                         "GET/I/WI11/WI21", "GET/I/WI12/WI88", "UNDO", "KEEP"};
    static const char put_in_bytes[] = "/0123456789 .+-SETCONFPUGIWDK\r\n\t*x";
    kind_name = "sweep of lines";
    kind_count = &swept_lines[series];
    for (size_t i = 0; i < COUNT_OF(shaped); i++) {
        size_t n = strlen(shaped[i]);
        lend_for_lines((int)i & 1);
        for (size_t cut = 0; cut <= n; cut++) {
            len = 0;
            say(shaped[i]);
            len = cut;
            say(cut & 1 ? "\r\n" : "\r");
            ask_line_place();
        }
        len = 0;
        say(shaped[i]);
        say("\r\n");
        for (size_t at = 0; at < len; at++) {
            uint8_t old = src[at];
            for (unsigned b = 0; b < 256; b++) {
                src[at] = (uint8_t)b;
                ask_line_place();
            }
            splice(at, 1, "", 0);
            ask_line_place();
            splice(at, 0, &old, 1);
            splice(at, 0, &old, 1);
            for (size_t k = 0; k < sizeof put_in_bytes; k++) {
                src[at] = (uint8_t)put_in_bytes[k];
                ask_line_place();
            }
            splice(at, 1, "", 0);
        }
    }
    for (size_t k = 0; k < COUNT_OF(keywords); k++) {
        for (size_t i = 0; i < COUNT_OF(remainders); i++)
            for (size_t more = 0; more < COUNT_OF(remainders); more += 1 + i % 5) {
                len = 0;
                say(keywords[k]);
                say(remainders[i]);
                say(remainders[more]);
                say("\r");
                ask_line_place();
            }
        for (unsigned b = 0; b < 256; b++)
            for (unsigned two = 0; two < 2; two++) {
                len = 0;
                say(keywords[k]);
                say_byte((uint8_t)b);
                say(two ? "0\r" : "\r");
                ask_line_place();
            }
        /* The longest line that isn't 21, and one more. */
        for (size_t n = 99; n < 103; n++) {
            len = 0;
            say(keywords[k]);
            while (len < n)
                say("0");
            say("\r\n");
            ask_line_place();
            src[0]++;
            ask_line_place();
        }
    }
    len = 0;
}

/* Sweeps of the series: every number and parameter, every count of a GET, every line of a sheet in either form, every entry's line,
   every short list, every byte of an image. What a case is to give is said here too, where the settings' rows say it. */

enum { OF_SETTINGS, OF_REPLIES, OF_SHEETS, OF_SHEETS_2, OF_ENTRIES, OF_LISTS, OF_IMAGES, PARTS };
static const char *const part_names[PARTS] = {"settings", "replies", "sheets", "sheets of form 2", "entries", "lists", "images"};
static uint64_t swept_parts[SERIES][PARTS];

/* The place of the number among the series' settings, their count when it has none. */
static unsigned place_of(unsigned number)
{
    unsigned place = 0;
    while (place < shape->settings && shape->setting[place].number != number)
        place++;
    return place;
}

/* A SET with that many entries standing. 103: "38 for SET of a read-only number, after 23; 24 also covers a parameter below the
   lowest or between modes." */
static unsigned ask_set(struct lent *image, unsigned number, unsigned parameter, unsigned entries)
{
    unsigned place = place_of(number), wrong = 0;
    if (place == shape->settings)
        wrong = 23;
    else if (shape->setting[place].read_only)
        wrong = 38;
    else if (!takes(&shape->setting[place], parameter))
        wrong = 24;
    else if (entries == ENTRIES)
        wrong = 28;
    len = 0;
    say_set_of(number, parameter);
    ask_said(image, wrong);
    return wrong;
}

static void ask_conf(struct lent *image, unsigned number)
{
    unsigned place = place_of(number);
    uint8_t answered[9];
    len = 0;
    say("CONF/");
    say_number(number);
    if (place == shape->settings) {
        ask_said(image, 23);
        return;
    }
    digits(answered, 4, number);
    answered[4] = '/';
    digits(answered + 5, 4, image->theirs[image->start + 1 + place]);
    ask_line(image, 0, answered, 9);
}

/* Every number to 200 with every parameter to 300, at the factory; then parameters about the ends with 64 entries standing. */
static void sweep_settings(void)
{
    kind_name = "sweep of settings";
    kind_count = &swept_parts[series][OF_SETTINGS];
    lay_factory(run);
    memcpy(factory_state, standing(), shape->image);
    for (unsigned place = 0; place < shape->settings; place++) {
        const struct setting *setting = &shape->setting[place];
        unsigned first = setting->lowest; /* 103: "Factory values are each setting's lowest." */
        if (series == TPS100) /* "70 is 5, 73 is 1, 103 is 1, the rest 0" */
            first = setting->number == 70 ? 5 : setting->number == 73 || setting->number == 103;
        if (factory_state[1 + place] != first)
            unasked("the factory's parameter is another", 0);
    }
    for (unsigned number = 0; number <= 200; number++) {
        ask_conf(run, number);
        for (unsigned parameter = 0; parameter <= 300; parameter++) {
            if (ask_set(run, number, parameter, 0) != 0)
                continue;
            ask_conf(run, number);
            ask_set(run, number, shape->setting[place_of(number)].lowest, 1); /* which UNDO is to take back to the parameter */
            ask_plain(run, "UNDO", 0);
            if (standing()[1 + place_of(number)] != parameter)
                unasked("the parameter isn't stored", 0);
            ask_conf(run, number);
            ask_plain(run, "UNDO", 0);
            ask_same(run, factory_state, shape->image);
        }
        ask_set(run, number, 9999, 0);
        /* 30 replaces 23, 24 and 38 alike. */
        len = 0;
        say_set_of(number, 9999);
        say("\r");
        for (size_t room = 0; room < 9; room++) {
            unsigned place = place_of(number);
            ask_reply(run, place == shape->settings ? 23 : shape->setting[place].read_only ? 38 : 24, "@W127", 5, room);
        }
    }
    /* Numbers that a byte would take for a setting's. */
    for (unsigned place = 0; place < shape->settings; place++)
        for (unsigned number = shape->setting[place].number + 256u; number <= 9999; number += 256) {
            ask_set(run, number, shape->setting[place].lowest, 0);
            ask_conf(run, number);
        }
    ask_same(run, factory_state, shape->image);
    for (unsigned i = 0; i < ENTRIES; i++)
        ask_set(run, 73, (i + 1) % 2, i);
    for (unsigned number = 0; number <= 200; number++) {
        unsigned place = place_of(number);
        unsigned highest = place < shape->settings ? shape->setting[place].highest : 0;
        for (unsigned parameter = 0; parameter < 12; parameter++)
            ask_set(run, number, parameter, ENTRIES);
        for (unsigned parameter = highest ? highest - 1 : 0; parameter <= highest + 2; parameter++)
            ask_set(run, number, parameter, ENTRIES);
        ask_set(run, number, 9999, ENTRIES);
        ask_conf(run, number);
    }
    memcpy(state, standing(), shape->image);
    ask_plain(lend_state(shape->image), "KEEP", 0);
    empty_undo();
    ask_same(&spare, state, shape->image);
    for (unsigned i = 0; i < ENTRIES; i++)
        ask_plain(run, "UNDO", 0);
    ask_plain(run, "UNDO", 29);
    ask_same(run, factory_state, shape->image);
}

/* GET of 1 to 19 indexes, with either end and, where the series has it, either width; rooms about the reply's length, and
   those that are ample for other replies. */
static void sweep_replies(void)
{
    static const size_t rooms[] = {0, 1, 2, 3, 5, 6, 7, 16, 17, 18, 24, 25, 26, 27, 304, 305, 306, 307, 456, 457, 458, 459, 460};
    static const char *const data[] = {"00000000", "PNC0058A", "35959599", "00001550", "99999999"};
    uint8_t words[VALUES * 16], asked_words[19 * 16], answered[MOST_REPLY];
    unsigned widths = shape->of_137 < shape->settings ? 2 : 1;

    kind_name = "sweep of replies";
    kind_count = &swept_parts[series][OF_REPLIES];
    for (unsigned k = 0; k < 2 * widths; k++) {
        lay_factory(run);
        poke(run, 1 + shape->of_73, k & 1);
        for (unsigned place = 0; place < VALUES; place++) {
            const char *put = data[place < 2 ? place : place < 4 ? 2 : 3 + place % 2];
            char unit = unit_for(place, 2), sign = place > 2 && place % 2 ? '-' : '+';
            ask_put(run, 0, place, unit, sign, put);
            memcpy(words + 16 * place, value_word(place, 0, unit, sign, put), 16);
        }
        if (k & 2)
            ask_plain(run, "SET/137/1", 0);
        for (unsigned count = 1; count <= 19; count++) {
            size_t n, need;
            len = 0;
            say("GET/I");
            for (unsigned i = 0; i < count; i++) {
                unsigned place = (i * 7 + count) % VALUES;
                say("/WI");
                say_number(stored[place]);
                memcpy(asked_words + 16 * i, words + 16 * place, 16);
            }
            say(count % 2 ? "\r" : "\r\n");
            n = lay_reply(answered, asked_words, count, (int)(k >> 1));
            need = n + 1 + (k & 1);
            for (size_t i = 0; i < COUNT_OF(rooms); i++)
                ask_reply(run, 0, answered, n, rooms[i]);
            for (size_t room = need - 2; room <= need + 2; room++)
                ask_reply(run, 0, answered, n, room);
        }
        len = 0;
    }
}

/* A state with every value put, each setting at its highest, and an undo list. */
static void make_high_state(uint8_t *s)
{
    do {
        make_state(s);
    } while (s[shape->count + 1] < 3);
    for (unsigned i = 0; i < shape->settings; i++)
        s[1 + i] = shape->setting[i].highest;
    for (unsigned i = 0; i < VALUES; i++)
        if (!s[shape->values + VALUE * i])
            value_of(s + shape->values + VALUE * i, i, 0);
}

/* Moves the sheet in src, or moves it back: refused so, or, with the number 0, moved. */
static void ask_move(unsigned number, size_t told)
{
    uint64_t got = check_sheet_move(len, MOST_SHEET_2);
    const uint8_t *to = moved.theirs + moved.start;
    if (got != (number ? (uint64_t)number << 32 | told : len + 14))
        unasked("the sheet is moved otherwise", got);
    if (number == 0 && (memcmp(to, "form=2\n", 7) != 0 || memcmp(to + 7, src, len) != 0 || memcmp(to + 7 + len, "undo=0\n", 7) != 0))
        unasked("the moved sheet is another", got);
}

static void ask_back(unsigned number, size_t told)
{
    uint64_t got = check_sheet_back(len, MOST_SHEET_2);
    if (got != (number ? (uint64_t)number << 32 | told : len - 14))
        unasked("the sheet is moved back otherwise", got);
    if (number == 0 && memcmp(moved.theirs + moved.start, src + 7, len - 14) != 0)
        unasked("the way back gives other bytes", got);
}

/* Gives the sheet of form 1 in src to each function: it is loaded into the state at hand, an image of the other series refuses it at
   its first line, it is moved, and it has no way back. */
static void ask_loads(unsigned number, size_t told)
{
    ask_load(lend_state(shape->image), number, told);
    ask_load(&runs[!series], 40, 0);
    ask_move(number, told);
    ask_back(40, 0);
}

/* Right sheets, each with each line left out, doubled, exchanged with each later one and changed, and with each byte changed. */
static void sweep_sheets(void)
{
    static const uint8_t others[] = {0, LF, CR, ' ', '+', '-', '.', '/', '0', '1', '2', '9', ':', '=', 's', 'v', 127, 255};
    static uint8_t loaded[MOST_IMAGE], right[MOST_SHEET];
    size_t n;

    kind_name = "sweep of sheets";
    kind_count = &swept_parts[series][OF_SHEETS];
    for (unsigned of = 0; of < SERIES; of++) { /* each run's image is there to be loaded into */
        turn_to(!series);
        lay_factory(run);
    }
    memcpy(factory_state, standing(), shape->image);
    for (unsigned which = 0; which < 3; which++) {
        if (which == 0)
            memcpy(loaded, factory_state, shape->image);
        else if (which == 1)
            make_high_state(loaded);
        else
            make_state(loaded);
        make_high_state(state);
        lay_sheet(loaded);
        n = len;
        memcpy(right, src, n);
        if ((which == 0 && n != shape->least_sheet) || (which == 1 && n != shape->sheet) || lines != 1 + shape->settings + VALUES)
            unasked("the sheet has another length", n);
        ask_loads(0, 0);
        ask_same(&spare, loaded, shape->count);
        ask_sheet(&spare);
        for (size_t room = n - 3; room < n + 3; room++)
            if (check_sheet_write(&spare, room) != (room < n ? UINT64_C(30) << 32 : n))
                unasked("the sheet's room is another", room);
        for (size_t room = n - 3; room < n + 18; room++)
            if (check_sheet_move(n, room) != (room < n + 14 ? UINT64_C(30) << 32 : n + 14))
                unasked("the moved sheet's room is another", room);
        memcpy(src + 7, shapes[!series].name, 6); /* the other's first line, and this one's others */
        ask_load(lend_state(shape->image), 40, 0);
        ask_load(&runs[!series], 40, starts[1]);
        ask_move(40, starts[1]);
        memcpy(src + 7, "TPS700", 6);
        ask_loads(40, 0);
        for (unsigned i = 0; i < lines; i++) {
            memcpy(src, right, len = n);
            leave_out(i);
            ask_loads(40, starts[i]);
            memcpy(src, right, len = n);
            put_in(i, i);
            ask_loads(40, starts[i + 1]);
            for (unsigned later = i + 1; later < lines; later++) {
                memcpy(src, right, len = n);
                exchange(i, later);
                ask_loads(40, starts[i]);
            }
            memcpy(src, right, n);
            len = starts[i];
            ask_loads(40, i ? len : 0);
            len = starts[i + 1] - 1;
            ask_loads(40, starts[i]);
        }
        for (unsigned place = 0; which < 2 && place < shape->settings; place++)
            for (unsigned parameter = 0; parameter <= 266; parameter += parameter == 130 ? 120 : 1)
                for (unsigned noughts = 0; noughts < (parameter < 12 ? 2 : 1); noughts++) {
                    unsigned i = setting_line(place);
                    int is_right = !noughts && takes(&shape->setting[place], parameter);
                    uint8_t number[4];
                    size_t at, figures = noughts + (parameter < 10 ? 1 : parameter < 100 ? 2 : 3);
                    memcpy(src, right, len = n);
                    at = value_at(i);
                    digits(number, figures, parameter);
                    splice(at, starts[i + 1] - 1 - at, number, figures);
                    ask_load(lend_state(shape->image), is_right ? 0 : 40, is_right ? 0 : starts[i]);
                    if (is_right && spare.theirs[spare.start + 1 + place] != parameter)
                        unasked("the parameter isn't loaded", 0);
                }
        for (size_t at = 0; which == 1 && at < n; at++) {
            memcpy(src, right, len = n);
            for (size_t i = 0; i < COUNT_OF(others); i++) {
                src[at] = others[i];
                check_sheet_load(lend_state(shape->image), len);
            }
            src[at] = right[at];
            splice(at, 0, src + at, 1);
            check_sheet_load(lend_state(shape->image), len);
            memcpy(src, right, len = n);
            splice(at, 1, "", 0);
            check_sheet_load(lend_state(shape->image), len);
        }
    }
    len = 0;
}

/* An entry added to the state's list: of the setting at a place, or of the value, with what it was before (null: never put). */
static uint8_t *add_entry(uint8_t *s, unsigned kind, unsigned place)
{
    uint8_t *e = s + shape->entries + ENTRY * s[shape->count + 1]++;
    memset(e, 0, ENTRY);
    e[0] = (uint8_t)kind;
    e[1] = (uint8_t)place;
    return e;
}

static void add_set(uint8_t *s, unsigned place, unsigned parameter)
{
    add_entry(s, 1, place)[2] = (uint8_t)parameter;
}

static void add_put(uint8_t *s, unsigned place, const char *data)
{
    uint8_t *e = add_entry(s, 2, place);
    if (!data)
        return;
    e[3] = 1;
    e[4] = (uint8_t)unit_for(place, 1);
    memcpy(e + 6, data, 8);
}

/* "taken back newest first, none names a value then never put" */
static int list_stands(const uint8_t *s)
{
    for (unsigned i = s[shape->count + 1]; i-- > 0;) {
        const uint8_t *e = s + shape->entries + ENTRY * i, *newer = 0;
        if (e[0] != 2)
            continue;
        for (unsigned k = i + 1; k < s[shape->count + 1] && !newer; k++)
            if (e[ENTRY * (k - i)] == 2 && e[ENTRY * (k - i) + 1] == e[1])
                newer = e + ENTRY * (k - i) + 3;
        if (!newer)
            newer = s + shape->values + VALUE * e[1];
        if (!newer[0])
            return 0;
    }
    return 1;
}

/* Gives the sheet of form 2 in src to each function. The other series refuses it at the second line, unless the first is wrong; the
   way back by 41 where it is right and has entries. */
static void ask_sheet_2(unsigned number, size_t told)
{
    ask_load(lend_state(shape->image), number, told);
    ask_load(&runs[!series], 40, number && told == 0 ? 0 : 7);
    ask_move(40, 0);
    if (number == 0 && sheet_entries())
        ask_back(41, starts[undo_line()]);
    else
        ask_back(number, told);
}

/* The same for a sheet that the form's line doesn't begin: it is judged by form 1, and has no way back. */
static void ask_formless(size_t told)
{
    ask_load(lend_state(shape->image), 40, told);
    ask_load(&runs[!series], 40, 0);
    ask_move(40, told);
    ask_back(40, 0);
}

/* A state with a few entries of each kind, one with the longest sheet, and one with 64 entries of any kind. */
static void make_few_entries(uint8_t *s)
{
    make_high_state(s);
    memset(s + shape->count, 0, shape->image - shape->count);
    add_set(s, shape->of_73, 0);
    add_set(s, shape->settings - 1, 1);
    add_put(s, 10, 0);
    add_put(s, 10, "00001550");
    add_put(s, 0, 0);
    add_set(s, shape->of_73, 0);
    add_put(s, 2, "35959599");
    add_put(s, 10, "00001550");
    add_put(s, 3, 0);
}

static void make_long_list(uint8_t *s)
{
    make_high_state(s);
    memset(s + shape->count, 0, shape->image - shape->count);
    for (unsigned i = 0; i < ENTRIES; i++)
        add_put(s, i % VALUES, i % 2 ? "00000000" : "35959599");
}

static void make_full_list(uint8_t *s)
{
    do {
        make_state(s);
    } while (s[shape->count + 1] != ENTRIES);
}

/* The right sheet, which the sweeps below change. */
static uint8_t right_sheet[MOST_SHEET_2];
static size_t right_length;

static void keep_right(void)
{
    memcpy(right_sheet, src, right_length = len);
}

static void lay_right(void)
{
    memcpy(src, right_sheet, len = right_length);
}

/* Each line of the sheet left out, doubled and exchanged with later ones. The entries' lines are right in any order, and then the
   list decides. */
static void sweep_lines_2(const uint8_t *loaded)
{
    static uint8_t exchanged[MOST_IMAGE];
    unsigned undo = undo_line();
    for (unsigned i = 0; i < lines; i++) {
        lay_right();
        leave_out(i);
        if (i == 0)
            ask_formless(starts[undo] - 7);
        else
            ask_sheet_2(40, i <= undo ? starts[i] : len);
        lay_right();
        put_in(i, i);
        ask_sheet_2(40, i <= undo ? starts[i + 1] : len - (right_length - starts[lines - 1]));
        for (unsigned later = i + 1; later < lines; later += lines < 64 ? 1 : 1 + (i + later) % 9) {
            lay_right();
            exchange(i, later);
            if (i == 0) {
                ask_formless(later == 1 ? 14 : 0);
            } else if (i <= undo) {
                ask_sheet_2(40, starts[i]);
            } else {
                uint8_t *e = exchanged + shape->entries;
                memcpy(exchanged, loaded, shape->image);
                swap(e + ENTRY * (i - undo - 1), e + ENTRY * (later - undo - 1), ENTRY);
                if (list_stands(exchanged)) {
                    ask_sheet_2(0, 0);
                    ask_same(&spare, exchanged, shape->image);
                } else {
                    ask_sheet_2(40, starts[undo]);
                }
            }
        }
    }
}

/* Every count to 130, with and without zeros before it, and those that a byte or two would take for the right one. */
static void sweep_counts(void)
{
    unsigned entries = sheet_entries(), undo = undo_line();
    size_t figures_of_right = entries < 10 ? 1 : 2;
    for (unsigned count = 0; count <= 130; count++)
        for (unsigned zeros = 0; zeros < 3; zeros++) {
            size_t more = (count < 10 ? 1 : count < 100 ? 2 : 3) - figures_of_right;
            lay_right();
            lay_count(&"00"[2 - zeros], count);
            if (zeros || count > ENTRIES)
                ask_sheet_2(40, starts[undo]);
            else if (count == entries)
                ask_sheet_2(0, 0);
            else
                ask_sheet_2(40, count > entries ? len : starts[undo + 1 + count] + more);
        }
    for (unsigned count = entries + 256; count < entries + 70000; count += 256) {
        lay_right();
        lay_count("", count);
        ask_sheet_2(40, starts[undo]);
    }
}

/* Sheets of form 2, of no entry, of a few, of the longest and of any: written, loaded, moved back; with lines left out, doubled and
   exchanged, cut at each byte, with every count, and those of no entry and of a few with each byte changed. */
static void sweep_sheets_2(void)
{
    static const uint8_t others[] = {0, LF, CR, ' ', '+', '-', '.', '/', '0', '1', '2', '9', ':', '=', 's', 'u', 'v', 127, 255};
    static uint8_t loaded[MOST_IMAGE];

    kind_name = "sweep of sheets of form 2";
    kind_count = &swept_parts[series][OF_SHEETS_2];
    for (unsigned which = 0; which < 4; which++) {
        size_t n, at = 0;
        if (which == 0)
            memcpy(loaded, factory_state, shape->image);
        else
            (which == 1 ? make_few_entries : which == 2 ? make_long_list : make_full_list)(loaded);
        make_high_state(state);
        lay_sheet_2(loaded);
        keep_right();
        n = len;
        if ((which == 0 && n != shape->least_sheet_2) || (which == 2 && n != shape->sheet_2))
            unasked("the sheet has another length", n);
        ask_sheet_2(0, 0);
        ask_same(&spare, loaded, shape->image);
        for (size_t room = n - 30; room < n + 3; room++) {
            uint64_t wrote = check_sheet_write_2(&spare, room);
            if (wrote != (room < n ? UINT64_C(30) << 32 : n) || (room >= n && memcmp(sheet.theirs + sheet.start, right_sheet, n) != 0))
                unasked("the sheet of form 2 is another", wrote);
        }
        for (size_t room = n - 20; which == 0 && room < n; room++)
            if (check_sheet_back(n, room) != (room < n - 14 ? UINT64_C(30) << 32 : n - 14))
                unasked("the room of the way back is another", room);
        if (which && check_sheet_back(n, 0) != (UINT64_C(41) << 32 | starts[undo_line()]))
            unasked("41 comes before 30", 0);
        memcpy(src + 14, shapes[!series].name, 6); /* the other's second line, and this one's others */
        ask_load(lend_state(shape->image), 40, 7);
        ask_load(&runs[!series], 40, starts[2]);
        ask_back(40, starts[2]);
        memcpy(src + 14, "TPS700", 6);
        ask_sheet_2(40, 7);
        sweep_lines_2(loaded);
        sweep_counts();
        for (size_t cut = 0; cut < n; cut++) {
            lay_right();
            at = cut && src[cut - 1] == LF ? cut : at;
            len = cut;
            ask_sheet_2(40, at);
        }
        for (size_t i = 0; which < 2 && i < n; i++) {
            lay_right();
            for (size_t k = 0; k < COUNT_OF(others); k++) {
                src[i] = others[k];
                check_sheet_load(lend_state(shape->image), len);
                check_sheet_back(len, MOST_SHEET);
            }
            src[i] = right_sheet[i];
            splice(i, 0, src + i, 1);
            check_sheet_load(lend_state(shape->image), len);
            lay_right();
            splice(i, 1, "", 0);
            check_sheet_load(lend_state(shape->image), len);
            check_sheet_back(len, MOST_SHEET);
        }
    }
    /* Lists of every length, each of them the one before with its newest entry taken back. */
    make_full_list(loaded);
    for (unsigned entries = ENTRIES + 1; entries-- > 0;) {
        lay_sheet_2(loaded);
        ask_sheet_2(0, 0);
        ask_same(&spare, loaded, shape->image);
        if (check_sheet_write_2(&spare, len) != len || memcmp(sheet.theirs + sheet.start, src, len) != 0)
            unasked("the sheet of form 2 is another", len);
        if (entries)
            take_back(loaded);
    }
    len = 0;
}

/* The line of the one entry in src: said in its place, and loaded or refused there. */
static void ask_entry(const char *said, const uint8_t *e)
{
    len = starts[entry_line(0)];
    say(said);
    say("\n");
    ask_load(lend_state(shape->image), e ? 0 : 40, e ? 0 : starts[entry_line(0)]);
    if (e && memcmp(spare.theirs + spare.start + shape->entries, e, ENTRY) != 0)
        unasked("the entry is another", 0);
    ask_back(e ? 41 : 40, e ? starts[undo_line()] : starts[entry_line(0)]);
}

/* A number after another character, with zeros before it. */
static char *write_number(char *to, char before, unsigned zeros, unsigned v)
{
    unsigned n = 1;
    while (power_of_ten(n) <= v)
        n++;
    *to++ = before;
    digits((uint8_t *)to, zeros + n, v);
    to += zeros + n;
    *to = 0;
    return to;
}

static void ask_entry_of_set(unsigned number, unsigned zeros, unsigned parameter, unsigned more_zeros)
{
    char said[32] = "u=";
    uint8_t e[ENTRY] = {1};
    unsigned place = place_of(number);
    write_number(write_number(said + 2, 's', zeros, number), ':', more_zeros, parameter);
    e[1] = (uint8_t)place;
    e[2] = (uint8_t)parameter;
    if (zeros || more_zeros || place == shape->settings || shape->setting[place].read_only || !takes(&shape->setting[place], parameter))
        ask_entry(said, 0);
    else
        ask_entry(said, e);
}

/* `u=v` and the two digits, the colon, and the word or nothing. */
static void ask_entry_of_put(unsigned key, const uint8_t *w)
{
    char said[32] = "u=v..:";
    uint8_t e[ENTRY] = {2}, put[16];
    unsigned place = 0;
    size_t byte;
    digits((uint8_t *)said + 3, 2, key);
    while (place < VALUES && stored[place] != key)
        place++;
    e[1] = (uint8_t)place;
    if (w) {
        memcpy(said + 6, w, 15);
        memcpy(put, w, 15);
        put[15] = ' ';
        e[3] = 1;
        e[4] = w[5];
        e[5] = w[6] == '-';
        memcpy(e + 6, w + 7, 8);
        /* "GET/I answers text words with four dots, others as dot, dot, `1`, the unit; sign and data as put" */
        if (place < VALUES && put[4] == (place < 2 ? '.' : '1'))
            put[4] = '.';
        else
            place = VALUES;
        if (place < VALUES && (memcmp(put, said + 3, 2) != 0 || blame_put(place, put, &byte) != 0))
            place = VALUES;
    }
    ask_entry(said, place < VALUES ? e : 0);
}

/* The line of an entry: every number to 200 with every parameter to 130; every two digits; each stored value with any unit and sign,
   and data at the edges; each value of each byte of a line of each kind. Every value is put, so that any one entry stands. */
static void sweep_entries(void)
{
    static const char *const data[] = {"00000000", "00000001", "99999999", "39999999", "40000000", "35999999", "36000000", "35959599", "00060000",
                                       "00000600", "PNC0058A", "!~!~!~!~", "0000000 ", "        ", "+0000000", "000.0000"};
    static const char *const samples_of_2[] = {"u=s73:1", "u=v88:", "u=v88:88..10+00001550", "u=v11:11....+PNC0058A", "u=v24:24..14-35959599"};

    kind_name = "sweep of entries";
    kind_count = &swept_parts[series][OF_ENTRIES];
    make_high_state(state);
    empty_undo();
    state[shape->count + 1] = 1;
    state[shape->entries] = 1;
    state[shape->entries + 1] = (uint8_t)shape->of_73;
    lay_sheet_2(state);
    for (unsigned number = 0; number <= 200; number++) {
        unsigned place = place_of(number), most = place < shape->settings ? 130 : 2;
        for (unsigned parameter = 0; parameter <= most; parameter++) {
            ask_entry_of_set(number, 0, parameter, 0);
            if (parameter < 12)
                ask_entry_of_set(number, 0, parameter, 1 + parameter % 3);
        }
        if (place == shape->settings)
            continue;
        ask_entry_of_set(number, 1 + number % 3, shape->setting[place].lowest, 0);
        for (unsigned more = 256; more < 10000; more += 256) {
            ask_entry_of_set(number, 0, shape->setting[place].lowest + more, 0);
            ask_entry_of_set(number + more, 0, shape->setting[place].lowest, 0);
        }
        ask_entry_of_set(number, 0, 65536, 0);
        ask_entry_of_set(number + 65536, 0, shape->setting[place].lowest, 0);
    }
    for (unsigned key = 0; key < 100; key++) {
        ask_entry_of_put(key, 0);
        for (unsigned place = 0; place < VALUES; place++) {
            uint8_t w[16];
            memcpy(w, value_word(place, 0, unit_for(place, key), '+', data[0]), 16);
            ask_entry_of_put(key, w);
            digits(w, 2, key);
            ask_entry_of_put(key, w);
        }
    }
    for (unsigned place = 0; place < VALUES; place++)
        for (const char *unit = "./0123456789:"; *unit; unit++)
            for (const char *sign = "+-*"; *sign; sign++)
                for (size_t i = 0; i < COUNT_OF(data); i++) {
                    ask_entry_of_put(stored[place], value_word(place, 0, *unit, *sign, data[i]));
                    if (i < 2) /* as a PUT has it */
                        ask_entry_of_put(stored[place], value_word(place, 1, *unit, *sign, data[i]));
                }
    for (size_t i = 0; i < COUNT_OF(samples_of_2); i++) {
        size_t from = starts[entry_line(0)];
        len = from;
        say(samples_of_2[i]);
        say("\n");
        for (size_t at = from; at < len; at++) {
            uint8_t old = src[at];
            for (unsigned b = 0; b < 256; b++) {
                src[at] = (uint8_t)b;
                check_sheet_load(lend_state(shape->image), len);
            }
            src[at] = old;
            check_sheet_back(at, MOST_SHEET);
        }
    }
    len = 0;
}

/* Every list of up to five entries of one setting and two values, never put before or put before, over either value put or never
   put. */
static void sweep_lists(void)
{
    static uint8_t s[MOST_IMAGE], standing_list[MOST_IMAGE];
    enum { SORTS_OF_ENTRY = 5 };

    kind_name = "sweep of lists";
    kind_count = &swept_parts[series][OF_LISTS];
    make_high_state(state);
    for (unsigned put = 0; put < 4; put++)
        for (unsigned count = 0, lists = 1; count <= 5; count++, lists *= SORTS_OF_ENTRY)
            for (unsigned list_of = 0; list_of < lists; list_of++) {
                memcpy(s, factory_state, shape->image);
                if (put & 1)
                    value_of(s + shape->values, 0, 0);
                if (put & 2)
                    value_of(s + shape->values + VALUE * 10, 10, 0);
                for (unsigned i = 0, rest = list_of; i < count; i++, rest /= SORTS_OF_ENTRY) {
                    unsigned sort = rest % SORTS_OF_ENTRY;
                    if (sort == 0)
                        add_set(s, shape->of_73, i % 2);
                    else
                        add_put(s, sort < 3 ? 0 : 10, sort % 2 ? 0 : "00001550");
                }
                lay_sheet_2(s);
                if (!list_stands(s)) {
                    ask_load(lend_state(shape->image), 40, starts[undo_line()]);
                    ask_back(40, starts[undo_line()]);
                    continue;
                }
                ask_load(lend_state(shape->image), 0, 0);
                ask_same(&spare, s, shape->image);
                ask_back(count ? 41 : 0, count ? starts[undo_line()] : 0);
                memcpy(standing_list, s, shape->image);
                if (count < 4)
                    play_list(standing_list);
            }

    /* "a wrong or surplus line anywhere comes before a list that no state has" */
    memcpy(s, factory_state, shape->image);
    add_set(s, shape->of_73, 0);
    add_put(s, 10, "00001550");
    add_put(s, 10, 0);
    add_set(s, shape->of_73, 1);
    lay_sheet_2(s);
    keep_right();
    ask_load(lend_state(shape->image), 40, starts[undo_line()]);
    ask_back(40, starts[undo_line()]);
    for (unsigned i = 2; i < lines; i++) {
        lay_right();
        src[starts[i] + 1] = '~';
        ask_sheet_2(40, starts[i]);
        lay_right();
        src[starts[i + 1] - 1] = CR;
        ask_sheet_2(40, starts[i]);
    }
    lay_right();
    len--;
    ask_sheet_2(40, starts[lines - 1]);
    lay_right();
    say("\n");
    ask_sheet_2(40, right_length);
    lay_right();
    say("u=s73:1\n");
    ask_sheet_2(40, right_length);
    lay_right();
    lay_count("", 5);
    ask_sheet_2(40, right_length);
    lay_right();
    lay_count("", 3);
    ask_sheet_2(40, starts[lines - 1]);
    lay_right();
    lay_count("", 0);
    ask_sheet_2(40, starts[entry_line(0)]);
    lay_right();
    lay_count("0", 4);
    ask_sheet_2(40, starts[undo_line()]);
    /* The oldest entry's value never put, with 62 others between. */
    memcpy(s, factory_state, shape->image);
    add_put(s, 10, "00001550");
    for (unsigned i = 0; i < ENTRIES - 2; i++)
        add_set(s, shape->of_73, i % 2);
    add_put(s, 10, 0);
    value_of(s + shape->values + VALUE * 10, 10, 0);
    lay_sheet_2(s);
    ask_sheet_2(40, starts[undo_line()]);
    /* And right, with the entries the other way round. */
    swap(s + shape->entries, s + shape->entries + ENTRY * (ENTRIES - 1), ENTRY);
    lay_sheet_2(s);
    ask_sheet_2(0, 0);
    ask_same(&spare, s, shape->image);
    play_list(s);
    len = 0;
}

/* The image in state, of that many bytes, is a state or isn't: one of the functions in turn says so. */
static void ask_image(size_t n, int is_state)
{
    static unsigned turn;
    uint64_t got, asked_number = is_state ? 0 : 31;
    lend_state(n);
    len = 0;
    switch (turn++ % 5) {
    case 0:
        got = check_sheet_write(&spare, MOST_SHEET) >> 32;
        break;
    case 1:
        got = check_sheet_write_2(&spare, MOST_SHEET_2) >> 32;
        break;
    case 2:
        if (turn % 2)
            lay_sheet(factory_state);
        else
            lay_sheet_2(factory_state);
        got = check_sheet_load(&spare, len) >> 32;
        break;
    default:
        say("KEEP\r");
        got = check_line(&spare, len, MOST_REPLY) >> 32;
        break;
    }
    if (got != asked_number)
        unasked(is_state ? "a state is refused" : "what is no state is taken for one", got << 32);
}

/* The factory with every length; then right images, each with its bytes changed, every entry of a setting, every length, and
   either first byte. */
static void sweep_images(void)
{
    static const uint8_t others[] = {0, 1, 2, 3, 10, 11, '.', '/', '0', '1', '2', '9', ':', 64, 127, 128, 255};

    kind_name = "sweep of images";
    kind_count = &swept_parts[series][OF_IMAGES];
    for (size_t n = 0; n <= MOST_IMAGE + 10; n++) {
        uint64_t laid;
        lend(&spare, 0, n, 0);
        laid = check_factory(&spare, series);
        if (laid != (n == shape->image ? 0 : UINT64_C(31) << 32))
            unasked("the factory takes another length", laid);
        if (n == shape->image)
            ask_same(&spare, factory_state, n);
    }
    /* Every value of the first bytes, the number and the first two entries; of the rest those that matter, in their turn for the
       other entries. */
    make_high_state(state);
    for (size_t at = 0; at < shape->image; at++) {
        uint8_t old = state[at];
        int all = at < shape->values || (at >= shape->count && at < shape->entries + 2 * ENTRY);
        unsigned step = at < shape->entries || all ? 1 : 3;
        for (unsigned i = all ? 0 : (unsigned)at % step; i < (all ? 256 : COUNT_OF(others) + 2); i += step) {
            state[at] = all ? (uint8_t)i : i < COUNT_OF(others) ? others[i] : i & 1 ? (uint8_t)(old + 1) : (uint8_t)(old - 1);
            if (at == 0)
                ask_image(shape->image, i == shape->mark);
            else if (at < shape->values)
                ask_image(shape->image, takes(&shape->setting[at - 1], i));
            else
                use(lend_state(shape->image));
        }
        state[at] = old;
    }

    /* Only the entries of settings that can be SET, with what they take. */
    make_high_state(state);
    empty_undo();
    state[shape->count + 1] = 1;
    state[shape->entries] = 1;
    for (unsigned place = 0; place < 256; place++)
        for (unsigned parameter = 0; parameter < (place < MOST_SETTINGS + 2 ? 130 : 2); parameter++) {
            const struct setting *setting = place < shape->settings ? &shape->setting[place] : 0;
            state[shape->entries + 1] = (uint8_t)place;
            state[shape->entries + 2] = (uint8_t)parameter;
            ask_image(shape->image, setting && !setting->read_only && takes(setting, parameter));
        }

    /* The least state is a state of the one series at one length, with the one first byte. */
    for (unsigned of = 0; of < SERIES; of++)
        for (size_t n = 0; n <= MOST_IMAGE + 8; n++) {
            memset(state, 0, sizeof state);
            memcpy(state, factory_state, shape->image);
            state[0] = shapes[of].mark;
            /* Each of the TPS300's first parameters is one that TPS100 takes too, and then all is 0. */
            if (series == TPS300 && of == TPS100 && n == shapes[of].image)
                continue;
            ask_image(n, of == series && n == shape->image);
        }
    len = 0;
}

static void sweep(void)
{
    sweeping = 1;
    for (family = 0; family < FAMILIES; family++) {
        kind_count = &swept[family];
        sweep_words();
        sweep_infos();
        sweep_records();
        sweep_noughts_of_blocks();
        sweep_places();
        sweep_mends();
    }
    family = STATION;
    for (unsigned of = 0; of < SERIES; of++) {
        turn_to(of);
        sweep_noughts_of_lines();
        sweep_puts();
        sweep_lines();
        sweep_settings();
        sweep_replies();
        sweep_sheets();
        sweep_sheets_2();
        sweep_entries();
        sweep_lists();
        sweep_images();
    }
    sweep_wide = 1;
    sweep_noughts_of_lines();
    sweep_wide = 0;
    sweeping = 0;
}

/* The whole */

/* The kinds of case, those of blocks and records for each family in the same share, the others for each series. */
enum { BY_FAMILY, BY_SERIES, SORTS = 2 };
_Static_assert((int)FAMILIES == (int)SORTS && (int)SERIES == (int)SORTS, "two of either");
static const char *const sorts[][SORTS] = {{"", "level "}, {"", "TPS300 "}};
static struct { const char *name; void (*make)(void); unsigned weight, by; uint64_t count[SORTS]; } kinds[] = {
    {"block right", read_right, 4, BY_FAMILY, {0}},
    {"block with one byte wrong", read_one_wrong, 6, BY_FAMILY, {0}},
    {"block with each value of a byte", read_each_value, 6, BY_FAMILY, {0}},
    {"block information", read_info, 4, BY_FAMILY, {0}},
    {"block with wrong places", read_wrong_places, 6, BY_FAMILY, {0}},
    {"block cut", read_cut, 4, BY_FAMILY, {0}},
    {"block words exchanged", read_exchanged, 2, BY_FAMILY, {0}},
    {"block of 33 words", read_33, 2, BY_FAMILY, {0}},
    {"list places", read_places, 2, BY_FAMILY, {0}},
    {"block of both families", read_mixed, 2, BY_FAMILY, {0}},
    {"block edges", read_edges, 6, BY_FAMILY, {0}},
    {"block random", read_random, 2, BY_FAMILY, {0}},
    {"records right", write_right, 3, BY_FAMILY, {0}},
    {"record with one field wrong", write_one_wrong, 5, BY_FAMILY, {0}},
    {"record extremes", write_extremes, 4, BY_FAMILY, {0}},
    {"records of both families", write_mixed, 2, BY_FAMILY, {0}},
    {"records of the other width", write_other_width, 1, BY_FAMILY, {0}},
    {"records 0 to 34", write_counts, 2, BY_FAMILY, {0}},
    {"writer rooms", write_rooms, 2, BY_FAMILY, {0}},
    {"records random", write_random, 1, BY_FAMILY, {0}},
    {"mend spoiled", mend_spoiled, 5, BY_FAMILY, {0}},
    {"mend with wrong bytes", mend_wrong, 6, BY_FAMILY, {0}},
    {"mend with each value of a byte", mend_each_value, 3, BY_FAMILY, {0}},
    {"mend cut", mend_cut, 2, BY_FAMILY, {0}},
    {"mend rooms and lists", mend_rooms, 2, BY_FAMILY, {0}},
    {"mend words", mend_words, 2, BY_FAMILY, {0}},
    {"mend random", mend_random, 1, BY_FAMILY, {0}},
    {"factory", factory, 1, BY_SERIES, {0}},
    {"image right", image_right, 2, BY_SERIES, {0}},
    {"image random", image_random, 1, BY_SERIES, {0}},
    {"image with one byte wrong", image_one_wrong, 4, BY_SERIES, {0}},
    {"image byte by byte", image_each_byte, 3, BY_SERIES, {0}},
    {"image length", image_length, 1, BY_SERIES, {0}},
    {"image of the other series", image_other, 1, BY_SERIES, {0}},
    {"image count", image_count, 2, BY_SERIES, {0}},
    {"image undo list", image_undo, 4, BY_SERIES, {0}},
    {"image values", image_values, 4, BY_SERIES, {0}},
    {"image settings", image_settings, 1, BY_SERIES, {0}},
    {"run", run_phase, 16, BY_SERIES, {0}},
    {"run of wide replies", run_wide, 4, BY_SERIES, {0}},
    {"line right", line_right, 4, BY_SERIES, {0}},
    {"line with one byte wrong", line_one_wrong, 4, BY_SERIES, {0}},
    {"line with each value of a byte", line_each_value, 5, BY_SERIES, {0}},
    {"line numbers", line_numbers, 4, BY_SERIES, {0}},
    {"line PUT", line_put, 5, BY_SERIES, {0}},
    {"line PUT with wrong places", line_put_places, 5, BY_SERIES, {0}},
    {"line GET", line_get, 3, BY_SERIES, {0}},
    {"line ends and lengths", line_ends, 4, BY_SERIES, {0}},
    {"line rooms", line_rooms, 3, BY_SERIES, {0}},
    {"line shapes", line_shapes, 2, BY_SERIES, {0}},
    {"line keywords", line_keywords, 4, BY_SERIES, {0}},
    {"line random", line_random, 1, BY_SERIES, {0}},
    {"sheet rooms", sheet_rooms, 1, BY_SERIES, {0}},
    {"sheet rooms of form 2", sheet_rooms_2, 1, BY_SERIES, {0}},
    {"sheet written", sheet_written, 3, BY_SERIES, {0}},
    {"sheet whole", sheet_whole, 3, BY_SERIES, {0}},
    {"sheet cut", sheet_cut, 5, BY_SERIES, {0}},
    {"sheet with one byte wrong", sheet_one_wrong, 5, BY_SERIES, {0}},
    {"sheet with each value of a byte", sheet_each_value, 4, BY_SERIES, {0}},
    {"sheet lines", sheet_lines, 4, BY_SERIES, {0}},
    {"sheet of the other series", sheet_other, 2, BY_SERIES, {0}},
    {"sheet odd", sheet_odd, 5, BY_SERIES, {0}},
    {"sheet counts", sheet_counts, 3, BY_SERIES, {0}},
    {"sheet with an odd entry", sheet_of_odd_entry, 5, BY_SERIES, {0}},
    {"sheet lists", sheet_lists, 4, BY_SERIES, {0}},
    {"sheet of either form", sheet_forms, 2, BY_SERIES, {0}},
    {"sheet moved", sheet_moved, 3, BY_SERIES, {0}},
    {"sheet in mid-trial", sheet_trial, 8, BY_SERIES, {0}},
    {"sheet random", sheet_random, 1, BY_SERIES, {0}},
};

/* The numbers each function can answer, as bits; a level's reader has no 10, so its mending has none; TPS100 no read-only setting. */
#define BITS(from, to) ((((uint64_t)2 << (to)) - 1) & ~(((uint64_t)1 << (from)) - 1))
static const uint64_t possible[FUNCTIONS] = {
    BITS(0, 11) | BITS(15, 15), BITS(0, 9) | BITS(11, 11) | BITS(15, 15), 1 | BITS(12, 14), 1 | BITS(12, 14),
    BITS(0, 11) | BITS(14, 15), BITS(0, 9) | BITS(11, 11) | BITS(14, 15), 1 | BITS(31, 31), 1 | BITS(31, 31), 1 | BITS(20, 31) | BITS(39, 39), 1 | BITS(20, 31) | BITS(38, 39), 1 | BITS(30, 31), 1 | BITS(30, 31),
    1 | BITS(31, 31) | BITS(40, 40), 1 | BITS(31, 31) | BITS(40, 40), 1 | BITS(30, 31), 1 | BITS(30, 31), 1 | BITS(30, 30) | BITS(40, 40),
    1 | BITS(30, 30) | BITS(40, 40), 1 | BITS(30, 30) | BITS(40, 41), 1 | BITS(30, 30) | BITS(40, 41)};

/* Whether a minus nought may stand in what the function is lent or gives. */
static int may_have_nought(unsigned function)
{
    return function < FACTORY || function >= LINE;
}

/* The cases of a family's reader, writer and mending, and those of a series' functions. */
static uint64_t seen_of(unsigned of)
{
    uint64_t sum = 0;
    for (unsigned number = 0; number < ANSWERS; number++)
        sum += seen[READ + of][number] + seen[WRITE + of][number] + seen[MEND + of][number];
    return sum;
}

static uint64_t seen_of_series(unsigned of)
{
    uint64_t sum = 0;
    for (unsigned f = FACTORY + of; f < FUNCTIONS; f += SERIES)
        for (unsigned number = 0; number < ANSWERS; number++)
            sum += seen[f][number];
    return sum;
}

/* How many of the counts aren't 0, and the least of these. */
static void print_counts(const char *name, const uint64_t *counts, unsigned n, unsigned of)
{
    uint64_t least = UINT64_MAX;
    unsigned some = 0;
    for (unsigned i = 0; i < n; i++)
        if (counts[i]) {
            some++;
            least = counts[i] < least ? counts[i] : least;
        }
    printf("%s %u of %u (the least %llu)", name, some, of, (unsigned long long)(some ? least : 0));
}

/* How many places of a sheet 40 can tell: each line's start, those of 64 entries among them, and the end. */
static unsigned sheet_places(unsigned of, unsigned judged)
{
    unsigned lines_of_1 = 1 + shapes[of].settings + VALUES;
    return (judged == FORM_2 ? lines_of_1 + 2 + ENTRIES : lines_of_1) + 1;
}

static void finish(void)
{
    int missing = 0;
    printf("%llu cases, 0 differences\n", (unsigned long long)cases);
    printf("by kind:");
    for (size_t i = 0; i < COUNT_OF(kinds); i++)
        for (unsigned of = 0; of < SORTS; of++)
            printf("%s %s%s %llu", i || of ? "," : "", sorts[kinds[i].by][of], kinds[i].name, (unsigned long long)kinds[i].count[of]);
    printf("\nby family: station %llu, level %llu", (unsigned long long)seen_of(STATION), (unsigned long long)seen_of(LEVEL));
    printf("\nby series:");
    for (unsigned of = 0; of < SERIES; of++)
        printf("%s %s %llu", of ? "," : "", shapes[of].name, (unsigned long long)seen_of_series(of));
    printf("\nsweeps before: station %llu, level %llu", (unsigned long long)swept[STATION], (unsigned long long)swept[LEVEL]);
    printf("\nsweeps of minus nought: station %llu, level %llu, lines and sheets %llu, TPS300 lines and sheets %llu",
           (unsigned long long)swept_noughts[STATION], (unsigned long long)swept_noughts[LEVEL],
           (unsigned long long)swept_noughts[FAMILIES + TPS100], (unsigned long long)swept_noughts[FAMILIES + TPS300]);
    printf("\nsweeps of places: station %llu, level %llu, PUT %llu, TPS300 PUT %llu, lines %llu, TPS300 lines %llu",
           (unsigned long long)swept_places[STATION], (unsigned long long)swept_places[LEVEL], (unsigned long long)swept_puts[TPS100],
           (unsigned long long)swept_puts[TPS300], (unsigned long long)swept_lines[TPS100], (unsigned long long)swept_lines[TPS300]);
    printf("\nsweeps of mending: station %llu, level %llu", (unsigned long long)swept_mends[STATION],
           (unsigned long long)swept_mends[LEVEL]);
    printf("\nsweeps of series:");
    for (unsigned of = 0; of < SERIES; of++)
        for (unsigned part = 0; part < PARTS; part++)
            printf("%s %s%s %llu", of || part ? "," : "", sorts[BY_SERIES][of], part_names[part], (unsigned long long)swept_parts[of][part]);
    printf("\nwith minus nought:");
    for (unsigned f = 0; f < FUNCTIONS; f++)
        if (may_have_nought(f))
            printf("%s %s %llu", f ? "," : "", names[f], (unsigned long long)with_nought[f]);
    printf("\nwide replies: %llu", (unsigned long long)wide_replies);
    printf("\nbytes of a word told:");
    for (unsigned of = 0; of < FAMILIES; of++)
        for (unsigned wide = 0; wide < 2; wide++)
            print_counts(of ? wide ? ", level wide" : ", level" : wide ? ", station wide" : " station", told_at[of][wide],
                         wide ? 24 : 16, wide ? 24 : 16);
    printf("\nmended by mixture of edits:");
    for (unsigned of = 0; of < FAMILIES; of++)
        print_counts(of ? ", level" : " station", mixtures[of], MIXTURES, MIXTURES);
    printf("\nedits:");
    for (unsigned of = 0; of < FAMILIES; of++)
        printf("%s dots %llu, blanks %llu, CRs %llu, the most at once %llu", of ? "; level" : " station",
               (unsigned long long)edits_made[of][DOT - 1], (unsigned long long)edits_made[of][BLANK - 1],
               (unsigned long long)edits_made[of][RETURN - 1], (unsigned long long)most_edits[of]);
    printf("\nbytes of a PUT told:");
    for (unsigned of = 0; of < SERIES; of++)
        print_counts(of ? ", TPS300" : " TPS100", broken_at[of], 20, 14);
    printf("\nPUT by rule:");
    for (unsigned of = 0; of < SERIES; of++)
        for (unsigned rule = 6; rule <= 10; rule++)
            printf("%s %s%u %llu", of || rule > 6 ? "," : "", sorts[BY_SERIES][of], rule, (unsigned long long)broken_rule[of][rule]);
    printf("\nsheets loaded:");
    for (unsigned of = 0; of < SERIES; of++) {
        printf("%s form 1 %llu, form 2 %llu", of ? "; TPS300" : " TPS100", (unsigned long long)loaded_by_form[of][FORM_1],
               (unsigned long long)loaded_by_form[of][FORM_2]);
        print_counts(", entries", lists_loaded[of], ENTRIES + 1, ENTRIES + 1);
    }
    printf("\nentries loaded:");
    for (unsigned of = 0; of < SERIES; of++)
        for (unsigned before = 0; before < BEFORES; before++)
            printf("%s %s%s %llu", of || before ? "," : "", sorts[BY_SERIES][of], befores[before],
                   (unsigned long long)entries_loaded[of][before]);
    printf("\nlines of a sheet told:");
    for (unsigned of = 0; of < SERIES; of++)
        for (unsigned judged = 0; judged < FORMS; judged++) {
            unsigned most = sheet_places(of, judged);
            print_counts(of ? judged ? ", TPS300 form 2" : ", TPS300 form 1" : judged ? ", TPS100 form 2" : " TPS100 form 1",
                         told_lines[of][judged], most, most);
        }
    printf("\nlists that no state has:");
    for (unsigned of = 0; of < SERIES; of++)
        printf("%s loaded %llu, moved back %llu", of ? "; TPS300" : " TPS100", (unsigned long long)no_lists[of][0],
               (unsigned long long)no_lists[of][1]);
    printf("\nby number:");
    for (unsigned number = 0; number < ANSWERS; number++) {
        uint64_t sum = 0;
        for (unsigned f = 0; f < FUNCTIONS; f++)
            sum += seen[f][number];
        if (sum)
            printf("%s %u %llu", number ? "," : "", number, (unsigned long long)sum);
    }
    printf("\n");
    for (unsigned f = 0; f < FUNCTIONS; f++)
        for (unsigned number = 0; number < ANSWERS; number++)
            if (possible[f] >> number & 1 && seen[f][number] == 0) {
                printf("%s never answered %u\n", names[f], number);
                missing = 1;
            }
    for (unsigned f = 0; f < FUNCTIONS; f++)
        if (may_have_nought(f) && with_nought[f] == 0) {
            printf("%s never had a minus nought\n", names[f]);
            missing = 1;
        }
    for (unsigned of = 0; of < FAMILIES; of++)
        for (unsigned at = 0; at < 16 + 24; at++)
            if (told_at[of][at >= 16][at < 16 ? at : at - 16] == 0) {
                printf("%s never told byte %u of a %s word\n", names[READ + of], at < 16 ? at : at - 16, at < 16 ? "narrow" : "wide");
                missing = 1;
            }
    for (unsigned of = 0; of < FAMILIES; of++)
        for (unsigned mixture = 0; mixture < MIXTURES; mixture++)
            if (mixtures[of][mixture] == 0) {
                printf("%s never made edits of these kinds:%s\n", names[MEND + of],
                       (const char *const[]){" none", " dot", " blank", " dot, blank", " CR", " dot, CR", " blank, CR", " all"}[mixture]);
                missing = 1;
            }
    for (unsigned of = 0; of < SERIES; of++) {
        for (unsigned rule = 6; rule <= 10; rule++)
            if (broken_rule[of][rule] == 0) {
                printf("%s never told rule %u of a PUT\n", names[LINE + of], rule);
                missing = 1;
            }
        for (unsigned at = 6; at < 20; at++)
            if (broken_at[of][at] == 0) {
                printf("%s never told byte %u of a PUT\n", names[LINE + of], at);
                missing = 1;
            }
    }
    if (wide_replies == 0) {
        printf("no reply was wide\n");
        missing = 1;
    }
    for (unsigned of = 0; of < SERIES; of++) {
        uint64_t between = loaded_by_form[of][FORM_2] - lists_loaded[of][0] - lists_loaded[of][ENTRIES];
        if (lists_loaded[of][0] == 0 || between == 0 || lists_loaded[of][ENTRIES] == 0) {
            printf("%s never loaded a list of no entry, of some, or of 64\n", names[SHEET_LOAD + of]);
            missing = 1;
        }
        for (unsigned before = 0; before < BEFORES; before++)
            if (entries_loaded[of][before] == 0) {
                printf("%s never loaded an entry of %s\n", names[SHEET_LOAD + of], befores[before]);
                missing = 1;
            }
        for (unsigned judged = 0; judged < FORMS; judged++) {
            unsigned most = sheet_places(of, judged), each = judged == FORM_2 ? most - ENTRIES : most;
            uint64_t entries = judged == FORM_1;
            for (unsigned i = each; i < most; i++)
                entries += told_lines[of][judged][i];
            for (unsigned i = 0; i < each; i++)
                if (told_lines[of][judged][i] == 0) {
                    printf("%s: line %u of form %u was never told\n", shapes[of].name, i, judged + 1);
                    missing = 1;
                }
            if (entries == 0) {
                printf("%s: no entry's line was told\n", shapes[of].name);
                missing = 1;
            }
        }
        if (loaded_by_form[of][FORM_1] == 0 || no_lists[of][0] == 0 || no_lists[of][1] == 0) {
            printf("%s never loaded form 1, or never refused a list that no state has\n", names[SHEET_LOAD + of]);
            missing = 1;
        }
    }
    exit(missing);
}

static uint64_t number_from(const char *s)
{
    uint64_t v = 0;
    while (*s >= '0' && *s <= '9')
        v = v * 10 + (uint64_t)(*s++ - '0');
    if (*s) {
        printf("usage: driver CASES SEED\n");
        exit(2);
    }
    return v;
}

int main(int argc, char **argv)
{
    if (argc != 3) {
        printf("usage: driver CASES SEED\n");
        return 2;
    }
    wanted = number_from(argv[1]);
    seed = chance_state = number_from(argv[2]);
    if (wanted == 0) {
        printf("usage: driver CASES SEED\n");
        return 2;
    }
    for (size_t i = 0; i < sizeof pool; i += 8) {
        uint64_t r = next64();
        memcpy(pool + i, &r, 8);
    }
    for (unsigned of = 0; of < SERIES; of++) {
        uint64_t theirs = of == TPS300 ? gsi_image_size_300() : gsi_image_size();
        uint64_t ours = of == TPS300 ? ref_image_size_300() : ref_image_size();
        if (theirs != ours || ours != shapes[of].image) {
            printf("difference: image_size of %s, library %llu, second %llu\n", shapes[of].name, (unsigned long long)theirs,
                   (unsigned long long)ours);
            return 1;
        }
    }
    sweep();
    kind_name = "run";
    for (unsigned of = 0; of < SERIES; of++) {
        for (size_t i = 0; i < COUNT_OF(kinds); i++)
            if (kinds[i].make == run_phase)
                kind_count = &kinds[i].count[of];
        turn_to(of);
        lend(run, 0, shape->image, 0);
        check_factory(run, of);
    }
    for (;;) {
        /* The kind furthest behind its share comes next, so that long sweeps don't crowd the others out. */
        size_t least = 0;
        unsigned sort = 0;
        for (size_t i = 0; i < COUNT_OF(kinds); i++)
            for (unsigned of = 0; of < SORTS; of++)
                if (kinds[i].count[of] * kinds[least].weight < kinds[least].count[sort] * kinds[i].weight) {
                    least = i;
                    sort = of;
                }
        kind_name = kinds[least].name;
        kind_count = &kinds[least].count[sort];
        family = kinds[least].by == BY_FAMILY ? sort : STATION;
        turn_to(kinds[least].by == BY_SERIES ? sort : TPS100);
        kinds[least].make();
    }
}
