/* stack.c: how much stack each function of the library takes, held to the limits below. A call is made on a stack of its own
   that was filled with a pattern, and it took as many bytes as the pattern is overwritten down from the top, less those that
   a call of an empty function overwrites. The cases reach every kind of line, sheet and block, accepted and refused, in
   states of either series with the undo list empty, full and between; each must be answered as it should be. Prints a
   line for each function. Status 0 when none takes more than its limit. */
#include "gsi.h"

int printf(const char *, ...);
int snprintf(char *, size_t, const char *, ...);
void exit(int);
void *memcpy(void *, const void *, size_t);
void *memset(void *, int, size_t);
int memcmp(const void *, const void *, size_t);
size_t strlen(const char *);
size_t strcspn(const char *, const char *);

enum { LINE, SHEET_LOAD, SHEET_WRITE, SHEET_WRITE_2, SHEET_MOVE, SHEET_BACK, FACTORY, FACTORY_300, READ, WRITE, READ_LEVEL, WRITE_LEVEL, MEND, MEND_LEVEL, FUNCTIONS };

#define AS_ANY(function) (void (*)(void))function

/* The most bytes of stack that a call of each function may take. */
static const struct {
    const char *name;
    void (*function)(void);
    size_t most;
} functions[FUNCTIONS] = {
    {"gsi_line", AS_ANY(gsi_line), 6144},
    {"gsi_sheet_load", AS_ANY(gsi_sheet_load), 6144},
    {"gsi_sheet_write", AS_ANY(gsi_sheet_write), 6144},
    {"gsi_sheet_write_2", AS_ANY(gsi_sheet_write_2), 6144},
    {"gsi_sheet_move", AS_ANY(gsi_sheet_move), 8192},
    {"gsi_sheet_back", AS_ANY(gsi_sheet_back), 8192},
    {"gsi_factory", AS_ANY(gsi_factory), 6144},
    {"gsi_factory_300", AS_ANY(gsi_factory_300), 6144},
    {"gsi_read", AS_ANY(gsi_read), 1024},
    {"gsi_write", AS_ANY(gsi_write), 1024},
    {"gsi_read_level", AS_ANY(gsi_read_level), 1024},
    {"gsi_write_level", AS_ANY(gsi_write_level), 1024},
    {"gsi_mend", AS_ANY(gsi_mend), 3072},
    {"gsi_mend_level", AS_ANY(gsi_mend_level), 3072},
};

#define COUNT_OF(array) (sizeof(array) / sizeof *(array))

/* A stack of its own */

enum { STACK = 65536 / 8 };
static const uint64_t pattern = 0xA5A5A5A5A5A5A5A5u;
static _Alignas(16) uint64_t stack[STACK];

/* Calls a function that takes up to six words on the stack that ends at top, and gives its answer. The library is x86-64
   code on every machine, and so is this: the words go in registers, and rbp, which a function leaves as it was, keeps the
   caller's stack meanwhile. */
uint64_t call_on(uint64_t *top, void (*function)(void), const uint64_t *words);
__asm__(".text\n"
        "call_on:\n"
        "    pushq %rbp\n"
        "    movq %rsp, %rbp\n"
        "    movq %rdi, %rsp\n"
        "    movq %rsi, %rax\n"
        "    movq %rdx, %r10\n"
        "    movq 0(%r10), %rdi\n"
        "    movq 8(%r10), %rsi\n"
        "    movq 16(%r10), %rdx\n"
        "    movq 24(%r10), %rcx\n"
        "    movq 32(%r10), %r8\n"
        "    movq 40(%r10), %r9\n"
        "    callq *%rax\n"
        "    movq %rbp, %rsp\n"
        "    popq %rbp\n"
        "    retq\n");

/* The bytes from the top of the stack down to the lowest that the call overwrote. What a function reserves and doesn't write
   counts too as soon as it calls another, since the return address stands below it. */
static size_t overwritten(void (*function)(void), const uint64_t *words, uint64_t *answer)
{
    size_t low = 0;

    for (size_t i = 0; i < STACK; i++)
        stack[i] = pattern;
    *answer = call_on(stack + STACK, function, words);
    while (low < STACK && stack[low] == pattern)
        low++;
    return (STACK - low) * sizeof *stack;
}

static void nothing(void)
{
}

/* The most that a call of each function took, and the case in which it did; what an empty call takes; the case at hand. */
enum { NAME = 200 };
static size_t taken[FUNCTIONS], empty;
static char deepest[FUNCTIONS][NAME], now[NAME];

static uint64_t call(unsigned which, const uint64_t *words)
{
    uint64_t answer;
    size_t bytes = overwritten(functions[which].function, words, &answer) - empty;

    if (bytes > taken[which]) {
        taken[which] = bytes;
        memcpy(deepest[which], now, NAME);
    }
    return answer;
}

#define CALL(which, ...) call(which, (const uint64_t[6]){__VA_ARGS__})
#define PLACE(pointer) ((uint64_t)(uintptr_t)(pointer))

static void stop(const char *what)
{
    printf("stack: the case isn't what it should be: %s: %s\n", now, what);
    exit(1);
}

static void expect(uint64_t answer, unsigned number)
{
    if (GSI_NUMBER(answer) == number)
        return;
    printf("stack: the case isn't what it should be: %s: answered by %u, not %u\n", now, GSI_NUMBER(answer), number);
    exit(1);
}

/* A byte that is right nowhere. */
enum { WRONG = 7 };

/* States */

enum { TPS100, TPS300, SERIES };
enum { BY_SET, BY_PUT };
enum { ENTRIES = 64, MOST_IMAGE = 1050 };

static const char *const series_names[SERIES] = {"TPS100", "TPS300"};

/* The state at hand: its image, how many undo entries stand, the newest a SET's or a PUT's, whether its replies are wide, and
   whether every value is put. */
static struct {
    unsigned series, entries, newest;
    int wide, put;
    size_t bytes;
    uint8_t image[MOST_IMAGE];
} state;

/* What a call alters, and the sheet of each series' factory state, by its form. */
enum { FORM_1, FORM_2, FORMS };
static uint8_t image[MOST_IMAGE], reply[GSI_REPLY_MOST], factory_sheet[FORMS][SERIES][GSI_SHEET_MOST];
static size_t factory_bytes[FORMS][SERIES];

/* Names the case at hand by the state and what is tried in it, of a line what stands before its end. */
static void name_case(const char *what)
{
    static const char *const of_newest[] = {", the newest a SET's", ", the newest a PUT's"};

    snprintf(now, NAME, "%s, %s replies, %s, %u entries%s: %.*s", series_names[state.series], state.wide ? "wide" : "narrow",
             state.put ? "all values put" : "values not put", state.entries, state.entries ? of_newest[state.newest] : "",
             (int)strcspn(what, "\r\n"), what);
}

/* Plays a line, with its end in place, on an image of the state's series. */
static uint64_t play(uint8_t *on, const char *text, size_t length, size_t room)
{
    name_case(text);
    return CALL(LINE, PLACE(on), state.bytes, PLACE(text), length, PLACE(reply), room);
}

static void make(const char *text)
{
    expect(play(state.image, text, strlen(text), sizeof reply), 0);
}

static void make_state(unsigned series, int wide, int put, unsigned entries, unsigned newest)
{
    static const char *const puts[] = {"PUT/11....+0000A110 \r", "PUT/16....+CODE0016 \r", "PUT/21...2+17920860 \r", "PUT/24...4+27952530 \r",
                                       "PUT/34...0+00000034 \r", "PUT/83...0-00213159 \r", "PUT/84...1+00100000 \r", "PUT/85...0+00200000 \r",
                                       "PUT/86...0+00300000 \r", "PUT/87...0+00001300 \r", "PUT/88...0-00000000 \r"};
    state.series = series;
    state.wide = wide;
    state.put = put;
    state.entries = entries;
    state.newest = newest;
    state.bytes = series == TPS300 ? gsi_image_size_300() : gsi_image_size();
    name_case("the factory state");
    if (state.bytes > MOST_IMAGE)
        stop("its image is longer than is known here");
    expect(CALL(FACTORY + series, PLACE(state.image), state.bytes - 1), 31);
    expect(CALL(FACTORY + series, PLACE(state.image), state.bytes), 0);
    if (wide)
        make("SET/137/1\r");
    for (size_t i = 0; put && i < COUNT_OF(puts); i++)
        make(puts[i]);
    make("KEEP\r");
    for (unsigned left = entries; left > 0; left--)
        make((left + newest) % 2 ? "SET/70/2\r" : "PUT/24...3+27952530 \r");
}

/* Lines */

#define NINETEEN "GET/I/WI11/WI16/WI21/WI24/WI34/WI83/WI84/WI85/WI86/WI87/WI88/WI11/WI16/WI21/WI24/WI34/WI83/WI84/WI85"

/* Lines without their ends, and the number by which each is refused whatever the state; 0 is accepted where the state lets it
   be. Those of the series' own settings come after those that both have. */
struct line {
    const char *text;
    unsigned number;
};
static const struct line common[] = {
    {"SET/70/5", 0}, {"SET/73/0", 0}, {"SET/73/1", 0}, {"CONF/50", 0}, {"CONF/73", 0}, {"CONF/136", 0},
    {"PUT/11....+PNC00058 ", 0}, {"PUT/16....+!~000003 ", 0}, {"PUT/21...2+39999999 ", 0}, {"PUT/21...3-35999999 ", 0},
    {"PUT/24...4+35959599 ", 0}, {"PUT/34...0+00000034 ", 0}, {"PUT/83...1-99999999 ", 0}, {"PUT/88...0-00000000 ", 0},
    {"GET/I/WI21", 0}, {"GET/I/WI11", 0}, {"GET/I/WI88/WI16", 0}, {NINETEEN, 0}, {"UNDO", 0}, {"KEEP", 0},
    {"", 22}, {"SET\n/73/1", 20}, {NINETEEN "/", 21}, {"set/73/1", 22}, {"SET/33/0", 23}, {"CONF/99", 23}, {"SET/73/2", 24},
    {"SET/70/99", 24}, {"PUT/31...0+00001550 ", 25}, {"GET/I/WI12", 25}, {"PUT/21..12+17920860 ", 26}, {"PUT/83...2+00001550 ", 26},
    {"PUT/21...2*17920860 ", 26}, {"PUT/11....-PNC00058 ", 26}, {"PUT/21...2+1792086x ", 26}, {"PUT/11....+PNC 0058 ", 26},
    {"PUT/83...0+000A5320 ", 26}, {"PUT/21...2+17920860x", 26}, {"PUT/21...2+40000000 ", 26}, {"PUT/24...4+35960000 ", 26},
    {"UNDO1", 39}, {"KEEPS", 39}, {"SETTLE", 39}, {"SET/073/1", 39}, {"CONF/073", 39}, {"GET/M/WI21", 39}, {"GET/I/WI8", 39},
    {"PUT/88...0+00001550", 39}};
static const struct line own[SERIES][12] = {
    {{"SET/30/1", 0}, {"SET/32/3", 0}, {"SET/136/1", 0}, {"CONF/30", 0}, {"SET/40/3", 24}, {"SET/90/1", 23}, {"CONF/90", 23}},
    {{"SET/41/4", 0}, {"SET/78/50", 0}, {"SET/136/127", 0}, {"SET/137/0", 0}, {"SET/137/1", 0}, {"SET/161/10", 0}, {"SET/171/1", 0},
     {"CONF/41", 0}, {"CONF/91", 0}, {"SET/161/8", 24}, {"SET/55/0", 24}, {"SET/90/1", 38}}};

/* The number by which the line is answered in the state at hand. */
static unsigned answered_by(const struct line *l)
{
    if (l->number != 0)
        return l->number;
    switch (l->text[0]) {
    case 'S':
    case 'P':
        return state.entries == ENTRIES ? 28 : 0;
    case 'U':
        return state.entries == 0 ? 29 : 0;
    case 'G':
        return state.put ? 0 : 27;
    default:
        return 0;
    }
}

static void try_line(const struct line *l)
{
    static const char *const ends[] = {"\r", "\r\n"};
    char text[128];

    for (size_t end = 0; end < COUNT_OF(ends); end++) {
        int length = snprintf(text, sizeof text, "%s%s", l->text, ends[end]);
        memcpy(image, state.image, state.bytes);
        expect(play(image, text, (size_t)length, sizeof reply), answered_by(l));
        memcpy(image, state.image, state.bytes);
        expect(play(image, text, (size_t)length, 0), 30);
        memcpy(image, state.image, state.bytes);
        expect(play(image, text, strlen(l->text), sizeof reply), 20);
    }
}

static void try_lines(void)
{
    for (size_t i = 0; i < COUNT_OF(common); i++)
        try_line(&common[i]);
    for (size_t i = 0; i < COUNT_OF(own[0]) && own[state.series][i].text; i++)
        try_line(&own[state.series][i]);
}

/* Sheets */

static uint64_t load(const uint8_t *sheet, size_t length)
{
    memcpy(image, state.image, state.bytes);
    return CALL(SHEET_LOAD, PLACE(image), state.bytes, PLACE(sheet), length);
}

/* The state's sheet in a form is written, loaded and moved; then it is refused with a line too many, with each line wrong and cut in each. */
static void try_sheet(unsigned form)
{
    static uint8_t sheet[GSI_SHEET_MOST + 1], again[GSI_SHEET_MOST], moved[GSI_SHEET_MOST];
    size_t length;
    uint64_t answer;

    name_case(form == FORM_1 ? "its sheet" : "its sheet of form 2");
    answer = CALL(SHEET_WRITE + form, PLACE(state.image), state.bytes, PLACE(sheet), GSI_SHEET_MOST);
    expect(answer, 0);
    length = GSI_TOLD(answer);
    expect(CALL(SHEET_WRITE + form, PLACE(state.image), state.bytes, PLACE(again), length - 1), 30);
    expect(load(sheet, length), 0);
    if (form == FORM_2 && memcmp(image, state.image, state.bytes) != 0)
        stop("it loads to another state");
    if (CALL(SHEET_WRITE + form, PLACE(image), state.bytes, PLACE(again), GSI_SHEET_MOST) != length || memcmp(sheet, again, length) != 0)
        stop("it loads to another");

    answer = CALL(SHEET_MOVE + form, PLACE(sheet), length, PLACE(moved), GSI_SHEET_MOST);
    expect(answer, form == FORM_2 && state.entries > 0 ? 41 : 0);
    if (GSI_NUMBER(answer) == 0) {
        size_t bytes = GSI_TOLD(answer);
        if (CALL(SHEET_BACK - form, PLACE(moved), bytes, PLACE(again), GSI_SHEET_MOST) != length || memcmp(sheet, again, length) != 0)
            stop("it is moved back to another");
        expect(CALL(SHEET_MOVE + form, PLACE(sheet), length, PLACE(moved), bytes - 1), 30);
    }
    expect(CALL(SHEET_BACK - form, PLACE(sheet), length, PLACE(moved), GSI_SHEET_MOST), 40);

    name_case("another series' sheet");
    expect(load(factory_sheet[form][1 - state.series], factory_bytes[form][1 - state.series]), 40);
    name_case("its sheet with a line too many");
    sheet[length] = '\n';
    expect(load(sheet, length + 1), 40);
    expect(CALL(SHEET_MOVE + form, PLACE(sheet), length + 1, PLACE(moved), GSI_SHEET_MOST), 40);
    for (size_t at = 0; at < length; at++)
        if (sheet[at] == '\n') {
            uint8_t was = sheet[at - 1];
            name_case("its sheet with a wrong line");
            sheet[at - 1] = WRONG;
            expect(load(sheet, length), 40);
            expect(CALL(SHEET_MOVE + form, PLACE(sheet), length, PLACE(moved), GSI_SHEET_MOST), 40);
            sheet[at - 1] = was;
            name_case("its sheet cut in a line");
            expect(load(sheet, at), 40);
        }
}

static void try_sheets(void)
{
    for (unsigned form = FORM_1; form < FORMS; form++)
        try_sheet(form);
}

/* What isn't an image, first and last byte wrong and one too few, as every function that takes one sees it. */
static void try_no_image(void)
{
    static const size_t cut[] = {0, 0, 1};
    static uint8_t sheet[GSI_SHEET_MOST];

    for (size_t i = 0; i < COUNT_OF(cut); i++) {
        size_t n = state.bytes - cut[i];
        memcpy(image, state.image, state.bytes);
        if (!cut[i])
            image[i ? n - 1 : 0] = 255;
        name_case("no image");
        expect(CALL(LINE, PLACE(image), n, PLACE("CONF/73\r"), 8, PLACE(reply), sizeof reply), 31);
        for (unsigned form = FORM_1; form < FORMS; form++) {
            expect(CALL(SHEET_WRITE + form, PLACE(image), n, PLACE(sheet), sizeof sheet), 31);
            expect(CALL(SHEET_LOAD, PLACE(image), n, PLACE(factory_sheet[form][state.series]), factory_bytes[form][state.series]), 31);
        }
    }
}

static void try_states(void)
{
    static const unsigned counts[] = {0, 1, ENTRIES - 1, ENTRIES};

    for (unsigned i = 0; i < FORMS * SERIES; i++) {
        unsigned form = i / SERIES, of = i % SERIES;
        uint64_t answer;
        make_state(of, 0, 0, 0, BY_SET);
        name_case("the factory's sheet");
        answer = CALL(SHEET_WRITE + form, PLACE(state.image), state.bytes, PLACE(factory_sheet[form][of]), GSI_SHEET_MOST);
        expect(answer, 0);
        factory_bytes[form][of] = GSI_TOLD(answer);
    }
    for (unsigned of = 0; of < SERIES; of++)
        for (int wide = 0; wide < (of == TPS300 ? 2 : 1); wide++)
            for (int put = 0; put < 2; put++)
                for (size_t i = 0; i < COUNT_OF(counts); i++)
                    for (unsigned newest = BY_SET; newest <= BY_PUT; newest++) {
                        make_state(of, wide, put, counts[i], newest);
                        try_lines();
                        try_sheets();
                        try_no_image();
                    }
}

/* Blocks */

enum { STATION, LEVEL, FAMILIES };
enum { WORDS = 32, KINDS = 20, LONG = 33 * 24 + 3 };

/* Narrow words of each kind and unit, without their blanks. A wide one has eight zeros more before its data. */
static const char *const words_of[FAMILIES][KINDS] = {
    {"110014+00000003", "11....+!~000003", "21.102+39999999", "21.324+35959599", "22..02-39999999", "24.333+35999999", "24.3.5+63999999",
     "31..00+00000001", "32..01+00265965", "33..06-00000000", "34..07+99999999", "51..1.-0009-002", "51..1.+0000+000", "58..06+00000340",
     "59..06-00000003", "13..12+ABCDEFGH", "419999+00000003", "42.9.0+00000003", "82..08-00213159", "88..10+00001550"},
    {"110006+00003000", "410004+?......1", "42....+10842V02", "32..00+00016380", "331106+00010198", "332109+00007177", "333108+00000000",
     "573..0-00000880", "574..1+00033650", "83..06+00190451", "83..17-00000000", "521...+00010198"}};

static const char *const family_names[FAMILIES] = {"a total station's", "a level's"};

static uint8_t block[LONG], room[LONG];
static gsi_word list[LONG / 24];
static gsi_edit edits[GSI_EDITS_MOST];

/* Lays down a block of so many words, from the first one on and over again from the start, and tells its bytes. */
static size_t make_block(unsigned family, size_t first, size_t words, int wide, int crlf)
{
    size_t kinds = 0, at = 0;

    while (kinds < KINDS && words_of[family][kinds])
        kinds++;
    if (wide)
        block[at++] = '*';
    for (size_t i = 0; i < words; i++) {
        const char *word = words_of[family][(first + i) % kinds];
        memcpy(block + at, word, 7);
        at += 7;
        if (wide) {
            memset(block + at, '0', 8);
            at += 8;
        }
        memcpy(block + at, word + 7, 8);
        at += 8;
        block[at++] = ' ';
    }
    block[at++] = '\r';
    if (crlf)
        block[at++] = '\n';
    return at;
}

static uint64_t read_block(unsigned family, size_t n, size_t places)
{
    return CALL(READ + 2 * family, PLACE(block), n, PLACE(list), places);
}

static uint64_t write_block(unsigned family, size_t words, int wide, int crlf, size_t bytes)
{
    return CALL(WRITE + 2 * family, PLACE(list), words, (uint64_t)wide, (uint64_t)crlf, PLACE(room), bytes);
}

/* A block is read and written back; then it is refused with each byte of its last word wrong, cut short, with no place for its
   last word and, its records, with a wrong one and with too little room. */
static void try_block(unsigned family, size_t first, size_t words, int wide, int crlf)
{
    size_t n = make_block(family, first, words, wide, crlf), end = n - 1 - (size_t)crlf;
    uint64_t answer;

    snprintf(now, NAME, "%s block of %u words, %s, the first being %s", family_names[family], (unsigned)words, wide ? "wide" : "narrow",
             words_of[family][first]);
    answer = read_block(family, n, WORDS);
    expect(answer, 0);
    if (GSI_USED(answer) != n || GSI_WORDS(answer) != words)
        stop("it is read as another");
    if (write_block(family, words, wide, crlf, sizeof room) != n || memcmp(block, room, n) != 0)
        stop("it is written as another");
    expect(write_block(family, words, wide, crlf, n - 1), 14);
    list[words - 1].minus = 2;
    expect(write_block(family, words, wide, crlf, sizeof room), 13);
    expect(read_block(family, n, words - 1), 11);
    expect(read_block(family, end - 1, WORDS), 2);
    for (size_t at = end - (wide ? 24 : 16); at < end; at++) {
        uint8_t was = block[at];
        block[at] = WRONG;
        if (GSI_NUMBER(read_block(family, n, WORDS)) == 0)
            stop("it should be refused with a wrong byte");
        block[at] = was;
    }
}

static uint64_t mend_block(unsigned family, size_t n, size_t bytes, size_t places)
{
    return CALL(MEND + family, PLACE(block), n, PLACE(room), bytes, PLACE(edits), places);
}

/* Makes the block's words, every other one or all, words of 42-49 with four dots; the data, which are text then, stay. */
static void lay_dots(size_t words, int wide, int all)
{
    for (size_t i = 0; i < words; i++)
        if (all || i % 2) {
            uint8_t *word = block + wide + i * (wide ? 24 : 16);
            memcpy(word, "42....+", 7);
            word[1] = (uint8_t)('2' + i % 8);
        }
}

/* Spoils the block, whose end is CR LF, as a print program does: no word of 42-49 has its fourth dot, the last one no blank, and the
   end is LF alone. Tells its bytes, where its last word starts, and the edits that mend it. */
static size_t spoil_block(size_t words, int wide, size_t *last, size_t *missing)
{
    size_t each = wide ? 24 : 16, at = (size_t)wide;

    *missing = 2;
    for (size_t i = 0; i < words; i++) {
        const uint8_t *word = block + wide + i * each;
        size_t dot = memcmp(word + 2, "....", 4) == 0 && word[0] == '4' && word[1] >= '2';
        *last = at;
        *missing += dot;
        for (size_t k = 0; k < each; k++)
            if (k != 5 || !dot)
                block[at++] = word[k];
    }
    block[at - 1] = '\n';
    return at;
}

/* A right block is mended to itself, and to itself too when it is spoiled; then it is refused with too little room, with too few places
   for its edits, cut short, and with each byte of its last word wrong. */
static void try_mend(unsigned family, size_t first, size_t words, int wide, int all)
{
    static uint8_t right[LONG];
    size_t n = make_block(family, first, words, wide, 1), spoiled, last = 0, missing;

    snprintf(now, NAME, "%s block of %u words to mend, %s, %s of 42-49, from %s on", family_names[family], (unsigned)words,
             wide ? "wide" : "narrow", all ? "each one" : "every other", words_of[family][first]);
    lay_dots(words, wide, all);
    memcpy(right, block, n);
    if (mend_block(family, n, n, 0) != n || memcmp(room, right, n) != 0)
        stop("it is mended to another");
    expect(mend_block(family, n, n - 1, 0), 14);

    spoiled = spoil_block(words, wide, &last, &missing);
    if (mend_block(family, spoiled, n, missing) != (n | (uint64_t)missing << 16) || memcmp(room, right, n) != 0)
        stop("it is mended to another when it is spoiled");
    expect(mend_block(family, spoiled, n - 1, missing), 14);
    expect(mend_block(family, spoiled, n, missing - 1), 11);
    expect(mend_block(family, spoiled - 1, n, missing), 2);
    for (size_t at = last; at < spoiled; at++) {
        uint8_t was = block[at];
        block[at] = WRONG;
        if (GSI_NUMBER(mend_block(family, spoiled, n, missing)) == 0)
            stop("it should be refused with a wrong byte");
        block[at] = was;
    }
}

static void try_blocks(void)
{
    for (unsigned family = 0; family < FAMILIES; family++)
        for (int wide = 0; wide < 2; wide++) {
            for (size_t first = 0; first < KINDS && words_of[family][first]; first++)
                for (int crlf = 0; crlf < 2; crlf++) {
                    try_block(family, first, 1, wide, crlf);
                    try_block(family, first, WORDS, wide, crlf);
                    try_mend(family, first, 1, wide, crlf);
                    try_mend(family, first, WORDS, wide, crlf);
                }
            snprintf(now, NAME, "%s block of 33 words, %s", family_names[family], wide ? "wide" : "narrow");
            expect(read_block(family, make_block(family, 0, WORDS + 1, wide, 0), COUNT_OF(list)), 4);
            expect(write_block(family, WORDS + 1, wide, 0, sizeof room), 12);
            expect(mend_block(family, make_block(family, 0, WORDS + 1, wide, 0), sizeof room, COUNT_OF(edits)), 4);
            snprintf(now, NAME, "%s block of no words", family_names[family]);
            expect(read_block(family, 0, WORDS), 1);
            expect(mend_block(family, 0, sizeof room, COUNT_OF(edits)), 1);
            memcpy(block, "\r", 1);
            expect(read_block(family, 1, WORDS), 3);
            expect(mend_block(family, 1, sizeof room, COUNT_OF(edits)), 3);
            expect(write_block(family, 0, wide, 0, sizeof room), 12);
        }
    snprintf(now, NAME, "an angle of 400 gon");
    memcpy(block, "21.102+40000000 \r", 17);
    expect(read_block(STATION, 17, WORDS), 10);
    expect(mend_block(STATION, 17, sizeof room, COUNT_OF(edits)), 10);
}

/* A number with a comma before its last three digits. */
static const char *shown(size_t n, char to[24])
{
    if (n < 1000)
        snprintf(to, 24, "%u", (unsigned)n);
    else
        snprintf(to, 24, "%u,%03u", (unsigned)(n / 1000), (unsigned)(n % 1000));
    return to;
}

int main(void)
{
    static const uint64_t no_words[6];
    char bytes[24], most[24], more[24];
    uint64_t answer;
    int status = 0;

    empty = overwritten(nothing, no_words, &answer);
    /* The first time round only warms up: what the library calls of the C library is looked up then, on the caller's stack. */
    for (int round = 0; round < 2; round++) {
        memset(taken, 0, sizeof taken);
        try_states();
        try_blocks();
    }
    for (unsigned i = 0; i < FUNCTIONS; i++)
        printf("%s %s bytes, at most %s\n", functions[i].name, shown(taken[i], bytes), shown(functions[i].most, most));
    for (unsigned i = 0; i < FUNCTIONS; i++)
        if (taken[i] > functions[i].most) {
            printf("stack: %s takes %s bytes more than its limit of %s; its deepest call was %s\n", functions[i].name,
                   shown(taken[i] - functions[i].most, more), shown(functions[i].most, most), deepest[i]);
            status = 1;
        }
    return status;
}
