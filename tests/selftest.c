/* selftest.c: checks the second implementation alone against the worked readings of document 01, the level's listing of
   003, request 102's minus nought, request 103's TPS300, request 104's places, request 105's mending, request 106's sheets that
   remember and what is easy to slip on. Prints `ok`, or the lines of this file whose reading failed. */
#include "reference.h"

int printf(const char *, ...);
int snprintf(char *, size_t, const char *, ...);
int memcmp(const void *, const void *, size_t);
void *memcpy(void *, const void *, size_t);
void *memset(void *, int, size_t);
size_t strlen(const char *);

static int failures;

#define CHECK(condition) \
    do { \
        if (!(condition)) { \
            printf("line %d: %s\n", __LINE__, #condition); \
            failures++; \
        } \
    } while (0)

#define ANSWER(number, told) ((uint64_t)(number) << 32 | (uint64_t)(told))
#define READ(bytes, words, wide, crlf) \
    ANSWER(0, (uint64_t)(bytes) | (uint64_t)(words) << 16 | (uint64_t)(wide) << 24 | (uint64_t)(crlf) << 25)

/* Blocks */

static ref_word list[34];

/* The family whose reader and writer the checks below use. */
static const struct family {
    uint64_t (*read)(const uint8_t *block, size_t n, ref_word *list, size_t places);
    uint64_t (*write)(const ref_word *list, size_t words, uint64_t wide, uint64_t crlf, uint8_t *block, size_t room);
} station = {ref_read, ref_write}, level = {ref_read_level, ref_write_level}, *family = &station;

/* Reads with that many places; checks that a refusal leaves the list untouched, and that places beyond the count stay. */
static uint64_t reading_in(const char *block, size_t n, size_t places)
{
    static ref_word before[34];
    uint64_t got;
    size_t kept;
    memset(list, 0xA5, sizeof list);
    memcpy(before, list, sizeof list);
    got = family->read((const uint8_t *)block, n, list, places);
    kept = got >> 32 ? 0 : (size_t)(got >> 16 & 255);
    CHECK(memcmp(list + kept, before + kept, (34 - kept) * sizeof(ref_word)) == 0);
    return got;
}

static uint64_t reading(const char *block)
{
    return reading_in(block, strlen(block), 32);
}

/* Writes the list in the width and checks that the block comes back, each room but its own being too short or ample. */
static void writes_back(const char *block, size_t words, int wide, int crlf)
{
    uint8_t room[800];
    size_t n = strlen(block);
    for (size_t short_room = 0; short_room < n; short_room++) {
        memset(room, 0x5A, sizeof room);
        CHECK(family->write(list, words, (uint64_t)wide, (uint64_t)crlf, room, short_room) == ANSWER(14, n));
        for (size_t i = 0; i < sizeof room; i++)
            if (room[i] != 0x5A) {
                CHECK(!"a refused writer leaves the room untouched");
                break;
            }
    }
    memset(room, 0x5A, sizeof room);
    CHECK(family->write(list, words, (uint64_t)wide, (uint64_t)crlf, room, n + 1) == ANSWER(0, n));
    CHECK(memcmp(room, block, n) == 0 && room[n] == 0x5A);
}

static void check_proved_blocks(void)
{
    const char *p1 = "110014+00000003 21.324+27952530 22.324+27000430 31..01+00265965 51..1.+0009+000 \r\n";
    const char *p3 = "*11....+000000000PNC0058 \r";

    /* P1 */
    CHECK(reading(p1) == READ(82, 5, 0, 1));
    CHECK(list[0].index == 11 && memcmp(list[0].info, "0014", 4) == 0 && list[0].size == 0);
    CHECK(memcmp(list[0].text, "00000003\0\0\0\0\0\0\0\0", 16) == 0);
    CHECK(list[1].index == 21 && list[1].size == 10075730 && list[1].minus == 0);
    CHECK(list[2].index == 22 && list[2].size == 9720430);
    CHECK(list[3].index == 31 && list[3].size == 265965);
    CHECK(list[4].index == 51 && list[4].size == 9 && list[4].mm == 0 && list[4].minus == 0 && list[4].mm_minus == 0);
    writes_back(p1, 5, 0, 1);
    /* P2 */
    CHECK(reading("\r") == ANSWER(3, 0));
    /* P3 */
    CHECK(reading(p3) == READ(26, 1, 1, 0));
    CHECK(memcmp(list[0].text, "000000000PNC0058", 16) == 0);
    writes_back(p3, 1, 1, 0);
    /* P4 */
    CHECK(reading("21.102+39999999 \r") == READ(17, 1, 0, 0) && list[0].size == 39999999);
    CHECK(reading("21.102+40000000 \r") == ANSWER(10, 7));
    /* P5 */
    CHECK(reading("21.104+35959599 \r") == READ(17, 1, 0, 0) && list[0].size == 12959999);
    writes_back("21.104+35959599 \r", 1, 0, 0);
    CHECK(reading("21.104+00060000 \r") == ANSWER(10, 7));
    /* P6; #102: "Case P6's second half changes." */
    CHECK(reading("82..00-00213159 \r") == READ(17, 1, 0, 0) && list[0].size == 213159 && list[0].minus == 1);
    CHECK(reading("82..00-00000000 \r") == READ(17, 1, 0, 0) && list[0].size == 0 && list[0].minus == 1);
    writes_back("82..00-00000000 \r", 1, 0, 0);
    /* P7; 104: "the first of positions 3-6 ... that breaks its rule": position 3 of index 33 is a dot. */
    CHECK(reading("331106+00010198 \r") == ANSWER(6, 2));
    /* "000's `17920860` is 179.20860 gon" */
    CHECK(reading("21.102+17920860 \r") == READ(17, 1, 0, 0) && list[0].size == 17920860);
}

static void check_block_slips(void)
{
    char many[33 * 16 + 3];

    CHECK(reading("") == ANSWER(1, 0));
    /* Nothing left where a word would start. */
    CHECK(reading("*") == ANSWER(2, 1));
    CHECK(reading("31..00+00000001 ") == ANSWER(2, 16));
    /* 15 bytes and no more; a CR as the 16th byte. */
    CHECK(reading("31..00+00000001") == ANSWER(2, 0));
    CHECK(reading("31..00+00000001\r") == ANSWER(9, 15));
    CHECK(reading("31..00+00000001\r\n") == ANSWER(9, 15));
    /* The `*` is the first byte only; places count it. */
    CHECK(reading("*\r") == ANSWER(3, 0));
    CHECK(reading("**1....+000000000PNC0058 \r") == ANSWER(5, 1));
    CHECK(reading("31..00+00000001 *1..00+00000001 \r") == ANSWER(5, 16));
    CHECK(reading("*31..00+0000000000000001 31..00+000000000000000x \r") == ANSWER(8, 47));
    /* 32 words and no CR; fewer places; a CR first with no place. */
    for (size_t i = 0; i < 33; i++)
        memcpy(many + i * 16, "31..00+00000001 ", 16);
    memcpy(many + 528, "\r\n", 3);
    CHECK(reading_in(many, 530, 34) == ANSWER(4, 512));
    CHECK(reading_in(many, 512, 34) == ANSWER(4, 512));
    CHECK(reading_in(many, 511, 34) == ANSWER(2, 496));
    CHECK(reading_in(many, 530, 31) == ANSWER(11, 496));
    CHECK(reading_in(many, 530, 32) == ANSWER(4, 512));
    memcpy(many + 512, "\r\n", 2);
    CHECK(reading_in(many, 530, 32) == READ(514, 32, 0, 1));
    CHECK(reading_in(many, 513, 32) == READ(513, 32, 0, 0));
    CHECK(reading_in(many, 530, 0) == ANSWER(11, 0));
    CHECK(reading_in("\r", 1, 0) == ANSWER(3, 0));
    CHECK(reading_in("3", 1, 0) == ANSWER(2, 0));
    /* LF where a word would start, a CR inside a word, and the terminators. */
    CHECK(reading("31..00+00000001 \n") == ANSWER(2, 16));
    CHECK(reading("31..00+00000001 \n123456789012345\r") == ANSWER(5, 16));
    CHECK(reading("31..00+000\r0001 \r") == ANSWER(8, 10));
    CHECK(reading("31..00+00000001 \r\r\n") == READ(17, 1, 0, 0));
    CHECK(reading("31..00+00000001 \r\n\n") == READ(18, 1, 0, 1));
    /* The order within a word. */
    CHECK(reading("00abcd*xxxxxxxxx\r") == ANSWER(15, 0));
    CHECK(reading("1xabcd*xxxxxxxxx\r") == ANSWER(5, 1));
    CHECK(reading("31..02*xxxxxxxxx\r") == ANSWER(6, 5));
    CHECK(reading("31..00*xxxxxxxxx\r") == ANSWER(7, 6));
    CHECK(reading("31..00-0000000xx\r") == ANSWER(8, 14));
    CHECK(reading("31..00-00000000x\r") == ANSWER(9, 15));
    CHECK(reading("21.102+40000000x\r") == ANSWER(9, 15));
    CHECK(reading("51..1.+0009*00x \r") == ANSWER(8, 11));
    CHECK(reading("51..1.+000x+000 \r") == ANSWER(8, 10));
    CHECK(reading("51..1.-0009-002 \r") == READ(17, 1, 0, 0) && list[0].minus == 1 && list[0].mm_minus == 1 &&
          list[0].size == 9 && list[0].mm == 2);
    CHECK(reading("*51..1.+123456789012-345 \r") == READ(26, 1, 1, 0) && list[0].size == 123456789012 && list[0].mm == 345);
    CHECK(reading("11....-00000003 \r") == ANSWER(7, 6));
    CHECK(reading("11....+0000 003 \r") == ANSWER(8, 11));
    CHECK(reading("11....+!~000003 \r") == READ(17, 1, 0, 0));
    /* A minus in text is no sign of mm. */
    CHECK(reading("11....+0009-002 \r") == READ(17, 1, 0, 0) && list[0].minus == 0 && list[0].mm_minus == 0 && list[0].mm == 0);
    CHECK(reading("*13....+000000000009-002 \r") == READ(26, 1, 1, 0) && list[0].minus == 0 && list[0].mm_minus == 0);
    /* 11 and 41 have no mixture; the three after a text's dot are free. */
    CHECK(reading("110.14+00000003 \r") == ANSWER(6, 3));
    CHECK(reading("41...4+00000003 \r") == ANSWER(6, 5));
    CHECK(reading("419999+00000003 \r") == READ(17, 1, 0, 0));
    CHECK(reading("42.9.0+00000003 \r") == READ(17, 1, 0, 0));
    CHECK(reading("4209.0+00000003 \r") == ANSWER(6, 2));
    /* A unit may never be missing. */
    CHECK(reading("21.10.+00000003 \r") == ANSWER(6, 5));
    CHECK(reading("31..0.+00000003 \r") == ANSWER(6, 5));
    CHECK(reading("58..0.+00000003 \r") == ANSWER(6, 5));
    CHECK(reading("59..06-00000003 \r") == READ(17, 1, 0, 0));
    /* "Size": a negative angle is right. Wide angles have the same limits. */
    CHECK(reading("22..02-39999999 \r") == READ(17, 1, 0, 0) && list[0].minus == 1);
    CHECK(reading("22..02-40000000 \r") == ANSWER(10, 7));
    CHECK(reading("24.333+35999999 \r") == READ(17, 1, 0, 0));
    CHECK(reading("24.333+36000000 \r") == ANSWER(10, 7));
    CHECK(reading("24.3.5+63999999 \r") == READ(17, 1, 0, 0));
    CHECK(reading("24.3.5+64000000 \r") == ANSWER(10, 7));
    CHECK(reading("*24.3.5+0000000063999999 \r") == READ(26, 1, 1, 0));
    CHECK(reading("*24.3.5+0000000100000000 \r") == ANSWER(10, 8));
    CHECK(reading("*24.3.4-0000000035959599 \r") == READ(26, 1, 1, 0) && list[0].size == 12959999);
    CHECK(reading("*24.3.4+0000000036000000 \r") == ANSWER(10, 8));
    CHECK(reading("*24.3.4+0000000100000000 \r") == ANSWER(10, 8));
    CHECK(reading("*24.3.4+0000000000000600 \r") == ANSWER(10, 8));
    CHECK(reading("*31..00-9999999999999999 \r") == READ(26, 1, 1, 0) && list[0].size == 9999999999999999);
}

/* Changes the right record and writes it. */
static ref_word right, r;
static uint8_t room[800];

#define REFUSED(wide, change) \
    do { \
        r = right; \
        change; \
        CHECK(family->write(&r, 1, wide, 0, room, sizeof room) == ANSWER(13, 0)); \
    } while (0)
#define WRITTEN(wide, change) \
    do { \
        r = right; \
        change; \
        CHECK(family->write(&r, 1, wide, 0, room, sizeof room) == ANSWER(0, (wide) ? 26 : 17)); \
    } while (0)

static void check_writer(void)
{
    ref_word many[33];

    CHECK(family->write(list, 0, 0, 0, room, sizeof room) == ANSWER(12, 0));
    CHECK(family->write(list, 33, 0, 0, room, 0) == ANSWER(12, 0));

    CHECK(reading("31..00+00000001 \r") == READ(17, 1, 0, 0));
    right = list[0];
    for (size_t i = 0; i < 33; i++)
        many[i] = right;
    CHECK(family->write(many, 32, 0, 0, room, 512) == ANSWER(14, 513));
    CHECK(family->write(many, 32, 1, UINT64_C(1) << 32, room, 0) == ANSWER(14, 771));
    many[31].mm = 1;
    CHECK(family->write(many, 32, 0, 0, room, 0) == ANSWER(13, 31));
    many[3].text[15] = 1;
    CHECK(family->write(many, 32, 0, 0, room, 0) == ANSWER(13, 3));

    WRITTEN(0, r.size = 99999999);
    REFUSED(0, r.size = 100000000);
    WRITTEN(1, r.size = 9999999999999999);
    REFUSED(1, r.size = 10000000000000000);
    WRITTEN(0, r.minus = 1);
    REFUSED(0, r.minus = 2);
    REFUSED(0, r.mm_minus = 1);
    REFUSED(0, r.mm = 1);
    REFUSED(0, r.text[0] = 33);
    REFUSED(0, r.index = 131);
    REFUSED(0, r.index = 35);
    REFUSED(0, r.info[3] = '2');

    CHECK(reading("51..1.+0009+001 \r") == READ(17, 1, 0, 0));
    right = list[0];
    WRITTEN(0, r.size = 9999; r.mm = 999);
    REFUSED(0, r.size = 10000);
    WRITTEN(1, r.size = 999999999999);
    REFUSED(1, r.size = 1000000000000);
    REFUSED(0, r.mm = 1000);
    WRITTEN(0, r.mm_minus = 1);
    REFUSED(0, r.mm_minus = 2);

    CHECK(reading("21.324+27952530 \r") == READ(17, 1, 0, 0));
    right = list[0];
    WRITTEN(0, r.size = 12959999);
    CHECK(memcmp(room, "21.324+35959599 \r", 17) == 0);
    REFUSED(0, r.size = 12960000);
    REFUSED(1, r.size = 12960000);

    CHECK(reading("13..12+ABCDEFGH \r") == READ(17, 1, 0, 0));
    right = list[0];
    WRITTEN(0, (void)0);
    REFUSED(1, (void)0);
    REFUSED(0, r.text[8] = 'I');
    REFUSED(0, r.text[7] = 0);
    REFUSED(0, r.size = 1);
    REFUSED(0, r.minus = 1);
    REFUSED(0, r.mm_minus = 1);
    WRITTEN(1, memcpy(r.text, "!~!~!~!~!~!~!~!~", 16));
    REFUSED(0, memcpy(r.text, "!~!~!~!~!~!~!~!~", 16));
    /* A level's records. */
    REFUSED(0, r.index = 57);
    REFUSED(0, r.index = 521);
    REFUSED(0, r.index = 521; r.info[0] = 0);
    REFUSED(0, r.info[0] = 0);
}

/* Digital levels */

/* Reads one word with a CR by both families: the numbers, the station's first. */
static int numbers(const char *word, unsigned by_station, unsigned by_level)
{
    char block[40];
    size_t n = strlen(word);
    unsigned number[2];
    memcpy(block, word, n);
    block[n] = '\r';
    for (int i = 0; i < 2; i++) {
        family = i ? &level : &station;
        number[i] = (unsigned)(reading_in(block, n + 1, 32) >> 32);
    }
    return number[0] == by_station && number[1] == by_level;
}

/* 003's digital level listing, each line as a block: its words with the last blank, CR LF. */
static const struct { uint8_t words; const char *block; } listing[] = {
    {2, "410001+00000020 42....+10842V02 \r\n"},
    {2, "410002+00000021 42....+00007330 \r\n"},
    {2, "410003+00000022 42....+00261001 \r\n"},
    {1, "410004+?......1 \r\n"},
    {2, "110005+00003000 83..16+00187430 \r\n"},
    {3, "110006+00003000 32..00+00016380 331106+00010198 \r\n"},
    {3, "110007+00004000 32..00+00017260 332106+00007177 \r\n"},
    {4, "110008+00004000 573..0-00000880 574..0+00033650 83..06+00190451 \r\n"},
    {3, "110009+00004000 32..00+00019390 331106+00007600 \r\n"},
    {3, "110013+00004001 32..00+00019490 332106+00006824 \r\n"},
    {4, "110014+00004001 573..0-00000850 574..0+00116940 83..06+00190458 \r\n"},
    {3, "110015+00004001 32..00+00018220 331106+00006660 \r\n"},
    {3, "110016+00003000 32..00+00015370 332106+00009686 \r\n"},
    {4, "110017+00003000 573..0+00002000 574..0+00150530 83..06+00187432 \r\n"},
};

static void check_levels(void)
{
    static const uint16_t three[] = {330, 331, 332, 333, 334, 335, 336, 374, 571, 572, 573, 574};
    char word[] = "...106+00010198 ";

    /* The listing, block by block. */
    family = &level;
    for (size_t i = 0; i < sizeof listing / sizeof *listing; i++) {
        const char *block = listing[i].block;
        CHECK(reading(block) == READ(strlen(block), listing[i].words, 0, 1));
        writes_back(block, listing[i].words, 0, 1);
    }
    CHECK(reading(listing[3].block) == READ(18, 1, 0, 1));
    CHECK(list[0].index == 41 && memcmp(list[0].info, "0004", 4) == 0 && memcmp(list[0].text, "?......1\0\0\0\0\0\0\0\0", 16) == 0);
    CHECK(reading(listing[5].block) == READ(50, 3, 0, 1));
    CHECK(list[0].index == 11 && memcmp(list[0].info, "0006", 4) == 0 && memcmp(list[0].text, "00003000", 8) == 0);
    CHECK(list[1].index == 32 && memcmp(list[1].info, "..00", 4) == 0 && list[1].size == 16380);
    CHECK(list[2].index == 331 && memcmp(list[2].info, "\000106", 4) == 0 && list[2].size == 10198 && list[2].minus == 0);
    CHECK(reading(listing[7].block) == READ(66, 4, 0, 1));
    CHECK(list[1].index == 573 && memcmp(list[1].info, "\0..0", 4) == 0 && list[1].size == 880 && list[1].minus == 1);
    CHECK(list[2].index == 574 && list[2].size == 33650 && list[3].index == 83 && list[3].size == 190451);
    CHECK(reading("83..16+00187430 \r") == READ(17, 1, 0, 0) && list[0].size == 187430 && memcmp(list[0].info, "..16", 4) == 0);
    writes_back("83..16+00187430 \r", 1, 0, 0);

    /* Each three-digit combination: "330-336, 374, 521, 571-574", and 110-119 and 410-419 with a block number. */
    for (unsigned index = 0; index < 1000; index++) {
        int known = index == 521 || index / 10 == 11 || index / 10 == 41;
        for (size_t i = 0; i < sizeof three / sizeof *three; i++)
            known |= index == three[i];
        word[0] = (char)('0' + index / 100);
        word[1] = (char)('0' + index / 10 % 10);
        word[2] = (char)('0' + index % 10);
        family = &level;
        CHECK(reading_in(word, 16, 32) == (known ? ANSWER(2, 16) : ANSWER(15, 0)));
    }
    CHECK(numbers("329106+00010198 ", 6, 15) && numbers("330106+00010198 ", 6, 0) && numbers("336106+00010198 ", 6, 0));
    CHECK(numbers("337106+00010198 ", 6, 15) && numbers("373106+00010198 ", 15, 15) && numbers("374106+00010198 ", 15, 0));
    CHECK(numbers("375106+00010198 ", 15, 15) && numbers("520...+00010198 ", 6, 15) && numbers("521...+00010198 ", 6, 0));
    CHECK(numbers("522...+00010198 ", 6, 15) && numbers("570106+00010198 ", 15, 15) && numbers("571106+00010198 ", 15, 0));
    CHECK(numbers("574106+00010198 ", 15, 0) && numbers("575106+00010198 ", 15, 15) && numbers("331106+00010198 ", 6, 0));
    CHECK(numbers("420...+00010198 ", 6, 15) && numbers("321106+00010198 ", 6, 15) && numbers("32100.+00010198 ", 6, 15));
    CHECK(numbers("042...+00010198 ", 15, 15) && numbers("011106+00010198 ", 15, 15) && numbers("000106+00010198 ", 15, 15));

    /* Two digits with no digit after them: position 3 is information, and a dot. */
    CHECK(numbers("33.106+00010198 ", 6, 15) && numbers("33..06+00010198 ", 0, 15) && numbers("31..06+00010198 ", 0, 15));
    CHECK(numbers("51..1.+0009+000 ", 0, 15) && numbers("12....+00000001 ", 0, 15) && numbers("21.102+00000001 ", 0, 15));
    CHECK(numbers("57....+00000001 ", 15, 0) && numbers("52....+00000001 ", 0, 0) && numbers("53....+00000001 ", 0, 15));
    CHECK(numbers("32x.06+00010198 ", 6, 6) && numbers("33x106+00010198 ", 6, 15) && numbers("52/...+00010198 ", 6, 6));
    CHECK(numbers("32:.06+00010198 ", 6, 6) && numbers("57:...+00010198 ", 15, 6) && numbers("42 ...+00010198 ", 6, 6));
    /* Fewer than two digits. */
    CHECK(numbers("x31106+00010198 ", 5, 5) && numbers("3x1106+00010198 ", 5, 5) && numbers("331x06+00010198 ", 6, 6));
    CHECK(numbers("3/1106+00010198 ", 5, 5) && numbers(":31106+00010198 ", 5, 5));

    /* "11, 41-49 read as before": four digits or four dots, no mixture. */
    CHECK(numbers("11....+!~!~!~!~ ", 0, 0) && numbers("110014+00000003 ", 0, 0) && numbers("419999+00000003 ", 0, 0));
    CHECK(numbers("11.014+00000003 ", 6, 6) && numbers("110.14+00000003 ", 6, 6) && numbers("11x014+00000003 ", 6, 6));
    CHECK(numbers("11...4+00000003 ", 6, 6) && numbers("419...+00000003 ", 6, 6) && numbers("110014-00000003 ", 7, 7));
    CHECK(numbers("42.9.0+00000003 ", 0, 0) && numbers("49.999+00000003 ", 0, 0) && numbers("42.x..+00000003 ", 6, 6));
    /* "52, 57 and 521 are text, the rest of positions 4-6 dots or digits." */
    CHECK(numbers("521999+ABC~!xyz ", 6, 0) && numbers("521.0.+00000003 ", 6, 0) && numbers("521..x+00000003 ", 6, 6));
    CHECK(numbers("521/..+00000003 ", 6, 6) && numbers("521...-00000003 ", 6, 7) && numbers("521...+0000 003 ", 6, 8));
    CHECK(numbers("57.3.9+00000003 ", 15, 0) && numbers("52.999+ABCDEFGH ", 0, 0) && numbers("52..:.+00000003 ", 6, 6));

    /* "position 4 is a dot or 1, 5 a dot, 0-2 or 4-7, 6 a unit: 0, 1 or 6-9" */
    for (int b = 0; b < 256; b++) {
        char w[] = "331106+00010198 ";
        int digit = b >= '0' && b <= '9' ? b - '0' : -1;
        family = &level;
        w[3] = (char)b;
        CHECK(reading_in(w, 16, 32) == (b == '.' || digit == 1 ? ANSWER(2, 16) : ANSWER(6, 3)));
        w[3] = '1';
        w[4] = (char)b;
        CHECK(reading_in(w, 16, 32) == (b == '.' || (digit >= 0 && digit <= 7 && digit != 3) ? ANSWER(2, 16) : ANSWER(6, 4)));
        w[4] = '0';
        w[5] = (char)b;
        CHECK(reading_in(w, 16, 32) == (digit == 0 || digit == 1 || digit >= 6 ? ANSWER(2, 16) : ANSWER(6, 5)));
    }
    CHECK(numbers("32..09+00010198 ", 6, 0) && numbers("83..09+00010198 ", 6, 0) && numbers("32.1.8+00010198 ", 6, 0));
    CHECK(numbers("32..03+00010198 ", 6, 6) && numbers("32..30+00010198 ", 0, 6) && numbers("32..40+00010198 ", 0, 0));
    CHECK(numbers("32..50+00010198 ", 6, 0) && numbers("83.070+00010198 ", 6, 6) && numbers("83..0.+00010198 ", 6, 6));

    /* The order within a word. */
    CHECK(numbers("337xxx*xxxxxxxxx", 6, 15) && numbers("331105*xxxxxxxxx", 6, 6) && numbers("331106*xxxxxxxxx", 6, 7));
    CHECK(numbers("331106-0000000xx", 6, 8) && numbers("331106-00000000x", 6, 9) && numbers("573..0-00000001 ", 15, 0));
    CHECK(numbers("331106+99999999 ", 6, 0) && numbers("331106+0001+198 ", 6, 8) && numbers("331106+00010198\r", 6, 9));

    /* Wide words, and what a block has in common. */
    family = &level;
    CHECK(reading("*331.79-9999999999999999 521...+ABCDEFGHIJKLMNOP 110007+0000000000004000 \r") == READ(74, 3, 1, 0));
    CHECK(list[0].size == 9999999999999999 && list[0].minus == 1 && memcmp(list[0].info, "\000.79", 4) == 0);
    CHECK(list[1].index == 521 && memcmp(list[1].info, "\0...", 4) == 0 && memcmp(list[1].text, "ABCDEFGHIJKLMNOP", 16) == 0);
    writes_back("*331.79-9999999999999999 521...+ABCDEFGHIJKLMNOP 110007+0000000000004000 \r", 3, 1, 0);
    CHECK(reading("331106+00010198 337106+00010198 \r") == ANSWER(15, 16));
    CHECK(reading("331106+00010198 ") == ANSWER(2, 16) && reading("331106+00010198") == ANSWER(2, 0) && reading("\r") == ANSWER(3, 0));
    CHECK(reading_in("331106+00010198 331106+00010198 \r", 33, 1) == ANSWER(11, 16) && reading("") == ANSWER(1, 0));

    /* The writer refuses what no word of the family gives. */
    CHECK(family->write(list, 0, 0, 0, room, 0) == ANSWER(12, 0) && family->write(list, 33, 0, 0, room, 0) == ANSWER(12, 0));
    CHECK(reading("331106+00010198 \r") == READ(17, 1, 0, 0));
    writes_back("331106+00010198 \r", 1, 0, 0);
    right = list[0];
    for (int b = 1; b < 256; b++)
        REFUSED(0, r.info[0] = (uint8_t)b);
    WRITTEN(0, r.minus = 1; r.info[3] = '9');
    CHECK(memcmp(room, "331109-00010198 \r", 17) == 0);
    WRITTEN(1, memcpy(r.info + 1, "..0", 3));
    CHECK(memcmp(room, "*331..0+0000000000010198 \r", 26) == 0);
    WRITTEN(0, r.size = 99999999);
    REFUSED(0, r.size = 100000000);
    REFUSED(1, r.size = 10000000000000000);
    REFUSED(0, r.minus = 2);
    REFUSED(0, r.mm = 1);
    REFUSED(0, r.mm_minus = 1);
    REFUSED(0, r.text[0] = '0');
    REFUSED(0, r.info[1] = '2');
    REFUSED(0, r.info[2] = '3');
    REFUSED(0, r.info[3] = '5');
    REFUSED(0, r.index = 337);
    REFUSED(0, r.index = 329);
    REFUSED(0, r.index = 33);
    REFUSED(0, r.index = 1331);
    REFUSED(0, r.index = 331 + 256);
    REFUSED(0, r.index = 32);
    WRITTEN(0, r.index = 32; r.info[0] = '.');
    REFUSED(0, r.index = 521);
    family = &station;
    REFUSED(0, (void)0);
    REFUSED(0, r.info[0] = '.');
    REFUSED(0, r.index = 33);
    REFUSED(0, r.index = 33; r.info[0] = '1');

    family = &level;
    CHECK(reading("110006+00003000 \r") == READ(17, 1, 0, 0));
    right = list[0];
    WRITTEN(0, memset(r.info, '.', 4));
    REFUSED(0, r.info[0] = '.');
    REFUSED(0, r.info[0] = 0);
    /* Such a word gives index 11 or 41, never this. */
    REFUSED(0, r.index = 110);
    REFUSED(0, r.index = 110; r.info[0] = 0);
    REFUSED(0, r.index = 419; r.info[0] = 0);
    REFUSED(0, r.index = 521);
    WRITTEN(0, r.index = 521; r.info[0] = 0);
    CHECK(memcmp(room, "521006+00003000 \r", 17) == 0);
    REFUSED(0, r.index = 42);
    REFUSED(0, r.index = 42; r.info[0] = 0);
    WRITTEN(0, r.index = 57; r.info[0] = '.');
    CHECK(memcmp(room, "57.006+00003000 \r", 17) == 0);
    REFUSED(0, r.index = 53; r.info[0] = '.');
    REFUSED(1, (void)0);
    family = &station;
}

/* Minus nought, in blocks and records */

/* Reads one word with a CR and checks its record's signs and sizes, that it comes back, and that what comes back with another
   sign is another record. */
static void keeps(const char *word, unsigned minus, uint64_t size, unsigned mm_minus, uint64_t mm)
{
    char block[40];
    size_t n = strlen(word);
    int wide = word[0] == '*';
    ref_word first;
    memcpy(block, word, n);
    memcpy(block + n, "\r", 2);
    CHECK(reading(block) == READ(n + 1, 1, wide, 0));
    CHECK(list[0].minus == minus && list[0].size == size && list[0].mm_minus == mm_minus && list[0].mm == mm);
    writes_back(block, 1, wide, 0);
    /* #102: "Records with different signs are different." */
    first = list[0];
    block[wide + 6] = minus ? '+' : '-';
    CHECK(reading(block) == READ(n + 1, 1, wide, 0) && list[0].minus == !minus);
    list[0].minus = (uint8_t)minus;
    CHECK(memcmp(&list[0], &first, sizeof first) == 0);
}

/* The word of the index and information with minus nought for its data, in either width. */
static void keeps_nought(const char *start)
{
    char word[] = "*......-0000000000000000 ";
    memcpy(word + 1, start, 6);
    keeps(word, 1, 0, 0, 0);
    memcpy(word + 16, " ", 2);
    keeps(word + 1, 1, 0, 0, 0);
}

static void check_minus_nought(void)
{
    static const char *const of_station[] = {
        "21.102", "21.103", "21.104", "21.105", "22.002", "22.333", "22..14", "22.3.5", "24...2", "24..03", "24.104", "24.345",
        "31..00", "31..01", "31..06", "31..07", "31..08", "32..10", "33...1", "34..46", "81..00", "82..01", "83..06", "84..17",
        "85..28", "86..30", "87..41", "88...6", "58..06", "58...6", "59..16", "59..46"};
    static const char *const of_level[] = {
        "32...0", "32.101", "83..16", "83..29", "330106", "331..0", "331..1", "331..6", "331..7", "331..8", "331..9", "332.79",
        "333106", "334.40", "335151", "336.68", "374.17", "571..0", "572106", "573..0", "574..9"};
    static const char *const pairs[] = {
        "+0000-000", "-0000+000", "-0000-000", "+0001-000", "-0000+001", "-0001-000", "-0000-001", "-0000-999", "-9999-000"};
    char wide[] = "*51..1.+000000000000+000 ";

    /* "Accept minus before zero in angles, lengths, constants" */
    family = &station;
    for (size_t i = 0; i < sizeof of_station / sizeof *of_station; i++)
        keeps_nought(of_station[i]);
    family = &level;
    for (size_t i = 0; i < sizeof of_level / sizeof *of_level; i++)
        keeps_nought(of_level[i]);
    family = &station;

    /* "and both halves of a pair" */
    for (size_t i = 0; i < sizeof pairs / sizeof *pairs; i++) {
        char word[] = "51..1.+0000+000 ";
        unsigned minus = pairs[i][0] == '-', mm_minus = pairs[i][5] == '-';
        uint64_t ppm = pairs[i][1] == '9' ? 9999 : (uint64_t)(pairs[i][4] - '0');
        uint64_t mm = pairs[i][6] == '9' ? 999 : (uint64_t)(pairs[i][8] - '0');
        memcpy(word + 6, pairs[i], 9);
        keeps(word, minus, ppm, mm_minus, mm);
        wide[7] = pairs[i][0];
        memcpy(wide + 16, pairs[i] + 1, 8);
        keeps(wide, minus, ppm, mm_minus, mm);
    }
    keeps("*51....-100000000000-000 ", 1, 100000000000, 1, 0);
    keeps("*51....-000000000000-100 ", 1, 0, 1, 100);
    /* Nought is all of the digits. */
    keeps("*31..00-1000000000000000 ", 1, 1000000000000000, 0, 0);
    keeps("*31..00-0000000100000000 ", 1, 100000000, 0, 0);
    keeps("21.104-10000000 ", 1, 3600000, 0, 0);

    /* Among other words, each with its own sign. */
    CHECK(reading("110014+00000003 82..00-00000000 82..00+00000000 51..1.-0000-000 82..00-00000001 21.324-00000000 \r\n") == READ(98, 6, 0, 1));
    CHECK(list[0].minus == 0 && list[1].minus == 1 && list[2].minus == 0 && list[3].minus == 1 && list[3].mm_minus == 1);
    CHECK(list[1].size == 0 && list[2].size == 0 && list[4].minus == 1 && list[4].size == 1 && list[5].minus == 1 && list[5].size == 0);
    writes_back("110014+00000003 82..00-00000000 82..00+00000000 51..1.-0000-000 82..00-00000001 21.324-00000000 \r\n", 6, 0, 1);
    family = &level;
    CHECK(reading("110008+00004000 573..0-00000000 574..0+00000000 83..06-00000000 \r\n") == READ(66, 4, 0, 1));
    CHECK(list[1].minus == 1 && list[1].size == 0 && list[2].minus == 0 && list[3].minus == 1 && list[3].size == 0);
    writes_back("110008+00004000 573..0-00000000 574..0+00000000 83..06-00000000 \r\n", 4, 0, 1);

    /* "10 now means angle out of range alone": with a minus too, and never a level's. */
    CHECK(numbers("21.102-39999999 ", 0, 15) && numbers("21.102-40000000 ", 10, 15) && numbers("21.102-99999999 ", 10, 15));
    CHECK(numbers("22.103-35999999 ", 0, 15) && numbers("22.103-36000000 ", 10, 15) && numbers("24.105-63999999 ", 0, 15));
    CHECK(numbers("24.105-64000000 ", 10, 15) && numbers("21.104-35959599 ", 0, 15) && numbers("21.104-36000000 ", 10, 15));
    CHECK(numbers("21.104-00060000 ", 10, 15) && numbers("21.104-00000600 ", 10, 15) && numbers("21.104-00000599 ", 0, 15));
    CHECK(numbers("*21.102-0000000040000000 ", 10, 15) && numbers("*21.102-1000000000000000 ", 10, 15));
    CHECK(numbers("*21.104-0000000100000000 ", 10, 15) && numbers("*21.104-0000000036000000 ", 10, 15));
    CHECK(numbers("573..0-00000000 ", 15, 0) && numbers("573..0-99999999 ", 15, 0) && numbers("*573..0-9999999999999999 ", 15, 0));
    CHECK(numbers("83..06-00000000 ", 0, 0) && numbers("32..00-00000000 ", 0, 0) && numbers("331106-00000000 ", 6, 0));
    /* What stands before 10 is as it was. */
    CHECK(numbers("31..02-00000000 ", 6, 15) && numbers("31..00*00000000 ", 7, 15) && numbers("31..00--0000000 ", 8, 15));
    CHECK(numbers("31..00-0000000. ", 8, 15) && numbers("31..00-00000000x", 9, 15) && numbers("31..00-00000000\r", 9, 15));
    CHECK(numbers("51..1.-0000x000 ", 8, 15) && numbers("51..1.-0000-00- ", 8, 15) && numbers("51..1.-0000-000x", 9, 15));
    /* Text has `+` only as before. */
    CHECK(numbers("11....-00000000 ", 7, 7) && numbers("410001-00000000 ", 7, 7) && numbers("42....-00000000 ", 7, 7));
    CHECK(numbers("13....-00000000 ", 7, 15) && numbers("52....-00000000 ", 7, 7) && numbers("79....-00000000 ", 7, 15));
    CHECK(numbers("57....-00000000 ", 15, 7) && numbers("521...-00000000 ", 6, 7) && numbers("*71....-0000000000000000 ", 7, 15));

    /* The same as records for the writer. */
    family = &station;
    for (size_t i = 0; i < sizeof of_station / sizeof *of_station + sizeof of_level / sizeof *of_level; i++) {
        size_t of_others = sizeof of_station / sizeof *of_station;
        char word[] = "......+00000001 \r", nought[] = "*......-0000000000000000 \r";
        const char *start = i < of_others ? of_station[i] : of_level[i - of_others];
        family = i < of_others ? &station : &level;
        memcpy(word, start, 6);
        memcpy(nought + 1, start, 6);
        CHECK(reading(word) == READ(17, 1, 0, 0));
        right = list[0];
        WRITTEN(1, r.minus = 1; r.size = 0);
        CHECK(memcmp(room, nought, 26) == 0);
        memcpy(nought + 16, " \r", 3);
        WRITTEN(0, r.minus = 1; r.size = 0);
        CHECK(memcmp(room, nought + 1, 17) == 0);
        WRITTEN(0, r.size = 0);
        CHECK(room[6] == '+');
        /* A sign is 0 or 1, and one without an mm is no word's. */
        for (unsigned sign = 2; sign < 256; sign++) {
            REFUSED(0, r.minus = (uint8_t)sign; r.size = 0);
            REFUSED(1, r.mm_minus = (uint8_t)sign; r.size = 0);
        }
        REFUSED(0, r.mm_minus = 1);
        REFUSED(0, r.mm_minus = 1; r.size = 0);
        REFUSED(1, r.mm_minus = 1; r.minus = 1; r.size = 0);
        REFUSED(0, r.mm_minus = 1; r.mm = 1);
    }
    family = &station;
    CHECK(reading("51..1.+0009+001 \r") == READ(17, 1, 0, 0));
    right = list[0];
    WRITTEN(0, r.minus = 1; r.size = 0);
    CHECK(memcmp(room, "51..1.-0000+001 \r", 17) == 0);
    WRITTEN(0, r.mm_minus = 1; r.mm = 0);
    CHECK(memcmp(room, "51..1.+0009-000 \r", 17) == 0);
    WRITTEN(0, r.minus = r.mm_minus = 1; r.size = r.mm = 0);
    CHECK(memcmp(room, "51..1.-0000-000 \r", 17) == 0);
    WRITTEN(1, r.minus = r.mm_minus = 1; r.size = r.mm = 0);
    CHECK(memcmp(room, "*51..1.-000000000000-000 \r", 26) == 0);
    for (unsigned sign = 2; sign < 256; sign++) {
        REFUSED(0, r.minus = (uint8_t)sign; r.size = 0);
        REFUSED(0, r.mm_minus = (uint8_t)sign; r.mm = 0);
    }
    /* A minus on text is no record, text of noughts too. */
    for (int i = 0; i < 4; i++) {
        static const char *const texts[] = {"11....+00000000 \r", "13..12+00000000 \r", "410001+00000000 \r", "521...+00000000 \r"};
        family = i < 2 ? &station : &level;
        CHECK(reading(texts[i]) == READ(17, 1, 0, 0));
        right = list[0];
        WRITTEN(0, (void)0);
        REFUSED(0, r.minus = 1);
        REFUSED(0, r.mm_minus = 1);
        REFUSED(0, r.minus = r.mm_minus = 1);
        REFUSED(1, memset(r.text, '0', 16); r.minus = 1);
    }
    family = &station;
    /* The first such record of a list. */
    CHECK(reading("31..00-00000000 51..1.-0000-000 13....+00000000 \r") == READ(49, 3, 0, 0));
    CHECK(family->write(list, 3, 0, 0, room, sizeof room) == ANSWER(0, 49));
    list[2].minus = 1;
    CHECK(family->write(list, 3, 0, 0, room, sizeof room) == ANSWER(13, 2));
    list[0].mm_minus = 1;
    CHECK(family->write(list, 3, 0, 0, room, sizeof room) == ANSWER(13, 0));
}

/* Places in blocks */

/* 104: "Refusals 5 to 10 tell the exact byte: the first that breaks the rule, and for 10 the first data byte"; "15, no longer
   5, for digits that are no listed index, right after 5, telling the start of the word". Each row is a word, refused so by its
   family: the number, and the byte from the word's start. */
static const struct place { const struct family *of; const char *word; unsigned number, byte; } places[] = {
    /* 5: "the first of positions 1-2 that is no digit", before 15 and the others. */
    {&station, "x1..00+00000001 ", 5, 0}, {&station, "3x..00+00000001 ", 5, 1}, {&station, "xx..00+00000001 ", 5, 0},
    {&station, "/1..00+00000001 ", 5, 0}, {&station, ":1..00+00000001 ", 5, 0}, {&station, "3/..00+00000001 ", 5, 1},
    {&station, "3:..00+00000001 ", 5, 1}, {&station, ".1..00+00000001 ", 5, 0}, {&station, "3...00+00000001 ", 5, 1},
    {&station, " 31..00+0000001 ", 5, 0}, {&station, "\n1..00+00000001 ", 5, 0}, {&station, "3\r..00+00000001 ", 5, 1},
    {&station, "9xxxxx*xxxxxxxxx", 5, 1}, {&station, "x9xxxx*xxxxxxxxx", 5, 0}, {&station, "xxxxxxxxxxxxxxxx", 5, 0},
    {&level, "x31106+00010198 ", 5, 0}, {&level, "3x1106+00010198 ", 5, 1}, {&level, "3/1106+00010198 ", 5, 1},
    {&level, ":31106+00010198 ", 5, 0}, {&level, "3..106+00010198 ", 5, 1}, {&level, "xx1106+00010198 ", 5, 0},
    {&level, "9x9xxx*xxxxxxxxx", 5, 1}, {&level, "x99xxx*xxxxxxxxx", 5, 0},
    /* 15: two digits, or three in the level's family where position 3 is one; before 6 to 10. */
    {&station, "35..00+00000001 ", 15, 0}, {&station, "00....+00000001 ", 15, 0}, {&station, "99xxxx*xxxxxxxxx", 15, 0},
    {&station, "10....+00000001 ", 15, 0}, {&station, "14....+00000001 ", 15, 0}, {&station, "57....+00000001 ", 15, 0},
    {&station, "374106+00010198 ", 15, 0}, {&station, "035.00+00000001 ", 15, 0}, {&station, "89..00+00000001 ", 15, 0},
    {&station, "23.102+00000001 ", 15, 0}, {&station, "80..00-00000000x", 15, 0}, {&station, "40..x0x0000000x ", 15, 0},
    {&level, "337106+00010198 ", 15, 0}, {&level, "329106+00010198 ", 15, 0}, {&level, "33x106+00010198 ", 15, 0},
    {&level, "33.106+00010198 ", 15, 0}, {&level, "042...+00010198 ", 15, 0}, {&level, "420...+00010198 ", 15, 0},
    {&level, "520...+00010198 ", 15, 0}, {&level, "832.06+00010198 ", 15, 0}, {&level, "21.102+00000001 ", 15, 0},
    {&level, "570106+00010198 ", 15, 0}, {&level, "575106+00010198 ", 15, 0}, {&level, "51..1.+0009+000 ", 15, 0},
    {&level, "99xxxx*xxxxxxxxx", 15, 0}, {&level, "999xxx*xxxxxxxxx", 15, 0}, {&level, "12....+00000001 ", 15, 0},
    /* 6: "the first of positions 3-6 ... that breaks its rule", kind by kind. */
    {&station, "31x.00+00000001 ", 6, 2}, {&station, "31.x00+00000001 ", 6, 3}, {&station, "31..x0+00000001 ", 6, 4},
    {&station, "31..0x+00000001 ", 6, 5}, {&station, "31xxxx*xxxxxxxxx", 6, 2}, {&station, "31.xxx*xxxxxxxxx", 6, 3},
    {&station, "31..xx*xxxxxxxxx", 6, 4}, {&station, "31...x*xxxxxxxxx", 6, 5}, {&station, "31.0.0+00000001 ", 6, 3},
    {&station, "31..50+00000001 ", 6, 4}, {&station, "31..02+00000001 ", 6, 5}, {&station, "31..09+00000001 ", 6, 5},
    {&station, "331106+00010198 ", 6, 2}, {&station, "33.106+00010198 ", 6, 3}, {&station, "34..5.+00010198 ", 6, 4},
    {&station, "21x102+00000001 ", 6, 2}, {&station, "211102+00000001 ", 6, 2}, {&station, "21.202+00000001 ", 6, 3},
    {&station, "21.402+00000001 ", 6, 3}, {&station, "21.152+00000001 ", 6, 4}, {&station, "21.101+00000001 ", 6, 5},
    {&station, "21.106+00000001 ", 6, 5}, {&station, "22.3..+00000001 ", 6, 5}, {&station, "24.256+99999999 ", 6, 3},
    {&station, "58..07+00000001 ", 6, 5}, {&station, "58.106+00000001 ", 6, 3}, {&station, "59..56+00000001 ", 6, 4},
    {&station, "591.06+00000001 ", 6, 2}, {&station, "59..0.+00000001 ", 6, 5}, {&station, "58..00+00000001 ", 6, 5},
    {&station, "51..16+0009+000 ", 6, 5}, {&station, "51..5.+0009+000 ", 6, 4}, {&station, "51.11.+0009+000 ", 6, 3},
    {&station, "511.1.+0009+000 ", 6, 2}, {&station, "511111+0009+000 ", 6, 2},
    {&station, "13x...+00000001 ", 6, 2}, {&station, "130...+00000001 ", 6, 2}, {&station, "13.x..+00000001 ", 6, 3},
    {&station, "13..x.+00000001 ", 6, 4}, {&station, "13...x+00000001 ", 6, 5}, {&station, "42.12/+00000001 ", 6, 5},
    {&station, "79.1:2+00000001 ", 6, 4}, {&station, "52.-..+00000001 ", 6, 3}, {&station, "42...+00000001 x", 6, 5},
    {&level, "32x106+00010198 ", 6, 2}, {&level, "32.x06+00010198 ", 6, 3}, {&level, "32..x6+00010198 ", 6, 4},
    {&level, "32..0x+00010198 ", 6, 5}, {&level, "83/.06+00010198 ", 6, 2}, {&level, "83.0.6+00010198 ", 6, 3},
    {&level, "83..36+00010198 ", 6, 4}, {&level, "83..0.+00010198 ", 6, 5}, {&level, "83.235*xxxxxxxxx", 6, 3},
    {&level, "331x06+00010198 ", 6, 3}, {&level, "3311x6+00010198 ", 6, 4}, {&level, "33110x+00010198 ", 6, 5},
    {&level, "331xxx*xxxxxxxxx", 6, 3}, {&level, "3311xx*xxxxxxxxx", 6, 4}, {&level, "331235+00010198 ", 6, 3},
    {&level, "331.35+00010198 ", 6, 4}, {&level, "331.05+00010198 ", 6, 5}, {&level, "331...+00010198 ", 6, 5},
    {&level, "374206+00010198 ", 6, 3}, {&level, "571186+00010198 ", 6, 4}, {&level, "574.02+00010198 ", 6, 5},
    {&level, "521x..+00010198 ", 6, 3}, {&level, "521.x.+00010198 ", 6, 4}, {&level, "521..x+00010198 ", 6, 5},
    {&level, "52x...+00010198 ", 6, 2}, {&level, "52.x..+00010198 ", 6, 3}, {&level, "57:...+00010198 ", 6, 2},
    {&level, "57..x.+00010198 ", 6, 4}, {&level, "42 ...+00010198 ", 6, 2}, {&level, "49.99-+00010198 ", 6, 5},
    {&level, "57xxxx*xxxxxxxxx", 6, 2}, {&level, "521/xx*xxxxxxxxx", 6, 3},
    /* "for 11 and 41 the first byte chooses between digits and dots, and is itself wrong if it is neither" */
    {&station, "11x...+00000003 ", 6, 2}, {&station, "11x014+00000003 ", 6, 2}, {&station, "11/014+00000003 ", 6, 2},
    {&station, "11:014+00000003 ", 6, 2}, {&station, "41 ...+00000003 ", 6, 2}, {&station, "41-...+00000003 ", 6, 2},
    {&station, "110...+00000003 ", 6, 3}, {&station, "1100..+00000003 ", 6, 4}, {&station, "11000.+00000003 ", 6, 5},
    {&station, "110.14+00000003 ", 6, 3}, {&station, "1100.4+00000003 ", 6, 4}, {&station, "110x14+00000003 ", 6, 3},
    {&station, "1100x4+00000003 ", 6, 4}, {&station, "11001x+00000003 ", 6, 5}, {&station, "4199x.+00000003 ", 6, 4},
    {&station, "11.014+00000003 ", 6, 3}, {&station, "11..14+00000003 ", 6, 4}, {&station, "11...4+00000003 ", 6, 5},
    {&station, "11.0..+00000003 ", 6, 3}, {&station, "11..0.+00000003 ", 6, 4}, {&station, "41.x..+00000003 ", 6, 3},
    {&station, "41..x.+00000003 ", 6, 4}, {&station, "41...x+00000003 ", 6, 5}, {&station, "41.9.9+00000003 ", 6, 3},
    {&level, "11x006+00000003 ", 6, 2}, {&level, "110x06+00000003 ", 6, 3}, {&level, "1100x6+00000003 ", 6, 4},
    {&level, "11000x+00000003 ", 6, 5}, {&level, "110...+00000003 ", 6, 3}, {&level, "419.99+00000003 ", 6, 3},
    {&level, "4199.9+00000003 ", 6, 4}, {&level, "41999.+00000003 ", 6, 5}, {&level, "11.006+00000003 ", 6, 3},
    {&level, "11..06+00000003 ", 6, 4}, {&level, "11...6+00000003 ", 6, 5}, {&level, "41/...+00000003 ", 6, 2},
    {&level, "41:999+00000003 ", 6, 2},
    /* 7: "position 7" */
    {&station, "31..00*00000001 ", 7, 6}, {&station, "31..00000000001 ", 7, 6}, {&station, "31..00*xxxxxxxxx", 7, 6},
    {&station, "11....-00000001 ", 7, 6}, {&station, "110014-xxxxxxx\nx", 7, 6}, {&station, "13....-00000001 ", 7, 6},
    {&station, "21.102 99999999 ", 7, 6}, {&station, "51..1.*0009*000 ", 7, 6}, {&station, "58..06,00000001 ", 7, 6},
    {&level, "331106*00010198 ", 7, 6}, {&level, "32..06 xxxxxxxxx", 7, 6}, {&level, "110006-00003000 ", 7, 6},
    {&level, "521...-00010198 ", 7, 6}, {&level, "42....-00010198 ", 7, 6},
    /* 8: "the first wrong data byte", "a pair's inner sign included" */
    {&station, "83..10+000A5320 ", 8, 10}, {&station, "31..00+x0000001 ", 8, 7}, {&station, "31..00-0000000x ", 8, 14},
    {&station, "31..00+000x0x0xx", 8, 10}, {&station, "31..00+xxxxxxxxx", 8, 7}, {&station, "31..00+0000 001 ", 8, 11},
    {&station, "31..00++0000001 ", 8, 7}, {&station, "31..00+0000/:01 ", 8, 11}, {&station, "31..00+00000:/1 ", 8, 12},
    {&station, "21.102+4000000x ", 8, 14}, {&station, "21.104+99x99999 ", 8, 9}, {&station, "58..06+0.000001 ", 8, 8},
    {&station, "59..06-000001.0x", 8, 13}, {&station, "22.103+3600000\r ", 8, 14},
    {&station, "11....+ 0000003 ", 8, 7}, {&station, "11....+0000000  ", 8, 14}, {&station, "110014+0\0170 \017003 ", 8, 8},
    {&station, "13....+~!\177!~!~! ", 8, 9}, {&station, "13....+~!~ ~!~\177x", 8, 10}, {&station, "79....+ABCDE\200GHx", 8, 12},
    {&station, "51..1.+x009+000 ", 8, 7}, {&station, "51..1.+0x09+000 ", 8, 8}, {&station, "51..1.+00x9+000 ", 8, 9},
    {&station, "51..1.+000x+000 ", 8, 10}, {&station, "51..1.+0009x000 ", 8, 11}, {&station, "51..1.+0009+x00 ", 8, 12},
    {&station, "51..1.+0009+0x0 ", 8, 13}, {&station, "51..1.+0009+00x ", 8, 14}, {&station, "51..1.+00090000 ", 8, 11},
    {&station, "51..1.+000++000 ", 8, 10}, {&station, "51..1.+0009--00 ", 8, 12}, {&station, "51..1.-0009x0x0 ", 8, 11},
    {&station, "51..1.-00x9x0x0x", 8, 9}, {&station, "51..1.-0009-x-xx", 8, 12}, {&station, "51..1.+0009 000 ", 8, 11},
    {&station, "51..1.+00+9+000 ", 8, 9}, {&station, "51..1.+0009+0+0 ", 8, 13},
    {&level, "331106+0001x198 ", 8, 11}, {&level, "331106-0000000xx", 8, 14}, {&level, "32..06+x0010198 ", 8, 7},
    {&level, "573..0-000-0880 ", 8, 10}, {&level, "331106+0001+198 ", 8, 11}, {&level, "83..09+0001019. ", 8, 14},
    {&level, "110006+0000 000 ", 8, 11}, {&level, "521...+\0370010198 ", 8, 7}, {&level, "42....+0001019\177 ", 8, 14},
    /* 9: "the separator", before 10 */
    {&station, "31..00+00000001x", 9, 15}, {&station, "31..00-00000000\r", 9, 15}, {&station, "21.102+40000000x", 9, 15},
    {&station, "11....+00000001!", 9, 15}, {&station, "51..1.+0009+0000", 9, 15}, {&station, "58..06+00000001\n", 9, 15},
    {&level, "331106+00010198\r", 9, 15}, {&level, "32..06+00010198.", 9, 15}, {&level, "521...+00010198x", 9, 15},
    {&level, "110006+00010198\t", 9, 15},
    /* 10: "the first data byte", whatever the unit and the sign */
    {&station, "21.102+40000000 ", 10, 7}, {&station, "22.103-36000000 ", 10, 7}, {&station, "24.105+64000000 ", 10, 7},
    {&station, "21.104+36000000 ", 10, 7}, {&station, "21.104+00060000 ", 10, 7}, {&station, "21.104-00000600 ", 10, 7},
    {&station, "24...2-99999999 ", 10, 7},
};

/* The words as 16 wide ones, with eight characters put in on the left of the data that are right there: noughts, which are text
   too. The byte told lies eight further on where it is in the data past the first, or is the separator. */
static size_t widen(char *to, const char *word, unsigned number, size_t byte)
{
    memcpy(to, word, 7);
    memset(to + 7, '0', 8);
    memcpy(to + 15, word + 7, 9);
    return number == 8 || number == 9 ? byte + 8 : byte;
}

/* Reads a block of that many right words, the word, one that is wrong at its start, and CR. */
static uint64_t reading_after(const struct family *of, const char *word, int wide, size_t before)
{
    static const char right[] = "11....+0000000000000003 ";
    char block[1 + 8 * 24 + 1];
    size_t each = wide ? 24 : 16, n = 0;
    family = of;
    if (wide)
        block[n++] = '*';
    for (size_t i = 0; i < before; i++, n += each) {
        memcpy(block + n, right, each);
        block[n + each - 1] = ' ';
    }
    memcpy(block + n, word, each);
    n += each;
    memcpy(block + n, "?xxxxx*xxxxxxxxxxxxxxxxx", each);
    n += each;
    block[n++] = '\r';
    return reading_in(block, n, 32);
}

static void check_places(void)
{
    for (size_t i = 0; i < sizeof places / sizeof *places; i++)
        for (size_t before = 0; before < 4; before++) {
            const struct place *p = &places[i];
            char wide[24];
            size_t byte = widen(wide, p->word, p->number, p->byte);
            uint64_t narrow_asked = ANSWER(p->number, before * 16 + p->byte), wide_asked = ANSWER(p->number, 1 + before * 24 + byte);
            CHECK(strlen(p->word) == 16);
            if (reading_after(p->of, p->word, 0, before) != narrow_asked || reading_after(p->of, wide, 1, before) != wide_asked) {
                printf("row %u of the places: %.16s after %u\n", (unsigned)i, p->word, (unsigned)before);
                failures++;
            }
        }
    family = &station;

    /* Some of them counted by hand in their blocks. */
    CHECK(reading("83..10+000A5320 \r") == ANSWER(8, 10) && reading("*83..10+00000000000A5320 \r") == ANSWER(8, 19));
    CHECK(reading("110014+00000003 331106+00010198 \r") == ANSWER(6, 18));
    CHECK(reading("110014+00000003 3x1106+00010198 \r") == ANSWER(5, 17));
    CHECK(reading("110014+00000003 351106+00010198 \r") == ANSWER(15, 16));
    CHECK(reading("110014+00000003 x51106+00010198 \r") == ANSWER(5, 16));
    CHECK(reading("110014+00000003 31..00*00010198 \r") == ANSWER(7, 22));
    CHECK(reading("110014+00000003 31..00+00010198\r\r") == ANSWER(9, 31));
    CHECK(reading("110014+00000003 21.102+40000000 \r") == ANSWER(10, 23));
    CHECK(reading("110014+00000003 51..1.+0009.000 \r") == ANSWER(8, 27));
    CHECK(reading("*110014+0000000000000003 31..0x+0000000000000000 \r") == ANSWER(6, 30));
    CHECK(reading("*110014+0000000000000003 35..00+0000000000000000 \r") == ANSWER(15, 25));
    CHECK(reading("*110014+0000000000000003 3x..00+0000000000000000 \r") == ANSWER(5, 26));
    CHECK(reading("*110014+0000000000000003 31..00x0000000000000000 \r") == ANSWER(7, 31));
    CHECK(reading("*110014+0000000000000003 51..1.+000000000009.000 \r") == ANSWER(8, 44));
    CHECK(reading("*110014+0000000000000003 51..1.+000000000009+00. \r") == ANSWER(8, 47));
    CHECK(reading("*110014+0000000000000003 51..1.+00000000000.+000 \r") == ANSWER(8, 43));
    CHECK(reading("*110014+0000000000000003 31..00+0000000000000000x\r") == ANSWER(9, 48));
    CHECK(reading("*110014+0000000000000003 21.104-0000000036000000 \r") == ANSWER(10, 32));
    CHECK(reading("*51..1.x000000000009+000 \r") == ANSWER(7, 7) && reading("*51..1.+000000000009x000 \r") == ANSWER(8, 20));
    /* The first word that is wrong counts, whatever its number. */
    CHECK(reading("31..00+0000000x 3x..00+00000000 \r") == ANSWER(8, 14));
    CHECK(reading("21.102+40000000 x1..00+00000000 \r") == ANSWER(10, 7));
    /* 2, 3, 4 and 11 as before: where the word would start. */
    CHECK(reading("31..00+00000001 3x..00+0000000") == ANSWER(2, 16));
    CHECK(reading_in("31..00+00000001 3x..00+00000000 ", 32, 1) == ANSWER(11, 16));
    CHECK(reading("*31..00+0000000000000001 x1..00+00000000 \r") == ANSWER(2, 25) && reading("31..00+00000001 x") == ANSWER(2, 16));
    family = &level;
    CHECK(reading("110006+00003000 32..00+00016380 331306+00010198 \r") == ANSWER(6, 35));
    CHECK(reading("110006+00003000 32..00+00016380 337106+00010198 \r") == ANSWER(15, 32));
    CHECK(reading("110006+00003000 32..00+00016380 3.1106+00010198 \r") == ANSWER(5, 33));
    CHECK(reading("110006+00003000 32..00+0001638x 3.1106+00010198 \r") == ANSWER(8, 30));
    CHECK(reading("*110006+0000000000003000 331136+0000000000010198 \r") == ANSWER(6, 29));
    CHECK(reading("*110.06+0000000000003000 331136+0000000000010198 \r") == ANSWER(6, 4));
    family = &station;
}

/* Right words of each kind and unit: what may stand at positions 4 to 6, and the data, t for text, d for digits, a for an
   angle's, p for a pair's. */
#define FREE ".0123456789"
#define DIGITS "0123456789"
#define MODE ".01234"
#define LEVELS "330 331 332 333 334 335 336 374 521 571 572 573 574"
static const struct kind { const struct family *of; const char *word, *fourth, *fifth, *sixth; char data; } kinds[] = {
    {&station, "11....+A-~!*x.0 ", ".", ".", ".", 't'},
    {&station, "110014+A-~!*x.0 ", DIGITS, DIGITS, DIGITS, 't'},
    {&station, "41....+00000003 ", ".", ".", ".", 't'},
    {&station, "419999+00000003 ", DIGITS, DIGITS, DIGITS, 't'},
    {&station, "13....+ABCDEFGH ", FREE, FREE, FREE, 't'},
    {&station, "42.9.0+ABCDEFGH ", FREE, FREE, FREE, 't'},
    {&station, "21.102+00000000 ", ".013", MODE, "2345", 'a'},
    {&station, "22.323-35959599 ", ".013", MODE, "2345", 'a'},
    {&station, "24.004+35959599 ", ".013", MODE, "2345", 'a'},
    {&station, "21...5-12345600 ", ".013", MODE, "2345", 'a'},
    {&station, "31..00+00265965 ", ".", MODE, "01678", 'd'},
    {&station, "82...1-00000000 ", ".", MODE, "01678", 'd'},
    {&station, "33..46+99999999 ", ".", MODE, "01678", 'd'},
    {&station, "34..17-00010198 ", ".", MODE, "01678", 'd'},
    {&station, "88..38+00010198 ", ".", MODE, "01678", 'd'},
    {&station, "58..06+00000345 ", ".", MODE, "6", 'd'},
    {&station, "59...6-00000345 ", ".", MODE, "6", 'd'},
    {&station, "51..1.+0009-034 ", ".", MODE, ".", 'p'},
    {&level, "11....+A-~!*x.0 ", ".", ".", ".", 't'},
    {&level, "110006+00003000 ", DIGITS, DIGITS, DIGITS, 't'},
    {&level, "419999+00003000 ", DIGITS, DIGITS, DIGITS, 't'},
    {&level, "42....+10842V02 ", FREE, FREE, FREE, 't'},
    {&level, "52.1.9+10842V02 ", FREE, FREE, FREE, 't'},
    {&level, "57....+10842V02 ", FREE, FREE, FREE, 't'},
    {&level, "521...+10842V02 ", FREE, FREE, FREE, 't'},
    {&level, "32..00+00016380 ", ".1", ".0124567", "016789", 'd'},
    {&level, "83.1.1-00000000 ", ".1", ".0124567", "016789", 'd'},
    {&level, "32...6+00016380 ", ".1", ".0124567", "016789", 'd'},
    {&level, "83..27+00016380 ", ".1", ".0124567", "016789", 'd'},
    {&level, "32.148+00016380 ", ".1", ".0124567", "016789", 'd'},
    {&level, "83..59+00016380 ", ".1", ".0124567", "016789", 'd'},
    {&level, "330..0+00010198 ", ".1", ".0124567", "016789", 'd'},
    {&level, "331161-00010198 ", ".1", ".0124567", "016789", 'd'},
    {&level, "336106+00010198 ", ".1", ".0124567", "016789", 'd'},
    {&level, "374.77-00000000 ", ".1", ".0124567", "016789", 'd'},
    {&level, "571108+00010198 ", ".1", ".0124567", "016789", 'd'},
    {&level, "574..9+99999999 ", ".1", ".0124567", "016789", 'd'},
};

/* The two-digit indexes of each family. */
static const char two_of_station[] = "11 12 13 16 18 19 21 22 24 31 32 33 34 41 42 43 44 45 46 47 48 49 51 52 53 58 59 71 72 73 74 75 "
                                     "76 77 78 79 81 82 83 84 85 86 87 88";
static const char two_of_level[] = "11 32 41 42 43 44 45 46 47 48 49 52 57 83";

static int in(const char *characters, int b)
{
    for (; *characters; characters++)
        if ((unsigned char)*characters == b)
            return 1;
    return 0;
}

/* Whether the list, each entry with a blank after it, has the n characters. */
static int in_list(const char *listed, const char *characters, size_t n)
{
    for (; strlen(listed) >= n; listed += n + 1) {
        if (memcmp(listed, characters, n) == 0)
            return 1;
        if (!listed[n])
            return 0;
    }
    return 0;
}

enum { RIGHT, ANYTHING = 1000 };

/* What the kind's word gives with the byte at a place from its start: the number, with the byte told. ANYTHING where it is
   another kind's word, which other rows have. */
static unsigned asked_of(const struct kind *kind, const char *word, size_t width, size_t at, size_t *told)
{
    int b = (unsigned char)word[at], level_word = kind->of == &level, digit = in(DIGITS, b), numbered = in("14", word[0]) && word[1] == '1';
    *told = at;
    if (at < 2) {
        if (!digit)
            return 5;
        *told = 0;
        if (level_word && in(DIGITS, word[2]) && !(in("14", word[0]) && word[1] == '1'))
            return in_list(LEVELS, word, 3) ? ANYTHING : 15;
        return in_list(level_word ? two_of_level : two_of_station, word, 2) ? ANYTHING : 15;
    }
    if (at == 2) {
        if (numbered) {
            /* The first byte chooses, and then the next is the first that breaks the rule. */
            if (digit || b == '.') {
                *told = 3;
                return in(DIGITS, word[3]) == digit ? RIGHT : 6;
            }
            return 6;
        }
        if (level_word && digit) {
            *told = 0;
            return in_list(LEVELS, word, 3) ? ANYTHING : 15;
        }
        if (level_word && !in_list(two_of_level, word, 2)) {
            *told = 0;
            return 15;
        }
        return b == '.' ? RIGHT : 6;
    }
    if (at < 6)
        return in(at == 3 ? kind->fourth : at == 4 ? kind->fifth : kind->sixth, b) ? kind->data == 'a' ? ANYTHING : RIGHT : 6;
    if (at == 6)
        return b == '+' || (b == '-' && kind->data != 't') ? RIGHT : 7;
    if (at == 7 + width)
        return b == ' ' ? RIGHT : 9;
    if (kind->data == 't')
        return b >= 33 && b <= 126 ? RIGHT : 8;
    if (kind->data == 'p' && at == 7 + width - 4)
        return b == '+' || b == '-' ? RIGHT : 8;
    return !digit ? 8 : kind->data == 'a' ? ANYTHING : RIGHT;
}

/* Each value of each byte of a word of each kind and unit, first and later, narrow and wide. */
static void check_every_place(void)
{
    for (size_t i = 0; i < sizeof kinds / sizeof *kinds; i++)
        for (int wide = 0; wide < 2; wide++) {
            size_t each = wide ? 24 : 16, wrong = 0;
            char word[24];
            memcpy(word, kinds[i].word, 16);
            if (wide)
                widen(word, kinds[i].word, 0, 0);
            for (size_t before = 0; before < 3; before += 2)
                for (size_t at = 0; at < each; at++) {
                    char old = word[at];
                    for (int b = 0; b < 256; b++) {
                        size_t start = (size_t)wide + before * each, byte;
                        unsigned number;
                        uint64_t got;
                        word[at] = (char)b;
                        /* Where a word would start a CR ends the block, and a `*` may be the block's own. */
                        if (at == 0 && (b == '\r' || (b == '*' && start == 0)))
                            continue;
                        number = asked_of(&kinds[i], word, each - 8, at, &byte);
                        got = reading_after(kinds[i].of, word, wide, before);
                        /* A right word is followed by the wrong one, at its first byte; an angle may be out of range. */
                        if (number == RIGHT)
                            wrong += got != ANSWER(5, start + each);
                        else if (number == ANYTHING && at > 2)
                            wrong += got != ANSWER(5, start + each) && got != ANSWER(10, start + 7);
                        else if (number == ANYTHING)
                            wrong += got >> 32 == 15 || (got >> 32 == 5 && got != ANSWER(5, start + each));
                        else
                            wrong += got != ANSWER(number, start + byte);
                    }
                    word[at] = old;
                }
            if (wrong) {
                printf("%s%s: %u wrong\n", wide ? "wide " : "", kinds[i].word, (unsigned)wrong);
                failures++;
            }
        }
    /* A digit in an angle's data that takes it out of range: 10, at the first data byte wherever the digit stands. */
    for (size_t at = 7; at < 15; at++)
        for (char unit = '2'; unit <= '5'; unit++)
            for (char b = '0'; b <= '9'; b++) {
                char word[] = "21.10.+00000000 ", least = ':';
                if (at == 7)
                    least = unit == '5' ? '7' : '4';
                else if (unit == '4' && (at == 10 || at == 12)) /* tens of minutes and of seconds */
                    least = '6';
                word[5] = unit;
                word[at] = b;
                CHECK(reading_after(&station, word, 0, 0) == (b >= least ? ANSWER(10, 7) : ANSWER(5, 16)));
                CHECK(reading_after(&station, word, 0, 2) == (b >= least ? ANSWER(10, 39) : ANSWER(5, 48)));
            }
    family = &station;
}

/* Mending. #105: "a `+` right after three dots in 42-49 gets a dot before it, a CR or LF in the place of a word's blank gets the
   blank, then an LF where a word would start gets a CR" */

enum { MEND_ROOM = 800, MEND_PLACES = 40 };
static uint8_t mended[MEND_ROOM];
static ref_edit edits[MEND_PLACES];

/* Whether every byte is that one. */
static int only(const void *p, int byte, size_t n)
{
    for (size_t i = 0; i < n; i++)
        if (((const uint8_t *)p)[i] != byte)
            return 0;
    return 1;
}

/* Mends with that much room and that many places for edits; checks that a refusal writes nothing, and that what is beyond stays. */
static uint64_t mending_in(const char *block, size_t n, size_t mend_room, size_t places)
{
    uint64_t got;
    size_t wrote, told;
    memset(mended, 0x5A, sizeof mended);
    memset(edits, 0xA5, sizeof edits);
    got = (family == &level ? ref_mend_level : ref_mend)((const uint8_t *)block, n, mended, mend_room, edits, places);
    wrote = got >> 32 ? 0 : (size_t)(got & 0xFFFF);
    told = got >> 32 ? 0 : (size_t)(got >> 16 & 0xFFFF);
    CHECK(wrote <= mend_room && told <= places);
    CHECK(only(mended + wrote, 0x5A, sizeof mended - wrote) && only(edits + told, 0xA5, (MEND_PLACES - told) * sizeof *edits));
    return got;
}

static uint64_t mending(const char *block)
{
    return mending_in(block, strlen(block), MEND_ROOM, MEND_PLACES);
}

#define MENDED(bytes, edits) ANSWER(0, (uint64_t)(bytes) | (uint64_t)(edits) << 16)

/* Whether the edits are those, written as `.21 _30 r30`: a dot, a blank or a CR, and its place. */
static int edited(const char *asked)
{
    char said[MEND_PLACES * 12] = "";
    size_t at = 0, count = 0;
    for (const char *p = asked; *p; p++)
        count += *p == '.' || *p == '_' || *p == 'r';
    for (size_t i = 0; i < count; i++) {
        char kind = edits[i].kind >= 1 && edits[i].kind <= 3 ? "._r"[edits[i].kind - 1] : '?';
        at += (size_t)snprintf(said + at, sizeof said - at, "%s%c%u", i ? " " : "", kind, (unsigned)edits[i].place);
    }
    if (strlen(asked) == at && memcmp(said, asked, at) == 0)
        return 1;
    printf("edited %s, not %s\n", said, asked);
    return 0;
}

/* The block mends to that one with those edits, in room and list of any length that suffices; that reads, and mended again it
   is itself. With less room it is 14, then with a shorter list 11. */
static int mends(const char *block, const char *asked, const char *asked_edits)
{
    int before = failures;
    size_t n = strlen(block), bytes = strlen(asked), count = 0;
    for (const char *p = asked_edits; *p; p++)
        count += *p == '.' || *p == '_' || *p == 'r';
    CHECK(mending(block) == MENDED(bytes, count) && memcmp(mended, asked, bytes) == 0 && edited(asked_edits));
    CHECK(mending_in(block, n, bytes, count) == MENDED(bytes, count) && memcmp(mended, asked, bytes) == 0 && edited(asked_edits));
    for (size_t short_room = 0; short_room < bytes; short_room++) {
        CHECK(mending_in(block, n, short_room, MEND_PLACES) == ANSWER(14, bytes));
        CHECK(mending_in(block, n, short_room, 0) == ANSWER(14, bytes));
    }
    for (size_t places = 0; places < count; places++) {
        CHECK(mending_in(block, n, bytes, places) == ANSWER(11, count));
        CHECK(mending_in(block, n, MEND_ROOM, places) == ANSWER(11, count));
    }
    CHECK(reading(asked) >> 32 == 0 && (reading(asked) & 0xFFFF) == bytes);
    CHECK(mending_in(asked, bytes, bytes, 0) == MENDED(bytes, 0) && memcmp(mended, asked, bytes) == 0);
    return failures == before;
}

/* A block that reads comes back as it is. */
static int stays(const char *block)
{
    return mends(block, block, "");
}

/* 003's first listing, each line as a print program leaves it, the block that it was, and the edits. */
static const struct { const char *line, *block, *edits; } first_listing[] = {
    {"410001+00000020 42...+00007142\n", "410001+00000020 42....+00007142 \r\n", ".21 _30 r30"},
    {"410002+00000021 42...+00007142\n", "410002+00000021 42....+00007142 \r\n", ".21 _30 r30"},
    {"410003+00000022 42...+00592000\n", "410003+00000022 42....+00592000 \r\n", ".21 _30 r30"},
    {"410004+00000001 42...+00000001 43...+00005.27 44...+00005.44 45...+00000002\n",
     "410004+00000001 42....+00000001 43....+00005.27 44....+00005.44 45....+00000002 \r\n", ".21 .36 .51 .66 _75 r75"},
    {"410005+00000003 42...+00000004 43...+00000001\n", "410005+00000003 42....+00000004 43....+00000001 \r\n", ".21 .36 _45 r45"},
    {"110006+00000002 21.324+35959570 22.324+08950310 31..01+00452914 51..1.+0000+000\n",
     "110006+00000002 21.324+35959570 22.324+08950310 31..01+00452914 51..1.+0000+000 \r\n", "_79 r79"},
    {"410007+00000005 42...+00000234\n", "410007+00000005 42....+00000234 \r\n", ".21 _30 r30"},
    {"410008+00000002 42...+00005.56\n", "410008+00000002 42....+00005.56 \r\n", ".21 _30 r30"},
    {"110009+00000003 21.324+09952470 22.324+08959170 31..01+00265964 51..1.+0009+000\n",
     "110009+00000003 21.324+09952470 22.324+08959170 31..01+00265964 51..1.+0009+000 \r\n", "_79 r79"},
    {"110010+00000003 21.324+27952480 22.324+27000420 31..01+00452917 51..1.+0009+000\n",
     "110010+00000003 21.324+27952480 22.324+27000420 31..01+00452917 51..1.+0009+000 \r\n", "_79 r79"},
    {"110012+00000002 21.324+35959570 22.324+08950260 31..01+00452917 51..1.+0009+000\n",
     "110012+00000002 21.324+35959570 22.324+08950260 31..01+00452917 51..1.+0009+000 \r\n", "_79 r79"},
    {"110013+00000003 21.324+09952480 22.324+08959160 31..01+00265964 51..1.+0009+000\n",
     "110013+00000003 21.324+09952480 22.324+08959160 31..01+00265964 51..1.+0009+000 \r\n", "_79 r79"},
    {"110014+00000003 21.324+27952530 22.324+27000430 31..01+00265965 51..1.+0009+000\n",
     "110014+00000003 21.324+27952530 22.324+27000430 31..01+00265965 51..1.+0009+000 \r\n", "_79 r79"},
    {"110015+00000002 21.324+17959590 22.324+27009210 31..01+00452918 51..1.+0009+000\n",
     "110015+00000002 21.324+17959590 22.324+27009210 31..01+00452918 51..1.+0009+000 \r\n", "_79 r79"},
};

static void check_listings(void)
{
    char line[100], said[20];

    family = &station;
    for (size_t i = 0; i < sizeof first_listing / sizeof *first_listing; i++)
        CHECK(mends(first_listing[i].line, first_listing[i].block, first_listing[i].edits));
    /* Only 41 to 49 of it are words of a level. */
    family = &level;
    for (size_t i = 0; i < 5; i++)
        CHECK(mends(first_listing[i].line, first_listing[i].block, first_listing[i].edits));
    CHECK(mending(first_listing[5].line) == ANSWER(15, 16));

    /* 003's second listing, the level's, whose four dots were left: its blocks without their last blank, with LF alone. */
    for (size_t i = 0; i < sizeof listing / sizeof *listing; i++) {
        size_t n = strlen(listing[i].block) - 3;
        memcpy(line, listing[i].block, n);
        memcpy(line + n, "\n", 2);
        snprintf(said, sizeof said, "_%u r%u", (unsigned)n, (unsigned)n);
        CHECK(mends(line, listing[i].block, said));
    }
    /* With three dots in its 42 too. */
    CHECK(mends("410001+00000020 42...+10842V02\n", listing[0].block, ".21 _30 r30"));

    /* The listings' other lines are no blocks. */
    CHECK(mending("WILD GIF-10\n") == ANSWER(2, 0) && mending("! ----+\n") == ANSWER(2, 0));
    family = &station;
    CHECK(mending("Leica TPS-1000 Series\n") == ANSWER(5, 0) && mending("Leica TPS-1000 Series") == ANSWER(5, 0));
    CHECK(mending("410004+?......1\n") == MENDED(18, 2) && mending(listing[5].block) == ANSWER(6, 34));
}

static void check_mending(void)
{
    static char many[33 * 24 + 8], right_many[33 * 24 + 8];
    char two[40];
    size_t n = 0, m = 0;

    family = &station;
    /* Each of the three alone, and each two of them. */
    CHECK(mends("31..00+00000001\r", "31..00+00000001 \r", "_15"));
    CHECK(mends("31..00+00000001\r\n", "31..00+00000001 \r\n", "_15"));
    CHECK(mends("31..00+00000001 \n", "31..00+00000001 \r\n", "r16"));
    CHECK(mends("42...+00007142 \r\n", "42....+00007142 \r\n", ".5"));
    CHECK(mends("31..00+00000001\n", "31..00+00000001 \r\n", "_15 r15"));
    CHECK(mends("42...+00007142\r", "42....+00007142 \r", ".5 _14"));
    CHECK(mends("42...+00007142 \n", "42....+00007142 \r\n", ".5 r15"));
    CHECK(mends("42...+00007142\n", "42....+00007142 \r\n", ".5 _14 r14"));
    /* "A block that reads comes back unchanged with no edits" */
    CHECK(stays("110014+00000003 21.324+27952530 22.324+27000430 31..01+00265965 51..1.+0009+000 \r\n"));
    CHECK(stays("42....+00007142 \r\n") && stays("42....+00007142 \r") && stays("42...7+00007142 \r") && stays("42.1..+0000...+ \r"));
    CHECK(stays("*11....+000000000PNC0058 \r") && stays("*42....+...+0000...+0000 \r\n"));
    /* A wide one. */
    CHECK(mends("*42...+000000000PNC0058\n", "*42....+000000000PNC0058 \r\n", ".6 _23 r23"));
    CHECK(mends("*31..00+0000000000000001 49...+0000000000005.27\r", "*31..00+0000000000000001 49....+0000000000005.27 \r", ".30 _47"));
    CHECK(mends("*51..1.-000000000009-002 \n", "*51..1.-000000000009-002 \r\n", "r25"));

    /* "Bytes past the terminator aren't copied." */
    CHECK(mends("31..00+00000001 \r31..00+00000002 \r", "31..00+00000001 \r", ""));
    CHECK(mends("31..00+00000001 \r\n\n", "31..00+00000001 \r\n", "") && mends("31..00+00000001 \r\r\n", "31..00+00000001 \r", ""));
    CHECK(mends("31..00+00000001\n\n", "31..00+00000001 \r\n", "_15 r15"));
    CHECK(mends("31..00+00000001\n\r", "31..00+00000001 \r\n", "_15 r15"));
    CHECK(mends("42...+00007142\r\nxyz", "42....+00007142 \r\n", ".5 _14"));
    CHECK(mends("42...+00007142\n42...+0000", "42....+00007142 \r\n", ".5 _14 r14"));
    /* A CR or LF in the place of any word's blank ends the block there. */
    CHECK(mends("31..00+00000001\r31..00+00000002 \r", "31..00+00000001 \r", "_15"));
    CHECK(mends("31..00+00000001\n31..00+00000002 \r", "31..00+00000001 \r\n", "_15 r15"));
    CHECK(mends("31..00+00000001\r\n31..00+00000002 \r", "31..00+00000001 \r\n", "_15"));

    /* What isn't mended: a blank missing in the middle, which nothing but a CR or LF gets, */
    CHECK(mending("31..00+0000000131..00+00000002 \r\n") == ANSWER(9, 15));
    CHECK(mending("42...+0000714243...+00000001\n") == ANSWER(9, 15));
    CHECK(mending("31..00+00000001x\r") == ANSWER(9, 15) && mending("31..00+00000001\t\r") == ANSWER(9, 15));
    /* the dots of other words, two dots, none, other signs and places, */
    CHECK(mending("41...+00007142 \r\n") == ANSWER(6, 5) && mending("40...+00007142 \r\n") == ANSWER(15, 0));
    CHECK(mending("11...+00007142 \r\n") == ANSWER(6, 5) && mending("71...+00007142 \r\n") == ANSWER(6, 5));
    CHECK(mending("52...+00007142 \r\n") == ANSWER(6, 5) && mending("50...+00007142 \r\n") == ANSWER(15, 0));
    CHECK(mending("42..+00007142 \r\n") == ANSWER(6, 4) && mending("42...-00007142 \r\n") == ANSWER(6, 5));
    CHECK(mending("42.1.+00007142 \r\n") == ANSWER(6, 5) && mending("42..1+00007142 \r\n") == ANSWER(6, 5));
    CHECK(mending("421..+00007142 \r\n") == ANSWER(6, 2) && mending("42+00007142 \r\n+00") == ANSWER(6, 2));
    CHECK(mending("4....+00007142 \r\n") == ANSWER(5, 1) && mending(" 42...+0007142 \r\n") == ANSWER(5, 0));
    CHECK(mending("*42...+00007142 \r\n") == ANSWER(2, 1) && mending("*41...+000000000PNC0058 \r") == ANSWER(6, 6));
    /* blanks before the last one, and more of them. */
    CHECK(mending("31..00+00000001  \r") == ANSWER(2, 16) && mending("31..00+ 0000001\r") == ANSWER(8, 7));
    CHECK(mending("42...+0000 714\r\n") == ANSWER(8, 11) && mending("42...+000071\n") == ANSWER(2, 0));
    /* The reader's place is counted in the mended bytes: one on for each edit before it. */
    CHECK(mending("42...+00007142 43...+0000714x 31..00+0000000x \r") == ANSWER(8, 46));
    CHECK(mending("42...+00007142 43...+00007142 21.102+40000000\n") == ANSWER(10, 39));
    CHECK(mending("42...+00007142 31..00*00007142\n") == ANSWER(7, 22));
    CHECK(mending("42...+00007142 31..00+00007142x\n") == ANSWER(9, 31));
    /* A dot that makes the word whole is right, a right word's last dot left out elsewhere is not. */
    CHECK(mending("31..0+00000001 \r") == ANSWER(6, 5) && mending("13...+ABCDEFGH \r") == ANSWER(6, 5));

    /* No bytes; none left where more should come; a terminator first. */
    CHECK(mending("") == ANSWER(1, 0) && mending_in("", 0, 0, 0) == ANSWER(1, 0));
    CHECK(mending("42....+00007142 ") == ANSWER(2, 16) && mending("42....+00007142") == ANSWER(2, 0));
    CHECK(mending("42...+00007142 ") == ANSWER(2, 16) && mending("42...+00007142") == ANSWER(2, 0) && mending("42...") == ANSWER(2, 0));
    CHECK(mending("42...+00007142 43...+00007142") == ANSWER(2, 16) && mending("*") == ANSWER(2, 1));
    CHECK(mending("\r") == ANSWER(3, 0) && mending("\n") == ANSWER(3, 0) && mending("*\n") == ANSWER(3, 0));
    CHECK(mending("\n42....+00007142 \r") == ANSWER(3, 0));
    /* 42...+00007142 with one byte less of the input in turn. */
    for (size_t k = 1; k < 15; k++)
        CHECK(mending_in("42...+00007142\n", k, MEND_ROOM, MEND_PLACES) == ANSWER(2, 0));
    /* The reader's number comes before 14, and 14 before 11. */
    CHECK(mending_in("42...+0000714x 3\n", 17, 0, 0) == ANSWER(2, 16) && mending_in("42...+000071 2\n", 15, 0, 0) == ANSWER(8, 13));
    CHECK(mending_in("42...+00007142\n", 15, 17, 2) == ANSWER(14, 18) && mending_in("42...+00007142\n", 15, 18, 2) == ANSWER(11, 3));
    CHECK(mending_in("42...+00007142\n", 15, 18, 3) == MENDED(18, 3) && mending_in("42....+00007142 \r", 17, 17, 0) == MENDED(17, 0));

    /* Every two digits in the place of 42: only 42 to 49 get the dot. */
    for (unsigned i = 0; i < 100; i++)
        for (int of = 0; of < 2; of++) {
            family = of ? &level : &station;
            snprintf(two, sizeof two, "%02u...+00007142 \r", i);
            if (i >= 42 && i <= 49)
                CHECK(mending(two) == MENDED(17, 1) && edited(".5"));
            else
                CHECK(mending(two) >> 32 == 6 || mending(two) >> 32 == 15);
        }

    /* 32 words that each lack the dot, the last blank and the CR: 34 edits. */
    for (int wide = 0; wide < 2; wide++)
        for (int of = 0; of < 2; of++) {
            size_t width = wide ? 16 : 8;
            family = of ? &level : &station;
            n = m = 0;
            if (wide)
                many[n++] = right_many[m++] = '*';
            for (size_t i = 0; i < 33; i++) {
                snprintf(many + n, 26, "4%u...+%0*u ", (unsigned)(2 + i % 8), (int)width, (unsigned)i);
                snprintf(right_many + m, 26, "4%u....+%0*u ", (unsigned)(2 + i % 8), (int)width, (unsigned)i);
                n += width + 7;
                m += width + 8;
            }
            memcpy(many + n - 1, "\n", 2);
            memcpy(right_many + m, "\r\n", 3);
            /* 33 words: 4 */
            CHECK(mending_in(many, n, MEND_ROOM, MEND_PLACES) == ANSWER(4, m - width - 8));
            CHECK(mending_in(many, n - 1, MEND_ROOM, MEND_PLACES) == ANSWER(4, m - width - 8));
            CHECK(mending_in(right_many, m + 2, MEND_ROOM, MEND_PLACES) == ANSWER(4, m - width - 8));
            n -= width + 7;
            m -= width + 8;
            CHECK(mending_in(many, n, MEND_ROOM, MEND_PLACES) == ANSWER(4, m));
            CHECK(mending_in(many, n - 1, MEND_ROOM, MEND_PLACES) == ANSWER(2, m - width - 8));
            many[n - 1] = '\n';
            memcpy(right_many + m, "\r\n", 3);
            CHECK(mending_in(many, n, MEND_ROOM, MEND_PLACES) == MENDED(m + 2, 34) && memcmp(mended, right_many, m + 2) == 0);
            for (size_t i = 0; i < 32; i++)
                CHECK(edits[i].kind == 1 && edits[i].place == (size_t)wide + i * (width + 7) + 5);
            CHECK(edits[32].kind == 2 && edits[32].place == n - 1 && edits[33].kind == 3 && edits[33].place == n - 1);
            CHECK(mending_in(many, n, m + 1, 33) == ANSWER(14, m + 2) && mending_in(many, n, m + 2, 33) == ANSWER(11, 34));
            CHECK(mending_in(many, n, m + 2, 34) == MENDED(m + 2, 34));
            CHECK(mending_in(right_many, m + 2, m + 2, 0) == MENDED(m + 2, 0) && memcmp(mended, right_many, m + 2) == 0);
            /* A word more just past the terminator isn't looked at; with its blank in place and nothing after it is 4. */
            many[n] = '4';
            CHECK(mending_in(many, n + 1, m + 2, 34) == MENDED(m + 2, 34));
            many[n - 1] = ' ';
            many[n] = '\n';
            CHECK(mending_in(many, n + 1, m + 2, 34) == MENDED(m + 2, 33) && edits[32].kind == 3 && edits[32].place == n);
            CHECK(mending_in(many, n, m + 2, 34) == ANSWER(4, m));
        }
    family = &station;
}

/* Lines */

/* The image at hand and its length, which goes with its series; there is memory beyond either. */
static uint8_t image[1060];
static size_t bytes = 1039;
static uint8_t reply[500];

static void fresh(void)
{
    bytes = 1039;
    memset(image, 0x77, sizeof image);
    CHECK(ref_factory(image, bytes) == 0);
}

static void fresh_300(void)
{
    bytes = 1050;
    memset(image, 0x77, sizeof image);
    CHECK(ref_factory_300(image, bytes) == 0);
}

/* Plays one line; checks that only what was told is written, that a refused line alters no byte of the state, and that 26
   alone tells which rule and a byte. 104: "`gsi_line` tells: reply bytes + 2^16 * which + 2^24 * byte; for every other answer,
   30 included, the two are 0." */
static uint64_t play_in(const char *line, size_t m, size_t room)
{
    uint8_t before[1060];
    uint64_t got;
    size_t told;
    memcpy(before, image, sizeof image);
    memset(reply, 0x5A, sizeof reply);
    got = ref_line(image, bytes, (const uint8_t *)line, m, reply, room);
    told = (size_t)(got & 0xFFFF);
    if (got >> 32 == 26)
        CHECK((got >> 16 & 0xFF) >= 6 && (got >> 16 & 0xFF) <= 10 && (got >> 24 & 0xFF) >= 6 && (got >> 24 & 0xFF) <= 19);
    else
        CHECK((got & 0xFFFF0000) == 0);
    CHECK(told <= room);
    for (size_t i = told; i < sizeof reply; i++)
        if (reply[i] != 0x5A) {
            CHECK(!"reply room beyond the reply is untouched");
            break;
        }
    CHECK(memcmp(before + bytes, image + bytes, sizeof image - bytes) == 0);
    if (got >> 32) {
        CHECK(memcmp(before, image, sizeof image) == 0);
        if (told)
            CHECK((told == 6 && memcmp(reply, "@W127\r", 6) == 0) || (told == 7 && memcmp(reply, "@W127\r\n", 7) == 0));
    }
    return got;
}

/* Plays the line with CR LF and answers the number. */
static unsigned play(const char *body)
{
    char line[400];
    size_t n = strlen(body);
    memcpy(line, body, n);
    memcpy(line + n, "\r\n", 2);
    return (unsigned)(play_in(line, n + 2, bytes == 1039 ? 306 : 459) >> 32);
}

static int replied(const char *expected)
{
    return memcmp(reply, expected, strlen(expected)) == 0 && reply[strlen(expected)] == 0x5A;
}

static void check_proved_lines(void)
{
    char line[120] = "GET/I";
    size_t n = 5;

    /* P8 */
    fresh();
    CHECK(play("SET/40/2") == 0 && replied("?\r\n"));
    fresh();
    CHECK(play("SET/40/3") == 24 && replied("@W127\r\n"));
    fresh();
    CHECK(play("SET/33/0") == 23);
    /* P9 */
    fresh();
    CHECK(play("CONF/70") == 0 && replied("0070/0005\r\n"));
    /* P10 */
    fresh();
    CHECK(play("GET/I/WI88") == 27);
    /* P11 */
    fresh();
    CHECK(play("UNDO") == 29);

    /* "64 times SET/30/1, then one more: 28; after UNDO it is accepted." */
    fresh();
    for (int i = 0; i < 64; i++)
        CHECK(play("SET/30/1") == 0);
    CHECK(play("SET/30/1") == 28);
    /* With 64 entries a wrong SET or PUT keeps its own number; the others go on. */
    CHECK(play("SET/30/2") == 24 && play("SET/31/0") == 23 && play("PUT/12....+00000000 ") == 25);
    CHECK(play("PUT/88...2+00000000 ") == 26 && play("PUT/88...0+00000000 ") == 28);
    CHECK(play("CONF/30") == 0 && replied("0030/0001\r\n") && play("GET/I/WI88") == 27);
    CHECK(play("UNDO") == 0 && play("SET/30/1") == 0 && play("SET/30/1") == 28);
    for (int i = 0; i < 64; i++)
        CHECK(play("UNDO") == 0);
    CHECK(play("UNDO") == 29 && play("CONF/30") == 0 && replied("0030/0000\r\n"));
    {
        uint8_t now[1039];
        memcpy(now, image, sizeof now);
        fresh();
        CHECK(memcmp(now, image, sizeof now) == 0);
    }
    for (int i = 0; i < 64; i++)
        CHECK(play("SET/30/1") == 0);
    CHECK(play("KEEP") == 0 && play("KEEP") == 0 && play("UNDO") == 29 && play("SET/30/1") == 0);

    /* "GET/I with 19 indexes is 100 characters, reply 306 bytes; 20 indexes: 21." */
    fresh();
    CHECK(play("PUT/88...0+00001550 ") == 0);
    for (int i = 0; i < 19; i++, n += 5)
        memcpy(line + n, "/WI88", 5);
    memcpy(line + n, "\r", 1);
    CHECK(n == 100 && play_in(line, n + 1, 305) == ANSWER(30, 0));
    CHECK(play_in(line, n + 1, 306) == ANSWER(0, 306));
    for (int i = 0; i < 19; i++)
        CHECK(memcmp(reply + i * 16, "88..10+00001550 ", 16) == 0);
    CHECK(memcmp(reply + 304, "\r\n", 2) == 0);
    memcpy(line + n, "/WI88\r", 6);
    CHECK(play_in(line, n + 6, 306) == ANSWER(21, 7));
}

static void check_line_slips(void)
{
    char line[160];

    fresh();
    /* 20 before 21; the ends of a line. */
    memset(line, 'A', sizeof line);
    CHECK(play_in(line, 150, 306) == ANSWER(20, 7));
    line[101] = '\r';
    CHECK(play_in(line, 102, 306) == ANSWER(21, 7));
    line[100] = '\r';
    CHECK(play_in(line, 101, 306) == ANSWER(22, 7));
    CHECK(play_in(line, 102, 306) == ANSWER(20, 7));
    line[101] = '\n';
    CHECK(play_in(line, 102, 306) == ANSWER(22, 7));
    CHECK(play_in("", 0, 306) == ANSWER(20, 7));
    CHECK(play_in("\r", 1, 306) == ANSWER(22, 7));
    CHECK(play_in("\r\n", 2, 306) == ANSWER(22, 7));
    CHECK(play_in("\n", 1, 306) == ANSWER(20, 7));
    CHECK(play_in("KEEP\n", 5, 306) == ANSWER(20, 7));
    CHECK(play_in("KEEP\n\r", 6, 306) == ANSWER(20, 7));
    CHECK(play_in("KEEP\r\r", 6, 306) == ANSWER(20, 7));
    CHECK(play_in("KEEP\r\n\n", 7, 306) == ANSWER(20, 7));
    CHECK(play_in("KEEP\rKEEP\r", 10, 306) == ANSWER(20, 7));
    CHECK(play_in("KEEP", 4, 306) == ANSWER(20, 7));
    CHECK(play_in("KEEP\r", 5, 306) == ANSWER(0, 3));
    CHECK(play_in("KEEP\r\n", 6, 306) == ANSWER(0, 3));

    /* Shapes and numbers. */
    CHECK(play("SET/030/0") == 39 && play("SET/30/00") == 39 && play("SET/00/0") == 39 && play("CONF/00030") == 39);
    CHECK(play("SET/12345/0") == 39 && play("SET/30/12345") == 39 && play("CONF/12345") == 39 && play("CONF/030") == 39);
    CHECK(play("SET/30") == 39 && play("SET/30/") == 39 && play("SET//0") == 39 && play("SET/30/0 ") == 39);
    CHECK(play("SET/30/0/0") == 39 && play("CONF/") == 39 && play("CONF/70/5") == 39 && play("set/30/0") == 22);
    CHECK(play(" KEEP") == 22 && play("KEEP ") == 39 && play("UNDO/") == 39 && play("Keep") == 22);
    CHECK(play("SET/30/9999") == 24 && play("SET/0/0") == 23 && play("SET/9999/9999") == 23 && play("SET/30/0") == 0);
    CHECK(play("CONF/0") == 23 && play("CONF/9999") == 23 && play("CONF/137") == 23 && play("CONF/136") == 0);
    CHECK(replied("0136/0000\r\n"));
    CHECK(play("GET/I") == 39 && play("GET/I/") == 39 && play("GET/I/WI8") == 39 && play("GET/I/WI8x") == 39);
    CHECK(play("GET/M/WI88") == 39 && play("GET/I/WI88/") == 39 && play("GET/I/WI12/WI8x") == 39);

    /* PUT's shape is any 16 bytes; 25 before 26. */
    CHECK(play("PUT/88...0+00001550") == 39 && play("PUT/88...0+00001550  ") == 39 && play("PUT/") == 39);
    CHECK(play("PUT/88...0+00001550x") == 26 && play("PUT/xx...0+00001550 ") == 25 && play("PUT/82...0+0000155xx") == 25);
    CHECK(play("PUT/88..10+00001550 ") == 26 && play("PUT/88...6+00001550 ") == 26 && play("PUT/88...1+00001550 ") == 0);
    CHECK(play("PUT/11...0+00001550 ") == 26 && play("PUT/110000+00001550 ") == 26 && play("PUT/11....+A-~!*x.0 ") == 0);
    CHECK(play("PUT/16....-00001550 ") == 26 && play("PUT/16..1.+00001550 ") == 26);
    CHECK(play("PUT/21...5+00001550 ") == 26 && play("PUT/21...2-39999999 ") == 0 && play("PUT/21...2+40000000 ") == 26);
    CHECK(play("PUT/21...3+36000000 ") == 26 && play("PUT/21...4+36000000 ") == 26 && play("PUT/21...4+35959599 ") == 0);
    CHECK(play("PUT/24...4+00060000 ") == 26 && play("PUT/83...0+00000000 ") == 0);

    /* GET: "its first index by 25 then 27, then the next likewise" */
    CHECK(play("GET/I/WI21/WI11/WI21") == 0 && replied("21..14+35959599 11....+A-~!*x.0 21..14+35959599 \r\n"));
    CHECK(play("GET/I/WI84/WI12") == 27 && play("GET/I/WI12/WI84") == 25 && play("GET/I/WI83/WI12/WI84") == 25);
    CHECK(play("GET/I/WI22") == 25 && play("GET/I/WI31") == 25 && play("GET/I/WI51") == 25 && play("GET/I/WI58") == 25);
    CHECK(play("GET/I/WI81") == 25 && play("GET/I/WI82") == 25 && play("GET/I/WI00") == 25);

    /* "restoring "never put" too" */
    fresh();
    CHECK(play("PUT/88...0+00001550 ") == 0 && play("UNDO") == 0 && play("GET/I/WI88") == 27);

    /* "Each reply ends as setting 73 said before the line" */
    fresh();
    CHECK(play("SET/73/0") == 0 && replied("?\r\n"));
    CHECK(play("CONF/73") == 0 && replied("0073/0000\r"));
    CHECK(play("CONF/74") == 23 && replied("@W127\r"));
    CHECK(play("UNDO") == 0 && replied("?\r"));
    CHECK(play("CONF/73") == 0 && replied("0073/0001\r\n"));
    CHECK(play("UNDO") == 29 && replied("@W127\r\n"));

    /* 30 measures the reply that would be given, and fits at exactly its length. */
    CHECK(play_in("UNDO\r", 5, 6) == ANSWER(30, 0) && play_in("UNDO\r", 5, 7) == ANSWER(29, 7));
    CHECK(play_in("SET/30/1\r", 9, 2) == ANSWER(30, 0) && play_in("SET/30/1\r", 9, 3) == ANSWER(0, 3));
    CHECK(play_in("UNDO\r", 5, 3) == ANSWER(0, 3) && play_in("KEEP\r", 5, 2) == ANSWER(30, 0));
    CHECK(play_in("CONF/70\r", 8, 10) == ANSWER(30, 0) && play_in("CONF/70\r", 8, 11) == ANSWER(0, 11));

    /* "Settings don't affect one another", nor a value's unit. */
    fresh();
    CHECK(play("SET/40/2") == 0 && play("PUT/21...2+10000000 ") == 0 && play("GET/I/WI21") == 0);
    CHECK(replied("21..12+10000000 \r\n"));
}

/* Bytes that aren't a state, and a state's entries. */
static void check_states(void)
{
    static uint8_t longer[1040];
    uint8_t whole[1039];

    CHECK(ref_image_size() == 1039);
    CHECK(ref_factory(longer, 1038) == ANSWER(31, 0) && ref_factory(longer, 1040) == ANSWER(31, 0));
    CHECK(ref_factory(longer, 0) == ANSWER(31, 0) && longer[0] == 0);

    fresh();
    CHECK(play("PUT/88...0+00001550 ") == 0 && play("SET/70/1") == 0);
    memcpy(whole, image, sizeof whole);
    CHECK(ref_line(image, 1038, (const uint8_t *)"KEEP\r", 5, reply, 306) == ANSWER(31, 0));
    /* 31 comes before all others. */
    CHECK(ref_line(image, 1038, (const uint8_t *)"KEEP", 4, reply, 0) == ANSWER(31, 0));
    CHECK(image[0] == 1 && image[9] == 1 && image[130] == 1 && image[131] == '0' && image[142] == 2);
    CHECK(image[143] == 2 && image[144] == 10 && memcmp(image + 145, "\0\0\0\0\0\0\0\0\0\0\0", 12) == 0);
    CHECK(image[157] == 1 && image[158] == 8 && image[159] == 5);
#define NO_STATE(change) \
    do { \
        memcpy(image, whole, sizeof whole); \
        change; \
        CHECK(play("KEEP") == 31); \
        CHECK(ref_sheet_write(image, bytes, reply, 0) == ANSWER(31, 0)); \
        CHECK(ref_sheet_load(image, bytes, reply, 0) == ANSWER(31, 0)); \
    } while (0)
    NO_STATE(image[0] = 0);
    NO_STATE(image[1] = 2);
    NO_STATE(image[20] = 1);
    NO_STATE(image[21] = 1);
    NO_STATE(image[132] = 2);
    NO_STATE(image[131] = '2');
    NO_STATE(image[141] = 1);
    NO_STATE(image[142] = 1);
    NO_STATE(image[142] = 3);
    NO_STATE(image[142] = 65);
    NO_STATE(image[143] = 0);
    NO_STATE(image[143] = 3);
    NO_STATE(image[144] = 9);
    NO_STATE(image[145] = 1);
    NO_STATE(image[158] = 19);
    NO_STATE(image[159] = 6);
    NO_STATE(image[160] = 1);
    NO_STATE(memset(image + 130, 0, 11));
    NO_STATE(image[1038] = 1);
#undef NO_STATE
    memcpy(image, whole, sizeof whole);
    CHECK(play("UNDO") == 0 && play("UNDO") == 0 && play("UNDO") == 29);
}

/* Sheets */

#define EXAMPLE \
    "series=TPS100\ns30=1\ns32=0\ns34=0\ns40=0\ns41=0\ns44=0\ns49=0\ns50=0\ns70=5\ns71=0\ns73=1\ns76=0\ns80=0\ns81=0\n" \
    "s95=0\ns102=0\ns103=1\ns135=0\ns136=0\nv11=\nv16=\nv21=\nv24=\nv34=\nv83=\nv84=\nv85=\nv86=\nv87=\nv88=88..10+00001550\n"
static const char example[] = EXAMPLE;

/* The right sheet that the checks below change. */
static const char *given = example;

static uint64_t load(const char *sheet, size_t n)
{
    uint8_t before[1060];
    uint64_t got;
    memcpy(before, image, sizeof image);
    got = ref_sheet_load(image, bytes, (const uint8_t *)sheet, n);
    CHECK(memcmp(before + bytes, image + bytes, sizeof image - bytes) == 0);
    if (got >> 32)
        CHECK(memcmp(before, image, sizeof image) == 0);
    return got;
}

/* Loads the given sheet with the part from `at` of that many bytes replaced. */
static uint64_t load_with(size_t at, size_t gone, const char *instead)
{
    char sheet[2500];
    size_t n = strlen(given), added = strlen(instead);
    memcpy(sheet, given, at);
    memcpy(sheet + at, instead, added);
    memcpy(sheet + at + added, given + at + gone, n - at - gone);
    return load(sheet, n - gone + added);
}

/* Loads the given sheet cut at each length: 40 tells the start of the line that isn't whole. */
static void load_cut(void)
{
    size_t at = 0;
    for (size_t cut = 0; given[cut]; cut++) {
        CHECK(load(given, cut) == ANSWER(40, at));
        if (given[cut] == '\n')
            at = cut + 1;
    }
}

/* Runs a text as program sheet does: "cuts after each CR (with LF if next)", "a last piece without CR included". */
static void run(const char *text)
{
    size_t n = strlen(text), from = 0;
    while (from < n) {
        size_t to = from;
        while (to < n && text[to] != '\r')
            to++;
        if (to < n)
            to++;
        if (to < n && text[to] == '\n')
            to++;
        play_in(text + from, to - from, 306);
        from = to;
    }
}

static void check_sheets(void)
{
    uint8_t sheet[400];
    size_t n = sizeof example - 1;

    /* The example of program sheet. */
    fresh();
    run("SET/30/1\r\nPUT/88...0+00001550 \r\nSET/40/2\r\nUNDO\r\n");
    memset(sheet, 0x5A, sizeof sheet);
    CHECK(ref_sheet_write(image, bytes, sheet, n - 1) == ANSWER(30, 0) && sheet[0] == 0x5A);
    CHECK(n == 202 && ref_sheet_write(image, bytes, sheet, sizeof sheet) == ANSWER(0, 202));
    CHECK(memcmp(sheet, example, n) == 0 && sheet[n] == 0x5A);
    /* A last piece without CR is a line, which 20 refuses. */
    run("SET/40/2\rKEEP");
    CHECK(play("CONF/40") == 0 && replied("0040/0002\r\n"));

    /* "187 to 352 bytes" */
    fresh();
    CHECK(ref_sheet_write(image, bytes, sheet, 187) == ANSWER(0, 187));
    run("PUT/11....+00000000 \rPUT/16....+00000000 \rPUT/21...2+00000000 \rPUT/24...3-00000001 \rPUT/34...0+00000000 \r"
        "PUT/83...0+00000000 \rPUT/84...0+00000000 \rPUT/85...0+00000000 \rPUT/86...0+00000000 \rPUT/87...0+00000000 \r"
        "PUT/88...1+00000000 \r");
    CHECK(ref_sheet_write(image, bytes, sheet, 351) == ANSWER(30, 0));
    CHECK(ref_sheet_write(image, bytes, sheet, 352) == ANSWER(0, 352));
    CHECK(load((const char *)sheet, 352) == 0 && play("UNDO") == 29 && play("GET/I/WI24") == 0);
    CHECK(replied("24..13-00000001 \r\n"));

    /* Loading empties the undo list, in mid-trial too. */
    CHECK(play("SET/30/1") == 0 && load(example, n) == 0 && play("UNDO") == 29 && play("GET/I/WI24") == 27);
    CHECK(play("GET/I/WI88") == 0 && replied("88..10+00001550 \r\n"));

    load_cut();
    CHECK(load_with(n, 0, "x") == ANSWER(40, n));
    CHECK(load_with(n, 0, "\n") == ANSWER(40, n));
    CHECK(load_with(13, 0, "\r") == ANSWER(40, 0));
    CHECK(load_with(14, 5, "s30=01") == ANSWER(40, 14));
    CHECK(load_with(14, 5, "s30=2") == ANSWER(40, 14));
    CHECK(load_with(14, 6, "") == ANSWER(40, 14));
    CHECK(load_with(14, 0, "s30=1\n") == ANSWER(40, 20));
    CHECK(load_with(14, 12, "s32=0\ns30=1\n") == ANSWER(40, 14));
    CHECK(load_with(n - 16, 15, "88...0+00001550") == ANSWER(40, n - 20));
    CHECK(load_with(n - 16, 15, "88..16+00000000") == ANSWER(40, n - 20));
    CHECK(load_with(n - 16, 15, "87..10+00000000") == ANSWER(40, n - 20));
    CHECK(load_with(n - 16, 15, "88..11-00000001") == 0);
    CHECK(load_with(n - 16, 15, "") == 0 && play("GET/I/WI88") == 27);
}

/* Minus nought, in lines, images and sheets */

/* The start of the line in a sheet that has the key. */
static size_t line_of(const char *sheet, const char *key)
{
    size_t at = 0;
    while (memcmp(sheet + at, key, strlen(key)) != 0)
        at++;
    return at;
}

static void check_minus_nought_put(void)
{
    static const char index[][3] = {"11", "16", "21", "24", "34", "83", "84", "85", "86", "87", "88"};
    char full[400];
    uint8_t sheet[400], whole[1039];

    /* Each stored value and each unit: "26 and 40 follow". */
    for (size_t i = 0; i < sizeof index / sizeof *index; i++)
        for (const char *unit = ".0123456789"; *unit; unit++) {
            char put[] = "PUT/.......00000000 ", got[] = "......-00000000 \r\n", get[] = "GET/I/WI..", key[] = "v..=";
            int right = i < 2 ? 0 : i < 4 ? *unit >= '2' && *unit <= '4' : *unit == '0' || *unit == '1';
            size_t at;
            memcpy(put + 4, index[i], 2);
            memcpy(got, index[i], 2);
            memcpy(get + 8, index[i], 2);
            memcpy(key + 1, index[i], 2);
            put[9] = got[5] = *unit;
            put[10] = '-';
            got[4] = i < 2 ? '.' : '1';
            fresh();
            CHECK(play(put) == (right ? 0 : 26));
            /* The sheet's line, in the example. */
            at = line_of(example, key);
            got[15] = 0;
            CHECK(load_with(at + 4, i == 10 ? 15 : 0, got) == (right ? 0 : ANSWER(40, at)));
            got[15] = ' ';
            if (!right)
                continue;
            CHECK(play(get) == 0 && replied(got));
            CHECK(ref_sheet_write(image, bytes, sheet, sizeof sheet) == ANSWER(0, i == 10 ? 202 : 217));
            CHECK(memcmp(sheet + at + 4, got, 15) == 0);
            /* UNDO brings either sign back, and "never put". */
            fresh();
            put[10] = '+';
            CHECK(play(put) == 0);
            put[10] = '-';
            CHECK(play(put) == 0 && play(get) == 0 && replied(got));
            CHECK(ref_sheet_write(image, bytes, sheet, sizeof sheet) == ANSWER(0, 202));
            memcpy(whole, image, sizeof whole);
            put[10] = '+';
            CHECK(play(put) == 0 && play("UNDO") == 0 && memcmp(image, whole, sizeof whole) == 0);
            CHECK(play(get) == 0 && replied(got));
            CHECK(play("UNDO") == 0 && play(get) == 0);
            got[6] = '+';
            CHECK(replied(got));
            CHECK(play("UNDO") == 0 && play(get) == 27);
            /* "a sheet with it loads", and gives the same sheet. */
            CHECK(load((const char *)sheet, 202) == 0 && play(get) == 0);
            got[6] = '-';
            CHECK(replied(got) && play("UNDO") == 29);
            CHECK(ref_sheet_write(image, bytes, (uint8_t *)full, 202) == ANSWER(0, 202) && memcmp(full, sheet, 202) == 0);
        }

    /* 26 with a minus: an angle out of range, text. */
    fresh();
    CHECK(play("PUT/21...2-40000000 ") == 26 && play("PUT/21...3-36000000 ") == 26 && play("PUT/21...4-00060000 ") == 26);
    CHECK(play("PUT/11....-00000001 ") == 26 && play("PUT/83...0-00000000x") == 26 && play("PUT/83..10-00000000 ") == 26);
    CHECK(play("PUT/82...0-00000000 ") == 25 && play("PUT/51....-0000-000 ") == 25);

    /* All of them at once. */
    CHECK(play("PUT/21...2-00000000 ") == 0 && play("PUT/24...4-00000000 ") == 0 && play("PUT/34...1-00000000 ") == 0);
    CHECK(play("PUT/83...0-00000000 ") == 0 && play("PUT/84...1-00000000 ") == 0 && play("PUT/85...0-00000000 ") == 0);
    CHECK(play("PUT/86...1-00000000 ") == 0 && play("PUT/87...0-00000000 ") == 0 && play("PUT/88...1-00000000 ") == 0);
    CHECK(play("GET/I/WI21/WI24/WI34/WI83/WI84/WI85/WI86/WI87/WI88") == 0);
    CHECK(replied("21..12-00000000 24..14-00000000 34..11-00000000 83..10-00000000 84..11-00000000 85..10-00000000 "
                  "86..11-00000000 87..10-00000000 88..11-00000000 \r\n"));
    CHECK(ref_sheet_write(image, bytes, sheet, sizeof sheet) == ANSWER(0, 322));
    memcpy(full, sheet, 322);
    CHECK(load(full, 322) == 0 && play("UNDO") == 29);
    CHECK(ref_sheet_write(image, bytes, sheet, sizeof sheet) == ANSWER(0, 322) && memcmp(full, sheet, 322) == 0);
    /* A sign that text can't have, and angles out of range, at their lines. */
    CHECK(load_with(line_of(example, "v11=") + 4, 0, "11....-00000000") == ANSWER(40, line_of(example, "v11=")));
    CHECK(load_with(line_of(example, "v21=") + 4, 0, "21..12-40000000") == ANSWER(40, line_of(example, "v21=")));
    CHECK(load_with(line_of(example, "v24=") + 4, 0, "24..14-00000600") == ANSWER(40, line_of(example, "v24=")));

    /* 31: "each value never put or as a PUT can leave it", standing or in an entry. */
    fresh();
    CHECK(play("PUT/88...0+00000000 ") == 0 && play("PUT/88...0+00000001 ") == 0 && play("PUT/11....+00000000 ") == 0);
    memcpy(whole, image, sizeof whole);
    image[132] = 1;
    CHECK(play("GET/I/WI88") == 0 && replied("88..10-00000001 \r\n"));
    image[140] = '0';
    CHECK(play("GET/I/WI88") == 0 && replied("88..10-00000000 \r\n"));
    image[162] = 1; /* the second entry's sign */
    CHECK(play("UNDO") == 0 && play("UNDO") == 0 && play("GET/I/WI88") == 0 && replied("88..10-00000000 \r\n"));
    CHECK(play("UNDO") == 0 && play("GET/I/WI88") == 27);
    memcpy(image, whole, sizeof whole);
    image[22] = 1; /* 11's sign */
    CHECK(play("KEEP") == 31);
    memcpy(image, whole, sizeof whole);
    image[162] = 2;
    CHECK(play("KEEP") == 31);
}

/* TPS300 */

/* 01's settings of TPS100, "as number:highest parameter, lowest 0 each". */
static const char list_of_01[] = "30:1 32:3 34:1 40:2 41:1 44:2 49:1 50:2 70:5 71:2 73:1 76:1 80:1 81:2 95:1 102:1 103:1 135:1 136:1";

/* 000's CONF list of TPS300/700 (Tab. 8) from 41 to 171, row by row: the number and the parameters that its responses have,
   each where it lists them, the two ends where it gives a range. #103: "55 and 56 from 1 to 10, 78 from 0 to 50, 104 and 105
   from 0 to 100, and 161 only 0, 1, 5, 6, 7, 9 or 10. Leave out 138"; "91 (0 to 100 here)". */
static const struct row { unsigned number; const char *parameters; } conf_list[] = {
    {41, "0 1 2 3 4"}, {42, "0 1"}, {43, "0 1 2 3 4 5 6"}, {50, "0 1 2 3 4"}, {51, "0 1 2 3 4"}, {55, "1-10"}, {56, "1-10"},
    {70, "0 1 2 3 4 5 6"}, {71, "0 1 2"}, {73, "0 1"}, {75, "0 1"}, {76, "0 1"}, {78, "0-50"}, {90, "0-10"}, {91, "0-100"},
    {95, "0 1"}, {102, "0 1"}, {103, "0 1"}, {104, "0-100"}, {105, "0-100"}, {106, "0 1"}, {120, "0 1"}, {122, "0 1"},
    {135, "0-8"}, {136, "0-127"}, {137, "0 1"}, {160, "0 1"}, {161, "0 1 5 6 7 9 10"}, {170, "0 1"}, {171, "0 1"},
};
enum { ROWS = sizeof conf_list / sizeof *conf_list };

/* "90, 91 (0 to 100 here), 122, 160 and 170 can't be SET" */
static int is_asked_only(unsigned number)
{
    return number == 90 || number == 91 || number == 122 || number == 160 || number == 170;
}

/* Reads a number and goes past it. */
static unsigned number_at(const char **p)
{
    unsigned v = 0;
    while (**p >= '0' && **p <= '9')
        v = v * 10 + (unsigned)(*(*p)++ - '0');
    return v;
}

static int lists(const char *parameters, unsigned parameter)
{
    for (;; parameters++) {
        unsigned from = number_at(&parameters), to = from;
        if (*parameters == '-') {
            parameters++;
            to = number_at(&parameters);
        }
        if (parameter >= from && parameter <= to)
            return 1;
        if (!*parameters)
            return 0;
    }
}

static unsigned lowest_of(const struct row *row)
{
    const char *p = row->parameters;
    return number_at(&p);
}

/* The row of the number in 01's list of TPS100, as one of the other list; null when it has none. */
static const struct row *row_of_01(unsigned number)
{
    static struct row row;
    static char range[8];
    for (const char *p = list_of_01; *p; p += *p == ' ') {
        row.number = number_at(&p);
        p++;
        snprintf(range, sizeof range, "0-%u", number_at(&p));
        row.parameters = range;
        if (row.number == number)
            return &row;
    }
    return NULL;
}

static const struct row *row_of_000(unsigned number)
{
    for (size_t i = 0; i < ROWS; i++)
        if (conf_list[i].number == number)
            return &conf_list[i];
    return NULL;
}

static unsigned play_two(const char *form, unsigned a, unsigned b)
{
    char line[40];
    snprintf(line, sizeof line, form, a, b);
    return play(line);
}

static int replied_conf(unsigned number, unsigned parameter, const char *end)
{
    char asked[20];
    snprintf(asked, sizeof asked, "%04u/%04u%s", number, parameter, end);
    return replied(asked);
}

/* Every number to 200 with every parameter to 300, for either series. */
static void check_ranges(void)
{
    uint8_t factory[1060];

    for (int series = 0; series < 2; series++) {
        const char *end = series ? "\r" : "\r\n";
        series ? fresh_300() : fresh();
        memcpy(factory, image, sizeof factory);
        for (unsigned number = 0; number <= 200; number++) {
            const struct row *row = series ? row_of_000(number) : row_of_01(number);
            int asked_only = series && is_asked_only(number);
            /* TPS100: "Factory: 70 is 5, 73 is 1, 103 is 1, the rest 0". TPS300: "each setting's lowest". */
            unsigned first = !row ? 0 : series ? lowest_of(row) : number == 70 ? 5 : number == 73 || number == 103;
            CHECK(play_two("CONF/%u", number, 0) == (row ? 0 : 23));
            CHECK(row ? replied_conf(number, first, end) : replied(series ? "@W127\r" : "@W127\r\n"));
            for (unsigned parameter = 0; parameter <= 300; parameter++) {
                unsigned wanted = !row ? 23 : asked_only ? 38 : lists(row->parameters, parameter) ? 0 : 24;
                CHECK(play_two("SET/%u/%u", number, parameter) == wanted);
                if (wanted != 0)
                    continue;
                CHECK(play_two("CONF/%u", number, 0) == 0);
                CHECK(replied_conf(number, parameter, number != 73 ? end : parameter ? "\r\n" : "\r"));
                CHECK(play_two("SET/%u/%u", number, first) == 0 && play("UNDO") == 0 && play_two("CONF/%u", number, 0) == 0);
                CHECK(replied_conf(number, parameter, number != 73 ? end : parameter ? "\r\n" : "\r"));
                CHECK(play("UNDO") == 0 && memcmp(image, factory, sizeof factory) == 0);
            }
            for (unsigned parameter = 301; parameter <= 9999; parameter += 211)
                CHECK(play_two("SET/%u/%u", number, parameter) == (!row ? 23 : asked_only ? 38 : 24));
        }
        for (unsigned number = 201; number <= 9999; number++)
            CHECK(play_two("CONF/%u", number, 0) == 23 && play_two("SET/%u/1", number, 0) == 23);
    }
}

static void check_lines_300(void)
{
    static const char *const others[] = {"30", "31", "32", "34", "35", "36", "40", "44", "49", "52", "57", "72", "74", "80", "81",
                                         "138", "162", "172", "173", "178", "179"};
    char line[120] = "GET/I";
    size_t n = 5;

    /* The readings of 103 one by one. */
    fresh_300();
    CHECK(play("SET/90/9999") == 38 && replied("@W127\r"));
    CHECK(play("SET/90/0") == 38 && play("SET/91/100") == 38 && play("SET/122/1") == 38 && play("SET/160/0") == 38);
    CHECK(play("SET/170/1") == 38 && play("SET/170/2") == 38 && play("SET/91/101") == 38 && play("UNDO") == 29);
    CHECK(play("CONF/90") == 0 && replied("0090/0000\r") && play("CONF/91") == 0 && replied("0091/0000\r"));
    CHECK(play("CONF/122") == 0 && play("CONF/160") == 0 && play("CONF/170") == 0 && replied("0170/0000\r"));
    CHECK(play("SET/161/0") == 0 && play("SET/161/1") == 0 && play("SET/161/5") == 0 && play("SET/161/6") == 0);
    CHECK(play("SET/161/7") == 0 && play("SET/161/9") == 0 && play("SET/161/10") == 0 && play("SET/161/11") == 24);
    CHECK(play("SET/161/2") == 24 && play("SET/161/3") == 24 && play("SET/161/4") == 24 && play("SET/161/8") == 24);
    CHECK(play("CONF/161") == 0 && replied("0161/0010\r") && play("UNDO") == 0 && play("CONF/161") == 0 && replied("0161/0009\r"));
    CHECK(play("SET/55/0") == 24 && play("SET/56/0") == 24 && play("SET/55/10") == 0 && play("SET/56/1") == 0);
    CHECK(play("SET/55/11") == 24 && play("SET/56/11") == 24 && play("CONF/55") == 0 && replied("0055/0010\r"));
    CHECK(play("SET/95/2") == 24 && play("SET/95/1") == 0 && play("SET/78/50") == 0 && play("SET/78/51") == 24);
    CHECK(play("SET/136/127") == 0 && play("SET/136/128") == 24 && play("CONF/136") == 0 && replied("0136/0127\r"));
    CHECK(play("SET/104/100") == 0 && play("SET/105/101") == 24 && play("CONF/104") == 0 && replied("0104/0100\r"));
    for (size_t i = 0; i < sizeof others / sizeof *others; i++) {
        char other[20];
        snprintf(other, sizeof other, "SET/%s/0", others[i]);
        CHECK(play(other) == 23);
        snprintf(other, sizeof other, "CONF/%s", others[i]);
        CHECK(play(other) == 23);
    }
    CHECK(play("SET/138/9999") == 23 && play("SET/0/0") == 23 && play("CONF/9999") == 23);
    /* 22 and 39 come before them, and 30 in the place of 38. */
    CHECK(play("SET/090/0") == 39 && play("SET/90/00") == 39 && play("SET/90/") == 39 && play("SET/90") == 39);
    CHECK(play("SET/90/12345") == 39 && play("set/90/0") == 22 && play("SET/90/0/0") == 39);
    CHECK(play_in("SET/90/0\r", 9, 5) == ANSWER(30, 0) && play_in("SET/90/0\r", 9, 6) == ANSWER(38, 6));

    /* With 64 entries each keeps its own number. */
    fresh_300();
    for (int i = 0; i < 64; i++)
        CHECK(play("SET/55/10") == 0);
    CHECK(play("SET/55/10") == 28 && play("SET/90/0") == 38 && play("SET/91/9999") == 38 && play("SET/55/0") == 24);
    CHECK(play("SET/161/8") == 24 && play("SET/30/0") == 23 && play("SET/171/1") == 28 && play("PUT/88...0+00000000 ") == 28);
    for (int i = 0; i < 64; i++)
        CHECK(play("UNDO") == 0);
    CHECK(play("UNDO") == 29 && play("CONF/55") == 0 && replied("0055/0001\r"));
    /* KEEP with 64 of them leaves the settings and no entry. */
    for (int i = 0; i < 64; i++)
        CHECK(play(i % 2 ? "PUT/88...1-99999999 " : "SET/171/1") == 0);
    CHECK(play("KEEP") == 0 && image[30] == 1 && image[141] == 1);
    for (size_t i = 152; i < 1050; i++)
        CHECK(image[i] == 0);

    /* "Each reply ends as setting 73 said before the line": at this factory it is 0. */
    CHECK(play("KEEP") == 0 && replied("?\r"));
    CHECK(play("SET/73/1") == 0 && replied("?\r"));
    CHECK(play("CONF/73") == 0 && replied("0073/0001\r\n"));
    CHECK(play("SET/90/0") == 38 && replied("@W127\r\n"));
    CHECK(play("UNDO") == 0 && replied("?\r\n"));
    CHECK(play("UNDO") == 29 && replied("@W127\r"));

    /* "When 137 is 1, GET answers a `*` and then wide words, with zeros added on the left of the data"; "text too". */
    fresh_300();
    CHECK(play("PUT/11....+PNC0058A ") == 0 && play("PUT/21...4-35959599 ") == 0 && play("PUT/34...0-00000000 ") == 0);
    CHECK(play("GET/I/WI11/WI21") == 0 && replied("11....+PNC0058A 21..14-35959599 \r"));
    CHECK(play("SET/137/1") == 0 && replied("?\r"));
    CHECK(play("GET/I/WI11") == 0 && replied("*11....+00000000PNC0058A \r"));
    CHECK(play("GET/I/WI21") == 0 && replied("*21..14-0000000035959599 \r"));
    CHECK(play("GET/I/WI34/WI11/WI34/WI21") == 0);
    CHECK(replied("*34..10-0000000000000000 11....+00000000PNC0058A 34..10-0000000000000000 21..14-0000000035959599 \r"));
    /* Such a reply is a wide block that reads. */
    CHECK(reading_in((const char *)reply, 98, 32) == READ(98, 4, 1, 0) && list[0].minus == 1 && list[0].size == 0);
    CHECK(list[3].size == 12959999 && list[3].minus == 1 && memcmp(list[1].text, "00000000PNC0058A", 16) == 0);
    /* Nothing else is wide. */
    CHECK(play("CONF/137") == 0 && replied("0137/0001\r") && play("GET/I/WI16") == 27 && replied("@W127\r"));
    CHECK(play("GET/I/WI11/WI12") == 25 && play("GET/I/WI11/WI16/WI12") == 27 && play("GET/I") == 39);
    CHECK(play("PUT/16....+!~000000 ") == 0 && replied("?\r") && play("PUT/16....+0000000000000001 ") == 39);
    CHECK(play("GET/I/WI16") == 0 && replied("*16....+00000000!~000000 \r"));
    CHECK(play("UNDO") == 0 && play("GET/I/WI16") == 27 && play("UNDO") == 0);
    CHECK(play("GET/I/WI11") == 0 && replied("11....+PNC0058A \r"));
    CHECK(play("SET/137/2") == 24 && play("SET/137/1") == 0 && play("KEEP") == 0 && play("SET/137/0") == 0);
    CHECK(play("GET/I/WI11") == 0 && replied("11....+PNC0058A \r") && play("UNDO") == 0);
    CHECK(play_in("GET/I/WI11\r", 11, 25) == ANSWER(30, 0) && play_in("GET/I/WI11\r", 11, 26) == ANSWER(0, 26));
    CHECK(play_in("GET/I/WI11/WI21\r", 16, 49) == ANSWER(30, 0) && play_in("GET/I/WI11/WI21\r", 16, 50) == ANSWER(0, 50));

    /* "The longest reply is 459 bytes": `*`, 19 words of 24, CR LF. */
    for (int i = 0; i < 19; i++, n += 5)
        memcpy(line + n, i % 2 ? "/WI11" : "/WI21", 5);
    memcpy(line + n, "\r", 1);
    CHECK(play_in(line, n + 1, 457) == ANSWER(30, 0) && play_in(line, n + 1, 458) == ANSWER(0, 458) && reply[457] == '\r');
    CHECK(play("SET/73/1") == 0);
    CHECK(n == 100 && play_in(line, n + 1, 458) == ANSWER(30, 0));
    CHECK(play_in(line, n + 1, 459) == ANSWER(0, 459) && reply[0] == '*');
    for (int i = 0; i < 19; i++)
        CHECK(memcmp(reply + 1 + i * 24, i % 2 ? "11....+00000000PNC0058A " : "21..14-0000000035959599 ", 24) == 0);
    CHECK(memcmp(reply + 457, "\r\n", 2) == 0);
    CHECK(play_in(line, n + 1, 480) == ANSWER(0, 459));
    CHECK(play("UNDO") == 0 && play("SET/137/0") == 0 && play("SET/73/1") == 0);
    CHECK(play_in(line, n + 1, 305) == ANSWER(30, 0) && play_in(line, n + 1, 306) == ANSWER(0, 306));
    memcpy(line + n, "/WI11\r", 6);
    CHECK(play_in(line, n + 6, 459) == ANSWER(21, 7));
    /* TPS100 has no 137. */
    fresh();
    CHECK(play("SET/137/1") == 23 && play("SET/135/1") == 0 && play("SET/136/1") == 0 && play("PUT/11....+PNC0058A ") == 0);
    CHECK(play("GET/I/WI11") == 0 && replied("11....+PNC0058A \r\n"));
}

static void check_states_300(void)
{
    static uint8_t lent[1060];
    uint8_t whole[1050];

    CHECK(ref_image_size_300() == 1050 && ref_image_size() == 1039);
    for (size_t n = 0; n <= sizeof lent; n++) {
        memset(lent, 0x5A, sizeof lent);
        CHECK(ref_factory_300(lent, n) == (n == 1050 ? 0 : ANSWER(31, 0)));
        CHECK(lent[0] == (n == 1050 ? 17 : 0x5A) && lent[n < sizeof lent ? n : 0] == 0x5A);
        memset(lent, 0x5A, sizeof lent);
        CHECK(ref_factory(lent, n) == (n == 1039 ? 0 : ANSWER(31, 0)));
        CHECK(lent[0] == (n == 1039 ? 1 : 0x5A) && lent[n < sizeof lent ? n : 0] == 0x5A);
    }

    /* The image's bytes: 17, the thirty settings, the values, the entries. */
    fresh_300();
    CHECK(image[0] == 17);
    for (size_t i = 0; i < ROWS; i++)
        CHECK(image[1 + i] == lowest_of(&conf_list[i]));
    for (size_t i = 1 + ROWS; i < 1050; i++)
        CHECK(image[i] == 0);
    CHECK(play("PUT/88...0+00001550 ") == 0 && play("SET/56/7") == 0 && play("SET/171/1") == 0);
    CHECK(image[0] == 17 && image[7] == 7 && image[30] == 1 && memcmp(image + 141, "\0010\00000001550", 11) == 0);
    CHECK(image[152] == 0 && image[153] == 3 && image[154] == 2 && image[155] == 10);
    CHECK(memcmp(image + 156, "\0\0\0\0\0\0\0\0\0\0\0", 12) == 0 && memcmp(image + 168, "\001\006\001", 4) == 0);
    CHECK(memcmp(image + 182, "\001\035\0", 4) == 0);
    memcpy(whole, image, sizeof whole);

    /* Each setting's byte, and the same in an entry; "An entry of a read-only setting makes no state." */
    for (unsigned place = 0; place < 256; place++)
        for (unsigned parameter = 0; parameter < 256; parameter++) {
            int right = place < ROWS && lists(conf_list[place].parameters, parameter);
            if (place < ROWS) {
                memcpy(image, whole, sizeof whole);
                image[1 + place] = (uint8_t)parameter;
                CHECK(play("KEEP") == (right ? 0 : 31));
            }
            memcpy(image, whole, sizeof whole);
            image[169] = (uint8_t)place;
            image[170] = (uint8_t)parameter;
            CHECK(play("KEEP") == (right && !is_asked_only(conf_list[place].number) ? 0 : 31));
        }

#define NO_STATE(change) \
    do { \
        memcpy(image, whole, sizeof whole); \
        bytes = 1050; \
        change; \
        CHECK(play("KEEP") == 31); \
        CHECK(ref_sheet_write(image, bytes, reply, 0) == ANSWER(31, 0)); \
        CHECK(ref_sheet_load(image, bytes, reply, 0) == ANSWER(31, 0)); \
    } while (0)
    for (unsigned mark = 0; mark < 256; mark++)
        if (mark != 17)
            NO_STATE(image[0] = (uint8_t)mark);
    NO_STATE(image[31] = 1);
    NO_STATE(image[143] = 2);
    NO_STATE(image[142] = '2');
    NO_STATE(image[152] = 1);
    NO_STATE(image[153] = 2);
    NO_STATE(image[153] = 4);
    NO_STATE(image[153] = 65);
    NO_STATE(image[154] = 3);
    NO_STATE(image[168] = 2);
    NO_STATE(image[171] = 1);
    NO_STATE(memset(image + 141, 0, 11));
    NO_STATE(image[1049] = 1);
    /* The five by name: 90, 91, 122, 160 and 170 stand at 13, 14, 22, 26 and 28. */
    NO_STATE(image[183] = 13);
    NO_STATE(image[183] = 14);
    NO_STATE(image[183] = 22);
    NO_STATE(image[183] = 26);
    NO_STATE(image[183] = 28);
    /* "Each series has its own image length", and an image says its series. */
    for (size_t n = 0; n <= sizeof image; n++)
        for (int series = 0; series < 2; series++)
            if (n != (series ? 1050 : 1039))
                NO_STATE(series ? (void)0 : fresh(); memset(image + (series ? 1050 : 1039), 0, 10); bytes = n);
    NO_STATE(bytes = 1039; memset(image + 154, 0, 896); image[153] = 0);
    NO_STATE(fresh(); image[0] = 17);
    NO_STATE(fresh(); memset(image + 1039, 0, 11); bytes = 1050; image[0] = 17);
    NO_STATE(fresh_300(); image[0] = 1);
    NO_STATE(fresh_300(); bytes = 1039);
#undef NO_STATE
    /* This factory's first 1,039 bytes with a 1 before them happen to be a state of TPS100, all of it in range. */
    fresh_300();
    image[0] = 1;
    bytes = 1039;
    CHECK(play("CONF/44") == 0 && replied("0044/0001\r"));
    memcpy(image, whole, sizeof whole);
    bytes = 1050;
    CHECK(play("UNDO") == 0 && play("UNDO") == 0 && play("UNDO") == 0 && play("UNDO") == 29);
}

/* The least sheet, which is the factory's, and the greatest. */
static const char least_300[] =
    "series=TPS300\ns41=0\ns42=0\ns43=0\ns50=0\ns51=0\ns55=1\ns56=1\ns70=0\ns71=0\ns73=0\ns75=0\ns76=0\ns78=0\ns90=0\ns91=0\n"
    "s95=0\ns102=0\ns103=0\ns104=0\ns105=0\ns106=0\ns120=0\ns122=0\ns135=0\ns136=0\ns137=0\ns160=0\ns161=0\ns170=0\ns171=0\n"
    "v11=\nv16=\nv21=\nv24=\nv34=\nv83=\nv84=\nv85=\nv86=\nv87=\nv88=\n";
static const char greatest_300[] =
    "series=TPS300\ns41=4\ns42=1\ns43=6\ns50=4\ns51=4\ns55=10\ns56=10\ns70=6\ns71=2\ns73=1\ns75=1\ns76=1\ns78=50\ns90=10\ns91=100\n"
    "s95=1\ns102=1\ns103=1\ns104=100\ns105=100\ns106=1\ns120=1\ns122=1\ns135=8\ns136=127\ns137=1\ns160=1\ns161=10\ns170=1\ns171=1\n"
    "v11=11....+PNC0058A\nv16=16....+!~!~!~!~\nv21=21..12-39999999\nv24=24..14+35959599\nv34=34..10-00000000\nv83=83..11+99999999\n"
    "v84=84..10+00100000\nv85=85..11-00100000\nv86=86..10+00045000\nv87=87..10+00001700\nv88=88..10+00001500\n";

static void check_sheets_300(void)
{
    enum { LEAST = 263, GREATEST = 441 };
    uint8_t sheet[500];
    char instead[20], key[20];

    fresh_300();
    memset(sheet, 0x5A, sizeof sheet);
    CHECK(ref_sheet_write(image, bytes, sheet, LEAST - 1) == ANSWER(30, 0) && sheet[0] == 0x5A);
    CHECK(sizeof least_300 - 1 == LEAST && ref_sheet_write(image, bytes, sheet, LEAST) == ANSWER(0, LEAST));
    CHECK(memcmp(sheet, least_300, LEAST) == 0 && sheet[LEAST] == 0x5A);
    CHECK(load(greatest_300, GREATEST) == 0 && sizeof greatest_300 - 1 == GREATEST);
    memset(sheet, 0x5A, sizeof sheet);
    CHECK(ref_sheet_write(image, bytes, sheet, GREATEST - 1) == ANSWER(30, 0) && sheet[0] == 0x5A);
    CHECK(ref_sheet_write(image, bytes, sheet, GREATEST) == ANSWER(0, GREATEST));
    CHECK(memcmp(sheet, greatest_300, GREATEST) == 0 && sheet[GREATEST] == 0x5A);
    /* What the sheet says stands; "the sheet keeps eight characters" though 137 is 1. */
    CHECK(play("UNDO") == 29 && replied("@W127\r\n") && play("CONF/90") == 0 && replied("0090/0010\r\n"));
    CHECK(play("CONF/91") == 0 && replied("0091/0100\r\n") && play("CONF/161") == 0 && replied("0161/0010\r\n"));
    CHECK(play("GET/I/WI16/WI34") == 0 && replied("*16....+00000000!~!~!~!~ 34..10-0000000000000000 \r\n"));
    /* A load in mid-trial counts as a KEEP; a refused one changes nothing, which load sees to. */
    CHECK(play("SET/41/0") == 0 && load(least_300, LEAST) == 0 && play("UNDO") == 29 && play("CONF/90") == 0 && replied("0090/0000\r"));

    /* "a sheet of the other series is 40 at that line" */
    CHECK(load(example, sizeof example - 1) == ANSWER(40, 0));
    given = example;
    CHECK(load_with(0, 13, "series=TPS300") == ANSWER(40, 14));
    fresh();
    CHECK(load(least_300, LEAST) == ANSWER(40, 0) && load(greatest_300, GREATEST) == ANSWER(40, 0));
    given = least_300;
    CHECK(load_with(0, 13, "series=TPS100") == ANSWER(40, 14));
    fresh_300();
    CHECK(load_with(0, 13, "series=TPS100") == ANSWER(40, 0) && load_with(0, 13, "series=TPS700") == ANSWER(40, 0));
    CHECK(load_with(0, 13, "series=TPS30") == ANSWER(40, 0) && load_with(0, 13, "series=tps300") == ANSWER(40, 0));
    CHECK(load_with(0, 14, "") == ANSWER(40, 0) && load_with(13, 0, "\r") == ANSWER(40, 0));

    /* Each setting's line with each parameter: "a sheet may hold any of their values", and no leading zeros. */
    for (size_t i = 0; i < ROWS; i++) {
        static const char *const wrong[] = {"", "+1", "-1", "1 ", " 1", "1\r", "1.", "a", "00001", "10000", "4294967296", "4294967297"};
        size_t from, at;
        snprintf(key, sizeof key, "s%u=", conf_list[i].number);
        from = line_of(least_300, key);
        at = from + strlen(key);
        for (unsigned parameter = 0; parameter <= 1300; parameter++) {
            int right = lists(conf_list[i].parameters, parameter);
            snprintf(instead, sizeof instead, "%u", parameter);
            CHECK(load_with(at, 1, instead) == (right ? 0 : ANSWER(40, from)));
            if (right) {
                CHECK(image[1 + i] == parameter);
                CHECK(ref_sheet_write(image, bytes, sheet, sizeof sheet) == ANSWER(0, LEAST - 1 + strlen(instead)));
                CHECK(memcmp(sheet + at, instead, strlen(instead)) == 0);
            }
            snprintf(instead, sizeof instead, "0%u", parameter);
            CHECK(load_with(at, 1, instead) == ANSWER(40, from));
        }
        for (size_t k = 0; k < sizeof wrong / sizeof *wrong; k++)
            CHECK(load_with(at, 1, wrong[k]) == ANSWER(40, from));
        CHECK(load_with(from + 1, 0, "0") == ANSWER(40, from) && load_with(at - 1, 1, "") == ANSWER(40, from));
    }
    /* Lines cut, left out, doubled, exchanged, put in; and 138. */
    load_cut();
    CHECK(load_with(LEAST, 0, "\n") == ANSWER(40, LEAST) && load_with(LEAST, 0, "v88=\n") == ANSWER(40, LEAST));
    CHECK(load_with(14, 6, "") == ANSWER(40, 14) && load_with(14, 0, "s41=0\n") == ANSWER(40, 20));
    CHECK(load_with(14, 12, "s42=0\ns41=0\n") == ANSWER(40, 14) && load_with(14, 0, "s40=0\n") == ANSWER(40, 14));
    CHECK(load_with(line_of(least_300, "s160="), 0, "s138=0\n") == ANSWER(40, line_of(least_300, "s160=")));
    /* A value's line has 15 characters, never the wide word. */
    given = greatest_300;
    load_cut();
    CHECK(load_with(line_of(greatest_300, "v88=") + 11, 0, "00000000") == ANSWER(40, line_of(greatest_300, "v88=")));
    CHECK(load_with(line_of(greatest_300, "v11=") + 11, 0, "00000000") == ANSWER(40, line_of(greatest_300, "v11=")));
    CHECK(load_with(line_of(greatest_300, "v88=") + 4, 15, "") == 0 && play("GET/I/WI88") == 27);
    given = example;
}

/* Sheets that remember */

enum { SHEET_ROOM = 1900 };
static uint8_t written[SHEET_ROOM];
static size_t written_bytes;

/* Whether the image's form 2 is this sheet: written into just its room and into an ample one, and not into a shorter one. */
static int remembers(const char *sheet)
{
    size_t n = strlen(sheet);
    for (size_t short_room = 0; short_room < n; short_room += short_room + 30 < n ? 7 : 1) {
        memset(written, 0x5A, sizeof written);
        if (ref_sheet_write_2(image, bytes, written, short_room) != ANSWER(30, 0) || !only(written, 0x5A, sizeof written))
            return 0;
    }
    for (size_t more = 0; more < 3; more++) {
        memset(written, 0x5A, sizeof written);
        if (ref_sheet_write_2(image, bytes, written, n + more) != ANSWER(0, n) || memcmp(written, sheet, n) != 0)
            return 0;
        if (!only(written + n, 0x5A, sizeof written - n))
            return 0;
    }
    return 1;
}

/* The image's form 2 in written, with a 0 after it; answers its length. */
static size_t remember(void)
{
    uint64_t got;
    memset(written, 0, sizeof written);
    got = ref_sheet_write_2(image, bytes, written, sizeof written - 1);
    CHECK(got < sizeof written - 1);
    written_bytes = (size_t)got;
    return written_bytes;
}

/* The two moves; checks that a refused one writes nothing, and that room beyond what is told is untouched. */
static uint8_t moved[SHEET_ROOM];

static uint64_t checked(uint64_t got, size_t room)
{
    size_t told = got >> 32 ? 0 : (size_t)got;
    CHECK(told <= room);
    CHECK(only(moved + told, 0x5A, sizeof moved - told));
    return got;
}

static uint64_t move_in(const char *sheet, size_t n, size_t room)
{
    memset(moved, 0x5A, sizeof moved);
    return checked(ref_sheet_move((const uint8_t *)sheet, n, moved, room), room);
}

static uint64_t back_in(const char *sheet, size_t n, size_t room)
{
    memset(moved, 0x5A, sizeof moved);
    return checked(ref_sheet_back((const uint8_t *)sheet, n, moved, room), room);
}

static uint64_t moving(const char *sheet)
{
    return move_in(sheet, strlen(sheet), SHEET_ROOM);
}

static uint64_t going_back(const char *sheet)
{
    return back_in(sheet, strlen(sheet), SHEET_ROOM);
}

/* Whether the given sheet of form 2, with the part from `at` of that many bytes replaced, is refused by 40 at the place, loaded and
   moved back, and at 0 when moved. */
static int wrong_with(size_t at, size_t gone, const char *instead, size_t place)
{
    char sheet[2500];
    size_t n = strlen(given), added = strlen(instead);
    memcpy(sheet, given, at);
    memcpy(sheet + at, instead, added);
    memcpy(sheet + at + added, given + at + gone, n - at - gone);
    n = n - gone + added;
    return load(sheet, n) == ANSWER(40, place) && back_in(sheet, n, SHEET_ROOM) == ANSWER(40, place) &&
           back_in(sheet, n, 0) == ANSWER(40, place) && move_in(sheet, n, SHEET_ROOM) == ANSWER(40, 0);
}

/* The same for the line that starts with the key; it is wrong at its own start. */
static int wrong_line(const char *key, const char *instead)
{
    size_t at = line_of(given, key), end = at;
    while (given[end] != '\n')
        end++;
    return wrong_with(at, end - at, instead, at);
}

#define SETTINGS_OF_FACTORY \
    "s30=0\ns32=0\ns34=0\ns40=0\ns41=0\ns44=0\ns49=0\ns50=0\ns70=5\ns71=0\ns73=1\ns76=0\ns80=0\ns81=0\ns95=0\ns102=0\ns103=1\n" \
    "s135=0\ns136=0\n"
#define NEVER_PUT "v11=\nv16=\nv21=\nv24=\nv34=\nv83=\nv84=\nv85=\nv86=\nv87=\nv88=\n"

/* The example of program sheet in form 2: of its four lines the third was taken back, and two entries stand. */
static const char example_2[] = "form=2\n" EXAMPLE "undo=2\nu=s30:0\nu=v88:\n";
static const char least_2[] = "form=2\nseries=TPS100\n" SETTINGS_OF_FACTORY NEVER_PUT "undo=0\n";

/* Entries of each kind: SET/40/2, SET/40/1, a PUT of 88 three times, of 11 twice and of 24, and SET/40/1 again. */
static const char trial_2[] =
    "form=2\nseries=TPS100\ns30=0\ns32=0\ns34=0\ns40=1\ns41=0\ns44=0\ns49=0\ns50=0\ns70=5\ns71=0\ns73=1\ns76=0\ns80=0\ns81=0\ns95=0\n"
    "s102=0\ns103=1\ns135=0\ns136=0\nv11=11....+!~!~!~!~\nv16=\nv21=\nv24=24..14-35959599\nv34=\nv83=\nv84=\nv85=\nv86=\nv87=\n"
    "v88=88..11-00000000\nundo=9\nu=s40:0\nu=s40:2\nu=v88:\nu=v88:88..10+00001550\nu=v88:88..10-00000000\nu=v11:\n"
    "u=v11:11....+PNC0058A\nu=v24:\nu=s40:1\n";

static void play_trial(void)
{
    fresh();
    CHECK(play("SET/40/2") == 0 && play("SET/40/1") == 0 && play("PUT/88...0+00001550 ") == 0 && play("PUT/88...0-00000000 ") == 0);
    CHECK(play("PUT/88...1-00000000 ") == 0 && play("PUT/11....+PNC0058A ") == 0 && play("PUT/11....+!~!~!~!~ ") == 0);
    CHECK(play("PUT/24...4-35959599 ") == 0 && play("SET/40/1") == 0);
}

/* 106: "then `undo=` and the count, then one `u=` line for each entry, oldest first" */
static void check_written_2(void)
{
    uint8_t whole[1039];

    fresh();
    CHECK(sizeof least_2 - 1 == 201 && remembers(least_2));
    run("SET/30/1\r\nPUT/88...0+00001550 \r\nSET/40/2\r\nUNDO\r\n");
    CHECK(remembers(example_2) && sizeof example_2 - 1 == 7 + 202 + 7 + 8 + 7);
    /* The caller says which form is written: form 1 has the same bytes as ever. */
    CHECK(ref_sheet_write(image, bytes, written, sizeof written) == ANSWER(0, 202) && memcmp(written, example, 202) == 0);
    /* KEEP empties the list. */
    CHECK(play("KEEP") == 0 && remembers("form=2\n" EXAMPLE "undo=0\n"));
    /* An entry holds what stands already where nothing altered. */
    fresh();
    CHECK(play("SET/70/5") == 0 && play("SET/135/0") == 0);
    CHECK(remembers("form=2\nseries=TPS100\n" SETTINGS_OF_FACTORY NEVER_PUT "undo=2\nu=s70:5\nu=s135:0\n"));
    play_trial();
    CHECK(remembers(trial_2));
    /* "31, then 30", and 31 tells 0 */
    memcpy(whole, image, sizeof whole);
    image[142] = 10;
    CHECK(ref_sheet_write_2(image, bytes, written, 0) == ANSWER(31, 0));
    CHECK(ref_sheet_write_2(image, bytes, written, 1900) == ANSWER(31, 0));
    memcpy(image, whole, sizeof whole);
    CHECK(ref_sheet_write_2(image, bytes - 1, written, 1900) == ANSWER(31, 0));
    CHECK(ref_sheet_write_2(image, bytes, written, 0) == ANSWER(30, 0));
}

/* "Both forms load": the image is the one that was written, whatever stood in the other. */
static void check_loaded_2(void)
{
    uint8_t whole[1039];
    size_t n = sizeof trial_2 - 1;

    play_trial();
    memcpy(whole, image, sizeof whole);
    fresh();
    CHECK(load(trial_2, n) == 0 && memcmp(image, whole, sizeof whole) == 0 && remembers(trial_2));
    /* Over a longer list, which goes. */
    fresh();
    for (int i = 0; i < 64; i++)
        CHECK(play("PUT/16....+PNC0058A ") == 0);
    CHECK(load(trial_2, n) == 0 && memcmp(image, whole, sizeof whole) == 0);
    /* Form 1 loads as before, with no entry. */
    CHECK(load(example, sizeof example - 1) == 0 && play("UNDO") == 29);
    CHECK(remembers("form=2\n" EXAMPLE "undo=0\n"));
    /* The image's own bytes: the list in its order, and 0 past it. */
    CHECK(load(example_2, sizeof example_2 - 1) == 0 && image[141] == 0 && image[142] == 2);
    CHECK(memcmp(image + 143, "\1\0\0\0\0\0\0\0\0\0\0\0\0\0\2\12\0\0\0\0\0\0\0\0\0\0\0\0", 28) == 0);
    CHECK(only(image + 171, 0, 1039 - 171));

    /* The trial goes on: each entry taken back, newest first, "restoring "never put" too". */
    CHECK(load(trial_2, n) == 0 && play("CONF/40") == 0 && replied("0040/0001\r\n"));
    CHECK(play("UNDO") == 0 && play("CONF/40") == 0 && replied("0040/0001\r\n") && play("GET/I/WI24") == 0);
    CHECK(replied("24..14-35959599 \r\n") && play("UNDO") == 0 && play("GET/I/WI24") == 27);
    CHECK(play("GET/I/WI11") == 0 && replied("11....+!~!~!~!~ \r\n") && play("UNDO") == 0);
    CHECK(play("GET/I/WI11") == 0 && replied("11....+PNC0058A \r\n") && play("UNDO") == 0 && play("GET/I/WI11") == 27);
    CHECK(play("GET/I/WI88") == 0 && replied("88..11-00000000 \r\n") && play("UNDO") == 0);
    CHECK(play("GET/I/WI88") == 0 && replied("88..10-00000000 \r\n") && play("UNDO") == 0);
    CHECK(play("GET/I/WI88") == 0 && replied("88..10+00001550 \r\n") && play("UNDO") == 0 && play("GET/I/WI88") == 27);
    CHECK(play("CONF/40") == 0 && replied("0040/0001\r\n") && play("UNDO") == 0);
    CHECK(play("CONF/40") == 0 && replied("0040/0002\r\n") && play("UNDO") == 0);
    CHECK(play("CONF/40") == 0 && replied("0040/0000\r\n") && play("UNDO") == 29 && remembers(least_2));
    /* "A loaded list counts as lines accepted since the last KEEP": lines after it add to it, and go before it. */
    CHECK(load(example_2, sizeof example_2 - 1) == 0 && play("SET/73/0") == 0 && replied("?\r\n"));
    CHECK(remember() == sizeof example_2 - 1 + 8);
    CHECK(memcmp(written + written_bytes - 30, "undo=3\nu=s30:0\nu=v88:\nu=s73:1\n", 30) == 0);
    CHECK(play("UNDO") == 0 && replied("?\r") && play("UNDO") == 0 && replied("?\r\n") && play("GET/I/WI88") == 27);
    CHECK(play("PUT/88...1+00000001 ") == 0 && play("UNDO") == 0 && play("UNDO") == 0 && play("UNDO") == 29 && remembers(least_2));
    CHECK(load(example_2, sizeof example_2 - 1) == 0 && play("KEEP") == 0 && play("UNDO") == 29 && play("GET/I/WI88") == 0);
    /* 64 from the factory on, the oldest of a value never put. */
    fresh();
    for (int i = 0; i < 64; i++)
        CHECK(play(i % 2 ? "PUT/88...0+00000000 " : "PUT/87...1-00000000 ") == 0);
    remember();
    fresh();
    CHECK(load((const char *)written, written_bytes) == 0 && image[142] == 64 && play("SET/30/1") == 28 && play("UNDO") == 0);
    CHECK(play("SET/30/1") == 0 && play("SET/30/1") == 28 && play("UNDO") == 0);
    for (int i = 0; i < 63; i++)
        CHECK(play("UNDO") == 0);
    CHECK(play("UNDO") == 29 && remembers(least_2));
    /* 63 loaded, one more, and 28. */
    fresh();
    for (int i = 0; i < 63; i++)
        CHECK(play(i % 2 ? "SET/30/0" : "SET/30/1") == 0);
    remember();
    fresh();
    CHECK(load((const char *)written, written_bytes) == 0 && play("SET/32/3") == 0);
    CHECK(play("SET/32/2") == 28 && play("PUT/11....+00000000 ") == 28);
    CHECK(play("UNDO") == 0 && play("PUT/11....+00000000 ") == 0 && play("PUT/11....+00000000 ") == 28);
    for (int i = 0; i < 64; i++)
        CHECK(play("UNDO") == 0);
    CHECK(play("UNDO") == 29 && remembers(least_2));
}

static const char *const wrong_counts[] = {
    "undo=", "undo=00", "undo=02", "undo=002", "undo=65", "undo=065", "undo=064", "undo=66", "undo=100", "undo=258", "undo=65538",
    "undo=4294967298", "undo=18446744073709551618", "undo=2 ", "undo=2x", "undo= 2", "undo=+2", "undo=-0", "undo=2.", "undo=2\r",
    "undo=two", "undo", "undo:2", "undo==2", "Undo=2", "UNDO=2", "undo =2", " undo=2", "u=2", "undos=2", "", "u=s30:0",
};

static const char *const wrong_entries[] = {
    /* the key */
    "", "u", "u=", "u=s", "u=v", "u=s30", "u=v88", "u=:", "u=s:0", "u=v:", "u=30:0", "u=88:", "s30=0", "v88=", "s30:0", "v88:",
    "us30:0", "U=s30:0", "u=S30:0", "u=V88:", "u:s30:0", "u=s30=0", "u=v88=", "u=s30;0", "u=s30 0", "u=u=s30:0", "u==s30:0",
    "undo=2", "form=2", " u=s30:0", "u= s30:0", "u=s 30:0", "u=s30 :0", "u=x30:0",
    /* a number that the series doesn't have, or that isn't in fewest digits */
    "u=s0:0", "u=s1:0", "u=s31:0", "u=s33:0", "u=s42:0", "u=s90:0", "u=s137:0", "u=s161:0", "u=s030:0", "u=s0030:0", "u=s286:0",
    "u=s65566:0", "u=s+30:0", "u=s-30:0", "u=s3:0", "u=s300:0", "u=s3a:0",
    /* a parameter that it doesn't take, or that isn't in fewest digits */
    "u=s30:", "u=s30:2", "u=s30:00", "u=s30:01", "u=s30:001", "u=s40:3", "u=s70:6", "u=s30:256", "u=s30:257", "u=s30:65536",
    "u=s30:+0", "u=s30:-0", "u=s30: 0", "u=s30:0 ", "u=s30:0\r", "u=s30:0:0", "u=s30:a", "u=s30:0a", "u=s30:.",
    /* an index that is no stored value */
    "u=v12:", "u=v22:", "u=v31:", "u=v51:", "u=v58:", "u=v81:", "u=v82:", "u=v89:", "u=v00:", "u=v8:", "u=v888:", "u=v088:",
    "u=v8a:", "u=v30:0", "u=s88:", "u=s88:0", "u=v88:0", "u=v 88:", "u=v88 :",
    /* what isn't the 15 characters that GET/I gives of what a PUT can leave */
    "u=v88: ", "u=v88:\r", "u=v88::", "u=v88:88...0+00001550", "u=v88:88..10+00001550 ", "u=v88:88..10+0000155",
    "u=v88:88..10+000015500", "u=v88:87..10+00001550", "u=v87:88..10+00001550", "u=v88:88..12+00001550", "u=v88:88..16+00001550",
    "u=v88:88..1.+00001550", "u=v88:88..00+00001550", "u=v88:88.110+00001550", "u=v88:881.10+00001550", "u=v88:88..10 00001550",
    "u=v88:88..10*00001550", "u=v88:88..10+0000155a", "u=v88:88..10+0000155 ", "u=v88:88..10+0000000000001550",
    "u=v88:*88..10+00001550", "u=v88:.", "u=v11:11....-PNC0058A", "u=v11:11....+PNC0058 ", "u=v11:11....+PNC0058\177",
    "u=v11:11..1.+PNC0058A", "u=v11:110001+PNC0058A", "u=v11:16....+PNC0058A", "u=v21:21..12+40000000", "u=v21:21..13+36000000",
    "u=v21:21..14+36000000", "u=v21:21..14+00060000", "u=v21:21..14-00000600", "u=v21:21..15+00000000", "u=v21:21..10+00000000",
    "u=v21:21.112+00000000", "u=v34:34..12+00000000",
};

/* Each refusal of a sheet of form 2 with its place. */
static void check_refused_2(void)
{
    size_t n = sizeof example_2 - 1, undo = line_of(example_2, "undo="), oldest = line_of(example_2, "u=s30"), at = 0;
    size_t newest = line_of(example_2, "u=v88");

    fresh();
    CHECK(play("PUT/24...2+00000001 ") == 0 && play("SET/30/1") == 0);
    given = example_2;
    CHECK(undo == 209 && oldest == 216 && newest == 224 && n == 231);
    /* Cut at each byte, loaded and moved back. */
    for (size_t cut = 0; cut < n; cut++) {
        CHECK(load(example_2, cut) == ANSWER(40, at) && back_in(example_2, cut, SHEET_ROOM) == ANSWER(40, at));
        if (example_2[cut] == '\n')
            at = cut + 1;
    }
    /* The form's line: any other is a form 1 that is wrong at 0, and the way back takes exactly form 2. */
    CHECK(wrong_with(0, 6, "form=1", 0) && wrong_with(0, 6, "form=3", 0));
    CHECK(wrong_with(0, 6, "form=02", 0) && wrong_with(0, 6, "form=", 0));
    CHECK(wrong_with(0, 6, "Form=2", 0) && wrong_with(0, 6, "form=2 ", 0));
    CHECK(wrong_with(0, 6, "form=2\r", 0) && wrong_with(0, 6, "form:2", 0));
    CHECK(wrong_with(0, 7, "form=2", 0) && wrong_with(0, 7, "form=2 series=TPS100\n", 0));
    CHECK(wrong_with(0, 6, "", 0) && wrong_with(0, 6, "form=20", 0));
    CHECK(wrong_with(0, 0, "\n", 0) && wrong_with(0, 0, "form=2\n", 7) && wrong_with(0, 0, "undo=0\n", 0));
    /* Without its line, the rest is a form 1 with surplus lines. */
    CHECK(load(example_2 + 7, n - 7) == ANSWER(40, undo - 7));
    CHECK(moving(example_2 + 7) == ANSWER(40, undo - 7) && going_back(example_2 + 7) == ANSWER(40, 0));
    /* 106: "A sheet of the other series is 40 at its `series=` line." A move takes either; what names neither is wrong there. */
    CHECK(load("form=2\n", 7) == ANSWER(40, 7) && going_back("form=2\n") == ANSWER(40, 7));
    CHECK(load_with(14, 6, "TPS300") == ANSWER(40, 7) && wrong_with(14, 6, "TPS700", 7));
    CHECK(wrong_with(14, 6, "TPS10", 7) && wrong_with(7, 0, "\n", 7));
    CHECK(wrong_with(14, 6, "TPS101", 7) && wrong_with(14, 6, "TPS1000", 7));
    CHECK(wrong_with(14, 6, "tps100", 7) && wrong_with(14, 6, "", 7));
    CHECK(wrong_with(7, 14, "", 7) && wrong_with(7, 0, "series=TPS100\n", 21));
    CHECK(wrong_with(20, 0, "\r", 7) && wrong_with(7, 0, "form=2\n", 7));
    /* Form 1's lines, as in form 1. */
    CHECK(wrong_line("s30=", "s30=2") && wrong_line("s30=", "s30=01") && wrong_line("s136=", "s136=") && wrong_line("v11=", "v11=0"));
    CHECK(wrong_line("v88=", "v88=88...0+00001550") && wrong_line("v88=", "v87=") && wrong_line("v88=", "v88=88..10+0000155"));
    CHECK(wrong_with(undo - 20, 20, "", undo - 20) && wrong_with(undo, 0, "v88=\n", undo));
    /* The count. "no leading zero"; "a count above the list's size is wrong at its line" */
    for (size_t i = 0; i < sizeof wrong_counts / sizeof *wrong_counts; i++)
        CHECK(wrong_line("undo=", wrong_counts[i]));
    CHECK(wrong_with(undo, 7, "", undo) && wrong_with(undo, 0, "undo=2\n", oldest));
    /* Too high: where the next line should start. Too low: the surplus line. */
    CHECK(wrong_with(undo + 5, 1, "3", n) && wrong_with(undo + 5, 1, "64", n + 1));
    CHECK(wrong_with(undo + 5, 1, "1", newest) && wrong_with(undo + 5, 1, "0", oldest));
    CHECK(wrong_with(n, 0, "u=v88:\n", n) && wrong_with(n, 0, "\n", n) && wrong_with(n, 0, "x", n) && wrong_with(n, 0, "undo=0\n", n));
    CHECK(wrong_with(oldest, 8, "", n - 8) && wrong_with(newest, 7, "", newest) && wrong_with(oldest, 0, "u=s30:0\n", newest + 8));
    CHECK(wrong_with(n - 1, 1, "", newest) && wrong_with(n, 0, example, n));
    /* The entries' lines, wrong at their own place, whichever of the two it is. */
    for (size_t i = 0; i < sizeof wrong_entries / sizeof *wrong_entries; i++)
        CHECK(wrong_line("u=s30:", wrong_entries[i]) && wrong_line("u=v88:", wrong_entries[i]));
    /* A refused load changes nothing, however late its fault, which load sees to: the image's settings and values are others. */
    given = trial_2;
    CHECK(wrong_line("u=v24:", "u=v24") && wrong_line("u=s40:1", "u=s40:3") && wrong_line("v88=", "v88=0"));
    CHECK(wrong_with(line_of(trial_2, "u=s40:0"), 7, "u=v16:", line_of(trial_2, "undo=")));
    CHECK(wrong_with(strlen(trial_2), 0, "\n", strlen(trial_2)));
    given = example_2;
    /* Right ones: each a list that a state has, since 88 is put. */
    CHECK(load_with(newest, 6, "u=v88:88..11-99999999") == 0 && play("UNDO") == 0);
    CHECK(play("GET/I/WI88") == 0 && replied("88..11-99999999 \r\n"));
    CHECK(load_with(newest, 6, "u=s136:1") == 0 && load_with(oldest, 7, "u=s70:0") == 0 && load_with(oldest, 7, "u=s32:3") == 0);
    CHECK(load_with(undo, n - undo, "undo=1\nu=v88:\n") == 0 && load_with(undo, n - undo, "undo=0\n") == 0 && play("UNDO") == 29);
    /* "Order: 31 (telling 0), then 40" */
    CHECK(ref_sheet_load(image, bytes - 1, (const uint8_t *)example_2, n) == ANSWER(31, 0));
    CHECK(ref_sheet_load(image, bytes - 1, (const uint8_t *)example_2, 0) == ANSWER(31, 0));
    image[142] = 1;
    CHECK(load(example_2, n) == ANSWER(31, 0) && load(example_2, n - 1) == ANSWER(31, 0) && load(example_2, 0) == ANSWER(31, 0));
    given = example;
}

/* "taken back newest first, none names a value then never put": else 40 "at `undo=` where each line is right but no state has that
   list". 40 comes before 41 on the way back. */
static void check_lists(void)
{
    static const struct { const char *list; int stands; } lists_of_88[] = {
        /* 88 is put and the others aren't */
        {"undo=0\n", 1},
        {"undo=1\nu=v88:\n", 1},
        {"undo=1\nu=v88:88..10+00001550\n", 1},
        {"undo=1\nu=v87:\n", 0},
        {"undo=1\nu=v87:87..10+00001550\n", 0},
        {"undo=1\nu=v11:11....+PNC0058A\n", 0},
        {"undo=2\nu=v88:\nu=v88:\n", 0},
        {"undo=2\nu=v88:88..10+00000000\nu=v88:\n", 0},
        {"undo=2\nu=v88:\nu=v88:88..10+00000000\n", 1},
        {"undo=3\nu=v88:\nu=s30:0\nu=v88:\n", 0},
        {"undo=3\nu=v88:\nu=v88:88..10+00000000\nu=v88:88..10+00000000\n", 1},
        {"undo=3\nu=v88:\nu=v88:\nu=v88:88..10+00000000\n", 0},
        {"undo=3\nu=v88:88..10+00000000\nu=v88:\nu=v88:88..10+00000000\n", 0},
        {"undo=2\nu=v88:88..10+00001550\nu=v87:\n", 0},
        {"undo=2\nu=v87:\nu=v88:88..10+00001550\n", 0},
        {"undo=2\nu=s30:1\nu=s30:1\n", 1},
        {"undo=4\nu=s30:1\nu=v88:\nu=s136:0\nu=s30:0\n", 1},
    };
    char sheet[2500];
    size_t undo = line_of(example_2, "undo="), n;

    fresh();
    CHECK(play("SET/30/1") == 0);
    for (size_t i = 0; i < sizeof lists_of_88 / sizeof *lists_of_88; i++) {
        const char *list_of = lists_of_88[i].list;
        memcpy(sheet, example_2, undo);
        memcpy(sheet + undo, list_of, strlen(list_of) + 1);
        n = strlen(sheet);
        CHECK(load(sheet, n) == (lists_of_88[i].stands ? 0 : ANSWER(40, undo)));
        if (!lists_of_88[i].stands)
            CHECK(back_in(sheet, n, SHEET_ROOM) == ANSWER(40, undo) && back_in(sheet, n, 0) == ANSWER(40, undo));
        else if (list_of[5] != '0')
            CHECK(back_in(sheet, n, SHEET_ROOM) == ANSWER(41, undo) && back_in(sheet, n, 0) == ANSWER(41, undo) && remembers(sheet));
        else
            CHECK(back_in(sheet, n, SHEET_ROOM) == ANSWER(0, undo - 7) && back_in(sheet, n, 0) == ANSWER(30, 0));
        CHECK(move_in(sheet, n, SHEET_ROOM) == ANSWER(40, 0));
        if (lists_of_88[i].stands || list_of[5] != '2')
            continue;
        /* "a wrong or surplus line anywhere comes before a list that no state has" */
        given = sheet;
        CHECK(wrong_with(7 + 14 + 4, 1, "2", 21) && wrong_with(n, 0, "\n", n));
        CHECK(wrong_with(n, 0, "u=s30:0\n", n) && wrong_with(n, 0, "x", n));
        CHECK(wrong_with(undo + 5, 1, "3", n) && wrong_with(undo + 5, 1, "02", undo) && wrong_with(undo + 7, 0, "u=s90:0\n", undo + 7));
        CHECK(wrong_with(n, 0, "u=s90:0\n", n));
    }
    given = example;
    /* The value put in the sheet's own line decides for its newest entry. */
    memcpy(sheet, least_2, 194);
    memcpy(sheet + 194, "undo=1\nu=v88:\n", 15);
    CHECK(load(sheet, 208) == ANSWER(40, 194) && going_back(sheet) == ANSWER(40, 194));
    /* An image with such a list is no state either. */
    fresh();
    image[142] = 1;
    image[143] = 2;
    image[144] = 10;
    CHECK(ref_sheet_write_2(image, bytes, written, sizeof written) == ANSWER(31, 0));
}

/* 106: "Old sheets move to the new form with `undo=0`. The way back gives the old bytes exactly when the count is 0." */
static void check_moves(void)
{
    static const char *const old[] = {example, least_300, greatest_300};
    size_t n;

    for (size_t i = 0; i < 3; i++) {
        char both[2500];
        n = strlen(old[i]);
        for (size_t short_room = 0; short_room < n + 14; short_room++)
            CHECK(move_in(old[i], n, short_room) == ANSWER(30, 0));
        CHECK(move_in(old[i], n, n + 14) == ANSWER(0, n + 14) && move_in(old[i], n, n + 15) == ANSWER(0, n + 14));
        CHECK(memcmp(moved, "form=2\n", 7) == 0 && memcmp(moved + 7, old[i], n) == 0 && memcmp(moved + 7 + n, "undo=0\n", 7) == 0);
        memcpy(both, moved, n + 14);
        both[n + 14] = 0;
        /* Loaded, the two say the same. */
        if (i == 0)
            fresh();
        else
            fresh_300();
        CHECK(load(old[i], n) == 0 && remembers(both) && load(both, n + 14) == 0 && remembers(both) && play("UNDO") == 29);
        for (size_t short_room = 0; short_room < n; short_room++)
            CHECK(back_in(both, n + 14, short_room) == ANSWER(30, 0));
        CHECK(back_in(both, n + 14, n) == ANSWER(0, n));
        CHECK(back_in(both, n + 14, n + 1) == ANSWER(0, n) && memcmp(moved, old[i], n) == 0);
        /* Each takes exactly its form. */
        CHECK(move_in(both, n + 14, SHEET_ROOM) == ANSWER(40, 0) && move_in(both, n + 14, 0) == ANSWER(40, 0));
        CHECK(back_in(old[i], n, SHEET_ROOM) == ANSWER(40, 0) && back_in(old[i], n, 0) == ANSWER(40, 0));
        CHECK(move_in(both, 7, SHEET_ROOM) == ANSWER(40, 0));
        CHECK(move_in(old[i], 0, 0) == ANSWER(40, 0) && back_in(old[i], 0, 0) == ANSWER(40, 0));
        /* Form 1 cut, and with surplus bytes. */
        for (size_t cut = 0, at = 0; cut < n; cut++) {
            CHECK(move_in(old[i], cut, SHEET_ROOM) == ANSWER(40, at));
            if (old[i][cut] == '\n')
                at = cut + 1;
        }
        memcpy(both, old[i], n);
        memcpy(both + n, "undo=0\n", 8);
        CHECK(moving(both) == ANSWER(40, n) && load(both, n + 7) == ANSWER(40, n) && going_back(both) == ANSWER(40, 0));
        /* "takes exactly form 1 (of either series)": the other's line before this one's lines, and a line of neither. */
        memcpy(both + 7, i ? "TPS100" : "TPS300", 6);
        CHECK(move_in(both, n, SHEET_ROOM) == ANSWER(40, 14) && back_in(both, n, SHEET_ROOM) == ANSWER(40, 0));
        memcpy(both + 7, "TPS700", 6);
        CHECK(move_in(both, n, SHEET_ROOM) == ANSWER(40, 0));
    }
    /* 41 tells the start of the `undo=` line, whatever the room: "then 41 for the way back with a count above 0, then 30". */
    n = sizeof example_2 - 1;
    for (size_t some_room = 0; some_room < n + 2; some_room++)
        CHECK(back_in(example_2, n, some_room) == ANSWER(41, 209));
    CHECK(going_back(trial_2) == ANSWER(41, line_of(trial_2, "undo=")));
}

/* 106: "Either series." Read-only settings "have no undo entries"; "the sheet keeps eight characters". */
static void check_sheets_2_of_300(void)
{
    static const char list_300[] = "undo=5\nu=s161:0\nu=v88:\nu=s137:0\nu=v88:88..10+00001550\nu=s55:1\n";
    char sheet[2500], line[40];
    size_t undo, n;

    fresh_300();
    CHECK(play("SET/161/9") == 0 && play("PUT/88...0+00001550 ") == 0 && play("SET/137/1") == 0 && play("PUT/88...1-00000000 ") == 0);
    CHECK(play("SET/55/10") == 0);
    n = remember();
    undo = n - strlen(list_300);
    CHECK(memcmp(written, "form=2\nseries=TPS300\ns41=0\n", 27) == 0 && memcmp(written + undo, list_300, n - undo) == 0);
    CHECK(memcmp(written + undo - 20, "v88=88..11-00000000\n", 20) == 0 && n == 7 + 263 + 15 + 1 + strlen(list_300));
    memcpy(sheet, written, n + 1);
    fresh_300();
    CHECK(load(sheet, n) == 0 && remembers(sheet) && play("GET/I/WI88") == 0 && replied("*88..11-0000000000000000 \r"));
    CHECK(play("UNDO") == 0 && play("CONF/55") == 0 && replied("0055/0001\r") && play("UNDO") == 0 && play("GET/I/WI88") == 0);
    CHECK(replied("*88..10+0000000000001550 \r") && play("UNDO") == 0 && play("GET/I/WI88") == 0 && replied("88..10+00001550 \r"));
    CHECK(play("UNDO") == 0 && play("GET/I/WI88") == 27 && play("UNDO") == 0 && play("CONF/161") == 0 && replied("0161/0000\r"));
    CHECK(play("UNDO") == 29);
    /* The other series' image refuses it at its `series=` line, and it another's. */
    CHECK(load(example_2, sizeof example_2 - 1) == ANSWER(40, 7) && load(least_2, sizeof least_2 - 1) == ANSWER(40, 7));
    fresh();
    CHECK(load(sheet, n) == ANSWER(40, 7) && going_back(sheet) == ANSWER(41, undo) && moving(sheet) == ANSWER(40, 0));
    given = example_2;
    fresh_300();
    CHECK(load_with(14, 6, "TPS300") == ANSWER(40, 21));
    given = sheet;
    CHECK(wrong_with(undo + 7, 0, "u=s30:0\n", undo + 7) && load_with(14, 6, "TPS100") == ANSWER(40, 7));
    /* Each setting's entry with each parameter; of a read-only setting none is right. */
    for (size_t i = 0; i < ROWS; i++)
        for (unsigned parameter = 0; parameter <= 260; parameter++) {
            snprintf(line, sizeof line, "u=s%u:%u", conf_list[i].number, parameter);
            if (is_asked_only(conf_list[i].number) || !lists(conf_list[i].parameters, parameter)) {
                CHECK(wrong_line("u=s161:", line) && wrong_line("u=s55:", line));
            } else {
                CHECK(load_with(undo + 7, 8, line) == 0 && image[154] == 1 && image[155] == i && image[156] == parameter);
            }
        }
    given = example;
}

/* Form 2 of a TPS100 has 201 to 1,775 bytes, of a TPS300 277 to 1,864: to form 1's bytes come `form=2`, the count and, at the most, 64
   entries of values that were put. */
static void check_sizes_2(void)
{
    static const char *const words[] = {"11....+PNC0058A", "16....+!~!~!~!~", "21...2-39999999", "24...4+35959599", "34...0-00000000",
                                        "83...1+99999999", "84...0+00100000", "85...1-00100000", "86...0+00045000", "87...0+00001700",
                                        "88...0+00001500"};
    char line[40];

    for (unsigned of = 0; of < 2; of++) {
        size_t least = of ? 277 : 201, greatest = of ? 1864 : 1775;
        if (of)
            fresh_300();
        else
            fresh();
        CHECK(remember() == least);
        CHECK(ref_sheet_write_2(image, bytes, written, least - 1) == ANSWER(30, 0));
        if (of)
            CHECK(load(greatest_300, 441) == 0);
        for (int i = 0; i < 11; i++) {
            snprintf(line, sizeof line, "PUT/%s ", words[i]);
            CHECK(play(line) == 0);
        }
        /* The 11 entries of values never put are the shortest of the values'. */
        CHECK(remember() == greatest - 64 * 22 + 11 * (of ? 22 : 7));
        CHECK(play("KEEP") == 0 && remember() == greatest - 64 * 22 - 1);
        for (int i = 0; i < 64; i++) {
            snprintf(line, sizeof line, "PUT/%s ", words[i % 11]);
            CHECK(play(line) == 0);
        }
        CHECK(play("SET/73/1") == 28 && remember() == greatest);
        CHECK(ref_sheet_write_2(image, bytes, moved, greatest - 1) == ANSWER(30, 0));
        CHECK(ref_sheet_write_2(image, bytes, moved, greatest) == ANSWER(0, greatest));
        if (of)
            fresh_300();
        else
            fresh();
        CHECK(load((const char *)written, greatest) == 0 && remember() == greatest && memcmp(written, moved, greatest) == 0);
        CHECK(play("SET/73/1") == 28);
        /* A 65th line, counted or not. */
        given = (const char *)written;
        CHECK(wrong_with(greatest, 0, "u=s73:1\n", greatest) && wrong_line("undo=", "undo=65") && wrong_line("undo=", "undo=064"));
        CHECK(wrong_with(line_of(given, "undo=") + 5, 2, "63", greatest - 22));
        given = example;
    }
}

/* Places in a PUT, and keywords */

/* 26 with the rule that is broken and the byte of the line; at TPS100's factory the reply is 7 bytes, at TPS300's 6. */
#define BROKEN(which, byte) ANSWER(26, (bytes == 1039 ? 7u : 6u) | (uint64_t)(which) << 16 | (uint64_t)(byte) << 24)
#define TOLD(number) ANSWER(number, bytes == 1039 ? 7 : 6)

/* Plays the line with CR LF and answers all that it tells. */
static uint64_t play_all(const char *body)
{
    char line[400];
    size_t n = strlen(body);
    memcpy(line, body, n);
    memcpy(line + n, "\r\n", 2);
    return play_in(line, n + 2, 459);
}

/* 104: "26 tells which of 6 to 10 it was and the byte in the line, from 0 (`PUT/` is four bytes)." "The unit of a stored value
   belongs to 6." Dots stand at 3-5, of text at 3-6. Position p of the word is byte p + 3 of the line. */
static const struct { const char *line; unsigned which, byte; } broken[] = {
    {"PUT/88..10+00001550 ", 6, 8}, {"PUT/88.1.0+00001550 ", 6, 7}, {"PUT/881..0+00001550 ", 6, 6}, {"PUT/88...6+00001550 ", 6, 9},
    {"PUT/88...2+00001550 ", 6, 9}, {"PUT/88....+00001550 ", 6, 9}, {"PUT/88...x+00001550 ", 6, 9}, {"PUT/88x..x*xxxxxxxxx", 6, 6},
    {"PUT/88.x.x*xxxxxxxxx", 6, 7}, {"PUT/88..xx*xxxxxxxxx", 6, 8}, {"PUT/88...x*xxxxxxxxx", 6, 9}, {"PUT/88xxxx*xxxxxxxxx", 6, 6},
    {"PUT/34..00+00001550 ", 6, 8}, {"PUT/83...7+00001550 ", 6, 9}, {"PUT/84...8+00001550 ", 6, 9}, {"PUT/85.../+00001550 ", 6, 9},
    {"PUT/86 ..0+00001550 ", 6, 6}, {"PUT/87. .0+00001550 ", 6, 7},
    {"PUT/21...5+00001550 ", 6, 9}, {"PUT/21...1+00001550 ", 6, 9}, {"PUT/21....+00001550 ", 6, 9}, {"PUT/21.1.2+00001550 ", 6, 7},
    {"PUT/21.102+00001550 ", 6, 7}, {"PUT/24..02+00001550 ", 6, 8}, {"PUT/24..05+99999999 ", 6, 8}, {"PUT/24...5+99999999x", 6, 9},
    {"PUT/210..2+00001550 ", 6, 6},
    {"PUT/11...0+00001550 ", 6, 9}, {"PUT/110000+00001550 ", 6, 6}, {"PUT/110014+00001550 ", 6, 6}, {"PUT/11.0..+00001550 ", 6, 7},
    {"PUT/11..0.+00001550 ", 6, 8}, {"PUT/11x...+00001550 ", 6, 6}, {"PUT/11.014+00001550 ", 6, 7}, {"PUT/11...x-        x", 6, 9},
    {"PUT/16..1.+00001550 ", 6, 8}, {"PUT/16.1..+00001550 ", 6, 7}, {"PUT/16...9+00001550 ", 6, 9}, {"PUT/160...+00001550 ", 6, 6},
    {"PUT/88...0*00001550 ", 7, 10}, {"PUT/88...000001550  ", 7, 10}, {"PUT/88...0*xxxxxxxxx", 7, 10}, {"PUT/11....-00001550 ", 7, 10},
    {"PUT/16....-       xx", 7, 10}, {"PUT/21...2 99999999x", 7, 10},
    {"PUT/83...0+000A5320 ", 8, 14}, {"PUT/88...0+x0001550 ", 8, 11}, {"PUT/88...0-0000155xx", 8, 18}, {"PUT/88...0+00x0x550 ", 8, 13},
    {"PUT/21...2+4000000x ", 8, 18}, {"PUT/24...4+9x999999x", 8, 12}, {"PUT/34...1+0000 550 ", 8, 15}, {"PUT/88...0+0001-550 ", 8, 15},
    {"PUT/11....+ 0001550 ", 8, 11}, {"PUT/11....+0000155  ", 8, 18}, {"PUT/16....+000\17715 0 ", 8, 14}, {"PUT/16....+00001 50x", 8, 16},
    {"PUT/88...0+00001550x", 9, 19}, {"PUT/88...0-00000000.", 9, 19}, {"PUT/21...2+40000000x", 9, 19}, {"PUT/11....+000015500", 9, 19},
    {"PUT/24...4+00060000\t", 9, 19},
    {"PUT/21...2+40000000 ", 10, 11}, {"PUT/21...2-40000000 ", 10, 11}, {"PUT/21...3+36000000 ", 10, 11}, {"PUT/24...4+36000000 ", 10, 11},
    {"PUT/24...4-00060000 ", 10, 11}, {"PUT/24...4+00000600 ", 10, 11}, {"PUT/24...2+99999999 ", 10, 11},
};

/* The stored values with each of their units. */
static const char *const stored_words[] = {
    "11....+PNC0058A", "16....+!~!~!~!~", "21...2+39999999", "21...3-00000000", "21...4+35959599", "24...2-00000001", "24...3+35999999",
    "24...4+00000000", "34...0+00001550", "34...1-00001550", "83...0+00000000", "83...1-00000000", "84...0+99999999", "84...1+00001550",
    "85...0-99999999", "85...1+00001550", "86...0+00001550", "86...1+00001550", "87...0+00001550", "87...1+00001550", "88...0+00001550",
    "88...1-00001550"};

/* Each value of each of a PUT word's 16 positions. */
static void check_every_put(const char *stored_word)
{
    uint8_t before[1060];
    char put[] = "PUT/................\r\n";
    int is_text = stored_word[0] == '1', is_angle = stored_word[0] == '2';
    size_t wrong = 0;

    memcpy(before, image, sizeof image);
    memcpy(put + 4, stored_word, 15);
    put[19] = ' ';
    for (size_t at = 4; at < 20; at++) {
        char old = put[at];
        for (int b = 0; b < 256; b++) {
            uint64_t got, asked = ANSWER(0, bytes == 1039 ? 3 : 2);
            int digit = in(DIGITS, b), any = 0;
            put[at] = (char)b;
            memcpy(image, before, sizeof image);
            got = play_in(put, 22, 459);
            if (b == '\r' || b == '\n')
                asked = TOLD(20);
            else if (at < 6 && !in_list("11 16 21 24 34 83 84 85 86 87 88", put + 4, 2))
                asked = TOLD(25);
            else if (at < 6)
                any = 1;
            else if (at < 9 && b != '.')
                asked = BROKEN(6, at);
            else if (at == 9 && !in(is_text ? "." : is_angle ? "234" : "01", b))
                asked = BROKEN(6, 9);
            else if (at == 10 && b != '+' && (b != '-' || is_text))
                asked = BROKEN(7, 10);
            else if (at > 10 && at < 19 && (is_text ? b < 33 || b > 126 : !digit))
                asked = BROKEN(8, at);
            else if (at == 19 && b != ' ')
                asked = BROKEN(9, 19);
            /* Another value's index, and an angle's unit or digits: right, or out of range. */
            if (any || (is_angle && (at == 9 || at > 10) && asked >> 32 == 0))
                wrong += got != asked && (at < 6 ? got >> 32 != 26 : got != BROKEN(10, 11));
            else
                wrong += got != asked;
        }
        put[at] = old;
    }
    memcpy(image, before, sizeof image);
    if (wrong) {
        printf("%.20s: %u wrong\n", put, (unsigned)wrong);
        failures++;
    }
}

static void check_put_places(void)
{
    char line[] = "PUT/88...0+00001550 \r";

    for (int series = 0; series < 2; series++) {
        series ? fresh_300() : fresh();
        for (size_t i = 0; i < sizeof broken / sizeof *broken; i++) {
            CHECK(strlen(broken[i].line) == 20);
            if (play_all(broken[i].line) != BROKEN(broken[i].which, broken[i].byte)) {
                printf("row %u of the PUTs: %s\n", (unsigned)i, broken[i].line);
                failures++;
            }
            CHECK(replied(series ? "@W127\r" : "@W127\r\n"));
        }
        for (size_t i = 0; i < sizeof stored_words / sizeof *stored_words; i++)
            check_every_put(stored_words[i]);

        /* 25 is judged first: "PUT whose first two characters aren't two digits of a stored value". It tells no byte. */
        CHECK(play_all("PUT/xx...0+00001550 ") == TOLD(25) && play_all("PUT/82xxxx*xxxxxxxxx") == TOLD(25));
        CHECK(play_all("PUT/12x...+00001550 ") == TOLD(25) && play_all("PUT/8x...0+00001550 ") == TOLD(25));
        CHECK(play_all("PUT/35...0+00001550 ") == TOLD(25) && play_all("PUT/*88...0+0001550 ") == TOLD(25));
        /* Nor do the others. */
        CHECK(play_all("PUT/88...0+00001550") == TOLD(39) && play_all("PIT/88...0+00001550 ") == TOLD(22));
        CHECK(play_all("GET/I/WI88") == TOLD(27) && play_all("SET/73/9") == TOLD(24) && play_all("UNDO") == TOLD(29));
        CHECK(play_all("SET/1/9") == TOLD(23) && play_all("GET/I/WI12") == TOLD(25));

        /* 30 tells 0, in the place of 26 too; 31 before all. */
        line[9] = '2';
        for (size_t room = 0; room < (series ? 6 : 7); room++)
            CHECK(play_in(line, 21, room) == ANSWER(30, 0));
        CHECK(play_in(line, 21, series ? 6 : 7) == BROKEN(6, 9) && play_in(line, 21, 400) == BROKEN(6, 9));
        CHECK(ref_line(image, bytes - 1, (const uint8_t *)line, 21, reply, 400) == ANSWER(31, 0));
        /* 26 comes before 28; what it tells doesn't hang on the list. */
        for (int i = 0; i < 64; i++)
            CHECK(play("PUT/88...0+00001550 ") == 0);
        CHECK(play_all("PUT/88...0+00001550 ") == TOLD(28) && play_all("PUT/88...0+0000155x ") == BROKEN(8, 18));
        CHECK(play_all("PUT/88...0+00001550x") == BROKEN(9, 19) && play_all("PUT/21...2+40000000 ") == BROKEN(10, 11));
        CHECK(play_in(line, 21, series ? 5 : 6) == ANSWER(30, 0));
        /* The reply's end goes by 73, and the bytes told with it: 6 where it is CR, 7 where it is CR LF. */
        CHECK(play("KEEP") == 0 && play(series ? "SET/73/1" : "SET/73/0") == 0);
        CHECK(play_all("PUT/88...2+00001550 ") == ANSWER(26, (series ? 7u : 6u) | 6u << 16 | 9u << 24));
        CHECK(replied(series ? "@W127\r\n" : "@W127\r"));
    }
}

/* 104: "22: the line starts with none of `SET`, `CONF`, `PUT`, `GET`, `UNDO`, `KEEP`. 39: it starts with one of them, and what
   follows makes none of the shapes". */
static const char *const without[] = {
    "", "S", "SE", "C", "CO", "CON", "P", "PU", "G", "GE", "U", "UN", "UND", "K", "KE", "KEE", "set/30/1", "Set/30/1", "SeT/30/1",
    "SEt/30/1", " SET/30/1", "/SET/30/1", "*SET/30/1", "0SET/30/1", "ET/30/1", "SE/30/1", "S/30/1", "SE T/30/1", "conf/70", "CONf/70",
    "CON/70", "CONV/70", "CONG/70", "COnF/70", " CONF/70", "ONF/70", "put/88...0+00001550 ", "PUt/88...0+00001550 ",
    "PU/88...0+00001550 ", "P/88...0+000001550 ", " PUT/88...0+0000155 ", "88...0+00001550 ", "get/I/WI88", "GEt/I/WI88", "GE/I/WI88",
    "GT/I/WI88", "ET/I/WI88", "/WI88", "undo", "UNDo", "UNDP", "UNOD", "UND0", " UNDO", "keep", "KEEp", "KEEQ", "KEPE", " KEEP", "?",
    "@W127", "a", "b", "c", "LET/30/1", "RESET/30/1", "*", "0", "\t", "\377", "TUP/88...0+00001550 "};
static const char *const with_wrong_remainder[] = {
    "SET", "SET/", "SET//", "SET///", "SET/30", "SET/30/", "SET/30//", "SET//1", "SET/30//1", "SET//30/1", "SET/30/1/", "SET/30/1 ",
    "SET/30/1/1", "SET/030/1", "SET/30/01", "SET/30/00", "SET/00/0", "SET/00030/1", "SET/12345/0", "SET/30/12345", "SET/30/10000",
    "SET/x/0", "SET/30/x", "SET/3x/0", "SET/30/1x", "SET/-1/0", "SET/+30/1", "SET/30/-0", "SET/30/ 1", "SET/ 30/1", "SET 30 1",
    "SET30/1", "SET.30.1", "SETTLE", "SETOUT", "SETS/30/1", "SETSET/30/1", "SETCONF/70", "SET/SET/30/1", "SET/KEEP", "SET/70",
    "SET\\30\\1", "SET ", "SET/30/1\t",
    "CONF", "CONF/", "CONF//", "CONF/070", "CONF/0070", "CONF/00", "CONF/70/", "CONF/70/5", "CONF/70 ", "CONF/ 70", "CONF/12345",
    "CONF/10000", "CONF/x", "CONF/7x", "CONF/-1", "CONF70", "CONF 70", "CONFIG/70", "CONFF/70", "CONF//70", "CONF/CONF/70", "CONFUNDO",
    "PUT", "PUT/", "PUT/8", "PUT/88...0+0000155", "PUT/88...0+00001550", "PUT/88...0+00001550  ", "PUT/88...0+0000000000001550 ",
    "PUT 88...0+00001550 ", "PUT88...0+00001550  ", "PUTT/88...0+0000155 ", "PUT//88...0+00001550 ", "PUT/12....+0000155", "PUT/ ",
    "PUTOUT", "PUT/11....+PNC0058", "PUT/88...0+00001550 x",
    "GET", "GET/", "GET/I", "GET/I/", "GET/I/W", "GET/I/WI", "GET/I/WI8", "GET/I/WI888", "GET/I/WI8x", "GET/I/WIx8", "GET/I/WI88/",
    "GET/I/WI88/W", "GET/I/WI88/WI", "GET/I/WI88/WI8", "GET/I/WI88/WI8x", "GET/I/WI88WI88", "GET/I/WI88,WI11", "GET/I/WI88 ",
    "GET/I//WI88", "GET/IWI88", "GET/I/wi88", "GET/i/WI88", "GET/M", "GET/M/WI11", "GET/M/WI88", "GET/M/WI12", "GET/J/WI88",
    "GETI/WI88", "GET/WI88", "GET I/WI88", "GET/I/W188", "GETGET/I/WI88", "GET/I/WI12/W", "GET/I/WI331",
    "UNDO1", "UNDO ", "UNDO/", "UNDO/1", "UNDOO", "UNDOUNDO", "UNDOKEEP", "UNDO0", "UNDO\t", "UNDO.",
    "KEEP1", "KEEP ", "KEEP/", "KEEP/1", "KEEPP", "KEEPKEEP", "KEEPUNDO", "KEEPER", "KEEP\t", "KEEP."};

static const char *const keywords[] = {"SET", "CONF", "PUT", "GET", "UNDO", "KEEP"};
enum { KEYWORDS = sizeof keywords / sizeof *keywords };

static int starts_with_keyword(const char *line)
{
    for (size_t i = 0; i < KEYWORDS; i++)
        if (memcmp(line, keywords[i], strlen(keywords[i])) == 0)
            return 1;
    return 0;
}

static void check_keywords(void)
{
    /* A right line of each. */
    static const char *const right_lines[] = {"SET/73/1", "CONF/103", "PUT/88...0+00001550 ", "GET/I/WI11", "UNDO", "KEEP"};
    char line[120];

    for (int series = 0; series < 2; series++) {
        uint8_t start[1060];
        series ? fresh_300() : fresh();
        for (size_t i = 0; i < sizeof without / sizeof *without; i++)
            if (play_all(without[i]) != TOLD(22)) {
                printf("a line without a keyword: %s\n", without[i]);
                failures++;
            }
        for (size_t i = 0; i < sizeof with_wrong_remainder / sizeof *with_wrong_remainder; i++)
            if (play_all(with_wrong_remainder[i]) != TOLD(39)) {
                printf("a line with a wrong remainder: %s\n", with_wrong_remainder[i]);
                failures++;
            }

        /* Each keyword's beginning, and the keyword with one byte and with two after it. */
        for (size_t k = 0; k < KEYWORDS; k++) {
            size_t n = strlen(keywords[k]);
            memset(line, 0, sizeof line);
            memcpy(line, keywords[k], n);
            for (size_t cut = 0; cut <= n; cut++) {
                memcpy(line + cut, "\r", 1);
                if (cut < n || k < 4)
                    CHECK(play_in(line, cut + 1, 459) == TOLD(cut < n ? 22 : 39));
                memcpy(line + cut, keywords[k] + cut, 1);
            }
            for (int b = 0; b < 256; b++) {
                uint64_t asked = TOLD(b == '\n' || b == '\r' ? 20 : 39);
                line[n] = (char)b;
                line[n + 1] = '\r';
                CHECK(play_in(line, n + 2, 459) == asked);
                line[n + 1] = '0';
                line[n + 2] = '\r';
                if (k != 1 || b != '/') /* CONF/0 has a shape */
                    CHECK(play_in(line, n + 3, 459) == asked);
            }
        }
        CHECK(play("CONF/0") == 23);

        /* Each byte of each right line's keyword changed; S and G make another keyword, with a wrong remainder. */
        CHECK(play("PUT/11....+PNC0058A ") == 0);
        memcpy(start, image, sizeof image);
        for (size_t k = 0; k < KEYWORDS; k++) {
            size_t n = strlen(right_lines[k]);
            memcpy(line, right_lines[k], n);
            line[n] = '\r';
            CHECK(play_in(line, n + 1, 459) >> 32 == 0);
            memcpy(image, start, sizeof image);
            for (size_t at = 0; at < strlen(keywords[k]); at++)
                for (int b = 0; b < 256; b++) {
                    char old = line[at];
                    line[at] = (char)b;
                    if (b == '\r' || b == '\n')
                        CHECK(play_in(line, n + 1, 459) == TOLD(20));
                    else if (b != old)
                        CHECK(play_in(line, n + 1, 459) == TOLD(starts_with_keyword(line) ? 39 : 22));
                    line[at] = old;
                }
        }
        CHECK(play("GET/73/1") == 39 && play("SET/I/WI11") == 39);

        /* Order: 20, 21, 22, 39, then the others. */
        memset(line, 'A', sizeof line);
        memcpy(line, "SET", 3);
        line[101] = '\r';
        CHECK(play_in(line, 102, 459) == TOLD(21) && play_in(line, 101, 459) == TOLD(20));
        line[100] = '\r';
        CHECK(play_in(line, 101, 459) == TOLD(39));
        line[0] = 'A';
        CHECK(play_in(line, 101, 459) == TOLD(22));
        CHECK(play_in("SET", 3, 459) == TOLD(20) && play_in("SET\rSET\r", 8, 459) == TOLD(20));
        CHECK(play("SET/1/00") == 39 && play("SET/1/0") == 23 && play("CONF/1/") == 39 && play("CONF/1") == 23);
        CHECK(play("SET/73/02") == 39 && play("SET/73/2") == 24 && play("GET/I/WI12/WI8x") == 39 && play("GET/I/WI12") == 25);
        CHECK(play("PUT/12....+0000155") == 39 && play("PUT/12....+00001550 ") == 25 && play("GET/I/WI16/") == 39);
        CHECK(play("KEEP") == 0 && play("UNDO ") == 39 && play("UNDO") == 29);
        for (int i = 0; i < 64; i++)
            CHECK(play(series ? "SET/73/0" : "SET/73/1") == 0);
        CHECK(play("SET/73/01") == 39 && play("SET/73/1") == 28 && play("PUT/88...0+00001550") == 39 && play("SETTLE") == 39);
        /* 30 replaces either. */
        CHECK(play_in("SETTLE\r", 7, series ? 5 : 6) == ANSWER(30, 0) && play_in("SETTLE\r", 7, 7) == TOLD(39));
        CHECK(play_in("settle\r", 7, series ? 5 : 6) == ANSWER(30, 0) && play_in("settle\r", 7, 7) == TOLD(22));
    }
    fresh_300();
    CHECK(play("SET/90/00") == 39 && play("SET/90/0") == 38 && play("SET/090/0") == 39);
    fresh();
}

int main(void)
{
    check_proved_blocks();
    check_block_slips();
    check_writer();
    check_levels();
    check_minus_nought();
    check_places();
    check_every_place();
    check_listings();
    check_mending();
    check_proved_lines();
    check_line_slips();
    check_states();
    check_sheets();
    check_minus_nought_put();
    check_ranges();
    check_lines_300();
    check_states_300();
    check_sheets_300();
    check_written_2();
    check_loaded_2();
    check_refused_2();
    check_lists();
    check_moves();
    check_sheets_2_of_300();
    check_sizes_2();
    check_put_places();
    check_keywords();
    if (failures == 0)
        printf("ok\n");
    return failures != 0;
}
