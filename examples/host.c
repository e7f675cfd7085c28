/* host.c: a small host. It reads a block and shows what stands in it, mends a printed one and tells the edits, plays four lines on the stand-in, writes the
   sheet, and goes on from one that remembers the undo list. */
#include "gsi.h"

int printf(const char *, ...);
size_t strlen(const char *);

static uint8_t image[2048];

/* Plays one line on the image and shows its reply, and for a PUT that breaks a rule which one it is and where. */
static void play(size_t n, const char *line)
{
    uint8_t reply[GSI_REPLY_MOST];
    uint64_t answer = gsi_line(image, n, (const uint8_t *)line, strlen(line), reply, sizeof reply);
    int n_reply = GSI_REPLY(answer) < 2 ? 0 : (int)GSI_REPLY(answer) - 2;
    printf("%.*s -> %u, %.*s\n", (int)strlen(line) - 1, line, GSI_NUMBER(answer), n_reply, (const char *)reply);
    if (GSI_WHICH(answer) != 0)
        printf("%*s^ %u\n", (int)GSI_BYTE(answer), "", GSI_WHICH(answer));
}

int main(void)
{
    const char *block = "110014+00000003 21.324+27952530 22.324+27000430 31..01+00265965 51..1.+0009+000 \r\n";
    gsi_word list[32];
    uint64_t answer = gsi_read((const uint8_t *)block, strlen(block), list, 32);
    if (GSI_NUMBER(answer) != 0) {
        printf("refused by %u at %u\n", GSI_NUMBER(answer), (unsigned)GSI_TOLD(answer));
        return 1;
    }
    printf("%u words in %u bytes\n", (unsigned)GSI_WORDS(answer), (unsigned)GSI_USED(answer));
    for (size_t i = 0; i < GSI_WORDS(answer); i++)
        printf("index %u, info %.4s, %c%lu\n", (unsigned)list[i].index, (const char *)list[i].info, list[i].minus ? '-' : '+', (unsigned long)list[i].size);

    /* a listing's line that a print program spoiled: three dots for four, the last blank stripped, LF alone */
    const char *printed = "410001+00000020 42...+00007142\n";
    uint8_t mended[GSI_BLOCK_MOST];
    gsi_edit edits[GSI_EDITS_MOST];
    answer = gsi_mend((const uint8_t *)printed, strlen(printed), mended, sizeof mended, edits, GSI_EDITS_MOST);
    if (GSI_NUMBER(answer) != 0) {
        printf("refused by %u at %u\n", GSI_NUMBER(answer), (unsigned)GSI_TOLD(answer));
        return 1;
    }
    for (size_t i = 0; i < GSI_EDITS(answer); i++)
        printf("a %s before byte %u\n", edits[i].kind == GSI_EDIT_DOT ? "dot" : edits[i].kind == GSI_EDIT_BLANK ? "blank" : "CR", (unsigned)edits[i].place);
    printf("%u bytes that read: %.*s\n", (unsigned)GSI_MENDED(answer), (int)GSI_MENDED(answer) - 2, (const char *)mended);

    size_t n = gsi_image_size();
    if (n > sizeof image || GSI_NUMBER(gsi_factory(image, n)) != 0)
        return 1;
    play(n, "PUT/88...0+00001550 \r");
    play(n, "GET/I/WI88\r");
    play(n, "SET/40/3\r");
    play(n, "PUT/88...0+0000A550 \r");

    uint8_t sheet[GSI_SHEET_MOST];
    answer = gsi_sheet_write(image, n, sheet, sizeof sheet);
    if (GSI_NUMBER(answer) != 0)
        return 1;
    printf("%.*s", (int)GSI_TOLD(answer), (const char *)sheet);

    /* shifts change: the sheet of form 2 has the undo list too, and whoever loads it can take the PUT back */
    answer = gsi_sheet_write_2(image, n, sheet, sizeof sheet);
    if (GSI_NUMBER(answer) != 0 || GSI_NUMBER(gsi_factory(image, n)) != 0)
        return 1;
    if (GSI_NUMBER(gsi_sheet_load(image, n, sheet, GSI_TOLD(answer))) != 0)
        return 1;
    play(n, "GET/I/WI88\r");
    play(n, "UNDO\r");
    play(n, "GET/I/WI88\r");
    return 0;
}
