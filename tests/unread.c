/* No entry reads past the 2,896th byte of a text: the length says that it is refused. And none reads account text past the lines that it
 * judges, or past those that have room where there are more. Texts are lent whose bytes after that lie on pages that can't be read, so that
 * a look at one ends the program. */
#define _DEFAULT_SOURCE
#include "phc.h"
#include <stdio.h>
#include <string.h>
#include <sys/mman.h>
#include <unistd.h>

#define LONGEST 2896
#define RESERVED ((size_t)1 << 28)

/* A page that can be read, and pages that can't. */
static uint8_t *readable, *unreadable;

/* Texts. */

static const char *const beginnings[] = {"$", "$argon2id$v=", "$argon2id$v=19$m=", "$argon2id$v=19$m=65536,t=2,p=1,keyid=",
                                         "$argon2id$v=19$m=65536,t=2,p=1$", "$pbkdf2s2$t=", "", "{", "{pbkdf2s2", "{pbkdf2s2}",
                                         "{pbkdf2s3}t=", "{pbkdf2s3}AAAAAA$", "{pbkdf2s4}", "{argon2id}v="};
static const char fillers[] = "aA0$=,}";
static const size_t lengths[] = {LONGEST + 1, 3000, 65536, 1000000, RESERVED};

/* Every entry that takes a text; how many gave another number than 1, or the directory's than 24 where its prefix is missing. */
static unsigned others(const uint8_t *s, size_t len)
{
    uint8_t record[PHC_RECORD_ALL], buf[PHC_BYTES];
    uint64_t directory = memcmp(s, "{pbkdf2s2}", 10) == 0 || memcmp(s, "{pbkdf2s3}", 10) == 0 ? 1 : 24;
    return (phc_read(s, len, record, sizeof record) != 1) + (phc_read_all(s, len, record, sizeof record, buf, sizeof buf) != 1)
        + (phc_keyid(s, len, buf, sizeof buf) != 1) + (phc_data(s, len, buf, sizeof buf) != 1)
        + (phc_salt(s, len, buf, sizeof buf) != 1) + (phc_output(s, len, buf, sizeof buf) != 1)
        + (phc_algorithm_version(s, len) != 1)
        + (phc_directory_read_all(s, len, record, sizeof record, buf, sizeof buf) != directory);
}

static unsigned texts(void)
{
    uint8_t *s = unreadable - LONGEST;
    unsigned calls = 0, wrong = 0;
    for (size_t b = 0; b < sizeof beginnings / sizeof *beginnings; b++)
        for (size_t f = 0; f < sizeof fillers - 1; f++)
            for (size_t l = 0; l < sizeof lengths / sizeof *lengths; l++) {
                memset(s, fillers[f], LONGEST);
                memcpy(s, beginnings[b], strlen(beginnings[b]));
                wrong += others(s, lengths[l]);
                calls += 8;
            }
    printf("%u calls with texts of more than %d bytes, %u with another number\n", calls, LONGEST, wrong);
    return wrong;
}

/* Account text. */

/* Past 512 bytes, by one and by many. */
static char long_line[513 + 2], longer_line[2000 + 2];

static const struct {
    const char *text;
    uint8_t number;
} lines[] = {{"ana\t$pbkdf2s2\n", 0}, {"\n", 19}, {long_line, 18}, {"bo\t$argon2i$m=8,t=1,p=0\n", 11}, {"no tab\n", 19},
             {longer_line, 18}, {"-\t\n", 1}};

#define LINES (sizeof lines / sizeof *lines)

/* The lines that can be read: so many from one of those above on. They end where the page does. */
struct batch {
    size_t first, count, len;
};

static unsigned judged, misjudged;

static uint64_t number_at(const uint8_t *at)
{
    uint64_t n = 0;
    for (int i = 7; i >= 0; i--) n = n << 8 | at[i];
    return n;
}

/* Judges a text of the batch's lines and so many bytes more: it gives 0 and judges them all, or 17 and changes nothing. */
static void judge(const struct batch *batch, size_t more, size_t limit, size_t room, size_t result_room, uint64_t answer)
{
    const size_t count = answer == 0 ? batch->count : 0;
    /* From the text's start, and from a place in it. */
    const uint8_t *starts[] = {unreadable - batch->len, readable};
    for (int i = 0; i < 2; i++) {
        uint8_t answers[LINES + 1], result[PHC_BATCH];
        memset(answers, 99, sizeof answers);
        memset(result, 99, sizeof result);
        const size_t end = (size_t)(unreadable - starts[i]);
        int good = phc_judge(starts[i], end + more, end - batch->len, limit, answers, room, result, result_room) == answer;
        if (answer == 0)
            good &= number_at(result) == end && number_at(result + 8) == count;
        else
            good &= result[0] == 99 && result[8] == 99;
        for (size_t l = 0; l < sizeof answers; l++)
            good &= answers[l] == (l < count ? lines[(batch->first + l) % LINES].number : 99);
        judged++;
        misjudged += !good;
    }
}

static unsigned account_text(void)
{
    static const size_t beyond[] = {1, 3000, RESERVED};
    memset(long_line, 'a', sizeof long_line - 2);
    memset(longer_line, 'a', sizeof longer_line - 2);
    long_line[sizeof long_line - 2] = longer_line[sizeof longer_line - 2] = '\n';

    for (size_t first = 0; first < LINES; first++)
        for (size_t count = 1; count <= LINES; count++) {
            char text[LONGEST + 1] = "";
            for (size_t l = 0; l < count; l++) strcat(text, lines[(first + l) % LINES].text);
            struct batch batch = {first, count, strlen(text)};
            memcpy(unreadable - batch.len, text, batch.len);
            for (size_t b = 0; b < sizeof beyond / sizeof *beyond; b++) {
                judge(&batch, beyond[b], count, count, PHC_BATCH, 0);
                judge(&batch, beyond[b], count, count + 1, PHC_BATCH, 0);
                judge(&batch, beyond[b], count, count, PHC_BATCH - 1, 17);
                /* One line more than there is room for, or many. */
                judge(&batch, beyond[b], count + 1, count, PHC_BATCH, 17);
                judge(&batch, beyond[b], SIZE_MAX, count, PHC_BATCH, 17);
                judge(&batch, beyond[b], SIZE_MAX, count, PHC_BATCH - 1, 17);
            }
            /* The text's last lines: the limit is no fault. */
            judge(&batch, 0, count + 1, count, PHC_BATCH, 0);
            judge(&batch, 0, SIZE_MAX, count, PHC_BATCH, 0);
            judge(&batch, 0, SIZE_MAX, count - 1, PHC_BATCH, 17);
            /* The last without its line feed, if that leaves a line. */
            if (batch.len < 2 || text[batch.len - 2] == '\n') continue;
            batch.len--;
            memcpy(unreadable - batch.len, text, batch.len);
            judge(&batch, 0, count + 1, count, PHC_BATCH, 0);
            judge(&batch, 0, SIZE_MAX, count, PHC_BATCH, 0);
            judge(&batch, 0, SIZE_MAX, count - 1, PHC_BATCH, 17);
        }

    /* No byte is read with a limit of 0, from the end, or without room. */
    struct batch none = {0, 0, 0};
    for (size_t room = 0; room < 3; room++) {
        judge(&none, RESERVED, 0, room, PHC_BATCH, 0);
        judge(&none, 0, SIZE_MAX, room, PHC_BATCH, 0);
    }
    judge(&none, RESERVED, 1, 0, PHC_BATCH, 17);
    judge(&none, RESERVED, SIZE_MAX, 0, PHC_BATCH, 17);
    printf("%u calls with account text whose end can't be read, %u with another answer\n", judged, misjudged);
    return misjudged;
}

int main(void)
{
    size_t page = (size_t)sysconf(_SC_PAGESIZE);
    readable = mmap(NULL, page + RESERVED, PROT_NONE, MAP_PRIVATE | MAP_ANONYMOUS | MAP_NORESERVE, -1, 0);
    if (readable == MAP_FAILED || mprotect(readable, page, PROT_READ | PROT_WRITE) != 0) {
        perror("unread");
        return 1;
    }
    unreadable = readable + page;
    unsigned wrong = texts();
    wrong += account_text();
    return wrong != 0;
}
