/* The header as a program sees it, in C or in C++: it compiles without a warning, declares what the archive exports, and its numbers are
 * right. */
#include "phc.h"
#include <string.h>

#ifdef __cplusplus
#define _Static_assert static_assert
#endif

_Static_assert(PHC_ROOM == 265, "the longest string");
_Static_assert(PHC_DIRECTORY_ROOM == 171, "the longest braced text");
_Static_assert(PHC_RECORD == 20, "kind, id, flag, 0 and four numbers");
_Static_assert(PHC_RECORD_ALL == PHC_RECORD + 16, "and four counts");
_Static_assert(PHC_BYTES == 8 + 32 + 48 + 64, "keyid, data, salt and output");
_Static_assert(PHC_BATCH == 8 + 8, "place and count");

int main(void) {
    static const uint8_t string[] = "$pbkdf2s2$AAAAAA$AAAAAAAAAAAAAAAA";
    static const uint8_t braced[] = "{pbkdf2s2}AAAAAA$AAAAAAAAAAAAAAAA";
    static const uint8_t absent[] = "$argon2i$m=8,t=1,p=1";
    static const uint8_t accounts[] = "ana\t$pbkdf2s2\nbo\t$argon2i$m=8,t=1,p=0\n\n";
    uint8_t record[PHC_RECORD_ALL], bytes[PHC_BYTES], again[PHC_ROOM], answers[2], result[PHC_BATCH];
    /* A length counts no NUL, and is the same in both spellings. */
    const size_t len = sizeof string - 1;

    return phc_read(NULL, 0, record, PHC_RECORD) != 1
        || phc_read(string, len, record, PHC_RECORD) != 0
        || phc_read(string, len + 1, record, PHC_RECORD) != 6
        || phc_read_all(string, len, record, sizeof record, bytes, sizeof bytes) != 0
        || record[0] != 3 || record[1] != 4 || record[28] != 4 || record[32] != 12
        || phc_algorithm_version(string, len) != 0
        || phc_algorithm_version(absent, sizeof absent - 1) != 1900
        || phc_algorithm_version(absent, sizeof absent - 2) != 4
        || phc_keyid(string, len, bytes, sizeof bytes) != 0
        || phc_data(string, len, bytes, sizeof bytes) != 0
        || phc_salt(string, len, bytes, sizeof bytes) != 400
        || phc_output(string, len, bytes + 4, sizeof bytes - 4) != 1200
        || phc_write(4, 0, 0, 0, 20000, 0, NULL, 0, NULL, 0, bytes, 4, bytes + 4, 12, again, sizeof again) != 100 * len
        || phc_write_short(4, bytes, 4, bytes + 4, 12, again, len) != 100 * len
        || phc_write_short(4, bytes, 4, bytes + 4, 12, again, len - 1) != 17
        || phc_read_all(braced, len, record, sizeof record, bytes, sizeof bytes) != 1
        || phc_directory_read_all(string, len, record, sizeof record, bytes, sizeof bytes) != 24
        || phc_directory_read_all(braced, len, record, sizeof record, bytes, sizeof bytes) != 0
        || record[0] != 3 || record[1] != 4 || record[28] != 4 || record[32] != 12
        || phc_directory_write(4, 0, 0, 0, 20000, 0, NULL, 0, NULL, 0, bytes, 4, bytes + 4, 12, again, sizeof again) != 100 * len
        || memcmp(again, braced, len) != 0
        || phc_directory_write(4, 0, 0, 0, 20000, 0, NULL, 0, NULL, 0, NULL, 0, NULL, 0, again, sizeof again) != 24
        || phc_judge(accounts, sizeof accounts - 1, 0, 2, answers, sizeof answers, result, sizeof result) != 0
        || answers[0] != 0 || answers[1] != 11 || result[0] != 38 || result[8] != 2
        || phc_judge(accounts, sizeof accounts - 1, result[0], 2, answers, sizeof answers, result, sizeof result) != 0
        || answers[0] != 19 || answers[1] != 11 || result[0] != sizeof accounts - 1 || result[8] != 1
        || phc_judge(accounts, sizeof accounts - 1, 0, SIZE_MAX, answers, sizeof answers, result, sizeof result) != 17
        || phc_judge(NULL, 0, 0, SIZE_MAX, NULL, 0, result, sizeof result - 1) != 17;
}
