/* PHC strings of the profiles argon2d, argon2i, argon2id, pbkdf2s2 and pbkdf2s3, read and written; and account text judged.
 *
 * Any bytes may be handed over. Each pointer is valid for its length; NULL with the length 0 is an empty slice. A buffer that is written
 * must not overlap any other argument.
 * Strings are bytes with a length and no end mark: a length counts no NUL and no line feed (either would be part of the string, which is
 * then refused; only account text has line feeds), and no NUL is written after what a function writes.
 * A refusal is a return value from 1 to 99, one of README.md, 'The numbers', and changes no byte; no other return value lies in that range.
 */
#ifndef PHC_H
#define PHC_H

#include <stddef.h>
#include <stdint.h>

#ifdef __cplusplus
extern "C" {
#endif

/* Bytes enough for every string of these profiles, and for every braced text that is written. */
#define PHC_ROOM 265
#define PHC_DIRECTORY_ROOM 171

/* The bytes of a record, and of one with the four counts after it. */
#define PHC_RECORD 20
#define PHC_RECORD_ALL 36

/* The most bytes that the four byte strings of a string have together. */
#define PHC_BYTES 152

/* The bytes of phc_judge's result. */
#define PHC_BATCH 16

/* Reads a string. 0, and the first 20 bytes of the record are
 *      0  kind: 1 parameters, 2 salt, 3 hash
 *      1  id: 1 to 5 in the order above
 *      2  1 where a version is written, else 0
 *      3  0
 *      4  version, 0 where none is written
 *      8  m
 *     12  t
 *     16  p
 * from byte 4 on 32-bit little-endian numbers. Else 1 to 15, then 17 where the record has fewer than 20 bytes, and the record is as it was. */
uint64_t phc_read(const uint8_t *s, size_t s_len, uint8_t *record, size_t record_len);

/* The algorithm version that a string means, for the hasher, a hundred times: 1600 or 1900 where 16 or 19 is written, 1900 for Argon2 where
 * none is written, 0 for pbkdf2, which has none. Or 1 to 15. */
uint64_t phc_algorithm_version(const uint8_t *s, size_t s_len);

/* Each decodes one byte string of a string into the buffer from its start: a hundred times the count (0 where it is absent), or 1 to 15,
 * then 17. */
uint64_t phc_keyid(const uint8_t *s, size_t s_len, uint8_t *buf, size_t buf_len);
uint64_t phc_data(const uint8_t *s, size_t s_len, uint8_t *buf, size_t buf_len);
uint64_t phc_salt(const uint8_t *s, size_t s_len, uint8_t *buf, size_t buf_len);
uint64_t phc_output(const uint8_t *s, size_t s_len, uint8_t *buf, size_t buf_len);

/* Reads a string and decodes its byte strings in one call, for a login. 0, and the first 36 bytes of the record are
 *      0  the 20 of phc_read
 *     20  count of keyid, 0 where it is absent
 *     24  count of data
 *     28  count of salt
 *     32  count of output
 * from byte 4 on 32-bit little-endian numbers; and keyid, data, salt and output stand one after the other from the buffer's start.
 * Else 1 to 15, then 17 where the record has fewer than 36 bytes or the byte strings don't fit the buffer, and both are as they were. 152 bytes
 * are always enough for the buffer. */
uint64_t phc_read_all(const uint8_t *s, size_t s_len, uint8_t *record, size_t record_len, uint8_t *buf, size_t buf_len);

/* Writes the one string of the fields into the buffer from its start: a hundred times the count, or 8, 9, 11, 12, 14, 15, 16, then 17.
 * has_version 0: no version, whatever `version` is; 1: that version; any other is 9, or 8 where the id
 * is unknown. An empty salt or output is one that isn't there.
 * For pbkdf2 m and p are 0 and data is empty. 265 bytes are always enough. It never gives 0.
 * The fields and bytes that phc_read_all gave of a string are written back to exactly that string. */
uint64_t phc_write(uint8_t id, uint8_t has_version, uint32_t version, uint32_t m, uint32_t t, uint32_t p,
                   const uint8_t *keyid, size_t keyid_len, const uint8_t *data, size_t data_len,
                   const uint8_t *salt, size_t salt_len, const uint8_t *output, size_t output_len,
                   uint8_t *buf, size_t buf_len);

/* The same for an id, a salt and an output alone: version 19, m=65536, t=2, p=1 for Argon2, t=20000 for pbkdf2, no keyid and no data.
 * 8, 14, 15, 16, then 17. */
uint64_t phc_write_short(uint8_t id, const uint8_t *salt, size_t salt_len, const uint8_t *output, size_t output_len,
                         uint8_t *buf, size_t buf_len);

/* The directory's spelling: a braced text, `{pbkdf2s2}rest` or `{pbkdf2s3}rest`, in place of the string `$pbkdf2s2$rest` or `$pbkdf2s3$rest`.
 * Both have the same length. A string that is the id alone has no braced text, and no other function takes one: to them it is 1. */

/* Reads a braced text and decodes its byte strings: the record and the bytes that phc_read_all gives of its string.
 * Else 24 for a text without one of the two prefixes or with nothing after it, then the string's number, 1, 3 to 7 or 9 to 15, then 17 where the
 * record has fewer than 36 bytes or the byte strings don't fit the buffer, and both are as they were. 152 bytes are always enough for the
 * buffer. */
uint64_t phc_directory_read_all(const uint8_t *t, size_t t_len, uint8_t *record, size_t record_len, uint8_t *buf, size_t buf_len);

/* Writes the braced text of the fields into the buffer from its start, as phc_write writes their string: a hundred times the count, or 24 for
 * an id other than 4 and 5, then 9, 11, 12, 14, 15, 16, then 24 for fields that are written as the id alone (t=20000 and nothing else),
 * then 17. has_version is as for phc_write, and any other than 0 and 1 is 9.
 * 171 bytes are always enough. It never gives 0.
 * The fields and bytes that phc_directory_read_all gave of a braced text are written back to exactly that text. */
uint64_t phc_directory_write(uint8_t id, uint8_t has_version, uint32_t version, uint32_t m, uint32_t t, uint32_t p,
                             const uint8_t *keyid, size_t keyid_len, const uint8_t *data, size_t data_len,
                             const uint8_t *salt, size_t salt_len, const uint8_t *output, size_t output_len,
                             uint8_t *buf, size_t buf_len);

/* Account text has one account a line: name, tab, string. A line ends at a line feed; a last line without one counts if it has any byte. */

/* Judges the lines of account text in batches: at most `limit` of those from the place `from` on, in order. 0, and the number of each judged
 * line stands in `answers` from its start: 18 for a line of more than 512 bytes, its line feed not counted; then 19 for one without a tab or whose
 * name is not 1 to 32 of a..z, 0..9, minus; else what phc_read says of its string, all after its first tab: 1 to 15, or 0 where it is accepted.
 * The first 16 bytes of the result are
 *      0  the place to go on from, counted from the text's start; the text's length where no line is left
 *      8  the count of lines judged: the smaller of `limit` and the lines there
 * as 64-bit little-endian numbers. Answers past the count are as they were.
 * Else 17 where that count is more than answers_len or the result has fewer than 16 bytes; nothing is judged then, and both are as they were.
 * Begin from 0, and go on from the place while it is less than text_len: with limits of at least 1 and room the answers, joined, are those of one
 * call over all. A limit of 0 judges none, and the place is where it began. A place past the text's end is as the end; from a place inside a
 * line the rest of it is judged as a line. No byte past the judged lines is read, and where it gives 17 none past the lines that have room. */
uint64_t phc_judge(const uint8_t *text, size_t text_len, size_t from, size_t limit, uint8_t *answers, size_t answers_len,
                   uint8_t *result, size_t result_len);

#ifdef __cplusplus
}
#endif

#endif
