/* A libFuzzer target for the C interface: what its functions say of the same bytes must agree (README.md lists the facts).
 *
 * An input ends in a tail: how much room is lent, how it is lent, and whether the bytes before it are a text to read, fields to write or
 * account text to judge.
 */
#include "phc.h"

#include <stdio.h>
#include <stdlib.h>
#include <string.h>
#include <sys/mman.h>
#include <unistd.h>

static void fail(const char *fact, int line) {
    fprintf(stderr, "phc_fuzz.c:%d: not so: %s\n", line, fact);
    abort();
}

#define CHECK(fact) ((fact) ? (void)0 : fail(#fact, __LINE__))

/* Lent memory. */

/* A slice lies against a page that can't be touched, and has guard bytes on its other side, since AddressSanitizer doesn't see the
 * library's own loads and stores. */
#define GUARD 32
#define AREA 8192

enum area { STRING, RECORD, BUFFER, WRITTEN, KEYID, DATA, SALT, OUTPUT, AREAS };

static uint8_t *area_start[AREAS];

/* From the input's tail. */
static struct {
    size_t record, buffer, written, from, limit;
    int at_start, null_if_empty, fields, accounts;
    uint8_t fill;
} tail;

#define TAIL 6

struct lent {
    uint8_t *slice, *guard;
    size_t len;
    /* What the function is handed. */
    uint8_t *ptr;
};

static uint8_t filler(const uint8_t *at) {
    return (uint8_t)((uintptr_t)at * 29) ^ tail.fill;
}

static struct lent lend(enum area area, size_t len) {
    struct lent lent = {.len = len};
    lent.slice = tail.at_start ? area_start[area] : area_start[area] + AREA - len;
    lent.guard = tail.at_start ? lent.slice + len : lent.slice - GUARD;
    lent.ptr = len == 0 && tail.null_if_empty ? NULL : lent.slice;
    for (size_t i = 0; i < len; i++) lent.slice[i] = filler(lent.slice + i);
    for (size_t i = 0; i < GUARD; i++) lent.guard[i] = filler(lent.guard + i);
    return lent;
}

static struct lent lend_bytes(enum area area, const uint8_t *bytes, size_t len) {
    struct lent lent = lend(area, len);
    if (len != 0) memcpy(lent.slice, bytes, len);
    return lent;
}

/* The slice holds these bytes, and no byte after them or of the guard has changed. */
static void check_holds(const struct lent *lent, const uint8_t *bytes, size_t count) {
    CHECK(count <= lent->len);
    CHECK(count == 0 || memcmp(lent->slice, bytes, count) == 0);
    for (size_t i = count; i < lent->len; i++) CHECK(lent->slice[i] == filler(lent->slice + i));
    for (size_t i = 0; i < GUARD; i++) CHECK(lent->guard[i] == filler(lent->guard + i));
}

/* An answer that is known from an earlier call: the refusal's number, or 17 where the bytes don't fit, or the bytes. */
static void check_answer(const struct lent *lent, uint64_t answer, uint64_t number, const uint8_t *bytes, size_t count, uint64_t good) {
    if (number == 0 && count > lent->len) number = 17;
    CHECK(answer == (number != 0 ? number : good));
    check_holds(lent, bytes, number != 0 ? 0 : count);
}

/* The two spellings. */

struct spelling {
    __typeof__(&phc_read_all) read_all;
    __typeof__(&phc_write) write;
    /* Enough for every text. */
    size_t room;
};

static const struct spelling dollar = {phc_read_all, phc_write, PHC_ROOM};
static const struct spelling directory = {phc_directory_read_all, phc_directory_write, PHC_DIRECTORY_ROOM};

/* `$pbkdf2s2` */
#define ID_ALONE 9

/* Whether a text begins with the id of pbkdf2 between these two marks, and goes on after them. */
static int is_marked(const uint8_t *text, size_t len, const char marks[2]) {
    return len > ID_ALONE + 1 && text[0] == marks[0] && memcmp(text + 1, "pbkdf2s", 7) == 0 && (text[8] == '2' || text[8] == '3') &&
           text[ID_ALONE] == marks[1];
}

/* A marked text in the other spelling; it stands until the next call. */
static const uint8_t *marked(const uint8_t *text, size_t len, const char marks[2]) {
    static uint8_t other[AREA];
    memcpy(other, text, len);
    other[0] = marks[0], other[ID_ALONE] = marks[1];
    return other;
}

/* Fields. */

struct fields {
    uint8_t kind, id, has_version;
    uint32_t version, m, t, p;
    /* keyid, data, salt, output */
    uint8_t bytes[4][96];
    size_t count[4];
};

/* The most bytes that each has. */
static const size_t most[4] = {8, 32, 48, 64};

static uint32_t number_at(const uint8_t *at) {
    return (uint32_t)at[0] | (uint32_t)at[1] << 8 | (uint32_t)at[2] << 16 | (uint32_t)at[3] << 24;
}

static void put_number(uint8_t *at, uint32_t n) {
    for (int i = 0; i < 4; i++) at[i] = (uint8_t)(n >> 8 * i);
}

static void record_of(const struct fields *f, uint8_t record[PHC_RECORD_ALL]) {
    const uint8_t head[4] = {f->kind, f->id, f->has_version, 0};
    memcpy(record, head, 4);
    put_number(record + 4, f->version);
    put_number(record + 8, f->m);
    put_number(record + 12, f->t);
    put_number(record + 16, f->p);
    for (int i = 0; i < 4; i++) put_number(record + 20 + 4 * i, (uint32_t)f->count[i]);
}

static size_t join(const struct fields *f, uint8_t bytes[PHC_BYTES]) {
    size_t total = 0;
    for (int i = 0; i < 4; i++) {
        memcpy(bytes + total, f->bytes[i], f->count[i]);
        total += f->count[i];
    }
    return total;
}

static uint64_t write_fields(const struct spelling *spelling, const struct fields *f, const struct lent *buf) {
    struct lent part[4];
    for (int i = 0; i < 4; i++) part[i] = lend_bytes(KEYID + i, f->bytes[i], f->count[i]);
    uint64_t answer = spelling->write(f->id, f->has_version, f->version, f->m, f->t, f->p, part[0].ptr, part[0].len, part[1].ptr, part[1].len,
                                      part[2].ptr, part[2].len, part[3].ptr, part[3].len, buf->ptr, buf->len);
    for (int i = 0; i < 4; i++) check_holds(&part[i], f->bytes[i], f->count[i]);
    return answer;
}

/* Writes fields whose number or text is known. */
static void check_write(const struct spelling *spelling, const struct fields *f, size_t room, uint64_t number, const uint8_t *text, size_t len) {
    struct lent buf = lend(WRITTEN, room);
    check_answer(&buf, write_fields(spelling, f, &buf), number, text, len, 100 * len);
}

/* What the directory's writer says of fields, from what phc_write said of them. */
static void check_directory_write(const struct fields *f, uint64_t number, const uint8_t *string, size_t len) {
    /* The id alone is refused before any want of room. */
    if ((f->id != 4 && f->id != 5) || (number == 0 && len == ID_ALONE)) number = 24;
    const uint8_t *text = NULL;
    if (number == 0) {
        CHECK(is_marked(string, len, "$$") && len <= PHC_DIRECTORY_ROOM);
        text = marked(string, len, "{}");
    }
    check_write(&directory, f, PHC_DIRECTORY_ROOM, number, text, len);
    check_write(&directory, f, tail.written, number, text, len);
}

/* The short writer writes what the writer does for its defaults. */
static void check_write_short(const struct fields *f, size_t room) {
    struct fields g = *f;
    int argon2 = 1 <= f->id && f->id <= 3;
    g.has_version = argon2 ? 1 : 0, g.version = 19;
    g.m = argon2 ? 65536 : 0, g.t = argon2 ? 2 : 20000, g.p = argon2 ? 1 : 0;
    g.count[0] = g.count[1] = 0;
    struct lent buf = lend(BUFFER, room), salt = lend_bytes(SALT, f->bytes[2], f->count[2]), output = lend_bytes(OUTPUT, f->bytes[3], f->count[3]);
    uint64_t answer = phc_write_short(f->id, salt.ptr, salt.len, output.ptr, output.len, buf.ptr, buf.len);
    check_holds(&salt, f->bytes[2], f->count[2]);
    check_holds(&output, f->bytes[3], f->count[3]);
    uint8_t written[PHC_ROOM + 64];
    memcpy(written, buf.slice, room);
    check_holds(&buf, written, answer < 100 ? 0 : answer / 100);
    struct lent full = lend(WRITTEN, room);
    CHECK(write_fields(&dollar, &g, &full) == answer);
    check_holds(&full, written, answer < 100 ? 0 : answer / 100);
}

/* Reading. */

typedef uint64_t (*byte_string)(const uint8_t *, size_t, uint8_t *, size_t);

static const byte_string byte_strings[4] = {phc_keyid, phc_data, phc_salt, phc_output};

static void check_read(const struct lent *s, size_t room, uint64_t number, const struct fields *f) {
    uint8_t expected[PHC_RECORD_ALL];
    record_of(f, expected);
    struct lent record = lend(RECORD, room);
    check_answer(&record, phc_read(s->ptr, s->len, record.ptr, record.len), number, expected, PHC_RECORD, 0);
}

static void check_read_all(const struct spelling *spelling, const struct lent *s, size_t record_room, size_t buffer_room, uint64_t number,
                           const struct fields *f) {
    uint8_t expected[PHC_RECORD_ALL], bytes[PHC_BYTES];
    record_of(f, expected);
    size_t total = join(f, bytes);
    struct lent record = lend(RECORD, record_room), buf = lend(BUFFER, buffer_room);
    uint64_t answer = spelling->read_all(s->ptr, s->len, record.ptr, record.len, buf.ptr, buf.len);
    if (number == 0 && (record_room < PHC_RECORD_ALL || buffer_room < total)) number = 17;
    CHECK(answer == number);
    check_holds(&record, expected, number != 0 ? 0 : PHC_RECORD_ALL);
    check_holds(&buf, bytes, number != 0 ? 0 : total);
}

/* Reads a text whose number and fields are known, and writes it back to exactly it, with enough room and with the input's. */
static void check_text(const struct spelling *spelling, const uint8_t *bytes, size_t len, uint64_t number, const struct fields *f) {
    struct lent s = lend_bytes(STRING, bytes, len);
    check_read_all(spelling, &s, PHC_RECORD_ALL, PHC_BYTES, number, f);
    check_read_all(spelling, &s, tail.record, tail.buffer, number, f);
    check_holds(&s, bytes, len);
    if (number == 0) {
        CHECK(len <= spelling->room);
        check_write(spelling, f, spelling->room, 0, bytes, len);
        check_write(spelling, f, tail.written, 0, bytes, len);
    }
}

/* The fields of an accepted string, as the interface promises them. */
static void check_fields(const struct fields *f) {
    CHECK(f->kind == (f->count[2] == 0 ? 1 : f->count[3] == 0 ? 2 : 3));
    CHECK(f->count[3] == 0 || f->count[2] != 0);
    CHECK(1 <= f->id && f->id <= 5);
    CHECK(f->has_version <= 1);
    if (f->id <= 3) {
        CHECK(f->has_version ? f->version == 16 || f->version == 19 : f->version == 0);
        CHECK(1 <= f->p && f->p <= 255 && f->m / 8 >= f->p && f->t >= 1);
    } else {
        CHECK(f->has_version == 0 && f->version == 0);
        CHECK(f->m == 0 && f->p == 0 && f->t >= 100 && f->count[1] == 0);
    }
}

/* Reads by every function for `$` strings, with enough room and with the input's; the refusal's number, or the fields. */
static uint64_t read_string(const uint8_t *bytes, size_t len, struct fields *f) {
    memset(f, 0, sizeof *f);
    struct lent s = lend_bytes(STRING, bytes, len);

    struct lent record = lend(RECORD, PHC_RECORD);
    uint64_t number = phc_read(s.ptr, s.len, record.ptr, record.len);
    CHECK(number <= 15);
    check_holds(&record, record.slice, number != 0 ? 0 : PHC_RECORD);
    if (number == 0) {
        const uint8_t *r = record.slice;
        f->kind = r[0], f->id = r[1], f->has_version = r[2];
        CHECK(r[3] == 0);
        f->version = number_at(r + 4), f->m = number_at(r + 8), f->t = number_at(r + 12), f->p = number_at(r + 16);
    }
    check_read(&s, tail.record, number, f);

    for (int i = 0; i < 4; i++) {
        struct lent buf = lend(BUFFER, most[i]);
        uint64_t answer = byte_strings[i](s.ptr, s.len, buf.ptr, buf.len);
        if (number != 0) {
            CHECK(answer == number);
        } else {
            CHECK(answer % 100 == 0 && answer / 100 <= most[i]);
            f->count[i] = answer / 100;
            memcpy(f->bytes[i], buf.slice, f->count[i]);
        }
        check_holds(&buf, f->bytes[i], f->count[i]);

        buf = lend(BUFFER, tail.buffer);
        answer = byte_strings[i](s.ptr, s.len, buf.ptr, buf.len);
        check_answer(&buf, answer, number, f->bytes[i], f->count[i], 100 * f->count[i]);
    }

    uint64_t version = f->id > 3 ? 0 : f->has_version ? f->version : 19;
    CHECK(phc_algorithm_version(s.ptr, s.len) == (number != 0 ? number : 100 * version));
    check_holds(&s, bytes, len);

    if (number == 0) check_fields(f);
    check_text(&dollar, bytes, len, number, f);
    return number;
}

/* Reads in both spellings; the number and the fields are the `$` string's. A braced text is held to its string, and a string that has a
 * braced text goes in as that too; the fields of an accepted one that has none are not written to one. */
static uint64_t read_text(const uint8_t *bytes, size_t len, struct fields *f) {
    uint64_t number = read_string(bytes, len, f), directory_number = 24;
    struct fields g = {0};
    if (is_marked(bytes, len, "{}")) {
        CHECK(number == 1);
        directory_number = read_string(marked(bytes, len, "$$"), len, &g);
    }
    check_text(&directory, bytes, len, directory_number, &g);
    if (is_marked(bytes, len, "$$")) {
        check_text(&directory, marked(bytes, len, "{}"), len, number, f);
    } else if (number == 0) {
        check_directory_write(f, 0, bytes, len);
    }
    return number;
}

/* Writing. */

#define FIELDS 22

/* Writes fields from the input, permitted or not; what is written is read back as the same fields. */
static void write_input(const uint8_t *data, size_t size) {
    if (size < FIELDS) return;
    struct fields f = {.id = data[0], .has_version = data[1]};
    f.version = number_at(data + 2), f.m = number_at(data + 6), f.t = number_at(data + 10), f.p = number_at(data + 14);
    const uint8_t *counts = data + 18;
    data += FIELDS, size -= FIELDS;
    for (int i = 0; i < 4; i++) {
        size_t count = counts[i] % (most[i] + 8);
        f.count[i] = count < size ? count : size;
        memcpy(f.bytes[i], data, f.count[i]);
        data += f.count[i], size -= f.count[i];
    }

    struct lent buf = lend(WRITTEN, PHC_ROOM);
    uint64_t answer = write_fields(&dollar, &f, &buf);
    uint64_t number = answer < 100 ? answer : 0;
    uint8_t string[PHC_ROOM];
    size_t len = 0;
    if (number != 0) {
        CHECK(number == 8 || number == 9 || number == 11 || number == 12 || (14 <= number && number <= 16));
    } else {
        CHECK(answer % 100 == 0 && 0 < answer && answer / 100 <= PHC_ROOM);
        len = answer / 100;
        memcpy(string, buf.slice, len);
    }
    check_holds(&buf, string, len);
    check_write(&dollar, &f, tail.written, number, string, len);
    check_directory_write(&f, number, string, len);
    check_write_short(&f, PHC_ROOM);
    check_write_short(&f, tail.written);

    if (number == 0) {
        struct fields back;
        CHECK(read_text(string, len, &back) == 0);
        CHECK(back.id == f.id && back.has_version == f.has_version && back.m == f.m && back.t == f.t && back.p == f.p);
        CHECK(back.version == (f.has_version ? f.version : 0));
        for (int i = 0; i < 4; i++) CHECK(back.count[i] == f.count[i] && memcmp(back.bytes[i], f.bytes[i], f.count[i]) == 0);
    }
}

/* Account text. */

#define LONGEST_LINE 512
#define LONGEST_NAME 32

/* The bytes of the line that begins a text, without its line feed. */
static size_t line_len(const uint8_t *text, size_t len) {
    const uint8_t *feed = len == 0 ? NULL : memchr(text, '\n', len);
    return feed == NULL ? len : (size_t)(feed - text);
}

/* The number of a line, from what phc_read says of its string. */
static uint8_t line_number(const uint8_t *line, size_t len) {
    if (len > LONGEST_LINE) return 18;
    size_t name = 0;
    while (name < len && (('a' <= line[name] && line[name] <= 'z') || ('0' <= line[name] && line[name] <= '9') || line[name] == '-')) name++;
    if (name == 0 || name > LONGEST_NAME || name == len || line[name] != '\t') return 19;
    uint8_t record[PHC_RECORD];
    return (uint8_t)phc_read(line + name + 1, len - name - 1, record, sizeof record);
}

struct batch {
    size_t place, count;
    uint8_t numbers[AREA];
};

/* What is to be judged of a text, whatever the room. */
static void batch_of(struct batch *batch, const uint8_t *text, size_t len, size_t from, size_t limit) {
    batch->place = from < len ? from : len;
    batch->count = 0;
    while (batch->count < limit && batch->place < len) {
        const uint8_t *line = text + batch->place;
        size_t count = line_len(line, len - batch->place);
        batch->numbers[batch->count++] = line_number(line, count);
        batch->place += count;
        /* The last line may have no line feed to go past. */
        if (batch->place < len) batch->place++;
    }
}

/* One call; its answers and its result are the batch's, or it gives 17 because one of the two doesn't fit. */
static void check_judge(const struct lent *text, const uint8_t *bytes, size_t from, size_t limit, size_t room, size_t result_room,
                        struct batch *batch) {
    batch_of(batch, bytes, text->len, from, limit);
    uint8_t expected[PHC_BATCH] = {0};
    put_number(expected, (uint32_t)batch->place);
    put_number(expected + 8, (uint32_t)batch->count);
    struct lent answers = lend(BUFFER, room), result = lend(RECORD, result_room);
    uint64_t number = batch->count > room || result_room < PHC_BATCH ? 17 : 0;
    CHECK(phc_judge(text->ptr, text->len, from, limit, answers.ptr, answers.len, result.ptr, result.len) == number);
    check_holds(&answers, batch->numbers, number != 0 ? 0 : batch->count);
    check_holds(&result, expected, number != 0 ? 0 : PHC_BATCH);
}

/* Judges account text over all, with the input's place, limit and rooms, and in batches: these have the answers of one call over all. */
static void judge_input(const uint8_t *bytes, size_t len) {
    static struct batch all, batch;
    struct lent text = lend_bytes(STRING, bytes, len);
    check_judge(&text, bytes, tail.from, tail.limit, tail.buffer, tail.record, &batch);

    batch_of(&all, bytes, len, 0, SIZE_MAX);
    check_judge(&text, bytes, 0, SIZE_MAX, all.count, PHC_BATCH, &all);
    CHECK(all.place == len);
    if (all.count != 0) check_judge(&text, bytes, 0, SIZE_MAX, all.count - 1, PHC_BATCH, &batch);

    size_t place = 0, joined = 0;
    for (size_t calls = 0; place < len; calls++) {
        CHECK(calls < all.count);
        size_t limit = 1 + (tail.limit + calls) % (tail.buffer + 1);
        check_judge(&text, bytes, place, limit, limit, PHC_BATCH, &batch);
        CHECK(joined + batch.count <= all.count && memcmp(all.numbers + joined, batch.numbers, batch.count) == 0);
        joined += batch.count, place = batch.place;
    }
    CHECK(joined == all.count);
    check_holds(&text, bytes, len);
}

int LLVMFuzzerInitialize(int *argc, char ***argv) {
    (void)argc, (void)argv;
    size_t page = (size_t)sysconf(_SC_PAGESIZE);
    if (AREA % page != 0) {
        fprintf(stderr, "phc_fuzz: AREA must be a multiple of the page's %zu bytes\n", page);
        exit(2);
    }
    for (int i = 0; i < AREAS; i++) {
        uint8_t *whole = mmap(NULL, page + AREA + page, PROT_NONE, MAP_PRIVATE | MAP_ANONYMOUS, -1, 0);
        if (whole == MAP_FAILED || mprotect(whole + page, AREA, PROT_READ | PROT_WRITE) != 0) {
            perror("phc_fuzz: mmap");
            exit(2);
        }
        area_start[i] = whole + page;
    }
    return 0;
}

int LLVMFuzzerTestOneInput(const uint8_t *data, size_t size) {
    if (size < TAIL || size - TAIL > AREA - GUARD) return 0;
    size -= TAIL;
    const uint8_t *end = data + size;
    tail.record = end[0] % 48;
    tail.buffer = end[1] % 192;
    tail.written = (end[2] + 256u * end[3]) % 320;
    tail.from = end[2] == 255 ? SIZE_MAX : end[2];
    tail.limit = end[3] == 255 ? SIZE_MAX : end[3];
    tail.at_start = end[4] & 1;
    tail.null_if_empty = end[4] >> 1 & 1;
    tail.fields = end[4] >> 2 & 1;
    tail.accounts = end[4] >> 3 & 1;
    tail.fill = end[5];
    if (tail.fields) {
        write_input(data, size);
    } else if (tail.accounts) {
        judge_input(data, size);
    } else {
        struct fields f;
        read_text(data, size, &f);
    }
    return 0;
}
