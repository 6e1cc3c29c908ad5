/* Tries liblhf from C:
 *
 *     library IMAGE ROUNDS
 *
 * That the structs have the layout that the library writes; that lhf_find, lhf_find_many and lhf_seek find each record that
 * lhf_next gives; that lhf_build puts them into another image; that a refused request for memory is answered, and nothing kept;
 * and rounds with bytes, indexes and handles that are wrong in any way, each block between pages that may not be read. */
#define _GNU_SOURCE
#include <stdio.h>
#include <stdlib.h>
#include <string.h>
#include <sys/mman.h>
#include <unistd.h>
#include "lhf.h"

_Static_assert(sizeof(struct lhf_slice) == 16 && offsetof(struct lhf_slice, len) == 8, "lhf_slice");
_Static_assert(sizeof(struct lhf_page) == 32 && offsetof(struct lhf_page, used) == 24, "lhf_page");
_Static_assert(offsetof(struct lhf_page, next) == 28, "lhf_page");
_Static_assert(sizeof(struct lhf) == 72 && offsetof(struct lhf, index) == 16, "lhf");
_Static_assert(offsetof(struct lhf, index_len) == 24 && offsetof(struct lhf, records) == 32, "lhf");
_Static_assert(offsetof(struct lhf, version) == 40 && offsetof(struct lhf, at) == 68, "lhf");
_Static_assert(sizeof(struct lhf_ask) == 48 && offsetof(struct lhf_ask, value) == 16, "lhf_ask");
_Static_assert(offsetof(struct lhf_ask, code) == 32, "lhf_ask");
_Static_assert(sizeof(struct lhf_record) == 32 && offsetof(struct lhf_record, value) == 16, "lhf_record");
_Static_assert(sizeof(struct lhf_settings) == 16 && offsetof(struct lhf_settings, max) == 12, "lhf_settings");

#define EXPECT(fact) \
    do { \
        if (!(fact)) fprintf(stderr, "library.c:%d: not so: %s\n", __LINE__, #fact), exit(1); \
    } while (0)

/* ---- memory, of which a request can be refused */

struct tried {
    _Bool ok;
    void *at;
};
static long held, requests, refused;

static struct tried of(void *at) {
    static char none;
    return (struct tried){at != 0, at ? at : &none};
}
struct tried rattle_alloc(size_t size, size_t alignment) {
    void *at = ++requests == refused ? 0 : malloc(size ? size : alignment);
    held += at != 0;
    return of(at);
}
struct tried rattle_realloc(void *at, size_t kept, size_t size, size_t alignment) {
    (void)kept;
    return of(++requests == refused ? 0 : realloc(at, size ? size : alignment));
}
void rattle_dealloc(void *at) {
    held--;
    free(at);
}

/* ---- blocks between pages that may not be read */

struct room {
    unsigned char *start;
    size_t size;
};

static struct room room_of(size_t size) {
    size_t page = sysconf(_SC_PAGESIZE);
    size = (size + page - 1) / page * page;
    unsigned char *all = mmap(NULL, size + 2 * page, PROT_NONE, MAP_PRIVATE | MAP_ANONYMOUS, -1, 0);
    EXPECT(all != MAP_FAILED && !mprotect(all + page, size, PROT_READ | PROT_WRITE));
    return (struct room){all + page, size};
}

static uint64_t state = 88172645463325252u;
static uint64_t rnd(void) {
    state ^= state << 13;
    state ^= state >> 7;
    return state ^= state << 17;
}

/* A block at one end of a room or at the other. */
static unsigned char *block(struct room room, size_t size) { return room.start + (rnd() % 2 ? room.size - size : 0); }

static unsigned char *whole(const char *path, size_t *size) {
    FILE *file = fopen(path, "rb");
    EXPECT(file && !fseek(file, 0, SEEK_END));
    *size = ftell(file);
    rewind(file);
    unsigned char *bytes = malloc(*size);
    EXPECT(bytes && fread(bytes, 1, *size, file) == *size);
    fclose(file);
    return bytes;
}

static uint32_t number(const unsigned char *bytes, size_t at) {
    return bytes[at] | bytes[at + 1] << 8 | bytes[at + 2] << 16 | (uint32_t)bytes[at + 3] << 24;
}

static int same(struct lhf_slice a, struct lhf_slice b) { return a.len == b.len && !memcmp(a.at, b.at, a.len); }

/* ---- an image that is good */

static void fields(const struct lhf *image, const unsigned char *bytes, size_t size) {
    EXPECT(image->bytes.at == bytes && image->bytes.len == size && image->version == (uint32_t)(bytes[3] - '0'));
    EXPECT(image->initial == number(bytes, 4) && image->capacity == number(bytes, 8) && image->load == number(bytes, 12));
    EXPECT(image->buckets == number(bytes, 16) && image->max == number(bytes, 20) && image->pages == number(bytes, 24));
    EXPECT(image->records == number(bytes, 28) && image->pages == lhf_index_len(image));
}

static void records(struct lhf *image) {
    enum { MANY = 16 };
    struct lhf_ask asks[MANY];
    struct lhf_slice dues[MANY], key = LHF_NOTHING, value = LHF_NOTHING, found = LHF_NOTHING;
    uint64_t place = 0, count = 0;
    for (int some = 0;;) {
        uint32_t code = lhf_next(image, &place, &key, &value);
        EXPECT(code == LHF_OK || code == LHF_ABSENT);
        if (code == LHF_OK) {
            count++;
            EXPECT(lhf_find(image, key.at, key.len, &found) == LHF_OK && same(found, value));
            EXPECT(lhf_seek(image, key.at, key.len, &found) == LHF_OK && same(found, value));
            asks[some] = (struct lhf_ask){key, LHF_NOTHING, 99, {0, 0, 0}};
            dues[some++] = value;
        }
        if (some == MANY || code != LHF_OK) {
            EXPECT(lhf_find_many(image, asks, some) == LHF_OK);
            for (int i = 0; i < some; i++) EXPECT(asks[i].code == LHF_OK && same(asks[i].value, dues[i]));
            some = 0;
        }
        if (code != LHF_OK) break;
    }
    EXPECT(count == image->records);
    unsigned char absent[80];
    for (size_t len = 0; len < sizeof absent; len++) {
        for (size_t i = 0; i < len; i++) absent[i] = rnd();
        asks[0] = (struct lhf_ask){{absent, len}, LHF_NOTHING, 99, {0, 0, 0}};
        EXPECT(lhf_find_many(image, asks, 1) == LHF_OK && asks[0].code == lhf_find(image, absent, len, &found));
        EXPECT(asks[0].code == LHF_ABSENT && lhf_seek(image, absent, len, &found) == LHF_ABSENT);
    }
}

static void without_memory(const unsigned char *bytes, size_t size) {
    struct lhf image = LHF_INIT;
    EXPECT(lhf_open(&image, bytes, size) == LHF_OK);
    size_t pages = lhf_index_len(&image);
    struct lhf_page *index = malloc(pages * sizeof *index);
    EXPECT(index && lhf_check(&image, index, pages + 1) == LHF_CHANGED);
    for (refused = 1; ; refused++) {
        requests = 0;
        uint32_t code = lhf_check(&image, index, pages);
        EXPECT(held == 0 && code == (requests < refused ? LHF_OK : LHF_NO_MEMORY));
        if (code == LHF_OK) break;
    }
    refused = 0;
    free(index);
}

static void texts(void) {
    for (uint32_t code = 0; code < 100; code++) {
        struct lhf_slice text = LHF_NOTHING;
        uint32_t known = lhf_text(code, &text);
        EXPECT(code <= LHF_TOO_SMALL ? known == LHF_OK && text.len > 0 : known == LHF_ABSENT);
    }
}

/* ---- images that are built */

/* All records of an image, put into a file like the image's own in two goes, with little room first. */
static void rebuilt(struct lhf *image) {
    struct lhf_settings settings = {image->initial, image->capacity, image->load, image->max};
    size_t count = image->records, half = count / 2, size = 0, wanted = 0;
    struct lhf_record *records = malloc((count + 1) * sizeof *records);
    EXPECT(records != 0);
    uint64_t place = 0;
    for (size_t i = 0; i < count; i++) EXPECT(lhf_next(image, &place, &records[i].key, &records[i].value) == LHF_OK);
    unsigned char none = 7, *first, *both;
    EXPECT(lhf_build(&none, 0, records, half, &settings, &none, 0, &size) == LHF_TOO_SMALL && none == 7 && size > 0);
    EXPECT((first = malloc(size)) && (both = malloc(1)));
    EXPECT(lhf_build(&none, 0, records, half, &settings, first, size - 1, &wanted) == LHF_TOO_SMALL && wanted == size);
    EXPECT(lhf_build(&none, 0, records, half, &settings, first, size, &wanted) == LHF_OK && wanted == size);
    EXPECT(lhf_build(first, size, records + half, count - half, &settings, both, 0, &wanted) == LHF_TOO_SMALL);
    EXPECT((both = realloc(both, wanted)) != 0);
    EXPECT(lhf_build(first, size, records + half, count - half, &settings, both, wanted, &wanted) == LHF_OK && held == 0);
    struct lhf other = LHF_INIT;
    EXPECT(lhf_open(&other, both, wanted) == LHF_OK && other.records == count && other.max == image->max);
    struct lhf_page *index = malloc(other.pages * sizeof *index);
    EXPECT(index && lhf_check(&other, index, other.pages) == LHF_OK);
    for (size_t i = 0; i < count; i++) {
        struct lhf_slice found = LHF_NOTHING;
        EXPECT(lhf_find(&other, records[i].key.at, records[i].key.len, &found) == LHF_OK && same(found, records[i].value));
    }
    struct lhf_record strange = {{both, LHF_MAX_KEY + 1}, LHF_NOTHING};
    EXPECT(lhf_build(&none, 0, &strange, 1, &settings, &none, 0, &size) == LHF_BAD_RECORD);
    settings.initial = 0;
    EXPECT(lhf_build(&none, 0, records, 0, &settings, &none, 0, &size) == LHF_BAD_SETTING);
    EXPECT(lhf_build(both, wanted - 1, records, 0, &settings, &none, 0, &size) == LHF_SHORT && none == 7);
    for (refused = 1; count < 10; refused++) {
        requests = 0;
        uint32_t code = lhf_build(both, wanted, records, count, &settings, first, 0, &size);
        EXPECT(held == 0 && code == (requests < refused ? LHF_TOO_SMALL : LHF_NO_MEMORY));
        if (code == LHF_TOO_SMALL) break;
    }
    refused = 0;
    free(records), free(first), free(both), free(index);
}

/* ---- bytes, indexes and handles that are wrong */

static void within(struct lhf_slice slice, const struct lhf *image, size_t most) {
    EXPECT(slice.len <= most && slice.at >= image->bytes.at);
    EXPECT(slice.at + slice.len <= image->bytes.at + image->bytes.len);
}

static void ask(struct lhf *image, const unsigned char *key, size_t len) {
    struct lhf_slice value = LHF_NOTHING;
    uint32_t code = lhf_find(image, key, len, &value);
    EXPECT(code == LHF_OK || code == LHF_ABSENT || code == LHF_CHANGED);
    if (code == LHF_OK) within(value, image, LHF_MAX_VALUE);
    struct lhf_ask asks[2] = {{{key, len}, LHF_NOTHING, LHF_CHANGED, {0, 0, 0}}, {{key, len / 2}, LHF_NOTHING, 0, {0, 0, 0}}};
    lhf_find_many(image, asks, 2);
    EXPECT(asks[0].code == code || code == LHF_ABSENT);
    if (asks[0].code == LHF_OK) within(asks[0].value, image, LHF_MAX_VALUE);
    if (lhf_seek(image, key, len, &value) == LHF_OK) within(value, image, LHF_MAX_VALUE);
}

static void hostile_round(const struct lhf *good, struct room bytes, struct room entries) {
    static unsigned char key[80];
    size_t size = rnd() % 8 ? good->bytes.len : rnd() % (good->bytes.len + 1);
    size_t len = rnd() % 8 ? good->index_len : rnd() % (good->index_len + 1);
    struct lhf image = *good;
    unsigned char *b = block(bytes, size);
    struct lhf_page *index = (struct lhf_page *)block(entries, len * sizeof *index);
    memcpy(b, good->bytes.at, size);
    memcpy(index, good->index, len * sizeof *index);
    for (int i = rnd() % 40; i > 0; i--) {
        if (size) b[rnd() % size] = rnd();
        if (len) ((unsigned char *)index)[rnd() % (len * sizeof *index)] = rnd();
    }
    for (size_t i = 0; rnd() % 4 == 0 && i < len; i++) index[i].next = rnd() % (2 * good->pages);
    image.bytes = (struct lhf_slice){b, size};
    image.index = index, image.index_len = len;
    if (rnd() % 3 == 0) (&image.version)[rnd() % 8] = rnd() % 3 ? rnd() % 100 : rnd();
    for (int i = 0; i < 20; i++) {
        struct lhf_slice own = {key, rnd() % 60}, value = LHF_NOTHING;
        uint64_t place = rnd() % (24 * (uint64_t)good->pages);
        for (size_t k = 0; k < own.len; k++) key[k] = rnd();
        if (i % 2) lhf_next(good, &place, &own, &value);
        ask(&image, own.at, own.len);
    }
    struct lhf_slice own = LHF_NOTHING, value = LHF_NOTHING;
    uint64_t place = rnd() % 8 ? rnd() % 50 : rnd();
    for (int i = 0; i < 300 && lhf_next(&image, &place, &own, &value) == LHF_OK; i++) {
        within(own, &image, LHF_MAX_KEY);
        within(value, &image, LHF_MAX_VALUE);
    }
    lhf_open(&image, b, size);
    lhf_check(&image, index, len);
    struct lhf_settings settings = {rnd() % 300, rnd() % 30, rnd() % 250, rnd()};
    struct lhf_record record = {{key, rnd() % 60}, {key, rnd() % 80}};
    unsigned char none = 0;
    size_t wanted = 0;
    if (good->bytes.len < 100000) lhf_build(b, rnd() % 2 ? size : 0, &record, 1, &settings, &none, 0, &wanted);
    EXPECT(held == 0 && none == 0);
}

int main(int argc, char **argv) {
    EXPECT(argc == 3);
    size_t size;
    unsigned char *bytes = whole(argv[1], &size);
    struct lhf image = LHF_INIT;
    EXPECT(lhf_open(&image, bytes, size) == LHF_OK);
    size_t pages = lhf_index_len(&image);
    struct lhf_page *index = malloc(pages * sizeof *index);
    EXPECT(index && lhf_check(&image, index, pages) == LHF_OK);
    fields(&image, bytes, size);
    records(&image);
    texts();
    rebuilt(&image);
    if (image.records < 1000) without_memory(bytes, size);
    struct room of_bytes = room_of(size), of_index = room_of(pages * sizeof *index);
    for (int i = atoi(argv[2]); i > 0; i--) hostile_round(&image, of_bytes, of_index);
    free(index);
    free(bytes);
    return 0;
}
