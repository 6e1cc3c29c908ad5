/* liblhf: keys looked up in the bytes of an image of a linear hash file, where they stand; and images built.
 *
 *     struct lhf image = LHF_INIT;
 *     if (lhf_open(&image, bytes, size) == LHF_OK) {                  // bytes: mapped or read, the caller's
 *         size_t pages = lhf_index_len(&image);
 *         struct lhf_page *index = malloc(pages * sizeof *index);     // 32 bytes a page, the caller's
 *         if (index && lhf_check(&image, index, pages) == LHF_OK) {   // once: every page is looked at
 *             struct lhf_slice value = LHF_NOTHING;
 *             if (lhf_find(&image, "Ada", 3, &value) == LHF_OK)
 *                 fwrite(value.at, 1, value.len, stdout);             // lent by the bytes, never copied
 *         }
 *     }
 *
 * No call keeps anything, takes a lock or fails by crashing, and there is nothing to close. Only lhf_build takes memory while
 * it runs, and lhf_check where a page has a fault or a chain has 64 pages or more; they give it back. Any number of threads may
 * look keys up in one image. Bytes and index have to stay where they are, and as they are, while a handle has them. */
#ifndef LHF_H
#define LHF_H
#include <stddef.h>
#include <stdint.h>
#ifdef __cplusplus
extern "C" {
#endif

/* The version of this interface, which is that of the shared library's soname. */
#define LHF_VERSION 1

enum {
    LHF_MAX_KEY = 56,   /* bytes of the longest key; a key has at least one */
    LHF_MAX_VALUE = 112 /* bytes of the longest value */
};

/* What calls answer: LHF_OK, why bytes are no image (1 to 14, the faults I1 to I14 of docs/FORMATS.md), or one of those behind.
 * The page of a fault, or the offset of LHF_HEADER_FIELD, stands in the handle, as `at`. */
enum {
    LHF_OK = 0,
    LHF_MAGIC = 1,         /* the bytes begin neither with LHF1 nor with LHF2 */
    LHF_HEADER_FIELD = 2,  /* a field of the header is out of its range */
    LHF_COUNTS = 3,        /* the header's number of pages or of records can't be */
    LHF_SHORT = 4,         /* fewer bytes than the header's pages */
    LHF_TRAILING = 5,      /* more of them */
    LHF_KIND = 6,          /* of a page: its kind, or a reserved byte */
    LHF_BUCKET_NUMBER = 7, /* its bucket */
    LHF_LEVEL = 8,         /* its level */
    LHF_USED = 9,          /* its number of records; of page 0: the sum of all */
    LHF_NEXT = 10,         /* the page that it names */
    LHF_TWICE = 11,        /* it is named twice */
    LHF_NEVER = 12,        /* it is on no chain */
    LHF_SLOT = 13,         /* a slot has no record, or isn't zeros */
    LHF_MISFIT = 14,       /* a record belongs elsewhere, or its key stands before it */
    LHF_NO_MEMORY = 15,    /* there is no memory to look at the pages */
    LHF_CHANGED = 16,      /* bytes, index and numbers aren't those of one check */
    LHF_ABSENT = 17,       /* no such key; no record more; no such code */
    LHF_BAD_SETTING = 18,  /* a setting of a new file is out of its range */
    LHF_BAD_RECORD = 19,   /* a key or a value to be put has a length that none has */
    LHF_TOO_LARGE = 20,    /* an image would have more than 1,048,576 pages */
    LHF_TOO_SMALL = 21     /* there is too little room for an image */
};

/* Bytes that are lent. A slice of no bytes points somewhere too: `at` is never null. */
struct lhf_slice {
    const unsigned char *at;
    size_t len;
};
#define LHF_NOTHING {(const unsigned char *)"", 0}

/* What is kept of a page of a checked image: 32 bytes of memory of the caller's, which the library writes. */
struct lhf_page {
    unsigned char marks[24];
    unsigned char used;
    uint32_t next;
};

/* An image that was opened. All fields are the library's to write. */
struct lhf {
    struct lhf_slice bytes;
    const struct lhf_page *index;
    size_t index_len;
    uint64_t records;  /* how many there are */
    uint32_t version;  /* 1 or 2 */
    uint32_t initial;  /* the configuration: buckets at first, */
    uint32_t capacity; /* records of a page, */
    uint32_t load;     /* load in percent, */
    uint32_t max;      /* most buckets */
    uint32_t buckets;
    uint32_t pages;
    uint32_t at;       /* the place of the last fault */
};
#define LHF_INIT {LHF_NOTHING, (const struct lhf_page *)16, 0, 0, 0, 0, 0, 0, 0, 0, 0, 0}

/* A key of several that are looked up in one call. The caller writes `key` and puts LHF_NOTHING into `value`; the call writes
 * `value` and `code`, and keeps to itself what it has read of the key. */
struct lhf_ask {
    struct lhf_slice key;
    struct lhf_slice value;
    uint32_t code; /* LHF_OK, with the value, or LHF_ABSENT, or LHF_CHANGED */
    uint32_t own[3];
};

/* A record that is to be put into an image. */
struct lhf_record {
    struct lhf_slice key;
    struct lhf_slice value;
};

/* The configuration of a file that begins empty. */
struct lhf_settings {
    uint32_t initial;  /* buckets at first, 1 to 256 */
    uint32_t capacity; /* records of a page, 1 to 24 */
    uint32_t load;     /* load in percent, 10 to 200 */
    uint32_t max;      /* most buckets, from `initial` to 65,536 */
};
#define LHF_DEFAULT_SETTINGS {1, 14, 100, 65536}

/* Opens bytes: looks at the first page, and at how many bytes there are. LHF_OK, or LHF_MAGIC to LHF_TRAILING. */
uint32_t lhf_open(struct lhf *image, const void *bytes, size_t size);

/* How many entries the index of an image has: one for each page. */
size_t lhf_index_len(const struct lhf *image);

/* Looks at each page of an opened image once, and writes its index. LHF_OK, or the first fault at its least page, or
 * LHF_NO_MEMORY, or LHF_CHANGED where `len` isn't lhf_index_len; after a fault the index has entries of some pages. */
uint32_t lhf_check(struct lhf *image, struct lhf_page *index, size_t len);

/* The value of a key in a checked image: LHF_OK, with the value, or LHF_ABSENT, or LHF_CHANGED. */
uint32_t lhf_find(const struct lhf *image, const void *key, size_t len, struct lhf_slice *value);

/* The values of several keys, each as lhf_find finds it, in `code` and `value` of each. What is read first for each key is read
 * for all before any is compared, so their waits for memory run side by side: 8 to 32 keys a call do well. LHF_OK, or
 * LHF_CHANGED, and then nothing is written: the handle isn't of a checked image. */
uint32_t lhf_find_many(const struct lhf *image, struct lhf_ask *asks, size_t len);

/* The value of a key in an opened image, checked or not: as lhf_find, or the first fault of a page that was met. Each page of
 * the key's chain is judged on the way, which takes longer. */
uint32_t lhf_seek(struct lhf *image, const void *key, size_t len, struct lhf_slice *value);

/* The first record from `*place` on, which becomes the place behind it: LHF_OK, or LHF_ABSENT behind the last, or LHF_CHANGED.
 * From 0 on each record comes once. */
uint32_t lhf_next(const struct lhf *image, uint64_t *place, struct lhf_slice *key, struct lhf_slice *value);

/* Writes an image of version 2 of `old` with `len` records more, as inserts put them: where a key is there already, its record
 * stays as it is. `old` is an image of either version, or none where `old_size` is 0: then the file begins empty, with `settings`,
 * which else say nothing. LHF_OK, with the bytes of the image in `*size`; LHF_TOO_SMALL, with those that it would have; or why
 * `old` is no image, or LHF_BAD_SETTING, LHF_BAD_RECORD, LHF_TOO_LARGE or LHF_NO_MEMORY. Nothing is written but with LHF_OK. */
uint32_t lhf_build(const void *old, size_t old_size, const struct lhf_record *records, size_t len,
                   const struct lhf_settings *settings, void *image, size_t room, size_t *size);

/* What a code says, as a text that is always there: LHF_OK, or LHF_ABSENT where no call answers such a code. */
uint32_t lhf_text(uint32_t code, struct lhf_slice *text);

#ifdef __cplusplus
}
#endif
#endif
