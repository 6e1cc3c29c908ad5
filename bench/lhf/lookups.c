/* Look-ups of 16-byte keys in liblhf, tinycdb and LMDB, from one C program: nanoseconds of processor time a call, in rounds in
 * turns, of keys that are there and of keys that aren't.
 *
 *     lookups RECORDS ROUNDS FOLDER
 *
 * The folder gets the three files, of the same records. */
#define _GNU_SOURCE
#include <cdb.h>
#include <fcntl.h>
#include <inttypes.h>
#include <lmdb.h>
#include <stdio.h>
#include <stdlib.h>
#include <string.h>
#include <sys/mman.h>
#include <sys/stat.h>
#include <time.h>
#include <unistd.h>
#include "lhf.h"

enum { K = 16, MANY = 16, MOST_ROUNDS = 100 };

#define MUST(fact) \
    do { \
        if (!(fact)) fprintf(stderr, "lookups.c:%d: %s\n", __LINE__, #fact), exit(1); \
    } while (0)

static uint64_t n, sum;
static unsigned char *there, *absent, *values;
static uint32_t *order;
static struct lhf image = LHF_INIT;
static struct cdb cdb;
static MDB_txn *txn;
static MDB_dbi dbi;

static double now(void) {
    struct timespec t;
    clock_gettime(CLOCK_PROCESS_CPUTIME_ID, &t);
    return t.tv_sec * 1e9 + t.tv_nsec;
}

static uint64_t mixed(uint64_t x) {
    x = (x ^ x >> 30) * 0xbf58476d1ce4e5b9u;
    x = (x ^ x >> 27) * 0x94d049bb133111ebu;
    return x ^ x >> 31;
}

static unsigned char *drawn(uint64_t tag) {
    uint64_t *made = malloc(n * K);
    MUST(made);
    for (uint64_t i = 0; i < 2 * n; i++) made[i] = mixed(mixed(tag) + (i + 1) * 0x9e3779b97f4a7c15u);
    return (unsigned char *)made;
}

static void seen(const void *value) {
    uint64_t word;
    memcpy(&word, value, sizeof word);
    sum += word;
}

/* ---- one pass over all keys, in an order of its own; each answers how many were found */

#define PASS(NAME, ...) \
    static uint64_t NAME(const unsigned char *keys) { \
        uint64_t found = 0; \
        for (uint64_t i = 0; i < n; i++) { \
            const unsigned char *key = keys + (size_t)K * order[i]; \
            __VA_ARGS__ \
        } \
        return found; \
    }

PASS(with_find, struct lhf_slice v = LHF_NOTHING; if (lhf_find(&image, key, K, &v) == LHF_OK) seen(v.at), found++;)
PASS(with_seek, struct lhf_slice v = LHF_NOTHING; if (lhf_seek(&image, key, K, &v) == LHF_OK) seen(v.at), found++;)
PASS(with_cdb, if (cdb_find(&cdb, key, K) > 0) seen(cdb_getdata(&cdb)), found++;)
PASS(with_lmdb, MDB_val k; MDB_val v; k.mv_size = K; k.mv_data = (void *)key; if (!mdb_get(txn, dbi, &k, &v)) seen(v.mv_data), found++;)

static uint64_t with_many(const unsigned char *keys) {
    static struct lhf_ask asks[MANY];
    uint64_t found = 0;
    for (uint64_t i = 0; i < n; i += MANY) {
        uint64_t some = n - i < MANY ? n - i : MANY;
        for (uint64_t j = 0; j < some; j++) {
            struct lhf_ask ask = {{keys + (size_t)K * order[i + j], K}, LHF_NOTHING, 0, {0, 0, 0}};
            asks[j] = ask;
        }
        MUST(lhf_find_many(&image, asks, some) == LHF_OK);
        for (uint64_t j = 0; j < some; j++) {
            if (asks[j].code == LHF_OK) seen(asks[j].value.at), found++;
        }
    }
    return found;
}

/* ---- the three files */

static void make_image(const char *path) {
    struct lhf_record *records = malloc(n * sizeof *records);
    struct lhf_settings settings = LHF_DEFAULT_SETTINGS;
    size_t size = 0, room = 4096 * (3 + n / 7);
    unsigned char *bytes = malloc(room);
    MUST(records && bytes);
    for (uint64_t i = 0; i < n; i++) {
        struct lhf_record record = {{there + i * K, K}, {values + i * K, K}};
        records[i] = record;
    }
    MUST(lhf_build("", 0, records, n, &settings, bytes, room, &size) == LHF_OK);
    FILE *file = fopen(path, "wb");
    MUST(file && fwrite(bytes, 1, size, file) == size && !fclose(file));
    free(records), free(bytes);
    int fd = open(path, O_RDONLY);
    bytes = mmap(0, size, PROT_READ, MAP_PRIVATE | MAP_POPULATE, fd, 0);
    MUST(bytes != MAP_FAILED && lhf_open(&image, bytes, size) == LHF_OK);
    size_t pages = lhf_index_len(&image);
    struct lhf_page *index = aligned_alloc(64, (pages * sizeof *index + 63) / 64 * 64);
    double start = now();
    MUST(index && lhf_check(&image, index, pages) == LHF_OK);
    printf("lhf_check %.2f ms, image of %zu bytes\n", (now() - start) / 1e6, size);
}

static void make_cdb(const char *path) {
    struct cdb_make made;
    int fd = open(path, O_RDWR | O_CREAT | O_TRUNC, 0600);
    MUST(fd >= 0 && !cdb_make_start(&made, fd));
    for (uint64_t i = 0; i < n; i++) MUST(!cdb_make_add(&made, there + i * K, K, values + i * K, K));
    MUST(!cdb_make_finish(&made) && !cdb_init(&cdb, fd));
}

static void make_lmdb(const char *path) {
    MDB_env *env;
    MUST(!mdb_env_create(&env) && !mdb_env_set_mapsize(env, (size_t)1 << 30));
    MUST(!mdb_env_open(env, path, MDB_NOSYNC | MDB_NOSUBDIR, 0600) && !mdb_txn_begin(env, 0, 0, &txn) && !mdb_dbi_open(txn, 0, 0, &dbi));
    for (uint64_t i = 0; i < n; i++) {
        MDB_val key = {K, there + i * K}, value = {K, values + i * K};
        MUST(!mdb_put(txn, dbi, &key, &value, 0));
    }
    MUST(!mdb_txn_commit(txn));
    mdb_env_close(env);
    MUST(!mdb_env_create(&env) && !mdb_env_set_mapsize(env, (size_t)1 << 30));
    MUST(!mdb_env_open(env, path, MDB_RDONLY | MDB_NOLOCK | MDB_NOSUBDIR, 0600) && !mdb_txn_begin(env, 0, MDB_RDONLY, &txn));
    MUST(!mdb_dbi_open(txn, 0, 0, &dbi));
}

static int by_size(const void *a, const void *b) {
    double x = *(const double *)a, y = *(const double *)b;
    return (x > y) - (x < y);
}

int main(int argc, char **argv) {
    MUST(argc == 4);
    n = strtoull(argv[1], 0, 10);
    int rounds = atoi(argv[2]);
    MUST(n > 0 && n < 10000000 && rounds > 0 && rounds <= MOST_ROUNDS && !chdir(argv[3]));
    there = drawn(1), absent = drawn(2), values = drawn(3);
    order = malloc(n * sizeof *order);
    MUST(order);
    for (uint64_t i = 0; i < n; i++) order[i] = i;
    for (uint64_t i = n - 1; i > 0; i--) {
        uint64_t j = mixed(i) % (i + 1), one = order[i];
        order[i] = order[j], order[j] = one;
    }
    unlink("records.mdb");
    make_image("records.image"), make_cdb("records.cdb"), make_lmdb("records.mdb");
    struct {
        const char *name;
        uint64_t (*pass)(const unsigned char *);
    } all[] = {{"lhf_find", with_find}, {"lhf_find_many", with_many}, {"lhf_seek", with_seek}, {"tinycdb", with_cdb}, {"LMDB", with_lmdb}};
    enum { M = sizeof all / sizeof *all };
    static double found[M][MOST_ROUNDS], missed[M][MOST_ROUNDS];
    uint64_t times = 300000 / n + 1, passes = times > 200 ? 200 : times;
    for (int round = -1; round < rounds; round++) {
        for (int turn = 0; turn < M; turn++) {
            int m = (turn + round + 1) % M;
            uint64_t count = 0, none = 0;
            double start = now();
            for (uint64_t i = 0; i < passes; i++) count += all[m].pass(there);
            double half = now();
            for (uint64_t i = 0; i < passes; i++) none += all[m].pass(absent);
            double end = now();
            MUST(count == n * passes && none == 0);
            if (round >= 0) found[m][round] = (half - start) / (n * passes), missed[m][round] = (end - half) / (n * passes);
        }
    }
    for (int m = 0; m < M; m++) {
        qsort(found[m], rounds, sizeof(double), by_size), qsort(missed[m], rounds, sizeof(double), by_size);
        printf("%-14s found %6.1f absent %6.1f ns (least %6.1f and %6.1f)\n", all[m].name, found[m][rounds / 2],
               missed[m][rounds / 2], found[m][0], missed[m][0]);
    }
    fprintf(stderr, "sum %" PRIu64 "\n", sum);
    return 0;
}
