/*
 * Looks the same random keys up in the same files with this repository's library and with tinycdb's, compares every answer,
 * and prints the ratio of the times. Both are built for release, work on the same bytes in memory, and are timed in turns.
 */
#include <cdb.h>
#include <fcntl.h>
#include <stdint.h>
#include <stdio.h>
#include <stdlib.h>
#include <string.h>
#include <sys/mman.h>
#include <sys/stat.h>
#include <time.h>
#include <unistd.h>

#include "constdb.h"

enum { KEY_MAX = 24, ROUNDS = 7 };

struct key {
    uint8_t bytes[KEY_MAX];
    uint32_t len;
};

static uint64_t seed = 88172645463325252ull;

static uint64_t next_random(void) {
    seed ^= seed << 13;
    seed ^= seed >> 7;
    seed ^= seed << 17;
    return seed;
}

static void die(const char *what) {
    perror(what);
    exit(1);
}

/* Keys that are in the file are numbers after "k", those that are not after "m". */
static struct key make_key(char kind, uint32_t number) {
    struct key k;
    k.len = (uint32_t)snprintf((char *)k.bytes, KEY_MAX, "%c%u", kind, number * 2654435761u);
    return k;
}

static void write_file(const char *path, uint32_t records) {
    struct cdb_make make;
    int fd = open(path, O_RDWR | O_CREAT | O_TRUNC, 0600);
    if (fd < 0) die(path);
    cdb_make_start(&make, fd);
    for (uint32_t i = 0; i < records; i++) {
        struct key k = make_key('k', i);
        uint8_t data[16];
        for (unsigned j = 0; j < sizeof data; j++) data[j] = (uint8_t)next_random();
        if (cdb_make_add(&make, k.bytes, k.len, data, sizeof data) < 0) die("cdb_make_add");
    }
    if (cdb_make_finish(&make) < 0) die("cdb_make_finish");
    close(fd);
}

static double seconds(void) {
    struct timespec t;
    clock_gettime(CLOCK_MONOTONIC, &t);
    return (double)t.tv_sec + (double)t.tv_nsec / 1e9;
}

static double ours(const uint8_t *memory, size_t memory_len, uint32_t len, const struct key *keys, uint32_t count, uint32_t *places) {
    double from = seconds();
    for (uint32_t i = 0; i < count; i++) {
        uint32_t place = 0, data_len = 0;
        if (constdb_find(memory, memory_len, len, keys[i].bytes, keys[i].len, 0, &place, &data_len) != 0) place = UINT32_MAX;
        places[2 * i] = place;
        places[2 * i + 1] = data_len;
    }
    return seconds() - from;
}

static double theirs(struct cdb *db, const struct key *keys, uint32_t count, uint32_t *places) {
    double from = seconds();
    for (uint32_t i = 0; i < count; i++) {
        int found = cdb_find(db, keys[i].bytes, keys[i].len);
        places[2 * i] = found > 0 ? cdb_datapos(db) : 0;
        places[2 * i + 1] = found > 0 ? cdb_datalen(db) : 0;
        if (found < 0) places[2 * i] = UINT32_MAX;
    }
    return seconds() - from;
}

static double least(double a, double b) { return a < b ? a : b; }

/* The best of several rounds of each, in turns. */
static int compare(const char *what, uint32_t records, const uint8_t *memory, size_t memory_len, uint32_t len, struct cdb *db,
                   const struct key *keys, uint32_t count) {
    uint32_t *a = malloc(8 * (size_t)count), *b = malloc(8 * (size_t)count);
    double best_ours = 1e9, best_theirs = 1e9;
    uint32_t hits = 0;
    if (!a || !b) die("malloc");
    for (int round = 0; round < ROUNDS; round++) {
        best_theirs = least(best_theirs, theirs(db, keys, count, b));
        best_ours = least(best_ours, ours(memory, memory_len, len, keys, count, a));
        for (uint32_t i = 0; i < count; i++) {
            if (a[2 * i] != b[2 * i] || a[2 * i + 1] != b[2 * i + 1]) {
                printf("%u records, %s: answers differ at %.*s\n", records, what, (int)keys[i].len, (const char *)keys[i].bytes);
                return 1;
            }
        }
    }
    for (uint32_t i = 0; i < count; i++) hits += a[2 * i] != 0;
    printf("%8u records, %-6s: ratio %.2f  (ours %6.1f ns, tinycdb %6.1f ns, %u of %u found, all answers agree)\n", records, what,
           best_ours / best_theirs, best_ours / count * 1e9, best_theirs / count * 1e9, hits, count);
    free(a);
    free(b);
    return 0;
}

static int run(const char *path, uint32_t records) {
    enum { LOOKUPS = 400000 };
    struct cdb db;
    struct stat st;
    struct key *keys = malloc(LOOKUPS * sizeof *keys);
    int fd, bad;
    if (!keys) die("malloc");
    write_file(path, records);
    fd = open(path, O_RDONLY);
    if (fd < 0 || fstat(fd, &st) < 0 || cdb_init(&db, fd) < 0) die(path);
    /* whole sectors, as a device has them */
    uint32_t len = (uint32_t)st.st_size;
    size_t memory_len = ((size_t)len + 511) / 512 * 512;
    uint8_t *memory = aligned_alloc(4096, (memory_len + 4095) / 4096 * 4096);
    if (!memory) die("aligned_alloc");
    memset(memory, 0, memory_len);
    if (pread(fd, memory, len, 0) != (ssize_t)len) die("pread");
    uint32_t counted = 0, slots = 0, table = 0;
    uint64_t probes = 0, place = 0;
    uint32_t refusal = constdb_audit(memory, memory_len, len, &counted, &slots, &probes, &table, &place);
    if (refusal != 0 || counted != records) {
        printf("%u records: audit refuses with %u at table %u, place %llu, or counts %u\n", records, refusal, table,
               (unsigned long long)place, counted);
        return 1;
    }
    /* both libraries work on the same bytes */
    const unsigned char *mapped = db.cdb_mem;
    db.cdb_mem = memory;
    for (uint32_t i = 0; i < LOOKUPS; i++) keys[i] = make_key('k', (uint32_t)(next_random() % records));
    bad = compare("hits", records, memory, memory_len, len, &db, keys, LOOKUPS);
    for (uint32_t i = 0; i < LOOKUPS; i++) keys[i] = make_key('m', (uint32_t)(next_random() % records));
    bad |= compare("misses", records, memory, memory_len, len, &db, keys, LOOKUPS);
    db.cdb_mem = mapped;
    cdb_free(&db);
    close(fd);
    unlink(path);
    free(memory);
    free(keys);
    return bad;
}

/* Numbers of records may be given as arguments. */
int main(int argc, char **argv) {
    static const uint32_t sizes[] = {1000, 100000, 1000000};
    char path[] = "/tmp/bench-XXXXXX";
    int fd = mkstemp(path), bad = 0;
    if (fd < 0) die(path);
    close(fd);
    for (int i = 1; i < argc; i++) bad |= run(path, (uint32_t)strtoul(argv[i], NULL, 10));
    for (int i = 0; argc < 2 && i < 3; i++) bad |= run(path, sizes[i]);
    return bad;
}
