/*
 * Counts keys in a yak heap: each task makes its objects in an epoch of its own, and the counts live on in the control space.
 *
 * A table is an object of BUCKETS chains; an entry has the next entry, the key and the count. Each task also makes one object
 * for each row, as a task does that parses rows. These die with the task's epoch, without a trace of them.
 */
#include "yak.h"

#include <stdio.h>
#include <stdlib.h>

enum { PAGES = 32, THREADS = 1, THREAD = 1, BUCKETS = 64, TASKS = 20, ROWS = 1000, KEYS = 50, TABLE = 1 };

static uint64_t *memory;
static size_t words;

static void must(yak_status status, const char *call) {
    if (status != YAK_OK) {
        fprintf(stderr, "%s: status %u\n", call, (unsigned)status);
        exit(1);
    }
}

static yak_value top(uint32_t slot) {
    yak_value value;
    must(yak_get(memory, words, THREAD, slot, &value), "yak_get");
    return value;
}

static void load(uint32_t slot, uint32_t field) { must(yak_load(memory, words, THREAD, slot, field), "yak_load"); }
static void store(uint32_t slot, uint32_t field, uint32_t value) { must(yak_store(memory, words, THREAD, slot, field, value), "yak_store"); }
static void integer(uint64_t number) { must(yak_int(memory, words, THREAD, number), "yak_int"); }
static void make(uint32_t fields) { must(yak_new(memory, words, THREAD, fields), "yak_new"); }
static void pop(uint32_t count) {
    while (count-- > 0) {
        must(yak_pop(memory, words, THREAD), "yak_pop");
    }
}

/* The integer in a field of a slot's object. `free` is the stack's length. */
static uint64_t field_int(uint32_t slot, uint32_t field, uint32_t free) {
    load(slot, field);
    uint64_t number = top(free).number;
    pop(1);
    return number;
}

/* Adds to the count of a key. The table stands in slot TABLE, and `free` is the stack's length. */
static void add(uint64_t key, uint64_t count, uint32_t free) {
    uint32_t bucket = (uint32_t)(key % BUCKETS);
    uint32_t at = free;
    load(TABLE, bucket);
    while (top(at).kind == YAK_OBJECT && field_int(at, 1, at + 1) != key) {
        load(at, 0);
        at++;
    }
    if (top(at).kind == YAK_OBJECT) {
        integer(field_int(at, 2, at + 1) + count);
        store(at, 2, at + 1);
        pop(at + 2 - free);
        return;
    }
    pop(at + 1 - free);
    make(3);
    load(TABLE, bucket);
    store(free, 0, free + 1);
    pop(1);
    integer(key);
    store(free, 1, free + 1);
    pop(1);
    integer(count);
    store(free, 2, free + 1);
    pop(1);
    store(TABLE, bucket, free);
    pop(1);
}

static uint64_t moved_in_all;

static void run_task(uint32_t task) {
    yak_ended ended;
    must(yak_begin(memory, words, THREAD), "yak_begin");
    for (uint32_t row = 0; row < ROWS; row++) {
        uint64_t key = (task * 7 + row * row) % KEYS;
        make(2);
        integer(key);
        store(2, 0, 3);
        pop(1);
        add(key, 1, 3);
        pop(1);
    }
    must(yak_end(memory, words, THREAD, &ended), "yak_end");
    moved_in_all += ended.moved;
}

int main(void) {
    words = yak_words(PAGES, THREADS);
    memory = calloc(words, sizeof *memory);
    if (memory == NULL) {
        return 2;
    }
    must(yak_open(memory, words, PAGES, THREADS), "yak_open");
    make(BUCKETS);
    for (uint32_t task = 0; task < TASKS; task++) {
        run_task(task);
    }
    uint64_t total = 0;
    for (uint32_t bucket = 0; bucket < BUCKETS; bucket++) {
        uint32_t at = 2;
        load(TABLE, bucket);
        while (top(at).kind == YAK_OBJECT) {
            uint64_t count = field_int(at, 2, at + 1);
            printf("%llu %llu\n", (unsigned long long)field_int(at, 1, at + 1), (unsigned long long)count);
            total += count;
            load(at, 0);
            at++;
        }
        pop(at - 1);
    }
    yak_pages pages;
    must(yak_census(memory, words, THREAD, &pages), "yak_census");
    printf("%llu rows, %llu objects moved, pages %u free %u region %u control\n", (unsigned long long)total,
           (unsigned long long)moved_in_all, pages.free, pages.region, pages.control);
    /* Refusals are statuses. */
    printf("%u %u %u %u\n", (unsigned)yak_load(memory, words, THREAD, 9, 0), (unsigned)yak_pop(memory, words, 2),
           (unsigned)yak_int(memory, words, THREAD, UINT64_MAX), (unsigned)yak_null(memory, words - 1, THREAD));
    free(memory);
    return total == (uint64_t)TASKS * ROWS ? 0 : 3;
}
