/*
 * yak: a managed heap for data-processing threads, in memory that the caller owns.
 *
 * A heap is an array of 64-bit words. The caller allocates it, hands it to each call with its length, and frees it when it
 * is done with the heap; the library allocates nothing and keeps nothing between calls. It starts no thread, takes no lock
 * and never ends the process. Each call returns.
 *
 * A thread of the heap (numbered from 1) has a stack of slots (numbered from the bottom, from 0) and a number of open epochs.
 * Slot 0 of each stack refers to the root at the start, an object of 16 fields. New objects lie in the region of the thread's
 * innermost epoch, or in the control space where it has no epoch open. The end of an epoch gives the region back whole; what
 * is still reachable from a stack or from an object outside is moved out before. Objects are named by slots alone: a slot
 * stays valid through each collection and each end.
 *
 * What a caller has to see to, since no call can check it:
 *   - `memory` points to `words` words, aligned to 8 bytes, that nothing else reads or writes during the call. That holds for
 *     an output parameter too, and the two don't overlap.
 *   - After `yak_open` the words are changed by these calls alone. They may be copied or moved as a whole (with memcpy, to a
 *     file, to another address) between calls.
 *   - One call at a time on one heap, whichever of its threads it is made for. Calls on different heaps don't touch each other.
 *
 * Statuses. A call with any status but YAK_OK and YAK_OUT_OF_HEAP has changed neither the heap nor an output parameter.
 */
#ifndef YAK_H
#define YAK_H

#include <stddef.h>
#include <stdint.h>

#ifdef __cplusplus
extern "C" {
#endif

typedef uint32_t yak_status;

#define YAK_OK 0u              /* the call is done */
#define YAK_BAD_SLOT 1u        /* a slot number is at or past the stack's length */
#define YAK_NOT_A_REFERENCE 2u /* the slot holds null or an integer */
#define YAK_BAD_FIELD 3u       /* the field is at or past the object's number of fields */
#define YAK_STACK_FULL 4u      /* the stack has YAK_STACK_SLOTS slots */
#define YAK_STACK_EMPTY 5u     /* the stack has no slot */
#define YAK_TOO_DEEP 6u        /* the thread has YAK_MAX_DEPTH epochs open */
#define YAK_NO_EPOCH 7u        /* the thread has no epoch open */
#define YAK_TOO_LONG 8u        /* more than YAK_MAX_FIELDS fields were asked for */
#define YAK_NAMES_SPENT 9u     /* the thread has made all the objects that a thread may make */
#define YAK_OUT_OF_HEAP 10u    /* no room for the object, after a collection; the stack is as it was */
#define YAK_NO_HEAP 11u        /* `words` isn't the length of the heap whose numbers stand in `memory` */
#define YAK_NO_THREAD 12u      /* `thread` is 0 or more than the heap's threads */
#define YAK_BAD_NUMBER 13u     /* an integer is more than YAK_MAX_INT */

#define YAK_MAX_PAGES 4096u
#define YAK_MAX_THREADS 8u
#define YAK_MAX_DEPTH 8u
#define YAK_MAX_FIELDS 253u
#define YAK_MAX_INT UINT64_C(9223372036854775807)
#define YAK_STACK_SLOTS 64u
#define YAK_PAGE_WORDS 256u

/* What a slot holds: of YAK_INT `number` is the integer, of YAK_OBJECT the object's number of fields, of YAK_NULL 0. */
#define YAK_NULL 0u
#define YAK_INT 1u
#define YAK_OBJECT 2u

typedef struct yak_value {
    uint32_t kind;
    uint64_t number;
} yak_value;

/* How an epoch ended. */
typedef struct yak_ended {
    uint64_t moved;     /* how many objects were moved out of the region */
    uint32_t tight;     /* 1 where they had to stay in the region's own pages, which are the control space's now, else 0 */
    uint32_t collected; /* 1 where a collection of the control space came first, else 0 */
} yak_ended;

/* How many pages are free, belong to regions, and belong to the control space. They add up to the heap's pages. */
typedef struct yak_pages {
    uint32_t free;
    uint32_t region;
    uint32_t control;
} yak_pages;

/* ---- heaps ---- */

/*
 * The length, in words of 8 bytes, of a heap of so many pages (1 to YAK_MAX_PAGES) of YAK_PAGE_WORDS words and so many threads
 * (1 to YAK_MAX_THREADS), or 0 for other numbers. It is about four times the words of the pages.
 */
size_t yak_words(uint32_t pages, uint8_t threads);

/*
 * Makes `memory`, whatever it holds, a heap in its opening state. `words` has to be `yak_words(pages, threads)` and not 0.
 * Otherwise YAK_NO_HEAP, and nothing changes. To be done with a heap, free its memory.
 */
yak_status yak_open(uint64_t *memory, size_t words, uint32_t pages, uint8_t threads);

/* ---- calls of a thread ----
 * Each may answer YAK_NO_HEAP, and then YAK_NO_THREAD. The other refusals are named with the call, in the order in which they
 * are looked for: where several apply, the first is answered.
 */

/* Pushes an integer. YAK_BAD_NUMBER, YAK_STACK_FULL. */
yak_status yak_int(uint64_t *memory, size_t words, uint8_t thread, uint64_t number);

/* Pushes null. YAK_STACK_FULL. */
yak_status yak_null(uint64_t *memory, size_t words, uint8_t thread);

/* Pushes the value of a slot. YAK_BAD_SLOT, YAK_STACK_FULL. */
yak_status yak_dup(uint64_t *memory, size_t words, uint8_t thread, uint32_t slot);

/* Drops the top slot. YAK_STACK_EMPTY. */
yak_status yak_pop(uint64_t *memory, size_t words, uint8_t thread);

/*
 * Makes an object of so many fields (0 to YAK_MAX_FIELDS), all null, and pushes a reference to it. It takes 3 words beside its
 * fields. Where it doesn't fit and no page is free, a collection of the control space is made. YAK_TOO_LONG, YAK_STACK_FULL,
 * YAK_NAMES_SPENT, YAK_OUT_OF_HEAP.
 */
yak_status yak_new(uint64_t *memory, size_t words, uint8_t thread, uint32_t fields);

/* Pushes a field of the object to which a slot refers. YAK_BAD_SLOT, YAK_NOT_A_REFERENCE, YAK_BAD_FIELD, YAK_STACK_FULL. */
yak_status yak_load(uint64_t *memory, size_t words, uint8_t thread, uint32_t slot, uint32_t field);

/*
 * Puts the value of the slot `value` into a field of the object to which `slot` refers. YAK_BAD_SLOT (of either slot),
 * YAK_NOT_A_REFERENCE, YAK_BAD_FIELD.
 */
yak_status yak_store(uint64_t *memory, size_t words, uint8_t thread, uint32_t slot, uint32_t field, uint32_t value);

/* Shows the value of a slot. YAK_BAD_SLOT. */
yak_status yak_get(uint64_t *memory, size_t words, uint8_t thread, uint32_t slot, yak_value *value);

/* Tells 1 where two slots hold the same integer, the same object, or null both, else 0. YAK_BAD_SLOT. */
yak_status yak_same(uint64_t *memory, size_t words, uint8_t thread, uint32_t slot, uint32_t other, uint32_t *same);

/* Opens an epoch. YAK_TOO_DEEP. */
yak_status yak_begin(uint64_t *memory, size_t words, uint8_t thread);

/* Ends the innermost epoch. YAK_NO_EPOCH. */
yak_status yak_end(uint64_t *memory, size_t words, uint8_t thread, yak_ended *ended);

/* Collects the control space: what neither a stack nor an object of a region reaches is given back. */
yak_status yak_collect(uint64_t *memory, size_t words, uint8_t thread);

/* Counts the pages. */
yak_status yak_census(uint64_t *memory, size_t words, uint8_t thread, yak_pages *pages);

#ifdef __cplusplus
}
#endif

#endif
