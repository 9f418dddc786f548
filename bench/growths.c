/* Counts the requests for memory of each run of a hoard, for bench/growths.py. It is preloaded before
 * the C library.
 *
 * A run begins after a successful request of RUN_BEGINS bytes, and ends when that block is freed
 * (`leave` and `give_back` of the hoard). A request of CALL_ENDS bytes outside a run means that the
 * last run answered as the call does with ample memory (`verdict`). Then a line is written to standard
 * error, with
 *
 * - how many requests that run made;
 * - how many runs were refused;
 * - how many requests were the first refused of some run;
 * - how many others asked for memory that the call had anyway: their block was long enough already,
 *   or was made of what the call had freed;
 * - the number and size of the rest;
 * - whether that run was refused a request, and answered as with ample memory all the same.
 */
#define _GNU_SOURCE
#include <malloc.h>
#include <stdio.h>
#include <stdlib.h>
#include <string.h>
#include <unistd.h>

#define RUN_BEGINS 2047
#define CALL_ENDS 2045
/* A hoard asks for blocks of this size while it fills its region, and no call does. If a run is left
 * no byte, the block that meanwhile keeps room for it has the size of RUN_BEGINS, too. What is asked for
 * after that block is the hoard's, and no run. */
#define FILLS 0x2000000
#define MOST 200000

extern void *__libc_malloc(size_t size);
extern void *__libc_realloc(void *old, size_t size);
extern void __libc_free(void *block);

struct block {
    char *begin, *end;
};

static void *begin_of_run;
static int is_running, is_filling;
static long requests, first_refused, refused_runs, given_back;
static unsigned char is_met[MOST], is_had[MOST];
static size_t sizes[MOST];
static struct block free_blocks[MOST];

static struct block block_at(void *begin) {
    struct block block = {begin, (char *)begin + malloc_usable_size(begin)};
    return block;
}

static void give(struct block block) {
    if (given_back < MOST)
        free_blocks[given_back++] = block;
}

static void count(void *begin, size_t size, struct block before) {
    if (requests + 1 >= MOST)
        return;
    is_filling |= size == FILLS;
    sizes[++requests] = size;
    is_had[requests] = begin && before.begin && size <= (size_t)(before.end - before.begin);
    if (!begin) {
        if (!first_refused)
            first_refused = requests;
        return;
    }
    struct block block = block_at(begin);
    for (long i = 0; i < given_back; i++)
        if (block.begin < free_blocks[i].end && free_blocks[i].begin < block.end)
            is_had[requests] = 1;
}

static void end_run(void) {
    is_running = 0;
    if (first_refused && !is_filling) {
        is_met[first_refused] = 1;
        refused_runs++;
    }
}

static void end_call(void) {
    long met = 0, had = 0;
    for (long nth = 1; nth <= requests; nth++) {
        met += is_met[nth];
        had += !is_met[nth] && is_had[nth];
    }
    dprintf(STDERR_FILENO, "growths: %ld requests, %ld runs refused, %ld met, %ld had anyway,"
            " passed over:", requests, refused_runs, met, had);
    for (long nth = 1; nth <= requests; nth++)
        if (!is_met[nth] && !is_had[nth])
            dprintf(STDERR_FILENO, " %ld(%zu)", nth, sizes[nth]);
    if (first_refused)
        dprintf(STDERR_FILENO, "; answered behind a refusal of %ld(%zu)", first_refused,
                sizes[first_refused]);
    dprintf(STDERR_FILENO, "\n");
    memset(is_met, 0, sizeof is_met);
    refused_runs = 0;
}

void *malloc(size_t size) {
    struct block none = {0, 0};
    void *block = __libc_malloc(size);
    if (is_running) {
        count(block, size, none);
    } else if (size == RUN_BEGINS && block) {
        begin_of_run = block;
        is_running = 1;
        is_filling = requests = first_refused = given_back = 0;
    } else if (size == CALL_ENDS) {
        end_call();
    }
    return block;
}

void *realloc(void *old, size_t size) {
    struct block before = {0, 0};
    if (is_running && old)
        before = block_at(old);
    void *block = __libc_realloc(old, size);
    if (is_running) {
        count(block, size, before);
        if (block && old && block != old)
            give(before);
    }
    return block;
}

void free(void *block) {
    if (is_running && block == begin_of_run)
        end_run();
    else if (is_running && block)
        give(block_at(block));
    __libc_free(block);
}
