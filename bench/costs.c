/* Nanoseconds of the processor's clock that an allocation takes, and a free, of one loader's blocks:
 *
 *     costs WAY BLOCKS WORDS ROUNDS      the least of so many rounds, each with a loader, or a buffer, of its own
 *
 * WAY is `number`, a block by a number in a seat's loader; `unnamed`, one by start and words; `bare`, the same without a list of
 * live blocks; `system`, by a number in a handle's loader; `malloc`; or `bump`, a pointer that rises in a buffer. No word is written. For costs.py. */
#include <stdint.h>
#include <stdio.h>
#include <stdlib.h>
#include <string.h>
#include <time.h>

#include "../examples/c/nizgrabul.h"

static const nizgrabul_options options = {.nodes = 64, .max_granules = 8192};
static nizgrabul_seat seat;
static nizgrabul_handle handle;
static uint64_t *starts, words, top, refused;

static double now(void) {
    struct timespec time;
    clock_gettime(CLOCK_PROCESS_CPUTIME_ID, &time);
    return 1e9 * time.tv_sec + time.tv_nsec;
}

static void check(nizgrabul_answer answer, uint64_t block) {
    starts[block] = answer.value;
    refused += answer.status != NIZGRABUL_DONE;
}

static void share(void) {
    refused += nizgrabul_share(&options, 1, &seat) != NIZGRABUL_DONE;
    nizgrabul_seat_wait(&seat);
}
static void end(void) { nizgrabul_seat_end(&seat); }

static void number_begin(void) {
    share();
    check(nizgrabul_seat_new_loader(&seat, NIZGRABUL_STANDARD), 0);
    nizgrabul_seat_let_go(&seat);
}
static void number_take(uint64_t block) {
    nizgrabul_answer answer = nizgrabul_seat_alloc(&seat, block, words);
    if (answer.status == NIZGRABUL_NOT_HELD) {
        nizgrabul_seat_wait(&seat);
        answer = nizgrabul_seat_alloc(&seat, block, words);
        nizgrabul_seat_let_go(&seat);
    }
    check(answer, block);
}
static void number_give(uint64_t block) { refused += nizgrabul_seat_free(&seat, block).status != NIZGRABUL_DONE; }

static void unnamed_begin(void) {
    share();
    check(nizgrabul_seat_new_arenas(&seat, NIZGRABUL_STANDARD), 0);
    nizgrabul_seat_let_go(&seat);
}
static void unnamed_take(uint64_t block) {
    nizgrabul_answer answer = nizgrabul_seat_take(&seat, false, words);
    if (answer.status == NIZGRABUL_NOT_HELD) {
        nizgrabul_seat_wait(&seat);
        answer = nizgrabul_seat_take(&seat, false, words);
        nizgrabul_seat_let_go(&seat);
    }
    check(answer, block);
}
static void unnamed_give(uint64_t block) {
    refused += nizgrabul_seat_give(&seat, false, starts[block], words).status != NIZGRABUL_DONE;
}

static void bare_begin(void) {
    share();
    check(nizgrabul_seat_new_bare(&seat, NIZGRABUL_STANDARD), 0);
    nizgrabul_seat_let_go(&seat);
}
static void bare_give(uint64_t block) {
    refused += nizgrabul_seat_give_bare(&seat, false, starts[block], words).status != NIZGRABUL_DONE;
}

static void system_begin(void) {
    refused += nizgrabul_new(&options, &handle) != NIZGRABUL_DONE;
    check(nizgrabul_new_loader(&handle, 1, NIZGRABUL_STANDARD), 0);
}
static void system_take(uint64_t block) { check(nizgrabul_alloc(&handle, 1, block, words), block); }
static void system_give(uint64_t block) { refused += nizgrabul_free(&handle, 1, block).status != NIZGRABUL_DONE; }
static void system_end(void) { nizgrabul_delete(&handle); }

static void nothing(void) {}
static void malloc_take(uint64_t block) { starts[block] = (uintptr_t)malloc(8 * words); }
static void malloc_give(uint64_t block) { free((void *)(uintptr_t)starts[block]); }

static void bump_begin(void) { top = 0; }
static void bump_take(uint64_t block) {
    starts[block] = top;
    top += words;
}
static void bump_give(uint64_t block) { (void)block; }

static const struct way {
    const char *name;
    void (*begin)(void), (*take)(uint64_t), (*give)(uint64_t), (*end)(void);
} ways[] = {
    {"number", number_begin, number_take, number_give, end},
    {"unnamed", unnamed_begin, unnamed_take, unnamed_give, end},
    {"bare", bare_begin, unnamed_take, bare_give, end},
    {"system", system_begin, system_take, system_give, system_end},
    {"malloc", nothing, malloc_take, malloc_give, nothing},
    {"bump", bump_begin, bump_take, bump_give, nothing},
};

int main(int count, char **given) {
    if (count != 5)
        return 2;
    uint64_t blocks = strtoull(given[2], NULL, 10), rounds = strtoull(given[4], NULL, 10);
    double takes = 1e18, gives = 1e18;
    words = strtoull(given[3], NULL, 10);
    starts = calloc(blocks, sizeof *starts);
    for (const struct way *way = ways; way < ways + sizeof ways / sizeof *ways; way++)
        for (uint64_t round = 0; strcmp(way->name, given[1]) == 0 && round < rounds; round++) {
            way->begin();
            double begun = now();
            for (uint64_t block = 0; block < blocks; block++)
                way->take(block);
            double taken = now();
            for (uint64_t block = 0; block < blocks; block++)
                way->give(block);
            double given_back = now();
            way->end();
            takes = taken - begun < takes ? taken - begun : takes;
            gives = given_back - taken < gives ? given_back - taken : gives;
        }
    printf("%.1f %.1f\n", takes / blocks, gives / blocks);
    free(starts);
    return refused != 0;
}
