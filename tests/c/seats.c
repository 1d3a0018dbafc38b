/* Each call of a seat, with each status that it answers, worked by hand; then the same with each growth of the C
 * library's heap refused in turn: a refused call answers that memory is wanting and changes nothing, and at the
 * end no block of the heap is left. Linked with -Wl,--wrap=malloc,--wrap=realloc,--wrap=free. */
#include <stdio.h>
#include <stdlib.h>

#include "nizgrabul.h"

void *__real_malloc(size_t size);
void *__real_realloc(void *block, size_t size);
void __real_free(void *block);

static long asked, refuse, blocks;
static int line; /* of the first call that is answered otherwise */

void *__wrap_malloc(size_t size) {
    if (++asked == refuse) return NULL;
    void *block = __real_malloc(size);
    blocks += block != NULL;
    return block;
}

void *__wrap_realloc(void *block, size_t size) {
    if (++asked == refuse) return NULL;
    void *moved = __real_realloc(block, size);
    blocks += block == NULL && moved != NULL;
    return moved;
}

void __wrap_free(void *block) {
    blocks -= block != NULL;
    __real_free(block);
}

#define ANSWERS(status, wanted) do { if ((status) != NIZGRABUL_##wanted && !line) line = __LINE__; } while (0)
/* A call that takes memory: where it is wanting, it is made again. */
#define TAKES(call, wanted) do { \
    uint32_t got = call; \
    if (got == NIZGRABUL_OUT_OF_MEMORY && refuse) got = call; \
    ANSWERS(got, wanted); \
} while (0)
#define IS(holds) do { if (!(holds) && !line) line = __LINE__; } while (0)

/* Blocks that are known by their starts. */
static void run_without_numbers(void) {
    nizgrabul_options options = {.nodes = 1, .class_nodes = 1, .max_granules = 2, .policy = NIZGRABUL_BALANCED};
    nizgrabul_sums_of_loader sums = {.kind = 7};
    nizgrabul_seat own = {0}, *a = &own;
    nizgrabul_answer block;
    TAKES(nizgrabul_share(&options, 1, a), DONE);
    ANSWERS(nizgrabul_seat_hold(a), DONE);
    ANSWERS(nizgrabul_seat_new_arenas(a, 0).status, DONE);
    ANSWERS(nizgrabul_seat_new_arenas(a, 0).status, LOADER_EXISTS);
    ANSWERS(nizgrabul_seat_new_loader(a, 0).status, LOADER_EXISTS);
    ANSWERS(nizgrabul_seat_alloc(a, 1, 100).status, NO_LOADER);
    ANSWERS(nizgrabul_seat_free(a, 1).status, NO_LOADER);
    TAKES((block = nizgrabul_seat_take(a, false, 100)).status, DONE);
    IS(block.value == 0);
    TAKES((block = nizgrabul_seat_take(a, true, 1)).status, DONE);
    IS(block.value == 67108864 && nizgrabul_seat_used(a) == 102);
    ANSWERS(nizgrabul_seat_totals(a, &sums), DONE);
    IS(sums.kind == 0 && sums.space.chunks == 1 && sums.space.used == 100 && sums.space.live == 100);
    IS(sums.class_space.chunks == 1 && sums.class_space.used == 2 && sums.class_space.live == 2);
    ANSWERS(nizgrabul_seat_give_bare(a, false, 0, 100).status, NO_LOADER);
    ANSWERS(nizgrabul_seat_let_go(a), DONE);
    ANSWERS(nizgrabul_seat_give(a, false, block.value, 2).status, NOT_LIVE);
    ANSWERS(nizgrabul_seat_give(a, true, block.value, 1).status, NOT_LIVE);
    ANSWERS(nizgrabul_seat_give(a, true, block.value, 2).status, DONE);
    ANSWERS(nizgrabul_seat_give(a, true, block.value, 2).status, NOT_LIVE);
    ANSWERS(nizgrabul_seat_give(a, false, 0, 99).status, NOT_LIVE);
    ANSWERS(nizgrabul_seat_give(a, false, 1, 99).status, NOT_LIVE);
    TAKES((block = nizgrabul_seat_take(a, false, 412)).status, DONE);
    IS(block.value == 100);
    TAKES(nizgrabul_seat_take(a, false, 2).status, NOT_HELD);
    ANSWERS(nizgrabul_seat_take(a, false, 0).status, ZERO_WORDS);
    ANSWERS(nizgrabul_seat_take(a, false, 600000).status, TOO_LARGE);
    ANSWERS(nizgrabul_seat_give(a, false, 0, 100).status, DONE);
    TAKES((block = nizgrabul_seat_take(a, false, 100)).status, DONE);
    IS(block.value == 0 && nizgrabul_seat_used(a) == 514);
    ANSWERS(nizgrabul_seat_unload(a).status, NOT_HELD);
    ANSWERS(nizgrabul_seat_hold(a), DONE);
    TAKES(nizgrabul_seat_take(a, false, 8193).status, COMMIT_LIMIT);
    ANSWERS(nizgrabul_seat_unload(a).status, DONE);
    ANSWERS(nizgrabul_seat_unload(a).status, NO_LOADER);
    IS(nizgrabul_seat_used(a) == 0);
    nizgrabul_seat_end(a);
}

/* Blocks that the program alone knows. */
static void run_bare(void) {
    nizgrabul_options options = {.nodes = 1, .class_nodes = 1, .max_granules = 2, .policy = NIZGRABUL_BALANCED};
    nizgrabul_sums_of_loader sums = {.kind = 7};
    nizgrabul_seat own = {0}, *a = &own;
    nizgrabul_answer block;
    ANSWERS(nizgrabul_seat_new_bare(a, 0).status, NO_SEAT);
    ANSWERS(nizgrabul_seat_give_bare(a, false, 0, 2).status, NO_SEAT);
    TAKES(nizgrabul_share(&options, 1, a), DONE);
    ANSWERS(nizgrabul_seat_new_bare(a, 4).status, BAD_KIND);
    ANSWERS(nizgrabul_seat_new_bare(a, 0).status, NOT_HELD);
    ANSWERS(nizgrabul_seat_give_bare(a, false, 0, 2).status, NO_LOADER);
    ANSWERS(nizgrabul_seat_hold(a), DONE);
    ANSWERS(nizgrabul_seat_new_bare(a, 0).status, DONE);
    ANSWERS(nizgrabul_seat_new_bare(a, 0).status, LOADER_EXISTS);
    ANSWERS(nizgrabul_seat_new_arenas(a, 0).status, LOADER_EXISTS);
    ANSWERS(nizgrabul_seat_new_loader(a, 0).status, LOADER_EXISTS);
    ANSWERS(nizgrabul_seat_alloc(a, 1, 100).status, NO_LOADER);
    TAKES((block = nizgrabul_seat_take(a, false, 100)).status, DONE);
    IS(block.value == 0);
    TAKES((block = nizgrabul_seat_take(a, true, 1)).status, DONE);
    IS(block.value == 67108864 && nizgrabul_seat_used(a) == 102);
    ANSWERS(nizgrabul_seat_let_go(a), DONE);
    ANSWERS(nizgrabul_seat_give(a, true, block.value, 2).status, NO_LOADER);
    ANSWERS(nizgrabul_seat_totals(a, &sums), NO_LOADER);
    IS(sums.kind == 7);
    ANSWERS(nizgrabul_seat_give_bare(a, true, block.value, 2).status, DONE);
    TAKES((block = nizgrabul_seat_take(a, false, 412)).status, DONE);
    IS(block.value == 100);
    TAKES(nizgrabul_seat_take(a, false, 2).status, NOT_HELD);
    ANSWERS(nizgrabul_seat_take(a, false, 0).status, ZERO_WORDS);
    ANSWERS(nizgrabul_seat_take(a, false, 600000).status, TOO_LARGE);
    ANSWERS(nizgrabul_seat_give_bare(a, false, 0, 100).status, DONE);
    TAKES((block = nizgrabul_seat_take(a, false, 100)).status, DONE);
    IS(block.value == 0 && nizgrabul_seat_used(a) == 514);
    ANSWERS(nizgrabul_seat_unload(a).status, NOT_HELD);
    ANSWERS(nizgrabul_seat_hold(a), DONE);
    TAKES(nizgrabul_seat_take(a, false, 8193).status, COMMIT_LIMIT);
    ANSWERS(nizgrabul_seat_unload(a).status, DONE);
    ANSWERS(nizgrabul_seat_unload(a).status, NO_LOADER);
    IS(nizgrabul_seat_used(a) == 0);
    nizgrabul_seat_end(a);
}

static void run(void) {
    nizgrabul_options options = {.nodes = 1, .class_nodes = 1, .max_granules = 2, .policy = NIZGRABUL_BALANCED};
    nizgrabul_options wrong = {.nodes = 65, .class_nodes = 1, .max_granules = 2, .policy = NIZGRABUL_BALANCED};
    nizgrabul_seat a = {0}, b = {0}, c = {0};
    nizgrabul_sums_of_loader sums = {.kind = 7};
    nizgrabul_run went = {.first = 7};
    bool bits[2] = {true, true};
    ANSWERS(nizgrabul_share(&wrong, 2, &a), BAD_SETTINGS);
    ANSWERS(nizgrabul_share(&options, 0, &a), BAD_SETTINGS);
    ANSWERS(nizgrabul_share(&options, 65537, &a), BAD_SETTINGS);
    ANSWERS(nizgrabul_seat_split(&a, &b), NO_SEAT);
    ANSWERS(nizgrabul_seat_hold(&a), NO_SEAT);
    ANSWERS(nizgrabul_seat_let_go(&a), NO_SEAT);
    ANSWERS(nizgrabul_seat_new_loader(&a, 0).status, NO_SEAT);
    ANSWERS(nizgrabul_seat_unload(&a).status, NO_SEAT);
    ANSWERS(nizgrabul_seat_alloc(&a, 1, 1).status, NO_SEAT);
    ANSWERS(nizgrabul_seat_free(&a, 1).status, NO_SEAT);
    ANSWERS(nizgrabul_seat_new_arenas(&a, 0).status, NO_SEAT);
    ANSWERS(nizgrabul_seat_take(&a, false, 1).status, NO_SEAT);
    ANSWERS(nizgrabul_seat_give(&a, false, 0, 2).status, NO_SEAT);
    ANSWERS(nizgrabul_seat_granules(&a, 0, bits, 2), NO_SEAT);
    ANSWERS(nizgrabul_seat_next_uncommitted(&a, bits, 2, 0, &went), NO_SEAT);
    ANSWERS(nizgrabul_seat_purge(&a).status, NO_SEAT);
    ANSWERS(nizgrabul_seat_totals(&a, &sums), NO_SEAT);
    IS(nizgrabul_seat_used(&a) == 0);
    TAKES(nizgrabul_share(&options, 2, &a), DONE);
    ANSWERS(nizgrabul_share(&options, 2, &a), IN_USE);
    TAKES(nizgrabul_seat_split(&a, &b), DONE);
    ANSWERS(nizgrabul_seat_split(&a, &b), IN_USE);
    TAKES(nizgrabul_seat_split(&a, &c), NO_SPARE);
    IS(!c.live);
    ANSWERS(nizgrabul_seat_new_loader(&a, 4).status, BAD_KIND);
    ANSWERS(nizgrabul_seat_new_loader(&a, 0).status, NOT_HELD);
    ANSWERS(nizgrabul_seat_unload(&a).status, NO_LOADER);
    ANSWERS(nizgrabul_seat_alloc(&a, 1, 1).status, NO_LOADER);
    ANSWERS(nizgrabul_seat_free(&a, 1).status, NO_LOADER);
    ANSWERS(nizgrabul_seat_new_arenas(&a, 4).status, BAD_KIND);
    ANSWERS(nizgrabul_seat_new_arenas(&a, 0).status, NOT_HELD);
    ANSWERS(nizgrabul_seat_take(&a, false, 1).status, NO_LOADER);
    ANSWERS(nizgrabul_seat_give(&a, false, 0, 2).status, NO_LOADER);
    ANSWERS(nizgrabul_seat_let_go(&a), NOT_HELD);
    ANSWERS(nizgrabul_seat_granules(&a, 0, bits, 2), NOT_HELD);
    ANSWERS(nizgrabul_seat_next_uncommitted(&a, bits, 2, 0, &went), NOT_HELD);
    IS(went.first == 7);
    ANSWERS(nizgrabul_seat_purge(&a).status, NOT_HELD);
    ANSWERS(nizgrabul_seat_totals(&a, &sums), NO_LOADER);
    IS(sums.kind == 7);
    IS(bits[0] && bits[1]);
    ANSWERS(nizgrabul_seat_hold(&a), DONE);
    ANSWERS(nizgrabul_seat_hold(&a), DONE);
    ANSWERS(nizgrabul_seat_hold(&b), BUSY);
    ANSWERS(nizgrabul_seat_new_loader(&b, 0).status, NOT_HELD);
    ANSWERS(nizgrabul_seat_new_loader(&a, 0).status, DONE);
    ANSWERS(nizgrabul_seat_new_loader(&a, 0).status, LOADER_EXISTS);
    ANSWERS(nizgrabul_seat_new_arenas(&a, 0).status, LOADER_EXISTS);
    ANSWERS(nizgrabul_seat_take(&a, false, 1).status, NO_LOADER);
    ANSWERS(nizgrabul_seat_granules(&a, 0, bits, 2), DONE);
    IS(!bits[0] && !bits[1]);
    TAKES(nizgrabul_seat_alloc(&a, 1, 100).status, DONE);
    ANSWERS(nizgrabul_seat_alloc(&a, 1, 100).status, BLOCK_EXISTS);
    ANSWERS(nizgrabul_seat_granules(&a, 0, bits, 2), DONE);
    IS(bits[0] && !bits[1]);
    ANSWERS(nizgrabul_seat_next_uncommitted(&a, bits, 2, 0, &went), DONE);
    IS(went.first == 0 && went.granules == 0 && went.came == 0);
    IS(nizgrabul_seat_used(&a) == 100);
    ANSWERS(nizgrabul_seat_let_go(&a), DONE);
    /* The first chunk has 512 words: 400 more fit, and no more. */
    TAKES(nizgrabul_seat_alloc(&a, 2, 400).status, DONE);
    TAKES(nizgrabul_seat_alloc(&a, 3, 13).status, NOT_HELD);
    ANSWERS(nizgrabul_seat_alloc(&a, 4, 0).status, ZERO_WORDS);
    ANSWERS(nizgrabul_seat_alloc(&a, 4, 600000).status, TOO_LARGE);
    ANSWERS(nizgrabul_seat_unload(&a).status, NOT_HELD);
    ANSWERS(nizgrabul_seat_free(&a, 1).status, DONE);
    ANSWERS(nizgrabul_seat_free(&a, 1).status, NO_BLOCK);
    TAKES(nizgrabul_seat_alloc(&a, 5, 100).status, DONE);
    ANSWERS(nizgrabul_seat_totals(&a, &sums), DONE);
    IS(sums.kind == 0 && sums.space.chunks == 1 && sums.space.capacity == 512 && sums.space.used == 500);
    IS(sums.space.live == 500 && sums.space.free_blocks == 0 && sums.class_space.chunks == 0);
    ANSWERS(nizgrabul_seat_hold(&b), DONE);
    ANSWERS(nizgrabul_seat_hold(&a), BUSY);
    ANSWERS(nizgrabul_seat_new_loader(&b, 1).status, DONE);
    TAKES(nizgrabul_seat_calloc(&b, 1, 10).status, DONE);
    TAKES(nizgrabul_seat_alloc(&b, 2, 8193).status, COMMIT_LIMIT);
    IS(nizgrabul_seat_used(&b) == 10);
    nizgrabul_seat_end(&b); /* has the pool, and gives it back */
    IS(!b.live);
    ANSWERS(nizgrabul_seat_hold(&a), DONE);
    ANSWERS(nizgrabul_seat_unload(&a).status, DONE);
    IS(nizgrabul_seat_used(&a) == 0);
    ANSWERS(nizgrabul_seat_next_uncommitted(&a, bits, 2, 0, &went), DONE);
    IS(went.first == 0 && went.granules == 1 && went.came == 0);
    ANSWERS(nizgrabul_seat_next_uncommitted(&a, bits, 2, 1, &went), DONE);
    IS(went.first == 1 && went.granules == 0);
    ANSWERS(nizgrabul_seat_granules(&a, 0, bits, 2), DONE);
    IS(!bits[0] && !bits[1]);
    nizgrabul_answer gone = nizgrabul_seat_purge(&a);
    IS(gone.status == NIZGRABUL_DONE && gone.value == 1);
    nizgrabul_seat_end(&a);
    nizgrabul_seat_end(&a);
    run_without_numbers();
    run_bare();
    IS(!a.live && blocks == 0);
}

int main(void) {
    long most = 0;
    for (refuse = 0; refuse <= most; refuse++) {
        asked = 0;
        run();
        if (line) {
            fprintf(stderr, "growth %ld refused: line %d is answered otherwise\n", refuse, line);
            return 1;
        }
        if (asked > most) most = asked;
    }
    printf("each of %ld growths was refused in turn, and no block is left\n", most);
    return 0;
}
