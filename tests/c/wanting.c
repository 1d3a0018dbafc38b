/* Refuses each growth of the C library's heap in turn: a refused call of the library answers that memory
 * is wanting, all else goes on, and at the end no block of the heap is left. Linked with
 * -Wl,--wrap=malloc,--wrap=realloc,--wrap=free. */
#include <stdio.h>
#include <stdlib.h>

#include "nizgrabul.h"

void *__real_malloc(size_t size);
void *__real_realloc(void *block, size_t size);
void __real_free(void *block);

static long asked, refuse, blocks;

void *__wrap_malloc(size_t size) {
    if (++asked == refuse) return NULL;
    void *block = __real_malloc(size);
    blocks += block != NULL;
    return block;
}

void *__wrap_realloc(void *block, size_t size) {
    if (++asked == refuse) return NULL;
    void *moved = __real_realloc(block, size);
    blocks += block == NULL && moved != NULL;
    return moved;
}

void __wrap_free(void *block) {
    blocks -= block != NULL;
    __real_free(block);
}

static int wants(uint32_t status, uint32_t otherwise) {
    return status == NIZGRABUL_OUT_OF_MEMORY || status == otherwise;
}

/* One run of calls; answers 0 where each status may come. */
static int run(nizgrabul_handle *handle) {
    nizgrabul_options options = {.nodes = 4, .class_nodes = 1, .max_granules = 64, .policy = NIZGRABUL_BALANCED};
    nizgrabul_sums_of_all sums = {0};
    uint32_t made = nizgrabul_new(&options, handle);
    if (!wants(made, NIZGRABUL_DONE) || handle->live != (made == NIZGRABUL_DONE)) return 1;
    for (uint16_t loader = 0; loader < 5; loader++) {
        uint32_t status = nizgrabul_new_loader(handle, loader, loader % 4).status;
        if (made ? status != NIZGRABUL_NO_SYSTEM : !wants(status, NIZGRABUL_DONE)) return 2;
        for (uint32_t block = 0; block < 6; block++) {
            nizgrabul_limit_counts before = {0}, after = {0};
            uint64_t words = 1 + 700 * block;
            nizgrabul_run ran = {0};
            nizgrabul_counts(handle, &before);
            uint32_t got = block < 2   ? nizgrabul_alloc(handle, loader, block, words).status
                           : block < 4 ? nizgrabul_calloc_with_run(handle, loader, block, words, &ran).status
                                       : nizgrabul_alloc_with_run(handle, loader, block, words, &ran).status;
            uint32_t otherwise = made ? NIZGRABUL_NO_SYSTEM : status ? NIZGRABUL_NO_LOADER : NIZGRABUL_DONE;
            nizgrabul_counts(handle, &after);
            if (!wants(got, otherwise) || (got && (after.granules != before.granules || ran.granules))) return 3;
            if (block > 1 && after.granules != before.granules + ran.came) return 6;
        }
    }
    uint32_t told = nizgrabul_totals(handle, &sums);
    if (made ? told != NIZGRABUL_NO_SYSTEM : !wants(told, NIZGRABUL_DONE)) return 4;
    nizgrabul_unload(handle, 3);
    return 0;
}

int main(void) {
    long most = 0;
    for (refuse = 1; refuse == 1 || most >= refuse - 1; refuse++) {
        nizgrabul_handle handle = {0};
        asked = 0;
        int wrong = run(&handle);
        if (wrong) return wrong;
        if (asked > most) most = asked;
        nizgrabul_delete(&handle);
        if (blocks || handle.live) return 5;
    }
    printf("each of %ld growths was refused in turn, and no block is left\n", most);
    return 0;
}
