/* Makes each call of nizgrabul.h once or twice, and tells each answer. */
#include <inttypes.h>
#include <stdio.h>

#include "nizgrabul.h"

static void tell(const char *what, nizgrabul_answer a) {
    printf("%s: %" PRIu32 " %" PRIu64 " %" PRIu64 " %" PRIu64 "\n", what, a.status, a.value, a.limit, a.need);
}

static void tell_run(const char *what, nizgrabul_answer a, const nizgrabul_run *run) {
    tell(what, a);
    printf("  granules %" PRIu64 " from %" PRIu64 ", %" PRIu64 " came\n", run->granules, run->first, run->came);
}

static void tell_sums(const char *what, const nizgrabul_sums *s) {
    printf("%s: nodes %" PRIu64 ", granules %" PRIu64 ", chunks %" PRIu64 ", capacity %" PRIu64 ", used %" PRIu64
           ", live %" PRIu64 ", free blocks %" PRIu64 ", waste %" PRIu64 "\n", what, s->nodes, s->granules, s->chunks,
           s->capacity, s->used, s->live, s->free_blocks, s->waste);
}

static void tell_arena(const char *what, const nizgrabul_arena_sums *s) {
    printf("%s: chunks %" PRIu64 ", capacity %" PRIu64 ", fronts %" PRIu64 ", used %" PRIu64 ", live %" PRIu64
           ", free blocks %" PRIu64 ", waste %" PRIu64 "\n", what, s->chunks, s->capacity, s->fronts, s->used, s->live,
           s->free_blocks, s->waste);
}

static void tell_counts(nizgrabul_handle *handle, nizgrabul_limit_counts *c) {
    printf("counts: %" PRIu32 ", ", nizgrabul_counts(handle, c));
    printf("granules %" PRIu64 " of %" PRIu64 ", each of %" PRIu64 " words, nodes %" PRIu64 " of %" PRIu64
           ", class nodes %" PRIu64 "\n", c->granules, c->granule_limit, c->granule_words, c->nodes, c->node_limit,
           c->class_nodes);
}

/* Tells each run of granules that went. */
static void tell_gone(nizgrabul_handle *handle, const bool *was, size_t elements) {
    nizgrabul_run run = {0};
    do {
        run = nizgrabul_next_uncommitted(handle, was, elements, run.first + run.granules);
        printf("gone: granules %" PRIu64 " from %" PRIu64 ", %" PRIu64 " came\n", run.granules, run.first, run.came);
    } while (run.granules);
}

int main(void) {
    nizgrabul_handle handle = {0};
    nizgrabul_options options = {.nodes = 1, .class_nodes = 1, .max_granules = 2, .policy = NIZGRABUL_BALANCED};
    nizgrabul_options wrong = {.nodes = 65, .class_nodes = 1, .max_granules = 2, .policy = NIZGRABUL_BALANCED};
    nizgrabul_sums_of_all sums = {0};
    nizgrabul_limit_counts counts = {0};
    nizgrabul_sums_of_loader loader = {0};
    nizgrabul_run run = {.first = 7, .granules = 8, .came = 9};
    bool bits[3];
    static bool was[8200];
    printf("the header's version: %d\n", nizgrabul_version() == NIZGRABUL_VERSION);
    tell("100 words with no system", nizgrabul_alloc(&handle, 1, 1, 100));
    printf("65 nodes: %" PRIu32 "\n", nizgrabul_new(&wrong, &handle));
    printf("a system: %" PRIu32 "\n", nizgrabul_new(&options, &handle));
    printf("another in its place: %" PRIu32 "\n", nizgrabul_new(&options, &handle));
    tell("a loader of no kind", nizgrabul_new_loader(&handle, 1, 4));
    tell("loader 1", nizgrabul_new_loader(&handle, 1, NIZGRABUL_STANDARD));
    tell("loader 1 again", nizgrabul_new_loader(&handle, 1, NIZGRABUL_STANDARD));
    tell("100 words", nizgrabul_alloc(&handle, 1, 1, 100));
    tell("4000 words", nizgrabul_alloc(&handle, 1, 2, 4000));
    tell("no words", nizgrabul_alloc(&handle, 1, 3, 0));
    tell("600000 words", nizgrabul_alloc(&handle, 1, 3, 600000));
    tell("100000 words", nizgrabul_alloc(&handle, 1, 3, 100000));
    tell("a used number", nizgrabul_alloc(&handle, 1, 2, 10));
    tell("loader 2", nizgrabul_alloc(&handle, 2, 1, 10));
    tell("10 words of the class space", nizgrabul_calloc(&handle, 1, 4, 10));
    nizgrabul_granules(&handle, 0, bits, 3);
    printf("granules 0 to 2: %d %d %d\n", bits[0], bits[1], bits[2]);
    printf("granule 8192: %d\n", nizgrabul_is_committed(&handle, 8192));
    tell("holder of word 4100", nizgrabul_holder(&handle, 4100));
    tell("holder of word 67108864", nizgrabul_holder(&handle, 67108864));
    tell("holder of word 1000", nizgrabul_holder(&handle, 1000));
    tell("free", nizgrabul_free(&handle, 1, 1));
    tell("free again", nizgrabul_free(&handle, 1, 1));
    tell("free 3999 words at 4096", nizgrabul_free_block(&handle, 1, 4096, 3999));
    tell("free 4000 words at 4096", nizgrabul_free_block(&handle, 1, 4096, 4000));
    tell("the same again", nizgrabul_free_block(&handle, 1, 4096, 4000));
    tell("of loader 2", nizgrabul_free_block(&handle, 2, 4096, 4000));
    tell("its number again, 4000 words", nizgrabul_alloc(&handle, 1, 2, 4000));
    printf("sums: %" PRIu32 "\n", nizgrabul_totals(&handle, &sums));
    printf("loaders: %" PRIu64 "\n", sums.loaders);
    tell_sums("outside the class space", &sums.space);
    tell_sums("class space", &sums.class_space);
    printf("used by loader 1: %" PRIu64 "\n", nizgrabul_used_by(&handle, 1));
    printf("sums of loader 1: %" PRIu32 "\n", nizgrabul_loader_totals(&handle, 1, &loader));
    printf("kind: %" PRIu64 "\n", loader.kind);
    tell_arena("outside the class space", &loader.space);
    tell_arena("class space", &loader.class_space);
    printf("sums of loader 2: %" PRIu32 "\n", nizgrabul_loader_totals(&handle, 2, &loader));
    tell_counts(&handle, &counts);
    tell("purge", nizgrabul_purge(&handle));
    nizgrabul_granules(&handle, 0, was, 8200);
    tell_gone(&handle, was, 8200);
    tell("unload", nizgrabul_unload(&handle, 1));
    tell("unload again", nizgrabul_unload(&handle, 1));
    tell_gone(&handle, was, 8200);
    tell("holder of word 4100", nizgrabul_holder(&handle, 4100));
    tell("purge", nizgrabul_purge(&handle));
    tell_counts(&handle, &counts);
    tell("loader 3", nizgrabul_new_loader(&handle, 3, NIZGRABUL_HIDDEN));
    tell_run("20000 words", nizgrabul_alloc_with_run(&handle, 3, 1, 20000, &run), &run);
    tell_run("10000 words", nizgrabul_alloc_with_run(&handle, 3, 1, 10000, &run), &run);
    tell_run("10 words of the class space", nizgrabul_calloc_with_run(&handle, 3, 2, 10, &run), &run);
    tell_run("10 words", nizgrabul_alloc_with_run(&handle, 3, 2, 10, &run), &run);
    tell("unload", nizgrabul_unload(&handle, 3));
    tell("loader 3", nizgrabul_new_loader(&handle, 3, NIZGRABUL_HIDDEN));
    tell_run("10 words of the class space", nizgrabul_calloc_with_run(&handle, 3, 2, 10, &run), &run);
    nizgrabul_delete(&handle);
    nizgrabul_delete(&handle);
    tell_run("with no system", nizgrabul_calloc_with_run(&handle, 3, 2, 10, &run), &run);
    printf("ends empty: %d\n", !handle.live);
    return 0;
}
