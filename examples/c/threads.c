/* Class loaders on threads over one proved pool: each loader has a seat of its own, and is on the thread that
 * has it. Loaders come, allocate, free and go, and move from thread to thread by a mailbox, seat and all. Each
 * word of each block is written and read back. Granules become accessible, and cease to be, just while the
 * thread has the pool. In the end the program's own account of who holds what is compared with the library's.
 *
 *     threads [threads, 4] [turns of all loaders, 20000] */
#define _DEFAULT_SOURCE
#include <inttypes.h>
#include <pthread.h>
#include <sched.h>
#include <stdatomic.h>
#include <stdio.h>
#include <stdlib.h>
#include <string.h>
#include <sys/mman.h>

/* The program's own way to wait for the pool, which counts. */
static atomic_ulong waits;
#define NIZGRABUL_WAIT(tries) (atomic_fetch_add(&waits, 1), sched_yield())
#include "nizgrabul.h"

/* The words of all nodes up to the end of the class space's first, in granules of 8192 words; and how many
 * granules a root chunk has at most. */
enum { WORDS = 65 * 1048576, GRANULE = 8192, GRANULES = WORDS / GRANULE, OF_ROOT = 65 };
enum { LOADERS = 64, BLOCKS = 24, MOST_THREADS = 64 };

/* What ThreadSanitizer has to be told: the library, which it doesn't see, orders what threads do while they
 * have the pool. */
#if defined(__SANITIZE_THREAD__)
void __tsan_acquire(void *), __tsan_release(void *);
#define HAS_POOL() __tsan_acquire(mapped)
#define LETS_GO() __tsan_release(mapped)
#else
#define HAS_POOL() (void)0
#define LETS_GO() (void)0
#endif

struct loader {
    nizgrabul_seat seat;
    uint64_t number;
    bool lives;
    struct block { uint64_t start, words; } blocks[BLOCKS]; /* of no words where there is none */
};

/* The loaders that wait for a thread. */
struct mailbox {
    pthread_mutex_t lock;
    struct loader *loaders[LOADERS];
    int count;
};

static uint64_t *base;
static bool mapped[GRANULES]; /* by whoever has the pool */
static struct loader loaders[LOADERS];
static struct mailbox mailboxes[MOST_THREADS];
static int threads = 4;
static atomic_long left = 20000; /* turns */

static void ends(const char *what) {
    fprintf(stderr, "%s\n", what);
    exit(1);
}

static void hold(struct loader *loader) {
    if (nizgrabul_seat_wait(&loader->seat) != NIZGRABUL_DONE) ends("no seat");
    HAS_POOL();
}

static void let_go(struct loader *loader) {
    LETS_GO();
    if (nizgrabul_seat_let_go(&loader->seat) != NIZGRABUL_DONE) ends("the pool was lost");
}

/* Commits which of so many granules the library says. The seat has the pool. */
static void commit(struct loader *loader, uint32_t first, size_t count) {
    bool now[OF_ROOT];
    if (nizgrabul_seat_granules(&loader->seat, first, now, count) != NIZGRABUL_DONE) ends("no granules");
    for (size_t k = 0; k < count; k++) {
        if (now[k] == mapped[first + k]) continue;
        if (!now[k]) ends("a granule went without an unload");
        if (mprotect(base + (first + k) * GRANULE, GRANULE * 8, PROT_READ | PROT_WRITE)) ends("mprotect");
        mapped[first + k] = true;
    }
}

/* Gives back the granules that are committed no more, run by run. The seat has the pool. */
static void give_back(struct loader *loader) {
    nizgrabul_run run = {0};
    do {
        uint64_t from = run.first + run.granules;
        if (nizgrabul_seat_next_uncommitted(&loader->seat, mapped, GRANULES, from, &run) != NIZGRABUL_DONE) ends("no run");
        void *at = base + run.first * GRANULE;
        size_t bytes = run.granules * GRANULE * 8;
        if (bytes && (madvise(at, bytes, MADV_DONTNEED) || mprotect(at, bytes, PROT_NONE))) ends("mprotect");
        memset(mapped + run.first, false, run.granules);
    } while (run.granules);
}

static uint64_t word_of(const struct loader *loader, int block, uint64_t word) {
    return loader->number << 48 | (uint64_t)block << 32 | word;
}

static void come(struct loader *loader) {
    hold(loader);
    if (nizgrabul_seat_new_loader(&loader->seat, loader->number % 4).status != NIZGRABUL_DONE) ends("no loader");
    let_go(loader);
    loader->lives = true;
}

static void read_block(const struct loader *loader, int block) {
    const struct block *it = &loader->blocks[block];
    for (uint64_t word = 0; word < it->words; word++)
        if (base[it->start + word] != word_of(loader, block, word)) ends("another word");
}

static void go(struct loader *loader) {
    for (int block = 0; block < BLOCKS; block++) {
        read_block(loader, block);
        loader->blocks[block].words = 0;
    }
    hold(loader);
    if (nizgrabul_seat_unload(&loader->seat).status != NIZGRABUL_DONE) ends("not unloaded");
    give_back(loader);
    let_go(loader);
    loader->lives = false;
}

static nizgrabul_answer try_block(struct loader *loader, int block, uint64_t words) {
    return block % 4 ? nizgrabul_seat_alloc(&loader->seat, block, words) : nizgrabul_seat_calloc(&loader->seat, block, words);
}

/* Allocates a block: from the loader's own chunks, and else over the pool. */
static void allocate(struct loader *loader, int block, uint64_t words) {
    nizgrabul_answer answer = try_block(loader, block, words);
    if (answer.status == NIZGRABUL_NOT_HELD) {
        hold(loader);
        answer = try_block(loader, block, words);
        if (answer.status == NIZGRABUL_DONE) {
            uint32_t first = answer.value / GRANULE;
            commit(loader, first, first + OF_ROOT < GRANULES ? OF_ROOT : GRANULES - first);
        }
        let_go(loader);
    }
    if (answer.status == NIZGRABUL_COMMIT_LIMIT || answer.status == NIZGRABUL_RESERVE_LIMIT) return;
    if (answer.status != NIZGRABUL_DONE) ends("a block is refused");
    loader->blocks[block] = (struct block){answer.value, words};
    for (uint64_t word = 0; word < words; word++) base[answer.value + word] = word_of(loader, block, word);
}

static void release(struct loader *loader, int block) {
    read_block(loader, block);
    if (nizgrabul_seat_free(&loader->seat, block).status != NIZGRABUL_DONE) ends("not freed");
    loader->blocks[block].words = 0;
}

static void send(struct loader *loader, int thread) {
    struct mailbox *to = &mailboxes[thread];
    pthread_mutex_lock(&to->lock);
    to->loaders[to->count++] = loader;
    pthread_mutex_unlock(&to->lock);
}

static struct loader *receive(int thread) {
    struct mailbox *from = &mailboxes[thread];
    pthread_mutex_lock(&from->lock);
    struct loader *loader = from->count ? from->loaders[--from->count] : NULL;
    pthread_mutex_unlock(&from->lock);
    return loader;
}

static uint32_t next(uint32_t *state) {
    *state = *state * 1664525 + 1013904223;
    return *state >> 8;
}

/* A loader's turn on the thread that has it. */
static void take_turn(struct loader *loader, uint32_t *state) {
    if (!loader->lives) return come(loader);
    for (int turn = 0; turn < 8; turn++) {
        int block = next(state) % BLOCKS;
        if (loader->blocks[block].words) release(loader, block);
        else allocate(loader, block, 2 + next(state) % (next(state) % 16 ? 200 : 20000));
    }
    if (next(state) % 8 == 0) go(loader);
}

static void *work(void *number) {
    int thread = (int)(intptr_t)number;
    uint32_t state = 1000 + thread;
    while (atomic_load(&left) > 0) {
        struct loader *loader = receive(thread);
        if (!loader) {
            sched_yield();
            continue;
        }
        atomic_fetch_sub(&left, 1);
        take_turn(loader, &state);
        send(loader, next(&state) % threads);
    }
    return NULL;
}

static int by_start(const void *a, const void *b) {
    uint64_t x = ((const struct block *)a)->start, y = ((const struct block *)b)->start;
    return x < y ? -1 : x > y;
}

/* Compares who holds what: no two blocks share a word, each word is as it was written, and the library counts as
 * many words in use as the blocks have, or more. */
static uint64_t compare(void) {
    struct block all[LOADERS * BLOCKS];
    size_t count = 0;
    uint64_t words = 0;
    for (struct loader *loader = loaders; loader < loaders + LOADERS; loader++) {
        uint64_t own = 0;
        for (int block = 0; block < BLOCKS; block++) {
            read_block(loader, block);
            own += loader->blocks[block].words;
            if (loader->blocks[block].words) all[count++] = loader->blocks[block];
        }
        if (nizgrabul_seat_used(&loader->seat) < own) ends("another count of words");
        words += own;
    }
    qsort(all, count, sizeof *all, by_start);
    for (size_t k = 1; k < count; k++)
        if (all[k - 1].start + all[k - 1].words > all[k].start) ends("two blocks share a word");
    return words;
}

/* Makes the pool, and a seat for each loader. */
static void share(void) {
    nizgrabul_options options = {.nodes = 8, .class_nodes = 1, .max_granules = 2048, .policy = NIZGRABUL_BALANCED};
    if (nizgrabul_share(&options, LOADERS, &loaders[0].seat) != NIZGRABUL_DONE) ends("no pool");
    for (int k = 0; k < LOADERS; k++) {
        loaders[k].number = k + 1;
        if (k && nizgrabul_seat_split(&loaders[0].seat, &loaders[k].seat) != NIZGRABUL_DONE) ends("no seat");
    }
}

int main(int count, char **words) {
    pthread_t handles[MOST_THREADS];
    if (count > 1) threads = atoi(words[1]);
    if (count > 2) atomic_store(&left, atol(words[2]));
    if (threads < 1 || threads > MOST_THREADS) ends("threads: 1 to 64");
    base = mmap(NULL, (size_t)WORDS * 8, PROT_NONE, MAP_PRIVATE | MAP_ANONYMOUS | MAP_NORESERVE, -1, 0);
    if (base == MAP_FAILED) ends("mmap");
    share();
    for (int k = 0; k < threads; k++) pthread_mutex_init(&mailboxes[k].lock, NULL);
    for (int k = 0; k < LOADERS; k++) send(&loaders[k], k % threads);
    for (int k = 0; k < threads; k++)
        if (pthread_create(&handles[k], NULL, work, (void *)(intptr_t)k)) ends("no thread");
    for (int k = 0; k < threads; k++) pthread_join(handles[k], NULL);
    HAS_POOL();
    printf("%d threads, %d loaders: each word is as it was written\n", threads, LOADERS);
    fprintf(stderr, "%" PRIu64 " words of blocks in the end; %lu tries found the pool with another thread\n", compare(),
            atomic_load(&waits));
    for (int k = 0; k < LOADERS; k++)
        if (loaders[k].lives) go(&loaders[k]);
    for (int k = 0; k < GRANULES; k++)
        if (mapped[k]) ends("a granule is left");
    for (int k = 0; k < LOADERS; k++) nizgrabul_seat_end(&loaders[k].seat);
    printf("all loaders went, and no granule is left\n");
    return 0;
}
