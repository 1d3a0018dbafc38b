/* A runtime's memory under the proved account: one range of addresses is reserved with no access; after
 * an allocation just the granules of its run become accessible, and after an unload and a purge those that
 * went are given back. A block's words lie at base + 8 * start, and each is written and read back. At each
 * step every granule is tried: a word of a committed one can be read, and a word of any other faults. So the
 * library's account is shown against the operating system's own. */
#define _DEFAULT_SOURCE
#include <inttypes.h>
#include <setjmp.h>
#include <signal.h>
#include <stdio.h>
#include <stdlib.h>
#include <string.h>
#include <sys/mman.h>

#include "nizgrabul.h"

/* The words of all nodes up to the end of the class space's first, and the most granules that they make, of
 * 2048 words each. */
enum { WORDS = 65 * 1048576, MOST = WORDS / 2048, LOADERS = 4, BLOCKS = 12 };

static nizgrabul_handle handle;
static volatile uint64_t *base;
static bool mapped[MOST];
static uint64_t granule_words, all_granules; /* under the policy that runs */
static sigjmp_buf back;

static struct block { uint64_t start, words; } blocks[LOADERS][BLOCKS];

static void ends(const char *what) {
    fprintf(stderr, "%s\n", what);
    exit(1);
}

static void give_access(uint64_t granule, uint64_t granules, int access) {
    void *at = (void *)(base + granule * granule_words);
    if (granules && mprotect(at, granules * granule_words * 8, access)) ends("mprotect");
}

/* Commits the granules of a run: as many came as it says. */
static void commit(nizgrabul_run run) {
    uint64_t came = 0;
    give_access(run.first, run.granules, PROT_READ | PROT_WRITE);
    for (uint64_t granule = run.first; granule < run.first + run.granules; granule++) {
        came += !mapped[granule];
        mapped[granule] = true;
    }
    if (came != run.came) ends("another number of granules came");
}

/* Gives back the granules that are committed no more, run by run. */
static void give_back(void) {
    nizgrabul_run run = {0};
    while (run = nizgrabul_next_uncommitted(&handle, mapped, all_granules, run.first + run.granules), run.granules) {
        void *at = (void *)(base + run.first * granule_words);
        if (madvise(at, run.granules * granule_words * 8, MADV_DONTNEED)) ends("madvise");
        give_access(run.first, run.granules, PROT_NONE);
        memset(mapped + run.first, false, run.granules);
    }
}

static void fault(int signal) {
    (void)signal;
    siglongjmp(back, 1);
}

static bool can_be_read(uint64_t word) {
    if (sigsetjmp(back, 1)) return false;
    (void)base[word];
    return true;
}

/* Counts the granules that can be touched, which are those that the library counts. */
static void count(const char *when) {
    uint64_t touched = 0;
    for (uint64_t granule = 0; granule < all_granules; granule++) {
        bool is = nizgrabul_is_committed(&handle, granule);
        uint64_t first = granule * granule_words, last = first + granule_words - 1;
        if (can_be_read(first) != is || can_be_read(last) != is) ends("another account");
        touched += is;
    }
    nizgrabul_limit_counts counts = {0};
    nizgrabul_counts(&handle, &counts);
    if (touched != counts.granules) ends("another count");
    printf("%s: %" PRIu64 " granules can be touched, and %" PRIu64 " are committed\n", when, touched, counts.granules);
}

static uint64_t word_of(int loader, int block, uint64_t word) {
    return (uint64_t)loader << 48 | (uint64_t)block << 32 | word;
}

static void allocate(int loader, int block) {
    uint64_t words = 900 * (uint64_t)block + 10;
    nizgrabul_run run = {0};
    nizgrabul_answer answer = block % 3 ? nizgrabul_alloc_with_run(&handle, loader, block, words, &run)
                                        : nizgrabul_calloc_with_run(&handle, loader, block, words, &run);
    if (answer.status != NIZGRABUL_DONE) ends("a block is refused");
    commit(run);
    blocks[loader][block] = (struct block){answer.value, words};
    for (uint64_t word = 0; word < words; word++) base[answer.value + word] = word_of(loader, block, word);
}

/* Reads every word of every block of the loaders from the first on. */
static void read_all(int first) {
    for (int loader = first; loader < LOADERS; loader++)
        for (int block = 0; block < BLOCKS; block++)
            for (uint64_t word = 0; word < blocks[loader][block].words; word++)
                if (base[blocks[loader][block].start + word] != word_of(loader, block, word)) ends("another word");
}

/* Loaders come, allocate and go under a policy. */
static void run_under(uint32_t policy, const char *name) {
    nizgrabul_options options = {.nodes = 4, .class_nodes = 1, .max_granules = 512, .policy = policy};
    printf("policy %s\n", name);
    nizgrabul_limit_counts counts = {0};
    if (nizgrabul_new(&options, &handle) != NIZGRABUL_DONE) ends("no system");
    if (nizgrabul_counts(&handle, &counts) != NIZGRABUL_DONE) ends("no counts");
    granule_words = counts.granule_words;
    all_granules = WORDS / granule_words;
    count("empty");
    for (int loader = 0; loader < LOADERS; loader++) {
        if (nizgrabul_new_loader(&handle, loader, loader % 2).status != NIZGRABUL_DONE) ends("no loader");
        for (int block = 0; block < BLOCKS; block++) allocate(loader, block);
        count("one loader's blocks came");
    }
    read_all(0);
    for (int loader = 0; loader < LOADERS; loader++) {
        if (nizgrabul_unload(&handle, loader).status != NIZGRABUL_DONE) ends("not unloaded");
        give_back();
        read_all(loader + 1);
        count("one loader went");
    }
    printf("nodes given back: %" PRIu64 "\n", nizgrabul_purge(&handle).value);
    give_back();
    count("purged");
    nizgrabul_delete(&handle);
    give_back();
    count("ended");
}

int main(void) {
    struct sigaction action;
    size_t bytes = (size_t)WORDS * 8;
    memset(&action, 0, sizeof action);
    action.sa_handler = fault;
    base = mmap(NULL, bytes, PROT_NONE, MAP_PRIVATE | MAP_ANONYMOUS | MAP_NORESERVE, -1, 0);
    if (base == MAP_FAILED || sigaction(SIGSEGV, &action, NULL)) ends("mmap");
    run_under(NIZGRABUL_BALANCED, "balanced");
    run_under(NIZGRABUL_AGGRESSIVE, "aggressive");
    run_under(NIZGRABUL_NONE, "none");
    return 0;
}
