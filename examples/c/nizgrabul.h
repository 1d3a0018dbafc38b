/* Nizgrabul, a metaspace whose accounts are proved, for C and C++.
 *
 * An allocator of words for class metadata: loaders come and go, each allocates blocks, and what a loader
 * had goes at once when it is unloaded. The library says which words a block gets, which granules are
 * committed, and who holds what. It touches no memory but its own: a program reserves one range of
 * addresses, maps word n to base + 8 * n, and commits and gives back what the library says. Each call's
 * contract is proved, and stands with its clauses in crates/ms_c/src.
 *
 *     nizgrabul_handle handle = {0};
 *     nizgrabul_options options = {0};
 *     options.nodes = 4; options.class_nodes = 1; options.max_granules = 64;
 *     if (nizgrabul_new(&options, &handle) != NIZGRABUL_DONE) return 1;
 *     nizgrabul_new_loader(&handle, 1, NIZGRABUL_STANDARD);
 *     nizgrabul_run run = {0};
 *     nizgrabul_answer block = nizgrabul_alloc_with_run(&handle, 1, 7, 4000, &run);
 *     if (block.status == NIZGRABUL_DONE) {
 *         ..                              commit run.granules granules from granule run.first on;
 *         ..                              block 7 of loader 1 has its 4000 words from base + 8 * block.value on
 *     }
 *     nizgrabul_unload(&handle, 1);
 *     run.first = run.granules = 0;       was[k] is whether granule k was committed:
 *     while (run = nizgrabul_next_uncommitted(&handle, was, elements, run.first + run.granules), run.granules)
 *         ..                              give back run.granules granules from granule run.first on
 *     nizgrabul_delete(&handle);
 *
 * Units. A word is 8 bytes. Words are numbered from 0, and so are granules and nodes, each from its first
 * word on: granule k begins at word k * 8192 (k * 2048 under the policy aggressive), node n at word
 * n * 1048576, so that a node has 128 granules (512 under aggressive). Nodes outside the class space have the numbers from 0 on, below the option `nodes`; those of
 * the class space have the numbers from 64 on. So a program reserves 64 + class_nodes times 8 MB of
 * addresses, or just nodes times 8 MB where class_nodes is 0, and has flags for as many nodes' granules.
 *
 * What is committed. Granules become committed by allocations alone: nizgrabul_alloc_with_run and
 * nizgrabul_calloc_with_run return which. They cease to be by unload, purge and delete alone: a program has
 * a flag for each granule that is committed, and nizgrabul_next_uncommitted returns run by run which of them
 * are no more. What words hold is the program's own matter: those of a freed block may go to the loader's
 * next block as they are.
 *
 * Calls of a system, and of a seat of a shared pool (each begins with nizgrabul_):
 *
 *     new                               share, seat_split       makes a system; a pool with its first seat; one more
 *     delete                            seat_end                ends it
 *                                       seat_hold, seat_wait    takes the pool for the seat
 *                                       seat_let_go             gives the pool back
 *     new_loader                        seat_new_loader         makes a class loader
 *     unload                            seat_unload             ends it with all its blocks
 *     alloc, calloc                     seat_alloc, seat_calloc allocates a block by a number of the program's own
 *     alloc_with_run, calloc_with_run                           and returns the granules that became committed
 *     free                              seat_free               frees a block by its number
 *                                       seat_new_arenas         makes a class loader without numbers for its blocks
 *                                       seat_take, seat_give    allocates and frees a block of it by start and words
 *                                       seat_new_bare           makes one that also keeps no list of its blocks
 *                                       seat_give_bare          frees a block of it, which seat_take allocated
 *     free_block                                                frees a block by its start and words
 *     purge                             seat_purge              gives unused nodes back
 *     next_uncommitted                  seat_next_uncommitted   returns the granules to give back, run by run
 *     is_committed, granules            seat_granules           returns which granules are committed
 *     counts, totals                                            returns sums over the system
 *     loader_totals, used_by            seat_totals, seat_used  returns sums over a loader
 *     holder                                                    returns whose a word is
 *     version                                                   returns the library's version
 *
 * To build over the released library, with the toolchain's command rt on the PATH, at the top of the
 * repository:
 *
 *     make -C examples/c libms_c.a
 *     cc -Iexamples/c program.c examples/c/libms_c.a "$(dirname "$(rt doc)")/c/liblibc_c.a"
 *
 * Or, once `make -C examples/c install PREFIX=/folder` has put all of it into a folder, by pkg-config, with
 * PKG_CONFIG_PATH=/folder/lib/pkgconfig:
 *
 *     cc program.c $(pkg-config --cflags --libs nizgrabul)
 *
 * Or by CMake, with -DCMAKE_PREFIX_PATH=/folder; or with add_subdirectory(examples/c) in place of find_package:
 *
 *     find_package(nizgrabul 7 REQUIRED)
 *     target_link_libraries(program nizgrabul::nizgrabul)
 *
 * What a program owes, since nothing checks it:
 * - A handle is filled with zeros before its first use. After that only these calls read or write it; it
 *   may be moved, but of a handle and its copy only one is used again. It is deleted, or its memory is lost.
 * - One call at a time has a handle. Between calls it may move to another thread, under a lock of the
 *   program's own. Two handles serve two threads at once, each over a pool of its own; nizgrabul_share, below,
 *   has one pool serve all threads.
 * - Pointers are not null, are aligned, and lead to room for their type that nobody else touches during
 *   the call; `options` and `out` do not overlap the handle.
 * - `malloc`, `realloc` and `free` are of one allocator, and align to 16. No call comes from a signal
 *   handler, nor from the forked child of a process with threads.
 * Any numbers are allowed, and a handle with no system returns the status NIZGRABUL_NO_SYSTEM. */
#ifndef NIZGRABUL_H
#define NIZGRABUL_H

/* It rises where a call or a struct changes; nizgrabul_version returns that of the library. */
#define NIZGRABUL_VERSION 7

#include <stdbool.h>
#include <stddef.h>
#include <stdint.h>

#ifdef __cplusplus
extern "C" {
#endif

/* What a call came to: the status that it returns, or that of the answer. All but DONE change nothing, but
 * that NIZGRABUL_OUT_OF_MEMORY for a new loader may use two owner numbers up. The comments below name a
 * status without its prefix. */
enum nizgrabul_status {
    NIZGRABUL_DONE = 0,           /* served */
    NIZGRABUL_OUT_OF_MEMORY = 1,  /* the C library's allocator refused */
    NIZGRABUL_ZERO_WORDS = 2,     /* no words were asked for */
    NIZGRABUL_TOO_LARGE = 3,      /* more words were asked for than a root chunk has, 524288 */
    NIZGRABUL_COMMIT_LIMIT = 4,   /* value granules of limit are committed, and need more are needed */
    NIZGRABUL_RESERVE_LIMIT = 5,  /* value nodes of limit are reserved, and none has room */
    NIZGRABUL_NOT_LIVE = 6,       /* the loader has no live block there with so many words */
    NIZGRABUL_OUT_OF_RANGE = 7,   /* no call here returns it */
    NIZGRABUL_NO_LOADER = 8,      /* no loader has the number */
    NIZGRABUL_LOADER_EXISTS = 9,  /* a loader has the number already */
    NIZGRABUL_NO_BLOCK = 10,      /* the loader has no live block of the number */
    NIZGRABUL_BLOCK_EXISTS = 11,  /* the loader has a live block of the number already */
    NIZGRABUL_IDS_USED_UP = 12,   /* of 4294967295 owner numbers, two for each loader made, fewer are left */
    NIZGRABUL_UNSETTLED = 13,     /* no call here returns it */
    NIZGRABUL_NO_ROOM = 14,       /* no call here returns it */
    NIZGRABUL_NO_SYSTEM = 20,     /* the handle has no system */
    NIZGRABUL_IN_USE = 21,        /* the handle has a system already */
    NIZGRABUL_BAD_SETTINGS = 22,  /* an option is out of its range */
    NIZGRABUL_BAD_KIND = 23,      /* no kind of loader has the number */
    NIZGRABUL_BUSY = 24,          /* another seat has the pool; ask again */
    NIZGRABUL_NOT_HELD = 25,      /* the call needs the pool, which the seat does not have */
    NIZGRABUL_NO_SEAT = 26,       /* there is no seat */
    NIZGRABUL_NO_SPARE = 27       /* the seat has no seat to spare */
};

/* Kinds of loaders: how large the chunks are that they get, unless a block needs a larger one. */
enum nizgrabul_kind {
    NIZGRABUL_STANDARD = 0,   /* 512 words at first outside the class space, 2048 in the end */
    NIZGRABUL_BOOT = 1,       /* 524288, then 131072 */
    NIZGRABUL_REFLECTION = 2, /* 256, then 128 */
    NIZGRABUL_HIDDEN = 3      /* 128 */
};

/* Policies: what becomes of memory that is given back. */
enum nizgrabul_policy {
    NIZGRABUL_BALANCED = 0,   /* granules of 64 KB; what no chunk needs is committed no more */
    NIZGRABUL_AGGRESSIVE = 1, /* the same with granules of 16 KB */
    NIZGRABUL_NONE = 2        /* granules of 64 KB, a chunk's all at once; they stay until their node is given back */
};

/* A system, or none. Filled with zeros before its first use, and then the library's alone. */
typedef struct nizgrabul_handle {
    void *at;
    bool live;
} nizgrabul_handle;

/* A seat of a shared pool with its loader, or none. Filled with zeros before its first use, and then the
 * library's alone. */
typedef struct nizgrabul_seat {
    void *at;
    bool live;
} nizgrabul_seat;

/* The settings of a system, or of a shared pool. */
typedef struct nizgrabul_options {
    uint32_t nodes;        /* nodes outside the class space that may be reserved at once, 1 to 64 */
    uint32_t class_nodes;  /* nodes of the class space, which are reserved from the start, 0 to 16 */
    uint64_t max_granules; /* granules that may be committed at once, in both spaces, 1 to 40960 */
    uint32_t policy;       /* one of enum nizgrabul_policy */
} nizgrabul_options;

/* A status and its numbers. `value` is the word where a block starts, or how many nodes were given back;
 * of a refusal, what its status names. The numbers that a status does not name are 0. */
typedef struct nizgrabul_answer {
    uint32_t status; /* one of enum nizgrabul_status */
    uint64_t value;
    uint64_t limit;
    uint64_t need;
} nizgrabul_answer;

/* A run of granules; of none where there is none to commit or to give back. */
typedef struct nizgrabul_run {
    uint64_t first;    /* the number of the first one */
    uint64_t granules; /* how many they are */
    uint64_t came;     /* how many of them became committed; fewer than all under the policy none; 0 of those that went */
} nizgrabul_run;

/* The sums over one space, in words where nothing else is said; used = live + free_blocks + waste. */
typedef struct nizgrabul_sums {
    uint64_t nodes;       /* reserved nodes */
    uint64_t reserved;    /* their words */
    uint64_t granules;    /* committed granules */
    uint64_t committed;   /* their words */
    uint64_t chunks;      /* chunks that are lent */
    uint64_t capacity;    /* their words */
    uint64_t fronts;      /* words of their fronts: how far they are committed for their holders */
    uint64_t used;        /* words in use */
    uint64_t live;        /* words of live blocks */
    uint64_t free_blocks; /* words of free blocks */
    uint64_t waste;       /* words in use that are in no block */
    uint32_t held[13];    /* chunks that are lent, by level: of 524288 words at 0, of 128 at 12, halves between */
    uint32_t free[13];    /* parts that are free, by level */
} nizgrabul_sums;

/* All sums over a system. */
typedef struct nizgrabul_sums_of_all {
    uint64_t loaders;           /* how many there are */
    nizgrabul_sums space;       /* outside the class space */
    nizgrabul_sums class_space; /* in the class space */
} nizgrabul_sums_of_all;

/* What is committed and reserved, beside what may be. */
typedef struct nizgrabul_limit_counts {
    uint64_t granules;      /* committed granules, of both spaces together */
    uint64_t granule_limit; /* how many may be */
    uint64_t granule_words; /* the words of a granule, 8192 or 2048 */
    uint64_t nodes;         /* reserved nodes, without those of the class space */
    uint64_t node_limit;    /* how many may be */
    uint64_t class_nodes;   /* nodes of the class space, which stay reserved */
} nizgrabul_limit_counts;

/* The sums over one loader's arena in a space; used = live + free_blocks + waste. */
typedef struct nizgrabul_arena_sums {
    uint64_t chunks;      /* chunks that it holds */
    uint64_t capacity;    /* their words */
    uint64_t fronts;      /* words of their fronts */
    uint64_t used;        /* words in use */
    uint64_t live;        /* words of live blocks */
    uint64_t free_blocks; /* words of free blocks */
    uint64_t waste;       /* words in use that are in no block */
} nizgrabul_arena_sums;

/* The kind of one loader, by its number, and its sums. */
typedef struct nizgrabul_sums_of_loader {
    uint64_t kind;                    /* one of enum nizgrabul_kind */
    nizgrabul_arena_sums space;       /* outside the class space */
    nizgrabul_arena_sums class_space; /* in the class space */
} nizgrabul_sums_of_loader;

/* Returns the library's version, for a program to compare with the NIZGRABUL_VERSION of its header. Takes no
 * memory. */
uint32_t nizgrabul_version(void);

/* Makes a system with no loader in an empty handle, under the settings that the options name. Returns IN_USE
 * exactly where the handle has a system already, in an empty one BAD_SETTINGS exactly where an option is out of
 * its range, and else DONE or OUT_OF_MEMORY; all but DONE leave the handle as it was. Takes memory. */
uint32_t nizgrabul_new(const nizgrabul_options *options, nizgrabul_handle *out);

/* Ends the handle's system, if there is one, and gives all its memory back; the handle is empty then, and
 * may be used anew. Takes no memory. */
void nizgrabul_delete(nizgrabul_handle *handle);

/* Makes a loader with nothing of its own, under a number that no loader has. The kind is 0 standard, 1 boot, 2
 * reflection or 3 hidden; any other is refused with BAD_KIND. Refused with LOADER_EXISTS, IDS_USED_UP and
 * OUT_OF_MEMORY. Takes memory. */
nizgrabul_answer nizgrabul_new_loader(nizgrabul_handle *handle, uint16_t loader, uint32_t kind);

/* Unloads a loader: all its blocks and chunks go with it, and its number may be used anew. Under the
 * policies balanced and aggressive just the granules stay committed that a chunk of another loader still
 * needs; under none all stay. Refused with NO_LOADER alone. Takes no memory. */
nizgrabul_answer nizgrabul_unload(nizgrabul_handle *handle, uint16_t loader);

/* Allocates a block of so many words, 1 to 524288, outside the class space, under a number that the loader
 * has no block of; `value` is the word where it starts. One word makes a block of two. All its words lie in
 * committed granules, and no other block of any loader overlaps it. Refused, in this order, with NO_LOADER,
 * BLOCK_EXISTS, ZERO_WORDS, TOO_LARGE, and with RESERVE_LIMIT, COMMIT_LIMIT or OUT_OF_MEMORY. Takes
 * memory. */
nizgrabul_answer nizgrabul_alloc(nizgrabul_handle *handle, uint16_t loader, uint32_t block, uint64_t words);

/* Allocates a block in the class space, as nizgrabul_alloc does; a loader's blocks of both spaces share
 * their numbers. Takes memory. */
nizgrabul_answer nizgrabul_calloc(nizgrabul_handle *handle, uint16_t loader, uint32_t block, uint64_t words);

/* Allocates a block as nizgrabul_alloc does, and writes to `out` the run of granules that it committed: each
 * that became committed lies in it, and each of it is committed now; none has gone. Under the policies balanced
 * and aggressive all of the run became committed; under none some of it may have been before. All but DONE
 * leave `out` as it was. Takes memory. */
nizgrabul_answer nizgrabul_alloc_with_run(nizgrabul_handle *handle, uint16_t loader, uint32_t block,
                                          uint64_t words, nizgrabul_run *out);

/* Allocates a block in the class space, and writes the run of granules that it committed to `out`, as
 * nizgrabul_alloc_with_run does. Takes memory. */
nizgrabul_answer nizgrabul_calloc_with_run(nizgrabul_handle *handle, uint16_t loader, uint32_t block,
                                           uint64_t words, nizgrabul_run *out);

/* Frees a block, whose words become a free block of its loader; its number may be used anew. No granule
 * changes. Refused with NO_LOADER, and with NO_BLOCK where the loader has no live block of the number. Takes
 * no memory. */
nizgrabul_answer nizgrabul_free(nizgrabul_handle *handle, uint16_t loader, uint32_t block);

/* Frees the live block of a loader that starts there and has so many words, at least two, as nizgrabul_free
 * does by its number, which may then be used anew. Refused with NO_LOADER, and with NOT_LIVE where the
 * loader has no such live block. Takes no memory, and visits each of the loader's numbers until it is
 * found. */
nizgrabul_answer nizgrabul_free_block(nizgrabul_handle *handle, uint16_t loader, uint64_t start, uint64_t words);

/* Gives back the nodes in which no chunk is held; `value` is how many they were. Those of the class space
 * stay. No granule of a node that went is committed; only under the policy none one can have been. Takes no
 * memory. */
nizgrabul_answer nizgrabul_purge(nizgrabul_handle *handle);

/* Writes to `out` how many granules are committed in both spaces and how many may be, and the same of nodes
 * outside the class space. Returns DONE, or NO_SYSTEM, which leaves `out` as it was. Takes no memory, and
 * visits no loader and no chunk. */
uint32_t nizgrabul_counts(nizgrabul_handle *handle, nizgrabul_limit_counts *out);

/* Returns the words in use of one loader, in both spaces, and 0 where none has the number. Takes no
 * memory. */
uint64_t nizgrabul_used_by(nizgrabul_handle *handle, uint16_t loader);

/* Returns whose a word is: `value` is the number of the loader in whose chunk the word lies, in use or not.
 * Returns NO_LOADER where it lies in nobody's. Takes no memory, and visits the depth of a tree and one entry of
 * a table. */
nizgrabul_answer nizgrabul_holder(nizgrabul_handle *handle, uint64_t word);

/* Returns whether a granule is committed: the words from its number times a granule's words on, which are
 * 8192, or 2048 under the policy aggressive. With no system none is. Takes no memory. */
bool nizgrabul_is_committed(nizgrabul_handle *handle, uint64_t granule);

/* Writes to `out` of each granule from `first` on, as many as it has elements, whether it is committed; with no
 * system none is. So a program compares before and after in one call. Takes no memory. */
void nizgrabul_granules(nizgrabul_handle *handle, uint32_t first, bool *out, size_t elements);

/* Returns the first run of granules, from the granule `from` on, that were committed and are no more: `was` has
 * a flag for each granule from 0 on, whether it was committed, and granules past its elements were not. `came` is
 * 0, and a run of no granules says that there is none. Asked from 0 on after an unload or a purge, and then
 * each time from the end of the run before, it returns exactly the granules that a program gives back. With no
 * system none is committed. Takes no memory, and visits no granule past the run's end. */
nizgrabul_run nizgrabul_next_uncommitted(nizgrabul_handle *handle, const bool *was, size_t elements, uint64_t from);

/* Writes all sums over the system to `out`. Returns DONE, NO_SYSTEM or OUT_OF_MEMORY; all but DONE leave `out`
 * as it was. Takes memory while it runs; visits each node, loader and chunk, and no block. */
uint32_t nizgrabul_totals(nizgrabul_handle *handle, nizgrabul_sums_of_all *out);

/* Writes the sums of one loader to `out`. Returns DONE, NO_SYSTEM, or NO_LOADER where none has the number; all
 * but DONE leave `out` as it was. Takes no memory; visits each chunk of that loader, no block, and no other
 * loader. */
uint32_t nizgrabul_loader_totals(nizgrabul_handle *handle, uint16_t loader, nizgrabul_sums_of_loader *out);

/* One pool for many threads. Each class loader has a seat of its own, and is on the thread that has the seat:
 * it moves to another thread where the program hands the seat there. Blocks come of what a loader has, with no
 * lock, until it needs more of the pool: for that its seat takes the pool, and no other seat has it meanwhile.
 *
 *     nizgrabul_seat first = {0}, second = {0};
 *     nizgrabul_share(&options, 2, &first);                  a pool with two seats
 *     nizgrabul_seat_split(&first, &second);                 one for each loader; on the thread that has first:
 *     nizgrabul_seat_wait(&first);                           this thread has the pool
 *     nizgrabul_seat_new_loader(&first, NIZGRABUL_STANDARD);
 *     nizgrabul_seat_let_go(&first);
 *     nizgrabul_answer block = nizgrabul_seat_alloc(&first, 7, 4000);
 *     if (block.status == NIZGRABUL_NOT_HELD) {              the loader needs more than it has
 *         nizgrabul_seat_wait(&first);
 *         block = nizgrabul_seat_alloc(&first, 7, 4000);
 *         ..                                                 commit what nizgrabul_seat_granules returns anew
 *         nizgrabul_seat_let_go(&first);
 *     }
 *
 * What a program owes here, since nothing checks it:
 * - What is owed of a handle is owed of a seat: it begins as zeros, one call at a time has it, and of a seat and
 *   its copy only one is used again. It goes to another thread by a lock, by the start or the end of a thread,
 *   or by a sequentially consistent atomic. `seat` and `out` are two.
 * - Memory is committed, and given back, while the seat has the pool: once it let the pool go, another seat may
 *   get the same granules, and would have them committed before they are given back.
 * - A thread has the pool by one seat at a time, and not for long: meanwhile BUSY is returned to every other seat.
 *   To ask for it by a second seat is to ask forever.
 * No call of a seat waits for another thread. nizgrabul_seat_wait, at the end of this header, asks until the seat
 * has the pool; NIZGRABUL_WAIT(tries), defined before this header, puts a program's own way to wait in its place.
 * A pool ends with its last seat, and has at most 65536 of them; a seat whose loader was unloaded serves the next
 * one. There is no move of a loader between two seats: the seat moves.
 *
 * - ThreadSanitizer, which does not see into the library, has to be told that the pool orders what its holders
 *   do: __tsan_acquire(address) once a seat has it, and __tsan_release(address) before nizgrabul_seat_let_go.
 *
 * A loader made by nizgrabul_seat_new_arenas has no numbers for its blocks. It knows its live blocks by where they
 * start, at a cost that does not grow with them: what is freed is named by space, start and words, and is refused
 * where it is no live block of that loader. One made by nizgrabul_seat_new_bare keeps no list of them: it costs
 * least, and the program owes that what it frees is live. */

/* Makes a pool with no loader, under the settings that the options name, for so many seats, 1 to 65536. `out`
 * gets the first seat, which has all others to spare. Returns IN_USE exactly where `out` has a seat already,
 * where it has none BAD_SETTINGS exactly where an option or the number of seats is out of its range, and else
 * DONE or OUT_OF_MEMORY; all but DONE leave `out` as it was. Takes memory. */
uint32_t nizgrabul_share(const nizgrabul_options *options, uint32_t seats, nizgrabul_seat *out);

/* Gives `out` one of the seats that `seat` has to spare, for a loader of its own and for any thread. Returns
 * NO_SEAT exactly where `seat` has none, IN_USE where `out` has one already, NO_SPARE where none is to spare,
 * and else DONE or OUT_OF_MEMORY; all but DONE change nothing. Takes memory. */
uint32_t nizgrabul_seat_split(nizgrabul_seat *seat, nizgrabul_seat *out);

/* Ends a seat, if there is one, and gives the pool back where the seat has it; the last seat of a pool ends
 * the pool. Chunks of a loader that was not unloaded stay with the pool, and so do seats to spare. The seat
 * is empty then, and may be used anew. Takes no memory. */
void nizgrabul_seat_end(nizgrabul_seat *seat);

/* Takes the pool for a seat, by one try, and keeps it until nizgrabul_seat_let_go. Returns BUSY where another
 * seat has the pool, which changes nothing; DONE where the seat has it then, also where it had; and NO_SEAT.
 * Takes no memory. */
uint32_t nizgrabul_seat_hold(nizgrabul_seat *seat);

/* Gives the pool back that a seat has. Returns NOT_HELD where it doesn't have it, and NO_SEAT, which change
 * nothing, and else DONE. Takes no memory. */
uint32_t nizgrabul_seat_let_go(nizgrabul_seat *seat);

/* Makes the seat's loader, with nothing of its own and with numbers for its blocks, over the pool that the seat
 * has. The kind is 0 standard, 1 boot, 2 reflection or 3 hidden; any other is refused with BAD_KIND. Refused
 * with NO_SEAT, LOADER_EXISTS, NOT_HELD and IDS_USED_UP. Takes no memory. */
nizgrabul_answer nizgrabul_seat_new_loader(nizgrabul_seat *seat, uint32_t kind);

/* Unloads the seat's loader, with numbers for its blocks or without, over the pool that the seat has: all its
 * blocks and chunks go with it, and the seat may make another. Under the policies balanced and aggressive just
 * the granules stay committed that a chunk of another loader still needs; under none all stay. Refused with
 * NO_SEAT, NO_LOADER and NOT_HELD. Takes no memory. */
nizgrabul_answer nizgrabul_seat_unload(nizgrabul_seat *seat);

/* Allocates a block of so many words, 1 to 524288, outside the class space, under a number that the seat's
 * loader has no block of; `value` is the word where it starts. One word makes a block of two. Where the seat
 * has the pool, granules may become committed. Where it doesn't, no lock is tried: the block comes of the
 * committed words that the loader has, and the call returns NOT_HELD where these don't serve. Refused, in this
 * order, with NO_SEAT, NO_LOADER, BLOCK_EXISTS, ZERO_WORDS, TOO_LARGE, and with NOT_HELD, RESERVE_LIMIT,
 * COMMIT_LIMIT or OUT_OF_MEMORY. Takes memory. */
nizgrabul_answer nizgrabul_seat_alloc(nizgrabul_seat *seat, uint32_t block, uint64_t words);

/* Allocates a block in the class space, as nizgrabul_seat_alloc does; a loader's blocks of both spaces share
 * their numbers. Takes memory. */
nizgrabul_answer nizgrabul_seat_calloc(nizgrabul_seat *seat, uint32_t block, uint64_t words);

/* Frees a block, whose words become a free block of the seat's loader; its number may be used anew. No
 * granule changes, and the pool isn't needed. Refused with NO_SEAT, NO_LOADER, and with NO_BLOCK where the
 * loader has no live block of the number. Takes no memory. */
nizgrabul_answer nizgrabul_seat_free(nizgrabul_seat *seat, uint32_t block);

/* Makes the seat's loader, over the pool that the seat has, without numbers for its blocks: a block is known by
 * its space, its start and its words. The kind is one of nizgrabul_seat_new_loader's; any other is refused with
 * BAD_KIND. Refused with NO_SEAT, LOADER_EXISTS, NOT_HELD and IDS_USED_UP. Takes no memory. */
nizgrabul_answer nizgrabul_seat_new_arenas(nizgrabul_seat *seat, uint32_t kind);

/* Makes the seat's loader as nizgrabul_seat_new_arenas does, but that it keeps no list of its live blocks, which
 * makes it cheaper: nizgrabul_seat_take allocates of it too, and nizgrabul_seat_give_bare frees. Refused as that
 * call is. Takes no memory. */
nizgrabul_answer nizgrabul_seat_new_bare(nizgrabul_seat *seat, uint32_t kind);

/* Allocates a block of so many words, 1 to 524288, of the seat's loader without numbers; `value` is the word
 * where it starts, in the class space or outside it. One word makes a block of two. Where the seat has the
 * pool, granules may become committed. Where it doesn't, no lock is tried: the block comes of the committed
 * words that the loader has, and the call returns NOT_HELD where these don't serve. Refused, in this order,
 * with NO_SEAT, NO_LOADER, ZERO_WORDS, TOO_LARGE, and with NOT_HELD, RESERVE_LIMIT, COMMIT_LIMIT or
 * OUT_OF_MEMORY. Takes memory. */
nizgrabul_answer nizgrabul_seat_take(nizgrabul_seat *seat, bool class_space, uint64_t words);

/* Frees the live block of the seat's loader without numbers that starts there and has so many words, at least
 * two: its words become a free block of the loader. No granule changes, and the pool isn't needed. Refused with
 * NO_SEAT, NO_LOADER, and with NOT_LIVE exactly where the loader has no such live block in that space, and then
 * nothing changes; a bare loader is refused with NO_LOADER. Takes no memory. */
nizgrabul_answer nizgrabul_seat_give(nizgrabul_seat *seat, bool class_space, uint64_t start, uint64_t words);

/* Frees a block of the seat's bare loader, as nizgrabul_seat_give does of another. The program owes that
 * nizgrabul_seat_take returned that start for so many words, or for one where these are two, in that space, to
 * this loader, and that the block was not given back since: nothing checks it. Refused with NO_SEAT, and with
 * NO_LOADER where there is no bare loader. Takes no memory. */
nizgrabul_answer nizgrabul_seat_give_bare(nizgrabul_seat *seat, bool class_space, uint64_t start, uint64_t words);

/* Gives the nodes of the pool that the seat has back in which no chunk is held; `value` is how many they
 * were. Those of the class space stay. No granule of a node that went is committed; only under the policy
 * none one can have been. Refused with NO_SEAT and NOT_HELD. Takes no memory. */
nizgrabul_answer nizgrabul_seat_purge(nizgrabul_seat *seat);

/* Returns the words in use of the seat's loader, with numbers for its blocks or without, in both spaces, and 0
 * where there is none. Takes no memory. */
uint64_t nizgrabul_seat_used(nizgrabul_seat *seat);

/* Writes the sums of the seat's loader, with numbers for its blocks or without, to `out`. Returns DONE, NO_SEAT,
 * or NO_LOADER where there is none, or a bare one; all but DONE leave `out` as it was. Takes no memory; visits
 * each chunk of the loader, and no block. */
uint32_t nizgrabul_seat_totals(nizgrabul_seat *seat, nizgrabul_sums_of_loader *out);

/* Writes to `out` of each granule from `first` on, as many as it has elements, whether it is committed in the
 * pool that the seat has. Returns DONE; NOT_HELD exactly where the seat doesn't have the pool, and NO_SEAT,
 * which leave `out` as it was. Takes no memory. */
uint32_t nizgrabul_seat_granules(nizgrabul_seat *seat, uint32_t first, bool *out, size_t elements);

/* Gives `out` the first run of granules, from the granule `from` on, that were committed and are no more in the
 * pool that the seat has, as nizgrabul_next_uncommitted does of a system. Returns DONE; NOT_HELD exactly where
 * the seat doesn't have the pool, and NO_SEAT, which leave `out` as it was. Takes no memory. */
uint32_t nizgrabul_seat_next_uncommitted(nizgrabul_seat *seat, const bool *was, size_t elements, uint64_t from,
                                         nizgrabul_run *out);

#ifdef __cplusplus
}
#endif

/* What is done between two tries: nothing the first times, then another thread is let run. */
#ifndef NIZGRABUL_WAIT
#include <sched.h>
#define NIZGRABUL_WAIT(tries) ((tries) < 64 ? 0 : sched_yield())
#endif

/* Takes the pool for a seat as nizgrabul_seat_hold does, and asks until no other seat has it. Returns DONE or
 * NO_SEAT. */
static inline uint32_t nizgrabul_seat_wait(nizgrabul_seat *seat) {
    uint32_t status, tries = 0;
    while ((status = nizgrabul_seat_hold(seat)) == NIZGRABUL_BUSY) {
        (void)NIZGRABUL_WAIT(tries);
        tries += tries < 64;
    }
    return status;
}

#endif
