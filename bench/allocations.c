/* Allocations through the library for C, in loaders by turns, of which no word is ever written:
 *
 *     allocations LOADERS WORDS BLOCKS [run]      with the run of granules that each commits, where asked for
 *
 * For callgrind, what `nizgrabul_alloc` takes with all that it calls, beside what the system's own call takes in it; and for resident
 * memory, which no words take. Built as examples/c/Makefile builds its programs. */
#include <stdint.h>
#include <stdio.h>
#include <stdlib.h>

#include "../examples/c/nizgrabul.h"

int main(int count, char **given) {
    if (count < 4)
        return 2;
    int loaders = atoi(given[1]), words = atoi(given[2]), blocks = atoi(given[3]), refused = 0;
    nizgrabul_handle handle = {0};
    nizgrabul_options options = {.nodes = 64, .class_nodes = 0, .max_granules = 8192, .policy = NIZGRABUL_BALANCED};
    nizgrabul_run run = {0};
    refused += nizgrabul_new(&options, &handle) != NIZGRABUL_DONE;
    for (int loader = 0; loader < loaders; loader++)
        refused += nizgrabul_new_loader(&handle, loader, NIZGRABUL_STANDARD).status != NIZGRABUL_DONE;
    for (int block = 0; block < blocks; block++) {
        int loader = block % loaders;
        nizgrabul_answer made = count > 4 ? nizgrabul_alloc_with_run(&handle, loader, block, words, &run)
                                          : nizgrabul_alloc(&handle, loader, block, words);
        refused += made.status != NIZGRABUL_DONE;
    }
    nizgrabul_delete(&handle);
    printf("%d calls were refused\n", refused);
    return refused != 0;
}
