/* Whose each word is, over so many loaders as the command line says: the program keeps a table of its own, and
 * compares what the library tells of each block's words, before loaders go, while a third of them is gone, and
 * once others have come under their numbers. Then it asks as often as the second argument says. */
#include <inttypes.h>
#include <stdio.h>
#include <stdlib.h>

#include "nizgrabul.h"

#define MOST 2000

static nizgrabul_handle handle;
static uint64_t starts[2 * MOST];
static int is_there[MOST];

static void expect(int holds, const char *what, int loader) {
    if (!holds) {
        fprintf(stderr, "%s, of loader %d\n", what, loader);
        exit(1);
    }
}

/* A loader with a block in each space. */
static void come(int loader) {
    expect(nizgrabul_new_loader(&handle, loader, loader % 4).status == NIZGRABUL_DONE, "not made", loader);
    nizgrabul_answer block = nizgrabul_alloc(&handle, loader, 1, 10 + loader % 500);
    nizgrabul_answer class = nizgrabul_calloc(&handle, loader, 2, 4);
    expect(block.status == NIZGRABUL_DONE && class.status == NIZGRABUL_DONE, "no block", loader);
    starts[2 * loader] = block.value;
    starts[2 * loader + 1] = class.value;
    is_there[loader] = 1;
}

/* Each word of a block that stands is its loader's. */
static void compare(int loaders) {
    for (int i = 0; i < loaders; i++)
        for (int space = 0; space < 2; space++) {
            nizgrabul_answer found = nizgrabul_holder(&handle, starts[2 * i + space] + 3);
            if (is_there[i])
                expect(found.status == NIZGRABUL_DONE && found.value == (uint64_t)i, "another holds it", i);
            else
                expect(found.status == NIZGRABUL_NO_LOADER || found.value != (uint64_t)i, "it holds it still", i);
        }
}

int main(int count, char **words) {
    int loaders = count > 1 ? atoi(words[1]) : 1000, asked = count > 2 ? atoi(words[2]) : 0;
    nizgrabul_options options = {.nodes = 64, .class_nodes = 16, .max_granules = 8192, .policy = NIZGRABUL_BALANCED};
    expect(loaders <= MOST && nizgrabul_new(&options, &handle) == NIZGRABUL_DONE, "no system", 0);
    for (int i = 0; i < loaders; i++) come(i);
    compare(loaders);
    for (int i = 0; i < loaders; i += 3) {
        expect(nizgrabul_unload(&handle, i).status == NIZGRABUL_DONE, "not unloaded", i);
        is_there[i] = 0;
    }
    compare(loaders);
    for (int i = (loaders - 1) / 3 * 3; i >= 0; i -= 3) come(i);
    compare(loaders);
    uint64_t other = 0;
    for (int i = 0; i < asked; i++) {
        int loader = (int)(i * 7919LL % loaders);
        other += nizgrabul_holder(&handle, starts[2 * loader + i % 2]).value != (uint64_t)loader;
    }
    nizgrabul_delete(&handle);
    printf("%d loaders, %" PRIu64 " others\n", loaders, other);
    return other != 0;
}
