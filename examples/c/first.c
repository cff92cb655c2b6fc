/* The worked example of README.md in C: starts a store, runs the script, prints the listing, reads the uses of a value.
   cc -Wall -Wextra -Werror -I include examples/c/first.c crates/ffi/out/libffi.a -o first && ./first examples/first.bin */
#include <stdio.h>
#include <stdlib.h>
#include "recipe_store.h"

enum { OPS = 128, BLOCKS = 64, REGIONS = 64, VALUES = 256, USES = 512, SCRIPT = 16384, ANSWERS = SCRIPT / 4, OUT = 262144 };

/* What the caller lends. Nothing is allocated by the store. */
static uint32_t scratch[OPS], answers[3 * ANSWERS], uses[USES];
static uint8_t script[SCRIPT], out[OUT];

static size_t read_script(const char *name) {
    FILE *file = fopen(name, "rb");
    if (!file) {
        perror(name);
        exit(1);
    }
    size_t length = fread(script, 1, sizeof script, file);
    fclose(file);
    return length;
}

static void print_uses(const uint32_t *store, size_t words, uint32_t value) {
    uint64_t count;
    uint32_t refusal = recipe_value_uses(store, words, value, uses, USES, &count);
    if (refusal) {
        printf("uses of value %u: refused with %u\n", value, refusal);
        return;
    }
    printf("uses of value %u:", value);
    for (uint64_t i = 0; i < count; i++)
        printf(" %u", uses[i]);
    printf("\n");
}

int main(int argc, char **argv) {
    if (argc != 2) {
        fprintf(stderr, "first SCRIPT\n");
        return 1;
    }
    size_t length = read_script(argv[1]);
    size_t words = recipe_words(OPS, BLOCKS, REGIONS, VALUES, USES);
    uint32_t *store = malloc(words * sizeof *store);
    if (!store || recipe_start(store, words, OPS, BLOCKS, REGIONS, VALUES, USES))
        return 1;

    uint64_t count, written;
    uint32_t ended = recipe_script(store, words, scratch, OPS, script, length, answers, 3 * ANSWERS, &count);
    if (recipe_listing(store, words, answers, 3 * (size_t)count, out, OUT, &written))
        return 1;
    fwrite(out, 1, (size_t)written, stdout);

    print_uses(store, words, 0);
    print_uses(store, words, 1);
    print_uses(store, words, 2);
    free(store);
    return ended != 0;
}
