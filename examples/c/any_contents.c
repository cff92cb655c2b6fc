/* Every function takes any contents and any lengths: NULL with length 0, a buffer that was never started, a damaged store. */
#include <stdio.h>
#include <string.h>
#include "recipe_store.h"

enum { WORDS = 73 }; /* the smallest store: one place of each kind */

static const uint8_t new_block[8] = {8, 0, 2, 0, 0, 0, 0, 0};

static void show(const char *what, uint32_t reply) { printf("%-42s %u\n", what, reply); }

static void nothing_lent(void) {
    uint64_t count;
    show("start in no words", recipe_start(NULL, 0, 1, 1, 1, 1, 1));
    show("edit with nothing lent", recipe_edit(NULL, 0, NULL, 0, NULL, 0, NULL, 0));
    show("script with nothing lent", recipe_script(NULL, 0, NULL, 0, NULL, 0, NULL, 0, &count));
    show("check of no words", recipe_check(NULL, 0));
    show("uses of a value in no words", recipe_value_uses(NULL, 0, 0, NULL, 0, &count));
    show("uses of a block in no words", recipe_block_uses(NULL, 0, 0, NULL, 0, &count));
    show("listing of no words", recipe_listing(NULL, 0, NULL, 0, NULL, 0, &count));
}

static void damaged(void) {
    uint32_t store[WORDS], before[WORDS], scratch[1], answer[4];
    memset(store, 0xa5, sizeof store);
    show("check of words never started", recipe_check(store, WORDS));
    show("start with a capacity of 0", recipe_start(store, WORDS, 0, 1, 1, 1, 1));
    show("start with a word too few", recipe_start(store, WORDS - 1, 1, 1, 1, 1, 1));
    show("start", recipe_start(store, WORDS, 1, 1, 1, 1, 1));
    show("new block", recipe_edit(store, WORDS, scratch, 1, new_block, 8, answer, 3));
    show("another: the table is full", recipe_edit(store, WORDS, scratch, 1, new_block, 8, answer, 3));
    show("a byte of the record is missing", recipe_edit(store, WORDS, scratch, 1, new_block, 7, answer, 3));
    show("no scratch", recipe_edit(store, WORDS, scratch, 0, new_block, 8, answer, 3));
    show("no room for the answer", recipe_edit(store, WORDS, scratch, 1, new_block, 8, answer, 2));
    unsigned refused = 0, kept = 0, sound = 0;
    for (size_t i = 0; i < WORDS; i++) {
        store[i] ^= 1u << 30;
        memcpy(before, store, sizeof store);
        sound += recipe_check(store, WORDS);
        refused += recipe_edit(store, WORDS, scratch, 1, new_block, 8, answer, 3) != 0;
        kept += memcmp(before, store, sizeof store) == 0;
        store[i] ^= 1u << 30;
    }
    printf("of %d words damaged one at a time: %u stores still sound, %u edits refused, %u stores kept\n", WORDS, sound, refused, kept);
}

int main(void) {
    nothing_lent();
    damaged();
    return 0;
}
