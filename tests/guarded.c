/* The compiled library touches nothing but what it is lent. Every buffer has its exact length and lies against a page that may not be touched: first before
   its start, then behind its end. All recorded scripts are run, as scripts and as single edits, and then words of every kind of damage.
   guarded differential/recorded.bin */
#define _DEFAULT_SOURCE
#include <stdio.h>
#include <stdlib.h>
#include <string.h>
#include <sys/mman.h>
#include <unistd.h>
#include "recipe_store.h"

enum { OPS = 128, BLOCKS = 64, REGIONS = 64, VALUES = 256, USES = 512, SCRIPT = 16384, ANSWERS = SCRIPT / 4 + 1, OUT = 262144 };

static size_t page;
static int at_end; /* where the page that may not be touched lies: behind the buffer, or before it */

static void expect(int holds, const char *what) {
    if (!holds) {
        printf("not so: %s\n", what);
        exit(1);
    }
}

struct lent {
    uint8_t *map;
    size_t mapped;
    void *at;
};

static struct lent lend(size_t bytes) {
    size_t inner = (bytes + page - 1) / page * page;
    struct lent l = {NULL, inner + 2 * page, NULL};
    l.map = mmap(NULL, l.mapped, PROT_NONE, MAP_PRIVATE | MAP_ANONYMOUS, -1, 0);
    expect(l.map != MAP_FAILED, "memory is mapped");
    expect(inner == 0 || mprotect(l.map + page, inner, PROT_READ | PROT_WRITE) == 0, "memory may be written");
    l.at = l.map + page + (at_end ? inner - bytes : 0);
    return l;
}

static struct lent lend_copy(const void *from, size_t bytes) {
    struct lent l = lend(bytes);
    if (bytes)
        memcpy(l.at, from, bytes);
    return l;
}

static void take_back(struct lent l) { munmap(l.map, l.mapped); }

/* The uses of every value and block that may be live, each in a list of exact length. */
static void read_uses(const uint32_t *store, size_t words) {
    static uint32_t uses[USES];
    for (uint32_t number = 0; number < 600; number++)
        for (int block = 0; block < 2; block++) {
            uint64_t count, again;
            uint32_t (*reader)(const uint32_t *, size_t, uint32_t, uint32_t *, size_t, uint64_t *) = block ? recipe_block_uses : recipe_value_uses;
            uint32_t reply = reader(store, words, number, uses, USES, &count);
            expect(reply == 0 || reply == (block ? 8 : 10), "the uses are told, or there is no such thing");
            struct lent list = lend(4 * count);
            expect(reader(store, words, number, list.at, count, &again) == reply && again == count, "a list of exact length is enough");
            expect(memcmp(list.at, uses, 4 * count) == 0, "the uses are the same");
            take_back(list);
        }
}

/* A script with every buffer of exact length; the listing must be the recorded one. */
static void run(const uint8_t *bytes, size_t length, const uint8_t *expected, size_t expected_length) {
    size_t words = recipe_words(OPS, BLOCKS, REGIONS, VALUES, USES);
    struct lent script = lend_copy(bytes, length), store = lend(4 * words), scratch = lend(4 * OPS), many = lend(12 * ANSWERS);
    uint64_t count, again, written;
    expect(recipe_start(store.at, words, OPS, BLOCKS, REGIONS, VALUES, USES) == 0, "the store starts");
    expect(recipe_script(store.at, words, scratch.at, OPS, script.at, length, many.at, 3 * ANSWERS, &count) == 0, "the script ends");
    struct lent answers = lend(12 * count), out = lend(expected_length);
    expect(recipe_start(store.at, words, OPS, BLOCKS, REGIONS, VALUES, USES) == 0, "the store starts again");
    expect(recipe_script(store.at, words, scratch.at, OPS, script.at, length, answers.at, 3 * count, &again) == 0 && again == count, "answers of exact length are enough");
    expect(recipe_listing(store.at, words, answers.at, 3 * count, out.at, expected_length, &written) == 0 && written == expected_length, "the listing has its length");
    expect(memcmp(out.at, expected, expected_length) == 0, "the listing is the recorded one");
    expect(recipe_check(store.at, words), "the store is sound");
    take_back(script), take_back(store), take_back(scratch), take_back(many), take_back(answers), take_back(out);
}

/* The same, edit by edit, each record alone. */
static void run_edits(const uint8_t *bytes, size_t length, const uint8_t *expected, size_t expected_length) {
    size_t words = recipe_words(OPS, BLOCKS, REGIONS, VALUES, USES), at = 0, n = 0;
    static uint32_t answers[3 * ANSWERS];
    static uint8_t out[OUT];
    struct lent store = lend(4 * words), scratch = lend(4 * OPS), answer = lend(12);
    expect(recipe_start(store.at, words, OPS, BLOCKS, REGIONS, VALUES, USES) == 0, "the store starts");
    while (at < length) {
        size_t said = length - at < 2 ? 0 : bytes[at] + 256u * bytes[at + 1];
        size_t taken = said < 4 || said > 2048 || said % 4 || said > length - at ? length - at : said;
        struct lent record = lend_copy(bytes + at, taken);
        recipe_edit(store.at, words, scratch.at, OPS, record.at, taken, answer.at, 3);
        memcpy(answers + 3 * n++, answer.at, 12);
        take_back(record);
        at += taken;
    }
    uint64_t written;
    expect(recipe_listing(store.at, words, answers, 3 * n, out, OUT, &written) == 0, "the store is listed");
    expect(written == expected_length && memcmp(out, expected, written) == 0, "single edits list what was recorded");
    if (length % 64 == 0)
        read_uses(store.at, words);
    take_back(store), take_back(scratch), take_back(answer);
}

/* Words of any length and contents: each function replies. */
static void any_words(const uint32_t *from, size_t words) {
    static const uint8_t new_block[8] = {8, 0, 2, 0, 0, 0, 0, 0};
    struct lent store = lend_copy(from, 4 * words), scratch = lend(4), answers = lend(12), out = lend(7), list = lend(4), record = lend_copy(new_block, 8);
    uint64_t count;
    recipe_check(store.at, words);
    recipe_value_uses(store.at, words, 0, list.at, 1, &count);
    recipe_block_uses(store.at, words, 0, list.at, 1, &count);
    recipe_listing(store.at, words, answers.at, 3, out.at, 7, &count);
    recipe_edit(store.at, words, scratch.at, 1, record.at, 8, answers.at, 3);
    recipe_script(store.at, words, scratch.at, 1, record.at, 8, answers.at, 3, &count);
    recipe_start(store.at, words, 1, 1, 1, 1, 1);
    take_back(store), take_back(scratch), take_back(answers), take_back(out), take_back(list), take_back(record);
}

static void damage(void) {
    static const uint32_t others[] = {0, 1, 2, 3, 64, 4096, 16384, 1u << 31, 0xffffffff};
    uint32_t sound[73], words[80];
    expect(recipe_start(sound, 73, 1, 1, 1, 1, 1) == 0, "the smallest store starts");
    for (size_t length = 0; length <= 80; length++)
        for (size_t k = 0; k < sizeof others / sizeof *others; k++) {
            for (size_t i = 0; i < length; i++)
                words[i] = others[k];
            any_words(words, length);
        }
    for (size_t length = 0; length <= 73; length++)
        any_words(sound, length);
    for (size_t i = 0; i < 73; i++)
        for (size_t k = 0; k < sizeof others / sizeof *others; k++) {
            memcpy(words, sound, sizeof sound);
            words[i] = others[k];
            any_words(words, 73);
        }
}

static size_t number(const uint8_t *at, int bytes) {
    size_t n = 0;
    while (bytes--)
        n = 256 * n + at[bytes];
    return n;
}

int main(int argc, char **argv) {
    static uint8_t recorded[1 << 22];
    FILE *file = argc == 2 ? fopen(argv[1], "rb") : NULL;
    expect(file != NULL, "the recorded scripts are there");
    size_t length = fread(recorded, 1, sizeof recorded, file), at = 0, scripts = 0;
    fclose(file);
    page = (size_t)sysconf(_SC_PAGESIZE);
    while (at < length) {
        const uint8_t *script = recorded + at + 2;
        size_t script_length = number(recorded + at, 2);
        const uint8_t *expected = script + script_length + 4;
        size_t expected_length = number(expected - 4, 4);
        at += 2 + script_length + 4 + expected_length;
        for (at_end = 0; at_end < 2 && script_length <= SCRIPT; at_end++) {
            run(script, script_length, expected, expected_length);
            run_edits(script, script_length, expected, expected_length);
        }
        scripts += script_length <= SCRIPT;
    }
    for (at_end = 0; at_end < 2; at_end++)
        damage();
    printf("%zu scripts as recorded, nothing touched outside the lent memory\n", scripts);
    return scripts == 0;
}
