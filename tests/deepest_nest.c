/* The deepest nest at the largest capacities: built, judged, dropped and erased, each on a thread whose stack is looked at afterwards.

     (cd crates/ffi && rt lib) && mkdir -p target
     cc -I include tests/deepest_nest.c crates/ffi/out/libffi.a -lpthread -o target/deepest_nest && target/deepest_nest

   An operation with a region, in it a block, in it an operation with a region, and so on, 1,024 operations deep, as many as there can be regions;
   each uses the result of the one around it. Prints the stack that each call took. Ends with 1 if a reply is not the expected one or a call takes
   over a mebibyte. */
#define _GNU_SOURCE
#include "recipe_store.h"
#include <pthread.h>
#include <stdio.h>
#include <stdlib.h>
#include <string.h>

enum { DEPTH = 1024, OPS = 4096, BLOCKS = 1024, REGIONS = 1024, VALUES = 8192, USES = 16384, STACK = 8 << 20, UNTOUCHED = 0xa5 };

static uint32_t *store, scratch[OPS], answers[3 * 4 * DEPTH];
static size_t words, length;
static uint8_t script[1 << 18];
static uint64_t count;
static uint32_t code;

static void number(uint32_t x, int bytes) {
    for (int i = 0; i < bytes; i++) script[length++] = (uint8_t)(x >> (8 * i));
}

static void record(uint32_t kind, int fields, const uint32_t *field) {
    number(4 + 4 * (uint32_t)fields, 2);
    number(kind, 2);
    for (int i = 0; i < fields; i++) number(field[i], 4);
}

static void *nothing(void *unused) { return unused; }

static void *run(void *unused) {
    code = recipe_script(store, words, scratch, OPS, script, length, answers, 3 * 4 * DEPTH, &count);
    return unused;
}

/* The bytes of a thread's stack that were written while it ran. */
static size_t stack_of(void *(*call)(void *)) {
    static uint8_t *stack;
    if (!stack) stack = aligned_alloc(4096, STACK);
    memset(stack, UNTOUCHED, STACK);
    pthread_attr_t attributes;
    pthread_t thread;
    if (pthread_attr_init(&attributes) || pthread_attr_setstack(&attributes, stack, STACK) || pthread_create(&thread, &attributes, call, NULL) || pthread_join(thread, NULL)) {
        puts("no thread");
        exit(1);
    }
    size_t free = 0;
    while (free < STACK && stack[free] == UNTOUCHED) free++;
    return STACK - free;
}

/* Runs the script that was written; its last answer has to be 0, a, b, and no other a refusal. */
static int put(const char *name, uint32_t a, uint32_t b) {
    size_t bytes = stack_of(run) - stack_of(nothing);
    int wrong = code != 0 || count == 0 || bytes > 1 << 20;
    for (uint64_t i = 0; i < count; i++) wrong |= answers[3 * i] != 0;
    wrong |= answers[3 * count - 2] != a || answers[3 * count - 1] != b;
    printf("%s: %s, %zu bytes of stack, %zu a level\n", name, wrong ? "WRONG" : "right", bytes, bytes / DEPTH);
    length = 0;
    return wrong;
}

int main(void) {
    words = recipe_words(OPS, BLOCKS, REGIONS, VALUES, USES);
    store = calloc(words, 4);
    if (!store || recipe_start(store, words, OPS, BLOCKS, REGIONS, VALUES, USES)) return 1;
    int wrong = 0;
    for (uint32_t i = 0; i < DEPTH; i++) record(1, 6 + (i > 0), (uint32_t[]){3, 1, i > 0, 0, 1, 7, i - 1});
    for (uint32_t i = 0; i < DEPTH; i++) record(2, 1, (uint32_t[]){0});
    for (uint32_t i = 0; i < DEPTH; i++) record(29, 2, (uint32_t[]){i, i});
    for (uint32_t i = 1; i < DEPTH; i++) record(24, 2, (uint32_t[]){i, i - 1});
    wrong |= put("build", 0, 0);
    record(42, 1, (uint32_t[]){0});
    wrong |= put("verdict", 0, 0);
    record(36, 1, (uint32_t[]){0});
    wrong |= put("drop", 0, DEPTH - 1);
    record(39, 1, (uint32_t[]){0});
    wrong |= put("erase", DEPTH, 0);
    return wrong;
}
