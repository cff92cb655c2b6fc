/* The recipe store: the functions of crates/ffi/out/libffi.a (made by `rt lib` in crates/ffi).
   A slice is a pointer and a count of elements. All memory is the caller's; nothing is allocated and nothing is kept between calls.
   Two calls must not use one buffer at the same time. docs/FORMAT.md says what records, answers and refusals mean. */
#ifndef RECIPE_STORE_H
#define RECIPE_STORE_H
#include <stdbool.h>
#include <stddef.h>
#include <stdint.h>

/* How many 32-bit words a store with these capacities needs; 0 where a capacity is 0 or over its limit. */
size_t recipe_words(uint32_t ops, uint32_t blocks, uint32_t regions, uint32_t values, uint32_t uses);

/* Starts an empty store: 0, or 5 where a capacity is 0 or over its limit, or the buffer is too short. */
uint32_t recipe_start(uint32_t *store, size_t store_len, uint32_t ops, uint32_t blocks, uint32_t regions, uint32_t values, uint32_t uses);

/* One edit record: 0 or the refusal. `answer` gets the three numbers (refusal, A, B), and 6, the store is not sound, writes none. 22 if `answer` has under
   3 words, before anything is looked at; it is kept then. `scratch` is all zeros after every call. */
uint32_t recipe_edit(uint32_t *store, size_t store_len, uint32_t *scratch, size_t scratch_len,
                     const uint8_t *record, size_t record_len, uint32_t *answer, size_t answer_len);

/* A script of records: 0, or the 6 or 22 that ended it. `answers` gets three words for each answer, `count` how many there are. */
uint32_t recipe_script(uint32_t *store, size_t store_len, uint32_t *scratch, size_t scratch_len,
                       const uint8_t *script, size_t script_len, uint32_t *answers, size_t answers_len, uint64_t *count);

/* Whether a buffer of any contents is a sound store. */
bool recipe_check(const uint32_t *store, size_t store_len);

/* The listing of the answers and of the store, in front of `out`; `length` gets how many bytes were written. It ends where `out` ends: a `length` below
   `out_len` says that it is whole, one equal to `out_len` that it may have been cut. 6 if the store is not sound, 22 if there are over 4,294,967,295 answers;
   a refusal keeps `out` and sets `length` to 0. */
uint32_t recipe_listing(const uint32_t *store, size_t store_len, const uint32_t *answers, size_t answers_len, uint8_t *out, size_t out_len, uint64_t *length);

/* The numbers of the uses of a value, rising, in front of `uses`; `count` gets how many. 6, 10 if no such value is live, 22 if `uses` is too short;
   a refusal keeps `uses` and sets `count` to 0. */
uint32_t recipe_value_uses(const uint32_t *store, size_t store_len, uint32_t value, uint32_t *uses, size_t uses_len, uint64_t *count);

/* The numbers of the uses of a block, likewise; 8 if no such block is live. */
uint32_t recipe_block_uses(const uint32_t *store, size_t store_len, uint32_t block, uint32_t *uses, size_t uses_len, uint64_t *count);

#endif
