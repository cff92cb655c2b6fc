// Two ways to keep the live things of an arena by rising birth number, compared.
//   order: the birth table of crates/table: live places packed by number, searched by halves; `end` closes its gap by one move.
//   trie:  a binary radix trie with path compression over the numbers; each inner node is kept at the least place of its right part.
// The trie comes in two forms that differ only in what an inner node counts: `trie` all things under it, `left` those of its left part.
// All are canonical: the next number and the (place, number) pairs determine every word. With any argument: the self-test only.
// Build and run: cc -std=c11 -O3 -march=x86-64 -Wall -Wextra -o orders bench/orders.c && ./orders
#define _POSIX_C_SOURCE 199309L
#include <stdint.h>
#include <stdio.h>
#include <stdlib.h>
#include <string.h>
#include <time.h>

typedef uint32_t u32;
typedef uint64_t u64;
#define NONE 0xffffffffu
enum { MAX = 16384 };

// ---------------------------------------------------------------- The order: next, live, order[n], stamp[n].

static size_t rank(const u32 *t, size_t n, size_t x) {
    size_t l = t[1], d = t[0] - l, lo = x <= d ? 0 : x - d, hi = x < l ? x : l;
    if (lo > l) lo = l;
    while (lo < hi) {
        size_t mid = lo + (hi - lo) / 2;
        if (t[2 + n + t[2 + mid]] <= x) lo = mid + 1; else hi = mid;
    }
    return lo;
}

static u32 order_find(const u32 *t, size_t n, u32 number) {
    size_t x = number, k = rank(t, n, x);
    if (k >= t[1]) return NONE;
    return t[2 + n + t[2 + k]] == x + 1 ? t[2 + k] : NONE;
}

static void order_birth(u32 *t, size_t n, u32 p) {
    u32 l = t[1], m = t[0] + 1;
    t[2 + n + p] = m, t[2 + l] = p;
    t[0] = m, t[1] = l + 1;
}

static void order_end(u32 *t, size_t n, u32 p) {
    size_t k = rank(t, n, t[2 + n + p] - 1), l = t[1];
    memmove(t + 2 + k, t + 3 + k, (l - k - 1) * sizeof *t);
    t[1 + l] = 0, t[2 + n + p] = 0;
    t[1] = (u32)(l - 1);
}

static u32 order_kth(const u32 *t, size_t n, u32 k) { return (void)n, t[2 + k]; }

// ---------------------------------------------------------------- The trie: next, live, root, 0, (links, info)[n], stamp[n].
// A reference is 2 * place for an inner node and 2 * place + 1 for a leaf, so that the links of inner node r are the word 4 + r.
// Links: left reference in the low half, right one in the high half. Info: crit bit in the low five bits, count above them.
// A link stands in word w from bit s on; the root is word 2, bit 0. Places with no inner node have 0 in both words.

#define REF 0x7fffu
#define STAMP(p) t[4 + 2 * n + (p)]
static inline void link(u32 *t, size_t w, u32 s, u32 r) { t[w] = (t[w] & ~(REF << s)) | r << s; }

static u32 trie_find(const u32 *t, size_t n, u32 x) {
    if (t[1] == 0) return NONE;
    u32 r = t[2];
    while (!(r & 1)) r = t[4 + r] >> ((x >> (t[5 + r] & 31) & 1) << 4) & REF;
    return STAMP(r >> 1) == x + 1 ? r >> 1 : NONE;
}

// Down the right edge to the first node (or leaf) from whose numbers the new one differs above its crit bit. A node's own place
// is under it, so that the stamp there says this at once.
static inline void trie_birth_as(u32 *t, size_t n, u32 p, int left) {
    u32 x = t[0], under = t[1], r = t[2], s = 0, diff;
    size_t w = 2;
    t[0] = STAMP(p) = x + 1, t[1] = under + 1;
    if (under == 0) { t[2] = 2 * p + 1; return; }
    for (;;) {
        diff = x ^ (STAMP(r >> 1) - 1);
        if (r & 1 || diff >> (t[5 + r] & 31) >> 1) break;
        if (left) under -= t[5 + r] >> 5; else t[5 + r] += 32;
        w = 4 + r, s = 16;
        r = t[w] >> 16;
    }
    if (!left) under = r & 1 ? 2 : (t[5 + r] >> 5) + 1;
    t[4 + 2 * p] = r | (2 * p + 1) << 16;
    t[5 + 2 * p] = (31 - (u32)__builtin_clz(diff)) | under << 5;
    link(t, w, s, 2 * p);
}

// The leaf's parent node goes. Where the leaf was a left child, the node that is kept at `p` moves to the parent's cells.
static inline void trie_end_as(u32 *t, size_t n, u32 p, int left) {
    u32 x = STAMP(p) - 1, r = t[2], s = 0, parent_s = 0, own_s = 0;
    size_t w = 2, parent_w = 2, own_w = 0;
    while (!(r & 1)) {
        u32 bit = x >> (t[5 + r] & 31) & 1;
        t[5 + r] -= left ? (1 - bit) << 5 : 32;
        if (r == 2 * p) own_w = w, own_s = s;
        parent_w = w, parent_s = s;
        w = 4 + r, s = bit << 4;
        r = t[w] >> s & REF;
    }
    STAMP(p) = 0, t[1]--;
    if (w == 2) { t[2] = 0; return; }
    link(t, parent_w, parent_s, t[w] >> (16 - s) & REF);
    if (s == 0) {
        t[w] = t[4 + 2 * p], t[w + 1] = t[5 + 2 * p];
        if (own_w) link(t, own_w, own_s, (u32)(w - 4));
    }
    t[4 + 2 * p] = t[5 + 2 * p] = 0;
}

static inline u32 trie_kth_as(const u32 *t, u32 k, int left) {
    u32 r = t[2];
    while (!(r & 1)) {
        u32 l = t[4 + r] & REF, c = left ? t[5 + r] >> 5 : l & 1 ? 1 : t[5 + l] >> 5, bit = k >= c;
        k -= c & -bit;
        r = t[4 + r] >> (bit << 4) & REF;
    }
    return r >> 1;
}

static void trie_birth(u32 *t, size_t n, u32 p) { trie_birth_as(t, n, p, 0); }
static void left_birth(u32 *t, size_t n, u32 p) { trie_birth_as(t, n, p, 1); }
static void trie_end(u32 *t, size_t n, u32 p) { trie_end_as(t, n, p, 0); }
static void left_end(u32 *t, size_t n, u32 p) { trie_end_as(t, n, p, 1); }
static u32 trie_kth(const u32 *t, size_t n, u32 k) { (void)n; return trie_kth_as(t, k, 0); }
static u32 left_kth(const u32 *t, size_t n, u32 k) { (void)n; return trie_kth_as(t, k, 1); }

// ---------------------------------------------------------------- All behind the same functions. An empty one is all 0.

enum { KINDS = 3 };
static const struct kind {
    const char *name;
    size_t head, per_place;
    u32 (*find)(const u32 *, size_t, u32);
    void (*birth)(u32 *, size_t, u32);
    void (*end)(u32 *, size_t, u32);
    u32 (*kth)(const u32 *, size_t, u32);
} kinds[KINDS] = {
    {"order", 2, 2, order_find, order_birth, order_end, order_kth},
    {"trie", 4, 3, trie_find, trie_birth, trie_end, trie_kth},
    {"left", 4, 3, trie_find, left_birth, left_end, left_kth},
};
static _Alignas(64) u32 cells[KINDS][4 + 3 * MAX];

static u64 seed = 88172645463325252u;
static u32 below(u64 n) {
    seed ^= seed << 13, seed ^= seed >> 7, seed ^= seed << 17;
    return (u32)((seed >> 16) % n);
}

// ---------------------------------------------------------------- The self-test, against a list of things by rising number.

static struct { u32 number, place; } list[MAX];
static u32 want[4 + 3 * MAX], spare[MAX];

// The trie of list[from..to), straight from its definition. Its reference.
static u32 define(size_t n, u32 from, u32 to, int left) {
    if (to - from == 1) return 2 * list[from].place + 1;
    u32 crit = 31 - (u32)__builtin_clz(list[from].number ^ list[to - 1].number), cut = from;
    while (!(list[cut].number >> crit & 1)) cut++;
    u32 q = list[cut].place, l = define(n, from, cut, left), r = define(n, cut, to, left);
    want[4 + 2 * q] = l | r << 16;
    want[5 + 2 * q] = crit | (left ? cut - from : to - from) << 5;
    return 2 * q;
}

static void same(u32 got, u32 wanted, int kind, const char *what, size_t n) {
    if (got == wanted) return;
    printf("self-test FAILED: %s %s, n = %zu: got %u, wanted %u\n", kinds[kind].name, what, n, got, wanted), exit(1);
}

// Every word is what the next number and the list say.
static void check_words(size_t n, u32 next, u32 live) {
    for (int i = 0; i < KINDS; i++) {
        size_t words = kinds[i].head + kinds[i].per_place * n, stamps = words - n;
        memset(want, 0, sizeof want);
        want[0] = next, want[1] = live;
        if (i > 0 && live > 0) want[2] = define(n, 0, live, i == 2);
        for (u32 j = 0; j < live; j++) {
            if (i == 0) want[2 + j] = list[j].place;
            want[stamps + list[j].place] = list[j].number + 1;
        }
        for (size_t w = 0; w < words; w++) same(cells[i][w], want[w], i, "words", n);
    }
}

// Fills up and empties by turns. The numbers go through most of their 32 bits, by about 200 jumps.
static void test(size_t n, int steps, int words_every) {
    u32 live = 0, next = 0, filling = 1;
    memset(cells, 0, sizeof cells);
    for (u32 p = 0; p < n; p++) spare[p] = p;
    for (int step = 0; step < steps; step++) {
        if (live == n || live == 0) filling = live == 0;
        if (below((u64)steps / 200) == 0) {                           // A jump: as if many had been born and had ended.
            u32 jump = below(1ull << below(30));
            if (next < 0xfffff000u - jump) next += jump;
            for (int i = 0; i < KINDS; i++) cells[i][0] = next;
        }
        if (live < n && next < NONE && (live == 0 || below(8) < (filling ? 7 : 1))) {
            u32 j = below(n - live), p = spare[j];       // A birth at a random free place.
            spare[j] = spare[n - live - 1];
            for (int i = 0; i < KINDS; i++) kinds[i].birth(cells[i], n, p);
            list[live].number = next++, list[live++].place = p;
        } else if (live > 0) {                           // An end: random, youngest or oldest.
            u32 way = below(4), j = way == 0 ? 0 : way == 1 ? live - 1 : below(live), p = list[j].place;
            for (int i = 0; i < KINDS; i++) kinds[i].end(cells[i], n, p);
            for (live--; j < live; j++) list[j] = list[j + 1];
            spare[n - live - 1] = p;
        }
        if (step % words_every == 0) check_words(n, next, live);
        for (int ask = 0; ask < 4; ask++) {              // A live number, one near it, any below or at the next, any at all.
            u32 x = live ? list[below(live)].number : 0, wanted = NONE;
            x = ask == 0 ? x : ask == 1 ? x + below(5) - 2 : below(ask == 2 ? (u64)next + 1 : NONE);
            if (x == NONE) continue;
            for (u32 j = 0; j < live; j++) if (list[j].number == x) wanted = list[j].place;
            for (int i = 0; i < KINDS; i++) same(kinds[i].find(cells[i], n, x), wanted, i, "find", n);
            if (live == 0) continue;
            u32 k = below(live);
            for (int i = 0; i < KINDS; i++) same(kinds[i].kth(cells[i], n, k), list[k].place, i, "kth", n);
        }
    }
    check_words(n, next, live);
}

// ---------------------------------------------------------------- The figures.

// A sample is the mean of PART rounds, since the clock here ticks only every 10 ns; a figure is the median of the samples.
enum { FIND, FIND_CHAIN, KTH, KTH_CHAIN, END, BIRTH = END + 3, ROWS = BIRTH + 3 };
enum { ASKS = 512, BATCH = 16, PART = 16, SAMPLES = 101 };
static const char *rows[ROWS] = {
    "find, independent", "find, chained", "kth, independent", "kth, chained", "end, random", "end, youngest", "end, oldest",
    "birth after random ends", "birth after youngest ends", "birth after oldest ends"};
static double figures[ROWS][KINDS], samples[ROWS][SAMPLES], clock_cost;
static u32 number[MAX], asks[ASKS], picks[BATCH];
static volatile u32 sink;

static double now(void) {
    struct timespec c;
    clock_gettime(CLOCK_MONOTONIC, &c);
    return (double)c.tv_sec * 1e9 + (double)c.tv_nsec;
}

static int rising(const void *a, const void *b) { return *(const double *)a < *(const double *)b ? -1 : 1; }
static double median(double *a) {
    qsort(a, SAMPLES, sizeof *a, rising);
    return a[SAMPLES / 2];
}

static u32 any_live(size_t n) {
    u32 p = below(n);
    while (number[p] == NONE) p = below(n);
    return p;
}

static void born(const struct kind *k, u32 *t, size_t n, u32 p) { number[p] = t[0]; k->birth(t, n, p); }

// Makes the state of one round. Few ended: afresh, about three quarters full (the count varies, for varied bits in the numbers).
// Random: three quarters full and 20 n random pairs of end and birth at the start, then 256 such pairs before each round.
static void prepare(const struct kind *k, u32 *t, size_t n, int random, int first) {
    if (!random || first) {
        u32 m = (u32)(3 * n / 4 - (random ? 0 : below(n / 16)));
        memset(t, 0, (k->head + k->per_place * n) * sizeof *t);
        memset(number, 0xff, sizeof number);
        for (u32 p = 0; p < m; p++) born(k, t, n, p);
    }
    for (size_t pairs = !random ? 0 : first ? 20 * n : 256; pairs > 0; pairs--) {
        u32 p = any_live(n);
        k->end(t, n, p);
        born(k, t, n, p);
    }
}

// Nanoseconds a call, of finds of random live numbers or of kth of random k. Chained: the argument waits for the last result
// (places are below 2^20, so that nothing is added to it).
static double ask(const struct kind *k, const u32 *t, size_t n, int kth, int chained) {
    u32 (*call)(const u32 *, size_t, u32) = kth ? k->kth : k->find;
    u32 sum = 0, last = 0;
    for (int i = 0; i < ASKS; i++) asks[i] = kth ? below(t[1]) : number[any_live(n)];
    double from = now();
    if (chained) for (int i = 0; i < ASKS; i++) last = call(t, n, asks[i] + (last >> 20));
    else for (int i = 0; i < ASKS; i++) sum += call(t, n, asks[i]);
    double took = now() - from - clock_cost;
    sink = sum + last;
    return took / ASKS;
}

static void measure(int kind, size_t n, int random) {
    const struct kind *k = &kinds[kind];
    u32 *t = cells[kind];
    seed = 88172645463325252u;                           // The same sequence for each kind.
    prepare(k, t, n, random, 1);
    memset(samples, 0, sizeof samples);
    for (int round = 0; round < SAMPLES * PART; round++) {
        int at = round / PART;
        prepare(k, t, n, random, 0);
        for (int row = FIND; row <= KTH_CHAIN; row++)
            samples[row][at] += ask(k, t, n, row >= KTH, row == FIND_CHAIN || row == KTH_CHAIN) / PART;
        for (int way = 0; way < 3; way++) {
            prepare(k, t, n, random, 0);
            for (u32 i = 0; i < BATCH; i++) {            // Which end: chosen before the clock starts, all different.
                picks[i] = way == 0 ? any_live(n) : k->kth(t, n, way == 1 ? t[1] - 1 - i : i);
                number[picks[i]] = NONE;
            }
            double a = now();
            for (int i = 0; i < BATCH; i++) k->end(t, n, picks[i]);
            double b = now();
            for (int i = BATCH - 1; i >= 0; i--) k->birth(t, n, picks[i]);
            double c = now();
            for (u32 i = 0; i < BATCH; i++) number[picks[i]] = t[0] - 1 - i;
            samples[END + way][at] += (b - a - clock_cost) / BATCH / PART;
            samples[BIRTH + way][at] += (c - b - clock_cost) / BATCH / PART;
        }
    }
    for (int row = 0; row < ROWS; row++) figures[row][kind] = median(samples[row]);
}

// How many inner nodes stand above the leaves, on the mean and at most.
static void depth(const u32 *t, size_t n) {
    u32 most = 0, sum = 0;
    for (u32 p = 0; p < n; p++) {
        u32 d = 0, x = STAMP(p) - 1;
        for (u32 r = t[2]; x != NONE && !(r & 1); d++) r = t[4 + r] >> ((x >> (t[5 + r] & 31) & 1) << 4) & REF;
        sum += d, most = d > most ? d : most;
    }
    printf("  (trie: a leaf has %.1f nodes above it on the mean, %u at most)\n", (double)sum / t[1], most);
}

int main(int argc, char *argv[]) {
    test(1, 2000, 1), test(2, 4000, 1), test(3, 4000, 1), test(5, 8000, 1), test(16, 20000, 1), test(64, 30000, 1);
    test(512, 30000, 16), test(MAX, 60000, 2000);
    printf("self-test passed\n");
    if (argc > 1 && argv[1]) return 0;
    for (int i = 0; i < SAMPLES * 100; i++) { double a = now(); samples[0][i / 100] += (now() - a) / 100; }
    clock_cost = median(samples[0]);
    printf("nanoseconds a call, less the clock's %.1f a reading\n", clock_cost);
    for (size_t n = 512; n <= MAX; n *= 32)
        for (int random = 0; random < 2; random++) {
            for (int kind = 0; kind < KINDS; kind++) measure(kind, n, random);
            printf("\nn = %zu, %s\n%-28s", n, random ? "random" : "few ended", "");
            for (int kind = 0; kind < KINDS; kind++) printf("%9s", kinds[kind].name);
            printf("   order/left\n");
            for (int row = 0; row < ROWS; row++) {
                printf("  %-26s", rows[row]);
                for (int kind = 0; kind < KINDS; kind++) printf("%9.1f", figures[row][kind]);
                printf("%11.2f\n", figures[row][0] / figures[row][2]);
            }
            depth(cells[1], n);
        }
    return 0;
}
