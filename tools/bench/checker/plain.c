/* The plain loop over a log: what a checker does at least. The formula and the log are those of
   program.txt, made by the same rule. It prints the hints that it walked in a second. */
#include <stdint.h>
#include <stdio.h>
#include <stdlib.h>
#include <string.h>
#include <time.h>

#define CHAIN 131072u   /* variables of the chain, a power of two */
#define COMMON 16u      /* variables that stand in every lemma */
#define LEMMAS 50000u
#define WALK 100u       /* hints of a lemma */

static uint32_t place(uint32_t i) { return (uint32_t)((uint64_t)i * 40503u % CHAIN); }
static uint32_t lit(uint32_t variable, uint32_t negative) { return 2 * variable + negative; }

static double now(void) {
    struct timespec t;
    clock_gettime(CLOCK_MONOTONIC, &t);
    return (double)t.tv_sec + 1e-9 * (double)t.tv_nsec;
}

struct span { uint64_t start, end; };

static uint32_t *arena;
static struct span *spans;
static uint64_t used, lists;

static void push(uint32_t literal) { arena[used++] = literal; }
static void begin(void) { spans[lists].start = used; }
static void finish(void) { spans[lists++].end = used; }

static uint64_t start_of(uint64_t k) { return k * 7919u % (CHAIN - WALK); }

int main(void) {
    uint64_t clauses = CHAIN - 1;
    arena = malloc((clauses * 4 + (uint64_t)LEMMAS * (2 + COMMON)) * sizeof *arena);
    spans = malloc((clauses + LEMMAS) * sizeof *spans);
    uint64_t *hints = malloc((uint64_t)LEMMAS * WALK * sizeof *hints);
    for (uint32_t i = 0; i < clauses; i++) {
        begin();
        push(lit(place(i), 1));
        push(lit(CHAIN + i % COMMON, 0));
        push(lit(CHAIN + i / COMMON % COMMON, 0));
        push(lit(place(i + 1), 0));
        finish();
    }
    for (uint64_t k = 0; k < LEMMAS; k++) {
        uint64_t a = start_of(k);
        begin();
        push(lit(place((uint32_t)a), 1));
        push(lit(place((uint32_t)(a + WALK)), 0));
        for (uint32_t j = 0; j < COMMON; j++) push(lit(CHAIN + j, 0));
        finish();
        for (uint32_t j = 0; j < WALK; j++) hints[k * WALK + j] = a + j;
    }
    unsigned char *marks = calloc(2 * (CHAIN + COMMON), 1);
    uint32_t *trail = malloc(2 * (CHAIN + COMMON) * sizeof *trail);
    double begun = now();
    uint64_t k;
    for (k = 0; k < LEMMAS; k++) {
        uint64_t top = 0, ok = 0;
        for (uint64_t p = spans[clauses + k].start; p < spans[clauses + k].end; p++)
            if (!marks[arena[p]]) { marks[arena[p]] = 1; trail[top++] = arena[p]; }
        for (uint64_t j = 0; j < WALK; j++) {
            uint64_t hint = hints[k * WALK + j];
            if (hint >= clauses + k) break;
            int64_t left = -1;
            int many = 0;
            for (uint64_t p = spans[hint].start; p < spans[hint].end; p++) {
                uint32_t x = arena[p];
                if (marks[x]) continue;
                if (left < 0) left = x;
                else if (left != x) { many = 1; break; }
            }
            if (many) break;
            if (left < 0) { ok = j + 1 == WALK; break; }
            uint32_t y = (uint32_t)left ^ 1u;
            if (marks[y]) break;
            marks[y] = 1;
            trail[top++] = y;
        }
        while (top) marks[trail[--top]] = 0;
        if (!ok) break;
    }
    double taken = now() - begun;
    printf("C      stops at %llu, %.1f million hints a second\n", (unsigned long long)k, 1e-6 * LEMMAS * WALK / taken);
    return 0;
}
