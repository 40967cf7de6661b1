/*
 * Which build c/choose.c selects, over the features of a processor and over environments, and in two threads at once, which
 * a thread sanitizer watches. It is compiled with an empty names.h, so no function is bound. C99 with GNU's extensions.
 */
#include <cpuid.h>
#include <pthread.h>
#include <stdio.h>

/* The greatest leaf that a processor has, how often it was asked for that, and leaf 7 of one for which a leaf that it doesn't
 * have is all ones. */
static unsigned greatest_leaf = 7, queries;
#define __get_cpuid_max(leaf, signature) \
    (__atomic_add_fetch(&queries, 1, __ATOMIC_RELAXED) != 0 && (leaf) == 0 ? greatest_leaf : 0x80000001u)
#undef __cpuid_count
#define __cpuid_count(leaf, subleaf, a, b, c, d) ((a) = (b) = (c) = (d) = ~0u)

#include "../../c/choose.c"

/* What x86-64-v3 adds, by the bits that Intel's and AMD's manuals give. */
#define FMA (1u << 12)
#define MOVBE (1u << 22)
#define OSXSAVE (1u << 27)
#define AVX (1u << 28)
#define F16C (1u << 29)
#define BMI1 (1u << 3)
#define AVX2 (1u << 5)
#define BMI2 (1u << 8)
#define LZCNT (1u << 5)
#define SSE_SAVED (1u << 1)
#define AVX_SAVED (1u << 2)
#define LEAF_1 (FMA | MOVBE | OSXSAVE | AVX | F16C)
#define LEAF_7 (BMI1 | AVX2 | BMI2)
#define SAVED (SSE_SAVED | AVX_SAVED)

typedef struct {
    const char *what;
    features found;
    int takes_v3;
} processor;

typedef struct {
    const char *entry;
    int asks;
} setting;

static int passed, failed;

static void count(int holds, const char *what)
{
    if (holds) {
        passed++;
    } else {
        failed++;
        printf("%s: FAILED\n", what);
    }
}

static void processors(void)
{
    const processor rows[] = {
        {"all that x86-64-v3 adds", {LEAF_1, LEAF_7, LZCNT, SAVED}, 1},
        {"all bits", {~0u, ~0u, ~0u, ~0u}, 1},
        {"no leaf 1", {0, LEAF_7, LZCNT, SAVED}, 0},
        {"no FMA", {LEAF_1 & ~FMA, LEAF_7, LZCNT, SAVED}, 0},
        {"no MOVBE", {LEAF_1 & ~MOVBE, LEAF_7, LZCNT, SAVED}, 0},
        {"no OSXSAVE", {LEAF_1 & ~OSXSAVE, LEAF_7, LZCNT, SAVED}, 0},
        {"no AVX", {LEAF_1 & ~AVX, LEAF_7, LZCNT, SAVED}, 0},
        {"no F16C", {LEAF_1 & ~F16C, LEAF_7, LZCNT, SAVED}, 0},
        {"no leaf 7", {LEAF_1, 0, LZCNT, SAVED}, 0},
        {"no BMI1", {LEAF_1, LEAF_7 & ~BMI1, LZCNT, SAVED}, 0},
        {"no AVX2", {LEAF_1, LEAF_7 & ~AVX2, LZCNT, SAVED}, 0},
        {"no BMI2", {LEAF_1, LEAF_7 & ~BMI2, LZCNT, SAVED}, 0},
        {"no leaf 0x80000001", {LEAF_1, LEAF_7, 0, SAVED}, 0},
        {"no LZCNT", {LEAF_1, LEAF_7, ~LZCNT, SAVED}, 0},
        {"no register saved", {LEAF_1, LEAF_7, LZCNT, 0}, 0},
        {"SSE registers saved", {LEAF_1, LEAF_7, LZCNT, SSE_SAVED}, 0},
        {"upper halves of AVX registers saved", {LEAF_1, LEAF_7, LZCNT, AVX_SAVED}, 0},
    };
    for (size_t i = 0; i < sizeof rows / sizeof rows[0]; i++) {
        count(include_v3(rows[i].found) == rows[i].takes_v3, rows[i].what);
    }
}

static void settings(void)
{
    static const setting rows[] = {
        {"ENCODING_TEXT_CPU=x86-64-v2", 1},
        {"ENCODING_TEXT_CPU=x86-64-v20", 0},
        {"ENCODING_TEXT_CPU=x86-64-v", 0},
        {"ENCODING_TEXT_CPU=x86-64-v3", 0},
        {"ENCODING_TEXT_CPU=", 0},
        {"ENCODING_TEXT_CPU", 0},
        {"encoding_text_cpu=x86-64-v2", 0},
        {"AN_ENCODING_TEXT_CPU=x86-64-v2", 0},
        {"", 0},
    };
    for (size_t i = 0; i < sizeof rows / sizeof rows[0]; i++) {
        char *entry = (char *)rows[i].entry;
        char *only[] = {entry, NULL};
        char *last[] = {(char *)"PATH=/usr/bin", entry, NULL};
        char *first[] = {entry, (char *)"PATH=/usr/bin", NULL};
        count(asks_for_v2(only) == rows[i].asks, rows[i].entry);
        count(asks_for_v2(last) == rows[i].asks, rows[i].entry);
        count(asks_for_v2(first) == rows[i].asks, rows[i].entry);
    }
    char *none[] = {NULL};
    count(!asks_for_v2(none) && !asks_for_v2(NULL), "no environment");
}

static void *choose(void *choice)
{
    *(int *)choice = takes_v3();
    return NULL;
}

/* The first choice, in two threads. A library that is loaded while another thread runs may be asked at the same time. */
static void threads(void)
{
    pthread_t first, second;
    int choices[2] = {-1, -2};

    if (pthread_create(&first, NULL, choose, &choices[0]) != 0 || pthread_create(&second, NULL, choose, &choices[1]) != 0) {
        count(0, "two threads");
        return;
    }
    pthread_join(first, NULL);
    pthread_join(second, NULL);
    count(choices[0] == choices[1], "the same choice in two threads");
}

int main(void)
{
    threads();
    processors();
    settings();
    const unsigned before = queries;
    count(takes_v3() == takes_v3(), "the same choice at each call");
    count(before > 0 && queries == before, "the processor isn't queried for a later choice");
    count(ask_processor().leaf_7 == ~0u, "leaf 7");
    greatest_leaf = 6;
    count(ask_processor().leaf_7 == 0, "a processor without leaf 7 isn't asked for it");
    greatest_leaf = 1;
    count(ask_processor().leaf_1 != 0, "a processor with only leaf 1 is asked for it");
    greatest_leaf = 0;
    count(ask_processor().leaf_1 == 0, "a processor without leaf 1 isn't asked for it");
    printf("%d passed, %d failed\n", passed, failed);
    return failed != 0 || passed == 0;
}
