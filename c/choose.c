/*
 * Binds each function of encoding_text.h to its build for x86-64-v2 or for x86-64-v3, by an indirect function (IFUNC),
 * when a program starts or loads the library. No proof covers this file; c/join compiles it into the library.
 *
 * These resolvers run before the program and before the C library is ready. So they call nothing, have no stack
 * protector, and use nothing that a relocation may still have to write, except two addresses that are NULL until then.
 */
#include <cpuid.h>
#include <gnu/libc-version.h>
#include <stddef.h>

typedef void function(void);

/* The environment: in a static program from its start, in a dynamic one once the C library is ready. */
extern char **environ __attribute__((weak));

/* The address at which the kernel put the number of arguments of a dynamically linked program. The arguments, NULL and
 * the environment follow it. */
extern void *__libc_stack_end __attribute__((weak));

static char **environment(void)
{
    if (&environ != NULL && environ != NULL) {
        return environ;
    }
    if (&__libc_stack_end != NULL && __libc_stack_end != NULL) {
        long *start = __libc_stack_end;
        return (char **)(start + 1 + *start + 1);
    }
    return NULL;
}

/* Whether ENCODING_TEXT_CPU asks for the build for x86-64-v2. `entry` is the first of the environment. */
static int asks_for_v2(char *const *entry)
{
    static const char wanted[] = "ENCODING_TEXT_CPU=x86-64-v2";

    for (; entry != NULL && *entry != NULL; entry++) {
        size_t same = 0;
        while (same < sizeof wanted && (*entry)[same] == wanted[same]) {
            same++;
        }
        if (same == sizeof wanted) {
            return 1;
        }
    }
    return 0;
}

/* What the processor and the system report. What they don't report is 0. */
typedef struct {
    unsigned leaf_1;          /* cpuid 1, ecx */
    unsigned leaf_7;          /* cpuid 7, ebx */
    unsigned leaf_0x80000001; /* cpuid 0x80000001, ecx */
    unsigned saved;           /* xgetbv 0, eax: the registers that the system saves */
} features;

/* Whether these include all that x86-64-v3 adds (psABI, table 3.1), and the system saves the AVX registers. */
static int include_v3(features found)
{
    const unsigned leaf_1 = bit_FMA | bit_MOVBE | bit_OSXSAVE | bit_AVX | bit_F16C;
    const unsigned leaf_7 = bit_BMI | bit_AVX2 | bit_BMI2;
    const unsigned saved = 1 << 1 | 1 << 2; /* the lower and the upper halves of the AVX registers */

    return (found.leaf_1 & leaf_1) == leaf_1 && (found.leaf_7 & leaf_7) == leaf_7
        && (found.leaf_0x80000001 & bit_LZCNT) != 0 && (found.saved & saved) == saved;
}

/* Asks for no leaf that the processor doesn't have, and for the saved registers only if xgetbv may be executed. */
static features ask_processor(void)
{
    features found = {0, 0, 0, 0};
    unsigned greatest = (unsigned)__get_cpuid_max(0, NULL);
    unsigned a, b, c, d;

    if (greatest >= 1) {
        __cpuid(1, a, b, c, d);
        found.leaf_1 = c;
    }
    if ((found.leaf_1 & bit_OSXSAVE) != 0) {
        __asm__ volatile("xgetbv" : "=a"(a), "=d"(d) : "c"(0));
        found.saved = a;
    }
    if (greatest >= 7) {
        __cpuid_count(7, 0, a, b, c, d);
        found.leaf_7 = b;
    }
    if ((unsigned)__get_cpuid_max(0x80000000, NULL) >= 0x80000001) {
        __cpuid(0x80000001, a, b, c, d);
        found.leaf_0x80000001 = c;
    }
    return found;
}

/* Returns the same at each call; only the first one queries the processor. */
static int takes_v3(void)
{
    static int answer; /* 0 until the first call, then 2 or 3 */
    int known = __atomic_load_n(&answer, __ATOMIC_RELAXED);

    /* Only glibc runs resolvers. With another C library a program would end at its first call, so it is not to link: this
     * function is glibc's alone, and its address isn't used. */
    __asm__ volatile("" : : "r"(gnu_get_libc_version));
    if (known == 0) {
        known = include_v3(ask_processor()) && !asks_for_v2(environment()) ? 3 : 2;
        __atomic_store_n(&answer, known, __ATOMIC_RELAXED);
    }
    return known == 3;
}

#define CHOOSE(name) \
    extern function name##_v2 __attribute__((visibility("hidden"))); \
    extern function name##_v3 __attribute__((visibility("hidden"))); \
    __attribute__((used)) static function *choose_##name(void) \
    { \
        return takes_v3() ? name##_v3 : name##_v2; \
    } \
    extern function name __attribute__((ifunc("choose_" #name)));

/* CHOOSE(NAME) for each function of the header. */
#include "names.h"
