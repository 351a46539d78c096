/*
 * Which code of libfastlanes.a this processor runs: 2 for x86-64-v2, 3 for x86-64-v3. The stubs ask once for each function, at
 * its first call, from any thread and before main too.
 *
 * FASTLANES_CPU=x86-64-v2 in the environment chooses the code for v2 where that for v3 would run too, and FASTLANES_CPU=x86-64
 * none, as on a processor below v2: there a call ends the program with a line that says what is missing.
 */
#include <stddef.h>
#include <stdlib.h>
#include <string.h>
#include <unistd.h>

/* What cpuid and xgetbv answer, of which bits are asked below. */
struct answers {
    unsigned leaf_1_ecx, leaf_7_ebx, extended_1_ecx, xcr0;
};

struct feature {
    const char *name;
    int level;
    size_t word;
    unsigned bits;
};

#define WORD(member) offsetof(struct answers, member)

/* The levels are those of the x86-64 psABI. What all processors of x86-64 have is not asked. */
static const struct feature features[] = {
    {"SSE3", 2, WORD(leaf_1_ecx), 1u << 0},
    {"SSSE3", 2, WORD(leaf_1_ecx), 1u << 9},
    {"CMPXCHG16B", 2, WORD(leaf_1_ecx), 1u << 13},
    {"SSE4.1", 2, WORD(leaf_1_ecx), 1u << 19},
    {"SSE4.2", 2, WORD(leaf_1_ecx), 1u << 20},
    {"POPCNT", 2, WORD(leaf_1_ecx), 1u << 23},
    {"LAHF", 2, WORD(extended_1_ecx), 1u << 0},
    {"FMA", 3, WORD(leaf_1_ecx), 1u << 12},
    {"MOVBE", 3, WORD(leaf_1_ecx), 1u << 22},
    {"AVX", 3, WORD(leaf_1_ecx), 1u << 28},
    {"F16C", 3, WORD(leaf_1_ecx), 1u << 29},
    {"BMI1", 3, WORD(leaf_7_ebx), 1u << 3},
    {"AVX2", 3, WORD(leaf_7_ebx), 1u << 5},
    {"BMI2", 3, WORD(leaf_7_ebx), 1u << 8},
    {"LZCNT", 3, WORD(extended_1_ecx), 1u << 5},
    {"the system's room for AVX registers", 3, WORD(xcr0), 6},
};

static void cpuid(unsigned leaf, unsigned words[4]) {
    __asm__("cpuid" : "=a"(words[0]), "=b"(words[1]), "=c"(words[2]), "=d"(words[3]) : "0"(leaf), "2"(0));
}

static struct answers ask(void) {
    struct answers answers = {0, 0, 0, 0};
    unsigned words[4], last;
    cpuid(0, words);
    last = words[0];
    cpuid(1, words);
    answers.leaf_1_ecx = words[2];
    /* The system tells whether it keeps these registers only where it uses xsave. */
    if (words[2] & 1u << 27) __asm__("xgetbv" : "=a"(answers.xcr0), "=d"(words[3]) : "c"(0));
    if (last >= 7) {
        cpuid(7, words);
        answers.leaf_7_ebx = words[1];
    }
    cpuid(0x80000000, words);
    if (words[0] >= 0x80000001) {
        cpuid(0x80000001, words);
        answers.extended_1_ecx = words[2];
    }
    return answers;
}

static int has(const struct answers *answers, const struct feature *feature) {
    unsigned word;
    memcpy(&word, (const char *)answers + feature->word, sizeof word);
    return (word & feature->bits) == feature->bits;
}

static void say(const char *text) {
    if (write(2, text, strlen(text)) < 0) abort();
}

static void end_below_v2(const struct answers *answers) {
    const char *before = " has no ";
    say("fastlanes: its code needs a processor of x86-64-v2 at least. This one");
    for (size_t i = 0; i < sizeof features / sizeof *features; i++) {
        if (features[i].level == 2 && !has(answers, &features[i])) {
            say(before);
            say(features[i].name);
            before = ", ";
        }
    }
    say(".\n");
    abort();
}

/* Any two calls answer the same, unless the environment was changed between them. */
__attribute__((visibility("hidden"))) int fastlanes_level(void) {
    const char *most = getenv("FASTLANES_CPU");
    struct answers answers = ask();
    int level = 3;
    if (most && !strcmp(most, "x86-64")) memset(&answers, 0, sizeof answers);
    for (size_t i = 0; i < sizeof features / sizeof *features; i++)
        if (features[i].level <= level && !has(&answers, &features[i])) level = features[i].level - 1;
    if (level < 2) end_below_v2(&answers);
    return most && !strcmp(most, "x86-64-v2") ? 2 : level;
}
