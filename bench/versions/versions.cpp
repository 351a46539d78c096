// Times the functions of two versions of the C libraries in turn, for bench/versions/run.
//
//     versions PART FIRST0 FIRST1 FIRST2 FIRST3 SECOND0 SECOND1 SECOND2 SECOND3
//
// The functions that have PART in their names are timed, but what only one version has. Each version is a shared library, opened with
// its code at four places of a line of memory. A line of what is printed has a function, a width, or none, and the nanoseconds of a
// call of either version: the least of 64 slices of some 8 microseconds, in which the versions, the four places of the code and four
// places of a page for what is written take turns.
#include "fastlanes.h"
#include <algorithm>
#include <chrono>
#include <cstdio>
#include <cstring>
#include <dlfcn.h>
#include <random>
#include <x86intrin.h>

// The functions of crates/timed.
#define TIMED(E, type) \
    extern "C" void timed_pack_rows_##type(size_t width, const E *input, E *output, size_t output_len); \
    extern "C" void timed_unpack_rows_##type(size_t width, const E *input, size_t input_len, E *output); \
    extern "C" void timed_put_digits_##type(size_t width, const E *input, size_t input_len, E *output); \
    extern "C" E timed_sum_digits_##type(size_t width, const E *input, size_t input_len); \
    extern "C" void timed_pack_differences_##type(size_t width, const E *input, E *output, size_t output_len); \
    extern "C" E timed_sum_places_##type(const E *input);
TIMED(uint8_t, u8)
TIMED(uint16_t, u16)
TIMED(uint32_t, u32)
TIMED(uint64_t, u64)

// The turns of a function, and the width of one that has none.
constexpr int PLACES = 4, ROUNDS = 64, NONE = -1;
static const char *part;
static void *libraries[2][PLACES];
static double ticks_a_slice, nanoseconds_a_tick;
static volatile uint64_t answers;

// A function of both versions.
template <class F> struct Both {
    const char *name;
    F of[2][PLACES];
    bool is_there = true;

    explicit Both(const char *its_name) : name(its_name) {
        for (int version = 0; version < 2; version++)
            for (int place = 0; place < PLACES; place++) {
                of[version][place] = reinterpret_cast<F>(dlsym(libraries[version][place], name));
                is_there = is_there && of[version][place];
            }
    }
};
#define BOTH(name) Both<decltype(&name)>(#name)

// The ticks that `calls` calls take.
template <class F, class Call> static uint64_t slice(F function, Call call, void *output, uint64_t calls) {
    uint64_t sum = 0, start = __rdtsc();
    for (uint64_t k = 0; k < calls; k++) sum += call(function, output, k);
    uint64_t ticks = __rdtsc() - start;
    answers = sum;
    return ticks;
}

// Prints what a call of either version takes, at a width or at NONE.
template <class F, class Call> static void time_both(const Both<F> &function, int width, Call call) {
    alignas(4096) static uint8_t pages[8 * 4096];
    if (!function.is_there || !strstr(function.name, part)) return;
    double least[2] = {1e300, 1e300};
    uint64_t calls = 1;
    while (slice(function.of[0][0], call, pages, calls) < ticks_a_slice) calls *= 2;
    for (int round = 0; round < ROUNDS; round++)
        for (int turn = 0; turn < 2; turn++) {
            int version = (round + turn) % 2;
            uint8_t *output = pages + round / PLACES % 4 * 1088;
            uint64_t ticks = slice(function.of[version][round % PLACES], call, output, calls);
            least[version] = std::min(least[version], double(ticks) / double(calls));
        }
    char at[12] = "";
    if (width != NONE) snprintf(at, sizeof at, "%d", width);
    printf("%s,%s,%.3f,%.3f\n", function.name, at, least[0] * nanoseconds_a_tick, least[1] * nanoseconds_a_tick);
}

// A block, packed words, and what else a call is given.
template <class E> struct Block {
    static constexpr size_t T = 8 * sizeof(E), LANES = 1024 / T;
    alignas(4096) E any[1024], values[1024], runs[1024], words[1024], base[LANES];
    uint16_t runs_of[1024];
    uint64_t bits[16];
    size_t indices[256];

    Block() {
        std::mt19937_64 random(1);
        for (size_t i = 0; i < 1024; i++) {
            any[i] = E(random());
            words[i] = E(random());
            runs[i] = E(i / 5);
            runs_of[i] = uint16_t(i / 5);
        }
        for (E &b : base) b = E(random());
        for (uint64_t &b : bits) b = random();
        for (size_t &i : indices) i = random() % 1024;
    }

    // The values of a block of this width, near a reference of 7, and how many words it has.
    size_t of_width(size_t width) {
        E mask = width == T ? E(~E(0)) : E((uint64_t(1) << width) - 1);
        for (size_t i = 0; i < 1024; i++) values[i] = E((any[i] & mask) + 7);
        return LANES * width;
    }
};

#define CALL(...) [&](auto f, [[maybe_unused]] void *output, [[maybe_unused]] uint64_t k) { __VA_ARGS__; return uint64_t(0); }
#define ASK(...) [&](auto f, [[maybe_unused]] void *output, [[maybe_unused]] uint64_t k) { return uint64_t(__VA_ARGS__); }

#define COMPARISONS(type, V) \
    time_both(BOTH(fl_unpack_cmp_##type), width, CALL(f(width, b.words, len, FL_LT, V(5), mask))); \
    time_both(BOTH(fl_unpack_filter_##type), width, CALL(f(width, b.words, len, FL_LT, V(5), mask)))

#define OPERATIONS(E, S, type, signed_type) \
    static void time_##type() { \
        static Block<E> b; \
        for (int width = 0; width <= int(b.T); width++) { \
            size_t len = b.of_width(width); \
            uint64_t mask[16]; \
            E two[2]; \
            time_both(BOTH(fl_pack_##type), width, CALL(f(width, b.values, (E *)output, len))); \
            time_both(BOTH(fl_unpack_##type), width, CALL(f(width, b.words, len, (E *)output))); \
            time_both(BOTH(fl_unpack_single_##type), width, ASK(f(width, b.words, len, k * 37 % 1024))); \
            time_both(BOTH(fl_unpack_indices_##type), width, CALL(f(width, b.words, len, b.indices, 16, (E *)output, 16))); \
            time_both(BOTH(fl_unpack_sum_##type), width, ASK(f(width, b.words, len))); \
            time_both(BOTH(fl_unpack_range_##type), width, CALL(f(width, b.words, len, two, two + 1))); \
            time_both(BOTH(fl_for_pack_##type), width, CALL(f(width, b.values, E(7), (E *)output, len))); \
            time_both(BOTH(fl_unfor_pack_##type), width, CALL(f(width, b.words, len, E(7), (E *)output))); \
            time_both(BOTH(fl_frame_get_##type), width, ASK(f(width, E(7), b.words, len, k * 37 % 1024))); \
            time_both(BOTH(fl_undelta_pack_##type), width, CALL(f(width, b.words, len, b.base, (E *)output))); \
            time_both(BOTH(fl_delta_write_##type), width, CALL(f(width, b.values, b.base, (E *)output, len))); \
            time_both(BOTH(fl_delta_read_##type), width, CALL(f(width, b.words, len, b.base, (E *)output))); \
            COMPARISONS(type, E); \
            COMPARISONS(signed_type, S); \
            time_both(BOTH(timed_pack_rows_##type), width, CALL(f(width, b.values, (E *)output, len))); \
            time_both(BOTH(timed_unpack_rows_##type), width, CALL(f(width, b.words, len, (E *)output))); \
            time_both(BOTH(timed_put_digits_##type), width, CALL(f(width, b.words, len, (E *)output))); \
            time_both(BOTH(timed_sum_digits_##type), width, ASK(f(width, b.words, len))); \
            time_both(BOTH(timed_pack_differences_##type), width, CALL(f(width, b.values, (E *)output, len))); \
        } \
        E one; \
        time_both(BOTH(timed_sum_places_##type), NONE, ASK(f(b.any))); \
        time_both(BOTH(fl_frame_head_##type), NONE, ASK(f(b.any, &one))); \
        time_both(BOTH(fl_delta_##type), NONE, CALL(f(b.any, b.base, (E *)output))); \
        time_both(BOTH(fl_undelta_##type), NONE, CALL(f(b.any, b.base, (E *)output))); \
        time_both(BOTH(fl_delta_width_##type), NONE, ASK(f(b.any, b.base))); \
        time_both(BOTH(fl_transpose_##type), NONE, CALL(f(b.any, (E *)output))); \
        time_both(BOTH(fl_untranspose_##type), NONE, CALL(f(b.any, (E *)output))); \
        time_both(BOTH(fl_transpose_bits_##type), NONE, CALL(f(b.bits, (uint64_t *)output))); \
        time_both(BOTH(fl_untranspose_bits_##type), NONE, CALL(f(b.bits, (uint64_t *)output))); \
        static uint16_t indexes[1024]; \
        time_both(BOTH(fl_rle_encode_##type), NONE, ASK(f(b.runs, (E *)output, indexes))); \
        time_both(BOTH(fl_rle_decode_##type), NONE, CALL(f(b.runs, 1024, b.runs_of, (E *)output))); \
    }
OPERATIONS(uint8_t, int8_t, u8, i8)
OPERATIONS(uint16_t, int16_t, u16, i16)
OPERATIONS(uint32_t, int32_t, u32, i32)
OPERATIONS(uint64_t, int64_t, u64, i64)

int main(int count, char **names) {
    if (count != 2 + 2 * PLACES) return 2;
    part = names[1];
    for (int k = 0; k < 2 * PLACES; k++) {
        libraries[k / PLACES][k % PLACES] = dlopen(names[2 + k], RTLD_NOW | RTLD_LOCAL);
        if (!libraries[k / PLACES][k % PLACES]) {
            fprintf(stderr, "versions: %s\n", dlerror());
            return 1;
        }
    }
    auto from = std::chrono::steady_clock::now();
    uint64_t ticks = __rdtsc();
    while (std::chrono::steady_clock::now() - from < std::chrono::milliseconds(100)) {}
    ticks = __rdtsc() - ticks;
    nanoseconds_a_tick = 1e8 / double(ticks);
    ticks_a_slice = 8000 / nanoseconds_a_tick;
    printf("function,width,first_ns,second_ns\n");
    time_u8();
    time_u16();
    time_u32();
    time_u64();
}
