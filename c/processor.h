/* SPDX-License-Identifier: Apache-2.0 OR MIT

   Which level of x86-64 a processor has, according to CPUID and to the system (XCR0). Not proved; `make -C c/tests
   levels` tries the decision on described processors. */

#ifndef CHACHA20_PROCESSOR_H
#define CHACHA20_PROCESSOR_H

#include <cpuid.h>
#include <stdint.h>

/* The registers that the decision reads; 0 where the processor has no such leaf. */
struct processor {
    uint32_t leaf_1_ecx;
    uint32_t leaf_7_ebx;
    uint32_t leaf_80000001_ecx;
    uint32_t xcr0; /* which registers the system saves; 0 where it says nothing */
};

enum {
    SSE3 = 1 << 0,
    SSSE3 = 1 << 9,
    FMA = 1 << 12,
    CMPXCHG16B = 1 << 13,
    SSE41 = 1 << 19,
    SSE42 = 1 << 20,
    MOVBE = 1 << 22,
    POPCNT = 1 << 23,
    OSXSAVE = 1 << 27,
    AVX = 1 << 28,
    F16C = 1 << 29,
    BMI1 = 1 << 3,
    AVX2 = 1 << 5,
    BMI2 = 1 << 8,
    LAHF = 1 << 0,
    LZCNT = 1 << 5,
    SAVES_VECTORS_OF_128_AND_256_BITS = 6
};

static inline int has_all(uint32_t found, uint32_t wanted) { return (found & wanted) == wanted; }

/* The System V ABI for x86-64 lists what each level adds to the one below. */
static inline int has_x86_64_v2(const struct processor *it) {
    return has_all(it->leaf_1_ecx, SSE3 | SSSE3 | CMPXCHG16B | SSE41 | SSE42 | POPCNT) &&
           has_all(it->leaf_80000001_ecx, LAHF);
}

static inline int has_x86_64_v3(const struct processor *it) {
    return has_x86_64_v2(it) && has_all(it->leaf_1_ecx, FMA | MOVBE | OSXSAVE | AVX | F16C) &&
           has_all(it->leaf_7_ebx, BMI1 | AVX2 | BMI2) && has_all(it->leaf_80000001_ecx, LZCNT) &&
           has_all(it->xcr0, SAVES_VECTORS_OF_128_AND_256_BITS);
}

/* 1 for x86-64 alone, 2 for x86-64-v2, 3 for x86-64-v3. */
static inline int x86_64_level(const struct processor *it) {
    return has_x86_64_v3(it) ? 3 : has_x86_64_v2(it) ? 2 : 1;
}

/* Only where OSXSAVE is set: else the processor has no such instruction. A test replaces it. */
static inline uint32_t read_xcr0(void) {
    uint32_t low;
    __asm__ volatile("xgetbv" : "=a"(low) : "c"(0) : "edx");
    return low;
}
#if !defined(READ_XCR0)
#define READ_XCR0 read_xcr0
#endif

static inline struct processor this_processor(void) {
    struct processor it = {0, 0, 0, 0};
    unsigned a, b, c, d;
    if (__get_cpuid(1, &a, &b, &c, &d)) it.leaf_1_ecx = c;
    if (__get_cpuid_count(7, 0, &a, &b, &c, &d)) it.leaf_7_ebx = b;
    if (__get_cpuid(0x80000001, &a, &b, &c, &d)) it.leaf_80000001_ecx = c;
    if (has_all(it.leaf_1_ecx, OSXSAVE)) it.xcr0 = READ_XCR0();
    return it;
}

#endif
