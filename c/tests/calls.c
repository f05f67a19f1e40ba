/* SPDX-License-Identifier: Apache-2.0 OR MIT

   How much of the stack calls take; calls before the library has chosen a level, and in a signal handler; positions, and the
   version. */

#define _GNU_SOURCE

#include <signal.h>
#include <stdio.h>
#include <stdlib.h>
#include <ucontext.h>
#include <unistd.h>

#include "calls.h"
#include "compare.h"

static int wrong;

static void is(const char *name, int fact) {
    if (fact) return;
    wrong++;
    printf("wrong: %s\n", name);
}

/* Each counter of the RFC has a position. From 2^57 on it is 2^63, so that a small sum is refused, and doesn't wrap; the legacy
   cipher takes it as an offset. */
static void positions(void) {
    static const uint64_t most = UINT64_C(1) << 63;
    static const uint64_t all[][2] = {
        {0, 0}, {1, 64}, {0x7fffffff, 0x1fffffffc0}, {0xffffffff, 0x3fffffffc0}, {0x100000000, 0x4000000000},
        {0x123456789abcdef, 0x48d159e26af37bc0}, {0x1ffffffffffffff, 0x7fffffffffffffc0}, {0x200000000000000, most}, {0x200000000000001, most},
        {0x400000000000000, most}, {0x1000000000000000, most}, {0x8000000000000000, most}, {UINT64_MAX, most}};
    static const uint8_t key[32] = {1}, nonce[24] = {2};
    uint8_t one[10], other[10];
    for (size_t i = 0; i < sizeof all / sizeof all[0]; i++) {
        uint64_t position = chacha20_block_position(all[i][0]);
        is("a position", position == all[i][1]);
        is("a position and 5", chacha20_keystream(key, nonce, position + 5, one, 10) == (i < 4 ? CHACHA20_OK : CHACHA20_REFUSED));
    }
    is("2^63 as a block and as an offset",
       chacha20_legacy_keystream(key, nonce, 0, chacha20_block_position(UINT64_MAX), one, 10) == CHACHA20_OK &&
           chacha20_legacy_keystream(key, nonce, UINT64_C(1) << 57, 0, other, 10) == CHACHA20_OK && memcmp(one, other, 10) == 0);
}

/* The stack that a call takes: it runs on a painted one, from 64 multiples of 16 bytes over a page. The first call is a deep one,
   since it may also bind memcpy and memset. Other compilers and linkers may take MARGIN more. */
enum { STACK = 1 << 15, MARGIN = 1024, PLACES = 64, PAINT = 0xa5 };

static volatile uint8_t stack[STACK] __attribute__((aligned(4096)));
static struct own own;
static size_t call_len;
static int call_kind;
static const volatile uint8_t *call_begin;
static ucontext_t home, away;

static void on_stack(void) {
    call_begin = __builtin_frame_address(0);
    is("an answer", call(call_kind, &own, call_len) == CHACHA20_OK);
}

static void run_at(void (*function)(void), size_t below) {
    for (size_t i = 0; i < sizeof stack; i++) stack[i] = PAINT;
    getcontext(&away);
    away.uc_stack.ss_sp = (uint8_t *)stack;
    away.uc_stack.ss_size = sizeof stack - below;
    away.uc_link = &home;
    makecontext(&away, function, 0);
    swapcontext(&home, &away);
}

/* The most bytes below a call. */
static size_t deepest(void) {
    static const size_t lengths[] = {MOST, 4096, 2190, 1780, 1370, 960, 550, 140, 70, 1};
    size_t most = 0;
    for (size_t i = 0; i < CALL_KINDS * sizeof lengths / sizeof lengths[0]; i++) {
        call_kind = (int)(i % CALL_KINDS), call_len = lengths[i / CALL_KINDS];
        for (size_t place = 0; place < PLACES; place++) {
            size_t at = 0;
            is("an answer", prepare(call_kind, &own, call_len) == CHACHA20_OK);
            run_at(on_stack, 16 * (37 * (place + 16) % 256));
            while (stack[at] == PAINT) at++;
            if ((size_t)(call_begin - (stack + at)) > most) most = (size_t)(call_begin - (stack + at));
        }
    }
    return most;
}

static int is_wiped;
static void then_wiped(void) {
    call_begin = __builtin_frame_address(0);
    is("an answer", chacha20_keystream(own.key, own.nonce, 0, own.output, 1000) == CHACHA20_OK);
    if (is_wiped) chacha20_wipe_stack();
}

/* How many bytes below a function aren't zero after it called a cipher, and wiped the stack or not. Left out are those next to
   it and the deepest, of which there may be some in the frames of the function and the wipe. */
static size_t left_on_stack(int wiped) {
    size_t count = 0;
    is_wiped = wiped;
    run_at(then_wiped, 16);
    for (const volatile uint8_t *at = call_begin - CHACHA20_STACK_BYTES + 100; at < call_begin - 100; at++) count += *at != 0;
    return count;
}

/* Calls before the constructors, and in a signal handler with the stack that the header names, beside plain C. */
enum { LEN = 5000 };

static uint8_t zeros[LEN], right[LEN], handled[LEN];

static void before_constructors(int argc, char **argv, char **environment) {
    (void)argc, (void)argv, (void)environment;
    plain_c.xor_from_block[IETF](own.key, own.nonce, 0, right, zeros, LEN);
    int answer = chacha20_xor(own.key, own.nonce, 0, handled, zeros, LEN);
    is("a call before the constructors", answer == CHACHA20_OK && memcmp(handled, right, LEN) == 0);
}
__attribute__((section(".preinit_array"), used)) static void (*const first)(int, char **, char **) = before_constructors;

/* An emulator (qemu 7.2) begins it on a stack that isn't aligned. */
#if defined(__x86_64__)
__attribute__((force_align_arg_pointer))
#endif
static void handler(int signal) {
    memset(handled, 0, LEN);
    if (signal != SIGUSR1 || chacha20_xor(own.key, own.nonce, 0, handled, zeros, LEN) != CHACHA20_OK) handled[0] ^= 1;
}

static void in_handler(void) {
    size_t size = CHACHA20_STACK_BYTES + (size_t)sysconf(_SC_MINSIGSTKSZ);
    stack_t own = {.ss_sp = malloc(size), .ss_size = size};
    struct sigaction action = {.sa_handler = handler, .sa_flags = SA_ONSTACK};
    is("a call in a signal handler", sigaltstack(&own, NULL) == 0 && sigaction(SIGUSR1, &action, NULL) == 0 &&
                                         raise(SIGUSR1) == 0 && memcmp(handled, right, LEN) == 0);
}

int main(void) {
    size_t depth = deepest(), left = left_on_stack(0), wiped = left_on_stack(1);
    char version[32];
    snprintf(version, sizeof version, "%d.%d.%d", CHACHA20_VERSION_MAJOR, CHACHA20_VERSION_MINOR, CHACHA20_VERSION_PATCH);
    is("the version", strcmp(version, CHACHA20_VERSION) == 0 && strcmp(version, chacha20_version()) == 0);
    positions(), in_handler();
    is("the stack that a call takes", depth > 500 && depth + MARGIN <= CHACHA20_STACK_BYTES);
    is("the wiped stack", left > 500 && wiped == 0);
    printf("calls: %d wrong; %zu bytes of the stack of at most %d; version %s\n", wrong, depth, CHACHA20_STACK_BYTES,
           chacha20_version());
    return wrong != 0;
}
