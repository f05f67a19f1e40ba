/* SPDX-License-Identifier: Apache-2.0 OR MIT

   For the sanitizer of threads: while the library chooses its level, a thread that an earlier constructor begins encrypts one part
   of a message, by the function of C_LIBRARY.md; main encrypts the other, and one call makes both parts zeros again. Then both
   make every call many times, under keys of their own; alone, each makes the same again. */

#define _GNU_SOURCE

#include <pthread.h>
#include <stdio.h>
#include <unistd.h>

#include "calls.h"

enum { PART = 1 << 20, TURNS = 2000, LEN = 40 };
static uint8_t key[32], nonce[12], message[2 * PART];
#include "encrypt.h"

/* The data of main, those of the thread, and the same two alone; and what each call has made, one after the other. */
static struct own all[4];
static uint64_t sums[4];

static pthread_barrier_t both;

static void *run(void *own) {
    struct own *it = own;
    int at = (int)(it - all), wrong = at < 2 && encrypt(message + at * PART);
    it->key[0] = it->nonce[0] = (uint8_t)(at % 2);
    if (at < 2) pthread_barrier_wait(&both);
    for (int i = 0; i < TURNS * CALL_KINDS; i++) {
        wrong |= prepare(i % CALL_KINDS, it, LEN) | call(i % CALL_KINDS, it, LEN);
        for (int j = 0; j < 16; j++) sums[at] = 31 * sums[at] + it->tag[j] + 3 * it->state[j] + 5 * it->output[j];
    }
    return wrong ? own : NULL;
}

static pthread_t thread;
static int wrong;
__attribute__((constructor(101))) static void begin(void) {
    wrong = pthread_barrier_init(&both, NULL, 2) || pthread_create(&thread, NULL, run, &all[1]);
}

int main(void) {
    /* Else a call of main would cover the choice, before the thread looks. */
    usleep(100000);
    void *one = run(&all[0]), *other = NULL;
    wrong = wrong || pthread_join(thread, &other) || one || other || run(&all[2]) || run(&all[3]) ||
            chacha20_xor(key, nonce, 0, message, message, sizeof message) != CHACHA20_OK;
    for (size_t i = 0; i < sizeof message; i++) wrong |= message[i];
    if (memcmp(all, all + 2, 2 * sizeof all[0]) || memcmp(sums, sums + 2, 2 * sizeof sums[0])) wrong = puts("wrong: other bytes than alone");
    return wrong;
}
