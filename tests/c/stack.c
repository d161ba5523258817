/* How much of the stack a call takes. The tests run on a stack of their own; before each call what is below is painted,
 * and after it the lowest byte that has another color is looked for. */
#define _POSIX_C_SOURCE 200809L
#include "check.h"

#include <pthread.h>
#include <stdio.h>
#include <stdlib.h>
#include <string.h>

#define SIZE ((size_t)1 << 20)
#define PAINT 0xC3

/* What is left alone below the painter, which stands on the same stack: a call that takes no more is not seen to. */
#define MARGIN 256

static unsigned char *lowest;
static uintptr_t caller;
static void (*tests)(void);

void paint(void) {
    volatile unsigned char here = 0;
    if (lowest == NULL) return;
    caller = (uintptr_t)&here;
    memset(lowest, PAINT, caller - (uintptr_t)lowest - MARGIN);
}

size_t painted_over(void) {
    size_t at = 0;
    if (lowest == NULL) return 0;
    while (lowest[at] == PAINT) at++;
    return caller - (uintptr_t)(lowest + at);
}

static void *run(void *unused) {
    tests();
    return unused;
}

void on_painted_stack(void (*all)(void)) {
    pthread_attr_t attributes;
    pthread_t thread;
    tests = all;
    lowest = (unsigned char *)aligned_alloc(4096, SIZE);
    if (lowest == NULL || pthread_attr_init(&attributes) != 0 || pthread_attr_setstack(&attributes, lowest, SIZE) != 0 ||
        pthread_create(&thread, &attributes, run, NULL) != 0 || pthread_join(thread, NULL) != 0) {
        fprintf(stderr, "calls: a stack to paint could not be made\n");
        exit(2);
    }
    lowest = NULL;
}
