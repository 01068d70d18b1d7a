/* Prints the peak stack of each call on the text in the file that is named, a plan alone or with its reports: each on a thread whose stack is filled first. */
#include <pthread.h>
#include <stdio.h>
#include <string.h>
#include <sys/mman.h>

#include "coater.h"

enum { STACK = 1 << 20, FILL = 0xa5 };

static uint8_t text[65536];
static uint8_t out[65536];
static size_t length;
static size_t places[2];

static void *nothing(void *unused) { return unused; }

static void *reading(void *unused) {
    embed_read(text, length, places);
    return unused;
}

static void *writing(void *unused) {
    embed_write(text, length, out, sizeof out);
    return unused;
}

static void *analysing(void *unused) {
    embed_analyse(text, length, places);
    return unused;
}

static void *walking(void *unused) {
    const uint8_t kinds[] = {COATER_MORE, COATER_MORE};
    embed_walk(text, length, kinds, sizeof kinds, places);
    return unused;
}

static void *checking(void *unused) {
    embed_check(text, length, out, sizeof out);
    return unused;
}

static void *running(void *unused) {
    embed_run(text, length, out, sizeof out);
    return unused;
}

static size_t peak(void *(*call)(void *)) {
    uint8_t *stack = mmap(NULL, STACK, PROT_READ | PROT_WRITE, MAP_PRIVATE | MAP_ANONYMOUS, -1, 0);
    if (stack == MAP_FAILED) {
        return 0;
    }
    memset(stack, FILL, STACK);
    pthread_attr_t attributes;
    pthread_t thread;
    pthread_attr_init(&attributes);
    pthread_attr_setstack(&attributes, stack, STACK);
    if (pthread_create(&thread, &attributes, call, NULL) == 0) {
        pthread_join(thread, NULL);
    }
    size_t untouched = 0;
    while (untouched < STACK && stack[untouched] == FILL) {
        untouched++;
    }
    munmap(stack, STACK);
    return STACK - untouched;
}

int main(int argc, char **argv) {
    FILE *file = argc > 1 ? fopen(argv[1], "rb") : NULL;
    if (file == NULL) {
        return 2;
    }
    length = fread(text, 1, sizeof text, file);
    fclose(file);
    size_t thread = peak(nothing);
    printf("embed_read %zu\n", peak(reading) - thread);
    printf("embed_write %zu\n", peak(writing) - thread);
    printf("embed_analyse %zu\n", peak(analysing) - thread);
    printf("embed_walk %zu\n", peak(walking) - thread);
    printf("embed_check %zu\n", peak(checking) - thread);
    printf("embed_run %zu\n", peak(running) - thread);
    return 0;
}
