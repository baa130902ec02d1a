/* Loaded before the C library, it refuses one allocation of the program: that of the number in REFUSED, counted from 1.
   At the end it writes how many were asked for, as a number, into the file that COUNTED names. */
#define _GNU_SOURCE
#include <stddef.h>
#include <stdio.h>
#include <stdlib.h>

extern void *__libc_malloc(size_t size);
extern void *__libc_realloc(void *old, size_t size);

static unsigned long asked, refused;

__attribute__((constructor)) static void begin(void) {
    const char *number = getenv("REFUSED");
    refused = number ? strtoul(number, NULL, 10) : 0;
    asked = 0;
}

__attribute__((destructor)) static void end(void) {
    unsigned long count = asked;
    const char *name = getenv("COUNTED");
    FILE *file = name ? fopen(name, "w") : NULL;
    if (file) {
        fprintf(file, "%lu\n", count);
        fclose(file);
    }
}

void *malloc(size_t size) {
    return ++asked == refused ? NULL : __libc_malloc(size);
}

void *realloc(void *old, size_t size) {
    return ++asked == refused ? NULL : __libc_realloc(old, size);
}
