#include <stdio.h>
#include <stdlib.h>
#include <time.h>

static double now(void)
{
    struct timespec t;
    clock_gettime(CLOCK_MONOTONIC, &t);
    return t.tv_sec * 1e9 + t.tv_nsec;
}

/* A chain through all lines of 64 octets, in a random order (Fisher and Yates). */
int main(void)
{
    for (size_t mb = 1; mb <= 32; mb *= 2) {
        size_t n = mb << 14, reads = 2000000;
        void **lines = aligned_alloc(4096, n * 64), **at = lines;
        unsigned *order = malloc(n * sizeof *order);
        for (size_t i = 0; i < n; i++)
            order[i] = i;
        srandom(1);
        for (size_t i = n - 1; i > 0; i--) {
            size_t j = random() % i;
            unsigned other = order[i];
            order[i] = order[j];
            order[j] = other;
        }
        for (size_t i = 0; i < n; i++)
            lines[order[i] * 8ul] = &lines[order[(i + 1) % n] * 8ul];
        double start = now();
        for (size_t i = 0; i < reads; i++)
            at = *at;
        printf("%zu MB: %.0f ns (%d)\n", mb, (now() - start) / reads, at == 0);
        free(lines);
        free(order);
    }
}
