// Writes and reads as many varints of two bytes as make up the bytes of the entries' texts, and nothing else.
#include <stdint.h>
#include <stdio.h>
#include <stdlib.h>
#include <time.h>

static double now(void) {
    struct timespec t;
    clock_gettime(CLOCK_MONOTONIC, &t);
    return t.tv_sec + t.tv_nsec / 1e9;
}

int main(int argc, char **argv) {
    if (argc != 2) {
        fprintf(stderr, "usage: varints BYTES\n");
        return 2;
    }
    size_t count = strtoull(argv[1], 0, 10) / 2;
    unsigned char *text = malloc(2 * count);
    if (!text) return 1;
    double start = now();
    unsigned char *at = text;
    for (size_t i = 0; i < count; i++) {
        uint64_t n = 128 + (i & 8191);
        while (n >= 128) {
            *at++ = n % 128 + 128;
            n /= 128;
        }
        *at++ = n;
    }
    double written = now() - start;
    uint64_t sum = 0;
    start = now();
    for (unsigned char *from = text; from < at;) {
        uint64_t n = 0;
        int shift = 0;
        while (*from >= 128) {
            n += (uint64_t)(*from++ % 128) << shift;
            shift += 7;
        }
        n += (uint64_t)*from++ << shift;
        sum += n;
    }
    double read = now() - start;
    double size = (at - text) / 1e6;
    printf("varints in C: %.0f MB, written %.0f MB/s, read %.0f MB/s, sum %llu\n", size, size / written, size / read, (unsigned long long)sum);
    return 0;
}
