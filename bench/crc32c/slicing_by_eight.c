/* CRC-32C of 64 MiB by slicing by eight, to compare with. Prints the best of the rounds in MB/s. */
#include <stdint.h>
#include <stdio.h>
#include <stdlib.h>
#include <string.h>
#include <time.h>

static uint32_t table[8][256];

static void fill_tables(void) {
    for (uint32_t byte = 0; byte < 256; byte++) {
        uint32_t remainder = byte;
        for (int bit = 0; bit < 8; bit++)
            remainder = remainder & 1 ? remainder >> 1 ^ 0x82F63B78u : remainder >> 1;
        table[0][byte] = remainder;
    }
    for (int k = 1; k < 8; k++)
        for (int byte = 0; byte < 256; byte++)
            table[k][byte] = table[k - 1][byte] >> 8 ^ table[0][table[k - 1][byte] & 255];
}

__attribute__((noinline)) static uint32_t crc32c(const uint8_t *bytes, size_t length) {
    uint32_t remainder = 0xFFFFFFFFu;
    for (; length >= 8; length -= 8, bytes += 8) {
        uint32_t low, high;
        memcpy(&low, bytes, 4);
        memcpy(&high, bytes + 4, 4);
        low ^= remainder;
        remainder = table[7][low & 255] ^ table[6][low >> 8 & 255] ^ table[5][low >> 16 & 255] ^ table[4][low >> 24]
            ^ table[3][high & 255] ^ table[2][high >> 8 & 255] ^ table[1][high >> 16 & 255] ^ table[0][high >> 24];
    }
    while (length--)
        remainder = remainder >> 8 ^ table[0][(remainder ^ *bytes++) & 255];
    return ~remainder;
}

int main(void) {
    size_t length = 64u << 20;
    uint8_t *bytes = malloc(length);
    if (!bytes)
        return 1;
    for (size_t i = 0; i < length; i++)
        bytes[i] = (uint8_t)(i * 7 + (i >> 8));
    fill_tables();
    double best = 0;
    uint32_t sum = 0;
    for (int round = 0; round < 10; round++) {
        struct timespec start, end;
        clock_gettime(CLOCK_MONOTONIC, &start);
        sum = crc32c(bytes, length);
        clock_gettime(CLOCK_MONOTONIC, &end);
        double seconds = (end.tv_sec - start.tv_sec) + (end.tv_nsec - start.tv_nsec) / 1e9;
        double rate = length / seconds / 1e6;
        if (rate > best)
            best = rate;
    }
    printf("c_by_eight %.0f MB/s, checksum %08x\n", best, sum);
    free(bytes);
    return 0;
}
