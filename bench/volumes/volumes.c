/* What a volume's calls come down to, with the same system calls and a checksum by slicing by eight:
 *   volumes make DIRECTORY COUNT SIZE     makes volume 1, of so many needles of so many bytes
 *   volumes append DIRECTORY COUNT SIZE   writes and settles that many in volume 3
 *   volumes open DIRECTORY COUNT SIZE     reads volume 1, checks each item, and fills a hash table
 *   volumes read DIRECTORY COUNT SIZE     reads and checks that many of its items, in a mixed order
 * but for make, it prints the milliseconds. */
#include <fcntl.h>
#include <stdint.h>
#include <stdio.h>
#include <stdlib.h>
#include <string.h>
#include <sys/stat.h>
#include <time.h>
#include <unistd.h>

enum { HEAD = 20, COOKIE = 0x637037d6, WINDOW = 1 << 20 };

static uint32_t table[8][256];

static void must(int ok, const char *what) {
    if (!ok) {
        perror(what);
        exit(1);
    }
}

static void fill_tables(void) {
    for (uint32_t byte = 0; byte < 256; byte++) {
        uint32_t rest = byte;
        for (int bit = 0; bit < 8; bit++)
            rest = rest & 1 ? rest >> 1 ^ 0x82F63B78u : rest >> 1;
        table[0][byte] = rest;
    }
    for (int k = 1; k < 8; k++)
        for (int byte = 0; byte < 256; byte++)
            table[k][byte] = table[k - 1][byte] >> 8 ^ table[0][table[k - 1][byte] & 255];
}

static uint32_t crc32c(const uint8_t *bytes, size_t length) {
    uint32_t rest = 0xFFFFFFFFu;
    for (; length >= 8; length -= 8, bytes += 8) {
        uint32_t low, high;
        memcpy(&low, bytes, 4);
        memcpy(&high, bytes + 4, 4);
        low ^= rest;
        rest = table[7][low & 255] ^ table[6][low >> 8 & 255] ^ table[5][low >> 16 & 255] ^ table[4][low >> 24]
            ^ table[3][high & 255] ^ table[2][high >> 8 & 255] ^ table[1][high >> 16 & 255] ^ table[0][high >> 24];
    }
    while (length--)
        rest = rest >> 8 ^ table[0][(rest ^ *bytes++) & 255];
    return ~rest;
}

static void put32(uint8_t *at, uint32_t value) {
    for (int i = 0; i < 4; i++)
        at[i] = (uint8_t)(value >> (24 - 8 * i));
}

static void put64(uint8_t *at, uint64_t value) {
    put32(at, (uint32_t)(value >> 32));
    put32(at + 4, (uint32_t)value);
}

static uint32_t get32(const uint8_t *at) {
    return (uint32_t)at[0] << 24 | (uint32_t)at[1] << 16 | (uint32_t)at[2] << 8 | at[3];
}

static uint64_t get64(const uint8_t *at) {
    return (uint64_t)get32(at) << 32 | get32(at + 4);
}

/* Of an item of data alone: head, data, flags, checksum, moment, and 1 to 8 zero bytes up to a multiple of 8. */
static size_t tail_length(size_t size) {
    size_t bare = HEAD + size + 1 + 4 + 8;
    return 1 + 4 + 8 + (8 - bare % 8);
}

static void write_head(uint8_t *head, uint64_t key, size_t size) {
    put32(head, COOKIE);
    put64(head + 4, key);
    put32(head + 12, (uint32_t)size + 5);
    put32(head + 16, (uint32_t)size);
}

static void write_tail(uint8_t *tail, uint64_t key, uint32_t sum) {
    memset(tail, 0, 24);
    put32(tail + 1, sum);
    put64(tail + 5, key);
}

static void write_entry(uint8_t *entry, uint64_t key, uint64_t at, size_t size) {
    put64(entry, key);
    put32(entry + 8, (uint32_t)(at / 8));
    put32(entry + 12, (uint32_t)size + 5);
}

static void make(uint64_t count, size_t size) {
    FILE *dat = fopen("1.dat", "w"), *idx = fopen("1.idx", "w"), *vif = fopen("1.vif", "w");
    must(dat && idx && vif, "fopen");
    uint8_t *body = malloc(size), head[HEAD], tail[24], entry[16];
    memset(body, 'x', size);
    uint32_t sum = crc32c(body, size);
    fwrite("\3\0\0\0\0\0\0\0", 1, 8, dat);
    uint64_t at = 8;
    for (uint64_t key = 0; key < count; key++) {
        write_head(head, key, size);
        write_tail(tail, key, sum);
        write_entry(entry, key, at, size);
        fwrite(head, 1, HEAD, dat);
        fwrite(body, 1, size, dat);
        fwrite(tail, 1, tail_length(size), dat);
        fwrite(entry, 1, 16, idx);
        at += HEAD + size + tail_length(size);
    }
    must(fclose(dat) == 0 && fclose(idx) == 0 && fclose(vif) == 0, "fclose");
}

static void append(uint64_t count, size_t size) {
    int dat = open("3.dat", O_RDWR | O_CREAT | O_TRUNC, 0644), idx = open("3.idx", O_RDWR | O_CREAT | O_TRUNC, 0644);
    must(dat >= 0 && idx >= 0, "open");
    must(pwrite(dat, "\3\0\0\0\0\0\0\0", 8, 0) == 8, "pwrite");
    uint8_t *body = malloc(size), head[HEAD], tail[24], entry[16];
    memset(body, 'x', size);
    uint64_t at = 8;
    size_t behind = tail_length(size);
    for (uint64_t key = 0; key < count; key++) {
        write_head(head, key, size);
        write_tail(tail, key, crc32c(body, size));
        write_entry(entry, key, at, size);
        must(pwrite(dat, head, HEAD, at) == HEAD, "pwrite");
        must(pwrite(dat, body, size, at + HEAD) == (ssize_t)size, "pwrite");
        must(pwrite(dat, tail, behind, at + HEAD + size) == (ssize_t)behind, "pwrite");
        must(pwrite(idx, entry, 16, 16 * key) == 16, "pwrite");
        must(fdatasync(dat) == 0 && fdatasync(idx) == 0, "fdatasync");
        at += HEAD + size + behind;
    }
}

struct slot {
    uint64_t key;
    uint32_t place, size;
};

static struct slot *slots;
static uint64_t mask;

static struct slot *find(uint64_t key) {
    uint64_t place = key * 0x9e3779b97f4a7c15ull >> 20 & mask;
    while (slots[place].size && slots[place].key != key)
        place = (place + 1) & mask;
    return &slots[place];
}

static uint64_t load(uint64_t count) {
    mask = 1;
    while (mask < 2 * count)
        mask *= 2;
    slots = calloc(mask, sizeof *slots);
    mask--;
    int dat = open("1.dat", O_RDONLY);
    must(dat >= 0 && slots, "open");
    struct stat about;
    must(fstat(dat, &about) == 0, "fstat");
    uint8_t *window = malloc(WINDOW);
    uint64_t at = 8, found = 0;
    while (at < (uint64_t)about.st_size) {
        ssize_t got = pread(dat, window, WINDOW, at);
        must(got > 0, "pread");
        size_t place = 0;
        while (place + HEAD <= (size_t)got) {
            const uint8_t *item = window + place;
            size_t size = get32(item + 16), behind = tail_length(size), whole = HEAD + size + behind;
            if (place + whole > (size_t)got)
                break;
            if (crc32c(item + HEAD, size) != get32(item + HEAD + size + 1))
                exit(1);
            struct slot *slot = find(get64(item + 4));
            slot->key = get64(item + 4);
            slot->place = (uint32_t)((at + place) / 8);
            slot->size = get32(item + 12);
            found++;
            place += whole;
        }
        must(place > 0, "an item longer than the window");
        at += place;
    }
    return found;
}

static void read_items(uint64_t count, size_t size) {
    int dat = open("1.dat", O_RDONLY);
    must(dat >= 0, "open");
    size_t whole = HEAD + size + tail_length(size);
    for (uint64_t turn = 0; turn < count; turn++) {
        uint64_t key = (turn * 0x9e3779b97f4a7c15ull >> 20) % count;
        struct slot *slot = find(key);
        uint8_t *item = malloc(whole);
        must(pread(dat, item, whole, 8ull * slot->place) == (ssize_t)whole, "pread");
        if (get64(item + 4) != key || crc32c(item + HEAD, size) != get32(item + HEAD + size + 1))
            exit(1);
        free(item);
    }
}

static double now(void) {
    struct timespec time;
    clock_gettime(CLOCK_MONOTONIC, &time);
    return time.tv_sec * 1e3 + time.tv_nsec / 1e6;
}

int main(int argc, char **argv) {
    must(argc == 5, "usage: volumes MODE DIRECTORY COUNT SIZE");
    must(chdir(argv[2]) == 0, "chdir");
    uint64_t count = strtoull(argv[3], 0, 10);
    size_t size = strtoull(argv[4], 0, 10);
    fill_tables();
    if (!strcmp(argv[1], "make")) {
        make(count, size);
        return 0;
    }
    if (!strcmp(argv[1], "read"))
        load(count);
    double start = now();
    if (!strcmp(argv[1], "append"))
        append(count, size);
    else if (!strcmp(argv[1], "open"))
        must(load(count) == count, "items");
    else
        read_items(count, size);
    printf("c %s: %.0f ms\n", argv[1], now() - start);
    return 0;
}
