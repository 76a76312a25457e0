/* Splits heads of about 200 bytes one behind another: method, target, and lines of a name and a value, each byte
 * checked by a table; the target's path is decoded into memory of its own. Prints how many a second. */
#include <stdint.h>
#include <stdio.h>
#include <stdlib.h>
#include <string.h>
#include <time.h>

static const char HEAD[] = "GET /photos/2026/december/a.jpg?width=100&height=200 HTTP/1.1\r\n"
                           "Host: files.example.org:8888\r\nUser-Agent: curl/8.5.0\r\n"
                           "Accept: image/jpeg, image/png, */*\r\nConnection: keep-alive\r\n"
                           "Range: bytes=0-4194303\r\n\r\n";

enum { COUNT = 200000, LINES = 64 };

struct line {
    const uint8_t *name, *value;
    size_t name_length, value_length;
};

static uint8_t is_name[256], is_value[256], is_target[256];

static void fill_tables(void) {
    for (int byte = 33; byte < 127; byte++)
        is_target[byte] = 1, is_name[byte] = !strchr("\"(),/:;<=>?@[\\]{}", byte);
    for (int byte = 32; byte < 256; byte++)
        is_value[byte] = byte != 127;
    is_value['\t'] = 1;
}

static int hex(uint8_t byte) {
    return byte <= '9' ? byte - '0' : (byte | 32) - 'a' + 10;
}

static uint8_t *decoded(const uint8_t *from, const uint8_t *to, size_t *length) {
    uint8_t *text = malloc(to - from), *at = text;
    while (from < to && *from != '?') {
        if (*from == '%' && to - from > 2) {
            *at++ = (uint8_t)(hex(from[1]) << 4 | hex(from[2]));
            from += 3;
        } else {
            *at++ = *from++;
        }
    }
    *length = at - text;
    return text;
}

/* The place behind the head, or 0 where it is none. */
static const uint8_t *split(const uint8_t *at, const uint8_t *end, struct line *lines, int *count, uint8_t **path, size_t *length) {
    while (at < end && is_name[*at])
        at++;
    if (at == end || *at++ != ' ')
        return 0;
    const uint8_t *target = at;
    while (at < end && is_target[*at])
        at++;
    if (end - at < 11 || memcmp(at, " HTTP/1.1\r\n", 11))
        return 0;
    *path = decoded(target, at, length);
    at += 11;
    for (*count = 0; *count < LINES; ++*count) {
        if (end - at >= 2 && at[0] == '\r' && at[1] == '\n')
            return at + 2;
        struct line *line = &lines[*count];
        line->name = at;
        while (at < end && is_name[*at])
            at++;
        line->name_length = at - line->name;
        if (at == end || *at++ != ':')
            return 0;
        while (at < end && *at == ' ')
            at++;
        line->value = at;
        while (at < end && is_value[*at])
            at++;
        line->value_length = at - line->value;
        if (end - at < 2 || at[0] != '\r' || at[1] != '\n')
            return 0;
        at += 2;
    }
    return 0;
}

int main(void) {
    fill_tables();
    size_t one = sizeof HEAD - 1, length, sum = 0;
    uint8_t *text = malloc(one * COUNT), *path;
    for (int i = 0; i < COUNT; i++)
        memcpy(text + i * one, HEAD, one);
    struct timespec start, end;
    clock_gettime(CLOCK_MONOTONIC, &start);
    const uint8_t *at = text;
    struct line lines[LINES];
    int count;
    for (int i = 0; i < COUNT; i++) {
        at = split(at, text + one * COUNT, lines, &count, &path, &length);
        if (!at)
            return 1;
        sum += length + count;
        free(path);
    }
    clock_gettime(CLOCK_MONOTONIC, &end);
    double seconds = (end.tv_sec - start.tv_sec) + (end.tv_nsec - start.tv_nsec) / 1e9;
    printf("c: %d heads of %zu bytes, %.0f,000 a second (%zu)\n", COUNT, one, COUNT / seconds / 1e3, sum);
    return 0;
}
