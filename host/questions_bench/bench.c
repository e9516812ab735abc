/* bench once|time COMMANDS TEXT LINE: one call of the question for callgrind, or nanoseconds a call, the least of 300 rounds. */
#include <stdint.h>
#include <stdio.h>
#include <stdlib.h>
#include <string.h>
#include <time.h>

typedef struct {
    uint64_t number, place, first, second, bytes;
} Numbers;

Numbers tsconfig_build(const uint8_t *, size_t, const uint8_t *, size_t, const uint8_t *, size_t, uint8_t *, size_t);
Numbers tsconfig_owner(const uint8_t *, size_t, const uint8_t *, size_t, const uint8_t *, size_t);
Numbers tsconfig_candidates(const uint8_t *, size_t, const uint8_t *, size_t, const uint8_t *, size_t, const uint8_t *, size_t, uint8_t *, size_t);

static uint8_t commands[65536], text[65536], out[1 << 20];

static size_t load(const char *name, uint8_t *to) {
    FILE *file = fopen(name, "rb");
    if (!file) exit(2);
    size_t n = fread(to, 1, 65536, file);
    fclose(file);
    return n;
}

__attribute__((noinline)) Numbers question(size_t m, size_t n, const char *line) {
    const uint8_t *path = (const uint8_t *)line + 2;
    if (line[0] == 'B') return tsconfig_build(commands, m, text, n, path, strlen(line) - 2, out, sizeof out);
    if (line[0] == 'O') return tsconfig_owner(commands, m, text, n, path, strlen(line) - 2);
    const char *tab = strchr(line, '\t');
    return tsconfig_candidates(commands, m, text, n, path, (size_t)(tab - line) - 2, (const uint8_t *)tab + 1, strlen(tab + 1), out, sizeof out);
}

int main(int argc, char **argv) {
    if (argc != 5) return 2;
    size_t m = load(argv[2], commands), n = load(argv[3], text);
    Numbers r = question(m, n, argv[4]);
    if (!strcmp(argv[1], "once")) {
        printf("%llu %llu %llu %llu %llu\n", (unsigned long long)r.number, (unsigned long long)r.place, (unsigned long long)r.first, (unsigned long long)r.second, (unsigned long long)r.bytes);
        return 0;
    }
    double least = 1e18;
    for (int round = 0; round < 300; round++) {
        struct timespec a, b;
        clock_gettime(CLOCK_MONOTONIC, &a);
        for (int i = 0; i < 50; i++) question(m, n, argv[4]);
        clock_gettime(CLOCK_MONOTONIC, &b);
        double took = ((b.tv_sec - a.tv_sec) * 1e9 + (b.tv_nsec - a.tv_nsec)) / 50;
        if (took < least) least = took;
    }
    printf("%.0f\n", least);
    return 0;
}
