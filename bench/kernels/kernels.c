// The sample kernels in C, run again and again: KERNEL SAMPLES REPEATS GAIN.. Prints a checksum of each.
#include <stdint.h>
#include <stdio.h>
#include <stdlib.h>
#include <string.h>

static int16_t clamped(int32_t x) { return x < -32768 ? -32768 : x > 32767 ? 32767 : (int16_t)x; }

__attribute__((noipa)) static void mix_into(int32_t *restrict sum, const int16_t *restrict s, size_t n) {
    for (size_t i = 0; i < n; i++) sum[i] += s[i];
}

__attribute__((noipa)) static void clamp_out(const int32_t *restrict sum, int16_t *restrict to, size_t n) {
    for (size_t i = 0; i < n; i++) to[i] = clamped(sum[i]);
}

__attribute__((noipa)) static void gain(int32_t g, const int16_t *restrict s, int16_t *restrict to, size_t n) {
    for (size_t i = 0; i < n; i++) to[i] = clamped((s[i] * g) >> 8);
}

__attribute__((noipa)) static void mix2(int32_t ga, int32_t gb, const int16_t *restrict a, const int16_t *restrict b,
                                           int16_t *restrict to, size_t n) {
    for (size_t i = 0; i < n; i++) to[i] = clamped((a[i] * ga + b[i] * gb) >> 8);
}

__attribute__((noipa)) static void map_channels(size_t channels, const uint32_t *restrict list, size_t width,
                                                   const int16_t *restrict s, int16_t *restrict to, size_t n) {
    size_t frames = n / channels;
    for (size_t i = 0; i < frames; i++)
        for (size_t j = 0; j < width; j++) to[i * width + j] = s[i * channels + list[j]];
}

__attribute__((noipa)) static void split(const int16_t *restrict s, int16_t *restrict left, int16_t *restrict right, size_t frames) {
    for (size_t i = 0; i < frames; i++) {
        left[i] = s[2 * i];
        right[i] = s[2 * i + 1];
    }
}

__attribute__((noipa)) static uint32_t peak(const int16_t *s, size_t n) {
    uint32_t top = 0;
    for (size_t i = 0; i < n; i++) {
        uint32_t x = s[i] < 0 ? -(int32_t)s[i] : s[i];
        top = x > top ? x : top;
    }
    return top;
}

static void start(int16_t *s, size_t n) {
    uint32_t x = 1;
    for (size_t i = 0; i < n; i++) {
        x = x * 1664525u + 1013904223u;
        s[i] = (int16_t)((int32_t)(x / 65536) - 32768);
    }
}

static uint32_t checksum(const int16_t *s, size_t n) {
    uint32_t sum = 0;
    for (size_t i = 0; i < n; i++) sum = sum * 31 + (uint32_t)(s[i] + 32768);
    return sum;
}

static uint32_t run(const char *name, size_t n, uint32_t repeats, const int32_t *g, size_t gains) {
    int16_t *a = calloc(n + 1, 2), *b = calloc(n + 1, 2), *c = calloc(n + 1, 2);
    int32_t *sum = calloc(n + 1, 4);
    uint32_t top = 0;
    if (!a || !b || !c || !sum) exit(1);
    start(a, n);
    if (!strcmp(name, "gain")) {
        for (uint32_t r = 0; r < repeats; r++)
            if (r % 4 < gains) gain(g[r % 4], a, b, n), gain(g[r % 4], b, a, n);
        return checksum(a, n);
    }
    if (!strcmp(name, "mix2")) {
        start(c, n);
        for (uint32_t r = 0; r < repeats; r++)
            if (r % 4 + 1 < gains) mix2(g[r % 4], g[r % 4 + 1], a, c, b, n), mix2(g[r % 4], g[r % 4 + 1], b, c, a, n);
        return checksum(a, n);
    }
    if (!strcmp(name, "mix_into")) {
        for (uint32_t r = 0; r < repeats; r++) {
            memset(sum, 0, 4 * n);
            mix_into(sum, a, n);
            if (n > 1) a[0] = (int16_t)(a[1] + a[0]);
        }
        clamp_out(sum, a, n);
        return checksum(a, n);
    }
    if (!strcmp(name, "clamp_out")) {
        for (size_t i = 0; i < n; i++) sum[i] = 70000;
        for (uint32_t r = 0; r < repeats; r++) {
            clamp_out(sum, a, n);
            if (n > 1) sum[0] = (int32_t)((uint32_t)a[1] + (uint32_t)sum[0]);
        }
        return checksum(a, n);
    }
    if (!strcmp(name, "map_channels")) {
        uint32_t list[2] = {1, 0};
        n = n / 2 * 2;
        for (uint32_t r = 0; r < repeats; r++) map_channels(2, list, 2, a, b, n), map_channels(2, list, 2, b, a, n);
        return checksum(a, n);
    }
    if (!strcmp(name, "split")) {
        n = n / 2;
        for (uint32_t r = 0; r < repeats; r++) {
            split(a, b, c, n);
            if (n > 0) a[0] = (int16_t)(a[1] + a[0]);
        }
        return checksum(b, n) + checksum(c, n);
    }
    if (!strcmp(name, "peak")) {
        for (uint32_t r = 0; r < repeats; r++) {
            top += peak(a, n);
            if (n > 1) a[0] = (int16_t)(a[1] + a[0]);
        }
        return top;
    }
    return 0;
}

static const char *kernels[] = {"gain", "mix2", "mix_into", "clamp_out", "map_channels", "split", "peak"};

int main(int argc, char **argv) {
    int32_t g[16];
    size_t gains = 0;
    if (argc < 4) return 1;
    for (int i = 4; i < argc && gains < 16; i++) g[gains++] = atoi(argv[i]);
    for (size_t k = 0; k < sizeof kernels / sizeof *kernels; k++)
        if (!strcmp(argv[1], "all") || !strcmp(argv[1], kernels[k]))
            printf("%s %u\n", kernels[k], run(kernels[k], (size_t)atoll(argv[2]), (uint32_t)atoll(argv[3]), g, gains));
    return 0;
}
