/* The twin of `automate` of bench/timed: a stereo row through 10,000 points, from point to point. */
#include <stdint.h>
#include <stdio.h>
#include <stdlib.h>

enum { POINTS = 10000 };

static uint32_t offset[POINTS];
static int32_t gain[POINTS];

static int16_t scaled(int32_t s, int32_t g) {
    int32_t x = (s * g) >> 8;
    return x < -32768 ? -32768 : x > 32767 ? 32767 : x;
}

static void automate(const int16_t *s, int16_t *to, size_t frames) {
    size_t next = 0, frame = 0;
    int32_t g = 256;
    while (frame < frames) {
        while (next < POINTS && offset[next] <= frame) g = gain[next++];
        size_t end = next < POINTS && offset[next] < frames ? offset[next] : frames;
        for (size_t i = 2 * frame; i < 2 * end; i++) to[i] = scaled(s[i], g);
        frame = end;
    }
}

int main(int argc, char **argv) {
    size_t frames = argc > 1 ? strtoul(argv[1], 0, 10) / 2 : 0;
    unsigned repeats = argc > 2 ? strtoul(argv[2], 0, 10) : 0;
    size_t n = 2 * frames, step = frames / POINTS;
    int16_t *s = malloc(2 * n + 2), *to = calloc(n + 1, 2);
    uint32_t x = 1, sum = 0;
    for (size_t i = 0; i < n; i++) {
        x = x * 1664525 + 1013904223;
        s[i] = (int32_t)(x / 65536) - 32768;
    }
    for (size_t k = 0; k < POINTS; k++) {
        offset[k] = k * step;
        gain[k] = (int32_t)(k % 512) - 256;
    }
    for (unsigned r = 0; r < repeats; r++) {
        automate(s, to, frames);
        if (n > 1) s[0] += s[1];
    }
    for (size_t i = 0; i < n; i++) sum = sum * 31 + (uint32_t)(to[i] + 32768);
    printf("automate %u\n", sum);
    return 0;
}
