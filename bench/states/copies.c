// The least that a source, a delay and a sink do, in C: copies, and a ring. WORK QUANTUM RUNS, where the work is
// `bare_source`, `bare_delay` or `bare_sink` and a run is 256 quanta. Prints the checksum that the program of bench/timed prints.
#include <stdint.h>
#include <stdio.h>
#include <stdlib.h>
#include <string.h>

enum { QUANTA = 256, LINE = 480 };

static void copy(int16_t *restrict to, const int16_t *restrict from, size_t n) { memcpy(to, from, n * sizeof *to); }

// A quantum from the file, or to the stream.
__attribute__((noipa)) static void copy_quantum(const int16_t *restrict from, int16_t *restrict to, size_t n) {
    copy(to, from, n);
}

// A quantum at most as long as the ring. Gives the place of the oldest sample then.
__attribute__((noipa)) static size_t ring_quantum(int16_t *restrict ring, size_t size, size_t oldest,
                                                  const int16_t *restrict a, int16_t *restrict left, size_t n) {
    size_t end = size - oldest;
    if (n <= end) {
        copy(left, ring + oldest, n);
        copy(ring + oldest, a, n);
        return oldest + n;
    }
    copy(left, ring + oldest, end);
    copy(left + end, ring, n - end);
    copy(ring + oldest, a, end);
    copy(ring, a + end, n - end);
    return n - end;
}

// A quantum longer than the ring.
__attribute__((noipa)) static void long_quantum(int16_t *restrict ring, size_t size, const int16_t *restrict a,
                                                int16_t *restrict left, size_t n) {
    copy(left, ring, size);
    copy(left + size, a, n - size);
    copy(ring, a + (n - size), size);
}

// The first sample, changed by the second.
static void stir(int16_t *a, size_t n) {
    if (n > 1) a[0] = (int16_t)(uint16_t)(a[0] + a[1]);
}

static void source_run(const int16_t *file, int16_t *left, size_t n) {
    for (size_t k = 0; k < QUANTA; k++) copy_quantum(file + k * n, left, n);
}

static void sink_run(int16_t *a, int16_t *stream, size_t n) {
    for (size_t k = 0; k < QUANTA; k++) {
        copy_quantum(a, stream + k * n, n);
        stir(a, n);
    }
}

static void delay_run(int16_t *a, int16_t *left, int16_t *ring, size_t size, size_t n) {
    size_t oldest = 0;
    for (size_t k = 0; k < QUANTA; k++) {
        if (n <= size) oldest = ring_quantum(ring, size, oldest, a, left, n);
        else long_quantum(ring, size, a, left, n);
        stir(a, n);
    }
}

// Samples that differ from one another.
static int16_t *row_of(size_t n) {
    int16_t *row = malloc((n + 1) * sizeof *row);
    uint32_t x = 1;
    if (!row) exit(1);
    for (size_t i = 0; i < n; i++) {
        x = x * 1664525u + 1013904223u;
        row[i] = (int16_t)((int32_t)(x / 65536) - 32768);
    }
    return row;
}

static uint32_t checksum(uint32_t sum, const int16_t *s, size_t n) {
    for (size_t i = 0; i < n; i++) sum = sum * 31 + (uint32_t)(s[i] + 32768);
    return sum;
}

int main(int count, char **words) {
    if (count != 4) return 1;
    size_t n = strtoul(words[2], 0, 10), runs = strtoul(words[3], 0, 10);
    size_t size = QUANTA * n < LINE ? QUANTA * n : LINE;
    if (n < 1 || n > 8192) return 1;
    int16_t *a = row_of(2 * n), *left = row_of(2 * n), *row = row_of(QUANTA * n);
    uint32_t sum = 0;
    for (size_t i = 0; i < runs; i++) {
        if (!strcmp(words[1], "bare_source")) source_run(row, left, n);
        else if (!strcmp(words[1], "bare_delay")) delay_run(a, left, row, size, n);
        else if (!strcmp(words[1], "bare_sink")) sink_run(a, row, n);
        else return 1;
        sum = checksum(sum, left, 2 * n);
    }
    printf("%s %u\n", words[1], sum);
    return 0;
}
