/* What `automate` does, in C: the whole file in memory, its samples in a row of their own, the gains over that row, the bytes of
   the new file, one write. With a third argument the least that can be done with whole loads and whole stores: the gains over the
   bytes that were loaded, which are written. The points are those of files.py. */
#include <fcntl.h>
#include <stdint.h>
#include <stdlib.h>
#include <string.h>
#include <unistd.h>

enum { POINTS = 10000, HEADER = 44, CHUNK = 65536 };

static uint8_t *load(const char *name, size_t *len) {
    int file = open(name, O_RDONLY);
    size_t room = CHUNK, n = 0;
    uint8_t *bytes = malloc(room);
    ssize_t got;
    if (file < 0) exit(1);
    while ((got = read(file, bytes + n, CHUNK)) > 0) {
        n += got;
        if (room - n < CHUNK) bytes = realloc(bytes, room *= 2);
    }
    close(file);
    *len = n;
    return bytes;
}

static int16_t scaled(int32_t s, int32_t g) {
    int32_t x = (s * g) >> 8;
    return x < -32768 ? -32768 : x > 32767 ? 32767 : x;
}

static void automate(int16_t *s, size_t frames) {
    size_t step = frames / POINTS;
    for (size_t k = 0; k < POINTS; k++) {
        int32_t g = (int32_t)(k % 512) - 256;
        size_t end = k + 1 < POINTS ? (k + 1) * step : frames;
        for (size_t i = 2 * k * step; i < 2 * end; i++) s[i] = scaled(s[i], g);
    }
}

static int store(const char *name, const uint8_t *bytes, size_t len) {
    int file = open(name, O_WRONLY | O_CREAT | O_TRUNC, 0644);
    return file < 0 || write(file, bytes, len) != (ssize_t)len;
}

int main(int argc, char **argv) {
    if (argc != 3 && argc != 4) return 1;
    size_t len;
    uint8_t *bytes = load(argv[1], &len);
    size_t n = (len - HEADER) / 2;
    if (argc == 4) {
        automate((int16_t *)(bytes + HEADER), n / 2);
        return store(argv[2], bytes, len);
    }
    int16_t *samples = malloc(2 * n);
    uint8_t *out = malloc(len);
    memcpy(samples, bytes + HEADER, 2 * n);
    automate(samples, n / 2);
    memcpy(out, bytes, HEADER);
    memcpy(out + HEADER, samples, 2 * n);
    return store(argv[2], out, len);
}
