/* WAV files, memory and random samples. */
#include "twin.h"
#include <fcntl.h>
#include <stdio.h>
#include <stdlib.h>
#include <string.h>
#include <sys/stat.h>
#include <unistd.h>

void fail(const char *what, const char *of) {
    fprintf(stderr, "twin: %s %s\n", what, of);
    exit(99);
}

void *room(size_t bytes) {
    void *at = calloc(1, bytes + 64);
    if (!at) fail("no memory", "");
    return at;
}

static uint32_t u32_at(const uint8_t *bytes) {
    uint32_t value;
    memcpy(&value, bytes, 4);
    return value;
}

/* Files as `generate` and `write_wave` make them: 44 bytes, then the samples. */
struct Wave read_wave(const char *name, int plain) {
    int file = open(name, O_RDONLY);
    struct stat about;
    if (file < 0 || fstat(file, &about) < 0 || about.st_size < 44) fail("absent", name);
    size_t size = about.st_size, got = 0;
    uint8_t *bytes = room(size);
    while (got < size) {
        ssize_t more = read(file, bytes + got, size - got);
        if (more <= 0) fail("read", name);
        got += more;
    }
    close(file);
    struct Wave wave = {u32_at(bytes + 24), bytes[22], (int16_t *)(bytes + 44), (size - 44) / 2};
    if (plain) return wave;
    int16_t *samples = room(size);
    memcpy(samples, wave.samples, size - 44);
    free(bytes);
    wave.samples = samples;
    return wave;
}

static void put_header(uint8_t *to, uint32_t rate, uint32_t channels, uint32_t bytes) {
    uint32_t fields[] = {36 + bytes, 16, 1 | channels << 16, rate, 2 * channels * rate,
                         2 * channels | 16 << 16, bytes};
    memcpy(to, "RIFF....WAVEfmt ....................data", 40);
    memcpy(to + 4, &fields[0], 4);
    memcpy(to + 16, &fields[1], 20);
    memcpy(to + 40, &fields[6], 4);
}

static void write_all(int file, const void *from, size_t size) {
    for (size_t done = 0; done < size;) {
        ssize_t more = write(file, (const uint8_t *)from + done, size - done);
        if (more <= 0) fail("store", "");
        done += more;
    }
}

void write_wave(const char *name, uint32_t rate, uint32_t channels, const int16_t *samples,
                size_t count) {
    uint8_t header[44];
    int file = open(name, O_WRONLY | O_CREAT | O_TRUNC, 0644);
    if (file < 0) fail("store", name);
    put_header(header, rate, channels, 2 * count);
    write_all(file, header, sizeof header);
    write_all(file, samples, 2 * count);
    close(file);
}

/* Noise that swells and falls in four seconds; its first 1,024 frames are as loud as may be. */
void generate(const char *name, uint32_t channels, uint64_t frames, uint64_t seed) {
    size_t count = frames * channels;
    int16_t *samples = room(2 * count);
    for (size_t i = 0; i < count; i++) {
        seed = seed * 6364136223846793005u + 1442695040888963407u;
        int32_t noise = (int32_t)((seed >> 33) % 65536) - 32768;
        uint32_t at = i / channels % 96000;
        int32_t swell = (at < 48000 ? at : 96000 - at) / 8;
        samples[i] = i / channels < 1024 ? noise : noise * swell >> 15;
    }
    write_wave(name, 48000, channels, samples, count);
    free(samples);
}
