// Reads the file that its first word names, and prints how many line feeds it has, byte by byte.
#include <stdio.h>
#include <stdlib.h>

int main(int argc, char **argv) {
    FILE *file = argc > 1 ? fopen(argv[1], "rb") : 0;
    if (!file) return 1;
    fseek(file, 0, SEEK_END);
    long size = ftell(file);
    rewind(file);
    unsigned char *bytes = malloc(size + 1);
    if (!bytes || fread(bytes, 1, size, file) != (size_t)size) return 1;
    volatile long lines = 0;
    for (long i = 0; i < size; i++) if (bytes[i] == '\n') lines++;
    printf("%ld\n", lines);
    return 0;
}
