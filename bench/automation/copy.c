/* A plain copy of a file, 64 KiB at a time. */
#include <fcntl.h>
#include <unistd.h>

static char block[65536];

int main(int argc, char **argv) {
    if (argc != 3) return 1;
    int from = open(argv[1], O_RDONLY), to = open(argv[2], O_WRONLY | O_CREAT | O_TRUNC, 0644);
    ssize_t n;
    if (from < 0 || to < 0) return 1;
    while ((n = read(from, block, sizeof block)) > 0)
        if (write(to, block, n) != n) return 1;
    return n < 0;
}
