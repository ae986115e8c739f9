/* twin run SCRIPT plain             the work on only the samples, by one thread
   twin run SCRIPT board [LOOPS]     by the steps of a board, so many loops beside the driver's
   twin make FILE CHANNELS FRAMES SEED     a WAV file of noise
   twin gain IN OUT GAIN             one gain from file to file in pieces of 256 KiB
   twin take FILE SECONDS COMMAND..  runs a command, for at most so many seconds, and gives FILE
                                     its seconds, processor seconds, KiB, status and how often
                                     its threads went to sleep
   What a run prints and stores is what pipegraph prints and stores. */
#include "twin.h"
#include <fcntl.h>
#include <stdio.h>
#include <stdlib.h>
#include <string.h>
#include <sys/resource.h>
#include <sys/time.h>
#include <sys/wait.h>
#include <time.h>
#include <unistd.h>

static double seconds_now(void) {
    struct timespec now;
    clock_gettime(CLOCK_MONOTONIC, &now);
    return now.tv_sec + now.tv_nsec * 1e-9;
}

/* A small parent, so that the peak of memory is the command's own. */
static int take(const char *to, const char *seconds, char **command) {
    double start = seconds_now();
    pid_t child = fork();
    if (!child) {
        alarm(atoi(seconds));
        dup2(open("/dev/null", O_WRONLY), 1);
        execvp(command[0], command);
        _exit(127);
    }
    struct rusage used;
    int status;
    wait4(child, &status, 0, &used);
    FILE *file = fopen(to, "w");
    double own = used.ru_utime.tv_sec + used.ru_stime.tv_sec
                 + (used.ru_utime.tv_usec + used.ru_stime.tv_usec) * 1e-6;
    int code = WIFEXITED(status) ? WEXITSTATUS(status) : 128 + WTERMSIG(status);
    fprintf(file, "%.6f %.6f %ld %d %ld\n", seconds_now() - start, own, used.ru_maxrss, code, used.ru_nvcsw);
    return fclose(file);
}

static void deliver(int plain) {
    for (int i = 0; i < node_count; i++) {
        struct Node *node = &nodes[i];
        char *to = text + text_length;
        if (node->kind == METER) text_length += sprintf(to, "peak %s %u\n", node->name, node->peak);
        if (node->kind != SINK) continue;
        size_t count = node->kept_count;
        text_length += sprintf(to, "wrote %s %zu\n", node->name, count / node->channels);
        int16_t *samples = node->kept;
        for (int copies = plain ? 0 : 2; copies; copies--) /* into the outcome and the file */
            samples = memcpy(room(2 * count), samples, 2 * count);
        write_wave(node->file, node->rate, node->channels, samples, count);
    }
    fwrite(text, 1, text_length, stdout);
}

static int run(int argc, char **argv) {
    int plain = !strcmp(argv[3], "plain");
    read_script(argv[2], plain);
    prepare(plain);
    if (plain) run_plain();
    else run_board(argc > 4 ? atoi(argv[4]) : 0);
    deliver(plain);
    fflush(stdout);
    _exit(0);
}

static int gain(const char *in, const char *out, int factor) {
    static int16_t from[131072], to[131072];
    int source = open(in, O_RDONLY), target = open(out, O_WRONLY | O_CREAT | O_TRUNC, 0644);
    struct Node node = {.kind = GAIN, .channels = 1, .amount = factor};
    if (read(source, from, 44) != 44 || write(target, from, 44) != 44) return 1;
    for (ssize_t more; (more = read(source, from, sizeof from)) > 0;) {
        quantum = more / 2;
        work(&node, from, to, 1);
        if (write(target, to, more) != more) return 1;
    }
    return 0;
}

int main(int argc, char **argv) {
    const char *command = argc > 1 ? argv[1] : "";
    if (!strcmp(command, "run") && argc > 3) return run(argc, argv);
    if (!strcmp(command, "take") && argc > 4) return take(argv[2], argv[3], argv + 4);
    if (!strcmp(command, "gain") && argc == 5) return gain(argv[2], argv[3], atoi(argv[4]));
    if (strcmp(command, "make") || argc != 6) fail("no command", command);
    generate(argv[2], atoi(argv[3]), strtoull(argv[4], NULL, 10), strtoull(argv[5], NULL, 10));
    return 0;
}
