/* The graphs of the benchmarks in C: sources, gains, delays, sinks and meters, each with at most
   one input and one output. */
#pragma once
#include <stddef.h>
#include <stdint.h>

enum { NODES = 64, LINKS = 256, DUMMY = 63, LOOPS = 16, MOST_CHANNELS = 8 };
enum Kind { SOURCE, GAIN, DELAY, SINK, METER };

struct Wave {
    uint32_t rate, channels;
    int16_t *samples;
    size_t count;
};

struct Node {
    char name[32], file[256];
    enum Kind kind;
    int drives;
    uint32_t priority, loop, rate, channels;
    int32_t amount; /* the gain in 1/256, or the frames of a delay */
    struct Wave wave;
    uint64_t planned; /* frames of a source that epochs ask for */
    /* What a run changes. */
    uint64_t position;
    int16_t *line, *kept;
    size_t line_at, kept_count, kept_room;
    uint32_t peak;
};

struct Link {
    int from, to;
};

struct Epoch {
    uint32_t cycles;
    uint64_t first;
    int driver, count, nodes[NODES], link_count;
    struct Link *links;
};

extern struct Node nodes[NODES];
extern int node_count, epoch_count;
extern struct Epoch *epochs;
extern uint32_t quantum;
extern char text[];
extern size_t text_length;

void fail(const char *what, const char *of);
void *room(size_t bytes); /* zeros */

/* `plain`: the samples stay where the file was read to. */
struct Wave read_wave(const char *name, int plain);
void write_wave(const char *name, uint32_t rate, uint32_t channels, const int16_t *samples,
                size_t count);
void generate(const char *name, uint32_t channels, uint64_t frames, uint64_t seed);

void read_script(const char *name, int plain);

void prepare(int plain);
void add_up(int count, const int16_t *const *inputs, int16_t *to, size_t samples);
/* One quantum; answers where the output is: where it is plain, in the own samples of a source. */
const int16_t *work(struct Node *node, const int16_t *input, int16_t *to, int plain);
void keep(struct Node *node, int count, const int16_t *const *inputs);

void run_plain(void);
void run_board(int loops);
