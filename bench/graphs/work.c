/* What each node does with one quantum. */
#include "twin.h"
#include <string.h>

static int16_t clamped(int32_t value) {
    return value > 32767 ? 32767 : value < -32768 ? -32768 : value;
}

static void scale(int32_t gain, const int16_t *restrict from, int16_t *restrict to, size_t count) {
    for (size_t i = 0; i < count; i++) to[i] = clamped(from[i] * gain >> 8);
}

void add_up(int count, const int16_t *const *inputs, int16_t *restrict to, size_t samples) {
    enum { LANE = 256 };
    if (count == 1) memcpy(to, inputs[0], 2 * samples);
    if (count == 0) memset(to, 0, 2 * samples);
    for (size_t at = 0; count > 1 && at < samples; at += LANE) {
        size_t width = samples - at < LANE ? samples - at : LANE;
        int32_t sum[LANE];
        for (size_t i = 0; i < width; i++) sum[i] = inputs[0][at + i];
        for (int k = 1; k < count; k++)
            for (size_t i = 0; i < width; i++) sum[i] += inputs[k][at + i];
        for (size_t i = 0; i < width; i++) to[at + i] = clamped(sum[i]);
    }
}

static uint32_t greatest(const int16_t *from, size_t count, uint32_t before) {
    int16_t high = 0, low = 0;
    for (size_t i = 0; i < count; i++) {
        high = from[i] > high ? from[i] : high;
        low = from[i] < low ? from[i] : low;
    }
    uint32_t peak = high > -low ? high : -low;
    return peak > before ? peak : before;
}

void prepare(int plain) {
    for (int i = 0; i < node_count; i++) {
        struct Node *node = &nodes[i];
        size_t frame = node->channels * sizeof(int16_t);
        if (node->kind == DELAY) node->line = room((node->amount + quantum) * frame);
        if (node->kind == SINK) node->kept = room(2 * node->kept_room);
        if (node->kind != SOURCE || plain) continue;
        int16_t *own = room(2 * node->wave.count);
        memcpy(own, node->wave.samples, 2 * node->wave.count);
        node->wave.samples = own;
    }
}

static const int16_t *give(struct Node *node, int16_t *to, size_t count, int plain) {
    size_t at = node->position * node->channels, all = node->wave.count;
    node->position += quantum;
    if (plain && at + count <= all) return node->wave.samples + at;
    size_t whole = at >= all ? 0 : all - at < count ? all - at : count;
    if (whole) memcpy(to, node->wave.samples + at, 2 * whole);
    memset(to + whole, 0, 2 * (count - whole));
    return to;
}

/* A ring of as many frames as the delay has. */
static const int16_t *hold(struct Node *node, const int16_t *input, int16_t *to, size_t count) {
    size_t all = (size_t)node->amount * node->channels, at = node->line_at;
    int16_t *line = node->line;
    if (all < count) {
        memcpy(to, line, 2 * all);
        memcpy(to + all, input, 2 * (count - all));
        memcpy(line, input + count - all, 2 * all);
        return to;
    }
    size_t first = all - at < count ? all - at : count;
    memcpy(to, line + at, 2 * first);
    memcpy(line + at, input, 2 * first);
    memcpy(to + first, line, 2 * (count - first));
    memcpy(line, input + first, 2 * (count - first));
    node->line_at = (at + count) % all;
    return to;
}

const int16_t *work(struct Node *node, const int16_t *input, int16_t *to, int plain) {
    size_t count = (size_t)quantum * node->channels;
    if (node->kind == SOURCE) return give(node, to, count, plain);
    if (node->kind == DELAY) return plain && !node->amount ? input : hold(node, input, to, count);
    if (node->kind == GAIN) scale(node->amount, input, to, count);
    if (node->kind == METER) node->peak = greatest(input, count, node->peak);
    return to;
}

void keep(struct Node *node, int count, const int16_t *const *inputs) {
    size_t samples = (size_t)quantum * node->channels;
    add_up(count, inputs, node->kept + node->kept_count, samples);
    node->kept_count += samples;
}
