/* A run by one thread, node after node in an order of their links, without any atomic step; what
   is linked to one node alone is not copied. */
#include "twin.h"

static const int16_t *made[NODES];
static int16_t *outputs[NODES], *sums;

static int is_ready(const struct Epoch *epoch, const int *done, int node) {
    for (int i = 0; i < epoch->link_count; i++)
        if (epoch->links[i].to == node && !done[epoch->links[i].from]) return 0;
    return !done[node];
}

static void find_order(const struct Epoch *epoch, int *order) {
    int done[NODES] = {0};
    for (int found = 0; found < epoch->count;)
        for (int i = 0; i < epoch->count; i++)
            if (is_ready(epoch, done, epoch->nodes[i])) done[order[found++] = epoch->nodes[i]] = 1;
}

struct Inputs {
    int count, from[LINKS];
};

static void find_inputs(const struct Epoch *epoch, struct Inputs *inputs) {
    for (int i = 0; i < epoch->link_count; i++) {
        struct Inputs *of = &inputs[epoch->links[i].to];
        of->from[of->count++] = epoch->links[i].from;
    }
}

static void run_node(int at, const struct Inputs *inputs) {
    struct Node *node = &nodes[at];
    const int16_t *heard[LINKS], *input = sums;
    for (int i = 0; i < inputs->count; i++) heard[i] = made[inputs->from[i]];
    if (node->kind == SINK) return keep(node, inputs->count, heard);
    if (inputs->count == 1) input = heard[0];
    else if (node->kind != SOURCE)
        add_up(inputs->count, heard, sums, (size_t)quantum * node->channels);
    made[at] = work(node, input, outputs[at], 1);
}

void run_plain(void) {
    size_t block = 2 * (size_t)quantum * MOST_CHANNELS;
    sums = room(block);
    for (int i = 0; i < node_count; i++) outputs[i] = room(block);
    for (int e = 0; e < epoch_count; e++) {
        static struct Inputs inputs[NODES];
        int order[NODES];
        for (int i = 0; i < NODES; i++) inputs[i].count = 0;
        find_order(&epochs[e], order);
        find_inputs(&epochs[e], inputs);
        for (uint32_t c = 0; c < epochs[e].cycles; c++)
            for (int i = 0; i < epochs[e].count; i++)
                if (order[i] != DUMMY) run_node(order[i], &inputs[order[i]]);
    }
}
