/* The scripts of the benchmarks: nodes, the lines of links, and epochs. They have no fault. */
#include "twin.h"
#include <stdio.h>
#include <stdlib.h>
#include <string.h>

struct Node nodes[NODES];
int node_count, epoch_count;
struct Epoch *epochs;
uint32_t quantum = 1024;
char text[1 << 16];
size_t text_length;

static struct Link links[LINKS];
static int link_count;
static uint64_t all_cycles;

static int node_named(const char *name, size_t length) {
    for (int i = 0; i < node_count; i++)
        if (strlen(nodes[i].name) == length && !memcmp(nodes[i].name, name, length)) return i;
    fail("no node", name);
    return 0;
}

static int node_of(const char *endpoint) { return node_named(endpoint, strcspn(endpoint, ".")); }

static void add_node(enum Kind kind, char words[4][256], int plain) {
    struct Node *node = &nodes[node_count];
    snprintf(node->name, sizeof node->name, "%s", words[1]);
    snprintf(node->file, sizeof node->file, "%s", words[2]);
    node->kind = kind;
    node->loop = node_count++;
    if (kind == GAIN || kind == DELAY) node->amount = atoi(words[2]);
    if (kind != SOURCE) return;
    node->wave = read_wave(node->file, plain);
    node->rate = node->wave.rate;
    node->channels = node->wave.channels;
}

static void add_link(char words[4][256]) {
    struct Link link = {node_of(words[1]), node_of(words[2])};
    struct Node *from = &nodes[link.from], *to = &nodes[link.to];
    to->rate = from->rate;
    to->channels = from->channels;
    links[link_count++] = link;
    text_length += snprintf(text + text_length, sizeof text - text_length, "link %s %s %u %u 2\n",
                            words[1], words[2], from->rate, from->channels);
}

static int driver_now(void) {
    int driver = -1;
    for (int i = 0; i < node_count; i++)
        if (nodes[i].drives && (driver < 0 || nodes[i].priority > nodes[driver].priority))
            driver = i;
    return driver;
}

/* Marks what is joined to the driver, or what has a link where the built-in one drives. */
static int mark_active(int *active) {
    int driver = driver_now(), grows = driver >= 0;
    active[driver < 0 ? DUMMY : driver] = 1;
    for (int i = 0; driver < 0 && i < link_count; i++)
        active[links[i].from] = active[links[i].to] = 1;
    while (grows) {
        grows = 0;
        for (int i = 0; i < link_count; i++) {
            int *from = &active[links[i].from], *to = &active[links[i].to];
            if (*from != *to) grows = *from = *to = 1;
        }
    }
    return driver < 0 ? DUMMY : driver;
}

static uint64_t cycles_to_drain(const int *active) {
    uint64_t most = 0;
    for (int i = 0; i < node_count; i++) {
        struct Node *node = &nodes[i];
        if (!active[i] || node->kind != SOURCE) continue;
        uint64_t frames = node->wave.count / node->wave.channels;
        uint64_t left = frames > node->planned ? frames - node->planned : 0;
        uint64_t cycles = (left + quantum - 1) / quantum;
        if (cycles > most) most = cycles;
    }
    return most;
}

static void add_epoch(uint64_t cycles) {
    int active[NODES] = {0};
    struct Epoch epoch = {.first = all_cycles, .driver = mark_active(active)};
    epoch.cycles = cycles ? cycles : cycles_to_drain(active);
    if (!epoch.cycles) return;
    all_cycles += epoch.cycles;
    for (int i = 0; i < NODES; i++) {
        if (!active[i]) continue;
        epoch.nodes[epoch.count++] = i;
        nodes[i].planned += (uint64_t)epoch.cycles * quantum;
        nodes[i].kept_room += (size_t)epoch.cycles * quantum * nodes[i].channels;
    }
    epoch.links = room(sizeof(struct Link) * (link_count + 1));
    for (int i = 0; i < link_count; i++)
        if (active[links[i].from]) epoch.links[epoch.link_count++] = links[i];
    epochs = realloc(epochs, sizeof epoch * (epoch_count + 1));
    epochs[epoch_count++] = epoch;
}

static void take_line(char words[4][256], int plain) {
    static const char *kinds[] = {"source", "gain", "delay", "sink", "meter"};
    const char *command = words[0];
    for (int kind = SOURCE; kind <= METER; kind++)
        if (!strcmp(command, kinds[kind])) return add_node(kind, words, plain);
    if (!strcmp(command, "quantum")) quantum = atoi(words[1]);
    else if (!strcmp(command, "link")) add_link(words);
    else if (!strcmp(command, "cycles")) add_epoch(atoi(words[1]));
    else if (!strcmp(command, "drain")) add_epoch(0);
    else if (!strcmp(command, "loop")) nodes[node_of(words[1])].loop = atoi(words[2]);
    else if (!strcmp(command, "driver")) {
        struct Node *node = &nodes[node_of(words[1])];
        node->drives = 1;
        node->priority = atoi(words[2]);
    } else fail("no command", command);
}

void read_script(const char *name, int plain) {
    FILE *file = fopen(name, "r");
    char line[1024];
    if (!file) fail("absent", name);
    while (fgets(line, sizeof line, file)) {
        char words[4][256] = {{0}};
        if (sscanf(line, "%255s %255s %255s", words[0], words[1], words[2]) > 0)
            take_line(words, plain);
    }
    fclose(file);
}
