/* A run by the steps of a board: each load, store, exchange, addition and subtraction on a word
   that threads share is a sequentially consistent one, in the order in which docs/RULES.md has
   them. A loop has a word of the nodes that were triggered, and sleeps where there is none. Each
   block has samples by four in a word. What the interfaces of the crates copy is copied: a source's
   samples into its state, a sink's on their way out, the events of a board and of the history. */
#include "twin.h"
#include <linux/futex.h>
#include <pthread.h>
#include <stdatomic.h>
#include <stdlib.h>
#include <string.h>
#include <sys/syscall.h>
#include <unistd.h>

enum { NOT_TRIGGERED, TRIGGERED, AWAKE, FINISHED };
enum { BEGIN, START, FINISH, TICK, END };
enum { NEED_DATA = 1, HAVE_DATA = 2, BLOCKS = 2, OWN = LOOPS, LOOKS = 300 };
typedef _Atomic uint64_t word;

struct Pool {
    uint32_t size; /* words of a block */
    word *blocks, readers[BLOCKS];
    int next, out;
};

struct Board {
    const struct Epoch *epoch;
    word *ticket, *pending, *status, *areas, *events;
    struct Pool *pools; /* by the place of the node */
    int place[NODES], driver;
    uint32_t required[NODES], ended[NODES];
    /* Lists of all nodes, one after the other, and where each begins. */
    uint16_t ins[LINKS], first_in[NODES + 1], outs[LINKS], first_out[NODES + 1];
    uint16_t targets[LINKS + 2 * NODES], first_target[NODES + 1];
};

static struct Board *boards;
static int loop_count, owner[NODES];
static struct { _Alignas(64) word ready; _Atomic int parked; } ways[LOOPS + 1];

static void add_target(struct Board *board, int *count, int target) {
    board->targets[(*count)++] = target;
    board->required[target]++;
}

static void find_lists(struct Board *board, int node, int *counts) {
    const struct Epoch *epoch = board->epoch;
    int place = board->place[node], seen[NODES] = {0};
    board->first_in[place] = counts[0];
    board->first_out[place] = counts[1];
    board->first_target[place] = counts[2];
    for (int i = 0; i < epoch->link_count; i++) {
        if (epoch->links[i].to == node) board->ins[counts[0]++] = i;
        if (epoch->links[i].from == node) board->outs[counts[1]++] = i;
        if (epoch->links[i].from == node) seen[epoch->links[i].to] = 1;
    }
    for (int p = 0; p < epoch->count; p++)
        if (p != board->driver && (seen[epoch->nodes[p]] || place == board->driver))
            add_target(board, &counts[2], p);
    add_target(board, &counts[2], board->driver);
}

static void make_pool(struct Pool *pool, const struct Node *node) {
    pool->size = (quantum * node->channels + 3) / 4;
    pool->blocks = room((size_t)BLOCKS * pool->size * sizeof(word));
    pool->out = -1;
}

static void make_board(struct Board *board, const struct Epoch *epoch) {
    int nodes_here = epoch->count, counts[3] = {0};
    size_t events = (size_t)epoch->cycles * (2 * nodes_here + 3);
    size_t all = 1 + 2 * nodes_here + epoch->link_count + epoch->cycles + events;
    word *words = room(all * sizeof(word));
    memset((void *)words, 0, all * sizeof(word)); /* the maker stores each word */
    board->epoch = epoch;
    board->ticket = words;
    board->pending = words + 1;
    board->status = board->pending + nodes_here;
    board->areas = board->status + nodes_here;
    board->events = board->areas + epoch->link_count + epoch->cycles;
    board->pools = room(nodes_here * sizeof(struct Pool));
    for (int p = 0; p < nodes_here; p++) board->place[epoch->nodes[p]] = p;
    board->driver = board->place[epoch->driver];
    for (int p = 0; p < nodes_here; p++) {
        int node = epoch->nodes[p];
        find_lists(board, node, counts);
        atomic_store(&board->status[p], NOT_TRIGGERED + 4 * epoch->first);
        if (board->first_out[p] < counts[1]) make_pool(&board->pools[p], &nodes[node]);
    }
    board->first_in[nodes_here] = counts[0];
    board->first_out[nodes_here] = counts[1];
    board->first_target[nodes_here] = counts[2];
    for (int i = 0; i < epoch->link_count; i++)
        atomic_store(&board->areas[i], NEED_DATA | 0xffffffffull << 32);
}

static void record(struct Board *board, uint64_t kind, uint64_t node, uint64_t cycle) {
    uint64_t at = atomic_fetch_add(board->ticket, 1);
    atomic_store(&board->events[at], kind + 1 + 8 * node + 512 * cycle);
}

static void futex(int way, int what, int value) {
    syscall(SYS_futex, &ways[way].parked, what | FUTEX_PRIVATE_FLAG, value, NULL, NULL, 0);
}

static void wake(int way) {
    if (atomic_load(&ways[way].parked) && atomic_exchange(&ways[way].parked, 0))
        futex(way, FUTEX_WAKE, 1);
}

static void tell(struct Board *board, int place, uint64_t cycle) {
    for (int i = board->first_target[place]; i < board->first_target[place + 1]; i++) {
        int target = board->targets[i];
        if (atomic_fetch_sub(&board->pending[target], 1) != 1) continue;
        atomic_store(&board->status[target], TRIGGERED + 4 * cycle);
        int way = owner[board->epoch->nodes[target]];
        if (way != OWN) atomic_fetch_or(&ways[way].ready, 1ull << target);
        if (loop_count) wake(way);
    }
}

static int claim(struct Board *board, int place, uint64_t cycle) {
    uint64_t wanted = TRIGGERED + 4 * cycle;
    return atomic_compare_exchange_strong(&board->status[place], &wanted, AWAKE + 4 * cycle);
}

/* The blocks of all links to a node, copied, and taken down. */
static int hear(struct Board *board, int place, const int16_t **heard, uint64_t *to) {
    int first = board->first_in[place], count = board->first_in[place + 1] - first;
    uint64_t ids[LINKS];
    for (int i = 0; i < count; i++) {
        int link = board->ins[first + i];
        struct Pool *pool = &board->pools[board->place[board->epoch->links[link].from]];
        ids[i] = atomic_load(&board->areas[link]) >> 32;
        word *from = pool->blocks + ids[i] * pool->size;
        heard[i] = (int16_t *)to;
        for (uint32_t k = 0; k < pool->size; k++) *to++ = atomic_load(&from[k]);
    }
    for (int i = 0; i < count; i++) {
        int link = board->ins[first + i];
        struct Pool *pool = &board->pools[board->place[board->epoch->links[link].from]];
        atomic_fetch_sub(&pool->readers[ids[i]], 1);
        atomic_store(&board->areas[link], NEED_DATA | ids[i] << 32);
    }
    return count;
}

/* A block of the node's pool is filled, and announced on all its links. */
static void announce(struct Board *board, int place, const uint64_t *from) {
    int first = board->first_out[place], end = board->first_out[place + 1];
    if (first == end) return;
    struct Pool *pool = &board->pools[place];
    for (int i = first; i < end; i++) (void)atomic_load(&board->areas[board->outs[i]]);
    if (pool->out >= 0 && atomic_load(&pool->readers[pool->out])) fail("a block is read", "");
    uint64_t id = pool->next;
    pool->next = (pool->next + 1) % BLOCKS;
    word *to = pool->blocks + id * pool->size;
    for (uint32_t k = 0; k < pool->size; k++) atomic_store(&to[k], from[k]);
    atomic_store(&pool->readers[id], end - first);
    pool->out = id;
    for (int i = first; i < end; i++)
        atomic_store(&board->areas[board->outs[i]], HAVE_DATA | id << 32);
}

static void run_node(struct Board *board, int place, uint64_t cycle) {
    static _Thread_local uint64_t *inputs;
    static _Thread_local int16_t *sum, *output;
    int at = board->epoch->nodes[place];
    struct Node *node = &nodes[at];
    record(board, START, at, cycle);
    if (at != DUMMY) {
        size_t block = 2 * (size_t)quantum * MOST_CHANNELS + 8;
        if (!inputs) inputs = room(NODES * block);
        if (!sum) sum = room(block);
        if (!output) output = room(block);
        const int16_t *heard[LINKS], *input = sum;
        int count = hear(board, place, heard, inputs);
        if (node->kind == SINK) keep(node, count, heard);
        else if (count == 1) input = heard[0];
        else if (count) add_up(count, heard, sum, (size_t)quantum * node->channels);
        if (node->kind != SINK) work(node, input, output, 0);
        announce(board, place, (uint64_t *)output);
    }
    atomic_store(&board->status[place], FINISHED + 4 * cycle);
    record(board, FINISH, at, cycle);
}

static int try_node(struct Board *board, int place) {
    uint64_t cycle = board->epoch->first + board->ended[place];
    if (board->ended[place] == board->epoch->cycles || !claim(board, place, cycle)) return 0;
    run_node(board, place, cycle);
    board->ended[place]++;
    tell(board, place, cycle);
    return 1;
}

struct Mine {
    int count, place[NODES];
};

static struct Mine find_mine(const struct Board *board, int way) {
    struct Mine mine = {0};
    for (int p = 0; p < board->epoch->count; p++)
        if (p != board->driver && owner[board->epoch->nodes[p]] == way)
            mine.place[mine.count++] = p;
    return mine;
}

static uint32_t fewest_ended(const struct Board *board, const struct Mine *mine) {
    uint32_t fewest = board->epoch->cycles;
    for (int i = 0; i < mine->count; i++)
        if (board->ended[mine->place[i]] < fewest) fewest = board->ended[mine->place[i]];
    return fewest;
}

/* Runs one node that is triggered, of those that have ended the fewest cycles: no other can be. */
static int turn(struct Board *board, const struct Mine *mine) {
    uint32_t fewest = fewest_ended(board, mine);
    for (int i = 0; i < mine->count; i++)
        if (board->ended[mine->place[i]] == fewest && try_node(board, mine->place[i])) return 1;
    return 0;
}

/* Runs what is ready; bits of the next epoch come only after the last node of this one. */
static int turn_of_ready(struct Board *board, int way) {
    uint64_t ready = atomic_load(&ways[way].ready);
    if (ready) ready = atomic_exchange(&ways[way].ready, 0);
    int ran = ready != 0;
    for (; ready; ready &= ready - 1) try_node(board, __builtin_ctzll(ready));
    return ran;
}

static void *run_loop(void *of) {
    int way = (int)(intptr_t)of;
    for (int e = 0; e < epoch_count; e++) {
        struct Board *board = &boards[e];
        struct Mine mine = find_mine(board, way);
        int idle = 0;
        while (fewest_ended(board, &mine) < board->epoch->cycles) {
            idle = turn_of_ready(board, way) ? 0 : idle + 1;
            if (idle <= LOOKS) { __builtin_ia32_pause(); continue; }
            atomic_store(&ways[way].parked, 1);
            if (!atomic_load(&ways[way].ready)) futex(way, FUTEX_WAIT, 1);
            atomic_store(&ways[way].parked, 0);
        }
    }
    return NULL;
}

static void begin(struct Board *board, uint64_t cycle) {
    record(board, BEGIN, 0, cycle);
    for (int p = 0; p < board->epoch->count; p++) {
        atomic_store(&board->pending[p], board->required[p]);
        atomic_store(&board->status[p], NOT_TRIGGERED + 4 * cycle);
    }
    tell(board, board->driver, cycle);
}

static void drive(struct Board *board, const struct Mine *mine, uint64_t cycle) {
    int driver = board->driver, idle = 0;
    begin(board, cycle);
    while (turn(board, mine), !claim(board, driver, cycle)) {
        if (!loop_count) continue;
        if (++idle <= LOOKS) { __builtin_ia32_pause(); continue; }
        atomic_store(&ways[OWN].parked, 1);
        if (atomic_load(&board->status[driver]) != TRIGGERED + 4 * cycle)
            futex(OWN, FUTEX_WAIT, 1);
        atomic_store(&ways[OWN].parked, 0);
    }
    run_node(board, driver, cycle);
    record(board, END, 0, cycle);
}

struct Event {
    uint32_t kind, node;
    uint64_t cycle;
};

/* The events of each board, and of all boards in one list. */
static void hand_out(void) {
    size_t all = 0;
    for (int e = 0; e < epoch_count; e++) all += atomic_load(boards[e].ticket);
    struct Event *history = room(all * sizeof(struct Event)), *to = history;
    for (int e = 0; e < epoch_count; e++) {
        size_t count = atomic_load(boards[e].ticket);
        struct Event *closed = room(count * sizeof(struct Event));
        for (size_t i = 0; i < count; i++) {
            uint64_t event = atomic_load_explicit(&boards[e].events[i], memory_order_relaxed);
            closed[i] = (struct Event){event & 7, event >> 3 & 63, event >> 9};
        }
        memcpy(to, closed, count * sizeof(struct Event));
        to += count;
    }
    if (all && history[all - 1].kind != END + 1) fail("the last event", "is no end");
}

void run_board(int loops) {
    pthread_t threads[LOOPS];
    loop_count = loops;
    boards = room(epoch_count * sizeof(struct Board));
    for (int i = 0; i < NODES; i++)
        owner[i] = loops && i < node_count ? (int)nodes[i].loop % loops : OWN;
    for (int e = 0; e < epoch_count; e++) owner[epochs[e].driver] = OWN;
    for (int e = 0; e < epoch_count; e++) make_board(&boards[e], &epochs[e]);
    for (int i = 0; i < loops; i++)
        pthread_create(&threads[i], NULL, run_loop, (void *)(intptr_t)i);
    for (int e = 0; e < epoch_count; e++) {
        struct Mine mine = find_mine(&boards[e], OWN);
        for (uint32_t c = 0; c < epochs[e].cycles; c++)
            drive(&boards[e], &mine, epochs[e].first + c);
    }
    for (int i = 0; i < loops; i++) pthread_join(threads[i], NULL);
    hand_out();
}
