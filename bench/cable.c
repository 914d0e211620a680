/* A ring of messages of 264 bytes between two threads, as plain C has it: `cable WAY ROUNDS`, as message_count does it. All atomic steps
   are sequentially consistent; each send, look and take draws a number from one counter, and the counter, the head and the tail have a line of
   64 bytes each, as there. `plain` draws none. */
#include <pthread.h>
#include <sched.h>
#include <stdatomic.h>
#include <stdint.h>
#include <stdio.h>
#include <stdlib.h>
#include <string.h>

enum { CELLS = 64 };

struct message { uint64_t words[33]; };

static struct {
    _Alignas(64) _Atomic uint64_t counter;
    _Alignas(64) _Atomic uint64_t head;
    _Alignas(64) _Atomic uint64_t tail;
    _Alignas(64) struct message cells[CELLS];
} *ring;

static int draws = 1;
static uint64_t count;

static uint64_t draw(void) { return draws ? atomic_fetch_add(&ring->counter, 1) : 0; }

static int send_once(uint64_t *sent, uint64_t number) {
    struct message message;
    for (int i = 0; i < 33; i++) message.words[i] = number;
    draw();
    if (*sent - atomic_load(&ring->head) == CELLS) return 0;
    ring->cells[*sent % CELLS] = message;
    atomic_store(&ring->tail, ++*sent);
    return 1;
}

static uint64_t look_once(uint64_t taken, uint64_t *shown) {
    draw();
    *shown = atomic_load(&ring->tail);
    return *shown - taken;
}

static int take_once(uint64_t *taken, uint64_t shown, uint64_t *sum) {
    if (*taken == shown) return 0;
    struct message message = ring->cells[*taken % CELLS];
    atomic_store(&ring->head, ++*taken);
    draw();
    for (int i = 0; i < 33; i++) *sum += message.words[i];
    return 1;
}

static void *send_all(void *nothing) {
    uint64_t sent = 0;
    while (sent < count) if (!send_once(&sent, sent)) sched_yield();
    return nothing;
}

static uint64_t take_all(void) {
    uint64_t taken = 0, shown = 0, sum = 0;
    while (taken < count) {
        if (!look_once(taken, &shown)) sched_yield();
        while (take_once(&taken, shown, &sum)) {}
    }
    return sum;
}

static uint64_t in_turns(void) {
    uint64_t sent = 0, taken = 0, shown = 0, sum = 0;
    for (uint64_t number = 0; number < count; number++) {
        send_once(&sent, number);
        look_once(taken, &shown);
        take_once(&taken, shown, &sum);
    }
    return sum;
}

int main(int argc, char **words) {
    if (argc < 3) return 2;
    count = strtoull(words[2], 0, 10) * 1000;
    draws = argc < 4 || strcmp(words[3], "plain");
    ring = aligned_alloc(64, (sizeof *ring + 63) / 64 * 64);
    memset(ring, 0, sizeof *ring);
    uint64_t sum;
    if (!strcmp(words[1], "threads")) {
        pthread_t sender;
        pthread_create(&sender, 0, send_all, 0);
        sum = take_all();
        pthread_join(sender, 0);
    } else sum = in_turns();
    printf("%llu\n", (unsigned long long)sum);
    return 0;
}
