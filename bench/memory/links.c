/* What pp_holes and pp_pool do for one instance, in C: a table of cells, the count of the offsets in memory and the length of
 * their leading run, a block of bytes, and the order of use as links by number. Prints nanoseconds per call. */
#include <stdint.h>
#include <stdio.h>
#include <stdlib.h>
#include <string.h>
#include <time.h>

enum { CHUNK = 4096, CHUNKS = 4096, CALLS = 1000000, END = CHUNKS };
#define TOTAL ((uint64_t)CHUNKS * CHUNK)

/* Where a chunk's bytes belong, and how many of them are filled. */
static struct { uint32_t owner, index; uint16_t filled; } slots[CHUNKS];
/* The chunk of each part of the instance, and how much of it is filled: 0 where it is not in memory. */
static struct { uint32_t chunk; uint16_t filled; } cells[CHUNKS];
static unsigned char *block;
static uint64_t held, lead, reach;
/* All numbers on one ring, the used ones first, and behind them the free ones. */
static uint32_t next[CHUNKS + 1], previous[CHUNKS + 1], first_free, used;

static void link_up(uint32_t n, uint32_t behind) { next[n] = behind; previous[behind] = n; }

static void move_last(uint32_t n)
{
    link_up(previous[n], next[n]);
    uint32_t last = previous[first_free];
    link_up(n, first_free);
    link_up(last, n);
}

/* The first offset from `at` on that is not in memory. */
static uint64_t first_missing(uint64_t at)
{
    while (at < TOTAL && at % CHUNK < cells[at / CHUNK].filled) at = at / CHUNK * CHUNK + cells[at / CHUNK].filled;
    return at;
}

/* Adds bytes at an offset, and says how many joined. */
__attribute__((noinline)) static uint64_t add(uint32_t owner, uint64_t at, const void *bytes, uint64_t length)
{
    uint64_t joined = 0, from = at, end = at + length;
    const unsigned char *rest = bytes;
    while (from < end) {
        uint32_t index = from / CHUNK, front = from % CHUNK, filled = cells[index].filled;
        uint64_t run = end - from < CHUNK - front ? end - from : CHUNK - front;
        if (filled >= front && filled < front + run) {
            if (filled == 0) {
                if (used == END) break;
                uint32_t n = first_free;
                first_free = next[n];
                used++;
                slots[n].owner = owner;
                slots[n].index = index;
                slots[n].filled = 0;
                cells[index].chunk = n;
            } else {
                move_last(cells[index].chunk);
            }
            uint32_t n = cells[index].chunk;
            uint64_t count = front + run - filled;
            memcpy(block + (uint64_t)n * CHUNK + filled, rest + (filled - front), count);
            slots[n].filled += count;
            cells[index].filled += count;
            joined += count;
        }
        rest += run;
        from += run;
    }
    held += joined;
    lead = first_missing(lead);
    if (reach < end) reach = end;
    return joined;
}

__attribute__((noinline)) static void drop_chunk(uint32_t index)
{
    if (cells[index].filled != 0) {
        uint32_t n = cells[index].chunk;
        held -= cells[index].filled;
        cells[index].filled = 0;
        move_last(n);
        first_free = n;
        used--;
    }
    if ((uint64_t)index * CHUNK < lead) lead = (uint64_t)index * CHUNK;
    lead = first_missing(lead);
}

__attribute__((noinline)) static void touch(uint32_t index)
{
    if (cells[index].filled != 0) move_last(cells[index].chunk);
}

__attribute__((noinline)) static uint32_t oldest(void) { return slots[next[END]].index; }

static double now(void) { struct timespec t; clock_gettime(CLOCK_MONOTONIC, &t); return t.tv_sec * 1e9 + t.tv_nsec; }

/* A part of the instance, at random. */
static uint32_t some_place(void)
{
    static uint64_t seed = 1;
    seed = seed * 6364136223846793005u + 1442695040888963407u;
    return (seed >> 33) % CHUNKS;
}

int main(void)
{
    uint64_t sum = 0;
    block = malloc(TOTAL);
    if (block == NULL) return 1;
    for (uint32_t n = 0; n < CHUNKS; n++) link_up(n, n + 1);
    link_up(END, 0);
    for (uint32_t n = 0; n < CHUNKS; n++) sum += add(0, (uint64_t)n * CHUNK, "a", 1);
    double start = now();
    for (int c = 0; c < CALLS; c++) touch(some_place());
    double touched = now();
    for (int c = 0; c < CALLS; c++) {
        touch(some_place());
        sum += oldest();
    }
    double asked = now();
    for (int c = 0; c < CALLS; c++) {
        uint32_t index = some_place();
        drop_chunk(index);
        sum += add(0, (uint64_t)index * CHUNK, "a", 1);
    }
    double given = now();
    printf("touch %.1f\n", (touched - start) / CALLS);
    printf("touch_and_oldest %.1f\n", (asked - touched) / CALLS);
    printf("give_and_take %.1f\n", (given - asked) / CALLS);
    return sum == 0;
}
