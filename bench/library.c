/* The cost of the door: so many frames are written and read on one thread, ROUNDS times, over a buffer of 1,024 frames. All print the same check.
   library library FRAMES ROUNDS   by the calls of the library for C
   library cells FRAMES ROUNDS     by a ring of one producer and one consumer in C, with acquire and release, frame by frame
   library runs FRAMES ROUNDS      by the same ring, which copies by memcpy in at most two runs
   library jack FRAMES ROUNDS      by JACK's ring buffer, if compiled with -DWITH_JACK
   library mixer FRAMES ROUNDS     seven fast tracks of 8,192 frames are filled, and mixed by so many cycles of the library's mixer */
#include "zeldorgacs.h"
#include <stdatomic.h>
#include <stdio.h>
#include <stdlib.h>
#include <string.h>
#ifdef WITH_JACK
#include <jack/ringbuffer.h>
#endif

enum { ROOM = 1024, MOST = 256 };
typedef struct { int16_t left, right; } Frame;
static Frame frames[MOST], into[MOST];
static Frame cells[ROOM];
static _Atomic uint32_t front, rear;

/* Copies so many frames between the ring, from a place on, and a row. */
static inline void copy(Frame *row, uint32_t at, uint32_t n, int puts, int in_runs) {
    uint32_t from = at & (ROOM - 1), first = n < ROOM - from ? n : ROOM - from;
    if (in_runs && puts) {
        memcpy(cells + from, row, first * sizeof *row);
        memcpy(cells, row + first, (n - first) * sizeof *row);
    } else if (in_runs) {
        memcpy(row, cells + from, first * sizeof *row);
        memcpy(row + first, cells, (n - first) * sizeof *row);
    } else
        for (uint32_t i = 0; i < n; i++) {
            Frame *cell = cells + ((at + i) & (ROOM - 1));
            if (puts) *cell = row[i];
            else row[i] = *cell;
        }
}

static inline uint32_t put(uint32_t n, int in_runs) {
    uint32_t at = atomic_load_explicit(&rear, memory_order_relaxed);
    uint32_t room = ROOM - (at - atomic_load_explicit(&front, memory_order_acquire));
    if (n > room) n = room;
    copy(frames, at, n, 1, in_runs);
    atomic_store_explicit(&rear, at + n, memory_order_release);
    return n;
}

static inline uint32_t get(uint32_t n, int in_runs) {
    uint32_t at = atomic_load_explicit(&front, memory_order_relaxed);
    uint32_t there = atomic_load_explicit(&rear, memory_order_acquire) - at;
    if (n > there) n = there;
    copy(into, at, n, 0, in_runs);
    atomic_store_explicit(&front, at + n, memory_order_release);
    return n;
}

/* Each is a call, as those of a library are. */
static __attribute__((noinline)) uint32_t put_cells(uint32_t n) { return put(n, 0); }
static __attribute__((noinline)) uint32_t get_cells(uint32_t n) { return get(n, 0); }
static __attribute__((noinline)) uint32_t put_runs(uint32_t n) { return put(n, 1); }
static __attribute__((noinline)) uint32_t get_runs(uint32_t n) { return get(n, 1); }

static zg_client client = ZG_INIT;
static zg_server server = ZG_INIT;
static uint32_t put_library(uint32_t n) { return (uint32_t)zg_client_write(&client, (const int16_t *)frames, n); }
static uint32_t get_library(uint32_t n) { return (uint32_t)zg_server_read(&server, (int16_t *)into, n, NULL); }

#ifdef WITH_JACK
static jack_ringbuffer_t *ring;
static uint32_t put_jack(uint32_t n) { return jack_ringbuffer_write(ring, (const char *)frames, n * sizeof *frames) / sizeof *frames; }
static uint32_t get_jack(uint32_t n) { return jack_ringbuffer_read(ring, (char *)into, n * sizeof *into) / sizeof *into; }
#endif

static void fill_frames(void) {
    for (uint32_t i = 0; i < MOST; i++) {
        uint32_t word = i * 0x01234567u;
        frames[i] = (Frame){ (int16_t)(word & 0xffff), (int16_t)(word >> 16) };
    }
}

/* The rounds, by two calls: whether each moved all frames. */
static int turns(uint32_t (*write)(uint32_t), uint32_t (*read)(uint32_t), uint32_t n, uint32_t rounds) {
    uint32_t check = 0;
    for (uint32_t round = 0; round < rounds; round++) {
        if (write(n) != n || read(n) != n) return 1;
        check = check * 31 ^ ((uint16_t)into[n - 1].left | (uint32_t)(uint16_t)into[n - 1].right << 16);
    }
    printf("%u\n", check);
    return 0;
}

/* Seven fast tracks at unity, full of the frames, and so many cycles of them. */
static int cycles(uint32_t n, uint32_t rounds) {
    enum { TRACKS = 7 };
    static zg_normal normal;
    static zg_fast fast;
    static zg_track track[TRACKS];
    const zg_mixer_spec mixer = { n, 4, 1 };
    zg_track_spec specs[TRACKS];
    uint32_t check = 0;
    for (int i = 0; i < TRACKS; i++) specs[i] = (zg_track_spec){ 1, 0, ZG_UNITY, ZG_MOST_BUFFER };
    if (zg_mixer_open(&mixer, specs, TRACKS, &normal, &fast, track)) return 1;
    for (int i = 0; i < TRACKS; i++) {
        if (zg_track_start(&track[i])) return 1;
        for (uint32_t at = 0; at < ZG_MOST_BUFFER; at += MOST)
            if (zg_track_write(&track[i], (const int16_t *)frames, MOST) != MOST) return 1;
    }
    if (zg_normal_turn(&normal) != ZG_TURNED) return 1;
    for (uint32_t round = 0; round < rounds; round++) {
        if (zg_fast_cycle(&fast, (int16_t *)into, n) != ZG_MIXED) return 1;
        check = check * 31 ^ ((uint16_t)into[n - 1].left | (uint32_t)(uint16_t)into[n - 1].right << 16);
    }
    printf("%u\n", check);
    return 0;
}

int main(int words, char **word) {
    uint32_t n = words == 4 ? strtoul(word[2], 0, 10) : 0, rounds = words == 4 ? strtoul(word[3], 0, 10) : 0;
    if (n < 1 || n > MOST) { fprintf(stderr, "library WHAT FRAMES ROUNDS\n"); return 2; }
    fill_frames();
    if (!strcmp(word[1], "mixer")) return cycles(n, rounds);
    if (zg_stream_open(ROOM, &client, &server)) return 1;
    if (!strcmp(word[1], "library")) return turns(put_library, get_library, n, rounds);
    if (!strcmp(word[1], "cells")) return turns(put_cells, get_cells, n, rounds);
    if (!strcmp(word[1], "runs")) return turns(put_runs, get_runs, n, rounds);
#ifdef WITH_JACK
    ring = jack_ringbuffer_create(2 * ROOM * sizeof *frames); /* it holds one byte less than it is made for */
    if (!strcmp(word[1], "jack")) return !ring || turns(put_jack, get_jack, n, rounds);
#endif
    return 2;
}
