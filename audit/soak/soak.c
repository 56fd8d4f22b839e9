/*
 * soak.c: a mixer that runs for long. Seven fast tracks and 24 by way of the normal mixer play, pause, stop, are flushed and start anew, in the same
 * lives, at random; a cycle of 64 frames each period, a turn before each fourth, and a log that is forgotten every 1,000 cycles. Beside each track
 * goes a plain model: what was written and not flushed is to be heard. In the end the sum of all samples that were mixed is the sum of those, each
 * track has released and settled what the model says, no call but the open and the closes has asked malloc for anything, and memory is what it was at
 * the beginning. It is linked with --wrap for malloc, realloc and free. Over an archive that counts the words that it loads and stores
 * (audit/library/unproved makes one) no cycle takes more steps than it may.
 *
 *     soak [CYCLES [SEED]]     3,000,000 cycles and the seed 1, if not said otherwise
 */
#include "zeldorgacs.h"
#include <malloc.h>
#include <stdbool.h>
#include <stdio.h>
#include <stdlib.h>

enum { PERIOD = 64, NORMAL = 4, LOG = 1000, BUFFER = 1024, FAST = 7, TRACKS = 31, MOST = 256, LOUD = 1000, PATIENCE = 400, QUIET = 32 };

/* The most words that a cycle of so many tracks loads and stores: af_fast's bound. */
enum { MOST_STEPS = (FAST + 1) * PERIOD + 7 * FAST + 6 };

/* What a client is at: it plays, is paused, waits until it has stopped, lets some periods pass, waits until what it wrote since is flushed. */
typedef enum { PLAYS, PAUSED, STOPS, RESTS, FLUSHES } phase;

typedef struct model {
    phase at;
    uint32_t left;     /* how many periods of this phase are left */
    uint32_t commands; /* how many commands were sent */
    uint64_t released; /* how many frames were written */
    uint64_t flushed;  /* how many of them were flushed */
    uint64_t stops;
    uint64_t flushes;
} model;

static zg_track track[TRACKS];
static zg_normal normal;
static zg_fast fast;
static model of[TRACKS];
static int64_t wanted[2], heard[2];
static uint64_t seed = 1;
static long asked, live, bytes; /* calls of malloc and its like by the library, and the blocks and bytes that it has */
static bool inside;
static bool is_over;
static uint64_t most_steps;

/* The words that were loaded and stored so far, if the archive counts them. */
extern uint64_t zeldorgacs_steps __attribute__((weak));

void *__real_malloc(size_t size);
void *__real_realloc(void *at, size_t size);
void __real_free(void *at);

void *__wrap_malloc(size_t size)
{
    void *at = __real_malloc(size);
    if (inside) {
        asked++;
        live += at != NULL;
        bytes += (long)malloc_usable_size(at);
    }
    return at;
}

void *__wrap_realloc(void *at, size_t size)
{
    long before = (long)malloc_usable_size(at);
    void *got = __real_realloc(at, size);
    if (inside) {
        asked++;
        live += got && !at;
        bytes += got ? (long)malloc_usable_size(got) - before : 0;
    }
    return got;
}

void __wrap_free(void *at)
{
    if (inside && at) {
        asked++;
        live--;
        bytes -= (long)malloc_usable_size(at);
    }
    __real_free(at);
}

static void stop(const char *what, long long got)
{
    fprintf(stderr, "soak: %s: %lld\n", what, got);
    exit(1);
}

static uint32_t random_below(uint32_t most)
{
    seed ^= seed << 13;
    seed ^= seed >> 7;
    seed ^= seed << 17;
    return (uint32_t)(seed >> 32) % most;
}

/* The pages that the process has in memory. */
static long pages(void)
{
    long all = 0, resident = 0;
    FILE *file = fopen("/proc/self/statm", "r");
    if (!file || fscanf(file, "%ld %ld", &all, &resident) != 2)
        stop("/proc/self/statm", 0);
    fclose(file);
    return resident;
}

/* A command of a track, which has room. */
static void ask(int i, int64_t (*command)(zg_track *))
{
    int64_t answer = command(&track[i]);
    if (answer)
        stop("a command", answer);
    of[i].commands++;
}

/* Up to so many frames, of which the model says whether they are to be heard. */
static void write_some(int i, uint32_t most, bool is_wanted)
{
    int16_t samples[2 * MOST];
    uint32_t count = random_below(most);
    for (uint32_t k = 0; k < 2 * count; k++)
        samples[k] = (int16_t)((int32_t)random_below(2 * LOUD + 1) - LOUD);
    int64_t written = zg_track_write(&track[i], samples, count);
    if (written < 0)
        stop("a write", written);
    of[i].released += (uint64_t)written;
    if (!is_wanted)
        of[i].flushed += (uint64_t)written;
    for (int64_t k = 0; k < written && is_wanted; k++) {
        wanted[0] += samples[2 * k];
        wanted[1] += samples[2 * k + 1];
    }
}

static zg_track_info info_of(int i)
{
    zg_track_info info;
    int64_t answer = zg_track_status(&track[i], &info);
    if (answer)
        stop("a status", answer);
    if (info.flags & ZG_INVALID)
        stop("a track is dead", i);
    return info;
}

/* The track starts. */
static void begins(int i)
{
    ask(i, zg_track_start);
    of[i].at = PLAYS;
    of[i].left = 1 + random_below(200);
}

/* The track plays on for a period: if it was disabled for want of frames it is started again. */
static void plays(int i)
{
    if (info_of(i).flags & ZG_DISABLED)
        ask(i, zg_track_start);
    if (of[i].left--) {
        write_some(i, 2 * PERIOD, true);
        return;
    }
    if (!is_over && random_below(4) == 0) {
        ask(i, zg_track_pause);
        of[i].at = PAUSED;
        of[i].left = random_below(50);
        return;
    }
    ask(i, zg_track_start); /* a track that is disabled in this very turn would not be drained */
    ask(i, zg_track_stop);
    of[i].stops++;
    of[i].at = STOPS;
    of[i].left = PATIENCE;
}

/* What is written to a track that is paused is heard later. */
static void is_paused(int i)
{
    if (of[i].left--)
        write_some(i, PERIOD, true);
    else
        begins(i);
}

/* Once all was consumed, some periods pass. */
static void stops(int i)
{
    zg_track_info info = info_of(i);
    if (of[i].left-- == 0)
        stop("a track doesn't stop, and is in the state", info.life);
    if (info.life == ZG_STOPPED && info.drained && info.settled == (of[i].commands & 0xffffff)) {
        of[i].at = RESTS;
        of[i].left = QUIET;
    }
}

/* What is written now is flushed, or heard once the track starts. */
static void rests(int i)
{
    if (of[i].left) {
        of[i].left--;
        return;
    }
    if (is_over)
        return;
    if (random_below(2) == 0) {
        write_some(i, MOST, true);
        begins(i);
        return;
    }
    write_some(i, MOST, false);
    ask(i, zg_track_flush);
    of[i].flushes++;
    of[i].at = FLUSHES;
    of[i].left = PATIENCE;
}

static void is_flushed(int i)
{
    zg_track_info info = info_of(i);
    if (of[i].left-- == 0)
        stop("a track isn't flushed, and is in the state", info.life);
    if (info.life == ZG_FLUSHED && info.settled == (of[i].commands & 0xffffff))
        begins(i);
}

static void client(int i)
{
    switch (of[i].at) {
    case PLAYS:
        plays(i);
        break;
    case PAUSED:
        is_paused(i);
        break;
    case STOPS:
        stops(i);
        break;
    case RESTS:
        rests(i);
        break;
    case FLUSHES:
        is_flushed(i);
        break;
    }
}

/* A cycle, which takes no more steps than it may. */
static int64_t cycle(int16_t *out)
{
    uint64_t before = &zeldorgacs_steps ? zeldorgacs_steps : 0;
    int64_t answer = zg_fast_cycle(&fast, out, PERIOD);
    uint64_t steps = &zeldorgacs_steps ? zeldorgacs_steps - before : 0;
    if (steps > MOST_STEPS)
        stop("steps of a cycle", (long long)steps);
    if (steps > most_steps)
        most_steps = steps;
    return answer;
}

/* One period: a turn before each fourth, a step of each client, and a cycle. */
static void period(long number)
{
    int16_t out[2 * PERIOD];
    int64_t answer = number % NORMAL ? 0 : zg_normal_turn(&normal);
    if (answer != ZG_TURNED && answer != ZG_TURN_MIXED)
        stop("a turn", answer);
    for (int i = 0; i < TRACKS; i++)
        client(i);
    answer = cycle(out);
    if (answer != ZG_MIXED && answer != ZG_IDLE && answer != ZG_COLD)
        stop("a cycle", answer);
    for (int k = 0; k < PERIOD && answer == ZG_MIXED; k++) {
        heard[0] += out[2 * k];
        heard[1] += out[2 * k + 1];
    }
}

static void opens(void)
{
    static const zg_mixer_spec mixer = {PERIOD, NORMAL, LOG};
    zg_track_spec specs[TRACKS];
    for (int i = 0; i < TRACKS; i++)
        specs[i] = (zg_track_spec){i < FAST, 0, ZG_UNITY, BUFFER};
    int64_t answer = zg_mixer_open(&mixer, specs, TRACKS, &normal, &fast, track);
    if (answer)
        stop("the open", answer);
    for (int i = 0; i < TRACKS; i++) {
        of[i].commands = 1;
        begins(i);
    }
}

/* All tracks come to rest. */
static bool all_rest(void)
{
    for (int i = 0; i < TRACKS; i++)
        if (of[i].at != RESTS || of[i].left)
            return false;
    return true;
}

static void compares(void)
{
    for (int side = 0; side < 2; side++)
        if (heard[side] != wanted[side]) {
            fprintf(stderr, "soak: side %d: %lld was heard, and %lld was to be\n", side, (long long)heard[side], (long long)wanted[side]);
            exit(1);
        }
    for (int i = 0; i < TRACKS; i++) {
        zg_track_info info = info_of(i);
        if (info.released != of[i].released)
            stop("frames released, of the track", i);
        if (info.settled != (of[i].commands & 0xffffff))
            stop("commands settled, of the track", i);
    }
}

static void closes(void)
{
    for (int i = 0; i < TRACKS; i++)
        zg_track_close(&track[i]);
    zg_normal_close(&normal);
    zg_fast_close(&fast);
}

/* What all tracks did, and what memory there was. */
static void tells(long cycles, long had, const long *resident)
{
    uint64_t released = 0, flushed = 0, stops_made = 0, flushes_made = 0;
    for (int i = 0; i < TRACKS; i++) {
        released += of[i].released;
        flushed += of[i].flushed;
        stops_made += of[i].stops;
        flushes_made += of[i].flushes;
    }
    printf("soak: %ld cycles of %d tracks: %llu frames written, %llu of them flushed in %llu flushes, all others heard: the sums are equal; %llu stops\n", cycles, TRACKS, (unsigned long long)released,
           (unsigned long long)flushed, (unsigned long long)flushes_made, (unsigned long long)stops_made);
    printf("soak: the library had %ld bytes from the open to the end, and asked for no more; pages of the process: %ld at the open, %ld at half, %ld at the end\n", had, resident[0], resident[1], resident[2]);
    if (most_steps)
        printf("soak: at most %llu steps a cycle, which may take %d\n", (unsigned long long)most_steps, MOST_STEPS);
}

int main(int words, char **word)
{
    long most = words > 1 ? strtol(word[1], NULL, 10) : 3000000, last = most, resident[3];
    seed = words > 2 ? strtoull(word[2], NULL, 10) * 2654435761u + 1 : 1;
    inside = true;
    opens();
    inside = false;
    resident[0] = resident[1] = pages();
    long had = bytes;
    asked = 0;
    for (long k = 0; k < most; k++) {
        if (k == most / 2)
            resident[1] = pages();
        inside = true;
        period(k);
        inside = false;
    }
    is_over = true;
    inside = true;
    while (!all_rest())
        period(last++);
    for (int k = 0; k < QUIET; k++)
        period(last++);
    compares();
    inside = false;
    resident[2] = pages();
    if (asked)
        stop("calls that asked for memory", asked);
    if (bytes != had)
        stop("bytes more than at the open", bytes - had);
    if (resident[2] - resident[0] > had / 4096 + 8)
        stop("pages more than the library asked for", resident[2] - resident[0]);
    inside = true;
    closes();
    inside = false;
    if (live || bytes)
        stop("blocks that are left", live);
    tells(last, had, resident);
    return 0;
}
