/*
 * tones.c: two clients, a mixer and a clock. Each client writes a tone on a thread of its own, the normal mixer makes its turns on another one, and
 * a callback makes a cycle each period. What is heard goes to standard output, as raw PCM.
 *
 *     tones [SECONDS] | aplay -f S16_LE -r 48000 -c 2          10 seconds, if not said otherwise
 *     tones [SECONDS] fast > tones.raw                         with no clock: as fast as the threads go
 */
#define _POSIX_C_SOURCE 200809L
#include "zeldorgacs.h"
#include <math.h>
#include <pthread.h>
#include <sched.h>
#include <stdatomic.h>
#include <stdio.h>
#include <stdlib.h>
#include <string.h>
#include <time.h>

enum { RATE = 48000, PERIOD = 240, NORMAL = 4, BUFFER = 4096, TRACKS = 2 }; /* periods of 5 ms, and normal buffers of 20 ms */

static const double PI = 3.14159265358979323846;
static const double tone_of[TRACKS] = {440, 660};

static zg_track track[TRACKS] = {ZG_INIT, ZG_INIT};
static zg_normal normal = ZG_INIT;
static zg_fast fast = ZG_INIT;
static atomic_int over;
static int has_clock = 1;
static uint32_t total = 10 * RATE;

/* Waits for so many microseconds, or lets another thread go first. */
static void wait_a_while(long microseconds)
{
    struct timespec time = {0, 1000 * microseconds};
    if (has_clock)
        nanosleep(&time, NULL);
    else
        sched_yield();
}

/* Sends a command, once there is room for it. */
static void ask(zg_track *mine, int64_t (*command)(zg_track *))
{
    while (command(mine) == ZG_E_FULL && !atomic_load(&over))
        wait_a_while(5000);
}

/* A track that was without frames for too long was disabled: it is started again, as AudioTrack does. */
static void keep_on(zg_track *mine)
{
    zg_track_info info;
    if (zg_track_status(mine, &info) == 0 && info.flags & ZG_DISABLED)
        ask(mine, zg_track_start);
}

/* A client: it writes its tone, as it finds room, and removes its track once all of it was heard. */
static void *client(void *place)
{
    zg_track *mine = place;
    double tone = tone_of[mine - track];
    int16_t samples[2 * PERIOD];
    zg_track_info info;
    zg_track_set_gains(mine, ZG_UNITY / 2, ZG_UNITY / 2);
    ask(mine, zg_track_start);
    for (uint32_t at = 0; at < total;) {
        for (uint32_t i = 0; i < PERIOD; i++)
            samples[2 * i] = samples[2 * i + 1] = (int16_t)(12000 * sin(2 * PI * tone * (at + i) / RATE));
        int64_t written = zg_track_write(mine, samples, PERIOD);
        if (written < 0)
            return NULL;
        if (written == 0)
            wait_a_while(5000);
        at += (uint32_t)written;
        keep_on(mine);
    }
    ask(mine, zg_track_start); /* if it was disabled by now, its last frames are heard all the same */
    ask(mine, zg_track_stop);
    while (zg_track_status(mine, &info) == 0 && !info.drained && !atomic_load(&over))
        wait_a_while(5000);
    ask(mine, zg_track_remove);
    return NULL;
}

/* The normal mixer's thread: a turn twice in the time of a normal buffer, so that the fast mixer never waits for one. A turn that comes early doesn't mix. */
static void *turns(void *nothing)
{
    while (!atomic_load(&over)) {
        int64_t answer = zg_normal_turn(&normal);
        if (answer < 0 || answer == ZG_TURN_ENDED)
            break;
        wait_a_while(10000);
    }
    return nothing;
}

/* What ALSA, JACK or a timer calls each period: the period's frames, or silence. Whether the mixer goes on. */
static int period(int16_t *out)
{
    int64_t answer = zg_fast_cycle(&fast, out, PERIOD);
    if (answer != ZG_MIXED)
        memset(out, 0, 4 * PERIOD);
    return answer >= 0 && answer != ZG_EXIT;
}

/* Periods on a clock, until the mixer ends or so many seconds more than the tones have gone. */
static void play(void)
{
    int16_t out[2 * PERIOD];
    struct timespec next;
    uint32_t most = has_clock ? total / PERIOD + 2 * RATE / PERIOD : UINT32_MAX;
    clock_gettime(CLOCK_MONOTONIC, &next);
    for (uint32_t k = 0; k < most && period(out); k++) {
        if (fwrite(out, 4, PERIOD, stdout) != PERIOD)
            break;
        next.tv_nsec += 1000000000L * PERIOD / RATE;
        if (next.tv_nsec >= 1000000000L) {
            next.tv_nsec -= 1000000000L;
            next.tv_sec++;
        }
        if (has_clock)
            clock_nanosleep(CLOCK_MONOTONIC, TIMER_ABSTIME, &next, NULL);
        else
            sched_yield();
    }
}

int main(int words, char **word)
{
    static const zg_track_spec specs[TRACKS] = {{1, 0, ZG_UNITY, BUFFER}, {0, 0, ZG_UNITY, BUFFER}}; /* one fast, one by way of the normal mixer */
    pthread_t thread[TRACKS + 1];
    if (words > 1)
        total = (uint32_t)(strtod(word[1], NULL) * RATE);
    has_clock = words < 3;
    static const zg_mixer_spec mixer = {PERIOD, NORMAL, 1};
    int64_t opened = zg_mixer_open(&mixer, specs, TRACKS, &normal, &fast, track);
    if (opened < 0) {
        fprintf(stderr, "tones: the mixer isn't opened: %d\n", (int)opened);
        return 1;
    }
    for (int i = 0; i < TRACKS; i++)
        pthread_create(&thread[i], NULL, client, &track[i]);
    pthread_create(&thread[TRACKS], NULL, turns, NULL);
    play();
    atomic_store(&over, 1);
    for (int i = 0; i <= TRACKS; i++)
        pthread_join(thread[i], NULL);
    for (int i = 0; i < TRACKS; i++)
        zg_track_close(&track[i]);
    zg_normal_close(&normal);
    zg_fast_close(&fast);
    return 0;
}
