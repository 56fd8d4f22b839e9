/*
 * tracks.c: a mixer with every party on a thread of its own, for some seconds: six clients, of which half ask for a slot of the fast mixer, write, pause,
 * stop, flush and start anew at random; the normal mixer makes its turns, and the fast mixer its cycles, as fast as the threads go. Whatever way the
 * threads fall together, all that was written and not flushed is heard once: the sums of the samples are equal.
 *
 *     tracks [SECONDS [SEED]]     10 seconds, if not said otherwise
 */
#define _POSIX_C_SOURCE 200809L
#include "zeldorgacs.h"
#include <pthread.h>
#include <sched.h>
#include <stdatomic.h>
#include <stdbool.h>
#include <stdio.h>
#include <stdlib.h>
#include <time.h>

enum { PERIOD = 64, NORMAL = 4, TRACKS = 6, FAST = 3, BUFFER = 1024, MOST = 300, LOUD = 5000 };

typedef struct client {
    zg_track *track;
    uint64_t state; /* of what is drawn */
    int64_t wanted[2];
    uint32_t commands; /* that were sent */
    uint64_t written, flushed, stops, flushes, pauses;
    int64_t refused; /* the answer that ended it, if one did */
} client;

static zg_track track[TRACKS];
static zg_normal normal;
static zg_fast fast;
static client clients[TRACKS];
static atomic_bool over, ended;
static atomic_ullong turned, cycled; /* how many turns and cycles there were */

static uint32_t below(client *mine, uint32_t end)
{
    mine->state ^= mine->state << 13;
    mine->state ^= mine->state >> 7;
    mine->state ^= mine->state << 17;
    return (uint32_t)(mine->state >> 32) % end;
}

/* Sends a command, once there is room for it. A refusal ends the client. */
static void ask(client *mine, int64_t (*command)(zg_track *))
{
    int64_t answer;
    while ((answer = command(mine->track)) == ZG_E_FULL && !atomic_load(&ended))
        sched_yield();
    if (answer < 0)
        mine->refused = answer;
    mine->commands++;
}

static zg_track_info info_of(client *mine)
{
    zg_track_info info = {0};
    int64_t answer = zg_track_status(mine->track, &info);
    if (answer < 0 || info.flags & ZG_INVALID)
        mine->refused = answer < 0 ? answer : ZG_E_DEAD;
    return info;
}

/* Waits for a life, once all commands sent are obeyed: what a track is told is of the normal mixer's last turn. */
static zg_track_info wait_for(client *mine, uint32_t life)
{
    for (;;) {
        zg_track_info info = info_of(mine);
        if ((info.life == life && info.settled == (mine->commands & 0xffffff)) || mine->refused || atomic_load(&ended))
            return info;
        sched_yield();
    }
}

/* Writes some frames, which are to be heard, or else will be flushed. */
static void write_some(client *mine, bool is_wanted)
{
    int16_t samples[2 * MOST];
    uint32_t count = 1 + below(mine, MOST);
    for (uint32_t i = 0; i < 2 * count; i++)
        samples[i] = (int16_t)((int32_t)below(mine, 2 * LOUD + 1) - LOUD);
    int64_t put = zg_track_write(mine->track, samples, count);
    if (put < 0) {
        mine->refused = put;
        return;
    }
    if (put == 0)
        sched_yield();
    mine->written += (uint64_t)put;
    mine->flushed += is_wanted ? 0 : (uint64_t)put;
    for (int64_t i = 0; i < put && is_wanted; i++) {
        mine->wanted[0] += samples[2 * i];
        mine->wanted[1] += samples[2 * i + 1];
    }
}

/* Plays for some writes, with pauses; a track that was disabled for want of frames is started again. All is heard before it ends. */
static void plays(client *mine)
{
    ask(mine, zg_track_start);
    for (uint32_t left = 1 + below(mine, 300); left > 0 && !mine->refused; left--) {
        write_some(mine, true);
        if (info_of(mine).flags & ZG_DISABLED)
            ask(mine, zg_track_start);
        if (below(mine, 100) == 0) {
            ask(mine, zg_track_pause);
            mine->pauses++;
            if (below(mine, 2) == 0)
                wait_for(mine, ZG_PAUSED);
            ask(mine, zg_track_start);
        }
    }
    ask(mine, zg_track_start);
    ask(mine, zg_track_stop);
    mine->stops++;
    if (!wait_for(mine, ZG_STOPPED).drained && !mine->refused && !atomic_load(&ended))
        mine->refused = ZG_E_CORRUPT;
}

/* Waits until a count has gone on by two. */
static void pass(atomic_ullong *count)
{
    unsigned long long from = atomic_load(count);
    while (atomic_load(count) < from + 2 && !atomic_load(&ended))
        sched_yield();
}

/* A track that has stopped may lie in the mix for some cycles more, until the fast mixer has the state without it. */
static void rests(void)
{
    for (int i = 0; i < 4; i++) {
        pass(&turned);
        pass(&cycled);
    }
}

/* A client: it plays, and at rest flushes at times what it writes. */
static void *speaks(void *place)
{
    client *mine = place;
    while (!atomic_load(&over) && !mine->refused) {
        plays(mine);
        if (below(mine, 2) == 0 && !mine->refused) {
            rests();
            write_some(mine, false);
            ask(mine, zg_track_flush);
            mine->flushes++;
            wait_for(mine, ZG_FLUSHED);
        }
    }
    ask(mine, zg_track_remove);
    return NULL;
}

static void *turns(void *nothing)
{
    while (!atomic_load(&ended)) {
        int64_t answer = zg_normal_turn(&normal);
        if (answer < 0 || answer == ZG_TURN_ENDED)
            break;
        atomic_fetch_add(&turned, 1);
        sched_yield();
    }
    return nothing;
}

/* Cycles until the mixer ends, or a minute after the clients should have: the sums of the two sides. Whether it ended. */
static bool hears(int64_t *heard, double seconds)
{
    struct timespec now;
    clock_gettime(CLOCK_MONOTONIC, &now);
    time_t until = now.tv_sec + (time_t)seconds;
    for (;;) {
        int16_t out[2 * PERIOD];
        int64_t answer = zg_fast_cycle(&fast, out, PERIOD);
        if (answer < 0 || answer == ZG_EXIT)
            return answer == ZG_EXIT;
        atomic_fetch_add(&cycled, 1);
        for (int i = 0; i < PERIOD && answer == ZG_MIXED; i++) {
            heard[0] += out[2 * i];
            heard[1] += out[2 * i + 1];
        }
        clock_gettime(CLOCK_MONOTONIC, &now);
        if (now.tv_sec >= until)
            atomic_store(&over, true);
        if (now.tv_sec >= until + 60)
            return false;
        sched_yield();
    }
}

int main(int words, char **word)
{
    double seconds = words > 1 ? strtod(word[1], NULL) : 10;
    uint64_t seed = words > 2 ? strtoull(word[2], NULL, 10) : 1;
    static const zg_mixer_spec mixer = {PERIOD, NORMAL, 10};
    zg_track_spec specs[TRACKS];
    pthread_t thread[TRACKS + 1];
    int64_t heard[2] = {0, 0}, wanted[2] = {0, 0};
    client all = {0};
    for (int i = 0; i < TRACKS; i++) {
        specs[i] = (zg_track_spec){i < FAST, 0, ZG_UNITY, BUFFER};
        clients[i] = (client){.track = &track[i], .commands = 1, .state = (seed * TRACKS + (uint64_t)i) * 2654435761u + 88172645463325252u};
    }
    if (zg_mixer_open(&mixer, specs, TRACKS, &normal, &fast, track) != 0)
        return 3;
    for (int i = 0; i < TRACKS; i++)
        pthread_create(&thread[i], NULL, speaks, &clients[i]);
    pthread_create(&thread[TRACKS], NULL, turns, NULL);
    bool has_ended = hears(heard, seconds);
    atomic_store(&ended, true);
    for (int i = 0; i <= TRACKS; i++)
        pthread_join(thread[i], NULL);
    for (int i = 0; i < TRACKS; i++) {
        zg_track_close(&track[i]);
        if (clients[i].refused)
            has_ended = false, fprintf(stderr, "tracks: client %d is ended by %d\n", i, (int)clients[i].refused);
        wanted[0] += clients[i].wanted[0];
        wanted[1] += clients[i].wanted[1];
        all.written += clients[i].written;
        all.flushed += clients[i].flushed;
        all.stops += clients[i].stops;
        all.flushes += clients[i].flushes;
        all.pauses += clients[i].pauses;
    }
    zg_normal_close(&normal);
    zg_fast_close(&fast);
    if (!has_ended || heard[0] != wanted[0] || heard[1] != wanted[1]) {
        fprintf(stderr, "tracks: the mixer %s; %lld and %lld were heard, %lld and %lld were to be\n", has_ended ? "ended" : "didn't end", (long long)heard[0], (long long)heard[1],
                (long long)wanted[0], (long long)wanted[1]);
        return 1;
    }
    printf("%llu frames of %d tracks written, %llu of them flushed, all others heard once; %llu stops, %llu flushes, %llu pauses\n", (unsigned long long)all.written, TRACKS,
           (unsigned long long)all.flushed, (unsigned long long)all.stops, (unsigned long long)all.flushes, (unsigned long long)all.pauses);
    return 0;
}
