/*
 * jack.c: a client of JACK whose process callback is a cycle of the fast mixer. Two voices without ports, each on a thread of its own, write a tone
 * each to the library, which mixes them; JACK sees the sum, in two ports. So a cycle of JACK wakes one thread, however many voices there are.
 *
 *     jack [SECONDS [CLIENT]]     two tones of 10 seconds, if not said otherwise, to the inputs of CLIENT in place of the sound card's
 *     gcc -std=c11 -I$library/include jack.c -L$library/lib -lzeldorgacs -ljack -lpthread -lm
 *
 * It needs a server that runs, whose period has ZG_MOST_PERIOD frames at most, and ends with 0 if both tones were heard to their ends.
 */
#define _POSIX_C_SOURCE 200809L
#include "zeldorgacs.h"
#include <jack/jack.h>
#include <math.h>
#include <pthread.h>
#include <stdatomic.h>
#include <stdio.h>
#include <stdlib.h>
#include <string.h>
#include <time.h>

enum { VOICES = 2, BUFFER = 8192, CHUNK = 256 };

static const double PI = 3.14159265358979323846;
static const double tone_of[VOICES] = {440, 660};
static const zg_track_spec specs[VOICES] = {{1, 0, ZG_UNITY, BUFFER}, {0, 0, ZG_UNITY, BUFFER}}; /* one fast, one by way of the normal mixer */

static zg_track voice[VOICES] = {ZG_INIT, ZG_INIT};
static zg_normal normal = ZG_INIT;
static zg_fast fast = ZG_INIT;
static jack_port_t *port[2];
static uint32_t period, rate, total, periods; /* the last: the periods of a normal buffer */
static atomic_int over, said, peak, late;     /* said: the answer that stopped the callback, if one did; late: waits that took twice their time */
static atomic_ullong mixed;
static atomic_int drained[VOICES];

/* The greatest sample of a period, in the peak. */
static void hear(const int16_t *samples)
{
    int most = atomic_load(&peak);
    for (uint32_t i = 0; i < 2 * period; i++)
        if (abs(samples[i]) > most)
            most = abs(samples[i]);
    atomic_store(&peak, most);
    atomic_fetch_add(&mixed, period);
}

/* What JACK calls each period, on a thread of its own: a cycle of the fast mixer to the two ports, or silence. Nothing in it waits. */
static int process(jack_nframes_t frames, void *nothing)
{
    int16_t samples[2 * ZG_MOST_PERIOD];
    float *left = jack_port_get_buffer(port[0], frames), *right = jack_port_get_buffer(port[1], frames);
    int64_t answer = zg_fast_cycle(&fast, samples, frames); /* ZG_E_ARGUMENT if the server's period isn't the mixer's any more */
    (void)nothing;
    if (answer < 0 || answer == ZG_EXIT) {
        atomic_store(&said, (int)answer);
        atomic_store(&over, 1);
    }
    if (answer != ZG_MIXED) {
        memset(left, 0, frames * sizeof *left);
        memset(right, 0, frames * sizeof *right);
        return 0;
    }
    for (jack_nframes_t i = 0; i < frames; i++) {
        left[i] = (float)samples[2 * i] / 32768;
        right[i] = (float)samples[2 * i + 1] / 32768;
    }
    hear(samples);
    return 0;
}

/* The server has gone. */
static void gone(void *nothing)
{
    (void)nothing;
    atomic_store(&over, 1);
}

/* Waits as long as so many frames sound. */
static void wait_for(uint32_t frames)
{
    uint64_t nanoseconds = 1000000000ull * frames / rate;
    struct timespec time = {(time_t)(nanoseconds / 1000000000u), (long)(nanoseconds % 1000000000u)};
    jack_time_t before = jack_get_time();
    nanosleep(&time, NULL);
    if (jack_get_time() - before > 2 * nanoseconds / 1000)
        atomic_fetch_add(&late, 1);
}

/* Sends a command, once there is room for it. */
static void ask(zg_track *mine, int64_t (*command)(zg_track *))
{
    while (command(mine) == ZG_E_FULL && !atomic_load(&over))
        wait_for(periods * period);
}

/* A track that was without frames for too long was disabled: it is started again, as AudioTrack does. */
static void keep_on(zg_track *mine)
{
    zg_track_info info;
    if (zg_track_status(mine, &info) == 0 && info.flags & ZG_DISABLED)
        ask(mine, zg_track_start);
}

/* A voice: it fills its buffer, starts, writes its tone as it finds room, and removes its track once all of it was heard. */
static void *speak(void *place)
{
    zg_track *mine = place;
    double tone = tone_of[mine - voice];
    int16_t samples[2 * CHUNK];
    zg_track_info info = {0};
    zg_track_set_gains(mine, ZG_UNITY / 2, ZG_UNITY / 2);
    for (uint32_t at = 0; at < total && !atomic_load(&over);) {
        uint32_t count = total - at < CHUNK ? total - at : CHUNK;
        for (uint32_t i = 0; i < count; i++)
            samples[2 * i] = samples[2 * i + 1] = (int16_t)(12000 * sin(2 * PI * tone * (at + i) / rate));
        int64_t written = zg_track_write(mine, samples, count);
        if (written < 0)
            return NULL;
        if (written == 0 && at == BUFFER)
            ask(mine, zg_track_start);
        if (written == 0)
            wait_for(BUFFER / 4);
        at += (uint32_t)written;
        keep_on(mine);
    }
    ask(mine, zg_track_start); /* if it was disabled by now, or all has fitted its buffer, its last frames are heard all the same */
    ask(mine, zg_track_stop);
    while (zg_track_status(mine, &info) == 0 && !info.drained && !atomic_load(&over))
        wait_for(BUFFER / 4);
    atomic_store(&drained[mine - voice], info.drained != 0);
    ask(mine, zg_track_remove);
    return NULL;
}

/* The normal mixer's thread: turns until the pipe is full, twice in the time of a normal buffer, so that the fast mixer never waits for one. */
static void *turns(void *nothing)
{
    while (!atomic_load(&over)) {
        int64_t answer = zg_normal_turn(&normal);
        if (answer < 0 || answer == ZG_TURN_ENDED)
            break;
        if (answer != ZG_TURN_MIXED)
            wait_for(periods * period / 2);
    }
    return nothing;
}

/* A mixer of the server's period, whose normal buffer has 20 ms, as AudioFlinger's. Why there is none, or NULL. */
static const char *open_mixer(jack_client_t *client)
{
    period = jack_get_buffer_size(client);
    rate = jack_get_sample_rate(client);
    periods = (rate / 50 + period - 1) / period;
    if (periods > ZG_MOST_NORMAL)
        periods = ZG_MOST_NORMAL;
    zg_mixer_spec mixer = {period, periods, 1};
    switch (zg_mixer_open(&mixer, specs, VOICES, &normal, &fast, voice)) {
    case 0: return NULL;
    case ZG_E_MEMORY: return "out of memory";
    default: return "the server's period is too long for a mixer";
    }
}

/* The two ports, and from then on the callback; what is heard goes to the first two inputs of those ports, or of the sound card, if it has any. Whether JACK did it. */
static int join_in(jack_client_t *client, const char *ports)
{
    port[0] = jack_port_register(client, "left", JACK_DEFAULT_AUDIO_TYPE, JackPortIsOutput, 0);
    port[1] = jack_port_register(client, "right", JACK_DEFAULT_AUDIO_TYPE, JackPortIsOutput, 0);
    jack_on_shutdown(client, gone, NULL);
    if (!port[0] || !port[1] || jack_set_process_callback(client, process, NULL) != 0 || jack_activate(client) != 0)
        return 0;
    const char **inputs = jack_get_ports(client, ports, JACK_DEFAULT_AUDIO_TYPE, JackPortIsInput | (ports ? 0 : JackPortIsPhysical));
    for (int i = 0; inputs && i < 2 && inputs[i]; i++)
        jack_connect(client, jack_port_name(port[i]), inputs[i]);
    jack_free(inputs);
    return 1;
}

/* The voices and the turns, until the mixer has ended, the server has gone, or ten times as long as the tones: a server under load loses periods. */
static void play(void)
{
    pthread_t thread[VOICES + 1];
    int started = 0;
    while (started < VOICES && pthread_create(&thread[started], NULL, speak, &voice[started]) == 0)
        started++;
    if (started == VOICES && pthread_create(&thread[started], NULL, turns, NULL) == 0)
        started++;
    for (uint32_t waited = 0; started > VOICES && waited < 10 * (total + rate) && !atomic_load(&over); waited += rate / 10)
        wait_for(rate / 10);
    atomic_store(&over, 1);
    while (started > 0)
        pthread_join(thread[--started], NULL);
}

int main(int words, char **word)
{
    jack_client_t *client = jack_client_open("zeldorgacs", JackNoStartServer, NULL);
    if (!client) {
        puts("no server of JACK runs");
        return 1;
    }
    const char *refused = open_mixer(client);
    total = (words > 1 ? (uint32_t)strtoul(word[1], NULL, 10) : 10) * rate;
    if (!refused && !join_in(client, words > 2 ? word[2] : NULL))
        refused = "JACK takes no client";
    if (!refused)
        play();
    jack_client_close(client); /* from here on nobody calls process */
    for (int i = 0; i < VOICES; i++)
        zg_track_close(&voice[i]);
    zg_normal_close(&normal);
    zg_fast_close(&fast);
    if (refused) {
        puts(refused);
        return 1;
    }
    printf("%llu frames mixed in periods of %u, peak %d; voices heard to their ends: %d; the callback stopped at %d; waits that took twice their time: %d\n", atomic_load(&mixed), (unsigned)period,
           atomic_load(&peak), drained[0] + drained[1], atomic_load(&said), atomic_load(&late));
    return drained[0] && drained[1] && atomic_load(&said) == ZG_EXIT ? 0 : 1;
}
