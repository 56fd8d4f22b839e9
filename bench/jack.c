/* jack.c: JACK's mixing of as many ports at run time: TRACKS stereo clients of one process each hand the frames of a cycle, JACK adds what is
 * connected to one port, and a client more takes the sum as 16-bit PCM. The server runs freely (no clock). It prints the frames mixed and the
 * seconds by the clock; processor time is that of the server and of this process, which the caller reads.
 *   jack TRACKS FRAMES OUT */
#include <jack/jack.h>
#include <math.h>
#include <stdint.h>
#include <stdio.h>
#include <stdlib.h>
#include <string.h>
#include <time.h>
#include <unistd.h>

enum { MOST = 31 };
struct track { jack_client_t *client; jack_port_t *left, *right; const int16_t *pcm; size_t at, frames; };
static struct track tracks[MOST];
static jack_port_t *sum_left, *sum_right;
static int16_t *out;
static size_t wanted;
static volatile size_t done;

static int hand(jack_nframes_t n, void *arg)
{
    struct track *t = arg;
    float *l = jack_port_get_buffer(t->left, n), *r = jack_port_get_buffer(t->right, n);
    for (jack_nframes_t i = 0; i < n; i++) {
        size_t at = (t->at + i) % t->frames;
        l[i] = t->pcm[2 * at] / 32768.0f;
        r[i] = t->pcm[2 * at + 1] / 32768.0f;
    }
    t->at += n;
    return 0;
}

static int16_t clamped(float x)
{
    long v = lrintf(x * 32768.0f);
    return v > 32767 ? 32767 : v < -32768 ? -32768 : (int16_t)v;
}

static int take(jack_nframes_t n, void *arg)
{
    (void)arg;
    const float *l = jack_port_get_buffer(sum_left, n), *r = jack_port_get_buffer(sum_right, n);
    size_t at = done;
    for (jack_nframes_t i = 0; i < n && at < wanted; i++, at++) {
        out[2 * at] = clamped(l[i]);
        out[2 * at + 1] = clamped(r[i]);
    }
    done = at;
    return 0;
}

static void join(jack_client_t *c, jack_port_t *from, jack_port_t *to)
{
    if (jack_connect(c, jack_port_name(from), jack_port_name(to))) { fprintf(stderr, "no connection\n"); exit(1); }
}

int main(int argc, char **argv)
{
    int count = argc == 4 ? atoi(argv[1]) : 0;
    wanted = argc == 4 ? strtoul(argv[2], 0, 10) : 0;
    if (count < 1 || count > MOST || !wanted) { fprintf(stderr, "jack TRACKS FRAMES OUT\n"); return 2; }
    out = calloc(wanted, 4);
    jack_client_t *sink = jack_client_open("sink", JackNoStartServer, 0);
    if (!sink) { fprintf(stderr, "no server\n"); return 1; }
    jack_set_process_callback(sink, take, 0);
    sum_left = jack_port_register(sink, "left", JACK_DEFAULT_AUDIO_TYPE, JackPortIsInput, 0);
    sum_right = jack_port_register(sink, "right", JACK_DEFAULT_AUDIO_TYPE, JackPortIsInput, 0);
    for (int i = 0; i < count; i++) {
        struct track *t = &tracks[i];
        char name[16];
        int16_t *pcm = malloc(4 * 100000);
        snprintf(name, sizeof name, "track%d", i);
        for (size_t k = 0; k < 200000; k++) pcm[k] = (int16_t)(rand() % 4096 - 2048);
        t->pcm = pcm;
        t->frames = 100000;
        t->client = jack_client_open(name, JackNoStartServer, 0);
        if (!t->client) { fprintf(stderr, "no client\n"); return 1; }
        jack_set_process_callback(t->client, hand, t);
        t->left = jack_port_register(t->client, "left", JACK_DEFAULT_AUDIO_TYPE, JackPortIsOutput, 0);
        t->right = jack_port_register(t->client, "right", JACK_DEFAULT_AUDIO_TYPE, JackPortIsOutput, 0);
        jack_activate(t->client);
    }
    jack_activate(sink);
    for (int i = 0; i < count; i++) {
        join(sink, tracks[i].left, sum_left);
        join(sink, tracks[i].right, sum_right);
    }
    struct timespec from, to;
    done = 0;
    jack_set_freewheel(sink, 1);
    clock_gettime(CLOCK_MONOTONIC, &from);
    while (done < wanted) usleep(500);
    clock_gettime(CLOCK_MONOTONIC, &to);
    jack_set_freewheel(sink, 0);
    printf("%zu %.3f\n", wanted, (to.tv_sec - from.tv_sec) + (to.tv_nsec - from.tv_nsec) / 1e9);
    FILE *f = fopen(argv[3], "wb");
    fwrite(out, 4, wanted, f);
    fclose(f);
    for (int i = 0; i < count; i++) jack_client_close(tracks[i].client);
    jack_client_close(sink);
    return 0;
}
