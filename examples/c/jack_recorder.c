/*
 * jack_recorder.c: a client of JACK that records what jack.c plays, and compares it with the two voices mixed by plain arithmetic: from the first frame
 * that isn't silent each is equal, to the end of both.
 *
 *     jack_recorder SECONDS     those that jack.c is given; it says "ready" once it may be connected, and compares once it was connected and isn't any more
 *     gcc -std=c11 jack_recorder.c -ljack -lm
 *
 * It ends with 0 if all is equal, 1 if not, and 2 if not and the server was late, by its own report, so that JACK may have lost a period.
 */
#define _POSIX_C_SOURCE 200809L
#include <jack/jack.h>
#include <math.h>
#include <stdatomic.h>
#include <stdint.h>
#include <stdio.h>
#include <stdlib.h>
#include <time.h>

static const double PI = 3.14159265358979323846;
static const double tone_of[2] = {440, 660};

static jack_port_t *port[2];
static float *heard;             /* left, right, left, right, from the first frame that isn't silent */
static long room, count, beyond; /* frames of heard, and those that sound behind its room */
static long total, rate;         /* frames of a voice */
static atomic_int late;

/* Stores a period. */
static int process(jack_nframes_t frames, void *nothing)
{
    const float *left = jack_port_get_buffer(port[0], frames), *right = jack_port_get_buffer(port[1], frames);
    (void)nothing;
    for (jack_nframes_t i = 0; i < frames; i++) {
        int sounds = left[i] != 0 || right[i] != 0;
        if (count == room) {
            beyond += sounds;
        } else if (count > 0 || sounds) {
            heard[2 * count] = left[i];
            heard[2 * count++ + 1] = right[i];
        }
    }
    return 0;
}

static int was_late(void *nothing)
{
    (void)nothing;
    atomic_fetch_add(&late, 1);
    return 0;
}

static void wait_a_little(void)
{
    nanosleep(&(struct timespec){0, 20000000}, NULL);
}

/* A sample of a voice at half its gain, rounded down. */
static int sample(int voice, long at)
{
    if (at < 0 || at >= total)
        return 0;
    int whole = (int16_t)(12000 * sin(2 * PI * tone_of[voice] * (double)at / (double)rate));
    return (whole - (whole & 1)) / 2;
}

/* The voice that is heard first has its second sample there, as the first is silent; the other one has its second where the sound isn't the first alone. */
static long other_from(int first)
{
    long at = 0;
    while (at < count && heard[2 * at] == (float)sample(first, at + 1) / 32768)
        at++;
    return at;
}

/* The first frame that isn't the sum of both voices, or count. */
static long differs(int first, long from)
{
    long at = 0;
    for (; at < count; at++) {
        float sum = (float)(sample(first, at + 1) + sample(1 - first, at - from + 1)) / 32768;
        if (heard[2 * at] != sum || heard[2 * at + 1] != sum)
            break;
    }
    return at;
}

/* Whether all that was heard is the two voices, each whole. */
static int compare(void)
{
    long furthest = 0;
    for (int first = 0; first < 2; first++) {
        long from = other_from(first), at = differs(first, from);
        if (at == count && beyond == 0 && count >= from + total - 1) {
            printf("%ld frames, each the sum of two voices, %ld frames apart; reports of a late server: %d\n", from + total, from, atomic_load(&late));
            return 1;
        }
        furthest = at > furthest ? at : furthest;
    }
    printf("%ld frames of %ld are the sum of two voices, %ld sound behind them; reports of a late server: %d\n", furthest, count, beyond, atomic_load(&late));
    return 0;
}

int main(int words, char **word)
{
    jack_client_t *client = NULL;
    for (int i = 0; i < 500 && !client; i++, wait_a_little())
        client = jack_client_open("recorder", JackNoStartServer | JackUseExactName, NULL);
    if (!client) {
        puts("no server of JACK runs");
        return 1;
    }
    rate = (long)jack_get_sample_rate(client);
    total = (words > 1 ? strtol(word[1], NULL, 10) : 10) * rate;
    room = total + 2 * rate;
    heard = calloc((size_t)room, 2 * sizeof *heard);
    port[0] = jack_port_register(client, "left", JACK_DEFAULT_AUDIO_TYPE, JackPortIsInput, 0);
    port[1] = jack_port_register(client, "right", JACK_DEFAULT_AUDIO_TYPE, JackPortIsInput, 0);
    if (!heard || !port[0] || !port[1] || jack_set_process_callback(client, process, NULL) || jack_set_xrun_callback(client, was_late, NULL) || jack_activate(client)) {
        puts("JACK takes no client");
        return 1;
    }
    puts("ready");
    fflush(stdout);
    while (!jack_port_connected(port[1]))
        wait_a_little();
    while (jack_port_connected(port[1]))
        wait_a_little();
    jack_client_close(client); /* from here on nobody calls process */
    int equal = compare();
    free(heard);
    return equal ? 0 : atomic_load(&late) ? 2 : 1;
}
