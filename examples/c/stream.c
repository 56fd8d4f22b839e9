/*
 * stream.c: two threads, one stream. One thread writes numbered frames, the other one reads them and compares each.
 *
 *     stream [FRAMES]      10,000,000 frames, if not said otherwise
 */
#define _POSIX_C_SOURCE 200809L
#include "zeldorgacs.h"
#include <pthread.h>
#include <sched.h>
#include <stdio.h>
#include <stdlib.h>

enum { BUFFER = 2048, MOST = 256 };

static uint32_t total = 10000000;
static zg_client client = ZG_INIT;
static zg_server server = ZG_INIT;

static int16_t left_of(uint32_t number)
{
    return (int16_t)(number * 2654435761u >> 16);
}

static int16_t right_of(uint32_t number)
{
    return (int16_t)(number * 40503u ^ number >> 7);
}

/* Writes all frames, as many at a time as there is room for. The answer that stopped it, or 0. */
static int64_t write_all(void)
{
    int16_t samples[2 * MOST];
    uint32_t at = 0;
    while (at < total) {
        uint32_t count = total - at < MOST ? total - at : MOST;
        for (uint32_t i = 0; i < count; i++) {
            samples[2 * i] = left_of(at + i);
            samples[2 * i + 1] = right_of(at + i);
        }
        int64_t written = zg_client_write(&client, samples, count);
        if (written < 0)
            return written;
        if (written == 0)
            sched_yield(); /* full: a program with a clock would come back a period later */
        at += (uint32_t)written;
    }
    return 0;
}

/* Reads as many frames, and compares each. The answer that stopped it, or the number of a frame that differs, from 1, or 0. */
static int64_t read_all(void)
{
    int16_t samples[2 * MOST];
    uint32_t at = 0;
    while (at < total) {
        int64_t count = zg_server_read(&server, samples, MOST, NULL);
        if (count < 0)
            return count;
        if (count == 0)
            sched_yield(); /* empty: AudioFlinger would mix silence, and count an underrun */
        for (uint32_t i = 0; i < (uint32_t)count; i++)
            if (samples[2 * i] != left_of(at + i) || samples[2 * i + 1] != right_of(at + i))
                return (int64_t)at + i + 1;
        at += (uint32_t)count;
    }
    return 0;
}

static int64_t wrote;

static void *writer(void *nothing)
{
    wrote = write_all();
    return nothing;
}

int main(int words, char **word)
{
    if (words > 1)
        total = (uint32_t)strtoul(word[1], NULL, 10);
    if (zg_stream_open(BUFFER, &client, &server) != 0) {
        puts("out of memory");
        return 1;
    }
    pthread_t thread;
    if (pthread_create(&thread, NULL, writer, NULL) != 0) {
        puts("no thread");
        return 1;
    }
    int64_t differs = read_all();
    if (differs == 0)
        pthread_join(thread, NULL);
    if (differs != 0 || wrote != 0) {
        printf("stopped: read %lld, wrote %lld\n", (long long)differs, (long long)wrote);
        return 1;
    }
    zg_client_close(&client);
    zg_server_close(&server);
    printf("%u frames written, read and compared: all equal, in order\n", (unsigned)total);
    return 0;
}
