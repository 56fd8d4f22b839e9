/*
 * threads.c: two threads, one stream, and random calls for some seconds: writes and reads of any length, flushes, gains, and pauses.
 *
 *     threads [SECONDS [SEED]]     60 seconds, if not said otherwise
 *
 * Each frame has its number, so the reader knows that frames come once, in order, and that none is missing but what a flush discarded: a gap
 * ends at the place of a flush that was asked for before. The gains are set in pairs, and never come mixed.
 */
#define _POSIX_C_SOURCE 200809L
#include "zeldorgacs.h"
#include <pthread.h>
#include <sched.h>
#include <stdatomic.h>
#include <stdbool.h>
#include <stdio.h>
#include <stdlib.h>
#include <time.h>

enum { MOST = 700, FLUSHES = 1 << 16 };

static zg_client client = ZG_INIT;
static zg_server server = ZG_INIT;
static atomic_bool over, ended;
/* The numbers of the frames that follow each flush, stored before the flush is asked for. */
static _Atomic uint32_t places[FLUSHES];
static atomic_uint flushes;
static int64_t refused;
static uint64_t written, writes, full;

static uint64_t next(uint64_t *state)
{
    *state ^= *state << 13;
    *state ^= *state >> 7;
    *state ^= *state << 17;
    return *state * 2685821657736338717u >> 11;
}

static void pause_at_times(uint64_t *state)
{
    uint64_t it = next(state) % 64;
    if (it == 0)
        nanosleep(&(struct timespec){0, (long)(next(state) % 200000)}, NULL);
    else if (it < 8)
        sched_yield();
}

static void *writer(void *seed)
{
    uint64_t state = *(uint64_t *)seed * 2 + 1;
    uint32_t at = 0;
    while (!atomic_load(&over)) {
        int16_t samples[2 * MOST];
        uint64_t kind = next(&state) % 256;
        int64_t answer = 0;
        if (kind == 0 && atomic_load(&flushes) < FLUSHES) {
            unsigned number = atomic_load(&flushes);
            atomic_store(&places[number], at);
            atomic_store(&flushes, number + 1);
            answer = zg_client_flush(&client);
            if (answer != (int64_t)number + 1)
                refused = answer == 0 ? -1000 : answer;
        } else if (kind < 4) {
            uint16_t gain = (uint16_t)(next(&state) % 0x1001);
            answer = zg_client_set_gains(&client, gain, (uint16_t)(0x1000 - gain));
        } else {
            size_t count = 1 + next(&state) % (next(&state) % 2 ? 16 : MOST);
            for (size_t i = 0; i < count; i++) {
                samples[2 * i] = (int16_t)(at + i);
                samples[2 * i + 1] = (int16_t)((at + i) >> 16);
            }
            answer = zg_client_write(&client, samples, count);
            writes++;
            full += answer == 0;
            if (answer > 0)
                at += (uint32_t)answer;
            else
                sched_yield();
        }
        if (answer < 0)
            refused = answer;
        if (refused != 0)
            break;
        pause_at_times(&state);
    }
    written = at;
    atomic_store(&ended, true);
    return NULL;
}

/* Whether a gap may end at this frame: a flush was asked for there, not before the last gap's. */
static bool is_place(uint32_t number, unsigned *from)
{
    unsigned count = atomic_load(&flushes);
    for (unsigned i = *from; i < count; i++)
        if (atomic_load(&places[i]) == number) {
            *from = i;
            return true;
        }
    return false;
}

static int stopped(const char *what, long long number, long long wanted)
{
    printf("%s: %lld in place of %lld\n", what, number, wanted);
    return 1;
}

int main(int words, char **word)
{
    long seconds = words > 1 ? strtol(word[1], NULL, 10) : 60;
    uint64_t seed = words > 2 ? strtoull(word[2], NULL, 10) : 1, state = seed * 2654435761u + 1;
    if (zg_stream_open(1 + (uint32_t)(next(&state) % 8192), &client, &server) != 0)
        return stopped("out of memory", 0, 0);
    pthread_t thread;
    if (pthread_create(&thread, NULL, writer, &seed) != 0)
        return stopped("no thread", 0, 0);
    time_t end = time(NULL) + seconds;
    uint64_t reads = 0, empty = 0, gaps = 0, taken = 0;
    uint32_t at = 0;
    unsigned from = 0;
    for (int quiet = 0; quiet < 3;) {
        int16_t samples[2 * MOST];
        size_t most = 1 + next(&state) % (next(&state) % 2 ? 16 : MOST);
        int64_t count = zg_server_read(&server, samples, most, NULL);
        reads++;
        if (count < 0 || (size_t)count > most)
            return stopped("a read", count, 0);
        for (int64_t i = 0; i < count; i++) {
            uint32_t number = (uint16_t)samples[2 * i] | (uint32_t)(uint16_t)samples[2 * i + 1] << 16;
            if (number != at) {
                if (i != 0 || number - at > 0x7fffffff || !is_place(number, &from))
                    return stopped("a frame", number, at);
                gaps++;
            }
            at = number + 1;
        }
        taken += (uint64_t)count;
        if (count == 0) {
            empty++;
            sched_yield();
            quiet += atomic_load(&ended);
        }
        if (next(&state) % 128 == 0) {
            int64_t gains = zg_server_gains(&server);
            if (gains != 0x10001000 && (gains & 0xffff) + (gains >> 16) != 0x1000)
                return stopped("the gains", gains, 0);
        }
        pause_at_times(&state);
        if (time(NULL) >= end)
            atomic_store(&over, true);
    }
    pthread_join(thread, NULL);
    if (refused != 0)
        return stopped("a call of the client", refused, 0);
    if (at > written)
        return stopped("the last frame", at, (long long)written);
    printf("%ld seconds: %llu frames written, %llu read, in order, each once, or before a flush; %u flushes, %llu gaps; writes %llu (full %llu), reads %llu (none %llu)\n", seconds, (unsigned long long)written,
           (unsigned long long)taken, atomic_load(&flushes), (unsigned long long)gaps, (unsigned long long)writes, (unsigned long long)full, (unsigned long long)reads, (unsigned long long)empty);
    zg_client_close(&client);
    zg_server_close(&server);
    return 0;
}
