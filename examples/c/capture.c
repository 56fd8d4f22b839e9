/*
 * capture.c: a recording whose reader is slower than its source. What finds no room is lost, and counted; what is read is what was put, in order.
 *
 *     capture [ROUNDS]     10,000 rounds, if not said otherwise
 *
 * Each round 256 frames come, as from a microphone, and up to 240 are read; the buffer has 512.
 */
#include "zeldorgacs.h"
#include <stdio.h>
#include <stdlib.h>
#include <string.h>

enum { BUFFER = 512, SUPPLIED = 256, ASKED = 240 };

/* The frames that were put and not read yet: what the recording must hand out. */
static int16_t queued[2 * BUFFER];
static size_t held = 0;

/* Reads once, and compares with what must come. How many frames came, or below 0 if they differ. */
static int64_t read_once(zg_listener *listener)
{
    int16_t samples[2 * ASKED];
    int64_t count = zg_listener_read(listener, samples, ASKED);
    if (count < 0)
        return count;
    if ((size_t)count > held || memcmp(samples, queued, 4 * (size_t)count) != 0)
        return -100;
    held -= (size_t)count;
    memmove(queued, queued + 2 * count, 4 * held);
    return count;
}

int main(int words, char **word)
{
    unsigned long rounds = words > 1 ? strtoul(word[1], NULL, 10) : 10000;
    zg_capture capture = ZG_INIT;
    zg_listener listener = ZG_INIT;
    if (zg_record_open(BUFFER, &capture, &listener) != 0) {
        puts("out of memory");
        return 1;
    }
    int16_t samples[2 * SUPPLIED];
    int64_t lost = 0, total = 0;
    for (unsigned long round = 0; round < rounds; round++) {
        for (int i = 0; i < 2 * SUPPLIED; i++)
            samples[i] = (int16_t)(round * 31 + (unsigned long)i);
        int64_t put = zg_capture_supply(&capture, samples, SUPPLIED);
        if (put < 0 || (size_t)put + held > BUFFER) {
            printf("a supply: %lld\n", (long long)put);
            return 1;
        }
        memcpy(queued + 2 * held, samples, 4 * (size_t)put);
        held += (size_t)put;
        lost += SUPPLIED - put;
        int64_t count = read_once(&listener);
        if (count < 0) {
            printf("a read: %lld\n", (long long)count);
            return 1;
        }
        total += count;
    }
    if (zg_capture_overrun(&capture) != lost || zg_listener_total(&listener) != total) {
        puts("the counts differ");
        return 1;
    }
    printf("supplied %lld read %lld lost %lld queued %zu\n", (long long)zg_capture_supplied(&capture), (long long)total, (long long)lost, held);
    zg_capture_close(&capture);
    zg_listener_close(&listener);
    return 0;
}
