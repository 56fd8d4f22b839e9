/*
 * mixers.c: the calls of mixers that the lines of standard input tell, as `mixers` prints them: each is made and compared with what its line wants. No
 * call but an open and a close may ask malloc for anything; in an open it fails at random, and then all is as before, to the byte. It is linked with
 * --wrap for malloc, realloc and free.
 *
 *     mixers 1000000 1 | ./mixers
 */
#include "zeldorgacs.h"
#include <inttypes.h>
#include <malloc.h>
#include <stdbool.h>
#include <stdio.h>
#include <stdlib.h>
#include <string.h>

enum { MOST = 1024, EDGE = 8 };

/* A mixer's handles: those whose calls the model makes, and those of a mixer beside. */
struct ends {
    zg_track track[ZG_MOST_TRACKS];
    zg_normal normal;
    zg_fast fast;
};

static struct ends our, spare;
static uint32_t frames;
static unsigned long line, failures;
static int16_t buffer[2 * (MOST + EDGE)], was[2 * (MOST + EDGE)];

/* The calls of malloc, realloc and free by the library: one allocation of `odds` fails, and that of a place; 0 for none. */
static bool inside, failed;
static long asked, taken, held, place; /* taken: allocations; held: bytes */
static uint64_t odds, chance;

void *__real_malloc(size_t size);
void *__real_realloc(void *at, size_t size);
void __real_free(void *at);

static bool fails(void)
{
    if (!inside)
        return false;
    chance = (chance * 1103515245 + 12345) % (1u << 31);
    asked++;
    if (++taken != place && (odds == 0 || (chance >> 8) % odds != 0))
        return false;
    failed = true;
    return true;
}

void *__wrap_malloc(size_t size)
{
    void *at = fails() ? NULL : __real_malloc(size);
    held += inside ? (long)malloc_usable_size(at) : 0;
    return at;
}

void *__wrap_realloc(void *at, size_t size)
{
    if (fails())
        return NULL;
    long before = (long)malloc_usable_size(at);
    void *got = __real_realloc(at, size);
    held += inside && got ? (long)malloc_usable_size(got) - before : 0;
    return got;
}

void __wrap_free(void *at)
{
    if (inside && at) {
        asked++;
        held -= (long)malloc_usable_size(at);
    }
    __real_free(at);
}

static void same(const char *what, int64_t said, int64_t wanted)
{
    if (said == wanted)
        return;
    printf("line %lu: %s is %" PRId64 " in place of %" PRId64 "\n", line, what, said, wanted);
    exit(1);
}

static int64_t number(void)
{
    int64_t it;
    if (scanf("%" SCNd64, &it) != 1)
        same("a line, which has no number where one is to be,", 0, 1);
    return it;
}

/* The call's answer. It asks malloc for nothing. */
static int64_t ended(int64_t answer)
{
    inside = false;
    same("the calls of malloc", asked, 0);
    return answer;
}

static void begin(void)
{
    asked = 0;
    inside = true;
}

/* Samples drawn from a number, as the model draws them. */
static void draw(uint64_t seed, size_t many)
{
    for (size_t i = 0; i < 2 * many; i++) {
        seed = (seed * 1103515245 + 12345) % (1u << 31);
        buffer[i] = (int16_t)(seed >> 8);
    }
}

/* An open in which memory may fail: then it says so. Whatever it refuses, nothing has changed. */
static int64_t tries(struct ends *of, const zg_mixer_spec *mixer, const zg_track_spec *specs, size_t many, int64_t wanted)
{
    struct ends before = *of;
    long held_before = held;
    asked = taken = 0;
    failed = false;
    inside = true;
    int64_t said = zg_mixer_open(mixer, specs, many, &of->normal, &of->fast, of->track);
    inside = false;
    same("an open", said, failed ? ZG_E_MEMORY : wanted);
    if (said == 0)
        return 0;
    same("the handles after an open that failed", memcmp(&before, of, sizeof before), 0);
    same("the bytes that are held after it", held, held_before);
    failures += failed;
    return said;
}

/* Closes all, each twice at times, in an order that a number tells. */
static void close_all(struct ends *of, uint64_t seed)
{
    enum { ALL = ZG_MOST_TRACKS + 2 };
    inside = true;
    for (size_t i = 0; i < ALL; i++) {
        size_t which = (i + seed) % ALL;
        for (uint64_t times = 0; times <= seed % 2; times++)
            if (which < ZG_MOST_TRACKS)
                zg_track_close(&of->track[which]);
            else if (which == ZG_MOST_TRACKS)
                zg_normal_close(&of->normal);
            else
                zg_fast_close(&of->fast);
    }
    inside = false;
}

/* An open: again, until memory is there. Or one that fails in the midst, at a place up to the last allocation that a mixer beside takes. */
static void opens(char letter)
{
    zg_mixer_spec mixer;
    zg_track_spec specs[ZG_MOST_TRACKS + 1];
    mixer.frames = (uint32_t)number();
    mixer.normal = (uint32_t)number();
    mixer.log = (uint32_t)number();
    size_t many = (size_t)number();
    uint64_t drawn = (uint64_t)number(), seed = (uint64_t)number();
    int64_t wanted = number();
    for (size_t i = 0; i < many; i++) {
        specs[i].fast = (uint8_t)number();
        specs[i].mono = (uint8_t)number();
        specs[i].scale = (uint16_t)number();
        specs[i].frames = (uint32_t)number();
    }
    chance = seed;
    if (letter == 'm') {
        long before = held;
        tries(&spare, &mixer, specs, many, 0);
        place = taken;
        close_all(&spare, seed);
        same("the bytes that a mixer beside leaves", held, before);
    }
    odds = drawn;
    int64_t said = tries(&our, &mixer, specs, many, wanted);
    place = 0;
    for (int more = 2; said == ZG_E_MEMORY && wanted != ZG_E_MEMORY; more--) {
        odds = more > 0 ? odds : 0;
        said = tries(&our, &mixer, specs, many, wanted);
    }
    odds = 0;
    same("an open in the end", said, wanted);
    if (said != 0)
        return;
    frames = mixer.frames;
    begin();
    same("the frames of a cycle", ended(zg_fast_frames(&our.fast)), frames);
}

static void writes(void)
{
    zg_track *to = &our.track[number()];
    size_t many = (size_t)number();
    draw((uint64_t)number(), many < MOST ? many : MOST);
    int64_t wanted = number();
    begin();
    same("a write", ended(zg_track_write(to, buffer, many)), wanted);
}

static void commands(char letter)
{
    zg_track *of = &our.track[number()];
    int64_t wanted = number(), said;
    begin();
    switch (letter) {
    case 's': said = zg_track_start(of); break;
    case 'p': said = zg_track_pause(of); break;
    case 't': said = zg_track_stop(of); break;
    case 'f': said = zg_track_flush(of); break;
    default: said = zg_track_remove(of);
    }
    same("a command", ended(said), wanted);
}

static void tells(void)
{
    zg_track *of = &our.track[number()];
    zg_track_info info, before;
    int64_t wanted = number();
    memset(&info, 0x55, sizeof info);
    before = info;
    begin();
    same("a status", ended(zg_track_status(of, &info)), wanted);
    if (wanted < 0) {
        same("what a closed track tells", memcmp(&before, &info, sizeof info), 0);
        return;
    }
    same("a life", info.life, number());
    same("drained", info.drained, number());
    same("the commands settled", info.settled, number());
    same("the flags", info.flags, number());
    same("the frames released", (int64_t)info.released, number());
}

static void gains(void)
{
    zg_track *of = &our.track[number()];
    uint16_t left = (uint16_t)number(), right = (uint16_t)number();
    int64_t wanted = number();
    begin();
    same("the gains", ended(zg_track_set_gains(of, left, right)), wanted);
}

static void turns(void)
{
    int64_t wanted = number();
    begin();
    same("a turn", ended(zg_normal_turn(&our.normal)), wanted);
}

/* A cycle into the buffer, which stays if it isn't mixed. */
static void cycles(void)
{
    int64_t wanted = number(), wanted_sum = number();
    uint32_t sum = 0;
    draw(line, MOST + EDGE);
    memcpy(was, buffer, sizeof was);
    begin();
    int64_t said = ended(zg_fast_cycle(&our.fast, buffer, frames));
    same("a cycle", said, wanted);
    size_t written = said == ZG_MIXED ? 2 * frames : 0;
    for (size_t i = 0; i < written; i += 2)
        sum = sum * 31 + ((uint32_t)(uint16_t)buffer[i] | (uint32_t)(uint16_t)buffer[i + 1] << 16) + 1;
    same("the sum of a cycle's frames", sum, wanted_sum);
    same("what stands behind them", memcmp(buffer + written, was + written, sizeof was - written * sizeof *was), 0);
}

/* A call on no handle, on one of another kind, or on a closed one. */
static void refused(void)
{
    zg_handle closed = {0, 0}, *of[3] = {NULL, &our.normal.handle, &closed};
    zg_track_info info;
    int64_t which = number(), how = number(), said = 0;
    if (how == 1 && which >= 9)
        of[1] = which < 11 ? &our.track[0].handle : &our.fast.handle;
    zg_track *it = (zg_track *)(void *)of[how];
    begin();
    switch (which) {
    case 0: said = zg_track_write(it, buffer, 3); break;
    case 1: said = zg_track_start(it); break;
    case 2: said = zg_track_pause(it); break;
    case 3: said = zg_track_stop(it); break;
    case 4: said = zg_track_flush(it); break;
    case 5: said = zg_track_remove(it); break;
    case 6: said = zg_track_set_gains(it, 0, 0); break;
    case 7: said = zg_track_status(it, &info); break;
    case 8: said = zg_fast_cycle((zg_fast *)(void *)of[how], buffer, 3); break;
    case 9: said = zg_fast_frames((zg_fast *)(void *)of[how]); break;
    case 10: said = zg_normal_turn((zg_normal *)(void *)of[how]); break;
    default: said = zg_normal_turns((zg_normal *)(void *)of[how]);
    }
    same("a call on a wrong handle", ended(said), ZG_E_HANDLE);
}

/* A cycle of a wrong length. */
static void wrong_length(void)
{
    size_t many = (size_t)number();
    int64_t wanted = number();
    begin();
    same("a cycle of a wrong length", ended(zg_fast_cycle(&our.fast, buffer, many)), wanted);
}

/* Closes one handle, so many times. */
static void closes(void)
{
    int64_t which = number(), times = number();
    inside = true;
    for (; times > 0; times--)
        if (which < ZG_MOST_TRACKS)
            zg_track_close(&our.track[which]);
        else if (which == ZG_MOST_TRACKS)
            zg_normal_close(&our.normal);
        else
            zg_fast_close(&our.fast);
    inside = false;
}

static void closes_all(void)
{
    close_all(&our, (uint64_t)number());
    same("the bytes that are left", held, 0);
}

int main(void)
{
    char letter;
    while (scanf(" %c", &letter) == 1) {
        line++;
        switch (letter) {
        case 'o':
        case 'm': opens(letter); break;
        case 'w': writes(); break;
        case 'i': tells(); break;
        case 'g': gains(); break;
        case 'n': turns(); break;
        case 'c': cycles(); break;
        case 'q': refused(); break;
        case 'b': wrong_length(); break;
        case 'k': closes(); break;
        case 'x': closes_all(); break;
        default: commands(letter);
        }
    }
    same("the bytes that are left", held, 0);
    printf("%lu calls of mixers, and %lu opens for which memory failed: each as the model has it\n", line, failures);
    return 0;
}
