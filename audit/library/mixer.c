/*
 * mixer.c: the calls of a mixer, on one thread: each refusal, each export with each wrong handle, lengths and places of samples that don't fit, an open
 * in which malloc fails at each place, periods to the sound, and each end of a count that can be reached. It is linked with --wrap for malloc, realloc and
 * free: no call but an open and a close may reach them.
 *
 *     mixer [CYCLES]     1,000,000 cycles, if not said otherwise
 */
#include "zeldorgacs.h"
#include <stdbool.h>
#include <stdio.h>
#include <stdlib.h>
#include <string.h>

enum { FRAMES = 4, NORMAL = 1, TRACKS = 2, TURNS = 300000, MOST = 1024, EDGE = 8 };

static bool inside;
static long fails_at, asked, taken, live; /* asked: calls of the three; taken: allocations, of which one fails */

void *__real_malloc(size_t size);
void *__real_realloc(void *at, size_t size);
void __real_free(void *at);

static bool fails(void)
{
    asked += inside;
    return inside && ++taken == fails_at;
}

void *__wrap_malloc(size_t size)
{
    if (fails())
        return NULL;
    void *at = __real_malloc(size);
    live += inside && at;
    return at;
}

void *__wrap_realloc(void *at, size_t size)
{
    if (fails())
        return NULL;
    void *got = __real_realloc(at, size);
    live += inside && got && !at;
    return got;
}

void __wrap_free(void *at)
{
    if (inside && at) {
        asked++;
        live--;
    }
    __real_free(at);
}

static zg_track track[TRACKS];
static zg_normal normal;
static zg_fast fast;
static zg_client client;
static zg_server server;
static zg_capture capture;
static zg_listener listener;
static zg_setter setter;
static zg_player player;

/* The handles by their kinds. */
enum { A_CLIENT, A_SERVER, A_CAPTURE, A_LISTENER, A_SETTER, A_PLAYER, A_TRACK, A_NORMAL, A_FAST, KINDS };
static zg_handle *const handle_of[KINDS] = {&client.handle, &server.handle, &capture.handle, &listener.handle, &setter.handle, &player.handle, &track[0].handle, &normal.handle, &fast.handle};

static const zg_track_spec specs[TRACKS] = {{1, 0, ZG_UNITY, 8}, {0, 0, ZG_UNITY, 8}};
static const zg_mixer_spec usual = {FRAMES, NORMAL, 1};
static const int16_t written[6] = {1, -1, 2, -2, 3, -3};

static void stop(const char *what, long long got)
{
    fprintf(stderr, "mixer: %s: %lld\n", what, got);
    exit(1);
}

/* What a call answers, which asks malloc for nothing. */
#define CALL(want, call)                                        \
    do {                                                        \
        asked = 0;                                              \
        inside = true;                                          \
        long long got = (call);                                 \
        inside = false;                                         \
        if (got != (want))                                      \
            stop(#call, got);                                   \
        if (asked)                                              \
            stop(#call " asks malloc", asked);                  \
    } while (0)

static int64_t open_with(const zg_mixer_spec *mixer, const zg_track_spec *of, size_t count)
{
    asked = taken = 0;
    inside = true;
    int64_t answer = zg_mixer_open(mixer, of, count, &normal, &fast, track);
    inside = false;
    return answer;
}

static void close_all(void)
{
    inside = true;
    zg_track_close(&track[1]);
    zg_normal_close(&normal);
    zg_track_close(&track[0]);
    zg_fast_close(&fast);
    zg_fast_close(&fast);
    inside = false;
    if (live)
        stop("blocks that are left", live);
}

static bool leads_nowhere(const zg_handle *it)
{
    return it->tag == 0 && !it->at;
}

static bool is_closed(void)
{
    return leads_nowhere(&normal.handle) && leads_nowhere(&fast.handle) && leads_nowhere(&track[0].handle) && leads_nowhere(&track[1].handle);
}

/* An open that is refused for its arguments. */
static void refuses(const char *what, const zg_mixer_spec *mixer, const zg_track_spec *of, size_t count)
{
    int64_t answer = open_with(mixer, of, count);
    if (answer != ZG_E_ARGUMENT)
        stop(what, answer);
    if (live || !is_closed())
        stop("a refusal that leaves something", live);
}

static void refusals(void)
{
    static const zg_mixer_spec wrong[] = {{0, 1, 1}, {1025, 1, 1}, {4, 0, 1}, {4, 17, 1}, {4, 1, 0}, {4, 1, 100001}, {1024, 1, 2049}, {UINT32_MAX, UINT32_MAX, UINT32_MAX}};
    zg_track_spec bad[TRACKS] = {specs[0], specs[1]};
    for (size_t i = 0; i < sizeof wrong / sizeof *wrong; i++)
        refuses("a shape that doesn't fit", &wrong[i], specs, TRACKS);
    refuses("no shape", NULL, specs, TRACKS);
    refuses("no specs", &usual, NULL, TRACKS);
    /* some of these counts are those of two tracks or handles in bytes, modulo 2^64 */
    static const size_t counts[] = {0, ZG_MOST_TRACKS + 1, SIZE_MAX, SIZE_MAX / 2, SIZE_MAX / 8 + 1 + TRACKS, SIZE_MAX / 16 + 1 + TRACKS};
    for (size_t i = 0; i < sizeof counts / sizeof *counts; i++)
        refuses("a count of tracks", &usual, specs, counts[i]);
    CALL(ZG_E_ARGUMENT, zeldorgacs_mixer_open(&usual, specs, 0, &normal.handle, &fast.handle, &track[0].handle, 0));
    CALL(ZG_E_ARGUMENT, zeldorgacs_mixer_open(&usual, specs, TRACKS, &normal.handle, &fast.handle, &track[0].handle, TRACKS - 1));
    CALL(ZG_E_ARGUMENT, zeldorgacs_mixer_open(&usual, specs, TRACKS - 1, &normal.handle, &fast.handle, &track[0].handle, TRACKS));
    CALL(ZG_E_HANDLE, zg_mixer_open(&usual, specs, TRACKS, NULL, &fast, track));
    CALL(ZG_E_HANDLE, zg_mixer_open(&usual, specs, TRACKS, &normal, NULL, track));
    CALL(ZG_E_HANDLE, zg_mixer_open(&usual, specs, TRACKS, &normal, &fast, NULL));
    bad[1].frames = 0;
    refuses("a track of no frames", &usual, bad, TRACKS);
    bad[1].frames = ZG_MOST_BUFFER + 1;
    refuses("a track of too many", &usual, bad, TRACKS);
    bad[1] = specs[1];
    bad[0].scale = ZG_UNITY + 1;
    refuses("a scale above unity", &usual, bad, TRACKS);
}

static long places; /* the allocations of an open */

static void out_of_memory(void)
{
    for (fails_at = 1;; fails_at++) {
        int64_t answer = open_with(&usual, specs, TRACKS);
        if (answer == 0)
            break;
        if (answer != ZG_E_MEMORY || live || !is_closed())
            stop("malloc fails at", fails_at);
    }
    places = fails_at - 1;
    fails_at = 0;
    close_all();
}

/* What the calls below may write to. */
static struct {
    int16_t samples[2 * FRAMES];
    zg_track_info info;
    int64_t number;
} out;

/* Each export that takes a handle: the kind that it wants, its name, and its other arguments. */
#define EXPORTS(X)                                          \
    X(A_CLIENT, zg_client_write, out.samples, 3)            \
    X(A_CLIENT, zg_client_flush)                            \
    X(A_CLIENT, zg_client_set_gains, 1, 2)                  \
    X(A_CLIENT, zg_client_status)                           \
    X(A_CLIENT, zg_client_clear_disabled)                   \
    X(A_CLIENT, zg_client_released)                         \
    X(A_CLIENT, zg_client_flushes)                          \
    X(A_CLIENT, zg_client_frames)                           \
    X(A_SERVER, zg_server_read, out.samples, 3, &out.number) \
    X(A_SERVER, zg_server_available, &out.number)           \
    X(A_SERVER, zg_server_gains)                            \
    X(A_SERVER, zg_server_tally, 1)                         \
    X(A_SERVER, zg_server_invalidate)                       \
    X(A_SERVER, zg_server_disable)                          \
    X(A_SERVER, zg_server_set_status, 5)                    \
    X(A_SERVER, zg_server_consumed)                         \
    X(A_SERVER, zg_server_flush_seen)                       \
    X(A_SERVER, zg_server_frames)                           \
    X(A_CAPTURE, zg_capture_supply, out.samples, 3)         \
    X(A_CAPTURE, zg_capture_supplied)                       \
    X(A_CAPTURE, zg_capture_overrun)                        \
    X(A_LISTENER, zg_listener_read, out.samples, 3)         \
    X(A_LISTENER, zg_listener_total)                        \
    X(A_SETTER, zg_setter_set, 0, 0, 0)                     \
    X(A_PLAYER, zg_player_play, 1, 2, out.samples, 3, &out.number) \
    X(A_TRACK, zg_track_write, out.samples, 3)              \
    X(A_TRACK, zg_track_start)                              \
    X(A_TRACK, zg_track_pause)                              \
    X(A_TRACK, zg_track_stop)                               \
    X(A_TRACK, zg_track_flush)                              \
    X(A_TRACK, zg_track_remove)                             \
    X(A_TRACK, zg_track_set_gains, 1, 2)                    \
    X(A_TRACK, zg_track_status, &out.info)                  \
    X(A_NORMAL, zg_normal_turn)                             \
    X(A_NORMAL, zg_normal_turns)                            \
    X(A_FAST, zg_fast_cycle, out.samples, FRAMES)           \
    X(A_FAST, zg_fast_frames)

#define FUNCTION(kind, name, ...) \
    static int64_t on_##name(void *it) { return name(it, ##__VA_ARGS__); }
#define ROW(kind, name, ...) {kind, #name, on_##name},
EXPORTS(FUNCTION)
static const struct {
    int kind;
    const char *name;
    int64_t (*call)(void *it);
} exports[] = {EXPORTS(ROW)};

/* The closes. Each closes a handle of any kind. */
#define CLOSE(name) \
    static void on_##name##_close(void *it) { name##_close(it); }
CLOSE(zg_client) CLOSE(zg_server) CLOSE(zg_capture) CLOSE(zg_listener) CLOSE(zg_setter) CLOSE(zg_player) CLOSE(zg_track) CLOSE(zg_normal) CLOSE(zg_fast)
static void (*const closes[KINDS])(void *it) = {on_zg_client_close, on_zg_server_close, on_zg_capture_close, on_zg_listener_close, on_zg_setter_close,
                                                on_zg_player_close, on_zg_track_close, on_zg_normal_close, on_zg_fast_close};

/* An end of each kind. What the handles led to is closed by that. */
static void open_all(void)
{
    inside = true;
    int64_t answer = zg_stream_open(8, &client, &server) | zg_record_open(8, &capture, &listener) | zg_static_open(written, 3, &setter, &player);
    answer |= zg_mixer_open(&usual, specs, 1, &normal, &fast, track);
    inside = false;
    if (answer)
        stop("an open of each kind", answer);
}

/* A call with a wrong handle, which changes nothing that it is given. */
static void is_refused(size_t which, zg_handle *it)
{
    zg_handle before = {0, 0};
    if (it)
        before = *it;
    unsigned char was[sizeof out];
    memset(&out, 0x55, sizeof out);
    memcpy(was, &out, sizeof out);
    asked = 0;
    inside = true;
    int64_t answer = exports[which].call(it);
    inside = false;
    if (answer != ZG_E_HANDLE || asked || memcmp(was, &out, sizeof out) || (it && memcmp(&before, it, sizeof before)))
        stop(exports[which].name, answer);
}

/* Each export with no handle, with an end of each other kind, and with a handle of each kind that was closed twice. */
static void wrong_handles(void)
{
    enum { EXPORTS_THERE = sizeof exports / sizeof *exports };
    zg_track_info info;
    open_all();
    for (size_t i = 0; i < EXPORTS_THERE; i++) {
        is_refused(i, NULL);
        for (int kind = 0; kind < KINDS; kind++)
            if (kind != exports[i].kind)
                is_refused(i, handle_of[kind]);
    }
    /* the ends are as they were opened */
    CALL(0, zg_client_released(&client));
    CALL(0, zg_client_flushes(&client));
    CALL(0, zg_server_consumed(&server));
    CALL(0, zg_capture_supplied(&capture));
    CALL(0, zg_listener_total(&listener));
    CALL(1, zg_setter_set(&setter, 0, 0, 0));
    CALL(0, zg_normal_turns(&normal));
    CALL(FRAMES, zg_fast_frames(&fast));
    CALL(0, zg_track_status(&track[0], &info));
    if (info.life != ZG_ABSENT || info.drained || info.settled || info.flags || info.released)
        stop("a track that a wrong call has changed", info.life);
    for (int by = 0; by < KINDS; by++)
        for (int first = 0; first < KINDS; first++) {
            open_all();
            inside = true;
            for (int i = 0; i < 2 * KINDS; i++)
                closes[by](handle_of[(first + i) % KINDS]);
            closes[by](NULL);
            inside = false;
            for (int kind = 0; kind < KINDS; kind++)
                if (!leads_nowhere(handle_of[kind]))
                    stop("a close of another kind, by the number", by);
            if (live)
                stop("blocks that are left", live);
        }
    for (size_t i = 0; i < EXPORTS_THERE; i++)
        for (int kind = 0; kind < KINDS; kind++)
            is_refused(i, handle_of[kind]);
}

/* An open over handles that are open: what they led to is closed, of whatever kind it is. */
static void over_others(void)
{
    open_all();
    open_all();
    inside = true;
    int64_t answer = zg_mixer_open(&usual, specs, 1, (void *)&client, (void *)&server, (void *)&normal);
    inside = false;
    if (answer)
        stop("an open over other handles", answer);
    CALL(ZG_E_HANDLE, zg_client_released(&client));
    CALL(ZG_E_HANDLE, zg_normal_turns(&normal));
    CALL(0, zg_normal_turns((void *)&client));
    CALL(FRAMES, zg_fast_frames((void *)&server));
    CALL(0, zg_track_start((void *)&normal));
    inside = true;
    for (int kind = 0; kind < KINDS; kind++)
        closes[kind](handle_of[kind]);
    inside = false;
    if (live)
        stop("blocks that are left", live);
}

/* Each argument of a track and a cycle that doesn't fit; some lengths are those of FRAMES frames in samples or bytes, modulo 2^64. */
static void wrong_arguments(void)
{
    static const size_t lengths[] = {0, 1, FRAMES - 1, FRAMES + 1, 2 * FRAMES, MOST, MOST + 1, SIZE_MAX, SIZE_MAX / 2, SIZE_MAX / 2 + 1 + FRAMES, SIZE_MAX / 4, SIZE_MAX / 4 + 1 + FRAMES};
    static const uint16_t gains[][2] = {{ZG_UNITY + 1, 0}, {0, ZG_UNITY + 1}, {ZG_UNITY + 1, ZG_UNITY + 1}, {UINT16_MAX, 0}, {0, UINT16_MAX}};
    int16_t samples[2 * FRAMES] = {5, 6, 7, 8, 9, 10, 11, 12}, was[2 * FRAMES];
    memcpy(was, samples, sizeof was);
    if (open_with(&usual, specs, TRACKS))
        stop("an open", 0);
    for (size_t i = 0; i < sizeof lengths / sizeof *lengths; i++) {
        CALL(ZG_E_ARGUMENT, zg_fast_cycle(&fast, samples, lengths[i]));
        CALL(ZG_E_ARGUMENT, zg_fast_cycle(&fast, NULL, lengths[i]));
        CALL(lengths[i] ? ZG_E_ARGUMENT : 0, zg_track_write(&track[0], NULL, lengths[i]));
    }
    CALL(ZG_E_ARGUMENT, zg_fast_cycle(&fast, NULL, FRAMES));
    CALL(0, zg_track_write(&track[0], samples, 0));
    CALL(ZG_E_ARGUMENT, zg_track_status(&track[0], NULL));
    for (size_t i = 0; i < sizeof gains / sizeof *gains; i++)
        CALL(ZG_E_ARGUMENT, zg_track_set_gains(&track[0], gains[i][0], gains[i][1]));
    CALL(ZG_IDLE, zg_fast_cycle(&fast, samples, FRAMES));
    if (memcmp(samples, was, sizeof was))
        stop("samples of a cycle that isn't mixed", samples[0]);
    close_all();
}

/* One write and one cycle of a period, from and to places of some alignment: what was written is heard, and what stands behind it stays. */
static void one_period(uint8_t is_fast, uint32_t period, size_t length, size_t taken, size_t align)
{
    static _Alignas(16) int16_t from[2 * MOST + EDGE], to[2 * MOST + 2 * EDGE], wanted[2 * MOST + 2 * EDGE];
    zg_mixer_spec mixer = {period, 1, 1};
    zg_track_spec one = {is_fast, 0, ZG_UNITY, ZG_MOST_BUFFER};
    for (size_t i = 0; i < 2 * MOST + EDGE; i++)
        from[i] = (int16_t)(i * 7919 + 1);
    memset(to, 0x55, sizeof to);
    memset(wanted, 0x55, sizeof wanted);
    memset(wanted + align, 0, 4 * (size_t)period);
    memcpy(wanted + align, from + align, 4 * (taken < period ? taken : period));
    if (open_with(&mixer, &one, 1))
        stop("an open", 0);
    CALL((long long)taken, zg_track_write(&track[0], from + align, length));
    CALL(0, zg_track_start(&track[0]));
    CALL(is_fast ? ZG_TURNED : ZG_TURN_MIXED, zg_normal_turn(&normal));
    CALL(ZG_MIXED, zg_fast_cycle(&fast, to + align, period));
    if (memcmp(to, wanted, sizeof to))
        stop("a period of what was written, in frames", (long long)length);
    close_all();
}

/* Lengths of a write, of which the first frames are taken, beside odd periods and samples at odd places. */
static void lengths_and_places(void)
{
    static const size_t lengths[] = {0, 1, 3, 7, MOST - 1, MOST, MOST + 1, ZG_MOST_BUFFER, SIZE_MAX, SIZE_MAX / 2 + 1 + 3, SIZE_MAX / 4 + 1 + 3};
    static const uint32_t of_a_cycle[] = {1, 3, 7, 64, MOST - 1, MOST};
    for (size_t i = 0; i < sizeof lengths / sizeof *lengths; i++)
        for (size_t k = 0; k < sizeof of_a_cycle / sizeof *of_a_cycle; k++)
            for (size_t align = 0; align < EDGE; align++) {
                one_period(0, of_a_cycle[k], lengths[i], lengths[i] < MOST ? lengths[i] : MOST, align);
                one_period(UINT8_MAX, of_a_cycle[k], lengths[i], lengths[i] < MOST ? lengths[i] : MOST, align);
            }
}

static void periods(long cycles)
{
    int16_t out[2 * FRAMES];
    static const int16_t both[2 * FRAMES] = {2, -2, 4, -4, 6, -6, 0, 0};
    zg_track_info info;
    if (open_with(&usual, specs, TRACKS))
        stop("an open", 0);
    for (int i = 0; i < TRACKS; i++) {
        CALL(0, zg_track_start(&track[i]));
        CALL(3, zg_track_write(&track[i], written, 3));
    }
    CALL(ZG_TURN_MIXED, zg_normal_turn(&normal));
    CALL(ZG_MIXED, zg_fast_cycle(&fast, out, FRAMES));
    if (memcmp(out, both, sizeof out))
        stop("the first period, whose second frame is", out[2]);
    CALL(0, zg_track_status(&track[0], &info));
    if (info.life != ZG_ACTIVE || info.drained || info.settled != 2 || info.released != 3)
        stop("a life after a turn", info.life);
    for (long k = 0; k < cycles; k++)
        CALL(ZG_MIXED, zg_fast_cycle(&fast, out, FRAMES));
    for (int k = 1; k < TURNS; k++) {
        inside = true;
        int64_t answer = zg_normal_turn(&normal);
        inside = false;
        if (answer < 0)
            stop("a turn", k);
    }
    close_all();
}

static void commands(void)
{
    if (open_with(&usual, specs, TRACKS))
        stop("an open", 0);
    for (int k = 1; k < 64; k++)
        CALL(0, zg_track_pause(&track[0])); /* the opening is the first command */
    CALL(ZG_E_FULL, zg_track_pause(&track[0]));
    CALL(ZG_E_FULL, zg_track_flush(&track[0]));
    CALL(0, zg_track_pause(&track[1]));
    CALL(ZG_TURNED, zg_normal_turn(&normal));
    CALL(0, zg_track_remove(&track[0]));
    CALL(0, zg_track_remove(&track[1]));
    int16_t out[2 * FRAMES];
    int64_t turn = ZG_TURNED, cycle = ZG_IDLE;
    for (int k = 0; k < 10 && turn != ZG_TURN_ENDED; k++) {
        turn = zg_normal_turn(&normal);
        cycle = zg_fast_cycle(&fast, out, FRAMES);
    }
    if (turn != ZG_TURN_ENDED || cycle != ZG_EXIT)
        stop("a mixer that doesn't end", turn);
    close_all();
}

int main(int words, char **word)
{
    long cycles = words > 1 ? strtol(word[1], NULL, 10) : 1000000;
    refusals();
    out_of_memory();
    wrong_handles();
    over_others();
    wrong_arguments();
    lengths_and_places();
    periods(cycles);
    commands();
    printf("mixer: %ld cycles, %d turns, each refusal, an open without memory at %ld places, %zu exports with each wrong handle: as they should be\n", cycles, TURNS, places,
           sizeof exports / sizeof *exports);
    return 0;
}
