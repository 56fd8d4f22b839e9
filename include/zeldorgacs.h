/*
 * zeldorgacs.h: a mixer of 16-bit PCM, and streams, recordings and static buffers between two threads. C11 and C++17, x86-64 Linux.
 *
 * WORDS. A frame is two samples of 16 bits, left and right; samples stand left, right, left, right. Counts are of frames, never of samples or
 * bytes. A gain is 4.12: 0x1000 is unity. What two threads share is a pair of ends; each end is used by one thread, and none waits for the other.
 *
 *   stream         zg_client, zg_server       AudioTrackClientProxy and AudioTrackServerProxy over one audio_track_cblk_t
 *   recording      zg_capture, zg_listener    RecordThread and AudioRecord: what finds no room is lost and counted
 *   static buffer  zg_setter, zg_player       StaticAudioTrackClientProxy and StaticAudioTrackServerProxy: a fixed sound with loops
 *   mixer          zg_track (1 to 32),        AudioTrack of each client, MixerThread and FastMixer: what the clients write on threads of their own
 *                  zg_normal, zg_fast         comes out mixed, period by period
 *
 * HANDLES. Each end lies behind a handle of two words, which begins as ZG_INIT: closed. An open call opens two, a close call closes one; what the
 * two ends share is freed with the second of them, whichever that is. Closing twice is harmless. Each call on a closed handle, or on one that
 * leads to an end of another kind, answers ZG_E_HANDLE and changes nothing.
 *
 * EACH CALL returns, and waits for nothing: no call locks, sleeps, yields or makes a system call, and none but _open and _close takes or gives
 * back memory. So all others may be made by a thread that must not be held up. A null pointer is answered, as each call says.
 *
 * YOU OWE, and nothing checks:
 *   - the samples' pointer is good for as many frames as you say, or ZG_MOST_FRAMES if that is fewer: readable, and writable if the call writes them;
 *   - what a call writes doesn't overlap what else it is given, and nobody else writes either during the call;
 *   - one call at a time for each handle. Another thread may go on with it once that is ordered: by a thread's start or join, a lock, or a
 *     sequentially consistent atomic;
 *   - nobody but this library reads, writes or copies the two words of an open handle, or writes what it allocated. An open handle that is
 *     overwritten, or goes out of life, is never freed;
 *   - malloc, realloc and free come from one allocator, and align each block to 16 if its size allows that;
 *   - no call in a signal handler, nor in the child of a fork of a process with threads;
 *   - a stack with 16 KB to spare.
 *
 * WHAT IS CLAIMED. The library is proved up to the C boundary: each function of the archive, for all arguments that keep what you owe, is safe
 * (it reads and writes only what it may), returns, and does what the contract of the method behind it says (crates/af_ends and
 * crates/af_mixer_ends), over every interleaving of the ends' steps. What a contract says of a call is in that call's comment here. That a
 * handle, with the end behind it, may go from one thread to another is proved too (Rust's Send).
 * Not proved: the program that calls; this header (a prototype that differs from the archive voids all, and the inline functions below, which
 * look for null pointers, are C); malloc; the compilers, which made the archive from the proved code; that a thread runs, and any time.
 */
#ifndef ZELDORGACS_H
#define ZELDORGACS_H

#include <stddef.h>
#include <stdint.h>

#ifdef __cplusplus
extern "C" {
#endif

/* Any handle: two words of the library's own. */
typedef struct zg_handle {
    uint64_t tag;
    void *at;
} zg_handle;

/* The handles by their kinds: the same two words, which the compiler distinguishes. */
typedef struct zg_client {
    zg_handle handle;
} zg_client;
typedef struct zg_server {
    zg_handle handle;
} zg_server;
typedef struct zg_capture {
    zg_handle handle;
} zg_capture;
typedef struct zg_listener {
    zg_handle handle;
} zg_listener;
typedef struct zg_setter {
    zg_handle handle;
} zg_setter;
typedef struct zg_player {
    zg_handle handle;
} zg_player;
typedef struct zg_track {
    zg_handle handle;
} zg_track;
typedef struct zg_normal {
    zg_handle handle;
} zg_normal;
typedef struct zg_fast {
    zg_handle handle;
} zg_fast;

/* A closed handle, of any kind. */
#define ZG_INIT {{0, 0}}

/* The most frames that one call takes. Of more, the first of them are taken. */
#define ZG_MOST_FRAMES 1024u
/* The most frames that a stream, a recording or a static buffer has. */
#define ZG_MOST_BUFFER 8192u
/* The gain 1, in 4.12. */
#define ZG_UNITY 0x1000u

/* A call answers 0 or more, as it says, or one of these. */
enum {
    ZG_E_ARGUMENT = -1, /* an argument is out of its range, or null */
    ZG_E_MEMORY = -2,   /* out of memory: only from _open, which then changed nothing */
    ZG_E_HANDLE = -3,   /* the handle is null, closed, or of another kind */
    ZG_E_DEAD = -4,     /* INVALID was seen: AudioTrack's DEAD_OBJECT */
    ZG_E_CORRUPT = -5,  /* this end is shut for good */
    ZG_E_LIMIT = -6,    /* this end has counted as far as it can: 2^62 frames, 2^63 - 1 settings, as many flushes as it can tell apart; see the call */
    ZG_E_FULL = -7      /* 64 commands of the track are on their way: the normal mixer's next turn takes them */
};

/* The most frames of a cycle, cycles of a normal buffer, and tracks of a mixer. */
#define ZG_MOST_PERIOD 1024u
#define ZG_MOST_NORMAL 16u
#define ZG_MOST_TRACKS 32u

/*
 * What a mixer is: the frames of a cycle, 1 to ZG_MOST_PERIOD; the cycles of a normal buffer, 1 to ZG_MOST_NORMAL; and how many cycles the fast mixer's
 * log has before it forgets them and begins again, 1 to 100000 with at most 2^21 frames together. Nothing here reads that log, so 1 will do; its
 * memory, 128 bytes for each of its frames and some 1,400 for each of its cycles, is taken at the open.
 */
typedef struct zg_mixer_spec {
    uint32_t frames;
    uint32_t normal;
    uint32_t log;
} zg_mixer_spec;

/*
 * What a track is: whether it asks for a slot of the fast mixer (AUDIO_OUTPUT_FLAG_FAST); whether its frames have one channel, the left; a scale of its
 * gains in 4.12, up to ZG_UNITY; and the frames of its buffer, 1 to ZG_MOST_BUFFER.
 */
typedef struct zg_track_spec {
    uint8_t fast;
    uint8_t mono;
    uint16_t scale;
    uint32_t frames;
} zg_track_spec;

/* What the normal mixer said of a track in its last turn, and what the client knows. */
typedef struct zg_track_info {
    uint32_t life;     /* one of those below */
    uint32_t drained;  /* 1 once a stop let all that was written be consumed, until a start */
    uint32_t settled;  /* how many commands were obeyed, modulo 2^24: the opening is the first */
    uint32_t flags;    /* ZG_UNDERRUN, ZG_INVALID, ZG_DISABLED, as they were before this call, which clears ZG_DISABLED */
    uint64_t released; /* the frames written so far (framesReleased) */
} zg_track_info;

/* The life of a track (AudioFlinger's track states). */
enum {
    ZG_ABSENT = 0, /* before the first turn */
    ZG_IDLE_TRACK = 1,
    ZG_ACTIVE = 2,
    ZG_PAUSING = 3,
    ZG_PAUSED = 4,
    ZG_RESUMING = 5,
    ZG_STOPPING_1 = 6,
    ZG_STOPPING_2 = 7,
    ZG_STOPPED = 8,
    ZG_FLUSHED = 9,
    ZG_SHUT = 15
};

/* What a turn and a cycle answer. */
enum {
    ZG_TURNED = 0, /* a turn that didn't mix: nothing plays through the normal mixer, or the pipe is full */
    ZG_TURN_MIXED = 1,
    ZG_TURN_ENDED = 2 /* all tracks were removed, and the fast mixer knows */
};
enum {
    ZG_MIXED = 0, /* the samples are written */
    ZG_IDLE = 1,  /* nothing plays: the samples stay */
    ZG_COLD = 2,  /* the first idle cycle after some that mixed: the samples stay */
    ZG_EXIT = 3   /* the mixer has ended: the samples stay */
};

/* The flags of a stream (CBLK_UNDERRUN, CBLK_INVALID, CBLK_DISABLED). */
enum {
    ZG_UNDERRUN = 0x01, /* frames were missing */
    ZG_INVALID = 0x04,  /* the stream is dead: the client is to open another one */
    ZG_DISABLED = 0x08  /* the server has disabled the stream: the client is to start it again */
};

/* The functions of the archive, which take no null pointer, and frames as pairs of samples. Call them by way of those below, which look for null. */
int64_t zeldorgacs_stream_open(uint32_t frames, zg_handle *client, zg_handle *server);
int64_t zeldorgacs_client_write(zg_handle *client, const int16_t *samples, size_t frames);
int64_t zeldorgacs_client_flush(zg_handle *client);
int64_t zeldorgacs_client_set_gains(zg_handle *client, uint16_t left, uint16_t right);
int64_t zeldorgacs_client_status(zg_handle *client);
int64_t zeldorgacs_client_clear_disabled(zg_handle *client);
int64_t zeldorgacs_client_released(zg_handle *client);
int64_t zeldorgacs_client_flushes(zg_handle *client);
int64_t zeldorgacs_client_frames(zg_handle *client);
int64_t zeldorgacs_server_read(zg_handle *server, int16_t *samples, size_t frames, int64_t *flushed);
int64_t zeldorgacs_server_available(zg_handle *server, int64_t *flushed);
int64_t zeldorgacs_server_gains(zg_handle *server);
int64_t zeldorgacs_server_tally(zg_handle *server, uint32_t missing);
int64_t zeldorgacs_server_invalidate(zg_handle *server);
int64_t zeldorgacs_server_disable(zg_handle *server);
int64_t zeldorgacs_server_set_status(zg_handle *server, uint32_t word);
int64_t zeldorgacs_server_consumed(zg_handle *server);
int64_t zeldorgacs_server_flush_seen(zg_handle *server);
int64_t zeldorgacs_server_frames(zg_handle *server);
int64_t zeldorgacs_record_open(uint32_t frames, zg_handle *capture, zg_handle *listener);
int64_t zeldorgacs_capture_supply(zg_handle *capture, const int16_t *samples, size_t frames);
int64_t zeldorgacs_capture_supplied(zg_handle *capture);
int64_t zeldorgacs_capture_overrun(zg_handle *capture);
int64_t zeldorgacs_listener_read(zg_handle *listener, int16_t *samples, size_t frames);
int64_t zeldorgacs_listener_total(zg_handle *listener);
int64_t zeldorgacs_static_open(const int16_t *samples, size_t frames, zg_handle *setter, zg_handle *player);
int64_t zeldorgacs_setter_set(zg_handle *setter, uint32_t start, uint32_t end, uint32_t count);
int64_t zeldorgacs_player_play(zg_handle *player, uint16_t left, uint16_t right, int16_t *samples, size_t frames, int64_t *number);
int64_t zeldorgacs_mixer_open(const zg_mixer_spec *mixer, const zg_track_spec *specs, size_t count, zg_handle *turns, zg_handle *cycles, zg_handle *tracks, size_t handles);
int64_t zeldorgacs_track_write(zg_handle *track, const int16_t *samples, size_t frames);
int64_t zeldorgacs_track_start(zg_handle *track);
int64_t zeldorgacs_track_pause(zg_handle *track);
int64_t zeldorgacs_track_stop(zg_handle *track);
int64_t zeldorgacs_track_flush(zg_handle *track);
int64_t zeldorgacs_track_remove(zg_handle *track);
int64_t zeldorgacs_track_set_gains(zg_handle *track, uint16_t left, uint16_t right);
int64_t zeldorgacs_track_status(zg_handle *track, zg_track_info *info);
int64_t zeldorgacs_normal_turn(zg_handle *normal);
int64_t zeldorgacs_normal_turns(zg_handle *normal);
int64_t zeldorgacs_fast_cycle(zg_handle *fast, int16_t *samples, size_t frames);
int64_t zeldorgacs_fast_frames(zg_handle *fast);
void zeldorgacs_close(zg_handle *handle);

/* What stands for the samples if there are none, so that the archive is given no null pointer. */
static inline int16_t *zg_no_samples(void)
{
    static int16_t none[2];
    return none;
}

/* How many of so many frames one call is given. */
static inline size_t zg_first_of(size_t frames)
{
    return frames < ZG_MOST_FRAMES ? frames : ZG_MOST_FRAMES;
}

/*
 * STREAMS: frames from one thread to another, in order.
 */

/*
 * Opens a stream for so many frames, 1 to ZG_MOST_BUFFER. What the two handles led to is closed, and they are not one.
 * 0; ZG_E_ARGUMENT if frames is out of range, ZG_E_MEMORY, ZG_E_HANDLE if a handle is null: then nothing has changed.
 */
static inline int64_t zg_stream_open(uint32_t frames, zg_client *client, zg_server *server)
{
    if (!client || !server)
        return ZG_E_HANDLE;
    return zeldorgacs_stream_open(frames, &client->handle, &server->handle);
}

/*
 * Writes the first of these frames, as many as there is room for before the end of the buffer: how many (obtainBuffer, and releaseBuffer). 0 if the
 * stream is full (WOULD_BLOCK), or frames is 0. After a short count a second call may find room again, at the start of the buffer.
 * ZG_E_DEAD, ZG_E_LIMIT, ZG_E_HANDLE; ZG_E_ARGUMENT if samples is null and frames isn't 0. ZG_E_CORRUPT never comes: this is proved.
 */
static inline int64_t zg_client_write(zg_client *client, const int16_t *samples, size_t frames)
{
    if (!client)
        return ZG_E_HANDLE;
    if (!frames)
        samples = zg_no_samples();
    if (!samples)
        return ZG_E_ARGUMENT;
    return zeldorgacs_client_write(&client->handle, samples, zg_first_of(frames));
}

/*
 * Asks that the frames written so far and not read yet be discarded (flush); the server's next look does that. How many times this client has asked;
 * or ZG_E_LIMIT, ZG_E_HANDLE.
 */
static inline int64_t zg_client_flush(zg_client *client)
{
    if (!client)
        return ZG_E_HANDLE;
    return zeldorgacs_client_flush(&client->handle);
}

/*
 * Sets the gains of the two sides, each in 4.12, 0 to ZG_UNITY (setVolumeLR). The library hands them to the server, and doesn't apply them.
 * 0; ZG_E_ARGUMENT if one is above unity, ZG_E_HANDLE.
 */
static inline int64_t zg_client_set_gains(zg_client *client, uint16_t left, uint16_t right)
{
    if (!client)
        return ZG_E_HANDLE;
    return zeldorgacs_client_set_gains(&client->handle, left, right);
}

/*
 * The status word that the server stored last, 0 before any; or ZG_E_HANDLE.
 */
static inline int64_t zg_client_status(zg_client *client)
{
    if (!client)
        return ZG_E_HANDLE;
    return zeldorgacs_client_status(&client->handle);
}

/*
 * Clears ZG_DISABLED, and answers all flags as they were before; or ZG_E_HANDLE.
 */
static inline int64_t zg_client_clear_disabled(zg_client *client)
{
    if (!client)
        return ZG_E_HANDLE;
    return zeldorgacs_client_clear_disabled(&client->handle);
}

/*
 * How many frames this client has written (framesReleased); or ZG_E_HANDLE.
 */
static inline int64_t zg_client_released(zg_client *client)
{
    if (!client)
        return ZG_E_HANDLE;
    return zeldorgacs_client_released(&client->handle);
}

/*
 * How many times it has asked for a flush; or ZG_E_HANDLE.
 */
static inline int64_t zg_client_flushes(zg_client *client)
{
    if (!client)
        return ZG_E_HANDLE;
    return zeldorgacs_client_flushes(&client->handle);
}

/*
 * For how many frames the stream was opened (frameCount); or ZG_E_HANDLE.
 */
static inline int64_t zg_client_frames(zg_client *client)
{
    if (!client)
        return ZG_E_HANDLE;
    return zeldorgacs_client_frames(&client->handle);
}

/* Closes the handle, if it is open. */
static inline void zg_client_close(zg_client *client)
{
    if (client)
        zeldorgacs_close(&client->handle);
}

/*
 * Reads as many frames as there are, up to so many: how many (obtainBuffer, and releaseBuffer). 0 if there are none, or frames is 0. What stands
 * in samples behind them stays. A flush is noticed first: then this call reads none, and *flushed says how many frames it discarded, and else -1.
 * flushed may be null. It stays if the call is refused.
 * ZG_E_CORRUPT, ZG_E_HANDLE; ZG_E_ARGUMENT if samples is null and frames isn't 0.
 */
static inline int64_t zg_server_read(zg_server *server, int16_t *samples, size_t frames, int64_t *flushed)
{
    int64_t nowhere;
    if (!server)
        return ZG_E_HANDLE;
    if (!frames)
        samples = zg_no_samples();
    if (!samples)
        return ZG_E_ARGUMENT;
    if (!flushed)
        flushed = &nowhere;
    return zeldorgacs_server_read(&server->handle, samples, zg_first_of(frames), flushed);
}

/*
 * How many frames there are (framesReady), of which it reads none. It notices a flush as a read does. ZG_E_CORRUPT, ZG_E_HANDLE.
 */
static inline int64_t zg_server_available(zg_server *server, int64_t *flushed)
{
    int64_t nowhere;
    if (!server)
        return ZG_E_HANDLE;
    if (!flushed)
        flushed = &nowhere;
    return zeldorgacs_server_available(&server->handle, flushed);
}

/*
 * The gains that the client set last (getVolumeLR): left in the low 16 bits, right in the high 16 bits, both ZG_UNITY before any; or ZG_E_HANDLE.
 */
static inline int64_t zg_server_gains(zg_server *server)
{
    if (!server)
        return ZG_E_HANDLE;
    return zeldorgacs_server_gains(&server->handle);
}

/*
 * Counts so many frames as missing, and sets ZG_UNDERRUN (tallyUnderrunFrames). 0; ZG_E_ARGUMENT if missing is 0, ZG_E_HANDLE.
 */
static inline int64_t zg_server_tally(zg_server *server, uint32_t missing)
{
    if (!server)
        return ZG_E_HANDLE;
    return zeldorgacs_server_tally(&server->handle, missing);
}

/*
 * Sets ZG_INVALID: each later write of the client answers ZG_E_DEAD. 0, or ZG_E_HANDLE.
 */
static inline int64_t zg_server_invalidate(zg_server *server)
{
    if (!server)
        return ZG_E_HANDLE;
    return zeldorgacs_server_invalidate(&server->handle);
}

/*
 * Sets ZG_DISABLED, which the client clears. 0, or ZG_E_HANDLE.
 */
static inline int64_t zg_server_disable(zg_server *server)
{
    if (!server)
        return ZG_E_HANDLE;
    return zeldorgacs_server_disable(&server->handle);
}

/*
 * Stores the status word, which the client sees. 0, or ZG_E_HANDLE.
 */
static inline int64_t zg_server_set_status(zg_server *server, uint32_t word)
{
    if (!server)
        return ZG_E_HANDLE;
    return zeldorgacs_server_set_status(&server->handle, word);
}

/*
 * How many frames this server has read and discarded, up to 2^63 - 1; or ZG_E_HANDLE.
 */
static inline int64_t zg_server_consumed(zg_server *server)
{
    if (!server)
        return ZG_E_HANDLE;
    return zeldorgacs_server_consumed(&server->handle);
}

/*
 * How many flushes had been asked for, by the last one that it noticed; or ZG_E_HANDLE.
 */
static inline int64_t zg_server_flush_seen(zg_server *server)
{
    if (!server)
        return ZG_E_HANDLE;
    return zeldorgacs_server_flush_seen(&server->handle);
}

/*
 * For how many frames the stream was opened; or ZG_E_HANDLE.
 */
static inline int64_t zg_server_frames(zg_server *server)
{
    if (!server)
        return ZG_E_HANDLE;
    return zeldorgacs_server_frames(&server->handle);
}

/* Closes the handle, if it is open. */
static inline void zg_server_close(zg_server *server)
{
    if (server)
        zeldorgacs_close(&server->handle);
}

/*
 * RECORDINGS: a source that never waits. What finds no room is lost, and counted.
 */

/*
 * Opens a recording for so many frames, 1 to ZG_MOST_BUFFER. What the two handles led to is closed, and they are not one.
 * 0; ZG_E_ARGUMENT if frames is out of range, ZG_E_MEMORY, ZG_E_HANDLE if a handle is null: then nothing has changed.
 */
static inline int64_t zg_record_open(uint32_t frames, zg_capture *capture, zg_listener *listener)
{
    if (!capture || !listener)
        return ZG_E_HANDLE;
    return zeldorgacs_record_open(frames, &capture->handle, &listener->handle);
}

/*
 * Supplies these frames: the first of them are put, as many as there is room for, and the others are lost. How many were put.
 * ZG_E_LIMIT, ZG_E_HANDLE; ZG_E_ARGUMENT if samples is null and frames isn't 0.
 */
static inline int64_t zg_capture_supply(zg_capture *capture, const int16_t *samples, size_t frames)
{
    if (!capture)
        return ZG_E_HANDLE;
    if (!frames)
        samples = zg_no_samples();
    if (!samples)
        return ZG_E_ARGUMENT;
    return zeldorgacs_capture_supply(&capture->handle, samples, zg_first_of(frames));
}

/*
 * How many frames were supplied; or ZG_E_HANDLE.
 */
static inline int64_t zg_capture_supplied(zg_capture *capture)
{
    if (!capture)
        return ZG_E_HANDLE;
    return zeldorgacs_capture_supplied(&capture->handle);
}

/*
 * How many of them were lost (getInputFramesLost); or ZG_E_HANDLE.
 */
static inline int64_t zg_capture_overrun(zg_capture *capture)
{
    if (!capture)
        return ZG_E_HANDLE;
    return zeldorgacs_capture_overrun(&capture->handle);
}

/* Closes the handle, if it is open. */
static inline void zg_capture_close(zg_capture *capture)
{
    if (capture)
        zeldorgacs_close(&capture->handle);
}

/*
 * Reads as many frames as there are, up to so many: how many. What stands in samples behind them stays.
 * ZG_E_LIMIT, ZG_E_HANDLE; ZG_E_ARGUMENT if samples is null and frames isn't 0.
 */
static inline int64_t zg_listener_read(zg_listener *listener, int16_t *samples, size_t frames)
{
    if (!listener)
        return ZG_E_HANDLE;
    if (!frames)
        samples = zg_no_samples();
    if (!samples)
        return ZG_E_ARGUMENT;
    return zeldorgacs_listener_read(&listener->handle, samples, zg_first_of(frames));
}

/*
 * How many frames were read; or ZG_E_HANDLE.
 */
static inline int64_t zg_listener_total(zg_listener *listener)
{
    if (!listener)
        return ZG_E_HANDLE;
    return zeldorgacs_listener_total(&listener->handle);
}

/* Closes the handle, if it is open. */
static inline void zg_listener_close(zg_listener *listener)
{
    if (listener)
        zeldorgacs_close(&listener->handle);
}

/*
 * STATIC BUFFERS: a sound that doesn't change, and loops in it that may be set while it plays.
 */

/*
 * Opens a static buffer with a copy of these frames, 1 to ZG_MOST_BUFFER. What the two handles led to is closed, and they are not one.
 * 0; ZG_E_ARGUMENT if frames is out of range or samples null, ZG_E_MEMORY, ZG_E_HANDLE if a handle is null: then nothing has changed.
 */
static inline int64_t zg_static_open(const int16_t *samples, size_t frames, zg_setter *setter, zg_player *player)
{
    if (!setter || !player)
        return ZG_E_HANDLE;
    if (!samples || frames > ZG_MOST_BUFFER)
        return ZG_E_ARGUMENT;
    return zeldorgacs_static_open(samples, frames, &setter->handle, &player->handle);
}

/*
 * Sets where the player is to play (setLoop, setPosition): with count 0 from start to the end of the buffer; else from start to end, again so many
 * times, 0xffffffff without end, and then on to the end of the buffer. A player that is within the loop goes on from where it is. Any numbers are
 * taken here; the player judges them when it sees them.
 * The number of this setting, from 1; or ZG_E_LIMIT, ZG_E_HANDLE.
 */
static inline int64_t zg_setter_set(zg_setter *setter, uint32_t start, uint32_t end, uint32_t count)
{
    if (!setter)
        return ZG_E_HANDLE;
    return zeldorgacs_setter_set(&setter->handle, start, end, count);
}

/* Closes the handle, if it is open. */
static inline void zg_setter_close(zg_setter *setter)
{
    if (setter)
        zeldorgacs_close(&setter->handle);
}

/*
 * Plays the next frames of the buffer to so many frames of samples, by the newest setting, at gains in 4.12, above ZG_UNITY taken for that. What has no
 * frame any more is silence. How many frames of the buffer were taken; *number is the number of the setting, 0 before any, and may be null.
 * ZG_E_CORRUPT if a setting doesn't fit the buffer (start within it, and for a loop at least 16 frames within it): the player is shut then for good,
 * and samples is all silence. ZG_E_HANDLE; ZG_E_ARGUMENT if frames is 0 or samples null: then samples and *number stay.
 */
static inline int64_t zg_player_play(zg_player *player, uint16_t left, uint16_t right, int16_t *samples, size_t frames, int64_t *number)
{
    int64_t nowhere;
    if (!player)
        return ZG_E_HANDLE;
    if (!frames)
        samples = zg_no_samples();
    if (!samples)
        return ZG_E_ARGUMENT;
    if (!number)
        number = &nowhere;
    return zeldorgacs_player_play(&player->handle, left, right, samples, zg_first_of(frames), number);
}

/* Closes the handle, if it is open. */
static inline void zg_player_close(zg_player *player)
{
    if (player)
        zeldorgacs_close(&player->handle);
}

/*
 * MIXERS: what clients write on threads of their own comes out mixed. One thread makes the turns of the normal mixer, at least every `normal` periods;
 * another one, the period's callback, makes a cycle of the fast mixer each period. No call of either waits for a client, nor for the other.
 */

/*
 * Opens a mixer, with as many tracks as there are specs, 1 to ZG_MOST_TRACKS, each with a handle. All tracks are opened: they are idle from the first
 * turn on. The first 31 that ask for a slot of the fast mixer get one, and all others go by way of the normal mixer. What the handles led to is
 * closed, and no two of them are one. What all share is freed with the last of these handles that is closed, whichever that is.
 * 0; ZG_E_ARGUMENT if a number is out of range, or mixer or specs is null, ZG_E_MEMORY, ZG_E_HANDLE if a handle is null: then nothing has changed.
 */
static inline int64_t zg_mixer_open(const zg_mixer_spec *mixer, const zg_track_spec *specs, size_t count, zg_normal *turns, zg_fast *cycles, zg_track *tracks)
{
    if (!turns || !cycles || !tracks)
        return ZG_E_HANDLE;
    if (!mixer || !specs || count > ZG_MOST_TRACKS)
        return ZG_E_ARGUMENT;
    return zeldorgacs_mixer_open(mixer, specs, count, &turns->handle, &cycles->handle, &tracks->handle, count);
}

/*
 * Writes the first of these frames, as many as there is room for before the end of the buffer: how many. 0 if the buffer is full (WOULD_BLOCK), or
 * frames is 0. After a short count a second call may find room again, at the start of the buffer. Of a mono track the left samples are heard, on both sides.
 * ZG_E_DEAD, ZG_E_LIMIT, ZG_E_HANDLE; ZG_E_ARGUMENT if samples is null and frames isn't 0. ZG_E_CORRUPT never comes.
 */
static inline int64_t zg_track_write(zg_track *track, const int16_t *samples, size_t frames)
{
    if (!track)
        return ZG_E_HANDLE;
    if (!frames)
        samples = zg_no_samples();
    if (!samples)
        return ZG_E_ARGUMENT;
    return zeldorgacs_track_write(&track->handle, samples, zg_first_of(frames));
}

/*
 * The track plays from the next turn on. After a flush it plays once that was seen.
 * 0; ZG_E_FULL, ZG_E_DEAD, ZG_E_LIMIT, ZG_E_HANDLE.
 */
static inline int64_t zg_track_start(zg_track *track)
{
    if (!track)
        return ZG_E_HANDLE;
    return zeldorgacs_track_start(&track->handle);
}

/*
 * The track pauses: what was written stays, and a start goes on from there.
 * 0; ZG_E_FULL, ZG_E_DEAD, ZG_E_LIMIT, ZG_E_HANDLE.
 */
static inline int64_t zg_track_pause(zg_track *track)
{
    if (!track)
        return ZG_E_HANDLE;
    return zeldorgacs_track_pause(&track->handle);
}

/*
 * The track stops once all that was written is consumed: its info says drained then. One that was disabled for want of frames stops at once and isn't
 * drained, so start it just before, if all is to be heard. ZG_E_LIMIT also if 2^32 frames or more were written.
 * 0; ZG_E_FULL, ZG_E_DEAD, ZG_E_LIMIT, ZG_E_HANDLE.
 */
static inline int64_t zg_track_stop(zg_track *track)
{
    if (!track)
        return ZG_E_HANDLE;
    return zeldorgacs_track_stop(&track->handle);
}

/*
 * What was written and not played yet is discarded. If it answers ZG_E_FULL it is discarded none the less, and the call may be made again.
 * 0; ZG_E_FULL, ZG_E_DEAD, ZG_E_LIMIT, ZG_E_HANDLE.
 */
static inline int64_t zg_track_flush(zg_track *track)
{
    if (!track)
        return ZG_E_HANDLE;
    return zeldorgacs_track_flush(&track->handle);
}

/*
 * The track ends, and never plays again. Its handle is still to be closed.
 * 0; ZG_E_FULL, ZG_E_DEAD, ZG_E_LIMIT, ZG_E_HANDLE.
 */
static inline int64_t zg_track_remove(zg_track *track)
{
    if (!track)
        return ZG_E_HANDLE;
    return zeldorgacs_track_remove(&track->handle);
}

/*
 * Sets the gains of the two sides, each in 4.12, 0 to ZG_UNITY (setVolumeLR). The mixers apply them, each times the track's scale.
 * 0; ZG_E_ARGUMENT if one is above unity, ZG_E_HANDLE.
 */
static inline int64_t zg_track_set_gains(zg_track *track, uint16_t left, uint16_t right)
{
    if (!track)
        return ZG_E_HANDLE;
    return zeldorgacs_track_set_gains(&track->handle, left, right);
}

/*
 * Tells what is known of the track by the normal mixer's last turn, and clears ZG_DISABLED: a command is seen in it once `settled` counts that command.
 * 0; ZG_E_ARGUMENT if info is null, ZG_E_HANDLE: then *info stays.
 */
static inline int64_t zg_track_status(zg_track *track, zg_track_info *info)
{
    if (!track)
        return ZG_E_HANDLE;
    if (!info)
        return ZG_E_ARGUMENT;
    return zeldorgacs_track_status(&track->handle, info);
}

/* Closes the handle, if it is open. It doesn't remove the track. */
static inline void zg_track_close(zg_track *track)
{
    if (track)
        zeldorgacs_close(&track->handle);
}

/*
 * One turn of the normal mixer, to be made every `normal` periods, or more often, as one that comes early doesn't mix: it obeys the clients' commands,
 * mixes the tracks that have no slot of the fast mixer, and tells the fast mixer what to play.
 * ZG_TURNED, ZG_TURN_MIXED, ZG_TURN_ENDED; ZG_E_LIMIT after 2^55 turns, ZG_E_HANDLE.
 */
static inline int64_t zg_normal_turn(zg_normal *normal)
{
    if (!normal)
        return ZG_E_HANDLE;
    return zeldorgacs_normal_turn(&normal->handle);
}

/*
 * How many turns it has made; or ZG_E_HANDLE.
 */
static inline int64_t zg_normal_turns(zg_normal *normal)
{
    if (!normal)
        return ZG_E_HANDLE;
    return zeldorgacs_normal_turns(&normal->handle);
}

/* Closes the handle, if it is open. */
static inline void zg_normal_close(zg_normal *normal)
{
    if (normal)
        zeldorgacs_close(&normal->handle);
}

/*
 * One cycle of the fast mixer, to be made once a period: it writes the period's frames, or leaves them as they are. ZG_MIXED, ZG_IDLE, ZG_COLD, ZG_EXIT;
 * ZG_E_ARGUMENT if samples is null or frames isn't the mixer's, ZG_E_HANDLE, and ZG_E_LIMIT once a whole log more could go beyond 2^32 - 1 cycles: that
 * are 66 days of periods of 64 frames at 48 kHz.
 */
static inline int64_t zg_fast_cycle(zg_fast *fast, int16_t *samples, size_t frames)
{
    if (!fast)
        return ZG_E_HANDLE;
    if (!samples || frames > ZG_MOST_PERIOD)
        return ZG_E_ARGUMENT;
    return zeldorgacs_fast_cycle(&fast->handle, samples, frames);
}

/*
 * The frames of a cycle; or ZG_E_HANDLE.
 */
static inline int64_t zg_fast_frames(zg_fast *fast)
{
    if (!fast)
        return ZG_E_HANDLE;
    return zeldorgacs_fast_frames(&fast->handle);
}

/* Closes the handle, if it is open. */
static inline void zg_fast_close(zg_fast *fast)
{
    if (fast)
        zeldorgacs_close(&fast->handle);
}

#ifdef __cplusplus
}
#endif

#endif
