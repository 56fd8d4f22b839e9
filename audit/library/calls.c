/*
 * calls.c: random calls of the library for C, on one thread, beside a plain model. Each answer, each frame and each count is compared.
 *
 *     calls [CALLS [SEED]]     1,000,000 calls, if not said otherwise
 *
 * The handles are closed, of another kind, null or closed twice as often as not. Lengths are 0, small, huge, and with null samples. In some calls of
 * _open malloc fails; in all others it is counted, and must not be called. It is linked with --wrap for malloc, realloc and free.
 */
#include "zeldorgacs.h"
#include <stdbool.h>
#include <stdio.h>
#include <stdlib.h>
#include <string.h>

enum kind { CLOSED, CLIENT, SERVER, CAPTURE, LISTENER, SETTER, PLAYER };
enum { SLOTS = 12, ROOM = 8192, EDGE = 8, MOST = 1024 };

/* What the two ends share, in the model. A stream and a recording keep their frames by their positions. */
struct shared {
    int ends;
    uint64_t frames, cells, rear, front; /* rear and front: frames written, and frames read or discarded */
    uint64_t flush_at, flushes, noticed;
    uint32_t gains, flags, status;
    uint64_t supplied, lost, total;
    /* a static buffer: the newest setting, the one that was seen, and the head */
    uint32_t newest[3], seen[3], left;
    uint64_t number, seen_number, position, start, end;
    bool shut;
    int16_t samples[2 * ROOM];
};

struct slot {
    zg_handle handle;
    enum kind kind;
    struct shared *shared;
};

static struct slot slots[SLOTS];
static uint64_t state = 88172645463325252u;
static unsigned long call_number;
static const char *doing = "";

/* The calls of malloc, realloc and free by the library. */
static bool inside, failed;
static long fails_at, asked, live;

void *__real_malloc(size_t size);
void *__real_realloc(void *at, size_t size);
void __real_free(void *at);

void *__wrap_malloc(size_t size)
{
    if (!inside)
        return __real_malloc(size);
    asked++;
    if (asked == fails_at) {
        failed = true;
        return NULL;
    }
    void *at = __real_malloc(size);
    live += at != NULL;
    return at;
}

void *__wrap_realloc(void *at, size_t size)
{
    if (inside) {
        asked++;
        if (asked == fails_at) {
            failed = true;
            return NULL;
        }
    }
    return __real_realloc(at, size);
}

void __wrap_free(void *at)
{
    if (inside && at) {
        asked++;
        live--;
    }
    __real_free(at);
}

static uint64_t next(void)
{
    state ^= state << 13;
    state ^= state >> 7;
    state ^= state << 17;
    return state * 2685821657736338717u >> 11;
}

static uint64_t below(uint64_t end)
{
    return next() % end;
}

static void differ(const char *what, int64_t said, int64_t wanted)
{
    printf("call %lu, %s: %s is %lld in place of %lld\n", call_number, doing, what, (long long)said, (long long)wanted);
    exit(1);
}

static void same(const char *what, int64_t said, int64_t wanted)
{
    if (said != wanted)
        differ(what, said, wanted);
}

static uint64_t lesser(uint64_t a, uint64_t b)
{
    return a < b ? a : b;
}

/* Lengths: often small, at times 0, more than a call takes, or huge. */
static size_t some_length(void)
{
    switch (below(16)) {
    case 0: return 0;
    case 1: return 1;
    case 2: return MOST + below(3000);
    case 3: return MOST - 1 + below(3);
    case 4: return SIZE_MAX - below(5);
    case 5: return SIZE_MAX / 2 - 2 + below(5);
    case 6: return SIZE_MAX / 4 - 2 + below(5);
    default: return 1 + below(below(2) ? 16 : 700);
    }
}

/* The buffer of a call, with an edge behind the most frames that it takes. */
static int16_t buffer[2 * (MOST + EDGE)], was[2 * (MOST + EDGE)];

static void fill_buffer(void)
{
    for (size_t i = 0; i < 2 * (MOST + EDGE); i++)
        buffer[i] = (int16_t)next();
    memcpy(was, buffer, sizeof was);
}

/* The library's answer to the last call; malloc may be asked only where a call opens or closes. */
static void ended(bool may_ask)
{
    inside = false;
    if (!may_ask)
        same("the calls of malloc and free", asked, 0);
}

static void begin(const char *name)
{
    doing = name;
    asked = 0;
    fails_at = 0;
    failed = false;
    inside = true;
}

/* The model's part of a close. */
static void let_go(struct slot *slot)
{
    if (slot->kind != CLOSED && --slot->shared->ends == 0)
        free(slot->shared);
    slot->kind = CLOSED;
    slot->shared = NULL;
}

static struct slot *any_slot(void)
{
    return &slots[below(SLOTS)];
}

/* A slot, more often than not with an end of this kind. */
static struct slot *slot_of(enum kind kind)
{
    struct slot *slot = any_slot();
    if (below(4) != 0)
        for (int i = 0; i < SLOTS && slot->kind != kind; i++)
            slot = &slots[(size_t)(slot - slots + 1) % SLOTS];
    return slot;
}

static uint64_t power_from(uint64_t frames)
{
    uint64_t cells = 1;
    while (cells < frames)
        cells *= 2;
    return cells;
}

static struct shared *new_shared(uint64_t frames)
{
    struct shared *it = calloc(1, sizeof *it);
    if (!it)
        exit(3);
    it->ends = 2;
    it->frames = frames;
    it->cells = power_from(frames);
    it->gains = 0x10001000;
    return it;
}

/* What an open call did: nothing, if it was refused. */
static void opened(int64_t said, bool fits, struct slot *a, struct slot *b, enum kind first, struct shared *shared)
{
    ended(true);
    same("the answer", said, !fits ? ZG_E_ARGUMENT : failed ? ZG_E_MEMORY : 0);
    if (said != 0) {
        free(shared);
        return;
    }
    let_go(a);
    let_go(b);
    a->kind = first;
    b->kind = (enum kind)(first + 1);
    a->shared = b->shared = shared;
}

static void call_open(void)
{
    struct slot *a = any_slot(), *b = any_slot();
    if (a == b)
        b = &slots[(size_t)(a - slots + 1) % SLOTS];
    zg_handle before[2] = {a->handle, b->handle};
    uint32_t frames = below(8) == 0 ? (uint32_t)(below(2) ? 0 : 8193 + below(4294959103)) : 1 + (uint32_t)below(below(3) ? 40 : 8192);
    int64_t live_before = live, said;
    unsigned which = (unsigned)below(3);
    bool fits = frames >= 1 && frames <= 8192;
    struct shared *shared = new_shared(fits ? frames : 1);
    for (size_t i = 0; i < 2 * shared->frames; i++)
        shared->samples[i] = which == 2 ? (int16_t)next() : 0;
    begin(which == 0 ? "zg_stream_open" : which == 1 ? "zg_record_open" : "zg_static_open");
    fails_at = below(4) == 0 ? 1 + (long)below(10) : 0; /* the tenth call of a static open is its last allocation */
    if (which == 0)
        said = zg_stream_open(frames, (zg_client *)&a->handle, (zg_server *)&b->handle);
    else if (which == 1)
        said = zg_record_open(frames, (zg_capture *)&a->handle, (zg_listener *)&b->handle);
    else
        said = zg_static_open(shared->samples, frames, (zg_setter *)&a->handle, (zg_player *)&b->handle);
    opened(said, fits, a, b, which == 0 ? CLIENT : which == 1 ? CAPTURE : SETTER, shared);
    if (said != 0) {
        same("the blocks that are kept", live, live_before);
        same("the first handle", memcmp(&before[0], &a->handle, sizeof a->handle), 0);
        same("the second handle", memcmp(&before[1], &b->handle, sizeof b->handle), 0);
    }
}

static void call_close(void)
{
    struct slot *slot = any_slot();
    for (uint64_t times = 1 + below(2); times > 0; times--) {
        begin("a close");
        switch (below(6)) {
        case 0: zg_client_close((zg_client *)&slot->handle); break;
        case 1: zg_server_close((zg_server *)&slot->handle); break;
        case 2: zg_capture_close((zg_capture *)&slot->handle); break;
        case 3: zg_listener_close((zg_listener *)&slot->handle); break;
        case 4: zg_setter_close((zg_setter *)&slot->handle); break;
        default: zg_player_close((zg_player *)&slot->handle);
        }
        ended(slot->kind != CLOSED);
        let_go(slot);
        same("the tag", (int64_t)slot->handle.tag, 0);
    }
}

/* The first frames of the buffer, put behind the rear. */
static void put_frames(struct shared *it, uint64_t count)
{
    for (uint64_t i = 0; i < count; i++, it->rear++)
        memcpy(it->samples + 2 * (it->rear % it->cells), buffer + 2 * i, 4);
}

/* The frames that were read: those from front on, and the rest of the buffer as it was. */
static void compare_read(struct shared *it, uint64_t count)
{
    for (uint64_t i = 0; i < count; i++, it->front++)
        same("a frame", memcmp(it->samples + 2 * (it->front % it->cells), buffer + 2 * i, 4), 0);
    same("the rest of the buffer", memcmp(buffer + 2 * count, was + 2 * count, sizeof was - 4 * (size_t)count), 0);
}

/* What is answered before the end itself is asked: a refusal, or 0. */
static int64_t refusal(struct slot *slot, enum kind kind, bool null_handle, bool null_samples, size_t frames)
{
    if (null_handle)
        return ZG_E_HANDLE;
    if (null_samples && frames != 0)
        return ZG_E_ARGUMENT;
    return slot->kind == kind ? 0 : ZG_E_HANDLE;
}

static void call_write(void)
{
    struct slot *slot = slot_of(CLIENT);
    size_t frames = some_length();
    bool null_handle = below(40) == 0, null_samples = below(40) == 0;
    fill_buffer();
    begin("zg_client_write");
    int64_t said = zg_client_write(null_handle ? NULL : (zg_client *)&slot->handle, null_samples ? NULL : buffer, frames);
    ended(false);
    int64_t wanted = refusal(slot, CLIENT, null_handle, null_samples, frames);
    if (wanted == 0) {
        struct shared *it = slot->shared;
        uint64_t room = it->frames - (it->rear - it->front), to_end = it->cells - it->rear % it->cells;
        wanted = (int64_t)lesser(lesser(lesser(frames, MOST), room), to_end);
        if (frames > 0 && it->flags & ZG_INVALID)
            wanted = ZG_E_DEAD;
        else
            put_frames(it, (uint64_t)wanted);
    }
    same("the answer", said, wanted);
}

static void call_flush(void)
{
    struct slot *slot = slot_of(CLIENT);
    bool null_handle = below(40) == 0;
    begin("zg_client_flush");
    int64_t said = zg_client_flush(null_handle ? NULL : (zg_client *)&slot->handle);
    ended(false);
    int64_t wanted = refusal(slot, CLIENT, null_handle, false, 0);
    if (wanted == 0) {
        struct shared *it = slot->shared;
        if (it->flushes + 1 >= 4294967296u / (4 * it->cells)) {
            wanted = ZG_E_LIMIT;
        } else {
            it->flush_at = it->rear;
            wanted = (int64_t)++it->flushes;
        }
    }
    same("the answer", said, wanted);
}

/* A look of the server: whether it notices a flush, which then discards what was written before it. */
static bool notices(struct shared *it, int64_t *dropped)
{
    *dropped = -1;
    if (it->flushes == it->noticed)
        return false;
    *dropped = it->flush_at > it->front ? (int64_t)(it->flush_at - it->front) : 0;
    it->front += (uint64_t)*dropped;
    it->noticed = it->flushes;
    return true;
}

static void call_read(void)
{
    struct slot *slot = slot_of(SERVER);
    size_t frames = some_length();
    bool null_handle = below(40) == 0, null_samples = below(40) == 0, null_flushed = below(4) == 0, looks = below(4) == 0;
    zg_server *server = null_handle ? NULL : (zg_server *)&slot->handle;
    int64_t flushed = -77, dropped = -77, said;
    fill_buffer();
    if (looks) {
        frames = 1;
        null_samples = false;
    }
    begin(looks ? "zg_server_available" : "zg_server_read");
    said = looks ? zg_server_available(server, null_flushed ? NULL : &flushed) : zg_server_read(server, null_samples ? NULL : buffer, frames, null_flushed ? NULL : &flushed);
    ended(false);
    int64_t wanted = refusal(slot, SERVER, null_handle, null_samples, frames);
    struct shared *it = slot->shared;
    if (wanted == 0) {
        dropped = -1;
        if (frames > 0 && !notices(it, &dropped))
            wanted = (int64_t)lesser(looks ? UINT64_MAX : lesser(frames, MOST), it->rear - it->front);
    }
    same("the answer", said, wanted);
    same("the frames that a flush discarded", flushed, null_flushed ? -77 : dropped);
    if (wanted >= 0)
        compare_read(it, looks ? 0 : (uint64_t)wanted);
}

/* The words that the two ends of a stream store for one another. */
static void call_words(void)
{
    unsigned which = (unsigned)(below(10) == 0 ? 7 : below(7));
    enum kind kind = which < 3 ? CLIENT : SERVER;
    struct slot *slot = slot_of(kind);
    bool null_handle = below(40) == 0;
    zg_client *client = null_handle ? NULL : (zg_client *)&slot->handle;
    zg_server *server = null_handle ? NULL : (zg_server *)&slot->handle;
    uint16_t left = (uint16_t)below(below(9) ? 0x1001 : 0x10000), right = (uint16_t)below(below(9) ? 0x1001 : 0x10000);
    uint32_t word = (uint32_t)next(), missing = (uint32_t)(below(4) ? next() : 0);
    struct shared nowhere = {0}, *it = slot->kind == kind ? slot->shared : &nowhere;
    int64_t said, wanted = 0;
    begin("a word");
    switch (which) {
    case 0: doing = "zg_client_set_gains"; said = zg_client_set_gains(client, left, right); break;
    case 1: doing = "zg_client_status"; said = zg_client_status(client); break;
    case 2: doing = "zg_client_clear_disabled"; said = zg_client_clear_disabled(client); break;
    case 3: doing = "zg_server_gains"; said = zg_server_gains(server); break;
    case 4: doing = "zg_server_tally"; said = zg_server_tally(server, missing); break;
    case 5: doing = "zg_server_disable"; said = zg_server_disable(server); break;
    case 6: doing = "zg_server_set_status"; said = zg_server_set_status(server, word); break;
    default: doing = "zg_server_invalidate"; said = zg_server_invalidate(server);
    }
    ended(false);
    wanted = refusal(slot, kind, null_handle, false, 0);
    if (wanted == 0)
        switch (which) {
        case 0:
            if (left > ZG_UNITY || right > ZG_UNITY)
                wanted = ZG_E_ARGUMENT;
            else
                it->gains = left | (uint32_t)right << 16;
            break;
        case 1: wanted = it->status; break;
        case 2:
            wanted = it->flags;
            it->flags &= ~(uint32_t)ZG_DISABLED;
            break;
        case 3: wanted = it->gains; break;
        case 4:
            if (missing == 0)
                wanted = ZG_E_ARGUMENT;
            else
                it->flags |= ZG_UNDERRUN;
            break;
        case 5: it->flags |= ZG_DISABLED; break;
        case 6: it->status = word; break;
        default: it->flags |= ZG_INVALID;
        }
    same("the answer", said, wanted);
}

static void call_supply(void)
{
    struct slot *slot = slot_of(CAPTURE);
    size_t frames = some_length();
    bool null_handle = below(40) == 0, null_samples = below(40) == 0;
    fill_buffer();
    begin("zg_capture_supply");
    int64_t said = zg_capture_supply(null_handle ? NULL : (zg_capture *)&slot->handle, null_samples ? NULL : buffer, frames);
    ended(false);
    int64_t wanted = refusal(slot, CAPTURE, null_handle, null_samples, frames);
    if (wanted == 0) {
        struct shared *it = slot->shared;
        frames = lesser(frames, MOST);
        wanted = (int64_t)lesser(frames, it->frames - (it->rear - it->front));
        put_frames(it, (uint64_t)wanted);
        it->supplied += frames;
        it->lost += frames - (uint64_t)wanted;
    }
    same("the answer", said, wanted);
}

static void call_listen(void)
{
    struct slot *slot = slot_of(LISTENER);
    size_t frames = some_length();
    bool null_handle = below(40) == 0, null_samples = below(40) == 0;
    fill_buffer();
    begin("zg_listener_read");
    int64_t said = zg_listener_read(null_handle ? NULL : (zg_listener *)&slot->handle, null_samples ? NULL : buffer, frames);
    ended(false);
    int64_t wanted = refusal(slot, LISTENER, null_handle, null_samples, frames);
    if (wanted == 0) {
        struct shared *it = slot->shared;
        wanted = (int64_t)lesser(lesser(frames, MOST), it->rear - it->front);
        compare_read(it, (uint64_t)wanted);
        it->total += (uint64_t)wanted;
    }
    same("the answer", said, wanted);
}

/* A function that tells one count of one kind of end. */
static void tell(const char *name, int64_t said, struct slot *slot, enum kind kind, bool null_handle, uint64_t count)
{
    doing = name;
    ended(false);
    int64_t wanted = refusal(slot, kind, null_handle, false, 0);
    same("the answer", said, wanted == 0 ? (int64_t)count : wanted);
}

static void call_counts(void)
{
    static const struct shared nothing;
    struct slot *slot = any_slot();
    const struct shared *it = slot->shared ? slot->shared : &nothing;
    bool null_handle = below(40) == 0;
    zg_handle *handle = null_handle ? NULL : &slot->handle;
    begin("a count");
    switch (below(9)) {
    case 0: tell("zg_capture_supplied", zg_capture_supplied((zg_capture *)handle), slot, CAPTURE, null_handle, it->supplied); break;
    case 1: tell("zg_capture_overrun", zg_capture_overrun((zg_capture *)handle), slot, CAPTURE, null_handle, it->lost); break;
    case 2: tell("zg_listener_total", zg_listener_total((zg_listener *)handle), slot, LISTENER, null_handle, it->total); break;
    case 3: tell("zg_client_released", zg_client_released((zg_client *)handle), slot, CLIENT, null_handle, it->rear); break;
    case 4: tell("zg_client_flushes", zg_client_flushes((zg_client *)handle), slot, CLIENT, null_handle, it->flushes); break;
    case 5: tell("zg_client_frames", zg_client_frames((zg_client *)handle), slot, CLIENT, null_handle, it->frames); break;
    case 6: tell("zg_server_consumed", zg_server_consumed((zg_server *)handle), slot, SERVER, null_handle, it->front); break;
    case 7: tell("zg_server_flush_seen", zg_server_flush_seen((zg_server *)handle), slot, SERVER, null_handle, it->noticed); break;
    default: tell("zg_server_frames", zg_server_frames((zg_server *)handle), slot, SERVER, null_handle, it->frames);
    }
}

/* A start, end and count that often fit, and often don't. */
static void some_setting(uint32_t *numbers, uint64_t frames)
{
    numbers[0] = (uint32_t)(below(12) == 0 ? next() : below(frames + 1));
    numbers[1] = (uint32_t)(below(12) == 0 ? next() : lesser(frames, numbers[0] + 14 + below(40)));
    numbers[2] = (uint32_t)(below(6) == 0 ? 0xffffffff : below(6) == 0 ? next() : below(4));
}

static void call_set(void)
{
    struct slot *slot = slot_of(SETTER);
    bool null_handle = below(40) == 0;
    uint32_t numbers[3];
    some_setting(numbers, slot->shared ? slot->shared->frames : 100);
    begin("zg_setter_set");
    int64_t said = zg_setter_set(null_handle ? NULL : (zg_setter *)&slot->handle, numbers[0], numbers[1], numbers[2]);
    ended(false);
    int64_t wanted = refusal(slot, SETTER, null_handle, false, 0);
    if (wanted == 0) {
        memcpy(slot->shared->newest, numbers, sizeof numbers);
        wanted = (int64_t)++slot->shared->number;
    }
    same("the answer", said, wanted);
}

/* The player sees the newest setting. */
static void hear(struct shared *it)
{
    if (it->shut || it->number == it->seen_number)
        return;
    uint64_t start = it->newest[0], end = it->newest[1], count = it->newest[2];
    it->seen_number = it->number;
    if (count == 0 ? start > it->frames : start + 16 > end || end > it->frames) {
        it->shut = true;
        return;
    }
    if (count == 0 || it->position < start || it->position >= end)
        it->position = start;
    it->start = start;
    it->end = end;
    it->left = (uint32_t)count;
}

/* The next frame of the sound, if there is one. */
static bool next_frame(struct shared *it, const int16_t **frame)
{
    if (it->shut || it->position >= it->frames)
        return false;
    *frame = it->samples + 2 * it->position++;
    if (it->left > 0 && it->position == it->end) {
        it->position = it->start;
        it->left -= it->left != 0xffffffff;
    }
    return true;
}

/* A sample at a gain, rounded down. */
static int16_t scaled(int32_t sample, uint32_t gain)
{
    int32_t product = sample * (int32_t)gain;
    return (int16_t)(product >= 0 ? product / 4096 : -((4095 - product) / 4096));
}

static void call_play(void)
{
    struct slot *slot = slot_of(PLAYER);
    size_t frames = some_length();
    bool null_handle = below(40) == 0, null_samples = below(40) == 0, null_number = below(4) == 0;
    uint16_t left = (uint16_t)(below(2) ? 0x1000 : below(9) ? below(0x1001) : next()), right = (uint16_t)(below(2) ? 0x1000 : below(9) ? below(0x1001) : next());
    int64_t number = -77;
    fill_buffer();
    begin("zg_player_play");
    int64_t said = zg_player_play(null_handle ? NULL : (zg_player *)&slot->handle, left, right, null_samples ? NULL : buffer, frames, null_number ? NULL : &number);
    ended(false);
    int64_t wanted = refusal(slot, PLAYER, null_handle, null_samples, frames);
    if (wanted != 0 || frames == 0) {
        same("the answer", said, wanted != 0 ? wanted : ZG_E_ARGUMENT);
        same("the buffer", memcmp(buffer, was, sizeof was), 0);
        same("the number", number, -77);
        return;
    }
    struct shared *it = slot->shared;
    frames = lesser(frames, MOST);
    hear(it);
    const int16_t *frame = NULL;
    while ((size_t)wanted < frames && next_frame(it, &frame)) {
        same("a left sample", buffer[2 * wanted], scaled(frame[0], (uint32_t)lesser(left, 0x1000)));
        same("a right sample", buffer[2 * wanted + 1], scaled(frame[1], (uint32_t)lesser(right, 0x1000)));
        wanted++;
    }
    for (size_t i = 2 * (size_t)wanted; i < 2 * frames; i++)
        same("silence", buffer[i], 0);
    same("the rest of the buffer", memcmp(buffer + 2 * frames, was + 2 * frames, sizeof was - 4 * frames), 0);
    same("the number", number, null_number ? -77 : (int64_t)it->seen_number);
    same("the answer", said, it->shut ? ZG_E_CORRUPT : wanted);
}

int main(int words, char **word)
{
    static void (*const calls[])(void) = {call_open, call_close, call_write, call_write, call_read, call_read, call_flush, call_words,
                                          call_supply, call_supply, call_listen, call_listen, call_counts, call_counts, call_set, call_play, call_play};
    unsigned long most = words > 1 ? strtoul(word[1], NULL, 10) : 1000000;
    if (words > 2)
        state += strtoull(word[2], NULL, 10) * 7919;
    for (call_number = 1; call_number <= most; call_number++)
        calls[below(sizeof calls / sizeof *calls)]();
    for (int i = 0; i < SLOTS; i++) {
        begin("the end");
        zg_client_close((zg_client *)&slots[i].handle);
        inside = false;
        let_go(&slots[i]);
    }
    same("the blocks that are kept", live, 0);
    printf("%lu calls: each as the model has it\n", most);
    return 0;
}
