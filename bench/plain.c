/* The same work as `render` of the form that can be played so far, in plain C: it reads raw PCM, mixes, and writes raw PCM.
   plain make DIR          a session of seven stereo tracks of 100,000 frames, of which each client writes 8192, 1563 cycles of 64 frames, and its script
   plain make DIR TRACKS   the same of so many tracks, up to 31, of 8192 frames each, and 128 cycles: all frames are played
   plain random SEED DIR   a small session drawn from a number, and its script
   plain mix DIR OUT       mixes the session of DIR into OUT
   plain ring ROUNDS       64 frames through a ring of one producer and one consumer, ROUNDS times; prints a check
   plain cycle HOW FRAMES  seven rings of 65,536 frames each, filled, and mixed FRAMES at a time unless HOW is `fill`; `log` keeps what was taken, as the fast mixer does, and `runs` too, but copies a ring in at most two runs and not frame by frame; prints a check
   plain kernel BITS WHAT FRAMES   a kernel over sums of 64 or 32 bits, 1000 times, and takes of 64 or 240 frames: `stereo` and `mono` clear the sums and add one take, `clear` only clears, `finish` finishes, and `mix` mixes four takes; prints a check */
#include <stdatomic.h>
#include <stdint.h>
#include <stdio.h>
#include <stdlib.h>
#include <string.h>

enum { MOST = 7, TRACKS = 31, NARROW = 15, UNITY = 0x1000 };

typedef struct { int16_t left, right; } Frame;
typedef struct { int32_t left, right; } Sum;
typedef struct { uint32_t count, gains, scale, mono; } Track;
typedef struct { uint32_t len, cycles, tracks; Track track[TRACKS]; } Session;

static uint32_t drawn;
static uint32_t draw(uint32_t below) {
    drawn = drawn * 1103515245u + 12345u;
    return (drawn >> 8) % below;
}

static FILE *in_folder(const char *folder, const char *name, const char *how) {
    char path[512];
    snprintf(path, sizeof path, "%s/%s", folder, name);
    FILE *file = fopen(path, how);
    if (!file) { perror(path); exit(1); }
    return file;
}

static void write_session(const char *folder, const Session *s, uint32_t frames) {
    FILE *plan = in_folder(folder, "plan.bin", "wb");
    fwrite(s, sizeof *s, 1, plan);
    fclose(plan);
    FILE *script = in_folder(folder, "s.toml", "w");
    fprintf(script, "version = 1\nframes = %u\nnormal = 1\ncycles = %u\nturns = [", s->len, s->cycles);
    for (int pass = 0; pass < 2; pass++) {
        for (uint32_t i = 0; i < s->tracks; i++) fprintf(script, "\"c %u\", ", i);
        if (pass == 0) fprintf(script, "\"n\", ");
    }
    for (uint32_t left = s->cycles; left > 0; left -= left < 16 ? left : 16)
        fprintf(script, "\"f %u\"%s", left < 16 ? left : 16, left <= 16 ? "]\n" : ", ");
    for (uint32_t i = 0; i < s->tracks; i++) {
        const Track *t = &s->track[i];
        fprintf(script, "[[track]]\nkind = \"fast\"\nframes = 8192\nchannels = %u\nfile = \"t%u.pcm\"\nscale = %u\n", t->mono ? 1 : 2, i, t->scale);
        fprintf(script, "ops = [\"open\", \"start\", \"gain %u %u\", \"write %u\"]\n", t->gains & 0xffff, t->gains >> 16, t->count);
        char name[16];
        snprintf(name, sizeof name, "t%u.pcm", i);
        FILE *pcm = in_folder(folder, name, "wb");
        for (uint32_t j = 0; j < frames * (t->mono ? 1 : 2); j++) {
            int16_t sample = (int16_t)(draw(65536) - 32768);
            fwrite(&sample, 2, 1, pcm);
        }
        fclose(pcm);
    }
    fclose(script);
}

static void make(const char *folder, uint32_t cycles, uint32_t tracks, uint32_t frames) {
    Session s = { 64, cycles, tracks, {{0}} };
    for (uint32_t i = 0; i < tracks; i++) s.track[i] = (Track){ 8192, 0x08000800u + 0x00100020u * i, UNITY, 0 };
    drawn = 1;
    write_session(folder, &s, frames);
}

static void make_random(uint32_t seed, const char *folder) {
    drawn = seed * 2654435761u + 1;
    Session s = { 1 + draw(40), 1 + draw(20), 1 + draw(TRACKS), {{0}} };
    for (uint32_t i = 0; i < s.tracks; i++)
        s.track[i] = (Track){ 1 + draw(300), draw(65536) | draw(65536) << 16, draw(UNITY + 1), draw(2) };
    write_session(folder, &s, 300 + draw(3));
}

static uint32_t used(uint32_t half, uint32_t scale) { return (half < UNITY ? half : UNITY) * scale / 4096; }
static int16_t clamp(int32_t x) { return x < -32768 ? -32768 : x > 32767 ? 32767 : x; }

static void accumulate(const Frame *frames, uint32_t n, uint32_t mono, int32_t left, int32_t right, Sum *sums) {
    if (mono)
        for (uint32_t i = 0; i < n; i++) { sums[i].left += frames[i].left * left; sums[i].right += frames[i].left * right; }
    else
        for (uint32_t i = 0; i < n; i++) { sums[i].left += frames[i].left * left; sums[i].right += frames[i].right * right; }
}

static void finish(const Sum *sums, uint32_t n, Frame *out) {
    for (uint32_t i = 0; i < n; i++) { out[i].left = clamp(sums[i].left >> 12); out[i].right = clamp(sums[i].right >> 12); }
}

/* The kernels over sums of so many bits, each behind a call that isn't inlined. */
#define ONCE static __attribute__((noinline)) void
#define KERNELS(BITS) \
    typedef struct { int##BITS##_t left, right; } Sum##BITS; \
    static int16_t clamp##BITS(int##BITS##_t x) { return x < -32768 ? -32768 : x > 32767 ? 32767 : x; } \
    static inline void add##BITS(const Frame *frames, uint32_t n, uint32_t mono, int32_t left, int32_t right, Sum##BITS *sums) { \
        if (mono) \
            for (uint32_t i = 0; i < n; i++) { sums[i].left += frames[i].left * left; sums[i].right += frames[i].left * right; } \
        else \
            for (uint32_t i = 0; i < n; i++) { sums[i].left += frames[i].left * left; sums[i].right += frames[i].right * right; } \
    } \
    static inline void end##BITS(const Sum##BITS *sums, uint32_t n, Frame *out) { \
        for (uint32_t i = 0; i < n; i++) { out[i].left = clamp##BITS(sums[i].left >> 12); out[i].right = clamp##BITS(sums[i].right >> 12); } \
    } \
    ONCE clear_once##BITS(Sum##BITS *sums, uint32_t n) { memset(sums, 0, n * sizeof *sums); } \
    ONCE add_once##BITS(const Frame *frames, uint32_t n, uint32_t mono, int32_t left, int32_t right, Sum##BITS *sums) { add##BITS(frames, n, mono, left, right, sums); } \
    ONCE finish_once##BITS(const Sum##BITS *sums, uint32_t n, Frame *out) { end##BITS(sums, n, out); } \
    ONCE mix_once##BITS(const Part *parts, int count, Sum##BITS *sums, Frame *out, uint32_t n) { \
        memset(sums, 0, n * sizeof *sums); \
        for (int i = 0; i < count; i++) add##BITS(parts[i].frames, parts[i].n, parts[i].mono, used(parts[i].gains & 0xffff, parts[i].scale), used(parts[i].gains >> 16, parts[i].scale), sums); \
        end##BITS(sums, n, out); \
    } \
    static uint32_t kernel##BITS(const char *what, uint32_t n) { \
        static Frame takes[4][240], out[240]; \
        static Sum##BITS sums[240]; \
        uint32_t check = 0; \
        for (int i = 0; i < 240; i++) { \
            takes[0][i] = (Frame){ 1 + i, -2345 - i }; \
            takes[1][i] = (Frame){ 200 + i, -2345 - i }; \
            takes[2][i] = (Frame){ 300 + i, -2345 - i }; \
            takes[3][i] = (Frame){ 900 + i, -2345 - i }; \
            sums[i] = (Sum##BITS){ 77777777, -55555555 }; \
        } \
        int adds = !strcmp(what, "stereo") || !strcmp(what, "mono"), clears = adds || !strcmp(what, "clear"); \
        int mono = !strcmp(what, "mono"), finishes = !strcmp(what, "finish"), mixes = !strcmp(what, "mix"); \
        for (uint32_t round = 0; round < 1000; round++) { \
            uint32_t gains = round * 0x00010003; \
            if (clears) clear_once##BITS(sums, n); \
            if (adds) add_once##BITS(takes[0], n, mono, used(gains & 0xffff, UNITY), used(gains >> 16, UNITY), sums); \
            if (finishes) finish_once##BITS(sums, n, out); \
            if (mixes) { \
                Part parts[4] = { { takes[0], n, 0, gains, UNITY }, { takes[1], n, 0, 0x08000700, UNITY }, { takes[2], n, 0, 0x01001000, UNITY }, { takes[3], n, 0, 0x0f000f00, UNITY } }; \
                mix_once##BITS(parts, 4, sums, out, n); \
            } \
            check = check * 31 ^ ((uint16_t)out[n - 1].left | (uint32_t)(uint16_t)out[n - 1].right << 16) ^ (mixes ? 0 : sums[n - 1].left & 0xffff); \
        } \
        return check; \
    }

typedef struct { const Frame *frames; uint32_t n, mono, gains, scale; } Part;
KERNELS(64)
KERNELS(32)

/* All cycles, in sums of 32 bits, which hold up to 15 takes, or of 64. */
#define PLAY(NAME, SUM, ADD, END) \
    static void NAME(const Session *s, Frame **frames, FILE *out) { \
        SUM *sums = malloc(s->len * sizeof *sums); \
        Frame *buffer = malloc(s->len * sizeof *buffer); \
        for (uint32_t cycle = 0; cycle < s->cycles; cycle++) { \
            memset(sums, 0, s->len * sizeof *sums); \
            for (uint32_t i = 0; i < s->tracks; i++) { \
                const Track *t = &s->track[i]; \
                uint32_t from = cycle * s->len, n = from >= t->count ? 0 : t->count - from < s->len ? t->count - from : s->len; \
                ADD(frames[i] + (n ? from : 0), n, t->mono, used(t->gains & 0xffff, t->scale), used(t->gains >> 16, t->scale), sums); \
            } \
            END(sums, s->len, buffer); \
            fwrite(buffer, sizeof *buffer, s->len, out); \
        } \
    }
PLAY(play, Sum, accumulate, finish)
PLAY(play_wide, Sum64, add64, end64)

static void mix(const char *folder, const char *target) {
    Session s;
    FILE *plan = in_folder(folder, "plan.bin", "rb");
    if (fread(&s, sizeof s, 1, plan) != 1) exit(1);
    fclose(plan);
    Frame *frames[TRACKS];
    for (uint32_t i = 0; i < s.tracks; i++) {
        char name[16];
        snprintf(name, sizeof name, "t%u.pcm", i);
        FILE *pcm = in_folder(folder, name, "rb");
        fseek(pcm, 0, SEEK_END);
        size_t bytes = ftell(pcm);
        rewind(pcm);
        int16_t *samples = malloc(bytes);
        if (fread(samples, 1, bytes, pcm) != bytes) exit(1);
        fclose(pcm);
        if (s.track[i].mono) {
            frames[i] = malloc(bytes * 2);
            for (size_t j = 0; j < bytes / 2; j++) frames[i][j] = (Frame){ samples[j], samples[j] };
            free(samples);
        } else
            frames[i] = (Frame *)samples;
    }
    FILE *out = fopen(target, "wb");
    if (!out) { perror(target); exit(1); }
    if (s.tracks <= NARROW) play(&s, frames, out);
    else play_wide(&s, frames, out);
    fclose(out);
}

enum { CELLS = 128, ROOM = 100 };
static Frame cells[CELLS];
static _Atomic uint32_t front, rear;

static uint32_t put(const Frame *frames, uint32_t n) {
    uint32_t at = atomic_load_explicit(&rear, memory_order_relaxed);
    uint32_t room = ROOM - (at - atomic_load_explicit(&front, memory_order_acquire));
    if (n > room) n = room;
    for (uint32_t i = 0; i < n; i++) cells[(at + i) & (CELLS - 1)] = frames[i];
    atomic_store_explicit(&rear, at + n, memory_order_release);
    return n;
}

static uint32_t get(Frame *into, uint32_t n) {
    uint32_t at = atomic_load_explicit(&front, memory_order_relaxed);
    uint32_t there = atomic_load_explicit(&rear, memory_order_acquire) - at;
    if (n > there) n = there;
    for (uint32_t i = 0; i < n; i++) into[i] = cells[(at + i) & (CELLS - 1)];
    atomic_store_explicit(&front, at + n, memory_order_release);
    return n;
}

static void ring(uint32_t rounds) {
    static Frame frames[64], into[64];
    uint32_t check = 0;
    for (int i = 0; i < 64; i++) frames[i] = (Frame){ i, 0 };
    for (uint32_t round = 0; round < rounds; round++) {
        put(frames, 64);
        get(into, 64);
        check ^= (uint16_t)into[round % 64].left;
    }
    printf("%u\n", check);
}

enum { DEEP = 65536 };
typedef struct { _Atomic uint32_t front, rear, gains; Frame cells[DEEP]; } Ring;
static Ring rings[MOST];

static void fill(Ring *r) {
    for (int chunk = 0; chunk < DEEP / 64; chunk++) {
        uint32_t at = atomic_load_explicit(&r->rear, memory_order_relaxed);
        for (uint32_t i = 0; i < 64; i++) {
            uint32_t word = i * 0x01234567u;
            r->cells[(at + i) & (DEEP - 1)] = (Frame){ (int16_t)(word & 0xffff), (int16_t)(word >> 16) };
        }
        atomic_store_explicit(&r->rear, at + 64, memory_order_release);
    }
}

static uint32_t take(Ring *r, Frame *into, uint32_t n, int in_runs) {
    uint32_t at = atomic_load_explicit(&r->front, memory_order_relaxed);
    uint32_t there = atomic_load_explicit(&r->rear, memory_order_acquire) - at;
    if (n > there) n = there;
    if (in_runs) {
        uint32_t from = at & (DEEP - 1), first = n < DEEP - from ? n : DEEP - from;
        memcpy(into, r->cells + from, first * sizeof *into);
        memcpy(into + first, r->cells, (n - first) * sizeof *into);
    } else
        for (uint32_t i = 0; i < n; i++) into[i] = r->cells[(at + i) & (DEEP - 1)];
    atomic_store_explicit(&r->front, at + n, memory_order_release);
    return n;
}

static void cycle(const char *how, uint32_t len) {
    int in_runs = !strcmp(how, "runs"), keeps = in_runs || !strcmp(how, "log");
    uint32_t check = 0, cycles = strcmp(how, "fill") ? DEEP / len : 0;
    Frame *buffer = malloc(len * sizeof *buffer), *out = malloc(len * sizeof *out), *kept = malloc(MOST * DEEP * sizeof *kept);
    Sum *sums = malloc(len * sizeof *sums);
    for (int i = 0; i < MOST; i++) {
        fill(&rings[i]);
        rings[i].gains = 0x08000800u + 0x00100020u * i;
    }
    for (uint32_t round = 0; round < cycles; round++) {
        memset(sums, 0, len * sizeof *sums);
        for (int i = 0; i < MOST; i++) {
            uint32_t gains = atomic_load_explicit(&rings[i].gains, memory_order_acquire);
            uint32_t n = take(&rings[i], buffer, len, in_runs);
            if (keeps) { memcpy(kept, buffer, n * sizeof *buffer); kept += n; }
            accumulate(buffer, n, 0, used(gains & 0xffff, UNITY), used(gains >> 16, UNITY), sums);
        }
        finish(sums, len, out);
        check = check * 31 ^ ((uint16_t)out[len - 1].left | (uint32_t)(uint16_t)out[len - 1].right << 16);
    }
    printf("%u\n", check);
}

int main(int words, char **word) {
    if (words == 3 && !strcmp(word[1], "make")) make(word[2], 1563, MOST, 100000);
    else if (words == 4 && !strcmp(word[1], "make")) make(word[2], 128, strtoul(word[3], 0, 10), 8192);
    else if (words == 4 && !strcmp(word[1], "random")) make_random(strtoul(word[2], 0, 10), word[3]);
    else if (words == 4 && !strcmp(word[1], "mix")) mix(word[2], word[3]);
    else if (words == 5 && !strcmp(word[1], "kernel")) {
        uint32_t frames = strtoul(word[4], 0, 10);
        printf("%u\n", !strcmp(word[2], "64") ? kernel64(word[3], frames) : kernel32(word[3], frames));
    }
    else if (words == 4 && !strcmp(word[1], "cycle")) cycle(word[2], strtoul(word[3], 0, 10));
    else if (words == 3 && !strcmp(word[1], "ring")) ring(strtoul(word[2], 0, 10));
    else return 2;
    return 0;
}
