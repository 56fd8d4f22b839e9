/* The work of `render` and `generate` of the player in plain C, on one thread as `render` does it, but with the loads and stores
   that two mixers and the clients need on threads of their own. The session is the one of the generator's script, which is built in.
   session render SCRIPT OUT             mixes g0.pcm to g7.pcm of the current folder into OUT, and prints the player's line
   session generate NUMBER SCRIPT OUT    draws the eight files, writes them and the script, and goes on as render */
#include <stdatomic.h>
#include <stddef.h>
#include <stdint.h>
#include <stdio.h>
#include <stdlib.h>
#include <string.h>

#ifndef SUM
#define SUM int64_t                    /* sums of 32 bits hold up to 15 takes: -DSUM=int32_t */
#endif

typedef uint32_t u32;
typedef uint64_t u64;

enum { TRACKS = 32, TURNS = 100000, MOST = 16 * 1024, SLOTS = 32, UNITY = 0x1000, COMMAND_CELLS = 128, CALLS = 64, RETRIES = 50, STATES = 4 };
enum { UNDERRUN = 1, INVALID = 4, DISABLED = 8 };                                        /* flags of a block */
enum { OPEN = 1, START, PAUSE, STOP, FLUSH, REMOVE, GAIN, WRITE, DRAIN, YIELD };          /* ops; the first six are commands too */
enum { ABSENT, IDLE, ACTIVE, PAUSING, PAUSED, RESUMING, STOPPING1, STOPPING2, STOPPED, FLUSHED, DEAD = 15 };
enum { HOME, LENT, RETURNING };
enum { COLD_IDLE, MIX_WRITE, EXIT };

typedef struct { int16_t left, right; } Frame;
typedef struct { SUM left, right; } Sum;
typedef struct { u32 kind, a, b; } Op;
typedef struct { char kind; u32 number; } Turn;
typedef struct { int fast, mono; u32 frames, base, scale, count; const Op *ops; } Track;
typedef struct { u32 frames, normal, cycles, tracks, count; Track track[TRACKS]; Turn turns[TURNS]; } Script;

static Script script;

static u32 load(_Atomic u32 *word) { return atomic_load_explicit(word, memory_order_acquire); }
static void store(_Atomic u32 *word, u32 value) { atomic_store_explicit(word, value, memory_order_release); }

static void *room_for(size_t bytes) {
    void *room = calloc(bytes + 1, 1);
    if (!room) { perror("memory"); exit(8); }
    return room;
}

/* ---- a block: a ring of frames or commands, and the words beside it */

typedef struct { _Atomic u32 front, rear, flush, underruns, flags, gains, status; u32 frames, mask, *cells; } Block;
typedef struct { Block *block; u32 rear, flushes; u64 released; int shut; } Writer;
typedef struct { Block *block; u32 front, flush_seen; u64 consumed, taken, dropped; int shut; } Reader;

enum { GO, FULL, LOST };               /* what a write or a send finds */
enum { FRAMES, EMPTY, FLUSHED_NOW, SHUT };

static void open_block(Block *b, u32 frames, u32 base, Writer *writer, Reader *reader) {
    u32 cells = 1;
    while (cells < frames) cells *= 2;
    *b = (Block){ .front = base, .rear = base, .gains = UNITY | UNITY << 16, .frames = frames, .mask = cells - 1, .cells = room_for(4 * cells) };
    *writer = (Writer){ .block = b, .rear = base };
    *reader = (Reader){ .block = b, .front = base };
}

static int find_room(Writer *w, u32 needed, u32 *room) {
    u32 filled = w->rear - load(&w->block->front);
    if (w->shut || load(&w->block->flags) & INVALID) return LOST;
    if (filled > w->block->frames) { w->shut = 1; return LOST; }
    *room = w->block->frames - filled;
    return *room < needed ? FULL : GO;
}

static void put(Writer *w, const void *from, u32 n) {
    Block *b = w->block;
    u32 at = w->rear & b->mask, first = n <= b->mask + 1 - at ? n : b->mask + 1 - at;
    memcpy(b->cells + at, from, first * 4);
    memcpy(b->cells, (const char *)from + first * 4, (n - first) * 4);
    w->rear += n;
    w->released += n;
    store(&b->rear, w->rear);
}

static int send(Writer *w, u32 code, u32 argument) {
    u32 room, answer = find_room(w, 2, &room);
    if (answer == GO) put(w, (u32[]){ code, argument }, 2);
    return answer;
}

static void pass(Reader *r, u32 n) {
    r->front += n;
    r->consumed += n;
    store(&r->block->front, r->front);
}

static int look(Reader *r, u32 ask, u32 *count) {
    if (r->shut) return SHUT;
    u32 flush = load(&r->block->flush), filled = load(&r->block->rear) - r->front;
    if (flush != r->flush_seen) {
        r->flush_seen = flush;
        r->dropped += filled;
        pass(r, filled);
        return FLUSHED_NOW;
    }
    if (filled > r->block->frames) { r->shut = 1; return SHUT; }
    *count = filled < ask ? filled : ask;
    return filled ? FRAMES : EMPTY;
}

static void take(Reader *r, void *into, u32 n) {
    Block *b = r->block;
    u32 at = r->front & b->mask, first = n <= b->mask + 1 - at ? n : b->mask + 1 - at;
    memcpy(into, b->cells + at, first * 4);
    memcpy((char *)into + first * 4, b->cells, (n - first) * 4);
    pass(r, n);
}

/* The frames that a mixer gets of so many, and what it tells and counts: fulls, partials, empties. */
static u32 draw_from(Reader *r, Frame *into, u32 ask, u32 counts[3]) {
    u32 n = 0, seen = look(r, ask, &n);
    if (seen == SHUT) atomic_fetch_or(&r->block->flags, INVALID);
    if (seen == FLUSHED_NOW || seen == SHUT) return 0;
    counts[seen == EMPTY ? 2 : n < ask]++;
    if (n) take(r, into, n);
    r->taken += n;
    if (n < ask) {
        atomic_fetch_add(&r->block->underruns, ask - n);
        atomic_fetch_or(&r->block->flags, UNDERRUN);
    }
    return n;
}

/* ---- the mix */

static int32_t used(u32 half, u32 scale) { return (half < UNITY ? half : UNITY) * scale >> 12; }
static int16_t clamp(SUM x) { return x < -32768 ? -32768 : x > 32767 ? 32767 : x; }

static void accumulate(const Frame *frames, u32 n, int mono, u32 gains, u32 scale, Sum *sums) {
    int32_t left = used(gains & 0xffff, scale), right = used(gains >> 16, scale);
    if (mono)
        for (u32 i = 0; i < n; i++) { sums[i].left += frames[i].left * left; sums[i].right += frames[i].left * right; }
    else
        for (u32 i = 0; i < n; i++) { sums[i].left += frames[i].left * left; sums[i].right += frames[i].right * right; }
}

static void finish(const Sum *sums, u32 n, Frame *out) {
    for (u32 i = 0; i < n; i++) { out[i].left = clamp(sums[i].left >> 12); out[i].right = clamp(sums[i].right >> 12); }
}

/* ---- what the two mixers share: states one way, the latest report the other, and the pipe */

typedef struct { Reader *reader; u32 generation, scale; int mono; } Item;
typedef struct { u32 mask, command; Item items[SLOTS]; } State;
typedef struct { u64 consumed; u32 generation, flush_seen, shut, counts[3]; } Known;    /* of a stream; counts as draw_from has them */
typedef struct { u64 cycle; Known slots[SLOTS]; } Report;

enum { FRESH = 4 };
static struct { _Atomic u32 pushed, acked; State states[STATES]; } queue;
static struct { _Atomic u32 middle; Report reports[3]; } latest = { .middle = 1 };
static struct { Block block; Writer in; Reader out; } pipe_;

/* ---- a client */

typedef struct {
    Writer stream, command;
    const Op *ops;
    const Frame *frames;
    u32 at, part, state, sent, calls;
    int fresh, owed, removing, ended;  /* fresh: a write put frames and DISABLED is to be cleared; owed: a START is to be sent */
} Client;

static int client_send(Client *c, u32 code, u32 argument) {
    int answer = send(&c->command, code, argument);
    c->calls++;
    if (answer == GO) c->sent++;
    if (answer == LOST) c->ended = 1;
    return answer == GO;
}

/* The state code where all commands sent are settled, else 0. */
static u32 settled_state(Client *c) {
    u32 word = load(&c->command.block->status);
    c->calls++;
    if (word % 16 == DEAD) c->ended = 1;
    return !c->ended && word / 256 >= c->sent ? word % 16 : 0;
}

static int done(Client *c) {
    c->at++;
    c->part = 0;
    return 1;
}

static int write_some(Client *c, u32 count) {
    Writer *w = &c->stream;
    u32 room = 0, answer = find_room(w, 1, &room), left = count - c->part, to_wrap = w->block->mask + 1 - (w->rear & w->block->mask);
    c->calls++;
    if (answer != GO) return c->removing = answer == LOST;
    u32 n = left < room ? left : room;
    if (n > to_wrap) n = to_wrap;
    put(w, c->frames + w->released, n);
    c->part += n;
    return 1;
}

/* After a write while active: a track that was disabled is owed a START. */
static void clear_disabled(Client *c) {
    c->owed = (atomic_fetch_and(&c->stream.block->flags, ~DISABLED) & DISABLED) != 0;
    c->fresh = 0;
    c->calls++;
}

/* The next call, or the next op that needs none; 0 where the turn ends. An op that takes several calls stands at its part. */
static int step(Client *c) {
    const Op *op = &c->ops[c->at];
    if (c->removing) { client_send(c, REMOVE, 0); c->ended = 1; return 0; }
    if (c->owed) { c->owed = !client_send(c, START, c->stream.flushes); return !c->owed; }
    switch (op->kind) {
    case OPEN: return client_send(c, OPEN, 0) && done(c);
    case START:
        if (c->part) return settled_state(c) && done(c);
        if (c->state == ACTIVE) return done(c);
        if (!client_send(c, START, c->stream.flushes)) return 0;
        c->state = ACTIVE;
        return c->part = 1;
    case PAUSE:
        if (c->state == ACTIVE && !client_send(c, PAUSE, 0)) return 0;
        if (c->state == ACTIVE) c->state = PAUSED;
        return done(c);
    case STOP:
        if (c->state != ACTIVE && c->state != PAUSED) return done(c);
        if (!client_send(c, STOP, c->stream.released)) return 0;
        c->state = STOPPED;
        return done(c);
    case FLUSH:
        if (c->part) { if (!client_send(c, FLUSH, 0)) return 0; c->state = IDLE; return done(c); }
        if (c->state == ACTIVE) return done(c);
        c->stream.flushes++;
        atomic_fetch_add(&c->stream.block->flush, 1);
        c->calls++;
        return c->part = 1;
    case DRAIN: return (c->state != STOPPED || settled_state(c) == STOPPED) && done(c);
    case GAIN: store(&c->stream.block->gains, op->a | op->b << 16); c->calls++; return done(c);
    case WRITE:
        if (c->fresh) clear_disabled(c);
        else if (!write_some(c, op->a)) return 0;
        else c->fresh = !c->removing && c->state == ACTIVE;
        return c->part == op->a && !c->fresh ? done(c) : 1;
    case YIELD: done(c); return 0;
    default:
        if (client_send(c, REMOVE, 0)) c->ended = 1;
        return 0;
    }
}

static void client_turn(Client *c) {
    c->calls = 0;
    while (!c->ended && c->calls < CALLS && step(c)) {}
}

/* ---- the normal mixer: the lives of the tracks, the states, and the tracks without a slot */

typedef struct { int member, ended, drained; u32 state, retries, stop_at; } Life;

typedef struct {
    Reader stream, command;
    Life life;
    Known attached;                    /* as the stream was when it was lent */
    int place, awaits;
    u32 slot, generation, awaited, settled, stored, own[3], counted[3];   /* counts of the own looks, and the fast mixer's seen last */
    const Track *track;
} Lane;

static Client clients[TRACKS];
static Lane lanes[TRACKS];
static struct { State draft; u32 generations[SLOTS], front; int dirty, ended; Sum sums[MOST]; Frame frames[MOST], mixed[MOST]; } normal = { .front = 2 };

static void on_command(Life *l, u32 code, u32 argument) {
    u32 s = l->state;
    if (l->ended) return;
    if (code == OPEN && s == ABSENT) l->state = IDLE;
    else if (code == START && s != ABSENT) *l = (Life){ .member = 1, .state = s == PAUSED ? RESUMING : ACTIVE, .retries = RETRIES, .stop_at = l->stop_at };
    else if (code == PAUSE && (s == ACTIVE || s == RESUMING)) l->state = PAUSING;
    else if (code == STOP && (s == ACTIVE || s == RESUMING || s == PAUSING || s == PAUSED)) {
        if (l->member) { l->state = STOPPING1; l->stop_at = argument; }
        else l->state = STOPPED;
    } else if (code == FLUSH && s != ABSENT && s != ACTIVE && s != RESUMING) l->state = FLUSHED;
    else if (code == REMOVE) l->ended = 1;
}

/* Whether the track becomes disabled. */
static int on_report(Life *l, const Known *k) {
    if (k->shut) l->ended = 1;
    if (l->ended) { l->member = 0; return 0; }
    switch (l->state) {
    case STOPPING1: if (k->consumed >= l->stop_at) { l->state = STOPPING2; l->drained = 1; } return 0;
    case STOPPING2: l->state = STOPPED; l->member = 0; return 0;
    case PAUSING: l->state = PAUSED; return 0;
    case RESUMING: l->state = ACTIVE; return 0;
    case ACTIVE:
        if (!l->member) return 0;
        if (k->counts[0] || k->counts[1]) l->retries = RETRIES;
        if (k->counts[2] && l->retries) l->retries--;
        if (k->counts[2] && !l->retries) l->member = 0;
        return !l->member;
    default: if (l->state != ABSENT) l->member = 0; return 0;
    }
}

static Known now(const Reader *r) { return (Known){ .consumed = r->consumed, .flush_seen = r->flush_seen, .shut = r->shut }; }

/* What is known of a track's stream, with the counts since the last turn. */
static Known known(Lane *t, const Report *report) {
    Known k = t->place == HOME ? now(&t->stream) : report->slots[t->slot];
    if (t->place == HOME) {
        memcpy(k.counts, t->own, sizeof k.counts);
        memset(t->own, 0, sizeof t->own);
        return k;
    }
    if (k.generation != t->generation) return t->attached;
    for (int i = 0; i < 3; i++) {
        k.counts[i] -= t->counted[i];
        t->counted[i] += k.counts[i];
    }
    return k;
}

/* The lowest slot that no track holds; 0 where there is none. */
static u32 free_slot(void) {
    u32 held = 1;
    for (u32 i = 0; i < script.tracks; i++) {
        Lane *t = &lanes[i];
        if (!(t->life.ended && t->place == HOME)) held |= 1u << t->slot;
    }
    return ~held ? __builtin_ctz(~held) : 0;
}

/* The commands of a track, up to a START that awaits a flush; whether its block is shut. */
static int commands(Lane *t, u32 flush_seen) {
    for (int i = 0; i < CALLS; i++) {
        u32 n, command[2], seen = look(&t->command, 2, &n);
        if (seen != FRAMES || n != 2) return seen == SHUT;
        take(&t->command, command, 2);
        int ignored = t->life.state == ABSENT || t->life.ended;
        if (command[0] == OPEN && t->life.state == ABSENT && !t->life.ended && t->track->fast) t->slot = free_slot();
        on_command(&t->life, command[0], command[1]);
        if (command[0] == START && !ignored && command[1] > flush_seen) {
            t->awaits = 1;
            t->awaited = command[1];
            return 0;
        }
        t->settled++;
    }
    return 0;
}

static void visit(Lane *t, const Report *report) {
    Known k = known(t, report);
    if (t->awaits && k.flush_seen >= t->awaited) { t->awaits = 0; t->settled++; }
    if (!t->awaits && commands(t, k.flush_seen)) k.shut = 1;
    if (on_report(&t->life, &k)) atomic_fetch_or(&t->stream.block->flags, DISABLED);
    if (k.shut) {
        atomic_fetch_or(&t->command.block->flags, INVALID);
        if (t->place == HOME) atomic_fetch_or(&t->stream.block->flags, INVALID);
    }
    u32 word = (k.shut ? DEAD : t->life.state) + 16 * t->life.drained + 256 * t->settled;
    if (word != t->stored) store(&t->command.block->status, t->stored = word);
}

static int wanted(const Lane *t) { return t->life.member && !t->life.ended; }

/* The draft of the next state. */
static void edit(int whole) {
    State *draft = &normal.draft;
    int all_gone = 1, any = 0;
    for (u32 i = 0; i < script.tracks; i++) {
        Lane *t = &lanes[i];
        if (t->place == LENT && !wanted(t)) {
            draft->mask &= ~(1u << t->slot);
            t->place = RETURNING;
            normal.dirty = 1;
        } else if (t->place == HOME && t->slot && wanted(t)) {
            t->generation = ++normal.generations[t->slot];
            draft->mask |= 1u << t->slot;
            draft->items[t->slot] = (Item){ &t->stream, t->generation, t->track->scale, t->track->mono };
            t->place = LENT;
            t->attached = now(&t->stream);
            memset(t->counted, 0, sizeof t->counted);
            normal.dirty = 1;
        }
        all_gone &= t->life.ended && t->place == HOME;
        any |= wanted(t);
    }
    u32 command = draft->command == EXIT || (all_gone && whole) ? EXIT : any || !whole ? MIX_WRITE : COLD_IDLE;
    if (command != draft->command) { draft->command = command; normal.dirty = 1; }
}

static void push(void) {
    u32 pushed = queue.pushed;
    if (!normal.dirty || load(&queue.acked) != pushed) return;
    State *state = &queue.states[(pushed + 1) % STATES];
    state->mask = normal.draft.mask;
    state->command = normal.draft.command;
    for (u32 mask = state->mask; mask; mask &= mask - 1) state->items[__builtin_ctz(mask)] = normal.draft.items[__builtin_ctz(mask)];
    store(&queue.pushed, pushed + 1);
    normal.dirty = 0;
}

/* The tracks without a slot, mixed into the pipe. */
static void normal_buffer(u32 room) {
    u32 size = script.normal * script.frames, mixed = 0;
    if (room < size) return;
    for (u32 i = 0; i < script.tracks; i++) {
        Lane *t = &lanes[i];
        if (t->slot || !wanted(t)) continue;
        if (!mixed++) memset(normal.sums, 0, size * sizeof *normal.sums);
        u32 gains = load(&t->stream.block->gains), n = draw_from(&t->stream, normal.frames, size, t->own);
        accumulate(normal.frames, n, t->track->mono, gains, t->track->scale, normal.sums);
    }
    if (!mixed) return;
    finish(normal.sums, size, normal.mixed);
    put(&pipe_.in, normal.mixed, size);
}

static const Report *latest_report(void) {
    if (load(&latest.middle) & FRESH) normal.front = atomic_exchange(&latest.middle, normal.front) & ~FRESH;
    return &latest.reports[normal.front];
}

static void normal_turn(void) {
    u32 pushed = queue.pushed;
    if (!normal.ended && load(&queue.acked) == pushed) {
        State *last = &queue.states[pushed % STATES];
        for (u32 i = 0; i < script.tracks; i++)
            if (lanes[i].place == RETURNING && !(last->mask >> lanes[i].slot & 1)) lanes[i].place = HOME;
        normal.ended = last->command == EXIT;
    }
    if (normal.ended) {
        for (u32 i = 0; i < script.tracks; i++) clients[i].ended = 1;
        return;
    }
    const Report *report = latest_report();
    u32 room = pipe_.block.frames - (pipe_.in.rear - load(&pipe_.block.front));
    for (u32 i = 0; i < script.tracks; i++)
        if (!lanes[i].life.ended) visit(&lanes[i], report);
    edit(room == pipe_.block.frames);
    push();
    normal_buffer(room);
}

/* ---- the fast mixer */

static struct { const State *state; u32 number, back, used; int ended; u64 cycles, written; Report report; Sum sums[MOST]; Frame frames[MOST], *out; } fast;

static void adopt(void) {
    if (load(&queue.pushed) == fast.number) return;
    fast.state = &queue.states[++fast.number % STATES];
    for (u32 mask = fast.state->mask; mask; mask &= mask - 1) {
        u32 slot = __builtin_ctz(mask);
        if (slot >= fast.used) fast.used = slot + 1;
        if (fast.report.slots[slot].generation != fast.state->items[slot].generation)
            fast.report.slots[slot] = (Known){ .generation = fast.state->items[slot].generation };
    }
    store(&queue.acked, fast.number);
}

static void mix_cycle(void) {
    u32 length = script.frames, n = 0;
    memset(fast.sums, 0, length * sizeof *fast.sums);
    if (look(&pipe_.out, length, &n) == FRAMES) take(&pipe_.out, fast.frames, n);
    accumulate(fast.frames, n, 0, UNITY | UNITY << 16, UNITY, fast.sums);
    for (u32 mask = fast.state->mask; mask; mask &= mask - 1) {
        u32 slot = __builtin_ctz(mask);
        const Item *item = &fast.state->items[slot];
        u32 gains = load(&item->reader->block->gains), n = draw_from(item->reader, fast.frames, length, fast.report.slots[slot].counts);
        accumulate(fast.frames, n, item->mono, gains, item->scale, fast.sums);
    }
    finish(fast.sums, length, fast.out + fast.written);
    fast.written += length;
}

static void store_report(void) {
    fast.report.cycle = fast.cycles;
    for (u32 mask = fast.state ? fast.state->mask : 0; mask; mask &= mask - 1) {
        u32 slot = __builtin_ctz(mask);
        Known *to = &fast.report.slots[slot], k = now(fast.state->items[slot].reader);
        to->consumed = k.consumed;
        to->flush_seen = k.flush_seen;
        to->shut = k.shut;
    }
    memcpy(&latest.reports[fast.back], &fast.report, offsetof(Report, slots) + fast.used * sizeof(Known));
    fast.back = atomic_exchange(&latest.middle, fast.back | FRESH) & ~FRESH;
}

/* At most so many cycles, fewer after one that isn't mixed. */
static void fast_turn(u32 cycles) {
    for (u32 i = 0; i < cycles && !fast.ended && fast.cycles < script.cycles; i++) {
        adopt();
        u32 command = fast.state ? fast.state->command : COLD_IDLE;
        fast.cycles++;
        if (command == MIX_WRITE) mix_cycle();
        store_report();
        fast.ended = command == EXIT;
        if (command != MIX_WRITE) return;
    }
}

/* ---- files, and the session */

static void *read_file(const char *name, size_t *bytes) {
    FILE *file = fopen(name, "rb");
    if (!file || fseek(file, 0, SEEK_END)) { perror(name); exit(4); }
    *bytes = ftell(file);
    rewind(file);
    void *data = room_for(*bytes);
    if (fread(data, 1, *bytes, file) != *bytes) { perror(name); exit(4); }
    fclose(file);
    return data;
}

static void write_file(const char *name, const void *data, size_t bytes) {
    FILE *file = fopen(name, "wb");
    if (!file || fwrite(data, 1, bytes, file) != bytes || fclose(file)) { perror(name); exit(5); }
}

/* The frames of a track's file; a mono sample goes to both sides. */
static Frame *read_frames(const Track *track, u32 at) {
    char name[16];
    size_t bytes;
    snprintf(name, sizeof name, "g%u.pcm", at);
    int16_t *samples = read_file(name, &bytes);
    size_t count = bytes / (track->mono ? 2 : 4), asked = 0;
    for (u32 i = 0; i < track->count; i++) asked += track->ops[i].kind == WRITE ? track->ops[i].a : 0;
    if (bytes % (track->mono ? 2 : 4) || count < asked) { fprintf(stderr, "%s doesn't fit\n", name); exit(4); }
    if (!track->mono) return (Frame *)samples;
    Frame *frames = room_for(count * sizeof *frames);
    for (size_t i = 0; i < count; i++) frames[i] = (Frame){ samples[i], samples[i] };
    free(samples);
    return frames;
}

static void render(const char *target) {
    static Block streams[TRACKS], commands[TRACKS];
    fast.out = room_for(script.cycles * script.frames * sizeof(Frame));
    open_block(&pipe_.block, 4 * script.normal * script.frames, 0, &pipe_.in, &pipe_.out);
    for (u32 i = 0; i < script.tracks; i++) {
        const Track *track = lanes[i].track = &script.track[i];
        clients[i].ops = track->ops;
        clients[i].frames = read_frames(track, i);
        open_block(&streams[i], track->frames, track->base, &clients[i].stream, &lanes[i].stream);
        open_block(&commands[i], COMMAND_CELLS, 0, &clients[i].command, &lanes[i].command);
    }
    for (u32 i = 0; i < script.count; i++)
        switch (script.turns[i].kind) {
        case 'c': client_turn(&clients[script.turns[i].number]); break;
        case 'n': normal_turn(); break;
        default: fast_turn(script.turns[i].number);
        }
    write_file(target, fast.out, fast.written * sizeof(Frame));
    u64 mixed = 0, dropped = 0, queued = 0;
    for (u32 i = 0; i < script.tracks; i++) {
        Reader *r = &lanes[i].stream;
        mixed += r->taken;
        dropped += r->dropped;
        queued += clients[i].stream.released - r->taken - r->dropped;
    }
    int32_t peak = 0;
    for (u64 i = 0; i < 2 * fast.written; i++) {
        int32_t side = abs(((int16_t *)fast.out)[i]);
        if (side > peak) peak = side;
    }
    printf("cycles %llu mixed %llu dropped %llu queued %llu peak %d\n", (unsigned long long)(fast.written / script.frames),
        (unsigned long long)mixed, (unsigned long long)dropped, (unsigned long long)queued, peak);
}

/* ---- the generator */

enum { COUNT = 8, DRAWN = 100000, ROUNDS = 420, WRITES = 200, OPS = WRITES + 6 };
static Op ops[OPS] = { { OPEN, 0, 0 }, { START, 0, 0 }, { GAIN, 2048, 2048 } };

static void build_script(void) {
    for (u32 i = 0; i < WRITES; i++) ops[3 + i] = (Op){ WRITE, DRAWN / WRITES, 0 };
    for (u32 i = 0; i < 3; i++) ops[3 + WRITES + i].kind = (u32[]){ STOP, DRAIN, REMOVE }[i];
    script.frames = 64;
    script.normal = 4;
    script.cycles = 2000;
    script.tracks = COUNT;
    script.count = ROUNDS * (COUNT + 2);
    for (u32 i = 0; i < COUNT; i++) script.track[i] = (Track){ i < COUNT / 2, i % 2 == 0, 512, 0, UNITY, OPS, ops };
    for (u32 i = 0; i < script.count; i++) {
        u32 at = i % (COUNT + 2);
        script.turns[i] = at < COUNT ? (Turn){ 'c', at } : at == COUNT ? (Turn){ 'n', 0 } : (Turn){ 'f', 4 };
    }
}

static void write_script(const char *name) {
    size_t room = 24 * script.count + COUNT * (15 * OPS + 200), length = 0;
    char *text = room_for(room);
#define SAY(...) (length += snprintf(text + length, room - length, __VA_ARGS__))
    SAY("version = 1\nframes = %u\nnormal = %u\ncycles = %u\nturns = [", script.frames, script.normal, script.cycles);
    for (u32 i = 0; i < script.count; i++) {
        const char *form = script.turns[i].kind == 'n' ? "%s\"%c\"" : "%s\"%c %u\"";
        SAY(form, i ? ", " : "", script.turns[i].kind, script.turns[i].number);
    }
    SAY("]\n");
    for (u32 i = 0; i < COUNT; i++) {
        SAY("\n[[track]]\nkind = \"%s\"\nframes = %u\nchannels = %u\nfile = \"g%u.pcm\"\n", script.track[i].fast ? "fast" : "normal", script.track[i].frames, 2 - script.track[i].mono, i);
        SAY("ops = [\"open\", \"start\", \"gain %u %u\"", ops[2].a, ops[2].b);
        for (u32 j = 0; j < WRITES; j++) SAY(", \"write %u\"", ops[3 + j].a);
        SAY(", \"stop\", \"drain\", \"remove\"]\n");
    }
    write_file(name, text, length);
    free(text);
}

static void generate(u32 drawn, const char *name) {
    static int16_t samples[2 * DRAWN];
    for (u32 i = 0; i < COUNT; i++) {
        size_t count = (2 - script.track[i].mono) * DRAWN;
        for (size_t j = 0; j < count; j++) {
            drawn = (drawn * 1103515245u + 12345) & 0x7fffffff;
            samples[j] = (int16_t)(drawn / 256 % 16384 - 8192);
        }
        char file[16];
        snprintf(file, sizeof file, "g%u.pcm", i);
        write_file(file, samples, count * 2);
    }
    write_script(name);
}

int main(int words, char **word) {
    build_script();
    if (words == 5 && !strcmp(word[1], "generate")) generate(strtoul(word[2], 0, 10), word[3]);
    else if (words != 4 || strcmp(word[1], "render")) return 2;
    render(word[words - 1]);
    return 0;
}
