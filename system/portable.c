/* The calls of csicodec.h for any system that has a C compiler, over the proved library as a module of WebAssembly, which wasm2c made C of:
 * tools/release puts that C where this file includes it. Arguments are copied into the module's memory and results out of it, so any byte
 * order and any size of size_t will do. Each access of the module is checked, and one beyond its memory ends the program. */
#include <stdlib.h>
#include <string.h>

#include "csicodec.h"

#if __STDC_VERSION__ >= 201112L && !defined(__STDC_NO_ATOMICS__)
#include <stdatomic.h>
#define HAS_ATOMICS
#endif

/* ---- what the module asks for: a memory, whose numbers have their lowest byte first, and the arithmetic of WebAssembly */

typedef uint8_t u8;
typedef int8_t s8;
typedef uint16_t u16;
typedef int16_t s16;
typedef uint32_t u32;
typedef int32_t s32;
typedef uint64_t u64;
typedef int64_t s64;

enum { PAGE = 65536 };

typedef struct {
    u8 *data;
    u32 pages, most;
    u64 size;
} wasm_rt_memory_t;

static u64 trap(void) {
    abort();
    return 0;
}
static void in_memory(const wasm_rt_memory_t *m, u64 at, u64 n) {
    if (at + n > m->size) trap();
}
#define UNREACHABLE trap()
#define FUNC_PROLOGUE
#define FUNC_EPILOGUE

#if defined(__BYTE_ORDER__) && __BYTE_ORDER__ == __ORDER_BIG_ENDIAN__
#define LOW_FIRST(type, x) (sizeof(type) == 8 ? (type)__builtin_bswap64(x) : sizeof(type) == 4 ? (type)__builtin_bswap32((u32)(x)) : \
                            sizeof(type) == 2 ? (type)__builtin_bswap16((u16)(x)) : (x))
#else
#define LOW_FIRST(type, x) (x)
#endif
/* Loads a number of so many bits, which `as` makes one of the type of the answer. */
#define LOAD(name, bits, as, to) \
    static inline to name(const wasm_rt_memory_t *m, u64 at) { \
        u##bits held; \
        in_memory(m, at, sizeof held); \
        memcpy(&held, m->data + at, sizeof held); \
        return (to)(as)LOW_FIRST(u##bits, held); \
    }
#define STORE(name, bits, from) \
    static inline void name(wasm_rt_memory_t *m, u64 at, from value) { \
        u##bits held = LOW_FIRST(u##bits, (u##bits)value); \
        in_memory(m, at, sizeof held); \
        memcpy(m->data + at, &held, sizeof held); \
    }
LOAD(i32_load, 32, u32, u32)
LOAD(i32_load8_s, 8, s8, u32)
LOAD(i32_load8_u, 8, u8, u32)
LOAD(i32_load16_s, 16, s16, u32)
LOAD(i32_load16_u, 16, u16, u32)
LOAD(i64_load, 64, u64, u64)
LOAD(i64_load8_s, 8, s8, u64)
LOAD(i64_load8_u, 8, u8, u64)
LOAD(i64_load16_s, 16, s16, u64)
LOAD(i64_load16_u, 16, u16, u64)
LOAD(i64_load32_s, 32, s32, u64)
LOAD(i64_load32_u, 32, u32, u64)
STORE(i32_store, 32, u32)
STORE(i32_store8, 8, u32)
STORE(i32_store16, 16, u32)
STORE(i64_store, 64, u64)
STORE(i64_store8, 8, u64)
STORE(i64_store16, 16, u64)
STORE(i64_store32, 32, u64)

static inline void memory_fill(wasm_rt_memory_t *m, u32 at, u32 value, u32 n) {
    in_memory(m, at, n);
    memset(m->data + at, (int)(value & 255), n);
}
static inline void memory_copy(wasm_rt_memory_t *to, const wasm_rt_memory_t *from, u32 at, u32 place, u32 n) {
    in_memory(to, at, n);
    in_memory(from, place, n);
    memmove(to->data + at, from->data + place, n);
}
#define LOAD_DATA(m, at, bytes, n) (in_memory(&(m), at, n), memcpy((m).data + (at), bytes, n))

static inline u32 zeros_below(u64 x) {
#ifdef __GNUC__
    return (u32)__builtin_ctzll(x);
#else
    u32 n = 0;
    for (; !(x & 1); x >>= 1) n++;
    return n;
#endif
}
static inline u32 zeros_above(u64 x) {
    u32 n = 0;
    for (; !(x >> 63); x <<= 1) n++;
    return n;
}
static inline u32 ones(u64 x) {
    u32 n = 0;
    for (; x; x &= x - 1) n++;
    return n;
}
#define I32_CTZ(x) ((x) ? zeros_below(x) : 32)
#define I64_CTZ(x) ((x) ? zeros_below(x) : 64)
#define I32_CLZ(x) ((x) ? zeros_above(x) - 32 : 32)
#define I64_CLZ(x) ((x) ? zeros_above(x) : 64)
#define I32_POPCNT(x) ones(x)
#define I64_POPCNT(x) ones(x)
#define I32_ROTL(x, n) ((x) << ((n) & 31) | (x) >> ((32 - (n)) & 31))
#define I32_ROTR(x, n) ((x) >> ((n) & 31) | (x) << ((32 - (n)) & 31))
#define I64_ROTL(x, n) ((x) << ((n) & 63) | (x) >> ((64 - (n)) & 63))
#define I64_ROTR(x, n) ((x) >> ((n) & 63) | (x) << ((64 - (n)) & 63))
#define DIV_U(x, y) ((y) ? (x) / (y) : trap())
#define REM_U(x, y) ((y) ? (x) % (y) : trap())

static int allocate(wasm_rt_memory_t *m, u32 pages, u32 most) {
    m->data = calloc(pages, PAGE);
    m->pages = m->data ? pages : 0, m->most = most;
    m->size = (u64)m->pages * PAGE;
    return m->data != NULL;
}
/* What begins the module's memory ends here where there are no pages for it. */
#define wasm_rt_allocate_memory(m, pages, most) if (!allocate(m, pages, most)) return
static u32 wasm_rt_grow_memory(wasm_rt_memory_t *m, u32 more) {
    u32 before = m->pages;
    u64 now = (u64)before + more;
    u8 *data;
    if (now > m->most || now > SIZE_MAX / PAGE || !(data = realloc(m->data, (size_t)now * PAGE))) return UINT32_MAX;
    memset(data + (size_t)before * PAGE, 0, (size_t)more * PAGE);
    m->data = data, m->pages = (u32)now, m->size = now * PAGE;
    return before;
}

#include "module.c"

/* ---- instances of the module: some wait for the next call, so that any thread may call, and none keeps one */

typedef Z_csicodec_instance_t instance;

/* How many wait, and the most bytes that one of them has; one that grew beyond that is freed with the end of its call. */
enum { WAITING = 8, MOST = 4 << 20, ANSWER = 64 };

#ifdef HAS_ATOMICS
static _Atomic(instance *) waiting[WAITING];
static instance *waits(void) {
    size_t i;
    for (i = 0; i < WAITING; i++) {
        instance *it = atomic_exchange(&waiting[i], NULL);
        if (it) return it;
    }
    return NULL;
}
static int keep(instance *it) {
    size_t i;
    for (i = 0; i < WAITING; i++) {
        instance *none = NULL;
        if (atomic_compare_exchange_strong(&waiting[i], &none, it)) return 1;
    }
    return 0;
}
#else
static instance *waits(void) { return NULL; }
static int keep(instance *it) { return it == NULL; }
#endif

static instance *begin(void) {
    instance *it = calloc(1, sizeof *it);
    if (!it) return NULL;
    init_globals(it);
    init_memories(it);
    if (it->w2c_memory.data) return it;
    free(it);
    return NULL;
}

/* A call: its instance, where its answer lies there, and what it took. */
struct call {
    instance *it;
    u64 answer, taken[5];
    size_t count;
    int lacks;
};

static u64 take(struct call *call, size_t n) {
    u64 at = call->lacks || (u64)n > 1u << 30 ? 0 : w2c_csicodec_room(call->it, n);
    if (at) call->taken[call->count++] = at;
    else call->lacks = 1;
    return at;
}
static void give(struct call *call) {
    u64 at = call->taken[--call->count];
    w2c_csicodec_free(call->it, at);
}
static struct call enter(void) {
    struct call call = {0};
    call.it = waits();
    if (!call.it) call.it = begin();
    call.lacks = !call.it;
    call.answer = take(&call, ANSWER);
    return call;
}
static void leave(struct call *call) {
    instance *it = call->it;
    if (!it) return;
    while (call->count) give(call);
    if (it->w2c_memory.size <= MOST && keep(it)) return;
    free(it->w2c_memory.data);
    free(it);
}

/* ---- numbers, bytes and structs in the module's memory */

static u64 load(const struct call *call, u64 at, u64 bytes) {
    const wasm_rt_memory_t *m = &call->it->w2c_memory;
    return bytes == 8 ? i64_load(m, at) : bytes == 4 ? i64_load32_u(m, at) : bytes == 2 ? i64_load16_u(m, at) : i64_load8_u(m, at);
}
static void store(struct call *call, u64 at, u64 bytes, u64 value) {
    wasm_rt_memory_t *m = &call->it->w2c_memory;
    if (bytes == 8) i64_store(m, at, value);
    else if (bytes == 4) i64_store32(m, at, value);
    else if (bytes == 2) i64_store16(m, at, value);
    else i64_store8(m, at, value);
}
static u32 word(const struct call *call, u64 at) { return (u32)load(call, call->answer + at, 4); }
static size_t size(const struct call *call, u64 at) { return (size_t)load(call, call->answer + at, 8); }
static size_t least(size_t a, size_t b) { return a < b ? a : b; }

static u64 bytes_in(struct call *call, const u8 *bytes, size_t n) {
    u64 at = take(call, n);
    if (at && n) {
        in_memory(&call->it->w2c_memory, at, n);
        memcpy(call->it->w2c_memory.data + at, bytes, n);
    }
    return at;
}
static void bytes_out(const struct call *call, u8 *to, u64 at, size_t n) {
    if (!n) return;
    in_memory(&call->it->w2c_memory, at, n);
    memcpy(to, call->it->w2c_memory.data + at, n);
}

/* The members of an action, each with its place in the module and its length there. */
#define ACTION(X) X(kind, 0, 4) X(final_char, 4, 4) X(first, 8, 8) X(second, 16, 8) X(top, 24, 4) X(left, 28, 4) X(bottom, 32, 4) \
    X(right, 36, 4) X(place, 40, 8) X(len, 48, 8) X(red, 56, 1) X(green, 57, 1) X(blue, 58, 1) X(alpha, 59, 1) X(modifiers, 60, 2) \
    X(button, 62, 1) X(absent, 63, 1)

/* Room for structs of so many bytes; as if it were too large, if size_t can't say how large. */
static u64 room_of(struct call *call, size_t n, size_t bytes) { return take(call, n > SIZE_MAX / bytes ? SIZE_MAX : n * bytes); }
static u64 actions_in(struct call *call, const struct csicodec_action *actions, size_t n) {
    u64 at = room_of(call, n, 64), i;
    if (!at) return 0;
#define X(member, place, bytes) store(call, at + 64 * i + place, bytes, (u64)actions[i].member);
    for (i = 0; i < n; i++) { ACTION(X) }
#undef X
    return at;
}
static void actions_out(const struct call *call, struct csicodec_action *actions, u64 at, size_t n) {
    size_t i;
#define X(member, place, bytes) actions[i].member = load(call, at + 64 * (u64)i + place, bytes);
    for (i = 0; i < n; i++) { ACTION(X) }
#undef X
}
static u64 params_in(struct call *call, const struct csicodec_param *params, size_t n) {
    u64 at = room_of(call, n, 16), i;
    if (!at) return 0;
    for (i = 0; i < n; i++) store(call, at + 16 * i, 8, params[i].kind), store(call, at + 16 * i + 8, 8, (u64)params[i].value);
    return at;
}
static void params_out(const struct call *call, struct csicodec_param *params, u64 at, size_t n) {
    size_t i;
    for (i = 0; i < n; i++) params[i].kind = load(call, at + 16 * (u64)i, 8), params[i].value = (int64_t)load(call, at + 16 * (u64)i + 8, 8);
}

/* ---- the calls */

#define BYTES const uint8_t *bytes, size_t len
#define OUT uint8_t *out, size_t room
#define ROOM struct csicodec_action *actions, size_t actions_room, struct csicodec_param *params, size_t params_room
#define GIVEN const struct csicodec_action *actions, size_t count, const struct csicodec_param *params, size_t params_count
#define NOTHING

/* Of a call that writes bytes, what is done once its arguments are there: it is given room for a few times the bytes that it has, and made
 * again with what it needs, if that is more. `read` fills the answer `r`. */
#define WRITE(length, read, ...) \
    do { \
        size_t some = least(room, 4 * (length) + 64); \
        for (;;) { \
            u64 to = take(&call, some); \
            if (call.lacks) break; \
            __VA_ARGS__; \
            read; \
            if (r.status == CSICODEC_OK && r.needed <= some) bytes_out(&call, out, to, r.needed); \
            if (r.status != CSICODEC_OK || r.needed <= some || r.needed > room) break; \
            give(&call); \
            some = r.needed; \
        } \
        if (call.lacks) memset(&r, 0, sizeof r), r.status = CSICODEC_MEMORY; \
        leave(&call); \
    } while (0)

struct csicodec_normalised csicodec_normalise(BYTES, OUT) {
    struct csicodec_normalised r = {0};
    struct call call = enter();
    u64 in = bytes_in(&call, bytes, len);
    WRITE(len, (r.status = word(&call, 0), r.start = size(&call, 8), r.at = size(&call, 16), r.needed = size(&call, 24)),
          w2c_csicodec_normalise(call.it, call.answer, in, len, to, some));
    return r;
}

#define ENCODE(name) \
    struct csicodec_encoded csicodec_##name(GIVEN, OUT) { \
        struct csicodec_encoded r = {0}; \
        struct call call = enter(); \
        u64 a = actions_in(&call, actions, count), p = params_in(&call, params, params_count); \
        WRITE(16 * count + 16 * params_count, (r.status = word(&call, 0), r.at = size(&call, 8), r.needed = size(&call, 16)), \
              w2c_csicodec_##name(call.it, call.answer, a, count, p, params_count, to, some)); \
        return r; \
    }
ENCODE(encode)
ENCODE(encode_compact)

struct csicodec_judged csicodec_is_canonical(const struct csicodec_action *action, const struct csicodec_param *params, size_t params_count) {
    struct csicodec_judged r = {CSICODEC_MEMORY, 0};
    struct call call = enter();
    u64 a = actions_in(&call, action, 1), p = params_in(&call, params, params_count);
    if (!call.lacks) {
        u64 both = w2c_csicodec_is_canonical(call.it, a, p, params_count);
        r.status = (u32)both, r.canonical = (u32)(both >> 32);
    }
    leave(&call);
    return r;
}

struct csicodec_known csicodec_known(const struct csicodec_action *action, const struct csicodec_param *params, size_t params_count) {
    struct csicodec_known r = {0};
    struct call call = enter();
    u64 a = actions_in(&call, action, 1), p = params_in(&call, params, params_count);
    if (!call.lacks) {
        int i;
        w2c_csicodec_known(call.it, call.answer, a, p, params_count);
        r.kind = word(&call, 0), r.count = word(&call, 4);
        for (i = 0; i < CSICODEC_KNOWN_VALUES; i++) r.values[i] = word(&call, 8 + 4 * (u64)i);
    }
    leave(&call);
    return r;
}

#define FILTER(name) \
    struct csicodec_filtered csicodec_##name(uint32_t mode, size_t limit, BYTES, OUT) { \
        struct csicodec_filtered r = {0}; \
        struct call call = enter(); \
        u64 in = bytes_in(&call, bytes, len); \
        WRITE(len, (r.status = word(&call, 0), r.mode = word(&call, 4), r.used = size(&call, 8), r.needed = size(&call, 16)), \
              w2c_csicodec_##name(call.it, call.answer, mode, limit, in, len, to, some)); \
        return r; \
    }
FILTER(filter)
FILTER(compact)
FILTER(compact_semicolons)

#define STRIP(name, given, ...) \
    struct csicodec_stripped csicodec_##name(given BYTES, OUT) { \
        struct csicodec_stripped r = {0}; \
        struct call call = enter(); \
        u64 in = bytes_in(&call, bytes, len); \
        WRITE(len, (r.status = word(&call, 0), r.needed = size(&call, 8)), w2c_csicodec_##name(__VA_ARGS__, in, len, to, some)); \
        return r; \
    }
#define TWO uint32_t depth, uint32_t links,
#define ONE(name) uint32_t name,
STRIP(strip, NOTHING, call.it, call.answer)
STRIP(clean, NOTHING, call.it, call.answer)
STRIP(clean_with, TWO, call.it, call.answer, depth, links)
STRIP(overwrite, ONE(styles), call.it, call.answer, styles)
STRIP(compact_whole, ONE(semicolons), call.it, call.answer, semicolons)

struct csicodec_stripped csicodec_html(const struct csicodec_markup *markup, const uint32_t *colors, size_t count, BYTES, OUT) {
    struct csicodec_stripped r = {0};
    struct call call = enter();
    u64 in = bytes_in(&call, bytes, len), m = take(&call, 16), c = room_of(&call, count, 4), i;
    if (m) store(&call, m, 4, markup->links), store(&call, m + 4, 4, markup->classes), store(&call, m + 8, 4, markup->fragment), store(&call, m + 12, 4, markup->no_overwrite);
    for (i = 0; c && i < count; i++) store(&call, c + 4 * i, 4, colors[i]);
    WRITE(len, (r.status = word(&call, 0), r.needed = size(&call, 8)), w2c_csicodec_html(call.it, call.answer, m, c, count, in, len, to, some));
    return r;
}

static u64 state_in(struct call *call, const struct csicodec_cleaning *state) {
    u64 at = take(call, 16);
    if (!at) return 0;
    store(call, at, 4, state->mode), store(call, at + 4, 4, state->titled);
    store(call, at + 8, 4, state->styled), store(call, at + 12, 4, state->held);
    return at;
}
static struct csicodec_cleaned cleaned(const struct call *call) {
    struct csicodec_cleaned r = {word(call, 0), {word(call, 4), word(call, 8), word(call, 12), word(call, 16)}, size(call, 24), size(call, 32)};
    return r;
}
#define STEP(name, given, ...) \
    struct csicodec_cleaned csicodec_##name(given const struct csicodec_cleaning *state, BYTES, OUT) { \
        struct csicodec_cleaned r = {0}; \
        struct call call = enter(); \
        u64 s = state_in(&call, state), in = bytes_in(&call, bytes, len); \
        WRITE(len, r = cleaned(&call), w2c_csicodec_##name(__VA_ARGS__, s, in, len, to, some)); \
        return r; \
    }
STEP(strip_step, NOTHING, call.it, call.answer)
STEP(clean_step, ONE(depth), call.it, call.answer, depth)

struct csicodec_stripped csicodec_clean_end(const struct csicodec_cleaning *state, BYTES, OUT) {
    struct csicodec_stripped r = {0};
    struct call call = enter();
    u64 s = state_in(&call, state), in = bytes_in(&call, bytes, len);
    WRITE(len, (r.status = word(&call, 0), r.needed = size(&call, 8)), w2c_csicodec_clean_end(call.it, call.answer, s, in, len, to, some));
    return r;
}

/* Of a call that reads what stands at the front: it is given the first bytes, and more of them, up to all, until what it reads ends ahead
 * of their end. So a call doesn't copy all that follows. */
enum { FIRST = 256, BEHIND = 8 };
#define AT_THE_FRONT(r, from, once) \
    do { \
        size_t some = len - least(len, from) < FIRST ? len : (from) + FIRST; \
        for (;;) { \
            r = once; \
            if (some == len || (r.status == CSICODEC_OK && some - least(some, r.used) >= BEHIND)) break; \
            some = some > len / 4 ? len : 4 * some; \
        } \
    } while (0)

static struct csicodec_front front_of(int as_terminals, BYTES, ROOM) {
    struct csicodec_front r = {CSICODEC_MEMORY, 0, 0, 0, 0};
    struct call call = enter();
    u64 in = bytes_in(&call, bytes, len), a = room_of(&call, actions_room, 64), p = room_of(&call, params_room, 16);
    if (!call.lacks) {
        (as_terminals ? w2c_csicodec_terminal_actions : w2c_csicodec_next)(call.it, call.answer, in, len, a, actions_room, p, params_room);
        r.status = word(&call, 0), r.at = size(&call, 8), r.used = size(&call, 16), r.actions = size(&call, 24), r.params = size(&call, 32);
        if (r.status == CSICODEC_OK) actions_out(&call, actions, a, least(actions_room, r.actions)), params_out(&call, params, p, least(params_room, r.params));
    }
    leave(&call);
    return r;
}
struct csicodec_front csicodec_next(BYTES, ROOM) {
    struct csicodec_front r;
    AT_THE_FRONT(r, 0, front_of(0, bytes, some, actions, least(actions_room, some), params, least(params_room, some)));
    return r;
}
struct csicodec_front csicodec_terminal_actions(BYTES, ROOM) {
    struct csicodec_front r;
    AT_THE_FRONT(r, 0, front_of(1, bytes, some, actions, least(actions_room, some), params, least(params_room, some)));
    return r;
}

static struct csicodec_spanned span_of(uint32_t mode, size_t limit, BYTES) {
    struct csicodec_spanned r = {CSICODEC_MEMORY, 0, 0, 0};
    struct call call = enter();
    u64 in = bytes_in(&call, bytes, len);
    if (!call.lacks) {
        w2c_csicodec_span(call.it, call.answer, mode, limit, in, len);
        r.status = word(&call, 0), r.kind = word(&call, 4), r.mode = word(&call, 8), r.used = size(&call, 16);
    }
    leave(&call);
    return r;
}
struct csicodec_spanned csicodec_span(uint32_t mode, size_t limit, BYTES) {
    struct csicodec_spanned r;
    AT_THE_FRONT(r, 0, span_of(mode, limit, bytes, some));
    return r;
}

static struct csicodec_told told_of(uint32_t mode, size_t limit, size_t looked, BYTES, ROOM) {
    struct csicodec_told r = {CSICODEC_MEMORY, 0, 0, 0, 0, 0, 0};
    struct call call = enter();
    u64 in = bytes_in(&call, bytes, len), a = room_of(&call, actions_room, 64), p = room_of(&call, params_room, 16);
    if (!call.lacks) {
        w2c_csicodec_event(call.it, call.answer, mode, limit, looked, in, len, a, actions_room, p, params_room);
        r.status = word(&call, 0), r.kind = word(&call, 4), r.mode = word(&call, 8), r.looked = size(&call, 16);
        r.used = size(&call, 24), r.actions = size(&call, 32), r.params = size(&call, 40);
        if (r.status == CSICODEC_OK) actions_out(&call, actions, a, least(actions_room, r.actions)), params_out(&call, params, p, least(params_room, r.params));
    }
    leave(&call);
    return r;
}
struct csicodec_told csicodec_event(uint32_t mode, size_t limit, size_t looked, BYTES, ROOM) {
    struct csicodec_told r;
    AT_THE_FRONT(r, looked, told_of(mode, limit, looked, bytes, some, actions, least(actions_room, some), params, least(params_room, some)));
    return r;
}

static struct csicodec_received received(const struct call *call) {
    struct csicodec_received r = {word(call, 0), word(call, 4), word(call, 8), word(call, 12), size(call, 16), size(call, 24), size(call, 32), size(call, 40)};
    return r;
}
static struct csicodec_received input_of(uint32_t dialect, uint32_t mode, size_t limit, size_t looked, BYTES, ROOM) {
    struct csicodec_received r = {CSICODEC_MEMORY, 0, 0, 0, 0, 0, 0, 0};
    struct call call = enter();
    u64 in = bytes_in(&call, bytes, len), a = room_of(&call, actions_room, 64), p = room_of(&call, params_room, 16);
    if (!call.lacks) {
        w2c_csicodec_input(call.it, call.answer, dialect, mode, limit, looked, in, len, a, actions_room, p, params_room);
        r = received(&call);
        if (r.status == CSICODEC_OK) actions_out(&call, actions, a, least(actions_room, r.actions)), params_out(&call, params, p, least(params_room, r.params));
    }
    leave(&call);
    return r;
}
struct csicodec_received csicodec_input(uint32_t dialect, uint32_t mode, size_t limit, size_t looked, BYTES, ROOM) {
    struct csicodec_received r;
    AT_THE_FRONT(r, looked, input_of(dialect, mode, limit, looked, bytes, some, actions, least(actions_room, some), params, least(params_room, some)));
    return r;
}
struct csicodec_received csicodec_pause(BYTES) {
    struct csicodec_received r = {CSICODEC_MEMORY, 0, 0, 0, 0, 0, 0, 0};
    struct call call = enter();
    u64 in = bytes_in(&call, bytes, len);
    if (!call.lacks) {
        w2c_csicodec_pause(call.it, call.answer, in, len);
        r = received(&call);
    }
    leave(&call);
    return r;
}

struct csicodec_key csicodec_key(uint32_t more, BYTES, uint32_t *typed, size_t room) {
    struct csicodec_key r = {CSICODEC_MEMORY, 0, 0, 0, 0, 0, 0, 0};
    struct call call = enter();
    u64 in = bytes_in(&call, bytes, len), t = room_of(&call, room, 4), i;
    if (!call.lacks) {
        w2c_csicodec_key(call.it, call.answer, more, in, len, t, room);
        r.status = word(&call, 0), r.code = word(&call, 4), r.value = word(&call, 8), r.modifiers = word(&call, 12);
        r.event = word(&call, 16), r.encoding = word(&call, 20), r.typed = size(&call, 24), r.used = size(&call, 32);
        for (i = 0; r.status == CSICODEC_OK && r.typed <= room && i < r.typed; i++) typed[i] = (u32)load(&call, t + 4 * i, 4);
    }
    leave(&call);
    return r;
}
struct csicodec_osc csicodec_osc(BYTES) {
    struct csicodec_osc r = {0};
    struct call call = enter();
    u64 in = bytes_in(&call, bytes, len);
    if (!call.lacks) {
        w2c_csicodec_osc(call.it, call.answer, in, len);
        r.kind = word(&call, 0), r.texts = word(&call, 4), r.first = size(&call, 8), r.second = size(&call, 16);
    }
    leave(&call);
    return r;
}

uint32_t csicodec_esc(uint8_t intermediate, uint8_t final_byte) {
    struct call call = enter();
    uint32_t code = call.it ? w2c_csicodec_esc(call.it, intermediate, final_byte) : 0;
    leave(&call);
    return code;
}
uint32_t csicodec_version(void) {
    struct call call = enter();
    uint32_t version = call.it ? w2c_csicodec_version(call.it) : 0;
    leave(&call);
    return version;
}
