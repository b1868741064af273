/* What compiled Rattle asks for, for WebAssembly with no C library: the heap, copies, sums of 128 bits; and for the program its files,
 * words and environment, which the host has (web/page/program.mjs, web/csicodec.mjs). The memory has 64 bits here; binaryen makes 32 of them afterwards. */
typedef __SIZE_TYPE__ size_t;
typedef __PTRDIFF_TYPE__ ptrdiff_t;
typedef unsigned char byte;
#define IMPORT(name) __attribute__((import_module("env"), import_name(#name)))
#define EXPORT(name) __attribute__((export_name(#name)))

/* The heap: a free list for each power of two from 32 bytes on; 16 bytes before what is given say which. */
extern byte __heap_base;
static void *free_lists[48];
static size_t top;

static int class_of(size_t bytes) {
    int class = 5;
    while (((size_t)1 << class) < bytes + 16) class++;
    return class;
}
static void *take(size_t bytes) {
    int class;
    size_t want, have;
    byte *place;
    if (bytes > (size_t)1 << 31) return 0;
    class = class_of(bytes);
    if (free_lists[class]) {
        void **first = free_lists[class];
        free_lists[class] = *first;
        return first;
    }
    if (!top) top = ((size_t)&__heap_base + 15) & ~(size_t)15;
    want = top + ((size_t)1 << class);
    have = __builtin_wasm_memory_size(0) << 16;
    /* With 32 bits a growth that failed is 2^32 - 1. */
    if (want > have && (unsigned)__builtin_wasm_memory_grow(0, (want - have + 65535) >> 16) == ~0u) return 0;
    place = (byte *)top;
    top = want;
    *(size_t *)place = (size_t)class;
    return place + 16;
}
static void give(void *place) {
    size_t class = *(size_t *)((byte *)place - 16);
    *(void **)place = free_lists[class];
    free_lists[class] = place;
}

struct tried { _Bool is_there; void *place; };
static byte nothing[16];
static struct tried tell(void *place) { struct tried it = { place != 0, place ? place : nothing }; return it; }
struct tried rattle_alloc(size_t bytes, size_t align) { return tell(take(bytes ? bytes : align)); }
struct tried rattle_realloc(void *place, size_t kept, size_t bytes, size_t align) {
    size_t class = *(size_t *)((byte *)place - 16);
    void *other;
    if (bytes <= ((size_t)1 << class) - 16) return tell(place);
    other = take(bytes ? bytes : align);
    if (!other) return tell(0);
    __builtin_memcpy(other, place, kept);
    give(place);
    return tell(other);
}
void rattle_dealloc(void *place) { give(place); }
EXPORT(csicodec_room) void *room(size_t bytes) { return take(bytes); }
EXPORT(csicodec_free) void done(void *place) { give(place); }

#ifndef __wasm_simd128__
void *memcpy(void *to, const void *from, size_t n) {
    __asm__("local.get %0\nlocal.get %1\nlocal.get %2\nmemory.copy 0, 0" :: "r"(to), "r"(from), "r"(n) : "memory");
    return to;
}
void *memmove(void *to, const void *from, size_t n) { return memcpy(to, from, n); }
void *memset(void *to, int value, size_t n) {
    __asm__("local.get %0\nlocal.get %1\nlocal.get %2\nmemory.fill 0" :: "r"(to), "r"(value), "r"(n) : "memory");
    return to;
}
#endif
int memcmp(const void *a, const void *b, size_t n) {
    const byte *x = a, *y = b;
    for (; n; n--, x++, y++) if (*x != *y) return *x - *y;
    return 0;
}
int bcmp(const void *a, const void *b, size_t n) { return memcmp(a, b, n); }
size_t strlen(const char *text) { size_t n = 0; while (text[n]) n++; return n; }

#ifdef PROGRAM
/* Each of the host's calls answers a length or a number, or the number of an error (Linux's) below 0. */
IMPORT(read) ptrdiff_t host_read(int file, void *to, size_t n);
IMPORT(write) ptrdiff_t host_write(int file, const void *from, size_t n);
IMPORT(open) ptrdiff_t host_open(const char *name, size_t n);
IMPORT(word) ptrdiff_t host_word(size_t i, void *to, size_t room);
IMPORT(variable) ptrdiff_t host_variable(const char *name, size_t n, void *to, size_t room);
static int error;
static ptrdiff_t held(ptrdiff_t answer) {
    if (answer >= 0) return answer;
    error = (int)-answer;
    return -1;
}
ptrdiff_t read(int file, void *to, size_t n) { return held(host_read(file, to, n)); }
ptrdiff_t write(int file, const void *from, size_t n) { return held(host_write(file, from, n)); }
/* No file is written there (EROFS). */
static int refused(void) { error = 30; return -1; }
int open(const char *name, int flags, ...) { return flags & 3 ? refused() : (int)held(host_open(name, strlen(name))); }
int rename(const char *from, const char *to) { (void)from; (void)to; return refused(); }
int unlink(const char *name) { (void)name; return refused(); }
int chmod(const char *name, unsigned mode) { (void)name; (void)mode; return refused(); }
int statx(int folder, const char *name, int flags, unsigned wanted, void *to) {
    (void)folder; (void)name; (void)flags; (void)wanted; (void)to;
    return refused();
}
int close(int file) { (void)file; return 0; }
int isatty(int file) { (void)file; error = 25; return 0; }
ptrdiff_t lseek(int file, ptrdiff_t at, int from) { (void)file; (void)at; (void)from; error = 29; return -1; }
int rattle_errno(void) { return error; }
void rattle_set_errno(int number) { error = number; }
ptrdiff_t rattle_arg(size_t i, void *to, size_t room) { return host_word(i, to, room); }
ptrdiff_t rattle_env(const char *name, void *to, size_t room) { return host_variable(name, strlen(name), to, room); }
int __xpg_strerror_r(int number, char *to, size_t room) {
    const char *text = number == 2 ? "No such file or directory" : "Input/output error";
    size_t i;
    for (i = 0; text[i] && i + 1 < room; i++) to[i] = text[i];
    if (room) to[i] = 0;
    return 0;
}
long __sysv_signal(int signal, long handler) { (void)signal; (void)handler; return 0; }

int run_proved(void);
EXPORT(run) int run(void) {
    error = 0;
    return run_proved();
}
#endif

/* What clang calls for 128 bits. */
typedef unsigned long u64;
typedef __int128 wide;
typedef unsigned __int128 uwide;
typedef union { uwide all; struct { u64 low, high; } half; } both;
wide __multi3(wide a, wide b) {
    both x = { .all = (uwide)a }, y = { .all = (uwide)b }, r;
    u64 mask = 0xffffffff, low = (x.half.low & mask) * (y.half.low & mask);
    u64 mid = (x.half.low >> 32) * (y.half.low & mask) + (low >> 32), other = (x.half.low & mask) * (y.half.low >> 32) + (mid & mask);
    r.half.low = (other << 32) | (low & mask);
    r.half.high = (x.half.low >> 32) * (y.half.low >> 32) + (mid >> 32) + (other >> 32) + x.half.low * y.half.high + x.half.high * y.half.low;
    return (wide)r.all;
}
wide __ashlti3(wide a, int n) {
    both x = { .all = (uwide)a }, r;
    if (!n) return a;
    if (n & 64) r.half.low = 0, r.half.high = x.half.low << (n & 63);
    else r.half.low = x.half.low << n, r.half.high = x.half.high << n | x.half.low >> (64 - n);
    return (wide)r.all;
}
wide __lshrti3(wide a, int n) {
    both x = { .all = (uwide)a }, r;
    if (!n) return a;
    if (n & 64) r.half.high = 0, r.half.low = x.half.high >> (n & 63);
    else r.half.high = x.half.high >> n, r.half.low = x.half.low >> n | x.half.high << (64 - n);
    return (wide)r.all;
}
wide __ashrti3(wide a, int n) {
    both x = { .all = (uwide)a }, r;
    if (!n) return a;
    if (n & 64) r.half.high = (u64)((long)x.half.high >> 63), r.half.low = (u64)((long)x.half.high >> (n & 63));
    else r.half.high = (u64)((long)x.half.high >> n), r.half.low = x.half.low >> n | x.half.high << (64 - n);
    return (wide)r.all;
}
