/* Copies in place of those that begin slowly, since streams are copied in short pieces: for x86-64 in place of musl's (`rep movsq`), and for
 * WebAssembly with vectors in place of the engine's, which it has for long pieces. All of a short piece is read before any of it is written, so
 * the two may overlap. It is compiled with no header of C. */
typedef __SIZE_TYPE__ size_t;
typedef unsigned char byte;
typedef unsigned short __attribute__((aligned(1), may_alias)) two;
typedef unsigned int __attribute__((aligned(1), may_alias)) four;
typedef unsigned long __attribute__((aligned(1), may_alias)) eight;
typedef long long __attribute__((vector_size(16), aligned(1), may_alias)) sixteen;

/* A piece of n bytes, from one to two of this type. */
#define ENDS(type) do { type first = *(const type *)from, last = *(const type *)(from + n - sizeof(type)); \
    *(type *)to = first, *(type *)(to + n - sizeof(type)) = last; return out; } while (0)
#define AT(place, i) (*(sixteen *)((place) + 16 * (i)))
#ifdef __wasm__
#define ENGINE(call, to, from, n) \
    if ((n) >= 1024) { __asm__("local.get %0\nlocal.get %1\nlocal.get %2\n" call :: "r"(to), "r"(from), "r"(n) : "memory"); return to; }
#else
#define ENGINE(call, to, from, n)
#endif

void *memmove(void *out, const void *in, size_t n) {
    byte *to = out;
    const byte *from = in;
    if (n >= 16) {
        if (n <= 32) ENDS(sixteen);
        ENGINE("memory.copy 0, 0", out, in, n)
        sixteen last = AT(from + n - 16, 0);
        if (n <= 64) {
            sixteen a = AT(from, 0), b = AT(from, 1), c = AT(from + n - 32, 0);
            AT(to, 0) = a, AT(to, 1) = b, AT(to + n - 32, 0) = c, AT(to + n - 16, 0) = last;
            return out;
        }
        if ((size_t)(to - from) >= n) {
            byte *end = to + n - 16;
            for (; n > 64; n -= 64, from += 64, to += 64) {
                sixteen a = AT(from, 0), b = AT(from, 1), c = AT(from, 2), d = AT(from, 3);
                AT(to, 0) = a, AT(to, 1) = b, AT(to, 2) = c, AT(to, 3) = d;
            }
            for (; n > 16; n -= 16, from += 16, to += 16) AT(to, 0) = AT(from, 0);
            AT(end, 0) = last;
        } else {
            sixteen first = AT(from, 0);
            for (; n > 16; n -= 16) AT(to + n - 16, 0) = AT(from + n - 16, 0);
            AT(to, 0) = first;
        }
        return out;
    }
    if (n >= 8) ENDS(eight);
    if (n >= 4) ENDS(four);
    if (n >= 2) ENDS(two);
    if (n) *to = *from;
    return out;
}
void *memcpy(void *restrict out, const void *restrict in, size_t n) { return memmove(out, in, n); }

void *memset(void *out, int value, size_t n) {
    byte *to = out;
    unsigned long many = (byte)value * 0x0101010101010101UL;
    sixteen all = { (long long)many, (long long)many };
    if (n < 16) {
        if (n >= 8) *(eight *)to = many, *(eight *)(to + n - 8) = many;
        else if (n >= 4) *(four *)to = (four)many, *(four *)(to + n - 4) = (four)many;
        else if (n >= 2) *(two *)to = (two)many, *(two *)(to + n - 2) = (two)many;
        else if (n) *to = (byte)value;
        return out;
    }
    ENGINE("memory.fill 0", out, value, n)
    AT(to + n - 16, 0) = all;
    for (; n > 16; n -= 16, to += 16) AT(to, 0) = all;
    return out;
}
