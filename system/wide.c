/* Division of 128 bits, which clang calls where the processor has none. It is compiled with no header of C. */
typedef unsigned long u64;
typedef unsigned __int128 u128;

static u128 divided(u128 a, u128 b, u128 *rest) {
    u128 quotient = 0, left = 0;
    int i;
    if (!(a >> 64) && !(b >> 64)) {
        *rest = (u64)a % (u64)b;
        return (u64)a / (u64)b;
    }
    for (i = 127; i >= 0; i--) {
        left = left << 1 | (a >> i & 1);
        if (left >= b) left -= b, quotient |= (u128)1 << i;
    }
    *rest = left;
    return quotient;
}
u128 __udivti3(u128 a, u128 b) { u128 rest; return divided(a, b, &rest); }
u128 __umodti3(u128 a, u128 b) { u128 rest; divided(a, b, &rest); return rest; }
