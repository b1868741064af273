/* Where a static program begins: ahead of the start of musl, which up to 1.2.3 doesn't know packed relocations (RELR), the place at
 * which the program was loaded is added to each word that has an address in it. Later ones do that themselves: with one of these this
 * file must go. It is compiled with no header of C. */
typedef __UINTPTR_TYPE__ word;

/* An entry of the dynamic section: what it is, and its value. */
struct entry {
    word tag, value;
};

/* The tags of the last entry, of the length of the table in bytes, and of its address (DT_NULL, DT_RELRSZ, DT_RELR). */
enum { LAST = 0, LENGTH = 35, TABLE = 36 };

extern const struct entry _DYNAMIC[] __attribute__((visibility("hidden")));
extern const char __ehdr_start[] __attribute__((visibility("hidden")));

/* The value of the dynamic section's entry with this tag, or 0. */
static word value_of(word tag) {
    const struct entry *it;
    for (it = _DYNAMIC; it->tag != LAST; it++)
        if (it->tag == tag) return it->value;
    return 0;
}

/* Relocates the words of a bitmap: the lowest bit is only its mark, each other is for one word. */
static void relocate_some(word *place, word bitmap, word base) {
    for (; bitmap >>= 1; place++)
        if (bitmap & 1) *place += base;
}

/* Of the table an even number is the address of a word to relocate, an odd one a bitmap of those behind what came last. */
void relocate_all(void) {
    word base = (word)__ehdr_start, *place = 0;
    const word *it = (const word *)(base + value_of(TABLE)), *end = it + value_of(LENGTH) / sizeof(word);
    for (; it < end; it++) {
        if (*it & 1) {
            relocate_some(place, *it, base);
            place += 8 * sizeof(word) - 1;
        } else {
            place = (word *)(base + *it);
            *place++ += base;
        }
    }
}

/* The stack is as the system left it when musl's `_start` looks for words and environment there. */
#if defined(__x86_64__)
__asm__(".text\n.global program_begin\nprogram_begin:\n\txor %ebp, %ebp\n\tcall relocate_all\n\tjmp _start\n");
#elif defined(__aarch64__)
__asm__(".text\n.global program_begin\nprogram_begin:\n\tmov x29, #0\n\tbl relocate_all\n\tb _start\n");
#else
#error "no entry for this processor"
#endif
