/* What a program asks of Linux of a file beside musl's calls (system/members): what it is, and a mode, another name and an end for it. It is
 * compiled with no header of C. */
int *__errno_location(void);

/* The folder where a program works, for names that begin in it (AT_FDCWD). */
enum { HERE = -100 };

#if defined(__x86_64__)
enum { UNLINKAT = 263, RENAMEAT = 264, FCHMODAT = 268, STATX = 332 };

static long asked(long call, long a, long b, long c, long d, long e) {
    register long fourth __asm__("r10") = d, fifth __asm__("r8") = e;
    long answer;
    __asm__ volatile("syscall" : "=a"(answer) : "0"(call), "D"(a), "S"(b), "d"(c), "r"(fourth), "r"(fifth) : "rcx", "r11", "memory");
    return answer;
}
#elif defined(__aarch64__)
enum { UNLINKAT = 35, RENAMEAT = 38, FCHMODAT = 53, STATX = 291 };

static long asked(long call, long a, long b, long c, long d, long e) {
    register long number __asm__("x8") = call, first __asm__("x0") = a, second __asm__("x1") = b;
    register long third __asm__("x2") = c, fourth __asm__("x3") = d, fifth __asm__("x4") = e;
    __asm__ volatile("svc 0" : "+r"(first) : "r"(number), "r"(second), "r"(third), "r"(fourth), "r"(fifth) : "memory");
    return first;
}
#else
#error "no calls for this processor"
#endif

/* 0, or -1 with the number of an error. */
static int done(long answer) {
    if (answer >= 0) return 0;
    *__errno_location() = (int)-answer;
    return -1;
}
int rename(const char *from, const char *to) { return done(asked(RENAMEAT, HERE, (long)from, HERE, (long)to, 0)); }
int unlink(const char *name) { return done(asked(UNLINKAT, HERE, (long)name, 0, 0, 0)); }
int chmod(const char *name, unsigned mode) { return done(asked(FCHMODAT, HERE, (long)name, mode, 0, 0)); }
int statx(int folder, const char *name, int flags, unsigned wanted, void *to) {
    return done(asked(STATX, folder, (long)name, flags, wanted, (long)to));
}
