/* What a program asks of its system, on macOS, where C's own calls have other names, or numbers, than Linux'. It is compiled with no header
 * of C. */
typedef __SIZE_TYPE__ size_t;
typedef __PTRDIFF_TYPE__ ptrdiff_t;
ptrdiff_t read(int, void *, size_t), write(int, const void *, size_t);
int open(const char *, int, ...), close(int), isatty(int), strerror_r(int, char *, size_t), *__error(void);
int rename(const char *, const char *), unlink(const char *), chmod(const char *, int);
#if defined(__x86_64__)
int stat(const char *, void *) __asm("_stat$INODE64");
#else
int stat(const char *, void *);
#endif
long long lseek(int, long long, int);
void (*signal(int, void (*)(int)))(int);
char *getenv(const char *);

/* Linux' flags of open, and those of macOS. */
enum { CREATE = 0100, ONLY_NEW = 0200, TRUNCATE = 01000, APPEND = 02000 };
enum { CREATE_HERE = 0x200, ONLY_NEW_HERE = 0x800, TRUNCATE_HERE = 0x400, APPEND_HERE = 8, CLOSE_ON_EXEC_HERE = 0x1000000 };

int *host_errno(void) { return __error(); }
char *host_getenv(const char *name) { return getenv(name); }
ptrdiff_t host_read(int file, void *to, size_t n) { return read(file, to, n); }
ptrdiff_t host_write(int file, const void *from, size_t n) { return write(file, from, n); }
int host_open(const char *name, int flags, int mode) {
    int how = (flags & 3) | CLOSE_ON_EXEC_HERE;
    if (flags & CREATE) how |= CREATE_HERE;
    if (flags & ONLY_NEW) how |= ONLY_NEW_HERE;
    if (flags & TRUNCATE) how |= TRUNCATE_HERE;
    if (flags & APPEND) how |= APPEND_HERE;
    return open(name, how, mode);
}
int host_close(int file) { return close(file); }
int host_rename(const char *from, const char *to) { return rename(from, to); }
int host_unlink(const char *name) { return unlink(name); }
int host_chmod(const char *name, unsigned mode) { return chmod(name, (int)mode & 07777); }
/* The mode of a file, where Linux has it; macOS' struct has 144 bytes. A file is asked for by its name alone. */
int host_statx(int folder, const char *name, int flags, unsigned wanted, void *to) {
    union { unsigned char bytes[256]; struct { int device; unsigned short mode; } it; } here;
    (void)folder;
    (void)flags;
    (void)wanted;
    if (stat(name, &here)) return -1;
    ((unsigned short *)to)[14] = here.it.mode;
    return 0;
}
int host_isatty(int file) { return isatty(file); }
long long host_lseek(int file, long long at, int from) { return lseek(file, at, from); }
int host_strerror(int number, char *to, size_t room) { return strerror_r(number, to, room); }
long host_signal(int number, long handler) { return (long)signal(number, (void (*)(int))handler); }

int program_main(int n, char **words);
int main(int n, char **words) { return program_main(n, words); }
