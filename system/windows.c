/* What a program asks of its system, on Windows: words, variables and names of files in UTF-8 where Windows has UTF-16, files as bytes,
 * the console in UTF-8 with control sequences, and numbers of flags and errors as Linux has them. program.c's main is program_main here. */
#include <windows.h>
#include <shellapi.h>

#include <errno.h>
#include <fcntl.h>
#include <io.h>
#include <stdint.h>
#include <stdlib.h>
#include <string.h>
#include <sys/stat.h>

/* Linux' numbers: of flags of open, and of errors that Windows calls otherwise. */
enum { CREATE = 0100, ONLY_NEW = 0200, TRUNCATE = 01000, APPEND = 02000, IS_DIRECTORY = 21, NO_TERMINAL = 25, NO_SEEK = 29, PIPE = 32 };
enum { NAME_ROOM = 32768, MOST = 1 << 16 };

static int error;
int *host_errno(void) { return &error; }
static int64_t held(int64_t answer) {
    if (answer < 0) error = errno == EINVAL && _doserrno == ERROR_NO_DATA ? PIPE : errno;
    return answer;
}

/* A text in UTF-8, which is never freed; NULL of none. */
static char *utf8(const wchar_t *text) {
    int n = text ? WideCharToMultiByte(CP_UTF8, 0, text, -1, NULL, 0, NULL, NULL) : 0;
    char *to = n ? malloc((size_t)n) : NULL;
    if (to) WideCharToMultiByte(CP_UTF8, 0, text, -1, to, n, NULL, NULL);
    return to;
}
char *host_getenv(const char *name) {
    wchar_t wide[256];
    return MultiByteToWideChar(CP_UTF8, 0, name, -1, wide, 256) ? utf8(_wgetenv(wide)) : NULL;
}

static unsigned least(int64_t n) { return n > MOST ? MOST : (unsigned)n; }
int64_t host_read(int file, void *to, int64_t n) { return held(_read(file, to, least(n))); }
int64_t host_write(int file, const void *from, int64_t n) { return held(_write(file, from, least(n))); }
int host_close(int file) { return (int)held(_close(file)); }
int host_open(const char *name, int flags, int mode) {
    static wchar_t wide[NAME_ROOM];
    int how = _O_BINARY | _O_NOINHERIT | (flags & 3), file;
    DWORD kind;
    (void)mode;
    if (flags & CREATE) how |= _O_CREAT;
    if (flags & ONLY_NEW) how |= _O_EXCL;
    if (flags & TRUNCATE) how |= _O_TRUNC;
    if (flags & APPEND) how |= _O_APPEND;
    if (!MultiByteToWideChar(CP_UTF8, 0, name, -1, wide, NAME_ROOM)) {
        error = ENOENT;
        return -1;
    }
    file = (int)held(_wopen(wide, how, _S_IREAD | _S_IWRITE));
    kind = file < 0 ? GetFileAttributesW(wide) : INVALID_FILE_ATTRIBUTES;
    if (kind != INVALID_FILE_ATTRIBUTES && kind & FILE_ATTRIBUTE_DIRECTORY) error = IS_DIRECTORY;
    return file;
}
/* A name in UTF-16. */
static const wchar_t *wide_name(const char *name, wchar_t *room) {
    if (!MultiByteToWideChar(CP_UTF8, 0, name, -1, room, NAME_ROOM)) room[0] = 0;
    return room;
}
int host_rename(const char *from, const char *to) {
    static wchar_t source[NAME_ROOM], target[NAME_ROOM];
    if (MoveFileExW(wide_name(from, source), wide_name(to, target), MOVEFILE_REPLACE_EXISTING)) return 0;
    error = GetLastError() == ERROR_ACCESS_DENIED || GetLastError() == ERROR_SHARING_VIOLATION ? EACCES : ENOENT;
    return -1;
}
int host_unlink(const char *name) {
    static wchar_t wide[NAME_ROOM];
    return (int)held(_wunlink(wide_name(name, wide)));
}
/* What may read and write a file isn't in its mode. */
int host_chmod(const char *name, unsigned mode) {
    (void)name;
    (void)mode;
    return 0;
}
/* What a file is, where Linux has it; devices such as NUL are no files. A file is asked for by its name alone. */
int host_statx(int folder, const char *name, int flags, unsigned wanted, void *to) {
    static wchar_t wide[NAME_ROOM];
    struct _stat64 here;
    (void)folder;
    (void)flags;
    (void)wanted;
    if (held(_wstat64(wide_name(name, wide), &here)) < 0) return -1;
    ((uint16_t *)to)[14] = here.st_mode;
    return 0;
}
static HANDLE handle(int file) { return (HANDLE)_get_osfhandle(file); }
int host_isatty(int file) {
    DWORD mode;
    if (GetConsoleMode(handle(file), &mode)) return 1;
    error = NO_TERMINAL;
    return 0;
}
int64_t host_lseek(int file, int64_t at, int from) {
    if (GetFileType(handle(file)) == FILE_TYPE_DISK) return held(_lseeki64(file, at, from));
    error = NO_SEEK;
    return -1;
}
int host_strerror(int number, char *to, int64_t room) {
    const char *text = number == IS_DIRECTORY ? "Is a directory" : strerror(number);
    size_t n = strlen(text);
    if (room <= 0) return ERANGE;
    if (n >= (size_t)room) n = (size_t)room - 1;
    memcpy(to, text, n);
    to[n] = 0;
    return 0;
}
/* There are no signals to ask for: a pipe whose reader went away is an error of write. */
int64_t host_signal(int number, int64_t handler) {
    (void)number;
    (void)handler;
    return 0;
}

int program_main(int n, char **words);

static void begin_console(void) {
    DWORD mode;
    HANDLE out = handle(1);
    if (GetConsoleMode(out, &mode)) SetConsoleMode(out, mode | ENABLE_PROCESSED_OUTPUT | 4 /* control sequences */);
    if (GetConsoleMode(out, &mode) || host_isatty(0)) SetConsoleOutputCP(CP_UTF8), SetConsoleCP(CP_UTF8);
}

int main(void) {
    int n, i;
    wchar_t **wide = CommandLineToArgvW(GetCommandLineW(), &n);
    char **words = wide ? calloc((size_t)n + 1, sizeof *words) : NULL;
    if (!words) return 1;
    for (i = 0; i < n; i++) words[i] = utf8(wide[i]);
    _wgetenv(L"PATH");
    for (i = 0; i < 3; i++) _setmode(i, _O_BINARY);
    begin_console();
    error = 0;
    return program_main(n, words);
}
