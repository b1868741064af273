/* The program csicodec: the one that is proved, and what it asks of the system beside C's own calls: its words, the environment and
 * errno. It is compiled with no header of C. */
typedef __SIZE_TYPE__ size_t;
typedef __PTRDIFF_TYPE__ ptrdiff_t;
char *getenv(const char *);
int *__errno_location(void);
void (*signal(int, void (*)(int)))(int);
ptrdiff_t write(int, const void *, size_t);
extern char **environ;

static int count;
static char **words;

/* The text with its end behind it, or -1 where there is none, -2 where there is no room for it. */
static ptrdiff_t put(const char *text, unsigned char *to, size_t room) {
    size_t i;
    if (!text) return -1;
    for (i = 0; text[i]; i++) {
        if (i == room) return -2;
        to[i] = (unsigned char)text[i];
    }
    return (ptrdiff_t)i;
}

size_t rattle_arg_count(void) { return (size_t)count; }
ptrdiff_t rattle_arg(size_t i, unsigned char *to, size_t room) { return put(i < (size_t)count ? words[i] : 0, to, room); }
ptrdiff_t rattle_env(const char *name, unsigned char *to, size_t room) { return put(getenv(name), to, room); }
int rattle_errno(void) { return *__errno_location(); }
void rattle_set_errno(int number) { *__errno_location() = number; }

int run_proved(void);

/* The status that it ends with where the reader of its output went away (GONE in csicodec_command), and SIGPIPE. */
enum { GONE = 141, PIPE = 13 };

int main(int n, char **v) {
    int status;
    count = n;
    words = v;
    status = run_proved();
    if (status == GONE) {
        /* Other programs end by the signal then, which one more write brings. */
        signal(PIPE, 0);
        write(1, "", 1);
    }
    return status;
}
