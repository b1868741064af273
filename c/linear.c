/* A hostile control sequence that comes byte by byte is looked at a fixed number of times, however long it is: how many bytes all
 * calls are passed, and how often a page that was passed before is read, since these are locked. Link with -Wl,--wrap=csicodec_next,--wrap=csicodec_event,--wrap=csicodec_span,--wrap=csicodec_filter. */
#define _DEFAULT_SOURCE
#include "csicodec.h"

#include <signal.h>
#include <stdio.h>
#include <string.h>
#include <sys/mman.h>

enum { LONGEST = 60000, LIMIT = 65536, PAGE = 4096 };

struct csicodec_front __real_csicodec_next(const uint8_t *bytes, size_t len, struct csicodec_action *actions, size_t actions_room,
                                           struct csicodec_param *params, size_t params_room);
struct csicodec_told __real_csicodec_event(uint32_t mode, size_t limit, size_t looked, const uint8_t *bytes, size_t len,
                                           struct csicodec_action *actions, size_t actions_room, struct csicodec_param *params,
                                           size_t params_room);
struct csicodec_spanned __real_csicodec_span(uint32_t mode, size_t limit, const uint8_t *bytes, size_t len);
struct csicodec_filtered __real_csicodec_filter(uint32_t mode, size_t limit, const uint8_t *bytes, size_t len, uint8_t *out, size_t room);

static size_t passed;

struct csicodec_front __wrap_csicodec_next(const uint8_t *bytes, size_t len, struct csicodec_action *actions, size_t actions_room,
                                           struct csicodec_param *params, size_t params_room) {
    passed += len;
    return __real_csicodec_next(bytes, len, actions, actions_room, params, params_room);
}

/* It is passed all that waits, but begins where the call before it ended. */
struct csicodec_told __wrap_csicodec_event(uint32_t mode, size_t limit, size_t looked, const uint8_t *bytes, size_t len,
                                           struct csicodec_action *actions, size_t actions_room, struct csicodec_param *params,
                                           size_t params_room) {
    struct csicodec_told told = __real_csicodec_event(mode, limit, looked, bytes, len, actions, actions_room, params, params_room);
    passed += told.used ? told.used : told.looked - looked;
    return told;
}

struct csicodec_spanned __wrap_csicodec_span(uint32_t mode, size_t limit, const uint8_t *bytes, size_t len) {
    passed += len;
    return __real_csicodec_span(mode, limit, bytes, len);
}

struct csicodec_filtered __wrap_csicodec_filter(uint32_t mode, size_t limit, const uint8_t *bytes, size_t len, uint8_t *out, size_t room) {
    passed += len;
    return __real_csicodec_filter(mode, limit, bytes, len, out, room);
}

static _Alignas(PAGE) uint8_t bytes[LONGEST + PAGE];
static uint8_t out[4 * LONGEST];
static volatile size_t reads;

/* A locked page that is read is open again, up to the next call. */
static void read_again(int number, siginfo_t *info, void *context) {
    uint8_t *page = bytes + ((uint8_t *)info->si_addr - bytes) / PAGE * PAGE;
    (void)number, (void)context;
    reads++;
    if (page < bytes || page >= bytes + sizeof bytes || mprotect(page, PAGE, PROT_READ | PROT_WRITE)) signal(SIGSEGV, SIG_DFL);
}

/* Locks the pages between that of the first byte, which each call looks at, and that of the byte that came last. */
static void lock(size_t first, size_t last) {
    size_t from = (first + 1) / PAGE * PAGE + PAGE, to = last / PAGE * PAGE;
    if (from < to) mprotect(bytes + from, to - from, PROT_NONE);
}

static struct csicodec_action actions[64];
static struct csicodec_param params[64];

/* ESC and '[', this part over and over, and the end. */
static size_t fill(const char *part, const char *end) {
    size_t len = 2, size = strlen(part);
    mprotect(bytes, sizeof bytes, PROT_READ | PROT_WRITE);
    memcpy(bytes, "\x1b[", 2);
    for (; len + size <= LONGEST; len += size) memcpy(bytes + len, part, size);
    memcpy(bytes + len, end, strlen(end));
    return len + strlen(end);
}

/* The events of pieces of so many bytes, and whether all is used. */
static int streamed(size_t len, size_t piece) {
    struct csicodec_stream stream = csicodec_stream_of(LIMIT, actions, 64, params, 64);
    struct csicodec_event event;
    size_t at = 0, end = 0;
    while (end < len) {
        end = len - end > piece ? end + piece : len;
        if (piece == 1) lock(at, end - 1);
        for (; csicodec_next_event(&stream, bytes + at, end - at, &event); at += event.used) continue;
    }
    return at == len;
}

static int filtered(size_t len) {
    struct csicodec_filtered step = {0, 0, 0, 0};
    size_t at = 0, end = 1, looked = 0;
    for (; end <= len; end++) {
        lock(at, end - 1);
        if (csicodec_waits(LIMIT, bytes + at, end - at, looked)) {
            looked = end - at;
            continue;
        }
        step = csicodec_filter(step.mode, LIMIT, bytes + at, end - at, out, sizeof out);
        at += step.used;
        looked = end - at;
    }
    return at == len;
}

/* Whether csicodec_strip_step uses all of a sequence that comes byte by byte. */
static int stripped(size_t len) {
    struct csicodec_cleaned step = {0, {0, 0, 0, 0}, 0, 0};
    size_t at = 0, end = 1, looked = 0, held = 0;
    for (; end <= len; end++) {
        lock(at, end - 1);
        if (csicodec_waits(LIMIT, bytes + at + held, end - at - held, looked)) {
            looked = end - at - held;
            continue;
        }
        passed += end - at;
        step = csicodec_strip_step(&step.state, bytes + at, end - at, out, sizeof out);
        at += step.used;
        held = step.state.held;
        looked = end - at - held;
    }
    return at == len;
}

static void count_bytes(void *written, const uint8_t *text, size_t len) {
    (void)text;
    *(size_t *)written += len;
}

/* Whether a line that a sequence stands in is written when it ends. */
static int lined(size_t len) {
    static uint8_t held[2 * LIMIT];
    struct csicodec_lines lines = csicodec_overwritten_lines(0, held, sizeof held, out, sizeof out);
    size_t at = 0, written = 0;
    while (at < len && csicodec_feed_lines(&lines, bytes + at, 1, count_bytes, &written) == 1) at++;
    return at == len && csicodec_feed_lines(&lines, (const uint8_t *)"\n", 1, count_bytes, &written) == 1 && written > 0;
}

int main(void) {
    static const char *const cases[][2] = {{";", "m"}, {"1;", "m"}, {"\x08", "A"}, {"1\x08;", "A"}, {"\x7f", "\x18"}, {"\x07", "\x1b[m"},
                                           {"1", "m"}, {"?", "\xc3\xa9"}, {" ", "z"}};
    struct sigaction catch;
    memset(&catch, 0, sizeof catch);
    catch.sa_sigaction = read_again;
    catch.sa_flags = SA_SIGINFO | SA_NODEFER;
    sigaction(SIGSEGV, &catch, 0);
    for (size_t i = 0; i < sizeof cases / sizeof cases[0]; i++) {
        size_t len = fill(cases[i][0], cases[i][1]);
        int good = 1;
        for (int way = 0; way < 5; way++) {
            passed = reads = 0;
            good &= way == 4 ? lined(len) : way == 3 ? stripped(len) : way == 2 ? filtered(len) : streamed(len, way == 0 ? 1 : len);
            good &= passed <= 4 * len && reads * PAGE <= 4 * len;
            mprotect(bytes, sizeof bytes, PROT_READ | PROT_WRITE);
            if (good) continue;
            fprintf(stderr, "linear: case %zu, way %d: %zu bytes for %zu, and %zu pages read again\n", i, way, passed, len, reads);
            return 1;
        }
    }
    printf("at most four looks at a byte\n");
    return 0;
}
