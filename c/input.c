/* What a terminal sends: each form by its table; and random keys, reports and answers, in every cut as in the whole. */
#include "csicodec.h"

#include <stdio.h>
#include <string.h>

enum { OUTPUT = CSICODEC_DIALECT_OUTPUT, INPUT = CSICODEC_DIALECT_INPUT, UTF8 = CSICODEC_DIALECT_UTF8_INPUT };

/* What is told, as text. What may be cut anywhere goes on where it was. */
static char told[8192];
static size_t size;
static uint32_t open;

/* The character at the front of a mouse report's, behind which the next one stands. */
static unsigned character(uint32_t dialect, const uint8_t **at) {
    unsigned first = *(*at)++;
    return dialect == UTF8 && first >= 0xc0 ? (first & 0x1f) << 6 | (*(*at)++ & 0x3f) : first;
}

static void tell(uint32_t dialect, const struct csicodec_received *event, const uint8_t *bytes, const struct csicodec_action *actions) {
    static const char letters[] = "NTAESOC3LRMAKPF";
    int goes_on = event->kind == open && (event->kind == CSICODEC_EVENT_TEXT || event->kind == CSICODEC_EVENT_STRING || event->kind == CSICODEC_EVENT_OTHER);
    open = event->kind;
    if (!goes_on) size += (size_t)sprintf(told + size, "|%c ", event->kind == CSICODEC_INPUT_ALT ? '+' : letters[event->kind]);
    switch (event->kind) {
    case CSICODEC_EVENT_ACTIONS: size += (size_t)sprintf(told + size, "%d %d", (int)actions->kind, (int)actions->first); break;
    case CSICODEC_INPUT_MOUSE: {
        const uint8_t *at = bytes + 3;
        unsigned button = character(dialect, &at), column = character(dialect, &at), line = character(dialect, &at);
        size += (size_t)sprintf(told + size, "%u %u %u%s", button, column, line, at == bytes + event->used ? "" : "!");
        break;
    }
    case CSICODEC_EVENT_CONTROL: case CSICODEC_INPUT_SS3: case CSICODEC_INPUT_LINUX: case CSICODEC_INPUT_RXVT: case CSICODEC_INPUT_ALT:
    case CSICODEC_INPUT_MODIFIED:
        size += (size_t)sprintf(told + size, "%u", (unsigned)event->value);
        break;
    default: memcpy(told + size, bytes, event->used), size += event->used;
    }
}

/* Tells the events of the bytes, which come in pieces that end at the cut, and then every so many bytes; answers how many wait. */
static size_t tell_all(uint32_t dialect, const uint8_t *bytes, size_t len, size_t cut, size_t piece) {
    struct csicodec_action actions[4];
    struct csicodec_param params[4];
    uint32_t mode = 0;
    size_t looked = 0, at = 0;
    size = 0, open = 0;
    for (;; cut = cut + piece < len ? cut + piece : len) {
        for (;;) {
            struct csicodec_received event = csicodec_input(dialect, mode, 64, looked, bytes + at, cut - at, actions, 4, params, 4);
            if (event.status > CSICODEC_TRUNCATED) return (size_t)-1;
            mode = event.mode, looked = event.looked;
            if (event.status != CSICODEC_OK) break;
            tell(dialect, &event, bytes + at, actions);
            at += event.used;
        }
        if (cut == len) return len - at;
    }
}

/* What is told of bytes; where no more come the ones that wait are told behind `_`. */
static const struct { uint32_t dialect; size_t len; const char *bytes, *wanted; } cases[] = {
    {INPUT, 3, "\x1bOA", "|3 65"}, {INPUT, 3, "\x1bO\x07", "|+ 79|T \x07"}, {INPUT, 2, "\x1bO", "_|+ 79"},
    {INPUT, 4, "\x1b[[A", "|L 65"}, {INPUT, 3, "\x1b[[", "_"},
    {INPUT, 5, "\x1b[23$", "|R 23"}, {INPUT, 4, "\x1b[5$", "|R 5"}, {INPUT, 5, "\x1b[23^", "|A 0 0"},
    {INPUT, 8, "\x1b[?2026$", "_"}, {INPUT, 6, "\x1b[M !\"", "|M 32 33 34"}, {INPUT, 6, "\x1b[M \xff\x1b", "|M 32 255 27"},
    {INPUT, 5, "\x1b[M !", "_"}, {UTF8, 8, "\x1b[M \xc4\x80\xdf\xbf", "|M 32 256 2047"}, {UTF8, 6, "\x1b[M !\"", "|M 32 33 34"},
    {INPUT, 8, "\x1b[M \xc4\x80\xdf\xbf", "|M 32 196 128|T \xdf\xbf"}, {UTF8, 5, "\x1b[M \xc4", "_"},
    {INPUT, 2, "\x1b" "a", "|+ 97"}, {INPUT, 2, "\x1b\x7f", "|+ 127"}, {INPUT, 1, "\x1b", "_|K \x1b"}, {INPUT, 2, "\x1b[", "_|+ 91"},
    {INPUT, 2, "\x1b]", "_|+ 93"}, {INPUT, 3, "\x1b\x1bO", "_|K \x1b"}, {INPUT, 3, "\x1b\xc3\xa9", "|+ 233"}, {INPUT, 2, "\x1b\xc3", "_|K \x1b"}, {INPUT, 3, "\x1b\xc3" "a", "|K \x1b|T \xc3" "a"},
    {INPUT, 4, "\x1bO5P", "|P 80"}, {INPUT, 6, "\x1bO1;2S", "|P 83"}, {INPUT, 3, "\x1bO5", "_|3 53"}, {INPUT, 4, "\x1bO5x", "|3 53|T x"},
    {INPUT, 4, "\x1b\x1b[A", "|P 65"}, {INPUT, 4, "\x1b\x1bOH", "|P 72"}, {INPUT, 6, "\x1b\x1b[15~", "|P 126"}, {INPUT, 8, "\x1b\x1b[200~a", "|K \x1b|A 0 0|T a"},
    {INPUT, 3, "\x1b[I", "|F \x1b[I"},
    {INPUT, 6, "\x1b[1;5A", "|A 0 0"}, {INPUT, 8, "\x1b[2\n;5Rx", "|C 10|A 110 2|T x"}, {INPUT, 10, "\x1b]11;c\x1b\\ab", "|S \x1b]11;c\x1b\\|T ab"},
    {INPUT, 8, "\x1b]1\x1b[[Ba", "|S \x1b]1|L 66|T a"}, {INPUT, 4, "\x1b]1\x1b", "|S \x1b]1_|K \x1b"}, {INPUT, 0, "", "_"},
    {OUTPUT, 3, "\x1bOA", "|E \x1bO|T A"}, {OUTPUT, 6, "\x1b[M !\"", "|A 204 1|T  !\""}, {OUTPUT, 2, "\x1b" "7", "|E \x1b" "7"}};

static int table(void) {
    for (size_t i = 0; i < sizeof cases / sizeof cases[0]; i++) {
        const uint8_t *bytes = (const uint8_t *)cases[i].bytes;
        size_t len = cases[i].len, waits = tell_all(cases[i].dialect, bytes, len, len, 1);
        if (waits || !len) {
            struct csicodec_received event = csicodec_pause(bytes + len - waits, waits);
            told[size++] = '_';
            if (event.status == CSICODEC_OK) tell(cases[i].dialect, &event, bytes + len - waits, NULL);
        }
        if (size == strlen(cases[i].wanted) && !memcmp(told, cases[i].wanted, size)) continue;
        fprintf(stderr, "input: case %zu: %.*s\n", i, (int)size, told);
        return 0;
    }
    return 1;
}

static uint32_t seed = 1;

static uint32_t any(uint32_t count) {
    seed = seed * 1664525u + 1013904223u;
    return (seed >> 8) % count;
}

/* Keys, the mouse, answers, text, and what is broken off. */
static const char *const parts[] = {"\x1bO", "\x1b[", "\x1b[[", "\x1b[23$", "\x1b[5", "\x1b[5~", "\x1b[3^", "\x1b[1;5A", "\x1b[M", "\x1b[M !\"",
                                    "\x1b[M\xc4\x80\xdf\xbf!", "\x1b[<0;10;20M", "\x1b[<35;1;2m", "\x1b[I", "\x1b", "\x1b\x1b", "\x1bO5P", "\x1b\x1b[5~", "\x1b" "f",
                                    "\xc3\xa9", "\xe2\x82\xac", "A", "$", "\x7f", "\x1b[?62;22c", "\x1b[24;80R", "\x1b]11;rgb:0/0/0\x1b\\",
                                    "\x1bP1$r0m\x1b\\", "\x1b_Gi=1;OK\x1b\\", "\x1b[200~", "\x1b[1\n;2A", "\x18", "\x07"};

static size_t any_keys(uint8_t *bytes, size_t room) {
    size_t len = 0;
    while (len + 20 < room) {
        if (any(6)) {
            const char *part = parts[any(sizeof parts / sizeof parts[0])];
            memcpy(bytes + len, part, strlen(part)), len += strlen(part);
        } else {
            bytes[len++] = (uint8_t)any(256);
        }
        if (!any(12)) break;
    }
    return len;
}

/* Whether the bytes in every cut into two, and byte by byte, have the events of the whole, and those that wait begin with a key where they are
 * ESC, ESC and another or what begins a character, ESC and ASCII, or SS3 and a digit. */
static int every_cut(uint32_t dialect, const uint8_t *bytes, size_t len) {
    static char whole[sizeof told];
    size_t waits = tell_all(dialect, bytes, len, len, 1), all = size;
    const uint8_t *last = bytes + len - waits;
    memcpy(whole, told, all);
    for (size_t cut = 0; cut <= len; cut++)
        if (tell_all(dialect, bytes, len, cut, len) != waits || size != all || memcmp(whole, told, all)) return 0;
    if (tell_all(dialect, bytes, len, 0, 1) != waits || size != all || memcmp(whole, told, all)) return 0;
    size_t key = 0;
    if (waits && *last == 0x1b) key = waits == 1 || last[1] == 0x1b || last[1] >= 0x80 ? 1 : waits == 2 ? 2 : last[1] == 'O' ? 3 : 0;
    return waits <= len && csicodec_pause(last, waits).used == key;
}

int main(void) {
    uint8_t bytes[160];
    if (!table()) return 1;
    if (csicodec_input(3, 0, 64, 0, bytes, 0, NULL, 0, NULL, 0).status != CSICODEC_BAD_STATE ||
        csicodec_input(INPUT, 6, 64, 0, bytes, 0, NULL, 0, NULL, 0).status != CSICODEC_BAD_STATE ||
        csicodec_input(INPUT, 0, 0, 0, NULL, 0, NULL, 0, NULL, 0).status != CSICODEC_BAD_STATE ||
        csicodec_pause(NULL, 0).status != CSICODEC_TRUNCATED)
        return 2;
    for (int turn = 0; turn < 1000; turn++) {
        size_t len = any_keys(bytes, sizeof bytes);
        for (uint32_t dialect = 0; dialect < 3; dialect++)
            if (!every_cut(dialect, bytes, len)) {
                fprintf(stderr, "input: turn %d isn't as promised in dialect %d\n", turn, (int)dialect);
                return 3;
            }
    }
    printf("1000 streams of keys in each cut\n");
    return 0;
}
