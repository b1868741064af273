/* Pages and lines as they come, in pieces of any length, are those of the whole; what is held stays in its room, and room that lacks is
 * told. */
#include "csicodec.h"

#include <stdio.h>
#include <stdlib.h>
#include <string.h>

enum { ALL = 1 << 20 };
static uint8_t whole[ALL], said[ALL];
static size_t size;

static void add(void *user, const uint8_t *bytes, size_t len) {
    (void)user;
    if (size + len > sizeof said) abort();
    if (len) memcpy(said + size, bytes, len);
    size += len;
}

/* What a stream becomes: lines without and with styles, and pages. */
static const struct csicodec_markup markups[] = {{0, 0, 1, 0}, {0, 0, 0, 0}, {0, 1, 0, 0}, {1, 0, 0, 0}, {0, 0, 1, 1}};
enum { FORMS = 2 + sizeof markups / sizeof markups[0] };

static size_t whole_of(int form, const uint8_t *bytes, size_t len) {
    struct csicodec_stripped text = form < 2 ? csicodec_overwrite((uint32_t)form, bytes, len, whole, sizeof whole)
                                             : csicodec_html(&markups[form - 2], NULL, 0, bytes, len, whole, sizeof whole);
    if (text.status != CSICODEC_OK || text.needed > sizeof whole) abort();
    return text.needed;
}

static struct csicodec_lines lines_of(int form, size_t held, size_t out) {
    /* Of the heap, so that a sanitizer sees where it ends. */
    uint8_t *rooms[] = {malloc(held), malloc(out)};
    return form < 2 ? csicodec_overwritten_lines((uint32_t)form, rooms[0], held, rooms[1], out)
                    : csicodec_html_lines(&markups[form - 2], NULL, 0, rooms[0], held, rooms[1], out);
}

/* Puts a larger room in the place of the one that lacks; whether one did. */
static int more_room(struct csicodec_lines *lines) {
    if (lines->status != CSICODEC_MEMORY || (!lines->held_needed && !lines->out_needed)) return 0;
    if (lines->held_needed) lines->held = realloc(lines->held, lines->held_room = lines->held_needed);
    if (lines->out_needed) lines->out = realloc(lines->out, lines->out_room = lines->out_needed);
    return lines->held && lines->out;
}

/* Whether the pieces of this length, in rooms of these sizes at first, become what the whole is. */
static int is_same(int form, const uint8_t *bytes, size_t len, size_t piece, size_t held, size_t out) {
    struct csicodec_lines lines = lines_of(form, held, out);
    uint8_t *given = malloc(piece);
    size_t needed = whole_of(form, bytes, len);
    int good = 1;
    for (int round = 0; round < 2; round++) {
        size = 0;
        for (size_t at = 0, used; good && at < len; at += used) {
            size_t more = len - at < piece ? len - at : piece;
            memcpy(given, bytes + at, more);
            used = csicodec_feed_lines(&lines, given, more, add, NULL);
            good &= used == more || more_room(&lines);
        }
        while (csicodec_finish_lines(&lines, add, NULL) != CSICODEC_OK && good) good &= more_room(&lines);
        good &= size == needed && !memcmp(said, whole, size);
    }
    free(lines.held), free(lines.out), free(given);
    if (!good) fprintf(stderr, "lines: form %d in pieces of %zu, rooms of %zu and %zu, of %.*s\nis %.*s\nand not %.*s\n", form, piece, held, out,
                       (int)len, bytes, (int)size, said, (int)needed, whole);
    return good;
}

/* What lines are made of, and what begins and ends what is no line. */
static const char *const bits[] = {
    "a", "\xc3\xa9", "\n", "\n", "\n", "\r", "\x1b[1m", "\x1b[38;5;200;4m", "\x1b[m", "\x1b[8m", "\x1b" "c", "\x1bkt", "\x1b\\",
    "\x1b]0;t\n", "\x07", "\x1b[3\n1m", "\x1b[K", "\x1b[2C", "\x1bM", "\x1b" "7", "\x1b" "8", "\x1b[", "\x1bP\n", "\t", "\x18", "\x0e",
    "\x0f", "q", "\x1b(0", "\x1b(B", "\x1b)0", "\x1b)B", "\x1b(A", "#", "\x1b[5;7H", "\x1b[2", "\x1b]8;;http://a.b\x07", "\x1b[s", "\x1b[u", "\x1b[?1048h", "\x1b[4h", "\x1b[!p", "\x1b[?25;1049h", "\x1b[?25h",
    "\x1b[1;3;5;7;9;53;38;2;1;2;3;48;2;4;5;6;58:2::7:8:9m", "<&>", "\x1bH", "\x1b[3g", "\x1b[g", "\x1b[?5W", "\x1b[1;5r", "\x1b[?69h",
    "\x1b[5;10s", "\x1b[1\"q", "\x1b[0\"q", "\x1b[?2K", "\x1b[?K", "\x1b[?J", "\x1b[2J", "\x1b[J", "\x1b[1J", "\x1b[3b", "\x1b[b",
    "\x1b[5@", "\x1b[3P", "\x1b[4X", "\x1b[2L", "\x1b[M", "\x1b[3A", "\x1b[B", "\x1b[E", "\x1b[F", "\x1b[7G", "\x1b[3d", "\x1b[2I",
    "\x1b[Z", "\x1b" "D", "\x1b" "E", "\x1b[S", "\x1b[T", "\x1b[?25l", "\x1b[?7l", "\x1b[20h", "\x1b[20l", "\x1b[4l", "\x1b[?1049l",
    "\x1b[?1048l", "\x1b[?47h", "\x1b[?1047h", "\x1b#8", "\x1b[1'}", "\x1b[2 @", "\x1b[?6h", "\x1b[!p", "\x1b[22;0t", "\x1b[>4;2m",
    "\x1b[>1u", "\x1b[10m", "\x1b[11m", "\x1b[7m", "\x1b[27m", "\x1b[5m", "\x1b[73m", "\x1b[75m", "\x1b[58;5;9m", "\x1b[59m", "\x1b[4:3m",
    "\x1b[24m", "\x1b[28m", "\x0b", "\x0c", "\x08", "\x08\x08", "\x7f", "\x85", "\xc2\x85", "\xe2\x80\xa8", "\xe5\xad\x97",
    "e" "\xcc\x81", "\xcc\x81", "\xf0\x9f\x91\xa9\xe2\x80\x8d\xf0\x9f\x91\xa7", "\xe2", "\xff", "\r\n", "\x1b]8;;\x1b\\", "\x1bk",
    "\x1b]2;", "\x1b_", "\x1b^", "\x1bX", "\x1b[1;2\r3m", "\x1b[?1;1049;h", "\x1b[?1049:h", "\x1b[?1049 h", "\x1b[1049h", "\x1b[?1049$p",
    "\x1b[?1048s", "\x1b[?1048r", "\x1b[?1r", "\x1b[u", "\x1b" "8", "\x1b[?1049 ;h"
};
/* How many of them are taken in each second stream. */
enum { OFTEN = 46 };
static uint64_t state = 88172645463325252u;

static size_t any(size_t below) {
    state ^= state << 13, state ^= state >> 7, state ^= state << 17;
    return (size_t)(state % below);
}

/* Each way to save a place, and each way back to it, in the next line and behind what may end both. */
static int same_of_places(void) {
    enum { SAVES = 8, BACKS = 5, BETWEEN = 4 };
    static const char *const saves[SAVES] = {"\x1b" "7", "\x1b[s", "\x1b[?1048h", "\x1b[?1049h", "\x1b[?25;1048h", "\x1b[4h", "\x1b[1;4h",
                                             "\x1b[?1048;25h"};
    static const char *const backs[BACKS] = {"\x1b" "8", "\x1b[u", "\x1b[?1048l", "\x1b[?1049l", "\r\x1b[2Ccd\r"};
    static const char *const between[BETWEEN] = {"", "\x1b[!p", "\x1b" "c", "\x1b[4l"};
    char text[64];
    for (size_t i = 0; i < SAVES * BACKS * BETWEEN; i++) {
        const char *back = backs[i / SAVES % BACKS];
        size_t len = (size_t)sprintf(text, "1\nab%s\n%sx\n%sX\nY\n", saves[i % SAVES], between[i / SAVES / BACKS], back);
        for (int form = 0; form < FORMS; form++)
            if (!is_same(form, (const uint8_t *)text, len, 1, 4096, 4096)) return 0;
    }
    return 1;
}

static int same_at_random(unsigned rounds) {
    static uint8_t bytes[8192];
    for (unsigned i = 0; i < rounds; i++) {
        size_t len = 0, count = 3 + any(i % 16 ? 25 : 200);
        while (count--) {
            /* A saved place holds all that follows, so that it is rare. */
            size_t kinds = i % 2 ? OFTEN : sizeof bits / sizeof bits[0], bit = any(kinds + 40), at = bit < kinds ? bit : bit % 14;
            memcpy(bytes + len, bits[at], strlen(bits[at]));
            len += strlen(bits[at]);
        }
        for (int form = 0; form < FORMS; form++)
            if (!is_same(form, bytes, len, 1 + any(any(2) ? 9 : len), any(4) ? 4096 : any(600), any(2) ? 65536 : any(300))) return 0;
    }
    return 1;
}

/* The most that sets how characters look is far less than its room. */
static int looks_fit(void) {
    static const char text[] = "\x1b[1;3;4:3;5;7;9;53;73;38:6::255:255:255:254;48:6::255:255:255:254;58:6::255:255:255:254m\na";
    struct csicodec_lines lines = lines_of(1, 4096, 4096);
    size = 0;
    int good = csicodec_feed_lines(&lines, (const uint8_t *)text, sizeof text - 1, add, NULL) == sizeof text - 1;
    good &= lines.look > 70 && lines.look < CSICODEC_LOOK / 2;
    free(lines.held), free(lines.out);
    if (!good) fprintf(stderr, "lines: a look of %zu\n", lines.look);
    return good;
}

/* A line is written when it ends, and a room that lacks is told with how much it has to have; choices are refused at once. */
static int is_told(void) {
    static const char *const given[] = {"10%\r20%", "\r\x1b[K", "done\n", "a"}, *const wanted[] = {"", "", "done\n", "done\n"};
    struct csicodec_lines lines = lines_of(0, CSICODEC_LOOK + 16, 8);
    int good = 1;
    size = 0;
    for (int i = 0; i < 4; i++) {
        good &= csicodec_feed_lines(&lines, (const uint8_t *)given[i], strlen(given[i]), add, NULL) == strlen(given[i]);
        good &= size == strlen(wanted[i]) && !memcmp(said, wanted[i], size);
    }
    good &= csicodec_feed_lines(&lines, (const uint8_t *)"23456789abcdefghij", 18, add, NULL) == 15 && lines.status == CSICODEC_MEMORY;
    good &= lines.held_needed == CSICODEC_LOOK + 17 && !lines.out_needed;
    good &= csicodec_finish_lines(&lines, add, NULL) == CSICODEC_MEMORY && lines.out_needed == 16 && !lines.held_needed && size == 5;
    free(lines.held), free(lines.out);
    lines = csicodec_overwritten_lines(2, NULL, 0, NULL, 0);
    good &= !csicodec_feed_lines(&lines, (const uint8_t *)"a", 1, add, NULL) && lines.status == CSICODEC_BAD_STATE;
    for (int i = 0; i < 5; i++) {
        struct csicodec_markup markup = {i == 0 ? 2 : 0, i == 1 ? 2 : 0, i == 2 ? 2 : 1, i == 3 ? 2 : 0};
        uint32_t color = 0;
        lines = csicodec_html_lines(&markup, &color, i == 4, NULL, 0, NULL, 0);
        good &= csicodec_finish_lines(&lines, add, NULL) == CSICODEC_BAD_STATE;
    }
    lines = csicodec_overwritten_lines(0, NULL, 0, NULL, 0);
    good &= csicodec_finish_lines(&lines, add, NULL) == CSICODEC_OK && size == 5;
    good &= !csicodec_feed_lines(&lines, (const uint8_t *)"a", 1, add, NULL) && lines.status == CSICODEC_MEMORY;
    good &= lines.held_needed == CSICODEC_LOOK + 1;
    if (!good) fprintf(stderr, "lines: rooms and choices\n");
    return good;
}

static int is_written(struct csicodec_lines *lines, const char *given, const char *wanted) {
    size = 0;
    if (csicodec_feed_lines(lines, (const uint8_t *)given, strlen(given), add, NULL) != strlen(given)) return 0;
    return size == strlen(wanted) && !memcmp(said, wanted, size);
}

/* The text of a line needs room, and not that of all lines that come at once; a reset ends what holds lines. */
static int are_written(void) {
    struct csicodec_lines lines = lines_of(0, 4096, 8);
    int good = is_written(&lines, "one\ntwo\nthree\nfour\nfi", "one\ntwo\nthree\nfour\n") && is_written(&lines, "ve\n", "five\n");
    good &= is_written(&lines, "a\n\x1b[4h" "b\n", "a\n") && is_written(&lines, "\x1b[!p", "") && is_written(&lines, "c", "");
    free(lines.out);
    lines.out = malloc(lines.out_room = 64);
    good &= is_written(&lines, "\n", "b\nc\n") && is_written(&lines, "\x1b[?25h\x1b" "7d\n", "") && is_written(&lines, "\x1b" "ce\n", "d\ne\n");
    free(lines.held), free(lines.out);
    if (!good) fprintf(stderr, "lines: wrote %.*s\n", (int)size, said);
    return good;
}

/* Each file, in pieces of some lengths. */
static int same_of_file(const char *name) {
    static uint8_t bytes[ALL];
    FILE *file = fopen(name, "rb");
    size_t len = file ? fread(bytes, 1, sizeof bytes, file) : 0;
    if (!file) return perror(name), 0;
    fclose(file);
    for (int form = 0; form < FORMS; form++)
        for (size_t piece = 7; piece < 100000; piece *= 37)
            if (!is_same(form, bytes, len, piece, 65536, 65536)) return 0;
    return 1;
}

int main(int count, char **words) {
    if (!same_of_places() || !same_at_random(count > 1 ? (unsigned)atoi(words[1]) : 1000) || !looks_fit() || !is_told() || !are_written()) return 1;
    for (int i = 2; i < count; i++)
        if (!same_of_file(words[i])) return 1;
    printf("lines: pages and lines as they come are those of the whole\n");
    return 0;
}
