/* Each kind of action with its text, each kind of sequence without an action, and what the calls refuse. With the word `known` it says what is known
 * of the sequences that it reads. */
#include "csicodec.h"

#include <stdio.h>
#include <stdlib.h>
#include <string.h>

#include "kinds.inc"

enum { COUNT = sizeof kinds / sizeof kinds[0], FURTHER = sizeof known / sizeof known[0] };

static uint8_t out[256];

/* Whether the struct has the text, and is read from it. */
static int is_kind(size_t i) {
    const uint8_t *text = (const uint8_t *)kinds[i].text;
    size_t len = strlen(kinds[i].text);
    struct csicodec_encoded done = csicodec_encode(&kinds[i].action, 1, kinds[i].params, 2, out, sizeof out);
    if (done.status != CSICODEC_OK || done.needed != len || memcmp(out, text, len)) return 0;
    struct csicodec_judged judged = csicodec_is_canonical(&kinds[i].action, kinds[i].params, 2);
    if (judged.status != CSICODEC_OK || judged.canonical != (uint32_t)kinds[i].read) return 0;
    struct csicodec_action action;
    struct csicodec_param params[16];
    struct csicodec_front front = csicodec_next(text, len, &action, 1, params, 16);
    if (front.status != CSICODEC_OK || front.actions != 1 || front.used != len) return 0;
    if (!kinds[i].read) return 1;
    if (memcmp(&action, &kinds[i].action, sizeof action) || front.params != action.len) return 0;
    return memcmp(params, kinds[i].params, action.len * sizeof params[0]) == 0;
}

/* What is known of a text with ESC [ in front, whose tokens are not cut into actions. */
static struct csicodec_known known_of(const char *text) {
    struct csicodec_param params[32];
    struct csicodec_action action = {.kind = CSICODEC_UNSPECIFIED};
    for (text += 2; text[1]; action.len++) {
        char *end;
        params[action.len] = (struct csicodec_param){1, *text};
        if (*text < '0' || *text > '9') text++;
        else params[action.len] = (struct csicodec_param){0, strtoll(text, &end, 10)}, text = end;
    }
    action.final_char = (uint32_t)*text;
    return csicodec_known(&action, params, action.len);
}

/* Values, and what stands for those that are left out; and what is no row's list, or isn't all there. */
static int knows(void) {
    static const uint32_t copied[CSICODEC_KNOWN_VALUES] = {1, 2, 3, 0, 1, 1, 7, 1};
    struct csicodec_known is = known_of("\x1b[;2;3;;;;7$v");
    if (is.kind != CSICODEC_KNOWN_DECCRA || is.count != 8 || memcmp(is.values, copied, sizeof copied)) return 0;
    is = known_of("\x1b[1;1;1;1;1;1;1;1;1;1;1;1;#{");
    if (is.kind != CSICODEC_KNOWN_XTPUSHSGR || is.count != CSICODEC_KNOWN_VALUES) return 0;
    if (known_of("\x1b[1;1;1;1;1;1;1;1;1;1;1;1;1#{").kind || known_of("\x1b[4?J").kind || known_of("\x1b[2J").kind) return 0;
    struct csicodec_action action = {.kind = CSICODEC_UNSPECIFIED, .final_char = 'K', .place = 1, .len = 2};
    struct csicodec_param params[] = {{1, ';'}, {1, '?'}, {0, 2}, {2, 2}};
    is = csicodec_known(&action, params, 3);
    if (is.kind != CSICODEC_KNOWN_DECSEL || is.count != 1 || is.values[0] != 2) return 0;
    if (csicodec_known(&action, params, 2).kind || csicodec_known(&action, NULL, 0).kind) return 0;
    struct csicodec_action wrong[] = {action, action, action, action, action};
    wrong[0].place = SIZE_MAX, wrong[1].len = SIZE_MAX, wrong[2].first = 1, wrong[3].len = 3, wrong[4].final_char = 0x11004b;
    for (size_t i = 0; i < sizeof wrong / sizeof wrong[0]; i++)
        if (csicodec_known(&wrong[i], params, 4).kind) return 0;
    return 1;
}

/* How a struct is refused that differs from one that is taken in one field. */
static uint32_t status_of(struct csicodec_action action) {
    struct csicodec_param params[1] = {{0, 1}};
    struct csicodec_encoded answer = csicodec_encode(&action, 1, params, 1, out, sizeof out);
    return answer.status;
}

static int refuses(void) {
    struct csicodec_action up = {.kind = CSICODEC_CURSOR_UP, .first = 5};
    struct csicodec_action wrong[] = {up, up, up, up, up, up, {.kind = 999}, {.kind = CSICODEC_SGR_FONT, .first = 10}};
    wrong[0].first = -1, wrong[1].first = 4294967296, wrong[2].second = 1, wrong[3].len = 1, wrong[4].place = 2, wrong[5].absent = 1;
    if (status_of(up) != CSICODEC_OK) return 0;
    for (size_t i = 0; i < sizeof wrong / sizeof wrong[0]; i++)
        if (status_of(wrong[i]) != CSICODEC_NO_ACTION) return 0;
    struct csicodec_action tokens = {.kind = CSICODEC_UNSPECIFIED, .final_char = 'm', .place = SIZE_MAX, .len = 2};
    if (status_of(tokens) != CSICODEC_NO_ACTION) return 0;
    struct csicodec_action both[] = {up, {.kind = 999}};
    struct csicodec_param none[1] = {{0, 0}};
    struct csicodec_encoded answer = csicodec_encode(both, 2, none, 0, out, sizeof out);
    return answer.status == CSICODEC_NO_ACTION && answer.at == 1;
}

static int places(void) {
    const uint8_t *cut = (const uint8_t *)"\x1b[1m\x1b[3", *other = (const uint8_t *)"\x1b[1mx", *bad = (const uint8_t *)"\x1b[1\x07";
    struct csicodec_normalised answer = csicodec_normalise(cut, 7, out, sizeof out);
    if (answer.status != CSICODEC_TRUNCATED || answer.start != 4 || answer.at != 3) return 0;
    answer = csicodec_normalise(other, 5, out, sizeof out);
    if (answer.status != CSICODEC_NOT_CSI || answer.start != 4 || answer.at != 0) return 0;
    answer = csicodec_normalise(cut, 0, out, sizeof out);
    if (answer.status != CSICODEC_OK || answer.needed != 0) return 0;
    struct csicodec_action action = {.kind = 7};
    struct csicodec_param param;
    struct csicodec_front front = csicodec_next(bad, 4, &action, 1, &param, 1);
    return front.status == CSICODEC_BAD_BYTE && front.at == 3 && action.kind == 7;
}

/* A stream in two steps, whose state is kept here. */
static int filters(void) {
    const uint8_t *stream = (const uint8_t *)"a\x1b[1;3mb\x1b[00";
    struct csicodec_filtered answer = csicodec_filter(CSICODEC_FILTER_TEXT, 65536, stream, 12, out, sizeof out);
    if (answer.status != CSICODEC_OK || answer.used != 8 || answer.mode != CSICODEC_FILTER_TEXT) return 0;
    if (answer.needed != 10 || memcmp(out, "a\x1b[1m\x1b[3mb", 10)) return 0;
    answer = csicodec_filter(answer.mode, 65536, (const uint8_t *)"\x1b[001A", 6, out, sizeof out);
    if (answer.status != CSICODEC_OK || answer.used != 6 || answer.needed != 3 || memcmp(out, "\x1b[A", 3)) return 0;
    answer = csicodec_filter(6, 65536, stream, 12, out, sizeof out);
    if (answer.status != CSICODEC_BAD_STATE) return 0;
    return csicodec_filter(0, 0, stream, 12, out, sizeof out).status == CSICODEC_BAD_STATE;
}

/* Says of each line, behind CSI, which row reads it, and the values. */
static int says(void) {
    char line[256] = "\x1b[";
    while (fgets(line + 2, sizeof line - 2, stdin)) {
        line[strcspn(line, "\n")] = 0;
        struct csicodec_known is = known_of(line);
        printf("%u", (unsigned)is.kind);
        for (uint32_t i = 0; i < is.count; i++) printf(" %u", (unsigned)is.values[i]);
        putchar('\n');
    }
    return 0;
}

int main(int argc, char **argv) {
    if (argc > 1 && strcmp(argv[1], "known") == 0) return says();
    for (size_t i = 0; i < COUNT; i++) {
        if (is_kind(i)) continue;
        fprintf(stderr, "kinds: ESC %s isn't as promised\n", kinds[i].text + 1);
        return 1;
    }
    for (size_t i = 0; i < FURTHER; i++) {
        if (known_of(known[i].text).kind == known[i].kind) continue;
        fprintf(stderr, "kinds: ESC %s isn't %s\n", known[i].text + 1, csicodec_kind_name(known[i].kind));
        return 1;
    }
    if (!refuses() || !places() || !filters() || !knows()) return 2;
    printf("%d kinds, %d of further sequences\n", (int)COUNT, (int)FURTHER);
    return 0;
}
