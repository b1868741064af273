/* What is left of untrusted text, all at once and in every cut, and streams and actions in fewer bytes; room that is too small holds
 * nothing. */
#include "csicodec.h"

#include <stdio.h>
#include <string.h>

static uint8_t out[256];

static int is(uint32_t status, size_t needed, const char *wanted) {
    return status == CSICODEC_OK && needed == strlen(wanted) && !memcmp(out, wanted, needed);
}

/* Bytes, what is left of their text, and of their text with its styles. */
static const char *const texts[][3] = {
    {"one\r\ntwo\r", "one\ntwo", "one\ntwo"},
    {"\x1b[01;31mred\x1b[2Jtext", "redtext", "\x1b[1m\x1b[31mredtext\x1b[0m"},
    {"a\x1b]0;title\x07" "b\xc2\x1b[m\x9b", "ab\xef\xbf\xbd\xef\xbf\xbd", "ab\xef\xbf\xbd\x1b[0m\xef\xbf\xbd"},
    {"x\x1b[8mhidden\x1b[28m\x1b_abc", "xhidden", "xhidden\x1b[28m\x1b[0m"},
    {"\x1b(0lqk\x1b(B\x1b)0\x0eq\x0fq", "\xe2\x94\x8c\xe2\x94\x80\xe2\x94\x90\xe2\x94\x80q", "\xe2\x94\x8c\xe2\x94\x80\xe2\x94\x90\xe2\x94\x80q"},
    {"", "", ""}};
/* Bytes, what passes of them, and what is left then. */
static const struct {
    const char *bytes;
    uint32_t depth, links;
    const char *left;
} passing[] = {
    {"\x1b[38;2;250;5;5mred", CSICODEC_DEPTH_FULL, 0, "\x1b[38:2::250:5:5mred\x1b[0m"},
    {"\x1b[38;2;250;5;5mred", CSICODEC_DEPTH_PALETTE, 0, "\x1b[38:5:196mred\x1b[0m"},
    {"\x1b[38;2;250;5;5mred", CSICODEC_DEPTH_ANSI, 0, "\x1b[91mred\x1b[0m"},
    {"\x1b]8;;http://a.example\x07" "a", CSICODEC_DEPTH_FULL, 1, "\x1b]8;;http://a.example\x1b\\a\x1b]8;;\x1b\\"},
    {"\x1b]8;;http://a.example\x07" "a", CSICODEC_DEPTH_FULL, 0, "a"}};
/* Bytes, and fewer that are read alike, without semicolons that are no shorter and with them. */
static const char *const streams[][3] = {
    {"a\x1b[01;38:2::255:0:0mb\x1b[1;1H", "a\x1b[1;38;2;255;0;0mb\x1b[H", "a\x1b[1;38;2;255;0;0mb\x1b[H"},
    {"\x1b[38:5:99m", "\x1b[38:5:99m", "\x1b[38;5;99m"},
    {"\x1b[1m\x1b]0;[01m\x07", "\x1b[1m\x1b]0;[01m\x07", "\x1b[1m\x1b]0;[01m\x07"},
    {"\x1b[07;2*y", "\x1b[07;2*y", "\x1b[07;2*y"}};
/* Characters that are cut, by the end and by sequences; titles; styles; strings; a sequence with a control in it; graphic sets. */
static const uint8_t untrusted[] = "a\xc3\xa9\x1b[01;38;2;250;5;5mred\x1b]8;;u\x07\x1bk\xc3t\x1b\\\xe2\x82\x1b[3m\xac\xf0\x9f\x98\x80"
                                   "\xf0\x9f\x1b]0;t\x1b[1\b;2m\xe2\x82\x1b[0m\x1b[8mh\x1b[4m\xf0\x9f\x98\x1b(0q\x1b)A#\x0e#\x1b[!pq#\x1b[2";

enum { PLAIN = 9 };

/* A step of strip, or of clean in a depth. */
static struct csicodec_cleaned step_of(uint32_t depth, const struct csicodec_cleaning *state, const uint8_t *bytes, size_t len, uint8_t *room,
                                       size_t size) {
    return depth == PLAIN ? csicodec_strip_step(state, bytes, len, room, size) : csicodec_clean_step(depth, state, bytes, len, room, size);
}

/* Whether the steps of pieces that end at these places, and the end, put what the whole is. */
static int stepped(uint32_t depth, size_t first, size_t second) {
    uint8_t whole[256];
    const size_t len = sizeof untrusted - 1, ends[] = {first, second, len};
    struct csicodec_stripped all = depth == PLAIN ? csicodec_strip(untrusted, len, whole, sizeof whole)
                                                  : csicodec_clean_with(depth, 0, untrusted, len, whole, sizeof whole);
    struct csicodec_cleaning state = {0, 0, 0, 0};
    size_t at = 0, size = 0;
    int good = all.status == CSICODEC_OK;
    for (int i = 0; i < 3; i++) {
        struct csicodec_cleaned step = step_of(depth, &state, untrusted + at, ends[i] - at, out + size, sizeof out - size);
        good &= step.status == CSICODEC_OK && step.state.held <= 3 && step.used + step.state.held <= ends[i] - at;
        at += step.used, size += step.needed, state = step.state;
    }
    struct csicodec_stripped end = csicodec_clean_end(&state, untrusted + at, len - at, out + size, sizeof out - size);
    size += end.needed;
    return good && end.status == CSICODEC_OK && end.needed <= 7 && size == all.needed && !memcmp(out, whole, size);
}

/* States that no step answers, and numbers of nothing. */
static int bad_states(void) {
    static const struct csicodec_cleaning states[] = {{6, 0, 0, 0}, {0, 12, 0, 0}, {0, 48, 0, 0}, {0, 0, 2, 0}, {0, 0, 0, 4}, {0, 0, 0, 3}};
    static const struct csicodec_cleaning none = {0, 0, 0, 0};
    int good = 1;
    for (size_t i = 0; i < sizeof states / sizeof states[0]; i++) {
        good &= csicodec_strip_step(&states[i], untrusted, 2, NULL, 0).status == CSICODEC_BAD_STATE;
        good &= csicodec_clean_step(0, &states[i], untrusted, 2, NULL, 0).status == CSICODEC_BAD_STATE;
        good &= csicodec_clean_end(&states[i], untrusted, 2, NULL, 0).status == CSICODEC_BAD_STATE;
    }
    return good && csicodec_clean_step(3, &none, untrusted, 2, NULL, 0).status == CSICODEC_BAD_STATE &&
           csicodec_clean_with(3, 0, untrusted, 2, NULL, 0).status == CSICODEC_BAD_STATE &&
           csicodec_clean_with(0, 2, untrusted, 2, NULL, 0).status == CSICODEC_BAD_STATE &&
           csicodec_strip_step(&none, NULL, 0, NULL, 0).status == CSICODEC_OK && csicodec_clean_end(&none, NULL, 0, NULL, 0).needed == 0;
}

static int fits(const uint8_t *text, size_t len) {
    static const struct csicodec_cleaning styled = {0, 0, 1, 0};
    out[0] = 0xaa;
    return csicodec_strip_step(&styled, text, len, out, 1).needed > 1 && csicodec_clean_step(0, &styled, text, len, out, 1).needed > 1 &&
           csicodec_clean_end(&styled, text, len, out, 1).needed > 1 && csicodec_clean_with(0, 1, text, len, out, 1).needed > 1 &&
           csicodec_strip(text, len, out, 1).needed > 1 && csicodec_clean(text, len, out, 1).needed > 1 &&
           csicodec_compact(0, 64, text, len, out, 1).needed > 1 && out[0] == 0xaa;
}

int main(void) {
    for (size_t i = 0; i < sizeof texts / sizeof texts[0]; i++) {
        const uint8_t *text = (const uint8_t *)texts[i][0];
        struct csicodec_stripped left = csicodec_strip(text, strlen(texts[i][0]), out, sizeof out);
        int good = is(left.status, left.needed, texts[i][1]);
        left = csicodec_clean(text, strlen(texts[i][0]), out, sizeof out);
        if (good && is(left.status, left.needed, texts[i][2])) continue;
        fprintf(stderr, "text: text %zu: %.*s\n", i, (int)left.needed, (const char *)out);
        return 1;
    }
    for (size_t i = 0; i < sizeof passing / sizeof passing[0]; i++) {
        const uint8_t *text = (const uint8_t *)passing[i].bytes;
        struct csicodec_stripped left = csicodec_clean_with(passing[i].depth, passing[i].links, text, strlen(passing[i].bytes), out, sizeof out);
        if (is(left.status, left.needed, passing[i].left)) continue;
        fprintf(stderr, "text: passing %zu: %.*s\n", i, (int)left.needed, (const char *)out);
        return 6;
    }
    static const uint32_t depths[] = {PLAIN, CSICODEC_DEPTH_FULL, CSICODEC_DEPTH_PALETTE, CSICODEC_DEPTH_ANSI};
    for (size_t i = 0; i < sizeof untrusted; i++)
        for (size_t j = i; j < sizeof untrusted; j++)
            for (size_t k = 0; k < sizeof depths / sizeof depths[0]; k++) {
                if (stepped(depths[k], i, j)) continue;
                fprintf(stderr, "text: cut at %zu and %zu, depth %d\n", i, j, (int)depths[k]);
                return 7;
            }
    if (!bad_states()) return 8;
    for (size_t i = 0; i < sizeof streams / sizeof streams[0]; i++) {
        const uint8_t *text = (const uint8_t *)streams[i][0];
        size_t len = strlen(streams[i][0]);
        struct csicodec_filtered step = csicodec_compact(0, 64, text, len, out, sizeof out);
        int good = step.used == len && is(step.status, step.needed, streams[i][1]);
        step = csicodec_compact_semicolons(0, 64, text, len, out, sizeof out);
        if (good && step.used == len && is(step.status, step.needed, streams[i][2])) continue;
        fprintf(stderr, "text: stream %zu: %.*s\n", i, (int)step.needed, (const char *)out);
        return 2;
    }
    struct csicodec_action actions[] = {{.kind = CSICODEC_SGR_RESET}, {.kind = CSICODEC_SGR_ITALIC, .first = 1}, {.kind = CSICODEC_CURSOR_UP, .first = 1}};
    struct csicodec_encoded text = csicodec_encode_compact(actions, 3, NULL, 0, out, sizeof out);
    if (!is(text.status, text.needed, "\x1b[;3m\x1b[A")) return 3;
    actions[1].first = 2;
    text = csicodec_encode_compact(actions, 3, NULL, 0, out, sizeof out);
    if (text.status != CSICODEC_NO_ACTION || text.at != 1) return 4;
    if (!fits((const uint8_t *)"long enough", 11) || csicodec_compact(6, 64, NULL, 0, NULL, 0).status != CSICODEC_BAD_STATE) return 5;
    printf("texts and streams\n");
    return 0;
}
