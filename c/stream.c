/* A stream in every cut has the same events, and no character is cut; controls within a sequence are told; null stands for no bytes
 * and no room. */
#include "csicodec.h"

#include <stdio.h>
#include <string.h>

static const uint8_t bytes[] = "a\x1b[1;31mred\x1b]0;[1m;t\x07\x1b(B\x1b" "7\x1b[1\b;2H\x1b[\x7f" "5A\x1b[3\x18z\x1b[1\xc3\xa9\x1bPq\x1b\x1b[m\x1b\\\x1b_x\x1b[200~\x1b!";
static const char wanted[] = "T a|A 2 1|A 11 1|T red|S ] 0;[1m;t.|E 2842|E 37|T \b|A 109 1|A 101 5|O \x1b[3|T \x18z|O \x1b[1|T \xc3\xa9|"
                             "S P q\x1b\x1b[m.|S _ x|A 0 0|";

static char told[1024];
static size_t size;
static char open;
/* Whether text ended within a character. */
static int torn;

/* What an event says; text and strings that go on are joined. */
static void tell(const struct csicodec_stream *stream, const struct csicodec_event *event) {
    char kind = "NTAESO"[event->kind];
    torn |= kind == 'T' && event->bytes[event->len - 1] >= 0xc0;
    int goes_on = open == kind && (kind == 'T' || kind == 'O' || (kind == 'S' && !event->first));
    if (open && !goes_on) told[size++] = '|';
    open = kind;
    if (kind == 'A') {
        for (size_t i = 0; i < event->actions; i++)
            size += (size_t)sprintf(told + size, "%sA %d %d", i ? "|" : "", (int)stream->actions[i].kind, (int)stream->actions[i].first);
        return;
    }
    if (kind == 'E') {
        size += (size_t)sprintf(told + size, "E %x", (unsigned)event->code);
        return;
    }
    if (!goes_on) size += (size_t)sprintf(told + size, kind == 'S' ? "S %c " : "%c ", kind == 'S' ? (int)event->string : kind);
    memcpy(told + size, event->bytes, event->len);
    size += event->len;
    if (kind == 'S' && event->last) told[size++] = '.';
    if (kind == 'T' && event->used == 0) told[size++] = '|', open = 0;
}

/* The pieces end at these places. */
static int cut(size_t first, size_t second) {
    struct csicodec_action actions[4];
    struct csicodec_param params[4];
    struct csicodec_stream stream = csicodec_stream_of(64, actions, 4, params, 4);
    struct csicodec_event event;
    const size_t ends[] = {first, second, sizeof bytes - 1};
    size_t at = 0;
    size = 0, open = 0, torn = 0;
    for (int i = 0; i < 3; i++)
        for (; csicodec_next_event(&stream, bytes + at, ends[i] - at, &event); at += event.used) tell(&stream, &event);
    told[size++] = '|';
    return !torn && at == sizeof bytes - 3 && size == sizeof wanted - 1 && !memcmp(told, wanted, size);
}

/* What waits at the end of text: a character that is cut, and nothing that begins none. */
static int waits(void) {
    static const struct { const char *text; size_t len, whole; } cases[] = {
        {"a", 1, 1}, {"a\xc3", 2, 1}, {"\xc3\xa9", 2, 2}, {"ab\xe2\x82", 4, 2}, {"\xe2\x82\xac", 3, 3}, {"a\xf0\x9f\x98", 4, 1},
        {"\xf0\x9f\x98\x80", 4, 4}, {"\xc3" "a", 2, 2}, {"\xc0", 1, 1}, {"\xe0\x80", 2, 2}, {"\xed\xa0", 2, 2}, {"\xf4\x90", 2, 2},
        {"\xf0\x8f", 2, 2}, {"\xf5", 1, 1}, {"\xc1", 1, 1}, {"\xff", 1, 1}, {"\x82\x82\x82\x82", 4, 4}};
    int good = 1;
    for (size_t i = 0; i < sizeof cases / sizeof cases[0]; i++) {
        struct csicodec_stream stream = csicodec_stream_of(64, NULL, 0, NULL, 0);
        struct csicodec_event event;
        good &= csicodec_next_event(&stream, (const uint8_t *)cases[i].text, cases[i].len, &event) && event.used == cases[i].whole;
    }
    return good;
}

/* A sequence of many bytes with a control at its front: the control, and then all of its actions. */
static int of_many_bytes(void) {
    static uint8_t many[4096];
    struct csicodec_action actions[2];
    struct csicodec_param params[2];
    struct csicodec_stream stream = csicodec_stream_of(sizeof many, actions, 2, params, 2);
    struct csicodec_event event;
    for (size_t count = 1; count < 2000; count += 1 + count / 8) {
        size_t len = 4;
        memcpy(many, "\x1b[1\n", len);
        for (size_t i = 1; i < count; i++) many[len++] = ';', many[len++] = '1';
        many[len++] = 'm';
        if (!csicodec_next_event(&stream, many, len, &event) || event.kind != CSICODEC_EVENT_TEXT || event.used != 0 || *event.bytes != '\n')
            return 0;
        if (!csicodec_next_event(&stream, many, len, &event) || event.kind != CSICODEC_EVENT_ACTIONS || event.used != len ||
            event.actions != count || actions[0].kind != CSICODEC_SGR_INTENSITY)
            return 0;
    }
    return 1;
}

static int of_nothing(void) {
    struct csicodec_event event;
    struct csicodec_stream stream = csicodec_stream_of(1, NULL, 0, NULL, 0), none = csicodec_stream_of(0, NULL, 0, NULL, 0);
    struct csicodec_action up = {.kind = CSICODEC_CURSOR_UP, .first = 5};
    const uint8_t *text = (const uint8_t *)"\x1b[5A";
    return csicodec_normalise(NULL, 0, NULL, 0).status == CSICODEC_OK && csicodec_normalise(text, 4, NULL, 0).needed == 4 &&
           csicodec_next(NULL, 0, NULL, 0, NULL, 0).status == CSICODEC_TRUNCATED && csicodec_next(text, 4, NULL, 0, NULL, 0).used == 4 &&
           csicodec_encode(NULL, 0, NULL, 0, NULL, 0).needed == 0 && csicodec_encode(&up, 1, NULL, 0, NULL, 0).needed == 4 &&
           csicodec_is_canonical(&up, NULL, 0).canonical == 1 && csicodec_filter(0, 9, NULL, 0, NULL, 0).status == CSICODEC_OK &&
           csicodec_filter(0, 9, text, 4, NULL, 0).used == 4 && csicodec_span(0, 9, NULL, 0).status == CSICODEC_TRUNCATED &&
           !csicodec_next_event(&stream, NULL, 0, &event) && !csicodec_next_event(&none, text, 4, &event) &&
           event.status == CSICODEC_BAD_STATE;
}

static int names(void) {
    return csicodec_version() == CSICODEC_VERSION_NUMBER && !strcmp(csicodec_kind_name(101), "CSICODEC_CURSOR_UP") && !csicodec_kind_name(100) &&
           !strcmp(csicodec_status_text(CSICODEC_TRUNCATED), "truncated") && !csicodec_status_text(8) &&
           csicodec_esc('(', '0') == CSICODEC_ESC_DEC_LINE_DRAWING_G0 && csicodec_esc(0, '7') == CSICODEC_ESC_DEC_SAVE_CURSOR_POSITION &&
           csicodec_esc('(', '7') == 0 && csicodec_span(6, 9, bytes, 4).status == CSICODEC_BAD_STATE;
}

int main(void) {
    if (!of_nothing()) return 2;
    if (!names()) return 3;
    if (!waits()) return 4;
    if (!of_many_bytes()) return 5;
    for (size_t i = 0; i < sizeof bytes; i++)
        for (size_t j = i; j < sizeof bytes; j++)
            if (!cut(i, j)) {
                fprintf(stderr, "stream: cut at %d and %d: %.*s\n", (int)i, (int)j, (int)size, told);
                return 1;
            }
    printf("%d bytes in each cut\n", (int)sizeof bytes - 1);
    return 0;
}
