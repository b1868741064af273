/* Each allocation fails in turn: the call says so, and everything is given back; and how many allocations a call makes.
 * Link with -Wl,--wrap=malloc,--wrap=realloc,--wrap=free. */
#include "csicodec.h"

#include <stdio.h>
#include <stdlib.h>
#include <string.h>

void *__real_malloc(size_t size);
void *__real_realloc(void *block, size_t size);
void __real_free(void *block);

static long left = -1, held, refused, asked;
/* Whether all requests behind the one that is refused are refused, too. */
static int for_good;

static int fails(void) {
    int now = left == 0 || (for_good && left < -1);
    if (left >= 0) left = left ? left - 1 : -1 - for_good;
    refused += now;
    asked++;
    return now;
}

void *__wrap_malloc(size_t size) {
    void *block = fails() ? NULL : __real_malloc(size);
    held += block != NULL;
    return block;
}

void *__wrap_realloc(void *block, size_t size) {
    if (!block) return __wrap_malloc(size);
    return fails() ? NULL : __real_realloc(block, size);
}

void __wrap_free(void *block) {
    held -= block != NULL;
    __real_free(block);
}

/* An attribute, a colour and an unknown rest; extensions of a terminal; a window; graphics; more tokens than csicodec_next
 * reads without memory. */
static const char *const texts[] = {"\x1b[1;38:2::1:2:3;0%m", "\x1b[?62;2;7;9;11;13c", "\x1b[4;40;30t", "\x1b[?2;1;9;8S",
                                    "\x1b[1;3;4;5;7;8;9;53;21;22;0;1;3;4;5;7;8;9;53;21m"};
static uint8_t out[256];
static struct csicodec_action actions[32];
static struct csicodec_param params[64];
static struct csicodec_front front;

static uint32_t normalise(const uint8_t *text, size_t len) {
    return csicodec_normalise(text, len, out, sizeof out).status;
}

static uint32_t next(const uint8_t *text, size_t len) {
    front = csicodec_next(text, len, actions, 32, params, 64);
    return front.status;
}

static uint32_t encode(const uint8_t *text, size_t len) {
    (void)text, (void)len;
    return csicodec_encode(actions, front.actions, params, front.params, out, sizeof out).status;
}

static uint32_t event(const uint8_t *text, size_t len) {
    return csicodec_event(CSICODEC_FILTER_TEXT, 4096, 0, text, len, actions, sizeof actions / sizeof actions[0], params,
                          sizeof params / sizeof params[0]).status;
}

/* The same with a control in it, which is told already. */
static uint32_t event_with_a_control(const uint8_t *text, size_t len) {
    static uint8_t with[4096];
    memcpy(with, "\x1b[\n", 3);
    memcpy(with + 3, text + 2, len - 2);
    return csicodec_event(CSICODEC_FILTER_TEXT, 4096, 3, with, len + 1, actions, sizeof actions / sizeof actions[0], params,
                          sizeof params / sizeof params[0]).status;
}

static uint32_t input(const uint8_t *text, size_t len) {
    return csicodec_input(CSICODEC_DIALECT_INPUT, CSICODEC_FILTER_TEXT, 4096, 0, text, len, actions, sizeof actions / sizeof actions[0], params,
                          sizeof params / sizeof params[0]).status;
}

static uint32_t terminal_actions(const uint8_t *text, size_t len) {
    return csicodec_terminal_actions(text, len, actions, sizeof actions / sizeof actions[0], params, sizeof params / sizeof params[0]).status;
}

/* The event of a sequence as terminals take it: after a refusal the same call is made again. */
static uint32_t event_as_terminals(const uint8_t *text, size_t len) {
    struct csicodec_stream stream = csicodec_stream_of(4096, actions, sizeof actions / sizeof actions[0], params, sizeof params / sizeof params[0]);
    struct csicodec_event event;
    stream.as_terminals = 1;
    if (!csicodec_next_event(&stream, text, len, &event) && !csicodec_next_event(&stream, text, len, &event)) return event.status;
    return event.used != len ? CSICODEC_BAD_STATE : refused ? CSICODEC_MEMORY : CSICODEC_OK;
}

static uint32_t judge(const uint8_t *text, size_t len) {
    (void)text, (void)len;
    return csicodec_is_canonical(&actions[front.actions - 1], params, front.params).status;
}

static uint32_t filter(const uint8_t *text, size_t len) {
    return csicodec_filter(CSICODEC_FILTER_TEXT, 64, text, len, out, sizeof out).status;
}

/* How many allocations a call makes. csicodec_next: none for up to 31 tokens; csicodec_normalise and csicodec_encode: none for one short sequence with one action that has no tokens. */
static const struct {
    uint32_t (*call)(const uint8_t *, size_t);
    const char *text;
    long asked;
} costs[] = {{next, "\x1b[1;38:2::1:2:3m", 0},
             {next, "\x1b[?2004;25h", 0},
             {next, "\x1b[3;4H", 0},
             {next, "\x1b[<4;3;4M", 0},
             {next, "\x1b[>3;2u", 0},
             {next, "\x1b[1;3;4;5;7;8;9;53;21;22;0;1;3;4;5;7m", 0},
             {next, "\x1b[c", 0},
             {next, "\x1b[200~", 0},
             {next, "\x1b[1;5A", 0},
             {next, "\x1b[1;999;3m", 0},
             {next, "\x1b[?1;99999h", 0},
             {next, "\x1b[?62;2;7c", 0},
             {next, "\x1b[?64;1;2;6;9;15;16;17;18;21;22;28c", 0},
             {next, "\x1b[8;24;80t", 0},
             {next, "\x1b[8;24:80t", 0},
             {next, "\x1b[1;2;3;4;5;6*y", 0},
             {next, "\x1b[?1;0;256S", 0},
             {next, "\x1b[?2;1;;S", 0},
             {normalise, "\x1b[1m", 0},
             {normalise, "\x1b[005;7H", 0},
             {normalise, "\x1b[?2004h", 0},
             {encode, "\x1b[1m", 0},
             {encode, "\x1b[5;7H", 0}};

static uint32_t compact(const uint8_t *text, size_t len) {
    return csicodec_compact_semicolons(CSICODEC_FILTER_TEXT, 64, text, len, out, sizeof out).status;
}

static uint32_t encode_compact(const uint8_t *text, size_t len) {
    (void)text, (void)len;
    return csicodec_encode_compact(actions, front.actions, params, front.params, out, sizeof out).status;
}

/* Untrusted text: the beginning of a character that comes again, a style, a link, and the beginning of a character. */
static const struct csicodec_cleaning state = {CSICODEC_FILTER_TEXT, 0, 1, 2};
static const char untrusted[] = "\xe2\x82\xac\x1b[1;4;38;2;1;2;3m\x1b]8;id=1;http://a.example\x07" "a\x1b[31mb\xe2\x82";

static uint32_t strip(const uint8_t *text, size_t len) {
    return csicodec_strip(text, len, out, sizeof out).status;
}

static uint32_t clean(const uint8_t *text, size_t len) {
    return csicodec_clean_with(CSICODEC_DEPTH_ANSI, 1, text, len, out, sizeof out).status;
}

static uint32_t strip_step(const uint8_t *text, size_t len) {
    return csicodec_strip_step(&state, text, len, out, sizeof out).status;
}

static uint32_t clean_step(const uint8_t *text, size_t len) {
    return csicodec_clean_step(CSICODEC_DEPTH_ANSI, &state, text, len, out, sizeof out).status;
}

static uint32_t clean_end(const uint8_t *text, size_t len) {
    return csicodec_clean_end(&state, text, len, out, sizeof out).status;
}

/* Whether the call answers that memory ran out exactly where it was refused, with nothing put, until none is refused. */
static int starves_so(uint32_t (*call)(const uint8_t *, size_t), const uint8_t *text, size_t len) {
    for (long nth = 0; nth < 1000; nth++) {
        memset(out, 0xaa, sizeof out);
        left = nth, held = 0, refused = 0;
        uint32_t status = call(text, len);
        left = -1;
        if (held) return 0;
        if (!refused) return status == CSICODEC_OK;
        if (status != CSICODEC_MEMORY || out[0] != 0xaa) return 0;
    }
    return 0;
}

/* Where each request is refused alone, and where all behind it are refused, too; a call that is made again has to find memory. */
static int starves(uint32_t (*call)(const uint8_t *, size_t), const uint8_t *text, size_t len) {
    for_good = call != event_as_terminals;
    int right = starves_so(call, text, len);
    for_good = 0;
    return right && starves_so(call, text, len);
}

static uint8_t written[256];
static size_t written_len;

static void add_written(void *user, const uint8_t *bytes, size_t len) {
    (void)user;
    memcpy(written + written_len, bytes, len);
    written_len += len;
}

/* Whether lines as they come are those of the whole where any allocation is refused, and the same bytes are fed again. */
static int lines_go_on(void) {
    static const char text[] = "1%\r\x1b[1m2%\n\x1b[31mred\n\x1b[3mend";
    static uint8_t held[1024], room[256], whole[256];
    size_t needed = csicodec_overwrite(1, (const uint8_t *)text, sizeof text - 1, whole, sizeof whole).needed;
    for (long nth = 0; nth < 1000; nth++) {
        struct csicodec_lines lines = csicodec_overwritten_lines(1, held, sizeof held, room, sizeof room);
        size_t at = 0, stops = 0;
        written_len = 0;
        left = nth, refused = 0;
        while (at < sizeof text - 1) {
            at += csicodec_feed_lines(&lines, (const uint8_t *)text + at, sizeof text - 1 - at, add_written, NULL);
            stops += lines.status == CSICODEC_MEMORY;
        }
        while (csicodec_finish_lines(&lines, add_written, NULL) == CSICODEC_MEMORY) stops++;
        left = -1;
        if (written_len != needed || memcmp(written, whole, needed) || stops != (size_t)refused) return 0;
        if (!refused) return nth > 3;
    }
    return 0;
}

static void count_actions(void *count, const struct csicodec_parser *parser, const struct csicodec_event *event) {
    (void)parser;
    *(size_t *)count += event->kind == CSICODEC_EVENT_ACTIONS ? event->actions : 1000;
}

/* Whether a sequence in pieces is told once where any allocation is refused, and the rest is fed again. */
static int pieces_go_on(const uint8_t *text, size_t len, size_t piece) {
    size_t wanted = csicodec_terminal_actions(text, len, actions, 32, params, 64).actions;
    uint8_t held[128];
    for (long nth = 0; nth < 1000; nth++) {
        struct csicodec_parser parser = csicodec_parser_of(held, sizeof held, actions, 32, params, 64);
        size_t count = 0, at = 0, more;
        parser.stream.as_terminals = 1;
        left = nth, refused = 0;
        while (at < len || parser.status == CSICODEC_MEMORY) {
            more = len - at < piece ? len - at : piece;
            at += csicodec_feed(&parser, text + at, more, count_actions, &count);
        }
        csicodec_finish(&parser, count_actions, &count);
        left = -1;
        if (count != wanted) return 0;
        if (!refused) return 1;
    }
    return 0;
}

int main(void) {
    for (size_t i = 0; i < sizeof texts / sizeof texts[0]; i++) {
        const uint8_t *text = (const uint8_t *)texts[i];
        size_t len = strlen(texts[i]);
        uint32_t (*const calls[])(const uint8_t *, size_t) = {normalise, next, event, event_with_a_control, input, encode, judge, filter, compact, encode_compact,
                                                            terminal_actions, event_as_terminals};
        for (size_t call = 0; call < sizeof calls / sizeof calls[0]; call++) {
            if (starves(calls[call], text, len)) continue;
            fprintf(stderr, "starve: call %zu of ESC %s isn't as promised\n", call, texts[i] + 1);
            return 1;
        }
    }
    uint32_t (*const cleaning[])(const uint8_t *, size_t) = {strip, clean, strip_step, clean_step, clean_end};
    for (size_t call = 0; call < sizeof cleaning / sizeof cleaning[0]; call++) {
        if (starves(cleaning[call], (const uint8_t *)untrusted, sizeof untrusted - 1)) continue;
        fprintf(stderr, "starve: call %zu of untrusted text isn't as promised\n", call);
        return 3;
    }
    for (size_t i = 0; i < sizeof costs / sizeof costs[0]; i++) {
        const uint8_t *text = (const uint8_t *)costs[i].text;
        size_t len = strlen(costs[i].text);
        next(text, len);
        asked = 0;
        if (costs[i].call(text, len) == CSICODEC_OK && asked == costs[i].asked) continue;
        fprintf(stderr, "starve: cost %zu, of ESC %s: %ld allocations, not %ld\n", i, costs[i].text + 1, asked, costs[i].asked);
        return 2;
    }
    for (size_t i = 0; i < sizeof texts / sizeof texts[0]; i++)
        for (size_t piece = 1; piece <= 64; piece++) {
            if (pieces_go_on((const uint8_t *)texts[i], strlen(texts[i]), piece)) continue;
            fprintf(stderr, "starve: ESC %s in pieces of %zu\n", texts[i] + 1, piece);
            return 5;
        }
    if (!lines_go_on()) return fprintf(stderr, "starve: lines are others where memory is refused\n"), 4;
    printf("each allocation was refused in turn\n");
    return 0;
}
