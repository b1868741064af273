/* What the library has for C, each row tried: a row's name is said behind it. */
#define _POSIX_C_SOURCE 200809L
#include <csicodec.h>
#include <stdio.h>
#include <stdlib.h>
#include <string.h>

#define B(text) (const uint8_t *)(text), sizeof(text) - 1
static struct csicodec_action actions[8];
static struct csicodec_param params[8];
static uint8_t out[256];
static uint32_t typed[CSICODEC_TYPED];

static void says(const char *row, int is_so) {
    if (!is_so) fprintf(stderr, "not so: %s\n", row), exit(1);
    puts(row);
}
/* Counts the actions, and what the end of the stream tells. */
static void count(void *counts, const struct csicodec_parser *parser, const struct csicodec_event *event) {
    (void)parser;
    ((size_t *)counts)[event->kind == CSICODEC_EVENT_OTHER] += event->kind == CSICODEC_EVENT_OTHER ? event->len : event->actions;
}
/* Adds to what was written, of so many bytes. */
static void add(void *written, const uint8_t *bytes, size_t len) {
    memcpy(out + *(size_t *)written, bytes, len);
    *(size_t *)written += len;
}
static int wrote(size_t needed, const char *text) { return needed == strlen(text) && !memcmp(out, text, needed); }

int main(void) {
    struct csicodec_stream stream = csicodec_stream_of(4096, actions, 8, params, 8);
    struct csicodec_event event;
    struct csicodec_cleaning state = {0, 0, 0, 0};
    struct csicodec_cleaned step;
    uint8_t held[16];
    struct csicodec_parser parser = csicodec_parser_of(held, sizeof held, actions, 8, params, 8);
    size_t counts[2] = {0, 0};
    int is_event = csicodec_next_event(&stream, B("\033[5;7H"), &event);
    says("events", is_event && event.kind == CSICODEC_EVENT_ACTIONS && actions[0].kind == CSICODEC_CURSOR_POSITION && actions[0].second == 7);
    csicodec_feed(&parser, B("\033[5"), count, counts);
    csicodec_feed(&parser, B(";7H\033["), count, counts);
    csicodec_finish(&parser, count, counts);
    says("parser", counts[0] == 1 && counts[1] == 2);
    says("input", csicodec_input(CSICODEC_DIALECT_INPUT, 0, 4096, 0, B("\033OP"), actions, 8, params, 8).kind == CSICODEC_INPUT_SS3
        && csicodec_pause(B("\033")).kind == CSICODEC_INPUT_ESCAPE);
    csicodec_next(B("\033[?2K"), actions, 8, params, 8);
    says("known", csicodec_known(actions, params, 8).kind == CSICODEC_KNOWN_DECSEL);
    says("spans", csicodec_span(0, 4096, B("a\033[m")).used == 1);
    says("whole", wrote(csicodec_strip(B("\033[01ma"), out, 128).needed, "a") && wrote(csicodec_clean(B("\033[01ma"), out, 128).needed, "\033[1ma\033[0m")
        && wrote(csicodec_filter(0, 4096, B("\033[01ma"), out, 128).needed, "\033[1ma") && wrote(csicodec_compact_whole(0, B("\033[01m\033[3ma"), out, 128).needed, "\033[1;3ma"));
    step = csicodec_strip_step(&state, B("a\033[01"), out, 128);
    says("stream", wrote(step.needed, "a") && step.used == 1);
    csicodec_next(B("\033[3m"), actions, 8, params, 8);
    struct csicodec_key key = csicodec_key(1, B("\033[97;5u"), typed, CSICODEC_TYPED);
    says("keys", key.code == CSICODEC_KEY_CHAR && key.value == 'a' && key.modifiers == CSICODEC_KEY_MODIFIERS_CTRL && key.used == 7
        && csicodec_key(1, B("\033"), NULL, 0).status == CSICODEC_TRUNCATED && csicodec_key(0, B("\033"), NULL, 0).code == CSICODEC_KEY_ESCAPE
        && csicodec_key(1, B("\033[\nA"), NULL, 0).used == 3);
    struct csicodec_osc osc = csicodec_osc(B("8;id=1;http://a.example"));
    says("osc", osc.kind == CSICODEC_OSC_LINK && osc.texts == 2 && osc.first == 2 && osc.second == 7);
    struct csicodec_markup markup = {0, 0, 1, 0};
    says("html", wrote(csicodec_html(&markup, NULL, 0, B("1\r\033[1m<"), out, 128).needed, "<span style=\"font-weight:bold;\">&lt;</span>")
        && wrote(csicodec_overwrite(0, B("1\r2"), out, 128).needed, "2"));
    static uint8_t waits[1024], room[128];
    struct csicodec_lines lines = csicodec_html_lines(&markup, NULL, 0, waits, sizeof waits, room, sizeof room);
    size_t written = 0;
    csicodec_feed_lines(&lines, B("1\r\033[1m<\n&"), add, &written);
    int is_first = wrote(written, "<span style=\"font-weight:bold;\">&lt;</span>\n");
    csicodec_finish_lines(&lines, add, &written);
    says("lines", is_first && wrote(written, "<span style=\"font-weight:bold;\">&lt;</span>\n<span style=\"font-weight:bold;\">&amp;</span>"));
    says("encode", wrote(csicodec_encode(actions, 1, params, 0, out, 128).needed, "\033[3m"));
    FILE *program = popen("printf '\\033[5;7H' | csicodec explain --json", "r");
    out[program ? fread(out, 1, sizeof out - 1, program) : 0] = 0;
    says("explain", program && !pclose(program) && strstr((const char *)out, "cursor to line 5, column 7"));
    return 0;
}
