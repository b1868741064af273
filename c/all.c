/* all FILE..: the sums of what each call of csicodec.h answers of the files, a line for each call and file. The same library on any
 * system has the same sums, so they can be compared between two. A sum is FNV-1a over the members of the answers. */
#include <csicodec.h>

#include <stdio.h>
#include <stdlib.h>
#include <string.h>

/* How long a file may be, how much room a text has, and how many actions and tokens have room. */
enum { FILE_ROOM = 1 << 20, TEXT_ROOM = 1 << 23, MANY = 64, LIMIT = 4096 };

static uint8_t in[FILE_ROOM], out[TEXT_ROOM];
static size_t len;
static const char *file;
static struct csicodec_action actions[MANY];
static struct csicodec_param params[MANY];
static uint64_t sum;

static void add_byte(uint8_t byte) { sum = (sum ^ byte) * 1099511628211u; }
static void add(uint64_t number) {
    int i;
    for (i = 0; i < 8; i++, number >>= 8) add_byte((uint8_t)number);
}
static void add_text(uint32_t status, size_t needed, size_t room) {
    size_t i;
    add(status);
    if (status != CSICODEC_OK) return;
    add(needed);
    for (i = 0; needed <= room && i < needed; i++) add_byte(out[i]);
}
static void begin(void) { sum = 14695981039346656037u; }
static void say(const char *call) {
    printf("%s %s %08lx%08lx\n", file, call, (unsigned long)(sum >> 32), (unsigned long)(sum & 0xffffffff));
    begin();
}
static size_t least(size_t a, size_t b) { return a < b ? a : b; }

static void add_action(const struct csicodec_action *a) {
    add(a->kind), add(a->final_char), add((uint64_t)a->first), add((uint64_t)a->second);
    add(a->top), add(a->left), add(a->bottom), add(a->right), add(a->place), add(a->len);
    add(a->red), add(a->green), add(a->blue), add(a->alpha), add(a->modifiers), add(a->button), add(a->absent);
}
static void add_actions(size_t count, size_t tokens) {
    size_t i;
    for (i = 0; i < least(count, MANY); i++) add_action(&actions[i]);
    for (i = 0; i < least(tokens, MANY); i++) add(params[i].kind), add((uint64_t)params[i].value);
}

/* ---- whole texts, and the same in steps */

static void add_stripped(const char *call, struct csicodec_stripped r) {
    add_text(r.status, r.needed, sizeof out);
    say(call);
}
static void add_filtered(const char *call, struct csicodec_filtered r) {
    add(r.mode), add(r.used);
    add_text(r.status, r.needed, sizeof out);
    say(call);
}
static void texts(void) {
    uint32_t depth;
    add_stripped("csicodec_strip", csicodec_strip(in, len, out, sizeof out));
    add_stripped("csicodec_clean", csicodec_clean(in, len, out, sizeof out));
    for (depth = 0; depth < 4; depth++) add_stripped("csicodec_clean_with", csicodec_clean_with(depth, 1, in, len, out, sizeof out));
    for (depth = 0; depth < 3; depth++) {
        struct csicodec_markup markup = {depth & 1, depth >> 1, depth & 1, 0};
        static const uint32_t colors[18] = {0x010203, 0xfffefd};
        add_stripped("csicodec_overwrite", csicodec_overwrite(depth, in, len, out, sizeof out));
        add_stripped("csicodec_html", csicodec_html(&markup, colors, depth ? 18 : 0, in, len, out, sizeof out));
        add_stripped("csicodec_compact_whole", csicodec_compact_whole(depth, in, len, out, sizeof out));
    }
    add_filtered("csicodec_filter", csicodec_filter(0, 65536, in, len, out, sizeof out));
    add_filtered("csicodec_compact", csicodec_compact(0, 65536, in, len, out, sizeof out));
    add_filtered("csicodec_compact_semicolons", csicodec_compact_semicolons(0, 65536, in, len, out, sizeof out));
}

/* Steps of at most 1000 bytes, with room for 8192, and the end; depth is above 2 for csicodec_strip_step. */
static void steps(const char *call, uint32_t depth) {
    struct csicodec_cleaning state = {0, 0, 0, 0};
    struct csicodec_stripped end;
    size_t at = 0;
    while (at < len) {
        size_t n = least(len - at, 1000);
        struct csicodec_cleaned r = depth > 2 ? csicodec_strip_step(&state, in + at, n, out, 8192)
                                              : csicodec_clean_step(depth, &state, in + at, n, out, 8192);
        add(r.used), add(r.state.mode), add(r.state.titled), add(r.state.styled), add(r.state.held);
        add_text(r.status, r.needed, 8192);
        if (r.status != CSICODEC_OK || !r.used) break;
        state = r.state, at += r.used;
    }
    end = csicodec_clean_end(&state, in + at, least(len - at, 1000), out, sizeof out);
    add_text(end.status, end.needed, sizeof out);
    say(call);
}

/* ---- events, and all that is asked of each control sequence */

static void sequence(const uint8_t *bytes, size_t n, size_t count, size_t tokens) {
    struct csicodec_normalised text = csicodec_normalise(bytes, n, out, LIMIT);
    struct csicodec_front front;
    size_t i, j;
    add(text.start), add(text.at);
    add_text(text.status, text.needed, LIMIT);
    for (i = 0; i < least(count, MANY); i++) {
        struct csicodec_known known = csicodec_known(&actions[i], params, least(tokens, MANY));
        struct csicodec_judged judged = csicodec_is_canonical(&actions[i], params, least(tokens, MANY));
        add(known.kind), add(judged.status), add(judged.canonical);
        for (j = 0; j < CSICODEC_KNOWN_VALUES; j++) add(known.values[j]);
    }
    if (count <= MANY && tokens <= MANY) {
        struct csicodec_encoded r = csicodec_encode(actions, count, params, tokens, out, LIMIT);
        add(r.at), add_text(r.status, r.needed, LIMIT);
        r = csicodec_encode_compact(actions, count, params, tokens, out, LIMIT);
        add(r.at), add_text(r.status, r.needed, LIMIT);
    }
    front = csicodec_next(bytes, n, actions, 3, params, 2);
    add(front.status), add(front.at), add(front.used), add(front.actions), add(front.params);
    if (front.status == CSICODEC_OK) add_actions(least(front.actions, 3), least(front.params, 2));
    front = csicodec_terminal_actions(bytes, n, actions, MANY, params, MANY);
    add(front.status), add(front.at), add(front.used), add(front.actions), add(front.params);
    if (front.status == CSICODEC_OK) add_actions(front.actions, front.params);
}

/* The events of the file, which comes in pieces of 700 bytes. */
static void events(void) {
    struct csicodec_told r = {0, 0, 0, 0, 0, 0, 0};
    size_t at = 0, end = 0;
    while (end < len) {
        end = least(len, end + 700);
        for (;;) {
            r = csicodec_event(r.mode, LIMIT, r.looked, in + at, end - at, actions, MANY, params, MANY);
            add(r.status), add(r.mode), add(r.looked);
            if (r.status != CSICODEC_OK) break;
            add(r.kind), add(r.used), add(r.actions), add(r.params);
            if (r.kind == CSICODEC_EVENT_ACTIONS) add_actions(r.actions, r.params), sequence(in + at, r.used, r.actions, r.params);
            at += r.used;
        }
    }
    say("csicodec_event");
}

static void spans(void) {
    struct csicodec_spanned r = {0, 0, 0, 0};
    size_t at;
    for (at = 0; at < len; at += r.used) {
        r = csicodec_span(r.mode, LIMIT, in + at, least(len - at, 5000));
        add(r.status), add(r.kind), add(r.mode), add(r.used);
        if (r.status != CSICODEC_OK) break;
    }
    say("csicodec_span");
}

/* Keys, of which one that isn't over is passed again with more behind it. */
static void keys(void) {
    static uint32_t typed[CSICODEC_TYPED];
    size_t at = 0, i;
    struct csicodec_key r = {0, 0, 0, 0, 0, 0, 0, 1};
    for (; at < len && r.used; at += r.used) {
        size_t n = least(len - at, 5000);
        r = csicodec_key(n < len - at, in + at, n, typed, CSICODEC_TYPED);
        add(r.status), add(r.code), add(r.value), add(r.modifiers), add(r.event), add(r.encoding), add(r.typed), add(r.used);
        for (i = 0; r.status == CSICODEC_OK && i < least(r.typed, CSICODEC_TYPED); i++) add(typed[i]);
    }
    say("csicodec_key");
}

/* What each piece of 50 bytes would say as an OSC. */
static void commands(void) {
    size_t at;
    for (at = 0; at < len; at += 50) {
        struct csicodec_osc r = csicodec_osc(in + at, least(len - at, 50));
        add(r.kind), add(r.texts), add(r.first), add(r.second);
    }
    say("csicodec_osc");
}

static void add_received(struct csicodec_received r) { add(r.status), add(r.kind), add(r.mode), add(r.value), add(r.looked), add(r.used); }

static void inputs(uint32_t dialect) {
    struct csicodec_received r = {0, 0, 0, 0, 0, 0, 0, 0};
    size_t at;
    for (at = 0; at < len; at += r.used) {
        r = csicodec_input(dialect, r.mode, LIMIT, r.looked, in + at, least(len - at, 5000), actions, MANY, params, MANY);
        add_received(r);
        if (r.status != CSICODEC_OK) break;
        if (r.kind == CSICODEC_EVENT_ACTIONS) add_actions(r.actions, r.params);
    }
    for (at = 0; at < 3; at++) add_received(csicodec_pause((const uint8_t *)"\033x", at));
    say("csicodec_input");
}

int main(int count, char **words) {
    int i, j;
    file = "-";
    begin();
    for (i = 0; i < 256; i++) for (j = 0; j < 256; j++) add(csicodec_esc((uint8_t)i, (uint8_t)j));
    add(csicodec_version());
    say("csicodec_esc");
    for (i = 1; i < count; i++) {
        FILE *held = fopen(words[i], "rb");
        if (!held) return 2;
        len = fread(in, 1, sizeof in, held);
        fclose(held);
        file = strrchr(words[i], '/') ? strrchr(words[i], '/') + 1 : words[i];
        texts();
        steps("csicodec_strip_step", 3);
        steps("csicodec_clean_step", 2);
        events();
        spans();
        keys();
        commands();
        inputs(CSICODEC_DIALECT_INPUT);
        inputs(CSICODEC_DIALECT_UTF8_INPUT);
    }
    return 0;
}
