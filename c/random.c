/* random COUNT: calls on bytes made at random, in blocks of the heap of just their length, for the address sanitizer to watch. */
#include "csicodec.h"

#include <stdio.h>
#include <stdlib.h>
#include <string.h>

static uint32_t seed = 1;

static uint32_t any(uint32_t count) {
    seed = seed * 1664525u + 1013904223u;
    return (seed >> 8) % count;
}

/* Bytes of controls for the most part. */
static uint8_t any_byte(void) {
    static const char often[] = "\x1b\x1b\x1b[[[[]P_\\;;::0123456789?>=<!$ mHJKhltucA\x07\x08\x18~qp";
    return any(8) ? (uint8_t)often[any(sizeof often - 1)] : (uint8_t)any(256);
}

static void *block(size_t size) {
    void *made = malloc(size ? size : 1);
    if (!made) exit(3);
    return made;
}

/* What is told, as one number: each byte of text, of a string and of what is malformed alone, since these may be cut anywhere. */
static uint64_t told;

static void tell(uint64_t kind, uint64_t value) {
    told = (told ^ (kind << 56 ^ value)) * 1099511628211u;
}

static void tell_event(const struct csicodec_stream *stream, const struct csicodec_event *event) {
    size_t i;
    if (event->kind == CSICODEC_EVENT_ACTIONS) {
        tell(1, event->actions);
        for (i = 0; i < event->written; i++) tell(stream->actions[i].kind, (uint64_t)stream->actions[i].first);
    } else if (event->kind == CSICODEC_EVENT_ESC) {
        tell(2, (uint64_t)event->code << 16 | (uint64_t)event->intermediate << 8 | event->final_byte);
    } else {
        if (event->first) tell(3, event->string);
        for (i = 0; i < event->len; i++) tell(event->used ? 4 + event->kind : 4, event->bytes[i]);
        if (event->last) tell(10, event->string);
    }
}

/* What the library itself tells of all the bytes; answers how many wait. */
static size_t all_told(const uint8_t *bytes, size_t len, size_t limit) {
    struct csicodec_action actions[3];
    struct csicodec_stream stream = csicodec_stream_of(limit, actions, 3, NULL, 0);
    struct csicodec_event event;
    size_t at = 0;
    told = 0;
    for (;;) {
        struct csicodec_told next = csicodec_event(stream.mode, limit, stream.looked, bytes + at, len - at, actions, 3, NULL, 0);
        if (next.status != CSICODEC_OK) return len - at;
        memset(&event, 0, sizeof event);
        stream.mode = next.mode, stream.looked = next.looked;
        event.kind = next.kind, event.bytes = bytes + at, event.len = event.used = next.used;
        csicodec_counts(&stream, &event, next.actions, next.params);
        if (next.kind > CSICODEC_EVENT_ACTIONS) csicodec_event_says(&stream, &event);
        tell_event(&stream, &event);
        at += next.used;
    }
}

/* The same in pieces that end at the cut, and then every so many bytes. */
static int in_pieces(const uint8_t *bytes, size_t len, size_t limit, size_t cut, size_t piece) {
    struct csicodec_action actions[3];
    struct csicodec_stream stream = csicodec_stream_of(limit, actions, 3, NULL, 0);
    struct csicodec_event event;
    size_t at = 0, waits = all_told(bytes, len, limit);
    uint64_t all = told;
    for (told = 0;; cut = cut + piece < len ? cut + piece : len) {
        for (; csicodec_next_event(&stream, bytes + at, cut - at, &event); at += event.used) tell_event(&stream, &event);
        if (cut == len) break;
    }
    return all == told && waits == len - at;
}

static int every_cut(const uint8_t *bytes, size_t len) {
    size_t limit = 1 + any(20);
    for (size_t cut = 0; cut <= len; cut++)
        if (!in_pieces(bytes, len, limit, cut, len)) return 0;
    return 1;
}

/* A long sequence with controls in it, of which the last bytes may be beyond the limit. */
static int of_a_long_sequence(void) {
    static const char body[] = "0123456789;;;:\x07\x08\n\x7f";
    size_t len = 3 + any(600);
    uint8_t *bytes = block(len);
    int good;
    for (size_t i = 0; i < len; i++) bytes[i] = (uint8_t)body[any(sizeof body - 1)];
    memcpy(bytes, "\x1b[", 2);
    bytes[len - 1] = any(8) ? 'm' : any_byte();
    good = in_pieces(bytes, len, len + 5 - any(8), any((uint32_t)len), 1 + any(60));
    free(bytes);
    return good;
}

/* Of a dialect, which may be none, every byte is told, or waits. */
static int of_input(const uint8_t *bytes, size_t len, struct csicodec_action *actions, size_t actions_room, struct csicodec_param *params,
                    size_t params_room) {
    uint32_t dialect = any(4), mode = any(7);
    size_t limit = any(20), looked = 0, at = 0, turns = 0;
    int is_state = dialect < 3 && mode < 6 && limit;
    for (; turns <= 2 * len; turns++) {
        struct csicodec_received event = csicodec_input(dialect, mode, limit, looked, bytes + at, len - at, actions, actions_room, params, params_room);
        if (event.status != CSICODEC_OK)
            return event.status == (is_state ? CSICODEC_TRUNCATED : CSICODEC_BAD_STATE) && csicodec_pause(bytes + at, len - at).used <= len - at;
        mode = event.mode, looked = event.looked, at += event.used;
    }
    return 0;
}

static int all_calls(const uint8_t *bytes, size_t len) {
    size_t room = any(40), actions_room = any(4), params_room = any(6);
    uint8_t *out = block(room);
    struct csicodec_action *actions = block(actions_room * sizeof *actions);
    struct csicodec_param *params = block(params_room * sizeof *params);
    struct csicodec_front front = csicodec_next(bytes, len, actions, actions_room, params, params_room);
    int good = front.used <= len && front.status <= CSICODEC_MEMORY;
    if (front.status == CSICODEC_OK && front.actions <= actions_room && front.params <= params_room) {
        struct csicodec_encoded texts = csicodec_encode(actions, front.actions, params, front.params, out, room);
        struct csicodec_normalised normal = csicodec_normalise(bytes, front.used, out, room);
        struct csicodec_encoded shorter = csicodec_encode_compact(actions, front.actions, params, front.params, out, room);
        good &= texts.status == CSICODEC_OK && normal.status == CSICODEC_OK && texts.needed == normal.needed;
        good &= shorter.status == CSICODEC_OK && shorter.needed <= texts.needed;
        good &= csicodec_is_canonical(&actions[0], params, front.params).status == CSICODEC_OK;
    }
    for (size_t i = 0; i < actions_room * sizeof *actions; i++) ((uint8_t *)actions)[i] = any(3) ? 0 : any_byte();
    good &= csicodec_encode(actions, actions_room, params, 0, out, room).status != CSICODEC_MEMORY;
    struct csicodec_filtered passed = csicodec_filter(any(7), any(20), bytes, len, out, room);
    struct csicodec_spanned span = csicodec_span(any(7), any(20), bytes, len);
    struct csicodec_filtered compacted = any(2) ? csicodec_compact(any(7), any(20), bytes, len, out, room)
                                                : csicodec_compact_semicolons(any(7), any(20), bytes, len, out, room);
    struct csicodec_cleaning state = {any(7), any(52), any(3), any(5)};
    struct csicodec_cleaned step = any(2) ? csicodec_strip_step(&state, bytes, len, out, room)
                                          : csicodec_clean_step(any(4), &state, bytes, len, out, room);
    /* A title, what is shifted in, and one of three sets as G0 and as G1. */
    int is_read = state.titled < 48 && state.titled / 4 % 4 < 3;
    int is_state = state.mode < 6 && is_read && state.styled < 2 && state.held <= 3 && state.held <= len;
    good &= step.used + step.state.held <= len && step.state.held <= 3 && (is_state || step.status == CSICODEC_BAD_STATE);
    good &= csicodec_clean_end(&state, bytes, len, out, room).status == (is_state ? CSICODEC_OK : CSICODEC_BAD_STATE);
    good &= csicodec_clean_with(any(3), any(2), bytes, len, out, room).status == CSICODEC_OK;
    good &= csicodec_clean(bytes, len, out, room).status == CSICODEC_OK;
    good &= csicodec_strip(bytes, len, out, room).status == CSICODEC_OK && compacted.used <= len;
    good &= passed.used <= len && span.used <= len && (span.status != CSICODEC_OK || span.used > 0);
    good &= csicodec_esc(any_byte(), any_byte()) < 65536;
    /* Of a stream every byte is told, or waits. */
    struct csicodec_stream stream = csicodec_stream_of(1 + any(20), actions, actions_room, params, params_room);
    struct csicodec_event event;
    size_t at = 0, turns = 0;
    for (; csicodec_next_event(&stream, bytes + at, len - at, &event) && turns < 2 * len; turns++) {
        at += event.used;
        good &= at <= len && event.bytes >= bytes && event.bytes + event.len <= bytes + len;
    }
    good &= turns < 2 * len || len == 0;
    good &= at == len || len - at < (stream.limit < 4 ? 4 : stream.limit);
    good &= of_input(bytes, len, actions, actions_room, params, params_room);
    free(out), free(actions), free(params);
    return good;
}

int main(int count, char **words) {
    long turns = count > 1 ? atol(words[1]) : 1000;
    for (long i = 0; i < turns; i++) {
        size_t len = any(40);
        uint8_t *bytes = block(len);
        for (size_t j = 0; j < len; j++) bytes[j] = any_byte();
        if (!all_calls(bytes, len) || !every_cut(bytes, len) || !of_a_long_sequence()) {
            fprintf(stderr, "random: turn %ld isn't as promised\n", i);
            return 1;
        }
        free(bytes);
    }
    printf("%ld turns\n", turns);
    return 0;
}
