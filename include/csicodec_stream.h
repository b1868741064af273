/* A terminal's stream, event by event, over the calls of csicodec.h, which includes this.
 *
 *     static void carry_out(void *screen, const struct csicodec_parser *parser, const struct csicodec_event *event) { .. }
 *
 *     struct csicodec_action actions[32];
 *     struct csicodec_param params[32];
 *     uint8_t held[4096], bytes[8192];
 *     struct csicodec_parser parser = csicodec_parser_of(held, sizeof held, actions, 32, params, 32);
 *     parser.stream.as_terminals = 1;
 *     while ((got = read(0, bytes, sizeof bytes)) > 0) csicodec_feed(&parser, bytes, (size_t)got, carry_out, &screen);
 *     csicodec_finish(&parser, carry_out, &screen);
 *
 * The parser keeps the bytes that wait, which are fewer than the room for them. How a stream is cut into pieces changes only where text,
 * strings and malformed controls are cut; it never cuts a character of text. csicodec_next_event gives one event after the other of
 * bytes that the caller keeps.
 *
 * A stream is UTF-8: bytes 80 to 9f are text, never 8-bit controls, so 9b isn't CSI. What of text is promised holds of UTF-8: a decoder
 * that takes more than that may see a character cut. */
#ifndef CSICODEC_STREAM_H
#define CSICODEC_STREAM_H

#include <string.h>

/* What is rarely called stays a function of its own, so that compilers put what is often called where it is called. */
#if defined(__GNUC__)
#define CSICODEC_RARELY static __attribute__((noinline, unused))
#else
#define CSICODEC_RARELY static inline
#endif

/* Whether a step of csicodec_filter, or a call of csicodec_next, can wait for more bytes: with the first `looked` of len bytes it used
 * nothing, or returned CSICODEC_TRUNCATED, and none of the bytes behind them ends the control sequence. So a sequence that comes
 * byte by byte is read once, and not again with each byte. The limit is the filter's; for csicodec_next it is SIZE_MAX.
 *
 *     if (csicodec_waits(limit, bytes, len, looked)) { looked = len; continue; }
 *     filtered = csicodec_filter(mode, limit, bytes, len, out, room);
 *     looked = len - filtered.used;
 *     memmove(bytes, bytes + filtered.used, len = looked);
 *
 * The same holds for csicodec_strip_step and csicodec_clean_step, with the limit 65536 and without the first state.held bytes. */
static inline int csicodec_waits(size_t limit, const uint8_t *bytes, size_t len, size_t looked) {
    if (looked < 2 || len >= limit || bytes[0] != 0x1b || bytes[1] != '[') return 0;
    for (; looked < len; looked++)
        if (bytes[looked] < 0x20 || bytes[looked] > 0x3f) return 0;
    return 1;
}

/* A stream: what the bytes before have left open, and the room that the caller provides. */
struct csicodec_stream {
    /* enum csicodec_filter_mode. */
    uint32_t mode;
    /* Of an open string, the character behind ESC that opened it. */
    uint32_t string;
    /* Unused: it keeps the layout. */
    struct csicodec_spanned wrong;
    /* 1 for the actions that terminals take a sequence for, as csicodec_terminal_actions gives them, and 0 for those of csicodec_next. */
    size_t as_terminals;
    /* Of a control sequence at the front, how many bytes were looked at. */
    size_t looked;
    /* The most bytes that a control sequence may have. */
    size_t limit;
    struct csicodec_action *actions;
    size_t actions_room;
    struct csicodec_param *params;
    size_t params_room;
};

/* An event, as csicodec_next_event fills it. The call csicodec_event returns another struct, csicodec_told of csicodec.h. */
struct csicodec_event {
    /* enum csicodec_event_kind. */
    uint32_t kind;
    /* Of CSICODEC_EVENT_OTHER that begins with ESC [, why it is refused. If there is no event, CSICODEC_OK,
     * CSICODEC_MEMORY, after which the same call may be made again, or CSICODEC_BAD_STATE for an unknown mode or a limit of 0. */
    uint32_t status;
    /* The bytes of the event, in the caller's buffer; of a string, its data. */
    const uint8_t *bytes;
    size_t len;
    /* Continue behind so many bytes. It is 0 for a control within a control sequence. */
    size_t used;
    /* Of CSICODEC_EVENT_ACTIONS, the number of actions and of tokens. As many are written as there is room for: so many actions. */
    size_t actions;
    size_t params;
    size_t written;
    /* Of CSICODEC_EVENT_ESC, enum csicodec_esc_code, or 0 if there is no code; the intermediate byte, or 0; and the final
     * byte. */
    uint32_t code;
    uint8_t intermediate;
    uint8_t final_byte;
    /* Of CSICODEC_EVENT_STRING, whether it is the first piece, and whether it is the last. A cancelled string has no last
     * piece: another event follows. */
    uint8_t first;
    uint8_t last;
    /* Of CSICODEC_EVENT_STRING, the character that opened it: ']' OSC, 'P' DCS, 'X' SOS, '^' PM, '_' APC. */
    uint32_t string;
};

/* A new stream. */
static inline struct csicodec_stream csicodec_stream_of(size_t limit, struct csicodec_action *actions, size_t actions_room,
                                                        struct csicodec_param *params, size_t params_room) {
    struct csicodec_stream stream;
    memset(&stream, 0, sizeof stream);
    stream.limit = limit;
    stream.actions = actions, stream.actions_room = actions_room;
    stream.params = params, stream.params_room = params_room;
    return stream;
}

/* A piece of a string: without ESC and what opened it in the first, and without BEL or ST in the last. */
static inline void csicodec_string_event(struct csicodec_stream *stream, struct csicodec_event *event) {
    const uint8_t *bytes = event->bytes;
    size_t used = event->used;
    event->first = used > 1 && bytes[0] == 0x1b && bytes[1] != 0x1b && bytes[1] != '\\';
    event->last = stream->mode == CSICODEC_FILTER_TEXT;
    if (event->first) stream->string = bytes[1], event->bytes += 2, event->len -= 2;
    if (event->last) event->len -= bytes[used - 1] == 0x07 ? 1 : 2;
    event->string = stream->string;
}

/* What an event says beside its bytes. */
static inline void csicodec_event_says(struct csicodec_stream *stream, struct csicodec_event *event) {
    const uint8_t *bytes = event->bytes;
    if (event->kind == CSICODEC_EVENT_STRING) csicodec_string_event(stream, event);
    if (event->kind == CSICODEC_EVENT_ESC) {
        event->intermediate = event->used > 2 ? bytes[1] : 0;
        event->final_byte = bytes[event->used - 1];
        event->code = csicodec_esc(event->intermediate, event->final_byte);
    }
    if (event->kind == CSICODEC_EVENT_OTHER && event->used > 1 && bytes[0] == 0x1b && bytes[1] == '[') {
        uint32_t why = csicodec_next(bytes, event->used, NULL, 0, NULL, 0).status;
        event->status = why == CSICODEC_OK ? (uint32_t)CSICODEC_TRUNCATED : why;
    }
    if (event->kind == CSICODEC_EVENT_CONTROL) {
        event->kind = CSICODEC_EVENT_TEXT;
        event->bytes = bytes + stream->looked - 1;
        event->len = 1;
    }
}

/* The event of so many bytes at the front, behind which the stream goes on in the mode. */
static inline int csicodec_event_of(struct csicodec_stream *stream, struct csicodec_event *event, uint32_t kind, const uint8_t *bytes,
                                    size_t used, uint32_t mode) {
    stream->mode = mode;
    event->kind = kind;
    event->bytes = bytes;
    event->len = event->used = used;
    return 1;
}

/* Whether a control sequence has one number of at most nine digits and nothing else, as \e[?8c: terminals take it as it is read. */
static inline int csicodec_is_one_number(const uint8_t *bytes, size_t len) {
    size_t first = bytes[2] >= 0x3c && bytes[2] <= 0x3f ? 3 : 2, at = first;
    while (at < len && bytes[at] >= '0' && bytes[at] <= '9') at++;
    return at > first && at < first + 10 && at + 1 == len;
}

/* Whether terminals may take the sequence of an event for other actions: the last one is unknown, as only a last one can be, or some have
 * no room, or the last attribute is left out. A control may stand before m, and hide that. */
static inline int csicodec_may_differ(const struct csicodec_stream *stream, const struct csicodec_event *event) {
    const uint8_t *end = event->bytes + event->used;
    if (event->actions - 1 >= stream->actions_room) return 1;
    if (stream->actions[event->actions - 1].kind == CSICODEC_UNSPECIFIED) return !csicodec_is_one_number(event->bytes, event->used);
    return end[-1] == 'm' && (end[-2] == ';' || end[-2] < 0x20 || end[-2] == 0x7f);
}

/* So many actions and tokens are of the event. */
static inline void csicodec_counts(const struct csicodec_stream *stream, struct csicodec_event *event, size_t actions, size_t params) {
    event->actions = actions;
    event->params = params;
    event->written = actions < stream->actions_room ? actions : stream->actions_room;
}

/* Asks which actions terminals take the sequence of an event for. If there is no memory the stream is as it was before it. */
CSICODEC_RARELY int csicodec_terminal_event(struct csicodec_stream *stream, uint32_t mode, size_t looked, struct csicodec_event *event) {
    struct csicodec_front front = csicodec_terminal_actions(event->bytes, event->used, stream->actions, stream->actions_room,
                                                            stream->params, stream->params_room);
    if (front.status == CSICODEC_OK) {
        csicodec_counts(stream, event, front.actions, front.params);
        return 1;
    }
    memset(event, 0, sizeof *event);
    event->status = front.status;
    stream->mode = mode, stream->looked = looked;
    return 0;
}

/* What csicodec_event tells. */
CSICODEC_RARELY int csicodec_told_event(struct csicodec_stream *stream, const uint8_t *bytes, size_t len, struct csicodec_event *event) {
    uint32_t mode = stream->mode;
    size_t looked = stream->looked;
    struct csicodec_told told = csicodec_event(mode, stream->limit, looked, bytes, len, stream->actions,
                                               stream->actions_room, stream->params, stream->params_room);
    if (told.status != CSICODEC_OK) {
        if (told.status == CSICODEC_TRUNCATED) stream->looked = told.looked;
        else event->status = told.status;
        return 0;
    }
    stream->looked = told.looked;
    csicodec_counts(stream, event, told.actions, told.params);
    csicodec_event_of(stream, event, told.kind, bytes, told.used, told.mode);
    if (told.kind > CSICODEC_EVENT_ACTIONS) csicodec_event_says(stream, event);
    if (told.kind != CSICODEC_EVENT_ACTIONS || !stream->as_terminals || !csicodec_may_differ(stream, event)) return 1;
    return csicodec_terminal_event(stream, mode, looked, event);
}

/* The length of the escape sequence in front, of at least two bytes, where it is all there: ESC, an intermediate byte or none, and a final
 * byte that neither opens a string nor ends one. 0 of anything else. */
static inline size_t csicodec_escape_length(const uint8_t *bytes, size_t len) {
    if (bytes[1] >= 0x20 && bytes[1] < 0x30) return len > 2 && bytes[2] >= 0x30 && bytes[2] < 0x7f ? 3 : 0;
    switch (bytes[1]) {
    case 'P': case 'X': case '[': case '\\': case ']': case '^': case '_': return 0;
    default: return bytes[1] >= 0x30 && bytes[1] < 0x7f ? 2 : 0;
    }
}

/* How many bytes at the end of some text are the beginning of a character in UTF-8 that isn't all there. */
CSICODEC_RARELY size_t csicodec_unfinished(const uint8_t *bytes, size_t len) {
    size_t back = 1, size;
    uint8_t first, second;
    while (back < 3 && back < len && (bytes[len - back] & 0xc0) == 0x80) back++;
    first = bytes[len - back], second = bytes[len - back + (back > 1)];
    size = first < 0xc2 || first > 0xf4 ? 1 : first < 0xe0 ? 2 : first < 0xf0 ? 3 : 4;
    if (size <= back) return 0;
    if (back == 1) return 1;
    if ((first == 0xe0 && second < 0xa0) || (first == 0xed && second > 0x9f)) return 0;
    return (first == 0xf0 && second < 0x90) || (first == 0xf4 && second > 0x8f) ? 0 : back;
}

/* How much of some text without an ESC is told: all but the beginning of a character that isn't all there. */
static inline size_t csicodec_told_text(const uint8_t *bytes, size_t len) {
    return bytes[len - 1] < 0x80 ? len : len - csicodec_unfinished(bytes, len);
}

/* The event of a control sequence that csicodec_next read. If it returns 0 there is no memory for what terminals take it for. */
static inline int csicodec_front_event(struct csicodec_stream *stream, const uint8_t *bytes, const struct csicodec_front *front,
                                       struct csicodec_event *event) {
    uint32_t mode = stream->mode;
    csicodec_counts(stream, event, front->actions, front->params);
    csicodec_event_of(stream, event, CSICODEC_EVENT_ACTIONS, bytes, front->used, CSICODEC_FILTER_TEXT);
    return !stream->as_terminals || !csicodec_may_differ(stream, event) || csicodec_terminal_event(stream, mode, 0, event);
}

/* The next event of a stream at the front of len bytes. If it returns 0 there is none, and the bytes wait; otherwise continue at
 * bytes + event->used. At the end of the stream the bytes that wait are an unfinished control or an incomplete character.
 *
 * It is a call of csicodec_event, but for what needs none: text while no control is open, an escape sequence, and a control sequence that
 * csicodec_next reads at once. */
static inline int csicodec_next_event(struct csicodec_stream *stream, const uint8_t *bytes, size_t len,
                                      struct csicodec_event *event) {
    memset(event, 0, sizeof *event);
    if (!len) return 0;
    if (bytes[0] != 0x1b && stream->mode == CSICODEC_FILTER_TEXT && stream->limit) {
        const uint8_t *esc = (const uint8_t *)memchr(bytes, 0x1b, len);
        size_t text = esc ? (size_t)(esc - bytes) : csicodec_told_text(bytes, len);
        return text && csicodec_event_of(stream, event, CSICODEC_EVENT_TEXT, bytes, text, CSICODEC_FILTER_TEXT);
    } else if (len > 1 && bytes[0] == 0x1b && !stream->looked && stream->limit && stream->mode <= CSICODEC_FILTER_BAD_ESC) {
        size_t escape = csicodec_escape_length(bytes, len);
        if (escape) {
            csicodec_event_of(stream, event, CSICODEC_EVENT_ESC, bytes, escape, CSICODEC_FILTER_TEXT);
            csicodec_event_says(stream, event);
            return 1;
        }
        if (bytes[1] == '[') {
            struct csicodec_front front = csicodec_next(bytes, len < stream->limit ? len : stream->limit, stream->actions,
                                                        stream->actions_room, stream->params, stream->params_room);
            if (front.status == CSICODEC_OK) return csicodec_front_event(stream, bytes, &front, event);
        }
    }
    return csicodec_told_event(stream, bytes, len, event);
}

/* A stream that is pushed: bytes go in as they come, and events come out. The room is the caller's, and no call takes memory but for a
 * sequence of more than 31 tokens, one that csicodec_next doesn't read at once, as with a control in it or in pieces, or one that terminals
 * may take for other actions, where the stream is told to ask. */
struct csicodec_parser {
    /* Its actions and params are those of the event that is told, as many as there is room for. */
    struct csicodec_stream stream;
    /* The bytes that wait, and room for them: at least as many as the stream's limit, and 4. */
    uint8_t *held;
    size_t held_room;
    size_t waiting;
    /* Whether they are the beginning of a control sequence, of which nothing was looked at. */
    int begun;
    /* Room for a whole string, as csicodec_collect gives it; NULL while strings come in pieces. */
    uint8_t *string;
    size_t string_room;
    /* Of the string that is collected, or was told last, its length, also where there was no room for all of it. */
    size_t string_len;
    /* What opened the string that is being collected, or 0. */
    uint32_t collecting;
    /* Of the last string that was told, BEL (0x07) or the ESC of ST (0x1b), as a reply mirrors it; 0 of one that was cancelled. */
    uint8_t ended_by;
    /* CSICODEC_OK, or why csicodec_feed stopped: CSICODEC_MEMORY or CSICODEC_BAD_STATE. */
    uint32_t status;
    /* Whether csicodec_feed is under way, and whether csicodec_stop ends it. */
    int feeding, stopped;
};

/* Carries out an event. It is told with the parser, whose stream has the actions. It may call csicodec_stop with the parser of the caller, and
 * not csicodec_feed, which says CSICODEC_BAD_STATE there, and then ends where it was called first. */
typedef void csicodec_teller(void *user, const struct csicodec_parser *parser, const struct csicodec_event *event);

/* A new parser. With room for less than 4 bytes its limit is 0, and csicodec_feed says CSICODEC_BAD_STATE. */
static inline struct csicodec_parser csicodec_parser_of(uint8_t *held, size_t held_room, struct csicodec_action *actions,
                                                        size_t actions_room, struct csicodec_param *params, size_t params_room) {
    struct csicodec_parser parser;
    memset(&parser, 0, sizeof parser);
    parser.stream = csicodec_stream_of(held_room < 4 ? 0 : held_room, actions, actions_room, params, params_room);
    parser.held = held, parser.held_room = held_room;
    return parser;
}

/* Whether nothing is open and no byte waits, as at the beginning of a stream: what comes next is read by itself. */
static inline int csicodec_is_ground(const struct csicodec_parser *parser) {
    return !parser->waiting && !parser->collecting && parser->stream.mode == CSICODEC_FILTER_TEXT;
}

/* Forgets what is open and what waits, of which nothing is told. The rooms stay, and so do the limit, the reading of terminals and whether
 * strings are collected. */
static inline void csicodec_reset(struct csicodec_parser *parser) {
    parser->waiting = parser->string_len = 0;
    parser->begun = parser->stopped = 0;
    parser->collecting = 0, parser->ended_by = 0;
    parser->status = CSICODEC_OK;
    parser->stream.looked = 0, parser->stream.mode = CSICODEC_FILTER_TEXT;
}

/* Called by what carries out events, it ends csicodec_feed behind the event that was told: that returns how many bytes it took, and the others
 * may be fed later. */
static inline void csicodec_stop(struct csicodec_parser *parser) {
    parser->stopped = 1;
}

/* From now on a string is told whole, when it is over: its first bytes, as many as there is room for, and `string_len` says how many it has. */
static inline void csicodec_collect(struct csicodec_parser *parser, uint8_t *room, size_t len) {
    parser->string = room, parser->string_room = len;
}

/* Tells the string that was collected, if one was; ended_by is 0 where it was cancelled, and its event has no `last` then. */
CSICODEC_RARELY void csicodec_tell_string(struct csicodec_parser *parser, uint8_t ended_by, csicodec_teller *tell, void *user) {
    struct csicodec_event event;
    memset(&event, 0, sizeof event);
    event.kind = CSICODEC_EVENT_STRING;
    event.string = parser->collecting;
    event.bytes = parser->string;
    event.len = parser->string_len < parser->string_room ? parser->string_len : parser->string_room;
    event.first = 1, event.last = ended_by != 0;
    parser->collecting = 0, parser->ended_by = ended_by;
    tell(user, parser, &event);
}

/* Tells an event, or collects it if it is a piece of a string. */
static inline void csicodec_tell_event(struct csicodec_parser *parser, const struct csicodec_event *event, csicodec_teller *tell,
                                       void *user) {
    int is_string = event->kind == CSICODEC_EVENT_STRING;
    uint8_t ended_by = is_string && event->last ? event->bytes[event->len] : 0;
    if (parser->collecting && (!is_string || event->first)) csicodec_tell_string(parser, 0, tell, user);
    if (!is_string || !parser->string) {
        if (is_string) parser->ended_by = ended_by;
        tell(user, parser, event);
        return;
    }
    if (!parser->collecting) parser->collecting = event->string, parser->string_len = 0;
    if (parser->string_len < parser->string_room) {
        size_t room = parser->string_room - parser->string_len;
        memcpy(parser->string + parser->string_len, event->bytes, event->len < room ? event->len : room);
    }
    parser->string_len += event->len;
    if (event->last) csicodec_tell_string(parser, ended_by, tell, user);
}

/* The most bytes that are taken at once to those that wait. */
enum { CSICODEC_TAKEN = 64 };

/* Of a few bytes with an ESC in front, the length of the control sequence there, up to the first byte that may be its last one; 0 of anything
 * else. Where its end hasn't come nothing of it has to be looked at yet: it is held, and has begun. */
static inline size_t csicodec_begins(struct csicodec_parser *parser, const uint8_t *bytes, size_t len) {
    uint8_t *held = parser->held;
    size_t at;
    if (len > CSICODEC_TAKEN || (len > 1 && bytes[1] != '[')) return 0;
    if (parser->stream.mode != CSICODEC_FILTER_TEXT || len >= parser->stream.limit) return 0;
    for (at = 2; at < len; at++) {
        held[at] = bytes[at];
        if ((bytes[at] & 0xe0) != 0x20) return at + 1;
    }
    held[0] = 0x1b, held[1] = '[';
    parser->waiting = len;
    parser->begun = 1;
    return 1;
}

/* Goes on with the control sequence that has begun, up to its end or to the limit; how many bytes it took. */
static inline size_t csicodec_goes_on(struct csicodec_parser *parser, const uint8_t *bytes, size_t len) {
    uint8_t *held = parser->held + parser->waiting;
    size_t room = parser->stream.limit - parser->waiting, at = parser->waiting == 1;
    if (len > room) len = room;
    if (at) held[0] = bytes[0];
    if (!at || bytes[0] == '[') {
        while (at < len && bytes[at] >= 0x20 && bytes[at] < 0x40) held[at] = bytes[at], at++;
        parser->begun = at == len && at < room;
        if (at < len) held[at] = bytes[at], at++;
    } else parser->begun = 0;
    parser->waiting += at;
    return at;
}

/* Tells the event at the front of some bytes, and adds how many it used; whether there is one. */
static inline int csicodec_tell_next(struct csicodec_parser *parser, const uint8_t *bytes, size_t len, size_t *used, csicodec_teller *tell,
                                     void *user) {
    struct csicodec_event event;
    if (!csicodec_next_event(&parser->stream, bytes, len, &event)) {
        parser->status = event.status;
        return 0;
    }
    csicodec_tell_event(parser, &event, tell, user);
    *used += event.used;
    return 1;
}

/* Tells the text at the front of some bytes, while no control is open, so that no string is collected; how many bytes it has. */
static inline size_t csicodec_tell_text(struct csicodec_parser *parser, const uint8_t *bytes, size_t len, csicodec_teller *tell, void *user) {
    struct csicodec_event event;
    const uint8_t *esc;
    size_t at = 1;
    if (len > 16) {
        esc = (const uint8_t *)memchr(bytes, 0x1b, len);
        at = esc ? (size_t)(esc - bytes) : len;
    } else {
        while (at < len && bytes[at] != 0x1b) at++;
    }
    if (at == len) at = csicodec_told_text(bytes, len);
    if (!at) return 0;
    memset(&event, 0, sizeof event);
    event.kind = CSICODEC_EVENT_TEXT;
    event.bytes = bytes;
    event.len = event.used = at;
    tell(user, parser, &event);
    return at;
}

/* Tells the control sequence that these bytes are, while no other control is open; whether csicodec_next reads it. */
static inline int csicodec_tell_sequence(struct csicodec_parser *parser, const uint8_t *bytes, size_t len, csicodec_teller *tell, void *user) {
    struct csicodec_stream *stream = &parser->stream;
    struct csicodec_front front = csicodec_next(bytes, len, stream->actions, stream->actions_room, stream->params, stream->params_room);
    struct csicodec_event event;
    if (front.status != CSICODEC_OK) return 0;
    memset(&event, 0, sizeof event);
    if (!csicodec_front_event(stream, bytes, &front, &event)) return parser->status = event.status, 0;
    tell(user, parser, &event);
    return 1;
}

/* Takes bytes to those that wait, until the events of these are told; how many it took. */
CSICODEC_RARELY size_t csicodec_feed_waiting(struct csicodec_parser *parser, const uint8_t *bytes, size_t len, csicodec_teller *tell,
                                             void *user) {
    size_t at = 0, more, used;
    do {
        more = parser->held_room - parser->waiting;
        if (more > CSICODEC_TAKEN) more = CSICODEC_TAKEN;
        if (more > len - at) more = len - at;
        memcpy(parser->held + parser->waiting, bytes + at, more);
        at += more, parser->waiting += more, used = 0;
        while (parser->waiting - used > more && !parser->stopped
               && csicodec_tell_next(parser, parser->held + used, parser->waiting - used, &used, tell, user)) continue;
        parser->waiting -= used;
        if (parser->waiting <= more) {
            at -= parser->waiting, parser->waiting = 0;
            return at;
        }
        memmove(parser->held, parser->held + used, parser->waiting);
    } while (at < len && parser->status == CSICODEC_OK && !parser->stopped);
    return at;
}

/* Tells the events of bytes in front of which none wait, and keeps those that wait then; how many it took. Text, and a control sequence that
 * begins within a few bytes of the end, are told at once, since a stream may come in small pieces. */
static inline size_t csicodec_feed_rest(struct csicodec_parser *parser, const uint8_t *bytes, size_t len, csicodec_teller *tell, void *user) {
    const uint8_t *front = bytes, *end = bytes + len;
    size_t used;
    while (front < end && !parser->stopped && parser->status == CSICODEC_OK) {
        if (*front != 0x1b && parser->stream.mode == CSICODEC_FILTER_TEXT && parser->stream.limit) {
            used = csicodec_tell_text(parser, front, (size_t)(end - front), tell, user);
            if (!used) break;
        } else {
            used = *front == 0x1b ? csicodec_begins(parser, front, (size_t)(end - front)) : 0;
            if (parser->waiting) return len;
            if (!used || !csicodec_tell_sequence(parser, front, used, tell, user)) {
                used = 0;
                if (parser->status != CSICODEC_OK || !csicodec_tell_next(parser, front, (size_t)(end - front), &used, tell, user)) break;
            }
        }
        front += used;
    }
    if (parser->status != CSICODEC_OK || parser->stopped) return (size_t)(front - bytes);
    if (front < end) memcpy(parser->held, front, parser->waiting = (size_t)(end - front));
    return len;
}

/* Tells the events of these bytes behind those that wait; how many it took. */
static inline size_t csicodec_fed(struct csicodec_parser *parser, const uint8_t *bytes, size_t len, csicodec_teller *tell, void *user) {
    size_t at = 0;
    if (parser->waiting) {
        if (parser->begun) {
            at = len ? csicodec_goes_on(parser, bytes, len) : 0;
            if (parser->begun) return at;
            if (parser->held[1] == '[' && csicodec_tell_sequence(parser, parser->held, parser->waiting, tell, user)) parser->waiting = 0;
        }
        if (parser->waiting && parser->status == CSICODEC_OK) at += csicodec_feed_waiting(parser, bytes + at, len - at, tell, user);
        if (parser->waiting || parser->status != CSICODEC_OK) return at;
    }
    return at + csicodec_feed_rest(parser, bytes + at, len - at, tell, user);
}

/* Tells the events that are sure now, and keeps the bytes that wait. It returns how many bytes it took: all of them, unless
 * parser->status says why it stopped, or csicodec_stop was called. After CSICODEC_MEMORY the others may be fed again. */
static inline size_t csicodec_feed(struct csicodec_parser *parser, const uint8_t *bytes, size_t len, csicodec_teller *tell, void *user) {
    size_t at;
    parser->status = parser->feeding ? (uint32_t)CSICODEC_BAD_STATE : (uint32_t)CSICODEC_OK;
    if (parser->feeding) return 0;
    parser->feeding = 1, parser->stopped = 0;
    at = csicodec_fed(parser, bytes, len, tell, user);
    parser->feeding = 0;
    return at;
}

/* The end of the stream. What waits is told: an incomplete character as text, and an unfinished control as CSICODEC_EVENT_OTHER. A string
 * that is being collected is told as one that was cancelled. Then the parser is as new. */
static inline void csicodec_finish(struct csicodec_parser *parser, csicodec_teller *tell, void *user) {
    struct csicodec_event event;
    memset(&event, 0, sizeof event);
    if (parser->waiting) {
        int is_text = parser->held[0] != 0x1b;
        csicodec_event_of(&parser->stream, &event, is_text ? CSICODEC_EVENT_TEXT : CSICODEC_EVENT_OTHER, parser->held, parser->waiting,
                          CSICODEC_FILTER_TEXT);
        if (!is_text) event.status = CSICODEC_TRUNCATED;
        csicodec_tell_event(parser, &event, tell, user);
    }
    if (parser->collecting) csicodec_tell_string(parser, 0, tell, user);
    parser->waiting = 0, parser->begun = 0, parser->stream.looked = 0, parser->stream.mode = CSICODEC_FILTER_TEXT;
}

/* How many parameters struct csicodec_raw has room for. */
enum { CSICODEC_RAW_PARAMS = 32 };

/* A parameter as it came: its number, at most 2147483647, as terminals take larger ones, or -1 where it is left out; and whether a colon
 * stands in front of it, so that it is a part of the parameter before. */
struct csicodec_raw_param {
    int32_t value;
    uint32_t is_part;
};

/* A control sequence as it came, known or not. */
struct csicodec_raw {
    /* '<', '=', '>' or '?' in front of the parameters, or 0. */
    uint8_t leader;
    /* The final byte; 0 where there is none, and the bytes are no such sequence. */
    uint8_t final_byte;
    /* The first intermediate bytes, behind the parameters, and 0s. */
    uint8_t intermediates[2];
    /* How many parameters there are; the first ones are in `params`. */
    size_t count;
    struct csicodec_raw_param params[CSICODEC_RAW_PARAMS];
    /* The number of bytes up to the final one, and it. */
    size_t used;
};

/* Takes a digit into the last parameter. */
static inline void csicodec_raw_digit(struct csicodec_raw *raw, uint8_t digit) {
    struct csicodec_raw_param *param = &raw->params[raw->count - 1];
    int64_t value = param->value < 0 ? digit : (int64_t)param->value * 10 + digit;
    param->value = value > INT32_MAX ? INT32_MAX : (int32_t)value;
}

/* Begins a parameter. */
static inline void csicodec_raw_param_begins(struct csicodec_raw *raw, uint32_t is_part) {
    if (raw->count < CSICODEC_RAW_PARAMS) raw->params[raw->count].value = -1, raw->params[raw->count].is_part = is_part;
    raw->count++;
}

/* The parameters, the intermediate bytes and the final byte of the control sequence that the bytes of an event are, or of the data of a
 * DCS, which begins in the same way. Controls within a control sequence, which are events of their own, are passed over. */
static inline struct csicodec_raw csicodec_raw_of(const uint8_t *bytes, size_t len) {
    struct csicodec_raw raw;
    size_t at = len > 1 && bytes[0] == 0x1b && bytes[1] == '[' ? 2 : 0, between = 0;
    memset(&raw, 0, sizeof raw);
    for (; at < len; at++) {
        uint8_t byte = bytes[at];
        if (byte < 0x20 || byte == 0x7f) continue;
        if (byte >= 0x40) {
            if (byte < 0x7f) raw.final_byte = byte, raw.used = at + 1;
            break;
        }
        if (byte < 0x30) {
            if (between < sizeof raw.intermediates) raw.intermediates[between] = byte;
            between++;
        } else if (between || (byte >= 0x3c && (raw.leader || raw.count))) break;
        else if (byte >= 0x3c) raw.leader = byte;
        else {
            if (!raw.count) csicodec_raw_param_begins(&raw, 0);
            if (byte >= 0x3a) csicodec_raw_param_begins(&raw, byte == ':');
            else if (raw.count <= CSICODEC_RAW_PARAMS) csicodec_raw_digit(&raw, (uint8_t)(byte - '0'));
        }
    }
    return raw;
}

/* The actions of the sequence of an event once more, in other room, as where there were more than the parser's. `to` has room for as many
 * bytes as the event has: they are put there without the controls among them, which were told. csicodec_terminal_actions needs no `to`. */
static inline struct csicodec_front csicodec_again(const struct csicodec_event *event, uint8_t *to, struct csicodec_action *actions,
                                                   size_t actions_room, struct csicodec_param *params, size_t params_room) {
    size_t len = 0, at;
    for (at = 0; at < event->len; at++)
        if (!at || (event->bytes[at] >= 0x20 && event->bytes[at] != 0x7f)) to[len++] = event->bytes[at];
    return csicodec_next(to, len, actions, actions_room, params, params_room);
}

#endif
