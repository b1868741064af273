/* A stream that is pushed in pieces of any length has the events of the whole, strings are told whole, and what a parser keeps stays in
 * its room. It is stopped, asked and reset. Parameters as they came, a sequence that is read once more, and the lists that terminals take otherwise. */
#include "csicodec.h"

#include <stdio.h>
#include <stdlib.h>
#include <string.h>

static char told[1 << 16];
static size_t size;
static char open;
/* Whether text begins or ends within a character. */
static int torn;
/* Whether the bytes of a sequence are said too. */
static int details;

/* What an event says; text and malformed controls that go on are joined, and so are strings that come in pieces. */
static void tell(void *user, const struct csicodec_parser *parser, const struct csicodec_event *event) {
    char kind = "NTAESO"[event->kind];
    int goes_on = open == kind && (kind == 'T' || kind == 'O' || (kind == 'S' && !event->first));
    (void)user;
    if (size + event->len + 300 > sizeof told) abort();
    torn |= kind == 'T' && event->used && ((event->bytes[0] & 0xc0) == 0x80 || event->bytes[event->len - 1] >= 0xc0);
    if (open && !goes_on) told[size++] = '|';
    open = kind;
    if (kind == 'A') {
        size += (size_t)sprintf(told + size, "A%d", (int)event->actions);
        if (details) size += (size_t)sprintf(told + size, "<%.*s>%d", (int)event->len, (const char *)event->bytes, (int)event->params);
        for (size_t i = 0; i < event->written; i++)
            size += (size_t)sprintf(told + size, " %d %d", (int)parser->stream.actions[i].kind, (int)parser->stream.actions[i].first);
    } else if (kind == 'E') {
        size += (size_t)sprintf(told + size, "E %x", (unsigned)event->code);
    } else {
        if (!goes_on) size += (size_t)sprintf(told + size, kind == 'S' ? "S%c " : "%c ", kind == 'S' ? (int)event->string : kind);
        if (event->len) memcpy(told + size, event->bytes, event->len);
        size += event->len;
        if (kind == 'S' && event->last) size += (size_t)sprintf(told + size, ".%x", parser->ended_by);
    }
    if (kind == 'T' && event->used == 0) open = 0, told[size++] = '|';
}

/* The events of bytes that are fed in pieces of this length. With room, strings are told whole. */
static void feed(const uint8_t *bytes, size_t len, size_t piece, size_t room) {
    static uint8_t string[64];
    struct csicodec_action actions[4];
    struct csicodec_param params[4];
    /* Of the heap, so that a sanitizer sees where it ends. */
    uint8_t *held = malloc(16), *given = malloc(piece);
    struct csicodec_parser parser = csicodec_parser_of(held, 16, actions, 4, params, 4);
    if (room) csicodec_collect(&parser, string, room);
    size = 0, open = 0;
    for (size_t at = 0, more; at < len; at += more) {
        more = len - at < piece ? len - at : piece;
        memcpy(given, bytes + at, more);
        if (csicodec_feed(&parser, given, more, tell, NULL) != more) abort();
    }
    csicodec_finish(&parser, tell, NULL);
    told[size] = 0;
    free(held), free(given);
}

static int is_told(const char *text, size_t room, const char *wanted) {
    for (size_t piece = 1; piece <= strlen(text); piece++) {
        feed((const uint8_t *)text, strlen(text), piece, room);
        if (!strcmp(told, wanted)) continue;
        fprintf(stderr, "parser: in pieces of %zu: %s\nand not %s\n", piece, told, wanted);
        return 0;
    }
    return 1;
}

static uint64_t state = 88172645463325252u;

static size_t any(size_t below) {
    state ^= state << 13, state ^= state >> 7, state ^= state << 17;
    return (size_t)(state % below);
}

/* What streams are made of: first what is whole, then what is cut, malformed or no UTF-8. */
static const char *const bits[] = {
    "a", "b c", "\n", "\xc3\xa9", "\xe2\x82\xac", "\xf0\x9f\x98\x80", "\xe0\xa0\x80", "\xed\x9f\xbf", "\xf4\x8f\xbf\xbf",
    "\xf0\x90\x80\x80", "\x1b[m", "\x1b[1;31m", "\x1b[38;5;200m", "\x1b[;H", "\x1b[5A", "\x1b[3@", "\x1b[2~", "\x1b[?25h", "\x1b[1 q",
    "\x1b[!p", "\x1b[1;m", "\x1b[0;98;1m", "\x1b(B", "\x1b" "7", "\x1b#8", "\x1b]0;t\x07", "\x1b]8;;u\x1b\\", "\x1bPq\x1b\\",
    "\x1b[1\n;2H", "\x1b[\x08" "5A", "\x1b[2\x1f" "A", "\x1b[123456789012m", "\x1b", "\x1b[", "\x1b[1", "\x1b[1;", "\x1b[?", "\x1b(",
    "\x1b]", "\x1b]0;t", "\x1bP", "\x1b_x", "\x18", "\x7f", "\x1b[3\x18", "\x1b[\x7f", "\x1b[1:2?m", "\x1b[ 1m", "\x1b!!", "\xc3",
    "\xe2\x82", "\xe2", "\x82", "\xf0\x9f\x98", "\xf0\x9f", "\xe0\x80", "\xed\xa0", "\xf0\x8f", "\xf4\x90", "\xf5", "\xff", "\xc0",
    "\x9b", "\x1b[1\xc3\xa9", "?", ";", "m"
};
enum { ALL = sizeof bits / sizeof bits[0], WHOLE = 32 };

/* The events that the library itself tells of all bytes, by csicodec_event alone. */
static void tell_whole(struct csicodec_parser *parser, const uint8_t *bytes, size_t len) {
    struct csicodec_event event;
    size_t at = 0;
    size = 0, open = 0;
    for (;; at += event.used) {
        memset(&event, 0, sizeof event);
        if (at == len || !csicodec_told_event(&parser->stream, bytes + at, len - at, &event)) break;
        csicodec_tell_event(parser, &event, tell, NULL);
    }
    memcpy(parser->held, bytes + at, parser->waiting = len - at);
    csicodec_finish(parser, tell, NULL);
    told[size] = 0;
}

/* The same in pieces, each of a length at random. */
static void tell_pieces(struct csicodec_parser *parser, const uint8_t *bytes, size_t len, size_t most) {
    size = 0, open = 0;
    for (size_t at = 0, more; at < len; at += more) {
        more = 1 + any(most);
        if (more > len - at) more = len - at;
        uint8_t *given = malloc(more);
        memcpy(given, bytes + at, more);
        if (csicodec_feed(parser, given, more, tell, NULL) != more) abort();
        free(given);
    }
    csicodec_finish(parser, tell, NULL);
    told[size] = 0;
}

/* Streams at random, in pieces at random, against what the library tells of the whole; each parser has several streams, one after the other. */
static int same_in_pieces(unsigned rounds) {
    static char whole[sizeof told];
    static uint8_t bytes[4096], string[64];
    struct csicodec_action actions[4];
    struct csicodec_param params[4];
    int good = 1;
    details = 1;
    while (good && rounds--) {
        /* Of the heap, so that a sanitizer sees where it ends. */
        size_t limit = 4 + any(any(2) ? 16 : 120), room = limit + any(2) * any(100), kinds = any(2) ? WHOLE : ALL;
        uint8_t *held = malloc(room), *all = malloc(sizeof bytes);
        struct csicodec_parser parser = csicodec_parser_of(held, room, actions, 4, params, 4), other = parser;
        parser.stream.limit = other.stream.limit = limit;
        parser.stream.as_terminals = other.stream.as_terminals = any(2);
        other.held = all;
        if (any(2)) csicodec_collect(&parser, string, sizeof string), csicodec_collect(&other, string, sizeof string);
        for (int stream = 0; good && stream < 4; stream++) {
            size_t len = 0, count = any(60);
            while (count--) {
                const char *bit = bits[any(kinds)];
                memcpy(bytes + len, bit, strlen(bit));
                len += strlen(bit);
            }
            tell_whole(&other, bytes, len);
            memcpy(whole, told, size + 1);
            for (size_t most = 1; good && most < 200; most += 1 + most / 2) {
                torn = 0;
                tell_pieces(&parser, bytes, len, most);
                good = !strcmp(whole, told) && (kinds == ALL || !torn);
                if (good) continue;
                fprintf(stderr, "parser: limit %zu, pieces of at most %zu: %s\nis told as %s\n", limit, most, whole, told);
                if (torn) fprintf(stderr, "and a character is cut\n");
            }
        }
        free(held), free(all);
    }
    details = 0;
    return good;
}

static int is_raw(const char *text, const char *wanted) {
    struct csicodec_raw raw = csicodec_raw_of((const uint8_t *)text, strlen(text));
    char said[256];
    size_t len = (size_t)sprintf(said, "%c", raw.leader ? raw.leader : '-');
    for (size_t i = 0; i < raw.count && i < CSICODEC_RAW_PARAMS; i++)
        len += (size_t)sprintf(said + len, "%s%d", raw.params[i].is_part ? ":" : " ", (int)raw.params[i].value);
    sprintf(said + len, " %s%c %d", (char[3]){(char)raw.intermediates[0], (char)raw.intermediates[1], 0}, raw.final_byte ? raw.final_byte : '-',
            (int)raw.used);
    if (strcmp(said, wanted)) fprintf(stderr, "parser: %s, and not %s\n", said, wanted);
    return !strcmp(said, wanted);
}

static int are_raw(void) {
    return is_raw("\x1b[?1;;25h", "? 1 -1 25 h 9") && is_raw("\x1b[m", "- m 3") && is_raw("\x1b[;H", "- -1 -1 H 4") && is_raw("\x1b[4:3m", "- 4:3 m 6")
        && is_raw("\x1b[1\x0a;2 q", "- 1 2  q 8") && is_raw("\x1b[99999999999d", "- 2147483647 d 14") && is_raw("\x1b[!p", "- !p 4")
        && is_raw("1$r0m", "- 1 $r 3") && is_raw("\x1b[1", "- 1 - 0") && is_raw("\x1b[1?h", "- 1 - 0") && is_raw("+q544e", "- +q 2");
}

/* A sequence with more actions than there is room for, and a control in it, is read once more. */
static int is_read_again(void) {
    static const uint8_t bytes[] = "\x1b[1;3\x0a;4;7m";
    struct csicodec_event event = {.bytes = bytes, .len = sizeof bytes - 1};
    struct csicodec_action actions[4];
    uint8_t to[sizeof bytes];
    struct csicodec_front front = csicodec_again(&event, to, actions, 4, NULL, 0);
    return front.status == CSICODEC_OK && front.actions == 4 && actions[3].kind == CSICODEC_SGR_INVERSE;
}

static char said[512];

/* The texts of actions without ESC [, with a blank between. */
static void say(const struct csicodec_action *actions, size_t count, const struct csicodec_param *params, size_t params_count) {
    static uint8_t out[256];
    size_t len = 0;
    for (size_t i = 0; i < count; i++) {
        size_t size = csicodec_encode(&actions[i], 1, params, params_count, out, sizeof out).needed;
        if (size < 2 || size > sizeof out || len + size > sizeof said) abort();
        len += (size_t)sprintf(said + len, "%s%.*s", i ? " " : "", (int)size - 2, (const char *)out + 2);
    }
}

static void say_event(void *user, const struct csicodec_parser *parser, const struct csicodec_event *event) {
    (void)user;
    if (event->kind == CSICODEC_EVENT_ACTIONS) say(parser->stream.actions, event->actions, parser->stream.params, event->params);
}

/* Lists that terminals take otherwise than the table reads them, as mutants of recordings had them: the sequence without ESC [, and both
 * readings of it (docs/DIFFERENCES.md, "As terminals take it"). */
static const struct { const char *text, *read, *taken; } readings[] = {
    {"0;1;8;98;31m", "0m 1m 8m 98;31m", "0m 1m 8m 98m 31m"},
    {"98m", "98m", "98m"},
    {"98\n;31m", "98;31m", "98m 31m"},
    {"38;5;300;1m", "38;5;300;1m", "38;5;300m 1m"},
    {"38;2;;0;0;1m", "38;2;;0;0;1m", "38:2::0:0:0m 1m"},
    {"1;m", "1m", "1m 0m"},
    {"1;\bm", "1m", "1m 0m"},
    {"m", "0m", "0m"},
    {";H", ";H", "1;1H"},
    {"5;H", "5;H", "5;1H"},
    {"10;20;H", "10;20;H", "10;20H"},
    {"5;6;7H", "5;6;7H", "5;6H"},
    {";B", ";B", "B"},
    {"1;2A", "1;2A", "A"},
    {"1;24;r", "1;24;r", "1;24r"},
    {"4294967297C", "4294967297C", "4294967295C"},
    {"?1049!l", "?1049l ?!l", "?1049!l"},
    {"?1 h", "?1h ? h", "?1 h"},
    {"4:0h", "4h :0h", "4:0h"},
    {"?1;;25h", "?1h ?;25h", "?1h ?0h ?25h"},
    {"?2J", "?2J", "?2J"},
};

/* Whether the events of a sequence in pieces of any length have these actions by both readings, and the call those of the second one. */
static int is_taken(const char *text, const char *read, const char *taken) {
    struct csicodec_action actions[8], one;
    struct csicodec_param params[16];
    uint8_t held[64], bytes[64] = "\x1b[";
    size_t len = strlen(text) + 2;
    memcpy(bytes + 2, text, len - 2);
    for (size_t piece = 1; piece <= len; piece++)
        for (size_t as_terminals = 0; as_terminals < 2; as_terminals++) {
            struct csicodec_parser parser = csicodec_parser_of(held, sizeof held, actions, 8, params, 16);
            parser.stream.as_terminals = as_terminals;
            said[0] = 0;
            for (size_t at = 0; at < len; at += piece) csicodec_feed(&parser, bytes + at, len - at < piece ? len - at : piece, say_event, NULL);
            if (!strcmp(said, as_terminals ? taken : read)) continue;
            fprintf(stderr, "parser: %s in pieces of %zu is %s, and not %s\n", text, piece, said, as_terminals ? taken : read);
            return 0;
        }
    struct csicodec_front front = csicodec_terminal_actions(bytes, len, actions, 8, params, 16);
    say(actions, front.actions, params, front.params);
    if (front.status != CSICODEC_OK || strcmp(said, taken)) return 0;
    struct csicodec_front less = csicodec_terminal_actions(bytes, len, &one, 1, NULL, 0);
    return less.actions == front.actions && less.params == front.params && !memcmp(&one, actions, sizeof one);
}

/* Where all of a random sequence is read, terminals take it so. */
static int both_agree(unsigned rounds) {
    static const char alphabet[] = "0123456789123;;;;;;:?>mmmmHhlrABJK";
    struct csicodec_action read[32], taken[32];
    struct csicodec_param read_params[32], taken_params[32];
    uint64_t state = 88172645463325252u;
    unsigned same = 0;
    for (unsigned i = 0; i < rounds; i++) {
        uint8_t bytes[24] = "\x1b[";
        for (size_t at = 2; at < sizeof bytes; at++) {
            state ^= state << 13, state ^= state >> 7, state ^= state << 17;
            bytes[at] = at + 1 < sizeof bytes ? (uint8_t)alphabet[state % (sizeof alphabet - 1)] : 'm';
        }
        memset(read, 0, sizeof read), memset(taken, 0, sizeof taken);
        struct csicodec_front one = csicodec_next(bytes, sizeof bytes, read, 32, read_params, 32);
        struct csicodec_front other = csicodec_terminal_actions(bytes, sizeof bytes, taken, 32, taken_params, 32);
        if (one.status != other.status || one.used != other.used || one.at != other.at) return 0;
        size_t known = 0;
        while (known < one.actions && read[known].kind != CSICODEC_UNSPECIFIED) known++;
        if (known < one.actions || (bytes[one.used - 1] == 'm' && bytes[one.used - 2] == ';')) continue;
        if (one.actions != other.actions || memcmp(read, taken, sizeof read)) return 0;
        same++;
    }
    return same > 0;
}

/* An event as terminals take it has the actions of the call, of short sequences at random and of each that is one number and a character. */
static int is_event_taken(const uint8_t *bytes, size_t len) {
    struct csicodec_action told[32], taken[32];
    struct csicodec_param told_params[32], taken_params[32];
    struct csicodec_stream stream = csicodec_stream_of(64, told, 32, told_params, 32);
    struct csicodec_event event;
    memset(told, 0, sizeof told), memset(taken, 0, sizeof taken);
    struct csicodec_front front = csicodec_terminal_actions(bytes, len, taken, 32, taken_params, 32);
    stream.as_terminals = 1;
    if (front.status != CSICODEC_OK) return 1;
    int good = csicodec_next_event(&stream, bytes, len, &event) && event.kind == CSICODEC_EVENT_ACTIONS && event.used == front.used;
    good &= event.actions == front.actions && !memcmp(told, taken, front.actions * sizeof told[0]);
    good &= event.params == front.params && !memcmp(told_params, taken_params, front.params * sizeof told_params[0]);
    if (!good) fprintf(stderr, "parser: ESC %.*s has other actions than terminals take it for\n", (int)len - 1, (const char *)bytes + 1);
    return good;
}

static int are_events_taken(unsigned rounds) {
    static const char alphabet[] = "0123456789;;;:<=>?!$ ", *const leaders[] = {"", "<", "=", ">", "?"};
    char text[32] = "\x1b[";
    int good = 1;
    for (unsigned i = 0; good && i < rounds; i++) {
        size_t len = 2 + any(8);
        for (size_t at = 2; at < len; at++) text[at] = alphabet[any(sizeof alphabet - 1)];
        text[len++] = any(2) ? "mhlHJKrs"[any(8)] : (char)(0x40 + any(63));
        good = is_event_taken((const uint8_t *)text, len);
    }
    for (int leader = 0; leader < 5; leader++)
        for (int final = 0x40; good && final < 0x7f; final++)
            for (unsigned number = 0; good && number < 999999999; number += number < 110 ? 1 : number < 2048 ? 97 : number * 6 - 1) {
                size_t len = (size_t)sprintf(text, "\x1b[%s%u%c", leaders[leader], number, final);
                good = is_event_taken((const uint8_t *)text, len);
            }
    return good;
}

static int are_taken(unsigned rounds) {
    for (size_t i = 0; i < sizeof readings / sizeof readings[0]; i++)
        if (!is_taken(readings[i].text, readings[i].read, readings[i].taken)) return 0;
    return csicodec_terminal_actions((const uint8_t *)"\x1b[1", 3, NULL, 0, NULL, 0).status == CSICODEC_TRUNCATED
        && csicodec_terminal_actions((const uint8_t *)"\x1b[1\n\x1b", 5, NULL, 0, NULL, 0).at == 3
        && csicodec_terminal_actions(NULL, 0, NULL, 0, NULL, 0).status == CSICODEC_TRUNCATED && both_agree(rounds) && are_events_taken(rounds);
}

/* With less room than any event may need nothing is taken. */
static int is_refused(void) {
    uint8_t held[3];
    for (size_t room = 0; room < 4; room++) {
        struct csicodec_parser parser = csicodec_parser_of(held, room, NULL, 0, NULL, 0);
        if (csicodec_feed(&parser, (const uint8_t *)"ab\x1b[1m", 6, tell, NULL) || parser.status != CSICODEC_BAD_STATE) return 0;
    }
    return 1;
}

/* Tells an event, and ends the feed behind it; with a stream in `inner` it tries to feed that first. */
static struct csicodec_parser *steered;
static const char *inner;

static void tell_one(void *user, const struct csicodec_parser *parser, const struct csicodec_event *event) {
    tell(user, parser, event);
    if (inner) torn |= csicodec_feed(steered, (const uint8_t *)inner, strlen(inner), tell_one, user) != 0;
    else csicodec_stop(steered);
}

/* A feed that is stopped behind each event, and goes on with what it didn't take, tells what one feed tells. */
static int goes_on_stopped(const char *text, size_t piece, const char *wanted) {
    struct csicodec_action actions[4];
    struct csicodec_param params[4];
    uint8_t held[16];
    struct csicodec_parser parser = csicodec_parser_of(held, 16, actions, 4, params, 4);
    size_t len = strlen(text), at = 0, more, calls = 0;
    steered = &parser, inner = NULL, size = 0, open = 0;
    while (at < len && calls++ < 4 * len + 4) {
        more = len - at < piece ? len - at : piece;
        at += csicodec_feed(&parser, (const uint8_t *)text + at, more, tell_one, NULL);
        if (parser.status != CSICODEC_OK) return 0;
    }
    while (parser.stopped) csicodec_feed(&parser, NULL, 0, tell_one, NULL);
    csicodec_finish(&parser, tell, NULL);
    told[size] = 0;
    return at == len && !strcmp(told, wanted);
}

/* Stopped, asked, reset, and not fed by what it tells. */
static int is_steered(void) {
    struct csicodec_action actions[1];
    uint8_t held[16], string[8];
    struct csicodec_parser parser = csicodec_parser_of(held, 16, actions, 1, NULL, 0);
    for (size_t piece = 1; piece < 20; piece++)
        if (!goes_on_stopped("a\x1b[1;31mred\x1b(Bx\x1b]0;t\x07\xc3\xa9\x1b[1\x08;2Hz", piece, "T a|A2 2 1 11 1|T red|E 2842|T x|S] 0;t.7|T \xc3\xa9\x08|A1 109 1|T z")) return 0;
    csicodec_collect(&parser, string, sizeof string);
    parser.stream.as_terminals = 1;
    if (!csicodec_is_ground(&parser)) return 0;
    for (size_t i = 0; i < 3; i++) {
        static const char *const begun[] = {"\x1b[1", "\x1b]0;ti", "a\xe2\x82"};
        size = 0, open = 0;
        csicodec_feed(&parser, (const uint8_t *)begun[i], strlen(begun[i]), tell, NULL);
        if (csicodec_is_ground(&parser)) return 0;
        csicodec_reset(&parser);
        size = 0, open = 0;
        csicodec_feed(&parser, (const uint8_t *)"x\x1b[;B\x1b]2;t\x07", 11, tell, NULL);
        told[size] = 0;
        if (!csicodec_is_ground(&parser) || strcmp(told, "T x|A1 102 1|S] 2;t.7")) return 0;
    }
    steered = &parser, inner = "\x1b[1m", torn = 0, size = 0;
    return csicodec_feed(&parser, (const uint8_t *)"a\x1b[mb", 5, tell_one, NULL) < 5 && parser.status == CSICODEC_BAD_STATE && !torn
        && csicodec_feed(&parser, (const uint8_t *)"b", 1, tell, NULL) == 1;
}

int main(int count, char **words) {
    unsigned rounds = count > 1 ? (unsigned)atoi(words[1]) : 2000;
    int right = is_told("a\x1b[1;31mred\x1b(B\x1b[1\x08;2H\x1b[3\x18z\xc3\xa9", 0, "T a|A2 2 1 11 1|T red|E 2842|T \x08|A1 109 1|O \x1b[3|T \x18z\xc3\xa9")
        && is_told("\x1b]0;title\x07x\x1b]8;;\x1b\\", 64, "S] 0;title.7|T x|S] 8;;.1b")
        && is_told("\x1b]0;title\x07", 3, "S] 0;t.7")
        && is_told("\x1b]0;ti\x18x\x1bPq\x1b[1m", 64, "S] 0;ti|T \x18x|SP q|A1 2 1")
        && is_told("\x1b]0;ti\x1b]2;a\x07", 64, "S] 0;ti|S] 2;a.7")
        && is_told("\x1b]0;ti", 64, "S] 0;ti")
        && is_told("ab\xe2\x82", 0, "T ab\xe2\x82") && is_told("a\x1b[1", 0, "T a|O \x1b[1")
        && is_told("\x1b[1234567890123456;7m", 0, "O \x1b[1234567890123456;7m")
        && is_told("\x1b\n[31mred", 0, "O \x1b\n[|T 31mred") && is_told("\x1b(\n0x", 0, "O \x1b(\n0|T x")
        && same_in_pieces(rounds) && is_steered() && are_raw() && is_refused() && is_read_again() && are_taken(rounds * 20);
    if (!right) return 1;
    printf("parser: the events of the whole in pieces of any length, whole strings, raw parameters, %d lists as terminals take them\n", (int)(sizeof readings / sizeof readings[0]));
    return 0;
}
