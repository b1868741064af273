/* cost CALL [FILE]: makes a call 1,000 times on a short input, or once on a whole file, for callgrind to count. */
#include "csicodec.h"

#include <stdio.h>
#include <string.h>

static uint8_t in[1 << 22], out[1 << 23];
static struct csicodec_action actions[1 << 10];
static struct csicodec_param params[1 << 10];

/* The sequences of the bytes in turn. */
static size_t all_next(const uint8_t *bytes, size_t len, int encodes) {
    size_t done = 0;
    while (len) {
        struct csicodec_front front = csicodec_next(bytes, len, actions, 1 << 10, params, 1 << 10);
        if (front.status != CSICODEC_OK) return 0;
        if (encodes) done += csicodec_encode(actions, front.actions, params, front.params, out, sizeof out).needed;
        bytes += front.used, len -= front.used, done += front.actions;
    }
    return done;
}

/* The events of a stream in turn, in pieces of 4,096 bytes. */
static size_t all_events(const uint8_t *bytes, size_t len, size_t as_terminals) {
    struct csicodec_stream stream = csicodec_stream_of(4096, actions, 1 << 10, params, 1 << 10);
    struct csicodec_event event;
    size_t at = 0, end = 0, done = 0;
    stream.as_terminals = as_terminals;
    while (end < len) {
        end = len - end > 4096 ? end + 4096 : len;
        for (; csicodec_next_event(&stream, bytes + at, end - at, &event); at += event.used) done++;
    }
    return done;
}

static void count_event(void *done, const struct csicodec_parser *parser, const struct csicodec_event *event) {
    *(size_t *)done += event->kind + parser->ended_by;
}

/* The same, pushed in pieces of this length. */
static size_t all_fed(const uint8_t *bytes, size_t len, size_t piece) {
    static uint8_t held[4096];
    struct csicodec_parser parser = csicodec_parser_of(held, sizeof held, actions, 1 << 10, params, 1 << 10);
    size_t done = 0, at;
    for (at = 0; at < len; at += piece) csicodec_feed(&parser, bytes + at, len - at < piece ? len - at : piece, count_event, &done);
    csicodec_finish(&parser, count_event, &done);
    return done;
}

static size_t run(const char *call, const uint8_t *bytes, size_t len) {
    if (!strcmp(call, "next")) return all_next(bytes, len, 0);
    if (!strcmp(call, "encode")) return all_next(bytes, len, 1);
    if (!strcmp(call, "events")) return all_events(bytes, len, 0);
    if (!strcmp(call, "taken")) return all_events(bytes, len, 1);
    if (!strcmp(call, "feed")) return all_fed(bytes, len, 65536);
    if (!strcmp(call, "feed7")) return all_fed(bytes, len, 7);
    if (!strcmp(call, "normalise")) return csicodec_normalise(bytes, len, out, sizeof out).needed;
    return csicodec_next((const uint8_t *)"x", 1, actions, 1, params, 1).at;
}

int main(int count, char **words) {
    if (count < 2) return 2;
    FILE *file = count > 2 ? fopen(words[2], "rb") : NULL;
    size_t len = file ? fread(in, 1, sizeof in, file) : 0, sum = 0;
    if (file) fclose(file);
    for (int i = 0; i < (len > 64 ? 1 : 1000); i++) sum += run(words[1], in, len);
    printf("%zu bytes, %zu\n", len, sum);
    return 0;
}
