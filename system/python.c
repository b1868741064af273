/* For languages where a call of C is dear, as Python: calls that have few arguments, most of them in a struct.
 * The shared library has these calls beside those of the headers, which promise nothing of them. */
#include "csicodec.h"

/* What is to be left of texts: with styles or without, as csicodec_clean_with has it, and room. */
struct csicodec_desk {
    uint32_t styles, depth, links;
    char room[16384];
};

/* What is left of a text, with a 0 behind it, which it doesn't have itself; null where that has no room, or memory is refused. */
const char *csicodec_left(const uint8_t *bytes, unsigned len, struct csicodec_desk *desk) {
    const size_t most = sizeof desk->room - 1;
    struct csicodec_stripped answer = desk->styles ? csicodec_clean_with(desk->depth, desk->links, bytes, len, (uint8_t *)desk->room, most)
                                                   : csicodec_strip(bytes, len, (uint8_t *)desk->room, most);
    if (answer.status != CSICODEC_OK || answer.needed > most) return NULL;
    desk->room[answer.needed] = 0;
    return desk->room;
}

/* An event, in 48 bytes without gaps: enum csicodec_event_kind; a status, or of an escape sequence its code; where its bytes are; its
 * actions, or of an escape sequence its two bytes, and of a string its opener; whether it is a string's first and last piece; and from where
 * to where the bytes stand that alone say which event it is, none of a string and of what is malformed. */
struct csicodec_listed {
    uint32_t kind, status;
    uint64_t at, len;
    uint32_t first, count;
    uint32_t begins, ends;
    uint32_t from, to;
};

/* A stream, the bytes that go on with it, and room for events, with their actions and tokens. The answer: how many events are told, how
 * many bytes they have, and how many actions and tokens the next event has where there is no room for these. */
struct csicodec_telling {
    struct csicodec_stream stream;
    const uint8_t *bytes;
    size_t len;
    struct csicodec_listed *told;
    size_t told_room;
    struct csicodec_action *actions;
    size_t actions_room;
    struct csicodec_param *params;
    size_t params_room;
    size_t count, used, actions_needed, params_needed;
};
_Static_assert(sizeof(struct csicodec_stream) == 88 && sizeof(struct csicodec_telling) == 184, "as python/csicodec/library.py has them");

void csicodec_begin(struct csicodec_stream *stream, size_t limit) { *stream = csicodec_stream_of(limit, NULL, 0, NULL, 0); }

/* What is listed of an event. */
static struct csicodec_listed listed(const struct csicodec_event *event, const uint8_t *bytes, size_t action) {
    struct csicodec_listed it = {event->kind, event->status, (uint64_t)(event->bytes - bytes), event->len, (uint32_t)action, (uint32_t)event->actions, event->first, event->last, 0, 0};
    if (event->kind == CSICODEC_EVENT_ESC) it.status = event->code, it.first = event->intermediate, it.count = event->final_byte;
    if (event->kind == CSICODEC_EVENT_STRING) it.first = event->string;
    if (event->kind < CSICODEC_EVENT_STRING) it.from = (uint32_t)it.at, it.to = (uint32_t)(it.at + it.len);
    return it;
}

/* Tells as many events at the front of the bytes as there is room for. */
void csicodec_tell(struct csicodec_telling *it) {
    size_t action = 0, param = 0, i;
    it->count = it->used = it->actions_needed = it->params_needed = 0;
    while (it->count < it->told_room) {
        struct csicodec_stream before = it->stream;
        struct csicodec_event event;
        it->stream.actions = it->actions + action, it->stream.actions_room = it->actions_room - action;
        it->stream.params = it->params + param, it->stream.params_room = it->params_room - param;
        if (!csicodec_next_event(&it->stream, it->bytes + it->used, it->len - it->used, &event)) return;
        if (event.actions > it->actions_room - action || event.params > it->params_room - param) {
            it->stream = before;
            it->actions_needed = event.actions, it->params_needed = event.params;
            return;
        }
        it->told[it->count++] = listed(&event, it->bytes, action);
        for (i = 0; i < event.actions; i++) if (it->actions[action + i].len) it->actions[action + i].place += param;
        action += event.actions, param += event.params;
        it->used += event.used;
    }
}
