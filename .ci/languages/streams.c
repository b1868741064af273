/* Whether C's calls tell the events of streams.tsv, whose path is given. */
#include <csicodec.h>
#include <stdio.h>
#include <stdlib.h>
#include <string.h>

static struct csicodec_action actions[16];
static struct csicodec_param params[16];
static uint8_t waits[256];
/* The words of what was told, and where the last one begins. */
static char words[4096], *last = words;

static void begin(const char *front) {
    if (*words) strcat(words, " ");
    last = words + strlen(words);
    strcat(words, front);
}
static void hex(const uint8_t *bytes, size_t len) {
    for (size_t i = 0; i < len; i++) sprintf(words + strlen(words), "%02x", bytes[i]);
}
static void joined(const char *front, const uint8_t *bytes, size_t len) {
    if (*words == 0 || *last != *front) begin(front);
    hex(bytes, len);
}
static void acted(const struct csicodec_action *action) {
    char text[64] = "A";
    struct csicodec_encoded answer = csicodec_encode(action, 1, params, 16, (uint8_t *)text + 1, 60);
    text[1 + answer.needed] = 0;
    memmove(text + 1, text + 3, strlen(text + 2));
    begin(text);
}
/* Adds an event as a row has it. */
static void tell(void *user, const struct csicodec_parser *parser, const struct csicodec_event *event) {
    static const char *const kinds[] = {"OSC(", "DCS(", "SOS(", "PM(", "APC("};
    const char *openers = "]PX^_";
    (void)user, (void)parser;
    switch (event->kind) {
    case CSICODEC_EVENT_TEXT: joined("T", event->bytes, event->len); break;
    case CSICODEC_EVENT_OTHER: joined("M", event->bytes, event->len); break;
    case CSICODEC_EVENT_CONTROL: joined("T", event->bytes, event->len); break;
    case CSICODEC_EVENT_ESC: begin("E"); hex(event->bytes + 1, event->used - 1); break;
    case CSICODEC_EVENT_STRING:
        if (event->first) begin(kinds[strchr(openers, (int)event->string) - openers]);
        hex(event->bytes, event->len);
        if (event->last) strcat(words, ")");
        break;
    default: for (size_t i = 0; i < event->actions; i++) acted(&actions[i]);
    }
}
static void fed(const uint8_t *bytes, size_t cut, size_t len) {
    struct csicodec_parser parser = csicodec_parser_of(waits, sizeof waits, actions, 16, params, 16);
    *words = 0, last = words;
    csicodec_feed(&parser, bytes, cut, tell, NULL);
    csicodec_feed(&parser, bytes + cut, len - cut, tell, NULL);
    csicodec_finish(&parser, tell, NULL);
}

int main(int count, char **argv) {
    char row[512];
    int rows = 0;
    FILE *file = count == 2 ? fopen(argv[1], "r") : NULL;
    while (file && fgets(row, sizeof row, file)) {
        uint8_t bytes[128];
        size_t len = 0;
        char *wanted = strchr(row, '\t');
        if (*row == '#' || !wanted) continue;
        *wanted++ = 0, wanted[strcspn(wanted, "\n")] = 0, rows++;
        for (unsigned byte; sscanf(row + 2 * len, "%2x", &byte) == 1; len++) bytes[len] = (uint8_t)byte;
        for (size_t cut = 0; cut <= len; cut++) {
            fed(bytes, cut, len);
            if (strcmp(words, wanted)) return fprintf(stderr, "streams: %s, cut at %zu: %s, not %s\n", row, cut, words, wanted), 1;
        }
    }
    printf("streams: %d of C\n", rows);
    return rows < 20;
}
