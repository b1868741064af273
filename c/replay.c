/* replay IN OUT: OUT is the normal form of IN, which is control sequences one after the other. Each of them is normalised,
 * without room and then with it, read, and written again from its actions; each answer is compared with its part of OUT. */
#include "csicodec.h"

#include <stdio.h>
#include <string.h>

static uint8_t in[1 << 20], want[1 << 20], got[1 << 20];
static struct csicodec_action actions[1 << 10];
static struct csicodec_param params[1 << 10];

static size_t load(const char *name, uint8_t *bytes, size_t room) {
    FILE *file = fopen(name, "rb");
    size_t len = file ? fread(bytes, 1, room, file) : room;
    if (file) fclose(file);
    return len;
}

/* Whether the bytes of this answer are those that are wanted. */
static int is_wanted(uint32_t status, size_t needed, const uint8_t *wanted, size_t left) {
    return status == CSICODEC_OK && needed <= left && memcmp(got, wanted, needed) == 0;
}

/* How many bytes of the wanted ones the sequence has; 0 where an answer is wrong. */
static size_t replayed(const uint8_t *bytes, size_t len, const uint8_t *wanted, size_t left) {
    got[0] = 0xaa;
    struct csicodec_normalised asked = csicodec_normalise(bytes, len, got, 0);
    if (asked.status != CSICODEC_OK || asked.needed > left || got[0] != 0xaa) return 0;
    struct csicodec_normalised done = csicodec_normalise(bytes, len, got, asked.needed);
    if (!is_wanted(done.status, done.needed, wanted, left)) return 0;
    struct csicodec_front counted = csicodec_next(bytes, len, actions, 0, params, 0);
    struct csicodec_front front = csicodec_next(bytes, len, actions, 1 << 10, params, 1 << 10);
    if (counted.actions != front.actions || counted.params != front.params || front.used != len || front.actions < 1) return 0;
    memset(got, 0, asked.needed);
    struct csicodec_encoded text = csicodec_encode(actions, front.actions, params, front.params, got, asked.needed);
    if (!is_wanted(text.status, text.needed, wanted, left)) return 0;
    return asked.needed;
}

int main(int count, char **words) {
    if (count != 3) return 2;
    size_t len = load(words[1], in, sizeof in), left = load(words[2], want, sizeof want);
    size_t sequences = 0, acted = 0;
    const uint8_t *bytes = in, *wanted = want;
    while (len) {
        struct csicodec_front front = csicodec_next(bytes, len, actions, 0, params, 0);
        if (front.status != CSICODEC_OK) return 3;
        size_t given = replayed(bytes, front.used, wanted, left);
        if (!given) {
            fprintf(stderr, "replay: sequence %zu is answered otherwise\n", sequences);
            return 1;
        }
        sequences++, acted += front.actions;
        bytes += front.used, len -= front.used;
        wanted += given, left -= given;
    }
    printf("%zu sequences, %zu actions\n", sequences, acted);
    return left ? 4 : 0;
}
