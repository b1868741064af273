/* Pages of HTML, and lines as they stand when they end, of a stream as it comes, over csicodec_html and csicodec_overwrite of csicodec.h, which
 * includes this.
 *
 *     static void write_out(void *file, const uint8_t *bytes, size_t len) { fwrite(bytes, 1, len, (FILE *)file); }
 *
 *     static uint8_t held[65536], out[65536], bytes[8192];
 *     struct csicodec_lines lines = csicodec_overwritten_lines(0, held, sizeof held, out, sizeof out);
 *     while ((got = read(0, bytes, sizeof bytes)) > 0)
 *         if (csicodec_feed_lines(&lines, bytes, (size_t)got, write_out, stdout) != (size_t)got) return 3;
 *     if (csicodec_finish_lines(&lines, write_out, stdout) != CSICODEC_OK) return 3;
 *
 * What is written is what the call gives for the whole stream, however it is cut into pieces. Behind a newline of text outside of a title
 * nothing is left of a line but how further characters look and the graphic sets, so that whole lines are written by themselves, behind the
 * sequences that set these. Where a place is saved or insert mode has begun, that is left too, and what follows is held up to a reset or the end. With links, or
 * without overwriting, all is held up to the end. The room for what is held is the caller's, and so is the limit. */
#ifndef CSICODEC_LINES_H
#define CSICODEC_LINES_H

#include <string.h>

/* How much of the room for what is held is for the sequences that set how characters look, and for those of graphic sets. */
enum { CSICODEC_LOOK = 512 };

/* The graphic sets: the final bytes of what ESC ( and ESC ) designated, or 0, and whether SO shifted the second in. */
struct csicodec_line_sets {
    uint8_t g0, g1, is_shifted;
};

/* A stream that is written line by line. Between two calls the caller may put larger rooms in the place of `held` and `out`, as realloc does. */
struct csicodec_lines {
    /* Whether it becomes a page. */
    int is_page;
    /* Of a page, what it is asked to be, and its palette, as for csicodec_html. */
    struct csicodec_markup markup;
    const uint32_t *colors;
    size_t count;
    /* Of lines, 1 with the sequences that set how characters look, and 0 without, as for csicodec_overwrite. */
    uint32_t styles;
    /* Room for what waits, and how many bytes it has, which are CSICODEC_LOOK more than the longest line may have. */
    uint8_t *held;
    size_t held_room;
    /* Room for the text of one line, or for what stands ahead of a page and behind it. If there is more, several lines are written at once. */
    uint8_t *out;
    size_t out_room;
    /* CSICODEC_OK, or why a call stopped: CSICODEC_BAD_STATE for choices that the library's calls refuse, or CSICODEC_MEMORY. Then
     * held_needed or out_needed says which room has to have how many bytes at least; if both are 0, the library had no memory. */
    uint32_t status;
    size_t held_needed;
    size_t out_needed;
    /* In the room, what waits is from `begin` to `end`, with `look` bytes in front of it that set how it looks. It is in whole spans up to
     * `spanned`, and in whole lines up to `whole`; behind the spans so many bytes were looked at of a control sequence. */
    size_t begin, look, end, spanned, whole, looked;
    /* Of lines that were written, how many bytes of sequences wait to be taken into the look; they stand in front of what waits. */
    size_t unsettled;
    /* The sets at the front of what waits, behind the whole spans, and behind the whole lines. */
    struct csicodec_line_sets sets, sets_behind, sets_whole;
    /* enum csicodec_filter_mode, behind the whole spans. */
    uint32_t mode;
    /* Whether what stands ahead of the page is written; lines are taken one by one; a title is open; a place is saved or insert mode has
     * begun, or may have; and whether there are sequences in the whole lines, and behind them. */
    int is_begun, by_one, is_title, keeps, within, behind;
};

/* Takes what is written. */
typedef void csicodec_writer(void *user, const uint8_t *bytes, size_t len);

/* A new stream, which becomes lines of plain text or, if `styles` is 1, with the sequences (SGR) that set how characters look. */
static inline struct csicodec_lines csicodec_overwritten_lines(uint32_t styles, uint8_t *held, size_t held_room, uint8_t *out,
                                                               size_t out_room) {
    struct csicodec_lines lines;
    memset(&lines, 0, sizeof lines);
    lines.styles = styles;
    lines.held = held, lines.held_room = held_room;
    lines.out = out, lines.out_room = out_room;
    lines.begin = lines.end = lines.spanned = lines.whole = CSICODEC_LOOK;
    return lines;
}

/* A new stream, which becomes a page. The palette has to stay where it is. */
static inline struct csicodec_lines csicodec_html_lines(const struct csicodec_markup *markup, const uint32_t *colors, size_t count,
                                                        uint8_t *held, size_t held_room, uint8_t *out, size_t out_room) {
    struct csicodec_lines lines = csicodec_overwritten_lines(0, held, held_room, out, out_room);
    lines.is_page = 1;
    lines.markup = *markup;
    lines.colors = colors, lines.count = count;
    return lines;
}

/* Whether what a call answered is in the room. If it isn't, the stream stops. */
static inline int csicodec_is_out(struct csicodec_lines *lines, struct csicodec_stripped text) {
    lines->status = text.status;
    if (text.status == CSICODEC_OK && text.needed > lines->out_room) {
        lines->status = CSICODEC_MEMORY;
        lines->out_needed = text.needed;
    }
    return lines->status == CSICODEC_OK;
}

/* What becomes of whole lines, in the room for it. */
static inline struct csicodec_stripped csicodec_text_of_lines(struct csicodec_lines *lines, const uint8_t *bytes, size_t len) {
    struct csicodec_markup piece = lines->markup;
    piece.fragment = 1;
    return lines->is_page ? csicodec_html(&piece, lines->colors, lines->count, bytes, len, lines->out, lines->out_room)
                          : csicodec_overwrite(lines->styles, bytes, len, lines->out, lines->out_room);
}

/* Writes what stands ahead of all lines (0), or behind them (1); whether it did. Of other choices than there are it tells. */
static inline int csicodec_write_around(struct csicodec_lines *lines, int is_behind, csicodec_writer *write, void *user) {
    /* A character that stands nowhere else on a page. */
    static const uint8_t mark[] = {0xee, 0x80, 0x80};
    struct csicodec_stripped page;
    size_t at = 0;
    if (!lines->is_page || lines->markup.fragment == 1) return csicodec_is_out(lines, csicodec_text_of_lines(lines, NULL, 0));
    page = csicodec_html(&lines->markup, lines->colors, lines->count, mark, sizeof mark, lines->out, lines->out_room);
    if (!csicodec_is_out(lines, page)) return 0;
    while (memcmp(lines->out + at, mark, sizeof mark)) at++;
    if (is_behind) write(user, lines->out + at + sizeof mark, page.needed - at - sizeof mark);
    else write(user, lines->out, at);
    return 1;
}

/* Whether a sequence may save the cursor's place or begin insert mode (DECSC, SCOSC, SM, DECSET 1048 and 1049), or ends both (RIS, DECSTR);
 * `keeps` of any other. */
static inline int csicodec_keeps(const uint8_t *bytes, size_t len, int keeps) {
    size_t i;
    if (len == 2 && bytes[1] == 'c') return 0;
    if (len == 4 && !memcmp(bytes + 1, "[!p", 3)) return 0;
    if (len == 2 && bytes[1] == '7') return 1;
    if (bytes[1] != '[' || (bytes[len - 1] != 'h' && bytes[len - 1] != 's')) return keeps;
    if (bytes[2] != '?' || bytes[len - 1] == 's') return 1;
    for (i = 3; i + 4 < len; i++)
        if (!memcmp(bytes + i, "1048", 4) || !memcmp(bytes + i, "1049", 4)) return 1;
    return keeps;
}

/* The sets behind a text: the last SO or SI counts. */
static inline struct csicodec_line_sets csicodec_shifted(struct csicodec_line_sets sets, const uint8_t *bytes, size_t len) {
    while (len && bytes[len - 1] != 0x0e && bytes[len - 1] != 0x0f) len--;
    if (len) sets.is_shifted = bytes[len - 1] == 0x0e;
    return sets;
}

/* The sets behind a sequence: SCS designates one, and RIS and DECSTR set all back. */
static inline struct csicodec_line_sets csicodec_designated(struct csicodec_line_sets sets, const uint8_t *bytes, size_t len) {
    if ((len == 2 && bytes[1] == 'c') || (len == 4 && !memcmp(bytes + 1, "[!p", 3))) memset(&sets, 0, sizeof sets);
    if (len == 3 && bytes[1] == '(') sets.g0 = bytes[2];
    if (len == 3 && bytes[1] == ')') sets.g1 = bytes[2];
    return sets;
}

/* Puts what designates and shifts the sets in ahead of the look at the front of what waits; where it begins. */
static inline size_t csicodec_put_sets(struct csicodec_lines *lines) {
    struct csicodec_line_sets sets = lines->sets;
    size_t from = lines->begin - lines->look;
    if (sets.is_shifted) lines->held[--from] = 0x0e;
    if (sets.g1 == '0' || sets.g1 == 'A') lines->held[--from] = sets.g1, lines->held[--from] = ')', lines->held[--from] = 0x1b;
    if (sets.g0 == '0' || sets.g0 == 'A') lines->held[--from] = sets.g0, lines->held[--from] = '(', lines->held[--from] = 0x1b;
    return from;
}

/* Notes that lines are whole up to here, and the sets there. */
static inline void csicodec_line_ends(struct csicodec_lines *lines, size_t whole, struct csicodec_line_sets sets) {
    lines->whole = whole;
    lines->sets_whole = sets;
    lines->within |= lines->behind;
    lines->behind = 0;
}

/* Goes on over a span of text of so many bytes; how many of them it used. */
static inline size_t csicodec_span_of_text(struct csicodec_lines *lines, const uint8_t *bytes, size_t len) {
    struct csicodec_line_sets before = lines->sets_behind;
    const uint8_t *newline;
    size_t last = len;
    if (lines->is_title) return len;
    lines->sets_behind = csicodec_shifted(before, bytes, len);
    if (lines->keeps) return len;
    if (lines->by_one) {
        newline = (const uint8_t *)memchr(bytes, '\n', len);
        if (!newline) return len;
        last = (size_t)(newline - bytes) + 1;
        lines->sets_behind = csicodec_shifted(before, bytes, last);
        csicodec_line_ends(lines, lines->spanned + last, lines->sets_behind);
        return last;
    }
    while (last && bytes[last - 1] != '\n') last--;
    if (last) csicodec_line_ends(lines, lines->spanned + last, csicodec_shifted(before, bytes, last));
    return len;
}

/* Goes on over a control of so many bytes, and notes what it leaves. */
static inline void csicodec_span_of_control(struct csicodec_lines *lines, uint32_t kind, const uint8_t *bytes, size_t len) {
    lines->is_title = kind == CSICODEC_SPAN_ESC && len == 2 && bytes[1] == 'k';
    if (lines->is_title || (kind != CSICODEC_SPAN_CSI && kind != CSICODEC_SPAN_ESC)) return;
    lines->keeps = csicodec_keeps(bytes, len, lines->keeps);
    lines->sets_behind = csicodec_designated(lines->sets_behind, bytes, len);
    lines->behind = 1;
}

/* The most bytes that a control sequence may have, as for csicodec_html. */
enum { CSICODEC_LINES_LIMIT = 65536 };

/* Goes on over the spans that are whole now; one by one, up to the end of a line. */
static inline void csicodec_span_lines(struct csicodec_lines *lines) {
    while (lines->spanned < lines->end && !(lines->by_one && lines->whole > lines->begin)) {
        const uint8_t *bytes = lines->held + lines->spanned;
        size_t len = lines->end - lines->spanned;
        struct csicodec_spanned span;
        if (csicodec_waits(CSICODEC_LINES_LIMIT, bytes, len, lines->looked)) {
            lines->looked = len;
            return;
        }
        span = csicodec_span(lines->mode, CSICODEC_LINES_LIMIT, bytes, len);
        lines->looked = span.status == CSICODEC_OK ? 0 : len;
        if (span.status != CSICODEC_OK) return;
        if (span.kind == CSICODEC_SPAN_TEXT) span.used = csicodec_span_of_text(lines, bytes, span.used);
        else csicodec_span_of_control(lines, span.kind, bytes, span.used);
        lines->mode = span.mode;
        lines->spanned += span.used;
    }
}

/* Begins anew at the front of what waits, which is the beginning of a line. */
static inline void csicodec_span_anew(struct csicodec_lines *lines) {
    lines->spanned = lines->whole = lines->begin;
    lines->sets_behind = lines->sets_whole = lines->sets;
    lines->looked = 0;
    lines->mode = CSICODEC_FILTER_TEXT;
    lines->is_title = lines->keeps = lines->within = lines->behind = 0;
}

/* Gathers the sequences of the lines that were written, behind what set their look, in front of "\nX". It begins one byte to the left, where
 * there is room, since it may be so much longer than the lines; then it is put where the lines end. */
static inline void csicodec_gather(struct csicodec_lines *lines) {
    uint8_t *held = lines->held;
    size_t at = lines->begin, to = lines->begin - 1;
    uint32_t mode = CSICODEC_FILTER_TEXT;
    memmove(held + to - lines->look, held + at - lines->look, lines->look);
    while (at < lines->whole) {
        struct csicodec_spanned span = csicodec_span(mode, CSICODEC_LINES_LIMIT, held + at, lines->whole - at);
        int is_title = span.kind == CSICODEC_SPAN_ESC && span.used == 2 && held[at + 1] == 'k';
        if ((span.kind == CSICODEC_SPAN_CSI || span.kind == CSICODEC_SPAN_ESC) && !is_title) {
            memmove(held + to, held + at, span.used);
            to += span.used;
        }
        mode = span.mode, at += span.used;
    }
    held[to] = '\n', held[to + 1] = 'X';
    to += 2;
    lines->unsettled = to - (lines->begin - 1 - lines->look);
    memmove(held + lines->whole - lines->unsettled, held + to - lines->unsettled, lines->unsettled);
}

/* Takes the sequences of the lines that were written into the look: what stands ahead of X in the last line, as the library writes it. */
static inline int csicodec_settle(struct csicodec_lines *lines) {
    struct csicodec_stripped text;
    size_t from, to;
    if (!lines->unsettled) return 1;
    text = csicodec_overwrite(1, lines->held + lines->begin - lines->unsettled, lines->unsettled, lines->out, lines->out_room);
    if (!csicodec_is_out(lines, text)) return 0;
    for (from = text.needed; from && lines->out[from - 1] != '\n';) from--;
    for (to = from; to < text.needed && lines->out[to] != 'X';) to++;
    if (to - from >= CSICODEC_LOOK - 7) return lines->status = CSICODEC_MEMORY, 0;
    lines->look = to - from;
    memcpy(lines->held + lines->begin - lines->look, lines->out + from, lines->look);
    lines->unsettled = 0;
    return 1;
}

/* Writes the whole lines; whether it did. */
static inline int csicodec_write_lines(struct csicodec_lines *lines, csicodec_writer *write, void *user) {
    size_t from = csicodec_put_sets(lines);
    struct csicodec_stripped text = csicodec_text_of_lines(lines, lines->held + from, lines->whole - from);
    if (text.status == CSICODEC_OK && text.needed > lines->out_room && !lines->by_one) {
        lines->by_one = 1;
        csicodec_span_anew(lines);
        return 1;
    }
    if (!csicodec_is_out(lines, text)) return 0;
    write(user, lines->out, text.needed);
    if (lines->within) csicodec_gather(lines);
    else memmove(lines->held + lines->whole - lines->look, lines->held + lines->begin - lines->look, lines->look);
    lines->begin = lines->whole;
    lines->sets = lines->sets_whole;
    lines->within = 0;
    return csicodec_settle(lines);
}

/* Writes the lines that are whole now, and what stands ahead of them; whether it did. */
static inline int csicodec_go_on(struct csicodec_lines *lines, csicodec_writer *write, void *user) {
    int by_lines = !lines->is_page || (!lines->markup.links && !lines->markup.no_overwrite);
    lines->status = CSICODEC_OK;
    lines->held_needed = lines->out_needed = 0;
    if (!lines->is_begun && !csicodec_write_around(lines, 0, write, user)) return 0;
    lines->is_begun = 1;
    if (!csicodec_settle(lines)) return 0;
    while (by_lines) {
        csicodec_span_lines(lines);
        if (lines->whole == lines->begin) break;
        if (!csicodec_write_lines(lines, write, user)) return 0;
    }
    return 1;
}

/* Takes as many of the bytes as there is room for to those that wait; how many. */
static inline size_t csicodec_hold(struct csicodec_lines *lines, const uint8_t *bytes, size_t len) {
    size_t moved = lines->begin - CSICODEC_LOOK, room;
    if (moved && len > lines->held_room - lines->end) {
        memmove(lines->held + CSICODEC_LOOK - lines->look, lines->held + lines->begin - lines->look, lines->end - lines->begin + lines->look);
        lines->begin -= moved, lines->end -= moved, lines->spanned -= moved, lines->whole -= moved;
    }
    room = lines->held_room > lines->end ? lines->held_room - lines->end : 0;
    if (len > room) len = room;
    if (len) memcpy(lines->held + lines->end, bytes, len);
    lines->end += len;
    return len;
}

/* Takes the next bytes, and writes the lines that are whole now. It returns how many bytes it took: all of them, unless lines->status says
 * why it stopped. After CSICODEC_MEMORY nothing is lost, and the others may be fed again, in more room if that lacked. */
static inline size_t csicodec_feed_lines(struct csicodec_lines *lines, const uint8_t *bytes, size_t len, csicodec_writer *write, void *user) {
    size_t at = 0, more;
    while (csicodec_go_on(lines, write, user) && at < len) {
        more = csicodec_hold(lines, bytes + at, len - at);
        if (!more) {
            lines->status = CSICODEC_MEMORY;
            lines->held_needed = lines->end + 1;
            break;
        }
        at += more;
    }
    return at;
}

/* The end of the stream: writes the last line, and what stands behind a page. It returns the status. After CSICODEC_OK the stream is as new,
 * and after CSICODEC_MEMORY the same call may be made again. */
static inline uint32_t csicodec_finish_lines(struct csicodec_lines *lines, csicodec_writer *write, void *user) {
    struct csicodec_stripped text;
    size_t from;
    if (!csicodec_go_on(lines, write, user)) return lines->status;
    from = csicodec_put_sets(lines);
    text = csicodec_text_of_lines(lines, lines->held + from, lines->end - from);
    if (!csicodec_is_out(lines, text)) return lines->status;
    write(user, lines->out, text.needed);
    lines->look = 0;
    memset(&lines->sets, 0, sizeof lines->sets);
    lines->begin = lines->end = CSICODEC_LOOK;
    csicodec_span_anew(lines);
    if (csicodec_write_around(lines, 1, write, user)) lines->is_begun = lines->by_one = 0;
    return lines->status;
}

#endif
