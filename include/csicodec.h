/* csicodec: a typed codec for the control sequences (CSI) of terminals, for C99 and C++.
 *
 * A control sequence is ESC [, then parameters, then one final byte (ECMA-48, 5.4, in its 7-bit form). It has one or
 * more actions; each action has a text, which is a control sequence of its own, its normal form.
 *
 * No call keeps anything. A call writes its results into room that the caller provides, so there is nothing to free. Room may have
 * a length of 0, and then its pointer may be null. The input and the output of a call must not overlap. Calls share no state, so any
 * thread may make them, but no signal handler. A call frees the memory that it takes from malloc before it returns.
 *
 * Link with -lcsicodec, as `pkg-config --cflags --libs csicodec` says. */
#ifndef CSICODEC_H
#define CSICODEC_H

#include <stddef.h>
#include <stdint.h>

#include "csicodec_kinds.h"
#include "csicodec_names.h"

/* The version of this header. csicodec_version() returns the library's, which must be the same number. */
#define CSICODEC_VERSION "1.27.0"
#define CSICODEC_VERSION_NUMBER 12700

#ifdef __cplusplus
extern "C" {
#endif

/* How a call ended. */
enum csicodec_status {
    /* It is done. */
    CSICODEC_OK = 0,
    /* The bytes don't begin with ESC [. */
    CSICODEC_NOT_CSI = 1,
    /* A byte that can't be in a control sequence. */
    CSICODEC_BAD_BYTE = 2,
    /* A number is above 2^63 - 1. */
    CSICODEC_NUMBER_TOO_LARGE = 3,
    /* The bytes end before the final byte, and more bytes could make them a sequence. */
    CSICODEC_TRUNCATED = 4,
    /* malloc or realloc gave no memory. */
    CSICODEC_MEMORY = 5,
    /* A struct stands for no action: its kind doesn't exist, one of its numbers is out of range, or an unused field isn't 0. Of
     * csicodec_key: it is no key. */
    CSICODEC_NO_ACTION = 6,
    /* An argument is wrong: a mode that isn't in enum csicodec_filter_mode, a limit of 0, a depth that isn't in enum csicodec_depth, a
     * dialect that isn't in enum csicodec_dialect, a choice above 1, colours that are no palette, a struct csicodec_cleaning with a number out of range, or with more
     * bytes held than are passed. */
    CSICODEC_BAD_STATE = 7
};

/* What `first` is for a colour. */
enum csicodec_color {
    /* The terminal's default colour. */
    CSICODEC_COLOR_DEFAULT = 0,
    /* second: a place in the palette, 0 to 255. */
    CSICODEC_COLOR_PALETTE = 1,
    /* red, green, blue and alpha, each 0 to 255; 255 is opaque. */
    CSICODEC_COLOR_TRUE = 2
};

/* `absent` is the sum of these. An absent number is 0. */
enum csicodec_absent {
    /* `first` is absent. */
    CSICODEC_ABSENT_FIRST = 1,
    /* `second` is absent. */
    CSICODEC_ABSENT_SECOND = 2
};

/* The keys that are held while the mouse reports: the sum of these. */
enum csicodec_modifiers {
    CSICODEC_MODIFIERS_SHIFT = 2,
    CSICODEC_MODIFIERS_ALT = 4,
    CSICODEC_MODIFIERS_CTRL = 8
};

/* How a program wants keys reported (kitty's keyboard protocol): the sum of these. */
enum csicodec_kitty_keyboard_flags {
    CSICODEC_KITTY_KEYBOARD_FLAGS_DISAMBIGUATE_ESCAPE_CODES = 1,
    CSICODEC_KITTY_KEYBOARD_FLAGS_REPORT_EVENT_TYPES = 2,
    CSICODEC_KITTY_KEYBOARD_FLAGS_REPORT_ALTERNATE_KEYS = 4,
    CSICODEC_KITTY_KEYBOARD_FLAGS_REPORT_ALL_KEYS_AS_ESCAPE_CODES = 8,
    CSICODEC_KITTY_KEYBOARD_FLAGS_REPORT_ASSOCIATED_TEXT = 16
};

/* The item of XTSMGRAPHICS: `first` of CSICODEC_DEVICE_XT_SM_GRAPHICS. Other numbers are allowed. */
enum csicodec_xt_sm_graphics_item {
    CSICODEC_XT_SM_GRAPHICS_ITEM_NUMBER_OF_COLOR_REGISTERS = 1,
    CSICODEC_XT_SM_GRAPHICS_ITEM_SIXEL_GRAPHICS_GEOMETRY = 2,
    CSICODEC_XT_SM_GRAPHICS_ITEM_REGIS_GRAPHICS_GEOMETRY = 3
};

/* A place among the tokens, in 8 bytes: size_t, if that has so many. */
#if SIZE_MAX < UINT64_MAX
typedef uint64_t csicodec_place;
#else
typedef size_t csicodec_place;
#endif

/* An action, in 64 bytes without gaps. */
struct csicodec_action {
    /* enum csicodec_kind: which action. The comment at the kind says what the other fields hold; fields that it doesn't name are 0. */
    uint32_t kind;
    /* Of CSICODEC_UNSPECIFIED, the final character, such as 'm'. */
    uint32_t final_char;
    /* A count, a line, a column, a mode, the number of an enumeration: the kind says what. */
    int64_t first;
    int64_t second;
    /* Of an area, its first and last lines and columns, from 1. */
    uint32_t top, left, bottom, right;
    /* The tokens of the action are params[place] to params[place + len - 1]. */
    csicodec_place place;
    csicodec_place len;
    /* Of a true colour. */
    uint8_t red, green, blue, alpha;
    /* Of a mouse report, enum csicodec_modifiers and enum csicodec_mouse_button. */
    uint16_t modifiers;
    uint8_t button;
    /* enum csicodec_absent. */
    uint8_t absent;
};

/* A token of a list, in 16 bytes without gaps. A terminal's extensions are tokens too, and so are the values of graphics,
 * which are numbers. */
struct csicodec_param {
    /* 0 for a number, 1 for a byte such as ';'. */
    uint64_t kind;
    int64_t value;
};

struct csicodec_normalised {
    /* CSICODEC_OK to CSICODEC_MEMORY. */
    uint32_t status;
    /* Of a refused sequence, where it begins. */
    size_t start;
    /* Of a refused sequence, the place of the fault, counted from start. */
    size_t at;
    /* Of CSICODEC_OK, the length of the normal form. */
    size_t needed;
};

/* Writes the normal form of len bytes, which are control sequences one after the other: one sequence for each action. It is
 * written to out if needed <= room; otherwise nothing is written, and a second call with that much room writes it. After a
 * refusal nothing is written. */
struct csicodec_normalised csicodec_normalise(const uint8_t *bytes, size_t len, uint8_t *out, size_t room);

struct csicodec_front {
    /* CSICODEC_OK to CSICODEC_MEMORY. */
    uint32_t status;
    /* Of a refused sequence, the place of the fault. */
    size_t at;
    /* Of CSICODEC_OK, how many bytes the sequence has. */
    size_t used;
    /* Of CSICODEC_OK, how many actions it has: 1 or more. */
    size_t actions;
    /* Of CSICODEC_OK, how many tokens belong to them. */
    size_t params;
};

/* Writes the actions of the control sequence at the front of len bytes, and their tokens, as many as there is room for. If
 * the answer's actions > actions_room or params > params_room, a second call with more room writes all. A sequence has no more
 * actions, and no more tokens, than bytes. Continue at bytes + used. After a refusal nothing is written, except that after
 * CSICODEC_MEMORY the room may hold the first actions. */
struct csicodec_front csicodec_next(const uint8_t *bytes, size_t len, struct csicodec_action *actions, size_t actions_room,
                                    struct csicodec_param *params, size_t params_room);

/* As csicodec_next, with the actions that terminals take the sequence for. They are others only where csicodec_next reads nothing of the
 * parameters, or less (docs/DIFFERENCES.md, "As terminals take it"):
 *
 * - An unknown attribute is a CSICODEC_UNSPECIFIED of its own, and the next one goes on.
 * - A parameter that is left out is the default, and parameters that the function doesn't have are passed over.
 * - A number from 2^32 on is 4294967295.
 * - Of modes with another byte than ';' between or behind them none is set.
 *
 * Controls among the bytes, which are events of their own, are passed over; `used` and `at` don't count them. So the bytes may be those of
 * an event. It takes memory. The events of csicodec_stream.h have these actions where their stream is told so. */
struct csicodec_front csicodec_terminal_actions(const uint8_t *bytes, size_t len, struct csicodec_action *actions, size_t actions_room,
                                                struct csicodec_param *params, size_t params_room);

struct csicodec_encoded {
    /* CSICODEC_OK, CSICODEC_MEMORY or CSICODEC_NO_ACTION. */
    uint32_t status;
    /* Of CSICODEC_NO_ACTION, the first of the structs that stands for no action. */
    size_t at;
    /* Of CSICODEC_OK, the length of the texts. */
    size_t needed;
};

/* Writes the texts of count actions, joined; their tokens are among params_count params. They are written to out if
 * needed <= room; otherwise, and after a refusal, nothing is written. */
struct csicodec_encoded csicodec_encode(const struct csicodec_action *actions, size_t count,
                                        const struct csicodec_param *params, size_t params_count, uint8_t *out, size_t room);

struct csicodec_judged {
    /* CSICODEC_OK, CSICODEC_MEMORY or CSICODEC_NO_ACTION. */
    uint32_t status;
    /* Of CSICODEC_OK, 1 if the action is read back, and 0 if it isn't. */
    uint32_t canonical;
};

/* Whether the text of an action is read as this action and nothing else. This holds for each action of csicodec_next, except
 * left and right margins from 1 to 4294967295 (DECSLRM) and requests for the terminal's parameters (DECREQTPARM). */
struct csicodec_judged csicodec_is_canonical(const struct csicodec_action *action, const struct csicodec_param *params,
                                             size_t params_count);

/* How many values a row of docs/SEQUENCES.md has at most. */
#define CSICODEC_KNOWN_VALUES 12

/* What is known of a control sequence without an action, in 56 bytes without gaps. */
struct csicodec_known {
    /* enum csicodec_known_kind; 0 if no row reads the list. */
    uint32_t kind;
    /* How many values there are. */
    uint32_t count;
    /* The values, in the order of the comment at the kind, with what stands for each number that was left out; 0 behind them. */
    uint32_t values[CSICODEC_KNOWN_VALUES];
};

/* The row of docs/SEQUENCES.md that reads the list of an action of kind CSICODEC_UNSPECIFIED, and its values; the tokens are among
 * params_count params. Of any other struct, and if they aren't all there, the answer is zeros. It takes no memory.
 *
 *     struct csicodec_known known = csicodec_known(&action, params, params_count);
 *     if (known.kind == CSICODEC_KNOWN_DECSED) erase_unprotected(known.values[0]);
 */
struct csicodec_known csicodec_known(const struct csicodec_action *action, const struct csicodec_param *params,
                                     size_t params_count);

/* What the bytes of a stream up to a place have left open. */
enum csicodec_filter_mode {
    /* Nothing: characters are shown. A stream begins in this mode. */
    CSICODEC_FILTER_TEXT = 0,
    /* An operating system command, OSC (ECMA-48, 8.3.89). */
    CSICODEC_FILTER_OSC = 1,
    /* A device control string, DCS (ECMA-48, 8.3.27). */
    CSICODEC_FILTER_DCS = 2,
    /* SOS, PM or APC (ECMA-48, 5.6). */
    CSICODEC_FILTER_STR = 3,
    /* A malformed control sequence, up to its final byte. */
    CSICODEC_FILTER_BAD_CSI = 4,
    /* A malformed escape sequence, up to its final byte. */
    CSICODEC_FILTER_BAD_ESC = 5
};

struct csicodec_filtered {
    /* CSICODEC_OK, CSICODEC_MEMORY or CSICODEC_BAD_STATE. */
    uint32_t status;
    /* Of CSICODEC_OK, enum csicodec_filter_mode: the mode of the next step. */
    uint32_t mode;
    /* Of CSICODEC_OK, how many of the bytes were used. */
    size_t used;
    /* Of CSICODEC_OK, the length of the text. */
    size_t needed;
};

/* A step of a filter over any terminal stream: each control sequence of at most limit bytes is written in its normal form, and
 * every other byte as it was. The caller keeps the state of the filter: the mode, and the bytes that no step has used.
 *
 * The text of all spans that no later byte can change is written to out if needed <= room; otherwise nothing is written, and the
 * same step with that much room writes it. The bytes from `used` on depend on what follows: they are fewer than limit, or than 3.
 * Pass them again, before the bytes that come next, with the answer's mode. At the end of the stream write them unchanged.
 * The program `csicodec filter` has a limit of 65536. It doesn't matter how a stream is cut into steps. */
struct csicodec_filtered csicodec_filter(uint32_t mode, size_t limit, const uint8_t *bytes, size_t len, uint8_t *out,
                                         size_t room);

/* A step as csicodec_filter's, of a filter that writes each control sequence in the shortest spelling that it finds, with the same
 * actions, and as it came if none is shorter. */
struct csicodec_filtered csicodec_compact(uint32_t mode, size_t limit, const uint8_t *bytes, size_t len, uint8_t *out,
                                          size_t room);

/* As csicodec_compact, with semicolons in foreground and background colours (38;2;R;G;B), even if that is no shorter: for terminals
 * and tools that don't know colons. A colour with an alpha has no such spelling, and stays as it came. */
struct csicodec_filtered csicodec_compact_semicolons(uint32_t mode, size_t limit, const uint8_t *bytes, size_t len, uint8_t *out,
                                                     size_t room);

/* As csicodec_encode, but a text that is no longer, with attributes side by side in one sequence. It has the same actions, if each
 * of them is read back from its own text (csicodec_is_canonical). */
struct csicodec_encoded csicodec_encode_compact(const struct csicodec_action *actions, size_t count,
                                                const struct csicodec_param *params, size_t params_count, uint8_t *out, size_t room);

struct csicodec_stripped {
    /* CSICODEC_OK or CSICODEC_MEMORY; but from csicodec_strip and csicodec_clean also CSICODEC_BAD_STATE. */
    uint32_t status;
    /* Of CSICODEC_OK, the length of what is left. */
    size_t needed;
};

/* Writes the plain text of len untrusted bytes, which are a whole text: no control but newline and tab. It is UTF-8; bytes that aren't
 * UTF-8 become U+FFFD. It is written to out if needed <= room; otherwise nothing is written. */
struct csicodec_stripped csicodec_strip(const uint8_t *bytes, size_t len, uint8_t *out, size_t room);

/* As csicodec_strip, with the known attributes (SGR), except the one that conceals text (8), other fonts (11 to 20), and 26, 50 to 52, 54 and 60 to 65,
 * in their normal form; if the last of them isn't a reset, a reset ends the text, and so it is where RIS or DECSTR stands. DECRC brings back no
 * attributes that DECSC saved. */
struct csicodec_stripped csicodec_clean(const uint8_t *bytes, size_t len, uint8_t *out, size_t room);

/* Which colours stay. */
enum csicodec_depth {
    /* All, as they are. */
    CSICODEC_DEPTH_FULL = 0,
    /* The 256 places of the palette; a true colour becomes the nearest place of xterm's palette from 16 on. */
    CSICODEC_DEPTH_PALETTE = 1,
    /* The first 16 places; every other colour becomes the nearest of them. */
    CSICODEC_DEPTH_ANSI = 2
};

/* As csicodec_clean, with the colours of a depth (enum csicodec_depth), and with links if `links` is 1, without if it is 0. A link is
 * an OSC 8 to a host by http or https whose address is at most 2,083 visible ASCII characters, without a user's name, and its parameters
 * at most 256. One with another address is written without it, and ends the link before it. If a link is open at the end, a link without
 * an address closes it. For another depth, and for links above 1, the status is CSICODEC_BAD_STATE. */
struct csicodec_stripped csicodec_clean_with(uint32_t depth, uint32_t links, const uint8_t *bytes, size_t len, uint8_t *out,
                                             size_t room);

/* What a page of HTML is asked to be. Zeros ask for what `csicodec html` writes without options; a number above 1 is CSICODEC_BAD_STATE. */
struct csicodec_markup {
    /* 1: links (OSC 8) become links, those that csicodec_clean_with keeps. Text is then kept as with no_overwrite. */
    uint32_t links;
    /* 1: attributes become CSS classes in place of styles. A page has the style sheet, a fragment doesn't. */
    uint32_t classes;
    /* 1: a piece for a <pre> in a page of your own. */
    uint32_t fragment;
    /* 1: text stays that a carriage return or an erase would hide. */
    uint32_t no_overwrite;
};

/* Writes len untrusted bytes, which are a whole text, as a page of HTML: text, escaped, and its styles. Nothing of them gets into a tag but
 * addresses, with links. colors are the palette, 16 numbers 0xRRGGBB, or 18 with the page's own colour of text and its background; without
 * any it is the one that the program takes, and any other count is CSICODEC_BAD_STATE. The page is UTF-8, and written to out if needed <= room;
 * otherwise nothing is written. */
struct csicodec_stripped csicodec_html(const struct csicodec_markup *markup, const uint32_t *colors, size_t count, const uint8_t *bytes,
                                       size_t len, uint8_t *out, size_t room);

/* Writes each line of len untrusted bytes, which are a whole text, as it stands when it ends: what a carriage return, a backspace or an
 * erase hides in it is gone. Once a line has more than 512 columns, nothing in it but blanks is overwritten or erased. It is plain
 * text as csicodec_strip's or, if `styles` is 1, has the sequences (SGR) that set how characters look, and at the end of each line none is
 * set. It is written to out if needed <= room; otherwise nothing is written. For styles above 1 the status is CSICODEC_BAD_STATE. */
struct csicodec_stripped csicodec_overwrite(uint32_t styles, const uint8_t *bytes, size_t len, uint8_t *out, size_t room);

/* Writes a whole stream of len bytes in fewer, as `csicodec compact` does, with semicolons if `semicolons` is 1 (csicodec_compact_semicolons):
 * in the place of control sequences that stand side by side one may stand that is read as the same actions. It is never longer, and written to
 * out if needed <= room; otherwise nothing is written. For semicolons above 1 the status is CSICODEC_BAD_STATE. */
struct csicodec_stripped csicodec_compact_whole(uint32_t semicolons, const uint8_t *bytes, size_t len, uint8_t *out, size_t room);

/* The state between two steps over untrusted text, in 16 bytes without gaps. At the beginning all numbers are 0. */
struct csicodec_cleaning {
    /* enum csicodec_filter_mode. */
    uint32_t mode;
    /* How text is read: 1 if a title of tmux or screen (ESC k) is open, and more if graphic sets were designated or shifted in. */
    uint32_t titled;
    /* 1 if a style is open, which needs a reset at the end, otherwise 0. */
    uint32_t styled;
    /* How many of the bytes that are passed again are the beginning of a character: the first 0 to 3. */
    uint32_t held;
};

struct csicodec_cleaned {
    /* CSICODEC_OK, CSICODEC_MEMORY or CSICODEC_BAD_STATE. */
    uint32_t status;
    /* Of CSICODEC_OK, the state of the next step, or of the end. */
    struct csicodec_cleaning state;
    /* Of CSICODEC_OK, how many of the bytes were used. */
    size_t used;
    /* Of CSICODEC_OK, the length of the text. */
    size_t needed;
};

/* A step of csicodec_strip over a stream as it comes. The caller keeps the state: a struct, and the bytes that no step has used.
 *
 *     struct csicodec_cleaning state = {0};
 *     uint8_t bytes[65536 + 4096], out[4 * sizeof bytes];
 *     size_t held = 0;
 *     ssize_t got;
 *     while ((got = read(0, bytes + held, sizeof bytes - held)) > 0) {
 *         held += (size_t)got;
 *         struct csicodec_cleaned step = csicodec_strip_step(&state, bytes, held, out, sizeof out);
 *         if (step.status != CSICODEC_OK) return 3;
 *         fwrite(out, 1, step.needed, stdout), fflush(stdout);
 *         state = step.state;
 *         memmove(bytes, bytes + step.used, held -= step.used);
 *     }
 *     fwrite(out, 1, csicodec_clean_end(&state, bytes, held, out, sizeof out).needed, stdout);
 *
 * The text of all bytes that no later byte can change is written to out if needed <= room; otherwise nothing is written, and the same
 * step with that much room writes it. It is at most three times as long as the bytes. The bytes from `used` on depend on what follows:
 * they are at most 3 of a character and fewer than 65536 of a control sequence. Pass them again, before the bytes that come next, with
 * the answer's state. The status is CSICODEC_BAD_STATE for a state with a number out of range, or with more bytes held than there are;
 * never for the answer's state with the bytes from `used` on.
 *
 * The steps and the end write what csicodec_strip writes for the whole stream, however it is cut into steps. A sequence that comes
 * byte by byte is read again in each step, unless csicodec_waits says that the step can wait. */
struct csicodec_cleaned csicodec_strip_step(const struct csicodec_cleaning *state, const uint8_t *bytes, size_t len, uint8_t *out,
                                            size_t room);

/* A step of csicodec_clean_with without links, as csicodec_strip_step, but its text may be longer. Pass the same depth in each step; for
 * an unknown depth the status is CSICODEC_BAD_STATE. There are no steps with links, whose addresses would have to be kept between two steps.
 * Nor does the state have a place for the styles that DECSC saves: DECRC brings them back in csicodec_clean_with, and not here. */
struct csicodec_cleaned csicodec_clean_step(uint32_t depth, const struct csicodec_cleaning *state, const uint8_t *bytes, size_t len,
                                            uint8_t *out, size_t room);

/* Writes the end of a stream, for the len bytes that the last step didn't use: U+FFFD for the beginning of a character, nothing for
 * that of a sequence, and a reset if a style is open. It is written if needed <= room, and after a step it is at most 7 bytes long. */
struct csicodec_stripped csicodec_clean_end(const struct csicodec_cleaning *state, const uint8_t *bytes, size_t len, uint8_t *out,
                                            size_t room);

enum csicodec_span_kind {
    /* Characters, C0 controls other than ESC, and DEL. */
    CSICODEC_SPAN_TEXT = 0,
    /* One whole control sequence. */
    CSICODEC_SPAN_CSI = 1,
    /* One whole escape sequence: ESC, at most one intermediate byte (20 to 2f), and a final byte (30 to 7e). */
    CSICODEC_SPAN_ESC = 2,
    /* A control string (ECMA-48, 5.6), or as much of it as there is: OSC, DCS, SOS, PM or APC, with its end. */
    CSICODEC_SPAN_STRING = 3,
    /* A malformed control, or as much of it as there is. A terminal may still carry it out. */
    CSICODEC_SPAN_OTHER = 4
};

struct csicodec_spanned {
    /* CSICODEC_OK, CSICODEC_TRUNCATED or CSICODEC_BAD_STATE. */
    uint32_t status;
    /* Of CSICODEC_OK, enum csicodec_span_kind. */
    uint32_t kind;
    /* Of CSICODEC_OK, enum csicodec_filter_mode: the mode behind the span. */
    uint32_t mode;
    /* Of CSICODEC_OK, how many bytes the span has: 1 or more. */
    size_t used;
};

/* The span at the front of len bytes of a stream, in the mode behind the bytes before: one text, one control or one string, as long
 * as possible. A control sequence of more than limit bytes is CSICODEC_SPAN_OTHER. CSICODEC_TRUNCATED says that the span depends on
 * what follows: there are fewer bytes than limit, or than 3; pass them again with more bytes behind them. Text and strings end
 * where the bytes end, and may continue in the next ones. It takes no memory. */
struct csicodec_spanned csicodec_span(uint32_t mode, size_t limit, const uint8_t *bytes, size_t len);

enum csicodec_event_kind {
    /* No event yet: pass the bytes again, before the bytes that come next. */
    CSICODEC_EVENT_NONE = 0,
    /* Characters, C0 controls other than ESC, and DEL. A UTF-8 character is cut only by a control within it. */
    CSICODEC_EVENT_TEXT = 1,
    /* A control sequence: its actions are in the caller's room. */
    CSICODEC_EVENT_ACTIONS = 2,
    /* An escape sequence. */
    CSICODEC_EVENT_ESC = 3,
    /* A piece of the data of a control string, without what opens and closes it. */
    CSICODEC_EVENT_STRING = 4,
    /* A malformed control, or a piece of it. */
    CSICODEC_EVENT_OTHER = 5,
    /* A C0 control within a control sequence; from csicodec_next_event it is a text of one byte. */
    CSICODEC_EVENT_CONTROL = 6
};

/* What csicodec_event returns. (struct csicodec_event is what csicodec_next_event fills, in csicodec_stream.h.) */
struct csicodec_told {
    /* CSICODEC_OK, CSICODEC_TRUNCATED, CSICODEC_MEMORY or CSICODEC_BAD_STATE. */
    uint32_t status;
    /* Of CSICODEC_OK, enum csicodec_event_kind. */
    uint32_t kind;
    /* Of CSICODEC_OK and CSICODEC_TRUNCATED, the mode and `looked` of the next call. */
    uint32_t mode;
    size_t looked;
    /* Of CSICODEC_OK, how many bytes the event has: 0 of a control within a control sequence, which is bytes[looked - 1]. */
    size_t used;
    /* Of CSICODEC_EVENT_ACTIONS, the number of actions and of tokens. */
    size_t actions;
    size_t params;
};

/* The event at the front of len bytes of a stream, whose state the caller keeps: the mode, how many bytes of a control sequence at the
 * front were looked at, and the bytes that wait. At the beginning both numbers are 0. After CSICODEC_TRUNCATED pass the same bytes with
 * more behind them, otherwise what is behind the event. Of a control sequence the actions and tokens are written, as many as there is
 * room for; the same call with more room writes all. After CSICODEC_MEMORY the state is as before. The status is CSICODEC_BAD_STATE for an unknown mode, a limit of 0, and a `looked` above 0
 * if the bytes don't begin with ESC [ or are fewer. */
struct csicodec_told csicodec_event(uint32_t mode, size_t limit, size_t looked, const uint8_t *bytes, size_t len,
                                    struct csicodec_action *actions, size_t actions_room, struct csicodec_param *params,
                                    size_t params_room);

/* Who wrote a stream. */
enum csicodec_dialect {
    /* A program, for a terminal: the events are those of csicodec_event. */
    CSICODEC_DIALECT_OUTPUT = 0,
    /* A terminal, for a program: keys, the mouse and answers. */
    CSICODEC_DIALECT_INPUT = 1,
    /* The same while mode 1005 is set: the three characters of a mouse report are in UTF-8. */
    CSICODEC_DIALECT_UTF8_INPUT = 2
};

/* The events that only a terminal sends. Their numbers follow those of enum csicodec_event_kind. */
enum csicodec_input_kind {
    /* SS3 (ESC O) and a character, ' ' to '~': a key of the keypad, an arrow, or F1 to F4. */
    CSICODEC_INPUT_SS3 = 7,
    /* ESC [ [ and a character, ' ' to '~': F1 to F5 of Linux' console are 'A' to 'E'. */
    CSICODEC_INPUT_LINUX = 8,
    /* ESC [, a number of one digit or two, and $: a key with shift, of rxvt. */
    CSICODEC_INPUT_RXVT = 9,
    /* ESC [ M and three characters, which are the last of its bytes: the button, the column and the line, each with 32 added, in bytes
     * or, of CSICODEC_DIALECT_UTF8_INPUT, in UTF-8. */
    CSICODEC_INPUT_MOUSE = 10,
    /* ESC and a character: a key with alt. */
    CSICODEC_INPUT_ALT = 11,
    /* ESC alone. */
    CSICODEC_INPUT_ESCAPE = 12,
    /* A key with modifiers that xterm sends as CSI number ; modifiers final, in another form: ESC O 5 P (Konsole), ESC O 1 ; 5 P (VTE before
     * 0.38), ESC ESC [ A, ESC ESC O A and ESC ESC [ 5 ~ (rxvt, iTerm2), the last three with alt. csicodec_key says which it is. */
    CSICODEC_INPUT_MODIFIED = 13,
    /* ESC [ I: the terminal got the focus (mode 1004). That it lost it is CSICODEC_KNOWN_FOCUS_LOST. */
    CSICODEC_INPUT_FOCUS_GAINED = 14
};

struct csicodec_received {
    /* CSICODEC_OK, CSICODEC_TRUNCATED, CSICODEC_MEMORY or CSICODEC_BAD_STATE. */
    uint32_t status;
    /* Of CSICODEC_OK, enum csicodec_event_kind or enum csicodec_input_kind. */
    uint32_t kind;
    /* Of CSICODEC_OK, and of CSICODEC_TRUNCATED from csicodec_input, the mode and `looked` of the next call. */
    uint32_t mode;
    /* The character of CSICODEC_INPUT_SS3, CSICODEC_INPUT_LINUX and CSICODEC_INPUT_ALT, of the last of these a code point; the last one of
     * CSICODEC_INPUT_MODIFIED; the number of CSICODEC_INPUT_RXVT, 0 to 99; the control of CSICODEC_EVENT_CONTROL. */
    uint32_t value;
    size_t looked;
    /* Of CSICODEC_OK, how many bytes the event has: 0 of a control within a control sequence. */
    size_t used;
    /* Of CSICODEC_EVENT_ACTIONS, the number of actions and of tokens. */
    size_t actions;
    size_t params;
};

/* The event at the front of len bytes in a dialect (enum csicodec_dialect), as csicodec_event returns those of output, with the same
 * state. A string and what is malformed come with all of their bytes. The status is CSICODEC_BAD_STATE for an unknown dialect too.
 *
 *     for (;;) {
 *         struct csicodec_received event = csicodec_input(CSICODEC_DIALECT_INPUT, mode, 4096, looked, bytes + at, held - at,
 *                                                         actions, 32, params, 32);
 *         if (event.status == CSICODEC_OK || event.status == CSICODEC_TRUNCATED) mode = event.mode, looked = event.looked;
 *         if (event.status != CSICODEC_OK) break;
 *         carry_out(&event, bytes + at);
 *         at += event.used;
 *     }
 *
 * An ESC at the end waits, as it may be a key or the first byte of another: see csicodec_pause. */
struct csicodec_received csicodec_input(uint32_t dialect, uint32_t mode, size_t limit, size_t looked, const uint8_t *bytes, size_t len,
                                        struct csicodec_action *actions, size_t actions_room, struct csicodec_param *params,
                                        size_t params_room);

/* What len bytes of input that wait are if no more came in time, which the caller decides: CSICODEC_INPUT_ESCAPE for ESC alone, or ahead of
 * another ESC or of a character that isn't whole, CSICODEC_INPUT_ALT for ESC and one character of ASCII, CSICODEC_INPUT_SS3 for ESC O and a digit.
 * `used` bytes are that; those behind them go on waiting in mode 0. Otherwise the status is CSICODEC_TRUNCATED, and all of
 * them go on waiting in their state. */
struct csicodec_received csicodec_pause(const uint8_t *bytes, size_t len);

/* What happens to a key. */
enum csicodec_key_event {
    /* It goes down. All encodings but kitty's and Win32's know only this. */
    CSICODEC_KEY_EVENT_PRESS = 0,
    /* It is held down. */
    CSICODEC_KEY_EVENT_REPEAT = 1,
    /* It goes up. */
    CSICODEC_KEY_EVENT_RELEASE = 2
};

/* How a terminal said which key it is. */
enum csicodec_key_encoding {
    /* Characters, controls, ESC ahead for alt, SS3 and xterm's control sequences with modifiers. */
    CSICODEC_KEY_ENCODING_LEGACY = 0,
    /* xterm's resource modifyOtherKeys. */
    CSICODEC_KEY_ENCODING_MODIFY_OTHER_KEYS = 1,
    /* kitty's protocol. */
    CSICODEC_KEY_ENCODING_KITTY = 2,
    /* Win32-input-mode, of Windows' console. */
    CSICODEC_KEY_ENCODING_WIN32 = 3,
    /* What rxvt has of its own. */
    CSICODEC_KEY_ENCODING_RXVT = 4,
    /* What Linux' console has of its own. */
    CSICODEC_KEY_ENCODING_LINUX = 5
};

/* What is held down with a key, and the locks that are on: a sum of these. */
enum csicodec_key_modifiers {
    CSICODEC_KEY_MODIFIERS_SHIFT = 1,
    CSICODEC_KEY_MODIFIERS_ALT = 2,
    CSICODEC_KEY_MODIFIERS_CTRL = 4,
    /* The key of Windows, Command of a Mac; xterm's meta. */
    CSICODEC_KEY_MODIFIERS_SUPER = 8,
    CSICODEC_KEY_MODIFIERS_HYPER = 16,
    CSICODEC_KEY_MODIFIERS_META = 32,
    CSICODEC_KEY_MODIFIERS_CAPS_LOCK = 64,
    CSICODEC_KEY_MODIFIERS_NUM_LOCK = 128
};

/* The most characters that a key types. */
#define CSICODEC_TYPED 32

struct csicodec_key {
    /* CSICODEC_OK, CSICODEC_NO_ACTION if it is no key, CSICODEC_TRUNCATED or CSICODEC_MEMORY. */
    uint32_t status;
    /* enum csicodec_key_code. */
    uint32_t code;
    /* The character of CSICODEC_KEY_CHAR, the number of CSICODEC_KEY_F. */
    uint32_t value;
    /* enum csicodec_key_modifiers, enum csicodec_key_event and enum csicodec_key_encoding. */
    uint32_t modifiers;
    uint32_t event;
    uint32_t encoding;
    /* How many characters it types: none if the encoding doesn't say, or it types nothing. */
    size_t typed;
    /* Of CSICODEC_OK, how many bytes it has; of CSICODEC_NO_ACTION how many the event has that is no key, such as an answer, or a
     * sequence up to a control within it. */
    size_t used;
};

/* The key at the front of len bytes of what a terminal sent, in each encoding of enum csicodec_key_encoding, with the code points that it
 * types, which are written to typed if they fit. In text each character is a key. CSICODEC_TRUNCATED says that it depends on what follows.
 *
 *     while (at < held) {
 *         struct csicodec_key key = csicodec_key(1, bytes + at, held - at, typed, CSICODEC_TYPED);
 *         if (key.status == CSICODEC_TRUNCATED || key.status == CSICODEC_MEMORY) break;
 *         if (key.status == CSICODEC_OK && key.code == CSICODEC_KEY_UP) scroll(-1);
 *         at += key.used;
 *     }
 *
 * With a `more` of 1 an ESC at the end waits, as it may be the first byte of another key. With 0, for a caller that waited for some
 * milliseconds, it is a key, and so is ESC with one character. What is no key goes to csicodec_input. */
struct csicodec_key csicodec_key(uint32_t more, const uint8_t *bytes, size_t len, uint32_t *typed, size_t room);

struct csicodec_osc {
    /* enum csicodec_osc_kind: CSICODEC_OSC_UNKNOWN if no command reads it. */
    uint32_t kind;
    /* How many texts stand behind its number, 0 to 2. Fields, with ; between them, are one text. */
    uint32_t texts;
    /* Where the first text begins. Of two it ends before the ; in front of the second one, which ends where the bytes end. */
    size_t first;
    size_t second;
};

/* What an OSC says, by its content: the bytes between ESC ] and what ends it, as csicodec_collect gives them. */
struct csicodec_osc csicodec_osc(const uint8_t *bytes, size_t len);

/* enum csicodec_esc_code: the code of an escape sequence, by its intermediate byte, or 0 for none, and its final byte; 0 if there
 * is no code. */
uint32_t csicodec_esc(uint8_t intermediate, uint8_t final_byte);

/* The version of the library: CSICODEC_VERSION_NUMBER of its own header. */
uint32_t csicodec_version(void);

/* A few words for a status; NULL for another number. */
static inline const char *csicodec_status_text(uint32_t status) {
    switch (status) {
    case CSICODEC_OK: return "done";
    case CSICODEC_NOT_CSI: return "not a sequence";
    case CSICODEC_BAD_BYTE: return "bad byte";
    case CSICODEC_NUMBER_TOO_LARGE: return "number too large";
    case CSICODEC_TRUNCATED: return "truncated";
    case CSICODEC_MEMORY: return "no memory";
    case CSICODEC_NO_ACTION: return "no action";
    case CSICODEC_BAD_STATE: return "bad state";
    default: return NULL;
    }
}

/* The sizes are those of the library. */
#if defined(__cplusplus) && __cplusplus >= 201103L
static_assert(sizeof(struct csicodec_action) == 64, "csicodec_action has 64 bytes");
static_assert(sizeof(struct csicodec_param) == 16, "csicodec_param has 16 bytes");
static_assert(sizeof(struct csicodec_cleaning) == 16, "csicodec_cleaning has 16 bytes");
static_assert(sizeof(struct csicodec_known) == 56, "csicodec_known has 56 bytes");
#else
typedef char csicodec_action_has_64_bytes[sizeof(struct csicodec_action) == 64 ? 1 : -1];
typedef char csicodec_param_has_16_bytes[sizeof(struct csicodec_param) == 16 ? 1 : -1];
typedef char csicodec_cleaning_has_16_bytes[sizeof(struct csicodec_cleaning) == 16 ? 1 : -1];
typedef char csicodec_known_has_56_bytes[sizeof(struct csicodec_known) == 56 ? 1 : -1];
#endif

#include "csicodec_stream.h"
#include "csicodec_lines.h"

#ifdef __cplusplus
}
#endif

#endif
