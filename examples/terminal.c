/* terminal FILE: plays a stream of a terminal of 24 lines and 80 columns, and writes the screen that it leaves: its lines, and where
 * the attributes change the control sequences that set them. */
#include <csicodec.h>
#include <stdio.h>

enum { LINES = 24, COLUMNS = 80, ATTRIBUTES = 13 };

/* The attributes, each by its last action at the place of its kind, and zeros where that is the default. */
struct pen { struct csicodec_action set[ATTRIBUTES]; };
/* A cell that is safe stays in selective erasing. */
struct cell { char character[5]; int safe; struct pen pen; };
static struct cell page[LINES][COLUMNS];
static struct pen pen;
static int line, column, saved_line, saved_column, top, bottom = LINES - 1, safe;
/* The character in UTF-8 that is being read, how many bytes it has so far, and how many are to come. */
static char character[5];
static int have, more;

static int within(int64_t place, int last) { return place < 0 ? 0 : place > last ? last : (int)place; }

static void erase(int row, int from, int end) {
    for (int i = from; i < end; i++) page[row][i] = (struct cell){.character = " "};
}

static void erase_unsafe(int row, int from, int end) {
    for (int i = from; i < end; i++)
        if (!page[row][i].safe) erase(row, i, i + 1);
}

typedef void eraser(int row, int from, int end);

/* Erases from the cursor on (0), up to it (1), or all (2), of its line or of the page. */
static void erase_part(int64_t extent, int of_page, eraser *cells) {
    int here = within(column, COLUMNS - 1);
    for (int i = 0; i < LINES && of_page; i++)
        if (extent == 2 || (extent == 0 && i > line) || (extent == 1 && i < line)) cells(i, 0, COLUMNS);
    if (extent < 3) cells(line, extent == 0 ? here : 0, extent == 1 ? here + 1 : COLUMNS);
}

/* Moves the lines from one on to the bottom margin up by so many, or down. Outside of the margins none is moved. */
static void scroll(int from, int64_t up) {
    if (from < top || from > bottom) return;
    int size = bottom - from + 1, count = within(up < 0 ? -up : up, size);
    memmove(page[from + (up > 0 ? 0 : count)], page[from + (up > 0 ? count : 0)], (size_t)(size - count) * sizeof page[0]);
    for (int i = 0; i < count; i++) erase(up > 0 ? bottom - i : from + i, 0, COLUMNS);
}

static void down(void) {
    if (line == bottom) scroll(top, 1);
    else if (line < LINES - 1) line++;
}

static void put(void) {
    if (column == COLUMNS) column = 0, down();
    page[line][column].pen = pen;
    page[line][column].safe = safe;
    strcpy(page[line][column++].character, character);
}

static void text(uint8_t byte) {
    int shown = byte >= 0xc0 || (byte >= ' ' && byte < 0x7f);
    if (shown) have = 0, more = byte >= 0xf0 ? 3 : byte >= 0xe0 ? 2 : byte >= 0xc0 ? 1 : 0;
    if (shown || (byte >= 0x80 && more && more--)) {
        character[have++] = (char)byte, character[have] = 0;
        if (!more) put();
    }
    if (byte == '\r') column = 0;
    else if (byte == '\n' || byte == '\v' || byte == '\f') down();
    else if (byte == '\b') column = within(column - 1, COLUMNS - 1);
    else if (byte == '\t') column = within((column | 7) + 1, COLUMNS - 1);
}

static void set_attribute(const struct csicodec_action *action) {
    static const struct csicodec_action none;
    pen.set[action->kind - CSICODEC_SGR_INTENSITY] = action->first ? *action : none;
}

/* Moves the rest of a line to the right by so many cells, or to the left. */
static void shift(int row, int from, int64_t right) {
    int size = COLUMNS - from, count = within(right < 0 ? -right : right, size);
    struct cell *here = page[row] + from;
    memmove(here + (right > 0 ? count : 0), here + (right > 0 ? 0 : count), (size_t)(size - count) * sizeof *here);
    if (right > 0) erase(row, from, from + count);
    else erase(row, COLUMNS - count, COLUMNS);
}

/* The same of each line between the margins. */
static void shift_columns(int from, int64_t right) {
    for (int i = top; i <= bottom; i++) shift(i, from, right);
}

/* A rectangle: its first line and column, and those behind it. */
struct area { int top, left, bottom, right; };

static struct area area_of(const uint32_t *sides) {
    return (struct area){within((int64_t)sides[0] - 1, LINES), within((int64_t)sides[1] - 1, COLUMNS),
                         within(sides[2] ? sides[2] : LINES, LINES), within(sides[3] ? sides[3] : COLUMNS, COLUMNS)};
}

static void erase_area(struct area area, eraser *cells) {
    for (int i = area.top; i < area.bottom; i++) cells(i, area.left, area.right);
}

/* Fills a rectangle with a character from U+0020 to U+007E, or from U+00A0 to U+00FF. */
static void fill(struct area area, uint32_t code) {
    struct cell cell = {.safe = safe, .pen = pen};
    if (code < 0x20 || (code > 0x7e && code < 0xa0) || code > 0xff) return;
    if (code < 0x80) cell.character[0] = (char)code;
    else cell.character[0] = (char)(0xc0 | code >> 6), cell.character[1] = (char)(0x80 | (code & 0x3f));
    for (int i = area.top; i < area.bottom; i++)
        for (int j = area.left; j < area.right; j++) page[i][j] = cell;
}

static void copy(struct area area, int64_t to_line, int64_t to_column) {
    static struct cell before[LINES][COLUMNS];
    memcpy(before, page, sizeof page);
    for (int i = area.top; i < area.bottom; i++)
        for (int j = area.left; j < area.right; j++) {
            int64_t row = to_line + i - area.top, place = to_column + j - area.left;
            if (row < LINES && place < COLUMNS) page[row][place] = before[i][j];
        }
}

/* What has no action, by its row of docs/SEQUENCES.md. */
static void carry_out(struct csicodec_known known) {
    const uint32_t *values = known.values;
    int64_t count = values[0] ? values[0] : 1;
    int here = within(column, COLUMNS - 1), inside = line >= top && line <= bottom;
    switch (known.kind) {
    case CSICODEC_KNOWN_DECSCA: safe = values[0] == 1; break;
    case CSICODEC_KNOWN_DECSED: erase_part(values[0], 1, erase_unsafe); break;
    case CSICODEC_KNOWN_DECSEL: erase_part(values[0], 0, erase_unsafe); break;
    case CSICODEC_KNOWN_DECERA: erase_area(area_of(values), erase); break;
    case CSICODEC_KNOWN_DECSERA: erase_area(area_of(values), erase_unsafe); break;
    case CSICODEC_KNOWN_DECFRA: fill(area_of(values + 1), values[0]); break;
    case CSICODEC_KNOWN_DECCRA:
        copy(area_of(values), within((int64_t)values[5] - 1, LINES), within((int64_t)values[6] - 1, COLUMNS));
        break;
    case CSICODEC_KNOWN_DECIC: if (inside) shift_columns(here, count); break;
    case CSICODEC_KNOWN_DECDC: if (inside) shift_columns(here, -count); break;
    case CSICODEC_KNOWN_SL: shift_columns(0, -count); break;
    case CSICODEC_KNOWN_SR: shift_columns(0, count); break;
    default: break;
    }
}

static void act(const struct csicodec_action *action, const struct csicodec_param *params, size_t params_count) {
    int64_t first = action->first, second = action->second;
    int here = within(column, COLUMNS - 1);
    switch (action->kind) {
    case CSICODEC_UNSPECIFIED: carry_out(csicodec_known(action, params, params_count)); break;
    case CSICODEC_SGR_RESET: memset(&pen, 0, sizeof pen); break;
    case CSICODEC_CURSOR_UP: line = within(line - first, LINES - 1); break;
    case CSICODEC_CURSOR_DOWN: line = within(line + first, LINES - 1); break;
    case CSICODEC_CURSOR_LEFT: column = within(here - first, COLUMNS - 1); break;
    case CSICODEC_CURSOR_RIGHT: column = within(here + first, COLUMNS - 1); break;
    case CSICODEC_CURSOR_CHARACTER_ABSOLUTE: column = within(first - 1, COLUMNS - 1); break;
    case CSICODEC_CURSOR_LINE_POSITION_ABSOLUTE: line = within(first - 1, LINES - 1); break;
    case CSICODEC_CURSOR_POSITION: line = within(first - 1, LINES - 1), column = within(second - 1, COLUMNS - 1); break;
    case CSICODEC_CURSOR_SET_TOP_AND_BOTTOM_MARGINS:
        if (first < within(second, LINES)) top = within(first - 1, LINES), bottom = within(second, LINES) - 1, line = column = 0;
        break;
    case CSICODEC_EDIT_ERASE_IN_LINE: erase_part(first, 0, erase); break;
    case CSICODEC_EDIT_ERASE_IN_DISPLAY: erase_part(first, 1, erase); break;
    case CSICODEC_EDIT_INSERT_LINE: scroll(line, -first); break;
    case CSICODEC_EDIT_DELETE_LINE: scroll(line, first); break;
    case CSICODEC_EDIT_SCROLL_UP: scroll(top, first); break;
    case CSICODEC_EDIT_SCROLL_DOWN: scroll(top, -first); break;
    case CSICODEC_EDIT_INSERT_CHARACTER: shift(line, here, first); break;
    case CSICODEC_EDIT_DELETE_CHARACTER: shift(line, here, -first); break;
    case CSICODEC_EDIT_ERASE_CHARACTER: erase(line, here, within(here + first, COLUMNS)); break;
    default:
        if (action->kind > CSICODEC_SGR_RESET && action->kind <= CSICODEC_SGR_VERTICAL_ALIGN) set_attribute(action);
    }
}

static void escape(uint32_t code) {
    if (code == CSICODEC_ESC_INDEX || code == CSICODEC_ESC_NEXT_LINE) down();
    if (code == CSICODEC_ESC_NEXT_LINE) column = 0;
    if (code == CSICODEC_ESC_REVERSE_INDEX) line == top ? scroll(top, -1) : (void)(line -= line > 0);
    if (code == CSICODEC_ESC_DEC_SAVE_CURSOR_POSITION) saved_line = line, saved_column = column;
    if (code == CSICODEC_ESC_DEC_RESTORE_CURSOR_POSITION) line = saved_line, column = saved_column;
}

/* Writes the sequences that set these attributes and no others. */
static void show_pen(const struct pen *shown) {
    struct csicodec_action set[ATTRIBUTES];
    uint8_t out[512];
    size_t count = 0, i;
    for (i = 0; i < ATTRIBUTES; i++)
        if (shown->set[i].kind) set[count++] = shown->set[i];
    printf("\x1b[0m%.*s", (int)csicodec_encode(set, count, NULL, 0, out, sizeof out).needed, (const char *)out);
}

static void show_page(void) {
    static const struct pen none;
    const struct pen *now = &none;
    for (int i = 0; i < LINES; i++, putchar('\n'))
        for (int j = 0; j < COLUMNS; fputs(page[i][j++].character, stdout)) {
            const struct pen *next = &page[i][j].pen;
            if (memcmp(next, now, sizeof *now)) show_pen(next);
            now = next;
        }
    printf("\x1b[0mline %d, column %d\n", line + 1, column + 1);
}

/* What an event does to the page. */
static void take(void *user, const struct csicodec_parser *parser, const struct csicodec_event *event) {
    const struct csicodec_stream *stream = &parser->stream;
    size_t i;
    (void)user;
    for (i = 0; event->kind == CSICODEC_EVENT_TEXT && i < event->len; i++) text(event->bytes[i]);
    for (i = 0; event->kind == CSICODEC_EVENT_ACTIONS && i < event->written; i++)
        act(&stream->actions[i], stream->params, stream->params_room);
    if (event->kind == CSICODEC_EVENT_ESC) escape(event->code);
}

int main(int count, char **words) {
    struct csicodec_action actions[64];
    struct csicodec_param params[64];
    uint8_t held[4096], bytes[8192];
    struct csicodec_parser parser = csicodec_parser_of(held, sizeof held, actions, 64, params, 64);
    parser.stream.as_terminals = 1;
    size_t got;
    FILE *file = count > 1 ? fopen(words[1], "rb") : stdin;
    if (!file) return 1;
    for (int i = 0; i < LINES; i++) erase(i, 0, COLUMNS);
    while ((got = fread(bytes, 1, sizeof bytes, file)) > 0) csicodec_feed(&parser, bytes, got, take, NULL);
    csicodec_finish(&parser, take, NULL);
    show_page();
    return 0;
}
