/* The kinds of actions, and the numbers in them. Written by tools/table; csicodec.h includes it. */
#ifndef CSICODEC_KINDS_H
#define CSICODEC_KINDS_H

/* Which action. The parentheses say what the fields of struct csicodec_action hold; every other field is 0. */
enum csicodec_kind {
    /* A list, or the remainder of one, that no rule reads. (final_char: its final character; place, len: its tokens) */
    CSICODEC_UNSPECIFIED = 0,
    /* All attributes back to the default rendition. */
    CSICODEC_SGR_RESET = 1,
    /* How strong the strokes are. (first: enum csicodec_intensity) */
    CSICODEC_SGR_INTENSITY = 2,
    /* The line below. (first: enum csicodec_underline) */
    CSICODEC_SGR_UNDERLINE = 3,
    /* The colour of that line (kitty, VTE); the default is the colour of the character. (first: enum csicodec_color, with
     * second or red, green, blue and alpha) */
    CSICODEC_SGR_UNDERLINE_COLOR = 4,
    /* Whether it blinks. (first: enum csicodec_blink) */
    CSICODEC_SGR_BLINK = 5,
    /* Italicized or not. (first: 1 on, 0 off) */
    CSICODEC_SGR_ITALIC = 6,
    /* Negative or positive image: whether the colours of character and ground change places. (first: 1 on, 0 off) */
    CSICODEC_SGR_INVERSE = 7,
    /* Concealed or revealed. (first: 1 on, 0 off) */
    CSICODEC_SGR_INVISIBLE = 8,
    /* Crossed out or not. (first: 1 on, 0 off) */
    CSICODEC_SGR_STRIKE_THROUGH = 9,
    /* The font. (first: 0 the primary font, 1 to 9 another) */
    CSICODEC_SGR_FONT = 10,
    /* The colour of the character. (first: enum csicodec_color, with second or red, green, blue and alpha) */
    CSICODEC_SGR_FOREGROUND = 11,
    /* The colour of the ground behind it. (first: enum csicodec_color, with second or red, green, blue and alpha) */
    CSICODEC_SGR_BACKGROUND = 12,
    /* A line above, or none. (first: 1 on, 0 off) */
    CSICODEC_SGR_OVERLINE = 13,
    /* Raised, lowered or on the line (mintty). (first: enum csicodec_vertical_align) */
    CSICODEC_SGR_VERTICAL_ALIGN = 14,
    /* CUU (ECMA-48, 8.3.22): this many lines up. (first: how many) */
    CSICODEC_CURSOR_UP = 101,
    /* CUD (ECMA-48, 8.3.19): this many lines down. (first: how many) */
    CSICODEC_CURSOR_DOWN = 102,
    /* CUF (ECMA-48, 8.3.20): this many columns to the right. (first: how many) */
    CSICODEC_CURSOR_RIGHT = 103,
    /* CUB (ECMA-48, 8.3.18): this many columns to the left. (first: how many) */
    CSICODEC_CURSOR_LEFT = 104,
    /* CNL (ECMA-48, 8.3.12): to the start of the line this many lines down. (first: how many) */
    CSICODEC_CURSOR_NEXT_LINE = 105,
    /* CPL (ECMA-48, 8.3.13): to the start of the line this many lines up. (first: how many) */
    CSICODEC_CURSOR_PRECEDING_LINE = 106,
    /* CHA (ECMA-48, 8.3.9): to this column. (first: it, from 1) */
    CSICODEC_CURSOR_CHARACTER_ABSOLUTE = 107,
    /* HPA (ECMA-48, 8.3.57): to this column of the data. (first: it, from 1) */
    CSICODEC_CURSOR_CHARACTER_POSITION_ABSOLUTE = 108,
    /* CUP (ECMA-48, 8.3.21): to this line and column. (first: line; second: col; both from 1) */
    CSICODEC_CURSOR_POSITION = 109,
    /* CPR (ECMA-48, 8.3.14): the terminal's answer, where the cursor is. (first: line; second: col; both from 1) */
    CSICODEC_CURSOR_ACTIVE_POSITION_REPORT = 110,
    /* HVP (ECMA-48, 8.3.63): to this line and column of the data. (first: line; second: col; both from 1) */
    CSICODEC_CURSOR_CHARACTER_AND_LINE_POSITION = 111,
    /* CHT (ECMA-48, 8.3.10): on to this many character tab stops. (first: how many) */
    CSICODEC_CURSOR_FORWARD_TABULATION = 112,
    /* CBT (ECMA-48, 8.3.7): back to this many character tab stops. (first: how many) */
    CSICODEC_CURSOR_BACKWARD_TABULATION = 113,
    /* CVT (ECMA-48, 8.3.23): down to this many line tab stops. (first: how many) */
    CSICODEC_CURSOR_LINE_TABULATION = 114,
    /* HPR (ECMA-48, 8.3.59): this many columns on in the data. (first: how many) */
    CSICODEC_CURSOR_CHARACTER_POSITION_FORWARD = 115,
    /* HPB (ECMA-48, 8.3.58): this many columns back in the data. (first: how many) */
    CSICODEC_CURSOR_CHARACTER_POSITION_BACKWARD = 116,
    /* VPA (ECMA-48, 8.3.158): to this line of the data, in the same column. As termwiz has it, a count. (first: how many) */
    CSICODEC_CURSOR_LINE_POSITION_ABSOLUTE = 117,
    /* VPR (ECMA-48, 8.3.160): this many lines on in the data. (first: how many) */
    CSICODEC_CURSOR_LINE_POSITION_FORWARD = 118,
    /* VPB (ECMA-48, 8.3.159): this many lines back in the data. (first: how many) */
    CSICODEC_CURSOR_LINE_POSITION_BACKWARD = 119,
    /* CTC (ECMA-48, 8.3.17): sets or clears tab stops. (first: enum csicodec_cursor_tabulation_control) */
    CSICODEC_CURSOR_TABULATION_CONTROL = 120,
    /* TBC (ECMA-48, 8.3.154): clears tab stops. (first: enum csicodec_tabulation_clear) */
    CSICODEC_CURSOR_TABULATION_CLEAR = 121,
    /* DECSTBM (DEC VT100): the first and the last line that scroll. A bottom of 4294967295 is the page's last line. (first:
     * top; second: bottom; both from 1) */
    CSICODEC_CURSOR_SET_TOP_AND_BOTTOM_MARGINS = 122,
    /* DECSLRM (DEC VT420): the first and the last column that scroll. A right of 4294967295 is the page's last column. The
     * margins from 1 to 4294967295 have no text of their own: theirs is that of SaveCursor. (first: left; second: right; both
     * from 1) */
    CSICODEC_CURSOR_SET_LEFT_AND_RIGHT_MARGINS = 123,
    /* SCOSC (SCO console, ANSI.SYS): keeps the cursor's position. */
    CSICODEC_CURSOR_SAVE_CURSOR = 124,
    /* SCORC (SCO console, ANSI.SYS): goes back to the position that was kept. */
    CSICODEC_CURSOR_RESTORE_CURSOR = 125,
    /* DSR 6 (ECMA-48, 8.3.35): asks where the cursor is, for an ActivePositionReport. */
    CSICODEC_CURSOR_REQUEST_ACTIVE_POSITION_REPORT = 126,
    /* DECSCUSR (DEC VT520): how the cursor looks. (first: enum csicodec_cursor_style) */
    CSICODEC_CURSOR_CURSOR_STYLE = 127,
    /* ICH (ECMA-48, 8.3.64): this many blanks at the cursor, and what stood there moves to the right. (first: how many) */
    CSICODEC_EDIT_INSERT_CHARACTER = 201,
    /* IL (ECMA-48, 8.3.67): this many blank lines at the cursor's line, which moves down. (first: how many) */
    CSICODEC_EDIT_INSERT_LINE = 202,
    /* DCH (ECMA-48, 8.3.26): takes out this many characters from the cursor on, and what is behind them moves to the left.
     * (first: how many) */
    CSICODEC_EDIT_DELETE_CHARACTER = 203,
    /* DL (ECMA-48, 8.3.32): takes out this many lines from the cursor's line on, and what is below moves up. (first: how many) */
    CSICODEC_EDIT_DELETE_LINE = 204,
    /* ECH (ECMA-48, 8.3.38): blanks this many characters from the cursor on. (first: how many) */
    CSICODEC_EDIT_ERASE_CHARACTER = 205,
    /* SU (ECMA-48, 8.3.147): moves what is shown up by this many lines. (first: how many) */
    CSICODEC_EDIT_SCROLL_UP = 206,
    /* SD (ECMA-48, 8.3.113): moves what is shown down by this many lines. (first: how many) */
    CSICODEC_EDIT_SCROLL_DOWN = 207,
    /* REP (ECMA-48, 8.3.103): the character before this sequence, this many times more. (first: how many) */
    CSICODEC_EDIT_REPEAT = 208,
    /* ED (ECMA-48, 8.3.39): blanks a part of the page. (first: enum csicodec_erase_in_display) */
    CSICODEC_EDIT_ERASE_IN_DISPLAY = 209,
    /* EL (ECMA-48, 8.3.41): blanks a part of the cursor's line. (first: enum csicodec_erase_in_line) */
    CSICODEC_EDIT_ERASE_IN_LINE = 210,
    /* DECSET (xterm's name; SM in DEC VT510): the private mode is set. (first: the number of the mode, 0 to 65535, such as one
     * of enum csicodec_dec_private_mode_code) */
    CSICODEC_MODE_SET_DEC_PRIVATE_MODE = 301,
    /* DECRST (xterm's name; RM in DEC VT510): the private mode is reset. (first: the number of the mode, 0 to 65535, such as
     * one of enum csicodec_dec_private_mode_code) */
    CSICODEC_MODE_RESET_DEC_PRIVATE_MODE = 302,
    /* XTSAVE (xterm): whether the private mode is set is kept aside. (first: the number of the mode, 0 to 65535, such as one of
     * enum csicodec_dec_private_mode_code) */
    CSICODEC_MODE_SAVE_DEC_PRIVATE_MODE = 303,
    /* XTRESTORE (xterm): the private mode becomes what was kept aside. (first: the number of the mode, 0 to 65535, such as one
     * of enum csicodec_dec_private_mode_code) */
    CSICODEC_MODE_RESTORE_DEC_PRIVATE_MODE = 304,
    /* DECRQM (DEC VT300 and up): asks whether the private mode is set. (first: the number of the mode, 0 to 65535, such as one
     * of enum csicodec_dec_private_mode_code) */
    CSICODEC_MODE_QUERY_DEC_PRIVATE_MODE = 305,
    /* SM (ECMA-48, 8.3.125): the mode is set. (first: the number of the mode, 0 to 65535, such as one of enum
     * csicodec_terminal_mode_code) */
    CSICODEC_MODE_SET_MODE = 306,
    /* RM (ECMA-48, 8.3.106): the mode is reset. (first: the number of the mode, 0 to 65535, such as one of enum
     * csicodec_terminal_mode_code) */
    CSICODEC_MODE_RESET_MODE = 307,
    /* DECRQM (DEC VT300 and up): asks whether the mode is set. (first: the number of the mode, 0 to 65535, such as one of enum
     * csicodec_terminal_mode_code) */
    CSICODEC_MODE_QUERY_MODE = 308,
    /* XTMODKEYS (xterm): how modifiers are told with these keys. (first: enum csicodec_xterm_key_modifier_resource; second: the
     * value, which may be absent) */
    CSICODEC_MODE_XTERM_KEY_MODE = 309,
    /* ? 1 ; 2: a VT100 with the advanced video option. */
    CSICODEC_DEVICE_ATTRIBUTES_VT100_WITH_ADVANCED_VIDEO_OPTION = 401,
    /* ? 1 ; 0: a VT101 without options. */
    CSICODEC_DEVICE_ATTRIBUTES_VT101_WITH_NO_OPTIONS = 402,
    /* ? 6: a VT102. */
    CSICODEC_DEVICE_ATTRIBUTES_VT102 = 403,
    /* ? 62 and extensions: the service class of the VT220. (place, len: the extensions) */
    CSICODEC_DEVICE_ATTRIBUTES_VT220 = 404,
    /* ? 63 and extensions: the service class of the VT320. (place, len: the extensions) */
    CSICODEC_DEVICE_ATTRIBUTES_VT320 = 405,
    /* ? 64 and extensions: the service class of the VT420. (place, len: the extensions) */
    CSICODEC_DEVICE_ATTRIBUTES_VT420 = 406,
    /* DECSTR (DEC VT220): modes, margins, attributes and character sets are as at first; what is shown stays. */
    CSICODEC_DEVICE_SOFT_RESET = 407,
    /* DA (ECMA-48, 8.3.24): what the terminal is. */
    CSICODEC_DEVICE_REQUEST_PRIMARY_DEVICE_ATTRIBUTES = 408,
    /* DA2 (DEC VT220): its type, the version of its firmware, and its options. */
    CSICODEC_DEVICE_REQUEST_SECONDARY_DEVICE_ATTRIBUTES = 409,
    /* DA3 (DEC VT420): its unit. */
    CSICODEC_DEVICE_REQUEST_TERTIARY_DEVICE_ATTRIBUTES = 410,
    /* XTVERSION (xterm): its name and version. */
    CSICODEC_DEVICE_REQUEST_TERMINAL_NAME_AND_VERSION = 411,
    /* DECREQTPARM (DEC VT100): asks for the parameters of the serial line. With 0 the terminal may also report unasked, with 1
     * only when asked. It is written as the report, DECREPTPARM, whose first number is this one and 2: no parity, 8 bits, 128
     * for sending and receiving (38400 baud in xterm; DEC's table ends at 120), 1 for a clock multiplier of 16, and no
     * switches. So it isn't read back. (first: the number) */
    CSICODEC_DEVICE_REQUEST_TERMINAL_PARAMETERS = 412,
    /* DSR 5 (ECMA-48, 8.3.35): its state. */
    CSICODEC_DEVICE_STATUS_REPORT = 413,
    /* XTSMGRAPHICS (xterm's ctlseqs): what it can draw, asked or answered. (first: the item; second: the action or the status;
     * place, len: the values) */
    CSICODEC_DEVICE_XT_SM_GRAPHICS = 414,
    /* In cells. (first: x; second: y; button; modifiers) */
    CSICODEC_MOUSE_SGR1006 = 501,
    /* In pixels. It is written as a report in cells is, and so is never read: which of the two modes the terminal is in stands
     * in no report. (first: x_pixels; second: y_pixels; button; modifiers) */
    CSICODEC_MOUSE_SGR1016 = 502,
    /* 1: the window is opened again, if it was an icon. */
    CSICODEC_WINDOW_DE_ICONIFY = 601,
    /* 2: it becomes an icon. */
    CSICODEC_WINDOW_ICONIFY = 602,
    /* 3: it is moved; a place that a sequence leaves out is 0. (first: x; second: y) */
    CSICODEC_WINDOW_MOVE_WINDOW = 603,
    /* 4: the window gets this size, in pixels; 0 is that of the display (xterm). (first: width; second: height; either may be
     * absent) */
    CSICODEC_WINDOW_RESIZE_WINDOW_PIXELS = 604,
    /* 5: it is put in front of the others. */
    CSICODEC_WINDOW_RAISE_WINDOW = 605,
    /* 6, alone: it is put behind the others. */
    CSICODEC_WINDOW_LOWER_WINDOW = 606,
    /* 6, with a size: the answer to ReportCellSizePixels. (first: width; second: height; either may be absent) */
    CSICODEC_WINDOW_REPORT_CELL_SIZE_PIXELS_RESPONSE = 607,
    /* 7: it is drawn again. */
    CSICODEC_WINDOW_REFRESH_WINDOW = 608,
    /* 8: the text area gets this size, in cells; 0 is that of the display (xterm). (first: width; second: height; either may be
     * absent) */
    CSICODEC_WINDOW_RESIZE_WINDOW_CELLS = 609,
    /* 9 and 0: a window that was maximized gets its size back. */
    CSICODEC_WINDOW_RESTORE_MAXIMIZED_WINDOW = 610,
    /* 9 and 1: it becomes as large as the screen. */
    CSICODEC_WINDOW_MAXIMIZE_WINDOW = 611,
    /* 9 and 2: it becomes as high as the screen. */
    CSICODEC_WINDOW_MAXIMIZE_WINDOW_VERTICALLY = 612,
    /* 9 and 3: it becomes as wide as the screen. */
    CSICODEC_WINDOW_MAXIMIZE_WINDOW_HORIZONTALLY = 613,
    /* 10 and 0: full screen ends. */
    CSICODEC_WINDOW_UNDO_FULL_SCREEN_MODE = 614,
    /* 10 and 1: full screen begins. */
    CSICODEC_WINDOW_CHANGE_TO_FULL_SCREEN_MODE = 615,
    /* 10 and 2: full screen begins or ends. */
    CSICODEC_WINDOW_TOGGLE_FULL_SCREEN = 616,
    /* 11: asks whether the window is open or an icon; the answer is CSI 1 t or CSI 2 t, which are read back as DeIconify and
     * Iconify. */
    CSICODEC_WINDOW_REPORT_WINDOW_STATE = 617,
    /* 13: asks for the window's place; the answer is CSI 3 ; x ; y t, in pixels, which is read back as MoveWindow. */
    CSICODEC_WINDOW_REPORT_WINDOW_POSITION = 618,
    /* 13 and 2: asks for the place of the text area; the answer is the same. */
    CSICODEC_WINDOW_REPORT_TEXT_AREA_POSITION = 619,
    /* 14: asks for the size of the text area; the answer is CSI 4 ; height ; width t, in pixels, which is read back as
     * ResizeWindowPixels. */
    CSICODEC_WINDOW_REPORT_TEXT_AREA_SIZE_PIXELS = 620,
    /* 14 and 2: asks for the size of the window; the answer is the same. */
    CSICODEC_WINDOW_REPORT_WINDOW_SIZE_PIXELS = 621,
    /* 15: asks for the size of the screen; the answer is CSI 5 ; height ; width t, in pixels, which is read back as
     * RaiseWindow. */
    CSICODEC_WINDOW_REPORT_SCREEN_SIZE_PIXELS = 622,
    /* 16: asks for the size of a cell; the answer is ReportCellSizePixelsResponse. */
    CSICODEC_WINDOW_REPORT_CELL_SIZE_PIXELS = 623,
    /* 18: asks for the size of the text area; the answer is CSI 8 ; lines ; columns t, which is read back as ResizeWindowCells. */
    CSICODEC_WINDOW_REPORT_TEXT_AREA_SIZE_CELLS = 624,
    /* 19: asks for the size of the screen in cells; the answer is CSI 9 ; lines ; columns t, which is unknown but where the
     * lines are 0 to 3. */
    CSICODEC_WINDOW_REPORT_SCREEN_SIZE_CELLS = 625,
    /* 20: asks for the icon's label; the answer is OSC L label ST. */
    CSICODEC_WINDOW_REPORT_ICON_LABEL = 626,
    /* 21: asks for the window's title; the answer is OSC l title ST. */
    CSICODEC_WINDOW_REPORT_WINDOW_TITLE = 627,
    /* 22 and 0: the icon's label and the window's title are put onto a stack. */
    CSICODEC_WINDOW_PUSH_ICON_AND_WINDOW_TITLE = 628,
    /* 22 and 1: the icon's label is. */
    CSICODEC_WINDOW_PUSH_ICON_TITLE = 629,
    /* 22 and 2: the window's title is. */
    CSICODEC_WINDOW_PUSH_WINDOW_TITLE = 630,
    /* 23 and 0: the icon's label and the window's title are taken off the stack. */
    CSICODEC_WINDOW_POP_ICON_AND_WINDOW_TITLE = 631,
    /* 23 and 1: the icon's label is. */
    CSICODEC_WINDOW_POP_ICON_TITLE = 632,
    /* 23 and 2: the window's title is. */
    CSICODEC_WINDOW_POP_WINDOW_TITLE = 633,
    /* DECRQCRA (DEC VT420): asks for the checksum of the characters in an area of a page, in cells; the answer is DCS
     * request_id ! ~ checksum ST. A side that a sequence leaves out, or that is 0, is 1. (first: request_id; second:
     * page_number; top, left, bottom, right: from 1) */
    CSICODEC_WINDOW_CHECKSUM_RECTANGULAR_AREA = 634,
    /* The flags change in this way. (first: enum csicodec_kitty_keyboard_flags; second: enum csicodec_kitty_keyboard_mode) */
    CSICODEC_KEYBOARD_SET_KITTY_STATE = 701,
    /* They are put onto a stack, and changed. (first: enum csicodec_kitty_keyboard_flags; second: enum
     * csicodec_kitty_keyboard_mode) */
    CSICODEC_KEYBOARD_PUSH_KITTY_STATE = 702,
    /* This many are taken off the stack. (first: how many) */
    CSICODEC_KEYBOARD_POP_KITTY_STATE = 703,
    /* Asks for the flags. */
    CSICODEC_KEYBOARD_QUERY_KITTY_SUPPORT = 704,
    /* The answer. (first: enum csicodec_kitty_keyboard_flags) */
    CSICODEC_KEYBOARD_REPORT_KITTY_STATE = 705,
    /* SCP (ECMA-48, 8.3.111): the path of characters (first: enum csicodec_character_path; second: the effect) */
    CSICODEC_SELECT_CHARACTER_PATH = 801
};

/* How strong the strokes of a character are (ECMA-48, 8.3.117). */
enum csicodec_intensity {
    /* Neither bold nor faint, code 22. */
    CSICODEC_INTENSITY_NORMAL = 0,
    /* Bold or increased intensity, code 1. */
    CSICODEC_INTENSITY_BOLD = 1,
    /* Faint or decreased intensity, code 2. */
    CSICODEC_INTENSITY_HALF = 2
};

/* The line below a character: 21 and 24 are from ECMA-48, 8.3.117, the kinds behind a colon from kitty and VTE. */
enum csicodec_underline {
    /* No line, code 24 or 4:0. */
    CSICODEC_UNDERLINE_NONE = 0,
    /* One line, code 4 or 4:1. */
    CSICODEC_UNDERLINE_SINGLE = 1,
    /* Two lines, code 21 or 4:2. */
    CSICODEC_UNDERLINE_DOUBLE = 2,
    /* A wavy line, 4:3. */
    CSICODEC_UNDERLINE_CURLY = 3,
    /* A line of dots, 4:4. */
    CSICODEC_UNDERLINE_DOTTED = 4,
    /* A line of dashes, 4:5. */
    CSICODEC_UNDERLINE_DASHED = 5
};

/* Whether a character blinks, and how fast (ECMA-48, 8.3.117). */
enum csicodec_blink {
    /* Steady, code 25. */
    CSICODEC_BLINK_NONE = 0,
    /* Less than 150 times a minute, code 5. */
    CSICODEC_BLINK_SLOW = 1,
    /* 150 times a minute or more, code 6. */
    CSICODEC_BLINK_RAPID = 2
};

/* Where on its line a character stands (mintty). */
enum csicodec_vertical_align {
    /* On the line, code 75. */
    CSICODEC_VERTICAL_ALIGN_BASE_LINE = 0,
    /* Raised and small, code 73. */
    CSICODEC_VERTICAL_ALIGN_SUPER_SCRIPT = 1,
    /* Lowered and small, code 74. */
    CSICODEC_VERTICAL_ALIGN_SUB_SCRIPT = 2
};

/* How the cursor looks (DECSCUSR; DEC VT520, the bars xterm). */
enum csicodec_cursor_style {
    /* As the user set the terminal up; by DEC a blinking block. */
    CSICODEC_CURSOR_STYLE_DEFAULT = 0,
    /* A block that blinks. */
    CSICODEC_CURSOR_STYLE_BLINKING_BLOCK = 1,
    /* A block that doesn't. */
    CSICODEC_CURSOR_STYLE_STEADY_BLOCK = 2,
    /* A line below the character that blinks. */
    CSICODEC_CURSOR_STYLE_BLINKING_UNDERLINE = 3,
    /* A line below the character that doesn't. */
    CSICODEC_CURSOR_STYLE_STEADY_UNDERLINE = 4,
    /* A line before the character that blinks (xterm). */
    CSICODEC_CURSOR_STYLE_BLINKING_BAR = 5,
    /* A line before the character that doesn't (xterm). */
    CSICODEC_CURSOR_STYLE_STEADY_BAR = 6
};

/* What happens to tab stops where the cursor is (CTC, cursor tabulation control; ECMA-48, 8.3.17). A character tab stop is a
 * column, a line tab stop a line. */
enum csicodec_cursor_tabulation_control {
    /* A character tab stop is set in the cursor's column. */
    CSICODEC_CURSOR_TABULATION_CONTROL_SET_CHARACTER_TAB_STOP_AT_ACTIVE_POSITION = 0,
    /* A line tab stop is set at the cursor's line. */
    CSICODEC_CURSOR_TABULATION_CONTROL_SET_LINE_TAB_STOP_AT_ACTIVE_LINE = 1,
    /* The character tab stop in the cursor's column is cleared. */
    CSICODEC_CURSOR_TABULATION_CONTROL_CLEAR_CHARACTER_TAB_STOP_AT_ACTIVE_POSITION = 2,
    /* The line tab stop at the cursor's line is cleared. */
    CSICODEC_CURSOR_TABULATION_CONTROL_CLEAR_LINE_TABSTOP_AT_ACTIVE_LINE = 3,
    /* All character tab stops of the cursor's line are cleared. */
    CSICODEC_CURSOR_TABULATION_CONTROL_CLEAR_ALL_CHARACTER_TAB_STOPS_AT_ACTIVE_LINE = 4,
    /* All character tab stops are cleared. */
    CSICODEC_CURSOR_TABULATION_CONTROL_CLEAR_ALL_CHARACTER_TAB_STOPS = 5,
    /* All line tab stops are cleared. */
    CSICODEC_CURSOR_TABULATION_CONTROL_CLEAR_ALL_LINE_TAB_STOPS = 6
};

/* Which tab stops are cleared (TBC, tabulation clear; ECMA-48, 8.3.154). */
enum csicodec_tabulation_clear {
    /* The character tab stop in the cursor's column. */
    CSICODEC_TABULATION_CLEAR_CLEAR_CHARACTER_TAB_STOP_AT_ACTIVE_POSITION = 0,
    /* The line tab stop at the cursor's line. */
    CSICODEC_TABULATION_CLEAR_CLEAR_LINE_TAB_STOP_AT_ACTIVE_LINE = 1,
    /* All character tab stops of the cursor's line. */
    CSICODEC_TABULATION_CLEAR_CLEAR_CHARACTER_TAB_STOPS_AT_ACTIVE_LINE = 2,
    /* All character tab stops. */
    CSICODEC_TABULATION_CLEAR_CLEAR_ALL_CHARACTER_TAB_STOPS = 3,
    /* All line tab stops. */
    CSICODEC_TABULATION_CLEAR_CLEAR_ALL_LINE_TAB_STOPS = 4,
    /* All tab stops, of characters and of lines. */
    CSICODEC_TABULATION_CLEAR_CLEAR_ALL_TAB_STOPS = 5
};

/* Which part of the cursor's line is erased (EL, erase in line; ECMA-48, 8.3.41). The cursor's own column is part of it. */
enum csicodec_erase_in_line {
    /* From the cursor to the end. */
    CSICODEC_ERASE_IN_LINE_ERASE_TO_END_OF_LINE = 0,
    /* From the start to the cursor. */
    CSICODEC_ERASE_IN_LINE_ERASE_TO_START_OF_LINE = 1,
    /* The whole line. */
    CSICODEC_ERASE_IN_LINE_ERASE_LINE = 2
};

/* Which part of the page is erased (ED, erase in page; ECMA-48, 8.3.39). The cursor's own place is part of it. */
enum csicodec_erase_in_display {
    /* From the cursor to the end. */
    CSICODEC_ERASE_IN_DISPLAY_ERASE_TO_END_OF_DISPLAY = 0,
    /* From the start to the cursor. */
    CSICODEC_ERASE_IN_DISPLAY_ERASE_TO_START_OF_DISPLAY = 1,
    /* The whole page. */
    CSICODEC_ERASE_IN_DISPLAY_ERASE_DISPLAY = 2,
    /* The lines that have been scrolled off the top (xterm). */
    CSICODEC_ERASE_IN_DISPLAY_ERASE_SCROLLBACK = 3
};

/* A private mode: one that CSI ? .. h sets and CSI ? .. l resets. Those of DEC (VT510, VT382) begin with the name that DEC gave
 * them; where the others are from is said at each. */
enum csicodec_dec_private_mode_code {
    /* DECCKM: the arrow keys send application sequences. */
    CSICODEC_DEC_PRIVATE_MODE_APPLICATION_CURSOR_KEYS = 1,
    /* DECANM: ANSI sequences; reset, the terminal is a VT52. */
    CSICODEC_DEC_PRIVATE_MODE_DEC_ANSI_MODE = 2,
    /* DECCOLM: a line has 132 columns; reset, 80. */
    CSICODEC_DEC_PRIVATE_MODE_SELECT132_COLUMNS = 3,
    /* DECSCLM: lines scroll smoothly; reset, by jumps. */
    CSICODEC_DEC_PRIVATE_MODE_SMOOTH_SCROLL = 4,
    /* DECSCNM: the screen is shown with its two colours exchanged. */
    CSICODEC_DEC_PRIVATE_MODE_REVERSE_VIDEO = 5,
    /* DECOM: positions count from the margins, and the cursor stays within them. */
    CSICODEC_DEC_PRIVATE_MODE_ORIGIN_MODE = 6,
    /* DECAWM: text goes on in the next line at the end of one. */
    CSICODEC_DEC_PRIVATE_MODE_AUTO_WRAP = 7,
    /* DECARM: a key that is held down repeats. */
    CSICODEC_DEC_PRIVATE_MODE_AUTO_REPEAT = 8,
    /* The cursor blinks (AT&T 610; xterm). */
    CSICODEC_DEC_PRIVATE_MODE_START_BLINKING_CURSOR = 12,
    /* DECTCEM: the cursor is shown. */
    CSICODEC_DEC_PRIVATE_MODE_SHOW_CURSOR = 25,
    /* A backspace at the start of a line goes to the end of the line above (xterm). */
    CSICODEC_DEC_PRIVATE_MODE_REVERSE_WRAPAROUND = 45,
    /* The alternate screen (xterm). */
    CSICODEC_DEC_PRIVATE_MODE_ENABLE_ALTERNATE_SCREEN = 47,
    /* DECLRMM: left and right margins can be set. */
    CSICODEC_DEC_PRIVATE_MODE_LEFT_RIGHT_MARGIN_MODE = 69,
    /* DECSDM: a sixel image is shown at the top left, and doesn't scroll. */
    CSICODEC_DEC_PRIVATE_MODE_SIXEL_DISPLAY_MODE = 80,
    /* Presses and releases of the mouse are reported (xterm). */
    CSICODEC_DEC_PRIVATE_MODE_MOUSE_TRACKING = 1000,
    /* The same, with text marked between both; it waits for the program's answer (xterm). */
    CSICODEC_DEC_PRIVATE_MODE_HIGHLIGHT_MOUSE_TRACKING = 1001,
    /* Motions with a button down are reported too (xterm). */
    CSICODEC_DEC_PRIVATE_MODE_BUTTON_EVENT_MOUSE = 1002,
    /* All motions are reported too (xterm). */
    CSICODEC_DEC_PRIVATE_MODE_ANY_EVENT_MOUSE = 1003,
    /* Getting and losing the focus is reported (xterm). */
    CSICODEC_DEC_PRIVATE_MODE_FOCUS_TRACKING = 1004,
    /* Positions of the mouse are reported in UTF-8 (xterm). */
    CSICODEC_DEC_PRIVATE_MODE_UTF8_MOUSE = 1005,
    /* Reports of the mouse are control sequences with numbers in cells (xterm). */
    CSICODEC_DEC_PRIVATE_MODE_SGR_MOUSE = 1006,
    /* The same with numbers in pixels (xterm). */
    CSICODEC_DEC_PRIVATE_MODE_SGR_PIXELS_MOUSE = 1016,
    /* The meta key puts an ESC ahead (xterm). */
    CSICODEC_DEC_PRIVATE_MODE_X_TERM_META_SENDS_ESCAPE = 1036,
    /* The alt key puts an ESC ahead (xterm). */
    CSICODEC_DEC_PRIVATE_MODE_X_TERM_ALT_SENDS_ESCAPE = 1039,
    /* The alternate screen, cleared when it is left (xterm). */
    CSICODEC_DEC_PRIVATE_MODE_OPT_ENABLE_ALTERNATE_SCREEN = 1047,
    /* The cursor is saved, as by DECSC; reset, it is restored (xterm). */
    CSICODEC_DEC_PRIVATE_MODE_SAVE_CURSOR = 1048,
    /* 1047 and 1048 in one, and the screen is cleared when it is entered (xterm). */
    CSICODEC_DEC_PRIVATE_MODE_CLEAR_AND_ENABLE_ALTERNATE_SCREEN = 1049,
    /* Each image of sixels or ReGIS has colours of its own (xterm). */
    CSICODEC_DEC_PRIVATE_MODE_USE_PRIVATE_COLOR_REGISTERS_FOR_EACH_GRAPHIC = 1070,
    /* Text that is pasted comes between CSI 200 ~ and CSI 201 ~ (xterm). */
    CSICODEC_DEC_PRIVATE_MODE_BRACKETED_PASTE = 2004,
    /* What is drawn is shown when this is reset (contour). */
    CSICODEC_DEC_PRIVATE_MODE_SYNCHRONIZED_OUTPUT = 2026,
    /* How many cells a character takes goes by grapheme clusters (contour). */
    CSICODEC_DEC_PRIVATE_MODE_GRAPHEME_CLUSTERING = 2027,
    /* The escape key sends a sequence of its own (mintty). */
    CSICODEC_DEC_PRIVATE_MODE_MIN_TTY_APPLICATION_ESCAPE_KEY_MODE = 7727,
    /* The cursor stays to the right of an image of sixels (RLogin, xterm). */
    CSICODEC_DEC_PRIVATE_MODE_SIXEL_SCROLLS_RIGHT = 8452,
    /* Keys are reported with all that Windows says of them (Windows Terminal). */
    CSICODEC_DEC_PRIVATE_MODE_WIN32_INPUT_MODE = 9001
};

/* A mode that CSI .. h sets and CSI .. l resets (SM and RM; ECMA-48, 8.3.125 and 8.3.106). */
enum csicodec_terminal_mode_code {
    /* KAM (ECMA-48, 7.2.11): the keyboard is locked. */
    CSICODEC_TERMINAL_MODE_KEYBOARD_ACTION = 2,
    /* IRM (ECMA-48, 7.2.10): characters move to the right what stands there; reset, they replace it. */
    CSICODEC_TERMINAL_MODE_INSERT = 4,
    /* BDSM (ECMA-48, 7.2.1): the terminal orders text of both directions. */
    CSICODEC_TERMINAL_MODE_BI_DIRECTIONAL_SUPPORT_MODE = 8,
    /* SRM (ECMA-48, 7.2.15): what is typed isn't shown by the terminal itself. */
    CSICODEC_TERMINAL_MODE_SEND_RECEIVE = 12,
    /* LNM (ECMA-48, 4th edition and before): a line feed goes to the start of the line as well. */
    CSICODEC_TERMINAL_MODE_AUTOMATIC_NEWLINE = 20,
    /* The cursor is shown (termwiz, which has it of Windows' terminal). */
    CSICODEC_TERMINAL_MODE_SHOW_CURSOR = 25
};

/* An extension that a terminal names behind its service class, in its answer to the primary device attributes (DA1, CSI ? 62 ;
 * .. c; DEC VT220 and its successors). */
enum csicodec_device_attribute_codes {
    /* Lines of 132 columns (DEC VT220). */
    CSICODEC_DEVICE_ATTRIBUTE_COLUMNS132 = 1,
    /* A port for a printer (DEC VT220). */
    CSICODEC_DEVICE_ATTRIBUTE_PRINTER = 2,
    /* Drawings by ReGIS commands (DEC VT240, VT340). */
    CSICODEC_DEVICE_ATTRIBUTE_REGIS_GRAPHICS = 3,
    /* Images by sixels (DEC VT240, VT340). */
    CSICODEC_DEVICE_ATTRIBUTE_SIXEL_GRAPHICS = 4,
    /* Selective erase: DECSCA protects characters from DECSED and DECSEL (DEC VT220). */
    CSICODEC_DEVICE_ATTRIBUTE_SELECTIVE_ERASE = 6,
    /* User-defined keys (DECUDK; DEC VT220). */
    CSICODEC_DEVICE_ATTRIBUTE_USER_DEFINED_KEYS = 8,
    /* National replacement character sets, of 7 bits, one for each language (DEC VT220). */
    CSICODEC_DEVICE_ATTRIBUTE_NATIONAL_REPLACEMENT_CHARSETS = 9,
    /* DEC's technical character set (DEC VT320). */
    CSICODEC_DEVICE_ATTRIBUTE_TECHNICAL_CHARACTERS = 15,
    /* User windows: several parts of the page are shown at once (DEC VT340). */
    CSICODEC_DEVICE_ATTRIBUTE_USER_WINDOWS = 18,
    /* The page scrolls to the left and right (DEC VT420). */
    CSICODEC_DEVICE_ATTRIBUTE_HORIZONTAL_SCROLLING = 21,
    /* The colours of ECMA-48, by CSI .. m (DEC VT525). */
    CSICODEC_DEVICE_ATTRIBUTE_ANSI_COLOR = 22,
    /* Reports of the locator, a mouse or a tablet, in cells (DEC locator mode; xterm). */
    CSICODEC_DEVICE_ATTRIBUTE_ANSI_TEXT_LOCATOR = 29
};

/* Which keys XtermKeyMode is about (xterm, XTMODKEYS). */
enum csicodec_xterm_key_modifier_resource {
    /* modifyKeyboard, number 0. */
    CSICODEC_XTERM_KEY_MODIFIER_RESOURCE_KEYBOARD = 0,
    /* modifyCursorKeys, number 1. */
    CSICODEC_XTERM_KEY_MODIFIER_RESOURCE_CURSOR_KEYS = 1,
    /* modifyFunctionKeys, number 2. */
    CSICODEC_XTERM_KEY_MODIFIER_RESOURCE_FUNCTION_KEYS = 2,
    /* modifyOtherKeys, number 4. */
    CSICODEC_XTERM_KEY_MODIFIER_RESOURCE_OTHER_KEYS = 4
};

/* What is done with the item: the second number of XTSMGRAPHICS, where it is a request. */
enum csicodec_xt_sm_graphics_action {
    /* 1: it is asked for. */
    CSICODEC_XT_SM_GRAPHICS_ACTION_READ_ATTRIBUTE = 1,
    /* 2: it is set back to what it was at first. */
    CSICODEC_XT_SM_GRAPHICS_ACTION_RESET_TO_DEFAULT = 2,
    /* 3: it is set to the values. */
    CSICODEC_XT_SM_GRAPHICS_ACTION_SET_TO_VALUE = 3,
    /* 4: the most that it can be is asked for. */
    CSICODEC_XT_SM_GRAPHICS_ACTION_READ_MAXIMUM_ALLOWED_VALUE = 4
};

/* What became of the request: the second number of XTSMGRAPHICS, where it is an answer. */
enum csicodec_xt_sm_graphics_status {
    /* 0: it was done, and the values follow. */
    CSICODEC_XT_SM_GRAPHICS_STATUS_SUCCESS = 0,
    /* 1: the terminal has no such item. */
    CSICODEC_XT_SM_GRAPHICS_STATUS_INVALID_ITEM = 1,
    /* 2: the terminal has no such action. */
    CSICODEC_XT_SM_GRAPHICS_STATUS_INVALID_ACTION = 2,
    /* 3: it could not be done. */
    CSICODEC_XT_SM_GRAPHICS_STATUS_FAILURE = 3
};

/* A button. */
enum csicodec_mouse_button {
    /* Button 1, the left one: it goes down. */
    CSICODEC_MOUSE_BUTTON1_PRESS = 1,
    /* Button 2, the middle one: it goes down. */
    CSICODEC_MOUSE_BUTTON2_PRESS = 2,
    /* Button 3, the right one: it goes down. */
    CSICODEC_MOUSE_BUTTON3_PRESS = 3,
    /* Button 4, the wheel, up: it goes down. */
    CSICODEC_MOUSE_BUTTON4_PRESS = 4,
    /* Button 5, the wheel, down: it goes down. */
    CSICODEC_MOUSE_BUTTON5_PRESS = 5,
    /* Button 6, the wheel, to the left: it goes down. */
    CSICODEC_MOUSE_BUTTON6_PRESS = 6,
    /* Button 7, the wheel, to the right: it goes down. */
    CSICODEC_MOUSE_BUTTON7_PRESS = 7,
    /* Button 1, the left one: it goes up. */
    CSICODEC_MOUSE_BUTTON1_RELEASE = 11,
    /* Button 2, the middle one: it goes up. */
    CSICODEC_MOUSE_BUTTON2_RELEASE = 12,
    /* Button 3, the right one: it goes up. */
    CSICODEC_MOUSE_BUTTON3_RELEASE = 13,
    /* Button 4, the wheel, up: it goes up. */
    CSICODEC_MOUSE_BUTTON4_RELEASE = 14,
    /* Button 5, the wheel, down: it goes up. */
    CSICODEC_MOUSE_BUTTON5_RELEASE = 15,
    /* Button 6, the wheel, to the left: it goes up. */
    CSICODEC_MOUSE_BUTTON6_RELEASE = 16,
    /* Button 7, the wheel, to the right: it goes up. */
    CSICODEC_MOUSE_BUTTON7_RELEASE = 17,
    /* Button 1, the left one: the mouse moves while it is down. */
    CSICODEC_MOUSE_BUTTON1_DRAG = 21,
    /* Button 2, the middle one: the mouse moves while it is down. */
    CSICODEC_MOUSE_BUTTON2_DRAG = 22,
    /* Button 3, the right one: the mouse moves while it is down. */
    CSICODEC_MOUSE_BUTTON3_DRAG = 23,
    /* No button: the mouse moves. */
    CSICODEC_MOUSE_NONE = 0
};

/* How flags change what the keyboard reports. */
enum csicodec_kitty_keyboard_mode {
    /* They take the place of the old ones. */
    CSICODEC_KITTY_KEYBOARD_MODE_ASSIGN_ALL = 1,
    /* They are added. */
    CSICODEC_KITTY_KEYBOARD_MODE_SET_SPECIFIED = 2,
    /* They are taken away. */
    CSICODEC_KITTY_KEYBOARD_MODE_CLEAR_SPECIFIED = 3
};

/* SCP (ECMA-48, 8.3.111): the path of characters. */
enum csicodec_character_path {
    /* As the terminal has it: 0, or no number, of freedesktop's recommendation on bidirectional text; ECMA-48 has 1 and 2
     * alone. */
    CSICODEC_CHARACTER_PATH_IMPLEMENTATION_DEFAULT = 0,
    /* From left to right, or from top to bottom. */
    CSICODEC_CHARACTER_PATH_LEFT_TO_RIGHT_OR_TOP_TO_BOTTOM = 1,
    /* From right to left, or from bottom to top. */
    CSICODEC_CHARACTER_PATH_RIGHT_TO_LEFT_OR_BOTTOM_TO_TOP = 2
};

/* The codes of escape sequences. A code's number is that of its last character, and 256 times that of the one before it, if
 * any. */
enum csicodec_esc_code {
    /* ESC c, RIS (ECMA-48): puts the terminal into the state that it has when it is switched on. */
    CSICODEC_ESC_FULL_RESET = 99,
    /* ESC D, IND (DEC VT100; ECMA-48, 4th edition and before): moves the cursor down one line in its column, and scrolls up at
     * the bottom margin. A VT52 takes it as a move to the left. */
    CSICODEC_ESC_INDEX = 68,
    /* ESC E, NEL (ECMA-48): moves the cursor to the start of the next line, and scrolls up at the bottom margin. */
    CSICODEC_ESC_NEXT_LINE = 69,
    /* ESC F (xterm's ctlseqs): moves the cursor to the lower left corner, where xterm is set up for programs that send it to
     * any terminal (hpLowerleftBugCompat). ECMA-48 has SSA here, the start of a selected area. */
    CSICODEC_ESC_CURSOR_POSITION_LOWER_LEFT = 70,
    /* ESC H, HTS (ECMA-48): sets a tab stop in the cursor's column. */
    CSICODEC_ESC_HORIZONTAL_TAB_SET = 72,
    /* ESC M, RI (ECMA-48): moves the cursor up one line in its column, and scrolls down at the top margin. */
    CSICODEC_ESC_REVERSE_INDEX = 77,
    /* ESC N, SS2 (ECMA-48): the next character, and it alone, is taken from the set G2. */
    CSICODEC_ESC_SINGLE_SHIFT_G2 = 78,
    /* ESC O, SS3 (ECMA-48): the next character, and it alone, is taken from the set G3. */
    CSICODEC_ESC_SINGLE_SHIFT_G3 = 79,
    /* ESC V, SPA (ECMA-48): the cursor's place is the first of those that are guarded, against change by hand and against
     * transfer. */
    CSICODEC_ESC_START_OF_GUARDED_AREA = 86,
    /* ESC W, EPA (ECMA-48): the cursor's place is the last of the guarded ones. */
    CSICODEC_ESC_END_OF_GUARDED_AREA = 87,
    /* ESC X, SOS (ECMA-48): opens a string of characters, up to StringTerminator. Terminals skip it. */
    CSICODEC_ESC_START_OF_STRING = 88,
    /* ESC Z, DECID (DEC VT100): asks what terminal this is. The control sequence DA took its place. ECMA-48 has SCI here, of
     * which the next byte is a part. */
    CSICODEC_ESC_RETURN_TERMINAL_ID = 90,
    /* ESC \, ST (ECMA-48): closes the string that a control such as OSC, DCS, SOS, PM or APC opened. */
    CSICODEC_ESC_STRING_TERMINATOR = 92,
    /* ESC ^, PM (ECMA-48): opens a privacy message, up to StringTerminator. Terminals skip it. */
    CSICODEC_ESC_PRIVACY_MESSAGE = 94,
    /* ESC _, APC (ECMA-48): opens a command to a program, up to StringTerminator. Most terminals skip it. */
    CSICODEC_ESC_APPLICATION_PROGRAM_COMMAND = 95,
    /* ESC k (GNU Screen, tmux): opens a title of the window, up to StringTerminator. */
    CSICODEC_ESC_TMUX_TITLE = 107,
    /* ESC 6, DECBI (DEC VT420): moves the cursor one column to the left, and at the left margin moves what stands within the
     * margins one column to the right. */
    CSICODEC_ESC_DEC_BACK_INDEX = 54,
    /* ESC 7, DECSC (DEC VT100): saves the cursor's position, and with it the attributes and the character sets. */
    CSICODEC_ESC_DEC_SAVE_CURSOR_POSITION = 55,
    /* ESC 8, DECRC (DEC VT100): restores what DecSaveCursorPosition saved. */
    CSICODEC_ESC_DEC_RESTORE_CURSOR_POSITION = 56,
    /* ESC =, DECKPAM (DEC VT100): the keys of the keypad send sequences of their own. */
    CSICODEC_ESC_DEC_APPLICATION_KEY_PAD = 61,
    /* ESC >, DECKPNM (DEC VT100): the keys of the keypad send the characters that stand on them. */
    CSICODEC_ESC_DEC_NORMAL_KEY_PAD = 62,
    /* ESC ( 0, SCS (DEC VT100): makes DEC's special graphics, with which lines are drawn, the set G0. */
    CSICODEC_ESC_DEC_LINE_DRAWING_G0 = 10288,
    /* ESC ( A, SCS (DEC VT100): makes the British characters the set G0. */
    CSICODEC_ESC_UK_CHARACTER_SET_G0 = 10305,
    /* ESC ( B, SCS (DEC VT100): makes ASCII the set G0. */
    CSICODEC_ESC_ASCII_CHARACTER_SET_G0 = 10306,
    /* ESC ) 0, SCS (DEC VT100): makes DEC's special graphics, with which lines are drawn, the set G1. */
    CSICODEC_ESC_DEC_LINE_DRAWING_G1 = 10544,
    /* ESC ) A, SCS (DEC VT100): makes the British characters the set G1. */
    CSICODEC_ESC_UK_CHARACTER_SET_G1 = 10561,
    /* ESC ) B, SCS (DEC VT100): makes ASCII the set G1. */
    CSICODEC_ESC_ASCII_CHARACTER_SET_G1 = 10562,
    /* ESC # 8, DECALN (DEC VT100): fills the screen with the letter E, to adjust the display by. */
    CSICODEC_ESC_DEC_SCREEN_ALIGNMENT_DISPLAY = 9016,
    /* ESC # 3, DECDHL (DEC VT100): the cursor's line shows the top half of characters of double height and width. */
    CSICODEC_ESC_DEC_DOUBLE_HEIGHT_TOP_HALF_LINE = 9011,
    /* ESC # 4, DECDHL (DEC VT100): the cursor's line shows the bottom half of characters of double height and width. */
    CSICODEC_ESC_DEC_DOUBLE_HEIGHT_BOTTOM_HALF_LINE = 9012,
    /* ESC # 5, DECSWL (DEC VT100): the cursor's line shows characters of single height and width. */
    CSICODEC_ESC_DEC_SINGLE_WIDTH_LINE = 9013,
    /* ESC # 6, DECDWL (DEC VT100): the cursor's line shows characters of double width and single height. */
    CSICODEC_ESC_DEC_DOUBLE_WIDTH_LINE = 9014,
    /* ESC O A (DEC VT100): sent by a terminal for the arrow up, while its cursor keys are in application mode (DECCKM). */
    CSICODEC_ESC_APPLICATION_MODE_ARROW_UP_PRESS = 20289,
    /* ESC O B (DEC VT100): sent for the arrow down, in the same mode. */
    CSICODEC_ESC_APPLICATION_MODE_ARROW_DOWN_PRESS = 20290,
    /* ESC O C (DEC VT100): sent for the arrow to the right, in the same mode. */
    CSICODEC_ESC_APPLICATION_MODE_ARROW_RIGHT_PRESS = 20291,
    /* ESC O D (DEC VT100): sent for the arrow to the left, in the same mode. */
    CSICODEC_ESC_APPLICATION_MODE_ARROW_LEFT_PRESS = 20292,
    /* ESC O H (xterm's ctlseqs): sent for Home, in the same mode. */
    CSICODEC_ESC_APPLICATION_MODE_HOME_PRESS = 20296,
    /* ESC O F (xterm's ctlseqs): sent for End, in the same mode. */
    CSICODEC_ESC_APPLICATION_MODE_END_PRESS = 20294,
    /* ESC O P (xterm's ctlseqs): sent by a terminal for F1, on a DEC VT100 for PF1. */
    CSICODEC_ESC_F1_PRESS = 20304,
    /* ESC O Q (xterm's ctlseqs): sent for F2, on a DEC VT100 for PF2. */
    CSICODEC_ESC_F2_PRESS = 20305,
    /* ESC O R (xterm's ctlseqs): sent for F3, on a DEC VT100 for PF3. */
    CSICODEC_ESC_F3_PRESS = 20306,
    /* ESC O S (xterm's ctlseqs): sent for F4, on a DEC VT100 for PF4. */
    CSICODEC_ESC_F4_PRESS = 20307
};

/* Which row of docs/SEQUENCES.md reads a list that no action has: kind of struct csicodec_known. The comment says what stands
 * behind CSI, each value by its name. */
enum csicodec_known_kind {
    /* ? extent 0-3 (or 0) J : erase in the display what isn't protected */
    CSICODEC_KNOWN_DECSED = 10001,
    /* ? extent 0-2 (or 0) K : erase in the line what isn't protected */
    CSICODEC_KNOWN_DECSEL = 10002,
    /* protection 0-2 (or 0) " q : protection of the characters that follow */
    CSICODEC_KNOWN_DECSCA = 10003,
    /* level 61-65; controls 0-2 (or 0) " p : conformance level, and the form of C1 controls */
    CSICODEC_KNOWN_DECSCL = 10004,
    /* rate 0-3 (or 0) " t : refresh rate of the screen */
    CSICODEC_KNOWN_DECSRFR = 10005,
    /* limit 0-9 (or 0) " u : limit of the transmit rate */
    CSICODEC_KNOWN_DECSTRL = 10006,
    /* columns (or 1) ' } : insert columns */
    CSICODEC_KNOWN_DECIC = 10007,
    /* columns (or 1) ' ~ : delete columns */
    CSICODEC_KNOWN_DECDC = 10008,
    /* reports 0-2 (or 0); unit 0-2 (or 0) ' z : locator reports */
    CSICODEC_KNOWN_DECELR = 10009,
    /* events 0-4 (or 0); more 0-4 .. ' { : which events of the locator are reported */
    CSICODEC_KNOWN_DECSLE = 10010,
    /* top (or 0); left (or 0); bottom (or 0); right (or 0) ' w : filter rectangle of the locator */
    CSICODEC_KNOWN_DECEFR = 10011,
    /* delay 0-65535 (or 0) $ q : delay of disconnecting */
    CSICODEC_KNOWN_DECSDDT = 10012,
    /* printer 0-65535 (or 0) $ s : type of the printer */
    CSICODEC_KNOWN_DECSPRTT = 10013,
    /* top (or 1); left (or 1); bottom (or 0); right (or 0); attribute (or 0); more .. $ r : change attributes in a rectangle */
    CSICODEC_KNOWN_DECCARA = 10014,
    /* top (or 1); left (or 1); bottom (or 0); right (or 0); attribute (or 0); more .. $ t : reverse attributes in a rectangle */
    CSICODEC_KNOWN_DECRARA = 10015,
    /* top (or 1); left (or 1); bottom (or 0); right (or 0); page (or 1); to top (or 1); to left (or 1); to page (or 1) $ v :
     * copy a rectangle */
    CSICODEC_KNOWN_DECCRA = 10016,
    /* character (or 32); top (or 1); left (or 1); bottom (or 0); right (or 0) $ x : fill a rectangle with a character */
    CSICODEC_KNOWN_DECFRA = 10017,
    /* top (or 1); left (or 1); bottom (or 0); right (or 0) $ z : erase a rectangle */
    CSICODEC_KNOWN_DECERA = 10018,
    /* top (or 1); left (or 1); bottom (or 0); right (or 0) $ { : erase in a rectangle what isn't protected */
    CSICODEC_KNOWN_DECSERA = 10019,
    /* extent 0-2 (or 0) * x : whether DECCARA and DECRARA change a stream of lines (0 and 1) or a rectangle */
    CSICODEC_KNOWN_DECSACE = 10020,
    /* columns 0-255 (or 80) $ | : columns a page */
    CSICODEC_KNOWN_DECSCPP = 10021,
    /* display 0-1 (or 0) $ } : whether characters go to the screen or to the status line */
    CSICODEC_KNOWN_DECSASD = 10022,
    /* line 0-2 (or 0) $ ~ : status line: none, the terminal's own, or one for programs */
    CSICODEC_KNOWN_DECSSDT = 10023,
    /* lines 0-255 (or 24) * | : lines on the screen */
    CSICODEC_KNOWN_DECSNLS = 10024,
    /* & x : enable the session */
    CSICODEC_KNOWN_DECES = 10025,
    /* set 0-65535 (or 0) * p : character set of the ProPrinter */
    CSICODEC_KNOWN_DECSPPCS = 10026,
    /* line 0-5 (or 0); speed 0-11 (or 0) * r : speed of a line */
    CSICODEC_KNOWN_DECSCS = 10027,
    /* direction (or 0); kind (or 0); level (or 0) * s : flow control */
    CSICODEC_KNOWN_DECSFC = 10028,
    /* port 0-2 (or 0); host (or 0) * u : communication port */
    CSICODEC_KNOWN_DECSCP = 10029,
    /* macro 0-63 (or 0) * z : run a macro */
    CSICODEC_KNOWN_DECINVM = 10030,
    /* key 0-8 (or 0); control 0-3 (or 0) * } : local function keys */
    CSICODEC_KNOWN_DECLFKC = 10031,
    /* confirmation 0-16383 (or 0) + p : secure reset */
    CSICODEC_KNOWN_DECSR = 10032,
    /* function 0-5 (or 0); control 0-2 (or 0) + q : local functions */
    CSICODEC_KNOWN_DECELF = 10033,
    /* key (or 0); report (or 0) + r : reports of modifier keys */
    CSICODEC_KNOWN_DECSMKR = 10034,
    /* port (or 0); bits (or 0); parity (or 0); stop (or 0) + w : parameters of a port */
    CSICODEC_KNOWN_DECSPP = 10035,
    /* table 0-3 (or 0) ) { : colour look-up table */
    CSICODEC_KNOWN_DECSTGLT = 10036,
    /* hour 0-23 (or 0); minute 0-59 (or 0) , p : time of day */
    CSICODEC_KNOWN_DECLTOD = 10037,
    /* terminal 0-10 (or 0) , q : the terminal ID that is told */
    CSICODEC_KNOWN_DECTID = 10038,
    /* session 0-1 (or 0) , y : update the session */
    CSICODEC_KNOWN_DECUS = 10039,
    /* style 0-2 (or 0) , { : how zero is written */
    CSICODEC_KNOWN_DECSZS = 10040,
    /* item 1-2; foreground 0-255; background 0-255 , | : colours of text */
    CSICODEC_KNOWN_DECAC = 10041,
    /* attribute 0-15; foreground 0-255; background 0-255 , } : colours of an attribute */
    CSICODEC_KNOWN_DECATC = 10042,
    /* volume 0-7; duration 0-255; note 0-25 (or 0); more 0-25 .. , ~ : play notes */
    CSICODEC_KNOWN_DECPS = 10043,
    /* minutes 0-60 (or 15) - q : time to the screen saver */
    CSICODEC_KNOWN_DECCRTST = 10044,
    /* minutes 0-60 (or 15) - r : time to saving energy */
    CSICODEC_KNOWN_DECSEST = 10045,
    /* rate 0-30 (or 30) - p : rate of auto-repeat */
    CSICODEC_KNOWN_DECARR = 10046,
    /* volume 0-8 (or 0) SP r : volume of the key click */
    CSICODEC_KNOWN_DECSKCV = 10047,
    /* volume 0-8 (or 0) SP t : volume of the warning bell */
    CSICODEC_KNOWN_DECSWBV = 10048,
    /* volume 0-8 (or 0) SP u : volume of the margin bell */
    CSICODEC_KNOWN_DECSMBV = 10049,
    /* style 0-1 (or 0) SP v : style of the lock key */
    CSICODEC_KNOWN_DECSLCK = 10050,
    /* speed 0-9 (or 0) SP p : speed of scrolling */
    CSICODEC_KNOWN_DECSSCLS = 10051,
    /* language 0-65535 (or 0); layout 0-65535 (or 0) SP } : language of the keyboard */
    CSICODEC_KNOWN_DECKBD = 10052,
    /* mode 0-7 (or 0) SP ~ : terminal mode emulation */
    CSICODEC_KNOWN_DECTME = 10053,
    /* ? 5 W : tab stops at every 8 columns */
    CSICODEC_KNOWN_DECST8C = 10054,
    /* ? 1 i : print the line of the cursor */
    CSICODEC_KNOWN_MC_PRINT_CURSOR_LINE = 10055,
    /* ? 4 i : auto print off */
    CSICODEC_KNOWN_MC_AUTO_PRINT_OFF = 10056,
    /* ? 5 i : auto print on */
    CSICODEC_KNOWN_MC_AUTO_PRINT_ON = 10057,
    /* ? 10 i : print the whole display */
    CSICODEC_KNOWN_MC_PRINT_DISPLAY = 10058,
    /* ? 11 i : print all pages */
    CSICODEC_KNOWN_MC_PRINT_ALL_PAGES = 10059,
    /* 0 (or 0) q : all lights of the keyboard off */
    CSICODEC_KNOWN_DECLL_ALL_OFF = 10060,
    /* 1 q : num lock light on */
    CSICODEC_KNOWN_DECLL_NUM_LOCK_ON = 10061,
    /* 2 q : caps lock light on */
    CSICODEC_KNOWN_DECLL_CAPS_LOCK_ON = 10062,
    /* 3 q : scroll lock light on */
    CSICODEC_KNOWN_DECLL_SCROLL_LOCK_ON = 10063,
    /* 21 q : num lock light off */
    CSICODEC_KNOWN_DECLL_NUM_LOCK_OFF = 10064,
    /* 22 q : caps lock light off */
    CSICODEC_KNOWN_DECLL_CAPS_LOCK_OFF = 10065,
    /* 23 q : scroll lock light off */
    CSICODEC_KNOWN_DECLL_SCROLL_LOCK_OFF = 10066,
    /* kind 2-4; test (or 0); more .. y : self-test */
    CSICODEC_KNOWN_DECTST = 10067,
    /* lines 24-47 t : lines a page, up to 47 */
    CSICODEC_KNOWN_DECSLPP_UP_TO_47 = 10068,
    /* lines 49-255 t : lines a page, from 49 on */
    CSICODEC_KNOWN_DECSLPP_FROM_49 = 10069,
    /* 48 t : 48 lines a page */
    CSICODEC_KNOWN_DECSLPP_48 = 10070,
    /* extent 0-2 (or 0) N : erase in the field */
    CSICODEC_KNOWN_EF = 10071,
    /* extent 0-2 O : erase in the area */
    CSICODEC_KNOWN_EA = 10072,
    /* extent 0-4 (or 0) Q : select the extent of editing */
    CSICODEC_KNOWN_SEE = 10073,
    /* pages (or 1) U : pages forward */
    CSICODEC_KNOWN_NP = 10074,
    /* pages (or 1) V : pages back */
    CSICODEC_KNOWN_PP = 10075,
    /* string 0-1 (or 0) [ : start or end a reversed string */
    CSICODEC_KNOWN_SRS = 10076,
    /* text 0-5 (or 0) \ : parallel texts */
    CSICODEC_KNOWN_PTX = 10077,
    /* direction 0-1 (or 0) ^ : implicit direction of movement */
    CSICODEC_KNOWN_SIMD = 10078,
    /* kind 0-11 (or 0) o : qualify an area */
    CSICODEC_KNOWN_DAQ = 10079,
    /* string 0-1 (or 0) ] : start or end a directed string */
    CSICODEC_KNOWN_SDS = 10080,
    /* 0 (or 0) i : print the screen */
    CSICODEC_KNOWN_MC_PRINT_SCREEN = 10081,
    /* 1 i : transfer from the first device */
    CSICODEC_KNOWN_MC_FROM_FIRST_DEVICE = 10082,
    /* 2 i : transfer to the second device */
    CSICODEC_KNOWN_MC_TO_SECOND_DEVICE = 10083,
    /* 3 i : transfer from the second device */
    CSICODEC_KNOWN_MC_FROM_SECOND_DEVICE = 10084,
    /* 4 i : printer controller off */
    CSICODEC_KNOWN_MC_PRINTER_CONTROLLER_OFF = 10085,
    /* 5 i : printer controller on */
    CSICODEC_KNOWN_MC_PRINTER_CONTROLLER_ON = 10086,
    /* 6 i : relay to the second device off */
    CSICODEC_KNOWN_MC_SECOND_RELAY_OFF = 10087,
    /* 7 i : relay to the second device on */
    CSICODEC_KNOWN_MC_SECOND_RELAY_ON = 10088,
    /* 0 n : answer: ready, no malfunction */
    CSICODEC_KNOWN_DSR_READY = 10089,
    /* 1 n : answer: busy, ask again */
    CSICODEC_KNOWN_DSR_BUSY_ASK_AGAIN = 10090,
    /* 2 n : answer: busy, another answer follows */
    CSICODEC_KNOWN_DSR_BUSY_ANSWER_FOLLOWS = 10091,
    /* 3 n : answer: malfunction, ask again */
    CSICODEC_KNOWN_DSR_MALFUNCTION_ASK_AGAIN = 10092,
    /* 4 n : answer: malfunction, another answer follows */
    CSICODEC_KNOWN_DSR_MALFUNCTION_ANSWER_FOLLOWS = 10093,
    /* columns (or 1) SP @ : scroll left */
    CSICODEC_KNOWN_SL = 10094,
    /* columns (or 1) SP A : scroll right */
    CSICODEC_KNOWN_SR = 10095,
    /* height (or 100); width (or 100) SP B : size of characters, in percent */
    CSICODEC_KNOWN_GSM = 10096,
    /* size SP C : size of characters */
    CSICODEC_KNOWN_GSS = 10097,
    /* font 0-9 (or 0); set (or 0) SP D : a font */
    CSICODEC_KNOWN_FNT = 10098,
    /* width SP E : width of a thin space */
    CSICODEC_KNOWN_TSS = 10099,
    /* how 0-8 (or 0) SP F : justify the text */
    CSICODEC_KNOWN_JFY = 10100,
    /* lines; characters SP G : spacing of lines and characters */
    CSICODEC_KNOWN_SPI = 10101,
    /* how 0-6 (or 0) SP H : place the text of the line */
    CSICODEC_KNOWN_QUAD = 10102,
    /* unit 0-8 (or 0) SP I : unit of size */
    CSICODEC_KNOWN_SSU = 10103,
    /* format 0-15 (or 0) SP J : format of the page */
    CSICODEC_KNOWN_PFS = 10104,
    /* spacing 0-6 (or 0) SP K : character spacing */
    CSICODEC_KNOWN_SHS = 10105,
    /* spacing 0-9 (or 0) SP L : line spacing */
    CSICODEC_KNOWN_SVS = 10106,
    /* repertoire SP M : graphic subrepertoire */
    CSICODEC_KNOWN_IGS = 10107,
    /* kind SP O : what device control strings are */
    CSICODEC_KNOWN_IDCS = 10108,
    /* page (or 1) SP P : to a page */
    CSICODEC_KNOWN_PPA = 10109,
    /* pages (or 1) SP Q : pages forward, place kept */
    CSICODEC_KNOWN_PPR = 10110,
    /* pages (or 1) SP R : pages back, place kept */
    CSICODEC_KNOWN_PPB = 10111,
    /* direction 0-7 (or 0); effect 0-2 (or 0) SP S : directions of lines and characters */
    CSICODEC_KNOWN_SPD = 10112,
    /* height; width SP T : dimensions of the text area */
    CSICODEC_KNOWN_DTA = 10113,
    /* column SP U : line home */
    CSICODEC_KNOWN_SLH = 10114,
    /* column SP V : line limit */
    CSICODEC_KNOWN_SLL = 10115,
    /* key SP W : a function key */
    CSICODEC_KNOWN_FNK = 10116,
    /* quality 0-2 (or 0) SP X : print quality */
    CSICODEC_KNOWN_SPQR = 10117,
    /* bin (or 0); stacker (or 0) SP Y : sheet eject and feed */
    CSICODEC_KNOWN_SEF = 10118,
    /* how 0-2 (or 0) SP Z : expand or contract characters */
    CSICODEC_KNOWN_PEC = 10119,
    /* width SP [ : width of a space */
    CSICODEC_KNOWN_SSW = 10120,
    /* width (or 0) SP \ : additional character separation */
    CSICODEC_KNOWN_SACS = 10121,
    /* variant 0-22 (or 0) SP ] : alternative presentation */
    CSICODEC_KNOWN_SAPV = 10122,
    /* stop SP ^ : selective tabulation */
    CSICODEC_KNOWN_STAB = 10123,
    /* how 0-2 (or 0) SP _ : combine characters */
    CSICODEC_KNOWN_GCC = 10124,
    /* column SP ` : tab stop at the trailing edge */
    CSICODEC_KNOWN_TATE = 10125,
    /* column SP a : tab stop at the leading edge */
    CSICODEC_KNOWN_TALE = 10126,
    /* column SP b : centred tab stop */
    CSICODEC_KNOWN_TAC = 10127,
    /* column; character (or 32) SP c : tab stop centred on a character */
    CSICODEC_KNOWN_TCC = 10128,
    /* column SP d : remove a tab stop */
    CSICODEC_KNOWN_TSR = 10129,
    /* turn 0-7 (or 0) SP e : orientation of characters */
    CSICODEC_KNOWN_SCO = 10130,
    /* width (or 0) SP f : reduced character separation */
    CSICODEC_KNOWN_SRCS = 10131,
    /* spacing SP g : character spacing */
    CSICODEC_KNOWN_SCS = 10132,
    /* spacing SP h : line spacing */
    CSICODEC_KNOWN_SLS = 10133,
    /* line SP i : page home */
    CSICODEC_KNOWN_SPH = 10134,
    /* line SP j : page limit */
    CSICODEC_KNOWN_SPL = 10135,
    /* attribute .. # { : push attributes, all where none is named */
    CSICODEC_KNOWN_XTPUSHSGR = 10136,
    /* attribute .. # p : push attributes, all where none is named */
    CSICODEC_KNOWN_XTPUSHSGR_P = 10137,
    /* # } : pop the attributes */
    CSICODEC_KNOWN_XTPOPSGR = 10138,
    /* # q : pop the attributes */
    CSICODEC_KNOWN_XTPOPSGR_Q = 10139,
    /* place 0-10 (or 0) # P : push the colours */
    CSICODEC_KNOWN_XTPUSHCOLORS = 10140,
    /* place 0-10 (or 0) # Q : pop the colours */
    CSICODEC_KNOWN_XTPOPCOLORS = 10141,
    /* bits 0-63 (or 0) # y : how checksums are made */
    CSICODEC_KNOWN_XTCHECKSUM = 10142,
    /* > resource 0-7 (or 2) n : modifiers of keys off */
    CSICODEC_KNOWN_XTMODKEYS = 10143,
    /* > hides 0-3 (or 1) p : when the pointer is hidden */
    CSICODEC_KNOWN_XTSMPOINTER = 10144,
    /* > shift 0-3 (or 0) s : whether shift is a modifier in mouse reports */
    CSICODEC_KNOWN_XTSHIFTESCAPE = 10145,
    /* > form 0-3; more 0-3 .. t : set the form of titles */
    CSICODEC_KNOWN_XTSMTITLE = 10146,
    /* > form 0-3; more 0-3 .. T : reset the form of titles */
    CSICODEC_KNOWN_XTRMTITLE = 10147,
    /* function; column; line; first; last T : highlight while the mouse is moved */
    CSICODEC_KNOWN_XTHIMOUSE = 10148,
    /* lines 2- ^ : scroll down */
    CSICODEC_KNOWN_SD = 10149,
    /* 22 t : push the icon name and the window title */
    CSICODEC_KNOWN_XTWINOPS_PUSH_TITLES = 10150,
    /* 23 t : pop the icon name and the window title */
    CSICODEC_KNOWN_XTWINOPS_POP_TITLES = 10151,
    /* 10 i : HTML copy of the screen */
    CSICODEC_KNOWN_MC_HTML_COPY = 10152,
    /* 11 i : SVG copy of the screen */
    CSICODEC_KNOWN_MC_SVG_COPY = 10153,
    /* lines (or 1) + T : scroll down out of the scrollback */
    CSICODEC_KNOWN_UNSCROLL = 10154,
    /* 1; colour ] : colour for underline */
    CSICODEC_KNOWN_LINUX_UNDERLINE_COLOR = 10155,
    /* 2; colour ] : colour for faint */
    CSICODEC_KNOWN_LINUX_FAINT_COLOR = 10156,
    /* 8 ] : make the current colours the default */
    CSICODEC_KNOWN_LINUX_DEFAULT_COLORS = 10157,
    /* 9; minutes ] : minutes to a blank screen */
    CSICODEC_KNOWN_LINUX_BLANK_MINUTES = 10158,
    /* 10; pitch ] : pitch of the bell, in hertz */
    CSICODEC_KNOWN_LINUX_BELL_PITCH = 10159,
    /* 11; length ] : length of the bell, in milliseconds */
    CSICODEC_KNOWN_LINUX_BELL_LENGTH = 10160,
    /* 12; console ] : show a console */
    CSICODEC_KNOWN_LINUX_SHOW_CONSOLE = 10161,
    /* 13 ] : unblank the screen */
    CSICODEC_KNOWN_LINUX_UNBLANK = 10162,
    /* 14; minutes ] : minutes to powering down the screen */
    CSICODEC_KNOWN_LINUX_POWER_DOWN_MINUTES = 10163,
    /* 15 ] : show the console before */
    CSICODEC_KNOWN_LINUX_CONSOLE_BEFORE = 10164,
    /* 16; interval ] : interval of the cursor's blinking, in milliseconds */
    CSICODEC_KNOWN_LINUX_BLINK_INTERVAL = 10165,
    /* ? 0 c : the cursor's look: as it was */
    CSICODEC_KNOWN_LINUX_CURSOR_AS_IT_WAS = 10166,
    /* ? look 2-3 c : the cursor's look */
    CSICODEC_KNOWN_LINUX_CURSOR_2_TO_3 = 10167,
    /* ? 5 c : the cursor's look: two thirds */
    CSICODEC_KNOWN_LINUX_CURSOR_TWO_THIRDS = 10168,
    /* ? look 8-11 c : the cursor's look */
    CSICODEC_KNOWN_LINUX_CURSOR_8_TO_11 = 10169,
    /* ? look 16-60; turned 0-255 (or 0); set 0-255 (or 0) c : the cursor's look */
    CSICODEC_KNOWN_LINUX_CURSOR_16_TO_60 = 10170,
    /* ? look 112-127; turned 0-255 (or 0); set 0-255 (or 0) c : the cursor's look */
    CSICODEC_KNOWN_LINUX_CURSOR_112_TO_127 = 10171,
    /* " v : ask which part of the page is shown */
    CSICODEC_KNOWN_DECRQDE = 10172,
    /* what 0-1 (or 0) ' | : ask for the locator's position */
    CSICODEC_KNOWN_DECRQLP = 10173,
    /* 1 $ u : ask for the terminal's state */
    CSICODEC_KNOWN_DECRQTSR_STATE = 10174,
    /* 2; space 0-2 (or 0) $ u : ask for the colour table */
    CSICODEC_KNOWN_DECRQTSR_COLORS = 10175,
    /* 1 $ w : ask for the cursor's state */
    CSICODEC_KNOWN_DECRQPSR_CURSOR = 10176,
    /* 2 $ w : ask for the tab stops */
    CSICODEC_KNOWN_DECRQPSR_TAB_STOPS = 10177,
    /* & u : ask for the user's supplemental set */
    CSICODEC_KNOWN_DECRQUPSS = 10178,
    /* ? 6 n : ask for the cursor's position and page */
    CSICODEC_KNOWN_DECXCPR_ASK = 10179,
    /* ? 15 n : ask for the printer's status */
    CSICODEC_KNOWN_DSR_ASK_PRINTER = 10180,
    /* ? 25 n : ask whether user-defined keys are locked */
    CSICODEC_KNOWN_DSR_ASK_USER_KEYS = 10181,
    /* ? 26 n : ask for the keyboard's language */
    CSICODEC_KNOWN_DSR_ASK_KEYBOARD = 10182,
    /* ? 53 n : ask for the locator's status, or answer that it is there */
    CSICODEC_KNOWN_DSR_LOCATOR = 10183,
    /* ? 55 n : ask for the locator's status */
    CSICODEC_KNOWN_DSR_ASK_LOCATOR = 10184,
    /* ? 56 n : ask for the locator's type */
    CSICODEC_KNOWN_DSR_ASK_LOCATOR_TYPE = 10185,
    /* ? 62 n : ask for the room for macros */
    CSICODEC_KNOWN_DECMSR_ASK = 10186,
    /* ? 63; request (or 0) n : ask for the checksum of the memory */
    CSICODEC_KNOWN_DECCKSR = 10187,
    /* ? 75 n : ask for the integrity of data */
    CSICODEC_KNOWN_DSR_ASK_DATA = 10188,
    /* ? 85 n : ask for the sessions */
    CSICODEC_KNOWN_DSR_ASK_SESSIONS = 10189,
    /* ? 996 n : ask for the colour scheme */
    CSICODEC_KNOWN_COLOR_SCHEME_ASK = 10190,
    /* ? resource 0-7 m : ask for the modifiers of keys */
    CSICODEC_KNOWN_XTQMODKEYS = 10191,
    /* ? resource 0-7 g : ask for the format of keys */
    CSICODEC_KNOWN_XTQFMTKEYS = 10192,
    /* top (or 1); left (or 1); bottom (or 0); right (or 0) # | : ask for the attributes in a rectangle */
    CSICODEC_KNOWN_XTREPORTSGR = 10193,
    /* # R : ask for the stack of colours */
    CSICODEC_KNOWN_XTREPORTCOLORS = 10194,
    /* # S : ask for the place on the stack of titles */
    CSICODEC_KNOWN_XTTITLEPOS = 10195,
    /* mode 0-65535; state 0-4 $ y : the state of a mode */
    CSICODEC_KNOWN_DECRPM = 10196,
    /* ? mode; state 0-4 $ y : the state of a private mode */
    CSICODEC_KNOWN_DECRPM_PRIVATE = 10197,
    /* lines; columns; left (or 1); top (or 1); page (or 1) " w : the part of the page that is shown */
    CSICODEC_KNOWN_DECRPDE = 10198,
    /* event 0-10; buttons 0-15 (or 0); line (or 0); column (or 0); page (or 0) & w : the locator's position */
    CSICODEC_KNOWN_DECLRP = 10199,
    /* confirmation 0-16383 (or 0) * q : confirmation of a secure reset */
    CSICODEC_KNOWN_DECSRC = 10200,
    /* blocks * { : room for macros, in blocks of 16 bytes */
    CSICODEC_KNOWN_DECMSR = 10201,
    /* ? line; column; page (or 1) R : the cursor's position and page */
    CSICODEC_KNOWN_DECXCPR = 10202,
    /* ? 10 n : printer ready */
    CSICODEC_KNOWN_DSR_PRINTER_READY = 10203,
    /* ? 11 n : printer not ready */
    CSICODEC_KNOWN_DSR_PRINTER_NOT_READY = 10204,
    /* ? 13 n : no printer */
    CSICODEC_KNOWN_DSR_NO_PRINTER = 10205,
    /* ? 18 n : printer busy */
    CSICODEC_KNOWN_DSR_PRINTER_BUSY = 10206,
    /* ? 19 n : printer with another session */
    CSICODEC_KNOWN_DSR_PRINTER_OF_ANOTHER_SESSION = 10207,
    /* ? 20 n : user-defined keys unlocked */
    CSICODEC_KNOWN_DSR_USER_KEYS_UNLOCKED = 10208,
    /* ? 21 n : user-defined keys locked */
    CSICODEC_KNOWN_DSR_USER_KEYS_LOCKED = 10209,
    /* ? 27; language (or 0); status (or 0); kind (or 0) n : the keyboard's language */
    CSICODEC_KNOWN_DSR_KEYBOARD = 10210,
    /* ? 50 n : no locator */
    CSICODEC_KNOWN_DSR_NO_LOCATOR = 10211,
    /* ? 57; kind (or 0) n : the locator's type */
    CSICODEC_KNOWN_DSR_LOCATOR_TYPE = 10212,
    /* ? 70 n : no data lost */
    CSICODEC_KNOWN_DSR_NO_DATA_LOST = 10213,
    /* ? 71 n : malfunction, or power cycle */
    CSICODEC_KNOWN_DSR_DATA_MALFUNCTION = 10214,
    /* ? 73 n : nothing to tell of data */
    CSICODEC_KNOWN_DSR_NOTHING_OF_DATA = 10215,
    /* ? 83 n : one session */
    CSICODEC_KNOWN_DSR_ONE_SESSION = 10216,
    /* ? 997; scheme 0-2 n : 1 a dark, 2 a light colour scheme */
    CSICODEC_KNOWN_COLOR_SCHEME = 10217,
    /* ? 4; 6 c : VT132 with advanced video and graphics */
    CSICODEC_KNOWN_DA1_VT132 = 10218,
    /* ? 7 c : VT131 */
    CSICODEC_KNOWN_DA1_VT131 = 10219,
    /* ? 12; options c : VT125 */
    CSICODEC_KNOWN_DA1_VT125 = 10220,
    /* ? 61; extension .. c : VT100 class, with its extensions */
    CSICODEC_KNOWN_DA1_VT100 = 10221,
    /* ? 65; extension .. c : VT500 class, with its extensions */
    CSICODEC_KNOWN_DA1_VT500 = 10222,
    /* > kind; firmware; options (or 0) c : type, version of the firmware, options */
    CSICODEC_KNOWN_DA2 = 10223,
    /* kind 2-3; parity 1-5; bits 1-2; sends; receives; clock; flags x : parameters of the serial line */
    CSICODEC_KNOWN_DECREPTPARM = 10224,
    /* 9; height 4-; width t : size of the display, in cells */
    CSICODEC_KNOWN_XTWINOPS_DISPLAY_SIZE = 10225,
    /* 48; lines; columns; height (or 0); width (or 0) t : size of the window, in cells and pixels */
    CSICODEC_KNOWN_IN_BAND_RESIZE = 10226,
    /* > resource 0-7; format (or 0) f : set the format of keys, or its answer */
    CSICODEC_KNOWN_XTFMTKEYS = 10227,
    /* O : focus lost */
    CSICODEC_KNOWN_FOCUS_LOST = 10228,
    /* 200 ~ : start of pasted text */
    CSICODEC_KNOWN_PASTE_START = 10229,
    /* 201 ~ : end of pasted text */
    CSICODEC_KNOWN_PASTE_END = 10230,
    /* code 32-255; column; line M : report of the mouse in urxvt's form */
    CSICODEC_KNOWN_MOUSE_URXVT = 10231,
    /* virtual; scan; character; pressed 0-1; held (or 0); times (or 1) _ : a key by Win32's record */
    CSICODEC_KNOWN_KEY_WIN32 = 10232,
    /* 27; modifiers 1-256; character ~ : a key by its character (modifyOtherKeys) */
    CSICODEC_KNOWN_KEY_MODIFY_OTHER_KEYS = 10233,
    /* character; modifiers 1-256 (or 1) u : a key by its character (kitty; formatOtherKeys of xterm) */
    CSICODEC_KNOWN_KEY_CHARACTER = 10234,
    /* 1; modifiers 2-256 A : Up, with modifiers */
    CSICODEC_KNOWN_KEY_MODIFIED_UP = 10235,
    /* 1; modifiers 2-256 B : Down, with modifiers */
    CSICODEC_KNOWN_KEY_MODIFIED_DOWN = 10236,
    /* 1; modifiers 2-256 C : Right, with modifiers */
    CSICODEC_KNOWN_KEY_MODIFIED_RIGHT = 10237,
    /* 1; modifiers 2-256 D : Left, with modifiers */
    CSICODEC_KNOWN_KEY_MODIFIED_LEFT = 10238,
    /* 1; modifiers 2-256 E : Begin, with modifiers */
    CSICODEC_KNOWN_KEY_MODIFIED_BEGIN = 10239,
    /* 1; modifiers 2-256 F : End, with modifiers */
    CSICODEC_KNOWN_KEY_MODIFIED_END = 10240,
    /* 1; modifiers 2-256 P : F1, with modifiers */
    CSICODEC_KNOWN_KEY_MODIFIED_F1 = 10241,
    /* 1; modifiers 2-256 Q : F2, with modifiers */
    CSICODEC_KNOWN_KEY_MODIFIED_F2 = 10242,
    /* 1; modifiers 2-256 S : F4, with modifiers */
    CSICODEC_KNOWN_KEY_MODIFIED_F4 = 10243,
    /* 1; modifiers 1-256 (or 1) ~ : Home */
    CSICODEC_KNOWN_KEY_HOME = 10244,
    /* 2; modifiers 1-256 (or 1) ~ : Insert */
    CSICODEC_KNOWN_KEY_INSERT = 10245,
    /* 3; modifiers 1-256 (or 1) ~ : Delete */
    CSICODEC_KNOWN_KEY_DELETE = 10246,
    /* 4; modifiers 1-256 (or 1) ~ : End */
    CSICODEC_KNOWN_KEY_END = 10247,
    /* 5; modifiers 1-256 (or 1) ~ : Page Up */
    CSICODEC_KNOWN_KEY_PAGE_UP = 10248,
    /* 6; modifiers 1-256 (or 1) ~ : Page Down */
    CSICODEC_KNOWN_KEY_PAGE_DOWN = 10249,
    /* 7; modifiers 1-256 (or 1) ~ : Home (rxvt) */
    CSICODEC_KNOWN_KEY_HOME_RXVT = 10250,
    /* 8; modifiers 1-256 (or 1) ~ : End (rxvt) */
    CSICODEC_KNOWN_KEY_END_RXVT = 10251,
    /* 11; modifiers 1-256 (or 1) ~ : F1 */
    CSICODEC_KNOWN_KEY_F1 = 10252,
    /* 12; modifiers 1-256 (or 1) ~ : F2 */
    CSICODEC_KNOWN_KEY_F2 = 10253,
    /* 13; modifiers 1-256 (or 1) ~ : F3 */
    CSICODEC_KNOWN_KEY_F3 = 10254,
    /* 14; modifiers 1-256 (or 1) ~ : F4 */
    CSICODEC_KNOWN_KEY_F4 = 10255,
    /* 15; modifiers 1-256 (or 1) ~ : F5 */
    CSICODEC_KNOWN_KEY_F5 = 10256,
    /* 17; modifiers 1-256 (or 1) ~ : F6 */
    CSICODEC_KNOWN_KEY_F6 = 10257,
    /* 18; modifiers 1-256 (or 1) ~ : F7 */
    CSICODEC_KNOWN_KEY_F7 = 10258,
    /* 19; modifiers 1-256 (or 1) ~ : F8 */
    CSICODEC_KNOWN_KEY_F8 = 10259,
    /* 20; modifiers 1-256 (or 1) ~ : F9 */
    CSICODEC_KNOWN_KEY_F9 = 10260,
    /* 21; modifiers 1-256 (or 1) ~ : F10 */
    CSICODEC_KNOWN_KEY_F10 = 10261,
    /* 23; modifiers 1-256 (or 1) ~ : F11 */
    CSICODEC_KNOWN_KEY_F11 = 10262,
    /* 24; modifiers 1-256 (or 1) ~ : F12 */
    CSICODEC_KNOWN_KEY_F12 = 10263,
    /* 25; modifiers 1-256 (or 1) ~ : F13 */
    CSICODEC_KNOWN_KEY_F13 = 10264,
    /* 26; modifiers 1-256 (or 1) ~ : F14 */
    CSICODEC_KNOWN_KEY_F14 = 10265,
    /* 28; modifiers 1-256 (or 1) ~ : F15 (Help) */
    CSICODEC_KNOWN_KEY_F15 = 10266,
    /* 29; modifiers 1-256 (or 1) ~ : F16 (Menu) */
    CSICODEC_KNOWN_KEY_F16 = 10267,
    /* 31; modifiers 1-256 (or 1) ~ : F17 */
    CSICODEC_KNOWN_KEY_F17 = 10268,
    /* 32; modifiers 1-256 (or 1) ~ : F18 */
    CSICODEC_KNOWN_KEY_F18 = 10269,
    /* 33; modifiers 1-256 (or 1) ~ : F19 */
    CSICODEC_KNOWN_KEY_F19 = 10270,
    /* 34; modifiers 1-256 (or 1) ~ : F20 */
    CSICODEC_KNOWN_KEY_F20 = 10271
};

/* Which command an OSC is. */
enum csicodec_osc_kind {
    /* What no command reads; its text is all of it. */
    CSICODEC_OSC_UNKNOWN = 0,
    /* 0: The window's title and the icon's name. */
    CSICODEC_OSC_TITLE_BOTH = 16,
    /* 1: The icon's name. */
    CSICODEC_OSC_TITLE_ICON = 17,
    /* 2: The window's title. */
    CSICODEC_OSC_TITLE_WINDOW = 18,
    /* 4: The palette, from 0 to 255; xterm takes 256 and more for the special ones. */
    CSICODEC_OSC_COLORS_INDEXED = 32,
    /* 5: Those of text that is bold (0), underlined (1), blinking (2), inverse (3) or italic (4). */
    CSICODEC_OSC_COLORS_SPECIAL = 33,
    /* 104: the same as at first. */
    CSICODEC_OSC_RESET_COLORS_INDEXED = 48,
    /* 105: the same as at first. */
    CSICODEC_OSC_RESET_COLORS_SPECIAL = 49,
    /* 10: Text. */
    CSICODEC_OSC_COLOR_FOREGROUND = 64,
    /* 11: The background. */
    CSICODEC_OSC_COLOR_BACKGROUND = 65,
    /* 12: The text cursor. */
    CSICODEC_OSC_COLOR_CURSOR = 66,
    /* 13: The pointer. */
    CSICODEC_OSC_COLOR_POINTER_FOREGROUND = 67,
    /* 14: What is around the pointer. */
    CSICODEC_OSC_COLOR_POINTER_BACKGROUND = 68,
    /* 15: Text in a window of a Tektronix terminal. */
    CSICODEC_OSC_COLOR_TEKTRONIX_FOREGROUND = 69,
    /* 16: Its background. */
    CSICODEC_OSC_COLOR_TEKTRONIX_BACKGROUND = 70,
    /* 17: The background of what is selected. */
    CSICODEC_OSC_COLOR_HIGHLIGHT_BACKGROUND = 71,
    /* 18: The cursor of a Tektronix terminal. */
    CSICODEC_OSC_COLOR_TEKTRONIX_CURSOR = 72,
    /* 19: Text that is selected. */
    CSICODEC_OSC_COLOR_HIGHLIGHT_FOREGROUND = 73,
    /* 110: the same as at first. */
    CSICODEC_OSC_RESET_COLOR_FOREGROUND = 80,
    /* 111: the same as at first. */
    CSICODEC_OSC_RESET_COLOR_BACKGROUND = 81,
    /* 112: the same as at first. */
    CSICODEC_OSC_RESET_COLOR_CURSOR = 82,
    /* 113: the same as at first. */
    CSICODEC_OSC_RESET_COLOR_POINTER_FOREGROUND = 83,
    /* 114: the same as at first. */
    CSICODEC_OSC_RESET_COLOR_POINTER_BACKGROUND = 84,
    /* 115: the same as at first. */
    CSICODEC_OSC_RESET_COLOR_TEKTRONIX_FOREGROUND = 85,
    /* 116: the same as at first. */
    CSICODEC_OSC_RESET_COLOR_TEKTRONIX_BACKGROUND = 86,
    /* 117: the same as at first. */
    CSICODEC_OSC_RESET_COLOR_HIGHLIGHT_BACKGROUND = 87,
    /* 118: the same as at first. */
    CSICODEC_OSC_RESET_COLOR_TEKTRONIX_CURSOR = 88,
    /* 119: the same as at first. */
    CSICODEC_OSC_RESET_COLOR_HIGHLIGHT_FOREGROUND = 89,
    /* 7: As an address, file://host/path with % and two digits for other bytes. */
    CSICODEC_OSC_FOLDER_ADDRESS = 96,
    /* 9;9: As a path, with or without quotation marks (ConEmu, Windows Terminal). */
    CSICODEC_OSC_FOLDER_PATH = 97,
    /* 133;A: The prompt begins. */
    CSICODEC_OSC_PROMPT_PROMPT = 112,
    /* 133;B: The prompt is over, and the command line begins. */
    CSICODEC_OSC_PROMPT_COMMAND = 113,
    /* 133;C: The output begins. */
    CSICODEC_OSC_PROMPT_OUTPUT = 114,
    /* 133;D: The command is over; its first field may be the status. */
    CSICODEC_OSC_PROMPT_END = 115,
    /* 133;I: The command line begins, and ends with the line. */
    CSICODEC_OSC_PROMPT_COMMAND_LINE = 116,
    /* 133;L: A new line, unless the cursor is at the beginning of one. */
    CSICODEC_OSC_PROMPT_FRESH_LINE = 117,
    /* 133;N: The last command is over, and a prompt begins. */
    CSICODEC_OSC_PROMPT_NEXT_PROMPT = 118,
    /* 133;P: A prompt begins, of the kind that its fields say. */
    CSICODEC_OSC_PROMPT_PROMPT_PART = 119,
    /* 633;A: The prompt begins. */
    CSICODEC_OSC_EDITOR_PROMPT = 128,
    /* 633;B: The prompt is over, and the command line begins. */
    CSICODEC_OSC_EDITOR_COMMAND = 129,
    /* 633;C: The output begins. */
    CSICODEC_OSC_EDITOR_OUTPUT = 130,
    /* 633;D: The command is over; its first field may be the status. */
    CSICODEC_OSC_EDITOR_END = 131,
    /* 633;E: The command line itself, and a nonce. */
    CSICODEC_OSC_EDITOR_COMMAND_TEXT = 132,
    /* 633;F: A prompt for a further line begins. */
    CSICODEC_OSC_EDITOR_CONTINUATION = 133,
    /* 633;G: It is over. */
    CSICODEC_OSC_EDITOR_CONTINUATION_END = 134,
    /* 633;H: A prompt at the right begins. */
    CSICODEC_OSC_EDITOR_RIGHT_PROMPT = 135,
    /* 633;I: It is over. */
    CSICODEC_OSC_EDITOR_RIGHT_PROMPT_END = 136,
    /* 633;P: A property, name=value. */
    CSICODEC_OSC_EDITOR_PROPERTY = 137,
    /* 9;4;0: Not at all. */
    CSICODEC_OSC_PROGRESS_OFF = 144,
    /* 9;4;1: With a percentage. */
    CSICODEC_OSC_PROGRESS_SHOWN = 145,
    /* 9;4;2: As failed. */
    CSICODEC_OSC_PROGRESS_FAILED = 146,
    /* 9;4;3: Without a percentage. */
    CSICODEC_OSC_PROGRESS_BUSY = 147,
    /* 9;4;4: As paused. */
    CSICODEC_OSC_PROGRESS_PAUSED = 148,
    /* 8: What is printed from now on leads to the second text, an address; the first has parameters. Without an address the
     * link ends. */
    CSICODEC_OSC_LINK = 160,
    /* 52: The clipboard, by the letters of the first text; the second is its content in base64, or ?, a question for it. */
    CSICODEC_OSC_CLIPBOARD = 161,
    /* 22: The shape of the pointer. */
    CSICODEC_OSC_POINTER = 162,
    /* 99: A notification of kitty: its metadata, and its text. */
    CSICODEC_OSC_KITTY_NOTICE = 163,
    /* 777;notify: A notification: its title, and its text. */
    CSICODEC_OSC_TITLED_NOTICE = 164,
    /* 9: A notification. */
    CSICODEC_OSC_NOTICE = 165
};

/* Which key it is. The same key of the keypad is another one. */
enum csicodec_key_code {
    /* The key of a character, as it types it without modifiers: a, also where shift makes it A. Where the encoding says only
     * what is typed, it is that. */
    CSICODEC_KEY_CHAR = 0,
    /* A function key, by its number. */
    CSICODEC_KEY_F = 1,
    /* The return key. */
    CSICODEC_KEY_ENTER = 2,
    /* Esc. */
    CSICODEC_KEY_ESCAPE = 3,
    /* Tab; with shift it goes back. */
    CSICODEC_KEY_TAB = 4,
    /* The key that erases to the left. */
    CSICODEC_KEY_BACKSPACE = 5,
    /* Insert. */
    CSICODEC_KEY_INSERT = 6,
    /* Delete. */
    CSICODEC_KEY_DELETE = 7,
    /* The arrow to the left. */
    CSICODEC_KEY_LEFT = 8,
    /* The arrow to the right. */
    CSICODEC_KEY_RIGHT = 9,
    /* The arrow up. */
    CSICODEC_KEY_UP = 10,
    /* The arrow down. */
    CSICODEC_KEY_DOWN = 11,
    /* Page up, DEC's Prev Screen. */
    CSICODEC_KEY_PAGE_UP = 12,
    /* Page down, DEC's Next Screen. */
    CSICODEC_KEY_PAGE_DOWN = 13,
    /* Home, DEC's Find. */
    CSICODEC_KEY_HOME = 14,
    /* End, DEC's Select. */
    CSICODEC_KEY_END = 15,
    /* Caps lock. */
    CSICODEC_KEY_CAPS_LOCK = 16,
    /* Scroll lock. */
    CSICODEC_KEY_SCROLL_LOCK = 17,
    /* Num lock. */
    CSICODEC_KEY_NUM_LOCK = 18,
    /* Print screen. */
    CSICODEC_KEY_PRINT_SCREEN = 19,
    /* Pause. */
    CSICODEC_KEY_PAUSE = 20,
    /* The key of the menu, Apps of Windows. */
    CSICODEC_KEY_MENU = 21,
    /* 0 on the keypad. */
    CSICODEC_KEY_KEYPAD0 = 22,
    /* 1 on the keypad. */
    CSICODEC_KEY_KEYPAD1 = 23,
    /* 2 on the keypad. */
    CSICODEC_KEY_KEYPAD2 = 24,
    /* 3 on the keypad. */
    CSICODEC_KEY_KEYPAD3 = 25,
    /* 4 on the keypad. */
    CSICODEC_KEY_KEYPAD4 = 26,
    /* 5 on the keypad. */
    CSICODEC_KEY_KEYPAD5 = 27,
    /* 6 on the keypad. */
    CSICODEC_KEY_KEYPAD6 = 28,
    /* 7 on the keypad. */
    CSICODEC_KEY_KEYPAD7 = 29,
    /* 8 on the keypad. */
    CSICODEC_KEY_KEYPAD8 = 30,
    /* 9 on the keypad. */
    CSICODEC_KEY_KEYPAD9 = 31,
    /* The decimal point on the keypad. */
    CSICODEC_KEY_KEYPAD_DECIMAL = 32,
    /* / on the keypad. */
    CSICODEC_KEY_KEYPAD_DIVIDE = 33,
    /* * on the keypad. */
    CSICODEC_KEY_KEYPAD_MULTIPLY = 34,
    /* - on the keypad. */
    CSICODEC_KEY_KEYPAD_SUBTRACT = 35,
    /* + on the keypad. */
    CSICODEC_KEY_KEYPAD_ADD = 36,
    /* Enter on the keypad. */
    CSICODEC_KEY_KEYPAD_ENTER = 37,
    /* = on the keypad. */
    CSICODEC_KEY_KEYPAD_EQUAL = 38,
    /* The separator on the keypad. */
    CSICODEC_KEY_KEYPAD_SEPARATOR = 39,
    /* The arrow to the left on the keypad. */
    CSICODEC_KEY_KEYPAD_LEFT = 40,
    /* The arrow to the right on the keypad. */
    CSICODEC_KEY_KEYPAD_RIGHT = 41,
    /* The arrow up on the keypad. */
    CSICODEC_KEY_KEYPAD_UP = 42,
    /* The arrow down on the keypad. */
    CSICODEC_KEY_KEYPAD_DOWN = 43,
    /* Page up on the keypad. */
    CSICODEC_KEY_KEYPAD_PAGE_UP = 44,
    /* Page down on the keypad. */
    CSICODEC_KEY_KEYPAD_PAGE_DOWN = 45,
    /* Home on the keypad. */
    CSICODEC_KEY_KEYPAD_HOME = 46,
    /* End on the keypad. */
    CSICODEC_KEY_KEYPAD_END = 47,
    /* Insert on the keypad. */
    CSICODEC_KEY_KEYPAD_INSERT = 48,
    /* Delete on the keypad. */
    CSICODEC_KEY_KEYPAD_DELETE = 49,
    /* The middle key of the keypad, 5 with num lock. */
    CSICODEC_KEY_KEYPAD_BEGIN = 50,
    /* Play. */
    CSICODEC_KEY_MEDIA_PLAY = 51,
    /* Pause what plays. */
    CSICODEC_KEY_MEDIA_PAUSE = 52,
    /* Play or pause. */
    CSICODEC_KEY_MEDIA_PLAY_PAUSE = 53,
    /* Play backwards. */
    CSICODEC_KEY_MEDIA_REVERSE = 54,
    /* Stop what plays. */
    CSICODEC_KEY_MEDIA_STOP = 55,
    /* Fast forward. */
    CSICODEC_KEY_MEDIA_FAST_FORWARD = 56,
    /* Rewind. */
    CSICODEC_KEY_MEDIA_REWIND = 57,
    /* The next track. */
    CSICODEC_KEY_MEDIA_NEXT = 58,
    /* The previous track. */
    CSICODEC_KEY_MEDIA_PREVIOUS = 59,
    /* Record. */
    CSICODEC_KEY_MEDIA_RECORD = 60,
    /* Less loud. */
    CSICODEC_KEY_LOWER_VOLUME = 61,
    /* Louder. */
    CSICODEC_KEY_RAISE_VOLUME = 62,
    /* Silent. */
    CSICODEC_KEY_MUTE_VOLUME = 63,
    /* The shift key on the left. */
    CSICODEC_KEY_LEFT_SHIFT = 64,
    /* The ctrl key on the left. */
    CSICODEC_KEY_LEFT_CTRL = 65,
    /* The alt key on the left. */
    CSICODEC_KEY_LEFT_ALT = 66,
    /* The super key on the left. */
    CSICODEC_KEY_LEFT_SUPER = 67,
    /* The hyper key on the left. */
    CSICODEC_KEY_LEFT_HYPER = 68,
    /* The meta key on the left. */
    CSICODEC_KEY_LEFT_META = 69,
    /* The shift key on the right. */
    CSICODEC_KEY_RIGHT_SHIFT = 70,
    /* The ctrl key on the right. */
    CSICODEC_KEY_RIGHT_CTRL = 71,
    /* The alt key on the right. */
    CSICODEC_KEY_RIGHT_ALT = 72,
    /* The super key on the right. */
    CSICODEC_KEY_RIGHT_SUPER = 73,
    /* The hyper key on the right. */
    CSICODEC_KEY_RIGHT_HYPER = 74,
    /* The meta key on the right. */
    CSICODEC_KEY_RIGHT_META = 75,
    /* AltGr (ISO level 3 shift). */
    CSICODEC_KEY_ISO_LEVEL3_SHIFT = 76,
    /* ISO level 5 shift. */
    CSICODEC_KEY_ISO_LEVEL5_SHIFT = 77,
    /* Tab on the keypad. */
    CSICODEC_KEY_KEYPAD_TAB = 78,
    /* The space bar on the keypad. */
    CSICODEC_KEY_KEYPAD_SPACE = 79,
    /* No key: text that comes without one, as of an input method (kitty). */
    CSICODEC_KEY_TEXT = 80
};

#endif
