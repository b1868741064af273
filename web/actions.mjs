// The actions and enumerations, by their numbers in C. Written by tools/table.

/** The names of each enumeration. */
export const NAMES = {
    Intensity: {
        0: 'Normal', 1: 'Bold', 2: 'Half',
    },
    Underline: {
        0: 'None', 1: 'Single', 2: 'Double', 3: 'Curly', 4: 'Dotted', 5: 'Dashed',
    },
    Blink: {
        0: 'None', 1: 'Slow', 2: 'Rapid',
    },
    VerticalAlign: {
        0: 'BaseLine', 1: 'SuperScript', 2: 'SubScript',
    },
    CursorStyle: {
        0: 'Default', 1: 'BlinkingBlock', 2: 'SteadyBlock', 3: 'BlinkingUnderline', 4: 'SteadyUnderline', 5: 'BlinkingBar', 6:
        'SteadyBar',
    },
    CursorTabulationControl: {
        0: 'SetCharacterTabStopAtActivePosition', 1: 'SetLineTabStopAtActiveLine', 2: 'ClearCharacterTabStopAtActivePosition', 3:
        'ClearLineTabstopAtActiveLine', 4: 'ClearAllCharacterTabStopsAtActiveLine', 5: 'ClearAllCharacterTabStops', 6:
        'ClearAllLineTabStops',
    },
    TabulationClear: {
        0: 'ClearCharacterTabStopAtActivePosition', 1: 'ClearLineTabStopAtActiveLine', 2: 'ClearCharacterTabStopsAtActiveLine', 3:
        'ClearAllCharacterTabStops', 4: 'ClearAllLineTabStops', 5: 'ClearAllTabStops',
    },
    EraseInLine: {
        0: 'EraseToEndOfLine', 1: 'EraseToStartOfLine', 2: 'EraseLine',
    },
    EraseInDisplay: {
        0: 'EraseToEndOfDisplay', 1: 'EraseToStartOfDisplay', 2: 'EraseDisplay', 3: 'EraseScrollback',
    },
    DecPrivateModeCode: {
        1: 'ApplicationCursorKeys', 2: 'DecAnsiMode', 3: 'Select132Columns', 4: 'SmoothScroll', 5: 'ReverseVideo', 6: 'OriginMode',
        7: 'AutoWrap', 8: 'AutoRepeat', 12: 'StartBlinkingCursor', 25: 'ShowCursor', 45: 'ReverseWraparound', 47:
        'EnableAlternateScreen', 69: 'LeftRightMarginMode', 80: 'SixelDisplayMode', 1000: 'MouseTracking', 1001:
        'HighlightMouseTracking', 1002: 'ButtonEventMouse', 1003: 'AnyEventMouse', 1004: 'FocusTracking', 1005: 'Utf8Mouse', 1006:
        'SGRMouse', 1016: 'SGRPixelsMouse', 1036: 'XTermMetaSendsEscape', 1039: 'XTermAltSendsEscape', 1047:
        'OptEnableAlternateScreen', 1048: 'SaveCursor', 1049: 'ClearAndEnableAlternateScreen', 1070:
        'UsePrivateColorRegistersForEachGraphic', 2004: 'BracketedPaste', 2026: 'SynchronizedOutput', 2027: 'GraphemeClustering',
        7727: 'MinTTYApplicationEscapeKeyMode', 8452: 'SixelScrollsRight', 9001: 'Win32InputMode',
    },
    TerminalModeCode: {
        2: 'KeyboardAction', 4: 'Insert', 8: 'BiDirectionalSupportMode', 12: 'SendReceive', 20: 'AutomaticNewline', 25:
        'ShowCursor',
    },
    DeviceAttributeCodes: {
        1: 'Columns132', 2: 'Printer', 3: 'RegisGraphics', 4: 'SixelGraphics', 6: 'SelectiveErase', 8: 'UserDefinedKeys', 9:
        'NationalReplacementCharsets', 15: 'TechnicalCharacters', 18: 'UserWindows', 21: 'HorizontalScrolling', 22: 'AnsiColor', 29:
        'AnsiTextLocator',
    },
    XtermKeyModifierResource: {
        0: 'Keyboard', 1: 'CursorKeys', 2: 'FunctionKeys', 4: 'OtherKeys',
    },
    XtSmGraphicsAction: {
        1: 'ReadAttribute', 2: 'ResetToDefault', 3: 'SetToValue', 4: 'ReadMaximumAllowedValue',
    },
    XtSmGraphicsStatus: {
        0: 'Success', 1: 'InvalidItem', 2: 'InvalidAction', 3: 'Failure',
    },
    MouseButton: {
        1: 'Button1Press', 2: 'Button2Press', 3: 'Button3Press', 4: 'Button4Press', 5: 'Button5Press', 6: 'Button6Press', 7:
        'Button7Press', 11: 'Button1Release', 12: 'Button2Release', 13: 'Button3Release', 14: 'Button4Release', 15:
        'Button5Release', 16: 'Button6Release', 17: 'Button7Release', 21: 'Button1Drag', 22: 'Button2Drag', 23: 'Button3Drag', 0:
        'None',
    },
    KittyKeyboardMode: {
        1: 'AssignAll', 2: 'SetSpecified', 3: 'ClearSpecified',
    },
    CharacterPath: {
        0: 'ImplementationDefault', 1: 'LeftToRightOrTopToBottom', 2: 'RightToLeftOrBottomToTop',
    },
    EscCode: {
        99: 'FullReset', 68: 'Index', 69: 'NextLine', 70: 'CursorPositionLowerLeft', 72: 'HorizontalTabSet', 77: 'ReverseIndex', 78:
        'SingleShiftG2', 79: 'SingleShiftG3', 86: 'StartOfGuardedArea', 87: 'EndOfGuardedArea', 88: 'StartOfString', 90:
        'ReturnTerminalId', 92: 'StringTerminator', 94: 'PrivacyMessage', 95: 'ApplicationProgramCommand', 107: 'TmuxTitle', 54:
        'DecBackIndex', 55: 'DecSaveCursorPosition', 56: 'DecRestoreCursorPosition', 61: 'DecApplicationKeyPad', 62:
        'DecNormalKeyPad', 10288: 'DecLineDrawingG0', 10305: 'UkCharacterSetG0', 10306: 'AsciiCharacterSetG0', 10544:
        'DecLineDrawingG1', 10561: 'UkCharacterSetG1', 10562: 'AsciiCharacterSetG1', 9016: 'DecScreenAlignmentDisplay', 9011:
        'DecDoubleHeightTopHalfLine', 9012: 'DecDoubleHeightBottomHalfLine', 9013: 'DecSingleWidthLine', 9014: 'DecDoubleWidthLine',
        20289: 'ApplicationModeArrowUpPress', 20290: 'ApplicationModeArrowDownPress', 20291: 'ApplicationModeArrowRightPress',
        20292: 'ApplicationModeArrowLeftPress', 20296: 'ApplicationModeHomePress', 20294: 'ApplicationModeEndPress', 20304:
        'F1Press', 20305: 'F2Press', 20306: 'F3Press', 20307: 'F4Press',
    },
    XtSmGraphicsItem: {
        1: 'NumberOfColorRegisters', 2: 'SixelGraphicsGeometry', 3: 'RegisGraphicsGeometry',
    },
    OscKind: {
        0: 'Unknown', 16: 'TitleBoth', 17: 'TitleIcon', 18: 'TitleWindow', 32: 'ColorsIndexed', 33: 'ColorsSpecial', 48:
        'ResetColorsIndexed', 49: 'ResetColorsSpecial', 64: 'ColorForeground', 65: 'ColorBackground', 66: 'ColorCursor', 67:
        'ColorPointerForeground', 68: 'ColorPointerBackground', 69: 'ColorTektronixForeground', 70: 'ColorTektronixBackground', 71:
        'ColorHighlightBackground', 72: 'ColorTektronixCursor', 73: 'ColorHighlightForeground', 80: 'ResetColorForeground', 81:
        'ResetColorBackground', 82: 'ResetColorCursor', 83: 'ResetColorPointerForeground', 84: 'ResetColorPointerBackground', 85:
        'ResetColorTektronixForeground', 86: 'ResetColorTektronixBackground', 87: 'ResetColorHighlightBackground', 88:
        'ResetColorTektronixCursor', 89: 'ResetColorHighlightForeground', 96: 'FolderAddress', 97: 'FolderPath', 112:
        'PromptPrompt', 113: 'PromptCommand', 114: 'PromptOutput', 115: 'PromptEnd', 116: 'PromptCommandLine', 117:
        'PromptFreshLine', 118: 'PromptNextPrompt', 119: 'PromptPromptPart', 128: 'EditorPrompt', 129: 'EditorCommand', 130:
        'EditorOutput', 131: 'EditorEnd', 132: 'EditorCommandText', 133: 'EditorContinuation', 134: 'EditorContinuationEnd', 135:
        'EditorRightPrompt', 136: 'EditorRightPromptEnd', 137: 'EditorProperty', 144: 'ProgressOff', 145: 'ProgressShown', 146:
        'ProgressFailed', 147: 'ProgressBusy', 148: 'ProgressPaused', 160: 'Link', 161: 'Clipboard', 162: 'Pointer', 163:
        'KittyNotice', 164: 'TitledNotice', 165: 'Notice',
    },
    KeyCode: {
        0: 'Char', 1: 'F', 2: 'Enter', 3: 'Escape', 4: 'Tab', 5: 'Backspace', 6: 'Insert', 7: 'Delete', 8: 'Left', 9: 'Right', 10:
        'Up', 11: 'Down', 12: 'PageUp', 13: 'PageDown', 14: 'Home', 15: 'End', 16: 'CapsLock', 17: 'ScrollLock', 18: 'NumLock', 19:
        'PrintScreen', 20: 'Pause', 21: 'Menu', 22: 'Keypad0', 23: 'Keypad1', 24: 'Keypad2', 25: 'Keypad3', 26: 'Keypad4', 27:
        'Keypad5', 28: 'Keypad6', 29: 'Keypad7', 30: 'Keypad8', 31: 'Keypad9', 32: 'KeypadDecimal', 33: 'KeypadDivide', 34:
        'KeypadMultiply', 35: 'KeypadSubtract', 36: 'KeypadAdd', 37: 'KeypadEnter', 38: 'KeypadEqual', 39: 'KeypadSeparator', 40:
        'KeypadLeft', 41: 'KeypadRight', 42: 'KeypadUp', 43: 'KeypadDown', 44: 'KeypadPageUp', 45: 'KeypadPageDown', 46:
        'KeypadHome', 47: 'KeypadEnd', 48: 'KeypadInsert', 49: 'KeypadDelete', 50: 'KeypadBegin', 51: 'MediaPlay', 52: 'MediaPause',
        53: 'MediaPlayPause', 54: 'MediaReverse', 55: 'MediaStop', 56: 'MediaFastForward', 57: 'MediaRewind', 58: 'MediaNext', 59:
        'MediaPrevious', 60: 'MediaRecord', 61: 'LowerVolume', 62: 'RaiseVolume', 63: 'MuteVolume', 64: 'LeftShift', 65: 'LeftCtrl',
        66: 'LeftAlt', 67: 'LeftSuper', 68: 'LeftHyper', 69: 'LeftMeta', 70: 'RightShift', 71: 'RightCtrl', 72: 'RightAlt', 73:
        'RightSuper', 74: 'RightHyper', 75: 'RightMeta', 76: 'IsoLevel3Shift', 77: 'IsoLevel5Shift', 78: 'KeypadTab', 79:
        'KeypadSpace', 80: 'Text',
    },
    KnownKind: {
        10001: 'DECSED', 10002: 'DECSEL', 10003: 'DECSCA', 10004: 'DECSCL', 10005: 'DECSRFR', 10006: 'DECSTRL', 10007: 'DECIC',
        10008: 'DECDC', 10009: 'DECELR', 10010: 'DECSLE', 10011: 'DECEFR', 10012: 'DECSDDT', 10013: 'DECSPRTT', 10014: 'DECCARA',
        10015: 'DECRARA', 10016: 'DECCRA', 10017: 'DECFRA', 10018: 'DECERA', 10019: 'DECSERA', 10020: 'DECSACE', 10021: 'DECSCPP',
        10022: 'DECSASD', 10023: 'DECSSDT', 10024: 'DECSNLS', 10025: 'DECES', 10026: 'DECSPPCS', 10027: 'DECSCS', 10028: 'DECSFC',
        10029: 'DECSCP', 10030: 'DECINVM', 10031: 'DECLFKC', 10032: 'DECSR', 10033: 'DECELF', 10034: 'DECSMKR', 10035: 'DECSPP',
        10036: 'DECSTGLT', 10037: 'DECLTOD', 10038: 'DECTID', 10039: 'DECUS', 10040: 'DECSZS', 10041: 'DECAC', 10042: 'DECATC',
        10043: 'DECPS', 10044: 'DECCRTST', 10045: 'DECSEST', 10046: 'DECARR', 10047: 'DECSKCV', 10048: 'DECSWBV', 10049: 'DECSMBV',
        10050: 'DECSLCK', 10051: 'DECSSCLS', 10052: 'DECKBD', 10053: 'DECTME', 10054: 'DECST8C', 10055: 'MC_PRINT_CURSOR_LINE',
        10056: 'MC_AUTO_PRINT_OFF', 10057: 'MC_AUTO_PRINT_ON', 10058: 'MC_PRINT_DISPLAY', 10059: 'MC_PRINT_ALL_PAGES', 10060:
        'DECLL_ALL_OFF', 10061: 'DECLL_NUM_LOCK_ON', 10062: 'DECLL_CAPS_LOCK_ON', 10063: 'DECLL_SCROLL_LOCK_ON', 10064:
        'DECLL_NUM_LOCK_OFF', 10065: 'DECLL_CAPS_LOCK_OFF', 10066: 'DECLL_SCROLL_LOCK_OFF', 10067: 'DECTST', 10068:
        'DECSLPP_UP_TO_47', 10069: 'DECSLPP_FROM_49', 10070: 'DECSLPP_48', 10071: 'EF', 10072: 'EA', 10073: 'SEE', 10074: 'NP',
        10075: 'PP', 10076: 'SRS', 10077: 'PTX', 10078: 'SIMD', 10079: 'DAQ', 10080: 'SDS', 10081: 'MC_PRINT_SCREEN', 10082:
        'MC_FROM_FIRST_DEVICE', 10083: 'MC_TO_SECOND_DEVICE', 10084: 'MC_FROM_SECOND_DEVICE', 10085: 'MC_PRINTER_CONTROLLER_OFF',
        10086: 'MC_PRINTER_CONTROLLER_ON', 10087: 'MC_SECOND_RELAY_OFF', 10088: 'MC_SECOND_RELAY_ON', 10089: 'DSR_READY', 10090:
        'DSR_BUSY_ASK_AGAIN', 10091: 'DSR_BUSY_ANSWER_FOLLOWS', 10092: 'DSR_MALFUNCTION_ASK_AGAIN', 10093:
        'DSR_MALFUNCTION_ANSWER_FOLLOWS', 10094: 'SL', 10095: 'SR', 10096: 'GSM', 10097: 'GSS', 10098: 'FNT', 10099: 'TSS', 10100:
        'JFY', 10101: 'SPI', 10102: 'QUAD', 10103: 'SSU', 10104: 'PFS', 10105: 'SHS', 10106: 'SVS', 10107: 'IGS', 10108: 'IDCS',
        10109: 'PPA', 10110: 'PPR', 10111: 'PPB', 10112: 'SPD', 10113: 'DTA', 10114: 'SLH', 10115: 'SLL', 10116: 'FNK', 10117:
        'SPQR', 10118: 'SEF', 10119: 'PEC', 10120: 'SSW', 10121: 'SACS', 10122: 'SAPV', 10123: 'STAB', 10124: 'GCC', 10125: 'TATE',
        10126: 'TALE', 10127: 'TAC', 10128: 'TCC', 10129: 'TSR', 10130: 'SCO', 10131: 'SRCS', 10132: 'SCS', 10133: 'SLS', 10134:
        'SPH', 10135: 'SPL', 10136: 'XTPUSHSGR', 10137: 'XTPUSHSGR_P', 10138: 'XTPOPSGR', 10139: 'XTPOPSGR_Q', 10140:
        'XTPUSHCOLORS', 10141: 'XTPOPCOLORS', 10142: 'XTCHECKSUM', 10143: 'XTMODKEYS', 10144: 'XTSMPOINTER', 10145: 'XTSHIFTESCAPE',
        10146: 'XTSMTITLE', 10147: 'XTRMTITLE', 10148: 'XTHIMOUSE', 10149: 'SD', 10150: 'XTWINOPS_PUSH_TITLES', 10151:
        'XTWINOPS_POP_TITLES', 10152: 'MC_HTML_COPY', 10153: 'MC_SVG_COPY', 10154: 'UNSCROLL', 10155: 'LINUX_UNDERLINE_COLOR',
        10156: 'LINUX_FAINT_COLOR', 10157: 'LINUX_DEFAULT_COLORS', 10158: 'LINUX_BLANK_MINUTES', 10159: 'LINUX_BELL_PITCH', 10160:
        'LINUX_BELL_LENGTH', 10161: 'LINUX_SHOW_CONSOLE', 10162: 'LINUX_UNBLANK', 10163: 'LINUX_POWER_DOWN_MINUTES', 10164:
        'LINUX_CONSOLE_BEFORE', 10165: 'LINUX_BLINK_INTERVAL', 10166: 'LINUX_CURSOR_AS_IT_WAS', 10167: 'LINUX_CURSOR_2_TO_3', 10168:
        'LINUX_CURSOR_TWO_THIRDS', 10169: 'LINUX_CURSOR_8_TO_11', 10170: 'LINUX_CURSOR_16_TO_60', 10171: 'LINUX_CURSOR_112_TO_127',
        10172: 'DECRQDE', 10173: 'DECRQLP', 10174: 'DECRQTSR_STATE', 10175: 'DECRQTSR_COLORS', 10176: 'DECRQPSR_CURSOR', 10177:
        'DECRQPSR_TAB_STOPS', 10178: 'DECRQUPSS', 10179: 'DECXCPR_ASK', 10180: 'DSR_ASK_PRINTER', 10181: 'DSR_ASK_USER_KEYS', 10182:
        'DSR_ASK_KEYBOARD', 10183: 'DSR_LOCATOR', 10184: 'DSR_ASK_LOCATOR', 10185: 'DSR_ASK_LOCATOR_TYPE', 10186: 'DECMSR_ASK',
        10187: 'DECCKSR', 10188: 'DSR_ASK_DATA', 10189: 'DSR_ASK_SESSIONS', 10190: 'COLOR_SCHEME_ASK', 10191: 'XTQMODKEYS', 10192:
        'XTQFMTKEYS', 10193: 'XTREPORTSGR', 10194: 'XTREPORTCOLORS', 10195: 'XTTITLEPOS', 10196: 'DECRPM', 10197: 'DECRPM_PRIVATE',
        10198: 'DECRPDE', 10199: 'DECLRP', 10200: 'DECSRC', 10201: 'DECMSR', 10202: 'DECXCPR', 10203: 'DSR_PRINTER_READY', 10204:
        'DSR_PRINTER_NOT_READY', 10205: 'DSR_NO_PRINTER', 10206: 'DSR_PRINTER_BUSY', 10207: 'DSR_PRINTER_OF_ANOTHER_SESSION', 10208:
        'DSR_USER_KEYS_UNLOCKED', 10209: 'DSR_USER_KEYS_LOCKED', 10210: 'DSR_KEYBOARD', 10211: 'DSR_NO_LOCATOR', 10212:
        'DSR_LOCATOR_TYPE', 10213: 'DSR_NO_DATA_LOST', 10214: 'DSR_DATA_MALFUNCTION', 10215: 'DSR_NOTHING_OF_DATA', 10216:
        'DSR_ONE_SESSION', 10217: 'COLOR_SCHEME', 10218: 'DA1_VT132', 10219: 'DA1_VT131', 10220: 'DA1_VT125', 10221: 'DA1_VT100',
        10222: 'DA1_VT500', 10223: 'DA2', 10224: 'DECREPTPARM', 10225: 'XTWINOPS_DISPLAY_SIZE', 10226: 'IN_BAND_RESIZE', 10227:
        'XTFMTKEYS', 10228: 'FOCUS_LOST', 10229: 'PASTE_START', 10230: 'PASTE_END', 10231: 'MOUSE_URXVT', 10232: 'KEY_WIN32', 10233:
        'KEY_MODIFY_OTHER_KEYS', 10234: 'KEY_CHARACTER', 10235: 'KEY_MODIFIED_UP', 10236: 'KEY_MODIFIED_DOWN', 10237:
        'KEY_MODIFIED_RIGHT', 10238: 'KEY_MODIFIED_LEFT', 10239: 'KEY_MODIFIED_BEGIN', 10240: 'KEY_MODIFIED_END', 10241:
        'KEY_MODIFIED_F1', 10242: 'KEY_MODIFIED_F2', 10243: 'KEY_MODIFIED_F4', 10244: 'KEY_HOME', 10245: 'KEY_INSERT', 10246:
        'KEY_DELETE', 10247: 'KEY_END', 10248: 'KEY_PAGE_UP', 10249: 'KEY_PAGE_DOWN', 10250: 'KEY_HOME_RXVT', 10251: 'KEY_END_RXVT',
        10252: 'KEY_F1', 10253: 'KEY_F2', 10254: 'KEY_F3', 10255: 'KEY_F4', 10256: 'KEY_F5', 10257: 'KEY_F6', 10258: 'KEY_F7',
        10259: 'KEY_F8', 10260: 'KEY_F9', 10261: 'KEY_F10', 10262: 'KEY_F11', 10263: 'KEY_F12', 10264: 'KEY_F13', 10265: 'KEY_F14',
        10266: 'KEY_F15', 10267: 'KEY_F16', 10268: 'KEY_F17', 10269: 'KEY_F18', 10270: 'KEY_F19', 10271: 'KEY_F20',
    },
};

/** The type of each kind of action, its form, and the names in that. */
export const KINDS = {
    0: ['Unspecified', 'unknown'],
    1: ['Sgr.Reset', 'unit'],
    2: ['Sgr.Intensity', 'enum', 'Intensity'],
    3: ['Sgr.Underline', 'enum', 'Underline'],
    4: ['Sgr.UnderlineColor', 'color'],
    5: ['Sgr.Blink', 'enum', 'Blink'],
    6: ['Sgr.Italic', 'flag'],
    7: ['Sgr.Inverse', 'flag'],
    8: ['Sgr.Invisible', 'flag'],
    9: ['Sgr.StrikeThrough', 'flag'],
    10: ['Sgr.Font', 'font'],
    11: ['Sgr.Foreground', 'color'],
    12: ['Sgr.Background', 'color'],
    13: ['Sgr.Overline', 'flag'],
    14: ['Sgr.VerticalAlign', 'enum', 'VerticalAlign'],
    101: ['Cursor.Up', 'count'],
    102: ['Cursor.Down', 'count'],
    103: ['Cursor.Right', 'count'],
    104: ['Cursor.Left', 'count'],
    105: ['Cursor.NextLine', 'count'],
    106: ['Cursor.PrecedingLine', 'count'],
    107: ['Cursor.CharacterAbsolute', 'place'],
    108: ['Cursor.CharacterPositionAbsolute', 'place'],
    109: ['Cursor.Position', 'places', 'line', 'col'],
    110: ['Cursor.ActivePositionReport', 'places', 'line', 'col'],
    111: ['Cursor.CharacterAndLinePosition', 'places', 'line', 'col'],
    112: ['Cursor.ForwardTabulation', 'count'],
    113: ['Cursor.BackwardTabulation', 'count'],
    114: ['Cursor.LineTabulation', 'count'],
    115: ['Cursor.CharacterPositionForward', 'count'],
    116: ['Cursor.CharacterPositionBackward', 'count'],
    117: ['Cursor.LinePositionAbsolute', 'count'],
    118: ['Cursor.LinePositionForward', 'count'],
    119: ['Cursor.LinePositionBackward', 'count'],
    120: ['Cursor.TabulationControl', 'enum', 'CursorTabulationControl'],
    121: ['Cursor.TabulationClear', 'enum', 'TabulationClear'],
    122: ['Cursor.SetTopAndBottomMargins', 'places', 'top', 'bottom'],
    123: ['Cursor.SetLeftAndRightMargins', 'places', 'left', 'right'],
    124: ['Cursor.SaveCursor', 'unit'],
    125: ['Cursor.RestoreCursor', 'unit'],
    126: ['Cursor.RequestActivePositionReport', 'unit'],
    127: ['Cursor.CursorStyle', 'enum', 'CursorStyle'],
    201: ['Edit.InsertCharacter', 'count'],
    202: ['Edit.InsertLine', 'count'],
    203: ['Edit.DeleteCharacter', 'count'],
    204: ['Edit.DeleteLine', 'count'],
    205: ['Edit.EraseCharacter', 'count'],
    206: ['Edit.ScrollUp', 'count'],
    207: ['Edit.ScrollDown', 'count'],
    208: ['Edit.Repeat', 'count'],
    209: ['Edit.EraseInDisplay', 'enum', 'EraseInDisplay'],
    210: ['Edit.EraseInLine', 'enum', 'EraseInLine'],
    301: ['Mode.SetDecPrivateMode', 'mode', 'DecPrivateMode'],
    302: ['Mode.ResetDecPrivateMode', 'mode', 'DecPrivateMode'],
    303: ['Mode.SaveDecPrivateMode', 'mode', 'DecPrivateMode'],
    304: ['Mode.RestoreDecPrivateMode', 'mode', 'DecPrivateMode'],
    305: ['Mode.QueryDecPrivateMode', 'mode', 'DecPrivateMode'],
    306: ['Mode.SetMode', 'mode', 'TerminalMode'],
    307: ['Mode.ResetMode', 'mode', 'TerminalMode'],
    308: ['Mode.QueryMode', 'mode', 'TerminalMode'],
    309: ['Mode.XtermKeyMode', 'keys'],
    401: ['Device.Vt100WithAdvancedVideoOption', 'unit'],
    402: ['Device.Vt101WithNoOptions', 'unit'],
    403: ['Device.Vt102', 'unit'],
    404: ['Device.Vt220', 'extensions'],
    405: ['Device.Vt320', 'extensions'],
    406: ['Device.Vt420', 'extensions'],
    407: ['Device.SoftReset', 'unit'],
    408: ['Device.RequestPrimaryDeviceAttributes', 'unit'],
    409: ['Device.RequestSecondaryDeviceAttributes', 'unit'],
    410: ['Device.RequestTertiaryDeviceAttributes', 'unit'],
    411: ['Device.RequestTerminalNameAndVersion', 'unit'],
    412: ['Device.RequestTerminalParameters', 'int'],
    413: ['Device.StatusReport', 'unit'],
    414: ['Device.XtSmGraphics', 'graphics'],
    501: ['MouseReport.SGR1006', 'report', 'x', 'y'],
    502: ['MouseReport.SGR1016', 'report', 'x_pixels', 'y_pixels'],
    601: ['Window.DeIconify', 'unit'],
    602: ['Window.Iconify', 'unit'],
    603: ['Window.MoveWindow', 'ints', 'x', 'y'],
    604: ['Window.ResizeWindowPixels', 'sizes', 'width', 'height'],
    605: ['Window.RaiseWindow', 'unit'],
    606: ['Window.LowerWindow', 'unit'],
    607: ['Window.ReportCellSizePixelsResponse', 'sizes', 'width', 'height'],
    608: ['Window.RefreshWindow', 'unit'],
    609: ['Window.ResizeWindowCells', 'sizes', 'width', 'height'],
    610: ['Window.RestoreMaximizedWindow', 'unit'],
    611: ['Window.MaximizeWindow', 'unit'],
    612: ['Window.MaximizeWindowVertically', 'unit'],
    613: ['Window.MaximizeWindowHorizontally', 'unit'],
    614: ['Window.UndoFullScreenMode', 'unit'],
    615: ['Window.ChangeToFullScreenMode', 'unit'],
    616: ['Window.ToggleFullScreen', 'unit'],
    617: ['Window.ReportWindowState', 'unit'],
    618: ['Window.ReportWindowPosition', 'unit'],
    619: ['Window.ReportTextAreaPosition', 'unit'],
    620: ['Window.ReportTextAreaSizePixels', 'unit'],
    621: ['Window.ReportWindowSizePixels', 'unit'],
    622: ['Window.ReportScreenSizePixels', 'unit'],
    623: ['Window.ReportCellSizePixels', 'unit'],
    624: ['Window.ReportTextAreaSizeCells', 'unit'],
    625: ['Window.ReportScreenSizeCells', 'unit'],
    626: ['Window.ReportIconLabel', 'unit'],
    627: ['Window.ReportWindowTitle', 'unit'],
    628: ['Window.PushIconAndWindowTitle', 'unit'],
    629: ['Window.PushIconTitle', 'unit'],
    630: ['Window.PushWindowTitle', 'unit'],
    631: ['Window.PopIconAndWindowTitle', 'unit'],
    632: ['Window.PopIconTitle', 'unit'],
    633: ['Window.PopWindowTitle', 'unit'],
    634: ['Window.ChecksumRectangularArea', 'area'],
    701: ['Keyboard.SetKittyState', 'state'],
    702: ['Keyboard.PushKittyState', 'state'],
    703: ['Keyboard.PopKittyState', 'count'],
    704: ['Keyboard.QueryKittySupport', 'unit'],
    705: ['Keyboard.ReportKittyState', 'bits'],
    801: ['SelectCharacterPath', 'path'],
};
