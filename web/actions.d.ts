// The types of actions and enumerations. Written by tools/table.

/** A whole number; a bigint where it is beyond Number.MAX_SAFE_INTEGER. */
export type Integer = number | bigint;
/** A parameter of an unknown control sequence: a number, or a character such as ';'. */
export type Token = Integer | string;
/** A colour: the terminal's own; a place in the palette, 0 to 255; or its parts, each 0 to 255. */
export type Color =
    | { readonly type: 'DefaultColor' }
    | { readonly type: 'PaletteColor'; readonly index: number }
    | { readonly type: 'TrueColor'; readonly red: number; readonly green: number; readonly blue: number; readonly alpha: number };

/** How strong the strokes of a character are (ECMA-48, 8.3.117). */
export type Intensity =
    'Normal' | 'Bold' | 'Half';

/** The line below a character: 21 and 24 are from ECMA-48, 8.3.117, the kinds behind a colon from kitty and VTE. */
export type Underline =
    'None' | 'Single' | 'Double' | 'Curly' | 'Dotted' | 'Dashed';

/** Whether a character blinks, and how fast (ECMA-48, 8.3.117). */
export type Blink =
    'None' | 'Slow' | 'Rapid';

/** Where on its line a character stands (mintty). */
export type VerticalAlign =
    'BaseLine' | 'SuperScript' | 'SubScript';

/** How the cursor looks (DECSCUSR; DEC VT520, the bars xterm). */
export type CursorStyle =
    'Default' | 'BlinkingBlock' | 'SteadyBlock' | 'BlinkingUnderline' | 'SteadyUnderline' | 'BlinkingBar' | 'SteadyBar';

/** What happens to tab stops where the cursor is (CTC, cursor tabulation control; ECMA-48, 8.3.17). A character tab stop is a column, a line tab stop a line. */
export type CursorTabulationControl =
    'SetCharacterTabStopAtActivePosition' | 'SetLineTabStopAtActiveLine' | 'ClearCharacterTabStopAtActivePosition'
    | 'ClearLineTabstopAtActiveLine' | 'ClearAllCharacterTabStopsAtActiveLine' | 'ClearAllCharacterTabStops'
    | 'ClearAllLineTabStops';

/** Which tab stops are cleared (TBC, tabulation clear; ECMA-48, 8.3.154). */
export type TabulationClear =
    'ClearCharacterTabStopAtActivePosition' | 'ClearLineTabStopAtActiveLine' | 'ClearCharacterTabStopsAtActiveLine'
    | 'ClearAllCharacterTabStops' | 'ClearAllLineTabStops' | 'ClearAllTabStops';

/** Which part of the cursor's line is erased (EL, erase in line; ECMA-48, 8.3.41). The cursor's own column is part of it. */
export type EraseInLine =
    'EraseToEndOfLine' | 'EraseToStartOfLine' | 'EraseLine';

/** Which part of the page is erased (ED, erase in page; ECMA-48, 8.3.39). The cursor's own place is part of it. */
export type EraseInDisplay =
    'EraseToEndOfDisplay' | 'EraseToStartOfDisplay' | 'EraseDisplay' | 'EraseScrollback';

/** A private mode: one that `CSI ? .. h` sets and `CSI ? .. l` resets. Those of DEC (VT510, VT382) begin with the name that DEC gave them; where the others are from is said at each. */
export type DecPrivateModeCode =
    'ApplicationCursorKeys' | 'DecAnsiMode' | 'Select132Columns' | 'SmoothScroll' | 'ReverseVideo' | 'OriginMode' | 'AutoWrap'
    | 'AutoRepeat' | 'StartBlinkingCursor' | 'ShowCursor' | 'ReverseWraparound' | 'EnableAlternateScreen' | 'LeftRightMarginMode'
    | 'SixelDisplayMode' | 'MouseTracking' | 'HighlightMouseTracking' | 'ButtonEventMouse' | 'AnyEventMouse' | 'FocusTracking'
    | 'Utf8Mouse' | 'SGRMouse' | 'SGRPixelsMouse' | 'XTermMetaSendsEscape' | 'XTermAltSendsEscape' | 'OptEnableAlternateScreen'
    | 'SaveCursor' | 'ClearAndEnableAlternateScreen' | 'UsePrivateColorRegistersForEachGraphic' | 'BracketedPaste'
    | 'SynchronizedOutput' | 'GraphemeClustering' | 'MinTTYApplicationEscapeKeyMode' | 'SixelScrollsRight' | 'Win32InputMode';

/** A mode that `CSI .. h` sets and `CSI .. l` resets (SM and RM; ECMA-48, 8.3.125 and 8.3.106). */
export type TerminalModeCode =
    'KeyboardAction' | 'Insert' | 'BiDirectionalSupportMode' | 'SendReceive' | 'AutomaticNewline' | 'ShowCursor';

/** An extension that a terminal names behind its service class, in its answer to the primary device attributes (DA1, `CSI ? 62 ; .. c`; DEC VT220 and its successors). */
export type DeviceAttributeCodes =
    'Columns132' | 'Printer' | 'RegisGraphics' | 'SixelGraphics' | 'SelectiveErase' | 'UserDefinedKeys'
    | 'NationalReplacementCharsets' | 'TechnicalCharacters' | 'UserWindows' | 'HorizontalScrolling' | 'AnsiColor'
    | 'AnsiTextLocator';

/** Which keys `XtermKeyMode` is about (xterm, XTMODKEYS). */
export type XtermKeyModifierResource =
    'Keyboard' | 'CursorKeys' | 'FunctionKeys' | 'OtherKeys';

/** What is done with the item: the second number of XTSMGRAPHICS, where it is a request. */
export type XtSmGraphicsAction =
    'ReadAttribute' | 'ResetToDefault' | 'SetToValue' | 'ReadMaximumAllowedValue';

/** What became of the request: the second number of XTSMGRAPHICS, where it is an answer. */
export type XtSmGraphicsStatus =
    'Success' | 'InvalidItem' | 'InvalidAction' | 'Failure';

/** A button. */
export type MouseButton =
    'Button1Press' | 'Button2Press' | 'Button3Press' | 'Button4Press' | 'Button5Press' | 'Button6Press' | 'Button7Press'
    | 'Button1Release' | 'Button2Release' | 'Button3Release' | 'Button4Release' | 'Button5Release' | 'Button6Release'
    | 'Button7Release' | 'Button1Drag' | 'Button2Drag' | 'Button3Drag' | 'None';

/** How flags change what the keyboard reports. */
export type KittyKeyboardMode =
    'AssignAll' | 'SetSpecified' | 'ClearSpecified';

/** SCP (ECMA-48, 8.3.111): the path of characters. */
export type CharacterPath =
    'ImplementationDefault' | 'LeftToRightOrTopToBottom' | 'RightToLeftOrBottomToTop';

/** The codes of escape sequences. A code's number is that of its last character, and 256 times that of the one before it, if any. */
export type EscCode =
    'FullReset' | 'Index' | 'NextLine' | 'CursorPositionLowerLeft' | 'HorizontalTabSet' | 'ReverseIndex' | 'SingleShiftG2'
    | 'SingleShiftG3' | 'StartOfGuardedArea' | 'EndOfGuardedArea' | 'StartOfString' | 'ReturnTerminalId' | 'StringTerminator'
    | 'PrivacyMessage' | 'ApplicationProgramCommand' | 'TmuxTitle' | 'DecBackIndex' | 'DecSaveCursorPosition'
    | 'DecRestoreCursorPosition' | 'DecApplicationKeyPad' | 'DecNormalKeyPad' | 'DecLineDrawingG0' | 'UkCharacterSetG0'
    | 'AsciiCharacterSetG0' | 'DecLineDrawingG1' | 'UkCharacterSetG1' | 'AsciiCharacterSetG1' | 'DecScreenAlignmentDisplay'
    | 'DecDoubleHeightTopHalfLine' | 'DecDoubleHeightBottomHalfLine' | 'DecSingleWidthLine' | 'DecDoubleWidthLine'
    | 'ApplicationModeArrowUpPress' | 'ApplicationModeArrowDownPress' | 'ApplicationModeArrowRightPress'
    | 'ApplicationModeArrowLeftPress' | 'ApplicationModeHomePress' | 'ApplicationModeEndPress' | 'F1Press' | 'F2Press' | 'F3Press'
    | 'F4Press';

/** What XTSMGRAPHICS asks about; another number stands for itself. */
export type XtSmGraphicsItem =
    'NumberOfColorRegisters' | 'SixelGraphicsGeometry' | 'RegisGraphicsGeometry';

/** Which command an OSC is. */
export type OscKind =
    'Unknown' | 'TitleBoth' | 'TitleIcon' | 'TitleWindow' | 'ColorsIndexed' | 'ColorsSpecial' | 'ResetColorsIndexed'
    | 'ResetColorsSpecial' | 'ColorForeground' | 'ColorBackground' | 'ColorCursor' | 'ColorPointerForeground'
    | 'ColorPointerBackground' | 'ColorTektronixForeground' | 'ColorTektronixBackground' | 'ColorHighlightBackground'
    | 'ColorTektronixCursor' | 'ColorHighlightForeground' | 'ResetColorForeground' | 'ResetColorBackground' | 'ResetColorCursor'
    | 'ResetColorPointerForeground' | 'ResetColorPointerBackground' | 'ResetColorTektronixForeground'
    | 'ResetColorTektronixBackground' | 'ResetColorHighlightBackground' | 'ResetColorTektronixCursor'
    | 'ResetColorHighlightForeground' | 'FolderAddress' | 'FolderPath' | 'PromptPrompt' | 'PromptCommand' | 'PromptOutput'
    | 'PromptEnd' | 'PromptCommandLine' | 'PromptFreshLine' | 'PromptNextPrompt' | 'PromptPromptPart' | 'EditorPrompt'
    | 'EditorCommand' | 'EditorOutput' | 'EditorEnd' | 'EditorCommandText' | 'EditorContinuation' | 'EditorContinuationEnd'
    | 'EditorRightPrompt' | 'EditorRightPromptEnd' | 'EditorProperty' | 'ProgressOff' | 'ProgressShown' | 'ProgressFailed'
    | 'ProgressBusy' | 'ProgressPaused' | 'Link' | 'Clipboard' | 'Pointer' | 'KittyNotice' | 'TitledNotice' | 'Notice';

/** Which key it is. The same key of the keypad is another one. */
export type KeyCode =
    'Char' | 'F' | 'Enter' | 'Escape' | 'Tab' | 'Backspace' | 'Insert' | 'Delete' | 'Left' | 'Right' | 'Up' | 'Down' | 'PageUp'
    | 'PageDown' | 'Home' | 'End' | 'CapsLock' | 'ScrollLock' | 'NumLock' | 'PrintScreen' | 'Pause' | 'Menu' | 'Keypad0' | 'Keypad1'
    | 'Keypad2' | 'Keypad3' | 'Keypad4' | 'Keypad5' | 'Keypad6' | 'Keypad7' | 'Keypad8' | 'Keypad9' | 'KeypadDecimal'
    | 'KeypadDivide' | 'KeypadMultiply' | 'KeypadSubtract' | 'KeypadAdd' | 'KeypadEnter' | 'KeypadEqual' | 'KeypadSeparator'
    | 'KeypadLeft' | 'KeypadRight' | 'KeypadUp' | 'KeypadDown' | 'KeypadPageUp' | 'KeypadPageDown' | 'KeypadHome' | 'KeypadEnd'
    | 'KeypadInsert' | 'KeypadDelete' | 'KeypadBegin' | 'MediaPlay' | 'MediaPause' | 'MediaPlayPause' | 'MediaReverse' | 'MediaStop'
    | 'MediaFastForward' | 'MediaRewind' | 'MediaNext' | 'MediaPrevious' | 'MediaRecord' | 'LowerVolume' | 'RaiseVolume'
    | 'MuteVolume' | 'LeftShift' | 'LeftCtrl' | 'LeftAlt' | 'LeftSuper' | 'LeftHyper' | 'LeftMeta' | 'RightShift' | 'RightCtrl'
    | 'RightAlt' | 'RightSuper' | 'RightHyper' | 'RightMeta' | 'IsoLevel3Shift' | 'IsoLevel5Shift' | 'KeypadTab' | 'KeypadSpace'
    | 'Text';

/** A row of docs/SEQUENCES.md, under its name in C. */
export type KnownKind =
    'DECSED' | 'DECSEL' | 'DECSCA' | 'DECSCL' | 'DECSRFR' | 'DECSTRL' | 'DECIC' | 'DECDC' | 'DECELR' | 'DECSLE' | 'DECEFR'
    | 'DECSDDT' | 'DECSPRTT' | 'DECCARA' | 'DECRARA' | 'DECCRA' | 'DECFRA' | 'DECERA' | 'DECSERA' | 'DECSACE' | 'DECSCPP'
    | 'DECSASD' | 'DECSSDT' | 'DECSNLS' | 'DECES' | 'DECSPPCS' | 'DECSCS' | 'DECSFC' | 'DECSCP' | 'DECINVM' | 'DECLFKC' | 'DECSR'
    | 'DECELF' | 'DECSMKR' | 'DECSPP' | 'DECSTGLT' | 'DECLTOD' | 'DECTID' | 'DECUS' | 'DECSZS' | 'DECAC' | 'DECATC' | 'DECPS'
    | 'DECCRTST' | 'DECSEST' | 'DECARR' | 'DECSKCV' | 'DECSWBV' | 'DECSMBV' | 'DECSLCK' | 'DECSSCLS' | 'DECKBD' | 'DECTME'
    | 'DECST8C' | 'MC_PRINT_CURSOR_LINE' | 'MC_AUTO_PRINT_OFF' | 'MC_AUTO_PRINT_ON' | 'MC_PRINT_DISPLAY' | 'MC_PRINT_ALL_PAGES'
    | 'DECLL_ALL_OFF' | 'DECLL_NUM_LOCK_ON' | 'DECLL_CAPS_LOCK_ON' | 'DECLL_SCROLL_LOCK_ON' | 'DECLL_NUM_LOCK_OFF'
    | 'DECLL_CAPS_LOCK_OFF' | 'DECLL_SCROLL_LOCK_OFF' | 'DECTST' | 'DECSLPP_UP_TO_47' | 'DECSLPP_FROM_49' | 'DECSLPP_48' | 'EF'
    | 'EA' | 'SEE' | 'NP' | 'PP' | 'SRS' | 'PTX' | 'SIMD' | 'DAQ' | 'SDS' | 'MC_PRINT_SCREEN' | 'MC_FROM_FIRST_DEVICE'
    | 'MC_TO_SECOND_DEVICE' | 'MC_FROM_SECOND_DEVICE' | 'MC_PRINTER_CONTROLLER_OFF' | 'MC_PRINTER_CONTROLLER_ON'
    | 'MC_SECOND_RELAY_OFF' | 'MC_SECOND_RELAY_ON' | 'DSR_READY' | 'DSR_BUSY_ASK_AGAIN' | 'DSR_BUSY_ANSWER_FOLLOWS'
    | 'DSR_MALFUNCTION_ASK_AGAIN' | 'DSR_MALFUNCTION_ANSWER_FOLLOWS' | 'SL' | 'SR' | 'GSM' | 'GSS' | 'FNT' | 'TSS' | 'JFY' | 'SPI'
    | 'QUAD' | 'SSU' | 'PFS' | 'SHS' | 'SVS' | 'IGS' | 'IDCS' | 'PPA' | 'PPR' | 'PPB' | 'SPD' | 'DTA' | 'SLH' | 'SLL' | 'FNK'
    | 'SPQR' | 'SEF' | 'PEC' | 'SSW' | 'SACS' | 'SAPV' | 'STAB' | 'GCC' | 'TATE' | 'TALE' | 'TAC' | 'TCC' | 'TSR' | 'SCO' | 'SRCS'
    | 'SCS' | 'SLS' | 'SPH' | 'SPL' | 'XTPUSHSGR' | 'XTPUSHSGR_P' | 'XTPOPSGR' | 'XTPOPSGR_Q' | 'XTPUSHCOLORS' | 'XTPOPCOLORS'
    | 'XTCHECKSUM' | 'XTMODKEYS' | 'XTSMPOINTER' | 'XTSHIFTESCAPE' | 'XTSMTITLE' | 'XTRMTITLE' | 'XTHIMOUSE' | 'SD'
    | 'XTWINOPS_PUSH_TITLES' | 'XTWINOPS_POP_TITLES' | 'MC_HTML_COPY' | 'MC_SVG_COPY' | 'UNSCROLL' | 'LINUX_UNDERLINE_COLOR'
    | 'LINUX_FAINT_COLOR' | 'LINUX_DEFAULT_COLORS' | 'LINUX_BLANK_MINUTES' | 'LINUX_BELL_PITCH' | 'LINUX_BELL_LENGTH'
    | 'LINUX_SHOW_CONSOLE' | 'LINUX_UNBLANK' | 'LINUX_POWER_DOWN_MINUTES' | 'LINUX_CONSOLE_BEFORE' | 'LINUX_BLINK_INTERVAL'
    | 'LINUX_CURSOR_AS_IT_WAS' | 'LINUX_CURSOR_2_TO_3' | 'LINUX_CURSOR_TWO_THIRDS' | 'LINUX_CURSOR_8_TO_11'
    | 'LINUX_CURSOR_16_TO_60' | 'LINUX_CURSOR_112_TO_127' | 'DECRQDE' | 'DECRQLP' | 'DECRQTSR_STATE' | 'DECRQTSR_COLORS'
    | 'DECRQPSR_CURSOR' | 'DECRQPSR_TAB_STOPS' | 'DECRQUPSS' | 'DECXCPR_ASK' | 'DSR_ASK_PRINTER' | 'DSR_ASK_USER_KEYS'
    | 'DSR_ASK_KEYBOARD' | 'DSR_LOCATOR' | 'DSR_ASK_LOCATOR' | 'DSR_ASK_LOCATOR_TYPE' | 'DECMSR_ASK' | 'DECCKSR' | 'DSR_ASK_DATA'
    | 'DSR_ASK_SESSIONS' | 'COLOR_SCHEME_ASK' | 'XTQMODKEYS' | 'XTQFMTKEYS' | 'XTREPORTSGR' | 'XTREPORTCOLORS' | 'XTTITLEPOS'
    | 'DECRPM' | 'DECRPM_PRIVATE' | 'DECRPDE' | 'DECLRP' | 'DECSRC' | 'DECMSR' | 'DECXCPR' | 'DSR_PRINTER_READY'
    | 'DSR_PRINTER_NOT_READY' | 'DSR_NO_PRINTER' | 'DSR_PRINTER_BUSY' | 'DSR_PRINTER_OF_ANOTHER_SESSION' | 'DSR_USER_KEYS_UNLOCKED'
    | 'DSR_USER_KEYS_LOCKED' | 'DSR_KEYBOARD' | 'DSR_NO_LOCATOR' | 'DSR_LOCATOR_TYPE' | 'DSR_NO_DATA_LOST'
    | 'DSR_DATA_MALFUNCTION' | 'DSR_NOTHING_OF_DATA' | 'DSR_ONE_SESSION' | 'COLOR_SCHEME' | 'DA1_VT132' | 'DA1_VT131' | 'DA1_VT125'
    | 'DA1_VT100' | 'DA1_VT500' | 'DA2' | 'DECREPTPARM' | 'XTWINOPS_DISPLAY_SIZE' | 'IN_BAND_RESIZE' | 'XTFMTKEYS' | 'FOCUS_LOST'
    | 'PASTE_START' | 'PASTE_END' | 'MOUSE_URXVT' | 'KEY_WIN32' | 'KEY_MODIFY_OTHER_KEYS' | 'KEY_CHARACTER' | 'KEY_MODIFIED_UP'
    | 'KEY_MODIFIED_DOWN' | 'KEY_MODIFIED_RIGHT' | 'KEY_MODIFIED_LEFT' | 'KEY_MODIFIED_BEGIN' | 'KEY_MODIFIED_END'
    | 'KEY_MODIFIED_F1' | 'KEY_MODIFIED_F2' | 'KEY_MODIFIED_F4' | 'KEY_HOME' | 'KEY_INSERT' | 'KEY_DELETE' | 'KEY_END'
    | 'KEY_PAGE_UP' | 'KEY_PAGE_DOWN' | 'KEY_HOME_RXVT' | 'KEY_END_RXVT' | 'KEY_F1' | 'KEY_F2' | 'KEY_F3' | 'KEY_F4' | 'KEY_F5'
    | 'KEY_F6' | 'KEY_F7' | 'KEY_F8' | 'KEY_F9' | 'KEY_F10' | 'KEY_F11' | 'KEY_F12' | 'KEY_F13' | 'KEY_F14' | 'KEY_F15' | 'KEY_F16'
    | 'KEY_F17' | 'KEY_F18' | 'KEY_F19' | 'KEY_F20';

/** An action of a control sequence. */
export type Action =
    /** A control sequence that no other action stands for, with nothing lost. */
    | { readonly type: 'Unspecified'; readonly params: readonly Token[]; readonly control: string }
    /** All attributes back to the default rendition. */
    | { readonly type: 'Sgr.Reset' }
    /** How strong the strokes are. */
    | { readonly type: 'Sgr.Intensity'; readonly value: Intensity }
    /** The line below. */
    | { readonly type: 'Sgr.Underline'; readonly value: Underline }
    /** The colour of that line (kitty, VTE); the default is the colour of the character. */
    | { readonly type: 'Sgr.UnderlineColor'; readonly color: Color }
    /** Whether it blinks. */
    | { readonly type: 'Sgr.Blink'; readonly value: Blink }
    /** Italicized or not. */
    | { readonly type: 'Sgr.Italic'; readonly value: boolean }
    /** Negative or positive image: whether the colours of character and ground change places. */
    | { readonly type: 'Sgr.Inverse'; readonly value: boolean }
    /** Concealed or revealed. */
    | { readonly type: 'Sgr.Invisible'; readonly value: boolean }
    /** Crossed out or not. */
    | { readonly type: 'Sgr.StrikeThrough'; readonly value: boolean }
    /** The font. */
    | { readonly type: 'Sgr.Font'; readonly number: number }
    /** The colour of the character. */
    | { readonly type: 'Sgr.Foreground'; readonly color: Color }
    /** The colour of the ground behind it. */
    | { readonly type: 'Sgr.Background'; readonly color: Color }
    /** A line above, or none. */
    | { readonly type: 'Sgr.Overline'; readonly value: boolean }
    /** Raised, lowered or on the line (mintty). */
    | { readonly type: 'Sgr.VerticalAlign'; readonly value: VerticalAlign }
    /** CUU (ECMA-48, 8.3.22): this many lines up. */
    | { readonly type: 'Cursor.Up'; readonly count: number }
    /** CUD (ECMA-48, 8.3.19): this many lines down. */
    | { readonly type: 'Cursor.Down'; readonly count: number }
    /** CUF (ECMA-48, 8.3.20): this many columns to the right. */
    | { readonly type: 'Cursor.Right'; readonly count: number }
    /** CUB (ECMA-48, 8.3.18): this many columns to the left. */
    | { readonly type: 'Cursor.Left'; readonly count: number }
    /** CNL (ECMA-48, 8.3.12): to the start of the line this many lines down. */
    | { readonly type: 'Cursor.NextLine'; readonly count: number }
    /** CPL (ECMA-48, 8.3.13): to the start of the line this many lines up. */
    | { readonly type: 'Cursor.PrecedingLine'; readonly count: number }
    /** CHA (ECMA-48, 8.3.9): to this column. */
    | { readonly type: 'Cursor.CharacterAbsolute'; readonly place: number }
    /** HPA (ECMA-48, 8.3.57): to this column of the data. */
    | { readonly type: 'Cursor.CharacterPositionAbsolute'; readonly place: number }
    /** CUP (ECMA-48, 8.3.21): to this line and column. */
    | { readonly type: 'Cursor.Position'; readonly line: number; readonly col: number }
    /** CPR (ECMA-48, 8.3.14): the terminal's answer, where the cursor is. */
    | { readonly type: 'Cursor.ActivePositionReport'; readonly line: number; readonly col: number }
    /** HVP (ECMA-48, 8.3.63): to this line and column of the data. */
    | { readonly type: 'Cursor.CharacterAndLinePosition'; readonly line: number; readonly col: number }
    /** CHT (ECMA-48, 8.3.10): on to this many character tab stops. */
    | { readonly type: 'Cursor.ForwardTabulation'; readonly count: number }
    /** CBT (ECMA-48, 8.3.7): back to this many character tab stops. */
    | { readonly type: 'Cursor.BackwardTabulation'; readonly count: number }
    /** CVT (ECMA-48, 8.3.23): down to this many line tab stops. */
    | { readonly type: 'Cursor.LineTabulation'; readonly count: number }
    /** HPR (ECMA-48, 8.3.59): this many columns on in the data. */
    | { readonly type: 'Cursor.CharacterPositionForward'; readonly count: number }
    /** HPB (ECMA-48, 8.3.58): this many columns back in the data. */
    | { readonly type: 'Cursor.CharacterPositionBackward'; readonly count: number }
    /** VPA (ECMA-48, 8.3.158): to this line of the data, in the same column. As termwiz has it, a count. */
    | { readonly type: 'Cursor.LinePositionAbsolute'; readonly count: number }
    /** VPR (ECMA-48, 8.3.160): this many lines on in the data. */
    | { readonly type: 'Cursor.LinePositionForward'; readonly count: number }
    /** VPB (ECMA-48, 8.3.159): this many lines back in the data. */
    | { readonly type: 'Cursor.LinePositionBackward'; readonly count: number }
    /** CTC (ECMA-48, 8.3.17): sets or clears tab stops. */
    | { readonly type: 'Cursor.TabulationControl'; readonly value: CursorTabulationControl }
    /** TBC (ECMA-48, 8.3.154): clears tab stops. */
    | { readonly type: 'Cursor.TabulationClear'; readonly value: TabulationClear }
    /** DECSTBM (DEC VT100): the first and the last line that scroll. A bottom of 4294967295 is the page's last line. */
    | { readonly type: 'Cursor.SetTopAndBottomMargins'; readonly top: number; readonly bottom: number }
    /** DECSLRM (DEC VT420): the first and the last column that scroll. A right of 4294967295 is the page's last column. The margins from 1 to 4294967295 have no text of their own: theirs is that of `SaveCursor`. */
    | { readonly type: 'Cursor.SetLeftAndRightMargins'; readonly left: number; readonly right: number }
    /** SCOSC (SCO console, ANSI.SYS): keeps the cursor's position. */
    | { readonly type: 'Cursor.SaveCursor' }
    /** SCORC (SCO console, ANSI.SYS): goes back to the position that was kept. */
    | { readonly type: 'Cursor.RestoreCursor' }
    /** DSR 6 (ECMA-48, 8.3.35): asks where the cursor is, for an `ActivePositionReport`. */
    | { readonly type: 'Cursor.RequestActivePositionReport' }
    /** DECSCUSR (DEC VT520): how the cursor looks. */
    | { readonly type: 'Cursor.CursorStyle'; readonly value: CursorStyle }
    /** ICH (ECMA-48, 8.3.64): this many blanks at the cursor, and what stood there moves to the right. */
    | { readonly type: 'Edit.InsertCharacter'; readonly count: number }
    /** IL (ECMA-48, 8.3.67): this many blank lines at the cursor's line, which moves down. */
    | { readonly type: 'Edit.InsertLine'; readonly count: number }
    /** DCH (ECMA-48, 8.3.26): takes out this many characters from the cursor on, and what is behind them moves to the left. */
    | { readonly type: 'Edit.DeleteCharacter'; readonly count: number }
    /** DL (ECMA-48, 8.3.32): takes out this many lines from the cursor's line on, and what is below moves up. */
    | { readonly type: 'Edit.DeleteLine'; readonly count: number }
    /** ECH (ECMA-48, 8.3.38): blanks this many characters from the cursor on. */
    | { readonly type: 'Edit.EraseCharacter'; readonly count: number }
    /** SU (ECMA-48, 8.3.147): moves what is shown up by this many lines. */
    | { readonly type: 'Edit.ScrollUp'; readonly count: number }
    /** SD (ECMA-48, 8.3.113): moves what is shown down by this many lines. */
    | { readonly type: 'Edit.ScrollDown'; readonly count: number }
    /** REP (ECMA-48, 8.3.103): the character before this sequence, this many times more. */
    | { readonly type: 'Edit.Repeat'; readonly count: number }
    /** ED (ECMA-48, 8.3.39): blanks a part of the page. */
    | { readonly type: 'Edit.EraseInDisplay'; readonly value: EraseInDisplay }
    /** EL (ECMA-48, 8.3.41): blanks a part of the cursor's line. */
    | { readonly type: 'Edit.EraseInLine'; readonly value: EraseInLine }
    /** DECSET (xterm's name; SM in DEC VT510): the private mode is set. */
    | { readonly type: 'Mode.SetDecPrivateMode'; readonly mode: DecPrivateModeCode | number }
    /** DECRST (xterm's name; RM in DEC VT510): the private mode is reset. */
    | { readonly type: 'Mode.ResetDecPrivateMode'; readonly mode: DecPrivateModeCode | number }
    /** XTSAVE (xterm): whether the private mode is set is kept aside. */
    | { readonly type: 'Mode.SaveDecPrivateMode'; readonly mode: DecPrivateModeCode | number }
    /** XTRESTORE (xterm): the private mode becomes what was kept aside. */
    | { readonly type: 'Mode.RestoreDecPrivateMode'; readonly mode: DecPrivateModeCode | number }
    /** DECRQM (DEC VT300 and up): asks whether the private mode is set. */
    | { readonly type: 'Mode.QueryDecPrivateMode'; readonly mode: DecPrivateModeCode | number }
    /** SM (ECMA-48, 8.3.125): the mode is set. */
    | { readonly type: 'Mode.SetMode'; readonly mode: TerminalModeCode | number }
    /** RM (ECMA-48, 8.3.106): the mode is reset. */
    | { readonly type: 'Mode.ResetMode'; readonly mode: TerminalModeCode | number }
    /** DECRQM (DEC VT300 and up): asks whether the mode is set. */
    | { readonly type: 'Mode.QueryMode'; readonly mode: TerminalModeCode | number }
    /** XTMODKEYS (xterm): how modifiers are told with these keys. */
    | { readonly type: 'Mode.XtermKeyMode'; readonly resource: XtermKeyModifierResource; readonly value: Integer | undefined }
    /** `? 1 ; 2`: a VT100 with the advanced video option. */
    | { readonly type: 'Device.Vt100WithAdvancedVideoOption' }
    /** `? 1 ; 0`: a VT101 without options. */
    | { readonly type: 'Device.Vt101WithNoOptions' }
    /** `? 6`: a VT102. */
    | { readonly type: 'Device.Vt102' }
    /** `? 62` and extensions: the service class of the VT220. */
    | { readonly type: 'Device.Vt220'; readonly attributes: readonly (DeviceAttributeCodes | Token)[] }
    /** `? 63` and extensions: the service class of the VT320. */
    | { readonly type: 'Device.Vt320'; readonly attributes: readonly (DeviceAttributeCodes | Token)[] }
    /** `? 64` and extensions: the service class of the VT420. */
    | { readonly type: 'Device.Vt420'; readonly attributes: readonly (DeviceAttributeCodes | Token)[] }
    /** DECSTR (DEC VT220): modes, margins, attributes and character sets are as at first; what is shown stays. */
    | { readonly type: 'Device.SoftReset' }
    /** DA (ECMA-48, 8.3.24): what the terminal is. */
    | { readonly type: 'Device.RequestPrimaryDeviceAttributes' }
    /** DA2 (DEC VT220): its type, the version of its firmware, and its options. */
    | { readonly type: 'Device.RequestSecondaryDeviceAttributes' }
    /** DA3 (DEC VT420): its unit. */
    | { readonly type: 'Device.RequestTertiaryDeviceAttributes' }
    /** XTVERSION (xterm): its name and version. */
    | { readonly type: 'Device.RequestTerminalNameAndVersion' }
    /** DECREQTPARM (DEC VT100): asks for the parameters of the serial line. With 0 the terminal may also report unasked, with 1 only when asked. It is written as the report, DECREPTPARM, whose first number is this one and 2: no parity, 8 bits, 128 for sending and receiving (38400 baud in xterm; DEC's table ends at 120), 1 for a clock multiplier of 16, and no switches. So it isn't read back. */
    | { readonly type: 'Device.RequestTerminalParameters'; readonly number: Integer }
    /** DSR 5 (ECMA-48, 8.3.35): its state. */
    | { readonly type: 'Device.StatusReport' }
    /** XTSMGRAPHICS (xterm's ctlseqs): what it can draw, asked or answered. */
    | { readonly type: 'Device.XtSmGraphics'; readonly item: XtSmGraphicsItem | Integer; readonly action_or_status: Integer; readonly value: readonly Integer[] }
    /** In cells. */
    | { readonly type: 'MouseReport.SGR1006'; readonly x: number; readonly y: number; readonly button: MouseButton; readonly modifiers: number }
    /** In pixels. It is written as a report in cells is, and so is never read: which of the two modes the terminal is in stands in no report. */
    | { readonly type: 'MouseReport.SGR1016'; readonly x_pixels: number; readonly y_pixels: number; readonly button: MouseButton; readonly modifiers: number }
    /** 1: the window is opened again, if it was an icon. */
    | { readonly type: 'Window.DeIconify' }
    /** 2: it becomes an icon. */
    | { readonly type: 'Window.Iconify' }
    /** 3: it is moved; a place that a sequence leaves out is 0. */
    | { readonly type: 'Window.MoveWindow'; readonly x: Integer; readonly y: Integer }
    /** 4: the window gets this size, in pixels; 0 is that of the display (xterm). */
    | { readonly type: 'Window.ResizeWindowPixels'; readonly width: Integer | undefined; readonly height: Integer | undefined }
    /** 5: it is put in front of the others. */
    | { readonly type: 'Window.RaiseWindow' }
    /** 6, alone: it is put behind the others. */
    | { readonly type: 'Window.LowerWindow' }
    /** 6, with a size: the answer to `ReportCellSizePixels`. */
    | { readonly type: 'Window.ReportCellSizePixelsResponse'; readonly width: Integer | undefined; readonly height: Integer | undefined }
    /** 7: it is drawn again. */
    | { readonly type: 'Window.RefreshWindow' }
    /** 8: the text area gets this size, in cells; 0 is that of the display (xterm). */
    | { readonly type: 'Window.ResizeWindowCells'; readonly width: Integer | undefined; readonly height: Integer | undefined }
    /** 9 and 0: a window that was maximized gets its size back. */
    | { readonly type: 'Window.RestoreMaximizedWindow' }
    /** 9 and 1: it becomes as large as the screen. */
    | { readonly type: 'Window.MaximizeWindow' }
    /** 9 and 2: it becomes as high as the screen. */
    | { readonly type: 'Window.MaximizeWindowVertically' }
    /** 9 and 3: it becomes as wide as the screen. */
    | { readonly type: 'Window.MaximizeWindowHorizontally' }
    /** 10 and 0: full screen ends. */
    | { readonly type: 'Window.UndoFullScreenMode' }
    /** 10 and 1: full screen begins. */
    | { readonly type: 'Window.ChangeToFullScreenMode' }
    /** 10 and 2: full screen begins or ends. */
    | { readonly type: 'Window.ToggleFullScreen' }
    /** 11: asks whether the window is open or an icon; the answer is `CSI 1 t` or `CSI 2 t`, which are read back as `DeIconify` and `Iconify`. */
    | { readonly type: 'Window.ReportWindowState' }
    /** 13: asks for the window's place; the answer is `CSI 3 ; x ; y t`, in pixels, which is read back as `MoveWindow`. */
    | { readonly type: 'Window.ReportWindowPosition' }
    /** 13 and 2: asks for the place of the text area; the answer is the same. */
    | { readonly type: 'Window.ReportTextAreaPosition' }
    /** 14: asks for the size of the text area; the answer is `CSI 4 ; height ; width t`, in pixels, which is read back as `ResizeWindowPixels`. */
    | { readonly type: 'Window.ReportTextAreaSizePixels' }
    /** 14 and 2: asks for the size of the window; the answer is the same. */
    | { readonly type: 'Window.ReportWindowSizePixels' }
    /** 15: asks for the size of the screen; the answer is `CSI 5 ; height ; width t`, in pixels, which is read back as `RaiseWindow`. */
    | { readonly type: 'Window.ReportScreenSizePixels' }
    /** 16: asks for the size of a cell; the answer is `ReportCellSizePixelsResponse`. */
    | { readonly type: 'Window.ReportCellSizePixels' }
    /** 18: asks for the size of the text area; the answer is `CSI 8 ; lines ; columns t`, which is read back as `ResizeWindowCells`. */
    | { readonly type: 'Window.ReportTextAreaSizeCells' }
    /** 19: asks for the size of the screen in cells; the answer is `CSI 9 ; lines ; columns t`, which is unknown but where the lines are 0 to 3. */
    | { readonly type: 'Window.ReportScreenSizeCells' }
    /** 20: asks for the icon's label; the answer is `OSC L label ST`. */
    | { readonly type: 'Window.ReportIconLabel' }
    /** 21: asks for the window's title; the answer is `OSC l title ST`. */
    | { readonly type: 'Window.ReportWindowTitle' }
    /** 22 and 0: the icon's label and the window's title are put onto a stack. */
    | { readonly type: 'Window.PushIconAndWindowTitle' }
    /** 22 and 1: the icon's label is. */
    | { readonly type: 'Window.PushIconTitle' }
    /** 22 and 2: the window's title is. */
    | { readonly type: 'Window.PushWindowTitle' }
    /** 23 and 0: the icon's label and the window's title are taken off the stack. */
    | { readonly type: 'Window.PopIconAndWindowTitle' }
    /** 23 and 1: the icon's label is. */
    | { readonly type: 'Window.PopIconTitle' }
    /** 23 and 2: the window's title is. */
    | { readonly type: 'Window.PopWindowTitle' }
    /** DECRQCRA (DEC VT420): asks for the checksum of the characters in an area of a page, in cells; the answer is `DCS request_id ! ~ checksum ST`. A side that a sequence leaves out, or that is 0, is 1. */
    | { readonly type: 'Window.ChecksumRectangularArea'; readonly request_id: Integer; readonly page_number: Integer; readonly top: number; readonly left: number; readonly bottom: number; readonly right: number }
    /** The flags change in this way. */
    | { readonly type: 'Keyboard.SetKittyState'; readonly flags: number; readonly mode: KittyKeyboardMode }
    /** They are put onto a stack, and changed. */
    | { readonly type: 'Keyboard.PushKittyState'; readonly flags: number; readonly mode: KittyKeyboardMode }
    /** This many are taken off the stack. */
    | { readonly type: 'Keyboard.PopKittyState'; readonly count: number }
    /** Asks for the flags. */
    | { readonly type: 'Keyboard.QueryKittySupport' }
    /** The answer. */
    | { readonly type: 'Keyboard.ReportKittyState'; readonly flags: number }
    /** SCP (ECMA-48, 8.3.111): the direction of writing. */
    | { readonly type: 'SelectCharacterPath'; readonly path: CharacterPath; readonly effect: Integer };
