//! Keys. Written by tools/table.

/// Which key it is. The same key of the keypad is another one.
#[derive(Clone, Copy, Debug, PartialEq, Eq, Hash)]
#[cfg_attr(feature = "serde", derive(serde::Serialize, serde::Deserialize))]
#[non_exhaustive]
pub enum KeyCode {
    /// The key of a character, as it types it without modifiers: `a`, also where shift makes it `A`. Where the encoding says only what is typed, it is that.
    Char(char),
    /// A function key, by its number.
    F(u8),
    /// The return key.
    Enter,
    /// Esc.
    Escape,
    /// Tab; with shift it goes back.
    Tab,
    /// The key that erases to the left.
    Backspace,
    /// Insert.
    Insert,
    /// Delete.
    Delete,
    /// The arrow to the left.
    Left,
    /// The arrow to the right.
    Right,
    /// The arrow up.
    Up,
    /// The arrow down.
    Down,
    /// Page up, DEC's Prev Screen.
    PageUp,
    /// Page down, DEC's Next Screen.
    PageDown,
    /// Home, DEC's Find.
    Home,
    /// End, DEC's Select.
    End,
    /// Caps lock.
    CapsLock,
    /// Scroll lock.
    ScrollLock,
    /// Num lock.
    NumLock,
    /// Print screen.
    PrintScreen,
    /// Pause.
    Pause,
    /// The key of the menu, Apps of Windows.
    Menu,
    /// 0 on the keypad.
    Keypad0,
    /// 1 on the keypad.
    Keypad1,
    /// 2 on the keypad.
    Keypad2,
    /// 3 on the keypad.
    Keypad3,
    /// 4 on the keypad.
    Keypad4,
    /// 5 on the keypad.
    Keypad5,
    /// 6 on the keypad.
    Keypad6,
    /// 7 on the keypad.
    Keypad7,
    /// 8 on the keypad.
    Keypad8,
    /// 9 on the keypad.
    Keypad9,
    /// The decimal point on the keypad.
    KeypadDecimal,
    /// `/` on the keypad.
    KeypadDivide,
    /// `*` on the keypad.
    KeypadMultiply,
    /// `-` on the keypad.
    KeypadSubtract,
    /// `+` on the keypad.
    KeypadAdd,
    /// Enter on the keypad.
    KeypadEnter,
    /// `=` on the keypad.
    KeypadEqual,
    /// The separator on the keypad.
    KeypadSeparator,
    /// The arrow to the left on the keypad.
    KeypadLeft,
    /// The arrow to the right on the keypad.
    KeypadRight,
    /// The arrow up on the keypad.
    KeypadUp,
    /// The arrow down on the keypad.
    KeypadDown,
    /// Page up on the keypad.
    KeypadPageUp,
    /// Page down on the keypad.
    KeypadPageDown,
    /// Home on the keypad.
    KeypadHome,
    /// End on the keypad.
    KeypadEnd,
    /// Insert on the keypad.
    KeypadInsert,
    /// Delete on the keypad.
    KeypadDelete,
    /// The middle key of the keypad, 5 with num lock.
    KeypadBegin,
    /// Play.
    MediaPlay,
    /// Pause what plays.
    MediaPause,
    /// Play or pause.
    MediaPlayPause,
    /// Play backwards.
    MediaReverse,
    /// Stop what plays.
    MediaStop,
    /// Fast forward.
    MediaFastForward,
    /// Rewind.
    MediaRewind,
    /// The next track.
    MediaNext,
    /// The previous track.
    MediaPrevious,
    /// Record.
    MediaRecord,
    /// Less loud.
    LowerVolume,
    /// Louder.
    RaiseVolume,
    /// Silent.
    MuteVolume,
    /// The shift key on the left.
    LeftShift,
    /// The ctrl key on the left.
    LeftCtrl,
    /// The alt key on the left.
    LeftAlt,
    /// The super key on the left.
    LeftSuper,
    /// The hyper key on the left.
    LeftHyper,
    /// The meta key on the left.
    LeftMeta,
    /// The shift key on the right.
    RightShift,
    /// The ctrl key on the right.
    RightCtrl,
    /// The alt key on the right.
    RightAlt,
    /// The super key on the right.
    RightSuper,
    /// The hyper key on the right.
    RightHyper,
    /// The meta key on the right.
    RightMeta,
    /// AltGr (ISO level 3 shift).
    IsoLevel3Shift,
    /// ISO level 5 shift.
    IsoLevel5Shift,
    /// Tab on the keypad.
    KeypadTab,
    /// The space bar on the keypad.
    KeypadSpace,
    /// No key: text that comes without one, as of an input method (kitty).
    Text,
}

impl KeyCode {
    /// The key of a number, and its value.
    pub(crate) fn of(number: u32, value: u32) -> KeyCode {
        match number {
            1 => KeyCode::F(value as u8),
            2 => KeyCode::Enter,
            3 => KeyCode::Escape,
            4 => KeyCode::Tab,
            5 => KeyCode::Backspace,
            6 => KeyCode::Insert,
            7 => KeyCode::Delete,
            8 => KeyCode::Left,
            9 => KeyCode::Right,
            10 => KeyCode::Up,
            11 => KeyCode::Down,
            12 => KeyCode::PageUp,
            13 => KeyCode::PageDown,
            14 => KeyCode::Home,
            15 => KeyCode::End,
            16 => KeyCode::CapsLock,
            17 => KeyCode::ScrollLock,
            18 => KeyCode::NumLock,
            19 => KeyCode::PrintScreen,
            20 => KeyCode::Pause,
            21 => KeyCode::Menu,
            22 => KeyCode::Keypad0,
            23 => KeyCode::Keypad1,
            24 => KeyCode::Keypad2,
            25 => KeyCode::Keypad3,
            26 => KeyCode::Keypad4,
            27 => KeyCode::Keypad5,
            28 => KeyCode::Keypad6,
            29 => KeyCode::Keypad7,
            30 => KeyCode::Keypad8,
            31 => KeyCode::Keypad9,
            32 => KeyCode::KeypadDecimal,
            33 => KeyCode::KeypadDivide,
            34 => KeyCode::KeypadMultiply,
            35 => KeyCode::KeypadSubtract,
            36 => KeyCode::KeypadAdd,
            37 => KeyCode::KeypadEnter,
            38 => KeyCode::KeypadEqual,
            39 => KeyCode::KeypadSeparator,
            40 => KeyCode::KeypadLeft,
            41 => KeyCode::KeypadRight,
            42 => KeyCode::KeypadUp,
            43 => KeyCode::KeypadDown,
            44 => KeyCode::KeypadPageUp,
            45 => KeyCode::KeypadPageDown,
            46 => KeyCode::KeypadHome,
            47 => KeyCode::KeypadEnd,
            48 => KeyCode::KeypadInsert,
            49 => KeyCode::KeypadDelete,
            50 => KeyCode::KeypadBegin,
            51 => KeyCode::MediaPlay,
            52 => KeyCode::MediaPause,
            53 => KeyCode::MediaPlayPause,
            54 => KeyCode::MediaReverse,
            55 => KeyCode::MediaStop,
            56 => KeyCode::MediaFastForward,
            57 => KeyCode::MediaRewind,
            58 => KeyCode::MediaNext,
            59 => KeyCode::MediaPrevious,
            60 => KeyCode::MediaRecord,
            61 => KeyCode::LowerVolume,
            62 => KeyCode::RaiseVolume,
            63 => KeyCode::MuteVolume,
            64 => KeyCode::LeftShift,
            65 => KeyCode::LeftCtrl,
            66 => KeyCode::LeftAlt,
            67 => KeyCode::LeftSuper,
            68 => KeyCode::LeftHyper,
            69 => KeyCode::LeftMeta,
            70 => KeyCode::RightShift,
            71 => KeyCode::RightCtrl,
            72 => KeyCode::RightAlt,
            73 => KeyCode::RightSuper,
            74 => KeyCode::RightHyper,
            75 => KeyCode::RightMeta,
            76 => KeyCode::IsoLevel3Shift,
            77 => KeyCode::IsoLevel5Shift,
            78 => KeyCode::KeypadTab,
            79 => KeyCode::KeypadSpace,
            80 => KeyCode::Text,
            _ => KeyCode::Char(char::from_u32(value).unwrap_or('\u{FFFD}')),
        }
    }
}
