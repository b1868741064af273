//! The commands of OSC. Written by tools/table.

/// Which command an OSC is. The numbers are those of `enum csicodec_osc_kind`.
#[derive(Clone, Copy, Debug, PartialEq, Eq, Hash)]
#[cfg_attr(feature = "serde", derive(serde::Serialize, serde::Deserialize))]
#[non_exhaustive]
pub enum OscKind {
    /// What no command reads; its text is all of it.
    Unknown = 0,
    /// `0`: The window's title and the icon's name.
    TitleBoth = 16,
    /// `1`: The icon's name.
    TitleIcon = 17,
    /// `2`: The window's title.
    TitleWindow = 18,
    /// `4`: The palette, from 0 to 255; xterm takes 256 and more for the special ones.
    ColorsIndexed = 32,
    /// `5`: Those of text that is bold (0), underlined (1), blinking (2), inverse (3) or italic (4).
    ColorsSpecial = 33,
    /// `104`: the same as at first.
    ResetColorsIndexed = 48,
    /// `105`: the same as at first.
    ResetColorsSpecial = 49,
    /// `10`: Text.
    ColorForeground = 64,
    /// `11`: The background.
    ColorBackground = 65,
    /// `12`: The text cursor.
    ColorCursor = 66,
    /// `13`: The pointer.
    ColorPointerForeground = 67,
    /// `14`: What is around the pointer.
    ColorPointerBackground = 68,
    /// `15`: Text in a window of a Tektronix terminal.
    ColorTektronixForeground = 69,
    /// `16`: Its background.
    ColorTektronixBackground = 70,
    /// `17`: The background of what is selected.
    ColorHighlightBackground = 71,
    /// `18`: The cursor of a Tektronix terminal.
    ColorTektronixCursor = 72,
    /// `19`: Text that is selected.
    ColorHighlightForeground = 73,
    /// `110`: the same as at first.
    ResetColorForeground = 80,
    /// `111`: the same as at first.
    ResetColorBackground = 81,
    /// `112`: the same as at first.
    ResetColorCursor = 82,
    /// `113`: the same as at first.
    ResetColorPointerForeground = 83,
    /// `114`: the same as at first.
    ResetColorPointerBackground = 84,
    /// `115`: the same as at first.
    ResetColorTektronixForeground = 85,
    /// `116`: the same as at first.
    ResetColorTektronixBackground = 86,
    /// `117`: the same as at first.
    ResetColorHighlightBackground = 87,
    /// `118`: the same as at first.
    ResetColorTektronixCursor = 88,
    /// `119`: the same as at first.
    ResetColorHighlightForeground = 89,
    /// `7`: As an address, `file://host/path` with `%` and two digits for other bytes.
    FolderAddress = 96,
    /// `9;9`: As a path, with or without quotation marks (ConEmu, Windows Terminal).
    FolderPath = 97,
    /// `133;A`: The prompt begins.
    PromptPrompt = 112,
    /// `133;B`: The prompt is over, and the command line begins.
    PromptCommand = 113,
    /// `133;C`: The output begins.
    PromptOutput = 114,
    /// `133;D`: The command is over; its first field may be the status.
    PromptEnd = 115,
    /// `133;I`: The command line begins, and ends with the line.
    PromptCommandLine = 116,
    /// `133;L`: A new line, unless the cursor is at the beginning of one.
    PromptFreshLine = 117,
    /// `133;N`: The last command is over, and a prompt begins.
    PromptNextPrompt = 118,
    /// `133;P`: A prompt begins, of the kind that its fields say.
    PromptPromptPart = 119,
    /// `633;A`: The prompt begins.
    EditorPrompt = 128,
    /// `633;B`: The prompt is over, and the command line begins.
    EditorCommand = 129,
    /// `633;C`: The output begins.
    EditorOutput = 130,
    /// `633;D`: The command is over; its first field may be the status.
    EditorEnd = 131,
    /// `633;E`: The command line itself, and a nonce.
    EditorCommandText = 132,
    /// `633;F`: A prompt for a further line begins.
    EditorContinuation = 133,
    /// `633;G`: It is over.
    EditorContinuationEnd = 134,
    /// `633;H`: A prompt at the right begins.
    EditorRightPrompt = 135,
    /// `633;I`: It is over.
    EditorRightPromptEnd = 136,
    /// `633;P`: A property, `name=value`.
    EditorProperty = 137,
    /// `9;4;0`: Not at all.
    ProgressOff = 144,
    /// `9;4;1`: With a percentage.
    ProgressShown = 145,
    /// `9;4;2`: As failed.
    ProgressFailed = 146,
    /// `9;4;3`: Without a percentage.
    ProgressBusy = 147,
    /// `9;4;4`: As paused.
    ProgressPaused = 148,
    /// `8`: What is printed from now on leads to the second text, an address; the first has parameters. Without an address the link ends.
    Link = 160,
    /// `52`: The clipboard, by the letters of the first text; the second is its content in base64, or `?`, a question for it.
    Clipboard = 161,
    /// `22`: The shape of the pointer.
    Pointer = 162,
    /// `99`: A notification of kitty: its metadata, and its text.
    KittyNotice = 163,
    /// `777;notify`: A notification: its title, and its text.
    TitledNotice = 164,
    /// `9`: A notification.
    Notice = 165,
}

impl OscKind {
    /// The command of a number.
    pub(crate) fn of(number: u32) -> OscKind {
        match number {
            16 => OscKind::TitleBoth,
            17 => OscKind::TitleIcon,
            18 => OscKind::TitleWindow,
            32 => OscKind::ColorsIndexed,
            33 => OscKind::ColorsSpecial,
            48 => OscKind::ResetColorsIndexed,
            49 => OscKind::ResetColorsSpecial,
            64 => OscKind::ColorForeground,
            65 => OscKind::ColorBackground,
            66 => OscKind::ColorCursor,
            67 => OscKind::ColorPointerForeground,
            68 => OscKind::ColorPointerBackground,
            69 => OscKind::ColorTektronixForeground,
            70 => OscKind::ColorTektronixBackground,
            71 => OscKind::ColorHighlightBackground,
            72 => OscKind::ColorTektronixCursor,
            73 => OscKind::ColorHighlightForeground,
            80 => OscKind::ResetColorForeground,
            81 => OscKind::ResetColorBackground,
            82 => OscKind::ResetColorCursor,
            83 => OscKind::ResetColorPointerForeground,
            84 => OscKind::ResetColorPointerBackground,
            85 => OscKind::ResetColorTektronixForeground,
            86 => OscKind::ResetColorTektronixBackground,
            87 => OscKind::ResetColorHighlightBackground,
            88 => OscKind::ResetColorTektronixCursor,
            89 => OscKind::ResetColorHighlightForeground,
            96 => OscKind::FolderAddress,
            97 => OscKind::FolderPath,
            112 => OscKind::PromptPrompt,
            113 => OscKind::PromptCommand,
            114 => OscKind::PromptOutput,
            115 => OscKind::PromptEnd,
            116 => OscKind::PromptCommandLine,
            117 => OscKind::PromptFreshLine,
            118 => OscKind::PromptNextPrompt,
            119 => OscKind::PromptPromptPart,
            128 => OscKind::EditorPrompt,
            129 => OscKind::EditorCommand,
            130 => OscKind::EditorOutput,
            131 => OscKind::EditorEnd,
            132 => OscKind::EditorCommandText,
            133 => OscKind::EditorContinuation,
            134 => OscKind::EditorContinuationEnd,
            135 => OscKind::EditorRightPrompt,
            136 => OscKind::EditorRightPromptEnd,
            137 => OscKind::EditorProperty,
            144 => OscKind::ProgressOff,
            145 => OscKind::ProgressShown,
            146 => OscKind::ProgressFailed,
            147 => OscKind::ProgressBusy,
            148 => OscKind::ProgressPaused,
            160 => OscKind::Link,
            161 => OscKind::Clipboard,
            162 => OscKind::Pointer,
            163 => OscKind::KittyNotice,
            164 => OscKind::TitledNotice,
            165 => OscKind::Notice,
            _ => OscKind::Unknown,
        }
    }

    /// Its name, such as `TitleWindow`.
    pub fn name(&self) -> &'static str {
        match self {
            OscKind::Unknown => "Unknown",
            OscKind::TitleBoth => "TitleBoth",
            OscKind::TitleIcon => "TitleIcon",
            OscKind::TitleWindow => "TitleWindow",
            OscKind::ColorsIndexed => "ColorsIndexed",
            OscKind::ColorsSpecial => "ColorsSpecial",
            OscKind::ResetColorsIndexed => "ResetColorsIndexed",
            OscKind::ResetColorsSpecial => "ResetColorsSpecial",
            OscKind::ColorForeground => "ColorForeground",
            OscKind::ColorBackground => "ColorBackground",
            OscKind::ColorCursor => "ColorCursor",
            OscKind::ColorPointerForeground => "ColorPointerForeground",
            OscKind::ColorPointerBackground => "ColorPointerBackground",
            OscKind::ColorTektronixForeground => "ColorTektronixForeground",
            OscKind::ColorTektronixBackground => "ColorTektronixBackground",
            OscKind::ColorHighlightBackground => "ColorHighlightBackground",
            OscKind::ColorTektronixCursor => "ColorTektronixCursor",
            OscKind::ColorHighlightForeground => "ColorHighlightForeground",
            OscKind::ResetColorForeground => "ResetColorForeground",
            OscKind::ResetColorBackground => "ResetColorBackground",
            OscKind::ResetColorCursor => "ResetColorCursor",
            OscKind::ResetColorPointerForeground => "ResetColorPointerForeground",
            OscKind::ResetColorPointerBackground => "ResetColorPointerBackground",
            OscKind::ResetColorTektronixForeground => "ResetColorTektronixForeground",
            OscKind::ResetColorTektronixBackground => "ResetColorTektronixBackground",
            OscKind::ResetColorHighlightBackground => "ResetColorHighlightBackground",
            OscKind::ResetColorTektronixCursor => "ResetColorTektronixCursor",
            OscKind::ResetColorHighlightForeground => "ResetColorHighlightForeground",
            OscKind::FolderAddress => "FolderAddress",
            OscKind::FolderPath => "FolderPath",
            OscKind::PromptPrompt => "PromptPrompt",
            OscKind::PromptCommand => "PromptCommand",
            OscKind::PromptOutput => "PromptOutput",
            OscKind::PromptEnd => "PromptEnd",
            OscKind::PromptCommandLine => "PromptCommandLine",
            OscKind::PromptFreshLine => "PromptFreshLine",
            OscKind::PromptNextPrompt => "PromptNextPrompt",
            OscKind::PromptPromptPart => "PromptPromptPart",
            OscKind::EditorPrompt => "EditorPrompt",
            OscKind::EditorCommand => "EditorCommand",
            OscKind::EditorOutput => "EditorOutput",
            OscKind::EditorEnd => "EditorEnd",
            OscKind::EditorCommandText => "EditorCommandText",
            OscKind::EditorContinuation => "EditorContinuation",
            OscKind::EditorContinuationEnd => "EditorContinuationEnd",
            OscKind::EditorRightPrompt => "EditorRightPrompt",
            OscKind::EditorRightPromptEnd => "EditorRightPromptEnd",
            OscKind::EditorProperty => "EditorProperty",
            OscKind::ProgressOff => "ProgressOff",
            OscKind::ProgressShown => "ProgressShown",
            OscKind::ProgressFailed => "ProgressFailed",
            OscKind::ProgressBusy => "ProgressBusy",
            OscKind::ProgressPaused => "ProgressPaused",
            OscKind::Link => "Link",
            OscKind::Clipboard => "Clipboard",
            OscKind::Pointer => "Pointer",
            OscKind::KittyNotice => "KittyNotice",
            OscKind::TitledNotice => "TitledNotice",
            OscKind::Notice => "Notice",
        }
    }
}
