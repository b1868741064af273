//! What the tests of termwiz's csi.rs and esc.rs ask for, as rows: a list of numbers before a final character, its text, and its actions.

use csicodec::termwiz::csi::*;
use csicodec::termwiz::esc::{Esc, EscCode};

fn tokens(numbers: &[i64]) -> Vec<CsiParam> {
    let each = numbers.iter().map(|number| CsiParam::Integer(*number));
    each.flat_map(|number| [CsiParam::P(b';'), number])
        .skip(1)
        .collect()
}

fn unknown(control: char, numbers: &[i64]) -> CSI {
    CSI::Unspecified(Box::new(Unspecified {
        params: tokens(numbers),
        parameters_truncated: false,
        control,
    }))
}

/// The list has this text, and these actions.
fn row(control: char, list: &[CsiParam], text: &str, wanted: &[CSI]) {
    let actions: Vec<CSI> = CSI::parse(list, false, control).collect();
    assert_eq!(actions, wanted);
    let texts: String = actions.iter().map(CSI::to_string).collect();
    assert_eq!(texts, text);
}

#[test]
fn attributes() {
    let bold = CSI::Sgr(Sgr::Intensity(Intensity::Bold));
    let italic = CSI::Sgr(Sgr::Italic(true));
    let reset = CSI::Sgr(Sgr::Reset);
    let styles =
        |numbers: &[i64], text: &str, wanted: &[CSI]| row('m', &tokens(numbers), text, wanted);
    styles(&[], "\x1b[0m", &[reset.clone()]);
    styles(&[0], "\x1b[0m", &[reset]);
    styles(&[1], "\x1b[1m", &[bold.clone()]);
    styles(&[1, 3], "\x1b[1m\x1b[3m", &[bold.clone(), italic.clone()]);
    let lost = unknown('m', &[1231231]);
    styles(
        &[1, 3, 1231231],
        "\x1b[1m\x1b[3m\x1b[1231231m",
        &[bold.clone(), italic, lost],
    );
    let lost = unknown('m', &[1231231, 3]);
    styles(
        &[1, 1231231, 3],
        "\x1b[1m\x1b[1231231;3m",
        &[bold, lost.clone()],
    );
    styles(&[1231231, 3], "\x1b[1231231;3m", &[lost]);
    styles(&[5], "\x1b[5m", &[CSI::Sgr(Sgr::Blink(Blink::Slow))]);
    styles(&[6], "\x1b[6m", &[CSI::Sgr(Sgr::Blink(Blink::Rapid))]);
    styles(&[25], "\x1b[25m", &[CSI::Sgr(Sgr::Blink(Blink::None))]);
    styles(
        &[21],
        "\x1b[21m",
        &[CSI::Sgr(Sgr::Underline(Underline::Double))],
    );
    styles(
        &[4],
        "\x1b[4m",
        &[CSI::Sgr(Sgr::Underline(Underline::Single))],
    );
}

#[test]
fn colors() {
    let white = || ColorSpec::TrueColor((255, 255, 255).into());
    let styles =
        |numbers: &[i64], text: &str, wanted: &[CSI]| row('m', &tokens(numbers), text, wanted);
    for (code, painted) in [
        (38, Sgr::Foreground as fn(ColorSpec) -> Sgr),
        (58, Sgr::UnderlineColor),
    ] {
        styles(
            &[code, 2],
            &format!("\x1b[{code};2m"),
            &[unknown('m', &[code, 2])],
        );
        let text = format!("\x1b[{code}:2::255:255:255m");
        styles(
            &[code, 2, 255, 255, 255],
            &text,
            &[CSI::Sgr(painted(white()))],
        );
        let first = CSI::Sgr(painted(ColorSpec::PaletteIndex(220)));
        let text = format!("\x1b[{code}:5:220m\x1b[255;255m");
        styles(
            &[code, 5, 220, 255, 255],
            &text,
            &[first, unknown('m', &[255, 255])],
        );
    }
}

#[test]
fn lists_read_whole() {
    let whole = |control, numbers: &[i64], text: &str, wanted| {
        row(control, &tokens(numbers), text, &[wanted])
    };
    let erased = |part| CSI::Edit(Edit::EraseInDisplay(part));
    whole(
        'J',
        &[],
        "\x1b[J",
        erased(EraseInDisplay::EraseToEndOfDisplay),
    );
    whole(
        'J',
        &[0],
        "\x1b[J",
        erased(EraseInDisplay::EraseToEndOfDisplay),
    );
    whole(
        'J',
        &[1],
        "\x1b[1J",
        erased(EraseInDisplay::EraseToStartOfDisplay),
    );
    whole(
        't',
        &[6],
        "\x1b[6t",
        CSI::Window(Box::new(Window::LowerWindow)),
    );
    let size = Window::ReportCellSizePixelsResponse {
        width: Some(7),
        height: Some(15),
    };
    whole(
        't',
        &[6, 15, 7],
        "\x1b[6;15;7t",
        CSI::Window(Box::new(size)),
    );
    whole('C', &[], "\x1b[C", CSI::Cursor(Cursor::Right(1)));
    whole('C', &[0], "\x1b[C", CSI::Cursor(Cursor::Right(1)));
    whole('C', &[1], "\x1b[C", CSI::Cursor(Cursor::Right(1)));
    whole('C', &[4], "\x1b[4C", CSI::Cursor(Cursor::Right(4)));
    let place = Cursor::Position {
        line: OneBased::new(2),
        col: OneBased::new(1),
    };
    whole('H', &[2], "\x1b[2;1H", CSI::Cursor(place));
    for (number, code) in [
        (20, TerminalModeCode::AutomaticNewline),
        (8, TerminalModeCode::BiDirectionalSupportMode),
    ] {
        let mode = TerminalMode::Code(code);
        whole(
            'h',
            &[number],
            &format!("\x1b[{number}h"),
            CSI::Mode(Mode::SetMode(mode)),
        );
        whole(
            'l',
            &[number],
            &format!("\x1b[{number}l"),
            CSI::Mode(Mode::ResetMode(mode)),
        );
    }
}

#[test]
fn lists_with_markers() {
    let marked = |byte, numbers: &[i64]| [vec![CsiParam::P(byte)], tokens(numbers)].concat();
    let report = MouseReport::SGR1006 {
        x: 12,
        y: 300,
        button: MouseButton::Button1Press,
        modifiers: Modifiers::NONE,
    };
    row(
        'M',
        &marked(b'<', &[0, 12, 300]),
        "\x1b[<0;12;300M",
        &[CSI::Mouse(report)],
    );
    row(
        'p',
        &[CsiParam::P(b'!')],
        "\x1b[!p",
        &[CSI::Device(Box::new(Device::SoftReset))],
    );
    let codes = [
        DeviceAttributeCodes::Columns132,
        DeviceAttributeCodes::Printer,
        DeviceAttributeCodes::SixelGraphics,
        DeviceAttributeCodes::SelectiveErase,
        DeviceAttributeCodes::NationalReplacementCharsets,
        DeviceAttributeCodes::TechnicalCharacters,
        DeviceAttributeCodes::AnsiColor,
    ];
    let flags = DeviceAttributeFlags::new(codes.map(DeviceAttribute::Code).to_vec());
    let device = Device::DeviceAttributes(DeviceAttributes::Vt320(flags));
    let list = marked(b'?', &[63, 1, 2, 4, 6, 9, 15, 22]);
    row(
        'c',
        &list,
        "\x1b[?63;1;2;4;6;9;15;22c",
        &[CSI::Device(Box::new(device))],
    );
}

#[test]
fn escapes() {
    for (bytes, code) in [
        (b"(0", EscCode::DecLineDrawingG0),
        (b"(B", EscCode::AsciiCharacterSetG0),
        (b")0", EscCode::DecLineDrawingG1),
        (b")B", EscCode::AsciiCharacterSetG1),
        (b"#3", EscCode::DecDoubleHeightTopHalfLine),
        (b"#4", EscCode::DecDoubleHeightBottomHalfLine),
        (b"#5", EscCode::DecSingleWidthLine),
        (b"#6", EscCode::DecDoubleWidthLine),
    ] {
        let esc = Esc::parse(Some(bytes[0]), bytes[1]);
        assert_eq!(esc, Esc::Code(code));
        assert_eq!(esc.to_string().as_bytes(), [&[0x1b], &bytes[..]].concat());
    }
}

#[test]
fn values() {
    assert_eq!(
        OneBased::from_esc_param(&CsiParam::Integer(0)),
        Ok(OneBased::new(1))
    );
    assert_eq!(
        OneBased::from_esc_param_with_big_default(&CsiParam::Integer(0)),
        Ok(OneBased::new(u32::MAX))
    );
    assert_eq!(
        OneBased::from_optional_esc_param(None),
        Ok(OneBased::new(1))
    );
    assert_eq!(OneBased::from_esc_param(&CsiParam::P(b';')), Err(()));
    assert_eq!(
        OneBased::from_esc_param(&CsiParam::Integer(1 << 32)),
        Err(())
    );
    assert!(OneBased::new(2) > OneBased::new(1));
    assert_eq!(OneBased::from_zero_based(4).as_one_based(), 5);
    let mut held = Modifiers::SHIFT | Modifiers::CTRL;
    held |= Modifiers::ALT;
    held.remove(Modifiers::CTRL);
    assert_eq!(held & Modifiers::SHIFT, Modifiers::SHIFT);
    assert!(!held.contains(Modifiers::CTRL) && !held.is_empty());
    assert_eq!(CursorStyle::default(), CursorStyle::Default);
    assert_eq!(Sgr::Italic(true).to_string(), "3m");
    assert_eq!(Cursor::Up(2).to_string(), "2A");
    assert_eq!(
        XtermKeyModifierResource::parse(4),
        Some(XtermKeyModifierResource::OtherKeys)
    );
}

/// A list that no bytes spell, and what a caller says of one, stay.
#[test]
fn what_stays() {
    let list = [CsiParam::Integer(1), CsiParam::Integer(2)];
    let actions: Vec<CSI> = CSI::parse(&list, true, 'm').collect();
    let [CSI::Unspecified(lost)] = &actions[..] else {
        panic!("{actions:?}");
    };
    assert!(lost.parameters_truncated);
    assert_eq!(lost.params, list);
    let again = CSI::from(csicodec::CSI::from(CSI::Cursor(Cursor::SaveCursor)));
    assert_eq!(again, CSI::Cursor(Cursor::SaveCursor));
}

#[test]
fn numbers() {
    assert_eq!(KittyKeyboardMode::AssignAll as u16, 1);
    assert_eq!(XtermKeyModifierResource::OtherKeys as i64, 4);
    assert_eq!(XtSmGraphicsStatus::Failure as i64, 3);
    assert_eq!(DecPrivateModeCode::BracketedPaste as u16, 2004);
}
