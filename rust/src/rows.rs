//! The struct of each action, and the action of each struct. Written by tools/table.

use crate::numbers::{
    color_row, count, extended_row, extensions, first, flags, font, font_number, graphics,
    graphics_row, index, place, report_row, rgba, row, second, sized_row, sure, tokens, unknown,
    unknown_row,
};
use crate::raw::{Action, Param};
use crate::*;
use alloc::{boxed::Box, vec::Vec};

fn sgr_struct(sgr: &Sgr) -> Action {
    match sgr {
        Sgr::Reset => row(1, 0, 0),
        Sgr::Intensity(value) => row(2, value.to_i64(), 0),
        Sgr::Underline(value) => row(3, value.to_i64(), 0),
        Sgr::UnderlineColor(color) => color_row(4, color),
        Sgr::Blink(value) => row(5, value.to_i64(), 0),
        Sgr::Italic(value) => row(6, i64::from(*value), 0),
        Sgr::Inverse(value) => row(7, i64::from(*value), 0),
        Sgr::Invisible(value) => row(8, i64::from(*value), 0),
        Sgr::StrikeThrough(value) => row(9, i64::from(*value), 0),
        Sgr::Font(value) => row(10, font_number(value), 0),
        Sgr::Foreground(color) => color_row(11, color),
        Sgr::Background(color) => color_row(12, color),
        Sgr::Overline(value) => row(13, i64::from(*value), 0),
        Sgr::VerticalAlign(value) => row(14, value.to_i64(), 0),
    }
}

#[inline(always)]
fn sgr_of<T>(given: &Action, of: impl Fn(CSI) -> T) -> T {
    match given.kind {
        1 => of(CSI::Sgr(Sgr::Reset)),
        2 => of(CSI::Sgr(Sgr::Intensity(sure(Intensity::from_i64(
            given.first,
        ))))),
        3 => of(CSI::Sgr(Sgr::Underline(sure(Underline::from_i64(
            given.first,
        ))))),
        4 => match given.first {
            0 => of(CSI::Sgr(Sgr::UnderlineColor(ColorSpec::Default))),
            1 => of(CSI::Sgr(Sgr::UnderlineColor(ColorSpec::PaletteIndex(
                index(given.second),
            )))),
            2 => of(CSI::Sgr(Sgr::UnderlineColor(ColorSpec::TrueColor(rgba(
                given,
            ))))),
            _ => sure(None),
        },
        5 => of(CSI::Sgr(Sgr::Blink(sure(Blink::from_i64(given.first))))),
        6 => of(CSI::Sgr(Sgr::Italic(given.first != 0))),
        7 => of(CSI::Sgr(Sgr::Inverse(given.first != 0))),
        8 => of(CSI::Sgr(Sgr::Invisible(given.first != 0))),
        9 => of(CSI::Sgr(Sgr::StrikeThrough(given.first != 0))),
        10 => of(CSI::Sgr(Sgr::Font(font(given.first)))),
        11 => match given.first {
            0 => of(CSI::Sgr(Sgr::Foreground(ColorSpec::Default))),
            1 => of(CSI::Sgr(Sgr::Foreground(ColorSpec::PaletteIndex(index(
                given.second,
            ))))),
            2 => of(CSI::Sgr(Sgr::Foreground(ColorSpec::TrueColor(rgba(given))))),
            _ => sure(None),
        },
        12 => match given.first {
            0 => of(CSI::Sgr(Sgr::Background(ColorSpec::Default))),
            1 => of(CSI::Sgr(Sgr::Background(ColorSpec::PaletteIndex(index(
                given.second,
            ))))),
            2 => of(CSI::Sgr(Sgr::Background(ColorSpec::TrueColor(rgba(given))))),
            _ => sure(None),
        },
        13 => of(CSI::Sgr(Sgr::Overline(given.first != 0))),
        14 => of(CSI::Sgr(Sgr::VerticalAlign(sure(VerticalAlign::from_i64(
            given.first,
        ))))),
        _ => sure(None),
    }
}

fn cursor_struct(cursor: &Cursor) -> Action {
    match cursor {
        Cursor::Up(count) => row(101, i64::from(*count), 0),
        Cursor::Down(count) => row(102, i64::from(*count), 0),
        Cursor::Right(count) => row(103, i64::from(*count), 0),
        Cursor::Left(count) => row(104, i64::from(*count), 0),
        Cursor::NextLine(count) => row(105, i64::from(*count), 0),
        Cursor::PrecedingLine(count) => row(106, i64::from(*count), 0),
        Cursor::CharacterAbsolute(place) => row(107, i64::from(place.as_one_based()), 0),
        Cursor::CharacterPositionAbsolute(place) => row(108, i64::from(place.as_one_based()), 0),
        Cursor::Position { line, col } => row(
            109,
            i64::from(line.as_one_based()),
            i64::from(col.as_one_based()),
        ),
        Cursor::ActivePositionReport { line, col } => row(
            110,
            i64::from(line.as_one_based()),
            i64::from(col.as_one_based()),
        ),
        Cursor::CharacterAndLinePosition { line, col } => row(
            111,
            i64::from(line.as_one_based()),
            i64::from(col.as_one_based()),
        ),
        Cursor::ForwardTabulation(count) => row(112, i64::from(*count), 0),
        Cursor::BackwardTabulation(count) => row(113, i64::from(*count), 0),
        Cursor::LineTabulation(count) => row(114, i64::from(*count), 0),
        Cursor::CharacterPositionForward(count) => row(115, i64::from(*count), 0),
        Cursor::CharacterPositionBackward(count) => row(116, i64::from(*count), 0),
        Cursor::LinePositionAbsolute(count) => row(117, i64::from(*count), 0),
        Cursor::LinePositionForward(count) => row(118, i64::from(*count), 0),
        Cursor::LinePositionBackward(count) => row(119, i64::from(*count), 0),
        Cursor::TabulationControl(value) => row(120, value.to_i64(), 0),
        Cursor::TabulationClear(value) => row(121, value.to_i64(), 0),
        Cursor::SetTopAndBottomMargins { top, bottom } => row(
            122,
            i64::from(top.as_one_based()),
            i64::from(bottom.as_one_based()),
        ),
        Cursor::SetLeftAndRightMargins { left, right } => row(
            123,
            i64::from(left.as_one_based()),
            i64::from(right.as_one_based()),
        ),
        Cursor::SaveCursor => row(124, 0, 0),
        Cursor::RestoreCursor => row(125, 0, 0),
        Cursor::RequestActivePositionReport => row(126, 0, 0),
        Cursor::CursorStyle(value) => row(127, value.to_i64(), 0),
    }
}

#[inline(always)]
fn cursor_of<T>(given: &Action, of: impl Fn(CSI) -> T) -> T {
    match given.kind {
        101 => of(CSI::Cursor(Cursor::Up(count(given.first)))),
        102 => of(CSI::Cursor(Cursor::Down(count(given.first)))),
        103 => of(CSI::Cursor(Cursor::Right(count(given.first)))),
        104 => of(CSI::Cursor(Cursor::Left(count(given.first)))),
        105 => of(CSI::Cursor(Cursor::NextLine(count(given.first)))),
        106 => of(CSI::Cursor(Cursor::PrecedingLine(count(given.first)))),
        107 => of(CSI::Cursor(Cursor::CharacterAbsolute(place(given.first)))),
        108 => of(CSI::Cursor(Cursor::CharacterPositionAbsolute(place(
            given.first,
        )))),
        109 => of(CSI::Cursor(Cursor::Position {
            line: place(given.first),
            col: place(given.second),
        })),
        110 => of(CSI::Cursor(Cursor::ActivePositionReport {
            line: place(given.first),
            col: place(given.second),
        })),
        111 => of(CSI::Cursor(Cursor::CharacterAndLinePosition {
            line: place(given.first),
            col: place(given.second),
        })),
        112 => of(CSI::Cursor(Cursor::ForwardTabulation(count(given.first)))),
        113 => of(CSI::Cursor(Cursor::BackwardTabulation(count(given.first)))),
        114 => of(CSI::Cursor(Cursor::LineTabulation(count(given.first)))),
        115 => of(CSI::Cursor(Cursor::CharacterPositionForward(count(
            given.first,
        )))),
        116 => of(CSI::Cursor(Cursor::CharacterPositionBackward(count(
            given.first,
        )))),
        117 => of(CSI::Cursor(Cursor::LinePositionAbsolute(count(
            given.first,
        )))),
        118 => of(CSI::Cursor(Cursor::LinePositionForward(count(given.first)))),
        119 => of(CSI::Cursor(Cursor::LinePositionBackward(count(
            given.first,
        )))),
        120 => of(CSI::Cursor(Cursor::TabulationControl(sure(
            CursorTabulationControl::from_i64(given.first),
        )))),
        121 => of(CSI::Cursor(Cursor::TabulationClear(sure(
            TabulationClear::from_i64(given.first),
        )))),
        122 => of(CSI::Cursor(Cursor::SetTopAndBottomMargins {
            top: place(given.first),
            bottom: place(given.second),
        })),
        123 => of(CSI::Cursor(Cursor::SetLeftAndRightMargins {
            left: place(given.first),
            right: place(given.second),
        })),
        124 => of(CSI::Cursor(Cursor::SaveCursor)),
        125 => of(CSI::Cursor(Cursor::RestoreCursor)),
        126 => of(CSI::Cursor(Cursor::RequestActivePositionReport)),
        127 => of(CSI::Cursor(Cursor::CursorStyle(sure(
            CursorStyle::from_i64(given.first),
        )))),
        _ => sure(None),
    }
}

fn edit_struct(edit: &Edit) -> Action {
    match edit {
        Edit::InsertCharacter(count) => row(201, i64::from(*count), 0),
        Edit::InsertLine(count) => row(202, i64::from(*count), 0),
        Edit::DeleteCharacter(count) => row(203, i64::from(*count), 0),
        Edit::DeleteLine(count) => row(204, i64::from(*count), 0),
        Edit::EraseCharacter(count) => row(205, i64::from(*count), 0),
        Edit::ScrollUp(count) => row(206, i64::from(*count), 0),
        Edit::ScrollDown(count) => row(207, i64::from(*count), 0),
        Edit::Repeat(count) => row(208, i64::from(*count), 0),
        Edit::EraseInDisplay(value) => row(209, value.to_i64(), 0),
        Edit::EraseInLine(value) => row(210, value.to_i64(), 0),
    }
}

#[inline(always)]
fn edit_of<T>(given: &Action, of: impl Fn(CSI) -> T) -> T {
    match given.kind {
        201 => of(CSI::Edit(Edit::InsertCharacter(count(given.first)))),
        202 => of(CSI::Edit(Edit::InsertLine(count(given.first)))),
        203 => of(CSI::Edit(Edit::DeleteCharacter(count(given.first)))),
        204 => of(CSI::Edit(Edit::DeleteLine(count(given.first)))),
        205 => of(CSI::Edit(Edit::EraseCharacter(count(given.first)))),
        206 => of(CSI::Edit(Edit::ScrollUp(count(given.first)))),
        207 => of(CSI::Edit(Edit::ScrollDown(count(given.first)))),
        208 => of(CSI::Edit(Edit::Repeat(count(given.first)))),
        209 => of(CSI::Edit(Edit::EraseInDisplay(sure(
            EraseInDisplay::from_i64(given.first),
        )))),
        210 => of(CSI::Edit(Edit::EraseInLine(sure(EraseInLine::from_i64(
            given.first,
        ))))),
        _ => sure(None),
    }
}

fn mode_struct(mode: &Mode) -> Action {
    match mode {
        Mode::SetDecPrivateMode(value) => row(301, i64::from(value.number()), 0),
        Mode::ResetDecPrivateMode(value) => row(302, i64::from(value.number()), 0),
        Mode::SaveDecPrivateMode(value) => row(303, i64::from(value.number()), 0),
        Mode::RestoreDecPrivateMode(value) => row(304, i64::from(value.number()), 0),
        Mode::QueryDecPrivateMode(value) => row(305, i64::from(value.number()), 0),
        Mode::SetMode(value) => row(306, i64::from(value.number()), 0),
        Mode::ResetMode(value) => row(307, i64::from(value.number()), 0),
        Mode::QueryMode(value) => row(308, i64::from(value.number()), 0),
        Mode::XtermKeyMode { resource, value } => sized_row(309, Some(resource.to_i64()), *value),
    }
}

#[inline(always)]
fn mode_of<T>(given: &Action, of: impl Fn(CSI) -> T) -> T {
    match given.kind {
        301 => of(CSI::Mode(Mode::SetDecPrivateMode(sure(
            DecPrivateMode::at(given.first),
        )))),
        302 => of(CSI::Mode(Mode::ResetDecPrivateMode(sure(
            DecPrivateMode::at(given.first),
        )))),
        303 => of(CSI::Mode(Mode::SaveDecPrivateMode(sure(
            DecPrivateMode::at(given.first),
        )))),
        304 => of(CSI::Mode(Mode::RestoreDecPrivateMode(sure(
            DecPrivateMode::at(given.first),
        )))),
        305 => of(CSI::Mode(Mode::QueryDecPrivateMode(sure(
            DecPrivateMode::at(given.first),
        )))),
        306 => of(CSI::Mode(Mode::SetMode(sure(TerminalMode::at(
            given.first,
        ))))),
        307 => of(CSI::Mode(Mode::ResetMode(sure(TerminalMode::at(
            given.first,
        ))))),
        308 => of(CSI::Mode(Mode::QueryMode(sure(TerminalMode::at(
            given.first,
        ))))),
        309 => of(CSI::Mode(Mode::XtermKeyMode {
            resource: sure(XtermKeyModifierResource::from_i64(given.first)),
            value: second(given),
        })),
        _ => sure(None),
    }
}

fn device_struct(device: &Device, params: &mut Vec<Param>) -> Action {
    match device {
        Device::DeviceAttributes(DeviceAttributes::Vt100WithAdvancedVideoOption) => row(401, 0, 0),
        Device::DeviceAttributes(DeviceAttributes::Vt101WithNoOptions) => row(402, 0, 0),
        Device::DeviceAttributes(DeviceAttributes::Vt102) => row(403, 0, 0),
        Device::DeviceAttributes(DeviceAttributes::Vt220(flags)) => {
            extended_row(404, flags, params)
        }
        Device::DeviceAttributes(DeviceAttributes::Vt320(flags)) => {
            extended_row(405, flags, params)
        }
        Device::DeviceAttributes(DeviceAttributes::Vt420(flags)) => {
            extended_row(406, flags, params)
        }
        Device::SoftReset => row(407, 0, 0),
        Device::RequestPrimaryDeviceAttributes => row(408, 0, 0),
        Device::RequestSecondaryDeviceAttributes => row(409, 0, 0),
        Device::RequestTertiaryDeviceAttributes => row(410, 0, 0),
        Device::RequestTerminalNameAndVersion => row(411, 0, 0),
        Device::RequestTerminalParameters(number) => row(412, *number, 0),
        Device::StatusReport => row(413, 0, 0),
        Device::XtSmGraphics(graphics) => graphics_row(414, graphics, params),
    }
}

#[inline(always)]
fn device_of<T>(given: &Action, params: &[Param], of: impl Fn(CSI) -> T) -> T {
    match given.kind {
        401 => of(CSI::Device(Box::new(Device::DeviceAttributes(
            DeviceAttributes::Vt100WithAdvancedVideoOption,
        )))),
        402 => of(CSI::Device(Box::new(Device::DeviceAttributes(
            DeviceAttributes::Vt101WithNoOptions,
        )))),
        403 => of(CSI::Device(Box::new(Device::DeviceAttributes(
            DeviceAttributes::Vt102,
        )))),
        404 => of(CSI::Device(Box::new(Device::DeviceAttributes(
            DeviceAttributes::Vt220(extensions(tokens(given, params))),
        )))),
        405 => of(CSI::Device(Box::new(Device::DeviceAttributes(
            DeviceAttributes::Vt320(extensions(tokens(given, params))),
        )))),
        406 => of(CSI::Device(Box::new(Device::DeviceAttributes(
            DeviceAttributes::Vt420(extensions(tokens(given, params))),
        )))),
        407 => of(CSI::Device(Box::new(Device::SoftReset))),
        408 => of(CSI::Device(Box::new(
            Device::RequestPrimaryDeviceAttributes,
        ))),
        409 => of(CSI::Device(Box::new(
            Device::RequestSecondaryDeviceAttributes,
        ))),
        410 => of(CSI::Device(Box::new(
            Device::RequestTertiaryDeviceAttributes,
        ))),
        411 => of(CSI::Device(Box::new(Device::RequestTerminalNameAndVersion))),
        412 => of(CSI::Device(Box::new(Device::RequestTerminalParameters(
            given.first,
        )))),
        413 => of(CSI::Device(Box::new(Device::StatusReport))),
        414 => of(CSI::Device(Box::new(Device::XtSmGraphics(graphics(
            given,
            tokens(given, params),
        ))))),
        _ => sure(None),
    }
}

fn mouse_struct(mouse: &MouseReport) -> Action {
    match mouse {
        MouseReport::SGR1006 {
            x,
            y,
            button,
            modifiers,
        } => report_row(501, *x, *y, *button, *modifiers),
        MouseReport::SGR1016 {
            x_pixels,
            y_pixels,
            button,
            modifiers,
        } => report_row(502, *x_pixels, *y_pixels, *button, *modifiers),
    }
}

#[inline(always)]
fn mouse_of<T>(given: &Action, of: impl Fn(CSI) -> T) -> T {
    match given.kind {
        501 => of(CSI::Mouse(MouseReport::SGR1006 {
            x: sure(given.first.try_into().ok()),
            y: sure(given.second.try_into().ok()),
            button: sure(MouseButton::from_i64(i64::from(given.button))),
            modifiers: Modifiers::from_bits_retain(given.modifiers),
        })),
        502 => of(CSI::Mouse(MouseReport::SGR1016 {
            x_pixels: sure(given.first.try_into().ok()),
            y_pixels: sure(given.second.try_into().ok()),
            button: sure(MouseButton::from_i64(i64::from(given.button))),
            modifiers: Modifiers::from_bits_retain(given.modifiers),
        })),
        _ => sure(None),
    }
}

fn window_struct(window: &Window) -> Action {
    match window {
        Window::DeIconify => row(601, 0, 0),
        Window::Iconify => row(602, 0, 0),
        Window::MoveWindow { x, y } => row(603, *x, *y),
        Window::ResizeWindowPixels { width, height } => sized_row(604, *width, *height),
        Window::RaiseWindow => row(605, 0, 0),
        Window::LowerWindow => row(606, 0, 0),
        Window::ReportCellSizePixelsResponse { width, height } => sized_row(607, *width, *height),
        Window::RefreshWindow => row(608, 0, 0),
        Window::ResizeWindowCells { width, height } => sized_row(609, *width, *height),
        Window::RestoreMaximizedWindow => row(610, 0, 0),
        Window::MaximizeWindow => row(611, 0, 0),
        Window::MaximizeWindowVertically => row(612, 0, 0),
        Window::MaximizeWindowHorizontally => row(613, 0, 0),
        Window::UndoFullScreenMode => row(614, 0, 0),
        Window::ChangeToFullScreenMode => row(615, 0, 0),
        Window::ToggleFullScreen => row(616, 0, 0),
        Window::ReportWindowState => row(617, 0, 0),
        Window::ReportWindowPosition => row(618, 0, 0),
        Window::ReportTextAreaPosition => row(619, 0, 0),
        Window::ReportTextAreaSizePixels => row(620, 0, 0),
        Window::ReportWindowSizePixels => row(621, 0, 0),
        Window::ReportScreenSizePixels => row(622, 0, 0),
        Window::ReportCellSizePixels => row(623, 0, 0),
        Window::ReportTextAreaSizeCells => row(624, 0, 0),
        Window::ReportScreenSizeCells => row(625, 0, 0),
        Window::ReportIconLabel => row(626, 0, 0),
        Window::ReportWindowTitle => row(627, 0, 0),
        Window::PushIconAndWindowTitle => row(628, 0, 0),
        Window::PushIconTitle => row(629, 0, 0),
        Window::PushWindowTitle => row(630, 0, 0),
        Window::PopIconAndWindowTitle => row(631, 0, 0),
        Window::PopIconTitle => row(632, 0, 0),
        Window::PopWindowTitle => row(633, 0, 0),
        Window::ChecksumRectangularArea {
            request_id,
            page_number,
            top,
            left,
            bottom,
            right,
        } => Action {
            top: top.as_one_based(),
            left: left.as_one_based(),
            bottom: bottom.as_one_based(),
            right: right.as_one_based(),
            ..row(634, *request_id, *page_number)
        },
    }
}

#[inline(always)]
fn window_of<T>(given: &Action, of: impl Fn(CSI) -> T) -> T {
    match given.kind {
        601 => of(CSI::Window(Box::new(Window::DeIconify))),
        602 => of(CSI::Window(Box::new(Window::Iconify))),
        603 => of(CSI::Window(Box::new(Window::MoveWindow {
            x: given.first,
            y: given.second,
        }))),
        604 => of(CSI::Window(Box::new(Window::ResizeWindowPixels {
            width: first(given),
            height: second(given),
        }))),
        605 => of(CSI::Window(Box::new(Window::RaiseWindow))),
        606 => of(CSI::Window(Box::new(Window::LowerWindow))),
        607 => of(CSI::Window(Box::new(
            Window::ReportCellSizePixelsResponse {
                width: first(given),
                height: second(given),
            },
        ))),
        608 => of(CSI::Window(Box::new(Window::RefreshWindow))),
        609 => of(CSI::Window(Box::new(Window::ResizeWindowCells {
            width: first(given),
            height: second(given),
        }))),
        610 => of(CSI::Window(Box::new(Window::RestoreMaximizedWindow))),
        611 => of(CSI::Window(Box::new(Window::MaximizeWindow))),
        612 => of(CSI::Window(Box::new(Window::MaximizeWindowVertically))),
        613 => of(CSI::Window(Box::new(Window::MaximizeWindowHorizontally))),
        614 => of(CSI::Window(Box::new(Window::UndoFullScreenMode))),
        615 => of(CSI::Window(Box::new(Window::ChangeToFullScreenMode))),
        616 => of(CSI::Window(Box::new(Window::ToggleFullScreen))),
        617 => of(CSI::Window(Box::new(Window::ReportWindowState))),
        618 => of(CSI::Window(Box::new(Window::ReportWindowPosition))),
        619 => of(CSI::Window(Box::new(Window::ReportTextAreaPosition))),
        620 => of(CSI::Window(Box::new(Window::ReportTextAreaSizePixels))),
        621 => of(CSI::Window(Box::new(Window::ReportWindowSizePixels))),
        622 => of(CSI::Window(Box::new(Window::ReportScreenSizePixels))),
        623 => of(CSI::Window(Box::new(Window::ReportCellSizePixels))),
        624 => of(CSI::Window(Box::new(Window::ReportTextAreaSizeCells))),
        625 => of(CSI::Window(Box::new(Window::ReportScreenSizeCells))),
        626 => of(CSI::Window(Box::new(Window::ReportIconLabel))),
        627 => of(CSI::Window(Box::new(Window::ReportWindowTitle))),
        628 => of(CSI::Window(Box::new(Window::PushIconAndWindowTitle))),
        629 => of(CSI::Window(Box::new(Window::PushIconTitle))),
        630 => of(CSI::Window(Box::new(Window::PushWindowTitle))),
        631 => of(CSI::Window(Box::new(Window::PopIconAndWindowTitle))),
        632 => of(CSI::Window(Box::new(Window::PopIconTitle))),
        633 => of(CSI::Window(Box::new(Window::PopWindowTitle))),
        634 => of(CSI::Window(Box::new(Window::ChecksumRectangularArea {
            request_id: given.first,
            page_number: given.second,
            top: sure(OneBased::new(given.top)),
            left: sure(OneBased::new(given.left)),
            bottom: sure(OneBased::new(given.bottom)),
            right: sure(OneBased::new(given.right)),
        }))),
        _ => sure(None),
    }
}

fn keyboard_struct(keyboard: &Keyboard) -> Action {
    match keyboard {
        Keyboard::SetKittyState { flags, mode } => row(701, i64::from(flags.bits()), mode.to_i64()),
        Keyboard::PushKittyState { flags, mode } => {
            row(702, i64::from(flags.bits()), mode.to_i64())
        }
        Keyboard::PopKittyState(count) => row(703, i64::from(*count), 0),
        Keyboard::QueryKittySupport => row(704, 0, 0),
        Keyboard::ReportKittyState(flags) => row(705, i64::from(flags.bits()), 0),
    }
}

#[inline(always)]
fn keyboard_of<T>(given: &Action, of: impl Fn(CSI) -> T) -> T {
    match given.kind {
        701 => of(CSI::Keyboard(Keyboard::SetKittyState {
            flags: flags(given.first),
            mode: sure(KittyKeyboardMode::from_i64(given.second)),
        })),
        702 => of(CSI::Keyboard(Keyboard::PushKittyState {
            flags: flags(given.first),
            mode: sure(KittyKeyboardMode::from_i64(given.second)),
        })),
        703 => of(CSI::Keyboard(Keyboard::PopKittyState(count(given.first)))),
        704 => of(CSI::Keyboard(Keyboard::QueryKittySupport)),
        705 => of(CSI::Keyboard(Keyboard::ReportKittyState(flags(
            given.first,
        )))),
        _ => sure(None),
    }
}

/// The struct of an action; its tokens go behind those that are there.
pub(crate) fn struct_of(action: &CSI, params: &mut Vec<Param>) -> Action {
    match action {
        CSI::Sgr(sgr) => sgr_struct(sgr),
        CSI::Cursor(cursor) => cursor_struct(cursor),
        CSI::Edit(edit) => edit_struct(edit),
        CSI::Mode(mode) => mode_struct(mode),
        CSI::Mouse(mouse) => mouse_struct(mouse),
        CSI::Device(device) => device_struct(device, params),
        CSI::Window(window) => window_struct(window),
        CSI::Keyboard(keyboard) => keyboard_struct(keyboard),
        CSI::SelectCharacterPath(path, effect) => row(801, path.to_i64(), *effect),
        CSI::Unspecified(unknown) => unknown_row(unknown, params),
    }
}

/// The action of a struct that the library made, as `of` takes it, if its group is one that streams are full of.
#[inline(always)]
pub(crate) fn often_of<T>(given: &Action, of: impl Fn(CSI) -> T, other: impl Fn() -> T) -> T {
    match given.kind {
        1..=14 => sgr_of(given, of),
        101..=127 => cursor_of(given, of),
        201..=210 => edit_of(given, of),
        _ => other(),
    }
}

/// The action of a struct of another group, with its tokens among `params`. The library makes no other struct.
#[inline(never)]
pub(crate) fn other_of(given: &Action, params: &[Param]) -> CSI {
    let of = |action| action;
    match given.kind {
        0 => of(CSI::Unspecified(Box::new(unknown(
            given,
            tokens(given, params),
        )))),
        301..=309 => mode_of(given, of),
        401..=414 => device_of(given, params, of),
        501..=502 => mouse_of(given, of),
        601..=634 => window_of(given, of),
        701..=705 => keyboard_of(given, of),
        801 => of(CSI::SelectCharacterPath(
            sure(CharacterPath::from_i64(given.first)),
            given.second,
        )),
        _ => sure(None),
    }
}
