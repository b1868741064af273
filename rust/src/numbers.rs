//! What stands as numbers and tokens in a struct, both ways.

use crate::raw::{Action, Param};
use crate::{
    ColorSpec, CsiParam, DeviceAttribute, DeviceAttributeCodes, DeviceAttributeFlags, Font,
    KittyKeyboardFlags, Modifiers, MouseButton, OneBased, SrgbaTuple, Unspecified, XtSmGraphics,
    XtSmGraphicsItem,
};
use alloc::vec::Vec;

/// What is in a struct that the library made: it makes no other.
#[inline(always)]
pub(crate) fn sure<T>(told: Option<T>) -> T {
    match told {
        Some(it) => it,
        None => never(),
    }
}

#[cold]
#[inline(never)]
fn never() -> ! {
    panic!("the library makes no such struct")
}

/// The tokens of a struct, among those that were put beside it.
pub(crate) fn tokens<'a>(given: &Action, params: &'a [Param]) -> &'a [Param] {
    match given.len {
        0 => &[],
        len => &params[given.place..][..len],
    }
}

pub(crate) fn row(kind: u32, first: i64, second: i64) -> Action {
    Action {
        kind,
        first,
        second,
        ..Action::default()
    }
}

pub(crate) fn sized_row(kind: u32, first: Option<i64>, second: Option<i64>) -> Action {
    Action {
        absent: u8::from(first.is_none()) + 2 * u8::from(second.is_none()),
        ..row(kind, first.unwrap_or(0), second.unwrap_or(0))
    }
}

pub(crate) fn first(given: &Action) -> Option<i64> {
    (given.absent & 1 == 0).then_some(given.first)
}

pub(crate) fn second(given: &Action) -> Option<i64> {
    (given.absent & 2 == 0).then_some(given.second)
}

pub(crate) fn report_row(
    kind: u32,
    x: u16,
    y: u16,
    button: MouseButton,
    modifiers: Modifiers,
) -> Action {
    Action {
        modifiers: modifiers.bits(),
        button: button.to_i64() as u8,
        ..row(kind, i64::from(x), i64::from(y))
    }
}

pub(crate) fn color_row(kind: u32, color: &ColorSpec) -> Action {
    match *color {
        ColorSpec::Default => row(kind, 0, 0),
        ColorSpec::PaletteIndex(index) => row(kind, 1, i64::from(index)),
        ColorSpec::TrueColor(SrgbaTuple(red, green, blue, alpha)) => Action {
            red,
            green,
            blue,
            alpha,
            ..row(kind, 2, 0)
        },
    }
}

/// A place in the palette.
#[inline(always)]
pub(crate) fn index(number: i64) -> u8 {
    sure(number.try_into().ok())
}

#[inline(always)]
pub(crate) fn rgba(given: &Action) -> SrgbaTuple {
    SrgbaTuple(given.red, given.green, given.blue, given.alpha)
}

/// An alternative font that isn't 1 to 9 has no text, and stands as a number that is refused.
pub(crate) fn font_number(font: &Font) -> i64 {
    match *font {
        Font::Default => 0,
        Font::Alternate(number @ 1..=9) => i64::from(number),
        Font::Alternate(_) => -1,
    }
}

#[inline(always)]
pub(crate) fn font(number: i64) -> Font {
    match number {
        0 => Font::Default,
        _ => Font::Alternate(sure(number.try_into().ok())),
    }
}

#[inline(always)]
pub(crate) fn count(number: i64) -> u32 {
    sure(number.try_into().ok())
}

#[inline(always)]
pub(crate) fn place(number: i64) -> OneBased {
    sure(OneBased::new(count(number)))
}

#[inline(always)]
pub(crate) fn flags(number: i64) -> KittyKeyboardFlags {
    KittyKeyboardFlags::from_bits_retain(sure(number.try_into().ok()))
}

fn param_of(token: &CsiParam) -> Param {
    match *token {
        CsiParam::Integer(value) => Param { kind: 0, value },
        CsiParam::P(byte) => Param {
            kind: 1,
            value: i64::from(byte),
        },
    }
}

fn token_of(param: &Param) -> CsiParam {
    match param.kind {
        0 => CsiParam::Integer(param.value),
        _ => CsiParam::P(param.value as u8),
    }
}

/// A row whose tokens go behind those that are there.
fn with_tokens(
    row: Action,
    tokens: impl Iterator<Item = Param>,
    params: &mut Vec<Param>,
) -> Action {
    let place = params.len();
    params.extend(tokens);
    let len = params.len() - place;
    Action { place, len, ..row }
}

pub(crate) fn unknown_row(unknown: &Unspecified, params: &mut Vec<Param>) -> Action {
    let row = Action {
        final_char: u32::from(unknown.control),
        ..Action::default()
    };
    with_tokens(row, unknown.params.iter().map(param_of), params)
}

pub(crate) fn unknown(given: &Action, params: &[Param]) -> Unspecified {
    Unspecified {
        params: params.iter().map(token_of).collect(),
        control: sure(char::from_u32(given.final_char)),
    }
}

pub(crate) fn extended_row(
    kind: u32,
    flags: &DeviceAttributeFlags,
    params: &mut Vec<Param>,
) -> Action {
    let tokens = flags.attributes.iter().map(|attribute| match attribute {
        DeviceAttribute::Code(code) => param_of(&CsiParam::Integer(code.to_i64())),
        DeviceAttribute::Unspecified(token) => param_of(token),
    });
    with_tokens(row(kind, 0, 0), tokens, params)
}

pub(crate) fn extensions(params: &[Param]) -> DeviceAttributeFlags {
    let attributes = params.iter().map(|param| {
        let token = token_of(param);
        match token {
            CsiParam::Integer(number) => DeviceAttributeCodes::from_i64(number)
                .map_or(DeviceAttribute::Unspecified(token), DeviceAttribute::Code),
            CsiParam::P(_) => DeviceAttribute::Unspecified(token),
        }
    });
    DeviceAttributeFlags {
        attributes: attributes.collect(),
    }
}

pub(crate) fn graphics_row(kind: u32, graphics: &XtSmGraphics, params: &mut Vec<Param>) -> Action {
    let item = match graphics.item {
        XtSmGraphicsItem::NumberOfColorRegisters => 1,
        XtSmGraphicsItem::SixelGraphicsGeometry => 2,
        XtSmGraphicsItem::RegisGraphicsGeometry => 3,
        XtSmGraphicsItem::Unspecified(number) => number,
    };
    let values = graphics.value.iter().map(|value| Param {
        kind: 0,
        value: *value,
    });
    with_tokens(row(kind, item, graphics.action_or_status), values, params)
}

pub(crate) fn graphics(given: &Action, params: &[Param]) -> XtSmGraphics {
    XtSmGraphics {
        item: match given.first {
            1 => XtSmGraphicsItem::NumberOfColorRegisters,
            2 => XtSmGraphicsItem::SixelGraphicsGeometry,
            3 => XtSmGraphicsItem::RegisGraphicsGeometry,
            number => XtSmGraphicsItem::Unspecified(number),
        },
        action_or_status: given.second,
        value: params.iter().map(|param| param.value).collect(),
    }
}
